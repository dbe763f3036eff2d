"""The built program, run as a shell would, and what a test expects of it."""

import os
import subprocess
import unittest

ROOT = os.path.dirname(os.path.dirname(os.path.abspath(__file__)))
PROGRAM = f"{ROOT}/crates/bw_run/out/bw_run"
SECONDS = 60

# The first batch upserts and gets `a`, upserts it again and gets `b`. The second gets `a`.
TWO_BATCHES = "upsert a 1\nget a\nupsert a 2\nget b\ngo\nget a"
BOTH_TEXTS = "new\nis 1\nwas 1\nnone\nis 2\n"


def run(words, text="", folder=None, **streams):
    """Runs the program with these words and this standard input. What it wrote is None where `streams` name a place for it."""
    given = {"stdout": subprocess.PIPE, "stderr": subprocess.PIPE, **streams}
    return subprocess.run([PROGRAM, *words], input=text.encode(), cwd=folder, timeout=SECONDS, check=False, **given)


class ProgramTest(unittest.TestCase):
    def expect(self, text, output, message="", status=0, words=("run", "-"), folder=None):
        """Compares output, messages and status. A message is a line behind the name of the program."""
        ran = run(words, text, folder)
        errors = f"bw_run: {message}\n" if message else ""
        found = (ran.stdout.decode(), ran.stderr.decode(), ran.returncode)
        with self.subTest(words=" ".join(words)[:200], text=text[:200]):
            self.assertEqual(found, (output, errors, status))

    def expect_fault(self, text, message):
        """The first line of this fault is met before anything is written."""
        self.expect(text, "", message, 3)

    def expect_unwritten(self, words, text):
        """The same words where what is written finds no room."""
        with open("/dev/full", "wb") as full:
            ran = run(words, text, stdout=full)
        with self.subTest(words=words):
            self.assertEqual((ran.stderr, ran.returncode), (b"bw_run: cannot write\n", 1))
