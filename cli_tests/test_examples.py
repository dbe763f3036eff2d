"""The examples and the programs of the documentation do what stands beside them."""

import glob
import os
import re
import subprocess
import unittest

from program import ROOT, SECONDS, ProgramTest


def text_of(path):
    with open(f"{ROOT}/{path}", encoding="utf-8") as file:
        return file.read()


def output_of(*words):
    """What a command prints that is run from the top of the repository."""
    return subprocess.run(words, cwd=ROOT, stdout=subprocess.PIPE, timeout=SECONDS, check=True).stdout.decode()


class Examples(ProgramTest):
    def test_each_trace_prints_what_stands_beside_it(self):
        traces = glob.glob(f"{ROOT}/examples/*.trace")
        self.assertGreaterEqual(len(traces), 6)
        for trace in traces:
            output = text_of(os.path.relpath(trace.replace(".trace", ".out"), ROOT))
            self.expect("bogus", output, words=["run", trace])

    def test_the_program_is_run_on_the_first_trace(self):
        self.assertEqual(text_of("examples/first.trace"), text_of("crates/bw_run/stdin"))
        self.assertEqual(text_of("examples/first.out"), text_of("crates/bw_run/stdout"))

    def test_a_trace_that_is_not_there_is_told_before_any_proof(self):
        ran = subprocess.run(["./run", "bogus.trace"], cwd=ROOT, capture_output=True, timeout=SECONDS, check=False)
        self.assertEqual((ran.stdout, ran.stderr, ran.returncode), (b"", b"run: cannot read bogus.trace\n", 1))

    def test_the_client_is_answered(self):
        self.assertEqual(output_of("examples/client.py"), "scan 2\napple 2\npear 5\n")


class Readme(unittest.TestCase):
    def setUp(self):
        self.readme = text_of("README.md")

    def test_the_program_that_embeds_the_index_is_the_example(self):
        [block] = re.findall(r"```rust\n(.*?)```", self.readme, re.DOTALL)
        program = text_of("crates/bw_example/src/main.rt")
        self.assertEqual(block, program[program.index("#![tactic") :])

    def test_the_line_for_a_shell_prints_its_replies(self):
        [line] = re.findall(r"^    (printf .*/bw_run run -)$", self.readme, re.MULTILINE)
        self.assertEqual(output_of("sh", "-c", line), "new\nis 1\nscan 1\na 1\n")
