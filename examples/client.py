#!/usr/bin/env python3
"""Sends batches to bw_run over a pipe, and reads the replies to each before it sends the next."""
import os
import subprocess
import sys

PROGRAM = os.path.join(os.path.dirname(os.path.abspath(__file__)), "../crates/bw_run/out/bw_run")


class Refused(Exception):
    """The index did not run the batch."""


class Index:
    def __init__(self, *options):
        self.program = subprocess.Popen(
            [PROGRAM, "run", *options], stdin=subprocess.PIPE, stdout=subprocess.PIPE, text=True
        )

    def run(self, *ops):
        """One reply for each operation: a line, and for a scan the lines of its pairs too."""
        self.program.stdin.write("".join(op + "\n" for op in ops) + "go\n")
        self.program.stdin.flush()
        replies = []
        for op in ops:
            line = self.program.stdout.readline().rstrip("\n")
            if not line or line.startswith("refused "):
                raise Refused(line)
            pairs = int(line.split()[1]) if "scan" in op.split()[0] else 0
            replies.append([line] + [self.program.stdout.readline().rstrip("\n") for _ in range(pairs)])
        return replies

    def close(self):
        """Ends the input, and answers the exit status."""
        self.program.stdin.close()
        return self.program.wait()


def main():
    index = Index()
    index.run("upsert apple 3", "upsert pear 5")
    [[stock], _] = index.run("get apple", "get pear")
    # The next batch depends on a reply to this one.
    sold = int(stock.split()[1]) - 1
    index.run(f"swapif apple 3 {sold}")
    [scan] = index.run("scan % * 10")
    print("\n".join(scan))
    return index.close()


if __name__ == "__main__":
    sys.exit(main())
