"""Drawn traces are answered as by a plain ordered map, and the pages of each index are those of a tree."""

from plain_map import TraceMaker
from program import ProgramTest, run

EACH = ["get", "insert", "upsert", "update", "delete", "swapif", "scan", "rscan"]
GROWS = ["insert", "upsert", "get"]
SHRINKS = ["delete", "delete", "scan", "get"]

OPTIONS = [
    "",
    "--workers 1 --piece 1",
    "--workers 16 --piece 2 --chain 1",
    "--page-max 4 --page-min 2 --chain 1",
    "--page-max 4 --page-min 2 --chain 1 --workers 1",
    "--page-max 8 --page-min 0 --chain 3 --beside",
    "--page-max 8 --page-min 4 --chain 2 --beside --workers 2",
    "--page-max 5 --page-min 2 --eager",
    "--page-max 4 --page-min 2 --chain 2 --batch-max 300 --record-max 400",
    "--page-max 6 --page-min 3 --chain 1 --batch-max 300 --record-max 300 --beside",
]


def grown_and_shrunk(seed):
    """A trace whose map grows, is changed everywhere, loses most of its keys, and grows once more."""
    maker = TraceMaker(seed, 1 + seed % 4)
    for verbs, batches in [(GROWS, 6), (EACH, 12), (SHRINKS, 12), (EACH, 6)]:
        for _ in range(batches):
            maker.batch(maker.random.choice([1, 2, 30, 150]), verbs)
    return maker


class Drawn(ProgramTest):
    def test_traces_are_answered_as_by_a_plain_map(self):
        for seed in range(12):
            maker = grown_and_shrunk(seed)
            for options in OPTIONS:
                self.expect(maker.trace(), maker.texts(), words=["run", *options.split()])
                self.expect(maker.trace(), maker.map.dump(), words=["dump", *options.split()])

    def test_the_pages_are_those_of_a_tree(self):
        for seed in range(12):
            maker = grown_and_shrunk(seed)
            for options in OPTIONS:
                ran = run(["shape", *options.split()], maker.trace())
                with self.subTest(seed=seed, options=options):
                    self.assertEqual((ran.stderr, ran.returncode), (b"", 0))
                    self.expect_tree(ran.stdout.decode(), len(maker.map.pairs))

    def expect_tree(self, text, pairs):
        """The pages of each level share all keys out, and have as many children together as the level below has pages. One page is
        at the top, and the leaves have all pairs."""
        levels = {}
        for line in text.splitlines():
            kind, *words = line.split()
            level, low, high, count = (0, *words[:3]) if kind == "leaf" else (int(words[0]), *words[1:])
            levels.setdefault(level, []).append((low, high, int(count)))
        below = None
        for level in range(len(levels)):
            pages = levels[level]
            lows, highs = [page[0] for page in pages], [page[1] for page in pages]
            self.assertEqual((lows, highs[-1]), (["%", *highs[:-1]], "*"))
            self.assertEqual(sum(page[2] for page in pages), pairs if level == 0 else below)
            below = len(pages)
        self.assertEqual(below, 1)
