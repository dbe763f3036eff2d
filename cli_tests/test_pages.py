"""The pages on which the index holds its pairs at the end, as `shape` lists them and `picture` draws them."""

from program import ProgramTest, run
from test_traces import FIVE, PIECES, SMALL_PAGES, WORKERS

ONE_LEAF = "leaf % * 0 0\n"

# The pages that five letters lie on, where a page has four pairs.
FIVE_SPLIT = "leaf % c 2 0\nleaf c * 3 0\ninner 1 % * 2\n"


class Shapes(ProgramTest):
    def expect_shape(self, text, output, options="", status=0):
        self.expect(text, output, status=status, words=["shape", *options.split()])

    def test_an_index_is_one_leaf_at_first(self):
        self.expect_shape("", ONE_LEAF)
        self.expect_shape("go", ONE_LEAF)
        self.expect_shape("get a", ONE_LEAF, "-")

    def test_writes_stand_before_a_leaf(self):
        text = "insert a 1\ndelete a\ninsert a 2\ngo\nupdate a 3\ninsert a 4\ngo\ndelete a\nupsert a 5\nget a"
        self.expect_shape(text, "leaf % * 1 7\n")
        text = (
            "swapif a 1 2\nupsert a 1\nswapif a 2 3\nswapif a 1 2\nget a\ninsert b 5\n"
            "rscan % * 1\nrscan a b 9\nrscan % * 9"
        )
        self.expect_shape(text, "leaf % * 2 5\n")

    def test_a_leaf_takes_the_place_of_its_chain_where_that_is_asked_for(self):
        text = "upsert a 1\ngo\nupsert a 2\nget a"
        self.expect_shape(text, "leaf % * 1 2\n", "--workers 1 --chain 2")
        self.expect_shape(text, "leaf % * 1 1\n", "--workers 1 --chain 2 --beside")

    def test_no_write_lies_over_a_leaf_where_that_is_asked_for(self):
        self.expect_shape("upsert a 1\ngo\nupsert a 2\nget a\ninsert b 3", "leaf % * 2 0\n", "--eager")

    def test_a_sweep_leaves_the_writes_of_the_last_batch(self):
        text = "upsert a 1\nupsert a 2\nupsert a 3\ngo\nupsert a 4\nget a\ndelete a\ngo\nget a\ninsert a 7\nget a"
        self.expect_shape(text, "leaf % * 1 1\n", "--batch-max 3 --record-max 3")

    def test_five_pairs_split_a_leaf_of_four(self):
        for workers in WORKERS:
            for piece in PIECES:
                options = [*SMALL_PAGES, "--workers", workers, "--piece", piece]
                self.expect_shape(FIVE, FIVE_SPLIT, " ".join(options))

    def test_seventeen_pairs_make_three_levels(self):
        text = "".join(f"insert {letter} {number}\n" for number, letter in enumerate("abcdefghijklmnopq", 1))
        output = (
            "leaf % e 4 0\nleaf e i 4 0\nleaf i m 4 0\nleaf m o 2 0\nleaf o * 3 0\n"
            "inner 1 % i 2\ninner 1 i * 3\ninner 2 % * 2\n"
        )
        self.expect_shape(text, output, " ".join(SMALL_PAGES))

    def test_keys_of_bounds_are_spelled(self):
        text = "insert a 1\ninsert b 2\ninsert %ff 3\ninsert %ff00 4\ninsert %ff01 5\n"
        output = "leaf % %ff 2 0\nleaf %ff * 3 0\ninner 1 % * 2\n"
        self.expect_shape(text, output, " ".join(SMALL_PAGES))

    def test_a_faulty_line_leaves_no_pages(self):
        for job in ["shape", "picture"]:
            self.expect("upsert a 1\ngo\nbogus", "", "line 3: unknown word", 3, [job])

    def test_a_refused_batch_is_on_no_page(self):
        text = (
            "upsert a 1\nupsert b 2\nupsert c 3\ngo\n"
            "upsert d 9\ndelete b\ndelete c\nget a\ngo\n"
            "get a\nget b\nget c"
        )
        self.expect_shape(text, "leaf % * 3 3\n", "--batch-max 3", 4)


class Pictures(ProgramTest):
    def test_five_pairs_are_drawn_on_three_pages(self):
        ran = run(["picture", *SMALL_PAGES], FIVE)
        self.assertEqual((ran.stderr, ran.returncode), (b"", 0))
        text = ran.stdout.decode()
        self.assertTrue(text.startswith("<svg ") and text.endswith("</svg>\n"))
        for part, count in [
            ("<svg ", 1),
            ("</svg>", 1),
            ("<g ", 3),
            ("</g>", 3),
            ("<title>", 3),
            ("</title>", 3),
            (", from % to c, 2 pairs</title>", 1),
            (", from c to *, 3 pairs</title>", 1),
            (", from % to *, 2 children</title>", 1),
            ("2 pairs of 4</text>", 1),
            ("3 pairs of 4</text>", 1),
            ("2 children of 4</text>", 1),
        ]:
            with self.subTest(part=part):
                self.assertEqual(text.count(part), count)
        self.assertEqual(text.count("<"), text.count(">"))
        self.assertEqual(text.count("<text "), text.count("</text>"))
