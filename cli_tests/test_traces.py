"""Whole traces: what is written for them, by any number of workers."""

from program import BOTH_TEXTS, TWO_BATCHES, ProgramTest, run

KEY_64 = "k" * 64

# Each write, where the key is absent and where it is there.
WRITES = "insert a 1\ninsert a 2\nupdate a 3\ndelete a\nupdate a 4\nupsert a 5\nget a\n"
WRITES_TEXT = "inserted\nheld 1\nwas 1\nwas 3\nnone\nnew\nis 5\n"

# Operations, and their replies.
ROWS = [
    (TWO_BATCHES, BOTH_TEXTS),
    (WRITES, WRITES_TEXT),
    ("get a\ninsert a 1\nget a", "none\ninserted\nis 1\n"),
    ("scan % * 9\nupsert b 2\nscan % * 9", "scan 0\nnew\nscan 1\nb 2\n"),
    (
        "upsert a 1\nupsert b 2\nupsert c 3\ngo\n"
        "scan b b 9\nscan c a 9\nscan a * 0\nscan % * 99\nscan a c 9\nscan b * 1",
        "new\nnew\nnew\n"
        "scan 0\nscan 0\nscan 0\nscan 3\na 1\nb 2\nc 3\nscan 2\na 1\nb 2\nscan 1\nb 2\n",
    ),
    (
        "insert a 1\ndelete a\ninsert a 2\ngo\nupdate a 3\ninsert a 4\ngo\ndelete a\nupsert a 5\nget a",
        "inserted\nwas 1\ninserted\nwas 2\nheld 3\nwas 3\nnew\nis 5\n",
    ),
    (
        "upsert ab 1\nupsert b 2\nupsert %6100 3\nupsert % 4\nupsert a 5\nscan % * 9",
        "new\nnew\nnew\nnew\nnew\nscan 5\n% 4\na 5\n%6100 3\nab 1\nb 2\n",
    ),
    ("# load\n  upsert   a   007\n\ngo\nget %61\nget %4A", "new\nis 7\nnone\n"),
    (
        "swapif a 1 2\nupsert a 1\nswapif a 2 3\nswapif a 1 2\nget a\ninsert b 5\n"
        "rscan % * 1\nrscan a b 9\nrscan % * 9",
        "none\nnew\nheld 1\nwas 1\nis 2\ninserted\nscan 1\nb 5\nscan 1\na 2\nscan 2\nb 5\na 2\n",
    ),
]

# Five letters come, and go, and come with other values, and go once more.
FIVE = "insert a 1\ninsert b 2\ninsert c 3\ninsert d 4\ninsert e 5\n"
GONE = "go\ndelete a\ndelete b\ndelete c\ndelete d\ndelete e\n"
AGAIN = "go\ninsert a 6\ninsert b 7\ninsert c 8\ninsert d 9\ninsert e 10\n"
SCANNED = "go\nscan % * 9\ndelete a\ndelete b\ndelete c\ndelete d\ndelete e\n"
FIVE_TEXT = "inserted\n" * 5
GONE_TEXT = "was 1\nwas 2\nwas 3\nwas 4\nwas 5\n"
SCANNED_TEXT = "scan 5\na 6\nb 7\nc 8\nd 9\ne 10\nwas 6\nwas 7\nwas 8\nwas 9\nwas 10\n"

# A chain of one write, beside whose second one its leaf may be consolidated.
TWICE = "upsert a 1\ngo\nupsert a 2\nget a\n"
TWICE_TEXT = "new\nwas 1\nis 2\n"

WORKERS = ["1", "2", "16", "64"]
PIECES = ["1", "4096"]
SMALL_PAGES = ["--page-max", "4", "--page-min", "1", "--chain", "1"]


class Traces(ProgramTest):
    def test_an_empty_trace_writes_nothing(self):
        self.expect("", "")

    def test_a_batch_is_ended_by_go_and_by_the_end(self):
        for rest in ["", "\n", "\ngo"]:
            self.expect(TWO_BATCHES + rest, BOTH_TEXTS)

    def test_a_trace_may_be_cut_behind_a_whole_word(self):
        self.expect("upsert a 1\nget a", "new\nis 1\n")
        self.expect_fault("upsert a 1\nget", "line 2: wrong number of words")

    def test_numbers_have_64_bits(self):
        self.expect(
            "upsert a 18446744073709551615\nget a\ngo\nupsert a 18446744073709551616",
            "new\nis 18446744073709551615\n",
            "line 4: not a whole number up to 18446744073709551615",
            3,
        )

    def test_keys_have_64_bytes(self):
        too_long = "line 3: key longer than 64 bytes"
        self.expect(f"upsert {KEY_64} 2\ngo\nget {KEY_64}k", "new\n", too_long, 3)
        self.expect(f"upsert {KEY_64} 2\nget {KEY_64}", "new\nis 2\n")

    def test_the_empty_key_and_the_longest_are_scanned(self):
        self.expect(
            f"upsert % 1\nupsert {KEY_64} 2\nscan % * 9\ngo\nget {KEY_64}k",
            f"new\nnew\nscan 2\n% 1\n{KEY_64} 2\n",
            "line 5: key longer than 64 bytes",
            3,
        )

    def test_an_empty_batch_writes_nothing(self):
        self.expect("go\n", "")
        self.expect("go\ngo\nget a\ngo\ngo\nget a", "none\nnone\n")

    def test_a_faulty_line_stops_its_batch_alone(self):
        self.expect("upsert a 1\ngo\nget a\nbogus\nget a\ngo\n", "new\n", "line 4: unknown word", 3)

    def test_a_batch_has_65536_operations_at_most(self):
        self.expect("get a\n" * 65_536, "none\n" * 65_536)
        self.expect("get a\n" * 65_537 + "go\nget b\n", "refused long 65537 65536\nnone\n", status=4)

    def test_each_operation_has_its_replies(self):
        for text, output in ROWS:
            self.expect(text, output)

    def test_values_of_version_2_are_spelled_like_keys(self):
        self.expect(
            "bw 2\nupsert a %\nget a\nupsert a %00ff\nswapif a %00FF hello.txt\nget a\ngo\nupdate a " + "v" * 1025,
            "new\nis %\nwas %\nwas %00ff\nis hello.txt\n",
            "line 8: value longer than 1024 bytes",
            3,
        )

    def test_values_of_version_2_have_1024_bytes(self):
        longest = "v" * 1024
        self.expect(f"bw 2\nupsert a {longest}\nget a", f"new\nis {longest}\n")

    def test_the_first_line_alone_says_the_version(self):
        self.expect("bw 2", "")
        self.expect("  bw   2 \r\nupsert a 007\nget a", "new\nis 007\n")
        self.expect_fault("bw 2\nupsert a %4", "line 2: badly spelled value")
        for text in ["get a\nbw 2", "\nbw 2", "bw 2\nbw 2"]:
            self.expect_fault(text, "line 2: unknown word")
        for text in ["bw", "bw 1", "bw 02", "bw 2 2"]:
            self.expect_fault(text, "line 1: unknown word")
        self.expect_fault("upsert a x", "line 1: not a whole number up to 18446744073709551615")


class Workers(ProgramTest):
    def expect_by_each(self, text, output, job="run", options=()):
        for workers in WORKERS:
            for piece in PIECES:
                words = [job, *options, "--workers", workers, "--piece", piece]
                self.expect(text, output, words=words)

    def test_replies_do_not_depend_on_workers_and_pieces(self):
        for text, output in [*ROWS, (TWICE, TWICE_TEXT)]:
            self.expect_by_each(text, output)
            self.expect_by_each(text, output, options=["--chain", "2", "--beside"])
            self.expect_by_each(text, output, options=["--eager"])

    def test_five_letters_go_by_each_number_of_workers(self):
        text, output = FIVE + GONE, FIVE_TEXT + GONE_TEXT
        self.expect_by_each(text, output, options=SMALL_PAGES)
        self.expect_by_each(text, "contents 0\n", "dump", SMALL_PAGES)
        self.expect_by_each(text, "leaf % * 0 0\n", "shape", SMALL_PAGES)

    def test_five_letters_come_and_go_twice_by_each_number_of_workers(self):
        text, output = FIVE + GONE + AGAIN + SCANNED, FIVE_TEXT + GONE_TEXT + FIVE_TEXT + SCANNED_TEXT
        self.expect_by_each(text, output, options=SMALL_PAGES)
        self.expect_by_each(text, "contents 0\n", "dump", SMALL_PAGES)
        self.expect_by_each(text, "leaf % * 0 0\n", "shape", SMALL_PAGES)


# Three batches that `go` ends, and one that the end of the input does.
FOUR_BATCHES = FIVE + GONE + AGAIN + SCANNED
FOUR_TEXTS = FIVE_TEXT + GONE_TEXT + FIVE_TEXT + SCANNED_TEXT


def written_after(length):
    """How many bytes of the texts stand for the batches whose `go` is among so many bytes."""
    ends = [(58, 0), (106, 45), (165, 75)]
    return next((written for end, written in ends if length < end), 120)


class CutTraces(ProgramTest):
    def test_four_batches_have_their_texts(self):
        self.assertEqual((len(FOUR_BATCHES), len(FOUR_TEXTS)), (221, 179))
        for options in [
            [],
            ["--workers", "1", "--piece", "1"],
            ["--workers", "2", "--piece", "4096"],
            ["--workers", "16"],
            SMALL_PAGES,
        ]:
            self.expect(FOUR_BATCHES, FOUR_TEXTS, words=["run", *options])
        self.expect(FOUR_BATCHES, "contents 0\n", words=["dump"])

    def test_each_front_of_a_trace_is_run_or_faulty(self):
        """A trace that is cut off is run, or has a faulty last line. Batches before the last are answered as ever."""
        for length in range(len(FOUR_BATCHES)):
            self.expect_front(length)

    def expect_front(self, length):
        ran = run(["run"], FOUR_BATCHES[:length])
        with self.subTest(length=length):
            self.assertTrue(FOUR_TEXTS.startswith(ran.stdout.decode()))
            if ran.returncode == 3:
                self.assertEqual(len(ran.stdout), written_after(length))
            else:
                self.assertEqual((ran.returncode, ran.stderr), (0, b""))
                self.assertGreaterEqual(len(ran.stdout), written_after(length))
