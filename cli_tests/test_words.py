"""Words of a command line: jobs, options and their ranges, files, messages and statuses."""

import os
import tempfile

from program import BOTH_TEXTS, TWO_BATCHES, ProgramTest, run

HISTORY = "insert a 1\ndelete a\ninsert a 2\ngo\nupdate a 3\ninsert a 4\ngo\ndelete a\nupsert a 5\nget a"

WORKERS = "workers must be from 1 to 64"
PIECE = "piece must be from 1 to 4096"
CHAIN = "chain must be from 1 to 1024"
PAGE_MAX = "page-max must be from 4 to 4096"
PAGE_MIN = "page-min must be from 0 to half of page-max"
BATCH_MAX = "batch-max must be from 1 to 65536"
RECORD_MAX = "record-max must be from batch-max to 16777216"


class Jobs(ProgramTest):
    def test_standard_input_is_the_trace(self):
        for words in [
            "run",
            "run -",
            "run --workers 1 --piece 4096",
            "run --workers=64 - --page-max=4 --page-min=2 --chain=1",
        ]:
            self.expect(TWO_BATCHES, BOTH_TEXTS, words=words.split())

    def test_a_dump_prints_what_is_held_at_the_end(self):
        for text, output in [
            ("", "contents 0\n"),
            ("go\n", "contents 0\n"),
            (HISTORY, "contents 1\na 5\n"),
            (
                "upsert ab 1\nupsert b 2\nupsert %6100 3\nupsert % 4\nupsert a 5",
                "contents 5\n% 4\na 5\n%6100 3\nab 1\nb 2\n",
            ),
        ]:
            self.expect(text, output, words=["dump"])

    def test_a_dump_that_ends_by_a_fault_prints_nothing(self):
        self.expect("upsert a 1\ngo\nbogus", "", "line 3: unknown word", 3, ["dump"])

    def test_batches_above_batch_max_are_refused(self):
        text = (
            "upsert a 1\nupsert b 2\nupsert c 3\ngo\n"
            "upsert a 9\ndelete b\ndelete c\nget a\ngo\n"
            "get a\nget b\nget c"
        )
        output = "new\nnew\nnew\nrefused long 4 3\nis 1\nis 2\nis 3\n"
        self.expect(text, output, status=4, words=["run", "--batch-max", "3"])
        self.expect(text, "contents 3\na 1\nb 2\nc 3\n", status=4, words=["dump", "--batch-max", "3"])

    def test_batches_of_three_keep_to_both_bounds(self):
        self.expect(
            "upsert a 1\nupsert a 2\nupsert a 3\ngo\nupsert a 4\nget a\ndelete a\ngo\nget a\ninsert a 7\nget a",
            "new\nwas 1\nwas 2\nwas 3\nis 4\nwas 4\nnone\ninserted\nis 7\n",
            words="run --batch-max 3 --record-max 3".split(),
        )

    def test_what_is_not_taken_cannot_be_written(self):
        for job in ["run", "dump", "shape", "picture"]:
            self.expect_unwritten([job], TWO_BATCHES)
        self.expect_unwritten(["--help"], "")

    def test_a_message_that_is_not_taken_leaves_the_status(self):
        for words, text, status in [
            ("run -", "bogus", 3),
            ("run -", "upsert a 1\ngo\nget", 3),
            ("run --workers 0", "get a", 2),
            ("bogus", "get a", 2),
            ("run --stats", "get a", 0),
        ]:
            with open("/dev/full", "wb") as full, self.subTest(words=words, text=text):
                self.assertEqual(run(words.split(), text, stderr=full).returncode, status)


class OtherWords(ProgramTest):
    def test_other_words_are_no_command(self):
        for words in [
            [],
            ["shapes"],
            ["-"],
            ["run", "-", "-"],
            ["run", "--workers"],
            ["run", "--workers", "x"],
            ["run", "--workers", "-1"],
            ["run", "--bogus"],
            ["run", "--piece", "18446744073709551616"],
        ]:
            ran = run(words, TWO_BATCHES)
            with self.subTest(words=words):
                self.assertEqual((ran.stdout, ran.stderr[:7], ran.returncode), (b"", b"error: ", 2))

    def test_what_is_wrong_with_words_is_told(self):
        for words, told in [
            (
                ["bogus"],
                "error: invalid value 'bogus' for '<JOB>'\n"
                "  [possible values: run, dump, shape, picture]\n"
                "\n"
                "For more information, try '--help'.\n",
            ),
            (
                [],
                "error: the following required arguments were not provided:\n"
                "  <JOB>\n"
                "\n"
                "Usage: bw_run run [OPTIONS] [FILE]\n"
                "       bw_run dump [OPTIONS] [FILE]\n"
                "       bw_run shape [OPTIONS] [FILE]\n"
                "       bw_run picture [OPTIONS] [FILE]\n"
                "\n"
                "For more information, try '--help'.\n",
            ),
            (
                ["run", "--workers", "x"],
                "error: invalid value 'x' for '--workers <N>': invalid digit found in string\n"
                "\n"
                "For more information, try '--help'.\n",
            ),
        ]:
            ran = run(words, TWO_BATCHES)
            with self.subTest(words=words):
                self.assertEqual((ran.stdout, ran.stderr.decode(), ran.returncode), (b"", told, 2))

    def test_a_word_that_is_not_utf_8_is_told(self):
        words = [b"run", b"\xe9.trace"]
        ran = run(words)
        told = b"bw_run: a word of the command line is not UTF-8\n"
        self.assertEqual((ran.stdout, ran.stderr, ran.returncode), (b"", told, 2))


class Ranges(ProgramTest):
    def expect_message(self, words, message):
        self.expect("bogus", "", message, 2, words.split())

    def test_each_option_has_its_range(self):
        self.expect_message("run --workers 0", WORKERS)
        self.expect_message("run --workers 65", WORKERS)
        self.expect_message("run --workers 18446744073709551615", WORKERS)
        self.expect_message("run --piece 0", PIECE)
        self.expect_message("dump --piece 4097", PIECE)
        self.expect_message("run --chain 0", CHAIN)
        self.expect_message("run --chain 1025", CHAIN)
        self.expect_message("run --page-max 3", PAGE_MAX)
        self.expect_message("run --page-max 4097", PAGE_MAX)
        self.expect_message("run --page-max 4 --page-min 3", PAGE_MIN)
        self.expect_message("run --page-min 33", PAGE_MIN)
        self.expect_message("run --page-max 31", PAGE_MIN)
        self.expect_message("run --batch-max 0", BATCH_MAX)
        self.expect_message("run --batch-max 65537", BATCH_MAX)
        self.expect_message("run --record-max 65535", RECORD_MAX)
        self.expect_message("run --record-max 16777217", RECORD_MAX)

    def test_the_ends_of_ranges_are_taken(self):
        least = "--workers 1 --piece 1 --chain 1 --page-max 4 --page-min 0 --batch-max 1 --record-max 1"
        most = (
            "--workers 64 --piece 4096 --chain 1024 --page-max 4096 --page-min 2048"
            " --batch-max 65536 --record-max 16777216"
        )
        for options in [least, most]:
            self.expect("get a", "none\n", words=["run", *options.split()])

    def test_the_first_faulty_option_is_told(self):
        """Each row has one faulty option less in front."""
        all_faulty = (
            "--record-max 0 --batch-max 0 --page-min 9999 --page-max 0 --chain 0 --piece 0 --workers 0 run"
        )
        self.expect_message(all_faulty, WORKERS)
        self.expect_message("run --chain=0 --piece=0", PIECE)
        self.expect_message("run --page-max=0 --chain=0", CHAIN)
        self.expect_message("run --page-min=9999 --page-max=0", PAGE_MAX)
        self.expect_message("run --batch-max=0 --page-min=9999", PAGE_MIN)
        self.expect_message("run --record-max=0 --batch-max=0", BATCH_MAX)


class Files(ProgramTest):
    def setUp(self):
        self.folder = self.enterContext(tempfile.TemporaryDirectory())

    def expect_file(self, text, output, message="", status=0, words=("run", "a.trace")):
        """The file has the text, and standard input another one, which isn't read."""
        with open(f"{self.folder}/a.trace", "w", encoding="utf-8") as file:
            file.write(text)
        self.expect("bogus", output, message, status, words, self.folder)

    def test_a_file_is_read_in_place_of_the_input(self):
        self.expect_file(TWO_BATCHES, BOTH_TEXTS)
        self.expect_file(TWO_BATCHES, "contents 1\na 2\n", words=["dump", "a.trace"])
        self.expect_file("", "")
        two = "upsert a 1\nupsert b 2"
        self.expect_file(two, "refused long 2 1\n", status=4, words="run a.trace --batch-max 1".split())
        self.expect_file("upsert a 1\ngo\nget", "new\n", "line 3: wrong number of words", 3)

    def test_a_long_file_is_read_to_its_end(self):
        self.expect_file("get a\n" * 20_000 + "bogus", "", "line 20001: unknown word", 3)

    def test_a_faulty_option_is_told_before_its_file_is_opened(self):
        for file in ["a.trace", "no_such.trace"]:
            self.expect_file("get a", "", WORKERS, 2, ["run", "--workers", "0", file])

    def test_a_file_that_is_none_cannot_be_read(self):
        for file in ["no_such.trace", "no/such/file", "", "."]:
            for job in ["run", "dump"]:
                self.expect("get a", "", "cannot read", 1, [job, file], self.folder)


class Outputs(ProgramTest):
    def test_help_and_version_are_outputs(self):
        path = os.path.join(os.path.dirname(__file__), "help.txt")
        with open(path, encoding="utf-8") as file:
            help_text = file.read()
        for words in ["--version", "-V"]:
            self.expect("bogus", "bw_run 0.1.0\n", words=[words])
        for words in ["--help", "-h", "run --help", "--workers 0 --help"]:
            self.expect("bogus", help_text, words=words.split())


class Stats(ProgramTest):
    """`--stats` tells how much was run, and leaves all else as it is. How fast is the machine's."""

    def expect_stats(self, words, text, output, counts, status=0):
        ran = run(words.split(), text)
        with self.subTest(words=words, text=text):
            self.assertEqual((ran.stdout.decode(), ran.returncode), (output, status))
            rate = r", \d+\.\d{3} s, \d+ operations/s\n\Z"
            self.assertRegex(ran.stderr.decode(), rf"\Abw_run: {counts}{rate}")

    def test_batches_operations_and_refusals_are_told(self):
        counts = "2 batches, 5 operations, 0 refused"
        self.expect_stats("run --stats", TWO_BATCHES, BOTH_TEXTS, counts)
        self.expect_stats("--stats dump", TWO_BATCHES, "contents 1\na 2\n", counts)
        self.expect_stats("shape - --stats", TWO_BATCHES, "leaf % * 1 2\n", counts)
        refused = "2 batches, 5 operations, 1 refused"
        self.expect_stats("run --stats --batch-max 3", TWO_BATCHES, "refused long 4 3\nnone\n", refused, 4)
        self.expect_stats("dump --stats --batch-max=3", TWO_BATCHES, "contents 0\n", refused, 4)

    def test_lines_that_are_no_operation_are_not_counted(self):
        every_line = (
            "bw 2\ninsert a 1\nupsert a 2\r\n\n   \n  # get a\n#get a\n#\n\r\n  update a 3\ngo\r\n"
            "delete a\nswapif a 1 2\nget a\n   go   \r\nscan % * 9\nrscan % * 9\ngo\ngo\n"
        )
        for text, counts in [
            ("", "0 batches, 0 operations, 0 refused"),
            ("go\n# get a\ngo", "2 batches, 0 operations, 0 refused"),
            (every_line, "4 batches, 8 operations, 0 refused"),
        ]:
            self.expect_stats("dump --stats", text, "contents 0\n", counts)

    def test_a_run_that_ends_by_a_fault_tells_the_fault_alone(self):
        text = "upsert a 1\ngo\nbogus"
        self.expect(text, "new\n", "line 3: unknown word", 3, ["run", "--stats"])
        self.expect("", "", "cannot read", 1, ["run", "--stats", "no_such.trace"])
