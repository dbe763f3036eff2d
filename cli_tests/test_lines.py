"""Lines of a trace: their words, numbers and keys, and which fault comes first."""

from program import ProgramTest

NOT_A_NUMBER = "line 1: not a whole number up to 18446744073709551615"
KEY_65 = "k" * 65


class Lines(ProgramTest):
    def test_a_line_has_8192_bytes_at_most(self):
        self.expect("#" * 8192 + "\nget a", "none\n")
        for rest in ["#", "#\nget a", "\r", "\r\n", "####################\n"]:
            self.expect_fault("#" * 8192 + rest, "line 1: line longer than 8192 bytes")
        self.expect_fault("#" * 8191 + "\r\nbogus", "line 2: unknown word")

    def test_a_byte_13_at_the_end_is_no_part_of_a_line(self):
        self.expect("\r\n", "")
        self.expect("upsert a 1\r\ngo\r\nget a\r", "new\nis 1\n")
        self.expect("upsert a 1 \r\n", "new\n")
        self.expect_fault("get a\r\r\n", "line 1: badly spelled key")
        self.expect_fault("get a\r \n", "line 1: badly spelled key")
        self.expect_fault("\rget a\n", "line 1: unknown word")
        self.expect_fault("go\r\r", "line 1: unknown word")

    def test_spaces_alone_part_words(self):
        self.expect("  upsert   a  1  \n get a", "new\nis 1\n")
        self.expect_fault("get\ta", "line 1: unknown word")
        self.expect_fault("get a\tb", "line 1: badly spelled key")
        self.expect_fault("\n\t\n", "line 2: unknown word")

    def test_blank_lines_and_comments_are_counted(self):
        self.expect("# a b c\n\n   \n  # get x\n#\nget a\n", "none\n")
        self.expect_fault("# a b c\n\n   \n  # get x\nget a\nbogus\n", "line 6: unknown word")
        self.expect_fault("get a # b\n", "line 1: wrong number of words")
        self.expect_fault("\n\n\nget #\n", "line 4: badly spelled key")

    def test_words_are_those_of_the_table(self):
        for word in ["GET", "Get", "ge", "gets", "inserts", "put", "del", "swap", "scans", "goo", "shape", "%"]:
            self.expect_fault(f"get a\n{word} a 1\n", "line 2: unknown word")

    def test_each_line_has_its_number_of_words(self):
        for line in [
            "get",
            "get a b",
            "upsert",
            "upsert a",
            "upsert a ",
            "upsert a 1 2",
            "insert a",
            "update a 1 2",
            "delete",
            "delete a b",
            "swapif a 1",
            "swapif a 1 2 3",
            "scan a *",
            "scan a * 1 2",
            "rscan a",
            "go a",
            "go go",
        ]:
            self.expect_fault(line, "line 1: wrong number of words")

    def test_faults_come_in_order(self):
        for text, message in [
            ("bogus\n" + "#" * 8193 + "\n", "line 1: unknown word"),
            ("bogus " + "#" * 8193 + "\nbogus", "line 1: line longer than 8192 bytes"),
            ("bogus % %", "line 1: unknown word"),
            ("get %x %x", "line 1: wrong number of words"),
            ("upsert %x x y", "line 1: wrong number of words"),
            ("upsert %x x", "line 1: badly spelled key"),
            ("upsert %4 x", "line 1: badly spelled key"),
            ("scan a %x x", "line 1: badly spelled key"),
            ("scan * b 1", "line 1: badly spelled key"),
            (f"get {KEY_65}/", "line 1: badly spelled key"),
            (f"get {KEY_65} b", "line 1: wrong number of words"),
            (f"upsert {KEY_65} x", "line 1: key longer than 64 bytes"),
            (f"upsert %x {KEY_65}", "line 1: badly spelled key"),
            (f"scan a {KEY_65} x", "line 1: key longer than 64 bytes"),
        ]:
            self.expect_fault(text, message)

    def test_numbers_lose_their_leading_zeros(self):
        for number, printed in [
            ("0", "0"),
            ("7", "7"),
            ("007", "7"),
            ("070", "70"),
            ("00000000000000000000", "0"),
            ("00000000000000000001", "1"),
            ("18446744073709551615", "18446744073709551615"),
        ]:
            self.expect(f"upsert a {number}\nget a\n", f"new\nis {printed}\n")

    def test_other_words_are_no_numbers(self):
        for word in [
            "x",
            "1x",
            "+1",
            "-1",
            "1.0",
            "0x1",
            "1_000",
            "%31",
            "18446744073709551616",
            "99999999999999999999",
            "000000000000000000001",
            "100000000000000000000",
        ]:
            self.expect_fault(f"upsert a {word}\n", NOT_A_NUMBER)
        self.expect_fault("scan a * x", NOT_A_NUMBER)

    def test_keys_are_letters_digits_and_three_signs(self):
        self.expect("upsert azAZ09_.- 1\nget azAZ09_.-\n", "new\nis 1\n")
        for key in ["%4", "%4g", "%%", "a%", "a/b", "a:", "a@", "a[", "a`", "a{", "*", "a,b", "\u00e9", "a\0"]:
            self.expect_fault(f"get {key}\n", "line 1: badly spelled key")

    def test_a_key_of_130_digits_is_too_long(self):
        self.expect_fault("get %" + "6" * 130, "line 1: key longer than 64 bytes")
