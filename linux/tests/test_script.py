"""Lines that docs/SCRIPT.md gives a meaning, and lines that it does not."""

import unittest

from harness.script import BadLine, count_forks, parse_line, split_lines

GOOD = {
    b"fork 1": ("fork", (1,), ""),
    b"fork 4294967295 new": ("fork", (4294967295,), "new"),
    b"exit 2 255": ("exit", (2, 255), ""),
    b"wait 1 any": ("wait", (1,), "any"),
    b"wait 1 own": ("wait", (1,), "own"),
    b"wait 1 pid 0": ("wait", (1, 0), "pid"),
    b"wait 1 group 7": ("wait", (1, 7), "group"),
    b"setpgid 1 -2147483648 2147483647": ("setpgid", (1, -2147483648, 2147483647), ""),
    b"next 1 session 300": ("next", (1, 300), "session"),
    b"subreaper 3 off": ("subreaper", (3,), "off"),
    b"mk 18446744073709551615": ("mk", (18446744073709551615,), ""),
    b"limit 4 max": ("limit", (4,), "max"),
    b"limit 4 4194305": ("limit", (4, 4194305), ""),
    b"move 2 0": ("move", (2, 0), ""),
}

BAD = [
    b"fork", b"fork 01", b"fork -1", b"fork 4294967296", b"fork 1\r", b"fo\0rk 1", b" fork 1", b"fork 1 ", b"fork  1",
    b"fork 1 old", b"exit 2 256", b"exit 2", b"wait 1", b"wait 1 any 2", b"wait 1 pid", b"setpgid 1 -0 0", b"setpgid 1 2147483648 0",
    b"setpgid 1 +1 0", b"next 1 thing 2", b"subreaper 1", b"mk 18446744073709551616", b"mk -1", b"limit 1 -1", b"count", b"a" * 201,
]


class Lines(unittest.TestCase):
    def test_good_lines(self) -> None:
        for line, wanted in GOOD.items():
            call = parse_line(line)
            assert call is not None
            self.assertEqual((call.name, call.numbers, call.form), wanted)

    def test_bad_lines(self) -> None:
        for line in BAD:
            with self.assertRaises(BadLine, msg=str(line)):
                parse_line(line)

    def test_an_empty_line_is_no_call(self) -> None:
        self.assertIsNone(parse_line(b""))

    def test_a_control_group_command_has_no_caller(self) -> None:
        for line, caller in ((b"mk 5", None), (b"move 5 6", None), (b"exit 5 6", 5)):
            call = parse_line(line)
            assert call is not None
            self.assertEqual(call.caller, caller)

    def test_bytes_after_the_last_newline_are_a_line(self) -> None:
        self.assertEqual(split_lines(b"a\n\nb"), [b"a", b"", b"b"])
        self.assertEqual(split_lines(b"a\n"), [b"a"])
        self.assertEqual(split_lines(b""), [])

    def test_forks_are_counted(self) -> None:
        self.assertEqual(count_forks(b"fork 1\nexit 2 0\nfork 1 new\n"), 2)
