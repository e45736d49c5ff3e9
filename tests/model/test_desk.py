"""The line protocol: the session of the requirements (SPECIFICATION 12.6), and lines of every kind."""

import io
import sys
import unittest
from unittest import mock

from . import desk
from .desk import MAX_BYTES
from .trials import DESK_INPUT, DESK_OUTPUT


def printed(data):
    """What the program prints for an input."""
    out = io.StringIO()
    with mock.patch.object(sys, "stdin", io.TextIOWrapper(io.BytesIO(data))), mock.patch.object(sys, "stdout", out):
        desk.main()
    return out.getvalue().encode()


class Desk(unittest.TestCase):
    def test_sample(self):
        self.assertEqual(printed(DESK_INPUT), DESK_OUTPUT)

    def test_last_line_without_line_feed(self):
        self.assertEqual(printed(DESK_INPUT[:-1]), DESK_OUTPUT)
        self.assertEqual(printed(b""), b"")
        self.assertEqual(printed(b"\n"), b"bad line\n")
        self.assertEqual(printed(b"c"), b"bad line\n")

    def test_bad_lines(self):
        for line in (
            b"", b"c", b"r", b"x", b" ", b"c0d2f", b"c  0d2f", b" c 0d2f", b"c 0d2f ", b"c 0d2", b"c 0D2F", b"C 0d2f",
            b"c\t0d2f", b"c 0d2f\r", b"c 0d2f\0", b"\0", b"c 0g", b"c 0d 2f", b"\xff\xfe", b"s 23",
            b"c " + b"00" * (MAX_BYTES + 1), b"c " + b"0" * (2 * MAX_BYTES + 1), b"c " + b"0" * 100_000,
        ):
            with self.subTest(line[:20]):
                self.assertEqual(desk.answers([line]), ["bad line"])

    def test_good_lines(self):
        for line, answer in (
            (b"c ", "refused 22"), (b"r ", "refused 61"), (b"c 0d2f", "ask 0d2f"),
            (b"c " + b"00" * MAX_BYTES, "refused 22"), (b"r " + b"00" * MAX_BYTES, "refused 61"),
        ):
            self.assertEqual(desk.answers([line]), [answer])

    def test_a_map_that_no_line_can_answer(self):
        """The right reply to a large map is a bad line; the request stands until a wrong one stops the guard."""
        lines = ["c 0e00300000", "r 0010000000000000" + "00" * 12_288, "c 0d2f", "r 0010000000000000", "c 0e00100000"]
        answers = ["ask 0e00300000", "bad line", "refused 114", "stopped 1", "refused 5"]
        self.assertEqual(desk.answers(map(str.encode, lines)), answers)

    def test_the_largest_map_that_a_line_answers(self):
        lines = ["c 0e00200000", "r 0010000000000000" + "00" * 8192, "c 0f0010000000000000", "r 00000000"]
        answers = ["ask 0e00200000", "done 4096", "ask 0f0010000000000000", "done 0"]
        self.assertEqual(desk.answers(map(str.encode, lines)), answers)

    def test_a_full_disk_ends_the_call(self):
        """Refused, then unasked; the next call is taken."""
        lines = ["c 01072f61", "r e4ffffff", "r e4ffffff", "c 02072f64", "r e4ffffff00", "c 0d2f"]
        answers = ["ask 01072f61", "refused 28", "refused 61", "ask 02072f64", "stopped 1", "refused 5"]
        self.assertEqual(desk.answers(map(str.encode, lines)), answers)

    def test_a_bad_line_never_reaches_the_guard(self):
        stat = "01000000020700000000"
        lines = ["c 0d2f", "r 0", f"r {stat}", "c 0d2f", "r ", "r 0", "c 0d2f"]
        answers = ["ask 0d2f", "bad line", f"done 0 {stat}", "ask 0d2f", "stopped 1", "bad line", "refused 5"]
        self.assertEqual(desk.answers(map(str.encode, lines)), answers)
