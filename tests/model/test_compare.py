"""The comparison itself: no difference from the model's own desk, and a shortened one from a wrong desk."""

import contextlib
import io
import sys
import tempfile
import unittest
from functools import partial
from pathlib import Path

from .compare import differs, generated_lines, report, scripted_lists, shortened
from .mutations import Mutant


def desk(directory):
    """The command of the desk in a copy of the package."""
    return [sys.executable, "-c", f"import sys; sys.path[0] = {str(directory)!r}; from model.desk import main; main()"]


class Compare(unittest.TestCase):
    def test_no_difference(self):
        lines = [line for seed in range(5) for line in generated_lines(seed)]
        self.assertFalse(differs(desk(Path(__file__).parent.parent), lines))

    def test_scripts_reach_the_desk(self):
        self.assertGreaterEqual(len(list(scripted_lists())), 50)

    def test_a_difference_is_found_and_shortened(self):
        with tempfile.TemporaryDirectory() as directory:
            Mutant("open is done with the descriptor", directory)
            command = desk(directory)
            lines = next(lines for lines in map(generated_lines, range(100)) if differs(command, lines))
            short = shortened(partial(differs, command), lines)
            self.assertEqual([line[:1] for line in short], [b"c", b"r", b"c", b"r"])
            with contextlib.redirect_stdout(io.StringIO()) as out:
                report(command, lines, "--first 1 --count 1")
            self.assertIn("a list of 4 lines differs", out.getvalue())
            self.assertIn("--first 1 --count 1", out.getvalue())
