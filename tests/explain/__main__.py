"""Prints a log in words, and tells where the rules ask for another answer.

    python3 -m explain [FILE]      from tests/; without FILE, standard input

Status 1 where an answer of the log is not the one that the rules ask for, 2 where a line is none of a log.
"""

import os
import sys

from .lines import BadLine, read
from .words import Teller


def explain(lines):
    """Whether every answer is the one that the rules ask for."""
    teller = Teller()
    for number, entry in read(lines):
        for told in teller.tell(entry):
            print(f"{number:6}  {told}")
    return teller.is_right


def main():
    try:
        is_right = explain(open(sys.argv[1], "rb") if len(sys.argv) > 1 else sys.stdin.buffer)
    except BrokenPipeError:  # whoever reads has seen enough
        os.dup2(os.open(os.devnull, os.O_WRONLY), sys.stdout.fileno())
        return
    except (OSError, BadLine) as error:
        print(f"explain: {error}", file=sys.stderr)
        sys.exit(2)
    if not is_right:
        print("explain: an answer of this log is not the one that the rules ask for")
        sys.exit(1)


if __name__ == "__main__":
    main()
