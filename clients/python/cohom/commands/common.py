"""What several commands share: reading a complex as the words of the command say."""

from __future__ import annotations

import argparse
import sys
from typing import List, Sequence

from ..complex import Complex

OK, REFUSED, BAD_INPUT = 0, 1, 2


def file_words(parser: argparse.ArgumentParser) -> None:
    """The words that tell how files are read."""
    from ..readers.forms import FORMS
    parser.add_argument("--form", choices=sorted(FORMS), help="the form of the file; without it, it is seen from the text")
    parser.add_argument("--name", help="which complex, in a file of several with names")


def read(path: str, words: argparse.Namespace) -> Complex:
    """The complex of a file; `-` is standard input. Raises BadFile."""
    options = {"form": words.form, "name": words.name, "program": words.program}
    if path == "-":
        return Complex.read_text(sys.stdin.read(), **options)
    return Complex.read(path, **options)


def side_by_side(rows: Sequence[Sequence[str]]) -> List[str]:
    """Rows of a line and its reply, in two columns two blanks apart."""
    width = max((len(row[0]) for row in rows if len(row) > 1 and row[1]), default=0)
    return [f"{row[0]:<{width}}  {row[1]}" if len(row) > 1 and row[1] else row[0] for row in rows]
