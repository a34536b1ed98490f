"""`ring FILE`: the cohomology ring of a complex, as a table, as JSON or as LaTeX."""

from __future__ import annotations

import argparse

from .common import OK, file_words, read


def add(parser: argparse.ArgumentParser) -> None:
    parser.add_argument("file", help="a file with facets; - is standard input")
    file_words(parser)
    form = parser.add_mutually_exclusive_group()
    form.add_argument("--json", action="store_true", help="as a JSON object")
    form.add_argument("--latex", action="store_true", help="as displays of LaTeX")


def run(words: argparse.Namespace) -> int:
    with read(words.file, words) as k:
        ring = k.ring()
    print(ring.to_json() if words.json else ring.to_latex() if words.latex else ring)
    return OK
