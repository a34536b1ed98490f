"""`compare A B`: which invariants modulo 2 tell two complexes apart. Status 1 where one does."""

from __future__ import annotations

import argparse

from ..comparison import compare
from .common import OK, REFUSED, file_words, read


def add(parser: argparse.ArgumentParser) -> None:
    parser.add_argument("first", help="a file with facets")
    parser.add_argument("second", help="another")
    file_words(parser)
    parser.add_argument("--all", action="store_true", help="show all invariants, also those that are equal")


def run(words: argparse.Namespace) -> int:
    with read(words.first, words) as a, read(words.second, words) as b:
        found = compare(a, b)
    print(found)
    if words.all:
        for i in found.invariants:
            print(f"  {'differs' if i.differs else 'equal  '}  {i.name}: {i.first}" + (f", {i.second}" if i.differs else ""))
    return REFUSED if found.told_apart else OK
