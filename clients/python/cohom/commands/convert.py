"""`convert FILE`: a file of any form as facets that the program reads, as JSON, or as a list in brackets."""

from __future__ import annotations

import argparse
import json
import sys
from typing import Iterator

from ..complex import Complex
from .common import OK, file_words, read


def add(parser: argparse.ArgumentParser) -> None:
    parser.add_argument("file", help="a file with facets; - is standard input")
    file_words(parser)
    parser.add_argument("--to", choices=("script", "json", "brackets"), default="script",
                        help="facets for the program with the labels as comments; JSON; or [[..],[..]] with numbers")
    parser.add_argument("--facets-only", action="store_true",
                        help="leave out facets that are faces of others, and those that come twice")


def run(words: argparse.Namespace) -> int:
    k = read(words.file, words)
    if words.facets_only:
        k = Complex(k.facets.maximal())
    for line in converted(k, words.to):
        sys.stdout.write(line + "\n")
    return OK


def converted(k: Complex, to: str) -> Iterator[str]:
    """The lines of a complex in one of the forms."""
    numbers = [k.labels.numbers(facet) for facet in k.facets]
    if to == "json":
        plain = [v if isinstance(v, (int, str)) else repr(v) for v in k.vertices]
        names = dict(zip(k.vertices, plain))
        yield json.dumps({"vertices": plain, "facets": [[names[v] for v in facet] for facet in k.facets]}, ensure_ascii=False)
    elif to == "brackets":
        yield "[" + ",".join("[" + ",".join(map(str, facet)) + "]" for facet in numbers) + "]"
    else:
        if k.labels.renumbered():
            yield from (f"# {number} {label}" for number, label in k.labels.pairs())
        yield from (" ".join(map(str, facet)) for facet in numbers)
