"""Simplex trees of GUDHI as text: pairs as Python prints them, and the lines that GUDHI writes itself.

All simplices stand there with their values; the complex is what they span, and its facets are kept, in their order. The
values are not read into anything. A simplex that lacks a face is no fault: faces belong to it.
"""

from __future__ import annotations

import re
from typing import Dict, Iterator

from ..facets import Facets
from .text import Source, Written

PAIR = re.compile(r"\(\s*\[([^\[\]()]*)\]\s*,\s*([^\s,\[\]()]+)\s*\)")


def looks_so(text: str) -> bool:
    return re.match(r"\s*\[?\s*\(\s*\[", text) is not None


def read(source: Source) -> Dict[str, Facets]:
    """The complex of a simplex tree. Raises BadFile."""
    rows = source.facets(_pairs(source) if looks_so(source.text) else _lines(source))
    return {"": rows.maximal()}


def _pairs(source: Source) -> Iterator[Written]:
    for at, line in enumerate(source.lines):
        text = line.strip()
        rest = PAIR.sub("", text)
        if set(rest) - set(" ,[]"):
            source.fault(at, "pairs of a simplex and its value were wanted, as in ([0, 1], 0.5)")
        for match in PAIR.finditer(text):
            words = [word.strip() for word in match.group(1).split(",")]
            if not all(re.match(r"-?\d+\Z", word) for word in words):
                source.fault(at, "the vertices of a simplex are integers", match.group())
            _value(source, at, match.group(2), match.group())
            yield tuple(map(int, words)), at, match.group()


def _lines(source: Source) -> Iterator[Written]:
    for at, line in enumerate(source.lines):
        words = line.split()
        if not words or words[0].startswith("#"):
            continue
        if not all(re.match(r"-?\d+\Z", word) for word in words[:-1]) or len(words) < 3:
            source.fault(at, "a dimension, the vertices and a value were wanted, as in 1 4 3 0.5")
        if int(words[0]) != len(words) - 3:
            source.fault(at, f"the dimension {words[0]} has {int(words[0]) + 1} vertices, and {len(words) - 2} stand there")
        _value(source, at, words[-1], line.strip())
        yield tuple(map(int, words[1:-1])), at, line.strip()


def _value(source: Source, at: int, word: str, text: str) -> None:
    try:
        float(word)
    except ValueError:
        source.fault(at, f"{word!r} is no value", text)
