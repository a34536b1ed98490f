"""Plain lists: one facet a line, its vertices parted by blanks or by commas."""

from __future__ import annotations

import re
from typing import Dict, Iterator, List

from ..facets import Facets
from .text import Source, Written
from .words import complaint, label

REQUESTS = frozenset("""attach cut see after hold use drop round quit back betti count kind model classes cochain chain delta
boundary class bound cup cupi square bockstein same cap closed links duality wu sw swnumber""".split())
PIECES = re.compile(r"""\s*("(?:[^"\\]|\\.)*"|'(?:[^'\\]|\\.)*'|,|[^\s,]+)""")


def read(source: Source) -> Dict[str, Facets]:
    """The one complex of a plain list. Raises BadFile."""
    return {"": source.facets(_facets(source))}


def without_comment(line: str) -> str:
    """A line up to a comment, which begins with # or % at its start or behind a blank."""
    return re.split(r"(?:^|(?<=\s))[#%]", line, maxsplit=1)[0].strip()


def _facets(source: Source) -> Iterator[Written]:
    numbers = None
    for at, line in enumerate(source.lines):
        text = without_comment(line)
        if not text:
            continue
        words = _words(source, at, text)
        vertices = []
        for word in words:
            vertex = label(word)
            if vertex is None:
                source.fault(at, complaint(word), text)
            vertices.append(vertex)
        whole = [isinstance(v, int) for v, word in zip(vertices, words) if word[0] not in "\"'"]
        if whole and (numbers is None or any(is_whole != numbers for is_whole in whole)):
            if numbers is not None or len(set(whole)) > 1:
                source.fault(at, "numbers and words are both vertices here: put the words in quotes where that is meant", text)
            numbers = whole[0]
        yield tuple(vertices), at, text


def _words(source: Source, at: int, text: str) -> List[str]:
    pieces = PIECES.findall(text)
    if pieces[0] == "facet":
        pieces = pieces[1:]
        if not pieces:
            source.fault(at, "a facet has at least one vertex", text)
    elif pieces[0] in REQUESTS:
        source.fault(at, f"{pieces[0]!r} is a request of the program and no facet: this is a script, for `show` or the program "
                     "itself", text)
    if "," not in pieces:
        return pieces
    is_comma = [piece == "," for piece in pieces]
    if not is_comma[0] and any(not left and not right for left, right in zip(is_comma, is_comma[1:])):
        source.fault(at, "commas between some vertices and only blanks between others", text)
    if is_comma[0] or is_comma[-1] or any(left and right for left, right in zip(is_comma, is_comma[1:])):
        source.fault(at, "a comma too many", text)
    return pieces[::2]
