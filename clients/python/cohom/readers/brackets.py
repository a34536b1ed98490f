"""Lists in brackets of any kind, on one line or many: polymake's sets, SageMath's and GAP's lists, and named lists.

The text is read into groups, each with the line where it begins. A group of groups is a list of facets, and several groups of
vertices are a facet each. In one group either all members are parted by commas, or none.
"""

from __future__ import annotations

import re
from typing import Any, Dict, Hashable, Iterator, List, NamedTuple, Optional, Tuple, Union

from ..facets import Facets, Simplex
from .text import Source, Written
from .words import complaint, label

PIECE = re.compile(r"""("(?:[^"\\\n]|\\.)*"|'(?:[^'\\\n]|\\.)*'|\.\.|:?=|[\[\](){},;]|[^\s\[\](){},;:="']+|\S)""")
CLOSES = {"[": "]", "(": ")", "{": "}"}
SAGE = re.compile(r"Simplicial complex with .*?(?:and facets|facets)\s*(?=[{\[(])", re.S)
COUNTED = re.compile(r"Simplicial complex with (\d+ vertices|.* and \d+ facets)")


class Group(NamedTuple):
    """A bracket and its members, with its line and its text."""

    members: "List[Union[Group, Tuple[Hashable]]]"
    line: int
    text: str


class Piece(NamedTuple):
    word: str
    line: int
    begin: int
    end: int


def read(source: Source) -> Dict[str, Facets]:
    """The one complex of a text in brackets. Raises BadFile."""
    pieces = _pieces(source)
    groups = []
    while pieces:
        if pieces[-1].word in (",", ";"):
            pieces.pop()
            continue
        if pieces[-1].word not in CLOSES:
            _no_bracket(source, pieces[-1])
        groups.append(_group(source, pieces))
    return {"": source.facets(_facets(source, groups))}


def read_named(source: Source) -> Dict[str, Facets]:
    """All named lists `name=[[..],[..]]` of a text, by name. Raises BadFile."""
    pieces, found = _pieces(source), {}
    while pieces:
        name = pieces.pop()
        if name.word == ";":
            continue
        if not pieces or pieces[-1].word not in ("=", ":="):
            source.fault(name.line, f"a name and = were wanted, and {name.word!r} stands there")
        pieces.pop()
        if not pieces or pieces[-1].word not in CLOSES:
            source.fault(name.line, f"a list in brackets was wanted behind {name.word}=")
        if name.word in found:
            source.fault(name.line, f"there are two complexes of the name {name.word}")
        found[name.word] = source.facets(_facets(source, [_group(source, pieces)]))
    return found


def _pieces(source: Source) -> List[Piece]:
    """The pieces of the text, the first of them last; comments of whole lines and SageMath's headline are left out."""
    text = re.sub(r"(?m)^[ \t]*[#%].*$", lambda m: " " * len(m.group()), source.text)
    head = SAGE.match(text)
    pieces, line, at = [], 1, 0
    for match in PIECE.finditer(text, head.end() if head else 0):
        line, at = line + text.count("\n", at, match.start()), match.start()
        pieces.append(Piece(match.group(), line, match.start(), match.end()))
    return pieces[::-1]


def _no_bracket(source: Source, piece: Piece) -> None:
    line = source.lines[piece.line]
    if COUNTED.search(line):
        source.fault(piece.line, "SageMath has printed how many facets there are: print(X.facets()) prints them")
    source.fault(piece.line, f"a bracket was wanted, and {piece.word!r} stands there")


def _group(source: Source, pieces: List[Piece]) -> Group:
    """The group that begins at the last piece, which is an opening bracket."""
    opening = pieces.pop()
    stack: List[Tuple[Piece, List[Any]]] = [(opening, [])]
    while pieces:
        piece = pieces.pop()
        if piece.word in CLOSES:
            stack.append((piece, []))
        elif piece.word in CLOSES.values():
            begin, members = stack.pop()
            if CLOSES[begin.word] != piece.word:
                source.fault(piece.line, f"the bracket {begin.word!r} of line {begin.line} is closed by {piece.word!r}")
            text = " ".join(source.text[begin.begin:piece.end].split())
            group = Group(_members(source, members, begin.line, text), begin.line, text)
            if not stack:
                return group
            stack[-1][1].append(group)
        else:
            stack[-1][1].append(piece)
    begin = stack[-1][0]
    source.fault(begin.line, f"the bracket {begin.word!r} is not closed")


def _members(source: Source, written: List[Any], line: int, text: str) -> "List[Union[Group, Tuple[Hashable]]]":
    """The members of a group without the commas, vertices as tuples of one, and ranges `1 .. 3` as their numbers."""
    commas = sum(isinstance(m, Piece) and m.word == "," for m in written)
    rest: List[Any] = [m for m in written if not (isinstance(m, Piece) and m.word == ",")]
    members: List[Any] = []
    at = 0
    while at < len(rest):
        member = rest[at]
        if isinstance(member, Piece):
            vertex = label(member.word)
            if vertex is None:
                source.fault(member.line, complaint(member.word), text)
            if at + 2 < len(rest) and getattr(rest[at + 1], "word", "") == "..":
                last = label(rest[at + 2].word) if isinstance(rest[at + 2], Piece) else None
                if not isinstance(vertex, int) or not isinstance(last, int) or commas:
                    source.fault(member.line, "a range goes from one number to another, and is alone in its brackets", text)
                members += [(number,) for number in range(vertex, last + 1)]
                at += 3
                continue
            members.append((vertex,))
        else:
            members.append(member)
        at += 1
    alternates = all(isinstance(m, Piece) and m.word == "," for m in written[1::2]) and len(written) in (2 * commas + 1, 2 * commas)
    trailing = len(written) == 2 * commas and len(rest) == 1
    if commas and not (alternates and (len(written) == 2 * commas + 1 or trailing)):
        source.fault(line, "commas between some members and only blanks between others, or a comma too many", text)
    return members


def _facets(source: Source, groups: List[Group]) -> Iterator[Written]:
    """Facets of groups: the members of a single list of groups, else the groups themselves. Two lists of facets are a fault."""
    lists = [bool(g.members) and all(isinstance(m, Group) for m in g.members) for g in groups]
    if len(groups) == 1 and lists[0]:
        groups = [m for m in groups[0].members if isinstance(m, Group)]
    elif len(groups) == 1 and any(isinstance(m, Group) for m in groups[0].members):
        source.fault(groups[0].line, "facets and single vertices stand in one list", groups[0].text)
    elif any(lists):
        later = groups[1]
        source.fault(later.line, "a second list begins here, and it is not said whether both are one complex: put all facets into one "
                     "list, or names before the lists (name=[[..],[..]])", later.text)
    for group in groups:
        yield _vertices(source, group), group.line, group.text


def _vertices(source: Source, group: Group) -> Simplex:
    """The vertices of a facet; one that is a group itself is a tuple as a label."""
    return tuple(_label(source, member, group) for member in group.members)


def _label(source: Source, member: "Union[Group, Tuple[Hashable]]", facet: Group) -> Hashable:
    if not isinstance(member, Group):
        return member[0]
    if not member.text.startswith("("):
        source.fault(facet.line, "brackets stand in a facet", facet.text)
    return tuple(_label(source, inner, facet) for inner in member.members)


def named(text: str) -> Optional[str]:
    """The first name of a text of named lists, or None where it is none."""
    match = re.match(r"(?:\s|^[ \t]*[#%].*$)*([^\s\[\](){},;:=\"']+)\s*:?=\s*[\[({]", text, re.M)
    return match.group(1) if match else None
