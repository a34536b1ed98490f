"""Replies of the program, read into their parts.

`read` takes one line apart: `ok ..`, `no ..` or `bad COLUMN KIND`. The other functions read words: simplices as tuples of
numbers, literals `1:{0-1}` and `1:[0-1]`, class words `1:#0+#2`. All work with the numbers of vertices; labels come later.
"""

from __future__ import annotations

from typing import List, NamedTuple, Optional, Tuple

Simplex = Tuple[int, ...]


class Reply(NamedTuple):
    """A reply in parts: `kind` is ok, no or bad; `version` stands behind `v`, where there is one; `words` is what is left."""

    kind: str
    version: Optional[int]
    words: List[str]
    text: str


def read(text: str) -> Reply:
    """A reply in its parts. Raises ValueError where it is none."""
    words = text.split(" ")
    kind = words[0]
    if kind not in ("ok", "no", "bad") or len(words) < 2:
        raise ValueError("this is no reply")
    second = words[1]
    if second[0:1] == "v" and second[1:].isdigit():
        return Reply(kind, int(second[1:]), words[2:], text)
    return Reply(kind, None, words[1:], text)


def simplex(word: str) -> Simplex:
    """`0-1-2` as (0, 1, 2). Raises ValueError."""
    return tuple(map(int, word.split("-")))


def literal(word: str) -> Tuple[int, List[Simplex]]:
    """`1:{0-1,1-2}` or `1:[0-1]` as its degree and its simplices. Raises ValueError."""
    degree, _, rest = word.partition(":")
    if rest[:1] + rest[-1:] not in ("{}", "[]"):
        raise ValueError("this is no literal")
    inside = rest[1:-1]
    return int(degree), [simplex(part) for part in inside.split(",")] if inside else []


def class_word(word: str) -> Tuple[int, Tuple[int, ...]]:
    """`1:#0+#2` or `1:*0+*2` as its degree and its numbers, and `1:0` as its degree and none. Raises ValueError."""
    degree, _, rest = word.partition(":")
    if rest == "0":
        return int(degree), ()
    parts = rest.split("+")
    if any(part[:1] not in ("#", "*") for part in parts):
        raise ValueError("this is no class word")
    return int(degree), tuple(int(part[1:]) for part in parts)


def rows(words: List[str]) -> List[List[List[int]]]:
    """The pairings of `duality`: for each degree its rows of 0 and 1. Raises ValueError."""
    matrices = []
    for degree, word in enumerate(words):
        number, _, text = word.partition(":")
        if int(number) != degree or set(text) - set("01/-"):
            raise ValueError("these are no rows")
        matrices.append([] if text == "-" else [[int(digit) for digit in row] for row in text.split("/")])
    return matrices


def literal_text(degree: int, simplices: List[Simplex], brackets: str = "{}") -> str:
    """A literal as it is sent."""
    inside = ",".join(["-".join(map(str, s)) for s in simplices])
    return f"{degree}:{brackets[0]}{inside}{brackets[1]}"


def class_text(degree: int, numbers: Tuple[int, ...], sign: str = "#") -> str:
    """A class word as it is sent: sign # for classes, * for cycles."""
    return f"{degree}:" + ("+".join([f"{sign}{n}" for n in numbers]) if numbers else "0")
