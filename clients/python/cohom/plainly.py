"""A refusal of the program in plain words, for the prompt and the commands; numbers are the vertices of the program."""

from __future__ import annotations

from . import replies
from .language import REQUESTS, request_words
from .session import KINDS

MEANINGS = {
    "later": "the program reads this request and does not answer it yet",
    "there": "this simplex is there already, with the number {0}",
    "face": "its face {0} is not there: attach that first, or use `facet`",
    "full": "there is no room for more: there are {0}",
    "notthere": "the simplex {0} is not in version {v}{cut}",
    "degree": "the simplex {0} is there, and its dimension is not the degree of the literal",
    "noclass": "no class of that degree has the number {0}: `classes DEGREE` shows which there are, numbered from 0",
    "notcocycle": "this is no cocycle: its coboundary is 1 at {0}",
    "nothing": "version {v} has no simplices{cut}",
    "notpure": "not closed: {0} lies in no simplex of the greatest dimension",
    "ridge": "not closed: {0} lies in {1} simplices of the greatest dimension, and not in two",
    "link": "the link of {0} has the Betti numbers {rest}, which are not those of a sphere of the dimension that is left",
    "degenerate": "duality fails: the class {0} is not zero and pairs to 0 with every class of the complementary degree",
    "sum": "the degrees add up to {0}, and the dimension is {1}",
    "caller": "a served session has no callers",
    "noname": "no version is held under the name {0}",
    "held": "a version is held under the name {0} already",
    "holdsfull": "there are {0} names already: `drop NAME` forgets one",
    "notyet": "there are only {0} entries so far",
    "noversion": "there is no such version: the last one is {0}",
}
SUGGESTED = {
    "sq": "square K CLASS", "sq1": "square 1 CLASS", "steenrod": "square K CLASS", "homology": "betti",
    "cohomology": "betti or classes P", "cupproduct": "cup A B", "product": "cup A B", "dim": "count", "vertices": "count",
    "facets": "count", "f": "count", "coboundary": "delta W", "d": "boundary C", "manifold": "closed and links",
    "whitney": "sw", "stiefel": "sw", "exit": "quit",
}


def in_words(reply: str, request: str = "") -> str:
    """What a reply that is not `ok` means. An unknown one is told as it is."""
    try:
        part = replies.read(reply)
    except ValueError:
        return reply
    if part.kind == "bad":
        return _bad(part, request)
    word, rest = part.words[0], part.words[1:]
    if word == "differs":
        if request_words(request)[:1] == ["bound"]:
            return f"this cocycle is no coboundary: the first class in it is born with {rest[0]}"
        return f"the two cocycles are not of one class: they differ at the essential simplex {rest[0]}"
    if word == "degrees":
        if request_words(request)[:1] == ["cap"]:
            return f"a cochain of degree {rest[0]} does not cap a chain of degree {rest[1]}"
        return f"the two cocycles have the degrees {rest[0]} and {rest[1]}"
    cut = "; simplices belong to a version from the next `cut` on" if part.version == 0 else ""
    try:
        return MEANINGS[word].format(*rest, v=part.version, cut=cut, rest=" ".join(rest[1:]) or "of nothing")
    except (KeyError, IndexError):
        return reply


def _bad(part: replies.Reply, request: str) -> str:
    column, kind = int(part.words[0]), part.words[1]
    word = request[column - 1:].split(" ")[0] if column <= len(request) else ""
    verb = (request_words(request) or [""])[0]
    if kind == "request":
        hint = SUGGESTED.get(word.lower())
        close = f"; {hint!r} may be meant" if hint else "; `help` lists the requests"
        return f"there is no request {word!r}{close}"
    form = REQUESTS[verb].form if verb in REQUESTS else ""
    told = f"; the form is `{form}`" if form else ""
    what = KINDS.get(kind, kind)
    if kind == "word" and ":" not in word and verb in REQUESTS and word.startswith("#"):
        what = f"{word!r} lacks its degree, as in 1:{word}"
    elif word and kind != "missing":
        what = f"{word!r} in column {column}: {what}"
    return what + told
