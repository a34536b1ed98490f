"""Every fault as an exception that says in words what is wrong.

    CohomError
      InputFault        what was given is no complex, or not as its form says
        BadFile           a file that cannot be read as facets: path, line, text
        BadFacet          a facet with no vertices, with one twice, or the like
        UnknownVertex     a label that no vertex has
        NotASimplex       a set of labels that spans no simplex of the version
      Refusal           the program refused: the request, its reply and what it means
        NotBuiltYet       the program reads the request and does not answer it yet
        FacetRefused      a facet was refused, or there is no room for it
        NotACocycle, NoSuchClass, NotABoundary, NotOneClass, WrongDegrees,
        NotClosed, DegenerateClass, BadLink, WrongSum, BadRequest
      Stopped           there is nobody to ask any more
        ProgramMissing    no program was found
        ProgramEnded      the program ended, or the connection did, in the middle
        Closed            the client was closed
      UnexpectedReply   a reply that is not one to this request
      NotACycle, WrongDegree, NotHeld, OtherVersion, OtherComplex, ChangedByOthers
"""

from __future__ import annotations

from typing import Any, Hashable, Optional, Sequence, Tuple

Labels = Tuple[Hashable, ...]


class CohomError(Exception):
    """What each exception of this package is."""


class InputFault(CohomError):
    """What was given is no complex."""


class BadFile(InputFault):
    """A file that is not of the form that is read; `path`, `line` (from 1, 0 where the whole file is meant) and `text` as
    written."""

    def __init__(self, path: str, line: int, text: str, reason: str) -> None:
        self.path, self.line, self.text, self.reason = path, line, text, reason
        place = path if line == 0 else f"{path}, line {line}"
        shown = text if len(text) <= 120 else text[:117] + "..."
        super().__init__(f"{place}: {shown!r}: {reason}" if text else f"{place}: {reason}")


class BadFacet(InputFault):
    """A facet that is none: `facet` as it was given."""

    def __init__(self, facet: Any, reason: str) -> None:
        self.facet, self.reason = facet, reason
        super().__init__(f"{facet!r}: {reason}")


class UnknownVertex(InputFault):
    """A label that no vertex of the complex has."""

    def __init__(self, label: Hashable) -> None:
        self.label = label
        super().__init__(f"the complex has no vertex {label!r}")


class NotASimplex(InputFault):
    """Labels that span no simplex of the version, or one of another dimension than its degree: `simplex`."""

    def __init__(self, simplex: Labels, reason: str) -> None:
        self.simplex = simplex
        super().__init__(f"{show(simplex)} {reason}")


class Refusal(CohomError):
    """The program refused a request: `request` and `reply` are its lines, and the message says what it means."""

    def __init__(self, words: str, request: str = "", reply: str = "") -> None:
        self.request, self.reply = request, reply
        super().__init__(words)


class NotBuiltYet(Refusal):
    """The request is in the language, and this program does not answer it yet (`no later`)."""


class BadRequest(Refusal):
    """A line that is no request (`bad COLUMN KIND`), or a number past what the program takes: `column` and `kind`."""

    def __init__(self, words: str, request: str, reply: str, column: int, kind: str) -> None:
        self.column, self.kind = column, kind
        super().__init__(words, request, reply)


class FacetRefused(Refusal):
    """A facet that did not come in: `facet` in labels, and `where` it was written, if it came from a file."""

    def __init__(self, facet: Labels, where: str, words: str, request: str, reply: str) -> None:
        self.facet, self.where = facet, where
        super().__init__((where + ": " if where else "") + f"the facet {show(facet)} was refused: {words}", request, reply)


class NotACocycle(Refusal):
    """A cochain that is no cocycle: its coboundary is 1 at `simplex`, the first such in the order of attachment."""

    def __init__(self, simplex: Labels, request: str = "", reply: str = "") -> None:
        self.simplex = simplex
        super().__init__(f"not a cocycle: the coboundary is 1 at {show(simplex)}", request, reply)


class NotACycle(CohomError):
    """A chain that is no cycle: `boundary` is its boundary."""

    def __init__(self, boundary: Any) -> None:
        self.boundary = boundary
        super().__init__(f"not a cycle: the boundary is {boundary}")


class NotABoundary(Refusal):
    """A cocycle that bounds nothing: `simplex` is the essential simplex of the first class in it."""

    def __init__(self, simplex: Labels, request: str = "", reply: str = "") -> None:
        self.simplex = simplex
        super().__init__(f"not a coboundary: its class is not zero, and {show(simplex)} is the essential simplex of the first "
                         "class in it", request, reply)


class NotOneClass(Refusal):
    """Two cocycles that are not of one class: `simplex` is the first essential simplex at which their classes differ."""

    def __init__(self, simplex: Labels, request: str = "", reply: str = "") -> None:
        self.simplex = simplex
        super().__init__("the two cocycles are not of one class: their classes differ at the essential simplex "
                         f"{show(simplex)}", request, reply)


class NoSuchClass(Refusal):
    """No class of this `degree` has this `number`; `there_are` so many, numbered from 0 (None where that was not asked)."""

    def __init__(self, degree: int, number: int, there_are: Optional[int], request: str = "", reply: str = "") -> None:
        self.degree, self.number, self.there_are = degree, number, there_are
        count = "" if there_are is None else f": there are {there_are}, numbered from 0" if there_are else ": there are none"
        super().__init__(f"no class of degree {degree} has the number {number}{count}", request, reply)


class WrongDegree(CohomError):
    """A degree that does not suit: a sum or comparison across degrees, a negative degree."""


class WrongDegrees(Refusal):
    """Two words of degrees that do not suit each other: `first` and `second`."""

    def __init__(self, first: int, second: int, words: str, request: str = "", reply: str = "") -> None:
        self.first, self.second = first, second
        super().__init__(words, request, reply)


class NotClosed(Refusal):
    """The version is not closed: `simplex` is where it fails (None for the empty complex), `times` in how many it lies."""

    def __init__(self, words: str, simplex: Optional[Labels], times: Optional[int], request: str = "", reply: str = "") -> None:
        self.simplex, self.times = simplex, times
        super().__init__(words, request, reply)


class BadLink(Refusal):
    """The link of `simplex` has not the Betti numbers of a sphere of the dimension that is left, but `betti`."""

    def __init__(self, simplex: Labels, betti: Sequence[int], request: str = "", reply: str = "") -> None:
        self.simplex, self.betti = simplex, tuple(betti)
        numbers = "is empty" if not betti else "has the Betti numbers " + " ".join(map(str, betti))
        super().__init__(f"the link of {show(simplex)} {numbers}, and those are not those of a sphere of the dimension that is "
                         "left", request, reply)


class DegenerateClass(Refusal):
    """Duality fails: the class `degree`, `numbers` is not zero and pairs to 0 with each class of the complementary degree."""

    def __init__(self, degree: int, numbers: Sequence[int], request: str = "", reply: str = "") -> None:
        self.degree, self.numbers = degree, tuple(numbers)
        word = "+".join(f"#{n}" for n in numbers)
        super().__init__(f"duality fails: the class {word} of degree {degree} is not zero and pairs to 0 with every class of "
                         "the complementary degree", request, reply)


class WrongSum(Refusal):
    """The degrees of a Stiefel-Whitney number do not add up to the dimension."""

    def __init__(self, total: int, dimension: int, request: str = "", reply: str = "") -> None:
        self.total, self.dimension = total, dimension
        super().__init__(f"the degrees add up to {total}, and the dimension is {dimension}", request, reply)


class NotHeld(CohomError):
    """A version that was not held when it was cut, so that it cannot be asked any more."""

    def __init__(self, version: int, reason: str) -> None:
        self.version = version
        super().__init__(f"version {version} cannot be asked: {reason}")


class Stopped(CohomError):
    """There is nobody to ask any more."""


class ProgramMissing(Stopped):
    """No program was found, or it cannot be started."""


class ProgramEnded(Stopped):
    """The program or the connection ended before all was answered: `status` (None for a connection) and what it said."""

    def __init__(self, words: str, status: Optional[int] = None) -> None:
        self.status = status
        super().__init__(words)


class Closed(Stopped):
    """The client was closed, or was stopped in the middle of a request, so that its replies are lost."""


class UnexpectedReply(CohomError):
    """A reply that is none to this request: program and client do not speak of the same thing, and nothing more is asked."""

    def __init__(self, request: str, reply: str, reason: str) -> None:
        self.request, self.reply = request, reply
        super().__init__(f"{request!r} was answered {reply!r}: {reason}")


class OtherVersion(CohomError):
    """A class of one version, used with another: classes are numbered anew in each version."""


class OtherComplex(CohomError):
    """Values of two complexes, used together."""


class ChangedByOthers(CohomError):
    """On a shared server somebody else changed the complex, so that it is not the one that this client built."""


class Unproved(UserWarning):
    """The proved program is not built, and a trial that is not proved answers in its place; or the program says something on
    standard error, where a trial says so."""


def show(simplex: Sequence[Hashable]) -> str:
    """A simplex as it is printed in messages."""
    return "{" + ", ".join(v if isinstance(v, str) else repr(v) for v in simplex) + "}"
