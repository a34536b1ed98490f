"""Cochains and chains modulo 2 as values: sets of simplices of one degree, in the labels of the user.

Both know the version that they were made for and can ask about themselves: `c.delta()`, `z.boundary()`, `c.cap(z)`. Sums and
comparison need nobody to be asked. `c(z)` is the value of a cochain on a chain, 0 or 1.
"""

from __future__ import annotations

from typing import TYPE_CHECKING, Any, FrozenSet, Hashable, Iterable, Iterator, List, Tuple, TypeVar

from . import replies
from .errors import NotACycle, OtherComplex, WrongDegree

if TYPE_CHECKING:
    from .classes import CohomologyClass, HomologyClass
    from .version import ChainLike, CochainLike, Version

Simplex = Tuple[int, ...]
S = TypeVar("S", bound="SimplexSum")


class SimplexSum:
    """What cochains and chains have in common. `degree` is their degree; iteration gives their simplices, as tuples of labels, in
    simplex order; `s in c` takes the labels in any order."""

    brackets = "{}"

    def __init__(self, version: "Version", degree: int, members: Iterable[Simplex]) -> None:
        self.version, self.degree = version, degree
        self._members: FrozenSet[Simplex] = frozenset(members)

    def __iter__(self) -> Iterator[Tuple[Hashable, ...]]:
        return iter(self.version.labels.simplices(sorted(self._members)))

    @property
    def simplices(self) -> List[Tuple[Hashable, ...]]:
        """The simplices in labels, in simplex order."""
        return list(self)

    def __len__(self) -> int:
        return len(self._members)

    def __bool__(self) -> bool:
        return bool(self._members)

    def __contains__(self, simplex: Any) -> bool:
        return self.version.labels.numbers(simplex) in self._members

    def __add__(self: S, other: S) -> S:
        """The sum modulo 2. Raises WrongDegree and OtherComplex."""
        if type(other) is not type(self):
            return NotImplemented
        if other.degree != self.degree:
            raise WrongDegree(f"there is no sum of the degrees {self.degree} and {other.degree}")
        if other.version.complex is not self.version.complex:
            raise OtherComplex("there is no sum across two complexes")
        newer = max(self.version, other.version, key=lambda v: v.number)
        return type(self)(newer, self.degree, self._members ^ other._members)

    __sub__ = __add__

    def __eq__(self, other: object) -> bool:
        """Whether degree and simplices are the same, in one complex; in whatever versions of it."""
        if type(other) is not type(self) or not isinstance(other, SimplexSum):
            return NotImplemented
        return (self.degree, self._members) == (other.degree, other._members) and self.version.complex is other.version.complex

    def __hash__(self) -> int:
        return hash((type(self).__name__, self.degree, self._members))

    def word(self) -> str:
        """The literal as it is sent, with the numbers of the program."""
        return replies.literal_text(self.degree, sorted(self._members), self.brackets)

    def __str__(self) -> str:
        inside = ",".join("-".join(map(str, simplex)) for simplex in self)
        return f"{self.degree}:{self.brackets[0]}{inside}{self.brackets[1]}"

    __repr__ = __str__


class Cochain(SimplexSum):
    """A cochain of degree p: a set of p-simplices, at which its value is 1."""

    def __call__(self, chain: "Chain") -> int:
        """The value on a chain of the same degree, 0 or 1. Raises WrongDegree."""
        if chain.degree != self.degree:
            raise WrongDegree(f"a cochain of degree {self.degree} has no value on a chain of degree {chain.degree}")
        return len(self._members & chain._members) % 2

    def delta(self) -> "Cochain":
        """The coboundary, of one degree more."""
        return self.version.as_cochain(self.version.question("delta " + self.word()))

    def is_cocycle(self) -> bool:
        return not self.delta()

    def cohomology_class(self) -> "CohomologyClass":
        """The class of a cocycle. Raises NotACocycle."""
        return self.version.as_class(self.version.question("class " + self.word()))

    def bound(self) -> "Cochain":
        """The canonical cochain of one degree less whose coboundary this is. Raises NotACocycle, and NotABoundary."""
        return self.version.as_cochain(self.version.question("bound " + self.word()))

    def cup_i(self, i: int, other: "CochainLike") -> "Cochain":
        """Steenrod's product of index i with a cochain of degree q (or the canonical cocycle of a class): degree p + q - i."""
        return self.version.cup_i(i, self, other)

    def cup(self, other: "CochainLike") -> "Cochain":
        """The product of Alexander and Whitney with a cochain of degree q, of degree p + q, in the order of the vertices."""
        return self.version.cup_i(0, self, other)

    def cap(self, chain: "ChainLike") -> "Chain":
        """The cap product with a chain of degree q, of degree q - p. Raises WrongDegrees where p is greater."""
        return self.version.cap(self, chain)


class Chain(SimplexSum):
    """A chain of degree p: a set of p-simplices."""

    brackets = "[]"

    def boundary(self) -> "Chain":
        """The boundary, of one degree less; that of points is empty, of degree 0."""
        return self.version.as_chain(self.version.question("boundary " + self.word()))

    def is_cycle(self) -> bool:
        return not self.boundary()

    def homology_class(self) -> "HomologyClass":
        """The class of a cycle: its values under the canonical cocycles. Raises NotACycle."""
        boundary = self.boundary()
        if boundary:
            raise NotACycle(boundary)
        from .classes import HomologyClass
        cocycles = self.version.cocycles(self.degree)
        return HomologyClass(self.version, self.degree, [k for k, cocycle in enumerate(cocycles) if cocycle(self)])
