"""Classes of cohomology and homology modulo 2, as objects.

    a * b   cup product          a.Sq(k)         Steenrod square, k degrees up      a + b   sum
    a ** n  power                a.bockstein()   Bockstein, one degree up           a == b  one class
    a(z)    value at a cycle     a.cap(z)        cap product

A class belongs to one version of one complex: `#k` is the class that was born with the k-th essential simplex. The canonical
cocycle of a class is `a.cocycle()`, a cycle of a homology class `z.cycle()`; `#j` has the value 1 at `*j` and 0 at all others.
"""

from __future__ import annotations

from typing import TYPE_CHECKING, Iterable, Tuple, TypeVar, Union, overload

from . import replies
from .errors import OtherComplex, OtherVersion, WrongDegree

if TYPE_CHECKING:
    from .chains import Chain, Cochain
    from .version import Version

C = TypeVar("C", bound="ClassSum")


class ClassSum:
    """A sum of basis classes of one degree: `degree`, and `numbers`, ascending; none for the zero class."""

    sign = "#"

    def __init__(self, version: "Version", degree: int, numbers: Iterable[int]) -> None:
        self.version, self.degree = version, degree
        self.numbers: Tuple[int, ...] = tuple(sorted(set(numbers)))

    def is_zero(self) -> bool:
        return not self.numbers

    def __bool__(self) -> bool:
        return bool(self.numbers)

    def __add__(self: C, other: Union[C, int]) -> C:
        """The sum of two classes of one degree. Raises WrongDegree, OtherVersion, OtherComplex."""
        if other == 0 and isinstance(other, int):
            return self
        if type(other) is not type(self):
            return NotImplemented
        assert isinstance(other, ClassSum)
        if other.degree != self.degree:
            raise WrongDegree(f"there is no sum of the degrees {self.degree} and {other.degree}")
        self.with_one_version(other)
        return type(self)(self.version, self.degree, set(self.numbers) ^ set(other.numbers))

    __radd__ = __add__
    __sub__ = __add__

    def __eq__(self, other: object) -> bool:
        """Whether both are one class of one version of one complex. `a == 0` asks whether the class is zero."""
        if isinstance(other, int) and not isinstance(other, bool):
            return other == 0 and not self.numbers
        if type(other) is not type(self) or not isinstance(other, ClassSum):
            return NotImplemented
        return (self.version, self.degree, self.numbers) == (other.version, other.degree, other.numbers)

    def __hash__(self) -> int:
        return hash((type(self).__name__, self.degree, self.numbers))

    def with_one_version(self, other: "ClassSum") -> None:
        """Raises OtherComplex or OtherVersion where the other value is of another one."""
        if other.version.complex is not self.version.complex:
            raise OtherComplex("the two are of two complexes")
        if other.version != self.version:
            raise OtherVersion(f"the one is of version {self.version.number} and the other of version {other.version.number}: "
                               "classes are numbered anew in each version, so ask for them again")

    def word(self) -> str:
        """The class word as it is sent."""
        return replies.class_text(self.degree, self.numbers, self.sign)

    def __str__(self) -> str:
        return self.word()

    __repr__ = __str__


class CohomologyClass(ClassSum):
    """A class of degree p in cohomology."""

    def cocycle(self) -> "Cochain":
        """The canonical cocycle of the class."""
        return self.version.as_cochain(self.version.question("cochain " + self.word()))

    def __mul__(self, other: "CohomologyClass") -> "CohomologyClass":
        """The cup product, of the sum of the degrees. Raises OtherVersion, OtherComplex."""
        if not isinstance(other, CohomologyClass):
            return NotImplemented
        self.with_one_version(other)
        return self.version.as_class(self.version.question(f"cup {self.word()} {other.word()}"))

    def __pow__(self, exponent: int) -> "CohomologyClass":
        """The power; that of exponent 0 is the unit."""
        if exponent < 0:
            raise WrongDegree("a class has no negative power")
        power = self.version.unit()
        for step in range(exponent):
            power = self if step == 0 else power * self
        return power

    def Sq(self, k: int) -> "CohomologyClass":
        """The Steenrod square Sq^k, k degrees up: the class itself for 0, its product with itself for its degree."""
        if k < 0:
            raise WrongDegree("a square has no negative exponent")
        return self.version.as_class(self.version.question(f"square {k} {self.word()}"))

    def bockstein(self) -> "CohomologyClass":
        """The Bockstein, one degree up: zero exactly where the class comes from one modulo 4."""
        return self.version.as_class(self.version.question("bockstein " + self.word()))

    @overload
    def cap(self, other: "HomologyClass") -> "HomologyClass": ...

    @overload
    def cap(self, other: "Chain") -> "Chain": ...

    def cap(self, other: "Union[Chain, HomologyClass]") -> "Union[Chain, HomologyClass]":
        """The cap product of degree q - p: with a homology class of degree q a homology class, with a chain a chain (by the
        canonical cocycle). Raises WrongDegrees where p is greater than q."""
        if isinstance(other, HomologyClass):
            self.with_one_version(other)
            return self.version.cap(self, other).homology_class()
        return self.version.cap(self, other)

    def __call__(self, other: "Union[Chain, HomologyClass]") -> int:
        """The value at a homology class or a chain of the same degree, 0 or 1. Raises WrongDegree."""
        if isinstance(other, HomologyClass):
            self.with_one_version(other)
            if other.degree != self.degree:
                raise WrongDegree(f"a class of degree {self.degree} has no value at one of degree {other.degree}")
            return len(set(self.numbers) & set(other.numbers)) % 2
        return self.cocycle()(other)


class HomologyClass(ClassSum):
    """A class of degree p in homology."""

    sign = "*"

    def cycle(self) -> "Chain":
        """A cycle of the class: the sum of those that belong to the essential simplices."""
        return self.version.as_chain(self.version.question("chain " + self.word()))
