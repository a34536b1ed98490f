"""The questions about one version of a complex.

`Questions` has all of them; a `Complex` asks them of its newest state and a `Version` of the version that it is. The methods
give values in the labels of the user, and raise exceptions that say in words what is wrong.
"""

from __future__ import annotations

from typing import TYPE_CHECKING, Dict, Hashable, Iterable, List, Optional, Sequence, Tuple, Union

from . import replies
from .chains import Chain, Cochain
from .classes import ClassSum, CohomologyClass, HomologyClass
from .errors import BadLink, NoSuchClass, NotASimplex, NotClosed, OtherComplex, OtherVersion, WrongDegree
from .labels import Labels
from .transport import Progress

if TYPE_CHECKING:
    from .complex import Complex
    from .ring import Ring

Partition = Tuple[int, ...]
CochainLike = Union[Cochain, CohomologyClass]
"""A cochain, or a class for its canonical cocycle."""
ChainLike = Union[Chain, HomologyClass]
"""A chain, or a homology class for its cycle."""


class Questions:
    """The questions that a complex and each of its versions answer."""

    def now(self) -> "Version":
        """The version that is asked."""
        raise NotImplementedError

    # numbers

    def count(self) -> Tuple[int, ...]:
        """The number of simplices of each dimension, from 0."""
        return tuple(map(int, self.now().remembered("count")))

    def betti(self) -> Tuple[int, ...]:
        """The Betti numbers modulo 2, from degree 0 to the dimension; none for the empty complex."""
        return tuple(map(int, self.now().remembered("betti")))

    @property
    def dimension(self) -> int:
        """The largest dimension of a simplex; -1 for the empty complex."""
        return len(self.betti()) - 1

    def euler(self) -> int:
        """The Euler characteristic."""
        return sum((-1) ** p * b for p, b in enumerate(self.betti()))

    def kind(self, simplex: Iterable[Hashable]) -> str:
        """`essential` where a class was born with the simplex that lives, else `other`. Raises NotASimplex, UnknownVertex."""
        now = self.now()
        return now.question("kind " + now.simplex_word(simplex))[1]

    def essential(self, degree: int) -> List[Tuple[Hashable, ...]]:
        """The essential simplices of one dimension, in the order of attachment: class `#k` is born with the k-th."""
        now = self.now()
        return now.labels.simplices(map(replies.simplex, now.question(f"classes {degree}")[2:]))

    # classes

    def classes(self, degree: int) -> List[CohomologyClass]:
        """The basis of cohomology in one degree: the classes #0, #1, .. Empty past the dimension."""
        now = self.now()
        return [CohomologyClass(now, degree, [k]) for k in range(now.rank(degree))]

    def homology(self, degree: int) -> List[HomologyClass]:
        """The dual basis of homology in one degree: the classes *0, *1, .."""
        now = self.now()
        return [HomologyClass(now, degree, [k]) for k in range(now.rank(degree))]

    def cls(self, degree: int, *numbers: int) -> CohomologyClass:
        """The sum of the classes of these numbers; zero without any. Raises NoSuchClass, WrongDegree."""
        now = self.now()
        return CohomologyClass(now, degree, now.known(degree, numbers))

    def homology_class(self, degree: int, *numbers: int) -> HomologyClass:
        """The sum of the homology classes of these numbers. Raises NoSuchClass, WrongDegree."""
        now = self.now()
        return HomologyClass(now, degree, now.known(degree, numbers))

    def unit(self) -> CohomologyClass:
        """The unit of the ring: the sum of all classes of degree 0."""
        return self.cls(0, *range(self.now().rank(0)))

    def cocycle(self, degree: int, number: int) -> Cochain:
        """The canonical cocycle of the class of this number. Raises NoSuchClass."""
        return self.cls(degree, number).cocycle()

    def cycle(self, degree: int, number: int) -> Chain:
        """A cycle of the homology class of this number, at which exactly the class of the same number is 1. Raises
        NoSuchClass."""
        return self.homology_class(degree, number).cycle()

    def cocycles(self, degree: int) -> List[Cochain]:
        """The canonical cocycles of all classes of one degree, in one batch."""
        now = self.now()
        return [now.as_cochain(words) for words in now.questions([f"cochain {degree}:#{k}" for k in range(now.rank(degree))])]

    # cochains and chains

    def cochain(self, degree: int, simplices: Iterable[Iterable[Hashable]]) -> Cochain:
        """The sum of these simplices, as a cochain. Raises UnknownVertex, and NotASimplex for an absent one or one of
        another dimension."""
        now = self.now()
        return now.as_cochain(now.question("cochain " + now.literal(degree, simplices, "{}")))

    def chain(self, degree: int, simplices: Iterable[Iterable[Hashable]]) -> Chain:
        """The sum of these simplices, as a chain. Raises UnknownVertex, NotASimplex."""
        now = self.now()
        return now.as_chain(now.question("chain " + now.literal(degree, simplices, "[]")))

    def model(self, simplex: Iterable[Hashable]) -> Tuple[Chain, Chain]:
        """The rows of a p-simplex in the normalised contraction: f, of degree p, and phi, of degree p + 1. Raises NotASimplex."""
        now = self.now()
        words = now.question("model " + now.simplex_word(simplex))
        return now.as_chain(words[1:2]), now.as_chain(words[2:3])

    def cup_i(self, i: int, a: CochainLike, b: CochainLike) -> Cochain:
        """Steenrod's product of index i of two cochains of degrees p and q (classes stand for their canonical cocycles):
        degree p + q - i."""
        now = self.now()
        return now.as_cochain(now.question(f"cupi {i} {now.word(a)} {now.word(b)}"))

    def cap(self, a: CochainLike, z: ChainLike) -> Chain:
        """The cap product of a cochain of degree p and a chain of degree q, of degree q - p. Raises WrongDegrees where p is
        greater."""
        now = self.now()
        return now.as_chain(now.question(f"cap {now.word(a)} {now.word(z)}"))

    # why a result depends on the classes alone

    def same_cup(self, a: CochainLike, a2: CochainLike, b: CochainLike, b2: CochainLike) -> Cochain:
        """For cocycles a, a2 of one class and b, b2 of one class: the cochain whose coboundary is the sum of the products
        of a, b and of a2, b2. Raises NotACocycle, WrongDegrees, NotOneClass."""
        return self._same("cup", a, a2, b, b2)

    def same_square(self, k: int, a: CochainLike, a2: CochainLike) -> Cochain:
        """The same for Sq^k of two cocycles of one class."""
        return self._same(f"square {k}", a, a2)

    def same_bockstein(self, a: CochainLike, a2: CochainLike) -> Cochain:
        """The same for the Bocksteins of two cocycles of one class."""
        return self._same("bockstein", a, a2)

    def _same(self, what: str, *cocycles: CochainLike) -> Cochain:
        now = self.now()
        return now.as_cochain(now.question(" ".join(["same", what, *map(now.word, cocycles)]))[1:])

    # closed complexes

    def closed(self) -> int:
        """The dimension n of a closed complex: each simplex lies in an n-simplex, and each one of dimension n - 1 in two.
        Raises NotClosed."""
        return int(self.now().remembered("closed")[0])

    def is_closed(self) -> bool:
        try:
            self.closed()
        except NotClosed:
            return False
        return True

    def links(self) -> None:
        """Passes where each link has the Betti numbers of a sphere of the dimension that is left. Raises BadLink with the
        first that has not."""
        self.now().remembered("links")

    def has_sphere_links(self) -> bool:
        """Whether each link has the Betti numbers of a sphere. In dimension at most 3, with `is_closed`, that is a closed
        manifold."""
        try:
            self.links()
        except BadLink:
            return False
        return True

    def fundamental_cycle(self) -> Chain:
        """The sum of all simplices of the dimension of a closed complex. Raises NotClosed."""
        now = self.now()
        top = self.closed()
        return Chain(now, top, map(now.labels.numbers, now.complex.simplices_of(now, top)))

    def duality(self) -> List[List[List[int]]]:
        """For each degree p the pairings of the classes of degree p, a row for each, with those of degree n - p. Raises
        NotClosed, DegenerateClass."""
        return replies.rows(self.now().remembered("duality"))

    def wu(self) -> List[CohomologyClass]:
        """The Wu classes of degrees 0 to n. Raises NotClosed, DegenerateClass."""
        now = self.now()
        return [now.as_class([word]) for word in now.remembered("wu")]

    def stiefel_whitney(self) -> List[CohomologyClass]:
        """The Stiefel-Whitney classes of degrees 0 to n, by Wu's formula. Raises NotClosed, DegenerateClass."""
        now = self.now()
        return [now.as_class([word]) for word in now.remembered("sw")]

    def stiefel_whitney_number(self, *degrees: int) -> int:
        """The value of the product of the Stiefel-Whitney classes of these degrees, 0 or 1. Raises WrongSum, NotClosed,
        DegenerateClass."""
        return int(self.now().question("swnumber " + " ".join(map(str, degrees)))[0])

    def stiefel_whitney_numbers(self) -> Dict[Partition, int]:
        """All of them: for each partition of n, parts descending. Raises NotClosed, DegenerateClass."""
        now, top = self.now(), self.closed()
        shapes = list(partitions(top))
        if shapes == [()]:
            now.remembered("sw")
            return {}
        answers = now.questions(["swnumber " + " ".join(map(str, shape)) for shape in shapes])
        return {shape: int(words[0]) for shape, words in zip(shapes, answers)}

    # more

    def ring(self, progress: Optional[Progress] = None) -> "Ring":
        """The cohomology ring with squares and Bocksteins, and characteristic classes where they are defined (see cohom.ring)."""
        from .ring import Ring
        return Ring.of(self.now(), progress)

    def ask(self, *requests: str, progress: Optional[Progress] = None) -> List[str]:
        """Requests of the language as they stand, and their replies as they come; vertices are the numbers of the program. Raises
        Refusal for one that would change the complex or has no reply."""
        now = self.now()
        return now.complex.session().raw(now.number, requests, progress)


class Version(Questions):
    """One version of a complex: `number`, from 1. Two are equal where both are the same version of one complex."""

    def __init__(self, complex: "Complex", number: int) -> None:
        self.complex, self.number = complex, number
        self._remembered: Dict[str, List[str]] = {}

    def now(self) -> "Version":
        return self

    @property
    def labels(self) -> Labels:
        return self.complex.labels

    def __eq__(self, other: object) -> bool:
        return isinstance(other, Version) and other.complex is self.complex and other.number == self.number

    def __hash__(self) -> int:
        return hash((id(self.complex), self.number))

    def __repr__(self) -> str:
        return f"version {self.number} of a complex"

    # asking

    def question(self, request: str) -> List[str]:
        """The words behind the verb of the reply. Raises what a refusal means."""
        return self.complex.session().question(self.number, request)

    def questions(self, requests: Sequence[str], progress: Optional[Progress] = None) -> List[List[str]]:
        """The same for many requests in one batch."""
        return self.complex.session().questions(self.number, requests, progress)

    def remembered(self, request: str) -> List[str]:
        """A question without arguments, asked once."""
        if request not in self._remembered:
            self._remembered[request] = self.question(request)
        return self._remembered[request]

    def rank(self, degree: int) -> int:
        """How many classes a degree has."""
        if degree < 0:
            raise WrongDegree("a degree is not negative")
        betti = self.betti()
        return betti[degree] if degree < len(betti) else 0

    def known(self, degree: int, numbers: Iterable[int]) -> List[int]:
        """The numbers that stand an odd number of times. Raises NoSuchClass."""
        kept: Dict[int, None] = {}
        for number in numbers:
            if not 0 <= number < self.rank(degree):
                raise NoSuchClass(degree, number, self.rank(degree))
            if number in kept:
                del kept[number]
            else:
                kept[number] = None
        return list(kept)

    # words and values

    def simplex_word(self, simplex: Iterable[Hashable]) -> str:
        return "-".join(map(str, self.labels.numbers(simplex)))

    def literal(self, degree: int, simplices: Iterable[Iterable[Hashable]], brackets: str) -> str:
        if degree < 0:
            raise WrongDegree("a degree is not negative")
        members = []
        for simplex in simplices:
            numbers = self.labels.numbers(simplex)
            if len(numbers) != degree + 1:
                raise NotASimplex(self.labels.simplex(numbers), f"is of dimension {len(numbers) - 1}, and the degree is {degree}")
            members.append(numbers)
        return replies.literal_text(degree, members, brackets)

    def word(self, value: Union[CochainLike, ChainLike]) -> str:
        """A class, cochain, chain or homology class as a word. Raises OtherComplex, OtherVersion."""
        if value.version.complex is not self.complex:
            raise OtherComplex("this value is of another complex")
        if isinstance(value, ClassSum) and value.version != self:
            raise OtherVersion(f"a class of version {value.version.number} is asked about in version {self.number}: take its cocycle")
        return value.word()

    def as_cochain(self, words: Sequence[str]) -> Cochain:
        return Cochain(self, *replies.literal(words[0]))

    def as_chain(self, words: Sequence[str]) -> Chain:
        return Chain(self, *replies.literal(words[0]))

    def as_class(self, words: Sequence[str]) -> CohomologyClass:
        return CohomologyClass(self, *replies.class_word(words[0]))


def partitions(n: int, largest: Optional[int] = None) -> Iterable[Partition]:
    """All partitions of n, parts descending, from (1, .., 1) to (n)."""
    if n == 0:
        yield ()
        return
    for first in range(1, min(n, n if largest is None else largest) + 1):
        for rest in partitions(n - first, first):
            yield (first,) + rest
