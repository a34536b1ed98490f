"""The cohomology ring modulo 2 of one version, with its operations: everything in one object, without a program behind it.

A `Ring` has a basis in each degree (`#0`, `#1`, .. born with the essential simplices), all products of basis classes (of
positive degree where the complex is connected, since the unit is the one class of degree 0 then), all squares and
Bocksteins of basis classes, and, for a closed complex without degenerate classes, Wu and Stiefel-Whitney classes and
numbers. It prints as a table (`str`), and writes itself as JSON and as LaTeX.

Products commute and squares are additive, so that those of the basis are all: pairs are asked once, with the first factor the
one of less degree or number. What lies in a degree without classes is zero, and is not asked.
"""

from __future__ import annotations

from typing import TYPE_CHECKING, Any, Dict, Hashable, List, Optional, Tuple

from . import linear, replies
from .errors import BadLink, DegenerateClass, NotClosed
from .transport import Progress

if TYPE_CHECKING:
    from .version import Version

Basis = Tuple[int, int]
"""A basis class: its degree and its number."""

Numbers = Tuple[int, ...]


class Ring:
    """A ring as plain data. Degrees are 0 to `dimension`; a class is a tuple of ascending numbers in its degree.

    betti            the Betti numbers
    count            the number of simplices of each dimension
    essential        for each degree the simplices that its basis classes are born with, in labels
    products         ((p, i), (q, j)) to the class of degree p + q, for 1 <= p <= q, and i <= j where p = q; where there are
                     several components also for p = 0 < q (in degree 0 each basis class is 1 on one component)
    squares          (k, (p, i)) to the class of degree p + k, for 1 <= k <= p
    bocksteins       (p, i) to the class of degree p + 1, for p >= 1
    closed           the dimension of a closed complex, or None; `not_closed` says why
    sphere_links     whether each link has the Betti numbers of a sphere; `bad_link` says where not
    wu, sw           the classes of degrees 0 to n, or None; `not_dual` says why
    numbers          the Stiefel-Whitney numbers by partition, or None
    """

    def __init__(self) -> None:
        self.betti: Numbers = ()
        self.count: Numbers = ()
        self.essential: List[List[Tuple[Hashable, ...]]] = []
        self.products: Dict[Tuple[Basis, Basis], Numbers] = {}
        self.squares: Dict[Tuple[int, Basis], Numbers] = {}
        self.bocksteins: Dict[Basis, Numbers] = {}
        self.closed: Optional[int] = None
        self.not_closed = ""
        self.sphere_links = False
        self.bad_link = ""
        self.wu: Optional[List[Numbers]] = None
        self.sw: Optional[List[Numbers]] = None
        self.numbers: Optional[Dict[Numbers, int]] = None
        self.not_dual = ""

    @classmethod
    def of(cls, version: "Version", progress: Optional[Progress] = None) -> "Ring":
        """The ring of a version. Cost: a request for each pair of basis classes whose product may not be zero, in one batch."""
        ring = cls()
        ring.count, ring.betti = version.count(), version.betti()
        ring.essential = [version.essential(p) for p in range(len(ring.betti))]
        ring._operations(version, progress)
        ring._manifold(version)
        return ring

    @property
    def dimension(self) -> int:
        return len(self.betti) - 1

    def rank(self, degree: int) -> int:
        """How many classes a degree has."""
        return self.betti[degree] if 0 <= degree <= self.dimension else 0

    # what is asked

    def _operations(self, version: "Version", progress: Optional[Progress]) -> None:
        wanted: List[Tuple[str, str, Any]] = []
        for p in range(0 if self.rank(0) > 1 else 1, self.dimension + 1):
            for i in range(self.rank(p)):
                a = f"{p}:#{i}"
                wanted += [("cup", f"cup {a} {q}:#{j}", ((p, i), (q, j)))
                           for q in range(max(p, 1), self.dimension + 1 - p) if self.rank(p + q)
                           for j in range(i if q == p else 0, self.rank(q))]
                if p == 0:
                    continue
                wanted += [("square", f"square {k} {a}", (k, (p, i))) for k in range(1, p + 1) if self.rank(p + k)]
                if self.rank(p + 1):
                    wanted.append(("bockstein", f"bockstein {a}", (p, i)))
        answers = version.questions([request for _, request, _ in wanted], progress)
        tables: Dict[str, Dict[Any, Numbers]] = {"cup": self.products, "square": self.squares, "bockstein": self.bocksteins}
        for (table, _, key), words in zip(wanted, answers):
            tables[table][key] = replies.class_word(words[0])[1]

    def _manifold(self, version: "Version") -> None:
        try:
            self.closed = version.closed()
        except NotClosed as fault:
            self.not_closed = str(fault)
        try:
            version.links()
            self.sphere_links = True
        except BadLink as fault:
            self.bad_link = str(fault)
        if self.closed is None:
            self.not_dual = self.not_closed
            return
        try:
            self.wu = [v.numbers for v in version.wu()]
            self.sw = [w.numbers for w in version.stiefel_whitney()]
            self.numbers = version.stiefel_whitney_numbers()
        except DegenerateClass as fault:
            self.not_dual = str(fault)

    # products of any classes, without the program

    def product(self, p: int, a: int, q: int, b: int) -> int:
        """The product of two vectors of positive degrees p and q, as a vector of degree p + q (vectors as in cohom.linear)."""
        total = 0
        for i in range(self.rank(p)):
            if a >> i & 1:
                for j in range(self.rank(q)):
                    if b >> j & 1:
                        total ^= self.basis_product((p, i), (q, j))
        return total

    def basis_product(self, a: Basis, b: Basis) -> int:
        """The product of two basis classes of positive degree, as a vector."""
        return linear.vector(self.products.get((a, b) if a <= b else (b, a), ()))

    def square_rows(self, k: int, p: int) -> List[int]:
        """Sq^k of the basis classes of degree p, as vectors."""
        return [linear.vector(self.squares.get((k, (p, i)), ())) for i in range(self.rank(p))]

    def bockstein_rows(self, p: int) -> List[int]:
        """The Bocksteins of the basis classes of degree p, as vectors."""
        return [linear.vector(self.bocksteins.get((p, i), ())) for i in range(self.rank(p))]

    # as text

    def __str__(self) -> str:
        from .ring_text import table
        return table(self)

    def __repr__(self) -> str:
        products = sum(map(bool, self.products.values()))
        return f"Ring: Betti numbers {' '.join(map(str, self.betti))}, {products} products that are not zero"

    def to_json(self) -> str:
        """All of it as a JSON object; classes are lists of numbers, labels are texts where they are neither texts nor numbers."""
        from .ring_text import as_json
        return as_json(self)

    def to_latex(self) -> str:
        """All of it as LaTeX: displays for the amsmath package."""
        from .ring_text import latex
        return latex(self)


