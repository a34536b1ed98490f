"""Two complexes compared by invariants that no choice of basis or order touches.

Betti numbers, ranks of products, squares and Bocksteins, counts of zero products, and ranks of triple products belong to the
homotopy type; so two complexes that differ in one of them are not homotopy equivalent. Whether a complex is closed, whether
its links are those of spheres, and Stiefel-Whitney numbers belong to the space up to homeomorphism. Where nothing differs the
two are not told apart modulo 2, which does not mean that they are alike.
"""

from __future__ import annotations

from typing import Dict, List, NamedTuple, Optional, Tuple, Union

from . import linear
from .complex import Complex
from .facets import FacetsLike
from .ring import Ring
from .ring_text import columns
from .version import Questions

SEARCHED = 14
"""Zero products of degrees with more classes than this on both sides, and more than one above, are not counted."""


Comparable = Union[Ring, Questions, FacetsLike]


class Invariant(NamedTuple):
    """One invariant: its name, whether it is one of homotopy types, and its values as texts (None where it was not found)."""

    name: str
    of_homotopy: bool
    first: Optional[str]
    second: Optional[str]

    @property
    def differs(self) -> bool:
        return self.first is not None and self.second is not None and self.first != self.second


class Comparison:
    """What was compared: `invariants`, and those that `differ`. As a text it shows what differs and what was compared."""

    def __init__(self, invariants: List[Invariant]) -> None:
        self.invariants = invariants

    @property
    def differ(self) -> List[Invariant]:
        return [i for i in self.invariants if i.differs]

    @property
    def told_apart(self) -> bool:
        return bool(self.differ)

    @property
    def verdict(self) -> str:
        """One sentence."""
        if any(i.of_homotopy for i in self.differ):
            return "told apart: the two are not homotopy equivalent"
        return "told apart: the two are not homeomorphic" if self.differ else "not told apart modulo 2"

    def __str__(self) -> str:
        lines = [self.verdict]
        if self.differ:
            lines += columns([("what differs", "first", "second")] + [(i.name, str(i.first), str(i.second)) for i in self.differ])
        lines.append(f"{len(self.invariants)} invariants compared, {len(self.differ)} of them differ")
        left_out = [i.name for i in self.invariants if i.first is None or i.second is None]
        return "\n".join(lines + ([f"left out: {', '.join(left_out)}"] if left_out else []))

    def __repr__(self) -> str:
        return f"Comparison: {self.verdict}"


def compare(a: Comparable, b: Comparable) -> Comparison:
    """Compares two complexes, versions, rings or lists of facets. Cost: that of their rings."""
    first, second = _invariants(_ring(a)), _invariants(_ring(b))
    return Comparison([Invariant(name, name not in OF_SPACES, first[name], second[name]) for name in first if name in second])


def _ring(value: Comparable) -> Ring:
    if isinstance(value, Ring):
        return value
    if isinstance(value, Questions):
        return value.ring()
    with Complex(value) as k:
        return k.ring()


OF_SPACES = ("dimension", "closed", "links of spheres", "duality", "Stiefel-Whitney numbers")


def _invariants(ring: Ring) -> Dict[str, Optional[str]]:
    """All invariants by name. What is not named has no classes to speak of, which the Betti numbers tell, or is not defined."""
    betti = list(ring.betti)
    while betti and betti[-1] == 0:
        betti.pop()
    found: Dict[str, Optional[str]] = {"Betti numbers": " ".join(map(str, betti)) or "none"}
    found.update(_products(ring))
    found.update(_operations(ring))
    found.update(_triples(ring))
    found["dimension"] = str(ring.dimension)
    found["closed"] = "no" if ring.closed is None else "yes"
    found["links of spheres"] = "yes" if ring.sphere_links else "no"
    if ring.closed is not None:
        found["duality"] = "no" if ring.wu is None else "yes"
    if ring.numbers is not None:
        found["Stiefel-Whitney numbers"] = ", ".join(" ".join(f"w{p}" for p in s) + f"={v}" for s, v in ring.numbers.items()) or "none"
    return found


def _products(ring: Ring) -> Dict[str, Optional[str]]:
    found: Dict[str, Optional[str]] = {}
    for p in range(0 if ring.rank(0) > 1 else 1, ring.dimension + 1):
        for q in range(max(p, 1), ring.dimension + 1 - p):
            if ring.rank(p) and ring.rank(q) and ring.rank(p + q):
                where = f"products of degrees {p} and {q}"
                rows = [[ring.basis_product((p, i), (q, j)) for j in range(ring.rank(q))] for i in range(ring.rank(p))]
                found["rank of the " + where] = str(linear.rank(v for row in rows for v in row))
                found["classes of degree %d whose %s are all zero" % (p, where)] = _power(ring.rank(p) - _row_rank(ring, rows))
                found["zero among the " + where] = _zeros(ring, p, q, rows)
    return found


def _row_rank(ring: Ring, rows: List[List[int]]) -> int:
    """The rank of the map from classes of the first degree to maps on those of the second."""
    width = max((v.bit_length() for row in rows for v in row), default=0)
    return linear.rank(sum(v << (k * width) for k, v in enumerate(row)) for row in rows)


def _power(exponent: int) -> str:
    return str(2 ** exponent) if exponent <= 20 else f"2^{exponent}"


def _zeros(ring: Ring, p: int, q: int, rows: List[List[int]]) -> Optional[str]:
    """How many pairs of classes have the product zero: by a formula where there is one class above, else over all classes of
    the degree that has fewer; None where these are too many."""
    if ring.rank(p + q) == 1:
        r = _row_rank(ring, rows)
        zeros = 2 ** (ring.rank(p) - r) * (2 ** r - 1) * 2 ** (ring.rank(q) - 1) + 2 ** (ring.rank(p) - r + ring.rank(q))
        return str(zeros)
    if ring.rank(q) < ring.rank(p):
        rows = [list(column) for column in zip(*rows)]
    if len(rows) > SEARCHED:
        return None
    current, zeros = [0] * len(rows[0]), 0
    for step in range(2 ** len(rows)):
        if step:
            turned = rows[(step & -step).bit_length() - 1]
            current = [v ^ w for v, w in zip(current, turned)]
        zeros += 2 ** (len(current) - linear.rank(current))
    return str(zeros)


def _operations(ring: Ring) -> Dict[str, Optional[str]]:
    found: Dict[str, Optional[str]] = {}
    for p in range(1, ring.dimension + 1):
        for k in range(1, p + 1):
            if ring.rank(p) and ring.rank(p + k):
                found[f"rank of Sq{k} on degree {p}"] = str(linear.rank(ring.square_rows(k, p)))
        if ring.rank(p) and ring.rank(p + 1):
            found[f"rank of the Bockstein on degree {p}"] = str(linear.rank(ring.bockstein_rows(p)))
    found.update(_pairs_of_squares(ring))
    return found


def _pairs_of_squares(ring: Ring) -> Dict[str, Optional[str]]:
    """The ranks of one square after another."""
    found: Dict[str, Optional[str]] = {}
    for p in range(1, ring.dimension + 1):
        for k in range(1, p + 1):
            for m in range(1, p + k + 1):
                if ring.rank(p) and ring.rank(p + k) and ring.rank(p + k + m):
                    second = ring.square_rows(m, p + k)
                    images = [linear.combination(second, v) for v in ring.square_rows(k, p)]
                    found[f"rank of Sq{m} Sq{k} on degree {p}"] = str(linear.rank(images))
    return found


def _triples(ring: Ring) -> Dict[str, Optional[str]]:
    """The dimension of the span of all products of three classes, for each three degrees."""
    found: Dict[str, Optional[str]] = {}
    top = ring.dimension
    for p in range(1, top + 1):
        for q in range(p, top + 1 - p):
            span = linear.basis(ring.basis_product((p, i), (q, j)) for i in range(ring.rank(p)) for j in range(ring.rank(q)))
            for r in range(q, top + 1 - p - q):
                if ring.rank(p) and ring.rank(q) and ring.rank(r) and ring.rank(p + q + r):
                    values = (ring.product(p + q, v, r, 1 << k) for v in span for k in range(ring.rank(r)))
                    found[f"rank of the triple products of degrees {p}, {q} and {r}"] = str(linear.rank(values))
    return found


__all__: Tuple[str, ...] = ("Comparison", "Invariant", "compare")
