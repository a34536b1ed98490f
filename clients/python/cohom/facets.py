"""A complex as its vertices, in order, and its facets: no program, no answers, just lists.

`Facets` is what the readers give and the constructions take and give. The order of the vertices is part of it, since
cochains are multiplied by it: each facet is kept as a tuple of labels in that order.
"""

from __future__ import annotations

from itertools import combinations
from numbers import Integral
from typing import Any, Dict, FrozenSet, Hashable, Iterable, Iterator, List, Optional, Protocol, Sequence, Tuple, Union

from .errors import BadFacet, UnknownVertex

Label = Hashable
Simplex = Tuple[Label, ...]


class HasFacets(Protocol):
    """A Complex, or whatever else has facets."""

    @property
    def facets(self) -> "Facets": ...


FacetsLike = Union["Facets", HasFacets, Iterable[Iterable[Label]]]
"""What constructions and complexes take: a Facets, a Complex, or a list of facets."""


class Facets:
    """Vertices in order, and facets.

    Without `vertices` the order is the ascending one where all labels are integers, or texts, or tuples of them that
    can be compared, else that in which they come. `origins` tells for each facet where it was written, for messages. Raises
    BadFacet for a facet without vertices, with a vertex twice, or that is no collection of labels, and UnknownVertex for
    one past `vertices`.
    """

    def __init__(self, facets: Iterable[Iterable[Label]], vertices: Optional[Iterable[Label]] = None,
                 origins: Optional[Sequence[str]] = None) -> None:
        given = [_labels(facet) for facet in facets]
        self.vertices: Tuple[Label, ...] = _order(given) if vertices is None else tuple(dict.fromkeys(vertices))
        self._place: Dict[Label, int] = {v: i for i, v in enumerate(self.vertices)}
        self.facets: Tuple[Simplex, ...] = tuple(self.ordered(facet) for facet in given)
        self.origins: Tuple[str, ...] = tuple(origins) if origins is not None else ("",) * len(given)

    def ordered(self, simplex: Iterable[Label]) -> Simplex:
        """These labels in the order of the vertices. Raises UnknownVertex."""
        try:
            return tuple(sorted(simplex, key=self._place.__getitem__))
        except KeyError as fault:
            raise UnknownVertex(fault.args[0]) from None

    def place(self, label: Label) -> int:
        """The place of a vertex in the order, from 0. Raises UnknownVertex."""
        try:
            return self._place[label]
        except (KeyError, TypeError):
            raise UnknownVertex(label) from None

    def sort(self, simplices: Iterable[Simplex]) -> List[Simplex]:
        """Simplices by dimension, and then by the places of their vertices."""
        return sorted(simplices, key=lambda s: (len(s), [self._place[v] for v in s]))

    def simplices(self, dimension: Optional[int] = None) -> List[Simplex]:
        """All simplices, or those of one dimension, each once and in order. Takes 2 to the vertices of a facet for each facet."""
        found = {s for facet in self.facets
                 for size in (range(1, len(facet) + 1) if dimension is None else (dimension + 1,)) if size > 0
                 for s in combinations(facet, size)}
        return self.sort(found)

    def maximal(self) -> "Facets":
        """The same complex with the facets alone that are no face of another, each once."""
        kept: List[Tuple[Simplex, str]] = []
        seen: Dict[Label, List[FrozenSet[Label]]] = {}
        for facet, origin in sorted(zip(self.facets, self.origins), key=lambda pair: -len(pair[0])):
            members = frozenset(facet)
            if not any(members <= other for other in seen.get(facet[0], ())):
                kept.append((facet, origin))
                for vertex in facet:
                    seen.setdefault(vertex, []).append(members)
        place = {facet: i for i, facet in reversed(list(enumerate(self.facets)))}
        kept.sort(key=lambda pair: place[pair[0]])
        return Facets([facet for facet, _ in kept], self.vertices, [origin for _, origin in kept])

    @property
    def dimension(self) -> int:
        """The largest dimension of a simplex, and -1 where there is none."""
        return max((len(facet) for facet in self.facets), default=0) - 1

    def __contains__(self, simplex: Any) -> bool:
        members = frozenset(simplex)
        return bool(members) and any(members <= frozenset(facet) for facet in self.facets)

    def __iter__(self) -> Iterator[Simplex]:
        return iter(self.facets)

    def __len__(self) -> int:
        return len(self.facets)

    def __repr__(self) -> str:
        return f"Facets: {len(self.facets)} on {len(self.vertices)} vertices, of dimension {self.dimension}"


def as_facets(given: FacetsLike) -> Facets:
    """A Facets, what has one as its `facets` (a Complex), or a list of facets. Raises BadFacet."""
    if isinstance(given, Facets):
        return given
    inside = getattr(given, "facets", None)
    return inside if isinstance(inside, Facets) else Facets(given)  # type: ignore[arg-type]


def _labels(facet: Any) -> Simplex:
    if isinstance(facet, (str, bytes)):
        raise BadFacet(facet, "a facet is a list of labels, and this is one text; read_text reads texts")
    try:
        labels = tuple([v if type(v) is int or not isinstance(v, Integral) or isinstance(v, bool) else int(v) for v in facet])
        distinct = set(labels)
    except TypeError:
        raise BadFacet(facet, "a facet is a list of hashable labels") from None
    if not labels:
        raise BadFacet(facet, "a facet has at least one vertex")
    if len(distinct) < len(labels):
        twice = next(v for i, v in enumerate(labels) if v in labels[:i])
        raise BadFacet(facet, f"the vertex {twice!r} stands there twice")
    return labels


def _order(facets: List[Simplex]) -> Tuple[Label, ...]:
    labels = list(dict.fromkeys(v for facet in facets for v in facet))
    try:
        if all(map(_has_order, labels)):
            return tuple(sorted(labels))  # type: ignore[type-var]
    except TypeError:
        pass
    return tuple(labels)


def _has_order(label: Label) -> bool:
    """Whether a label is an integer, a text, or a tuple of such."""
    return all(map(_has_order, label)) if isinstance(label, tuple) else isinstance(label, (int, str))
