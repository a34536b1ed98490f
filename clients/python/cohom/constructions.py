"""New complexes of old ones, on facets; each gives a Complex that is not asked anything yet.

An argument is a Complex, a Facets or a list of facets. Each call tells the labels of the new vertices and their order, by which
cochains are multiplied. Modulo 2 the order does not matter for classes, and it decides which cocycles are shown. Where two
complexes come together, the vertices of the first are (0, v) and those of the second (1, w), the first ones first.
"""

from __future__ import annotations

from itertools import combinations, permutations
from typing import Callable, Dict, Hashable, Iterable, Iterator, List, Optional, Sequence, Tuple

from .complex import Complex
from .errors import InputFault, NotASimplex
from .facets import Facets, FacetsLike, Simplex, as_facets

Label = Hashable


def product(a: FacetsLike, b: FacetsLike) -> Complex:
    """The product: vertices are pairs (v, w), in the order of v and then of w, so that both projections keep the order. A
    facet is a shortest way through the product of two facets, upwards in both orders. Its dimension is the sum of the
    dimensions."""
    first, second = as_facets(a), as_facets(b)
    facets = [way for f in first.facets for g in second.facets for way in _ways(f, g)]
    return Complex(Facets(facets, [(v, w) for v in first.vertices for w in second.vertices]))


def join(a: FacetsLike, b: FacetsLike) -> Complex:
    """The join: vertices (0, v) and then (1, w); a facet is one of the first and one of the second together. Its dimension
    is the sum of the dimensions and 1. The join with the empty complex is the other one."""
    first, second = _tagged(a, 0), _tagged(b, 1)
    facets = [f + g for f in first.facets or [()] for g in second.facets or [()]]
    return Complex(Facets([f for f in facets if f], first.vertices + second.vertices))


def cone(a: FacetsLike, apex: Optional[Label] = None) -> Complex:
    """The cone: the vertices of `a` in their order, and then the apex: `apex`, else the next number where all labels are
    integers, else `apex` (with primes where there is one). The cone of the empty complex is a point. Raises InputFault
    for an apex that is a vertex."""
    base = as_facets(a)
    tip = _new(base, ["apex"])[0] if apex is None else apex
    return Complex(_coned(base, [tip]))


def suspension(a: FacetsLike, apexes: Optional[Sequence[Label]] = None) -> Complex:
    """The suspension: the vertices of `a` in their order, and then two apexes: `apexes`, else the next two numbers where
    all labels are integers, else `north` and `south`. That of the empty complex is two points. Raises InputFault for
    an apex that is a vertex."""
    base = as_facets(a)
    tips = _new(base, ["north", "south"]) if apexes is None else list(apexes)
    if len(set(tips)) != 2:
        raise InputFault("a suspension has two apexes")
    return Complex(_coned(base, tips))


def disjoint_union(a: FacetsLike, b: FacetsLike) -> Complex:
    """Both beside each other: vertices (0, v) and then (1, w)."""
    first, second = _tagged(a, 0), _tagged(b, 1)
    return Complex(Facets(first.facets + second.facets, first.vertices + second.vertices))


def wedge(a: FacetsLike, b: FacetsLike, at: Optional[Tuple[Label, Label]] = None) -> Complex:
    """Both with one point in common: `at` names one vertex of each, else it is the first of each. Vertices are (0, v), with
    that point among them, and then (1, w) for the others of the second. Raises InputFault for an empty complex,
    UnknownVertex."""
    first, second = as_facets(a), as_facets(b)
    if not first.facets or not second.facets:
        raise InputFault("a wedge is of two complexes with a point each")
    left, right = at if at is not None else (first.vertices[0], second.vertices[0])
    first.place(left), second.place(right)
    return _glued(first, second, {right: left}, None, None)


def connected_sum(a: FacetsLike, b: FacetsLike, at: Optional[Tuple[Iterable[Label], Iterable[Label]]] = None,
                  turned: bool = False) -> Complex:
    """Two complexes with a facet taken out of each and the rims made one: `at` names the facets, else they are the first
    ones. The rims are glued by the order of the vertices, first to first; with `turned` the first two vertices of the
    second rim change places, which is the other way round for orientations. Vertices are (0, v), with the rim among them,
    and then (1, w). Raises InputFault where the two have no such facets of one dimension."""
    first, second = as_facets(a), as_facets(b)
    if not first.facets or not second.facets:
        raise InputFault("a connected sum is of two complexes with a facet each")
    given = at if at is not None else (first.facets[0], second.facets[0])
    left, right = first.ordered(given[0]), second.ordered(given[1])
    if left not in first.facets or right not in second.facets or len(left) != len(right) or len(left) < 2:
        raise InputFault("a connected sum takes a facet out of each complex, both of one dimension, at least 1")
    rim = (right[1], right[0]) + right[2:] if turned else right
    return _glued(first, second, dict(zip(rim, left)), left, right)


def skeleton(a: FacetsLike, dimension: int) -> Complex:
    """The simplices of at most this dimension; vertices keep labels and order. Raises InputFault for a negative dimension."""
    base = as_facets(a)
    if dimension < 0:
        raise InputFault("a skeleton has a dimension from 0")
    faces = (s for f in base.facets for s in (combinations(f, dimension + 1) if len(f) > dimension + 1 else [f]))
    return Complex(Facets(list(dict.fromkeys(faces)), base.vertices).maximal())


def barycentric_subdivision(a: FacetsLike) -> Complex:
    """The barycentric subdivision: vertices are the simplices of `a` as tuples of labels, by dimension and then by their
    vertices, and facets the flags. So each facet ascends from a point to a facet of `a`."""
    base = as_facets(a).maximal()
    flags = [tuple(tuple(v for v in f if v in way[:k]) for k in range(1, len(f) + 1))
             for f in base.facets for way in permutations(f)]
    return Complex(Facets(flags, base.simplices()))


def link(a: FacetsLike, simplex: Iterable[Label]) -> Complex:
    """The simplices without a vertex of this one whose union with it is there; labels and order are kept. Raises NotASimplex."""
    base, members = _simplex(a, simplex)
    rest = [tuple(v for v in f if v not in members) for f in base.facets if members <= set(f)]
    return Complex(_kept(base, [f for f in rest if f]))


def star(a: FacetsLike, simplex: Iterable[Label]) -> Complex:
    """All facets that have this simplex as a face; labels and order are kept. Raises NotASimplex."""
    base, members = _simplex(a, simplex)
    return Complex(_kept(base, [f for f in base.facets if members <= set(f)]))


def deleted(a: FacetsLike, simplex: Iterable[Label]) -> Complex:
    """The simplices that have not this one as a face: of a facet alone it is taken out and its rim stays, of a vertex its
    open star goes. Labels and order are kept. Raises NotASimplex."""
    base, members = _simplex(a, simplex)
    parts: List[Simplex] = []
    for f in base.facets:
        parts += [tuple(v for v in f if v != gone) for gone in f if gone in members] if members <= set(f) else [f]
    return Complex(_kept(base, [f for f in parts if f]))


# parts

def _ways(f: Simplex, g: Simplex) -> Iterator[Tuple[Tuple[Label, Label], ...]]:
    """All shortest ways from the first pair to the last, one step up in one factor at a time."""
    steps = len(f) + len(g) - 2
    for chosen in combinations(range(steps), len(f) - 1):
        i = j = 0
        way = [(f[0], g[0])]
        for step in range(steps):
            i, j = (i + 1, j) if step in chosen else (i, j + 1)
            way.append((f[i], g[j]))
        yield tuple(way)


def _renamed(base: Facets, rename: Callable[[Label], Label]) -> Facets:
    return Facets([tuple(map(rename, f)) for f in base.facets], [rename(v) for v in base.vertices])


def _tagged(a: FacetsLike, tag: int) -> Facets:
    return _renamed(as_facets(a), lambda v: (tag, v))


def _kept(base: Facets, facets: Sequence[Simplex]) -> Facets:
    """Facets with those vertices that they have, in the order that these had."""
    used = {v for f in facets for v in f}
    return Facets(facets, [v for v in base.vertices if v in used]).maximal()


def _coned(base: Facets, tips: Sequence[Label]) -> Facets:
    for tip in tips:
        if tip in base.vertices:
            raise InputFault(f"the apex {tip!r} is a vertex already")
    return Facets([f + (tip,) for f in base.facets or [()] for tip in tips], base.vertices + tuple(tips))


def _new(base: Facets, names: Sequence[str]) -> List[Label]:
    """Labels that no vertex has."""
    if base.vertices and all(type(v) is int for v in base.vertices):
        last = max(v for v in base.vertices if isinstance(v, int))
        return [last + 1 + k for k in range(len(names))]
    taken = set(base.vertices)
    primes = ""
    while any(name + primes in taken for name in names):
        primes += "'"
    return [name + primes for name in names]


def _glued(first: Facets, second: Facets, same: Dict[Label, Label], left: Optional[Simplex], right: Optional[Simplex]) -> Complex:
    """The first without the facet `left` and the second without `right`, with vertices of the second that are ones of the
    first."""
    def rename(w: Label) -> Label:
        return (0, same[w]) if w in same else (1, w)

    vertices = [(0, v) for v in first.vertices] + [(1, w) for w in second.vertices if w not in same]
    facets = _opened(_renamed(first, lambda v: (0, v)), left and tuple((0, v) for v in left))
    others = _opened(_renamed(second, rename), right and tuple(rename(w) for w in right))
    return Complex(Facets(facets + others, vertices).maximal())


def _opened(base: Facets, facet: Optional[Tuple[Label, ...]]) -> List[Tuple[Label, ...]]:
    """The facets, one of them in exchange for its faces."""
    if facet is None:
        return list(base.facets)
    members = set(facet)
    return [f for f in base.facets if set(f) != members] + [tuple(v for v in facet if v != gone) for gone in facet]


def _simplex(a: FacetsLike, simplex: Iterable[Label]) -> "Tuple[Facets, set[Label]]":
    base = as_facets(a)
    given = base.ordered(simplex)
    if not given or len(set(given)) < len(given) or given not in base:
        raise NotASimplex(given, "is no simplex of the complex")
    return base, set(given)
