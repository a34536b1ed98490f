"""Known complexes as lists of facets, and ways to make new ones of them."""

from itertools import combinations

PROJECTIVE_PLANE = [(1, 2, 4), (1, 2, 6), (1, 3, 4), (1, 3, 5), (1, 5, 6), (2, 3, 5), (2, 3, 6), (2, 4, 5), (3, 4, 6), (4, 5, 6)]
TORUS = [tuple(sorted(((i + a) % 7, (i + b) % 7, (i + c) % 7))) for i in range(7) for a, b, c in ((0, 1, 3), (0, 2, 3))]
OCTAHEDRON = [(a, b, c) for a in (0, 1) for b in (2, 3) for c in (4, 5)]
DUNCE_HAT = [(1, 3, 5), (2, 3, 5), (2, 4, 5), (1, 2, 4), (1, 3, 4), (3, 4, 8), (1, 2, 8), (1, 7, 8), (1, 2, 7),
             (2, 3, 7), (3, 6, 7), (1, 3, 6), (1, 5, 6), (4, 5, 6), (4, 6, 8), (6, 7, 8), (2, 3, 8)]


def closure(facets):
    """All faces, in simplex order."""
    return sorted({s for f in facets for k in range(1, len(f) + 1) for s in combinations(sorted(f), k)},
                  key=lambda s: (len(s), s))


def sphere(dimension, first=0):
    """The boundary of a simplex."""
    return list(combinations(range(first, first + dimension + 2), dimension + 1))


def klein_bottle(side):
    """The square grid with sides glued: one pair straight, the other turned over."""
    def vertex(i, j):
        i, turns = i % side, i // side
        j = (-j if turns % 2 else j) % side
        return i * side + j

    for i in range(side):
        for j in range(side):
            yield vertex(i, j), vertex(i + 1, j), vertex(i + 1, j + 1)
            yield vertex(i, j), vertex(i, j + 1), vertex(i + 1, j + 1)


def join(facets, points):
    return [tuple(f) + (p,) for f in facets for p in points]


def suspension(facets):
    last = max(v for f in facets for v in f)
    return join(facets, (last + 1, last + 2))


def wedge(*shapes):
    """The shapes, each joined to the first at its vertex of the greatest number."""
    out, base = [], None
    for facets in shapes:
        last = max(v for f in facets for v in f)
        if base is None:
            base, free = last, last + 1
            out.extend(facets)
            continue
        move = lambda v: base if v == last else v + free
        out.extend(tuple(sorted(map(move, f))) for f in facets)
        free += last + 1
    return out


def connected_sum(one, other):
    """The two, each without its first facet, joined along its boundary."""
    shift = 1 + max(v for f in one for v in f)
    glued = dict(zip(sorted(other[0]), sorted(one[0])))
    move = lambda v: glued.get(v, v + shift)
    return list(one[1:]) + [tuple(sorted(map(move, f))) for f in other[1:]]


def product(one, other):
    """The product: for each pair of facets the staircases in the grid of their vertices, both ascending."""
    wide = 1 + max(v for f in other for v in f)
    return sorted({tuple(sorted(wide * s[i] + t[j] for i, j in path))
                   for s in map(sorted, one) for t in map(sorted, other) for path in staircases(len(s) - 1, len(t) - 1)})


def staircases(m, n, i=0, j=0):
    """The lattice paths from (i, j) to (m, n), each a list of points."""
    if i == m and j == n:
        yield [(i, j)]
        return
    for right, up in ((1, 0), (0, 1)):
        if i + right <= m and j + up <= n:
            for rest in staircases(m, n, i + right, j + up):
                yield [(i, j)] + rest


def projective_space(n):
    """The flags of proper subsets of n + 2 points, a subset being one with its complement: the boundary of a simplex subdivided, with
    opposite points made one. It has 2^(n + 1) - 1 vertices. Source: W. Kuehnel, Minimal triangulations of Kummer varieties (1987)."""
    everything = (1 << (n + 2)) - 1

    def flags(subset):
        if subset == everything:
            yield ()
        for k in range(n + 2):
            if not subset >> k & 1:
                for rest in flags(subset | 1 << k):
                    yield (subset,) + rest if subset else rest

    name = lambda subset: min(subset, everything - subset)
    return sorted({tuple(sorted(map(name, flag))) for flag in flags(0)})


def complex_projective_plane():
    """The triangulation with nine vertices: two orbits of a group of 54 permutations. Source: W. Kuehnel and T. F. Banchoff, The
    9-vertex complex projective plane (1983)."""
    generators = [{1: 4, 4: 7, 7: 1, 2: 5, 5: 8, 8: 2, 3: 6, 6: 9, 9: 3}, {1: 2, 2: 3, 3: 1, 4: 6, 6: 5, 5: 4}, {1: 2, 2: 1, 4: 5, 5: 4, 7: 8, 8: 7}]
    facets, waiting = set(), [(1, 2, 3, 4, 5), (1, 2, 4, 5, 9)]
    while waiting:
        facet = waiting.pop()
        if facet not in facets:
            facets.add(facet)
            waiting.extend(tuple(sorted(g.get(v, v) for v in facet)) for g in generators)
    return sorted(facets)
