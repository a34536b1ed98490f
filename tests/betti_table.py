"""Betti numbers of known complexes, each attached in several random orders.

    python3 tests/betti_table.py PROGRAM

The numbers, over the field with two elements, are those of the literature. An order is any in which faces
come before what they are faces of. The last line is `N passed, M failed`; the status is 1 where one failed.
"""

import itertools
import random
import subprocess
import sys

from shapes import DUNCE_HAT, OCTAHEDRON, PROJECTIVE_PLANE, TORUS, closure, klein_bottle, sphere, suspension

ORDERS = 6

TABLE = [
    ("two points", [(0,), (1,)], "2"),
    ("a circle of five edges", [(0, 1), (1, 2), (2, 3), (3, 4), (0, 4)], "1 1"),
    ("the complete graph on five vertices", list(itertools.combinations(range(5), 2)), "1 6"),
    ("a filled tetrahedron", [(0, 1, 2, 3)], "1 0 0 0"),
    ("the boundary of the tetrahedron", sphere(2), "1 0 1"),
    ("the boundary of the octahedron", OCTAHEDRON, "1 0 1"),
    ("the boundary of the 5-simplex", sphere(4), "1 0 0 0 1"),
    ("the Moebius band with five vertices", [(i, (i + 1) % 5, (i + 2) % 5) for i in range(5)], "1 1 0"),
    ("the projective plane with six vertices", PROJECTIVE_PLANE, "1 1 1"),
    ("the torus with seven vertices", TORUS, "1 2 1"),
    ("a Klein bottle", list(klein_bottle(4)), "1 2 1"),
    ("the dunce hat with eight vertices", DUNCE_HAT, "1 0 0"),
    ("a wedge of two circles and a sphere", sphere(2) + [(0, 4), (0, 5), (4, 5), (0, 6), (0, 7), (6, 7)], "1 2 1"),
    ("a circle and a torus apart", TORUS + [(10, 11), (11, 12), (10, 12)], "2 3 1"),
    ("the suspension of the projective plane", suspension(PROJECTIVE_PLANE), "1 0 1 1"),
]


def order(simplices, chance):
    """A random order in which each simplex comes after its faces."""
    waiting, done, out = list(simplices), set(), []
    while waiting:
        ready = [s for s in waiting if len(s) == 1 or all(s[:k] + s[k + 1:] in done for k in range(len(s)))]
        s = chance.choice(ready)
        waiting.remove(s)
        done.add(s)
        out.append(s)
    return out


def main(program):
    passed = failed = 0
    for name, facets, betti in TABLE:
        simplices = closure(facets)
        for seed in range(ORDERS):
            lines = ["attach " + "-".join(map(str, s)) for s in order(simplices, random.Random(seed))]
            text = "\n".join(lines + ["cut", "betti", ""])
            done = subprocess.run([program, "script"], input=text.encode(), stdout=subprocess.PIPE)
            replies = done.stdout.decode().splitlines()
            accepted = sum(r.startswith("ok attach ") for r in replies)
            if done.returncode == 0 and accepted == len(simplices) and replies[-1] == "ok v1 betti " + betti:
                passed += 1
            else:
                failed += 1
                print(f"{name}, order {seed}: status {done.returncode}, {accepted} of {len(simplices)} attached, {replies[-1:]}")
    print(f"{passed} passed, {failed} failed")
    return 1 if failed else 0


if __name__ == "__main__":
    sys.exit(main(sys.argv[1]))
