"""Closed complexes, links, the pairing, and Wu and Stiefel-Whitney classes and numbers of known manifolds.

    python3 tests/manifolds.py PROGRAM

Of each manifold: what the literature says of its classes, where these have one name whatever the order of attachment, and of its
Stiefel-Whitney numbers; and Wu's formula, its classes found by trying all class words on the products and squares that the program
gives. Of complexes that are no manifolds: why. The last line is `N passed, M failed`; the status is 1 where one failed.
"""

import subprocess
import sys
from itertools import chain, combinations
from math import comb

from shapes import (PROJECTIVE_PLANE, TORUS, closure, complex_projective_plane, connected_sum, klein_bottle, product,
                    projective_space, sphere, suspension, wedge)

SPHERE, PLANE_2 = sphere(2), product(PROJECTIVE_PLANE, PROJECTIVE_PLANE)


def projective_classes(n):
    """The Wu and Stiefel-Whitney classes of a real projective space: coefficients at the powers of its one class of degree 1."""
    word = lambda k, coefficient: f"{k}:#0" if coefficient % 2 else f"{k}:0"
    return [word(k, comb(n - k, k)) for k in range(n + 1)], [word(k, comb(n + 1, k)) for k in range(n + 1)]


# name, facets, Wu classes and Stiefel-Whitney classes where they have one name, and the lists whose numbers are 1
MANIFOLDS = [
    ("the sphere", SPHERE, (["0:#0", "1:0", "2:0"], ["0:#0", "1:0", "2:0"]), []),
    ("the torus", TORUS, (["0:#0", "1:0", "2:0"], ["0:#0", "1:0", "2:0"]), []),
    ("the Klein bottle", list(klein_bottle(4)), None, []),
    ("the projective plane", PROJECTIVE_PLANE, projective_classes(2), ["1 1", "2"]),
    ("projective 3-space", projective_space(3), projective_classes(3), []),
    ("projective 4-space", projective_space(4), projective_classes(4), ["1 1 1 1", "4"]),
    ("the complex projective plane", complex_projective_plane(),
     (["0:#0", "1:0", "2:#0", "3:0", "4:0"], ["0:#0", "1:0", "2:#0", "3:0", "4:#0"]), ["2 2", "4"]),
    ("the product of two spheres", product(SPHERE, SPHERE),
     (["0:#0", "1:0", "2:0", "3:0", "4:0"], ["0:#0", "1:0", "2:0", "3:0", "4:0"]), []),
    ("the product of two projective planes", PLANE_2, None, ["2 2", "4"]),
    ("two complex projective planes", connected_sum(complex_projective_plane(), complex_projective_plane()),
     (["0:#0", "1:0", "2:#0+#1", "3:0", "4:0"], ["0:#0", "1:0", "2:#0+#1", "3:0", "4:0"]), []),
]

PINCHED = [(0, 1, 2), (0, 1, 3), (0, 2, 3), (1, 2, 3), (0, 4, 5), (0, 4, 6), (0, 5, 6), (4, 5, 6)]
OPEN_BOOK = [(0, 1, 2), (0, 1, 3), (0, 1, 4)]

# what is no manifold, and what is answered
OTHERS = [
    ("the suspension of the projective plane", suspension(PROJECTIVE_PLANE),
     {"closed": "ok v1 closed 3", "duality": "no v1 degenerate 2:#0", "wu": "no v1 degenerate 2:#0", "sw": "no v1 degenerate 2:#0",
      "swnumber 7": "no v1 degenerate 2:#0"}),
    ("two spheres at a point", PINCHED,
     {"closed": "ok v1 closed 2", "links": "no v1 link 0 2 2", "duality": "no v1 degenerate 2:#0+#1"}),
    ("three triangles at an edge", OPEN_BOOK, {"closed": "no v1 ridge 0-1 3", "wu": "no v1 ridge 0-1 3", "links": "no v1 link 0 1 0"}),
    ("a sphere and a circle at a point", wedge(SPHERE, sphere(1)), {"links": "no v1 link 3 3 1"}),
    ("points", [(0,), (1,), (2,)],
     {"closed": "ok v1 closed 0", "links": "ok v1 links", "duality": "ok v1 duality 0:100/010/001", "wu": "ok v1 wu 0:#0+#1+#2",
      "sw": "ok v1 sw 0:#0+#1+#2", "swnumber 1": "no v1 sum 1 0"}),
]


def raw(program, facets, questions):
    """The replies to questions on a complex."""
    lines = ["attach " + "-".join(map(str, s)) for s in closure(facets)] + ["cut"]
    done = subprocess.run([program, "script"], input="\n".join(lines + questions + [""]).encode(), stdout=subprocess.PIPE, check=True)
    return done.stdout.decode().splitlines()[len(lines):]


def ask(program, facets, questions):
    """What questions that have an answer are answered, without the head."""
    replies = [reply.split(" ", 3) for reply in raw(program, facets, questions)]
    assert len(replies) == len(questions) and all(reply[:2] == ["ok", "v1"] for reply in replies), replies
    return [reply[3] if len(reply) == 4 else "" for reply in replies]


def class_word(degree, numbers):
    return f"{degree}:{'+'.join(f'#{k}' for k in numbers) or '0'}"


def words(degree, betti):
    """All class words of a degree."""
    return [class_word(degree, ks) for ks in chain.from_iterable(combinations(range(betti), r) for r in range(betti + 1))]


def partitions(n, most=None):
    """The lists of parts with this sum, descending."""
    if n == 0:
        yield []
    for part in range(min(n, n if most is None else most), 0, -1):
        for rest in partitions(n - part, part):
            yield [part, *rest]


def wu_by_search(program, facets, betti):
    """The Wu classes of a connected closed complex, by trying all class words."""
    n = len(betti) - 1
    found = []
    for k in range(n + 1):
        tried, against = words(k, betti[k]), words(n - k, betti[n - k])
        squares = ask(program, facets, [f"square {k} {x}" for x in against])
        products = ask(program, facets, [f"cup {v} {x}" for v in tried for x in against])
        rows = [products[i * len(against):(i + 1) * len(against)] for i in range(len(tried))]
        found.append([v for v, row in zip(tried, rows) if row == squares])
    return found


def whitney_by_squares(program, facets, wu):
    """The Stiefel-Whitney classes that belong to Wu classes."""
    found = []
    for k in range(len(wu)):
        sum_of = set()
        for square in ask(program, facets, [f"square {k - i} {wu[i]}" for i in range(k + 1)]):
            numbers = square.split(":")[1]
            sum_of ^= set() if numbers == "0" else {int(m[1:]) for m in numbers.split("+")}
        found.append(class_word(k, sorted(sum_of)))
    return found


def number_by_products(program, facets, whitney, parts):
    """The Stiefel-Whitney number of a list of parts of a connected closed complex."""
    word = whitney[parts[0]]
    for part in parts[1:]:
        word = ask(program, facets, [f"cup {word} {whitney[part]}"])[0]
    return "0" if word.endswith(":0") else "1"


def check_manifold(program, facets, literature, ones):
    """What is wrong with the answers on a connected closed manifold."""
    betti, closed, links, duality, wu, whitney = ask(program, facets, ["betti", "closed", "links", "duality", "wu", "sw"])
    betti, wu, whitney = [int(b) for b in betti.split()], wu.split(), whitney.split()
    n = len(betti) - 1
    if closed != str(n) or links != "" or betti != betti[::-1] or betti[0] != 1:
        yield f"closed {closed}, links {links}, Betti numbers {betti}"
    products = [ask(program, facets, [f"cup {p}:#{j} {n - p}:#{k}" for j in range(betti[p]) for k in range(betti[p])]) for p in range(n + 1)]
    ones_of = lambda row: "".join("0" if reply.endswith(":0") else "1" for reply in row)
    rows = [[row[j * betti[p]:(j + 1) * betti[p]] for j in range(betti[p])] for p, row in enumerate(products)]
    expected = " ".join(f"{p}:{'/'.join(map(ones_of, rows[p])) or '-'}" for p in range(n + 1))
    if duality != expected:
        yield f"duality {duality}, by products {expected}"
    if [[v] for v in wu] != wu_by_search(program, facets, betti):
        yield f"Wu classes {wu}"
    if whitney != whitney_by_squares(program, facets, wu):
        yield f"Stiefel-Whitney classes {whitney}"
    if literature and (wu, whitney) != literature:
        yield f"{wu} and {whitney}, in the literature {literature}"
    for parts in partitions(n):
        text = " ".join(map(str, sorted(parts)))
        number = ask(program, facets, [f"swnumber {text}"])[0]
        if number != number_by_products(program, facets, whitney, sorted(parts)) or (number == "1") != (text in ones):
            yield f"swnumber {text} is {number}"


def ask_all(program, facets, expected):
    """What is wrong with these answers."""
    for question, (answer, right) in zip(expected, zip(raw(program, facets, list(expected)), expected.values())):
        if answer != right:
            yield f"{question} is answered {answer} and not {right}"


def main(program):
    passed = failed = 0
    checks = [(name, check_manifold(program, facets, literature, ones)) for name, facets, literature, ones in MANIFOLDS]
    checks += [(name, ask_all(program, facets, expected)) for name, facets, expected in OTHERS]
    for name, wrong in checks:
        wrong = list(wrong)
        passed, failed = passed + (not wrong), failed + bool(wrong)
        for what in wrong:
            print(f"{name}: {what}")
    print(f"{passed} passed, {failed} failed")
    return 1 if failed else 0


if __name__ == "__main__":
    sys.exit(main(sys.argv[1]))
