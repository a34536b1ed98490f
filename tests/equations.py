"""The maps f, g and phi of the contraction, as the program shows them, against its seven equations.

    python3 tests/equations.py PROGRAM

The complexes are those of betti_table.py, each attached in two random orders. f and phi of each simplex come from
`model`, g of each class from `chain`, and its canonical cocycle from `cochain`. All sums are computed here. The last line
is `N passed, M failed`; the status is 1 where one failed.
"""

import itertools
import random
import subprocess
import sys

from betti_table import TABLE, order
from shapes import closure

ORDERS = 2


def simplices_of(literal):
    """The simplices of a printed chain or cochain."""
    inside = literal.split(":", 1)[1][1:-1]
    return frozenset(tuple(map(int, s.split("-"))) for s in inside.split(",") if s)


def text(s):
    return "-".join(map(str, s))


def faces(s):
    return [s[:k] + s[k + 1:] for k in range(len(s))] if len(s) > 1 else []


def summed(sets):
    total = frozenset()
    for each in sets:
        total = total ^ frozenset(each)
    return total


def extended(rows, chain):
    """A map that is given on simplices, on a chain."""
    return summed(rows[s] for s in chain)


def boundary(chain):
    return summed(faces(s) for s in chain)


def asked(program, simplices, questions):
    lines = ["attach " + text(s) for s in simplices] + ["cut"] + questions
    done = subprocess.run([program, "script"], input="\n".join(lines + [""]).encode(), stdout=subprocess.PIPE)
    replies = done.stdout.decode().splitlines()
    if done.returncode != 0 or len(replies) != len(lines):
        raise ValueError(f"status {done.returncode}, {len(replies)} replies to {len(lines)} lines")
    return [r.split() for r in replies[len(simplices) + 1:]]


def rows_of(program, simplices):
    """f and phi of each simplex; g and the canonical cocycle of each essential one."""
    f, phi, g, cocycles = {}, {}, {}, {}
    for s, reply in zip(simplices, asked(program, simplices, ["model " + text(s) for s in simplices])):
        f[s], phi[s] = simplices_of(reply[4]), simplices_of(reply[5])
    degrees = range(max(map(len, simplices)))
    listed = asked(program, simplices, [f"classes {p}" for p in degrees])
    named = [(p, k, tuple(map(int, s.split("-")))) for p, reply in zip(degrees, listed) for k, s in enumerate(reply[5:])]
    questions = itertools.chain.from_iterable((f"chain {p}:*{k}", f"cochain {p}:#{k}", f"class {p}:#{k}") for p, k, _ in named)
    replies = asked(program, simplices, list(questions))
    for n, (p, k, s) in enumerate(named):
        g[s], cocycles[s] = simplices_of(replies[3 * n][3]), simplices_of(replies[3 * n + 1][3])
        if replies[3 * n + 2][3] != f"{p}:#{k}":
            raise ValueError(f"the class of the canonical cocycle of {p}:#{k} is {replies[3 * n + 2]}")
    return f, g, phi, cocycles


def broken(simplices, f, g, phi, cocycles):
    """The equations that fail, each with the simplex at which it does."""
    for s in simplices:
        d = summed([faces(s)])
        if frozenset([s]) ^ extended(g, f[s]) != boundary(phi[s]) ^ extended(phi, d):
            yield "1 + g f = d phi + phi d", s
        for name, value in (("f d = 0", extended(f, d)), ("f phi = 0", extended(f, phi[s])), ("phi phi = 0", extended(phi, phi[s]))):
            if value:
                yield name, s
    for s, cycle in g.items():
        if extended(f, cycle) != frozenset([s]):
            yield "f g = 1", s
        for name, value in (("d g = 0", boundary(cycle)), ("phi g = 0", extended(phi, cycle))):
            if value:
                yield name, s
        if cocycles[s] != frozenset(t for t in simplices if s in f[t]):
            yield "the canonical cocycle is the class in f", s


def main(program):
    passed = failed = 0
    for name, facets, _ in TABLE:
        for seed in range(ORDERS):
            simplices = order(closure(facets), random.Random(seed))
            try:
                wrong = list(broken(simplices, *rows_of(program, simplices)))
            except (ValueError, KeyError, IndexError) as fault:
                wrong = [(repr(fault), ())]
            if wrong:
                failed += 1
                print(f"{name}, order {seed}: {wrong[:3]}")
            else:
                passed += 1
    print(f"{passed} passed, {failed} failed")
    return 1 if failed else 0


if __name__ == "__main__":
    sys.exit(main(sys.argv[1]))
