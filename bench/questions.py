"""Times questions on complexes with many classes, on links, and on closed complexes: see classes.sh, products.sh, operations.sh,
links.sh and manifolds.sh.

    python3 bench/questions.py classes|products|operations|links|manifolds PROGRAM RUNS [YARDSTICK]

The time of a list of questions is that of the script with them less that of the script without; of either the best of
RUNS. Where a list takes a few milliseconds alone it is asked several times in the script, and its time is the mean; each time
on a new version with a little more beside the complex, so that nothing is at hand but what a program hands on from version to
version, as both do. The replies of the two programs are compared.
"""

import os
import random
import subprocess
import sys
import tempfile
import time

from growth import attached, random_triangles, torus

sys.path.append(os.path.join(os.path.dirname(os.path.abspath(__file__)), "..", "tests"))
import shapes

# how often a list of operations is asked, as far as the most simplices of a complex allow a point more each time
REPEATS = 500
MOST_SIMPLICES = 16_384
# the first vertex beside a complex
BESIDE = 900_000_000


def replies(program, lines):
    """What a script is answered."""
    with tempfile.TemporaryFile() as text:
        text.write("\n".join(lines + [""]).encode())
        text.seek(0)
        done = subprocess.run([program, "script"], stdin=text, stdout=subprocess.PIPE)
    if done.returncode != 0:
        sys.exit(f"{program}: status {done.returncode}")
    return done.stdout.decode().splitlines()


def best(program, lines, runs):
    """The best wall time in seconds."""
    found = None
    for _ in range(runs):
        begin = time.perf_counter()
        replies(program, lines)
        wall = time.perf_counter() - begin
        found = wall if found is None else min(found, wall)
    return found


def literal(p, simplices):
    return f"{p}:{{{','.join('-'.join(map(str, s)) for s in sorted(simplices))}}}"


def simplices_of(reply):
    inside = reply.split(":", 1)[1].strip("{}")
    return frozenset(tuple(map(int, s.split("-"))) for s in inside.split(",") if s)


def random_cocycles(program, growth, simplices, classes, count, chance):
    """Sums of three canonical cocycles of degree 1 and the coboundary of five vertices, as literals."""
    at = {}
    for s in simplices:
        if len(s) == 2:
            for v in s:
                at.setdefault(v, set()).add(s)
    picks = [chance.sample(range(classes), min(3, classes)) for _ in range(count)]
    canonical = replies(program, growth + ["cochain 1:" + "+".join(f"#{k}" for k in ks) for ks in picks])[len(growth):]
    for reply in canonical:
        cocycle = simplices_of(reply.split()[3])
        for v in chance.sample(sorted(at), 5):
            cocycle = cocycle ^ at[v]
        yield literal(1, cocycle)


def classes_of(program, growth, p):
    return int(replies(program, growth + [f"classes {p}"])[-1].split()[4])


def complexes():
    yield "torus of side 52", torus(52), 1
    yield "random triangles on 150 vertices", random_triangles(16_000, 150, 1), 1


def four_manifolds():
    yield "product of two octahedra's boundaries", shapes.product(shapes.OCTAHEDRON, shapes.OCTAHEDRON)
    yield "product of two projective planes", shapes.product(shapes.PROJECTIVE_PLANE, shapes.PROJECTIVE_PLANE)
    yield "real projective 4-space", shapes.projective_space(4)


def questions(suite, program):
    """The name, the growth and the questions of each row, how often these are asked, and what comes before each time."""
    chance = random.Random(1)
    if suite == "classes":
        for name, simplices, p in complexes():
            growth = attached(simplices) + ["cut"]
            classes = classes_of(program, growth, p)
            yield f"{name}: all {classes} canonical cocycles", growth, [f"cochain {p}:#{k}" for k in range(classes)], 1, same
            cocycles = random_cocycles(program, growth, simplices, classes, 1000, chance)
            yield f"{name}: class words of 1,000 cocycles", growth, ["class " + c for c in cocycles], 1, same
        return
    if suite == "operations":
        yield from operations(program)
        return
    if suite == "links":
        yield from links()
        return
    if suite == "manifolds":
        yield from manifolds()
        return
    name, facets = next(four_manifolds())
    for name, simplices, p in [*complexes(), (name, shapes.closure(facets), 2)]:
        growth = attached(simplices) + ["cut"]
        classes = classes_of(program, growth, p)
        for i in (0, 1):
            pairs = [(chance.randrange(classes), chance.randrange(classes)) for _ in range(100)]
            yield f"{name}: 100 products of index {i}", growth, [f"cupi {i} {p}:#{j} {p}:#{k}" for j, k in pairs], 1, same


def operations(program):
    """All products and squares of degree 2 on closed 4-manifolds, and all products of degree 1 on tori."""
    for name, facets in four_manifolds():
        growth = attached(shapes.closure(facets)) + ["cut"]
        classes = range(classes_of(program, growth, 2))
        asked = [f"cup 2:#{j} 2:#{k}" for j in classes for k in classes if j <= k]
        yield f"{name}: all products of degree 2", growth, asked, REPEATS, point
        yield f"{name}: all squares of degree 2", growth, [f"square {k} 2:#{j}" for j in classes for k in range(3)], REPEATS, point
    for side in (20, 52):
        simplices = torus(side)
        times = min(REPEATS, MOST_SIMPLICES - len(simplices))
        asked = ["cup 1:#0 1:#0", "cup 1:#0 1:#1", "cup 1:#1 1:#1"]
        yield f"torus of side {side}: its three products of degree 1", attached(simplices) + ["cut"], asked, times, point


def same(time):
    """The same version again."""
    return []


def point(time):
    """A new version with one more point."""
    return [f"attach {BESIDE + time}", "cut"]


def sphere_of(dimension):
    """New versions with one more sphere of this dimension."""
    def more(time):
        facets = shapes.sphere(dimension, BESIDE + time * (dimension + 2))
        return [" ".join(map(str, facet)) for facet in facets] + ["cut"]
    return more


def links():
    """Whether links are those of spheres: where all links pass, and where the first one fails."""
    for name, simplices, times, before in [
        ("torus of side 52", torus(52), 10, sphere_of(2)),
        ("the 12-simplex and its faces", shapes.closure([tuple(range(13))]), 10, point),
        ("the faces of the 12-simplex", shapes.closure(shapes.sphere(11)), 1, same),
        *((name, shapes.closure(facets), 10, sphere_of(4)) for name, facets in four_manifolds()),
    ]:
        yield f"{name}: links", attached(simplices) + ["cut"], ["links"], times, before


def circles(count):
    """Disjoint hollow triangles."""
    for k in range(count):
        a, b, c = 3 * k, 3 * k + 1, 3 * k + 2
        yield from ((a,), (b,), (c,), (a, b), (a, c), (b, c))


def manifolds():
    """Pairings and characteristic classes of closed complexes."""
    plane_by_plane = shapes.product(shapes.PROJECTIVE_PLANE, shapes.PROJECTIVE_PLANE)
    for name, simplices, times, dimension in (
        ("torus of side 52", torus(52), 10, 2),
        ("1,000 disjoint circles", list(circles(1000)), 5, 1),
        ("product of two projective planes", shapes.closure(plane_by_plane), 20, 4),
    ):
        growth = attached(simplices) + ["cut"]
        for question in ("duality", "wu", "sw"):
            yield f"{name}: {question}", growth, [question], times, sphere_of(dimension)


def main(suite, program, runs, beside):
    print("| Complex and questions | Time |" + (" Yardstick | Ratio |" if beside else ""))
    print("|---|---|" + ("---|---|" if beside else ""))
    for name, growth, once, repeats, before in questions(suite, program):
        alone, asked = list(growth), list(growth)
        for time in range(repeats):
            alone += before(time)
            asked += before(time) + once
        time_of = lambda p: max(best(p, asked, runs) - best(p, alone, runs), 0) / repeats
        wall = time_of(program)
        row = f"| {name} | {wall * 1000:.3g} ms |"
        if beside:
            other = time_of(beside)
            row += f" {other * 1000:.3g} ms | {wall / other:.1f} |" if other else " 0 ms | |"
            if replies(program, asked) != replies(beside, asked):
                sys.exit(f"{name}: the replies differ")
        print(row, flush=True)


if __name__ == "__main__":
    main(sys.argv[1], sys.argv[2], int(sys.argv[3]), sys.argv[4] if len(sys.argv) > 4 else None)
