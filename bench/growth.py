"""Times growth on complexes of several kinds: see growth.sh."""

import os
import random
import subprocess
import sys
import tempfile
import time
from itertools import combinations

CAPACITY = 32_768


def faces_first(facets):
    """The facets with all their faces, each once and after its faces."""
    seen = set()
    for facet in facets:
        for size in range(1, len(facet) + 1):
            for face in combinations(facet, size):
                if face not in seen:
                    seen.add(face)
                    yield face


def torus(side):
    """The triangulated torus: all vertices, then all edges, then all triangles."""
    at = lambda i, j: i % side * side + j % side
    facets = []
    for i in range(side):
        for j in range(side):
            facets.append(tuple(sorted((at(i, j), at(i + 1, j), at(i + 1, j + 1)))))
            facets.append(tuple(sorted((at(i, j), at(i, j + 1), at(i + 1, j + 1)))))
    return sorted(faces_first(facets), key=lambda s: (len(s), s))


def path(vertices):
    """A path, its edges from the far end: each joins an older vertex to all behind it."""
    return [(v,) for v in range(vertices)] + [(v - 1, v) for v in range(vertices - 1, 0, -1)]


def cones(length):
    """Two cones over a path: vertices and edges, then the triangles of either cone from the far end."""
    rungs = [(v, v + 1) for v in range(2, length + 1)]
    spokes = [(apex, v) for apex in (0, 1) for v in range(2, length + 2)]
    triangles = [(apex, v, v + 1) for apex in (0, 1) for v in range(length, 1, -1)]
    return [(v,) for v in range(length + 2)] + rungs + spokes + triangles


def random_triangles(simplices, vertices, seed):
    """Random triangles with their faces, as many as fit."""
    choose, kept, count = random.Random(seed), [], set()
    while True:
        facet = tuple(sorted(choose.sample(range(vertices), 3)))
        more = [f for f in faces_first([facet]) if f not in count]
        if len(count) + len(more) > simplices:
            return kept
        count.update(more)
        kept.extend(more)


def skeleton(vertices, dimension, tops, seed):
    """All simplices below a dimension, then random ones of it."""
    last = list(combinations(range(vertices), dimension + 1))
    random.Random(seed).shuffle(last)
    return [s for size in range(1, dimension + 1) for s in combinations(range(vertices), size)] + last[:tops]


def strip(simplices):
    """A strip of triangles, simplex by simplex."""
    return list(faces_first([(0, 1)] + [(v - 2, v - 1, v) for v in range(2, simplices // 4 + 4)]))[:simplices]


def attached(simplices):
    return [f"attach {'-'.join(map(str, s))}" for s in simplices[:CAPACITY]]


def inputs():
    """The name of each input, its simplices, and its lines."""
    for name, simplices in (
        ("torus of side 52", torus(52)),
        ("path of 8192 vertices", path(8192)),
        ("two cones over a path", cones(5400)),
        ("random triangles on 150 vertices (sparse)", random_triangles(16_000, 150, 1)),
        ("random triangles on 126 vertices (dense)", random_triangles(16_000, 126, 1)),
        ("all edges of 126 vertices, 7000 triangles (dense)", skeleton(126, 2, 7000, 1)),
        ("all triangles of 35 vertices, 9000 tetrahedra (dense)", skeleton(35, 3, 9000, 1)),
    ):
        yield name, simplices[:CAPACITY], attached(simplices) + ["cut", "betti"]
    for vertices in (13, 15):
        whole = list(faces_first([tuple(range(vertices))]))
        yield f"facet of {vertices} vertices", whole, ["facet " + " ".join(map(str, range(vertices))), "cut", "betti"]
    grown = strip(10_000)
    yield "10,000 versions, Betti numbers of each", grown, [l for a in attached(grown) for l in (a, "cut", "betti")]


def steps(simplices):
    """The steps as the program counts them: a member that is taken, and one that comes in with a class."""
    ids, place, killer, count = {}, [], {}, 0
    for n, s in enumerate(simplices):
        ids[s] = n
        left = {ids[s[:k] + s[k + 1:]] for k in range(len(s))} if len(s) > 1 else set()
        class_ = []
        while left:
            x = max(left)
            left.remove(x)
            count += 1
            if place[x] is not None:
                continue
            if x in killer:
                left ^= set(place[killer[x]])
                count += len(place[killer[x]])
            else:
                class_.append(x)
        if class_:
            killer[class_[0]] = n
        place.append(class_[1:] if class_ else None)
    return count


def timed(program, text, runs):
    """The best wall time in seconds, the peak memory in MB, and the last reply."""
    best, peak = None, 0
    for _ in range(runs):
        with tempfile.TemporaryFile() as lines, tempfile.TemporaryFile() as replies:
            lines.write(text)
            lines.seek(0)
            begin = time.perf_counter()
            child = subprocess.Popen([program, "script"], stdin=lines, stdout=replies)
            _, status, used = os.wait4(child.pid, 0)
            wall = time.perf_counter() - begin
            child.returncode = os.waitstatus_to_exitcode(status)
            if child.returncode != 0:
                sys.exit(f"{program}: status {child.returncode}")
            replies.seek(0)
            last = replies.read().splitlines()[-1].decode()
        best = wall if best is None else min(best, wall)
        peak = max(peak, used.ru_maxrss / 1024)
    return best, peak, last


def main(program, runs, beside):
    print("| Input | Simplices | Time | Peak memory | Steps |" + (" Yardstick | Ratio |" if beside else ""))
    print("|---|---|---|---|---|" + ("---|---|" if beside else ""))
    for name, simplices, lines in inputs():
        text = "\n".join(lines).encode() + b"\n"
        wall, peak, last = timed(program, text, runs)
        row = f"| {name} | {len(simplices):,} | {wall * 1000:.0f} ms | {peak:.0f} MB | {steps(simplices):,} |"
        if beside:
            other, _, same = timed(beside, text, runs)
            row += f" {other * 1000:.0f} ms | {wall / other:.1f} |"
            if same != last:
                sys.exit(f"{name}: {last!r} is not {same!r}")
        print(row, flush=True)


if __name__ == "__main__":
    main(sys.argv[1], int(sys.argv[2]), sys.argv[3] if len(sys.argv) > 3 else None)
