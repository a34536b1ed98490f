"""Times the program on a cut-down torus script: see attach.sh."""

import os
import resource
import subprocess
import sys
import time

from growth import steps

LIMIT = 65_536


def torus(side):
    """The simplices of the triangulated side by side torus, facet by facet, each once."""
    seen = set()
    for i in range(side):
        for j in range(side):
            a = i * side + j
            b = (i + 1) % side * side + j
            c = (i + 1) % side * side + (j + 1) % side
            d = i * side + (j + 1) % side
            for facet in ((a, b, c), (a, d, c)):
                x, y, z = sorted(facet)
                for simplex in ((x,), (y,), (z,), (x, y), (x, z), (y, z), (x, y, z)):
                    if simplex not in seen:
                        seen.add(simplex)
                        yield simplex


def script(side):
    """The attachments that fit, a cut and a question; and the simplices attached."""
    lines, simplices, size = [], [], len("cut\nbetti\n")
    for simplex in torus(side):
        line = "attach " + "-".join(map(str, simplex)) + "\n"
        if size + len(line) > LIMIT:
            break
        size += len(line)
        lines.append(line)
        simplices.append(simplex)
    return "".join(lines) + "cut\nbetti\n", simplices


def main(program, runs):
    text, simplices = script(40)
    best = None
    for _ in range(runs):
        begin = time.perf_counter()
        done = subprocess.run([program, "script"], input=text.encode(), stdout=subprocess.PIPE, check=True)
        wall = time.perf_counter() - begin
        best = wall if best is None else min(best, wall)
    peak = resource.getrusage(resource.RUSAGE_CHILDREN).ru_maxrss / 1024
    print(f"{len(simplices)} simplices, {len(text)} bytes: best of {runs} runs {best * 1000:.0f} ms, peak {peak:.0f} MB")
    print(f"last reply: {done.stdout.decode().splitlines()[-1]}")
    n = len(simplices)
    print(f"steps: {steps(simplices)} (proved bound for the sum of all attachments: {sum(4 * k * k + 100 * k + 100 for k in range(n))})")


if __name__ == "__main__":
    main(os.fspath(sys.argv[1]), int(sys.argv[2]))
