"""What the Python client costs: requests in batches over a pipe, beside the same script read from a file, and the time of rings.

    python3 bench/client.py PROGRAM [REQUESTS [RUNS]]

Each time is the best of RUNS (5). The time that the client adds to a request is that of the batch less that of the same requests,
read from a file by the program with its replies thrown away. A ring is timed with the start of the program.
"""

import os
import subprocess
import sys
import tempfile
import time

TOP = os.path.dirname(os.path.dirname(os.path.abspath(__file__)))
sys.path[:0] = [os.path.join(TOP, "clients", "python"), os.path.join(TOP, "clients", "python", "tests")]


def best(runs, action):
    times = []
    for _ in range(runs):
        begin = time.perf_counter()
        action()
        times.append(time.perf_counter() - begin)
    return min(times)


def batch(program, request, requests, runs):
    """Microseconds a request: in a batch of the client, and from a file without it."""
    from cohom import Complex
    facets = os.path.join(TOP, "examples", "complexes", "torus.txt")
    with Complex.read(facets, program=program) as k:
        now = k.now()
        client = best(runs, lambda: now.questions([request] * requests))
    with open(facets, encoding="utf-8") as file:
        head = file.read() + "cut\n"
    alone = timed(program, head + (request + "\n") * requests, runs) - timed(program, head, runs)
    return client / requests * 1e6, alone / requests * 1e6


def timed(program, script, runs):
    with tempfile.TemporaryFile("w+") as file:
        file.write(script)
        file.flush()

        def run():
            file.seek(0)
            subprocess.run([program, "script"], stdin=file, stdout=subprocess.DEVNULL, check=True)
        return best(runs, run)


def ring(program, facets):
    from cohom import Complex
    with Complex(facets, program=program) as k:
        k.ring()


def main(program, requests="100000", runs="5"):
    os.environ["COHOM"] = program
    from helpers import example, grid_torus
    print("request            client      alone      added   (microseconds)")
    for request in ("betti", "count", "kind 0-1", "cochain 1:#0", "cup 1:#0 1:#1"):
        client, alone = batch(program, request, int(requests), int(runs))
        print(f"{request:<15} {client:9.2f}  {alone:9.2f}  {client - alone:9.2f}")
    space, surface = (list(example(name).facets) for name in ("projective-space-4", "k3-surface"))
    for name, facets in (("K3 surface, 16 vertices", surface), ("torus of side 20", grid_torus(20)),
                         ("torus of side 52", grid_torus(52)), ("projective space of dimension 4", space)):
        print(f"ring of the {name}: {best(int(runs), lambda: ring(program, facets)) * 1e3:.0f} ms")


if __name__ == "__main__":
    main(*sys.argv[1:])
