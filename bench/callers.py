"""Times scripts of several callers: see callers.sh."""

import sys

from growth import attached, strip, timed, torus

CALLERS, NAMES = 16, 64


def versions(callers):
    """10,000 versions of a strip of triangles, each asked for its Betti numbers, by callers in turn."""
    for n, line in enumerate(attached(strip(10_000))):
        caller = f"@{n % callers} "
        yield from (caller + line, caller + "cut", caller + "betti")


def held(questions):
    """64 names for versions of a torus, held by each of sixteen callers, and questions on them in turn."""
    simplices = attached(torus(30))
    step = len(simplices) // NAMES
    for name in range(NAMES):
        yield from simplices[name * step:(name + 1) * step]
        yield "cut"
        for caller in range(CALLERS):
            yield f"@{caller} see"
            yield f"@{caller} hold n{name}"
    for n in range(questions):
        yield f"@{n % CALLERS} use n{n // CALLERS % NAMES}"
        yield f"@{n % CALLERS} {('betti', 'class 0:#0', 'cochain 0:#0', 'cup 0:#0 0:#0')[n // CALLERS // NAMES % 4]}"


def returns():
    """The torus of side 20, grown anew 64 times from the empty complex."""
    for _ in range(64):
        yield from attached(torus(20))
        yield from ("cut", "betti", "back 0")


def inputs():
    """The name of each input, and its lines."""
    yield "10,000 versions, by one caller", versions(1)
    yield "10,000 versions, by sixteen in turn", versions(CALLERS)
    yield "1,024 held versions of a torus of side 30", held(0)
    yield "the same, and 20,000 questions on them in turn", held(20_000)
    yield "64 returns to nothing, a torus of side 20 each", returns()


def main(program, runs, others):
    print(f"{'input':50} {'time':>9} {'memory':>8}" + "".join(f" {'other':>9} {'ratio':>6}" for _ in others))
    for name, lines in inputs():
        text = "".join(f"{line}\n" for line in lines).encode()
        best, peak, last = timed(program, text, runs)
        row = f"{name:50} {best * 1000:6.0f} ms {peak:5.0f} MB"
        for other in others:
            time, _, said = timed(other, text, runs)
            row += f" {time * 1000:6.0f} ms {best / time:6.1f}" + ("" if said == last else f"  {said!r} in place of {last!r}")
        print(row, flush=True)


if __name__ == "__main__":
    main(sys.argv[1], int(sys.argv[2]), sys.argv[3:])
