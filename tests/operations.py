"""Products, Steenrod squares and Bocksteins on known complexes, and pairs of equal Betti numbers that they tell apart.

    python3 tests/operations.py PROGRAM

What is expected is known from the literature: the cohomology of projective spaces is that of powers of one class, whose square
of exponent k is the binomial coefficient times the class k degrees up. The last line is `N passed, M failed`; the status is 1
where one failed.
"""

import subprocess
import sys
from math import comb

from shapes import (PROJECTIVE_PLANE, TORUS, closure, complex_projective_plane, connected_sum, klein_bottle, product,
                    projective_space, sphere, suspension, wedge)

CIRCLE, SPHERE = sphere(1), sphere(2)

# the pairs, and what is zero on all classes of the second alone
PAIRS = [
    ("the torus", TORUS, "the wedge of two circles and a sphere", wedge(CIRCLE, CIRCLE, SPHERE), "cup 1 1"),
    ("the product of two circles", product(CIRCLE, CIRCLE), "the wedge of two circles and a sphere",
     wedge(CIRCLE, CIRCLE, SPHERE), "cup 1 1"),
    ("the Klein bottle", list(klein_bottle(4)), "the torus", TORUS, "bockstein 1"),
    ("the projective plane", PROJECTIVE_PLANE, "the wedge of a circle and a sphere", wedge(CIRCLE, SPHERE), "square 1 1"),
    ("the suspension of the projective plane", suspension(PROJECTIVE_PLANE), "the wedge of a sphere and a 3-sphere",
     wedge(SPHERE, sphere(3)), "square 1 2"),
    ("projective space", projective_space(3), "the product of a sphere and a circle", product(SPHERE, CIRCLE), "bockstein 1"),
    ("the complex projective plane", complex_projective_plane(), "the wedge of a sphere and a 4-sphere",
     wedge(SPHERE, sphere(4)), "square 2 2"),
    ("the suspension of the complex projective plane", suspension(complex_projective_plane()),
     "the wedge of a 3-sphere and a 5-sphere", wedge(sphere(3), sphere(5)), "square 2 3"),
    ("the product of two spheres", product(SPHERE, SPHERE), "the wedge of two spheres and a 4-sphere",
     wedge(SPHERE, SPHERE, sphere(4)), "cup 2 2"),
    ("two complex projective planes", connected_sum(complex_projective_plane(), complex_projective_plane()),
     "the product of two spheres", product(SPHERE, SPHERE), "square 2 2"),
]


def ask(program, facets, questions):
    """What questions on a complex are answered, each without its head."""
    lines = ["attach " + "-".join(map(str, s)) for s in closure(facets)] + ["cut"]
    text = "\n".join(lines + questions + [""])
    done = subprocess.run([program, "script"], input=text.encode(), stdout=subprocess.PIPE, check=True)
    replies = done.stdout.decode().splitlines()[len(lines):]
    assert len(replies) == len(questions) and all(reply.startswith("ok v1 ") for reply in replies), replies
    return [reply.split(" ", 3)[3] for reply in replies]


def powers(n, top, step):
    """The questions on a truncated algebra of powers of one class of degree `step`, each with its answer."""
    word = lambda m: f"{step * m}:#0"
    for m in range(top + 1):
        for l in range(top + 1):
            yield f"cup {word(m)} {word(l)}", word(m + l) if m + l <= top else f"{step * (m + l)}:0"
        for k in range(n + 1):
            odd = k % step == 0 and k // step + m <= top and comb(m, k // step) % 2 == 1
            yield f"square {k} {word(m)}", word(m + k // step) if odd else f"{step * m + k}:0"


def check_powers(program, name, facets, questions):
    answers = ask(program, facets, [question for question, _ in questions])
    wrong = [(q, a, e) for (q, e), a in zip(questions, answers) if a != e]
    for question, answer, expected in wrong:
        print(f"{name}: {question} is answered {answer} and not {expected}")
    return len(questions) - len(wrong), len(wrong)


def all_zero(program, facets, betti, what):
    """Whether an operation is zero on all classes of its degrees."""
    verb, *numbers = what.split()
    degrees = numbers[-2:] if verb == "cup" else numbers[-1:]
    words = [""]
    for p in degrees:
        words = [f"{w} {p}:#{k}" for w in words for k in range(betti[int(p)])]
    lead = " ".join([verb] + numbers[:-len(degrees)])
    assert words != [""]
    return all(answer.endswith(":0") for answer in ask(program, facets, [lead + w for w in words]))


def told_apart(program, one, other, what):
    """Whether two complexes have the same Betti numbers, and an operation is zero on the second alone."""
    first, second = ([int(n) for n in ask(program, facets, ["betti"])[0].split()] for facets in (one, other))
    return first == second and not all_zero(program, one, first, what) and all_zero(program, other, second, what)


def main(program):
    passed = failed = 0
    spaces = [(f"real projective {n}-space", projective_space(n), list(powers(n, n, 1))) for n in (2, 3, 4)]
    spaces.append(("the complex projective plane", complex_projective_plane(), list(powers(4, 2, 2))))
    for name, facets, questions in spaces:
        good, bad = check_powers(program, name, facets, questions)
        passed, failed = passed + good, failed + bad
    for one, first, other, second, what in PAIRS:
        if told_apart(program, first, second, what):
            passed += 1
        else:
            failed += 1
            print(f"{one} and {other} are not told apart by {what}")
    print(f"{passed} passed, {failed} failed")
    return 1 if failed else 0


if __name__ == "__main__":
    sys.exit(main(sys.argv[1]))
