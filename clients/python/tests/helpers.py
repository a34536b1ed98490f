"""What the tests share: the program, the complexes of examples/, and some known ones."""

import glob
import os
import sys

HERE = os.path.dirname(os.path.abspath(__file__))
CLIENT = os.path.dirname(HERE)
TOP = os.path.dirname(os.path.dirname(CLIENT))
DATA = os.path.join(HERE, "data")
COMPLEXES = os.path.join(TOP, "examples", "complexes")
if CLIENT not in sys.path:
    sys.path.insert(0, CLIENT)

from cohom import Complex  # noqa: E402
from cohom.program import find  # noqa: E402

PROGRAM = find()
CIRCLE = [(0, 1), (0, 2), (1, 2)]
SPHERE = [(0, 1, 2), (0, 1, 3), (0, 2, 3), (1, 2, 3)]


def example(name):
    """A complex of examples/complexes by name."""
    return Complex.read(os.path.join(COMPLEXES, name + ".txt"))


def example_names():
    return sorted(os.path.basename(path)[:-len(".txt")] for path in glob.glob(os.path.join(COMPLEXES, "*.txt")))


def grid_torus(side):
    """The square grid with sides glued, each square in two triangles."""
    def vertex(i, j):
        return i % side * side + j % side
    return [f for i in range(side) for j in range(side)
            for f in ((vertex(i, j), vertex(i + 1, j), vertex(i + 1, j + 1)), (vertex(i, j), vertex(i, j + 1), vertex(i + 1, j + 1)))]
