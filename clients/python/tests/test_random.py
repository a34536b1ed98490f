"""Random complexes with labels of all kinds: what comes back is checked in the labels, without the program; files written and read."""

import contextlib
import io
import os
import random
import tempfile
import unittest
from itertools import combinations

from helpers import PROGRAM  # noqa: F401  (finds the package)

from cohom import Complex, Facets
from cohom.commands.convert import converted

LABELS = ([f"v{n}" for n in (3, 10, 2, 7, 1, 0, 5)], [(n % 3, n // 3) for n in (4, 2, 0, 8, 6, 1, 3)], [-5, 10 ** 10, 3, 0, 12, 7, 1],
          [None, "x", 2.5, frozenset([1]), ("t",), 7, "y"], [4, 9, 2, 11, 30, 6, 0])


def random_facets(source, labels):
    return [tuple(source.sample(labels, source.randint(1, 4))) for _ in range(source.randint(3, 9))]


def faces(simplex):
    return {frozenset(f) for f in combinations(simplex, len(simplex) - 1)} if len(simplex) > 1 else set()


class Labels(unittest.TestCase):
    def test_cocycles_and_cycles_in_labels(self):
        source = random.Random(20261202)
        for turn in range(15):
            labels = LABELS[turn % len(LABELS)]
            facets = random_facets(source, labels)
            everything = {frozenset(s) for f in facets for size in range(1, len(f) + 1) for s in combinations(f, size)}
            with self.subTest(facets=facets), Complex(facets) as k:
                sizes = [len(s) - 1 for s in everything]
                self.assertEqual(k.count(), tuple(sizes.count(p) for p in range(max(sizes) + 1)))
                self.assertEqual(k.euler(), sum((-1) ** p for p in sizes))
                for p, rank in enumerate(k.betti()):
                    cocycles = [{frozenset(s) for s in c} for c in k.cocycles(p)]
                    cycles = [{frozenset(s) for s in k.cycle(p, n)} for n in range(rank)]
                    for c in cocycles:
                        self.assertTrue(c <= everything)
                        self.assertFalse([s for s in everything if len(s) == p + 2 and len(faces(s) & c) % 2])
                    for z in cycles:
                        self.assertFalse([s for s in everything if len(s) == p and sum(s in faces(t) for t in z) % 2])
                    self.assertEqual([[len(c & z) % 2 for z in cycles] for c in cocycles],
                                     [[int(i == j) for j in range(rank)] for i in range(rank)])
                for s in source.sample(sorted(everything, key=lambda s: (len(s), sorted(map(repr, s)))), 3):
                    delta = k.cochain(len(s) - 1, [s]).delta()
                    self.assertEqual({frozenset(t) for t in delta}, {t for t in everything if s in faces(t)})
                    self.assertEqual({frozenset(t) for t in k.chain(len(s) - 1, [s]).boundary()}, faces(s))


class Files(unittest.TestCase):
    def test_written_and_read(self):
        source = random.Random(7)
        with tempfile.TemporaryDirectory() as folder:
            for turn in range(30):
                facets = Facets(random_facets(source, LABELS[4] if turn % 2 else LABELS[0]))
                for to in ("json", "script", "brackets"):
                    path = os.path.join(folder, f"{turn}.{to}")
                    with open(path, "w", encoding="utf-8") as file:
                        file.write("\n".join(converted(Complex(facets), to)) + "\n")
                    again = Complex.read(path)
                    if to == "json" or turn % 2:
                        self.assertEqual([set(f) for f in again.facets], [set(f) for f in facets])
                    if to == "json":
                        self.assertEqual(again.vertices, facets.vertices)
                    k = Complex(facets)
                    self.assertEqual([again.labels.numbers(f) for f in again.facets], [k.labels.numbers(f) for f in k.facets])

    def test_readers_never_stumble(self):
        """Spoiled texts: facets or BadFile, and nothing else."""
        from cohom import BadFile
        from cohom.readers import read_text
        source = random.Random(3)
        texts = ["0 1 3\n0 1 5\n", "[[0, 1, 3],\n [0, 1, 5]]", "{0 1 3}\n{0 1 5}\n", '{"facets": [["a", "b"], ["b", "c"]]}',
                 "a=[[1,2],[2,3]]\nb=[[1,2]]", "([0], 0.0)\n([0, 1], 0.5)", "('L0', 'L1')\n",
                 '{"_type":"topaz::SimplicialComplex","FACETS":[[0,1]],"VERTEX_LABELS":["a","b"]}',
                 "Simplicial complex with vertex set (0, 1) and facets {(0, 1)}"]
        signs = ["", " ", ",", "[", "]", "{", "(", ")", "\n", "#", '"', "'", "=", "..", "x", "1", ":", "-"]
        read = 0
        with contextlib.redirect_stderr(io.StringIO()):
            for _ in range(3000):
                text = list(source.choice(texts))
                for _ in range(source.randint(1, 3)):
                    at = source.randrange(len(text))
                    text[at:at + source.randint(0, 2)] = source.choice(signs)
                try:
                    found = read_text("".join(text))
                    self.assertTrue(found.facets and all(found.facets))
                    read += 1
                except BadFile:
                    pass
        self.assertGreater(read, 100)


if __name__ == "__main__":
    unittest.main()
