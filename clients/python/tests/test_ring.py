"""Rings of all complexes of examples/complexes, of the K3 surface and of grids, against what is known; and how they are
written."""

import json
import time
import unittest

from helpers import example, example_names, grid_torus

from cohom import Complex, linear
from cohom.constructions import product

# Betti numbers; products of degrees with their ranks; squares with their ranks; the numbers that are 1, or None; sphere links
KNOWN = {
    "projective-plane": ((1, 1, 1), {(1, 1): 1}, {(1, 1): 1}, [(1, 1), (2,)], True),
    "torus": ((1, 2, 1), {(1, 1): 1}, {(1, 1): 0}, [], True),
    "klein-bottle": ((1, 2, 1), {(1, 1): 1}, {(1, 1): 1}, [], True),
    "pinched-torus": ((1, 1, 1), {(1, 1): 0}, {(1, 1): 0}, None, False),
    "dunce-hat": ((1, 0, 0), {}, {}, None, False),
    "bings-house": ((1, 0, 0), {}, {}, None, False),
    "projective-space-3": ((1, 1, 1, 1), {(1, 1): 1, (1, 2): 1}, {(1, 1): 1, (1, 2): 0}, [], True),
    "projective-space-4": ((1, 1, 1, 1, 1), {(1, 1): 1, (1, 2): 1, (1, 3): 1, (2, 2): 1}, {(1, 1): 1, (1, 2): 0, (2, 2): 1, (1, 3): 1},
                           [(1, 1, 1, 1), (4,)], True),
    "complex-projective-plane": ((1, 0, 1, 0, 1), {(2, 2): 1}, {(2, 2): 1}, [(2, 2), (4,)], True),
    "lens-space-3-1": ((1, 0, 0, 1), {}, {}, [], True),
    "lens-space-4-1": ((1, 1, 1, 1), {(1, 1): 0, (1, 2): 1}, {(1, 1): 0, (1, 2): 0}, [], True),
    "poincare-sphere": ((1, 0, 0, 1), {}, {}, [], True),
    "k3-surface": ((1, 0, 22, 0, 1), {(2, 2): 1}, {(2, 2): 0}, [], True),
}


def product_ranks(ring):
    degrees = sorted({(a[0], b[0]) for a, b in ring.products})
    return {(p, q): linear.rank(linear.vector(v) for (a, b), v in ring.products.items() if (a[0], b[0]) == (p, q)) for p, q in degrees}


def square_ranks(ring):
    return {(k, p): linear.rank(ring.square_rows(k, p)) for k, p in sorted({(k, a[0]) for k, a in ring.squares})}


class Known(unittest.TestCase):
    def test_the_complexes_of_the_examples(self):
        names = example_names()
        self.assertEqual(sorted(set(names) - set(KNOWN)), [], "each has its ring in the table")
        for name in names:
            with self.subTest(name), example(name) as k:
                self.check(k.ring(), KNOWN[name])

    def check(self, ring, known):
        betti, products, squares, ones, links = known
        self.assertEqual(ring.betti, betti)
        self.assertEqual(product_ranks(ring), products)
        self.assertEqual(square_ranks(ring), squares)
        self.assertEqual(ring.bocksteins, {a: v for (k, a), v in ring.squares.items() if k == 1}, "the Bockstein is Sq1")
        self.assertEqual(ring.sphere_links, links)
        if ones is None:
            self.assertIsNone(ring.numbers)
            self.assertTrue(ring.not_dual)
        else:
            self.assertEqual([shape for shape, value in ring.numbers.items() if value], ones)
            self.assertEqual(ring.numbers[(len(betti) - 1,)], sum(betti) % 2, "the top class is the Euler characteristic")

    def test_the_k3_surface(self):
        begin = time.time()
        with example("k3-surface") as k:
            ring = k.ring()
        took = time.time() - begin
        self.check(ring, KNOWN["k3-surface"])
        self.assertEqual(ring.count, (16, 120, 560, 720, 288))
        form = [linear.vector(j for j in range(22) if ring.basis_product((2, i), (2, j))) for i in range(22)]
        self.assertEqual(linear.rank(form), 22, "the form is unimodular")
        self.assertTrue(all(not form[i] >> i & 1 for i in range(22)), "and even: there is a spin structure")
        print(f"\nring of the K3 surface: {took:.3f} s", end="")

    def test_a_torus_of_side_20(self):
        begin = time.time()
        with Complex(grid_torus(20)) as k:
            ring = k.ring()
        took = time.time() - begin
        self.assertEqual(ring.count, (400, 1200, 800))
        self.check(ring, KNOWN["torus"])
        print(f"\nring of the torus of side 20: {took:.3f} s", end="")

    def test_powers_of_one_class(self):
        ring = example("projective-space-4").ring()
        power = 1
        for p in range(1, 4):
            power = ring.product(p, power, 1, 1)
            self.assertEqual(power, 1, f"the power {p + 1} of the class of degree 1")

    def test_the_empty_complex(self):
        ring = Complex().ring()
        self.assertEqual((ring.betti, ring.products, ring.closed), ((), {}, None))
        self.assertIn("empty", str(ring))


class Written(unittest.TestCase):
    def test_as_a_table(self):
        text = str(example("klein-bottle").ring())
        for row in ("  a0 a1 = b", "  Sq1 a0 = b", "  beta a0 = b", "v1 = a1", "w1 w1 = 0, w2 = 0", "closed, of dimension 2"):
            self.assertIn(row, text)
        text = str(example("pinched-torus").ring())
        self.assertIn("duality fails", text)
        self.assertIn("Products: all are zero", text)
        self.assertIn("lies in 1 of", str(Complex([("a", "b", "c")]).ring()))
        self.assertIn("a {a, c}", str(Complex([("a", "b"), ("b", "c"), ("c", "a"), ("d",)]).ring()))

    def test_as_json(self):
        value = json.loads(product([("x", "y"), ("y", "z"), ("z", "x")], [(0, 1), (1, 2), (0, 2)]).ring().to_json())
        self.assertEqual(value["betti"], [1, 2, 1])
        self.assertEqual([v for _, _, v in value["products"]], [[], [0], []])
        self.assertEqual(value["stiefel_whitney_numbers"], [[[1, 1], 0], [[2], 0]])
        self.assertEqual(value["essential"][0], [["('x', 0)"]])
        self.assertIsNone(json.loads(example("dunce-hat").ring().to_json())["wu"])

    def test_as_latex(self):
        text = example("klein-bottle").ring().to_latex()
        self.assertIn(r"a_{0}\smile a_{1} &= b", text)
        self.assertEqual(text.count(r"\begin{align*}"), text.count(r"\end{align*}"))
        self.assertEqual(text.count("{"), text.count("}"))


if __name__ == "__main__":
    unittest.main()
