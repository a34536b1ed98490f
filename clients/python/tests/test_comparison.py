"""The pairs of examples/, and pairs that nothing modulo 2 tells apart."""

import unittest

from helpers import CIRCLE, SPHERE, example

from cohom import Complex, compare
from cohom.comparison import _zeros
from cohom.constructions import barycentric_subdivision, connected_sum, disjoint_union, join, product, suspension, wedge

FOUR_SPHERE = [tuple(v for v in range(6) if v != gone) for gone in range(6)]


def sphere(dimension):
    return [tuple(v for v in range(dimension + 2) if v != gone) for gone in range(dimension + 2)]


class Pairs(unittest.TestCase):
    def apart(self, a, b, *names):
        found = compare(a, b)
        self.assertTrue(found.told_apart)
        differ = [i.name for i in found.differ]
        for name in names:
            self.assertIn(name, differ)
        self.assertEqual([i.name for i in compare(b, a).differ], differ, "the order of the two does not matter")
        return found

    def alike(self, a, b):
        found = compare(a, b)
        self.assertEqual([i for i in found.differ], [])
        self.assertEqual(found.verdict, "not told apart modulo 2")

    def test_the_pairs_of_the_examples(self):
        plane, torus = example("projective-plane"), example("torus")
        flat = wedge(CIRCLE, SPHERE)
        self.apart(torus, wedge(wedge(CIRCLE, CIRCLE), SPHERE), "rank of the products of degrees 1 and 1", "closed")
        self.apart(plane, flat, "rank of Sq1 on degree 1")
        found = self.apart(suspension(plane), suspension(flat), "rank of Sq1 on degree 2")
        self.assertFalse([i for i in found.differ if "products" in i.name], "products do not tell them apart")
        self.apart(example("klein-bottle"), torus, "rank of the Bockstein on degree 1")
        self.apart(example("projective-space-3"), example("lens-space-4-1"), "rank of the triple products of degrees 1, 1 and 1")
        self.apart(example("complex-projective-plane"), wedge(SPHERE, FOUR_SPHERE), "rank of Sq2 on degree 2")
        squares = product(SPHERE, SPHERE)
        planes = connected_sum(example("complex-projective-plane"), example("complex-projective-plane"))
        self.apart(squares, planes, "rank of Sq2 on degree 2")
        self.apart(planes, wedge(wedge(SPHERE, SPHERE), FOUR_SPHERE), "rank of the products of degrees 2 and 2")

    def test_spaces_of_one_homotopy_type(self):
        found = self.apart(example("pinched-torus"), wedge(CIRCLE, SPHERE), "closed")
        self.assertEqual(found.verdict, "told apart: the two are not homeomorphic")
        self.assertTrue(self.apart(example("torus"), CIRCLE, "Betti numbers").verdict.endswith("not homotopy equivalent"))

    def test_pairs_that_are_not_told_apart(self):
        self.alike(example("lens-space-3-1"), example("poincare-sphere"))
        self.alike(example("dunce-hat"), example("bings-house"))
        torus = example("torus")
        self.alike(torus, barycentric_subdivision(torus))
        self.alike(torus, product(CIRCLE, CIRCLE))
        self.alike(example("klein-bottle"), connected_sum(example("projective-plane"), example("projective-plane")))
        renamed = Complex([tuple((v * 3) % 7 for v in f) for f in torus.facets])
        self.alike(torus, renamed)
        self.alike(join(CIRCLE, CIRCLE), sphere(3))

    def test_a_connected_sum_with_a_projective_plane(self):
        """The torus and the Klein bottle become one surface."""
        plane = example("projective-plane")
        self.alike(connected_sum(example("torus"), plane), connected_sum(example("klein-bottle"), plane))

    def test_components(self):
        """The Betti numbers of both are 2 2, and products with classes of degree 0 tell on which component a circle lies."""
        beside = disjoint_union(CIRCLE, CIRCLE)
        self.apart(disjoint_union(wedge(CIRCLE, CIRCLE), [(0,)]), beside, "zero among the products of degrees 0 and 1")
        whisker = compare(beside, Complex([*beside.facets, ((0, 0), (0, 7))]))
        self.assertEqual([i.name for i in whisker.differ], ["closed", "links of spheres"], "one homotopy type")

    def test_stiefel_whitney_numbers(self):
        """Two closed 4-manifolds, told apart by a number."""
        a = example("complex-projective-plane")
        self.apart(a, sphere(4), "Stiefel-Whitney numbers")

    def test_texts(self):
        text = str(compare(example("torus"), example("klein-bottle")))
        self.assertTrue(text.startswith("told apart"))
        self.assertIn("rank of Sq1 on degree 1", text)

    def test_zero_products_are_counted_alike_in_both_ways(self):
        """By the formula for one class above, and over all classes."""
        ring = product(wedge(CIRCLE, CIRCLE), CIRCLE).ring()
        rows = [[ring.basis_product((1, i), (1, j)) for j in range(3)] for i in range(3)]
        zeros = sum(ring.product(1, a, 1, b) == 0 for a in range(8) for b in range(8))
        self.assertEqual(_zeros(ring, 1, 1, rows), str(zeros))
        torus = example("torus").ring()
        rows = [[torus.basis_product((1, i), (1, j)) for j in range(2)] for i in range(2)]
        self.assertEqual(_zeros(torus, 1, 1, rows), str(sum(torus.product(1, a, 1, b) == 0 for a in range(4) for b in range(4))))

    def test_the_k3_surface(self):
        k3 = example("k3-surface").ring()
        self.assertFalse(compare(k3, k3).told_apart)
        self.assertFalse([i for i in compare(k3, k3).invariants if i.first is None], "nothing is too large to count")


if __name__ == "__main__":
    unittest.main()
