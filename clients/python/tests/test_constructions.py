"""Constructions: Betti numbers by Künneth's formula and by suspension, squares that commute with it, labels and their orders."""

import unittest

from helpers import CIRCLE, SPHERE, example

from cohom import Complex, Facets, InputFault, NotASimplex, UnknownVertex, compare, linear
from cohom.constructions import (barycentric_subdivision, cone, connected_sum, deleted, disjoint_union, join, link, product,
                                 skeleton, star, suspension, wedge)

POINT = [(0,)]


def convolved(a, b):
    return tuple(sum(a[i] * b[n - i] for i in range(len(a)) if 0 <= n - i < len(b)) for n in range(len(a) + len(b) - 1))


def reduced(betti):
    return (betti[0] - 1,) + tuple(betti[1:])


class Kunneth(unittest.TestCase):
    PAIRS = [(CIRCLE, CIRCLE), (CIRCLE, SPHERE), ("projective-plane", CIRCLE), ("torus", [(0,), (1,)]),
             ("projective-plane", "projective-plane"), ([("a", "b")], "torus"), ("dunce-hat", CIRCLE)]

    def each(self):
        for a, b in self.PAIRS:
            yield tuple(example(x) if isinstance(x, str) else Complex(x) for x in (a, b))

    def test_products(self):
        for a, b in self.each():
            k = product(a, b)
            self.assertEqual(k.betti(), convolved(a.betti(), b.betti()))
            self.assertEqual(k.euler(), a.euler() * b.euler())
            self.assertEqual(len(k.vertices), len(a.vertices) * len(b.vertices))

    def test_joins(self):
        """The reduced Betti numbers of a join are the products of the reduced ones, one degree up."""
        for a, b in self.each():
            wanted = (0,) + convolved(reduced(a.betti()), reduced(b.betti()))
            self.assertEqual(reduced(join(a, b).betti()), wanted)

    def test_the_ring_of_a_product(self):
        """On the product of two projective planes the Stiefel-Whitney numbers are known."""
        plane = example("projective-plane")
        ring = product(plane, plane).ring()
        # w = (1 + a + a^2)(1 + b + b^2): w1 = a + b, w2 = a^2 + ab + b^2, w3 = a^2 b + a b^2, w4 = a^2 b^2
        self.assertEqual(ring.numbers, {(1, 1, 1, 1): 0, (2, 1, 1): 0, (2, 2): 1, (3, 1): 0, (4,): 1})
        self.assertEqual(linear.rank(ring.square_rows(1, 1)), 2)

    def test_cartan(self):
        """Squares of a product with a circle: those of the factor, in two degrees."""
        plane = example("projective-plane")
        ring = product(plane, CIRCLE).ring()
        self.assertEqual(linear.rank(ring.square_rows(1, 1)), 1)
        self.assertEqual(linear.rank(ring.square_rows(1, 2)), 1, "a times the class of the circle goes to its square times that")


class Suspensions(unittest.TestCase):
    def test_betti_numbers_go_up(self):
        for name in ("torus", "projective-plane", "projective-space-3", "dunce-hat"):
            k = example(name)
            self.assertEqual(reduced(suspension(k).betti()), (0,) + reduced(k.betti()))

    def test_squares_commute_and_products_vanish(self):
        for name in ("projective-plane", "projective-space-3", "klein-bottle", "complex-projective-plane"):
            with self.subTest(name):
                ring, up = example(name).ring(), suspension(example(name)).ring()
                for p in range(1, ring.dimension + 1):
                    for k in range(1, p + 1):
                        self.assertEqual(linear.rank(up.square_rows(k, p + 1)), linear.rank(ring.square_rows(k, p)), (k, p))
                    self.assertEqual(linear.rank(up.bockstein_rows(p + 1)), linear.rank(ring.bockstein_rows(p)))
                self.assertFalse([pair for pair, value in up.products.items() if value])

    def test_twice(self):
        k = suspension(suspension(example("projective-plane")))
        self.assertEqual(k.betti(), (1, 0, 0, 1, 1))
        self.assertEqual(k.cls(3, 0).Sq(1), k.cls(4, 0))

    def test_apexes(self):
        self.assertEqual(suspension(CIRCLE).vertices, (0, 1, 2, 3, 4))
        self.assertEqual(suspension([("a", "b")]).vertices, ("a", "b", "north", "south"))
        self.assertEqual(suspension(suspension([("a", "b")])).vertices[-2:], ("north'", "south'"))
        self.assertEqual(suspension(CIRCLE, ["N", "S"]).vertices, (0, 1, 2, "N", "S"))
        self.assertEqual(suspension([]).betti(), (2,))
        self.assertEqual(cone(CIRCLE).betti(), (1, 0, 0))
        self.assertEqual(cone([]).betti(), (1,))
        self.assertEqual(cone(CIRCLE, "top").facets.facets[0], (0, 1, "top"))
        for bad in (lambda: suspension(CIRCLE, [0, 9]), lambda: suspension(CIRCLE, [9, 9]), lambda: cone(CIRCLE, 0)):
            with self.assertRaises(InputFault):
                bad()


class Sums(unittest.TestCase):
    def test_beside_each_other(self):
        k = disjoint_union(example("torus"), CIRCLE)
        self.assertEqual(k.betti(), (2, 3, 1))
        self.assertEqual((k.vertices[0], k.vertices[-1]), ((0, 0), (1, 2)))

    def test_wedges(self):
        k = wedge(example("torus"), example("projective-plane"), at=(3, 2))
        self.assertEqual(k.betti(), (1, 3, 2))
        self.assertIn((0, 3), k.vertices)
        self.assertNotIn((1, 2), k.vertices)
        self.assertEqual(len(k.vertices), 12)
        with self.assertRaises(UnknownVertex):
            wedge(CIRCLE, CIRCLE, at=(7, 0))
        with self.assertRaises(InputFault):
            wedge(CIRCLE, [])

    def test_connected_sums(self):
        torus, plane = example("torus"), example("projective-plane")
        for turned in (False, True):
            k = connected_sum(torus, torus, turned=turned)
            self.assertEqual((k.betti(), k.closed(), k.has_sphere_links()), ((1, 4, 1), 2, True))
        k = connected_sum(plane, plane, at=((1, 2, 4), (4, 5, 6)))
        self.assertFalse(compare(k, example("klein-bottle")).told_apart)
        complex_plane = example("complex-projective-plane")
        self.assertEqual(connected_sum(complex_plane, complex_plane).betti(), (1, 0, 2, 0, 1))
        self.assertEqual(connected_sum(CIRCLE, CIRCLE).betti(), (1, 1))
        self.assertEqual(connected_sum(SPHERE, torus).betti(), (1, 2, 1))
        for bad in ((CIRCLE, SPHERE), ([], CIRCLE), (POINT, POINT)):
            with self.assertRaises(InputFault):
                connected_sum(*bad)
        with self.assertRaises(InputFault):
            connected_sum(CIRCLE, CIRCLE, at=((0,), (1,)))

    def test_the_join_with_nothing(self):
        self.assertEqual(join(CIRCLE, []).betti(), (1, 1))
        self.assertEqual(join([], []).betti(), ())


class Parts(unittest.TestCase):
    def test_skeletons(self):
        k = skeleton(example("torus"), 1)
        self.assertEqual((k.betti(), k.count()), ((1, 15), (7, 21)))
        self.assertEqual(skeleton(SPHERE, 5).count(), (4, 6, 4))
        self.assertEqual(skeleton(SPHERE, 0).betti(), (4,))
        with self.assertRaises(InputFault):
            skeleton(SPHERE, -1)

    def test_subdivisions(self):
        k = barycentric_subdivision(example("projective-plane"))
        self.assertEqual(k.count(), (31, 90, 60))
        self.assertEqual(k.cls(1, 0) ** 2, k.cls(2, 0))
        self.assertTrue(all(len(f[0]) == 1 and set(f[0]) < set(f[1]) < set(f[2]) for f in k.facets))

    def test_links_and_stars(self):
        torus = example("torus")
        for v in torus.vertices:
            self.assertEqual((link(torus, [v]).betti(), star(torus, [v]).betti()), ((1, 1), (1, 0, 0)))
        self.assertEqual(link(torus, (0, 1)).betti(), (2,))
        self.assertEqual(link(torus, (0, 1, 3)).betti(), ())
        self.assertEqual(link(example("pinched-torus"), [0]).betti(), (2, 2))
        self.assertEqual(star(torus, (1, 0)).vertices, (0, 1, 3, 5))
        with self.assertRaises(NotASimplex):
            link(torus, (0, 1, 2))
        with self.assertRaises(UnknownVertex):
            star(torus, (77,))

    def test_deleted_simplices(self):
        torus = example("torus")
        self.assertEqual(deleted(torus, (0, 1, 3)).count(), (7, 21, 13))
        self.assertEqual(deleted(torus, (0, 1)).count(), (7, 20, 12))
        self.assertEqual(deleted(torus, [0]).count(), (6, 15, 8))
        self.assertEqual(deleted([(0, 1)], [0]).vertices, (1,))
        self.assertEqual(deleted(POINT, [0]).betti(), ())
        self.assertEqual(deleted(SPHERE, (0, 1, 2)).betti(), (1, 0, 0))


class Orders(unittest.TestCase):
    def test_that_of_a_product(self):
        k = product([("b", "a")], [(2, 1)])
        self.assertEqual(k.vertices, (("a", 1), ("a", 2), ("b", 1), ("b", 2)))
        self.assertEqual(set(k.facets), {(("a", 1), ("a", 2), ("b", 2)), (("a", 1), ("b", 1), ("b", 2))})

    def test_projections_keep_products(self):
        """The product of cochains that come from the factors, by the formula of Alexander and Whitney."""
        k = product(CIRCLE, CIRCLE)

        def pulled(side, edge):
            return k.cochain(1, [s for s in k.simplices_of(k.now(), 1) if tuple(v[side] for v in s) == edge])
        a, b = pulled(0, (1, 2)), pulled(1, (1, 2))
        self.assertTrue(a.is_cocycle() and b.is_cocycle())
        self.assertEqual(a.cup(b).simplices, [((1, 1), (2, 1), (2, 2))])
        self.assertEqual((a.cohomology_class() * b.cohomology_class())(k.homology(2)[0]), 1)

    def test_explicit_orders_go_on(self):
        base = Facets([(1, 2), (2, 3)], vertices=[3, 1, 2])
        self.assertEqual(cone(base).vertices, (3, 1, 2, 4))
        self.assertEqual(skeleton(base, 0).vertices, (3, 1, 2))
        self.assertEqual(join(base, [(0,)]).vertices, ((0, 3), (0, 1), (0, 2), (1, 0)))


if __name__ == "__main__":
    unittest.main()
