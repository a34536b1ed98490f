"""Classes, cochains and chains as values, and each refusal as an exception."""

import unittest

from helpers import CIRCLE, SPHERE, example

from cohom import (BadLink, Chain, Cochain, Complex, DegenerateClass, NoSuchClass, NotABoundary, NotACocycle, NotACycle,
                   NotASimplex, NotClosed, NotOneClass, OtherComplex, OtherVersion, WrongDegree, WrongDegrees, WrongSum)
from cohom.constructions import product, suspension, wedge


class Arithmetic(unittest.TestCase):
    @classmethod
    def setUpClass(cls):
        cls.k = example("torus")
        cls.a, cls.b = cls.k.classes(1)
        cls.c = cls.k.cls(2, 0)

    def test_products(self):
        a, b, c = self.a, self.b, self.c
        self.assertEqual(a * b, c)
        self.assertEqual(b * a, c)
        self.assertEqual(a * a, 0)
        self.assertEqual((a + b) * b, a * b + b * b)
        self.assertEqual(a ** 2, a.Sq(1))
        self.assertEqual(a ** 0, self.k.unit())
        self.assertEqual(self.k.unit() * a, a)
        self.assertEqual((a * b).degree, 2)
        self.assertEqual(a * b * a, self.k.cls(3))
        self.assertEqual(hash(a * b), hash(c))
        self.assertEqual(len({a, b, a + b, b + a}), 3)
        self.assertNotEqual(a, b)
        self.assertNotEqual(self.k.cls(1), self.k.cls(2), "zeros of two degrees")
        self.assertFalse(self.k.cls(1))
        self.assertEqual(sum([a, b, a]), b)

    def test_sums_are_modulo_two(self):
        self.assertEqual(self.a + self.a, 0)
        self.assertEqual(self.k.cls(1, 0, 1, 0), self.b)
        self.assertEqual(self.a - self.b, self.a + self.b)
        with self.assertRaises(WrongDegree):
            self.a + self.c
        with self.assertRaises(TypeError):
            self.a + 1
        with self.assertRaises(TypeError):
            self.a * self.k.homology(1)[0]

    def test_values_and_caps(self):
        a, b, k = self.a, self.b, self.k
        z, w = k.homology(1)
        self.assertEqual([[x(y) for y in (z, w)] for x in (a, b)], [[1, 0], [0, 1]])
        self.assertEqual([[x.cocycle()(y.cycle()) for y in (z, w)] for x in (a, b)], [[1, 0], [0, 1]])
        self.assertEqual([a(z.cycle()), b(z.cycle())], [1, 0])
        top = k.homology(2)[0]
        self.assertEqual(top.cycle(), k.fundamental_cycle())
        self.assertEqual((a * b)(top), 1)
        self.assertEqual(a(b.cap(top)), 1)
        self.assertEqual(a.cap(top).degree, 1)
        self.assertEqual(a.cap(top), a.cap(k.fundamental_cycle()).homology_class())
        with self.assertRaises(WrongDegrees):
            self.c.cap(z)
        with self.assertRaises(WrongDegree):
            a(top)

    def test_bocksteins(self):
        p = example("projective-plane")
        a = p.cls(1, 0)
        self.assertEqual(a.bockstein(), a * a)
        self.assertEqual(a.bockstein(), a.Sq(1))
        self.assertEqual(self.a.bockstein(), 0)
        self.assertEqual(a.Sq(0), a)
        self.assertEqual(a.Sq(2), 0)
        self.assertEqual(a.Sq(2).degree, 3)

    def test_cochains(self):
        k, a = self.k, self.a.cocycle()
        self.assertIsInstance(a, Cochain)
        self.assertTrue(a.is_cocycle())
        self.assertEqual(a.cohomology_class(), self.a)
        u = k.cochain(0, [(0,), (3,)])
        self.assertEqual((a + u.delta()).cohomology_class(), self.a)
        self.assertEqual(u.delta().bound().delta(), u.delta())
        self.assertEqual(a + a, k.cochain(1, []))
        self.assertEqual(sorted(map(sorted, a)), sorted(map(sorted, a.simplices)))
        self.assertIn((2, 1), a)
        self.assertEqual(a.cup(a).cohomology_class(), 0)
        self.assertEqual(a.cup_i(1, a), a)
        self.assertEqual(k.cup_i(0, self.a, self.b).cohomology_class(), self.c)
        self.assertEqual(k.cochain(1, [(0, 1), (1, 0)]), k.cochain(1, []), "twice is not at all")
        self.assertEqual(len(k.cocycles(1)), 2)

    def test_chains(self):
        k = self.k
        z = k.cycle(1, 0)
        self.assertIsInstance(z, Chain)
        self.assertTrue(z.is_cycle())
        self.assertEqual(z.homology_class(), k.homology_class(1, 0))
        c = k.chain(2, [(0, 1, 3)])
        self.assertEqual(c.boundary().simplices, [(0, 1), (0, 3), (1, 3)])
        self.assertEqual((z + c.boundary()).homology_class(), k.homology_class(1, 0))
        with self.assertRaises(NotACycle):
            c.homology_class()
        f, phi = k.model((0, 5))
        self.assertEqual((f.degree, phi.degree), (1, 2))
        with self.assertRaises(WrongDegree):
            z + c

    def test_the_witness_of_a_product(self):
        k, a, b = self.k, self.a, self.b
        other = a.cocycle() + k.cochain(0, [(2,)]).delta()
        u = k.same_cup(a, other, b, b)
        self.assertEqual(u.delta(), k.cup_i(0, a, b) + k.cup_i(0, other, b))
        p = example("projective-plane")
        x = p.cls(1, 0)
        y = x.cocycle() + p.cochain(0, [(2,)]).delta()
        self.assertEqual(p.same_square(1, x, y).delta(), x.cocycle().cup(x) + y.cup(y))
        self.assertEqual(p.same_bockstein(x, y).degree, 1)
        with self.assertRaises(NotOneClass):
            k.same_cup(a, b, a, a)
        with self.assertRaises(WrongDegrees):
            k.same_bockstein(a, self.c)


class Refusals(unittest.TestCase):
    def test_each_has_its_exception(self):
        k = example("projective-plane")
        with self.assertRaises(NotACocycle) as caught:
            k.cochain(1, [(2, 3)]).cohomology_class()
        self.assertEqual(caught.exception.simplex, (2, 3, 5))
        with self.assertRaises(NoSuchClass) as caught:
            k.cls(1, 4)
        self.assertEqual((caught.exception.degree, caught.exception.number, caught.exception.there_are), (1, 4, 1))
        with self.assertRaises(NoSuchClass):
            k.now().question("cup 1:#0 1:#7")
        with self.assertRaises(NotABoundary) as caught:
            k.cocycle(2, 0).bound()
        self.assertEqual(caught.exception.simplex, (4, 5, 6))
        with self.assertRaises(NotASimplex):
            k.cochain(2, [(1, 2, 3)])
        with self.assertRaises(NotASimplex):
            k.kind((1, 2, 3))
        with self.assertRaises(WrongDegree):
            k.classes(-1)
        with self.assertRaises(WrongDegree):
            k.cls(1, 0).Sq(-1)

    def test_what_is_not_closed(self):
        with self.assertRaises(NotClosed):
            Complex().closed()
        disk = Complex([(0, 1, 2)])
        with self.assertRaises(NotClosed) as caught:
            disk.wu()
        self.assertEqual((caught.exception.simplex, caught.exception.times), ((0, 1), 1))
        with self.assertRaises(BadLink) as caught:
            disk.links()
        self.assertEqual((caught.exception.simplex, caught.exception.betti), ((0,), (1, 0)))
        with self.assertRaises(NotClosed) as caught:
            Complex([(0, 1, 2), (2, 3)]).fundamental_cycle()
        self.assertIsNone(caught.exception.times)
        pinched = example("pinched-torus")
        self.assertTrue(pinched.is_closed())
        self.assertFalse(pinched.has_sphere_links())
        with self.assertRaises(DegenerateClass) as caught:
            pinched.duality()
        self.assertEqual((caught.exception.degree, caught.exception.numbers), (1, (0,)))
        with self.assertRaises(WrongSum) as caught:
            example("torus").stiefel_whitney_number(1)
        self.assertEqual((caught.exception.total, caught.exception.dimension), (1, 2))

    def test_two_complexes(self):
        k, m = example("torus"), example("torus")
        for ask in (lambda: k.cls(1, 0) * m.cls(1, 0), lambda: k.cls(1, 0) + m.cls(1, 0),
                    lambda: k.cup_i(0, k.cocycle(1, 0), m.cocycle(1, 0)), lambda: k.cocycle(1, 0) + m.cocycle(1, 0)):
            with self.assertRaises(OtherComplex):
                ask()
        self.assertNotEqual(k.cls(1, 0), m.cls(1, 0))

    def test_two_versions(self):
        k = Complex(CIRCLE)
        a, c = k.cls(1, 0), k.cocycle(1, 0)
        k.add((7, 8))
        with self.assertRaises(OtherVersion):
            a + k.cls(1, 0)
        with self.assertRaises(OtherVersion):
            k.cap(a, k.cycle(1, 0))
        self.assertEqual(k.cap(c, k.cycle(1, 0)).degree, 0, "a cochain stays a value")
        self.assertEqual(c, k.cocycle(1, 0))


class Manifolds(unittest.TestCase):
    def test_the_projective_plane(self):
        k = example("projective-plane")
        self.assertEqual(k.closed(), 2)
        self.assertTrue(k.has_sphere_links())
        self.assertEqual(k.duality(), [[[1]], [[1]], [[1]]])
        a = k.cls(1, 0)
        self.assertEqual(k.wu(), [k.unit(), a, 0])
        self.assertEqual(k.stiefel_whitney(), [k.unit(), a, a * a])
        self.assertEqual(k.stiefel_whitney_numbers(), {(1, 1): 1, (2,): 1})
        self.assertEqual(k.stiefel_whitney_number(1, 1), 1)
        self.assertEqual(k.euler(), 1)

    def test_points(self):
        two = Complex([(0,), (1,)])
        self.assertEqual(two.closed(), 0)
        self.assertEqual(two.stiefel_whitney_numbers(), {})
        self.assertEqual(two.unit().numbers, (0, 1))
        e, f = two.classes(0)
        self.assertEqual([e * e, e * f, (e + f) * e], [e, 0, e])

    def test_wu_and_stiefel_whitney_of_a_product(self):
        k = product(example("projective-plane"), SPHERE)
        self.assertEqual(k.closed(), 4)
        self.assertEqual(sum(k.stiefel_whitney_numbers().values()), 0)
        self.assertFalse(k.stiefel_whitney()[1].is_zero())

    def test_suspended_wedges(self):
        k = suspension(wedge(CIRCLE, SPHERE))
        self.assertEqual([k.cls(2, 0).Sq(1), k.cls(2, 0) ** 2], [0, 0])


if __name__ == "__main__":
    unittest.main()
