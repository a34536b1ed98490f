"""Complexes with labels: growing, cuts, refusals, versions, and a server that others use too."""

import numbers
import socket
import sys
import threading
import unittest

import fake
from helpers import CIRCLE, HERE, PROGRAM, SPHERE, example

from cohom import (BadFacet, ChangedByOthers, Closed, Complex, Facets, FacetRefused, NotASimplex, NotBuiltYet, NotHeld, OtherVersion,
                   ProgramEnded, Refusal, UnknownVertex)
from cohom.transport import Connection


class Labels(unittest.TestCase):
    def test_any_hashable_labels(self):
        k = Complex([("a", "b"), ("b", "c"), ("c", "a")])
        self.assertEqual(k.betti(), (1, 1))
        self.assertEqual(k.essential(1), [("a", "c")])
        self.assertIn(("c", "a"), k.cocycle(1, 0))
        mixed = Complex([(None, 1.5), (1.5, (2, "x")), (frozenset([3]), None)])
        self.assertEqual(mixed.vertices, (None, 1.5, (2, "x"), frozenset([3])))
        self.assertEqual(mixed.count(), (4, 3))
        self.assertEqual(mixed.essential(0), [(None,)])

    def test_numbers_are_their_own(self):
        k = example("projective-plane")
        self.assertEqual(k.ask("cochain 1:#0"), ["ok v1 cochain 1:{2-3,2-5,3-6,4-5,4-6}"])
        self.assertEqual(str(k.cocycle(1, 0)), "1:{2-3,2-5,3-6,4-5,4-6}")

    def test_whole_numbers_of_other_types(self):
        """As numpy has them."""
        class Number:
            def __init__(self, value):
                self.value = value

            def __int__(self):
                return self.value
        numbers.Integral.register(Number)
        k = Complex([(Number(3), Number(1)), (Number(1), 2)])
        self.assertEqual((k.vertices, k.count()), ((1, 2, 3), (3, 2)))
        self.assertTrue(all(type(v) is int for v in k.vertices))

    def test_the_order_of_vertices(self):
        self.assertEqual(Complex([(3, 1), (2, 1)]).vertices, (1, 2, 3))
        self.assertEqual(Complex([("b", "a")], vertices=["b", "a"]).facets.facets, (("b", "a"),))
        turned = Complex([(1, 2, 3)], vertices=[3, 2, 1])
        self.assertEqual(turned.vertices, (3, 2, 1))
        self.assertEqual(turned.cochain(1, [(3, 2)]).cup(turned.cochain(1, [(2, 1)])).simplices, [(3, 2, 1)])
        self.assertEqual(turned.cochain(1, [(1, 2)]).cup(turned.cochain(1, [(2, 3)])).simplices, [])
        one, two, both = frozenset([1]), frozenset([2]), frozenset([1, 2])
        self.assertEqual(Complex([(two, both), (one, both)]).vertices, (two, both, one), "subsets are no order of their own")
        self.assertEqual(Complex([(2, "x"), ("x", 10)]).vertices, (2, "x", 10))
        self.assertEqual(Complex([(10 ** 12, -1)]).count(), (2, 1))

    def test_faults_of_facets(self):
        for facets in ([(1, 1)], [()], ["abc"], [5], [([1], 2)]):
            with self.assertRaises(BadFacet):
                Complex(facets)
        with self.assertRaises(UnknownVertex):
            Complex([(1, 2)], vertices=[1])
        k = Complex([(1, 2)])
        for facets in ([(2, 3), (3, 4)], [[2, 3], [3, 4]], ((2, 3), (3, 4)), "ab", 7):
            with self.assertRaises(BadFacet):
                k.add(facets)
        with self.assertRaises(BadFacet):
            Complex().add([(2, 3), (3, 4)])
        self.assertEqual(Complex([((0, 0), (0, 1))]).add([(0, 1), (1, 1)]).count(), (3, 2), "where tuples are labels")
        for simplex in ("12", 1):
            with self.assertRaises(NotASimplex):
                k.kind(simplex)
        for ask in (lambda: k.kind((7,)), lambda: k.cochain(0, [(7,)])):
            with self.assertRaises(UnknownVertex):
                ask()
        with self.assertRaises(NotASimplex):
            k.cochain(1, [(1,)])
        with self.assertRaises(NotASimplex):
            k.kind((1, 1))


class Growing(unittest.TestCase):
    def test_the_cut_is_made(self):
        k = Complex()
        self.assertEqual(k.betti(), ())
        k.add((0, 1), (1, 2), (0, 2))
        self.assertEqual(k.betti(), (1, 1))
        k.add((0, 1, 2))
        self.assertEqual(k.betti(), (1, 0, 0))
        self.assertEqual(k.now().number, 3)
        self.assertEqual(k.count(), (3, 3, 1))
        self.assertEqual(k.now().number, 3, "no change, no cut")

    def test_new_labels(self):
        k = Complex([("a", "b")])
        k.betti()
        k.add(("b", "c"), ("aa", "c"))
        self.assertEqual(k.vertices, ("a", "b", "c", "aa"))
        self.assertEqual(k.count(), (4, 3))
        n = Complex([(1, 5)]).add((3, 1))
        self.assertEqual(n.vertices, (1, 3, 5))
        self.assertEqual(n.add(("x", 3), (6, 3)).count(), (5, 4))
        self.assertEqual(n.labels.simplex(n.labels.numbers((6, "x"))), ("x", 6), "the number 6 is taken, the label is its own vertex")

    def test_a_refused_facet_is_no_silent_other_complex(self):
        wide = tuple(range(60))
        with self.assertRaises(FacetRefused) as caught:
            Complex([(0, 1), wide]).betti()
        self.assertEqual(caught.exception.facet, wide)
        self.assertIn("60 vertices", str(caught.exception))
        k = Complex([(0, 1), wide, (1, 2)])
        for _ in range(2):
            with self.assertRaises((FacetRefused, Closed)):
                k.betti()
        with self.assertRaises(Closed):
            k.betti()

    def test_a_refused_facet_that_is_added(self):
        k = Complex([(0, 1)])
        k.betti()
        with self.assertRaises(FacetRefused):
            k.add((1, 2), tuple(range(60)), (2, 3))
        self.assertEqual(k.vertices, (0, 1, 2))
        self.assertEqual(k.count(), (3, 2), "the facet before it is in, and it and the one behind it are not")

    def test_no_room(self):
        """Simplices of the most vertices that the program takes, until the complex is full, whatever its limits are."""
        most = 1
        while not Complex([tuple(range(most + 1))]).session_refuses():
            most += 1
        k = Complex([tuple(range(most))])
        k.betti()
        with self.assertRaises(FacetRefused) as caught:
            for n in range(1, 99):
                k.add(tuple(range(100 * n, 100 * n + most)))
                k.betti()
        self.assertIn("no room", str(caught.exception))
        self.assertEqual(k.betti()[0], n, "what was there before is there still")

    def test_a_facet_of_a_file_tells_its_line(self):
        k = Complex.read_text("0 1\n" + " ".join(map(str, range(60))) + "\n")
        with self.assertRaises(FacetRefused) as caught:
            k.betti()
        self.assertTrue(str(caught.exception).startswith("the text, line 2: "))

    def test_requests_as_they_stand(self):
        k = example("torus")
        self.assertEqual(k.ask("cup 1:#0 1:#1", "fly"), ["ok v1 cup 2:#0", "bad 1 request"])
        for request in ("cut", "0 1", "facet 0 1", "", "# note", "betti\nbetti", "quit", "@0 betti", "round 4", "é"):
            with self.assertRaises(Refusal):
                k.ask(request)
        self.assertEqual(k.betti(), (1, 2, 1))


class Versions(unittest.TestCase):
    def test_an_older_version(self):
        k = example("torus")
        first = k.cut()
        a = k.cls(1, 0)
        k.add((10, 11))
        self.assertEqual(k.betti(), (2, 2, 1))
        self.assertEqual(k.at(first).betti(), (1, 2, 1))
        self.assertEqual(a.cocycle().cohomology_class(), a, "a class of the older version")
        with self.assertRaises(OtherVersion):
            a * k.cls(1, 0)
        with self.assertRaises(NotHeld):
            k.at(99)

    def test_back_to_a_version(self):
        """The disc is left for the circle, which grows on to two circles; each version answers as it did."""
        k = Complex(CIRCLE)
        circle = k.cut()
        disc = k.add((0, 1, 2)).cut()
        self.assertEqual(k.back(circle).betti(), (1, 1))
        self.assertEqual(list(k.facets), CIRCLE)
        two = k.add((0, 3), (1, 3)).cut()
        self.assertEqual([k.at(v).betti() for v in (circle, disc, two)], [(1, 1), (1, 0, 0), (1, 2)])
        self.assertEqual(k.at(disc).essential(0), [(0,)])
        self.assertEqual([len(k.simplices_of(k.at(v), 1)) for v in (circle, disc, two)], [3, 3, 5])
        self.assertEqual(k.back(0).betti(), ())
        self.assertEqual(k.add((0, 1, 2)).count(), (3, 3, 1))
        with self.assertRaises(NotHeld):
            k.back(99)

    def test_as_many_versions_as_are_held(self):
        k = Complex([(0,)])
        versions = [k.add((0, n)).cut() for n in range(1, 66)]
        k.add((0, 70)).betti()
        with self.assertRaises(NotHeld):
            k.at(versions[64])
        k.forget(versions[3])
        with self.assertRaises(NotHeld):
            k.at(versions[3])
        last = k.cut()
        k.add((0, 71)).betti()
        self.assertEqual([k.at(v).count() for v in (versions[0], versions[63], last)], [(2, 1), (65, 64), (67, 66)])
        self.assertEqual(k.back(versions[3]).count(), (5, 4))

    def test_as_many_returns_as_there_are(self):
        k = Complex([(0, 1)])
        first = k.cut()
        for _ in range(64):
            k.back(first)
        with self.assertRaises(Refusal):
            k.back(first)
        self.assertEqual(k.add((1, 2)).count(), (3, 2))

    def test_a_program_that_cannot_go_back(self):
        told = """
import sys
replies = {'0': 'ok facet 3 3', 'hold': 'no later', 'back': 'bad 1 request'}
cuts, entries = 0, 3
for line in sys.stdin:
    word = line.split()[0]
    if word == 'cut':
        cuts, entries = cuts + 1, entries + 1
    print({'cut': f'ok cut {cuts} {entries}', 'betti': f'ok v{cuts} betti 1 0'}.get(word) or replies[word], flush=True)
"""
        k = Complex([(0, 1)], program=[sys.executable, "-c", told])
        first, _ = k.cut(), k.cut()
        self.assertEqual(k.betti(), (1, 0))
        with self.assertRaises(NotBuiltYet):
            k.at(first)
        with self.assertRaises(Refusal):
            k.back(first)

    def test_versions_by_hold_and_use(self):
        """With a stand-in that holds three of them, as a child."""
        k = Complex([(0, 1), (1, 2), (0, 2)], program=[sys.executable, "-c", _AS_CHILD, *PROGRAM])
        first = k.cut()
        a = k.cls(1, 0)
        k.add((0, 1, 2))
        second = k.cut()
        self.assertEqual((first, second), (1, 2))
        self.assertEqual(k.betti(), (1, 0, 0))
        self.assertEqual(k.at(1).betti(), (1, 1))
        self.assertEqual(k.at(1).count(), (3, 3))
        self.assertEqual(a.cocycle().simplices, [(0, 2)], "a class of the older version")
        self.assertEqual(k.count(), (3, 3, 1), "and the newest is asked again")
        self.assertEqual(k.at(1).cls(1, 0), a)
        k.add((5, 6))
        self.assertEqual(k.betti(), (2, 0, 0))
        self.assertEqual(k.now().number, 3)
        k.add((7, 8))
        k.betti()
        self.assertEqual(k.at(2).essential(0), [(0,)])
        self.assertEqual([k.betti(), k.at(1).betti(), k.kind((7,)), k.at(2).kind((0,))], [(3, 0, 0), (1, 1), "essential", "essential"])
        with self.assertRaises(NotHeld):
            k.at(3)
        k.close()


_AS_CHILD = f"""
import sys; sys.path.insert(0, {HERE!r})
import fake
caller = fake.Caller(fake.Line(sys.argv[1:-1]))
for text in iter(sys.stdin.readline, ''):
    print(caller.answer(text.strip()), flush=True)
caller.line.close()
"""


class Served(unittest.TestCase):
    def setUp(self):
        self.server = fake.Server(PROGRAM)
        self.addCleanup(self.server.close)

    def test_a_complex_over_a_socket(self):
        with Complex(SPHERE, at=self.server.address) as k:
            self.assertEqual(k.betti(), (1, 0, 1))
            first = k.cut()
            k.add((0, 9))
            self.assertEqual(k.count(), (5, 7, 4))
            self.assertEqual(k.at(first).count(), (4, 6, 4))
            self.assertEqual([len(k.ask("betti")), len(k.ask(*["count"] * 300))], [1, 300])

    def test_a_server_that_is_not_empty(self):
        Complex(SPHERE, at=self.server.address).betti()
        other = Complex([(0, 1)], at=self.server.address)
        with self.assertRaises(ChangedByOthers):
            other.betti()
        with self.assertRaises(Closed):
            other.betti()
        shared = Complex(at=self.server.address, shared=True)
        self.assertEqual(shared.betti(), (1, 0, 1))
        self.assertEqual(shared.essential(2), [(1, 2, 3)])
        self.assertEqual(shared.cochain(0, [(2,)]).delta().simplices, [(0, 2), (1, 2), (2, 3)])
        shared.add((3, 4))
        self.assertEqual(shared.count(), (5, 7, 4))

    def test_somebody_else_changes_it(self):
        mine = Complex(SPHERE, at=self.server.address)
        mine.betti()
        Complex([(7, 8)], at=self.server.address, shared=True).betti()
        with self.assertRaises(ChangedByOthers):
            mine.add((0, 9))
        with self.assertRaises(Closed):
            mine.count()

    def test_a_long_batch_over_a_socket(self):
        """A server that answers nothing before it has read all."""
        server = socket.create_server(("127.0.0.1", 0))
        self.addCleanup(server.close)

        def serve():
            connection, _ = server.accept()
            with connection, connection.makefile("rb") as lines:
                for reply in [b"ok " + next(lines) for _ in range(50000)]:
                    connection.sendall(reply)
                lines.read()
        thread = threading.Thread(target=serve, daemon=True)
        thread.start()
        channel = Connection("127.0.0.1:%d" % server.getsockname()[1])
        replies = channel.ask_all([f"request {k} " + "x" * 60 for k in range(50000)])
        self.assertEqual(replies[-1], "ok request 49999 " + "x" * 60)
        channel.close()
        thread.join(5)
        self.assertFalse(thread.is_alive())

    def test_a_connection_that_ends(self):
        k = Complex(SPHERE, at=self.server.address)
        k.betti()
        with self.assertRaises(ProgramEnded):
            k.session().channel.ask("die")
        with self.assertRaises(Closed):
            k.kind((0,))


class Lists(unittest.TestCase):
    def test_facets(self):
        f = Facets([(2, 1), (1, 2, 3), (3, 2, 1), (4,)])
        self.assertEqual(f.maximal().facets, ((1, 2, 3), (4,)))
        self.assertEqual(f.simplices(1), [(1, 2), (1, 3), (2, 3)])
        self.assertEqual(len(f.simplices()), 8)
        self.assertEqual(f.dimension, 2)
        self.assertIn((3, 1), f)
        self.assertNotIn((4, 1), f)
        self.assertEqual(Facets([]).dimension, -1)


def _refuses(self):
    try:
        self.session()
    except FacetRefused:
        return True
    self.close()
    return False


Complex.session_refuses = _refuses

if __name__ == "__main__":
    unittest.main()
