"""Files of other tools, and each kind of bad file."""

import codecs
import os
import tempfile
import unittest

from helpers import DATA

from cohom import BadFile, Complex
from cohom.readers import read_all, read_file, read_text

TRIANGLES = ((0, 1, 3), (0, 1, 5))


def at(name):
    return os.path.join(DATA, name)


class Forms(unittest.TestCase):
    def check(self, text, facets=TRIANGLES, **options):
        self.assertEqual(read_text(text, **options).facets, tuple(facets))

    def test_plain(self):
        self.check("0 1 3\n0 1 5\n")
        self.check("0 1 3\n\n# a note\n% another\nfacet 0 1 5")
        self.check("  0\t1 3  # behind\n5 1 0 % too")
        self.check("0,1,3\n0, 1, 5\n")
        self.check("0 1 3\r\n0 1 5\r\n")
        self.check("\ufeff0 1 3\n0 1 5\n")
        self.check("001 3 0\n5 0 1")
        self.check("-1 2\n", [(-1, 2)])

    def test_names_as_vertices(self):
        self.check("a b\nb c", [("a", "b"), ("b", "c")])
        self.check("v1, v2\nv2, v10", [("v1", "v2"), ("v10", "v2")])
        self.check("'Minimal triangulation' \"x\\\"y\"", [("Minimal triangulation", 'x"y')])
        self.check("1 'a'", [(1, "a")])

    def test_brackets(self):
        for text in ("[[0,1,3],[0,1,5]]", "[[0, 1, 3],\n [0, 1, 5]]\n", "{0 1 3}\n{0 1 5}\n", "{(0, 1, 3), (0, 1, 5)}", "(0,1,3),(0,1,5)",
                     "[ [ 0, 1, 3 ], [ 0, 1,\n 5 ] ]", "[[0 1 3] [0 1 5]]", "[0,1,3]\n# note\n[0,1,5]"):
            self.check(text)
        self.check("[ [ 1 .. 3 ], [ 2, 4 ] ]", [(1, 2, 3), (2, 4)])
        self.check("[((0,0),(0,1)),((0,1),(1,1))]", [((0, 0), (0, 1)), ((0, 1), (1, 1))])

    def test_sagemath(self):
        """In the form that docs/from-other-tools.md shows; SageMath itself was not tried here."""
        self.check("Simplicial complex with vertex set (0, 1, 2) and facets {(0, 1), (0, 2), (1, 2)}", [(0, 1), (0, 2), (1, 2)])
        self.check("{('L0R0', 'L0R1', 'L1R1'), ('L0R0', 'L1R0', 'L1R1')}", [("L0R0", "L0R1", "L1R1"), ("L0R0", "L1R0", "L1R1")])
        self.check("{(0, 3, 4), (1, 3, 5)}", [(0, 3, 4), (1, 3, 5)], form="sagemath")

    def test_manifold_pages(self):
        text = "manifold_2_4_1=[[1,2,3],[1,2,4],\n [1,3,4],[2,3,4]]\n\nmanifold_2_6_1=[[1,2,4],[1,2,6]]\n"
        with tempfile.TemporaryDirectory() as folder:
            path = os.path.join(folder, "pages")
            with open(path, "w", encoding="utf-8") as file:
                file.write(text)
            self.assertEqual(list(read_all(path)), ["manifold_2_4_1", "manifold_2_6_1"])
            self.assertEqual(Complex.read(path, name="manifold_2_4_1").betti(), (1, 0, 1))
            with self.assertRaises(BadFile) as caught:
                Complex.read(path)
            self.assertIn("manifold_2_6_1", str(caught.exception))
            with self.assertRaises(BadFile):
                Complex.read(path, name="manifold_9")
        self.check("manifold_lex_d2_n4_o1_g0_#1=[[0,1,3],[0,1,5]]")
        self.check("S := [ [ 0, 1, 3 ], [ 0, 1, 5 ] ];")

    def test_json(self):
        self.check('{"facets": [["a", "b"], ["b", "c"]], "vertices": ["c", "b", "a"]}', [("b", "a"), ("c", "b")])
        self.check('[[0, 1, 3], ["0", 1]]', [(0, 1, 3), (1, "0")], form="json")

    def test_files_of_polymake(self):
        """As polymake 4.6 wrote them."""
        self.assertEqual(Complex.read(at("polymake-sets.txt")).betti(), (1, 2, 1))
        self.assertEqual(Complex.read(at("polymake-torus.top")).betti(), (1, 2, 1))
        product = read_file(at("polymake-product.top"))
        self.assertEqual(product.vertices[:3], ("(a,a)", "(b,a)", "(c,a)"))
        self.assertEqual(product.facets[0], ("(a,a)", "(b,a)", "(b,b)"))
        old = ('<object type="SimplicialComplex"><property name="FACETS"><m><v>0 1</v><v>1 2</v></m></property>'
               '<property name="VERTEX_LABELS" value="a b c"/></object>')
        self.check(old, [("a", "b"), ("b", "c")])

    def test_files_of_gap(self):
        """As GAP 4.12.1 printed them."""
        self.assertEqual(Complex.read(at("gap-lists.txt")).betti(), (1, 1, 1))
        self.assertEqual(read_file(at("gap-ranges.txt")).facets, ((1, 2, 3), (2, 3, 4)))

    def test_files_of_gudhi(self):
        """As GUDHI 3.7.1 printed them from Python; the lines that it writes itself are in the form of its documentation."""
        for name in ("gudhi-pairs.txt", "gudhi-list.txt"):
            found = read_file(at(name))
            self.assertEqual(len(found), 14, "the facets alone")
            self.assertEqual(Complex(found).betti(), (1, 2, 1))
        self.check("0 1 0\n0 0 0\n1 1 0 0.25\n0 2 0.5\n", [(0, 1), (2,)], form="gudhi")


class Faults(unittest.TestCase):
    def fault(self, text, line, *words, **options):
        with self.assertRaises(BadFile) as caught:
            read_text(text, **options)
        told = caught.exception
        self.assertEqual(told.line, line, str(told))
        for word in words:
            self.assertIn(word, str(told))
        if line:
            self.assertIn(f"line {line}", str(told))

    def test_typing_errors(self):
        self.fault("0 1 3\n0,2 3\n", 2, "'0,2 3'", "commas")
        self.fault("0,,2", 1, "comma too many")
        self.fault("0 1 2,", 1, "commas")
        self.fault("0,1,2,", 1, "comma too many")
        self.fault("0-1-2", 1, "'0 1 2'")
        self.fault("0 1 O3", 1, "numbers and words")
        self.fault("0 1 2\n0 1 3O", 2, "letter")
        self.fault("0 1 2\n0 1 1", 2, "'0 1 1'", "twice")
        self.fault("0.5 1", 1, "whole")
        self.fault("facet", 1, "at least one vertex")
        self.fault("0 1 2\na b c", 2, "numbers and words")
        self.fault("Minimal triangulation of the torus", 1, "quotes")
        self.fault("0 1 2\ncut\nbetti", 2, "script")
        self.fault("", 0, "no facets")
        self.fault("# nothing\n", 0, "no facets")

    def test_brackets_that_do_not_fit(self):
        self.fault("[[1,2,3],[1,2,4]", 1, "not closed")
        self.fault("[[1,2,3),\n[1,2,4]]", 1, "closed by")
        self.fault("[[1,2,3],\n[1,2 4]]", 2, "[1,2 4]")
        self.fault("[[1,2,3],\n\n[1,2,,4]]", 3, "comma")
        self.fault("[[1,2,3],[2,2]]", 1, "[2,2]", "twice")
        self.fault("[[1,2],[]]", 1, "at least one vertex")
        self.fault("[1,[2,3]]", 1, "single vertices")
        self.fault("[[1,2],[2,3]]\n[[1,2,3]]", 2, "second list")
        self.fault("[[1,2]]\nand more", 2, "'and'")
        self.fault("Simplicial complex with 9 vertices and 18 facets", 1, "print(X.facets())")
        self.fault("a=[[1,2]]\na=[[1,3]]", 2, "two complexes")

    def test_objects(self):
        self.fault('{"facets": [["a", "b"],\n ["b", 1.5]]}', 2, "1.5")
        self.fault('{"facets": [["a", "b"],\n ["b", "b"]]}', 2, "twice")
        self.fault('{"facets": [["a", "b"],\n ["b", "c"', 2, "no JSON")
        self.fault('{"faces": []}', 1, "no `facets`")
        self.fault('{"facets": [["a", "b"]], "vertices": ["a"]}', 0, "'b'")
        self.fault('{"facets": [["a", "b"]], "vertices": ["a", "b", "c"]}', 0, "'c'", "no facet")
        self.fault('{"_type": "topaz::SimplicialComplex"}', 1, "FACETS")
        self.fault('{"_type":"topaz::SimplicialComplex","FACETS":[[0,1],\n[1,2]],"VERTEX_LABELS":["a","b"]}', 2, "labels")
        self.fault("<object><property", 1, "XML")

    def test_simplex_trees(self):
        self.fault("([0], 0.0)\n([0, x], 0.0)", 2, "integers")
        self.fault("([0], 0.0)\nrest", 2, "pairs")
        self.fault("2 0 1 0.5", 1, "3 vertices", form="gudhi")
        self.fault("1 0 1 x", 1, "value", form="gudhi")

    def test_files_that_are_no_texts(self):
        with tempfile.TemporaryDirectory() as folder:
            def written(data):
                path = os.path.join(folder, "file")
                with open(path, "wb") as file:
                    file.write(data)
                return path
            self.assertEqual(read_file(written(codecs.BOM_UTF8 + b"0 1 3\r\n0 1 5\r\n")).facets, TRIANGLES)
            self.assertEqual(read_file(written("\ufeff0 1 3\n0 1 5\n".encode("utf-16-le"))).facets, TRIANGLES)
            for data, line in ((b"0 1\n\xff\xfe", 2), (b"0 1\n0\x00 2", 2), (b"0 1\r0 2\n", 1)):
                with self.assertRaises(BadFile) as caught:
                    read_file(written(data))
                self.assertEqual(caught.exception.line, line)
            with self.assertRaises(BadFile):
                read_file(folder)
            with self.assertRaises(BadFile):
                read_file(os.path.join(folder, "none"))
            with self.assertRaises(BadFile):
                read_file(written(b"0 1"), form="none")
            for text in ("0 1\r2 3", "0 1\u20282 3", "0 1\f2 3"):
                with self.assertRaises(BadFile):
                    read_text(text)
            path = written(b"0 1 2\n0 1 1\n")
            with self.assertRaises(BadFile) as caught:
                Complex.read(path)
            self.assertIn(f"{path}, line 2: '0 1 1'", str(caught.exception))


if __name__ == "__main__":
    unittest.main()
