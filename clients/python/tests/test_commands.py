"""The commands, as they are started from a clone: what they print, and their statuses."""

import contextlib
import io
import json
import os
import subprocess
import sys
import tempfile
import unittest

from helpers import COMPLEXES, DATA, PROGRAM, TOP

from cohom.__main__ import main
from cohom.commands import show
from cohom.commands.shell import completions
from cohom.language import REQUESTS, help_on
from cohom.plainly import in_words

SHELL = os.path.join(TOP, "bin", "cohom-shell")
TORUS = os.path.join(COMPLEXES, "torus.txt")
KLEIN = os.path.join(COMPLEXES, "klein-bottle.txt")


def run(*words, typed=""):
    """A command's status, standard output and standard error, without a process of its own."""
    out, err, before = io.StringIO(), io.StringIO(), sys.stdin
    sys.stdin = io.StringIO(typed)
    try:
        with contextlib.redirect_stdout(out), contextlib.redirect_stderr(err):
            try:
                status = main([*words])
            except SystemExit as end:
                status = end.code
    finally:
        sys.stdin = before
    return status, out.getvalue(), err.getvalue()


def started(*words, typed="", start=SHELL):
    """The same, started from the clone."""
    environment = dict(os.environ, COHOM=PROGRAM[0], PYTHON=sys.executable)
    done = subprocess.run([start, *words], input=typed, stdout=subprocess.PIPE, stderr=subprocess.PIPE, universal_newlines=True,
                          env=environment, timeout=60)
    return done.returncode, done.stdout, done.stderr


class Commands(unittest.TestCase):
    def test_ring(self):
        status, out, _ = run("ring", TORUS)
        self.assertEqual(status, 0)
        self.assertIn("a0 a1 = b", out)
        self.assertEqual(json.loads(run("ring", "--json", TORUS)[1])["betti"], [1, 2, 1])
        self.assertIn(r"\smile", run("ring", "--latex", TORUS)[1])
        plane = "[[1,2,4],[1,2,6],[1,3,4],[1,3,5],[1,5,6],[2,3,5],[2,3,6],[2,4,5],[3,4,6],[4,5,6]]"
        self.assertIn("a a = b", run("ring", "-", typed=plane)[1])

    def test_compare(self):
        status, out, _ = run("compare", TORUS, KLEIN)
        self.assertEqual(status, 1)
        self.assertIn("not homotopy equivalent", out)
        status, out, _ = run("compare", "--all", TORUS, os.path.join(DATA, "polymake-torus.top"))
        self.assertEqual(status, 0)
        self.assertIn("not told apart modulo 2", out)
        self.assertIn("Betti numbers: 1 2 1", out)

    def test_ask(self):
        status, out, _ = run("ask", TORUS, "cup 1:#0 1:#1", "betti")
        self.assertEqual((status, out), (0, "cup 1:#0 1:#1  ok v1 cup 2:#0\nbetti          ok v1 betti 1 2 1\n"))
        status, out, err = run("ask", TORUS, "cup 1:#9 1:#1", "betti")
        self.assertEqual(status, 1)
        self.assertIn("no v1 noclass 9", out)
        self.assertIn("numbered from 0", err)
        self.assertEqual(run("ask", TORUS, "cut")[0], 1)
        _, out, _ = run("ask", os.path.join(DATA, "polymake-product.top"), "count")
        self.assertIn("0 is (a,a)", out)

    def test_bad_input(self):
        with tempfile.TemporaryDirectory() as folder:
            path = os.path.join(folder, "bad.txt")
            with open(path, "w", encoding="utf-8") as file:
                file.write("0 1 3\n0,2 3\n")
            for words in (("ring", path), ("compare", TORUS, path), ("ask", path, "betti"), ("convert", path), ("ring", folder)):
                status, out, err = run(*words)
                self.assertEqual((status, out), (2, ""), words)
                self.assertIn(words[-1] if words[0] == "ring" else "line 2", err)
        self.assertEqual(run("fly")[0], 2)
        self.assertEqual(run("--program", "/no/such/program", "ring", TORUS)[0], 2)
        self.assertEqual(run("ring", "-", typed=" ".join(map(str, range(99))))[0], 1, "a refused facet is a refusal")
        self.assertEqual(run("shell", "--at", "127.0.0.1:1")[0], 2)

    def test_convert(self):
        status, out, _ = run("convert", os.path.join(DATA, "polymake-product.top"))
        self.assertEqual(status, 0)
        self.assertEqual(out.splitlines()[:1] + out.splitlines()[9:10], ["# 0 (a,a)", "0 1 4"])
        self.assertEqual(run("ask", "-", "betti", typed=out)[1], "betti  ok v1 betti 1 2 1\n")
        brackets = run("convert", "--to", "brackets", TORUS)[1]
        self.assertTrue(brackets.startswith("[[0,1,3],[0,1,5],"))
        as_json = run("convert", "--to", "json", "--facets-only", "-", typed="a b\nb c\na b\nc\n")[1]
        self.assertEqual(json.loads(as_json), {"vertices": ["a", "b", "c"], "facets": [["a", "b"], ["b", "c"]]})
        for text in (brackets, as_json):
            self.assertEqual(run("convert", "-", typed=text)[0], 0)

    def test_show(self):
        status, out, _ = run("show", os.path.join(TOP, "examples", "hollow-triangle.txt"))
        self.assertIn("betti", out)
        script = "# a disk\n0 1 2\n\ncut\nbetti   \nquit\nbetti\n"
        shown = "# a disk\n0 1 2  ok facet 7 7\ncut    ok cut 1 8\nbetti  ok v1 betti 1 0 0\nquit   ok quit\n"
        self.assertEqual(run("show", "-", typed=script), (0, shown, ""))
        self.assertEqual(run("show", "-", typed="fly\n")[:2], (1, "fly  bad 1 request\n"))
        script = "@1 # a note\n@2\n@1  0 1\n@2 betti\n@2 see\n@1 quit\nbetti\n"
        shown = "@1 # a note\n@2\n@1 0 1    ok facet 3 3\n@2 betti  ok v0 betti\n@2 see    ok see 0 3\n@1 quit   ok quit\n"
        self.assertEqual(run("show", "-", typed=script), (0, shown, ""))
        rows = [show.Row(f"{k} {k + 1}", "ok") for k in range(9)] + [show.Row("cut", "ok")]
        self.assertEqual([r.line for r in show.fold(rows)], ["0 1", "1 2", "...", "8 9", "cut"])
        self.assertEqual(show.fold(rows[:4]), rows[:4])
        status, out, _ = run("show", "--whole", "--no-comments", os.path.join(TOP, "examples", "torus.txt"))
        self.assertNotIn("...", out)

    def test_a_pipe_that_nobody_reads(self):
        done = subprocess.run(f"'{SHELL}' convert '{TORUS}' | head -n 1", shell=True, stdout=subprocess.PIPE, stderr=subprocess.PIPE,
                              env=dict(os.environ, COHOM=PROGRAM[0], PYTHON=sys.executable))
        self.assertEqual((done.stdout, done.stderr), (b"0 1 3\n", b""))

    def test_from_anywhere_through_links(self):
        with tempfile.TemporaryDirectory() as folder:
            link, second = os.path.join(folder, "cohom-shell"), os.path.join(folder, "again")
            os.symlink(SHELL, link)
            os.symlink("cohom-shell", second)
            self.assertEqual(started("ask", TORUS, "betti", start=second), (0, "betti  ok v1 betti 1 2 1\n", ""))
            self.assertEqual(started(typed="0 1\nquit\n", start=link), (0, "ok facet 3 3\nok quit\n", ""), "the prompt")
            status, out, err = started("compare", TORUS, KLEIN)
            self.assertEqual((status, err), (1, ""))
            self.assertEqual(started("ring", folder)[0], 2)


class Shell(unittest.TestCase):
    def test_refusals_in_plain_words(self):
        status, out, _ = run(typed="0 1 2\nbetti\ncut\nbetti\nfly\ncup #0 1:#0\nsquare 1:#0\nclosed\n# note\n\nquit\nbetti\n")
        self.assertEqual(status, 1)
        for words in ("not about that", "there is no request 'fly'", "'#0' lacks its degree, as in 1:#0", "the form is `square K W`",
                      "0-1 lies in 1 simplices"):
            self.assertIn(words, out)
        self.assertTrue(out.endswith("ok quit\n"))

    def test_callers(self):
        status, out, _ = run(typed="@1\n@1 0 1 2\ncut\n@2 betti\n@2 see\n@2 # note\n@2 betti\n@1 back 3\nback 0\nbetti\n@2 quit\nbetti\n")
        self.assertEqual(status, 1)
        for words in ("ok v0 betti\n", "ok v1 betti 1 0 0\n", "the last one is 1", "not about that"):
            self.assertIn(words, out)
        self.assertTrue(out.endswith("ok quit\n"))

    def test_help_and_load(self):
        status, out, _ = run(typed=f"help\nhelp cup\nhelp fly\nload {TORUS}\nbetti\n")
        self.assertEqual(status, 0)
        for words in ("cup W W\n", "there is no request 'fly'", "14 facets of", "ok v1 betti 1 2 1"):
            self.assertIn(words, out)
        status, out, _ = run("shell", KLEIN, typed="betti\nload nofile\n")
        self.assertEqual(status, 1)
        self.assertIn("ok v1 betti 1 2 1", out)
        self.assertIn("nofile: No such file", out)
        status, out, _ = run("shell", KLEIN, typed=f"load {TORUS}\ncount\n")
        self.assertIn("started anew", out)
        self.assertIn("ok v1 count 7 21 14", out, "the one and not both")
        self.assertIn("1 of 2 facets were refused", run(typed="load -\n0 1\n" + " ".join(map(str, range(99))))[1])

    def test_a_program_that_ends(self):
        status, out, _ = run(typed="class 1:{" + "0-1," * 300000 + "0-1}\nbetti\n")
        self.assertEqual(status, 2)
        self.assertIn("too long", out)

    def test_completion(self):
        self.assertEqual(completions("cu"), ["cup ", "cupi ", "cut "])
        self.assertEqual(completions("hel"), ["help "])
        self.assertIn("W", help_on("cup"))
        self.assertTrue(all(form.form.startswith(verb) for verb, form in REQUESTS.items()))


class Words(unittest.TestCase):
    def test_each_refusal_has_words(self):
        table = [
            ("no later", "see"), ("no there 3", "attach 0"), ("no face 1", "attach 0-1"), ("no full 9", "cut"),
            ("no v1 notthere 0-3", "kind 0-3"), ("no v1 degree 0", "class 1:{0}"), ("no v1 noclass 3", "class 1:#3"),
            ("no v1 notcocycle 0-1", "class 0:{0}"), ("no v1 differs 1-2", "bound 1:#0"), ("no v1 differs 1-2", "same cup"),
            ("no v1 degrees 1 0", "cap 1:0 0:0"), ("no v1 degrees 1 0", "same bockstein"), ("no v0 nothing", "closed"),
            ("no v1 notpure 3", "closed"), ("no v1 ridge 0-1 1", "closed"), ("no v1 link 0 1 0", "links"),
            ("no v1 link 0", "links"), ("no v1 degenerate 2:#0", "wu"), ("no v1 sum 1 2", "swnumber 1"),
            ("bad 1 request", "homology"), ("bad 7 missing", "attach"), ("bad 10 extra", "attach 0 1"),
            ("bad 8 wide", "attach 0-0"), ("bad 8 number", "attach 1234567890"), ("bad 1 caller", "@16 cut"),
            ("no noname a", "use a"), ("no held a", "@3 hold a"), ("no holdsfull 64", "hold b"), ("no notyet 3", "after 4"),
            ("no noversion 3", "back 4"), ("no full 64", "back 1"), ("no v1 differs 1-2", "@1 bound 1:#0"), ("bad 11 missing", "@1 square 1"),
        ]
        for reply, request in table:
            words = in_words(reply, request)
            self.assertNotEqual(words, reply)
            self.assertGreater(len(words.split()), 3, words)
        self.assertIn("betti", in_words("bad 1 request", "homology 1"))
        self.assertIn("from the next `cut`", in_words("no v0 nothing", "closed"))
        self.assertEqual(in_words("no strange thing"), "no strange thing")
        self.assertEqual(in_words("what"), "what")


if __name__ == "__main__":
    unittest.main()
