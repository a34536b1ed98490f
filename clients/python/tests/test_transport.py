"""Lines to the program and back: batches without deadlock, children that die, clients that are closed in the middle."""

import os
import select
import shutil
import sys
import tempfile
import threading
import time
import unittest
import warnings

from helpers import PROGRAM, example

from cohom import Closed, Complex, ProgramEnded, ProgramMissing, UnexpectedReply, Unproved, program
from cohom.transport import Child, Connection


def python(code):
    """A program in Python that is started in the place of the real one."""
    return [sys.executable, "-c", "import sys, time, os\n" + code]


class Batches(unittest.TestCase):
    def test_many_requests_at_once(self):
        """Far more bytes than two pipes hold, both ways."""
        child = Child(PROGRAM)
        try:
            facets = [" ".join(map(str, range(k, k + 7))) for k in range(0, 700, 7)]
            replies = child.ask_all(facets + ["cut"] + ["classes 0"] * 20000)
            self.assertEqual(len(replies), 100 + 1 + 20000)
            self.assertTrue(all(r.startswith("ok ") for r in replies))
            self.assertGreater(sum(map(len, replies)), 4_000_000)
            self.assertEqual(child.ask("betti"), "ok v1 betti 100 0 0 0 0 0 0")
        finally:
            child.close()

    def test_a_program_that_reads_all_before_it_answers(self):
        child = Child(python("lines = [sys.stdin.readline() for k in range(50000)]\nfor l in lines: print('ok', l.strip())\n"
                             "sys.stdout.flush()\ntime.sleep(9)"))
        try:
            replies = child.ask_all([f"request {k} " + "x" * 50 for k in range(50000)])
            self.assertEqual(replies[49999], "ok request 49999 " + "x" * 50)
        finally:
            child.close()

    def test_progress_is_told(self):
        child = Child(PROGRAM)
        told = []
        child.ask_all(["cut"] * 5000, lambda done, total: told.append((done, total)))
        self.assertEqual(told[-1], (5000, 5000))
        self.assertEqual(told, sorted(told))
        child.close()

    def test_threads_share_a_channel(self):
        k = example("torus")
        k.betti()
        found = []
        threads = [threading.Thread(target=lambda: found.append([k.cls(1, 0).Sq(1).is_zero() for _ in range(50)])) for _ in range(4)]
        [t.start() for t in threads]
        [t.join(20) for t in threads]
        self.assertEqual(found, [[True] * 50] * 4)
        k.close()


class Ends(unittest.TestCase):
    def test_a_child_that_dies_at_once(self):
        child = Child(python("sys.stderr.write('no more memory here'); sys.exit(5)"))
        with self.assertRaises(ProgramEnded) as caught:
            child.ask("betti")
        self.assertEqual(caught.exception.status, 5)
        self.assertIn("no memory was left", str(caught.exception))
        self.assertIn("no more memory here", str(caught.exception))
        with self.assertRaises(Closed):
            child.ask("betti")

    def test_a_child_that_dies_in_the_middle_of_a_batch(self):
        child = Child(python("for k in range(10): sys.stdin.readline(); print('ok', k, flush=True)\nos._exit(3)"))
        with self.assertRaises(ProgramEnded) as caught:
            child.ask_all([f"request {k}" for k in range(100000)])
        self.assertIn("'request 10'", str(caught.exception))

    def test_a_child_that_is_killed(self):
        k = example("torus")
        k.betti()
        os.kill(k.session().channel.pid, 9)
        with self.assertRaises(ProgramEnded) as caught:
            k.cls(1, 0).Sq(1)
        self.assertIn("SIGKILL", str(caught.exception))
        self.assertEqual(k.betti(), (1, 2, 1), "what was answered stays")
        with self.assertRaises(Closed):
            k.cls(1, 0).Sq(1)

    def test_too_long_a_line_is_told(self):
        child = Child(PROGRAM)
        with self.assertRaises(ProgramEnded) as caught:
            child.ask("class 1:{" + "0-1," * 300000 + "0-1}")
        self.assertEqual(caught.exception.status, 6)
        self.assertIn("too long", str(caught.exception))

    def test_closing_from_another_thread(self):
        child = Child(python("sys.stdin.readline(); time.sleep(60)"))
        threading.Timer(0.2, child.close).start()
        begin = time.time()
        with self.assertRaises(Closed):
            child.ask("betti")
        self.assertLess(time.time() - begin, 5)
        child.close()

    def test_an_exception_in_the_middle_closes(self):
        child = Child(PROGRAM)

        def stop(done, total):
            raise KeyboardInterrupt
        with self.assertRaises(KeyboardInterrupt):
            child.ask_all(["cut"] * 1000, stop)
        with self.assertRaises(Closed) as caught:
            child.ask("betti")
        self.assertIn("KeyboardInterrupt", str(caught.exception))

    def test_close_twice_and_with(self):
        with example("torus") as k:
            k.betti()
            process = k.session().channel._process
        k.close()
        self.assertIsNotNone(process.poll(), "the child is gone")
        with self.assertRaises(Closed):
            k.count()
        with self.assertRaises(Closed):
            k.add((0, 99))

    def test_a_complex_that_is_forgotten_ends_its_child(self):
        k = example("torus")
        k.betti()
        process = k.session().channel._process
        del k
        import gc
        gc.collect()
        self.assertIsNotNone(process.poll())

    def test_a_program_that_is_none(self):
        for words in (["/no/such/program"], [os.devnull]):
            with self.assertRaises(ProgramMissing):
                Complex([(0, 1)], program=words).betti()
        with self.assertRaises(ProgramMissing):
            Connection("127.0.0.1:1")
        with self.assertRaises(ProgramMissing):
            Connection("nowhere")

    def test_unexpected_replies(self):
        """Another program, another request's reply, another version, or too many lines: nothing more is believed."""
        answers = {"hello": "ok facet 7 8 9", "1": "ok cut 1 4", "2": "", "3": "yes"}
        for reply in answers.values():
            k = Complex([(0, 1)], program=python(f"for line in sys.stdin: print({reply!r}, flush=True)"))
            with self.assertRaises(UnexpectedReply):
                k.betti()
            with self.assertRaises(Closed):
                k.betti()
        told = python("said = {'0': 'ok facet 3 3', 'cut': 'ok cut 1 4', 'hold': 'no later'}\nfor line in sys.stdin:\n"
                      "  print(said.get(line.split()[0], 'ok v2 betti 1 0'), flush=True)")
        with self.assertRaises(UnexpectedReply) as caught:
            Complex([(0, 1)], program=told).betti()
        self.assertIn("version 2", str(caught.exception))
        for pause in ("0", "0.05"):
            child = Child(python(f"sys.stdin.readline(); print('ok 1', flush=True); time.sleep({pause})\n"
                                 "print('ok 2', flush=True); time.sleep(9)"))
            with self.assertRaises(ProgramEnded):
                child.ask("cut")
                select.select([child._read_from], [], [], 10)
                child.ask("cut")


class Notes(unittest.TestCase):
    def test_what_a_program_says_is_one_warning(self):
        child = Child(python("sys.stderr.write('this is a trial, and not proved\\n'); sys.stderr.flush()\n"
                             "for line in sys.stdin: print('ok', line.strip(), flush=True)"))
        self.addCleanup(child.close)
        with warnings.catch_warnings(record=True) as caught:
            warnings.simplefilter("always")
            self.assertEqual([child.ask("1"), child.ask("2"), child.ask("3")], ["ok 1", "ok 2", "ok 3"])
        self.assertEqual([w.category for w in caught], [Unproved])
        self.assertIn("this is a trial, and not proved", str(caught[0].message))


class Finding(unittest.TestCase):
    def setUp(self):
        self.before = os.environ.get("COHOM")

    def tearDown(self):
        os.environ.pop("COHOM", None)
        if self.before is not None:
            os.environ["COHOM"] = self.before

    def test_the_order_in_which_it_is_sought(self):
        os.environ["COHOM"] = "/no/such/program"
        self.assertEqual(program.find(PROGRAM), list(PROGRAM))
        with self.assertRaises(ProgramMissing):
            program.find()
        os.environ["COHOM"] = PROGRAM[0]
        self.assertEqual(program.find(), [PROGRAM[0]])

    def test_trials_and_archives(self):
        """A checkout where nothing is built, whose bin/cohom answers when its input has ended; one that is built; and an archive."""
        with tempfile.TemporaryDirectory() as folder:
            top = os.path.realpath(folder)
            start, built = os.path.join(top, "bin", "cohom"), os.path.join(top, "crates", "cohom", "out", "cohom")

            def write(path, text):
                os.makedirs(os.path.dirname(path), exist_ok=True)
                with open(path, "w", encoding="utf-8") as file:
                    file.write(text)
                os.chmod(path, 0o755)
            write(start, f"#!/bin/sh\necho a trial, and nothing is proved >&2\ninput=$(cat)\nprintf '%s\\n' \"$input\" | '{PROGRAM[0]}' script\n")
            os.makedirs(os.path.join(top, "crates"))
            self.assertTrue(program.answers_at_the_end([start]))
            with warnings.catch_warnings(record=True) as caught:
                warnings.simplefilter("always")
                k = Complex([(0, 1), (1, 2), (0, 2)], program=start)
                self.assertEqual([k.betti(), k.cls(1, 0).Sq(1).is_zero(), k.add((0, 1, 2)).betti()], [(1, 1), True, (1, 0, 0)])
            self.assertEqual(["nothing is proved" in str(w.message) for w in caught], [True])
            write(built, "#!/bin/sh\n")
            self.assertEqual(program.find(start), [built], "the proved program comes first")
            before, program._CHECKOUT = program._CHECKOUT, top
            try:
                os.environ.pop("COHOM", None)
                self.assertEqual(program.find(), [built])
                shutil.rmtree(os.path.join(top, "crates"))
                self.assertEqual(program.find(), [start], "in an archive bin/cohom is the program itself")
            finally:
                program._CHECKOUT = before

    def test_a_trial_is_told_once(self):
        os.environ.pop("COHOM", None)
        built, path = program._runs, os.environ["PATH"]
        program._runs, program._warned, os.environ["PATH"] = (lambda path: False), False, "/nowhere"
        try:
            with warnings.catch_warnings(record=True) as caught:
                warnings.simplefilter("always")
                words = program.find()
                program.find()
            self.assertTrue(words[0].endswith("bin/cohom"))
            self.assertEqual(len(caught), 1)
            self.assertIn("unproved", str(caught[0].message))
        finally:
            program._runs, os.environ["PATH"] = built, path


if __name__ == "__main__":
    unittest.main()
