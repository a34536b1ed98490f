#!/usr/bin/env python3
"""bin/cohom as a stranger meets it: through a symbolic link, without words, without the kit.

    front.py TOP

The last line is 'N passed, M failed'. What a trial of the sources answers is not tried here, since it takes a minute.
"""

import os
import subprocess
import sys
import tempfile

# Folders with the commands of any system, where no `rt` is.
BARE = "/usr/bin:/bin"


def run(program, words, path=None, given=b""):
    """(status, standard output, standard error) of a program with these words."""
    environment = dict(os.environ, PATH=path or os.environ["PATH"])
    done = subprocess.run([program, *words], input=given, capture_output=True, env=environment, timeout=60)
    return done.returncode, done.stdout.decode(), done.stderr.decode()


def cases(top, folder):
    """(what, whether it is so), for each case."""
    program = os.path.join(top, "bin", "cohom")
    link = os.path.join(folder, "cohom")
    os.symlink(program, link)
    again = os.path.join(folder, "again")
    os.symlink(link, again)
    given = b"facet 0 1 2\ncut\nbetti\n"
    answers = "ok facet 7 7\nok cut 1 8\nok v1 betti 1 0 0\n"
    yield "the proved program answers, and nothing else is said", run(program, ["script"], None, given) == (0, answers, "")
    yield "through two symbolic links", run(again, ["script"], BARE, given) == (0, answers, "")
    status, out, error = run(link, ["--help"])
    yield "a page of help", status == 0 and "bin/cohom script < FILE" in out and "docs/protocol.md" in out and error == ""
    yield "the same page without words", run(link, []) == (0, out, "")
    status, told, error = run(link, ["--version"])
    yield "the version and the kit", status == 0 and told.startswith("cohom ") and "rattle-kit-" in told and error == ""
    yield "the version without the kit", run(link, ["--version"], BARE)[0] == 0
    yield "other words are the program's", run(program, ["scripts"])[0] == 1
    bare = os.path.join(folder, "clone")
    for part in ("bin", "crates/cohom"):
        os.makedirs(os.path.join(bare, part))
    for name in ("cohom", "build"):
        with open(os.path.join(top, "bin", name), "rb") as file:
            text = file.read()
        copy = os.path.join(bare, "bin", name)
        with open(copy, "wb") as file:
            file.write(text)
        os.chmod(copy, 0o755)
    status, out, error = run(os.path.join(bare, "bin", "cohom"), ["script"], BARE, given)
    yield "without the program and the kit one sentence", status == 69 and out == "" and error.count("\n") == 1 and "`rt`" in error
    status, out, error = run(os.path.join(bare, "bin", "build"), [], BARE)
    yield "so does bin/build", status == 69 and out == "" and error.count("\n") == 1 and "`rt`" in error


def main(top):
    passed = failed = 0
    with tempfile.TemporaryDirectory() as folder:
        for what, holds in cases(os.path.abspath(top), folder):
            if holds:
                passed += 1
            else:
                failed += 1
                print(f"not so: {what}")
    print(f"{passed} passed, {failed} failed")
    return 1 if failed else 0


if __name__ == "__main__":
    sys.exit(main(sys.argv[1]))
