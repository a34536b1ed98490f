"""bin/package: what it packs, that it packs the same twice, and when it refuses.

    python3 tests/package.py TOP PROGRAM

It runs in a copy of the repository's documents, with PROGRAM as the program that was built. The last line is `N passed, M failed`;
the status is 1 where one failed.
"""

import os
import shutil
import subprocess
import sys
import tarfile
import tempfile

SCRIPT = b"0 1 2\ncut\nbetti\n"
REPLIES = b"ok facet 7 7\nok cut 1 8\nok v1 betti 1 0 0\n"
PARTS = ("CITATION.cff", "README.md", "bin", "clients", "docs", "examples", "crates.txt")


def copied(top, program, folder):
    """A repository with the documents of the one at hand, one source, and the program."""
    clone = os.path.join(folder, "clone")
    os.makedirs(os.path.join(clone, "crates", "cohom", "out"))
    for part in PARTS:
        whole = os.path.join(top, part)
        if os.path.isdir(whole):
            shutil.copytree(whole, os.path.join(clone, part))
        elif os.path.isfile(whole):
            shutil.copy2(whole, clone)
    shutil.copy2(program, os.path.join(clone, "crates", "cohom", "out", "cohom"))
    source = os.path.join(clone, "crates", "cohom", "main.rt")
    with open(source, "wb"):
        pass
    os.utime(source, (1, 1))
    os.utime(os.path.join(clone, "crates.txt"), (1, 1))
    return clone


def packed(clone, folder):
    """The status, what is said, and the bytes of the archive, if there is one."""
    os.makedirs(folder)
    done = subprocess.run([os.path.join(clone, "bin", "package"), folder], stdout=subprocess.PIPE, stderr=subprocess.PIPE, timeout=60)
    names = os.listdir(folder)
    if len(names) != 1:
        return done.returncode, done.stdout + done.stderr, b""
    with open(os.path.join(folder, names[0]), "rb") as file:
        return done.returncode, done.stdout + done.stderr, file.read()


def cases(top, program, folder):
    """(what, whether it is so), for each case."""
    clone = copied(top, program, folder)
    status, told, first = packed(clone, os.path.join(folder, "first"))
    yield "it packs, and says how large", status == 0 and f": {len(first)} bytes\n".encode() in told
    built = os.path.join(clone, "crates", "cohom", "out", "cohom")
    os.utime(built, (2, 2))
    yield "twice the same", packed(clone, os.path.join(folder, "second"))[2] == first != b""
    archive = os.path.join(folder, "first", os.listdir(os.path.join(folder, "first"))[0])
    with tarfile.open(archive) as it:
        yield "one owner and one time", len({(e.uid, e.gid, e.uname, e.gname, e.mtime) for e in it}) == 1
        it.extractall(os.path.join(folder, "unpacked"))
    whole = os.path.join(folder, "unpacked", os.path.basename(archive)[:-len(".tar.gz")])
    yield "documents and examples", all(os.path.isfile(os.path.join(whole, name)) for name in
                                        ("README.md", "CITATION.cff", "docs/protocol.md", "examples/torus.txt"))
    yield "the client, if there is one", os.path.isdir(os.path.join(top, "clients", "python")) == os.path.isdir(os.path.join(whole, "clients", "python"))
    yield "nothing that was compiled", not any("__pycache__" in folders for _, folders, _ in os.walk(whole))
    with open(os.path.join(whole, "VERSION"), encoding="utf-8") as file:
        rows = file.read().splitlines()
    yield "version, commit, kit and needs", (rows[0].startswith("cohom ") and rows[1].startswith("commit ") and "rattle-kit-" in rows[2]
                                             and rows[3].startswith("needs the C library"))
    answer = subprocess.run([os.path.join(whole, "bin", "cohom"), "script"], input=SCRIPT, stdout=subprocess.PIPE, env={}, timeout=60)
    yield "the program answers", (answer.returncode, answer.stdout) == (0, REPLIES)
    os.utime(built, (0, 0))
    status, told, none = packed(clone, os.path.join(folder, "stale"))
    yield "refused where it is older than its sources", status == 1 and none == b"" and told.count(b"\n") == 1 and b"older" in told
    os.remove(built)
    status, told, none = packed(clone, os.path.join(folder, "missing"))
    yield "refused where it is not built", status == 1 and none == b"" and told.count(b"\n") == 1 and b"not built" in told


def main(top, program):
    passed = failed = 0
    with tempfile.TemporaryDirectory() as folder:
        for what, holds in cases(os.path.abspath(top), os.path.abspath(program), folder):
            passed, failed = (passed + 1, failed) if holds else (passed, failed + 1)
            if not holds:
                print(f"not so: {what}")
    print(f"{passed} passed, {failed} failed")
    return 1 if failed else 0


if __name__ == "__main__":
    sys.exit(main(*sys.argv[1:]))
