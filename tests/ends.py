"""The ends of the built program: replies as they come, statuses, and faults of every end of the outside.

    python3 tests/ends.py PROGRAM

Each test says what it saw where that was not what was wanted. The last line is `N passed, M failed`; the status is 1
where one failed. A test that this machine cannot run is left out, and says so.
"""

import os
import select
import shutil
import subprocess
import sys
import tempfile

PATIENCE = 30
USAGE = b"usage: cohom script\n"

SCRIPT = [b"# a growing complex", b"attach 0", b"attach 1", b"attach 0-1", b"facet 0 1 2 3", b"attach 9-10", b"cut", b"betti",
          b"class 1:{0-1", b"cochain 1:{0-1,1-2}", b"hold first", b"@1 see", b"@1 facet 2 4", b"@15 cut", b"@1 after 19", b"back 1", b"attach 4-5",
          b"@1 facet 1 5", b"@1 cut", b"@1 class 0:#0", b"cup 0:#0 0:#0", b"see", b"betti", b"use first", b"kind 3", b"drop first", b"back 9"]
REPLIES = [None, b"ok attach 0 1", b"ok attach 1 2", b"ok attach 2 3", b"ok facet 12 15", b"no face 9", b"ok cut 1 16",
           b"ok v1 betti 1 0 0 0", b"bad 7 word", b"ok v1 cochain 1:{0-1,1-2}", b"ok hold first 1", b"ok see 1 16", b"ok facet 2 18", b"ok cut 2 19",
           b"ok after 2 19", b"ok back 1 20", b"no face 4", b"ok facet 2 22", b"ok cut 3 23", b"ok v3 class 0:#0", b"ok v1 cup 0:#0", b"ok see 3 23",
           b"ok v3 betti 1 0 0 0", b"ok use first 1", b"ok v1 kind 3 other", b"ok drop first", b"no noversion 3"]
INPUT = b"".join(line + b"\n" for line in SCRIPT)
OUTPUT = b"".join(reply + b"\n" for reply in REPLIES if reply is not None)

# Preloaded, it refuses the call for memory whose number, from 1, the environment names.
REFUSING = """
#include <stdlib.h>
#include <string.h>
#include <errno.h>

void *__libc_malloc(size_t);
void *__libc_realloc(void *, size_t);
void *__libc_calloc(size_t, size_t);
void *__libc_memalign(size_t, size_t);

static long calls;

static int refused(void)
{
    const char *number = getenv("REFUSED_CALL");
    return number != NULL && ++calls == atol(number);
}

void *malloc(size_t size) { return refused() ? NULL : __libc_malloc(size); }
void *realloc(void *old, size_t size) { return refused() ? NULL : __libc_realloc(old, size); }
void *calloc(size_t count, size_t size) { return refused() ? NULL : __libc_calloc(count, size); }
void *aligned_alloc(size_t align, size_t size) { return refused() ? NULL : __libc_memalign(align, size); }

int posix_memalign(void **place, size_t align, size_t size)
{
    void *memory = refused() ? NULL : __libc_memalign(align, size);
    if (memory == NULL)
        return ENOMEM;
    *place = memory;
    return 0;
}
"""

TESTS = []


class Left(Exception):
    """The machine lacks what the test needs."""


class Wrong(Exception):
    """What was seen is not what was wanted."""


def test(name):
    def kept(body):
        TESTS.append((name, body))
        return body
    return kept


def check(what, got, wanted):
    if got != wanted:
        raise Wrong(f"{what}: {got!r}, not {wanted!r}")


def run(program, words=("script",), **ends):
    ends = {"stdin": subprocess.DEVNULL, "stdout": subprocess.PIPE, "stderr": subprocess.PIPE, "timeout": PATIENCE} | ends
    if "input" in ends:
        del ends["stdin"]
    return subprocess.run([program, *words], **ends)


def next_bytes(pipe, count):
    """The next bytes of a pipe, as many as are wanted, while they keep coming."""
    got = b""
    while len(got) < count:
        if not select.select([pipe], [], [], PATIENCE)[0]:
            raise Wrong(f"no more bytes came after {got!r}")
        more = os.read(pipe.fileno(), count - len(got))
        if not more:
            raise Wrong(f"the replies ended after {got!r}")
        got += more
    return got


@test("each reply comes before the next line is sent")
def replies_at_once(program):
    with subprocess.Popen([program, "script"], stdin=subprocess.PIPE, stdout=subprocess.PIPE, bufsize=0) as process:
        try:
            for line, reply in zip(SCRIPT, REPLIES):
                process.stdin.write(line + b"\n")
                if reply is not None:
                    check(f"the reply to {line!r}", next_bytes(process.stdout, len(reply) + 1), reply + b"\n")
            process.stdin.write(b"quit\n")
            check("the reply to quit", next_bytes(process.stdout, 8), b"ok quit\n")
            check("the status", process.wait(PATIENCE), 0)
        finally:
            process.kill()


@test("a line that comes byte by byte is one line")
def bytes_one_by_one(program):
    with subprocess.Popen([program, "script"], stdin=subprocess.PIPE, stdout=subprocess.PIPE, bufsize=0) as process:
        try:
            for byte in b"attach 0\nattach 1":
                process.stdin.write(bytes([byte]))
            process.stdin.close()
            check("the replies", next_bytes(process.stdout, 28), b"ok attach 0 1\nok attach 1 2\n")
            check("the status", process.wait(PATIENCE), 0)
        finally:
            process.kill()


@test("other words than the one word `script`: status 1, the usage line on standard error alone, and nothing read")
def other_words(program):
    with tempfile.TemporaryFile() as source:
        source.write(INPUT)
        for words in [(), ("scripts",), ("Script",), ("",), ("script", "2"), ("script", "script"), ("torus", "3"), ("--help",), ("--version",)]:
            source.seek(0)
            done = run(program, words, stdin=source)
            check(f"the status of {words}", done.returncode, 1)
            check(f"standard output of {words}", done.stdout, b"")
            check(f"standard error of {words}", done.stderr, USAGE)
            check(f"what {words} read", source.tell(), 0)


@test("a whole script says nothing on standard error")
def silent_error_output(program):
    done = run(program, input=INPUT)
    check("the status", done.returncode, 0)
    check("the replies", done.stdout, OUTPUT)
    check("standard error", done.stderr, b"")


@test("a full disk: status 3")
def full_disk(program):
    if not os.path.exists("/dev/full"):
        raise Left("there is no /dev/full")
    with open("/dev/full", "wb") as full:
        check("the status", run(program, input=INPUT, stdout=full).returncode, 3)
        check("the status where nothing is to be written", run(program, input=b"# a note\n", stdout=full).returncode, 0)


@test("a folder as standard input: status 2, and nothing is written")
def folder_as_input(program):
    folder = os.open("/", os.O_RDONLY)
    try:
        done = run(program, stdin=folder)
    finally:
        os.close(folder)
    check("the status", done.returncode, 2)
    check("standard output", done.stdout, b"")


@test("a folder as standard output: status 3")
def folder_as_output(program):
    folder = os.open("/", os.O_RDONLY)
    try:
        check("the status", run(program, input=INPUT, stdout=folder).returncode, 3)
    finally:
        os.close(folder)


@test("a pipe whose reader is gone: status 3")
def gone_reader(program):
    reader, writer = os.pipe()
    os.close(reader)
    try:
        check("the status", run(program, input=INPUT, stdout=writer).returncode, 3)
    finally:
        os.close(writer)


@test("a closed standard input: status 2, and nothing is written")
def closed_input(program):
    done = run(program, preexec_fn=lambda: os.close(0))
    check("the status", done.returncode, 2)
    check("standard output", done.stdout, b"")


@test("a closed standard output: status 3")
def closed_output(program):
    check("the status", run(program, input=INPUT, stdout=None, preexec_fn=lambda: os.close(1)).returncode, 3)


@test("each growth refused in turn: status 5, and a beginning of the replies")
def refused_growths(program):
    compiler = next((c for c in ("cc", "gcc", "clang") if shutil.which(c)), None)
    if compiler is None:
        raise Left("there is no C compiler")
    with tempfile.TemporaryDirectory() as folder:
        text, library = os.path.join(folder, "refusing.c"), os.path.join(folder, "refusing.so")
        with open(text, "w") as file:
            file.write(REFUSING)
        made = subprocess.run([compiler, "-shared", "-fPIC", "-O1", "-fno-builtin", "-o", library, text], stderr=subprocess.PIPE)
        if made.returncode != 0:
            raise Left(f"{compiler} does not build the allocator: {made.stderr.decode().strip()[-200:]}")
        refused = 0
        while True:
            done = run(program, input=INPUT, env=os.environ | {"LD_PRELOAD": library, "REFUSED_CALL": str(refused + 1)})
            if done.returncode == 0:
                check("the replies where nothing was refused", done.stdout, OUTPUT)
                break
            refused += 1
            check(f"the status where call {refused} for memory was refused", done.returncode, 5)
            if not OUTPUT.startswith(done.stdout):
                raise Wrong(f"where call {refused} for memory was refused, no beginning of the replies: {done.stdout!r}")
            if refused == 10_000:
                raise Wrong("ten thousand calls for memory, and no end")
        if refused < 10:
            raise Wrong(f"only {refused} calls for memory were refused: the allocator was not taken")


def main(program):
    passed = failed = 0
    for name, body in TESTS:
        try:
            body(program)
            passed += 1
        except Left as why:
            print(f"left out: {name}: {why}")
        except (Wrong, OSError) as why:
            failed += 1
            print(f"FAILED: {name}: {why}")
        except subprocess.TimeoutExpired:
            failed += 1
            print(f"FAILED: {name}: no end after {PATIENCE} s")
    print(f"{passed} passed, {failed} failed")
    return 1 if failed else 0


if __name__ == "__main__":
    sys.exit(main(os.path.abspath(sys.argv[1])))
