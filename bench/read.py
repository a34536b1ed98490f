"""Times the program on inputs that are mostly read: see read.sh."""

import os
import resource
import subprocess
import sys
import time

INPUTS = [
    ("a million blank lines", b"\n" * 1_000_000),
    ("a comment of 1,048,575 bytes", b"%" * 1_048_575 + b"\n"),
    ("a bad word of 1,048,575 bytes", b"x" * 1_048_575 + b"\n"),
    ("a bad numeral of 1,048,568 digits", b"attach " + b"7" * 1_048_568 + b"\n"),
    ("200,000 bad lines", b"attach 0-0-1\nfly\nfacet 0 1 0\nclass 1:{0-1\n" * 50_000),
    ("64 literals of 16,384 simplices, refused at the end", (b"class 2:{" + b"1-2-3," * 16_384 + b"4-4}\n") * 64),
    ("64 lists of 40,000 facets in brackets, refused at the last", (b"[" + b"[1001, 1002, 1003, 1004], " * 40_000 + b"[4, 4]]\n") * 64),
    ("the facet of thirteen vertices", b"0 1 2 3 4 5 6 7 8 9 10 11 12\ncut\nbetti\n"),
]


def main(program, runs):
    for name, text in INPUTS:
        best = None
        for _ in range(runs):
            begin = time.perf_counter()
            done = subprocess.run([program, "script"], input=text, stdout=subprocess.PIPE)
            wall = time.perf_counter() - begin
            best = wall if best is None else min(best, wall)
        last = done.stdout.decode().splitlines()[-1:] or ["(no reply)"]
        print(f"{name}: {len(text) / 1e6:.1f} MB, best of {runs} runs {best * 1000:.0f} ms,"
              f" {len(text) / 1e6 / best:.0f} MB/s, status {done.returncode}, last reply {last[0][:60]}")
    print(f"peak {resource.getrusage(resource.RUSAGE_CHILDREN).ru_maxrss / 1024:.0f} MB")


if __name__ == "__main__":
    main(os.fspath(sys.argv[1]), int(sys.argv[2]))
