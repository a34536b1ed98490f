"""The limits of lines, simplices, cuts, returns and names, and a table of bad lines, on the built program.

    python3 tests/limits.py PROGRAM

The last line is `N passed, M failed`; the status is 1 where one failed.
"""

import subprocess
import sys

LINE = 1_048_575
FIRST = "0 1 2 3 4 5 6 7 8 9 10 11 12 13"
SECOND = "14 15 16 17 18 19 20 21 22 23 24 25 26 27"
WHOLE = "[[" + ",".join(str(v) for v in range(15)) + "]]"

# name, input, status, replies (or the last ones, after an ellipsis)
CASES = [
    ("nothing", b"", 0, []),
    ("a line as long as may be", b"%" * LINE + b"\n", 0, []),
    ("the same without a line feed", b"%" * LINE, 0, []),
    ("a line too long", b"cut\n" + b"%" * (LINE + 1), 6, ["ok cut 1 1"]),
    ("a carriage return counts", b"%" * LINE + b"\r\n", 6, []),
    ("a long word", b"x" * LINE + b"\n", 0, ["bad 1 request"]),
    ("a long numeral", b"attach " + b"1" * (LINE - 7) + b"\n", 0, ["bad 8 number"]),
    ("as many lines as may be", b"\n" * 1_000_000, 0, []),
    ("a line too many", b"cut\n" + b"\n" * 999_999 + b"x", 7, ["ok cut 1 1"]),
    ("as many cuts as may be", b"cut\n" * 16_385, 0, ["...", "ok cut 16384 16384", "no full 16384"]),
    ("as many simplices as may be",
     f"{FIRST}\n{SECOND}\nattach 28\nfacet 29 30\n[[28],[29,30]]\nattach 29\nattach 30\nattach 29\nattach 29-30\nfacet 0 1\n[[0,1],[2,1]]\ncut\nbetti\n".encode(), 0,
     ["ok facet 16383 16383", "ok facet 16383 32766", "ok attach 32766 32767", "no full 32767", "no full 32767", "ok attach 32767 32768",
      "no full 32768", "no there 32767", "no face 30", "ok facet 0 32768", "ok facet 0 32768", "ok cut 1 32769",
      "ok v1 betti 4 0 0 0 0 0 0 0 0 0 0 0 0 0"]),
    ("as many vertices as may be, in brackets", f"{WHOLE}\ncut\nbetti\nattach 15\nattach 16\n[[16]]\n".encode(), 0,
     ["ok facet 32767 32767", "ok cut 1 32768", "ok v1 betti 1 0 0 0 0 0 0 0 0 0 0 0 0 0 0", "ok attach 32767 32769", "no full 32768",
      "no full 32768"]),
    ("facets that do not fit together", (f"[[16]]\n[[15,16],{WHOLE[1:]}\n" + WHOLE[:-1] + ",[15],[16,17]]\ncut\ncount\n").encode(), 0,
     ["ok facet 1 1", "no full 1", "no full 1", "ok cut 1 2", "ok v1 count 1"]),
    ("a line of facets as long as may be", b"[" + b"[1,2]," * ((LINE - 7) // 6) + b"[1,2]" + b" " * ((LINE - 7) % 6) + b"]\n", 0, ["ok facet 3 3"]),
    ("line ends", b"attach 0\r\ncut", 0, ["ok attach 0 1", "ok cut 1 2"]),
    ("a carriage return without a line feed", b"attach 0\r", 0, ["bad 8 word"]),
    ("two carriage returns", b"cut\r\r\n", 0, ["bad 1 request"]),
    ("after quit", b"quit\nattach 0\n", 0, ["ok quit"]),
    ("as many returns as may be", b"back 1\ncut\n" + b"@3 back 1\n" * 64 + b"back 0\nback 2\nattach 0\n", 0,
     ["no noversion 0", "ok cut 1 1"] + [f"ok back 1 {n}" for n in range(2, 66)] + ["no full 64", "no noversion 1", "ok attach 0 66"]),
    ("as many names as may be", b"".join(b"hold n%d\n" % n for n in range(65)) + b"hold n0\n@1 hold n64\ndrop n7\nhold n64\nuse n7\n", 0,
     [f"ok hold n{n} 0" for n in range(64)] + ["no holdsfull 64", "no held n0", "ok hold n64 0", "ok drop n7", "ok hold n64 0", "no noname n7"]),
    ("the simplices of a version come back whole, or none", f"{WHOLE}\ncut\nback 0\nattach 0\n{WHOLE}\nback 1\nattach 15\nattach 16\n".encode(), 0,
     ["ok facet 32767 32767", "ok cut 1 32768", "ok back 0 32769", "ok attach 0 32770", "ok facet 32766 65536", "ok back 1 65537",
      "ok attach 32767 65538", "no full 32768"]),
    ("callers without a request, and a round", b"@1\n@0 # note\n@15\t%\nround 2\n@1 round 64\ncut\n", 0, ["no later", "no later", "ok cut 1 1"]),
    ("quit by any caller", b"@9 cut\n@2 quit\ncut\n", 0, ["ok cut 1 1", "ok quit"]),
]

# line, column and kind of its fault
BAD = [
    ("attach", 7, "missing"), ("attach  ", 9, "missing"), ("attach 0 1", 10, "extra"), ("cut now", 5, "extra"),
    ("attach 0-0", 8, "repeat"), ("attach 1234567890", 8, "number"), ("attach 0-", 8, "word"), ("attach -", 8, "word"),
    ("attach 0-1-2-3-4-5-6-7-8-9-10-11-12-13-14-15", 8, "wide"), ("fly", 1, "request"), ("Cut", 1, "request"),
    ("@16 cut", 1, "caller"), ("@ cut", 1, "caller"), ("@x", 1, "caller"), ("@1 @2 cut", 4, "request"),
    ("class 1:{0-1", 7, "word"), ("class 1:00", 7, "word"), ("class 100:0", 7, "number"), ("class 1:#1+", 7, "word"),
    ("class 1:{0-0,x}", 7, "word"), ("class 1:{0-0,1234567890}", 7, "number"), ("class 1:{0-0}", 7, "repeat"),
    ("chain 1:{0-1}", 7, "word"), ("chain 1:*1234567890", 7, "number"), ("cochain 1:*0", 9, "word"),
    ("facet", 6, "missing"), ("facet 0 1 0", 11, "repeat"), ("facet 0 x", 9, "word"), ("0 1 1", 5, "repeat"),
    ("facet 0 1 2 3 4 5 6 7 8 9 10 11 12 13 14 15", 42, "wide"), ("facet 0 1 2 3 4 5 6 7 8 9 10 11 12 13 14 x", 42, "word"),
    ("[", 1, "word"), ("[[]]", 1, "word"), ("[[1,2,3],[]]", 1, "word"), ("[[1,2,3]", 1, "word"), ("[[1]]]", 1, "word"), ("[[1]] 2", 1, "word"),
    ("[[1 2]]", 1, "word"), ("[[1],]", 1, "word"), ("[[1][2]]", 1, "word"), ("@1 [[1,1]]", 4, "repeat"), ("\t[[1],[02 ,2]]", 2, "repeat"),
    ("[[1234567890]]", 1, "number"), ("[[0,0],[0,1,2,3,4,5,6,7,8,9,10,11,12,13,14,0]]", 1, "wide"),
    ("back", 5, "missing"), ("back -1", 6, "word"), ("back 1234567890", 6, "number"), ("@4 back 0 1", 11, "extra"), ("see 1", 5, "extra"),
    ("hold a-b", 6, "word"), ("hold 12345678901234567", 6, "word"), ("round 0", 7, "number"), ("round 65", 7, "number"),
    ("after x", 7, "word"), ("after 1234567890", 7, "number"), ("same", 5, "missing"), ("same sum 1:0 1:0", 6, "word"),
    ("same cup 1:0 1:0 1:0", 21, "missing"), ("cup 1:0 1:0 1:0", 13, "extra"), ("cupi 100 1:0 1:0", 6, "number"),
    ("swnumber", 9, "missing"), ("swnumber 1 0", 12, "number"), ("swnumber 1 x", 12, "word"), ("kind 0 1", 8, "extra"),
    ("\tcut\tx", 6, "extra"), ("classes -1", 9, "word"), ("square 1", 9, "missing"), ("cap 1:0 1:{}", 9, "word"),
]


def replies(program, text):
    done = subprocess.run([program, "script"], input=text, stdout=subprocess.PIPE)
    return done.returncode, done.stdout.decode().splitlines()


def agrees(wanted, got):
    if wanted[:1] == ["..."]:
        return got[len(got) - len(wanted) + 1:] == wanted[1:]
    return got == wanted


def main(program):
    passed = failed = 0
    cases = CASES + [("bad lines", "".join(line + "\n" for line, _, _ in BAD).encode(), 0, [f"bad {c} {k}" for _, c, k in BAD])]
    for name, text, status, wanted in cases:
        got = replies(program, text)
        if got[0] == status and agrees(wanted, got[1]):
            passed += 1
            continue
        failed += 1
        differs = next((f"{w} / {g}" for w, g in zip(wanted, got[1]) if w != g), got[1][-2:])
        print(f"{name}: status {got[0]}, {len(got[1])} replies, {differs}")
    print(f"{passed} passed, {failed} failed")
    return 1 if failed else 0


if __name__ == "__main__":
    sys.exit(main(sys.argv[1]))
