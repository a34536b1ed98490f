"""The examples of docs/protocol.md: each block of lines and replies under "Examples" is one script, and each row of the table
"You typed, you meant" is one too.

    python3 tests/protocol.py PROGRAM PROTOCOL

A line of an example stands before its reply, with two blanks or more between. What the table has in its first column is answered
as the second says, and no line of its third column is bad. The last line is `N passed, M failed`; the status is 1 where one failed.
"""

import re
import subprocess
import sys


def blocks(text):
    """The indented blocks behind the heading, each as its lines and its replies."""
    examples = text.split("\n## Examples\n", 1)[1].split("\n## ", 1)[0]
    for block in re.findall(r"(?:^    .*\n?)+", examples, re.M):
        pairs = [re.split(r" {2,}", row.strip(), maxsplit=1) for row in block.splitlines()]
        yield [p[0] for p in pairs], [p[1] for p in pairs if len(p) == 2]


def meant(text):
    """The rows of the table: what was typed, its reply, and the lines that were meant."""
    table = text.split("\n## You typed, you meant\n", 1)[1].split("\n## ", 1)[0]
    for row in re.findall(r"^\| `.*$", table, re.M):
        typed, reply, lines = (re.findall(r"`([^`]*)`", cell) for cell in row.split(" | ")[:3])
        yield typed[0], reply[0], lines


def ask(program, lines):
    """The status, and the replies."""
    done = subprocess.run([program, "script"], input="\n".join(lines + [""]).encode(), stdout=subprocess.PIPE)
    return done.returncode, done.stdout.decode().splitlines()


def main(program, protocol):
    with open(protocol, encoding="utf-8") as it:
        text = it.read()
    passed = failed = 0
    for typed, reply, lines in meant(text):
        said = ask(program, [typed])[1]
        bad = [line for line in lines if ask(program, ["0 1", "0 2", "1 2", "cut", line])[1][-1].startswith("bad")]
        if said == [reply] and lines and not bad:
            passed += 1
        else:
            failed += 1
            print(f"the row of {typed!r}: {said!r} in place of {reply!r}, and bad are {bad!r}")
    for lines, replies in blocks(text):
        status, said = ask(program, lines)
        if status == 0 and said == replies:
            passed += 1
        else:
            failed += 1
            wrong = next((p for p in zip(said, replies) if p[0] != p[1]), (said[-1:], replies[-1:]))
            print(f"the block that begins with {lines[0]!r}: status {status}, {wrong[0]!r} in place of {wrong[1]!r}")
    print(f"{passed} passed, {failed} failed")
    return 1 if failed or not passed else 0


if __name__ == "__main__":
    sys.exit(main(*sys.argv[1:]))
