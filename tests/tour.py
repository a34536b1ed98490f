"""The scripts that are shown in docs/tour.md and README.md: each block is a script of examples/, or parts of it.

    python3 tests/tour.py TOP

A block begins with three backquotes, `text` and the path of its script. Its rows are those of `python3 -m cohom show SCRIPT`: each
is a line of the script and its reply, in two columns; a comment has no reply. The rows follow each other as in the script, where
comments may be left out, and a row `...` stands for lines that are left out. That the scripts have these replies is what
tests/run tries. The last line is `N passed, M failed`; the status is 1 where one failed.
"""

import os
import re
import sys

sys.path.insert(0, os.path.join(os.path.dirname(os.path.abspath(__file__)), "..", "clients", "python"))
from cohom.commands.show import FOLDED, Row, columns, rows  # noqa: E402

DOCUMENTS = ("docs/tour.md", "README.md")


def blocks(text):
    """The blocks that name a script, each as the path and its rows."""
    for path, body in re.findall(r"^```text (examples/\S+\.txt)\n(.*?)^```$", text, re.M | re.S):
        yield path, body.splitlines()


def row(shown):
    """A shown row as line and reply; a comment and a fold are all of it."""
    if shown.lstrip().startswith(("#", FOLDED)):
        return Row(" ".join(shown.split()), None)
    parts = re.split(r" {2,}", shown.strip(), maxsplit=1)
    return Row(parts[0], parts[1] if len(parts) == 2 else None)


def first_wrong(shown, whole):
    """The first shown row that does not stand where it should, or None."""
    at, anywhere = 0, True
    for wanted in shown:
        if wanted == Row(FOLDED, None):
            anywhere = True
            continue
        while at < len(whole) and whole[at] != wanted and (anywhere or whole[at].reply is None):
            at += 1
        if at == len(whole) or whole[at] != wanted:
            return wanted
        at, anywhere = at + 1, False
    return None


def read(path):
    with open(path, encoding="utf-8") as file:
        return file.read()


def wrong(shown, script):
    """What is not as it should be in a block, or None."""
    parted = [row(text) for text in shown]
    whole = rows(read(script).splitlines(), read(script[:-len("txt")] + "expected").splitlines())
    fault = first_wrong(parted, whole)
    if fault is not None:
        return f"the row {fault.line!r} with the reply {fault.reply!r} is not there"
    laid_out = columns(parted)
    return next((f"the columns of {text!r} are to be as in {better!r}" for text, better in zip(shown, laid_out) if text != better), None)


def main(top):
    passed = failed = 0
    for document in DOCUMENTS:
        for path, shown in blocks(read(os.path.join(top, document))):
            fault = wrong(shown, os.path.join(top, path))
            passed, failed = passed + (fault is None), failed + (fault is not None)
            if fault is not None:
                print(f"{document}: {path}: {fault}")
    print(f"{passed} passed, {failed} failed")
    return 1 if failed or not passed else 0


if __name__ == "__main__":
    sys.exit(main(*sys.argv[1:]))
