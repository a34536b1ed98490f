"""`show SCRIPT`: a script answered, in the two columns of README and docs/tour.md.

On the left is each line, on the right its reply. Runs of facets are folded into `...`, all but the first ones and the last;
`--keep N` says how many of the first, and `--whole` folds none. With --no-comments comments are left out.
"""

from __future__ import annotations

import argparse
import sys
from typing import List, NamedTuple, Optional, Sequence

from ..errors import BadFile
from ..language import request_words
from ..program import find
from ..readers.text import decode
from ..transport import started
from .common import OK, REFUSED

FOLDED = "..."


class Row(NamedTuple):
    """A line of a script, its blanks made single, and its reply; None where it has none."""

    line: str
    reply: Optional[str]


def add(parser: argparse.ArgumentParser) -> None:
    parser.add_argument("script", help="a script of requests; - is standard input")
    parser.add_argument("--whole", action="store_true", help="fold no runs of facets into ...")
    parser.add_argument("--keep", type=int, default=2, help="how many facets of a run stand before ... (2)")
    parser.add_argument("--no-comments", action="store_true", help="leave comments out")


def run(words: argparse.Namespace) -> int:
    if words.script == "-":
        lines = sys.stdin.read().splitlines()
    else:
        lines = decode(words.script).text.splitlines()
    whole = rows(lines, answers(lines, words.program))
    shown = [row for row in whole if row.reply is not None or (row.line and not words.no_comments)]
    print("\n".join(columns(shown if words.whole else fold(shown, words.keep))))
    return REFUSED if any(row.reply is not None and not row.reply.startswith("ok ") for row in whole) else OK


def asked(lines: Sequence[str]) -> List[str]:
    """The lines that have a reply, to `quit`."""
    kept = []
    for line in lines:
        words = request_words(line)
        if words:
            kept.append(line)
            if words == ["quit"]:
                break
    return kept


def answers(lines: Sequence[str], program: Optional[str] = None) -> List[str]:
    """The replies of the program to a script. Raises BadFile for a line that is not of ASCII letters outside comments."""
    requests = asked(lines)
    for request in requests:
        if not request.isascii():
            raise BadFile("the script", list(lines).index(request) + 1, request, "a request has none but ASCII letters")
    channel = started(find(program))
    try:
        return channel.ask_all(requests)
    finally:
        channel.close()


def rows(lines: Sequence[str], replies: Sequence[str]) -> List[Row]:
    """Each line of a script with its reply. Lines behind `quit` are left out."""
    waiting, found = iter(replies), []
    for line in lines:
        words = request_words(line)
        found.append(Row(" ".join(line.split()), next(waiting, None) if words else None))
        if words == ["quit"]:
            break
    return found


def fold(rows: Sequence[Row], keep: int = 2) -> List[Row]:
    """The rows with each run of facets of more than keep + 2 folded: `keep` of them, then `...`, then the last."""
    folded: List[Row] = []
    at = 0
    while at < len(rows):
        end = at
        while end < len(rows) and _is_facet(rows[end].line):
            end += 1
        if end - at > keep + 2:
            folded += [*rows[at:at + keep], Row(FOLDED, None), rows[end - 1]]
        else:
            folded += rows[at:end]
        if end < len(rows):
            folded.append(rows[end])
        at = end + 1
    return folded


def columns(rows: Sequence[Row]) -> List[str]:
    """The rows in two columns, two blanks apart; comments and folds are alone in theirs."""
    width = max((len(row.line) for row in rows if row.reply is not None), default=0)
    return [row.line if row.reply is None else f"{row.line:<{width}}  {row.reply}" for row in rows]


def _is_facet(line: str) -> bool:
    words = request_words(line)
    return bool(words) and (words[0][0].isdigit() or words[0] == "facet" or words[0].startswith("[["))
