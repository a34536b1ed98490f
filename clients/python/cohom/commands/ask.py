"""`ask FILE 'cup 1:#0 1:#1' ..`: loads the file strictly, cuts, and shows requests and replies side by side."""

from __future__ import annotations

import argparse
import sys

from ..errors import Refusal
from ..plainly import in_words
from .common import OK, REFUSED, file_words, read, side_by_side


def add(parser: argparse.ArgumentParser) -> None:
    parser.add_argument("file", help="a file with facets; - is standard input")
    parser.add_argument("request", nargs="+", help="a request of the language, in quotes where it has blanks")
    file_words(parser)


def run(words: argparse.Namespace) -> int:
    requests = [" ".join(request.split()) for request in words.request]
    with read(words.file, words) as k:
        try:
            replies = k.ask(*requests)
        except Refusal as fault:
            print(f"cohom: {fault.request}: {fault}" if fault.request else f"cohom: {fault}", file=sys.stderr)
            return REFUSED
        if k.labels.renumbered():
            print("# vertices: " + ", ".join(f"{number} is {label}" for number, label in k.labels.pairs()))
        for line in side_by_side(list(zip(requests, replies))):
            print(line)
        refused = [(q, r) for q, r in zip(requests, replies) if not r.startswith("ok ")]
        for request, reply in refused:
            print(f"cohom: {request}: {in_words(reply, request)}", file=sys.stderr)
    return REFUSED if refused else OK
