"""A vertex as it is written: an integer, a text in quotes, or a bare name such as a, b', v12 or x_1.

Other bare words are no vertices: a headline such as `Minimal triangulation` is not to be read as a facet.
"""

from __future__ import annotations

import json
import re
from typing import Hashable, Optional

NUMBER = re.compile(r"-?\d+\Z")
NAME = re.compile(r"([^\W\d_]'*|[^\W\d]\w*[\d_]\w*)\Z")
QUOTED = re.compile(r"""("(?:[^"\\]|\\.)*"|'(?:[^'\\]|\\.)*')\Z""")


def label(word: str) -> Optional[Hashable]:
    """The vertex that a word stands for, or None where it stands for none."""
    if NUMBER.match(word):
        return int(word)
    if QUOTED.match(word):
        return unquoted(word)
    return word if NAME.match(word) else None


def unquoted(word: str) -> str:
    if word[0] == '"':
        try:
            return str(json.loads(word))
        except ValueError:
            pass
    return re.sub(r"\\(.)", r"\1", word[1:-1])


def complaint(word: str) -> str:
    """Why a word is no vertex."""
    if re.match(r"\d+(-\d+)+\Z", word):
        return f"{word!r} is no vertex: blanks are wanted between vertices, as in {word.replace('-', ' ')!r}"
    if re.match(r"-?\d*\.\d+|-?\d+\.", word):
        return f"{word!r} is no vertex: a number is to be whole (a file of GUDHI's is read with the form gudhi)"
    if re.match(r"\d", word):
        return f"{word!r} is no vertex: a letter stands in a number"
    if re.match(r"\w+\Z", word):
        return f"{word!r} is no vertex: a word is one in quotes, or a letter, or letters with a number as in v12"
    return f"{word!r} is no vertex"
