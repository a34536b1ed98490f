"""The forms by name, and which of them a text has."""

from __future__ import annotations

import re
from typing import Callable, Dict

from ..facets import Facets
from . import brackets, gudhi, objects, plain
from .text import Source

FORMS: Dict[str, Callable[[Source], Dict[str, Facets]]] = {
    "plain": plain.read,
    "brackets": brackets.read,
    "sagemath": brackets.read,
    "gap": brackets.read,
    "manifolds": brackets.read_named,
    "json": objects.read_json,
    "polymake": objects.read_polymake,
    "gudhi": gudhi.read,
}


def guess(source: Source) -> str:
    """The form that a text looks to have."""
    text = "\n".join(line for line in source.lines if not re.match(r"\s*[#%]", line)).lstrip()
    if text.startswith("<?") or text.startswith("<object"):
        return "polymake"
    if re.match(r'\{\s*"[^"]*"\s*:', text):
        return "json"
    if gudhi.looks_so(text):
        return "gudhi"
    if brackets.named(text):
        return "manifolds"
    return "brackets" if re.match(r"[\[({]|Simplicial complex", text) else "plain"
