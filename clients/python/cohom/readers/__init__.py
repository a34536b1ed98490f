"""Files and texts read as facets, strictly: what is not of its form is a BadFile that names file, line and the text as written.

    plain      one facet a line: `0 1 3`, `0, 1, 3`, `facet 0 1 3`, `a b c`; comments behind # or %
    brackets   `[[1,2,3],[1,2,4]]`, `{0 1 2}` a line, `{(0, 1, 2), (0, 1, 5)}`, over any lines: what polymake, SageMath, GAP print
    manifolds  `name=[[1,2,3],[1,2,4]]`, many in a file: Lutz's manifold pages, and assignments of GAP
    json       a list of facets, or an object with `facets` and perhaps `vertices` (their order)
    polymake   what polymake saves: JSON or the older XML, with VERTEX_LABELS where there are any
    gudhi      pairs `([0, 1], 0.5)` as Python prints them, or lines `DIMENSION V .. VALUE` (these only where the form is named)

`read_file` and `read_text` see the form from the text where none is named; `read_all` gives all complexes of a file by name.
"""

from __future__ import annotations

import os
from typing import Dict, Optional, Union

from ..errors import BadFile
from ..facets import Facets
from .forms import FORMS, guess
from .text import Source, cleaned, decode

Path = Union[str, "os.PathLike[str]"]


def read_file(path: Path, form: Optional[str] = None, name: Optional[str] = None) -> Facets:
    """The complex of a file, or the one of that `name` where there are several. Raises BadFile."""
    return _pick(read_all(path, form), os.fspath(path), name)


def read_text(text: str, form: Optional[str] = None, name: Optional[str] = None) -> Facets:
    """The same of a text."""
    return _pick(_read(cleaned("the text", text), form), "the text", name)


def read_all(path: Path, form: Optional[str] = None) -> Dict[str, Facets]:
    """All complexes of a file by name; one without a name stands under the empty one. Raises BadFile."""
    return _read(decode(os.fspath(path)), form)


def _read(source: Source, form: Optional[str]) -> Dict[str, Facets]:
    chosen = guess(source) if form is None else form
    if chosen not in FORMS:
        raise BadFile(source.path, 0, "", f"there is no form {chosen!r}; there are " + ", ".join(sorted(FORMS)))
    return FORMS[chosen](source)


def _pick(found: Dict[str, Facets], path: str, name: Optional[str]) -> Facets:
    if name is not None:
        if name not in found:
            raise BadFile(path, 0, "", f"there is no complex {name!r}; there are " + _listed(found))
        return found[name]
    if len(found) != 1:
        raise BadFile(path, 0, "", f"there are {len(found)} complexes, so one is to be named: " + _listed(found))
    return next(iter(found.values()))


def _listed(found: Dict[str, Facets]) -> str:
    names = [n or "(without a name)" for n in found]
    return ", ".join(names[:10]) + (f" and {len(names) - 10} more" if len(names) > 10 else "")
