"""JSON: a list of facets, or an object with `facets`; and what polymake saves, as JSON or as the older XML."""

from __future__ import annotations

import json
import re
from typing import Any, Dict, Hashable, List, Optional
from xml.etree import ElementTree

from ..facets import Facets
from . import brackets
from .text import Source, Written


def read_json(source: Source) -> Dict[str, Facets]:
    """The one complex of a JSON text. Raises BadFile."""
    value = _loaded(source)
    if isinstance(value, list):
        return {"": source.facets(_rows(source, value))}
    if not isinstance(value, dict):
        source.fault(1, "a list of facets or an object was wanted")
    if str(value.get("_type", "")).startswith("topaz::") or "FACETS" in value:
        return read_polymake(source)
    if "facets" not in value:
        source.fault(1, "the object has no `facets`")
    vertices = value.get("vertices")
    if vertices is not None and not isinstance(vertices, list):
        source.fault(1, "`vertices` is no list")
    order = None if vertices is None else [_label(source, v) for v in vertices]
    found = source.facets(_rows(source, value["facets"]), order)
    lonely = [v for v in found.vertices if not any(v in f for f in found.facets)]
    if lonely:
        source.fault(0, f"the vertex {lonely[0]!r} is listed and in no facet: a point alone is a facet of its own")
    return {"": found}


def read_polymake(source: Source) -> Dict[str, Facets]:
    """The one complex of a file that polymake saved, in the labels that it has there. Raises BadFile."""
    if source.text.lstrip().startswith("<"):
        facets, labels = _xml(source)
    elif source.text.lstrip().startswith(("[", "(")) or re.match(r"\s*\{\s*\d", source.text):
        return brackets.read(source)
    else:
        value = _loaded(source)
        if not isinstance(value, dict) or "FACETS" not in value:
            source.fault(1, "polymake's file has no FACETS: ask polymake for them before it is saved")
        facets = [row for row in value["FACETS"] if not isinstance(row, dict)]
        labels = value.get("VERTEX_LABELS")
    rows = list(_rows(source, facets))
    if labels is None:
        return {"": source.facets(rows)}
    for facet, line, text in rows:
        if not all(isinstance(v, int) and 0 <= v < len(labels) for v in facet):
            source.fault(line, f"there are {len(labels)} labels, and this facet has another vertex", text)
    if len(set(labels)) < len(labels):
        source.fault(0, "two vertices have one label")
    named = [(tuple(labels[v] for v in facet if isinstance(v, int)), line, text) for facet, line, text in rows]
    return {"": source.facets(named, labels)}


def _loaded(source: Source) -> Any:
    try:
        return json.loads(source.text)
    except json.JSONDecodeError as fault:
        source.fault(fault.lineno, f"this is no JSON: {fault.msg} in column {fault.colno}")


def _rows(source: Source, facets: Any) -> "List[Written]":
    if not isinstance(facets, list):
        source.fault(0, "`facets` is no list")
    rows = []
    for number, facet in enumerate(facets):
        text = json.dumps(facet, ensure_ascii=False)
        line = _line(source, facet)
        if not isinstance(facet, list):
            source.fault(line, f"facet {number} is no list", text)
        rows.append((tuple(_label(source, v, line, text) for v in facet), line, text))
    return rows


def _line(source: Source, facet: Any) -> int:
    """The line where a facet is written, as far as its text can be found."""
    if not isinstance(facet, list) or not facet or source.text.count("\n") > 20000:
        return 1
    pattern = r"\[\s*" + r"\s*,\s*".join(re.escape(json.dumps(v, ensure_ascii=False)) for v in facet) + r"\s*\]"
    match = re.search(pattern, source.text)
    return source.text.count("\n", 0, match.start()) + 1 if match else 1


def _label(source: Source, value: Any, line: int = 0, text: str = "") -> Hashable:
    if isinstance(value, list):
        return tuple(_label(source, v, line, text) for v in value)
    if isinstance(value, (int, str)) and not isinstance(value, bool):
        return value
    source.fault(line, f"{json.dumps(value)} is no vertex: integers, texts and lists of them are", text)


def _xml(source: Source) -> "tuple[List[List[int]], Optional[List[str]]]":
    try:
        root = ElementTree.fromstring(source.text)
    except ElementTree.ParseError as fault:
        source.fault(fault.position[0], f"this is no XML: {fault}")
    facets: Optional[List[List[int]]] = None
    labels: Optional[List[str]] = None
    for element in root.iter():
        if not element.tag.endswith("property"):
            continue
        rows = ["".join(row.itertext()) for row in element.iter() if row.tag.endswith("v")]
        if element.get("name") == "FACETS":
            facets = [list(map(int, row.split())) for row in rows]
        elif element.get("name") == "VERTEX_LABELS":
            labels = element.get("value", "").split() or " ".join(rows).split()
    if facets is None:
        source.fault(1, "polymake's file has no FACETS")
    return facets, labels or None
