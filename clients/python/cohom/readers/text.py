"""A file as text, with its lines; byte order marks and Windows line ends go away."""

from __future__ import annotations

import codecs
import re
from typing import Iterable, List, NoReturn, Tuple

from ..errors import BadFacet, BadFile, InputFault
from ..facets import Facets, Simplex

Written = Tuple[Simplex, int, str]
"""A facet, the line where it begins, and its text."""


class Source:
    """The text of a file: `path` for messages, `text` whole, `lines` with the first at 1."""

    def __init__(self, path: str, text: str) -> None:
        self.path, self.text = path, text
        self.lines: List[str] = [""] + text.split("\n")

    def fault(self, line: int, reason: str, text: str = "") -> NoReturn:
        """Raises BadFile at a line, with the text as it is written there."""
        raise BadFile(self.path, line, text or (self.lines[line].strip() if 0 < line < len(self.lines) else ""), reason)

    def facets(self, written: Iterable[Written], vertices: "Iterable[object] | None" = None) -> Facets:
        """Facets with their places. Raises BadFile for one with a vertex twice, and where there is none."""
        rows = list(written)
        if not rows:
            raise BadFile(self.path, 0, "", "there are no facets in it")
        for facet, line, text in rows:
            try:
                Facets([facet])
            except BadFacet as fault:
                self.fault(line, fault.reason, text)
        try:
            return Facets([facet for facet, _, _ in rows], vertices, [f"{self.path}, line {line}" for _, line, _ in rows])
        except InputFault as fault:
            raise BadFile(self.path, 0, "", str(fault)) from None


def decode(path: str) -> Source:
    """A file as text. Raises BadFile where it cannot be opened or is no text in UTF-8 (or UTF-16 with its mark)."""
    try:
        with open(path, "rb") as file:
            data = file.read()
    except OSError as fault:
        raise BadFile(path, 0, "", fault.strerror or str(fault)) from None
    encoding = "utf-16" if data.startswith((codecs.BOM_UTF16_LE, codecs.BOM_UTF16_BE)) else "utf-8-sig"
    try:
        text = data.decode(encoding)
    except UnicodeDecodeError as fault:
        line = data[:fault.start].count(b"\n") + 1
        raise BadFile(path, line, "", f"this is no text in {encoding.replace('-sig', '').upper()}") from None
    return cleaned(path, text)


BREAKS = re.compile("[\0\r\v\f\x1c-\x1e\x85\u2028\u2029]")
"""Signs that may or may not be meant as ends of lines."""


def cleaned(path: str, text: str) -> Source:
    """A text without byte order mark and with plain line ends. Raises BadFile for a zero byte or a line end of another kind."""
    text = text.lstrip("\ufeff").replace("\r\n", "\n")
    found = BREAKS.search(text)
    if found:
        line = text.count("\n", 0, found.start()) + 1
        what = "a zero byte" if found.group() == "\0" else f"the sign {found.group()!r}, a line end of another kind,"
        raise BadFile(path, line, text.split("\n")[line - 1].strip(), f"{what} stands there")
    return Source(path, text)
