"""A ring as a table, as JSON and as LaTeX.

In all of them the basis classes have one name: 1 for the unit of a connected complex, else a letter of the degree and a
number, as in a0, a1 (degree 1), b0 (degree 2).
"""

from __future__ import annotations

import json
from typing import Any, Dict, Iterable, List, Sequence, Tuple

from .errors import show
from .ring import Basis, Numbers, Ring

LETTERS = "abcdefghijklmnopqrstuvwxyz"
LISTED = 60
"""More rows of one kind than this are counted in the table, and not shown."""


def name(ring: Ring, degree: int, number: int) -> str:
    """The name of a basis class: 1, or a letter for the degree and the number where there are several."""
    if degree == 0 and ring.rank(0) == 1:
        return "1"
    letter = "e" if degree == 0 else _letter(degree)
    return letter if ring.rank(degree) == 1 else f"{letter}{number}"


def _letter(degree: int) -> str:
    letters = LETTERS.replace("e", "")
    return letters[degree - 1] if degree <= len(letters) else f"x{degree}_"


def total(ring: Ring, degree: int, numbers: Numbers) -> str:
    """A class as a sum of names."""
    if degree == 0 and ring.rank(0) > 1 and len(numbers) == ring.rank(0):
        return "1"
    return " + ".join(name(ring, degree, n) for n in numbers) if numbers else "0"


def table(ring: Ring) -> str:
    """The table that `print` shows."""
    lines = ["Cohomology with coefficients in the field with two elements", ""]
    rows = [("degree", "simplices", "Betti number", "basis, and the simplices that it is born with")]
    rows += [(str(p), str(ring.count[p]), str(b), _basis(ring, p)) for p, b in enumerate(ring.betti)]
    lines += columns(rows) if ring.betti else ["the empty complex"]
    lines += _section("Products", [(f"{_of(ring, a)} {_of(ring, b)}", total(ring, a[0] + b[0], value))
                                   for (a, b), value in ring.products.items() if value], len(ring.products))
    lines += _section("Squares", [(f"Sq{k} {_of(ring, a)}", total(ring, a[0] + k, value))
                                  for (k, a), value in ring.squares.items() if value], len(ring.squares))
    lines += _section("Bocksteins", [(f"beta {_of(ring, a)}", total(ring, a[0] + 1, value))
                                     for a, value in ring.bocksteins.items() if value], len(ring.bocksteins))
    lines += ["", "Closed complex"]
    lines.append(f"  {ring.not_closed}" if ring.closed is None else f"  closed, of dimension {ring.closed}")
    lines.append("  each link has the Betti numbers of a sphere" if ring.sphere_links else f"  {ring.bad_link}")
    if ring.wu is None or ring.sw is None or ring.numbers is None:
        if ring.closed is not None:
            lines.append(f"  {ring.not_dual}")
        return "\n".join(lines)
    lines += ["", "Wu classes              " + _series(ring, "v", ring.wu),
              "Stiefel-Whitney classes " + _series(ring, "w", ring.sw)]
    if ring.numbers:
        lines.append("Stiefel-Whitney numbers " + ", ".join(f"{_monomial(shape)} = {value}" for shape, value in ring.numbers.items()))
    return "\n".join(lines)


def columns(rows: Sequence[Tuple[str, ...]]) -> List[str]:
    """Rows with their columns one below the other."""
    widths = [max(len(row[i]) for row in rows) for i in range(len(rows[0]))]
    return ["  " + "  ".join(cell.ljust(width) for cell, width in zip(row, widths)).rstrip() for row in rows]


def _basis(ring: Ring, degree: int) -> str:
    shown = [f"{name(ring, degree, k)} {show(s)}" for k, s in enumerate(ring.essential[degree][:6])]
    more = ring.rank(degree) - len(shown)
    return ", ".join(shown) + (f", and {more} more" if more > 0 else "")


def _of(ring: Ring, basis: Basis) -> str:
    return name(ring, *basis)


def _section(title: str, rows: List[Tuple[str, str]], asked: int) -> List[str]:
    if not rows:
        reason = "all are zero" if asked else "all are zero for want of classes in their degrees"
        return ["", f"{title}: {reason}"]
    lines = ["", f"{title} (all others are zero)"] + [f"  {left} = {right}" for left, right in rows[:LISTED]]
    return lines + ([f"  and {len(rows) - LISTED} more that are not zero"] if len(rows) > LISTED else [])


def _series(ring: Ring, letter: str, classes: List[Numbers]) -> str:
    parts = [f"{letter}{p} = {total(ring, p, numbers)}" for p, numbers in enumerate(classes)]
    return ", ".join(parts)


def _monomial(shape: Iterable[int]) -> str:
    return " ".join(f"w{p}" for p in shape)


def as_json(ring: Ring) -> str:
    """A JSON object with the fields of the ring; keys are words of the language, such as `1:#0 1:#1`."""
    value: Dict[str, Any] = {
        "coefficients": 2,
        "betti": list(ring.betti),
        "count": list(ring.count),
        "essential": [[[_label(v) for v in s] for s in simplices] for simplices in ring.essential],
        "products": [[_word(a), _word(b), list(value)] for (a, b), value in ring.products.items()],
        "squares": [[k, _word(a), list(value)] for (k, a), value in ring.squares.items()],
        "bocksteins": [[_word(a), list(value)] for a, value in ring.bocksteins.items()],
        "closed": ring.closed,
        "sphere_links": ring.sphere_links,
        "wu": None if ring.wu is None else [list(v) for v in ring.wu],
        "stiefel_whitney": None if ring.sw is None else [list(w) for w in ring.sw],
        "stiefel_whitney_numbers": None if ring.numbers is None else [[list(s), v] for s, v in ring.numbers.items()],
        "reasons": {key: text for key, text in (("closed", ring.not_closed), ("sphere_links", ring.bad_link),
                                                ("duality", ring.not_dual)) if text},
    }
    return json.dumps(value, ensure_ascii=False)


def _word(basis: Basis) -> str:
    return f"{basis[0]}:#{basis[1]}"


def _label(label: object) -> Any:
    return label if isinstance(label, (int, str)) and not isinstance(label, bool) else repr(label)


def latex(ring: Ring) -> str:
    """Displays for amsmath: the groups, the products, squares and Bocksteins that are not zero, and characteristic classes."""
    lines = ["% cohomology with coefficients in the field with two elements; products, squares and Bocksteins of basis classes",
             "% that are not shown are zero", r"\begin{align*}"]
    lines.append(",\\quad ".join(f"H^{{{p}}} &= {_group(ring, p)}" if p == 0 else f"H^{{{p}}} = {_group(ring, p)}"
                                 for p in range(len(ring.betti))) + r" \\")
    equations = [f"{_tex(ring, *a)}\\smile {_tex(ring, *b)} &= {_tex_sum(ring, a[0] + b[0], v)}"
                 for (a, b), v in ring.products.items() if v]
    equations += [f"\\operatorname{{Sq}}^{{{k}}} {_tex(ring, *a)} &= {_tex_sum(ring, a[0] + k, v)}"
                  for (k, a), v in ring.squares.items() if v]
    equations += [f"\\beta {_tex(ring, *a)} &= {_tex_sum(ring, a[0] + 1, v)}" for a, v in ring.bocksteins.items() if v]
    for letter, classes in (("v", ring.wu), ("w", ring.sw)):
        equations += [f"{letter}_{{{p}}} &= {_tex_sum(ring, p, numbers)}" for p, numbers in enumerate(classes or ())]
    equations += [" ".join(f"w_{{{p}}}" for p in shape) + f"[M] &= {value}" for shape, value in (ring.numbers or {}).items()]
    return "\n".join(lines + [" " + e + r" \\" for e in equations] + [r"\end{align*}"])


def _group(ring: Ring, degree: int) -> str:
    rank = ring.rank(degree)
    return "0" if rank == 0 else "\\langle " + ", ".join(_tex(ring, degree, k) for k in range(rank)) + "\\rangle"


def _tex(ring: Ring, degree: int, number: int) -> str:
    plain = name(ring, degree, number)
    letter = plain.rstrip("0123456789")
    return plain if plain == "1" or letter == plain else f"{letter}_{{{plain[len(letter):]}}}"


def _tex_sum(ring: Ring, degree: int, numbers: Numbers) -> str:
    if degree == 0 and len(numbers) == ring.rank(0) and numbers:
        return "1"
    return " + ".join(_tex(ring, degree, n) for n in numbers) if numbers else "0"
