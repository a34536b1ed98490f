"""Labels of the user and numbers of the program, mapped both ways.

Where all labels are ascending integers that the program takes, each is its own number. Else they are numbered from 0 in
the order of the vertices. Of labels that come later each gets the next number, or its own where all are integers, so
that the order of those that were there is kept.
"""

from __future__ import annotations

from collections.abc import Iterable as AnyIterable
from typing import Dict, Hashable, Iterable, List, Sequence, Tuple

from .errors import NotASimplex, UnknownVertex

LARGEST = 999_999_999
"""The largest number of a vertex: nine digits are what a numeral of the language has."""


class Labels:
    """The vertices of a complex, in order, with their numbers."""

    def __init__(self, vertices: Iterable[Hashable] = (), open_ended: bool = False) -> None:
        """With `open_ended` each integer is its own label, also one that was never given (on a server that others use
        too)."""
        self._open = open_ended
        self._number: Dict[Hashable, int] = {}
        self._label: Dict[int, Hashable] = {}
        self._plain = True
        self.extend(vertices)

    def extend(self, vertices: Iterable[Hashable]) -> None:
        """Numbers those labels that have no number yet."""
        fresh = [v for v in dict.fromkeys(vertices) if v not in self._number]
        plain = all(type(v) is int and 0 <= v <= LARGEST for v in fresh)
        if not self._number:
            self._plain = plain and fresh == sorted(fresh)  # type: ignore[type-var]
        self._plain = self._plain and plain
        last = max(self._label, default=-1)
        for label in fresh:
            number = label if self._plain and isinstance(label, int) else last + 1
            last = max(last, number)
            self._number[label], self._label[number] = number, label

    def forget(self, labels: Iterable[Hashable]) -> None:
        """Takes numbers back, of labels that came last."""
        for label in labels:
            del self._label[self._number.pop(label)]

    def order(self) -> Tuple[Hashable, ...]:
        """The labels in the order of their numbers."""
        return tuple(self._label[n] for n in sorted(self._label))

    def numbers(self, simplex: Iterable[Hashable]) -> Tuple[int, ...]:
        """The ascending numbers of a simplex. Raises UnknownVertex, and NotASimplex for none or one vertex twice, or no collection."""
        if isinstance(simplex, (str, bytes)) or not isinstance(simplex, AnyIterable):
            raise NotASimplex((simplex,), "stands where a simplex is wanted: that is a tuple of labels, also for a point")
        given = tuple(simplex)
        if self._open:
            self.extend(v for v in given if type(v) is int)
        try:
            found = sorted(self._number[v] for v in given)
        except (KeyError, TypeError) as fault:
            raise UnknownVertex(fault.args[0] if isinstance(fault, KeyError) else given) from None
        if not found or len(set(found)) < len(found):
            raise NotASimplex(given, "has a vertex twice" if found else "has no vertex")
        return tuple(found)

    def simplex(self, numbers: Sequence[int]) -> Tuple[Hashable, ...]:
        """The labels of a simplex, in the order of the vertices. A number that is no vertex stands as it is."""
        label = self._label
        return tuple([label.get(n, n) for n in numbers])

    def simplices(self, many: Iterable[Sequence[int]]) -> List[Tuple[Hashable, ...]]:
        return [self.simplex(numbers) for numbers in many]

    def __contains__(self, label: Hashable) -> bool:
        return label in self._number

    def __len__(self) -> int:
        return len(self._number)

    def pairs(self) -> List[Tuple[int, Hashable]]:
        """Numbers with their labels, ascending."""
        return sorted(self._label.items(), key=lambda pair: pair[0])

    def renumbered(self) -> bool:
        """Whether some label is not its own number."""
        return any(label != number for number, label in self._label.items())
