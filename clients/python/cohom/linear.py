"""Linear algebra modulo 2, with vectors as integers: bit k is the entry k."""

from __future__ import annotations

from typing import Iterable, List, Sequence


def vector(numbers: Iterable[int]) -> int:
    """The vector with ones at these places."""
    bits = 0
    for number in numbers:
        bits ^= 1 << number
    return bits


def basis(vectors: Iterable[int]) -> List[int]:
    """A basis of the span, each with a leading bit of its own."""
    kept: List[int] = []
    for row in vectors:
        for other in kept:
            row = min(row, row ^ other)
        if row:
            kept.append(row)
    return kept


def rank(vectors: Iterable[int]) -> int:
    """The dimension of the span."""
    return len(basis(vectors))


def combination(vectors: Sequence[int], bits: int) -> int:
    """The sum of those vectors whose places are in `bits`."""
    total, at = 0, 0
    while bits:
        if bits & 1:
            total ^= vectors[at]
        bits >>= 1
        at += 1
    return total
