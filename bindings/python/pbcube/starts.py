"""What a start tells by itself: where it keeps to everything, it is an answer."""

from __future__ import annotations

from typing import Callable, Iterable, Sequence

from .jobs import Reply, Statement
from .library import NOTHING

_FOUND = 11  # the status of an answer that may not be the least


def told_by(values: bytes, statements: Iterable[Statement], assumed: Iterable[int]) -> Reply:
    """The reply that these values of all variables are, with the cost of the last objective. Where they do not keep to some statement, or
    where an assumed literal is false, there is none."""

    def is_true(literal: int) -> bool:
        return bool(values[abs(literal) - 1]) == (literal > 0)

    cost = None
    for kind, bound, numbers in statements:
        if kind == "min":
            cost = _sum(numbers, is_true)
        elif not _keeps_to(kind, bound, numbers, is_true):
            return NOTHING
    return (_FOUND, cost, values, None) if all(map(is_true, assumed)) else NOTHING


def _keeps_to(kind: str, bound: int, numbers: Sequence[int], is_true: Callable[[int], bool]) -> bool:
    if kind == "or":
        return any(map(is_true, numbers))
    total = _sum(numbers, is_true)
    return {">=": total >= bound, "<=": total <= bound, "==": total == bound}[kind]


def _sum(numbers: Sequence[int], is_true: Callable[[int], bool]) -> int:
    """The sum of the coefficients whose literals are true, which stand in turn."""
    return sum(coefficient for coefficient, literal in zip(numbers[::2], numbers[1::2]) if is_true(literal))
