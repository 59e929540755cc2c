"""Constraints that can be left out: each holds where a variable of its own, its selector, is true."""

from __future__ import annotations

from array import array
from typing import Dict, List, Tuple

from .jobs import Statement
from .sums import compact


def selectable(rules: List[Statement], names: Dict[int, str], variables: int) -> Tuple[List[Statement], Dict[int, str]]:
    """The rules, of which those of a name, told by their places, hold where the selector of that name is true; and the names by the
    numbers of their selectors, which come after the other variables. Rules of one name have one selector."""
    selectors: Dict[str, int] = {}
    made: List[Statement] = []
    for place, rule in enumerate(rules):
        name = names.get(place)
        if name is None:
            made.append(rule)
        else:
            made.extend(_under(selectors.setdefault(name, variables + len(selectors) + 1), rule))
    return made, {number: name for name, number in selectors.items()}


def _under(selector: int, rule: Statement) -> List[Statement]:
    """What holds of the rule where the selector is true, and always where it is false."""
    kind, bound, numbers = rule
    if kind == "or":
        return [(kind, bound, array("i", [*numbers, -selector]))]
    coefficients = numbers[::2]
    slacks = {">=": bound - sum(min(it, 0) for it in coefficients), "<=": bound - sum(max(it, 0) for it in coefficients)}
    return [_with_slack(it, bound, numbers, slacks[it], selector) for it in ((">=", "<=") if kind == "==" else (kind,))]


def _with_slack(relation: str, bound: int, numbers: List[int], slack: int, selector: int) -> Statement:
    """The sum with so large a term of the negated selector that any assignment meets the bound."""
    missing = max(slack, 0) if relation == ">=" else min(slack, 0)
    return relation, bound, compact([*numbers, missing, -selector], bound)
