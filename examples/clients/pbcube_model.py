"""Models of named integers with exact coefficients, written in OPB for pbcube, and its report read back by names.

An integer is written as the bits of its distance from its least value, the greatest bit first, and a row is multiplied by the least
common multiple of its denominators. No number is rounded. Among the assignments of the best objective the answer is the first one:
the integer that was named first is as small as it can be, then the second, and so on.
"""

from __future__ import annotations

import math
import re
from dataclasses import dataclass
from fractions import Fraction
from typing import Callable, Mapping, Sequence, Tuple

from pbcube_program import NoAnswer, Program, Report, Status

GREATEST_SUM = 2**126 - 1  # of the absolute numbers of a row, once they are whole
Terms = Sequence[Tuple[Fraction, str]]  # coefficients and names, which may come again
_NUMBER = re.compile(r"[+-]?(\d+/\d+|(\d+\.?\d*|\.\d+)([eE][+-]?\d{1,3})?)", re.ASCII)
_HOLDS = {"<=": Fraction.__le__, "=": Fraction.__eq__, ">=": Fraction.__ge__}


def decimal(number: object, place: str) -> Fraction:
    """The number as it is written, a float by its shortest decimal (0.1 is 1/10). One that is none or very long is `NoAnswer`."""
    if len(str(number)) > 1000 or not _NUMBER.fullmatch(str(number)):
        raise NoAnswer(f"{place}: {str(number)[:40]} is no number that can be taken exactly")
    return Fraction(str(number))


def whole_bounds(variable: str, least: Fraction | None, greatest: Fraction | None, is_whole: bool) -> tuple[int, int]:
    """The least and the greatest whole number between the bounds; `NoAnswer` where one is missing, or it is neither whole nor fixed."""
    is_fixed = least is not None and least == greatest and least.denominator == 1
    if not is_whole and not is_fixed:
        raise NoAnswer(f"{variable} is continuous, and pbcube has integers alone")
    if least is None or greatest is None:
        raise NoAnswer(f"{variable} has no finite {'lower' if least is None else 'upper'} bound")
    return math.ceil(least), math.floor(greatest)


@dataclass(frozen=True)
class Answer:
    """What was found: the values by name, empty where nothing was found, and the objective, None without one or without values."""

    status: Status
    values: Mapping[str, int]
    objective: Fraction | None


@dataclass(frozen=True)
class Row:
    """The sum of the terms stands in the relation, `<=`, `=` or `>=`, to the bound. Messages have the name."""

    name: str
    terms: Terms
    relation: str
    bound: Fraction


@dataclass(frozen=True)
class Objective:
    """The sum of the terms and the constant, to be least or greatest."""

    terms: Terms
    constant: Fraction
    is_maximised: bool

    def minimised(self) -> Terms:
        """The terms of what is least where the objective is best."""
        return [(-coefficient, name) for coefficient, name in self.terms] if self.is_maximised else self.terms


class Model:
    """Integers between bounds, rows over them, and at most one objective."""

    def __init__(self) -> None:
        self.rows: list[Row] = []
        self.objective: Objective | None = None
        self._least: dict[str, int] = {}
        self._bits: dict[str, list[tuple[int, int]]] = {}  # of each integer: weight and number in the text
        self._count = 0

    def integer(self, name: str, least: int, greatest: int) -> None:
        """Names a new integer; a name that is taken is `NoAnswer`. Where `least` is above `greatest` nothing is feasible."""
        if name in self._least:
            raise NoAnswer(f"two variables are named {name}")
        width = max(greatest - least, 0).bit_length()
        self._least[name] = least
        self._bits[name] = [(1 << width - place, self._count + place) for place in range(1, width + 1)]
        self._count += width
        if greatest - least != (1 << width) - 1:
            self.rows.append(Row(f"bounds of {name}", [(Fraction(1), name)], "<=", Fraction(greatest)))

    def _whole(self, row: str, terms: Terms, rest: Fraction) -> tuple[str, int]:
        """The terms in bits, without what the least values give, and the rest, both multiplied until they are whole."""
        bits = [(coefficient * weight, bit) for coefficient, name in terms for weight, bit in self._bits[name]]
        scale = math.lcm(rest.denominator, *(coefficient.denominator for coefficient, _ in bits))
        if scale * (abs(rest) + sum(abs(coefficient) for coefficient, _ in bits)) > GREATEST_SUM:
            raise NoAnswer(f"{row}: the numbers add up to more than 2^126 - 1 once they are whole")
        return "".join(f"{int(scale * coefficient)} x{bit} " for coefficient, bit in bits), int(scale * rest)

    def opb(self) -> str:
        """The model in OPB, or `NoAnswer` where the numbers of a row are too large."""
        lines = [f"* #variable= {self._count} #constraint= {len(self.rows)}"]
        if self.objective:
            lines.append(f"min: {self._whole('the objective', self.objective.minimised(), Fraction())[0]};")
        for row in self.rows:
            terms, rest = self._whole(row.name, row.terms, row.bound - _value(row.terms, self._least))
            lines.append(f"{terms}{row.relation} {rest} ;")
        return "\n".join([*lines, ""])

    def size(self) -> tuple[int, int]:
        """How many variables and rows the text in OPB has."""
        return self._count, len(self.rows)

    def solve(self, program: Program = Program(), tell: Callable[[str], None] = lambda _: None) -> Answer:
        """What pbcube answers, or `NoAnswer`, also where its values break a row. `tell` is handed a line on each search."""
        report = program.report(self.opb(), lambda search, found: tell(f"{search}: {self._in_words(found)}"))
        values = self._values(report)
        for row in self.rows if report.true is not None else ():
            if not _HOLDS[row.relation](_value(row.terms, values), row.bound):
                raise NoAnswer(f"{row.name}: the values that {program.path} wrote break it")
        return Answer(report.status, values, self._objective_at(report, values))

    def _values(self, report: Report) -> dict[str, int]:
        """The values by name, none where nothing was found."""
        if report.true is None:
            return {}
        above = {name: sum(weight for weight, bit in bits if bit in report.true) for name, bits in self._bits.items()}
        return {name: least + above[name] for name, least in self._least.items()}

    def _objective_at(self, report: Report, values: Mapping[str, int]) -> Fraction | None:
        """The objective, None where there is none or nothing was found."""
        if self.objective is None or report.true is None:
            return None
        return _value(self.objective.terms, values) + self.objective.constant

    def _in_words(self, report: Report | None) -> str:
        """How a search ended."""
        if report is None:
            return "ended by the time limit"
        objective = self._objective_at(report, self._values(report))
        return report.status.value if objective is None else f"{report.status.value}, objective {objective}"


def _value(terms: Terms, values: Mapping[str, int]) -> Fraction:
    return sum((coefficient * values[name] for coefficient, name in terms), Fraction())
