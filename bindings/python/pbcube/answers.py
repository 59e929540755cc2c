"""What a search found."""

from __future__ import annotations

import enum
import json
from dataclasses import dataclass, field
from functools import cached_property
from typing import TYPE_CHECKING, Any, Dict, List, NoReturn, Optional, Tuple, Union

from . import hints
from .errors import FOREIGN, LATER
from .sums import Exact, Expression, Literal, as_literal, as_sum, check_owners, tidy
from .tables import first_rows, table


class Status(enum.Enum):
    """What a search found."""

    UNKNOWN = 1
    """It was cut by its budget or its time limit, and found nothing."""
    SATISFIABLE = 10
    """There is no objective, and the first feasible assignment was found."""
    FOUND = 11
    """It was cut by its budget or its time limit; what was found is feasible, and may not be the least."""
    UNSATISFIABLE = 20
    """No assignment is feasible."""
    OPTIMUM = 30
    """The least assignment was found."""

    def __repr__(self) -> str:
        return f"Status.{self.name}"


class Names(Tuple[Optional[str], ...]):
    """The names of variables, from the first on. Many answers may share them. Pickled they are a tuple."""

    @cached_property
    def numbers(self) -> Dict[Optional[str], int]:
        """The numbers of the variables by their names, of those of one name the first."""
        return {name: number for number, name in reversed([*enumerate(self, 1)])}

    def __reduce__(self) -> Tuple[Any, ...]:
        return tuple, (tuple(self),)


class _Told:
    """What answers of all kinds refuse, with what to write instead."""

    _kind, _compared, _instead = "", "", ""

    def __bool__(self) -> bool:
        raise TypeError(f"{self._kind} has no truth value: compare its status, as {self._compared}")

    def __iter__(self) -> NoReturn:
        raise TypeError(f"{self._kind} is no list: write {self._instead}")

    if not TYPE_CHECKING:  # which would then take each name for one of an answer

        def __getattr__(self, name: str) -> NoReturn:
            raise AttributeError(hints.of_answer(self._kind, name))


class _Named(_Told):
    """What tells of variables that may have names."""

    names: Tuple[Optional[str], ...]
    owners: Optional[Tuple[Tuple[int, int], ...]]
    _where_no_name = ""

    @cached_property
    def _numbers(self) -> Dict[Optional[str], int]:
        names = self.names if isinstance(self.names, Names) else Names(self.names)
        return names.numbers

    def _number_of(self, name: str) -> int:
        if name not in self._numbers:
            has_names = any(it is not None for it in self._numbers)
            raise LookupError(f"no variable is named {name!r}{'' if has_names else f': none has a name: {self._where_no_name}'}")
        return self._numbers[name]

    def _check(self, owners: Tuple[Tuple[int, int], ...]) -> None:
        """Raises ForeignLiteral unless the answer has each variable."""
        if self.owners is not None:
            known = dict(self.owners)
            check_owners(owners, known, LATER if all(owner in known for owner, _ in owners) else FOREIGN)

    def _name_of(self, number: int) -> str:
        """The name of a variable, or x and its number where it has none."""
        name = self.names[number - 1] if number <= len(self.names) else None
        return f"x{number}" if name is None else name

    def __getstate__(self) -> Dict[str, Any]:
        return {name: value for name, value in self.__dict__.items() if name != "_numbers"}


@dataclass(frozen=True)
class Answer(_Named):
    """What a search found: the status, the cost where there is an objective and something was found, and the values of the
    variables from the first on, where something was found. `names` are those of the variables, from the first on."""

    status: Status
    cost: Optional[Exact]
    values: Optional[Tuple[bool, ...]]
    names: Tuple[Optional[str], ...] = field(default=(), repr=False)
    owners: Optional[Tuple[Tuple[int, int], ...]] = field(default=None, repr=False, compare=False)
    _kind, _compared = "an answer", "answer.status is Status.UNSATISFIABLE"
    _instead = "answer.values, or answer.named() for the values by name"
    _where_no_name = "answer.values[0] is the value of the first one, and Model.read(text).solve() has the names x1, x2 and so on"

    def __getitem__(self, literal: Union[Literal, str]) -> bool:
        """Whether a literal, or the variable of a name, is true.

        Raises LookupError where nothing was found or the answer has no such variable, and ForeignLiteral where the variable is one
        of another model, or was made after the model was asked."""
        if isinstance(literal, str):
            return self._is_true(self._number_of(literal))
        self._check(as_literal(literal).owners)
        return self._is_true(literal.number)

    def _is_true(self, number: int) -> bool:
        if self.values is None:
            raise LookupError("nothing was found")
        if abs(number) > len(self.values):
            raise LookupError(f"no variable {abs(number)} among {len(self.values)}")
        return self.values[abs(number) - 1] == (number > 0)

    def value(self, expression: Expression) -> Exact:
        """The value of a sum, a literal or a number. Raises as `answer[literal]` does.

            >>> model = Model()
            >>> x, y = model.variables(2)
            >>> model.add(x + y == 1)
            >>> model.solve().value(5 * x + 3 * y - 1)
            2
        """
        taken = as_sum(expression)
        self._check(taken.owners)
        value = taken.constant
        for coefficient, literal in taken.terms:
            value += coefficient * self._is_true(literal)
        return tidy(value)

    def named(self) -> Dict[str, bool]:
        """The values of the variables that have names, by name; none where nothing was found."""
        pairs = zip(self.names, self.values or ())
        return {name: value for name, value in pairs if name is not None}

    def json(self, indent: Optional[int] = None) -> str:
        """The answer as a JSON object of `status`, `cost`, `values` and `named`. A cost that is not whole is a text, as "7/2".

            >>> model = Model()
            >>> model.maximise(model.variable("x") / 2)
            >>> print(model.solve().json())
            {"status": "OPTIMUM", "cost": "1/2", "values": [true], "named": {"x": true}}
        """
        cost = self.cost if self.cost is None or isinstance(self.cost, int) else str(self.cost)
        told = {"status": self.status.name, "cost": cost, "values": self.values, "named": self.named()}
        return json.dumps(told, indent=indent)

    def _repr_html_(self) -> str:
        """The status, the cost and the first values as a table, which notebooks show."""
        cost: List[Tuple[object, object]] = [] if self.cost is None else [("cost", self.cost)]
        values: List[Tuple[object, object]] = [(self._name_of(number), value) for number, value in enumerate(self.values or (), 1)]
        return table([("status", self.status.name), *cost, *first_rows(values)])


@dataclass(frozen=True, eq=False)
class Explanation(_Told):
    """Why nothing is feasible: `Status.UNSATISFIABLE` with a core, which are some of the literals that were assumed, or with
    `constraints`, the names of some constraints, which are enough for that; `Status.SATISFIABLE` where something is feasible, or
    `Status.UNKNOWN`. They are minimal where something is feasible without any one of them; where they are not, the budget or the time
    limit cut the question before that was known."""

    status: Status
    core: Optional[Tuple[Literal, ...]] = None
    is_minimal: bool = False
    constraints: Optional[Tuple[str, ...]] = None
    _kind, _compared = "an explanation", "why.status is Status.UNSATISFIABLE"
    _instead = "why.core for the literals, or why.constraints for the names"

    def __getitem__(self, _: object) -> NoReturn:
        self.__iter__()

    def _repr_html_(self) -> str:
        """The status and the first names or literals as a table, which notebooks show."""
        core: List[Tuple[object, object]] = [("is_minimal", self.is_minimal)] if self.core is not None else []
        told: List[Tuple[object, object]] = [("core", literal) for literal in self.core or ()]
        told += [("constraint", name) for name in self.constraints or ()]
        return table([("status", self.status.name), *core, *first_rows(told)])


@dataclass(frozen=True)
class Fixed(_Named):
    """Which variables have one value in all assignments that were asked about: `Status.SATISFIABLE` where all is known,
    `Status.UNKNOWN` where the budget or the time limit cut it, and `Status.UNSATISFIABLE` where nothing is feasible."""

    status: Status
    statuses: Optional[bytes] = field(repr=False)
    names: Tuple[Optional[str], ...] = field(default=(), repr=False)
    owners: Tuple[Tuple[int, int], ...] = field(default=(), repr=False, compare=False)
    _kind, _compared = "an answer of fixed", "fixed.status is Status.UNSATISFIABLE"
    _instead = "fixed[x] for a literal, or fixed.named() for all by name"
    _where_no_name = "write fixed[x] with the literal x"

    def __getitem__(self, literal: Union[Literal, str]) -> Optional[bool]:
        """The value of a literal, or of the variable of a name, in all these assignments, and None where it has both.

        Raises LookupError where that is not known, or nothing is feasible, or the variable is none of the model's, and ForeignLiteral
        where it is one of another model."""
        number = self._number(literal)
        status = self._status(number)
        if status == 3:
            name = self._name_of(abs(number))
            raise LookupError(f"whether {name} is fixed is not known: the budget or the time limit cut the question, so give it more")
        return None if status == 2 else (status == 1) == (number > 0)

    def is_known(self, literal: Union[Literal, str]) -> bool:
        """Whether the value of a literal, or of the variable of a name, is known, or that it has both."""
        return self._status(self._number(literal)) != 3

    def named(self) -> Dict[str, Optional[bool]]:
        """What is known of the variables that have names, by name; nothing where nothing is feasible."""
        pairs = zip(self.names, self.statuses or b"")
        return {name: None if status == 2 else status == 1 for name, status in pairs if name is not None and status != 3}

    def _repr_html_(self) -> str:
        """The status and what is known of the first variables as a table, which notebooks show."""
        words = ("False", "True", "both", "not known")
        known = enumerate(self.statuses or b"", 1)
        values: List[Tuple[object, object]] = [(self._name_of(number), words[status]) for number, status in known]
        return table([("status", self.status.name), *first_rows(values)])

    def _number(self, literal: Union[Literal, str]) -> int:
        if isinstance(literal, str):
            return self._number_of(literal)
        given = as_literal(literal)
        self._check(given.owners)
        return given.number

    def _status(self, number: int) -> int:
        if self.statuses is None:
            raise LookupError("nothing is feasible")
        if abs(number) > len(self.statuses):
            raise LookupError(f"no variable {abs(number)} among {len(self.statuses)}")
        return self.statuses[abs(number) - 1]
