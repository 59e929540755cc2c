"""Literals, sums of them with coefficients, and constraints."""

from __future__ import annotations

import math
import sys
import threading
from array import array
from dataclasses import dataclass, field
from decimal import Decimal
from fractions import Fraction
from operator import index
from typing import TYPE_CHECKING, Any, Dict, Iterable, List, Mapping, NoReturn, Optional, Sequence, Tuple, Union

from . import hints
from .errors import FOREIGN, Error, ForeignLiteral
from .wholes import is_truth_value

MOST_VARIABLES = 1_048_576
GREATEST_SUM = 2**126 - 1

_refused = threading.local()
"""The exception that a constraint had in place of a truth value, or a sum that was compared by !=, since the last constraint was added.
Some versions of numpy ask so where arrays of sums are compared, and go on with a truth value of their own."""
Exact = Union[int, Fraction]
Number = Union[int, float, Fraction, Decimal]
Terms = Tuple[Tuple[Exact, int], ...]
Owners = Tuple[Tuple[int, int], ...]
"""Of each model whose variables occur: its own number, and the greatest number of a variable."""


class Owner(int):
    """The number of a model, and the names of its variables, by their numbers. Pickled it is the number alone."""

    names: Dict[int, str]

    def __new__(cls, number: int, names: Dict[int, str]) -> Owner:
        owner = super().__new__(cls, number)
        owner.names = names
        return owner

    def __reduce__(self) -> Tuple[Any, ...]:
        return int, (int(self),)

    def __deepcopy__(self, _: object) -> Owner:
        return self


class _NamedOwner(Owner):
    """An owner whose names are pickled with it."""

    def __reduce__(self) -> Tuple[Any, ...]:
        return Owner, (int(self), self.names)


def _for_pickle(terms: Terms, owners: Owners) -> Owners:
    """The owners, of whose names those of the terms' variables are pickled with them."""
    numbers = {abs(literal) for _, literal in terms}
    names = [{it: owner.names[it] for it in numbers & owner.names.keys()} if isinstance(owner, Owner) else {} for owner, _ in owners]
    return tuple((_NamedOwner(owner, kept), greatest) for kept, (owner, greatest) in zip(names, owners))


def exact(number: object) -> Exact:
    """The number, whole or as a fraction, with the value that it has: a float is what Python holds, and 0.1 is not 1/10."""
    if type(number) is int:
        return number
    if isinstance(number, Fraction):
        return tidy(number)
    if is_truth_value(number):
        raise TypeError(f"no number: {number!r}{_advice(number)}")
    try:
        return index(number)  # type: ignore[arg-type]
    except TypeError:
        pass
    if not hasattr(number, "as_integer_ratio"):
        raise TypeError(f"no number: {number!r}{_advice(number)}")
    try:
        return tidy(Fraction(*number.as_integer_ratio()))
    except (OverflowError, ValueError):
        raise Error("NotFinite", f"{number} is no finite number: leave out a bound that is infinite") from None


def _advice(value: object) -> str:
    """What to write in place of a value that is no number, behind a colon, where there is something to be told."""
    if isinstance(value, (Literal, Sum)):
        return ": a product is no sum: put a new variable in its place, with constraints that make it equal to the product"
    if isinstance(value, Constraint):
        return ": a constraint is no sum: `model.add` adds it, and `model.implies(z, constraint)` where a new variable z is true"
    if isinstance(value, str):
        return f": model[{value!r}] is the variable of that name"
    if isinstance(value, bytes) or value is None or isinstance(value, complex):
        return ""
    if hasattr(value, "__len__") and getattr(value, "shape", None) != ():
        return ": take one item after the other, as total(number * x for number, x in zip(numbers, variables))"
    if is_truth_value(value) or not hasattr(value, "item"):
        return ": write int(value) where it is a truth value" if hasattr(value, "__bool__") else ""
    return ": write value.item()"


def tidy(number: Exact) -> Exact:
    """The number, whole where its value is."""
    return number.numerator if number.denominator == 1 else number


def whole(terms: Terms, bound: Exact = 0) -> Tuple[int, list[int], int]:
    """The least factor by which the coefficients and the bound are whole; then coefficients and literals in turn, and the bound,
    multiplied by it. Raises Error where they are too large a sum."""
    factor = math.lcm(bound.denominator, *{coefficient.denominator for coefficient, _ in terms})
    numbers = [number for coefficient, literal in terms for number in (int(coefficient * factor), literal)]
    greatest = int(bound * factor)
    if sum(map(abs, numbers[::2]), abs(greatest)) > GREATEST_SUM:
        rounded = ", once all are whole: round them, as by Fraction(number).limit_denominator(1000)"
        advice = rounded if factor > 1 else ": take smaller units"
        raise Error("TooLarge", f"the numbers of a statement, without their signs, add up to at most 2**126 - 1{advice}")
    return factor, numbers, greatest


def compact(numbers: List[int], *others: int) -> Union[array[int], List[int]]:
    """The numbers in little space, where these and the others fit 64 bits."""
    fit = all(-(2**63) <= number < 2**63 for number in (*others, *numbers))
    return array("q", numbers) if fit else numbers


def _joined(one: Owners, other: Owners) -> Owners:
    if one == other or not other:
        return one
    if len(one) == len(other) == 1 and one[0][0] == other[0][0]:
        return max(one, other)  # of one model, as nearly always
    greatest = dict(one)
    for owner, number in other:
        greatest[owner] = max(number, greatest.get(owner, 0))
    return tuple(greatest.items())


def _spelled(literal: int, owners: Owners) -> str:
    """The name of a literal's variable, or x and its number where it has none, behind a ~ where it is negated."""
    number = abs(literal)
    known = (owner.names for owner, greatest in owners if isinstance(owner, Owner) and number <= greatest)
    name = next((names[number] for names in known if number in names), f"x{number}")
    return f"{'~' if literal < 0 else ''}{name}"


def _written(terms: Terms, constant: Exact, owners: Owners) -> str:
    """The sum as it is read, like `2 x - ~y + 1`."""
    parts = [(coefficient, f"{'' if abs(coefficient) == 1 else f'{abs(coefficient)} '}{_spelled(it, owners)}") for coefficient, it in terms]
    if constant or not terms:
        parts.append((constant, str(abs(constant))))
    text = "".join(f" {'-' if number < 0 else '+'} {part}" for number, part in parts)
    return f"-{text[3:]}" if text.startswith(" -") else text[3:]


def check_owners(owners: Owners, known: Mapping[int, int], hint: str = FOREIGN) -> None:
    """Raises ForeignLiteral with the hint unless each variable is of a model that is known, and up to the number that is known of it."""
    if any(number > known.get(owner, 0) for owner, number in owners):
        raise ForeignLiteral(hint)


class _Operand:
    """What literals and sums refuse, with what to write instead."""

    __slots__ = ()
    __array_ufunc__ = None  # so numpy leaves each operation with its numbers and arrays to these classes

    def __lt__(self, other: NoReturn) -> NoReturn:
        raise TypeError(
            "a sum is not compared by <: write <= and the greatest number allowed, as x + y <= 1 for x + y < 2; in place of min(x, y) of "
            "literals write a new variable z, with model.implies(z, x), model.implies(z, y) and model.clause([~x, ~y, z])"
        )

    def __gt__(self, other: NoReturn) -> NoReturn:
        raise TypeError(
            "a sum is not compared by >: write >= and the least number allowed, as x + y >= 2 for x + y > 1; in place of max(x, y) of "
            "literals write a new variable z, with model.implies(x, z), model.implies(y, z) and model.clause([x, y, ~z])"
        )

    def __ne__(self, other: object) -> NoReturn:
        raise _noted("a sum is not compared by !=: write x + y == 1 where two literals are to differ, and else <= or >=")

    def __and__(self, other: NoReturn) -> NoReturn:
        raise TypeError("literals are not joined by &: write model.add(x + y >= 2) where both are to be true")

    def __or__(self, other: NoReturn) -> NoReturn:
        raise TypeError("literals are not joined by |: write model.clause([x, y]) where one is to be true")

    def __xor__(self, other: NoReturn) -> NoReturn:
        raise TypeError("literals are not joined by ^: write model.add(x + y == 1) where exactly one is to be true")

    __rand__ = __and__
    __ror__ = __or__
    __rxor__ = __xor__

    def __rshift__(self, other: NoReturn) -> NoReturn:
        raise TypeError("literals are not joined by >>: write model.implies(x, y) where y is to be true if x is")

    def __floordiv__(self, other: NoReturn) -> NoReturn:
        raise TypeError(
            "a sum is not divided by //: write a sum q of new variables, with model.add(2 * q <= x + y) and "
            "model.add(x + y <= 2 * q + 1) for (x + y) // 2; x / 2 is half of x"
        )

    def __mod__(self, other: NoReturn) -> NoReturn:
        raise TypeError(
            "a sum is not divided by %: write new variables q and r, with model.add(x + y == 2 * q + r) for the remainder r of (x + y) % 2"
        )

    def __pow__(self, other: NoReturn) -> NoReturn:
        raise TypeError(
            "a power is no sum: write x for x ** 2 of a literal, and for a sum put a new variable in the place of each product of its "
            "literals, with constraints that make it equal to the product"
        )

    def __abs__(self) -> NoReturn:
        raise TypeError(
            "a sum has no absolute value: add x - y <= 1 and x - y >= -1 for abs(x - y) <= 1; to minimise it, minimise a sum z of new "
            "variables that can be as great as the value, with z >= x - y and z >= y - x"
        )

    def __rtruediv__(self, other: NoReturn) -> NoReturn:
        raise TypeError("a number is not divided by a sum: write x / 2 for half of x, and multiply a constraint by what divides in it")

    def __int__(self) -> NoReturn:
        raise TypeError("a literal or a sum has no value: an answer tells it, as answer[x], and answer.value(x + y)")

    def __format__(self, how: str) -> str:
        return format(str(self), how)

    __float__ = __int__
    __divmod__ = __rfloordiv__ = __floordiv__
    __rmod__ = __mod__
    __rpow__ = __pow__

    if not TYPE_CHECKING:  # which would then take each name for one of a sum

        def __getattr__(self, name: str) -> NoReturn:
            raise AttributeError(hints.of_sum(name))


@dataclass(frozen=True, eq=False)
class Literal(_Operand):
    """A variable, or its negation `~x`, which is worth 1 where the variable is False. It is written as its name, behind a ~ where it
    is negated. In a dict or a set it is found by itself: `model[name]` is always the same, and each `~x` is another.

    `model.variable` makes one. One that is made by its number alone is of every model."""

    number: int
    name: Optional[str] = None
    owner: Optional[int] = None

    def __post_init__(self) -> None:
        if not 1 <= abs(index(self.number)) <= MOST_VARIABLES:
            raise Error("BadVariable")

    @property
    def owners(self) -> Owners:
        """As those of a sum."""
        return () if self.owner is None else ((self.owner, abs(self.number)),)

    def __repr__(self) -> str:
        if self.name is None:
            return f"Literal(number={self.number!r})"
        return f"{'~' if self.number < 0 else ''}{self.name}"

    def __invert__(self) -> Literal:
        return Literal(-self.number, self.name, self.owner)

    def __mul__(self, coefficient: Number) -> Sum:
        return Sum(((exact(coefficient), self.number),), 0, self.owners)

    __rmul__ = __mul__

    def __truediv__(self, divisor: Number) -> Sum:
        return self * 1 / divisor

    def __neg__(self) -> Sum:
        return self * -1

    def __pos__(self) -> Sum:
        return self * 1

    def __add__(self, other: Expression) -> Sum:
        return self * 1 + other

    def __radd__(self, other: Number) -> Sum:
        return self * 1 + other

    def __sub__(self, other: Expression) -> Sum:
        return self * 1 - other

    def __rsub__(self, other: Number) -> Sum:
        return self * -1 + other

    def __ge__(self, bound: Expression) -> Constraint:
        return self * 1 >= bound

    def __le__(self, bound: Expression) -> Constraint:
        return self * 1 <= bound

    def __eq__(self, bound: object) -> Constraint:  # type: ignore[override]
        return self * 1 == bound

    __hash__ = object.__hash__

    def __bool__(self) -> bool:
        raise TypeError(
            "a literal has no truth value: an answer tells it, as answer[x]; to a model write ~x for `not x`, "
            "model.clause([x, y]) for `x or y`, and model.add(x + y >= 2) for `x and y`"
        )


class Sum(_Operand):
    """A sum of literals with coefficients, and a number. Each `+` makes a new one, and takes time by what it adds to the left side the
    first time, and by both sides when the left side is added to again."""

    __slots__ = ("_terms", "_gathered", "_count", "_free", "_constant", "_owners", "__weakref__")

    def __init__(self, terms: Terms = (), constant: Exact = 0, owners: Owners = ()) -> None:
        self._terms: Optional[Terms] = terms
        self._gathered: Sequence[Tuple[Exact, int]] = ()  # the first of these are the terms, where these are not there yet
        self._count = 0
        self._free: Optional[List[List[Tuple[Exact, int]]]] = None  # what was gathered, until a sum that goes on with it takes it
        self._constant = constant
        self._owners = owners

    @property
    def terms(self) -> Terms:
        """Coefficients, each with the number of a variable, negative where it is negated."""
        if self._terms is None:
            self._terms = tuple(self._gathered[: self._count])
        return self._terms

    @property
    def constant(self) -> Exact:
        """The number that is added to the terms."""
        return self._constant

    @property
    def owners(self) -> Owners:
        """The models of its variables."""
        return self._owners

    def __repr__(self) -> str:
        return _written(self.terms, self.constant, self.owners)

    def __reduce__(self) -> Tuple[Any, ...]:
        return type(self), (self.terms, self.constant, _for_pickle(self.terms, self.owners))

    def __copy__(self) -> Sum:
        return self

    def __deepcopy__(self, _: object) -> Sum:
        return self

    def __add__(self, other: Expression) -> Sum:
        added = as_sum(other)
        made = Sum((), tidy(self._constant + added._constant), _joined(self._owners, added._owners))
        more = added.terms
        gathered = self._to_go_on()
        gathered += more
        made._terms, made._gathered, made._count, made._free = None, gathered, len(gathered), [gathered]
        return made

    def _to_go_on(self) -> List[Tuple[Exact, int]]:
        """The terms in a list to which nobody else appends: the one that was gathered, which only the first who asks is given."""
        try:
            return self._free.pop() if self._free else [*self.terms]
        except IndexError:  # another thread was the first
            return [*self.terms]

    __radd__ = __add__

    def __mul__(self, factor: Number) -> Sum:
        by = exact(factor)
        return Sum(tuple((tidy(by * coefficient), literal) for coefficient, literal in self.terms), tidy(by * self.constant), self.owners)

    __rmul__ = __mul__

    def __invert__(self) -> NoReturn:
        raise TypeError("a sum is not negated by ~: write -sum for its negative, and ~x for each of its literals")

    def __truediv__(self, divisor: Number) -> Sum:
        if isinstance(divisor, (Literal, Sum)):
            raise TypeError("a sum is not divided by another: multiply the constraint by what divides in it, as x >= 2 * y for x / y >= 2")
        return self * (1 / Fraction(exact(divisor)))

    def __neg__(self) -> Sum:
        return self * -1

    def __pos__(self) -> Sum:
        return self

    def __sub__(self, other: Expression) -> Sum:
        return self + as_sum(other) * -1

    def __rsub__(self, other: Number) -> Sum:
        return self * -1 + other

    def _stands(self, relation: str, other: object) -> Constraint:
        left = self - as_sum(other)
        return Constraint(left.terms, relation, -left.constant, left.owners)

    def __ge__(self, other: Expression) -> Constraint:
        return self._stands(">=", other)

    def __le__(self, other: Expression) -> Constraint:
        return self._stands("<=", other)

    def __eq__(self, other: object) -> Constraint:  # type: ignore[override]
        return self._stands("==", other)

    __hash__ = object.__hash__

    def __bool__(self) -> bool:
        raise TypeError("a sum has no truth value: compare it, as x + y >= 1; an answer tells its value, as answer.value(x + y)")


Expression = Union[Literal, Sum, Number]
"""What a sum may be made of."""


def as_sum(value: object) -> Sum:
    """The sum that this is, of a literal or a number too."""
    if isinstance(value, Sum):
        return value
    if isinstance(value, Literal):
        return value * 1
    try:
        return Sum(constant=exact(value))
    except TypeError:
        raise TypeError(f"no sum of literals: {value!r}{_advice(value)}") from None


def as_literal(value: object) -> Literal:
    """The literal that this is."""
    if isinstance(value, Literal):
        return value
    raise TypeError(f"no literal: {value!r}: write a variable of the model, as model.variable() makes one or model[name] is one, or its ~")


def total(parts: Iterable[Expression], *more: NoReturn) -> Sum:
    """The sum of all parts. It is what `sum` gives, but of none a `Sum` too."""
    if more or not isinstance(parts, Iterable):
        raise TypeError(
            "the parts of a sum stand in one list, as in total([x, 2 * y]), and with a list of numbers they are multiplied before, as in "
            "total(number * x for number, x in zip(numbers, variables))"
        )
    if isinstance(parts, Mapping):
        raise TypeError("a dict is no list of parts: write total(number * x for x, number in numbers.items())")
    sums = [as_sum(part) for part in parts]
    owners: Owners = ()
    for each in sums:
        owners = _joined(owners, each.owners)
    terms = tuple(term for each in sums for term in each.terms)
    return Sum(terms, tidy(sum(each.constant for each in sums)), owners)


class Sameness(int):
    """Whether two constraints are the same, as 1 or 0. It is no constraint."""

    def __repr__(self) -> str:
        return repr(bool(self))


@dataclass(frozen=True, eq=False)
class Constraint:
    """A sum of literals that is at least, at most or exactly a number."""

    terms: Terms
    relation: str
    bound: Exact
    owners: Owners = field(default=(), compare=False)

    def __repr__(self) -> str:
        return f"{_written(self.terms, 0, self.owners)} {self.relation} {self.bound}"

    def __reduce__(self) -> Tuple[Any, ...]:
        return type(self), (self.terms, self.relation, self.bound, _for_pickle(self.terms, self.owners))

    def __copy__(self) -> Constraint:
        return self

    def __deepcopy__(self, _: object) -> Constraint:
        return self

    def __bool__(self) -> bool:
        raise _noted(
            "a constraint has no truth value: add it to a model, and 1 <= x + y <= 2 as two, or x == y == z; whether two literals are one "
            "is told by x.number == y.number, and `x in literals` by x.number in {it.number for it in literals}; an array of numpy is compared "
            "item by item in a loop, or as its .sum()"
        )


    def __eq__(self, other: object) -> Sameness:  # type: ignore[override]
        return Sameness(isinstance(other, Constraint) and self._parts() == other._parts())

    def __ne__(self, other: object) -> Sameness:  # type: ignore[override]
        return Sameness(not self == other)

    def __hash__(self) -> int:
        return hash(self._parts())

    def _parts(self) -> Tuple[Terms, str, Exact]:
        """What two constraints that are the same have in common."""
        return self.terms, self.relation, self.bound

    def __add__(self, other: NoReturn) -> NoReturn:
        raise TypeError(f"no number: {self!r}{_advice(self)}")

    __radd__ = __sub__ = __rsub__ = __mul__ = __rmul__ = __add__

    def __and__(self, other: NoReturn) -> NoReturn:
        raise TypeError("constraints are not joined by &: add each by itself; x + y >= 2 stands for `x and y`")

    def __or__(self, other: NoReturn) -> NoReturn:
        raise TypeError(
            "constraints are not joined by |: write new variables z and w, with model.implies(z, one), model.implies(w, other) and "
            "model.clause([z, w])"
        )

    def __invert__(self) -> NoReturn:
        raise TypeError("a constraint is not negated by ~: write the opposite, as x + y <= 1 for ~(x + y >= 2)")

    def __rshift__(self, other: NoReturn) -> NoReturn:
        raise TypeError("constraints are not joined by >>: write model.implies(z, constraint) where it is to hold if a literal z is true")

    __rand__ = __and__
    __ror__ = __or__


def _noted(told: str) -> TypeError:
    """The exception that tells this, which is kept where numpy may pass it over."""
    fault = TypeError(told)
    if "numpy" in sys.modules:
        _refused.fault = fault
    return fault


def _was_passed_over(fault: Optional[TypeError]) -> bool:
    """Whether no caller in Python has seen the exception, so that nothing but the frame which raised it is in its traceback."""
    return fault is not None and (fault.__traceback__ is None or fault.__traceback__.tb_next is None)


def as_constraint(value: object) -> Constraint:
    """The constraint that this is. What Python itself compared holds always or never."""
    was_refused = _was_passed_over(vars(_refused).pop("fault", None))
    if isinstance(value, Sameness):
        raise TypeError(
            "constraints are not made equal by == or !=: where both are to hold or neither write a new variable z, with "
            "model.implies(z, constraint) for each, and model.implies(~z, opposite) for each"
        )
    if isinstance(value, bool) and was_refused:
        raise TypeError(
            f"no constraint: {value!r}, which came of a comparison that asked constraints for their truth values: an array of numpy is "
            "compared item by item in a loop, or as its .sum()"
        )
    if isinstance(value, bool):
        return Constraint((), ">=", 0 if value else 1)
    if isinstance(value, Constraint):
        return value
    if isinstance(value, (Literal, Sum)):
        raise TypeError(f"no constraint: {value!r}: compare it, as {value!r} >= 1")
    if isinstance(value, str):
        raise TypeError(f"no constraint: {value!r}: write it with variables, as x + y >= 1; Model.read reads a text")
    if isinstance(value, (list, tuple, set)) or hasattr(value, "__next__") or hasattr(value, "__len__"):
        raise TypeError(f"no constraint: {value!r}: add each by itself, as in for rule in rules: model.add(rule)")
    is_truth = hasattr(value, "__bool__") and not (value is None or isinstance(value, (int, float, complex)))
    raise TypeError(f"no constraint: {value!r}{': write bool(value) where it is a truth value' if is_truth else ''}")


def lower_bounds(constraint: Constraint) -> list[Constraint]:
    """The constraint as sums that are at least a number."""
    negated = tuple((-coefficient, literal) for coefficient, literal in constraint.terms)
    turned = Constraint(negated, ">=", -constraint.bound, constraint.owners)
    kept = Constraint(constraint.terms, ">=", constraint.bound, constraint.owners)
    return {">=": [kept], "<=": [turned], "==": [kept, turned]}[constraint.relation]
