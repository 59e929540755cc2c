"""Models, which are told rule by rule, and texts."""

from __future__ import annotations

import inspect
import os
import threading
from array import array
from dataclasses import dataclass
from fractions import Fraction
from operator import index
from typing import TYPE_CHECKING, Any, Callable, Dict, FrozenSet, Iterable, List, Mapping, NoReturn, Optional, Sequence
from typing import Tuple, Union

from . import conflicts, hints, searches, starts, texts
from .answers import Answer, Explanation, Fixed, Names, Status
from .errors import Error, Refused, format_of, refused
from .jobs import Job, Question, Reply, Statement
from .library import AMONG, CUT, FORMATS, NOTHING, RELATIONS
from .programs import Workers
from .sums import MOST_VARIABLES, Constraint, Exact, Expression, Literal, Owner, Sum, total
from .sums import as_constraint, as_literal, as_sum, check_owners, compact, lower_bounds, tidy, whole
from .tables import table
from .wholes import is_truth_value, is_whole

_MOST_CONSTRAINTS = 4_194_304
_MOST_TERMS = 16_777_216
_MOST_FOUND = 100  # replies that a model keeps
_FOREIGN_START = "the answer is one of another model: write start=answer.values where that has as many variables, in the same order"
_WIDE = "the numbers of a model are below 2**63 where it is asked for more than an answer: take smaller units"


@dataclass(frozen=True)
class _Objective:
    """What is made least: the sum times the factor, whose sign is turned where the sum is to be greatest."""

    statement: Statement
    terms: int
    factor: int
    constant: Exact

    def cost(self, found: int) -> Exact:
        """The value of the sum where the search found this cost."""
        return tidy(Fraction(found, self.factor) + self.constant)


class Model:
    """Constraints over variables, and an objective. Coefficients and bounds may be fractions and floats, which are taken exactly.
    A pickle of it makes a copy, as `copy` does.

    `cubes` are those of the text in iCNF that it was read from, each as its literals, and else none. They divide the work of other
    programs, and no answer here depends on them."""

    cubes: Tuple[Tuple[Literal, ...], ...] = ()

    def __init__(self, *given: NoReturn) -> None:
        if given:
            raise TypeError("a model is made without a text: Model.read(path) reads a file or a text, and pbcube.solve(text) solves one")
        self._lock = threading.Lock()
        self._inherited: Dict[int, int] = {}  # owners and greatest numbers of variables that were copied with their model
        self._variables = 0
        self._names: Dict[str, int] = {}
        self._name_literals({})
        self._statements: List[Statement] = []
        self._rule_names: Dict[int, str] = {}  # by their places among the statements
        self._terms = 0
        self._objective: Optional[_Objective] = None
        self._has_wide_rules = False  # with numbers that do not fit 64 bits
        self._kept = searches.Kept()
        self._found: Dict[FrozenSet[int], Reply] = {}  # the best ones by what they assume, until something is stated

    def __setattr__(self, name: str, value: object) -> None:
        """Refuses what would be a call in place of a value, as `model.minimise = x` does, and what would do nothing, as
        `model.time_limit = 10` does."""
        if not name.startswith("_") and callable(getattr(type(self), name, None)):
            raise AttributeError(f"{name} is a call of a model, and takes no value: write model.{name}(..)")
        is_own = name.startswith("_") or hasattr(type(self), name) or type(self) is not Model  # a subclass has what it sets
        if hints.is_of_other(name) or not is_own:
            raise AttributeError(hints.of_value(name, dir(type(self))))
        super().__setattr__(name, value)

    if not TYPE_CHECKING:  # which would then take each name for one of a model

        def __getattr__(self, name: str) -> NoReturn:
            is_variable = name in self.__dict__.get("_names", ())
            has = hints.of_model(name, dir(type(self)))
            raise AttributeError(f"a model has no {name!r}: write model[{name!r}]" if is_variable else has)

    def copy(self) -> Model:
        """A model of the same variables and rules, which takes more without this one. The literals that this one has are literals of
        both."""
        copied = Model.__new__(Model)
        copied.__setstate__(self.__getstate__())
        return copied

    __copy__ = copy

    def __getstate__(self) -> Dict[str, Any]:
        """What a copy has of this model."""
        with self._lock:
            return {
                "_inherited": {int(owner): number for owner, number in self._known().items()},
                "cubes": self.cubes,
                "_variables": self._variables,
                "_names": dict(self._names),
                "_statements": list(self._statements),
                "_rule_names": dict(self._rule_names),
                "_terms": self._terms,
                "_objective": self._objective,
                "_has_wide_rules": self._has_wide_rules,
            }

    def __setstate__(self, state: Dict[str, Any]) -> None:
        self.__init__()  # type: ignore[misc]
        self.__dict__.update(state)
        self._name_literals({number: name for name, number in self._names.items()})

    def _name_literals(self, names: Dict[int, str]) -> None:
        """Gives this model a number of its own, by which its literals are known, and the names by which they are written."""
        self._owner = Owner(int.from_bytes(os.urandom(8), "little"), names)  # known again also in another process
        self._literals: Dict[str, Literal] = {}
        self._ordered = Names()

    def __deepcopy__(self, _: object) -> Model:
        return self.copy()

    def __repr__(self) -> str:
        sizes = ", ".join(f"{number} {what}" for what, number in self._sizes())
        return f"<Model: {sizes}, {'an' if self._objective else 'no'} objective>"

    def _repr_html_(self) -> str:
        """The sizes of the model as a table, which notebooks show."""
        return table([*self._sizes(), ("objective", "yes" if self._objective else "no")])

    def _sizes(self) -> List[Tuple[str, int]]:
        """How many variables, constraints and terms there are, with those of the objective."""
        with self._lock:
            terms = self._terms + (self._objective.terms if self._objective else 0)
            return [("variables", self._variables), ("constraints", len(self._statements)), ("terms", terms)]

    @classmethod
    def read(cls, path_or_text: Union[str, bytes, os.PathLike[str]], format: str = "opb") -> Model:
        """The model that a file or a text spells, in the format 'opb', 'cnf' or 'icnf', with variables that are named x1, x2 and so on.

        Bytes are a text, and so is a str that has a ';' or a line break, is blank, or begins with 'p ', 'c ' or '* '; any other str
        names a file. Raises Refused, with the fault's name, its line and what may help, where the text is not of the format, and
        OSError where the file cannot be read.

            >>> model = Model.read("min: 2 x1 3 x2 ;\\n1 x1 1 x2 >= 1 ;\\n")
            >>> model.add(model["x2"] >= 1)
            >>> print(model.text(), end="")
            * #variable= 2 #constraint= 2
            min: 2 x1 3 x2 ;
            1 x1 1 x2 >= 1 ;
            1 x2 >= 1 ;
        """
        _check_format(format)
        text = texts.bytes_of(path_or_text)
        model, line = cls(), 1
        reader, cubes = texts.Reader(text, format, _MOST_CONSTRAINTS), texts.Cubes(_MOST_TERMS)
        try:
            for line, statement in reader.statements():
                if statement[0] == "cube":
                    cubes.append(statement[2])
                else:
                    model._tell_read(statement)
        except Error as fault:
            at = fault.line if isinstance(fault, Refused) else line
            raise refused(fault.name, at, text, format, "Model.read") from None
        variables = model.variables(f"x{number}" for number in range(1, reader.variables + 1))
        model.cubes = tuple(tuple(variables[it - 1] if it > 0 else ~variables[-it - 1] for it in cube) for cube in cubes.read)
        return model

    def _tell_read(self, statement: Statement) -> None:
        kind, _, numbers = statement
        terms = len(numbers) if kind == "or" else len(numbers) // 2
        if kind == "min":
            self._set_objective(_Objective(statement, terms, 1, 0))
        else:
            self._tell(statement, terms)

    def text(self, *formats: NoReturn) -> str:
        """The model as a text in OPB, whose variables are numbered from x1 on in the order in which they were made. An objective that is
        to be greatest is negated, and has no constant; numbers that are not whole are multiplied until they are. Cubes are left out."""
        if formats:
            raise TypeError("a model is written as OPB alone: write model.text()")
        with self._lock:
            objective = [self._objective.statement] if self._objective else []
            variables, statements = self._variables, [*objective, *self._statements]
        return texts.opb(variables, statements)

    def write(self, path: Union[str, os.PathLike[str]]) -> None:
        """Writes `text` to a file. Raises OSError where it cannot be written, and ValueError where its name is one of another format."""
        if not isinstance(path, (str, bytes, os.PathLike)):
            raise TypeError(f"no path: {path!r}: write model.write('a.opb'), or take model.text(), which is what it writes")
        ending = os.path.splitext(os.fsdecode(path))[1][1:].lower()
        if ending in hints.IN_OTHER_FORMATS:
            raise ValueError(f"a model is written as OPB, and not as {ending}: write model.write('a.opb')")
        text = self.text().encode("ascii")
        with open(path, "wb") as file:
            file.write(text)

    def _known(self) -> Dict[int, int]:
        return {**self._inherited, self._owner: self._variables}

    def variable(self, name: Optional[str] = None) -> Literal:
        """A new variable, with a name where one is given."""
        return self.variables(1 if name is None else [name])[0]

    def variables(self, count: Union[int, str, Iterable[str]], *more: NoReturn) -> List[Literal]:
        """New variables: `count` of them, or one of each name, which may also be the words of one text, as "x y"."""
        if more:
            raise TypeError("one number of variables is given, as variables(3), or names, as variables('x y z') or variables(['x', 'y'])")
        names = _names_of(count)
        with self._lock:
            self._check_names(names)
            if self._variables + len(names) > MOST_VARIABLES:
                raise Error("BadVariable")
            made = [Literal(number, name, self._owner) for number, name in enumerate(names, self._variables + 1)]
            self._variables += len(made)
            named = {literal.name: literal for literal in made if literal.name is not None}
            self._names.update((name, literal.number) for name, literal in named.items())
            self._literals.update(named)
            self._owner.names.update((literal.number, name) for name, literal in named.items())
        return made

    def _check_names(self, names: List[Optional[str]]) -> None:
        given = [name for name in names if name is not None]
        for name in given:
            if not isinstance(name, str):
                raise TypeError(f"no name: {name!r}: a name is a text, as in variable('x'), or variables(f'x{{i}}' for i in range(3))")
        if len({*given, *self._names}) < len(given) + len(self._names):
            taken = next(name for at, name in enumerate(given) if name in self._names or name in given[:at])
            if taken not in self._names:
                raise Error("NameTaken", f"{taken!r} is among these names twice, so no variable was made: give each a name of its own")
            raise Error("NameTaken", f"a variable is named {taken!r} already: model[{taken!r}] is its literal")

    def __getitem__(self, name: str) -> Literal:
        """The variable of that name, the same object each time. Raises KeyError where there is none."""
        literal = self._literals.get(name)
        if literal is None and name not in self._names:
            raise KeyError(f"no variable is named {name!r}: {self._instead_of(name)}")
        return self._literals.setdefault(name, Literal(self._names[name], name, self._owner)) if literal is None else literal

    def _instead_of(self, name: object) -> str:
        """What to write where no variable has this name."""
        if not isinstance(name, str):
            return "a name is a text, as in model['x']"
        if isinstance(name, str) and name[:1] == "x" and name[1:] in map(str, range(1, self._variables + 1)):
            return f"one without a name is printed as {name}, so keep what makes it, as in x, y = model.variables(2)"
        return "model.variable('x') makes the one that model['x'] is"

    def __contains__(self, name: str) -> bool:
        """Whether one of its variables has that name."""
        if not isinstance(name, str):
            raise TypeError(f"a model is asked for a name, and not for {name!r}: write 'x' in model")
        return name in self._names

    def __iter__(self) -> NoReturn:
        raise TypeError("a model is no list of its variables: keep what makes them, as in xs = model.variables(3), and write for x in xs")

    def minimise(self, cost: Expression, *more: NoReturn) -> None:
        """Makes the sum what is to be least, in place of an earlier objective."""
        _check_one_sum(more, "minimise")
        self._aim(as_sum(cost), 1)

    def maximise(self, gain: Expression, *more: NoReturn) -> None:
        """Makes the sum what is to be greatest, in place of an earlier objective. The answer's cost is its value."""
        _check_one_sum(more, "maximise")
        self._aim(as_sum(gain), -1)

    def _aim(self, aim: Sum, sign: int) -> None:
        check_owners(aim.owners, self._known())
        factor, numbers, _ = whole((aim * sign).terms)
        self._set_objective(_Objective(("min", 0, compact(numbers)), len(aim.terms), factor * sign, aim.constant))

    def _set_objective(self, objective: _Objective) -> None:
        with self._lock:
            self._check_room(objective.terms)
            self._objective = objective
            self._found = {}

    def add(self, constraint: Union[Constraint, bool], *more: NoReturn, name: Optional[str] = None) -> None:
        """Adds a constraint, as `2 * x + 3 * ~y >= 2`. Raises Error, and adds nothing, where it is refused. By its name `explain` tells
        whether it is one of those that cannot hold together; constraints of one name are told of as one. What Python itself compared,
        as a `sum` of nothing is, holds always or never:

            >>> model = Model()
            >>> model.add(sum([]) == 1)
            >>> model.solve().status
            Status.UNSATISFIABLE
        """
        if more:
            raise TypeError("one constraint is added at a time, and its name stands behind name=: write add(constraint, name='budget')")
        rule = as_constraint(constraint)
        check_owners(rule.owners, self._known())
        if rule.relation not in RELATIONS:
            raise ValueError(f"no relation: {rule.relation!r}: write '>=', '<=' or '=='")
        _, numbers, bound = whole(rule.terms, rule.bound)
        self._tell((rule.relation, bound, compact(numbers, bound)), len(rule.terms), name)

    def clause(self, literals: Iterable[Literal], *more: NoReturn, name: Optional[str] = None) -> None:
        """Adds that at least one of the literals is true."""
        _check_alone(more, "clause([x, y])")
        given = self._own(literals)
        self._tell(("or", 0, array("i", (literal.number for literal in given))), len(given), name)

    def implies(
        self, condition: Literal, consequence: Union[Literal, Constraint, bool], *more: NoReturn, name: Optional[str] = None
    ) -> None:
        """Adds that where the condition is true, so is the literal or the constraint.

            >>> model = Model()
            >>> x, y, z = model.variables(3)
            >>> model.implies(~x, y + z >= 2)
            >>> model.solve().values
            (False, True, True)
        """
        if more:
            raise TypeError("a condition has one consequence, and the name of a constraint stands behind name=: implies(x, y, name='rule')")
        if isinstance(condition, (list, tuple, set, Sum, Constraint)):
            raise TypeError(
                f"a condition is one literal, and not {condition!r}: write model.clause([~x, ~y, z]) where z is to be true if x and y "
                "are, and model.implies(~z, opposite) where z is to be true if a constraint holds"
            )
        if isinstance(consequence, (list, tuple, set)):
            raise TypeError(f"no literal: {consequence!r}: write each by itself, as in for y in literals: model.implies(x, y)")
        [given] = self._own([condition])
        if isinstance(consequence, Literal):
            return self.clause([~given, consequence], name=name)
        for rule in lower_bounds(as_constraint(consequence)):
            missing = rule.bound - sum(min(coefficient, 0) for coefficient, _ in rule.terms)
            self.add(Sum(rule.terms, 0, rule.owners) + max(missing, 0) * ~given >= rule.bound, name=name)

    def at_least(self, count: int, literals: Iterable[Literal], *more: NoReturn, name: Optional[str] = None) -> None:
        """Adds that at least `count` of the literals are true."""
        number = _number_of_literals(count, "at_least", more)
        self.add(total(self._own(literals)) >= number, name=name)

    def at_most(self, count: int, literals: Iterable[Literal], *more: NoReturn, name: Optional[str] = None) -> None:
        """Adds that at most `count` of the literals are true."""
        number = _number_of_literals(count, "at_most", more)
        self.add(total(self._own(literals)) <= number, name=name)

    def exactly(self, count: int, literals: Iterable[Literal], *more: NoReturn, name: Optional[str] = None) -> None:
        """Adds that exactly `count` of the literals are true."""
        number = _number_of_literals(count, "exactly", more)
        self.add(total(self._own(literals)) == number, name=name)

    def _own(self, literals: Iterable[Literal]) -> List[Literal]:
        if isinstance(literals, Literal):
            raise TypeError(f"literals stand in a list, as [{literals!r}]")
        if isinstance(literals, str):
            raise TypeError(f"no literals: {literals!r}: they stand in a list, as [model['x']]")
        if isinstance(literals, Mapping):
            raise TypeError("literals stand in a list, as [x, ~y], and have no values: ~ negates")
        if not isinstance(literals, Iterable):
            raise TypeError(f"no literals: {literals!r}: they stand in a list, as [x, ~y]")
        given = [as_literal(literal) for literal in literals]
        known = self._known()
        for literal in given:
            check_owners(literal.owners, known)
        return given

    def _check_room(self, terms: int, constraints: int = 0) -> None:
        if self._terms + terms > _MOST_TERMS or len(self._statements) + constraints > _MOST_CONSTRAINTS:
            raise Error("TooMany")

    def _tell(self, statement: Statement, terms: int, name: Optional[str] = None) -> None:
        if not (name is None or isinstance(name, str)):
            raise TypeError(f"no name of a constraint: {name!r}")
        with self._lock:
            self._check_room(terms + (self._objective.terms if self._objective else 0), 1)
            if name is not None:
                self._rule_names[len(self._statements)] = name
            self._statements.append(statement)
            self._has_wide_rules |= isinstance(statement[2], list)
            self._terms += terms
            self._found = {}  # another one, since questions that are being asked note their replies in that before

    def solve(
        self,
        nodes: Optional[int] = None,
        *,
        assuming: Iterable[Literal] = (),
        start: Union[Answer, Mapping[Union[Literal, str], bool], Sequence[bool], None] = None,
        time_limit: Optional[float] = None,
        on_better: Optional[OnBetter] = None,
        workers: Optional[int] = None,
        split: Optional[int] = None,
        **others: NoReturn,
    ) -> Answer:
        """Searches for the least assignment in which the literals of `assuming` are true, with at most `nodes` decisions and for at
        most `time_limit` seconds where they are given.

        With a time limit one search comes after another: of 200 decisions, then of 400, and so on up to `nodes`, the last ones of
        as many as the time left is likely to allow. Each begins with the best answer so far, and where the time is up that is the
        answer, as `Status.FOUND`, or `Status.UNKNOWN` where there is none. `on_better` has them come so too, without a time limit. It
        is called with the first answer that is found, and with each later one that costs less than those before; what it raises ends
        the search.

        Until something is stated, no answer is worse than an earlier one that assumed the same: where no start is given, the earlier
        one is the start, and where it was whole it is the answer. For this the last 100 answers that assume different literals are kept.

        A start is an answer of this model, of which one that found nothing is none, values of literals or names, all others being False, or
        one value for each variable in order.
        Searches try these values first, until there is another start or a better answer; only an answer that is cut depends on them.
        One that keeps to all constraints and to `assuming` is an answer itself, so that none which is cut is worse.
        Raises ValueError where it has not as many values as there are variables, or one that is neither True nor False.

        With `workers`, 1 to 64, or `split`, 0 to 12, the program pbcube solves the model's text, by as many threads and divided by as many
        variables; a whole search gives the same answer. Several workers need a split, so give both, as `workers=4, split=8`. The program
        takes no start, and `nodes` is for each piece. With a time limit one worker first searches the whole for an eighth of it or some
        more, and until it finds something, since the first run on many pieces may take longer than the limit. Raises FileNotFoundError
        where the program is not there.

            >>> model = Model()
            >>> x, y = model.variables(2)
            >>> model.minimise(3 * x + 2 * y)
            >>> model.add(x + y >= 1)
            >>> model.solve(assuming=[~y]).cost, model.solve().cost
            (3, 2)
            >>> model.add(x + y >= 2)
            >>> model.solve(start={x: True, y: True}).cost
            5
        """
        if not isinstance(self, Model):
            raise TypeError(f"Model.solve is asked of a model, and not of {self!r}: Model.read(path).solve() solves a file")
        _check_words(others, Model.solve)
        given = self._own(assuming)
        first = None if start is None else self._values_of(start)
        asked, program = self._asked("solve", given, first, 0), Workers.of(workers, split)
        limits = searches.Limits.of(nodes, time_limit, told_by(on_better, asked.answer), asked.known)
        if program is None:
            reply = self._ask(asked, limits)
            return self._noted(asked, reply if first is None else searches.best_of(asked.begun(first, reply), reply))
        if first is not None:
            raise ValueError("the program takes no start: leave out either start, or workers and split")
        if program.split > asked.variables:
            raise ValueError(f"split is no more than the number of variables, {asked.variables}, and not {program.split}")
        return self._noted(asked, _checked(searches.run_program(asked.text(), program, limits)))

    def explain(
        self,
        assuming: Optional[Iterable[Literal]] = None,
        nodes: Optional[int] = None,
        *,
        time_limit: Optional[float] = None,
        **others: NoReturn,
    ) -> Explanation:
        """Tells why nothing is feasible: of the constraints that have names, the names of some that cannot hold together, with those
        that have none. Where literals are assumed, it tells some of them under which nothing is feasible, and leaves no constraint out.
        Each name or literal is left out in turn where the others are enough. It makes at most `nodes` decisions and takes at most
        `time_limit` seconds where they are given.

            >>> model = Model()
            >>> desk, lamp, chair = model.variables("desk lamp chair")
            >>> model.add(300 * desk + 40 * lamp + 90 * chair <= 350, name="budget")
            >>> model.at_least(1, [lamp, chair], name="comfort")
            >>> model.clause([desk], name="a place to work")
            >>> model.implies(desk, chair, name="a seat at the desk")
            >>> model.explain().constraints
            ('budget', 'a place to work', 'a seat at the desk')
            >>> model = Model()
            >>> cheap, light, strong = model.variables("cheap light strong")
            >>> model.at_most(1, [cheap, strong])
            >>> why = model.explain([cheap, light, strong])
            >>> why.status, [literal.name for literal in why.core], why.is_minimal
            (Status.UNSATISFIABLE, ['cheap', 'strong'], True)
        """
        _check_words(others, Model.explain)
        limits = searches.Limits.of(nodes, time_limit)
        if assuming is None:
            return self._conflict(limits)
        given = self._own(assuming)
        status, _, core, _ = self._ask(self._asked("explain", given, None, 0), limits)
        if core is None:
            return Explanation(Status(status))
        by_number = {literal.number: literal for literal in given}
        literals = tuple(by_number[number] for number in array("i", core))
        return Explanation(Status.UNSATISFIABLE, literals, is_minimal=status == Status.UNSATISFIABLE.value)

    def _conflict(self, limits: searches.Limits) -> Explanation:
        """Some of the constraints that have names, which cannot hold together with the others."""
        with self._lock:
            rules, names = conflicts.selectable(self._statements, self._rule_names, self._variables)
            terms = self._terms + 2 * len(names)
        if not names:
            raise ValueError("no constraint has a name: write add(constraint, name='budget'), or explain([x, y]) to ask under literals")
        if max(names) > MOST_VARIABLES:
            raise Error("BadVariable", f"each name of a constraint takes a variable, of which there are at most {MOST_VARIABLES}")
        if any(isinstance(numbers, list) for _, _, numbers in rules):
            raise Error("TooLarge", _WIDE)
        question: Question = ("explain", array("i", names).tobytes(), None, max(names))
        status, _, core, _ = _checked(searches.Kept(False).ask(searches.Statements(rules, len(rules), None, terms), question, limits))
        if core is None:
            return Explanation(Status(status))
        told = sorted(array("i", core))
        is_minimal = status == Status.UNSATISFIABLE.value
        return Explanation(Status.UNSATISFIABLE, (), is_minimal, tuple(names[number] for number in told))

    def fixed(
        self,
        assuming: Iterable[Literal] = (),
        among: str = "feasible",
        nodes: Optional[int] = None,
        *,
        time_limit: Optional[float] = None,
        **others: NoReturn,
    ) -> Fixed:
        """Tells which variables have one value in all assignments in which the literals of `assuming` are true: among those that are
        'feasible', or those of them of the 'least' cost.

            >>> model = Model()
            >>> x, y, z = model.variables("x y z")
            >>> model.minimise(2 * x + y + z)
            >>> model.add(x + y + z >= 2)
            >>> model.fixed([~x]).named()
            {'x': False, 'y': True, 'z': True}
            >>> model.fixed()[x] is None, model.fixed(among="least")[x]
            (True, False)
        """
        _check_words(others, Model.fixed)
        if isinstance(assuming, str) and assuming in AMONG:
            raise TypeError(f"no literals: {assuming!r}: write fixed(among={assuming!r})")
        if not isinstance(among, str) or among not in AMONG:
            raise ValueError(f"nothing to be asked about: {among!r}: write 'feasible' or 'least'")
        asked = self._asked("fixed", self._own(assuming), AMONG[among], self._variables)
        status, _, statuses, _ = self._ask(asked, searches.Limits.of(nodes, time_limit))
        if status == Status.UNSATISFIABLE.value:
            return Fixed(Status.UNSATISFIABLE, None, asked.names, asked.owners)
        return Fixed(Status(status), statuses or b"\3" * asked.variables, asked.names, asked.owners)

    def _values_of(self, start: Union[Answer, Mapping[Union[Literal, str], bool], Sequence[bool]]) -> Optional[bytes]:
        """The values to be tried first, as bytes 0 and 1. An answer that found nothing has none."""
        if isinstance(start, Answer):
            if start.values is None:
                return None
            if start.owners is None:  # of a text
                return _values_in_order(start.values, self._variables)
            check_owners(start.owners, self._known(), _FOREIGN_START)
            return bytes(start.values)
        values = bytearray(self._variables)
        if not isinstance(start, Mapping) and not hasattr(start, "items"):
            return _values_in_order(start, len(values))
        for key, value in start.items():
            [literal] = self._own([self[key] if isinstance(key, str) else key])
            if abs(literal.number) > len(values):
                raise LookupError(f"no variable {abs(literal.number)} among {len(values)}")
            values[abs(literal.number) - 1] = _truth(value) == (literal.number > 0)
        return bytes(values)

    def _asked(self, kind: str, literals: List[Literal], other: object, variables: int) -> _Asked:
        """The question, and what the model is now."""
        numbers = array("i", (literal.number for literal in literals))
        assumed = frozenset(numbers)
        with self._lock:
            objective = self._objective
            aim, terms = (objective.statement, objective.terms + self._terms) if objective else (None, self._terms)
            statements = searches.Statements(self._statements, len(self._statements), aim, terms)
            owners = tuple(self._known().items())
            is_wide = self._has_wide_rules or (aim is not None and isinstance(aim[2], list))
            known = self._found.get(assumed, NOTHING) if kind == "solve" else NOTHING
            begun = known[2] if other is None else other
            question: Question = (kind, numbers.tobytes(), begun, max((variables, *map(abs, numbers))))
            named = self._all_names()
            return _Asked(question, statements, is_wide, self._variables, named, owners, objective, known, self._found, assumed)

    def _ask(self, asked: _Asked, limits: searches.Limits) -> Reply:
        """Asks the searches that are kept, or others where these answer another thread."""
        with self._lock:
            kept, self._kept = self._kept, searches.Kept()
        try:
            told = searches.search(asked.text(), limits) if asked.is_wide else kept.ask(asked.statements, asked.question, limits)
        finally:
            self._kept = kept
        return _checked(told)

    def _noted(self, asked: _Asked, reply: Reply) -> Answer:
        """The answer, which is kept for later questions that assume the same where nothing better is known."""
        with self._lock:
            best = searches.best_of(asked.found.pop(asked.assumed, NOTHING), reply)
            if best[0] != NOTHING[0]:
                asked.found[asked.assumed] = best  # as the last one
            if len(asked.found) > _MOST_FOUND:
                del asked.found[next(iter(asked.found))]
        return asked.answer(reply)

    def _all_names(self) -> Names:
        """The names of all variables in order, which all answers share until there is another variable."""
        if self._names and len(self._ordered) < self._variables:
            self._ordered = Names(map(self._owner.names.get, range(1, self._variables + 1)))
        return self._ordered


class _OfClass(classmethod):  # type: ignore[type-arg]
    """A call of the class alone, which an instance does not have."""

    def __get__(self, instance: object, owner: Any = None) -> Any:
        if instance is not None:
            raise AttributeError
        return super().__get__(instance, owner)


setattr(Model, "read", _OfClass(Model.__dict__["read"].__func__))  # of an instance it would be called for nothing


@dataclass(frozen=True)
class _Asked:
    """A question, and what the model was when it was asked."""

    question: Question
    statements: searches.Statements
    is_wide: bool
    variables: int
    names: Names
    owners: Tuple[Tuple[int, int], ...]
    objective: Optional[_Objective]
    known: Reply
    found: Dict[FrozenSet[int], Reply]
    assumed: FrozenSet[int]

    def text(self) -> Job:
        """The question as a text, in which each literal that is to be true is one more statement. Numbers in it may be greater than is
        told term by term."""
        kind, literals, _, _ = self.question
        if kind != "solve":
            raise Error("TooLarge", _WIDE)
        units = [("or", 0, array("i", [number])) for number in array("i", literals)]
        ordered = sorted(self.statements.after(None) + units, key=lambda it: it[0] != "min")  # the objective comes first, the others stay
        return "text", texts.opb(self.variables, ordered).encode("ascii"), FORMATS["opb"]

    def begun(self, first: bytes, reply: Reply) -> Reply:
        """What the values of a start tell beside a reply that was cut."""
        values = first.ljust(self.variables, b"\0")
        return starts.told_by(values, self.statements.after(None), self.assumed) if reply[0] in CUT else NOTHING

    def answer(self, reply: Reply) -> Answer:
        """What the reply to a question for an answer tells."""
        status, found, values, _ = reply
        told = None if values is None else tuple(map(bool, values)) + (False,) * (self.variables - len(values))
        cost = None if self.objective is None or found is None else self.objective.cost(found)
        return Answer(Status(status), cost, told, self.names, self.owners)


def _checked(reply: Reply) -> Reply:
    """The reply, unless something was refused."""
    if reply[3]:
        raise MemoryError if reply[3][0] == "Memory" else Error(reply[3][0])
    return reply


OnBetter = Callable[[Answer], object]
"""What is called with each better answer."""


def told_by(on_better: Optional[OnBetter], answer_of: Callable[[Reply], Answer]) -> Optional[Callable[[Reply], object]]:
    """What hands the answer of a reply to the function."""
    if on_better is None:
        return None
    if not callable(on_better):
        raise TypeError(f"on_better is a function that is called with each better answer, and not {on_better!r}")
    return lambda reply: on_better(answer_of(reply))


def _truth(value: object) -> bool:
    """The value of a variable in a start. None, as `Fixed` tells, is False."""
    if is_truth_value(value) and not hasattr(value, "__len__"):
        return bool(value)
    known = index(value) if is_whole(value) else value  # type: ignore[arg-type]
    if known is not None and (hasattr(known, "__len__") or known not in (0, 1)):
        raise ValueError(f"a value in a start is True or False, or 1 or 0, and not {value!r}")
    return bool(known)


def _values_in_order(start: Sequence[bool], count: int) -> bytes:
    """The values of `count` variables as bytes 0 and 1."""
    if isinstance(start, (str, bytes)) or not hasattr(start, "__len__") or not hasattr(start, "__getitem__"):
        raise TypeError(f"no start: {start!r}: write an answer, or a dict of values by variables or names, as {{x: True}}")
    if len(start) != count:
        others = f"{count} in all, and not {len(start)}: of some write a dict, as {{x: True}}"
        raise ValueError(f"a start in order has a value for each variable, {others}")
    return bytes(map(_truth, start))


def _names_of(count: object) -> List[Optional[str]]:
    """A name or none for each of the variables that are asked for."""
    if isinstance(count, str):
        return [*_words_of(count)]
    if is_whole(count):
        number = index(count)  # type: ignore[arg-type]
        if not 0 <= number <= MOST_VARIABLES:
            raise Error("BadVariable", f"{number} variables are asked for: write a number from 0 to {MOST_VARIABLES}")
        return [None] * number
    if not isinstance(count, Iterable):
        raise TypeError(f"neither a number of variables nor names: {count!r}: write variables(3), or variables('x y z')")
    return [*count]


def _words_of(text: str) -> List[str]:
    """The words of a text that are names. A comma is part of a name only within it, as in x(1,2)."""
    words = text.split()
    if any(word.strip(",") != word or ("," in word and all(part.isidentifier() for part in word.split(","))) for word in words):
        plain = " ".join(text.replace(",", " ").split())
        raise ValueError(f"no names: {text!r}: in one text they stand without commas, as in variables({plain!r})")
    return words


def _check_alone(more: Sequence[object], example: str) -> None:
    """Refuses what stands behind the literals."""
    if more:
        raise TypeError(f"literals stand in one list, as in {example}, and the name of a constraint behind name=")


def _check_one_sum(more: Sequence[object], call: str) -> None:
    """Refuses what stands behind the objective."""
    if more:
        raise TypeError(f"a model has one objective, which is one sum: write {call}(x + y), or {call}(1000 * x + y) where x comes first")


def _check_words(others: Mapping[str, object], call: Callable[..., object]) -> None:
    """Refuses words that the call does not take."""
    if others:
        takes = [name for name in inspect.signature(call).parameters if name not in ("self", "others")]
        raise TypeError(hints.of_words(call.__name__, others, takes))


def _number_of_literals(count: object, call: str, more: Sequence[object]) -> int:
    """How many literals are to be true. It stands before them where the call of that name is made, and nothing more behind them."""
    _check_alone(more, f"{call}(1, [x, y])")
    if not is_whole(count):
        raise TypeError(f"no whole number of literals: {count!r}: it stands before the literals, as in {call}(1, [x, y])")
    return index(count)  # type: ignore[arg-type]


def _check_format(format: str) -> None:
    if not isinstance(format, str) or format not in FORMATS:
        raise ValueError(f"no format: {format!r}: write 'opb', 'cnf' or 'icnf'")


def _answer_of_text(reply: Reply) -> Answer:
    status, cost, values, _ = reply
    return Answer(Status(status), cost, None if values is None else tuple(map(bool, values)))


def solve(
    text: Union[str, bytes],
    format: str = "opb",
    nodes: Optional[int] = None,
    *,
    time_limit: Optional[float] = None,
    on_better: Optional[OnBetter] = None,
    workers: Optional[int] = None,
    split: Optional[int] = None,
    **others: NoReturn,
) -> Answer:
    """Solves a text in the format 'opb', 'cnf' or 'icnf', with at most `nodes` decisions and for at most `time_limit` seconds where
    they are given; `on_better` is called with each better answer. With `workers` or `split` the program pbcube solves it.
    `Model.solve` tells more of them. Of iCNF each cube has a budget of its own, and with a time limit there is one search, of which
    nothing is told before it ends.

    Raises Refused, with the fault's name, its line and what may help, where the text is not of the format, and MemoryError where
    memory is refused.

        >>> solve("min: 2 x1 3 x2 ;\\n1 x1 1 x2 >= 1 ;\\n").cost
        2
        >>> solve("1 x1 >= 1 ;\\n1 x2 > 1 ;\\n")
        Traceback (most recent call last):
        pbcube.Refused: Syntax at line 2: line 2, column 6: '>': write >= and the least number allowed, as >= 2 for > 1
    """
    _check_words(others, solve)
    _check_format(format)
    if isinstance(text, os.PathLike):
        path = os.fsdecode(text)
        raise TypeError(f"a path is no text: Model.read({path!r}, {format_of(path, format)!r}).solve() solves the file")
    program = Workers.of(workers, split, format)
    limits = searches.Limits.of(nodes, time_limit, told_by(on_better, _answer_of_text))
    advice = "Model.read(path).solve() solves a file, and pbcube.solve(text) a text"
    data = text.encode("utf-8", "surrogateescape") if isinstance(text, str) else texts.given_bytes(text, advice)
    job: Job = ("text", data, FORMATS[format])
    reply = searches.search(job, limits) if program is None else searches.run_program(job, program, limits)
    if reply[3] and reply[3][0] == "BadSplit":
        raise ValueError(f"split is no more than the number of variables, and not {split}")
    if reply[3]:
        raise MemoryError if reply[3][0] == "Memory" else refused(*reply[3], data, format)
    return _answer_of_text(reply)
