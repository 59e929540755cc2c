"""Random questions on random instances, and worked ones, as the drivers of tests/callers/ read them, and the judges of the answers: each
is compared with a listing of all assignments."""
import itertools
import random
from dataclasses import dataclass

from .callers import NO_LIMIT, RELATIONS, SAID, terms_of
from .instance import HOLDS, value
from .reports import values_line

QUESTIONS = 20
STATEMENTS, MOST_VARIABLES = 6, 8  # at most at first, and ever
MORE_VARIABLES, EVERY = 10, 6  # at most, in one of EVERY instances
WIDE = 1 << 63  # the numbers of every third instance are multiplied by it
GREATEST = 1 << 62  # of the numbers that are told
# Costs and rows: x1 and x3 cost 3, and so does x2, which comes first. Without a decision nothing is known, and once it was solved all is.
TIED = (((2, 1), (3, 2), (1, 3)), ((((1, 1), (1, 2)), ">=", 1), (((1, 2), (1, 3)), ">=", 1)))
CUT, LEAST = ("s UNKNOWN\n", 1), ("o 3\ns OPTIMUM FOUND\nv -x1 x2 -x3\n", 30)
KINDS = (("under", 0), ("explain", 0), ("fixed", 0), ("fixed", 1))  # with which assignments they are about


@dataclass(frozen=True)
class Step:
    """A statement ('objective', 'sum'), values to be suggested, a question, or 'new'. Of a question also which assignments it is about,
    and what was told before it: how many variables, whether an objective, and the feasible assignments with their costs."""

    kind: str
    given: tuple = ()
    among: int = 0
    decisions: int = NO_LIMIT
    variables: int = 0
    has_objective: bool = False
    listed: tuple = ()
    owed: tuple | None = None  # what has to be said and answered, where that is known

    def written(self):
        """As the drivers read it."""
        if self.kind == "objective":
            return f"objective {terms_of(self.given)}\n"
        if self.kind == "sum":
            terms, relation, bound = self.given
            return f"sum {RELATIONS.index(relation)} {bound} {terms_of(terms)}\n"
        numbers = f"{len(self.given)} {' '.join(str(int(number)) for number in self.given)}\n"
        return {
            "new": "new\n",
            "suggest": f"suggest {numbers}",
            "under": f"under {self.decisions} {numbers}",
            "explain": f"explain {self.decisions} {numbers}",
            "fixed": f"fixed {self.among} {self.decisions} {numbers}",
        }[self.kind]

    def under(self, literals):
        """The feasible assignments that make the literals true. One of a variable that no statement names is left out."""
        named = [literal for literal in literals if abs(literal) <= self.variables]
        return [(cost, values) for cost, values in self.listed if all(is_true(values, literal) for literal in named)]


def is_true(values, literal):
    return values[abs(literal) - 1] == (literal > 0)


class Known:
    """What an instance was told so far. There are as many variables as the greatest one that a statement names."""

    def __init__(self, scale):
        self.scale = scale
        self.variables = 0
        self.objective = None
        self.constraints = []
        self._listed = None

    def tell(self, variables):
        """Tells one more statement over the variables 1 to `variables`."""
        self._listed = None
        count = random.randint(0, variables)
        terms = [(self.scale * random.randint(-4, 6), random.choice((1, -1)) * random.randint(1, variables)) for _ in range(count)]
        if random.random() < 0.25:
            self.objective = terms
            return self._told("objective", tuple(in_parts(terms)))
        relation = random.choice((">=", ">=", ">=", "<=", "="))
        bound = value(terms, random.choices((False, True), k=variables))
        self.constraints.append((terms, relation, bound))
        rest = bound - max(min(bound, GREATEST), -GREATEST)
        if rest:  # the rest of the bound stands on the other side, as a variable and its negation
            terms = [*terms, (-rest, terms[0][1]), (-rest, -terms[0][1])]
        return self._told("sum", (tuple(in_parts(terms)), relation, bound - rest))

    def _told(self, kind, given):
        terms = given if kind == "objective" else given[0]
        self.variables = max([self.variables, *(abs(literal) for _, literal in terms)])
        return Step(kind, given)

    def listed(self):
        """The feasible assignments with their costs, the least first."""
        if self._listed is None:
            every = itertools.product((False, True), repeat=self.variables)
            feasible = [it for it in every if all(HOLDS[relation](value(terms, it), bound) for terms, relation, bound in self.constraints)]
            self._listed = tuple(sorted((value(self.objective or (), it), it) for it in feasible))
        return self._listed

    def question(self):
        """One under literals of the variables up to one that no statement names."""
        kind = random.choice(("under", "explain", "fixed"))
        count = random.randint(0, random.choice((4, MOST_VARIABLES)))
        given = tuple(random.choice((1, -1)) * random.randint(1, self.variables + 1) for _ in range(count))
        decisions = random.randint(0, 3) if random.random() < 0.15 else NO_LIMIT
        return Step(kind, given, random.randint(0, 1), decisions, self.variables, self.objective is not None, self.listed())


def in_parts(terms):
    """The terms with each coefficient in parts that can be told."""
    for coefficient, literal in terms:
        sign, left = (1 if coefficient > 0 else -1), abs(coefficient)
        while left > GREATEST:
            yield sign * GREATEST, literal
            left -= GREATEST
        yield sign * left, literal


def steps_of(number):
    """What is told and asked of one instance."""
    known = Known(WIDE if number % 3 == 0 else 1)
    yield Step("new")
    variables = random.randint(1, MORE_VARIABLES if number % EVERY == 0 else MOST_VARIABLES)
    for _ in range(random.randint(1, STATEMENTS)):
        yield known.tell(variables)
    for _ in range(QUESTIONS):
        if random.random() < 0.1:
            yield known.tell(min(known.variables + 1, max(variables, MOST_VARIABLES)))
        if random.random() < 0.2:
            yield Step("suggest", tuple(random.choices((False, True), k=known.variables)))
        yield known.question()


def of_tied(questions):
    """What is told of the tied instance, and these questions on it: kind, literals, which assignments they are about, decisions, and the
    answer that is owed, where one is given."""
    known = Known(1)
    known.objective, known.constraints = TIED
    known.variables = len(known.objective)
    yield from (Step("new"), Step("objective", known.objective), *(Step("sum", row) for row in known.constraints))
    for kind, given, among, decisions, *owed in questions:
        yield Step(kind, given, among, decisions, known.variables, True, known.listed(), *owed)


def worked_steps():
    """A question that is cut, and those of each kind after it; and one that needs a decision until it was answered."""
    under = ((), (-2,), (-1, -2), (1, -1), (4, -4))
    yield from of_tied([("under", (), 0, 0, CUT), *((kind, it, among, NO_LIMIT) for it in under for kind, among in KINDS)])
    yield from of_tied([("under", (), 0, decisions, owed) for decisions, owed in ((0, CUT), (NO_LIMIT, LEAST), (0, LEAST))])


def is_least(step, said, answer):
    """Whether this is the answer to a question for the least assignment."""
    found = step.under(step.given)
    if answer in (1, 11):
        shown = [report_of(cost, values, answer, step.has_objective) for cost, values in found]
        return step.decisions != NO_LIMIT and said in (shown if answer == 11 else [report_of(None, None, 1, step.has_objective)])
    if not found:
        return (said, answer) == (report_of(None, None, 20, step.has_objective), 20)
    right = 30 if step.has_objective else 10
    return (said, answer) == (report_of(*found[0], right, step.has_objective), right)


def report_of(cost, values, answer, has_objective):
    told = f"o {cost}\n" if has_objective and values is not None else ""
    return f"{told}s {SAID.get(answer, 'SATISFIABLE')}\n{'' if values is None else values_line(values, False)}"


def is_why(step, said, answer):
    """Whether this is an answer to why nothing is feasible."""
    core = [int(word) for word in said.split()[1:]]
    if answer not in (20, 21):
        return not core and (bool(step.under(step.given)) if answer == 10 else answer == 1 and step.decisions != NO_LIMIT)
    is_core = set(core) <= set(step.given) and not step.under(core)
    return is_core and (step.decisions != NO_LIMIT if answer == 21 else all(step.under(left_out(core, at)) for at in range(len(core))))


def left_out(core, at):
    return core[:at] + core[at + 1 :]


def is_fixed(step, said, answer):
    """Whether this is the answer to which variables are fixed."""
    found, told = step.under(step.given), said.removeprefix("fixed").strip()
    if answer == 20:
        return not found and not told
    about = [values for cost, values in found if step.among == 0 or cost == found[0][0]]
    right = ["2" if len({*column}) == 2 else str(int(column[0])) for column in zip(*about)] or step.variables * "3"
    is_right = len(told) == step.variables and all(one in (other, "3") for one, other in zip(told, right))
    return is_right and answer == (1 if "3" in told else 10) and (step.decisions != NO_LIMIT or "3" not in told)


JUDGES = {"under": is_least, "explain": is_why, "fixed": is_fixed}


def wrong_answers(way, every, reports):
    questions = [step for step in every if step.kind in JUDGES]
    if len(reports) != len(questions):
        yield f"{way}: {len(reports)} answers to {len(questions)} questions"
    for step, (said, answer) in zip(questions, reports):
        if not JUDGES[step.kind](step, said, answer) or step.owed not in (None, (said, answer)):
            yield f"{way}: {said!r} with {answer} to {step.written()!r} on {step.listed[:8]}"
