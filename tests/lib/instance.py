"""An instance, its text, and its whole answer by a listing of all assignments."""
import operator
from dataclasses import dataclass, replace

from .reports import values_line

HOLDS = {">=": operator.ge, "<=": operator.le, "=": operator.eq}


@dataclass(frozen=True)
class Instance:
    """Variables from 1 on; a literal is a variable or its negative, a term a coefficient and a literal."""

    variables: int
    objective: tuple | None
    constraints: tuple  # of terms, relation and bound
    is_cnf: bool

    @property
    def format(self):
        return "cnf" if self.is_cnf else "opb"

    def text(self):
        if self.is_cnf:
            clauses = ["".join(f"{literal} " for _, literal in terms) for terms, _, _ in self.constraints]
            return "".join([f"p cnf {self.variables} {len(clauses)}\n", *(f"{clause}0\n" for clause in clauses)])
        lines = [f"* #variable= {self.variables} #constraint= {len(self.constraints)}\n"]
        if self.objective is not None:
            lines.append(f"min: {written(self.objective)};\n")
        lines += [f"{written(terms)}{relation} {bound} ;\n" for terms, relation, bound in self.constraints]
        return "".join(lines)

    def times(self, scale):
        """The same with each coefficient and each bound multiplied."""
        objective = None if self.objective is None else scaled(scale, self.objective)
        constraints = tuple((scaled(scale, terms), relation, scale * bound) for terms, relation, bound in self.constraints)
        return Instance(self.variables, objective, constraints, False)

    def without_at_most(self):
        """The same as pieces have it: in place of `<=` there is `>=`, and each number of that constraint is negated."""

        def turned(terms, relation, bound):
            return (scaled(-1, terms), ">=", -bound) if relation == "<=" else (terms, relation, bound)

        return replace(self, constraints=tuple(turned(*row) for row in self.constraints))

    def cost(self, values):
        return value(self.objective or (), values)

    def is_feasible(self, values):
        return all(HOLDS[relation](value(terms, values), bound) for terms, relation, bound in self.constraints)

    def least(self):
        """The cost and the values of the first of all assignments that are feasible, by a listing; none where none is."""
        places = range(1 << self.variables)
        for terms, relation, bound in self.constraints:
            row, holds = sums(terms, self.variables), HOLDS[relation]
            places = [place for place in places if holds(row[place], bound)]
        costs = sums(self.objective or (), self.variables)
        first = min(places, key=costs.__getitem__, default=None)
        return None if first is None else (costs[first], [first >> behind & 1 for behind in reversed(range(self.variables))])

    def report(self):
        """The whole answer, by a listing of all assignments."""
        least = self.least()
        if least is None:
            return "s UNSATISFIABLE\n"
        cost, values = least
        line = values_line(values, self.is_cnf)
        return f"s SATISFIABLE\n{line}" if self.objective is None else f"o {cost}\ns OPTIMUM FOUND\n{line}"


def written(terms):
    return "".join(f"{coefficient} {'~' if literal < 0 else ''}x{abs(literal)} " for coefficient, literal in terms)


def scaled(scale, terms):
    return tuple((scale * coefficient, literal) for coefficient, literal in terms)


def value(terms, values):
    return sum(coefficient for coefficient, literal in terms if values[abs(literal) - 1] == (literal > 0))


def sums(terms, variables):
    """The value of the terms under each assignment, in lexicographic order."""
    sums = [0]
    for variable in range(1, variables + 1):
        steps = [sum(coefficient for coefficient, it in terms if it == literal) for literal in (-variable, variable)]
        sums = [it + step for it in sums for step in steps]
    return sums
