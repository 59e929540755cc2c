"""PBCUBE, a solver for PuLP whose answer is exact.

    problem.solve(PBCUBE(workers=4, split=8))

Variables are binary, or integer between two bounds. PuLP hands numbers over as floats: each is taken as its shortest decimal, so the
0.1 of a model is 1/10. What PuLP has added up before, as in 0.1 * x + 0.2 * x, it has rounded itself.
"""

from __future__ import annotations

import shutil
from dataclasses import replace
from fractions import Fraction
from functools import partial
from typing import Sequence

import pulp
from pulp import constants
from pulp.apis.core import LpSolver, PulpSolverError

from pbcube_model import Answer, Model, Objective, Row, decimal, whole_bounds
from pbcube_program import NoAnswer, Program, Status, beside

_RELATIONS = {constants.LpConstraintLE: "<=", constants.LpConstraintEQ: "=", constants.LpConstraintGE: ">="}
_STATUSES = {
    Status.OPTIMUM: (constants.LpStatusOptimal, constants.LpSolutionOptimal),
    Status.SATISFIABLE: (constants.LpStatusOptimal, constants.LpSolutionIntegerFeasible),
    Status.UNSATISFIABLE: (constants.LpStatusInfeasible, constants.LpSolutionInfeasible),
    Status.UNKNOWN: (constants.LpStatusNotSolved, constants.LpSolutionNoSolutionFound),
}
_TAKEN = "it takes program, workers (how many threads), split, nodes, msg, timeLimit and options"


class PBCUBE(LpSolver):
    """Calls the program pbcube, with its options of the same names. Of PuLP's own arguments it takes `msg`, whether a line is printed
    on each search, `timeLimit`, in seconds, and `options`, a list of further words of pbcube's command line.

    `answer` is what it said of the last problem, with the objective as a fraction.
    """

    name = "PBCUBE"

    def __init__(
        self,
        program: str = "pbcube",
        workers: int | None = None,
        split: int | None = None,
        nodes: int | None = None,
        msg: bool = False,
        timeLimit: float | None = None,
        options: Sequence[str] | None = None,
        **others: object,
    ):
        if others:
            raise PulpSolverError(f"PBCUBE takes no {', '.join(others)}: {_TAKEN}")
        if isinstance(options, str):
            raise PulpSolverError(f"options is a list of words, as ['--cubes', 'FILE'], and not {options!r}")
        super().__init__(msg=msg, timeLimit=timeLimit, options=list(options or ()))
        self.program = Program(program, workers, split, nodes)
        self.answer: Answer | None = None

    def available(self) -> bool:
        """Whether the program is there."""
        return shutil.which(beside(self.program.path)) is not None

    def copy(self) -> PBCUBE:
        """A solver that calls the same program in the same way."""
        copied = super().copy()
        copied.program, copied.timeLimit = self.program, self.timeLimit
        return copied

    def actualSolve(self, lp: pulp.LpProblem) -> int:
        """Solves the problem, and sets its status and the values of its variables; `PulpSolverError` where it cannot be told."""
        program = replace(self.program, words=tuple(map(str, self.options)), seconds=self.timeLimit)
        try:
            self.answer = model_of(lp).solve(program, partial(print, flush=True) if self.msg else lambda _: None)
        except NoAnswer as fault:
            raise PulpSolverError(str(fault)) from fault
        status, solution = _STATUSES[self.answer.status]
        if self.answer.status is Status.SATISFIABLE and self.answer.objective is None:
            solution = constants.LpSolutionOptimal  # nothing is better than another
        lp.assignVarsVals(dict.fromkeys(lp.variablesDict()) | dict(self.answer.values))
        lp.assignStatus(status, solution)
        return status


def model_of(lp: pulp.LpProblem) -> Model:
    """The same problem, or `NoAnswer`. Its variables come in the order of `lp.variables()`."""
    if lp.sos1 or lp.sos2:
        raise NoAnswer("special ordered sets cannot be told to pbcube")
    model = Model()
    for variable in lp.variables():
        place = f"variable {variable.name}"
        bounds = (None if it is None else decimal(it, place) for it in (variable.lowBound, variable.upBound))
        model.integer(variable.name, *whole_bounds(place, *bounds, variable.cat == constants.LpInteger))
    for name, row in lp.constraints.items():
        terms, constant = _sum(row, f"constraint {name}")
        model.rows.append(Row(f"constraint {name}", terms, _RELATIONS[row.sense], -constant))
    terms, constant = _sum(lp.objective, "the objective")
    if terms != [(1, "__dummy")]:  # PuLP's words for none, or for a constant
        model.objective = Objective(terms, constant, lp.sense == constants.LpMaximize)
    return model


def _sum(expression: pulp.LpAffineExpression, place: str) -> tuple[list[tuple[Fraction, str]], Fraction]:
    terms = [(decimal(coefficient, place), variable.name) for variable, coefficient in expression.items()]
    return terms, decimal(expression.constant, place)
