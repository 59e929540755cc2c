"""What to write in place of names that other packages have."""

from __future__ import annotations

import difflib
import re
from typing import Dict, Iterable, Sequence, Tuple

_SUM = "minimise(sum) or maximise(sum)"
_ANSWER = "solve() gives an answer: write answer.status, answer.cost, answer.values, or answer[x] of a literal or a name"

_OF_MODELS: Dict[str, Tuple[str, ...]] = {
    "minimise(sum)": ("minimize", "Minimize", "Minimise"),
    "maximise(sum)": ("maximize", "Maximize", "Maximise"),
    _SUM: ("objective", "setObjective", "set_objective"),
    "add(constraint)": ("addConstr", "addConstraint", "add_constraint", "Add", "constraint", "subject_to"),
    "add(constraint) for each": ("addConstrs", "add_constraints", "constraints"),
    "clause([x, ~y])": ("add_clause", "addClause", "AddBoolOr", "add_bool_or"),
    "implies(x, y)": ("AddImplication", "add_implication", "implication"),
    "exactly(1, [x, y])": ("AddExactlyOne", "add_exactly_one", "exactly_one"),
    "at_most(1, [x, y])": ("AddAtMostOne", "add_at_most_one", "at_most_one"),
    "at_least(1, [x, y])": ("AddAtLeastOne", "add_at_least_one", "at_least_one"),
    "variable('x')": ("var", "add_var", "addVar", "add_variable", "NewBoolVar", "new_bool_var", "bool_var", "binary"),
    "variables('x y')": ("vars", "add_vars", "addVars", "add_variables"),
    "solve()": ("optimize", "optimise", "Solve", "check", "run"),
    "write(path)": ("save", "dump", "export", "to_opb", "write_opb"),
    "copy()": ("push", "pop"),
}
_NOTES_ON_MODELS: Dict[str, Tuple[str, ...]] = {
    _ANSWER: ("status", "cost", "value", "values", "objective_value", "ObjVal", "named"),
    "what it is told holds at once": ("update", "build", "flush"),
    "repr(model) tells how many": ("num_variables", "num_vars", "NumVars", "num_constraints", "num_constrs", "NumConstrs"),
    "for a constraint that may fail write model.implies(~z, constraint), with a new variable z that costs": ("soft", "add_soft", "addSoft"),
    "for an integer write a sum of variables, as x + 2 * y + 4 * z for one from 0 to 7": ("integer", "int_var", "NewIntVar", "new_int_var"),
}
"""What is told of names that no call stands for."""
_READ = "Model.read(path) makes another model: write model = Model.read(path)"
_VALUE = "an answer tells it, as answer[x] of a literal and answer.value(x + y) of a sum"
_OF_SUMS: Dict[str, Tuple[str, ...]] = {
    _VALUE: ("value", "varValue", "solution_value", "x", "X", "val"),
    "write ~x": ("Not", "negated", "negate", "invert"),
    "write model.implies(x, y)": ("implies", "OnlyEnforceIf", "only_enforce_if"),
}
_VALUES = ("x", "get", "items", "keys", "solution", "assignment", "variables")
_OF_ANSWERS: Dict[str, Dict[str, Tuple[str, ...]]] = {
    "an answer": {
        "answer.cost": ("objective", "objective_value", "ObjVal", "obj", "optimum"),
        "answer.status": ("is_optimal", "optimal", "is_feasible", "feasible", "is_sat", "sat", "success"),
        "answer[x], answer.values or answer.named()": _VALUES,
    },
    "an explanation": {"why.core or why.constraints": ("values", "names", "named", "literals", "conflict", "rules", *_VALUES)},
    "an answer of fixed": {"fixed[x] or fixed.named()": ("values", "value", "literals", *_VALUES)},
}
_OF_SOLVE: Dict[str, Tuple[str, ...]] = {
    "time_limit=10": ("timeout", "time", "timelimit", "timeLimit", "TimeLimit", "seconds", "max_time", "setParam", "Params"),
    "workers=4, split=8": ("threads", "cores", "jobs", "processes", "n_jobs", "num_workers", "parallel"),
    "assuming=[x, ~y]": ("assumptions", "assume", "literals", "under"),
    "nodes=1000": ("budget", "decisions", "max_nodes", "node_limit", "limit"),
    "start={x: True}": ("warm_start", "warmstart", "warmStart", "initial", "hint", "hints"),
    "on_better=function": ("callback", "on_solution", "on_improvement"),
    "model.minimise(sum) before": ("minimise", "minimize", "objective"),
    "model.maximise(sum) before": ("maximise", "maximize"),
}
_FOR_ANSWERS = {kind: {name: has for has, names in of.items() for name in names} for kind, of in _OF_ANSWERS.items()}
_WORD = re.compile(r"(\w+)=")
_FOR_SOLVE = {name: word for word, names in _OF_SOLVE.items() for name in (*names, *_WORD.findall(word))}
_FOR_MODELS = {
    **{name: f"write model.solve({word})" for name, word in _FOR_SOLVE.items() if _WORD.match(word)},
    **{name: f"write model.{call}" for call, names in _OF_MODELS.items() for name in names},
    **{name: note for note, names in _NOTES_ON_MODELS.items() for name in names},
    **{"read": _READ},
}
_OF_OTHERS = {*_NOTES_ON_MODELS[_ANSWER], *(name for names in _OF_MODELS.values() for name in names)}
_FOR_SUMS = {name: advice for advice, names in _OF_SUMS.items() for name in names}
IN_OTHER_FORMATS = ("cnf", "icnf", "wcnf", "lp", "mps", "gz", "xz", "bz2", "zst")
"""What the names of files end with that have no plain OPB."""


def of_model(name: str, has: Iterable[str]) -> str:
    """What is said where a model is asked for an attribute that is not among those that it has."""
    if name in _FOR_MODELS:
        return f"a model has no {name!r}: {_FOR_MODELS[name]}"
    public = [it for it in has if not it.startswith("_")]
    near = difflib.get_close_matches(name.lower(), public, 3)
    return f"a model has no {name!r}" + ("" if name.startswith("_") else f": it has {', '.join(near or public)}")


def of_value(name: str, has: Iterable[str]) -> str:
    """What is said where a value is given to such an attribute."""
    return of_model(name, has) + ("" if name in _FOR_MODELS else "; a subclass, as class Plan(Model), takes values of your own")


def of_sum(name: str) -> str:
    """What is said where a literal or a sum is asked for an attribute that it does not have."""
    return f"literals and sums have no {name!r}{f': {_FOR_SUMS[name]}' if name in _FOR_SUMS else ''}"


def of_answer(kind: str, name: str) -> str:
    """What is said where an answer of this kind is asked for one."""
    has = _FOR_ANSWERS.get(kind, {}).get(name)
    return f"{kind} has no {name!r}{f': write {has}' if has else ''}"


def of_words(call: str, others: Iterable[str], takes: Sequence[str]) -> str:
    """What is said where a call is handed words that are not among those that it takes."""
    return "; ".join(f"{call} takes no {name}=: {_in_place_of(name, takes)}" for name in others)


def _in_place_of(name: str, takes: Sequence[str]) -> str:
    """What to write where a call does not take this word, by those that it takes."""
    if name not in _FOR_SOLVE:
        near = difflib.get_close_matches(name, takes, 1)
        return f"write {near[0]}=" if near else f"it takes {', '.join(f'{it}=' for it in takes)}"
    word = _FOR_SOLVE[name]
    if {*_WORD.findall(word)} <= {*takes}:
        return f"write {word}"
    return f"model.solve({word}) takes that{', where model is Model.read(text)' if 'text' in takes else ''}"


def is_of_other(name: str) -> bool:
    """Whether other packages have the name where a model has another one."""
    return name in _OF_OTHERS
