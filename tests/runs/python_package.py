#!/usr/bin/env python3
"""Calls each name of the package for Python, and prints what is wrong.

    tests/runs/python_package.py

It takes the library that is built. Random models with fractions, floats, implications and counts have the answer that a listing of all
assignments finds; each refusal is met; a model is read from a text as a reader of docs/FORMATS.md tells, and written so that it reads
again; what a child process finds is what this process finds; and no later answer of a model is worse than an earlier one. Real signals
end a long search: Ctrl-C, alone and for the whole group as a terminal sends it, an exception, a time limit, and the death of the
process; each time no child is left, and after Ctrl-C the process solves on. The blocks of docs/EMBEDDING.md print what it says. Where
there is no C compiler, and so no library, all is left out.
"""
import copy
import ctypes
import gc
import io
import itertools
import json
import operator
import os
import pickle
import random
import re
import signal
import subprocess
import sys
import tempfile
import threading
import time
import warnings
from dataclasses import replace
from decimal import Decimal
from fractions import Fraction
from pathlib import Path
from unittest import mock
from types import SimpleNamespace

sys.dont_write_bytecode = True
sys.path.insert(0, str(Path(__file__).resolve().parents[1]))
from lib import FORMATS, TOP, callers
from lib.callers import PYTHON
from lib.draws import instances
from lib.formats import Refused as FormatRefused
from lib.formats import read
from lib.hinted_texts import AT_LEAST, AT_MOST, BEGUN, LIMITS, NO_PRODUCT, PLACED, SMALL_SUMS, TO_MOST
from lib.worked_texts import SPOILED, WORKED

callers.package()
from pbcube import Answer, Constraint, Error, Explanation, Fixed, ForeignLiteral, Literal, Model, Refused, Status, Sum, solve, total
from pbcube import starts
from pbcube.programs import Workers

MODELS = 150
INSTANCES = 300
SPOILS = (b";", b"-", b"\n", b"\xff", b"*", b"0", b"~", b":", b"%", b"\r", b"c")  # bytes that change what a text spells
IN_CHILD = 6  # of which each has to start
GROWING = (50, 100, 200, 300, 400)  # decisions
PATIENCE = 30  # seconds, of a machine that may be busy; no search that is ended here would end by itself in so few
RELATIONS = {">=": operator.ge, "<=": operator.le, "==": operator.eq}
TEXT = "min: 2 x1 3 x2 ;\n1 x1 1 x2 >= 1 ;\n"
HARD = """import os, signal, sys, threading
import pbcube
signal.signal(signal.SIGINT, signal.default_int_handler)
def children():
    parents = {}
    for name in filter(str.isdigit, os.listdir("/proc")):
        try:
            parents[int(name)] = int(open(f"/proc/{name}/stat").read().rpartition(")")[2].split()[1])
        except OSError:
            pass
    return [it for it, parent in parents.items() if parent == os.getpid()]
def hard():
    model = pbcube.Model()
    parts = model.variables(40)
    for row in range(5):
        weights = [pow(row + 3, at + 5, 101) for at in range(40)]
        model.add(pbcube.total(weight * part for weight, part in zip(weights, parts)) == sum(weights) // 2)
    return model
def easy():
    return pbcube.solve("min: 2 x1 3 x2 ;\\n1 x1 1 x2 >= 1 ;\\n").cost
def say(*words):
    print(*words, flush=True)
"""  # five rows that are to be met exactly, which takes far longer than anyone waits


# ---- worked calls


def raised(call):
    """What the call raises, or nothing."""
    try:
        call()
    except Exception as fault:
        return fault
    return None


def value_facts():
    model = Model()
    x, y = model.variable("x"), model.variable()
    z, w = model.variables("z w")
    model.maximise(x / 2 + 0.25 * y - z + Decimal("0.5") * w + 3)
    model.add(x + y + z + w <= 2.5)
    answer = model.solve()
    yield "the greatest sum", (answer.status, answer.cost, answer.values) == (Status.OPTIMUM, 4, (True, False, False, True))
    yield "a whole cost is an int", type(answer.cost) is int
    yield "names", answer.names == ("x", None, "z", "w") and answer.named() == {"x": True, "z": False, "w": True}
    yield "by literal and by name", answer[x] and answer[~y] and answer["w"] and not answer["z"] and model["z"].number == z.number
    values = [answer.value(it) for it in (3 * x - 2 * ~w + y / 3 + 1, x / 4, ~x, 7)]
    yield "the value of a sum", values == [4, Fraction(1, 4), 0, 7]
    told = {"status": "OPTIMUM", "cost": 4, "values": [True, False, False, True], "named": {"x": True, "z": False, "w": True}}
    yield "as JSON", json.loads(answer.json()) == json.loads(answer.json(indent=1)) == told
    yield "pickled", pickle.loads(pickle.dumps(answer)) == answer and pickle.loads(pickle.dumps(answer))[pickle.loads(pickle.dumps(x))]
    model = Model()
    x = model.variable()
    model.minimise(0.1 * x)
    model.add(x >= 1)
    told = json.loads(model.solve().json())["cost"]
    yield "a float is what Python holds", model.solve().cost == Fraction(0.1) == Fraction(told) == 0.1
    yield "an answer as it was made before", Answer(Status.FOUND, 1, (True,))[Literal(1)] and repr(Literal(3)) == "Literal(number=3)"
    yield "the same names as before", repr(answer).startswith("Answer(status=Status.OPTIMUM, cost=4, values=(True, ")
    yield "a text", solve(TEXT).cost == solve(TEXT.encode(), "opb", 100, time_limit=60).cost == 2
    yield "sums", total([]).terms == () and isinstance(x + 1, Sum) and isinstance(x >= 1, Constraint) and (2 - x).constant == 2


def name_facts():
    """How literals, sums, constraints, cores and models are written, and found by name."""
    model = Model()
    x, y, odd, unnamed = *model.variables(["x", "y", "<b>"]), model.variable()
    written = (
        (x, "x"), (~y, "~y"), (~~x, "x"), (Literal(3), "Literal(number=3)"), (Literal(-3, "z"), "~z"), (2 * x + 3 * ~y, "2 x + 3 ~y"),
        (x - ~y + 1, "x - ~y + 1"), (-x, "-x"), (x / 2 - 3, "1/2 x - 3"), (0 * x, "0 x"), (Sum(), "0"), (Sum((), -2), "-2"),
        (2 * unnamed - odd, "2 x4 - <b>"), (2 * Literal(7), "2 x7"), (2 * x + 3 * ~y >= 1, "2 x + 3 ~y >= 1"),
        (x - 1 <= Fraction(1, 2), "x <= 3/2"), (x == y, "x - y == 0"), (Constraint((), ">=", 1), "0 >= 1"),
    )  # fmt: skip
    for it, text in written:
        yield f"{it!r} and not {text}", repr(it) == str(it) == text
    yield "one literal of each name", model["x"] is model["x"] is x and model.copy()["x"] is not x
    yield "in dicts and sets", {x: 1, y: 2}[model["y"]] == 2 and x in {x, y} and x not in {y} and len({x, y, x}) == 2
    copied = model.copy()
    added = copied.variable("z")
    yield "a sum of a model and its copy", (repr(x + added), repr(copied["y"] - x)) == ("x + z", "y - x")
    yield "a later one of the model", repr(model.variable("w") + x) == "w + x" and model["w"].number == added.number == 5
    yield "which is not the copy's", repr(x + added) == "x + z"
    model.minimise(x + y)
    model.add(x + y + odd >= 1)
    yield repr(model), repr(model) == "<Model: 5 variables, 1 constraints, 5 terms, an objective>"
    yield "without an objective", repr(Model()) == "<Model: 0 variables, 0 constraints, 0 terms, no objective>"
    yield "a model as a table", "<tr><th>variables</th><td>5</td></tr>" in model._repr_html_() and "yes" in model._repr_html_()
    yield "found twice", model.solve().names is model.solve().names and model.solve()["<b>"] is model.solve()[odd]


def table_facts():
    """Answers as tables of HTML, whose names are escaped and whose rows are few."""
    told = Answer(Status.OPTIMUM, Fraction(7, 2), (True, False), ("<b>&", None))
    rows = ("status</th><td>OPTIMUM", "cost</th><td>7/2", "&lt;b&gt;&amp;</th><td>True", "x2</th><td>False")
    yield told._repr_html_(), told._repr_html_() == "<table>" + "".join(f"<tr><th>{row}</td></tr>" for row in rows) + "</table>"
    many = Answer(Status.FOUND, 1, (True,) * 100)._repr_html_()
    yield "few rows", many.count("<tr>") == 23 and "80 more" in many
    yield "nothing was found", Answer(Status.UNKNOWN, None, None)._repr_html_() == "<table><tr><th>status</th><td>UNKNOWN</td></tr></table>"
    why = Explanation(Status.UNSATISFIABLE, (Literal(-1, "<"), Literal(2, "y")), True)
    yield "a core", "core=(~<, y), is_minimal=True" in repr(why) and "core</th><td>~&lt;</td>" in why._repr_html_()
    fixed = Fixed(Status.SATISFIABLE, b"\0\1\2\3", ("<",))._repr_html_()
    yield "fixed", "&lt;</th><td>False" in fixed and "x2</th><td>True" in fixed and "x3</th><td>both" in fixed and "x4</th><td>not" in fixed


def many_name_facts():
    """Names are found by a table that is made once."""
    names = tuple(f"v{number}" for number in range(100_000))
    answer, fixed = Answer(Status.SATISFIABLE, None, (True,) * 100_000, names), Fixed(Status.SATISFIABLE, bytes(100_000), names)
    begun = time.process_time()
    yield "names", all(answer[names[-at]] and fixed[names[-at]] is False for at in range(1, 2001))
    yield "soon", time.process_time() - begun < PATIENCE / 10
    again = pickle.loads(pickle.dumps(answer))
    yield "pickled", again == answer and again["v7"] and len(pickle.dumps(answer)) == len(pickle.dumps(replace(answer)))
    yield "of two of one name the first", Answer(Status.FOUND, 1, (True, False), ("x", "x"))["x"]
    yield "no name", isinstance(raised(lambda: answer["w"]), LookupError) and isinstance(raised(lambda: fixed["w"]), LookupError)
    text = raised(lambda: solve(TEXT)["x1"]), raised(lambda: Fixed(Status.SATISFIABLE, b"\1")["x1"]), raised(lambda: answer["w"])
    said = ["answer.values[0]" in str(text[0]) and "Model.read(text).solve()" in str(text[0]), "fixed[x]" in str(text[1])]
    yield f"of a text, and without names: {text}", said == [True] * 2 and str(text[2]) == "no variable is named 'w'"


def pickle_facts():
    """A pickled model is a copy."""
    model = Model()
    x, y, z = model.variables("x y z")
    model.maximise(x / 2 - 2**80 * y)
    model.clause([x, ~y, z])
    model.add(x + 2**70 * y <= 3)
    model.solve()
    again, literals = pickle.loads(pickle.dumps((model, [x, y, z])))
    yield "a pickled model", repr(again) == repr(model) and again._statements == model._statements
    yield "with its objective and names", again._objective == model._objective and again._names == model._names
    yield "answers as the model does", again.solve() == model.solve()
    yield "takes the literals", raised(lambda: again.add(total(literals) >= 1)) is None and raised(lambda: again.clause([x, ~z])) is None
    later = again.variable("w")
    yield "and has its own", is_foreign(lambda: model.add(later >= 1)) and is_foreign(lambda: again.clause([model.variable("w")]))
    yield "which are named", (repr(later + again["x"]), repr(literals)) == ("w + x", "[x, y, z]")
    yield "sums", pickle.loads(pickle.dumps(2 * x + 1 >= y)) == (2 * x + 1 >= y)
    kept, rule, twice = pickle.loads(pickle.dumps((2 * x - ~z + 1, x + y >= 1, pickle.loads(pickle.dumps(x + y)))))
    yield "with their names", (repr(kept), repr(rule), repr(twice)) == ("2 x - ~z + 1", "x + y >= 1", "x + y")
    yield "but no others", [*kept.owners[0][0].names.values()] == ["x", "z"] and repr(again["y"] + kept) == "y + 2 x - ~z + 1"
    yield "which the model takes", raised(lambda: model.add(kept >= 1)) is raised(lambda: again.add(rule)) is None
    named = copy.deepcopy([x + z, x + z >= 1])
    yield "copied", repr([named[0] + y, named[1]]) == "[x + z + y, x + z >= 1]" and repr(copy.copy(x + z) + y) == "x + z + y"


class Whole:
    """A whole number of another package, as numpy has them."""

    def __init__(self, number):
        self.number = number

    def __index__(self):
        return self.number


class Truth:
    """A truth value of another package, which is no number."""

    def __bool__(self):
        return True


class Flag:
    """A truth value of numpy, which some versions of it have as a whole number, with a warning."""

    dtype = SimpleNamespace(kind="b")

    def __init__(self, value):
        self.value = value

    def __index__(self):
        warnings.warn("a truth value is taken for an index", DeprecationWarning, stacklevel=2)
        return int(self.value)

    def __bool__(self):
        return self.value


class Array:
    """Numbers of another package, which leaves operations with literals and sums to these."""

    def __len__(self):
        return 2


class Items:
    """An array of names or constraints of another package, which has an index and a truth value only where it has one item."""

    def __init__(self, *items):
        self.items = items

    def __len__(self):
        return len(self.items)

    def __iter__(self):
        return iter(self.items)

    def __index__(self):
        raise TypeError("only integer scalar arrays can be converted to a scalar index")

    def __bool__(self):
        raise ValueError("the truth value of an array is ambiguous")


def number_facts():
    """Numbers of other packages on either side."""
    model = Model()
    x, y = model.variables("x y")
    three = Whole(3)
    cases = (
        (three * x, "3 x"), (x * three, "3 x"), (x / three, "1/3 x"), (three + x, "x + 3"), (x + three, "x + 3"), (three - x, "-x + 3"),
        (x - three, "x - 3"), (three * (x + y), "3 x + 3 y"), ((x + y) * three, "3 x + 3 y"), (x + y + three, "x + y + 3"),
        (three + (x + y), "x + y + 3"), (x >= three, "x >= 3"), (three >= x, "x <= 3"), (three <= x + y, "x + y >= 3"),
        (three == x, "x == 3"), (x + y == three, "x + y == 3"), (total([three, x]), "x + 3"), (sum([x, three, three * y]), "x + 3 y + 3"),
    )  # fmt: skip
    for it, text in cases:
        yield f"{it!r} and not {text}", repr(it) == text
    yield "numpy leaves them to the package", Literal.__array_ufunc__ is Sum.__array_ufunc__ is None
    model.at_most(Whole(1), [x, y])
    yield "values and counts", model.solve(Whole(9), start={"x": Whole(1), "y": None}).values == (False, False)
    yield "variables", len(model.variables(Whole(2))) == 2
    yield "an array of names", repr(model.variables(Items("u", "v"))) == "[u, v]"


def flag_facts():
    """Truth values of numpy are no numbers, and are values of a start, without a warning."""
    model, true, false = Model(), Flag(True), Flag(False)
    x, y = model.variables("x y")
    refused = (
        (lambda: x + true, "int(value)"), (lambda: true + x, "int(value)"), (lambda: x - true, "int(value)"),
        (lambda: true - (x + y), "int(value)"), (lambda: x * true, "int(value)"), (lambda: true * (x + y), "int(value)"),
        (lambda: x / true, "int(value)"), (lambda: x == true, "int(value)"), (lambda: true == x, "int(value)"),
        (lambda: x + y >= true, "int(value)"), (lambda: true >= x, "int(value)"), (lambda: total([x, true]), "int(value)"),
        (lambda: sum([x, true]), "int(value)"), (lambda: model.minimise(true), "int(value)"), (lambda: model.add(true), "bool(value)"),
        (lambda: model.at_most(true, [x, y]), "at_most(1, [x, y])"), (lambda: model.variables(true), "variables(3)"),
        (lambda: model.solve(true), "whole number"), (lambda: model.solve(workers=true), "whole number"),
    )  # fmt: skip
    with warnings.catch_warnings():
        warnings.simplefilter("error")
        for at, (call, said) in enumerate(refused):
            fault = raised(call)
            yield f"a truth value of numpy {at}: {fault!r}", type(fault) is TypeError and said in str(fault)
        model.clause([x, y])
        started = [model.solve(0, start=start).values for start in ([false, true], {"x": false, y: true}, {~x: true, "y": true})]
        yield f"as a start: {started}", started == [(False, True)] * 3
    yield "rows of a start", type(raised(lambda: model.solve(start=[[True], [False]]))) is ValueError


def other_name_facts():
    """Names and operators of other packages, and a part of what is said of each."""
    model = Model()
    x, y, z = model.variables("x y z")
    cases = (
        (lambda: x // 2, "2 * q <= x + y"), (lambda: (x + y) // 2, "x / 2 is half"), (lambda: 7 // x, "2 * q"), (lambda: x % 2, "2 * q + r"),
        (lambda: 5 % (x + y), "remainder"), (lambda: x**2, "write x for x ** 2"), (lambda: (x + y) ** 2, "each product"),
        (lambda: abs(x - y), "x - y >= -1"), (lambda: abs(x - y), "a sum z of new variables"),
        (lambda: model.add(Items(x >= 1, y >= 1)), "add each by itself"), (lambda: model.solve(nodes=Items(1, 2)), "a whole number of decisions"),
        (lambda: model.solve(workers=Items(1, 2)), "a whole number from"), (lambda: min(x, y), "model.implies(z, x)"), (lambda: max(x, y), "model.implies(x, z)"),
        (lambda: x / y, "x >= 2 * y"), (lambda: 2 / x, "x / 2"), (lambda: (x + y) / (x + 1), "x >= 2 * y"), (lambda: int(x), "answer[x]"),
        (lambda: float(x + y), "answer.value(x + y)"), (lambda: x >> y, "model.implies(x, y)"), (lambda: x == y == z, "or x == y == z"),
        (lambda: 1 if x else 0, "answer[x]"), (lambda: (x >= 1) & (y >= 1), "add each by itself"), (lambda: True & (x >= 1), "by itself"),
        (lambda: (x >= 1) | (y >= 1), "model.clause([z, w])"), (lambda: ~(x + y >= 1), "the opposite"),
        (lambda: (x >= 1) >> (y >= 1), "model.implies(z, constraint)"),
        (lambda: divmod(x, 2), "2 * q"), (lambda: (x >= 1) + 1, "model.implies(z, constraint)"), (lambda: sum([x >= 1]), "a new variable z"),
        (lambda: model.add((x >= 1) == (y >= 1)), "model.implies(~z, opposite)"), (lambda: model.add((x >= 1) != (y >= 1)), "a new variable z"),
        (lambda: model.implies([x, y], z), "clause([~x, ~y, z])"), (lambda: model.implies(x >= 1, y), "model.implies(~z, opposite)"),
        (lambda: model.implies(x, [y, z]), "for y in literals: model.implies(x, y)"), (lambda: model.variable(3), "variable('x')"),
        (lambda: model.variables(range(2)), "f'x{i}'"), (lambda: bool(model.solve()), "answer.status is"), (lambda: [*model.solve()], "named()"),
        (lambda: bool(model.explain([x])), "why.status is"), (lambda: bool(model.fixed()), "fixed.status is"),
        (lambda: dict(model.fixed()), "fixed.named()"), (lambda: [*model.explain([x])], "why.core"), (lambda: model.explain([x])[0], "why.core"),
        (lambda: model.solve(timeout=1), "solve takes no timeout=: write time_limit=10"), (lambda: model.solve(threads=4), "split=8"),
        (lambda: model.solve(minimize=x), "model.minimise(sum) before"), (lambda: solve(TEXT, timeout=1), "time_limit=10"),
        (lambda: model.solve(assumptions=[x]), "assuming=[x, ~y]"), (lambda: model.solve(colour=1), "solve takes no colour="),
        (lambda: model.explain(timeout=3), "explain takes no timeout=: write time_limit=10"), (lambda: model.fixed(timeout=3), "time_limit=10"),
        (lambda: model.fixed(workers=2), "model.solve(workers=4, split=8) takes that"), (lambda: model.fixed(time_limt=3), "write time_limit="),
        (lambda: model.explain(colour=1), "it takes assuming=, nodes=, time_limit="), (lambda: model.explain(budget=1), "nodes=1000"),
        (lambda: solve(TEXT, assumptions=[1]), "model.solve(assuming=[x, ~y]) takes that, where model is Model.read(text)"),
    )  # fmt: skip
    for at, (call, said) in enumerate(cases):
        fault = raised(call)
        yield f"operator {at}: {fault!r}", type(fault) is TypeError and said in str(fault)
    attributes = (
        (lambda: model.minimize(x), "model.minimise(sum)"), (lambda: model.maximize(x), "model.maximise(sum)"),
        (lambda: setattr(model, "minimize", x), "model.minimise(sum)"), (lambda: setattr(model, "objective", x + y), "model.minimise(sum)"),
        (lambda: setattr(model, "minimise", x), "model.minimise(..)"), (lambda: model.addConstr(x >= 1), "model.add(constraint)"),
        (lambda: model.add_clause([x]), "model.clause([x, ~y])"), (lambda: model.optimize(), "model.solve()"),
        (lambda: model.status, "answer.cost"), (lambda: model.colour, "'colour'"), (lambda: x.value(), "answer[x]"),
        (lambda: model.y, "model['y']"), (lambda: Model().read(TEXT), "model = Model.read(path)"), (lambda: model.solve().x, "answer[x]"),
        (lambda: model.solve().objective, "answer.cost"), (lambda: model.solve().colour, "'colour'"),
        (lambda: (x + y).value, "answer.value(x + y)"), (lambda: x.Not(), "write ~x"), (lambda: x.colour, "'colour'"),
        (lambda: model.fixed().items(), "fixed.named()"), (lambda: model.fixed().colour, "'colour'"),
        (lambda: model.explain([x]).values, "why.core or why.constraints"), (lambda: model.explain([x]).colour, "'colour'"),
        (lambda: setattr(model, "time_limit", 5), "model.solve(time_limit=10)"), (lambda: setattr(model, "workers", 4), "split=8"),
        (lambda: setattr(model, "timeout", 5), "model.solve(time_limit=10)"), (lambda: setattr(model, "verbose", True), "class Plan(Model)"),
        (lambda: model.setParam("TimeLimit", 3), "time_limit=10"), (lambda: model.update(), "holds at once"),
        (lambda: model.num_variables, "repr(model)"), (lambda: model.soft(x >= 1), "model.implies(~z, constraint)"),
        (lambda: model.integer(0, 7), "x + 2 * y + 4 * z"), (lambda: model.clauses, "it has clause"), (lambda: model.colour, "variables, write"),
    )  # fmt: skip
    for at, (call, said) in enumerate(attributes):
        fault = raised(call)
        yield f"attribute {at}: {fault!r}", type(fault) is AttributeError and said in str(fault)
    yield "which are not there", not (hasattr(model, "minimize") or hasattr(x, "value") or hasattr(x + y, "X"))
    for name in ("m.cnf", Path("m.LP"), b"m.opb.gz"):
        fault = raised(lambda: model.write(name))
        yield f"{name}: {fault!r}", type(fault) is ValueError and "model.write('a.opb')" in str(fault) and not os.path.exists(name)
    yield "in texts", (f"{x:>3}", f"{~x:4}|{x + y:>6}") == ("  x", "~x  | x + y")
    one, other = x + y >= 1, x + y >= 2
    is_same = one == (x + y >= 1) and one != other and not one == other and not one != (x + y >= 1) and len({one, x + y >= 1, other}) == 2
    yield "constraints that are the same", is_same and repr(one == other) == "False" and one != 1
    with warnings.catch_warnings(record=True) as told:
        warnings.simplefilter("always")
        model.copy().solve(workers=2, split=1)
        gc.collect()
    yield f"no file is left open: {[*map(str, told)]}", not told
    yield "a sum with a plus", (repr(+x), repr(+(x - y))) == ("x", "x - y")
    made = [model.variable("q"), model.variable("r")]
    model.add(x + y == 2 * made[0] + made[1])
    told = {(it[x] + it[y], it[made[0]], it[made[1]]) for it in (model.solve(assuming=[one, two]) for one in (x, ~x) for two in (y, ~y))}
    yield f"the remainder as it is said: {told}", told == {(0, False, False), (1, False, True), (2, True, False)}


class Plan(Model):
    """A model with attributes of its own."""

    def __init__(self):
        super().__init__()
        self.nodes = self.variables("x y")
        self.timeout = 5


def subclass_facts():
    """A subclass has the attributes that it sets, but for those by which a model of another package is told something."""
    plan = Plan()
    plan.add(total(plan.nodes) >= 2)
    yield "attributes of its own", plan.solve(time_limit=plan.timeout).values == (True, True) and repr(plan.nodes) == "[x, y]"
    yield "pickled", repr(pickle.loads(pickle.dumps(plan))) == repr(plan.copy()) == repr(plan)
    yield "names of others", "model.minimise(sum)" in str(raised(lambda: setattr(plan, "objective", plan["x"])))
    yield "and what is missing", "'colour'" in str(raised(lambda: plan.colour)) and not hasattr(plan, "_colour")
    model = Model()
    model.cubes, model._noted_by_me = ((),), 1
    yield "what a model has", (model.copy().cubes, Model().cubes, model._noted_by_me) == (((),), (), 1)


def ask_as_numpy(constraint):
    """Asks for its truth value as some versions of numpy do, and passes over the exception before any code in Python sees it."""
    with mock.patch.dict(sys.modules, numpy=sys), mock.patch.object(sys, "unraisablehook", lambda _: None):
        ctypes.CFUNCTYPE(ctypes.c_int)(constraint.__bool__)()


def mistake_facts():
    """What is likely to be written by mistake, and a part of what is said of it."""
    model = Model()
    x, y = model.variables("x y")
    cases = (
        (lambda: x in [y], "x.number in"), (lambda: x == y and x, "add it to a model"), (lambda: 1 <= x + y <= 2, "as two"),
        (lambda: x > y, "write >="), (lambda: x < y, "write <="), (lambda: 2 * x > 1, "write >="), (lambda: 1 < x + y, "write >="),
        (lambda: x != y, "x + y == 1"), (lambda: x + y != 1, "x + y == 1"), (lambda: x & y, "x + y >= 2"),
        (lambda: x | y, "clause([x, y])"), (lambda: True | x, "clause([x, y])"), (lambda: x ^ y, "x + y == 1"), (lambda: not x, "~x"),
        (lambda: x or y, "clause([x, y])"), (lambda: ~(x + y), "-sum"), (lambda: x * y, "new variable"),
        (lambda: (x + 1) * y, "new variable"), (lambda: model.add(x), "x >= 1"), (lambda: model.add(x + y), "x + y >= 1"),
        (lambda: model.implies(x, y + 1), "y + 1 >= 1"), (lambda: model.add(Truth()), "bool(value)"), (lambda: x * Truth(), "int(value)"),
        (lambda: Truth() + x, "int(value)"), (lambda: x + y >= Truth(), "int(value)"), (lambda: Array() * x, "zip(numbers, variables)"),
        (lambda: x + Array(), "zip(numbers, variables)"), (lambda: (x + y) * Array(), "zip(numbers, variables)"),
        (lambda: Array() >= x, "zip(numbers, variables)"), (lambda: model.minimise(x >= 1), "model.add"),
        (lambda: total({x: 2, y: 3}), "for x, number in numbers.items()"),
        (lambda: total(x, y), "total([x, 2 * y])"), (lambda: total(x), "total([x, 2 * y])"),
        (lambda: total([2, 3], [x, y]), "zip(numbers, variables)"), (lambda: model.clause([1]), "model[name]"), (lambda: model.variables(1.5), "variables(3)"),
        (lambda: model.solve("a.opb"), "Model.read(path)"), (lambda: Model.solve("a.opb"), "Model.read(path)"),
        (lambda: Model("a.opb"), "Model.read(path)"), (lambda: solve(Path("a.opb")), "Model.read('a.opb', 'opb')"),
        (lambda: model.solve(1.5), "whole number"), (lambda: model.solve(start="x"), "{x: True}"),
        (lambda: model.solve([x]), "assuming=[x, ~y]"), (lambda: model.solve(x), "assuming=[x, ~y]"), (lambda: bool(x >= 1), ".sum()"),
        (lambda: model.solve(start=7), "{x: True}"), (lambda: model.add("x >= 1"), "x + y >= 1"), (lambda: model.clause(x), "[x]"),
        (lambda: model.solve(assuming=~x), "[~x]"), (lambda: model.solve(assuming={x: False}), "[x, ~y]"),
        (lambda: model.at_most(1, {x: 2, y: 3}), "[x, ~y]"), (lambda: model.explain({x: 0}), "[x, ~y]"), (lambda: model.minimise("x"), "model['x']"), (lambda: 2 * x + "y", "model['y']"),
        (lambda: model.at_least([x], 1), "at_least(1, [x, y])"), (lambda: model.at_most(x, 1), "at_most(1, [x, y])"),
        (lambda: model.exactly(1.5, [x]), "exactly(1, [x, y])"), (lambda: model.at_least(1, 2), "[x, ~y]"),
        (lambda: model.minimise(x, y), "minimise(x + y)"), (lambda: model.maximise(x, y), "1000 * x + y"), (lambda: model.text("cnf"), "model.text()"),
        (lambda: model.variables("k", 3), "variables('x y z')"), (lambda: model.implies(x, y, "a rule"), "name='rule'"),
        (lambda: x in model, "'x' in model"), (lambda: [*model], "for x in xs"), (lambda: model.variables(model), "for x in xs"),
        (lambda: model.add([x >= 1]), "for rule in rules"), (lambda: model.add(it >= 1 for it in [x, y]), "for rule in rules"),
        (lambda: model.add(x >= 1, "a rule"), "name='budget'"), (lambda: solve(7), "pbcube.solve(text)"),
        (lambda: Model.read(None), "Model.read(text)"), (lambda: Model.read(model), "model.copy()"),
        (lambda: solve(model), "model.solve()"), (lambda: model.write(1), "model.write('a.opb')"),
        (lambda: model.write(True), "model.write('a.opb')"), (lambda: model.write(sys.stdout), "model.text()"),
        (lambda: model.clause(x, y), "clause([x, y])"), (lambda: model.clause([x], "a rule"), "behind name="),
        (lambda: model.at_least(1, x, y), "at_least(1, [x, y])"), (lambda: model.at_most(1, [x], "a rule"), "behind name="),
        (lambda: model.exactly(1, x, y), "exactly(1, [x, y])"), (lambda: model.clause("x"), "[model['x']]"),
        (lambda: model.fixed("least"), "fixed(among='least')"), (lambda: model.fixed("x"), "[model['x']]"),
        (lambda: solve(io.StringIO(TEXT)), "file.read()"), (lambda: Model.read(io.BytesIO(b"")), "file.read()"),
        (lambda: solve(Path("a.cnf")), "Model.read('a.cnf', 'cnf')"), (lambda: solve(Path("a.txt"), "icnf"), "Model.read('a.txt', 'icnf')"),
    )  # fmt: skip
    for at, (call, said) in enumerate(cases):
        fault = raised(call)
        yield f"mistake {at}: {fault!r}", type(fault) is TypeError and said in str(fault)
    for compared in (True, False):  # as numpy has it of arrays of sums, some versions of which pass over the exception
        ask_as_numpy(x == 1)
        yield f"compared by numpy: {compared}", ".sum()" in str(raised(lambda: model.add(compared)))
    with mock.patch.dict(sys.modules, numpy=sys):
        mistaken = raised(lambda: model.add(1 <= x + y <= 2)), raised(lambda: x in [y])
    yield "compared by Python", None not in mistaken and raised(lambda: Model().add(sum([]) >= 1)) is None
    yield "a start of an answer that found nothing", model.solve(start=Answer(Status.UNKNOWN, None, None)).status is Status.SATISFIABLE
    for call in (lambda: model.solve(start=[True]), lambda: model.solve(start={"x": 2}), lambda: model.solve(start=[1, "y"]), lambda: model.solve(start=solve("1 x1 >= 1 ;"))):
        yield f"a start: {raised(call)!r}", type(raised(call)) is ValueError
    yield "a number below 0", "from 0 to" in raised(lambda: model.variables(-1)).hint
    text = str(TOP / "examples/tie.opb")
    fault = raised(lambda: solve(text))
    yield "the name of a file", isinstance(fault, Refused) and fault.hint.endswith(f"Model.read({text!r}, 'opb') reads that")
    for path in sorted((TOP / "examples").glob("*.*cnf")):
        told = f"Model.read({str(path)!r}, {path.suffix[1:]!r}) reads that"
        yield f"by its format: {path}", raised(lambda: solve(str(path))).hint.endswith(told)
    yield "its names", "x" in model and "z" not in model and "'z'" in str(raised(lambda: model["z"]))
    yield "which is not there", "'b/a.opb' is not there" in raised(lambda: solve("b/a.opb")).hint
    for call in (solve, Model.read):
        ended = raised(lambda: call(f"{text}\n")).hint, raised(lambda: call("b/a.opb\n")).hint
        yield f"with a line end: {ended}", f"Model.read({text!r}, 'opb') reads" in ended[0] and "line end" in ended[0] and "'b/a.opb' is" in ended[1]
    named = ((lambda: solve(TEXT, "OPB"), "'opb'"), (lambda: model.fixed(among="all"), "'least'"),
        (lambda: model.fixed(among=["feasible"]), "'least'"), (lambda: solve(TEXT, ["opb"]), "'opb'"),
        (lambda: model.variables("a, b"), "variables('a b')"), (lambda: model.variables("a,b ,c"), "variables('a b c')"),
    )  # fmt: skip
    for call, said in named:
        yield f"{raised(call)!r}", type(raised(call)) is ValueError and said in str(raised(call))
    yield "a comma within a name", [it.name for it in Model().variables("x(1,2) x[3,4]")] == ["x(1,2)", "x[3,4]"]
    yield "one in a list before others", x in [x, y] and [y, x][1] is x
    yield "nothing was added", repr(model) == "<Model: 2 variables, 0 constraints, 0 terms, no objective>"
    yield "values in order", model.solve(start=[True, False]).status is model.solve(start=(1, 0)).status is Status.SATISFIABLE


def gathered_facts():
    """Sums go on with what others gathered, and yet none of them changes."""
    model = Model()
    x, y, z = model.variables("x y z")
    begun = x + 2 * y
    one, other, twice = begun + z, begun - z, begun + begun
    texts = ["x + 2 y", "x + 2 y + z", "x + 2 y - z", "x + 2 y + x + 2 y", "x + 2 y + z + x + 1"]
    yield "each is as it was made", [*map(repr, (begun, one, other, twice, one + 1 + x))] == texts and repr(one) == texts[1]
    begun += z
    yield "also by +=", (repr(begun), repr(one), repr(begun + 1)) == ("x + 2 y + z", "x + 2 y + z", "x + 2 y + z + 1")
    for name in ("terms", "constant", "owners", "other"):
        yield f"{name} is kept", isinstance(raised(lambda: setattr(begun, name, ())), AttributeError)
    variables = model.variables(20_000)
    begun = time.process_time()
    added = sum(3 * variable for variable in variables * 5)
    seconds = time.process_time() - begun
    yield f"100,000 parts took {seconds} seconds", seconds < PATIENCE / 2
    yield "and are all of them", added.terms == total(3 * variable for variable in variables * 5).terms == ((3, 4),) + added.terms[1:]
    parts, made, ready = [1 * it for it in variables[:1000]], [], threading.Barrier(4)

    def go_on():
        ready.wait()
        for part in parts:
            made.append((x + y + 0 + part, part))
            made.append((shared[0] + part, part))

    shared = [x + y]
    threads = [threading.Thread(target=go_on) for _ in range(4)]
    for thread in threads:
        thread.start()
    for thread in threads:
        thread.join()
    yield "in threads", len(made) == 8000 and all(it.terms == ((1, 1), (1, 2), *part.terms) for it, part in made)


def page_facts():
    """The blocks of docs/EMBEDDING.md, with what stands below each."""
    page = (TOP / "docs/EMBEDDING.md").read_text().split("\n## Python\n")[1]
    blocks = re.findall(r"```python\n(.*?)```\n\nIt prints `(.*?)`", page, re.S)
    for block, expected in blocks:
        run = Run(block)
        said, _ = run.line()
        yield f"docs/EMBEDDING.md: {said}", said == expected and run.process.wait() == 0
    yield "docs/EMBEDDING.md: blocks", len(blocks) == page.count("```python") == 2


def wide_facts():
    """Numbers that pass 64 bits, which are told as a text."""
    model = Model()
    x, y, z = model.variables(3)
    model.minimise(10**20 * x + 0.1 * y + 1e9 * ~z)
    model.clause([x, y, ~z])
    model.clause([~y, z])
    model.add(2**100 * x + 2**100 * y - z == 2**100 - 1)
    answer = model.solve()
    yield "wide numbers", (answer.values, answer.cost) == ((False, True, True), Fraction(0.1))
    model = Model()
    x, _ = model.variables(2)
    model.minimise(0)
    model.add((2**126 - 2) * x >= 1)
    yield "the greatest sum of numbers", model.solve() == Answer(Status.OPTIMUM, 0, (True, False))
    fault = raised(lambda: model.copy().add((2**126 - 1) * x >= 1))
    yield "and one more", isinstance(fault, Error) and fault.name == "TooLarge"


def copy_facts():
    model = Model()
    x, y = model.variables("x y")
    model.minimise(x + 2 * y)
    model.add(x + y >= 1)
    yield "a model", model.solve().cost == 1
    copied = model.copy()
    z = copied.variable("z")
    copied.add(~x + z >= 2)
    answer = copied.solve()
    yield "a copy takes more", (answer.cost, answer[x], answer[z], copied["x"].number) == (2, False, True, 1)
    yield "which the model does not have", model.solve().cost == 1 and len(model.solve().values) == 2
    yield "a literal made after the copy is not the copy's", is_foreign(lambda: model.copy().add(z >= 1))
    later = model.variable("z")
    yield "nor the other way round", is_foreign(lambda: copied.copy().add(later >= 1))
    asked = (answer, later), (model.copy().solve(), model.variable()), (copied.fixed(), copied.variable())
    for told, literal in asked:
        fault = raised(lambda: told[literal])
        yield f"nor an answer's that was there before: {fault!r}", isinstance(fault, ForeignLiteral) and "made after the model was asked" in fault.hint
    yield "a copy of a copy knows all", raised(lambda: copied.copy().clause([x, z])) is None


def is_foreign(call):
    fault = raised(call)
    return isinstance(fault, ForeignLiteral) and fault.name == "ForeignLiteral" and "another model" in str(fault)


def foreign_facts():
    model, other = Model(), Model()
    x, y = model.variable(), other.variable()
    calls = {
        "add": lambda: model.add(x + y >= 1), "clause": lambda: model.clause([x, y]), "minimise": lambda: model.minimise(3 * y),
        "maximise": lambda: model.maximise(x - y), "implies": lambda: model.implies(y, x), "implied": lambda: model.implies(x, y >= 1),
        "exactly": lambda: model.exactly(1, [x, y]), "at_most": lambda: model.at_most(1, [x, ~y]),
        "at_least": lambda: model.at_least(1, [y]), "total": lambda: model.add(total([x, y]) <= 1),
        "assumed": lambda: model.solve(assuming=[x, ~y]), "explained": lambda: model.explain([y]), "fixed": lambda: model.fixed([y]),
        "asked": lambda: model.fixed()[y], "start": lambda: model.solve(start={y: True}),
        "answers": lambda: model.solve(start=other.solve()),
        "answer": lambda: model.solve()[y], "value": lambda: model.solve().value(x + y),
    }  # fmt: skip
    for name, call in calls.items():
        yield f"a literal of another model: {name}", is_foreign(call)
    yield "nothing was added", model.copy().solve() == Answer(Status.SATISFIABLE, None, (False,))
    copied = raised(lambda: model.solve(start=model.copy().solve()))
    yield f"an answer of a copy: {copied}", isinstance(copied, ForeignLiteral) and "write start=answer.values" in copied.hint
    yield "whose values are taken", model.solve(start=model.copy().solve().values) == model.solve(start=solve("* #variable= 1")) == model.solve()
    yield "pickled", str(pickle.loads(pickle.dumps(ForeignLiteral()))) == str(ForeignLiteral())
    page = (TOP / "docs/EMBEDDING.md").read_text()
    yield "as docs/EMBEDDING.md says it", ForeignLiteral().hint in page


# ---- refusals


def refusal_facts():
    model = Model()
    x = model.variable("x")
    cases = (
        ("BadVariable", lambda: Literal(0)), ("BadVariable", lambda: model.variables(-1)), ("BadVariable", lambda: model.variables(10**15)),
        ("BadVariable", lambda: model.variables(2**20)), ("NameTaken", lambda: model.variable("x")),
        ("NameTaken", lambda: model.variables("y y")), ("NotFinite", lambda: float("nan") * x),
        ("NotFinite", lambda: model.add(x <= float("inf"))), ("NotFinite", lambda: x + Decimal("nan")),
        ("TooLarge", lambda: model.add(1e-300 * x >= 1)), ("TooLarge", lambda: model.minimise(2**126 * x)),
    )  # fmt: skip
    for name, call in cases:
        fault = raised(call)
        is_told = isinstance(fault, Error) and fault.name == name and fault.hint and str(fault) == f"{name}: {fault.hint}"
        yield f"{name}: {fault!r}", is_told and str(pickle.loads(pickle.dumps(fault))) == str(fault)
    yield "advice for fractions", "limit_denominator" in raised(lambda: model.add(1e-300 * x >= 1)).hint
    yield from other_refusals(model, x, Model().solve())
    model.add(x >= 1)
    yield "nothing was added", model.solve() == Answer(Status.SATISFIABLE, None, (True,), ("x",)) and model.variable("z").number == 2


def other_refusals(model, x, answer):
    """What other exceptions than those of the package tell."""
    cases = (
        (ValueError, lambda: model.solve(nodes=-1)), (ValueError, lambda: model.solve(time_limit=-1)),
        (TypeError, lambda: model.solve(time_limit="1")), (ValueError, lambda: Model().add(Constraint((), "<", 1))),
        (ValueError, lambda: model.solve(time_limit=float("nan"))), (ValueError, lambda: solve(TEXT, "lp")), (TypeError, lambda: bool(x)),
        (TypeError, lambda: bool(x + 1)), (TypeError, lambda: bool(x >= 1)), (TypeError, lambda: "1" * x), (TypeError, lambda: x + None),
        (TypeError, lambda: model.add(x)), (TypeError, lambda: model.clause([1])), (TypeError, lambda: model.at_most(1.5, [x])),
        (TypeError, lambda: model.implies(x, 1)), (TypeError, lambda: model.variables([1])), (TypeError, lambda: answer[1]),
        (LookupError, lambda: answer[Literal(1)]), (LookupError, lambda: answer["x"]), (KeyError, lambda: model["y"]),
        (ValueError, lambda: model.fixed(among="all")), (TypeError, lambda: model.solve(assuming=[1])),
        (TypeError, lambda: model.explain("x")), (LookupError, lambda: model.fixed()["y"]),
        (LookupError, lambda: model.fixed([x, ~x])["x"]), (KeyError, lambda: model.solve(start={"y": 1})),
        (LookupError, lambda: model.solve(start={Literal(2): 1})), (ValueError, lambda: model.explain([x], -1)),
        (TypeError, lambda: total([x, "y"])), (LookupError, lambda: solve("1 x1 >= 2 ;")[Literal(1)]), (ZeroDivisionError, lambda: x / 0),
    )  # fmt: skip
    for at, (kind, call) in enumerate(cases):
        yield f"refusal {at} is {kind.__name__}: {raised(call)!r}", type(raised(call)) in (kind, *kind.__subclasses__())


def room_facts():
    """The limits on constraints and terms, which are those of the library, with small ones in their place."""
    source, module = (TOP / "crates/pb_inst/src/limits.rt").read_text(), sys.modules["pbcube.model"]
    told = {name: int(number.replace("_", "")) for name, number in re.findall(r"const (MAX_\w+): \w+ = ([\d_]+);", source)}
    held = (module.MOST_VARIABLES, module._MOST_CONSTRAINTS, module._MOST_TERMS)
    yield "the limits of the library", held == (told["MAX_VARS"], told["MAX_CONSTRAINTS"], told["MAX_TERMS"])
    yield "and on cubes", sys.modules["pbcube.texts"].MOST_CUBES == told["MAX_CUBES"]
    module._MOST_CONSTRAINTS, module._MOST_TERMS = 2, 6
    model = Model()
    x, y = model.variables(2)
    model.minimise(x + y)
    model.minimise(x + 2 * y)
    model.add(x + y >= 1)
    for call in (lambda: model.clause([x, y, x]), lambda: model.minimise(total([x] * 5))):
        yield "terms", raised(call).name == "TooMany"
    model.clause([x])
    yield "constraints", raised(lambda: model.add(sum([]) == 0)).name == "TooMany" and model.solve().cost == 1
    module._MOST_CONSTRAINTS, module._MOST_TERMS = held[1:]
    searches = sys.modules["pbcube.searches"]
    kept = searches.search, searches.Kept.ask
    searches.search = searches.Kept.ask = lambda *_: (0, None, None, ("Memory", 0))
    yield "memory", type(raised(model.solve)) is type(raised(lambda: solve(TEXT))) is MemoryError
    searches.search, searches.Kept.ask = kept


REFUSED = (
    ("opb", "1 x1 >= 1", "Unfinished", 1, "with ;"), ("opb", "1 x1 >= 1 ;\nmin: 1 x1 ;", "LateObjective", 2, "in front"),
    ("opb", "x1 >= 1 ;", "Syntax", 1, "as 1 x1"), ("opb", "max: 1 x1 ;", "Syntax", 1, "min: of the negated sum"),
    ("opb", "1 x1 >= 1 ;\n1 x1 x2 >= 1 ;", "NonLinear", 2, "new variable"), ("opb", "1 x0 >= 1 ;", "BadVariable", 1, "1048576"),
    ("opb", f"{2**127} x1 >= 1 ;", "TooLarge", 1, "2^126 - 1"), ("opb", "* #variable= 1048577\n", "TooMany", 1, "1048576"),
    ("opb", "p cnf 1 1\n1 0\n", "Unfinished", 1, "solve(text, 'cnf')"), ("cnf", "p inccnf\n1 0\n", "BadHeader", 1, "solve(text, 'icnf')"),
    ("cnf", "* #variable= 1\n1 x1 >= 1 ;", "BadHeader", 1, "solve(text, 'opb')"), ("cnf", "1 0\n", "BadHeader", 1, "p cnf"),
    ("cnf", "p cnf 1 1\n1 0 1 0\n", "TooManyClauses", 2, "header"), ("cnf", "p cnf 1 2\n1 0\n", "TooFewClauses", 2, "header"),
    ("icnf", "p inccnf\na 1 0\n1 0\n", "ClauseAfterCube", 3, "before the first cube"), ("opb", "\x1f\x8b\x08", "Unfinished", 1, "gzip"),
)  # fmt: skip


def text_facts():
    for format, text, name, line, hint in REFUSED:
        data = text.encode("latin-1")
        fault = raised(lambda: solve(data, format))
        is_told = isinstance(fault, Refused) and (fault.line, hint in fault.hint) == (line, True) and fault.name == name
        text_again = str(pickle.loads(pickle.dumps(fault)))
        yield f"{text!r}: {fault!r}", is_told and str(fault) == text_again == f"{fault.name} at line {line}: {fault.hint}"


def hint_facts():
    """A refused text has the hint of the program to the letter: what that says of its file is said of the text, and a call stands in
    place of its option."""
    begun = [(format, text, f"the text {hint}") for format, text, hint in BEGUN]
    for format, text, hint in [*begun, *PLACED]:
        for call, reads in ((solve, "solve"), (Model.read, "Model.read")):
            told = re.sub(r"give --format (\w+)$", rf"call {reads}(text, '\1')", hint)
            fault = raised(lambda: call(text, format))
            yield f"{reads} of {text!r}: {fault!r} and not {told}", isinstance(fault, Refused) and fault.hint == told


def shared_hint_facts():
    """What is refused in a text and in a model alike is mended by the same words."""
    model = Model()
    x, y = model.variables(2)
    alike = (
        (AT_LEAST.split(", as")[0], lambda: x + y > 1), (AT_MOST.split(", as")[0], lambda: x + y < 2),
        (NO_PRODUCT.split(": ")[1], lambda: x * y), (TO_MOST, lambda: Literal(0)), (TO_MOST, lambda: model.variables(2**20)),
        (SMALL_SUMS, lambda: model.add(2**126 * x >= 1)), (SMALL_SUMS, lambda: raise_as(Error("TooLarge"))),
        (LIMITS, lambda: raise_as(Error("TooMany"))),
    )  # fmt: skip
    for at, (words, call) in enumerate(alike):
        yield f"hint {at}: {raised(call)!r}", words.replace("^", "**") in str(raised(call))


def raise_as(fault):
    raise fault


# ---- models as texts

WRITTEN = """* #variable= 4 #constraint= 7
min: -1 x1 4 ~x2 36893488147419103232 x2 ;
1 x1 1 ~x2 1 x4 >= 1 ;
2 x1 6 ~x2 >= 3 ;
1 x1 -1 x2 <= 0 ;
1 x1 1 x3 = 1 ;
18446744073709551616 x1 >= -1 ;
>= 1 ;
0 x4 -3 x1 >= -2 ;
"""


def written_facts():
    """A model as a text, in a file, and read from both."""
    model = Model()
    x, y, z, w = model.variables(["x", "x1", "<=", "w w"])
    model.maximise(x / 4 - ~y - 2**63 * y + 7)
    model.clause([x, ~y, w])
    model.add(x / 3 + ~y >= 0.5)
    model.add(x <= y)
    model.exactly(1, [x, z])
    model.add(2**64 * x >= -1)
    model.add(sum([]) == 1)
    model.add(0 * w - 3 * x >= -2)
    yield f"written: {model.text()}", model.text() == model.copy().text() == WRITTEN
    yield "of nothing", Model().text() == "* #variable= 0 #constraint= 0\n" and Model.read("").text() == Model().text()
    with tempfile.TemporaryDirectory() as folder:
        path = Path(folder) / "a model.opb"
        model.write(path)
        yield "in a file", path.read_bytes() == WRITTEN.encode()
        model.write(str(path))
        again = [Model.read(it) for it in (path, str(path), WRITTEN, WRITTEN.encode(), bytearray(WRITTEN, "ascii"))]
        yield "read again", [it.text() for it in again] == [WRITTEN] * 5
        missing = raised(lambda: Model.read(str(path.with_suffix(".cnf"))))
        yield f"no such file: {missing}", isinstance(missing, FileNotFoundError) and "a text has a ';'" in str(missing)
    yield "names", [again[0][f"x{number}"].number for number in range(1, 5)] == [1, 2, 3, 4] and "x5" not in again[0]._names
    yield "the same answer", again[0].solve().values == model.solve().values
    yield "no format", type(raised(lambda: Model.read(TEXT, "lp"))) is ValueError
    read = Model.read("p inccnf\n1 2 0\nc a note\n-1 0\na 1 -3 0\na 0\n%\n", "icnf")
    cubes = ((read["x1"].number, -read["x3"].number), ())
    numbers = [tuple(tuple(it.number for it in cube) for cube in it.cubes) for it in (read, read.copy(), pickle.loads(pickle.dumps(read)))]
    yield "cubes", numbers == [cubes] * 3 and repr(read.cubes) == "((x1, ~x3), ())" and model.cubes == ()
    yield "which no text has", read.text() == "* #variable= 3 #constraint= 2\n1 x1 1 x2 >= 1 ;\n1 ~x1 >= 1 ;\n"
    yield "and which are literals of the model", raised(lambda: read.clause(read.cubes[0])) is None


def read_facts():
    """Each instance that is read is the one that docs/FORMATS.md tells, by a reader of the tests, and reads again as it is written."""
    files = [it for it in sorted((TOP / "examples").rglob("*.*")) if it.suffix[1:] in FORMATS]
    for path in files:
        yield str(path), is_read_alike(path.suffix[1:], path.read_bytes()) and Model.read(path, path.suffix[1:]).text() is not None
    yield "of each format", {it.suffix[1:] for it in files} == {*FORMATS}
    for number, instance in enumerate(instances(INSTANCES)):
        yield f"instance {number}", is_read_alike(instance.format, instance.text().encode())
    random.seed(11)
    for number in range(INSTANCES // 6):
        text = drawn_model()[0].text()
        yield f"model {number}", Model.read(text).text() == text and is_read_alike("opb", text.encode())
    close = [b"min:2 x1 -3 ~x2;+1 x1>=-1;", b"min:", b"min:;", b"a:1 x1 >= 1 ;", b"1:x1 >= 1 ;", b"1 x1 := 1 ;", b"1 x1 < = 1 ;", b";"]
    texts = [*(("opb", text) for text in close), *((format, text) for format, text, *_ in (*WORKED, *SPOILED))]
    for format, text in texts:
        yield f"{format}: {text!r}", is_read_alike(format, text)
    for format, text in SPOILED:
        spoiled = [text[:at] + more + text[at + cut :] for at in range(len(text) + 1) for more in (b"", *SPOILS) for cut in (0, 1)]
        wrong = [it for it in [*spoiled, *(text[:at] for at in range(len(text)))] if not is_read_alike(format, it)]
        yield f"{format} that is spoiled: {wrong[:3]}", wrong == []
    zeros, digits = b"0" * 5000, b"9" * 5000
    for text in (zeros + b"1 x1 >= 1 ;", digits + b" x1 >= 1 ;", b"1 x" + digits + b" >= 1 ;", b"* #variable= " + digits):
        yield f"long: {text[:3]} {text[-9:]}", refusal_of("opb", text) == ("" if text[:1] == b"0" else long_fault(text))


def long_fault(text):
    return f"{'TooLarge' if text[:1] == b'9' else 'BadVariable' if text[:1] == b'1' else 'TooMany'} at line 1"


def refusal_of(format, text):
    """The fault that a text is refused with, and its line; nothing where it is read."""
    fault = raised(lambda: Model.read(text, format))
    return f"{fault.name} at line {fault.line}" if isinstance(fault, Refused) else "" if fault is None else repr(fault)


def is_read_alike(format, text):
    """Whether a text is read, or refused, as the reader of the tests does, and is spelled by the model where it is read."""
    try:
        instance = replace(read(format, text), is_cnf=False)
    except FormatRefused as fault:
        return refusal_of(format, text) == str(fault)
    try:
        written = Model.read(text, format).text()
        return written == instance.text() == Model.read(written).text()
    except Refused:
        return False


def limit_of_text_facts():
    """Texts beyond the limits, with small ones in their place, and what is said of refused texts."""
    module, texts = sys.modules["pbcube.model"], sys.modules["pbcube.texts"]
    held = module._MOST_CONSTRAINTS, module._MOST_TERMS, texts.MOST_CUBES
    module._MOST_CONSTRAINTS, module._MOST_TERMS, texts.MOST_CUBES = 2, 6, 2
    cases = (
        ("opb", ">= 0 ;\n>= 0 ;", ""), ("opb", ">= 0 ;\n\n>= 0 ;\n>= 0 ;", "TooMany at line 4"),
        ("opb", "min: 1 x1 1 x1 1 x1 1 x1 1 x1 1 x1 1 x1 ;", "TooMany at line 1"), ("opb", "1 x1 " * 6 + "= 1 ;", ""),
        ("opb", "min: 1 x1 ;\n" + "1 x1 " * 6 + ">= 1 ;", "TooMany at line 2"),
        ("cnf", "p cnf 1 3\n", "TooMany at line 1"), ("cnf", "p cnf 1 2\n1 1 1 1 0\n1 1\n1 0", "TooMany at line 3"),
        ("icnf", "p inccnf\n1 0 1 0 1 0", "TooMany at line 2"), ("icnf", "p inccnf\na 1 0\na 0\na 1 0", "TooMany at line 4"),
        ("icnf", "p inccnf\na 1 1 1 1 0\na 1 1 1 0\n", "TooMany at line 3"), ("icnf", "p inccnf\na 1 1 1 0\na 1 1 1 0\n", ""),
    )  # fmt: skip
    for format, text, told in cases:
        yield f"{format}: {text!r}", refusal_of(format, text.encode()) == told
    module._MOST_CONSTRAINTS, module._MOST_TERMS, texts.MOST_CUBES = held
    for format, text, name, line, hint in REFUSED:
        fault = raised(lambda: Model.read(text.encode("latin-1"), format))
        is_told = isinstance(fault, Refused) and (fault.name, fault.line) == (name, line)
        yield f"{text!r} as a model: {fault!r}", is_told and hint.replace("solve(", "Model.read(") in fault.hint
    yield "a str", raised(lambda: Model.read("1 x1 >= 1 ;\n1 x1")).line == 2


# ---- random models beside a listing


def drawn_number():
    whole = random.randint(-9, 9)
    return random.choice((whole, whole / 4, Fraction(whole, 3), random.choice((0.1, -2.7, 1e6))))


def drawn_sum(literals):
    chosen = random.sample(literals, random.randint(1, 4))
    return [(drawn_number(), literal) for literal in chosen], drawn_number()


def worth(literal, values):
    return values[abs(literal) - 1] == (literal > 0)


def worth_of(drawn, values):
    terms, constant = drawn
    return Fraction(constant) + sum(Fraction(coefficient) * worth(literal, values) for coefficient, literal in terms)


def tell_rule(model, of, literals):
    """Adds a random rule to the model, and answers how it is tested."""
    kind = random.choice(("sum", "sum", "clause", "implies", "implies sum", "at_least", "at_most", "exactly"))
    chosen = random.sample(literals, random.randint(1, 4))
    count, relation = random.randint(0, 3), random.choice([*RELATIONS])
    drawn, bound = drawn_sum(literals), drawn_number()
    rule = RELATIONS[relation](told_sum(of, drawn), bound)
    holds = lambda values: RELATIONS[relation](worth_of(drawn, values), Fraction(bound))
    true = lambda values: sum(worth(literal, values) for literal in chosen)
    first, last = chosen[0], chosen[-1]
    calls = {
        "sum": (lambda: model.add(rule), holds),
        "clause": (lambda: model.clause(map(of, chosen)), lambda values: true(values) >= 1),
        "implies": (lambda: model.implies(of(first), of(last)), lambda values: worth(first, values) <= worth(last, values)),
        "implies sum": (lambda: model.implies(of(first), rule), lambda values: not worth(first, values) or holds(values)),
        "at_least": (lambda: model.at_least(count, map(of, chosen)), lambda values: true(values) >= count),
        "at_most": (lambda: model.at_most(count, map(of, chosen)), lambda values: true(values) <= count),
        "exactly": (lambda: model.exactly(count, map(of, chosen)), lambda values: true(values) == count),
    }
    call, tested = calls[kind]
    call()
    return tested


def told_sum(of, drawn):
    terms, constant = drawn
    return total([*(coefficient * of(literal) for coefficient, literal in terms), constant])


def drawn_model():
    """A random model, and the answer that a listing finds."""
    model = Model()
    variables = model.variables(random.randint(4, 7))
    literals = [number * sign for number in range(1, len(variables) + 1) for sign in (1, -1)]
    of = lambda literal: variables[literal - 1] if literal > 0 else ~variables[-literal - 1]
    tests = [tell_rule(model, of, literals) for _ in range(random.randint(1, 5))]
    aim, sign = drawn_sum(literals), random.choice((-1, 0, 1))
    if sign:
        (model.minimise if sign > 0 else model.maximise)(told_sum(of, aim))
    listed = itertools.product((False, True), repeat=len(variables))
    feasible = [values for values in listed if all(holds(values) for holds in tests)]
    if not feasible:
        return model, Answer(Status.UNSATISFIABLE, None, None)
    best = min(feasible, key=lambda values: sign * worth_of(aim, values))
    return model, Answer(Status.OPTIMUM, worth_of(aim, best), best) if sign else Answer(Status.SATISFIABLE, None, best)


def question_facts():
    """Questions of one model, with rules between them: of these tests/questions.py asks many, of this process alone."""
    model = Model()
    x, y, z = model.variables("x y z")
    unnamed = model.variable()
    model.minimise(3 * x + 2 * y)
    model.add(x + y >= 1)
    yield "under a literal", model.solve(assuming=[~y]).named() == {"x": True, "y": False, "z": False}
    yield "of no rule", model.solve(assuming=[unnamed])[unnamed]
    yield "twice of no rule", model.solve(assuming=[unnamed, ~unnamed]).status is Status.UNSATISFIABLE
    why = model.explain([z, ~x, unnamed, ~y])
    yield "why", why.status is Status.UNSATISFIABLE and why.is_minimal and [it.number for it in why.core] == [-1, -2]
    yield "a core has names with signs", repr(why.core) == str(why.core) == "(~x, ~y)"
    why = model.explain([x, ~y])
    yield "no core", isinstance(why, Explanation) and (why.status, why.core, why.is_minimal) == (Status.SATISFIABLE, None, False)
    fixed = model.fixed([~x])
    yield "fixed", (fixed[x], fixed[~x], fixed["y"], fixed[z], fixed[~z], fixed[unnamed]) == (False, True, True, None, None, None)
    yield "fixed in the least", model.fixed(among="least").named() == {"x": False, "y": True, "z": None}
    yield "nothing is fixed", model.fixed([x, ~x]).status is Status.UNSATISFIABLE and model.fixed([x, ~x]).named() == {}
    cut = model.fixed(nodes=0)
    yield "cut", cut.status is Status.UNKNOWN and not cut.is_known(x) and cut.named() == {}
    yield "not known", isinstance(raised(lambda: cut[x]), LookupError) and str(raised(lambda: cut[~x])).startswith("whether x is fixed is not")
    first = model.solve(0, start={x: True, ~y: True, "z": True})
    yield "a start", (first.status, first.cost, first[z]) == (Status.FOUND, 3, True)
    model.add(x + z >= 2)
    yield "a rule after questions", model.solve(start=first).cost == 3 and [it.name for it in model.explain([y, ~z]).core] == ["z"]
    model.minimise(x + 5 * z + unnamed)
    yield "an objective after questions", model.solve(start=model.solve()).cost == 6 and model.solve(assuming=[unnamed]).cost == 7
    model.add(2**70 * y >= 1)
    yield "numbers over 64 bits", model.solve(assuming=[unnamed])["y"] and model.solve(assuming=[~y]).status is Status.UNSATISFIABLE
    yield "which ask for less", raised(lambda: model.explain([~y])).name == raised(model.fixed).name == "TooLarge"


def start_facts():
    """The values of a start that misses one rule are the first that a search tries: what it finds first differs from it in little."""
    random.seed(3)
    model = Model()
    items = model.variables(24)
    model.minimise(total((1 + at % 5) * item for at, item in enumerate(items)))
    for _ in range(30):
        model.at_least(2, random.sample(items, 5))
    model.clause(items[:2])
    start = {item: at > 1 for at, item in enumerate(items)}
    plain, led = model.solve(24), model.copy().solve(24, start=start)  # of a copy, which does not know the plain one
    yield "both are cut", plain.status is led.status is Status.FOUND
    yield "a start is tried first", sum(led[item] != value for item, value in start.items()) <= 4
    yield "and else it is not", sum(plain[item] != value for item, value in start.items()) > 8
    yield from facts_of_whole_starts(model, items)


def facts_of_whole_starts(model, items):
    """A start that keeps to everything is an answer itself, also where no search gets to it."""
    everything = [True] * len(items)
    cost = sum(1 + at % 5 for at in range(len(items)))
    for words in ({"nodes": 0}, {"nodes": 0, "assuming": items[:3]}):
        begun = (model if "assuming" in words else model.copy()).solve(start=everything, **words)
        yield f"a start that keeps to all, {words}", (begun.status, begun.cost, begun.values) == (Status.FOUND, cost, (True,) * len(items))
    yield "one that does not", model.copy().solve(0, start=[False] * len(items)).status is Status.UNKNOWN
    yield "nor to what is assumed", model.solve(0, start=everything, assuming=[~items[9]]).status is Status.UNKNOWN
    more = model.copy()
    answer = more.solve(0, start=everything)
    more.variable()
    more.minimise(total((1 + at % 5) * item for at, item in enumerate(items)) + 7)
    yield "of an answer before there were more variables", more.solve(0, start=answer).cost == cost + 7
    yield from facts_of_told_starts()


def facts_of_told_starts():
    """What a start tells by itself is what a search tells where each variable has the value of the start."""
    model = Model()
    x, y, z = variables = model.variables(3)
    model.maximise(10**30 * x - Fraction(1, 2) * y)
    for rule in (2 * x + 3 * ~y >= 3, x + y + z <= 2, 10**25 * x + 10**25 * z == 10**25):
        model.add(rule)
    model.clause([y, ~z])
    statements = model._asked("solve", [], b"", 0).statements.after(None)
    for values in itertools.product((False, True), repeat=3):
        told = starts.told_by(bytes(values), statements, [])
        searched = model.solve(assuming=[variable if value else ~variable for variable, value in zip(variables, values)])
        cost = None if searched.cost is None else -2 * searched.cost
        yield f"a start of {values}", told[:2] == ((1, None) if cost is None else (11, cost))


def never_worse_facts():
    """A later answer is never worse than an earlier one until something is stated, and a whole one is the answer of all later ones."""
    random.seed(4)
    drawn = Model()
    items = drawn.variables(60)
    drawn.minimise(total(random.randint(20, 40) * item for item in items))
    for _ in range(60):
        drawn.at_least(2, random.sample(items, 6))
    read = [Model.read(TOP / f"examples/hard/{name}.opb") for name in ("knapsack", "cover")]
    for at, model in enumerate((*read, drawn)):
        costs = [model.solve(nodes).cost for nodes in GROWING]
        known = [cost for cost in costs if cost is not None]
        yield f"model {at} with more decisions: {costs}", len(known) > 2 and costs[-len(known) :] == known == sorted(known)[::-1]
        again = [model.solve(nodes).cost for nodes in (0, *GROWING[::-1])]
        yield f"model {at} with fewer: {again}", again[0] == known[-1] and again == sorted(again)[::-1]
        told = []
        answer = model.solve(3000, on_better=lambda better: told.append(better.cost))
        yield f"model {at} tells: {told}", told[0] == again[-1] and told[-1] == answer.cost and told == sorted({*told})[::-1]
        yield f"model {at} with no time", model.solve(time_limit=0) == answer
    model, x = read[0], read[0]["x1"]
    whole, worse = model.solve(), {f"x{number}": False for number in range(1, 9)}
    later = model.solve(0), model.solve(0, start=worse), model.solve(time_limit=0), model.solve(on_better=told.append)
    yield "a whole answer stays", whole.status is Status.OPTIMUM and all(it == whole for it in later) and told[-1] == whole
    fewer = model.copy().solve(0, start=worse), model.solve(0, assuming=[x]), model.solve(0, assuming=[~x])
    yield "of the same assumptions alone", all(it.status is not Status.OPTIMUM for it in fewer)
    yield "in any order", model.solve(assuming=[x, ~model["x2"]]) == model.solve(0, assuming=[~model["x2"], x, x])
    yield "that nothing is feasible", model.solve(assuming=[x, ~x]) == model.solve(time_limit=0, assuming=[x, ~x])
    for literals in itertools.islice(itertools.combinations([model[f"x{number}"] for number in range(1, 20)], 2), 120):
        model.solve(1, assuming=literals, start=[False] * len(whole.values))
    yield "of few assumptions", len(model._found) <= 100
    model.add(x + model["x2"] <= 1)
    model.add(total([]) + x >= int(not whole[x]))
    yield "until something is stated", model._found == {} and model.solve(0).status is not Status.OPTIMUM
    model.minimise(x)
    yield "or aimed at", model._found == {} and model.solve().cost == int(not whole[x])


def kept_facts():
    """A child answers question after question of one model. It ends with the model, and where many wait."""
    searches = sys.modules["pbcube.searches"]
    is_small, searches._is_small = searches._is_small, lambda _: False
    models = []
    for _ in range(6):
        model = Model()
        x, y = model.variables(2)
        model.add(x + y == 1)
        models.append((model, x, y, model.fixed([x])[y]))
    yield "fixed by a child", all(fixed is False for *_, fixed in models)
    yield f"children that wait: {waiting()}", len(waiting()) == searches._MOST_WAITING
    model, x, y, _ = models[-1]
    before = waiting()
    model.add(x >= 1)
    answers = model.solve()[x], model.explain([y]).status, model.solve(assuming=[y], time_limit=60).status
    yield "a kept one is told more", answers == (True, Status.UNSATISFIABLE, Status.UNSATISFIABLE) and waiting() == before
    yield "one that was ended is started anew", models[0][0].fixed([models[0][1]])[models[0][2]] is False
    killed = waiting()[-1]
    os.kill(killed, signal.SIGKILL)
    yield "one that was killed while it waited too", has_ended(killed) and all(it.fixed([x])[y] is False for it, x, y, _ in models)
    asked = []
    thread = threading.Thread(target=lambda: asked.append(model.solve(assuming=[x], time_limit=60).status))
    thread.start()
    thread.join()
    yield "in another thread", asked == [Status.SATISFIABLE] and model.solve(assuming=[x], time_limit=60).status is Status.SATISFIABLE
    del models, model, x, y
    yield "each ends with its model", waiting() == [] and raised(lambda: os.waitpid(-1, os.WNOHANG)).__class__ is ChildProcessError
    searches._is_small = is_small


def waiting():
    """The children that wait for questions, the one that does so longest first."""
    searches = sys.modules["pbcube.searches"]
    return [child._process.pid for child in (it() for it in searches._waiting) if child is not None]


def random_facts():
    random.seed(7)
    for number in range(MODELS):
        model, expected = drawn_model()
        found = model.solve()
        yield f"model {number}: {found} and not {expected}", found == expected


def child_facts():
    """What a child finds is what this process finds, in all formats, with fractions and with budgets."""
    searches = sys.modules["pbcube.searches"]
    random.seed(8)
    models = [drawn_model() for _ in range(IN_CHILD)]
    clauses = "p cnf 3 2\n1 2 0\n-1 3 0\n"
    cubes = "p inccnf\n1 2 0\na 1 0\n"
    calls = [lambda: solve(TEXT), lambda: solve(TEXT, nodes=0), lambda: solve(clauses, "cnf"), lambda: solve(cubes, "icnf")]
    here = [call() for call in calls]
    kept, searches._is_small = searches._is_small, lambda _: False
    yield "texts by a child", [call() for call in calls] == here
    yield "models by a child", [model.solve() for model, _ in models] == [expected for _, expected in models]
    yield "with a time limit", models[0][0].solve(time_limit=60) == models[0][1] and solve(TEXT, time_limit=0).status is Status.UNKNOWN
    yield "a refusal by a child", isinstance(raised(lambda: solve("1 x1 x2 >= 1 ;")), Refused)
    python, sys.executable = sys.executable, "/opt/a program/with/its own"
    yield "with no Python to start", solve(TEXT) == here[0] and isinstance(raised(lambda: solve(TEXT, time_limit=9)), ChildProcessError)
    sys.executable = python
    answers = []
    thread = threading.Thread(target=lambda: answers.extend((solve(TEXT), solve(TEXT, time_limit=60))))
    thread.start()
    thread.join()
    yield "in another thread", answers == [here[0], here[0]]
    searches._is_small = kept
    yield "with no child left", raised(lambda: os.waitpid(-1, os.WNOHANG)).__class__ is ChildProcessError


STRANGERS = (  # what a program of the name pbcube does, and a part of what is said of it
    ("echo hello", "/pbcube ended with status 0 and wrote no report"), ("true", "status 0"), ("echo; echo s SATISFIABLE", "status 0"),
    ("echo s OPTIMUM FOUND", "status 0"), ("echo o many; echo s OPTIMUM FOUND; echo v x1", "status 0"), ("echo v x1", "status 0"),
    ("echo c of another; echo s UNKNOWN", "status 0"), ("printf '\\377\\n'", "status 0"),
    ("echo usage >&2; echo pbcube: no file >&2; exit 2", "status 2 and wrote no report: its last line on standard error is 'pbcube: no"),
    ("seq 99999 >&2; exit 3", "status 3 and wrote no report: its last line on standard error is '99999'"),
)  # fmt: skip


def taken_facts():
    """The error tells a name that stands twice in one call, of which nothing was made, from one that a variable has."""
    model = Model()
    model.variable("x")
    yield "twice in a call", "among these names twice" in raised(lambda: model.variables("p q p")).hint and "p" not in model
    yield "taken", "model['x'] is its literal" in raised(lambda: model.variables("q x")).hint and "q" not in model


def warned_facts():
    """Several workers have nothing to do where there is one piece, and a caller is warned of that alone."""
    warned, silent = [(4, None), (2, 0)], [(4, 2), (1, None), (None, 3), (4, None, "icnf")]
    for words, is_warned in [*((it, True) for it in warned), *((it, False) for it in silent)]:
        with warnings.catch_warnings(record=True) as told:
            warnings.simplefilter("always")
            Workers.of(*words)
        yield f"warned of {words}", [("give split=" in str(it.message)) for it in told] == [True] * is_warned


def stranger_facts():
    """Another program has the name of the one that is called with workers."""
    model, named = Model.read(TEXT), os.environ.get("PBCUBE_PROGRAMS")
    with tempfile.TemporaryDirectory() as folder:
        (path := Path(folder) / "pbcube").touch()
        path.chmod(0o755)
        os.environ["PBCUBE_PROGRAMS"] = folder
        for does, told in STRANGERS:
            path.write_text(f"#!/bin/sh\n{does}\n")
            for call in (lambda: model.solve(workers=1), lambda: solve(TEXT, workers=1, time_limit=PATIENCE)):
                fault = raised(call)
                is_told = isinstance(fault, Error) and fault.name == "NoReport" and str(path) in fault.hint and told in fault.hint
                yield f"{does}: {fault!r}", is_told
        path.write_bytes(b"\x7fELF")
        yield "no program at all", "Exec format error" in raised(lambda: solve(TEXT, workers=1)).hint
        path.write_text("#!/bin/sh\nkill -9 $$\n")
        yield "one that is killed", raised(lambda: solve(TEXT, workers=1)).name == "Ended"
    del os.environ["PBCUBE_PROGRAMS"]
    os.environ.update({"PBCUBE_PROGRAMS": named} if named else {})


# ---- searches that are ended


class Run:
    """A Python that runs the text, in a group of its own, and what it says."""

    def __init__(self, text):
        environment = {**os.environ, "PYTHONPATH": str(PYTHON), "PYTHONDONTWRITEBYTECODE": "1"}
        pipes = {"stdout": subprocess.PIPE, "stderr": subprocess.STDOUT, "stdin": subprocess.DEVNULL, "text": True}
        self.process = subprocess.Popen([sys.executable, "-c", HARD + text], env=environment, start_new_session=True, **pipes)

    def line(self):
        """The next line, and how many seconds it took."""
        begun = time.monotonic()
        return self.process.stdout.readline().strip(), time.monotonic() - begun

    def child(self):
        """The process of its search, once that has the library."""
        for _ in range(1000):
            found = [it for it in os.listdir("/proc") if it.isdigit() and is_searching(it, self.process.pid)]
            if found:
                return int(found[0])
            time.sleep(0.02)
        sys.exit("python: no search has begun")


def is_searching(pid, parent):
    """Whether it is a child of the parent that runs the search, and not yet still the parent's program, and has the library."""
    try:
        is_child = int(stat_of(pid)[1]) == parent and "library.py" in open(f"/proc/{pid}/cmdline").read()
        return is_child and "libpbcube" in open(f"/proc/{pid}/maps").read()
    except OSError:
        return False


def stat_of(pid):
    """The state of a process, its parent and so on."""
    return open(f"/proc/{pid}/stat").read().rpartition(")")[2].split()


def has_ended(pid):
    """Whether the process ends soon. What nobody has asked about may stay, as a zombie."""
    for _ in range(PATIENCE * 50):
        try:
            if stat_of(pid)[0] == "Z":
                return True
        except OSError:
            return True
        time.sleep(0.02)
    return False


INTERRUPTED = """
while True:
    try:
        say("begun")
        say("found", hard().solve())
    except KeyboardInterrupt:
        say("interrupted", children(), easy())
"""


def interrupt_facts(send):
    """Ctrl-C within a search, and at other times from the beginning of a call on, as while the child starts."""
    run = Run(INTERRUPTED)
    for delay in (None, None, 0, 0.005, 0.01, 0.02, 0.03, 0.05, 0.1):
        run.line()
        if delay is None:
            run.child()
        time.sleep(delay or 0)
        send(run.process.pid, signal.SIGINT)
        said, seconds = run.line()
        yield f"Ctrl-C by {send.__name__} after {delay} seconds: {said!r}", said == "interrupted [] 2"
        yield f"Ctrl-C by {send.__name__} after {delay} seconds took {seconds}", seconds < PATIENCE
    run.process.kill()
    run.process.wait()


ASKED = """
pbcube.searches._is_small = lambda _: False
model, x = hard(), pbcube.Literal(1)
say(model.fixed([x, ~x]).status, len(children()))
try:
    model.fixed()
except KeyboardInterrupt:
    say("interrupted", children(), model.fixed([x, ~x]).status, len(children()))
say(model.fixed(time_limit=0.5).status, children())
"""


def question_end_facts():
    """A child that is kept ends with Ctrl-C and with a time limit, and the model asks another one."""
    run = Run(ASKED)
    yield "a question", run.line()[0] == "Status.UNSATISFIABLE 1"
    time.sleep(0.3)
    run.process.send_signal(signal.SIGINT)
    for told in ("interrupted [] Status.UNSATISFIABLE 1", "Status.UNKNOWN []"):
        said, _ = run.line()
        yield f"a question that is ended: {said!r}", said == told
    yield "and then it ends", run.process.wait() == 0


ALARMED = """
def ring(*_):
    raise RuntimeError("rung")
signal.signal(signal.SIGUSR1, ring)
signal.signal(signal.SIGINT, lambda *_: say("noted"))
try:
    hard().solve()
except RuntimeError:
    say("rung", children(), easy())
try:
    hard().solve()
except pbcube.Error as fault:
    say(fault.name, children(), easy())
"""


def exception_facts():
    """A signal whose handler returns does not end the search, one whose handler raises does; and a child that another one kills."""
    run = Run(ALARMED)
    run.child()
    os.killpg(run.process.pid, signal.SIGINT)
    yield "a handler that returns", run.line()[0] == "noted" and run.process.poll() is None
    run.process.send_signal(signal.SIGUSR1)
    said, seconds = run.line()
    yield f"a handler that raises: {said!r} after {seconds} seconds", said == "rung [] 2" and seconds < PATIENCE
    os.kill(run.child(), signal.SIGKILL)
    yield "a child that is killed", run.line()[0] == "Ended [] 2" and run.process.wait() == 0


LIMITED = """
import time
begun = time.monotonic()
answer = hard().solve(time_limit=1)
say(answer.status, answer.cost, answer.values, children(), time.monotonic() - begun < 1 + {patience})
model = pbcube.Model()
parts = model.variables(100)
weights = [[pow(row + 5, at + 3, 997) for at in range(100)] for row in range(10)]
gains = [sum(column) // 10 + pow(7, at + 3, 97) for at, column in enumerate(zip(*weights))]
model.maximise(pbcube.total(gain * part for gain, part in zip(gains, parts)))
for row in weights:
    model.add(pbcube.total(weight * part for weight, part in zip(row, parts)) <= sum(row) // 2)
answer = model.solve(time_limit=4)
taken = lambda row: sum(number for number, value in zip(row, answer.values) if value)
say(answer.status, all(taken(row) <= sum(row) // 2 for row in weights), answer.cost == taken(gains), children(), easy())
seen = []
thread = threading.Thread(target=lambda: seen.append(hard().solve(time_limit=0.3).status))
thread.start()
thread.join()
say(seen, children())
"""


def limit_facts():
    run = Run(LIMITED.format(patience=PATIENCE))
    expected = ("Status.UNKNOWN None None [] True", "Status.FOUND True True [] 2", "[Status.UNKNOWN] []")
    for told in expected:
        said = run.line()[0]
        yield f"time limit: {said} and not {told}", said == told
    yield "it ends", run.process.wait() == 0


def death_facts():
    run = Run("hard().solve()")
    child = run.child()
    run.process.kill()
    run.process.wait()
    yield "where the process is killed its child ends", has_ended(child)


def main():
    written = [name_facts, table_facts, many_name_facts, pickle_facts, number_facts, flag_facts, gathered_facts, written_facts, read_facts]
    calls = [value_facts, page_facts, wide_facts, copy_facts, question_facts, start_facts, random_facts, child_facts, kept_facts]
    refusals = [other_name_facts, subclass_facts, mistake_facts, foreign_facts, refusal_facts, room_facts, text_facts, hint_facts, shared_hint_facts, limit_of_text_facts]
    interrupts = [lambda: interrupt_facts(os.kill), lambda: interrupt_facts(os.killpg), question_end_facts]
    ends = [taken_facts, warned_facts, stranger_facts, *interrupts, exception_facts, limit_facts, death_facts]
    facts = [fact for part in (*written, *calls, never_worse_facts, *refusals, *ends) for fact in part()]
    wrong = [what for what, holds in facts if not holds]
    print(*(f"python: not so: {it}" for it in wrong), sep="\n", end="\n" if wrong else "")
    print(f"python: {len(facts) - len(wrong)} facts of the package hold, {len(wrong)} do not")
    return 1 if wrong else 0


if __name__ == "__main__":
    sys.exit(main())
