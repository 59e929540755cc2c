#!/usr/bin/env python3
"""Asks the package for Python under limits, with many workers, and about constraints by name, and prints what is wrong.

    tests/runs/python_searches.py

Ten instances are searched with more and more decisions, each time one search after another: no answer is worse than one of fewer
decisions, and each better one is told. A time limit finds what it finds where a first search of few decisions finds nothing. The
program pbcube with workers gives the answers of the library. Constraints whose names are told cannot hold together, by a listing of all
assignments, and can without any one of them. What is fixed is what an answer under each literal tells. Where there is no C compiler,
and so no library, all is left out.
"""
import itertools
import os
import pickle
import random
import subprocess
import sys
import tempfile
import threading
import time
from pathlib import Path

sys.dont_write_bytecode = True
sys.path.insert(0, str(Path(__file__).resolve().parents[1]))
from lib import TOP, callers

callers.package()
import pbcube
from pbcube import Model, Status, solve, total
from pbcube.programs import find

INSTANCES = (
    *("cover 300", "sets 340", "units 185", "random 180", "knapsack 500"),
    *("machines 600", "routes 14", "parity 100", "cut 85", "grid 11"),
)
BUDGETS = (300, 1_200, 5_000, 12_000)  # each allows more searches than the one before, and cuts the last of them short
PATIENCE = 30  # seconds, of a machine that may be busy
LIMITS = (4, 16, PATIENCE)  # seconds, of which the first are enough where the machine is not busy
CONFLICTS = 60  # random models with names
PROGRAM_MODELS = 12
FIXED_MODELS = 12


def raised(call):
    """What the call raises, or nothing."""
    try:
        call()
    except Exception as fault:
        return fault
    return None


def has_children():
    """Whether this process has a child that is left."""
    return not isinstance(raised(lambda: os.waitpid(-1, os.WNOHANG)), ChildProcessError)


def by_bench(words):
    """What a program of bench/ writes."""
    program, *others = words.split()
    return subprocess.run([sys.executable, TOP / "bench" / program, *others], check=True, capture_output=True, text=True).stdout


def made(words):
    """The text of an instance."""
    return by_bench(f"make_small.py {words}")


def cover(variables, clauses):
    """A cover of random triples, of which a search of few decisions finds none, and its cost."""
    generator, model = random.Random(variables), Model()
    parts = model.variables(variables)
    cost = total(generator.randint(1, 30) * part for part in parts)
    model.minimise(cost)
    for _ in range(clauses):
        model.clause(generator.sample(parts, 3))
    return model, cost


# ---- budgets that grow


def budget_facts():
    """More decisions are never worse, and what is told are better and better answers up to the last one."""
    for words in INSTANCES:
        model, costs, texts = Model.read(made(words)), [], []
        for nodes in BUDGETS:
            told = []
            answer = model.copy().solve(nodes, on_better=told.append)
            costs.append(float("inf") if answer.cost is None else answer.cost)
            steps = [it.cost for it in told]
            yield f"{words}, {nodes}: {steps} before {answer.cost}", steps == sorted(set(steps), reverse=True)
            yield f"{words}, {nodes}: {answer.status}", steps[-1:] == ([] if answer.cost is None else [answer.cost])
            yield f"{words}, {nodes}: values", answer.values is None or told[-1].values is not None
            by_text = solve(model.text(), nodes=nodes, on_better=lambda _: None)
            texts.append(float("inf") if by_text.cost is None else by_text.cost)
        yield f"{words}: {costs}", costs == sorted(costs, reverse=True)
        yield f"{words}, as a text: {texts}", texts == sorted(texts, reverse=True)


def thread_facts():
    """In another thread the same is told in this process."""
    model, told, here = Model.read(made("cover 120")), [], []
    seen = []
    expected = model.copy().solve(5_000, on_better=lambda it: here.append(it.cost))
    thread = threading.Thread(target=lambda: seen.append(model.copy().solve(5_000, on_better=lambda it: told.append(it.cost))))
    thread.start()
    thread.join()
    yield f"in another thread: {told} and {here}", seen[0].status is not Status.UNKNOWN and seen[0].cost == told[-1]
    yield "as in this one", expected.cost == here[-1]


def limited(model, **how):
    """What the shortest time limit finds that finds something, and the better answers that were told."""
    for limit in LIMITS:
        told, begun = [], time.monotonic()
        answer = model.solve(time_limit=limit, on_better=told.append, **how)
        if time.monotonic() - begun > limit + PATIENCE:
            sys.exit(f"python_searches: a time limit of {limit} seconds took {time.monotonic() - begun}")
        if answer.status is not Status.UNKNOWN:
            break
    return answer, told


def limit_facts():
    """A time limit finds what a search of few decisions does not."""
    model, cost = cover(4_000, 6_000)
    yield "a search of few decisions finds nothing", model.copy().solve(1_000).status is Status.UNKNOWN
    answer, told = limited(model)
    yield f"a time limit: {answer.status}", answer.status is Status.FOUND
    yield "each better one is told", [it.cost for it in told] == sorted({it.cost for it in told} | {answer.cost}, reverse=True)
    yield "and is feasible", Model.read(model.text()).solve(0, start=answer.values).cost == answer.cost
    yield "as each is", all(it.value(cost) == it.cost and it.status is Status.FOUND for it in told)
    yield "a limit of years", Model.read(made("cover 60")).solve(time_limit=1e300).status is Status.OPTIMUM
    small, told = Model.read(made("cover 30")), []
    whole = small.solve(time_limit=PATIENCE, on_better=told.append)
    yield "where it ends before", whole.status is Status.OPTIMUM and told[-1].cost == whole.cost == small.solve().cost
    without = Model()
    x, y = without.variables("x y")
    without.add(x + y >= 1)
    told = []
    yield "without an objective", without.solve(on_better=told.append).status is Status.SATISFIABLE and [it[y] for it in told] == [True]
    yield "told with the status", told[0].status is Status.SATISFIABLE and told[0].cost is None
    without.add(x + y <= 0)
    yield "where nothing is feasible", without.solve(time_limit=PATIENCE, on_better=told.append).status is Status.UNSATISFIABLE
    yield "nothing is told", len(told) == 1
    wide, told = Model(), []
    z, w = wide.variables("z w")
    wide.maximise(2**70 * z + w)
    wide.add(z + w <= 1)
    yield "numbers over 64 bits", wide.solve(time_limit=PATIENCE, on_better=told.append).cost == 2**70 == told[-1].cost


def callback_facts():
    """What on_better raises ends the search, and it may ask the model."""
    model = Model.read(made("cover 300"))

    def stop(_):
        raise KeyError("enough")

    for nodes in (None, 3_000):
        fault = raised(lambda: model.solve(nodes, time_limit=PATIENCE, on_better=stop))
        yield f"raised: {fault!r}", isinstance(fault, KeyError) and not has_children()
    seen = []
    answer = model.solve(2_000, on_better=lambda it: seen.append(model.solve(10, start=it).cost <= it.cost))
    yield "asked within", seen and all(seen) and answer.status is Status.FOUND
    added = model.copy()
    answer = added.solve(2_000, on_better=lambda it: added.add(added["x1"] >= 0))
    yield "told within", answer.status is Status.FOUND and added.solve(0).status in (Status.UNKNOWN, Status.FOUND)


def refusal_facts():
    """What is refused before anything is searched."""
    model = Model()
    x, _ = model.variables("x y")
    nan, infinite = float("nan"), float("inf")
    cases = (
        (lambda: model.solve(time_limit=nan), ValueError, "0 or more"), (lambda: model.solve(time_limit=-1), ValueError, "0 or more"),
        (lambda: model.solve(time_limit=infinite), ValueError, "0 or more"), (lambda: model.solve(time_limit="9"), TypeError, "seconds"),
        (lambda: model.explain([x], time_limit=nan), ValueError, "0 or more"), (lambda: model.fixed(time_limit=-1), ValueError, "0 or"),
        (lambda: solve("", time_limit=[1]), TypeError, "seconds"), (lambda: model.solve(-1), ValueError, "2**64"),
        (lambda: model.solve(time_limit=10**400), ValueError, "0 or"), (lambda: model.fixed(time_limit=infinite), ValueError, "leave it out"),
        (lambda: solve("", time_limit=nan), ValueError, "leave it out"), (lambda: model.solve(time_limit=1j), TypeError, "seconds"),
        (lambda: model.solve(on_better=1), TypeError, "function"), (lambda: solve("", on_better="print"), TypeError, "function"),
        (lambda: model.solve(workers=0), ValueError, "1 to 64"), (lambda: model.solve(workers=65), ValueError, "1 to 64"),
        (lambda: model.solve(workers=2.0), TypeError, "1 to 64"), (lambda: model.solve(split=-1), ValueError, "0 to 12"),
        (lambda: model.solve(split="2"), TypeError, "0 to 12"), (lambda: solve("", workers=nan), TypeError, "1 to 64"),
        (lambda: model.solve(10**9 + 1, workers=2), ValueError, "at most"),
        (lambda: model.solve(split=3), ValueError, "variables"), (lambda: model.solve(workers=2, start=[1, 0]), ValueError, "start"),
        (lambda: model.add(x >= 1, name=1), TypeError, "name"), (lambda: model.explain(), ValueError, "name="),
    )  # fmt: skip
    for at, (call, kind, said) in enumerate(cases):
        fault = raised(call)
        yield f"refusal {at}: {fault!r}", type(fault) is kind and said in str(fault)
    yield "nothing was added", repr(model) == "<Model: 2 variables, 0 constraints, 0 terms, no objective>"


# ---- the program


def drawn(generator):
    """A random model of few variables."""
    model = Model()
    parts = model.variables(generator.randint(4, 9))
    some = [part if generator.random() < 0.5 else ~part for part in parts]
    for _ in range(generator.randint(2, 6)):
        chosen = generator.sample(some, 3)
        model.add(total(generator.randint(1, 4) * it for it in chosen) >= generator.randint(1, 5))
    if generator.random() < 0.7:
        model.maximise(total(generator.randint(-4, 9) * part for part in parts) / 2)
    return model, parts


def program_facts():
    """The program with workers answers as the library does."""
    generator = random.Random(5)
    for number in range(PROGRAM_MODELS):
        model, parts = drawn(generator)
        workers, split = generator.choice([(4, 3), (1, 2), (3, None), (None, 1)])
        yield f"model {number}", model.solve(workers=workers, split=split) == model.solve()
        assumed = [~parts[0], parts[1]]
        yield f"model {number} under literals", model.solve(assuming=assumed, workers=2) == model.solve(assuming=assumed)
    text = made("cover 60")
    told = []
    yield "a text", solve(text, workers=4, split=6) == solve(text) == solve(text, workers=2, time_limit=PATIENCE, on_better=told.append)
    yield "better and better", [it.cost for it in told] == sorted({it.cost for it in told}, reverse=True) and told
    yield "a budget", solve(text, nodes=0, workers=2).status is Status.UNKNOWN
    clauses = "p cnf 3 2\n1 2 0\n-1 3 0\n"
    yield "clauses", solve(clauses, "cnf", workers=2, split=2, time_limit=PATIENCE) == solve(clauses, "cnf")
    fault = raised(lambda: solve("1 x1 x2 >= 1 ;", workers=2))
    yield f"a refused text: {fault!r}", isinstance(fault, pbcube.Refused) and (fault.name, fault.line) == ("NonLinear", 1)
    yield "a split of too many", "variables" in str(raised(lambda: solve("1 x1 >= 1 ;", split=2)))
    answer, _ = limited(Model.read(made("cover 700")), workers=2, split=2)
    yield f"a time limit: {answer.status}", answer.status is Status.FOUND
    yield from slow_piece_facts()
    yield from daemon_facts()


def daemon_facts():
    """A thread that is in a search while the interpreter ends says nothing, and the program ends as without it."""
    model = "pbcube.Model.read(sys.stdin.read())"
    search = f"threading.Thread(target=lambda model: model.solve(time_limit={PATIENCE}), args=[{model}], daemon=True).start()"
    script = f"import sys, threading, time, pbcube\n{search}\ntime.sleep(1)\n"
    environment = {**os.environ, "PYTHONPATH": str(callers.PYTHON), "PYTHONDONTWRITEBYTECODE": "1"}
    for _ in range(3):
        ended = subprocess.run([sys.executable, "-c", script], input=made("cover 700"), env=environment, capture_output=True, text=True)
        yield f"a thread that goes on at the end: {ended}", (ended.returncode, ended.stderr) == (0, "")


def slow_piece_facts():
    """Where a run on all pieces does not end in time, the answer is that of a run on the whole."""
    named = os.environ.get("PBCUBE_PROGRAMS")
    with tempfile.TemporaryDirectory() as folder:
        path = Path(folder) / "pbcube"
        path.write_text(f'#!/bin/sh\ncase "$* " in *"--split 0 "*) exec {find()} "$@" ;; esac\nexec sleep 999\n')
        path.chmod(0o755)
        os.environ["PBCUBE_PROGRAMS"] = folder
        answer, told = limited(Model.read(made("cover 700")), workers=4, split=8)
        yield f"a time limit that no run on pieces meets: {answer.status}", answer.status is Status.FOUND and answer.cost == told[-1].cost
    del os.environ["PBCUBE_PROGRAMS"]
    os.environ.update({"PBCUBE_PROGRAMS": named} if named else {})


# ---- constraints by name


def is_feasible(rules, count):
    """Whether some values of `count` variables meet all the rules, which are functions."""
    return any(all(rule(values) for rule in rules) for values in itertools.product((0, 1), repeat=count))


def named_rule(model, parts, generator, name):
    """Adds a random rule, and answers what it means."""
    kind, places = generator.randrange(5), generator.sample(range(len(parts)), 3)
    weights, bound = [generator.randint(-3, 3) for _ in places], generator.randint(-2, 4)
    worth = lambda values: sum(weight * values[place] for weight, place in zip(weights, places))
    of = total(weight * parts[place] for weight, place in zip(weights, places))
    if kind == 0:
        model.add(of >= bound, name=name)
        return lambda values: worth(values) >= bound
    if kind == 1:
        model.add(of <= bound, name=name)
        return lambda values: worth(values) <= bound
    if kind == 2:
        model.add(of == bound, name=name)
        return lambda values: worth(values) == bound
    if kind == 3:
        model.clause([parts[places[0]], ~parts[places[1]]], name=name)
        return lambda values: values[places[0]] or not values[places[1]]
    model.implies(parts[places[0]], of == bound, name=name)
    return lambda values: not values[places[0]] or worth(values) == bound


def conflict_facts():
    """Names of constraints that cannot hold together, of random models."""
    generator = random.Random(9)
    seen = set()
    for number in range(CONFLICTS):
        model = Model()
        parts = model.variables(5)
        names = [f"rule {at}" if at else None for at in range(generator.randint(2, 9))]
        rules = [(name, named_rule(model, parts, generator, name)) for name in names]
        why = model.explain()
        if why.status is Status.SATISFIABLE:
            yield f"conflict {number}: none", is_feasible([rule for _, rule in rules], 5) and why.constraints is None
            continue
        held = lambda left_out: [rule for name, rule in rules if name is None or (name in why.constraints and name != left_out)]
        yield f"conflict {number}: {why}", why.status is Status.UNSATISFIABLE and not is_feasible(held(None), 5) and why.is_minimal
        yield f"conflict {number}: minimal", all(is_feasible(held(name), 5) for name in why.constraints)
        yield f"conflict {number}: in order", [*why.constraints] == sorted(why.constraints, key=names.index)
        seen.add(len(why.constraints))
    yield f"conflicts of {seen}", len(seen) > 2


def name_facts():
    """Names that several constraints share, that others have, and what is cut."""
    model = Model()
    x, y, z = model.variables("x y z")
    model.minimise(x + y + z)
    model.add(x + y >= 2, name="pair")
    model.add(z >= 1, name="pair")
    model.at_most(1, [x, y], name="x")
    yield "one of two of a name", model.explain().constraints == ("pair", "x")
    yield "in a copy", model.copy().explain().constraints == pickle.loads(pickle.dumps(model)).explain().constraints == ("pair", "x")
    yield "as a table", "constraint</th><td>pair" in model.explain()._repr_html_()
    yield "cut", model.explain(nodes=0).status in (Status.UNKNOWN, Status.UNSATISFIABLE)
    yield "in time", model.explain(time_limit=PATIENCE).is_minimal
    yield "under literals none is left out", model.explain([x, ~x]).core == () and model.explain([]).constraints is None
    yield "solving takes no notice", model.solve().status is Status.UNSATISFIABLE and len(model.text().splitlines()) == 5
    model.add(2**70 * x <= 2**69, name="wide")
    yield "numbers over 64 bits", raised(model.explain).name == "TooLarge"
    alone = Model()
    u = alone.variable()
    alone.clause([u])
    alone.clause([~u])
    alone.add(u >= 0, name="idle")
    yield "where those without names are enough", alone.explain().constraints == () and alone.explain().is_minimal
    alone = Model()
    alone.add(sum([]) == 1, name="never")
    yield "what Python compared", alone.explain().constraints == ("never",)


# ---- what is fixed


def fixed_by_answers(model, literals, assumed):
    """What each variable's value is where it has one, by an answer under each literal; and None where nothing is feasible."""
    is_possible = lambda literal: model.solve(assuming=[*assumed, literal]).status is not Status.UNSATISFIABLE
    if model.solve(assuming=assumed).status is Status.UNSATISFIABLE:
        return None
    possible = [(is_possible(literal), is_possible(~literal)) for literal in literals]
    return [None if can_be and need_not else can_be for can_be, need_not in possible]


def fixed_facts():
    """What is fixed, with an objective and without one, before and after more rules, and where the question is cut."""
    generator = random.Random(11)
    product = Model.read(by_bench("make_configurator.py 40"))
    every = [drawn(generator) for _ in range(FIXED_MODELS)] + [(product, [product[f"x{at}"] for at in range(1, 41)])]
    for number, (model, parts) in enumerate(every):
        for assumed in ([], [~parts[1]], [parts[0], ~parts[2]]):
            expected, told = fixed_by_answers(model.copy(), parts, assumed), model.fixed(assumed)
            found = None if told.status is Status.UNSATISFIABLE else [told[part] for part in parts]
            yield f"fixed in model {number}: {found} and not {expected}", found == expected
            limited_too = model.fixed(assumed, time_limit=PATIENCE)
            yield f"fixed in model {number} in time", (limited_too.status, limited_too.statuses) == (told.status, told.statuses)
            model.add(parts[3] + parts[1] >= generator.randint(0, 1))
    cut = product.fixed(nodes=0)
    yield "cut", cut.status is Status.UNKNOWN and not any(map(cut.is_known, every[-1][1]))
    some = product.fixed(nodes=60)
    known = [part for part in every[-1][1] if some.is_known(part)]
    yield "cut later", all(some[part] == told_all for part, told_all in zip(known, map(product.fixed().__getitem__, known)))
    yield "in the least", product.fixed(among="least").status is Status.SATISFIABLE


def main():
    parts = (fixed_facts, refusal_facts, name_facts, conflict_facts, limit_facts, callback_facts, thread_facts, program_facts, budget_facts)
    facts = [fact for part in parts for fact in part()]
    wrong = [what for what, holds in facts if not holds]
    print(*(f"python_searches: not so: {it}" for it in wrong), sep="\n", end="\n" if wrong else "")
    print(f"python_searches: {len(facts) - len(wrong)} facts of the package hold, {len(wrong)} do not")
    return 1 if wrong else 0


if __name__ == "__main__":
    sys.exit(main())
