#!/usr/bin/env python3
"""Runs the built program with budgets of decisions on small random instances, and judges each report by a listing of all
assignments.

    tests/runs/budgets.py [PROGRAM ..]

Without a word it takes the programs that the merge gate built. Each instance is run without a budget, with each budget from 0
to 20, and with some of them in pieces and with two workers. The numbers of some are too great for 64 bits. `s OPTIMUM FOUND` and
`s UNSATISFIABLE` must be the whole answer; with `s SATISFIABLE` the values must be feasible and the `o` line their cost; `s UNKNOWN`
stands alone. With one worker a greater budget never does worse, and once it is enough it stays so. Where some assignments are pieces
of their own, a run that makes no decision tells the first of these, or the whole answer where the other piece needs no decision.
Two worked instances end within a budget that is enough only where each decision has a bound before it, and another one only
where dives may take most of a budget; one is cut by each budget that
is less than its dives need, and others owe a report within each of some budgets (worked_budgets.py). Worked texts (worked_texts.py)
have the report that is owed with their budget.
"""
import random
import sys
import tempfile
from concurrent.futures import ThreadPoolExecutor
from itertools import product
from pathlib import Path

sys.dont_write_bytecode = True
sys.path.insert(0, str(Path(__file__).resolve().parents[1]))
from lib import PROCESSORS, STATUSES, built, ran
from lib.draws import instances
from lib.efforts import ring_cover
from lib.made import Made
from lib.reports import values_line
from lib.worked_budgets import WITHIN
from lib.worked_texts import BUDGETED

INSTANCES = 300
GIVEN = 3  # assignments that are pieces of their own
BUDGETS = range(21)
AMPLE = 1000  # more than any of these instances needs
UNKNOWN = "s UNKNOWN\n"

# A cover whose search comes to a tie of several variables.
TIED = """\
min: 1 x1 1 x2 1 x3 1 x4 1 x5 1 x6 1 x7 1 x8 1 x9 1 x10 1 x11 ;
1 x2 1 x4 1 x6 1 x7 >= 2 ;
1 x10 1 x9 1 x8 1 x7 >= 1 ;
1 x8 1 x5 1 x10 1 x1 >= 1 ;
1 ~x7 1 x10 1 ~x11 1 x9 >= 2 ;
1 ~x1 1 x10 1 x6 1 x4 >= 1 ;
1 x6 1 ~x3 1 x10 1 x2 >= 1 ;
1 x3 1 x7 1 x2 1 x6 >= 1 ;
1 x8 1 x3 1 x4 1 x2 >= 2 ;
1 x11 1 x7 1 x5 1 ~x2 >= 2 ;
1 ~x8 1 x4 1 x9 1 x6 >= 2 ;
"""
# Budgets that are enough for these, where each decision has a bound before it. Where a bound from above is used again at a tie, the
# first one takes a decision more. Where a dive goes on though the bound tells that nothing below it costs less than what is held,
# the ring takes seven more. A question to a package manager is answered by dives, which an eighth of the budget is too little for.
QUESTION = Made("make_packages.py 460 17 --distribution").text()
ENOUGH = [("a tie", TIED, 22), ("a dive", ring_cover(420).text(), 1141), ("dives of a package question", QUESTION, 6_000)]
# A search that dives from its root, and budgets of fewer decisions than it needs, those of its dives among them.
DIVING, FEWER = ring_cover(390).text(), (0, 64, 300)


def found(instance, report):
    """The values of a report that tells some, and its cost; none where it is not of that form."""
    lines = report.split("\n")
    costs = [line for line in lines if line.startswith("o ")]
    words = lines[-2].split()[1:]
    if instance.is_cnf:
        words = words[:-1]
    values = tuple(not word.startswith("-") for word in words)
    expected = [*costs, "s SATISFIABLE", lines[-2], ""]
    if lines != expected or len(values) != instance.variables or len(costs) != (instance.objective is not None):
        return None
    return values, int(costs[0][2:]) if costs else 0


def complaint(instance, whole, report, status):
    """What is wrong with a report of a run with a budget, where anything is."""
    if report == UNKNOWN:
        return None if status == 0 else f"status {status}"
    named = next((line for line in report.splitlines() if line in STATUSES), None)
    if named is None or status != STATUSES[named]:
        return f"no report, or status {status}"
    if named != "s SATISFIABLE":
        return None if report == whole else "it is not the whole answer"
    told = found(instance, report)
    if told is None or not instance.is_feasible(told[0]) or told[1] != instance.cost(told[0]):
        return "the values are not feasible, or not of this cost"
    return None


def rank(instance, whole, report):
    """How far a report is from the whole answer."""
    if report == whole:
        return (0, 0)
    if report == UNKNOWN:
        return (2, 0)
    told = found(instance, report)
    return (1, told[1] if told else 0)


def given(instance, number):
    """Some feasible assignments of the instance, the same ones in each run, and the report of the first of them."""
    feasible = [values for values in product((False, True), repeat=instance.variables) if instance.is_feasible(values)]
    some = random.Random(number).sample(feasible, min(GIVEN, len(feasible)))
    if not some:
        return some, UNKNOWN
    first = min(some, key=lambda values: (instance.cost(values), values))
    cost = "" if instance.objective is None else f"o {instance.cost(first)}\n"
    return some, f"{cost}s SATISFIABLE\n{values_line(first, instance.is_cnf)}"


def cube_line(values):
    return " ".join(["a", *(f"{variable if value else -variable}" for variable, value in enumerate(values, 1)), "0\n"])


def judged(program, folder, number, instance):
    """How many runs there were on the instance, and what was wrong with them."""
    file = folder / f"{Path(program).name}_{number}.{instance.format}"
    file.write_text(instance.text())

    def run(*words):
        return ran([program, "--format", instance.format, *words, file])

    whole = instance.report()
    wrong = [] if run().out == whole else [("without a budget", "it is not the whole answer")]
    ranks = []
    divisions = [(budget, 1, 0) for budget in [*BUDGETS, AMPLE]] + [(budget, workers, 1) for budget in (0, 2, 5, AMPLE) for workers in (1, 2)]
    for budget, workers, split in divisions:
        words = f"--nodes {budget} --workers {workers} --split {split}"
        ended = run(*words.split())
        said = complaint(instance, whole, ended.out, ended.status)
        if said or (budget == AMPLE and ended.out != whole):
            wrong.append((words, said or "the budget is enough"))
        elif split == 0:
            ranks.append(rank(instance, whole, ended.out))
    if ranks != sorted(ranks, reverse=True):
        wrong.append(("budgets in turn", "a greater one does worse"))
    some, first = given(instance, number)
    cubes = file.with_suffix(".cubes")
    cubes.write_text("".join(map(cube_line, some)))
    for workers in (1, 2):
        words = ["--nodes", "0", "--workers", str(workers), "--cubes", cubes]
        if run(*words).out not in (first, whole):
            wrong.append((f"{workers} workers and no decision", "it is not the first of what was found"))
    return len(divisions) + 3, [f"{what}: {why}\n{instance.text()}" for what, why in wrong]


def worked_complaints(program, folder):
    """What is wrong with runs on worked instances, one line for each."""
    instance, file = folder / f"{Path(program).name}.opb", folder / f"{Path(program).name}.cubes"

    def within(budget, text, cubes=None):
        instance.write_text(text)
        file.write_text(cubes or "")
        return ran([program, "--nodes", str(budget), *(["--cubes", file] if cubes else []), instance])

    for name, text, budget in ENOUGH:
        if within(budget, text).status != STATUSES["s OPTIMUM FOUND"]:
            yield f"{name}: {budget} decisions are not enough"
    for budget in FEWER:
        if within(budget, DIVING).status not in (0, STATUSES["s SATISFIABLE"]):
            yield f"a dive: {budget} decisions are enough"
    for text, cubes, owed in WITHIN:
        for budget, report in owed.items():
            if (said := within(budget, text, cubes).out) != report:
                yield f"{text}{cubes or ''}{budget} decisions: {said!r}, where {report!r} is owed"


def unowed(program, folder):
    """On which worked texts a run with their budget has another report than they are owed."""
    for number, (format, text, cubes, budget, report, _) in enumerate(BUDGETED):
        file = folder / f"{Path(program).name}_{number}.worked"
        file.write_bytes(text)
        file.with_suffix(".cubes").write_bytes(cubes or b"")
        files = [file] if cubes is None else ["--cubes", file.with_suffix(".cubes"), file]
        ended = ran([program, "--format", format, "--nodes", str(budget), *files])
        if (ended.out, ended.status) != (report, status_of(report)):
            yield f"{text} {cubes} with {budget} decisions: {ended}"


def status_of(report):
    return next((STATUSES[line] for line in report.splitlines() if line in STATUSES), 0)


def main(programs):
    runs, failed = 0, 0
    with tempfile.TemporaryDirectory() as folder, ThreadPoolExecutor(PROCESSORS) as pool:
        jobs = [pool.submit(judged, it, Path(folder), i, instance) for it in programs or built() for i, instance in enumerate(instances(INSTANCES))]
        for job in jobs:
            count, wrong = job.result()
            runs, failed = runs + count, failed + len(wrong)
            for text in wrong:
                print(f"budgets: {text}")
        tellers = [(teller, program) for program in programs or built() for teller in (worked_complaints, unowed)]
        for text in [f"{program}: {it}" for teller, program in tellers for it in teller(program, Path(folder))]:
            failed += 1
            print(f"budgets: {text}")
    print(f"budgets: {runs} runs on {INSTANCES} instances, {failed} failed")
    return 1 if failed else 0


if __name__ == "__main__":
    sys.exit(main(sys.argv[1:]))
