#!/usr/bin/env python3
"""Solves random instances by the program, and by the library from C, Rust and Python, and prints where two of these ways differ.

    tests/runs/ways.py

It takes the program and the library that are built. Each instance is given as a text, in each format that can say it, to all four
ways; where its numbers fit 64 bits it is also told term by term from C, Rust and Python. Some runs have a budget of decisions, and
some texts are spoiled. All ways must give the bytes of the program's report and the answer of its exit status. Where there is no
cargo Rust is left out, and all where there is no C compiler.
"""
import itertools
import random
import sys
import tempfile
from concurrent.futures import ThreadPoolExecutor
from dataclasses import dataclass
from pathlib import Path

sys.dont_write_bytecode = True
sys.path.insert(0, str(Path(__file__).resolve().parents[1]))
from lib import FORMATS, PROCESSORS, built, callers, ran
from lib.callers import NO_LIMIT, RELATIONS, SAID, by_driver, drivers, terms_of
from lib.draws import instances
from lib.instance import Instance
from lib.reports import values_line

pbcube = callers.package()
INSTANCES = 500
STATUSES = {1: 0, 10: 10, 11: 10, 20: 20, 30: 30, 40: 0}  # the program's exit status with each answer


@dataclass(frozen=True)
class Text:
    """A text to be solved by itself."""

    format: str
    text: str
    decisions: int

    def written(self):
        return f"text {FORMATS.index(self.format)} {self.decisions} {len(self.text)} {self.text}\n"


@dataclass(frozen=True)
class Told:
    """An instance that is told term by term, and its text, in which variables are as many as are named."""

    instance: Instance
    decisions: int

    def text(self):
        plain = Instance(self.instance.variables, self.instance.objective, self.instance.constraints, False).text()
        return Text("opb", plain.split("\n", 1)[1], self.decisions)

    def written(self):
        lines = [] if self.instance.objective is None else [f"objective {terms_of(self.instance.objective)}\n"]
        for terms, relation, bound in self.instance.constraints:
            if self.instance.is_cnf:
                lines.append(f"clause {len(terms)} {' '.join(str(literal) for _, literal in terms)}\n")
            else:
                lines.append(f"sum {RELATIONS.index(relation)} {bound} {terms_of(terms)}\n")
        return "".join([*lines, f"solve {self.decisions}\n"])


def spoiled(text):
    """The text without one of its bytes."""
    place = random.randrange(len(text))
    return text[:place] + text[place + 1 :]


def tasks():
    """What each way has to solve, in order."""
    for number, instance in enumerate(instances(INSTANCES)):
        decisions = random.randint(0, 20) if number % 4 == 1 else NO_LIMIT
        text = instance.text()
        yield Text(instance.format, spoiled(text) if number % 10 == 9 else text, decisions)
        if instance.is_cnf:
            cubes = "".join(f"a {random.choice((1, -1)) * random.randint(1, instance.variables)} 0\n" for _ in range(number % 3))
            yield Text("icnf", "p inccnf\n" + text.split("\n", 1)[1] + cubes, decisions)
        numbers = [bound for _, _, bound in instance.constraints]
        terms = itertools.chain(instance.objective or (), *(terms for terms, _, _ in instance.constraints))
        if all(-(2**63) <= number < 2**63 for number in [*numbers, *(coefficient for coefficient, _ in terms)]):
            yield Told(instance, decisions)


def by_program(program, folder, number, task):
    """The report and the exit status."""
    text = task if isinstance(task, Text) else task.text()
    file = folder / f"{number}.{text.format}"
    file.write_text(text.text)
    budget = [] if text.decisions == NO_LIMIT else ["--nodes", str(text.decisions)]
    ended = ran([program, "--format", text.format, *budget, file])
    return ended.out, ended.status


def by_python(task):
    """The same, put together from what the module answers."""
    nodes = None if task.decisions == NO_LIMIT else task.decisions
    is_clausal = isinstance(task, Text) and task.format != "opb"
    try:
        answer = pbcube.solve(task.text, task.format, nodes) if isinstance(task, Text) else modelled(task.instance).solve(nodes)
    except pbcube.Refused as refused:
        return f"c refused: {refused.name} at line {refused.line}\ns UNSUPPORTED\n", 40
    number = answer.status.value
    cost = "" if answer.cost is None else f"o {answer.cost}\n"
    values = "" if answer.values is None else values_line(answer.values, is_clausal)
    return f"{cost}s {SAID.get(number, 'SATISFIABLE')}\n{values}", number


def modelled(instance):
    model = pbcube.Model()
    terms = itertools.chain(instance.objective or (), *(terms for terms, _, _ in instance.constraints))
    variables = model.variables(max((abs(literal) for _, literal in terms), default=0))

    def literal(number):
        return variables[number - 1] if number > 0 else ~variables[-number - 1]

    def total(terms):
        return sum((coefficient * literal(number) for coefficient, number in terms), pbcube.Sum())

    if instance.objective is not None:
        model.minimise(total(instance.objective))
    for terms, relation, bound in instance.constraints:
        left = total(terms)
        if instance.is_cnf:
            model.clause(literal(number) for _, number in terms)
        else:
            model.add(left >= bound if relation == ">=" else left <= bound if relation == "<=" else left == bound)
    return model


def by_drivers(folder, every):
    """What each driver answered, by language."""
    return {way: by_driver(command, every) for way, command in drivers(folder)}


def differences(way, every, expected, reports):
    if len(reports) != len(every):
        yield f"{way}: {len(reports)} reports on {len(every)} tasks"
    for task, (report, status), (said, answer) in zip(every, expected, reports):
        if said != report or STATUSES.get(answer) != status:
            yield f"{way}: {said!r} with {answer}, and the program {report!r} with {status}, on\n{task.written()}"


def main():
    every = list(tasks())
    with tempfile.TemporaryDirectory() as name, ThreadPoolExecutor(PROCESSORS) as pool:
        folder = Path(name)
        driven = pool.submit(by_drivers, folder, every)
        told_by_python = pool.submit(lambda: [by_python(task) for task in every])
        expected = list(pool.map(lambda pair: by_program(built()[0], folder, *pair), enumerate(every)))
        ways = {**driven.result(), "Python": told_by_python.result()}
    wrong = [text for way, reports in ways.items() for text in differences(way, every, expected, reports)]
    print("\n".join(wrong[:20]), end="\n" if wrong else "")
    told = sum(isinstance(task, Told) for task in every)
    print(f"ways: {INSTANCES} instances, {len(every) - told} texts and {told} told, from {', '.join(ways)}: {len(wrong)} differ")
    return 1 if wrong else 0


if __name__ == "__main__":
    sys.exit(main())
