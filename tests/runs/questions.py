#!/usr/bin/env python3
"""Asks random questions on random instances, from C, Rust and Python, and prints each answer that a listing of all assignments gives not.

    tests/runs/questions.py

It takes the library that is built. Each instance is small; some have no objective, some no solution, and the numbers of every third
one do not fit 64 bits. Between the questions of one instance more is told of it, which may name one more variable or be another
objective, and values are suggested. A question is for the least assignment under literals, why there is none, or which variables are
fixed, some with a budget of decisions; the literals may repeat, contradict each other and be of a variable that nothing names. Worked
questions are cut, and those after them are not, since what is known takes no decision. A row of questions on a larger instance must
take no memory but for its first ones, and on a product each click must be told by few decisions what is fixed. Where there is no cargo
Rust is left out, and all where there is no C compiler.
"""
import os
import random
import sys
import tempfile
from pathlib import Path

sys.dont_write_bytecode = True
sys.path.insert(0, str(Path(__file__).resolve().parents[1]))
from lib import TOP, callers, ran
from lib.asked import JUDGES, QUESTIONS, report_of, steps_of, worked_steps, wrong_answers
from lib.callers import NO_LIMIT, RELATIONS, by_driver, drivers, terms_of

sys.path.insert(0, str(TOP / "bench"))
import make_configurator

pbcube = callers.package()
INSTANCES = 340
FEASIBLE = (2000, 4000)  # between which is the number of questions about something feasible
ROW, ROW_ITEMS, ROW_QUESTIONS = 1000, 60, 10_000
FIRST_QUESTIONS = 1  # which may take memory: for the search, and for two assignments
OPTIONS, CLICKS, FIRST_DECISIONS = 300, 6, 2000
CLICK_DECISIONS = 5000  # when each variable was asked about near the first assignment, a click took over 20,000
STATUSES = {False: "0", True: "1", None: "2"}


class Asked:
    """A model of the package for Python that does what each step says."""

    def __init__(self):
        self.model = pbcube.Model()
        self.variables = []
        self.start = None

    def literal(self, number):
        return self.variables[number - 1] if number > 0 else ~self.variables[-number - 1]

    def total(self, terms):
        for _ in range(len(self.variables), max((abs(number) for _, number in terms), default=0)):
            self.variables.append(self.model.variable())
        return pbcube.total(coefficient * self.literal(number) for coefficient, number in terms)

    def tell(self, step):
        if step.kind == "objective":
            self.model.minimise(self.total(step.given))
        elif step.kind == "sum":
            terms, relation, bound = step.given
            left = self.total(terms)
            self.model.add(left >= bound if relation == ">=" else left <= bound if relation == "<=" else left == bound)
        else:
            self.start = dict(zip(self.variables, step.given))

    def ask(self, step):
        """The same as a driver answers."""
        nodes = None if step.decisions == NO_LIMIT else step.decisions
        assuming = [self.literal(number) for number in step.given if abs(number) <= len(self.variables)]  # it has no others
        if step.kind == "under":
            answer = self.model.solve(nodes, assuming=assuming, start=self.start)
            return report_of(answer.cost, answer.values, answer.status.value, step.has_objective), answer.status.value
        if step.kind == "explain":
            why = self.model.explain(assuming, nodes)
            core = "".join(f" {literal.number}" for literal in why.core or ())
            return f"core{core}\n", 21 if why.core is not None and not why.is_minimal else why.status.value
        fixed = self.model.fixed(assuming, ("feasible", "least")[step.among], nodes)
        is_told = fixed.status is not pbcube.Status.UNSATISFIABLE
        told = [STATUSES[fixed[it]] if fixed.is_known(it) else "3" for it in self.variables] if is_told else []
        return f"fixed {''.join(told)}\n", fixed.status.value


def by_python(every):
    asked, reports = None, []
    for step in every:
        if step.kind == "new":
            asked = Asked()
        elif step.kind in JUDGES:
            reports.append(asked.ask(step))
        else:
            asked.tell(step)
    return reports


def wrong_draws(every):
    """What is wrong with the questions themselves, as a list of one text or none."""
    feasible = sum(bool(step.under(step.given)) for step in every if step.kind in JUDGES)
    return [] if FEASIBLE[0] < feasible < FEASIBLE[1] else [f"draws: {feasible} questions are about something feasible"]


def row_of_questions(count):
    """An instance of many rows, and `count` questions on it."""
    random.seed(11)
    lines = ["objective " + terms_of([(random.randint(1, 9), item) for item in range(1, ROW_ITEMS + 1)]) + "\n"]
    for _ in range(ROW):
        clause = [(1, item) for item in random.sample(range(1, ROW_ITEMS + 1), 12)]
        lines.append(f"sum 0 1 {terms_of(clause)}\n")
    for _ in range(count):
        given = [random.choice((1, -1)) * item for item in random.sample(range(1, ROW_ITEMS + 1), 3)]
        lines.append(f"under 30 3 {' '.join(map(str, given))}\n")
    return "".join(lines)


def memory_of_a_row(command):
    """What a row of questions to a driver takes of memory beyond its first ones, as a list of one text or none."""

    def requests(count):
        environment = {**os.environ, "TELL_REQUESTS": "1"}
        ended = ran(command, input=row_of_questions(count).encode(), env=environment, timeout=callers.SECONDS)
        return ended.status, ended.err

    few, many = requests(FIRST_QUESTIONS), requests(FIRST_QUESTIONS + ROW_QUESTIONS)
    return [] if few == many and few[0] == 0 else [f"memory: {few} of {FIRST_QUESTIONS} question, {many} of {ROW_QUESTIONS} more"]


def rows_of_a_product():
    """Those of a product that is configured."""
    for line in make_configurator.text(OPTIONS, "1").splitlines()[2:]:
        *words, relation, bound, _ = line.replace("~x", "-").replace("x", "").split()
        terms = list(zip(map(int, words[::2]), map(int, words[1::2])))
        yield f"sum {RELATIONS.index(relation)} {bound} {terms_of(terms)}\n"


def decisions_of_clicks(command):
    """The clicks on a product of which a driver can't tell what is fixed by CLICK_DECISIONS, as a list of texts. Each click takes one
    option more of a feasible assignment."""

    def answers(questions):
        ended = ran(command, input="".join([*rows_of_a_product(), *questions]).encode(), timeout=callers.SECONDS)
        return ended.out.splitlines()

    values = next(line for line in answers([f"under {FIRST_DECISIONS} 0\n"]) if line.startswith("v ")).split()[1:]
    taken = [int(word[1:]) for word in values if word.startswith("x")]
    chosen = random.Random(12).sample(taken, CLICKS)
    clicks = [f"fixed 0 {CLICK_DECISIONS} {count} {' '.join(map(str, chosen[:count]))}\n" for count in range(CLICKS + 1)]
    told = [line for line in answers(clicks) if line.startswith("= ")]
    return [f"click {place}: {line}" for place, line in enumerate(told) if line != "= 10"] + ["clicks: not all told"] * (len(told) != len(clicks))


def main():
    random.seed(10)
    every = [*worked_steps(), *(step for number in range(INSTANCES) for step in steps_of(number))]
    with tempfile.TemporaryDirectory() as name:
        commands = dict(drivers(Path(name)))
        ways = {way: by_driver(command, every) for way, command in commands.items()}
        wrong = memory_of_a_row(commands["C"]) + decisions_of_clicks(commands["C"])
    ways["Python"] = by_python(every)
    wrong += wrong_draws(every)
    wrong += [text for way, reports in ways.items() for text in wrong_answers(way, every, reports)]
    print("\n".join(wrong[:20]), end="\n" if wrong else "")
    print(f"questions: {INSTANCES} instances with {QUESTIONS} questions each, from {', '.join(ways)}: {len(wrong)} wrong answers")
    return 1 if wrong else 0


if __name__ == "__main__":
    sys.exit(main())
