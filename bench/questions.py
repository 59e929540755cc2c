#!/usr/bin/env python3
"""Measures questions on one instance: a session of the library that is kept, against one from nothing for each, and clasp.

    questions.py [--ask KIND] [--questions N] [--anew N] [--assumed K] [--nodes B] [--no-clasp] [--limit SECONDS] LIBRARY FILE...

LIBRARY is libpbcube.so. Each file is an OPB text. Literals are drawn at random with the values of an assignment that is feasible,
the least one of random costs. A question, by its KIND:

    least    the least assignment that makes K literals true; every tenth has one literal turned round
    clicks   the same as a configurator asks it: each question has one literal more, up to K, and then there is one again; every
             tenth has its last literal turned round
    explain  why nothing is feasible under K literals, some of them turned round
    fixed    which variables have one value under K literals

A session that is kept is told the instance once and asked all questions; of the first N of --anew each is also asked of a session
that is told the instance anew, and, but for explain and fixed, of clasp as a process that reads the text with the literals as rows,
where clasp is installed. The table has microseconds a question by the wall clock: the mean of all that the kept session was asked,
and of those first N for each, with the times by which the kept session is faster. Answers that differ are told, and the status is then 1.
"""
import argparse
import ctypes
import random
import re
import shutil
import subprocess
import sys
import tempfile
import time
from pathlib import Path

sys.dont_write_bytecode = True
import opb

OPTIMUM, SATISFIABLE, UNSATISFIABLE, FOUND = 30, 10, 20, 11
FEASIBLE = 0  # of fixed: among all that are feasible
DRAWING = 20_000  # decisions for the assignment that questions are drawn from


class Library:
    """The calls that are needed, with their types."""

    def __init__(self, path):
        pointer, integer, size = ctypes.c_void_p, ctypes.c_int, ctypes.c_size_t
        literals = ctypes.POINTER(ctypes.c_int32)
        self.calls = ctypes.CDLL(str(Path(path).resolve()))
        for name, result, arguments in (
            ("new", pointer, []),
            ("free", None, [pointer]),
            ("term", integer, [pointer, ctypes.c_int64, ctypes.c_int32]),
            ("end", integer, [pointer, integer, ctypes.c_int64]),
            ("end_objective", integer, [pointer]),
            ("solve_under", integer, [pointer, literals, size, ctypes.c_uint64]),
            ("cost_text", size, [pointer, ctypes.c_char_p, size]),
            ("value", integer, [pointer, ctypes.c_uint32]),
            ("explain", integer, [pointer, literals, size, ctypes.c_uint64, literals, ctypes.POINTER(size)]),
            ("fixed", integer, [pointer, literals, size, integer, ctypes.c_uint64, ctypes.c_char_p, size]),
        ):
            call = getattr(self.calls, "pbcube_" + name)
            call.restype, call.argtypes = result, arguments
            setattr(self, name, call)


class Session:
    """A session that was told an instance."""

    def __init__(self, library, instance):
        self.library, self.solver, self.room = library, library.new(), ctypes.create_string_buffer(64)
        self.variables = instance.variables
        if instance.costs:
            self.tell(instance.costs)
            library.end_objective(self.solver)
        for terms, is_equal, bound in instance.rows:
            self.tell(terms)
            library.end(self.solver, 2 if is_equal else 0, bound)

    def tell(self, terms):
        for coefficient, variable in terms:
            self.library.term(self.solver, coefficient, variable)

    def ask(self, kind, assumed, nodes):
        """The answer to a question of that kind."""
        return {"explain": self.core, "fixed": self.statuses}.get(kind, self.least)(assumed, nodes)

    def core(self, assumed, nodes):
        """Literals under which nothing is feasible, or none."""
        numbers, core, count = (ctypes.c_int32 * len(assumed))(*assumed), (ctypes.c_int32 * len(assumed))(), ctypes.c_size_t()
        status = self.library.explain(self.solver, numbers, len(assumed), nodes, core, ctypes.byref(count))
        if status not in (UNSATISFIABLE, SATISFIABLE):
            raise RuntimeError("a question ended with status %d" % status)
        return core[: count.value] if status == UNSATISFIABLE else None

    def statuses(self, assumed, nodes):
        """The status of each variable, or none."""
        numbers = (ctypes.c_int32 * len(assumed))(*assumed)
        room = ctypes.create_string_buffer(self.variables)
        status = self.library.fixed(self.solver, numbers, len(assumed), FEASIBLE, nodes, room, len(room))
        if status not in (UNSATISFIABLE, SATISFIABLE):
            raise RuntimeError("a question ended with status %d" % status)
        return room.raw if status == SATISFIABLE else None

    def least(self, assumed, nodes):
        """The least cost under the literals, or none."""
        numbers = (ctypes.c_int32 * len(assumed))(*assumed)
        status = self.library.solve_under(self.solver, numbers, len(assumed), nodes)
        if status == UNSATISFIABLE:
            return None
        if status not in (OPTIMUM, SATISFIABLE, FOUND):
            raise RuntimeError("a question ended with status %d" % status)
        length = self.library.cost_text(self.solver, self.room, len(self.room))
        return int(self.room.raw[:length])

    def values(self, variables):
        return [self.library.value(self.solver, variable) == 1 for variable in range(1, variables + 1)]

    def close(self):
        self.library.free(self.solver)


def drawn(rng, kind, values, count, assumed):
    """A list of `count` questions, each a list of literals."""
    questions, last = [], []
    for number in range(count):
        if kind != "clicks" or len(last) == assumed:
            last = []
        free = [variable for variable in range(1, len(values) + 1) if variable not in map(abs, last)]
        chosen = rng.sample(free, 1 if kind == "clicks" else min(assumed, len(free)))
        last = last + [variable if values[variable - 1] else -variable for variable in chosen]
        turned = range(0, len(last), 3) if kind == "explain" else [len(last) - 1] if number % 10 == 9 else []
        asked = [-literal if place in turned else literal for place, literal in enumerate(last)]
        questions.append(asked)
        if kind == "clicks" and turned:
            last.pop()
    return questions


def feasible(rng, library, instance):
    """The values of a feasible assignment: the least one of random costs, so that questions move away from the least."""
    costs = [(rng.randint(-9, 9), variable) for variable in range(1, instance.variables + 1)]
    session = Session(library, opb.Instance(instance.variables, 0, costs, instance.rows))
    session.ask("least", [], DRAWING)
    values = session.values(instance.variables)
    session.close()
    return values


def timed(answer, questions):
    """What is answered to the questions, and the microseconds that each took."""
    told, took = [], []
    for question in questions:
        start = time.perf_counter()
        told.append(answer(question))
        took.append((time.perf_counter() - start) * 1e6)
    return told, took


def anew(library, instance, kind, questions, nodes):
    """The same of a session for each question."""
    told, took = [], []
    for question in questions:
        session = Session(library, instance)
        answers, micros = timed(lambda asked: session.ask(kind, asked, nodes), [question])
        session.close()
        told += answers
        took += micros
    return told, took


def mean(numbers):
    return sum(numbers) / max(len(numbers), 1)


class Refused(Exception):
    """A peer does not read the text, as where numbers do not fit its 32 bits."""


def clasp(text, assumed, room, limit):
    """The least cost that clasp tells, or none. Writing the text is part of what a caller pays."""
    file = room / "question.opb"
    rows = "".join("1 x%d >= 1 ;\n" % v if v > 0 else "-1 x%d >= 0 ;\n" % -v for v in assumed)
    file.write_text(text + rows)
    said = subprocess.run(["clasp", file], stdout=subprocess.PIPE, stderr=subprocess.DEVNULL, text=True, timeout=limit).stdout
    if "s UNSATISFIABLE" in said:
        return None
    if "s OPTIMUM FOUND" not in said and "s SATISFIABLE" not in said:
        raise Refused
    costs = re.findall(r"^o (-?\d+)", said, re.M)
    return int(costs[-1]) if costs else 0


def row(library, name, options, room):
    """The table's row of an instance, and whether all answers agree."""
    instance = opb.read(name)
    text = opb.plain_opb(instance)
    rng = random.Random(Path(name).stem)
    questions = drawn(rng, options.ask, feasible(rng, library, instance), options.questions, options.assumed)
    session = Session(library, instance)
    session.ask("least", [], options.nodes)
    answers, kept = timed(lambda asked: session.ask(options.ask, asked, options.nodes), questions)
    some = questions[: options.anew]
    others = [anew(library, instance, options.ask, some, options.nodes)]
    over = "-"
    if shutil.which("clasp") and options.clasp and options.ask in ("least", "clicks"):
        try:
            others.append(timed(lambda asked: clasp(text, asked, room, options.limit), some))
        except subprocess.TimeoutExpired:
            over = "over %g seconds" % options.limit
        except Refused:
            over = "not read"
    agree = all(told == answers[: len(some)] for told, _ in others)
    first = mean(kept[: len(some)])
    cells = ["%.0f" % mean(kept), "%.0f" % first] + ["%.0f (%.1f)" % (mean(took), mean(took) / first) for _, took in others]
    cells += [over] * (4 - len(cells)) + ["%d of %d" % (sum(it is None for it in answers), len(answers))]
    print("| %s | %s |%s" % (Path(name).stem, " | ".join(cells), "" if agree else " answers differ"), flush=True)
    return agree


def main():
    words = argparse.ArgumentParser()
    words.add_argument("--ask", choices=("least", "clicks", "explain", "fixed"), default="least")
    words.add_argument("--questions", type=int, default=1000)
    words.add_argument("--anew", type=int, default=50)
    words.add_argument("--assumed", type=int, default=5)
    words.add_argument("--nodes", type=int, default=2**64 - 1)
    words.add_argument("--no-clasp", dest="clasp", action="store_false")
    words.add_argument("--limit", type=float, default=20)
    words.add_argument("library")
    words.add_argument("files", nargs="+")
    options = words.parse_args()
    print("| Instance | kept, all | kept, first | from nothing | clasp | nothing feasible |\n|---|---|---|---|---|---|")
    with tempfile.TemporaryDirectory() as room:
        library = Library(options.library)
        agree = [row(library, name, options, Path(room)) for name in options.files]
    sys.exit(0 if all(agree) else 1)


if __name__ == "__main__":
    main()
