#!/usr/bin/env python3
"""Measures what is fixed, click by click: how long the library takes to tell of each variable whether it still has both values.

    clicks.py [--questions N] [--assumed K] LIBRARY FILE...

LIBRARY is libpbcube.so. Each file is an OPB text, as of a product (make_configurator.py); its objective is left out, as the package for
Python leaves it out for this question. One session is kept for all questions. A question has one literal more than the one before, up to
K, and then there is one again. The literals of such a row of clicks are true in one of a few feasible assignments, so something stays
feasible; three of four, in the mean, are options that it takes. The table has milliseconds a question: the median by the wall clock, and
of processor time the median, what nine of ten questions keep within, and the most; and how many variables are free, in the median.
"""
import argparse
import random
import statistics
import sys
import time
from pathlib import Path

sys.dont_write_bytecode = True
import opb
from questions import Library, Session, feasible

DRAWN = 5  # feasible assignments
TAKEN = 0.75  # of the literals
NO_LIMIT = 2**64 - 1
FREE = 2  # the status of a variable that has both values


def clicks(rng, assignments, count, assumed):
    """`count` questions, each a list of literals."""
    questions = []
    while len(questions) < count:
        values = rng.choice(assignments)
        taken = [variable for variable, is_true in enumerate(values, 1) if is_true]
        left_out = [-variable for variable, is_true in enumerate(values, 1) if not is_true]
        row = []
        for _ in range(assumed):
            row = [*row, rng.choice(taken if left_out == [] or (taken and rng.random() < TAKEN) else left_out)]
            questions.append(row)
    return questions[:count]


def row(library, name, options):
    """The table's row of an instance."""
    instance = opb.read(name)
    rng = random.Random(Path(name).stem)
    assignments = [feasible(rng, library, instance) for _ in range(DRAWN)]
    session = Session(library, opb.Instance(instance.variables, 0, [], instance.rows))
    session.ask("fixed", [], NO_LIMIT)
    walls, processor, free = [], [], []
    for question in clicks(rng, assignments, options.questions, options.assumed):
        wall, used = time.perf_counter(), time.process_time()
        statuses = session.ask("fixed", question, NO_LIMIT)
        walls.append((time.perf_counter() - wall) * 1e3)
        processor.append((time.process_time() - used) * 1e3)
        free.append(statuses.count(FREE))
    session.close()
    most = sorted(processor)[len(processor) * 9 // 10 - 1]
    figures = (statistics.median(walls), statistics.median(processor), most, max(processor))
    print("| %s | %s | %.0f |" % (Path(name).stem, " | ".join("%.1f" % it for it in figures), statistics.median(free)), flush=True)


def main():
    words = argparse.ArgumentParser()
    words.add_argument("--questions", type=int, default=200)
    words.add_argument("--assumed", type=int, default=5)
    words.add_argument("library")
    words.add_argument("files", nargs="+")
    options = words.parse_args()
    print("| Instance | wall, median | processor, median | nine of ten | most | free |\n|---|---|---|---|---|---|")
    library = Library(options.library)
    for name in options.files:
        row(library, name, options)


if __name__ == "__main__":
    main()
