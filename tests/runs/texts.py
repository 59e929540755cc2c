#!/usr/bin/env python3
"""Runs the built program on texts that were worked by hand, on such texts spoiled, on texts as large as may be and on random
instances, and prints where a report or a status is not the one that is owed.

    tests/runs/texts.py [PROGRAM]

Without a word it takes the program that the merge gate built by LLVM. What worked texts owe stands in worked_texts.py. Of spoiled
texts and of random instances it is told by a reader of docs/FORMATS.md (formats.py) and by a listing of all assignments. A budget
that is ample, cubes, splits and workers change no byte.
"""
import itertools
import os
import re
import subprocess
import sys
import tempfile
from concurrent.futures import ThreadPoolExecutor
from dataclasses import dataclass, replace
from pathlib import Path

sys.dont_write_bytecode = True
sys.path.insert(0, str(Path(__file__).resolve().parents[1]))
from lib import PROCESSORS, STATUSES, built, ran
from lib.draws import Random, drawn, large, small
from lib.examples import WORKERS, with_workers
from lib.formats import Refused, read, read_cubes
from lib.worked_texts import BAD_SPLIT, BEGINNINGS, CONTRADICTION, COVER, CUBE_FILES, DIVIDED, LONG, MANY_CUBES, SPOILED
from lib.worked_texts import SPOILED_CUBES, UNCHANGED, WORKED

AMPLE = 1000  # decisions: more than any piece of a worked text needs
REPETITIONS = 100  # of runs in which the order of events may differ
REPLACEMENTS = (b";", b"-", b"\n", b"\xff")  # bytes that end a statement, a number or a line, or that no rule names
INSTANCES = 600  # that are drawn of each width
CHANGED = 300  # instances whose numbers are changed too
FEWEST_OF_A_STATUS = 100  # instances of each width that are feasible at least, and that are not
OF_ANY_FORM = 600  # instances
OF_CLAUSES = 40  # instances, of ten variables with four clauses for each, so that many decisions end in a conflict
OF_BOTH_WIDTHS = 300  # instances
# What all numbers of an instance are multiplied by, and what every assignment costs beside that: so that 64 bits hold the sums,
# and so that they do not, all of them, up to not far from the greatest that there may be, or the costs alone.
CHANGES = {small: [(1, 0), (1 << 70, 0), (1, 1 << 70), (1, -(1 << 70))], large: [(1 << 63, 0)]}
SHOWN = 20  # complaints at most
MOST_BYTES = 200  # of a text that are shown


@dataclass(frozen=True)
class Case:
    """A text, perhaps with a file of cubes, and the report that is owed with each of these words."""

    format: str
    text: bytes
    report: str
    divisions: tuple
    cubes: bytes | None = None


def divisions(splits=(0,), workers=WORKERS, more=()):
    """Words that divide the work."""
    return tuple(with_workers([["--split", str(split), *more] for split in splits], workers))


def worked():
    for format, text, report in WORKED:
        splits = (0,) if report.endswith("\nv\n") else (0, 1)  # where there is no variable there is none to split
        yield Case(format, text, report, divisions(splits) + divisions(splits, more=("--nodes", str(AMPLE))))
    for format, text, cubes, split, report in DIVIDED:
        yield Case(format, text, report, divisions([split]), cubes)


def beginnings():
    """Each beginning of a text has the report that the format gives it."""
    for format, text, reports in BEGINNINGS:
        for length in range(len(text) + 1):
            yield Case(format, text[:length], next(report for most, report in reports if length <= most), divisions())


def unchanged():
    """Cubes, files of cubes, splits and workers change no byte, whatever the order of events is."""
    for format, text, report in UNCHANGED:
        for cubes in CUBE_FILES:
            yield Case(format, text, report, divisions(range(3)), cubes)
    for format, text, report in UNCHANGED[:-1]:
        yield from REPETITIONS * [Case(format, text, report, divisions(range(2)))]
        yield Case(format, text, report, divisions(range(2)), 63 * b"a 0\n")  # as many pieces as there may be workers
    yield Case("opb", CONTRADICTION, BAD_SPLIT, divisions([2]) + divisions([2], more=("--nodes", "0")))


def longest():
    for format, beginning, part, times, end, report in LONG:
        yield Case(format, beginning + times * part + end, report, divisions())
    for beginning, times, end, split, report in MANY_CUBES:
        yield Case("opb", COVER, report, divisions([split]), beginning + times * b"a 0\n" + end)


def owed(format, text, cubes, split):
    """The report by the reader and the listing."""
    try:
        instance = read(format, text)
    except Refused as fault:
        return f"c refused: {fault}\ns UNSUPPORTED\n"
    try:
        read_cubes(cubes or b"", instance.variables)
    except Refused as fault:
        return f"c refused cubes: {fault}\ns UNSUPPORTED\n"
    return BAD_SPLIT if split > instance.variables else instance.report()


def spoilings(text):
    """The text, its beginnings, and what one replaced byte makes of it, each once."""
    cut = [text[:length] for length in range(len(text) + 1)]
    replaced = [text[:place] + byte + text[place + 1 :] for place in range(len(text)) for byte in REPLACEMENTS]
    return dict.fromkeys([*cut, *replaced])


def spoiled():
    texts = [(format, it, None) for format, text in SPOILED for it in spoilings(text)]
    for format, text, cubes in [*texts, *(("opb", COVER, it) for it in spoilings(SPOILED_CUBES))]:
        for split in (0, 1):
            yield Case(format, text, owed(format, text, cubes, split), divisions([split]), cubes)


def optima(width):
    """Random instances as they are drawn and with their numbers changed: then the cost of the answer changes alike, and nothing
    else."""
    feasible = 0
    for number in range(INSTANCES):
        instance, cubes, split = drawn(width, number)
        report = instance.report()
        feasible += report.startswith("o ")
        yield Case("opb", instance.text().encode(), report, divisions([split], [1, 3]), cubes)
        for scale, shift in CHANGES[width] if number < CHANGED else []:
            text, changed_report = changed(instance, scale, shift), with_cost(report, scale, shift)
            yield Case("opb", text, changed_report, divisions([split], [1, 2]), cubes)
    if not FEWEST_OF_A_STATUS <= feasible <= INSTANCES - FEWEST_OF_A_STATUS:
        sys.exit(f"texts: {feasible} of {INSTANCES} instances are feasible")


def changed(instance, scale, shift):
    """The text of the instance with its numbers changed."""
    scaled = instance.times(scale)
    beside = ((shift, 1), (shift, -1)) if shift else ()
    return replace(scaled, objective=(*beside, *scaled.objective)).text().encode()


def with_cost(report, scale, shift):
    """The report with its cost changed alike."""
    return re.sub(r"^o (.+)$", lambda line: f"o {scale * int(line[1]) + shift}", report, flags=re.MULTILINE)


def in_pieces(draw, instance):
    """The instance as one piece, and in random ones."""
    text, report = instance.text().encode(), instance.report()
    yield Case("opb", text, report, divisions([0], [1, 2]))
    cubes, split = draw.division(instance.variables)
    yield Case("opb", text, report, divisions([split], [1, 2]), cubes)


def listed():
    """Random instances of any form, and of clauses."""
    draw, feasible = Random(7), 0
    for _ in range(OF_ANY_FORM):
        instance = draw.of_any_form()
        feasible += instance.report() != "s UNSATISFIABLE\n"
        yield from in_pieces(draw, instance)
    if not FEWEST_OF_A_STATUS <= feasible <= OF_ANY_FORM - FEWEST_OF_A_STATUS:
        sys.exit(f"texts: {feasible} of {OF_ANY_FORM} instances of any form are feasible")
    draw = Random(11)
    for _ in range(OF_CLAUSES):
        yield from in_pieces(draw, draw.clauses(10, draw.terms(10, 10), 40))


def of_both_widths():
    """Random instances of any form, and the same with numbers that 64 bits do not hold, every second one in random pieces."""
    draw = Random(13)
    for number in range(OF_BOTH_WIDTHS):
        instance = draw.of_any_form()
        cubes, split = draw.division(instance.variables) if number % 2 else (None, 0)
        report = instance.report()
        for scale in (1, 1 << 70):
            text = instance.times(scale).text().encode()
            yield Case("opb", text, with_cost(report, scale, 0), divisions([split], [1, 2]), cubes)


def judged(program, folder, number, case):
    """How many runs there were on the case, and what was wrong with them."""
    text, cubes = folder / f"{number}.text", folder / f"{number}.cubes"
    text.write_bytes(case.text)
    if case.cubes is not None:
        cubes.write_bytes(case.cubes)
    files = [text] if case.cubes is None else ["--cubes", cubes, text]
    status = next((STATUSES[line] for line in case.report.splitlines() if line in STATUSES), 0)
    wrong = []
    for words in case.divisions:
        command = [program, "--format", case.format, *words, *files]
        ended = ran(command, stderr=subprocess.DEVNULL)
        if (ended.out, ended.status) != (case.report, status):
            said = f"{' '.join(words)}: {ended.out[:MOST_BYTES]!r} with {ended.status}"
            wrong.append(f"{case.text[:MOST_BYTES]} {(case.cubes or b'')[:MOST_BYTES]} {said}")
    return len(case.divisions), wrong


def main(words):
    program = os.path.abspath((words or built())[0])
    drawn_ones = (optima(small), optima(large), listed(), of_both_widths())
    families = (longest(), worked(), beginnings(), unchanged(), spoiled(), *drawn_ones)  # the slowest runs first
    with tempfile.TemporaryDirectory() as folder, ThreadPoolExecutor(PROCESSORS) as pool:
        cases = enumerate(itertools.chain(*families))
        jobs = [pool.submit(judged, program, Path(folder), number, case) for number, case in cases]
        results = [job.result() for job in jobs]
    wrong = [text for _, texts in results for text in texts]
    print("\n".join(f"texts: {text}" for text in wrong[:SHOWN]), end="\n" if wrong else "")
    print(f"texts: {sum(count for count, _ in results) - len(wrong)} passed, {len(wrong)} failed")
    return 1 if wrong else 0


if __name__ == "__main__":
    sys.exit(main(sys.argv[1:]))
