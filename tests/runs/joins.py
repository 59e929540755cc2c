#!/usr/bin/env python3
"""Cuts instances into pieces, solves each piece by itself or has tasks search them, joins the reports, and compares the bytes with
those of one run.

    tests/runs/joins.py

It takes the programs that the merge gate built. The instances are the examples and fifty random ones, cut by splits, by cubes
and by both, and dealt among two of one, two, three and five tasks. One task takes the pieces of another. Then a report is left out, unknown, given twice, cut short or
changed, or is one of another instance or another division: a join must say so and claim no more than is so. Where every task refuses
the text, or what is to divide the instance, it must write this refusal.
"""
import random
import shutil
import sys
import tempfile
from pathlib import Path

sys.dont_write_bytecode = True
sys.path.insert(0, str(Path(__file__).resolve().parents[1]))
from lib import FORMATS, Ended, run, side_by_side
from lib.draws import instances
from lib.examples import divisions, examples, variables_of
from lib.reports import ALL_REFUSED, HEADING, NO_REPORT, in_no_report, rank, run_again

RANDOM = 50
TASKS = (1, 2, 3, 5)


def texts(folder):
    """Files of instances, each with its format and its number of variables."""
    for file in examples():
        yield file, file.suffix[1:], variables_of(file)
    for number, instance in enumerate(instances(RANDOM)):
        file = folder / f"random{number}.{instance.format}"
        file.write_text(instance.text())
        yield file, instance.format, instance.variables
        if instance.is_cnf:
            clauses = instance.text().split("\n", 1)[1]
            file = folder / f"random{number}.icnf"
            file.write_text(f"p inccnf\n{clauses}a {instance.variables} 0\na -{instance.variables} 1 0\n")
            yield file, "icnf", instance.variables


def every_division(folder, variables):
    """Words that cut an instance of `variables` variables."""
    cubes = folder / "cubes"
    cubes.write_text(f"a 1 -2 0\na -1 0\na {variables} 1 0\n")
    return divisions(variables, range(5)) + (divisions(variables, (0, 2), cubes) if variables >= 2 else [])


def solved(pieces, folder):
    """Reports, one for each file of a piece, in order."""
    folder.mkdir()
    for piece in pieces:
        (folder / f"{piece.stem}.report").write_text(run("pbcube", "--format", piece.suffix[1:], piece).out)
    return sorted(folder.iterdir())


def pieces_of(folder):
    return sorted(it for it in folder.iterdir() if it.suffix[1:] in FORMATS)


def complaints(file, kind, variables, room):
    """What is wrong with the cuts and joins of one instance, one line for each."""
    room.mkdir()
    whole = run("pbcube", "--format", kind, file)
    for number, words in enumerate(every_division(room, variables)):
        folder = room / f"{number}"
        name = f"{file.name} {' '.join(words)}"
        said = run("pbcube_pieces", file, "--format", kind, *words, "--out", folder)
        if said != Ended(f"pieces {len(pieces_of(folder))}\n", "", 0):
            yield f"{name}: pieces: {said}"
            continue
        reports = solved(pieces_of(folder), room / f"{number}.reports")
        joined = ("pbcube_join", file, "--format", kind, "--pieces", len(reports))
        for operands in (reports, reports[::-1], [reports[0].parent]):
            said = run(*joined, *operands)
            if said != Ended(whole.out, "", whole.status):
                yield f"{name}: join: {said}"
        yield from indexed(name, file, kind, folder, reports, whole)
        yield from spoiled(name, joined, reports)
        for tasks in random.Random(name).sample(TASKS, 2):
            yield from of_tasks(file, kind, words, tasks, whole, room / f"{number}.{tasks}")
    yield from refused_by_all(file, kind, variables, room)


def indexed(name, file, kind, folder, reports, whole):
    """What is wrong with joins of these reports where the folder's index tells how many there are."""
    joined = ("pbcube_join", "--format", kind)
    for report in reports:
        shutil.copy(report, folder)
    for words in ((), ("--pieces", len(reports))):
        if (said := run(*joined, *words, file, folder)) != Ended(whole.out, "", whole.status):
            yield f"{name}: join by the index: {said}"
    edited = folder.with_name(f"{folder.name}.edited{file.suffix}")
    edited.write_text(file.read_text() + "\n")
    for words in ((edited, folder), ("--pieces", len(reports) + 1, file, folder)):
        refuses(said := run(*joined, *words)) or (yield f"{name}: join against the index of {words}: {said}")


def spoiled(name, joined, reports):
    """What is wrong with joins of reports that were lost, doubled or changed."""
    chosen = random.Random(name).choice(reports)
    text = chosen.read_text()
    lost = [run(*joined, *(it for it in reports if it != chosen))]
    for told in ("", "s UNKNOWN\n"):
        chosen.write_text(told)
        lost.append(run(*joined, *reports))
    for said in lost:
        lines = said.err.removeprefix(NO_REPORT if len(reports) == 1 else "")
        is_named = lines.count("\n") == 2 and lines.endswith(run_again("pieces", [int(chosen.stem)]))
        if "OPTIMUM" in said.out or "UNSATISFIABLE" in said.out or not is_named or said.status not in (0, 10):
            yield f"{name}: without {chosen.name}: {said}"
    chosen.write_text(text)
    changes = [text.replace("s ", "r ", 1), text + "s UNKNOWN\n"]
    if "\nv" in text:
        changes.append(text.rstrip("\n").rsplit(" ", 1)[0] + "\n")
        changes += [text.replace("\nv", f"\nv {word}") for word in (text.split()[-1], "x1048577")]
    if text.startswith("o "):
        changes.append(f"o 1{text[2:].lstrip('-')}")
    yield from unnoticed(name, joined, reports, chosen, changes)


def unnoticed(name, joined, reports, chosen, changes):
    """What is wrong with joins where the chosen one of the reports is given twice, or is one of these texts."""
    twice = chosen.with_name(f"again-{chosen.name}")
    shutil.copy(chosen, twice)
    refuses(said := run(*joined, *reports, twice)) or (yield f"{name}: {chosen.name} twice: {said}")
    twice.unlink()
    text = chosen.read_text()
    for changed in changes:
        chosen.write_text(changed)
        refuses(said := run(*joined, *reports)) or (yield f"{name}: {chosen.name} is {changed!r}: {said}")
    chosen.write_text(text)


def tasks_ran(file, kind, words, tasks, folder):
    """Reports, one of each of `tasks` tasks, in order."""
    folder.mkdir()
    for task in range(tasks):
        ended = run("pbcube_task", "--format", kind, *words, "--task", task, "--tasks", tasks, file)
        (folder / f"{task}.report").write_text(ended.out)
    return sorted(folder.iterdir())


def of_tasks(file, kind, words, tasks, whole, folder):
    """What is wrong with joins of the reports of `tasks` tasks."""
    name = f"{file.name} {' '.join(words)}, {tasks} tasks"
    reports = tasks_ran(file, kind, words, tasks, folder)
    joined = ("pbcube_join", file, "--format", kind, "--tasks", tasks)
    for operands in (reports, reports[::-1], [folder]):
        if (said := run(*joined, *operands)) != Ended(whole.out, "", whole.status):
            yield f"{name}: join: {said}"
    yield from lost_task(name, joined, reports, whole)
    yield from spoiled_task(name, joined, reports, whole)
    yield from taken_task(name, joined, reports, whole)


def refused_by_all(file, kind, variables, room):
    """What is wrong with joins where every task refuses the text, or what is to divide the instance."""
    beyond, faulty = room / "beyond", room / f"faulty{file.suffix}"
    beyond.write_text(f"a {variables + 1} 0\n")
    faulty.write_text(f"{file.read_text()}x\n")
    too_many = [(file, ["--split", 12])] if variables < 12 else []
    for number, (text, words) in enumerate([(file, ["--cubes", beyond]), (faulty, ["--split", 1]), *too_many]):
        whole = run("pbcube", text, "--format", kind, *words)
        folder = room / f"refused{number}"
        reports = tasks_ran(text, kind, words, 2, folder)
        joined = ("pbcube_join", text, "--format", kind, "--tasks")
        if (said := run(*joined, 2, folder)) != Ended(whole.out, ALL_REFUSED, whole.status) or "c refused" not in whole.out:
            yield f"{text.name} {words}: join: {said}"
        for tasks, operands in ((2, reports[:1]), (3, reports)):
            refuses(said := run(*joined, tasks, *operands)) or (yield f"{text.name} {words}: {tasks} tasks: {said}")


def lost_task(name, joined, reports, whole):
    """What is wrong with joins where the report of one task is not there."""
    pieces = int(reports[0].read_text().splitlines()[1].split()[2])
    for task, report in enumerate(reports):
        said = run(*joined, *(it for it in reports if it != report))
        if said != run(*joined, *(it if it != report else "/dev/null" for it in reports)):
            yield f"{name}: {report.name} is empty"
        if len(reports) > 1 and task >= pieces:
            is_right = said == Ended(whole.out, "", whole.status)
        else:
            is_known = "SATISFIABLE" in said.out and "UNSATISFIABLE" not in said.out and said.status == 10
            is_unknown = said.out == "s UNKNOWN\n" and said.status == 0
            told = (NO_REPORT if len(reports) == 1 else "") + run_again("tasks", [task])
            is_right = (is_known or is_unknown) and said.err == told
        if not is_right:
            yield f"{name}: without {report.name}: {said}"


def spoiled_task(name, joined, reports, whole):
    """What is wrong with joins where a report of a task was doubled or changed."""
    chosen = random.Random(name).choice(reports)
    text = chosen.read_text()
    heading = text.splitlines(keepends=True)[:HEADING]
    part, pieces = heading[0].split(), heading[1].split()
    digest = f"{int(part[-1][0], 16) ^ 1:x}{part[-1][1:]}"
    changes = [
        text.replace(part[-1], digest, 1),
        text.replace(f" of {part[4]} of ", f" of {int(part[4]) + 1} of ", 1),
        "".join(heading) + whole.out.replace("s SATISFIABLE", "s OPTIMUM FOUND"),
        text + "s UNKNOWN\n",
        text.replace("c part", "c  part", 1),
        text.split("\n", 1)[1],
    ]
    if len(reports) > 1:
        changes.append(text.replace(f"split {pieces[4]}", f"split {int(pieces[4]) + 1}", 1))
    if "\no " in text:
        cost = text.split("\no ")[-1].split()[0]
        changes.append(text.replace(f"\no {cost}\n", f"\no 1{cost.lstrip('-')}\n"))
    yield from unnoticed(name, joined, reports, chosen, changes)


def named_in(report):
    """The pieces that the report of a task names as done."""
    return [int(word) for word in report.read_text().splitlines()[HEADING - 2].split()[2:]]


def write_named(report, done, cut=()):
    """Has the report of a task name these pieces."""
    lines = report.read_text().splitlines(keepends=True)
    lines[HEADING - 2 : HEADING] = [" ".join(["c", *map(str, numbers)]) + "\n" for numbers in (["done", *done], ["cut", *cut])]
    report.write_text("".join(lines))


def taken_task(name, joined, reports, whole):
    """What is wrong with joins where the task with the first assignment has done all pieces of another one too, as it may where
    tasks claim pieces. What it holds does those pieces, since nothing in them is before what the other one holds."""
    ranks = {it: rank(it.read_text()) for it in reports}
    taker = min(reports, key=lambda it: (ranks[it] is None, ranks[it] or ()))
    losers = [it for it in reports if it != taker and named_in(it)]
    if not losers:
        return
    loser = random.Random(name).choice(losers)
    own, taken = named_in(taker), named_in(loser)
    both, others = sorted(own + taken), [it for it in reports if it != loser]

    def joins(told, operands, err=None):
        said = run(*joined, *operands)
        is_right = said == Ended(whole.out, "", whole.status) if err is None else said.err == err and "OPTIMUM" not in said.out and "UNSATISFIABLE" not in said.out
        if not is_right or err is not None and said.status not in (0, 10):
            yield f"{name}: {taker.name} has the pieces of {loser.name}, {told}: {said}"

    write_named(taker, both)
    yield from joins("which has them too", reports)
    write_named(loser, [])
    yield from joins("which has none", reports)
    yield from joins("which has no report", others)
    yield from joins("and is lost", [it for it in reports if it != taker], run_again("tasks", [reports.index(taker)]))
    write_named(taker, own, taken)
    yield from joins("and was cut", reports, run_again("tasks", [reports.index(taker)]))
    write_named(taker, own)
    yield from joins("and no report names them", reports, in_no_report(taken) + run_again("tasks", [reports.index(loser)]))
    for done, cut in ((sorted(both + taken[:1]), []), (both, taken[:1]), ([*both, 1 << 20], [])):
        write_named(taker, done, cut)
        refuses(said := run(*joined, *reports)) or (yield f"{name}: {taker.name} has done {done}, and {cut} was cut: {said}")


def refuses(said):
    """Whether a join wrote nothing, told why, and ended with status 1."""
    return said.out == "" and said.err != "" and said.status == 1


def main():
    with tempfile.TemporaryDirectory(prefix="pbcube-joins-") as folder:
        room = Path(folder)
        files = list(texts(room))
        lists = side_by_side(lambda it: list(complaints(*it, room / f"{it[0].name}.cut")), files)
    wrong = [line for lines in lists for line in lines]
    print(*[f"joins: {line}" for line in wrong], f"joins: {len(files)} instances, {len(wrong)} complaints", sep="\n")
    return 1 if wrong else 0


if __name__ == "__main__":
    sys.exit(main())
