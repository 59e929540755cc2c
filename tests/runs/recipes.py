#!/usr/bin/env python3
"""Runs the recipes of examples/cluster/ on this machine, and compares what they join with the report of one run.

    tests/runs/recipes.py

It takes the programs that the merge gate built. The recipes for GNU parallel are run where that is here or can be fetched, those
for Slurm task by task, without Slurm. Reports are lost in them, a solver is killed, and once there is no solver at all. The tasks
that exchange notes meet hostile files in the folder of notes, and some are run twice at a time. Where there is a C compiler, that
folder also goes wrong under them, by the preloaded library folder.c. Root runs some as two other users.
"""
import itertools
import os
import shutil
import subprocess
import sys
import tempfile
from concurrent.futures import ThreadPoolExecutor
from pathlib import Path

sys.dont_write_bytecode = True
sys.path.insert(0, str(Path(__file__).resolve().parents[1]))
from lib import PROGRAMS, SECONDS, TOP, Ended, preloaded, program, ran, run, side_by_side
from lib.reports import ALL_REFUSED, in_no_report, run_again

CLUSTER = TOP / "examples/cluster"
AS_USERS = [["setpriv", "--reuid", user, "--regid", "65534", "--clear-groups"] for user in ("1", "65534")]
DIVIDERS = ("pbcube_pieces", "pbcube_join")
GIGABYTES = 4


def has_parallel():
    """Whether GNU parallel is here, or can be fetched from Debian's packages."""
    if not shutil.which("parallel") and shutil.which("apt-get") and os.geteuid() == 0:
        for words in (["update"], ["install", "--yes", "--no-install-recommends", "parallel"]):
            subprocess.run(["apt-get", "--quiet", *words], stdin=subprocess.DEVNULL, capture_output=True, timeout=300)
    return shutil.which("parallel") is not None


def has_users():
    """Whether this is root, and other users reach the programs and the instance."""
    reached = ["test", "-x", program("pbcube_task"), "-a", "-r", OfTasks.FILE]
    return os.geteuid() == 0 and shutil.which("setpriv") is not None and not any(ran([*it, *reached]).status for it in AS_USERS)


def reports_in(folder):
    """The names of the reports of a folder, in order."""
    return sorted(it.name for it in folder.glob("*.report"))


def times_of(folder, without=""):
    """When each report of a folder was written, but for the one of this name."""
    return {it.name: it.stat().st_mtime_ns for it in folder.glob("*.report") if it.name != without}


def log_of(folder, number):
    """What a task of Slurm has said."""
    file = folder / f"task-{number}.log"
    return file.read_text() if file.exists() else ""


def of_task(line):
    """The line of `pbcube`, as `pbcube_task` writes it."""
    return line.replace("pbcube:", "pbcube_task:", 1)


def cut_off(whole):
    """What a crash of the machine may leave of a report."""
    return whole[:4], whole[: whole.index("v ")], whole[:-1], whole[: whole.index("s ") + 5], "\0" * len(whole)


class Recipes:
    """Recipes that solve one instance, and a folder to run them in."""

    def __init__(self, room, file):
        room.mkdir()
        self.room, self.file = room, file
        whole = run("pbcube", file)
        self.answer = Ended(whole.out, "", whole.status)
        self.paths = {}
        self.put_path("all", PROGRAMS)
        self.put_path("no solver", DIVIDERS)

    def put_path(self, name, programs, **scripts):
        """Makes a folder with these programs, and shell scripts in the place of others."""
        folder = self.paths[name] = self.room / f"path {name}"
        folder.mkdir()
        for it in programs:
            (folder / it).symlink_to(program(it))
        for it, text in scripts.items():
            (folder / it).write_text(f'#!/bin/sh\n{text}\nexec {program(it)} "$@"\n')
            (folder / it).chmod(0o755)

    def ran(self, script, *words, path="all", **more):
        """How a recipe ends on these words, with the programs of one of the paths before the others. One that hangs is ended."""
        others = [it for it in os.environ["PATH"].split(os.pathsep) if not (Path(it) / "pbcube").exists()]
        told = {**os.environ, "PATH": os.pathsep.join([str(self.paths[path]), *others]), **more}
        command = ["timeout", str(SECONDS), CLUSTER / script, *map(str, words)]
        return ran(command, env=told, timeout=2 * SECONDS)

    def joined(self, folder, *words, file=None, kind="opb"):
        """What the job that joins leaves in the folder: its status, the report and the log."""
        status = self.ran("slurm-join.sh", file or self.file, kind, folder, *words).status
        return status, (folder / "joined").read_text(), (folder / "joined.log").read_text()


class OfPieces(Recipes):
    """Those of pieces in files."""

    def __init__(self, room):
        super().__init__(room, TOP / "examples/repairs.opb")
        # it ends by a signal on one piece, and writes a part of a report before
        self.put_path("a killed solver", DIVIDERS, pbcube='case "$*" in *4.opb) echo "o 3"; kill -9 $$ ;; esac')
        refused = "c refused: Memory\\ns UNKNOWN\\n"
        self.put_path("no memory", DIVIDERS, pbcube=f'case "$*" in *4.opb) printf "{refused}"; exit 0 ;; esac')

    def of_parallel(self):
        folder = self.room / "parallel"
        words = ["parallel.sh", self.file, "opb", "3", folder]
        for path in ("no solver", "a killed solver", "no memory"):
            ended = self.ran(*words, path=path)
            if ended.out == self.answer.out or "has no report" not in ended.err:
                yield f"parallel.sh, {path}: {ended}"
            if (f"look at {folder}/4.part\n" in ended.err) != (path != "no solver"):
                yield f"parallel.sh, {path}, the file to look at: {ended}"
        if reports_in(folder) != [f"{number}.report" for number in range(9) if number != 4]:
            yield f"parallel.sh, a killed solver: {reports_in(folder)}"
        yield from self.of_lost_reports(words, folder)
        yield from self.of_old_folders(folder)
        yield from self.of_cuts_that_end_early()
        early = self.room / "early.icnf"  # a line % ends it
        early.write_text("p inccnf\n1 2 0\n-1 3 0\na 1 0\na -1 0\n%\na 2 0\n")
        for file in (TOP / "examples/colouring.icnf", early):
            own_cubes = ["parallel.sh", file, "icnf", "1", self.room / f"own {file.name}"]
            for ended in (self.ran(*own_cubes), self.ran(*own_cubes)):
                if ended.status != 10:
                    yield f"parallel.sh, own cubes of {file.name}: {ended}"

    def of_lost_reports(self, words, folder):
        for lost in ("4.report", "3.report", "0.report"):
            if lost == "0.report":
                (folder / lost).write_text("")
            else:
                (folder / lost).unlink(missing_ok=True)
            old = times_of(folder, lost)
            if (ended := self.ran(*words)) != self.answer:
                yield f"parallel.sh, without {lost}: {ended}"
            if times_of(folder, lost) != old:
                yield f"parallel.sh, without {lost}: other pieces were solved again"

        whole = (folder / "3.report").read_text()
        for part in cut_off(whole):
            (folder / "3.report").write_text(part)
            if (ended := self.ran(*words)) != self.answer or (folder / "3.report").read_text() != whole:
                yield f"parallel.sh, with a report that is {part!r}: {ended}"
        (folder / "3.report").write_text(whole[:4])
        ended = self.ran(*words, path="no solver")
        if ended.status != 1 or f"parallel.sh: {folder}/3.report was cut off: the same words once more run that piece again\n" not in ended.err:
            yield f"parallel.sh, with a report that is cut off and no solver: {ended}"
        self.ran(*words)

    def of_old_folders(self, folder):
        other = self.room / "other.opb"
        other.write_text(self.file.read_text() + "* another text\n")
        for file, split in ((other, 3), (self.file, 2), (self.file, 0)):
            ended = self.ran("parallel.sh", file, "opb", split, folder)
            if (ended.out, ended.err.count("\n"), ended.status) != ("", 1, 2):
                yield f"parallel.sh, {file.name} and split {split} in an old folder: {ended}"
        left = self.room / "left"
        left.mkdir()
        (left / "0.report").write_text(self.answer.out)
        ended = self.ran("parallel.sh", self.file, "opb", "3", left)
        if (ended.out, ended.err.count("\n"), ended.status) != ("", 1, 2) or reports_in(left) != ["0.report"]:
            yield f"parallel.sh, in a folder with a report and no index: {ended}"
        run("pbcube_pieces", "--split", 3, "--out", left, self.file)
        self.put_before_index(left / "0.report")
        ended = self.ran("parallel.sh", self.file, "opb", "3", left)
        if (ended.out, ended.status) != ("", 2) or "0.report is older than the index" not in ended.err:
            yield f"parallel.sh, in a folder with a report of an earlier cut: {ended}"

    def of_cuts_that_end_early(self):
        """A folder is what a cut leaves that was ended before its index, or within that. Nothing in it is removed."""
        for split in (1, 7):  # so that the first piece has a name of one digit, and of more
            folder = self.room / f"cut {split}"
            run("pbcube_pieces", "--split", split, "--out", folder, self.file)
            index = (folder / "index").read_text()
            for part in (None, "", index[:30], index[:-1], index[: index.rindex("\n", 0, -1)]):
                (folder / "index").unlink() if part is None else (folder / "index").write_text(part)
                left = sorted(folder.iterdir())
                ended = self.ran("parallel.sh", self.file, "opb", split, folder)
                is_told = "cut was not finished: remove" in ended.err and ended.err.count("\n") == 1
                if (ended.out, ended.status) != ("", 2) or not is_told or sorted(folder.iterdir()) != left:
                    yield f"parallel.sh, a cut with the index {part!r}: {ended}"
            (folder / "index").unlink()
            ended = self.ran("slurm.sh", folder, SLURM_ARRAY_TASK_ID="0")
            if ended.status != 2 or "cut was not finished: remove" not in ended.err:
                yield f"slurm.sh, a cut without an index: {ended}"

        (own := self.room / "own").mkdir()
        (own / "01.opb").write_text("of the user\n")
        ended = self.ran("parallel.sh", self.file, "opb", 0, own)
        if (ended.out, ended.status) != (self.answer.out, 30) or (own / "01.opb").read_text() != "of the user\n":
            yield f"parallel.sh, in a folder with another file: {ended}"

    def put_before_index(self, report):
        """Makes the report a second older than the index beside it."""
        then = report.with_name("index").stat().st_mtime_ns - 10**9
        os.utime(report, ns=(then, then))

    def of_slurm(self):
        folder = self.room / "slurm"
        run("pbcube_pieces", "--split", 3, "--out", folder, self.file)
        (folder / "8.report").write_text("")

        def task(number, *words, path="all"):
            ended = self.ran("slurm.sh", folder, *words, path=path, SLURM_ARRAY_TASK_ID=str(number))
            return ended.status, log_of(folder, number)

        if (said := task(0, path="no solver"))[0] != 1 or "ended with status 127" not in said[1] or (folder / "0.report").exists():
            yield f"slurm.sh, no solver: {said}"
        # pieces 3 to 5: the two beside the one whose solver is killed are solved
        if (said := task(1, 3, path="a killed solver"))[0] != 1 or "ended with status 137" not in said[1]:
            yield f"slurm.sh, a killed solver: {said}"
        if reports_in(folder) != ["3.report", "5.report", "8.report"]:
            yield f"slurm.sh, a killed solver: {reports_in(folder)}"
        for number in range(5):
            if (said := task(number, 2)) != (0, ""):
                yield f"slurm.sh, task {number}: {said}"
        for number in (5, 400):
            if (said := task(number, 2))[0] or "there is no piece" not in said[1]:
                yield f"slurm.sh, task {number}: {said}"
        if (said := self.joined(folder)) != (0, self.answer.out, ""):
            yield f"slurm-join.sh: {said}"
        bare = self.room / "bare"
        bare.mkdir()
        ended = self.ran("slurm.sh", bare, SLURM_ARRAY_TASK_ID="0")
        if ended.status != 2 or "has no index" not in log_of(bare, 0):
            yield f"slurm.sh, in a folder without an index: {ended} {log_of(bare, 0)}"
        yield from self.of_cut_off_reports(folder, task)
        yield from self.of_slurm_again(folder, task)
        if (said := task(4, path="no memory"))[0] != 1 or f"status 0: look at {folder}/4.part\n" not in said[1]:
            yield f"slurm.sh, no memory: {said}"
        (folder / "0.report").write_text(self.answer.out)
        self.put_before_index(folder / "0.report")
        for number in (0, 1):
            if (said := task(number))[0] != 2 or "0.report is older than the index" not in said[1] or len(reports_in(folder)) != 1:
                yield f"slurm.sh, a report of an earlier cut, task {number}: {said}"
        ended = self.ran("slurm-join.sh", self.file, "opb", folder)
        log = (folder / "joined.log").read_text()
        if ended.status != 2 or (folder / "joined").exists() or ended.err != log or "0.report is older than the index" not in log:
            yield f"slurm-join.sh, a report of an earlier cut: {ended} {log!r}"

    def of_cut_off_reports(self, folder, task):
        """A crash of the machine has cut off a report. The join says so, and the task of its piece runs again."""
        whole = (folder / "3.report").read_text()
        for part in cut_off(whole):
            (folder / "3.report").write_text(part)
            said = self.joined(folder)
            if part != whole[:-1] and (said[0] != 1 or f"slurm-join.sh: {folder}/3.report was cut off: run that task again\n" not in said[2]):
                yield f"slurm-join.sh, a report that is {part!r}: {said}"
            if (said := task(1, 3)) != (0, "") or (folder / "3.report").read_text() != whole:
                yield f"slurm.sh, a report that is {part!r}: {said}"

    def of_slurm_again(self, folder, task):
        """Some pieces have lost their reports, and then all. The join names them as an array."""
        for lost in ((0, 2, 3, 4, 8), range(9)):
            for number in lost:
                (folder / f"{number}.report").unlink()
            said = self.joined(folder)
            if "OPTIMUM" in said[1] or not said[2].endswith(run_again("pieces", lost)):
                yield f"slurm-join.sh, without the reports {list(lost)}: {said}"
            for number in lost:
                task(number)
            if (said := self.joined(folder)) != (0, self.answer.out, ""):
                yield f"slurm-join.sh, the pieces {list(lost)} were solved again: {said}"
        for file in folder.glob("*.report"):
            file.unlink()
        if (said := self.joined(folder))[:2] != (1, "s UNKNOWN\n"):
            yield f"slurm-join.sh, without reports: {said}"


class OfTasks(Recipes):
    """Those of tasks that exchange notes."""

    FILE, SPLIT, TASKS, KILLED = TOP / "examples/hard/knapsack.opb", 3, 4, 2
    # what every task refuses, as one run does: a split that is too great, and a text in another format
    SMALL = TOP / "examples/tie.opb"
    REFUSED = [(SMALL, "opb", 8), (SMALL, "cnf", 1)]

    def __init__(self, room):
        super().__init__(room, self.FILE)
        solver = program("pbcube_task")
        # it leaves its note and is ended by a signal while it writes its report
        killed = f'case "$*" in *"--task {self.KILLED} "*) {solver} "$@" | head -n 5; kill -9 $$ ;; esac'
        self.put_path("a killed task", DIVIDERS, pbcube_task=killed)
        told = 'echo "$*" >> words'  # in the folder of the reports
        self.put_path("a killed task, and its words", DIVIDERS, pbcube_task=f"{told}; {killed}")
        self.put_path("words", DIVIDERS, pbcube_task=told)
        self.put_path("few decisions", DIVIDERS, pbcube_task='set -- --nodes 1 "$@"')
        # it writes its report in two parts, so that two that begin together write at the same time
        slow = f'told=$({solver} "$@"); status=$?; echo "$told" | head -n 2; sleep 1; echo "$told" | tail -n +3'
        self.put_path("slow", DIVIDERS, pbcube_task=f"{slow}; exit $status")
        self.other = room / "other.opb"
        self.other.write_text(self.file.read_text().replace("<= ", "<= 1"))
        self.note, self.note_of_other = self.note_on(self.file), self.note_on(self.other)

    def note_on(self, file):
        """The note that a task leaves on an instance."""
        notes = self.room / f"notes on {file.name}"
        run("pbcube_task", "--task", 0, "--tasks", 1, "--exchange", notes, file)
        return (notes / "0.note").read_text()

    def parallel(self, folder, file=None, kind="opb", split=SPLIT, tasks=TASKS, path="all"):
        """How the recipe for GNU parallel ends."""
        return self.ran("parallel-tasks.sh", file or self.file, kind, split, tasks, folder, path=path)

    def of_parallel(self):
        yield from self.of_lost_tasks()
        yield from self.of_lost_claims()
        yield from self.of_other_words()
        yield from self.of_strange_reports()
        yield from self.of_few_decisions()
        yield from self.of_two_recipes_at_once()
        yield from self.of_hostile_notes()
        yield from self.of_wrong_folders()

    def of_lost_tasks(self):
        folder = self.room / "parallel"
        for path, lost in (("no solver", range(self.TASKS)), ("a killed task", [self.KILLED])):
            if path == "a killed task":  # it was lost before too, with all pieces claimed, so no other task takes its pieces first
                self.claim_all(folder, self.KILLED)
            ended = self.parallel(folder, path=path)
            if "OPTIMUM" in ended.out or not ended.err.endswith(run_again("tasks", lost)):
                yield f"parallel-tasks.sh, {path}: {ended}"
        if reports_in(folder) != ["0.report", "1.report", "3.report"]:
            yield f"parallel-tasks.sh, a killed task: {reports_in(folder)}"
        cut = run("pbcube_task", "--split", self.SPLIT, "--nodes", 1, "--task", 0, "--tasks", self.TASKS, self.file).out
        yield from self.of_lost_report(folder, self.KILLED, None)
        yield from self.of_lost_report(folder, 1, None)
        yield from self.of_lost_report(folder, 3, "")
        yield from self.of_lost_report(folder, 0, cut)
        for part in self.parts_of((folder / "1.report").read_text()):
            yield from self.of_lost_report(folder, 1, part)
        if (ended := self.parallel(folder)) != self.answer:
            yield f"parallel-tasks.sh, all reports are there: {ended}"

    def claim_all(self, folder, number):
        """Has a task claim all pieces, and loses its report."""
        words = ("--split", self.SPLIT, "--task", number, "--tasks", self.TASKS, "--exchange", folder / "notes")
        run("pbcube_task", *words, self.file)

    def of_lost_claims(self):
        """A task has claimed all pieces, and its report is of a run without its claims. Then what the join says is done."""
        folder = self.room / "lost claims"
        self.claim_all(folder, self.KILLED)
        words = ("--split", self.SPLIT, "--task", self.KILLED, "--tasks", self.TASKS)
        report = run("pbcube_task", *words, self.file).out
        (folder / f"{self.KILLED}.report").write_text(report)
        unnamed = [it for it in range(int(report.splitlines()[1].split()[2])) if it % self.TASKS != self.KILLED]
        others = [it for it in range(self.TASKS) if it != self.KILLED]
        ended = self.parallel(folder)
        if "OPTIMUM" in ended.out or not ended.err.endswith(in_no_report(unnamed) + run_again("tasks", others)):
            yield f"parallel-tasks.sh, lost claims: {ended}"
        for task in others:
            for it in (folder / f"{task}.report", *(folder / "notes").glob(f"{task}.*.claim")):
                it.unlink()
        if (ended := self.parallel(folder)) != self.answer:
            yield f"parallel-tasks.sh, after claims were removed: {ended}"

    def parts_of(self, report):
        """What a report is where it was cut off: within its heading, behind that, and within its values. One is zeros."""
        lines = report.splitlines(keepends=True)
        return report[:3], report[:30], lines[0], "".join(lines[:2])[:-3], "".join(lines[:-1]), report[:-9], report[:-1], "\0" * 99

    def of_other_words(self):
        """The folder has reports of all tasks. Then there are more tasks than pieces."""
        for words in ({"file": self.other}, {"split": self.SPLIT - 1}, {"tasks": self.TASKS + 1}):
            ended = self.parallel(self.room / "parallel", **words)
            if (ended.out, ended.err.count("\n"), ended.status) != ("", 1, 2):
                yield f"parallel-tasks.sh, {words} in an old folder: {ended}"
        yield from self.of_refused_inputs()
        folder = self.room / "one piece"
        ended = self.parallel(folder, split=0)
        if ended.out != self.answer.out or ended.err.count("none of the 1 pieces") != self.TASKS - 1:
            yield f"parallel-tasks.sh, one piece: {ended}"
        if len(reports_in(folder)) != self.TASKS:
            yield f"parallel-tasks.sh, one piece: {reports_in(folder)}"

    def of_strange_reports(self):
        """The folder has reports of all tasks, and a file in the place of one is no report of a task. It stays as it is."""
        report = self.room / "parallel/1.report"
        whole = report.read_text()
        warning = "pbcube_task: cannot use notes: File exists"
        lines = {"Killed\n": "Killed", f"{warning}\n{whole}": warning, "\x07\n": "^G"}
        lines[whole.replace("\n", "\r\n")] = f"{whole.splitlines()[0]}^M"
        for text, line in lines.items():
            report.write_bytes(text.encode())
            ended = self.parallel(self.room / "parallel")
            told = f"parallel-tasks.sh: {report} is no report of a task: its first line is '{line}'\n"
            if ended != Ended("", told, 2) or report.read_bytes() != text.encode():
                yield f"parallel-tasks.sh, a report that begins with {line!r}: {ended}"
        report.write_text(whole)

    def of_refused_inputs(self):
        """Each input twice, and then its folder serves one that is not refused."""
        accepted = (self.SMALL, "opb", 1)
        for refused in self.REFUSED:
            for file, kind, split in (refused, refused, accepted):
                whole = run("pbcube", "--format", kind, "--split", split, file)
                ended = self.parallel(self.room / f"refused {refused[1:]}", file, kind, split, 2)
                told = "" if (file, kind, split) == accepted else of_task(whole.err) * 2 + ALL_REFUSED
                if ended != Ended(whole.out, told, whole.status):
                    yield f"parallel-tasks.sh, {kind}, split {split}: {ended} and not {whole}"

    def of_lost_report(self, folder, number, text):
        """What is wrong where the report of one task is not there, or has this text, and the same words are run once more."""
        lost = folder / f"{number}.report"
        lost.unlink(missing_ok=True)
        if text is not None:
            lost.write_text(text)
        old = times_of(folder, lost.name)
        if (ended := self.parallel(folder)) != self.answer:
            yield f"parallel-tasks.sh, {lost.name} is {text!r}: {ended}"
        if times_of(folder, lost.name) != old:
            yield f"parallel-tasks.sh, {lost.name} is {text!r}: other tasks were run again"

    def of_few_decisions(self):
        """A few decisions find the least cost only where the notes tell it."""
        folder, least = self.room / "few", self.answer.out.splitlines()[0]
        for is_told in (False, True):
            ended = self.parallel(folder, path="few decisions")
            if "OPTIMUM" in ended.out or (least in ended.out) != is_told or "run again" not in ended.err:
                yield f"parallel-tasks.sh, few decisions, {is_told}: {ended}"
            if (ended := self.parallel(folder)) != self.answer:
                yield f"parallel-tasks.sh, after few decisions: {ended}"
            for report in folder.glob("*.report"):
                report.unlink()

    def of_two_recipes_at_once(self):
        folder = self.room / "at once"
        with ThreadPoolExecutor(2) as pool:
            for ended in pool.map(lambda _: self.parallel(folder, path="slow"), range(2)):
                if (ended.out, ended.status) != (self.answer.out, self.answer.status) or self.are_too_many(ended.err):
                    yield f"parallel-tasks.sh, two at a time: {ended}"

    def are_too_many(self, said):
        """Whether these are lines on other things than notes, or more than one for each task."""
        lines = said.splitlines()
        return len(lines) > self.TASKS or not all("notes" in line for line in lines)

    def hostile(self):
        """What may lie in the place of a note, and whether each is a fault of the folder. Each is laid to a path."""
        head, cost, values = self.note.splitlines(keepends=True)
        ones = values.replace("0", "1")
        yield "another instance's best", False, lambda it: it.write_text(self.note_of_other)
        yield "a cost that lies", False, lambda it: it.write_text(f"{head}cost -99999\n{values}")
        yield "values that are not feasible", False, lambda it: it.write_text(f"{head}cost -99999\n{ones}")
        yield "the cost of another instance's best", False, lambda it: it.write_text(head + self.note_of_other.split("\n", 1)[1])
        yield "half of a note", False, lambda it: it.write_text(head + cost + values[:20])
        yield "zeros", False, lambda it: (it.touch(), os.truncate(it, GIGABYTES << 30))
        yield "a link to a device", True, lambda it: it.symlink_to("/dev/zero")
        yield "a link to itself", True, lambda it: it.symlink_to(it.name)
        yield "a folder", True, lambda it: it.mkdir()
        yield "a pipe", True, os.mkfifo

    def hostile_drafts(self):
        """The same in the place of the file to which a note is written before it gets its name."""
        yield "a draft that was left", False, lambda it: it.write_text(self.note_of_other)
        yield "a link to a draft elsewhere", False, lambda it: (it.with_name("kept").write_text("kept\n"), it.symlink_to("kept"))
        yield "a folder for a draft", True, lambda it: it.mkdir()
        yield "a pipe for a draft", False, os.mkfifo

    def of_hostile_notes(self):
        """Each hostile file lies in the place of one task's note and of every task's, and once a file in that of the folder."""
        cases = [(*it, places, "note") for it in self.hostile() for places in ([1], range(self.TASKS))]
        cases += [(*it, places, "0.new") for it in self.hostile_drafts() for places in ([1], range(self.TASKS))]
        yield from (line for lines in side_by_side(lambda it: list(self.of_hostile_note(*it)), cases) for line in lines)
        folder = self.room / "no folder"
        folder.mkdir()
        (folder / "notes").touch()
        ended = self.parallel(folder)
        if (ended.out, ended.status, ended.err.count("cannot use notes")) != (self.answer.out, self.answer.status, self.TASKS):
            yield f"parallel-tasks.sh, the folder of notes is a file: {ended}"

    def of_hostile_note(self, name, is_fault, lay, places, ending):
        folder = self.room / f"{name} {len(places)}"
        notes = folder / "notes"
        notes.mkdir(parents=True)
        for task in places:
            lay(notes / f"{task}.{ending}")
        ended = self.parallel(folder)
        if (ended.out, ended.status) != (self.answer.out, self.answer.status):
            yield f"parallel-tasks.sh, {name} in the places {places}: {ended}"
        # One task may find all pieces claimed and nothing to tell. Then it writes no note, and does not see what lies in its way.
        may_be_unseen = ending == "0.new" and len(places) < self.TASKS and ended.err == ""
        if self.are_too_many(ended.err) or ((ended.err != "") != is_fault and not may_be_unseen):
            yield f"parallel-tasks.sh, {name} in the places {places}: {ended.err!r}"
        if (kept := notes / "kept").exists() and kept.read_text() != "kept\n":
            yield f"parallel-tasks.sh, {name} in the places {places}: another file was written"

    def of_wrong_folders(self):
        """The folder of notes goes wrong from the first call of each task on, or while the tasks search."""
        if library := preloaded(self.room, "folder"):
            cases = list(itertools.product(("kept", "full", "single", "gone"), (1, 9)))
            yield from (line for lines in side_by_side(lambda it: list(self.of_wrong_folder(library, *it)), cases) for line in lines)

    def of_wrong_folder(self, library, how, at):
        folder = self.room / f"{how} {at}"
        (folder / "notes").mkdir(parents=True)
        wrong = {"LD_PRELOAD": library, "FOLDER": "notes", "FOLDER_HOW": how, "FOLDER_AT": str(at), "FOLDER_TELL": "-1"}
        ended = self.ran("parallel-tasks.sh", self.file, "opb", self.SPLIT, self.TASKS, folder, **wrong)
        if (ended.out, ended.status) != (self.answer.out, self.answer.status) or self.are_too_many(ended.err):
            yield f"parallel-tasks.sh, the folder of notes is {how} from call {at} on: {ended}"

    def slurm(self, folder, number, path="all", kind="opb", file=None, split=SPLIT, tasks=TASKS):
        """The status of a task of Slurm, and its log."""
        words = (file or self.file, kind, split, tasks, folder)
        told = {"SLURM_ARRAY_TASK_ID": str(number), "SLURM_CPUS_PER_TASK": str(1 + number % 2)}
        return self.ran("slurm-tasks.sh", *words, path=path, **told).status, log_of(folder, number)

    def of_slurm(self):
        folder = self.room / "slurm"
        failing = [(0, "no solver", "opb", "status 127"), (self.KILLED, "a killed task", "opb", "status 137")]
        failing.append((self.TASKS, "all", "opb", "status 2"))
        for number, path, kind, told in failing:
            if (said := self.slurm(folder, number, path, kind))[0] != 1 or told not in said[1] or reports_in(folder):
                yield f"slurm-tasks.sh, {path}, {kind}, task {number}: {said} {reports_in(folder)}"
        for number in range(self.TASKS):
            path = "few decisions" if number == self.KILLED else "all"
            if (said := self.slurm(folder, number, path)) != (0, ""):
                yield f"slurm-tasks.sh, {path}, task {number}: {said}"
        unknown = self.slurm(self.room / "unknown", 0, "few decisions"), reports_in(self.room / "unknown")
        if unknown != ((0, ""), ["0.report"]):
            yield f"slurm-tasks.sh, nothing is found: {unknown}"
        if (said := self.joined(folder, self.TASKS))[0] or "OPTIMUM" in said[1] or said[2] != run_again("tasks", [self.KILLED]):
            yield f"slurm-join.sh, a task is missing: {said}"
        yield from self.of_requeued()
        yield from self.of_refused_in_slurm()
        yield from self.of_tasks_again(folder)
        yield from self.of_two_tasks_at_once(folder)
        whole = (folder / "1.report").read_text()
        for part in self.parts_of(whole):
            (folder / "1.report").write_text(part)
            if (said := self.slurm(folder, 1)) != (0, "") or not (told := (folder / "1.report").read_text()).endswith(whole[-9:]):
                yield f"slurm-tasks.sh, a report is {part!r}: {said} {told!r}"
        old, other = times_of(folder), f"slurm-tasks.sh: {folder} is of another file, split or number of tasks: "
        for words in ({"file": self.other}, {"split": self.SPLIT - 1}, {"tasks": self.TASKS + 1}):
            if (said := self.slurm(folder, 0, **words)) != (2, other + "take another folder\n"):
                yield f"slurm-tasks.sh, {words} in an old folder: {said}"
        if times_of(folder) != old:
            yield "slurm-tasks.sh, in an old folder: tasks were run again"
        yield from self.of_older_version(folder)

    def of_older_version(self, folder):
        """The folder has reports of all tasks, and no division, as version 1.0.0 left it. Then a report is one of pieces."""
        division, old = folder / "division", times_of(folder)
        told, report = division.read_text(), folder / "0.report"
        for words in ({"file": self.other}, {"split": self.SPLIT - 1}, {"tasks": self.TASKS + 1}):
            division.unlink(missing_ok=True)
            refused = (2, f"slurm-tasks.sh: {report} is of another file, split or number of tasks: take another folder\n")
            if (said := self.slurm(folder, self.TASKS - 1, **words)) != refused or division.exists():
                yield f"slurm-tasks.sh, {words} in an old folder without a division: {said}"
        for number in (self.TASKS - 1, 0):
            if (said := self.slurm(folder, number)) != (0, "") or division.read_text() != told:
                yield f"slurm-tasks.sh, in an old folder without a division: {said}"
        if times_of(folder) != old:
            yield "slurm-tasks.sh, in an old folder without a division: tasks were run again"
        whole, text = report.read_text(), "o 1\ns OPTIMUM FOUND\nv x1\n"
        report.write_text(text)
        refused = (2, f"slurm-tasks.sh: {report} is no report of a task: its first line is 'o 1'\n")
        if (said := self.slurm(folder, 0)) != refused or report.read_text() != text:
            yield f"slurm-tasks.sh, a report of a piece: {said}"
        report.write_text(whole)

    def of_requeued(self):
        """A task that was killed runs again with the same words, by which it knows its claims."""
        folder = self.room / "requeued"
        statuses = [self.slurm(folder, self.KILLED, path)[0] for path in ("a killed task, and its words", "words")]
        words = (folder / "words").read_text().splitlines()
        if statuses != [1, 0] or len(words) != 2 or len(set(words)) != 1:
            yield f"slurm-tasks.sh, requeued: {statuses} {words}"

    def of_users(self):
        """Two users share a folder of notes: both may write to it, or neither may."""
        yield from self.of_shared_notes(0o777, "")
        yield from self.of_shared_notes(0o755, "Permission denied")

    def of_shared_notes(self, mode, told):
        """Two users run the tasks by turns, and then the other one runs a task again."""
        folder = self.room / f"users {mode:o}"
        (notes := folder / "notes").mkdir(parents=True)
        notes.chmod(mode)
        words = ["--split", self.SPLIT, "--tasks", self.TASKS, "--exchange", notes, self.FILE, "--task"]
        for number, user in [*((it, it % 2) for it in range(self.TASKS)), (0, 1)]:
            ended = ran([*AS_USERS[user], program("pbcube_task"), *map(str, words), str(number)])
            (folder / f"{number}.report").write_text(ended.out)
            if ended.err.count("\n") != (told != "") or told not in ended.err:
                yield f"tasks of two users, mode {mode:o}, task {number}: {ended}"
        if (joined := run("pbcube_join", "--tasks", self.TASKS, self.FILE, folder)) != self.answer:
            yield f"tasks of two users, mode {mode:o}: {joined}"

    def of_refused_in_slurm(self):
        """Each task helps as one run does, and the join says that every task refused its input."""
        for file, kind, split in self.REFUSED:
            folder = self.room / f"refused {kind}"
            whole = run("pbcube", "--format", kind, "--split", split, file)
            for number in (0, 1, 0):
                if (said := self.slurm(folder, number, kind=kind, file=file, split=split, tasks=2)) != (0, of_task(whole.err)):
                    yield f"slurm-tasks.sh, {kind}, split {split}, task {number}: {said}"
            if (said := self.joined(folder, 2, file=file, kind=kind)) != (1, whole.out, ALL_REFUSED):
                yield f"slurm-join.sh, {kind}, split {split}: {said} and not {whole}"
            yield from self.of_accepted_in_slurm(folder, file)

    def of_accepted_in_slurm(self, folder, file):
        """All tasks were refused. Another split is refused too, with what to remove, and then it is searched."""
        if (said := self.slurm(folder, 0, file=file, split=2, tasks=2))[0] != 2 or f"or remove {folder}/division, since" not in said[1]:
            yield f"slurm-tasks.sh, another split in {folder}: {said}"
        (folder / "division").unlink()
        statuses = [self.slurm(folder, number, file=file, split=2, tasks=2)[0] for number in range(2)]
        if (said := self.joined(folder, 2, file=file)) != (0, run("pbcube", file).out, "") or statuses != [0, 0]:
            yield f"slurm-tasks.sh, {folder} without its division: {statuses} {said}"

    def of_tasks_again(self, folder):
        """In the report of one task a piece was cut. All others are whole."""
        old = times_of(folder, f"{self.KILLED}.report")
        for number in range(self.TASKS):
            if (said := self.slurm(folder, number)) != (0, ""):
                yield f"slurm-tasks.sh, once more, task {number}: {said}"
        if times_of(folder, f"{self.KILLED}.report") != old:
            yield "slurm-tasks.sh, once more: other tasks were run again"
        # the first task that ran has claimed all pieces, and the others have searched none
        found = [it.stem for it in folder.glob("*.report") if "\nv " in it.read_text()]
        if str(self.KILLED) not in found or not all((folder / f"notes/{number}.note").exists() for number in found):
            yield f"slurm-tasks.sh: a task has left no note, of those that have found an assignment: {found}"
        if (logs := [it.name for it in folder.glob("task-*.log")]) != [f"task-{self.TASKS}.log"]:
            yield f"slurm-tasks.sh, once more: logs {logs}"

    def of_two_tasks_at_once(self, folder):
        """The reports of all other tasks are there."""
        (folder / "0.report").unlink()
        with ThreadPoolExecutor(2) as pool:
            for status, log in pool.map(lambda _: self.slurm(folder, 0, "slow"), range(2)):
                if status or self.are_too_many(log):
                    yield f"slurm-tasks.sh, two at a time: {status} {log!r}"
        if (said := self.joined(folder, self.TASKS)) != (0, self.answer.out, ""):
            yield f"slurm-join.sh: {said}"


def faults_of_words(script):
    """What is wrong where a recipe is not bash, or is run with no words and with too many."""
    if (said := ran(["bash", "-n", script])).status:
        yield f"{script.name}: {said}"
    for count in (0, 9):
        ended = ran([script, *["word"] * count])
        if (ended.out, ended.status, ended.err.count("\n")) != ("", 2, 1) or not ended.err.startswith(f"usage: {script.name} "):
            yield f"{script.name} with {count} words: {ended}"


def wrong_words(room):
    """Words of each recipe that are refused, each with a part of what is said, and with whether Slurm gives the number of a task."""
    file, bare, divided, no = TOP / "examples/tie.opb", room / "bare", room / "divided", room / "no/such"
    bare.mkdir()
    divided.mkdir()
    (divided / "division").write_text("instance of tasks\n")
    yield "slurm-join.sh", "give TASKS too", [file, "opb", divided], False
    ends = [("FILE", no, "opb", 1), ("FILE", room, "opb", 1), ("FORMAT", file, "lp", 1), ("SPLIT", file, "opb", "two"), ("SPLIT", file, "opb", 13)]
    for told, *words in ends:
        yield "parallel.sh", told, [*words, bare], False
        yield "parallel-tasks.sh", told, [*words, 2, bare], False
        yield "slurm-tasks.sh", told, [*words, 2, bare], True
        if told != "SPLIT":
            yield "slurm-join.sh", told, [*words[:2], bare], False
    for tasks in ("four", 0):
        yield "parallel-tasks.sh", "TASKS", [file, "opb", 1, tasks, bare], False
        yield "slurm-tasks.sh", "TASKS", [file, "opb", 1, tasks, bare], True
        yield "slurm-join.sh", "TASKS", [file, "opb", bare, tasks], False
    yield "parallel.sh", "HOSTS", [file, "opb", 1, bare, no], False
    yield "parallel-tasks.sh", "HOSTS", [file, "opb", 1, 2, bare, no], False
    yield "slurm-tasks.sh", "sbatch --array", [file, "opb", 1, 2, bare], False
    for folder in (no, file):
        yield "slurm-join.sh", "FOLDER", [file, "opb", folder], False
        yield "slurm.sh", "FOLDER", [folder], True
    yield "parallel.sh", "FOLDER", [file, "opb", 1, file], False
    yield "parallel-tasks.sh", "FOLDER", [file, "opb", 1, 2, file], False
    yield "slurm-tasks.sh", "FOLDER", [file, "opb", 1, 2, file], True
    yield "slurm.sh", "PIECES", [bare, "two"], True
    yield "slurm.sh", "sbatch --array", [bare], False


def faults_of_wrong_words(room):
    """What is wrong where a recipe is run with wrong words, or without GNU parallel: it says one line, and ends with status 2."""
    room.mkdir()
    told = {name: text for name, text in os.environ.items() if name != "SLURM_ARRAY_TASK_ID"}
    cases = [(script, said, words, {**told, **({"SLURM_ARRAY_TASK_ID": "0"} if is_task else {})}) for script, said, words, is_task in wrong_words(room)]
    (path := room / "path").mkdir()
    for name in ("bash", "realpath", "mkdir"):
        (path / name).symlink_to(shutil.which(name))
    file, folder = TOP / "examples/tie.opb", room / "new"
    cases.append(("parallel.sh", "GNU parallel", [file, "opb", 1, folder], {"PATH": str(path)}))
    cases.append(("parallel-tasks.sh", "GNU parallel", [file, "opb", 1, 2, folder], {"PATH": str(path)}))
    for script, said, words, environment in cases:
        ended = ran([CLUSTER / script, *map(str, words)], env=environment)
        is_told = ended.err.startswith(f"{script}: ") and said in ended.err and ended.err.count("\n") == 1
        if (ended.out, ended.status) != ("", 2) or not is_told:
            yield f"{script} {words}: {ended}"


def main():
    is_here, are_users_here = has_parallel(), has_users()
    wrong = [said for it in sorted(CLUSTER.iterdir()) for said in faults_of_words(it)]
    with tempfile.TemporaryDirectory(prefix="pbcube-recipes-") as folder:
        os.chmod(folder, 0o755)  # for other users
        wrong += faults_of_wrong_words(Path(folder) / "words")
        kinds = [OfTasks(Path(folder) / "tasks"), OfPieces(Path(folder) / "pieces")]
        steps = [it.of_slurm for it in kinds] + [it.of_parallel for it in kinds if is_here]
        steps += [kinds[0].of_users] * are_users_here
        wrong += [line for lines in side_by_side(lambda step: list(step()), steps) for line in lines]
    if not is_here:
        print("recipes: those for GNU parallel are left out, since it is not here")
    if not are_users_here:
        print("recipes: tasks of two users are left out, since this is not root, or other users do not reach the programs")
    print(*[f"recipes: {line}" for line in wrong], sep="\n", end="\n" if wrong else "")
    print(f"recipes: {len(steps)} of 5 kinds were run, {len(wrong)} complaints")
    return 1 if wrong else 0


if __name__ == "__main__":
    sys.exit(main())
