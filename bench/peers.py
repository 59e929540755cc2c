#!/usr/bin/env python3
"""Runs programs side by side on instances and prints a table of their processor seconds, and the costs that they told.

    peers.py [--pbcube LABEL=PROGRAM ...] [--peers NAME,NAME] [--limit SECONDS] [--runs N] FILE...

A file whose first line begins with `p cnf` is read as CNF, any other as OPB. For each file one program runs after the other.
Builds of pbcube come first, each under its label. The peers are HiGHS (scipy's, without reading), clasp, cbc and sat4j for OPB,
and clasp, minisat, cadical and sat4j for CNF; --peers names the ones that are wanted, and one that is not installed is left out,
with a word on standard error. Each seconds are user and system time of the least of N runs. A program is stopped at the limit
(20 unless it is told), which is rounded up to a second. Texts are written anew for programs that read less of OPB, before they run.

The status is 1 where two programs told different answers, or two builds of pbcube different reports. It needs Python 3.10.
"""
import argparse
import math
import os
import re
import resource
import shutil
import subprocess
import sys
import tempfile
from dataclasses import dataclass
from pathlib import Path
from typing import Callable

sys.dont_write_bytecode = True
import opb
from workers import format_of

HERE = Path(__file__).resolve().parent
PEERS = ("highs", "clasp", "cbc", "sat4j", "minisat", "cadical")
NAMES = {"highs": "HiGHS", "cadical": "CaDiCaL", "sat4j": "Sat4j", "minisat": "MiniSat"}
SAT4J = [Path("/usr/share/java") / name for name in ("org.sat4j.pb.jar", "org.sat4j.core.jar")]
SATISFIABLE, UNSATISFIABLE, OPTIMUM = "SATISFIABLE", "UNSATISFIABLE", "OPTIMUM FOUND"


@dataclass(frozen=True)
class Ended:
    """How a run ended: what it printed, its processor seconds, and whether it was stopped at the limit."""

    out: str
    seconds: float
    is_stopped: bool


@dataclass(frozen=True)
class Told:
    """An answer: the status line's words, and the least cost where there is an objective."""

    status: str
    cost: int | None = None

    def __str__(self):
        return self.status.lower() if self.cost is None else str(self.cost)


@dataclass(frozen=True)
class Program:
    """The formats that it reads, the command for a task, and what its output tells. Some count their seconds after reading, and
    stop by themselves."""

    label: str
    formats: tuple
    command: Callable
    told: Callable
    is_build: bool = False
    limits_itself: bool = False


class Task:
    """An instance, and the texts of it that were written for programs."""

    def __init__(self, path, room, limit):
        self.path, self.room, self.limit = path, room, limit
        self.format = format_of(path)
        self.instance = None
        self.constant = 0

    def written(self, ending, write):
        """The path of the instance as `write` has it, or the instance's own for CNF."""
        if self.format == "cnf":
            return self.path
        path = self.room / ("instance" + ending)
        if not path.exists():
            self.instance = self.instance or opb.read(self.path)
            self.constant = self.instance.constant
            path.write_text(write(self.instance))
        return str(path)

    def plain(self):
        return self.written(".opb", opb.plain_opb)

    def lp(self):
        return self.written(".lp", opb.lp)


def told_by_lines(task, out, constant=0):
    """What the lines `s` and `o` of a competition tell, or nothing."""
    status = re.search(r"^s (\w+(?: FOUND)?)", out, re.M)
    costs = re.findall(r"^o (-?\d+)", out, re.M)
    if not status or status[1] not in (SATISFIABLE, UNSATISFIABLE, OPTIMUM):
        return None
    return Told(status[1], int(costs[-1]) + constant if status[1] == OPTIMUM and costs else None)


def told_plainly(task, out):
    return told_by_lines(task, out, task.constant)


def told_by_cbc(task, out):
    if "Problem proven infeasible" in out or "Problem is infeasible" in out:
        return Told(UNSATISFIABLE)
    cost = re.search(r"^Objective value:\s+(\S+)", out, re.M)
    if "Optimal solution found" not in out or not cost:
        return None
    return Told(OPTIMUM, round(float(cost[1])) + task.constant) if task.instance.costs else Told(SATISFIABLE)


def told_by_minisat(task, out):
    status = re.search(r"^(UN)?SATISFIABLE", out, re.M)
    return Told(status[0]) if status else None


def sat4j(task):
    launcher = "org.sat4j.pb.LanceurPseudo2007" if task.format == "opb" else "org.sat4j.BasicLauncher"
    return ["java", "-cp", ":".join(map(str, SAT4J)), launcher, task.plain()]


def scipy_python():
    """A Python that has scipy: this one, or the system's."""
    for python in (sys.executable, "/usr/bin/python3"):
        if shutil.which(python) and not subprocess.run([python, "-c", "import scipy.optimize"], capture_output=True).returncode:
            return python
    return None


def installed(names):
    """The peers of these names that are installed. The others are named on standard error."""
    both, python = ("opb", "cnf"), scipy_python() if "highs" in names else None
    found = {
        "highs": (python, ("opb",), lambda task: [python, str(HERE / "highs.py"), task.path, str(task.limit)], told_by_lines),
        "clasp": (shutil.which("clasp"), both, lambda task: ["clasp", "--quiet=2,1", task.plain()], told_plainly),
        "cbc": (shutil.which("cbc"), ("opb",), lambda task: ["cbc", task.lp(), "-solve", "-quit"], told_by_cbc),
        "sat4j": (shutil.which("java") and SAT4J[0].exists(), both, sat4j, told_plainly),
        "minisat": (shutil.which("minisat"), ("cnf",), lambda task: ["minisat", "-verb=0", task.path], told_by_minisat),
        "cadical": (shutil.which("cadical"), ("cnf",), lambda task: ["cadical", "-q", task.path], told_by_lines),
    }
    for name in names:
        is_there, formats, command, told = found[name]
        if is_there:
            yield Program(NAMES.get(name, name), formats, command, told, limits_itself=name == "highs")
        else:
            print("%s is not installed" % name, file=sys.stderr)


def build(word):
    """The build of pbcube that a word `LABEL=PROGRAM` names."""
    label, _, path = word.rpartition("=")

    def command(task):
        return [path, "--format", task.format, task.path]

    return Program(label or "pbcube", ("opb", "cnf"), command, told_by_lines, is_build=True)


def run(program, task):
    """One run, stopped by the system at the limit of processor seconds."""
    words = program.command(task)
    most = math.ceil(task.limit)
    limit = None if program.limits_itself else (lambda: resource.setrlimit(resource.RLIMIT_CPU, (most, most)))
    with open(task.room / "out", "w+") as out:
        child = subprocess.Popen(words, stdin=subprocess.DEVNULL, stdout=out, stderr=subprocess.DEVNULL, preexec_fn=limit)
        _, status, used = os.wait4(child.pid, 0)
        child.returncode = os.waitstatus_to_exitcode(status)
        out.seek(0)
        text = out.read()
    own = re.search(r"^c seconds ([\d.]+)", text, re.M) if program.limits_itself else None
    return Ended(text, float(own[1]) if own else used.ru_utime + used.ru_stime, child.returncode < 0)


def measured(program, task, runs):
    """The cell of the table, the answer, and the output of the first run."""
    if task.format not in program.formats:
        return "", None, None
    first = run(program, task)
    told = program.told(task, first.out)
    if not told:
        return "over %d" % math.ceil(task.limit) if first.is_stopped else "no answer", None, None
    again = [run(program, task).seconds for _ in range(runs - 1)]
    return "%.2f" % min([first.seconds, *again]), told, first.out


def row(programs, path, options):
    """A line of the table, and what the programs do not agree on."""
    with tempfile.TemporaryDirectory(prefix="pbcube-peers-") as room:
        task = Task(path, Path(room), options.limit)
        results = [measured(program, task, options.runs) for program in programs]
    answers = sorted({str(told) for _, told, _ in results if told})
    reports = {out for program, (_, told, out) in zip(programs, results) if told and program.is_build}
    faults = ["%s: answers differ: %s" % (path, ", ".join(answers))] if len(answers) > 1 else []
    faults += ["%s: reports of builds differ" % path] if len(reports) > 1 else []
    cells = [Path(path).name, " or ".join(answers), *(cell for cell, _, _ in results)]
    return "| %s |" % " | ".join(cells), faults


def main():
    parser = argparse.ArgumentParser(description=__doc__.splitlines()[0])
    parser.add_argument("files", nargs="+", metavar="FILE")
    parser.add_argument("--pbcube", type=build, action="append", default=[], metavar="LABEL=PROGRAM")
    parser.add_argument("--peers", type=lambda text: [name for name in text.split(",") if name], default=PEERS)
    parser.add_argument("--limit", type=float, default=20)
    parser.add_argument("--runs", type=int, default=1)
    options = parser.parse_args()
    unknown = [name for name in options.peers if name not in PEERS]
    if unknown:
        parser.error("no peer is named %s" % ", ".join(unknown))
    programs = options.pbcube + list(installed(options.peers))
    print("| Instance | Least cost | %s |" % " | ".join(program.label for program in programs))
    print("|---|---|%s" % ("---|" * len(programs)))
    faults = []
    for path in options.files:
        line, more = row(programs, path, options)
        print(line, flush=True)
        faults += more
    print(*faults, sep="\n", end="\n" if faults else "", file=sys.stderr)
    sys.exit(len(faults) > 0)


if __name__ == "__main__":
    main()
