#!/usr/bin/env python3
"""Runs the built programs with each of their calls to the system failing in turn, and judges how each run ends.

    tests/runs/faults.py [PROGRAM ..]

Without a word it takes the programs that the merge gate built. The library faults.c is compiled by cc and preloaded. In turn,
counting on until some runs had no fault: each request for memory is refused, alone and with all that follow; each thread is
refused; each open, read and write fails; each read and write moves one byte. A run must end as without the fault, or with
exactly the report of want of memory, or with status 1 and its line on standard error. Of pbcube_pieces and pbcube_join, which
end with status 1 and a line where memory is refused, and of pbcube_task only the requests for memory are tried. Without a C
compiler nothing is run.
"""
import os
import subprocess
import sys
import tempfile
from dataclasses import dataclass
from pathlib import Path

sys.dont_write_bytecode = True
sys.path.insert(0, str(Path(__file__).resolve().parents[1]))
from lib import PROGRAMS, SECONDS, Ended, built, name_of, preloaded, ran, side_by_side
from lib.reports import TIE, index_of, part

QUIET_RUNS = 3  # how many runs without a fault end the count, since the order of events is another in each run
MOST_CALLS = 10_000

FILES = {
    "tie.opb": TIE,
    "negative.opb": "min: -2 x1 -2 x2 ;\n1 x1 1 x2 <= 1 ;\n",
    # 64 bits do not hold its sums
    "wide.opb": "min: 36893488147419103232 x1 55340232221128654848 x2 18446744073709551616 x3 ;\n1 x1 1 x2 >= 1 ;\n1 x2 1 x3 >= 1 ;\n",
    "contradiction.opb": "1 x1 >= 1 ;\n1 x1 = 0 ;\n",
    "product.opb": "1 x1 x2 >= 1 ;\n",
    "older.opb": "* a comment\n+1*x1 >= 1 ;\n",
    "clauses.cnf": "p cnf 2 2\n1 2 0\n-1 2 0\n",
    "cube.icnf": "p inccnf\n1 2 0\na 1 0\n",
    # more than is read or written in one call
    "long.opb": "* #variable= 1000 #constraint= 1\n" + "* a comment line\n" * 5000 + "1 x1000 >= 1 ;\n",
    # seventeen literals, which take memory of their own
    "long.cubes": "c a note\na " + "1 " * 16 + "-2 0\na 0\n",
    "over.cubes": "a 4 0\n",
    "tie-0.out": "o 3\ns OPTIMUM FOUND\nv -x1 x2 -x3\n",
    # a folder with its index
    "cut/0.report": "o 3\ns OPTIMUM FOUND\nv -x1 x2 -x3\n",
    "cut/index": index_of(TIE, "opb", 3, 1),
    "refused/0.report": "c refused: NonLinear at line 1\ns UNSUPPORTED\n",
    "parts/0.report": part("0 of 1", TIE, "1 split 0 cubes none", " 0") + "o 3\ns SATISFIABLE\nv -x1 x2 -x3\n",
}


# how each program ends where memory is refused
NO_MEMORY = {
    "pbcube": Ended("c refused: Memory\ns UNKNOWN\n", "", 0),
    "pbcube_pieces": Ended("", "pbcube_pieces: out of memory\n", 1),
    "pbcube_task": Ended("c refused: Memory\ns UNKNOWN\n", "", 0),
    "pbcube_join": Ended("", "pbcube_join: out of memory\n", 1),
}
CANNOT_WRITE = "pbcube: cannot write\n"


@dataclass(frozen=True)
class Case:
    words: str
    ordinary: Ended
    no_memory: Ended = NO_MEMORY["pbcube"]

    def files(self):
        return [word for word in self.words.split() if "." in word]

    def without_hint(self):
        """How a run ends that refuses its texts and cannot read the input again for a hint, or has no memory for one."""
        refusal = self.ordinary.err.splitlines(True)[:1] if self.is_refused_with_status() else []
        return Ended(self.ordinary.out, "".join(refusal), self.ordinary.status)

    def is_refused_with_status(self):
        """Whether the standard error has both the refusal and the hint."""
        return self.ordinary.status == 1 and self.ordinary.err.count("\n") == 2

    def is_refused(self):
        return self.ordinary.out.endswith(UNSUPPORTED) or self.is_refused_with_status()


def solved(words, out, status):
    return Case(f"--workers 2 --split 1 {words}", Ended(out, "", status))


TIE_REPORT = "o 3\ns OPTIMUM FOUND\nv -x1 x2 -x3\n"
UNSUPPORTED = "s UNSUPPORTED\n"
PRODUCT = "pbcube: line 1, column 6: 'x2': no product is read: put a new variable in its place, with constraints that make it equal to the product\n"
OVER = "pbcube: over.cubes: line 1, column 3: '4': variables are numbered from 1 to 3\n"
FEW = "pbcube: contradiction.opb has 1 variable, too few for --split 2\n"
OLDER = "pbcube: line 2, column 1: '+1*x1': write a space between a number and its literal, and no *, as 2 x1\n"
CASES = [
    Case("tie.opb", Ended(TIE_REPORT, "", 30)),
    Case("--format icnf cube.icnf", Ended("s SATISFIABLE\nv -1 2 0\n", "", 10)),
    solved("tie.opb", TIE_REPORT, 30),
    solved("negative.opb", "o -2\ns OPTIMUM FOUND\nv -x1 x2\n", 30),
    solved("wide.opb", "o 55340232221128654848\ns OPTIMUM FOUND\nv -x1 x2 -x3\n", 30),
    solved("contradiction.opb", "s UNSATISFIABLE\n", 20),
    solved("--format cnf clauses.cnf", "s SATISFIABLE\nv -1 2 0\n", 10),
    solved("--format icnf cube.icnf", "s SATISFIABLE\nv -1 2 0\n", 10),
    solved("--cubes long.cubes tie.opb", TIE_REPORT, 30),
    Case("--cubes over.cubes tie.opb", Ended(f"c refused cubes: BadVariable at line 1\n{UNSUPPORTED}", OVER, 0)),
    Case("product.opb", Ended(f"c refused: NonLinear at line 1\n{UNSUPPORTED}", PRODUCT, 0)),
    solved("long.opb", f"s SATISFIABLE\nv{''.join(f' -x{i}' for i in range(1, 1000))} x1000\n", 10),
    Case("--split 2 contradiction.opb", Ended(f"c refused split: BadSplit\n{UNSUPPORTED}", FEW, 0)),
    Case("clauses.cnf", Ended(f"c refused: Unfinished at line 1\n{UNSUPPORTED}", "pbcube: clauses.cnf begins as DIMACS CNF: give --format cnf\n", 0)),
    Case("older.opb", Ended(f"c refused: Syntax at line 2\n{UNSUPPORTED}", OLDER, 0)),
    Case("none.opb", Ended("", "pbcube: cannot read none.opb\n", 1)),
]
# command lines of each program, and their statuses: what is written is taken from a run without a fault
COMMAND_LINES = {
    "pbcube": {"--help": 0, "--split 13 tie.opb": 2},
    "pbcube_pieces": {"--help": 0, "tie.opb": 2, "--out pieces product.opb": 1, "--out pieces --split 4 tie.opb": 1},
    "pbcube_task": {"--help": 0, "--task 1 --tasks 1 tie.opb": 2, "--task 0 --tasks 1 product.opb": 0, "--workers 2 --split 1 --task 0 --tasks 2 tie.opb": 10},
    "pbcube_join": {"--help": 0, "--pieces 0 tie.opb": 2, "--pieces 1 tie.opb": 0, "--pieces 1 tie.opb tie-0.out": 30, "tie.opb cut": 30, "--tasks 1 tie.opb parts": 30, "tie.opb parts": 1, "--tasks 1 product.opb refused": 0, "--pieces 1 product.opb": 1},
}


@dataclass(frozen=True)
class Fault:
    """A kind of call and how it fails, as the library has them."""

    kind: str
    how: str

    def may_end(self, case, ended):
        """Whether a run of the case in which the fault came may end so."""
        if self.kind == "memory":
            return ended in (case.ordinary, case.no_memory) or case.is_refused() and ended == case.without_hint()
        if self.kind == "thread" or self.how == "short":
            return ended == case.ordinary
        if self.kind == "write":
            return self.may_end_unwritten(case.ordinary, ended)
        if self.kind == "read" and case.is_refused() and ended == case.without_hint():
            return True
        return ended in [Ended("", f"pbcube: cannot read {file}\n", 1) for file in case.files()]

    def may_end_unwritten(self, ordinary, ended):
        """A report that is not taken whole is a fault; a line on standard error that is not taken is none."""
        if ordinary.err and ended.out == ordinary.out:
            return ordinary.err.startswith(ended.err) and ended.status == ordinary.status
        said = "" if self.how == "on" else CANNOT_WRITE
        return ended.out != ordinary.out and ordinary.out.startswith(ended.out) and ended.err == said and ended.status == 1


FAULTS = [
    Fault("memory", "once"),
    Fault("memory", "on"),
    Fault("thread", "once"),
    Fault("open", "once"),
    Fault("read", "once"),
    Fault("read", "short"),
    Fault("write", "once"),
    Fault("write", "on"),
    Fault("write", "short"),
]


@dataclass(frozen=True)
class Bench:
    """A program, the preloaded library, and the folder of the files."""

    program: Path
    library: str
    folder: Path

    @property
    def name(self):
        return name_of(self.program)

    def faults(self):
        return FAULTS if self.name == "pbcube" else [it for it in FAULTS if it.kind == "memory"]

    def run(self, words, environment, *files, out=subprocess.PIPE):
        """How the program ends on these words, with these file descriptors left open. What goes to another output is not told."""
        return ran([self.program, *words.split()], cwd=self.folder, env=environment, pass_fds=files, stdout=out)

    def run_with(self, fault, at, words, out=subprocess.PIPE):
        """The same with the fault at the call of this number, and whether that call came."""
        told, tell = os.pipe()
        environment = {
            "LD_PRELOAD": self.library,
            "FAULT_KIND": fault.kind,
            "FAULT_HOW": fault.how,
            "FAULT_AT": str(at),
            "FAULT_TELL": str(tell),
        }
        with open(told, "rb") as came:
            try:
                ended = self.run(words, environment, tell, out=out)
            finally:
                os.close(tell)
            return ended, bool(came.read())

    def cases(self):
        for words, status in COMMAND_LINES[self.name].items():
            ended = self.run(words, {})
            if ended.status != status or not ended.out + ended.err:
                sys.exit(f"faults: {self.name} {words}: {ended}")
            yield Case(words, ended, NO_MEMORY[self.name])
        if self.name == "pbcube":
            yield from CASES


def count_on(bench, case, fault):
    """In how many runs the fault came and how many of them it changed, and what is to be said of the runs that ended badly."""
    came, changed, bad, quiet = 0, 0, [], 0
    for at in range(1, MOST_CALLS):
        name = f"faults: {case.words}: {fault.kind} {fault.how} at call {at}"
        try:
            ended, is_come = bench.run_with(fault, at, case.words)
        except subprocess.TimeoutExpired:
            return came, changed, [*bad, f"{name}: no end after {SECONDS} seconds"]
        quiet = 0 if is_come else quiet + 1
        came += is_come
        changed += ended != case.ordinary
        if not (fault.may_end(case, ended) if is_come else ended == case.ordinary):
            bad.append(f"{name}: {ended}")
        if quiet == QUIET_RUNS:
            return came, changed, bad
    return came, changed, [*bad, f"{name}: the calls do not end"]


def judge(bench):
    """Tells of each fault how the runs with it ended. How many of them ended well, and how many badly."""
    cases = list(bench.cases())
    faults = bench.faults()
    counts = side_by_side(lambda run: count_on(bench, *run), [(case, fault) for fault in faults for case in cases])
    passed, failed = unreported(bench) if bench.name == "pbcube" else (0, 0)
    for number, fault in enumerate(faults):
        of_fault = counts[number * len(cases) : (number + 1) * len(cases)]
        came, changed = sum(it[0] for it in of_fault), sum(it[1] for it in of_fault)
        bad = [line for it in of_fault for line in it[2]]
        if not came:
            bad.append(f"faults: {fault.kind} {fault.how}: no run made such a call")
        name = f"faults: {bench.program.name}: {fault.kind} {fault.how}"
        print(*bad, f"{name}: came in {came} runs, and changed the end of {changed}", sep="\n")
        passed, failed = passed + came - len(bad), failed + len(bad)
    return passed, failed


def unreported(bench):
    """Whether words that find no memory end with a line where the report of that is not taken, as how many runs well and badly."""
    with open("/dev/full", "w") as full:
        ended, is_come = bench.run_with(Fault("memory", "on"), 1, "tie.opb", out=full)
    if is_come and ended == Ended("", CANNOT_WRITE, 1):
        return 1, 0
    print(f"faults: {bench.program.name}: no memory, and an output that fails: {ended}")
    return 0, 1


def main(programs):
    with tempfile.TemporaryDirectory(prefix="pbcube-faults-") as room:
        folder = Path(room)
        library = preloaded(folder, "faults")
        if not library:
            return 0
        for name, text in FILES.items():
            (folder / name).parent.mkdir(exist_ok=True)
            (folder / name).write_text(text)
        counts = [judge(Bench(Path(it).resolve(), library, folder)) for it in programs or built(PROGRAMS)]
    passed, failed = sum(it[0] for it in counts), sum(it[1] for it in counts)
    print(f"faults: {passed} passed, {failed} failed")
    return 1 if failed else 0


if __name__ == "__main__":
    sys.exit(main(sys.argv[1:]))
