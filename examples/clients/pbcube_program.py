"""Calls the program pbcube on a text, for the clients beside this file."""

from __future__ import annotations

import argparse
import ctypes
import math
import os
import re
import signal
import subprocess
import sys
import time
from dataclasses import dataclass
from enum import Enum
from pathlib import Path
from typing import Callable

FIRST_BUDGET = 250  # decisions of the first search where the time is limited
GROWTH = 4  # of the budget from one search to the next, unless that would not end in time
SAFE_SHARE = 0.8  # of the decisions that fit into the time that is left, since some take longer than others
GREATEST_BUDGET = 1_000_000_000  # that pbcube takes
GREATEST_SPLIT = 12
_END_WITH_PARENT = 1  # PR_SET_PDEATHSIG
_SET_PROCESS = getattr(ctypes.CDLL(None), "prctl", None)  # of Linux


def _end_with(parent: int) -> Callable[[], None]:
    """What a new process does first, so that the system ends it where its parent is killed."""

    def begin() -> None:
        if _SET_PROCESS is not None:
            _SET_PROCESS(_END_WITH_PARENT, signal.SIGKILL.value)
            if os.getppid() != parent:
                os._exit(1)

    return begin


class NoAnswer(Exception):
    """pbcube cannot be told the model, cannot be run or wrote no answer. The text names the variable, the row or the reason."""


def text_of(path: str) -> str:
    """The text in UTF-8 that the file has, behind a signature or none, or `NoAnswer` with the first line that is none."""
    if path == "-" and not Path(path).exists():
        raise NoAnswer("/dev/stdin is the name of standard input")
    try:
        text, zero, _ = Path(path).read_text(encoding="utf-8-sig").partition("\0")
    except UnicodeDecodeError as fault:
        if fault.object.startswith(b"\x1f\x8b"):
            raise NoAnswer("the file is compressed by gzip: gunzip it first") from None
        line = fault.object.count(b"\n", 0, fault.start) + 1
        raise NoAnswer(f"line {line} is no text in UTF-8") from None
    if zero:
        line = text.count("\n") + 1
        raise NoAnswer(f"line {line} is no text: it has a zero byte")
    return text


def beside(name: str) -> str:
    """The path of the program of that name beside this file, or in the bin of the folder that ./install or the archive put this file in;
    the name itself, which is looked for on the PATH, where neither is there. A path stays as it is."""
    here = Path(__file__).resolve().parent
    places = () if "/" in name else (here, here / "../bin", here / "../../../bin")
    paths = (place.resolve() / name for place in places)
    return next((str(it) for it in paths if it.is_file() and os.access(it, os.X_OK)), name)


class Status(Enum):
    """What the search found. The value is the word of the report's s line."""

    OPTIMUM = "OPTIMUM FOUND"  # nothing feasible has a better objective
    SATISFIABLE = "SATISFIABLE"  # something feasible: there is no objective, or the budget cut the search
    UNSATISFIABLE = "UNSATISFIABLE"  # nothing is feasible
    UNKNOWN = "UNKNOWN"  # the budget cut the search before anything was found


@dataclass(frozen=True)
class Report:
    """What pbcube wrote: the status, the numbers of the variables that are true, None where nothing was found, and the cost, None
    without an objective; and what it said on standard error."""

    status: Status
    true: frozenset[int] | None
    cost: int | None = None
    said: str = ""

    def ends(self) -> bool:
        """Whether a search with more decisions has nothing to add. Without an objective one assignment is as good as another."""
        return self.status in (Status.OPTIMUM, Status.UNSATISFIABLE) or (self.true is not None and self.cost is None)

    def is_better(self, other: Report) -> bool:
        """Whether it ends the search, or tells more than the other of two that do not."""
        return self.ends() or (self.true is not None and (other.cost is None or self.cost < other.cost))


NOTHING = Report(Status.UNKNOWN, None)
Tell = Callable[[str, "Report | None"], None]  # is handed what a search was and its report, None where the time limit ended it


@dataclass(frozen=True)
class Program:
    """How pbcube is called: its path, or its name, which is looked for `beside` the clients and then on the PATH; its options, None for
    the default, and further words of the command line. It is ended after `seconds` where they are given."""

    path: str = "pbcube"
    workers: int | None = None
    split: int | None = None
    nodes: int | None = None
    words: tuple[str, ...] = ()
    seconds: float | None = None

    @classmethod
    def from_words(cls, about: str, **flags: str) -> tuple[Program, argparse.Namespace]:
        """The program, and the words of the command line: `file`, and whether each of the flags is there, whole or as its first letter.
        Wrong words end the process with status 2."""
        parser = argparse.ArgumentParser(description=about, allow_abbrev=False)
        parser.add_argument("--program", default="pbcube", help="the program pbcube, a path, or a name beside this or on the PATH")
        parser.add_argument("-p", "--workers", type=int, metavar="W", help="threads that share the work, 1 to 64")
        parser.add_argument("--split", type=int, metavar="K", help="divide the work into 2^K pieces, 0 to 12")
        parser.add_argument("--nodes", type=int, metavar="B", help="search each piece with at most B decisions")
        for flag, does in flags.items():
            parser.add_argument(f"-{flag[0]}", f"--{flag}", action="store_true", help=does)
        parser.add_argument("file", metavar="FILE")
        words = parser.parse_args()
        return cls(words.program, words.workers, words.split, words.nodes), words

    def report(self, opb: str, tell: Tell = lambda *_: None) -> Report:
        """The report on this text in OPB, or `NoAnswer`. What pbcube said beside the report is passed on, once."""
        if self.seconds is None:
            report = self._search(opb, self.nodes, None, tell)
        elif _is_limit(self.seconds):
            report = self._best(opb, time.monotonic() + self.seconds, tell)
        else:
            raise NoAnswer(f"a time limit is a number of seconds, 0 or more, and not {self.seconds!r}")
        print(report.said, end="", file=sys.stderr)
        return report

    def _best(self, opb: str, deadline: float, tell: Tell) -> Report:
        """The best report by the deadline: pbcube writes nothing before it ends, so searches have budgets that grow, up to the whole."""
        best, budget, greatest = NOTHING, FIRST_BUDGET, GREATEST_BUDGET if self.nodes is None else self.nodes
        while True:
            begun, nodes = time.monotonic(), budget if budget < greatest else self.nodes
            try:
                found = self._search(opb, nodes, deadline, tell)
            except subprocess.TimeoutExpired:
                tell(self._in_words(nodes), None)
                return best
            best = found if found.is_better(best) else best
            if best.ends() or nodes == self.nodes:
                return best
            ended = time.monotonic()
            fitting = int(SAFE_SHARE * budget * (deadline - ended) / (ended - begun))
            budget = min(budget * GROWTH, fitting) if fitting > budget else budget * GROWTH

    def _search(self, opb: str, budget: int | None, deadline: float | None, tell: Tell) -> Report:
        """The report of one search. `TimeoutExpired` where the deadline comes first."""
        begun = time.monotonic()
        numbers = {"workers": self.workers, "split": self.split, "nodes": budget}
        options = [f"--{name}={number}" for name, number in numbers.items() if number is not None]
        command = [beside(self.path), *options, *self.words, "/dev/stdin"]
        left = None if deadline is None else deadline - begun
        if left is not None and left <= 0:
            raise subprocess.TimeoutExpired(command, 0)
        try:
            ended = subprocess.run(command, input=opb, capture_output=True, text=True, timeout=left, preexec_fn=_end_with(os.getpid()))
        except OSError as fault:
            where = "" if "/" in self.path else ": it is neither beside the clients nor on the PATH, and a path names another"
            raise NoAnswer(f"cannot run {self.path}: {fault.strerror}{where}") from fault
        report = self._read(ended, opb)
        tell(f"{self._in_words(budget)}, {time.monotonic() - begun:.2f} seconds", report)
        return report

    def _in_words(self, budget: int | None) -> str:
        return self.path if budget is None else f"{self.path}, at most {budget} decisions"

    def _read(self, ended: subprocess.CompletedProcess[str], opb: str) -> Report:
        """The report that it wrote on this text, or `NoAnswer`."""
        lines = {line[0]: line[2:] for line in ended.stdout.splitlines() if line and line[1:2] in ("", " ")}
        try:
            if "c" in lines:
                raise ValueError
            true = frozenset(int(word[1:]) for word in lines["v"].split() if word[0] == "x") if "v" in lines else None
            return Report(Status(lines.get("s")), true, int(lines["o"]) if "o" in lines else None, ended.stderr)
        except ValueError:
            said = lines.get("c") or ended.stderr.strip().partition("\n")[0]
            raise NoAnswer(f"{self.path}: {said or f'no report, status {ended.returncode}'}{_advice(said, opb)}") from None


def _is_limit(seconds: object) -> bool:
    """Whether it is a number of seconds within which a search can end."""
    return isinstance(seconds, (int, float)) and 0 <= seconds < math.inf


def _advice(said: str, opb: str) -> str:
    """What helps where pbcube refused the split of this text, which tells how many variables it has."""
    count = re.match(r"\* #variable= (\d+)", opb)
    return f": the greatest split of this model is {min(int(count[1]), GREATEST_SPLIT)}" if count and "BadSplit" in said else ""


def end_with_program() -> None:
    """Lets SIGINT and SIGTERM end this process by way of its program, which would else go on by itself."""
    for number in (signal.SIGINT, signal.SIGTERM):
        signal.signal(number, lambda number, _: sys.exit(128 + number))


def end_with_status(main: Callable[[], int]) -> None:
    """Ends this process with the status that `main` returns, or with 1 where its output cannot be written: silently, as pbcube's tools
    do, where nobody reads it."""
    name = Path(sys.argv[0]).name
    if sys.stdout is None:
        print(f"{name}: cannot write: standard output is closed", file=sys.stderr)
        sys.exit(1)
    try:
        status = main()
        sys.stdout.flush()
    except OSError as fault:
        if not isinstance(fault, BrokenPipeError):
            print(f"{name}: cannot write: {fault.strerror}", file=sys.stderr)
        os.dup2(os.open(os.devnull, os.O_WRONLY), sys.stdout.fileno())  # for what is left, which Python writes at the end
        status = 1
    sys.exit(status)
