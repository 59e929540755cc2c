"""Where a search runs: in this process, or in a child process that can be ended at any time.

The calls of the library can't be stopped from outside, and let other threads run meanwhile. So a search that Ctrl-C or a time limit
may have to end runs in a child: a Python of its own (`sys.executable`) that is started anew, and not forked, since a fork keeps what
other threads hold locked. It runs `library.py` alone, and nothing of the caller's program, so a script needs no `__main__` guard. It
is killed when a call ends in any way but by its answer, and the system kills it where the caller's process is killed.

A search that a time limit may end, or whose better answers are to be told as they come, is one after another with a greater budget each
time (`library.replies`). So at any time there is the answer of those before.

A model keeps its searches from one question to the next, so that each is told only what is new (`Kept`): the one in this process,
and from the first question with assumptions on the one in a child. Few children wait for questions at a time: where there are more,
the one that waits longest is ended, and its model starts another.
"""

from __future__ import annotations

import marshal
import math
import os
import threading
import time
import weakref
from dataclasses import dataclass
from operator import index
from typing import Callable, List, Optional, Tuple, Union

from . import library
from .jobs import Job, Plan, Question, Reply, Statement
from .library import CUT, NO_LIMIT, NOTHING, Search, begun_with, better, join_of, replies
from .processes import Child, Program, python_command
from .programs import MOST_NODES, Workers, is_budget
from .wholes import is_whole

_FEW_DECISIONS = 200
_FEW_TERMS = 1000
_FEW_BYTES = 10_000
_PLAIN = ("solve", b"", None)
_FOUND = (10, 11, 30)
_LONGEST = 2_000_000  # seconds of a time limit, as many milliseconds of which a poll takes
_MOST_WAITING = 4
_EARLY_SHARE = 0.125  # of a time limit, in which one worker searches the whole: the first run on many pieces may not end in time
_waiting: List[weakref.ref[_Child]] = []
_waiting_lock = threading.RLock()  # a handler of a signal may ask too


def budget(nodes: Optional[int]) -> int:
    """The budget of decisions as the library takes it."""
    if nodes is None:
        return NO_LIMIT
    if not is_whole(nodes):
        raise TypeError(f"a budget is a whole number of decisions, and not {nodes!r}{_instead_of_budget(nodes)}")
    if not 0 <= index(nodes) < NO_LIMIT:
        raise ValueError("a budget is from 0 to 2**64 - 2")
    return index(nodes)


def _instead_of_budget(given: object) -> str:
    """What to write where this was given as a budget."""
    if isinstance(given, (str, bytes, os.PathLike)):
        return ": Model.read(path).solve() solves a file, and pbcube.solve(text) a text"
    return "" if isinstance(given, float) else ": literals that are to be true stand behind assuming=, as solve(assuming=[x, ~y])"


def deadline_of(time_limit: Optional[float]) -> Optional[float]:
    """When a time limit that begins now ends, by the clock that only goes on."""
    if time_limit is None:
        return None
    refusal = f"a time limit is a number of seconds, 0 or more, and not {time_limit!r}"
    if isinstance(time_limit, (str, bytes, bytearray)):  # of which float reads a number
        raise TypeError(refusal)
    try:
        seconds = float(time_limit)
    except TypeError:
        raise TypeError(refusal) from None
    except OverflowError:
        seconds = math.inf
    if not 0 <= seconds < math.inf:
        raise ValueError(f"{refusal}: leave it out where there is none")
    return time.monotonic() + min(seconds, _LONGEST)


@dataclass(frozen=True)
class Limits:
    """How long to search: with at most `nodes` decisions, and up to the deadline where there is one. Each better reply is told. No
    reply is worse than the one that is known before."""

    nodes: int = NO_LIMIT
    deadline: Optional[float] = None
    tell: Optional[Callable[[Reply], object]] = None
    known: Reply = NOTHING

    @classmethod
    def of(
        cls,
        nodes: Optional[int],
        time_limit: Optional[float],
        tell: Optional[Callable[[Reply], object]] = None,
        known: Reply = NOTHING,
    ) -> Limits:
        """The limits that begin now."""
        return cls(budget(nodes), deadline_of(time_limit), tell, known)

    def plan(self) -> Plan:
        """What a process that searches is told of them."""
        return self.nodes, self.deadline, self.deadline is not None or self.tell is not None


def best_of(known: Reply, reply: Reply) -> Reply:
    """The reply, or what was known of the same question before where that is better."""
    if reply[3] is not None or reply[0] not in CUT:
        return reply
    return better(known, reply) if known[0] in CUT else known


class _Told:
    """The replies to a job as one. Each that is better than those before is told, beginning with what is known."""

    def __init__(self, job: Job, limits: Limits) -> None:
        self.reply = NOTHING
        self.is_telling = False
        self._join = join_of(job)
        self._known = limits.known
        self._tell = limits.tell
        self._least: Optional[Tuple[Optional[int]]] = None  # the cost that was told, once something was
        self._tell_better(limits.known)

    @property
    def best(self) -> Reply:
        """The reply, or what was known before where that is better."""
        return best_of(self._known, self.reply)

    def take(self, reply: Reply) -> None:
        """Takes one more reply."""
        self.reply = self._join(self.reply, reply)
        self._tell_better(self.reply)

    def _tell_better(self, reply: Reply) -> None:
        status, cost, _, _ = reply
        if self._tell is None or status not in _FOUND:
            return
        if self._least is None or (cost is not None and self._least[0] is not None and cost < self._least[0]):
            self._least = (cost,)
            self.is_telling = True  # also where that raises
            self._tell(reply)
            self.is_telling = False


def search(job: Job, limits: Limits) -> Reply:
    """What is found in a text."""
    is_divided = job[2] == library.FORMATS["icnf"]  # of which each cube has a budget of its own, and there may be many
    told = _Told(job, limits)

    def planned(plan: Plan) -> Plan:
        nodes, deadline, grows = plan
        return nodes, deadline, grows and not is_divided

    def here(plan: Plan) -> None:
        for _, reply in replies(Search(library.loaded), job, planned(plan)):
            told.take(reply)

    def by_child() -> None:
        child = _Child()
        with child:
            child.ask(job, planned(limits.plan()), told)

    _find(_is_small(job), here, by_child, limits, told)
    return told.best


def _find(is_small: bool, here: Callable[[Plan], None], by_child: Callable[[], None], limits: Limits, told: _Told) -> None:
    """Searches in this process, or by a child, unless the answer is known."""
    if limits.known[0] not in CUT:
        return None
    if limits.deadline is None and threading.current_thread() is not threading.main_thread():
        return here(limits.plan())  # where Ctrl-C is never raised
    if is_small:  # a child takes longer to start than most of these take in all
        here((min(limits.nodes, _FEW_DECISIONS), None, False))
        if told.reply[0] not in CUT or limits.nodes <= _FEW_DECISIONS:
            return None
    try:
        return by_child()
    except ChildProcessError:
        if limits.deadline is not None or told.is_telling:
            raise
        return here(limits.plan())


@dataclass(frozen=True)
class Statements:
    """What a model was told so far: the first `count` of its rules, of which there may be more by now, and the objective; and how many
    terms they have."""

    rules: List[Statement]
    count: int
    objective: Optional[Statement]
    terms: int

    def after(self, told: Optional[Statements]) -> List[Statement]:
        """Those that are left to be told where others were before."""
        rest = self.rules[told.count if told else 0 : self.count]
        if self.objective is not None and not (told and told.objective is self.objective):
            rest.append(self.objective)
        return rest


class Kept:
    """The searches that a model keeps from one question to the next: one in this process, and one in a child, unless there is one
    question alone."""

    def __init__(self, is_for_many: bool = True) -> None:
        self._is_for_many = is_for_many
        self._here: Optional[Search] = None
        self._told_here: Optional[Statements] = None
        self._child: Optional[_Child] = None

    def ask(self, statements: Statements, question: Question, limits: Limits) -> Reply:
        """What is found."""
        told = _Told(("told", [], question), limits)
        here = lambda plan: self._ask_here(statements, question, plan, told)  # noqa: E731
        by_child = lambda: self._ask_child(statements, question, limits.plan(), told)  # noqa: E731
        is_long = question[0] == "fixed" and self._child is not None  # many searches, of which some question took long before
        _find(_is_small(statements) and not is_long, here, by_child, limits, told)
        return told.best

    def _ask_here(self, statements: Statements, question: Question, plan: Plan, told: _Told) -> None:
        made, before = self._here or Search(library.loaded), self._told_here
        self._here = self._told_here = None  # where it is refused in part, none is kept
        for _, reply in replies(made, ("told", statements.after(before), question), plan):
            told.take(reply)
        if not told.reply[3]:
            self._here, self._told_here = made, statements

    def _ask_child(self, statements: Statements, question: Question, plan: Plan, told: _Told) -> None:
        child, self._child = self._child, None
        is_kept = self._is_for_many and (child is not None or question[:3] != _PLAIN)
        if child is None or not child.resume():
            child = _Child()
        job: Job = ("told", statements.after(child.told), question)
        with child:
            child.ask(begun_with(job, told.reply) if plan[2] else job, plan, told)
            if is_kept and child.has_answered and not told.reply[3]:
                child.told = statements
                child.wait_for_more()
                self._child = child


def _is_small(asked: Union[Job, Statements]) -> bool:
    """Whether a few decisions take no more than milliseconds. Of iCNF each cube has its own budget, and there may be many."""
    if isinstance(asked, Statements):
        return asked.count + asked.terms <= _FEW_TERMS
    _, text, format = asked
    return len(text) <= _FEW_BYTES and format != library.FORMATS["icnf"]


class _Child(Child):
    """A process that searches. It is ended with the `with` statement that it is used in, unless it waits for more by then."""

    def __init__(self) -> None:
        self.told: Optional[Statements] = None
        self.has_answered = False
        self._is_waiting = False
        self._request = library.framed((os.getpid(), library.loaded._name))
        super().__init__(python_command(library.__file__))

    def _leave(self) -> None:
        if not self._is_waiting:
            self._end()

    def ask(self, job: Job, plan: Plan, told: _Told) -> None:
        """Hands over what it finds, up to the deadline. Raises ChildProcessError where it did not begin."""
        self._let_through()
        request, self._request = self._request + library.framed((job, plan)), b""
        self.has_answered = False
        for message in self._messages(request, plan[1]):
            self.has_answered, reply = marshal.loads(message)
            told.take(reply)
            if self.has_answered:
                return

    def wait_for_more(self) -> None:
        """Lets it wait for another question. Where many wait, the one that does so longest is ended."""
        with _waiting_lock:
            self._is_waiting = True
            _waiting[:] = [it for it in _waiting if it() is not None] + [weakref.ref(self)]
            ended = _waiting.pop(0)() if len(_waiting) > _MOST_WAITING else None
            if ended is not None:
                ended._is_waiting = False
                ended._end()

    def resume(self) -> bool:
        """Whether it waits and can be asked again, which it then does not wait for any more."""
        with _waiting_lock:
            is_there = self._is_waiting and self._end.alive and self._process.poll() is None
            self._is_waiting = False
            _waiting[:] = [it for it in _waiting if it() not in (None, self)]
        if not is_there or self._thread is not threading.current_thread():
            self._end()
            return False
        return True


class _TimeIsUp(Exception):
    """A program has not answered by the deadline."""


@dataclass(frozen=True)
class _Runs:
    """Runs of the program, each from nothing, in place of a search of the library."""

    workers: Workers
    deadline: Optional[float]

    def run(self, job: Job, nodes: int) -> Reply:
        """What a run finds with at most `nodes` decisions in each piece. Raises _TimeIsUp where that is not by the deadline, and Error
        where the program wrote no report."""
        _, text, format = job
        named = {number: name for name, number in library.FORMATS.items()}[format]
        program = Program(self.workers.command(named, nodes))
        with program:
            report = program.answer(text, self.deadline)
        if report is None:
            raise _TimeIsUp
        try:
            return library.reply_of(report.decode("ascii"), is_budget(nodes))
        except (LookupError, ValueError):
            raise program.no_report() from None


def run_program(job: Job, workers: Workers, limits: Limits) -> Reply:
    """What the program finds in a text with these workers."""
    if MOST_NODES < limits.nodes < NO_LIMIT:
        raise ValueError(f"with workers or a split a budget is at most {MOST_NODES}, and not {limits.nodes}")
    told = _Told(job, limits)
    try:
        if limits.deadline is None or not _is_whole_at_once(told, job, limits, limits.deadline):
            for _, reply in replies(_Runs(workers, limits.deadline), job, limits.plan()):
                told.take(reply)
    except _TimeIsUp:
        pass
    return told.best


def _is_whole_at_once(told: _Told, job: Job, limits: Limits, deadline: float) -> bool:
    """Hands over what one worker finds in the whole, until it has found something and some of the time has passed. Whether that is all."""
    now = time.monotonic()
    early = now + _EARLY_SHARE * (deadline - now)
    for _, reply in replies(_Runs(Workers(), deadline), job, limits.plan()):
        told.take(reply)
        if told.reply[0] not in CUT:
            return True
        if told.reply[0] in _FOUND and time.monotonic() >= early:
            return False
    return False
