"""The calls of the shared object libpbcube.so.1, and searches by them.

Run as a program, this file makes one search for the process that started it, and answers what that asks of it. So it stands on no
other file of the package.
"""

from __future__ import annotations

import ctypes
import marshal
import os
import sys
import time
from array import array

TYPE_CHECKING = False  # to a program; `typing` itself would take a child as long to read as all else
if TYPE_CHECKING:
    from collections.abc import Callable, Iterator
    from typing import Any, Protocol

    from .jobs import Job, Plan, Question, Reply

    class Runner(Protocol):
        """What searches again and again."""

        def run(self, job: Job, nodes: int) -> Reply:
            """What the job finds, with at most `nodes` decisions."""


_LIBRARY = "libpbcube.so.1"
NO_LIMIT = 2**64 - 1
RELATIONS = {">=": 0, "<=": 1, "==": 2}
FORMATS = {"opb": 0, "cnf": 1, "icnf": 2}
AMONG = {"feasible": 0, "least": 1}
CUT = (1, 11, 21)
"""The statuses of a question that was cut, without and with something found, and with a core that may not be minimal."""
NOTHING: Reply = (1, None, None, None)
_FIRST_BUDGET = 200
_GROWTH = 2
_SAFE_SHARE = 0.8  # of the decisions that fit before a deadline, since some take longer than others
_NOT_KNOWN = 3
_LONGEST_HINT = 1024  # bytes, which are more than any has, since it shows few of a long word
_LITERALS = ctypes.POINTER(ctypes.c_int32)
_END_WITH_PARENT, _KILL = 1, 9  # PR_SET_PDEATHSIG and SIGKILL


def _find() -> str:
    here = os.path.dirname(os.path.realpath(__file__))
    above = os.path.realpath(os.path.join(here, "../../.."))  # PREFIX/lib where it is installed, and else the repository
    places = [here, above, os.path.join(above, "bindings/c/out"), os.path.expanduser("~/.local/lib")]
    built = [path for path in (os.path.join(place, _LIBRARY) for place in places) if os.path.exists(path)]
    named = os.environ.get("PBCUBE_LIBRARY", "") or next(iter(built), _LIBRARY)
    return os.path.abspath(named) if "/" in named else named  # which a child finds wherever this process has gone by then


def load(path: str) -> ctypes.CDLL:
    """The shared object of that path, or of that name where the system's loader looks."""
    try:
        library = ctypes.CDLL(path)
    except OSError as fault:
        raise ImportError(f"{fault}: build it by bindings/c/build, or name it in PBCUBE_LIBRARY") from fault
    pointer, integer, size = ctypes.c_void_p, ctypes.c_int, ctypes.c_size_t
    signatures: dict[str, tuple[Any, list[Any]]] = {
        "new": (pointer, []),
        "free": (None, [pointer]),
        "term": (integer, [pointer, ctypes.c_int64, ctypes.c_int32]),
        "end": (integer, [pointer, integer, ctypes.c_int64]),
        "end_objective": (integer, [pointer]),
        "clause": (integer, [pointer, _LITERALS, size]),
        "variables": (ctypes.c_uint32, [pointer]),
        "solve": (integer, [pointer, ctypes.c_uint64]),
        "solve_under": (integer, [pointer, _LITERALS, size, ctypes.c_uint64]),
        "suggest": (integer, [pointer, ctypes.c_char_p, size]),
        "explain": (integer, [pointer, _LITERALS, size, ctypes.c_uint64, _LITERALS, ctypes.POINTER(size)]),
        "fixed": (integer, [pointer, _LITERALS, size, integer, ctypes.c_uint64, ctypes.c_char_p, size]),
        "cost_text": (size, [pointer, ctypes.c_char_p, size]),
        "value": (integer, [pointer, ctypes.c_uint32]),
        "run": (integer, [pointer, integer, ctypes.c_char_p, size, ctypes.c_uint64]),
        "report": (size, [pointer, ctypes.c_char_p, size]),
        "hint": (size, [integer, ctypes.c_char_p, size, ctypes.c_char_p, size]),
        "name": (ctypes.c_char_p, [integer]),
    }
    for name, (result, arguments) in signatures.items():
        try:
            call = getattr(library, f"pbcube_{name}")
        except AttributeError as fault:
            raise ImportError(f"{path} is no {_LIBRARY} of this version: name one in PBCUBE_LIBRARY") from fault
        call.restype, call.argtypes = result, arguments
    return library


def hint_on(library: ctypes.CDLL, text: bytes, format: int) -> str:
    """The hint that the program gives where it refuses this text, or nothing where it gives none."""
    room = ctypes.create_string_buffer(_LONGEST_HINT)
    length = library.pbcube_hint(format, text, len(text), room, len(room))
    return room.raw[:length].decode("ascii")


class _Fault(Exception):
    """A call answered a code below 0, whose name this is."""


class Search:
    """A solver of the library, which keeps what it was told and learned from one job to the next."""

    def __init__(self, library: ctypes.CDLL) -> None:
        self._library = library
        self._solver = library.pbcube_new()  # or None, where memory is refused
        self._has_objective = False
        self._feasible: Search | None = None
        self._rules: list[Any] = []  # those that it was not told of yet

    def __del__(self) -> None:
        self._library.pbcube_free(self._solver)

    def run(self, job: Job, nodes: int) -> Reply:
        """What the job finds, with at most `nodes` decisions. Where something is refused, what was told is told in part."""
        try:
            if not self._solver:
                raise _Fault("Memory")
            kind, told, asked = job
            return self._run_text(told, asked, nodes) if kind == "text" else self._run_told(told, asked, nodes)
        except _Fault as fault:
            return (0, None, None, (fault.args[0], 0))

    def _checked(self, code: int) -> int:
        if code >= 0:
            return code
        raise _Fault(self._library.pbcube_name(code).decode("ascii"))

    def _text(self, call: str) -> str:
        """The text that a call writes."""
        write = getattr(self._library, f"pbcube_{call}")
        room = ctypes.create_string_buffer(write(self._solver, None, 0) or 1)
        length = write(self._solver, room, len(room))
        return room.raw[:length].decode("ascii")

    def _run_told(self, statements: list[Any], question: Question, nodes: int) -> Reply:
        for statement in statements:
            self._tell(*statement)
        self._rules += (statement for statement in statements if statement[0] != "min")
        kind, numbers, other, variables = question
        if kind == "fixed" and other == AMONG["feasible"] and self._has_objective:
            return self._run_feasible(question, nodes)
        if self._library.pbcube_variables(self._solver) < variables:
            self._tell(">=", 0, array("q", (0, variables)))  # 0 times the last one
        given = array("i", numbers)
        ask = {"solve": self._solve, "explain": self._explain, "fixed": self._fixed}[kind]
        return ask((ctypes.c_int32 * len(given)).from_buffer(given) if given else None, len(given), other, nodes)

    def _run_feasible(self, question: Question, nodes: int) -> Reply:
        """Asks a search without the objective, on which the answer does not depend: a search with one takes bounds on the way to each
        assignment, of which the question takes many."""
        if self._feasible is None:
            self._feasible = Search(self._library)
        if not self._feasible._solver:
            raise _Fault("Memory")
        rules, self._rules = self._rules, []
        return self._feasible._run_told(rules, question, nodes)

    def _solve(self, literals: Any, count: int, first: bytes | None, nodes: int) -> Reply:
        library, solver = self._library, self._solver
        variables = library.pbcube_variables(solver)
        if first is not None:
            self._checked(library.pbcube_suggest(solver, first[:variables].ljust(variables, b"\0"), variables))
        status = self._checked(library.pbcube_solve_under(solver, literals, count, nodes))
        if status not in (10, 11, 30):
            return (status, None, None, None)
        cost = int(self._text("cost_text")) if self._has_objective else None
        value = library.pbcube_value
        return (status, cost, bytes(value(solver, variable) == 1 for variable in range(1, variables + 1)), None)

    def _explain(self, literals: Any, count: int, _: None, nodes: int) -> Reply:
        core, core_count = (ctypes.c_int32 * count)(), ctypes.c_size_t()
        status = self._checked(self._library.pbcube_explain(self._solver, literals, count, nodes, core, ctypes.byref(core_count)))
        return (status, None, bytes(memoryview(core)[: core_count.value]) if status in (20, 21) else None, None)

    def _fixed(self, literals: Any, count: int, among: int, nodes: int) -> Reply:
        size = self._library.pbcube_variables(self._solver)
        statuses = ctypes.create_string_buffer(size or 1)
        status = self._checked(self._library.pbcube_fixed(self._solver, literals, count, among, nodes, statuses, size))
        return (status, None, statuses.raw[:size] if status in (1, 10) else None, None)

    def _tell(self, kind: str, bound: int, numbers: bytes | array[int]) -> None:
        library, solver = self._library, self._solver
        given = array("i" if kind == "or" else "q", numbers)
        if kind == "or":
            literals = (ctypes.c_int32 * len(given)).from_buffer(given) if given else None
            self._checked(library.pbcube_clause(solver, literals, len(given)))
            return
        for coefficient, literal in zip(given[::2], given[1::2]):
            self._checked(library.pbcube_term(solver, coefficient, literal))
        if kind == "min":
            self._checked(library.pbcube_end_objective(solver))
            self._has_objective = True
        else:
            self._checked(library.pbcube_end(solver, RELATIONS[kind], bound))

    def _run_text(self, text: bytes, format: int, nodes: int) -> Reply:
        status = self._checked(self._library.pbcube_run(self._solver, format, text, len(text), nodes))
        _, cost, values, fault = reply_of(self._text("report"), False)
        return (status, cost, values, fault)


def reply_of(report: str, is_limited: bool) -> Reply:
    """What the report of a run tells, which had a budget or none. Raises LookupError or ValueError where it is none."""
    lines = {line[0]: line for line in report.splitlines()}
    if "c" in lines:  # "c refused: NAME at line LINE", "c refused: Memory", or "c refused split: BadSplit"
        name, *at_line = lines["c"].split("refused", 1)[1].split(": ")[1].split()
        return (1, None, None, (name, int(at_line[-1]) if at_line else 0))
    cost = int(lines["o"][2:]) if "o" in lines else None
    if "v" not in lines:
        return ({"s UNSATISFIABLE": 20, "s UNKNOWN": 1}[lines["s"]], None, None, None)
    values = bytes(not word.startswith("-") for word in lines["v"][2:].split() if word != "0")
    least = lines["s"] == "s OPTIMUM FOUND" or (cost is None and not is_limited)
    return ((30 if cost is not None else 10) if least else 11, cost, values, None)


def better(before: Reply, after: Reply) -> Reply:
    """What two searches for one answer tell together."""
    if after[0] not in CUT:
        return after
    if before[0] == 11 and (after[0] != 11 or (before[1] is not None and after[1] is not None and before[1] < after[1])):
        return before
    return before if before[0] == 21 and after[0] == 1 else after


def _joined(before: Reply, after: Reply) -> Reply:
    """What two questions tell together of which variables are fixed."""
    if after[0] not in CUT or before[2] is None or after[2] is None:
        return after
    statuses = bytes(new if old == _NOT_KNOWN else old for old, new in zip(before[2], after[2]))
    return (1 if _NOT_KNOWN in statuses else 10, None, statuses, None)


def join_of(job: Job) -> Callable[[Reply, Reply], Reply]:
    """How two replies to the job are made one."""
    return _joined if job[0] == "told" and job[2][0] == "fixed" else better


def begun_with(job: Job, best: Reply) -> Job:
    """The job of a search that is to begin with the best answer so far."""
    kind, told, asked = job
    if kind == "text" or best[2] is None:
        return job
    question, literals, other, variables = asked
    if question == "explain":
        literals = best[2]
    return (kind, told, (question, literals, best[2] if question == "solve" else other, variables))


def replies(search: Runner, job: Job, plan: Plan) -> Iterator[tuple[bool, Reply]]:
    """What searches tell one after another, each with all that those before it told, and whether it is the last one. Their budgets grow
    up to that of the plan, and are no greater than the time up to its deadline is likely to allow; but there is one search alone where
    the plan has them not grow. Each begins with the best answer so far."""
    nodes, deadline, grows = plan
    budget, best, join = min(nodes, _FIRST_BUDGET) if grows else nodes, NOTHING, join_of(job)
    while True:
        begun = time.monotonic()
        best = join(best, search.run(job, budget))
        is_last = budget == nodes or best[0] not in CUT
        yield is_last, best
        if is_last:
            return
        ended = time.monotonic()
        most = budget * _GROWTH
        if deadline is not None:
            most = min(most, int(_SAFE_SHARE * budget * (deadline - ended) / max(ended - begun, 1e-6)))
        has_no_cost = best[0] == 11 and best[1] is None  # of which none is better that is told, but where it is the first of all
        budget = nodes if has_no_cost else min(nodes, max(most, _FIRST_BUDGET))
        job = begun_with((job[0], [], job[2]) if job[0] == "told" else job, best)


def framed(message: object) -> bytes:
    """A message to or from another process: marshalled, behind its length."""
    said = marshal.dumps(message)
    return len(said).to_bytes(8, "little") + said


def _heard() -> Any:
    """The next message on standard input, and None at its end."""
    length = int.from_bytes(sys.stdin.buffer.read(8), "little")
    return marshal.loads(sys.stdin.buffer.read(length)) if length else None


def _serve() -> None:
    """Answers one job after the other that standard input tells, each with its plan, and writes each reply and whether it is the last
    one. It ends with standard input, or where the process that wants that has ended."""
    ctypes.CDLL(None).prctl(_END_WITH_PARENT, _KILL)
    parent, path = _heard()
    if os.getppid() != parent:
        return
    search = Search(load(path))
    while heard := _heard():
        for told in replies(search, *heard):
            sys.stdout.buffer.write(framed(told))
            sys.stdout.buffer.flush()


if __name__ == "__main__":
    _serve()
else:
    loaded = load(_find())
