#!/usr/bin/env python3
"""Searches the pieces of each example in one to five tasks at the same time, alone and with a folder of notes between them, and
prints where their reports together are not the answer on the whole instance. Of worked texts it also looks which pieces a budget
cuts, which a task of some of many names as done, what a note lends, and which pieces a task takes by the claims in the folder. The
library folder.c is compiled by cc and preloaded: with it the folder goes wrong under a task, from each of its calls on. Without a C
compiler this is left out. Each piece of other worked instances is searched by a task of its own, whose report is owed.

    tests/runs/tasks.py [PBCUBE_TASK]

Without a word it takes the program that the merge gate built by LLVM.
"""
import errno
import hashlib
import itertools
import os
import re
import sys
import tempfile
from concurrent.futures import ThreadPoolExecutor
from dataclasses import dataclass
from pathlib import Path

sys.dont_write_bytecode = True
sys.path.insert(0, str(Path(__file__).resolve().parents[1]))
from lib import Ended, preloaded, program, ran, reason, side_by_side
from lib.efforts import ring_before_others
from lib.examples import divisions_of, examples
from lib.reports import HEADING, claim, digest, part, rank
from lib.worked_texts import BUDGETED, TWO_OF_THREE, UNKNOWN

SPLITS = (0, 1, 3)
IN_NINE = "9 split 3 cubes none"

# A task, how many there are, among which the nine pieces of a text are dealt, a budget or none, and which pieces the task is done
# with. In a cube of all variables nothing is left to decide, so a budget cuts none of these.
DEALT = [
    (0, 1, None, range(9)),
    (0, 4, None, (0, 4, 8)),
    (3, 4, 0, (3, 7)),
    (8, 9, None, (8,)),
    (9, 10, None, ()),
    (4_294_967_294, 4_294_967_295, None, ()),
]
# Decisions that are enough for each piece here. With a budget nothing is searched outside the pieces of a task.
AMPLE = ["--nodes", "1000"]
# What the notes of all other tasks say, a cost and values, and the claim of a task whose one piece has nothing in it: that of an
# assignment that is feasible, of one that is not, and of one whose cost is another.
NOTED = [
    ("cost 3\nvalues 110\n", "o 3\ns SATISFIABLE\nv x1 x2 -x3\n"),
    ("cost 0\nvalues 000\n", UNKNOWN),
    ("cost -5\nvalues 101\n", "o 4\ns SATISFIABLE\nv x1 -x2 x3\n"),
]

# How the folder of notes goes wrong, as tests/preload/folder.c has it, and what the system says of it then. A draft that another run
# takes away is written again.
WRONG_FOLDERS = {"kept": errno.EACCES, "full": errno.ENOSPC, "single": errno.EPERM, "gone": errno.ENOENT, "taken": None}
MOST_CALLS = 1000

# Texts with cubes, and for each piece the first of its assignments, where it has any.
WORKED = [
    # one cube, and the remainder
    ("p inccnf\n1 2 0\na 1 0\n", ["1 -2", "-1 2"]),
    # a cube that contradicts itself, empty cubes, and a remainder without assignments
    ("p inccnf\n1 2 0\na 1 -1 0\na 0\na 0\n", [None, "-1 2", "-1 2", None]),
]
# All cubes over nine variables that no constraint names leave nothing. The search of the remainder sees that within ENOUGH decisions where
# it begins with these variables.
RING, BESIDE, ENOUGH = 40, range(41, 50), 767


def told(out):
    """The lines of a part's heading without the first word, and what it claims."""
    lines = out.splitlines(keepends=True)
    return [line.split()[1:] for line in lines[:HEADING]], "".join(lines[HEADING:])


def as_answer(claim):
    """The claim of all parts together as the report on the whole instance, where every piece is done."""
    if claim is None:
        return "s UNSATISFIABLE\n"
    return claim.replace("s SATISFIABLE", "s OPTIMUM FOUND") if claim.startswith("o ") else claim


def faults_of(task, instance, words, tasks, workers, folder):
    """What is wrong with the reports of `tasks` tasks."""
    command = [task, "--format", instance.suffix[1:], *words, "--workers", workers, "--tasks", str(tasks)]
    more = ["--exchange", str(folder)] if folder else []
    with ThreadPoolExecutor(tasks) as pool:
        ends = list(pool.map(lambda i: ran([*command, "--task", str(i), *more, str(instance)]), range(tasks)))
    digest = hashlib.sha256(instance.read_bytes()).hexdigest()
    named, claims = [], []
    for number, end in enumerate(ends):
        (part, pieces, of_done, cut), claim = told(end.out)
        has_piece = number < int(pieces[1])
        none = f"pbcube_task: none of the {pieces[1]} pieces is of task {number}\n"
        has_one = has_piece and (int(pieces[1]) == 1 if folder else number + tasks >= int(pieces[1]))
        several_on_one = int(workers) > 1 and has_one
        alone = "pbcube_task: one worker searches the one piece: a greater --split divides the work among several\n"
        if end.err != (alone if several_on_one else "" if has_piece else none) or end.status != (10 if rank(claim) else 0):
            yield f"task {number}: {end}"
        if part != f"part {number} of {tasks} of instance {digest}".split() or cut != ["cut"]:
            yield f"task {number} has the heading {part} {cut}"
        numbers = [int(word) for word in of_done[1:]]
        dealt = [it for it in range(int(pieces[1])) if it % tasks == number]
        if numbers != (sorted(numbers) if folder else dealt):
            yield f"task {number} is done with {numbers} of {pieces[1]} pieces"
        named += numbers
        claims.append(claim)
    if sorted(named) != list(range(int(pieces[1]))):
        yield f"the tasks are done with {sorted(named)} of {pieces[1]} pieces"
    first = min((claim for claim in claims if rank(claim)), key=rank, default=None)
    if as_answer(first) != instance.with_suffix(".expected").read_text():
        yield f"the first of the claims is {first!r}"


def complaints(task, instance):
    """How many sets of tasks the instance was given to, and what is wrong with them, one line for each."""
    count, wrong = 0, []
    for words in divisions_of(instance, SPLITS):
        for tasks in range(1, 6):
            for exchanges in (False, True):
                with tempfile.TemporaryDirectory(prefix="pbcube-tasks-") as room:
                    folder = Path(room) / "some" / "notes" if exchanges else None
                    faults = list(faults_of(task, instance, words, tasks, str(1 + tasks % 3), folder))
                count += 1
                wrong += [f"tasks: {instance.name} {' '.join(words)}, {tasks}, {folder}: {fault}" for fault in faults]
    return count, wrong


def cut_pieces(out):
    """The pieces that the report of the one task there is names as cut. None where it names not each piece once."""
    numbers = [[int(word) for word in line.split()[2:] if word.isdecimal()] for line in out.splitlines()[:HEADING]]
    if len(numbers) < HEADING:
        return []
    (count, *_), done, cut = numbers[1:]
    return cut if sorted(done + cut) == list(range(count)) else None


def wrongly_cut(task, room):
    """On which worked texts other pieces than those that are owed are cut by their budget."""
    for number, (format, text, cubes, budget, _, cut) in enumerate(BUDGETED):
        file = room / f"{number}.worked"
        file.write_bytes(text)
        file.with_suffix(".cubes").write_bytes(cubes or b"")
        files = [file] if cubes is None else ["--cubes", file.with_suffix(".cubes"), file]
        ended = ran([task, "--format", format, "--nodes", str(budget), "--task", "0", "--tasks", "1", *files])
        if cut_pieces(ended.out) != cut:
            yield f"{text} {cubes} with {budget} decisions: {ended}"


def wrongly_dealt(task, room):
    """Which tasks of a worked text name other pieces than those that they are dealt, and which believe a note."""
    file = room / "two_of_three.opb"
    file.write_text(TWO_OF_THREE)
    command = [task, "--workers", "2", "--split", "3", file]
    for number, tasks, budget, done in DEALT:
        nodes = [] if budget is None else ["--nodes", str(budget)]
        ended = ran([*command, *nodes, "--task", str(number), "--tasks", str(tasks)])
        named = "".join(f" {piece}" for piece in done)
        if not ended.out.startswith(part(f"{number} of {tasks}", TWO_OF_THREE, IN_NINE, named)):
            yield f"task {number} of {tasks}: {ended}"
    heading = part("8 of 9", TWO_OF_THREE, IN_NINE, " 8")
    for place, (note, found) in enumerate(NOTED):
        notes = room / f"notes-{place}"
        notes.mkdir()
        for other in range(8):
            (notes / f"{other}.note").write_text(f"pbcube note of instance {digest(TWO_OF_THREE)}\n{note}")
            (notes / f"{other}.0.claim").write_text(claim(TWO_OF_THREE, IN_NINE, f"{other} of 9"))
        ended = ran([*command, *AMPLE, "--task", "8", "--tasks", "9", "--exchange", notes])
        if ended.out != heading + found:
            yield f"the note {note!r}: {ended}"


def put(folder, name, thing):
    """Puts a thing under a name in the folder: a text, a number of zeros, or what is no file."""
    match path := folder / name, thing:
        case _, str():
            path.write_text(thing)
        case _, int():
            path.touch()
            os.truncate(path, thing)
        case _, Path():
            path.symlink_to(thing)
        case _, ["folder"]:
            path.mkdir()
        case _, ["pipe"]:
            os.mkfifo(path)


def wrongly_claimed(task, room):
    """What is wrong with the pieces that a task names, of the nine of a worked text, where claims lie in the folder of notes. The
    task is the second of three, so it is dealt the pieces 1, 4 and 7, each a block of its own."""
    file = room / "claimed.opb"
    file.write_text(TWO_OF_THREE)
    command = [task, "--split", "3", "--task", "1", "--tasks", "3", file, "--exchange"]
    for place, (claims, done, said) in enumerate(claimed_things(room)):
        folder = room / f"claims-{place}"
        folder.mkdir()
        for name, thing in claims.items():
            put(folder, f"{name}.claim", thing)
        ended = ran([*command, folder])
        heading = part("1 of 3", TWO_OF_THREE, IN_NINE, "".join(f" {piece}" for piece in done))
        if not ended.out.startswith(heading) or ended.err != said.format(folder):
            yield f"the claims {claims}: {ended}"
        drafts = sorted(folder.glob("*.new"))
        if drafts:
            yield f"the claims {claims}: the drafts {drafts} are left"
    yield from wrongly_claimed_twice(task, file, str(room / "twice"))


def claimed_things(room):
    """Which claims lie in the folder, which pieces the task then names, and what it says on standard error."""
    own, first, third = (claim(TWO_OF_THREE, IN_NINE, f"{number} of 3") for number in (1, 0, 2))
    everything = range(9)
    yield {}, everything, ""
    # another task has begun: the one that is dealt the pieces claims them upwards
    yield {"0.0": first}, (1, 2, 3, 4, 5, 6, 7, 8), ""
    yield {"0.1": first, "2.2": third}, (1, 4, 6, 7), ""
    # others have taken pieces over
    yield {"1.2": first, "2.2": first}, (0, 1, 2, 3, 4, 5, 6), ""
    # a run of the task that was killed has claimed these
    yield {"1.0": own, "1.1": own, "2.2": own}, everything, ""
    yield {"1.0": own, "2.2": own, "2.1": third, "0.2": third}, (0, 1, 3, 4, 7, 8), ""
    # what is no claim of a task on these pieces keeps the task from none that it is dealt
    outside = room / "outside"
    outside.write_text("outside")
    another = "pbcube_task: {}/1.1.claim is of another instance or division: give --exchange a folder of its own\n"
    no_file = "pbcube_task: cannot claim {}/1.1.claim: invalid input parameter\n"
    exists = "pbcube_task: cannot claim {}/1.1.claim: File exists (os error 17)\n"
    for thing, said in (
        ("", ""),
        (first[:50], ""),
        (first[:-7], ""),
        ("\0" * len(first), another),
        (4 << 30, another),
        (first + first, another),
        (first.replace("task 0", "task 3"), another),
        (first.replace("task 0", "task 00"), another),
        (claim("another", IN_NINE, "0 of 3"), another),
        (claim(TWO_OF_THREE, "5 split 2 cubes none", "0 of 3"), another),
        (claim(TWO_OF_THREE, f"9 split 3 cubes {digest('')}", "0 of 3"), another),
        (claim(TWO_OF_THREE, IN_NINE, "0 of 4"), another),
        (outside, another),
        (room / "nothing", exists),
        (Path("/dev/zero"), no_file),
        (["folder"], no_file),
        (["pipe"], no_file),
    ):
        yield {"1.1": thing, "0.2": thing, "2.0": third}, (0, 1, 3, 4, 5, 7, 8), said


def wrongly_claimed_twice(task, file, folder):
    """Two runs of a task at a time both name all pieces, and another task then none."""
    command = [task, "--split", "3", "--tasks", "3", "--exchange", folder, file, "--task"]
    with ThreadPoolExecutor(2) as pool:
        ends = list(pool.map(ran, 2 * [[*command, "1"]]))
    ends.append(ran([*command, "2"]))
    for number, ended, done in zip((1, 1, 2), ends, (range(9), range(9), ())):
        heading = part(f"{number} of 3", TWO_OF_THREE, IN_NINE, "".join(f" {piece}" for piece in done))
        if not ended.out.startswith(heading) or ended.err:
            yield f"task {number}, of two runs at a time: {ended}"


def pieces_of(ended):
    """The pieces that a report names as done."""
    return [int(word) for word in told(ended.out)[0][2][1:]]


def wrongly_disturbed(task, room):
    """What is wrong with the pieces that three tasks name of the nine of a worked text, where the folder of notes goes wrong under
    the second one."""
    if library := preloaded(room, "folder"):
        file = room / "disturbed.opb"
        file.write_text(TWO_OF_THREE)
        disturbed = [Disturbed(task, library, file, how) for how in WRONG_FOLDERS]
        yield from disturbed[0].faults_of_a_missing_folder()
        yield from (line for lines in side_by_side(lambda it: list(it.faults()), disturbed) for line in lines)


@dataclass(frozen=True)
class Disturbed:
    """A task, and how its folder of notes goes wrong by the preloaded library."""

    task: str
    library: str
    file: Path
    how: str

    def run(self, number, folder, at=None):
        """How a task ends, and whether the call of this number came, from which on the folder is wrong."""
        told, tell = os.pipe()
        wrong = {"LD_PRELOAD": self.library, "FOLDER": str(folder), "FOLDER_HOW": self.how, "FOLDER_AT": str(at), "FOLDER_TELL": str(tell)}
        command = [self.task, "--split", "3", "--tasks", "3", "--task", str(number), "--exchange", folder, self.file]
        with open(told, "rb") as came:
            try:
                ended = ran(command, env=wrong if at else None, pass_fds=[tell])
            finally:
                os.close(tell)
            return ended, bool(came.read())

    def faults(self):
        """What is wrong where the folder goes wrong from each call of the task on, and then from none."""
        for at in range(1, MOST_CALLS):
            is_come, wrong = self.run_all(at)
            yield from (f"the folder is {self.how} from call {at} on: {fault}" for fault in wrong)
            if not is_come:
                return
        yield f"the folder is {self.how}: the calls do not end"

    def run_all(self, at):
        """Whether the call of this number came, and what is wrong. Each of the two other tasks has claimed a piece before. They run
        afterwards, when the folder is in order again, with what is left in it."""
        folder = self.file.with_name(f"{self.how}-{at}")
        folder.mkdir()
        for block, number in (("0.0", 0), ("2.2", 2)):
            put(folder, f"{block}.claim", claim(TWO_OF_THREE, IN_NINE, f"{number} of 3"))
        ended, is_come = self.run(1, folder, at)
        if (away := folder.with_name(f"{folder.name}.gone")).exists():
            away.rename(folder)
        others = [self.run(number, folder)[0] for number in (0, 2)]
        return is_come, [*self.faults_of(folder, at, is_come, ended), *faults_together([others[0], ended, others[1]])]

    def faults_of(self, folder, at, is_come, ended):
        """What is wrong with what the task says. At most one line tells of the folder."""
        heading = part("1 of 3", TWO_OF_THREE, IN_NINE, " 1 4 7" if self.how != "taken" else " 1 3 4 6 7")
        if not WRONG_FOLDERS[self.how]:
            if ended.err or not ended.out.startswith(heading):
                yield f"{ended}"
            return
        fault = reason(WRONG_FOLDERS[self.how])
        line = rf"pbcube_task: cannot (claim {folder}/\d\.\d\.claim|exchange {folder}/\d\.note): {re.escape(fault)}\n"
        if ended.err and not (is_come and re.fullmatch(line, ended.err)):
            yield f"it says {ended.err!r}"
        if at == 1 and ended.err != f"pbcube_task: cannot claim {folder}/1.0.claim: {fault}\n":
            yield f"at once: it says {ended.err!r}"
        if at == 1 and not ended.out.startswith(heading):
            yield f"at once: {ended.out!r}"

    def faults_of_a_missing_folder(self):
        """The task may not make the folder."""
        folder = self.file.with_name("missing")
        ended, _ = self.run(1, folder, 1)
        heading = part("1 of 3", TWO_OF_THREE, IN_NINE, " 1 4 7")
        line = f"pbcube_task: cannot use {folder}, so task 1 exchanges no assignments: {reason(errno.EACCES)}\n"
        if not ended.out.startswith(heading) or ended.err != line or folder.exists():
            yield f"a folder that may not be made: {ended}"


def faults_together(ends):
    """What is wrong with the reports of three tasks together, of which the second one is dealt the pieces 1, 4 and 7."""
    named = [pieces_of(ended) for ended in ends]
    if any(it != sorted(set(it)) for it in named) or not {1, 4, 7} <= set(named[1]) or set().union(*named) != set(range(9)):
        yield f"the tasks are done with {named}"
    if [(it.err, it.status) for it in (ends[0], ends[2])] != 2 * [("", 10)] or ends[1].status != 10:
        yield f"the tasks end so: {ends}"
    first = min((told(it.out)[1] for it in ends if rank(told(it.out)[1])), key=rank, default=None)
    if as_answer(first) != "o 3\ns OPTIMUM FOUND\nv x1 x2 -x3\n":
        yield f"the first of the claims is {first!r}"


def miscounted(task, room):
    """Whether a text of a million cubes has another number of pieces."""
    text = "p inccnf\n1 0\n" + 1_000_000 * "a -2 0\n"
    file = room / "many.icnf"
    file.write_text(text)
    ended = ran([task, "--format", "icnf", "--task", "0", "--tasks", "1000001", file])
    if not ended.out.startswith(part("0 of 1000001", text, "1000001 split 0 cubes none", " 0")):
        yield f"a million cubes: {ended}"


def is_owed(said, text, number, pieces, cubes, values):
    """Whether this is the report of a task that has this piece alone, which is done, with these values or none."""
    claim = f"s SATISFIABLE\nv {values} 0\n" if values else "s UNKNOWN\n"
    division = f"{pieces} split 0 cubes {digest(cubes) if cubes else 'none'}"
    return said == Ended(part(f"{number} of {pieces}", text, division, f" {number}") + claim, "", 10 if values else 0)


def wrong_pieces(task, folder):
    """What is wrong with searches of single pieces, one line for each."""
    file, beside = folder / "text", folder / "cubes"
    for text, claims in WORKED:
        file.write_text(text)
        for number, values in enumerate(claims):
            said = ran([task, "--format", "icnf", *AMPLE, "--tasks", str(len(claims)), "--task", str(number), file])
            if not is_owed(said, text, number, len(claims), None, values):
                yield f"piece {number} of {text!r}: {said}"
    cubes = "".join(f"a {' '.join(map(str, it))} 0\n" for it in itertools.product(*((it, -it) for it in BESIDE)))
    text, rest = ring_before_others(RING, len(BESIDE)).text(), 2 ** len(BESIDE)
    file.write_text(text)
    beside.write_text(cubes)
    said = ran([task, "--cubes", beside, "--nodes", str(ENOUGH), "--tasks", str(rest + 1), "--task", str(rest), file])
    if not is_owed(said, text, rest, rest + 1, cubes, None):
        yield f"a remainder without assignments: {said}"


def wrong_on_worked_texts(task):
    tellers = (wrongly_cut, wrongly_dealt, wrongly_claimed, wrongly_disturbed, miscounted, wrong_pieces)
    with tempfile.TemporaryDirectory(prefix="pbcube-tasks-") as room:
        return [f"tasks: {line}" for lines in tellers for line in lines(task, Path(room))]


def main():
    task = (sys.argv[1:] or [str(program("pbcube_task"))])[0]
    counts = side_by_side(lambda instance: complaints(task, instance), examples())
    wrong = [line for _, lines in counts for line in lines] + wrong_on_worked_texts(task)
    print(*wrong, f"tasks: {sum(count for count, _ in counts)} sets of tasks on examples, {len(wrong)} faults", sep="\n")
    sys.exit(len(wrong) > 0)


if __name__ == "__main__":
    main()
