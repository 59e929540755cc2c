#!/usr/bin/env python3
"""Draws at random what the search takes as proposals, and compares its answers with a listing of all assignments.

    tests/proposals.py
    tests/proposals.py --check

In a copy of the repository each proposer of tests/proposals/ draws: the multipliers, the order and the values of decisions, what
is tried at the root, what dives go by and how far they turn back, when the search steps back further, and the hints of a decision. Constants that put such work off are as small
there as may be. `bench` of the copy is compiled without proof and solves drawn instances of 2 to 12 variables, with and
without an objective, many with numbers of 128 bits. The report must be that of the listing, whatever is drawn.

A number is drawn from what the proposer sees, so each run draws the same. A file NAME.place tells why it is there, its file, a
line that stands there once, and what is put in: at the beginning of the function where the line begins one, else before it. That
each place is reached is known by runs on larger instances: their number of variables makes the program stop where that place draws.
Some places propose nothing, and show only that what they say comes to pass beside the drawn proposals. What draws is the module
draws.module: source of Rattle that belongs to no crate here may not have its ending.

With --check nothing is compiled: it looks only whether each place is there.
"""
import random
import re
import sys
import tempfile
from dataclasses import dataclass
from pathlib import Path

sys.dont_write_bytecode = True
from lib import TOP, draws, ran, side_by_side
from lib.copies import Copy
from lib.instance import Instance

PLACES = TOP / "tests/proposals"
PROGRAM = "bench"
INSTANCES = 600  # half of them with 2 to 7 variables
FEWEST_VARIABLES, MOST_VARIABLES = 3, 12  # of the other half
FEWEST_TO_STOP = 18  # variables on which the program stops at the first place; on one more it stops at the next, and so on
MOST_TO_STOP = 200  # of these larger instances that are run for a place at most, until one stops there
CONSTANTS = {  # what they are in the copy
    ("pb_lagrange/src/relaxation/sweeps.rt", "PATIENCE"): 1,
    ("pb_lagrange/src/relaxation/schedule.rt", "WORK_OF_A_BOUND"): 30,
    ("pb_lagrange/src/relaxation/levels.rt", "CHANGES_OF_A_ROW"): 1,
    ("pb_lagrange/src/relaxation/levels.rt", "CHANGES_OF_FEW_ROWS"): 24,
    ("pb_lagrange/src/relaxation.rt", "FAR"): 2,
    ("pb_lagrange/src/effort.rt", "FIRST_INTERVAL"): 4,
    ("pb_dual/src/multipliers.rt", "FIXING_WINDOW"): 2,
    ("pb_control/src/root_work.rt", "LEAST_VARIABLES"): 0,
    ("pb_control/src/root_work.rt", "LEAST_DECISIONS"): 0,
    ("pb_control/src/root_work.rt", "EARLY_OF_A_PIECE"): 1,
    ("pb_control/src/root_work.rt", "MANY_VARIABLES"): 0,
    ("pb_dive/src/path.rt", "LEAST_BLAMED"): 0,
    ("pb_dive/src/course.rt", "VARIABLES_OF_A_CONFLICT"): 1,
    ("pb_control/src/probing.rt", "LEAST_CREDIT"): 0,
    ("pb_control/src/probing.rt", "LEAST_CREDIT_OF_A_DECISION"): 0,
}
LINES = {  # what they become in the copy
    ("pb_inst/src/lib.rt", "mod cubes;"): "mod cubes;\nmod draws;",
    ("pb_inst/src/lib.rt", "pub use cubes::Cube;"): "pub use cubes::Cube;\npub use draws::{drawn, drawn_multiplier};",
    ("pb_lagrange/src/relaxation/sweeps.rt", "        self.is_renewed || self.nodes == LONG_PATIENCE"): "        self.is_renewed || self.nodes % 4 == 1",
    ("pb_control/src/root_work.rt", "        self.returns = u32::MAX;"): "        self.returns = 3;",
    (f"{PROGRAM}/src/solving.rt", "        split: 0,"): "        split: (text.len() % 3) as u32,",
}


@dataclass(frozen=True)
class Place:
    """Where something is put in, and what. Where a number is told, the program stops there on that number of variables."""

    name: str
    file: str
    line: str
    code: str
    variables: int | None


class Sources:
    """The sources of a copy, changed at lines that stand there once."""

    def __init__(self, top):
        self.crates = top / "crates"

    def change(self, file, is_meant, meant, put):
        """Puts other lines in place of the line that is meant."""
        lines = (self.crates / file).read_text().split("\n")
        found = [place for place, line in enumerate(lines) if is_meant(line)]
        if len(found) != 1:
            sys.exit(f"proposals: {file} has {len(found)} times: {meant}")
        (self.crates / file).write_text("\n".join(put(lines, found[0])))

    def replace(self, file, old, new):
        self.change(file, lambda line: line == old, old, lambda lines, at: [*lines[:at], new, *lines[at + 1 :]])

    def set_constant(self, file, name, value):
        begins = re.compile(rf"(?:pub )?const {name}: \w+ = ")

        def put(lines, at):
            return [*lines[:at], f"{begins.match(lines[at])[0]}{value};", *lines[at + 1 :]]

        self.change(file, begins.match, f"const {name}", put)

    def put_in(self, place):
        def put(lines, at):
            if function := re.match(r"( *)(pub )?fn ", place.line):  # behind the brace that opens its body
                opens = re.compile(rf"{function[1]}(\S.* )?{{$")
                at = next(it for it in range(at, len(lines)) if opens.match(lines[it])) + 1
            return [*lines[:at], place.code, *lines[at:]]

        self.change(place.file, lambda line: line == place.line, place.line, put)


def places():
    """Those of the files. In PLACE stands on how many variables the program stops there."""
    made, variables = [], FEWEST_TO_STOP
    for path in sorted(PLACES.glob("*.place")):
        _, file, line, code = path.read_text().rstrip("\n").split("\n", 3)
        stops = "PLACE" in code
        code = code.replace("PLACE", str(variables))
        made.append(Place(path.stem, file[len("file: ") :], line[len("line: ") :], code, variables if stops else None))
        variables += stops
    return made


def drawing_copy(folder):
    """A copy in which the places draw."""
    copy = Copy(folder)
    sources = Sources(copy.top)
    (sources.crates / "pb_inst/src/draws.rt").write_text((PLACES / "draws.module").read_text())
    for (file, name), value in CONSTANTS.items():
        sources.set_constant(file, name, value)
    for (file, old), new in LINES.items():
        sources.replace(file, old, new)
    for place in places():
        sources.put_in(place)
    return copy


def instance_of(name, variables):
    """One that is drawn by the name, with an objective but for one in four."""
    draw = random.Random(name)
    width = draw.choice((draws.small, draws.small, draws.large))
    planted = [draw.random() < 0.5 for _ in range(variables)]
    rows = [draws.constraint(draw, width, variables, planted) for _ in range(draw.randint(3, 10))]
    objective = draws.terms(draw, width, variables, variables) if draw.random() < 3 / 4 else None
    instance = Instance(variables, objective, tuple(rows), False)
    return instance.times(draws.SCALE) if width is draws.small and draw.random() < 1 / 2 else instance


def instances():
    """The same ones in each run."""
    half = INSTANCES // 2
    sizes = [FEWEST_VARIABLES + number % (MOST_VARIABLES + 1 - FEWEST_VARIABLES) for number in range(half)]
    return [*draws.instances(half), *(instance_of(f"proposals {number}", size) for number, size in enumerate(sizes))]


def stops(program, place):
    """Whether a run on a larger instance stops at the place."""
    larger = (instance_of(f"{place.name} {number}", place.variables) for number in range(MOST_TO_STOP))
    return any(ran([program], input=it.text().encode()).status < 0 for it in larger)


def complaint(program, number, instance):
    """What is wrong with a run on the instance, where anything is."""
    ended = ran([program], input=instance.text().encode())
    if (ended.out, ended.status) == (instance.report(), 0):
        return None
    said = f"{ended.out}{ended.err}{instance.text()}"
    return f"proposals: instance {number}: status {ended.status}, and not the report of the listing:\n{said}"


def main(words):
    with tempfile.TemporaryDirectory(prefix="pbcube-proposals-") as folder:
        copy = drawing_copy(Path(folder))
        if words == ["--check"]:
            print("proposals: each place is there")
            return 0
        program = copy.unproved_program(PROGRAM, level=0)
        wrong = side_by_side(lambda numbered: complaint(program, *numbered), enumerate(instances()))
        stopping = [it for it in places() if it.variables]
        are_come_to = side_by_side(lambda place: stops(program, place), stopping)
    wrong = [it for it in wrong if it]
    wrong += [f"proposals: no run comes to {place.name}" for place, is_come_to in zip(stopping, are_come_to) if not is_come_to]
    print(*wrong, f"proposals: {INSTANCES} instances, {len(stopping)} places, {len(wrong)} complaints", sep="\n")
    return 1 if wrong else 0


if __name__ == "__main__":
    sys.exit(main(sys.argv[1:]))
