#!/usr/bin/env python3
"""Plants each bug of tests/plants/ in a copy of the repository, and shows which guard refuses it.

    tests/plants.py [NAME ..]
    tests/plants.py --check

A plant is tests/plants/LIST/NAME.plant: why it tells something, its crate, the guard that is to refuse it, and the change in
the form of a must-fail edit. Nothing is proved: a plant is a bug that no contract refuses. The guards are

    test CRATE NAME  the tests of that crate whose names contain NAME fail (`rt try --test`)
    work NAME ..     on one of these instances, or of all, a run takes more steps or requests than tests/work.py allows
    efforts FAMILY   searches of this family take more decisions than tests/runs/efforts.py allows
    requests NAME    on this instance a run makes more requests for memory than tests/work.py allows
    program SCRIPT   the program, built without proof, fails in tests/runs/SCRIPT.py: examples, commands, texts, budgets, faults, threads
                     or memory, or pbcube_task in tasks; a plant in another program than pbcube is tried in that one

With no names all are planted: an hour or more, so this is no part of the gate. The scripts for faults, threads and memory want a
C compiler. With --check nothing is planted: it looks only whether each plant still can be, and whether its guard is there, which
the gate asks.
"""
import os
import re
import sys
import tempfile
from dataclasses import dataclass
from pathlib import Path

sys.dont_write_bytecode = True
import work
from lib import PROGRAMS, TOP, copies
from lib.changes import changed, changes_of

PLANTS = TOP / "tests/plants"


@dataclass(frozen=True)
class Plant:
    """A planted bug. Its changes are a file of the crate, the text that stands there once, and the text in its place."""

    path: Path
    crate: str
    guard: str
    why: str
    changes: tuple

    @property
    def name(self):
        return self.path.stem


def plant_of(path):
    lines = path.read_text().splitlines()
    said = dict(line.partition(": ")[::2] for line in lines)
    return Plant(path, said["crate"], said["guard"], said["why"], changes_of(lines))


def planted(top, plant):
    """The files that the bug changes in the repository of that folder: the text of each, and what it becomes."""
    return changed(top / "crates" / plant.crate, plant.changes)


def write(texts):
    for path, text in texts.items():
        path.write_text(text)


class PlantedCopy(copies.Copy):
    """A copy in which bugs are planted."""

    def refusal(self, plant):
        """What the plant's guard says against it, or None where it lets the plant pass."""
        before, after = planted(self.top, plant)
        try:
            write(after)
            guard, *words = plant.guard.split()
            if guard == "program":
                usual = "pbcube_task" if words == ["tasks"] else "pbcube"
                return self.by_program(*words, plant.crate if plant.crate in PROGRAMS else usual)
            return getattr(self, f"by_{guard}")(*words)
        finally:
            write(before)

    def by_test(self, crate, name):
        status, said = self.run(["rt", "try", "--test", "--", name], f"crates/{crate}")
        if "\ntests: " not in f"\n{said}":
            sys.exit(f"plants: {crate} was not tried:\n{said}")
        failing = re.findall(r"^test (\S+) \.\.\. (?!ok)", said, re.M)
        return (", ".join(failing) or said.splitlines()[-1]) if status else None

    def by_work(self, *names):
        return "; ".join(work.complaints(self.top, names)) or None

    def by_requests(self, name):
        """By the interpreter's count, in twice the steps that tests/work.py allows, since a request costs steps too."""
        requests = work.ends_of(self.top, [name], 2 * work.STEPS)[name].requests
        today = work.TODAY[name].requests
        return f"{name}: {requests} requests, where {today} were enough" if requests > today + work.SPARE else None

    def by_efforts(self, *words):
        _, said = self.run(["tests/runs/efforts.py", self.unproved_program("bench")])
        return next((line for line in said.splitlines() if f": {' '.join(words)}: " in line), None)

    def by_program(self, script, name):
        status, said = self.run([f"tests/runs/{script}.py", self.unproved_program(name)])
        return said.splitlines()[0] if status else None

def why_not_planted(plant):
    """Why the plant can no longer be planted, or its guard is not there, or None."""
    try:
        planted(TOP, plant)
    except (OSError, ValueError) as fault:
        return str(fault)
    guard, *words = plant.guard.split()
    if guard == "test":
        crate, name = words
        code = "".join(it.read_text() for it in (TOP / "crates" / crate / "src").rglob("*.rt"))
        return None if re.search(rf"\bfn \w*{name}\w*\(", code) else f"{crate} has no test {name}"
    if guard in ("work", "requests"):
        return None if set(words) <= set(work.TODAY) else "there is no such instance"
    if guard == "efforts":
        script = (TOP / "tests/runs/efforts.py").read_text()
        return None if f'"{" ".join(words)}": [' in script else "there is no such family"
    return None if guard == "program" and (TOP / f"tests/runs/{words[0]}.py").exists() else f"there is no guard {plant.guard}"


def check(plants):
    faults = {plant: why_not_planted(plant) for plant in plants}
    wrong = [f"plants: {plant.name}: {why}" for plant, why in faults.items() if why]
    print(*wrong, f"plants: {len(plants) - len(wrong)} can be planted, {len(wrong)} cannot", sep="\n")
    return 1 if wrong or not plants else 0


def main(names):
    plants = sorted((plant_of(it) for it in PLANTS.glob("*/*.plant")), key=lambda it: it.path)
    if names == ["--check"]:
        return check(plants)
    chosen = [it for it in plants if not names or it.name in names]
    passed = 0
    with tempfile.TemporaryDirectory(prefix="pbcube-plants-", dir=os.environ.get("TMPDIR")) as room:
        copy = PlantedCopy(Path(room))
        for plant in chosen:
            said = copy.refusal(plant)
            passed += said is None
            print(f"{plant.path.parent.name}/{plant.name} ({plant.guard}): {said or 'NOTHING REFUSES IT'}", flush=True)
    print(f"plants: {len(chosen) - passed} refused, {passed} not refused")
    return 1 if passed or not chosen else 0


if __name__ == "__main__":
    sys.exit(main(sys.argv[1:]))
