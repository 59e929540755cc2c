#!/usr/bin/env python3
"""Tries the wrong bodies of tests/wrong/ on a copy of the repository, and shows whether the prover refuses each, and by what.

    tests/wrong.py [--all] [CRATE ..]
    tests/wrong.py --check

A wrong body is tests/wrong/CRATE/NAME.edit, in the form of a must-fail edit. Those that the gate tries stand in
crates/CRATE/must-fail/; these are for a change of that crate's contracts. In the copy they take the place of the gate's, with --all
they stand beside these, and `rt must-fail` tries them. The function and the clause that refuse an edit must be those that its first
line names, `# refused by: FUNCTION, CLAUSE`. CLAUSE is the name of one, or

    its only clause
    invariant of its loop             which counts for each clause of the function too, since a loop is proved by it
    invariant of TYPE
    the requires of FUNCTION, the only requires of FUNCTION
    its shift, its subtraction ..     that no result leaves its range

With no names all crates are tried, as many at a time as there are processors. It begins with what ./prove and rt check left in the
crates, and what came of an edit is kept on this machine, as rt keeps it. So run ./prove first, with the names of programs and
libraries that stand on these crates. The last line is `N refused, M not`; the status is 1 where one was not refused, or elsewhere
than its first line says.

With --check nothing is proved: it looks whether each edit can be applied, that its first line names a function of its crate and a
clause of it, and that no edit stands in both places. The gate asks this.
"""
import os
import re
import shutil
import sys
import tempfile
from pathlib import Path

sys.dont_write_bytecode = True
from lib import PROCESSORS, edits, say, side_by_side
from lib.changes import changed
from lib.code import CRATES, code_of
from lib.copies import ProvedCopy

REFUSED = "refused, as it must be: "
TRIED = re.compile(r"^rt: must-fail (\w+)/(\S+)\.edit: (.*)", re.M)
PLACE = re.compile(r"(?:note: )?(?:\./)?((?:src|proofs)/\S+?):(\d+):\d+: ")
GOAL = re.compile(r"(?:\(|error: )`([^`]*)(`?)")  # its end is lacking where rt cut what it says
WORDS = re.compile(r"its only clause|its \w+|invariant of (its loop|\w+)|the (only )?requires of [\w:]+")


def names_in(crate, place, line):
    """The names of the function that the place belongs to: a line of code, or a file of the folder that has the function's proof."""
    path = Path(place)
    if path.parts[0] == "src":
        return code_of(crate).names_at(CRATES / crate / path, line)
    *above, function, _ = path.parts
    return [function, *(f"{it}::{function}" for it in above)]


def is_of(goal, by, clauses):
    """Whether the goal, which the prover left open in a function of these clauses, is of what the first line names."""
    is_loop, is_result = goal.startswith("loop-"), goal.startswith("returns")
    if by == "invariant of its loop":
        return is_loop
    if by.startswith("invariant of "):
        return "invariant" in goal
    if found := re.search(r"requires of (?:\w+::)*(\w+)", by):
        return bool(re.search(rf"\b{found[1]}(-\w+)*-requires", goal))
    if by == "its only clause" or clauses == {by}:
        return is_loop or is_result and ("clause-" not in goal or goal.endswith(f"clause-{by}"))
    if by.startswith("its "):
        return f"overflow_{by[4:6]}" in goal
    return is_loop or is_result and bool(re.search(rf"clause-{by}\b", goal))


def is_as_said(edit, reason):
    """Whether rt's reason names the function and the clause of the edit's first line. Of a goal whose end rt cut, the clause may be
    cut too."""
    place, goal = PLACE.match(reason), GOAL.search(reason)
    if not place or not goal or edit.function not in names_in(edit.crate, place[1], int(place[2])):
        return False
    if not goal[2]:
        return edit.by.startswith(goal[1].partition("clause-")[2])
    return is_of(goal[1], edit.by, code_of(edit.crate).clauses[edit.function])


class EditedCopy(ProvedCopy):
    """A copy in which the edits stand where rt looks for them."""

    def tried(self, crate, chosen):
        """What rt says of each of these edits of the crate."""
        folder = self.top / "crates" / crate / "must-fail"
        shutil.rmtree(folder, ignore_errors=True)
        folder.mkdir()
        for edit in chosen:
            shutil.copy(edit.path, folder)
        status, said = self.run(["rt", "must-fail", crate])
        found = {name: text for of, name, text in TRIED.findall(said) if of == crate}
        if not found:
            say(f"{crate}: rt ended with status {status} and tried none:\n{said[-2000:]}")
        return [(it, found.get(it.name, "NOT TRIED")) for it in chosen]


def told(edit, said):
    """How the edit's try ended: whether it was refused, whether there, and the line that tells so."""
    is_refused = said.startswith("refused")
    is_there = said.startswith(REFUSED) and is_as_said(edit, said.removeprefix(REFUSED))
    how = "" if is_there or not is_refused else "ELSEWHERE: "
    return is_refused, is_there, f"{edit.crate}/{edit.name} ({edit.function}, {edit.by}): {how}{said.replace(REFUSED, 'refused: ')}"


def attempt(chosen):
    """Tries the edits, by crate, those of the largest crates first. What came of a crate's is printed as one piece."""

    def one(crate):
        ends = [told(*it) for it in copy.tried(crate, chosen[crate])]
        print("".join(f"{line}\n" for _, _, line in ends), end="", flush=True)
        return ends

    size = {crate: sum(it.stat().st_size for part in ("src", "proofs") for it in (CRATES / crate / part).rglob("*.*")) for crate in chosen}
    os.environ["RT_JOBS"] = str(max(1, PROCESSORS // len(chosen)))
    with tempfile.TemporaryDirectory(prefix="pbcube-wrong-", dir=os.environ.get("TMPDIR")) as room:
        copy = EditedCopy(Path(room))
        return sum(side_by_side(one, sorted(chosen, key=size.get, reverse=True)), [])


def why_not_tried(edit):
    """Why the edit can't be tried, or its refusal can't be looked for, or None."""
    try:
        before, after = changed(CRATES / edit.crate, edit.changes)
    except (OSError, ValueError) as fault:
        return str(fault)
    if before == after:
        return "it changes nothing"
    clauses = code_of(edit.crate).clauses
    if edit.function not in clauses:
        return f"its first line names no function of {edit.crate}"
    if edit.by not in clauses[edit.function] - {""} and not WORDS.fullmatch(edit.by):
        return f"its first line names no clause of {edit.function}"
    return None


def check(gate, apart):
    twice = {(it.crate, it.name) for it in gate} & {(it.crate, it.name) for it in apart}
    faults = [f"{crate}/{name}: it stands in both places" for crate, name in sorted(twice)]
    faults += [f"{it.crate}/{it.name}: {why}" for it in (*gate, *apart) if (why := why_not_tried(it))]
    for it in faults:
        say(it)
    say(f"{len(gate)} edits in the gate, {len(apart)} apart, {len(faults)} faults")
    return 1 if faults or not apart else 0


def main(words):
    gate, apart = edits.of_the_gate(), edits.apart()
    if words == ["--help"]:
        print(__doc__.strip())
        return 0
    if words == ["--check"]:
        return check(gate, apart)
    every = [*apart, *(gate if "--all" in words else [])]
    names = [it for it in words if it != "--all"]
    if unknown := sorted({*names} - {it.crate for it in every}):
        sys.exit(f"wrong: there is no edit of {', '.join(unknown)}")
    chosen = {}
    for edit in every:
        if not names or edit.crate in names:
            chosen.setdefault(edit.crate, []).append(edit)
    ends = attempt(chosen)
    refused, there = sum(it[0] for it in ends), sum(it[1] for it in ends)
    if elsewhere := refused - there:
        say(f"{elsewhere} refused elsewhere than their first lines say")
    print(f"{refused} refused, {len(ends) - refused} not")
    return 0 if there == len(ends) else 1


if __name__ == "__main__":
    sys.exit(main(sys.argv[1:]))
