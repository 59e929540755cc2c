#!/usr/bin/env python3
"""Checks the pages of promises against the code, and prints what differs.

    tests/promises.py [--write]

In docs/PROMISES.md the cells below the head Contract name functions, and after a colon their clauses; the section's heading names
their crates. Each function must exist and have each clause. Names without quotes on that page and in docs/DEVELOPMENT.md, such as
tie_prefers_one, must be a clause, a test, a must-fail edit or a plant. tests/EDITS.md lists all edits, tests and plants; it must be
what --write writes.
"""
import re
import sys
from itertools import groupby

sys.dont_write_bytecode = True
from lib import TOP, edits
from lib.code import CRATES, code_of, crates

PLANTS = TOP / "tests/plants"
EDITS, PROMISES, DEVELOPMENT = (TOP / f"{name}.md" for name in ("tests/EDITS", "docs/PROMISES", "docs/DEVELOPMENT"))
HEAD = """# Edits, tests and plants

`tests/promises.py --write` generates this page. [PROMISES.md](../docs/PROMISES.md) has the promises, [DEVELOPMENT.md](../docs/DEVELOPMENT.md#planting-bugs) explains plants.

## Must-fail edits

An edit is a wrong body of the function in parentheses. The first line of the edit's file names a clause, by which the prover must refuse the edit.

### In the gate

`rt ci` tries each `crates/CRATE/must-fail/EDIT.edit`.

"""
APART = """
### After a change

After a change to the contracts of CRATE, run `tests/wrong.py CRATE`: it tries each `tests/wrong/CRATE/EDIT.edit`.

"""
TESTS = """
## Tests

The gate runs all tests of each crate that is named here.

"""
BUGS = """
## Plants

Each `tests/plants/LIST/PLANT.plant` is a bug that breaks no contract, so a test or a script must find it.

"""


def plants():
    """The file of each plant, with its crate and its guard."""
    for path in sorted(PLANTS.glob("*/*.plant")):
        said = dict(line.partition(": ")[::2] for line in path.read_text().splitlines())
        yield path, said["crate"], said["guard"]


def listed():
    """What tests/EDITS.md has to be."""
    gate, apart = (in_lists((it.crate, f"{it.name} (`{it.function}`)") for it in some) for some in (edits.of_the_gate(), edits.apart()))
    tests = in_lists((crate, name) for crate in crates() for names in code_of(crate).tests.values() for name in names)
    bugs = in_lists((path.parent.name, path.stem) for path, _, _ in plants())
    return "".join((HEAD, *gate, APART, *apart, TESTS, *tests, BUGS, *bugs))


def in_lists(named):
    """A line for each list, with its names, which come list by list."""
    for title, pairs in groupby(named, key=lambda pair: pair[0]):
        yield f"- `{title}`: {', '.join(name for _, name in pairs)}\n"


def contracts():
    """For each row of a table of promises: the crates of its section, and the cell that names its contracts."""
    section, is_table = [], False
    for line in PROMISES.read_text().splitlines():
        if line.startswith("#"):
            section = [it for it in re.findall(r"`(\w+)`", line) if (CRATES / it).exists()]
        if not line.startswith("|"):
            is_table = False
        elif line.endswith("| Contract |"):
            is_table = True
        elif is_table and not line.startswith("|--"):
            yield section, line.split("|")[-2].strip()


def broken_contracts():
    """What a cell names and the crates of its section do not have."""
    for section, cell in contracts():
        for part in cell.split("; "):
            names, _, clauses = part.partition(": ")
            for name in re.findall(r"`([\w:]+)`", names):
                yield from broken(section, name, clauses.split(", ") if clauses else [], names.startswith("invariant of "))


def broken(section, name, clauses, is_type):
    where = f"docs/PROMISES.md: {name} of {', '.join(section) or 'no crate'}"
    if is_type:
        if not any(name in code_of(crate).invariants for crate in section):
            yield f"{where}: there is no such type with an invariant"
        return
    crate, _, rest = name.partition("::")
    if crate in section:
        section, name = [crate], rest
    found = [code_of(it).clauses[name] for it in section if name in code_of(it).clauses]
    if not any(found):
        yield f"{where}: there is no such function with a contract"
    elif missing := [it for it in clauses if not any(it in contract for contract in found)]:
        yield f"{where}: it has no clause {', '.join(missing)}"


def unknown_names():
    """Names without quotes on the pages that nothing has, and files that are not there."""
    known = {it.name for it in [*edits.of_the_gate(), *edits.apart()]} | {path.stem for path, _, _ in plants()}
    for crate in crates():
        code = code_of(crate)
        known.update(*code.tests.values(), *code.clauses.values())
    for page in (PROMISES, DEVELOPMENT):
        text = page.read_text()
        files = [it for it in re.findall(r"`((?:tests|bindings)/[a-z_./]+)`", text) if not (TOP / it).exists()]
        names = re.findall(r"\b[a-z]\w*_\w+", re.sub(r"`[^`]*`|\(\S+\)|(?m:^ {4}.*$)", "", text))
        for name in sorted({*files, *names} - known):
            yield f"docs/{page.name}: nothing has the name {name}"


def main(words):
    if words == ["--write"]:
        EDITS.write_text(listed())
    stale = [] if EDITS.exists() and EDITS.read_text() == listed() else ["tests/EDITS.md is not as it is written by --write"]
    faults = [*stale, *broken_contracts(), *unknown_names()]
    print(*[f"promises: {it}" for it in faults], f"promises: {len(list(contracts()))} held to the code, {len(faults)} faults", sep="\n")
    return 1 if faults else 0


if __name__ == "__main__":
    sys.exit(main(sys.argv[1:]))
