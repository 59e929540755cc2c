#!/usr/bin/env python3
"""Runs the built program on the examples, on the commands that README.md and docs/COMMANDS.md show (shown_commands.py), on words that
are no text and on those that ask for its version, and pbcube_task on its commands there, and prints what differs, which manifest or
page has another version than the file VERSION, which manual page other options than the help of its program, and which commands for a
fresh clone README.md does not name.

    tests/runs/examples.py [PROGRAM ..]

Without a word it takes the programs that the merge gate built; with one pbcube_task is left out. An example is a file NAME.opb,
NAME.cnf or NAME.icnf of examples/, and its ending is its format; NAME.expected is what the program writes on it, with 1, 2, 3 and 64
workers, with and without a split, and with the cubes of NAME.cubes where there is such a file. The `s` line tells the exit status.
"""
import difflib
import itertools
import re
import sys
from pathlib import Path

sys.dont_write_bytecode = True
sys.path.insert(0, str(Path(__file__).resolve().parents[1]))
from lib import PROGRAMS, STATUSES, TOP, built, name_of, program, ran, side_by_side, version
from lib.examples import divisions_of, examples, with_workers
from lib.shown_commands import SHOWN

NO_TEXT = "pbcube: an argument is not valid UTF-8"
ONE_PIECE = "pbcube: one worker searches the one piece: a greater --split divides the work among several"
SPLITS = (0, 1, 6)  # of six variables: more pieces than workers
FRESH = ["./pbcube examples/tie.opb", "./prove", "./test quick", "./test"]  # a newcomer's first commands: the program, and its tests


def example_rows():
    """For each example and division: the words, standard output, the first line of standard error, and the status."""
    expected = {it.with_suffix(".expected") for it in examples()}
    for file in expected.symmetric_difference((TOP / "examples").glob("*.expected")):
        sys.exit(f"examples: {file.name} and its instance do not stand together")
    for instance in examples():
        out = instance.with_suffix(".expected").read_text()
        status = next(STATUSES[line] for line in out.splitlines() if line in STATUSES)
        for division in with_workers(divisions_of(instance, SPLITS)):
            words = ["--format", instance.suffix[1:], *division, str(instance.relative_to(TOP))]
            yield words, out, ONE_PIECE if is_one_piece(words) else "", status


def is_one_piece(words):
    """Whether the words give one piece to several workers. iCNF texts may have cubes, so nothing is said of them."""
    told = dict(zip(words[:-1:2], words[1::2]))
    return told["--workers"] != "1" and told["--split"] == "0" and "--cubes" not in told and told["--format"] != "icnf"


def shown_rows(name):
    """The same for each command of the program of this name that docs/COMMANDS.md shows."""
    for it in SHOWN:
        if it.name == name:
            yield it.words, it.out, it.complaint, it.status


def readme_rows():
    """The same for each row `pbcube ..`, what it prints, status of the table of commands in README.md."""
    table = re.findall(r"^\| `pbcube (.+?)` \| (.+) \| (\d+) \|$", (TOP / "README.md").read_text(), re.M)
    if not table:
        sys.exit("examples: README.md has no table of commands")
    for words, printed, status in table:
        written, _, said = printed.partition("on standard error")
        lines, complaints = (re.findall(r"`([^`]+)`", it) for it in (written, said))
        yield words.split(), "".join(f"{line}\n" for line in lines), complaints[0] if said else "", int(status)


def word_rows():
    """The same for words that are no text."""
    yield [b"\xff"], "", NO_TEXT, 2
    yield ["examples/tie.opb", b"\xff"], "", NO_TEXT, 2


def version_rows():
    """The same for the words that ask for the version."""
    for word in ("--version", "-V"):
        yield [word], f"pbcube {version()}\n", "", 0


def other_first_commands():
    """What README.md names in place of the first commands, beside each other in one table."""
    tables = re.findall(r"(?:^\| `\./.+\n)+", (TOP / "README.md").read_text(), re.M)
    named = [re.findall(r"^\| `(\./.+?)` \|", it, re.M) for it in tables]
    if FRESH not in named:
        yield f"README.md: no table of {', '.join(FRESH)}, but {named}"


def other_versions():
    """The files that tell another version than VERSION, each with the line that it should have."""
    for file, line in (
        ("crates/pb_line/src/version.rt", f'pub const VERSION: &str = "{version()}";'),
        ("bindings/c/include/pbcube.h", f'#define PBCUBE_VERSION "{version()}"'),
        ("bindings/rust/Cargo.toml", f'version = "{version()}"'),
        ("bindings/python/pbcube/__init__.py", f'__version__ = "{version()}"'),
        ("bindings/python/pbcube/library.py", f'_LIBRARY = "libpbcube.so.{version().split(".")[0]}"'),
        ("packaging/changelog", f"pbcube ({version()}) unstable; urgency=low"),
        ("examples/clients/pbcube.msc", f'  "version": "{version()}",'),
        *((f"docs/{name}.1", f".Ql {name} {version()}") for name in PROGRAMS),
    ):
        if line not in (TOP / file).read_text().splitlines():
            yield f"{file}: no line {line}"


def other_options(programs):
    """The manual pages that have other options in their synopsis or their list than the help of their program, of these programs."""
    for path in programs:
        name = name_of(path)
        page = (TOP / f"docs/{name}.1").read_text()
        synopsis, listed = re.split(r"^\.Sh (?:DESCRIPTION|OPTIONS)$", page, flags=re.M)[::2]
        helped = re.findall(r"^ +(?:-\w, )?--(\w+)", ran([path, "--help"]).out, re.M)
        if helped != re.findall(r"^\.It Fl (?:\w , Fl )?\\-(\w+)", listed, re.M):
            yield f"docs/{name}.1: other options than --help tells, which are {' '.join(helped)}"
        if {*helped} != {*re.findall(r"\\-(\w+)", synopsis)}:
            yield f"docs/{name}.1: other options in the synopsis than {' '.join(helped)}"


def piped_rows():
    """The same for texts from a pipe, which cannot be read again for a hint, and the text."""
    yield ["--format", "cnf", "/dev/stdin"], "s SATISFIABLE\nv 1 0\n", "", 10, b"p cnf 1 1\n1 0\n"
    yield ["/dev/stdin"], "c refused: Unfinished at line 1\ns UNSUPPORTED\n", "", 0, b"p cnf 1 1\n1 0\n"


def differences(program, words, out, complaint, status, text=b""):
    """The lines that tell how the run is not as expected."""
    ended = ran([program, *words], cwd=TOP, input=text)
    said = ended.err.split("\n")[0]
    found = list(difflib.unified_diff(out.split("\n"), ended.out.split("\n"), "expected", "written", lineterm=""))
    if said != complaint:
        found.append(f"standard error: {said!r} and not {complaint!r}")
    if ended.status != status:
        found.append(f"status {ended.status} and not {status}")
    return found


def main(words):
    programs = [Path(it).resolve() for it in words]
    commands = [*readme_rows(), *shown_rows("pbcube")]
    rows = [*example_rows(), *commands, *word_rows(), *version_rows(), *piped_rows()]
    stale = [*other_versions(), *other_first_commands(), *other_options(programs or map(program, PROGRAMS))]
    of_task = [] if programs else itertools.product(built(["pbcube_task"]), shown_rows("pbcube_task"))
    runs = [*itertools.product(programs or built(), rows), *of_task]
    found = side_by_side(lambda run: differences(run[0], *run[1]), runs)
    for (path, row), lines in zip(runs, found):
        if lines:
            print(f"examples: {path} {' '.join(map(str, row[0]))}", *lines, sep="\n  ")
    failed = sum(map(bool, found))
    print(*[f"examples: {it}" for it in stale], f"examples and commands: {len(runs) - failed} passed, {failed} failed", sep="\n")
    return 1 if failed or stale else 0


if __name__ == "__main__":
    sys.exit(main(sys.argv[1:]))
