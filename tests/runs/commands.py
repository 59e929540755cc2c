#!/usr/bin/env python3
"""Runs the built programs on command lines, and prints where an output, a file or the exit status is not as expected.

    tests/runs/commands.py [PROGRAM ..]

Without a word it takes the programs that the merge gate built: pbcube, pbcube_pieces, pbcube_task and
pbcube_join. Each runs its own rows, in a new folder with the files below.
"""
import bz2
import errno
import gzip
import lzma
import os
import shlex
import stat
import sys
import tempfile
from dataclasses import dataclass, field
from pathlib import Path

sys.dont_write_bytecode = True
sys.path.insert(0, str(Path(__file__).resolve().parents[1]))
from lib import PROGRAMS, built, name_of, ran, reason, side_by_side, version
from lib.formats import Refused, read
from lib.hinted_texts import (
    BEGUN, BY_CR, BY_ZERO, BY_ZIP, CUBE_LINE, IS_MARKED, IS_WCNF, LETTERED, MINIMISE, NO_PRODUCT, NO_SOFT, NUMBER, OF_RUN, OF_TASK, PART,
    PLACED, SPACE, TO_MOST, ZERO,
)  # fmt: skip
from lib.reports import ALL_REFUSED, NO_REPORT, TIE, digest, in_no_report, index_of, part, run_again

FULL = "/dev/full"  # takes no byte
CLOSED = "|"  # a pipe that nobody reads
MISSING = reason(errno.ENOENT)
FOLDER = reason(errno.EISDIR)
NO_ROOM = reason(errno.ENOSPC)

SPELLED = "* #variable= 4 #constraint= 2\nmin: 2 x1 -3 ~x2 1 x3 ;\n1 x1 1 x2 >= 1 ;\n-1 x2 +1 ~x3 <= -2 ;\n"
WIDE = "min: ;\n= 0 ;\n-170141183460469231731687303715884 x2 >= -9 ;\n"
OWN_CUBES = "p inccnf\n1 20 0\na 1 0\n"  # one, of twenty variables


ONE_PIECE = "pbcube: one worker searches the one piece: a greater --split divides the work among several\n"
FIRST = "o 3\ns OPTIMUM FOUND\nv x1 -x2 x3\n"
SECOND = "o 3\ns OPTIMUM FOUND\nv -x1 x2 -x3\n"
ATTAINED = "o 3\ns SATISFIABLE\nv -x1 x2 -x3\n"
FIRST_ATTAINED = "o 3\ns SATISFIABLE\nv x1 -x2 x3\n"
WORSE = "o 4\ns SATISFIABLE\nv -x1 x2 x3\n"
FREE = "1 x1 1 x2 >= 1 ;\n1 x2 1 x3 >= 1 ;\n"  # the constraints of the tie, without its objective
FEASIBLE = "s SATISFIABLE\nv -x1 x2 -x3\n"
NONE, UNKNOWN, UNSUPPORTED = "s UNSATISFIABLE\n", "s UNKNOWN\n", "s UNSUPPORTED\n"


# reports of two tasks, of three pieces, and others that are none of their parts
IN_THREE = "3 split 1 cubes none"
PARTS = {
    "parts/first.report": part("0 of 2", TIE, IN_THREE, " 0 2") + FIRST_ATTAINED,
    "parts/second.report": part("1 of 2", TIE, IN_THREE, " 1") + ATTAINED,
    "cut.part": part("1 of 2", TIE, IN_THREE, "", " 1") + "s UNKNOWN\n",
    "unnamed.part": part("0 of 2", TIE, IN_THREE, " 0") + ATTAINED,
    "few.part": part("0 of 5", TIE, "1 split 0 cubes none", " 0") + ATTAINED,
    "edited.part": part("1 of 2", TIE + "* edited\n", IN_THREE, " 1") + ATTAINED,
    "wider.part": part("1 of 2", "1 x9 >= 1 ;\n", "1 split 0 cubes none", "") + "s SATISFIABLE\nv x9\n",
    "refused.part": f"c refused split: BadSplit\n{UNSUPPORTED}",
    "refused_cubes.part": f"c refused cubes: BadVariable at line 2\n{UNSUPPORTED}",
    "refused_number.part": f"c refused cubes: TooMany\n{UNSUPPORTED}",
    "refused_line.part": f"c refused cubes: TooMany at line 1048576\n{UNSUPPORTED}",
    "refused_input.part": f"c refused: NonLinear at line 1\n{UNSUPPORTED}",
    "refused_second.part": f"c refused: NonLinear at line 2\n{UNSUPPORTED}",
    "refused_torn.part": "c refused split: BadSplit\n",
    "empty.part": "",
    "refused_other.part": f"c refused split: bad\n{UNSUPPORTED}",
    "no_memory.part": f"c refused: Memory\n{UNKNOWN}",
    "bad_header.part": f"c refused: BadHeader at line 1\n{UNSUPPORTED}",
    "refused_again.part": f"c refused split: BadSplit\n{UNSUPPORTED}",
    "spaced.part": part("1 of 2", TIE, IN_THREE, " 1").replace("c part", "c  part") + ATTAINED,
    "told_before.part": "pbcube_task: cannot use notes\n" + part("1 of 2", TIE, IN_THREE, " 1") + ATTAINED,
    "told_after.part": part("1 of 2", TIE, IN_THREE, " 1") + ATTAINED + "pbcube_task: cannot exchange notes\n",
    "untold.part": part("1 of 2", TIE, IN_THREE, " 1") + ATTAINED + "c\nopen\n",
    "short.part": "".join(part("1 of 2", TIE, IN_THREE, " 1").splitlines(keepends=True)[:3]),
    "no_pieces.part": part("1 of 2", TIE, "0 split 1 cubes none", "") + "s UNKNOWN\n",
    "divided.part": part("1 of 2", TIE, "3 split 2 cubes none", " 1") + ATTAINED,
    "claims.part": part("1 of 2", TIE, IN_THREE, " 1") + SECOND,
    "torn.part": part("1 of 2", TIE, IN_THREE, " 1") + "o 3\ns SATISFIABLE\nv -x1 x2\n",
    # pieces that are dealt to other tasks
    "others.part": part("1 of 2", TIE, IN_THREE, " 1 2") + ATTAINED,
    "all.part": part("1 of 2", TIE, IN_THREE, " 0 1 2") + ATTAINED,
    "others_cut.part": part("1 of 2", TIE, IN_THREE, " 1", " 2") + ATTAINED,
    "dealt_none.part": part("3 of 5", TIE, "1 split 0 cubes none", " 0") + ATTAINED,
    "idle.part": part("0 of 5", TIE, "1 split 0 cubes none", "") + "s UNKNOWN\n",
    "third.part": part("0 of 2", TIE, "9 split 3 cubes none", " 3 8") + ATTAINED,
    "fourth.part": part("1 of 2", TIE, "9 split 3 cubes none", " 4") + ATTAINED,
    "named_twice.part": part("1 of 2", TIE, IN_THREE, " 1 1") + ATTAINED,
    "done_and_cut.part": part("1 of 2", TIE, IN_THREE, " 1", " 1") + ATTAINED,
    "beyond.part": part("1 of 2", TIE, IN_THREE, " 1 3") + ATTAINED,
}
FILES = {
    "tie.opb": TIE,
    "free.opb": FREE,
    "pair.opb": "1 x1 1 x2 >= 1 ;\n",
    "none_feasible.opb": "1 x1 >= 1 ;\n1 x1 = 0 ;\n",
    "no_objective.opb": "* #variable= 3 #constraint= 1\n1 x2>=1;\n",
    "product.opb": "1 x1 x2 >= 1 ;\n",
    "over.opb": "1 x1 1 x0 >= 1 ;\n",
    "maximum.opb": "max: 1 x1 ;\n1 x1 >= 0 ;\n",
    "soft.opb": "soft: 9 ;\n[2] 1 x1 >= 1 ;\n",
    "marked.opb": "\ufeff1 x1 >= 1 ;\n",
    "weighted.wcnf": "p wcnf 2 2 9\n9 1 2 0\n1 -1 0\n",
    "hard.wcnf": "h 1 2 0\n1 -1 0\n",
    "older_spelling.opb": "* a comment\n+1*x1 >= 1 ;\n",
    "one_clause.cnf": "p cnf 2 2\n1 2 0\n-1 2 0\n",
    "own_cube.icnf": "p inccnf\n1 2 0\na 1 0\n",
    "own_cubes.icnf": OWN_CUBES,
    "good.cubes": "a 1 0\n",
    "marked_by_editor.cubes": "\ufeffa 1 0\n",
    "starred.cubes": "a 1 0\n* a comment\n",
    "instance.cubes": "* #variable= 3 #constraint= 1\n1 x1 >= 1 ;\n",
    "blank.cubes": "a 1 0\na\u00a01 0\n",
    "listed.cubes": "a 1 0\na 1, 2 0\n",
    "word.cubes": "a 1 0\na 1 x2 0\n",
    "zero.cubes": "a 1 0\na 1 -0\na x2 0\n",
    "marked.cubes": "a 1 0\n# a comment\n",
    "headed.cubes": "\np inccnf\na 1 0\n",
    "clause.cubes": "a 1 0\n1 2 0\n",
    "open.cubes": "a 1 0\na 1 2\na x2 0\n",
    "second_over.cubes": "a 1 0\na 4 0\n",
    "nine.cubes": "a 2 0\n" * 9,
    "hundred.cubes": "a 2 0\n" * 100,
    "with_index/index": "",
    "with_piece/0.opb": "kept\n",
    "spelled.opb": SPELLED,
    "two.cubes": "a 1 -2 0\na -4 0\n",
    "wide.opb": WIDE,
    "empty.cubes": "a 0\n",
    "two_clauses.cnf": "p cnf 12 2\n1 -2 0\n0\n",
    "twelve.cubes": "a 3 -12 0\n",
    "five.icnf": "p inccnf\n1 -2 0\na 3 -5 0\na 1 0\n",
    "twelve.opb": "* #variable= 12 #constraint= 0\n",
    "clause.cnf": "p cnf 2 1\n1 2 0\n",
    "late_clause.cnf": "p cnf 2 0\n" + 10 * "c a note\n" + "1 2 0\n",
    "late_cube.cnf": "p cnf 2 1\n1 2 0\na 1 0\n",
    "clause-0.out": "s SATISFIABLE\nv -1 2 0\n",
    "out/0.out": FIRST,
    "again-0.out": FIRST,
    "piece-001.out": "c another solver\no 4\no 3\ns OPTIMUM FOUND\nv -x1 x2\nv -x3\n",
    "2": "s UNSATISFIABLE\n",
    "cut-1.out": "s UNKNOWN\n",
    "torn-1.out": "o 3\ns OPTIMUM FOUND\nv -x1 x2\n",
    "failed-1.out": "Killed\a\n",
    "silent-1.out": "c a solver\nc reads\n",
    "empty-1.out": "",
    "blank-1.out": "\n",
    "long-1.out": f"c {99 * 'x'}\n",
    "wrong-1.out": "o 2\ns OPTIMUM FOUND\nv -x1 x2 -x3\n",
    "told-1.out": SECOND + ONE_PIECE,
    "joined/joined.report": SECOND,
    "joined/0.report": part("0 of 2", TIE, IN_THREE, " 0 2") + FIRST_ATTAINED,
    "report.out": "s UNSATISFIABLE\n",
    "reports/0.report": FIRST,
    "reports/1.report": SECOND,
    "reports/0.opb": "no report\n",
    "empty/index.txt": "no report\n",
    "empty/2.opb": "no report\n",
    "empty/report": "no report\n",
    "empty/3.reports": "no report\n",
    "cut/index": index_of(TIE, "opb", 3, 3),
    "cut/0.report": FIRST,
    "cut/1.report": SECOND,
    "cut/2.report": "s UNSATISFIABLE\n",
    "cut_in_two/index": index_of(TIE, "opb", 3, 2),
    "edited/index": index_of(TIE + "* edited\n", "opb", 3, 1),
    "edited/0.report": FIRST,
    "another/index": index_of("* another instance\n", "opb", 9, 1),
    "broken/index": "no index\n",
    "torn/index": index_of(TIE, "opb", 3, 1)[:30],
    "longer/index": index_of(TIE, "opb", 3, 1) + "1.opb\n",
    "too_many/index": index_of(TIE, "opb", 3, 1).replace("pieces 1", "pieces 1048577"),
    "unread/0.report": FIRST,
    **PARTS,
}
HINTED = {f"hinted/{place}": row for place, row in enumerate([*BEGUN, *PLACED])}
BYTES = {
    "packed.xz": lzma.compress(TIE.encode()),
    "packed.bz2": bz2.compress(TIE.encode()),
    "packed.zip": b"PK\x03\x04\x14\x00\x00\x08\r\x08tie.opb",
    "packed.cubes.gz": gzip.compress(b"a 1 0\n"),
    "packed.cubes.zip": b"PK\x03\x04\x14\r\x0b",
    "returns.cubes": b"a 1 0\ra -1 0\r",
    "packed-1.out": gzip.compress(SECOND.encode()),
    "packed-2.out": b"PK\x03\x04\x14\r\n\x0b\x08",
    "binary-1.out": b"o 3\x01\r\ns OPTIMUM FOUND\n",
    "wide-1.out": SECOND.encode("utf-16"),
    "marked-1.out": b"\xef\xbb\xbf" + SECOND.encode(),
    "returns-1.out": SECOND.replace("\n", "\r").encode(),
    "packed.part": gzip.compress((part("1 of 2", TIE, IN_THREE, " 1") + ATTAINED).encode()),
    "packed.part.zip": b"PK\x03\x04\x14\r\n\x0b\x08",
    "marked.part": b"\xef\xbb\xbf" + (part("1 of 2", TIE, IN_THREE, " 1") + ATTAINED).encode(),
    "returns.part": (part("1 of 2", TIE, IN_THREE, " 1") + ATTAINED).replace("\n", "\r\n").encode(),
    **{name: text for name, (_, text, _) in HINTED.items()},
}
# links and folders that lie where notes and their drafts are written or read
LINKS = {"linked/0.0.new": "outside", "endless/0.note": "/dev/zero"}
FOLDERS = ("another_note/2.note/in", "own_note/1.note/in")
# names of reports, and the numbers of the pieces that they tell
NUMBERS = {
    "names/007.out": 7,
    "names/a.9/run2-10.out": 10,
    "names/a.9/run2-10.opb.out": None,
    "names/3": 3,
    "names/.5": 5,
    "names/piece-.out": None,
    "names/7/.out": None,
    "names/7/..out": None,
    "names/4294967296.out": None,
}
UNREADABLE = ("broken.opb", "broken.cubes", "unread/index")  # folders: opened, and then not read
SOCKET = "7.out"  # neither a folder nor opened
UNOPENED = "private.opb"  # a file that nobody may open, but for root
IS_ROOT = os.geteuid() == 0


@dataclass(frozen=True)
class Row:
    """Words, and how the program ends on them. Of an output either all that is written stands here, or its beginning and more parts of
    it."""

    words: str
    out: str | tuple = ""
    err: str | tuple = ""
    status: int = 0
    out_to: str = ""  # a file in place of the standard output
    err_to: str = ""  # and in place of the standard error
    may_write_files: bool = True
    files: dict = field(default_factory=dict)  # the texts of some files that are there afterwards
    absent: tuple = ()  # what is not there then
    given: dict = field(default_factory=dict)  # the texts of files that are made for it


def refused(words, *parts):
    return Row(words, err=("error: ", *parts), status=2)


def refused_number(words, word, range_told, name="pbcube"):
    """A row of a run of this program that refuses a word in place of a number, and names the range before clap tells of the word."""
    return Row(words, err=(f"{name}: {range_told}\nerror: ", f"'{word}'"), status=2)


def helped(words, *parts):
    return Row(words, out=parts)


def unread(words, name):
    """A row of a run of pbcube that cannot read the file of this name, and tells no reason."""
    return Row(words, err=f"pbcube: cannot read {name}\n", status=1)


def unwritten(out_to, *words):
    """Rows of runs of pbcube whose output fails: each has one line, without a reason."""
    return [Row(it, err="pbcube: cannot write\n", status=1, out_to=out_to) for it in words]


def closed(*words):
    """Rows of runs of the other programs that write to a pipe which nobody reads: they end in silence."""
    return [Row(it, status=1, out_to=CLOSED) for it in words]


def unopened(name, *words, why=f": {reason(errno.EACCES)}"):
    """Rows of runs that may not open the file, where there is such a file."""
    told = f"{name}: cannot read {UNOPENED}{why}\n"
    return [] if IS_ROOT else [Row(f"{it} {UNOPENED}".strip(), err=told, status=1) for it in words]


def hinted(words, kind, hint):
    """A row of a run that refuses its text for this fault at line 1, and tells this hint."""
    return Row(words, f"c refused: {kind} at line 1\n{UNSUPPORTED}", f"pbcube: {hint}\n")


def refused_with_hint(name, words, refusal, hint):
    """A row of a run of this program, which tells a refusal of an input and then a hint."""
    return Row(words, err=f"{name}: {refusal}\n{name}: {hint}\n", status=1)


def hinted_on_cubes(name, kind, hint):
    """A row of a run that refuses the second line of this file of cubes, and tells this hint."""
    return Row(f"--cubes {name} tie.opb", f"c refused cubes: {kind} at line 2\n{UNSUPPORTED}", f"pbcube: {name}: {hint}\n")


def refusal(format, text):
    """The report on a text that is refused, by a reader of docs/FORMATS.md."""
    try:
        read(format, text)
    except Refused as fault:
        return f"c refused: {fault}\n{UNSUPPORTED}"
    raise ValueError(f"{text} is not refused")


def hinted_rows():
    """A row for each text that is refused, with all that is said of it."""
    for name, (format, text, hint) in HINTED.items():
        of_file = f"{name} " if (format, text, hint) in BEGUN else ""
        yield Row(f"--format {format} {name}", refusal(format, text), f"pbcube: {of_file}{hint}\n" if hint else "")


def told_version(name, why=f": {NO_ROOM}"):
    told = f"{name} {version()}\n"
    return [Row("--version", told), Row("-V", told), Row("--version", err=f"{name}: cannot write{why}\n", status=1, out_to=FULL)]


# files of cubes that are no text, and what is said of each
FOREIGN_CUBES = (
    ("marked_by_editor.cubes", IS_MARKED),
    ("packed.cubes.gz", "is compressed by gzip: gunzip it first"),
    ("packed.cubes.zip", BY_ZIP),
    ("returns.cubes", BY_CR),
)
# hints that several programs tell
PRODUCT_HINT = f"line 1, column 6: 'x2': {NO_PRODUCT}"
PRODUCT_IN_FILE = f"product.opb: {PRODUCT_HINT}"
IS_STDIN = "/dev/stdin is the name of standard input"
SECOND_OVER_HINT = "second_over.cubes: line 2, column 3: '4': variables are numbered from 1 to 3"
LATE_CUBE_HINT = "late_cube.cnf: line 3, column 1: 'a': write cubes as iCNF, whose header is p inccnf, or into a file of their own"
LATE_CLAUSE_HINT = "late_clause.cnf: line 12: the header says that the number of clauses is 0, but it is 1: write 1 there"
IS_OPB_HINT = "tie.opb begins as OPB: give --format opb"
FEW_HINT = "tie.opb has 3 variables, too few for --split 4"
PRODUCT = hinted("product.opb", "NonLinear", PRODUCT_HINT)
SHORT_HELP = """\
Finds the first optimal solution of a pseudo-Boolean instance

Usage: pbcube [OPTIONS] <FILE>

Arguments:
  <FILE>  File of the instance; /dev/stdin reads standard input

Options:
      --format <FORMAT>  Format of FILE: opb, cnf or icnf [default: opb]
      --workers <W>      Number of threads that share the pieces, 1 to 64 [default: 1]
      --split <K>        Divide the work by the K most frequent variables, 0 to 12 [default: 0]
      --cubes <FILE>     File of cubes that divide the work, with lines `a LITERALS 0`; none by default
      --nodes <B>        Stop each piece after B decisions, 0 to 1000000000; no limit by default
  -h, --help             Print help (see more with '--help')
  -V, --version          Print version
"""
LONG_HELP = """\
Finds an optimal solution of a pseudo-Boolean instance: a feasible assignment of
least cost. If there are several, it is the lexicographically first one (x1 first,
0 before 1). The program writes the cost and the assignment, or that the instance
is infeasible, or what is wrong with the input.

Usage: pbcube [OPTIONS] <FILE>
"""
PBCUBE = [
    Row("tie.opb", SECOND, status=30),
    Row("--format opb --workers 1 --split 0 no_objective.opb", "s SATISFIABLE\nv -x1 x2 -x3\n", status=10),
    Row("none_feasible.opb", "s UNSATISFIABLE\n", status=20),
    Row("--format cnf --workers 3 --split 1 one_clause.cnf", "s SATISFIABLE\nv -1 2 0\n", status=10),
    Row("--format icnf own_cube.icnf", "s SATISFIABLE\nv -1 2 0\n", status=10),
    Row("--cubes good.cubes tie.opb", SECOND, status=30),
    # budgets
    Row("--nodes 0 tie.opb", "s UNKNOWN\n"),
    Row("--nodes 1 tie.opb", "o 3\ns SATISFIABLE\nv x1 -x2 x3\n", status=10),
    Row("--nodes 1000 tie.opb", SECOND, status=30),
    Row("--nodes 1000000000 tie.opb", SECOND, status=30),
    Row("--nodes 0 none_feasible.opb", "s UNSATISFIABLE\n", status=20),
    # refused texts, with a hint where there is one
    PRODUCT,
    hinted("over.opb", "BadVariable", f"line 1, column 8: 'x0': {TO_MOST}"),
    hinted("maximum.opb", "Syntax", f"line 1, column 1: 'max:': {MINIMISE}"),
    hinted("soft.opb", "Syntax", f"line 1, column 1: 'soft:': {NO_SOFT}"),
    hinted("marked.opb", "Syntax", f"marked.opb {IS_MARKED}"),
    hinted("weighted.wcnf", "Unfinished", f"weighted.wcnf {IS_WCNF}"),
    hinted("--format cnf weighted.wcnf", "BadHeader", f"weighted.wcnf {IS_WCNF}"),
    hinted("--format cnf hard.wcnf", "BadHeader", f"hard.wcnf {IS_WCNF}"),
    hinted("packed.xz", "Unfinished", "packed.xz is compressed by xz: unxz it first"),
    hinted("packed.zip", "Unfinished", f"packed.zip {BY_ZIP}"),
    hinted("parts/first.report", "Unfinished", f"parts/first.report {OF_TASK}"),
    hinted("2", "Unfinished", f"2 {OF_RUN}"),
    hinted("packed.bz2", "Unfinished", "packed.bz2 is compressed by bzip2: bunzip2 it first"),
    *hinted_rows(),
    Row("--cubes second_over.cubes tie.opb", f"c refused cubes: BadVariable at line 2\n{UNSUPPORTED}", f"pbcube: {SECOND_OVER_HINT}\n"),
    hinted_on_cubes("word.cubes", "Syntax", f"line 2, column 5: 'x2': {NUMBER}"),
    hinted_on_cubes("zero.cubes", "Unfinished", f"line 2, column 5: '-0': {ZERO}"),
    hinted_on_cubes("marked.cubes", "Syntax", f"line 2, column 1: '#': {LETTERED}"),
    hinted_on_cubes("starred.cubes", "Syntax", f"line 2, column 1: '*': {LETTERED}"),
    Row(
        "--cubes instance.cubes tie.opb",
        f"c refused cubes: Syntax at line 1\n{UNSUPPORTED}",
        f"pbcube: instance.cubes: line 1: {CUBE_LINE}\n",
    ),
    hinted_on_cubes("blank.cubes", "Syntax", f"line 2, column 1: 'a\\xc2\\xa01': {SPACE}"),
    hinted_on_cubes("listed.cubes", "Syntax", f"line 2, column 3: '1,': {SPACE}"),
    *(
        Row(f"--cubes {name} tie.opb", f"c refused cubes: Syntax at line 1\n{UNSUPPORTED}", f"pbcube: {name} {hint}\n")
        for name, hint in FOREIGN_CUBES
    ),
    hinted_on_cubes("headed.cubes", "Syntax", f"line 2, column 1: 'p': {CUBE_LINE}"),
    hinted_on_cubes("clause.cubes", "Syntax", f"line 2: {CUBE_LINE}"),
    hinted_on_cubes("open.cubes", "Unfinished", f"line 2: {CUBE_LINE}"),
    Row(
        "--split 2 --cubes good.cubes none_feasible.opb",
        f"c refused split: BadSplit\n{UNSUPPORTED}",
        "pbcube: none_feasible.opb has 1 variable, too few for --split 2\n",
    ),
    # several workers on one piece
    *(
        Row(f"{words} tie.opb", SECOND, err, 30)
        for words, err in (
            ("--workers 4", ONE_PIECE),
            ("--workers 64 --split 0", ONE_PIECE),
            ("--workers 4 --split 1", ""),
            ("--workers 4 --cubes good.cubes", ""),
            ("--workers 1", ""),
        )
    ),
    Row(
        "one_clause.cnf",
        f"c refused: Unfinished at line 1\n{UNSUPPORTED}",
        "pbcube: one_clause.cnf begins as DIMACS CNF: give --format cnf\n",
    ),
    Row("older_spelling.opb", f"c refused: Syntax at line 2\n{UNSUPPORTED}", f"pbcube: line 2, column 1: '+1*x1': {PART}\n"),
    Row(
        "--format cnf tie.opb",
        f"c refused: BadHeader at line 1\n{UNSUPPORTED}",
        "pbcube: tie.opb begins as OPB: give --format opb\n",
    ),
    # files that are not there or cannot be read: both are opened before one is read, and the input is first in each
    unread("none.opb", "none.opb"),
    unread("broken.opb", "broken.opb"),
    unread("./none.opb", "./none.opb"),
    unread("''", ""),
    refused_with_hint("pbcube", "-", "cannot read -", IS_STDIN),
    unread("--workers 4 broken.opb", "broken.opb"),
    unread("--cubes none.cubes tie.opb", "none.cubes"),
    unread("--cubes broken.cubes tie.opb", "broken.cubes"),
    unread("--cubes none.cubes none.opb", "none.opb"),
    unread("--cubes none.cubes broken.opb", "none.cubes"),
    unread("--cubes broken.cubes broken.opb", "broken.opb"),
    Row("--cubes broken.cubes product.opb", PRODUCT.out, PRODUCT.err),
    *unopened("pbcube", "", "--cubes none.cubes", why=""),
    # outputs that fail: the standard error's is ignored
    *unwritten(CLOSED, "tie.opb", "none_feasible.opb", "product.opb", "--workers 2 --split 1 tie.opb", "--help", "--version"),
    *unwritten(FULL, "tie.opb", "none_feasible.opb", "product.opb", "--help"),
    Row("none.opb", status=1, err_to=FULL),
    Row("--nothing", status=2, err_to=FULL),
    Row("tie.opb", status=1, out_to=FULL, err_to=FULL),
    # refused words
    refused("", "<FILE>"),
    refused("tie.opb product.opb", "'product.opb'"),
    refused("'' tie.opb", "'tie.opb'"),
    refused("--workers 0 tie.opb", "0 is not in 1..=64"),
    refused("--workers 65 tie.opb", "65 is not in 1..=64"),
    refused_number("--workers two tie.opb", "two", "--workers takes a number from 1 to 64"),
    refused("--split 13 tie.opb", "13 is not in 0..=12"),
    refused_number("--split -1 tie.opb", "-1", "--split takes a number from 0 to 12"),
    refused("--nodes 1000000001 tie.opb", "1000000001 is not in 0..=1000000000"),
    *(
        refused_number(f"--nodes{words} tie.opb", word, "--nodes takes a number from 0 to 1000000000")
        for words, word in ((" -1", "-1"), ("=-1", "-1"), (" x", "x"), ("=1e3", "1e3"), (f" {10**20}", 10**20))
    ),
    refused_number("--workers -4 tie.opb", "-4", "--workers takes a number from 1 to 64"),
    refused("--split 99 tie.opb", "99 is not in 0..=12"),
    refused("-1 tie.opb", "'-1'"),
    refused("--split 1 --split 2 tie.opb", "multiple times"),
    refused("--format wbo tie.opb", "opb, cnf and icnf"),
    refused("--format OPB tie.opb", "opb, cnf and icnf"),
    refused("--format '' tie.opb", "opb, cnf and icnf"),
    refused("--nothing tie.opb", "'--nothing'"),
    refused("tie.opb --cubes", "--cubes"),
    Row("-h", SHORT_HELP),
    helped(
        "--help",
        LONG_HELP,
        "(see a summary with '-h')\n\n  -V, --version\n          Print version\n\nCubes and the split divide the work",
        "--format <FORMAT>",
        "--workers <W>",
        "--split <K>",
        "--nodes <B>",
        "pbcube --format cnf formula.cnf",
        "30  s OPTIMUM FOUND",
        "20  s UNSATISFIABLE",
        "10  s SATISFIABLE",
        " 0  s UNSUPPORTED",
        " 1  a file cannot be opened",
        " 2  the command line is refused",
    ),
    *told_version("pbcube", why=""),
]


IN_PIECES = "* #variable= 4 #constraint= 4\nmin: 2 x1 -3 ~x2 1 x3 ;\n1 x1 1 x2 >= 1 ;\n1 x2 -1 ~x3 >= 2 ;\n"  # SPELLED, in each piece
PIECE_TEXTS = {
    "spelled/0.opb": IN_PIECES + "1 x1 >= 1 ;\n1 ~x2 >= 1 ;\n",
    "spelled/2.opb": IN_PIECES + "1 ~x1 1 x2 >= 1 ;\n1 x4 >= 1 ;\n",
    "wide/1.opb": "* #variable= 2 #constraint= 3\n" + WIDE + ">= 1 ;\n",
    "clauses/0.cnf": "p cnf 12 4\n1 -2 0\n0\n3 0\n-12 0\n",
    "own/2.cnf": "p cnf 5 3\n1 -2 0\n-3 5 0\n-1 0\n",
}


def pieces_row(words, out, pieces):
    """A row of a run that writes `pieces` pieces, and what some of them are."""
    files = {name: text for name, text in PIECE_TEXTS.items() if name.startswith(f"{out}/")}
    return Row(f"--out {out} {words}", f"pieces {pieces}\n", files=files)


TIE_WITH_CUBE = TIE.replace("#constraint= 2", "#constraint= 3") + "1 x2 >= 1 ;\n"
PIECES = [
    Row("--out one/new tie.opb", "pieces 1\n", files={"one/new/0.opb": TIE}),
    Row("--split 3 --cubes good.cubes --out ten tie.opb", "pieces 10\n"),
    Row("--format icnf --out two own_cube.icnf", "pieces 2\n"),
    Row(
        "--format icnf --cubes nine.cubes --out eleven own_cubes.icnf",
        "pieces 11\n",
        files={"eleven/index": index_of(OWN_CUBES, "cnf", 20, 11)},
    ),
    Row("--cubes hundred.cubes --out hundred tie.opb", "pieces 101\n", files={"hundred/007.opb": TIE_WITH_CUBE}),
    pieces_row("--cubes two.cubes spelled.opb", "spelled", 3),
    pieces_row("--cubes empty.cubes wide.opb", "wide", 2),
    pieces_row("--format cnf --cubes twelve.cubes two_clauses.cnf", "clauses", 2),
    pieces_row("--format icnf five.icnf", "own", 3),
    Row("--out untold tie.opb", err=f"pbcube_pieces: cannot write: {NO_ROOM}\n", status=1, out_to=FULL, files={"untold/0.opb": TIE}),
    Row("--out pieces none.opb", err=f"pbcube_pieces: cannot read none.opb: {MISSING}\n", status=1),
    *(
        refused_with_hint("pbcube_pieces", f"{words} --out pieces {name}", refusal, hint)
        for words, name, refusal, hint in (
            ("", "product.opb", "product.opb: NonLinear at line 1", PRODUCT_IN_FILE),
            ("--format cnf", "late_clause.cnf", "late_clause.cnf: TooManyClauses at line 12", LATE_CLAUSE_HINT),
            ("--format cnf", "late_cube.cnf", "late_cube.cnf: TooManyClauses at line 3", LATE_CUBE_HINT),
            ("--cubes second_over.cubes", "tie.opb", "second_over.cubes: BadVariable at line 2", SECOND_OVER_HINT),
            ("--cubes word.cubes", "tie.opb", "word.cubes: Syntax at line 2", f"word.cubes: line 2, column 5: 'x2': {NUMBER}"),
            ("--split 4", "tie.opb", "the split is over more variables than there are", FEW_HINT),
            ("--format cnf", "tie.opb", "tie.opb: BadHeader at line 1", IS_OPB_HINT),
            ("", "parts/first.report", "parts/first.report: Unfinished at line 1", f"parts/first.report {OF_TASK}"),
            *((f"--cubes {it}", "tie.opb", f"{it}: Syntax at line 1", f"{it} {hint}") for it, hint in FOREIGN_CUBES),
        )
    ),
    # folders and files that cannot be made or written
    Row("--out product.opb tie.opb", err=f"pbcube_pieces: cannot use product.opb: {reason(errno.EEXIST)}\n", status=1),
    Row("--out with_index tie.opb", err="pbcube_pieces: with_index holds an index already: remove it, or name another folder\n", status=1),
    Row(
        "--split 1 --out with_piece tie.opb",
        err=f"pbcube_pieces: cannot write with_piece/0.opb: {reason(errno.EEXIST)}\n"
        "pbcube_pieces: remove the pieces that the folder holds, or name another folder\n",
        status=1,
        files={"with_piece/0.opb": "kept\n"},
    ),
    Row(
        "--out unwritten tie.opb",
        err=f"pbcube_pieces: cannot write unwritten/0.opb: {reason(errno.EFBIG)}\n",
        status=1,
        may_write_files=False,
    ),
    Row("--help", err=f"pbcube_pieces: cannot write: {NO_ROOM}\n", status=1, out_to=FULL),
    Row("--out unread_by_any tie.opb", status=1, out_to=CLOSED, files={"unread_by_any/0.opb": TIE}),
    *closed("--help"),
    *unopened("pbcube_pieces", "--out pieces"),
    refused("tie.opb", "error: the following required arguments were not provided"),
    *(
        refused_number(f"--split{words} --out pieces tie.opb", word, "--split takes a number from 0 to 12", "pbcube_pieces")
        for words, word in ((" -1", "-1"), ("=-1", "-1"), (" x", "x"))
    ),
    refused("--nodes -1 --out pieces tie.opb", "'--nodes'"),
    refused("--out '' tie.opb", "'--out <DIR>'"),
    refused("--out= tie.opb", "'--out"),
    refused_with_hint("pbcube_pieces", "--out pieces -", f"cannot read -: {MISSING}", IS_STDIN),
    *told_version("pbcube_pieces"),
]


def digest_of(name):
    return digest(FILES[name])


NOTE = f"pbcube note of instance {digest_of('tie.opb')}\ncost 3\nvalues 010\n"
ONE_PIECE_OF_TASK = ONE_PIECE.replace("pbcube", "pbcube_task", 1)
WITHOUT_NOTES = "pbcube_task: cannot use tie.opb, so task 0 exchanges no assignments: "
TASK = [
    Row("--task 0 --tasks 1 tie.opb", part("0 of 1", FILES["tie.opb"], "1 split 0 cubes none", " 0") + ATTAINED, status=10),
    Row("--split 1 --task 1 --tasks 2 tie.opb", part("1 of 2", FILES["tie.opb"], "3 split 1 cubes none", " 1") + ATTAINED, status=10),
    Row("--split 1 --task 2 --tasks 3 tie.opb", part("2 of 3", FILES["tie.opb"], "3 split 1 cubes none", " 2") + ATTAINED, status=10),
    Row("--split 1 --nodes 9 --task 2 --tasks 3 tie.opb", part("2 of 3", FILES["tie.opb"], "3 split 1 cubes none", " 2") + "s UNKNOWN\n"),
    Row(
        "--cubes good.cubes --workers 2 --task 1 --tasks 2 tie.opb",
        part("1 of 2", FILES["tie.opb"], f"2 split 0 cubes {digest_of('good.cubes')}", " 1") + ATTAINED,
        ONE_PIECE_OF_TASK,
        10,
    ),
    # several workers on one piece of a task, or on two
    *(
        Row(f"--workers {workers} --split 1 --task {task} --tasks {tasks} tie.opb", part(f"{task} of {tasks}", TIE, IN_THREE, done) + claim, err, 10)
        for workers, task, tasks, done, claim, err in (
            (4, 1, 2, " 1", ATTAINED, ONE_PIECE_OF_TASK),
            (2, 2, 3, " 2", ATTAINED, ONE_PIECE_OF_TASK),
            (1, 1, 2, " 1", ATTAINED, ""),
        )
    ),
    Row("--workers 2 --split 1 --task 0 --tasks 2 tie.opb", (part("0 of 2", TIE, IN_THREE, " 0 2"),), status=10),
    Row(
        "--workers 4 --task 0 --tasks 1 tie.opb",
        part("0 of 1", TIE, "1 split 0 cubes none", " 0") + ATTAINED,
        ONE_PIECE_OF_TASK,
        10,
    ),
    Row(
        "--workers 4 --task 5 --tasks 9 tie.opb",
        part("5 of 9", TIE, "1 split 0 cubes none", "") + "s UNKNOWN\n",
        "pbcube_task: none of the 1 pieces is of task 5\n",
    ),
    Row(
        "--format icnf --task 0 --tasks 4294967295 own_cube.icnf",
        part("0 of 4294967295", FILES["own_cube.icnf"], "2 split 0 cubes none", " 0") + "s SATISFIABLE\nv -1 2 0\n",
        status=10,
    ),
    Row(
        "--format icnf --nodes 9 --task 0 --tasks 4294967295 own_cube.icnf",
        part("0 of 4294967295", FILES["own_cube.icnf"], "2 split 0 cubes none", " 0") + "s SATISFIABLE\nv 1 -2 0\n",
        status=10,
    ),
    Row("--task 0 --tasks 1 none_feasible.opb", part("0 of 1", FILES["none_feasible.opb"], "1 split 0 cubes none", " 0") + "s UNKNOWN\n"),
    Row("--nodes 0 --task 0 --tasks 1 tie.opb", part("0 of 1", FILES["tie.opb"], "1 split 0 cubes none", "", " 0") + "s UNKNOWN\n"),
    Row(
        "--task 5 --tasks 9 --exchange unmade tie.opb",
        part("5 of 9", FILES["tie.opb"], "1 split 0 cubes none", "") + "s UNKNOWN\n",
        "pbcube_task: none of the 1 pieces is of task 5\n",
    ),
    Row(
        "--cubes good.cubes --split 12 --task 4098 --tasks 4099 twelve.opb",
        part("4098 of 4099", FILES["twelve.opb"], f"4098 split 12 cubes {digest_of('good.cubes')}", "") + "s UNKNOWN\n",
        "pbcube_task: none of the 4098 pieces is of task 4098\n",
    ),
    # notes
    Row(
        "--task 0 --tasks 1 --exchange some/notes tie.opb",
        part("0 of 1", FILES["tie.opb"], "1 split 0 cubes none", " 0") + ATTAINED,
        status=10,
        files={"some/notes/0.note": NOTE},
    ),
    # a link in the place of a draft: nothing is written through it
    Row(
        "--task 0 --tasks 1 --exchange linked tie.opb",
        part("0 of 1", FILES["tie.opb"], "1 split 0 cubes none", " 0") + ATTAINED,
        status=10,
        files={"linked/0.note": NOTE},
        absent=("linked/outside", "linked/0.0.new"),
    ),
    # notes that are no files: one line tells of all faults
    *(
        Row(
            f"--split 1 --task 1 --tasks 3 --exchange {folder} tie.opb",
            part("1 of 3", FILES["tie.opb"], IN_THREE, " 0 1 2") + ATTAINED,
            f"pbcube_task: cannot exchange {folder}/{note}: invalid input parameter\n",
            10,
            files=files,
        )
        for folder, note, files in (
            ("endless", "0.note", {"endless/1.note": NOTE}),
            ("another_note", "2.note", {"another_note/1.note": NOTE}),
            ("own_note", "1.note", {}),
        )
    ),
    Row(
        "--task 0 --tasks 1 --exchange tie.opb tie.opb",
        part("0 of 1", FILES["tie.opb"], "1 split 0 cubes none", " 0") + ATTAINED,
        (WITHOUT_NOTES,),
        10,
    ),
    # refused texts, and files that are not there or cannot be read
    *(
        Row(f"{words} --task 0 --tasks 1 {name}", f"c refused{refusal}\n{UNSUPPORTED}", f"pbcube_task: {hint}\n")
        for words, name, refusal, hint in (
            ("", "product.opb", ": NonLinear at line 1", PRODUCT_IN_FILE),
            ("--cubes second_over.cubes", "tie.opb", " cubes: BadVariable at line 2", SECOND_OVER_HINT),
            ("--split 4", "tie.opb", " split: BadSplit", FEW_HINT),
            ("--format cnf", "tie.opb", ": BadHeader at line 1", IS_OPB_HINT),
            ("", "out/0.out", ": Unfinished at line 1", f"out/0.out {OF_RUN}"),
            *((f"--cubes {it}", "tie.opb", " cubes: Syntax at line 1", f"{it} {hint}") for it, hint in FOREIGN_CUBES),
        )
    ),
    Row("--task 0 --tasks 1 product.opb", err=f"pbcube_task: cannot write: {NO_ROOM}\n", status=1, out_to=FULL),
    Row("--task 0 --tasks 1 none.opb", err=f"pbcube_task: cannot read none.opb: {MISSING}\n", status=1),
    Row("--task 0 --tasks 1 broken.opb", err=f"pbcube_task: cannot read broken.opb: {FOLDER}\n", status=1),
    Row("--cubes none.cubes --task 0 --tasks 1 tie.opb", err=f"pbcube_task: cannot read none.cubes: {MISSING}\n", status=1),
    # outputs that fail
    Row("--task 0 --tasks 1 tie.opb", err=f"pbcube_task: cannot write: {NO_ROOM}\n", status=1, out_to=FULL),
    Row("--help", err=f"pbcube_task: cannot write: {NO_ROOM}\n", status=1, out_to=FULL),
    *closed("--task 0 --tasks 1 tie.opb", "--task 0 --tasks 1 product.opb", "--help"),
    *unopened("pbcube_task", "--task 0 --tasks 1"),
    Row("--task 0 --tasks 1 none.opb", status=1, err_to=FULL),
    # refused words
    refused("--task 0 tie.opb", "--tasks <T>"),
    refused("--tasks 1 tie.opb", "--task <I>"),
    refused("--task 0 --tasks 0 tie.opb", "0 is not in 1..=4294967295"),
    refused("--task 0 --tasks 4294967296 tie.opb", "4294967296 is not in 1..=4294967295"),
    refused("--task 1 --tasks 1 tie.opb", "tasks are numbered from 0, so --task has to be below --tasks"),
    refused("--task 0 --tasks 1 --exchange '' tie.opb", "'--exchange <DIR>'"),
    refused("--task 0 --tasks 1 --exchange= tie.opb", "'--exchange"),
    refused("--format wcnf --task 0 --tasks 1 tie.opb", "opb, cnf and icnf"),
    refused("--workers 65 --task 0 --tasks 1 tie.opb", "65 is not in 1..=64"),
    *(
        refused_number(f"{words} tie.opb", word, f"{told}", "pbcube_task")
        for words, word, told in (
            ("--task -1 --tasks 1", "-1", "--task takes a number from 0 to 4294967295"),
            ("--task 0 --tasks=x", "x", "--tasks takes a number from 1 to 4294967295"),
            ("--nodes=-1 --task 0 --tasks 1", "-1", "--nodes takes a number from 0 to 1000000000"),
            ("--split x --task 0 --tasks 1", "x", "--split takes a number from 0 to 12"),
            ("--workers -1 --task 0 --tasks 1", "-1", "--workers takes a number from 1 to 64"),
        )
    ),
    refused_with_hint("pbcube_task", "--task 0 --tasks 1 -", f"cannot read -: {MISSING}", IS_STDIN),
    *told_version("pbcube_task"),
]


def states(pieces, cut=()):
    """What is said of these pieces, of which some were cut and no other one has a report."""
    said = {number: "was not solved to its end" if number in cut else "has no report" for number in pieces}
    return "".join(f"pbcube_join: piece {number} {it}\n" for number, it in said.items()) + run_again("pieces", pieces)


def run_refused(name):
    """The line on a report of pieces whose run refused its input."""
    return f"pbcube_join: {name}: its run refused its input\n"


def again(*tasks):
    """What is said of tasks that have to be run again."""
    return run_again("tasks", tasks)


UNNUMBERED = "the name has no number of a piece before its last dot: name the report of piece 7 7.report, and leave out that of a whole run or of a join"


def number_row(name, number):
    words = f"--pieces 12 tie.opb {name}"
    if number is None:
        return rejected(words, f"{name}: {UNNUMBERED}")
    return Row(words, "s UNKNOWN\n", states(range(12), [number]))


def rejected(words, why):
    return Row(words, err=f"pbcube_join: {why}\n", status=1)


def of_task(task, done, claim, cut="", tasks=2, division=IN_THREE, text=TIE):
    """The report of one of `tasks` tasks, which has done these pieces."""
    return part(f"{task} of {tasks}", text, division, done, cut) + claim


# what is said of a task without a part
REFUSED, NOTHING = "its run refused its input", "the task searched nothing"
FIRST_PART = of_task(0, " 0 2", FIRST_ATTAINED)
# an instance, the numbers of some pieces with their reports, and what these make, or the place of the one that is rejected, and why
OF_THREE_PIECES = [
    ("tie.opb", [(0, FIRST), (2, NONE)], FIRST_ATTAINED, states([1]), 10),
    ("tie.opb", [(0, FIRST), (1, WORSE), (2, NONE)], FIRST_ATTAINED, states([1], [1]), 10),
    ("tie.opb", [(0, UNKNOWN), (1, UNSUPPORTED), (2, NONE)], UNKNOWN, run_refused("of_pieces/2/1-1.out") + states([0, 1], [0, 1])),
    ("tie.opb", [(0, FIRST), (1, ""), (2, NONE)], FIRST_ATTAINED, states([1]), 10),
    # the second report of a piece counts where the first is empty
    ("tie.opb", [(1, ""), (0, FIRST), (1, SECOND), (2, NONE)], SECOND, "", 30),
    ("tie.opb", [(0, ""), (0, ""), (5, "")], UNKNOWN, NO_REPORT + states([0, 1, 2])),
    ("tie.opb", [(1, ""), (0, FIRST), (0, FIRST)], 2, "there are two reports of this piece", 1),
    ("tie.opb", [], UNKNOWN, NO_REPORT + states([0, 1, 2])),
    ("tie.opb", [(0, NONE), (1, NONE), (2, NONE)], NONE, "", 20),
    ("free.opb", [(0, NONE), (1, FEASIBLE), (2, NONE)], FEASIBLE, "", 10),
    ("tie.opb", [(0, FIRST), (1, SECOND), (0, FIRST)], 2, "there are two reports of this piece", 0),
    ("tie.opb", [(0, FIRST), (1, SECOND), (1, SECOND)], 2, "there are two reports of this piece", 1),
    ("tie.opb", [(3, FIRST)], 0, "no piece has this number"),
    *(
        ("tie.opb", [(0, FIRST), (1, of_task(1, " 1", claim, tasks=7))], 1, "it is the report of a task: give --tasks 7")
        for claim in (ATTAINED, "")
    ),
    # that of a task on a piece alone
    ("free.opb", [(0, of_task(0, " 0", FEASIBLE, tasks=1, text=TIE))], FEASIBLE, states([1, 2]), 10),
    ("tie.opb", [(0, "s OPTIMUM FOUND\nv -x1 -x2 x3\n")], 0, "the assignment is infeasible"),
    ("tie.opb", [(2, NONE), (0, FIRST.replace("o 3", "o 2"))], 1, "the o line is not the cost of the assignment"),
    ("pair.opb", [(0, SECOND)], 0, "BadVariable at line 3"),
]
# the same, of reports of tasks: the first has the pieces 0 and 2, the second has piece 1
OF_TWO_TASKS = [
    # the second task found nothing that is better than what the first one lent it
    ("tie.opb", [of_task(0, " 0 2", ATTAINED), of_task(1, " 1", ATTAINED)], SECOND, "", 30),
    ("tie.opb", [FIRST_PART], FIRST_ATTAINED, again(1), 10),
    ("tie.opb", [of_task(0, " 0", FIRST_ATTAINED, " 2"), of_task(1, " 1", WORSE)], FIRST_ATTAINED, again(0), 10),
    # the pieces 0 and 1 are named by no report
    ("tie.opb", [of_task(0, " 2", UNKNOWN), of_task(1, "", UNKNOWN)], UNKNOWN, in_no_report([0, 1]) + again(0, 1)),
    ("tie.opb", [], UNKNOWN, NO_REPORT + again(0, 1)),
    ("tie.opb", ["", of_task(1, " 1", ATTAINED)], ATTAINED, again(0), 10),
    ("tie.opb", ["", "", of_task(1, " 1", ATTAINED), of_task(0, " 0 2", FIRST_ATTAINED)], SECOND, "", 30),
    ("tie.opb", ["", FIRST_PART, FIRST_PART], 2, "there are two reports of this task", 1),
    ("tie.opb", ["", ""], UNKNOWN, NO_REPORT + again(0, 1)),
    ("tie.opb", [of_task(0, " 0 2", UNKNOWN), of_task(1, " 1", UNKNOWN)], NONE, "", 20),
    ("free.opb", [of_task(0, " 0 2", UNKNOWN, text=FREE), of_task(1, " 1", FEASIBLE, text=FREE)], FEASIBLE, "", 10),
    ("tie.opb", [of_task(0, " 0 2", FIRST_ATTAINED, text=FREE)], 0, "the part is of another instance"),
    ("tie.opb", [of_task(0, " 0", FIRST_ATTAINED, tasks=3)], 0, "the part is of 3 tasks, and --tasks tells 2"),
    *(
        ("tie.opb", [FIRST_PART, of_task(1, " 1", ATTAINED, division=other)], 1, "the first part is of other pieces", 0)
        for other in ("4 split 1 cubes none", f"3 split 1 cubes {digest(FREE)}")
    ),
    (
        "tie.opb",
        [of_task(0, " 0", FIRST_ATTAINED), of_task(1, " 1", ATTAINED), of_task(0, " 2", UNKNOWN)],
        2,
        "there are two reports of this task",
        0,
    ),
    *(("tie.opb", [of_task(0, " 0 2", claim)], 0, "a part has no such answer") for claim in (NONE, UNSUPPORTED)),
    ("tie.opb", [of_task(0, " 0 2", "o 1\ns SATISFIABLE\nv -x1 -x2 x3\n")], 0, "the assignment is infeasible"),
    (
        "tie.opb",
        [of_task(1, " 1", ATTAINED), of_task(0, " 0 2", FIRST_ATTAINED.replace("o 3", "o 2"))],
        1,
        "the o line is not the cost of the assignment",
    ),
]


def joined(words, folder, cases):
    """A row for each of these cases, whose reports stand in files of their own. Of a report that does not go with an earlier one the
    place of that is told too."""
    for at, (instance, reports, *end) in enumerate(cases):
        given = {f"{folder}/{at}/{place}-{number}.out": text for place, (number, text) in enumerate(reports)}
        line = " ".join([words, instance, *given])
        if isinstance(end[0], int):
            place, why, *other = end
            told = "".join(f": see {[*given][it]}" for it in other)
            yield Row(line, err=f"pbcube_join: {[*given][place]}: {why}{told}\n", status=1, given=given)
        else:
            yield Row(line, *end, given=given)


JOIN = [
    *joined("--pieces 3", "of_pieces", OF_THREE_PIECES),
    *joined("--tasks 2", "of_tasks", [(instance, enumerate(reports), *end) for instance, reports, *end in OF_TWO_TASKS]),
    Row("--pieces 3 tie.opb 2 out/0.out piece-001.out", SECOND, status=30),
    Row(
        "--pieces 3 tie.opb out/0.out cut-1.out",
        "o 3\ns SATISFIABLE\nv x1 -x2 x3\n",
        states([1, 2], [1]),
        10,
    ),
    Row("--format cnf --pieces 1 clause.cnf clause-0.out", "s SATISFIABLE\nv -1 2 0\n", status=10),
    Row("--pieces 1 tie.opb", "s UNKNOWN\n", NO_REPORT + states([0])),
    # folders
    Row("--pieces 3 tie.opb 2 reports", SECOND, status=30),
    Row("--pieces 1 tie.opb empty", "s UNKNOWN\n", NO_REPORT + states([0])),
    rejected("--pieces 1 tie.opb none", f"cannot read none: {MISSING}"),
    # folders with an index
    Row("tie.opb cut", SECOND, status=30),
    Row("--pieces 3 tie.opb cut", SECOND, status=30),
    Row("tie.opb cut_in_two out/0.out piece-001.out", SECOND, status=30),
    rejected("--pieces 2 tie.opb cut", "cut/index: it is of 3 pieces, and not of 2"),
    rejected("--pieces 1048576 tie.opb cut", "cut/index: it is of 3 pieces, and not of 1048576"),
    rejected("tie.opb cut cut_in_two", "cut_in_two/index: it is of 2 pieces, and not of 3"),
    rejected("tie.opb edited", "edited/index: the instance is not the text that was cut: the digest at line 4 is another"),
    rejected("tie.opb broken", "broken/index: line 1 tells no number of pieces"),
    rejected("--pieces 1 tie.opb broken", "broken/index: line 1 tells no number of pieces"),
    rejected("tie.opb with_index", "with_index/index: line 1 tells no number of pieces"),
    rejected("tie.opb too_many", "too_many/index: line 1 tells no number of pieces"),
    # the digest is looked at first
    rejected("--pieces 2 tie.opb edited", "edited/index: the instance is not the text that was cut: the digest at line 4 is another"),
    rejected("tie.opb another", "another/index: the instance is not the text that was cut: the digest at line 4 is another"),
    rejected("tie.opb torn", "torn/index: line 3 is not that of an index of the instance"),
    rejected("tie.opb longer", "longer/index: line 6 is not that of an index of the instance"),
    rejected("tie.opb unread", f"unread/index: cannot be read: {FOLDER}"),
    rejected("tie.opb reports", "the number of pieces is told neither by --pieces nor by an index"),
    rejected("tie.opb", "the number of pieces is told neither by --pieces nor by an index"),
    rejected("tie.opb parts", "parts/first.report: it is the report of a task: give --tasks 2"),
    rejected(f"tie.opb {SOCKET} empty.part out/0.out few.part", "few.part: it is the report of a task: give --tasks 5"),
    rejected("tie.opb edited.part", "the number of pieces is told neither by --pieces nor by an index"),
    # reports that are rejected
    rejected("--pieces 3 tie.opb out/0.out again-0.out", "again-0.out: there are two reports of this piece: see out/0.out"),
    rejected("--pieces 3 tie.opb 2 out/0.out out/0.out", "out/0.out: the file is named twice"),
    rejected("--pieces 3 tie.opb told-1.out", f"told-1.out: Syntax at line 4: the line is '{ONE_PIECE[:60]}'"),
    rejected("--pieces 3 tie.opb torn-1.out", "torn-1.out: Unfinished at line 3"),
    rejected("--pieces 3 tie.opb failed-1.out", "failed-1.out: Syntax at line 1: its first line is 'Killed\\x07'"),
    # reports that are no text, or not as this system writes texts
    *(
        rejected(f"--pieces 3 tie.opb {name}", f"{name}: {fault}: {clue}")
        for name, fault, clue in (
            ("packed-1.out", "Syntax at line 1", "it is compressed by gzip: gunzip it first"),
            ("packed-2.out", "Syntax at line 1", f"it {BY_ZIP}"),
            ("wide-1.out", "Syntax at line 1", f"it {IS_MARKED}"),
            ("marked-1.out", "Syntax at line 1", f"it {IS_MARKED}"),
            ("returns-1.out", "Syntax at line 1", f"it {BY_CR}"),
        )
    ),
    rejected("--pieces 3 tie.opb binary-1.out", "binary-1.out: Syntax at line 1"),
    rejected("--pieces 3 tie.opb silent-1.out", "silent-1.out: NoStatus at line 2: its first line is 'c a solver'"),
    Row("--pieces 3 tie.opb empty-1.out", "s UNKNOWN\n", NO_REPORT + states([0, 1, 2])),
    rejected("--pieces 3 tie.opb blank-1.out", "blank-1.out: NoStatus at line 1"),
    rejected("--pieces 3 tie.opb long-1.out", f"long-1.out: NoStatus at line 1: its first line is 'c {58 * 'x'}'"),
    rejected("--pieces 3 tie.opb wrong-1.out", "wrong-1.out: the o line is not the cost of the assignment"),
    rejected("--pieces 3 tie.opb report.out", f"report.out: {UNNUMBERED}"),
    rejected(f"--pieces 3 tie.opb {SOCKET}", f"{SOCKET}: cannot be read: {reason(errno.ENXIO)}"),
    rejected("--pieces 1 none.opb", f"cannot read none.opb: {MISSING}"),
    # reports of tasks
    Row("--tasks 2 tie.opb parts", SECOND, status=30),
    Row("--tasks 2 tie.opb parts/second.report parts/first.report", SECOND, status=30),
    Row("--tasks 2 tie.opb parts/first.report cut.part", "o 3\ns SATISFIABLE\nv x1 -x2 x3\n", again(1), 10),
    Row("--tasks 2 tie.opb parts/second.report", ATTAINED, again(0), 10),
    Row("--tasks 5 tie.opb few.part", SECOND, status=30),
    Row("--tasks 3 tie.opb", "s UNKNOWN\n", NO_REPORT + again(0, 1, 2)),
    Row("--tasks 1 tie.opb empty", "s UNKNOWN\n", NO_REPORT + again(0)),
    # a task has done pieces that are dealt to another one: that one has a report without them, none, or one that names them too
    Row("--tasks 2 tie.opb others.part unnamed.part", SECOND, status=30),
    Row("--tasks 2 tie.opb all.part", SECOND, status=30),
    Row("--tasks 2 tie.opb others.part parts/first.report", SECOND, status=30),
    Row("--tasks 5 tie.opb dealt_none.part", SECOND, status=30),
    Row("--tasks 5 tie.opb dealt_none.part idle.part", SECOND, status=30),
    Row("--tasks 2 tie.opb others_cut.part parts/first.report", SECOND, status=30),
    # or its report is lost, or cut
    Row("--tasks 2 tie.opb others.part", ATTAINED, again(0), 10),
    Row("--tasks 2 tie.opb unnamed.part", ATTAINED, again(1), 10),
    Row("--tasks 2 tie.opb others_cut.part unnamed.part", ATTAINED, again(1), 10),
    Row("--tasks 2 tie.opb unnamed.part cut.part", ATTAINED, again(1), 10),
    Row("--tasks 5 tie.opb idle.part", "s UNKNOWN\n", again(1, 2, 3, 4)),
    # or each task has a report, and pieces are in none
    Row("--tasks 2 tie.opb parts/second.report unnamed.part", ATTAINED, in_no_report([2]) + again(0), 10),
    Row("--tasks 2 tie.opb third.part fourth.part", ATTAINED, in_no_report([0, 1, 2, 5, 6, 7]) + again(0, 1), 10),
    rejected("--tasks 2 tie.opb named_twice.part", "named_twice.part: NotRising at line 3"),
    rejected("--tasks 2 tie.opb done_and_cut.part", "done_and_cut.part: DoneAndCut at line 4"),
    rejected("--tasks 2 tie.opb beyond.part", "beyond.part: NoSuchPiece at line 3"),
    rejected("--tasks 2 tie.opb cut.part cut.part", "cut.part: the file is named twice"),
    rejected("--tasks 2 tie.opb cut.part parts", "parts/second.report: there are two reports of this task: see cut.part"),
    rejected("--tasks 2 tie.opb parts/first.report edited.part", "edited.part: the part is of another instance"),
    rejected("--tasks 2 tie.opb wider.part", "wider.part: the part is of another instance"),
    # every task refused the same, or not every one
    *(
        Row(f"--tasks {len(names.split())} tie.opb {names}", PARTS[names.split()[0]], ALL_REFUSED)
        for names in ("refused.part refused_again.part", "refused_cubes.part", "refused_number.part", "refused_line.part")
    ),
    rejected("--tasks 2 tie.opb refused.part refused.part", "refused.part: the file is named twice"),
    # of other instances
    rejected(
        "--tasks 2 twelve.opb refused.part refused_again.part",
        "refused.part: its run refused the split of another instance: the 12 variables of this one are enough for any",
    ),
    Row("--tasks 1 twelve.opb refused_number.part", PARTS["refused_number.part"], ALL_REFUSED),
    *(
        Row(f"--tasks {len(names.split())} product.opb {names}", PARTS["refused_input.part"], ALL_REFUSED)
        for names in ("refused_input.part", "refused_input.part refused_input.part")
    ),
    Row("--tasks 1 --format cnf tie.opb bad_header.part", PARTS["bad_header.part"], ALL_REFUSED),
    Row("--tasks 1 product.opb refused_input.part", err=f"pbcube_join: cannot write: {NO_ROOM}\n", status=1, out_to=FULL),
    *(
        refused_with_hint("pbcube_join", f"--tasks {tasks} product.opb {names}", "product.opb: NonLinear at line 1", PRODUCT_IN_FILE)
        for tasks, names in (
            (2, "refused_input.part"),
            (1, "refused_input.part refused_input.part"),
            (2, "refused_input.part refused_second.part"),
            (2, "refused_second.part refused_second.part"),
            (2, "refused_input.part empty.part"),
            (2, f"refused_input.part {SOCKET}"),
            (1, "refused.part"),
            (1, "none"),
        )
    ),
    Row("--tasks 1 tie.opb refused.part", err=f"pbcube_join: cannot write: {NO_ROOM}\n", status=1, out_to=FULL),
    *(
        rejected(f"--tasks {tasks} tie.opb {names}", f"{refused}.part: {what}: 'c refused{why}'")
        for what, tasks, names, refused, why in (
            (REFUSED, 3, "refused.part refused.part", "refused", " split: BadSplit"),
            (REFUSED, 1, "refused.part refused.part", "refused", " split: BadSplit"),
            (REFUSED, 2, "refused.part refused_cubes.part", "refused", " split: BadSplit"),
            (REFUSED, 2, "refused.part parts/first.report", "refused", " split: BadSplit"),
            (REFUSED, 2, "parts/first.report refused.part", "refused", " split: BadSplit"),
            (REFUSED, 2, f"refused.part {SOCKET}", "refused", " split: BadSplit"),
            (REFUSED, 2, "refused.part empty.part", "refused", " split: BadSplit"),
            (NOTHING, 1, "refused_torn.part", "refused_torn", " split: BadSplit"),
            (NOTHING, 1, "refused_other.part", "refused_other", " split: bad"),
            (NOTHING, 1, "no_memory.part", "no_memory", ": Memory"),
            (REFUSED, 1, "refused_input.part", "refused_input", ": NonLinear at line 1"),  # the instance has no such fault
        )
    ),
    rejected("--tasks 2 tie.opb no_pieces.part", "no_pieces.part: the part is of no pieces"),
    rejected("--tasks 3 tie.opb cut.part", "cut.part: the part is of 2 tasks, and --tasks tells 3"),
    rejected("--tasks 2 tie.opb unnamed.part divided.part", "divided.part: the first part is of other pieces: see unnamed.part"),
    rejected("--tasks 2 tie.opb claims.part", "claims.part: a part has no such answer"),
    rejected("--tasks 2 tie.opb torn.part", "torn.part: Unfinished at line 7"),
    rejected("--tasks 1 tie.opb out/0.out", "out/0.out: it is the report of a piece: leave --tasks out"),
    rejected("--tasks 3 tie.opb cut", "cut/0.report: it is the report of a piece: leave --tasks out"),
    # the report of a run or a join beside those of tasks, whichever is first
    *(
        rejected(f"--tasks 2 tie.opb {names}", f"{joined}: it is the report of a whole run or of a join, and of no task: leave this file out")
        for names, joined in (
            ("parts/first.report piece-001.out", "piece-001.out"),
            (f"piece-001.out {SOCKET} parts", "piece-001.out"),
            ("joined", "joined/joined.report"),
        )
    ),
    rejected("tie.opb joined", "joined/0.report: it is the report of a task: give --tasks 2"),
    # lines that no report has
    *(
        rejected(f"--tasks 2 tie.opb {name}", f"{name}: {fault}{clue}")
        for name, fault, clue in (
            ("spaced.part", "Heading at line 1", f": the line is '{PARTS['spaced.part'][:60]}'"),
            ("failed-1.out", "Heading at line 1", ": the line is 'Killed\\x07'"),
            ("told_before.part", "Heading at line 1", ": the line is 'pbcube_task: cannot use notes'"),
            ("told_after.part", "Syntax at line 8", ": the line is 'pbcube_task: cannot exchange notes'"),
            ("untold.part", "Syntax at line 9", ": the line is 'open'"),
            ("short.part", "Heading at line 4", ""),
            ("packed.part", "Heading at line 1", ": it is compressed by gzip: gunzip it first"),
            ("packed.part.zip", "Heading at line 1", f": it {BY_ZIP}"),
            ("marked.part", "Heading at line 1", f": it {IS_MARKED}"),
            ("returns.part", "Heading at line 1", ": its lines end with carriage returns: end them with LF alone"),
        )
    ),
    rejected(f"--tasks 1 tie.opb {SOCKET}", f"{SOCKET}: cannot be read: {reason(errno.ENXIO)}"),
    rejected("--tasks 1 tie.opb none", f"cannot read none: {MISSING}"),
    rejected("--tasks 1 none.opb", f"cannot read none.opb: {MISSING}"),
    *(
        refused_with_hint("pbcube_join", words, refusal, hint)
        for words, refusal, hint in (
            ("--tasks 1 product.opb", "product.opb: NonLinear at line 1", PRODUCT_IN_FILE),
            ("--pieces 3 product.opb", "product.opb: NonLinear at line 1", PRODUCT_IN_FILE),
            ("--format cnf --pieces 3 tie.opb", "tie.opb: BadHeader at line 1", IS_OPB_HINT),
            # reports without the instance
            (
                "--tasks 2 parts/first.report parts/second.report",
                "parts/first.report: Unfinished at line 1",
                f"parts/first.report {OF_TASK}: FILE, the instance, comes first",
            ),
            ("--pieces 3 2 out/0.out", "2: Unfinished at line 1", f"2 {OF_RUN}: FILE, the instance, comes first"),
            ("--format cnf --tasks 1 refused.part", "refused.part: BadHeader at line 2", f"refused.part {OF_RUN}: FILE, the instance, comes first"),
        )
    ),
    Row("--tasks 2 tie.opb parts", err=f"pbcube_join: cannot write: {NO_ROOM}\n", status=1, out_to=FULL),
    Row("--tasks 1 tie.opb", "s UNKNOWN\n", err_to=FULL),
    refused("--tasks 0 tie.opb", "0 is not in 1..=4294967295"),
    refused("--tasks 4294967296 tie.opb", "4294967296 is not in 1..=4294967295"),
    refused("--tasks 1 --pieces 1 tie.opb", "--pieces and --tasks cannot be used together"),
    Row("--pieces 1 tie.opb", err=f"pbcube_join: cannot write: {NO_ROOM}\n", status=1, out_to=FULL),
    Row("--help", err=f"pbcube_join: cannot write: {NO_ROOM}\n", status=1, out_to=FULL),
    *closed("--pieces 3 tie.opb 2 out/0.out piece-001.out", "--tasks 2 tie.opb parts", "--help"),
    *unopened("pbcube_join", "--pieces 1"),
    refused("--pieces 0 tie.opb", "0 is not in 1..=1048576"),
    refused_number("--pieces=-1 tie.opb", "-1", "--pieces takes a number from 1 to 1048576", "pbcube_join"),
    refused_number("--tasks x tie.opb", "x", "--tasks takes a number from 1 to 4294967295", "pbcube_join"),
    refused_with_hint("pbcube_join", "--pieces 1 -", f"cannot read -: {MISSING}", IS_STDIN),
    refused("--format wcnf --pieces 1 tie.opb", "opb, cnf and icnf"),
    *(number_row(name, number) for name, number in NUMBERS.items()),
    *told_version("pbcube_join"),
]
ROWS = {"pbcube": PBCUBE, "pbcube_pieces": PIECES, "pbcube_task": TASK, "pbcube_join": JOIN}


def make_files(room, rows):
    given = {name: text for row in rows for name, text in row.given.items()}
    for name, text in {**FILES, **dict.fromkeys(NUMBERS, UNKNOWN), **given}.items():
        (room / name).parent.mkdir(parents=True, exist_ok=True)
        (room / name).write_text(text)
    for name, data in BYTES.items():
        (room / name).parent.mkdir(parents=True, exist_ok=True)
        (room / name).write_bytes(data)
    for name in (*UNREADABLE, *FOLDERS):
        (room / name).mkdir(parents=True)
    for name, target in LINKS.items():
        (room / name).parent.mkdir(parents=True, exist_ok=True)
        (room / name).symlink_to(target)
    (room / UNOPENED).touch(mode=0)
    os.mknod(room / SOCKET, stat.S_IFSOCK | 0o600)


def unread_pipe():
    """The end to write to of a pipe whose other end is closed."""
    read, write = os.pipe()
    os.close(read)
    return write


# Made once, before any thread starts a program: a process that is started while the other end is open holds it for a moment, and
# what is written then is taken.
UNREAD = unread_pipe()


def opened(name):
    """The file of this name, to be written."""
    return open(os.dup(UNREAD) if name == CLOSED else name or os.devnull, "w")


def run(program, row, room):
    """How the program ends. What goes elsewhere is not told."""
    # help tells the name by which a program is called, which is not that of each file
    call = "exec -a \"$0\" \"$@\"" if row.may_write_files else "trap '' XFSZ; ulimit -f 0; exec -a \"$0\" \"$@\""
    words = ["bash", "-c", call, name_of(program), program, *shlex.split(row.words)]
    with opened(row.out_to) as out, opened(row.err_to) as err:
        elsewhere = {name: file for name, file, is_told in (("stdout", out, row.out_to), ("stderr", err, row.err_to)) if is_told}
        return ran(words, cwd=room, **elsewhere)


def is_as_expected(text, expected):
    return text == expected if isinstance(expected, str) else text.startswith(expected[0]) and all(part in text for part in expected)


def complaints(program, row, room):
    """What is wrong with the run on one row."""
    ended = run(program, row, room)
    outputs = (("out", ended.out, row.out), ("err", ended.err, row.err))
    found = [f"{name}: {text!r}" for name, text, expected in outputs if not is_as_expected(text, expected)]
    if ended.status != row.status:
        found.append(f"status {ended.status} and not {row.status}")
    for name, text in row.files.items():
        file = room / name
        if not file.is_file() or file.read_text() != text:
            found.append(f"{name} is not there, or not as it should be")
    found += [f"{name} is there" for name in row.absent if os.path.lexists(room / name)]
    return found


def judge(program):
    """How many rows of the program went well, and how many did not."""
    rows = ROWS[name_of(program)]
    with tempfile.TemporaryDirectory(prefix="pbcube-commands-") as room:
        make_files(Path(room), rows)
        answers = side_by_side(lambda row: complaints(program, row, Path(room)), rows)
    for row, found in zip(rows, answers):
        if found:
            print(f"commands: {program.name} {row.words}", *found, sep="\n  ")
    failed = sum(map(bool, answers))
    return len(rows) - failed, failed


def main(programs):
    counts = [judge(Path(it).resolve()) for it in programs or built(PROGRAMS)]
    passed, failed = sum(it[0] for it in counts), sum(it[1] for it in counts)
    print(f"commands: {passed} passed, {failed} failed")
    return 1 if failed else 0


if __name__ == "__main__":
    sys.exit(main(sys.argv[1:]))
