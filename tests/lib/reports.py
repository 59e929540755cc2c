"""Texts that the programs read and write: reports, their headings, and the index of a folder of pieces."""
import hashlib

from . import TOP

TIE = (TOP / "examples/tie.opb").read_text()


def digest(text):
    return hashlib.sha256(text.encode()).hexdigest()


def index_of(text, kind, variables, pieces):
    """The index of `pieces` pieces of an instance."""
    width = len(str(pieces - 1))
    names = "".join(f"{number:0{width}}.{kind}\n" for number in range(pieces))
    return f"pieces {pieces}\nformat {kind}\nvariables {variables}\nsha256 {digest(text)}\n{names}"


def part(of, text, pieces, done, cut=""):
    """The heading of a report, of a part of the instance of this text."""
    return f"c part {of} of instance {digest(text)}\nc pieces {pieces}\nc done{done}\nc cut{cut}\n"


def claim(text, pieces, of):
    """The claim of a task on pieces of the instance of this text."""
    return f"pbcube claim of instance {digest(text)}\npieces {pieces}\ntask {of}\n"


HEADING = 4  # lines of such a heading


def array_of(numbers):
    """Numbers that rise, as the option --array of Slurm takes them."""
    runs = []
    for number in numbers:
        if runs and runs[-1][-1] == number - 1:
            runs[-1] = (runs[-1][0], number)
        else:
            runs.append((number, number))
    return ",".join(str(first) if first == last else f"{first}-{last}" for first, last in runs)


def run_again(of, numbers):
    """The line in which pbcube_join names the pieces or tasks that have to be run again."""
    return f"pbcube_join: run again: {of} {array_of(numbers)}\n"


# the line in which it says that there is no report at all
NO_REPORT = "pbcube_join: no report was found: name files, or folders with files whose names end in .report\n"


def in_no_report(pieces):
    """The line in which it names pieces that are in no report, though each task has one."""
    return f"pbcube_join: no report names pieces {array_of(pieces)}: first remove TASK.*.claim of these tasks from the folder of --exchange\n"


# the line in which it says that no task has searched anything
ALL_REFUSED = "pbcube_join: every task refused its input, and searched nothing\n"


def values_line(values, is_clausal):
    """The `v` line of these values."""
    letter, end = ("", " 0") if is_clausal else ("x", "")
    return "v" + "".join(f" {'' if value else '-'}{letter}{i}" for i, value in enumerate(values, 1)) + f"{end}\n"


def rank(report):
    """What orders reports: by cost, then by the first variable that differs, 0 before 1; none where there is no assignment."""
    lines = {line[0]: line.split()[1:] for line in report.splitlines()}
    if "v" not in lines:
        return None
    values = [not word.startswith("-") for word in lines["v"] if word != "0"]
    return int(lines.get("o", ["0"])[0]), values
