"""The commands that docs/COMMANDS.md shows, with what each prints. `tests/pages.py --write` makes that page from them."""
from dataclasses import dataclass

from . import TOP

PART = "c part {} of 2 of instance 06bf4aff27a422473bb9295e3ab2fdf55b70f8dc6f6f21281598cb2366ee633c"  # the digest of examples/tie.opb
COVER, HARD = "examples/vertex_cover.expected", "examples/hard/knapsack.expected"


@dataclass(frozen=True)
class Shown:
    """A command, the lines that it prints or the file that has them, the first line on standard error, and the status."""

    command: str
    lines: tuple = ()
    file: str = ""
    complaint: str = ""
    status: int = 0

    @property
    def name(self):
        return self.command.split()[0]

    @property
    def words(self):
        return self.command.split()[1:]

    @property
    def out(self):
        """All that it prints on standard output."""
        return (TOP / self.file).read_text() if self.file else "".join(f"{line}\n" for line in self.lines)


SHOWN = [
    Shown("pbcube examples/vertex_cover.opb", file=COVER, status=30),
    Shown("pbcube --workers 2 --cubes examples/vertex_cover.cubes examples/vertex_cover.opb", file=COVER, status=30),
    Shown("pbcube examples/repairs.opb", file="examples/repairs.expected", status=30),
    Shown("pbcube examples/no_objective.opb", ("s SATISFIABLE", "v -x1 -x2 x3"), status=10),
    Shown("pbcube examples/contradiction.opb", ("s UNSATISFIABLE",), status=20),
    Shown("pbcube examples/hard/knapsack.opb", file=HARD, status=30),
    Shown("pbcube --workers 4 --split 2 examples/hard/knapsack.opb", file=HARD, status=30),
    Shown("pbcube --workers 2 --split 1 examples/hard/cover.opb", file="examples/hard/cover.expected", status=30),
    Shown("pbcube --nodes 300 examples/hard/knapsack.opb", file="examples/hard/knapsack_300.expected", status=10),
    Shown("pbcube --nodes 3 examples/tie.opb", ("o 3", "s SATISFIABLE", "v x1 -x2 x3"), status=10),
    Shown("pbcube --nodes 4 examples/tie.opb", ("o 3", "s OPTIMUM FOUND", "v -x1 x2 -x3"), status=30),
    Shown(
        "pbcube --split 13 examples/tie.opb",
        complaint="error: invalid value '13' for '--split <K>': 13 is not in 0..=12",
        status=2,
    ),
    Shown(
        "pbcube --split 4 examples/tie.opb",
        ("c refused split: BadSplit", "s UNSUPPORTED"),
        complaint="pbcube: examples/tie.opb has 3 variables, too few for --split 4",
    ),
    Shown("pbcube nothing.opb", complaint="pbcube: cannot read nothing.opb", status=1),
    Shown(
        "pbcube_task --split 2 --task 1 --tasks 2 examples/tie.opb",
        (PART.format(1), "c pieces 5 split 2 cubes none", "c done 1 3", "c cut", "o 3", "s SATISFIABLE", "v -x1 x2 -x3"),
        status=10,
    ),
    Shown(
        "pbcube_task --split 2 --nodes 0 --task 0 --tasks 2 examples/tie.opb",
        (PART.format(0), "c pieces 5 split 2 cubes none", "c done 0", "c cut 2 4", "s UNKNOWN"),
    ),
    Shown(
        "pbcube_task --task 1 --tasks 2 examples/tie.opb",
        (PART.format(1), "c pieces 1 split 0 cubes none", "c done", "c cut", "s UNKNOWN"),
        complaint="pbcube_task: none of the 1 pieces is of task 1",
    ),
    Shown(
        "pbcube_task --task 2 --tasks 2 examples/tie.opb",
        complaint="error: tasks are numbered from 0, so --task has to be below --tasks",
        status=2,
    ),
]
