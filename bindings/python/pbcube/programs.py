"""The programs, which the wheel and ./install bring: where they are, and how pbcube is run on a text with many workers."""

from __future__ import annotations

import os
import shutil
import warnings
from dataclasses import dataclass
from operator import index
from pathlib import Path
from typing import List, Optional

from .wholes import is_whole

PROGRAMS = ("pbcube", "pbcube_task", "pbcube_join", "pbcube_pieces")
_MOST_WORKERS = 64
_MOST_SPLIT = 12
MOST_NODES = 1_000_000_000


def find(name: str = "pbcube") -> str:
    """The program of that name: in the folder that PBCUBE_PROGRAMS names; in crates/NAME/out of the repository; where pip and ./install
    put it for this package; or on the path. Raises FileNotFoundError where there is none."""
    here = Path(__file__).resolve().parent
    named = os.environ.get("PBCUBE_PROGRAMS", "")
    places = [Path(named)] if named else [here / f"../../../crates/{name}/out", here / "../../../../bin", here / "../bin"]
    for place in places:
        path = place.resolve() / name
        if path.is_file() and os.access(path, os.X_OK):
            return str(path)
    found = None if named else shutil.which(name)
    if found is None:
        where = f"in {named}" if named else "beside this package or on the path"
        raise FileNotFoundError(f"no program {name} {where}: the wheel and ./install bring it, and PBCUBE_PROGRAMS names its folder")
    return found


def is_budget(nodes: int) -> bool:
    """Whether the program takes this as a budget."""
    return nodes <= MOST_NODES


@dataclass(frozen=True)
class Workers:
    """With how many workers the program runs, and by how many variables it splits the work, where one of the two is told."""

    workers: int = 1
    split: int = 0

    @classmethod
    def of(cls, workers: Optional[int], split: Optional[int], format: str = "opb") -> Optional[Workers]:
        """What the caller wants for a text of this format, and None where that is neither. Warns where all but one worker would have
        nothing to do: only a split, or cubes in the text, make several pieces."""
        if workers is None and split is None:
            return None
        told = 1 if workers is None else _within("workers", workers, 1, _MOST_WORKERS)
        program = cls(told, 0 if split is None else _within("split", split, 0, _MOST_SPLIT))
        if program.workers > 1 and program.split == 0 and format != "icnf":
            advice = "give split= too, such as split=8, and at most the number of variables"
            warnings.warn(f"one worker searches the one piece: {advice}", stacklevel=3)
        return program

    def command(self, format: str, nodes: int) -> List[str]:
        """The command that solves what is on standard input, with at most `nodes` decisions in each piece."""
        budget = ["--nodes", str(nodes)] if is_budget(nodes) else []
        told = ["--workers", str(self.workers), "--split", str(self.split)]
        return [find(), "--format", format, *told, *budget, "/dev/stdin"]


def _within(name: str, number: object, least: int, most: int) -> int:
    """The number, which is to be in its range."""
    if not is_whole(number):
        raise TypeError(f"{name} is a whole number from {least} to {most}, and not {number!r}")
    given = index(number)  # type: ignore[arg-type]
    if not least <= given <= most:
        raise ValueError(f"{name} is a whole number from {least} to {most}, and not {given}")
    return given
