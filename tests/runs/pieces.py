#!/usr/bin/env python3
"""Solves the pieces that pbcube_pieces writes of each example one by one, and prints where the first of their answers is not that
of the whole instance, or where the index does not tell what lies in the folder. Of texts and splits that were worked by hand
(spelled_texts.py) each piece must have the text that is told by the instance and the cubes.

    tests/runs/pieces.py [PBCUBE PBCUBE_PIECES]

Without words it takes the programs that the merge gate built by LLVM.
"""
import hashlib
import itertools
import sys
import tempfile
from dataclasses import dataclass, replace
from pathlib import Path

sys.dont_write_bytecode = True
sys.path.insert(0, str(Path(__file__).resolve().parents[1]))
from lib import program, ran, side_by_side
from lib.examples import divisions_of, examples
from lib.formats import clausal, read
from lib.instance import Instance
from lib.reports import rank
from lib.spelled_texts import CLAUSES, CUBES, SPLITS, SUMS

SPLIT_BY = (0, 1, 2)  # variables of an example


@dataclass(frozen=True)
class Spelled:
    """A text, perhaps with a file of cubes and a split, and the instance and the cubes that these spell."""

    format: str
    text: bytes
    instance: Instance
    cubes: list
    file: bytes | None = None
    split: int = 0

    def pieces(self):
        """The texts of the pieces: of each cube, and of what remains."""
        for added in [*([[literal] for literal in cube] for cube in self.cubes), [[-literal for literal in cube] for cube in self.cubes]]:
            whole = replace(self.instance, constraints=self.instance.constraints + clausal(0, added).constraints)
            yield whole.without_at_most().text()


def of_sums(variables, objective, constraints):
    return Instance(variables, objective, tuple(constraints), False)


def spelled():
    for text, *instance in SUMS:
        yield Spelled("opb", text, of_sums(*instance), [])
    for format, text, variables, clauses, cubes in CLAUSES:
        yield Spelled(format, text, clausal(variables, clauses), cubes)
    for variables, file, cubes in CUBES:
        yield Spelled("opb", b"* #variable= %d #constraint= 0\n" % variables, of_sums(variables, None, ()), cubes, file)
    for text, order in SPLITS:
        cubes = [list(cube) for cube in itertools.product(*((-variable, variable) for variable in order))]
        yield Spelled("opb", text, read("opb", text), cubes, None, len(order))


def written(splitter, it, folder):
    """The texts of the pieces that are written."""
    text, cubes, out = folder / "text", folder / "cubes", folder / "pieces"
    text.write_bytes(it.text)
    cubes.write_bytes(it.file or b"")
    files = [text] if it.file is None else ["--cubes", cubes, text]
    ran([splitter, "--format", it.format, "--split", str(it.split), "--out", out, *files])
    index = out / "index"
    return [(out / name).read_text() for name in index.read_text().splitlines()[4:]] if index.exists() else []


def unspelled(splitter):
    """Which worked texts have other pieces than are told by what they spell, one line for each."""
    for it in spelled():
        with tempfile.TemporaryDirectory(prefix="pbcube-pieces-") as room:
            pieces = written(splitter, it, Path(room))
        if pieces != list(it.pieces()):
            yield f"pieces: {it.text} {it.file} by {it.split}: {pieces}"


def faults_of(pbcube, splitter, instance, words, folder):
    """What is wrong with the pieces of one instance."""
    split = ran([splitter, "--format", instance.suffix[1:], *words, "--out", str(folder), str(instance)])
    if split.err or split.status:
        yield f"{split}"
        return
    index = (folder / "index").read_text().splitlines()
    if split.out != f"{index[0]}\n":
        yield f"what is told is not the index's first line: {split}"
    told = dict(line.split(" ", 1) for line in index[:4])
    names = index[4:]
    if told["sha256"] != hashlib.sha256(instance.read_bytes()).hexdigest():
        yield "the index has another digest"
    if names != sorted(names) or int(told["pieces"]) != len(names) or {*names, "index"} != {it.name for it in folder.iterdir()}:
        yield "the index has other pieces than the folder"
    outs = [ran([pbcube, "--format", told["format"], str(folder / name)]).out for name in names]
    first = min((out for out in outs if rank(out)), key=rank, default="s UNSATISFIABLE\n")
    if first != instance.with_suffix(".expected").read_text():
        yield f"the first answer of the pieces is {first!r}"
    again = ran([splitter, "--format", instance.suffix[1:], "--out", str(folder), str(instance)])
    if again.status != 1 or again.err != f"pbcube_pieces: {folder} holds an index already: remove it, or name another folder\n":
        yield f"a folder with an index is taken: {again}"


def complaints(pbcube, splitter, instance):
    """How many divisions the instance has, and what is wrong with them, one line for each."""
    wrong, every = [], divisions_of(instance, SPLIT_BY)
    for words in every:
        with tempfile.TemporaryDirectory(prefix="pbcube-pieces-") as room:
            faults = faults_of(pbcube, splitter, instance, words, Path(room) / "some" / "pieces")
            wrong += [f"pieces: {instance.name} {' '.join(words)}: {fault}" for fault in faults]
    return len(every), wrong


def main():
    programs = sys.argv[1:] or [str(program(name)) for name in ("pbcube", "pbcube_pieces")]
    counts = side_by_side(lambda instance: complaints(*programs, instance), examples())
    wrong = [line for _, lines in counts for line in lines] + list(unspelled(programs[1]))
    print(*wrong, f"pieces: {sum(count for count, _ in counts)} divisions of examples, {len(wrong)} faults", sep="\n")
    sys.exit(len(wrong) > 0)


if __name__ == "__main__":
    main()
