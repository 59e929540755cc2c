#!/usr/bin/env python3
"""Checks what bash, zsh and fish complete the programs' command lines by, and prints what is wrong.

    tests/runs/completions.py

The list of options in packaging/completions.py must be that of each program's help, with the names of values and the texts, and the
files that it writes must be those that git keeps. Then the shells that are here complete a few lines.
"""
import re
import runpy
import shutil
import sys
import tempfile
from pathlib import Path

sys.dont_write_bytecode = True
sys.path.insert(0, str(Path(__file__).resolve().parents[1]))
from lib import PROGRAMS, TOP, ran, run, say

COMPLETIONS = TOP / "packaging/completions.py"
FOLDER = TOP / "packaging/completions"
MADE = runpy.run_path(str(COMPLETIONS))
FORMATS = MADE["FORMATS"].split()
SHOWN = re.compile(r"^ +(?:-\w, )?(--\w+)(?: <(\w+)>)? +(\S.*?)(?: \[default: \w+\]| \(see more.*\))?$", re.M)
FILES, FOLDERS = ["a.cnf", "a.opb"], ["folder", "folder two"]
BASH = """source {file}
COMP_WORDS=({words} '{last}') COMP_CWORD={count}
_pbcube
printf '%s\\n' "${{COMPREPLY[@]}}"
"""
ZSH = "_arguments() {{ printf '%s\\n' \"$@\" }}\nservice={name}\nsource {file}\n"


def wrong_list():
    """Where the list is not that of a program's help, or the files are not those of the list."""
    for name in PROGRAMS:
        listed = [tuple(it[1:]) for it in MADE["OPTIONS"] if it.program == name]
        listed += [(other, "", does) for other, (_, does) in MADE["OTHERS"].items()]
        shown = SHOWN.findall(run(name, "-h").out)
        if sorted(shown) != sorted(listed):
            yield f"{name}: the help alone has {sorted({*shown} - {*listed})}, and the list alone {sorted({*listed} - {*shown})}"
    if (ended := ran([COMPLETIONS, "--check"])).status:
        yield ended.out.strip()


def options_of(name):
    return [*(it.name for it in MADE["OPTIONS"] if it.program == name), *MADE["OTHERS"]]


def lines():
    """Words of a command line, the last of which is begun, and what completes it: options, formats, files or folders."""
    for name in PROGRAMS:
        yield [name], "--", options_of(name)
        yield [name, "--format"], "", FORMATS
        yield [name, "--format"], "i", ["icnf"]
    yield ["pbcube"], "--n", ["--nodes"]
    yield ["pbcube_task"], "--task", ["--task", "--tasks"]
    yield ["pbcube_pieces", "--out"], "", FOLDERS
    yield ["pbcube_task", "--exchange"], "f", FOLDERS
    yield ["pbcube", "--cubes"], "a", FILES
    yield ["pbcube", "--workers", "2"], "a.o", ["a.opb"]


def by_bash(room):
    cases = [*lines(), (["pbcube", "--format", "="], "o", ["opb"]), (["pbcube", "--format"], "=", FORMATS), (["pbcube", "--split"], "", [])]
    cases += [(["/usr/bin/pbcube", "a.opb"], "--w", ["--workers"])]
    for words, last, expected in cases:
        script = BASH.format(file=FOLDER / "pbcube.bash", words=" ".join(words), last=last, count=len(words))
        yield words, last, expected, [it for it in ran(["bash", "-c", script], cwd=room).out.split("\n") if it]


def by_fish(room):
    for words, last, expected in lines():
        script = f"source {FOLDER}/pbcube.fish; complete -C '{' '.join([*words, last])}'"
        told = ran(["fish", "--no-config", "-c", script], cwd=room, env={"PATH": "/usr/bin:/bin", "HOME": str(room)}).out.splitlines()
        yield words, last, expected, [it.split("\t")[0].rstrip("/") for it in told]


def by_zsh(room):
    """The words that zsh is handed to complete by: an option, the name of its value, and what that is completed by."""
    actions = {"FORMAT": f"({' '.join(FORMATS)})", "FILE": "_files", "DIR": "_files -/"}
    for name in PROGRAMS:
        told = ran(["zsh", "-f", "-c", ZSH.format(name=name, file=FOLDER / "_pbcube")], cwd=room).out.splitlines()
        found = [re.fullmatch(r"(--\w+)=\[.+\]:(\w+):(.*)", it) for it in told]
        expected = [(it.name, it.value, actions.get(it.value, " ")) for it in MADE["OPTIONS"] if it.program == name]
        yield [name], "", expected, [it.groups() for it in found if it]


def main():
    wrong, count = list(wrong_list()), 0
    with tempfile.TemporaryDirectory(prefix="pbcube-completions-") as folder:
        room = Path(folder)
        for name in FILES:
            (room / name).touch()
        for name in FOLDERS:
            (room / name).mkdir()
        for shell, complete in {"bash": by_bash, "zsh": by_zsh, "fish": by_fish}.items():
            if not shutil.which(shell):
                say(f"no {shell} here")
                continue
            for words, last, expected, found in complete(room):
                count += 1
                if sorted(found) != sorted(expected):
                    wrong.append(f"{shell}: {' '.join([*words, last])!r} is completed by {found} and not {expected}")
    print(*[f"completions: {line}" for line in wrong], sep="\n", end="\n" if wrong else "")
    print(f"completions: {count} lines were completed, {len(wrong)} complaints")
    return 1 if wrong else 0


if __name__ == "__main__":
    sys.exit(main())
