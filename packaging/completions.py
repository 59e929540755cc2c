#!/usr/bin/env python3
"""Writes what bash, zsh and fish complete command lines by, packaging/completions/*, from the list below:

    packaging/completions.py [--check]

With --check it writes nothing, and names each file that is not what it would write. tests/runs/completions.py holds the list to what
the programs' --help shows.
"""
import sys
from itertools import groupby
from pathlib import Path
from typing import NamedTuple

FOLDER = Path(__file__).resolve().parent / "completions"
HEAD = "packaging/completions.py writes this file from its list of options."
FORMATS = "opb cnf icnf"
LIST = """
pbcube --format FORMAT Format of FILE: opb, cnf or icnf
pbcube --workers W Number of threads that share the pieces, 1 to 64
pbcube --split K Divide the work by the K most frequent variables, 0 to 12
pbcube --cubes FILE File of cubes that divide the work, with lines `a LITERALS 0`; none by default
pbcube --nodes B Stop each piece after B decisions, 0 to 1000000000; no limit by default
pbcube_pieces --format FORMAT Format of FILE: opb, cnf or icnf
pbcube_pieces --split K Divide by the K most frequent variables, 0 to 12
pbcube_pieces --cubes FILE File of cubes that divide the instance, with lines `a LITERALS 0`; none by default
pbcube_pieces --out DIR Folder for the pieces and their index; created if it does not exist
pbcube_task --format FORMAT Format of FILE: opb, cnf or icnf
pbcube_task --workers W Number of threads that share the task, 1 to 64
pbcube_task --split K Divide by the K most frequent variables, 0 to 12
pbcube_task --cubes FILE File of cubes that divide the instance, with lines `a LITERALS 0`; none by default
pbcube_task --nodes B Stop each piece after B decisions, 0 to 1000000000; no limit by default
pbcube_task --task I Number of this task, from 0 to T - 1
pbcube_task --tasks T Number of tasks among which the pieces are dealt in turn
pbcube_task --exchange DIR Folder in which the tasks exchange assignments and claim pieces; none by default
pbcube_join --format FORMAT Format of FILE and of the reports: opb, cnf or icnf
pbcube_join --pieces N Number of pieces, 1 to 1048576; by default the index gives it
pbcube_join --tasks T Join the reports that pbcube_task wrote for T tasks, 1 or more; not with --pieces
"""


class Option(NamedTuple):
    """An option of a program, the name of its value, and what it does."""

    program: str
    name: str
    value: str
    does: str


OPTIONS = [Option(*line.split(" ", 3)) for line in LIST.strip().splitlines()]
NAMES = list(dict.fromkeys(it.program for it in OPTIONS))
OTHERS = {"--help": ("-h", "Print help"), "--version": ("-V", "Print version")}  # of each program


def named(value):
    """The options whose value has this name, each once, as a pattern of the shell."""
    return " | ".join(dict.fromkeys(it.name for it in OPTIONS if it.value == value))


def for_bash():
    numbers = " | ".join(dict.fromkeys(it.name for it in OPTIONS if it.value not in ("FORMAT", "FILE", "DIR")))
    options = "\n".join(
        f"    {name}) options='{' '.join([*(it.name for it in group), *OTHERS])}' ;;"
        for name, group in groupby(OPTIONS, lambda it: it.program)
    )
    return f"""# shellcheck shell=bash
# Completions for bash. {HEAD}
_pbcube() {{
  local word=${{COMP_WORDS[COMP_CWORD]}} before=${{COMP_WORDS[COMP_CWORD - 1]}} options=''
  if [ "$word" = = ]; then # an option and its value may be one word, which bash takes for three
    word=''
  elif [ "$before" = = ]; then
    before=${{COMP_WORDS[COMP_CWORD - 2]}}
  fi
  case $before in
    {named("FORMAT")}) mapfile -t COMPREPLY < <(compgen -W '{FORMATS}' -- "$word"); return ;;
    {named("DIR")}) mapfile -t COMPREPLY < <(compgen -d -- "$word"); return ;;
    {numbers}) COMPREPLY=(); return ;;
  esac
  case ${{COMP_WORDS[0]##*/}} in
{options}
  esac
  case $word in
    -*) mapfile -t COMPREPLY < <(compgen -W "$options" -- "$word") ;;
    *) mapfile -t COMPREPLY < <(compgen -f -- "$word") ;;
  esac
}}
complete -o filenames -F _pbcube {" ".join(NAMES)}
"""


def for_zsh():
    actions = {"FORMAT": f"({FORMATS})", "FILE": "_files", "DIR": "_files -/"}
    quoted = lambda text: text.replace("[", r"\[").replace("]", r"\]").replace(":", r"\:")  # noqa: E731
    options = "\n".join(
        f"  {name})\n    specifications=(\n"
        + "".join(f"      '{it.name}=[{quoted(it.does)}]:{it.value}:{actions.get(it.value, ' ')}'\n" for it in group)
        + "    )\n    ;;"
        for name, group in groupby(OPTIONS, lambda it: it.program)
    )
    others = " ".join(f"'(- *)'{{{short},{name}}}'[{does}]'" for name, (short, does) in OTHERS.items())
    return f"""#compdef {" ".join(NAMES)}
# Completions for zsh. {HEAD}
local -a specifications
case $service in
{options}
esac
_arguments $specifications {others} '*:FILE:_files'
"""


def for_fish():
    kinds = {"FORMAT": f"-x -a '{FORMATS}'", "FILE": "-r -F", "DIR": "-x -a '(__fish_complete_directories)'"}
    lines = [f"complete -c {it.program} -l {it.name[2:]} {kinds.get(it.value, '-x')} -d '{it.does}'" for it in OPTIONS]
    lines += [f"complete -c {name} -s {short[1:]} -l {long[2:]} -d '{does}'" for name in NAMES for long, (short, does) in OTHERS.items()]
    return "\n".join([f"# Completions for fish. {HEAD}", *lines, ""])


FILES = {"pbcube.bash": for_bash, "_pbcube": for_zsh, "pbcube.fish": for_fish}


def main(words):
    if words not in ([], ["--check"]):
        sys.exit(f"completions: no such words: {' '.join(words)}")
    others = [name for name, text in FILES.items() if not (FOLDER / name).is_file() or (FOLDER / name).read_text() != text()]
    if not words:
        FOLDER.mkdir(exist_ok=True)
        for name in others:
            (FOLDER / name).write_text(FILES[name]())
        return 0
    print(*[f"completions: {name} is not what packaging/completions.py writes" for name in others], sep="\n", end="\n" if others else "")
    return 1 if others else 0


if __name__ == "__main__":
    sys.exit(main(sys.argv[1:]))
