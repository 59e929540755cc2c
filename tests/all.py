#!/usr/bin/env python3
"""Runs all that judges the built program and the library, side by side, and prints what each script said when it has ended.

    tests/all.py [--unproved]

As many are under way as there are processors. Those that take longest begin first, and those that the work of others may mislead
run by themselves at the end. The library for C is built before the scripts that call it. The status is 1 where one of them failed.

With --unproved it compiles the programs without proof (./build), in place of those that the merge gate built, runs what can judge
these, and tells what it left out and why. The last line is `N passed, M failed`, of programs that were compiled and scripts.
"""
import os
import shutil
import subprocess
import sys
import time
from concurrent.futures import FIRST_COMPLETED, ThreadPoolExecutor, wait
from dataclasses import dataclass

sys.dont_write_bytecode = True
from lib import PROCESSORS, PROGRAMS, TOP, UNPROVED

NO_LIBRARY = "the kit compiles no library for C without proof"
NO_MODULE = "bindings/js/build --unproved makes a module for it"


@dataclass(frozen=True)
class Step:
    """A command, the step that it waits for, whether nothing else may run beside it, and why --unproved leaves it out, if it does."""

    name: str
    command: str
    after: str = ""
    is_alone: bool = False
    left_out: str = ""


COMPILING = [Step(f"{name}, without proof", f"./build {name}") for name in (*PROGRAMS, "bench")]
STEPS = [
    Step("work", "tests/work.py"),
    Step("proposals", "tests/proposals.py"),
    Step("library", "bindings/c/build --as-built", left_out=NO_LIBRARY),
    Step("embedding", "tests/runs/embedding.py --as-built", after="library", left_out=NO_LIBRARY),
    Step("joins", "tests/runs/joins.py"),
    Step("recipes", "tests/runs/recipes.py"),
    Step("ways", "tests/runs/ways.py", after="library", left_out=NO_LIBRARY),
    Step("questions", "tests/runs/questions.py", after="library", left_out=NO_LIBRARY),
    Step("module", "bindings/js/build --as-built", after="library", left_out=NO_MODULE),
    Step("browser", "tests/runs/browser.py", after="module", left_out=NO_MODULE),
    Step("packages", "tests/runs/packages.py", after="module", left_out=NO_LIBRARY),
    Step("python", "tests/runs/python_package.py", after="library", left_out=NO_LIBRARY),
    Step("python searches", "tests/runs/python_searches.py", after="library", left_out=NO_LIBRARY),
    Step("budgets", "tests/runs/budgets.py"),
    Step("efforts", "tests/runs/efforts.py"),
    Step("texts", "tests/runs/texts.py"),
    Step("faults", "tests/runs/faults.py"),
    Step("memory", "tests/runs/memory.py"),
    Step("clients", "tests/runs/clients.py"),
    Step("pieces", "tests/runs/pieces.py"),
    Step("tasks", "tests/runs/tasks.py"),
    Step("examples", "tests/runs/examples.py"),
    Step("completions", "tests/runs/completions.py"),
    Step("commands", "tests/runs/commands.py"),
    Step("builds", "tests/builds.py"),
    Step("instances", "tests/instances.py"),
    Step("plants", "tests/plants.py --check"),
    Step("wrong", "tests/wrong.py --check"),
    Step("promises", "tests/promises.py"),
    Step("references", "tests/references.py"),
    Step("pages", "tests/pages.py"),
    Step("threads", "tests/runs/threads.py", is_alone=True),
]


def run(step):
    """Whether it passed. What it said is printed as one piece."""
    if step.name == "library" and not shutil.which("cc"):
        return True  # the scripts that call it say that there is none
    begun = time.monotonic()
    ended = subprocess.run(step.command.split(), cwd=TOP, stdin=subprocess.DEVNULL, stdout=subprocess.PIPE, stderr=subprocess.STDOUT)
    said = ended.stdout.decode(errors="replace")
    failed = f", FAILED with status {ended.returncode}" if ended.returncode else ""
    print(f"{said}{step.name}: {time.monotonic() - begun:.0f} seconds{failed}\n", end="", flush=True)  # in one write
    return ended.returncode == 0


def run_side_by_side(steps):
    """Which steps passed, by name. One that waits for a step that failed fails too."""
    passed, under_way, waiting = {}, {}, list(steps)
    with ThreadPoolExecutor(PROCESSORS) as pool:
        while waiting or under_way:
            for step in [it for it in waiting if it.after in ("", *passed)][: PROCESSORS - len(under_way)]:
                waiting.remove(step)
                under_way[pool.submit(lambda it: passed.get(it.after, True) and run(it), step)] = step
            for ended in wait(under_way, return_when=FIRST_COMPLETED).done:
                passed[under_way.pop(ended).name] = ended.result()
    return passed


def run_each(steps):
    """Which of these and of the steps that they wait for passed, by name: first those that may run side by side."""
    passed = run_side_by_side([it for it in steps if not it.is_alone])
    return passed | {it.name: run(it) for it in steps if it.is_alone}


def run_unproved():
    """Which programs were compiled, and which scripts then passed on them. Where one was not compiled no script is run."""
    passed = run_side_by_side(COMPILING)
    if not all(passed.values()):
        print("no script is run, since a program was not compiled")
        return passed
    os.environ["PBCUBE_PROGRAMS"] = str(UNPROVED)
    return passed | run_each([it for it in STEPS if not it.left_out])


def tell_left_out():
    """What --unproved leaves out, and why."""
    print("left out: every proof, must-fail edit and test of a crate, and programs by Rattle's own compiler: ./test has them")
    for why in dict.fromkeys(it.left_out for it in STEPS if it.left_out):
        print(f"left out: {', '.join(it.name for it in STEPS if it.left_out == why)}: {why}")


def main(words):
    if words not in ([], ["--unproved"]):
        sys.exit(f"all.py: no such words: {' '.join(words)}")
    begun = time.monotonic()
    os.environ.pop("PBCUBE_PROGRAMS", None)  # the merge gate judges what it built
    passed = run_unproved() if words else run_each(STEPS)
    failed = [name for name, is_passed in passed.items() if not is_passed]
    print(*[f"{name}: FAILED" for name in failed], sep="\n", end="\n" if failed else "")
    counts = f"{len(passed) - len(failed)} passed, {len(failed)} failed"
    print(f"{'programs and scripts' if words else 'scripts'}: {counts}, in {time.monotonic() - begun:.0f} seconds")
    if words:
        tell_left_out()
        print(counts)
    return 1 if failed else 0


if __name__ == "__main__":
    sys.exit(main(sys.argv[1:]))
