#!/usr/bin/env python3
"""Runs ./pbcube, ./prove and ./test in a small repository, with stand-ins for rt, nice, the compiler without proof and tests/all.py,
and prints what is wrong: which program is run, what is built in which order and with how many jobs, what is left as it is, that a
build that was stopped goes on, that two calls do not build one thing twice, and what the words of ./test run. Nothing is proved here."""
import os
import shutil
import subprocess
import sys
import tempfile
import time
from pathlib import Path

TOP = Path(__file__).resolve().parent.parent
LINES = {"low": 100, "long": 300, "short": 20, "high": 100, "pbcube": 10}
CRATES = "# a comment\nlow: itoa\nlong: low\nshort: low itoa # another\nhigh: long\npbcube: high short\n"
# Tells its crate, its jobs and its priority; leaves its work in out/incremental; waits where a file says so, fails where one does.
RT = """#!/bin/sh
if [ "$1" = version ]; then echo "a stand-in"; exit; fi
if [ "$1" = ci ]; then echo "7 passed, 0 failed (by rt)"; exit; fi
name=${PWD##*/}
echo "$name $1 $3 $PRIORITY $(ls out/incremental 2> /dev/null)" >> "$ROOM/calls"
echo "so far: 1 of 2 functions checked"
mkdir -p out/incremental out/rlib
: > out/incremental/kept
while [ -e "$ROOM/hold-$name" ]; do sleep 0.1; done
if [ -e "$ROOM/fail-$name" ]; then echo "a theorem is left"; exit 1; fi
: > out/rlib/stamp
[ "$1" = lib ] || printf '#!/bin/sh\\necho proved "$@"\\n' > out/$name
[ "$1" = lib ] || chmod +x out/$name
"""
NICE = """#!/bin/sh
export PRIORITY=$2
shift 2
exec "$@"
"""
UNPROVED = """#!/bin/sh
program=${0%/*}/out/unproved/$1
printf '#!/bin/sh\\necho unproved "$@"\\n' > "$program"
chmod +x "$program"
"""
ALL = """#!/bin/sh
echo "all.py: $*"
echo "2 passed, 0 failed"
"""


class Repository:
    """A repository of five crates, one on the longest chain and one beside it."""

    def __init__(self, room):
        self.room, self.top = room, room / "repository"
        self.top.mkdir()
        for name in ("crates.sh", "pbcube", "prove", "test"):
            shutil.copy(TOP / name, self.top)
        (self.top / "crates.txt").write_text(CRATES)
        stand_ins = ((room / "bin/rt", RT), (room / "bin/nice", NICE), (self.top / "build", UNPROVED), (self.top / "tests/all.py", ALL))
        for path, text in stand_ins:
            path.parent.mkdir(exist_ok=True)
            path.write_text(text)
            path.chmod(0o755)
        for name, lines in LINES.items():
            self.write(name, "// a line\n" * lines)
        self.how = {"cwd": room, "stdout": subprocess.PIPE, "stderr": subprocess.PIPE, "text": True, "start_new_session": True}
        self.how["env"] = {**os.environ, "ROOM": str(room), "PATH": f"{room / 'bin'}:{os.environ['PATH']}"}

    def write(self, name, text):
        source = self.top / "crates" / name / "src" / ("main.rt" if name == "pbcube" else "lib.rt")
        source.parent.mkdir(parents=True, exist_ok=True)
        source.write_text(text)

    def begin(self, *words):
        return subprocess.Popen([self.top / words[0], *words[1:]], stdin=subprocess.DEVNULL, **self.how)

    def run(self, *words):
        """The status, standard output and standard error."""
        ran = self.begin(*words)
        said = ran.communicate()
        return ran.returncode, *said

    def calls(self):
        """What rt was called for since the last time: crate, verb, jobs, priority, and what it found of earlier work."""
        told = self.room / "calls"
        lines = [it.split(" ") for it in told.read_text().splitlines()] if told.exists() else []
        told.unlink(missing_ok=True)
        return lines

    def hold(self, name, kind="hold"):
        (self.room / f"{kind}-{name}").touch()

    def release(self, name, kind="hold"):
        (self.room / f"{kind}-{name}").unlink()

    def wait_for(self, name):
        """Until rt is in that crate."""
        for _ in range(300):
            if (self.room / "calls").exists() and f"{name} " in (self.room / "calls").read_text():
                return
            time.sleep(0.1)
        sys.exit(f"builds: rt was not called for {name}")


def unproved_runs(tree):
    first, second = tree.run("pbcube", "a", "b c"), tree.run("pbcube", "a")
    yield "the first run compiles without proof, and says so", first[:2] == (0, "unproved a b c\n") and "without proof" in first[2]
    yield "the second run only runs", second == (0, "unproved a\n", "")
    tree.write("low", "// another\n" * 100)
    yield "it is compiled again after a change", "without proof" in tree.run("pbcube")[2]
    yield "rt proves nothing for it", not tree.calls()


def whole_builds(tree):
    jobs = len(os.sched_getaffinity(0))
    tree.hold("short")
    first = tree.begin("prove")
    tree.wait_for("high")
    second = tree.begin("prove")
    time.sleep(1)
    tree.release("short")
    yield "two calls at once end well", (first.wait(), second.wait()) == (0, 0)
    calls = tree.calls()
    at = {it[0]: it for it in calls}
    yield "each crate is built once, after those below it", len(calls) == 5 and [*at][0] == "low" and [*at][-1] == "pbcube"
    yield "the longest chain has all jobs", all(at[it][2:4] == [str(jobs), "0"] for it in ("low", "long", "high", "pbcube"))
    yield "what is beside it has one, and gives way", at["short"][2:4] == ["1", "10"]
    yield "the proved program is run", tree.run("pbcube", "a") == (0, "proved a\n", "")
    yield "nothing is built where nothing changed", tree.run("prove")[0] == 0 and not tree.calls()


def broken_builds(tree):
    tree.write("high", "// another\n" * 100)
    yield "after a change the proved program is not run", tree.run("pbcube")[1] == "unproved\n"
    tree.hold("long")
    stopped = tree.begin("prove")
    tree.wait_for("long")
    stopped.terminate()
    yield "a build that is stopped ends", stopped.wait() == 143 and not (tree.top / "out/views").exists()
    tree.release("long")
    tree.hold("high", "fail")
    tree.calls()
    status, _, said = tree.run("prove")
    yield "a proof that fails ends the build, with the end of its log", status == 1 and "a theorem is left" in said
    yield "what a stopped build left is there for the next", ["long", "kept"] in [[it[0], it[4]] for it in tree.calls()]
    tree.release("high", "fail")
    yield "once mended it is built", tree.run("prove", "high", "pbcube")[0] == 0 and tree.run("pbcube")[1] == "proved\n"
    yield "a name that is none is refused", tree.run("prove", "none")[0] == 2


def cleanings(tree):
    kept = lambda: [it.parent.parent.name for it in (tree.top / "crates").glob("*/out/incremental")]  # noqa: E731
    yield "proofs are kept, and that is told after a build", len(kept()) == len(LINES) and "kept for the next" in told_by_a_build(tree)
    status, said, told = tree.run("prove", "--clean")
    yield "./prove --clean takes them away, and tells how much", (status, said, kept()) == (0, "", []) and "taken away: " in told
    tree.calls()
    yield "what is built stays, and nothing is proved again", tree.run("prove")[0] == 0 and not tree.calls()
    yield "it is still run", tree.run("pbcube")[1] == "proved\n"
    yield "a second time there is nothing", tree.run("prove", "--clean")[2] == "prove: taken away: 0 MB\n"
    tree.write("high", "// changed\n" * 100)
    yield "a changed crate is proved from nothing", tree.run("prove")[0] == 0 and ["high", ""] in [[it[0], it[4]] for it in tree.calls()]
    yield "--clean stands alone", tree.run("prove", "--clean", "pbcube")[0] == 2


def told_by_a_build(tree):
    """What ./prove says on standard error where a crate was changed."""
    (tree.top / "crates/high/out/incremental/large").write_bytes(bytes(1 << 20))
    tree.write("high", "// changed before\n" * 100)
    return tree.run("prove")[2]


def judgements(tree):
    of_rt = "7 passed, 0 failed (by rt)\n"
    status, said, _ = tree.run("test")
    yield "the gate ends with what rt ci says", (status, said) == (0, f"a stand-in\n{of_rt}all.py: \n2 passed, 0 failed\n{of_rt}")
    status, said, _ = tree.run("test", "quick")
    first, _, rest = said.partition("\n")
    yield "./test quick first says that nothing is proved", first.startswith("nothing is proved by this")
    yield "it has programs without proof judged", (status, rest) == (0, "all.py: --unproved\n2 passed, 0 failed\n")
    yield "help tells of both", all(f" {it}  " in tree.run("test", "--help")[1] for it in ("./test", "./test quick"))
    others = (["fast"], ["--quick"], [""], ["quick", "quick"], ["--help", "quick"])
    yield "other words are refused", all(tree.run("test", *it)[:2] == (2, "") for it in others)


def main():
    wrong = []
    count = 0
    with tempfile.TemporaryDirectory(prefix="pbcube-builds-") as room:
        tree = Repository(Path(room))
        for part in (unproved_runs, whole_builds, broken_builds, cleanings, judgements):
            for what, holds in part(tree):
                count += 1
                wrong += [] if holds else [what]
    print("\n".join(f"builds: not so: {it}" for it in wrong) or f"builds: {count} facts of ./pbcube, ./prove and ./test, with a stand-in for rt")
    return 1 if wrong else 0


if __name__ == "__main__":
    sys.exit(main())
