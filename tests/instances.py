#!/usr/bin/env python3
"""Writes an instance of each family by the scripts of bench/ that make them, and prints where its head counts wrongly or its bytes
are others than they were; and runs bench/peers.py with stand-ins for the program.

    tests/instances.py [--digests]

The figures of docs/PERFORMANCE.md are of these bytes. With --digests it prints the table DIGESTS, for a family that is new or is
changed on purpose.
"""
import hashlib
import random
import re
import subprocess
import sys
import tempfile
from pathlib import Path

sys.dont_write_bytecode = True
from lib import SECONDS, TOP, ran, side_by_side

sys.path.insert(0, str(TOP / "bench"))
from distribution import Distribution
from make_small import FAMILIES

DIGESTS = {
    "make_small.py random 6": "eea175d9047b1722",
    "make_small.py cover 6": "7f825efdaeb62be6",
    "make_small.py sets 6": "73021cd7211278c3",
    "make_small.py knapsack 6": "bba8b787da182689",
    "make_small.py machines 6": "4abf6b870d053713",
    "make_small.py routes 6": "45f4316972b62031",
    "make_small.py parity 6": "665956ce1395c3f4",
    "make_small.py units 6": "48e1625ecd27af17",
    "make_small.py domination 6": "ba88c3e00b0a63f5",
    "make_small.py assignment 6": "ac94351ce651a9f5",
    "make_small.py shifts 6": "7694a54d40bd3485",
    "make_small.py schedule 6": "49309083c6ee1859",
    "make_small.py cut 6": "97ae87d7240c468c",
    "make_small.py grid 6": "eb37405d45e4eb6b",
    "make_small.py garden 6": "ce12fcb96fe034d9",
    "make_small.py options 6": "025029934b4f3c45",
    "make_small.py features 6": "766cccfa6b426265",
    "make_small.py staff 6": "e72ef881d90697b3",
    "make_small.py pictures 6": "d545012e1d92fe3c",
    "make_small.py clauses 6": "32580666a6020947",
    "make_small.py colours 6": "9ec28315d6ddf2fe",
    "make_small.py rows 6": "ab9562018e3b6c68",
    "make_small.py chain 6": "1402f546fa6c5e5f",
    "make_small.py wide 6": "25fc2bcfc230a3ef",
    "make_packages.py 120 3": "a8fd21a09069e4dc",
    "make_packages.py 120 3 --requests 9 --older 0.9": "8311fddc59ad3af0",
    "make_packages.py 120 3 --distribution": "79a953d77f7d356a",
    "make_packages.py 120 3 --levels": "fe89c53baecfe7fe",
    "make_packages.py 120 3 --levels 0 7": "8ad51cb6b201bc62",
}

SEEDS = range(5)
PACKAGES = ("120 3", "120 3 --requests 9 --older 0.9", "120 3 --distribution", "120 3 --levels", "120 3 --levels 0 7")
COMMANDS = [f"make_small.py {family} 6" for family in FAMILIES] + [f"make_packages.py {words}" for words in PACKAGES]


def made(command):
    """What the script prints, by a Python of its own."""
    script, *words = command.split()
    command = [sys.executable, TOP / "bench" / script, *words]
    return subprocess.run(command, stdin=subprocess.DEVNULL, capture_output=True, check=True, timeout=SECONDS).stdout


def digest(text):
    return hashlib.sha256(text).hexdigest()[:16]


def miscounted(text):
    """Whether the head tells another number of constraints than there are, or fewer variables than are used."""
    head, *lines = text.decode().splitlines()
    declared, rows = map(int, re.findall(r"\d+", head))
    if head.startswith("p cnf"):
        used = [abs(int(word)) for line in lines for word in line.split()]
    else:
        used = [int(word) for line in lines for word in re.findall(r"x(\d+)", line)]
        lines = [line for line in lines if not line.startswith("min:")]
    return rows != len(lines) or max(used, default=0) > declared


def faults_of(command):
    text = made(command)
    if miscounted(text):
        yield f"instances: {command}: the head counts wrongly"
    if digest(text) != DIGESTS.get(command):
        yield f"instances: {command}: the digest is {digest(text)}, not {DIGESTS.get(command)}"


def breaches(archive):
    """What does not fit together in the two sets of versions that are to: what is installed, and what that may be upgraded to."""
    for world in (archive.installed, archive.fitting):
        chosen = set(world.items())
        yield from ((version, wanted) for version in chosen for wanted in archive.depends[version] if not chosen & set(wanted))
        yield from (pair for pair in archive.conflicts if chosen.issuperset(pair))


def peers(room, *outputs):
    """The status, and what is printed, where builds of the program print these outputs."""
    words = []
    for n, output in enumerate(outputs):
        program = room / f"build{n}"
        program.write_text(f"#!/bin/sh\nprintf '{output}'\n")
        program.chmod(0o755)
        words += ["--pbcube", f"b{n}={program}"]
    (room / "one.opb").write_bytes(made("make_small.py cover 6"))
    command = [sys.executable, TOP / "bench/peers.py", *words, "--peers", "", room / "one.opb"]
    ended = ran(command)
    return ended.status, ended.out, ended.err


def faults_of_peers():
    best, other = r"o 7\ns OPTIMUM FOUND\nv x1\n", r"o 8\ns OPTIMUM FOUND\nv x1\n"
    tied = best.replace("x1", "-x1")
    head = "| Instance | Least cost | b0 | b1 |\n|---|---|---|---|\n| one.opb | "
    with tempfile.TemporaryDirectory(prefix="pbcube-instances-") as room:
        status, out, err = peers(Path(room), best, best)
        if status or err or not re.fullmatch(re.escape(head) + r"7 \| \d+\.\d\d \| \d+\.\d\d \|\n", out):
            yield f"instances: peers.py, the same answers: {status} {out} {err}"
        status, out, err = peers(Path(room), best, other)
        if status != 1 or "7 or 8 |" not in out or "answers differ: 7, 8" not in err:
            yield f"instances: peers.py, two costs: {status} {out} {err}"
        status, _, err = peers(Path(room), best, tied)
        if status != 1 or "reports of builds differ" not in err:
            yield f"instances: peers.py, two reports: {status} {err}"
        status, out, _ = peers(Path(room), best, "")
        if status or "no answer" not in out:
            yield f"instances: peers.py, an answer and none: {status} {out}"


def main():
    if "--digests" in sys.argv[1:]:
        print(*(f'    "{command}": "{digest(made(command))}",' for command in COMMANDS), sep="\n")
        return 0
    wrong = [fault for faults in side_by_side(lambda command: list(faults_of(command)), COMMANDS) for fault in faults]
    wrong += faults_of_peers()
    for seed in SEEDS:
        some = list(breaches(Distribution(random.Random(seed), 200)))
        wrong += [f"instances: distribution.py, seed {seed}: {some[0]} does not fit together"] if some else []
    print(*wrong, f"instances: {len(COMMANDS)} instances of bench/, and its peers.py, {len(wrong)} faults", sep="\n")
    return len(wrong) > 0


if __name__ == "__main__":
    sys.exit(main())
