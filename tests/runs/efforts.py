#!/usr/bin/env python3
"""Searches worked instances by `bench`, and prints where that takes more decisions than it is to take.

    tests/runs/efforts.py [PROGRAM ..]
    tests/runs/efforts.py --measure [PROGRAM]

A PROGRAM is a build of `bench`; without one it takes those that the merge gate built. Each family needs a part of the search that
others can do without; its comment tells how many times as many decisions it takes where that part is lost. A search makes the same
decisions in each run, so that their number needs no clock. A search asks for what others found at its beginning and whenever 256 more
decisions have passed, probes and those of dives among them, and offers nothing where nothing is feasible. With --measure it prints the
decisions of today in place of the bounds.
"""
import re
import subprocess
import sys
from dataclasses import dataclass
from pathlib import Path

sys.dont_write_bytecode = True
sys.path.insert(0, str(Path(__file__).resolve().parents[1]))
from lib import SECONDS, built, ran, side_by_side
from lib.draws import Random
from lib.efforts import chain, crowd_behind_ring, failing_behind_ring, filled_cover, gated_cover, packing, pigeons, ring_cover, schedule
from lib.made import Made

INTERVAL = 256  # decisions after which a search asks again


@dataclass(frozen=True)
class Effort:
    """Instances, how many decisions the searches of all of them may take together, by how many variables each is split into pieces,
    whether the search of the whole begins before them, and whether they have no budget, as a run without `--nodes` has none."""

    most: int
    instances: list
    split: int = 0
    begins: bool = False
    is_unlimited: bool = False

    def command(self):
        """What asks `bench` for the search. `pieces` begins with the whole before the pieces, as a run does. An `unlimited` search takes
        fewer bounds, and its decisions are counted by intervals."""
        if self.is_unlimited:
            return "unlimited"
        return f"{'pieces' if self.begins else 'search'} {self.split}"


@dataclass(frozen=True)
class Told:
    """What a program told of a search: whether it found something, its decisions, and how often it offered something and asked."""

    is_feasible: bool
    decisions: int
    offered: int
    asked: int

    def is_shared_rightly(self, split):
        """Of several pieces each asks for itself."""
        return (split > 0 or self.asked == self.decisions // INTERVAL + 1) and (self.offered > 0) == self.is_feasible


def clauses(state, variables, count, costs=()):
    """Random clauses of three literals, and these costs of variables."""
    return Random(state).clauses(variables, costs, count)


def few_costs(state):
    """375 random clauses over 150 variables, of which every fifth costs something, from 1 to 7."""
    return clauses(state, 150, 375, [(place % 7 + 1, place + 1) for place in range(0, 150, 5)])


FAMILIES = {
    # Propagation gives all its values.
    "a chain needs no more than propagation": [Effort(0, [chain(60)])],
    # Pigeons without room behind a ring whose variables occur more often. After the first conflicts the pigeons come before the
    # ring; else choices on the ring search them anew, which takes twenty times as many decisions.
    "conflicts bring their variables forward": [Effort(1_780, [crowd_behind_ring(20, 4)])],
    # Short rings are searched soon, where the dear and the much needed are decided first.
    "costs and occurrences lead the search": [Effort(380, [ring_cover(size) for size in (36, 40, 44, 48)])],
    # Without the bound of the multipliers five longer rings take over a thousand times as many decisions, and where the search does
    # not step back to its root at the first solution four times as many.
    "multipliers keep long rings short": [Effort(3_270, [ring_cover(size) for size in (80, 120, 160, 200, 240)])],
    # Where the search dives from its root the least cost of still longer rings is known at once; else two of them take over six
    # times as many decisions.
    "dives find the least cost early": [Effort(2_880, [ring_cover(size) for size in (390, 500)])],
    # Dives that look for an assignment within a limit of cost find the least cost of these clauses. Where dives have no limits the two
    # searches take three times as many decisions.
    "dives within limits find the least cost": [Effort(975, [few_costs(39), few_costs(50)])],
    # After a conflict a dive also takes back the decisions that had no part in it. Else this question to a package manager takes nearly
    # four times as many decisions.
    "dives go back to what led to a conflict": [Effort(6_830, [Made("make_packages.py 460 17 --distribution")])],
    # After a much better assignment the search steps back to its root, where more may be fixed and dives begin again. Else this question
    # takes five times as many decisions.
    "a better assignment leads back to the root": [Effort(93_200, [Made("make_packages.py 460 10 --distribution")])],
    # A dive looks for something below the best cost, so it turns back where the multipliers' bound reaches that. Else this question,
    # searched without a budget, takes over twenty times as many decisions.
    "dives look below the best cost": [Effort(52_700, [Made("make_packages.py 400 50 --distribution")], is_unlimited=True)],
    # After thousands of flips the search steps back to its root if it has found a much better assignment since its last dive from there.
    # Else this question, searched without a budget, takes over ten times as many decisions.
    "late steps back lead to better assignments": [Effort(173_000, [Made("make_packages.py 400 59 --distribution")], is_unlimited=True)],
    # Once the gates are known to be closed, the multipliers are improved beside what that leaves. Beside no literal at all they count
    # on open gates, and the covers take fifty times as many decisions. Where gates are not tried at the root, or the search does not
    # dive from there, it is over twice as many.
    "multipliers follow what the root forces": [Effort(740, [gated_cover(size, 8) for size in (60, 80)])],
    # Where the best cost falls at the root, or its trail grows, all multipliers are improved anew. Else covers with one gate take five
    # times as many decisions.
    "multipliers are improved anew at the root": [Effort(465, [gated_cover(size, 1) for size in (60, 80, 100)])],
    # What the root forces leaves rows that need less than their coefficients. With these as they are the relaxation is a fourth of what
    # it could be, and the two covers take a hundred times as many decisions.
    "rows count no more than what they need": [Effort(340, [filled_cover(size) for size in (80, 90)])],
    # Of the four squares around a corner one at most is taken. As clauses of two squares each that is a weak bound, and the search of the
    # grid, without a budget, takes over a hundred thousand decisions.
    "cliques bound what their clauses do not": [Effort(256, [Made("make_small.py grid 10")], is_unlimited=True)],
    # The first-order method comes near to the best multipliers of jobs that are in each other's way, which one row after the other does
    # not: without it three schedules take eighteen times as many decisions.
    "all rows are shifted at once": [Effort(270, [schedule(jobs) for jobs in (5, 6, 7)])],
    # A literal that fails at the root is not met again below each decision on the ring, of which there are 600; else it takes five times
    # as many.
    "literals that fail are fixed": [Effort(780, [failing_behind_ring()])],
    # Of eight pigeons one finds no hole, which takes thousands of decisions.
    "pigeons without a hole are refuted": [Effort(28_400, [pigeons(7)])],
    # One search counts the decisions of each of its pieces anew. Counted on from piece to piece they are four times as many.
    "each piece has a count of its own": [Effort(420, [pigeons(5)], split=2)],
    # A split leaves nothing beside its cubes, and the search of the remainder finds that in a few turns. If its root were worked on as
    # that of a cube is, all pieces together would take four and eleven times as many decisions.
    "what a split leaves is seen to be empty": [Effort(1_820, [ring_cover(160)], split=3), Effort(330, [gated_cover(60, 8)], split=5)],
    # The root of the whole closes nearly all of a long ring, and its pieces are searched below that. Where each begins anew at its own
    # root they take over a hundred times as many decisions.
    "pieces are searched below the whole": [Effort(2_560, [ring_cover(240), ring_cover(390)], split=4, begins=True)],
    # Thirteen things find no room in four bins of three each. Thing by thing two million decisions tell that; the multipliers do once
    # the search has gone on for a while.
    "a packing without room is refuted": [Effort(2_820, [packing(13, 4, 3)])],
    # A few clauses leave most values free, so after the first solution only the order of assignments is left. Settled anew below each
    # decision of the first way down it takes ten times as many decisions.
    "ties are settled once": [Effort(6_080, [clauses(1, 300, 750)])],
    # Where nearly all values are free they are settled in order, from the first variable to the last. Up to the first difference alone
    # that takes nineteen times as many decisions, since each improvement begins it again.
    "ties are settled in order": [Effort(900, [clauses(1, 400, 800)])],
    # Before the first difference to the best assignment a variable has nothing to give where it is true. Tried with both values they
    # take five times as many decisions.
    "ties have one side": [Effort(1_600, [clauses(9, 180, 650)])],
    # The same where some variables cost something, and the least cost is found soon. Where the search does not step back to its root it
    # takes six times as many decisions, and where conflicts bring no variables forward seven times as many.
    "ties of a cost are settled once": [Effort(5_100, [clauses(1, 300, 750, [(1, place) for place in range(291, 301)])])],
    # Of these schedules few shifts cost something, so that after the first assignment of the least cost ties alone are left. There the
    # best assignment's values come first, and conflicts bring forward what led to them. Else it takes eight times as many decisions.
    "ties follow the best assignment": [Effort(3_130, [Made("make_small.py staff 6", part=16)])],
    # Clauses without a solution. Where what led to a conflict does not come forward with the row that could not be met, that takes three
    # times as many decisions, and so it does where what was long ago counts for as much.
    "what led to conflicts comes forward": [Effort(3_970, [clauses(25, 130, 570)])],
    # Decided first, a few variables with a cost tell early what the rest will cost. Else one search takes nine times as many decisions,
    # and the other five times.
    "few costs come first": [Effort(175, [few_costs(4)]), Effort(361, [few_costs(52)])],
    # Of two values the one that costs less by the multipliers is decided first. Else one search takes six times as many decisions, and
    # the other nearly ten times.
    "the cheaper value comes first": [Effort(240, [few_costs(12)]), Effort(410, [few_costs(23)])],
}


def told(program, instance, command):
    """What the program tells of the search of the instance; none where it does not end in time."""
    try:
        said = ran([program], input=f"{command}\n{instance.text()}".encode()).err
    except subprocess.TimeoutExpired:
        said = ""
    words = re.fullmatch(r"cost (.+), (\d+) decisions, searched in .+, (\d+) improvements, asked (\d+) times\n", said)
    return Told(words[1] != "None", *map(int, words.groups()[1:])) if words else None


def told_of_all(program, effort):
    """The same of each instance of the effort."""
    return [told(program, it, effort.command()) for it in effort.instances]


def counted(told):
    """The decisions of all searches together; none where one did not end in time."""
    return None if None in told else sum(it.decisions for it in told)


def complaint(family, effort, told):
    """What is wrong with what was told, or None."""
    count = counted(told)
    if count is None:
        return f"{family}: no count within {SECONDS} seconds"
    unshared = [it for it in told if not it.is_shared_rightly(effort.split)]
    if unshared:
        return f"{family}: wrongly asked or offered: {unshared}"
    return f"{family}: {count} decisions, where {effort.most} are enough" if count > effort.most else None


def main(words):
    programs = [Path(it).absolute() for it in words if it != "--measure"] or built(["bench"])
    jobs = [(it, family, effort) for it in programs for family, efforts in FAMILIES.items() for effort in efforts]
    every = side_by_side(lambda job: told_of_all(job[0], job[2]), jobs)
    if "--measure" in words:
        print(*[f"{family}: {counted(told)} of {effort.most}" for (_, family, effort), told in zip(jobs, every)], sep="\n")
        return 0
    said = [complaint(family, effort, told) for (_, family, effort), told in zip(jobs, every)]
    wrong = [f"efforts: {program.name}: {it}" for (program, _, _), it in zip(jobs, said) if it]
    print(*wrong, f"efforts: {len(jobs) - len(wrong)} passed, {len(wrong)} failed", sep="\n")
    return 1 if wrong else 0


if __name__ == "__main__":
    sys.exit(main(sys.argv[1:]))
