#!/usr/bin/env python3
"""Writes a question to a package manager to standard output: an archive of packages, what is installed, and what is wanted.

    make_packages.py PACKAGES [SEED] [--requests N] [--older SHARE]
    make_packages.py PACKAGES [SEED] [--requests N] --distribution
    make_packages.py PACKAGES [SEED] [--requests N] --levels [K ...]

Each package has one to five versions, of which one at most can be installed. A version depends on others: on one of some
versions of a package, or of some packages; and it conflicts with old versions of a few. A part of the archive is installed,
in versions that fit together, a share of them (0.5 unless --older says another) behind the newest. Some packages are to be
installed, others to be upgraded (--requests of either, 5 unless it says otherwise). The newest versions of all that is needed
fit together, so there is a solution.

The objective has four levels, folded into one: as few packages as can be are removed; of those that are left as few as can
be are behind their newest version; as few as can be are new; and what is installed is small.

With --distribution the archive is that of `distribution.py`, and much harder. It has four criteria: packages that are removed,
that are not up to date, recommendations that are not met, and packages that are new, as few as can be. They are folded into one
sum. With --levels the objective is one of them: the first, or the one after those whose least counts are the K.
"""
import argparse
import random
import sys

sys.dont_write_bytecode = True
import criteria
from distribution import Distribution

MOST_VERSIONS = 5
INSTALLED_SHARE = 0.4


class Archive:
    """Packages 0 to n - 1, each with versions 0, 1, .. of which one is the old one that fits all other old ones."""

    def __init__(self, rng, packages, older):
        self.rng = rng
        self.count = [1 + min(MOST_VERSIONS - 1, int(rng.expovariate(0.7))) for _ in range(packages)]
        self.old = [rng.randrange(n) if rng.random() < older else n - 1 for n in self.count]
        self.size = [rng.randint(1, 100) for _ in range(packages)]
        self.depends = {v: [self.dependency(v) for _ in range(self.dependencies())] for v in self.versions()}
        self.conflicts = {v: self.conflict(v) for v in self.versions() if rng.random() < 0.15}

    def versions(self):
        return [(package, n) for package, count in enumerate(self.count) for n in range(count)]

    def newest(self, package):
        return self.count[package] - 1

    def dependencies(self):
        return min(6, int(self.rng.expovariate(0.5)))

    def other(self, package):
        """Another package: mostly one of the few on which many depend."""
        while True:
            other = int(len(self.count) * self.rng.random() ** 2.5)
            if other != package:
                return other

    def fits(self, version, other):
        """Whether the two may stand together for good: both old, or both the newest."""
        (package, n), (target, m) = version, other
        both_old = n == self.old[package] and m == self.old[target]
        return both_old or (n == self.newest(package) and m == self.newest(target))

    def dependency(self, version):
        """A list of versions of which one is needed, those first that always do."""
        package, _ = version
        targets = [self.other(package) for _ in range(self.rng.choice((1, 1, 1, 1, 2, 3)))]
        wanted = []
        for target in dict.fromkeys(targets):
            least = self.rng.choice((0, 0, self.rng.randrange(self.count[target])))
            some = [(target, m) for m in range(self.count[target])]
            wanted += [one for one in some if one[1] >= least or self.fits(version, one)]
        return wanted

    def conflict(self, version):
        target = self.other(version[0])
        least = self.rng.randint(0, self.newest(target))
        older = [(target, m) for m in range(least)]
        return [one for one in older if not self.fits(version, one)]

    def installed(self, roots):
        """The roots, and what they need, each package in its old version."""
        chosen, left = {}, list(roots)
        while left:
            package = left.pop()
            if package in chosen:
                continue
            chosen[package] = self.old[package]
            for wanted in self.depends[package, self.old[package]]:
                if not any(target in chosen for target, _ in wanted):
                    left.append(wanted[0][0])
        return chosen


def question(rng, archive, requests):
    """What is installed, and of each wish the versions of which one must be."""
    packages = len(archive.count)
    installed = {}
    while len(installed) < INSTALLED_SHARE * packages:
        more = archive.installed([rng.randrange(packages)])
        installed.update(more)
    absent = [p for p in range(packages) if p not in installed]
    behind = [p for p in installed if installed[p] < archive.newest(p)]
    wishes = [[(p, n) for n in range(archive.count[p])] for p in rng.sample(absent, min(requests, len(absent)))]
    for p in rng.sample(behind, min(requests, len(behind))):
        wishes.append([(p, n) for n in range(installed[p] + 1, archive.count[p])])
    return installed, wishes


def constraints(archive, installed, wishes, number, removed):
    """Each as its terms and what they must be at least."""
    rows = []
    for package, count in enumerate(archive.count):
        if count > 1:
            rows.append(([(1, -number[package, n]) for n in range(count)], count - 1))
    for version, lists in archive.depends.items():
        for wanted in lists:
            rows.append(([(1, -number[version])] + [(1, number[one]) for one in wanted], 1))
    for version, others in archive.conflicts.items():
        rows += [([(1, -number[version]), (1, -number[one])], 1) for one in others]
    for package in installed:
        stays = [(1, number[package, n]) for n in range(archive.count[package])]
        rows.append(([(1, removed[package])] + stays, 1))
    rows += [([(1, number[one]) for one in wish], 1) for wish in wishes]
    return rows


def objective(archive, installed, number, removed):
    """The levels folded into one: a step of a level weighs more than all of the levels below it."""
    packages = len(archive.count)
    new = sum(archive.size) + 1
    behind = new * (packages + 1)
    gone = behind * (packages + 1)
    costs = {variable: gone for variable in removed.values()}
    for package, n in archive.versions():
        weight = archive.size[package]
        if n < archive.newest(package):
            weight += behind
        if package not in installed:
            weight += new
        costs[number[package, n]] = weight
    return costs


def small_archive(rng, options):
    """The instance over an archive in which what is installed was drawn first."""
    archive = Archive(rng, options.packages, options.older)
    installed, wishes = question(rng, archive, options.requests)
    number = {version: n + 1 for n, version in enumerate(archive.versions())}
    removed = {package: len(number) + n + 1 for n, package in enumerate(sorted(installed))}
    rows = [(terms, ">=", bound) for terms, bound in constraints(archive, installed, wishes, number, removed)]
    costs = objective(archive, installed, number, removed)
    return criteria.text(len(number) + len(removed), [(costs[v], v) for v in sorted(costs)], rows)


def distribution(rng, options):
    """The instance over the archive of a distribution: some packages are to be new, and of others a newer version is wanted."""
    archive = Distribution(rng, options.packages)
    absent = [p for p in archive.fitting if p not in archive.installed]
    behind = [p for p in archive.fitting if archive.fitting[p] > archive.installed.get(p, archive.newest(p))]
    wishes = [archive.of(p) for p in sorted(rng.sample(absent, min(options.requests, len(absent))))]
    wishes += [archive.of(p, archive.fitting[p]) for p in sorted(rng.sample(behind, min(options.requests, len(behind))))]
    return criteria.question(archive, wishes, options.levels)


def main():
    words = argparse.ArgumentParser(description=__doc__.splitlines()[0])
    words.add_argument("packages", type=int)
    words.add_argument("seed", nargs="?", default="1")
    words.add_argument("--requests", type=int, default=5)
    words.add_argument("--older", type=float, default=0.5)
    words.add_argument("--distribution", action="store_true")
    words.add_argument("--levels", type=int, nargs="*", metavar="K")
    options = words.parse_args()
    if options.levels and len(options.levels) > 3:
        words.error("there are four criteria: three K at most")
    rng = random.Random("packages %d %s" % (options.packages, options.seed))
    write = small_archive if options.levels is None and not options.distribution else distribution
    sys.stdout.write(write(rng, options))


if __name__ == "__main__":
    main()
