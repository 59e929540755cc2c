"""An archive of packages as distributions of free software have them, and a machine on which two thirds of it are installed.

Packages are built from sources, several from one, in up to three versions that are upgraded together. Most depend on a few that
many need, and on others near by, so what an upgrade needs goes on and on. A dependency names one package, or several, or a
virtual package that many provide; of the providers of some virtual packages one alone may be installed. Conflicts are told both
ways. A newer version may need newer versions, and conflict with older ones of what depends on it.

Two sets of versions fit together for sure: what is installed, and a machine with most of that upgraded, a few packages held back
or removed, and some new. So what is wished for can be had. All numbers are drawn as integers: a seed gives the same archive on
every machine.
"""
MOST_TARGETS = 4
REDRAWS = 30


class Distribution:
    """Packages 0 to n - 1, those first that many need, each with versions 0, 1, .. of one package and number."""

    def __init__(self, rng, packages):
        self.rng = rng
        self.packages = packages
        self.source = []
        self.count = []
        self.draw_sources()
        self.installed = {p: self.installed_version(p) for p in range(packages) if self.chance(65)}
        self.fitting = self.upgraded()
        self.virtual = [self.providers() for _ in range(1 + packages // 100)]
        self.depends = {v: self.lists(v, self.needs(), True) for v in self.versions()}
        self.recommends = {v: self.lists(v, rng.randrange(1, 4), False) for v in self.versions() if self.chance(20)}
        self.conflicts = self.exclusions() + [pair for v in self.versions() for pair in self.breaks(v)]

    def chance(self, percent):
        return self.rng.randrange(100) < percent

    def draw_sources(self):
        while len(self.source) < self.packages:
            built = min(self.rng.choice((1, 1, 1, 2, 2, 3, 5, 8)), self.packages - len(self.source))
            versions = self.rng.choice((1, 1, 1, 2, 2, 2, 2, 2, 2, 3))
            number = self.source[-1] + 1 if self.source else 0
            self.source += [number] * built
            self.count += [versions] * built

    def versions(self):
        return [(package, n) for package, count in enumerate(self.count) for n in range(count)]

    def of(self, package, least=0):
        return [(package, n) for n in range(least, self.count[package])]

    def newest(self, package):
        return self.count[package] - 1

    def installed_version(self, package):
        """The oldest version, and of one source in eight the newest."""
        return self.newest(package) if self.source[package] % 8 == 7 else 0

    def upgraded(self):
        """The versions of a machine where most of what is installed is upgraded, and some packages are new."""
        fitting = {}
        for package in range(self.packages):
            drawn = self.rng.randrange(100)
            if package not in self.installed:
                if drawn < 30:
                    fitting[package] = self.newest(package)
            elif drawn < 12:
                fitting[package] = self.installed[package]
            elif drawn < 97:
                fitting[package] = self.newest(package)
        return fitting

    def fits(self, one, other):
        """Whether the two versions stand together in one of the two sets that fit together for sure."""
        return any(world.get(one[0]) == one[1] and world.get(other[0]) == other[1] for world in (self.installed, self.fitting))

    def providers(self):
        """The versions that provide a virtual package, and whether one alone of their packages may be installed."""
        drawn = self.rng.sample(range(self.packages), min(self.packages, self.rng.choice((2, 2, 3, 3, 4, 4, 5, 5, 8, 8, 12, 40))))
        return [version for package in sorted(drawn) for version in self.of(package)], self.chance(30)

    def target(self, package):
        """The first, which is needed most, one of the few that many need, or one near by."""
        if self.chance(8):
            return 0
        if self.chance(60):
            one, other, third = (self.rng.randrange(self.packages) for _ in range(3))
            return one * other // self.packages * third // self.packages
        return max(0, package - 1 - self.rng.randrange(25))

    def needs(self):
        """How many lists a version depends on: few mostly, at times many."""
        return self.rng.choice((0, 1, 1, 2, 2, 3, 4, 5, 6, 8, 11, 15, 24))

    def lists(self, version, count, must_fit):
        drawn = [self.fitting_list(version, must_fit) for _ in range(count)]
        return [wanted for wanted in drawn if wanted]

    def fitting_list(self, version, must_fit):
        """A list of versions of which one is needed, or nothing where none was found that fits."""
        for _ in range(REDRAWS):
            wanted = self.any_list(version)
            if wanted and not (must_fit and self.is_broken(version, wanted)):
                return wanted
        return []

    def is_broken(self, version, wanted):
        """Whether the version would stand without what it wants in a set of versions that is to fit together."""
        worlds = [world for world in (self.installed, self.fitting) if world.get(version[0]) == version[1]]
        return any(all(world.get(package) != n for package, n in wanted) for world in worlds)

    def any_list(self, version):
        """Versions of one package or of several, all providers of a virtual one, or the same version of one of its source."""
        package, n = version
        kind = self.rng.randrange(100)
        if kind < 8:
            return [one for one in self.rng.choice(self.virtual)[0] if one[0] != package]
        if kind < 20:
            beside = [p for p in range(max(0, package - 8), min(self.packages, package + 8)) if p != package]
            same = [p for p in beside if self.source[p] == self.source[package]]
            return [(self.rng.choice(same), n)] if same else []
        targets = [self.target(package) for _ in range(self.rng.randrange(2, MOST_TARGETS + 1) if kind < 32 else 1)]
        return [one for p in dict.fromkeys(targets) if p != package for one in self.of(p, self.least(n, p))]

    def least(self, n, target):
        """From which version of the target on it is wanted: a newer version needs the newest, two times in five."""
        return self.newest(target) if n > 0 and self.chance(40) else 0

    def exclusions(self):
        """Versions of one package, and the providers of a virtual package that stands alone, each pair told both ways."""
        pairs = [(one, other) for p in range(self.packages) for one in self.of(p) for other in self.of(p) if one != other]
        for provided in [versions for versions, alone in self.virtual if alone]:
            different = [(one, other) for one in provided for other in provided if one[0] != other[0]]
            pairs += [(one, other) for one, other in different if not self.fits(one, other)]
        return pairs

    def breaks(self, version):
        """Pairs of the version and those that it conflicts with: old versions of packages near by and of others."""
        if not self.chance(15):
            return []
        package, n = version
        others = {min(self.packages - 1, package + 1 + self.rng.randrange(25)), self.rng.randrange(self.packages)} - {package}
        old = [(other, m) for other in sorted(others) for m in range(max(1, self.newest(other)))]
        return [(version, one) for one in old if not self.fits(version, one)]
