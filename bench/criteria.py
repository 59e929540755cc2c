"""The rows of a question to a package manager over an archive of `distribution.py`, and what its four criteria count.

The rows are those that package managers write: what a criterion counts has variables of its own, defined both ways.
"""


def text(variables, costs, rows):
    """The instance as OPB."""
    def sum_text(terms):
        return " ".join("%d %sx%d" % (a, "~" if v < 0 else "", abs(v)) for a, v in terms)

    lines = ["* #variable= %d #constraint= %d" % (variables, len(rows))]
    lines.append("min: %s ;" % sum_text(costs))
    lines += ["%s %s %d ;" % (sum_text(terms), relation, bound) for terms, relation, bound in rows]
    return "\n".join(lines) + "\n"


class Rows:
    """Rows over numbered variables: first the versions, those of installed packages before the others."""

    def __init__(self, archive):
        by_number = sorted(archive.versions(), key=lambda version: (version[0] not in archive.installed, version))
        self.number = {version: n + 1 for n, version in enumerate(by_number)}
        self.variables = len(self.number)
        self.rows = []

    def fresh(self):
        self.variables += 1
        return self.variables

    def literals(self, versions):
        return [self.number[version] for version in versions]

    def clause(self, literals):
        self.sum([(1, literal) for literal in literals], ">=", 1)

    def sum(self, terms, relation, bound):
        self.rows.append((terms, relation, bound))

    def none_of(self, literals):
        """A variable that is true where all of these are false."""
        none = self.fresh()
        terms = [(1, literal) for literal in literals]
        if len(literals) == 1:
            self.sum(terms + [(1, none)], "=", 1)
        else:
            self.sum(terms + [(1, none)], ">=", 1)
            self.sum(terms + [(len(literals), none)], "<=", len(literals))
        return none

    def some_of(self, literals):
        """A variable that is true where one of these is: the variable itself where it is the only one."""
        if len(literals) == 1:
            return literals[0]
        some = self.fresh()
        terms = [(1, literal) for literal in literals]
        self.sum(terms + [(-1, some)], ">=", 0)
        self.sum(terms + [(-len(literals), some)], "<=", 0)
        return some

    def older_alone(self, older, newest):
        """A variable that is true where one of the older versions is installed and the newest is not."""
        behind = self.fresh()
        terms = [(1, literal) for literal in older] + [(-len(older), newest), (-len(older) - 1, behind)]
        self.sum(terms, "<=", 0)
        self.sum(terms, ">=", -len(older))
        return behind

    def unmet(self, version, wanted):
        """A variable that is true where the version is installed and none of what it recommends is."""
        unmet = self.fresh()
        none = self.none_of(wanted) if len(wanted) > 1 else -wanted[0]
        self.clause([-unmet, version])
        self.clause([-unmet, none])
        self.clause([unmet, -version, -none])
        return unmet


def criteria(rows, archive):
    """Of each criterion the variables that it counts: removed, not up to date, recommendations not met, new."""
    installed = sorted(archive.installed)
    absent = [package for package in range(archive.packages) if package not in archive.installed]
    removed = [rows.none_of(rows.literals(archive.of(package))) for package in installed]
    behind = []
    for package in (package for package in range(archive.packages) if archive.count[package] > 1):
        *older, newest = rows.literals(archive.of(package))
        behind.append(rows.older_alone(older, newest))
    wanted = [(rows.number[version], rows.literals(some)) for version, lists in archive.recommends.items() for some in lists]
    unmet = [rows.unmet(version, some) for version, some in wanted]
    new = [rows.some_of(rows.literals(archive.of(package))) for package in absent]
    return [removed, behind, unmet, new]


def demands(rows, archive, wishes):
    """The rows of dependencies, of conflicts, and of the wishes, of each of which one version must be installed."""
    for version, lists in archive.depends.items():
        for wanted in lists:
            rows.clause([-rows.number[version]] + rows.literals(wanted))
    for one, other in archive.conflicts:
        rows.sum([(1, rows.number[one]), (1, rows.number[other])], "<=", 1)
    for wish in wishes:
        rows.clause(rows.literals(wish))


def folded(counted):
    """Costs in which a step of a criterion weighs more than all that the criteria after it count."""
    weight, costs = 1, []
    for variables in reversed(counted):
        costs = [(weight, variable) for variable in variables] + costs
        weight *= len(variables) + 1
    return costs


def question(archive, wishes, least):
    """The instance with the criteria folded into one sum; or, given the least of the first ones, with the next as its objective."""
    rows = Rows(archive)
    counted = criteria(rows, archive)
    demands(rows, archive, wishes)
    if least is None:
        return text(rows.variables, folded(counted), rows.rows)
    for variables, count in zip(counted, least):
        rows.sum([(1, variable) for variable in variables], "=", count)
    costs = [(1, variable) for variable in counted[len(least)]]
    return text(rows.variables, costs, rows.rows)
