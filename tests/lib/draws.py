"""Draws small instances, the same ones in each run: of a few variables, in OPB and CNF, of which some have no objective; of up to
twelve, with an objective, each with cubes and a split to divide it by; and, by a generator of its own, of up to eight variables and
constraints of any form, and of random clauses."""
import random

from .instance import Instance, value

SCALE = 1 << 70  # the numbers of every third of these are multiplied by it, so that 64 bits do not hold its sums
FEWEST_VARIABLES, MOST_VARIABLES = 9, 12  # of the others


def instances(count):
    """The same ones in each run."""
    random.seed(19)
    for number in range(count):
        variables = random.randint(2, 7)
        is_cnf = random.random() < 0.3

        def literals(most):
            return [random.choice((1, -1)) * random.randint(1, variables) for _ in range(random.randint(1, most))]

        if is_cnf:
            clauses = [tuple((1, it) for it in literals(3)) for _ in range(random.randint(0, 3 * variables))]
            yield Instance(variables, None, tuple((it, ">=", 1) for it in clauses), True)
            continue
        objective = tuple((random.randint(-9, 9), it) for it in literals(8)) if random.random() < 0.8 else None
        meant = [random.random() < 0.5 for _ in range(variables)]  # most instances have this one among their feasible ones
        constraints = []
        for _ in range(random.randint(0, 2 * variables)):
            terms = tuple((random.randint(-5, 7), it) for it in literals(5))
            relation = random.choice((">=", ">=", ">=", "<=", "="))
            slack = {">=": -1, "<=": 1, "=": 0}[relation] * random.randint(0, 2)
            astray = random.choice((-2, 2)) if random.random() < 0.05 else 0
            constraints.append((terms, relation, value(terms, meant) + slack + astray))
        instance = Instance(variables, objective, tuple(constraints), False)
        yield instance.times(SCALE) if number % 3 == 0 else instance


def small(draw):
    """A coefficient from 1 to 9."""
    return draw.randint(1, 9)


def large(draw):
    """One from 10^12 to less than 3 * 10^17, as many of them long as short. The sums of a statement stay below 2^63."""
    return 10**12 + draw.getrandbits(64 - draw.randint(6, 24))


def drawn(width, number):
    """The instance of this number, its cubes, if any, and how many variables are split."""
    draw = random.Random(f"{width.__name__} {number}")
    variables = draw.randint(FEWEST_VARIABLES, MOST_VARIABLES)
    planted = [draw.random() < 0.5 for _ in range(variables)]  # it meets most constraints, so that most instances are feasible
    rows = [constraint(draw, width, variables, planted) for _ in range(draw.randint(5, 10))]
    instance = Instance(variables, terms(draw, width, variables, variables), tuple(rows), False)
    return instance, cubes(draw, variables), draw.randint(0, 3)


def literal(draw, variables):
    """Mostly a positive one."""
    return draw.choice((1, 1, -1)) * draw.randint(1, variables)


def terms(draw, width, variables, count):
    """A sum of `count` terms, of which many have equal coefficients."""
    first, second, third = (width(draw) for _ in range(3))
    coefficients = [0, -first, -first, *3 * [first], *3 * [second], *3 * [third]]
    return tuple((draw.choice(coefficients), literal(draw, variables)) for _ in range(count))


def constraint(draw, width, variables, planted):
    """One that the planted assignment meets; one in eight goes by another, so that some instances are infeasible."""
    met = [draw.random() < 0.5 for _ in range(variables)] if draw.random() < 1 / 8 else planted
    row = terms(draw, width, variables, draw.randint(4, 8))
    slack = draw.choice((0, width(draw) // 4))
    relation = draw.choice(("=", *2 * ["<="], *5 * [">="]))
    return row, relation, value(row, met) + {"=": 0, "<=": slack, ">=": -slack}[relation]


def cubes(draw, variables):
    """No file, or one of up to four cubes, which may overlap, contradict themselves or be empty."""
    if draw.random() < 1 / 3:
        return None
    lines = [[str(literal(draw, variables)) for _ in range(draw.randint(0, 3))] for _ in range(draw.randint(0, 4))]
    return "".join(" ".join(["a", *line, "0\n"]) for line in lines).encode()


class Random:
    """A linear congruential generator, so that what it draws is the same under each version of Python."""

    def __init__(self, state):
        self.state = state

    def below(self, limit):
        self.state = (self.state * 6364136223846793005 + 1442695040888963407) % (1 << 64)
        return (self.state >> 33) % limit

    def literal(self, variables):
        variable = self.below(variables) + 1
        return variable if self.below(2) == 0 else -variable

    def terms(self, variables, count):
        return tuple((self.below(9) - 3, self.literal(variables)) for _ in range(count))

    def of_any_form(self):
        """An instance of up to eight variables, with an objective, most often, and some constraints."""
        variables = self.below(8) + 1
        objective = None if self.below(5) == 0 else self.terms(variables, variables)
        sums = [self.terms(variables, self.below(5)) for _ in range(self.below(variables + 2))]
        rows = []
        for row in sums:
            bound = self.below(6) - 2
            rows.append((row, ("=", "<=", ">=", ">=", ">=")[self.below(5)], bound))
        return Instance(variables, objective, tuple(rows), False)

    def clauses(self, variables, costs, count):
        """An instance of these costs, if any, and `count` clauses of three literals."""
        rows = [(tuple((1, self.literal(variables)) for _ in range(3)), ">=", 1) for _ in range(count)]
        return Instance(variables, tuple(costs) or None, tuple(rows), False)

    def division(self, variables):
        """Some cubes, which may overlap, contradict themselves or be empty, or none, and how many variables are split."""
        if self.below(2) == 0:
            return None, self.below(min(variables, 3) + 1)
        lines = [[str(self.literal(variables)) for _ in range(self.below(4))] for _ in range(self.below(4))]
        return "".join(" ".join(["a", *line, "0\n"]) for line in lines).encode(), 0
