"""Instances that were worked out for the effort of their search: each needs a part of it that others can do without."""
from .instance import Instance

CHORDS = (1, 7)  # the steps between the two of a ring's pair


def of(variables, costs, rows):
    """The instance of these costs, where there are any, and rows."""
    return Instance(variables, tuple(costs) or None, tuple(rows), False)


def clause(*literals):
    return tuple((1, it) for it in literals), ">=", 1


def chain(variables):
    """The first variable is true, and each is other than the one before it."""
    links = [(((1, it), (1, it + 1)), "=", 1) for it in range(1, variables)]
    return of(variables, [], [clause(1), *links])


def ring(size, steps):
    """The pairs of variables on a ring that are one of these numbers of steps apart."""
    return [(place + 1, (place + step) % size + 1) for place in range(size) for step in steps]


def ring_costs(size):
    """The costs 1 to 11 in turn on a ring, no two alike next to each other."""
    return [(place * 7 % 11 + 1, place + 1) for place in range(size)]


def ring_cover(size):
    """One of every two neighbours on a ring with chords is chosen, at least cost."""
    return of(size, ring_costs(size), [clause(*pair) for pair in ring(size, CHORDS)])


def ring_before_others(size, others):
    """One of any two near each other on a ring is chosen, and there are `others` more variables, which no row names."""
    return of(size + others, [], [clause(*pair) for pair in ring(size, (1, 2))])


def gated_cover(size, gates):
    """The cover where each row is also met by an open gate: `gates` gates, each of as many rows one after the other. What follows
    from an open one contradicts itself, so none is; but the relaxation opens half of each."""
    gate_of = [size + 2 * gate + 1 for gate in range(gates)]
    rows = [clause(*pair, gate_of[number * gates // (2 * size)]) for number, pair in enumerate(ring(size, CHORDS))]
    closed = [clause(-gate, side) for gate in gate_of for side in (gate + 1, -gate - 1)]
    return of(size + 2 * gates, ring_costs(size), rows + closed)


def filled_cover(size):
    """One of every two neighbours on a ring with chords is chosen, at least cost, by rows that need 4: a variable that is true in any
    case gives 3, and either neighbour 4. By the relaxation an eighth of both is enough."""
    filling = size + 1
    rows = [(((4, one), (4, other), (3, filling)), ">=", 4) for one, other in ring(size, CHORDS)]
    return of(filling, ring_costs(size), [*rows, clause(filling)])


def crowd(after, holes):
    """Each pigeon sits in a hole, and no two in one, though there is one pigeon more than holes. All of it is clauses, of which
    multipliers tell nothing."""
    seats = [[after + pigeon * holes + hole + 1 for hole in range(holes)] for pigeon in range(holes + 1)]
    pairs = [(-one[hole], -other[hole]) for hole in range(holes) for number, one in enumerate(seats) for other in seats[:number]]
    return [clause(*it) for it in [*seats, *pairs]]


def pigeons(holes):
    """The clauses of `crowd` alone."""
    return of((holes + 1) * holes, [], crowd(0, holes))


def crowd_behind_ring(size, holes):
    """More pigeons than holes behind a ring of `size` variables, of which one of any two near each other is chosen."""
    near = [clause(*pair) for pair in ring(size, (1, 2, 3, 4))]
    return of(size + (holes + 1) * holes, [], near + crowd(size, holes))


def failing_behind_ring():
    """The pairs of a ring on the variables after the first five, and clauses over these: the first one fails with either value."""
    failing = [(-1, 2), (-1, 3), (-2, -3), (1, 4), (1, 5), (-4, -5)]
    behind = [(one + 5, other + 5) for one, other in ring(600, (1, 2, 3))]
    return of(605, [], [clause(*pair) for pair in behind + failing])


def packing(things, bins, room):
    """Things, each of which lies in one of the bins, and at most `room` of them in one bin."""
    places = [[thing * bins + bin + 1 for bin in range(bins)] for thing in range(things)]
    lies = [(tuple((1, it) for it in row), "=", 1) for row in places]
    return of(things * bins, [], lies + [(tuple((1, it) for it in column), "<=", room) for column in zip(*places)])


def things_without_a_place(things, places):
    """Things, each of which lies at one of the places, and no two at one place. The first thing costs something at the first place."""
    at = [[thing * places + place + 1 for place in range(places)] for thing in range(things)]
    alone = [(tuple((1, it) for it in column), "<=", 1) for column in zip(*at)]
    return of(things * places, [(1, 1)], [clause(*row) for row in at] + alone)


def schedule(jobs):
    """Jobs one after the other on a machine, each with a price for each hour until its end."""
    lengths = [job * 3 % 4 + 1 for job in range(jobs)]
    hours = sum(lengths)

    def begins(job, first, end):
        """The variables that say that the job begins at such an hour."""
        return [job * hours + begin + 1 for begin in range(max(first, 0), min(end, hours - lengths[job] + 1))]

    starts = [begins(job, 0, hours) for job in range(jobs)]
    costs = [((job * 5 % 9 + 1) * (begin + lengths[job]), it) for job in range(jobs) for begin, it in enumerate(starts[job])]
    once = [(tuple((1, it) for it in row), "=", 1) for row in starts]
    busy = [[it for job in range(jobs) for it in begins(job, hour - lengths[job] + 1, hour + 1)] for hour in range(hours)]
    return of(jobs * hours, costs, once + [(tuple((1, it) for it in row), "<=", 1) for row in busy])
