#!/usr/bin/env python3
"""Writes a small instance of a family to standard output, for measuring searches.

    make_small.py FAMILY SIZE [SEED]

    random      SIZE variables, costs and sums with coefficients of either sign, half as many constraints
    cover       vertices of a graph with SIZE vertices that touch each edge, of least weight
    sets        sets of least cost that together hold SIZE elements
    knapsack    the most valuable of SIZE things under three limits
    machines    SIZE jobs, each on one of three machines, under their hours, at least cost
    routes      parcels that move over SIZE hops between towns, at least cost of the legs that are used
    parity      SIZE variables in sums that are even or odd, with a cost for each
    units       vertices of a graph with SIZE vertices that touch each edge, as few as can be
    domination  vertices of a graph with SIZE vertices such that each vertex is one or is next to one, of least weight
    assignment  SIZE workers, each for one of SIZE tasks, at least cost under a limit on the hours of all
    shifts      SIZE patterns of five shifts in a row, taken to give each of the 14 shifts of a week its people at least cost
    schedule    SIZE jobs one after the other on a machine, each with a price for each hour until its end
    cut         two sides for SIZE vertices of a graph such that the edges between the sides are worth most
    grid        squares of a board of SIZE by SIZE that do not touch, not even at corners, worth most
    garden      plants on a board of SIZE by SIZE, in or beside each square but not crowded, at least cost
    options     SIZE features, one of four options for each, that need one another, under two limits, at least cost
    features    a product line of SIZE features in a tree, of which some need or exclude others, at least price
    staff       SIZE people for the three shifts of each day of a week, with rest, hours, skills and wishes, at least cost
    pictures    a picture of SIZE by SIZE squares, of which the lengths of the runs in each row and column are known
    clauses     clauses of three literals over SIZE variables, 4.2 for each variable (a text of clauses)
    colours     three colours for a graph with SIZE vertices (a text of clauses)

For rounds on an engine (`bench`) there are

    rows        two rows for each of SIZE variables, of five literals with coefficients 1 to 4 that are to reach 3; each tenth costs 1
    chain       just one of each two neighbours among SIZE variables
    wide        one row, that some of SIZE variables is true
"""
import random
import sys


def sum_text(terms):
    return " ".join("%d %sx%d" % (a, "~" if v < 0 else "", abs(v)) for a, v in terms)


def linear(variables, costs, rows):
    lines = ["* #variable= %d #constraint= %d" % (variables, len(rows))]
    if costs:
        lines.append("min: %s ;" % sum_text(costs))
    lines += ["%s %s %d ;" % (sum_text(terms), relation, bound) for terms, relation, bound in rows]
    return "\n".join(lines) + "\n"


def clausal(variables, clauses):
    lines = ["p cnf %d %d" % (variables, len(clauses))]
    lines += [" ".join(map(str, clause)) + " 0" for clause in clauses]
    return "\n".join(lines) + "\n"


def edges(rng, vertices, mean_degree):
    drawn = set()
    while len(drawn) < min(int(vertices * mean_degree / 2), vertices * (vertices - 1) // 2):
        one, other = rng.sample(range(1, vertices + 1), 2)
        drawn.add((min(one, other), max(one, other)))
    return sorted(drawn)


def counted(literals, relation, count):
    return [(1, v) for v in literals], relation, count


def weighted(rng, least, most, variables):
    return [(rng.randint(least, most), v) for v in variables]


def near(size, row, column, steps):
    places = [(row + down, column + right) for down, right in steps]
    return [size * r + c + 1 for r, c in places if 0 <= r < size and 0 <= c < size]


def any_sums(rng, size):
    def terms(count):
        return [(rng.choice((-1, 1)) * rng.randint(1, 9), v) for v in sorted(rng.sample(range(1, size + 1), count))]

    rows = []
    for _ in range(size // 2):
        row = terms(min(size, 6))
        middle = sum(a for a, _ in row) // 2
        rows.append((row, rng.choice((">=", ">=", "<=")), middle))
    return linear(size, terms(size), rows)


def cover(rng, size):
    costs = weighted(rng, 1, 20, range(1, size + 1))
    return linear(size, costs, [counted(edge, ">=", 1) for edge in edges(rng, size, 5)])


def sets(rng, size):
    costs = weighted(rng, 3, 25, range(1, size + 1))
    rows = [counted(sorted(rng.sample(range(1, size + 1), min(size, 5))), ">=", 1) for _ in range(size)]
    return linear(size, costs, rows)


def knapsack(rng, size):
    values = [(-rng.randint(10, 90), v) for v in range(1, size + 1)]
    rows = []
    for _ in range(3):
        weights = weighted(rng, 10, 90, range(1, size + 1))
        rows.append((weights, "<=", sum(a for a, _ in weights) // 2))
    return linear(size, values, rows)


def machines(rng, size):
    def on(job, machine):
        return 3 * job + machine + 1

    costs = [(rng.randint(1, 30), on(j, m)) for j in range(size) for m in range(3)]
    rows = [counted([on(j, m) for m in range(3)], "=", 1) for j in range(size)]
    for machine in range(3):
        hours = [(rng.randint(2, 20), on(j, machine)) for j in range(size)]
        rows.append((hours, "<=", 4 * sum(a for a, _ in hours) // 11))
    return linear(3 * size, costs, rows)


def routes(rng, size):
    towns, parcels = 5, 3
    legs = sorted((a, b) for a in range(towns) for b in rng.sample(range(towns), 3) if a != b)
    place = {key: n + 1 for n, key in enumerate((t, p, a) for t in range(size + 1) for p in range(parcels) for a in range(towns))}
    used = {key: len(place) + n + 1 for n, key in enumerate((t, leg) for t in range(size) for leg in legs)}
    price = {leg: rng.randint(1, 9) for leg in legs}
    rows = []
    for parcel in range(parcels):
        start, end = rng.sample(range(towns), 2)
        rows.append(([(1, place[0, parcel, start])], ">=", 1))
        rows.append(([(1, place[size, parcel, end])], ">=", 1))
        for t in range(size + 1):
            rows.append(([(1, place[t, parcel, a]) for a in range(towns)], "=", 1))
        for t in range(size):
            for a in range(towns):
                for b in range(towns):
                    if a != b:
                        moves = [(1, -place[t, parcel, a]), (1, -place[t + 1, parcel, b])]
                        rows.append((moves + ([(1, used[t, (a, b)])] if (a, b) in legs else []), ">=", 1))
    costs = [(price[leg], used[t, leg]) for t in range(size) for leg in legs]
    return linear(len(place) + len(used), costs, rows)


def parity(rng, size):
    rows = []
    variables = size
    for _ in range(size // 2):
        drawn = sorted(rng.sample(range(1, size + 1), min(size, 5)))
        halves = [variables + 1, variables + 2]
        variables += 2
        terms = [(1, v) for v in drawn] + [(-2, v) for v in halves]
        rows.append((terms, "=", rng.randint(0, 1)))
    return linear(variables, [(rng.randint(1, 9), v) for v in range(1, size + 1)], rows)


def units(rng, size):
    costs = [(1, v) for v in range(1, size + 1)]
    return linear(size, costs, [counted(edge, ">=", 1) for edge in edges(rng, size, 5)])


def domination(rng, size):
    beside = {v: {v} for v in range(1, size + 1)}
    for a, b in edges(rng, size, 4):
        beside[a].add(b)
        beside[b].add(a)
    costs = weighted(rng, 1, 20, beside)
    return linear(size, costs, [counted(sorted(group), ">=", 1) for group in beside.values()])


def assignment(rng, size):
    pairs = sorted({(w, t) for w in range(size) for t in [w] + rng.sample(range(size), min(size, 6))})
    number = {pair: n + 1 for n, pair in enumerate(pairs)}
    costs = weighted(rng, 1, 99, number.values())
    rows = []
    for side in range(2):
        for one in range(size):
            rows.append(counted([number[pair] for pair in pairs if pair[side] == one], "=", 1))
    # Each worker can do the task of the same number in 8 hours: the limit can be kept.
    hours = [(rng.randint(1, 8 if w == t else 20), number[w, t]) for w, t in pairs]
    rows.append((hours, "<=", 8 * size))
    return linear(len(pairs), costs, rows)


def shifts(rng, size):
    week = 14
    first = [rng.randrange(week) for _ in range(size)]
    costs = weighted(rng, 5, 40, range(1, size + 1))
    rows = []
    for shift in range(week):
        there = [n + 1 for n, begin in enumerate(first) if (shift - begin) % week < 5]
        if there:
            rows.append(counted(there, ">=", rng.randint(1, len(there) // 2 + 1)))
    return linear(size, costs, rows)


def schedule(rng, size):
    jobs = [(rng.randint(1, 4), rng.randint(1, 9)) for _ in range(size)]
    hours = sum(length for length, _ in jobs)
    starts = [(job, begin) for job in range(size) for begin in range(hours - jobs[job][0] + 1)]
    number = {start: n + 1 for n, start in enumerate(starts)}
    costs = [(jobs[j][1] * (begin + jobs[j][0]), number[j, begin]) for j, begin in starts]
    rows = [counted([number[start] for start in starts if start[0] == j], "=", 1) for j in range(size)]
    for hour in range(hours):
        busy = [number[j, begin] for j, begin in starts if begin <= hour < begin + jobs[j][0]]
        rows.append(counted(busy, "<=", 1))
    return linear(len(starts), costs, rows)


def cut(rng, size):
    rows, values = [], []
    for n, (a, b) in enumerate(edges(rng, size, 4)):
        between = size + n + 1
        rows += [counted((a, b, -between), ">=", 1), counted((-a, -b, -between), ">=", 1)]
        values.append((-rng.randint(1, 9), between))
    return linear(size + len(values), values, rows)


def grid(rng, size):
    rows = []
    for r in range(size):
        for c in range(size):
            for other in near(size, r, c, ((0, 1), (1, -1), (1, 0), (1, 1))):
                rows.append(counted((-(size * r + c + 1), -other), ">=", 1))
    values = [(-rng.randint(1, 9), v) for v in range(1, size * size + 1)]
    return linear(size * size, values, rows)


def garden(rng, size):
    rows = []
    for r in range(size):
        for c in range(size):
            rows.append(counted(near(size, r, c, ((-1, 0), (0, -1), (0, 0), (0, 1), (1, 0))), ">=", 1))
    for r in range(size - 1):
        for c in range(size - 1):
            rows.append(counted(near(size, r, c, ((0, 0), (0, 1), (1, 0), (1, 1))), "<=", 2))
    return linear(size * size, weighted(rng, 1, 9, range(1, size * size + 1)), rows)


def options(rng, size):
    def option(feature, choice):
        return 4 * feature + choice + 1

    rows = [counted([option(f, choice) for choice in range(4)], "=", 1) for f in range(size)]
    # The first option of a feature needs nothing and is light: all of them together can be taken.
    for _ in range(4 * size if size > 1 else 0):
        one, other = rng.sample(range(size), 2)
        needed = [option(other, choice) for choice in sorted(rng.sample(range(4), 2))]
        rows.append(counted([-option(one, rng.randint(1, 3))] + needed, ">=", 1))
    variables = range(1, 4 * size + 1)
    for _ in range(2):
        weights = [(rng.randint(1, 8 if v % 4 == 1 else 20), v) for v in variables]
        rows.append((weights, "<=", 8 * size))
    return linear(4 * size, weighted(rng, 1, 60, variables), rows)


def features(rng, size):
    parents = {f: rng.randint(max(1, f // 4), f - 1) for f in range(2, size + 1)}
    children = {p: [f for f in parents if parents[f] == p] for p in range(1, size + 1)}
    rows, product = [([(1, 1)], ">=", 1)], {1}
    for parent, below in children.items():
        kind = rng.choice(("free", "free", "any", "one")) if len(below) > 1 else "free"
        rows += [counted([parent, -child], ">=", 1) for child in below] if kind != "one" else []
        least = rng.sample(below, 1) if kind != "free" else [child for child in below if rng.random() < 0.3]
        if kind == "one":
            rows.append(([(1, child) for child in below] + [(1, -parent)], "=", 1))
        elif kind == "any":
            rows.append(counted([-parent] + below, ">=", 1))
        else:
            rows += [counted([-parent, child], ">=", 1) for child in least]
        if parent in product:
            product.update(least if kind == "one" else least + [child for child in below if rng.random() < 0.5])
    # What is bought most, a product drawn from the tree, keeps what features need or exclude.
    while size > 1 and len(rows) < 2 * size:
        clause = [rng.choice((-1, 1)) * v for v in rng.sample(range(2, size + 1), min(rng.randint(2, 3), size - 1))]
        if any((v in product) if v > 0 else (-v not in product) for v in clause):
            rows.append(counted(clause, ">=", 1))
    return linear(size, weighted(rng, 1, 60, range(1, size + 1)), rows)


def staff(rng, size):
    days, shifts, hours = 7, 3, (8, 8, 10)
    slots = days * shifts
    weeks = [[slots * person + slot + 1 for slot in range(slots)] for person in range(size)]
    rows = [row for week in weeks for row in rests(week, shifts) + [working_time(week, hours)]]
    skilled = [week for person, week in enumerate(weeks) if person % 3]
    one = min(1, size // 9)
    for slot in range(slots):
        more = one if slot < slots - 2 * shifts and rng.randrange(8) == 0 else 0
        rows.append(counted([week[slot] for week in weeks], ">=", size // 6 + more))
        rows.append(counted([week[slot] for week in skilled], ">=", one))
    return linear(size * slots, [cost for week in weeks for cost in dislikes(rng, week, shifts)], rows)


def dislikes(rng, week, shifts):
    """What each shift costs: some like mornings best and others nights, days are liked more or less, and a weekend least."""
    is_early = rng.randrange(2) == 1
    costs = []
    for begin in range(0, len(week), shifts):
        cost = rng.randint(1, 5) + (rng.randint(2, 6) if begin >= len(week) - 2 * shifts else 0)
        for v in week[begin : begin + shifts] if is_early else reversed(week[begin : begin + shifts]):
            costs.append((cost, v))
            cost += rng.randint(0, 4)
    return sorted(costs, key=lambda term: term[1])


def rests(week, shifts):
    """One shift a day, none after a night but another night, three nights in a row for nobody, and one shift on a weekend."""
    nights = week[shifts - 1 :: shifts]
    rows = [counted(week[begin : begin + shifts], "<=", 1) for begin in range(0, len(week), shifts)]
    rows += [counted(week[night : night + shifts], "<=", 1) for night in range(shifts - 1, len(week) - 1, shifts)]
    rows += [counted(nights[first : first + 3], "<=", 2) for first in range(len(nights) - 2)]
    return rows + [counted(week[-2 * shifts :], "<=", 1), counted(week, ">=", 3), counted(week, "<=", 5)]


def working_time(week, hours):
    """No more than 44 hours a week."""
    return [(hours[slot % len(hours)], v) for slot, v in enumerate(week)], "<=", 44


def pictures(rng, size):
    picture = blots(rng, size)
    rows = []
    variables = size * size
    lines = [[size * line + place + 1 for place in range(size)] for line in range(size)]
    for line in lines + [list(column) for column in zip(*lines)]:
        lengths = runs([picture[square] for square in line])
        starts, places = [], size - sum(lengths) - len(lengths) + 1
        for n in range(len(lengths)):
            first = sum(lengths[:n]) + n
            starts.append({place: variables + n * (places + 1) + place - first + 1 for place in range(first, first + places + 1)})
        variables += len(lengths) * (places + 1)
        rows += line_rows(line, lengths, starts)
    return linear(variables, [], rows)


def blots(rng, size):
    """Whether each square is black: three in four squares are as the one above or before it."""
    picture = {}
    for square in range(1, size * size + 1):
        beside = [square - size] if square > size else []
        beside += [square - 1] if (square - 1) % size else []
        picture[square] = picture[rng.choice(beside)] if beside and rng.randrange(4) else rng.randrange(2) == 1
    return picture


def runs(squares):
    """The lengths of the runs of black squares."""
    words = "".join("x" if black else " " for black in squares).split()
    return [len(word) for word in words]


def line_rows(line, lengths, starts):
    """Each run starts at one place, and behind the one before it; a square is black just where a run covers it."""
    rows = [counted(list(start.values()), "=", 1) for start in starts]
    for length, start, after in zip(lengths, starts, starts[1:]):
        for place, v in start.items():
            rows.append(counted([-v] + [w for other, w in after.items() if other > place + length], ">=", 1))
    for place, square in enumerate(line):
        covering = [start[at] for length, start in zip(lengths, starts) for at in range(place - length + 1, place + 1) if at in start]
        rows.append(counted([-square] + covering, ">=", 1))
        rows += [counted([square, -v], ">=", 1) for v in covering]
    return rows


def clauses(rng, size):
    drawn = [[rng.choice((-1, 1)) * v for v in rng.sample(range(1, size + 1), 3)] for _ in range(int(4.2 * size))]
    return clausal(size, drawn)


def colours(rng, size):
    def is_of(vertex, colour):
        return 3 * (vertex - 1) + colour

    some = [[is_of(v, c) for c in (1, 2, 3)] for v in range(1, size + 1)]
    other = [[-is_of(a, c), -is_of(b, c)] for a, b in edges(rng, size, 4.5) for c in (1, 2, 3)]
    return clausal(3 * size, some + other)


def rows(rng, size):
    def terms():
        return [(rng.randint(1, 4), rng.choice((-1, 1)) * rng.randint(1, size)) for _ in range(5)]

    return linear(size, [(1, v) for v in range(10, size + 1, 10)], [(terms(), ">=", 3) for _ in range(2 * size)])


def chain(_, size):
    return linear(size, [], [counted((v, v + 1), "=", 1) for v in range(1, size)])


def wide(_, size):
    return linear(size, [], [counted(range(1, size + 1), ">=", 1)])


FAMILIES = {
    "random": any_sums,
    "cover": cover,
    "sets": sets,
    "knapsack": knapsack,
    "machines": machines,
    "routes": routes,
    "parity": parity,
    "units": units,
    "domination": domination,
    "assignment": assignment,
    "shifts": shifts,
    "schedule": schedule,
    "cut": cut,
    "grid": grid,
    "garden": garden,
    "options": options,
    "features": features,
    "staff": staff,
    "pictures": pictures,
    "clauses": clauses,
    "colours": colours,
    "rows": rows,
    "chain": chain,
    "wide": wide,
}


def main():
    family, size = sys.argv[1], int(sys.argv[2])
    seed = sys.argv[3] if len(sys.argv) > 3 else "1"
    sys.stdout.write(FAMILIES[family](random.Random("%s %d %s" % (family, size, seed)), size))


if __name__ == "__main__":
    main()
