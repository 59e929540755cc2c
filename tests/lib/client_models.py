"""Draws small problems over bounded integers for tests/runs/clients.py, the same ones in each run, solves them by listing, and writes
them as texts."""
import itertools
import random
from dataclasses import dataclass
from fractions import Fraction


@dataclass(frozen=True)
class Sum:
    """Coefficients as they are written, with names, which may come again, and a constant."""

    terms: tuple
    constant: str = "0"

    def value(self, values):
        """A thousand times the value, which is whole: no text has more than three places."""
        return thousand(self.constant) + sum(thousand(text) * values[name] for text, name in self.terms)


@dataclass(frozen=True)
class Problem:
    """Bounds by name, rows (a sum, a relation and a bound), and a sum with 1 where it is to be least and -1 where greatest, or None."""

    bounds: dict
    rows: tuple
    objective: tuple

    def best(self, order):
        """The best values, the first of them where the names stand in this order, and the objective; None where nothing is feasible."""
        total, sign = self.objective or (Sum(()), 1)
        ranges = [range(self.bounds[name][0], self.bounds[name][1] + 1) for name in order]
        feasible = (values for values in (dict(zip(order, it)) for it in itertools.product(*ranges)) if self.is_met(values))
        best = min(feasible, key=lambda it: sign * total.value(it), default=None)
        return best and (best, Fraction(total.value(best), 1000) if self.objective else None)

    def is_met(self, values):
        differences = ((relation, total.value(values) - thousand(bound)) for total, relation, bound in self.rows)
        return all({"<=": it <= 0, "=": it == 0, ">=": it >= 0, "!=": it != 0}[relation] for relation, it in differences)


def thousand(text):
    return int(Fraction(text) * 1000)


def decimal(draw):
    """A number of at most three places in one of its spellings."""
    it = draw.randint(1, 9999)
    spellings = (f"{it % 20}", f"{it / 1000:.3f}", f"{it % 100 / 10}", f".{it % 1000:03}", f"{it}e-3", f"{it % 10}.", f"{it % 7}E+1")
    return draw.choice(("", "", "-")) + draw.choice(spellings)


def whole(draw):
    return str(draw.choice((1, 1, 2, 3, 7, -1, -2, -5)))


def drawn(number, kind, names, relations, has_repeats):
    """The problem of this number. Where names come once, sums of rows have no constant, so that floats add nothing up."""
    draw = random.Random(f"{kind.__name__} {number}")
    least = {name: draw.choice((0, 0, 0, 1, -2)) for name in draw.sample(names, draw.randint(1, 4))}
    bounds = {name: (it, it + draw.choice((0, 1, 1, 1, 2, 3, 5))) for name, it in least.items()}

    def total(constant):
        count = draw.randint(1, len(bounds))
        chosen = draw.choices(list(bounds), k=count) if has_repeats else draw.sample(list(bounds), count)
        return Sum(tuple((kind(draw), name) for name in chosen), constant)

    planted = {name: draw.randint(*it) for name, it in bounds.items()}
    sums = [total(kind(draw) if has_repeats and draw.random() < 0.3 else "0") for _ in range(draw.randint(1, 4))]
    rows = [(it, draw.choice(relations)) for it in sums]
    rows = tuple((it, relation, bound_near(it.value(planted), relation, draw)) for it, relation in rows)
    objective = (total(draw.choice(("0", kind(draw)))), draw.choice((1, -1))) if draw.random() < 0.8 else None
    return Problem(bounds, rows, objective)


def bound_near(thousandths, relation, draw):
    """A bound that the value meets, at it or a little off; in some draws one that it does not meet."""
    slack = draw.choice((0, 0, 1000, 3000)) * draw.choice((*7 * [1], -1))
    thousandths += {"<=": slack, "=": min(slack, 0), ">=": -slack, "!=": slack}[relation]
    text = f"{abs(thousandths) // 1000}.{abs(thousandths) % 1000:03}".removesuffix(".000")
    return f"-{text}" if thousandths < 0 else text


def lp_sum(total, draw):
    words = [f"{'-' if text[0] == '-' else '+'} {text.lstrip('-')} {name}" for text, name in total.terms]
    if total.constant != "0" or not words:
        words.insert(draw.randint(0, len(words)), f"{'-' if total.constant[0] == '-' else '+'} {total.constant.lstrip('-')}")
    return draw.choice((" ", "\n  ")).join(words).removeprefix("+ ")


def lp_bounds(name, least, greatest, draw):
    """Lines that say the bounds, of which none may be needed."""
    lines = [
        [f"{least} <= {name} <= {greatest}"],
        [f"{name} >= {least}", f"{greatest} > {name}"],
        [f"{name} =< {greatest}", f"{least} < {name}"],
    ]
    if least == greatest:
        lines = [[f"{name} = {least}"]]
    elif least == 0:
        lines += [[f"{name} <= {greatest}.5"], [f"-0.75 <= {name} <= {greatest}.125"]]
    return draw.choice(lines)


def lp_text(problem, draw):
    """The problem in one of its spellings."""
    lines = [draw.choice(("\\ a comment: x >= 1", ""))]
    if problem.objective:
        total, sign = problem.objective
        lines += [draw.choice(("Minimize", "MIN", "minimum") if sign == 1 else ("Maximize", "max", "Maximise"))]
        lines += [draw.choice((" obj: ", " ")) + lp_sum(total, draw)]
    lines += [draw.choice(("Subject To", "st", "S.T.", "such that"))]
    for number, (total, relation, bound) in enumerate(problem.rows):
        spelt = draw.choice({"<=": ("<=", "<", "=<"), "=": ("=",), ">=": (">=", ">", "=>")}[relation])
        lines += [f" {draw.choice((f'c{number}: ', ''))}{lp_sum(total, draw)} {spelt} {bound} \\ a row"]
    binaries = [name for name, it in problem.bounds.items() if it == (0, 1) and draw.random() < 0.7]
    others = [name for name in problem.bounds if name not in binaries]
    lines += ["Bounds", *(line for name in others for line in lp_bounds(name, *problem.bounds[name], draw))]
    wholes = [name for name in others if draw.random() < 0.5 or len(set(problem.bounds[name])) > 1]
    lines += [draw.choice(("Generals", "general", "INTEGERS")), *wholes, f"{draw.choice(('Binary', 'bin'))} {' '.join(binaries)}"]
    return "\n".join([*lines, draw.choice(("End", ""))])


def minizinc_text(problem):
    """The problem in MiniZinc. It writes words `NAME=VALUE`."""
    lines = [f"var {least}..{greatest}: {name};" for name, (least, greatest) in problem.bounds.items()]
    lines += [f"constraint {minizinc_sum(total)} {relation} {bound};" for total, relation, bound in problem.rows]
    total, sign = problem.objective or (None, 0)
    goal = f"{'minimize' if sign == 1 else 'maximize'} {minizinc_sum(total)}" if total else "satisfy"
    words = " ".join(f"{name}=\\({name})" for name in problem.bounds)
    return "\n".join([*lines, f"solve {goal};", f'output ["{words}"];'])


def minizinc_sum(total):
    return " + ".join([*(f"{text}*{name}" for text, name in total.terms), total.constant])
