"""Reads an OPB text, and writes it in the forms that other programs read."""
from dataclasses import dataclass


@dataclass
class Instance:
    """Costs and rows over variables 1 to n. A row is its terms, whether it is an equality, and its bound: `>=` where it is none."""

    variables: int
    constant: int
    costs: list
    rows: list


def read(path):
    instance = Instance(0, 0, [], [])
    with open(path) as file:
        lines = [line for line in file if not line.startswith("*")]
    for statement in "".join(lines).split(";"):
        words = statement.replace("min:", "min: ").split()
        if words[:1] == ["min:"]:
            instance.costs, instance.constant = positive(words[1:])
        elif words:
            terms, constant = positive(words[:-2])
            bound = int(words[-1]) - constant
            if words[-2] == "<=":
                terms, bound = [(-a, v) for a, v in terms], -bound
            instance.rows.append((terms, words[-2] == "=", bound))
    lists = [instance.costs] + [terms for terms, _, _ in instance.rows]
    instance.variables = max((v for terms in lists for _, v in terms), default=0)
    return instance


def positive(words):
    """The terms of a sum over variables that are not negated, each once, and what is left as a constant."""
    terms, constant = {}, 0
    for coefficient, literal in zip(words[::2], words[1::2]):
        variable, a = int(literal.lstrip("~x")), int(coefficient)
        if literal.startswith("~"):
            constant, a = constant + a, -a
        terms[variable] = terms.get(variable, 0) + a
    return [(a, v) for v, a in terms.items()], constant


def sum_text(terms):
    return " ".join("%+d x%d" % term for term in terms)


def plain_opb(instance):
    """The instance with `>=` and `=` alone and without negated literals. The constant of its costs is left out."""
    lines = ["* #variable= %d #constraint= %d" % (instance.variables, len(instance.rows))]
    if instance.costs:
        lines.append("min: %s ;" % sum_text(instance.costs))
    lines += ["%s %s %d ;" % (sum_text(terms), "=" if is_equal else ">=", bound) for terms, is_equal, bound in instance.rows]
    return "\n".join(lines) + "\n"


def lp(instance):
    """The instance in the format LP, at most some ten terms a line. The constant of its costs is left out."""
    def wrapped(terms):
        pieces = [sum_text(terms[at : at + 10]) for at in range(0, len(terms), 10)]
        return "\n ".join(pieces or ["0 x1"])

    lines = ["Minimize", " cost: %s" % wrapped(instance.costs), "Subject To"]
    for terms, is_equal, bound in instance.rows:
        lines.append(" %s %s %d" % (wrapped(terms), "=" if is_equal else ">=", bound))
    lines += ["Binaries"] + [" x%d" % v for v in range(1, instance.variables + 1)] + ["End"]
    return "\n".join(lines) + "\n"
