#!/usr/bin/env python3
"""Writes a product that is configured to standard output, in OPB: options in groups of five, and what they need and exclude.

    make_configurator.py OPTIONS [SEED]

Of each group one option is taken, and of each third group one or none. An option may need one of some options of another group, or
exclude one of another group. All options that are taken have a weight, with a limit, and a price, which is to be least. What is bought
most, one option of each group, keeps all of that.
"""
import random
import sys

GROUP = 5
NEEDS = 0.2  # for each option
EXCLUDES = 0.1


def groups_of(options):
    """The options of each group, the last of which may have fewer."""
    return [range(first, min(first + GROUP, options + 1)) for first in range(1, options + 1, GROUP)]


def statement(terms, relation, bound):
    spelled = " ".join(f"{coefficient} {'~' if literal < 0 else ''}x{abs(literal)}" for coefficient, literal in terms)
    return f"{spelled} {relation} {bound} ;"


def needs(generator, groups, bought):
    """Clauses: an option needs one of two of another group, of which what is bought has one where it has the option."""
    for group in groups:
        for option in group:
            if generator.random() < NEEDS:
                other = generator.choice([it for it in groups if it is not group])
                needed = set(generator.sample(list(other), min(2, len(other))))
                if option in bought:
                    needed.add(next(it for it in other if it in bought))
                yield [-option, *sorted(needed)]


def excludes(generator, groups, bought):
    """Clauses: an option does not go with one of another group."""
    for group in groups:
        for option in group:
            if generator.random() < EXCLUDES:
                other = generator.choice(generator.choice([it for it in groups if it is not group]))
                if not (option in bought and other in bought):
                    yield [-option, -other]


def text(options, seed):
    """The text of the product."""
    generator = random.Random(f"configurator {options} {seed}")
    groups = groups_of(options)
    bought = {generator.choice(group) for group in groups}
    weights = {option: generator.randint(1, 20) for group in groups for option in group}
    lines = ["min: " + " ".join(f"{generator.randint(1, 99)} x{option}" for option in weights) + " ;"]
    for at, group in enumerate(groups):
        lines.append(statement([(1, option) for option in group], "<=" if at % 3 == 2 else "=", 1))
    clauses = [*needs(generator, groups, bought), *excludes(generator, groups, bought)] if len(groups) > 1 else []
    lines += [statement([(1, literal) for literal in clause], ">=", 1) for clause in clauses]
    lines.append(statement([(weight, option) for option, weight in weights.items()], "<=", sum(weights[it] for it in bought) * 5 // 4))
    return "".join(f"{line}\n" for line in [f"* #variable= {options} #constraint= {len(lines) - 1}", *lines])


def main():
    if not 2 <= len(sys.argv) <= 3 or not sys.argv[1].isdigit() or int(sys.argv[1]) < 1:
        sys.exit("make_configurator.py: it takes a number of options, from 1 on, and perhaps a seed")
    sys.stdout.write(text(int(sys.argv[1]), sys.argv[2] if len(sys.argv) > 2 else "1"))


if __name__ == "__main__":
    main()
