"""Instances that were worked by hand, with the report that is owed within each of some budgets of decisions: a table of
tests/runs/budgets.py. Where a cube gives all variables values, its piece holds these without a decision, and those behind it begin with
them as the best."""
from .efforts import things_without_a_place

# Of two variables no pair of values is left.
NO_PAIR = "1 x1 1 x2 >= 1 ;\n1 x1 1 ~x2 >= 1 ;\n1 ~x1 1 x2 >= 1 ;\n1 ~x1 1 ~x2 >= 1 ;\n"
UNKNOWN, NOTHING = "s UNKNOWN\n", "s UNSATISFIABLE\n"


def reports(cost, values, budgets):
    """The assignment as the best that is known within the first of two budgets, and as the least within the other."""
    return {budget: f"o {cost}\ns {said}\nv {values}\n" for budget, said in zip(budgets, ("SATISFIABLE", "OPTIMUM FOUND"))}


WITHIN = [
    # a first value and a second one are a decision each
    (NO_PAIR, None, {0: UNKNOWN, 1: UNKNOWN, 2: NOTHING, 1000: NOTHING}),
    # the literals of a cube are none
    (NO_PAIR, "a 1 0\na -1 0\n", {0: NOTHING}),
    # nothing to decide
    ("* #variable= 0 #constraint= 0\n", None, {0: "s SATISFIABLE\nv\n"}),
    # nothing feasible
    ("1 x1 >= 1 ;\n1 x1 = 0 ;\n", None, {0: NOTHING}),
    # no decision, where one is needed
    ("1 x1 1 x2 >= 1 ;\n", None, {0: UNKNOWN}),
    # Nothing is held on the way down, so that no bound is taken there. On the way back it is, and closes both second values.
    ("min: 1 x1 1 x2 ;\n1 x1 1 x2 >= 0 ;\n", None, {0: UNKNOWN, 1: UNKNOWN, 2: "o 0\ns OPTIMUM FOUND\nv -x1 -x2\n"}),
    # What is held costs 0, so that one literal after the other is fixed, each by the 5 that its negation costs. Once x1 is true the
    # bound is 0, and the trail with zeros elsewhere is what is held: none of the others is decided.
    ("min: 5 ~x1 5 x2 5 x3 ;\n1 x1 1 x2 1 x3 >= 1 ;\n", "a 1 -2 -3 0\na 0\n", reports(0, "x1 -x2 -x3", (0, 1))),
    # What is held costs 7. Below x1 the 9 that the other values cost fix x2 and then the negation of x3. At first the row has a bound
    # of 4, by one of x4, x5 and x6. With x2 it takes two of them for 8, though the multipliers see no more than one and a half of them
    # for 6: x3 is not decided.
    (
        "min: 7 ~x1 9 ~x2 9 x3 4 x4 4 x5 4 x6 ;\n3 ~x1 3 ~x2 2 x4 2 x5 2 x6 >= 3 ;\n",
        "a -1 2 -3 -4 -5 -6 0\na 1 0\n",
        reports(7, "-x1 x2 -x3 -x4 -x5 -x6", (0, 1)),
    ),
    # What is held costs 1. The two rows force x2 to be false together, which the multipliers see for a half of its cost, and the bound
    # of disjoint rows for none of it. The 5 that its negation costs fix x1. Below it the bound of the multipliers, as it stands beside
    # the next literal that they fix, is the best cost, and the trail with zeros elsewhere is what is held.
    (
        "min: 5 ~x1 1 ~x2 5 x4 5 x5 ;\n1 ~x2 1 x3 >= 1 ;\n1 ~x2 1 ~x3 >= 1 ;\n",
        "a 1 -2 -3 -4 -5 0\n",
        reports(1, "x1 -x2 -x3 -x4 -x5", (0, 1)),
    ),
    # What is held costs 2, and so does x9 with one of the variables of either row, by the bound that both rows have together. At such a
    # tie x1, x2 and x3 come first, as 0. Then either row wants a variable of its own, so that x4 is not decided.
    (
        "min: 1 x1 1 x2 1 x3 1 x5 1 x6 1 x7 2 x8 1 x9 ;\n1 x8 1 x9 >= 1 ;\n1 ~x9 1 x1 1 x2 1 x3 1 x5 >= 1 ;\n1 ~x9 1 x3 1 x6 1 x7 >= 1 ;\n",
        "a -1 -2 -3 -4 -5 -6 -7 8 -9 0\na 9 0\n",
        reports(2, "-x1 -x2 -x3 -x4 -x5 -x6 -x7 x8 -x9", (2, 3)),
    ),
    # Nothing is ever held, and the multipliers tell of trails that the rows promise more than all costs together: without them it takes
    # 98 decisions.
    (things_without_a_place(5, 4).text(), None, {37: UNKNOWN, 38: NOTHING}),
]
