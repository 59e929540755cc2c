#!/usr/bin/env python3
"""A picnic basket by PuLP and pbcube: the best food for 12.20, of 2.1 kilograms at most, with decimals that hold exactly.

    python3 examples/clients/picnic.py
"""

import sys

import pulp

sys.dont_write_bytecode = True
from pbcube_pulp import PBCUBE

FOOD = {  # price, kilograms and joy of a piece
    "bread": (2.1, 0.5, 3.5), "cheese": (3.4, 0.2, 4.2), "apple": (0.6, 0.2, 1.1), "cake": (2.9, 0.4, 3.7), "juice": (1.7, 1.0, 2.6),
}  # fmt: skip
MONEY, KILOGRAMS = 12.2, 2.1

basket = pulp.LpProblem("picnic", pulp.LpMaximize)
pieces = {name: pulp.LpVariable(name, 0, 3, "Integer") for name in FOOD}
knife = pulp.LpVariable("knife", cat="Binary")
basket += pulp.lpSum(joy * pieces[name] for name, (_, _, joy) in FOOD.items()) - 0.25 * knife
basket += pulp.lpSum(price * pieces[name] for name, (price, _, _) in FOOD.items()) <= MONEY
basket += pulp.lpSum(weight * pieces[name] for name, (_, weight, _) in FOOD.items()) + 0.1 * knife <= KILOGRAMS
basket += pieces["bread"] + pieces["cheese"] + pieces["cake"] <= 9 * knife  # nobody breaks bread

solver = PBCUBE()
basket.solve(solver)
print(f"{pulp.LpStatus[basket.status]}: joy {solver.answer.objective}, the float {pulp.value(basket.objective)}")
for variable in basket.variables():
    print(f"{variable.name} {variable.value()}")
