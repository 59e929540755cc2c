#!/usr/bin/env python3
"""Solves an OPB text by HiGHS, which scipy has, in floating point, and prints the lines `o` and `s` and the processor seconds
without reading.

    highs.py FILE [LIMIT]

With a limit it is stopped after LIMIT processor seconds.
"""
import math
import resource
import sys
import time

sys.dont_write_bytecode = True
import numpy
from scipy.optimize import Bounds, LinearConstraint, milp
from scipy.sparse import coo_matrix

import opb

STATUS = {0: "OPTIMUM FOUND", 2: "UNSATISFIABLE"}


def matrix(instance):
    places = [(row, v - 1, a) for row, (terms, _, _) in enumerate(instance.rows) for a, v in terms]
    rows, columns, numbers = zip(*places) if places else ((), (), ())
    return coo_matrix((numbers, (rows, columns)), shape=(len(instance.rows), instance.variables), dtype=float).tocsr()


def solve(instance):
    costs = numpy.zeros(instance.variables)
    for a, v in instance.costs:
        costs[v - 1] = a
    bounds = [bound for _, _, bound in instance.rows]
    most = [bound if is_equal else numpy.inf for _, is_equal, bound in instance.rows]
    rows = [LinearConstraint(matrix(instance), bounds, most)] if instance.rows else []
    options = {"mip_rel_gap": 0}
    return milp(costs, integrality=numpy.ones(instance.variables), bounds=Bounds(0, 1), constraints=rows, options=options)


def main():
    instance = opb.read(sys.argv[1])
    begun = time.process_time()
    if len(sys.argv) > 2:
        seconds = math.ceil(begun + float(sys.argv[2]))
        resource.setrlimit(resource.RLIMIT_CPU, (seconds, seconds))
    result = solve(instance)
    if result.status == 0 and instance.costs:
        print("o %d" % round(result.fun + instance.constant))
    status = STATUS.get(result.status, "UNKNOWN")
    print("s %s" % (status if instance.costs or result.status else "SATISFIABLE"))
    print("c seconds %.3f" % (time.process_time() - begun))


if __name__ == "__main__":
    main()
