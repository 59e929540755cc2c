"""A pseudo-Boolean optimiser whose answer is proved.

Solve a text in OPB, DIMACS CNF or iCNF:

    >>> solve("min: 2 x1 3 x2 ;\\n1 x1 1 x2 >= 1 ;\\n").cost
    2

or tell the rules one by one:

    >>> model = Model()
    >>> x, y = model.variable("x"), model.variable("y")
    >>> model.minimise(3 * x + 2 * y)
    >>> model.add(x + y >= 1)
    >>> answer = model.solve()
    >>> answer.status, answer.cost, answer[x], answer["y"]
    (Status.OPTIMUM, 2, False, True)

Among the assignments of the least cost the answer is the first one: at the first variable where two differ, the one with
False comes first. A model may be asked question after question, under literals that are assumed (`Model.solve`), also why there is no
answer (`Model.explain`) and which variables have one value (`Model.fixed`), with more rules between them; it keeps its search.
`Model.read` reads a model from a file or a text, and `Model.write` writes one to a file.

Ctrl-C ends a search, which then leaves the model as it was, and so does a time limit. For that a search that may
take long runs in a process of its own, a new `sys.executable`; in a thread that is not the main one, where Ctrl-C is never raised,
it runs in this process unless it has a time limit.

The package calls the shared object libpbcube.so.1. That is the file that the environment variable PBCUBE_LIBRARY names, or else the
first that is there: beside this file, where a wheel puts it; in PREFIX/lib, where this file is in
PREFIX/lib/pythonX/site-packages/pbcube; in bindings/c/out of the repository; in ~/.local/lib; or where the system's loader looks.

The program pbcube, for searches with many workers and for `python -m pbcube`, is in the folder that PBCUBE_PROGRAMS names, or else where
pip or ./install put it, or on the path.
"""

from __future__ import annotations

from .answers import Answer, Explanation, Fixed, Status
from .errors import Error, ForeignLiteral, Refused
from .library import loaded as _library
from .model import Model, solve
from .sums import Constraint, Literal, Sum, total

__all__ = [
    "Answer", "Constraint", "Error", "Explanation", "Fixed", "ForeignLiteral", "Literal", "Model", "Refused", "Status", "Sum", "solve",
    "total",
]  # fmt: skip
__version__ = "1.0.0"

for _public in (Answer, Constraint, Error, Explanation, Fixed, ForeignLiteral, Literal, Model, Refused, Status, Sum, solve, total):
    _public.__module__ = __name__  # by which tracebacks and pickles name them
