#!/usr/bin/env python3
"""A configurator: one click after another, what each leaves open, what the cheapest bicycle costs, and why a click cannot be.

    bindings/c/build && PYTHONPATH=bindings/python examples/python/configurator.py

A click is the name of a part, or "no" and a name; the same click again takes it back. Where standard input is no terminal, the
clicks are those of CLICKS. One model answers all questions, so each begins where the last one ended.
"""

from __future__ import annotations

import sys
from typing import Iterator

from pbcube import Answer, Literal, Model, Status

PRICES = {
    "steel frame": 310, "aluminium frame": 420,
    "derailleur": 140, "hub gear": 260,
    "chain": 45, "belt": 190,
    "rim brakes": 60, "disc brakes": 150,
    "motor": 890, "small battery": 330, "large battery": 520,
    "battery light": 35, "dynamo": 95, "rack": 55,
}  # fmt: skip
GRAMS = {"steel frame": 3900, "aluminium frame": 2700, "motor": 3100, "small battery": 2400, "large battery": 3600, "rack": 700}
MOST_GRAMS = 10_500
ONE_OF = [("steel frame", "aluminium frame"), ("derailleur", "hub gear"), ("chain", "belt"), ("rim brakes", "disc brakes"),
          ("battery light", "dynamo")]  # fmt: skip
CLICKS = ("motor", "belt", "derailleur", "rack", "steel frame", "small battery", "rack", "small battery", "no battery light")


def bicycle() -> Model:
    """The rules of every bicycle; its price is the cost."""
    model = Model()
    part = dict(zip(PRICES, model.variables(PRICES)))
    model.minimise(sum(price * part[name] for name, price in PRICES.items()))
    for names in ONE_OF:
        model.exactly(1, [part[name] for name in names])
    model.add(part["small battery"] + part["large battery"] == part["motor"])  # a motor has one battery
    model.implies(part["belt"], part["hub gear"])
    model.implies(part["motor"], part["disc brakes"])
    model.clause([~part["motor"], ~part["rack"], part["large battery"]])  # with a load a motor needs the large battery
    model.add(sum(weight * part[name] for name, weight in GRAMS.items()) <= MOST_GRAMS)
    return model


def words_of(literal: Literal) -> str:
    return f"{'' if literal.number > 0 else 'no '}{literal.name}"


class Configurator:
    """A bicycle, the clicks that it has to keep, in order, and the cheapest one so far, from which the next search starts."""

    def __init__(self) -> None:
        self.model = bicycle()
        self.clicks: dict[str, Literal] = {}
        self.cheapest: Answer | None = None

    def click(self, words: str) -> str:
        """Takes a click, or one of before back, and says what came of it."""
        name = words[3:] if words.startswith("no ") else words
        if name not in PRICES:
            return f"no part is named {name!r}: the parts are {', '.join(PRICES)}"
        if words in self.clicks:
            del self.clicks[words]
            return self.state()
        literal = ~self.model[name] if words.startswith("no ") else self.model[name]
        why = self.model.explain([*self.clicks.values(), literal])
        if why.core is not None:
            others = [words_of(it) for it in why.core if it.number != literal.number]
            return f"that cannot be{' with ' if others else ''}{' and '.join(others)}"
        self.clicks[words] = literal
        return self.state()

    def state(self) -> str:
        """The price of the cheapest bicycle with these clicks, what follows from them, and what is open."""
        clicks = [*self.clicks.values()]
        self.cheapest = self.model.solve(assuming=clicks, start=self.cheapest)
        assert self.cheapest.status is Status.OPTIMUM
        fixed = self.model.fixed(clicks).named()
        follows = [name for name in PRICES if fixed[name] and name not in self.clicks]
        is_open = [name for name in PRICES if fixed[name] is None]
        return f"from {self.cheapest.cost}; so {', '.join(follows) or 'nothing'}; open: {', '.join(is_open) or 'nothing'}"


def clicks() -> Iterator[str]:
    """What is typed, or where there is no terminal what stands above."""
    if not sys.stdin.isatty():
        yield from CLICKS
        return
    print("> ", end="", flush=True)
    for line in sys.stdin:
        yield line.strip()
        print("> ", end="", flush=True)


def main() -> None:
    configurator = Configurator()
    print(configurator.state())
    for words in clicks():
        print(f"{words}: {configurator.click(words)}")


if __name__ == "__main__":
    main()
