#!/usr/bin/env python3
"""What a change costs: bench/before.py DIR

DIR has two programs, measure and measure-before, each of one build, and two desks, our-desk and before-desk; and bench/make.py's files.
They run in turn, five rounds (or BENCH_ROUNDS), and of each the best counts, in CPU time."""

import pathlib
import sys

from placed import ROUNDS, cost_of, rows


def main():
    folder, best = pathlib.Path(sys.argv[1]), {}
    for _ in range(ROUNDS):
        for when in "before", "now":
            program = folder / ("measure" if when == "now" else "measure-before")
            found = [(what, who, cost) for what, who, cost in rows(program, folder) if who.startswith("ours")]
            found.append(("desk", "the desk", cost_of(folder / ("our-desk" if when == "now" else "before-desk"), folder / "many.t42")))
            for what, who, cost in found:
                costs = best.setdefault((what, who), {})
                costs[when] = min(costs.get(when, cost), cost)
    print("\n| what | who | before | now | now times before |\n|---|---|---|---|---|")
    for (what, who), costs in best.items():
        if len(costs) < 2:      # an earlier build lacks it
            continue
        before, now = costs["before"], costs["now"]
        print(f"| {what} | {who} | {before:.2f} ns | {now:.2f} ns | {now / before:.2f} |")


if __name__ == "__main__":
    main()
