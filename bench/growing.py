"""Scripts of growing size: what the program takes for each, and how that grows."""

from __future__ import annotations

import pathlib
import sys
from collections.abc import Iterator
from dataclasses import dataclass, field

from measuring import BENCH, MADE, RUNS, Cost, Limit, best, held, line, look, made, run_once

PROPORTION = 1.3
FLOOR = [sys.executable, str(BENCH / "floor.py")]


@dataclass(frozen=True)
class Growing:
    """Scripts of growing size by one maker, and what they may take.

    Of the largest size, `most_growth` is the most of its time over that of the smallest, `most_over_floor`
    the most of its time over the floor's, and `in_proportion` says that time and memory may grow by 1.3
    times what the size grows by.
    """

    name: str
    maker: str
    sizes: list[int]
    words: list[str] = field(default_factory=list)
    most_growth: float | None = None
    most_over_floor: float | None = None
    in_proportion: bool = False

    def measure(self, program: pathlib.Path) -> Iterator[tuple[int, Cost, Cost]]:
        """For each size what the program took, and what the floor did; sizes take turns, so that a ratio is fair."""
        output = MADE / "output"
        scripts = [(size, made(f"{self.name} {size}", self.maker, [str(size), *self.words])) for size in self.sizes]
        runs: dict[int, list[tuple[Cost, Cost]]] = {size: [] for size in self.sizes}
        for _ in range(RUNS):
            for size, script in scripts:
                cost = run_once([str(program), "run"], script, output)
                look(script, output)
                runs[size].append((cost, run_once(FLOOR, script, output)))
        for size, script in scripts:
            script.unlink()
            yield size, best([cost for cost, _ in runs[size]]), best([floor for _, floor in runs[size]])
        output.unlink()

    def limits(self, costs: list[Cost], floor: Cost) -> Iterator[Limit]:
        """Each limit, on the largest size."""
        first, last = costs[0], costs[-1]
        grown = self.sizes[-1] / self.sizes[0]
        said = f"{self.name}: of {self.sizes[-1]:,} over {self.sizes[0]:,}, the"
        time_ratio, memory_ratio = last.processors / first.processors, last.memory / first.memory
        if self.most_growth:
            yield held(f"{said} time is", time_ratio, self.most_growth)
        if self.in_proportion:
            yield held(f"{said} time is", time_ratio, PROPORTION * grown)
            if first.is_exact:
                yield held(f"{said} memory is", memory_ratio, PROPORTION * grown)
            else:
                yield f"{said} memory isn't judged, since the smaller one takes too little to be seen", True
        if self.most_over_floor:
            said = f"{self.name}: of {self.sizes[-1]:,}, the time over the floor's is"
            yield held(said, last.processors / floor.processors, self.most_over_floor)

    def report(self, program: pathlib.Path) -> list[Limit]:
        """Writes the lines of the workload; gives what came of its limits."""
        costs: list[Cost] = []
        floor = Cost(0, 0, 0)
        for size, cost, floor in self.measure(program):
            print(line(self.name, size, cost, costs[-1] if costs else None, floor), flush=True)
            costs.append(cost)
        return list(self.limits(costs, floor))
