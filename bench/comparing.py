"""What access control and subscriptions cost, by scripts that differ in one thing alone."""

from __future__ import annotations

import pathlib
from dataclasses import dataclass

from measuring import MADE, RUNS, Cost, Limit, best, held, line, made, run_once


@dataclass(frozen=True)
class Comparing:
    """The ratio of two costs, each that of a script, or of what a script has over another.

    A cost is named by the words of a maker: ("renewed", "fulls") is what `renewed` takes over `fulls`.
    """

    name: str
    cost: tuple[str, ...]
    beside: tuple[str, ...]
    most_ratio: float
    maker: str = "make_access.py"

    def measure(self, program: pathlib.Path) -> dict[str, Cost]:
        """By shape what the program took; all scripts take turns, so that a ratio is fair."""
        output = MADE / "output"
        shapes = sorted({*self.cost, *self.beside})
        scripts = {shape: made(f"comparing {shape}", self.maker, shape.split()) for shape in shapes}
        runs: dict[str, list[Cost]] = {shape: [] for shape in shapes}
        for _ in range(RUNS):
            for shape, script in scripts.items():
                runs[shape].append(run_once([str(program), "run"], script, output))
        for path in [*scripts.values(), output]:
            path.unlink()
        return {shape: best(found) for shape, found in runs.items()}

    def report(self, program: pathlib.Path) -> list[Limit]:
        """Writes the lines of the workload; gives what came of its limit."""
        costs = self.measure(program)
        print(line(self.name, 0, costs[self.cost[0]], None, None))
        for shape in sorted(costs):
            print(line(f"  {shape}", 0, costs[shape], None, None), flush=True)

        def seconds(shapes: tuple[str, ...]) -> float:
            first, *less = (costs[shape].processors for shape in shapes)
            return first - sum(less)

        if seconds(self.beside) <= 0:
            return [(f"{self.name}: too little to be judged", True)]
        said = f"{self.name}: {' less '.join(self.cost)} over {' less '.join(self.beside)} is"
        return [held(said, seconds(self.cost) / seconds(self.beside), self.most_ratio)]
