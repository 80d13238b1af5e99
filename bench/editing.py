"""What an edit costs among few rows and among many."""

from __future__ import annotations

import pathlib
from dataclasses import dataclass

from measuring import MADE, RUNS, Cost, Limit, best, held, line, look, made, run_once

ROWS = [1_000, 20_000]
MOST_RATIO = 1.5


@dataclass(frozen=True)
class Editing:
    """Patches of so many edits each; the cost of an edit among many rows may be 1.5 times that among few.

    That cost is what the script takes over the script that ends before the patches, for each edit.
    """

    name: str
    patches: int
    edits: int

    def measure(self, program: pathlib.Path) -> dict[tuple[int, int], Cost]:
        """By rows and patches what the program took; all scripts take turns, so that a ratio is fair."""
        output = MADE / "output"
        cases = [(rows, patches) for rows in ROWS for patches in (0, self.patches)]
        scripts = {
            (rows, patches): made(
                f"{self.name} {rows} {patches}", "make_edits.py", [str(rows), str(patches), str(self.edits)])
            for rows, patches in cases}
        runs: dict[tuple[int, int], list[Cost]] = {case: [] for case in cases}
        for _ in range(RUNS):
            for case, script in scripts.items():
                runs[case].append(run_once([str(program), "run"], script, output))
                look(script, output)
        for path in [*scripts.values(), output]:
            path.unlink()
        return {case: best(found) for case, found in runs.items()}

    def report(self, program: pathlib.Path) -> list[Limit]:
        """Writes the lines of the workload; gives what came of its limit."""
        costs = self.measure(program)
        each = []
        for rows in ROWS:
            before, after = costs[rows, 0], costs[rows, self.patches]
            print(line(self.name, 0, before, None, None))
            print(line(f"  among {rows:,} rows", self.patches, after, before, None), flush=True)
            each.append((after.processors - before.processors) / (self.patches * self.edits))
        said = f"{self.name}: an edit takes " + " and ".join(
            f"{1e6 * cost:.1f} us among {rows:,} rows" for rows, cost in zip(ROWS, each))
        if min(each) <= 0:
            return [(f"{said}, too little to be judged", True)]
        return [held(f"{said}; the ratio is", each[-1] / each[0], MOST_RATIO)]
