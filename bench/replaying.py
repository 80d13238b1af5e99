"""What a replay takes over what the JSON of its lines alone takes, and a trial over the run of its script."""

from __future__ import annotations

import pathlib
import subprocess
from collections.abc import Iterator
from dataclasses import dataclass

from measuring import MADE, RUNS, UNBUILT, Cost, Limit, beside_floor, best, held, line, made, run_once

MOST_OVER_FLOOR = 4
MOST_MEMORY = 3
MOST_OVER_RUN = 1.1
MIB = 1_048_576


@dataclass(frozen=True)
class Replaying:
    """A stream of some bytes, beside the floor, which parses its lines, and parses and writes again those of the trees.

    The replay may take four times the floor's time, and as much memory as three times the stream.
    """

    name: str
    size: int
    kind: str

    def measure(self, program: pathlib.Path) -> tuple[int, Cost, Cost | None]:
        """The bytes of the stream, and what the program and the floor took, in turns."""
        output = MADE / "output"
        stream = made(self.name, "make_stream.py", [str(self.size), self.kind])
        _, cost, floor = beside_floor([str(program), "replay"], stream, output)
        size = stream.stat().st_size
        for path in (stream, output):
            path.unlink()
        return size, cost, floor

    def limits(self, size: int, cost: Cost, floor: Cost | None) -> Iterator[Limit]:
        if floor is None:
            yield f"{self.name}: the time over the floor's is NOT MEASURED, since {UNBUILT}", False
        else:
            yield held(f"{self.name}: the time over the floor's is", cost.processors / floor.processors, MOST_OVER_FLOOR)
        yield held(f"{self.name}: the memory over the bytes of the stream is", cost.memory * MIB / size, MOST_MEMORY)

    def report(self, program: pathlib.Path) -> list[Limit]:
        """Writes the line of the workload; gives what came of its limits."""
        size, cost, floor = self.measure(program)
        print(line(self.name, size, cost, None, floor), flush=True)
        return list(self.limits(size, cost, floor))


@dataclass(frozen=True)
class Trying:
    """A trial of a size, beside a run of the script that is drawn."""

    name: str
    size: int

    def report(self, program: pathlib.Path) -> list[Limit]:
        """Writes the lines of the workload; gives what came of its limit."""
        MADE.mkdir(exist_ok=True)
        script, output = MADE / "drawn.jsonl", MADE / "output"
        options = ["--size", str(self.size)]
        with script.open("wb") as out:
            subprocess.run([str(program), "gen", *options], stdout=out, check=True)
        trials, runs = [], []
        for _ in range(RUNS):
            trials.append(run_once([str(program), "trial", *options], script, output))
            runs.append(run_once([str(program), "run"], script, output))
        for path in (script, output):
            path.unlink()
        trial, run = best(trials), best(runs)
        print(line(f"{self.name}: run", self.size, run, None, None))
        print(line(self.name, self.size, trial, run, None), flush=True)
        return [held(f"{self.name}: the time over that of the run is", trial.processors / run.processors, MOST_OVER_RUN)]
