"""What a script takes over what its JSON and that of its report alone take."""

from __future__ import annotations

import pathlib
from collections.abc import Iterator
from dataclasses import dataclass, field

from measuring import MADE, UNBUILT, Cost, Limit, beside_floor, held, line, look, made

MOST_OVER_FLOOR = 3
MOST_MEMORY = 6
MIB = 1_048_576


@dataclass(frozen=True)
class Parsing:
    """A script of some size, beside the floor (crates/parse_floor): a program that parses the same script's lines,
    and parses and writes again the lines of its report, by the same JSON reader and writer.

    The script may take `most_over_floor` times the floor's time, and as much memory as six times script and report
    together. Where `takes_all` is false, its receivers take nothing.
    """

    name: str
    maker: str
    words: list[str] = field(default_factory=list)
    most_over_floor: float = MOST_OVER_FLOOR
    takes_all: bool = True

    def measure(self, program: pathlib.Path) -> tuple[int, Cost, Cost | None]:
        """The bytes of script and report, and what the program and the floor took, in turns."""
        output = MADE / "output"
        script = made(self.name, self.maker, self.words)
        written, cost, floor = beside_floor(
            [str(program), "run"], script, output, lambda: look(script, output, self.takes_all))
        size = script.stat().st_size + written
        for path in (script, output):
            path.unlink()
        return size, cost, floor

    def limits(self, size: int, cost: Cost, floor: Cost | None) -> Iterator[Limit]:
        if floor is None:
            yield f"{self.name}: the time over the floor's is NOT MEASURED, since {UNBUILT}", False
        else:
            over = cost.processors / floor.processors
            yield held(f"{self.name}: the time over the floor's is", over, self.most_over_floor)
        memory = cost.memory * MIB / size
        yield held(f"{self.name}: the memory over the bytes of script and report is", memory, MOST_MEMORY)

    def report(self, program: pathlib.Path) -> list[Limit]:
        """Writes the line of the workload; gives what came of its limits."""
        size, cost, floor = self.measure(program)
        print(line(self.name, size, cost, None, floor), flush=True)
        return list(self.limits(size, cost, floor))
