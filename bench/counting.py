"""What patches cost in instructions, which other programs on the machine don't change, by scripts of more and fewer
patches."""

from __future__ import annotations

import pathlib
import re
import shutil
import subprocess
import sys
from dataclasses import dataclass

from measuring import MADE, Limit, held, made

VALGRIND = ["valgrind", "--tool=callgrind", "--callgrind-out-file=/dev/null"]
COLLECTED = re.compile(r"Collected : (\d+)")


def instructions(program: pathlib.Path, script: pathlib.Path) -> int:
    """How many instructions a run takes."""
    with script.open("rb") as source:
        run = subprocess.run([*VALGRIND, str(program), "run"], stdin=source, stdout=subprocess.DEVNULL,
                             stderr=subprocess.PIPE, text=True, check=False)
    found = COLLECTED.search(run.stderr)
    if run.returncode or not found:
        sys.exit(f"{script.name}: status {run.returncode}, and no instructions were counted")
    return int(found.group(1))


@dataclass(frozen=True)
class Counting:
    """The ratio of the instructions that the patches of two shapes take: of each shape those of the whole script
    less those of one with its first patches alone, so that what comes once counts in neither."""

    name: str
    shape: str
    beside: str
    most_ratio: float
    maker: str = "make_subscriptions.py"

    def patches(self, program: pathlib.Path, shape: str) -> int:
        counts = []
        for named in (shape, f"short-{shape}"):
            script = made(f"counting {named}", self.maker, named.split())
            counts.append(instructions(program, script))
            script.unlink()
        return counts[0] - counts[1]

    def report(self, program: pathlib.Path) -> list[Limit]:
        """Writes the lines of the workload; gives what came of its limit."""
        if not shutil.which(VALGRIND[0]):
            return [(f"{self.name}: not counted, since valgrind isn't there", False)]
        MADE.mkdir(exist_ok=True)
        took = {shape: self.patches(program, shape) for shape in (self.shape, self.beside)}
        for shape, count in took.items():
            print(f"{self.name:22}  {shape}: {count / 1e6:.1f} million instructions", flush=True)
        said = f"{self.name}: the patches of {self.shape} over those of {self.beside} is"
        return [held(said, took[self.shape] / took[self.beside], self.most_ratio)]
