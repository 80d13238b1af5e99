"""What all workloads share: scripts as files, runs of a program on them, and limits in words."""

from __future__ import annotations

import filecmp
import pathlib
import shutil
import subprocess
import sys
from dataclasses import dataclass

BENCH = pathlib.Path(__file__).resolve().parent
FLOOR = BENCH.parent / "crates/parse_floor/out/parse_floor"
UNBUILT = "crates/parse_floor isn't built: `rt run <stdin` in its folder builds it"
MADE = BENCH / "made"
RUNS = 3

HEAD = (
    f"{'':22}{'':10}{'clock':>9}{'processor':>10}{'peak':>8}{'ratio of':>16}{'json':>9}{'over':>9}\n"
    f"{'workload':22}{'size':>10}{'s':>9}{'s':>9}{'MiB':>9}{'s':>8}{'MiB':>8}{'s':>9}{'json':>9}")

# A limit in words, with whether it held.
Limit = tuple[str, bool]


@dataclass(frozen=True)
class Cost:
    """What a run took: seconds on the clock and on the processors, and its peak memory in MiB, or the most of it."""

    clock: float
    processors: float
    memory: float
    is_exact: bool = True


def made(name: str, maker: str, words: list[str]) -> pathlib.Path:
    """The script that a maker writes, as a file."""
    MADE.mkdir(exist_ok=True)
    script = MADE / f"{name.replace(' ', '-')}.jsonl"
    with script.open("wb") as out:
        subprocess.run([sys.executable, str(BENCH / maker), *words], stdout=out, check=True)
    return script


def run_once(words: list[str], script: pathlib.Path, output: pathlib.Path) -> Cost:
    result = MADE / "result"
    starter = [sys.executable, "-I", "-S", str(BENCH / "measured.py"), str(result)]
    with script.open("rb") as source, output.open("wb") as sink:
        subprocess.run([*starter, *words], stdin=source, stdout=sink, check=True)
    status, clock, processors, peak, least = result.read_text(encoding="ascii").split()
    result.unlink()
    if status != "0":
        sys.exit(f"{words} on {script.name}: status {status}")
    return Cost(float(clock), float(processors), int(peak) / 1024, int(peak) > 1.1 * int(least))


def run_floor(script: pathlib.Path, output: pathlib.Path) -> Cost:
    """What the floor takes for a script and its report: it parses all lines, and writes those of the report again."""
    both, again = MADE / "both", MADE / "again"
    with both.open("wb") as out:
        for part in (script, output):
            with part.open("rb") as source:
                shutil.copyfileobj(source, out)
    cost = run_once([str(FLOOR)], both, again)
    if not filecmp.cmp(output, again, shallow=False):
        sys.exit(f"{script.name}: the floor doesn't write the report again")
    for path in (both, again):
        path.unlink()
    return cost


def best(runs: list[Cost]) -> Cost:
    return Cost(
        min(run.clock for run in runs), min(run.processors for run in runs), min(run.memory for run in runs),
        all(run.is_exact for run in runs))


def beside_floor(words: list[str], script: pathlib.Path, output: pathlib.Path, look=None) -> tuple[int, Cost, Cost | None]:
    """The bytes of what was written, and what a program and the floor took on a script, in turns. Each output is looked at."""
    runs, floors = [], []
    for _ in range(RUNS):
        runs.append(run_once(words, script, output))
        if look is not None:
            look()
        if FLOOR.is_file():
            floors.append(run_floor(script, output))
    return output.stat().st_size, best(runs), best(floors) if floors else None


REFUSED = b'"patch-id":"refused'


def wanted(script: pathlib.Path) -> tuple[int, int]:
    """How many commands are accepted, and how many updates sent.

    A subscription is told all once; one on change is then told each patch after it, and a periodic one and one with
    a dampening period are told something at each tick after it. The patches that are to be refused say so in their ids.
    """
    accepted = told = subscriptions = periods = 0
    with script.open("rb") as lines:
        for line in lines:
            if b'{"establish":' in line:
                is_dampened = b'"dampening-period"' in line
                subscriptions += b'"on-change"' in line and not is_dampened
                periods += b'"periodic"' in line or is_dampened
                told += 1
            elif b'{"patch":' in line and REFUSED not in line:
                accepted += 1
                told += subscriptions
            elif b'{"policy":' in line:
                accepted += 1
            elif b'{"tick":' in line:
                accepted += 1
                told += periods
    return accepted, told


def look(script: pathlib.Path, output: pathlib.Path, takes_all: bool = True) -> None:
    """Each command is accepted but those that are to be refused, each patch after a subscription is told to it, where
    its receiver takes all, and the report is whole."""
    accepted = told = 0
    last = b""
    with output.open("rb") as lines:
        for line in lines:
            accepted += line.startswith(b"reply ") and line.endswith(b'{"ok":true}\n')
            told += line.startswith(b"to ")
            last = line
    all_accepted, all_told = wanted(script)
    if (accepted, told, last) != (all_accepted, all_told if takes_all else 0, b"end\n"):
        sys.exit(f"{script.name}: {accepted} accepted and {told} told in place of {wanted(script)}, then {last!r}")


def line(name: str, size: int, cost: Cost, before: Cost | None, floor: Cost | None) -> str:
    """What a workload took at a size, with the ratios to the size before and to the floor."""
    time_ratio = f"{cost.processors / before.processors:.2f}" if before else "-"
    memory_ratio = f"{cost.memory / before.memory:.2f}" if before and before.is_exact else "-"
    memory = f"{'' if cost.is_exact else '<'}{cost.memory:.1f}"
    over = f"{floor.processors:9.3f}{cost.processors / floor.processors:9.2f}" if floor else f"{'-':>9}{'-':>9}"
    return f"{name:22}{size:10}{cost.clock:9.3f}{cost.processors:9.3f}{memory:>9}{time_ratio:>8}{memory_ratio:>8}{over}"


def held(said: str, value: float, most: float) -> Limit:
    return f"{said} {value:.2f}, at most {most:g}: {'held' if value <= most else 'NOT HELD'}", value <= most
