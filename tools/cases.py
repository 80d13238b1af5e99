"""Runs the built program on each case and compares what it wrote, byte for byte.

In cases/ each NAME.jsonl is a script, which is run by threads in cases/live/, and a stream to replay in
cases/streams/. Beside it stands NAME.txt, the
text that the program writes, or NAME.fault, which has the line on standard error and then the exit status. Where NAME.lines stands beside
them, the script is run once for each line of that file, with that line after it, and each run ends so.
The scripts that are too large to be kept are made by large_cases.py, random ones with policies by
access_cases.py, with filters and periods by subscription_cases.py, and with queues that fill by queue_cases.py;
feed_cases.py has a short one for each rule of feeds and queues, lifetime_cases.py those of calls about
subscriptions that are there, and owed_cases.py one for each event in each state of a feed. Streams to replay are
made by stream_cases.py. What is run is also run by threads, and scripts with lanes are, as live_cases.py says.
Nothing here comes of a run: each expected text is worked out from the rules of the guides in docs/.
"""

from __future__ import annotations

import itertools
import pathlib
import subprocess
import tempfile
from collections.abc import Iterator
from dataclasses import dataclass

from access_cases import access_cases
from feed_cases import feed_cases
from large_cases import large_cases, wide_entry
from lifetime_cases import lifetime_cases
from live_cases import told_live
from owed_cases import owed_cases
from queue_cases import queue_cases
from stream_cases import endings, stream_cases
from subscription_cases import subscription_cases

BAD_ARGUMENTS: list[list[str]] = [
    [], [""], ["Run"], ["RUN"], [" run"], ["run "], ["runs"], ["ru"], ["start"], ["--run"], ["lives"], ["help"], ["run", ""],
    ["run", "run"], ["run", "--workers", "9"], ["run", "--workers"], ["gen", "--seed", "4294967296"], ["gen", "--seed=-1"],
    ["trial", "--size", "0"], ["trial", "--size", "10001"], ["trial", "--size", "7", "--size", "7"], ["x" * 100_000]]
WORDS = {"streams": ("replay",), "live": ("live",)}
REQUESTS: list[list[str]] = [["--help"], ["-h"], ["--version"], ["run", "--help"]]
SMALLEST = b'{"start":"2026-01-01T00:00:00Z"}\n{"schema":[]}\n'
STACKS = range(64, 8_193, 32)


@dataclass
class Case:
    """A script or a stream, and what the program writes and how it ends."""

    name: str
    script: bytes
    out: bytes = b""
    error: bytes = b""
    status: int = 0
    words: tuple[str, ...] = ("run",)


def kept_cases(folder: pathlib.Path) -> Iterator[Case | str]:
    """The cases of a folder; in place of one that lacks a file, what is wrong with it."""
    for file in sorted(folder.rglob("*.jsonl")):
        name = f"{folder.name}/{file.relative_to(folder).with_suffix('')}"
        report, fault = file.with_suffix(".txt"), file.with_suffix(".fault")
        words = WORDS.get(file.parent.name, ("run",))
        if report.is_file() == fault.is_file():
            yield f"{name}: either NAME.txt or NAME.fault stands beside it"
            continue
        before, lines = file.read_bytes(), file.with_suffix(".lines")
        scripts = [(name, before)]
        if lines.is_file():
            scripts = [
                (f"{name}, line {number}", before + line + b"\n")
                for number, line in enumerate(lines.read_bytes().split(b"\n")[:-1], 1)]
        for each, script in scripts:
            if report.is_file():
                yield Case(each, script, report.read_bytes(), words=words)
            else:
                yield faulty(each, script, fault.read_text(), words)


def faulty(name: str, script: bytes, fault: str, words: tuple[str, ...]) -> Case | str:
    match fault.splitlines():
        case [error, ending] if ending.startswith("status "):
            return Case(name, script, b"", error.encode() + b"\n", int(ending.removeprefix("status ")), words)
    return f"{name}: NAME.fault has two lines, the line on standard error and 'status N'"


def made_cases() -> Iterator[Case]:
    """The large scripts, those with policies, filters and queues, and streams."""
    for name, script, report in access_cases():
        yield Case(name, script, report)
    for name, script, wanted in itertools.chain(
            large_cases(), subscription_cases(), feed_cases(), queue_cases(), lifetime_cases(), owed_cases()):
        if isinstance(wanted, tuple):
            line, fault = wanted
            yield Case(f"made: {name}", script, b"", f"push: line {line}: fault {fault}\n".encode(), 3)
        else:
            yield Case(f"made: {name}", script, wanted)
    for name, stream, wanted in stream_cases():
        yield Case(f"made: {name}", stream, *endings(wanted), words=("replay",))


def by_threads(case: Case, number: int) -> Iterator[Case]:
    """The case by threads too, with one of 1 to 8 workers, if it has one report there."""
    told = told_live(case.script, case.status, case.out, case.error) if case.words == ("run",) else None
    if told is not None:
        status, out, error = told
        yield Case(f"{case.name}, live", case.script, out, error, status, ("live", "--workers", str(number % 8 + 1)))


def wrong_cases(program: pathlib.Path, folder: pathlib.Path) -> Iterator[str]:
    """What is wrong with the cases, and how many there are."""
    count = 0
    for found in itertools.chain(kept_cases(folder), made_cases()):
        if isinstance(found, str):
            yield found
            continue
        count += 1
        for case in itertools.chain([found], by_threads(found, count)):
            yield from wrong_case(program, case)
    print(f"check_repository: {count} scripts and streams were run, of cases/, large ones and random ones")


def wrong_case(program: pathlib.Path, case: Case) -> Iterator[str]:
    """What is wrong with how the program ends and with what it writes."""
    ran = subprocess.run([str(program), *case.words], input=case.script, capture_output=True, check=False)
    if ran.returncode != case.status or ran.stderr != case.error:
        yield f"{case.name}: status {ran.returncode} and '{ran.stderr.decode(errors='replace').strip()}'"
    elif ran.stdout != case.out:
        yield f"{case.name}: {first_difference(ran.stdout, case.out)}"


def wrong_endings(program: pathlib.Path) -> Iterator[str]:
    """The exit statuses that no script brings about."""
    for words in BAD_ARGUMENTS:
        with tempfile.TemporaryFile() as source:
            source.write(b"{}\n")
            source.seek(0)
            yield from wrong_ending(program, words, source, subprocess.PIPE, 2, b"push: bad words\n")
            if source.tell() != 0:
                yield f"arguments {words}: standard input was read"
    for words in REQUESTS:
        ran = subprocess.run([str(program), *words], stdin=subprocess.DEVNULL, capture_output=True, check=False)
        shown = b"push 0.1.0\n" if words == ["--version"] else b"Usage: push"
        if ran.returncode != 0 or ran.stderr or shown not in ran.stdout:
            yield f"arguments {words}: status {ran.returncode}, and not what was asked for"
    yield from wrong_ending(program, [b"run", b"\xff"], subprocess.DEVNULL, subprocess.PIPE, 2, b"push: bad words\n")
    with tempfile.TemporaryFile("w+b") as source, open("/dev/full", "wb") as full:
        source.write(SMALLEST)
        source.seek(0)
        yield from wrong_ending(program, ["run"], source, full, 7, b"push: writing failed\n")
    with open("/dev/null", "wb") as closed:
        # it can be written but not read
        yield from wrong_ending(program, ["run"], closed, subprocess.PIPE, 6, b"push: reading failed\n")


def runs_within(program: pathlib.Path, case: tuple[str, bytes, object], stack: int) -> bool:
    """Whether a script has its report where the stack has so many KiB."""
    _, script, wanted = case
    ran = subprocess.run(
        ["/bin/sh", "-c", f'ulimit -s {stack}; exec "$0" run', str(program)], input=script, capture_output=True, check=False, env={})
    return ran.returncode == 0 and ran.stdout == wanted


def wrong_beginnings(program: pathlib.Path) -> Iterator[str]:
    """The program's own name isn't looked at, and an entry of many keys needs no more stack than one of a single key."""
    ran = subprocess.run([b"\xff", b"run"], executable=str(program), input=SMALLEST, capture_output=True, check=False)
    if ran.returncode != 0 or ran.stdout != b"end\n" or ran.stderr:
        yield f"a name of the program that isn't UTF-8: status {ran.returncode}"
    least = next((stack for stack in STACKS if runs_within(program, wide_entry(1), stack)), None)
    if least is None or not runs_within(program, wide_entry(700), least + STACKS.step):
        yield f"an entry of 700 keys needs more stack than one of a single key, which needs {least} KiB"


def wrong_ending(program, words, source, sink, status: int, error: bytes) -> Iterator[str]:
    ran = subprocess.run(
        [str(program), *words], stdin=source, stdout=sink, stderr=subprocess.PIPE, check=False)
    if ran.returncode != status or ran.stderr != error or ran.stdout:
        yield f"arguments {words}: status {ran.returncode}, not {status}: {ran.stderr.decode(errors='replace').strip()}"


def first_difference(got: bytes, wanted: bytes) -> str:
    ours, theirs = got.splitlines(), wanted.splitlines()
    for number, (one, other) in enumerate(zip(ours, theirs), 1):
        if one != other:
            return f"line {number} is '{one.decode(errors='replace')[:500]}'"
    return f"{len(ours)} lines in place of {len(theirs)}"
