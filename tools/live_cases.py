"""What `live` writes of scripts: those of other cases once more, and scripts with lanes.

Without lanes the report of `live` is that of `run`, and a script with a fault has that fault. With a receiver that
takes by command the first such receiver is told, in the order of their lines. With lanes the order of commands and
the moments of full queues are open, so there is no one report. Here each lane changes entries of its own, and a late
tick stands behind the lanes. Then the replies have each command once, those of each lane in their order, and each
receiver holds in the end what the last commands of all lanes leave. Nothing here comes of a run.
"""

from __future__ import annotations

import json
import pathlib
import subprocess
from collections.abc import Iterator

from large_cases import FIRST_ID, SCHEMA, START, compact, edit, patch

# of scripts that are longer only `run` is tried
MOST_BYTES = 200_000
FILTER = '"datastore-subtree-filter":{"acme:interfaces":{"interface":[{"enabled":true,"mtu":[null]}]}},'
TERMS = ['"on-change":{"dampening-period":20}', FILTER + '"on-change":{}', '"periodic":{"period":100}']
COMMANDS = 40


def by_command(script: bytes) -> str | None:
    """The name of the first receiver that takes by command, in a script without a fault."""
    for line in script.split(b"\n"):
        if line.strip(b" \t\r"):
            said = json.loads(line).get("receiver")
            if said is not None and said["take"] == "command":
                return said["name"]
    return None


def told_live(script: bytes, status: int, out: bytes, error: bytes) -> tuple[int, bytes, bytes] | None:
    """How `live` ends where `run` ends so, and what it writes; nothing of long scripts and of those with lanes."""
    if len(script) > MOST_BYTES or b'"lanes"' in script:
        return None
    name = by_command(script) if status == 0 else None
    return (status, out, error) if name is None else (5, b"", f"push: receiver {name} takes by command\n".encode())


def port(number: int, mtu: int) -> dict[str, object]:
    return {"name": f"eth{number}", "enabled": True, "mtu": mtu}


def script_of(lanes: int) -> tuple[str, list[list[str]]]:
    """A script and the commands of its lanes; lane L has the entries 2L and 2L + 1 alone."""
    users = enumerate(["ann", "bob", "cyd"], 1)
    receivers = [f'{{"receiver":{{"name":"r{n}","user":"{user}","queue":{n},"take":"auto"}}}}\n' for n, user in users]
    ports = [port(number, 1500) for number in range(2, 2 * lanes + 2)]
    boot = [edit(each["name"], "create", f"/acme:interfaces/interface={each['name']}", {"acme:interface": [each]}) for each in ports]
    asked = [f'{{"establish":{{"by":"r{n}","datastore":"ietf-datastores:operational",{terms}}}}}\n' for n, terms in enumerate(TERMS, 1)]
    work = [[command(lane, number) for number in range(1, COMMANDS + 1)] for lane in range(1, lanes + 1)]
    lines = [f'{{"lane":{lane},"do":{each.rstrip()}}}\n' for lane, all_its in enumerate(work, 1) for each in all_its]
    begin = [START, SCHEMA, *receivers, patch(*boot), *asked, f'{{"lanes":{lanes}}}\n']
    return "".join([*begin, *lines, '{"join":true}\n', '{"tick":100000}\n']), work


def command(lane: int, number: int) -> str:
    """A tick now and then, else another mtu for one of the two entries of the lane."""
    if number % 5 == 0:
        return f'{{"tick":{10 * number}}}\n'
    target = f"/acme:interfaces/interface=eth{2 * lane + number % 2}/mtu"
    return patch(edit("e", "replace", target, {"acme:mtu": 1500 + number}))


def trees_of(lanes: int) -> list[str]:
    """What each receiver holds in the end, as the lines of the report."""
    last = {half: max(n for n in range(1, COMMANDS + 1) if n % 2 == half and n % 5 != 0) for half in (0, 1)}
    held = sorted((port(2 * lane + half, 1500 + last[half]) for lane in range(1, lanes + 1) for half in (0, 1)), key=lambda each: each["name"])
    data = compact({"acme:interfaces": {"interface": [dict(sorted(each.items())) for each in held]}})
    return [f"tree r{n} {FIRST_ID + n - 1} {data}" for n in range(1, len(TERMS) + 1)]


def wrong_report(text: str, lanes: int, work: list[list[str]]) -> str | None:
    """What is wrong with the report of such a script."""
    lines = text.splitlines()
    replies = [line.split(" ", 4) for line in lines if line.startswith("reply ")]
    outside = len(TERMS) + 2
    if [each[1] for each in replies] != [str(n) for n in range(1, outside + sum(map(len, work)) + 1)]:
        return "the positions aren't counted up"
    for lane, count in [(0, outside), *enumerate(map(len, work), 1)]:
        if [each[3] for each in replies if each[2] == str(lane)] != [str(n) for n in range(1, count + 1)]:
            return f"lane {lane} isn't answered in its order"
    if [each[2] for each in replies[:outside - 1]] + [replies[-1][2]] != ["0"] * outside:
        return "a lane comes before its part or after it"
    if any('"error"' in each[4] for each in replies):
        return "a command is refused"
    if [line for line in lines if line.startswith("tree ")] != trees_of(lanes):
        return "a receiver holds something else in the end"
    return None if text.endswith("\nend\n") else "the end is missing"


def wrong_lives(program: pathlib.Path) -> Iterator[str]:
    """What is wrong with runs of lanes by threads."""
    for lanes in (1, 2, 5, 16, 64):
        script, work = script_of(lanes)
        for workers in (1, 2, 3, 8):
            words = ["live", "--workers", str(workers)]
            ran = subprocess.run([str(program), *words], input=script.encode(), capture_output=True, check=False)
            wrong = wrong_report(ran.stdout.decode(), lanes, work) if ran.returncode == 0 and not ran.stderr else f"status {ran.returncode}"
            if wrong:
                yield f"live: {lanes} lanes and {workers} workers: {wrong}"
