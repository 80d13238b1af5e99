"""Scripts that are drawn: their texts, worked out from the rules of docs/REPLAY.md, and what their reports come to.

The commands are written here anew, from the rule of the draws alone. What a trial writes is compared with what the report
of the same text comes to, which another run of the program writes; where nothing changes it is worked out by hand.
"""

from __future__ import annotations

import json
import pathlib
import subprocess
from collections.abc import Iterator

from large_cases import SCHEMA, START

DRAWN = [(0, 1), (1, 1), (1, 100), (7, 300), (4294967295, 64), (2026, 2000)]

SETTING = [
    *(START + SCHEMA).splitlines(),
    '{"receiver":{"name":"r1","user":"ann","queue":8,"take":"auto"}}',
    '{"receiver":{"name":"r2","user":"bob","queue":8,"take":"auto"}}',
    '{"establish":{"by":"r1","datastore":"ietf-datastores:operational","on-change":{}}}',
    '{"establish":{"by":"r2","datastore":"ietf-datastores:operational",'
    '"datastore-subtree-filter":{"acme:interfaces":{"interface":[{"enabled":true,"mtu":[null]}]}},'
    '"on-change":{"dampening-period":50}}}']


def drawn_text(seed: int, size: int) -> bytes:
    """The script of a seed, with so many drawn commands."""
    lines, state = list(SETTING), seed
    for number in range(1, size + 1):
        state = (6364136223846793005 * state + 1442695040888963407) & 0xFFFFFFFFFFFFFFFF
        draw = state >> 33
        entry, kind, rest = draw & 63, draw >> 6 & 3, draw >> 8
        if kind == 0:
            lines.append(json.dumps({"tick": 10 * number}, separators=(",", ":")))
            continue
        leaf = [None, {"mtu": 576 + rest % 8192}, {"enabled": rest % 2 == 0}, None][kind]
        edit = {"edit-id": "1", "operation": "merge" if leaf else "remove", "target": f"/acme:interfaces/interface=eth{entry}"}
        if leaf:
            edit["value"] = {"acme:interface": [leaf | {"name": f"eth{entry}"}]}
        patch = {"patch": {"ietf-yang-patch:yang-patch": {"edit": [edit], "patch-id": str(number)}}}
        lines.append(json.dumps(patch, separators=(",", ":")))
    lines.append(json.dumps({"tick": 10 * (size + 10)}, separators=(",", ":")))
    return "".join(line + "\n" for line in lines).encode()


def rows_in(name: str, value: object) -> int:
    """How many rows a member of such a tree has: a container has none of its own, an entry and a leaf have one."""
    if isinstance(value, dict):
        return sum(rows_in(*each) for each in value.items())
    if isinstance(value, list):
        return sum(1 + sum(rows_in(*each) for each in entry.items() if each[0] != "name") for entry in value)
    return 1


def summary_of(report: str) -> bytes:
    """What a report comes to."""
    lines = report.splitlines()
    replies = [json.loads(line.split(" ", 4)[4]) for line in lines if line.startswith("reply ")]
    told = [line for line in lines if line.startswith("to ")]
    trees = [json.loads(line.split(" ", 3)[3]) for line in lines if line.startswith("tree ")]
    full = sum('"ietf-yang-push:push-update"' in line for line in told)
    changes = sum('"ietf-yang-push:push-change-update"' in line for line in told)
    counts = {
        "commands": len(replies), "refused": sum("error" in reply for reply in replies), "full-updates": full,
        "change-updates": changes, "notices": len(told) - full - changes,
        "fulls": sum(line.startswith("full ") for line in lines), "tree-rows": sum(rows_in("", tree) for tree in trees)}
    return "".join(f"{name} {count}\n" for name, count in counts.items()).encode() + b"end\n"


# The one command of seed 1 removes an interface that isn't there.
BY_HAND = {(1, 1): b"commands 4\nrefused 0\nfull-updates 2\nchange-updates 0\nnotices 0\nfulls 0\ntree-rows 0\nend\n"}


def output(program: pathlib.Path, words: list[str], given: bytes = b"") -> bytes:
    return subprocess.run([str(program), *words], input=given, capture_output=True, check=False).stdout


def wrong_drawn(program: pathlib.Path) -> Iterator[str]:
    """What is wrong with the scripts that the program draws, and with their trials."""
    for seed, size in DRAWN:
        text = drawn_text(seed, size)
        options = [f"--seed={seed}", "--size", str(size)]
        if output(program, ["gen", *options]) != text:
            yield f"gen {' '.join(options)}: another text"
        summary = output(program, [*options, "trial"])
        if summary != summary_of(output(program, ["run"], text).decode()):
            yield f"trial {' '.join(options)}: not what the report comes to"
        if summary != BY_HAND.get((seed, size), summary):
            yield f"trial {' '.join(options)}: not what was worked out by hand"
