#!/usr/bin/env python3
"""Writes a script of N creations below one subscription of everything.

    make_script.py N            each creation makes one row: an entry, then its three leaves, and so on
    make_script.py N --whole    each creation makes an entry with its three leaves, so four rows

A datastore holds 20,000 rows at most, so N is at most 20,000, or 5,000 with --whole.
"""

from __future__ import annotations

import json
import sys
from collections.abc import Iterable, Iterator
from typing import Any

from names import escaped, interface_name

SCHEMA = [
    {"path": "/acme:interfaces", "kind": "container"},
    {"path": "/acme:interfaces/interface", "kind": "list", "keys": ["name"]},
    {"path": "/acme:interfaces/interface/name", "kind": "leaf", "type": "string"},
    {"path": "/acme:interfaces/interface/mtu", "kind": "leaf", "type": "uint16"},
    {"path": "/acme:interfaces/interface/enabled", "kind": "leaf", "type": "boolean"},
    {"path": "/acme:interfaces/interface/secret", "kind": "leaf", "type": "string", "deny-all": True},
    {"path": "/acme:interfaces/interface/stats", "kind": "container"},
    {"path": "/acme:interfaces/interface/stats/in", "kind": "leaf", "type": "uint64"},
]
MOST_ROWS = 20_000
MOST_BYTES = 65_536
RECEIVER = "collector"


def compact(value: Any) -> str:
    return json.dumps(value, separators=(",", ":"))


def head(schema_parts: list[list[dict[str, Any]]]) -> list[dict[str, Any]]:
    """The lines up to the first command."""
    return [
        {"start": "2026-01-01T00:00:00Z"},
        *({"schema": part} for part in schema_parts),
        {"receiver": {"name": RECEIVER, "user": "ann", "queue": 4, "take": "auto"}},
    ]


def establish() -> dict[str, Any]:
    """The subscription of everything."""
    return {"establish": {"by": RECEIVER, "datastore": "ietf-datastores:operational", "on-change": {}}}


def patch(number: int | str, edits: Iterable[tuple[str, str, Any]]) -> dict[str, Any]:
    """The patch of so many edits, each with its operation, target and value, where it has one."""
    said = [
        {"edit-id": str(place), "operation": operation, "target": target, **({} if value is None else {"value": value})}
        for place, (operation, target, value) in enumerate(edits, 1)]
    return {"patch": {"ietf-yang-patch:yang-patch": {"patch-id": str(number), "edit": said}}}


def creation(number: int | str, target: str, value: Any) -> dict[str, Any]:
    return patch(number, [("create", target, value)])


def scattered(count: int) -> Iterator[int]:
    """The numbers below count in an order that is neither rising nor falling."""
    step = next(s for s in (7919, 104729) if count % s)
    return (k * step % count for k in range(count))


def entries(count: int, whole: bool) -> Iterator[tuple[str, Any]]:
    """So many creations, each with its target and value."""
    each = 1 if whole else 4
    for place, number in enumerate(scattered((count + each - 1) // each)):
        name = interface_name(number)
        target = f"/acme:interfaces/interface={escaped(name)}"
        leaves = {"mtu": 576 + number % 8192, "enabled": number % 2 == 0}
        if whole:
            yield target, {"acme:interface": [{"name": name, **leaves, "stats": {"in": str(number)}}]}
            continue
        steps = [
            (target, {"acme:interface": [{"name": name}]}),
            (target + "/mtu", {"acme:mtu": leaves["mtu"]}),
            (target + "/enabled", {"acme:enabled": leaves["enabled"]}),
            (target + "/stats/in", {"acme:in": str(number)}),
        ]
        yield from steps[:count - place * each]


def write(lines: Iterable[dict[str, Any]]) -> None:
    """The lines on standard output, none of them too long for a script."""
    for line in lines:
        text = compact(line)
        if len(text) > MOST_BYTES:
            sys.exit(f"a line of {len(text)} bytes is too long")
        print(text)


def main() -> None:
    words = [word for word in sys.argv[1:] if word != "--whole"]
    whole = "--whole" in sys.argv
    if len(words) != 1 or not words[0].isdigit():
        sys.exit(__doc__)
    count = int(words[0])
    if not 1 <= count * (4 if whole else 1) <= MOST_ROWS:
        sys.exit(f"{count} creations: from 1 to {MOST_ROWS // (4 if whole else 1)}")
    write([*head([SCHEMA]), establish()])
    write(creation(k, target, value) for k, (target, value) in enumerate(entries(count, whole), 1))


if __name__ == "__main__":
    main()
