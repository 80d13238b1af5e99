#!/usr/bin/env python3
"""Writes a stream to replay, of about N bytes: a schema line, and then notifications of one receiver.

    make_stream.py N one       one full update of 20,000 rows, then change updates of one edit each, to one id
    make_stream.py N several   the same, with 100 edits in each change update, in the order of their paths
    make_stream.py N fulls     full updates of 20,000 rows each, to one id, in the order of their paths
    make_stream.py N scattered the same, with the entries of each in no order
    make_stream.py N many      one change update to each id, as many ids as there is room for, and not more than 60,000

Entries have names of two families. Their leaves are a number, a truth value and a text.
"""

from __future__ import annotations

import itertools
import json
import sys
from collections.abc import Iterator, Sequence
from typing import Any

from make_script import scattered
from names import escaped, interface_name

SCHEMA = [
    {"path": "/acme:interface", "kind": "list", "keys": ["name"]},
    {"path": "/acme:interface/name", "kind": "leaf", "type": "string"},
    {"path": "/acme:interface/mtu", "kind": "leaf", "type": "uint16"},
    {"path": "/acme:interface/enabled", "kind": "leaf", "type": "boolean"},
    {"path": "/acme:interface/description", "kind": "leaf", "type": "string"},
]
ENTRIES = 5_000
MOST_IDS = 60_000
FIRST_ID = 2_147_483_648
EDITS = 100


def entry(number: int) -> dict[str, Any]:
    """An entry with three leaves: four rows."""
    return {
        "name": interface_name(number), "mtu": 1_500 + number % 7_500, "enabled": number % 3 > 0,
        "description": f"to rack {number % 97}, {interface_name(number + 1)}"}


def notification(name: str, body: dict[str, Any]) -> dict[str, Any]:
    return {"ietf-restconf:notification": {"eventTime": "2026-05-04T08:00:00.00Z", name: body}}


def full(sub: int, in_order: bool = True) -> dict[str, Any]:
    entries = [entry(number) for number in range(ENTRIES)]
    if in_order:
        entries.sort(key=lambda each: each["name"].encode())
    contents = {"acme:interface": entries}
    return notification("ietf-yang-push:push-update", {"datastore-contents": contents, "id": sub})


def edit(position: int, number: int) -> dict[str, Any]:
    """In turn an entry is replaced, a leaf is replaced, and an entry is deleted."""
    name = escaped(interface_name(number))
    edits = [
        {"operation": "replace", "target": f"/acme:interface={name}", "value": {"acme:interface": [entry(number)]}},
        {"operation": "replace", "target": f"/acme:interface={name}/mtu", "value": {"acme:mtu": 576 + position % 8_192}},
        {"operation": "delete", "target": f"/acme:interface={name}"}]
    return edits[position % 3]


def change(sub: int, number: int, edits: Sequence[dict[str, Any]]) -> dict[str, Any]:
    """A change update of these edits, with a number as its patch id."""
    numbered = [{"edit-id": str(at), **each} for at, each in enumerate(edits, 1)]
    patch = {"edit": numbered, "patch-id": str(number)}
    return notification("ietf-yang-push:push-change-update", {"datastore-changes": {"yang-patch": patch}, "id": sub})


def full_and_changes(edits: int) -> Iterator[dict[str, Any]]:
    """A full update, then change updates of so many edits each."""
    yield full(FIRST_ID)
    places = list(scattered(ENTRIES))
    positions = itertools.count()
    for number in itertools.count():
        found = [(places[at % ENTRIES], at) for at in itertools.islice(positions, edits)]
        found.sort(key=lambda each: interface_name(each[0]).encode())
        yield change(FIRST_ID, number, [edit(at, place) for place, at in found])


def notifications(kind: str) -> Iterator[dict[str, Any]]:
    match kind:
        case "one":
            yield from full_and_changes(1)
        case "several":
            yield from full_and_changes(EDITS)
        case "fulls" | "scattered":
            each = full(FIRST_ID, kind == "fulls")
            while True:
                yield each
        case "many":
            for number in range(MOST_IDS):
                yield change(FIRST_ID + number, 0, [edit(0, number)])
        case _:
            sys.exit(__doc__)


def main() -> None:
    if len(sys.argv) != 3:
        sys.exit(__doc__)
    most = int(sys.argv[1])
    first = json.dumps({"schema": SCHEMA}, separators=(",", ":")) + "\n"
    sys.stdout.write(first)
    size = len(first)
    for each in notifications(sys.argv[2]):
        text = json.dumps(each, separators=(",", ":")) + "\n"
        size += len(text)
        if size > most:
            break
        sys.stdout.write(text)


if __name__ == "__main__":
    main()
