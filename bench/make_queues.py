#!/usr/bin/env python3
"""Writes a script about a receiver with many subscriptions on change and a queue of one place.

    make_queues.py stuck N      256 subscriptions of a receiver that takes nothing, and N patches, each followed by a tick
    make_queues.py taking N     the same with a receiver that takes each notification at once
    make_queues.py stopped N    the same as stuck with one subscription

There are 64 interfaces. A patch changes one mtu, which every subscription selects.
"""

from __future__ import annotations

import sys
from collections.abc import Iterator
from typing import Any

from make_script import SCHEMA, creation, patch, write
from names import escaped, interface_name

COUNT = 64
FIRST_MTU, MTUS = 1_500, 8_000
RECEIVER = "collector"
SHAPES = {"stuck": ("command", 256), "taking": ("auto", 256), "stopped": ("command", 1)}


def lines(take: str, subscriptions: int, patches: int) -> Iterator[dict[str, Any]]:
    yield {"start": "2026-01-01T00:00:00Z"}
    yield {"schema": SCHEMA}
    yield {"receiver": {"name": RECEIVER, "user": "ann", "queue": 1, "take": take}}
    entries = [{"name": interface_name(number), "mtu": FIRST_MTU} for number in range(COUNT)]
    yield creation("all", "/acme:interfaces", {"acme:interfaces": {"interface": entries}})
    for _ in range(subscriptions):
        yield {"establish": {
            "by": RECEIVER, "datastore": "ietf-datastores:operational",
            "datastore-subtree-filter": {"acme:interfaces": {"interface": [{"mtu": [None]}]}}, "on-change": {}}}
    for number in range(1, patches + 1):
        target = f"/acme:interfaces/interface={escaped(interface_name(number % COUNT))}/mtu"
        yield patch(number, [("replace", target, {"acme:mtu": FIRST_MTU + 1 + number % MTUS})])
        yield {"tick": number}


def main() -> None:
    if len(sys.argv) != 3 or sys.argv[1] not in SHAPES or not sys.argv[2].isdigit():
        sys.exit(__doc__)
    write(lines(*SHAPES[sys.argv[1]], int(sys.argv[2])))


if __name__ == "__main__":
    main()
