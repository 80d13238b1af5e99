#!/usr/bin/env python3
"""Writes a script about subscriptions that come, change and go, of one of these shapes.

    make_lives.py pairs N       N subscriptions on change of one filter, each deleted before the next is established
    make_lives.py modified N    one subscription on change that is modified N times, each time with another filter
    make_lives.py configured N  N subscriptions configured for two receivers, each unconfigured before the next

With `short-` before its name a shape lacks its last thousand. There are 64 interfaces.
"""

from __future__ import annotations

import sys
from collections.abc import Callable, Iterator
from typing import Any

from make_script import SCHEMA, creation, write
from names import interface_name

Line = dict[str, Any]
COUNT = 64
LAST = 1_000
FIRST_ID = 2_147_483_648
RECEIVERS = ["collector", "archive"]


def head() -> Iterator[Line]:
    yield {"start": "2026-01-01T00:00:00Z"}
    yield {"schema": SCHEMA}
    for name in RECEIVERS:
        yield {"receiver": {"name": name, "user": "ann", "queue": 4, "take": "auto"}}
    entries = [{"name": interface_name(number), "mtu": 1_500} for number in range(COUNT)]
    yield creation("all", "/acme:interfaces", {"acme:interfaces": {"interface": entries}})


def terms(number: int) -> Line:
    inner = {"name": interface_name(number % COUNT), "mtu": [None]}
    return {"datastore-subtree-filter": {"acme:interfaces": {"interface": [inner]}}}


def asked(number: int) -> Line:
    return {"datastore": "ietf-datastores:operational", **terms(number), "on-change": {}}


def pairs(count: int) -> Iterator[Line]:
    yield from head()
    for number in range(count):
        yield {"establish": {"by": RECEIVERS[0], **asked(number)}}
        yield {"delete": {"by": RECEIVERS[0], "id": FIRST_ID + number}}


def modified(count: int) -> Iterator[Line]:
    yield from head()
    yield {"establish": {"by": RECEIVERS[0], **asked(0)}}
    for number in range(count):
        yield {"modify": {"by": RECEIVERS[0], "id": FIRST_ID, **terms(number)}}


def configured(count: int) -> Iterator[Line]:
    yield from head()
    for number in range(1, count + 1):
        yield {"configure": {"id": number, "receivers": RECEIVERS, **asked(number)}}
        yield {"unconfigure": {"id": number}}


SHAPES: dict[str, Callable[[int], Iterator[Line]]] = {"pairs": pairs, "modified": modified, "configured": configured}


def main() -> None:
    if len(sys.argv) != 3 or sys.argv[1].removeprefix("short-") not in SHAPES or not sys.argv[2].isdigit():
        sys.exit(__doc__)
    shape, count = sys.argv[1], int(sys.argv[2])
    write(SHAPES[shape.removeprefix("short-")](max(0, count - LAST * shape.startswith("short-"))))


if __name__ == "__main__":
    main()
