#!/usr/bin/env python3
"""Writes a script that makes N rows below the entries of one list, and then subscribes to them.

    make_list.py N              four creations of N / 4 rows each: with 20,000, four lines of nearly 65,536 bytes
    make_list.py N --entries    a creation for each row, an entry that has its key alone

The full update at the end, and the tree, have all N rows. A datastore holds 20,000 rows at most, so N is a
multiple of 4 from 8 to 20,000.
"""

from __future__ import annotations

import sys
from collections.abc import Iterator
from typing import Any

from make_script import MOST_ROWS, creation, establish, head, scattered, write

SCHEMA = [
    {"path": "/acme:block", "kind": "list", "keys": ["id"]},
    {"path": "/acme:block/id", "kind": "leaf", "type": "uint16"},
    {"path": "/acme:block/row", "kind": "list", "keys": ["id"]},
    {"path": "/acme:block/row/id", "kind": "leaf", "type": "uint16"},
]
LINES = 4


def block(number: int, rows: list[int]) -> dict[str, Any]:
    """The creation of a block, with these rows in it where there are any."""
    entry: dict[str, Any] = {"id": number}
    if rows:
        entry["row"] = [{"id": row} for row in rows]
    return creation(number, f"/acme:block={number}", {"acme:block": [entry]})


def blocks(count: int, only_entries: bool) -> Iterator[dict[str, Any]]:
    """The creations; neither blocks nor rows come in their order."""
    if only_entries:
        for number in scattered(count):
            yield block(number, [])
    else:
        for number in range(LINES, 0, -1):
            yield block(number, list(scattered(count // LINES - 1)))


def main() -> None:
    words = [word for word in sys.argv[1:] if word != "--entries"]
    if len(words) != 1 or not words[0].isdigit():
        sys.exit(__doc__)
    count = int(words[0])
    if count % LINES or not 2 * LINES <= count <= MOST_ROWS:
        sys.exit(__doc__)
    write(head([SCHEMA]))
    write(blocks(count, "--entries" in sys.argv))
    write([establish()])


if __name__ == "__main__":
    main()
