#!/usr/bin/env python3
"""Writes a script that makes ROWS rows, subscribes to everything, and then replaces leaves.

    make_edits.py ROWS PATCHES EDITS    so many patches of so many edits, each of which gives one leaf another value

An interface has four rows: its entry and three leaves. ROWS is a multiple of 4, from 4 * EDITS to 20,000. The
interfaces come by merges of 500 at once, and the edits go to them in an order that is neither rising nor falling.
With no PATCHES the script ends at the subscription: what the patches cost is what is over that script's cost.
"""

from __future__ import annotations

import itertools
import sys
from collections.abc import Iterator
from typing import Any

from make_script import MOST_ROWS, SCHEMA, establish, head, patch, scattered, write
from names import escaped, interface_name

ROWS_EACH = 4
AT_ONCE = 500
FIRST_VALUE = 1_000_000

Edit = tuple[str, str, Any]


def interface(number: int) -> dict[str, Any]:
    return {"name": interface_name(number), "mtu": 1500, "enabled": True, "stats": {"in": "0"}}


def interfaces(count: int) -> Iterator[dict[str, Any]]:
    """The patches that make so many interfaces."""
    for place, begun in enumerate(range(0, count, AT_ONCE), 1):
        entries = [interface(number) for number in range(begun, min(begun + AT_ONCE, count))]
        yield patch(place, [("merge", "/acme:interfaces", {"acme:interfaces": {"interface": entries}})])


def replacements(count: int, first: int) -> Iterator[Edit]:
    """Edits without end: the counters of so many interfaces get one value after another, from the first on."""
    for value, number in enumerate(itertools.cycle(list(scattered(count))), first):
        yield "replace", f"/acme:interfaces/interface={escaped(interface_name(number))}/stats/in", {"acme:in": str(value)}


def replacing(count: int, edits: int, first: int = FIRST_VALUE) -> Iterator[dict[str, Any]]:
    """Patches without end, each with so many replacements among so many interfaces."""
    left = replacements(count, first)
    for place in itertools.count(1):
        yield patch(place, itertools.islice(left, edits))


def main() -> None:
    if len(sys.argv) != 4 or not all(word.isdigit() for word in sys.argv[1:]):
        sys.exit(__doc__)
    rows, patches, edits = map(int, sys.argv[1:])
    if rows % ROWS_EACH or not 1 <= ROWS_EACH * edits <= rows <= MOST_ROWS:
        sys.exit(__doc__)
    count = rows // ROWS_EACH
    write([*head([SCHEMA]), *interfaces(count), establish()])
    write(itertools.islice(replacing(count, edits), patches))


if __name__ == "__main__":
    main()
