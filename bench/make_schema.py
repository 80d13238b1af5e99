#!/usr/bin/env python3
"""Writes a script with a schema of N nodes over schema lines of at most 65,536 bytes each.

    make_schema.py N            lists of 16 nodes at the top: the list, its key and 14 leaves; the last may be shorter
    make_schema.py N --wide     one list with all other nodes as its leaves

N goes from 16 to 4,096. The leaves have the types in turn. A creation in the last list and a subscription follow.
"""

from __future__ import annotations

import sys
from collections.abc import Iterable, Iterator
from typing import Any

from make_script import MOST_BYTES, compact, creation, establish, head, write

TYPES = ["boolean", "int8", "int32", "int64", "uint8", "uint16", "uint32", "uint64", "decimal64:3", "string", "empty"]
MOST_NODES = 4_096
LIST_NODES = 16

Node = dict[str, Any]


def table(number: int, nodes: int) -> Iterator[Node]:
    """So many nodes of a list, two at least."""
    path = f"/acme:table-{number:03}"
    yield {"path": path, "kind": "list", "keys": ["id"]}
    yield {"path": path + "/id", "kind": "leaf", "type": "uint16"}
    for leaf in range(nodes - 2):
        yield {"path": f"{path}/column-{leaf:02}", "kind": "leaf", "type": TYPES[(number + leaf) % len(TYPES)]}


def sizes(count: int) -> list[int]:
    """How many nodes each list has."""
    whole, rest = divmod(count, LIST_NODES)
    if rest == 1:
        # a list alone would lack its key, so the one before gives it a node
        return [LIST_NODES] * (whole - 1) + [LIST_NODES - 1, 2]
    return [LIST_NODES] * whole + ([rest] if rest else [])


def groups(tables: Iterable[list[Node]]) -> Iterator[list[Node]]:
    """The nodes in groups that stay in one part: a list with its key, and each other leaf."""
    for nodes in tables:
        yield nodes[:2]
        yield from ([leaf] for leaf in nodes[2:])


def parts(together: Iterable[list[Node]]) -> Iterator[list[Node]]:
    """The nodes in parts whose lines aren't too long."""
    part: list[Node] = []
    length = len(compact({"schema": []}))
    for nodes in together:
        more = sum(len(compact(node)) + 1 for node in nodes)
        if part and length + more > MOST_BYTES:
            yield part
            part, length = [], len(compact({"schema": []}))
        part += nodes
        length += more
    yield part


def main() -> None:
    words = [word for word in sys.argv[1:] if word != "--wide"]
    if len(words) != 1 or not words[0].isdigit() or not LIST_NODES <= int(words[0]) <= MOST_NODES:
        sys.exit(__doc__)
    count = int(words[0])
    lengths = [count] if "--wide" in sys.argv else sizes(count)
    tables = [list(table(number, nodes)) for number, nodes in enumerate(lengths)]
    last = f"table-{len(tables) - 1:03}"
    write(head(list(parts(groups(tables)))))
    write([creation(1, f"/acme:{last}=7", {f"acme:{last}": [{"id": 7}]}), establish()])


if __name__ == "__main__":
    main()
