#!/usr/bin/env python3
"""Writes a script that makes N rows by creations of 1,000 rows each, in nested lists.

    make_data.py N              N is a multiple of 1,000, at most 20,000

A slot has nine cards, a card 55 ports, a port its speed: 1 + 9 * (1 + 55 * 2) rows.
"""

from __future__ import annotations

import sys
from typing import Any

from make_script import creation, establish, head, write

SCHEMA = [
    {"path": "/acme:chassis", "kind": "container"},
    {"path": "/acme:chassis/slot", "kind": "list", "keys": ["id"]},
    {"path": "/acme:chassis/slot/id", "kind": "leaf", "type": "uint16"},
    {"path": "/acme:chassis/slot/card", "kind": "list", "keys": ["id"]},
    {"path": "/acme:chassis/slot/card/id", "kind": "leaf", "type": "uint8"},
    {"path": "/acme:chassis/slot/card/port", "kind": "list", "keys": ["id"]},
    {"path": "/acme:chassis/slot/card/port/id", "kind": "leaf", "type": "uint16"},
    {"path": "/acme:chassis/slot/card/port/speed", "kind": "leaf", "type": "uint32"},
]
SLOT_ROWS = 1_000


def slot(number: int) -> dict[str, Any]:
    """A slot, with its cards and ports in falling order, which the program has to put in order."""
    cards = [
        {"id": card, "port": [{"id": port, "speed": 100_000 + number + card + port} for port in range(55, 0, -1)]}
        for card in range(9, 0, -1)]
    return {"acme:slot": [{"id": number, "card": cards}]}


def main() -> None:
    if len(sys.argv) != 2 or not sys.argv[1].isdigit():
        sys.exit(__doc__)
    slots, rest = divmod(int(sys.argv[1]), SLOT_ROWS)
    if rest or not 1 <= slots <= 20:
        sys.exit(__doc__)
    write([*head([SCHEMA]), establish()])
    write(creation(k, f"/acme:chassis/slot={k}", slot(k)) for k in range(1, slots + 1))


if __name__ == "__main__":
    main()
