#!/usr/bin/env python3
"""Writes a script about subscriptions with terms, of one of these shapes.

    make_subscriptions.py keyed N      a periodic subscription of one entry by its key, among N entries: 1,000 updates
    make_subscriptions.py bare N       the same without a subscription
    make_subscriptions.py feeds N      256 periodic subscriptions of one filter over N entries: 20 updates each
    make_subscriptions.py whole N      a periodic subscription of everything over N entries of four rows: 40 updates
    make_subscriptions.py idle N       2,000 patches, each of one counter among N entries, without a subscription
    make_subscriptions.py alike N      the same with 64 subscriptions on change of one filter that doesn't select counters
    make_subscriptions.py many N       the same with 256 subscriptions of that filter
    make_subscriptions.py apart N      the same with 64 subscriptions on change, each of another entry by its key
    make_subscriptions.py counted N    the same with 4 subscriptions on change of the counters of enabled entries
    make_subscriptions.py toggled N    2,000 patches, each of which enables or disables an entry, with 4 such
                                       subscriptions of enabled entries, so that each patch has one enter or leave

With `short-` before its name a shape of the last six has its first 100 patches alone, so that what comes once is in
both. Before each update of the others a patch changes one leaf, and a tick meets what is due of all subscriptions.
"""

from __future__ import annotations

import functools
import sys
from collections.abc import Callable, Iterator
from typing import Any

from make_script import RECEIVER, entries, head, patch, write, SCHEMA
from make_shapes import in_turn
from names import escaped, interface_name

Line = dict[str, Any]
PERIOD = 100
FEEDS = 256
FOLLOWERS = 64
PATCHES = 2_000
FEW_PATCHES = 100


def device(count: int) -> Iterator[Line]:
    """The lines up to the first command, and the patches that make so many entries of four rows."""
    yield from head([SCHEMA])
    yield from in_turn((("create", target, value) for target, value in entries(count, True)), 200)


def periodic(terms: Line) -> Line:
    return {"establish": {
        "by": RECEIVER, "datastore": "ietf-datastores:operational", **terms, "periodic": {"period": PERIOD}}}


def of_entry(inner: Line) -> Line:
    return {"datastore-subtree-filter": {"acme:interfaces": {"interface": [inner]}}}


def on_change(terms: Line) -> Line:
    return {"establish": {"by": RECEIVER, "datastore": "ietf-datastores:operational", **terms, "on-change": {}}}


def counter(number: int, count: int) -> tuple[str, str, Line]:
    """An edit of one counter."""
    name = interface_name(number * 7 % count)
    return "replace", f"/acme:interfaces/interface={escaped(name)}/stats/in", {"acme:in": str(1_000_000 + number)}


def switch(number: int, count: int) -> tuple[str, str, Line]:
    """An edit that disables an enabled entry, or enables a disabled one."""
    place = number % count
    enabled = (place % 2 == 0) != (number // count % 2 == 0)
    return "replace", f"/acme:interfaces/interface={escaped(interface_name(place))}/enabled", {"acme:enabled": enabled}


def followed(asked: list[Line], edit: Callable[[int, int], tuple[str, str, Line]]) -> Callable[[int, int], Iterator[Line]]:
    """A device of so many entries with subscriptions, and so many patches of one edit."""
    def lines(count: int, patches: int) -> Iterator[Line]:
        yield from device(count)
        yield from asked
        for number in range(patches):
            yield patch(number, [edit(number, count)])
    return lines


def ticks(count: int, updates: int) -> Iterator[Line]:
    for number in range(updates):
        yield patch(number, [counter(number, count)])
        yield {"tick": PERIOD * (number + 1)}


def keyed(count: int, is_asked: bool) -> Iterator[Line]:
    yield from device(count)
    if is_asked:
        yield periodic(of_entry({"name": interface_name(17), "mtu": [None], "stats": [None]}))
    yield from ticks(count, 1_000)


def feeds(count: int) -> Iterator[Line]:
    """The filter holds for one entry in some 40: those of one mtu out of 100 that are enabled."""
    yield from device(count)
    for number in range(100):
        name = interface_name(number * 40 % count)
        yield patch(number, [("replace", f"/acme:interfaces/interface={escaped(name)}/mtu", {"acme:mtu": 9_000})])
    terms = of_entry({"mtu": 9_000, "enabled": [None], "stats": [None]})
    for _ in range(FEEDS):
        yield periodic(terms)
    yield from ticks(count, 20)


def whole(count: int) -> Iterator[Line]:
    yield from device(count)
    yield periodic({})
    yield from ticks(count, 40)


ENABLED = of_entry({"enabled": True, "mtu": [None]})
FOLLOWED: dict[str, Callable[[int, int], Iterator[Line]]] = {
    "idle": followed([], counter),
    "alike": followed([on_change(ENABLED)] * FOLLOWERS, counter),
    "many": followed([on_change(ENABLED)] * FEEDS, counter),
    "apart": followed([on_change(of_entry({"name": interface_name(2 * number), "mtu": [None]})) for number in range(FOLLOWERS)], counter),
    "counted": followed([on_change(of_entry({"enabled": True, "stats": [None]}))] * 4, counter),
    "toggled": followed([on_change(of_entry({"enabled": True}))] * 4, switch),
}
SHAPES: dict[str, Callable[[int], Iterator[Line]]] = {
    "keyed": lambda count: keyed(count, True),
    "bare": lambda count: keyed(count, False),
    "feeds": feeds,
    "whole": whole,
    **{name: functools.partial(lines, patches=PATCHES) for name, lines in FOLLOWED.items()},
    **{f"short-{name}": functools.partial(lines, patches=FEW_PATCHES) for name, lines in FOLLOWED.items()},
}


def main() -> None:
    if len(sys.argv) != 3 or sys.argv[1] not in SHAPES or not sys.argv[2].isdigit():
        sys.exit(__doc__)
    write(SHAPES[sys.argv[1]](int(sys.argv[2])))


if __name__ == "__main__":
    main()
