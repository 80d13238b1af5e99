#!/usr/bin/env python3
"""Writes a script of N lines with two lanes, whose lines take turns.

    make_lanes.py N             N goes from 100 to 100,000
    make_lanes.py N --dampened  the same, where the receivers have queues of 8 places and a dampening period of 20
                                hundredths, the second a filter, and the third may not read one interface; so each is
                                told all changes at once, when the time passes

One patch creates 64 interfaces with an mtu each, and three receivers subscribe to everything. Then each line of
the lanes is a patch that gives one interface another mtu; each lane has interfaces of its own, one after another.
The time passes once, after the lanes.
"""

from __future__ import annotations

import itertools
import sys
from collections.abc import Iterator
from typing import Any

from make_script import SCHEMA, creation, patch, write
from names import escaped, interface_name

LEAST, MOST = 100, 100_000
COUNT = 64
LANES = 2
EACH = COUNT // LANES
FIRST_MTU = 1_500
MTUS = 8_000
RECEIVERS = [("first", "ann"), ("second", "bob"), ("third", "cyd")]
FILTER = {"acme:interfaces": {"interface": [{"enabled": True, "mtu": [None]}]}}


def hiding(name: str) -> dict[str, Any]:
    """A policy by which the third user may not read an interface."""
    path = f"/acme:interfaces/interface[name='{name}']"
    rule = {"name": "hidden", "path": path, "access-operations": "read", "action": "deny"}
    groups = {"group": [{"name": "guests", "user-name": ["cyd"]}]}
    return {"policy": {"ietf-netconf-acm:nacm": {"groups": groups, "rule-list": [{"name": "guests", "group": ["guests"], "rule": [rule]}]}}}


def begun(is_dampened: bool) -> Iterator[dict[str, Any]]:
    """The lines up to the lanes."""
    yield {"start": "2026-01-01T00:00:00Z"}
    yield {"schema": SCHEMA}
    for name, user in RECEIVERS:
        yield {"receiver": {"name": name, "user": user, "queue": 8 if is_dampened else 4, "take": "auto"}}
    entries = [{"name": interface_name(number), "enabled": True, "mtu": FIRST_MTU} for number in range(COUNT)]
    yield creation(1, "/acme:interfaces", {"acme:interfaces": {"interface": entries}})
    if is_dampened:
        yield hiding(interface_name(0))
    for name, _ in RECEIVERS:
        terms = {"datastore-subtree-filter": FILTER} if is_dampened and name == "second" else {}
        trigger = {"dampening-period": 20} if is_dampened else {}
        yield {"establish": {"by": name, "datastore": "ietf-datastores:operational", **terms, "on-change": trigger}}


def commands(lane: int) -> Iterator[dict[str, Any]]:
    """The commands of a lane, without end. An interface never gets the mtu that it has."""
    for place in itertools.count(1):
        name = escaped(interface_name(EACH * (lane - 1) + place % EACH))
        target = f"/acme:interfaces/interface={name}/mtu"
        yield patch(place, [("replace", target, {"acme:mtu": FIRST_MTU + 1 + place % MTUS})])


def lane_lines() -> Iterator[dict[str, Any]]:
    """The lanes' lines, without end."""
    lanes = {lane: commands(lane) for lane in range(1, LANES + 1)}
    while True:
        yield from ({"lane": lane, "do": next(left)} for lane, left in lanes.items())


def main() -> None:
    if sys.argv[2:] not in ([], ["--dampened"]) or not sys.argv[1:] or not sys.argv[1].isdigit() or not LEAST <= int(sys.argv[1]) <= MOST:
        sys.exit(__doc__)
    before, after = [*begun(sys.argv[2:] != []), {"lanes": LANES}], [{"join": True}, {"tick": 100_000}]
    write(before)
    write(itertools.islice(lane_lines(), int(sys.argv[1]) - len(before) - len(after)))
    write(after)


if __name__ == "__main__":
    main()
