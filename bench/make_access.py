#!/usr/bin/env python3
"""Writes a script about access control, of one of these shapes.

    make_access.py rules        16 receivers of 16 users with 100 rules each, 5,000 entries, and 2,000 patches
    make_access.py no-rules     the same without a policy
    make_access.py fulls        20,000 rows, and 16 receivers that subscribe to all
    make_access.py no-fulls     the same without a subscription
    make_access.py renewed      like fulls, and then a policy that changes the rules of each user
    make_access.py alike        16 receivers of one user with 100 rules, 5,000 entries, and 2,000 patches that nobody may see
    make_access.py one          the same with one receiver
"""

from __future__ import annotations

import sys
from collections.abc import Callable, Iterator
from typing import Any

from make_script import head, patch, write
from make_shapes import in_turn, leaf, listing
from names import escaped, gigabit

Line = dict[str, Any]
RECEIVERS = 16
ENTRIES = 5_000
PATCHES = 2_000
LISTS = 16
RULES = 25
LISTS_OF_A_USER = 4


def device(entries: int) -> tuple[list[Line], Iterator[Line]]:
    """A schema line and the patches that make so many ports, each with three leaves."""
    nodes = [
        *listing("/acme:port", "name"), leaf("/acme:port/mtu", "uint16"), leaf("/acme:port/enabled", "boolean"),
        leaf("/acme:port/note", "string")]
    made = (
        ("create", f"/acme:port={escaped(gigabit(number))}",
         {"acme:port": [{"name": gigabit(number), "mtu": 1_500, "enabled": True, "note": "up"}]})
        for number in range(entries))
    return head([nodes])[:-1], in_turn(made, 200)


def receivers(user_of: Callable[[int], str], count: int = RECEIVERS) -> Iterator[Line]:
    for number in range(count):
        yield {"receiver": {"name": f"collector-{number}", "user": user_of(number), "queue": 4, "take": "auto"}}


def subscriptions(count: int = RECEIVERS) -> Iterator[Line]:
    for number in range(count):
        yield {"establish": {
            "by": f"collector-{number}", "datastore": "ietf-datastores:operational", "on-change": {}}}


def own_user(number: int) -> str:
    return f"user-{number}"


def rule(name: str, path: str) -> Line:
    return {"name": name, "access-operations": "read", "path": path, "action": "deny"}


def policy(groups: list[Line], lists: list[Line]) -> Line:
    return {"policy": {"ietf-netconf-acm:nacm": {"groups": {"group": groups}, "rule-list": lists}}}


def sixteen_users() -> Line:
    """Each user is in four of 16 groups, and each group has 25 rules about single ports."""
    groups = [
        {"name": f"group-{group}",
         "user-name": [own_user((group - place) % RECEIVERS) for place in range(LISTS_OF_A_USER)]}
        for group in range(LISTS)]
    lists = [
        {"name": f"list-{group}", "group": [f"group-{group}"], "rule": [
            rule(str(place), f"/acme:port[name='{gigabit(RULES * group + place)}']/note") for place in range(RULES)]}
        for group in range(LISTS)]
    return policy(groups, lists)


def patches() -> Iterator[Line]:
    for number in range(PATCHES):
        port = gigabit(number * 7 % ENTRIES)
        yield patch(number, [("replace", f"/acme:port={escaped(port)}/mtu", {"acme:mtu": 1_501 + number})])


def with_rules(is_told: bool) -> Iterator[Line]:
    first, made = device(ENTRIES)
    yield from [*first, *receivers(own_user)]
    if is_told:
        yield sixteen_users()
    yield from made
    yield from subscriptions()
    yield from patches()


def fulls(are_asked: bool, is_renewed: bool) -> Iterator[Line]:
    first, made = device(ENTRIES)
    yield from [*first, *receivers(own_user)]
    yield from made
    if are_asked:
        yield from subscriptions()
    if is_renewed:
        users = [own_user(number) for number in range(RECEIVERS)]
        hidden = [rule("no such note", "/acme:port[name='none']/note")]
        yield policy([{"name": "all", "user-name": users}], [{"name": "all", "group": ["all"], "rule": hidden}])


def alike(count: int) -> Iterator[Line]:
    """All ports are hidden from the one user by the last rule, so that no line is written for them."""
    first, made = device(ENTRIES)
    yield from [*first, *receivers(lambda number: "ann", count)]
    rules = [rule(str(place), f"/acme:port[name='{gigabit(place)}']/note") for place in range(99)]
    rules.append(rule("last", "/acme:port"))
    yield policy([{"name": "all", "user-name": ["ann"]}], [{"name": "all", "group": ["all"], "rule": rules}])
    yield from subscriptions(count)
    yield from made
    yield from patches()


SHAPES: dict[str, Callable[[], Iterator[Line]]] = {
    "rules": lambda: with_rules(True),
    "no-rules": lambda: with_rules(False),
    "fulls": lambda: fulls(True, False),
    "no-fulls": lambda: fulls(False, False),
    "renewed": lambda: fulls(True, True),
    "alike": lambda: alike(RECEIVERS),
    "one": lambda: alike(1),
}


def main() -> None:
    if len(sys.argv) != 2 or sys.argv[1] not in SHAPES:
        sys.exit(__doc__)
    write(SHAPES[sys.argv[1]]())


if __name__ == "__main__":
    main()
