#!/usr/bin/env python3
"""Writes a script of one of these shapes.

    make_shapes.py N SHAPE

    families      N rows in lists of four families of keys, made in turn below a subscription
    subscribers   64 subscriptions of 16 receivers that come to N rows
    deep          N rows in lists nested 15 deep, made by patches of one chain each, below a subscription
    long-keys     N entries with keys of 250 bytes, and then a subscription
    many-keys     N entries of a list of 100 keys, and then a subscription
    below-keys    N rows below one entry of 400 keys, and then a subscription of each of 16 receivers
    wide          N patches that give another value to each of the 3,000 leaves of an entry, below a subscription
    enumerations  N edits among 2,000 entries, whose key and leaf are enumerations of 2,000 names, below a subscription
    chains        N patches of 300 edits, whose values are 15 objects of one member, each in the other
    replaced      N patches that replace all 20,000 rows by others, below a subscription
    late          N patches of 450 edits, of which the last is refused
    removed       N patches that remove 20,000 rows, and then have an edit that is refused
    nested        N patches that remove lists nested 15 deep from the inside out, and make them again
"""

from __future__ import annotations

import sys
from collections.abc import Callable, Iterable, Iterator
from typing import Any

from make_script import establish, head, patch, scattered, write
from names import escaped, gigabit, prefix, ten_gigabit

Line = dict[str, Any]
Edit = tuple[str, str, Any]
DEPTH = 15
KEYS = 100
MOST_KEYS = 400
HOPS = 500
LEAVES = 3_000
GROUPS = 198
MEMBERS = 100
NAMES = 2_000
DOWN = 14
EDITS = 300


def leaf(path: str, sort: str) -> Line:
    return {"path": path, "kind": "leaf", "type": sort}


def listing(path: str, *keys: str, sort: str = "string") -> list[Line]:
    """A list and its key leaves."""
    return [{"path": path, "kind": "list", "keys": list(keys)}, *(leaf(f"{path}/{key}", sort) for key in keys)]


def in_turn(edits: Iterable[Edit], each: int, mark: str = "") -> Iterator[Line]:
    """Patches of so many edits each."""
    held: list[Edit] = []
    number = 0
    for edit in edits:
        held.append(edit)
        if len(held) == each:
            number += 1
            yield patch(f"{mark}{number}", held)
            held = []
    if held:
        yield patch(f"{mark}{number + 1}", held)


# ---- four families of keys

FAMILIES: list[tuple[str, str, Callable[[int], Any]]] = [
    ("port", "string", gigabit), ("uplink", "string", ten_gigabit), ("route", "string", prefix), ("vlan", "uint32", int)]


def families(count: int) -> Iterator[Line]:
    nodes = []
    for name, sort, _ in FAMILIES:
        nodes += [*listing(f"/acme:{name}", "id", sort=sort), leaf(f"/acme:{name}/state", "uint32")]
    yield from [*head([nodes]), establish()]

    def edits() -> Iterator[Edit]:
        for number in scattered(count // 2):
            name, _, key_of = FAMILIES[number % 4]
            key = key_of(number // 4)
            yield "create", f"/acme:{name}={escaped(str(key))}", {f"acme:{name}": [{"id": key, "state": number}]}

    yield from in_turn(edits(), 5)


# ---- many subscribers

def subscribers(count: int) -> Iterator[Line]:
    nodes = [*listing("/acme:port", "name"), leaf("/acme:port/mtu", "uint16"), leaf("/acme:port/enabled", "boolean")]
    names = [f"collector-{number}" for number in range(1, 17)]
    yield from head([nodes])[:-1]
    for name in names:
        yield {"receiver": {"name": name, "user": "ann", "queue": 4, "take": "auto"}}
    made = (
        ("create", f"/acme:port={escaped(gigabit(number))}",
         {"acme:port": [{"name": gigabit(number), "mtu": 1_500, "enabled": True}]}) for number in range(count // 3))
    yield from in_turn(made, 200)
    for number in range(64):
        yield {"establish": {
            "by": names[number % 16], "datastore": "ietf-datastores:operational", "on-change": {}}}


# ---- lists in lists

def levels() -> list[str]:
    """The paths of the lists, from the outer one inwards."""
    paths = [f"/acme:{chr(97)}"]
    for level in range(1, DEPTH):
        paths.append(f"{paths[-1]}/{chr(97 + level)}")
    return paths


def deep_schema() -> list[Line]:
    nodes = []
    for path in levels():
        nodes += listing(path, "id", sort="uint16")
    return nodes


def chain(number: int) -> Line:
    """The outer entry of this number, with one entry in each entry."""
    value: Line = {"id": number}
    for level in range(DEPTH - 1, 0, -1):
        value = {"id": number, chr(97 + level): [value]}
    return {"acme:a": [value]}


def target(number: int, depth: int) -> str:
    """The entry so deep in the chain of this number."""
    return "/acme:" + "/".join(f"{chr(97 + level)}={number}" for level in range(depth))


def deep(count: int) -> Iterator[Line]:
    yield from [*head([deep_schema()]), establish()]
    yield from in_turn((("create", target(number, 1), chain(number)) for number in scattered(count // DEPTH)), 1)


def nested(count: int) -> Iterator[Line]:
    yield from head([deep_schema()])
    chains = 20
    yield patch("made", [("create", target(number, 1), chain(number)) for number in range(chains)])
    for place in range(1, count + 1):
        edits: list[Edit] = []
        for number in range(chains):
            edits += [("remove", target(number, depth), None) for depth in range(DEPTH, 0, -1)]
            edits.append(("create", target(number, 1), chain(number)))
        yield patch(place, edits)


# ---- long keys, many keys, many members

def long_keys(count: int) -> Iterator[Line]:
    yield from head([listing("/acme:tunnel", "name")])
    made = [f"{prefix(number)} " + "over a long way " * 20 for number in range(count)]
    keys = [key[:250] for key in made]
    yield from in_turn((("create", f"/acme:tunnel={escaped(key).replace(' ', '%20')}", {"acme:tunnel": [{"name": key}]})
                        for key in keys), 60)
    yield establish()


def many_keys(count: int) -> Iterator[Line]:
    names = [f"key-{number}" for number in range(KEYS)]
    yield from head([listing("/acme:flow", *names, sort="uint16")])
    for place, number in enumerate(scattered(count), 1):
        values = [(number >> shift) & 15 for shift in (8, 4, 0)] + [7] * (KEYS - 3)
        entry = dict(zip(names, values))
        yield patch(place, [("create", "/acme:flow=" + ",".join(map(str, values)), {"acme:flow": [entry]})])
    yield establish()


def below_keys(count: int) -> Iterator[Line]:
    names = [f"key-{number}" for number in range(MOST_KEYS)]
    receivers = [f"collector-{number}" for number in range(1, 17)]
    nodes = [*listing("/acme:flow", *names, sort="uint16"), *listing("/acme:flow/hop", "id", sort="uint16"), leaf("/acme:flow/hop/metric", "uint16")]
    yield from head([nodes])[:-1]
    for name in receivers:
        yield {"receiver": {"name": name, "user": "ann", "queue": 4, "take": "auto"}}
    keys = dict.fromkeys(names, 7)
    target = "/acme:flow=" + ",".join(map(str, keys.values()))
    for begun in range(0, count // 2, HOPS):
        hops = [{"id": number, "metric": number % 9} for number in range(begun, min(begun + HOPS, count // 2))]
        yield patch(begun + 1, [("merge", target, {"acme:flow": [{**keys, "hop": hops}]})])
    for name in receivers:
        yield {"establish": {"by": name, "datastore": "ietf-datastores:operational", "on-change": {}}}


def wide(count: int) -> Iterator[Line]:
    nodes = listing("/acme:card", "id", sort="uint8")
    leaves = [f"c{number:04}" for number in range(LEAVES)]
    first, second = leaves[:LEAVES // 4], leaves[LEAVES // 4:]
    parts = [second[begun:begun + 750] for begun in range(0, len(second), 750)]
    yield from head([
        [*nodes, *(leaf(f"/acme:card/{name}", "uint8") for name in first)],
        *([leaf(f"/acme:card/{name}", "uint8") for name in part] for part in parts)])
    yield establish()
    for place in range(1, count + 1):
        entry = {"id": 1, **{name: place % 100 for name in leaves}}
        yield patch(place, [("merge", "/acme:card=1", {"acme:card": [entry]})])


# ---- many names, and objects of one member

def cause(number: int) -> str:
    """A name as an alarm model has it."""
    return f"{('link', 'fan', 'power', 'optics')[number % 4]}-degraded-{number:04}"


def enumerations(count: int) -> Iterator[Line]:
    names = [cause(number) for number in range(NAMES)]
    key = {"path": "/acme:alarm/cause", "kind": "leaf", "type": "enumeration", "names": names}
    yield from [*head([
        [{"path": "/acme:alarm", "kind": "list", "keys": ["cause"]}, key],
        [{**key, "path": "/acme:alarm/worst"}]]), establish()]

    def edits() -> Iterator[Edit]:
        for place in range(count):
            number = place * 7 % NAMES
            entry = {"cause": cause(number), "worst": cause((number + 1 + place // NAMES) % NAMES)}
            yield "merge", f"/acme:alarm={cause(number)}", {"acme:alarm": [entry]}

    yield from in_turn(edits(), 10)


def chains(count: int) -> Iterator[Line]:
    names = [chr(97 + level) for level in range(DOWN)]
    paths = ["/acme:x/" + "/".join(names[:depth]) for depth in range(1, DOWN + 1)]
    containers = [{"path": path, "kind": "container"} for path in paths]
    yield from head([[*listing("/acme:x", "id", sort="uint16"), *containers, leaf(f"{paths[-1]}/v", "uint16")]])
    made = ({"acme:x": [{"id": number}]} for number in range(EDITS))
    yield patch("made", [("create", f"/acme:x={number}", value) for number, value in enumerate(made)])
    for place in range(1, count + 1):
        value: Line = {"v": place}
        for name in names[:0:-1]:
            value = {name: value}
        yield patch(place, [("merge", f"/acme:x={number}/a", {"acme:a": value}) for number in range(EDITS)])


# ---- all rows at once

def group_schema() -> list[Line]:
    return [
        {"path": "/acme:groups", "kind": "container"}, *listing("/acme:groups/group", "id", sort="uint16"),
        {"path": "/acme:groups/group/member", "kind": "leaf-list", "type": "uint8"}]


def all_groups(first: int) -> Line:
    """19,998 rows."""
    groups = [{"id": first + number, "member": list(range(MEMBERS))} for number in range(GROUPS)]
    return {"acme:groups": {"group": groups}}


def replaced(count: int) -> Iterator[Line]:
    yield from [*head([group_schema()]), establish()]
    for place in range(1, count + 1):
        yield patch(place, [("replace", "/acme:groups", all_groups(1_000 * (place % 2)))])


def removed(count: int) -> Iterator[Line]:
    yield from head([group_schema()])
    yield patch("made", [("create", "/acme:groups", all_groups(0))])
    for place in range(1, count + 1):
        yield patch(f"refused {place}", [("remove", "/acme:groups", None), ("delete", "/acme:groups/group=1", None)])


def late(count: int) -> Iterator[Line]:
    yield from head([[*listing("/acme:port", "name"), leaf("/acme:port/mtu", "uint16")]])
    for place in range(1, count + 1):
        made: list[Edit] = [
            ("merge", f"/acme:port={escaped(ten_gigabit(number))}", {"acme:port": [{"name": ten_gigabit(number)}]})
            for number in range(449)]
        yield patch(f"refused {place}", [*made, ("delete", "/acme:port=none", None)])


SHAPES: dict[str, Callable[[int], Iterator[Line]]] = {
    "families": families, "subscribers": subscribers, "deep": deep, "long-keys": long_keys, "many-keys": many_keys, "below-keys": below_keys,
    "wide": wide, "enumerations": enumerations, "chains": chains, "replaced": replaced, "late": late, "removed": removed, "nested": nested}


def main() -> None:
    if len(sys.argv) != 3 or not sys.argv[1].isdigit() or sys.argv[2] not in SHAPES:
        sys.exit(__doc__)
    write(SHAPES[sys.argv[2]](int(sys.argv[1])))


if __name__ == "__main__":
    main()
