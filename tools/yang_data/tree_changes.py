"""One change of a list entry or leaf: of a value in it, of a name, of its keys, of its arrays and objects."""

from __future__ import annotations

from collections.abc import Iterator
from dataclasses import dataclass, replace

from .json_text import Json, Members
from .leaf_changes import WRONG_TYPE, Change, integer_ends, leaf_changes
from .paths import Path
from .rules import MEMBER_FORM, ONE_ENTRY, ONE_MEMBER, OUTER_NAME, PATH_KEYS, STATE, TWICE, Rule
from .schema import LARGE_INTEGERS, SMALL_INTEGERS, Node

NAME = "wrong name"
KEYS = "keys"
REPEATED = "repeated"
AT_PATH = "value at a path"

Object = dict[str, Json]


@dataclass(frozen=True)
class Placed:
    """A change, the place below the whole value where it was made, and the whole value with it."""

    where: str
    change: Change
    value: Json

    def inside(self, member: str, value: Json) -> Placed:
        return replace(self, where=f"/{member}{self.where}", value=value)


def here(category: str, name: str, value: Json, rule: Rule | None = None) -> Placed:
    return Placed("", Change(category, name, value, rule), value)


def other_value(node: Node, value: Json) -> Json:
    """Another value of a leaf's type, in canonical form; the same where none is near."""
    if node.type in SMALL_INTEGERS + LARGE_INTEGERS:
        number = int(value)
        number += 1 if number < integer_ends(node.type)[1] else -1
        return number if node.type in SMALL_INTEGERS else str(number)
    if node.type == "boolean":
        return not value
    if node.type == "enumeration":
        return node.names[(node.names.index(value) + 1) % len(node.names)]
    if node.type == "string":
        return value[:250] + "-x"
    return "0.5" if value != "0.5" else "0.1"


def with_other_key(node: Node, entry: Object) -> Object:
    """The entry with another value of its first key."""
    key = node.keys[0]
    return {**entry, key: other_value(node.children[key], entry[key])}


def names(node: Node, value: Object) -> Iterator[Placed]:
    """The object with one member under another name, one too many, or one twice."""
    for member, below in value.items():
        child = node.children[member]
        rest = {name: other for name, other in value.items() if name != member}
        changed = child.name.swapcase()
        for name in (f"{child.name}-x", changed, f"no-such:{child.name}", f"{child.name}:", ""):
            yield here(NAME, f"{member} as '{name}'", {**rest, name: below})
        yield here(NAME, f"{member} as ':{child.name}'", {**rest, f":{child.name}": below}, MEMBER_FORM)
        if ":" in member:
            yield here(NAME, f"{member} as '{child.name}'", {**rest, child.name: below})
        else:
            yield here(NAME, f"{member} as '{child.qualified}'", {**rest, child.qualified: below}, MEMBER_FORM)
        yield here(REPEATED, f"{member} twice", Members((*value.items(), (member, below))), TWICE)
    for name in ("no-such", f"{node.module}:no-such", "@no-such", "*", "."):
        yield here(NAME, f"and '{name}'", {**value, name: 1})


def object_changes(node: Node, value: Object, is_outermost: bool) -> Iterator[Placed]:
    """The changes of the members of an entry or a container, and those below them."""
    yield from names(node, value)
    for key in node.keys:
        yield here(KEYS, f"no {key}", {name: below for name, below in value.items() if name != key})
        yield here(KEYS, f"{key} null", {**value, key: None})
    for member, below in value.items():
        child = node.children[member]
        if not (is_outermost and child.is_key):
            for placed in changes(child, below):
                yield placed.inside(member, {**value, member: placed.value})


def list_changes(node: Node, value: list[Object]) -> Iterator[Placed]:
    first, *rest = value
    yield from (here(WRONG_TYPE, f"{other} for a list", other) for other in (None, {}, first, True, 0, "x"))
    yield from (here(WRONG_TYPE, f"{item} for an entry", [item]) for item in (None, [], [first], True, 0, "x"))
    yield here(WRONG_TYPE, "no entry", [])
    keys = {key: first[key] for key in node.keys}
    yield here(REPEATED, "an entry twice", [*value, first])
    yield here(REPEATED, "keys twice", [*value, keys])
    yield here(REPEATED, "keys twice in another order", [keys, *rest, dict(reversed(first.items()))])
    yield here(KEYS, "an empty entry", [*value, {}])
    yield here(KEYS, "one more entry", [*value, with_other_key(node, first)])
    for placed in object_changes(node, first, False):
        yield replace(placed, value=[placed.value, *rest])


def leaf_list_changes(node: Node, value: list[Json]) -> Iterator[Placed]:
    first, *rest = value
    yield from (here(WRONG_TYPE, f"{other} for a leaf-list", other) for other in (None, {}, first, {"x": first}))
    yield here(WRONG_TYPE, "no value", [])
    yield from (here(WRONG_TYPE, f"{item} for a value", [item, *rest]) for item in ([], [first], {}))
    yield here(REPEATED, "a value twice", [*value, first], STATE)
    yield here(REPEATED, "a value twice, apart", [first, *rest, first], STATE)
    if node.type in LARGE_INTEGERS:
        yield here(REPEATED, "a value twice, with a sign", [*value, f"+{first}"], STATE)
    for change in leaf_changes(node):
        yield Placed("", change, [change.value, *rest])


def changes(node: Node, value: Json) -> Iterator[Placed]:
    """The changes of the JSON of a node, each with the JSON that comes of it."""
    if node.kind == "leaf":
        yield from (Placed("", change, change.value) for change in leaf_changes(node))
    elif node.kind == "leaf-list":
        yield from leaf_list_changes(node, value)
    elif node.kind == "list":
        yield from list_changes(node, value)
    else:
        others = (None, [], [value], True, 0, "", "x")
        yield from (here(WRONG_TYPE, f"{other} for a container", other) for other in others)
        yield here(WRONG_TYPE, "an empty container", {})
        yield from object_changes(node, value, False)


def outer_names(path: Path, value: Json, beside: Object) -> Iterator[Placed]:
    """The object at a path with its one member under another name, with others beside it, or without it."""
    node = path[-1].node
    local = OUTER_NAME if node.parent and node.name in node.parent.children else None
    yield here(AT_PATH, "its local name", {node.name: value}, local)
    for name in (f"{node.qualified}-x", f"no-such:{node.name}", f"{node.module}:", node.qualified.swapcase(), ""):
        yield here(AT_PATH, f"the name '{name}'", {name: value})
    yield here(AT_PATH, "no member", {}, ONE_MEMBER)
    for member, below in beside.items():
        yield here(AT_PATH, f"and {member}", {node.qualified: value, member: below}, ONE_MEMBER)
    yield here(AT_PATH, "and no node", {node.qualified: value, f"{node.module}:no-such": 1})
    yield here(AT_PATH, "twice", Members(((node.qualified, value),) * 2), TWICE)
    for other in (None, [], True, 0, "x", [{node.qualified: value}]):
        yield here(AT_PATH, f"{other} for the object", other)


def outer_entries(path: Path, entry: Object) -> Iterator[Placed]:
    """The array of one entry at a path with more or less in it, or with an entry of other keys."""
    node = path[-1].node
    other = with_other_key(node, entry)

    def at(name: str, value: Json, rule: Rule | None = None) -> Placed:
        return here(AT_PATH, name, {node.qualified: value}, rule)

    yield at("no entry", [], ONE_ENTRY)
    yield at("the entry twice", [entry, entry])
    yield at("two entries", [entry, other], ONE_ENTRY)
    yield at("an entry of other keys", [other], PATH_KEYS)
    for value in (entry, {}, None, True, 0, "x", [None], [[entry]], [True], [0], ["x"], [{}]):
        yield at(f"{value} for the array", value)


def at_path(path: Path, value: Json, beside: Object) -> Iterator[Placed]:
    """The changes of the value of a creation at a path, of all that is in it too; beside it may stand other data."""
    node = path[-1].node
    yield from outer_names(path, value, beside)
    if node.kind == "list":
        [entry] = value
        yield from outer_entries(path, entry)
        for placed in object_changes(node, entry, True):
            yield replace(placed, value={node.qualified: [placed.value]})
    else:
        for placed in changes(node, value):
            yield replace(placed, value={node.qualified: placed.value})
