"""Paths of data: targets as texts (RFC 8040 section 3.5.3), and the data of a whole datastore around a value."""

from __future__ import annotations

from collections.abc import Iterator
from dataclasses import dataclass
from urllib.parse import quote, unquote

from .json_text import Json, Members, is_object, members_of
from .schema import SMALL_INTEGERS, Node


@dataclass(frozen=True)
class Step:
    """A node on a path, with the values of its keys where it is a list entry."""

    node: Node
    keys: tuple[Json, ...] = ()


Path = tuple[Step, ...]


def key_text(value: Json) -> str:
    """A key's value in a target, with each byte escaped that isn't unreserved."""
    text = {True: "true", False: "false"}[value] if isinstance(value, bool) else str(value)
    return quote(text, safe="")


def key_value(node: Node, text: str) -> Json:
    """The JSON of a key whose text stands in a target (RFC 7951 section 6)."""
    text = unquote(text)
    if node.type in SMALL_INTEGERS:
        return int(text)
    return text == "true" if node.type == "boolean" else text


def target_text(path: Path) -> str:
    """The target of a path in member forms."""
    return "".join(
        f"/{step.node.member}" + ("=" + ",".join(map(key_text, step.keys)) if step.keys else "") for step in path)


def read_target(root: Node, text: str) -> Path:
    """The path that a target names, in member forms as the program writes them."""
    path: list[Step] = []
    node = root
    for segment in text[1:].split("/"):
        member, equals, keys = segment.partition("=")
        node = node.children[member]
        leaves = [node.children[key] for key in node.keys] if node.kind == "list" else [node]
        values = zip(leaves, keys.split(",")) if equals else ()
        path.append(Step(node, tuple(key_value(leaf, key) for leaf, key in values)))
    return tuple(path)


def keys_of(step: Step) -> dict[str, Json]:
    return dict(zip(step.node.keys, step.keys))


def around(path: Path, value: Json) -> Json:
    """The data of a whole datastore in which the value's members stand where the path's last node stands."""
    for step in reversed(path[:-1]):
        if step.keys and is_object(value):
            value = Members((*keys_of(step).items(), *members_of(value)))
        value = {step.node.member: [value] if step.keys else value}
    return value


def stand_for(path: Path) -> tuple[Path, Json] | None:
    """The topmost list entry above the path's end, and a value that has what must be there before it."""
    first = next((place for place, step in enumerate(path[:-1]) if step.keys), None)
    if first is None:
        return None
    value: dict[str, Json] = {}
    for step in reversed(path[first + 1:-1]):
        value = {step.node.member: [{**keys_of(step), **value}] if step.keys else value}
    top = path[first]
    return path[:first + 1], {top.node.qualified: [{**keys_of(top), **value}]}


def places(node: Node, data: dict[str, Json], above: Path = ()) -> Iterator[tuple[Path, Json, dict[str, Json]]]:
    """The places that a creation can make, list entries and leaves, each with its JSON and with what is beside it."""
    for member, value in data.items():
        child = node.children[member]
        beside = {
            node.children[name].qualified: other for name, other in data.items()
            if name != member and not node.children[name].is_key}
        if child.kind == "container":
            yield from places(child, value, (*above, Step(child)))
        elif child.kind == "leaf" and not child.is_key:
            yield (*above, Step(child)), value, beside
        elif child.kind == "list":
            for entry in value:
                path = (*above, Step(child, tuple(entry[key] for key in child.keys)))
                yield path, [entry], beside
                yield from places(child, entry, path)
