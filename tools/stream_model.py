"""What `push replay` writes of a stream: a model that does nothing but what docs/REPLAY.md and docs/SCRIPT.md say.

It shares no code with the program and never runs it. Texts, targets and data are read by rules of its own, and JSON by
Python's reader, with what sets that apart from the program's put right: half a surrogate pair, a nesting past 127,
names such as NaN, and numbers past the largest float are no JSON, and `-0` or an integer past 64 bits is a float.
"""

from __future__ import annotations

import datetime
import json
import math
import re
from collections.abc import Callable, Iterator
from dataclasses import dataclass, field
from typing import Any

from large_cases import compact

MOST_BYTES, MOST_LINES, LINE_BYTES = 67_108_864, 100_000, 65_536
MOST_NESTED, MOST_NAMES, MOST_NODES, NAME_BYTES, TEXT_BYTES = 127, 16, 4_096, 64, 256
LAST_ID = 4_294_967_295

# Faults of the first lines, and of notification lines.
TOO_LONG, NO_SCRIPT_JSON, UNKNOWN_LINE, IN_LINE, IN_SCHEMA, ORDER, LIMIT = 1, 2, 3, 4, 5, 8, 9
NO_JSON, ENVELOPE, UNKNOWN_NOTICE, MEMBER, TARGET, DATA = 1, 2, 3, 4, 5, 6
BAD_SCRIPT, BAD_STREAM = 3, 4

NAME = re.compile(r"[A-Za-z_][A-Za-z0-9_.-]*")
TIME = re.compile(r"([0-9]{4}-[0-9]{2}-[0-9]{2}T[0-9]{2}:[0-9]{2}:[0-9]{2})(?:\.[0-9]{1,9})?(?:Z|([+-])([0-9]{2}):([0-9]{2}))")
NESTING = re.compile(r'"[^"\\]*(?:\\.[^"\\]*)*"?|[\[{]|[\]}]')
ESCAPE = re.compile(r"\\u[dD][89abAB][0-9a-fA-F]{2}\\u[dD][c-fC-F][0-9a-fA-F]{2}|(\\u[dD][89a-fA-F][0-9a-fA-F]{2})|\\.")
PERCENT = re.compile(rb"%([0-9a-fA-F]{2})?")

# A path is a list of steps: the member form of a node, and the entry's keys.
Step = tuple[str, tuple[Any, ...]]
Path = tuple[Step, ...]
Rows = dict[Path, Any]
Edits = list[tuple[Path, Rows]]

# The lines of a script whose members are one value, with its kind, and those that this model doesn't judge.
SIMPLE_LINES = {"start": str, "tick": int, "lanes": int, "join": bool}
OTHER_LINES = {"receiver", "patch", "policy", "establish", "take"}

CHANGES = {"subscription-started", "subscription-modified", "subscription-resumed"}
REASONS = {"subscription-suspended": "unsupportable-volume", "subscription-terminated": "no-such-subscription"}


class Refused(Exception):
    """What was read isn't what it should be."""


@dataclass(frozen=True)
class Fault:
    """The status, the line and the number of the fault that is told."""

    status: int
    line: int
    number: int


def need(holds: bool) -> None:
    if not holds:
        raise Refused


# ---- JSON

def number(text: str) -> int | float:
    """A whole number of 64 bits, or else a float, as long as there is one."""
    if re.fullmatch(r"-?[0-9]{1,20}", text) and text != "-0" and -2**63 <= int(text) < 2**64:
        return int(text)
    value = float(text)
    need(math.isfinite(value))
    return value


def no_name(_: str) -> None:
    raise Refused


def nesting(text: str) -> int:
    """How many arrays and objects are open at most."""
    depth = deepest = 0
    for found in NESTING.finditer(text):
        mark = found[0][0]
        depth += (mark in "[{") - (mark in "]}")
        deepest = max(deepest, depth)
    return deepest


def read_json(raw: bytes) -> Any:
    """The value of a JSON text. Of a member that stands twice the last counts."""
    try:
        text = raw.decode()
        need(text.count("[") + text.count("{") <= MOST_NESTED or nesting(text) <= MOST_NESTED)
        need(not any(found[1] for found in ESCAPE.finditer(text)))
        return json.loads(text, parse_int=number, parse_float=number, parse_constant=no_name)
    except ValueError:
        raise Refused from None


def has_members(value: Any, *names: str, may: str = "") -> bool:
    """Whether it is an object of these members, and perhaps of one more."""
    return isinstance(value, dict) and {*names} <= {*value} <= {*names, may or names[0]}


# ---- schemas

@dataclass
class SchemaNode:
    """A node, with its children by the names that they have in a schema's paths."""

    kind: str
    module: str = ""
    name: str = ""
    type: str = ""
    names: tuple[str, ...] = ()
    keys: tuple[str, ...] = ()
    has_presence: bool = False
    children: dict[str, SchemaNode] = field(default_factory=dict)

    def targeted(self, name: str) -> tuple[str, SchemaNode] | None:
        """The child that a target means, by a name with or without its module."""
        for member, child in self.children.items():
            if name in (member, child.qualified):
                return member, child
        return None

    @property
    def qualified(self) -> str:
        return f"{self.module}:{self.name}"

    @property
    def keyed(self) -> list[SchemaNode]:
        """The nodes whose values are the keys of an entry."""
        return [self] if self.kind == "leaf-list" else [self.children[key] for key in self.keys]


def is_name(text: Any) -> bool:
    return isinstance(text, str) and NAME.fullmatch(text) is not None and len(text) <= NAME_BYTES


def are_distinct(texts: Any) -> bool:
    return isinstance(texts, list) and all(isinstance(text, str) for text in texts) and 0 < len(texts) == len({*texts})


def is_short(text: Any) -> bool:
    return isinstance(text, str) and len(text.encode()) <= TEXT_BYTES


def is_type(kind: str, name: str) -> bool:
    places = re.fullmatch(r"decimal64:([1-9][0-9]?)", name)
    if places:
        return int(places[1]) <= 18
    return re.fullmatch(r"boolean|u?int(8|16|32|64)|string|enumeration", name) is not None or (name == "empty" and kind == "leaf")


def stated(said: Any) -> SchemaNode:
    """A node by its members, but for its place."""
    need(isinstance(said, dict) and isinstance(said.get("path"), str))
    kind, optional = said.get("kind"), {"deny-all"}
    needed = {"path", "kind"}
    if kind == "container":
        optional |= {"presence"}
    elif kind == "list":
        needed |= {"keys"}
    else:
        need(kind in ("leaf", "leaf-list"))
        needed |= {"type", "names"} if said.get("type") == "enumeration" else {"type"}
    need(needed <= {*said} <= needed | optional)
    need(all(isinstance(said.get(name, False), bool) for name in ("deny-all", "presence")))
    if kind == "list":
        need(are_distinct(said["keys"]) and all(map(is_name, said["keys"])))
    if "type" in needed:
        need(isinstance(said["type"], str) and is_type(kind, said["type"]))
    if "names" in needed:
        need(are_distinct(said["names"]) and all(map(is_short, said["names"])))
    return SchemaNode(
        kind, type=said.get("type", ""), names=tuple(said.get("names", ())), keys=tuple(said.get("keys", ())),
        has_presence=said.get("presence", False))


def nodes_below(node: SchemaNode) -> int:
    return sum(1 + nodes_below(child) for child in node.children.values())


def add_part(top: SchemaNode, part: Any) -> None:
    """The nodes of a part stand below the top then, where it has no fault."""
    need(isinstance(part, list))
    lists = []
    for said in part:
        node = stated(said)
        first, *steps = said["path"].split("/")
        need(first == "" and 0 < len(steps) <= MOST_NAMES)
        parent = top
        for step in steps[:-1]:
            need(step in parent.children)
            parent = parent.children[step]
        module, colon, name = steps[-1].rpartition(":")
        need(is_name(name) and (is_name(module) and module != parent.module if colon else parent is not top))
        need(parent.kind in ("container", "list") and steps[-1] not in parent.children)
        node.name, node.module = name, module if colon else parent.module
        parent.children[steps[-1]] = node
        if node.kind == "list":
            lists.append(node)
    need(nodes_below(top) <= MOST_NODES)
    for node in lists:
        leaves = [node.children.get(key) for key in node.keys]
        need(all(leaf is not None and leaf.kind == "leaf" and leaf.type != "empty" for leaf in leaves))


# ---- values

PRESENT, ENTRY, EMPTY = object(), object(), object()


def text_value(node: SchemaNode, text: str) -> Any:
    """The value of a type that a text is. A decimal is the number of its units."""
    if node.type == "boolean":
        need(text in ("true", "false"))
        return text == "true"
    if node.type in ("string", "enumeration"):
        need(is_short(text) if node.type == "string" else text in node.names)
        return text
    if node.type.startswith("decimal64:"):
        places = int(node.type.partition(":")[2])
        found = re.fullmatch(rf"([+-]?)([0-9]+)(?:\.([0-9]{{1,{places}}}))?", text)
        need(found is not None)
        return in_range(found[1], found[2] + (found[3] or "").ljust(places, "0"), "int64")
    found = re.fullmatch(r"([+-]?)([0-9]+)", text)
    need(found is not None and node.type != "empty")
    return in_range(found[1], found[2], node.type)


def bounds(name: str) -> tuple[int, int]:
    bits = int(name.rpartition("int")[2])
    return (0, 2**bits - 1) if name.startswith("u") else (-(2**(bits - 1)), 2**(bits - 1) - 1)


def in_range(sign: str, digits: str, name: str) -> int:
    least, most = bounds(name)
    digits = digits.lstrip("0") or "0"
    need(len(digits) <= 20)
    value = int(sign + digits)
    need(least <= value <= most)
    return value


def is_bare(name: str) -> bool:
    """Whether JSON has an integer type as a number."""
    return re.fullmatch(r"u?int(8|16|32)", name) is not None


def json_value(node: SchemaNode, value: Any) -> Any:
    """The value of a type that a JSON value is."""
    if node.type == "empty":
        need(isinstance(value, list) and len(value) == 1 and value[0] is None)
        return EMPTY
    if node.type == "boolean":
        need(isinstance(value, bool))
        return value
    if is_bare(node.type):
        least, most = bounds(node.type)
        need(type(value) is int and least <= value <= most)
        return value
    need(isinstance(value, str))
    return text_value(node, value)


def canonical(node: SchemaNode, value: Any) -> str:
    if node.type == "boolean":
        return "true" if value else "false"
    if node.type.startswith("decimal64:"):
        places = int(node.type.partition(":")[2])
        whole, part = divmod(abs(value), 10**places)
        return f"{'-' if value < 0 else ''}{whole}.{str(part).zfill(places).rstrip('0') or '0'}"
    return str(value)


def as_json(node: SchemaNode, value: Any) -> Any:
    if value is EMPTY:
        return [None]
    return value if node.type == "boolean" or is_bare(node.type) else canonical(node, value)


# ---- targets

def decoded(key: str) -> str:
    """A key of a target, without its escapes."""
    raw = key.encode()
    need(all(found[1] for found in PERCENT.finditer(raw)))
    try:
        return PERCENT.sub(lambda found: bytes([int(found[1], 16)]), raw).decode()
    except ValueError:
        raise Refused from None


def read_target(top: SchemaNode, text: str) -> Path:
    """The path of a target, which ends at no key leaf."""
    path: list[Step] = []
    node = parent = top
    need(text.startswith("/"))
    for segment in text[1:].split("/"):
        name, equals, said = segment.partition("=")
        found = node.targeted(name)
        need(found is not None)
        parent, (member, node) = node, found
        texts = said.split(",") if equals else []
        need(len(texts) == len(node.keyed))
        path.append((member, tuple(text_value(leaf, decoded(key)) for leaf, key in zip(node.keyed, texts))))
    need(path[-1][0] not in parent.keys)
    return tuple(path)


def node_of(top: SchemaNode, path: Path) -> SchemaNode:
    for member, _ in path:
        top = top.children[member]
    return top


# ---- data

def members_in(node: SchemaNode, value: Any, at: Path) -> Iterator[tuple[Path, Any]]:
    """The rows of the members of an object, but for those of an entry's keys."""
    need(isinstance(value, dict))
    for name, inner in value.items():
        need(name in node.children)
        if name not in node.keys:
            yield from member_in(node.children[name], inner, at, name)


def member_in(node: SchemaNode, value: Any, at: Path, name: str) -> Iterator[tuple[Path, Any]]:
    if node.kind == "container":
        yield from container_in(node, value, (*at, (name, ())))
    elif node.kind == "leaf":
        yield (*at, (name, ())), json_value(node, value)
    else:
        need(isinstance(value, list))
        for each in value:
            yield from entry_in(node, each, at, name)


def container_in(node: SchemaNode, value: Any, at: Path) -> Iterator[tuple[Path, Any]]:
    if node.has_presence:
        yield at, PRESENT
    yield from members_in(node, value, at)


def entry_in(node: SchemaNode, value: Any, at: Path, name: str) -> Iterator[tuple[Path, Any]]:
    """The rows of an entry of a list or leaf-list; the first is its own."""
    if node.kind == "leaf-list":
        yield (*at, (name, (json_value(node, value),))), ENTRY
        return
    need(isinstance(value, dict) and {*node.keys} <= {*value})
    path = (*at, (name, tuple(json_value(node.children[key], value[key]) for key in node.keys)))
    yield path, ENTRY
    yield from members_in(node, value, path)


def as_rows(found: Iterator[tuple[Path, Any]]) -> Rows:
    """Rows, of which no two have one path."""
    rows: Rows = {}
    for path, value in found:
        need(path not in rows)
        rows[path] = value
    return rows


def rows_at(top: SchemaNode, path: Path, value: Any) -> Rows:
    """The rows of the value of an edit with this target."""
    node, (name, _) = node_of(top, path), path[-1]
    need(has_members(value, node.qualified))
    inner = value[node.qualified]
    if node.kind in ("list", "leaf-list"):
        need(isinstance(inner, list) and len(inner) == 1)
    rows = as_rows(member_in(node, inner, path[:-1], name))
    need(all(row[:len(path)] == path for row in rows))
    return rows


def nested(rows: Rows) -> dict[Step, Any]:
    """The paths of rows, one in another."""
    tree: dict[Step, Any] = {}
    for path in rows:
        level = tree
        for step in path:
            level = level.setdefault(step, {})
    return tree


def written(node: SchemaNode, at: Path, level: dict[Step, Any], rows: Rows, say: Callable[[SchemaNode, Any], Any] = as_json) -> Any:
    """The members of a container, an entry or the top, as JSON that says each value so."""
    found: dict[str, Any] = {}
    if node.kind == "list":
        found |= {key: say(leaf, value) for key, leaf, value in zip(node.keys, node.keyed, at[-1][1])}
    for step in sorted(level):
        child, path = node.children[step[0]], (*at, step)
        if child.kind == "leaf":
            found[step[0]] = say(child, rows[path])
        elif child.kind == "leaf-list":
            found.setdefault(step[0], []).append(say(child, step[1][0]))
        elif child.kind == "list":
            found.setdefault(step[0], []).append(written(child, path, level[step], rows, say))
        else:
            found[step[0]] = written(child, path, level[step], rows, say)
    return dict(sorted(found.items()))


def trees(top: SchemaNode, held: dict[int, Rows]) -> bytes:
    """The text of the rows of each id."""
    lines = [f"tree {id} {compact(written(top, (), nested(rows), rows))}\n" for id, rows in sorted(held.items())]
    return ("".join(lines) + "end\n").encode()


# ---- notifications

@dataclass
class Heard:
    """What a notification says of an id: all its rows, or edits, or nothing of them."""

    id: int
    rows: Rows | None = None
    edits: Edits | None = None


def is_time(text: Any) -> bool:
    """Whether it is an event time: the written year and the one in UTC are 1970 to 2999."""
    found = TIME.fullmatch(text) if isinstance(text, str) else None
    if found is None:
        return False
    try:
        local = datetime.datetime(*map(int, re.findall("[0-9]+", found[1])))
    except ValueError:
        return False
    hours, minutes = int(found[3] or 0), int(found[4] or 0)
    shift = datetime.timedelta(hours=hours, minutes=minutes) * (-1 if found[2] == "-" else 1)
    return hours <= 23 and minutes <= 59 and 1970 <= local.year <= 2999 and 1970 <= (local - shift).year <= 2999


def is_id(value: Any) -> bool:
    return type(value) is int and 0 <= value <= LAST_ID


def is_patch_id(value: Any) -> bool:
    return isinstance(value, str) and re.fullmatch(r"0|[1-9][0-9]{0,19}", value) is not None and int(value) < 2**64


def is_edit(edit: Any) -> bool:
    """Whether an edit has its members, of the right kinds; the target and the value are judged later."""
    if not isinstance(edit, dict) or edit.get("operation") not in ("create", "delete", "replace"):
        return False
    value = [] if edit["operation"] == "delete" else ["value"]
    return has_members(edit, "edit-id", "operation", "target", *value) and all(isinstance(edit[name], str) for name in ("edit-id", "target"))


def edits_of(body: Any) -> list[Any]:
    """The edits of a change update, where it has its members."""
    need(has_members(body, "datastore-changes", "id", may="incomplete-update") and is_id(body["id"]))
    mark = body.get("incomplete-update", [None])
    need(isinstance(mark, list) and len(mark) == 1 and mark[0] is None)
    need(has_members(body["datastore-changes"], "yang-patch"))
    patch = body["datastore-changes"]["yang-patch"]
    need(has_members(patch, "edit", "patch-id") and is_patch_id(patch["patch-id"]) and isinstance(patch["edit"], list))
    need(all(map(is_edit, patch["edit"])))
    need(len({edit["edit-id"] for edit in patch["edit"]}) == len(patch["edit"]))
    return patch["edit"]


def named_body(value: Any) -> tuple[str, Any]:
    """The name of a notification and its body."""
    need(has_members(value, "ietf-restconf:notification"))
    inner = value["ietf-restconf:notification"]
    need(isinstance(inner, dict) and len(inner) == 2 and is_time(inner.get("eventTime")))
    return next((name, body) for name, body in inner.items() if name != "eventTime")


def checked_notice(sort: str, body: Any) -> Heard:
    """A notification that says nothing of rows, by its name without its module."""
    if sort in CHANGES:
        need(has_members(body, "id") and is_id(body["id"]))
    else:
        need(has_members(body, "id", "reason") and is_id(body["id"]))
        need(body["reason"] == f"ietf-subscribed-notifications:{REASONS[sort]}")
    return Heard(body["id"])


def heard(top: SchemaNode, raw: bytes) -> Heard | int:
    """What a notification line says, or the least of its faults."""
    fault = NO_JSON
    try:
        value = read_json(raw)
        fault = ENVELOPE
        name, body = named_body(value)
        fault = UNKNOWN_NOTICE
        module, _, sort = name.partition(":")
        is_push = module == "ietf-yang-push" and sort in ("push-update", "push-change-update")
        need(is_push or module == "ietf-subscribed-notifications" and (sort in CHANGES or sort in REASONS))
        fault = MEMBER
        if not is_push:
            return checked_notice(sort, body)
        if sort == "push-update":
            need(has_members(body, "datastore-contents", "id") and is_id(body["id"]))
            fault = DATA
            return Heard(body["id"], as_rows(members_in(top, body["datastore-contents"], ())))
        edits = edits_of(body)
        fault = TARGET
        paths = [read_target(top, edit["target"]) for edit in edits]
        fault = DATA
        return Heard(body["id"], None, [
            (path, rows_at(top, path, edit["value"]) if "value" in edit else {}) for path, edit in zip(paths, edits)])
    except Refused:
        return fault


# ---- streams

def first_line(raw: bytes) -> tuple[Any, int]:
    """The part of a schema line, or the fault of a line that is none: its own, or else that it may not stand there."""
    if len(raw) > LINE_BYTES:
        return None, TOO_LONG
    try:
        value = read_json(raw)
    except Refused:
        return None, NO_SCRIPT_JSON
    if has_members(value, "schema"):
        return value["schema"], 0
    name, said = next(iter(value.items())) if isinstance(value, dict) and len(value) == 1 else ("", None)
    assert name not in OTHER_LINES and not has_members(value, "lane", "do")
    if name not in SIMPLE_LINES:
        return None, UNKNOWN_LINE
    return None, ORDER if type(said) is SIMPLE_LINES[name] and said is not False else IN_LINE


def is_schema_line(raw: bytes) -> bool:
    try:
        return has_members(read_json(raw), "schema")
    except Refused:
        return False


def applied(rows: Rows, said: Heard) -> Rows:
    """The rows of an id after a notification."""
    if said.rows is not None:
        return said.rows
    for target, inner in said.edits or []:
        rows = {path: value for path, value in rows.items() if path[:len(target)] != target} | inner
    return rows


def replayed(text: bytes) -> bytes | Fault:
    """What is written of a stream, or the first fault."""
    lines = text.split(b"\n")
    if not lines[-1]:
        lines.pop()
    top, held, has_schema, is_over = SchemaNode("container"), dict[int, Rows](), False, False
    past = text.count(b"\n", 0, MOST_BYTES) + 1 if len(text) > MOST_BYTES else None
    for place, raw in enumerate(lines, 1):
        if place == past:
            return Fault(BAD_SCRIPT, place, LIMIT)
        if not raw.strip(b" \t\r"):
            continue
        if not is_over and (not has_schema or is_schema_line(raw)):
            part, fault = (None, LIMIT) if place > MOST_LINES else first_line(raw)
            try:
                need(fault == 0)
                add_part(top, part)
            except Refused:
                return Fault(BAD_SCRIPT, place, fault or IN_SCHEMA)
            has_schema = True
            continue
        is_over = True
        said = heard(top, raw)
        if isinstance(said, int):
            return Fault(BAD_STREAM, place, said)
        if said.rows is not None or said.edits is not None:
            held[said.id] = applied(held.get(said.id, {}), said)
    if not has_schema:
        return Fault(BAD_SCRIPT, len(lines) + 1, ORDER)
    return trees(top, held)
