#!/usr/bin/env python3
"""Streams to replay, drawn, mutated and hostile ones, each with the trees or the fault that the rules give.

    stream_cases.py            compares the model with what is worked out by hand
    stream_cases.py PROGRAM    runs `PROGRAM replay` on the streams, and prints what differs, if anything does
    stream_cases.py --all PROGRAM    the same with all mutated lines, and not only some of those with a fault

What a stream gives is worked out by stream_model.py, and of drawn streams also by folding what was drawn; of hostile
streams it is worked out by hand. Nothing here comes of a run of the program. The streams are the same each time.
"""

from __future__ import annotations

import json
import pathlib
import random
import re
import subprocess
import sys
import time
from collections.abc import Iterator
from typing import Any

from large_cases import compact
from stream_model import (
    BAD_SCRIPT, BAD_STREAM, DATA, EMPTY, ENTRY, ENVELOPE, IN_SCHEMA, LIMIT, LINE_BYTES, MOST_BYTES, MOST_LINES, MOST_NESTED, NO_JSON,
    NO_SCRIPT_JSON, ORDER, PRESENT, TARGET, TOO_LONG, Fault, Heard, Path, Rows, SchemaNode, add_part, applied, as_json, bounds, canonical, heard,
    nested, node_of, replayed, trees, written)
from stream_rules import Case, change_update, edit, full_update, leaf, line_of, lines_of, rule_streams, state_change

STREAMS, NOTICES = 60, 30
SOME_OF_BYTES, SOME_SEEDS, WRONG_LINES, SOME_OF_LINE = 2_000, [2, 3, 5, 6], 1_200, 6
EXAMPLES = pathlib.Path(__file__).resolve().parent.parent / "examples"
EXAMPLE = EXAMPLES / "stream.jsonl"
TELLING = [b'"', b"{", b"}", b"[", b",", b"0", b"/", b"%", b"\xff"]

TYPES = [
    "boolean", "int8", "int16", "int32", "int64", "uint8", "uint16", "uint32", "uint64", "decimal64:1", "decimal64:4", "decimal64:18",
    "string", "string", "enumeration"]
TEXTS = [
    "", "eth0", "a/b", "x=1,2", "%41%", "\u00e9", "\u65e5\u672c", "\U0001f600", 'a"b', "a\\b", "\u0000\u001f\u007f", " a b ", "q" * 256,
    "\u00e9" * 128, "..", "null", "-_.~"]
ENUMERATED = ["up", "down", "", "0", "a,b", "\u00fc"]
INSTANTS = ["1970-01-01T00:00:00Z", "2999-12-31T23:59:59.999999999Z", "2026-02-28T12:00:00.5+23:59", "2024-02-29T00:00:00-00:00"]
REASONS = {"suspended": "unsupportable-volume", "terminated": "no-such-subscription"}
SOME_IDS = [0, 1, 7, 2_147_483_648, 4_294_967_295]


# ---- drawing

class Drawn:
    """A schema and a stream, drawn line by line, with the rows of each id."""

    def __init__(self, seed: int) -> None:
        self.draw = random.Random(seed)
        self.top = SchemaNode("container")
        self.parts = self.schema()
        for part in self.parts:
            add_part(self.top, part)
        self.held: dict[int, Rows] = {}

    # -- schemas

    def leaf(self, path: str, kind: str = "leaf") -> dict[str, Any]:
        sort = self.draw.choice(TYPES)
        names = self.draw.sample(ENUMERATED, self.draw.randrange(1, 4)) if sort == "enumeration" else None
        return {"path": path, "kind": kind, "type": sort} | ({"names": names} if names else {})

    def below(self, path: str, module: str, depth: int, taken: set[str]) -> list[list[dict[str, Any]]]:
        """Nodes below a path, in pieces, each before those below it. A list stands with its keys."""
        draw, found = self.draw, []
        for _ in range(draw.randrange(2, 5)):
            own, name = draw.choice(["acme", "acme", "ext"]), draw.choice("abcdefgh") + draw.choice(["", "-1", ".x", "_"])
            member = name if own == module else f"{own}:{name}"
            if member in taken:
                continue
            taken.add(member)
            at, kind = f"{path}/{member}", draw.choice(["container", "list", "list", "leaf", "leaf", "leaf-list"] if depth < 4 else ["leaf"])
            if kind in ("leaf", "leaf-list"):
                said = self.leaf(at, kind)
                found.append([{"path": at, "kind": "leaf", "type": "empty"} if kind == "leaf" and draw.random() < 0.2 else said])
            elif kind == "container":
                found.append([{"path": at, "kind": kind} | draw.choice([{}, {"presence": False}, {"presence": True}, {"deny-all": True}])])
                found += self.below(at, own, depth + 1, set())
            else:
                keys = draw.sample(["z", "k", "b-key", "a"], draw.choice([1, 1, 2, 3]))
                found.append([{"path": at, "kind": kind, "keys": keys}, *(self.leaf(f"{at}/{key}") for key in draw.sample(keys, len(keys)))])
                found += self.below(at, own, depth + 1, {*keys})
        return found

    def schema(self) -> list[list[dict[str, Any]]]:
        parts: list[list[dict[str, Any]]] = [[]]
        for piece in self.below("", "", 0, set()):
            if self.draw.random() < 0.1:
                parts.append([])
            parts[-1] += piece
        return parts

    # -- rows

    def value(self, node: SchemaNode) -> Any:
        draw = self.draw
        if node.type == "empty":
            return EMPTY
        if node.type in ("string", "enumeration"):
            return draw.choice(node.names or TEXTS)
        if node.type == "boolean":
            return draw.random() < 0.5
        least, most = bounds("int64" if node.type.startswith("decimal64") else node.type)
        return draw.choice([least, most, 0, 1, max(least, -1), draw.randrange(100), 1500 if most >= 1500 else 15, draw.randint(least, most)])

    def some_rows(self, node: SchemaNode, at: Path, chance: float = 0.6) -> Rows:
        """Some rows below an instance of a container or a list, or the top."""
        found: Rows = {}
        for member, child in node.children.items():
            if member not in node.keys and self.draw.random() < chance:
                for _ in range(self.draw.randrange(1, 4) if child.kind in ("list", "leaf-list") else 1):
                    found |= self.instance(child, (*at, self.step(member, child)))
        return found

    def step(self, member: str, node: SchemaNode) -> tuple[str, tuple[Any, ...]]:
        return member, tuple(self.value(leaf) for leaf in node.keyed)

    def instance(self, node: SchemaNode, path: Path) -> Rows:
        """The rows of one instance."""
        if node.kind == "leaf":
            return {path: self.value(node)}
        if node.kind == "leaf-list":
            return {path: ENTRY}
        own = ENTRY if node.kind == "list" else PRESENT if node.has_presence else None
        return ({} if own is None else {path: own}) | self.some_rows(node, path, 0.5)

    def target(self, id: int) -> Path:
        """A place in what an id has, or another one."""
        draw, path = self.draw, ()
        there = [*self.held.get(id, {})]
        if there and draw.random() < 0.7:
            path = draw.choice(there)
            path = path[:draw.randrange(1, len(path) + 1)]
            if draw.random() < 0.6:
                return path
        node = node_of(self.top, path)
        while not path or draw.random() < 0.6:
            members = [member for member in node.children if member not in node.keys]
            if not members:
                break
            member = draw.choice(members)
            node = node.children[member]
            path = (*path, self.step(member, node))
        return path

    # -- texts

    def other_text(self, node: SchemaNode, value: Any) -> str:
        """A text of a value, as a rule not the canonical one."""
        text, draw = canonical(node, value), self.draw
        if node.type in ("string", "enumeration", "boolean") or draw.random() < 0.5:
            return text
        sign, digits = ("-", text[1:]) if text.startswith("-") else (draw.choice(["", "+", "-" if set(text) <= {*"0."} else "+"]), text)
        return sign + draw.choice(["", "0", "000"]) + (digits.removesuffix(".0") if draw.random() < 0.5 else digits)

    def say(self, node: SchemaNode, value: Any) -> Any:
        """A value as JSON, where that is a string as a rule not the canonical one."""
        return self.other_text(node, value) if isinstance(as_json(node, value), str) else as_json(node, value)

    def key_text(self, text: str) -> str:
        """A key of a target, with the escapes that it needs and others."""
        found = ""
        for sign in text:
            if sign in ",/%" or self.draw.random() < 0.2:
                sign = "".join(f"%{byte:02x}" if self.draw.random() < 0.5 else f"%{byte:02X}" for byte in sign.encode())
            found += sign
        return found

    def target_text(self, path: Path) -> str:
        found, node = "", self.top
        for member, keys in path:
            node = node.children[member]
            texts = [self.key_text(self.other_text(leaf, key)) for leaf, key in zip(node.keyed, keys)]
            found += "/" + self.draw.choice([member, node.qualified]) + ("=" + ",".join(texts) if texts else "")
        return found

    def value_at(self, path: Path, rows: Rows) -> Any:
        """What an edit carries."""
        node, level = node_of(self.top, path), nested(rows)
        for step in path:
            level = level.get(step, {})
        if node.kind == "leaf":
            inner = self.say(node, rows[path])
        elif node.kind == "leaf-list":
            inner = [self.say(node, path[-1][1][0])]
        else:
            inner = written(node, path, level, rows, self.say)
        return {node.qualified: [inner] if node.kind == "list" else inner}

    def spelled(self, value: Any) -> str:
        """JSON with white space, members in any order, escapes, and members that are lost."""
        draw = self.draw

        def blank() -> str:
            return draw.choice(["", "", "", "", " ", "\t", "\r", "  "])

        if isinstance(value, dict):
            members = [f"{self.spelled(name)}{blank()}:{blank()}{self.spelled(inner)}" for name, inner in draw.sample([*value.items()], len(value))]
            if value and draw.random() < 0.05:
                members.insert(0, f"{compact(draw.choice([*value]))}:{draw.choice(['null', '[[]]', '1e3', '{}'])}")
            return f"{blank()}{{{blank()}{f'{blank()},{blank()}'.join(members)}{blank()}}}{blank()}"
        if isinstance(value, list):
            return f"[{blank()}{','.join(blank() + self.spelled(each) for each in value)}{blank()}]"
        if isinstance(value, str):
            return f'"{"".join(self.spelled_sign(sign) for sign in value)}"'
        return compact(value)

    def spelled_sign(self, sign: str) -> str:
        if sign < " " or self.draw.random() < 0.1:
            return "".join(f"\\u{ord(half):04x}" for half in halves(sign))
        if sign in '"\\' or sign == "/" and self.draw.random() < 0.3:
            return f"\\{sign}"
        return sign

    # -- notifications

    def said(self, heard_of: Heard) -> dict[str, Any]:
        """A notification that says this."""
        draw, id = self.draw, heard_of.id
        if heard_of.rows is not None:
            return full_update(id, written(self.top, (), nested(heard_of.rows), heard_of.rows, self.say))
        if heard_of.edits is None:
            sort, reason = draw.choice([("started", ""), ("modified", ""), ("resumed", ""), *REASONS.items()])
            return state_change(sort, id=id, **({"reason": f"ietf-subscribed-notifications:{reason}"} if reason else {}))
        edits = []
        for number, (path, rows) in enumerate(heard_of.edits, draw.randrange(3)):
            whole = rows or node_of(self.top, path).kind == "container" and not node_of(self.top, path).has_presence
            operation = draw.choice(["create", "replace"] if rows or whole and draw.random() < 0.5 else ["delete"])
            value = [self.value_at(path, rows)] if operation != "delete" else []
            edits.append(edit(str(number), operation, self.target_text(path), *value))
        mark = {"mark": [None]} if draw.random() < 0.2 else {}
        return change_update(id, edits, draw.choice(["0", "7", "18446744073709551615"]), at=draw.choice(INSTANTS), **mark)

    def drawn(self) -> Heard:
        """What a notification says, which is then held."""
        draw, id = self.draw, self.draw.choice(SOME_IDS)
        match draw.choices(["full", "edits", "none"], [2, 7, 1])[0]:
            case "full":
                heard_of = Heard(id, self.some_rows(self.top, (), draw.choice([0.2, 0.9])))
            case "edits":
                paths = [self.target(id) for _ in range(draw.randrange(4))]
                heard_of = Heard(id, None, [
                    (path, self.instance(node_of(self.top, path), path) if draw.random() < 0.6 else {}) for path in paths])
            case _:
                return Heard(id)
        self.held[id] = applied(self.held.get(id, {}), heard_of)
        return heard_of

    def schema_lines(self) -> bytes:
        return lines_of(*(line_of({"schema": part}) for part in self.parts))

    def stream(self, count: int) -> tuple[bytes, bytes]:
        """A stream of so many notifications, and the trees of what was drawn."""
        lines = [*self.schema_lines().splitlines()]
        for _ in range(count):
            said = self.said(self.drawn())
            lines.append(line_of(said) if self.draw.random() < 0.3 else self.spelled(said).encode())
        spread = [each for line in lines for each in [*([self.draw.choice([b"", b" ", b"\t\r"])] if self.draw.random() < 0.1 else []), line]]
        return b"\n".join(spread) + self.draw.choice([b"", b"\n", b"\n\n \t"]), trees(self.top, self.held)


def halves(sign: str) -> str:
    """A sign as UTF-16 has it."""
    raw = sign.encode("utf-16-be", "surrogatepass")
    return "".join(chr(int.from_bytes(raw[place:place + 2], "big")) for place in range(0, len(raw), 2))


def drawn_streams() -> Iterator[Case]:
    """Streams without a fault. What the model reads is what was drawn."""
    for seed in range(STREAMS):
        stream, wanted = Drawn(seed).stream(NOTICES)
        assert replayed(stream) == wanted, seed
        yield f"stream {seed}", stream, wanted


# ---- mutations

def of_bytes(line: bytes) -> list[bytes]:
    """A line with each of its bytes in turn left out, doubled, or replaced by a telling one."""
    found = {}
    for place in range(len(line)):
        sign = line[place:place + 1]
        for other in (b"", sign * 2, *TELLING):
            found[line[:place] + other + line[place + 1:]] = None
    return [each for each in found if each != line]


def one_of_bytes(draw: random.Random, line: bytes) -> list[bytes]:
    """A line with each of its bytes in turn changed in one of these ways."""
    found = []
    for place in range(len(line)):
        other = draw.choice([each for each in (b"", line[place:place + 1] * 2, *TELLING) if each != line[place:place + 1]])
        found.append(line[:place] + other + line[place + 1:])
    return found


JUNK = [None, True, False, 0, -1, 1.5, 70_000, "", "x", "1", "/", [], [None], {}, {"x": 1}, [[]]]


def places_in(value: Any) -> list[tuple[Any, Any]]:
    """Each object and array in a value, with each of its names or places."""
    names = [*value] if isinstance(value, dict) else range(len(value)) if isinstance(value, list) else []
    return [(value, name) for name in names] + [place for name in names for place in places_in(value[name])]


def bent(draw: random.Random, value: Any) -> Any:
    """A notification with one thing in it turned wrong, as a rule."""
    value = json.loads(json.dumps(value))
    inside, name = draw.choice(places_in(value))
    old = inside[name]
    match draw.randrange(6):
        case 0:
            inside[name] = draw.choice(JUNK)
        case 1:
            del inside[name]
        case 2 if isinstance(inside, dict):
            names = [name for each, name in places_in(value) if isinstance(each, dict)]
            inside[draw.choice([*names, "x", f"acme:{name}"])] = inside.pop(name)
        case 2 | 3 if isinstance(inside, list):
            inside.insert(draw.randrange(len(inside) + 1), draw.choice([old, *JUNK]))
        case 3:
            inside[draw.choice(["x", "id", "value", "reason", "acme:a", "incomplete-update"])] = draw.choice([old, *JUNK])
        case _ if isinstance(old, str) and old:
            place = draw.randrange(len(old))
            other = draw.choice(["", "/", "%", ",", "=", "0", "-", ".", ":", old[place] * 2, old[place].swapcase()])
            inside[name] = old[:place] + other + old[place + 1:]
        case _:
            inside[name] = draw.choice([[old], {"x": old}, [old, old], str(old)])
    return value


def some(found: list[tuple[bytes, int]], most: int | None) -> list[tuple[bytes, int]]:
    """Lines of each fault, spread over all of them."""
    if most is None or len(found) <= most:
        return found
    kinds = sorted({fault for _, fault in found})
    taken = []
    for kind in kinds:
        alike = [each for each in found if each[1] == kind]
        share = max(1, most // len(kinds))
        taken += alike[::-(-len(alike) // share)]
    return taken


def mutated(name: str, before: bytes, lines: list[bytes], most: int | None) -> Iterator[Case]:
    """Those lines without a fault in one stream, and each other one by itself after the lines before it."""
    top, place = SchemaNode("container"), before.count(b"\n") + 1
    for line in before.splitlines():
        if b'{"schema":' in line:
            add_part(top, json.loads(line)["schema"])
    good, wrong = [], []
    for line in lines:
        told = heard(top, line)
        if isinstance(told, int):
            wrong.append((line, told))
        else:
            good.append(line)
    stream = before + lines_of(*good)
    yield f"{name}, those without a fault", stream, replayed(stream)
    for number, (line, fault) in enumerate(some(wrong, most)):
        yield f"{name}, wrong line {number}", before + line + b"\n", Fault(BAD_STREAM, place, fault)


def mutated_streams(most: int | None) -> Iterator[Case]:
    """The example, lines of drawn streams, and notifications that are turned wrong."""
    schema, *lines = EXAMPLE.read_bytes().splitlines()
    for place, line in enumerate(lines, 1):
        yield from mutated(f"bytes of line {place + 1} of the example", lines_of(schema, *lines[:place - 1]), of_bytes(line), most and most // 12)
    whole = lines_of(*lines)
    judged = [(line, replayed(line + b"\n" + whole)) for line in of_bytes(schema)]
    numbered = [(line, wanted.status * 10 + wanted.number if isinstance(wanted, Fault) else 0) for line, wanted in judged]
    kept = {line for line, _ in some(numbered, most and most // 6)}
    for number, (line, wanted) in enumerate(judged):
        if line in kept:
            yield f"bytes of the example's schema {number}", line + b"\n" + whole, wanted
    for seed in SOME_SEEDS:
        drawn = Drawn(seed)
        said = [line_of(drawn.said(drawn.drawn())) for _ in range(60)]
        line = min((line for line in said if b'"value"' in line and re.search(rb'"target":"[^"]*=', line)), key=len)
        yield from mutated(f"bytes of a line of stream {seed}", drawn.schema_lines(), of_bytes(line), most and most // 12)
    for seed in range(40):
        drawn = Drawn(seed)
        wrong = []
        for _ in range(60):
            said = bent(drawn.draw, drawn.said(drawn.drawn()))
            said = bent(drawn.draw, said) if drawn.draw.random() < 0.3 and said else said
            wrong.append(drawn.spelled(said).encode())
        yield from mutated(f"notifications of stream {seed} turned wrong", drawn.schema_lines(), wrong, most and WRONG_LINES // 40)


def example_streams(most: int | None) -> Iterator[Case]:
    """What each receiver of an example took; and each line of it with each of its bytes changed, after the lines before it."""
    draw = random.Random(7)
    for report in sorted(EXAMPLES.glob("*.txt")):
        script, told = report.with_suffix(".jsonl").read_bytes().splitlines(), report.read_bytes().splitlines()
        schema = [line for line in script if line.startswith(b'{"schema":')]
        for receiver in sorted({line.split(b" ", 2)[1] for line in told if line.startswith(b"to ")}):
            start = b"to %s " % receiver
            lines = [line.removeprefix(start) for line in told if line.startswith(start)]
            held = [line.replace(b" %s " % receiver, b" ", 1) for line in told if line.startswith(b"tree %s " % receiver)]
            yield f"what {receiver.decode()} took in {report.name}", lines_of(*schema, *lines), lines_of(*held, b"end")
            for place, line in enumerate(lines):
                name = f"bytes of line {place + 1} for {receiver.decode()} in {report.name}"
                yield from mutated(name, lines_of(*schema, *lines[:place]), one_of_bytes(draw, line), most and SOME_OF_LINE)


# ---- hostile streams

LIST = lines_of(line_of({"schema": [
    {"path": "/acme:port", "kind": "list", "keys": ["name"]}, leaf("/acme:port/name", "string"), leaf("/acme:port/mtu", "uint16"),
    leaf("/acme:port/note", "string")]}))
STARTED = line_of(state_change("started", id=1))
LARGE = 60_000_000


def many_entries(size: int) -> Case:
    """One line of so many bytes: a full update whose entries have the longest texts."""
    entries = [f'{{"name":"{number:0256}","note":"{"n" * 256}"}}' for number in range(size // 535)]
    data = f'{{"acme:port":[{",".join(entries)}]}}'.encode()
    line = line_of(full_update(7, {})).replace(b":{}", b":" + data)
    return f"a line of {len(line)} bytes", LIST + line, b"tree 7 " + data + b"\nend\n"


def many_edits(size: int) -> Case:
    """One line of so many bytes: a change update, whose edits set the mtu of some ports again and again."""
    count, ports = size // 100, 5_000
    edits = ",".join(
        f'{{"edit-id":"{number:07}","operation":"replace","target":"/acme:port=p{number % ports:04}/mtu","value":{{"acme:mtu":{number % 9}}}}}'
        for number in range(count))
    line = line_of(change_update(7, [])).replace(b"[]", f"[{edits}]".encode())
    last = [count - 1 - (count - 1 - port) % ports for port in range(ports)]
    entries = [f'{{"mtu":{number % 9},"name":"p{port:04}"}}' for port, number in enumerate(last)]
    return f"a line of {count} edits", LIST + line, f'tree 7 {{"acme:port":[{",".join(entries)}]}}\nend\n'.encode()


def changes(ids: int, ports: int, count: int) -> Case:
    """So many change updates, of so many ids and ports, out of order."""
    line = line_of(change_update(99999, [edit("1", "create", "/acme:port=p0/mtu", {"acme:mtu": 8888})])).decode()
    line = line.replace("99999", "%d").replace("p0", "p%05d").replace("8888", "%d") + "\n"
    said = [(number * 7_919 % ids, number * 7_919 % ports, number % 9) for number in range(count)]
    held: dict[int, dict[int, int]] = {}
    for id, port, mtu in said:
        held.setdefault(id, {})[port] = mtu
    stream = LIST + "".join(line % (id, port, mtu) for id, port, mtu in said).encode()
    wanted = "".join(
        f'tree {id} {{"acme:port":[' + ",".join(f'{{"mtu":{mtu},"name":"p{port:05}"}}' for port, mtu in sorted(mtus.items())) + "]}\n"
        for id, mtus in sorted(held.items()))
    return f"{count} changes of {ids} ids and {ports} ports", stream, (wanted + "end\n").encode()


def many_values(count: int) -> Iterator[Case]:
    """A leaf-list of so many values that fall, and then one of them once more; and an object with as many names."""
    schema = lines_of(line_of({"schema": [leaf("/acme:tag", "uint32", "leaf-list")]}))
    values = [str(number) for number in range(count)]
    line = line_of(full_update(7, {"acme:tag": []}))
    falling = ",".join(reversed(values)).encode()
    yield f"{count} values", schema + line.replace(b"[]", b"[%s]" % falling), f'tree 7 {{"acme:tag":[{",".join(values)}]}}\nend\n'.encode()
    yield f"{count} values and one again", schema + line.replace(b"[]", b"[%s,%d]" % (falling, count // 2)), Fault(BAD_STREAM, 2, DATA)
    names = ",".join(f'"acme:{value}":0' for value in values).encode()
    yield f"{count} unknown names", schema + line.replace(b'"acme:tag":[]', names), Fault(BAD_STREAM, 2, DATA)


def long_targets(size: int) -> Iterator[Case]:
    """Targets of so many segments, keys and escapes."""
    for name, target in (("slashes", "/" * size), ("segments", "/acme:port=a" * (size // 12)), ("keys", "/acme:port=" + "," * size),
                         ("escapes", "/acme:port=" + "%61" * (size // 3))):
        line = line_of(change_update(7, [edit("1", "delete", target)]))
        yield f"a target of {size} bytes, {name}", LIST + line, Fault(BAD_STREAM, 2, TARGET)


def depths() -> Iterator[Case]:
    """Arrays and objects nest at most 127 deep, also in members that are lost."""
    line = line_of(full_update(1, {}))
    for before, after in ((b"[", b"]"), (b'{"a":', b"}")):
        for depth, fault in ((MOST_NESTED, DATA), (MOST_NESTED + 1, NO_JSON), (200, NO_JSON)):
            # four objects stand around what is in data
            inner, name = before * (depth - 4) + b"1" + after * (depth - 4), f"{depth} of {before.decode()}"
            yield f"{name} in data", LIST + line.replace(b"{}", b'{"x":%s}' % inner), Fault(BAD_STREAM, 2, fault)
            lost = b'{"acme:port":[],"acme:port":%s,"acme:port":[]}' % inner
            yield f"{name}, lost", LIST + line.replace(b"{}", lost), b"tree 1 {}\nend\n" if fault == DATA else Fault(BAD_STREAM, 2, fault)
            yield f"{name}, alone", LIST + before * depth + b"1" + after * depth, Fault(BAD_STREAM, 2, ENVELOPE if fault == DATA else fault)
        depth = LARGE // len(before + after)
        yield f"many of {before.decode()}", LIST + before * depth + b"1" + after * depth, Fault(BAD_STREAM, 2, NO_JSON)
        yield f"many of {before.decode()} that stay open", LIST + before * depth, Fault(BAD_STREAM, 2, NO_JSON)
    for depth, fault in ((MOST_NESTED, IN_SCHEMA), (MOST_NESTED + 1, NO_SCRIPT_JSON), (30_000, NO_SCRIPT_JSON)):
        part = b"[" * (depth - 1) + b"]" * (depth - 1)
        yield f"a schema {depth} deep", b'{"schema":%s}' % part, Fault(BAD_SCRIPT, 1, fault)


def no_texts() -> Iterator[Case]:
    """A byte that is no text, at each place of a line."""
    for place in range(len(STARTED) + 1):
        line = STARTED[:place] + b"\xff" + STARTED[place:]
        yield f"no text at place {place}", LIST + line, Fault(BAD_STREAM, 2, NO_JSON)
    schema = b'{"schema":[]}'
    for place in range(len(schema) + 1):
        yield f"no text at place {place} of a schema", schema[:place] + b"\xff" + schema[place:], Fault(BAD_SCRIPT, 1, NO_SCRIPT_JSON)
        yield f"no text at place {place} of a later schema", LIST + schema[:place] + b"\xff" + schema[place:], Fault(BAD_STREAM, 2, NO_JSON)


def most_bytes() -> Iterator[Case]:
    """A stream has at most 67,108,864 bytes. The line of the next byte has a fault of the whole, whatever it holds."""
    update = line_of(full_update(1, {}))
    before, wanted = lines_of(LIST[:-1], update), b"tree 1 {}\nend\n"
    for last, past in ((STARTED, b"\nx"), (b" ", b"\r")):
        whole = before + last + b" " * (MOST_BYTES - len(before) - len(last))
        yield f"67108864 bytes, at last {last[:9]!r}", whole, wanted
        for byte in past:
            yield f"67108864 bytes, at last {last[:9]!r}, and then the byte {byte}", whole + bytes([byte]), Fault(BAD_SCRIPT, 3, LIMIT)
    whole = before + b"x" * (MOST_BYTES - len(before))
    yield "67108864 bytes that are no JSON", whole, Fault(BAD_STREAM, 3, NO_JSON)
    yield "67108865 bytes that are no JSON", whole + b"x", Fault(BAD_SCRIPT, 3, LIMIT)
    whole = before + b" " * (MOST_BYTES - len(before) - 1) + b"\n"
    yield "67108864 bytes that end a line", whole, wanted
    yield "a line after 67108864 bytes", whole + update, Fault(BAD_SCRIPT, 4, LIMIT)
    yield "a fault before 67108865 bytes", lines_of(LIST[:-1], b"{}", whole), Fault(BAD_STREAM, 2, ENVELOPE)
    yield "67108865 blanks", b" " * (MOST_BYTES + 1), Fault(BAD_SCRIPT, 1, LIMIT)
    feeds = MOST_BYTES + 1 - len(LIST)
    yield "67108865 bytes of line feeds after a schema", LIST + b"\n" * feeds, Fault(BAD_SCRIPT, feeds + 1, LIMIT)


def many_lines() -> Iterator[Case]:
    """Notifications may be any number, and schema lines stand on the first 100,000 lines."""
    update, wanted = line_of(full_update(1, {})), b"tree 1 {}\nend\n"
    yield "100,001 lines", LIST + lines_of(*[STARTED] * (MOST_LINES - 1), update), wanted
    yield "a fault in line 100,001", LIST + lines_of(*[STARTED] * (MOST_LINES - 1), b"{}"), Fault(BAD_STREAM, MOST_LINES + 1, ENVELOPE)
    none = b'{"schema":[]}'
    yield "100,000 schema lines", lines_of(*[none] * MOST_LINES, update), wanted
    yield "100,001 schema lines", lines_of(*[none] * (MOST_LINES + 1)), Fault(BAD_SCRIPT, MOST_LINES + 1, LIMIT)
    yield "a first line 100,000", b"\n" * (MOST_LINES - 1) + LIST + update, wanted
    for line in (none, b"{", STARTED):
        yield f"a first line 100,001, {line[:9]!r}", b"\n" * MOST_LINES + line, Fault(BAD_SCRIPT, MOST_LINES + 1, LIMIT)
    yield "a schema line 100,001 after blank ones", LIST + b"\n" * (MOST_LINES - 1) + none, Fault(BAD_SCRIPT, MOST_LINES + 1, LIMIT)
    yield "a notification after 100,000 blank lines", LIST + b"\n" * MOST_LINES + update, wanted
    yield "a blank line 100,001", LIST + lines_of(*[STARTED] * (MOST_LINES - 1), b" ", update), wanted


def long_lines() -> Iterator[Case]:
    """A schema line has at most 65,536 bytes, a carriage return counted; a notification has no limit."""
    update, wanted = line_of(full_update(1, {})), b"tree 1 {}\nend\n"
    for line in (LIST[:-1], b'{"schema":[]}'):
        long = line + b" " * (LINE_BYTES - len(line))
        yield "a schema line of 65,536 bytes", lines_of(long, update), wanted
        for more in (b" ", b"\r", b"x"):
            yield f"and then {more!r}", lines_of(long + more, update), Fault(BAD_SCRIPT, 1, TOO_LONG)
        yield "a notification after it", lines_of(long, update + b" " * LINE_BYTES), wanted
    second = b'{"schema":[]}' + b" " * (LINE_BYTES - 13)
    yield "a second one of 65,536 bytes", LIST + lines_of(second, update), wanted
    yield "a second one of 65,537 bytes", LIST + lines_of(second + b" ", update), Fault(BAD_SCRIPT, 2, TOO_LONG)
    yield "a second one of 65,537 bytes with a fault", LIST + lines_of(b'{"schema":7}' + b" " * LINE_BYTES), Fault(BAD_SCRIPT, 2, TOO_LONG)
    yield "a second line of 65,537 bytes that is no JSON", LIST + lines_of(second + b"x", update), Fault(BAD_STREAM, 2, NO_JSON)
    yield "a first line of 65,537 bytes that is none", lines_of(update + b" " * LINE_BYTES), Fault(BAD_SCRIPT, 1, TOO_LONG)
    yield "a blank line of 65,537 bytes before it", lines_of(b" " * (LINE_BYTES + 1), LIST[:-1], update), wanted
    yield "blank lines alone", b"\n \r\n\t", Fault(BAD_SCRIPT, 4, ORDER)


def hostile_streams() -> Iterator[Case]:
    update, names = line_of(full_update(7, {})), b'{"acme:port":[{"name":"%s"}]}'
    yield many_entries(LARGE)
    yield many_edits(LARGE // 2)
    yield "a line of 60,000,000 blanks in JSON", LIST + update.replace(b":{}", b":" + b" " * LARGE + b"{}"), b"tree 7 {}\nend\n"
    yield "a text of 60,000,000 bytes", LIST + update.replace(b"{}", names % (b"n" * LARGE)), Fault(BAD_STREAM, 2, DATA)
    yield "a number of 60,000,000 digits", LIST + update.replace(b":7", b":" + b"1" * LARGE), Fault(BAD_STREAM, 2, NO_JSON)
    yield changes(60_000, 1, 60_000)
    yield changes(1, 50_000, LARGE // 267)
    yield changes(300, 7, 30_000)
    for cases in (many_values(1_000_000), long_targets(20_000_000), depths(), no_texts(), most_bytes(), many_lines(), long_lines()):
        yield from cases


# ---- all of them

def stream_cases(most: int | None = SOME_OF_BYTES) -> Iterator[Case]:
    """A name, a stream, and its trees, or its fault; of mutated lines with a fault about so many."""
    yield from rule_streams()
    yield from drawn_streams()
    yield from mutated_streams(most)
    yield from example_streams(most)
    yield from hostile_streams()


def endings(wanted: bytes | Fault) -> tuple[bytes, bytes, int]:
    """The text, the line on standard error, and the exit status."""
    if isinstance(wanted, bytes):
        return wanted, b"", 0
    where = "stream line" if wanted.status == BAD_STREAM else "line"
    return b"", f"push: {where} {wanted.line}: fault {wanted.number}\n".encode(), wanted.status


def main() -> int:
    words = [word for word in sys.argv[1:] if word != "--all"]
    if not words:
        count = sum(1 for _ in rule_streams()) + sum(1 for _ in drawn_streams())
        print(f"stream_cases.py: the model agrees with what is worked out by hand, and with what was drawn: {count} streams")
        return 0
    count = wrong = 0
    for name, stream, wanted in stream_cases(None if "--all" in sys.argv else SOME_OF_BYTES):
        begun = time.monotonic()
        ran = subprocess.run([words[0], "replay"], input=stream, capture_output=True, check=False)
        took = time.monotonic() - begun
        count += 1
        if took > 1:
            print(f"stream_cases.py: {name}: {took:.1f} s")
        if (ran.stdout, ran.stderr, ran.returncode) != endings(wanted):
            wrong += 1
            got, said = ((out or error)[:300] for out, error in ((ran.stdout, ran.stderr), endings(wanted)[:2]))
            print(f"stream_cases.py: {name}: status {ran.returncode} and {got!r}, not {said!r}")
    print(f"stream_cases.py: {count} streams, {wrong} differ")
    return 1 if wrong else 0


if __name__ == "__main__":
    sys.exit(main())
