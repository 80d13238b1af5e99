"""Scripts with policies of access control, random and hostile ones, each with the report that the rules give.

The report is worked out by a model that does nothing but what docs/ACCESS.md and docs/SCRIPT.md say: after each
command it selects afresh what each user may read, and compares whole selections. It shares no code with the
program and never runs it. The scripts are the same each time.
"""

from __future__ import annotations

import random
from collections.abc import Iterator
from dataclasses import dataclass, field
from typing import Any

from large_cases import FIRST_ID, START, change, compact, full, given, reply, tree

# A path is a list of steps: the name of a node as JSON has it, and the entry's keys.
Step = tuple[str, tuple[Any, ...]]
Path = tuple[Step, ...]
Rows = dict[Path, Any]

SCRIPTS = 40
COMMANDS = 60


@dataclass(frozen=True)
class Node:
    """A node of the schema, with its children by name."""

    kind: str
    module: str
    sort: str = ""
    keys: tuple[str, ...] = ()
    deny_all: bool = False
    children: dict[str, Node] = field(default_factory=dict)


def leaf(sort: str = "string", module: str = "acme", deny_all: bool = False) -> Node:
    return Node("leaf", module, sort, deny_all=deny_all)


PORT = Node("list", "acme", keys=("name",), children={
    "name": leaf(), "mtu": leaf("uint16"), "enabled": leaf("boolean"), "secret": leaf(deny_all=True),
    "stats": Node("container", "acme", children={"in": leaf("uint64"), "ext:errors": leaf("uint64", "ext")})})
ROUTE = Node("list", "acme", keys=("vrf", "prefix"), children={
    "vrf": leaf(), "prefix": leaf(), "metric": leaf("uint16"), "ext:tag": leaf(module="ext"),
    "via": Node("list", "acme", keys=("hop",), children={"hop": leaf("uint16"), "weight": leaf("uint16")})})
TOP = {
    "acme:ports": Node("container", "acme", children={"port": PORT}),
    "acme:route": ROUTE,
    "acme:dns": Node("leaf-list", "acme", "string"),
    "acme:clock": Node("container", "acme", "presence", children={"zone": leaf()}),
    "ext:vault": Node("container", "ext", deny_all=True, children={"pin": leaf("uint16", "ext")}),
}
USERS = ["ann", "bob", "cyd", "dee"]
NAMES = ["eth0", "eth1", "a,b/c"]
VRFS, PREFIXES, HOPS = ["red", "blue"], ["10.0.0.0/8", "192.0.2.0/24"], [1, 2]


def schema_line() -> str:
    nodes: list[dict[str, Any]] = []

    def add(path: str, node: Node) -> None:
        said: dict[str, Any] = {"path": path, "kind": node.kind}
        if node.kind == "list":
            said["keys"] = list(node.keys)
        if node.kind in ("leaf", "leaf-list"):
            said["type"] = node.sort
        if node.sort == "presence":
            said["presence"] = True
        if node.deny_all:
            said["deny-all"] = True
        nodes.append(said)
        for name, child in node.children.items():
            add(f"{path}/{name}", child)

    for name, node in TOP.items():
        add(f"/{name}", node)
    return compact({"schema": nodes}) + "\n"


def node_at(path: Path) -> Node:
    children = TOP
    for name, _ in path:
        node = children[name]
        children = node.children
    return node


def order(path: Path) -> list[tuple[bytes, tuple[Any, ...]]]:
    """Rows stand in the order of their names' bytes, and then of their keys."""
    return [(name.encode(), tuple(key.encode() if isinstance(key, str) else key for key in keys)) for name, keys in path]


# ---- decisions

@dataclass
class Rule:
    name: str
    action: str
    module: str | None = None
    operations: str | None = None
    path: Path | None = None
    operation: str | None = None
    has_notification: bool = False

    def said(self) -> dict[str, Any]:
        more: dict[str, Any] = {}
        if self.module is not None:
            more["module-name"] = self.module
        if self.operations is not None:
            more["access-operations"] = self.operations
        if self.path is not None:
            more["path"] = rule_path(self.path)
        if self.operation is not None:
            more["rpc-name"] = self.operation
        if self.has_notification:
            more["notification-name"] = "any"
        return {"name": self.name, **more, "action": self.action}

    def has(self, operation: str) -> bool:
        return self.operations is None or self.operations == "*" or operation in self.operations.split(" ")

    def is_of(self, module: str) -> bool:
        return self.module in (None, "*", module)

    def covers(self, path: Path) -> bool:
        """A rule's path covers a place where each of its steps is the place's, with the keys that it gives."""
        if self.path is None:
            return self.operation is None and not self.has_notification
        return len(self.path) <= len(path) and all(
            own == name and all(want is None or want == key for want, key in zip(wants, keys))
            for (own, wants), (name, keys) in zip(self.path, path))


@dataclass
class Policy:
    enabled: bool = True
    read: str = "permit"
    execute: str = "permit"
    groups: dict[str, list[str]] = field(default_factory=dict)
    lists: list[tuple[list[str], list[Rule]]] = field(default_factory=list)

    def said(self) -> dict[str, Any]:
        return {"policy": {"ietf-netconf-acm:nacm": {
            "enable-nacm": self.enabled, "read-default": self.read, "exec-default": self.execute,
            "groups": {"group": [{"name": name, "user-name": users} for name, users in self.groups.items()]},
            "rule-list": [
                {"name": f"list {place}", "group": groups, "rule": [rule.said() for rule in rules]}
                for place, (groups, rules) in enumerate(self.lists)]}}}

    def rules_of(self, user: str) -> list[Rule]:
        mine = {name for name, users in self.groups.items() if user in users}
        if not mine:
            return []
        return [rule for groups, rules in self.lists if "*" in groups or mine & {*groups} for rule in rules]

    def own_rules(self, user: str) -> Any:
        """What of the policy decides on the user's reading."""
        rules = [
            (None if rule.module == "*" else rule.module, rule.path, rule.action) for rule in self.rules_of(user)
            if rule.has("read") and rule.operation is None and not rule.has_notification]
        return self.enabled, self.read, rules

    def decision(self, user: str, path: Path) -> bool:
        node = node_at(path)
        if not self.enabled:
            return True
        for rule in self.rules_of(user):
            if rule.has("read") and rule.is_of(node.module) and rule.covers(path):
                return rule.action == "permit"
        return not node.deny_all and self.read == "permit"

    def reads(self, user: str, path: Path) -> bool:
        """Each node from the top down, and each key leaf of each entry on the way."""
        for depth in range(1, len(path) + 1):
            above = path[:depth]
            places = [above] + [(*above, (key, ())) for key in node_at(above).keys]
            if not all(self.decision(user, place) for place in places):
                return False
        return True

    def may_call(self, user: str, operation: str) -> bool:
        if not self.enabled:
            return True
        module = "ietf-yang-push" if operation == "resync-subscription" else "ietf-subscribed-notifications"
        for rule in self.rules_of(user):
            is_about = rule.path is None and not rule.has_notification and rule.operation in (None, "*", operation)
            if rule.has("exec") and rule.is_of(module) and is_about:
                return rule.action == "permit"
        return operation != "kill-subscription" and self.execute == "permit"


# ---- texts

def escaped(key: Any) -> str:
    return "".join(
        chr(byte) if chr(byte).isascii() and (chr(byte).isalnum() or chr(byte) in "-._~") else f"%{byte:02X}"
        for byte in str(key).encode())


def target(path: Path) -> str:
    return "".join("/" + name + ("=" + ",".join(map(escaped, keys)) if keys else "") for name, keys in path)


def rule_path(path: Path) -> str:
    def step(place: int, name: str, wants: tuple[Any, ...]) -> str:
        keys = node_at(tuple((each, ()) for each, _ in path[:place + 1])).keys
        return "/" + name + "".join(f"[{key}='{want}']" for key, want in zip(keys, wants) if want is not None)

    return "".join(step(place, name, wants) for place, (name, wants) in enumerate(path))


def as_json(sort: str, value: Any) -> Any:
    return str(value) if sort == "uint64" else value


def data(rows: Rows, at: Path) -> Any:
    """The rows at or below a path, as the value of its last node; below the top as an object."""
    node = node_at(at) if at else None
    if node and node.kind == "leaf":
        return as_json(node.sort, rows[at])
    children = node.children if node else TOP
    found: dict[str, Any] = {}
    if node and node.kind == "list":
        found |= {name: as_json(children[name].sort, key) for name, key in zip(node.keys, at[-1][1])}
    below: dict[Step, Rows] = {}
    for path, value in rows.items():
        if len(path) > len(at) and path[:len(at)] == at:
            below.setdefault(path[len(at)], {})[path] = value
    for name, keys in sorted(below, key=lambda step: order((step,))):
        kind, inner = children[name].kind, below[name, keys]
        if kind == "list":
            found.setdefault(name, []).append(data(inner, (*at, (name, keys))))
        elif kind == "leaf-list":
            found.setdefault(name, []).append(as_json(children[name].sort, keys[0]))
        else:
            found[name] = data(inner, (*at, (name, keys)))
    return dict(sorted(found.items(), key=lambda member: member[0].encode()))


def value_at(rows: Rows, at: Path) -> Any:
    """What an edit carries: one member, the qualified name of the path's last node."""
    name, keys = at[-1]
    qualified = name if ":" in name else f"{node_at(at).module}:{name}"
    kind = node_at(at).kind
    if kind == "leaf-list":
        return {qualified: [as_json(node_at(at).sort, keys[0])]}
    return {qualified: [data(rows, at)] if kind == "list" else data(rows, at)}


def record(before: Rows, after: Rows) -> list[Any]:
    """An edit for each topmost path that differs, in order."""
    missing = object()
    paths = sorted((path for path in {*before, *after} if before.get(path, missing) != after.get(path, missing)), key=order)
    tops = [path for path in paths if not any(path[:length] in paths for length in range(1, len(path)))]
    edits = []
    for number, path in enumerate(tops, 1):
        operation = "delete" if path not in after else "replace" if path in before else "create"
        carried = {} if operation == "delete" else {"value": value_at(after, path)}
        edits.append({"edit-id": str(number), "operation": operation, "target": target(path), **carried})
    return edits


# ---- drawing

class Drawing:
    """A script and its report, drawn command by command."""

    def __init__(self, seed: int) -> None:
        self.draw = random.Random(seed)
        self.rows: Rows = {}
        self.policy = Policy()
        self.subscriptions: list[tuple[int, int]] = []
        self.lines: list[str] = []
        self.replies = ""
        self.position = 0
        self.sent = [""] * len(USERS)

    def want(self, receiver: int) -> Rows:
        return {path: value for path, value in self.rows.items() if self.policy.reads(USERS[receiver], path)}

    def say(self, command: str, answer: str = '{"ok":true}') -> None:
        self.position += 1
        self.lines.append(command)
        self.replies += reply(self.position, answer)

    def entry(self) -> Path:
        draw = self.draw
        route: Step = ("acme:route", (draw.choice(VRFS), draw.choice(PREFIXES)))
        return draw.choice([
            (("acme:ports", ()), ("port", (draw.choice(NAMES),))), (route,), (route, ("via", (draw.choice(HOPS),))),
            (("acme:dns", (draw.choice(NAMES),)),), (("acme:clock", ()),), (("ext:vault", ()), ("pin", ()))])

    def leaves(self, path: Path) -> Rows:
        """Some leaves of the entry or container at a path, without those of lists below it."""
        found: Rows = {}
        for name, node in node_at(path).children.items():
            if node.kind == "leaf" and name not in node_at(path).keys and self.draw.random() < 0.6:
                found[(*path, (name, ()))] = self.value(node.sort)
            elif node.kind == "container":
                found |= self.leaves((*path, (name, ())))
        return found

    def value(self, sort: str) -> Any:
        return {"string": self.draw.choice(["x", "y"]), "boolean": self.draw.random() < 0.5}.get(sort, self.draw.randrange(3))

    def edit(self) -> tuple[dict[str, Any], Rows]:
        """An edit that isn't refused, and the rows after it."""
        path = self.entry()
        kind = node_at(path).kind
        needed = path[:-1] if len(path) > 1 and node_at(path[:-1]).kind == "list" else ()
        is_kept = self.draw.random() < 0.7 and (not needed or needed in self.rows)
        edit: dict[str, Any] = {"edit-id": "1", "operation": "remove", "target": target(path)}
        kept = {at: value for at, value in self.rows.items() if at[:len(path)] != path}
        if is_kept:
            made = {path: self.value("uint16")} if kind == "leaf" else {path: True, **self.leaves(path)}
            is_merge = self.draw.random() < 0.5
            edit = {**edit, "operation": "merge" if is_merge else "replace", "value": value_at(made, path)}
            kept = (self.rows if is_merge else kept) | made
        return edit, kept

    def patch(self) -> None:
        edit, kept = self.edit()
        before = [self.want(receiver) for receiver in range(len(USERS))]
        self.rows = kept
        self.say(compact({"patch": {"ietf-yang-patch:yang-patch": {"patch-id": "p", "edit": [edit]}}}))
        for number, receiver in self.subscriptions:
            edits = record(before[receiver], self.want(receiver))
            if edits:
                self.sent[receiver] += change(USERS[receiver], number, self.position, edits)

    def rule(self, name: str) -> Rule:
        draw = self.draw
        rule = Rule(name, draw.choice(["permit", "deny"]))
        rule.module = draw.choice([None, None, "*", "acme", "ext", "ietf-subscribed-notifications"])
        rule.operations = draw.choice([None, "*", "read", "read", "exec", "create read", "update delete"])
        match draw.randrange(8):
            case 0:
                rule.operation = draw.choice(["*", "establish-subscription", "kill-subscription"])
            case 1:
                rule.has_notification = True
            case 2:
                pass
            case _:
                path = self.entry()
                below = [*node_at(path).children]
                path = (*path, (draw.choice(below), ())) if below and draw.random() < 0.5 else path
                path = path[:draw.randrange(1, len(path) + 1)]
                rule.path = tuple(
                    (name, tuple(key if draw.random() < 0.5 else None for key in keys) if node_at(path[:place + 1]).kind == "list" else ())
                    for place, (name, keys) in enumerate(path))
        return rule

    def drawn_policy(self) -> Policy:
        draw = self.draw
        policy = Policy(draw.random() < 0.9, draw.choice(["permit", "permit", "deny"]), draw.choice(["permit", "permit", "deny"]))
        policy.groups = {name: [user for user in USERS if draw.random() < 0.4] for name in ("one", "two", "three")}
        policy.lists = [
            (draw.sample(["one", "two", "three", "*"], draw.randrange(3)), [self.rule(str(number)) for number in range(draw.randrange(5))])
            for _ in range(draw.randrange(4))]
        if draw.random() < 0.3:
            # the same but for what decides on nobody's reading
            policy = Policy(self.policy.enabled, self.policy.read, draw.choice(["permit", "deny"]), self.policy.groups, self.policy.lists)
        return policy

    def give_policy(self) -> None:
        policy = self.drawn_policy()
        old, self.policy = self.policy, policy
        self.say(compact(policy.said()))
        for number, receiver in self.subscriptions:
            if old.own_rules(USERS[receiver]) != policy.own_rules(USERS[receiver]):
                self.sent[receiver] += full(USERS[receiver], number, data(self.want(receiver), ()))

    def subscribe(self) -> None:
        receiver = self.draw.randrange(len(USERS))
        said = compact({"establish": {"by": USERS[receiver], "datastore": "ietf-datastores:operational", "on-change": {}}})
        if not self.policy.may_call(USERS[receiver], "establish-subscription"):
            self.say(said, '{"error":"access-denied"}')
            return
        number = FIRST_ID + len(self.subscriptions)
        self.subscriptions.append((number, receiver))
        self.say(said, given(number))
        self.sent[receiver] += full(USERS[receiver], number, data(self.want(receiver), ()))

    def drawn(self) -> tuple[bytes, bytes]:
        for _ in range(COMMANDS):
            self.draw.choices([self.patch, self.give_policy, self.subscribe], [6, 2, 1])[0]()
        receivers = "".join(compact({"receiver": {"name": user, "user": user, "queue": 4, "take": "auto"}}) + "\n" for user in USERS)
        script = START + schema_line() + receivers + "".join(line + "\n" for line in self.lines)
        report = self.replies
        for receiver, user in enumerate(USERS):
            report += self.sent[receiver]
            held = data(self.want(receiver), ())
            report += "".join(tree(user, number, held) for number, owner in self.subscriptions if owner == receiver)
        return script.encode(), (report + "end\n").encode()


# ---- many and large policies

def hides(leaves: list[str], rules: list[Rule] | None = None) -> str:
    """A policy line by which ann may not read these leaves of any port."""
    denied = [Rule(f"no {leaf}", "deny", path=(("acme:ports", ()), ("port", (None,)), (leaf, ()))) for leaf in leaves]
    policy = Policy(groups={"one": ["ann"]}, lists=[(["one"], [*(rules or []), *denied])])
    return compact(policy.said()) + "\n"


def port(mtu: int) -> dict[str, Any]:
    return {"name": "eth0", "mtu": mtu}


def put(mtu: int) -> str:
    edit = {"edit-id": "1", "operation": "merge", "target": "/acme:ports/port=eth0", "value": {"acme:port": [port(mtu)]}}
    return compact({"patch": {"ietf-yang-patch:yang-patch": {"patch-id": "p", "edit": [edit]}}}) + "\n"


HEAD = START + schema_line() + compact({"receiver": {"name": "ann", "user": "ann", "queue": 4, "take": "auto"}}) + "\n"
ESTABLISH = compact({"establish": {"by": "ann", "datastore": "ietf-datastores:operational", "on-change": {}}}) + "\n"


def ports(seen: dict[str, Any]) -> dict[str, Any]:
    return {"acme:ports": {"port": [dict(sorted(seen.items()))]}}


def in_turn(turns: int) -> tuple[bytes, bytes]:
    """A policy that hides the mtu, a patch of it that nobody sees, a policy that shows it, and so on."""
    script, replies, sent = HEAD + put(0) + ESTABLISH, reply(1) + reply(2, given(FIRST_ID)), full("ann", FIRST_ID, ports(port(0)))
    for turn in range(turns):
        script += hides(["mtu"] if turn % 2 == 0 else []) + put(turn + 1)
        place = 2 * turn + 3
        replies += reply(place) + reply(place + 1)
        if turn % 2 == 0:
            sent += full("ann", FIRST_ID, ports({"name": "eth0"}))
        else:
            told = {"edit-id": "1", "operation": "replace", "target": "/acme:ports/port=eth0/mtu", "value": {"acme:mtu": turn + 1}}
            sent += full("ann", FIRST_ID, ports(port(turn))) + change("ann", FIRST_ID, place + 1, [told])
    held = ports({"name": "eth0"} if turns % 2 else port(turns))
    return script.encode(), (replies + sent + tree("ann", FIRST_ID, held) + "end\n").encode()


def one_in_each_lane() -> tuple[bytes, bytes]:
    """Eight lanes with a policy each: those of odd lanes hide the mtu, and the others show it again."""
    lanes = "".join(f'{{"lane":{lane},"do":{hides(["mtu"] if lane % 2 else []).strip()}}}\n' for lane in range(8, 0, -1))
    script = HEAD + put(7) + ESTABLISH + '{"lanes":8}\n' + lanes + '{"join":true}\n'
    replies = reply(1) + reply(2, given(FIRST_ID)) + "".join(reply(lane + 2, lane=lane, number=1) for lane in range(1, 9))
    sent = "".join(full("ann", FIRST_ID, ports({"name": "eth0"} if lane % 2 else port(7))) for lane in range(9))
    return script.encode(), (replies + sent + tree("ann", FIRST_ID, ports(port(7))) + "end\n").encode()


def long_policy() -> tuple[bytes, bytes]:
    """500 rules of 60,000 bytes together about other ports, before the one that decides."""
    others = [Rule(f"rule {number:03} of {'n' * 40}", "permit", path=(("acme:ports", ()), ("port", (f"other{number}",)), ("mtu", ()))) for number in range(499)]
    line = hides(["mtu"], others)
    assert 60_000 <= len(line) <= 65_536, len(line)
    script = HEAD + put(7) + ESTABLISH + line + line.replace("rule 000", "rule zero")
    replies = reply(1) + reply(2, given(FIRST_ID)) + reply(3) + reply(4)
    sent = full("ann", FIRST_ID, ports(port(7))) + full("ann", FIRST_ID, ports({"name": "eth0"}))
    return script.encode(), (replies + sent + tree("ann", FIRST_ID, ports({"name": "eth0"})) + "end\n").encode()


def access_cases() -> Iterator[tuple[str, bytes, bytes]]:
    """A name, a script, and its report."""
    for seed in range(SCRIPTS):
        yield f"access {seed}", *Drawing(seed).drawn()
    yield "a policy and a patch in turn, 5,000 times", *in_turn(5_000)
    yield "a policy in each of eight lanes", *one_in_each_lane()
    yield "a policy of 500 rules and 60,000 bytes", *long_policy()
