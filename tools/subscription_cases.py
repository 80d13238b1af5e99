"""Scripts with filters and periods, random and hostile ones, each with the report that the rules give.

The report is worked out by a model that does nothing but what docs/SUBSCRIBING.md, docs/ACCESS.md and
docs/SCRIPT.md say: it selects afresh at each update, by filter and by policy. It shares no code with the program
and never runs it. The scripts are the same each time.
"""

from __future__ import annotations

import datetime
import random
from collections.abc import Iterator
from dataclasses import dataclass
from typing import Any

from access_cases import (
    COMMANDS, HEAD, NAMES, PREFIXES, TOP, USERS, VRFS, Drawing, Path, Rows, data, node_at, ports, put, record, schema_line)
from large_cases import FIRST_ID, START, compact, given, notification, reply, tree

Wanted = bytes | tuple[int, int]

SCRIPTS = 60
SHORTEST_PERIOD, MOST_FEEDS, LAST_TICK = 10, 256, 1_000_000_000_000
ORIGIN = datetime.datetime(2026, 1, 1)
OPERATIONAL = "ietf-datastores:operational"
SELECTED = [{}, [None]]


# ---- filters

def holds(rows: Rows, at: Path, name: str, want: Any) -> bool:
    """Whether a match node holds at an instance: the leaf, a key or an entry of the leaf-list has that value."""
    node = children_of(at).get(name)
    if node is None:
        return False
    value = int(want) if node.sort == "uint64" else want
    if node.kind == "leaf-list":
        return (*at, (name, (value,))) in rows
    if at and name in node_at(at).keys:
        return at[-1][1][node_at(at).keys.index(name)] == value
    return rows.get((*at, (name, ()))) == value


def children_of(at: Path) -> dict[str, Any]:
    return node_at(at).children if at else TOP


def matched(at: Path, name: str, want: Any) -> Path:
    """The path of the row that a match node is about."""
    node = children_of(at)[name]
    return (*at, (name, (want,) if node.kind == "leaf-list" else ()))


def nodes_of(members: dict[str, Any]) -> list[tuple[str, str, Any]]:
    """The nodes of a set: their sort, their name, and their value or set."""
    found = []
    for name, value in members.items():
        for each in value if isinstance(value, list) and value != [None] else [value]:
            sort = "select" if each in SELECTED else "within" if isinstance(each, dict) else "match"
            found.append((sort, name, each))
    return found


def kept_by(members: dict[str, Any], at: Path, rows: Rows) -> set[Path]:
    """The paths of the rows that a set keeps at an instance."""
    nodes = nodes_of(members)
    matches = [(name, want) for sort, name, want in nodes if sort == "match"]
    if not all(holds(rows, at, name, want) for name, want in matches):
        return set()
    below = {path for path in rows if path[:len(at)] == at}
    if matches and len(matches) == len(nodes):
        return below
    kept = {path for path in [at, *(matched(at, name, want) for name, want in matches)] if path in rows}
    for sort, name, inner in nodes:
        there = {path for path in below if len(path) > len(at) and path[len(at)][0] == name}
        if sort == "select":
            kept |= there
        elif sort == "within" and name in children_of(at):
            kind = children_of(at)[name].kind
            for instance in {path[:len(at) + 1] for path in there} if kind in ("list", "container") else ():
                kept |= kept_by(inner, instance, rows)
    return kept


# ---- subscriptions

@dataclass
class Feed:
    number: int
    receiver: int
    filter: dict[str, Any] | None
    period: int = 0
    due: int = 0


def least(anchor: int, period: int, first: int) -> int:
    """The least tick from first on that is a whole number of periods from the anchor."""
    return first + (anchor - first) % period


def at_tick(tick: int) -> str:
    """An instant with hundredths, in years that a calendar of Python has."""
    instant = ORIGIN + datetime.timedelta(seconds=tick // 100)
    return f"{instant:%Y-%m-%dT%H:%M:%S}.{tick % 100:02}Z"


class Subscribing(Drawing):
    """A script with subscriptions of all sorts, and its report, drawn command by command."""

    def __init__(self, seed: int) -> None:
        super().__init__(seed)
        self.feeds: list[Feed] = []
        self.held: dict[int, Any] = {}
        self.now = 0

    def selected(self, feed: Feed) -> Rows:
        seen = self.want(feed.receiver)
        kept = {*seen} if feed.filter is None else kept_by(feed.filter, (), seen)
        return {path: value for path, value in seen.items() if path in kept}

    def send(self, feed: Feed, sort: str, body: dict[str, Any]) -> None:
        self.sent[feed.receiver] += notification(
            USERS[feed.receiver], at_tick(self.now), sort, compact({**body, "id": feed.number}))
        self.held[feed.number] = data(self.selected(feed), ())

    def send_all(self, feed: Feed) -> None:
        self.send(feed, "push-update", {"datastore-contents": data(self.selected(feed), ())})
        if feed.period:
            feed.due = least(feed.due, feed.period, self.now + 1)

    def tick(self) -> None:
        step = self.draw.choice([0, 1, 5, 10, 10, 37, 100, 1_000, 100_000])
        said = max(0, self.now + step - self.draw.choice([0, 0, 0, 20]))
        self.now = max(self.now, said)
        self.say(compact({"tick": said}))
        for feed in self.feeds:
            if feed.period and feed.due <= self.now:
                self.send_all(feed)

    def patch(self) -> None:
        before = [self.selected(feed) for feed in self.feeds]
        super().patch()
        for feed, old in zip(self.feeds, before):
            edits = [] if feed.period else record(old, self.selected(feed))
            if edits:
                patch = {"yang-patch": {"edit": edits, "patch-id": str(self.position)}}
                self.send(feed, "push-change-update", {"datastore-changes": patch})

    def give_policy(self) -> None:
        old = self.policy
        super().give_policy()
        for feed in self.feeds:
            user = USERS[feed.receiver]
            if old.own_rules(user) != self.policy.own_rules(user):
                self.send_all(feed)

    # -- what is asked for

    def match_value(self, sort: str, name: str) -> Any:
        values = {"string": [*NAMES, *VRFS, *PREFIXES] if name in ("name", "vrf", "acme:dns", "prefix") else ["x", "y"],
                  "boolean": [True, False], "uint64": ["0", "1", "2"]}
        return self.draw.choice(values.get(sort, [0, 1, 2]))

    def some_filter(self, at: Path = (), depth: int = 0) -> dict[str, Any]:
        """A set of some of the children of a node, and now and then of a name that isn't there."""
        draw, found = self.draw, {}
        for name, node in children_of(at).items():
            if draw.random() < (0.5 if depth == 0 else 0.6):
                continue
            below = (*at, (name, node.keys))
            if draw.random() < 0.35:
                found[name] = draw.choice(SELECTED)
            elif node.kind in ("leaf", "leaf-list"):
                found[name] = self.match_value(node.sort, name)
            elif node.kind == "list" and draw.random() < 0.4:
                found[name] = [self.some_filter(below, depth + 1) for _ in range(draw.choice([1, 2]))]
            else:
                found[name] = self.some_filter(below, depth + 1)
        if draw.random() < 0.1:
            found["nothing"] = draw.choice(["x", {}, [None], {"more": [None]}])
        return found

    def telling_filter(self) -> dict[str, Any] | None:
        """A filter: none, one that matches on a leaf of entries, or any."""
        draw = self.draw
        return draw.choice([
            None, {"acme:ports": {"port": {"enabled": draw.random() < 0.5}}}, {"acme:ports": {"port": {"mtu": draw.randrange(3), "stats": {}}}},
            {"acme:ports": {"port": {"stats": {"in": str(draw.randrange(3))}, "mtu": {}}}}, {"acme:ports": {"port": {"name": "eth0"}}},
            {"acme:route": {"metric": draw.randrange(3)}}, {"acme:route": {"metric": {}, "via": {"weight": draw.randrange(3)}}},
            {"acme:dns": draw.choice(NAMES)}, self.some_filter(), self.some_filter()])

    def faulty_filter(self) -> Any:
        return self.draw.choice([
            None, 1, [], [{}], {"acme:ports": None}, {"acme:ports": []}, {"acme:ports": [1]}, {"acme:ports": [None, None]},
            {"acme:ports": 1}, {"acme:route": "x"}, {"acme:ports": {"port": [{"mtu": "x"}]}}, {"acme:dns": 1},
            {"acme:ports": {"port": [{"mtu": 65_536}]}}, {"acme:ports": {"port": [{"enabled": "true"}]}},
            {"nothing": {"more": []}}, {"acme:ports": {"port": [{"stats": {"in": 1}}]}}])

    def ask(self) -> tuple[dict[str, Any], str | None, dict[str, Any] | None, int, int]:
        """What is asked for, the refusal of it, and the filter, the period and the anchor."""
        draw, asked, refusals, wanted = self.draw, {}, [], None
        asked["datastore"] = draw.choice([OPERATIONAL] * 15 + ["ietf-datastores:running"])
        if draw.random() < 0.2:
            asked["encoding"] = draw.choice([
                "encode-json", "ietf-subscribed-notifications:encode-json", "encode-json", "encode-xml"])
        refusals += ["encoding-unsupported"] * (asked.get("encoding") == "encode-xml")
        refusals += ["datastore-not-subscribable"] * (asked["datastore"] != OPERATIONAL)
        period = 0 if draw.random() < 0.3 else draw.choice([10, 10, 11, 25, 100, 1_000, 4_294_967_295, 9])
        kind = draw.randrange(10)
        if kind == 9:
            asked["datastore-xpath-filter"] = "/acme:ports"
        elif kind == 8:
            asked["datastore-subtree-filter"] = self.faulty_filter()
        elif kind > 1:
            asked["datastore-subtree-filter"] = wanted = self.some_filter()
        refusals += ["filter-unsupported"] * (kind >= 8)
        refusals += ["period-unsupported"] * (0 < period < SHORTEST_PERIOD)
        anchor = self.now
        asked["on-change"] = {}
        if period:
            del asked["on-change"]
            asked["periodic"] = {"period": period}
            if draw.random() < 0.5:
                anchor = draw.randrange(-5_000, 200_000)
                asked["periodic"]["anchor-time"] = at_tick(anchor)
        return asked, refusals[0] if refusals else None, wanted, period, anchor

    def subscribe(self) -> None:
        receiver = self.draw.randrange(len(USERS))
        asked, refusal, wanted, period, anchor = self.ask()
        refusal = refusal if self.policy.may_call(USERS[receiver], "establish-subscription") else "access-denied"
        said = compact({"establish": {"by": USERS[receiver], **asked}})
        if refusal:
            hint = {"period-hint": SHORTEST_PERIOD} if refusal == "period-unsupported" else {}
            self.say(said, compact({"error": refusal, **hint}))
            return
        feed = Feed(FIRST_ID + len(self.feeds), receiver, wanted, period)
        self.feeds.append(feed)
        self.say(said, given(feed.number))
        if period:
            feed.due = least(anchor, period, self.now)
        if not period or feed.due == self.now:
            self.send_all(feed)

    def drawn(self) -> tuple[bytes, bytes]:
        for _ in range(COMMANDS):
            self.draw.choices([self.patch, self.give_policy, self.subscribe, self.tick], [6, 1, 3, 3])[0]()
        receivers = "".join(compact({"receiver": {"name": user, "user": user, "queue": 4, "take": "auto"}}) + "\n" for user in USERS)
        script = START + schema_line() + receivers + "".join(line + "\n" for line in self.lines)
        report = self.replies
        for receiver, user in enumerate(USERS):
            report += self.sent[receiver]
            report += "".join(
                tree(user, feed.number, self.held[feed.number])
                for feed in self.feeds if feed.receiver == receiver and feed.number in self.held)
        return script.encode(), (report + "end\n").encode()


# ---- limits

def asking(period: int, anchor: str | None = None, wanted: Any = None) -> str:
    """A line that establishes a periodic subscription of ann."""
    trigger = {"period": period} if anchor is None else {"period": period, "anchor-time": anchor}
    chosen = {} if wanted is None else {"datastore-subtree-filter": wanted}
    return compact({"establish": {"by": "ann", "datastore": OPERATIONAL, **chosen, "periodic": trigger}}) + "\n"


def updates(ticks: list[int], seen: Any = None, number: int = FIRST_ID) -> str:
    """What ann is sent at some ticks, and what is held then."""
    held = {} if seen is None else seen
    body = compact({"datastore-contents": held, "id": number})
    return "".join(notification("ann", at_tick(tick), "push-update", body) for tick in ticks) + tree("ann", number, held) * bool(ticks)


def nested(sets: int) -> Any:
    """A filter of so many sets in each other, by names that aren't in the schema."""
    found: Any = {"none": [None]}
    for _ in range(sets - 1):
        found = {"none": found}
    return found


REFUSED = '{"error":"filter-unsupported"}'


def filters() -> Iterator[tuple[str, bytes, Wanted]]:
    """A filter has at most 16 sets in each other."""
    accepted = (reply(1, given(FIRST_ID)) + updates([0]) + "end\n").encode()
    yield "a filter of 16 sets in each other", (HEAD + asking(10, None, nested(16))).encode(), accepted
    for sets in (17, 100):
        yield f"a filter of {sets} sets in each other", (HEAD + asking(10, None, nested(sets))).encode(), (reply(1, REFUSED) + "end\n").encode()
    names = [{"name": f"port{number:05}"} for number in range(2_900)] + [{"name": "eth0"}]
    line = asking(10, None, {"acme:ports": {"port": names}})
    assert 60_000 <= len(line) <= 65_536, len(line)
    held = ports({"name": "eth0", "mtu": 7})
    wanted = reply(1) + reply(2, given(FIRST_ID)) + updates([0], held) + "end\n"
    yield "a filter of 60,000 bytes", (HEAD + put(7) + line).encode(), wanted.encode()


def many_feeds() -> Iterator[tuple[str, bytes, Wanted]]:
    """At most 256 feeds are live."""
    for count in (MOST_FEEDS, MOST_FEEDS + 1):
        taken = min(count, MOST_FEEDS)
        replies = "".join(reply(at + 1, given(FIRST_ID + at)) for at in range(taken))
        replies += reply(count, '{"error":"insufficient-resources"}') * (count - taken)
        sent = "".join(updates([0], number=FIRST_ID + at) for at in range(taken)).splitlines(keepends=True)
        report = replies + "".join(sent[0::2]) + "".join(sent[1::2]) + "end\n"
        yield f"{count} periodic subscriptions", (HEAD + asking(4_294_967_295) * count).encode(), report.encode()


def anchors() -> Iterator[tuple[str, bytes, Wanted]]:
    """Anchors at the ends of the years, the shortest and the longest period, and ticks that jump over many periods."""
    for anchor in ("1970-01-01T00:00:00Z", "2199-12-31T23:59:59.999999999Z", "2025-12-31T23:59:59.95Z", "2026-01-01T01:00:00+01:00"):
        instant = datetime.datetime.fromisoformat(anchor[:19]) - datetime.timedelta(hours=1 if anchor.endswith("+01:00") else 0)
        ticks = (instant - ORIGIN) // datetime.timedelta(seconds=1) * 100 + int((anchor[20:22] if anchor[19:20] == "." else "0"))
        for period in (10, 4_294_967_295):
            jumps = [1, 9, 10, 11, 1_000, 4_294_967_295, 10_000_000_000, LAST_TICK]
            due, told = least(ticks, period, 0), []
            for tick in [0, *jumps]:
                if due <= tick:
                    told.append(tick)
                    due = least(ticks, period, tick + 1)
            script = HEAD + asking(period, anchor) + "".join(f'{{"tick":{tick}}}\n' for tick in jumps)
            replies = reply(1, given(FIRST_ID)) + "".join(map(reply, range(2, len(jumps) + 2)))
            yield f"period {period} from {anchor}", script.encode(), (replies + updates(told) + "end\n").encode()
    for anchor in (
            "2200-01-01T00:00:00Z", "1969-12-31T23:59:59.999999999Z", "2200-01-01T00:30:00+01:00", "1970-01-01T00:30:00+01:00",
            "2026-01-01T00:00:00", "2026-01-01 00:00:00Z", "2026-02-29T00:00:00Z", "2026-01-01T00:00:60Z", "2026-01-01T00:00:00.Z",
            "2026-01-01T00:00:00.0000000000Z", "2026-01-01T00:00:00+24:00", "2026-01-01T00:00:00-00:60", ""):
        yield f"the anchor {anchor!r}", (HEAD + asking(10, anchor)).encode(), (4, 10)


def subscription_cases() -> Iterator[tuple[str, bytes, Wanted]]:
    """A name, a script, and its report, or the line and the number of its fault."""
    for seed in range(SCRIPTS):
        yield f"subscribing {seed}", *Subscribing(seed).drawn()
    yield from filters()
    yield from many_feeds()
    yield from anchors()
