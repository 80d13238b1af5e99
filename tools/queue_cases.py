"""Scripts with bounded queues, dampening and receivers that take by command, each with the report that the rules give.

The report is worked out by a model that does nothing but what docs/QUEUES.md, docs/SUBSCRIBING.md and docs/SCRIPT.md
say: each feed keeps all selections since its base, and a record is made of them afresh. It shares no code with the
program and never runs it. The scripts are the same each time.
"""

from __future__ import annotations

from collections.abc import Iterator
from dataclasses import dataclass, field
from typing import Any

from access_cases import COMMANDS, USERS, Path, Rows, data, schema_line, target, value_at
from large_cases import FIRST_ID, START, compact, given, reply, tree
from subscription_cases import MOST_FEEDS, SHORTEST_PERIOD, Subscribing, Wanted, at_tick, kept_by, least
from window_cases import KINDS, changed, topmost

SCRIPTS = 80
MOST_TRIES, MOST_ROOTS, MOST_TAKEN, MOST_LINES = 8, 256, 32, 100_000
ORDER = ["started", "modified", "incomplete", "suspended", "resumed", "sync", "terminated"]
BARRED = {"incomplete", "suspended", "resumed", "sync", "terminated"}
REASONS = {"suspended": "unsupportable-volume", "terminated": "no-such-subscription"}


@dataclass
class Packet:
    """What is offered: its line after the receiver's name, what it is in words, and what it does to the rows that are held."""

    number: int
    line: str
    words: str
    full: Rows | None = None
    edits: list[tuple[Path, Rows]] = field(default_factory=list)
    is_update: bool = False

    def heard(self, rows: Rows) -> Rows:
        if self.full is not None:
            return {**self.full}
        gone = {root for root, _ in self.edits}
        kept = {path: value for path, value in rows.items() if not any(path[:length] in gone for length in range(1, len(path) + 1))}
        return kept | {path: value for _, inner in self.edits for path, value in inner.items()}


def notification(tick: int, sort: str, body: dict[str, Any], module: str = "ietf-yang-push") -> str:
    inner = {"eventTime": at_tick(tick), f"{module}:{sort}": body}
    return compact({"ietf-restconf:notification": inner})


@dataclass
class Desk:
    """A receiver: its queue, and all that was offered to it, in order."""

    name: str
    places: int
    is_auto: bool
    offers: list[Packet | str] = field(default_factory=list)
    accepted: int = 0
    taken: int = 0

    def offer(self, packet: Packet, position: int) -> bool:
        if self.accepted - self.taken >= self.places:
            self.offers.append(f"full {self.name} {packet.number} {position}\n")
            return False
        self.offers.append(packet)
        self.accepted += 1
        self.taken += self.is_auto
        return True

    def take(self, count: int) -> None:
        self.taken = min(self.accepted, self.taken + count)

    def report(self) -> str:
        left, told, held = self.taken, "", {}
        for offer in self.offers:
            if isinstance(offer, str):
                told += offer
            elif left:
                left -= 1
                told += f"to {self.name} {offer.line}\n"
                if offer.is_update:
                    held[offer.number] = offer.heard(held.get(offer.number, {}))
        return told + "".join(tree(self.name, number, data(rows, ())) for number, rows in sorted(held.items()))


@dataclass
class Trigger:
    """When updates are sent."""

    period: int = 0
    anchor: int = 0
    dampening: int = 0
    sync: bool = True
    excluded: list[str] = field(default_factory=list)

    @property
    def resyncs(self) -> bool:
        return self.period > 0 or self.sync


@dataclass
class Window:
    """The selections since a base: the first, the last, and the paths that differ between two neighbouring ones."""

    first: Rows
    last: Rows
    touched: set[Path] = field(default_factory=set)
    found: list[Path] | None = None

    def goes_on(self, rows: Rows) -> None:
        if rows is self.last:
            return
        news = changed(self.last, rows)
        if news:
            self.touched |= news
            self.found = None
        self.last = rows

    @property
    def roots(self) -> list[Path]:
        if self.found is None:
            self.found = topmost(self.touched)
        return self.found

    def kind(self, root: Path) -> str:
        return "delete" if root not in self.last else "replace" if root in self.first else "create"

    def told(self, excluded: list[str]) -> list[Path]:
        """The roots whose edits are in the record."""
        return [root for root in self.roots if self.kind(root) not in excluded]

    def edits(self, excluded: list[str]) -> list[tuple[Path, str, Rows]]:
        """The edits of the record: the root, the operation, and what is selected at or below the root."""
        inner: dict[Path, Rows] = {root: {} for root in self.told(excluded)}
        for path, value in self.last.items():
            for length in range(1, len(path) + 1):
                if path[:length] in inner:
                    inner[path[:length]][path] = value
        return [(root, self.kind(root), rows) for root, rows in inner.items()]


@dataclass
class Feed:
    """A subscription of one receiver, with its window."""

    number: int
    receiver: int
    filter: dict[str, Any] | None
    trigger: Trigger
    window: Window
    owed: set[str] = field(default_factory=set)
    last_record: int | None = None
    tries: int = 0
    last_full: int | None = None
    is_suspended: bool = False
    frozen: Packet | None = None
    due: int = 0

    def begin_anew(self) -> None:
        self.window = Window(self.window.last, self.window.last)

    def restart(self) -> None:
        """Other rules: what was set aside goes, and all that is selected is owed, or changes are counted anew."""
        self.frozen = None
        self.owed.discard("incomplete")
        if self.trigger.resyncs:
            self.owed.add("sync")
        else:
            self.begin_anew()

    def changes(self, position: int, tick: int, is_marked: bool) -> Packet:
        edits = self.window.edits(self.trigger.excluded)
        said = [
            {"edit-id": str(number), "operation": kind, "target": target(root)} | ({"value": value_at(rows, root)} if root in rows else {})
            for number, (root, kind, rows) in enumerate(edits, 1)]
        patch = {"yang-patch": {"edit": said, "patch-id": str(position)}}
        mark = {"incomplete-update": [None]} if is_marked else {}
        line = notification(tick, "push-change-update", {"datastore-changes": patch, "id": self.number, **mark})
        words = f"{'marked' if is_marked else 'change'} {position}"
        return Packet(self.number, line, words, None, [(root, rows) for root, _, rows in edits], True)

    def all_rows(self, position: int, tick: int) -> Packet:
        rows = self.window.last
        line = notification(tick, "push-update", {"datastore-contents": data(rows, ()), "id": self.number})
        return Packet(self.number, line, f"update {position}", rows, [], True)

    def freeze(self, position: int, tick: int) -> None:
        if self.trigger.period or self.tries == 0 or self.owed & BARRED or len(self.window.roots) <= MOST_ROOTS:
            return
        self.frozen = self.changes(position, tick, True)
        self.owed |= {"incomplete", "sync"} if self.trigger.resyncs else {"incomplete"}

    def item(self, tick: int) -> str | None:
        """What is offered. Where changes are due that make no edit, they are counted anew."""
        if self.last_full == tick:
            return None
        for owed in ORDER:
            if owed in self.owed:
                return owed
        if self.trigger.period:
            return "periodic" if self.due <= tick else None
        if self.last_record is not None and tick < self.last_record + self.trigger.dampening:
            return None
        if not self.window.roots:
            return None
        if self.window.told(self.trigger.excluded):
            return "changes"
        self.begin_anew()
        return None

    def packet(self, item: str, position: int, tick: int) -> Packet:
        if item in ("sync", "periodic"):
            return self.all_rows(position, tick)
        if item == "changes":
            return self.changes(position, tick, False)
        if item == "incomplete":
            assert self.frozen is not None
            return self.frozen
        reason = {"reason": f"ietf-subscribed-notifications:{REASONS[item]}"} if item in REASONS else {}
        line = notification(tick, f"subscription-{item}", {"id": self.number, **reason}, "ietf-subscribed-notifications")
        return Packet(self.number, line, item)

    def took(self, item: str, tick: int) -> None:
        self.tries = 0
        self.owed.discard(item)
        if item in ("sync", "changes", "periodic") or item in ("incomplete", "resumed") and not self.trigger.resyncs:
            self.begin_anew()
        if item in ("sync", "changes", "incomplete"):
            self.last_record = tick
        if item in ("sync", "periodic") and self.trigger.period:
            self.due = least(self.trigger.anchor, self.trigger.period, tick + 1)
        if item == "resumed":
            self.is_suspended = False

    def met_full(self, item: str, tick: int) -> None:
        self.last_full = tick
        self.tries = min(MOST_TRIES, self.tries + 1)
        if item == "periodic":
            self.due = least(self.trigger.anchor, self.trigger.period, tick + 1)
        if self.tries == MOST_TRIES and not self.is_suspended and "terminated" not in self.owed:
            self.is_suspended = True
            self.owed = self.owed & {"started", "modified"} | {"suspended", "resumed"}
            if self.trigger.resyncs:
                self.owed.add("sync")
            self.frozen = None


class Queued(Subscribing):
    """A script with queues of all sizes, and its report, drawn command by command."""

    def __init__(self, seed: int) -> None:
        super().__init__(seed)
        draw = self.draw
        self.desks = [Desk(user, draw.choice([1, 1, 2, 3, 8, 32]), draw.random() < 0.3) for user in USERS]
        self.queued: list[Feed] = []
        self.given = 0

    def next_number(self) -> int:
        """An id that was given to no subscription before."""
        self.given += 1
        return FIRST_ID + self.given - 1

    def selection(self, receiver: int, wanted: dict[str, Any] | None) -> Rows:
        seen = self.want(receiver)
        kept = {*seen} if wanted is None else kept_by(wanted, (), seen)
        return {path: value for path, value in seen.items() if path in kept}

    def settle(self, feed: Feed, item: str, is_accepted: bool) -> None:
        """What the answer of the queue makes of a feed that offered an item."""
        if not is_accepted:
            feed.met_full(item, self.now)
            feed.freeze(self.position, self.now)
            return
        feed.took(item, self.now)
        if item == "terminated":
            self.queued = [other for other in self.queued if other is not feed]

    def offer(self, feed: Feed) -> None:
        while item := feed.item(self.now):
            is_accepted = self.desks[feed.receiver].offer(feed.packet(item, self.position, self.now), self.position)
            self.settle(feed, item, is_accepted)
            if is_accepted and item == "terminated":
                return

    def absorb(self, ruled: set[int], started: list[Feed], anew: int | None) -> None:
        """What a position makes of the feeds, where the own rules of these receivers' users changed, or a subscription has new terms or is synchronised again."""
        for feed in self.queued:
            feed.window.goes_on(self.selection(feed.receiver, feed.filter))
            if feed.number == anew or feed.receiver in ruled and "terminated" not in feed.owed:
                feed.restart()
            feed.freeze(self.position, self.now)
        self.queued = sorted([*self.queued, *started], key=lambda feed: (feed.number, feed.receiver))

    def after(self, ruled: set[int] = frozenset(), started: list[Feed] | None = None, anew: int | None = None) -> None:
        """What a position makes of the feeds, and then all that they offer."""
        self.absorb(ruled, started or [], anew)
        for feed in [*self.queued]:
            self.offer(feed)

    def started(self, number: int, receiver: int, wanted: dict[str, Any] | None, trigger: Trigger) -> Feed:
        """The feed of a subscription that starts, for one of its receivers."""
        rows = self.selection(receiver, wanted)
        feed = Feed(number, receiver, wanted, trigger, Window(rows, rows))
        if trigger.period:
            feed.due = least(trigger.anchor, trigger.period, self.now)
        elif trigger.sync:
            feed.owed = {"sync"}
        return feed

    # -- commands

    def tick(self) -> None:
        step = self.draw.choice([0, 0, 1, 5, 10, 10, 37, 100, 1_000])
        said = max(0, self.now + step - self.draw.choice([0, 0, 0, 20]))
        self.now = max(self.now, said)
        self.say(compact({"tick": said}))
        self.after()

    def patch(self) -> None:
        edit, self.rows = self.edit()
        self.say(compact({"patch": {"ietf-yang-patch:yang-patch": {"patch-id": "p", "edit": [edit]}}}))
        self.after()

    def give_policy(self) -> None:
        old = self.policy
        super().give_policy()
        self.after({receiver for receiver, user in enumerate(USERS) if old.own_rules(user) != self.policy.own_rules(user)})

    def take(self) -> None:
        waiting = [desk for desk in self.desks if not desk.is_auto]
        if not waiting:
            return
        desk, count = self.draw.choice(waiting), self.draw.choice([1, 1, 2, 3, MOST_TAKEN])
        desk.take(count)
        self.say(compact({"take": {"receiver": desk.name, "count": count}}))
        self.after()

    def on_change(self) -> tuple[dict[str, Any], Trigger]:
        draw, said, trigger = self.draw, {}, Trigger()
        if draw.random() < 0.6:
            said["dampening-period"] = trigger.dampening = draw.choice([0, 1, 10, 50, 100, 4_294_967_295])
        if draw.random() < 0.4:
            said["sync-on-start"] = trigger.sync = draw.random() < 0.4
        if draw.random() < 0.3:
            said["excluded-change"] = trigger.excluded = draw.sample(KINDS, draw.randrange(4))
        return said, trigger

    def subscribe(self) -> None:
        receiver = self.draw.randrange(len(USERS))
        asked, refusal, wanted, period, anchor = self.ask()
        trigger = Trigger(period, anchor)
        if not period:
            asked["on-change"], trigger = self.on_change()
        refusal = refusal if self.policy.may_call(USERS[receiver], "establish-subscription") else "access-denied"
        said = compact({"establish": {"by": USERS[receiver], **asked}})
        if refusal:
            hint = {"period-hint": SHORTEST_PERIOD} if refusal == "period-unsupported" else {}
            self.say(said, compact({"error": refusal, **hint}))
            self.after()
            return
        feed = self.started(self.next_number(), receiver, wanted, trigger)
        self.say(said, given(feed.number))
        self.after(started=[feed])

    def report(self) -> bytes:
        return (self.replies + "".join(desk.report() for desk in self.desks) + "end\n").encode()

    def script(self) -> bytes:
        receivers = "".join(
            compact({"receiver": {"name": desk.name, "user": desk.name, "queue": desk.places, "take": "auto" if desk.is_auto else "command"}})
            + "\n" for desk in self.desks)
        return (START + schema_line() + receivers + "".join(line + "\n" for line in self.lines)).encode()

    def drawn(self) -> tuple[bytes, bytes]:
        for _ in range(COMMANDS):
            self.draw.choices([self.patch, self.give_policy, self.subscribe, self.tick, self.take], [8, 1, 2, 8, 4])[0]()
        return self.script(), self.report()


# ---- by hand

class Written(Queued):
    """A script that is written command by command, with one receiver, ann."""

    def __init__(self, places: int, is_auto: bool = False) -> None:
        super().__init__(0)
        self.desks = [Desk("ann", places, is_auto)]

    def subscribed(self, trigger: Trigger, said: dict[str, Any]) -> None:
        feed = self.started(self.next_number(), 0, None, trigger)
        self.say(compact({"establish": {"by": "ann", "datastore": "ietf-datastores:operational", **said}}), given(feed.number))
        self.after(started=[feed])

    def edited(self, names: list[str], mtu: int = 1) -> None:
        """One patch that gives each of these ports this mtu."""
        edits = []
        for number, name in enumerate(names):
            at: Path = (("acme:ports", ()), ("port", (name,)))
            self.rows = self.rows | {at: True, (*at, ("mtu", ())): mtu}
            value = {"acme:port": [{"name": name, "mtu": mtu}]}
            edits.append({"edit-id": str(number), "operation": "merge", "target": f"/acme:ports/port={name}", "value": value})
        self.say(compact({"patch": {"ietf-yang-patch:yang-patch": {"patch-id": "p", "edit": edits}}}))
        self.after()

    def removed(self, name: str) -> None:
        """A patch that takes this port away, if it is there."""
        at: Path = (("acme:ports", ()), ("port", (name,)))
        self.rows = {path: value for path, value in self.rows.items() if path[:2] != at}
        edit = {"edit-id": "0", "operation": "remove", "target": f"/acme:ports/port={name}"}
        self.say(compact({"patch": {"ietf-yang-patch:yang-patch": {"patch-id": "p", "edit": [edit]}}}))
        self.after()

    def to_tick(self, tick: int) -> None:
        self.now = max(self.now, tick)
        self.say(compact({"tick": tick}))
        self.after()

    def takes(self, count: int) -> None:
        self.desks[0].take(count)
        self.say(compact({"take": {"receiver": "ann", "count": count}}))
        self.after()


def many_roots(count: int, trigger: Trigger, said: dict[str, Any]) -> tuple[bytes, bytes]:
    """A full queue, and then so many new ports at once: from 257 on the record is set aside."""
    run = Written(1)
    run.subscribed(trigger, said)
    run.edited(["eth0"])
    run.to_tick(1)
    run.edited([f"p{number}" for number in range(count)])
    run.to_tick(2)
    run.edited(["late"])
    for tick in (3, 4, 5):
        run.takes(1)
        run.to_tick(tick)
    run.edited(["eth0"], 9)
    run.takes(MOST_TAKEN)
    run.takes(MOST_TAKEN)
    return run.script(), run.report()


def never_taken(ticks: int, subscriptions: int) -> tuple[bytes, bytes]:
    """A receiver that takes nothing for so many ticks, and then everything."""
    run = Written(1)
    for number in range(subscriptions):
        period = 10 if number % 2 else 0
        run.subscribed(Trigger(period), {"periodic": {"period": period}} if period else {"on-change": {}})
    for tick in range(1, ticks + 1):
        run.edited(["eth0"], tick % 3)
        run.to_tick(tick * 5)
    for step in range(subscriptions * 4):
        run.takes(1)
        run.to_tick(ticks * 5 + step + 1)
    return run.script(), run.report()


class Long(Written):
    """A script of many commands without a policy: what is selected stays while no row changes, and replies are put together at the end."""

    def __init__(self, places: int) -> None:
        super().__init__(places)
        self.answers: list[str] = []
        self.seen: tuple[Rows, Rows] | None = None

    def selection(self, receiver: int, wanted: dict[str, Any] | None) -> Rows:
        if self.seen is None or self.seen[0] is not self.rows:
            self.seen = self.rows, super().selection(receiver, wanted)
        return self.seen[1]

    def say(self, command: str, answer: str = '{"ok":true}') -> None:
        self.position += 1
        self.lines.append(command)
        self.answers.append(reply(self.position, answer))

    def report(self) -> bytes:
        return "".join(self.answers).encode() + super().report()


def most_lines(said: dict[str, Any], trigger: Trigger) -> tuple[bytes, bytes]:
    """A script of 100,000 lines, patches and ticks in turn, whose receiver never takes."""
    run = Long(1)
    run.subscribed(trigger, said)
    before = run.script().count(b"\n")
    for number in range(MOST_LINES - before):
        if number % 2:
            run.to_tick(number)
        else:
            run.edited([f"eth{number % 3}"], number % 5)
    return run.script(), run.report()


def most_ticks() -> tuple[bytes, bytes]:
    """As many ticks as a script may have, whose receiver never takes."""
    run = Long(1)
    run.subscribed(Trigger(), {"on-change": {}})
    run.subscribed(Trigger(10), {"periodic": {"period": 10}})
    run.edited(["eth0"])
    for tick in range(1, MOST_LINES - run.script().count(b"\n") + 1):
        run.to_tick(tick)
    return run.script(), run.report()


def most_subscriptions() -> tuple[bytes, bytes]:
    """As many subscriptions as there may be of one receiver, whose queue has one place: it takes nothing for a while, and then one by one."""
    run = Long(1)
    for number in range(MOST_FEEDS):
        match number % 4:
            case 0:
                run.subscribed(Trigger(10), {"periodic": {"period": 10}})
            case 1:
                run.subscribed(Trigger(sync=False), {"on-change": {"sync-on-start": False}})
            case 2:
                run.subscribed(Trigger(dampening=25), {"on-change": {"dampening-period": 25}})
            case _:
                run.subscribed(Trigger(), {"on-change": {}})
    for number in range(12):
        run.edited([f"eth{number % 3}"], number)
        run.to_tick(number * 7 + 1)
    for number in range(MOST_FEEDS):
        run.takes(1)
        run.to_tick(100 + number)
    return run.script(), run.report()


def longest_dampening() -> tuple[bytes, bytes]:
    """The longest dampening period, and ticks up to the last one."""
    run = Written(4, True)
    run.subscribed(Trigger(dampening=4_294_967_295), {"on-change": {"dampening-period": 4_294_967_295}})
    for tick in (1, 4_294_967_294, 4_294_967_295, 4_294_967_296, 8_589_934_589, 8_589_934_590, 1_000_000_000_000):
        run.edited(["eth0"], tick % 7)
        run.to_tick(tick)
    return run.script(), run.report()


def full_at_eighth(said: dict[str, Any], trigger: Trigger) -> tuple[bytes, bytes]:
    """Seven full queues, one that takes, eight full queues, and the way back."""
    run = Written(1)
    run.subscribed(trigger, said)
    run.edited(["eth0"])
    for tick in range(1, 7):
        run.to_tick(tick * 10)
    run.takes(1)
    for tick in range(7, 20):
        run.edited([f"p{tick}"])
        run.to_tick(tick * 10)
    for tick in range(20, 26):
        run.takes(1)
        run.to_tick(tick * 10)
    return run.script(), run.report()


def queue_cases() -> Iterator[tuple[str, bytes, Wanted]]:
    """A name, a script, and its report."""
    for seed in range(SCRIPTS):
        yield f"queues {seed}", *Queued(seed).drawn()
    plain, quiet, less = Trigger(), Trigger(sync=False), Trigger(excluded=["create"])
    for name, trigger, said in (
            ("on change", plain, {"on-change": {}}), ("without sync-on-start", quiet, {"on-change": {"sync-on-start": False}}),
            ("without creations", less, {"on-change": {"excluded-change": ["create"]}})):
        for count in (MOST_ROOTS, MOST_ROOTS + 1):
            yield f"{count} new places after a full queue, {name}", *many_roots(count, trigger, said)
        yield f"eight full queues, {name}", *full_at_eighth(said, trigger)
    yield "eight full queues, periodic", *full_at_eighth({"periodic": {"period": 10}}, Trigger(10))
    yield "nothing is taken for 2,000 ticks", *never_taken(2_000, 2)
    yield "eight subscriptions share a queue of one place", *never_taken(40, 8)
    yield "the longest dampening period", *longest_dampening()
    yield "100,000 lines of which nothing is taken, on change", *most_lines({"on-change": {}}, plain)
    yield "as many ticks as a script may have, and nothing is taken", *most_ticks()
    yield "256 subscriptions share a queue of one place", *most_subscriptions()
