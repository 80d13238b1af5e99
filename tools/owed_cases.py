"""A table of all that a feed may owe at once, with what each call and each command makes of it.

Each state of a feed has the commands that lead to it, and what the feed then owes and whether it is suspended, worked
out by hand from docs/QUEUES.md and docs/SUBSCRIBING.md; the model of queue_cases.py must agree. The table has all states
that there are: 'reached' looks for more, and must find none. In each state each call about the subscription is made,
the user's rules change, notifications are taken, or so much changes that it may be set aside; and then the receiver
takes, and time passes, until nothing is left to be sent. The reports are the model's. The queue has one place.
"""

from __future__ import annotations

import copy
from collections import deque
from collections.abc import Iterator

from access_cases import Rows
from feed_cases import ticks
from lifetime_cases import Told, live_by
from queue_cases import MOST_ROOTS, ORDER, Feed, Packet, Trigger, Wanted

# A notification that nobody takes, of a subscription that is gone, so that the queue is full from the start.
FULL = "on-change; delete; "
PAST = ticks(1, 7)
DUE = "; ".join(f"tick {tick}" for tick in range(10, 80, 10))
MANY = "patch eth0; many 256"

State = tuple[str, str]

# What is owed, and the commands that lead there; 's' stands before what a suspended feed owes.
ESTABLISHED: dict[str, list[State]] = {
    "on-change": [
        ("", ""), ("sync", "; resync"), ("incomplete sync", f"; {MANY}"), ("s suspended resumed sync", f"; patch eth0; {PAST}"),
        ("s resumed sync", f"; patch eth0; {PAST}; take 1; tick 8"), ("terminated", "; kill"), ("s terminated", f"; patch eth0; {PAST}; kill")],
    "on-change sync=no": [
        ("", ""), ("incomplete", f"; patch eth1; {MANY}"), ("s suspended resumed", f"; patch eth1; patch eth0; {PAST}"),
        ("s resumed", f"; patch eth1; patch eth0; {PAST}; take 1; tick 8"), ("terminated", "; patch eth1; kill"),
        ("s terminated", f"; patch eth1; patch eth0; {PAST}; kill")],
    "every 10": [
        ("", ""), ("sync", "; modify filter"), ("s suspended resumed sync", f"; {DUE}; tick 80"),
        ("s resumed sync", f"; {DUE}; tick 80; take 1; tick 81"), ("terminated", "; kill"), ("s terminated", f"; {DUE}; tick 80; kill")]}
CONFIGURED: dict[str, list[State]] = {
    "configure": [
        ("", "; take 1; tick 1"), ("sync", ""), ("incomplete sync", f"; take 1; tick 1; {MANY}"), ("modified sync", "; reconfigure"),
        ("s suspended resumed sync", f"; {PAST}"), ("s modified suspended resumed sync", f"; {PAST}; reconfigure"),
        ("s resumed sync", f"; {PAST}; take 1; tick 8"), ("s modified resumed sync", f"; {PAST}; take 1; tick 8; reconfigure"),
        ("terminated", "; unconfigure"), ("s terminated", f"; {PAST}; unconfigure")],
    f"{FULL}configure": [
        ("started sync", ""), ("started modified sync", "; reconfigure"), ("s started suspended resumed sync", f"; {PAST}"),
        ("s started modified suspended resumed sync", f"; {PAST}; reconfigure"), ("started terminated", "; unconfigure"),
        ("s started terminated", f"; {PAST}; unconfigure")],
    "configure sync=no": [
        ("", ""), ("incomplete", f"; {MANY}"), ("modified", "; reconfigure"), ("modified incomplete", f"; reconfigure; {MANY}"),
        ("s suspended resumed", f"; patch eth0; {PAST}"), ("s modified suspended resumed", f"; reconfigure; {PAST}"),
        ("s resumed", f"; patch eth0; {PAST}; take 1; tick 8"), ("s modified resumed", f"; patch eth0; {PAST}; take 1; tick 8; reconfigure"),
        ("terminated", "; unconfigure"), ("s terminated", f"; patch eth0; {PAST}; unconfigure")],
    f"{FULL}configure sync=no": [
        ("started", ""), ("started incomplete", f"; {MANY}"), ("started modified", "; reconfigure"),
        ("started modified incomplete", f"; reconfigure; {MANY}"), ("s started suspended resumed", f"; {PAST}"),
        ("s started modified suspended resumed", f"; {PAST}; reconfigure"), ("started terminated", "; unconfigure"),
        ("s started terminated", f"; {PAST}; unconfigure")],
    "configure 10": [
        ("", ""), ("sync", "; hide mtu"), ("modified sync", "; reconfigure"), ("s suspended resumed sync", f"; {DUE}"),
        ("s modified suspended resumed sync", f"; {DUE}; reconfigure"), ("s resumed sync", f"; {DUE}; take 1; tick 71"),
        ("s modified resumed sync", f"; {DUE}; take 1; tick 71; reconfigure"), ("terminated", "; unconfigure"), ("s terminated", f"; {DUE}; unconfigure")],
    f"{FULL}configure 10": [
        ("started", ""), ("started sync", "; hide mtu"), ("started modified sync", "; reconfigure"), ("s started suspended resumed sync", f"; {PAST}"),
        ("s started modified suspended resumed sync", f"; {PAST}; reconfigure"), ("started terminated", "; unconfigure"),
        ("s started terminated", f"; {PAST}; unconfigure")]}

EVENTS = ["hide enabled", "take 1", "take 1; tick 90", "many 257"]
CALLS = ["modify filter", "resync", "kill", "delete", *EVENTS]
CONFIGURATIONS = ["reconfigure filter", "unconfigure", *EVENTS]
ENDING = "; ".join(f"take 1; tick {tick}" for tick in range(100, 107))


class Kept(Told):
    """A script whose selections are made once while neither the rows nor the policy change."""

    def __init__(self, places: int) -> None:
        super().__init__(places)
        self.seen: dict[int, tuple[object, object, object, Rows]] = {}

    def selection(self, receiver: int, wanted: object) -> Rows:
        kept = self.seen.get(id(wanted))
        if kept is None or kept[0] is not self.rows or kept[1] is not self.policy:
            kept = self.seen[id(wanted)] = self.rows, self.policy, wanted, super().selection(receiver, wanted)
        return kept[3]


def owed_by(feed: Feed) -> str:
    return " ".join([*(["s"] if feed.is_suspended else []), *(item for item in ORDER if item in feed.owed)])


def done(run: Told, commands: str) -> Told:
    for command in commands.split("; "):
        live_by(run, command)
    return run


def owed_cases() -> Iterator[tuple[str, bytes, Wanted]]:
    """A name, a script, and its report, for each state and each of the events."""
    table = [(f"may-all; {start}", start, states, CALLS) for start, states in ESTABLISHED.items()]
    table += [(start, start.removeprefix(FULL), states, CONFIGURATIONS) for start, states in CONFIGURED.items()]
    for start, name, states, events in table:
        for owed, more in states:
            at = done(Kept(1), start + more)
            assert owed_by(at.queued[0]) == owed, (start + more, owed_by(at.queued[0]), owed)
            for event in events:
                run = done(copy.deepcopy(at), f"{event}; take 1; patch eth2; {ENDING}")
                assert not any(feed.owed for feed in run.queued), (start + more, event)
                yield f"{event}, where a subscription by '{name}' owes: {owed or 'nothing'}", run.script(), run.report()
    assert listed(ESTABLISHED, CONFIGURED) == reached()


def listed(*tables: dict[str, list[State]]) -> set[tuple[str, bool, str]]:
    """The states of the table: the trigger, whether it is configured, and what is owed."""
    found = set()
    for table in tables:
        for start, states in table.items():
            words = start.removeprefix(FULL)
            trigger = "periodic" if "10" in words else "without sync-on-start" if "sync=no" in words else "on change"
            found |= {(trigger, "configure" in words, owed) for owed, _ in states}
    return found


# ---- all states that there are

TRIGGERS = {"on change": Trigger(), "without sync-on-start": Trigger(sync=False), "periodic": Trigger(10)}


class Count:
    """A window of which only the number of roots is known."""

    def __init__(self, number: int = 0) -> None:
        self.number = min(number, MOST_ROOTS + 1)

    @property
    def roots(self) -> range:
        return range(self.number)

    def told(self, _excluded: list[str]) -> range:
        return self.roots


class Bare(Feed):
    """A feed that makes no notifications."""

    def begin_anew(self) -> None:
        self.window = Count()

    def changes(self, position: int, tick: int, is_marked: bool) -> Packet:
        return Packet(0, "", "")


class Machine:
    """One feed and the one place of its queue. Ticks are counted from 0, and due ticks from the present one."""

    def __init__(self, trigger: str, is_configured: bool, is_full: bool) -> None:
        self.trigger, self.is_configured, self.is_full, self.is_gone = trigger, is_configured, is_full, False
        self.feed = Bare(0, 0, None, TRIGGERS[trigger], Count())
        self.feed.owed = ({"started"} if is_configured else set()) | ({"sync"} if trigger == "on change" else set())
        self.offer(0)

    def offer(self, now: int) -> None:
        feed = self.feed
        feed.freeze(0, now)
        while not self.is_gone and (item := feed.item(now)):
            if self.is_full:
                feed.met_full(item, now)
                feed.freeze(0, now)
            else:
                self.is_full, self.is_gone = True, item == "terminated"
                feed.took(item, now)

    def after(self, event: str, now: int) -> Machine:
        """The machine after an event at a tick."""
        after = copy.copy(self)
        after.feed = feed = copy.copy(self.feed)
        feed.owed = {*feed.owed}
        match event:
            case "takes":
                after.is_full = False
            case "changes" | "changes much":
                feed.window = Count(feed.window.number + (1 if event == "changes" else MOST_ROOTS))
            case "is amended":
                feed.owed |= {"modified"} if self.is_configured else set()
                feed.restart()
            case "has other rules":
                feed.restart()
            case "ends":
                feed.owed = feed.owed & {"started"} | {"terminated"}
                feed.frozen = None
        after.offer(now)
        return after

    def said(self, now: int) -> tuple[object, ...]:
        """All that what comes depends on."""
        feed = self.feed
        return (
            self.trigger, self.is_configured, self.is_full, owed_by(feed), feed.tries, feed.last_full == now,
            min(feed.window.number, 2) + (feed.window.number > MOST_ROOTS), feed.due <= now)


def reached() -> set[tuple[str, bool, str]]:
    """What feeds may owe, of each trigger, configured or not."""
    starts = [Machine(trigger, is_configured, is_full) for trigger in TRIGGERS for is_configured in (False, True) for is_full in (False, True)]
    waiting, seen, found = deque((machine, 0) for machine in starts), {*()}, set()
    while waiting:
        machine, now = waiting.popleft()
        if machine.is_gone or machine.said(now) in seen:
            continue
        seen.add(machine.said(now))
        found.add((machine.trigger, machine.is_configured, owed_by(machine.feed)))
        events = ["takes", "changes", "changes much"] + (["is amended", "has other rules", "ends"] if "terminated" not in machine.feed.owed else [])
        waiting.extend((machine.after(event, now), now) for event in events)
        waiting.extend((machine.after("waits", later), later) for later in (now + 1, now + 10))
    return found
