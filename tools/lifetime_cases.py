"""Scripts whose subscriptions are modified, deleted, killed, synchronised again and configured, each with its report.

The report is worked out by the model of queue_cases.py, and what becomes of subscriptions by the rules of
docs/SUBSCRIBING.md. It shares no code with the program and never runs it. The scripts are the same each time. A
short one for each rule has what its receiver is offered, worked out by hand, in the words of feed_cases.py.
"""

from __future__ import annotations

import itertools
from collections.abc import Callable, Iterator
from dataclasses import dataclass, replace
from typing import Any

from access_cases import COMMANDS, USERS, Policy, Rows, Rule
from feed_cases import do, every, fulls, offered, on_change, ticks
from large_cases import FIRST_ID, compact, given, reply
from queue_cases import Desk, Feed, Queued, Trigger, Wanted, Written
from subscription_cases import MOST_FEEDS, OPERATIONAL, SHORTEST_PERIOD, at_tick, least

SCRIPTS = 80
MOST_CONFIGURED, LAST_ID = FIRST_ID - 1, 4_294_967_295
OPERATIONS = [f"{call}-subscription" for call in ("establish", "modify", "delete", "kill", "resync")]
Refusal = dict[str, Any] | None


def error(word: str, member: str | None = None) -> dict[str, Any]:
    more = {"period-hint": SHORTEST_PERIOD} if word == "period-unsupported" else {"member": member} if member else {}
    return {"error": word, **more}


def first_of(*refusals: tuple[bool, dict[str, Any]]) -> Refusal:
    """The first refusal whose condition holds."""
    return next((refusal for holds, refusal in refusals if holds), None)


@dataclass
class Amend:
    """What a subscription is amended with: as a line says it, what it asks for, and whether the filter can't be read."""

    said: dict[str, Any]
    has_filter: bool = False
    filter: dict[str, Any] | None = None
    is_unread: bool = False
    period: int = 0
    anchor: int | None = None
    dampening: int | None = None

    @property
    def is_short(self) -> bool:
        return "periodic" in self.said and self.period < SHORTEST_PERIOD

    def is_of_other_kind(self, trigger: Trigger) -> bool:
        return "periodic" in self.said and not trigger.period or "on-change" in self.said and trigger.period > 0

    def trigger(self, kept: Trigger, now: int) -> Trigger:
        if "periodic" in self.said:
            return Trigger(self.period, now if self.anchor is None else self.anchor)
        return kept if self.dampening is None else replace(kept, dampening=self.dampening)


@dataclass
class Live:
    """A live subscription: whose it is, and for whom."""

    number: int
    receivers: list[int]
    is_configured: bool
    filter: dict[str, Any] | None
    trigger: Trigger


class Living(Queued):
    """A script whose subscriptions live in all ways, and its report."""

    def __init__(self, seed: int) -> None:
        super().__init__(seed)
        self.live: dict[int, Live] = {}
        self.taken: set[int] = set()

    @property
    def names(self) -> list[str]:
        return [desk.name for desk in self.desks]

    def user(self, receiver: int) -> str:
        return USERS[receiver]

    def has_room(self, more: int) -> bool:
        return sum(len(live.receivers) for live in self.live.values()) + more <= MOST_FEEDS

    def denied(self, by: int, call: str) -> tuple[bool, dict[str, Any]]:
        return not self.policy.may_call(self.user(by), f"{call}-subscription"), error("access-denied")

    def own(self, by: int, number: int) -> Live | None:
        live = self.live.get(number)
        return live if live and not live.is_configured and by in live.receivers else None

    def answered(self, said: dict[str, Any], refusal: Refusal, done: Callable[[], None], answer: str = '{"ok":true}', anew: int | None = None) -> None:
        """A command, its reply, and what it makes unless it is refused."""
        self.say(compact(said), compact(refusal) if refusal else answer)
        if refusal:
            self.after()
        else:
            done()
            self.after(anew=anew)

    # -- what becomes of subscriptions

    def start(self, live: Live) -> None:
        self.live[live.number] = live
        feeds = [self.started(live.number, receiver, live.filter, live.trigger) for receiver in live.receivers]
        for feed in feeds:
            feed.owed |= {"started"} if live.is_configured else set()
        self.after(started=feeds)

    def amend(self, live: Live, amend: Amend, is_told: bool) -> None:
        live.filter = amend.filter if amend.has_filter else live.filter
        live.trigger = amend.trigger(live.trigger, self.now)
        for feed in self.feeds_of(live.number):
            feed.filter, feed.trigger = live.filter, live.trigger
            feed.owed |= {"modified"} if is_told else set()
            if live.trigger.period:
                feed.due = least(live.trigger.anchor, live.trigger.period, self.now)

    def feeds_of(self, number: int) -> list[Feed]:
        return [feed for feed in self.queued if feed.number == number]

    def end(self, number: int) -> None:
        for feed in self.feeds_of(number):
            feed.owed = feed.owed & {"started"} | {"terminated"}
            feed.frozen = None
        del self.live[number]

    def drop(self, number: int) -> None:
        self.queued = [feed for feed in self.queued if feed.number != number]
        del self.live[number]

    # -- calls

    def establish(self, by: int, asked: dict[str, Any], refusal: str | None, wanted: dict[str, Any] | None, trigger: Trigger) -> None:
        refused = first_of(
            self.denied(by, "establish"), (refusal is not None, error(refusal or "")),
            (not self.has_room(1), error("insufficient-resources")))
        said = compact({"establish": {"by": self.names[by], **asked}})
        if refused:
            self.say(said, compact(refused))
            self.after()
            return
        number = self.next_number()
        self.say(said, given(number))
        self.start(Live(number, [by], False, wanted, trigger))

    def modify(self, by: int, number: int, amend: Amend) -> None:
        live = self.own(by, number)
        refused = first_of(self.denied(by, "modify"), *self.amend_refusals(live, amend))
        said = {"modify": {"by": self.names[by], "id": number, **amend.said}}
        self.answered(said, refused, lambda: self.amend(self.live[number], amend, False), anew=None if refused else number)

    def amend_refusals(self, live: Live | None, amend: Amend) -> list[tuple[bool, dict[str, Any]]]:
        return [
            (amend.is_unread, error("filter-unsupported")), (amend.is_short, error("period-unsupported")),
            (live is None, error("no-such-subscription")),
            (live is not None and amend.is_of_other_kind(live.trigger), error("invalid-value", "trigger"))]

    def delete(self, by: int, number: int) -> None:
        refused = first_of(self.denied(by, "delete"), (self.own(by, number) is None, error("no-such-subscription")))
        self.answered({"delete": {"by": self.names[by], "id": number}}, refused, lambda: self.drop(number))

    def kill(self, by: int, number: int) -> None:
        live = self.live.get(number)
        refused = first_of(self.denied(by, "kill"), (live is None or live.is_configured, error("no-such-subscription")))
        self.answered({"kill": {"by": self.names[by], "id": number}}, refused, lambda: self.end(number))

    def resync(self, by: int, number: int) -> None:
        live = self.own(by, number)
        refused = first_of(
            self.denied(by, "resync"), (live is None, error("no-such-subscription-resync")),
            (live is not None and (live.trigger.period > 0 or not live.trigger.sync), error("on-change-sync-unsupported")))
        said = {"resync": {"by": self.names[by], "id": number}}
        self.answered(said, refused, lambda: None, anew=None if refused else number)

    def configure(
            self, number: int, names: list[str], asked: dict[str, Any], refusal: str | None, wanted: dict[str, Any] | None, trigger: Trigger) -> None:
        refused = first_of(
            (refusal is not None, error(refusal or "")),
            (not 0 < number <= MOST_CONFIGURED or number in self.taken, error("invalid-value", "id")),
            (not {*names} <= {*self.names}, error("invalid-value", "receiver")),
            (not self.has_room(len(names)), error("insufficient-resources")))
        said = compact({"configure": {"id": number, "receivers": names, **asked}})
        if refused:
            self.say(said, compact(refused))
            self.after()
            return
        self.taken.add(number)
        self.say(said)
        receivers = [receiver for receiver, name in enumerate(self.names) if name in names]
        self.start(Live(number, receivers, True, wanted, trigger))

    def configured(self, number: int) -> Live | None:
        live = self.live.get(number)
        return live if live and live.is_configured else None

    def reconfigure(self, number: int, amend: Amend) -> None:
        refused = first_of(*self.amend_refusals(self.configured(number), amend))
        said = {"reconfigure": {"id": number, **amend.said}}
        self.answered(said, refused, lambda: self.amend(self.live[number], amend, True), anew=None if refused else number)

    def unconfigure(self, number: int) -> None:
        refused = first_of((self.configured(number) is None, error("no-such-subscription")))
        self.answered({"unconfigure": {"id": number}}, refused, lambda: self.end(number))

    # -- drawn

    def rule(self, name: str) -> Rule:
        rule = super().rule(name)
        if rule.operation is not None or self.draw.random() < 0.2:
            rule.path, rule.has_notification = None, False
            rule.operation = self.draw.choice(["*", *OPERATIONS])
            rule.module = self.draw.choice([rule.module, "ietf-yang-push", "ietf-subscribed-notifications"])
        return rule

    def drawn_number(self) -> int:
        draw = self.draw
        known = [*self.live] * 6 + [*self.taken] + [FIRST_ID + at for at in range(self.given)]
        return draw.choice([*known, 0, 1, 7, MOST_CONFIGURED, FIRST_ID, LAST_ID])

    def drawn_session(self, number: int) -> int:
        live = self.live.get(number)
        return live.receivers[0] if live and self.draw.random() < 0.8 else self.draw.randrange(len(self.desks))

    def drawn_amend(self) -> Amend:
        draw, amend = self.draw, Amend({})
        match draw.randrange(8):
            case 0:
                amend.said["datastore-xpath-filter"] = "/acme:ports"
                amend.is_unread = True
            case 1:
                amend.said["datastore-subtree-filter"] = self.faulty_filter()
                amend.is_unread = True
            case 2 | 3 | 4:
                amend.said["datastore-subtree-filter"] = amend.filter = self.some_filter()
                amend.has_filter = True
        match draw.randrange(6):
            case 0 | 1:
                amend.period = draw.choice([10, 10, 25, 100, 1_000, LAST_ID, 9])
                amend.said["periodic"] = {"period": amend.period}
                if draw.random() < 0.5:
                    amend.anchor = draw.randrange(-5_000, 200_000)
                    amend.said["periodic"]["anchor-time"] = at_tick(amend.anchor)
            case 2 | 3:
                amend.dampening = draw.choice([0, 0, 1, 10, 50, LAST_ID])
                amend.said["on-change"] = {"dampening-period": amend.dampening} if amend.dampening or draw.random() < 0.5 else {}
        return amend

    def drawn_ask(self) -> tuple[dict[str, Any], str | None, dict[str, Any] | None, Trigger]:
        asked, refusal, wanted, period, anchor = self.ask()
        trigger = Trigger(period, anchor)
        if not period:
            asked["on-change"], trigger = self.on_change()
        return asked, refusal, wanted, trigger

    def drawn_call(self) -> tuple[str, tuple[Any, ...]]:
        """A call, by its name, and what it is called with."""
        draw, number = self.draw, self.drawn_number()
        by = self.drawn_session(number)
        match draw.choices(range(8), [5, 4, 1, 2, 3, 3, 3, 1])[0]:
            case 0:
                return "establish", (draw.randrange(len(self.desks)), *self.drawn_ask())
            case 1:
                return "modify", (by, number, self.drawn_amend())
            case 2:
                return "delete", (by, number)
            case 3:
                return "kill", (draw.randrange(len(self.desks)), number)
            case 4:
                return "resync", (by, number)
            case 5:
                names = draw.sample(self.names, draw.randrange(1, len(self.names) + 1)) + ["zoe"] * (draw.random() < 0.1)
                return "configure", (draw.choice([1, 2, 3, 7, 7, MOST_CONFIGURED, number]), names, *self.drawn_ask())
            case 6:
                return "reconfigure", (number, self.drawn_amend())
            case _:
                return "unconfigure", (number,)

    def draw_call(self) -> None:
        call, arguments = self.drawn_call()
        getattr(self, call)(*arguments)

    def drawn(self) -> tuple[bytes, bytes]:
        for _ in range(COMMANDS):
            self.draw.choices([self.patch, self.give_policy, self.draw_call, self.tick, self.take], [7, 1, 6, 6, 4])[0]()
        return self.script(), self.report()


# ---- by hand

class Told(Living, Written):
    """A script that is written command by command, with one receiver, ann, whose queue has so many places."""

    def __init__(self, places: int, is_auto: bool = False) -> None:
        Living.__init__(self, 0)
        self.desks = [Desk("ann", places, is_auto)]

    def subscribed(self, trigger: Trigger, said: dict[str, Any]) -> None:
        self.establish(0, {"datastore": OPERATIONAL, **said}, None, None, trigger)

    def may_all(self) -> None:
        """A policy that is switched off: every call may be made."""
        self.policy = Policy(enabled=False)
        self.say(compact(self.policy.said()))
        self.after({0})


def amendment(words: list[str]) -> Amend:
    """'filter' is one that selects all mtus, 'every 20' a period, and 'dampening=5' a dampening period."""
    match words:
        case ["filter"]:
            wanted = {"acme:ports": {"port": [{"mtu": {}}]}}
            return Amend({"datastore-subtree-filter": wanted}, True, wanted)
        case ["every", period]:
            return Amend({"periodic": {"period": int(period)}}, period=int(period))
        case [word]:
            dampening = int(word.removeprefix("dampening="))
            return Amend({"on-change": {"dampening-period": dampening}}, dampening=dampening)
    return Amend({})


def live_by(run: Told, command: str) -> None:
    """The words of feed_cases.py, and those for calls: an established subscription is the first one, a configured one is 7."""
    word, *words = command.split()
    match word:
        case "modify":
            run.modify(0, FIRST_ID, amendment(words))
        case "delete":
            run.delete(0, FIRST_ID)
        case "kill":
            run.kill(0, FIRST_ID)
        case "resync":
            run.resync(0, FIRST_ID)
        case "configure":
            trigger, said = every(run, words) if words and words[0].isdigit() else on_change(words)
            run.configure(7, ["ann"], {"datastore": OPERATIONAL, **said}, None, None, trigger)
        case "reconfigure":
            run.reconfigure(7, amendment(words))
        case "unconfigure":
            run.unconfigure(7)
        case "may-all":
            run.may_all()
        case _:
            do(run, command)


SUSPENDED = ticks(1, 7)
CASES: list[tuple[str, int, str, str]] = [
    # configured subscriptions
    ("a configured subscription says that it started, and begins with a full update", 4, "configure; take 4", "started, update 1"),
    ("a configured periodic subscription is due as any other", 4, "tick 3; configure 10; tick 12; tick 13; take 4", "started, update 2, update 4"),
    ("a subscription that is reconfigured says so, and sends a full update", 8, "configure; reconfigure dampening=10; take 8",
     "started, update 1, modified, update 2"),
    ("a subscription that is unconfigured says that it ended", 8, "configure; unconfigure; patch eth0; take 8", "started, update 1, terminated"),
    ("a configured subscription comes before those that were established", 2, "on-change; take 1; configure; take 2; tick 1; patch eth0; take 2",
     "update 1, started, update 3, change 6, change 6"),
    ("what is reconfigured twice before it can be told is told once", 1,
     "configure; reconfigure dampening=1; reconfigure dampening=2; take 1; tick 1; take 1; tick 2; take 1", "started, full 1, modified, full 5, update 7"),
    ("a subscription that was reconfigured before it said that it started says both", 1,
     "on-change; delete; configure; reconfigure; take 1; tick 1; take 1; tick 2; take 1; tick 3; take 1",
     "update 1, full 3, started, full 6, modified, full 8, update 10"),
    ("a suspension leaves that a subscription started and has other terms to be told before it", 1,
     f"on-change; delete; configure; reconfigure; {SUSPENDED}; take 1; tick 8; take 1; tick 9; take 1; tick 10; take 1; tick 11; take 1; tick 12; take 1",
     f"update 1, full 3, {fulls(5, 11)}, started, full 13, modified, full 15, suspended, full 17, resumed, full 19, update 21"),
    ("a subscription offers all that it owes before the next one is asked", 3, "configure; on-change; reconfigure; hide mtu; take 3; tick 1; take 3",
     "started, update 1, update 2, full 3, full 4, modified, update 6, update 6"),
    ("without sync-on-start changes are counted anew after a reconfiguration", 8,
     "configure sync=no dampening=100; patch eth0; patch eth1; reconfigure dampening=0; patch eth2; take 8", "started, change 2, modified, change 5"),
    ("a reconfigured period is counted from the reconfiguration", 8, "configure 10; tick 5; reconfigure every 20; tick 10; tick 24; tick 25; take 8",
     "started, update 1, modified, update 3, update 6"),
    ("a reconfiguration drops what was set aside", 1,
     "configure; take 1; tick 1; patch eth0; many 256; reconfigure filter; take 1; tick 2; take 1; tick 3; take 1",
     "started, full 1, update 3, full 4, modified, full 8, update 10"),
    ("a record may be set aside before its subscription said that it started", 1,
     "on-change; delete; configure sync=no; many 257; take 1; tick 1; take 1; tick 2; take 1", "update 1, full 3, started, full 6, marked 4"),
    ("a record may be set aside while a modification is to be told, and comes after it", 1,
     "configure sync=no; reconfigure; many 257; take 1; tick 1; take 1; tick 2; take 1", "started, full 2, modified, full 5, marked 3"),
    ("a record that was set aside is sent also without an edit", 1,
     "configure sync=no exclude=create; reconfigure; many 257; take 1; tick 1; take 1; tick 2; take 1", "started, full 2, modified, full 5, marked 3"),
    # ends
    ("an end drops what was set aside", 1, "configure; take 1; tick 1; patch eth0; many 256; unconfigure; take 1; tick 2; take 1",
     "started, full 1, update 3, full 4, terminated"),
    ("a kill drops what was set aside", 1, "may-all; on-change; patch eth0; many 256; kill; take 1; tick 1; take 1", "update 2, full 3, terminated"),
    ("a subscription that ends sets nothing aside", 1, "configure sync=no; unconfigure; many 257; take 1; tick 1; take 1", "started, full 2, terminated"),
    ("an end waits for room in the queue", 1, "configure; unconfigure; take 1; tick 1; take 1; tick 2; take 1", "started, full 1, terminated"),
    ("a subscription that ends before it said that it started says both", 1,
     "on-change; configure; unconfigure; take 1; tick 1; take 1; tick 2; take 1", "update 1, full 2, started, full 5, terminated"),
    ("a subscription that ends says nothing of a change that was to be told", 1,
     "configure; take 1; tick 1; reconfigure dampening=1; unconfigure; take 1; tick 2; take 1", "started, full 1, update 3, full 4, terminated"),
    ("a suspended subscription that is unconfigured tells its end alone", 1, f"configure; {SUSPENDED}; unconfigure; take 1; tick 8; take 1",
     "started, full 1, full 2, full 3, full 4, full 5, full 6, full 7, full 8, terminated"),
    ("eight full queues don't suspend a subscription that ends", 1,
     f"configure; unconfigure; {SUSPENDED}; tick 8; tick 9; take 1; tick 10; take 1",
     "started, full 1, full 3, full 4, full 5, full 6, full 7, full 8, full 9, full 10, full 11, terminated"),
    ("changed rules don't concern a subscription that ends", 1, "configure; unconfigure; hide mtu; take 1; tick 1; take 1", "started, full 1, terminated"),
    ("a subscription that is killed says that it ended", 8, "may-all; on-change; kill; patch eth0; take 8", "update 2, terminated"),
    ("a subscription that is deleted says nothing more", 8, "on-change; delete; patch eth0; take 8", "update 1"),
    ("what was queued before a deletion is still taken", 8, "on-change; patch eth0; delete; take 8", "update 1, change 2"),
    ("what is owed at a deletion is not sent", 1, "on-change; patch eth0; delete; take 1; tick 1; take 1", "update 1, full 2"),
    ("a kill is told to a receiver whose queue was full", 1, "may-all; on-change; patch eth0; kill; take 1; tick 1; take 1", "update 2, full 3, terminated"),
    # modifications
    ("a modification sends a full update, and nothing says so", 8, "on-change; modify dampening=5; take 8", "update 1, update 2"),
    ("a modification without terms sends a full update", 8, "on-change; modify; take 8", "update 1, update 2"),
    ("without sync-on-start nothing is sent at a modification, and changes are counted anew", 8,
     "on-change sync=no dampening=100; patch eth0; patch eth1; modify dampening=0; patch eth2; take 8", "change 2, change 5"),
    ("a modified filter selects from the modification on", 8, "patch eth0; on-change; modify filter; patch eth1; take 8", "update 2, update 3, change 4"),
    ("a modified dampening period is counted from the last record", 8,
     "on-change sync=no dampening=100; patch eth0; modify dampening=10; patch eth1; tick 9; tick 10; take 8", "change 2, change 6"),
    ("a modified period is counted from the modification", 8, "every 10; tick 5; modify every 20; tick 10; tick 24; tick 25; take 8",
     "update 1, update 3, update 6"),
    ("a kept period keeps its anchor", 8, "tick 3; every 10; tick 5; modify filter; tick 12; tick 13; take 8", "update 2, update 4, update 6"),
    ("a full update at a due tick stands for the periodic one", 8, "every 10; tick 10; modify filter; tick 20; take 8",
     "update 1, update 2, update 3, update 4"),
    ("what is set aside doesn't wait for the dampening period", 1,
     "on-change sync=no; patch eth0; patch eth1; modify dampening=100; many 257; take 1; tick 1; take 1", "change 2, full 3, marked 5"),
    ("a modification doesn't set the count of full queues back", 1,
     "on-change; patch eth0; tick 1; tick 2; tick 3; tick 4; tick 5; modify dampening=1; tick 6; tick 7; take 1; tick 8; take 1",
     "update 1, full 2, full 3, full 4, full 5, full 6, full 7, full 9, full 10, suspended, full 12"),
    ("a modification lets nothing be offered at the tick of a full queue", 1, "on-change; patch eth0; modify filter; take 1; tick 1; take 1",
     "update 1, full 2, update 5"),
    ("a modification drops what was set aside", 1, "on-change; patch eth0; many 256; modify dampening=0; take 1; tick 1; take 1; tick 2; take 1",
     "update 1, full 2, update 6"),
    ("a suspended subscription that is modified stays suspended until it can say that it goes on", 1,
     f"on-change; patch eth0; {SUSPENDED}; modify dampening=1; take 1; tick 8; take 1; tick 9; take 1; tick 10; take 1",
     "update 1, full 2, full 3, full 4, full 5, full 6, full 7, full 8, full 9, suspended, full 12, resumed, full 14, update 16"),
    # synchronisation
    ("a subscription that is synchronised again sends a full update at once", 8, "on-change dampening=100; patch eth0; resync; take 8", "update 1, update 3"),
    ("a synchronisation begins a dampening period", 8, "on-change dampening=10; tick 5; resync; patch eth0; tick 14; tick 15; take 8",
     "update 1, update 3, change 6"),
    ("a synchronisation doesn't set the count of full queues back", 1,
     f"on-change; patch eth0; {ticks(1, 5)}; resync; tick 6; tick 7; take 1; tick 8; take 1",
     f"update 1, {fulls(2, 7)}, full 9, full 10, suspended, full 12"),
    ("a synchronisation lets nothing be offered at the tick of a full queue", 1, "on-change; patch eth0; resync; take 1; tick 1; take 1",
     "update 1, full 2, update 5"),
    ("a synchronisation leaves that a suspension is to be told", 1,
     f"on-change; patch eth0; {SUSPENDED}; resync; take 1; tick 8; take 1; tick 9; take 1; tick 10; take 1",
     f"update 1, {fulls(2, 9)}, suspended, full 12, resumed, full 14, update 16"),
    ("a synchronisation drops what was set aside", 1, "on-change; patch eth0; many 256; resync; take 1; tick 1; take 1; tick 2; take 1",
     "update 1, full 2, update 6"),
]


def rule_cases() -> Iterator[tuple[str, bytes, Wanted]]:
    for name, places, commands, events in CASES:
        run = Told(places)
        for command in commands.split("; "):
            live_by(run, command)
        assert offered(run) == events, (name, offered(run), events)
        yield name, run.script(), run.report()


# ---- refusals

ON_CHANGE, PERIODIC = {"on-change": {}}, {"periodic": {"period": 10}}
DENIED, NO_SUCH, NO_RESYNC = '{"error":"access-denied"}', '{"error":"no-such-subscription"}', '{"error":"no-such-subscription-resync"}'
NO_FILTER, TOO_SHORT = '{"error":"filter-unsupported"}', '{"error":"period-unsupported","period-hint":10}'
NO_TRIGGER, NO_ID, NO_RECEIVER = (compact({"error": "invalid-value", "member": member}) for member in ("trigger", "id", "receiver"))
BAD_FILTER, SHORT = {"datastore-xpath-filter": "/"}, {"periodic": {"period": 9}}


def asking(**members: Any) -> dict[str, Any]:
    return {"datastore": OPERATIONAL, **{name.replace("_", "-"): value for name, value in members.items()}}


# Each command's name, what it says, and the reply to it, where ann has a subscription on change and a periodic one,
# and 7 is configured for ann and bob. Where several reasons hold, the first one in order is answered.
REFUSALS: list[tuple[str, dict[str, Any], str]] = [
    ("kill", {"by": "ann", "id": FIRST_ID}, DENIED),
    ("kill", {"by": "ann", "id": 9}, DENIED),
    ("modify", {"by": "bob", "id": FIRST_ID}, NO_SUCH),
    ("modify", {"by": "ann", "id": 7}, NO_SUCH),
    ("modify", {"by": "bob", "id": 9, **BAD_FILTER, **SHORT}, NO_FILTER),
    ("modify", {"by": "bob", "id": 9, **SHORT}, TOO_SHORT),
    ("modify", {"by": "bob", "id": FIRST_ID, **PERIODIC}, NO_SUCH),
    ("modify", {"by": "ann", "id": FIRST_ID, **PERIODIC}, NO_TRIGGER),
    ("modify", {"by": "ann", "id": FIRST_ID, **SHORT}, TOO_SHORT),
    ("modify", {"by": "ann", "id": FIRST_ID + 1, **ON_CHANGE}, NO_TRIGGER),
    ("delete", {"by": "bob", "id": FIRST_ID}, NO_SUCH),
    ("delete", {"by": "ann", "id": 7}, NO_SUCH),
    ("delete", {"by": "ann", "id": FIRST_ID + 2}, NO_SUCH),
    ("resync", {"by": "bob", "id": FIRST_ID}, NO_RESYNC),
    ("resync", {"by": "ann", "id": 7}, NO_RESYNC),
    ("resync", {"by": "ann", "id": FIRST_ID + 1}, '{"error":"on-change-sync-unsupported"}'),
    ("configure", {"id": 0, "receivers": ["ann"], **asking(encoding="encode-xml", **ON_CHANGE)}, '{"error":"encoding-unsupported"}'),
    ("configure", {"id": 0, "receivers": ["ann"], "datastore": "x", **BAD_FILTER, **ON_CHANGE}, '{"error":"datastore-not-subscribable"}'),
    ("configure", {"id": 0, "receivers": ["zoe"], **asking(**BAD_FILTER, **SHORT)}, NO_FILTER),
    ("configure", {"id": 0, "receivers": ["zoe"], **asking(**SHORT)}, TOO_SHORT),
    ("configure", {"id": 0, "receivers": ["zoe"], **asking(**ON_CHANGE)}, NO_ID),
    ("configure", {"id": FIRST_ID, "receivers": ["ann"], **asking(**ON_CHANGE)}, NO_ID),
    ("configure", {"id": LAST_ID, "receivers": ["ann"], **asking(**ON_CHANGE)}, NO_ID),
    ("configure", {"id": 7, "receivers": ["zoe"], **asking(**ON_CHANGE)}, NO_ID),
    ("configure", {"id": 8, "receivers": ["ann", "zoe"], **asking(**ON_CHANGE)}, NO_RECEIVER),
    ("configure", {"id": 8, "receivers": ["no name"], **asking(**ON_CHANGE)}, NO_RECEIVER),
    ("reconfigure", {"id": 8, **BAD_FILTER, **SHORT}, NO_FILTER),
    ("reconfigure", {"id": 8, **SHORT}, TOO_SHORT),
    ("reconfigure", {"id": 8, **PERIODIC}, NO_SUCH),
    ("reconfigure", {"id": FIRST_ID}, NO_SUCH),
    ("reconfigure", {"id": 7, **PERIODIC}, NO_TRIGGER),
    ("unconfigure", {"id": FIRST_ID}, NO_SUCH),
    ("unconfigure", {"id": 8}, NO_SUCH),
]


class Refusing(Living):
    """A script of refused commands, with receivers of these names."""

    def __init__(self, names: list[str], places: int = 32) -> None:
        super().__init__(0)
        self.desks = [Desk(name, places, True) for name in names]

    def user(self, receiver: int) -> str:
        return self.names[receiver]

    def want(self, receiver: int) -> Rows:
        return self.rows

    def opened(self) -> None:
        """A subscription on change and a periodic one of the first receiver, and one that is configured for two."""
        self.establish(0, asking(**ON_CHANGE), None, None, Trigger())
        self.establish(0, asking(**PERIODIC), None, None, Trigger(10))
        self.configure(7, self.names[:2], asking(**ON_CHANGE), None, None, Trigger())

    def refused(self, call: str, said: dict[str, Any], answer: str) -> None:
        self.say(compact({call: said}), answer)
        self.after()


def refusal_cases() -> Iterator[tuple[str, bytes, Wanted]]:
    """Each refusal alone, and all in one script, which changes nothing."""
    together = Refusing(["ann", "bob"])
    together.opened()
    for call, said, answer in REFUSALS:
        alone = Refusing(["ann", "bob"])
        alone.opened()
        for run in (alone, together):
            run.refused(call, said, answer)
        yield f"{call} {compact(said)} is refused", alone.script(), alone.report()
    yield "refusals change nothing", together.script(), together.report()
    run = Refusing(["ann", "bob"])
    run.opened()
    run.unconfigure(7)
    for number in (7, 8):
        run.configure(number, ["ann"], asking(**ON_CHANGE), None, None, Trigger())
    yield "a configured id is given once", run.script(), run.report()


# ---- all pairs

STATES = {
    "new": "on-change", "without sync-on-start": "on-change sync=no", "periodic": "every 10", "with changes to tell": "on-change dampening=9; patch eth0",
    "after a full queue": "on-change; patch eth0", "with a record set aside": "on-change; patch eth0; many 256",
    "suspended": f"on-change; patch eth0; {SUSPENDED}", "resuming": f"on-change; patch eth0; {SUSPENDED}; take 1; tick 8",
    "deleted": "on-change; delete", "killed": "may-all; on-change; kill", "killed and not told": "may-all; on-change; patch eth0; kill",
    "configured": "configure", "configured and not told": "on-change; configure", "reconfigured and not told": "configure; reconfigure dampening=1",
    "unconfigured": "configure; take 1; tick 1; take 1; tick 2; unconfigure", "unconfigured and not told": "configure; unconfigure"}
CALLS = ["modify", "modify filter", "modify dampening=3", "modify every 20", "delete", "kill", "may-all; kill", "resync", "configure", "configure 10",
         "reconfigure filter", "reconfigure dampening=3", "reconfigure every 20", "unconfigure", "hide mtu", "patch eth1", "tick 90"]


def pair_cases() -> Iterator[tuple[str, bytes, Wanted]]:
    """Each call where a subscription is in each state, and what is sent until nothing is left."""
    ending = "; ".join(f"take 1; tick {tick}" for tick in range(100, 108))
    for (state, before), call in itertools.product(STATES.items(), CALLS):
        run = Told(1)
        for command in f"{before}; {call}; take 1; patch eth2; {ending}".split("; "):
            live_by(run, command)
        yield f"{call}, {state}", run.script(), run.report()


def everyone(is_open: bool) -> tuple[bytes, bytes]:
    """Every call of every session about every id."""
    run = Refusing(USERS)
    if is_open:
        run.policy = Policy(enabled=False)
        run.say(compact(run.policy.said()))
        run.after()
    run.opened()
    numbers = [0, 1, 7, MOST_CONFIGURED, FIRST_ID, FIRST_ID + 1, FIRST_ID + 2, LAST_ID]
    for call in (run.resync, lambda by, number: run.modify(by, number, Amend({})), run.kill, run.delete):
        for by, number in itertools.product(range(len(USERS)), numbers):
            call(by, number)
        run.opened()
    for number in numbers:
        run.reconfigure(number, Amend({}))
    for number in numbers:
        run.unconfigure(number)
    return run.script(), run.report()


# ---- limits

def most_configured() -> tuple[bytes, bytes]:
    """Sixteen subscriptions of sixteen receivers are as many feeds as may be live; one that ends makes room."""
    run = Refusing([f"r{number}" for number in range(16)])
    for number in range(1, 18):
        run.configure(number, run.names, asking(**ON_CHANGE), None, None, Trigger())
    run.establish(0, asking(**ON_CHANGE), None, None, Trigger())
    run.unconfigure(3)
    run.configure(18, run.names[1:], asking(**ON_CHANGE), None, None, Trigger())
    run.establish(0, asking(**ON_CHANGE), None, None, Trigger())
    run.configure(19, run.names[:1], asking(**ON_CHANGE), None, None, Trigger())
    return run.script(), run.report()


def many_modifications(count: int) -> tuple[bytes, bytes]:
    """The same subscription modified so many times."""
    run = Told(1)
    run.subscribed(Trigger(sync=False), {"on-change": {"sync-on-start": False}})
    answers = [run.replies]
    run.replies = ""
    for number in range(count):
        run.modify(0, FIRST_ID, amendment(["filter"] if number % 2 else [f"dampening={number % 7}"]))
        answers.append(run.replies)
        run.replies = ""
    return run.script(), "".join(answers).encode() + run.report()


def lifetime_cases() -> Iterator[tuple[str, bytes, Wanted]]:
    """A name, a script, and its report."""
    for seed in range(SCRIPTS):
        yield f"lives {seed}", *Living(seed).drawn()
    yield from rule_cases()
    yield from refusal_cases()
    yield from pair_cases()
    for is_open in (False, True):
        yield f"every call of every session about every id, {'all' if is_open else 'some'} of them permitted", *everyone(is_open)
    yield "256 feeds of configured subscriptions, and more", *most_configured()
    yield "50,000 modifications of one subscription", *many_modifications(50_000)
