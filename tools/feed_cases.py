"""Short scripts, one for each rule of feeds and queues, each with what its receiver is offered, worked out by hand.

A case has the name of its rule, the places of the queue of its one receiver, its commands, and what is offered, in
order. 'update 3' is a full update made at command 3, 'change 4' a change update and 'marked 4' an incomplete one with
this patch-id, 'full 5' a full queue at command 5; what stands in brackets is left in the queue. The report is that of
the model of queue_cases.py, which must offer just this. The rules of subscriptions that are modified, configured or
ended stand in lifetime_cases.py in the same form.
"""

from __future__ import annotations

from collections.abc import Iterator
from typing import Any

from access_cases import Policy, Rule
from large_cases import compact
from queue_cases import Trigger, Wanted, Written
from subscription_cases import at_tick


def fulls(first: int, last: int) -> str:
    """A full queue at each command from one to another."""
    return ", ".join(f"full {position}" for position in range(first, last + 1))


def ticks(first: int, last: int) -> str:
    """Each tick from one to another."""
    return "; ".join(f"tick {tick}" for tick in range(first, last + 1))


CASES: list[tuple[str, int, str, str]] = [
    # the start
    ("a subscription counts changes from its start", 8, "patch eth0; on-change sync=no; patch eth1; take 8", "change 3"),
    ("a subscription begins without a full queue, also at the tick of one", 1, "on-change; patch eth0; on-change; take 1; tick 1; take 1",
     "update 1, full 2, full 3, change 5, full 5"),
    ("a subscription on change begins with a full update", 1, "on-change; take 1", "update 1"),
    ("without sync-on-start nothing is sent at first", 1, "on-change sync=no; patch eth0; take 1", "change 2"),
    ("a periodic subscription without an anchor is due at once", 4, "tick 7; every 10; tick 16; tick 17; take 4", "update 2, update 4"),
    ("a periodic subscription is first due at the least multiple from its anchor that is not past", 4,
     "tick 7; every 10 from 3; tick 12; tick 13; take 4", "update 4"),
    ("multiples are counted back from an anchor that lies ahead", 4, "tick 7; every 10 from 25; tick 14; tick 15; take 4", "update 4"),
    ("a periodic subscription that starts at a due tick is due at once", 4, "tick 13; every 10 from 3; take 4", "update 2"),
    # offers
    ("what a change update told is not told again", 8, "on-change; patch eth0; tick 1; patch eth1; take 8", "update 1, change 2, change 4"),
    ("what a full update told is not told again", 8, "on-change dampening=10; patch eth0; hide mtu; tick 20; take 8", "update 1, update 3"),
    ("a periodic subscription is sent nothing between its due ticks", 8, "every 10; patch eth0; tick 9; tick 10; take 8", "update 1, update 4"),
    ("excluded kinds are left out of a record that has other edits", 8,
     "patch eth0; on-change dampening=10 exclude=create; patch eth1; patch eth0=2; tick 10; take 8", "update 2, change 5"),
    ("at the tick of a full queue changes without an edit are not counted anew", 1,
     "patch eth0; on-change exclude=delete; patch eth0=2; remove eth0; patch eth0=3; take 1; tick 1; take 1", "update 2, full 3, change 7"),
    ("what met a full queue is not offered again at its tick", 1, "on-change; patch eth0; patch eth1; tick 1; take 1; tick 2; take 1",
     "update 1, full 2, full 4, change 6"),
    ("a take at the tick of a full queue lets nothing be offered there", 1, "on-change; patch eth0; take 1; patch eth1", "update 1, full 2"),
    ("a take comes before what is offered at its position", 1, "on-change; tick 5; patch eth0; take 1; tick 6; patch eth1; take 1; patch eth2; tick 7; take 1",
     "update 1, full 3, change 5, full 6, change 9"),
    ("changes wait for the dampening period since the last update", 8,
     "on-change dampening=10; patch eth0; tick 9; tick 10; patch eth1; patch eth2; tick 19; tick 20; take 8", "update 1, change 4, change 8"),
    ("the dampening period is not counted from the first change", 8, "on-change dampening=10; tick 9; patch eth0; tick 10; take 8",
     "update 1, change 4"),
    ("a subscription without a record is due at once", 8, "on-change dampening=10 sync=no; patch eth0; patch eth1; take 8", "change 2"),
    ("a full queue begins no dampening period", 1, "on-change dampening=10; tick 10; patch eth0; take 1; tick 11; take 1",
     "update 1, full 3, change 5"),
    ("a record without edits is not offered, and changes are counted anew", 8,
     "on-change exclude=create; patch eth0; tick 1; patch eth0=2; take 8", "update 1, change 4"),
    ("several due ticks that one tick passed make one update", 8, "every 10; tick 55; tick 59; take 8", "update 1, update 2"),
    # full queues
    ("a periodic update that met a full queue is left out", 1, "every 10; tick 10; take 1; tick 19; tick 20; take 1", "update 1, full 2, update 5"),
    ("changes that met a full queue are sent as one update later", 1, "on-change; patch eth0; patch eth1; tick 1; take 1; tick 2; take 1",
     "update 1, full 2, full 4, change 6"),
    ("seven full queues in a row do not suspend", 1,
     "on-change; patch eth0; tick 1; tick 2; tick 3; tick 4; tick 5; tick 6; take 1; tick 7; take 1",
     "update 1, full 2, full 3, full 4, full 5, full 6, full 7, full 8, change 10"),
    ("eight full queues in a row suspend", 1,
     "on-change; patch eth0; tick 1; tick 2; tick 3; tick 4; tick 5; tick 6; tick 7; take 1; tick 8; take 1; tick 9; take 1; tick 10; take 1; tick 11; take 1",
     "update 1, full 2, full 3, full 4, full 5, full 6, full 7, full 8, full 9, suspended, full 11, resumed, full 13, update 15"),
    ("a suspended subscription offers what it owes together where there is room", 3,
     "on-change; patch a; patch b; patch c; tick 1; tick 2; tick 3; tick 4; tick 5; tick 6; tick 7; take 3; tick 8; take 3",
     "update 1, change 2, change 3, full 4, full 5, full 6, full 7, full 8, full 9, full 10, full 11, suspended, resumed, update 13"),
    ("a notification that is accepted sets the count of full queues back", 1,
     "on-change; patch a; tick 1; tick 2; tick 3; tick 4; tick 5; tick 6; take 1; tick 7; patch b; "
     "tick 8; tick 9; tick 10; tick 11; tick 12; tick 13; take 1; tick 14; take 1",
     "update 1, full 2, full 3, full 4, full 5, full 6, full 7, full 8, change 10, full 11, full 12, full 13, full 14, full 15, full 16, full 17, change 19"),
    ("eight commands at one tick are one full queue", 1,
     "on-change; patch a; patch b; patch c; patch d; patch e; patch f; patch g; patch h; tick 1; take 1; tick 2; take 1",
     "update 1, full 2, full 10, change 12"),
    ("without sync-on-start no full update follows a suspension, and changes are counted anew", 3,
     "on-change sync=no; patch a; patch b; patch c; patch d; tick 1; tick 2; tick 3; tick 4; tick 5; tick 6; tick 7; take 3; tick 8; patch e; take 3",
     "change 2, change 3, change 4, full 5, full 6, full 7, full 8, full 9, full 10, full 11, full 12, suspended, resumed, change 15"),
    ("the eighth full queue leaves a periodic update out too", 1,
     "every 10; tick 10; tick 20; tick 30; tick 40; tick 50; tick 60; tick 70; tick 80; take 1; tick 81; take 1; tick 82; take 1; tick 83; take 1; tick 90; take 1",
     "update 1, full 2, full 3, full 4, full 5, full 6, full 7, full 8, full 9, suspended, full 11, resumed, full 13, update 15, update 17"),
    ("each subscription counts its own full queues", 1,
     f"on-change; on-change; {ticks(1, 7)}; take 1; patch eth0; take 1; tick 8; take 1; tick 9; take 1; tick 10; take 1",
     f"update 1, {fulls(2, 9)}, change 11, suspended, full 13, resumed, full 15, update 17"),
    ("a subscription that is suspended is not suspended again", 1,
     f"on-change; patch a; {ticks(1, 17)}; take 1; tick 18; take 1; tick 19; take 1; tick 20; take 1",
     f"update 1, {fulls(2, 19)}, suspended, full 21, resumed, full 23, update 25"),
    ("a subscription that went on may be suspended again", 1,
     f"on-change; patch a; {ticks(1, 7)}; take 1; tick 8; take 1; tick 9; take 1; tick 10; patch b; {ticks(11, 17)}; take 1; tick 18; take 1",
     f"update 1, {fulls(2, 9)}, suspended, full 11, resumed, full 13, update 15, {fulls(16, 23)}, suspended, full 25"),
    # records that are set aside
    ("changes of 257 places that meet a full queue are set aside at once", 1, "on-change; many 257; take 1; tick 1; take 1; tick 2; take 1",
     "update 1, full 2, marked 2, full 4, update 6"),
    ("a periodic subscription sets nothing aside", 1, "every 10; tick 10; many 257; take 1; tick 20; take 1", "update 1, full 2, update 5"),
    ("while a full update is owed nothing is set aside", 1, "on-change; hide mtu; many 257; take 1; tick 1; take 1", "update 1, full 2, update 5"),
    ("while a suspension or its end is to be told nothing is set aside", 1,
     f"on-change sync=no; patch a; patch b; {ticks(1, 7)}; many 257; take 1; tick 8; take 1; tick 9; take 1",
     f"change 2, {fulls(3, 10)}, suspended, full 13, resumed"),
    ("while a record is set aside no other one is", 1, "on-change sync=no; patch a; patch b; many 256; many 300=2; take 1; tick 1; take 1; tick 2; take 1",
     "change 2, full 3, marked 4"),
    ("an incomplete update and the full one after it may go at one command", 2, "on-change; patch eth0; patch eth1; many 256; take 2; tick 1; take 2",
     "update 1, change 2, full 3, marked 4, update 6"),
    ("an incomplete update begins a dampening period", 1,
     "on-change sync=no dampening=10; patch eth0; tick 10; patch eth1; many 256; take 1; tick 11; take 1; patch eth2; tick 20; tick 21; take 1",
     "change 2, full 4, marked 5, change 11"),
    ("changes of 257 places are sent as they are where no queue was full", 4, "on-change; many 257; take 4", "update 1, change 2"),
    ("after a full queue changes of 256 places are sent as they are", 1, "on-change; patch eth0; many 255; tick 1; take 1; tick 2; take 1",
     "update 1, full 2, full 4, change 6"),
    ("after a full queue changes of 257 places are set aside and marked", 1,
     "on-change; patch eth0; many 256; take 1; tick 1; take 1; tick 2; take 1", "update 1, full 2, marked 3, full 5, update 7"),
    ("what changes after a record was set aside comes with the full update", 1,
     "on-change; patch eth0; many 256; patch late; take 1; tick 1; take 1; tick 2; take 1", "update 1, full 2, marked 3, full 6, update 8"),
    ("a record that is set aside is told as of the position where it was", 1,
     "on-change dampening=10; tick 10; patch eth0; many 256; take 1; tick 11; take 1; tick 12; take 1", "update 1, full 3, marked 4, full 6, update 8"),
    ("without sync-on-start changes are counted anew after an incomplete update", 1,
     "on-change sync=no; patch eth0; patch eth1; many 256; take 1; tick 1; patch eth2; take 1; tick 2; take 1",
     "change 2, full 3, marked 4, full 7, change 9"),
    ("a suspension drops what was set aside", 1,
     "on-change; patch eth0; tick 1; tick 2; tick 3; tick 4; tick 5; tick 6; many 256; tick 7; take 1; tick 8; take 1; tick 9; take 1; tick 10; take 1",
     "update 1, full 2, full 3, full 4, full 5, full 6, full 7, full 8, full 10, suspended, full 12, resumed, full 14, update 16"),
    # changed rules
    ("changed rules drop what was set aside", 1, "on-change; patch eth0; many 256; hide mtu; take 1; tick 1; take 1", "update 1, full 2, update 6"),
    ("without sync-on-start changes are counted anew after changed rules", 8,
     "on-change sync=no dampening=100; patch eth0; patch eth1; hide mtu; tick 100; patch eth2; take 8", "change 2, change 6"),
    ("a full update after changed rules begins a dampening period", 8,
     "on-change dampening=10; tick 5; hide mtu; patch eth0; tick 10; tick 15; take 8", "update 1, update 3, change 6"),
    ("changed rules send a periodic subscription a full update at once", 8, "every 10; tick 3; hide mtu; tick 10; take 8", "update 1, update 3, update 4"),
    ("changed rules concern each subscription of the user", 8, "on-change; every 10; hide mtu; take 8", "update 1, update 2, update 3, update 3"),
    ("changed rules leave that a suspension is to be told", 1,
     f"on-change; patch eth0; {ticks(1, 7)}; hide mtu; take 1; tick 8; take 1; tick 9; take 1; tick 10; take 1",
     f"update 1, {fulls(2, 9)}, suspended, full 12, resumed, full 14, update 16"),
    ("changed rules don't set the count of full queues back", 1, f"on-change; patch eth0; {ticks(1, 5)}; hide mtu; tick 6; tick 7; take 1; tick 8; take 1",
     f"update 1, {fulls(2, 7)}, full 9, full 10, suspended, full 12"),
    ("changed rules let nothing be offered at the tick of a full queue", 1, "on-change; patch eth0; hide mtu; take 1; tick 1; take 1",
     "update 1, full 2, update 5"),
    ("rules that change nothing for the user send nothing", 8, "on-change; hide mtu; hide mtu; take 8", "update 1, update 2"),
    # queues
    ("all subscriptions of a receiver share its queue", 1, "on-change; on-change; take 1; tick 1; take 1", "update 1, full 2, update 4"),
    ("subscriptions are asked in the order of their ids", 2, "on-change; every 10; patch eth0; take 2; tick 10; take 2",
     "update 1, update 2, full 3, change 5, update 5"),
    ("what is not taken is not shown", 2, "on-change; patch eth0", "(update 1), (change 2)"),
    ("the oldest is taken first", 3, "on-change; patch eth0; patch eth1; take 2", "update 1, change 2, (change 3)"),
    ("a change that was undone is told as it ends", 8, "patch eth0; on-change dampening=10; patch eth0=2; patch eth0=1; tick 10; take 8",
     "update 2, change 5"),
]

# The same with a receiver that takes each notification at once, whose queue has one place.
AT_ONCE: list[tuple[str, str, str]] = [
    ("the queue of an automatic receiver is never full", "on-change; patch eth0; patch eth1; every 10; hide mtu",
     "update 1, change 2, change 3, update 4, update 5, update 5"),
    ("an automatic receiver takes each of several updates of one command", "on-change; on-change; patch eth0", "update 1, update 2, change 3, change 3"),
]


def on_change(words: list[str]) -> tuple[Trigger, dict[str, Any]]:
    """A trigger on change, and what a line says of it."""
    said, trigger = {}, Trigger()
    for name, value in (word.split("=") for word in words):
        match name:
            case "dampening":
                said["dampening-period"] = trigger.dampening = int(value)
            case "sync":
                said["sync-on-start"] = trigger.sync = value != "no"
            case _:
                said["excluded-change"] = trigger.excluded = value.split("+")
    return trigger, {"on-change": said}


def every(run: Written, words: list[str]) -> tuple[Trigger, dict[str, Any]]:
    """A period, as '10', or as '10 from 3' with the tick of its anchor; and what a line says of it."""
    match words:
        case [period, "from", anchor]:
            return Trigger(int(period), int(anchor)), {"periodic": {"period": int(period), "anchor-time": at_tick(int(anchor))}}
    return Trigger(int(words[0]), run.now), {"periodic": {"period": int(words[0])}}


def hide(run: Written, leaf: str) -> None:
    """A policy by which ann may not read this leaf of any port."""
    rule = Rule("hidden", "deny", path=(("acme:ports", ()), ("port", (None,)), (leaf, ())))
    old, run.policy = run.policy, Policy(groups={"one": ["ann"]}, lists=[(["one"], [rule])])
    run.say(compact(run.policy.said()))
    run.after({0} if old.own_rules("ann") != run.policy.own_rules("ann") else set())


def do(run: Written, command: str) -> None:
    word, *words = command.split()
    match word:
        case "on-change":
            run.subscribed(*on_change(words))
        case "every":
            run.subscribed(*every(run, words))
        case "patch":
            name, _, mtu = words[0].partition("=")
            run.edited([name], int(mtu or 1))
        case "many":
            count, _, mtu = words[0].partition("=")
            run.edited([f"p{number}" for number in range(int(count))], int(mtu or 1))
        case "remove":
            run.removed(words[0])
        case "tick":
            run.to_tick(int(words[0]))
        case "take":
            run.takes(int(words[0]))
        case "hide":
            hide(run, words[0])


def offered(run: Written) -> str:
    """What the receiver was offered, in words. What is left in the queue stands in brackets."""
    found, left = [], run.desks[0].taken
    for offer in run.desks[0].offers:
        if isinstance(offer, str):
            found.append(f"full {offer.split()[-1]}")
            continue
        found.append(offer.words if left > 0 else f"({offer.words})")
        left -= 1
    return ", ".join(found)


def feed_cases() -> Iterator[tuple[str, bytes, Wanted]]:
    """A name, a script, and its report."""
    whole = [(name, Written(places), commands, events) for name, places, commands, events in CASES]
    whole += [(name, Written(1, True), commands, events) for name, commands, events in AT_ONCE]
    for name, run, commands, events in whole:
        for command in commands.split("; "):
            do(run, command)
        assert offered(run) == events, (name, offered(run), events)
        yield name, run.script(), run.report()
