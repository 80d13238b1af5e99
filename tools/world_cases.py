#!/usr/bin/env python3
"""Lists of events on a world of a journal, workers and receivers, drawn, each with what every event comes to.

    world_cases.py            writes the cases, as crates/world_cases reads them
    world_cases.py PROGRAM    runs that program on them, and prints what differs, if anything does

A case has the commands of a script, a number of workers, and events in any order: the next command is appended to the
journal, a worker absorbs the next entry or offers something, a receiver takes something. What each comes to is worked
out by a model for each worker, which is told of each entry that this worker absorbs: the models of lifetime_cases.py
and queue_cases.py, in which each feed keeps all selections since its base and a record is made of them afresh. It
shares no code with the program and never runs it. The cases are the same each time.
"""

from __future__ import annotations

import pathlib
import random
import subprocess
import sys
from collections.abc import Iterator
from dataclasses import dataclass
from typing import Any

from access_cases import USERS, Path, Policy, Rows, schema_line, target
from large_cases import START, compact, refused
from lifetime_cases import Living
from queue_cases import Desk, Feed, Packet, Trigger
from subscription_cases import OPERATIONAL

CASES = 2_000
MOST_U32, MANY = 4_294_967_295, 260
Event = str | list[Any]


@dataclass
class Command:
    """A command, by its name in the models, and what it is made with there."""

    name: str
    arguments: tuple[Any, ...]

    def make(self, model: Follower) -> None:
        getattr(model, self.name)(*self.arguments)


class Follower(Living):
    """A model that follows a journal, with the feeds of some receivers."""

    def __init__(self, desks: list[Desk], mine: set[int], seen: dict[Any, Any]) -> None:
        super().__init__(0)
        self.desks, self.mine, self.seen = desks, mine, seen
        self.line = self.answer = ""

    def say(self, command: str, answer: str = '{"ok":true}') -> None:
        self.position += 1
        self.line, self.answer = command, answer

    def after(self, ruled: set[int] = frozenset(), started: list[Feed] | None = None, anew: int | None = None) -> None:
        """What a position makes of the feeds. Nothing is offered but by an event."""
        self.absorb(ruled, [feed for feed in started or [] if feed.receiver in self.mine], anew)

    def next_offer(self) -> tuple[Feed, str] | None:
        """The first feed that offers something, with what it offers."""
        return next(((feed, item) for feed in self.queued if (item := feed.item(self.now))), None)

    # -- what is selected, which is kept with what it is of, since several models ask for the same

    def want(self, receiver: int) -> Rows:
        known, policy = self.seen.setdefault((id(self.policy), receiver), ({}, self.policy))
        for path in self.rows:
            if path not in known:
                known[path] = policy.reads(USERS[receiver], path)
        return {path: value for path, value in self.rows.items() if known[path]}

    def selection(self, receiver: int, wanted: dict[str, Any] | None) -> Rows:
        key = id(self.rows), id(self.policy), receiver, id(wanted)
        if key not in self.seen:
            self.seen[key] = super().selection(receiver, wanted), self.rows, self.policy, wanted
        return self.seen[key][0]

    # -- commands that are about no subscription

    def patched(self, edits: list[Any], rows: Rows, answer: str) -> None:
        """A patch that leaves these rows."""
        self.rows = rows
        self.say(compact({"patch": {"ietf-yang-patch:yang-patch": {"patch-id": "p", "edit": edits}}}), answer)
        self.after()

    def ruled(self, policy: Policy) -> None:
        old, self.policy = self.policy, policy
        self.say(compact(policy.said()))
        self.after({receiver for receiver, user in enumerate(USERS) if old.own_rules(user) != policy.own_rules(user)})

    def ticked(self, said: int) -> None:
        self.now = max(self.now, said)
        self.say(compact({"tick": said}))
        self.after()

    def takes(self, name: str, count: int) -> None:
        """A command that takes is an entry as any other: in the world only an event takes."""
        self.say(compact({"take": {"receiver": name, "count": count}}))
        self.after()


class Writer(Follower):
    """The model of the journal itself, which draws the commands."""

    def __init__(self, seed: int, desks: list[Desk]) -> None:
        super().__init__(desks, set(), {})
        self.draw = random.Random(seed)
        self.has_many = all(desk.places < 3 for desk in desks) and self.draw.random() < 0.25
        self.weights = self.draw.choice([[7, 1, 6, 6, 1], [12, 0, 3, 6, 0], [6, 3, 6, 3, 1], [5, 0, 1, 10, 0], [4, 1, 10, 4, 0]])
        self.opening = self.draw.choice([1, 2, 3, 5])

    def drawn_ask(self) -> tuple[dict[str, Any], str | None, dict[str, Any] | None, Trigger]:
        """Mostly what isn't refused, on change, by a filter that changes decide on or without one."""
        if self.draw.random() < 0.4:
            return super().drawn_ask()
        wanted = None if self.has_many or self.draw.random() < 0.5 else self.telling_filter()
        said, trigger = self.on_change() if self.draw.random() < 0.6 else ({}, Trigger())
        chosen = {} if wanted is None else {"datastore-subtree-filter": wanted}
        return {"datastore": OPERATIONAL, **chosen, "on-change": said}, None, wanted, trigger

    def drawn_policy(self) -> Policy:
        match self.draw.randrange(6):
            case 0:
                return Policy(enabled=False)
            case 1:
                return Policy()
        return super().drawn_policy()

    def drawn_sort(self) -> str:
        if self.opening > 0:
            self.opening -= 1
            return "start"
        return self.draw.choices(["patch", "policy", "call", "tick", "take"], self.weights if self.live else [4, 0, 12, 1, 0])[0]

    def drawn_command(self, sort: str | None) -> Command:
        """A command of this sort, or of any."""
        draw = self.draw
        match sort or self.drawn_sort():
            case "start":
                return self.drawn_start()
            case "patch":
                return self.many() if self.has_many and draw.random() < 0.1 else self.drawn_patch()
            case "many":
                return self.many()
            case "policy":
                return Command("ruled", (self.drawn_policy(),))
            case "call":
                return self.apt_call() if self.live and draw.random() < 0.4 else Command(*self.drawn_call())
            case "take" if waiting := [desk.name for desk in self.desks if not desk.is_auto]:
                return Command("takes", (draw.choice(waiting), draw.choice([1, 2, 32])))
        return self.drawn_tick()

    def drawn_tick(self) -> Command:
        step = self.draw.choice([0, 0, 1, 5, 10, 10, 37, 100, 1_000])
        return Command("ticked", (max(0, self.now + step - self.draw.choice([0, 0, 0, 20])),))

    def drawn_start(self) -> Command:
        """A subscription that starts, or is refused."""
        asked = self.drawn_ask()
        if self.draw.random() < 0.8:
            return Command("establish", (self.draw.randrange(len(self.desks)), *asked))
        names = self.draw.sample(self.names, self.draw.randrange(1, len(self.names) + 1))
        return Command("configure", (self.draw.randrange(1, 9), names, *asked))

    def apt_call(self) -> Command:
        """A call about a live subscription, by one who may make it."""
        live = self.draw.choice([*self.live.values()])
        if live.is_configured:
            return self.draw.choice([Command("reconfigure", (live.number, self.drawn_amend())), Command("unconfigure", (live.number,))])
        own = live.receivers[0], live.number
        call = self.draw.choice(["modify", "modify", "resync", "kill", "kill", "delete"])
        return Command(call, (*own, self.drawn_amend()) if call == "modify" else own)

    def drawn_patch(self) -> Command:
        """A patch of one edit or several, now and then with one that is refused at its end."""
        before, edits = self.rows, []
        for number in range(self.draw.choice([1, 1, 1, 2, 3])):
            edit, self.rows = self.edit()
            edits.append({**edit, "edit-id": str(number)})
        after, self.rows = self.rows, before
        missing: Path = self.entry()
        if self.draw.random() < 0.1 and missing not in after:
            edits.append({"edit-id": "last", "operation": "delete", "target": target(missing)})
            return Command("patched", (edits, before, refused("last", "data-missing")))
        return Command("patched", (edits, after, '{"ok":true}'))

    def many(self) -> Command:
        """A patch that gives more ports another mtu than a record that is set aside may have places."""
        mtu, rows, edits = self.draw.randrange(1, 5), {**self.rows}, []
        for number in range(MANY):
            name = f"p{number}"
            at: Path = (("acme:ports", ()), ("port", (name,)))
            rows |= {at: True, (*at, ("mtu", ())): mtu}
            value = {"acme:port": [{"name": name, "mtu": mtu}]}
            edits.append({"edit-id": str(number), "operation": "merge", "target": f"/acme:ports/port={name}", "value": value})
        return Command("patched", (edits, rows, '{"ok":true}'))


class World:
    """A world with its events, drawn one after another, and what each comes to."""

    def __init__(self, seed: int) -> None:
        self.draw = draw = random.Random(f"world {seed}")
        self.desks = [
            Desk(user, draw.choice([1, 1, 2, 3, 8, 32]), draw.random() < 0.3) for user in USERS[:draw.choice([1, 2, 2, 3, 4])]]
        self.writer = Writer(seed, self.desks)
        workers = draw.randrange(1, 5)
        self.workers = [
            Follower(self.desks, {receiver for receiver in range(len(self.desks)) if receiver % workers == worker}, self.writer.seen)
            for worker in range(workers)]
        self.queues: list[list[Packet]] = [[] for _ in self.desks]
        self.most = 60 if self.writer.has_many else draw.choice([6, 20, 40, 60])
        self.journal: list[Command] = []
        self.lines: list[str] = []
        self.events: list[Event] = []
        self.told: list[str] = []
        self.sort: str | None = None

    # -- events

    def write(self) -> None:
        """The next line of the script."""
        command = self.writer.drawn_command(self.sort)
        command.make(self.writer)
        self.journal.append(command)
        self.lines.append(self.writer.line)

    def append(self) -> str:
        if len(self.journal) == self.most:
            return "nothing"
        self.write()
        return f"appended {self.writer.answer}"

    def absorb(self, number: int) -> str:
        worker = self.workers[number] if number < len(self.workers) else None
        if worker is None or worker.next_offer() or worker.position == len(self.journal):
            return "nothing"
        self.journal[worker.position].make(worker)
        return f"absorbed {worker.position}"

    def offer(self, number: int) -> str:
        worker = self.workers[number] if number < len(self.workers) else None
        found = worker.next_offer() if worker else None
        if worker is None or found is None:
            return "nothing"
        feed, item = found
        receiver = feed.receiver
        packet = feed.packet(item, worker.position, worker.now)
        is_accepted = len(self.queues[receiver]) < self.desks[receiver].places
        if is_accepted:
            self.queues[receiver].append(packet)
        worker.settle(feed, item, is_accepted)
        return f"took {receiver} {worker.position}" if is_accepted else f"full {receiver} {feed.number} {worker.position}"

    def take(self, receiver: int) -> str:
        if receiver >= len(self.queues) or not self.queues[receiver]:
            return "nothing"
        return f"taken {self.queues[receiver].pop(0).line}"

    def do(self, event: Event) -> str:
        match event:
            case "append":
                comes = self.append()
            case ["absorb", int(number)]:
                comes = self.absorb(number)
            case ["offer", int(number)]:
                comes = self.offer(number)
            case ["take", int(number)]:
                comes = self.take(number)
            case _:
                raise ValueError(event)
        self.events.append(event)
        self.told.append(comes)
        return comes

    # -- drawing

    def number(self, count: int) -> int:
        """The number of a worker or a receiver, now and then one past the last."""
        return self.draw.choice([count, count + 1, MOST_U32]) if self.draw.random() < 0.03 else self.draw.randrange(count)

    def catch_up(self, worker: int, entries: int) -> None:
        """A worker offers what it has to offer and absorbs the next entry, so many times."""
        for _ in range(entries):
            self.offer_all(worker)
            if self.do(["absorb", worker]) == "nothing":
                return

    def offer_all(self, worker: int) -> None:
        while self.workers[worker].next_offer():
            self.do(["offer", worker])

    def in_turn(self, taking: float) -> None:
        """An entry is appended, some receivers take, and each worker absorbs it, if it absorbed all before, and offers."""
        if self.do("append") == "nothing":
            return
        for receiver in range(len(self.queues)):
            if self.queues[receiver] and self.draw.random() < taking:
                self.do(["take", receiver])
        for worker in range(len(self.workers)):
            self.do(["absorb", worker])
            self.offer_all(worker)

    def stall(self, ticks: int, takes: int) -> None:
        """All take one by one; then data change, the clock goes on and nobody takes, so that queues fill and stay so; and then all take again."""
        for worker in range(len(self.workers)):
            self.catch_up(worker, len(self.journal) + 1)
        for sort, count, taking in (("tick", takes, 1), ("patch", 3, 0), ("many", self.writer.has_many, 0), ("tick", ticks, 0), (None, 1, 0), ("tick", takes, 1)):
            self.sort = sort
            for _ in range(min(count, self.most - len(self.journal))):
                self.in_turn(taking)
        self.sort = None

    def mixed(self, count: int) -> None:
        """Events of all sorts, in any order."""
        draw = self.draw
        for _ in range(count):
            word = draw.choices(["append", "absorb", "offer", "take"], [2, 3, 3, 2])[0]
            self.do(word if word == "append" else [word, self.number(len(self.queues if word == "take" else self.workers))])

    def some(self, taking: float, diligent: list[int]) -> None:
        """Some events that belong together. Only diligent workers catch up by themselves."""
        draw = self.draw
        stalls = 2 if self.writer.has_many else 0.5
        match draw.choices(["burst", "catch up", "in turn", "stall", "mixed", "offers", "takes"], [2, 4, 3, stalls, 2, 1, 4 * taking])[0]:
            case "burst":
                for _ in range(draw.randrange(1, 7)):
                    self.do("append")
            case "catch up":
                self.catch_up(draw.choice(diligent), draw.randrange(1, 8))
            case "in turn":
                for _ in range(draw.choice([1, 1, 2, 4, 10])):
                    self.in_turn(taking)
            case "stall":
                self.stall(draw.choice([0, 2, 12, 16]), draw.choice([0, 3, 6]))
            case "mixed":
                self.mixed(draw.randrange(1, 12))
            case "offers":
                for _ in range(draw.randrange(1, 4)):
                    self.do(["offer", self.number(len(self.workers))])
            case _:
                for _ in range(draw.randrange(1, 5)):
                    self.do(["take", self.number(len(self.queues))])

    def drawn(self) -> World:
        draw, count = self.draw, len(self.workers)
        taking = draw.choice([0.05, 0.3, 0.6, 1.0])
        diligent = draw.sample(range(count), draw.randrange(1, count + 1))
        length = draw.choice([20, 60, 120, 160])
        spare = 3
        while len(self.events) < length and spare > 0:
            self.some(taking, diligent)
            spare -= len(self.journal) == self.most
        if draw.random() < 0.3:
            self.settle_all()
        if len(self.journal) < self.most:
            # some lines that are never appended
            for _ in range(draw.choice([0, 0, 0, 3])):
                self.write()
        return self

    def settle_all(self) -> None:
        """At last every worker absorbs everything, and every receiver takes everything."""
        for worker in range(len(self.workers)):
            self.catch_up(worker, len(self.journal) + 1)
        for receiver, queue in enumerate(self.queues):
            for _ in range(len(queue) + 1):
                self.do(["take", receiver])

    # -- texts

    def laned(self) -> list[str]:
        """The lines of the commands, now and then with some in the middle in lanes, whose lines interleave."""
        draw, lines = self.draw, self.lines
        if draw.random() < 0.8:
            return lines
        cuts = sorted(draw.randrange(len(lines) + 1) for _ in range(draw.randrange(2, 5)))
        lanes = [lines[first:last] for first, last in zip(cuts, cuts[1:])]
        left = [number for number, lane in enumerate(lanes, 1) for _ in lane]
        draw.shuffle(left)
        nexts = [iter(lane) for lane in lanes]
        middle = [f'{{"lane":{number},"do":{next(nexts[number - 1])}}}' for number in left]
        return [*lines[:cuts[0]], f'{{"lanes":{len(lanes)}}}', *middle, '{"join":true}', *lines[cuts[-1]:]]

    def case(self) -> str:
        receivers = [
            compact({"receiver": {"name": desk.name, "user": desk.name, "queue": desk.places, "take": "auto" if desk.is_auto else "command"}})
            for desk in self.desks]
        head = compact({"workers": len(self.workers), "events": self.events})
        return "\n".join([head, START.strip(), schema_line().strip(), *receivers, *self.laned()]) + "\n\n"


def worlds() -> Iterator[World]:
    for seed in range(CASES):
        yield World(seed).drawn()


def difference(seed: int, world: World, told: list[str]) -> str | None:
    """What is wrong with what the program told of a case, if anything is: what differs with companions, or from the model."""
    for line, apart in zip(told, told[1:]):
        if apart.startswith("differs "):
            return f"case {seed}: '{line[:300]}' {apart[:300]}"
    for number, (event, wanted) in enumerate(zip(world.events, world.told)):
        got = told[number] if number < len(told) else "the end"
        if got != wanted:
            return f"case {seed}, event {number + 1}, {compact(event)}: '{got[:300]}', not '{wanted[:300]}'"
    return None if len(told) == len(world.told) else f"case {seed}: {len(told)} lines, not {len(world.told)}"


def wrong_worlds(program: pathlib.Path) -> Iterator[str]:
    """The cases that differ when the program runs them, the first twenty, and how many they are."""
    drawn = [*worlds()]
    run = subprocess.run([str(program)], input="".join(world.case() for world in drawn).encode(), capture_output=True, check=False)
    told: list[list[str]] = [[]]
    for line in run.stdout.decode(errors="replace").splitlines():
        if line == "end":
            told.append([])
        else:
            told[-1].append(line)
    if run.returncode != 0 or len(told) != len(drawn) + 1 or told[-1]:
        yield f"world_cases.py: {len(told) - 1} of {len(drawn)} cases, status {run.returncode}: {run.stderr.decode(errors='replace').strip()[:500]}"
    differing = [found for seed, (world, lines) in enumerate(zip(drawn, told)) if (found := difference(seed, world, lines))]
    for found in differing[:20]:
        yield f"world_cases.py: {found}"
    if differing:
        yield f"world_cases.py: {len(differing)} of {len(drawn)} cases differ"


def main() -> int:
    if len(sys.argv) < 2:
        print("".join(world.case() for world in worlds()), end="")
        return 0
    wrong = [*wrong_worlds(pathlib.Path(sys.argv[1]))]
    print("\n".join(wrong or ["world_cases.py: no case differs"]))
    return 1 if wrong else 0


if __name__ == "__main__":
    sys.exit(main())
