"""Scripts at the limits, and with many commands, each with the report or the fault that the rules give.

They are made here since they are too large to be kept. No expected text comes of a run of the program.
"""

from __future__ import annotations

import json
from collections.abc import Iterator

Wanted = bytes | tuple[int, int]

START = '{"start":"2026-01-01T00:00:00Z"}\n'
SCHEMA = (
    '{"schema":[{"path":"/acme:interfaces","kind":"container"},'
    '{"path":"/acme:interfaces/interface","kind":"list","keys":["name"]},'
    '{"path":"/acme:interfaces/interface/name","kind":"leaf","type":"string"},'
    '{"path":"/acme:interfaces/interface/mtu","kind":"leaf","type":"uint16"},'
    '{"path":"/acme:interfaces/interface/enabled","kind":"leaf","type":"boolean"},'
    '{"path":"/acme:interfaces/interface/secret","kind":"leaf","type":"string","deny-all":true},'
    '{"path":"/acme:interfaces/interface/stats","kind":"container"},'
    '{"path":"/acme:interfaces/interface/stats/in","kind":"leaf","type":"uint64"}]}\n')
GROUPS = (
    '{"schema":[{"path":"/acme:groups","kind":"container"},'
    '{"path":"/acme:groups/group","kind":"list","keys":["id"]},'
    '{"path":"/acme:groups/group/id","kind":"leaf","type":"uint16"},'
    '{"path":"/acme:groups/group/member","kind":"leaf-list","type":"uint8"}]}\n')
TOO_LONG, NOT_JSON, MEMBER, IN_SCHEMA, IN_POLICY, LIMIT = 1, 2, 4, 5, 6, 9
FIRST_ID = 2_147_483_648


def receiver(name: str, user: str = "ann", queue: int = 4) -> str:
    return f'{{"receiver":{{"name":"{name}","user":"{user}","queue":{queue},"take":"auto"}}}}\n'


def establish(name: str = "r1") -> str:
    return f'{{"establish":{{"by":"{name}","datastore":"ietf-datastores:operational","on-change":{{}}}}}}\n'


def edit(number: str, operation: str, target: str, value: object = None) -> str:
    said = {"edit-id": number, "operation": operation, "target": target}
    return compact(said if value is None else {**said, "value": value})


def patch(*edits: str) -> str:
    return '{"patch":{"ietf-yang-patch:yang-patch":{"patch-id":"p","edit":[' + ",".join(edits) + "]}}}\n"


def compact(value: object) -> str:
    return json.dumps(value, separators=(",", ":"), ensure_ascii=False)


CREATE = patch(edit(
    "e", "create", "/acme:interfaces/interface=eth0", {"acme:interface": [{"name": "eth0", "mtu": 1500}]}))


def reply(position: int, answer: str = '{"ok":true}', lane: int = 0, number: int | None = None) -> str:
    return f"reply {position} {lane} {position if number is None else number} {answer}\n"


def given(number: int) -> str:
    return f'{{"id":{number}}}'


def refused(number: str, error: str) -> str:
    return f'{{"edit-id":"{number}","error":"{error}"}}'


def notification(name: str, time: str, sort: str, body: str) -> str:
    return f'to {name} {{"ietf-restconf:notification":{{"eventTime":"{time}","ietf-yang-push:{sort}":{body}}}}}\n'


def full(name: str, number: int, data: object, time: str = "2026-01-01T00:00:00.00Z") -> str:
    return notification(name, time, "push-update", compact({"datastore-contents": data, "id": number}))


def change(name: str, number: int, position: int, edits: list[object]) -> str:
    body = {"datastore-changes": {"yang-patch": {"edit": edits, "patch-id": str(position)}}, "id": number}
    return notification(name, "2026-01-01T00:00:00.00Z", "push-change-update", compact(body))


def tree(name: str, number: int, data: object) -> str:
    return f"tree {name} {number} {compact(data)}\n"


def subscribed(count: int = 1, data: object = None, *, before: str = "", past: int = 0) -> bytes:
    """The report where, after so many replies, r1 subscribes so many times, and nothing changes after that."""
    data = {} if data is None else data
    ids = [FIRST_ID + number for number in range(count)]
    replies = "".join(reply(past + at, given(number)) for at, number in enumerate(ids, 1))
    sent = "".join(full("r1", number, data) for number in ids)
    trees = "".join(tree("r1", number, data) for number in ids)
    return f"{before}{replies}{sent}{trees}end\n".encode()


def after_replies(report: bytes, more: str) -> bytes:
    """The report with one more reply after those that it has."""
    replies, sent, rest = report.decode().partition("to r1 ")
    return f"{replies}{more}{sent}{rest}".encode()


NOTHING = b"end\n"
ONE_REPLY = (reply(1) + "end\n").encode()


def long_lines() -> Iterator[tuple[str, bytes, Wanted]]:
    """A line has at most 65,536 bytes, unless it is blank; its line feed isn't one of them."""
    line = '{"tick":1}' + " " * 65_526
    for end in ("\n", ""):
        yield f"a line of 65536 bytes that ends with {end!r}", (START + SCHEMA + line + end).encode(), ONE_REPLY
    for more in ("\r\n", " \n", " ", "x\n", '{"tick":1}\n', "\u00e9\n"):
        yield f"a line of 65536 bytes and {more!r}", (START + SCHEMA + line + more).encode(), (3, TOO_LONG)
    blank = " \t" * 35_000
    yield (
        "blank lines of more bytes", f"{START}{blank}\r\n{SCHEMA}{blank}\n{CREATE}".encode(), ONE_REPLY)
    for said in ("x", "{}", '{"tick":"1"}', '{"patch":{}}', '{"tick":-1}', "\ufffd"):
        long = said + " " * 65_536 + "\n"
        yield f"{said} and blanks, as the first line", long.encode(), (1, TOO_LONG)
        yield f"{said} and blanks, as the third line", (START + SCHEMA + long).encode(), (3, TOO_LONG)


def many_lines() -> Iterator[tuple[str, bytes, Wanted]]:
    """A script has at most 100,000 lines and 67,108,864 bytes."""
    before = START + SCHEMA + receiver("r1")

    def lines(blanks: int, last: str) -> bytes:
        return (before + "\n" * blanks + last).encode()

    yield "100000 lines", lines(99_996, establish()), subscribed()
    for last in (establish(), "\n", " ", "x", "{}\n"):
        yield f"line 100001 is {last!r}", lines(99_997, last), (100_001, LIMIT)
    yield "line 100000 is no JSON", lines(99_996, "x\n\n"), (100_000, NOT_JSON)
    yield "line 100001 is too long", lines(99_997, "x" * 65_537), (100_001, LIMIT)
    yield "line 100000 is too long", lines(99_996, "x" * 65_537), (100_000, TOO_LONG)
    text = (START + SCHEMA).encode()
    for byte, wanted in ((b" ", NOTHING), (b"x", (3, TOO_LONG))):
        yield f"67108864 bytes, at last {byte!r}", text + byte * (67_108_864 - len(text)), wanted
        yield f"67108865 bytes, at last {byte!r}", text + byte * (67_108_865 - len(text)), (3, LIMIT)


def schema(paths: list[str]) -> str:
    return '{"schema":[' + ",".join(f'{{"path":"{path}","kind":"container"}}' for path in paths) + "]}\n"


def large_schemas() -> Iterator[tuple[str, bytes, Wanted]]:
    """A name has at most 64 bytes, a path 16 names, a schema 4,096 nodes."""
    for module, name, wanted in ((64, 64, NOTHING), (1, 65, (2, IN_SCHEMA)), (65, 1, (2, IN_SCHEMA))):
        line = schema([f"/{'m' * module}:{'n' * name}"])
        yield f"a module of {module} bytes and a name of {name}", (START + line + receiver("r1")).encode(), wanted
    for depth, wanted in ((16, NOTHING), (17, (2, IN_SCHEMA))):
        line = schema(["/acme:c" + "/c" * level for level in range(depth)])
        yield f"a path of {depth} names", (START + line + receiver("r1")).encode(), wanted
    parts = START + "".join(schema([f"/acme:c{part}.{number}" for number in range(1024)]) for part in range(4))
    yield "4096 nodes", (parts + '{"schema":[]}\n').encode(), NOTHING
    yield "4097 nodes", (parts + schema(["/acme:e"])).encode(), (6, IN_SCHEMA)


def policy(path: str) -> str:
    rule = {"name": "r", "path": path, "action": "permit"}
    return compact({"policy": {"ietf-netconf-acm:nacm": {"rule-list": [{"name": "l", "group": ["*"], "rule": [rule]}]}}}) + "\n"


def many_policies() -> Iterator[tuple[str, bytes, Wanted]]:
    """Policies over a schema of 4,096 nodes, which is compiled once."""
    parts = START + "".join(schema([f"/acme:c{part}.{number}" for number in range(1024)]) for part in range(4))
    many = parts + policy("/acme:c3.1023") * 5_000
    yield "5000 policies over 4096 nodes", many.encode(), ("".join(map(reply, range(1, 5_001))) + "end\n").encode()
    yield "a bad policy after 5000 good ones", (many + policy("/acme:e")).encode(), (5_006, IN_POLICY)


def many_receivers() -> Iterator[tuple[str, bytes, Wanted]]:
    """A name has 1 to 32 bytes, a user 1 to 64; there are at most 16 receivers and 256 subscriptions."""
    for name, user, wanted in (
            (1, 1, NOTHING), (32, 1, NOTHING), (1, 64, NOTHING), (32, 64, NOTHING),
            (0, 1, (3, MEMBER)), (1, 0, (3, MEMBER)), (33, 1, (3, MEMBER)), (1, 65, (3, MEMBER))):
        line = receiver("n" * name, "u" * user, 32)
        yield f"a receiver's name of {name} bytes and user of {user}", (START + SCHEMA + line).encode(), wanted
    sixteen = START + SCHEMA + "".join(receiver("n" * count, "u", 32) for count in range(1, 17))
    yield "16 receivers", sixteen.encode(), NOTHING
    yield "17 receivers", (sixteen + receiver("r1")).encode(), (19, LIMIT)
    yield "a receiver again after 16", (sixteen + receiver("n" * 16, "u", 32)).encode(), (19, MEMBER)
    many = START + SCHEMA + receiver("r1") + establish() * 256
    yield "256 subscriptions", many.encode(), subscribed(256)
    full_registry = '{"error":"insufficient-resources"}'
    yield "257 subscriptions", (many + establish()).encode(), after_replies(subscribed(256), reply(257, full_registry))
    laned = '{"lanes":1}\n{"lane":1,"do":' + establish().strip() + '}\n{"join":true}\n'
    wanted = after_replies(subscribed(256), reply(257, full_registry, lane=1, number=1))
    yield "257 subscriptions, the last in a lane", (many + laned).encode(), wanted


def long_keys() -> Iterator[tuple[str, bytes, Wanted]]:
    """A text has at most 256 bytes."""
    for count in (256, 257):
        key = "k" * count
        line = patch(edit("e", "create", f"/acme:interfaces/interface={key}", {"acme:interface": [{"name": key}]}))
        script = START + SCHEMA + receiver("r1") + line
        data = {"acme:interfaces": {"interface": [{"name": key}]}}
        if count == 256:
            yield "a key of 256 bytes", (script + establish()).encode(), subscribed(1, data, before=reply(1), past=1)
        else:
            wanted = (reply(1, refused("e", "invalid-value")) + "end\n").encode()
            yield "a key of 257 bytes", script.encode(), wanted


def wide_entry(count: int) -> tuple[str, bytes, Wanted]:
    """An entry of a list with so many keys, at most 700, which is read and written as any other."""
    names = [f"k{number}" for number in range(100, 100 + count)]
    leaves = "".join(f',{{"path":"/acme:box/wide/{name}","kind":"leaf","type":"uint16"}}' for name in names)
    nodes = f'{{"path":"/acme:box","kind":"container"}},{{"path":"/acme:box/wide","kind":"list","keys":{compact(names)}}}'
    data = {"acme:box": {"wide": [{name: number for number, name in enumerate(names, 100)}]}}
    script = START + f'{{"schema":[{nodes}{leaves}]}}\n' + receiver("r1") + patch(edit("e", "create", "/acme:box", data))
    return f"an entry of {count} keys", (script + establish()).encode(), subscribed(1, data, before=reply(1), past=1)


def wide_entries() -> Iterator[tuple[str, bytes, Wanted]]:
    """A list may have many keys."""
    yield wide_entry(700)


def groups(ids: list[int]) -> dict[str, object]:
    return {"acme:groups": {"group": [{"id": number} for number in ids]}}


def many_rows() -> Iterator[tuple[str, bytes, Wanted]]:
    """A datastore has at most 20,000 rows, after each edit."""
    filled = [{"id": number, "member": list(range(100))} for number in range(198)]

    def filling(*members: int) -> str:
        value = {"acme:groups": {"group": [*filled, {"id": 999, "member": list(members)}]}}
        return patch(edit("many", "create", "/acme:groups", value))

    before = START + GROUPS + receiver("r1")
    yield "20000 rows", (before + filling(7)).encode(), ONE_REPLY
    too_big = (reply(1, refused("many", "too-big")) + "end\n").encode()
    yield "20001 rows", (before + filling(7, 8)).encode(), too_big

    def member(number: str, operation: str, group: int, which: int) -> str:
        value = None if operation == "delete" else {"acme:member": [which]}
        return edit(number, operation, f"/acme:groups/group={group}/member={which}", value)

    at_limit = [
        patch(member("more", "create", 999, 8)),
        patch(member("same", "merge", 999, 7)),
        patch(member("old", "delete", 0, 99), member("new", "create", 999, 8)),
        patch(member("new", "create", 999, 9), member("old", "delete", 0, 98)),
        patch(
            member("less", "delete", 0, 98), member("full", "create", 0, 99),
            edit("over", "merge", "/acme:groups/group=998", {"acme:group": [{"id": 998}]})),
        patch(edit("few", "replace", "/acme:groups", groups([5])))]
    answers = [
        reply(1), reply(2, refused("more", "too-big")), reply(3), reply(4), reply(5, refused("new", "too-big")),
        reply(6, refused("over", "too-big")), reply(7)]
    script = before + filling(7) + "".join(at_limit) + establish()
    yield "patches among 20000 rows", script.encode(), subscribed(1, groups([5]), before="".join(answers), past=7)


def many_edits() -> Iterator[tuple[str, bytes, Wanted]]:
    """A refused edit after 500 good ones leaves nothing of them."""
    good = [edit(str(number), "create", f"/acme:groups/group={number}", {"acme:group": [{"id": number}]})
            for number in range(500)]
    before = START + GROUPS + receiver("r1")
    there = {"id": 1000, "member": [1]}
    first = patch(edit("e", "create", "/acme:groups/group=1000", {"acme:group": [there]}))
    refusals = [
        (edit("last", "create", "/acme:groups/group=1000", {"acme:group": [{"id": 1000}]}), "data-exists"),
        (edit("last", "delete", "/acme:groups/group=1001"), "data-missing"),
        (edit("last", "merge", "/acme:groups/group=1000", {"acme:group": [{"id": 1000, "member": [256]}]}), "invalid-value")]
    script = before + first + establish() + "".join(patch(*good, last) for last, _ in refusals) + establish()
    data = {"acme:groups": {"group": [there]}}
    ids = [FIRST_ID, FIRST_ID + 1]
    report = (
        reply(1) + reply(2, given(ids[0])) + "".join(reply(at, refused("last", why)) for at, (_, why) in enumerate(refusals, 3))
        + reply(6, given(ids[1])) + "".join(full("r1", number, data) for number in ids)
        + "".join(tree("r1", number, data) for number in ids) + "end\n")
    yield "a refused edit after 500 good ones", script.encode(), report.encode()
    kept = edit("last", "create", "/acme:groups/group=1001", {"acme:group": [{"id": 1001}]})
    script = before + patch(*good, refusals[1][0]) + patch(*good, kept) + establish()
    told = reply(1, refused("last", "data-missing")) + reply(2)
    yield "500 edits after their refusal", script.encode(), subscribed(1, groups([*range(500), 1001]), before=told, past=2)


def interface(number: int, mtu: int) -> dict[str, object]:
    return {"enabled": True, "mtu": mtu, "name": f"eth{number}"}


def interfaces(mtus: dict[int, int]) -> dict[str, object]:
    """The rows of these interfaces: the keys are texts, so they stand in the order of their bytes."""
    return {"acme:interfaces": {"interface": [interface(number, mtus[number]) for number in sorted(mtus, key=str)]}}


def busy_lanes() -> Iterator[tuple[str, bytes, Wanted]]:
    """Two lanes of 500 patches, the lines of the second before those of the first, and three receivers."""
    names = ["r1", "r2", "r3"]
    creations = [
        edit(str(number), "create", f"/acme:interfaces/interface=eth{number}",
             {"acme:interface": [{"name": f"eth{number}", "enabled": True, "mtu": 1500}]}) for number in range(64)]

    def line(lane: int, number: int, mtu: int) -> str:
        done = patch(edit("e", "replace", f"/acme:interfaces/interface=eth{number}/mtu", {"acme:mtu": mtu})).strip()
        return f'{{"lane":{lane},"do":{done}}}\n'

    lines = [line(2, 32 + n % 32, 1500 + n) + line(1, n % 32, 1500 + n) for n in range(1, 501)]
    script = (
        START + SCHEMA + "".join(map(receiver, names)) + patch(*creations) + "".join(map(establish, names))
        + '{"lanes":2}\n' + "".join(lines) + '{"join":true}\n{"tick":100000}\n')
    done = [(1, n, n % 32, 1500 + n) for n in range(1, 501)] + [(2, n, 32 + n % 32, 1500 + n) for n in range(1, 501)]
    ids = {name: FIRST_ID + at for at, name in enumerate(names)}
    report = reply(1) + "".join(reply(at, given(ids[name])) for at, name in enumerate(names, 2))
    report += "".join(reply(at, lane=lane, number=n) for at, (lane, n, _, _) in enumerate(done, 5)) + reply(1005, number=5)
    mtus = {number: 1500 for number in range(64)}
    before, after = interfaces(mtus), interfaces(mtus | {number: mtu for _, _, number, mtu in done})
    for name in names:
        report += full(name, ids[name], before)
        for at, (_, _, number, mtu) in enumerate(done, 5):
            target = f"/acme:interfaces/interface=eth{number}/mtu"
            told = {"edit-id": "1", "operation": "replace", "target": target, "value": {"acme:mtu": mtu}}
            report += change(name, ids[name], at, [told])
        report += tree(name, ids[name], after)
    yield "two busy lanes", script.encode(), (report + "end\n").encode()


def unmatched_entries() -> Iterator[tuple[str, bytes, Wanted]]:
    """64 subscriptions whose filter matches none of 5,000 entries, and 8,000 patches that change one each."""
    entries, feeds, patches = 5_000, 64, 8_000

    def creation(number: int) -> str:
        value = {"name": f"eth{number}", "enabled": False, "mtu": 1500, "stats": {"in": "0"}}
        return edit(str(number), "create", f"/acme:interfaces/interface=eth{number}", {"acme:interface": [value]})

    def counted(number: int) -> str:
        target = f"/acme:interfaces/interface=eth{number % entries}/stats/in"
        return f'{{"lane":1,"do":{patch(edit("e", "merge", target, {"acme:in": str(number)})).strip()}}}\n'

    created = "".join(patch(*map(creation, range(first, first + 100))) for first in range(0, entries, 100))
    wanted = compact({"acme:interfaces": {"interface": [{"enabled": True, "mtu": [None]}]}})
    asked = f'{{"establish":{{"by":"r1","datastore":"ietf-datastores:operational","datastore-subtree-filter":{wanted},"on-change":{{}}}}}}\n'
    lane = '{"lanes":1}\n' + "".join(map(counted, range(1, patches + 1))) + '{"join":true}\n'
    script = START + SCHEMA + receiver("r1") + created + asked * feeds + lane
    replies = "".join(reply(position) for position in range(1, entries // 100 + 1))
    replies += "".join(reply(entries // 100 + 1 + at, given(FIRST_ID + at)) for at in range(feeds))
    replies += "".join(reply(entries // 100 + feeds + number, lane=1, number=number) for number in range(1, patches + 1))
    ids = [FIRST_ID + at for at in range(feeds)]
    sent = "".join(full("r1", number, {}) for number in ids) + "".join(tree("r1", number, {}) for number in ids)
    yield "8000 patches of entries that 64 filters leave out", script.encode(), f"{replies}{sent}end\n".encode()


def large_cases() -> Iterator[tuple[str, bytes, Wanted]]:
    """A name, a script, and its report, or the line and the number of its fault."""
    for made in (
            long_lines, many_lines, large_schemas, many_policies, many_receivers, long_keys, wide_entries, many_rows, many_edits,
            busy_lanes, unmatched_entries):
        yield from made()
