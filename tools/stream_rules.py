"""Short streams to replay, one for each rule, each with its fault, if it has one, worked out by hand.

A stream is a schema with a node of each kind and type, and one line or two. Where it has no fault its trees are those of
the model of stream_model.py, which must also give just these faults.
"""

from __future__ import annotations

import itertools
from collections.abc import Iterator
from typing import Any

from large_cases import compact
from stream_model import (
    BAD_SCRIPT, BAD_STREAM, DATA, ENVELOPE, IN_LINE, IN_SCHEMA, MEMBER, NO_JSON, NO_SCRIPT_JSON, ORDER, OTHER_LINES, TARGET,
    UNKNOWN_LINE, UNKNOWN_NOTICE, Fault, replayed)

Wanted = bytes | Fault
Case = tuple[str, bytes, Wanted]

OK, POLICY, PATCH = 0, 6, 7


def notification(name: str, body: Any, at: Any = "2026-01-01T00:00:00Z") -> dict[str, Any]:
    return {"ietf-restconf:notification": {"eventTime": at, name: body}}


def full_update(id: Any, contents: Any) -> dict[str, Any]:
    return notification("ietf-yang-push:push-update", {"id": id, "datastore-contents": contents})


def change_update(id: int, edits: Any, patch: Any = "1", *, at: Any = "2026-01-01T00:00:00Z", **mark: Any) -> dict[str, Any]:
    body = {"id": id, "datastore-changes": {"yang-patch": {"patch-id": patch, "edit": edits}}}
    marked = {"incomplete-update": mark["mark"]} if mark else {}
    return notification("ietf-yang-push:push-change-update", body | marked, at)


def edit(number: Any, operation: Any, target: Any, *value: Any) -> dict[str, Any]:
    said = {"edit-id": number, "operation": operation, "target": target}
    return {**said, "value": value[0]} if value else said


def state_change(sort: str, **body: Any) -> dict[str, Any]:
    return notification(f"ietf-subscribed-notifications:subscription-{sort}", body)


def line_of(value: Any) -> bytes:
    return compact(value).encode()


def lines_of(*lines: bytes) -> bytes:
    return b"".join(line + b"\n" for line in lines)


def leaf(path: str, sort: str, kind: str = "leaf") -> dict[str, Any]:
    return {"path": path, "kind": kind, "type": sort}


NODES = [
    {"path": "/acme:port", "kind": "list", "keys": ["name"]}, leaf("/acme:port/name", "string"), leaf("/acme:port/mtu", "uint16"),
    leaf("/acme:port/total", "int64"), leaf("/acme:port/ratio", "decimal64:2"), leaf("/acme:port/up", "boolean"),
    {**leaf("/acme:port/state", "enumeration"), "names": ["up", "down"]}, leaf("/acme:port/off", "empty"),
    leaf("/acme:port/vlan", "uint8", "leaf-list"), {"path": "/acme:port/stats", "kind": "container"}, leaf("/acme:port/stats/in", "uint64"),
    {"path": "/acme:port/ext:opt", "kind": "container", "presence": True}, leaf("/acme:port/ext:opt/power", "decimal64:1"),
    {"path": "/acme:route", "kind": "list", "keys": ["vrf", "id"]}, leaf("/acme:route/id", "int8"), leaf("/acme:route/vrf", "string"),
    leaf("/acme:route/metric", "uint32"), {"path": "/acme:clock", "kind": "container", "presence": True},
    leaf("/acme:clock/zone", "string")]
SCHEMA = line_of({"schema": NODES})

# The fault of a first line that is no schema line: its own, or else that it may not stand there.
FIRST_LINES: list[tuple[str, int]] = [
    ('{"start":"2026-01-01T00:00:00Z"}', ORDER), ('{"start":"now"}', ORDER), ('{"start":7}', IN_LINE), ('{"tick":1}', ORDER),
    ('{"tick":-1}', ORDER), ('{"tick":1.0}', IN_LINE), ('{"tick":-0}', IN_LINE), ('{"lanes":2}', ORDER), ('{"lanes":0}', ORDER),
    ('{"lanes":"2"}', IN_LINE), ('{"join":true}', ORDER), ('{"join":false}', IN_LINE), ('{"lane":1,"do":{"tick":1}}', ORDER),
    ('{"lane":1,"do":{"tick":"1"}}', IN_LINE), ('{"lane":1,"do":{"patch":{}}}', PATCH), ('{"lane":1,"do":{"start":1}}', UNKNOWN_LINE),
    ('{"lane":1}', UNKNOWN_LINE), ('{"receiver":{"name":"r1","user":"ann","queue":4,"take":"auto"}}', ORDER),
    ('{"receiver":{"name":"r1","user":"ann","queue":0,"take":"auto"}}', ORDER), ('{"receiver":{}}', IN_LINE),
    ('{"receiver":{"name":"r 1","user":"ann","queue":4,"take":"auto"}}', IN_LINE), ('{"patch":{}}', PATCH),
    ('{"patch":{"ietf-yang-patch:yang-patch":{"patch-id":"p"}}}', ORDER), ('{"policy":{}}', POLICY),
    ('{"policy":{"ietf-netconf-acm:nacm":{}}}', ORDER),
    ('{"policy":{"ietf-netconf-acm:nacm":{"rule-list":[{"name":"l","rule":[{"name":"r","path":"/acme:port","action":"deny"}]}]}}}', POLICY),
    ('{"establish":{"by":"r1","datastore":"ietf-datastores:operational","on-change":{}}}', IN_LINE),
    ('{"take":{"receiver":"r1","count":1}}', IN_LINE), ("{}", UNKNOWN_LINE), ("[]", UNKNOWN_LINE), ("null", UNKNOWN_LINE),
    ('"schema"', UNKNOWN_LINE), ('["schema",[]]', UNKNOWN_LINE), ('{"schema":[],"x":1}', UNKNOWN_LINE), ('{"Schema":[]}', UNKNOWN_LINE),
    (compact(full_update(1, {})), UNKNOWN_LINE), ('{"schema":[]', NO_SCRIPT_JSON), ('{"schema":[]}}', NO_SCRIPT_JSON),
    ("\ufeff{}", NO_SCRIPT_JSON),
    ("\f", NO_SCRIPT_JSON), ("\u00a0", NO_SCRIPT_JSON), ('{"schema":[1e400]}', NO_SCRIPT_JSON), ('{"schema":[NaN]}', NO_SCRIPT_JSON),
    ('{"schema":1,"schema":[]}', OK), ('{"schema":[],"schema":1}', IN_SCHEMA)]

LIST, KEY = {"path": "/acme:l", "kind": "list", "keys": ["k"]}, leaf("/acme:l/k", "string")
BOX = {"path": "/acme:c", "kind": "container"}
SCHEMA_PARTS: list[tuple[str, Any, int]] = [
    ("no array", {}, IN_SCHEMA), ("null", None, IN_SCHEMA), ("no object", [[]], IN_SCHEMA), ("nothing", [], OK),
    ("a list", [LIST, KEY], OK),
    ("a list without its key", [LIST], IN_SCHEMA), ("a key after other nodes", [LIST, BOX, KEY], OK),
    ("a key that is a container", [LIST, {**BOX, "path": "/acme:l/k"}], IN_SCHEMA),
    ("an empty key", [LIST, leaf("/acme:l/k", "empty")], IN_SCHEMA),
    ("a key of another module", [LIST, leaf("/acme:l/ext:k", "string")], IN_SCHEMA), ("no keys", [{**LIST, "keys": []}, KEY], IN_SCHEMA),
    ("a key twice", [{**LIST, "keys": ["k", "k"]}, KEY], IN_SCHEMA),
    ("a key with its module", [{**LIST, "keys": ["acme:k"]}, KEY], IN_SCHEMA),
    ("a path twice", [BOX, BOX], IN_SCHEMA), ("no parent", [leaf("/acme:c/x", "string")], IN_SCHEMA),
    ("a parent after it", [leaf("/acme:c/x", "string"), BOX], IN_SCHEMA),
    ("a leaf as parent", [leaf("/acme:x", "string"), leaf("/acme:x/y", "string")], IN_SCHEMA),
    ("a module that isn't needed", [BOX, leaf("/acme:c/acme:x", "string")], IN_SCHEMA),
    ("another module", [BOX, leaf("/acme:c/ext:x", "string")], OK),
    ("a module and back", [BOX, {**BOX, "path": "/acme:c/ext:d"}, leaf("/acme:c/ext:d/acme:x", "string")], OK),
    ("no module", [{**BOX, "path": "/c"}], IN_SCHEMA), ("no slash", [{**BOX, "path": "acme:c"}], IN_SCHEMA),
    ("a slash alone", [{**BOX, "path": "/"}], IN_SCHEMA),
    ("a slash too many", [{**BOX, "path": "/acme:c/"}], IN_SCHEMA), ("two colons", [{**BOX, "path": "/a:b:c"}], IN_SCHEMA),
    ("a name of 64 bytes", [{**BOX, "path": "/acme:" + "n" * 64}], OK),
    ("a name of 65 bytes", [{**BOX, "path": "/acme:" + "n" * 65}], IN_SCHEMA),
    ("a digit first", [{**BOX, "path": "/acme:1"}], IN_SCHEMA), ("a letter of no alphabet", [{**BOX, "path": "/acme:\u00e9"}], IN_SCHEMA),
    ("a kind that is none", [{**BOX, "kind": "box"}], IN_SCHEMA), ("presence", [{**BOX, "presence": True}], OK),
    ("presence as a text", [{**BOX, "presence": "true"}], IN_SCHEMA),
    ("presence of a leaf", [{**leaf("/acme:x", "string"), "presence": False}], IN_SCHEMA),
    ("a color", [{**BOX, "color": "red"}], IN_SCHEMA),
    ("deny-all", [{**BOX, "deny-all": True}], OK), ("deny-all as a number", [{**BOX, "deny-all": 1}], IN_SCHEMA),
    ("no type", [{"path": "/acme:x", "kind": "leaf"}], IN_SCHEMA), ("a type that is none", [leaf("/acme:x", "float")], IN_SCHEMA),
    ("a type as a number", [{"path": "/acme:x", "kind": "leaf", "type": 8}], IN_SCHEMA), ("an empty leaf", [leaf("/acme:x", "empty")], OK),
    ("an empty leaf-list", [leaf("/acme:x", "empty", "leaf-list")], IN_SCHEMA), ("18 places", [leaf("/acme:x", "decimal64:18")], OK),
    ("19 places", [leaf("/acme:x", "decimal64:19")], IN_SCHEMA), ("no place", [leaf("/acme:x", "decimal64:0")], IN_SCHEMA),
    ("places with a zero", [leaf("/acme:x", "decimal64:02")], IN_SCHEMA), ("no names", [leaf("/acme:x", "enumeration")], IN_SCHEMA),
    ("an empty name", [{**leaf("/acme:x", "enumeration"), "names": [""]}], OK),
    ("no name at all", [{**leaf("/acme:x", "enumeration"), "names": []}], IN_SCHEMA),
    ("a name twice", [{**leaf("/acme:x", "enumeration"), "names": ["a", "a"]}], IN_SCHEMA),
    ("an enumeration's name of 257 bytes", [{**leaf("/acme:x", "enumeration"), "names": ["a" * 257]}], IN_SCHEMA),
    ("names of a string", [{**leaf("/acme:x", "string"), "names": ["a"]}], IN_SCHEMA)]

TIMES: list[tuple[Any, int]] = [
    *((text, OK) for text in (
        "1970-01-01T00:00:00Z", "2999-12-31T23:59:59.999999999Z", "2024-02-29T23:59:59.1-23:59", "2026-01-01T00:00:00-00:00",
        "1970-01-01T00:00:00-00:01", "2999-12-31T23:59:59+00:01", "2000-02-29T00:00:00Z")),
    *((text, ENVELOPE) for text in (
        "1969-12-31T23:59:59Z", "1969-12-31T23:59:59-00:01", "1970-01-01T00:00:00+00:01", "3000-01-01T00:00:00Z",
        "3000-01-01T00:00:00+00:01",
        "2999-12-31T23:59:59-00:01", "0001-01-01T00:00:00+00:01", "2026-02-29T00:00:00Z", "2100-02-29T00:00:00Z", "2026-13-01T00:00:00Z",
        "2026-00-01T00:00:00Z", "2026-01-00T00:00:00Z", "2026-01-01T24:00:00Z", "2026-01-01T00:60:00Z", "2026-01-01T00:00:60Z",
        "2026-01-01T00:00:00.Z", "2026-01-01T00:00:00.0000000000Z", "2026-01-01T00:00:00,5Z", "2026-01-01T00:00:00+24:00",
        "2026-01-01T00:00:00+00:60", "2026-01-01T00:00:00+0100", "2026-01-01T00:00:00+01", "2026-01-01T00:00:00", "2026-01-01T00:00:00z",
        "2026-01-01t00:00:00Z", "2026-01-01 00:00:00Z", "2026-1-01T00:00:00Z", "12026-01-01T00:00:00Z", " 2026-01-01T00:00:00Z",
        "2026-01-01T00:00:00Z ", "2026-01-01T00:00:00ZZ", "\uff12026-01-01T00:00:00Z", "", None, 0))]

# The text of a leaf of type uint16, and of an entry's key.
NUMBERS: list[tuple[str, int]] = [
    *((text, OK) for text in ("0", "65535", " 7\t")),
    *((text, DATA) for text in (
        "65536", "-0", "-1", "1.0", "1e3", "1E+3", "1e-400", "0e999999999999999999999", "18446744073709551615", "18446744073709551616",
        "-9223372036854775809", "1" + "0" * 308, "1.7976931348623157e308", "100e-400", '"1"', "true", "null", "[1]", "{}")),
    *((text, NO_JSON) for text in (
        "1e400", "-1e400", "9" * 309, "1.7976931348623159e308", "1e99999999999999999999", "00", "01", "-01", "+1", ".5", "1.", "1e", "1e+",
        "-",
        "0x10", "NaN", "Infinity", "-Infinity", "True", "1_0", "\uff11", "", "1 2"))]
STRINGS: list[tuple[bytes, int]] = [
    *((text, OK) for text in (
        b"", b"\\u0041", b"\\uD83d\\uDe00", b"\\\\ud83d", b"\\u0000", b"\\/\\b\\f\\n\\r\\t", b"\x7f", b"\xef\xbb\xbf", b"\xf4\x8f\xbf\xbf",
        b"q" * 256,
        b"\\u00e9" * 128)),
    *((text, DATA) for text in (b"q" * 257, b"\\u00e9" * 129)),
    *((text, NO_JSON) for text in (
        b"\\ud83d", b"\\ude00", b"\\ud83d\\u0041", b"\\ud83d\\ud83d\\ude00", b"\\ud83dx", b"\\ud83d\\n", b"\x00", b"\x1f", b"\t", b"\\x41",
        b"\\u12", b"\\u12g4",
        b"\\u+123", b"\\U0041", b"\\", b'"', b"\xff", b"\xc0\x80", b"\xed\xa0\x80", b"\xf4\x90\x80\x80", b"\xc3", b"\xe2\x82"))]
TEXTS: list[tuple[bytes, int]] = [
    (b"%s\r", OK), (b"\t %s \r\t", OK), (b"\xef\xbb\xbf%s", NO_JSON), (b"%s,", NO_JSON), (b"%s%s", NO_JSON), (b"%s//", NO_JSON),
    (b"\x0c%s", NO_JSON),
    (b"%s\x00", NO_JSON), (b"\xc2\xa0%s", NO_JSON), (b"[%s]", ENVELOPE), (b'{"x":%s}', ENVELOPE), (b"'%s'", NO_JSON), (b"x", NO_JSON),
    (b"[1,]", NO_JSON),
    (b'{"x":1,}', NO_JSON), (b"{'x':1}", NO_JSON), (b"{x:1}", NO_JSON), (b"[1", NO_JSON), (b'"x', NO_JSON), (b"nul", NO_JSON),
    (b"nulll", NO_JSON), (b"7", ENVELOPE)]

WHERE: list[tuple[str, Any, int]] = [
    ("a member beside it", {**notification("x:y", 1), "z": 1}, ENVELOPE), ("no object", {"ietf-restconf:notification": []}, ENVELOPE),
    ("no name", {"ietf-restconf:notification": {"eventTime": "2026-01-01T00:00:00Z"}}, ENVELOPE),
    ("no time", {"ietf-restconf:notification": {"x:y": 1, "z": 1}}, ENVELOPE),
    ("another envelope", {"restconf:notification": {}}, ENVELOPE),
    ("an unknown name", notification("x:y", 1), UNKNOWN_NOTICE),
    ("a name without its module", notification("push-update", 1), UNKNOWN_NOTICE),
    ("a name of the other module", notification("ietf-yang-push:subscription-started", {"id": 1}), UNKNOWN_NOTICE),
    ("an update of the other module", notification("ietf-subscribed-notifications:push-update", 1), UNKNOWN_NOTICE),
    ("a name that is empty", notification("", 1), UNKNOWN_NOTICE), ("a completion", state_change("completed", id=1), UNKNOWN_NOTICE)]

MEMBERS: list[tuple[str, Any, int]] = [
    *((f"the id {id!r}", full_update(id, 7), DATA) for id in (0, 4_294_967_295)),
    *((f"the id {id!r}", full_update(id, 7), MEMBER) for id in (4_294_967_296, 2**64, -1, 1.0, "1", None, True, [1])),
    *((f"the id {id!r} of a start", state_change("started", id=id), MEMBER) for id in (4_294_967_296, -1, 0.0, "1")),
    *((f"the patch-id {id!r}", change_update(1, [], id), OK) for id in ("0", "18446744073709551615")),
    *((f"the patch-id {id!r}", change_update(1, [], id), MEMBER) for id in (
        "", "00", "01", "+1", "-0", "18446744073709551616", " 1", "1 ", "1.0", "x", "\u0661", 7, None)),
    *((f"the mark {mark!r}", change_update(1, [], mark=mark), fault) for mark, fault in (
        ([None], OK), (None, MEMBER), ([], MEMBER), ([None, None], MEMBER), (True, MEMBER), ([[None]], MEMBER), ([0], MEMBER),
        ([False], MEMBER))),
    *((f"{sort} with {body}", state_change(sort, **body), fault) for sort, body, fault in (
        ("started", {}, MEMBER), ("modified", {"id": 1, "x": 1}, MEMBER), ("resumed", {"id": 1}, OK), ("suspended", {"id": 1}, MEMBER),
        ("suspended", {"id": 1, "reason": "ietf-subscribed-notifications:unsupportable-volume"}, OK),
        ("suspended", {"id": 1, "reason": "unsupportable-volume"}, MEMBER), ("terminated", {"id": 1, "reason": None}, MEMBER),
        ("terminated", {"id": 1, "reason": "ietf-subscribed-notifications:unsupportable-volume"}, MEMBER),
        ("terminated", {"id": 1, "reason": "ietf-subscribed-notifications:no-such-subscription"}, OK))),
    *((f"the edits {edits}", change_update(1, edits), fault) for edits, fault in (
        (None, MEMBER), ({}, MEMBER), ([[]], MEMBER), ([{}], MEMBER), ([edit("", "delete", "/acme:clock")], OK),
        ([edit(1, "delete", "/acme:clock")], MEMBER),
        ([edit("1", "remove", "/x")], MEMBER), ([edit("1", "merge", "/x", {})], MEMBER), ([edit("1", "insert", "/x", {})], MEMBER),
        ([edit("1", "Delete", "/x")], MEMBER), ([edit("1", ["delete"], "/x")], MEMBER), ([edit("1", "delete", 7)], MEMBER),
        ([edit("1", "delete", "/x", {})], MEMBER), ([edit("1", "create", "/x")], MEMBER), ([edit("1", "replace", "/x")], MEMBER),
        ([edit("1", "delete", "/x") | {"point": "/x"}], MEMBER), ([edit("1", "delete", "/x"), edit("1", "delete", "/y")], MEMBER),
        ([edit("1", "delete", "/x"), edit("2", "merge", "/y", {})], MEMBER), ([edit("1", "create", "/x", None)], TARGET),
        ([edit("1", "create", "/acme:clock", 7), edit("2", "delete", "/x")], TARGET), ([edit("1", "create", "/acme:clock", 7)], DATA))),
    ("no edits", notification("ietf-yang-push:push-change-update", {"id": 1, "datastore-changes": {"yang-patch": {"patch-id": "1"}}}),
        MEMBER),
    ("a member beside the patch",
        notification("ietf-yang-push:push-change-update", {"id": 1, "datastore-changes": {"yang-patch": {}, "x": 1}}), MEMBER),
    ("no object of changes", notification("ietf-yang-push:push-change-update", {"id": 1, "datastore-changes": []}), MEMBER),
    ("no changes", notification("ietf-yang-push:push-change-update", {"id": 1}), MEMBER),
    ("no contents", notification("ietf-yang-push:push-update", {"id": 1}), MEMBER),
    ("a mark of a full update",
        notification("ietf-yang-push:push-update", {"id": 1, "datastore-contents": 7, "incomplete-update": [None]}), MEMBER)]

TARGETS: list[tuple[str, int]] = [
    *((target, OK) for target in (
        "/acme:port=", "/acme:port=a", "/acme:port=a=b", "/acme:port=a b?#", "/acme:port=a/mtu", "/acme:port=a/acme:mtu", "/acme:port=%61",
        "/acme:port=a%2fb",
        "/acme:port=%C3%a9", "/acme:port=\u00e9", "/acme:port=%00", "/acme:port=%2C", "/acme:port=%25", f"/acme:port={'%71' * 256}",
        "/acme:port=a/vlan=7",
        "/acme:port=a/vlan=%37", "/acme:port=a/vlan=+007", "/acme:port=a/vlan=-0", "/acme:port=a/stats", "/acme:port=a/stats/in",
        "/acme:port=a/off",
        "/acme:port=a/ext:opt", "/acme:port=a/ext:opt/power", "/acme:port=a/ext:opt/ext:power", "/acme:route=v,1", "/acme:route=,-128",
        "/acme:clock/acme:zone")),
    *((target, TARGET) for target in (
        "", "/", "//acme:port=a", "acme:port=a", " /acme:port=a", "/acme:port=a/", "/acme:port=a//mtu", "/acme:port", "/port=a",
        "/acme:prt=a", "/ext:port=a",
        "/acme:p%6Frt=a", "/acme:port=a,b", "/acme:port=a,", "/acme:port=%", "/acme:port=%4", "/acme:port=%4g", "/acme:port=%ff",
        "/acme:port=%C3",
        "/acme:port=%c0%80", "/acme:port=%ed%a0%80", f"/acme:port={'%71' * 257}", f"/acme:port={'q' * 257}", "/acme:port=a/name",
        "/acme:port=a/acme:name",
        "/acme:port=a/mtu=", "/acme:port=a/mtu=1", "/acme:port=a/mtu/x", "/acme:port=a/vlan", "/acme:port=a/vlan=",
        "/acme:port=a/vlan=256", "/acme:port=a/vlan=-1",
        "/acme:port=a/vlan=1.0", "/acme:port=a/vlan=0x7", "/acme:port=a/vlan= 7", "/acme:port=a/vlan=\u0667", "/acme:port=a/stats=",
        "/acme:port=a/opt",
        "/acme:port=a/acme:opt", "/acme:port=a/ext:opt/acme:power", "/acme:route=v", "/acme:route=v,128", "/acme:route=v,1,2",
        "/acme:route=1,v", "/acme:route=v,",
        "/acme:clock=", "/acme:clock/ext:zone", "/acme:port[name='a']"))]

VALUES: list[tuple[str, Any, int]] = [
    *(("/acme:port=a", value, fault) for value, fault in (
        ({"acme:port": [{"name": "a"}]}, OK), ({"acme:port": [{"name": "a", "mtu": 1, "vlan": [], "stats": {}}]}, OK),
        ({"acme:port": []}, DATA),
        ({"acme:port": [{"name": "a"}, {"name": "a"}]}, DATA), ({"acme:port": [{"name": "b"}]}, DATA), ({"acme:port": {"name": "a"}}, DATA),
        ({"port": [{"name": "a"}]}, DATA), ({"acme:port": [{}]}, DATA), ({"acme:port": [{"acme:name": "a"}]}, DATA),
        ({"acme:port": [{"name": "a", "acme:mtu": 1}]}, DATA), ({"acme:port": [{"name": "a"}], "x": 1}, DATA), ({}, DATA), ([], DATA),
        (None, DATA))),
    *(("/acme:route=v,+07", {"acme:route": [{"vrf": "v", "id": id}]}, fault) for id,
        fault in ((7, OK), (8, DATA), ("7", DATA), (7.0, DATA))),
    *(("/acme:port=a/vlan=7", {"acme:vlan": value}, fault) for value,
        fault in (([7], OK), ([8], DATA), ([7, 7], DATA), (7, DATA), ([], DATA))),
    *(("/acme:port=a/off", {"acme:off": value}, fault) for value,
        fault in (([None], OK), (None, DATA), ([], DATA), (True, DATA), ([None, None], DATA), ([False], DATA))),
    *(("/acme:port=a/stats", {"acme:stats": value}, fault) for value,
        fault in (({}, OK), ({"in": "1"}, OK), ({"in": 1}, DATA), ([], DATA), (None, DATA), ([{}], DATA))),
    *(("/acme:port=a/ext:opt", value, fault) for value, fault in (
        ({"ext:opt": {}}, OK), ({"ext:opt": {"power": "-.5"}}, DATA), ({"ext:opt": {"power": "-0.5"}}, OK),
        ({"ext:opt": {"ext:power": "1.0"}}, DATA),
        ({"acme:opt": {}}, DATA), ({"opt": {}}, DATA))),
    *(("/acme:port=a/total", {"acme:total": value}, fault) for value, fault in (
        ("9223372036854775807", OK), ("-9223372036854775808", OK), ("+5", OK), ("-0", OK), ("0" * 5_000 + "7", OK), ("9" * 5_000, DATA),
        ("9223372036854775808", DATA), (5, DATA), ("", DATA), ("+", DATA), (" 5", DATA), ("5.0", DATA), ("0x5", DATA))),
    *(("/acme:port=a/ratio", {"acme:ratio": value}, fault) for value, fault in (
        ("1", OK), ("+007.10", OK), ("-0.0", OK), ("92233720368547758.07", OK), ("-92233720368547758.08", OK),
        ("92233720368547758.08", DATA), ("1.234", DATA),
        ("1.", DATA), (".5", DATA), ("", DATA), ("1e1", DATA), (1.5, DATA), (1, DATA))),
    *(("/acme:port=a/up", {"acme:up": value}, fault) for value,
        fault in ((True, OK), (False, OK), ("true", DATA), (1, DATA), (None, DATA))),
    *(("/acme:port=a/state", {"acme:state": value}, fault) for value,
        fault in (("up", OK), ("Up", DATA), ("", DATA), (["up"], DATA), (None, DATA)))]

CONTENTS: list[tuple[Any, int]] = [
    ({}, OK), ({"acme:port": []}, OK), ({"acme:clock": {}}, OK), ([], DATA), (None, DATA), ("x", DATA), ({"acme:port": {}}, DATA),
    ({"port": []}, DATA),
    ({"acme:port": [{"name": "a"}, {"name": "b"}, {"name": "a", "mtu": 1}]}, DATA),
    ({"acme:port": [{"name": "a", "vlan": [1, 2, 1]}]}, DATA),
    ({"acme:port": [{"name": "a", "vlan": [2, 10, 1]}, {"name": "B"}, {"name": ""}]}, OK),
    ({"acme:port": [{"name": "a", "vlan": 1}]}, DATA),
    ({"acme:route": [{"vrf": "b", "id": -1}, {"vrf": "a", "id": 10}, {"vrf": "a", "id": 9}]}, OK), ({"acme:route": [{"vrf": "b"}]}, DATA),
    ({"acme:clock": {"zone": "a", "x": 1}}, DATA), ({"acme:clock": [None]}, DATA), ({"acme:clock": {"zone": None}}, DATA)]


def judged(name: str, stream: bytes, status: int, line: int, fault: int) -> Case:
    """A stream with this fault, or with none where it is 0; the model must say the same."""
    wanted = replayed(stream)
    assert wanted == Fault(status, line, fault) if fault else isinstance(wanted, bytes), (name, wanted)
    return name, stream, wanted


def several_faults() -> Iterator[tuple[str, bytes, int]]:
    """A line with each choice of faults, of which the least is told."""
    for count in range(7):
        for faults in itertools.combinations((NO_JSON, ENVELOPE, UNKNOWN_NOTICE, MEMBER, TARGET, DATA), count):
            edits = [
                edit("1", "create", "/acme:port=a/mtu", {"acme:mtu": "x" if DATA in faults else 1}),
                edit("2", "delete", "/acme:nope" if TARGET in faults else "/acme:clock")]
            said = change_update(1, edits, "00" if MEMBER in faults else "0", at="now" if ENVELOPE in faults else "2026-01-01T00:00:00Z")
            line = line_of(said) + (b"}" if NO_JSON in faults else b"")
            line = line.replace(b"push-change", b"pull-change") if UNKNOWN_NOTICE in faults else line
            yield f"a line with the faults {faults}", line, min(faults, default=OK)


def heard_lines() -> Iterator[tuple[str, bytes, int]]:
    """Notification lines below the schema, each with its fault."""
    for said, fault in TIMES:
        yield f"the time {said!r}", line_of(notification("ietf-yang-push:push-update", {"id": 1, "datastore-contents": {}}, said)), fault
    one, key = (line_of(full_update(1, {"acme:port": [port]})) for port in ({"name": "a", "mtu": 7}, {"name": "a"}))
    for text, fault in NUMBERS:
        yield f"the number {text[:40]}", one.replace(b":7}", f":{text}}}".encode()), fault
    for raw, fault in STRINGS:
        yield f"the string {raw[:40]!r}", key.replace(b'"a"', b'"%s"' % raw), fault
    for raw, fault in TEXTS:
        yield f"the text {raw!r}", raw.replace(b"%s", key), fault
    for name, said, fault in [*WHERE, *MEMBERS]:
        yield name, line_of(said), fault
    for target, fault in TARGETS:
        yield f"the target {target[:60]!r}", line_of(change_update(1, [edit("1", "delete", target)])), fault
    for target, value, fault in VALUES:
        yield f"{target} with {compact(value)[:80]}", line_of(change_update(1, [edit("1", "create", target, value)])), fault
    for value, fault in CONTENTS:
        yield f"the contents {compact(value)[:80]}", line_of(full_update(1, value)), fault
    yield from several_faults()


def rule_streams() -> Iterator[Case]:
    """A name, a stream, and its trees or its fault."""
    for text, fault in FIRST_LINES:
        name, stream = f"first line {text[:60]!r}", lines_of(b" ", text.encode())
        if any(text.startswith(f'{{"{other}"') for other in (*OTHER_LINES, "lane")):
            yield name, stream, Fault(BAD_SCRIPT, 2, fault)
        else:
            yield judged(name, stream, BAD_SCRIPT, 2, fault)
    for name, part, fault in SCHEMA_PARTS:
        for line, before in enumerate(([], [SCHEMA]), 1):
            stream = lines_of(*before, line_of({"schema": part}), line_of(full_update(1, {})))
            yield judged(f"schema line {line}: {name}", stream, BAD_SCRIPT, line, fault)
    first = line_of(full_update(1, {"acme:port": [{"name": "a", "mtu": 1}]}))
    for name, line, fault in heard_lines():
        yield judged(name, lines_of(SCHEMA, first, line), BAD_STREAM, 3, fault)
