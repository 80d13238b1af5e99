"""A schema with every kind of node and every type of this project, and entries of it that are at many an end."""

from __future__ import annotations

from typing import Any

from .schema import LARGE_INTEGERS, SMALL_INTEGERS

PORT = "/acme:device/port"
QUEUE = PORT + "/queue"
TAG = "/acme:device/acme-more:tag"

SCHEMA: list[list[dict[str, Any]]] = [
    [
        {"path": "/acme:device", "kind": "list", "keys": ["id"]},
        {"path": "/acme:device/id", "kind": "leaf", "type": "uint16"},
        *({"path": f"/acme:device/{kind}", "kind": "leaf", "type": kind} for kind in SMALL_INTEGERS + LARGE_INTEGERS),
        *({"path": f"/acme:device/decimal-{p}", "kind": "leaf", "type": f"decimal64:{p}"} for p in (1, 2, 18)),
        {"path": "/acme:device/up", "kind": "leaf", "type": "boolean"},
        {"path": "/acme:device/description", "kind": "leaf", "type": "string"},
        {"path": "/acme:device/role", "kind": "leaf", "type": "enumeration", "names": ["core", "edge", "a \"b\\ c"]},
        {"path": "/acme:device/managed", "kind": "leaf", "type": "empty"},
        {"path": "/acme:device/vlan", "kind": "leaf-list", "type": "uint16"},
        {"path": "/acme:device/serial", "kind": "leaf-list", "type": "uint64"},
        {"path": "/acme:device/alias", "kind": "leaf-list", "type": "string"},
        {"path": "/acme:device/load", "kind": "leaf-list", "type": "decimal64:2"},
        {"path": "/acme:device/mode", "kind": "leaf-list", "type": "enumeration", "names": ["ro", "rw"]},
        {"path": "/acme:device/stats", "kind": "container"},
        {"path": "/acme:device/stats/in", "kind": "leaf", "type": "uint64"},
        {"path": "/acme:device/stats/errors", "kind": "container"},
        {"path": "/acme:device/stats/errors/in", "kind": "leaf", "type": "uint32"},
        {"path": "/acme:device/fan", "kind": "container", "presence": True},
        {"path": "/acme:device/fan/speed", "kind": "leaf", "type": "uint8"},
        {"path": PORT, "kind": "list", "keys": ["slot", "name"]},
        {"path": PORT + "/slot", "kind": "leaf", "type": "int64"},
        {"path": PORT + "/name", "kind": "leaf", "type": "string"},
        {"path": PORT + "/speed", "kind": "leaf", "type": "uint32"},
        {"path": QUEUE, "kind": "list", "keys": ["weight", "drops", "class"]},
        {"path": QUEUE + "/weight", "kind": "leaf", "type": "decimal64:2"},
        {"path": QUEUE + "/drops", "kind": "leaf", "type": "boolean"},
        {"path": QUEUE + "/class", "kind": "leaf", "type": "enumeration", "names": ["gold", "silver"]},
        {"path": QUEUE + "/depth", "kind": "leaf", "type": "uint16"},
    ],
    [
        {"path": TAG, "kind": "list", "keys": ["key"]},
        {"path": TAG + "/key", "kind": "leaf", "type": "string"},
        {"path": TAG + "/value", "kind": "leaf", "type": "string"},
        {"path": "/acme:device/acme-more:up", "kind": "leaf", "type": "boolean"},
        {"path": "/acme:device/fan/acme-more:noise", "kind": "leaf", "type": "int16"},
    ],
]

FULL: dict[str, Any] = {
    "id": 7, "int8": 5, "int16": -300, "int32": 70000, "int64": "-5000000000", "uint8": 200, "uint16": 9000,
    "uint32": 4000000000, "uint64": "5000000000", "decimal-1": "0.5", "decimal-2": "-12.34",
    "decimal-18": "1.000000000000000001", "up": True, "description": "rack 4, \u00e9tage 2", "role": "edge",
    "managed": [None], "vlan": [20, 10], "serial": ["18446744073709551615", "1"], "alias": ["b", "a", ""],
    "load": ["0.25", "-1.5"], "mode": ["rw"], "stats": {"in": "42", "errors": {"in": 3}},
    "fan": {"speed": 9, "acme-more:noise": -3},
    "port": [
        {"slot": "1", "name": "b/2", "speed": 100, "queue": [
            {"weight": "0.5", "drops": True, "class": "silver", "depth": 64},
            {"weight": "0.5", "drops": True, "class": "gold"}]},
        {"slot": "-1", "name": ""}],
    "acme-more:tag": [{"key": "site", "value": "north"}, {"key": "\u20ac,=/"}],
    "acme-more:up": False,
}
LEAST: dict[str, Any] = {
    "id": 0, "int8": -128, "int16": -32768, "int32": -2147483648, "int64": "-9223372036854775808", "uint8": 0,
    "uint16": 0, "uint32": 0, "uint64": "0", "decimal-1": "-922337203685477580.8", "decimal-2": "-92233720368547758.08",
    "decimal-18": "-9.223372036854775808", "up": False, "description": "", "role": "a \"b\\ c", "fan": {},
}
MOST: dict[str, Any] = {
    "id": 65535, "int8": 127, "int16": 32767, "int32": 2147483647, "int64": "9223372036854775807", "uint8": 255,
    "uint16": 65535, "uint32": 4294967295, "uint64": "18446744073709551615", "decimal-1": "922337203685477580.7",
    "decimal-2": "92233720368547758.07", "decimal-18": "9.223372036854775807", "description": "\U0001f600" * 64,
    "fan": {"acme-more:noise": 0},
}
ENTRIES = [FULL, LEAST, MOST, {"id": 1}, {"id": 2, "stats": {}, "vlan": [], "port": []}]
