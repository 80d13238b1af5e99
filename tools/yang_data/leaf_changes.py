"""Other values in place of a leaf's: of a wrong type, at the ends of ranges, and in other forms of the same number."""

from __future__ import annotations

from collections.abc import Iterator
from dataclasses import dataclass

from .json_text import Json, Literal, compact
from .rules import BLANKS, BYTES, CHARACTERS, DIGITS, FRACTION, HEXADECIMAL, LEADING_ZERO, SURROGATES, WHOLE, Rule
from .schema import LARGE_INTEGERS, SMALL_INTEGERS, Node

WRONG_TYPE = "wrong type"
RANGE = "range of numbers"
FORM = "form of numbers"
TEXT = "texts and names"
NO_JSON = "no JSON"


@dataclass(frozen=True)
class Change:
    """What stands in place of a value, and the rule by which it may be read otherwise than yanglint reads it."""

    category: str
    name: str
    value: Json
    rule: Rule | None = None


def each(category: str, values: list[Json], rule: Rule | None = None) -> Iterator[Change]:
    for value in values:
        yield Change(category, compact(value), value, rule)


def integer_ends(kind: str) -> tuple[int, int]:
    """The least and the greatest number of an integer type."""
    bits = int(kind.lstrip("uint"))
    return (0, 2**bits - 1) if kind.startswith("u") else (-(2**(bits - 1)), 2**(bits - 1) - 1)


def numbers_near(kind: str) -> list[int]:
    """The ends of an integer type, what lies next to them, and what no type holds."""
    least, most = integer_ends(kind)
    near = [least - 1, least, least + 1, most - 1, most, most + 1]
    return [*near, -1, 0, 2**31, 2**32, -(2**63) - 1, 2**63, 2**64 - 1, 2**64, 10**30]


def small_integer(kind: str) -> Iterator[Change]:
    """A JSON number (RFC 7951 section 6.1)."""
    yield from each(WRONG_TYPE, [None, [None], [], {}, [1], {"x": 1}, True, False, "1", "0", "", "x", "0x1", " 1 "])
    yield from each(RANGE, numbers_near(kind))
    yield from each(FORM, [Literal("1e1"), Literal("1E0"), Literal("10e-1"), Literal("-0"), Literal("0.0")], WHOLE)
    yield from each(FORM, [Literal("1.0"), Literal("1.5"), Literal("1e-1"), Literal("1e30")])
    yield from each(NO_JSON, [Literal(text) for text in ("+1", "01", ".5", "1.", "0x1", "1e", "--1", "NaN", "nul")])


def large_integer(kind: str) -> Iterator[Change]:
    """A number in a JSON text (RFC 7951 section 6.1)."""
    yield from each(WRONG_TYPE, [None, [None], [], {}, ["1"], {"x": "1"}, True, 1, 0, -1, 2**62, Literal("1.0"), "x"])
    yield from each(RANGE, [str(number) for number in numbers_near(kind)])
    yield from each(FORM, ["+5", "-0", "+0"])
    yield from each(FORM, ["05", "00", "+05", "017", "089", "0000000000000000000000000000012"], LEADING_ZERO)
    yield from each(FORM, ["0x1F", "0X1f", "+0x5"], HEXADECIMAL)
    yield from each(FORM, [" 5", "5 ", "\t5", "5\n", " 5 "], BLANKS)
    yield from each(FORM, [
        "", "+", "-", " ", "--5", "+-5", "5-", "5.0", "5.", "5e0", "5x", "x5", "5 5", "1_000", "1,000", "0b1", "0o7",
        "\u0665", "\u2212" + "5", "5\u0000", "NaN"])


def decimal(places: int) -> Iterator[Change]:
    """A decimal64 in a JSON text (RFC 7950 section 9.3)."""
    def units(number: int) -> str:
        digits = str(abs(number)).rjust(places + 1, "0")
        return ("-" if number < 0 else "") + digits[:-places] + "." + digits[-places:]

    yield from each(WRONG_TYPE, [None, [None], [], {}, ["1.5"], {"x": "1.5"}, True, 1, 0, Literal("1.5"), "x"])
    yield from each(RANGE, [units(number) for number in (-(2**63) - 1, -(2**63), 2**63 - 1, 2**63, 2**64, 0, 1, -1)])
    yield from each(RANGE, ["9" * 19, "9" * 40, "-" + "9" * 40])
    yield from each(FORM, ["5", "+5", "-5", "5.5", "05.5", "007.5", "-0", "-0.0", "+0.0", "0" * 30 + "5.5"])
    yield from each(FORM, ["5." + "0" * (places + 1), "0." + "0" * (places + 2)], FRACTION)
    yield from each(FORM, [" 5.5", "5.5 ", "\t5.5", "5.5\n"], BLANKS)
    yield from each(FORM, ["+", "-", "-.5", "+.5"], DIGITS)
    yield from each(FORM, [
        "5." + "0" * places + "1", "", ".", "-.", " ", "5.", ".5", "5..5", "5.5.5", "5,5", "--5", "5e0",
        "0x5", "5.x", "5. 5", "5 .5", "5.-5", "\u0665.5", "5.5\u0000", "INF"])


def boolean() -> Iterator[Change]:
    yield from each(WRONG_TYPE, [None, [None], [], {}, [True], {"x": True}, 0, 1, "true", "false", "", "x"])
    yield from each(TEXT, [True, False])
    yield from each(NO_JSON, [Literal("TRUE"), Literal("True"), Literal("yes")])


def empty() -> Iterator[Change]:
    """The array of one null (RFC 7951 section 6.9)."""
    yield from each(WRONG_TYPE, [
        None, [], {}, True, False, 0, "", "null", "x", [0], [False], [""], [[]], [{}], [None, None], [[None]]])


def string() -> Iterator[Change]:
    yield from each(WRONG_TYPE, [None, [None], [], {}, ["x"], {"x": "y"}, True, False, 0, 1, Literal("1.5")])
    yield from each(TEXT, [
        "", " ", "  x  ", "x", "\t", "\n", "\r", "\"\\/", "<&>", "'", "a,b=c/d", "\u00e9", "e\u0301", "\u20ac",
        "\U0001f600", "\u0085", "\u007f", "\ufeff", "\u2028", "a" * 255, "a" * 256, "a" * 257, "\u00e9" * 128])
    yield from each(TEXT, ["\u00e9" * 129, "\u00e9" * 256, "\u20ac" * 86, "\U0001f600" * 65], BYTES)
    yield from each(TEXT, ["\u00e9" * 257])
    yield from each(TEXT, ["\u0000", "\u0001", "\u000b", "\u001b", "\u001f"], CHARACTERS)
    yield from each(TEXT, ["\ufdd0", "\ufffe", "\uffff", "\U0001fffe"], CHARACTERS)
    yield from each(TEXT, [Literal('"\\ud83d\\ude00"')], SURROGATES)
    yield from each(TEXT, [Literal('"\\u00e9"'), Literal('"\\/"')])
    yield from each(TEXT, [Literal('"\\b"'), Literal('"\\f"')], CHARACTERS)
    yield from each(NO_JSON, [Literal('"\\ud83d"'), Literal('"\\ude00\\ud83d"'), Literal('"\\x"'), Literal('"\\u12"')])


def enumeration(names: list[str]) -> Iterator[Change]:
    name = names[0]
    yield from each(WRONG_TYPE, [None, [None], [], {}, [name], {"x": name}, True, 0, 1])
    yield from each(TEXT, [*names, name.swapcase(), name + "x", name[:-1], f" {name}", f"{name} ", "", "0", "no-such"])


def leaf_changes(node: Node) -> Iterator[Change]:
    """The changes of a value of a leaf, or of one of a leaf-list."""
    if node.type in SMALL_INTEGERS:
        return small_integer(node.type)
    if node.type in LARGE_INTEGERS:
        return large_integer(node.type)
    if node.type.startswith("decimal64:"):
        return decimal(int(node.type.partition(":")[2]))
    if node.type == "enumeration":
        return enumeration(node.names)
    return {"boolean": boolean, "empty": empty, "string": string}[node.type]()
