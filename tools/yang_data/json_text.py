"""JSON values as Python has them, and two forms that Python has not: a literal text, and a member that stands twice."""

from __future__ import annotations

import json
from dataclasses import dataclass
from typing import Any

# None, bool, int, float, str, list, dict, Literal and Members
Json = Any


@dataclass(frozen=True)
class Literal:
    """A piece of JSON text that is written as it stands, as `1e1` for the number ten."""

    text: str


@dataclass(frozen=True)
class Members:
    """An object given by its members one after another, so that a name may stand twice."""

    pairs: tuple[tuple[str, Json], ...]


def compact(value: Json) -> str:
    """JSON without white space. Characters past ASCII stand as they are."""
    if isinstance(value, Literal):
        return value.text
    if isinstance(value, Members):
        return "{" + ",".join(f"{compact(name)}:{compact(below)}" for name, below in value.pairs) + "}"
    if isinstance(value, dict):
        return compact(Members(tuple(value.items())))
    if isinstance(value, list):
        return "[" + ",".join(compact(item) for item in value) + "]"
    return json.dumps(value, ensure_ascii=False)


def members_of(value: Json) -> tuple[tuple[str, Json], ...]:
    """The members of an object; none of anything else."""
    if isinstance(value, Members):
        return value.pairs
    return tuple(value.items()) if isinstance(value, dict) else ()


def is_object(value: Json) -> bool:
    return isinstance(value, (dict, Members))


def unordered(value: Json) -> Json:
    """The value with the items of each array in a fixed order, since no list here is ordered by the user."""
    if isinstance(value, dict):
        return {name: unordered(below) for name, below in value.items()}
    if isinstance(value, list):
        return sorted((unordered(item) for item in value), key=lambda item: json.dumps(item, sort_keys=True))
    return value
