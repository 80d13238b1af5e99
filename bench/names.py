"""Names as devices give them, of several families."""

from __future__ import annotations


def gigabit(number: int) -> str:
    """GigabitEthernet0/0/0/17: rack, slot, card, port."""
    return f"GigabitEthernet0/{number // 2_304}/{number // 48 % 48}/{number % 48}"


def ten_gigabit(number: int) -> str:
    """xe-0/0/17: slot, card, port."""
    return f"xe-{number // 1_152}/{number // 48 % 24}/{number % 48}"


def prefix(number: int) -> str:
    """10.0.17.0/24."""
    return f"10.{number // 256}.{number % 256}.0/24"


def interface_name(number: int) -> str:
    """A name of one of the two families of interfaces, in turn."""
    return gigabit(number // 2) if number % 2 else ten_gigabit(number // 2)


def escaped(key: str) -> str:
    """A key as a target has it."""
    return key.replace("%", "%25").replace("/", "%2F").replace(",", "%2C")
