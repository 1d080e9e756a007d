"""Numbers of 16 and of 32 bits, which Python does not keep to their width."""

from __future__ import annotations

from typing import Final

#: The highest word.
WORD: Final = 0xFFFF

#: The highest number of 32 bits.
LONG: Final = 0xFFFF_FFFF


def checked(value: object, most: int, what: str) -> int:
    """The value, if it is a number from 0 to the most; `what` names it in the error."""
    if not isinstance(value, int):
        raise TypeError(f"{what} is {value!r}, which is not an int")
    if not 0 <= value <= most:
        raise ValueError(f"{what} is {value}, which is not from 0 to {most}")
    return value
