"""Refusals: why a call was refused, and where."""

from __future__ import annotations

from enum import IntEnum


class Refusal(IntEnum):
    """Why a call is refused: the refusals of the rules' table of answer numbers."""

    SIZE = 1
    HOME = 2
    GEOMETRY = 3
    INDEX = 4
    STORAGE = 5
    RELVOL = 6
    NUMBER = 7
    HEADER = 8
    SEQUENCE = 9
    SEGMENT = 10
    LOCKED = 11
    CHAIN = 12
    VBN = 13
    NAME = 14
    ABSENT = 15
    WORK = 16
    FILES = 17
    LINKS = 18
    TWICE = 19
    BADHOME = 20
    MAP = 21
    KNOWN = 22
    FIXED = 23
    COUNT = 24
    FULL = 25
    RUN = 26
    NONUMBER = 27
    ROOM = 28


class Refused(Exception):
    """A refused call: why, and the place of the answer.

    The place is 0 but for the verdict's refusals.
    """

    # A traceback names it as callers do.
    __module__ = "ods1"

    def __init__(self, refusal: Refusal, place: int) -> None:
        super().__init__(refusal, place)
        self.refusal = refusal
        self.place = place

    def __str__(self) -> str:
        """As the judging program writes it."""
        number, name = self.refusal.value, self.refusal.name
        return f"answer {number} {name} place {self.place}"
