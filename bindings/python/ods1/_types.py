"""What calls take and answer."""

from __future__ import annotations

import re
from dataclasses import dataclass
from typing import ClassVar, Final, Tuple

from ._lending import Image, part
from ._numbers import WORD, checked

#: The bytes of a block.
BLOCK: Final = 512

#: The most file numbers that a volume can have: H.FMAX is a word.
MOST_NUMBERS: Final = 65_535

_ID_TEXT: Final = re.compile("([0-9]+),([0-9]+),([0-9]+)")


class NotAnId(ValueError):
    """A text that is not `number,sequence,volume`, three numbers below 65,536."""

    # A traceback names it as callers do.
    __module__ = "ods1"

    def __init__(self, text: str) -> None:
        super().__init__(text)
        self.text = text

    def __str__(self) -> str:
        return f"{self.text!r} is not an ID: number,sequence,volume, all below 65,536"


@dataclass(frozen=True, order=True)
class FileId:
    """A file ID: number, sequence, relative volume."""

    #: The master file directory.
    MASTER: ClassVar[FileId]

    number: int
    sequence: int
    volume: int

    def __post_init__(self) -> None:
        checked(self.number, WORD, "number")
        checked(self.sequence, WORD, "sequence")
        checked(self.volume, WORD, "volume")

    def __str__(self) -> str:
        return f"{self.number},{self.sequence},{self.volume}"

    @classmethod
    def parse(cls, text: str) -> FileId:
        """The ID that a text writes as `number,sequence,volume`; else `NotAnId`."""
        match = _ID_TEXT.fullmatch(text)
        if match is None:
            raise NotAnId(text)
        try:
            return cls(int(match[1]), int(match[2]), int(match[3]))
        except ValueError:
            raise NotAnId(text) from None


FileId.MASTER = FileId(4, 4, 0)


@dataclass(frozen=True, order=True)
class Name:
    """A name as its five words: three of the name, one of the type, the version."""

    words: Tuple[int, int, int, int, int]

    def __post_init__(self) -> None:
        if not isinstance(self.words, tuple) or len(self.words) != 5:
            raise TypeError(f"a name is a tuple of five words, and not {self.words!r}")
        for word in self.words:
            checked(word, WORD, "a word of a name")

    @property
    def version(self) -> int:
        """The version."""
        return self.words[4]

    def with_version(self, version: int) -> Name:
        """The same name with another version."""
        name1, name2, name3, typ, _ = self.words
        return Name((name1, name2, name3, typ, version))

    def is_version_of(self, other: Name) -> bool:
        """Whether two names differ in nothing but the version."""
        return self.with_version(0) == other.with_version(0)


@dataclass(frozen=True)
class Record:
    """A record of a directory."""

    id: FileId
    name: Name


@dataclass(frozen=True)
class Counts:
    """The verdict's counts."""

    blocks: int
    #: Covered blocks.
    claimed: int
    #: Free bits of the storage map.
    free: int
    #: File numbers in use.
    headers: int


@dataclass(frozen=True)
class Geometry:
    """Where the parts of a volume lie."""

    blocks: int
    #: The home's LBN.
    home: int
    #: H.IBSZ: how many blocks the index map has.
    ibsz: int
    #: H.IBLB: the index map's LBN.
    iblb: int
    #: H.FMAX: the highest file number.
    fmax: int
    #: How many file numbers have a slot.
    slots: int
    #: The LBN of the storage map's bits.
    map: int
    #: In how many blocks they lie.
    map_blocks: int
    #: H.VLEV.
    vlev: int
    #: How many headers the index file has.
    index_headers: int


@dataclass(frozen=True)
class Label:
    """A volume's label."""

    #: H.VNAM, 12 bytes, padded with nulls.
    name: bytes
    owner: int
    protection: int
    characteristics: int
    default_protection: int


@dataclass(frozen=True)
class Header:
    """What a header says."""

    sequence: int
    segment: int
    #: The number of the next header of the chain, 0 where there is none.
    next: int
    next_sequence: int
    #: How many retrieval pointers are in use.
    pointers: int
    #: The name in the ident area.
    name: Name


@dataclass(frozen=True)
class Attributes:
    """What an opened file says of itself."""

    blocks: int
    #: How many bytes lie before the end of file; all where the attributes give no end.
    end: int
    owner: int
    protection: int
    #: User flags, and 256 times the system flags.
    flags: int
    record_type: int
    record_attributes: int
    record_size: int
    #: F.HIBK.
    highest: int
    #: F.EFBK; 0 where the attributes give no end.
    end_block: int
    #: F.FFBY.
    first_free: int


@dataclass(frozen=True)
class Extent:
    """Blocks in a row."""

    lbn: int
    blocks: int

    def bytes(self, image: Image) -> memoryview:
        """Its bytes in the image: the image's own, for reading.

        ValueError if the image does not have the blocks; it has those of an extent that
        a call on it answered.
        """
        return part(image, self.lbn * BLOCK, self.blocks * BLOCK)


@dataclass(frozen=True, eq=False, repr=False)
class WorkAreas:
    """The work areas of the verdict: a mark for each block, one for each file number.

    Calls write to them; none of them may share bytes with the other or with the image.
    """

    blocks: bytearray
    headers: bytearray

    @classmethod
    def for_length(cls, image: int) -> WorkAreas:
        """Areas that are long enough for every call on an image of this many bytes."""
        return cls(bytearray(image // BLOCK), bytearray(MOST_NUMBERS))
