"""The calls, with what they answer read from the value words."""

from __future__ import annotations

import struct
from typing import Final, Iterator, Sequence, Tuple

from ._answer import Refused
from ._exported import call
from ._lending import Image, WritableImage, part
from ._types import (
    Attributes,
    Counts,
    Extent,
    FileId,
    Geometry,
    Header,
    Label,
    Name,
    Record,
    WorkAreas,
)

# The room that every name's text fits in.
_TEXT: Final = 19


def _words_of(id: FileId) -> Tuple[int, int, int]:
    return (id.number, id.sequence, id.volume)


def _id_of(value: Sequence[int]) -> FileId:
    return FileId(value[0], value[1], value[2])


def _name_of(value: Sequence[int]) -> Name:
    return Name((value[0], value[1], value[2], value[3], value[4]))


def text_to_name(text: str) -> Name:
    """The name of a text `NAME.TYP;V`."""
    return _name_of(call("ods1_text_to_name", text.encode("utf-8", "surrogatepass")))


def name_to_text(name: Name) -> str:
    """The text of a name."""
    text = bytearray(_TEXT)
    length = call("ods1_name_to_text", *name.words, text)[0]
    return text[:length].decode("ascii")


def open_volume(image: Image) -> int:
    """The LBN of a volume's home."""
    return call("ods1_open_volume", image)[0]


def open_file(image: Image, id: FileId) -> int:
    """How many blocks a file has."""
    return call("ods1_open_file", image, *_words_of(id))[0]


def map(image: Image, id: FileId, vbn: int) -> int:
    """The LBN of a file's VBN."""
    return call("ods1_map", image, *_words_of(id), vbn)[0]


def block(image: Image, id: FileId, vbn: int) -> memoryview:
    """The block of a file's VBN: the image's own bytes, for reading."""
    start, length, *_ = call("ods1_block", image, *_words_of(id), vbn)
    return part(image, start, length)


def look_up(image: Image, directory: FileId, name: Name) -> FileId:
    """The ID that a directory has under a name, as it is stored."""
    return _id_of(call("ods1_look_up", image, *_words_of(directory), *name.words))


def next_record(image: Image, directory: FileId, place: int) -> Tuple[Record, int]:
    """The first record of a directory from a place on, and the place to go on from.

    Records that are empty are stepped over.
    """
    value = call("ods1_next_record", image, *_words_of(directory), place)
    return Record(id=_id_of(value), name=_name_of(value[3:])), value[8]


def records(image: Image, directory: FileId) -> Iterator[Record]:
    """The records of a directory that are not empty, in order.

    None where the directory does not open.
    """
    place = 0
    while True:
        try:
            record, place = next_record(image, directory, place)
        except Refused:
            return
        yield record


def judge(image: Image, areas: WorkAreas) -> Counts:
    """The verdict."""
    return Counts(*call("ods1_judge", image, areas.blocks, areas.headers)[:4])


def create(
    image: WritableImage, name: Name, owner: int, protection: int, areas: WorkAreas
) -> FileId:
    """A new file of no blocks."""
    rights = (owner, protection)
    marks = (areas.blocks, areas.headers)
    return _id_of(call("ods1_create", image, *name.words, *rights, *marks))


def extend(image: WritableImage, id: FileId, count: int, areas: WorkAreas) -> int:
    """So many blocks more, in a row, for a file: the LBN of the first."""
    marks = (areas.blocks, areas.headers)
    return call("ods1_extend", image, *_words_of(id), count, *marks)[0]


def delete(image: WritableImage, id: FileId, areas: WorkAreas) -> None:
    """Gives a file up."""
    call("ods1_delete", image, *_words_of(id), areas.blocks, areas.headers)


def geometry(image: Image) -> Geometry:
    """Where the parts of a volume lie."""
    return Geometry(*call("ods1_geometry", image))


def label(image: Image) -> Label:
    """A volume's label."""
    value = call("ods1_label", image)
    *name, owner, protection, characteristics, default_protection = value
    return Label(
        name=struct.pack("<6H", *name),
        owner=owner,
        protection=protection,
        characteristics=characteristics,
        default_protection=default_protection,
    )


def header(image: Image, number: int) -> Header:
    """What the header of a file number in use says."""
    value = call("ods1_header", image, number)
    sequence, segment, next_number, next_sequence, pointers, *name = value
    return Header(
        sequence=sequence,
        segment=segment,
        next=next_number,
        next_sequence=next_sequence,
        pointers=pointers,
        name=_name_of(name),
    )


def pointer(image: Image, number: int, place: int) -> Extent:
    """The blocks that a retrieval pointer, from 0, of a number in use covers."""
    return Extent(*call("ods1_pointer", image, number, place)[:2])


def attributes(image: Image, id: FileId) -> Attributes:
    """What a file says of itself."""
    value = call("ods1_attributes", image, *_words_of(id))
    record_type, record_attributes = value[5].to_bytes(2, "little")
    return Attributes(
        blocks=value[0],
        end=value[1],
        owner=value[2],
        protection=value[3],
        flags=value[4],
        record_type=record_type,
        record_attributes=record_attributes,
        record_size=value[6],
        highest=value[7],
        end_block=value[8],
        first_free=value[9],
    )


def extent(image: Image, id: FileId, vbn: int) -> Extent:
    """The LBN of a file's VBN, and how many blocks from there on lie in a row."""
    return Extent(*call("ods1_extent", image, *_words_of(id), vbn)[:2])


def free_run(image: Image, from_lbn: int) -> Extent:
    """The first run of free blocks from an LBN on."""
    return Extent(*call("ods1_free_run", image, from_lbn)[:2])


def free_runs(image: Image) -> Iterator[Extent]:
    """The runs of free blocks of a volume, in order; none where it does not open."""
    from_lbn = 0
    while True:
        try:
            run = free_run(image, from_lbn)
        except Refused:
            return
        yield run
        from_lbn = run.lbn + run.blocks
