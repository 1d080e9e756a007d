"""Calls of the proved library for Files-11 ODS-1 disk images.

An image is a buffer of bytes, 512 for each block: bytes, a bytearray, an mmap or a
memoryview, which is read where it is and never copied; create, extend and delete want
one that can be written to. A call answers its value, or raises `Refused` with the
refusal and the place of the rules' table of answers; a refused call changes no byte of
the image. A number that does not fit its 16 or 32 bits is a ValueError.

>>> import ods1
>>> from pathlib import Path
>>> image = Path("../../samples/volume-v.dsk").read_bytes()
>>> id = ods1.look_up(image, ods1.FileId.MASTER, ods1.text_to_name("READS.DAT;1"))
>>> print(id)
6,9,0
>>> ods1.open_file(image, id)
3
>>> ods1.map(image, id, 2)
31
>>> ods1.open_file(image, ods1.FileId(6, 10, 0))
Traceback (most recent call last):
ods1.Refused: answer 9 SEQUENCE place 0

The block of `block`, and the bytes of `Extent.bytes`, are views of the image: while one
is kept, a bytearray cannot be resized and an mmap cannot be closed.
"""

from ._answer import Refusal, Refused
from ._calls import (
    attributes,
    block,
    create,
    delete,
    extend,
    extent,
    free_run,
    free_runs,
    geometry,
    header,
    judge,
    label,
    look_up,
    map,
    name_to_text,
    next_record,
    open_file,
    open_volume,
    pointer,
    records,
    text_to_name,
)
from ._lending import Image, WritableImage
from ._types import (
    BLOCK,
    MOST_NUMBERS,
    Attributes,
    Counts,
    Extent,
    FileId,
    Geometry,
    Header,
    Label,
    Name,
    NotAnId,
    Record,
    WorkAreas,
)

__all__ = [
    "BLOCK",
    "MOST_NUMBERS",
    "Attributes",
    "Counts",
    "Extent",
    "FileId",
    "Geometry",
    "Header",
    "Image",
    "Label",
    "Name",
    "NotAnId",
    "Record",
    "Refusal",
    "Refused",
    "WorkAreas",
    "WritableImage",
    "attributes",
    "block",
    "create",
    "delete",
    "extend",
    "extent",
    "free_run",
    "free_runs",
    "geometry",
    "header",
    "judge",
    "label",
    "look_up",
    "map",
    "name_to_text",
    "next_record",
    "open_file",
    "open_volume",
    "pointer",
    "records",
    "text_to_name",
]
