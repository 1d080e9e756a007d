"""Judges the volume in an image, and lists its master directory.

The verdict is printed as the judging program prints it. Then each record has a line:
its name, its ID, and what opening that ID answers. Where that is a refusal the line
begins with `!`; SEQUENCE and NUMBER there say that the file which the record was made
for is gone, though another may have its number.
"""

from __future__ import annotations

import sys
from pathlib import Path
from typing import List

import ods1


def accepted(counts: ods1.Counts) -> List[str]:
    """The verdict on a volume that is accepted."""
    return [
        "answer 0 DONE place 0",
        f"blocks {counts.blocks}",
        f"claimed {counts.claimed}",
        f"free {counts.free}",
        f"headers {counts.headers}",
    ]


def text_of(name: ods1.Name) -> str:
    """A name as text, or as its words if it is not a proper one."""
    try:
        return ods1.name_to_text(name)
    except ods1.Refused:
        return ",".join(str(word) for word in name.words)


def line(image: bytes, record: ods1.Record) -> str:
    """The line of a record."""
    try:
        mark, answer = " ", f"{ods1.open_file(image, record.id)} blocks"
    except ods1.Refused as refused:
        mark, answer = "!", str(refused)
    return f"{mark} {text_of(record.name):<19} {record.id!s:<13} {answer}"


def main(arguments: List[str]) -> int:
    """Prints what there is to say of the image; 0 where the volume is accepted."""
    if len(arguments) != 1:
        print("usage: example.py IMAGE", file=sys.stderr)
        return 2
    try:
        image = Path(arguments[0]).read_bytes()
    except OSError as error:
        print(f"example.py: {error}", file=sys.stderr)
        return 2
    try:
        counts = ods1.judge(image, ods1.WorkAreas.for_length(len(image)))
        status, lines = 0, accepted(counts)
    except ods1.Refused as refused:
        status, lines = 1, [str(refused)]
    print(*lines, sep="\n")
    for record in ods1.records(image, ods1.FileId.MASTER):
        print(line(image, record))
    return status


if __name__ == "__main__":
    sys.exit(main(sys.argv[1:]))
