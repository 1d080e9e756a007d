"""Tests of the Python calls: Volume V, buffers, arguments, declarations, documents."""

from __future__ import annotations

import array
import ctypes
import dataclasses
import doctest
import inspect
import mmap
import os
import pickle
import re
import shutil
import struct
import subprocess
import sys
import tempfile
import tracemalloc
import typing
import unittest
from contextlib import contextmanager
from pathlib import Path
from typing import Any, Callable, Dict, Iterator, List, Tuple

import ods1
from ods1 import FileId, Name, Refusal, Refused, WorkAreas, _exported

HERE = Path(__file__).resolve().parent
ROOT = HERE.parents[1]
RUST = ROOT / "bindings" / "rust" / "src"
SAMPLE_PATH = ROOT / "samples" / "volume-v.dsk"
SAMPLE = SAMPLE_PATH.read_bytes()

READS = Name((29001, 7160, 0, 6460, 1))
FILE_6 = FileId(6, 9, 0)
MASTER = FileId.MASTER

# The storage map's byte of blocks 16 to 23, and its bit that says that 22 is free.
MAP_BYTE = 20 * ods1.BLOCK + 2
BIT_22 = 1 << 6


def areas() -> WorkAreas:
    """Work areas for Volume V."""
    return WorkAreas.for_length(len(SAMPLE))


def put(image: bytearray, lbn: int, place: int, words: List[int]) -> None:
    """Puts words into a block, from a word of it on, and its checksum right."""
    block = memoryview(image).cast("H")[256 * lbn : 256 * (lbn + 1)]
    block[place : place + len(words)] = memoryview(array.array("H", words))
    block[255] = sum(block[:255]) & 0xFFFF


class Case(unittest.TestCase):
    """What the tests share."""

    @contextmanager
    def refused(self, refusal: Refusal, place: int = 0) -> Iterator[None]:
        """Sees that a call is refused so."""
        with self.assertRaises(Refused) as caught:
            yield
        self.assertEqual(
            (caught.exception.refusal, caught.exception.place), (refusal, place)
        )

    def mapped(self, access: int) -> mmap.mmap:
        """A copy of Volume V in a file of its own, mapped with this access."""
        file = tempfile.TemporaryFile()
        self.addCleanup(file.close)
        file.write(SAMPLE)
        file.flush()
        return mmap.mmap(file.fileno(), 0, access=access)

    def temporary(self) -> Path:
        """A folder that is there until the test ends."""
        folder = tempfile.TemporaryDirectory()
        self.addCleanup(folder.cleanup)
        return Path(folder.name)


class VolumeV(Case):
    """The worked examples of the rules."""

    def test_names(self) -> None:
        self.assertEqual(ods1.text_to_name("READS.DAT;1"), READS)
        self.assertEqual(ods1.name_to_text(READS), "READS.DAT;1")
        longest = ods1.text_to_name("ABCDEFGHI.XYZ;32767")
        self.assertEqual(ods1.name_to_text(longest), "ABCDEFGHI.XYZ;32767")
        nines = Name((63_999, 63_999, 63_999, 63_999, 1))
        self.assertEqual(ods1.name_to_text(nines), "999999999.999;1")
        with self.refused(Refusal.NAME):
            ods1.name_to_text(Name((64_000, 0, 0, 0, 1)))

    def test_texts_that_are_no_names(self) -> None:
        for text in ["", "READS.DAT", "reads.dat;1", "A.;01", "É.;1", "\ud800.;1"]:
            with self.subTest(text=text), self.refused(Refusal.NAME):
                ods1.text_to_name(text)

    def test_opening(self) -> None:
        self.assertEqual(ods1.open_volume(SAMPLE), 1)
        blocks = {1: 19, 2: 2, 3: 1, 4: 1, 5: 0}
        for number, count in blocks.items():
            self.assertEqual(ods1.open_file(SAMPLE, FileId(number, number, 0)), count)
        self.assertEqual(ods1.open_file(SAMPLE, FILE_6), 3)
        with self.refused(Refusal.RELVOL):
            ods1.open_file(SAMPLE, FileId(6, 9, 1))
        with self.refused(Refusal.NUMBER):
            ods1.open_file(SAMPLE, FileId(7, 1, 0))
        with self.refused(Refusal.SEQUENCE):
            ods1.open_file(SAMPLE, FileId(6, 10, 0))
        with self.refused(Refusal.SIZE):
            ods1.open_volume(b"")

    def test_map_and_block(self) -> None:
        for vbn, lbn in [(1, 30), (2, 31), (3, 25)]:
            self.assertEqual(ods1.map(SAMPLE, FILE_6, vbn), lbn)
            self.assertEqual(ods1.block(SAMPLE, FILE_6, vbn), bytes([lbn]) * 512)
        for vbn in [0, 4, 0xFFFF_FFFF]:
            with self.subTest(vbn=vbn), self.refused(Refusal.VBN):
                ods1.map(SAMPLE, FILE_6, vbn)
            with self.subTest(vbn=vbn), self.refused(Refusal.VBN):
                ods1.block(SAMPLE, FILE_6, vbn)

    def test_look_up(self) -> None:
        self.assertEqual(ods1.look_up(SAMPLE, MASTER, READS), FILE_6)
        with self.refused(Refusal.ABSENT):
            ods1.look_up(SAMPLE, MASTER, READS.with_version(2))
        with self.refused(Refusal.NAME):
            ods1.look_up(SAMPLE, MASTER, Name((0, 0, 0, 0, 0)))

    def test_records(self) -> None:
        record = ods1.Record(FILE_6, READS)
        self.assertEqual(ods1.next_record(SAMPLE, MASTER, 0), (record, 1))
        with self.refused(Refusal.ABSENT):
            ods1.next_record(SAMPLE, MASTER, 1)
        self.assertEqual(list(ods1.records(SAMPLE, MASTER)), [record])
        self.assertEqual(list(ods1.records(SAMPLE, FileId(4, 5, 0))), [])
        self.assertEqual(list(ods1.records(b"", MASTER)), [])

    def test_the_records_of_a_directory_come_in_order(self) -> None:
        image = bytearray(SAMPLE)
        block = 21 * ods1.BLOCK
        first = image[block : block + 16]
        image[block + 32 : block + 48] = first[:14] + bytes([2, 0])
        image[block + 496 : block + 512] = first[:14] + bytes([3, 0])
        versions = [record.name.version for record in ods1.records(image, MASTER)]
        self.assertEqual(versions, [1, 2, 3])

    def test_verdict(self) -> None:
        marks = WorkAreas(bytearray(b"\xee" * 101), bytearray(b"\xee" * 17))
        expected = ods1.Counts(blocks=100, claimed=26, free=74, headers=6)
        self.assertEqual(ods1.judge(SAMPLE, marks), expected)
        covered = [*range(22), 25, 30, 31, 99]
        self.assertEqual([j for j in range(100) if marks.blocks[j] == 1], covered)
        self.assertEqual(sum(marks.blocks), 26 + 0xEE)
        self.assertEqual(marks.headers, bytes(16) + b"\xee")

    def test_a_verdict_with_a_place(self) -> None:
        image = bytearray(SAMPLE)
        image[MAP_BYTE] ^= BIT_22
        with self.refused(Refusal.MAP, place=22):
            ods1.judge(image, areas())

    def test_extend(self) -> None:
        for count, lbn in [(1, 22), (3, 22), (4, 26), (67, 32)]:
            image = bytearray(SAMPLE)
            self.assertEqual(ods1.extend(image, FILE_6, count, areas()), lbn)
            self.assertEqual(ods1.open_file(image, FILE_6), 3 + count)
            self.assertEqual(ods1.map(image, FILE_6, 4), lbn)
            self.assertEqual(ods1.judge(image, areas()).claimed, 26 + count)
        with self.refused(Refusal.RUN):
            ods1.extend(bytearray(SAMPLE), FILE_6, 68, areas())

    def test_create(self) -> None:
        image = bytearray(SAMPLE)
        id = ods1.create(image, READS, 0o401, 0xEE00, areas())
        self.assertEqual(id, FileId(7, 1, 0))
        self.assertEqual(ods1.header(image, 7).name, READS)
        said = ods1.attributes(image, id)
        self.assertEqual((said.owner, said.protection), (0o401, 0xEE00))
        self.assertEqual(said.blocks, 0)

    def test_a_deleted_file_stays_refused(self) -> None:
        image = bytearray(SAMPLE)
        ods1.delete(image, FILE_6, areas())
        with self.refused(Refusal.NUMBER):
            ods1.open_file(image, FILE_6)
        self.assertEqual(ods1.create(image, READS, 0, 0, areas()), FileId(6, 10, 0))
        self.assertEqual(ods1.look_up(image, MASTER, READS), FILE_6)
        with self.refused(Refusal.SEQUENCE):
            ods1.open_file(image, FILE_6)

    def test_geometry_and_label(self) -> None:
        expected = ods1.Geometry(
            blocks=100,
            home=1,
            ibsz=1,
            iblb=2,
            fmax=16,
            slots=16,
            map=20,
            map_blocks=1,
            vlev=257,
            index_headers=1,
        )
        self.assertEqual(ods1.geometry(SAMPLE), expected)
        self.assertEqual(ods1.label(SAMPLE), ods1.Label(bytes(12), 0, 0, 0, 0))

    def test_each_word_of_the_label(self) -> None:
        image = bytearray(SAMPLE)
        name = b"METER\x0012\x00\x00AZ"
        words = [*struct.unpack("<6H", name), 0, 0, 1, 2, 3, 4]
        put(image, 1, 7, words)
        # H.CHK1 was 277.
        put(image, 1, 29, [277 + sum(words) & 0xFFFF])
        self.assertEqual(ods1.label(image), ods1.Label(name, 1, 2, 3, 4))

    def test_header_and_pointers(self) -> None:
        nameless = Name((0, 0, 0, 0, 0))
        expected = ods1.Header(
            sequence=9, segment=0, next=0, next_sequence=0, pointers=2, name=nameless
        )
        self.assertEqual(ods1.header(SAMPLE, 6), expected)
        self.assertEqual(ods1.pointer(SAMPLE, 6, 0), ods1.Extent(30, 2))
        self.assertEqual(ods1.pointer(SAMPLE, 6, 1), ods1.Extent(25, 1))
        with self.refused(Refusal.ABSENT):
            ods1.pointer(SAMPLE, 6, 2)
        with self.refused(Refusal.NUMBER):
            ods1.header(SAMPLE, 7)

    def test_the_headers_of_a_chain(self) -> None:
        image = bytearray(SAMPLE)
        ods1.create(image, READS, 0, 0, areas())
        put(image, 8, 47, [7, 1])
        put(image, 9, 46, [1])
        self.assertEqual(ods1.judge(image, areas()).headers, 7)
        first, second = ods1.header(image, 6), ods1.header(image, 7)
        self.assertEqual((first.segment, first.next, first.next_sequence), (0, 7, 1))
        self.assertEqual((second.segment, second.next, second.next_sequence), (1, 0, 0))
        self.assertEqual((second.sequence, second.pointers), (1, 0))
        self.assertEqual(ods1.extend(image, FILE_6, 67, areas()), 32)
        self.assertEqual(ods1.pointer(image, 7, 0), ods1.Extent(32, 67))
        ods1.delete(image, FILE_6, areas())
        self.assertEqual(ods1.judge(image, areas()).headers, 5)

    def test_attributes(self) -> None:
        expected = ods1.Attributes(
            blocks=1,
            end=16,
            owner=0,
            protection=0,
            flags=0,
            record_type=0,
            record_attributes=0,
            record_size=0,
            highest=0,
            end_block=1,
            first_free=16,
        )
        self.assertEqual(ods1.attributes(SAMPLE, MASTER), expected)

    def test_each_word_of_the_attributes(self) -> None:
        image = bytearray(SAMPLE)
        put(image, 8, 4, [11, 12, 13, 0x0E0F, 14, 0, 15, 0, 2, 17])
        expected = ods1.Attributes(
            blocks=3,
            end=529,
            owner=11,
            protection=12,
            flags=13,
            record_type=0x0F,
            record_attributes=0x0E,
            record_size=14,
            highest=15,
            end_block=2,
            first_free=17,
        )
        self.assertEqual(ods1.attributes(image, FILE_6), expected)

    def test_extents_and_free_runs(self) -> None:
        extents = [ods1.extent(SAMPLE, FILE_6, vbn) for vbn in (1, 2, 3)]
        expected = [ods1.Extent(30, 2), ods1.Extent(31, 1), ods1.Extent(25, 1)]
        self.assertEqual(extents, expected)
        self.assertEqual(extents[0].bytes(SAMPLE), b"\x1e" * 512 + b"\x1f" * 512)
        runs = [ods1.Extent(22, 3), ods1.Extent(26, 4), ods1.Extent(32, 67)]
        self.assertEqual(list(ods1.free_runs(SAMPLE)), runs)
        self.assertEqual(ods1.free_run(SAMPLE, 23), ods1.Extent(23, 2))
        with self.refused(Refusal.ABSENT):
            ods1.free_run(SAMPLE, 99)
        self.assertEqual(list(ods1.free_runs(b"")), [])


class RefusedCalls(Case):
    """A refused call changes no byte of the image."""

    def sees(self, refusal: Refusal, call: Callable[[bytearray], Any]) -> None:
        """Sees that a call on Volume V is refused, and leaves it as it was."""
        image = bytearray(SAMPLE)
        with self.subTest(refusal=refusal.name):
            with self.refused(refusal):
                call(image)
            self.assertEqual(image, SAMPLE)

    def test_extend(self) -> None:
        asked = [
            (FILE_6, 68, Refusal.RUN),
            (FILE_6, 0, Refusal.COUNT),
            (FILE_6, 257, Refusal.COUNT),
            (FILE_6, 0xFFFF_FFFF, Refusal.COUNT),
            (FileId(6, 10, 0), 1, Refusal.SEQUENCE),
            (FileId(6, 9, 1), 1, Refusal.RELVOL),
            (FileId(7, 1, 0), 1, Refusal.NUMBER),
            (MASTER, 1, Refusal.KNOWN),
        ]
        for id, count, refusal in asked:
            self.sees(refusal, lambda image: ods1.extend(image, id, count, areas()))

    def test_delete(self) -> None:
        asked = [
            (FileId(6, 8, 0), Refusal.SEQUENCE),
            (FileId(0, 0, 0), Refusal.NUMBER),
            (MASTER, Refusal.KNOWN),
        ]
        for id, refusal in asked:
            self.sees(refusal, lambda image: ods1.delete(image, id, areas()))

    def test_create(self) -> None:
        version_0 = READS.with_version(0)
        self.sees(Refusal.NAME, lambda i: ods1.create(i, version_0, 0, 0, areas()))
        image = bytearray(SAMPLE)
        for number in range(7, 17):
            id = ods1.create(image, READS, 0, 0, areas())
            self.assertEqual(id, FileId(number, 1, 0))
        full = bytes(image)
        with self.refused(Refusal.NONUMBER):
            ods1.create(image, READS, 0, 0, areas())
        self.assertEqual(image, full)

    def test_work_areas_that_are_too_short(self) -> None:
        for blocks, headers in [(99, 16), (100, 15), (0, 0)]:
            short = WorkAreas(bytearray(blocks), bytearray(headers))
            self.sees(Refusal.WORK, lambda image: ods1.judge(image, short))
            self.sees(Refusal.WORK, lambda i: ods1.create(i, READS, 0, 0, short))
            self.sees(Refusal.WORK, lambda i: ods1.extend(i, FILE_6, 1, short))
            self.sees(Refusal.WORK, lambda i: ods1.delete(i, FILE_6, short))
            self.assertEqual(sum(short.blocks) + sum(short.headers), 0)

    def test_a_volume_that_is_not_accepted(self) -> None:
        damaged = bytearray(SAMPLE)
        damaged[MAP_BYTE] ^= BIT_22
        image = bytearray(damaged)
        with self.refused(Refusal.MAP, place=22):
            ods1.create(image, READS, 0, 0, areas())
        with self.refused(Refusal.MAP, place=22):
            ods1.extend(image, FILE_6, 1, areas())
        with self.refused(Refusal.MAP, place=22):
            ods1.delete(image, FILE_6, areas())
        self.assertEqual(image, damaged)

    def test_a_refusal_as_text_and_pickled(self) -> None:
        refused = Refused(Refusal.TWICE, 30)
        self.assertEqual(str(refused), "answer 19 TWICE place 30")
        again = pickle.loads(pickle.dumps(refused))
        self.assertEqual((again.refusal, again.place), (Refusal.TWICE, 30))


class Buffers(Case):
    """Images of every kind, read and written where they are."""

    def test_every_buffer_is_read(self) -> None:
        beside = memoryview(b"beside " + SAMPLE + b" beside")[7:-7]
        buffers: List[Any] = [
            SAMPLE,
            bytearray(SAMPLE),
            memoryview(SAMPLE),
            memoryview(bytearray(SAMPLE)),
            beside,
            memoryview(SAMPLE).cast("H"),
            memoryview(SAMPLE).cast("B", [100, 512]),
            array.array("H", SAMPLE),
            self.mapped(mmap.ACCESS_READ),
            self.mapped(mmap.ACCESS_WRITE),
            self.mapped(mmap.ACCESS_COPY),
            memoryview(self.mapped(mmap.ACCESS_READ)),
        ]
        for buffer in buffers:
            with self.subTest(buffer=type(buffer)):
                self.assertEqual(ods1.judge(buffer, areas()).claimed, 26)
                self.assertEqual(ods1.block(buffer, FILE_6, 3), b"\x19" * 512)
                self.assertTrue(ods1.block(buffer, FILE_6, 3).readonly)

    def test_no_image_is_copied(self) -> None:
        large = bytes(8 << 20)
        file = tempfile.TemporaryFile()
        self.addCleanup(file.close)
        file.truncate(len(large))
        mapped = mmap.mmap(file.fileno(), 0, access=mmap.ACCESS_READ)
        buffers: List[Any] = [large, bytearray(large), memoryview(large), mapped]
        tracemalloc.start()
        self.addCleanup(tracemalloc.stop)
        for buffer in buffers:
            with self.refused(Refusal.HOME):
                ods1.open_volume(buffer)
            ods1.Extent(0, 16_384).bytes(buffer)
        self.assertLess(tracemalloc.get_traced_memory()[1], 1 << 20)

    def test_a_block_is_the_images_own(self) -> None:
        image = bytearray(SAMPLE)
        block = ods1.block(image, FILE_6, 1)
        image[30 * ods1.BLOCK] = 0xAB
        self.assertEqual(block[0], 0xAB)
        with self.assertRaises(TypeError):
            block[0] = 1
        with self.assertRaises(BufferError):
            image.append(0)
        block.release()
        image.append(0)

    def test_an_extent_that_the_image_has_not(self) -> None:
        for extent in [ods1.Extent(99, 2), ods1.Extent(101, 0), ods1.Extent(-1, 1)]:
            with self.subTest(extent=extent), self.assertRaises(ValueError):
                extent.bytes(SAMPLE)

    def test_every_writable_buffer_is_changed(self) -> None:
        expected = bytearray(SAMPLE)
        ods1.extend(expected, FILE_6, 4, areas())
        self.assertNotEqual(expected, SAMPLE)
        buffers: List[Any] = [
            memoryview(bytearray(SAMPLE)),
            array.array("H", SAMPLE),
            self.mapped(mmap.ACCESS_WRITE),
            self.mapped(mmap.ACCESS_COPY),
        ]
        for buffer in buffers:
            with self.subTest(buffer=type(buffer)):
                self.assertEqual(ods1.extend(buffer, FILE_6, 4, areas()), 26)
                self.assertEqual(bytes(memoryview(buffer)), expected)

    def test_a_change_reaches_the_file(self) -> None:
        path = self.temporary() / "volume.dsk"
        path.write_bytes(SAMPLE)
        with path.open("r+b") as file, mmap.mmap(file.fileno(), 0) as image:
            ods1.delete(image, FILE_6, areas())
        with self.refused(Refusal.NUMBER):
            ods1.open_file(path.read_bytes(), FILE_6)

    def test_what_cannot_be_written_is_not(self) -> None:
        buffers: List[Any] = [
            SAMPLE,
            memoryview(SAMPLE),
            memoryview(bytearray(SAMPLE)).toreadonly(),
            self.mapped(mmap.ACCESS_READ),
        ]
        calls: List[Callable[[Any], Any]] = [
            lambda image: ods1.create(image, READS, 0, 0, areas()),
            lambda image: ods1.extend(image, FILE_6, 1, areas()),
            lambda image: ods1.delete(image, FILE_6, areas()),
            lambda image: ods1.judge(SAMPLE, WorkAreas(image, bytearray(16))),
            lambda image: ods1.judge(SAMPLE, WorkAreas(bytearray(100), image)),
        ]
        for buffer in buffers:
            for call in calls:
                with self.assertRaisesRegex(TypeError, "must be a writable buffer"):
                    call(buffer)
            self.assertEqual(bytes(memoryview(buffer)), SAMPLE)

    def test_what_is_no_buffer(self) -> None:
        every_other = memoryview(SAMPLE + SAMPLE)[::2]
        things: List[Any] = ["text", None, 512, [0] * 51_200, every_other]
        for thing in things:
            with self.subTest(thing=type(thing)):
                with self.assertRaisesRegex(TypeError, "image must be a buffer"):
                    ods1.open_volume(thing)

    def test_buffers_are_given_back(self) -> None:
        image = bytearray(SAMPLE)
        marks = areas()
        ods1.judge(image, marks)
        with self.refused(Refusal.RUN):
            ods1.extend(image, FILE_6, 68, marks)
        with self.assertRaises(ValueError):
            ods1.extend(image, FILE_6, -1, marks)
        with self.assertRaises(TypeError):
            ods1.judge(image, WorkAreas(marks.blocks, b""))  # type: ignore[arg-type]
        with self.assertRaises(ValueError):
            ods1.judge(image, WorkAreas(marks.blocks, marks.blocks))
        for buffer in (image, marks.blocks, marks.headers):
            buffer.append(0)
        mapped = self.mapped(mmap.ACCESS_READ)
        ods1.open_volume(mapped)
        mapped.close()

    def test_what_is_written_overlaps_nothing(self) -> None:
        image = bytearray(SAMPLE)
        one: Any = memoryview(bytearray(200))
        spare = bytearray(100)
        for marks in [
            WorkAreas(image, spare),
            WorkAreas(spare, image),
            WorkAreas(spare, spare),
            WorkAreas(one[:101], one[100:]),
        ]:
            with self.assertRaisesRegex(ValueError, "bytes in common"):
                ods1.judge(image, marks)
            with self.assertRaisesRegex(ValueError, "bytes in common"):
                ods1.delete(image, FILE_6, marks)
        self.assertEqual(image, SAMPLE)
        self.assertEqual(ods1.judge(image, WorkAreas(one[:100], one[100:])).free, 74)


class Arguments(Case):
    """Numbers that are too large are not cut, and IDs and names are what they say."""

    def test_words(self) -> None:
        image = bytearray(SAMPLE)
        calls: List[Callable[[Any], Any]] = [
            lambda word: FileId(word, 9, 0),
            lambda word: FileId(6, word, 0),
            lambda word: FileId(6, 9, word),
            lambda word: Name((word, 7160, 0, 6460, 1)),
            lambda word: READS.with_version(word),
            lambda word: ods1.header(SAMPLE, word),
            lambda word: ods1.pointer(SAMPLE, word, 0),
            lambda word: ods1.create(image, READS, word, 0, areas()),
            lambda word: ods1.create(image, READS, 0, word, areas()),
        ]
        self.sees_range(calls, 0x1_0000)
        self.assertEqual(image, SAMPLE)

    def test_longs(self) -> None:
        image = bytearray(SAMPLE)
        calls: List[Callable[[Any], Any]] = [
            lambda long: ods1.map(SAMPLE, FILE_6, long),
            lambda long: ods1.block(SAMPLE, FILE_6, long),
            lambda long: ods1.extent(SAMPLE, FILE_6, long),
            lambda long: ods1.next_record(SAMPLE, MASTER, long),
            lambda long: ods1.pointer(SAMPLE, 6, long),
            lambda long: ods1.free_run(SAMPLE, long),
            lambda long: ods1.extend(image, FILE_6, long, areas()),
        ]
        self.sees_range(calls, 0x1_0000_0000)
        self.assertEqual(image, SAMPLE)

    def sees_range(self, calls: List[Callable[[Any], Any]], beyond: int) -> None:
        """Sees that each call takes numbers below `beyond`, and nothing else."""
        for place, call in enumerate(calls):
            for number in (-1, beyond, beyond + 1, 1 << 64):
                with self.subTest(call=place, number=number):
                    with self.assertRaisesRegex(ValueError, f"is {number}, which"):
                        call(number)
            for thing in ("1", 1.0, None, b"1"):
                with self.subTest(call=place, thing=thing):
                    with self.assertRaisesRegex(TypeError, "which is not an int"):
                        call(thing)

    def test_the_highest_numbers_pass_whole(self) -> None:
        image = bytearray(SAMPLE)
        id = ods1.create(image, READS, 0xFFFF, 0xFFFE, areas())
        said = ods1.attributes(image, id)
        self.assertEqual((said.owner, said.protection), (0xFFFF, 0xFFFE))
        with self.refused(Refusal.NUMBER):
            ods1.header(SAMPLE, 0xFFFF)
        with self.refused(Refusal.ABSENT):
            ods1.pointer(SAMPLE, 6, 0xFFFF_FFFF)

    def test_ids(self) -> None:
        for id in [FILE_6, FileId(0, 65_535, 1), MASTER]:
            self.assertEqual(FileId.parse(str(id)), id)
        wrong = ["", "6", "6,9", "6,9,0,0", "6,9,", ",9,0", "6,9,65536", "+6,9,0"]
        wrong += [" 6,9,0", "6;9;0", "6,9,0\n", "٦,9,0", "6,9," + "1" * 5_000]
        for text in wrong:
            with self.subTest(text=text), self.assertRaises(ods1.NotAnId):
                FileId.parse(text)
        self.assertEqual(sorted([FileId(6, 10, 0), FILE_6])[0], FILE_6)
        self.assertEqual(len({FILE_6, FileId(6, 9, 0)}), 1)

    def test_names(self) -> None:
        self.assertEqual(READS.with_version(7).version, 7)
        self.assertTrue(READS.with_version(7).is_version_of(READS))
        self.assertFalse(Name((29001, 7160, 0, 6461, 1)).is_version_of(READS))
        for words in [(1, 2, 3, 4), (1, 2, 3, 4, 5, 6), [1, 2, 3, 4, 5], "ABCDE"]:
            with self.subTest(words=words), self.assertRaises(TypeError):
                Name(words)  # type: ignore[arg-type]

    def test_a_name_is_no_id(self) -> None:
        swapped: Tuple[Any, Any] = (READS, MASTER)
        with self.assertRaises(AttributeError):
            ods1.look_up(SAMPLE, *swapped)


def rust(file: str) -> str:
    """A source file of the Rust bindings, without comments."""
    return re.sub(r"//.*", "", (RUST / file).read_text(encoding="utf-8"))


def declared_in_rust() -> Dict[str, List[Tuple[str, str]]]:
    """The exported functions as Rust declares them: arguments with their types."""
    functions = re.findall(r"pub fn (\w+)\(([^)]*)\);", rust("exported.rs"))
    return {
        name: re.findall(r"(\w+): ([^,]+?)\s*(?:,|$)", arguments)
        for name, arguments in functions
    }


def in_rust(argument: _exported.Argument) -> List[Tuple[str, str]]:
    """An argument as Rust declares it."""
    if isinstance(argument, _exported.Number):
        return [(argument.name, {0xFFFF: "u16", 0xFFFF_FFFF: "u32"}[argument.most])]
    pointer = "*mut u8" if argument.writable else "*const u8"
    return [(argument.name, pointer), (f"{argument.name}_len", "usize")]


class Declarations(Case):
    """The Python calls are those of the Rust bindings, which declare them first."""

    def test_functions_are_declared_as_in_rust(self) -> None:
        here = {
            name: [pair for argument in arguments for pair in in_rust(argument)]
            + [("answer", "*mut Words")]
            for name, arguments in _exported.DECLARED.items()
        }
        self.assertEqual(here, declared_in_rust())
        self.assertEqual(len(here), 19)

    def test_ctypes_has_the_widths_of_rust(self) -> None:
        types = {
            "u16": ctypes.c_uint16,
            "u32": ctypes.c_uint32,
            "usize": ctypes.c_size_t,
            "*const u8": ctypes.c_void_p,
            "*mut u8": ctypes.c_void_p,
            "*mut Words": ctypes.POINTER(ctypes.c_uint64 * 12),
        }
        self.assertIn("ANSWER_WORDS: usize = 12;", rust("words.rs"))
        self.assertIn("Words = [u64; ANSWER_WORDS];", rust("words.rs"))
        for name, arguments in declared_in_rust().items():
            function: Any = _exported.FUNCTIONS[name]
            self.assertIsNone(function.restype)
            widths = [types[kind] for _, kind in arguments]
            self.assertEqual(list(function.argtypes), widths, name)

    def test_refusals_have_the_numbers_of_rust(self) -> None:
        table = re.findall(r'\w+ = ([0-9]+) "([A-Z]+)",', rust("answer.rs"))
        here = [(str(refusal.value), refusal.name) for refusal in Refusal]
        self.assertEqual(here, table)
        self.assertEqual(len(here), 28)

    def test_types_have_the_fields_of_rust(self) -> None:
        struct = re.compile(r"pub struct (\w+) \{(.*?)\n\}", re.DOTALL)
        structs = struct.findall(rust("types.rs"))
        self.assertEqual(len(structs), 9)
        for name, body in structs:
            fields = [field.name for field in dataclasses.fields(getattr(ods1, name))]
            self.assertEqual(fields, re.findall(r"pub (\w+):", body), name)

    def test_what_is_public_is_so_in_rust(self) -> None:
        lists = re.findall(r"pub use \w+::\{([^}]*)\};", rust("lib.rs"))
        there = {name for names in lists for name in re.findall(r"\w+", names)}
        here = set(ods1.__all__) - {"Image", "WritableImage"}
        self.assertEqual(here, there - {"Answer"})

    def test_everything_public_is_annotated(self) -> None:
        public = [getattr(ods1, name) for name in ods1.__all__]
        functions = [thing for thing in public if inspect.isfunction(thing)]
        self.assertEqual(len(functions), 21)
        for function in functions:
            names = {*inspect.signature(function).parameters, "return"}
            self.assertEqual(set(typing.get_type_hints(function)), names, function)
            self.assertTrue(function.__doc__, function)

    def test_values_are_frozen(self) -> None:
        public = [getattr(ods1, name) for name in ods1.__all__]
        classes: List[Any] = [c for c in public if dataclasses.is_dataclass(c)]
        self.assertEqual(len(classes), 10)
        for kind in classes:
            self.assertTrue(kind.__dataclass_params__.frozen, kind)


class Loading(Case):
    """Where the library is looked for, and what is said if it is not there."""

    def imported(self, library: str) -> subprocess.CompletedProcess[str]:
        """Imports the module with ODS1_LIBRARY set so, in a process of its own."""
        command = "import ods1; print(ods1.name_to_text(ods1.text_to_name('A.;1')))"
        return subprocess.run(
            [sys.executable, "-c", command],
            cwd=HERE,
            env={**os.environ, "ODS1_LIBRARY": library},
            capture_output=True,
            text=True,
            check=False,
        )

    def test_a_library_that_is_missing_or_another(self) -> None:
        for library in ["/nowhere/libods1.so", str(SAMPLE_PATH), "libc.so.6"]:
            with self.subTest(library=library):
                result = self.imported(library)
                self.assertEqual(result.returncode, 1)
                last = result.stderr.splitlines()[-1]
                self.assertRegex(last, "^ImportError: .*run bindings/python/build.sh")
                self.assertIn("ODS1_LIBRARY", last)

    def test_an_empty_name_is_none(self) -> None:
        self.assertEqual(self.imported("").stdout, "A.;1\n")

    def test_the_library_is_built_from_the_archive(self) -> None:
        scratch = self.temporary()
        (scratch / "bindings" / "python").mkdir(parents=True)
        script = scratch / "bindings" / "python" / "build.sh"
        shutil.copy(HERE / "build.sh", script)
        missing = subprocess.run(
            [script], cwd="/", capture_output=True, text=True, check=False
        )
        self.assertEqual(missing.returncode, 1)
        self.assertIn("target/staticlib/libods1.a is missing: run", missing.stderr)
        archive = scratch / "target" / "staticlib" / "libods1.a"
        archive.parent.mkdir(parents=True)
        shutil.copy(ROOT / archive.relative_to(scratch), archive)
        subprocess.run([script], cwd="/", check=True)
        library = scratch / "target" / "python" / "libods1.so"
        self.assertEqual(self.imported(str(library)).stdout, "A.;1\n")


class Documents(Case):
    """The example, and what the documents say that it prints."""

    def example(self, *arguments: object) -> subprocess.CompletedProcess[str]:
        """Runs the example."""
        return subprocess.run(
            [sys.executable, HERE / "example.py", *map(str, arguments)],
            capture_output=True,
            text=True,
            check=False,
        )

    def changed(self) -> Path:
        """Volume V after file 6 was deleted and its number used again."""
        image = bytearray(SAMPLE)
        ods1.delete(image, FILE_6, areas())
        ods1.create(image, ods1.text_to_name("OTHER.DAT;1"), 0, 0, areas())
        path = self.temporary() / "changed.dsk"
        path.write_bytes(image)
        return path

    def test_the_example_prints_what_the_readme_says(self) -> None:
        readme = (HERE / "README.md").read_text(encoding="utf-8")
        shown = dict(
            re.findall(r"    \$ python3 example\.py (\S+)\n((?:    .*\n)+)", readme)
        )
        paths = {
            "../../samples/volume-v.dsk": SAMPLE_PATH,
            "changed.dsk": self.changed(),
        }
        self.assertEqual(set(shown), set(paths))
        for name, path in paths.items():
            result = self.example(path)
            said = re.sub("(?m)^    ", "", shown[name])
            self.assertEqual((result.stdout, result.returncode), (said, 0))

    def test_the_example_on_other_files(self) -> None:
        folder = self.temporary()
        image = bytearray(SAMPLE)
        image[MAP_BYTE] ^= BIT_22
        image[21 * ods1.BLOCK + 14] = 0
        (folder / "damaged.dsk").write_bytes(image)
        result = self.example(folder / "damaged.dsk")
        lines = [
            "answer 21 MAP place 22",
            "  29001,7160,0,6460,0 6,9,0         3 blocks",
        ]
        self.assertEqual(result.stdout.splitlines(), lines)
        self.assertEqual(result.returncode, 1)
        (folder / "empty.dsk").touch()
        empty = self.example(folder / "empty.dsk")
        self.assertEqual(empty.stdout, "answer 1 SIZE place 0\n")
        self.assertEqual(empty.returncode, 1)

    def test_the_example_called_wrongly(self) -> None:
        missing = self.example(HERE / "nowhere.dsk")
        self.assertEqual((missing.stdout, missing.returncode), ("", 2))
        self.assertIn("nowhere.dsk", missing.stderr)
        usage = self.example()
        self.assertEqual(usage.stderr, "usage: example.py IMAGE\n")
        self.assertEqual(usage.returncode, 2)

    def test_sessions_in_the_documents(self) -> None:
        self.addCleanup(os.chdir, os.getcwd())
        os.chdir(HERE)
        module = doctest.testmod(ods1)
        readme = doctest.testfile("README.md")
        self.assertEqual((module.failed, readme.failed), (0, 0))
        self.assertEqual((module.attempted, readme.attempted), (8, 9))


if __name__ == "__main__":
    unittest.main()
