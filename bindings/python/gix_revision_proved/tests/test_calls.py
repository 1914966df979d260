"""Each call once over a criss-cross."""

from __future__ import annotations

import hashlib
import mmap
import os
import struct
import tempfile
import unittest

import gix_revision_proved
from gix_revision_proved import AlreadyThere, Altered, Commit, Description, Fault, History, Kind, Misshapen, Names
from gix_revision_proved import NoCommit, NoGraph, NoKind, NoLevels, Span, graph_fault

# A commit as git stores it, on the parent 11 11 .., and its id.
CONTENT = b"""\
tree 4b825dc642cb6eb9a060e54bf8d69288fbee4904
parent 1111111111111111111111111111111111111111
author a <a@b> 5 +0000
committer a <a@b> 7 +0000

m
"""
CONTENT_ID = "163ba4c0c966e03dfae90637407a44f5437f71f8"


def id_of(byte: int) -> str:
    return f"{byte:02x}" * 20


def part_of(levels: list[int], first: int, count: int, hashes: list[bytes]) -> bytes:
    """Returns the commit-graph file of some commits of the criss-cross, without the hash at its end.

    It is above files with these hashes.
    """
    none = 0x70000000
    parents = [(none, none), (0, none), (0, none), (1, 2), (1, 2)]
    chunks = [(b"OIDF", 1024), (b"OIDL", 20 * count), (b"CDAT", 36 * count), (b"BASE", 20 * len(hashes))]
    if not hashes:
        chunks.pop()
    file, place = b"CGPH\1\1" + bytes([len(chunks), len(hashes)]), 20 + 12 * len(chunks)
    for name, length in chunks:
        file += struct.pack(">4sQ", name, place)
        place += length
    file += struct.pack(">4sQ", bytes(4), place)
    file += b"".join(struct.pack(">I", min(max(byte // 0x11 - first, 0), count)) for byte in range(256))
    file += b"".join(bytes([0x11 * (k + 1)] * 20) for k in range(first, first + count))
    for both, level, time in list(zip(parents, levels, (1, 2, 2, 4, 5)))[first : first + count]:
        file += bytes(20) + struct.pack(">IIII", *both, level << 2, time)
    return file + b"".join(hashes)


def file_of(levels: list[int]) -> bytes:
    """Returns the commit-graph file of the criss-cross with these levels. The hash at its end is not right."""
    return part_of(levels, 0, 5, []) + bytes(20)


def chain_of(levels: list[int]) -> list[bytes]:
    """Returns the criss-cross with these levels as a chain of three commit-graph files, the lowest first."""
    files: list[bytes] = []
    for first, count in ((0, 1), (1, 2), (3, 2)):
        file = part_of(levels, first, count, [it[-20:] for it in files])
        files.append(file + hashlib.sha1(file).digest())
    return files


def criss_cross() -> History:
    history = History()
    history.insert(id_of(0x11), [], 1)
    history.insert(bytes([0x22] * 20), [id_of(0x11)], 2)
    history.insert(id_of(0x33), (id_of(0x11),), 2)
    history.insert(bytearray([0x44] * 20), [id_of(0x22), id_of(0x33)], 4)
    history.insert(memoryview(bytes([0x55] * 20)), [id_of(0x22), bytes([0x33] * 20)], 5)
    return history


class Calls(unittest.TestCase):
    def setUp(self) -> None:
        self.history = criss_cross()
        self.addCleanup(self.history.close)

    def test_bases(self) -> None:
        self.assertEqual(self.history.merge_bases(id_of(0x44), [id_of(0x55)]), [id_of(0x22), id_of(0x33)])
        self.assertEqual(self.history.merge_bases(id_of(0x44), [id_of(0x99)]), [])
        self.assertEqual(self.history.octopus(id_of(0x44), [id_of(0x55)]), id_of(0x22))
        self.assertIsNone(self.history.octopus(id_of(0x44), [id_of(0x99)]))
        self.assertEqual(self.history.independent([id_of(0x22), id_of(0x44)]), [id_of(0x44)])
        self.assertTrue(self.history.is_ancestor(id_of(0x11), id_of(0x55)))
        self.assertFalse(self.history.is_ancestor(id_of(0x55), id_of(0x11)))

    def test_counts(self) -> None:
        self.assertEqual(self.history.ahead_behind(id_of(0x44), id_of(0x55)), (1, 1))
        self.assertEqual(self.history.ahead_behind(id_of(0x55), id_of(0x22)), (2, 0))
        self.assertEqual(self.history.count(Span(Kind.MERGE, id_of(0x44), id_of(0x55))), 2)

    def test_commits(self) -> None:
        self.assertEqual(len(self.history), 5)
        self.assertTrue(self.history)
        self.assertTrue(History())
        self.assertIn(id_of(0x44), self.history)
        self.assertNotIn(id_of(0x99), self.history)
        self.assertEqual(self.history.commit(id_of(0x44)), Commit((id_of(0x22), id_of(0x33)), 4, None))
        self.history.insert(id_of(0x66), [id_of(k) for k in range(9)], -6, 0)
        self.assertEqual(self.history.commit(id_of(0x66)), Commit(tuple(id_of(k) for k in range(9)), -6, 0))
        self.assertIsNone(self.history.commit(id_of(0x99)))

    def test_abbreviations(self) -> None:
        self.assertEqual(self.history.abbreviate(id_of(0x11)), "1111111")
        self.history.insert("1" * 12 + "2" * 28, [], 6)
        self.assertEqual(self.history.abbreviate(bytes([0x11] * 20)), "1" * 13)
        self.assertEqual(self.history.abbreviate(id_of(0x22), 0), "2222")
        self.assertEqual(self.history.abbreviate(id_of(0x22), 2**64 - 1), id_of(0x22))
        with self.assertRaises(OverflowError):
            self.history.abbreviate(id_of(0x22), -1)

    def test_objects(self) -> None:
        self.history.insert_object(CONTENT_ID, CONTENT)
        self.assertEqual(self.history.commit(CONTENT_ID), Commit((id_of(0x11),), 7, None))
        with self.assertRaises(AlreadyThere):
            self.history.insert_object(CONTENT_ID, memoryview(CONTENT))
        with self.assertRaises(Altered):
            self.history.insert_object(CONTENT_ID, CONTENT + b"!")
        with self.assertRaises(Misshapen):
            self.history.insert_object("b584dc718100df6c37020ad91e1b82d043e16312", bytearray(b"no commit\n"))
        self.assertEqual(len(self.history), 6)

    def test_version(self) -> None:
        self.assertEqual(".".join(map(str, gix_revision_proved.library_version())), gix_revision_proved.__version__)

    def test_order(self) -> None:
        given = [id_of(0x33), id_of(0x99), id_of(0x55), id_of(0x22), id_of(0x33)]
        self.assertEqual(self.history.newest_first(given), [id_of(0x55), id_of(0x22), id_of(0x33)])

    def test_lists_stay_as_they_are(self) -> None:
        self.history.insert(id_of(0x66), [id_of(0x99), id_of(0x77)], 6)
        missing = self.history.missing(page=1)
        self.assertEqual(next(missing), id_of(0x77))
        self.history.insert(id_of(0x99), [], 1)
        self.assertEqual(list(missing), [id_of(0x99)])

    def test_missing(self) -> None:
        self.assertEqual(list(self.history.missing()), [])
        self.history.insert(id_of(0x66), [id_of(0x99), id_of(0x77), id_of(0x55)], 6)
        self.assertEqual(list(self.history.missing(page=1)), [id_of(0x77), id_of(0x99)])
        self.history.insert(id_of(0x77), [id_of(0x99)], 7)
        self.assertEqual(list(self.history.missing()), [id_of(0x99)])

    def test_descriptions(self) -> None:
        names = [(id_of(0x11), b"v1")]
        self.assertEqual(self.history.describe(id_of(0x44), names), Description(b"v1-3-g4444444", 3))
        self.assertIsNone(self.history.describe(id_of(0x44), []))
        with self.assertRaises(NoCommit):
            self.history.describe(id_of(0x99), names)
        long = [(id_of(0x11), b"v" * 100)]
        self.assertEqual(self.history.describe(id_of(0x11), long), Description(b"v" * 100, 0))
        # Both names are equally near; git takes the one that it visits first.
        near = [(id_of(0x22), "b"), (id_of(0x33), "a")]
        self.assertEqual(str(self.history.describe(id_of(0x44), near)), "a-2-g4444444")
        self.assertEqual(str(self.history.describe(id_of(0x44), near, git_order=True)), "b-2-g4444444")

    def test_prepared_names(self) -> None:
        names = Names((id_of(byte), text) for byte, text in [(0x11, "v1"), (0x22, "é"), (0x22, "second")])
        self.assertEqual(len(names), 3)
        self.assertEqual(self.history.describe(id_of(0x22), names), Description("é".encode(), 0))
        self.assertEqual(str(self.history.describe(id_of(0x44), names, candidates=1)), "é-2-g4444444")
        self.assertEqual(self.history.describe(id_of(0x33), names, long=True, digits=4), Description(b"v1-1-g3333", 1))
        self.assertIsNone(self.history.describe(id_of(0x11), Names([])))
        self.assertEqual(self.history.describe(id_of(0x33), names, digits=0), Description(b"v1", 1))
        self.assertEqual(self.history.describe(id_of(0x33), [], digits=0, always=True), Description(id_of(0x33).encode(), 0))

    def test_texts(self) -> None:
        self.history.name(b"main", id_of(0x44))
        span = self.history.resolve(b"main~1..5555")
        self.assertEqual(span, (Kind.RANGE, id_of(0x22), id_of(0x55)))
        self.assertEqual(list(self.history.list(span, page=1)), [id_of(0x33), id_of(0x55)])
        self.history.name(b"5555", id_of(0x44))
        self.assertEqual(self.history.rev_parse(b"5555").first, id_of(0x44))
        with self.assertRaises(Fault) as refused:
            self.history.resolve(b"main..nowhere~2")
        self.assertEqual((refused.exception.number, refused.exception.start, refused.exception.length), (12, 6, 9))
        told = "no ref or commit has this name, or several commits have it"
        self.assertEqual(str(refused.exception), f"the revision has fault 12 at byte 6: {told}")

    def test_names_are_taken_back(self) -> None:
        self.history.name("main", id_of(0x44))
        self.assertTrue(self.history.unname(b"main"))
        self.assertFalse(self.history.unname("main"))
        with self.assertRaises(Fault):
            self.history.resolve("main")

    def test_texts_as_str(self) -> None:
        self.history.name("größe", id_of(0x44))
        self.assertEqual(self.history.resolve("größe").first, id_of(0x44))
        self.assertEqual(self.history.resolve(bytearray("größe^2".encode())).first, id_of(0x33))
        self.history.name(b"\xff", id_of(0x22))
        self.assertEqual(self.history.rev_parse("\udcff").first, id_of(0x22))

    def test_pages(self) -> None:
        span = Span(Kind.INCLUDE, id_of(0x55), id_of(0x55))
        all_of_it = [id_of(0x11), id_of(0x22), id_of(0x33), id_of(0x55)]
        for page in (None, 1, 2, 3, 4, 5, 100):
            self.assertEqual(list(self.history.list(span, page)), all_of_it)
        self.history.insert(id_of(0x66), [f"{k:040x}" for k in range(6000)], 6)
        for page in (None, 999, 6000, 7000):
            self.assertEqual(list(self.history.missing(page)), [f"{k:040x}" for k in range(6000)])
        with self.assertRaises(NoKind):
            list(self.history.list(span._replace(kind=6)))

    def test_file(self) -> None:
        file = file_of([1, 2, 2, 3, 3])
        with History.open(file) as history:
            history.insert(id_of(0x66), [id_of(0x55)], 6)
            self.assertEqual(history.merge_bases(id_of(0x44), [id_of(0x66)]), [id_of(0x22), id_of(0x33)])
            self.assertEqual(list(history.missing()), [])
            self.assertEqual(history.resolve(b"4444").first, id_of(0x44))
            with self.assertRaises(AlreadyThere):
                history.insert(id_of(0x55), [], 5)
        for form in (bytearray(file), memoryview(file), memoryview(file + b"!")[:-1]):
            with History.open(form) as history:
                self.assertEqual(history.octopus(id_of(0x44), [id_of(0x55)]), id_of(0x22))
        with tempfile.TemporaryFile() as stored:
            stored.write(file)
            stored.flush()
            with mmap.mmap(stored.fileno(), 0, access=mmap.ACCESS_READ) as mapped, History.open(mapped) as history:
                self.assertTrue(history.is_ancestor(id_of(0x11), id_of(0x55)))
        with self.assertRaises(TypeError):
            History.open(os.devnull)
        with self.assertRaises(NoGraph):
            History.open(file[:-1])
        self.assertEqual([graph_fault(it) for it in (file, bytearray(file[1:]), b"")], [0, 2, 1])
        with self.assertRaises(NoGraph):
            History.open(b"")
        with self.assertRaises(NoLevels):
            History.open(file_of([1, 2, 2, 0, 3]))

    def test_chain(self) -> None:
        files = chain_of([1, 2, 2, 3, 3])
        with History.open_chain(files) as history:
            history.insert(id_of(0x66), [id_of(0x55)], 6)
            self.assertEqual(history.merge_bases(id_of(0x44), [id_of(0x66)]), [id_of(0x22), id_of(0x33)])
            self.assertEqual(history.commit(id_of(0x55)), Commit((id_of(0x22), id_of(0x33)), 5, 3))
            self.assertEqual((len(history), list(history.missing())), (6, []))
            with self.assertRaises(AlreadyThere):
                history.insert(id_of(0x11), [], 5)
        with History.open_chain(bytearray(it) for it in files[:2]) as history:
            self.assertEqual(len(history), 3)
        with self.assertRaises(TypeError):
            History.open_chain(files[0])  # type: ignore[arg-type]
        for wrong in ([], [b""], files[1:], files[::2], [files[0], files[1] + b"!"], [files[0], files[0]]):
            with self.assertRaises(NoGraph):
                History.open_chain(wrong)
        with self.assertRaises(NoLevels):
            History.open_chain(chain_of([1, 2, 2, 3, 2]))

    def test_refusals(self) -> None:
        with self.assertRaises(AlreadyThere):
            self.history.insert(id_of(0x55), [], 5)
        for id in ("11", "1" * 39 + "g", "11 " * 13 + "1", b"1" * 19, b""):
            with self.assertRaises(ValueError):
                self.history.is_ancestor(id, id_of(0x55))
        with self.assertRaises(TypeError):
            self.history.is_ancestor(17, id_of(0x55))
        with self.assertRaises(TypeError):
            self.history.merge_bases(id_of(0x44), id_of(0x55))
        self.history.close()
        self.history.close()
        with self.assertRaises(ValueError):
            self.history.is_ancestor(id_of(0x11), id_of(0x55))
