"""Writes packs, indexes and loose files byte by byte, also such as claim what is not so (gitformat-pack(5))."""

from __future__ import annotations

import bisect
import hashlib
import struct
import zlib
from dataclasses import dataclass, field

from objects import id_of

# The kinds of entries ("Object types").
KINDS = {"commit": 1, "tree": 2, "blob": 3, "tag": 4}
OFFSET_DELTA, ID_DELTA = 6, 7

# Offsets from this one on are in the table of 64-bit offsets.
LARGE = 1 << 31


def number_of(value: int) -> bytes:
    """Returns the size at the beginning of a delta: seven bits a byte, the lowest first."""
    parts = [value & 127]
    while value := value >> 7:
        parts.append(value & 127)
    return bytes([part | 128 for part in parts[:-1]] + parts[-1:])


def entry_head(kind: int, size: int) -> bytes:
    """Returns the kind and the size at the beginning of an entry: four bits of the size, then seven a byte."""
    first = kind << 4 | size & 15
    return bytes([first | 128]) + number_of(size >> 4) if size >> 4 else bytes([first])


def offset_back(distance: int) -> bytes:
    """Returns the distance from an entry back to its base: seven bits a byte, the highest first, each more byte 1 less."""
    parts = [distance & 127]
    while distance := distance >> 7:
        distance -= 1
        parts.append(distance & 127 | 128)
    return bytes(reversed(parts))


def copied(at: int, size: int) -> bytes:
    """Returns the instruction of a delta that copies from the base, with all its bytes written."""
    return bytes([0xFF]) + struct.pack("<I", at) + struct.pack("<I", size)[:3]


def inserted(text: bytes) -> bytes:
    """Returns the instruction of a delta that inserts at most 127 bytes."""
    return bytes([len(text)]) + text


def delta(base: int, size: int, *instructions: bytes) -> bytes:
    """Returns a delta that claims these sizes of its base and of what it makes."""
    return number_of(base) + number_of(size) + b"".join(instructions)


@dataclass
class Pack:
    """Is a pack that is being written. An entry may claim anything."""

    version: int = 2
    entries: bytearray = field(default_factory=bytearray)
    rows: list[tuple[str, int, int]] = field(default_factory=list)

    def entry(self, name: str, kind: int, size: int, stream: bytes, base: bytes = b"") -> int:
        """Adds an entry and its row in the index, and returns its offset."""
        entry = entry_head(kind, size) + base + stream
        offset = 12 + len(self.entries)
        self.rows.append((name, zlib.crc32(entry), offset))
        self.entries += entry
        return offset

    def object(self, kind: str, content: bytes) -> str:
        """Adds an object whole, and returns its id."""
        name = id_of(kind, content)
        self.entry(name, KINDS[kind], len(content), zlib.compress(content))
        return name

    def id_delta(self, name: str, base: str, made: bytes) -> int:
        return self.entry(name, ID_DELTA, len(made), zlib.compress(made), bytes.fromhex(base))

    def offset_delta(self, name: str, distance: int, made: bytes) -> int:
        return self.entry(name, OFFSET_DELTA, len(made), zlib.compress(made), offset_back(distance))

    def offset(self, name: str) -> int:
        return next(row[2] for row in self.rows if row[0] == name)

    def text(self, count: int | None = None) -> bytes:
        """Returns the bytes of the pack, which claims to have so many entries."""
        count = len(self.rows) if count is None else count
        whole = b"PACK" + struct.pack(">II", self.version, count) + bytes(self.entries)
        return whole + hashlib.sha1(whole).digest()


@dataclass
class Index:
    """Is an index of version 2 (gitformat-pack(5)), whose parts can be changed before it is written."""

    fan_out: list[int]
    names: list[bytes]
    checks: list[int]
    offsets: list[int]
    large: list[int]
    pack: bytes

    def text(self, magic: bytes = b"\xfftOc", version: int = 2) -> bytes:
        whole = magic + struct.pack(">I", version) + struct.pack(">256I", *self.fan_out) + b"".join(self.names)
        for row in (self.checks, self.offsets):
            whole += struct.pack(f">{len(row)}I", *row)
        whole += struct.pack(f">{len(self.large)}Q", *self.large) + self.pack
        return whole + hashlib.sha1(whole).digest()


def index_of(pack: Pack, large: int = LARGE) -> Index:
    """Returns the index of a pack. Offsets from `large` on are in the table of 64-bit offsets."""
    rows = sorted(pack.rows)
    names = [bytes.fromhex(row[0]) for row in rows]
    firsts = [name[0] for name in names]
    far = [row[2] for row in rows if row[2] >= large]
    return Index(
        [bisect.bisect_right(firsts, byte) for byte in range(256)],
        names,
        [row[1] for row in rows],
        [LARGE + far.index(row[2]) if row[2] >= large else row[2] for row in rows],
        far,
        pack.text()[-20:],
    )


def stored_object(kind: str, content: bytes) -> bytes:
    """Returns what a loose file has before compression."""
    return b"%s %d\0" % (kind.encode(), len(content)) + content
