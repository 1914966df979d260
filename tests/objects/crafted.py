"""Object stores that are written byte by byte, and what may be answered about them."""

from __future__ import annotations

import gzip
import hashlib
import random
import zlib
from collections.abc import Callable, Iterator
from dataclasses import dataclass, field

from objects import Object, id_of
from pack_writer import ID_DELTA, KINDS, LARGE, OFFSET_DELTA, Index, Pack, copied, delta, index_of, inserted, number_of
from pack_writer import offset_back, stored_object

GOOD: Object = ("blob", b"A good blob.\n")
BASE: Object = ("blob", b"The base of a delta.\n" * 10)
MB = 1_000_000

# Ids of objects that do not exist.
NONE = [f"{digit}{digit + 1}" * 20 for digit in range(1, 9)]


@dataclass
class Store:
    """Is a store: its files (None is a folder), and for each id which answers are allowed.

    These are `R` for right, `E` for an error, and `M` for missing. `objects` has the objects that can be right. If the store is
    large, memory may run out.
    """

    name: str
    files: dict[str, bytes | None] = field(default_factory=dict)
    wanted: dict[str, str] = field(default_factory=dict)
    objects: dict[str, Object] = field(default_factory=dict)
    is_large: bool = False
    by_git: bool = True

    def want(self, wanted: str, name: str, found: Object | None = None) -> None:
        self.wanted[name] = wanted
        if found is not None:
            self.objects[name] = found

    def want_object(self, wanted: str, found: Object) -> str:
        name = id_of(*found)
        self.want(wanted, name, found)
        return name

    def add_loose(self, name: str, file: bytes | None) -> None:
        self.files[f"{name[:2]}/{name[2:]}"] = file

    def add_pack(self, pack: bytes | None, index: bytes | None) -> None:
        name = f"pack/pack-{hashlib.sha1((pack or b'') + (index or b'')).hexdigest()}"
        self.files[f"{name}.pack"] = pack
        self.files[f"{name}.idx"] = index


def in_pack(name: str, make: Callable[[Pack, Store], None]) -> Store:
    """Returns a store with a pack: a good object and a base, and what `make` adds."""
    store, pack = Store(name), Pack()
    for found in (GOOD, BASE):
        pack.object(*found)
        store.want_object("R", found)
    make(pack, store)
    store.add_pack(pack.text(), index_of(pack).text())
    return store


# Indexes over a good pack.


def indexes(source: random.Random) -> Iterator[Store]:
    whole = [GOOD, BASE, ("tree", b"100644 a\0" + bytes(20)), ("blob", b"\0" * 300)]
    pack = Pack()
    for found in whole:
        pack.object(*found)
    base, made = id_of(*BASE), ("blob", BASE[1] + b"more")
    pack.id_delta(id_of(*made), base, delta(210, 214, copied(0, 210), inserted(b"more")))
    near = ("blob", BASE[1][:50])
    pack.offset_delta(id_of(*near), 12 + len(pack.entries) - pack.offset(base), delta(210, 50, copied(0, 50)))
    whole += [made, near]

    def store(name: str, change: Callable[[Index], bytes | None]) -> Store:
        """Returns a store in which anything but a wrong object may be answered."""
        found = Store(f"an index {name}")
        for it in whole:
            found.want_object("REM", it)
        index = index_of(pack)
        text = change(index)
        found.add_pack(pack.text(), index.text() if text is None else text)
        return found

    yield from fan_outs(source, store)
    yield store("whose ids fall", lambda index: index.names.reverse())
    yield store("whose ids are one", lambda index: index.names.__setitem__(slice(6), index.names[:1] * 6))
    yield store("of another pack", lambda index: index.text().replace(index.pack, bytes(20)))
    yield store("with another number at its beginning", lambda index: index.text(magic=b"\xfftOd"))
    for version in (0, 1, 3, (1 << 32) - 1):
        yield store(f"of version {version}", lambda index: index.text(version=version))
    yield store("of version 1 without ids", lambda index: index.text()[8:1032])
    size = len(index_of(pack).text())
    for cut in (0, 1, 4, 8, 1031, 1032, 1033, 1052, 1152, size - 40, size - 20, size - 1):
        yield store(f"of {cut} bytes", lambda index: index.text()[:cut])
    yield store("with bytes after it", lambda index: index.text() + bytes(1000))
    yield from offsets(pack, whole)


def fan_outs(source: random.Random, store: Callable[[str, Callable[[Index], None]], Store]) -> Iterator[Store]:
    """Yields stores whose index has an odd fan-out, and first a good one."""

    def fan_out(*rows: int) -> Callable[[Index], None]:
        return lambda index: index.fan_out.__setitem__(slice(256 - len(rows), 256), rows)

    good = store("that is good", lambda index: None)
    good.wanted = dict.fromkeys(good.wanted, "R")
    yield good
    for claim in (7, 1000, 1 << 16, LARGE - 1, LARGE, (1 << 32) - 1):
        yield store(f"that claims {claim} objects", fan_out(claim))
        yield store(f"whose fan-out is {claim}", fan_out(*[claim] * 256))
    yield store("whose fan-out is 0", fan_out(*[0] * 256))
    yield store("whose fan-out falls to 0", fan_out(0))
    yield store("whose fan-out falls", lambda index: index.fan_out.reverse())
    for _ in range(30):
        rows = [source.choice([0, 1, 5, 6, 7, 100, LARGE, (1 << 32) - 1, source.getrandbits(32)]) for _ in range(256)]
        yield store("with a random fan-out", fan_out(*rows))
        yield store("with a random fan-out that rises", fan_out(*sorted(rows)))
        at = source.randrange(256)
        yield store("with one odd row in its fan-out", lambda index: index.fan_out.__setitem__(at, rows[0]))


def offsets(pack: Pack, whole: list[Object]) -> Iterator[Store]:
    """Yields stores with an index in which one offset leads elsewhere. The other objects have to be right."""
    size, odd = len(pack.text()), id_of(*whole[2])
    row = sorted(name for name, _, _ in pack.rows).index(odd)
    at = pack.offset(odd)
    near = [0, 4, 11, at - 1, at + 1, size - 20, size - 1, size, size + 100, LARGE - 1]
    far = [0, at + 1, size, LARGE, 1 << 32, (1 << 63) - 1, 1 << 63, (1 << 64) - 20, (1 << 64) - 1]
    rows = [(f"the offset {to}", to, []) for to in near]
    rows += [(f"the 64-bit offset {to}", LARGE, [to]) for to in far]
    rows += [("no 64-bit offset", LARGE, [])]
    rows += [(f"the 64-bit offset number {number}", LARGE + number, [at]) for number in (1, 5, LARGE - 1)]
    for name, to, large in rows:
        store, index = Store(f"an index with {name}"), index_of(pack)
        for found in whole:
            store.want_object("E" if id_of(*found) == odd else "R", found)
        index.offsets[row], index.large = to, large
        store.add_pack(pack.text(), index.text())
        yield store
    for first in (0, 13, at + 1):
        store = Store(f"an index with 64-bit offsets from {first} on")
        for found in whole:
            # git wants one small offset.
            store.want_object("R" if first else "REM", found)
        store.add_pack(pack.text(), index_of(pack, first).text())
        yield store


# Packs with a good index.


def entries(source: random.Random) -> Iterator[Store]:
    """Yields stores with a pack in which one entry is odd. The good ones have to be right."""
    text, odd = b"An odd blob.\n", NONE[0]
    found = ("blob", text)
    name, stream = id_of(*found), zlib.compress(text)

    def entry(what: str, kind: int, size: int, body: bytes, wanted: str = "E", base: bytes = b"") -> Store:
        def make(pack: Pack, store: Store) -> None:
            pack.entry(name, kind, size, body, base)
            store.want(wanted, name, found)
            pack.object("blob", b"After it.\n")

        return in_pack(f"an entry {what}", make)

    yield entry("that is good", 3, 13, stream, "R")
    for kind in (0, 5):
        yield entry(f"of kind {kind}", kind, 13, stream)
    for kind in (1, 2, 4):
        yield entry(f"of the kind {kind}, which is another", kind, 13, stream)
    for kind in (1, 2, 3, 4):
        for size in (0, 12, 14, 1 << 20, 1 << 31, 1 << 32, 1 << 40, 1 << 60, 1 << 63, (1 << 64) - 1):
            yield entry(f"of kind {kind} that claims {size} bytes", kind, size, stream)
    for size in ((1 << 64) + 13, (1 << 68) + 13, (1 << 700) + 13):
        yield entry(f"that claims {size % 1000} bytes and many more", 3, size, stream, "RE")
    for what, body in streams(text):
        yield entry(f"whose stream {what}", 3, 13, body, "RE" if "after" in what else "E")
    made = zlib.compress(delta(210, 13, inserted(text)))
    for distance in (offset_back(1 << 40), b"\0", offset_back(1 << 60), b"\xff" * 9 + b"\x7f", b"\xff" * 40, b"\xff" * 400 + b"\x7f"):
        yield entry(f"whose base is {distance[:12].hex()} back", OFFSET_DELTA, 17, made, "E", distance)
    for size in (0, 1, 16, 18, 1 << 31, 1 << 60, 1 << 63, (1 << 64) - 1):
        yield entry(f"with a delta that claims {size} bytes", ID_DELTA, size, made, "E", bytes.fromhex(id_of(*BASE)))
        yield entry(f"with a delta by offset that claims {size} bytes", OFFSET_DELTA, size, made, "E", offset_back(130))
    for base in (odd, name):
        yield entry("with another base", ID_DELTA, 17, made, "E", bytes.fromhex(base))

    def end(pack: Pack, store: Store) -> None:
        pack.entry(name, 3, 13, b"")
        store.want("E", name)

    yield in_pack("an entry that ends the pack", end)
    for at in range(1, 13):
        yield in_pack(f"an entry {at} bytes before another one", lambda pack, store: shifted(pack, store, at))
    yield in_pack("entries with the id of another one", swapped)


def shifted(pack: Pack, store: Store, back: int) -> None:
    """Adds deltas whose base is between two entries."""
    at = 12 + len(pack.entries)
    pack.offset_delta(NONE[0], back, delta(210, 13, inserted(b"An odd blob.\n")))
    pack.offset_delta(NONE[1], at + 20 + back, delta(210, 13, inserted(b"An odd blob.\n")))
    store.want("E", NONE[0])
    store.want("E", NONE[1])


def swapped(pack: Pack, store: Store) -> None:
    """Adds objects under ids of others, whole and as deltas."""
    for at, kind in enumerate(KINDS):
        pack.entry(NONE[at], KINDS[kind], len(GOOD[1]), zlib.compress(GOOD[1]))
        store.want("E", NONE[at])
    pack.id_delta(NONE[4], id_of(*BASE), delta(210, 210, copied(0, 210)))
    store.want("E", NONE[4])
    pack.id_delta(id_of("blob", b"Not this.\n"), id_of(*BASE), delta(210, 9, inserted(b"Not that.")))
    store.want("E", id_of("blob", b"Not this.\n"))


def streams(text: bytes) -> list[tuple[str, bytes]]:
    """Returns streams that are not, or not only, the zlib stream of a text."""
    good = zlib.compress(text)
    raw = zlib.compressobj(wbits=-15)
    preset = zlib.compressobj(zdict=text)
    return [
        ("is empty", b""),
        ("is one byte", good[:1]),
        ("is cut in its header", good[:2]),
        ("is cut in the middle", good[: len(good) // 2]),
        ("has a wrong check value", good[:-1] + bytes([good[-1] ^ 1])),
        ("is gzip's", gzip.compress(text, mtime=0)),
        ("is raw", raw.compress(text) + raw.flush()),
        ("needs a dictionary", preset.compress(text) + preset.flush()),
        ("is text", text),
        ("has bytes after it", good + b"More."),
        ("has another one after it", good + good),
        ("is shorter", zlib.compress(text[:-1])),
        ("is longer", zlib.compress(text + b"x")),
    ]


def deltas() -> Iterator[Store]:
    """Yields stores with a pack in which one delta is odd."""
    text = BASE[1][:100] + b"new"
    found = ("blob", text)
    name = id_of(*found)
    right = [copied(0, 100), inserted(b"new")]

    def store(what: str, made: bytes, wanted: str = "E") -> Iterator[Store]:
        def by_id(pack: Pack, it: Store) -> None:
            pack.id_delta(name, id_of(*BASE), made)
            it.want(wanted, name, found)
            pack.offset_delta(odd, len(pack.entries) + 12 - pack.offset(name), delta(103, 103, copied(0, 103)))
            it.want("E", odd)

        def by_offset(pack: Pack, it: Store) -> None:
            pack.offset_delta(name, len(pack.entries) + 12 - pack.offset(id_of(*BASE)), made)
            it.want(wanted, name, found)

        odd = NONE[0]
        yield in_pack(f"a delta {what}", by_id)
        yield in_pack(f"a delta by offset {what}", by_offset)

    yield from store("that is good", delta(210, 103, *right), "R")
    for size in (0, 102, 104, 1 << 31, 1 << 60, 1 << 63, (1 << 64) - 1):
        yield from store(f"that claims to make {size} bytes", delta(210, size, *right))
        yield from store(f"that claims a base of {size} bytes", delta(size, 103, *right))
    for more in (1 << 64, 1 << 70, 1 << 700):
        yield from store("that claims to make more than 2^64 bytes", delta(210, 103 + more, *right), "RE")
        yield from store("that claims a base of more than 2^64 bytes", delta(210 + more, 103, *right), "RE")
    yield from store("with an instruction 0", delta(210, 103, *right, b"\0"))
    yield from store("with an instruction 0 before others", delta(210, 103, b"\0", *right))
    for at, size in ((210, 1), (111, 100), (0, 211), ((1 << 32) - 1, 100), ((1 << 32) - 100, 100), (0, (1 << 24) - 1), (200, 0)):
        yield from store(f"that copies {size} bytes from {at}", delta(210, size + 3, copied(at, size), inserted(b"new")))
        yield from store(f"that copies {size} bytes from {at}, of a size", delta(210, 103, copied(at, size), inserted(b"new")))
    yield from store("that makes too much", delta(210, 103, *right, inserted(b"x")))
    yield from store("that copies too much", delta(210, 103, *right, *[copied(0, 210)] * 5))
    yield from store("that makes too little", delta(210, 103, right[0]))
    made = delta(210, 103, *right)
    for cut in range(len(made)):
        yield from store(f"of {cut} bytes", made[:cut])
    for size in (b"\xff" * 3, b"\xff" * 30, b"\xff" * 3000):
        yield from store("with an endless size", size)
        yield from store("with an endless second size", number_of(210) + size)


def circles() -> Iterator[Store]:
    """Yields stores with deltas whose bases lead in a circle. git does not look for these."""
    made = delta(210, 13, inserted(b"An odd blob.\n"))
    for count in (1, 2, 3, 1000):

        def make(pack: Pack, store: Store, count: int = count) -> None:
            names = [f"{at + 1:040x}" for at in range(count)]
            for at, name in enumerate(names):
                pack.id_delta(name, names[(at + 1) % count], made)
            for name in names[:20]:
                store.want("E", name)
            pack.id_delta(NONE[0], names[0], made)
            pack.offset_delta(NONE[1], 12 + len(pack.entries) - pack.offset(NONE[0]), made)
            store.want("E", NONE[0])
            store.want("E", NONE[1])

        store = in_pack(f"a circle of {count} deltas", make)
        store.by_git = False
        yield store


def chains() -> Iterator[Store]:
    """Yields stores with long chains of deltas, whose objects have to be right."""
    for how in ("id", "offset"):

        def make(pack: Pack, store: Store, how: str = how) -> None:
            last, size = id_of(*BASE), len(BASE[1])
            for at in range(10_000):
                text = BASE[1] + b"%d" % at
                made = delta(size, len(text), copied(0, 210), inserted(text[210:]))
                name = id_of("blob", text)
                if how == "id":
                    pack.id_delta(name, last, made)
                else:
                    pack.offset_delta(name, 12 + len(pack.entries) - pack.rows[-1][2], made)
                last, size = name, len(text)
                if at % 2500 == 0 or at > 9_990:
                    store.want("R", name, ("blob", text))

        yield in_pack(f"a chain of 10,000 deltas by {how}", make)

    def thin(pack: Pack, store: Store) -> None:
        text = BASE[1][:13]
        pack.id_delta(id_of("blob", text), id_of("blob", b"loose"), delta(5, 13, inserted(text)))
        store.want("RE", id_of("blob", text), ("blob", text))
        store.add_loose(id_of("blob", b"loose"), zlib.compress(b"blob 5\0loose"))
        store.want("R", id_of("blob", b"loose"), ("blob", b"loose"))

    yield in_pack("a delta whose base is loose", thin)

    def long_copy(pack: Pack, store: Store) -> None:
        base = source_bytes(70_000)
        name = pack.object("blob", base)
        for at, size in ((0, 65_536), (4464, 65_536), (69_999, 1), (1, 69_999)):
            text = base[at : at + size]
            # A size of 0 means 65,536.
            copy = b"\x8f" + at.to_bytes(4, "little") if size == 65_536 else copied(at, size)
            pack.id_delta(id_of("blob", text), name, delta(70_000, size, copy))
            store.want("R", id_of("blob", text), ("blob", text))

    yield in_pack("copies of 65,536 bytes", long_copy)


def source_bytes(count: int) -> bytes:
    return random.Random(count).randbytes(count)


def packs() -> Iterator[Store]:
    """Yields stores with a pack that is odd as a whole, beside a good one."""
    pack = Pack()
    inside: Object = ("blob", b"In the odd pack.\n")
    pack.object(*inside)
    text, index = pack.text(), index_of(pack).text()
    both = index_of(pack)
    both.fan_out = [2 * it for it in both.fan_out]
    both.names, both.offsets, both.checks = both.names * 2, both.offsets * 2, both.checks * 2
    rows = [
        ("that counts 0 entries", pack.text(count=0), index),
        ("that counts 2 entries", pack.text(count=2), index),
        ("that counts 2^32 - 1 entries", pack.text(count=(1 << 32) - 1), index),
        ("whose index counts 2 entries", text, both.text()),
        ("of version 3", b"PACK\0\0\0\3" + text[8:], index),
        ("of version 4", b"PACK\0\0\0\4" + text[8:], index),
        ("of version 0", b"PACK\0\0\0\0" + text[8:], index),
        ("of another kind", b"KCAP" + text[4:], index),
        ("with another check value", text[:-20] + bytes(20), index),
        ("without a check value", text[:-20], index),
        ("with bytes after it", text + bytes(100), index),
        ("that is empty", b"", index),
        ("of 11 bytes", text[:11], index),
        ("of 12 bytes", text[:12], index),
        ("whose index is empty", text, b""),
        ("that is a folder", None, index),
        ("whose index is a folder", text, None),
    ]
    for name, bytes_of_pack, bytes_of_index in rows:
        store = in_pack(f"a pack {name}", lambda pack, store: None)
        store.add_pack(bytes_of_pack, bytes_of_index)
        store.want_object("REM", inside)
        yield store


def packs_beside() -> Iterator[Store]:
    """Yields stores that lack a file of a pack, or have more than one pack with an object."""
    pack = Pack()
    inside: Object = ("blob", b"In the odd pack.\n")
    pack.object(*inside)
    text, index = pack.text(), index_of(pack).text()
    for end in (".pack", ".idx"):
        store = in_pack(f"a pack without {end}", lambda pack, store: None)
        store.add_pack(text, index)
        lost = next(it for it in store.files if it.endswith(end) and store.files[it] in (text, index))
        del store.files[lost]
        store.want_object("M" if end == ".idx" else "EM", inside)
        yield store
    store = in_pack("a good copy beside a bad one", lambda pack, store: None)
    bad = Pack()
    bad.entry(id_of(*inside), 3, len(inside[1]), zlib.compress(inside[1])[:-4] + bytes(4))
    for at in range(3):
        bad.object("blob", b"%d" % at)
        store.add_pack(bad.text(), index_of(bad).text())
    store.add_pack(text, index)
    store.want_object("R", inside)
    yield store
    store = Store("a file in place of the folder of packs")
    store.files["pack"] = b"A file.\n"
    store.add_loose(id_of(*GOOD), zlib.compress(stored_object(*GOOD)))
    store.want_object("R", GOOD)
    # git fails, too: the object may be in a pack.
    store.want("E", NONE[0])
    yield store


# Loose objects.


def loose() -> Iterator[Store]:
    found: Object = ("blob", b"hello")
    name = id_of(*found)

    def store(what: str, file: bytes | None, wanted: str) -> Store:
        made = Store(f"a loose file {what}")
        made.add_loose(id_of(*GOOD), zlib.compress(stored_object(*GOOD)))
        made.want_object("R", GOOD)
        made.add_loose(name, file)
        made.want(wanted, name, found)
        made.want("M", name[:-1] + ("0" if name[-1] != "0" else "1"))
        return made

    yield store("that is good", zlib.compress(b"blob 5\0hello"), "R")
    for level in range(10):
        yield store(f"at level {level}", zlib.compress(b"blob 5\0hello", level), "R")
    yield store("with another object", zlib.compress(b"blob 5\0other"), "E")
    yield store("with another kind", zlib.compress(b"tree 5\0hello"), "E")
    yield store("with a commit", zlib.compress(b"commit 5\0hello"), "E")
    yield store("that is a folder", None, "EM")
    wrong = ["blob 4", "blob 6", "blob 0", "blob 999", "blab 5", "blob -5", "blob"]
    for head in wrong + [f"blob {size}" for size in (1 << 31, 1 << 60, (1 << 64) - 1)]:
        yield store(f"that begins with {head}", zlib.compress(head.encode() + b"\0hello"), "E")
    odd = ["blob 05", "blob 5 ", "blob  5", "blob +5", "Blob 5", "blob5", " blob 5", "", "blob 0x5", "blob\t5"]
    odd += ["blob 5\n", "blobblob 5", "blob 5.0"]
    odd += [f"blob {(1 << 64) + 5}", f"blob {10 ** 40 + 5}", f"blob {'0' * 1000}5", f"blob{' ' * 1000}5", "b" * 1000]
    for head in odd:
        yield store(f"that begins with {head[:30]}", zlib.compress(head.encode() + b"\0hello"), "RE")
    for text in (b"", b"b", b"blob", b"blob ", b"blob 5", b"blob 5\0", b"blob 5\0hell", b"blob 5\0hello!", b"hello", b"blob 5\nhello"):
        yield store(f"of {text!r}", zlib.compress(text), "E")
    for what, file in streams(b"blob 5\0hello"):
        yield store(f"whose stream {what}", file, "RE" if "after" in what else "E")
    whole = zlib.compress(b"blob 5\0hello")
    for cut in range(len(whole)):
        yield store(f"of {cut} bytes", whole[:cut], "E")


# Alternates.


def alternates() -> Iterator[Store]:
    rows = {
        "that are not UTF-8": b"\xff\xfe/objects\n",
        "with a NUL": b"a\0b\n/tmp/\0\n",
        "of a million bytes": b"a" * MB,
        "of a million bytes in folders": b"a/" * (MB // 2) + b"\n",
        "of a thousand lines": b"nothing\n" * 1000,
        "of a thousand folders": b"".join(b"nothing/%d\n" % at for at in range(1000)),
        "of empty lines": b"\n" * 10_000,
        "of comments": b"# nothing\n" * 1000,
        "that lead to a file": b"../objects/info/alternates\n",
        "that lead to themselves": b".\n../objects\n./info/..\n",
        "that lead to the root": b"/\n",
        "that lead to a device": b"/dev/null\n/dev/zero\n/proc/self\n",
        "with line ends of two bytes": b"nothing\r\nnothing\r\n",
        "with spaces": b" \n  nothing\n\t\n",
        "in quotes": b'"not\\150ing"\n"unfinished\n',
        "that are empty": b"",
        "that are a folder": None,
    }
    for name, text in rows.items():
        store = Store(f"alternates {name}")
        store.files["info/alternates"] = text
        store.add_loose(id_of(*GOOD), zlib.compress(stored_object(*GOOD)))
        store.want_object("R", GOOD)
        store.want("EM", NONE[0])
        yield store


# Contents that grow.


def growing() -> Iterator[Store]:
    zeros = bytes(10 * MB)
    small = zlib.compress(zeros)
    found: Object = ("blob", zeros)
    name = id_of(*found)
    store = Store("10 MB of zeros")
    store.add_loose(name, zlib.compress(stored_object(*found)))
    store.want("R", name, found)
    yield store

    def packed(pack: Pack, store: Store) -> None:
        pack.object(*found)
        store.want("R", name, found)

    yield in_pack("10 MB of zeros in a pack", packed)
    for claim in (5, 10 * MB - 1, 10 * MB + 1, 1 << 28, 1 << 40, 1 << 60):
        store = Store(f"a loose file that claims {claim} bytes and has 10 MB")
        store.add_loose(name, zlib.compress(b"blob %d\0" % claim + zeros))
        store.want("E", name)
        yield store

        def claiming(pack: Pack, store: Store, claim: int = claim) -> None:
            pack.entry(name, 3, claim, small)
            store.want("E", name)
            pack.entry(NONE[0], ID_DELTA, claim, small, bytes.fromhex(id_of(*BASE)))
            store.want("E", NONE[0])

        yield in_pack(f"an entry that claims {claim} bytes and has 10 MB", claiming)
    yield from bombs()


def bomb(head: bytes) -> bytes:
    """Returns the stream of some bytes and 400 MB of the last of them, or of zeros."""
    piece = (head[-1:] or b"\0") * (10 * MB)
    maker = zlib.compressobj(wbits=-15)
    front = maker.compress(head) + maker.flush(zlib.Z_FULL_FLUSH)
    middle = maker.compress(piece) + maker.flush(zlib.Z_FULL_FLUSH)
    # The check value (RFC 1950, 2.2) after so many bytes of one value.
    count, value, check = 400 * MB, piece[0], zlib.adler32(head)
    low = (check & 0xFFFF) + count * value
    high = (check >> 16) + count * (check & 0xFFFF) + value * count * (count + 1) // 2
    check = high % 65521 << 16 | low % 65521
    return b"\x78\x9c" + front + middle * 40 + maker.flush() + check.to_bytes(4, "big")


def bombs() -> Iterator[Store]:
    """Yields stores with small files and large contents. After these the good object has to be right."""
    for what, head in (("that it claims", b"blob %d\0" % (400 * MB)), ("of a blob of 5", b"blob 5\0"), ("without a header", b"a")):
        store = Store(f"a loose file with 400 MB {what}", is_large=b"400" in head, by_git=False)
        store.add_loose(NONE[0], bomb(head))
        store.want("E", NONE[0])
        store.add_loose(id_of(*GOOD), zlib.compress(stored_object(*GOOD)))
        store.want_object("R", GOOD)
        yield store

    def entry(pack: Pack, store: Store) -> None:
        pack.entry(NONE[0], 3, 400 * MB, bomb(b""))
        pack.entry(NONE[1], 3, 5, bomb(b""))
        store.want("E", NONE[0])
        store.want("E", NONE[1])

    def grown(pack: Pack, store: Store) -> None:
        """Each delta makes 16 times as much as its base has."""
        name, size = pack.object("blob", bytes(MB)), MB
        for at in range(4):
            made = bytes(16 * size) if at == 0 else b""
            target = id_of("blob", made) if made else NONE[at]
            piece = [copied(at, min(1 << 23, size - at)) for at in range(0, size, 1 << 23)]
            pack.id_delta(target, name, delta(size, 16 * size, *piece * 16))
            store.want("R" if made else "E", target, ("blob", made) if made else None)
            name, size = target, 16 * size

    for what, make in (("an entry with 400 MB", entry), ("deltas that make 65 GB", grown)):
        store = in_pack(what, make)
        store.is_large, store.by_git = True, False
        good = id_of(*GOOD)
        store.wanted = {**{it: w for it, w in store.wanted.items() if it != good}, good: "R"}
        yield store


def stores(source: random.Random) -> Iterator[Store]:
    """Yields all stores."""
    yield from indexes(source)
    yield from entries(source)
    yield from deltas()
    yield from circles()
    yield from chains()
    yield from packs()
    yield from packs_beside()
    yield from loose()
    yield from alternates()
    yield from growing()
