"""Asks `git proved` about large repositories, and after failures: large.py PROGRAM FOLDER [ROW..]

An answer has to be git's, or that which follows from how a repository is made.
"""

from __future__ import annotations

import bisect
import hashlib
import os
import random
import shutil
import struct
import subprocess
import sys
import tempfile
import zlib
from collections.abc import Iterable
from dataclasses import dataclass
from pathlib import Path
from typing import IO

from compare import answers_of_batch, end_of_batch
from objects import id_of
from pack_writer import KINDS, LARGE, Index, Pack, delta, entry_head, index_of, inserted
from repositories import EMPTY_TREE, ENVIRONMENT, Repository, Room

START = 1_000_000_000
SECONDS = 120


def environment_of(place: Repository) -> dict[bytes, bytes]:
    return {**ENVIRONMENT, b"HOME": place.path}


def answer(program: bytes, place: Repository, words: str) -> tuple[int, bytes]:
    """Returns status and output. With status 128 git may have printed a part."""
    done = subprocess.run([program, *words.encode().split()], cwd=place.path, env=environment_of(place),
                          capture_output=True, timeout=SECONDS)
    return done.returncode, b"" if done.returncode in (125, 128, 129) else done.stdout


@dataclass
class Batch:
    """A batch whose questions are put one by one."""

    process: subprocess.Popen
    # A pipe would fill while answers are read.
    said: IO[bytes]

    def ask(self, *lines: str) -> list[tuple[int, bytes]]:
        return answers_of_batch(self.process, [it.encode() for it in lines])

    def end(self) -> bytes:
        """Ends the batch, and returns what it said on standard error."""
        end_of_batch(self.process)
        self.said.seek(0)
        return self.said.read()


@dataclass
class Asked:
    """What was asked of the program, and how much was answered wrongly."""

    program: bytes
    answers: int = 0
    wrong: int = 0

    def expect(self, place: Repository, question: str, found: object, right: object) -> None:
        self.answers += 1
        if found != right:
            self.wrong += 1
            print(f"{place.path.decode()}: {question[:60]}: {str(found)[:200]}, and right is {str(right)[:200]}")

    def as_git(self, place: Repository, *questions: str) -> None:
        for it in questions:
            self.expect(place, it, answer(self.program, place, it), answer(b"git", place, it))

    def batch(self, place: Repository) -> Batch:
        said = tempfile.TemporaryFile()
        process = subprocess.Popen([self.program, "batch"], stdin=subprocess.PIPE, stdout=subprocess.PIPE,
                                   stderr=said, cwd=place.path, env=environment_of(place))
        return Batch(process, said)


def in_line(room: Room, name: str, count: int) -> Repository:
    """Makes a line of commits, all in one pack. The last one is `main`."""
    return imported(room, name, (("main", START + number, 0) for number in range(count)))


def imported(room: Room, name: str, commits: Iterable[tuple[str, int, int]]) -> Repository:
    """Makes commits in one pack: the branch, the date, and the number of the parent. A commit without
    this number follows the one before on its branch."""
    place = room.init(name)
    lines = []
    for number, (branch, date, parent) in enumerate(commits, 1):
        lines += [f"commit refs/heads/{branch}", f"mark :{number}",
                  f"committer {branch} <a@example.org> {date} +0000", "data 0"]
        lines += [f"from :{parent}"] if parent else []
        lines.append("")
    place.git("-c", "fastimport.unpackLimit=0", "fast-import", "--quiet", data="\n".join(lines).encode())
    place.ids = place.git("rev-list", "--reverse", "--branches").split()
    return place


def packs_of(place: Repository) -> Path:
    folder = Path(os.fsdecode(place.path), ".git/objects/pack")
    folder.mkdir(parents=True, exist_ok=True)
    return folder


def numbered(number: int, parents: list[str]) -> bytes:
    """Returns the content of a commit."""
    who = f"a <a@example.org> {START + number} +0000"
    lines = [f"tree {EMPTY_TREE}", *(f"parent {it}" for it in parents), f"author {who}", f"committer {who}", ""]
    return "\n".join([*lines, f"{number}\n"]).encode()


def add_pack(place: Repository, pack: bytes, index: bytes, tip: str) -> None:
    """Writes a pack with its index, and lets `main` be one of its commits."""
    name = packs_of(place) / f"pack-{hashlib.sha1(index).hexdigest()}"
    name.with_suffix(".pack").write_bytes(pack)
    name.with_suffix(".idx").write_bytes(index)
    place.git("update-ref", "refs/heads/main", tip)


def equal_dates(asked: Asked, room: Room) -> None:
    """Two lines of 40,000 commits with one date: more than 2^16 commits wait at once."""
    place = imported(room, "equal dates", ((("right", "left")[number % 2], START, 0) for number in range(80_000)))
    asked.as_git(place, "rev-list left right", "rev-list -n 70000 left right")


def children(asked: Asked, room: Room) -> None:
    """A commit with 300 children, which is newer than they are."""
    below = ((f"b{number}", START + number, 1) for number in range(300))
    place = imported(room, "children", (("root", 2 * START, 0), *below))
    asked.as_git(place, "rev-list --topo-order --branches", "rev-list --date-order --branches",
                 "for-each-ref --count=256", "for-each-ref --count=300")


def packs(asked: Asked, room: Room) -> None:
    """300 commits, each at the same offset of a pack of its own."""
    place = in_line(room, "packs", 300)
    whole = [it.read_bytes() for it in packs_of(place).glob("*.pack")]
    shutil.rmtree(packs_of(place))
    for it in whole:
        place.git("unpack-objects", "-q", data=it)
    packs_of(place)
    for id in place.ids:
        place.git("pack-objects", "-q", ".git/objects/pack/pack", data=f"{id}\n".encode())
    place.git("prune-packed")
    asked.as_git(place, "rev-list main", "rev-list --parents main")
    batch = asked.batch(place)
    for id in place.ids:
        asked.expect(place, id, batch.ask(f"rev-parse {id}^{{commit}}"), [(0, f"{id}\n".encode())])
    batch.end()


def far(asked: Asked, room: Room) -> None:
    """Commits behind 2^31 and 2^32 bytes of a pack, which is a hole for the most part."""
    place = room.init("far")
    rows, parents = [], []
    path = packs_of(place) / "pack-far.pack"
    offsets = (12, LARGE - 4096, LARGE, LARGE + 4096, 2 * LARGE + 4096)
    with open(path, "wb") as file:
        file.write(b"PACK" + struct.pack(">II", 2, len(offsets)))
        for number, offset in enumerate(offsets):
            content = numbered(number, parents)
            parents = [id_of("commit", content)]
            file.seek(offset)
            file.write(entry_head(KINDS["commit"], len(content)) + zlib.compress(content))
            rows.append((bytes.fromhex(parents[0]), offset))
        file.write(bytes(20))
    rows.sort()
    large = [it for _, it in rows if it >= LARGE]
    shown = [LARGE + large.index(it) if it >= LARGE else it for _, it in rows]
    firsts = [name[0] for name, _ in rows]
    fan_out = [bisect.bisect_right(firsts, byte) for byte in range(256)]
    index = Index(fan_out, [name for name, _ in rows], [0] * len(rows), shown, large, bytes(20))
    path.with_suffix(".idx").write_bytes(index.text())
    place.git("update-ref", "refs/heads/main", parents[0])
    asked.as_git(place, "rev-list main", "rev-parse main~4 main")


def chain(asked: Asked, room: Room) -> None:
    """3,000 commits, each a delta on the one before. All bytes are inserted."""
    place, pack, before = room.init("chain"), Pack(), b""
    name, offset = "", 0
    for number in range(3000):
        content = numbered(number, [name] if name else [])
        name = id_of("commit", content)
        if before:
            parts = (inserted(content[at:at + 127]) for at in range(0, len(content), 127))
            made = delta(len(before), len(content), *parts)
            offset = pack.offset_delta(name, 12 + len(pack.entries) - offset, made)
        else:
            pack.object("commit", content)
            offset = 12
        before = content
    add_pack(place, pack.text(), index_of(pack).text(), name)
    asked.as_git(place, "rev-list main", "rev-list -n 1 main~1500")


def many_ids(asked: Asked, room: Room) -> None:
    """An index of 3,000,000 ids. All its parts are read, and then those that were read first."""
    place, pack, rng = room.init("many ids"), Pack(), random.Random(1)
    for number in range(300):
        place.ids.append(pack.object("commit", numbered(number, place.ids[-1:])))
    pack.rows += [(rng.randbytes(20).hex(), 0, 12) for _ in range(3_000_000)]
    add_pack(place, pack.text(), index_of(pack).text(), place.ids[-1])
    batch = asked.batch(place)
    batch.ask(*(f"rev-parse {first:02x}00000000000" for first in range(256)))
    for id in place.ids:
        asked.expect(place, id, batch.ask(f"rev-parse {id[:20]}^0"), [(0, f"{id}\n".encode())])
    batch.end()


def long_lines(asked: Asked, room: Room) -> None:
    """A question of 100,000 bytes in a batch."""
    place = in_line(room, "long lines", 3)
    line = "rev-parse " + 15_000 * "main~1 "
    found = asked.batch(place).ask(line, "rev-parse main")
    asked.expect(place, line, found, [answer(b"git", place, it) for it in (line, "rev-parse main")])


def long_paths(asked: Asked, room: Room) -> None:
    """Paths of 4,094 to 5,000 bytes in the index."""
    place = in_line(room, "long paths", 1)
    blob = place.git("hash-object", "-w", "--stdin")
    for length in (4094, 4095, 4096, 5000):
        path = (length // 100) * ("a" * 99 + "/") + (length % 100) * "b"
        place.git("update-index", "--index-info", data=f"100644 {blob}\t{path}\n".encode())
        place.git("update-index", "--skip-worktree", path)
        asked.as_git(place, "describe --always --dirty")


def included(asked: Asked, room: Room) -> None:
    """Settings that include others, up to ten levels deep."""
    place = in_line(room, "included", 1)
    kept = Path(os.fsdecode(place.path), ".git/config").read_bytes()
    for level in range(11):
        place.write(f".git/level{level}", f"[core]\nabbrev={level + 5}\n[include]\npath=level{level + 1}\n")
    place.write(".git/level10", "[core]\nabbrev=15\n")
    for level in range(10, 0, -1):
        place.write(".git/config", kept + f"[include]\npath=level{level}\n".encode())
        asked.as_git(place, "rev-parse --short main")


def messages(asked: Asked, room: Room) -> None:
    """What a batch says of a question is not said again of the next ones."""
    place = in_line(room, "messages", 3)
    place.git("tag", "twice", "main~1")
    place.git("branch", "twice", "main~2")
    questions = ("merge-base twice main", "merge-base twice main", "rev-parse twice", "rev-parse -q --verify nosuch",
                 "merge-base twice main", "rev-parse -q --verify main@{9}", "merge-base main~9 main",
                 "rev-parse main nosuch main", "rev-parse main")
    said = b""
    for it in questions:
        done = subprocess.run(["git", *it.split()], cwd=place.path, env=environment_of(place), capture_output=True)
        said += b"".join(dict.fromkeys(done.stderr.splitlines(keepends=True)))
    batch = asked.batch(place)
    asked.expect(place, "answers", batch.ask(*questions), [answer(b"git", place, it) for it in questions])
    asked.expect(place, "standard error", batch.end(), said)


def mended(asked: Asked, room: Room) -> None:
    """In the course of a batch a pack is damaged, asked for, and mended."""
    place = in_line(room, "mended", 50)
    right = [answer(b"git", place, "rev-list main")]
    for path in sorted(packs_of(place).iterdir()):
        whole = path.read_bytes()
        for damaged in (whole[:200] + bytes(len(whole) - 200), whole[:100], b""):
            for before in ([], ["rev-parse main"]):
                batch = asked.batch(place)
                batch.ask(*before)
                path.rename(path.with_suffix(".kept"))
                path.write_bytes(damaged)
                asked.expect(place, f"damaged {path.suffix}", batch.ask("rev-list main")[0][0] in (125, 128), True)
                path.with_suffix(".kept").rename(path)
                asked.expect(place, f"mended {path.suffix}", batch.ask("rev-list main"), right)
                batch.end()


def repacked(asked: Asked, room: Room) -> None:
    """In the course of a batch all objects go into another pack. Then digits are completed."""
    place = in_line(room, "repacked", 50)
    batch = asked.batch(place)
    batch.ask(f"rev-parse {place.ids[-1][:12]}^0")
    place.git("update-ref", "refs/heads/main", place.commit(place.ids[-1], date=2 * START))
    place.git("repack", "-adq")
    for id in place.ids[::-20]:
        asked.expect(place, id[:12], batch.ask(f"rev-parse {id[:12]}^0"), [(0, f"{id}\n".encode())])
    batch.end()


def twins(asked: Asked, room: Room) -> None:
    """Of two packs with the same commits one is damaged. git also says so."""
    place = in_line(room, "twins", 50)
    place.git("pack-objects", "-q", ".git/objects/pack/pack", data="\n".join(place.ids).encode() + b"\n")
    for path in sorted(packs_of(place).glob("*.pack")):
        shown = [it.split() for it in place.git("verify-pack", "-v", str(path)).splitlines()]
        offset = next(int(it[4]) for it in shown if it[0] == place.ids[20])
        whole = path.read_bytes()
        path.chmod(0o600)
        path.write_bytes(whole[:offset + 2] + bytes(4) + whole[offset + 6:])
        asked.as_git(place, "rev-list main", "rev-parse main~30")
        path.write_bytes(whole)


def with_parent(graph: bytes, id: str, parent: str) -> bytes:
    """Returns a commit-graph file in which a commit has another parent (gitformat-commit-graph)."""
    chunks = [struct.unpack_from(">4sQ", graph, 8 + 12 * number) for number in range(graph[6])]
    begin = dict(chunks)
    count = struct.unpack_from(">I", graph, begin[b"OIDF"] + 4 * 255)[0]
    listed = [graph[begin[b"OIDL"] + 20 * at:][:20].hex() for at in range(count)]
    changed = bytearray(graph[:-20])
    struct.pack_into(">I", changed, begin[b"CDAT"] + 36 * listed.index(id) + 20, listed.index(parent))
    return bytes(changed) + hashlib.sha1(changed).digest()


def deceived(asked: Asked, room: Room) -> None:
    """The commit-graph file leaves a commit out of a line. The one above it is asked for late in a batch, and refused, since its object has another
    parent."""
    place = in_line(room, "deceived", 60)
    place.git("commit-graph", "write", "--reachable")
    path = Path(os.fsdecode(place.path), ".git/objects/info/commit-graph")
    path.chmod(0o600)
    path.write_bytes(with_parent(path.read_bytes(), place.ids[40], place.ids[38]))
    for before in (place.ids[:30], place.ids[50:]):
        batch = asked.batch(place)
        batch.ask(*(f"rev-list --count {id}" for id in before))
        asked.expect(place, "a count", batch.ask(f"rev-list --count {place.ids[40]}"), [(125, b"")])
        batch.end()


def authentic(asked: Asked, room: Room) -> None:
    """If only objects are believed, nothing is answered if the repository changes commits."""
    for name in ("grafts", "shallow", "replaced"):
        place = in_line(room, name, 9)
        if name == "grafts":
            place.write(".git/info/grafts", f"{place.ids[3]} {place.ids[5]}\n")
        elif name == "shallow":
            place.write(".git/shallow", f"{place.ids[3]}\n")
        else:
            place.git("replace", place.ids[3], place.ids[5])
        for it in ("rev-list --count main", "merge-base main main~1", "describe --always"):
            for mode in ("--authentic", "--authentic=whole"):
                asked.expect(place, it, answer(asked.program, place, f"{mode} {it}"), (129, b""))


def closed(asked: Asked, room: Room) -> None:
    """The output of a batch is a pipe that is closed after the first answer, or a full device."""
    place = in_line(room, "closed", 1)
    batch = asked.batch(place)
    batch.ask("rev-parse main")
    batch.process.stdout.close()
    batch.process.stdin.write(b"rev-parse main\n")
    batch.process.stdin.close()
    asked.expect(place, "a closed pipe", batch.process.wait(SECONDS), 141)
    with open("/dev/full", "wb") as full:
        done = subprocess.run([asked.program, "batch"], input=b"rev-parse main\n", stdout=full,
                              stderr=subprocess.DEVNULL, cwd=place.path, env=environment_of(place), timeout=SECONDS)
    asked.expect(place, "a full device", done.returncode, 125)


ROWS = (equal_dates, children, packs, far, chain, long_lines, long_paths, included, messages, mended, repacked, twins,
        deceived, authentic, closed)


def main(program: str, folder: str, *names: str) -> int:
    asked, room = Asked(os.fsencode(program)), Room(os.fsencode(folder) + b"/large")
    for row in [it for it in (*ROWS, many_ids) if it.__name__ in names] or ROWS:
        row(asked, room)
    print(f"{asked.answers} answers, {asked.wrong} wrong")
    return int(asked.wrong > 0)


if __name__ == "__main__":
    sys.exit(main(*sys.argv[1:]))
