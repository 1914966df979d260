"""Compares the answers of a program like crates/object_lines with those of git, in repositories that git writes.

usage: repositories.py PROGRAM FOLDER SEED
"""

from __future__ import annotations

import fcntl
import os
import random
import shutil
import struct
import subprocess
import sys
import termios
import time
from collections.abc import Callable
from glob import glob

from objects import Answered, Object, ask, commit_answers, content_answer, git, history, data, edited, lines_of, objects_in
from objects import outcomes, read, text_of, write
from pack_writer import ID_DELTA, OFFSET_DELTA

# The empty tree is the only object that git has in every repository.
EMPTY_TREE = "4b825dc642cb6eb9a060e54bf8d69288fbee4904"


class Room:
    """Makes repositories of one random source in a folder, which are removed again by those who compare them."""

    def __init__(self, folder: str, source: random.Random) -> None:
        self.folder, self.source, self.count = folder, source, 0
        self.base = self.new()
        git(self.base, "symbolic-ref", "HEAD", "refs/heads/main")
        git(self.base, "-c", "fastimport.unpackLimit=1", "fast-import", "--quiet", given=history(source, 90))
        self.tag_tags(self.base)
        git(self.base, "repack", "-adq")

    def new(self) -> str:
        self.count += 1
        folder = f"{self.folder}/repositories/{self.count}"
        git(self.folder, "init", "-q", "--bare", folder)
        return folder

    def tag_tags(self, folder: str) -> None:
        """Adds tags of a tree, of a blob and of tags."""
        git(folder, "tag", "-a", "-m", "A tree", "tree", "v9^{tree}")
        git(folder, "tag", "-a", "-m", "A blob", "blob", "v9:a")
        for depth in range(4):
            git(folder, "tag", "-a", "-m", f"Level {depth}", f"tags{depth}", f"tags{depth - 1}" if depth else "v9")

    def with_pack_of(self, other: str) -> str:
        """Makes a repository with the packs and refs of another one."""
        folder = self.new()
        for name in ("objects/pack", "refs", "packed-refs"):
            if os.path.isdir(f"{other}/{name}"):
                shutil.copytree(f"{other}/{name}", f"{folder}/{name}", dirs_exist_ok=True)
            elif os.path.exists(f"{other}/{name}"):
                shutil.copy(f"{other}/{name}", f"{folder}/{name}")
        return folder


def pack_of(folder: str) -> str:
    """Returns the only pack of a repository, without the end of its name."""
    packs = glob(f"{folder}/objects/pack/*.pack")
    assert len(packs) == 1, packs
    return packs[0][:-5]


def kinds_of_entries(folder: str) -> dict[int, int]:
    """Returns how many entries of each kind the packs of a repository have."""
    found: dict[int, int] = {}
    for path in glob(f"{folder}/objects/pack/*.pack"):
        text = read(path)
        for line in git(folder, "show-index", given=read(f"{path[:-5]}.idx")).splitlines():
            kind = text[int(line.split()[0])] >> 4 & 7
            found[kind] = found.get(kind, 0) + 1
    return found


def loosen(folder: str, pack: str, *settings: str) -> None:
    """Writes the objects of a pack as loose files."""
    git(folder, *settings, "unpack-objects", "-q", given=read(f"{pack}.pack"))


def stored(folder: str, content: bytes) -> str:
    """Adds a blob, and returns its id."""
    return git(folder, "hash-object", "-w", "--stdin", given=content).decode().strip()


# The repositories. Each function makes one and returns its folder, which has only objects that git can read.


def loose_at(level: int) -> Callable[[Room], str]:
    def make(room: Room) -> str:
        folder = room.new()
        loosen(folder, pack_of(room.base), "-c", f"core.looseCompression={level}")
        return folder

    return make


def offset_deltas(room: Room) -> str:
    folder = room.with_pack_of(room.base)
    git(folder, "repack", "-adfq", "--depth=50", "--window=50")
    kinds = kinds_of_entries(folder)
    assert kinds[OFFSET_DELTA] > 50 and ID_DELTA not in kinds, kinds
    return folder


def id_deltas(room: Room) -> str:
    folder = room.with_pack_of(room.base)
    git(folder, "-c", "repack.useDeltaBaseOffset=false", "repack", "-adfq", "--depth=50", "--window=50")
    kinds = kinds_of_entries(folder)
    assert kinds[ID_DELTA] > 50 and OFFSET_DELTA not in kinds, kinds
    return folder


def both_deltas(room: Room) -> str:
    """A thin pack that git completed: deltas by offset, and by id to the objects that were added."""
    folder, other = room.new(), f"{room.folder}/other"
    git(folder, "-c", "fastimport.unpackLimit=1", "fast-import", "--quiet", given=history(room.source, 40, is_line=True))
    words = ["--thin", "--stdout", "--revs", "--delta-base-offset", "--depth=50", "-q"]
    thin = git(folder, "pack-objects", *words, given=b"main\n^main~20\n")
    pack = pack_of(folder)
    for end in (".pack", ".idx"):
        shutil.move(pack + end, other + end)
    loosen(folder, other)
    git(folder, "index-pack", "--fix-thin", "--stdin", given=thin)
    assert {OFFSET_DELTA, ID_DELTA} <= set(kinds_of_entries(folder))
    return folder


def large_offsets(first: int) -> Callable[[Room], str]:
    def make(room: Room) -> str:
        folder = offset_deltas(room)
        pack = pack_of(folder)
        os.remove(f"{pack}.idx")
        git(folder, "index-pack", f"--index-version=2,{first:#x}", f"{pack}.pack")
        return folder

    return make


def deep_chain(room: Room) -> str:
    """A chain of 1,000 deltas."""
    folder, text, stream = room.new(), text_of(room.source, 100), []
    for _ in range(1001):
        text = edited(room.source, text)
        stream.append(b"blob\n" + data(text))
    git(folder, "-c", "fastimport.unpackLimit=1", "fast-import", "--quiet", "--depth=4095", given=b"".join(stream))
    assert b"chain length = 1000" in git(folder, "verify-pack", "-v", f"{pack_of(folder)}.idx")
    return folder


def same_objects(room: Room) -> str:
    """Packs that have the same objects as deltas, whole, and in part."""
    folder = room.with_pack_of(room.base)
    names = git(folder, "cat-file", "--batch-all-objects", "--batch-check=%(objectname)").split(b"\n")
    for words in (["--depth=0"], ["--depth=50"], ["--depth=50", "--delta-base-offset", "--window=2"]):
        git(folder, "pack-objects", "-q", "--no-reuse-delta", *words, "objects/pack/pack", given=b"\n".join(names))
    git(folder, "pack-objects", "-q", "objects/pack/pack", given=b"\n".join(names[::3]))
    assert len(glob(f"{folder}/objects/pack/*.pack")) >= 4
    return folder


def many_packs(room: Room) -> str:
    """30 packs, each with other objects, and objects in none of them."""
    folder = room.with_pack_of(room.base)
    pack = pack_of(folder)
    names = git(folder, "cat-file", "--batch-all-objects", "--batch-check=%(objectname)").split(b"\n")
    loosen(room.new(), pack)
    for part in range(30):
        git(folder, "pack-objects", "-q", f"objects/pack/{'pack' if part else 'other'}", given=b"\n".join(names[part::31]))
    for end in (".pack", ".idx"):
        shutil.move(pack + end, folder + end)
    loosen(folder, folder)
    git(folder, "prune-packed", "-q")
    return folder


def loose_and_packed(room: Room) -> str:
    folder = room.with_pack_of(room.base)
    pack = pack_of(folder)
    for end in (".pack", ".idx"):
        shutil.move(pack + end, folder + end)
    loosen(folder, folder)
    for end in (".pack", ".idx"):
        shutil.move(folder + end, pack + end)
    stored(folder, b"Only loose.\n")
    return folder


def maintained(room: Room) -> str:
    """Files that git writes beside packs: bitmaps, reverse indexes, a multi-pack-index, and a pack of unreachable objects."""
    folder = many_packs(room)
    git(folder, "-c", "pack.writeReverseIndex=true", "repack", "-adbq")
    for text in (b"Not reachable.\n", b"Neither.\n"):
        stored(folder, text)
    git(folder, "-c", "gc.cruftPacks=true", "gc", "-q", "--prune=never")
    git(folder, "fast-import", "--quiet", "--force", given=history(room.source, 30, "more"))
    git(folder, "repack", "-dq")
    git(folder, "multi-pack-index", "write")
    git(folder, "commit-graph", "write", "--reachable")
    write(f"{pack_of_any(folder)}.keep", b"")
    return folder


def pack_of_any(folder: str) -> str:
    return sorted(glob(f"{folder}/objects/pack/*.pack"))[0][:-5]


def alternates(room: Room) -> str:
    """A repository with alternates, which have alternates: by absolute and by relative path, after a comment."""
    lowest = room.with_pack_of(room.base)
    middle, beside, folder = room.new(), room.new(), room.new()
    write(f"{middle}/objects/info/alternates", f"# The lowest one.\n\n{lowest}/objects\n".encode())
    path = os.path.relpath(f"{middle}/objects", f"{folder}/objects")
    write(f"{folder}/objects/info/alternates", f"{path}\n#{path}\n{path}\n{beside}/objects/\n{folder}/objects/nothing\n".encode())
    write(f"{beside}/objects/info/alternates", f"../../{os.path.basename(lowest)}/./objects".encode())
    for at, it in enumerate((middle, beside, folder)):
        stream = history(room.source, 20, f"branch{at}")
        git(it, "-c", f"fastimport.unpackLimit={1000 if at else 1}", "fast-import", "--quiet", given=stream)
    assert len(objects_in(folder)) > len(objects_in(middle)) > len(objects_in(lowest))
    return folder


def nested_alternates(room: Room) -> str:
    """Eight repositories, each of which but the first has the one before as alternate. git reads seven of them."""
    folders = [room.new() for _ in range(8)]
    for at, folder in enumerate(folders):
        stored(folder, b"%d\n" % at)
        if at > 0:
            write(f"{folder}/objects/info/alternates", f"{folders[at - 1]}/objects\n".encode())
    assert 1 < len(objects_in(folders[-1])) < 8
    return folders[-1]


def circle_of_alternates(room: Room) -> str:
    one, other = room.new(), room.new()
    for at, (it, to) in enumerate([(one, other), (other, one)]):
        stored(it, b"%d\n" % at)
        write(f"{it}/objects/info/alternates", f"{to}/objects\n{it}/objects\n".encode())
    return one


def quoted_alternates(room: Room) -> str:
    """A repository whose alternates are in quotes, with escapes: a tab, a quote, a line end and bytes of UTF-8."""
    folder = room.new()
    paths = []
    for at, name in enumerate(['plain', 'a "quote"', "a\tab", "two\nlines", "grün", "back\\slash"]):
        it = f"{room.new()}/{name}"
        git(folder, "init", "-q", "--bare", it)
        stored(it, b"%d\n" % at)
        paths += [f"{it}/objects"]
    escapes = {"\t": "\\t", "\n": "\\n", '"': '\\"', "\\": "\\\\", "ü": "\\303\\274"}
    lines = ['"' + "".join(escapes.get(letter, letter) for letter in path) + '"\n' for path in paths]
    write(f"{folder}/objects/info/alternates", "".join([*lines, '"unfinished\n', '"wrong\\q"\n']).encode())
    assert len(objects_in(folder)) == len(paths)
    return folder


def without_objects(room: Room) -> str:
    return room.new()


def smallest(room: Room) -> str:
    """The empty blob and the empty tree, loose, and contents that look like other objects or have odd bytes."""
    folder = room.new()
    stored(folder, b"")
    git(folder, "hash-object", "-t", "tree", "-w", "--stdin")
    for text in (b"\0", b"\n", b"\n\n", b"blob 3\0abc", b"tree 0\0", bytes(range(256)), b"a" * 65535, b"a" * 65536, b"a" * 65537):
        stored(folder, text)
    return folder


def smallest_packed(room: Room) -> str:
    folder = smallest(room)
    names = git(folder, "cat-file", "--batch-all-objects", "--batch-check=%(objectname)")
    git(folder, "pack-objects", "-q", "objects/pack/pack", given=names)
    git(folder, "prune-packed", "-q")
    return folder


def large(room: Room) -> str:
    """A blob of 10 MB and an edited one, one of zeros, two that do not compress, and a tree with 20,000 entries, loose."""
    folder, pages = room.new(), [text_of(room.source, 500) for _ in range(300)]
    text = b"".join(room.source.choices(pages, k=3000))[:10_000_000]
    for content in (text, text[:5_000_000] + b"edited" + text[5_000_000:], bytes(10_000_000)):
        stored(folder, content)
    for size in (70_000, 3_000_000):
        stored(folder, room.source.randbytes(size))
    blob = stored(folder, b"")
    git(folder, "mktree", "-z", given="".join(f"100644 blob {blob}\tfile{at:05}\0" for at in range(20_000)).encode())
    return folder


def large_packed(room: Room) -> str:
    folder = large(room)
    names = git(folder, "cat-file", "--batch-all-objects", "--batch-check=%(objectname)")
    git(folder, "pack-objects", "-q", "objects/pack/pack", given=names)
    git(folder, "prune-packed", "-q")
    assert kinds_of_entries(folder).get(ID_DELTA, 0) > 0
    return folder


def large_streamed(room: Room) -> str:
    """The same as git stores them if they are large to it: without deltas, in packs."""
    folder = large(room)
    git(folder, "config", "core.bigFileThreshold", "1m")
    names = git(folder, "cat-file", "--batch-all-objects", "--batch-check=%(objectname)")
    git(folder, "pack-objects", "-q", "objects/pack/pack", given=names)
    git(folder, "prune-packed", "-q")
    return folder


def many_parents(room: Room) -> str:
    """Commits with 2 to 1,000 parents, among them one twice and one that is not there, and dates past 2^32."""
    folder = room.new()
    tree = git(folder, "hash-object", "-t", "tree", "-w", "--stdin").decode().strip()

    def commit(when: int, parents: list[str]) -> str:
        lines = [f"tree {tree}", *(f"parent {it}" for it in parents)]
        lines += ["author A <a@example.org> 1 +0000", f"committer C <c@example.org> {when} +0000", "", "A commit."]
        return git(folder, "hash-object", "-t", "commit", "-w", "--stdin", given=lines_of(lines)).decode().strip()

    roots = [commit(at, []) for at in range(200)]
    many = [commit(0, roots[:count]) for count in (2, 3, 16, 17, 200)]
    commit(1 << 33, (roots + many) * 5)
    commit(1 << 40, [roots[0], roots[0]])
    commit(5, ["12" * 20, roots[3]])
    return folder


def partial_clone(room: Room) -> str:
    """A clone without blobs. Its settings are changed so that git fetches none."""
    folder = f"{room.folder}/repositories/partial"
    git(room.base, "config", "uploadpack.allowFilter", "true")
    git(room.folder, "clone", "-q", "--bare", "--filter=blob:none", f"file://{room.base}", folder)
    for name in ("extensions.partialClone", "remote.origin.promisor", "remote.origin.partialCloneFilter"):
        subprocess.run(["git", "-C", folder, "config", "--unset", name], check=name.startswith("remote.origin.p"))
    return folder


def shallow_clone(room: Room) -> str:
    """A clone of the newest commits. The file `shallow` is removed, so that git lists the parents that a commit has."""
    folder = f"{room.folder}/repositories/shallow"
    git(room.folder, "clone", "-q", "--bare", "--depth=2", "--no-single-branch", f"file://{room.base}", folder)
    os.remove(f"{folder}/shallow")
    return folder


REPOSITORIES: dict[str, Callable[[Room], str]] = {
    **{f"loose objects at zlib level {level}": loose_at(level) for level in range(10)},
    "a pack with deltas by offset": offset_deltas,
    "a pack with deltas by id": id_deltas,
    "a pack with both kinds of deltas": both_deltas,
    "64-bit offsets from 0x40 on": large_offsets(0x40),
    "64-bit offsets from 0x1000 on": large_offsets(0x1000),
    "a chain of 1,000 deltas": deep_chain,
    "packs with the same objects": same_objects,
    "many packs": many_packs,
    "objects that are loose and packed": loose_and_packed,
    "files beside packs": maintained,
    "alternates": alternates,
    "nested alternates": nested_alternates,
    "alternates in a circle": circle_of_alternates,
    "alternates in quotes": quoted_alternates,
    "no object": without_objects,
    "small objects": smallest,
    "small objects in a pack": smallest_packed,
    "large objects": large,
    "large objects in a pack": large_packed,
    "large objects without deltas": large_streamed,
    "many parents": many_parents,
    "a partial clone": partial_clone,
    "a shallow clone": shallow_clone,
}


class Comparison:
    """Compares answers, and counts them."""

    def __init__(self, program: str, source: random.Random, elsewhere: list[str]) -> None:
        self.program, self.source, self.elsewhere = program, source, elsewhere
        self.objects = self.commits = self.missing = self.faults = 0

    def fault(self, text: str) -> None:
        self.faults += 1
        if self.faults <= 20:
            print(text)

    def of_repository(self, name: str, folder: str) -> None:
        found = objects_in(folder)
        order = git(folder, "cat-file", "--batch-all-objects", "--unordered", "--batch-check=%(objectname)").decode().split()
        if sorted(order) != sorted(found):
            sys.exit(f"{name}: git lists an object twice")
        self.of_contents(f"{name}, in the order of files", folder, order)
        self.of_contents(f"{name}, in random order", folder, self.shuffled(found))
        self.of_commits(name, folder, found)
        self.of_tags(name, folder, found)
        self.of_ids(name, folder, found)

    def shuffled(self, found: dict[str, Object]) -> list[str]:
        """Returns lines in random order: the ids of the objects, some of them twice or in capitals, ids that are not there, and
        lines that are no ids."""
        names = list(found)
        absent = [it for it in self.elsewhere if it not in found and it != EMPTY_TREE]
        lines = names + [it.upper() for it in names[:5]] + self.source.sample(names, min(20, len(names)))
        lines += self.source.sample(absent, min(50, len(absent)))
        lines += [f"{self.source.getrandbits(160):040x}" for _ in range(20)] + ["12AB" * 10, "ab" * 19 + "Cd"]
        lines += [it[:-1] + ("0" if it[-1] != "0" else "1") for it in names[:20]]
        odd = "12" * 20
        lines += ["0" * 40, "f" * 40, "g" * 40, "no id", "-", f"{odd}0", f"{odd} ", f" {odd}", f"{odd} blob"]
        self.source.shuffle(lines)
        return lines

    def of_contents(self, name: str, folder: str, lines: list[str]) -> None:
        """Compares all answers about contents, byte by byte."""
        wanted = git(folder, "cat-file", "--buffer", "--batch", given=lines_of(lines))
        answered = ask(self.program, f"{folder}/objects", lines)
        self.missing += sum(line.endswith(b" missing") for line in wanted.split(b"\n"))
        self.objects += len(lines)
        if answered.status != 0 or answered.errors:
            self.fault(f"{name}: status {answered.status}, {answered.errors[:200].decode(errors='replace')}")
        elif answered.text != wanted:
            pairs = enumerate(zip(answered.text, wanted))
            at = next((at for at, (a, b) in pairs if a != b), min(len(answered.text), len(wanted)))
            here = slice(max(at - 60, 0), at + 60)
            self.fault(f"{name}: at byte {at}\n  answered {answered.text[here]!r}\n  git      {wanted[here]!r}")

    def of_commits(self, name: str, folder: str, found: dict[str, Object]) -> None:
        """Compares the lines of all commits, and checks that no other object is taken for a commit."""
        commits = [it for it, (kind, _) in found.items() if kind == "commit"]
        others = self.source.sample([it for it in found if it not in set(commits)], min(50, len(found) - len(commits)))
        absent = [it for it in self.elsewhere if it not in found and it != EMPTY_TREE][:50]
        lines = commits + others + absent + self.source.sample(commits, min(20, len(commits)))
        self.source.shuffle(lines)
        by_git = commit_answers(folder, commits) if commits else {}
        answered = ask(self.program, f"{folder}/objects", lines, commits=True)
        answers = answered.text.splitlines(keepends=True)
        self.commits += len(lines)
        if answered.status != 0 or answered.errors or len(answers) != len(lines):
            count = f"{len(answers)} answers to {len(lines)} ids"
            self.fault(f"{name}, commits: status {answered.status}, {count} {answered.errors[:200]!r}")
            return
        for line, answer in zip(lines, answers):
            if line in by_git:
                is_right, wanted = answer == by_git[line], by_git[line]
            elif line in found:
                wanted = b"%s error: not a commit: .." % line.encode()
                is_right = answer.startswith(wanted[:-2])
            else:
                wanted = b"%s missing\n" % line.encode()
                is_right = answer == wanted
            if not is_right:
                self.fault(f"{name}, commits\n  answered {answer[:200]!r}\n  git      {wanted[:200]!r}")

    def of_answers(self, name: str, folder: str, mode: str, wanted: dict[str, bytes]) -> None:
        """Compares the answers to lines in a mode of the program."""
        answered = ask(self.program, f"{folder}/objects", list(wanted), mode=mode)
        answers = answered.text.splitlines()
        self.objects += len(wanted)
        if answered.status != 0 or answered.errors or len(answers) != len(wanted):
            count = f"{len(answers)} answers to {len(wanted)} lines"
            self.fault(f"{name}, {mode}: status {answered.status}, {count} {answered.errors[:200]!r}")
            return
        for line, answer in zip(wanted, answers):
            if answer != wanted[line]:
                self.fault(f"{name}, {mode}, {line}\n  answered {answer[:200]!r}\n  wanted   {wanted[line][:200]!r}")

    def of_tags(self, name: str, folder: str, found: dict[str, Object]) -> None:
        """Compares what tags say with the lines of their contents, and checks that no other object is taken for a tag."""
        wanted = {}
        for line in self.source.sample(list(found), min(40, len(found))) + [it for it in found if found[it][0] == "tag"]:
            kind, content = found[line]
            wanted[line] = b"%s error: not a tag: object %s is a %s" % (line.encode(), line.encode(), kind.encode())
            if kind == "tag":
                rows = dict(row.split(b" ", 1) for row in content.split(b"\n\n")[0].split(b"\n"))
                date = rows[b"tagger"].split()[-2] if b"tagger" in rows else b"0"
                wanted[line] = b" ".join([rows[b"object"], rows[b"type"], date, rows[b"tag"]])
        self.of_answers(name, folder, "--tags", wanted)

    def of_ids(self, name: str, folder: str, found: dict[str, Object]) -> None:
        """Compares which ids begin with some digits."""
        names = sorted(found)
        lines = [it[: self.source.choice([4, 5, 6, 7, 39, 40])] for it in self.source.sample(names, min(60, len(names)))]
        lines += [f"{self.source.getrandbits(16):04x}" for _ in range(20)] + ["0000", "ffff", "f" * 40]
        lines += [it[:5].upper() for it in names[:5]]
        wanted = {}
        for line in lines:
            ids = [it for it in names if it.startswith(line.lower())][:16]
            wanted[line] = " ".join([f"{line}:", *ids]).encode()
        self.of_answers(name, folder, "--ids", wanted)

    def of_old_index(self, room: Room) -> None:
        """Compares an index of version 1, which the program may refuse by name."""
        folder = offset_deltas(room)
        pack = pack_of(folder)
        os.remove(f"{pack}.idx")
        git(folder, "index-pack", "--index-version=1", f"{pack}.pack")
        right = {name: content_answer(name, it) for name, it in objects_in(folder).items()}
        self.objects += len(right)
        for outcome in outcomes(ask(self.program, f"{folder}/objects", list(right)), list(right), right):
            if outcome != "right" and not outcome.startswith("error: unsupported: "):
                self.fault(f"an index of version 1: {outcome}")
                return

    def of_repack(self, room: Room) -> None:
        """Compares the answers of a program that is asked before and after git packs all objects anew.

        The files that the program knew are gone by then.
        """
        folder = loose_and_packed(room)
        right = {name: content_answer(name, it) for name, it in objects_in(folder).items()}
        names = list(right)
        asked = subprocess.Popen([self.program, f"{folder}/objects"], stdin=subprocess.PIPE, stdout=subprocess.PIPE)
        asked.stdin.write(lines_of(names[:2]))
        asked.stdin.flush()
        while struct.unpack("i", fcntl.ioctl(asked.stdin, termios.FIONREAD, bytes(4)))[0] > 0 and asked.poll() is None:
            time.sleep(0.01)
        time.sleep(0.2)
        git(folder, "repack", "-adfq", "--depth=20")
        git(folder, "pack-objects", "-q", "objects/pack/pack", given=lines_of(names[: len(names) // 2]))
        git(folder, "prune-packed", "-q")
        text = asked.communicate(lines_of(names[2:]), timeout=60)[0]
        self.objects += len(names)
        for outcome in outcomes(Answered(asked.returncode, text, b""), names, right):
            if outcome != "right":
                self.fault(f"objects that are packed anew while a program runs: {outcome}")
                return


def main() -> int:
    program, folder, seed = sys.argv[1:]
    source = random.Random(int(seed))
    room = Room(folder, source)
    compared = Comparison(program, source, list(objects_in(room.base)))
    for name, make in REPOSITORIES.items():
        compared.of_repository(name, make(room))
    compared.of_old_index(room)
    compared.of_repack(room)
    counts = f"{compared.objects} answers about contents, {compared.missing} of them missing, and {compared.commits} about commits"
    print(f"{len(REPOSITORIES) + 2} repositories: {counts}" + (f"; {compared.faults} differ" if compared.faults else " are git's"))
    return 1 if compared.faults else 0


sys.exit(main())
