"""Damages repositories, and checks the answers of a program like crates/object_lines.

usage: damage.py PROGRAM FOLDER CASES SEED

What is right is what git read before the damage, hashed here.
"""

from __future__ import annotations

import os
import random
import shutil
import subprocess
import sys
import zlib
from collections import Counter
from collections.abc import Iterator
from dataclasses import dataclass
from glob import glob

from crafted import Store, stores
from objects import Answered, ask, commit_answers, content_answer, git, history, lines_of, objects_in, outcomes, read, write
from pack_writer import stored_object

# A program that has not answered after so many seconds hangs.
SECONDS = 60

# An answer that is never right here: no file has more than a few kilobytes.
NO_MEMORY = "error: out of memory"

# A damage is what becomes of a file: the place, and the bytes from there on, or None if the file ends there.
Damage = tuple[int, "bytes | None"]


@dataclass
class File:
    """Is a file of the small repository, and which objects are read from it.

    `spans` has the places of objects in a pack: first byte, byte after the last, and the objects that are made of it.
    """

    path: str
    kind: str
    text: bytes
    names: set[str]
    spans: list[tuple[int, int, set[str]]]

    def suffering(self, at: int, is_cut: bool) -> tuple[set[str], bool]:
        """Returns which objects a damage can reach, and whether they may then be missing."""
        if self.kind == "loose":
            return self.names, False
        for begin, end, names in self.spans:
            if begin <= at < end and not is_cut:
                return names, False
        return self.names, True

    def listed(self, text: bytes, at: int) -> list[str]:
        """Returns the id that a damaged index lists instead of another one."""
        row = (at - 1032) // 20
        if self.kind != "index" or not 0 <= row < len(self.names) or len(text) < 1052 + 20 * row:
            return []
        return [text[1032 + 20 * row : 1052 + 20 * row].hex()]


class Small:
    """Makes the small repository: loose objects, a pack for each kind of deltas, and two alternates."""

    def __init__(self, folder: str, source: random.Random) -> None:
        self.folder = f"{folder}/small"
        self.objects = f"{self.folder}/objects"
        near, far, outside = f"{folder}/near", f"{folder}/far", f"{folder}/imported"
        for it in (self.folder, near, far, outside):
            git(folder, "init", "-q", "--bare", it)
        packed = [self.pack(outside, source, branch, words) for branch, words in PACKED.items()]
        mine = [self.loose(self.folder, text) for text in (b"", b"A loose blob.\n", source.randbytes(60))]
        mine += [self.typed(self.folder, "tree", b"100644 file\0" + bytes.fromhex(mine[1]))]
        text = f"tree {mine[3]}\nparent {'12' * 20}\nauthor A <a@b> 1 +0000\ncommitter C <c@d> 1700000000 +0100\n\nLoose.\n"
        mine += [self.typed(self.folder, "commit", text.encode())]
        text = f"object {mine[4]}\ntype commit\ntag loose\ntagger T <t@b> 5 +0000\n\nA tag.\n"
        mine += [self.typed(self.folder, "tag", text.encode())]
        twice = sorted(packed[0])[0]
        kind, content = objects_in(outside, [twice])[twice]
        mine += [twice]
        write(f"{self.objects}/{twice[:2]}/{twice[2:]}", zlib.compress(stored_object(kind, content)))
        theirs = [self.loose(it, b"In %d.\n" % at) for at, it in enumerate((near, far, far))]
        alternates = f"# A comment.\n../../near/objects\n{far}/objects\n"
        write(f"{self.objects}/info/alternates", alternates.encode())
        found = objects_in(self.folder)
        self.names = sorted(found)
        self.absent = ["0" * 40, "12" * 20, self.names[0][:-1] + ("0" if self.names[0][-1] != "0" else "1")]
        self.right = {name: content_answer(name, it) for name, it in found.items()}
        commits = [name for name, it in found.items() if it[0] == "commit"]
        self.lines = commit_answers(self.folder, commits)
        copies = Counter(name for group in (*packed, mine, theirs) for name in group)
        self.spare = {name for name, count in copies.items() if count > 1}
        assert set(copies) == set(found) and self.spare == {twice}, self.spare
        self.files = list(self.found_files(mine, theirs))

    def loose(self, folder: str, content: bytes) -> str:
        return self.typed(folder, "blob", content)

    def typed(self, folder: str, kind: str, content: bytes) -> str:
        return git(folder, "hash-object", "-t", kind, "-w", "--stdin", given=content).decode().strip()

    def pack(self, outside: str, source: random.Random, branch: str, words: list[str]) -> list[str]:
        """Adds a pack of a history of its own, and returns the ids in it."""
        stream = history(source, 12, branch, is_line=True, words=60)
        git(outside, "fast-import", "--quiet", "--force", given=stream)
        names = [line.split(" ")[0] for line in git(outside, "rev-list", "--objects", branch).decode().splitlines()]
        names += git(outside, "for-each-ref", "--format=%(objectname)", "refs/tags").decode().split()
        git(outside, "update-ref", "--stdin", given=git(outside, "for-each-ref", "--format=delete %(refname)", "refs/tags"))
        git(self.folder, "--git-dir", outside, "pack-objects", "-q", *words, f"{self.objects}/pack/pack", given=lines_of(names))
        return names

    def found_files(self, mine: list[str], theirs: list[str]) -> Iterator[File]:
        """Yields the files that are damaged, writable from now on."""
        for name in mine:
            yield self.file("loose", f"{self.objects}/{name[:2]}/{name[2:]}", {name}, [])
        for path in sorted(glob(f"{self.objects}/pack/*.idx")):
            rows = [line.split(" ") for line in git(self.folder, "verify-pack", "-v", path).decode().splitlines()]
            rows = [[it for it in row if it] for row in rows if len(row) > 4 and len(row[0]) == 40]
            bases = {row[0]: row[6] for row in rows if len(row) == 7}
            assert len(bases) > 4, bases
            names = {row[0] for row in rows}
            chains = {name: set(chain_of(name, bases)) for name in names}
            spans = []
            for row in rows:
                begin = int(row[4])
                spans.append((begin, begin + int(row[3]), {it for it in names if row[0] in chains[it]}))
            yield self.file("pack", path[:-4] + ".pack", names, spans)
            yield self.file("index", path, names, [])
        yield self.file("alternates", f"{self.objects}/info/alternates", set(theirs), [])

    def file(self, kind: str, path: str, names: set[str], spans: list[tuple[int, int, set[str]]]) -> File:
        os.chmod(path, 0o644)
        return File(path, kind, read(path), names, spans)


# The histories that are packed, each with the words for `git pack-objects`.
PACKED = {"offsets": ["--delta-base-offset", "--depth=50", "--window=50"], "ids": ["--depth=50", "--window=50"]}


def chain_of(name: str, bases: dict[str, str]) -> Iterator[str]:
    while True:
        yield name
        if name not in bases:
            return
        name = bases[name]


def damages(text: bytes, source: random.Random) -> Iterator[Damage]:
    """Yields each flipped bit, three other bytes in each place, and each beginning of a file."""
    for at in range(len(text)):
        yield at, None
        for byte in {text[at] ^ 1 << bit for bit in range(8)} | {0, 255, source.randrange(256)}:
            if byte != text[at]:
                yield at, bytes([byte])


def cases(files: list[File], source: random.Random) -> Iterator[tuple[File, Damage]]:
    """Yields damages without end: by turns one of each kind of file, first each single one, and then runs of bytes."""
    kinds = sorted({it.kind for it in files})
    singles: dict[str, list[tuple[File, Damage]]] = {kind: [] for kind in kinds}
    for file in files:
        singles[file.kind] += [(file, damage) for damage in damages(file.text, source)]
    for row in singles.values():
        source.shuffle(row)
    while True:
        for kind in kinds:
            if singles[kind]:
                yield singles[kind].pop()
            elif not any(singles.values()):
                file = source.choice([it for it in files if it.kind == kind])
                at = source.randrange(len(file.text))
                yield file, (at, source.randbytes(min(source.choice([2, 4, 20]), len(file.text) - at)))


class Trial:
    """Asks the program, and counts what it answers."""

    def __init__(self, program: str) -> None:
        self.program = program
        self.counts: Counter[str] = Counter()
        self.faults: Counter[str] = Counter()

    def fault(self, kind: str, text: str) -> None:
        """Prints a fault; of each kind only the first five. After 200 the script ends."""
        self.faults[kind] += 1
        if self.faults[kind] <= 5:
            print(text.strip(), flush=True)
        elif sum(self.faults.values()) == 200:
            sys.exit("200 faults")

    def count(self, outcome: str) -> None:
        self.counts[outcome if outcome in ("right", "missing") else "error"] += 1

    def damaged(self, small: Small, file: File, damage: Damage, commits: bool) -> None:
        """Tries one damage."""
        at, new = damage
        text = file.text[:at] + (new + file.text[at + len(new) :] if new is not None else b"")
        write(file.path, text)
        names = small.names + small.absent + file.listed(text, at)
        right = small.lines if commits else small.right
        answered = ask(self.program, small.objects, names, commits, SECONDS)
        write(file.path, file.text)
        suffering, may_be_missing = file.suffering(at, new is None)
        found = outcomes(answered, names, right)
        for place, outcome in enumerate(found):
            name = names[place] if place < len(names) else "the end"
            self.count(outcome)
            if not self.is_allowed(small, name, outcome, commits, name in suffering, may_be_missing):
                what = f"cut at {at}" if new is None else f"with {new.hex()} at {at}"
                where = f"{os.path.relpath(file.path, small.objects)} {what}{', commits' if commits else ''}"
                self.fault(file.kind, f"{where}: {name}: {outcome[:200]}")
                return

    def is_allowed(self, small: Small, name: str, outcome: str, commits: bool, suffers: bool, may_be_missing: bool) -> bool:
        if outcome.startswith(NO_MEMORY) or not (outcome in ("right", "missing") or outcome.startswith("error: ")):
            return False
        if name not in small.right:
            return outcome == "missing" or (may_be_missing and outcome != "right")
        if suffers and name not in small.spare:
            return outcome != "missing" or may_be_missing
        return outcome == "right" if not commits or name in small.lines else outcome.startswith("error: not a commit")

    def written(self, folder: str, store: Store) -> None:
        """Tries a store that was written byte by byte."""
        objects = f"{folder}/store/objects"
        shutil.rmtree(f"{folder}/store", ignore_errors=True)
        for path, text in store.files.items():
            if text is None:
                os.makedirs(f"{objects}/{path}")
            else:
                write(f"{objects}/{path}", text)
        os.makedirs(objects, exist_ok=True)
        right = {name: content_answer(name, it) for name, it in store.objects.items()}
        names = list(store.wanted)
        for commits in (False,) if store.is_large else (False, True):
            answered = ask(self.program, objects, names, commits, SECONDS)
            for place, outcome in enumerate(outcomes(answered, names, {} if commits else right)):
                name = names[place] if place < len(names) else "the end"
                self.count(outcome)
                wanted = store.wanted.get(name, "")
                if commits:
                    wanted = wanted.replace("R", "E")
                is_allowed = ("R" in wanted and outcome == "right") or ("M" in wanted and outcome == "missing")
                has_memory = store.is_large or not outcome.startswith(NO_MEMORY)
                is_allowed |= "E" in wanted and outcome.startswith("error: ") and has_memory
                if not is_allowed:
                    where = f"{store.name}{', commits' if commits else ''}"
                    self.fault(store.name, f"{where}: {name}: {outcome[:200].strip()}, wanted one of {wanted}")
                    break

    def judged_by_git(self, folder: str, store: Store) -> None:
        """Checks that a store is what it should be: git reads the objects that have to be right, and not those that are errors.

        git compares no hash, so it may read another object there. It ends at the first error that it finds.
        """
        environment = {**os.environ, "GIT_OBJECT_DIRECTORY": f"{folder}/store/objects", "GIT_DIR": f"{folder}/small"}
        right = {name: content_answer(name, it) for name, it in store.objects.items()}
        sure = [name for name, wanted in store.wanted.items() if wanted == "R"]
        lost = [name for name, wanted in store.wanted.items() if wanted == "E" and name in right]
        run = subprocess.run(["git", "cat-file", "--batch"], input=lines_of(sure + lost), capture_output=True, env=environment)
        text = b"".join(right[name] for name in sure)
        if not run.stdout.startswith(text) or any(right[name] in run.stdout[len(text) :] for name in lost):
            self.fault("git", f"{store.name}: git answers {run.stdout[:100]!r} {run.stderr[:200]!r}")


def main() -> int:
    program, folder, count, seed = sys.argv[1], sys.argv[2], int(sys.argv[3]), int(sys.argv[4])
    source = random.Random(seed)
    small, trial = Small(folder, source), Trial(program)
    for at, (file, damage) in zip(range(count), cases(small.files, source)):
        trial.damaged(small, file, damage, commits=at % 4 == 3)
    tried = 0
    for store in stores(source):
        trial.written(folder, store)
        if store.by_git:
            trial.judged_by_git(folder, store)
        tried += 1
    counts = ", ".join(f"{trial.counts[it]} {it}" for it in ("right", "error", "missing"))
    faults = sum(trial.faults.values())
    print(f"{count} damages and {tried} odd stores: {counts}" + (f"; {faults} faults" if faults else ""))
    return 1 if faults else 0


sys.exit(main())
