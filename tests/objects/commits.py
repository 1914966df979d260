"""Compares the commits that a program like crates/object_lines reads with git's.

usage: commits.py REPOSITORY SEED [PROGRAM]

Without PROGRAM a reader in Python answers, which follows git's functions parse_commit_buffer and parse_commit_date.
"""

from __future__ import annotations

import os
import random
import re
import subprocess
import sys
import tempfile
from collections.abc import Iterator

# The id of the empty tree.
TREE = b"4b825dc642cb6eb9a060e54bf8d69288fbee4904"

# Times from here on do not fit into an `i64`: the program refuses them, and git prints them.
LIMIT = 2**63

REPOSITORY = sys.argv[1]


def git(*words: str, given: bytes = b"") -> subprocess.CompletedProcess:
    return subprocess.run(["git", "-C", REPOSITORY, *words], input=given, capture_output=True)


def written(kind: str, contents: list[bytes]) -> list[str]:
    """Lets git write objects of a kind. Returns their ids."""
    with tempfile.TemporaryDirectory() as folder:
        paths = [f"{folder}/{at}" for at in range(len(contents))]
        for path, content in zip(paths, contents):
            with open(path, "wb") as file:
                file.write(content)
        names = "".join(f"{path}\n" for path in paths).encode()
        made = git("hash-object", "-t", kind, "-w", "--literally", "--stdin-paths", given=names)
    ids = made.stdout.decode().split()
    assert made.returncode == 0 and len(ids) == len(contents), made.stderr
    return ids


# --- Contents ---------------------------------------------------------------------------------------------------------

TREE_LINE = b"tree " + TREE + b"\n"
AUTHOR = b"author A <a> 1 +0000\n"
MESSAGE = b"\n\nm\n"


def plain(time: int) -> bytes:
    """Returns the content of a commit without parents."""
    return TREE_LINE + AUTHOR + b"committer C <c> %d +0000\n\nm\n" % time


def dates() -> Iterator[bytes]:
    """Yields what can follow `committer C <c>` in a commit: numbers of all sizes, with signs and white space."""
    for number in (0, 77, 2**34, LIMIT - 1, LIMIT, 2**64 - 1, 2**64, 10**26):
        for sign in (b"", b"-", b"+"):
            yield b" %s%d +0000" % (sign, number) + MESSAGE
    yield b" -%d +0000" % (LIMIT + 1) + MESSAGE
    for text in (b" -5", b" - 5", b" --5", b" +-5", b" 7junk", b" 0x10", b" 007", b" x", b"77", b"", b" 7\0007", b" \0 77"):
        yield text + b" +0000" + MESSAGE
    for text in (b"\t \x0b\x0c\r 77", b" \n 88 x", b"\n99 x", b"\n\n99 x\n", b"\xa077", b"\x8577", b" 5 > 6", b" 77\r\n\r\n"):
        yield text + MESSAGE
    yield from (b" 77 +0000\n", b" 77 +0000", b" 77 +0000\n\n", b" 77 +0000\nx")


def rows(first: bytes, second: bytes) -> Iterator[bytes]:
    """Yields contents well and badly formed, with these two parents."""
    one, two = b"parent " + first + b"\n", b"parent " + second + b"\n"
    committer = b"committer C <c> 77 +0000\n\nm\n"
    end = AUTHOR + committer
    yield from (TREE_LINE + one + AUTHOR + b"committer C <c>" + date for date in dates())
    yield from (b"", TREE_LINE, TREE_LINE + b"x", TREE_LINE + b"\n", TREE_LINE[:-1], end, one + end)
    for tree in (TREE.upper(), b"g" * 40, b"0" * 40, TREE[:4], TREE[:39], b" " + TREE, TREE + b"\r", TREE + b" ", TREE[:39] + b"\0"):
        yield b"tree " + tree + b"\n" + one + end
    yield from (TREE_LINE + lines + end for lines in (b"", one, two + one, one + one, one * 70, TREE_LINE, b"\n", one + b"\n" + two))
    for parent in (TREE, b"1" * 40, b"0" * 40, first.upper(), first[:39] + b"G", b"1234", first + b" ", first + b"a", b" " + first, b"g" * 40, first[:39] + b"\0"):
        yield TREE_LINE + b"parent " + parent + b"\n" + end
    for word in (b"parent", b"Parent ", b"parents ", b"parent\t"):
        yield TREE_LINE + word + first + b"\n" + end
    for line in (one, one[:-1], one[:-1] + b"x", one + b"x", one + b"\n", one + b"parent 12\n", one + two, one + two[:-1] + b"\nx"):
        yield TREE_LINE + line
    for line in (b"", AUTHOR * 2, b"authorx\n", b"author\n", b"Author A\n", b"author A\0\n", AUTHOR + one, b"encoding x\n" + AUTHOR):
        yield TREE_LINE + one + line + committer
    yield TREE_LINE + one + AUTHOR + b"encoding x\n" + committer
    yield TREE_LINE + one + b"author A"
    yield TREE_LINE + one + AUTHOR + MESSAGE
    yield TREE_LINE + one + end + b"committer D <d> 78 +0000\n"
    for line in (b"committer", b"committer>", b"committerx> 77\n\nm", b"committer C> 3 <c> 5 +0000\n\nm", b"committer C c 5\n\nm > 9 x\n\n", b"committer C c 5\n\nm\n"):
        yield TREE_LINE + one + AUTHOR + line
    yield TREE_LINE + one + end[:-3] + b"encoding x\ngpgsig -----\n abc\nmergetag object\n\nm\n"
    whole = TREE_LINE + one + two + end
    yield from (whole[:size] for size in range(len(whole)))


class Drawn:
    """Draws contents at random."""

    def __init__(self, source: random.Random, parents: list[bytes]) -> None:
        self.source = source
        self.parents = parents

    def is_so(self, share: float) -> bool:
        return self.source.random() < share

    def id(self) -> bytes:
        first, second = self.parents
        found = self.source.choice([first, second, first, second, b"0" * 40, b"1" * 40, TREE, first.upper(), first[:20] + second[20:].upper()])
        if self.is_so(0.05):
            found = found[: self.source.choice([0, 1, 39])]
        if self.is_so(0.05):
            found = self.changed(found, self.source.choice(b"g\0\n /:@G`"))
        return found + b"a" if self.is_so(0.03) else found

    def changed(self, text: bytes, byte: int) -> bytes:
        """Returns a text with one byte changed."""
        at = self.source.randrange(len(text) + 1)
        return text[:at] + bytes([byte]) + text[at + 1 :]

    def date(self) -> bytes:
        before = b"".join(self.source.choice([b"", b" ", b" ", b" ", b"\t", b"\n", b"\x0b", b"\r", b"\0", b"\xa0", b"-", b"+"]) for _ in range(self.source.choice([1, 1, 1, 2, 3])))
        bits = self.source.choice([5, 20, 34, 62, 63, 64, 65])
        number = self.source.choice([b"", b"x", b"007", b"%d" % LIMIT, b"%d" % (2**64), b"%d" % self.source.getrandbits(bits)])
        return before + number + self.source.choice([b" +0000", b"", b"junk", b"\0", b"> 12", b".5"])

    def line(self) -> bytes:
        """Returns one line, of any kind."""
        choice = self.source.choice
        end = b"\n" if self.is_so(0.96) else choice([b"", b"\r\n", b" \n", b"\n\n"])
        return choice([
            b"tree " + (TREE if self.is_so(0.7) else self.id()),
            choice([b"parent ", b"parent ", b"parent ", b"parent", b"parent  ", b"parents "]) + self.id(),
            choice([b"author", b"author", b"author", b"autho", b"authors"]) + choice([b" A <a> 1 +0000", b"", b" A\0 <a> 5", b" > 3"]),
            choice([b"committer", b"committer", b"committe", b"committers"]) + choice([b" C <c>", b" C", b">", b" C> <c>"]) + self.date(),
            choice([b"encoding x", b"gpgsig abc\n def", b"x > 99", b""]),
        ]) + end

    def content(self) -> bytes:
        """Returns the content of a commit in which something may be wrong."""
        choice = self.source.choice
        parents = [b"parent " + (self.id() if self.is_so(0.3) else choice(self.parents)) + b"\n" for _ in range(choice([0, 1, 1, 2, 3]))]
        lines = [TREE_LINE, *parents, AUTHOR, b"committer C <c>" + self.date() + b"\n", choice([b"\nm\n", b"\n", b"", b"x"])]
        if self.is_so(0.3):
            lines.insert(self.source.randrange(len(lines) + 1), self.line())
        if self.is_so(0.2):
            del lines[self.source.randrange(len(lines))]
        if self.is_so(0.15):
            lines = [self.line() for _ in range(self.source.randrange(8))]
        text = b"".join(lines)
        if self.is_so(0.3):
            text = text[: self.source.randrange(len(text) + 1)]
        return self.changed(text, self.source.randrange(256)) if self.is_so(0.1) else text


def tags(commit: bytes, source: random.Random) -> Iterator[bytes]:
    """Yields contents of tags well and badly formed."""
    whole = b"object " + commit + b"\ntype commit\ntag v1\ntagger A <a> 5 +0000\n\nm\n"
    yield from (whole[:size] for size in range(len(whole) + 1))
    yield from (whole.replace(b"commit\n", name + b"\n") for name in (b"tree", b"tag", b"foo", b"", b"commit\0x", b"c" * 19, b"c" * 20))
    yield source.randbytes(70000)


# --- The reader in Python ---------------------------------------------------------------------------------------------


def number_in(text: bytes) -> int:
    """Returns what C's strtoumax reads at the front of a text."""
    found = re.match(rb"[\x09-\x0d ]*([+-]?)([0-9]*)", text)
    number = int(found[2] or b"0")
    if number >= 2**64:
        return 2**64 - 1
    return (2**64 - number) % 2**64 if found[1] == b"-" else number


def time_in(text: bytes) -> int:
    """Returns the time that git reads after the lines of the parents."""
    line = text.partition(b"\n")[2]
    date = line.partition(b">")[2]
    is_read = text.startswith(b"author") and len(text) > 6 and line.startswith(b"committer") and len(line) > 9
    return number_in(date) if is_read and date.partition(b"\n")[2] else 0


def read(content: bytes) -> str | None:
    """Returns the time and the parents of a commit as `git rev-list` prints them; None if it is refused."""
    tree = re.match(rb"tree ([0-9a-fA-F]{40})\n(?=.)", content, re.S)
    if not tree:
        return None
    rest, parents = content[46:], []
    while rest.startswith(b"parent ") and len(rest) >= 48:
        parent = re.match(rb"parent ([0-9a-fA-F]{40})\n(?=.)", rest, re.S)
        if not parent or parent[1].lower() == tree[1].lower():
            return None
        parents.append(parent[1].lower().decode())
        rest = rest[48:]
    time = time_in(rest)
    return None if time >= LIMIT else " ".join([str(time), *parents])


# --- The comparison ---------------------------------------------------------------------------------------------------


def answers(ids: list[str], contents: list[bytes]) -> list[str | None]:
    """Returns the answers of the program, or of the reader in Python: time and parents, or None."""
    if len(sys.argv) < 4:
        return [read(content) for content in contents]
    lines = asked(["--commits"], ids).decode().split("\n")
    assert len(lines) == len(ids) + 1, f"{len(lines) - 1} answers to {len(ids)} questions"
    found = [line.split(" ") for line in lines[:-1]]
    wrong = [line for line, id in zip(found, ids) if id not in line[:2] or (line[0] == id and line[1:3] != ["error:", "malformed"])]
    assert not wrong, f"unexpected answer: {wrong[0]}"
    return [None if line[0] == id else " ".join([line[0], *line[2:]]) for line, id in zip(found, ids)]


def asked(options: list[str], ids: list[str]) -> bytes:
    """Returns what the program prints about some objects."""
    words = [os.path.abspath(sys.argv[3]), *options, f"{REPOSITORY}/.git/objects"]
    run = subprocess.run(words, input="".join(f"{id}\n" for id in ids).encode(), stdout=subprocess.PIPE)
    assert run.returncode == 0, f"status {run.returncode}"
    return run.stdout


def listed(ids: list[str]) -> list[str | None]:
    """Returns the lines that git lists for some commits, without their ids, or None if it refuses one of them."""
    given = "".join(f"{id}\n" for id in ids).encode()
    run = git("rev-list", "--no-walk=unsorted", "--timestamp", "--parents", "--stdin", given=given)
    lines = run.stdout.decode().split("\n")[:-1]
    if run.returncode != 0 or len(lines) != len(ids):
        return [None] * len(ids)
    return [re.sub(" [0-9a-f]{40}", "", line, count=1) for line in lines]


def by_git(ids: list[str], contents: list[bytes], found: list[str | None]) -> list[str | None]:
    """Returns git's answers. Commits that are expected to be read, and have the empty tree, are listed at once.

    Git takes an id for that of a tree or of a commit as it meets it first. Others are therefore listed one by one.
    """
    together = [at for at, content in enumerate(contents) if found[at] is not None and content.startswith(TREE_LINE)]
    lines = dict(zip(together, listed([ids[at] for at in together])))
    alone = [at for at in range(len(ids)) if lines.get(at) is None]
    lines.update((at, listed([ids[at]])[0]) for at in alone)
    return [lines[at] for at in range(len(ids))]


def in_range(line: str | None) -> str | None:
    return line if line and int(line.partition(" ")[0]) < LIMIT else None


def main() -> int:
    source = random.Random(int(sys.argv[2]))
    parents = [id.encode() for id in written("commit", [plain(5), plain(6)])]
    drawn = Drawn(source, parents)
    contents = list(dict.fromkeys([*rows(*parents), *(drawn.content() for _ in range(3000))]))
    ids = written("commit", contents)
    found = answers(ids, contents)
    lines = by_git(ids, contents, found)
    wanted = [in_range(line) for line in lines]
    wrong = [at for at in range(len(ids)) if found[at] != wanted[at]]
    for at in wrong[:10]:
        print(f"{contents[at]}\n  answered {found[at]}\n  wanted   {wanted[at]}")
    refused = sum(line is None for line in lines)
    late = sum(line is not None for line in lines) - sum(line is not None for line in wanted)
    print(f"git agrees on {len(ids) - len(wrong)} of {len(ids)} commits: it refuses {refused}, and {late} have a time of 2^63 or more")
    if len(sys.argv) < 4:
        return 1 if wrong else 0
    ids += written("tag", list(tags(parents[0], source)))
    given = "".join(f"{id}\n" for id in ids).encode()
    is_same = asked([], ids) == git("cat-file", "--batch", given=given).stdout
    print(f"git agrees on {'all' if is_same else 'not all'} contents of {len(ids)} objects")
    return 1 if wrong or not is_same else 0


sys.exit(main())
