"""Shared by the scripts of tests/graph_rows: histories, git, the program, and a reader of commit-graph files."""

from __future__ import annotations

import os
import random
import subprocess
from dataclasses import dataclass

# A program that has not answered after so many seconds hangs.
SECONDS = 60

NO_PARENT = 0x70000000
EDGE_BIT = 0x80000000


def git(folder: str, *words: str, given: bytes = b"") -> bytes:
    done = subprocess.run(["git", "-C", folder, *words], input=given, capture_output=True, check=False)
    assert done.returncode == 0, (words, done.stderr)
    return done.stdout


def history(source: random.Random, count: int, first: int = 0, octopus: bool = True) -> bytes:
    """Returns commits for git fast-import, the parents among the 9 before each. Commit `n` is the branch `n`."""
    text = ""
    for n in range(first, first + count):
        time = source.choice([1_000_000_000 + n, 2**32 + 5 * n, 2**34 - 1 - n, n])
        text += f"commit refs/heads/c{n}\nmark :{n + 1}\ncommitter C <c@d> {time} +0000\ndata 2\nm\n"
        most = min(n, 9)
        wanted = source.choice([0, 1, 1, 1, 2, 2, 3, 5, 8] if octopus else [1, 1, 2])
        for at, back in enumerate(source.sample(range(1, most + 1), min(wanted, most))):
            text += f"{'merge' if at else 'from'} refs/heads/c{n - back}\n"
        text += "\n"
    return text.encode()


def lines_by_git(folder: str) -> dict[str, str]:
    """Returns the line of each commit: `TIME ID PARENT..`."""
    words = ["-c", "core.commitGraph=false", "rev-list", "--all", "--timestamp", "--parents"]
    lines = git(folder, *words).decode().splitlines()
    return {line.split(" ")[1]: line for line in lines}


def levels_of(lines: dict[str, str]) -> dict[str, int]:
    """Returns the topological level of each commit: one more than the greatest of its parents."""
    levels: dict[str, int] = {}
    for first in lines:
        waiting = [first]
        while waiting:
            parents = lines[waiting[-1]].split(" ")[2:]
            unknown = [it for it in parents if it not in levels]
            if unknown:
                waiting += unknown
            else:
                levels[waiting.pop()] = 1 + max((levels[it] for it in parents), default=0)
    return levels


@dataclass
class Answered:
    status: int
    lines: list[str]
    errors: str


def ask(program: str, objects: str, ids: list[str], option: str = "--rows") -> Answered:
    """Asks the program for commits."""
    given = "".join(f"{it}\n" for it in ids).encode()
    done = subprocess.run([program, option, objects], input=given, capture_output=True, timeout=SECONDS, check=False)
    return Answered(done.returncode, done.stdout.decode().splitlines(), done.stderr.decode())


def files_of(objects: str) -> list[str]:
    """Returns the paths of the files of a commit-graph, the base first."""
    single, chain = f"{objects}/info/commit-graph", f"{objects}/info/commit-graphs/commit-graph-chain"
    if os.path.exists(single):
        return [single]
    with open(chain, encoding="ascii") as file:
        return [f"{objects}/info/commit-graphs/graph-{line.strip()}.graph" for line in file]


def takes_contents(text: bytes) -> bool:
    """Returns whether git takes the table of contents of a file.

    Each chunk has an id of its own, and ends at or after its begin, before the hash of the file. The last entry has the id zero.
    """
    count = text[6] if len(text) > 6 else 0
    places = range(8, 8 + 12 * count + 12, 12)
    if len(text) < places[-1] + 12:
        return False
    *ids, last = (text[at : at + 4] for at in places)
    begins = [int.from_bytes(text[at + 4 : at + 12], "big") for at in places]
    has_own_ids = last == bytes(4) and last not in ids and len(set(ids)) == count
    # Of an empty table git looks at no offset.
    return has_own_ids and begins == sorted(begins) and (count == 0 or begins[-1] <= len(text) - 20)


class Layer:
    """Reads one file, and checks nothing."""

    def __init__(self, text: bytes) -> None:
        self.text = text
        self.chunks = {}
        for i in range(text[6]):
            at = 8 + 12 * i
            start, end = self.number(at + 4, 8), self.number(at + 16, 8)
            self.chunks.setdefault(text[at : at + 4], (start, end))
        self.ids = self.chunks[b"OIDL"][0]
        self.rows = self.chunks[b"CDAT"][0]
        self.edges, self.edges_end = self.chunks.get(b"EDGE", (0, 0))
        self.count = self.number(self.chunks[b"OIDF"][0] + 1020, 4)

    def number(self, at: int, size: int) -> int:
        return int.from_bytes(self.text[at : at + size], "big")

    def id(self, row: int) -> str:
        return self.text[self.ids + 20 * row : self.ids + 20 * row + 20].hex()

    def positions(self, row: int) -> list[int]:
        """Returns the positions of the parents of the commit in a row."""
        at = self.rows + 36 * row
        first, second = self.number(at + 20, 4), self.number(at + 24, 4)
        if first == NO_PARENT:
            return []
        if second == NO_PARENT:
            return [first]
        if second < EDGE_BIT:
            return [first, second]
        found, place = [first], self.edges + 4 * (second - EDGE_BIT)
        while place < self.edges_end:
            found.append(self.number(place, 4) % EDGE_BIT)
            if self.number(place, 4) >= EDGE_BIT:
                return found
            place += 4
        raise ValueError("a list without an end")

    def time(self, row: int) -> int:
        return self.number(self.rows + 36 * row + 28, 8) % 2**34


class Graph:
    """Reads a chain of files, the base first."""

    def __init__(self, texts: list[bytes]) -> None:
        self.layers = [Layer(text) for text in texts]
        self.places = [(layer, row) for layer in self.layers for row in range(layer.count)]
        self.rows = {layer.id(row): (layer, row) for layer, row in self.places}

    def line(self, name: str) -> str | None:
        """Returns the line of a commit; None if it is not there, or a parent is not."""
        if name not in self.rows:
            return None
        layer, row = self.rows[name]
        try:
            parents = [self.places[it] for it in layer.positions(row)]
        except (ValueError, IndexError):
            return None
        return " ".join([str(layer.time(row)), name] + [it.id(at) for it, at in parents])
