"""Damages commit-graphs, and checks the answers of a program like crates/object_lines.

usage: damage.py PROGRAM FOLDER SEED
"""

from __future__ import annotations

import os
import random
import sys
from collections import Counter
from collections.abc import Iterator

from rows import Graph, ask, files_of, git, history, levels_of, lines_by_git, takes_contents

PROGRAM, FOLDER = sys.argv[1:3]
SOURCE = random.Random(int(sys.argv[3]))

# What the program may say of a commit-graph that it does not open.
REFUSALS = ("object_lines: damaged: 'info/", "object_lines: unsupported: 'info/")

NO_MEMORY = "out of memory"


def damages(text: bytes) -> Iterator[bytes]:
    """Yields a file with each byte changed, twice, without each word, and each beginning of it."""
    for at in range(len(text)):
        yield text[:at]
        if at % 4 == 0:
            yield text[:at] + text[at + 4 :]
        for byte in (text[at] ^ 1 << SOURCE.randrange(8), SOURCE.choice([0, 255, SOURCE.randrange(256)])):
            if byte != text[at]:
                yield text[:at] + bytes([byte]) + text[at + 1 :]


class Trial:
    """Damages the files of a repository, and counts the outcomes."""

    def __init__(self, folder: str) -> None:
        self.objects = f"{folder}/objects"
        self.paths = files_of(self.objects)
        self.texts = []
        for path in self.paths:
            os.chmod(path, 0o644)
            with open(path, "rb") as file:
                self.texts.append(file.read())
        self.lines = lines_by_git(folder)
        self.levels = levels_of(self.lines)
        self.graph = Graph(self.texts)
        self.counts: Counter[str] = Counter()
        for name, line in self.lines.items():
            assert self.graph.line(name) == line, (self.graph.line(name), line)

    def touched(self, number: int, text: bytes) -> set[str]:
        """Returns the commits of whose answers a damage in `CDAT` may change one; else all."""
        old = self.texts[number]
        layer = self.graph.layers[number]
        if len(text) == len(old):
            at = next(at for at in range(len(old)) if old[at] != text[at])
            if layer.rows <= at < layer.rows + 36 * layer.count:
                name = layer.id((at - layer.rows) // 36)
                return {it for it, line in self.lines.items() if name in line.split(" ")[1:]}
        return set(self.lines)

    def try_one(self, number: int, text: bytes) -> None:
        with open(self.paths[number], "wb") as file:
            file.write(text)
        found = ask(PROGRAM, self.objects, list(self.lines))
        what = (self.paths[number], len(text), found)
        if found.status != 0:
            assert found.status == 1 and found.errors.startswith(REFUSALS) and not found.lines, what
            self.counts["refused"] += 1
            return
        assert takes_contents(text), what
        try:
            graph = Graph([text if at == number else it for at, it in enumerate(self.texts)])
        except (KeyError, IndexError):
            graph = None
        touched = self.touched(number, text)
        for name, line in zip(self.lines, found.lines, strict=True):
            self.judge(graph, name, line, name in touched, what)

    def judge(self, graph: Graph | None, name: str, line: str, may_differ: bool, what: tuple) -> None:
        """Judges an answer: it is right, is what the changed bytes say, says that there is none, or is an error."""
        assert NO_MEMORY not in line, what
        if line == self.lines[name]:
            self.counts["right"] += 1
        elif not may_differ:
            raise AssertionError((name, line, what))
        elif line.startswith(f"{name} error: damaged: 'info/"):
            self.counts["error"] += 1
        elif line == f"{name} missing":
            self.counts["missing"] += 1
        else:
            assert graph is not None and line == graph.line(name), (name, line, graph and graph.line(name), what)
            self.counts["as the bytes say"] += 1

    def run(self) -> None:
        for number, text in enumerate(self.texts):
            for damaged in damages(text):
                self.try_one(number, damaged)
            with open(self.paths[number], "wb") as file:
                file.write(text)
        # The damages are undone.
        assert ask(PROGRAM, self.objects, list(self.lines)).lines == list(self.lines.values())


def made(name: str, layers: int) -> str:
    """Returns a repository whose commit-graph has so many files; a single file if there is one."""
    folder = f"{FOLDER}/{name}"
    git(FOLDER, "init", "-q", "--bare", folder)
    for layer in range(layers):
        git(folder, "fast-import", "--quiet", given=history(SOURCE, 12 // layers, layer * (12 // layers)))
        words = ["--split=no-merge"] if layers > 1 else []
        git(folder, "commit-graph", "write", "--reachable", *words)
    return folder


def main() -> None:
    counts: Counter[str] = Counter()
    for name, layers in (("single", 1), ("chain", 3)):
        trial = Trial(made(name, layers))
        assert len(trial.paths) == layers
        trial.run()
        counts += trial.counts
    assert all(counts[it] for it in ("refused", "right", "error", "missing", "as the bytes say")), counts
    print("answers over damaged commit-graphs:", ", ".join(f"{count} {what}" for what, count in sorted(counts.items())))


main()
