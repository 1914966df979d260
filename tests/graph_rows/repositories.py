"""Compares the commits that a program like crates/object_lines reads with git's.

usage: repositories.py PROGRAM FOLDER SEED
"""

from __future__ import annotations

import os
import random
import shutil
import sys

from rows import ask, files_of, git, history, levels_of, lines_by_git

PROGRAM, FOLDER = sys.argv[1:3]
SOURCE = random.Random(int(sys.argv[3]))

# Ids that no repository has.
ABSENT = ["0" * 40, "f" * 40, "12" * 20]


class Compared:
    """Counts what was compared."""

    commits = 0
    graphs = 0


def compare(folder: str, layers: int, known: set[str] | None = None) -> None:
    """Compares all answers over the commit-graph of a repository, which has so many files.

    The commit-graph has only the commits that are known, if these are given.
    """
    objects = f"{folder}/objects"
    assert len(files_of(objects)) == layers, (folder, files_of(objects))
    lines = lines_by_git(folder)
    levels = levels_of(lines)
    ids = [*lines, *ABSENT]
    SOURCE.shuffle(ids)
    here = set(lines) if known is None else known
    dates = ask(PROGRAM, objects, ids)
    ranks = ask(PROGRAM, objects, ids, "--levels")
    assert dates.status == 0 and ranks.status == 0, (folder, dates.errors, ranks.errors)
    for name, line, rank in zip(ids, dates.lines, ranks.lines, strict=True):
        wanted = lines[name] if name in here else f"{name} missing"
        assert line == wanted, (folder, line, wanted)
        wanted = f"{levels[name]} {name}" if name in here else f"{name} missing"
        assert rank == wanted, (folder, rank, wanted)
    Compared.commits += len(here)
    Compared.graphs += 1


def made(name: str, *settings: str) -> str:
    folder = f"{FOLDER}/{name}"
    git(FOLDER, "init", "-q", "--bare", folder)
    for it in settings:
        git(folder, "config", *it.split("="))
    return folder


def compare_single(name: str, count: int, *settings: str, words: tuple[str, ...] = (), octopus: bool = True) -> None:
    folder = made(name, *settings)
    git(folder, "fast-import", "--quiet", given=history(SOURCE, count, octopus=octopus))
    git(folder, "commit-graph", "write", "--reachable", *words)
    compare(folder, 1)


def compare_chain(layers: int, each: int, *settings: str) -> None:
    """Compares a chain after each file that git adds to it."""
    folder = made(f"chain-{layers}-{len(settings)}", *settings)
    for layer in range(layers):
        git(folder, "fast-import", "--quiet", given=history(SOURCE, each, layer * each))
        git(folder, "commit-graph", "write", "--reachable", "--split=no-merge")
        compare(folder, layer + 1)
    known = set(lines_by_git(folder))
    git(folder, "fast-import", "--quiet", given=history(SOURCE, 20, layers * each))
    compare(folder, layers, known)
    # If there is a single file, too, it counts, as in git.
    aside = f"{FOLDER}/aside"
    shutil.move(f"{folder}/objects/info/commit-graphs", aside)
    git(folder, "commit-graph", "write", "--reachable")
    shutil.move(aside, f"{folder}/objects/info/commit-graphs")
    compare(folder, 1)


def refuse(name: str, status: int, text: str) -> None:
    """Tests what the program says of a repository whose commit-graph it does not open."""
    found = ask(PROGRAM, f"{FOLDER}/{name}/objects", [])
    assert found.status == status and text in found.errors and not found.lines, (name, found)


def refuse_some() -> None:
    git(FOLDER, "init", "-q", "--bare", "none")
    refuse("none", 1, "has no commit-graph")
    git(FOLDER, "init", "-q", "--bare", "--object-format=sha256", "longer")
    git(f"{FOLDER}/longer", "fast-import", "--quiet", given=history(SOURCE, 5))
    git(f"{FOLDER}/longer", "commit-graph", "write", "--reachable")
    refuse("longer", 1, "unsupported: 'info/commit-graph': hash other than SHA-1")
    folder = f"{FOLDER}/chain-2-0/objects/info"
    os.remove(f"{folder}/commit-graph")
    files = files_of(f"{FOLDER}/chain-2-0/objects")
    os.rename(files[0], files[0] + "x")
    refuse("chain-2-0", 1, ".graph' is missing")
    shutil.copy(files[1], files[0])
    refuse("chain-2-0", 1, "base graphs are not those of the chain")
    os.replace(files[0] + "x", files[0])
    compare(f"{FOLDER}/chain-2-0", 2, {it for file in files for it in ids_in(file)})
    with open(f"{folder}/commit-graphs/commit-graph-chain", "w", encoding="ascii") as file:
        file.write("0123\n")
    refuse("chain-2-0", 1, "damaged: 'info/commit-graphs/commit-graph-chain' at byte 0: line is not an id")
    with open(f"{folder}/commit-graphs/commit-graph-chain", "w", encoding="ascii") as file:
        file.write("")
    refuse("chain-2-0", 1, "has no commit-graph")


def ids_in(path: str) -> list[str]:
    from rows import Layer

    with open(path, "rb") as file:
        layer = Layer(file.read())
    return [layer.id(row) for row in range(layer.count)]


def main() -> None:
    compare_single("one", 1)
    compare_single("small", 40)
    compare_single("first-version", 300, "commitGraph.generationVersion=1")
    compare_single("second-version", 300, "commitGraph.generationVersion=2", words=("--changed-paths",))
    compare_single("without-lists", 100, octopus=False)
    compare_single("large", 20_000)
    for layers in range(2, 7):
        compare_chain(layers, SOURCE.choice([1, 7, 60]))
    compare_chain(3, 400, "commitGraph.generationVersion=1")
    refuse_some()
    print(f"git agrees on {Compared.commits} commits of {Compared.graphs} commit-graphs")


main()
