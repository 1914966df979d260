"""Compares answers over chains of commit-graph files whose lowest file has no levels.

usage: mixed_chains.py PROGRAM FOLDER CHAINS SEED
"""

from __future__ import annotations

import hashlib
import os
import random
import subprocess
import sys

from rows import SECONDS, Layer, files_of, git

PROGRAM, FOLDER = sys.argv[1:3]
SOURCE = random.Random(int(sys.argv[4]))

# The commits of the lowest file, and of the next one.
LOWEST, NEXT = 25, 12

# A chunk id that no program knows.
UNKNOWN = b"XXXX"


def history(first: int, count: int) -> bytes:
    """Returns commits for git fast-import, one or two parents among the 6 before each. Commit `n` is the branch `xn`."""
    text = ""
    for n in range(first, first + count):
        text += f"commit refs/heads/x{n}\ncommitter C <c@d> {1_700_000_000 + 10 * n} +0000\ndata 0\n"
        before = range(max(0, n - 6), n)
        for at, parent in enumerate(SOURCE.sample(before, min(SOURCE.choice([1, 1, 1, 2, 2]), len(before)))):
            text += f"{'merge' if at else 'from'} refs/heads/x{parent}\n"
        text += "\n"
    return text.encode()


def clear_levels(path: str) -> None:
    """Gives each commit of a file the level 0, and takes the corrected dates away, as git 2.18 wrote files."""
    with open(path, "rb") as file:
        text = bytearray(file.read()[:-20])
    layer = Layer(bytes(text))
    for row in range(layer.count):
        at = layer.rows + 36 * row + 28
        text[at : at + 4] = (int.from_bytes(text[at : at + 4], "big") & 3).to_bytes(4, "big")
    for at in range(8, 8 + 12 * text[6], 12):
        if text[at : at + 4] == b"GDA2":
            text[at : at + 4] = UNKNOWN
    os.chmod(path, 0o644)
    with open(path, "wb") as file:
        file.write(text + hashlib.sha1(text).digest())


def made(number: int) -> str:
    """Returns a repository with a chain of two files, the lowest one without levels."""
    folder = f"{FOLDER}/{number}"
    git(FOLDER, "init", "-q", "--bare", folder)
    git(folder, "fast-import", "--quiet", given=history(0, LOWEST))
    git(folder, "commit-graph", "write", "--reachable")
    clear_levels(files_of(f"{folder}/objects")[0])
    git(folder, "fast-import", "--quiet", given=history(LOWEST, NEXT))
    git(folder, "commit-graph", "write", "--reachable", "--split=no-merge")
    assert len(files_of(f"{folder}/objects")) == 2, folder
    return folder


def answer(program: list[str], folder: str, words: list[str]) -> tuple[int, list[str]]:
    """Returns status and output; of bases, which may come in any order, the sorted lines."""
    done = subprocess.run([*program, *words], cwd=folder, capture_output=True, text=True, timeout=SECONDS, check=False)
    lines = done.stdout.splitlines()
    return done.returncode, sorted(lines) if words[0] == "merge-base" else lines


def questions() -> list[list[str]]:
    """Returns questions about two or three branches."""
    a, b, c = (f"x{it}" for it in SOURCE.sample(range(LOWEST + NEXT), 3))
    return [
        ["merge-base", "--all", a, b],
        ["merge-base", "--is-ancestor", a, b],
        ["merge-base", "--independent", a, b, c],
        ["rev-list", "--count", f"{a}..{b}"],
        ["rev-list", "--left-right", "--count", f"{a}...{b}"],
        ["for-each-ref", "--format=%(refname)", "--contains", a],
        ["for-each-ref", "--format=%(refname)", "--no-merged", a],
    ]


def main() -> None:
    asked = 0
    for number in range(int(sys.argv[3])):
        folder = made(number)
        for words in [it for _ in range(12) for it in questions()]:
            wanted, found = answer(["git"], folder, words), answer([PROGRAM], folder, words)
            assert found == wanted, (folder, words, found, wanted)
            asked += 1
    print(f"git agrees on {asked} answers over chains whose lowest file has no levels")


main()
