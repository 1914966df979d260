"""What the scripts of this folder share: random histories, what git reads, and the answers of a program."""

from __future__ import annotations

import hashlib
import os
import random
import subprocess
import sys
from dataclasses import dataclass

Object = tuple[str, bytes]  # a kind and a content

WORDS = [f"{first}{last}" for first in ("ab", "com", "dis", "re", "un") for last in ("act", "mit", "port", "tree", "way")]


def git(folder: str, *words: str, given: bytes = b"") -> bytes:
    """Returns what git prints in a folder. If git fails, the script ends."""
    run = subprocess.run(["git", "-C", folder, "-c", "core.fsync=none", *words], input=given, capture_output=True)
    if run.returncode != 0:
        sys.exit(f"git {' '.join(words)}: {run.stderr.decode(errors='replace').strip()}")
    return run.stdout


def id_of(kind: str, content: bytes) -> str:
    """Returns the id of an object: the SHA-1 of its header and its content."""
    return hashlib.sha1(b"%s %d\0" % (kind.encode(), len(content)) + content).hexdigest()


def lines_of(words: list[str]) -> bytes:
    return "".join(f"{word}\n" for word in words).encode()


def content_answer(name: str, found: Object) -> bytes:
    """Returns the answer of `git cat-file --batch` to the id of an object."""
    return b"%s %s %d\n%s\n" % (name.encode(), found[0].encode(), len(found[1]), found[1])


def objects_in(folder: str, names: list[str] | None = None) -> dict[str, Object]:
    """Returns the objects of a repository as git reads them: all of them, or those with the given ids.

    Each is hashed here, so that what is compared later is right whatever git did.
    """
    words = ["--batch-all-objects"] if names is None else []
    text = git(folder, "cat-file", "--buffer", "--batch", *words, given=lines_of(names or []))
    found, at = {}, 0
    while at < len(text):
        end = text.index(b"\n", at)
        name, kind, size = text[at:end].decode().split(" ")
        content = text[end + 1 : end + 1 + int(size)]
        if id_of(kind, content) != name:
            sys.exit(f"git prints another object for {name}")
        found[name] = (kind, content)
        at = end + 2 + int(size)
    return found


def commit_answers(folder: str, names: list[str]) -> dict[str, bytes]:
    """Returns the line of `git rev-list --timestamp --parents` for each of these commits."""
    words = ["--no-walk=unsorted", "--parents", "--timestamp", "--stdin"]
    text = git(folder, "-c", "core.commitGraph=false", "rev-list", *words, given=lines_of(names))
    found = {line.split()[1].decode(): line for line in text.splitlines(keepends=True)}
    if len(found) != len(set(names)):
        sys.exit(f"git lists {len(found)} of {len(set(names))} commits")
    return found


@dataclass
class Answered:
    """Is what a program printed, and how it ended: its status, or `hangs`."""

    status: int | str
    text: bytes
    errors: bytes


def ask(program: str, objects: str, names: list[str], commits: bool = False, seconds: float = 60, mode: str = "") -> Answered:
    """Asks a program about ids, and waits for at most so many seconds."""
    words = [program, *(["--commits"] if commits else [mode] if mode else []), objects]
    try:
        # Without close_fds=False a process would take twice as long to start.
        run = subprocess.run(words, input=lines_of(names), capture_output=True, close_fds=False, timeout=seconds)
    except subprocess.TimeoutExpired:
        return Answered("hangs", b"", b"")
    return Answered(run.returncode, run.stdout, run.stderr)


def outcomes(answered: Answered, names: list[str], right: dict[str, bytes]) -> list[str]:
    """Returns of each id how it was answered: `right`, `missing`, or the text of the error.

    The list ends with another text if the program failed, or an answer is none of these.
    """
    if answered.status != 0 or answered.errors:
        return [f"status {answered.status} {answered.errors[:200].decode(errors='replace')}"]
    found, text, at = [], answered.text, 0
    for name in names:
        if name in right and text.startswith(right[name], at):
            found.append("right")
            at += len(right[name])
            continue
        end = text.find(b"\n", at)
        said = text[at : max(end, at)].decode(errors="replace")
        if end < 0 or not (said == f"{name} missing" or said.startswith(f"{name} error: ")):
            return [*found, f"answers {text[at : at + 100]!r}"]
        found.append(said[41:])
        at = end + 1
    return found if at == len(text) else [*found, f"answers more: {text[at : at + 100]!r}"]


def write(path: str, text: bytes) -> None:
    os.makedirs(os.path.dirname(path), exist_ok=True)
    with open(path, "wb") as file:
        file.write(text)


def read(path: str) -> bytes:
    with open(path, "rb") as file:
        return file.read()


def text_of(source: random.Random, words: int) -> bytes:
    return " ".join(source.choice(WORDS) for _ in range(words)).encode() + b"\n"


def edited(source: random.Random, text: bytes) -> bytes:
    """Returns a text with a few words replaced, so that one of the two makes a short delta."""
    words = text.split(b" ")
    for _ in range(3):
        words[source.randrange(len(words))] = source.choice(WORDS).encode()
    return b" ".join(words)


def data(text: bytes) -> bytes:
    return b"data %d\n%s\n" % (len(text), text)


def history(source: random.Random, commits: int, branch: str = "main", is_line: bool = False, words: int = 150) -> bytes:
    """Returns the input of `git fast-import` for a history with merges, some roots, files in folders, and tags."""
    files = {name: text_of(source, words) for name in (b"a", b"b/c", b"b/d/e", b"f")}
    stream = []
    for mark in range(1, commits + 1):
        name = source.choice(list(files))
        files[name] = edited(source, files[name])
        message = text_of(source, source.randrange(60))
        stream.append(b"reset refs/heads/%s\ncommit refs/heads/%s\nmark :%d\n" % (branch.encode(), branch.encode(), mark))
        stream.append(b"author A <a@example.org> %d +0100\n" % source.randrange(1 << 31))
        stream.append(b"committer C \xff D <c@example.org> %d -0730\n" % source.choice([source.randrange(1 << 31), 10**9 + mark]))
        stream.append(data(message))
        parents = {mark - 1}
        if mark > 6 and not is_line:
            parents = {mark - 1 - source.randrange(5) for _ in range(source.choice([0, 1, 1, 1, 1, 2, 3]))}
        for place, parent in enumerate(sorted(it for it in parents if it > 0)):
            stream.append(b"%s :%d\n" % (b"merge" if place else b"from", parent))
        stream.append(b"M 100644 inline %s\n%s" % (name, data(files[name])))
        if mark % 9 == 0:
            stream.append(b"tag v%d\nfrom :%d\ntagger T <t@example.org> %d +0000\n%s" % (mark, mark, mark, data(message)))
    return b"".join(stream)
