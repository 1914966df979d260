"""Compares the processor time of `git proved` for a shape of one size and of twice that size: growth.py PROGRAM FOLDER [ROW..]

Answers have to be git's. Twice the size may take three times the time and a tenth of a second, but
not four times, as it would if each part were compared with each other one.
"""

from __future__ import annotations

import os
import resource
import sys
from collections.abc import Callable
from dataclasses import dataclass

from large import START, Asked, answer
from repositories import Repository, Room

# How often a question is asked. The least time counts, since others work on the machine.
TIMES = 3


def spent() -> float:
    """Returns the processor time in seconds of all programs that have ended."""
    usage = resource.getrusage(resource.RUSAGE_CHILDREN)
    return usage.ru_utime + usage.ru_stime


def seconds(program: bytes, place: Repository, question: str) -> float:
    times = []
    for _ in range(TIMES):
        before = spent()
        answer(program, place, question)
        times.append(spent() - before)
    return min(times)


@dataclass
class Shape:
    """How a repository of a size is made, and what is asked of it."""

    name: str
    size: int
    make: Callable[[Repository, int], None]
    questions: tuple[str, ...]


def with_commit(place: Repository) -> str:
    place.git("commit", "-q", "--allow-empty", "-m", "one")
    return place.git("rev-parse", "HEAD")


def unclosed_classes(place: Repository, size: int) -> None:
    """A condition whose pattern has many classes, of which none ends."""
    with_commit(place)
    with open(os.fsdecode(place.path) + "/.git/config", "a", encoding="utf-8") as file:
        file.write(f'[includeIf "onbranch:{"[[:" * size}"]\n\tpath = other\n')


def long_commits(place: Repository, size: int) -> None:
    """Commits of 66,000 bytes, each a delta of its child."""
    text = "y" * 66_000
    lines = []
    for number in range(size):
        who = f"a <a@example.org> {START + number} +0000"
        message = f"{text}{number}"
        lines += ["commit refs/heads/main", f"committer {who}", f"data {len(message)}", message]
    place.git("-c", "fastimport.unpackLimit=0", "fast-import", "--quiet", data="\n".join([*lines, ""]).encode())
    place.git("-c", "pack.threads=1", "repack", "-q", "-a", "-d", "-f", "--depth=4095", "--window=3")


def tag(place: Repository, target: str, kind: str, name: str, message: str) -> str:
    content = f"object {target}\ntype {kind}\ntag {name}\ntagger a <a@example.org> {START} +0000\n\n{message}"
    return place.git("hash-object", "-w", "-t", "tag", "--stdin", data=content.encode())


def with_tags(place: Repository, tags: list[str]) -> None:
    lines = [f"create refs/tags/t{number} {it}\n" for number, it in enumerate(tags)]
    place.git("update-ref", "--stdin", data="".join(lines).encode())


def one_long_tag(place: Repository, size: int) -> None:
    """Many refs to one tag, which is long."""
    long = tag(place, with_commit(place), "commit", "long", "z" * 5_000 * size)
    with_tags(place, [long] * size)


def one_long_commit(place: Repository, size: int) -> None:
    """Many refs to one commit, which is long."""
    place.git("commit", "-q", "--allow-empty", "-F", "-", data=b"one\n\n" + b"z" * 5_000 * size)
    with_tags(place, [place.git("rev-parse", "HEAD")] * size)
    with_commit(place)


def long_tags(place: Repository, size: int) -> None:
    """Many refs to tags, which are long."""
    head = with_commit(place)
    with_tags(place, [tag(place, head, "commit", f"t{number}", "z" * 5_000 * size) for number in range(size)])


def nested_tags(place: Repository, size: int) -> None:
    """Many tags, each of the one before."""
    tags = [tag(place, with_commit(place), "commit", "t0", "")]
    for number in range(1, size):
        tags.append(tag(place, tags[-1], "tag", f"t{number}", ""))
    with_tags(place, tags)


def alternates(place: Repository, size: int) -> None:
    """Many alternates, which have no objects."""
    with_commit(place)
    objects = os.fsdecode(place.path) + "/.git/objects"
    os.makedirs(objects + "/info", exist_ok=True)
    with open(objects + "/info/alternates", "w", encoding="utf-8") as file:
        for number in range(size):
            path = f"{objects}/alternates-of-this-repository/{number}"
            os.makedirs(path)
            file.write(path + "\n")


SHAPES = (
    Shape("unclosed classes", 800, unclosed_classes, ("rev-parse HEAD",)),
    Shape("long commits", 800, long_commits, ("rev-list --count main",)),
    Shape("one long tag", 200, one_long_tag, ("for-each-ref", "for-each-ref --contains main", "describe")),
    Shape("one long commit", 200, one_long_commit,
          ("for-each-ref --contains main~1", "describe --tags", "rev-list --count --all",
           "for-each-ref --sort=-committerdate --format=%(committerdate)", "for-each-ref --format=%(subject)")),
    Shape("long tags", 100, long_tags, ("for-each-ref",)),
    Shape("nested tags", 500, nested_tags, ("for-each-ref --contains main", "describe")),
    Shape("alternates", 2_000, alternates, ("rev-list --count main", "rev-parse --short HEAD")),
)


def grows(asked: Asked, room: Room, shape: Shape) -> None:
    """Asks about a shape of its size and of twice that size."""
    places = [room.init(f"{shape.name} {size}") for size in (shape.size, 2 * shape.size)]
    shape.make(places[0], shape.size)
    shape.make(places[1], 2 * shape.size)
    for question in shape.questions:
        for place in places:
            asked.as_git(place, question)
        once, twice = (seconds(asked.program, place, question) for place in places)
        asked.expect(places[1], f"{question}: {once:.2f} s, and twice the size {twice:.2f} s", twice <= 3 * once + 0.1, True)


def main(program: str, folder: str, *names: str) -> int:
    asked, room = Asked(os.fsencode(program)), Room(os.fsencode(folder) + b"/growth")
    for shape in SHAPES:
        if not names or shape.name.replace(" ", "_") in names:
            grows(asked, room, shape)
    print(f"{asked.answers} answers about shapes of two sizes, {asked.wrong} wrong")
    return int(asked.wrong > 0)


if __name__ == "__main__":
    sys.exit(main(*sys.argv[1:]))
