"""Makes the calls of `git proved` on memory and files fail: failing.py PROGRAM LIBRARY FOLDER RUNS

The library is failing.c, and is loaded into the program. Of each command the calls are counted, and
then one of them fails, or one and all later ones. The program has to print what git prints, with
git's status, or nothing with status 125. With reads that give few bytes it has to answer.
"""

from __future__ import annotations

import os
import re
import subprocess
import sys
import threading
import time
from concurrent.futures import ThreadPoolExecutor

from repositories import ENVIRONMENT, Repository, Room, filed, one_line

SECONDS = 30

WORKERS = 4

# What fails: a kind of calls, and whether all later ones fail, too.
MODES = (("memory", False), ("memory", True), ("files", False), ("files", True))

COMMANDS = (
    ("merge-base main topic", b""),
    ("merge-base --all --octopus main topic main~1", b""),
    ("merge-base --is-ancestor main~3 main", b""),
    ("merge-base --is-ancestor main main~3", b""),
    ("describe --tags main", b""),
    ("describe --always --match=nosuch main~2", b""),
    ("rev-parse HEAD~2 topic^0", b""),
    ("rev-parse --short HEAD", b""),
    ("rev-parse HEAD@{1} HEAD@{1.year.ago}", b""),
    ("rev-parse nosuch", b""),
    ("rev-list --count topic..main", b""),
    ("rev-list --parents topic...main", b""),
    ("rev-list --stdin -n 3", b"main\n^topic\n"),
    ("for-each-ref --format=%(refname) --contains topic~1", b""),
    ("batch", b"rev-parse main\nmerge-base main topic\nrev-list --count main\n"),
)


class Failing:
    def __init__(self, program: bytes, library: bytes, folder: bytes) -> None:
        self.program, self.library, self.folder = program, library, folder
        self.lock = threading.Lock()
        self.runs = self.answered = 0
        self.wrong: list[str] = []

    def run(self, words: list[bytes], place: Repository, data: bytes, **settings: str) -> tuple[int,
        bytes]:
        environment = {**ENVIRONMENT, **{key.encode(): it.encode() for key, it in settings.items()}}
        process = subprocess.Popen(
            words, stdin=subprocess.PIPE, stdout=subprocess.PIPE, stderr=subprocess.DEVNULL,
            cwd=place.path, env=environment,
        )
        try:
            out, _ = process.communicate(data, timeout=SECONDS)
        except subprocess.TimeoutExpired:
            process.kill()
            process.communicate()
            return -999, b""
        return process.returncode, out

    def failing(self, text: str, place: Repository, data: bytes, **settings: str) -> tuple[int,
        bytes]:
        words = [self.program, *text.encode().split(b" ")]
        return self.run(words, place, data, LD_PRELOAD=os.fsdecode(self.library), **settings)

    def right(self, text: str, place: Repository, data: bytes) -> tuple[int, bytes]:
        """Returns what git says: of a batch, an answer for each line."""
        if text != "batch":
            status, out = self.run([b"git", *text.encode().split(b" ")], place, data)
            return status, out if status in (0, 1) else b""
        frames = b""
        for line in data.split(b"\n")[:-1]:
            status, out = self.run([b"git", *line.split(b" ")], place, b"")
            frames += b"%d %d\n%s\n" % (status, len(out), out)
        return 0, frames

    def calls(self, text: str, place: Repository, data: bytes, kind: str) -> int:
        """Returns how many calls of a kind a command makes."""
        path = self.folder + b"/count %d" % threading.get_ident()
        self.failing(text, place, data, FAILING_KIND=kind, FAILING_COUNT=os.fsdecode(path))
        with open(path, encoding="ascii") as file:
            return int(file.read())

    def try_at(self, text: str, place: Repository, data: bytes, mode: tuple[str, bool], at: int,
               right) -> None:
        kind, goes_on = mode
        settings = {"FAILING_KIND": kind, "FAILING_AT": str(at)}
        if goes_on:
            settings["FAILING_ON"] = "1"
        found = self.failing(text, place, data, **settings)
        with self.lock:
            self.runs += 1
            self.answered += found == right
        if found != right and not is_refused(text, found, right):
            where = os.path.basename(place.path).decode()
            later = " and all later ones" if goes_on else ""
            with self.lock:
                self.wrong.append(f"{where}: {text}: call {at} on {kind}{later} fails: {found}")


def frames_of(out: bytes) -> list[bytes] | None:
    """Returns the answers of a batch; None if they are malformed."""
    frames = []
    while out:
        head = re.match(rb"\d+ (\d+)\n", out)
        if not head:
            return None
        end = head.end() + int(head[1]) + 1
        frames.append(out[:end])
        out = out[end:]
    return frames


def is_refused(text: str, found: tuple[int, bytes], right: tuple[int, bytes]) -> bool:
    """Returns whether the program says that it has no answer; of a batch, to each line."""
    if text != "batch":
        return found == (125, b"")
    frames, wanted = frames_of(found[1]), frames_of(right[1])
    if frames is None or found[0] not in (0, 125) or (found[0] == 0 and len(frames) != len(wanted)):
        return False
    return all(it in (one, b"125 0\n\n") for it, one in zip(frames, wanted))


def make(room: Room) -> list[Repository]:
    """Makes a repository of loose files, and a packed one with a commit-graph."""
    loose = one_line(room, "loose", 8)
    topic = loose.commit(loose.ids[3], date=1_000_005_000)
    merge = loose.commit(loose.ids[7], topic, date=1_000_006_000)
    last = loose.commit(merge, date=1_000_007_000)
    loose.git("update-ref", "refs/heads/topic", loose.commit(topic, date=1_000_006_500))
    loose.git("update-ref", "refs/heads/main", last)
    loose.git("update-ref", "-m", "moved", "refs/heads/main", merge)
    loose.tag("v1", loose.ids[2], 1_000_004_000)
    loose.git("tag", "light", loose.ids[5])
    packed = filed(room, loose, "packed")
    packed.git("gc", "-q")
    return [loose, packed]


def places_of(count: int, most: int) -> list[int]:
    """Returns which calls fail: all, or some that are evenly far apart."""
    if count <= most:
        return list(range(1, count + 1))
    return sorted({1 + number * (count - 1) // max(1, most - 1) for number in range(most)})


def main(program: bytes, library: bytes, folder: bytes, runs: int) -> int:
    began = time.time()
    failing = Failing(program, library, folder)
    room = Room(folder + b"/repositories")
    os.makedirs(room.folder)
    tries: list = []
    most = max(1, runs // (2 * len(COMMANDS) * len(MODES)))
    for place in make(room):
        for text, data in COMMANDS:
            right = failing.right(text, place, data)
            for settings in ({}, {"FAILING_KIND": "short"}):
                found = failing.failing(text, place, data, **settings)
                if found != right:
                    failing.wrong.append(f"{text} {settings}: {found}, and git has {right}")
            for mode in MODES:
                count = failing.calls(text, place, data, mode[0])
                tries += [(text, place, data, mode, at, right) for at in places_of(count, most)]
    with ThreadPoolExecutor(WORKERS) as workers:
        list(workers.map(lambda it: failing.try_at(*it), tries))
    for text in sorted(failing.wrong)[:100]:
        print("wrong:", text)
    seconds = time.time() - began
    counts = f"{failing.answered} are answered, {len(failing.wrong)} are wrong"
    print(f"{failing.runs} runs with a failure: {counts}, {seconds:.0f} seconds")
    return 1 if failing.wrong or not failing.runs else 0


if __name__ == "__main__":
    sys.exit(main(*map(os.fsencode, sys.argv[1:4]), int(sys.argv[4])))
