"""Computes what git should answer where it goes by dates, and a clock was wrong.

Without generation numbers git stops a walk by the dates of commits. Its `rev-list A..B` then can
list commits that A reaches, and `for-each-ref --merged` can miss references. Here the answer comes
from the parents alone; the order of a list is git's own.
"""

from __future__ import annotations

import bisect
import re

from questions import Command
from repositories import Repository


class Unknown(Exception):
    """Says that an option is not computed here."""


class History:
    """The commits of a repository, as git reads them."""

    def __init__(self, place: Repository) -> None:
        self.place = place
        self.parents: dict[str, list[str]] = {}
        self.dates: dict[str, int] = {}
        data = "".join(f"{id}\n" for id in place.ids).encode()
        listed = place.git("rev-list", "--parents", "--timestamp", "--all", "--stdin", data=data)
        for line in listed.split("\n"):
            date, id, *parents = line.split(" ")
            self.dates[id], self.parents[id] = int(date), parents

    def reached(self, ids: list[str], is_first: bool = False) -> set[str]:
        """Returns the commits that some reach, or reach by first parents."""
        found: set[str] = set()
        waiting = list(ids)
        while waiting:
            id = waiting.pop()
            if id not in found:
                found.add(id)
                waiting += self.parents[id][: 1 if is_first else None]
        return found

    def listed(self, ids: list[str], hidden: set[str], is_first: bool) -> list[str]:
        """Returns what some commits reach beyond the hidden ones: the newest comes first of those
        that were met, and of one date the one met first."""
        met: set[str] = set()
        queue: list[tuple[int, int, str]] = []
        order: list[str] = []
        for id in ids:
            self.meet(id, met, hidden, queue)
        while queue:
            id = queue.pop(0)[2]
            order.append(id)
            for parent in self.parents[id][: 1 if is_first else None]:
                self.meet(parent, met, hidden, queue)
        return order

    def meet(self, id: str, met: set[str], hidden: set[str], queue: list) -> None:
        if id not in met and id not in hidden:
            met.add(id)
            bisect.insort(queue, (-self.dates[id], len(met), id))


class Listing:
    """The words of a rev-list command, read as far as they are known here."""

    def __init__(self, history: History, words: tuple[bytes, ...]) -> None:
        self.history = history
        self.most, self.skipped = -1, 0
        self.flags: set[str] = set()
        self.shown: list[str] = []
        self.hidden: list[str] = []
        # Of A...B the side of A.
        self.left: list[str] = []
        self.is_not = False
        rest = [it.decode() for it in words]
        while rest:
            self.read(rest.pop(0), rest)

    def read(self, word: str, rest: list[str]) -> None:
        number = re.fullmatch(r"(?:-n|--max-count=|-)(-?\d+)", word)
        if number:
            self.most = int(number[1])
        elif word in ("-n", "--max-count"):
            self.most = int(rest.pop(0))
        elif word == "--skip":
            self.skipped = int(rest.pop(0))
        elif word.startswith("--skip="):
            self.skipped = int(word[7:])
        elif word == "--not":
            self.is_not = not self.is_not
        elif re.fullmatch(r"--(all|branches|tags|remotes)(=.*)?", word):
            self.add(self.history.place.git("rev-parse", word).split())
        elif word in ("--count", "--left-right", "--first-parent", "--parents", "--reverse",
                      "--merges", "--no-merges"):
            self.flags.add(word)
        elif word.startswith("-"):
            raise Unknown
        else:
            self.add_text(word)

    def add_text(self, text: str) -> None:
        git = self.history.place.git
        if "..." in text:
            one, _, other = text.partition("...")
            self.left.append(git("rev-parse", f"{one or 'HEAD'}^0"))
            # git puts the second side in front of the first one.
            both = [self.left[-1], git("rev-parse", f"{other or 'HEAD'}^0")]
            if self.is_not:
                raise Unknown
            self.shown += both
            self.hidden += self.common(both)
        else:
            self.add(git("rev-parse", text).split())

    def common(self, both: list[str]) -> list[str]:
        one, other = (self.history.reached([it]) for it in both)
        return sorted(one & other)

    def add(self, ids: list[str]) -> None:
        for id in ids:
            commit = self.history.place.git("rev-parse", f"{id.lstrip('^')}^0")
            (self.hidden if id.startswith("^") != self.is_not else self.shown).append(commit)

    def out(self) -> bytes:
        """Returns what git should print."""
        history, is_first = self.history, "--first-parent" in self.flags
        if is_first and "--parents" in self.flags:
            raise Unknown
        # git may end one of several lines of first parents where it ends another.
        if is_first and self.hidden and len(set(self.shown)) > 1:
            raise Unknown
        hidden = history.reached(self.hidden)
        order = history.listed(self.shown, hidden, is_first)
        if "--merges" in self.flags:
            order = [it for it in order if len(history.parents[it]) > 1]
        if "--no-merges" in self.flags:
            order = [it for it in order if len(history.parents[it]) < 2]
        order = order[self.skipped :]
        if self.most >= 0:
            order = order[: self.most]
        if "--reverse" in self.flags:
            order.reverse()
        left = history.reached(self.left)
        if "--count" in self.flags:
            count = sum(it in left for it in order)
            if "--left-right" in self.flags:
                return f"{count}\t{len(order) - count}\n".encode()
            return f"{len(order)}\n".encode()
        lines = [self.line(it, left) for it in order]
        return "".join(lines).encode()

    def line(self, id: str, left: set[str]) -> str:
        mark = ("<" if id in left else ">") if "--left-right" in self.flags else ""
        parents = self.history.parents[id] if "--parents" in self.flags else []
        return mark + " ".join([id, *parents]) + "\n"


def references(history: History, words: tuple[bytes, ...]) -> bytes:
    """Returns what git should print of references, by what their commits reach."""
    place, front, patterns, tests = history.place, b"", [], []
    rest = list(words)
    while rest:
        word = rest.pop(0)
        found = re.fullmatch(rb"--(no-)?(contains|merged)(?:=(.*))?", word)
        if found:
            text = found[3] if found[3] is not None else rest.pop(0)
            tests.append((found[2], found[1] is None, place.git("rev-parse", text + b"^0")))
        elif word.startswith(b"--format="):
            front = word
        elif word.startswith(b"-"):
            raise Unknown
        else:
            patterns.append(word)
    lines = place.git("for-each-ref", front, *patterns).split("\n")
    objects = place.git("for-each-ref", "--format=%(objectname) %(*objectname)",
                        *patterns).split("\n")
    kept = []
    for line, ids in zip(lines, objects):
        id = ids.split(" ")[1] or ids.split(" ")[0]
        if id in history.parents and is_kept(history, id, tests):
            kept.append(f"{line}\n")
    return "".join(kept).encode(errors="surrogateescape")


def is_kept(history: History, id: str, tests: list[tuple[bytes, bool, str]]) -> bool:
    """Returns whether a reference passes: of several tests of one kind one is enough."""
    for kind in (b"contains", b"merged"):
        for wanted in (True, False):
            commits = [commit for one, yes, commit in tests if one == kind and yes == wanted]
            passes = [is_reached(history, kind, id, it) for it in commits]
            if commits and (not any(passes) if wanted else any(passes)):
                return False
    return True


def is_reached(history: History, kind: bytes, id: str, commit: str) -> bool:
    reached = history.reached([id if kind == b"contains" else commit])
    return (commit if kind == b"contains" else id) in reached


def truth(histories: dict[bytes, History], command: Command) -> bytes | None:
    """Returns what git should print; None if that is not computed here."""
    place = command.place
    if place.path not in histories:
        histories[place.path] = History(place)
    history = histories[place.path]
    try:
        if command.words[0] == b"for-each-ref":
            return references(history, command.words[1:])
        words = command.words[1:]
        if b"--stdin" in words:
            words = tuple(it for it in words if it != b"--stdin")
            words += tuple(it for it in command.data.split(b"\n") if it)
        return Listing(history, words).out()
    except (Unknown, KeyError, ValueError, RuntimeError, IndexError):
        return None
