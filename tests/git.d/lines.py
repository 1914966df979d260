"""What the comparisons of bin/revtool with git share: repositories, and what both say of them."""

from __future__ import annotations

import os
import re
import shutil
import subprocess
import sys
import tempfile
from functools import cache

TOP = os.path.dirname(os.path.dirname(os.path.dirname(os.path.realpath(__file__))))
sys.path.insert(0, TOP + "/tests/proved")

from repositories import ENVIRONMENT, Repository, Room, encoded  # noqa: E402

START = 1_000_000_000


def skip(why: str) -> None:
    """Ends a comparison that cannot be made here."""
    print(f"skipped: {why}")
    sys.exit(77)


def fail(why: str) -> None:
    print(why)
    sys.exit(1)


def in_room(compare) -> None:
    """Calls a function with a room in a new folder, which then goes."""
    if not shutil.which("git"):
        skip("git is not installed")
    # A name that is not UTF-8 can then be printed.
    sys.stdout.reconfigure(errors="backslashreplace")
    with tempfile.TemporaryDirectory() as folder:
        compare(Room(os.fsencode(folder)))


def run_cases(*cases) -> None:
    """Runs the cases that the command line names, or all."""
    chosen = sys.argv[1:] or [it.__name__ for it in cases]
    known = {it.__name__: it for it in cases}
    if unknown := [it for it in chosen if it not in known]:
        fail(f"no case {unknown[0]}: there are {' '.join(known)}")
    for name in chosen:
        in_room(known[name])


def run(place: Repository, *words: str | bytes, data: bytes = b"") -> tuple[int, bytes]:
    """Runs a program in a repository, and returns its status and what it prints."""
    done = subprocess.run([encoded(it) for it in words], input=data, cwd=place.path,
                          env=ENVIRONMENT, capture_output=True)
    return done.returncode, done.stdout


def from_git(place: Repository, *words: str) -> bytes:
    """Returns the lines of bin/from-git."""
    status, out = run(place, f"{TOP}/bin/from-git", *words, ".")
    if status != 0:
        fail(f"bin/from-git: status {status}")
    return out


def revtool(lines: bytes, questions: list[str], may_refuse: bool = False) -> list[str]:
    """Returns what bin/revtool answers to questions about a history."""
    asked = lines + "".join(f"{it}\n" for it in questions).encode(errors="surrogateescape")
    done = subprocess.run([f"{TOP}/bin/revtool"], input=asked, env=ENVIRONMENT, capture_output=True)
    if done.returncode not in ((0, 1) if may_refuse else (0,)):
        fail(f"bin/revtool: status {done.returncode}: {done.stderr[:200]!r}")
    return done.stdout.decode(errors="surrogateescape").splitlines()


def compare(what: str, questions: list[str], found: list[str], wanted: list[str]) -> None:
    """Ends the comparison if answers differ from git's."""
    rows = [row for row in zip(questions, found, wanted) if row[1] != row[2]]
    for row in rows[:5]:
        print(" | ".join(row))
    if rows or not len(questions) == len(found) == len(wanted):
        fail(f"{len(rows)} of {len(questions)} {what} differ; there are {len(found)} answers")
    print(f"git agrees on {len(questions)} {what}")


# Histories.


def make(place: Repository, after: int, *parents: int) -> None:
    """Makes a commit so many seconds after the start, whose parents have these numbers."""
    place.commit(*(place.ids[it] for it in parents), date=START + after)


def made(room: Room, name: str, *commits: tuple[int, ...]) -> Repository:
    """Makes a repository with such commits."""
    place = room.init(name)
    for commit in commits:
        make(place, *commit)
    return place


def with_branches(place: Repository) -> Repository:
    """Makes a branch `commit-N` for each commit, and puts HEAD on the last one."""
    rows = [f"create refs/heads/commit-{n} {id}\n" for n, id in enumerate(place.ids)]
    place.git("update-ref", "--stdin", data="".join(rows).encode())
    place.git("symbolic-ref", "HEAD", f"refs/heads/commit-{len(place.ids) - 1}")
    return place


def tag_back_from(place: Repository, commit: str) -> None:
    """Puts a tag on every third commit by first parents back from one, at most nine. Each tag's
    commit is an ancestor of the next one's, so only one of them is the nearest. Every other tag is
    annotated."""
    for tag in range(9, 0, -1):
        status, out = run(place, "git", "rev-parse", "-q", "--verify", f"{commit}~3")
        if status != 0:
            return
        commit = out.decode().strip()
        place.git("tag", *(("-a", "-m", "t") if tag % 2 == 0 else ()), f"v{tag}", commit)


def own_history(room: Room) -> Repository:
    """Copies this project's own history without its tags, if it has at least five commits."""
    here = Repository(os.fsencode(TOP))
    status, out = run(here, "git", "rev-parse", "--show-toplevel", "--is-shallow-repository")
    if status != 0 or os.fsdecode(out) != f"{TOP}\nfalse\n":
        skip("this is no checkout of its own with the whole history")
    place = Repository(room.path("own"))
    here.git("clone", "-q", "--bare", ".", place.path)
    tags = place.git("for-each-ref", "--format=delete %(refname)", "refs/tags")
    place.git("update-ref", "--stdin", data=f"{tags}\n".encode() if tags else b"")
    place.ids = place.git("rev-list", "--all").split("\n")
    if len(place.ids) < 5:
        skip("this checkout has a history of fewer than five commits")
    return place


# Merge bases.


def bases_by_git(place: Repository, question: str) -> str:
    status, out = run(place, "git", "merge-base", "--all", *question.split(" "))
    if status not in (0, 1):
        fail(f"git merge-base --all {question}: status {status}")
    return "base " + (" ".join(sorted(out.decode().split())) or "none")


def compare_bases(place: Repository, questions: list[str]) -> list[str]:
    """Compares `base` lines with `git merge-base --all`. A question is some ids."""
    found = revtool(from_git(place), [f"base {it}" for it in questions])
    compare("merge bases", questions, found, [bases_by_git(place, it) for it in questions])
    return found


# Descriptions.


def description_by_git(place: Repository, commit: str) -> str:
    """Returns git's description as bin/revtool prints it: without a depth of 0, and otherwise with
    seven digits, even if another object begins with them."""
    # If no tag is on its way, git answers only the digits.
    said = place.git("describe", "--tags", "--long", "--always", "--abbrev=7", commit)
    found = re.fullmatch(r"(v\d+)-(\d+)(-g[0-9a-f]{7})[0-9a-f]*", said)
    if not found:
        return "describe none"
    name, depth, digits = found.groups()
    return f"describe {name}" if depth == "0" else f"describe {name}-{depth}{digits}"


def descriptions(place: Repository) -> tuple[list[str], list[str]]:
    """Returns what bin/revtool and git say of all commits."""
    lines = from_git(place, "--names")
    return (revtool(lines, [f"describe {it}" for it in place.ids]),
            [description_by_git(place, it) for it in place.ids])


def compare_descriptions(place: Repository) -> list[str]:
    """Compares `describe` lines with `git describe --tags --long`."""
    found, wanted = descriptions(place)
    compare("descriptions", place.ids, found, wanted)
    if not any(it.startswith("describe v") for it in found):
        fail("no commit has a name")
    return found


def compare_depths(place: Repository) -> bool:
    """Compares only depths and digits. Returns whether some names differ."""
    found, wanted = descriptions(place)
    depths = [[re.sub(r"^describe v\d+-", "", it) for it in said] for said in (found, wanted)]
    compare("depths", place.ids, *depths)
    return found != wanted


# Revisions and lists.


@cache
def commit_of(place: Repository, id: str) -> str:
    return place.git("rev-parse", id + "^{commit}")


def read_by_git(place: Repository, text: str) -> str:
    """Returns the commits that git reads from a text, with `^` before an excluded one."""
    status, out = run(place, "git", "rev-parse", os.fsencode(text))
    if status != 0:
        return "refused"
    ids = [it for it in out.decode(errors="surrogateescape").split("\n") if it]
    return " ".join("^" * it.startswith("^") + commit_of(place, it.lstrip("^")) for it in ids)


def texts_over(*revisions: str) -> list[str]:
    """Returns texts over revisions: with steps, also such as lead nowhere, and in ranges."""
    steps = ("", "~", "^", "~0", "^0", "~1", "~2", "^2", "^^", "~1^2", "^2~1", "~2^1~1", "~1000",
             "^9", "^@", "^!", "^-", "^-2", "^-9", "...", "~1^@", "^2^!")
    texts = []
    for it in revisions:
        texts += [it + step for step in steps]
        texts += [f"^{it}", f"..{it}", f"{revisions[0]}..{it}", f"{it}...{revisions[-1]}"]
        texts += [f"{it}~1..{revisions[-1]}^", f"^{it}~1"]
    return texts


def compare_specs(place: Repository, texts: list[str]) -> None:
    """Compares `spec` lines with `git rev-parse`, which reads both the text and the answer."""
    answers = revtool(from_git(place, "--refs"), [f"spec {it}" for it in texts], may_refuse=True)
    said = [it.removeprefix("spec ") for it in answers]
    found = ["refused" if it.startswith("refused P") else read_by_git(place, it) for it in said]
    compare("texts", texts, found, [read_by_git(place, it) for it in texts])
    if len({it == "refused" for it in found}) < 2:
        fail("all or none of the texts are refused")


def list_by_git(place: Repository, text: str) -> str:
    status, out = run(place, "git", "rev-list", text, "--")
    return "list " + ("refused" if status else " ".join(sorted(out.decode().split())) or "none")


def compare_lists(place: Repository, texts: list[str]) -> None:
    """Compares `list` lines with `git rev-list`."""
    said = revtool(from_git(place, "--refs"), [f"list {it}" for it in texts], may_refuse=True)
    found = [re.sub("^list refused .*", "list refused", it) for it in said]
    compare("lists", texts, found, [list_by_git(place, it) for it in texts])
    if not {"list none", "list refused"} < set(found):
        fail("no list is empty, or none is refused")
