"""Times whole answers of git-proved and git on the clock: answers.py PROGRAM FOLDER COMMITS..

For each number of commits it makes a repository below the folder. Every tenth commit merges a side branch of five
commits, and every thousandth has a tag. Each question is asked with a commit-graph file and without, by one process
each time. A row has the least time of the program and of git, their ratio, and the most memory that each held.

Some questions are asked again in authentic mode. git has no such mode, and is asked the plain question. Last, `batch`
answers 100 questions in one process, where git needs 100 processes.
"""

from __future__ import annotations

import os
import shutil
import subprocess
import sys
import time
from collections.abc import Callable, Iterator
from typing import NamedTuple

QUESTIONS = (
    "merge-base main topic",
    "merge-base --is-ancestor near main",
    "rev-parse HEAD",
    "rev-parse --short HEAD~1",
    "describe --tags",
    "rev-list -n 1 HEAD",
    "rev-list near..main",
    "rev-list --count HEAD",
    "rev-list --left-right --count main...topic",
    "for-each-ref --contains near",
)

# Questions that are asked in authentic mode, too.
AUTHENTIC = ("merge-base main topic", "describe --tags", "rev-list --count HEAD")

# Questions for `batch`. None needs a walk over the whole history.
IN_TURN = 25 * ("merge-base main topic", "describe --tags", "rev-parse --short HEAD~1", "rev-list -n 1 HEAD")


def history(commits: int) -> bytes:
    """Returns the history for git fast-import."""
    lines: list[str] = []
    marks: dict[str, int] = {}

    def commit(number: int, ref: str, *parents: int) -> None:
        lines.append(f"commit {ref}\nmark :{number}\ncommitter a <a@example.org> {1_000_000_000 + 60 * number} +0000\ndata 0")
        for word, parent in zip(("from", "merge", "merge"), parents):
            lines.append(f"{word} :{parent}")
        lines.append("")

    main, number = 0, 0
    while number < commits:
        number += 1
        # Five commits of a side branch, then the merge, then four commits of the main line.
        place = number % 10
        if place in (1, 2, 3, 4, 5) and number > 10:
            side = marks.get("side", main) if place > 1 else main
            commit(number, "refs/heads/side", side)
            marks["side"] = number
        elif place == 6 and number > 10:
            commit(number, "refs/heads/main", main, marks["side"])
            main = number
        else:
            commit(number, "refs/heads/main", *([main] if main else []))
            main = number
        if number % 1000 == 500:
            lines.append(f"reset refs/tags/v{number // 1000}\nfrom :{main}\n")
        if number == commits - 50:
            lines.append(f"reset refs/heads/near\nfrom :{main}\n")
            marks["near"] = main
    for _ in range(10):
        number += 1
        commit(number, "refs/heads/topic", marks.get("topic", marks["near"]))
        marks["topic"] = number
    return "\n".join(lines).encode()


class Asked(NamedTuple):
    """A question: what it is called, the program's words and its input, and the words of each process of git."""

    name: str
    ours: list[str]
    given: bytes
    theirs: list[list[str]]


def questions(program: str, place: str) -> Iterator[Asked]:
    """Returns what is asked in one repository."""
    mine, git = [program, "-C", place], ["git", "-C", place]
    for one in QUESTIONS:
        yield Asked(f"`{one}`", [*mine, *one.split()], b"", [[*git, *one.split()]])
    for one in AUTHENTIC:
        yield Asked(f"`--authentic {one}`", [*mine, "--authentic", *one.split()], b"", [[*git, *one.split()]])
    given = "".join(f"{one}\n" for one in IN_TURN).encode()
    yield Asked(f"{len(IN_TURN)} questions, `batch`", [*mine, "batch"], given, [[*git, *one.split()] for one in IN_TURN])


def ask(words: list[str], given: bytes = b"") -> None:
    """Runs a process that has to end with status 0."""
    done = subprocess.run(words, input=given, stdout=subprocess.DEVNULL, stderr=subprocess.PIPE)
    if done.returncode != 0:
        raise SystemExit(f"{words}: status {done.returncode}, {done.stderr.decode(errors='replace')}")


def least(once: Callable[[], object]) -> float:
    """Returns the least time of a call in milliseconds: of five calls, or of more in half a second."""
    times: list[float] = []
    while len(times) < 5 or sum(times) < 500 and len(times) < 50:
        began = time.perf_counter()
        once()
        times.append(1000 * (time.perf_counter() - began))
    return min(times)


def memory(words: list[str], given: bytes = b"") -> str:
    """Returns the most memory that a process held."""
    if not shutil.which("time"):
        return "-"
    done = subprocess.run(["time", "-f", "%M", *words], input=given, stdout=subprocess.DEVNULL, stderr=subprocess.PIPE)
    return f"{digits(int(done.stderr.split()[-1]) / 1024)} MB"


def digits(number: float) -> str:
    """Returns a number with two digits that count, or as a whole number."""
    return f"{number:.0f}" if number >= 10 else f"{number:.2g}"


def shown(milliseconds: float) -> str:
    return f"{digits(milliseconds)} ms" if milliseconds < 1000 else f"{milliseconds / 1000:.1f} s"


def row(asked: Asked) -> str:
    """Asks the program and git, and returns the row without the first two columns."""
    ours = least(lambda: ask(asked.ours, asked.given))
    theirs = least(lambda: [ask(words) for words in asked.theirs])
    memories = memory(asked.ours, asked.given), memory(asked.theirs[0])
    return " | ".join((asked.name, shown(ours), shown(theirs), digits(ours / theirs), *memories))


def main(program: str, folder: str, *sizes: str) -> None:
    print("| Commits | Commit-graph | Question | ours | git | ratio | memory | memory, git |\n|" + " --- |" * 8)
    for size in sizes:
        place = os.path.join(folder, size)
        git = ["git", "-C", place]
        subprocess.run(["git", "init", "-q", "-b", "main", place], check=True)
        subprocess.run([*git, "fast-import", "--quiet"], input=history(int(size)), check=True)
        subprocess.run([*git, "repack", "-adq"], check=True)
        for graph in ("yes", "no"):
            if graph == "yes":
                subprocess.run([*git, "commit-graph", "write", "--reachable"], check=True, stderr=subprocess.DEVNULL)
            else:
                subprocess.run([*git, "config", "core.commitGraph", "false"], check=True)
            for asked in questions(program, place):
                print(f"| {int(size):,} | {graph} | {row(asked)} |", flush=True)


if __name__ == "__main__":
    main(*sys.argv[1:])
