"""Times processes by the processor, for tools/bench."""

from __future__ import annotations

import os
import shutil
import subprocess
from collections.abc import Callable
from dataclasses import dataclass

from crates import Refused

# How many runs a value is taken from, and how many seconds N questions have to take.
RUNS = 5
ENOUGH = 0.3


@dataclass
class Run:
    """A command, the file that it reads, and the status with which it ends. Another status is no answer to time."""

    words: list[str]
    given: str = os.devnull
    wanted: int = 0

    def start(self, words: list[str]) -> subprocess.Popen[bytes]:
        """Starts a command on the file of this run."""
        with open(self.given, "rb") as given:
            return subprocess.Popen(words, stdin=given, stdout=subprocess.DEVNULL, stderr=subprocess.DEVNULL)

    def check(self, status: int) -> None:
        if status != self.wanted:
            raise Refused(f"ended with status {status}: {' '.join(self.words)[:200]}")

    def seconds(self) -> float:
        """Returns the processor seconds of one process, with what it starts."""
        child = self.start(self.words)
        _, status, spent = os.wait4(child.pid, 0)
        child.returncode = os.waitstatus_to_exitcode(status)
        self.check(child.returncode)
        return spent.ru_utime + spent.ru_stime


def three(values: list[float]) -> list[float]:
    """Returns the least, the middle and the greatest one."""
    values = sorted(values)
    return [values[0], values[(len(values) - 1) // 2], values[-1]]


def pairs(with_: Run, without: Run, count: int) -> list[float]:
    """Returns the time of one of so many questions that the first run asks and the second one does not."""
    both = [(without.seconds(), with_.seconds()) for _ in range(RUNS)]
    less, more = sorted(it[0] for it in both), sorted(it[1] for it in both)
    return three([(b - a) / count for a, b in zip(less, more)])


def again(ask: Callable[[int], Run], most: int) -> list[float]:
    """Returns the time of one more question; `ask` makes the run of so many, and at most so many fit in one."""
    without, count = ask(1), 1
    while True:
        with_ = ask(count + 1)
        base = without.seconds()
        spent = with_.seconds() - base
        # Twice to ten times as many, by what these took. A longer `without` differs more from run to run.
        enough = max(ENOUGH, base)
        if spent >= enough or count >= most:
            return pairs(with_, without, count)
        count = min(most, int(count * max(2, 1.25 * enough / spent if spent > enough / 8 else 10)))


def process(one: Run) -> list[float]:
    """Returns the time of a process. If it is short, as many as take long enough run one after the other."""
    first = one.seconds()
    count = min(100, int(ENOUGH / first) + 1) if first > 0 else 100
    return three([sum(one.seconds() for _ in range(count)) / count for _ in range(RUNS)])


def memory_of(one: Run) -> int | None:
    """Returns the most memory of a process in KB, or None if it cannot be measured."""
    time = shutil.which("time")
    if not time:
        return None
    with open(one.given, "rb") as given:
        done = subprocess.run([time, "-f", "%M", *one.words], stdin=given, stdout=subprocess.DEVNULL, stderr=subprocess.PIPE, check=False)
    return int(done.stderr.split()[-1])


def columns_of(one: Run) -> list[list[float]]:
    """Returns the three times of each column that a program prints in one line, in seconds."""
    lines = []
    for _ in range(RUNS):
        with open(one.given, "rb") as given:
            lines.append(subprocess.run(one.words, stdin=given, stdout=subprocess.PIPE, check=True, text=True).stdout.split())
    return [three([float(it) for it in column]) for column in zip(*lines)]


def _text(seconds: float) -> str:
    if seconds <= 0:
        return "0"
    if seconds < 1e-6:
        return f"{seconds * 1e9:.0f} ns"
    if seconds < 1e-3:
        return f"{seconds * 1e6:.1f} µs"
    return f"{seconds * 1e3:.2f} ms" if seconds < 1 else f"{seconds:.2f} s"


def spread(times: list[float]) -> str:
    least, middle, greatest = map(_text, times)
    return f"{least} ({middle}, {greatest})"
