"""Compares `git proved WORD ..` with `git WORD ..`: compare.py PROGRAM FOLDER COMMANDS SEED

Makes repositories in the folder, and asks both the same: fixed commands, and as many random ones as
COMMANDS says. The answers are the same if the statuses and standard output are. With status 125,
128 or 129 the program prints nothing on standard output. With 129 the message ends with `; ask git`.
With 0, 1 and 128 the errors and warnings on standard error are git's, but each once.
"""

from __future__ import annotations

import collections
import os
import random
import re
import subprocess
import sys
import threading
import time
from concurrent.futures import ThreadPoolExecutor
from dataclasses import dataclass

import crafted
from questions import Asker, Command
from repositories import ENVIRONMENT, Repository, Room, chained, filed
from shapes import OPTIONS, refusal, refused_variable
from truth import History, truth

# A command that takes longer has no answer.
SECONDS = 60

WORKERS = int(os.environ.get("WORKERS", "4"))

# Which histories the random commands are about: a name, and how dates go.
HISTORIES = (("rising", "rising"), ("tied", "tied"), ("skewed", "skewed"), ("second", "second"),
             ("early", "early"), ("wide", "wide"))


@dataclass
class Said:
    """What a program printed, and its status."""

    status: int
    out: bytes
    err: bytes

    def messages(self) -> list[bytes]:
        """Returns what is said of names and of the end, each line once: git may look a name up
        again, and say the same. Advice, and what git says of a commit-graph that it leaves, of tags
        that are in a reflog and of settings that no answer depends on, are not compared."""
        fronts = (b"fatal: ", b"error: ", b"warning: ", b"hint: The candidates", b"hint:   ")
        lines = [it for it in self.err.split(b"\n") if it.startswith(fronts)]
        left_out = (b"commit-graph", b"improper chunk", b" not a commit", b"remote shorthand")
        return list(dict.fromkeys(it for it in lines if not any(word in it for word in left_out)))


def ask(program: list[bytes], command: Command) -> Said:
    words = [*program, *command.before, *command.words]
    environment = {**ENVIRONMENT, b"HOME": command.place.path, **command.environment}
    process = subprocess.Popen(
        words, stdin=subprocess.PIPE, stdout=subprocess.PIPE, stderr=subprocess.PIPE,
        cwd=command.cwd, env=environment, close_fds=False,
    )
    try:
        out, err = process.communicate(command.data, timeout=SECONDS)
    except subprocess.TimeoutExpired:
        process.kill()
        process.communicate()
        return Said(-999, b"", b"no answer in time")
    return Said(process.returncode, out, err)


def is_of_damage(said: Said) -> bool:
    """Returns whether git ended because an object that it reads is damaged."""
    return re.search(rb"(corrupt loose object|object file \S+ is empty)", said.err) is not None


def message_fault(found: Said) -> str | None:
    """Returns what is wrong with the message of what is not supported, or is damaged."""
    if (found.status == 129) != found.err.endswith(b"; ask git\n"):
        return f"status {found.status} with the message {found.err[-120:]!r}"
    return None


class Comparison:
    """Asks git and the program, and counts how they agree."""

    def __init__(self, program: bytes) -> None:
        self.program = [program]
        version = subprocess.run(["git", "version"], capture_output=True, check=True).stdout
        # Other versions of git say some things differently.
        self.compares_messages = b" 2.39." in version
        self.lock = threading.Lock()
        self.asked: collections.Counter = collections.Counter()
        self.refused: collections.Counter = collections.Counter()
        self.choices: collections.Counter = collections.Counter()
        self.differing: list[str] = []
        # Commands that are refused without one of the reasons that `shapes` knows.
        self.unread: list[str] = []
        self.known: dict[Command, Said] = {}
        self.histories: dict[bytes, History] = {}

    def differs(self, what: str) -> None:
        with self.lock:
            self.differing.append(what)

    def compare(self, command: Command) -> None:
        word = command.words[0].decode(errors="replace") if command.words else "no word"
        wanted, found = ask([b"git"], command), ask(self.program, command)
        with self.lock:
            self.asked[word] += 1
            self.known[command] = wanted
        why = self.difference(command, wanted, found)
        if found.status in (125, 129) and wanted.status != 129:
            why = why or message_fault(found)
        if why:
            self.differs(f"{command.text()}: {why}")

    def difference(self, command: Command, wanted: Said, found: Said) -> str | None:
        """Returns how an answer differs from git's."""
        if command.place.twin and self.is_answer_of_twin(command, found):
            return None
        if found.status in (125, 129) and wanted.status != 129:
            return self.refusal(command, wanted, found)
        if found.status in (125, 128, 129) and found.out:
            return f"status {found.status} with output {found.out[:60]!r}"
        if wanted.status == 128 and found.status == 0 and is_of_damage(wanted):
            with self.lock:
                self.choices["an answer without a damaged object"] += 1
            return None
        if found.status != wanted.status:
            said = f"{found.err[:200]!r}" if found.err else f"{found.out[:120]!r}"
            return f"git has status {wanted.status}, here it is {found.status}: {said}"
        if wanted.status in (0, 1) and wanted.out != found.out:
            if self.is_other_choice(command, wanted.out, found.out):
                with self.lock:
                    self.choices[command.words[0].decode()] += 1
                return None
            return f"git prints {wanted.out[:120]!r}, here it is {found.out[:120]!r}"
        if wanted.status == 129 or command.place.twin or not self.compares_messages:
            return None
        says, said = wanted.messages(), found.messages()
        if says != said:
            return f"git says {b' / '.join(says)[:300]!r}, here it is {b' / '.join(said)[:300]!r}"
        return None

    def refusal(self, command: Command, wanted: Said, found: Said) -> str | None:
        """Notes a command that is refused, or returns that it has to be answered."""
        if found.out:
            return f"status {found.status} with output {found.out[:60]!r}"
        why = refused_variable(command.environment)
        if found.status == 129:
            why = why or refusal(command.before, command.words, command.data, command.cwd)
        if command.place.may_be_refused:
            why = why or "the repository"
        if command.place.twin:
            why = why or "damage"
        if wanted.status == 128 and re.search(rb"@\{push\}", b" ".join(command.words), re.I):
            why = why or "no branch to push to"
        if command.place.is_untidy and found.status == 129:
            why = why or self.doubt(command)
        if command.is_strict:
            return f"refused, and git has status {wanted.status}: {found.err[:120]!r}"
        with self.lock:
            self.refused[why or "another reason"] += 1
            if why is None:
                said = found.err[:120] or wanted.err[:120]
                self.unread.append(f"{command.text()}: git has status {wanted.status}: {said!r}")
        return None

    def doubt(self, command: Command) -> str | None:
        """Returns why a command may be refused where commits have one date, or wrong ones."""
        word, rest = command.words[0], command.words[1:]
        if word == b"rev-list" and b"--first-parent" in rest:
            return "lines that dates end"
        has_bases = word == b"merge-base" or any(b"..." in it for it in rest)
        return "merge bases of one date" if has_bases and command.place.has_graph() else None

    def is_answer_of_twin(self, command: Command, found: Said) -> bool:
        """Returns whether git gives this answer in the repository without damage."""
        twin = Command(command.place, command.words, folder=command.place.twin)
        said = ask([b"git"], twin)
        return said.status in (0, 1) and (said.status, said.out) == (found.status, found.out)

    def is_other_choice(self, command: Command, wanted: bytes, found: bytes) -> bool:
        """Returns whether an answer is another choice of those that docs/DIFFERENCES.md names."""
        lists = command.words[0] in (b"rev-list", b"for-each-ref")
        return lists and command.place.is_untidy and truth(self.histories, command) == found

    def expect(self, holds: bool, what: str) -> None:
        """Counts something that no command of git says."""
        with self.lock:
            self.asked["other"] += 1
        if not holds:
            self.differs(what)


def in_parallel(work, items) -> None:
    with ThreadPoolExecutor(WORKERS) as workers:
        list(workers.map(work, items))


def random_commands(room: Room, count: int, seed: int) -> list[Command]:
    """Returns random commands about random histories, their clones and their copies."""
    places: list[Repository] = []
    for at, (name, dates) in enumerate(HISTORIES):
        places.append(room.random(name, 100 * seed + at, dates, 30 + 7 * at))
    rising, skewed = places[0], places[2]
    places += [
        room.clone(rising, "rising bare", "--bare"),
        filed(room, rising, "rising with a file"),
        filed(room, skewed, "skewed with a part", 20),
        chained(room, rising, "rising with a chain", 6),
        chained(room, skewed, "skewed with a chain", 2),
    ]
    places.append(room.clone(rising, "rising shallow", "--no-single-branch", "--depth=3"))
    packed = room.copy(skewed, "skewed packed")
    packed.git("gc", "-q")
    places.append(packed)
    shares = [count * (2 if at < len(HISTORIES) else 1) for at in range(len(places))]
    whole = sum(shares) // count
    commands = []
    for at, place in enumerate(places):
        commands += Asker(place, 1000 * seed + at).commands(max(1, shares[at] // whole))
    return commands


def is_plain(command: Command) -> bool:
    """Returns whether a command can be a line of a batch."""
    is_alone = not (command.before or command.data or command.environment or command.folder)
    return is_alone and b"--stdin" not in command.words and b"\n" not in b"".join(command.words)


def quoted(word: bytes) -> bytes:
    """Returns a word as a line of a batch has it, in quotes if need be."""
    if re.fullmatch(rb"[\w./~^@{}=:+,*-]+", word):
        return word
    return b"'" + word.replace(b"'", b"'\\''") + b"'"


def answers_of_batch(process, lines: list[bytes]) -> list[tuple[int, bytes]]:
    """Puts questions to a batch one by one, each after the last answer."""
    answers = []
    for line in lines:
        process.stdin.write(line + b"\n")
        process.stdin.flush()
        head = process.stdout.readline()
        found = re.fullmatch(rb"(\d+) (\d+)\n", head)
        if not found:
            raise ValueError(f"{line!r}: the answer begins with {head[:60]!r}")
        out = process.stdout.read(int(found[2]))
        if process.stdout.read(1) != b"\n":
            raise ValueError(f"{line!r}: no line feed after the answer")
        answers.append((int(found[1]), out))
    return answers


def start_batch(comparison: Comparison, place: Repository):
    environment = {**ENVIRONMENT, b"HOME": place.path}
    return subprocess.Popen(
        [*comparison.program, b"batch"], stdin=subprocess.PIPE, stdout=subprocess.PIPE,
        stderr=subprocess.DEVNULL, cwd=place.path, env=environment,
    )


def end_of_batch(process) -> tuple[int, bytes]:
    process.stdin.close()
    rest = process.stdout.read()
    process.stdout.close()
    return process.wait(), rest


def compare_batch(comparison: Comparison, place: Repository, commands: list[Command]) -> None:
    """Asks all plain commands about a repository in one batch, and compares each answer."""
    process = start_batch(comparison, place)
    timer = threading.Timer(SECONDS, process.kill)
    timer.start()
    try:
        answers = answers_of_batch(process, [b" ".join(map(quoted, it.words)) for it in commands])
        status, rest = end_of_batch(process)
        comparison.expect((status, rest) == (0, b""),
                          f"batch: status {status}, and {rest[:60]!r} at its end")
    except (ValueError, OSError) as why:
        comparison.expect(False, f"batch in {os.path.basename(place.path)!r}: {why}")
        process.kill()
        return
    finally:
        timer.cancel()
    for command, (status, out) in zip(commands, answers):
        with comparison.lock:
            comparison.asked["batch"] += 1
        wanted = comparison.known[command]
        # What is said goes to standard error, which has no marks between the questions.
        why = comparison.difference(command, wanted, Said(status, out, wanted.err))
        if why:
            comparison.differs(f"batch {command.text()}: {why}")


def compare_batches(comparison: Comparison, commands: list[Command]) -> None:
    by_place: dict[bytes, list[Command]] = {}
    for command in commands:
        if is_plain(command) and not command.place.may_be_refused:
            by_place.setdefault(command.place.path, []).append(command)
    # Where there is no repository a batch ends at once, with git's message.
    by_place = {path: it for path, it in by_place.items() if os.path.basename(path) != b"nowhere"}
    chosen = [it for it in by_place.values() if len(it) >= 20]
    in_parallel(lambda it: compare_batch(comparison, it[0].place, it[:200]), chosen)


def compare_changes(comparison: Comparison, room: Room) -> None:
    """Changes references between the questions of one batch."""
    made = crafted.one_line(room, "changing", 6)
    process = start_batch(comparison, made)
    try:
        for id in made.ids:
            made.git("update-ref", "refs/heads/moved", id)
            lines = [b"rev-parse moved", b"rev-parse --symbolic-full-name moved"]
            found = answers_of_batch(process, lines)
            wanted = [(0, f"{id}\n".encode()), (0, b"refs/heads/moved\n")]
            comparison.expect(found == wanted,
                              f"batch after a change: {found}, and git has {wanted}")
        new = made.commit(made.ids[-1], date=1_000_009_000)
        made.git("update-ref", "refs/heads/moved", new)
        made.git("pack-refs", "--all")
        found = answers_of_batch(process, [b"rev-list -n 1 moved", b"nosuch HEAD",
                                           b"rev-parse nosuch", b"rev-parse moved~1"])
        last = made.ids[-2].encode() + b"\n"
        wanted = [(0, new.encode() + b"\n"), (129, b""), (128, b""), (0, last)]
        comparison.expect(found == wanted,
                          f"batch with a new commit: {found}, and right is {wanted}")
        comparison.expect(end_of_batch(process) == (0, b""), "a batch does not end with its input")
    except (ValueError, OSError) as why:
        comparison.expect(False, f"batch: {why}")
        process.kill()


def compare_moving(comparison: Comparison, room: Room) -> None:
    """Asks about a reference that another process sets all the time."""
    made = crafted.one_line(room, "moving", 6)
    path, two = made.path + b"/.git/refs/heads/main", made.ids[2:4]
    ended = threading.Event()

    def move() -> None:
        for number in range(10**7):
            if ended.is_set():
                return
            with open(path + b".lock", "w", encoding="ascii") as file:
                file.write(two[number % 2] + "\n")
            os.rename(path + b".lock", path)
            time.sleep(0.0005)

    made.git("update-ref", "refs/heads/main", two[0])
    mover = threading.Thread(target=move)
    mover.start()
    try:
        for words, step in (("rev-parse main", 0), ("rev-parse main~1", 1),
                            ("rev-list -n 1 main", 0)):
            right = {made.ids[made.ids.index(id) - step].encode() + b"\n" for id in two}
            for _ in range(8):
                found = ask(comparison.program, crafted.row(made, *words.split(" ")))
                comparison.expect(found.status == 0 and found.out in right,
                                  f"{words} while main moves: {found}")
    finally:
        ended.set()
        mover.join()


def compare_distances(comparison: Comparison, place: Repository, count: int) -> None:
    """Compares %(ahead-behind:COMMIT), which git has from 2.41 on, with git's counts."""
    for commit in random.Random(7).sample(place.ids, min(count, len(place.ids))):
        words = ["for-each-ref", f"--format=%(refname) %(ahead-behind:{commit})", "refs/heads",
                 "refs/tags"]
        found = ask(comparison.program, crafted.row(place, *words))
        wanted = []
        for name in place.git("for-each-ref", "--format=%(refname)", "refs/heads",
                              "refs/tags").split("\n"):
            counts = place.git("rev-list", "--left-right", "--count",
                               f"{name}...{commit}").replace("\t", " ")
            wanted.append(f"{name} {counts}\n")
        right = (0, "".join(wanted).encode())
        comparison.expect((found.status, found.out) == right,
                          f"{place.path.decode()}: {words}: {found}")


def compare_authentic(comparison: Comparison, commands: list[Command]) -> None:
    """Asks with --authentic and --authentic=whole in turn, which answer from objects alone, and
    compares with git without them."""
    for number, command in enumerate(commands):
        wanted = comparison.known[command]
        mode = ("--authentic", "--authentic=whole")[number % 2]
        found = ask([*comparison.program, mode.encode()], command)
        if found.status in (125, 129) and not found.out:
            with comparison.lock:
                comparison.refused[mode] += 1
            continue
        why = comparison.difference(command, wanted, found)
        if why:
            wanted = ask([b"git", b"-c", b"core.commitGraph=false"], command)
            why = comparison.difference(command, wanted, found)
        with comparison.lock:
            comparison.asked[mode] += 1
        if why:
            comparison.differs(f"{mode} {command.text()}: {why}")


def compare_damaged_graphs(comparison: Comparison, room: Room, seed: int) -> None:
    """Changes one byte of a commit-graph at a time. An answer is git's with or without the file, or
    it is refused."""
    made = filed(room, room.random("for damage", 80 + seed, "rising", 30), "damaged")
    path = made.path + b"/.git/objects/info/commit-graph"
    os.chmod(path, 0o644)
    with open(path, "rb") as file:
        right = file.read()
    rng = random.Random(seed)
    questions = [crafted.row(made, *it.split(" ")) for it in ("merge-base HEAD HEAD~2",
        "rev-list -n 4 HEAD", "rev-parse HEAD~3", "describe --tags --always HEAD~1")]
    for _ in range(24):
        at = rng.randrange(len(right) // 2, len(right) - 20)
        with open(path, "wb") as file:
            file.write(right[:at] + bytes((right[at] ^ 1 << rng.randrange(8),)) + right[at + 1 :])
        for command in questions:
            found = ask(comparison.program, command)
            both = [ask([b"git"], command), ask([b"git", b"-c", b"core.commitGraph=false"],
                                                command)]
            allowed = [(it.status, it.out if it.status in (0, 1) else b"") for it in both
                       if it.status >= 0]
            allowed += [(125, b""), (129, b"")]
            what = f"{command.text()} with byte {at} changed: {found}, and git has {allowed}"
            comparison.expect((found.status, found.out) in allowed, what)


def check_itself(comparison: Comparison, place: Repository, top: bytes) -> None:
    """Checks what the program says of itself, and `git proved`."""
    for option in (b"-h", b"--help"):
        said = ask(comparison.program, Command(place, (), (option,)))
        lost = [it for known in crafted.WORDS for it in (known,) if known.encode() not in said.out]
        comparison.expect(said.status == 0 and not lost,
                          f"{option.decode()} has status {said.status}, and lacks {lost}")
    for word, options in OPTIONS.items():
        for option in (b"-h", b"--help"):
            said = ask(comparison.program, Command(place, (word, option)))
            names = re.findall(rb"-[\w-]+", said.out.replace(b"[no-]", b""))
            comparison.expect(said.status == 0 and options <= {*names},
                              f"{word.decode()} {option.decode()} has status {said.status}, and lacks "
                              f"{options - {*names}}")
    with open(top + b"/VERSION", "rb") as file:
        version = file.read().strip()
    said = ask(comparison.program, Command(place, (), (b"--version",)))
    comparison.expect(said.status == 0 and version in said.out, f"--version: {said}")
    for words in ((), (b"log", b"HEAD"), (b"batch", b"x"), (b"",)):
        said = ask(comparison.program, Command(place, words))
        comparison.expect(said.status == 129 and not said.out and said.err.count(b"\n") == 1,
                          f"{words} is not refused: {said}")


def say(comparison: Comparison, began: float) -> int:
    for text in sorted(comparison.differing)[:2000]:
        print("differs:", text)
    for text in sorted(comparison.unread)[:2000]:
        print("refused:", text)
    print("asked:", ", ".join(f"{word} {count}" for word, count
                              in sorted(comparison.asked.items())))
    print("refused:", ", ".join(f"{why} {count}" for why, count
                                in sorted(comparison.refused.items())) or "nothing")
    print("other choices:", ", ".join(f"{word} {count}" for word, count
                                      in sorted(comparison.choices.items())) or "none")
    every = sum(comparison.asked.values())
    seconds = time.time() - began
    print(f"{every} commands, {len(comparison.differing)} differ, {seconds:.0f} seconds")
    foreign = ("the repository", "damage")
    refused = sum(count for why, count in comparison.refused.items() if why not in foreign)
    few = refused * 10 <= every
    if not few:
        print("too many commands are refused")
    if comparison.unread:
        print(f"{len(comparison.unread)} commands are refused without a reason that is listed")
    return 0 if few and not comparison.unread and not comparison.differing else 1


def main(program: bytes, folder: bytes, count: int, seed: int) -> int:
    began = time.time()
    top = os.path.dirname(os.path.dirname(os.path.dirname(os.path.realpath(os.fsencode(__file__)))))
    room = Room(folder + b"/all of them")
    os.makedirs(room.folder)
    comparison = Comparison(program)
    made: list = [None] * len(crafted.MAKERS)

    def make(at: int) -> None:
        made[at] = crafted.MAKERS[at](room)

    in_parallel(make, range(len(made)))
    fixed = [command for commands in made for command in commands]
    drawn = random_commands(room, count, seed)
    print(f"{len(fixed)} fixed and {len(drawn)} random commands", flush=True)
    in_parallel(comparison.compare, fixed + drawn)
    comparison.expect(not os.path.exists(room.path("ran")), "a command of the repository was run")
    compare_batches(comparison, fixed + drawn)
    compare_changes(comparison, room)
    compare_moving(comparison, room)
    compare_distances(comparison, drawn[0].place, 6)
    compare_authentic(comparison, drawn[:: max(1, len(drawn) // 40)])
    compare_damaged_graphs(comparison, room, seed)
    check_itself(comparison, drawn[0].place, top)
    return say(comparison, began)


if __name__ == "__main__":
    sys.exit(main(os.fsencode(sys.argv[1]), os.fsencode(sys.argv[2]), int(sys.argv[3]),
              int(sys.argv[4])))
