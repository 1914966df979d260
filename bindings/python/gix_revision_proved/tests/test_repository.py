"""Each question once about a repository that git makes, and how a question ends badly.

The questions are skipped without git, and if no git-proved is found. One that is found has to run.
The bad ends are those of a stand-in for git-proved, and are never skipped.
"""

from __future__ import annotations

import copy
import os
import shutil
import signal
import subprocess
import sys
import tempfile
import threading
import time
import unittest
from collections.abc import Iterator
from contextlib import contextmanager
from unittest import mock

from gix_revision_proved import Damaged, NotSupported, NotThere, Reference, Repository, _repository
from gix_revision_proved._repository import _program

# In this order the commits have the dates 1, 2, 3, ..
HISTORY = {"root": [], "ours": ["root"], "theirs": ["root"], "one": ["ours", "theirs"], "two": ["ours", "theirs"]}


def what_is_missing() -> str:
    """Returns why nothing can be asked, or an empty text."""
    if shutil.which("git") is None:
        return "git is not on the path"
    try:
        _program()
    except FileNotFoundError as error:
        return str(error)
    return ""


def make(folder: str) -> dict[str, str]:
    """Makes a criss-cross with a branch for each commit and a tag of the first. Returns the ids."""
    setting = {f"GIT_{who}_{what}": "a" for who in ("AUTHOR", "COMMITTER") for what in ("NAME", "EMAIL")}

    def git(*words: str, date: int = 0) -> str:
        dates = {it: f"@{date} +0000" for it in ("GIT_AUTHOR_DATE", "GIT_COMMITTER_DATE")}
        environment = os.environ | setting | dates | {"GIT_CONFIG_NOSYSTEM": "1", "GIT_CONFIG_GLOBAL": "/dev/null"}
        said = subprocess.run(["git", "-C", folder, *words], env=environment, check=True, capture_output=True, input=b"")
        return said.stdout.decode().strip()

    git("init", "-q", "--initial-branch=two")
    tree, ids = git("mktree"), dict[str, str]()
    for date, (name, parents) in enumerate(HISTORY.items(), 1):
        of = [word for it in parents for word in ("-p", ids[it])]
        ids[name] = git("commit-tree", tree, *of, "-m", name, date=date)
        git("update-ref", f"refs/heads/{name}", ids[name])
    git("tag", "v1", ids["root"])
    return ids


class WithoutLibrary(unittest.TestCase):
    """Without the C library a Repository is there, and a History says what to set."""

    def test_import(self) -> None:
        script = "import gix_revision_proved as it; print(it.Repository.__name__); it.History()"
        said = subprocess.run([sys.executable, "-c", script], env={**os.environ, "GIX_REVISION_LIBRARY": "/nosuch", "PYTHONPATH": os.pathsep.join(sys.path)}, capture_output=True, text=True)
        self.assertEqual((said.returncode, said.stdout), (1, "Repository\n"))
        self.assertRegex(said.stderr, "OSError: /nosuch: .*; GIX_REVISION_LIBRARY has to be the path")


class Programs(unittest.TestCase):
    """Where the program is looked for."""

    def setUp(self) -> None:
        folder = tempfile.TemporaryDirectory()
        self.addCleanup(folder.cleanup)
        self.folder = os.path.realpath(folder.name)
        for patch in (
            mock.patch.dict(os.environ, {"GIT_PROVED": "", "PATH": f"{self.folder}/path"}),
            mock.patch.object(_repository, "__file__", f"{self.folder}/package/_repository.py"),
        ):
            patch.start()
            self.addCleanup(patch.stop)

    def put(self, place: str) -> str:
        path = f"{self.folder}/{place}/git-proved"
        os.makedirs(os.path.dirname(path))
        with open(path, "w"):
            os.chmod(path, 0o755)
        return path

    def test_places(self) -> None:
        library = f"{self.folder}/lib/libgix_revision.so.0.9"
        with self.assertRaises(FileNotFoundError):
            _program(library)
        on_path = self.put("path")
        self.assertEqual(_program(library), on_path)
        in_package = self.put("package")
        self.assertEqual(_program("libgix_revision.so.0.9"), in_package)
        in_bin = self.put("bin")
        self.assertEqual(_program(library), in_bin)
        beside = self.put("lib")
        self.assertEqual(_program(library), beside)
        os.chmod(beside, 0o644)
        self.assertEqual(_program(library), in_bin)
        with mock.patch.dict(os.environ, {"GIT_PROVED": on_path}):
            self.assertEqual(_program(library), on_path)


# A stand-in for git-proved. The answer to a revision is the revision, but for these words.
STAND_IN = r"""
import os, re, sys, time

words = os.fdopen(0, "rb", 0)
for line in iter(words.readline, b""):
    word = re.findall(rb"'([^']*)'", line)[2].decode()
    if word.startswith("late"):
        time.sleep(0.3)
    if word.startswith("never"):
        time.sleep(60)
    if word == "where":
        word = " ".join([os.getcwd(), os.environ.get("STAND_IN", "")])
    if word == "options":
        word = " ".join(sys.argv[1:])
    if word == "who":
        word = str(os.getpid())
    status = int(word) if word in ("125", "129") else 0
    if word == "loud":
        os.write(2, b"x" * 1000000)
        status = 128
    if word == "dies":
        os.write(2, b"fatal: died\n")
        os._exit(3)
    answer = b"%d %d\n%s\n\n" % (status, len(word) + 1, word.encode())
    if word == "half":
        os.write(1, answer[:6])
        time.sleep(60)
    os.write(1, answer)
"""


class Alarm(Exception):
    """What a signal handler raises."""


@contextmanager
def alarms(handler: object, seconds: float, again: float = 0) -> Iterator[None]:
    """Calls a signal handler after some seconds, and then again and again."""
    before = signal.signal(signal.SIGALRM, handler)
    signal.setitimer(signal.ITIMER_REAL, seconds, again)
    try:
        yield
    finally:
        signal.setitimer(signal.ITIMER_REAL, 0)
        signal.signal(signal.SIGALRM, before)


def raise_alarm(*_: object) -> None:
    raise Alarm


def in_fork(call: object) -> str:
    """Returns what a call returns or raises in a fork, or that it has not ended within 10 seconds."""
    read, write = os.pipe()
    child = os.fork()
    if child == 0:
        try:
            signal.alarm(10)
            said = repr(call())
        except BaseException as error:
            said = f"{type(error).__name__}: {error}"
        os.write(write, said.encode())
        os._exit(0)
    os.close(write)
    os.waitpid(child, 0)
    with os.fdopen(read) as stream:
        return stream.read() or "it has not ended"


def is_running(process: int) -> bool:
    try:
        os.kill(process, 0)
    except ProcessLookupError:
        return False
    return True


class BadEnds(unittest.TestCase):
    """No answer belongs to an earlier question, however that ended."""

    def setUp(self) -> None:
        folder = tempfile.TemporaryDirectory()
        self.addCleanup(folder.cleanup)
        self.program = f"{os.path.realpath(folder.name)}/git-proved"
        with open(self.program, "w") as file:
            file.write(f"#!{sys.executable} -ES\n{STAND_IN}")
            os.chmod(self.program, 0o755)
        self.repository = self.opened()

    def opened(self, **options: object) -> Repository:
        repository = Repository(program=self.program, **options)
        self.addCleanup(repository.close)
        return repository

    def test_signals(self) -> None:
        for word in ("late 1", "half"):
            with self.subTest(word), self.assertRaises(Alarm), alarms(raise_alarm, 0.1):
                self.repository.rev_parse(word)
            for next_word in ("late 2", "one", "two"):
                self.assertEqual(self.repository.rev_parse(next_word), next_word)

    def test_signals_at_any_time(self) -> None:
        for step in range(100):
            try:
                with alarms(raise_alarm, 1e-5 + step * 4e-6):
                    for word in map(str, range(20)):
                        self.assertEqual(self.repository.rev_parse(word), word)
            except Alarm:
                pass
            self.assertEqual(self.repository.rev_parse(f"after {step}"), f"after {step}")

    def test_handlers_that_ask(self) -> None:
        said: list[object] = []

        def ask(*_: object) -> None:
            if said:
                # The handler before still waits.
                raise Alarm
            said.append("nothing")
            for call in (lambda: self.repository.rev_parse("inner"), self.repository.close):
                try:
                    said[-1] = call()
                except RuntimeError as error:
                    said[-1] = str(error)
                said.append("nothing")

        self.assertEqual(self.repository.rev_parse("one"), "one")
        with alarms(ask, 0.1, 10):
            self.assertEqual(self.repository.rev_parse("late"), "late")
        self.assertEqual(said[:-1], 2 * ["the repository is in use by this thread"])
        self.assertEqual(self.repository.rev_parse("one"), "one")

    def test_timeouts(self) -> None:
        asked = self.opened(timeout=0.2)
        with self.assertRaisesRegex(TimeoutError, "no answer in 0.2 seconds"):
            asked.rev_parse("never")
        for word in ("never", "half"):
            # A busy machine may take longer than that to start the stand-in.
            asked.timeout = None
            process, before = int(asked.rev_parse("who")), time.monotonic()
            asked.timeout = 0.2
            with self.subTest(word), self.assertRaises(TimeoutError):
                asked.rev_parse(word)
            self.assertLess(time.monotonic() - before, 30)
            self.assertFalse(is_running(process))
        asked.timeout = None
        self.assertEqual(asked.rev_parse("late"), "late")

    def test_forks(self) -> None:
        process = int(self.repository.rev_parse("who"))
        refused = "RuntimeError: a repository cannot be used after a fork: make another one"
        self.assertEqual(in_fork(lambda: self.repository.rev_parse("child")), refused)
        self.assertEqual(in_fork(self.repository.close), "None")
        self.assertEqual(self.repository.rev_parse("who"), str(process))

        # Another thread has the lock when the process forks.
        said: list[str] = []
        thread = threading.Thread(target=lambda: said.append(self.repository.rev_parse("late")))
        thread.start()
        time.sleep(0.1)
        self.assertEqual(in_fork(self.repository.close), "None")
        self.assertEqual(in_fork(lambda: self.repository.rev_parse("child")), refused)
        thread.join()
        self.assertEqual((said, self.repository.rev_parse("who")), (["late"], str(process)))

    def test_closing_beside_a_fork(self) -> None:
        # The fork has the pipes, too, so that the program does not see the end of its input.
        process = int(self.repository.rev_parse("who"))
        child = os.fork()
        if child == 0:
            time.sleep(60)
            os._exit(0)
        try:
            with alarms(raise_alarm, 10):
                self.repository.close()
        finally:
            os.kill(child, signal.SIGKILL)
            os.waitpid(child, 0)
        self.assertFalse(is_running(process))

    def test_messages_need_no_folder(self) -> None:
        # They are also longer than a pipe.
        with mock.patch.object(tempfile, "tempdir", "/nosuch"), self.assertRaisesRegex(NotThere, "^x{1000000}$"):
            self.opened().rev_parse("loud")

    def test_statuses(self) -> None:
        for word, error in (("125", Damaged), ("129", NotSupported)):
            with self.assertRaises(error):
                self.repository.rev_parse(word)
            self.assertEqual(self.repository.rev_parse("one"), "one")

    def test_ends_of_the_program(self) -> None:
        process = self.repository.rev_parse("who")
        with self.assertRaisesRegex(Damaged, "^fatal: died$"):
            self.repository.rev_parse("dies")
        self.assertNotIn(self.repository.rev_parse("who"), (process, "dies"))

    def test_what_is_believed(self) -> None:
        for authentic, option in ((False, ""), (True, "--authentic "), ("whole", "--authentic=whole ")):
            self.assertEqual(self.opened(authentic=authentic).rev_parse("options"), f"-C . {option}batch")
        with self.assertRaisesRegex(ValueError, "^authentic is "):
            self.opened(authentic="all")

    def test_another_program_is_started_alike(self) -> None:
        here = os.getcwd()
        self.addCleanup(os.chdir, here)
        with mock.patch.dict(os.environ, {"STAND_IN": "before"}):
            asked = self.opened(timeout=0.2)
        with self.assertRaises(TimeoutError):
            asked.rev_parse("never")
        asked.timeout = None
        os.chdir("/")
        with mock.patch.dict(os.environ, {"STAND_IN": "after"}):
            self.assertEqual(asked.rev_parse("where"), f"{here} before")


@unittest.skipIf(what_is_missing(), what_is_missing())
class Repositories(unittest.TestCase):
    @classmethod
    def setUpClass(cls) -> None:
        cls.folder = tempfile.TemporaryDirectory()
        cls.addClassCleanup(cls.folder.cleanup)
        cls.ids = make(cls.folder.name)

    def setUp(self) -> None:
        self.repository = Repository(self.folder.name)
        self.addCleanup(self.repository.close)

    def names_of(self, ids: list[str]) -> list[str]:
        return [name for it in ids for name, id in self.ids.items() if id == it]

    def test_bases(self) -> None:
        asked = self.repository
        self.assertEqual(self.names_of(asked.merge_bases("one", "two")), ["theirs", "ours"])
        self.assertEqual(asked.merge_bases("one"), [])
        self.assertEqual(self.names_of(asked.octopus_bases("one", "two", b"ours")), ["ours"])
        self.assertEqual(self.names_of(asked.independent("root", "one", "two")), ["one", "two"])
        self.assertEqual((asked.is_ancestor("ours", "one"), asked.is_ancestor("one", "ours")), (True, False))
        self.assertEqual(asked.ahead_behind("one", "ours"), (2, 0))

    def test_names(self) -> None:
        asked = self.repository
        self.assertEqual(asked.rev_parse("one~1^0"), self.ids["ours"])
        self.assertEqual(asked.describe(tags=True), f"v1-3-g{self.ids['two'][:7]}")
        self.assertEqual(asked.describe("root", all=True, match=["v*"]), "tags/v1")
        self.assertEqual(asked.references("refs/tags"), [Reference("refs/tags/v1", self.ids["root"])])
        self.assertEqual(asked.contains("theirs"), ["refs/heads/one", "refs/heads/theirs", "refs/heads/two"])
        self.assertEqual(asked.merged("ours", "refs/heads"), ["refs/heads/ours", "refs/heads/root"])

    def test_lists(self) -> None:
        asked = self.repository
        self.assertEqual(self.names_of(list(asked.rev_list("one"))), ["one", "theirs", "ours", "root"])
        self.assertEqual(self.names_of(list(asked.rev_list("one", "^ours", max_count=1, skip=1))), ["theirs"])
        self.assertEqual(self.names_of(list(asked.rev_list("root..one", reverse=True, first_parent=True))), ["ours", "one"])
        self.assertEqual(self.names_of(list(asked.rev_list("one", "^ours", no_merges=True))), ["theirs"])
        self.assertEqual(asked.count("one...two"), 2)

    def test_errors(self) -> None:
        asked = self.repository
        with self.assertRaisesRegex(NotThere, "Not a valid object name nosuch"):
            asked.merge_bases("one", "nosuch")
        with self.assertRaises(NotThere):
            asked.merge_bases("nosuch")
        with self.assertRaisesRegex(NotSupported, "'one:path': this path is not supported; ask git$"):
            asked.rev_parse("one:path")
        for bad in ("", "-n1", "a\nb"):
            with self.assertRaises(ValueError):
                asked.rev_parse(bad)
        self.assertEqual(asked.rev_parse("one"), self.ids["one"])
        with self.assertRaises(TypeError):
            copy.copy(asked)
        asked.close()
        with self.assertRaises(ValueError):
            asked.rev_parse("one")
        with tempfile.TemporaryDirectory() as folder, Repository(folder) as other, self.assertRaises(NotThere):
            other.rev_parse("HEAD")

    def test_threads(self) -> None:
        right: list[str] = []

        def ask(name: str) -> None:
            for _ in range(50):
                if self.repository.rev_parse(name) == self.ids[name]:
                    right.append(name)

        threads = [threading.Thread(target=ask, args=(name,)) for name in self.ids]
        for thread in threads:
            thread.start()
        for thread in threads:
            thread.join()
        self.assertEqual(sorted(right), sorted(50 * list(self.ids)))
