"""Repositories on disk, asked through the program `git-proved`."""

from __future__ import annotations

import os
import select
import shutil
import subprocess
import threading
import time
import weakref
from collections.abc import Iterable, Iterator
from types import TracebackType
from typing import Literal, NamedTuple, NoReturn

from ._errors import Damaged, refusal_of
from ._library import PATH, Text

# In the class Repository, `list` could be taken for a method.
TextList = list[str]

# How many bytes are read at a time, and how many the first line of an answer has at most.
_PART, _HEAD = 1 << 16, 64


class Reference(NamedTuple):
    """A reference: its full name, and the id of its object."""

    name: str
    id: str


class _Answer(NamedTuple):
    status: int
    output: bytes
    message: str


def _program(library: str = PATH) -> str:
    """Returns the path of git-proved: GIT_PROVED, or beside the library, or on the path.

    In a wheel both are in the folder of this package. `make install` and the tarball put the program
    into the folder `bin` beside that of the library.
    """
    named = os.environ.get("GIT_PROVED")
    if named:
        return named
    folders = [os.path.dirname(os.path.abspath(__file__))]
    if os.path.dirname(library):
        folder = os.path.dirname(os.path.abspath(library))
        folders = [folder, os.path.join(os.path.dirname(folder), "bin"), *folders]
    places = [*(os.path.join(it, "git-proved") for it in folders), "git-proved"]
    found = next(filter(None, map(shutil.which, places)), None)
    if found is None:
        raise FileNotFoundError("git-proved is neither beside the library nor on the path, and GIT_PROVED does not name it")
    return found


def _mode(authentic: bool | Literal["whole"]) -> list[str]:
    """Returns the options for what is believed."""
    modes: dict[object, list[str]] = {False: [], True: ["--authentic"], "whole": ["--authentic=whole"]}
    if authentic not in modes:
        raise ValueError("authentic is True, False or 'whole'")
    return modes[authentic]


def _bytes_of(word: Text) -> bytes:
    return os.fsencode(word) if isinstance(word, str) else bytes(word)


def _quoted(word: Text) -> bytes:
    """Returns a word in quotes, as it stands on a line of a batch."""
    text = _bytes_of(word)
    if b"\n" in text or b"\0" in text:
        raise ValueError("a line feed or a zero byte is in no revision and in no name")
    return b"'" + text.replace(b"'", b"'\\''") + b"'"


def _revision(text: Text) -> Text:
    """Returns a revision. One that begins with a dash would be an option."""
    if _bytes_of(text)[:1] in (b"", b"-"):
        raise ValueError("a revision is not empty, and does not begin with a dash")
    return text


def _revisions(texts: Iterable[Text]) -> list[Text]:
    return [_revision(it) for it in texts]


def _lines(output: bytes) -> TextList:
    """Returns the lines of an output, as text. Bytes that are not UTF-8 become surrogates."""
    return [os.fsdecode(it) for it in output.split(b"\n")[:-1]]


def _read(stream: int, into: bytearray) -> bool:
    """Adds the bytes that can be read now. Returns False at the end of the stream."""
    try:
        while part := os.read(stream, _PART):
            into += part
    except BlockingIOError:
        return True
    return False


def _write(stream: int, text: memoryview) -> memoryview:
    """Writes the bytes that can be written now, and returns the others."""
    try:
        return text[os.write(stream, text) :]
    except BlockingIOError:
        return text
    except BrokenPipeError:
        # The program has ended. The end of its output says so, too.
        return text[:0]


def _answer_in(output: bytearray) -> tuple[int, bytes] | None:
    """Returns the status and the output of an answer, or None if a part of it is missing."""
    end = output.find(b"\n", 0, _HEAD)
    words = bytes(output[: max(end, 0)]).split()
    if end < 0 and len(output) < _HEAD:
        return None
    if len(words) != 2 or not all(it.isdigit() for it in words):
        raise Damaged("git-proved printed what is no answer")
    size = end + 1 + int(words[1]) + 1
    if len(output) > size:
        raise Damaged("git-proved printed more than an answer")
    return (int(words[0]), bytes(output[end + 1 : -1])) if len(output) == size else None


def _message(errors: bytearray) -> str:
    return os.fsdecode(bytes(errors)).rstrip("\n")


def _left(until: float | None) -> float | None:
    """Returns the seconds that are left until a time."""
    return None if until is None else max(0.0, until - time.monotonic())


def _end(process: subprocess.Popen[bytes], owner: int) -> None:
    """Ends a program that this process has started. A fork of the process only closes the pipes.

    The program is killed, which does no harm, as it writes no file. It would wait for the end of
    its input as long as a fork keeps the pipe open.
    """
    for stream in (process.stdin, process.stdout, process.stderr):
        if stream is not None:
            stream.close()
    if os.getpid() == owner:
        process.kill()
        process.wait()
    else:
        # So that Popen does not look for a child that the fork does not have.
        process.returncode = 0


class _Program:
    """A running `git-proved batch`. It ends by `end`, or when nothing refers to it any more.

    After an error it must not be asked again, since the answer to the last question may still come.
    """

    def __init__(self, words: list[str | bytes], folder: str | None, environment: dict[str, str]) -> None:
        pipe = subprocess.PIPE
        # Nothing is buffered here, so a fork has nothing to write a second time.
        self._process = subprocess.Popen(words, bufsize=0, stdin=pipe, stdout=pipe, stderr=pipe, cwd=folder, env=environment)
        self.end = weakref.finalize(self, _end, self._process, os.getpid())
        streams = (self._process.stdin, self._process.stdout, self._process.stderr)
        self._input, self._output, self._errors = (it.fileno() for it in streams if it is not None)
        for stream in (self._input, self._output, self._errors):
            os.set_blocking(stream, False)

    def ask(self, line: bytes, seconds: float | None) -> _Answer:
        """Writes a question, and returns its answer. Raises TimeoutError after so many seconds.

        Standard error is read meanwhile, so that the program need not wait for that.
        """
        until = None if seconds is None else time.monotonic() + seconds
        question, output, errors = memoryview(line), bytearray(), bytearray()
        streams = select.poll()
        streams.register(self._input, select.POLLOUT)
        streams.register(self._output, select.POLLIN)
        streams.register(self._errors, select.POLLIN)
        while (answer := _answer_in(output)) is None:
            left = _left(until)
            ready = streams.poll(None if left is None else 1000 * left)
            if not ready:
                raise TimeoutError(f"git-proved gave no answer in {seconds} seconds")
            for stream, _ in ready:
                if stream == self._input:
                    question = _write(stream, question)
                    if not question:
                        streams.unregister(stream)
                elif not _read(stream, output if stream == self._output else errors):
                    streams.unregister(stream)
                    if stream == self._output and _answer_in(output) is None:
                        raise self._ended(errors, _left(until))
        # The program writes messages before the answer. So all of them are there.
        _read(self._errors, errors)
        return _Answer(*answer, _message(errors))

    def _ended(self, errors: bytearray, seconds: float | None) -> Exception:
        """Returns the error for a program whose output has ended before the answer."""
        _read(self._errors, errors)
        try:
            status = self._process.wait(seconds)
        except subprocess.TimeoutExpired:
            return TimeoutError("git-proved closed its output, and did not end in time")
        return refusal_of(status)(_message(errors) or f"git-proved ended with status {status}")


def _folder() -> str | None:
    """Returns the current folder, or None if it is gone."""
    try:
        return os.getcwd()
    except FileNotFoundError:
        return None


class Repository:
    """A repository on disk.

    It starts `git-proved batch` and asks it one question after another, which share what was read.
    Each answer is that of a proved call over the commits that were read.

    `path` is a folder of the work tree, or a bare repository: the one that git would find from
    there. `program` is the path of git-proved. Without it the environment variable GIT_PROVED is
    taken, then the program beside the library, then the one on the path. If `authentic` is True,
    commits are read only from objects whose SHA-1 is their id. If it is "whole", each question also
    first reads all commits that those of the question reach.

    A revision is what git reads as one (gitrevisions), as bytes or as a str. Ids are returned as
    hex digits, and names of references as str; a byte that is not UTF-8 becomes a surrogate.

    Any thread may use a repository: its calls wait for each other. `close`, or the end of a `with`
    block, ends the program.

    If a question ends without an answer, its program is ended as well. This is so after a signal
    handler has raised an exception, as at Ctrl-C, and after a timeout. The next question starts
    another program in the same folder and environment. So no answer belongs to an earlier question.

    After a fork, only the process that has made the repository can use it. Elsewhere `close` leaves
    the program alone.

    `timeout` is the number of seconds that a question may take, from when the program is asked. It
    is an attribute, too, which can be changed between questions.

    Every call can raise these errors:

    - NotThere: git would end with status 128, for example because a revision names nothing.
    - NotSupported: the program does not support the question. git may answer it.
    - Damaged: something is damaged or has changed, or the program failed. Do not simply ask git
      then: it may answer from what is damaged.
    - TimeoutError: there was no answer within `timeout` seconds.
    - ValueError: an argument cannot be a revision, or the repository is closed.
    - RuntimeError: a signal handler asks during a question of the same thread, or this process is a
      fork.
    - OSError: another program had to be started, and did not start.

    The constructor raises OSError if the program is not found, or does not start, and ValueError if
    `authentic` is something else.
    """

    def __init__(
        self,
        path: Text | os.PathLike[str] = ".",
        *,
        program: str | None = None,
        authentic: bool | Literal["whole"] = False,
        timeout: float | None = None,
    ) -> None:
        self.timeout = timeout
        self._words = [program or _program(), "-C", os.fspath(path), *_mode(authentic), "batch"]
        # What is relative keeps its meaning if another program is started later.
        self._folder, self._environment = _folder(), dict(os.environ)
        self._lock, self._is_busy, self._is_closed, self._owner = threading.RLock(), False, False, os.getpid()
        self._program: _Program | None = self._start()

    def __enter__(self) -> Repository:
        return self

    def __exit__(self, kind: type[BaseException] | None, error: BaseException | None, at: TracebackType | None) -> None:
        self.close()

    def __reduce_ex__(self, protocol: object) -> NoReturn:
        raise TypeError("a Repository cannot be copied or pickled")

    def close(self) -> None:
        """Ends the program. Later calls raise ValueError."""
        if os.getpid() != self._owner:
            # Another thread may have held the lock at the fork. Nobody would release it here.
            self._end()
            return
        with self._lock:
            if self._is_busy:
                raise RuntimeError("the repository is in use by this thread")
            self._is_closed = True
            self._end()

    def _start(self) -> _Program:
        return _Program(self._words, self._folder, self._environment)

    def _end(self) -> None:
        program, self._program = self._program, None
        if program is not None:
            program.end()

    def _ask(self, *words: Text) -> _Answer:
        """Asks a question, and returns the answer if its status is 0 or 1."""
        line = b" ".join(map(_quoted, words)) + b"\n"
        if os.getpid() != self._owner:
            raise RuntimeError("a repository cannot be used after a fork: make another one")
        with self._lock:
            if self._is_busy:
                raise RuntimeError("the repository is in use by this thread")
            try:
                self._is_busy = True
                answer = self._exchange(line)
            finally:
                self._is_busy = False
        if answer.status in (0, 1):
            return answer
        refusal = refusal_of(answer.status)
        raise refusal(answer.message or refusal.__doc__)

    def _exchange(self, line: bytes) -> _Answer:
        """Asks the program. It is put back only after an answer, however the question ends."""
        if self._is_closed:
            raise ValueError("the repository is closed")
        program, self._program = self._program or self._start(), None
        try:
            answer = program.ask(line, self.timeout)
        except BaseException:
            program.end()
            raise
        self._program = program
        return answer

    def rev_parse(self, revision: Text) -> str:
        """Returns the id of the object that a revision names, like `git rev-parse --verify`."""
        return _lines(self._ask("rev-parse", "--verify", _revision(revision)).output)[0]

    def merge_bases(self, first: Text, *others: Text) -> TextList:
        """Returns the merge bases of `first` and a merge of the others, like `git merge-base --all`.

        The newest comes first. The list is empty if there is none, and if there are no others.
        """
        if not others:
            self.rev_parse(_bytes_of(_revision(first)) + b"^{commit}")
            return []
        return _lines(self._ask("merge-base", "--all", *_revisions([first, *others])).output)

    def octopus_bases(self, *revisions: Text) -> TextList:
        """Returns the best common ancestors of all, like `git merge-base --octopus --all`."""
        return _lines(self._ask("merge-base", "--octopus", "--all", *_revisions(revisions)).output)

    def independent(self, *revisions: Text) -> TextList:
        """Returns those that no other one reaches, like `git merge-base --independent`."""
        return _lines(self._ask("merge-base", "--independent", *_revisions(revisions)).output)

    def is_ancestor(self, ancestor: Text, of: Text) -> bool:
        """Returns whether `of` reaches `ancestor`, like `git merge-base --is-ancestor`."""
        return self._ask("merge-base", "--is-ancestor", *_revisions([ancestor, of])).status == 0

    def ahead_behind(self, ours: Text, theirs: Text) -> tuple[int, int]:
        """Returns how many commits only `ours` reaches, and how many only `theirs`."""
        both = b"...".join(_bytes_of(_revision(it)) for it in (ours, theirs))
        counts = self._ask("rev-list", "--left-right", "--count", both, "--").output.split()
        return int(counts[0]), int(counts[1])

    def describe(
        self,
        revision: Text = "HEAD",
        *,
        all: bool = False,
        tags: bool = False,
        long: bool = False,
        always: bool = False,
        first_parent: bool = False,
        abbrev: int | None = None,
        candidates: int | None = None,
        match: Iterable[Text] = (),
        exclude: Iterable[Text] = (),
    ) -> str:
        """Returns the description of a commit, like `git describe` with these options."""
        words: list[Text] = ["describe"]
        flags = {"--all": all, "--tags": tags, "--long": long, "--always": always, "--first-parent": first_parent}
        words += [it for it, is_set in flags.items() if is_set]
        numbers = {"--abbrev": abbrev, "--candidates": candidates}
        words += [f"{it}={number}" for it, number in numbers.items() if number is not None]
        words += [b"--match=" + _bytes_of(it) for it in match]
        words += [b"--exclude=" + _bytes_of(it) for it in exclude]
        return _lines(self._ask(*words, _revision(revision)).output)[0]

    def rev_list(
        self,
        *revisions: Text,
        max_count: int | None = None,
        skip: int = 0,
        first_parent: bool = False,
        no_merges: bool = False,
        reverse: bool = False,
    ) -> Iterator[str]:
        """Iterates over the commits of revisions and ranges, like `git rev-list`.

        The question is asked at the first step, and whole: without `max_count` all ids are held.
        """
        words: list[Text] = ["rev-list", f"--skip={skip}"]
        if max_count is not None:
            words.append(f"--max-count={max_count}")
        flags = {"--first-parent": first_parent, "--no-merges": no_merges, "--reverse": reverse}
        words += [it for it, is_set in flags.items() if is_set]
        yield from _lines(self._ask(*words, *_revisions(revisions), "--").output)

    def count(self, *revisions: Text) -> int:
        """Returns the number of commits of revisions and ranges, like `git rev-list --count`."""
        return int(self._ask("rev-list", "--count", *_revisions(revisions), "--").output)

    def references(self, *patterns: Text) -> list[Reference]:
        """Returns the references, or those that a pattern matches, like `git for-each-ref`."""
        words = ["for-each-ref", "--format=%(objectname) %(refname)", "--", *patterns]
        return [Reference(it[41:], it[:40]) for it in _lines(self._ask(*words).output)]

    def contains(self, commit: Text, *patterns: Text) -> TextList:
        """Returns the names of the references that reach a commit, like `git for-each-ref --contains`."""
        contains = b"--contains=" + _bytes_of(_revision(commit))
        return _lines(self._ask("for-each-ref", contains, "--format=%(refname)", "--", *patterns).output)

    def merged(self, commit: Text, *patterns: Text) -> TextList:
        """Returns the names of the references that a commit reaches, like `git for-each-ref --merged`."""
        merged = b"--merged=" + _bytes_of(_revision(commit))
        return _lines(self._ask("for-each-ref", merged, "--format=%(refname)", "--", *patterns).output)
