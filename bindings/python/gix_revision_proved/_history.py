"""Histories, and the questions about them."""

from __future__ import annotations

import ctypes
from collections.abc import Iterable, Iterator, Sequence
from enum import IntEnum
from types import TracebackType
from typing import NamedTuple, NoReturn

from ._errors import Fault, answered
from ._library import File, Id, Ids, Owner, RawCommit, RawFault, RawHow, RawId, RawSpan, Size, Table, Text
from ._library import bytes_of, files_of, hex_of, hexes_of, many, names_of, number, one, size, text_of

# In the class History, `list` is a method.
IdList = list[str]

# Codes above this one are those of faults.
_FAULT = 100

# How many ids of a list are fetched at a time.
_PAGE = 1000


class Kind(IntEnum):
    """Kinds of sets: first, ^first, first..second, first...second, first^@, first^!"""

    INCLUDE = 0
    EXCLUDE = 1
    RANGE = 2
    MERGE = 3
    ONLY_PARENTS = 4
    WITHOUT_PARENTS = 5


class Span(NamedTuple):
    """A set of commits. The second id is read only for RANGE and MERGE."""

    kind: Kind
    first: str
    second: str


class Commit(NamedTuple):
    """A commit: its parents in git's order, its date in seconds, and its generation number, if any."""

    parents: tuple[str, ...]
    time: int
    generation: int | None


class Description(NamedTuple):
    """The description of a commit: the text, and the depth. `str` decodes the text as UTF-8."""

    text: bytes
    depth: int

    def __str__(self) -> str:
        return self.text.decode("utf-8", "surrogateescape")


class Names:
    """Names of commits, prepared once for many calls of `describe`.

    >>> names = Names([("11" * 20, "v1.0"), ("22" * 20, b"v1.1")])
    >>> len(names)
    2

    If there are several names for one commit, the first one counts. No call changes the names, so
    several histories and threads can use them.
    """

    def __init__(self, names: Iterable[tuple[Id, Text]]) -> None:
        given = list(names)
        self._table, self._length = Table(given), len(given)

    def __len__(self) -> int:
        return self._length

    def __reduce_ex__(self, protocol: object) -> NoReturn:
        raise TypeError("Names cannot be copied or pickled")


class History:
    """Commits, ref names for revisions, and what earlier queries have cached.

    Any thread may call the methods: calls wait for each other. A history cannot be copied or
    pickled.
    """

    def __init__(self) -> None:
        self._owner = Owner("new")

    @classmethod
    def open(cls, file: File) -> History:
        """Makes a history of the commits in git's commit-graph file.

        The bytes are copied. `insert` adds newer commits. Raises NoGraph, of which `graph_fault`
        says more, or NoLevels.
        """
        data = bytes_of(file)
        history = cls.__new__(cls)
        history._owner = Owner("open", data, len(data))
        return history

    @classmethod
    def open_chain(cls, files: Iterable[File]) -> History:
        """Makes a history of the commits in a split commit-graph: a chain of files.

        The lowest file is the first, as in git's file commit-graph-chain. The bytes are copied.
        `insert` adds newer commits. Raises NoGraph, also if there is no file, or NoLevels.
        """
        raw, count = files_of(files)
        history = cls.__new__(cls)
        history._owner = Owner("open_chain", raw, count)
        return history

    def close(self) -> None:
        """Frees the history. It cannot be used again."""
        self._owner.close()

    def __enter__(self) -> History:
        return self

    def __exit__(self, kind: type[BaseException] | None, error: BaseException | None, trace: TracebackType | None) -> None:
        self.close()

    def __reduce_ex__(self, protocol: object) -> NoReturn:
        raise TypeError("a History cannot be copied or pickled")

    def _call(self, name: str, *arguments: object) -> bool:
        return answered(self._owner.call(name, *arguments))

    def insert(self, id: Id, parents: Sequence[Id], time: int, generation: int | None = None) -> None:
        """Adds a commit. Its parents may be added before it, after it, or never.

        `time` is the commit date in seconds since 1970. Raises AlreadyThere.
        """
        raw, count = many(parents)
        level = number(0 if generation is None else generation, 32)
        self._call("insert", one(id), raw, count, number(time, 64, signed=True), generation is not None, level)

    def insert_object(self, id: Id, content: bytes | bytearray | memoryview) -> None:
        """Adds the commit with this content, after a check of its id.

        The content is what `git cat-file commit` prints. Raises Altered if the id is not its hash,
        Misshapen if it cannot be read as a commit, or AlreadyThere.

        >>> History().insert_object("11" * 20, b"tree ..")
        Traceback (most recent call last):
        ...
        gix_revision_proved.Altered: The id of a commit is not the hash of its content.
        """
        data = bytes(memoryview(content))
        self._call("insert_object", one(id), data, len(data))

    def __len__(self) -> int:
        """Returns the number of commits.

        Each insertion that raised MemoryError may make it too great by one, until a commit with its
        id is added.
        """
        return self._owner.call("len")

    def __bool__(self) -> bool:
        """A history is true, even without commits."""
        return True

    def __contains__(self, id: Id) -> bool:
        """Returns whether the history has this commit."""
        return self._call("commit", one(id), RawCommit(), None, 0)

    def commit(self, id: Id) -> Commit | None:
        """Returns a commit of the history, or None if the history does not have it.

        >>> history = History()
        >>> history.insert("22" * 20, ["11" * 20], 5)
        >>> history.commit("22" * 20)
        Commit(parents=('1111111111111111111111111111111111111111',), time=5, generation=None)
        >>> "11" * 20 in history, len(history)
        (False, 1)
        """
        raw, fields, room = one(id), RawCommit(), 2
        while True:
            out = (RawId * room)()
            if not self._call("commit", raw, fields, out, room):
                return None
            if fields.parents_len <= room:
                parents = tuple(hexes_of(out, fields.parents_len))
                return Commit(parents, fields.time, fields.generation if fields.has_generation else None)
            room = fields.parents_len

    def abbreviate(self, id: Id, least: int = 7) -> str:
        """Returns the first digits of `id`, like `git rev-parse --short`.

        There are as many as are needed so that no other id of a commit of the history begins with
        them, but at least `least`, and from 4 to 40.
        """
        raw = one(id)
        return hex_of(raw)[: self._owner.call("abbreviate", raw, size(least))]

    def set_partial(self, partial: bool = True) -> None:
        """Makes the history partial, or complete again.

        A partial history may have commits that were not added. A question that needs such a commit
        raises Wants. An answer is right whatever other commits the history has, but premises
        concern these, too.

        >>> from gix_revision_proved import Wants
        >>> history = History()
        >>> history.set_partial()
        >>> history.insert("22" * 20, ["11" * 20], 2)
        >>> try:
        ...     history.is_ancestor("11" * 20, "22" * 20)
        ... except Wants as wants:
        ...     history.insert(wants.id, [], 1)
        >>> history.is_ancestor("11" * 20, "22" * 20)
        True
        """
        self._owner.call("set_partial", bool(partial))

    def wanted(self) -> str | None:
        """Returns the commit that the last question that raised Wants needed.

        It is None if none did since the history was made partial, or if the history is complete.
        """
        out = RawId()
        return hex_of(out) if self._call("wanted", out) else None

    def merge_bases(self, first: Id, others: Sequence[Id]) -> IdList:
        """Returns the merge bases of `first` and a merge of `others`, like `git merge-base --all`.

        The merge of `others` is hypothetical. The results are sorted: greatest generation number
        first (a missing one counts as infinity), then latest date, then smallest id.

        Premises: acyclic, ordered generations.
        """
        raw, given = many(others)
        start, room, count = one(first), 8, Size()
        while True:
            out = (RawId * room)()
            if not self._call("merge_bases", start, raw, given, out, room, count):
                return []
            if count.value <= room:
                return hexes_of(out, count.value)
            room = count.value

    def octopus(self, first: Id, others: Sequence[Id]) -> str | None:
        """Returns the best common ancestor of all ids, like `git merge-base --octopus`.

        If there are several, it is the first in the order of `merge_bases`.

        Premises: acyclic, ordered generations.
        """
        (raw, given), out = many(others), RawId()
        return hex_of(out) if self._call("octopus", one(first), raw, given, out) else None

    def is_ancestor(self, ancestor: Id, of: Id) -> bool:
        """Returns whether `ancestor` is reachable from `of`, like `git merge-base --is-ancestor`.

        A commit is reachable from itself, but an id that is not in the history is not.

        Premises: ordered generations. Without it True is still right, but False may be wrong.
        Cycles do not matter.
        """
        return self._call("is_ancestor", one(ancestor), one(of))

    def independent(self, ids: Sequence[Id]) -> IdList:
        """Returns those of `ids` that no other one reaches, like `git merge-base --independent`.

        Each is returned once, in the order of the first places in `ids`.

        Premises: acyclic, ordered generations.
        """
        return self._some_of("independent", ids)

    def ahead_behind(self, ours: Id, theirs: Id) -> tuple[int, int]:
        """Returns how many commits only `ours` reaches, and how many only `theirs` reaches.

        This is `git rev-list --left-right --count`.

        Premises: ordered generations. Without it a count may be too great, but not too small.
        Cycles do not matter.
        """
        ahead, behind = Size(), Size()
        self._call("ahead_behind", one(ours), one(theirs), ahead, behind)
        return ahead.value, behind.value

    def newest_first(self, ids: Sequence[Id]) -> IdList:
        """Returns those of `ids` that the history has, each once, in the order of `merge_bases`."""
        return self._some_of("newest_first", ids)

    def _some_of(self, call: str, ids: Sequence[Id]) -> IdList:
        """Returns the ids that a function picks from `ids`."""
        raw, given = many(ids)
        out, count = (RawId * max(1, given))(), Size()
        self._call(call, raw, given, out, given, count)
        return hexes_of(out, count.value)

    def missing(self, page: int | None = None) -> Iterator[str]:
        """Returns an iterator over the missing parents in rising order.

        A missing parent is an id that a commit of the history has as a parent, and that is not in
        the history. They are those of the moment when the first one is asked for, and are fetched
        `page` at a time, or 1000. Raises ValueError if `page` is less than 1.
        """
        return self._ids(_length(page), "missing_all")

    def describe(
        self,
        commit: Id,
        names: Names | Iterable[tuple[Id, Text]],
        *,
        candidates: int = 10,
        digits: int = 7,
        first_parent: bool = False,
        always: bool = False,
        long: bool = False,
        git_order: bool = False,
    ) -> Description | None:
        """Describes `commit` by its own name or by that of an ancestor, like `git describe`.

        The text is NAME-DEPTH-gHEX, or the name alone at depth 0 unless `long` is set. If no name
        is found, the result is the digits alone with `always`, otherwise None. With `digits=0` it is
        the name alone, or all digits. If `names` has several names for one commit, the first one
        counts. For many calls, pass Names.

        A commit with a name of its own has depth 0. Otherwise the depth is at least the number of
        commits that `commit` reaches and the named commit does not. With older parents, and if at
        most `candidates` and at most 32 ancestors have names, it is the least such number of all
        named ancestors.

        With `git_order` equally near names are chosen as in git: of commits with the same date the
        one that was met first is visited first, and the name that was visited first is taken.
        Otherwise the smaller id and the smaller name come first.

        Raises NoCommit or TooMany.
        """
        flags = bool(first_parent), bool(always), bool(long), bool(git_order)
        how = RawHow(ctypes.sizeof(RawHow), size(candidates), size(digits), *flags)
        start, room, length, depth = one(commit), 64, Size(), ctypes.c_uint32()
        array, texts = (None, ()) if isinstance(names, Names) else names_of(names)
        while True:
            out = ctypes.create_string_buffer(room)
            rest = how, out, room, length, depth
            if isinstance(names, Names):
                code = names._table.describe(self._owner, start, *rest)
            else:
                code = self._owner.call("describe", start, array, len(texts), *rest)
            if not answered(code):
                return None
            if length.value <= room:
                return Description(out.raw[: length.value], depth.value)
            room = length.value

    def name(self, name: Text, id: Id) -> None:
        """Gives a ref name, such as HEAD or main, to an id, for revisions.

        A revision finds only names that were given, letter for letter: refs/heads/main is not found
        as main unless main was given, too. If the name was given before, it now stands for the new
        id.
        """
        text = text_of(name)
        self._call("name", text, len(text), one(id))

    def unname(self, name: Text) -> bool:
        """Takes a ref name back. Returns whether there was such a name."""
        text = text_of(name)
        return self._call("unname", text, len(text))

    def resolve(self, text: Text, seconds: int = 0, offset: int = 0) -> Span:
        """Resolves a revision such as main~2..topic to a set of commits.

        An abbreviated id wins over a ref name. Relative dates count back from `seconds` since 1970;
        `offset` is the UTC offset in seconds. Raises Fault.
        """
        return self._span("resolve", text, seconds, offset)

    def rev_parse(self, text: Text, seconds: int = 0, offset: int = 0) -> Span:
        """Resolves like `resolve`, but a ref name wins over an abbreviated id, as in git.

        Raises Fault.
        """
        return self._span("rev_parse", text, seconds, offset)

    def _span(self, call: str, text: Text, seconds: int, offset: int) -> Span:
        raw, span, fault = text_of(text), RawSpan(), RawFault()
        moment = number(seconds, 64, signed=True), number(offset, 32, signed=True)
        code = self._owner.call(call, raw, len(raw), *moment, span, fault)
        if code > _FAULT:
            raise Fault(fault.number, fault.start, fault.length)
        answered(code)
        return Span(Kind(span.kind), hex_of(span.first), hex_of(span.second))

    def list(self, span: Span, page: int | None = None) -> Iterator[str]:
        """Returns an iterator over the commits of a set in rising order of their ids.

        They are those of the moment when the first one is asked for, and are fetched `page` at a
        time, or 1000. The call raises ValueError if `page` is less than 1. The first step of the
        iterator raises NoKind, or Wants in a partial history.
        """
        return self._ids(_length(page), "list_all", _raw(span))

    def count(self, span: Span) -> int:
        """Returns the number of commits of a set, like `git rev-list --count`. Raises NoKind."""
        return self._count(_raw(span))

    def _count(self, raw: RawSpan) -> int:
        count = Size()
        self._call("count", raw, count)
        return count.value

    def _ids(self, page: int | None, make: str, *arguments: object) -> Iterator[str]:
        """Yields the ids of a list that a function makes."""
        ids, place = Ids(self._owner, make, *arguments), 0
        while place < len(ids):
            found = ids.read(place, page or _PAGE)
            yield from found
            place += len(found)


def _length(page: int | None) -> int | None:
    """Returns the length of a page if one is given. Raises ValueError if it is less than 1."""
    if page is not None and page < 1:
        raise ValueError(f"a page has at least one id, not {page}")
    return None if page is None else size(page)


def _raw(span: Span) -> RawSpan:
    kind, first, second = span
    return RawSpan(number(kind, 32), one(first), one(second))
