"""What a call raises if it fails."""

from __future__ import annotations


class Refused(Exception):
    """A call failed. The history keeps its commits and can be used again."""


class AlreadyThere(Refused):
    """The history has a commit with this id, and keeps it."""


class NoCommit(Refused):
    """The history does not have the commit."""


class TooMany(Refused):
    """2^32 commits or more are reachable."""


class NoKind(Refused):
    """The kind of a set is not one of the six."""


class NoGraph(Refused):
    """The bytes are not a commit-graph file that can be opened, or the files are not a chain."""


class NoLevels(Refused):
    """A commit of the files has no level, or a level that is not greater than its parents'."""


class Altered(Refused):
    """The id of a commit is not the hash of its content."""


class Misshapen(Refused):
    """The content is not a commit that can be read."""


class Wants(Refused):
    """The answer needs a commit that was not added: the one with the id `id`."""

    def __init__(self, id: str) -> None:
        super().__init__(id)
        self.id = id

    def __str__(self) -> str:
        return f"the answer needs the commit {self.id}, which was not added"


# What the faults mean, in the order of their numbers.
_FAULTS = (
    "a second operator, or an operator without a revision",
    "HEAD is meant, and there is no ref HEAD",
    "a range after '^'",
    "text is left over",
    "the text names no revision",
    "the text names no revision, and ends with '^!', '^@' or '^-'",
    "':' alone",
    "':/' alone",
    "'/!' is followed neither by '-' nor by '!'",
    "a commit by its message is not supported",
    "an entry of the index is not supported",
    "no ref or commit has this name, or several commits have it",
    "'@' after a name, without '{'",
    "a brace is never closed",
    "a minus sign before zeros",
    "a negative number in braces after a name",
    "an entry of a reflog after an abbreviated id",
    "an upstream after an abbreviated id",
    "the text in the braces is not a date",
    "reflogs, earlier branches and upstreams are not supported",
    "'~' at the start",
    "a sign in the wrong place",
    "not a number, or too large a number",
    "a step leads to no parent, or starts at no commit",
    "the commit is missing, or not what '^{..}' or ':' asks for",
    "an unknown word in '^{..}'",
    "what '^-' repeats was refused",
)


class Fault(Refused):
    """The revision has a fault, with a number from 1 to 27.

    The part of the text that it names begins at the byte `start` and has `length` bytes. If the
    text has these bytes at several places, `start` is the last one.
    """

    def __init__(self, number: int, start: int, length: int) -> None:
        super().__init__(number, start, length)
        self.number = number
        self.start = start
        self.length = length

    def __str__(self) -> str:
        place = f" at byte {self.start}" if self.length else ""
        meaning = _FAULTS[self.number - 1] if 1 <= self.number <= len(_FAULTS) else "unknown to this package"
        return f"the revision has fault {self.number}{place}: {meaning}"


class NotThere(Refused):
    """git would end with status 128, for example because a revision names nothing."""


class NotSupported(Refused):
    """The program git-proved does not support the question. git may answer it."""


class Damaged(Refused):
    """Something is damaged or has changed, or the program git-proved has failed."""


# What the statuses of git-proved mean. Every other status is a failure.
_STATUSES = {128: NotThere, 129: NotSupported}


def refusal_of(status: int) -> type[Refused]:
    """Returns the error that a status of git-proved means."""
    return _STATUSES.get(status, Damaged)


class UnknownCode(Refused):
    """The library returned a code that this package does not know, as a later library may."""

    def __init__(self, code: int) -> None:
        super().__init__(code)
        self.code = code

    def __str__(self) -> str:
        return f"the library returned the unknown code {self.code}"


_OK, _NONE, _OUT_OF_MEMORY = 0, 1, -1
_REFUSALS = {
    -2: AlreadyThere,
    -4: NoCommit,
    -5: TooMany,
    -6: NoKind,
    -7: NoGraph,
    -8: NoLevels,
    -9: Altered,
    -10: Misshapen,
}

# The code of Wants.
WANTS = -12


def answered(code: int) -> bool:
    """Returns whether the code is GIX_OK and not GIX_NONE, or raises the error that it means."""
    if code in (_OK, _NONE):
        return code == _OK
    if code == _OUT_OF_MEMORY:
        raise MemoryError
    refusal = _REFUSALS.get(code)
    if refusal is None:
        raise UnknownCode(code)
    raise refusal(refusal.__doc__)
