"""Merge bases, commit descriptions and revisions of git: a proved library, called by ctypes.

A History has commits: those of git's commit-graph file, commits that the program adds, or both. Its
methods answer questions about it. Each calls a function of gix_revision.h, whose contract is
proved; docs/PROMISES.md lists the promises.

>>> from gix_revision_proved import History
>>> root, ours, theirs = "11" * 20, "22" * 20, "33" * 20
>>> history = History()
>>> history.insert(root, [], time=1)
>>> history.insert(ours, [root], time=2)
>>> history.insert(theirs, [root], time=3)
>>> history.merge_bases(ours, [theirs]) == [root]
True
>>> history.describe(ours, [(root, "v1.0")])
Description(text=b'v1.0-1-g2222222', depth=1)

Ref names are entries that the program gives. A revision then means a set of commits:

>>> history.name("main", theirs)
>>> span = history.rev_parse("main~1..main")
>>> list(history.list(span)) == [theirs]
True
>>> history.rev_parse("main~2")
Traceback (most recent call last):
...
gix_revision_proved.Fault: the revision has fault 24 at byte 5: a step leads to no parent, or starts at no commit

A Repository is one on disk. It asks the program `git-proved`, which reads it:

    with Repository("/path") as repository:
        repository.merge_bases("main", "topic")

An id is passed as its 20 bytes or its 40 hex digits, and returned as hex digits. A name or a
revision is passed as bytes, or as a str that is encoded as UTF-8. A list of ids may be any
sequence. Integers that the library cannot take raise OverflowError, and every call can raise
MemoryError. A question about a partial history (`History.set_partial`) can raise Wants, too.

Any thread may use a history: its calls wait for each other. The environment variable
GIX_REVISION_LIBRARY has the path of libgix_revision.so. Without it the library beside this package
is used, as in an installed wheel, or else the one that the system finds. If there is none, only
Repository can be used, and a History raises OSError.

Premises: some answers are promised only for a history with these properties. They concern only the
commits that the arguments of the call can reach. Without them a call is still safe. A method that
names no premise has none.

    acyclic              No chain of parents leads from a commit back to it.
    ordered generations  No parent has a greater generation number than its child. A missing number
                         counts as infinity.
    older parents        Each parent is strictly older than its child.

The commits of an opened commit-graph file, or of an opened chain of such files, are acyclic and
have ordered generations. The history stays acyclic if the commits that are added later form no
cycle. Its generations stay ordered if these commits have no generation number.
"""

from ._errors import AlreadyThere, Altered, Damaged, Fault, Misshapen, NoCommit, NoGraph, NoKind, NoLevels, NotSupported, NotThere
from ._errors import Refused, TooMany, UnknownCode, Wants
from ._history import Commit, Description, History, Kind, Names, Span
from ._library import File, Id, Text, graph_fault, library_version
from ._repository import Reference, Repository

__version__ = "0.9.0"

__all__ = [
    "AlreadyThere",
    "Altered",
    "Commit",
    "Damaged",
    "Description",
    "Fault",
    "File",
    "History",
    "Id",
    "Kind",
    "Misshapen",
    "Names",
    "NoCommit",
    "NoGraph",
    "NoKind",
    "NoLevels",
    "NotSupported",
    "NotThere",
    "Reference",
    "Refused",
    "Repository",
    "Span",
    "Text",
    "TooMany",
    "UnknownCode",
    "Wants",
    "graph_fault",
    "library_version",
]

# The names belong to this package, wherever they are written.
for _it in __all__:
    if isinstance(globals()[_it], type):
        globals()[_it].__module__ = __name__
del _it
