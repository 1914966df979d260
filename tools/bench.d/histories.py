"""The histories that tools/bench makes. A commit is its number, its time and its parents, which come before it."""

from __future__ import annotations

from collections.abc import Iterator

Commit = tuple[int, int, list[int]]


def linear(n: int) -> list[Commit]:
    """A chain."""
    return [(c, 10 * c, [c - 1] if c > 1 else []) for c in range(1, n + 1)]


def ladder(n: int) -> list[Commit]:
    """Two rails. Each commit merges the two commits below it."""
    rungs = [(c, 10 * ((c + 1) // 2), [c - 2, c - 1 if c % 2 else c - 3]) for c in range(3, n + 1)]
    return [(1, 10, []), (2, 10, []), *rungs]


def wide(n: int, shift: int = 0) -> list[Commit]:
    """A hundred branches from one root. Every tenth commit merges another branch, and the clock of every seventh is far
    behind. Only ten branches merge others, so most branches never meet again."""
    found = []
    for c in range(1, n + 1):
        parents = [] if c == 1 else [c - 100 if c > 101 else 1]
        if c > 201 and (c + shift * (c // 100)) % 10 == 0:
            parents.append(c - 101 - c * 7919 % 98)
        found.append((c, 10 * c - (500 if c % 7 == 0 else 0), parents))
    return found


def woven(n: int) -> list[Commit]:
    """The same, but the tenth commit of every branch merges another branch."""
    return wide(n, 1)


def fan(n: int) -> list[Commit]:
    """An old root, then a commit with all others as parents, and two children of it. One child also has the old root as
    a parent: until the walk meets that root, it holds all the other parents."""
    leaves = [(c, c, []) for c in range(2, n - 2)]
    return [(1, 0, []), *leaves, (n - 2, n, list(range(2, n - 2))), (n - 1, n + 1, [n - 2, 1]), (n, n + 1, [n - 2])]


def backwards(n: int) -> list[Commit]:
    """The ladder, but each commit is older than its parents."""
    return [(c, 10 * (n - c), parents) for c, _, parents in ladder(n)]


def at_once(n: int) -> list[Commit]:
    """The wide history with a single time for all commits."""
    return [(c, 10, parents) for c, _, parents in wide(n)]


SHAPES = {it.__name__: it for it in (linear, ladder, wide, woven, fan, backwards, at_once)}


def made_id(number: int) -> str:
    return f"{number:040x}"


def _line(number: int, time: int, parents: list[int], generation: object = "-") -> str:
    return " ".join(("commit", made_id(number), str(time), str(generation), *map(made_id, parents)))


def _chain(n: int, time) -> list[str]:
    return [_line(c, time(c), [c - 1] if c > 1 else []) for c in range(1, n + 1)]


def _asked(word: str, numbers) -> str:
    return " ".join((word, *map(made_id, numbers)))


def _merges(n: int, word: str, number: int, parents: list[int], generation: object = "-") -> list[str]:
    """Some commits above all others, which have the same parents, and a question about them."""
    tops = range(10 * n, 10 * n + number)
    return [*(_line(it, it, parents, generation) for it in tops), _asked(word, tops)]


def hostile(shape: str, n: int) -> list[str]:
    """The lines of a history that is made to be slow, with so many commits or questions, and the questions."""
    all_of = range(1, n + 1)
    if shape == "bases in a chain":
        # A root that is not on the chain is the second base.
        return [*_chain(n, lambda c: n - c), _line(n + 1, 0, []), *_merges(n, "base", 2, list(range(1, n + 2)))]
    if shape == "bases in pairs":
        pairs = [line for c in all_of for line in (_line(2 * c - 1, c, [], 1), _line(2 * c, c, [2 * c - 1], 1))]
        return [*pairs, *_merges(n, "base", 2, list(range(1, 2 * n + 1)), 2)]
    if shape == "octopus over many bases":
        heads = range(2 * n + 1, 3 * n + 1)
        above = [_line(c, 3 * n, [2 * n]) for c in heads]
        return [*_chain(2 * n, lambda c: c), *above, *_merges(n, "octopus", 3, list(heads))]
    if shape == "octopus of one head again and again":
        return [*_chain(5 * n, lambda c: c), _asked("octopus", [1, *[5 * n] * n])]
    if shape == "octopus of a chain, the root first":
        return [*_chain(n, lambda c: c), _asked("octopus", all_of)]
    if shape == "descriptions that are refused":
        return [*(f"name {made_id(c)} v{c}" for c in all_of), *(f"describe {made_id(n + c)}" for c in all_of)]
    if shape == "a chain whose times fall":
        return [*_chain(n, lambda c: n - c), _asked("base", (n, 1))]
    if shape == "a ladder at one time":
        rungs = [_line(c, 0, [c - 2, c - 1 if c % 2 else c - 3] if c > 2 else []) for c in all_of]
        return [*rungs, _asked("base", (n, n - 1))]
    if shape == "a star":
        return [*(_line(c, c, [1] if c > 1 else []) for c in all_of), _asked("base", range(n, 1, -1))]
    if shape == "octopus of a comb, the lowest tooth first":
        teeth = [line for c in all_of for line in (_line(c, c, [c - 1] if c > 1 else []), _line(n + c, n + c, [c]))]
        return [*teeth, _asked("octopus", range(n + 1, 2 * n + 1))]
    if shape == "octopus of heads over two hubs":
        hubs = [_line(10 * n + c, 10 * n + c, list(all_of)) for c in (0, 1)]
        heads = [_line(n + c, 20 * n, [10 * n + c % 2]) for c in all_of]
        return [*(_line(c, c, []) for c in all_of), *hubs, *heads, _asked("octopus", range(n + 1, 2 * n + 1))]
    assert shape == "one commit asked again and again"
    return [_line(1, 1, []), *[_asked("base", (1, 1))] * n]


# Each with its first size, and the status with which revtool ends.
HOSTILE = (
    ("bases in a chain", 50000, 0),
    ("bases in pairs", 20000, 0),
    ("octopus over many bases", 5000, 0),
    ("octopus of one head again and again", 4000, 0),
    ("octopus of a chain, the root first", 10000, 0),
    ("descriptions that are refused", 10000, 1),
    ("a chain whose times fall", 100000, 0),
    ("a ladder at one time", 100000, 0),
    ("a star", 100000, 0),
    ("octopus of a comb, the lowest tooth first", 50000, 0),
    ("octopus of heads over two hubs", 500, 0),
    ("one commit asked again and again", 100000, 0),
)


def fast_import(history: list[Commit], last: int) -> Iterator[str]:
    """The history for git fast-import, with a tag for every 400th commit up to a number."""
    for at, (number, time, parents) in enumerate(history, 1):
        yield f"commit refs/heads/b{at % 200}\nmark :{number}\ncommitter a <a@example.org> {1_000_000_000 + time} +0000\n"
        yield f"data {len(str(number))}\n{number}\n"
        yield from (f"{'merge' if k else 'from'} :{parent}\n" for k, parent in enumerate(parents))
        yield "\n" if parents else "deleteall\n\n"
        if number % 400 == 0 and number <= last:
            yield f"reset refs/tags/v{number}\nfrom :{number}\n\n"


def commit_lines(history: list[Commit], ids: list[str], has_levels: bool) -> Iterator[str]:
    """The lines that revtool reads, with topological levels as generation numbers or without."""
    levels = [0] * (len(ids) + 1)
    for number, time, parents in history:
        levels[number] = 1 + max((levels[it] for it in parents), default=0)
        generation = str(levels[number]) if has_levels else "-"
        yield " ".join(("commit", ids[number - 1], str(time), generation, *(ids[it - 1] for it in parents))) + "\n"
