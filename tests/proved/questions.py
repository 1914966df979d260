"""Makes the commands that `git proved` and git are both asked."""

from __future__ import annotations

import random
from dataclasses import dataclass, field

from repositories import Repository, encoded


@dataclass(frozen=True, eq=False)
class Command:
    """A command line, and where it runs."""

    place: Repository
    words: tuple[bytes, ...]
    # The options before the word.
    before: tuple[bytes, ...] = ()
    data: bytes = b""
    # The folder in which it runs, if it is not that of the repository.
    folder: bytes | None = None
    environment: dict[bytes, bytes] = field(default_factory=dict)
    # Whether it has to be answered, whatever its shape is.
    is_strict: bool = False

    @property
    def cwd(self) -> bytes:
        return self.folder or self.place.path

    def text(self) -> str:
        words = b" ".join((*self.before, *self.words)).decode(errors="backslashreplace")
        return f"{self.cwd.decode(errors='backslashreplace').rsplit('/', 1)[-1]}: {words[:300]!r}"


def row(place: Repository, *words: str | bytes, **more) -> Command:
    return Command(place, tuple(map(encoded, words)), **more)


def rows(place: Repository, *lines: str, **more) -> list[Command]:
    """Returns a command for each line; its words are parted by blanks."""
    return [row(place, *line.split(" "), **more) for line in lines]


def each(place: Repository, front: str, *texts: str | bytes, **more) -> list[Command]:
    """Returns a command for each text, which stands behind the words of `front`."""
    return [row(place, *front.split(" "), text, **more) for text in texts]


class Asker:
    """Makes random commands about a repository."""

    def __init__(self, place: Repository, seed: int) -> None:
        self.place = place
        self.rng = random.Random(seed)
        self.makers = (
            (3, self.merge_base),
            (4, self.describe),
            (4, self.rev_parse),
            (6, self.rev_list),
            (2, self.for_each_ref),
        )

    def commands(self, count: int) -> list[Command]:
        makers = [maker for weight, maker in self.makers for _ in range(weight)]
        return [self.one(self.rng.choice(makers)) for _ in range(count)]

    def one(self, maker) -> Command:
        words, data = maker()
        place = self.place
        before: list[str | bytes] = []
        if self.rng.randrange(12) == 0:
            before = self.rng.choice(([b"-C", place.path], [b"-C", b".", b"-C", b""],
                                      [b"-C", b"."]))
        return Command(place, tuple(map(encoded, words)), tuple(map(encoded, before)), data)

    def chosen(self, *ones):
        return self.rng.choice(ones)

    def is_once_in(self, count: int) -> bool:
        return self.rng.randrange(count) == 0

    def commit(self) -> str:
        """Returns a commit, or now and then a text that is none."""
        if self.is_once_in(40):
            return self.chosen("nosuch", "HEAD^{tree}", "HEAD~99", "deadbeef", "", "HEAD^9",
                               "1" * 40)
        if self.is_once_in(3) and self.place.names:
            return self.rng.choice(self.place.names)
        return self.rng.choice(self.place.ids) if self.place.ids else "HEAD"

    def anchor(self) -> str:
        if self.is_once_in(3) and self.place.ids:
            return self.rng.choice(self.place.ids)[: self.rng.choice((5, 6, 7, 8, 40))]
        if self.is_once_in(20):
            return self.chosen("nosuch", "deadbeef", "@", "HEAD", "1" * 40)
        return self.commit()

    def revision(self) -> str:
        steps = ("", "", "", "", "~", "~2", "^2", "^0", "^{}", "^{commit}", "~1^2~1", "^", "^^",
                 "~0")
        return self.anchor() + self.rng.choice(steps)

    def range(self) -> str:
        mark = self.chosen("..", "...")
        kind = self.rng.randrange(8)
        if kind == 0:
            return mark + self.revision()
        if kind == 1:
            return self.revision() + mark
        return self.revision() + mark + self.revision()

    def text(self) -> str:
        kind = self.rng.randrange(8)
        if kind < 4:
            return self.revision()
        if kind == 4:
            return "^" + self.revision()
        if kind == 5:
            return self.revision() + self.chosen("^@", "^!", "^-", "^-2", "^-1")
        return self.range()

    def merge_base(self) -> tuple[list, bytes]:
        kind = self.rng.randrange(7)
        every = self.chosen([], [], ["-a"], ["--all"], ["--al"])
        if kind < 3:
            words = every + [self.commit() for _ in range(self.chosen(2, 2, 2, 3, 4, 5))]
        elif kind == 3:
            words = ["--octopus"] + every + [self.commit() for _ in range(self.chosen(1, 2, 3, 4))]
        elif kind == 4:
            words = ["--independent"] + [self.commit() for _ in range(self.chosen(1, 2, 3, 6))]
        elif kind == 5 and self.place.names:
            words = ["--fork-point", self.rng.choice(self.place.names)]
            words += [self.commit() for _ in range(self.chosen(0, 1, 1))]
        else:
            words = ["--is-ancestor", self.commit(), self.commit()]
        if self.is_once_in(6):
            self.rng.shuffle(words)
        return ["merge-base"] + words, b""

    def describe(self) -> tuple[list, bytes]:
        words: list[str] = []
        for odds, ones in (
            (2, ("--tags", "--tags", "--all", "--no-tags", "--al")),
            (4, ("--long", "--long", "--no-long", "--lo")),
            (4, ("--abbrev=0", "--abbrev=4", "--abbrev=5", "--abbrev=12", "--abbrev=40", "--abbrev",
                 "--no-abbrev")),
            (8, ("--exact-match", "--exact-match", "--no-exact-match")),
            (5, ("--candidates=1", "--candidates=2", "--candidates=3", "--candidates=5",
                 "--candidates=100", "--candidates=0")),
            (4, ("--first-parent",)),
            (3, ("--always",)),
            (5, ("--match=v*", "--match=rel*", "--match=*1*", "--match=[vx]*", "--match=w?",
                 "--match=v3", "--match=x-3-g*")),
            (6, ("--exclude=v*", "--exclude=*2", "--exclude=*/*", "--exclude=w*", "--no-match")),
        ):
            if self.is_once_in(odds):
                words.append(self.rng.choice(ones))
        words += [self.commit() for _ in range(self.chosen(0, 1, 1, 1, 1, 2, 4))]
        if self.is_once_in(6):
            self.rng.shuffle(words)
        return ["describe"] + words, b""

    def rev_parse(self) -> tuple[list, bytes]:
        options = self.chosen(
            [], [], [], ["-q"], ["--verify"], ["--verify", "-q"], ["-q", "--verify"], ["--short"],
            ["--short=9"], ["--short=4"], ["--short=40"], ["--symbolic-full-name"],
            ["--abbrev-ref"],
            ["--abbrev-ref=strict"], ["--abbrev-ref=loose"], ["--verify", "--short=7"],
            ["--git-dir"], ["--show-prefix", "--show-toplevel"], ["--is-bare-repository"],
        )
        return ["rev-parse"] + options + [self.text() for _
                                          in range(self.chosen(0, 1, 1, 1, 2, 3))], b""

    def pattern(self) -> str:
        return self.chosen("", "", "=line-*", "=v*", "=*", "=nosuch", "=rel", "=w?", "=l*[12]")

    def rev_list(self) -> tuple[list, bytes]:
        words: list[str] = []
        for odds, ones in (
            (3, ("-n 3", "-n7", "-2", "--max-count=1", "-n 0", "--max-count=5", "--max-count 4",
                 "-n -1", "-n3 -n4")),
            (7, ("--skip=1", "--skip=3", "--skip=50", "--skip 2")),
            (4, ("--count",)),
            (6, ("--left-right",)),
            (5, ("--first-parent",)),
            (6, ("--parents",)),
            (6, ("--reverse",)),
            (5, ("--topo-order", "--date-order", "--topo-order")),
            (6, ("--merges", "--no-merges", "--min-parents=1", "--max-parents=0",
                 "--max-parents=-1 --min-parents=2", "--merges --no-min-parents")),
            (9, ("--boundary",)),
            (8, ("--left-only", "--right-only")),
            (9, ("--timestamp",)),
            (9, ("--abbrev-commit", "--abbrev-commit --abbrev=4", "--abbrev-commit --no-abbrev")),
            (20, ("--quiet",)),
            (6, ("--oneline", "--pretty=oneline", "--format=%H|%h|%T|%t|%P|%p", "--pretty=%an<%ae>%ad|%at|%s",
                 "--pretty=format:%cn%n%cI%x09%cs%%%ci|%b|%B|", "--format=%s --no-commit-header", "--format=")),
            (12, ("--no-walk", "--no-walk=sorted", "--no-walk=unsorted", "--no-walk --do-walk")),
            (10, ("--ancestry-path",)),
            (10, ("--exclude=refs/heads/line-* --all", "--exclude=v* --tags", "--exclude=line-1 --branches")),
            (8, ("--since=1000002000", "--after 1000001200 --until=1000003300", "--before=1000002500",
                 "--min-age=1000003000", "--max-age=1000000900", "--since=2001-09-09T02:20:00Z",
                 "--since=3.days.ago", "--until=2.weeks.ago")),
        ):
            if self.is_once_in(odds):
                words += self.rng.choice(ones).split(" ")
        limits = ("--since", "--after", "--max-age", "--ancestry-path")
        if self.place.is_untidy and any(it.startswith(limits) for it in words):
            # If something is excluded, git may list too much, or leave out too much.
            return ["rev-list", *words, *(self.commit() for _ in range(self.chosen(1, 2)))], b""
        texts = [self.text() for _ in range(self.chosen(1, 1, 1, 2, 3))]
        if self.is_once_in(6):
            texts = [self.range()]
        every = [it + self.pattern() for it in ("--branches", "--tags", "--remotes")] + ["--all"]
        if self.is_once_in(5):
            texts += [self.rng.choice(every)]
        if self.is_once_in(6):
            texts += ["--not"] + [self.revision()]
        if self.is_once_in(12):
            texts = [self.rng.choice(every), "--not", self.rng.choice(every)]
        if {"--left-only", "--right-only"} & {*words}:
            texts = [f"{self.revision()}...{self.revision()}"]
        if self.is_once_in(12):
            return ["rev-list", *words, "--stdin"], "".join(f"{it}\n" for it in texts).encode()
        words += texts
        if self.is_once_in(6):
            self.rng.shuffle(texts)
        return ["rev-list"] + words, b""

    def for_each_ref(self) -> tuple[list, bytes]:
        # Strings that are equal in all formats would hide a wrong atom.
        words = [
            "--format="
            + self.chosen(
                "%(refname)", "%(refname:short)", "%(objectname)", "%(objectname) %(refname)",
                "%(refname:short)%09%(objectname)", "<%(refname)>%%", "%(refname:short)",
                "%(HEAD) %(refname:lstrip=2) %(committerdate:unix)", "%(creatordate) %(subject)",
                "%(refname) %(*objectname) %(taggerdate:raw)", "%(refname:rstrip=-2) %(refname)",
                "%(refname:short) %(upstream:short) %(upstream:track) %(symref)",
                "%(if)%(HEAD)%(then)*%(else)-%(end) %(contents)%(tree)%(*tree) %(type) %(object)",
                "%(align:30,middle)%(objecttype) %(objectsize)%(end)%(body)|%(refname:short)",
                "%(committerdate:relative)|%(creatordate:relative)",
            )
        ]
        if self.is_once_in(8):
            words.append(self.chosen("--shell", "--perl", "--python", "--tcl", "--color=never"))
        if self.is_once_in(3):
            keys = ("refname", "-refname", "committerdate", "-creatordate", "taggerdate",
                    "version:refname", "-v:refname", "authordate")
            words += [f"--sort={self.rng.choice(keys)}" for _ in range(self.chosen(1, 1, 2))]
        if self.is_once_in(6):
            words.append(f"--points-at={self.commit()}")
        for odds, name in ((2, "--contains"), (4, "--no-contains"), (3, "--merged"),
                           (5, "--no-merged")):
            if self.is_once_in(odds):
                is_any = self.is_once_in(8) or not self.place.ids
                commit = self.commit() if is_any else self.rng.choice(self.place.ids)
                words.append(f"{name}={commit}" if self.is_once_in(2) else name)
                words += [] if "=" in words[-1] else [commit]
        if self.is_once_in(2):
            patterns = ("refs/heads", "refs/tags", "refs/tags/v*", "refs/heads/line-*",
                        "refs/remotes/", "refs/heads/line-1", "nosuch", "refs/*/v*")
            words += [self.rng.choice(patterns) for _ in range(self.chosen(1, 1, 2))]
        return ["for-each-ref"] + words, b""
