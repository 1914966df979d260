"""Makes the repositories in which `git proved` is compared with git. git writes all of them."""

from __future__ import annotations

import os
import random
import shutil
import subprocess
from dataclasses import dataclass, field

# The environment of every command: no settings of the user, and a fixed author.
ENVIRONMENT = {
    b"PATH": os.environb[b"PATH"],
    b"LC_ALL": b"C",
    b"TZ": b"UTC",
    b"GIT_CONFIG_NOSYSTEM": b"1",
    b"GIT_CONFIG_GLOBAL": b"/dev/null",
    b"GIT_DEFAULT_HASH": b"sha1",
    # Without templates a repository is quicker to make and to copy.
    b"GIT_TEMPLATE_DIR": b"",
    b"GIT_AUTHOR_NAME": b"a",
    b"GIT_AUTHOR_EMAIL": b"a@example.org",
    b"GIT_COMMITTER_NAME": b"a",
    b"GIT_COMMITTER_EMAIL": b"a@example.org",
    b"GIT_AUTHOR_DATE": b"@1000000000 +0000",
    b"GIT_COMMITTER_DATE": b"@1000000000 +0000",
}

EMPTY_TREE = "4b825dc642cb6eb9a060e54bf8d69288fbee4904"

# The committer dates of a random history, by the number of the commit and of all commits.
DATES = {
    "rising": lambda rng, n, all: 1_000_000_000 + 100 * n,
    "tied": lambda rng, n, all: 1_000_000_000 + 100 * (n // 4),
    "second": lambda rng, n, all: 1_000_000_000,
    "skewed": lambda rng, n, all: 1_000_000_000 + 100 * rng.randrange(all),
    "early": lambda rng, n, all: 100 * (n - all // 2),
    "wide": lambda rng, n, all: 2**32 - 100 * (all // 2) + 100 * n,
}


def encoded(word: str | bytes) -> bytes:
    return word if isinstance(word, bytes) else word.encode()


@dataclass(eq=False)
class Repository:
    """A repository, or a folder in which one is looked for."""

    path: bytes
    # The commits' ids, parents first; and the short names of references.
    ids: list[str] = field(default_factory=list)
    names: list[str] = field(default_factory=list)
    # Whether commits have the same date, or a date before a parent's.
    is_untidy: bool = False
    # Whether `git proved` may refuse every question.
    may_be_refused: bool = False
    # Of a damaged repository, the folder of the same one without damage.
    twin: bytes | None = None

    def has_graph(self) -> bool:
        """Returns whether the repository has a commit-graph file of its own, or of an alternate."""
        objects = self.git("rev-parse", "--path-format=absolute", "--git-path", "objects")
        places = [objects]
        if os.path.exists(objects + "/info/alternates"):
            with open(objects + "/info/alternates", encoding="utf-8") as file:
                places += [os.path.join(objects, it) for it in file.read().splitlines()]
        names = ("commit-graph", "commit-graphs")
        return any(os.path.exists(f"{it}/info/{name}") for it in places for name in names)

    def git(self, *words: str | bytes, data: bytes = b"", date: int | None = None) -> str:
        """Runs git in the repository, and returns what it prints."""
        environment = dict(ENVIRONMENT)
        if date is not None:
            environment[b"GIT_COMMITTER_DATE"] = b"@%d +0000" % date
            environment[b"GIT_AUTHOR_DATE"] = environment[b"GIT_COMMITTER_DATE"]
        words = [b"git", *map(encoded, words)]
        done = subprocess.run(words, input=data, cwd=self.path, env=environment,
                              capture_output=True)
        if done.returncode != 0:
            raise RuntimeError(f"{words} in {self.path}: {done.stderr.decode(errors='replace')}")
        return done.stdout.decode(errors="surrogateescape").rstrip("\n")

    def commit(self, *parents: str, date: int = 1_000_000_000, text: str | None = None) -> str:
        """Writes a commit of the empty tree, and returns its id. Dates may be any number."""
        who = f"a <a@example.org> {date} +0000"
        lines = [f"tree {EMPTY_TREE}", *(f"parent {it}" for it in parents), f"author {who}",
                 f"committer {who}", ""]
        lines.append(str(len(self.ids)) if text is None else text)
        if not self.ids:
            self.git("hash-object", "-t", "tree", "-w", "--stdin")
        data = "\n".join(lines).encode() + b"\n"
        self.ids.append(self.git("hash-object", "-t", "commit", "-w", "--literally", "--stdin",
                                 data=data))
        return self.ids[-1]

    def tag(self, name: str | bytes, of: str, date: int, *words: str) -> None:
        """Writes an annotated tag with the tagger's date."""
        front = ("-c", "advice.nestedTag=false", "tag", "-a", "-m", name)
        self.git(*front, *words, name, of, date=date)

    def loose(self, id: str) -> bytes:
        """Returns the file of a loose object."""
        return self.path + f"/.git/objects/{id[:2]}/{id[2:]}".encode()

    def remove(self, id: str) -> None:
        os.remove(self.loose(id))

    def write(self, name: str, text: str | bytes) -> None:
        """Writes a file of the repository's folder."""
        path = os.path.join(self.path, name.encode())
        os.makedirs(os.path.dirname(path), exist_ok=True)
        with open(path, "wb") as file:
            file.write(encoded(text))


def random_history(rng: random.Random, commits: int, dates: str) -> bytes:
    """Returns a random history with merges of up to four parents, several roots, branches and tags
    for git fast-import."""
    moment = DATES[dates]
    lines = []
    for n in range(1, commits + 1):
        branch = f"refs/heads/line-{rng.randrange(4)}"
        text = f"number {n}"
        lines += [f"reset {branch}", f"commit {branch}", f"mark :{n}"]
        lines += [f"committer a <a@example.org> {moment(rng, n, commits)} +0000"]
        lines += [f"data {len(text)}", text]
        count = 0 if n == 1 or rng.randrange(14) == 0 else rng.choice((1, 1, 1, 2, 2, 3, 4))
        parents = {max(1, n - 1 - rng.randrange(7)) for _ in range(count)} if n > 1 else set()
        lines += [f"{'merge' if at else 'from'} :{it}" for at, it in enumerate(sorted(parents))]
        lines.append("")
    for tag in range(commits // 3):
        name = rng.choice(("v", "v", "w", "rel/", "x-3-g")) + str(tag)
        mark = 1 + rng.randrange(commits)
        if rng.randrange(2):
            tagger = f"tagger a <a@example.org> {1_000_000_000 + 100 * rng.randrange(50)} +0000"
            lines += [f"tag {name}", f"from :{mark}", tagger, "data 1", "t"]
        else:
            lines += [f"reset refs/tags/{name}", f"from :{mark}", ""]
    return "\n".join(lines).encode() + b"\n"


class Room:
    """Makes repositories in one folder."""

    def __init__(self, folder: bytes) -> None:
        self.folder = folder

    def path(self, name: str | bytes) -> bytes:
        return self.folder + b"/" + encoded(name)

    def init(self, name: str | bytes, *words: str) -> Repository:
        """Makes an empty repository."""
        made = Repository(self.path(name))
        os.makedirs(made.path)
        made.git("init", "-q", "-b", "main", *words)
        return made

    def random(self, name: str, seed: int, dates: str, commits: int = 45) -> Repository:
        """Makes a repository with a random history."""
        made = self.init(name)
        made.is_untidy = dates in ("tied", "second", "skewed", "early")
        # Commits with dates before 1970 are not read.
        made.may_be_refused = dates == "early"
        marks = self.path(f"{name}.marks")
        history = random_history(random.Random(seed), commits, dates)
        front = ("fast-import", "--quiet", "--date-format=raw-permissive")
        made.git(*front, b"--export-marks=" + marks, data=history)
        with open(marks, encoding="ascii") as file:
            pairs = [line.split() for line in file]
        made.ids = [id for _, id in sorted(pairs, key=lambda pair: int(pair[0][1:]))]
        made.git("symbolic-ref", "HEAD", self.first_branch(made))
        made.git("read-tree", "HEAD")
        return with_names(made)

    def first_branch(self, of: Repository) -> str:
        return of.git("for-each-ref", "--count=1", "--format=%(refname)", "refs/heads")

    def clone(self, of: Repository, name: str | bytes, *words: str) -> Repository:
        """Clones a repository."""
        made = Repository(self.path(name), list(of.ids), is_untidy=of.is_untidy)
        of.git("clone", "-q", *words, b"file://" + of.path, made.path)
        if "--depth=3" in words:
            made.ids = made.git("rev-list", "--all").split("\n")
        return with_names(made)

    def copy(self, of: Repository, name: str | bytes) -> Repository:
        """Copies a repository with its folder."""
        made = Repository(self.path(name), list(of.ids), list(of.names), of.is_untidy)
        shutil.copytree(of.path, made.path, symlinks=True)
        return made


def with_names(of: Repository) -> Repository:
    """Notes the short names of a repository's references."""
    listed = of.git("for-each-ref", "--format=%(refname:lstrip=2)")
    of.names = listed.split("\n") if listed else []
    return of


def one_line(room: Room, name: str | bytes, commits: int = 4,
             first: int = 1_000_000_000) -> Repository:
    """Makes a line of commits on the branch main."""
    made = room.init(name)
    stream = []
    for n in range(1, commits + 1):
        stream += ["commit refs/heads/main", f"mark :{n}"]
        stream += [f"committer a <a@example.org> {first + 100 * n} +0000"]
        stream += [f"data {len(str(n))}", f"{n}", *([f"from :{n - 1}"] if n > 1 else []), ""]
    # git unpacks what is small to loose objects.
    made.git("fast-import", "--quiet", data="\n".join(stream).encode())
    made.ids = made.git("rev-list", "--reverse", "main").split("\n")
    return with_names(made)


def odd_names(room: Room) -> Repository:
    """Makes a line of commits with references of every kind."""
    made = one_line(room, "odd names", 14)
    made.write("folder/file", "\n")
    made.git("add", "folder")
    made.git("commit", "-q", "-m", "file", date=1_000_002_000)
    ids = made.ids
    # The program opens only files whose names are UTF-8, so other names are packed.
    made.tag(b"caf\xe9", ids[7], 8000)
    made.git("tag", b"\xff/x", ids[8])
    made.git("pack-refs", "--all")
    updates = [f"create refs/heads/commit-{n} {id}\n" for n, id in enumerate(ids)]
    updates += [
        f"create refs/tags/light {ids[1]}\n",
        f"create refs/tags/both-0 {ids[2]}\n",
        f"create refs/tags/v1-2-gabcdef0 {ids[9]}\n",
        f"create refs/tags/twice {ids[12]}\n",
        f"create refs/heads/twice {ids[0]}\n",
        f"create refs/heads/feature/deep/er {ids[3]}\n",
        f"create refs/remotes/far/main {ids[4]}\n",
        f"create refs/other/name {ids[12]}\n",
        f"create refs/heads/@x {ids[2]}\n",
        f"create refs/heads/a$b`c`;d {ids[5]}\n",
        f"create refs/heads/%(refname) {ids[6]}\n",
    ]
    made.git("update-ref", "--stdin", data="".join(updates).encode())
    made.tag("both-1", ids[2], 1000)
    made.tag("early", ids[3], 2000)
    made.tag("late", ids[3], 3000)
    made.tag("same-2", ids[4], 4000)
    made.tag("same-1", ids[4], 4000)
    made.tag("inner", ids[5], 5000)
    made.tag("outer", "inner", 6000)
    made.tag("called", ids[6], 7000)
    made.git("update-ref", "refs/tags/other", "called")
    made.git("tag", "-d", "inner", "called")
    made.tag("v2-0-g1234567", ids[10], 9000)
    text = f"object {ids[11]}\ntype commit\ntag no-tagger\n\n".encode()
    words = ("hash-object", "-t", "tag", "-w", "--literally", "--stdin")
    made.git("update-ref", "refs/tags/no-tagger", made.git(*words, data=text))
    made.git("tag", "file", "HEAD:folder/file")
    made.tag("tree", "HEAD^{tree}", 9000)
    made.git("symbolic-ref", "refs/remotes/far/HEAD", "refs/remotes/far/main")
    made.git("update-ref", "refs/remotes/far/tagged", "outer")
    made.git("symbolic-ref", "refs/heads/link", "refs/heads/commit-3")
    return with_names(made)


def digit_names(room: Room) -> Repository:
    """Makes references that are named like digits of ids."""
    made = one_line(room, "digits", 6)
    ids = made.ids
    for n, id in enumerate(ids):
        made.git("branch", f"commit-{n}", id)
    made.git("branch", f"{ids[0][:4]}-login", ids[1])
    made.git("branch", ids[2][:8], ids[3])
    made.git("branch", f"v1-2-g{ids[4][:7]}", ids[5])
    made.git("tag", ids[1][:3], ids[2])
    made.tag(ids[3][:6], ids[4], 1000)
    made.git("branch", "feed", ids[2])
    made.git("branch", "ee", ids[0])
    made.tag("decade-2024", ids[4], 2000)
    # References with the names of ids.
    made.git("update-ref", f"refs/heads/{ids[5]}", ids[1])
    made.write(f".git/{ids[4]}", f"{ids[2]}\n")
    return with_names(made)


def siblings(room: Room) -> Repository:
    """Makes branches with upstreams, remotes and reflogs."""
    origin = one_line(room, "origin", 5)
    origin.git("branch", "other", "main~2")
    made = room.clone(origin, "clone")
    for n in range(3):
        made.git("commit", "-q", "--allow-empty", "-m", f"own {n}", date=1_000_001_000 + 100 * n)
    made.git("checkout", "-q", "-b", "dev", "main~1")
    made.git("commit", "-q", "--allow-empty", "-m", "dev", date=1_000_002_000)
    made.git("checkout", "-q", "-b", "tracked", "--track", "origin/other")
    made.git("checkout", "-q", "main")
    made.git("checkout", "-q", "dev")
    made.git("checkout", "-q", "main")
    made.git("branch", "-q", "local", "dev")
    made.git("config", "branch.local.remote", ".")
    made.git("config", "branch.local.merge", "refs/heads/main")
    made.git("reset", "-q", "--hard", "HEAD~1", date=1_000_003_000)
    made.git("config", "remote.pushDefault", "origin")
    made.ids = made.git("rev-list", "--reverse", "--all", "--reflog").split("\n")
    return with_names(made)


# Reflogs by branch: which commit the branch has, and each entry's old and new commit, date and time
# zone. Commits are numbers, and 0 is none.
LOGS = {
    "gap": (6, ((1, 2, 1117150320, "+0130"), (3, 4, 1117150350, "+0130"),
                (5, 6, 1117150380, "-0500"))),
    "ended": (4, ((1, 2, 1117150320, "-0030"), (2, 3, 1117150350, "-0030"))),
    "again": (6, ((0, 2, 1117150320, "+0000"), (2, 0, 1117150330, "+0000"),
                  (0, 5, 1117150350, "+0000"), (5, 6, 1117150380, "+0000"))),
    "falling": (6, ((1, 2, 1117150380, "+0000"), (2, 3, 1117150320, "+0000"),
                    (4, 6, 1117150350, "+0000"))),
    "early": (3, ((0, 2, 1, "+0000"), (2, 3, 5, "+0000"))),
    "none": (3, ()),
}


def logged(room: Room) -> Repository:
    """Makes branches with the reflogs of LOGS, a tag with a reflog, and one for HEAD."""
    made = one_line(room, "logged", 6)
    ids = ["0" * 40, *made.ids]
    for name, (at, entries) in LOGS.items():
        made.git("update-ref", f"refs/heads/{name}", ids[at])
        text = "".join(f"{ids[old]} {ids[new]} a <a@example.org> {date} {zone}\ttext\n"
                       for old, new, date, zone in entries)
        made.write(f".git/logs/refs/heads/{name}", text)
    made.write(".git/logs/refs/heads/junk", "no entry\n")
    made.git("branch", "junk", made.ids[2])
    # A tag of a branch's name, a branch without a reflog, and a symbolic one.
    made.git("tag", "ended", made.ids[1])
    shutil.copytree(made.path + b"/.git/logs/refs/heads", made.path + b"/.git/logs/refs/tags")
    made.git("update-ref", "refs/heads/bare", made.ids[1])
    made.git("symbolic-ref", "refs/heads/link", "refs/heads/gap")
    made.git("symbolic-ref", "HEAD", "refs/heads/gap")
    shutil.copy(made.path + b"/.git/logs/refs/heads/ended", made.path + b"/.git/logs/HEAD")
    return made


def trees(room: Room) -> list[Repository]:
    """Makes working trees: clean, clean but for times, changed, and without a file. All stat data
    is older than the index."""
    made = one_line(room, "tree", 3)
    made.write("folder/file", "content\n")
    os.utime(made.path + b"/folder/file", (10**9, 10**9))
    made.git("reset", "-q")
    made.git("add", "folder")
    made.git("commit", "-q", "-m", "file", date=1_000_001_000)
    made.git("tag", "v1", "HEAD~1")
    made.write("new", "not tracked\n")
    copies = [made]
    for name in ("touched", "changed", "longer", "lacking", "staged"):
        path = room.path(name)
        made.git("worktree", "add", "-q", "--detach", path)
        copies.append(Repository(path, list(made.ids), list(made.names)))
        os.utime(path + b"/folder/file", (10**9, 10**9))
        copies[-1].git("update-index", "--refresh")
    by_name = dict(zip(("tree", "touched", "changed", "longer", "lacking", "staged"), copies))
    os.utime(by_name["touched"].path + b"/folder/file", (10**9 + 5, 10**9 + 5))
    by_name["changed"].write("folder/file", "CONTENT\n")
    by_name["longer"].write("folder/file", "a longer content\n")
    os.remove(by_name["lacking"].path + b"/folder/file")
    by_name["staged"].write("folder/file", "staged\n")
    by_name["staged"].git("add", "folder")
    by_name["touched"].git("update-ref", "refs/worktree/own", "HEAD~2")
    return copies


def kept(room: Room, name: str, version: int = 2) -> Repository:
    """Makes a clean working tree, with an index of this version. All files are older than it."""
    made = one_line(room, name, 3)
    made.git("config", "index.version", str(version))
    made.git("reset", "-q")
    for number, file in enumerate(("a", "folder/file", "folder/file.txt", "folder/run", "z" * 250)):
        made.write(file, f"content {number}\n")
    os.chmod(made.path + b"/folder/run", 0o755)
    os.symlink("folder/file", made.path + b"/link")
    made.git("add", ".")
    made.git("commit", "-q", "-m", "files", date=1_000_001_000)
    made.git("tag", "v1", "HEAD~1")
    age(made)
    return made


def age(place: Repository) -> None:
    """Makes all files of a working tree older than its index, which notes their times."""
    listed = subprocess.run(["git", "ls-files", "-z"], cwd=place.path, env=ENVIRONMENT,
                            capture_output=True, check=True).stdout
    for file in listed.split(b"\0")[:-1]:
        path = os.path.join(place.path, file)
        if os.path.lexists(path):
            os.utime(path, (10**9, 10**9), follow_symlinks=False)
    place.git("update-index", "-q", "--refresh")


def chained(room: Room, of: Repository, name: str, layers: int = 3) -> Repository:
    """Copies a repository, and writes a chain of commit-graphs with so many layers."""
    made = room.copy(of, name)
    for layer in range(1, layers + 1):
        data = "\n".join(of.ids[:len(of.ids) * layer // layers]).encode() + b"\n"
        made.git("commit-graph", "write", "--stdin-commits", "--split=no-merge", data=data)
    return made


def filed(room: Room, of: Repository, name: str | bytes, count: int | None = None) -> Repository:
    """Copies a repository, and writes a commit-graph of its first commits, or of all."""
    made = room.copy(of, name)
    data = "\n".join(of.ids[:count]).encode() + b"\n"
    made.git("commit-graph", "write", "--stdin-commits", data=data)
    return made


def many_references(room: Room, count: int) -> Repository:
    """Makes a repository with many references, all packed."""
    made = one_line(room, "many", 500)
    lines = ["# pack-refs with: peeled fully-peeled sorted "]
    lines += [f"{made.ids[n % 500]} refs/heads/b/{n:06}" for n in range(count // 2)]
    lines += [f"{made.ids[-1]} refs/heads/main"]
    lines += [f"{made.ids[n % 400]} refs/tags/t/{n:06}" for n in range(count // 2)]
    made.write(".git/packed-refs", "\n".join(lines) + "\n")
    os.remove(made.path + b"/.git/refs/heads/main")
    made.names = [f"b/{n:06}" for n in range(count // 2)]
    return made
