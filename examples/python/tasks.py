"""Ten tasks with a repository: tasks.py REPOSITORY TASK [WORD..]

pull BASE HEAD     the commits of a pull request, the oldest first
version COMMIT     a version such as 1.2.dev3+g1a2b3c4, from tags such as v1.2
merged TOPIC INTO  whether a branch was merged
branches BASE      how far each branch is ahead of BASE, and behind
resolve TEXT       the commit that a user has typed
receive            a pre-receive hook: refuses what drops commits
serve              merge bases, for lines of two revisions
picks FROM TO      the commits to cherry-pick, the oldest first
release COMMIT     the first release with a commit, by tags such as v1.2
base REF REF       the merge bases of two refs
"""

import re
import sys

from gix_revision_proved import Refused, Repository


def pull(repository: Repository, base: str, head: str) -> int:
    for commit in repository.rev_list(f"{base}..{head}", reverse=True):
        print(commit)
    return 0


def version(repository: Repository, commit: str) -> int:
    name, depth, digits = repository.describe(commit, tags=True, long=True, match=["v*"]).rsplit("-", 2)
    print(name[1:] if depth == "0" else f"{name[1:]}.dev{depth}+{digits}")
    return 0


def merged(repository: Repository, topic: str, into: str) -> int:
    is_merged = repository.is_ancestor(topic, into)
    print("yes" if is_merged else "no")
    return 0 if is_merged else 1


def branches(repository: Repository, base: str) -> int:
    for ref in repository.references("refs/heads"):
        print(ref.name, *repository.ahead_behind(ref.id, base))
    return 0


def resolve(repository: Repository, text: str) -> int:
    print(repository.rev_parse(text + "^{commit}"))
    return 0


def receive(repository: Repository) -> int:
    for line in sys.stdin:
        before, after, name = line.rstrip("\n").split(" ", 2)
        # A new ref, or one that is deleted.
        if not before.strip("0") or not after.strip("0"):
            continue
        if not repository.is_ancestor(before, after):
            print(name, "would drop commits")
            return 1
    return 0


def serve(repository: Repository) -> int:
    repository.timeout = 10
    for line in sys.stdin:
        try:
            one, other = line.split()
            print(*(repository.merge_bases(one, other)[:1] or ["none"]))
        except (Refused, ValueError, TimeoutError):
            print("error")
    return 0


def picks(repository: Repository, start: str, end: str) -> int:
    for commit in repository.rev_list(f"{start}..{end}", reverse=True, no_merges=True):
        print(commit)
    return 0


def release(repository: Repository, commit: str) -> int:
    names = [it.removeprefix("refs/tags/") for it in repository.contains(commit, "refs/tags/v*")]
    print(min(names, key=lambda it: [int(part) for part in re.findall(r"\d+", it)], default="none"))
    return 0


def base(repository: Repository, one: str, other: str) -> int:
    bases = repository.merge_bases(one, other)
    for commit in bases:
        print(commit)
    return 0 if bases else 1


def main(folder: str, task: str, *words: str) -> int:
    tasks = (pull, version, merged, branches, resolve, receive, serve, picks, release, base)
    with Repository(folder) as repository:
        try:
            return {it.__name__: it for it in tasks}[task](repository, *words)
        except (Refused, ValueError) as error:
            print(f"tasks.py: {error}", file=sys.stderr)
            return 2


if __name__ == "__main__":
    sys.exit(main(*sys.argv[1:]))
