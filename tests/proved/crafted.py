"""Makes repositories for known cases, and the commands that are asked there.

Each function makes its repositories in a room, and returns the commands.
"""

from __future__ import annotations

import os
import re
import shutil
import subprocess
import time

from questions import Command, each, row, rows
from repositories import (
    EMPTY_TREE, ENVIRONMENT, LOGS, Repository, Room, age, chained, digit_names, encoded, filed, kept,
    logged, many_references, odd_names, one_line, siblings, trees,
)

WORDS = ("merge-base", "describe", "rev-parse", "rev-list", "for-each-ref")

# Common questions, for repositories that are unusual as a whole.
COMMON = (
    "merge-base HEAD HEAD~1",
    "merge-base --all HEAD HEAD~2",
    "merge-base --is-ancestor HEAD HEAD~1",
    "merge-base --is-ancestor HEAD~1 HEAD",
    "merge-base --octopus HEAD HEAD~1",
    "merge-base --independent HEAD HEAD~1",
    "describe --tags --always",
    "describe --all --long",
    "describe --tags --exact-match HEAD",
    "rev-parse HEAD",
    "rev-parse HEAD~1",
    "rev-parse HEAD~1^0 HEAD^@",
    "rev-parse --verify -q HEAD~2",
    "rev-parse --short HEAD",
    "rev-parse --abbrev-ref HEAD",
    "rev-parse HEAD~1..HEAD",
    "rev-parse HEAD~1...HEAD",
    "rev-list -n 1 HEAD",
    "rev-list --count HEAD~1..HEAD",
    "rev-list HEAD~2..HEAD",
    "rev-list --max-count=2 --parents HEAD",
    "for-each-ref --format=%(objectname)%09%(refname)",
    "for-each-ref --format=%(refname:short) --contains HEAD",
    "for-each-ref --format=%(refname) --merged HEAD",
)

# Questions about where the repository is.
WHERE = (
    "rev-parse --git-dir --absolute-git-dir --git-common-dir --show-cdup --show-prefix HEAD",
    "rev-parse --is-inside-work-tree --is-inside-git-dir --is-bare-repository "
    "--is-shallow-repository --show-object-format=input",
    "rev-parse --show-toplevel",
    "rev-parse --path-format=absolute --git-dir --git-common-dir --show-cdup",
    "rev-parse --path-format=absolute --show-toplevel --absolute-git-dir",
    "rev-parse --git-path HEAD --git-path objects/pack --git-path x/y",
    "rev-parse --path-format=absolute --git-path config --git-path nosuch",
)

# Further questions that read the whole history.
WHOLE = ("rev-list HEAD", "rev-list --count --all", "rev-list --reverse --topo-order HEAD",
         "describe --tags --candidates=3 HEAD~2")


def settings(key: str, value: str) -> dict[bytes, bytes]:
    """Returns the environment that gives git a setting."""
    return {
        b"GIT_CONFIG_COUNT": b"1",
        b"GIT_CONFIG_KEY_0": key.encode(),
        b"GIT_CONFIG_VALUE_0": value.encode(),
    }


def common(place: Repository, *also: str, **more) -> list[Command]:
    return rows(place, *COMMON, *also, **more)


def names(room: Room) -> list[Command]:
    """Names of every kind, and tags of every kind."""
    odd = odd_names(room)
    ids = odd.ids
    commands = common(odd, *WHOLE)
    every = ("", " --tags", " --all", " --long", " --tags --long", " --all --long", " --abbrev=0",
             " --all --abbrev=0", " --tags --exact-match --abbrev=9", " --tags --no-tags",
             " --first-parent --tags")
    commands += [row(odd, *f"describe{options} --always".split(" "), *ids) for options in every]
    commands += each(odd, "describe", "light", "both-0", "outer", "other", "tree", "twice",
                     "heads/twice",
                     "v1-2-gabcdef0", "", ".", "-", "nosuch", "@~3", "HEAD@{0}", "HEAD^{/file}",
                     ":/file")
    commands += each(odd, "describe --tags --long", "light", "both-1", "outer", "other", b"caf\xe9",
                     b"\xff/x", "no-tagger")
    commands += each(odd, "describe --tags --match=both* --long", "both-0", "both-1")
    commands += each(odd, "describe --all --match=*", "far/HEAD", "other", "twice")
    commands += each(odd, "describe --tags", "--match=v1*", b"--match=*\xe9", "--exclude=*t*",
                     "--match=[l-o]*",
                     "--exclude=[!a-e]*", "--match=\\light", "--match=", "--match=twice",
                     "--match=twic",
                     "--match=tw?ce", "--match=**", "--match=[", "--match=[[:alpha:]]*",
                     "--match=*/x",
                     "--match=\\", "--match=?[^a]*", "--exclude=[]-a]*")
    commands += rows(
        odd,
        "describe --tags --match v* --match s* --exclude v1* --exclude *-1 HEAD~2",
        "describe --match v* --no-match --tags HEAD~2",
        "describe --candidates 10 --abbrev=-3 -- HEAD",
        "describe --exact-match --candidates=10 --abbrev=+08 HEAD",
        "describe --candidates=-1 --tags HEAD~3",
        "describe --candidates=0 --tags HEAD~1",
        "describe --long --abbrev=0",
        "describe --tags light nosuch HEAD",
        "describe light HEAD^{tree}",
        "describe HEAD --tags",
        "describe HEAD~1 --tags --al",
        "describe --ex HEAD", "describe --exa HEAD", "describe --a HEAD", "describe --first HEAD~2",
        "describe --no-always --no-long --no-all --no-first-parent HEAD",
        "describe --abbrev", "describe --abbrev 7", "describe --no-abbrev", "describe --debug HEAD",
        "describe --contains HEAD~1", "describe --broken", "describe -x", "describe --nosuch",
        "describe --tags=x", "describe --always=1",
    )
    for front in ("rev-parse", "rev-parse -q --verify", "rev-list", "rev-list ^HEAD",
                  "merge-base HEAD", "describe", "for-each-ref --format=%(refname) --contains"):
        commands += each(odd, front, "nosuch:file", "HEAD~99:file", "^nosuch:file",
                         "HEAD^{blob}:file", is_strict=True)
    commands += each(odd, "rev-parse *", ":/folder/file", ":/file", ":!folder", ":^nosuch",
                     ":(top)x", ":/", ":!", ":nosuch", "://", is_strict=True)
    commands += each(odd, "merge-base HEAD", "twice", "tree", "light", "outer", "HEAD^{tree}",
                     "nosuch", "", "--", "-", "@")
    commands += rows(
        odd,
        "merge-base", "merge-base HEAD", "merge-base --octopus", "merge-base --octopus outer",
        "merge-base --octopus light late HEAD outer", "merge-base -a -- HEAD no-tagger",
        "merge-base --independent", "merge-base --independent HEAD nosuch HEAD^{tree}",
        "merge-base --independent outer HEAD light outer late HEAD~9",
        "merge-base --independent --all HEAD", "merge-base --is-ancestor HEAD HEAD HEAD",
        "merge-base --is-ancestor HEAD", "merge-base --is-ancestor --all HEAD HEAD",
        "merge-base --independent --octopus HEAD", "merge-base --octopus --is-ancestor HEAD HEAD",
        "merge-base --fork-point nosuch", "merge-base --fork-point main HEAD~1",
        "merge-base --fork-point main HEAD HEAD",
        "merge-base HEAD HEAD -a", "merge-base --no-all HEAD light",
        "merge-base -a --no-all HEAD light",
        "merge-base --ind HEAD light", "merge-base --is HEAD light", "merge-base --i HEAD light",
        "merge-base -x", "merge-base --nosuch HEAD HEAD", "merge-base -aa HEAD light",
        "merge-base -- HEAD light",
        f"merge-base {'1' * 40} HEAD", f"merge-base --is-ancestor {'1' * 40} HEAD",
    )
    commands += each(odd, "merge-base --is-ancestor light", "HEAD", "outer", "both-1", "nosuch",
                     "HEAD^{tree}", "early")
    commands += lists(odd)
    commands += texts(odd)
    # A file of a reference whose name is not UTF-8.
    loose = one_line(room, "loose bytes", 4)
    loose.may_be_refused = True
    loose.git("tag", b"caf\xe9", loose.ids[1])
    commands += common(loose, *WHOLE)
    commands += each(loose, "rev-parse", b"caf\xe9", b"caf\xe8", b"heads/\xff")
    return commands


def signs(room: Room) -> list[Command]:
    """Names that end with a sign, and patterns whose ranges run backwards."""
    made = one_line(room, "signs", 5)
    for at, name in enumerate(("b1", "b2", "x@")):
        made.git("branch", name, made.ids[at])
    for at, name in enumerate(("v2", "v@")):
        made.tag(name, made.ids[at + 1], 1000)
    commands = each(made, "for-each-ref --format=%(refname)", "refs/heads/b[2-1]",
                    "refs/heads/b[!2-1]", "refs/heads/b[1-2]", "refs/heads/[z-a]1",
                    "refs/heads/[b-a][3-1]", "refs/heads/b[\\2-1]", "refs/heads/b[2-\\1]",
                    is_strict=True)
    commands += each(made, "rev-list", "--branches=b[2-1]", "--tags=v[3-0]", "--tags=v[2-0]",
                     is_strict=True)
    commands += each(made, "describe --always", "--match=v[2-1]", "--match=v[3-1]",
                     "--exclude=v[2-0]", "--exclude=v[!2-0]", "--exclude=[v-a]*", is_strict=True)
    for front in ("rev-parse", "rev-parse --revs-only", "rev-parse --verify -q",
                  "rev-list --count", "rev-list main", "merge-base HEAD", "describe --always",
                  "for-each-ref --format=%(refname) --merged"):
        commands += each(made, front, "x@", "x@^", "x@~1", "x@^{}", "^x@^", "x@^..HEAD",
                         "HEAD..x@^0", "heads/x@^", "v@", "v@^{}", "v@^{tag}", "@^", "@~1^0",
                         "HEAD@^", "HEAD@^2~1", "x@@{0}", "^@^@", "^@^!", "^@", "@^@", "x@^@",
                         "x@^!", "x@..HEAD", "^HEAD^@", "HEAD^@^@")
    return commands


def lists(odd: Repository) -> list[Command]:
    """Options and revisions of rev-list."""
    commands = each(odd, "rev-list", "HEAD", "light", "outer", "other", "twice", "heads/twice",
                    "@~3", "nosuch", "",
                    "HEAD^@", "HEAD^!", "early^!", "late^@", "^late", "light..outer",
                    "both-1...HEAD", "nosuch..late",
                    "late..nosuch", "late..", "...late", "HEAD^-", "HEAD^-2", "HEAD~99", "^nosuch",
                    b"caf\xe9",
                    "--all", "--branches", "--tags", "--remotes", "--branches=commit-*",
                    "--tags=b*", "--remotes=far",
                    "--branches=[", "--tags=", "tree", "HEAD^{tree}", "light..tree", "..", "...",
                    "HEAD^-4294967297",
                    "--branches=feature", "--branches=feature/*", "--branches=*/er")
    commands += each(odd, "rev-list --count", "HEAD", "light..HEAD", "outer...light", "^HEAD",
                     "late^@", "light..", "--all")
    commands += each(odd, "rev-list --left-right --count", "HEAD", "light..HEAD", "outer...light",
                     "...light", "same-1...early")
    commands += rows(
        odd,
        "rev-list", "rev-list HEAD ^light --", "rev-list nosuch --",
        "rev-list -n 2 HEAD ^both-0 outer",
        "rev-list --max-count 2 --count HEAD", "rev-list -n -1 HEAD", "rev-list HEAD light nosuch",
        "rev-list HEAD...light late..called outer", f"rev-list {odd.ids[0]}^@",
        f"rev-list --count {odd.ids[0]}^@",
        "rev-list -n3 -n4 HEAD", "rev-list -3 HEAD", "rev-list HEAD -n 2", "rev-list HEAD -n",
        "rev-list -n", "rev-list -nx HEAD",
        "rev-list -n 2x HEAD", "rev-list --max-count= HEAD", "rev-list --max-count=x HEAD",
        "rev-list --max-count=x=2 HEAD",
        "rev-list --skip=2 --max-count=3 HEAD", "rev-list --skip=-1 HEAD",
        "rev-list --skip 2 -n 1 HEAD",
        "rev-list --reverse -n 3 HEAD", "rev-list --reverse HEAD~3..HEAD",
        "rev-list --parents -n 3 HEAD",
        "rev-list --parents --first-parent HEAD", "rev-list --merges HEAD",
        "rev-list --no-merges -n 2 HEAD",
        "rev-list --left-right outer...light", "rev-list --left-right --parents outer...light",
        "rev-list --boundary late..HEAD", "rev-list --boundary -n 2 HEAD",
        "rev-list --topo-order HEAD light",
        "rev-list --date-order HEAD light", "rev-list --not HEAD~3 --not HEAD",
        "rev-list HEAD --not light both-1",
        "rev-list --not --all", "rev-list --all --not HEAD~2", "rev-list --branches --not --tags",
        "rev-list --tags --not --remotes",
        "rev-list --count --all --not --tags=v*", "rev-list --all -n 4", "rev-list --no-walk HEAD",
        "rev-list --objects HEAD",
        "rev-list HEAD -- folder/file", "rev-list --max-parents=1 HEAD",
        "rev-list --min-parents=2 HEAD", "rev-list --nosuch HEAD",
        "rev-list --since=2001-09-09 HEAD", "rev-list --first-parent --count HEAD",
        "rev-list --quiet HEAD",
        f"rev-list tt2...HEAD", f"rev-list {'1' * 40}", f"rev-list {'1' * 40}..HEAD",
        f"rev-list HEAD ^{'1' * 40}", "rev-list folder/file",
        "rev-list --count=3 HEAD", "rev-list --all=x", "rev-list --not",
        "rev-list --exclude=*1 --all", "rev-list --glob=heads",
    )
    for data in ("HEAD\n", "HEAD\n^light\n", "light..HEAD\n", "", "\n", "nosuch\n", "HEAD",
                 "^HEAD\nHEAD\n", "HEAD~1\nHEAD~2\n\nHEAD\n",
                 "--all\n", "--not\nHEAD\n", "HEAD\n--\nfolder/file\n", "light...late\n"):
        commands += rows(odd, "rev-list --stdin", "rev-list --count --stdin HEAD~9",
                         "rev-list --stdin -n 1 --not early", data=data.encode())
    return commands


def texts(odd: Repository) -> list[Command]:
    """Options and revisions of rev-parse."""
    ids = odd.ids
    commands = rows(odd, "rev-parse")
    some = ("HEAD", "light", "both-1", "outer", "other", b"caf\xe9", b"\xff/x", "v1-2-gabcdef0",
            "twice", "heads/twice", "far", "far/tagged",
            "other/name", "refs/other/name", "@", "@~3", "outer^{}", "outer^0", "outer~0",
            "outer^{commit}", "outer^{tag}", "outer^{object}",
            "both-1~1", f"any-4-g{ids[4][:6]}", f"{ids[4][:6]}-any", "nosuch", "", "far^@",
            "HEAD^!", "early^!", "late^@", "^late",
            "light..outer", "both-1...HEAD", "same-1...early", "HEAD^-", "HEAD^-2", "late..",
            "...late", "nosuch..late", "HEAD~99", "link",
            "main", "heads/main", "refs/heads/link")
    for options in ("", " --verify", " --verify --quiet", " --short", " --short=9", " -q",
                    " --symbolic-full-name", " --abbrev-ref",
                    " --abbrev-ref=loose", " --abbrev-ref=strict"):
        commands += each(odd, f"rev-parse{options}", *some)
        commands += rows(odd, f"rev-parse{options} light outer",
                         f"rev-parse{options} HEAD nosuch light", f"rev-parse{options}")
    commands += each(odd, "rev-parse", "HEAD^{tree}", "HEAD^{blob}", "tree", "tree^{tree}",
                     "tree^{commit}", "file", "file^{blob}", "file^{}",
                     "HEAD^{nosuch}", "HEAD^{", "HEAD^{commit", "HEAD~", "HEAD^", "HEAD^^^",
                     "HEAD~1~1^0", "HEAD^00", "HEAD~00001", "HEAD^1x",
                     "HEAD~-1", "HEAD~9999999999", "HEAD^9999999999", "HEAD^-0", "HEAD^-1",
                     "HEAD^-4294967297", "HEAD@", "@@", "@^", "HEAD^!^!",
                     "..", "...", "HEAD..", "^^HEAD", "^HEAD^@", "^HEAD..light", "HEAD..^light",
                     "a..b..c", "HEAD:folder/file", ":folder/file",
                     "HEAD:", "HEAD:nosuch", ":/file", ":/nosuch", "HEAD^{/file}", "HEAD^{/nosuch}",
                     "folder/file", "folder", "-x", "--nosuch",
                     "--all", "--branches", "--git-dir", "HEAD~1^-", "late~1..early",
                     "refs/heads/main", "FETCH_HEAD", "ORIG_HEAD", "MERGE_HEAD",
                     "%(refname)", "heads/%(refname)", "a$b`c`;d", "@x", "@{0}", "HEAD@{0}",
                     "main@{0}", "HEAD@{99}", "@{99}", "light@{0}", "@{-1}",
                     "main@{u}", "@{u}", "@{push}", "main@{upstream}", "nosuch@{u}", "HEAD@{u}",
                     "@{yesterday}", "HEAD@{2001-01-01}", "HEAD@{", "@{",
                     "HEAD@{-1}", "main@{u}..HEAD", "1" * 40, "1" * 39, "f" * 40 + "^0",
                     ids[3].upper(), ids[3] + "0", ids[3][:3], ids[3][:4].upper())
    commands += rows(odd, "rev-parse --short=x HEAD", "rev-parse --short=x=9 HEAD",
                     "rev-parse --short=1 HEAD", "rev-parse --short=99 HEAD",
                     "rev-parse --short= HEAD", "rev-parse --short=0 HEAD", "rev-parse --verify",
                     "rev-parse --verify HEAD light",
                     "rev-parse HEAD --verify", "rev-parse HEAD -q nosuch",
                     "rev-parse --short HEAD..light", "rev-parse --short ^HEAD",
                     "rev-parse --verify HEAD..light", "rev-parse --verify HEAD^!",
                     "rev-parse -q --verify nosuch", "rev-parse --verify --short HEAD",
                     "rev-parse -- HEAD", "rev-parse HEAD --",
                     "rev-parse --symbolic-full-name HEAD..light",
                     "rev-parse --abbrev-ref HEAD ^light",
                     "rev-parse --symbolic-full-name HEAD^0", "rev-parse --abbrev-ref link",
                     "rev-parse --abbrev-ref=x HEAD")
    # To rev-list, a mark is the one at the end of a word, whatever other marks the word has.
    for word in ("^@~1^-", "^@^-", "^@^-2", "^@^!", "^@^@", "^HEAD^-", "^^@^-", "^@^-0", "@^@^-",
                 "^@..^-"):
        commands += rows(odd, f"rev-list --count {word} HEAD", f"rev-list {word}",
                         f"rev-list --not {word} --not HEAD", f"rev-parse {word}", is_strict=True)
    # Such a step names nothing, and git does not look up what is before it.
    for word in ("nosuch@{u}~4294967296", "^nosuch@{u}~4294967296", "nosuch@{u}^2147483648",
                 "nosuch@{u}~2147483648~1", "nosuch@{u}~1~2147483648", "nosuch@{u}~2147483647",
                 "HEAD@{99}~2147483648", "nosuch@{u}~00000000001"):
        commands += rows(odd, f"rev-parse --flags {word}", f"rev-parse {word}",
                         f"rev-parse --verify -q {word}", f"rev-list {word}",
                         f"merge-base HEAD {word}", is_strict=True)
    return commands


def digits(room: Room) -> list[Command]:
    """Names that look like digits of ids, and digits that are ambiguous."""
    named = digit_names(room)
    ids = named.ids
    commands: list[Command] = []
    for text in (f"{ids[0][:4]}-login", ids[2][:8], ids[2][:9], f"v1-2-g{ids[4][:7]}",
                 f"v1-3-g{ids[4][:7]}", ids[1][:3], ids[3][:6]):
        commands += each(named, "rev-parse", text, f"{text}^0", f"heads/{text}", f"tags/{text}",
                         f"{text}^!", f"^{text}", f"commit-1..{text}", text.upper())
    commands += each(named, "rev-parse", "feed", "feed~1", "feed...decade-2024",
                     "decade-2024..feed", f"feed..{ids[4][:9]}", f"{ids[0]}...feed", "^feed",
                     "feed^!", "ee...feed", "..feed", "feed...", "feed~1...ee", "feed..nosuch",
                     "nosuch...feed", "dead", "dead...feed", "feed~99",
                     "feed...feed~99", "feed^{commit}...ee", "feed^{/2}", ":/2", ":/2...feed",
                     "feed:", "feed@{0}", "feed a", "decade-2024^@",
                     f"decade-2024...{ids[1][:6]}~1", "deadbeef-nosuch")
    commands += [row(named, "rev-parse", "feed...ee", "decade-2024...feed", ids[3],
                     "commit-1...commit-4", "nosuch...feed")]
    commands += [row(named, "rev-parse", *["feed", "decade-2024~1"] * 60, "feed...decade-2024",
                     "decade-2024..ee")]
    quiet = room.copy(named, "quiet digits")
    quiet.git("config", "core.warnAmbiguousRefs", "false")
    for place in (named, quiet):
        commands += each(place, "rev-parse", ids[5], f"{ids[5]}~1", f"{ids[5]}...feed",
                         f"{ids[5]}..ee", f"heads/{ids[5]}", f"heads/{ids[5]}...{ids[5]}")
        commands += each(place, "rev-list -n 1", ids[5], f"heads/{ids[5]}", ids[1][:3])
        for option in ("--abbrev-ref", "--abbrev-ref=loose", "--symbolic-full-name", "--symbolic"):
            commands += each(place, f"rev-parse {option}", *ids[3:6], f"heads/{ids[5]}")
    return commands + ambiguous(room)


def ambiguous(room: Room) -> list[Command]:
    """Digits with which several objects begin: commits, blobs, or one of each."""
    made = one_line(room, "ambiguous", 3)
    by_digits: dict[str, list[str]] = {}
    parent = made.ids[-1]
    tree = made.git("rev-parse", "HEAD^{tree}")
    texts = "".join(
        f"commit refs/heads/many\nmark :{n}\n"
        f"committer a <a@example.org> {1_000_001_000 + n} +0000\ndata 0\n"
        f"from {parent if n == 1 else f':{n - 1}'}\n\n" for n in range(1, 700)
    )
    texts += "".join(f"blob\nmark :{n}\ndata {len(str(n))}\n{n}\n" for n in range(1000, 1700))
    made.git("fast-import", "--quiet", data=texts.encode())
    kinds = {}
    for line in made.git("cat-file", "--batch-all-objects",
                         "--batch-check=%(objectname) %(objecttype)").split("\n"):
        id, kind = line.split(" ")
        kinds[id] = kind
        by_digits.setdefault(id[:4], []).append(id)
    chosen: dict[str, str] = {}
    for begin, ids in by_digits.items():
        if len(ids) > 1:
            chosen.setdefault(" ".join(sorted(kinds[id] for id in ids)), begin)
    made.git("tag", "v1", parent)
    made.git("branch", "2024")
    made.git("tag", "2024", f"{parent}~1")
    preferring = room.copy(made, "preferring")
    preferring.git("config", "core.disambiguate", "committish")
    preferring.may_be_refused = True
    commands = []
    for begin in chosen.values():
        commands += each(preferring, "rev-parse", begin, f"{begin}^0", f"{begin}..HEAD")
        commands += each(made, "rev-parse", begin, f"{begin}^0", f"{begin}~1",
                         f"{begin}^{{commit}}", f"{begin}^{{tree}}", f"{begin}..HEAD",
                         f"HEAD...{begin}")
        commands += each(made, "rev-parse --verify -q", begin)
        commands += each(made, "merge-base HEAD", begin)
        commands += each(made, "rev-list --count", begin, f"^{begin}", f"{begin}..HEAD")
        commands += each(made, "rev-list", f"{begin}^!", f"^{begin}^!", f"{begin}^-", f"{begin}^@")
        commands += each(made, "describe --tags", begin, f"x-1-g{begin}")
        commands += each(made, "rev-parse --short=4", by_digits[begin][0])
    commands += each(made, "rev-parse --short=4", *made.ids, tree)
    commands += [row(made, *f"describe --tags --abbrev=4 {it}".split(" ")) for it
                 in made.git("rev-list", "-n", "12", "many").split("\n")]
    commands += each(made, "rev-parse", *(it.upper() for it in chosen.values()))
    commands += each(made, "rev-parse -q --verify", "2024", "^2024", is_strict=True)
    return commands + unreadable(room)


def unreadable(room: Room) -> list[Command]:
    """Digits with which objects begin that git cannot read: of an unknown kind, or damaged."""
    made = one_line(room, "unreadable", 2)
    # What git says of the objects depends on the damage. It says nothing if it is to be quiet.
    made.may_be_refused = True
    for kind, texts in (("bad", ("xyzfaowcoh", "xyzhjpyvwl")), ("blob", ("bnkxmdwz", "bmwsjxzi")),
                        ("blob", ("brocdnra", "brigddsv"))):
        ids = [made.git("hash-object", "-t", kind, "-w", "--stdin", "--literally",
                        data=f"{it}\n".encode()) for it in texts]
        if texts[0] == "bnkxmdwz":
            os.chmod(made.loose(ids[1]), 0o644)
            made.write(f".git/objects/{ids[1][:2]}/{ids[1][2:]}", "broken\n")
    commands = []
    for digits in ("bad0", "cafe"):
        commands += each(made, "rev-parse", digits, f"{digits}^0", f"{digits}..HEAD", f"^{digits}")
        commands += each(made, "rev-parse -q --verify", digits, is_strict=True)
        commands += each(made, "rev-list", digits) + each(made, "describe", digits)
    commands += each(made, "rev-parse", "dead", "DEAD", "dead..HEAD", is_strict=True)
    return commands


# What for-each-ref prints of the branches that belong to a branch, and of symbolic references.
SIBLINGS = (
    "%(refname) %(upstream) %(upstream:short) %(upstream:lstrip=2) %(upstream:rstrip=1)",
    "%(upstream:track) %(upstream:track,nobracket) %(upstream:nobracket,track) %(upstream:trackshort)",
    "%(upstream:nobracket) %(upstream:remotename) %(upstream:remoteref) %(upstream:track,remotename)",
    "%(push) %(push:short) %(push:strip=2) %(push:track) %(push:track,nobracket) %(push:trackshort)",
    "%(refname:short) %(symref) %(symref:short) %(symref:lstrip=-1) %(symref:rstrip=1)",
)


def remotes(made: Repository, room: Room) -> list[Command]:
    """Upstreams and push destinations by unusual settings."""
    ours = "+refs/heads/*:refs/remotes/{}/*"
    settings_by_name = {
        "a mirror": ("remote.origin.mirror true",),
        "no mirror": ("remote.origin.mirror false", "push.default current"),
        "a mirror that pushes": ("remote.origin.mirror true", "remote.origin.push refs/heads/*:refs/heads/*"),
        "a mapped local branch": (f"remote...fetch {ours.format('origin')}", "branch.local.merge refs/heads/main"),
        "another remote": ("branch.local.pushRemote origin", "push.default current"),
        "one remote": (f"remote.up.fetch {ours.format('up')}", "push.default current"),
    }
    commands = []
    for name, texts in settings_by_name.items():
        place = room.copy(made, f"siblings with {name}")
        place.git("update-ref", "refs/remotes/origin/x", "main~1")
        place.git("symbolic-ref", "refs/remotes/origin/local", "refs/remotes/origin/x")
        if name == "one remote":
            for section in ("remote.origin", "remote", "branch.main", "branch.tracked"):
                place.git("config", "--remove-section", section)
        for text in texts:
            place.git("config", *text.split(" ", 1))
        commands += [row(place, "for-each-ref", f"--format={it}", is_strict=name != "one remote") for it in SIBLINGS]
        commands += rows(place, "for-each-ref --format=%(push:remotename,track)|%(push:nobracket,remoteref)",
                         "rev-parse --abbrev-ref @{push} local@{u}", "rev-parse local@{push}")
    head = room.copy(made, "a branch with the name HEAD")
    head.git("update-ref", "refs/heads/HEAD", "main~1")
    head.may_be_refused = True
    return commands + [row(head, "for-each-ref", f"--format={it}") for it in SIBLINGS]


def branches(room: Room) -> list[Command]:
    """Upstreams, where branches are pushed to, and reflogs."""
    made = siblings(room)
    formats = [f"--format={fields}" for fields in SIBLINGS]
    some = ("@{u}", "@{push}", "main@{u}", "main@{upstream}", "main@{UPSTREAM}", "dev@{u}",
            "tracked@{u}", "local@{u}", "local@{push}", "tracked@{push}",
            "HEAD@{u}", "nosuch@{u}", "HEAD@{0}", "HEAD@{1}", "HEAD@{2}", "HEAD@{99}", "@{0}",
            "@{1}", "@{99}", "main@{1}", "main@{99}", "dev@{0}", "dev@{1}",
            "@{-1}", "@{-2}", "@{-3}", "@{-4}", "@{-99}", "@{-1}~1", "@{-1}@{u}", "@{-1}@{0}",
            "HEAD@{1}~1", "@{u}~1", "@{u}^0", "main@{u}^{tree}",
            "HEAD..@{u}", "HEAD...@{u}", "HEAD..main@{upstream}", "dev..main@{push}", "@{u}..HEAD",
            "@{u}...", "..@{u}", "@{1}..@{0}", "dev@{u}..HEAD",
            "^@{u}", "@{u}^!", "@{u}^@", "origin", "origin/main", "origin/HEAD", "heads/main@{u}",
            "refs/heads/main@{u}", "@{u}@{0}", "origin@{u}")
    commands = common(made, *WHOLE)
    for options in ("rev-parse", "rev-parse --verify -q", "rev-parse --symbolic-full-name",
                    "rev-parse --abbrev-ref", "rev-parse --short"):
        commands += each(made, options, *some)
    commands += rows(made, "rev-parse HEAD dev@{u}", "rev-parse -q --verify HEAD..@{u}",
                     "rev-list --count --left-right @{u}...HEAD",
                     "rev-list @{u}..", "rev-list --count ..@{u}", "rev-list @{1}..@{0}",
                     "merge-base HEAD @{u}", "merge-base --fork-point origin/main",
                     "merge-base --fork-point main", "merge-base --fork-point main dev",
                     "merge-base --fork-point @{u}", "describe --all @{u}",
                     "describe --all @{-1}", "for-each-ref --format=%(refname) --contains @{u}",
                     "for-each-ref --format=%(refname) --no-merged @{-1}")
    for default in ("nothing", "current", "upstream", "simple", "matching", "bad"):
        commands += rows(made, "rev-parse --abbrev-ref @{push}", "rev-parse tracked@{push}",
                         environment=settings("push.default", default))
        if default != "bad":
            commands += each(made, "for-each-ref", formats[3],
                             environment=settings("push.default", default))
    commands += remotes(made, room)
    gone = room.copy(made, "gone upstream")
    gone.git("update-ref", "-d", "refs/remotes/origin/other")
    gone.git("symbolic-ref", "refs/heads/symbolic", "refs/heads/dev")
    near = room.copy(gone, "upstreams that are local")
    near.git("tag", "dev", "main")
    merges = ("main", "refs/heads/symbolic", "symbolic", "nosuch", "dev", "heads/main")
    for number, merge in enumerate(merges):
        near.git("update-ref", f"refs/heads/near{number}", "dev~1")
        near.git("config", f"branch.near{number}.remote", ".")
        near.git("config", f"branch.near{number}.merge", merge)
    twice = room.copy(made, "siblings of two references")
    twice.git("update-ref", "refs/remotes/main", "dev")
    quiet = room.copy(twice, "quiet siblings")
    quiet.git("config", "core.warnAmbiguousRefs", "false")
    for place in (made, twice, quiet, gone, near):
        commands += each(place, "for-each-ref", *formats, is_strict=True)
    for place in (twice, quiet):
        commands += each(place, "rev-parse", "local@{u}", "local@{UPSTREAM}~1", "^local@{u}",
                         "local@{u}..HEAD", "HEAD...local@{u}^0", "local@{u}^{tree}", "@{u}",
                         "local@{u}^!", is_strict=True)
        commands += each(place, "rev-parse -q --verify", "local@{u}", "local@{u}~1")
        commands += each(place, "rev-list -n 1", "local@{u}", "local@{u}..HEAD~1")
        commands += each(place, "rev-parse --abbrev-ref", "local@{u}", "main")
        commands += rows(place, "merge-base local@{u} HEAD", "describe --all local@{u}")
    bare = room.clone(made, "bare clone", "--bare")
    commands += each(bare, "rev-parse", "@{u}", "main@{u}", "HEAD@{0}", "@{0}", "@{1}", "@{-1}",
                     "main@{0}")
    return commands


# Dates that have to be read: their moments are known, or no entry of a reflog is near them.
DATES = (
    "now", "yesterday", "1 second ago", "5.days.ago", "2 weeks ago", "1000 days ago",
    "1 month ago", "2.years.ago", "20 years ago", "2005-05-25", "2005-05-29", "2024-02-29",
    "2005-05-25 12:00:00", "2005-05-28T00:00:00", "2005-05-26 23:32:05 +0000",
    "2005-05-26T23:32:35Z", "2005-05-27 01:32:35 +0200", "2005-05-26T15:32:35-08:00",
    "1117150335 +0000", "1117150365 -0700",
)

# Dates that git may read otherwise than the program. It may refuse these.
DOUBTED = (
    "2005-05-26", "2005-05-27", "2005-05-26 23:32:35", "2005-05-27T01:32:35", "21 years ago",
    "258 months ago", "+1", "-0", "1 +0000", "-5 +0000", "001 day ago", "010 days ago",
    "20050526 +0000", "1960-01-01", "1969-12-31", "1970-01-01 00:00:00 +0000", "2100-01-01",
    "2100-01-01 00:00:00 +0000", "71 years ago", "24856 days ago", "9999 weeks ago",
    "100000000 seconds ago", "20000101 seconds 100000 seconds ago", "1 day 1 month ago",
    "27 May 2005 00:00 CET", "27 May 2005 00:00 +2400", "27 May 05 10:00 Z",
    "Fri, 27 May 2005 01:32:35 +0200", "Fri May 27 01:32:35 2005", "2005-05-26 23:32:35 -0001",
    "2005-05-26 23:32:35 CET", "2005-05-26 23:32", "2005-05-26 23:32:60 +0000", "noon", "never",
    "last friday", "tea", "12:00", "May 27", "5/27/2005", "5 days", "1.day.2.hours.ago", "today",
)


def reflogs(room: Room) -> list[Command]:
    """Reflogs with gaps, reflogs that end with another commit, and empty ones."""
    made = logged(room)
    commands = []
    dates = ("2005-05-25", "2030-01-01", *range(1117150319, 1117150382, 10), 1117150320,
             1117150330, 1117150350, 1117150380)
    for name in (*LOGS, "junk", "link", "bare", "heads/ended", "nosuch", "HEAD", "@", ""):
        commands += each(made, "rev-parse", *(f"{name}@{{{it}}}" for it in (*dates, *range(6), 99)),
                         is_strict=True)
    # git takes the local time of day for a day, and the local zone for a time without one.
    zones = ("UTC", "Europe/Berlin", "Pacific/Kiritimati", "America/Los_Angeles")
    for zone in zones:
        for name in ("gap", "early"):
            commands += each(made, "rev-parse", *(f"{name}@{{{it}}}" for it in DATES),
                             environment={b"TZ": zone.encode()}, is_strict=True)
            commands += each(made, "rev-parse", *(f"{name}@{{{it}}}" for it in DOUBTED),
                             environment={b"TZ": zone.encode()})
    for name in ("gap", "ended", "none", ""):
        few = [f"{name}@{{{it}}}" for it in ("2005-05-25", 1117150351, "2030-01-01", 2, 99)]
        for text in few:
            commands += each(made, "rev-parse", f"{text}~1", f"{text}^{{tree}}", f"{text}..HEAD",
                             f"HEAD...{text}", f"{text}^!", f"^{text}", f"{text}~99")
        for front in ("rev-parse -q --verify", "rev-parse --symbolic-full-name",
                      "rev-list --count", "merge-base HEAD", "merge-base --fork-point",
                      "describe --all"):
            commands += each(made, front, *few)
        commands += each(made, "rev-parse -q --verify", *(f"{it}~1" for it in few))
    return commands


def working_trees(room: Room) -> list[Command]:
    """Working trees that are clean or dirty, and linked ones."""
    commands = []
    for place in trees(room):
        commands += rows(place, "describe --tags --dirty", "describe --tags --dirty=.x",
                         "describe --always --dirty=", is_strict=True)
        commands += rows(place, "describe --tags --dirty --all --long",
                         "describe --always --match=none --dirty", "describe --dirty HEAD",
                         "describe --tags --no-dirty")
        commands += common(place, folder=place.path + b"/folder")
        commands += common(place)[:10]
        commands += rows(place, *WHERE) + rows(place, *WHERE, folder=place.path + b"/folder")
        commands += each(place, "rev-parse", "main-worktree/HEAD", "worktrees/touched/HEAD",
                         "refs/worktree/own", "worktree/own", "worktrees/touched/refs/worktree/own")
        commands += rows(place, "describe --all HEAD~2", "rev-list --all -n 3", "describe --broken",
                         folder=place.path + b"/folder")
        commands += rows(place, "rev-list --exclude=worktrees/* --all", "rev-list --exclude=*/HEAD --all",
                         "rev-list --exclude=main-worktree/HEAD --all", "rev-list --exclude=x --branches")
    inside = commands[0].place
    commands += rows(inside, "describe --tags --dirty", "describe --dirty HEAD",
                     folder=inside.path + b"/.git", is_strict=True)
    commands += common(inside, folder=inside.path + b"/.git")[:6]
    commands += common(inside, folder=inside.path + b"/.git/objects")[:3]
    return commands


# Words that ask whether a working tree is dirty.
DIRTY = ("describe --tags --dirty", "describe --tags --long --dirty=-x", "describe --always --dirty",
         "describe --tags --abbrev=0 --dirty", "describe --all --dirty=",
         "describe --tags --exact-match --dirty HEAD", "describe --dirty --no-dirty --tags",
         "describe --dirty=x --tags --broken HEAD", "describe --tags --dirty --long --abbrev=0",
         "describe --match nothing --dirty")


def changes() -> dict[str, tuple]:
    """Returns what is done to a clean working tree, by a name: commands, and whether
    `describe --dirty` has to be answered."""
    return {
        "kept": ((), True),
        "same size": (("printf '%s\\n' CONTENT.1 >folder/file",), True),
        "other size": (("echo longer content >folder/file",), True),
        "touched": (("touch a folder/run",), True),
        "gone": (("rm folder/file",), True),
        "folder gone": (("rm -r folder",), True),
        "staged": (("echo staged >a", "git add a"), True),
        "staged and undone": (("echo staged >a", "git add a", "echo 'content 0' >a"), True),
        "added": (("echo new >new", "git add new"), True),
        "added and gone": (("echo new >new", "git add new", "rm new"), True),
        "removed": (("git rm -q --cached a",), True),
        "to be added": (("echo new >new", "git add -N new"), True),
        "to be added and gone": (("echo new >new", "git add -N new", "rm new"), True),
        "mode": (("chmod -x folder/run",), True),
        "mode that does not count": (("git config core.fileMode false", "chmod +x a"), True),
        "link elsewhere": (("ln -sfn elsewhere link",), True),
        "link in place of a file": (("rm a", "ln -s folder/file a"), True),
        "folder in place of a file": (("rm a", "mkdir a", "echo x >a/x"), True),
        "link in place of a folder": (("mv folder moved", "ln -s moved folder"), True),
        "repository in place of a file": (("rm a", "git init -q a"), False),
        "not looked at": (("git update-index --assume-unchanged a", "echo other >a"), True),
        "left out": (("git update-index --skip-worktree a", "rm a"), True),
        "left out of a sparse checkout": (
            ("git sparse-checkout set --no-cone /folder/",), True),
        "there although left out": (
            ("git sparse-checkout set --no-cone /folder/", "echo other >a"), False),
        "no index": (("rm .git/index",), True),
        "read anew": (("git read-tree HEAD",), True),
        "racy": (("git config core.trustctime true", "touch a", "git update-index --refresh"), True),
        "committed": (("echo more >more", "git add more", "git commit -q -m more"), True),
        "minimal": (("git config core.checkStat minimal", "cp -p a b", "mv b a"), True),
        "unmerged": (
            ("git checkout -q -b other HEAD~1", "echo other >a", "git add a",
             "git commit -q -m other", "git merge -q main || true"), True),
        "split": (("git update-index --split-index",), False),
        "sparse": (("git sparse-checkout set --cone --sparse-index folder",), False),
        "untracked": (("git update-index --untracked-cache --force-untracked-cache",), True),
        "line ends": (("git config core.autocrlf true", "touch a"), True),
        "other line ends": (
            ("git config core.autocrlf input", "printf 'x\\r\\n' >a", "git add a",
             "git commit -q -m crlf", "touch a"), False),
        "filter": (("echo '* filter=x' >.gitattributes", "touch a"), False),
        "harmless attributes": (("echo '* -diff' >.gitattributes", "touch a"), True),
        "empty submodule": (
            ("git init -q sub", "git -C sub commit -q --allow-empty -m sub", "git add sub",
             "git commit -q -m sub", "rm -rf sub", "mkdir sub"), True),
        "submodule": (
            ("git init -q sub", "git -C sub commit -q --allow-empty -m sub", "git add sub",
             "git commit -q -m sub"), False),
        "damaged": (("printf x | dd of=.git/index bs=1 seek=100 conv=notrunc status=none",), False),
        "monitored": (("git config core.fsmonitor /nosuch",), False),
        "unborn": (("git symbolic-ref HEAD refs/heads/unborn",), True),
    }


def indexes(room: Room) -> list[Command]:
    """Working trees with indexes of all versions, and with changes of each kind."""
    commands = []
    for version in (2, 3, 4):
        place = kept(room, f"index {version}", version)
        commands += rows(place, *DIRTY, is_strict=True)
        commands += rows(place, *DIRTY[:2], folder=place.path + b"/folder", is_strict=True)
        place.write("new", "new\n")
        place.git("add", "-N", "new")
        commands += rows(room.copy(place, f"added later {version}"), *DIRTY, is_strict=True)
    base = kept(room, "to change", 4)
    for name, (lines, sure) in changes().items():
        place = room.copy(base, f"with {name}")
        age(place)
        for line in lines:
            subprocess.run(["sh", "-c", line], cwd=place.path, env=ENVIRONMENT, check=True,
                           capture_output=True)
        # Git leaves the index as it is, so that both programs read the same one.
        place.write(".git/index.lock", "")
        place.may_be_refused = not sure
        commands += rows(place, *DIRTY[:5], is_strict=sure)
    bare = room.clone(base, "bare of files", "--bare")
    commands += rows(bare, *DIRTY, is_strict=True)
    return commands + elsewhere(room, base)


def elsewhere(room: Room, base: Repository) -> list[Command]:
    """Working trees and indexes in other places."""
    away = {"folder": room.path("nowhere"), "is_strict": True}
    git_folder = base.path + b"/.git"
    commands = []
    for before in ((b"--git-dir", git_folder, b"--work-tree", base.path),
                   (b"-C", base.path + b"/folder"), (b"--git-dir", git_folder)):
        commands += rows(base, *DIRTY[:2], before=before, **away)
    other = room.copy(base, "with a second index")
    other.git("read-tree", "HEAD~1")
    os.rename(other.path + b"/.git/index", other.path + b"/.git/second")
    for path in (b".git/second", other.path + b"/.git/second", b".git/nosuch"):
        commands += rows(other, *DIRTY[:2], environment={b"GIT_INDEX_FILE": path}, is_strict=True)
        commands += rows(other, *DIRTY[:2], environment={b"GIT_INDEX_FILE": path},
                         folder=other.path + b"/folder", is_strict=True)
    apart = room.copy(base, "with a work tree elsewhere")
    apart.git("config", "core.worktree", base.path)
    return commands + rows(apart, *DIRTY[:3], is_strict=True)


def unusual(room: Room) -> list[Command]:
    """No tags, no commits, no repository, other ids; bare, shallow and changed histories."""
    base = room.random("base", 77, "rising", 30)
    untagged = room.clone(base, "untagged", "--no-tags")
    empty = room.init("empty")
    unborn = room.copy(base, "unborn")
    unborn.git("symbolic-ref", "HEAD", "refs/heads/unborn")
    detached = room.copy(base, "detached")
    detached.git("update-ref", "--no-deref", "HEAD", base.ids[20])
    packed = room.copy(base, "packed")
    packed.git("gc", "-q")
    blob = room.init("tagged blob")
    blob.git("tag", "file", blob.git("hash-object", "-w", "--stdin", data=b"file\n"))
    nowhere = Repository(room.path("nowhere"))
    os.makedirs(nowhere.path)
    foreign = room.init("sha256", "--object-format=sha256")
    foreign.may_be_refused = True
    bare = room.clone(base, "bare", "--bare")
    shallow = room.clone(base, "shallow", "--no-single-branch", "--depth=3")
    shallow_file = filed(room, shallow, "shallow with a file") if shallow.ids else shallow
    commands = []
    for place in (untagged, empty, unborn, detached, packed, blob, nowhere, foreign, bare, shallow,
                  shallow_file):
        commands += common(place, "rev-list HEAD", "describe --tags --exact-match",
                           "merge-base --octopus", "rev-list --all", "rev-list --branches -n 2",
                           *WHERE)
    commands += rows(bare, *WHERE, folder=bare.path + b"/refs/heads")
    commands += rows(base, "rev-parse --git-path", "rev-parse --path-format --git-dir",
                     "rev-parse --path-format=odd", "rev-parse --show-object-format=odd",
                     "rev-parse --show-object-format --show-prefix", is_strict=True)
    commands += rows(unborn, "describe --all --dirty", "rev-parse @", "rev-parse --abbrev-ref @",
                     "rev-list --count HEAD --")
    # The current branch is then what the short name `HEAD` stands for.
    for of in (base, unborn):
        tagged = room.copy(of, os.path.basename(of.path).decode() + " with a tag HEAD")
        tagged.git("update-ref", "refs/tags/HEAD", base.ids[3])
        for word in ("@{0}", "@{1}", "@{now}", "HEAD@{0}", "@{u}", "@{0}~1"):
            commands += rows(tagged, f"rev-parse {word}", f"rev-parse -q --verify {word}",
                             f"rev-list --count {word}", is_strict=True)
    return commands + changed(room, base) + separate(room, base)


def changed(room: Room, base: Repository) -> list[Command]:
    """Histories that grafts and replace references change."""
    grafted = room.copy(base, "grafted")
    head = base.git("rev-parse", "HEAD")
    grafted.write(".git/info/grafts",
                  f"{head} {base.ids[2]} {base.ids[5]}\n{base.ids[4]}\n# nothing\n")
    replaced = room.copy(base, "replaced")
    replaced.git("replace", "--graft", head, base.ids[3])
    replaced.git("replace", "--graft", base.ids[12])
    cut = room.copy(base, "cut short")
    cut.write(".git/shallow", f"{base.ids[4]}\n")
    cut.write("deeper/file", "")
    commands = common(grafted, *WHOLE) + common(replaced, *WHOLE) + common(cut, *WHOLE)
    commands += rows(cut, *WHOLE, environment={b"GIT_SHALLOW_FILE": b""},
                     folder=cut.path + b"/deeper", is_strict=True)
    commands += common(replaced, environment={b"GIT_NO_REPLACE_OBJECTS": b"1"})
    commands += common(replaced, before=(b"--no-replace-objects",))[:4]
    circle = room.copy(base, "replaced in a circle")
    circle.git("update-ref", f"refs/replace/{head}", base.ids[3])
    circle.git("update-ref", f"refs/replace/{base.ids[3]}", head)
    # git meets other objects of the circle first than `git proved` in lists and walks.
    commands += rows(circle, "rev-parse HEAD", "rev-parse HEAD^0", "rev-parse -q --verify HEAD^0",
                     "rev-parse HEAD~1", "rev-parse HEAD^{tree}", "rev-parse HEAD..HEAD~1",
                     "rev-list -1 HEAD", "rev-list HEAD", "merge-base HEAD HEAD~1", "describe",
                     "rev-parse :/nosuch", "rev-parse --short HEAD", is_strict=True)
    other = room.copy(replaced, "replaced otherwise")
    other.git("config", "core.useReplaceRefs", "false")
    return commands + common(other)


def separate(room: Room, base: Repository) -> list[Command]:
    """Repositories that are found in other ways."""
    commands = []
    git_folder = base.path + b"/.git"
    away = {"folder": room.path("nowhere")}
    for before, more in (
        ((b"-C", base.path), away),
        ((b"-C", room.folder, b"-C", b"base"), away),
        ((b"--git-dir=" + git_folder,), away),
        ((b"--git-dir", git_folder), away),
        ((b"--git-dir", git_folder, b"--work-tree", base.path), away),
        ((b"--git-dir=" + git_folder, b"--work-tree=" + base.path), away),
        ((b"--git-dir=/nosuch",), away),
        ((b"-C", b"/nosuch"), away),
        ((), {**away, "environment": {b"GIT_DIR": git_folder}}),
        ((), {**away, "environment": {b"GIT_DIR": git_folder, b"GIT_WORK_TREE": base.path}}),
        ((), {**away, "environment": {b"GIT_DIR": b"/nosuch"}}),
        ((), {"environment": {b"GIT_CEILING_DIRECTORIES": room.folder}}),
        ((), {**away, "environment": {b"GIT_CEILING_DIRECTORIES": room.folder}}),
        ((), {"environment": {b"GIT_CONFIG_COUNT": b"1", b"GIT_CONFIG_KEY_0": b"core.abbrev",
                              b"GIT_CONFIG_VALUE_0": b"12"}}),
        ((), {"environment": {b"GIT_OBJECT_DIRECTORY": b"/nosuch"}}),
        ((b"--no-pager",), {}), ((b"--bare",), {}), ((b"--nosuch",), {}), ((b"-p",), {}),
    ):
        commands += common(base, before=before, **more)[:12:2]
        commands += rows(base, *WHERE, before=before, **more)
    commands += inside(base)
    # Objects of another repository, and a repository whose folder is elsewhere.
    borrowed = room.clone(base, "borrowed", "--shared")
    moved = room.clone(base, "moved", b"--separate-git-dir=" + room.path("moved git"))
    linked = Repository(room.path("linked"), base.ids, base.names)
    os.symlink(base.path, linked.path)
    for place in (borrowed, moved, linked):
        commands += common(place, "describe --tags --dirty", *WHERE)
        place.write("folder/below/file", "text")
        commands += rows(place, *WHERE, folder=place.path + b"/folder/below")
    commands += elsewhere_asked(room, base)
    for config in ("core.abbrev=5", "core.abbrev=40", "core.abbrev=no", "core.abbrev=auto",
                   "core.abbrev=2", "core.abbrev=x", "core.commitGraph=false",
                   "tag.sort=nonsense", "branch.sort=nonsense", "core.bare=true",
                   "core.repositoryformatversion=7", "extensions.nosuch=1", "color.ui=always"):
        settled = room.copy(base, "with " + config.replace("=", " is "))
        settled.write(".git/config", settled_config(settled, config))
        # git refuses these repositories.
        settled.may_be_refused = config.endswith(("=2", "=x", "=7", "nosuch=1"))
        commands += rows(settled, "rev-parse --short HEAD", "describe --tags --long",
                         "describe --match v* --always", "merge-base HEAD HEAD~1",
                         "rev-list -n 2 HEAD", "rev-parse --abbrev-ref HEAD")
    return commands + variables(room, base) + gitfiles(room, base)


def elsewhere_asked(room: Room, base: Repository) -> list[Command]:
    """Where a repository is, if settings, variables, links and current folders differ."""
    made = room.copy(base, "asked where it is")
    made.write("a/b/file", "text")
    made.write(".github/file", "text")
    os.symlink(made.path + b"/a", room.path("link to a"))
    apart = room.copy(base, "with its work tree apart")
    apart.git("config", "core.worktree", "../../asked where it is/a")
    bared = room.copy(made, "bare with files")
    bared.git("config", "core.bare", "true")
    linked = Repository(room.path("git folder by a link"), base.ids, base.names)
    os.makedirs(linked.path + b"/a")
    os.symlink(made.path + b"/.git", linked.path + b"/.git")
    commands = []
    for place, folders in (
        (made, (b".", b"a", b"a/b", b".github", b".git", b".git/refs", b"../link to a/b")),
        (apart, (b".", b".git", b"../asked where it is/a", b"../asked where it is/a/b", b"..")),
        (bared, (b".", b"a/b", b".git")), (linked, (b".", b"a", b".git")),
    ):
        git_folder = place.path + b"/.git"
        for at in folders:
            here = {"folder": os.path.join(place.path, at)}
            commands += rows(place, *WHERE, **here)
            for environment in (
                {b"GIT_DIR": git_folder}, {b"GIT_DIR": os.path.relpath(git_folder, here["folder"])},
                {b"GIT_DIR": git_folder, b"GIT_WORK_TREE": place.path},
                {b"GIT_WORK_TREE": made.path + b"/a"}, {b"GIT_WORK_TREE": b"."},
                {b"GIT_DIR": git_folder, b"GIT_WORK_TREE": made.path + b"/a"},
                {b"GIT_INDEX_FILE": b"x", b"GIT_OBJECT_DIRECTORY": git_folder + b"/objects"},
                {b"GIT_PREFIX": b"x"},
            ):
                commands += rows(place, *WHERE, environment=environment, **here)
    return commands


def inside(base: Repository) -> list[Command]:
    """A current folder inside of the git folder, where the files HEAD and refs are."""
    commands = []
    git_folder = base.path + b"/.git"
    for folder in (git_folder, git_folder + b"/refs", git_folder + b"/refs/heads"):
        for before in ((), (b"--git-dir=" + git_folder,), (b"--git-dir=" + git_folder + b"/",),
                       (b"--git-dir=" + os.path.relpath(git_folder, folder),),
                       (b"--git-dir=" + git_folder + b"/.",)):
            for work_tree in (None, b".", b"..", base.path, git_folder):
                more = {} if work_tree is None else {b"GIT_WORK_TREE": work_tree}
                commands += rows(base, "rev-list -1 HEAD", "rev-list -1 main", *WHERE[:4],
                                 before=before, folder=folder, environment=more, is_strict=True)
    return commands


def variables(room: Room, base: Repository) -> list[Command]:
    """Repositories that the environment puts together, and malformed variables."""
    other = room.copy(base, "with another folder")
    other.git("branch", "--force", "only-other", other.ids[3])
    bare = room.clone(base, "bare for variables", "--bare")
    emptied = room.copy(base, "without objects")
    shutil.rmtree(emptied.path + b"/.git/objects")
    os.makedirs(emptied.path + b"/.git/objects")
    objects = base.path + b"/.git/objects"
    commands = []
    for place, environment in (
        (emptied, {b"GIT_ALTERNATE_OBJECT_DIRECTORIES": objects}),
        (emptied, {b"GIT_ALTERNATE_OBJECT_DIRECTORIES": b"../base/.git/objects"}),
        (emptied, {b"GIT_OBJECT_DIRECTORY": objects}),
        (other, {b"GIT_DIR": b".git", b"GIT_COMMON_DIR": b".git"}),
        (other, {b"GIT_COMMON_DIR": b".git"}),
        (other, {b"GIT_COMMON_DIR": base.path + b"/.git"}),
        (other, {b"GIT_DIR": base.path + b"/.git", b"GIT_COMMON_DIR": other.path + b"/.git"}),
        (other, {b"GIT_COMMON_DIR": b""}),
        (other, {b"GIT_DIR": b""}), (bare, {b"GIT_DIR": b""}), (bare, {b"GIT_DIR": b"."}),
        (other, {b"GIT_CONFIG_NOSYSTEM": b"bad"}), (other, {b"GIT_CONFIG_NOSYSTEM": b""}),
        (other, {b"GIT_DISCOVERY_ACROSS_FILESYSTEM": b"x"}),
        (other, {b"GIT_DISCOVERY_ACROSS_FILESYSTEM": b"on"}),
    ):
        commands += common(place, environment=environment)[::3]
        commands += rows(place, "rev-parse only-other", "rev-list --all --count",
                         environment=environment)
    for path in (b"..", b"a", b"a/b", b"a//b", b"/a", b"a/", b"/", b"", b"a b", b"x.lock", b"x.lock/a",
                 b"@", b"a@{", b"*", b".a", b"a./b", b"a/b.", b"caf\xe9"):
        commands += rows(other, "rev-parse HEAD", "for-each-ref --format=%(refname)",
                         environment={b"GIT_NAMESPACE": path}, is_strict=True)
    return commands + rows(Repository(room.folder), "rev-parse HEAD",
                           environment={b"GIT_NAMESPACE": b".."}, is_strict=True)


def gitfiles(room: Room, base: Repository) -> list[Command]:
    """Submodules, and a linked working tree, whose repositories are there or have gone."""
    commands = []
    for name in ("above a submodule", "above a lost submodule"):
        above = room.random(name, 90, "rising", 12)
        above.git("-c", "protocol.file.allow=always", "submodule", "add", "-q", base.path, "sub")
        inside = Repository(above.path + b"/sub", base.ids, base.names)
        if "lost" in name:
            os.rename(above.path + b"/.git/modules", above.path + b"/.git/gone")
        inside.write("folder/file", "text")
        commands += common(inside)[::2] + common(inside, folder=inside.path + b"/folder")[::4]
        commands += rows(inside, *WHERE) + rows(inside, *WHERE, folder=inside.path + b"/folder")
        commands += common(above)[::4]
    moved = room.copy(base, "to be moved")
    moved.git("worktree", "add", "-q", "--detach", room.path("left behind"))
    os.rename(moved.path, room.path("moved away"))
    left = Repository(room.path("left behind"), base.ids, base.names)
    commands += common(left)[::3]
    commands += common(left, environment={b"GIT_DIR": left.path + b"/.git"})[::6]
    return commands


def settled_config(place: Repository, config: str) -> bytes:
    """Returns the config file of a repository with one more setting."""
    with open(place.path + b"/.git/config", "rb") as file:
        text = file.read()
    section, _, rest = config.partition(".")
    name, _, value = rest.partition("=")
    return text + f"[{section}]\n\t{name} = {value}\n".encode()


def graphs(room: Room) -> list[Command]:
    """Repositories with commit-graph files."""
    base = room.random("for graphs", 78, "rising", 40)
    skewed = room.random("skewed for graphs", 79, "skewed", 40)
    commands = []
    for of in (base, skewed):
        name = os.path.basename(of.path).decode()
        places = [filed(room, of, f"{name}, whole"), filed(room, of, f"{name}, part", 20),
                  chained(room, of, f"{name}, chain")]
        pair = "...".join(of.ids[-2:])
        sides = [f"rev-list {it} {pair}" for it in ("--right-only", "--left-only --count", "--left-only --date-order",
                                                    "--right-only --topo-order", "--left-right --topo-order")]
        for place in places:
            commands += common(place, *WHOLE, *sides)
    broken = filed(room, base, "with a broken file")
    broken.write(".git/objects/info/commit-graph", b"CGPH nothing")
    cut = filed(room, base, "with a cut file")
    path = cut.path + b"/.git/objects/info/commit-graph"
    os.chmod(path, 0o644)
    os.truncate(path, os.path.getsize(path) // 2)
    # git ends at a folder in place of the file.
    folder = room.copy(base, "with a folder")
    folder.twin = base.path
    os.makedirs(folder.path + b"/.git/objects/info/commit-graph")
    for place in (broken, cut, folder):
        commands += common(place, *WHOLE)
    # A folder whose name is not UTF-8, and its subfolder.
    latin = filed(room, base, b"caf\xe9")
    latin.may_be_refused = True
    os.makedirs(latin.path + b"/b\xfe/c")
    commands += common(latin, *WHOLE) + common(latin, folder=latin.path + b"/b\xfe/c")
    return commands + beside(room, base) + tall(room) + late(room)


def beside(room: Room, base: Repository) -> list[Command]:
    """Commit-graph files that git does not use, that of an alternate, and one of one commit."""
    whole = filed(room, base, "with a file of all")
    places = [room.copy(whole, f"with a file and {it}")
              for it in ("a setting", "a graft", "a replacement")]
    set_off, grafted, replaced = places
    set_off.git("config", "core.commitGraph", "false")
    grafted.write(".git/info/grafts", f"{base.ids[20]} {base.ids[0]}\n")
    replaced.git("replace", base.ids[20], base.ids[0])
    shared = Repository(room.path("with an alternate's file"), base.ids, base.names)
    whole.git("clone", "-q", "--bare", "--shared", ".", shared.path)
    single = one_line(room, "one", 1)
    commands = rows(filed(room, single, "one with a file"), "merge-base --all HEAD HEAD",
                    "rev-parse HEAD", "rev-list HEAD", "rev-parse HEAD^", is_strict=True)
    for place in (*places, shared):
        commands += common(place, *WHOLE)
    return commands


def tall(room: Room) -> list[Command]:
    """70,000 commits on ten lines, whose positions in a commit-graph file take more than 16 bits."""
    made = room.init("tall")
    stream = []
    for n in range(1, 70_001):
        stream += [f"commit refs/heads/line-{n % 10}", f"mark :{n}",
                   f"committer a <a@example.org> {1_000_000_000 + n} +0000", "data 0"]
        stream += [f"from :{max(1, n - 10)}"] if n > 1 else []
        stream += [f"merge :{n - 5}"] if n > 11 and n % 10 == 3 else []
        stream.append("")
    made.git("fast-import", "--quiet", data="\n".join(stream).encode())
    made.git("commit-graph", "write", "--reachable")
    ids = made.git("rev-list", "--all").split("\n")[::701]
    commands = []
    for one, other, third in zip(ids, ids[37:] + ids, ids[63:] + ids):
        commands += rows(made, f"merge-base --all {one} {other}", f"rev-parse {one}~3^2",
                         f"merge-base --is-ancestor {other} {one}", f"rev-parse {one}...{other}",
                         f"merge-base --octopus {one} {other} {third}",
                         f"rev-list --count {other}..{one}", is_strict=True)
    return commands[::7]


def late(room: Room) -> list[Command]:
    """Dates past 34 bits with a commit-graph file, by which git's order of dates is another one."""
    commands = []
    for power in (31, 32, 33, 34, 35):
        made = room.init(f"late {power}")
        first = 2**power - 6
        root = made.commit(date=first)
        other = made.commit(root, date=first + 1)
        past = made.commit(root, date=2**power)
        head = made.commit(past, date=2**power + 4)
        for name, id in (("a", head), ("b", other), ("main", head)):
            made.git("update-ref", f"refs/heads/{name}", id)
        made.git("tag", "v", root)
        for place in (made, filed(room, made, f"late {power} with a file")):
            commands += rows(place, "rev-list a..b", "rev-list --count a..b", "rev-list b..a",
                             "rev-list a", "merge-base a b", "describe --tags a",
                             "merge-base --is-ancestor b a", "rev-list --left-right --count a...b")
        # By corrected dates git may list a parent before its child.
        old = room.copy(made, f"late {power} with an old file")
        old.git("-c", "commitGraph.generationVersion=1", "commit-graph", "write", "--reachable")
        new = filed(room, made, f"late {power} with a new file")
        new.twin = old.path
        for place in (made, old, new):
            commands += rows(place, "rev-list --date-order a b", "rev-list --topo-order b a",
                             "rev-list --reverse --date-order b a", is_strict=True)
    return commands


def lost(room: Room) -> list[Command]:
    """Commits that are missing, damaged or empty, deep in a history. What git answers on the way to
    a commit without its history has to be answered."""
    whole = one_line(room, "whole", 16)
    whole.git("tag", "t", "HEAD~1")
    head = whole.ids[-1]
    near = ("rev-parse HEAD", "rev-parse HEAD~1", "rev-parse HEAD^@", "rev-parse --short HEAD",
            f"rev-parse {head}", f"rev-parse {head[:8]}", "rev-parse HEAD~1..HEAD",
            "rev-list -n 1 HEAD", "rev-list -n 2 HEAD", "merge-base HEAD HEAD~1",
            "merge-base --is-ancestor HEAD~1 HEAD", "describe --tags --exact-match HEAD~1",
            "describe --tags HEAD", "for-each-ref --format=%(refname)")
    commands = []
    for kind in ("missing", "damaged", "empty"):
        for depth in (3, 12):
            made = room.copy(whole, f"{kind} at {depth}")
            made.twin = whole.path
            path = made.loose(made.ids[-1 - depth])
            os.chmod(path, 0o644)
            if kind == "missing":
                os.remove(path)
            else:
                os.truncate(path, 0 if kind == "empty" else os.path.getsize(path) // 2)
            commands += rows(made, *near, is_strict=True)
            commands += common(made, f"rev-parse HEAD~{depth}", "describe HEAD", "rev-list HEAD",
                               "rev-list HEAD~1..HEAD", f"rev-list --count HEAD~{depth}..HEAD",
                               f"merge-base HEAD HEAD~{depth + 1}",
                               f"rev-parse {made.ids[-1 - depth]}")
    return commands


def nowhere(room: Room) -> list[Command]:
    """References that lead nowhere, and files of references that are no references."""
    base = one_line(room, "tags", 4)
    gone = room.copy(base, "gone tag")
    gone.write(".git/refs/tags/gone", "1234" * 10 + "\n")
    lacking = room.copy(base, "lost commit")
    alone = lacking.commit(base.ids[0], date=1_000_005_000)
    lacking.tag("lost", alone, 1_000_006_000)
    lacking.remove(alone)
    garbage = room.copy(base, "garbage")
    garbage.write(".git/refs/heads/empty", "")
    garbage.write(".git/refs/heads/garbage", "nothing that is a reference\n")
    garbage.write(".git/refs/tags/short", "1234\n")
    tagged_head = room.copy(base, "head at a tag")
    tagged_head.git("tag", "v1", base.ids[-1])
    tagged_head.write(".git/HEAD", "ref: refs/tags/v1\n")
    circle = room.copy(base, "circle")
    circle.write(".git/refs/heads/round", "ref: refs/heads/about\n")
    circle.write(".git/refs/heads/about", "ref: refs/heads/round\n")
    dangling = room.copy(base, "dangling link")
    dangling.git("branch", "dang", base.ids[1])
    os.symlink("nowhere", dangling.path + b"/dang")
    damaged = room.copy(base, "junk in packed-refs")
    damaged.git("pack-refs", "--all")
    with open(damaged.path + b"/.git/packed-refs", "ab") as file:
        file.write(b"nothing that is a reference\n")
    # git ends with status 128, and the program with 125.
    damaged.may_be_refused = True
    commands = rows(damaged, "rev-parse HEAD", "rev-parse v1", "rev-list --all", "describe --all",
                    "for-each-ref", "merge-base HEAD HEAD~1")
    # `packed-refs` says of a commit that it is a tag. git then takes it for one, and fails.
    untrue = room.copy(base, "a peeled commit")
    untrue.git("tag", "-a", "-m", "x", "marked", base.ids[1])
    untrue.git("pack-refs", "--all")
    with open(untrue.path + b"/.git/packed-refs", "ab") as file:
        file.write(f"{base.ids[0]} refs/tags/zz\n^{base.ids[1]}\n".encode())
    untrue.may_be_refused = True
    commands += rows(untrue, "describe", "describe --tags", "describe marked", "describe --all")
    head = base.ids[-1]
    for place in (gone, lacking, garbage, tagged_head, circle, dangling):
        place.git("tag", "-f", "t", base.ids[1])
        commands += common(place, "describe --tags --exact-match", "describe --all --match *",
                           "describe --all", f"rev-parse {head}", f"rev-parse {head[:8]}",
                           f"rev-parse {head}~1", f"rev-parse {head}~1..HEAD")
    refused = room.copy(base, "refused name")
    refused.write(".git/refs/heads/a b", head + "\n")
    both = room.copy(garbage, "garbage and a gone branch")
    both.write(".git/refs/heads/first", "1234" * 10 + "\n")
    for place in (gone, lacking, garbage, circle, dangling, refused, both):
        commands += rows(place, "rev-list --all", "rev-list --count --branches",
                         "rev-list --count --branches=*", "rev-list --count --branches=ma*",
                         "rev-list --tags", "rev-list --count HEAD --not --tags",
                         "rev-list --count HEAD --not --all", is_strict=True)
    commands += each(gone, "rev-parse", "gone", "gone^0", "gone~1") + each(garbage, "rev-parse",
        "empty", "garbage", "short", "heads/empty")
    commands += each(circle, "rev-parse", "round", "heads/round") + each(lacking, "rev-parse",
        "lost", "lost^0", "lost^{}")
    commands += rows(dangling, "rev-list --count dang", "rev-parse dang", "rev-list dang --",
                     "merge-base dang HEAD", "rev-list HEAD..dang")
    commands += rows(tagged_head, "rev-parse --abbrev-ref HEAD",
                     "rev-parse --symbolic-full-name HEAD")
    return commands


def ties(room: Room) -> list[Command]:
    """Commits with the same date, and dates before 1970, by which git counts one commit too many."""
    commands = []
    for start, step in ((1_000_000_000, 0), (-800, 1), (-800, 0)):
        for text in range(4):
            made = room.init(f"tie {start} {step} {text}")
            base = made.commit(date=start, text=f"{text} base")
            topic = made.commit(base, date=start + step, text=f"{text} topic")
            tagged = made.commit(base, date=start + 2 * step, text=f"{text} r")
            merge = made.commit(tagged, topic, date=start + 3 * step, text=f"{text} merge")
            made.git("update-ref", "refs/heads/main", merge)
            made.git("update-ref", "refs/tags/r", tagged)
            three = made.commit(tagged, base, date=start + 3 * step, text=f"{text} three")
            made.git("update-ref", "refs/heads/three", three)
            made.is_untidy = step == 0 or start < 0
            # Commits with dates before 1970 are not read.
            made.may_be_refused = start < 0
            commands += rows(made, "describe --tags", "describe --tags three",
                             "rev-list --count r..HEAD", "rev-list main three",
                             "merge-base main three")
    return commands + no_room(room)


def no_room(room: Room) -> list[Command]:
    """A commit for whose name there is no room goes back behind those of the same date."""
    made = room.init("no room")
    start = 1_000_000_000
    root = made.commit(date=start, text="root")
    second = made.commit(root, date=start, text="second")
    left = made.commit(root, date=start + 1, text="left")
    right = made.commit(second, date=start + 1, text="right")
    made.git("update-ref", "refs/heads/main", made.commit(left, right, date=start + 1, text="tip"))
    made.git("update-ref", "refs/tags/right", right)
    made.git("update-ref", "refs/tags/root", root)
    return rows(made, "describe --tags --candidates=1", "describe --tags --candidates=2",
                "describe --tags --candidates=1 HEAD^2~1")


def crossed(room: Room) -> list[Command]:
    """Merge bases with the same date. Their order is git's, unless there is a commit-graph file."""
    made = room.init("crossed")
    made.is_untidy = True
    bases = [made.commit(date=1_000_000_000 + number % 2, text=f"base {number}")
             for number in range(5)]
    heads = []
    for order in ((0, 1, 2, 3, 4), (4, 3, 2, 1, 0), (2, 4, 0, 3), (1, 3, 0, 4)):
        heads.append(made.commit(*(bases[at] for at in order), date=1_000_000_009,
                                 text=f"head {order}"))
        made.git("update-ref", f"refs/heads/h{len(heads) - 1}", heads[-1])
    made.git("update-ref", "refs/heads/main", made.commit(heads[2], heads[0], date=1_000_000_009))
    pairs = ("h0 h1", "h1 h0", "h0 h2", "h2 h3", "h3 h2", "h1 main", "h3 main", "h0 h1 h2",
             "h2 h1 h0", "h1 h2 h3 main", "main h3 h2 h1")
    lines = [f"{front} {pair}" for pair in pairs for front in (
        "merge-base", "merge-base --all", "merge-base --octopus", "merge-base --octopus --all")]
    lines += [f"{front}{pair.replace(' ', '...')}" for pair in pairs[:7] for front in (
        "rev-parse ", "rev-list --not ", "rev-list --left-right ")]
    filed_too = filed(room, made, "crossed with a file")
    return rows(made, *lines, is_strict=True) + rows(filed_too, *lines[::7])


def searched(room: Room) -> list[Command]:
    """Searches of messages, patterns that lead away, and words with a hyphen."""
    made = room.init("searched")
    root = made.commit(text="root")
    for branch in ("a", "b", "-x"):
        commit = made.commit(root, text=f"fix {branch}")
        made.git("update-ref", f"refs/heads/{branch}", commit)
    made.git("update-ref", "refs/heads/main", root)
    made.git("update-ref", "refs/heads/nul", made.commit(root, text="x\0hidden"))
    commands = each(made, "rev-parse", ":/fix", ":/!-fix", ":/hidden", "nul^{/hidden}", "nul^{/x}",
                    ":/x")
    commands += rows(made, "rev-list -n 1 :/fix", "rev-list --count b ^-x",
                     "rev-list --count b ^-x --", "rev-list --count b ^-x~1")
    commands += each(made, "for-each-ref", "refs/heads//a", "refs//heads", "refs/./heads",
                     "refs/heads/./a", "refs/heads/d//", "refs/heads/x/../a", "refs/../objects",
                     "refs/../../searched", "refs/../../../../../../usr/", "refs/..", "refs/.")
    odd = ("a\x01b", "\x1b[31m", "a\x7f", "a\tb")
    for front in ("merge-base HEAD", "rev-parse", "rev-parse --verify", "rev-list", "describe"):
        commands += each(made, front, *odd)
    return commands + each(made, "merge-base HEAD", "y" * 4050, "y" * 4100)


def paths(room: Room) -> list[Command]:
    """Paths in trees. A tree may be out of order, replaced or damaged, and a path like a name."""
    made = room.init("paths")
    blob = made.git("hash-object", "-w", "--stdin", data=b"content")

    def tree(*entries: tuple[str, str | bytes, str]) -> str:
        """Writes a tree, in the order given."""
        content = b"".join(b"%s %s\0%s" % (mode.encode(), encoded(name), bytes.fromhex(id))
                           for mode, name, id in entries)
        return made.git("hash-object", "-t", "tree", "-w", "--literally", "--stdin", data=content)

    deep = tree(("100644", "file", blob), ("40000", "more", tree(("100755", "run", blob))))
    named = tree(("100644", "a-b", blob), ("100644", "a.c", blob), ("40000", "a", deep),
                 ("120000", "link", blob), ("160000", "module", "1" * 40), ("100644", "p^", blob),
                 ("100644", "v1-3-gabcd", blob), ("100644", "v1-game.c", blob),
                 ("100644", "x y", blob), ("100644", "x:y", blob), ("100644", b"\xff", blob))
    front = made.git("commit-tree", named, "-m", "first")
    made.git("update-ref", "refs/heads/main", front)
    made.tag("tagged", front, 2000)
    made.tag("tree", named, 2000)
    made.git("tag", "content", blob)
    unsorted = tree(("100644", "z", blob), ("100644", "b", blob), ("40000", "a", deep))
    broken = tree(("100644", "a", blob), ("9", "b", blob), ("100644", "c", blob))
    lost = tree(("40000", "gone", "2" * 40), ("100644", "there", blob))
    cut = made.git("hash-object", "-t", "tree", "-w", "--literally", "--stdin",
                   data=b"100644 a\0" + bytes.fromhex(blob) + b"rest")
    for name, top in (("unsorted", unsorted), ("broken", broken), ("lost", lost), ("cut", cut)):
        made.git("update-ref", f"refs/heads/{name}", made.git("commit-tree", top, "-m", name))
    there = ("HEAD:", "HEAD:a", "HEAD:a/", "HEAD:a/file", "HEAD:a/more/run", "HEAD:a-b",
             "main:a.c", "HEAD:link", "HEAD:module", "HEAD:x y", b"HEAD:\xff", "tree:a/file",
             "tagged:a/file", "tagged^{tree}:a-b", "HEAD^{tree}:a/more", "@:a-b", "HEAD:x:y",
             f"{front}:a/file", f"{front[:9]}:a/file", f"{named[:9]}:a/file", "HEAD~0:a-b",
             "HEAD:v1-game.c", "HEAD:p^", "unsorted:z", "lost:there")
    odd = ("HEAD:nosuch", "HEAD:a/nosuch", "HEAD:a-b/", "HEAD:a-b/x", "HEAD:/a", "HEAD:a//file",
           "HEAD:./a", "HEAD:../a", "HEAD:.", "HEAD:a/.", "HEAD:link/x", "HEAD:module/x",
           "HEAD:v1-3-gabcd", "HEAD:v1-3-gabcd^", "content:a", "nosuch:a", "unsorted:a",
           "unsorted:b", "broken:a", "broken:b", "broken:c", "lost:gone", "lost:gone/x", "cut:a",
           "cut:", ":a", "HEAD:a@{0}", "HEAD@{0}:a", "HEAD:a^{tree}", "HEAD:a..main:a-b",
           "^HEAD:a", "lost:nosuch")
    commands = []
    for words in ("rev-parse", "rev-parse --verify", "rev-parse -q --verify", "rev-parse --short"):
        commands += each(made, words, *there, is_strict=True) + each(made, words, *odd)
    for words in ("rev-parse --symbolic-full-name", "rev-parse --abbrev-ref", "rev-list --count",
                  "rev-list --no-walk", "merge-base HEAD", "for-each-ref --points-at"):
        commands += each(made, words, *there)
    for words in ("rev-list HEAD", "merge-base HEAD", "describe"):
        commands += each(made, words, *odd)
    replaced = room.copy(made, "paths with a replacement")
    replaced.git("replace", deep, named)
    return commands + each(replaced, "rev-parse", "HEAD:a", "HEAD:a/a-b", "HEAD:a/file")


def strayed(room: Room) -> list[Command]:
    """Siblings by unusual refspecs and names, and the detached HEAD of the main worktree."""
    commands = []
    for number, (remote, fetch, merge) in enumerate((
            (".", "+refs/heads/*:refs/remotes/o/*", "refs/heads/main"),
            (".", "+refs/heads/x:refs/remotes/o/x", "refs/heads/main"),
            (".", None, "@"), (".", None, "@{-1}"), (".", None, "refs/heads/main\t"),
            ("o", "@:refs/remotes/o/x", "HEAD"), ("o", "@:refs/remotes/o/x", "@"),
            ("/srv/x", "+refs/heads/*:refs/remotes/o/*", "refs/heads/main"),
            ("o", "refs/heads/main:refs/remotes/o/main", "refs/heads/main"))):
        made = one_line(room, f"strayed {number}", 3)
        made.may_be_refused = True
        for name in ("o/main", "o/x"):
            made.git("update-ref", f"refs/remotes/{name}", "HEAD~1")
        for key, value in ((f"remote.{remote}.fetch", fetch), ("branch.main.remote", remote),
                           ("branch.main.merge", merge)):
            if value is not None:
                made.git("config", key, value)
        if number == 8:
            made.git("config", "--add", "remote.o.fetch", "^refs/heads/main")
        commands += rows(made, "rev-parse @{u}", "rev-parse --abbrev-ref @{u}",
                         "rev-list --count @{u}..", "rev-parse @{push}")
    plain = one_line(room, "strayed", 3)
    plain.git("checkout", "-q", "-b", "gone")
    plain.git("checkout", "-q", "main")
    plain.git("branch", "-q", "-D", "gone")
    plain.may_be_refused = True
    for front in ("rev-parse -q --verify", "rev-parse --revs-only", "rev-parse"):
        commands += each(plain, front, "/@{u}", "heads//main@{u}", "./main@{u}", "main/@{u}",
                         "@{-1}@{u}", "@{-1}@{push}", "nosuch@{0}@{u}")
    linked = Repository(room.path("strayed linked"), plain.ids, plain.names)
    plain.git("worktree", "add", "-q", "-b", "linked", linked.path)
    plain.git("checkout", "-q", "--detach")
    plain.git("commit", "-q", "--allow-empty", "-m", "lonely", date=1_000_002_000)
    for place in (plain, linked):
        commands += rows(place, "rev-list --all", "rev-list --count --all", "rev-list --count HEAD",
                         "rev-list --count main-worktree/HEAD --not --all")
    return commands


def deceived(room: Room) -> list[Command]:
    """Tags that say another kind, objects that are malformed, and variables with odd values."""
    made = one_line(room, "deceived", 3)
    made.may_be_refused = True
    head, tree = made.ids[-1], made.git("rev-parse", "HEAD^{tree}")
    who = "a <a@example.org> 1 +0000"

    def written(kind: str, text: str) -> str:
        return made.git("hash-object", "-t", kind, "-w", "--stdin", "--literally",
                        data=text.encode())

    for kind in ("tree", "blob", "tag", "commit"):
        tag = written("tag", f"object {head}\ntype {kind}\ntag odd\ntagger {who}\n\nx\n")
        made.git("update-ref", f"refs/tags/{kind}", tag)
        nested = written("tag", f"object {tag}\ntype {kind}\ntag odd\ntagger {who}\n\nx\n")
        made.git("update-ref", f"refs/tags/nested-{kind}", nested)
    commands = rows(made, "describe", "describe --tags", "describe --all", "for-each-ref",
                    "for-each-ref --format=%(refname) --contains HEAD~1",
                    "for-each-ref --format=%(refname) --merged HEAD")
    for kind in ("tree", "commit", "nested-tree", "nested-commit", "nested-tag"):
        commands += rows(made, f"merge-base {kind} HEAD~1", f"rev-list --count {kind}",
                         f"rev-parse {kind}^{{commit}}", f"rev-parse {kind}^{{}}",
                         f"merge-base --is-ancestor HEAD~1 {kind}")
    commits = (f"tree {tree}\nparent {head} \nauthor {who}\ncommitter {who}\n\nx\n",
               f"tree {tree[:39]}\nauthor {who}\ncommitter {who}\n\nx\n", "", f"tree {tree}\n",
               f"author {who}\ncommitter {who}\n\nx\n")
    for id in map(lambda text: written("commit", text), commits):
        for mark in ("^{tree}", "^{commit}", "^{}", "^0", "^{object}"):
            commands += each(made, "rev-parse --verify -q", id + mark)
    # The line of the tree may name any object.
    for other in (head, made.git("hash-object", "-w", "--stdin", data=b"file\n"), "12" * 20):
        id = written("commit", f"tree {other}\nauthor {who}\ncommitter {who}\n\nx\n")
        commands += each(made, "rev-parse --verify -q", id, id + "^0", id + "^{tree}", id + "^{commit}",
                         id + "^{tree}^{}", id + "^{tree}^{blob}", id + "^{tree}~1", is_strict=True)
        commands += each(made, "rev-list", id, id + "^{tree}", is_strict=True)
    for id in (written("tag", ""), written("tag", f"object {head}\n")):
        commands += each(made, "rev-parse --verify -q", id + "^{tag}", id + "^{}")
    plain = one_line(room, "deceived plain", 4)
    plain.may_be_refused = True
    plain.git("replace", "--graft", "HEAD~1")
    for base in ("refs/replace", "refs", "refs/", "refs/repl", "", "refs/replace/", "refs/heads/"):
        commands += rows(plain, "rev-list --count HEAD", "rev-list --all",
                         environment={b"GIT_REPLACE_REF_BASE": base.encode()})
    for value in (b"x", b"0", b"1", b"true"):
        commands += rows(plain, "rev-list --all", environment={b"GIT_REF_PARANOIA": value})
    for value in (b"", b"x/"):
        commands += rows(plain, "rev-parse HEAD",
                         environment={b"GIT_INTERNAL_SUPER_PREFIX": value})
    below = os.path.join(plain.path, b"below")
    os.mkdir(below)
    plain.write("graft", f"{plain.ids[3]} {plain.ids[1]}\n")
    for path in (b"graft", b"../graft"):
        commands += rows(plain, "rev-list --count HEAD", folder=below,
                         environment={b"GIT_GRAFT_FILE": path})
    for path in (b".git/objects", b"../.git/objects"):
        commands += rows(plain, "rev-list --count HEAD", folder=below,
                         environment={b"GIT_OBJECT_DIRECTORY": path})
    return commands


def packed(room: Room) -> list[Command]:
    """A multi-pack-index, an index whose pack is gone, and trees that are replaced."""
    commands = []
    for number, blobs in enumerate((200, 9000)):
        made = one_line(room, f"packed {number}", 3)
        made.git("fast-import", "--quiet", data=b"".join(
            b"blob\ndata 4\n%04d\n" % it for it in range(blobs)))
        made.git("repack", "-adkq")
        made.git("multi-pack-index", "write")
        # With 9,000 objects git has 7 or 8 digits, as it has opened a pack or not.
        made.may_be_refused = blobs > 8192
        commands += rows(made, "rev-parse --short HEAD", "rev-parse --short HEAD~1",
                         "describe --always", "describe --always --abbrev=9",
                         "for-each-ref --format=%(objectname:short)",
                         "for-each-ref --format=%(objectname:short) --contains HEAD~1")
    lone = one_line(room, "packed lone", 3)
    lost = lone.commit(lone.ids[-1], text="lost")
    name = lone.git("pack-objects", "-q", ".git/objects/pack/pack", data=lost.encode() + b"\n")
    os.remove(lone.path + f"/.git/objects/pack/pack-{name}.pack".encode())
    lone.remove(lost)
    for front in ("rev-parse --verify -q", "rev-parse --verify", "rev-list -n 1", "describe"):
        commands += each(lone, front, lost[:8], lost, f"{lost[:8]}^0", f"{lost}~1")
    for number, tree in enumerate(("HEAD^{tree}", "HEAD:d")):
        made = room.init(f"packed tree {number}")
        os.mkdir(made.path + b"/d")
        for text in ("a", "b"):
            made.write("d/a", text)
            made.git("add", "d")
            made.git("commit", "-q", "-m", text, date=1_000_000_000)
        made.git("replace", tree, tree.replace("HEAD", "HEAD~1"))
        made.may_be_refused = True
        commands += rows(made, "describe --always --dirty", "describe --always")
    return commands


def hostile(room: Room) -> list[Command]:
    """A repository that would have a command run: a promised object is missing."""
    made = one_line(room, "hostile", 3)
    made.git("tag", "promised", made.git("hash-object", "-w", "--stdin", data=b"promised\n"))
    made.remove(made.git("rev-parse", "promised"))
    upload = room.path("upload")
    with open(upload, "wb") as file:
        file.write(b"#!/bin/sh\ntouch '" + room.path("ran") + b"'\n")
    os.chmod(upload, 0o755)
    for key, value in (("core.repositoryformatversion", "1"), ("extensions.partialClone", "o"),
                       ("remote.o.url", b"/nosuch"), ("remote.o.uploadpack", upload),
                       ("core.fsmonitor", upload), ("core.sshCommand", upload),
                       ("core.pager", upload), ("core.editor", upload), ("filter.x.clean", upload),
                       ("alias.rev-parse", b"!" + upload)):
        made.git("config", key, value)
    words = ("rev-parse HEAD", "rev-parse --short HEAD", "rev-parse HEAD~1", "rev-list HEAD",
             "merge-base HEAD HEAD~1", "rev-list --branches",
             "for-each-ref --format=%(refname)", "describe --always --match=nosuch")
    return rows(made, *words)


# The fields of objects that for-each-ref prints.
FIELDS = (
    "objectname", "objecttype", "objectsize", "tree", "tag", "type", "object",
    "subject", "contents:subject", "body", "contents", "contents:size",
    *(f"{who}{what}" for who in ("author", "committer", "tagger")
      for what in ("", "name", "email", "email:trim", "email:localpart")),
    "creator",
    *(f"{who}date{style}" for who in ("author", "committer", "tagger", "creator")
      for style in ("", ":iso", ":iso8601-strict", ":rfc2822", ":short", ":raw", ":unix",
                    ":default", ":relative")),
)

# Formats with blocks.
BLOCKS = (
    "%(if)%(HEAD)%(then)* %(else)  %(end)%(refname:short)", "%(if)%(tag)%(then)T:%(tag)%(end)|%(refname)",
    "%(if:equals=commit)%(objecttype)%(then)C%(else)%(if)%(*objecttype)%(then)tag of %(*objecttype)"
    "%(else)other%(end)%(end) %(refname)", "%(if:notequals=tag)%(objecttype)%(then)%(end)%(refname)",
    "%(if:equals=)%(tag)%(then)no tag%(else)%(tag)%(end)", "%(if)%(align:4)%(end)%(then)a%(else)b%(end)",
    "%(if)%09%0a%(then)a%(else)b%(end)", "%(if)%0c%(then)a%(else)b%(end)", "%(if)x%(then)a%(end)%(end",
    "%(align:30)%(refname:short)%(end)|%(objecttype)", "%(align:30,right)%(refname)%(end)|",
    "%(align:middle,25)%(refname:short)%(end)|", "%(align:width=40,position=middle)%(refname)%(end)|",
    "%(align:3)%(refname)%(end)|", "%(align:20)%(if)%(tag)%(then)%(tag)%(else)none%(end)%(end)|%(refname)",
    "%(align:5,left,10,right)%(objecttype)%(end)|", "%(refname)", "%(contents)%(authorname)",
)

# Formats whose blocks do not close, or say what git does not know.
UNCLOSED = (
    "%(then)", "%(else)", "%(end)", "%(if)", "%(if)%(end)", "%(if)%(else)%(end)", "%(if)%(then)",
    "%(if)%(then)%(then)%(end)", "%(if)%(then)%(else)%(else)%(end)", "%(if)%(then)%(end)%(end)", "%(align)",
    "%(align:x)%(end)", "%(align:-3)%(end)", "%(align:left)%(end)", "%(if:x)%(then)%(end)", "%(align:8)%(then)%(end)",
)

# Names that are sorted as versions.
VERSIONS = ("v1.0", "v1.1", "v1.10", "v1.2", "v1.02", "v1.09", "v1.9", "v1.9rc1", "v1.010", "v1.00",
            "v1.000", "v1", "v1.x", "v10", "v2-rc1", "v2", "v2.0.0-rc10", "v2.0.0-rc9", "a01x", "a1x",
            "a001x", "a0x", "a00x", "ax", "a.1", "a.01", "b1/b2", "b1/b10", "007", "7", "0070")


def fields(room: Room) -> list[Command]:
    """What for-each-ref prints of commits and tags, and how it sorts."""
    made = room.init("fields")
    person = "A U Thor <author@example.org>"
    messages = ("one\n", "two\nlines\n\nbody\n", "\n\nlate\n", "", "no end", "cr\r\nlf\r\n\r\nbody\r\n",
                "tail  \n\n\n\n", "a\rb\nc\n", "x\n \ny\n", "caf\xe9\n",
                "signed\n\n-----BEGIN PGP SIGNATURE-----\nx\n-----END PGP SIGNATURE-----\n")
    people = (person, "<nobody>", "X <>", " Y  <y@z@w>", "Jos\xe9 <jos\xe9@x>")
    zones = ("+0000", "-0000", "+0530", "-0930", "+1400", "-1200", "+0001", "-2359")
    dates = (0, 1, 86400, 951782400, 1112904793, 1330473600, 2**31, 2**32 + 5, 253402300799 - 10**6)
    ids = []
    for n, message in enumerate(messages * 3):
        date = max(dates[n % len(dates)], 86400)
        author = f"{people[n % len(people)]} {dates[n % len(dates)] + 86400} {zones[n % len(zones)]}"
        parents = f"parent {ids[-1]}\n" if ids else ""
        text = (f"tree {EMPTY_TREE}\n{parents}author {author}\ncommitter {person} {date} "
                f"{zones[(n // 2) % len(zones)]}\n{'encoding x' * (n % 2)}")
        text = text.rstrip("\n") + "\n\n" + message
        words = ("hash-object", "-t", "commit", "-w", "--literally", "--stdin")
        ids.append(made.git(*words, data=text.encode("latin-1")))
        made.git("update-ref", f"refs/heads/c{n}", ids[-1])
    made.ids = ids
    made.git("hash-object", "-t", "tree", "-w", "--stdin")
    made.git("symbolic-ref", "HEAD", "refs/heads/c7")
    for n, message in enumerate(messages):
        text = (f"object {ids[n]}\ntype commit\ntag t{n}\ntagger {people[n % len(people)]} "
                f"{10**9 + n % 3} {zones[n % len(zones)]}\n\n{message}")
        words = ("hash-object", "-t", "tag", "-w", "--literally", "--stdin")
        tag = made.git(*words, data=text.encode("latin-1"))
        made.git("update-ref", f"refs/tags/t{n}", tag)
    made.git("tag", "-a", "-m", "of a tag", "nested", "t3")
    made.git("tag", "-a", "-m", "of a tree", "tree", EMPTY_TREE)
    blob = made.git("hash-object", "-w", "--stdin", data=b"author x\n\ny\n")
    made.git("tag", "blob", blob)
    made.git("tag", "-a", "-m", "of a blob", "tagged-blob", blob)
    for name in VERSIONS:
        made.git("update-ref", f"refs/versions/{name}", ids[len(name) % len(ids)])
    front = "for-each-ref --format=%(refname)"
    more = {"is_strict": True}
    commands = [row(made, "for-each-ref", f"--format=%(refname)|%({it})|%(*{it})|",
                    is_strict=":localpart" not in it) for it in FIELDS]
    commands += each(made, "for-each-ref", *(
        f"--format=%({it})" for it in (
            "HEAD", *(f"refname:{end}strip={n}" for end in ("", "l", "r") for n in range(-4, 5)),
            *(f"objectname:short={n}" for n in (1, 4, 7, 12, 40, 50)))), **more)
    commands += each(made, "for-each-ref", "--format=%(refname:lstrip=x)", "--format=%(objectname:short=0)",
                     "--format=%(HEAD:x)", "--format=%(subjectx)", "--format=%(creatorname)",
                     "--format=%(authordate:relative)", "--format=%(*HEAD)", "--format=%(*refname)")
    commands += each(made, "for-each-ref --format=%(contents:body)|%(*contents:body)|",
                     *(f"refs/{it}{n}" for it in ("heads/c", "tags/t") for n in range(len(messages) - 1)), **more)
    commands += [row(made, "for-each-ref", *options, f"--format={it}") for it in BLOCKS + UNCLOSED
                 for options in ((), ("--shell",), ("--perl",), ("--python",), ("--tcl",))]
    commands += rows(made, "for-each-ref --color=always --no-shell -s", "for-each-ref -p --no-color --no-perl",
                     "for-each-ref --tcl --python", "for-each-ref --color=x", "for-each-ref --color --count=1")
    keys = ("refname", "v:refname", "version:refname", "authordate", "committerdate", "taggerdate",
            "creatordate")
    commands += [row(made, *f"{front} --sort={sign}{key}".split(" "), **more)
                 for key in keys for sign in ("", "-")]
    commands += rows(made, f"{front} --sort=authordate --sort=-taggerdate", f"{front} --sort=-v:refname --sort=committerdate",
                     f"{front} --sort=taggerdate --no-sort", f"{front} --sort=-refname --sort=taggerdate",
                     f"{front} --count=3 --sort=-creatordate refs/tags",
                     f"{front} --sort=-v:refname --contains c5 refs/versions", **more)
    commands += each(made, f"{front} --points-at", ids[3], "t3", "t3^{}", "nested", "tree^{}", "blob",
                     "HEAD", ids[0][:12], **more)
    commands += rows(made, f"{front} --points-at c1 --points-at=c2 --no-contains c9", f"{front} --points-at nosuch",
                     f"{front} --points-at c1 --no-points-at --count=2", f"{front} --points-at")
    suffixed = room.copy(made, "fields with suffixes")
    suffixed.git("config", "versionsort.suffix", "-rc")
    suffixed.may_be_refused = True
    commands += rows(suffixed, f"{front} --sort=v:refname", f"{front} --sort=committerdate")
    detached = room.copy(made, "fields without a branch")
    detached.git("update-ref", "--no-deref", "HEAD", ids[7])
    unborn = room.copy(made, "fields with an unborn branch")
    unborn.git("symbolic-ref", "HEAD", "refs/heads/unborn")
    for place in (detached, unborn):
        commands += rows(place, "for-each-ref --format=%(HEAD)%(refname)", **more)
    return commands + malformed_fields(room, ids[0], made)


# Formats of rev-list.
PRETTIES = (
    "oneline", "%s", "%b", "%B", "[%s]%n[%b]", "%an|%ae|%al|%ad", "%at %ct", "%ai %cI %aD %as %cn",
    "%H %h %T %t %P %p", "%%n%n%x41%x0a%x00", "format:%s", "tformat:%s", "tformat:", "format:", "", "%x0", "%q", "x%",
    "medium", "raw", "%+s",
)


def pretties(room: Room) -> list[Command]:
    """What rev-list prints of commits by a format."""
    made = room.init("pretties")
    messages = ("one\n", "two\nlines\n\nbody\n", "\n\nlate\n", "", "no end", "cr\r\nlf\r\n\r\nbody\r\n",
                "tail  \n\n\n\n", "x\n \ny\n", "  \n\t\n front\n  \n\n rest \n\n", "caf\xe9\n\nd\xe9j\xe0\n",
                "\xc3\xa9t\xc3\xa9\n", "a\x0bb\n\x0c\nc\n")
    people = ("A U Thor <author@example.org>", "J\xc3\xa9 <j@x>", "x <@>", "A  B.C <a.b+c@d.e@f>")
    zones = ("+0000", "-0930", "+1400", "+0001")
    ids = []
    for n, message in enumerate(messages * 2):
        parents = "".join(f"parent {it}\n" for it in ids[-1 - n % 3:])
        author = f"{people[n % 4]} {1112904793 + 86400 * n} {zones[n % 4]}"
        committer = f"{people[(n + 1) % 4]} {1500000000 + n // 2} {zones[(n + 2) % 4]}"
        text = f"tree {EMPTY_TREE}\n{parents}author {author}\ncommitter {committer}\n\n{message}"
        words = ("hash-object", "-t", "commit", "-w", "--literally", "--stdin")
        ids.append(made.git(*words, data=text.encode("latin-1")))
    made.git("hash-object", "-t", "tree", "-w", "--stdin")
    made.git("update-ref", "refs/heads/main", ids[-1])
    for n in (3, 8, 15):
        made.git("update-ref", f"refs/heads/c{n}", ids[n])
    made.git("tag", "-a", "-m", "of a commit", "annotated", ids[5])
    made.git("tag", "tree", EMPTY_TREE)
    made.ids = ids
    options = ("main", "main -n 3 --parents", "--left-right --timestamp c15...main~3",
               "--abbrev-commit --boundary c8..c15", "--no-commit-header main", "--reverse --abbrev=10 c3",
               "--no-walk --all", "--quiet main", "--count main")
    commands = [row(made, "rev-list", f"--format={it}", *words.split(" ")) for it in PRETTIES for words in options]
    more = ("--oneline main", "--oneline --no-abbrev-commit main", "--oneline --no-abbrev c3",
            "--oneline --parents -n 2 main", "--oneline --left-right c15...main~3", "--pretty main",
            "--pretty=oneline --abbrev-commit c3", "--no-commit-header c3", "--oneline --no-commit-header c3",
            "--no-commit-header --format=%H --commit-header c3")
    walks = ("--no-walk", "--no-walk=sorted", "--no-walk=unsorted", "--no-walk=x", "--no-walk --do-walk",
             "--no-walk=unsorted --do-walk", "--no-walk=unsorted --no-walk", "--no-walk --reverse",
             "--no-walk -n 2 --skip=1", "--no-walk --count", "--no-walk --merges", "--no-walk --parents --first-parent",
             "--no-walk --topo-order")
    starts = ("c3 main c8 c3", "--all", "--tags", "main ^c3", "main ^tree", "c3..main", "main^@ c8", "--not main",
              "tree c3", "--branches=c*")
    globs = ("--glob=heads/c*", "--glob=refs/heads", "--glob=refs/heads/", "--glob=tags", "--glob heads", "--glob=*",
             "--glob=c3", "--glob=refs/tags/annotated", "--not --glob=heads/c* --not main", "--glob",
             "--no-walk --glob=heads")
    commands += rows(made, *(f"rev-list {it}" for it in more + globs),
                     *(f"rev-list {it} {start}" for it in walks for start in starts))
    hidden = ("--exclude=refs/heads/c* --all", "--exclude=c* --branches", "--exclude=refs/heads/c3 --branches",
              "--exclude=c3 --exclude c8 --branches --tags", "--exclude=refs/heads/* --glob=heads",
              "--exclude=HEAD --all", "--exclude=* --branches", "--exclude=annotated --tags",
              "--exclude=c3 --branches --branches=c*", "--branches --not --exclude=main --branches", "--exclude",
              "--exclude=main c3", "--exclude=[cm]* --branches")
    paths = ("c3..main", "c8..c15", "c3...c15", "main ^c8 ^c3", "main", "--first-parent c3..main",
             "--topo-order c3..main", "--parents c8..main", "--count c8..main", "--reverse -n 3 c3..main",
             "--left-right c8...main", "--boundary c8..main", "--since=1500000005 c3..main", "main c3 --not c8",
             "--all --not c8", "main^!", "--right-only c8...main", "--left-only c15...main~3")
    commands += rows(made, *(f"rev-list --no-walk {it}" for it in hidden), *(f"rev-list {it}" for it in hidden),
                     *(f"rev-list --ancestry-path {it}" for it in paths))
    commands += rows(made, "rev-list --ancestry-path main ^c3^{tree}", "rev-list --ancestry-path --count main ^c3^{tree}")
    commands += [row(made, "rev-list", option, "main") for option in (
        "--since=007 days ago", "--since=0100.days.ago", "--until=0007 days ago", "--since=01 days ago",
        "--since=2017-07-14 02:40:05 -0001", "--until=2017-07-14 02:40:05 -00:01", "--since=2017-07-14 02:40:05 +0001",
        "--until=2017-07-14 02:40:05 -0000")]
    ages = ("--since=1500000005", "--after 1500000005", "--until=1500000004", "--before 1500000004",
            "--max-age=1500000003", "--min-age=1500000007", "--since=1500000002 --until=1500000006",
            "--before=2017-07-14T02:40:05Z", "--since=2.weeks.ago", "--until=3.hours.ago", "--max-age=0",
            "--since=1500000005 --no-walk", "--max-age=x")
    more = ("main", "main --count", "main -n 2", "main --reverse --parents", "main --first-parent",
            "main --topo-order", "c8..main", "c8...main --left-right", "--all --merges --skip=1",
            "c3 c15 ^c8 --date-order", "main --boundary")
    commands += rows(made, *(f"rev-list {age} {words}" for age in ages for words in more))
    commands += [row(made, "rev-list", f"{option}={date}", "main") for option in ("--since", "--until", "--min-age")
                 for date in ("2017-07-14 02:40:05 +0000", "2017-07-14 04:40:05 +0200", "2017-07-14T02:40:05-0100",
                              "1 day ago", "5 minutes ago", "yesterday", "2017-07-14", "now", "", "1500000005 +0000",
                              "3.months.ago")]
    commands += rows(made, "rev-list main --since", "rev-list --until", "rev-list --since=1500000005")
    set_up = room.copy(made, "pretties with a setting")
    set_up.git("config", "i18n.logOutputEncoding", "ISO-8859-1")
    set_up.may_be_refused = True
    commands += rows(set_up, "rev-list --format=%s main", "rev-list --oneline main", "rev-list main")
    doubled = room.copy(made, "pretties with two authors")
    content = doubled.git("cat-file", "commit", "c3")
    for word in ("author", "committer"):
        odd = re.sub(f"(?m)^({word} .*)$", f"\\1\n{word} other <o@example.org> 5 +0000", content, count=1)
        id = doubled.git("hash-object", "-t", "commit", "-w", "--literally", "--stdin", data=encoded(odd))
        doubled.git("update-ref", f"refs/heads/{word}", id)
    doubled.may_be_refused = True
    commands += rows(doubled, *(f"rev-list --no-walk --format={it} {word}" for word in ("author", "committer")
                                for it in ("%an%at", "%cn|%ct", "%s")), "rev-list --oneline author")
    recent = room.init("recent")
    hour, day = 3600, 86400
    for n, past in enumerate((-hour, 89 * 60, 91 * 60, 5 * hour, 35 * hour, 37 * hour, 13 * day, 14 * day, 69 * day,
                              70 * day, 71 * day, 364 * day, 366 * day, 395 * day, 700 * day, 731 * day, 1824 * day,
                              1826 * day, 7999 * day)):
        id = recent.commit(date=int(time.time()) - past - 15, text=f"{n}")
        recent.git("update-ref", f"refs/heads/past{n}", id)
    return commands + rows(recent, "for-each-ref --format=%(refname)|%(committerdate:relative)|%(creatordate:relative)",
                           "rev-list --no-walk --all --format=%ar|%cr", "rev-list --all --since=10.weeks.ago",
                           "rev-list --all --since=36.hours.ago --until=2.hours.ago", is_strict=True) + spoken(recent)


def spoken(recent: Repository) -> list[Command]:
    """Relative dates in other languages and at another time."""
    commands = []
    for locale, languages, is_strict in (
            ("C", "de", True), ("POSIX", "en:de", True), ("", "de", True), ("C.UTF-8", "", True),
            ("C.UTF-8", "en", True), ("C.UTF-8", "C:de", True), ("C.UTF-8", "en:de", False),
            ("C.UTF-8", "de", False), ("C.UTF-8", "en_US.UTF-8:fr:C", False)):
        environment = {b"LC_ALL": locale.encode(), b"LANG": b"C", b"LANGUAGE": languages.encode()}
        commands += rows(recent, "rev-list --no-walk --all --format=%cr", environment=environment,
                         is_strict=is_strict)
    return commands + rows(recent, "rev-list --no-walk --all --format=%cr", "rev-list --all --since=10.weeks.ago",
                           "for-each-ref --format=%(committerdate:relative)",
                           environment={b"GIT_TEST_DATE_NOW": b"1700000000"}, is_strict=True)


def malformed_fields(room: Room, id: str, base: Repository) -> list[Command]:
    """Objects whose lines of persons or dates are malformed, and objects that are missing."""
    made = room.copy(base, "malformed fields")
    made.may_be_refused = True
    for n, person in enumerate((
            "A <a> ", "A <a> x +0000", "A <a> 5", "A <a> 5 0100", "A <a> 5 +01", "A <a", "A", "",
            "A <a> 99999999999999999999 +0000", "A <a> 18446744073709551615 +0000", "A <a> -5 +0000",
            "A <a>  7 +0000", "A <a> 7 +0000 x", "A <a> 100 +0200", "A <a> 100 -0200",
            "A <a> 300000000000 +0000", "Z <z> <w> 5 +0000")):
        text = f"object {id}\ntype commit\ntag m{n}\ntagger {person}\n\nmessage\n"
        words = ("hash-object", "-t", "tag", "-w", "--literally", "--stdin")
        made.git("update-ref", f"refs/odd/m{n}", made.git(*words, data=text.encode()))
    text = f"object {id}\ntype commit\ntag sig\ntagger A <a> 5 +0000\n\n-----BEGIN PGP MESSAGE-----\nx\n"
    made.git("update-ref", "refs/odd/signed", made.git("hash-object", "-t", "tag", "-w", "--literally",
                                                       "--stdin", data=text.encode()))
    who = "A <a> 5 +0000"
    odd = {"empty-tagger": ("tag", f"object {id}\ntype commit\ntag x\ntagger \n\nm <q@r> 77 +0000\n"),
           "empty-author": ("commit", f"tree {EMPTY_TREE}\nauthor \ncommitter {who}\n\nm\n"),
           "great-tree": ("commit", f"tree {EMPTY_TREE.upper()}\nauthor {who}\ncommitter {who}\n\nm\n"),
           "great-object": ("tag", f"object {id.upper()}\ntype commit\ntag {id.upper()}\ntagger {who}\n\nm\n")}
    for name, (kind, text) in odd.items():
        words = ("hash-object", "-t", kind, "-w", "--literally", "--stdin")
        made.git("update-ref", f"refs/odd/{name}", made.git(*words, data=text.encode()))
    commands = [row(made, "for-each-ref", f"--format=%({it})", f"refs/odd/{name}")
                for it in ("tree", "object", "tag", "author", "authoremail", "authordate:raw", "taggeremail", "creatordate:unix")
                for name in odd]
    commands += rows(made, "for-each-ref --sort=authordate refs/odd/empty-author refs/heads/c1",
                     "rev-list --no-walk --format=%T|%an refs/odd/great-tree")
    commands += [row(made, "for-each-ref", f"--format=%(refname)|%({it})|", f"refs/odd/{name}")
                for it in ("taggerdate", "taggerdate:raw", "taggerdate:unix", "creatordate:iso", "taggername",
                           "taggeremail", "taggeremail:trim", "taggeremail:localpart", "subject")
                for name in (*(f"m{n}" for n in range(17)), "signed")]
    commands += rows(made, "for-each-ref --format=%(refname) --sort=taggerdate refs/odd")
    commands += [row(made, "rev-list", "-n", "1", f"--format={it}", f"c{n}")
                 for it in ("%an|%ae|%al|%at|%ai", "%cn%cd", "%s") for n in range(len(base.ids))]
    lacking = room.copy(base, "fields of a lost object")
    lacking.twin = base.path
    lacking.remove(base.git("rev-parse", "c5"))
    return commands + rows(lacking, "for-each-ref --format=%(subject) refs/heads/c5",
                           "for-each-ref --format=%(*subject) refs/tags/t5",
                           "for-each-ref --format=%(refname) --sort=authordate refs/heads",
                           "for-each-ref --format=%(refname) --points-at=c4 refs/heads/c5")


def many(room: Room) -> list[Command]:
    """Many references, many arguments and many options."""
    made = many_references(room, 60000)
    names = made.names
    commands = common(made)
    commands += [
        row(made, "rev-parse", *names[:150]),
        row(made, "rev-parse", *(f"{it}~1" for it in names[:101])),
        row(made, "rev-list", "--count", *names[:3000]),
        row(made, "rev-list", "--count", "HEAD", "--not", *names[:2000:3]),
        row(made, "merge-base", "--independent", *names[:400]),
        row(made, "merge-base", "--octopus", *names[3:500:70]),
        row(made, "describe", "--tags", *names[1:900:30]),
        row(made, "rev-list", "--stdin", "--count", data="".join(f"{it}\n" for it
            in names).encode()),
        row(made, "for-each-ref", "--format=%(refname) %(objectname)", "--no-contains",
            made.ids[300]),
        row(made, "for-each-ref", "--format=%(refname:short)", "--merged", made.ids[30],
            "refs/tags"),
        row(made, "rev-list", "--count", "--all", "--not", "--tags"),
    ]
    return commands


MAKERS = (names, signs, digits, branches, reflogs, working_trees, indexes, unusual, graphs, lost, nowhere, ties,
          crossed, searched, paths, strayed, deceived, packed, hostile, fields, pretties, many)


def remove_made(room: Room) -> None:
    shutil.rmtree(room.folder, ignore_errors=True)
