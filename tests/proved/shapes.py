"""Says which commands `git proved` may refuse with status 129, and why.

Every other command has to be answered as git answers it.
"""

from __future__ import annotations

import os
import re

# The options of each word that are read, without the values behind `=`.
OPTIONS = {
    b"merge-base": {b"-a", b"--all", b"--octopus", b"--independent", b"--is-ancestor",
                    b"--fork-point"},
    b"describe": {
        b"--all", b"--tags", b"--long", b"--abbrev", b"--exact-match", b"--candidates",
        b"--first-parent", b"--always", b"--match", b"--exclude", b"--dirty",
    },
    b"rev-parse": {
        b"--verify", b"-q", b"--quiet", b"--short", b"--symbolic-full-name", b"--abbrev-ref",
        b"--symbolic", b"--default", b"--revs-only", b"--no-revs", b"--flags", b"--no-flags",
        b"--not", b"--sq",
        b"--git-dir", b"--absolute-git-dir", b"--git-common-dir", b"--show-toplevel",
        b"--show-cdup", b"--show-prefix", b"--is-inside-work-tree", b"--is-inside-git-dir",
        b"--is-bare-repository", b"--is-shallow-repository", b"--show-object-format",
        b"--path-format",
    },
    b"rev-list": {
        b"--not", b"--all", b"--branches", b"--tags", b"--remotes", b"--stdin", b"--count", b"-n",
        b"--max-count", b"--skip", b"--left-right", b"--first-parent", b"--parents", b"--reverse",
        b"--boundary", b"--topo-order", b"--date-order", b"--merges", b"--no-merges",
        b"--min-parents", b"--max-parents", b"--no-min-parents", b"--no-max-parents",
        b"--left-only", b"--right-only", b"--timestamp", b"--abbrev-commit",
        b"--no-abbrev-commit", b"--abbrev", b"--no-abbrev", b"--quiet", b"--no-walk", b"--do-walk",
        b"--glob", b"--pretty", b"--format", b"--oneline", b"--commit-header",
        b"--no-commit-header", b"--since", b"--after", b"--until", b"--before", b"--max-age",
        b"--min-age", b"--exclude", b"--ancestry-path",
    },
    b"for-each-ref": {
        b"--contains", b"--no-contains", b"--merged", b"--no-merged", b"--format", b"--count",
        b"--sort", b"--points-at", b"--color", b"--shell", b"-s", b"--perl", b"-p", b"--python",
        b"--tcl",
    },
}

# The words whose options git reads by unique prefixes, and with `no-` in front.
PARSED = (b"merge-base", b"describe", b"for-each-ref")

# The options before the word that are read.
BEFORE = {b"-C", b"--git-dir", b"--work-tree", b"--authentic", b"--authentic=whole", b"--version", b"-h", b"--help"}

# The options of rev-list from which a list begins, without patterns.
BEGINS = (b"--all", b"--branches", b"--tags", b"--remotes", b"--stdin", b"--glob")

# The options of rev-list whose value is the next word.
NUMBERS = (b"-n", b"--max-count", b"--skip", b"--since", b"--after", b"--until", b"--before", b"--max-age",
           b"--min-age", b"--exclude")

# The atoms of a format that are read.
ATOMS = re.compile(
    rb"(refname|symref|upstream|push)(:short|:(l|r)?strip=-?\d{1,9})?|(upstream|push):(track|trackshort|nobracket)"
    rb"|objectname(:short(=[1-9]\d{0,8})?)?|objecttype|HEAD|ahead-behind:.*"
    rb"|if(:(not)?equals=.*)?|then|else|end"
    rb"|align:(?=.*\d)(((width=)?\d{1,4}|(position=)?(left|middle|right))(,|$))+"
    rb"|\*?(objectname|objecttype|objectsize|(contents:)?(subject|body)|contents(:size)?|tag|type|object|tree"
    rb"|(author|committer|tagger)(name|email(:trim)?)?"
    rb"|(author|committer|tagger|creator)"
    rb"(date(:(default|relative|iso(8601)?(-strict)?|rfc(2822)?|short|raw|unix))?)?|creator)")

# The formats of rev-list that are read.
PRETTY = re.compile(rb"oneline|(t?format:)?([^%]|%([HhTtPpsbBn%]|x[0-9a-fA-F]{2}|[ac][neldDiIrst]))*")

# The dates that limit a list.
AGES = {it: re.compile(rb"[1-9]\d{8,9}|\d{1,4}[ .](second|minute|hour|day|week)s?[ .]ago"
                       rb"|\d{4}-\d\d-\d\d.*([-+]\d\d:?\d\d|Z)")
        for it in (b"--since", b"--after", b"--until", b"--before")}
AGES |= {it: re.compile(rb"\d{1,9}|1\d{9}") for it in (b"--max-age", b"--min-age")}

# Dates that git reads otherwise than they say.
ODD_AGES = re.compile(rb"0\d\d+[ .].*|.*-00:?01")

# The keys of an order that are read.
KEYS = re.compile(rb"-?((v:|version:)?refname|(author|committer|tagger|creator)date)")


def has_closed_blocks(atoms: list[bytes]) -> bool:
    """Returns whether each block of a format ends, and has its parts in order."""
    words = b" ".join(it.partition(b":")[0] for it in atoms)
    marks = b"".join(re.findall(rb"\b(?:if|then|else|end|align)\b", words))
    for _ in atoms:
        marks = re.sub(rb"ifthen(else)?end|alignend", b"", marks)
    return not marks


def is_read(word: bytes, option: bytes) -> bool:
    """Returns whether an option of a word is read."""
    name = option.partition(b"=")[0]
    known = OPTIONS[word]
    if name in known:
        return True
    if word == b"rev-list":
        return re.fullmatch(rb"-n?-?\d+", option) is not None
    if word not in PARSED or not name.startswith(b"--"):
        return False
    bare = name[2:].removeprefix(b"no-")
    return any(it[2:].removeprefix(b"no-").startswith(bare) for it in known if it.startswith(b"--"))


def refused_text(text: bytes, folder: bytes) -> str | None:
    """Returns why a revision may be refused."""
    if re.search(rb"\^\{/|^:/|\.\.:/", text):
        return "a search"
    if b":" in re.sub(rb"\{[^}]*\}", b"", text):
        return "a path"
    braces = re.findall(rb"@\{([^}]*)\}", text)
    if any(not re.fullmatch(rb"-?\d{1,8}|u(pstream)?|push", it, re.I) for it in braces):
        return "a date"
    if len(braces) > 1 and b"}@{" in text:
        return "two marks"
    if b"\n" in text:
        return "a line feed"
    if re.search(rb".@[\^~]", text):
        return "a name that ends in @"
    if re.search(rb"\^-?\d{10}|~\d{10}", text):
        return "a number that is none"
    if b".." in text and re.search(rb"-g[0-9a-f]{1,3}(?![0-9a-f])", text):
        return "a description without digits"
    if b"..." in text and b"^{tree}" in text:
        return "a tree at an end"
    if b"..." in text and b"1" * 40 in text:
        return "an end that is missing"
    if text and b"\0" not in text and os.path.lexists(os.path.join(folder, text)):
        return "the name of a file"
    return None


def refused_option(word: bytes, option: bytes) -> str | None:
    """Returns why an option may be refused."""
    if not is_read(word, option):
        return "an option"
    name, mark, value = option.partition(b"=")
    if name == b"--sort" and not KEYS.fullmatch(value):
        return "an order"
    if word == b"for-each-ref" and name == b"--format":
        atoms = re.findall(rb"%\(([^)]*)\)", value)
        if any(not ATOMS.fullmatch(it) for it in atoms) or not has_closed_blocks(atoms):
            return "a format"
        if any(it.startswith(b"push") for it in atoms):
            return "a push destination"
    if word == b"rev-list" and name in (b"--pretty", b"--format") and not (
            mark and PRETTY.fullmatch(value) and (b"%" in value or b"format:" in value or value in (b"", b"oneline"))):
        return "a format"
    if mark and name in AGES and (not AGES[name].fullmatch(value) or ODD_AGES.fullmatch(value)):
        return "a date"
    numbers = (b"--abbrev", b"--candidates", b"--max-count", b"--skip", b"--short",
               b"--min-parents", b"--max-parents")
    if mark and name in numbers and not re.fullmatch(rb"[-+]?\d{1,9}", value):
        return "a number that is none"
    return None


def starts_of(rest: tuple[bytes, ...]) -> list[bytes]:
    """Returns the words of rev-list from which a list begins, or by which it ends."""
    pairs = zip((b"", *rest), rest)
    return [it for before, it in pairs if before not in NUMBERS
            and (not it.startswith(b"-") or it.partition(b"=")[0] in BEGINS)]


def means_several(start: bytes) -> bool:
    """Returns whether a list may begin from several commits by one word."""
    return start.startswith(b"-") or b"..." in start or b"^@" in start


def refused_list(rest: tuple[bytes, ...]) -> str | None:
    """Returns why a list may be refused, by all its words."""
    starts = starts_of(rest)
    if b"--boundary" in rest and (b"--first-parent" in rest
                                  or {b"--left-right", b"--count"} <= {*rest}):
        return "a boundary"
    if b"--quiet" in rest and b"--count" in rest:
        return "a count of nothing"
    alone = {b"--no-walk", b"--no-walk=sorted", b"--no-walk=unsorted"} & {*rest}
    if alone and (any(re.search(rb"\.\.|^\^|\^[!-]", it) for it in starts) or {
            b"--not", b"--topo-order", b"--date-order", b"--boundary", b"--left-right", b"--stdin"} & {*rest}):
        return "a list without a walk"
    if b"--ancestry-path" in rest and (
            b"--boundary" in rest or any(it.endswith(b"^{tree}") for it in starts) or
            not any(re.search(rb"\.\.|^\^|\^[!-]", it) for it in starts + [*rest]) or
            {it.partition(b"=")[0] for it in rest} & {*AGES, b"--no-walk"}):
        return "a path"
    if b"--all" in rest and any(it.startswith(b"--exclude") for it in rest):
        return "hidden references"
    limits = {it.partition(b"=")[0] for it in rest} & {*AGES}
    if limits and {b"--topo-order", b"--date-order"} & {*rest}:
        return "an order of dates"
    if {b"--since", b"--after", b"--max-age"} & limits and (
            {b"--boundary", b"--not"} & {*rest} or any(re.search(rb"\.\.|^\^|\^[!-]", it) for it in starts)):
        return "a list with a date"
    is_walked = any(re.match(rb"--do-walk|--max-count|-n|-\d", it) for it in rest)
    if b"--no-walk=unsorted" in rest and is_walked:
        return "an order of revisions"
    if b"--no-commit-header" in rest and {b"--parents", b"--timestamp", b"--boundary"} & {*rest}:
        return "a list without ids"
    # Without a merge base git prints both sides.
    if {b"--left-only", b"--right-only"} & {*rest}:
        return "one side"
    if b"--left-right" in rest and len(starts) > 1 and any(b"..." in it for it in starts):
        return "both sides"
    is_one = len(starts) == 1 and not means_several(starts[0])
    if b"--first-parent" in rest and {b"--topo-order", b"--date-order"} & {*rest} and not is_one:
        return "lines in another order"
    return None


def is_text(word: bytes) -> bool:
    """Returns whether a word is UTF-8."""
    try:
        word.decode()
    except UnicodeDecodeError:
        return False
    return True


def refused_variable(environment: dict[bytes, bytes]) -> str | None:
    """Returns why a command may be refused by the environment."""
    if environment.get(b"GIT_COMMON_DIR") not in (None, environment.get(b"GIT_DIR", b".git")):
        return "another common folder"
    for name in (b"GIT_CONFIG_NOSYSTEM", b"GIT_DISCOVERY_ACROSS_FILESYSTEM"):
        if not re.fullmatch(rb"|on|off|true|false|yes|no|\d+", environment.get(name, b"")):
            return "a variable that is no boolean"
    if re.match(rb"(en[^:]*:)*(?!en|C)[^:]", environment.get(b"LANGUAGE", b"")):
        return "another language"
    return None


def refusal(before: tuple[bytes, ...], words: tuple[bytes, ...], data: bytes,
            folder: bytes) -> str | None:
    """Returns why a command may be refused; None if it has to be answered."""
    for option in before:
        if option.startswith(b"-") and option.partition(b"=")[0] not in BEFORE:
            return "an option before the word"
    if not words or words[0] not in OPTIONS:
        return "a word"
    word, rest = words[0], words[1:]
    if word == b"for-each-ref" and not any(it.startswith(b"--format") for it in rest):
        return "no format"
    ended = False
    for at, one in enumerate(rest):
        if one == b"--" and not ended:
            ended = True
            if word in (b"rev-list", b"rev-parse") and at + 1 < len(rest):
                return "a path"
            if word == b"rev-parse":
                return "an option"
            continue
        if one.startswith(b"-") and one != b"-" and not ended:
            why = refused_option(word, one)
        else:
            why = refused_text(one, folder)
            if word in (b"rev-parse", b"rev-list"):
                why = why or (None if is_text(one) else "a name that is not UTF-8")
            elif why == "the name of a file":
                why = None
        if why:
            return why
    lines = [it for it in data.split(b"\n") if it] if b"--stdin" in rest else []
    if word == b"rev-list" and refused_list((*rest, *lines)):
        return refused_list((*rest, *lines))
    for line in lines:
        why = refused_text(line, folder) if not line.startswith(b"-") else "an option"
        if why:
            return why
    return None
