"""Turns the Markdown of doc comments into HTML: headings, paragraphs, lists, tables, code and links."""

from __future__ import annotations

import re
from html import escape
from typing import Callable

# Gives for the target of a link, or for the code of a link without one, the place that it leads to.
Finder = Callable[[str], "str | None"]

_INLINE = re.compile(
    r"(?P<code>(?P<ticks>`+)(?P<inner>.+?)(?P=ticks))"
    r"|\[(?P<text>(?:`[^`]*`|[^\]`])+)\](?:\((?P<to>(?:[^()]|\(\))*)\))?"
    r"|\*\*(?P<bold>[^*]+)\*\*|\*(?P<soft>[^*\s](?:[^*]*[^*\s])?)\*",
    re.S,
)


def inline(text: str, find: Finder) -> str:
    """Returns the HTML of text without blocks."""
    out, at = [], 0
    for it in _INLINE.finditer(text):
        out.append(escape(text[at : it.start()], quote=False))
        at = it.end()
        if it["code"]:
            out.append(f"<code>{escape(it['inner'].strip(), quote=False)}</code>")
        elif it["bold"]:
            out.append(f"<strong>{inline(it['bold'], find)}</strong>")
        elif it["soft"]:
            out.append(f"<em>{inline(it['soft'], find)}</em>")
        else:
            shown = inline(it["text"], find)
            is_code = re.fullmatch(r"`[^`]*`", it["text"])
            target = it["to"] if it["to"] is not None else it["text"].strip("`") if is_code else None
            place = find(target) if target else None
            if place:
                out.append(f'<a href="{escape(place)}">{shown}</a>')
            else:
                out.append(shown if target else f"[{shown}]")
    out.append(escape(text[at:], quote=False))
    return "".join(out)


def plain(text: str) -> str:
    """Returns text without the signs of Markdown."""
    text = re.sub(r"\[([^\]]*)\](\([^)]*(\(\))?\))?", r"\1", text)
    return re.sub(r"[`*]", "", text)


def first_sentence(lines: list[str]) -> str:
    """Returns the first sentence of a comment, as Markdown."""
    front = []
    for line in lines:
        if not line.strip() and front:
            break
        if line.strip() and not line.strip().startswith("#"):
            front.append(line.strip())
    text = " ".join(front)
    end = re.search(r"\.(?= +[A-Z`*\[]|$)", text)
    return text[: end.end()] if end else text


def slug(text: str) -> str:
    return re.sub(r"[^\w-]", "", plain(text).lower().replace(" ", "-"))


def blocks(lines: list[str], level: int, prefix: str, find: Finder) -> str:
    """Returns the HTML of a comment. Its headings begin at a level, and their anchors with a prefix."""
    lines = [it[1:] if it.startswith(" ") else it for it in lines]
    out, at = [], 0
    while at < len(lines):
        line = lines[at]
        if not line.strip():
            at += 1
        elif line.startswith("```"):
            stop = next((k for k in range(at + 1, len(lines)) if lines[k].startswith("```")), len(lines))
            out.append("<pre><code>" + escape("\n".join(lines[at + 1 : stop]), quote=False) + "</code></pre>")
            at = stop + 1
        elif it := re.match(r"(#+) +(.*)", line):
            depth = min(level + len(it[1]) - 1, 6)
            out.append(f'<h{depth} id="{escape(prefix + slug(it[2]))}">{inline(it[2], find)}</h{depth}>')
            at += 1
        elif line.startswith("|"):
            stop = next((k for k in range(at, len(lines)) if not lines[k].startswith("|")), len(lines))
            out.append(_table(lines[at:stop], find))
            at = stop
        elif _BULLET.match(line):
            stop = _list_end(lines, at)
            out.append(_list(lines[at:stop], level, prefix, find))
            at = stop
        else:
            stop = at
            while stop < len(lines) and lines[stop].strip() and not re.match(r"```|#+ |\|", lines[stop]) and (stop == at or not _BULLET.match(lines[stop])):
                stop += 1
            out.append(f"<p>{inline(' '.join(it.strip() for it in lines[at:stop]), find)}</p>")
            at = stop
    return "\n".join(out)


_BULLET = re.compile(r"([-*]|\d+\.) +")


def _list_end(lines: list[str], at: int) -> int:
    while at < len(lines):
        line = lines[at]
        if not line.strip():
            after = next((it for it in lines[at:] if it.strip()), "")
            if not (after.startswith("  ") or _BULLET.match(after)):
                return at
        elif not (line.startswith("  ") or _BULLET.match(line)):
            return at
        at += 1
    return at


def _list(lines: list[str], level: int, prefix: str, find: Finder) -> str:
    word = "ol" if lines[0][0].isdigit() else "ul"
    entries: list[list[str]] = []
    for line in lines:
        if it := _BULLET.match(line):
            entries.append([line[it.end() :]])
            width = it.end()
        else:
            entries[-1].append(line[min(width, len(line) - len(line.lstrip())) :])
    out = []
    for entry in entries:
        inner = blocks(entry, level, prefix, find)
        if inner.count("<p>") == 1 and inner.startswith("<p>"):
            inner = inner.replace("<p>", "").replace("</p>", "")
        out.append(f"<li>{inner}</li>")
    return f"<{word}>" + "\n".join(out) + f"</{word}>"


def _table(lines: list[str], find: Finder) -> str:
    rows = [[it.strip() for it in re.split(r"(?<!\\)\|", line.strip().strip("|"))] for line in lines]
    out = []
    for at, row in enumerate(rows):
        if at == 1 and all(re.fullmatch(r":?-+:?", it) for it in row):
            continue
        cell = "th" if at == 0 else "td"
        out.append("<tr>" + "".join(f"<{cell}>{inline(it, find)}</{cell}>" for it in row) + "</tr>")
    return '<div class="table"><table>' + "\n".join(out) + "</table></div>"
