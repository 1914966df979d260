"""Makes the page of all crates, and the data for its search."""

from __future__ import annotations

import json
from html import escape

import markdown
from linked import place
from pages import KINDS, Pages, count, kind_of, page
from project import Crate

ABOUT = """<h1>Reference of <code>gix_revision</code></h1>
<p>These pages are made from the sources of <code>gix_revision</code>, which finds merge bases, describes commits and
resolves revisions of git. They show each public item with its contract, which is machine-checked, and each definition
that a contract cites.</p>
<form id="search" class="search" role="search" hidden>
<label for="query">Search items and definitions</label>
<input id="query" type="search" autocomplete="off" spellcheck="false">
<p id="count" class="meta" aria-live="polite"></p>
<ul id="found" class="plain"></ul>
</form>
<h2 id="crates">Crates</h2>
<table class="crates"><thead><tr>
<th scope="col">Crate</th><th scope="col">What it does</th>
<th scope="col" class="number">Items</th><th scope="col" class="number">Definitions</th>
</tr></thead><tbody>"""

CALLS = """</tbody></table>
<h2 id="trust">What a call rests on</h2>
<p>Each of these pages has the definitions that must be read to believe what a call answers, in the order of
reading.</p>
<ul>"""

SCRIPTS = '<script src="search-index.js"></script>\n<script src="search.js"></script>\n'


def rows(crate: Crate) -> list[tuple[str, str, str, str]]:
    """Returns of each item and definition its name, what it is, where it is, and its first sentence."""
    found = []
    for it in crate.items():
        for member in (it, *crate.methods(it)):
            kind = kind_of(it) if member is it else "method" if member.kind == "fn" else KINDS.get(member.kind, member.kind)
            sentence = markdown.plain(markdown.first_sentence(member.doc))
            found.append((member.anchor.replace(".", "::"), f"{kind} of {crate.name}", place(f"{crate.page}#{member.anchor}"), sentence))
    for it in crate.definitions():
        sentence = markdown.plain(markdown.first_sentence(it.comment))
        found.append((it.name, f"definition, {crate.name}/{it.file}", place(f"{crate.page}#{it.anchor}"), sentence))
    return found


def index(pages: Pages, calls: list[tuple[str, str, str, int, int]]) -> tuple[str, str]:
    """Returns the page and the data. Of each call it needs file, name, sentence, and the numbers of definitions and lines."""
    crates = pages.project.crates.values()
    out = [ABOUT]
    for crate in crates:
        numbers = ((pages.number(crate), "items"), (len(crate.definitions()), "definitions"))
        cells = "".join(f'<td class="number" data-of="{of}">{number}</td>' for number, of in numbers)
        link = f'<a href="{crate.page}"><code>{crate.name}</code></a>'
        out.append(f'<tr><td>{link}</td><td class="text">{pages.sentence(crate.doc, crate, ())}</td>{cells}</tr>')
    out.append(CALLS)
    for file, name, sentence, definitions, lines in calls:
        link = f'<a href="trust/{file}"><code>{escape(name)}</code></a>'
        out.append(f"<li>{link}: {count(definitions, 'definition')}, {count(lines, 'line')}. {sentence}</li>")
    out.append('</ul>\n<h2 id="all">All items and definitions</h2>')
    data = []
    for crate in crates:
        if found := rows(crate):
            links = ", ".join(f'<a href="{where}"><code>{escape(name)}</code></a>' for name, _, where, _ in found)
            out.append(f"<details><summary><code>{crate.name}</code> ({len(found)})</summary><p>{links}</p></details>")
            data += found
    lines_of_data = ",\n".join(json.dumps(it, ensure_ascii=False) for it in data)
    return page("Reference of gix_revision", "\n".join(out), "", SCRIPTS), f"const INDEX = [\n{lines_of_data}\n];\n"
