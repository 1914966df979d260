"""Makes the page of a crate: its public items with their contracts, its laws, and its definitions."""

from __future__ import annotations

import re
from html import escape

import markdown
from definitions import Definition
from linked import Linker, laid_out, place
from project import Crate, Path, Project, Target, clause_anchor, private_anchor
from rattle import Clause, Item

# How many places a definition is said to be used by before the rest is folded.
SHOWN_USES = 8

KINDS = {"fn": "function", "const": "constant", "type": "type", "struct": "struct", "enum": "enum", "trait": "trait", "static": "static"}


def page(title: str, body: str, up: str = "", scripts: str = "") -> str:
    """Returns a page. In one of a folder, `up` leads back to the folder of the index."""
    if up:
        body = re.sub(r'href="(?!#|[a-z]+:)', f'href="{up}', body)
    return f"""<!DOCTYPE html>
<html lang="en">
<head>
<meta charset="utf-8">
<meta name="viewport" content="width=device-width, initial-scale=1">
<title>{escape(title)}</title>
<link rel="stylesheet" href="{up}doc.css">
</head>
<body>
<a class="skip" href="#main">Skip to the text</a>
<nav aria-label="Pages"><a href="{up}index.html">All crates</a></nav>
<main id="main">
{body}
</main>
{scripts}</body>
</html>
"""


def pre(html: str) -> str:
    return f"<pre><code>{html}</code></pre>"


def title(heading: str, link: str, kind: str, name: str) -> str:
    """Returns a heading that is a link: the kind of a thing, and its name."""
    front = f'<span class="kind">{kind}</span> ' if kind else ""
    return f'<{heading}><a href="{place(link)}">{front}<code>{escape(name)}</code></a></{heading}>'


def section(kind: str, anchor: str) -> str:
    return f'<section class="{kind}" id="{escape(anchor)}">'


def named(word: str, name: str) -> str:
    return word + (f" <strong>{escape(name)}</strong>" if name else "")


def kind_of(item: Item) -> str:
    is_law = item.kind == "fn" and item.anchor.startswith("laws.")
    return "law" if is_law else KINDS.get(item.kind, item.kind)


def count(number: int, word: str) -> str:
    return f"{number} {word}" if number == 1 else f"{number} {word}s"


class Pages:
    def __init__(self, project: Project) -> None:
        self.project = project
        self.linker = Linker(project)
        # The HTML of each definition, what it cites, and what cites it, by its key.
        self.texts: dict[object, str] = {}
        self.cites: dict[object, list[Target]] = {}
        self.cited_by: dict[object, list[tuple[str, str, str]]] = {}
        # The HTML of each clause, and what it cites, by its identity.
        self.clauses: dict[int, tuple[str, list[Target]]] = {}
        self.read_all()

    def read_all(self) -> None:
        """Writes all clauses and definitions, so that each knows what cites it."""
        for crate in self.project.crates.values():
            for it in crate.definitions():
                refs: list[Target] = []
                self.texts[it.key], self.cites[it.key] = self.linker.definition(it, refs), refs
                for target in refs:
                    self.cite(target, f"{crate.name}.html#{it.anchor}", it.name, "", it)
            for item, owner in self.with_clauses(crate):
                look = self.linker.of_item(item, owner)
                for clause in item.clauses:
                    refs = []
                    local = set() if clause.word == "ghost" else item.local
                    html = self.linker.logic(laid_out(clause.text), look, local, refs, item)
                    self.clauses[id(clause)] = (html, refs)
                    if item.anchor:
                        for target in refs:
                            self.cite(target, f"{crate.name}.html#{item.anchor}", item.anchor.replace(".", "::"), clause.name, None)

    def with_clauses(self, crate: Crate) -> list[tuple[Item, Item | None]]:
        found: list[tuple[Item, Item | None]] = []
        for item in crate.items():
            found.append((item, None))
            found += [(it, item) for it in crate.methods(item)]
            found += [(it, None) for impl in crate.impls.get(id(item), []) if impl.trait for it in impl.members]
        return found

    def cite(self, target: Target, where: str, name: str, clause: str, by: Definition | None) -> None:
        if target.definition and target.definition is not by:
            entries = self.cited_by.setdefault(target.definition.key, [])
            if (where, name, clause) not in entries:
                entries.append((where, name, clause))

    # Doc comments.

    def finder(self, crate: Crate, module: Path, owner: Item | None = None) -> markdown.Finder:
        """Returns what finds the target of a link in a doc comment. What std or a private item has is not shown."""

        def find(target: str) -> str | None:
            if re.match(r"[a-z]+:(?!:)", target):
                return target
            path, _, heading = target.partition("#")
            parts = path.removesuffix("()").removesuffix("!").split("::")
            if heading:
                name = crate.name if parts == ["crate"] else parts[0]
                return f"{name}.html#{heading}" if name in self.project.crates else None
            if parts[0] == "Self" and owner:
                found = self.project.member(owner, parts[-1]) if len(parts) > 1 else owner
            else:
                found = self.project.find(crate.name, module, parts)
            shown = self.project.place_of(found)
            return place(shown) if shown else None

        return find

    def doc(self, lines: list[str], level: int, crate: Crate, module: Path, anchor: str, owner: Item | None = None) -> str:
        return markdown.blocks(lines, level, f"{anchor}-" if anchor else "", self.finder(crate, module, owner))

    def sentence(self, lines: list[str], crate: Crate, module: Path) -> str:
        return markdown.inline(markdown.first_sentence(lines), self.finder(crate, module))

    def comment(self, lines: list[str]) -> str:
        """Returns the comment of a definition or a clause."""
        return f"<p>{markdown.inline(' '.join(lines), lambda _: None)}</p>" if lines else ""

    # Crates.

    def crate_page(self, crate: Crate) -> str:
        passed_on = sum(len(it) for it in crate.passed_on.values())
        counts = [(self.number(crate), "public item"), (passed_on, "re-export"), (len(crate.definitions()), "definition")]
        said = ", ".join(count(*it) for it in counts if it[0]) or "no public item"
        links = ", ".join(f'<a href="{it}.html">{it}</a>' for it in crate.depends_on) or "no other crate"
        out = [f"<h1>Crate <code>{crate.name}</code></h1>"]
        out.append(f'<p class="meta">{said[0].upper() + said[1:]}. It depends on {links}.</p>')
        out.append(self.doc(crate.doc, 2, crate, (), ""))
        out.append(self.contents(crate))
        out += [self.module(crate, path) for path in self.modules(crate)]
        if crate.definitions():
            out.append('<h2 id="definitions">Definitions</h2>\n<p>The clauses above, and those of other crates, cite these definitions.</p>')
            for file in crate.specs.values():
                if file.definitions:
                    out.append(title("h3", f"#specs.{file.name}", "specs", file.name).replace("<h3>", f'<h3 id="specs.{file.name}">'))
                    out.append(self.comment(file.doc))
                    out += [self.definition(it, "h4") for it in file.definitions]
        if crate.private:
            out.append('<h2 id="private">Private types</h2>\n<p>No caller sees these types. Definitions name them.</p>')
            out += [self.private_item(crate, it) for it in sorted(crate.private, key=private_anchor)]
        return page(f"{crate.name} - gix_revision", "\n".join(it for it in out if it))

    def modules(self, crate: Crate) -> list[Path]:
        """Returns the public modules in the order of the page: laws come last."""
        return sorted(crate.public_modules, key=lambda path: path[:1] == ("laws",))

    def contents(self, crate: Crate) -> str:
        out = []
        for path in self.modules(crate):
            names = [f'<a href="#{place(it.anchor)}"><code>{escape(it.name)}</code></a>' for it in crate.shown[path]]
            if names:
                title = f'<a href="#mod.{".".join(path)}">{"::".join(path)}</a>: ' if path else ""
                out.append(f"<li>{title}{', '.join(names)}</li>")
        if crate.definitions():
            files = [f'<a href="#specs.{it.name}">{it.name}</a>' for it in crate.specs.values() if it.definitions]
            out.append(f'<li><a href="#definitions">Definitions</a>: {", ".join(files)}</li>')
        if crate.private:
            out.append('<li><a href="#private">Private types</a></li>')
        return f'<h2 id="contents">Contents</h2>\n<ul class="plain">{"".join(out)}</ul>' if out else ""

    def number(self, crate: Crate) -> int:
        """Returns how many public items a crate has."""
        return sum(1 + len(crate.methods(it)) for it in crate.items())

    def module(self, crate: Crate, path: Path) -> str:
        items, passed_on = crate.shown[path], crate.passed_on[path]
        if not items and not passed_on and path != ("laws",) and not (path and crate.modules[path].doc):
            return ""
        name = "::".join(path)
        out = []
        if path == ("laws",):
            out.append('<h2 id="mod.laws"><a href="#mod.laws">Laws</a></h2>')
        elif path:
            out.append(f'<h2 id="mod.{".".join(path)}"><a href="#mod.{".".join(path)}"><span class="kind">module</span> <code>{name}</code></a></h2>')
        elif items or passed_on:
            out.append('<h2 id="items">Items</h2>')
        if path:
            out.append(self.doc(crate.modules[path].doc, 3, crate, path, f"mod.{'.'.join(path)}"))
        if passed_on:
            out.append("<p>It re-exports:</p>\n<ul>" + "\n".join(self.passed_on(crate, path, *it) for it in passed_on) + "</ul>")
        out += [self.item(crate, it) for it in items]
        return "\n".join(it for it in out if it)

    def passed_on(self, crate: Crate, path: Path, name: str, target: list[str]) -> str:
        found = self.project.find(crate.name, path, target)
        shown = self.project.place_of(found)
        full = f"<code>{escape('::'.join(target))}</code>"
        linked = f'<a href="{place(shown)}">{full}</a>' if shown else full
        return f"<li><code>{escape(name)}</code>, which is {linked}</li>"

    def item(self, crate: Crate, it: Item) -> str:
        kind = kind_of(it)
        out = [section("item", it.anchor), title("h3", f"#{it.anchor}", kind, it.anchor.replace(".", "::"))]
        out.append(pre(self.linker.code(self.head(it), it)))
        out.append(self.doc(it.doc, 4, crate, it.module, it.anchor, it))
        out.append(self.contract(it, "h4", kind == "law"))
        if it.kind in ("struct", "enum", "trait"):
            out.append(self.members(crate, it))
        for member in crate.methods(it):
            word = "method" if member.kind == "fn" else KINDS.get(member.kind, member.kind)
            out += [section("item", member.anchor), title("h4", f"#{member.anchor}", word, f"{it.name}::{member.name}")]
            within = f'<span class="c">{self.linker.code(member.within, member)}</span>\n' if member.within else ""
            out.append(pre(within + self.linker.code(member.head, member)))
            out.append(self.doc(member.doc, 5, crate, member.module, member.anchor, it))
            out.append(self.contract(member, "h5", False) + "\n</section>")
        out.append(self.impls(crate, it))
        return "\n".join(part for part in out if part) + "\n</section>"

    def private_item(self, crate: Crate, it: Item) -> str:
        anchor, name = private_anchor(it), "::".join((*it.module, it.name))
        head = pre(self.linker.code(self.head(it, True), it))
        doc = self.doc(it.doc, 4, crate, it.module, anchor, it)
        return "\n".join([section("item", anchor), title("h3", f"#{anchor}", KINDS.get(it.kind, it.kind), name), head, doc + "</section>"])

    def head(self, it: Item, is_whole: bool = False) -> str:
        """Returns the declaration of an item, as far as it is public, or the whole of it."""
        if it.kind == "struct" and it.members:
            shown = [f"    {member.head}," for member in it.members if member.is_public or is_whole]
            rest = [] if len(shown) == len(it.members) else ["    // and private fields" if shown else "    // private fields"]
            return "\n".join([it.head + " {", *shown, *rest, "}"])
        if it.kind == "enum":
            return "\n".join([it.head + " {", *(f"    {member.head}," for member in it.members), "}"])
        return it.head

    def members(self, crate: Crate, it: Item) -> str:
        """Returns what is said of fields, variants and ghost members."""
        out = []
        for member in it.members:
            is_shown = (it.kind == "enum") or (it.kind == "struct" and member.is_public) or (it.kind == "trait" and member.kind == "ghost")
            if is_shown and (it.kind != "struct" or member.doc):
                if member.kind == "ghost":
                    head = self.linker.logic(member.head, self.linker.of_item(member, it), set(), [], member)
                else:
                    head = self.linker.code(member.head, it)
                shown = pre(head) if "\n" in member.head else f"<code>{head}</code>"
                out.append(f'<li id="{escape(member.anchor)}">{shown}{self.doc(member.doc, 5, crate, it.module, member.anchor, it)}</li>')
        words = {"enum": "Variants", "struct": "Fields", "trait": "Ghost members"}
        return f'<h4>{words[it.kind]}</h4>\n<ul class="members">{"".join(out)}</ul>' if out else ""

    def contract(self, it: Item, heading: str, is_law: bool) -> str:
        if not it.clauses:
            return ""
        out = []
        for clause in it.clauses:
            anchor = clause_anchor(it, clause)
            more = self.expanded(clause, self.clauses[id(clause)][1]) if is_law else ""
            out.append(f'<li id="{escape(anchor)}">{self.clause(clause, f"#{anchor}")}{more}</li>')
        return f'<{heading}>{"Statement" if is_law else "Contract"}</{heading}>\n<ul class="clauses">{"".join(out)}</ul>'

    def clause(self, clause: Clause, link: str) -> str:
        """Returns the name of a clause, which is a link, the comment above it, and its text."""
        word = "ghost parameter" if clause.word == "ghost" else clause.word
        above = self.comment([clause.comment]) if clause.comment else ""
        return f'<p><a href="{place(link)}">{named(word, clause.name)}</a></p>{above}{pre(self.clauses[id(clause)][0])}'

    def expanded(self, clause: Clause, refs: list[Target]) -> str:
        """Returns what the definition says that a law states, if it states only one."""
        first = refs[0].definition if refs else None
        if not first or clause.text.split()[0] != first.name or first.word not in ("abbrev", "unfoldable"):
            return ""
        shown = self.texts[first.key].partition("\n")[2] or self.texts[first.key]
        return f"<p>In full:</p>{pre(shown)}"

    def impls(self, crate: Crate, it: Item) -> str:
        out = []
        for impl in crate.impls.get(id(it), []):
            if impl.trait:
                parts = []
                for member in impl.members:
                    if member.kind == "ghost":
                        key, _, text = re.sub(r"^ghost ", "", member.head).partition("=")
                        text = re.sub(r"^\{\s*|\s*\}$", "", text.strip())
                        text = self.linker.logic(laid_out(text), self.linker.of_item(member), set(), [], member)
                        parts.append(f"<p>{named('ghost', key.strip())}</p>{pre(text)}")
                    for clause in member.clauses:
                        above = self.comment([clause.comment]) if clause.comment else ""
                        front = f"<p><code>{escape(member.name)}</code> {named(clause.word, clause.name)}</p>"
                        parts.append(f"{front}{above}{pre(self.clauses[id(clause)][0])}")
                doc = self.doc(impl.doc, 5, crate, impl.module, it.anchor, it) if impl.doc else ""
                head = self.linker.code(re.sub(r"\s+", " ", impl.head), impl)
                out.append(f"<li><code>{head}</code>{doc}{''.join(parts)}</li>")
        return f'<h4>Implementations</h4>\n<ul class="members">{"".join(out)}</ul>' if out else ""

    # Definitions.

    def definition(self, it: Definition, heading: str, is_own: bool = True) -> str:
        """Returns a definition: on the page of its crate with its anchor, elsewhere with a link to there."""
        module = f'<p class="meta">For any <code>{escape(it.module.removeprefix("module _ "))}</code>.</p>' if it.module else ""
        if is_own:
            front = [section("definition", it.anchor), title(heading, f"#{it.anchor}", "", it.name)]
        else:
            front = [section("definition", f"{it.crate}.{it.anchor}"), title(heading, f"{it.crate}.html#{it.anchor}", f"{it.crate}/{it.file}", it.name)]
        return "\n".join([*front, self.comment(it.comment) + module + pre(self.texts[it.key]), (self.used_by(it) if is_own else "") + "</section>"])

    def used_by(self, it: Definition) -> str:
        grouped: dict[tuple[str, str], list[str]] = {}
        # Clauses come first: those of items are not of `specs`.
        for where, name, clause in sorted(self.cited_by.get(it.key, []), key=lambda entry: "#specs." in entry[0]):
            grouped.setdefault((where, name), []).append(clause)
        links = []
        for (where, name), clauses in grouped.items():
            named = [c for c in clauses if c]
            links.append(f'<a href="{place(where)}"><code>{escape(name)}</code></a>' + (f" ({escape(', '.join(named))})" if named else ""))
        if not links:
            return '<p class="used">No public clause or other definition cites it.</p>\n'
        front = f'<p class="used">Used by {", ".join(links[:SHOWN_USES])}'
        if len(links) <= SHOWN_USES:
            return f"{front}.</p>\n"
        rest = f'<details class="used"><summary>All {len(links)}</summary><p>{", ".join(links)}.</p></details>'
        return f"{front}, and {len(links) - SHOWN_USES} more.</p>\n{rest}\n"
