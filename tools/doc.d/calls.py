"""Makes the pages of calls: the definitions that the contract of a call rests on, in the order of reading."""

from __future__ import annotations

from html import escape

from definitions import Definition
from linked import place
from pages import Pages, count, page, pre
from project import Target, clause_anchor
from rattle import Clause, Item

# The calls that have such a page: name, crate, path, and the clauses that say what the answer is; without one, all.
CALLS = (
    ("merge_base", "gix_merge_base", "merge_base.merge_base", ("bases",)),
    ("octopus", "gix_merge_base", "merge_base.octopus", ("base",)),
    ("is_ancestor", "gix_merge_base", "merge_base.is_ancestor", ("ancestor",)),
    ("describe", "gix_describe", "describe.describe", ("described",)),
    ("commits", "gix_resolve", "commits", ("meant",)),
    ("reachable", "gix_resolve", "reachable", ("reached",)),
    ("Store::read", "gix_odb", "Store.read", ("found",)),
    ("CommitGraph::open", "gix_commitgraph", "commit_graph.CommitGraph.open", ("opened",)),
    ("date::parse", "gix_date", "date.parse", ()),
    ("spec::parse::parse", "gix_spec", "spec.parse.parse", ("run",)),
    ("resolve", "gix_resolve", "resolve", ("resolved",)),
    ("gix_history_merge_bases", "gix_c", "bases.gix_history_merge_bases", ("bases",)),
)


def closure(pages: Pages, clauses: list[Clause], seen: list[Definition], others: dict[str, Target]) -> list[Definition]:
    """Returns the definitions that clauses rest on and that are not yet seen, those that the clauses cite themselves first.

    What else is cited, a type of the code or a name of std, is put into `others`.
    """
    found: list[Definition] = []
    todo = [target for it in clauses for target in pages.clauses[id(it)][1]]
    while todo:
        target = todo.pop(0)
        it = target.definition
        if not it:
            others.setdefault(target.title, target)
        elif it not in seen and it not in found:
            found.append(it)
            todo += pages.cites[it.key]
    return found


def call_page(pages: Pages, title: str, crate_name: str, anchor: str, main_names: tuple[str, ...]) -> tuple[str, str, int, int]:
    """Returns the page of a call, its first sentence, and how many definitions and lines its main clauses rest on."""
    crate = pages.project.crates[crate_name]
    item = next((it for it, _ in pages.with_clauses(crate) if it.anchor == anchor), None)
    if item is None:
        raise SystemExit(f"tools/doc: {crate_name} has no public function {anchor}")
    stated = [it for it in item.clauses if it.word != "ghost"]
    main = [it for it in stated if it.name in main_names] or stated
    if main_names and {it.name for it in main} != set(main_names):
        raise SystemExit(f"tools/doc: {anchor} has no clause '{' or '.join(main_names)}'")
    rest = [it for it in stated if it not in main]
    others: dict[str, Target] = {}
    first = closure(pages, main, [], others)
    second = closure(pages, rest, first, others)
    lines, more = sum(it.size for it in first), sum(it.size for it in second)
    home = f"{crate.page}#{place(item.anchor)}"

    names = " and ".join(f"<code>{it.name}</code>" for it in main)
    which = f"the {'clause' if len(main) == 1 else 'clauses'} {names}" if rest else "the contract"
    full = f'<a href="{home}"><code>{crate.name}::{escape(item.anchor.replace(".", "::"))}</code></a>'
    needed = f"{count(len(first), 'definition')} ({count(lines, 'line')} with their comments)"
    out = [f"<h1>What <code>{escape(title)}</code> rests on</h1>"]
    out.append(f"<p>To believe {which} of {full}, read {needed}. They are below, those that the contract itself cites first.</p>")
    if second:
        needed = f"{count(len(second), 'further definition')} ({count(more, 'line')})"
        out.append(f'<p>The other clauses rest on {needed}, which <a href="#others">follow</a>.</p>')
    sentence = pages.sentence(item.doc, crate, item.module)
    out += [f"<p>{sentence}</p>", pre(pages.linker.code(item.head, item))]
    out += ['<h2 id="clauses">Clauses</h2>', stated_as(pages, item, main)]
    out += ['<h2 id="definitions">Definitions</h2>', *(pages.definition(it, "h3", False) for it in first)]
    if rest:
        out += ['<h2 id="others">The other clauses</h2>', stated_as(pages, item, rest)]
        out += [pages.definition(it, "h3", False) for it in second]
    types = sorted((it for it in others.values() if it.item), key=lambda it: it.title)
    if types:
        links = ", ".join(pages.linker.link(it.title.removeprefix("private: "), it) for it in types)
        out.append(f'<h2 id="types">Types of the code</h2>\n<p>They are as the code declares them: {links}.</p>')
    std = [it.rpartition(".") for it in sorted(others) if not others[it].item]
    if std:
        names = ", ".join(f"<code>{escape(name)}</code> ({escape(module)})" for module, _, name in std)
        out.append(f'<h2 id="std">From the toolchain</h2>\n<p>These names are those of its standard crates: {names}.</p>')
    return page(f"What {title} rests on - gix_revision", "\n".join(out), "../"), sentence, len(first), lines


def stated_as(pages: Pages, item: Item, clauses: list[Clause]) -> str:
    entries = [pages.clause(it, f"{item.crate}.html#{clause_anchor(item, it)}") for it in clauses]
    return f'<ul class="clauses">{"".join(f"<li>{it}</li>" for it in entries)}</ul>'
