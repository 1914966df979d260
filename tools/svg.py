"""What tools/plot and bin/revtool-draw share: pictures as SVG, which can be read on a light and on a dark background."""

from __future__ import annotations

from xml.sax.saxutils import escape, quoteattr

# Of each class what it colours, and its colour on a light and on a dark background. A viewer that knows no dark one takes the light.
COLOURS = {
    "back": ("fill", "#ffffff", "#0d1117"),
    "ink": ("fill", "#1f2328", "#e6edf3"),
    "dim": ("fill", "#59636e", "#9198a1"),
    "axis": ("stroke", "#8c959f", "#656c76"),
    "grid": ("stroke", "#e4e7eb", "#262c36"),
    "edge": ("stroke", "#818b98", "#7d8590"),
    "bold": ("stroke", "#1f2328", "#e6edf3"),
    "blue": ("fill", "#2a78d6", "#4a95ea"),
    "blue-line": ("stroke", "#2a78d6", "#4a95ea"),
    "orange": ("fill", "#d9541e", "#f0793f"),
    "orange-line": ("stroke", "#d9541e", "#f0793f"),
    "green": ("fill", "#12805c", "#3fbf92"),
    "green-line": ("stroke", "#12805c", "#3fbf92"),
    "yellow": ("fill", "#e0a100", "#d9a514"),
    "yellow-line": ("stroke", "#e0a100", "#d9a514"),
    "grey": ("fill", "#818b98", "#8b949e"),
    "grey-line": ("stroke", "#818b98", "#8b949e"),
    "tint": ("fill", "#cfe2f8", "#1c3b5e"),
    "on-blue": ("fill", "#ffffff", "#0d1117"),
}


def style() -> str:
    """Returns the style sheet: every class, and again for a dark background."""
    light = "".join(f".{name}{{{what}:{colour}}}" for name, (what, colour, _) in COLOURS.items())
    dark = "".join(f".{name}{{{what}:{colour}}}" for name, (what, _, colour) in COLOURS.items())
    fonts = "text{font:12px system-ui,sans-serif}.small{font-size:11px}.title{font-size:15px;font-weight:600}.code{font-family:ui-monospace,monospace}"
    return f"<style>{fonts}{light}@media (prefers-color-scheme: dark){{{dark}}}</style>"


def number(value: float) -> str:
    """Returns a coordinate, to a tenth of a pixel."""
    text = f"{value:.1f}"
    return text[:-2] if text.endswith(".0") else text


def readable(text: str) -> str:
    """Returns a text with a mark in place of each character that XML can't hold."""
    return "".join(it if it >= " " and not "\ud800" <= it <= "\udfff" and it not in "\ufffe\uffff" else "\ufffd" for it in text)


class Picture:
    """A picture that is being drawn: what comes later lies above. Places are in pixels, from the upper left corner."""

    def __init__(self, about: str) -> None:
        self.about = about
        self.parts: list[str] = []

    def add(self, name: str, inside: str | None = None, **attributes: str | float) -> None:
        """Adds an element. An attribute's `_` is a `-`, and a `_` behind its name is left out, as in `class_`."""
        words = "".join(
            f" {key.rstrip('_').replace('_', '-')}={quoteattr(value if isinstance(value, str) else number(value))}"
            for key, value in attributes.items()
        )
        self.parts.append(f"<{name}{words}/>" if inside is None else f"<{name}{words}>{inside}</{name}>")

    def text(self, x: float, y: float, text: str, class_: str = "ink", anchor: str = "start") -> None:
        """Adds a text, whose base line begins, ends or has its middle at a place."""
        self.add("text", escape(readable(text)), x=x, y=y, class_=class_, text_anchor=anchor)

    def line(self, x1: float, y1: float, x2: float, y2: float, class_: str, width: float = 1) -> None:
        self.add("line", x1=x1, y1=y1, x2=x2, y2=y2, class_=class_, stroke_width=width)

    def rendered(self, width: float, height: float) -> str:
        """Returns the file."""
        size = f'width="{number(width)}" height="{number(height)}" viewBox="0 0 {number(width)} {number(height)}"'
        head = f'<svg xmlns="http://www.w3.org/2000/svg" {size} role="img">\n<title>{escape(readable(self.about))}</title>\n{style()}'
        back = f'<rect class="back" width="{number(width)}" height="{number(height)}"/>'
        return "\n".join([head, back, *self.parts, "</svg>", ""])
