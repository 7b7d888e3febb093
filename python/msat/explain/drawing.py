# SPDX-License-Identifier: MIT
"""The pictures of a page, as SVG: the tree, and the ways over the keys and preimages that they take. Their colours are the page's."""

from html import escape
from typing import Sequence

from . import words
from .explanation import Explanation
from .locks import in_short
from .tree import Node

ROW = 26
_STEP = 18
# About how wide a letter of the pictures' font is, for the room that a label takes.
_LETTER = 7.3
_MOST = 44


def short(text: str, most: int = _MOST) -> str:
    """The text, cut where it is too long for a picture.

    >>> short("abcdef", 4)
    'abc…'
    """
    return text if len(text) <= most else text[: most - 1] + "…"


def _picture(width: float, height: float, label: str, parts: Sequence[str]) -> str:
    size = f'width="{width:.0f}" height="{height:.0f}" viewBox="0 0 {width:.0f} {height:.0f}"'
    return f'<svg xmlns="http://www.w3.org/2000/svg" {size} role="img" aria-label="{escape(label)}">{"".join(parts)}</svg>'


def _text(x: float, y: float, text: str, kind: str, most: int = _MOST, more: str = "") -> str:
    cut = short(text, most)
    title = f"<title>{escape(text)}</title>" if cut != text else ""
    return f'<text x="{x:.1f}" y="{y:.1f}" class="{kind}"{more}>{escape(cut)}{title}</text>'


def tree(shown: Explanation) -> str:
    """The tree, a node a row: below its parent and to the right of it, with its type at its side."""
    parts: list[str] = []
    widest = [0.0]

    def draw(node: Node, depth: int) -> int:
        """Draws a node and what is below it, and returns its row."""
        row = len(rows)
        chain = node.chain()
        label, kind = short(words.word_of(chain, shown)), words.kinds_of(chain)
        rows.append(label)
        x, y = 10 + depth * _STEP, ROW * row + 18
        parts.append(f'<circle cx="{x}" cy="{y - 4}" r="4" class="{_class_of(chain[-1])}"/>')
        parts.append(_text(x + 10, y, label, "label"))
        at = x + 18 + _LETTER * len(label)
        parts.append(_text(at, y, kind, "dim", len(kind)))
        widest[0] = max(widest[0], at + _LETTER * len(kind) + 8)
        for child in chain[-1].children:
            below = draw(child, depth + 1)
            parts.append(f'<path d="M{x} {y} V{ROW * below + 14} h{_STEP - 4}" class="edge"/>')
        return row

    rows: list[str] = []
    draw(shown.root, 0)
    return _picture(widest[0], ROW * len(rows) + 4, f"The tree of the condition, of {len(rows)} lines. The list below says the same.", parts)


def _class_of(node: Node) -> str:
    """Keys, locks and hashes have colours of their own."""
    if node.name in ("pk", "pkh", "pk_k", "pk_h", "multi"):
        return "key"
    if node.name in ("older", "after"):
        return "lock"
    return "hash" if node.name in ("sha256", "hash256", "ripemd160", "hash160") else "gate"


def ways(shown: Explanation) -> str:
    """The ways that are shown, a row each, over the keys and preimages, a column each: a dot where the way takes it. What has to be
    waited for stands above its ways."""
    spending = shown.spent
    name_of = shown.given.name_of
    columns = [("key", it) for it in shown.keys] + [("hash", value) for _, value in shown.hashes]
    names = [short(name_of(value), 18) for _, value in columns]
    top = 14 + _LETTER * 0.72 * max(map(len, names), default=0)
    left, step = 34, 26
    parts = []
    for at, name in enumerate(names):
        x = left + step * at + 12
        parts.append(_text(x, top - 6, name, "label", 18, f' transform="rotate(-45 {x:.1f} {top - 6:.1f})"'))
    y, width = top, left + step * len(columns) + _LETTER * 0.8 * max(map(len, names), default=0)
    locks = None
    for at, it in enumerate(spending.shown):
        if it.way.locks != locks:
            locks = it.way.locks
            y += ROW
            parts.append(_text(4, y - 7, in_short(locks), "band", 80))
            width = max(width, 12 + _LETTER * 1.05 * len(in_short(locks)))
        parts.append(_text(26, y + 17, str(at + 1), "dim", more=' text-anchor="end"'))
        parts.append(f'<path d="M{left} {y + 12:.1f} h{step * len(columns)}" class="edge"/>')
        taken = {*it.way.keys, *(atom.value for atom in it.way.hashes)}
        for column, (kind, value) in enumerate(columns):
            if value in taken:
                title = f"<title>{escape(name_of(value))}</title>"
                parts.append(f'<circle cx="{left + step * column + 12}" cy="{y + 12:.1f}" r="6" class="{kind}">{title}</circle>')
        y += ROW
    label = f"{words.count(len(spending.shown), 'way')} to spend, over the keys and preimages that they take. The table below says the same."
    return _picture(max(width, 60), y + 6, label, parts)
