# SPDX-License-Identifier: MIT
"""The spends of each so many heights as bars, by whether their Script is sane, as SVG."""

from sums import KINDS, Sums

COLOURS = {"sane": "#1b6ca8", "not sane": "#c0392b", "no reading": "#b8b8b8"}
WIDTH, HEIGHT, LEFT, RIGHT, UPPER, LOWER = 900, 360, 70, 20, 60, 40


def plot(sums: Sums, every: int) -> str:
    """A picture of the spends by height."""
    bins = sums.bins(every)
    most = max((sum(counts) for _, counts in bins), default=1)
    first, last = (bins[0][0], bins[-1][0] + every) if bins else (0, every)
    width = (WIDTH - LEFT - RIGHT) * every / (last - first)
    scale = (HEIGHT - UPPER - LOWER) / most
    out = [
        f'<svg xmlns="http://www.w3.org/2000/svg" width="{WIDTH}" height="{HEIGHT}" font-family="sans-serif" font-size="12">',
        f'<rect width="{WIDTH}" height="{HEIGHT}" fill="white"/>',
        f'<text x="{LEFT}" y="22" font-size="15">P2WSH spends, each {every} heights</text>',
    ]
    for place, name in enumerate(KINDS):
        out.append(f'<rect x="{LEFT + 120 * place}" y="34" width="12" height="12" fill="{COLOURS[name]}"/>')
        out.append(f'<text x="{LEFT + 120 * place + 18}" y="45">{name}</text>')
    for number in (0, most):
        y = HEIGHT - LOWER - scale * number
        out.append(f'<line x1="{LEFT}" y1="{y:.1f}" x2="{WIDTH - RIGHT}" y2="{y:.1f}" stroke="#dddddd"/>')
        out.append(f'<text x="{LEFT - 8}" y="{y + 4:.1f}" text-anchor="end">{number}</text>')
    for start, counts in bins:
        x, y = LEFT + (start - first) / every * width, float(HEIGHT - LOWER)
        for name, count in zip(KINDS, counts):
            y -= scale * count
            out.append(f'<rect x="{x:.2f}" y="{y:.2f}" width="{width:.2f}" height="{scale * count:.2f}" fill="{COLOURS[name]}"/>')
    for x, height in ((LEFT, first), (WIDTH - RIGHT, last - 1)):
        out.append(f'<text x="{x}" y="{HEIGHT - LOWER + 18}" text-anchor="{"start" if x == LEFT else "end"}">{height}</text>')
    return "\n".join((*out, "</svg>", ""))
