"""Draws calls a second by share of reads as an SVG: a row of panels for each size, a panel for each number of threads, a line for each form."""
import math
from dataclasses import dataclass
from xml.sax.saxutils import escape

WIDTH = 800
MARGIN = 16
LEFT = 78
GAP = 22
PANEL_HEIGHT = 170
HEAD = 74
ROW_HEAD = 44
ROW_FOOT = 30
INSET = 16

# how many heights have room for their names
MOST_NAMED = 10

SANS = "-apple-system,'Segoe UI',Helvetica,Arial,'DejaVu Sans',sans-serif"
INK, SOFT_INK, RULE, GUIDE = "#1f2328", "#57606a", "#b9c2cc", "#e7ebef"
# of the lines in turn: colour, dashes, mark
LOOKS = [
    ("#2f5f8f", "", '<circle r="4.2"/>'),
    ("#57606a", "", '<path d="M0 -5L5 4H-5Z"/>'),
    ("#96281b", "7 3", '<path d="M-4 -4H4V4H-4Z"/>'),
    ("#b07a12", "2 3", '<path d="M0 -5.4L5.4 0L0 5.4L-5.4 0Z"/>'),
]
STYLE = f"""
text {{ font-family: {SANS}; font-size: 12px; fill: {INK} }}
.title {{ font-size: 14px; font-weight: 600 }}
.strong {{ font-weight: 600 }}
.soft {{ fill: {SOFT_INK} }}
.right {{ text-anchor: end }}
.middle {{ text-anchor: middle }}
.frame {{ fill: none; stroke: {RULE} }}
.guide {{ stroke: {GUIDE} }}
.line {{ fill: none; stroke-width: 2.2; stroke-linejoin: round }}
"""


@dataclass
class Panel:
    """What is drawn in one panel: of each form the points (reads in 100, calls a second)."""

    size: str
    threads: str
    lines: dict


def steps(least, most):
    """Rising numbers 1, 2 and 5 with any power of ten, from at most the least to at least the most."""
    found = []
    for power in range(math.floor(math.log10(least)), math.ceil(math.log10(most)) + 1):
        found += [float(f"{digit}e{power}") for digit in (1, 2, 5)]
    first = max(number for number in found if number <= least)
    last = min(number for number in found if number >= most)
    return [number for number in found if first <= number <= last]


class Scale:
    """Heights in a panel, by logarithms: the same way up is the same ratio. All panels have one scale."""

    def __init__(self, values):
        least, most = min(values), max(values)
        if most < 2 * least:
            least, most = least / 1.5, most * 1.5
        marks = steps(least, most)
        self.low, self.high = math.log(marks[0]), math.log(marks[-1])
        tens = [mark for mark in marks if f"{mark:e}".startswith("1")]
        self.marks = marks if len(marks) <= MOST_NAMED else tens[:: math.ceil(len(tens) / MOST_NAMED)]

    def down(self, value):
        return (self.high - math.log(value)) / (self.high - self.low) * PANEL_HEIGHT


def count_words(number):
    """A round number of calls, in thousands or millions."""
    return f"{number / 1e6:g} M" if number >= 1e6 else f"{number / 1e3:g} k" if number >= 1e3 else f"{number:g}"


def drawn(panels, names):
    """The picture of panels. `names` has the words for each form."""
    sizes = list(dict.fromkeys(panel.size for panel in panels))
    threads = list(dict.fromkeys(panel.threads for panel in panels))
    scale = Scale([calls for panel in panels for points in panel.lines.values() for _, calls in points])
    looks = dict(zip(names, LOOKS))
    width = (WIDTH - MARGIN - LEFT - GAP * (len(threads) - 1)) / len(threads)
    parts = [
        text(MARGIN, 24, "Calls a second, of all threads together (logarithmic scale)", "title"),
        text(WIDTH - MARGIN, 24, "the maps are not durable", "soft right"),
        *legend(names, looks),
    ]
    top = HEAD
    for size in sizes:
        parts.append(text(MARGIN, top + 14, size, "strong"))
        top += ROW_HEAD
        parts.append(upward(MARGIN + 10, top + PANEL_HEIGHT / 2, "calls a second", "soft middle"))
        for panel in panels:
            if panel.size == size:
                column = threads.index(panel.threads)
                parts += panel_parts(panel, scale, looks, (LEFT + column * (width + GAP), top, width, column == 0))
        top += PANEL_HEIGHT + ROW_FOOT
    parts.append(text((LEFT + WIDTH - MARGIN) / 2, top + 10, "reads in 100 calls", "soft middle"))
    height = top + 24
    return "\n".join(
        [
            f'<svg xmlns="http://www.w3.org/2000/svg" width="{WIDTH}" height="{height}" viewBox="0 0 {WIDTH} {height}" role="img">',
            "<title>Calls a second of all threads together, by share of reads</title>",
            f"<style>{STYLE}</style>",
            f'<rect width="{WIDTH}" height="{height}" fill="#ffffff"/>',
            *parts,
            "</svg>\n",
        ]
    )


def text(x, y, words, kind):
    return f'<text x="{x:g}" y="{y:g}" class="{kind}">{escape(words)}</text>'


def upward(x, y, words, kind):
    """Words that run upwards, the middle of which stands at a place."""
    return f'<text x="{x:g}" y="{y:g}" class="{kind} up" transform="rotate(-90 {x:g} {y:g})">{escape(words)}</text>'


def line(x1, y1, x2, y2, kind):
    return f'<line x1="{x1:.1f}" y1="{y1:.1f}" x2="{x2:.1f}" y2="{y2:.1f}" class="{kind}"/>'


def legend(names, looks):
    """A line with each form's look and name."""
    parts, x, y = [], MARGIN, 48
    for form in names:
        colour, dashes, mark = looks[form]
        parts.append(curve([(x, y), (x + 34, y)], colour, dashes))
        parts.append(marked(x + 17, y, colour, mark))
        parts.append(text(x + 41, y + 4, names[form], ""))
        x += 41 + 7 * len(names[form]) + 22
    return parts


def curve(points, colour, dashes):
    places = " ".join(f"{x:.1f},{y:.1f}" for x, y in points)
    return f'<polyline points="{places}" class="line" stroke="{colour}" stroke-dasharray="{dashes or "none"}"/>'


def marked(x, y, colour, mark, words=None):
    title = f"<title>{escape(words)}</title>" if words else ""
    return f'<g transform="translate({x:.1f} {y:.1f})" fill="{colour}" stroke="#ffffff">{title}{mark}</g>'


def panel_parts(panel, scale, looks, place):
    """A panel at a place: left, top, width, and whether it names the heights."""
    left, top, width, named = place
    parts = [text(left + width / 2, top - 8, panel.threads, "middle")]
    for mark in scale.marks:
        y = top + scale.down(mark)
        parts.append(line(left, y, left + width, y, "guide"))
        if named:
            parts.append(text(left - 7, y + 4, count_words(mark), "soft right"))
    parts.append(f'<rect x="{left:.1f}" y="{top}" width="{width:.1f}" height="{PANEL_HEIGHT}" class="frame"/>')
    # shares stand beside each other at one distance, since most of them are near 100
    shares = sorted({reads for points in panel.lines.values() for reads, _ in points})
    apart = (width - 2 * INSET) / max(len(shares) - 1, 1)
    across = {reads: left + INSET + apart * number for number, reads in enumerate(shares)}
    for reads, x in across.items():
        parts.append(line(x, top + PANEL_HEIGHT, x, top + PANEL_HEIGHT + 4, "frame"))
        parts.append(text(x, top + PANEL_HEIGHT + 17, str(reads), "soft middle"))
    # the first form is drawn last, above the others
    for form, points in reversed(panel.lines.items()):
        colour, dashes, mark = looks[form]
        places = [(across[reads], top + scale.down(calls)) for reads, calls in sorted(points)]
        parts.append(curve(places, colour, dashes))
        for (x, y), (reads, calls) in zip(places, sorted(points)):
            parts.append(marked(x, y, colour, mark, f"{form}, {panel.threads}, {reads} reads in 100: {calls:,.0f} calls a second"))
    return parts
