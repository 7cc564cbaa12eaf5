#!/usr/bin/env python3
"""Draws the lives of a report as an SVG: of documents, of a queue, and of clients that share callers.

    draw_life.py [--texts] REPORT [-o FILE]

The history runs downwards along one line. Each client has a lane beside it. An entry stands at its ticket, and a read at its
place: behind all entries with lower tickets. After a crash the entries that were not kept stand in a hatched band, and
the next life goes on from the last one kept. A report of more than 30 commands, or of more than 24 clients, is drawn in columns and without
texts, and says so; with --texts it has them. The picture is as wide as its texts, from 480 to 800, or as its lanes with the line of a crash beside them.

Without -o the picture goes to standard output. It has a background of its own, so that it can be shown on a light page and on a dark one.

It takes a second.
Example: draw_life.py docs/pictures/two_shops.report -o /tmp/two_shops.svg
Status 0 where there is a picture; 1 and `line N: WHY` where the report has a line that is not one of a report; 2 where a file cannot be read or written, or
the words are others.
"""
import sys
import textwrap
import unicodedata
from dataclasses import dataclass, replace
from pathlib import Path
from xml.sax.saxutils import escape, quoteattr

from commands import helped
from report_text import UNANSWERED, Entry, Fault, Full, Read, Stop, read_report, split_reply

WIDTH = 800
MARGIN = 16
MOST_COMMANDS_WITH_TEXT = 30
# lanes as wide as marks with texts want them, lanes as wide as their numbers, and as many as leave room for texts
MOST_WIDE_LANES = 8
MOST_SMALL_LANES = 10
MOST_NUMBERED_LANES = MOST_LANES_WITH_TEXT = 24
NUMBERED_LANE = 17
# of more lanes each so many-th has its number
NUMBERED_APART = 5

INK = "#1f2328"
SOFT_INK = "#57606a"
RULE = "#b9c2cc"
GUIDE = "#e7ebef"
ENTRY = "#2f5f8f"
READ = "#d9a441"
READ_EDGE = "#6f4e00"
ENDED = "#96281b"
BAND = "#f4f2ee"
HATCH = "#cfc8bb"

MONO = "ui-monospace,SFMono-Regular,Menlo,Consolas,'DejaVu Sans Mono',monospace"
SANS = "-apple-system,'Segoe UI',Helvetica,Arial,'DejaVu Sans',sans-serif"
STYLE = f"""
text {{ font-family: {SANS}; font-size: 12px; fill: {INK} }}
.code {{ font-family: {MONO}; font-size: 12.5px }}
.soft {{ fill: {SOFT_INK} }}
.small {{ font-size: 11px }}
.strong {{ font-weight: 600 }}
.right {{ text-anchor: end }}
.middle {{ text-anchor: middle }}
.lane {{ stroke: {RULE}; stroke-width: 1.5 }}
.lane.named {{ stroke: {SOFT_INK} }}
.guide {{ stroke: {GUIDE}; stroke-width: 1 }}
.history {{ stroke: {SOFT_INK}; stroke-width: 2; fill: none }}
.dropped {{ stroke-dasharray: 3 3 }}
.entry {{ fill: {ENTRY}; stroke: {ENTRY}; stroke-width: 2 }}
.entry.unanswered {{ fill: #ffffff }}
.read {{ fill: {READ}; stroke: {READ_EDGE}; stroke-width: 1.2 }}
.stop, .power {{ fill: none; stroke: {ENDED}; stroke-width: 2.2 }}
.full {{ fill: #ffffff; stroke: {ENDED}; stroke-width: 2 }}
.lost {{ fill: {ENDED} }}
"""


@dataclass(frozen=True)
class Look:
    """The sizes of a picture, with texts or without."""

    texts: bool
    row: int
    head: int
    cut: int
    power: int
    lane: int
    mark: float


WITH_TEXTS = Look(texts=True, row=22, head=64, cut=26, power=40, lane=24, mark=5.5)
WITHOUT_TEXTS = Look(texts=False, row=10, head=64, cut=8, power=58, lane=13, mark=3.2)
# from a column's left edge: where tickets end; from there to where places do, to the history, and to the first lane behind it
TICKETS_END, TO_PLACES_END, TO_HISTORY, TO_FIRST_LANE = 44, 40, 10, 40
SMALL_TICKETS_END, SMALL_TO_HISTORY, SMALL_TO_FIRST_LANE = 38, 8, 20
WAY_BACK = -2
COLUMN_GAP = 14
NAMED = ("entry", "read", "ended")
NARROWEST_COLUMN = 170
# two columns of the most lanes that have their numbers
WIDEST_COLUMNS = 980
LANES_AGAIN = 46
LEAST_HEIGHT = 160
NARROW = "fijlrt ,:()"
NARROWEST = 480
# what texts have at the least, however many lanes stand before them
LEAST_TEXT = 400
CODE_LETTER = 7.6
LOST = "  lost"
NOTE_LETTER = 6.0
NOTE_LINE = 16
CHOICE_NOTE = "The choice is the number behind 'power' in the script: it picks what a crash leaves of what was not durable yet."


@dataclass
class Row:
    """One row of the picture, from top to bottom: its kind, the line of the report that it shows, and where it was put."""

    kind: str
    life: int
    item: object
    lost: bool = False
    left: float = 0
    top: float = 0
    height: float = 0

    @property
    def middle(self):
        return self.top + self.height / 2

    @property
    def bottom(self):
        return self.top + self.height


def rows_of(report):
    """The rows of all lives, in the order in which they are drawn."""
    rows = []
    for index, life in enumerate(report.lives):
        rows.append(Row("head", index, life.head))
        rows.extend(rows_of_history(index, life))
        rows.extend(Row("ended", index, item) for item in [*life.stops, *life.fulls])
        rows.append(Row("power", index, life.power))
    return rows


def rows_of_history(index, life):
    """Entries at their tickets; reads before the entry with their place as its ticket; a cut where what follows was lost."""
    end_of_kept = life.head.place + life.power.kept
    items = [*life.entries, *life.reads]
    items.sort(key=lambda item: (place_of(item), isinstance(item, Entry)))
    rows = []
    for item in items:
        lost = isinstance(item, Entry) and item.ticket >= end_of_kept
        if lost and not (rows and rows[-1].lost):
            rows.append(Row("cut", index, life.power))
        rows.append(Row("entry" if isinstance(item, Entry) else "read", index, item, lost))
    return rows


def place_of(item):
    return item.ticket if isinstance(item, Entry) else item.place


def why_without_texts(commands, clients):
    """Why a picture has no texts, or None where there is room for them: few commands, and lanes of not too many clients."""
    if commands > MOST_COMMANDS_WITH_TEXT:
        return f"more than {MOST_COMMANDS_WITH_TEXT} commands"
    return f"more than {MOST_LANES_WITH_TEXT} clients" if clients > MOST_LANES_WITH_TEXT else None


def look_for(texts, clients):
    """With texts or without; lanes are as wide as the numbers above them want it."""
    look = WITH_TEXTS if texts else WITHOUT_TEXTS
    if clients <= (MOST_WIDE_LANES if texts else MOST_SMALL_LANES):
        return look
    lane = NUMBERED_LANE if clients <= MOST_NUMBERED_LANES else WITHOUT_TEXTS.lane
    return replace(look, lane=lane, mark=min(look.mark, 4.4))


class Picture:
    """Puts the rows into columns, and draws them."""

    def __init__(self, report, texts=False):
        self.report = report
        self.rows = rows_of(report)
        self.clients = max((life.head.clients for life in report.lives), default=1)
        why = why_without_texts(sum(row.kind in ("entry", "read") for row in self.rows), self.clients)
        self.look = look_for(texts or not why, self.clients)
        self.notes = [f"There are {why}, so texts are left out: draw_life.py --texts has them."]
        if self.look.texts:
            self.notes = [CHOICE_NOTE] if report.lives else []
        self.tickets_end, self.places_end, self.history, self.first_lane = self.gutter()
        self.names = max((CODE_LETTER * len(row.item.name) for row in self.rows if row.kind in NAMED), default=0) + 14
        self.columns = 1 if self.look.texts else max(1, (self.widest() - 2 * MARGIN + COLUMN_GAP) // self.column_width())
        self.width = self.width_for_texts() if self.look.texts else self.width_for_columns()
        self.parts = []
        self.bottom = MARGIN
        self.put_rows()
        # the row in which a client of a life ended, and the rows that a life has once
        self.ended = {(row.life, row.item.client): row for row in self.rows if row.kind == "ended"}
        self.single = {(row.kind, row.life): row for row in self.rows if row.kind in ("head", "cut", "power")}

    # where things stand

    def gutter(self):
        """Where, from a column's left edge, tickets end, places do, the history runs, and the first lane does."""
        tickets, places = (max((6.8 * len(str(place_of(row.item))) for row in self.rows if row.kind == kind), default=0) for kind in ("entry", "read"))
        if not self.look.texts:
            end = SMALL_TICKETS_END + max(0, tickets - SMALL_TICKETS_END)
            return end, end, end + SMALL_TO_HISTORY, end + SMALL_TO_HISTORY + SMALL_TO_FIRST_LANE
        end = TICKETS_END + max(0, tickets - 34)
        places_end = end + max(TO_PLACES_END, places + 8) if places else end
        return end, places_end, places_end + TO_HISTORY, places_end + TO_HISTORY + TO_FIRST_LANE

    def widest(self):
        """How wide a picture of columns may be: wider where there are more lanes than small ones."""
        return WIDTH if self.clients <= MOST_SMALL_LANES else WIDEST_COLUMNS

    def width_for_columns(self):
        """As wide as the columns, and at least as others."""
        return max(WIDTH, round(self.columns * self.column_width() - COLUMN_GAP) + 2 * MARGIN)

    def width_for_texts(self):
        """As wide as the longest row and the legend want it, up to WIDTH, or to what leaves room for texts and for the rows that are never shortened."""
        start = MARGIN + self.first_lane + self.look.lane * (self.clients - 1) + 20
        whole = [start + width_of(power_words(row.item)) + 90 for row in self.rows if row.kind == "power"]
        whole += [start + self.names + width_of(ended_words(row.item)) for row in self.rows if row.kind == "ended"]
        most = max(WIDTH, round(start) + LEAST_TEXT, round(max(whole, default=0)) + MARGIN)
        ends = list(whole)
        for row in self.rows:
            if row.kind in ("entry", "read"):
                letters = sum(map(columns_of, row.item.rest)) + 1
                ends.append(start + self.names + CODE_LETTER * (letters + (len(LOST) if row.lost else 0)))
        kinds = {kind_of(row) for row in self.rows}
        ends.append(MARGIN + sum(legend_width(words) for kind, words, _ in LEGEND if kind in kinds))
        return min(most, max(NARROWEST, round(max(ends)) + MARGIN))

    def put_rows(self):
        """Gives each row its place: one column with texts, and else as many as fit beside each other."""
        heights = {"head": self.look.head, "cut": self.look.cut, "power": self.look.power}
        for row in self.rows:
            row.height = heights.get(row.kind, self.look.row)
        columns = self.columns
        tallest = max(sum(row.height for row in self.rows) / columns + LANES_AGAIN, LEAST_HEIGHT)
        left, top = MARGIN, MARGIN
        put = []
        for row in self.rows:
            if columns > 1 and top + self.least_below(row) > tallest + MARGIN:
                columns, left, top = columns - 1, left + self.column_width(), MARGIN
                if row.kind != "head":
                    put.append(Row("lanes", row.life, self.report.lives[row.life].head, False, left, top, LANES_AGAIN))
                    top += LANES_AGAIN
            row.left, row.top = left, top
            put.append(row)
            top += row.height
            self.bottom = max(self.bottom, top)
        self.rows = put

    def least_below(self, row):
        """How much of a column a row wants to begin in it: a life's first one some rows of the life, and a crash nothing."""
        if row.kind == "power":
            return 0
        return row.height + 4 * self.look.row if row.kind == "head" else row.height / 2

    def column_width(self):
        return max(NARROWEST_COLUMN, self.first_lane + self.clients * self.look.lane) + COLUMN_GAP

    def lane(self, row, client):
        return row.left + self.first_lane + self.look.lane * client

    def text_left(self, row):
        return self.lane(row, self.clients - 1) + 20

    # drawing

    def add(self, part):
        self.parts.append(part)

    def text(self, x, y, words, kind=""):
        self.add(f'<text x="{x:g}" y="{y:g}" class="{kind}">{clean(words)}</text>')

    def pair(self, x, y, title, words):
        """A title and words behind it, as wide as the reader's font makes them."""
        self.add(
            f'<text x="{x:g}" y="{y:g}" xml:space="preserve"><tspan class="strong">{clean(title)}</tspan>'
            f'<tspan class="soft">  {clean(words)}</tspan></text>'
        )

    def line(self, x1, y1, x2, y2, kind):
        self.add(f'<line x1="{x1:g}" y1="{y1:g}" x2="{x2:g}" y2="{y2:g}" class="{kind}"/>')

    def draw(self):
        for rows in self.runs(lambda row: (row.life, row.left)):
            self.draw_background(rows)
        for index in range(1, len(self.report.lives)):
            self.draw_way_back(index)
        for row in self.rows:
            getattr(self, f"draw_{row.kind}")(row)
        self.draw_legend()
        return self.document()

    def runs(self, key):
        """The rows cut into runs with the same key."""
        runs = []
        for row in self.rows:
            if not runs or key(runs[-1][-1]) != key(row):
                runs.append([])
            runs[-1].append(row)
        return runs

    def draw_background(self, rows):
        """What stands behind the marks of one life in one column: the band of what was lost, the lanes, the history."""
        first, last = rows[0], rows[-1]
        top = first.bottom - 6 if first.kind == "head" else first.bottom if first.kind == "lanes" else first.top
        lost = [row for row in rows if row.lost]
        if lost:
            self.draw_band(lost)
        for client in range(self.report.lives[first.life].head.clients):
            end = self.end_of_lane(rows, client)
            if end > top:
                x = self.lane(first, client)
                self.line(x, top, x, end, "lane named" if self.clients > MOST_NUMBERED_LANES and self.has_number(client) else "lane")
        x = first.left + self.history
        end = last.top + 14 if last.kind == "power" else last.bottom
        if lost:
            end = lost[0].top
            self.line(x, lost[0].top, x, lost[-1].bottom, "history dropped")
        if end > top:
            self.line(x, top, x, end, "history")

    def end_of_lane(self, rows, client):
        """A lane ends where its client ended, or where the crash is; in this column it may go through, or not be there."""
        last = rows[-1]
        ended = self.ended.get((last.life, client))
        if ended is None:
            return last.top + 14 if last.kind == "power" else last.bottom
        if ended.left == last.left:
            return ended.middle
        return last.bottom if ended.left > last.left else 0

    def draw_band(self, lost):
        left = lost[0].left + self.history - 8
        lanes_end = self.text_left(lost[0]) - 8
        right = self.width - MARGIN if self.look.texts else lanes_end
        top, height = lost[0].top, lost[-1].bottom - lost[0].top
        self.add(f'<rect x="{left:g}" y="{top:g}" width="{right - left:g}" height="{height:g}" fill="{BAND}"/>')
        self.add(f'<rect x="{left:g}" y="{top:g}" width="{lanes_end - left:g}" height="{height:g}" fill="url(#hatch)"/>')

    def draw_way_back(self, index):
        """From the end of what was kept to where the next life begins: straight on, or round the band of what was lost."""
        head, cut, power = self.single["head", index], self.single.get(("cut", index - 1)), self.single["power", index - 1]
        if head.left != (cut or power).left:
            return
        x, end = head.left + self.history, head.bottom - 6
        if cut is None:
            self.line(x, power.top + 14, x, end, "history")
            return
        side, start = head.left + WAY_BACK, cut.top + self.look.cut / 2
        self.add(f'<path d="M{x:g} {start:g}H{side:g}V{head.top + 8:g}H{x:g}V{end:g}" class="history"/>')

    def draw_head(self, row):
        head = row.item
        clients = f"{head.clients} client" + ("s" if head.clients > 1 else "")
        if self.look.texts:
            self.pair(row.left + self.history + 14, row.top + 18, f"Life {head.index}", f"{clients}, from place {head.place}")
            if self.places_end > self.tickets_end:
                self.text(row.left + self.places_end, row.bottom - 10, "place", "small soft right")
            self.text(self.text_left(row), row.bottom - 10, "command = reply, by client and command", "small soft")
        else:
            self.text(row.left + self.history + 10, row.top + 12, f"Life {head.index}", "strong")
            self.text(row.left + self.history + 10, row.top + 25, f"from place {head.place}", "small soft")
        self.draw_headings(row, row.bottom - 10)

    def draw_lanes(self, row):
        self.text(row.left + self.history + 10, row.top + 12, f"Life {row.item.index}, continued", "strong")
        self.draw_headings(row, row.bottom - 6)

    def draw_headings(self, row, y):
        """What stands above the tickets, and above the lanes: a word, and the clients' numbers."""
        self.text(row.left + self.tickets_end, y, "ticket", "small soft right")
        middle = (self.lane(row, 0) + self.lane(row, row.item.clients - 1)) / 2
        self.text(middle, y - 13, "client", "small soft middle")
        for client in range(row.item.clients):
            if self.has_number(client):
                self.text(self.lane(row, client), y, str(client), "small soft middle")

    def has_number(self, client):
        """Whether the lane of a client has its number above it: each, unless there are too many for it."""
        return self.clients <= MOST_NUMBERED_LANES or client % NUMBERED_APART == 0

    def draw_entry(self, row):
        unanswered = row.item.rest.endswith(f" = {UNANSWERED}")
        self.draw_ticket(row)
        self.draw_text(row)
        kind = "entry unanswered" if unanswered else "entry"
        radius = self.look.mark - (0.5 if unanswered else 0)
        self.mark(row, f'<circle r="{radius:g}" class="{kind}">{{title}}</circle>')

    def draw_read(self, row):
        self.draw_ticket(row)
        self.draw_text(row)
        self.mark(row, f'<path d="{diamond(self.look.mark + 1)}" class="read">{{title}}</path>')

    def mark(self, row, shape):
        """Draws a mark in the lane of its client; `shape` has a place for what it is, which is shown to who points at it."""
        x = self.lane(row, row.item.client)
        title = f"<title>{clean(described(row.item))}</title>"
        self.add(f'<g transform="translate({x:g} {row.middle:g})">{shape.format(title=title)}</g>')

    def draw_ticket(self, row):
        """The ticket or the place beside the history; without texts, each tenth ticket."""
        is_entry = isinstance(row.item, Entry)
        if self.look.texts:
            self.line(row.left + self.history, row.middle, self.text_left(row) - 6, row.middle, "guide")
            end = self.tickets_end if is_entry else self.places_end
            self.text(row.left + end, row.middle + 4, str(place_of(row.item)), "small soft right")
        elif is_entry and row.item.ticket % 10 == 0:
            self.line(row.left + self.history, row.middle, self.text_left(row) - 12, row.middle, "guide")
            self.text(row.left + self.tickets_end, row.middle + 4, str(row.item.ticket), "small soft right")
        if is_entry:
            x = row.left + self.history
            self.line(x - 4, row.middle, x + 4, row.middle, "history")

    def draw_text(self, row):
        if not self.look.texts:
            return
        left = self.text_left(row)
        name = row.item.name
        command, reply = split_reply(row.item.line, row.item.rest)
        start = left + self.names
        lost = LOST if row.lost else ""
        asked, answered = fitted(command, reply, int((self.width - MARGIN - start) / CODE_LETTER) - len(lost))
        self.text(left, row.middle + 4, name, "code soft")
        self.add(
            f'<text x="{start:g}" y="{row.middle + 4:g}" class="code" xml:space="preserve">{clean(asked)}'
            f'<tspan class="soft"> = </tspan><tspan class="strong">{clean(answered)}</tspan>'
            f'{f"""<tspan class="lost">{lost}</tspan>""" if lost else ""}</text>'
        )

    def draw_cut(self, row):
        y = row.top + self.look.cut / 2
        self.line(row.left + self.history - 8, y, self.text_left(row) - 8, y, "history dropped")
        if self.look.texts:
            place = self.report.lives[row.life].head.place + row.item.kept
            self.text(self.text_left(row), y + 4, f"kept up to place {place}", "soft")

    def draw_ended(self, row):
        item = row.item
        size = self.look.mark
        if isinstance(item, Stop):
            shape = f'<path d="M{-size} {-size}L{size} {size}M{-size} {size}L{size} {-size}" class="stop">{{title}}</path>'
        else:
            size -= 0.5
            shape = f'<path d="M{-size} {-size}H{size}V{size}H{-size}Z" class="full">{{title}}</path>'
        self.mark(row, shape)
        if self.look.texts:
            left = self.text_left(row)
            self.text(left, row.middle + 4, item.name, "code soft")
            self.text(left + self.names, row.middle + 4, ended_words(item))

    def draw_power(self, row):
        power = row.item
        left, right = row.left + self.history - 8, self.text_left(row) - 8
        self.add(f'<path d="{zigzag(left, right, row.top + 14)}" class="power"><title>crash</title></path>')
        if self.look.texts:
            self.pair(self.text_left(row), row.top + 18, "Crash", power_words(power))
        else:
            self.text(row.left + self.history + 10, row.top + 35, f"kept {power.kept} of {power.entries}", "small")
            self.text(row.left + self.history + 10, row.top + 49, counted(power.size, power.counted[:-1]), "small soft")

    def draw_legend(self):
        """One line that names each mark that the picture has."""
        kinds = {kind_of(row) for row in self.rows}
        x, y = MARGIN + 8, self.bottom + (18 if self.look.texts else 26)
        for kind, words, shape in LEGEND:
            if kind in kinds:
                self.add(f'<g transform="translate({x:g} {y:g})" class="legend">{shape}</g>')
                self.text(x + 15, y + 4, words)
                x += legend_width(words)
        self.bottom = y + 14
        for words in self.notes:
            for part in textwrap.wrap(words, int((self.width - 2 * MARGIN - 8) / NOTE_LETTER)):
                self.bottom += NOTE_LINE
                self.text(MARGIN + 1, self.bottom - 4, part, "small soft")

    def document(self):
        height = self.bottom + MARGIN / 2
        lives = "1 life" if len(self.report.lives) == 1 else f"{len(self.report.lives)} lives"
        entries = sum(len(life.entries) for life in self.report.lives)
        return "\n".join(
            [
                f'<svg xmlns="http://www.w3.org/2000/svg" width="{self.width}" height="{height:g}" viewBox="0 0 {self.width} {height:g}"'
                f" role=\"img\" aria-label={quoteattr(f'{lives} with {entries} entries')}>",
                f"<style>{STYLE}</style>",
                '<defs><pattern id="hatch" width="6" height="6" patternUnits="userSpaceOnUse" patternTransform="rotate(45)">'
                f'<line x1="0" y1="0" x2="0" y2="6" stroke="{HATCH}" stroke-width="1.6"/></pattern></defs>',
                f'<rect x="0.5" y="0.5" width="{self.width - 1}" height="{height - 1:g}" rx="6" fill="#ffffff" stroke="{RULE}"/>',
                *self.parts,
                "</svg>\n",
            ]
        )


def counted(number, word):
    return f"{number} {word}" + ("" if number == 1 else "s")


def width_of(words):
    """About the width of words in the font of the legend."""
    return sum(4.5 if letter in NARROW else 7.3 for letter in words)


def legend_width(words):
    """From one mark of the legend to the next."""
    return 15 + width_of(words) + 24


def power_words(power):
    return f"{power.kept} of {power.entries} entries kept, {counted(power.size, power.counted[:-1])} (choice {power.choice})"


def ended_words(item):
    """How a client ended."""
    if isinstance(item, Stop):
        return f"stopped after {item.steps} steps, its command {item.fate}"
    return f"gave up: holder {item.holder}, need {item.need}, ticket {item.ticket}"


def diamond(size):
    return f"M0 {-size:g}L{size:g} 0L0 {size:g}L{-size:g} 0Z"


def zigzag(left, right, y):
    """A line that jumps up and down, from left to right."""
    steps = max(2, round((right - left) / 9))
    points = (f"{left + (right - left) * at / steps:g} {y + (5 if at % 2 else -5):g}" for at in range(steps + 1))
    return "M" + "L".join(points)


LEGEND = (
    ("entry", "entry", '<circle r="5" class="entry"/>'),
    ("unanswered", "entry without a reply", '<circle r="4.5" class="entry unanswered"/>'),
    ("read", "read at its place", f'<path d="{diamond(6)}" class="read"/>'),
    ("stop", "stopped", '<path d="M-4 -4L4 4M-4 4L4 -4" class="stop"/>'),
    ("full", "gave up", '<path d="M-4 -4H4V4H-4Z" class="full"/>'),
    ("lost", "lost", '<rect x="-7" y="-6" width="14" height="12" fill="url(#hatch)"/>'),
    ("power", "crash", f'<path d="{zigzag(-9, 9, 0)}" class="power"/>'),
)


def kind_of(row):
    """The row's kind in the legend."""
    if row.kind == "cut":
        return "lost"
    if row.kind == "ended":
        return "full" if isinstance(row.item, Full) else "stop"
    if row.kind == "entry" and row.item.rest.endswith(f" = {UNANSWERED}"):
        return "unanswered"
    return row.kind


def described(item):
    """What a mark is, for who points at it."""
    if isinstance(item, Entry):
        return f"ticket {item.ticket}: {item.name} {item.rest}"
    if isinstance(item, Read):
        return f"read at place {item.place}: {item.name} {item.rest}"
    return f"{item.name} {ended_words(item)}"


def clean(words):
    """The words as XML, without the characters that XML has no form for."""
    return escape("".join(letter if is_drawn(letter) else "\ufffd" for letter in words))


def is_drawn(letter):
    return letter >= " " and letter not in "\ufffe\uffff" and not "\x7f" <= letter <= "\x9f"


def columns_of(letter):
    """How many columns of a text of fixed width a character takes."""
    return 2 if unicodedata.east_asian_width(letter) in "WF" else 1


def cut_to(words, columns):
    """The words, or as many of their characters as fit with a mark that there were more."""
    if sum(map(columns_of, words)) <= columns:
        return words
    front, taken = [], 1
    for letter in words:
        taken += columns_of(letter)
        if taken > columns:
            break
        front.append(letter)
    return "".join(front) + "\u2026"


def fitted(command, reply, columns):
    """Command and reply so that both fit into a row, the reply first."""
    spare = columns - 3 - sum(map(columns_of, command))
    reply = cut_to(reply, max(spare, columns // 2))
    return cut_to(command, columns - 3 - sum(map(columns_of, reply))), reply


def drawn(data, texts=False):
    """The picture of a report, with texts where they are wanted or there is room; raises Fault where it has a line that is not one of a report."""
    report = read_report(data)
    if report.fault:
        raise report.fault
    for life in report.lives:
        for item in [*life.entries, *life.reads]:
            split_reply(item.line, item.rest)
        for item in life.lines()[:-1]:
            if item.client >= life.head.clients:
                raise Fault(item.line, f"the life has no client {item.client}")
        most = 64 if len(report.lives) == 1 else 8
        if life.head.clients > most:
            raise Fault(life.head.line, f"a life has {most} clients at the most")
    return Picture(report, texts).draw()


def main(words):
    if helped(__doc__, words):
        return 0
    asked = asked_in(words)
    if asked is None:
        print("usage: draw_life.py [--texts] REPORT [-o FILE]", file=sys.stderr)
        return 2
    report, out, texts = asked
    try:
        picture = drawn(Path(report).read_bytes(), texts)
        if out:
            Path(out).write_text(picture, encoding="utf-8")
        else:
            sys.stdout.write(picture)
    except OSError as error:
        print(f"{error.filename}: {error.strerror}", file=sys.stderr)
        return 2
    except Fault as fault:
        print(f"{report}, {fault}", file=sys.stderr)
        return 1
    return 0


def asked_in(words):
    """The report, the file for its picture, or None for that, and whether texts are wanted; None where the words are others."""
    words, out, texts = list(words), None, "--texts" in words
    if texts:
        words.remove("--texts")
    if "-o" in words[:-1]:
        at = words.index("-o")
        out = words[at + 1]
        del words[at : at + 2]
    return (words[0], out, texts) if len(words) == 1 and words[0] not in ("-o", "--texts") else None


if __name__ == "__main__":
    sys.exit(main(sys.argv[1:]))
