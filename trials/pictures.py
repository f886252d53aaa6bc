"""The plain model of `draw`: the whole text of a picture, to the byte. It shares no code with the product.

Which entries and processes are shown, what a verdict adds, and what is faint: crates/causal_picture/README.md, its definitions (specs/) and
those of crates/causal_report (specs/Drawings.antt). How a picture looks no definition says. These are its rules; their numbers, colours and
words are the tables below.

Places. Each shown entry has a column, and each shown process a row. Columns are as wide as there is room, one column away from either end
of the processes' lines. An instant is in the middle between the columns of the entry before it and the one after it. Where entries are
hidden is a cut: all that is at a hidden entry is at the cut, which is the instant between the shown entries around it. A picture has room for
its lines and the names behind them, and at least for the legend. Places are whole numbers; halves are rounded down.

Elements, in this order, one on a line. A group begins with its title, on its line. Attributes have single quotes; those of a place come first,
then the style, in the order of the tables. Nothing needs to be escaped.
1. The head: a title, how much is shown, the arrow head, a white background.
2. A group for each process, ascending: its shade if it is in the crash set (if too many are down, those are), a dotted line, its name before
   it and, in a wide picture, again above it, unless the line ends there.
3. Of each range of entries: a group for each process that is up where it begins, with its solid line from there to its next crash, or to
   the end of the range; then a group for each entry of a shown process, with its number (upright if columns are narrow), the arrow of
   what it delivers, if the sender is shown, or the line of what restarts, and its glyph. An arrow to the sender itself bends upwards.
4. If there is a breach: a band for each process that holds the determinant, ascending, then for each that lost it, ascending; a group for
   the chain, if some of it is shown, with a line through its shown entries and a ring around each; a group for the instant, with a line, its
   number, and for each process its glyph if it has a role, and its name and role at the end of its line.
5. For hidden entries before, between and after the ranges a group with a dotted line and how many; for hidden processes, how many.
6. The caption, and the legend: each glyph and its name, in two rows.
"""
import bisect
import itertools
import typing

import reasons
import traces

# How many entries are shown.
MOST = 200  # in all
AFTER = 10  # after the instant, unless that hides some of the chain
EARLY = 40  # around the chain's first entry, if the others do not reach back to it
BEFORE_CHAIN = 9  # of these before it
BEFORE_LINE = 100  # before the line that is asked for
NAMED = 8  # so many determinants of a list have their names in a title

# Places. x grows to the right, y downwards.
LEFT, TOP = 80, 92  # the left end of the processes' lines, and the first of them
COLUMN, COLUMNS = 30, 2200  # a column is so wide, or less, so that all and one more are at most so wide together
ROW, ROWS, LOWEST_ROW = 40, 560, 16  # a row is so high, or less, so that all and one more are so high together, but never lower than that
RIGHT, WIDEST_LEGEND = 120, 600  # the room behind the lines, and the width of the legend
BELOW = 80  # the room below the rows, for an instant's number, how much is hidden, and the legend
NAME, NAMES_AGAIN = 72, (680, 1280, 1880)  # where the name of a process ends, and the middles of where it is again
HALF_NAME = 30  # how far such a name reaches from its middle; the line has to go on for longer
NUMBER, UPRIGHT_NUMBER = 62, 66  # the y of the numbers of lines
UPRIGHT = 28  # they are upright if columns are narrower
LINES_TOP = 70  # the upper end of the lines of instants and cuts; the lower one is where the rows end
BEND = 30  # so high an arrow from a process to itself bends
GAP = 6  # between the shades of two rows
HIDDEN = 27  # so far below the rows stands how much is hidden
KEYS, KEY_ROW = 38, 24  # so far below the rows is the first row of the legend, and below that the second
KEY_LEFT, KEY_COLUMN, KEY_COLUMNS = 20, 100, 6  # where the legend begins, how wide its columns are, and how many

# Colours: of what is up and is named; of arrows and what is hidden; of small labels; of processes that are down; of the crash set.
INK, GREY, PALE, FAR, SAND = "#222", "#555", "#777", "#999", "#ffe3b3"
# Of what is held, and the instant; of crashes and the orphan; of restarts; of forgetting; of the chain.
BLUE, RED, GREEN, PURPLE, ORANGE = "#0072b2", "#c00000", "#008060", "#a0549b", "#d55e00"


def disk(radius):
    return f"M-{radius:g} 0a{radius:g} {radius:g} 0 1 0 {2 * radius:g} 0a{radius:g} {radius:g} 0 1 0-{2 * radius:g} 0z"


def box(right, bottom):
    return f"M-{right}-{bottom}H{right}V{bottom}H-{right}z"


DIAMOND = "M0-8L6 0L0 8L-6 0z"

# The glyphs by their names, in the order of the legend.
GLYPHS = {
    "send": dict(d=disk(4.5), fill="white", stroke=INK, stroke_width=1.5),
    "sent again": dict(d=disk(4.5), fill="white", stroke=INK, stroke_width=1.5, opacity=0.4),
    "delivery": dict(d=disk(5), fill=INK),
    "crash": dict(d="M-7-7L7 7M-7 7L7-7", fill="none", stroke=RED, stroke_width=3),
    "restart": dict(d=disk(7), fill="white", stroke=GREEN, stroke_width=3),
    "stable": dict(d=box(4, 4), fill=BLUE),
    "forgetting": dict(d="M0-6L6 4H-6z", fill=PURPLE),
    "chain": dict(d=disk(9), fill="none", stroke=ORANGE, stroke_width=2),
    "crash set": dict(d=box(9, 9), fill=SAND),
    "holder": dict(d=DIAMOND, fill=BLUE),
    "orphan": dict(d=DIAMOND, fill="white", stroke=RED, stroke_width=2),
    "in its log": dict(d=box(9, 5), fill=BLUE, fill_opacity=0.25),
}
# The glyph of an entry, by its word in the trace.
GLYPH_OF = {"send": "send", "deliver": "delivery", "stable": "stable", "crash": "crash", "restart": "restart", "forget": "forgetting"}

# Lines: of a process throughout and while it is up; of a message; behind a process of the crash set; along one that has the determinant;
# through the chain; at an instant and at a cut. What lies over entries lets the pointer through, so that their titles stay readable.
THROUGH = dict(pointer_events="none")
ROW_LINE = dict(stroke=FAR, stroke_dasharray="1 5")
UP_LINE = dict(stroke=INK, stroke_width=1.5)
ARROW = dict(stroke=GREY, marker_end="url(#arrowhead)")
SHADE = dict(stroke=SAND)
BAND = dict(stroke=BLUE, stroke_width=10, stroke_opacity=0.25, **THROUGH)
CHAIN_LINE = dict(stroke=ORANGE, stroke_width=4, stroke_opacity=0.75)
INSTANT_LINE = dict(stroke=BLUE, stroke_width=2, stroke_dasharray="7 4")
CUT_LINE = dict(stroke=GREY, stroke_dasharray="2 4")

# Labels: the name of a process before its line, above it, and at its end; the number of a line and of an instant; how much is hidden; the
# caption, and the name of a glyph in the legend.
NAME_LABEL = dict(dy=4, text_anchor="end", fill=INK)
NAME_AGAIN = dict(dy=-5, text_anchor="middle", font_size=10, fill=PALE)
ROLE = dict(dx=9, dy=4, font_size=10, fill=BLUE)
LINE_NUMBER = dict(text_anchor="middle", font_size=9, fill=PALE)
UPRIGHT_LINE_NUMBER = dict(dy=3, font_size=9, fill=PALE)
INSTANT_NUMBER = dict(dy=14, text_anchor="middle", fill=BLUE)
HIDDEN_NUMBER = dict(fill=GREY)
CAPTION = dict(x=10, y=15, font_size=14, font_weight="bold", fill=INK)
KEY = dict(dx=16, dy=4, fill=INK)

# The group of a message that is sent again.
FAINT = dict(opacity=0.4)

# What the caption says of a verdict, after its word and f.
CAPTIONS = {
    "accept": "no delivery has an orphan",
    "exceeded": "the shaded processes are down",
    "orphan": "process {orphan} depends on the delivery of line {line}",
}

# The head. The tip of an arrow is (16 - 10) * 8 / 10 before the end of its line, at the rim of a delivery's glyph.
HEAD = (
    "<svg xmlns='http://www.w3.org/2000/svg' version='1.1' role='img' width='{width}' height='{height}' viewBox='0 0 {width} {height}' "
    "font-family='sans-serif' font-size='12'>\n"
    "<title>Space-time diagram of a recorded run</title>\n"
    "<desc>{processes} processes; {shown} of {entries} entries, from line {line} of the trace's text on.</desc>\n"
    "<defs><marker id='arrowhead' viewBox='0 0 10 10' refX='16' refY='5' markerWidth='8' markerHeight='8' markerUnits='userSpaceOnUse' "
    f"orient='auto'><path d='M0 0L10 5L0 10z' fill='{GREY}'/></marker></defs>\n"
    "<rect width='100%' height='100%' fill='white'/>\n"
)
END = "</svg>\n"


# ---- elements


def attributes_text(attributes):
    return "".join(f" {name.replace('_', '-')}='{value}'" for name, value in attributes.items())


def line(d, style):
    return f"<path{attributes_text(dict(d=d, fill='none', **style))}/>\n"


def glyph(x, y, name):
    return f"<path{attributes_text(dict(transform=f'translate({x},{y})', **GLYPHS[name]))}/>\n"


def label(words, style, **place):
    return f"<text{attributes_text({**place, **style})}>{words}</text>\n"


def group(title, *elements, **attributes):
    return f"<g{attributes_text(attributes)}><title>{title}</title>\n{''.join(elements)}</g>\n"


# ---- words


def listed(dets):
    """What is said of a list: its first eight determinants, and how many more there are."""
    if not dets:
        return ", and logs nothing"
    more = len(dets) - NAMED
    return ", and logs" + "".join(f" [{','.join(map(str, det))}]" for det in dets[:NAMED]) + (f" and {more} more" if more > 0 else "")


def words_of(entries, word, fields):
    """What an entry is called."""
    match word, fields:
        case "send", (p, q, ssn):
            return f"process {p} sends message {ssn} to process {q}"
        case "deliver", (p, k, _, dets):
            source, _, ssn = entries[k][1]
            return f"process {p} delivers message {ssn} of process {source}{listed(dets)}"
        case "stable", ((source, ssn, dest, rsn),):
            return f"delivery {rsn} of process {dest}, of message {ssn} of process {source}, is in stable storage"
        case "crash", (p,):
            return f"process {p} crashes"
        case "restart", (p, dets):
            return f"process {p} restarts{listed(dets)}"
        case "forget", (p, dets):
            return f"process {p} forgets {len(dets)} determinants"


# ---- what is shown


class Verdict(typing.NamedTuple):
    """A verdict, read from its line. `crash` is the crash set, or those that are down."""

    word: str
    f: int
    instant: int | None
    crash: frozenset
    delivery: int | None
    orphan: int | None


def verdict_of(answer):
    word, *fields = answer.split()
    said = dict(field.split("=") for field in fields)
    crash = said.get("crash") or said.get("down") or "-"
    instant, delivery, orphan = (int(said[name]) if name in said else None for name in ("instant", "delivery", "orphan"))
    return Verdict(word, int(said["f"]), instant, frozenset(int(p) for p in crash.split(",") if p != "-"), delivery, orphan)


def process_of(word, fields):
    """The process in whose row an entry is: of a determinant that becomes stable, its receiver."""
    return fields[0][2] if word == "stable" else fields[0]


def ranges_of(entries, instant, first, around):
    """The positions of the shown ones of this number of entries, as one range or two: around a line that is asked for; without a breach,
    from the beginning. Else they end with the last entry that may be shown after the instant, or as many entries earlier as it takes to
    show the chain's first, but not before the instant; if that does not show it, there are two ranges."""
    if around is not None:
        begin = max(0, min(around - BEFORE_LINE, entries - MOST))
        return [range(begin, min(entries, begin + MOST))]
    if instant is None:
        return [range(min(entries, MOST))]
    latest = min(entries, instant + AFTER)
    for end in range(latest, instant - 1, -1):
        begin = max(0, end - MOST)
        if first is None or begin <= first:
            return [range(begin, min(entries, begin + MOST))]
    begin = max(0, first - BEFORE_CHAIN)
    return [range(begin, begin + EARLY), range(latest - (MOST - EARLY), latest)]


def faint_of(entries):
    """The positions of the sends of a message that was sent before, and of the deliveries of these sends."""
    sent, again = set(), set()
    for k, (word, fields) in enumerate(entries):
        if word == "send":
            if (fields[0], fields[2]) in sent:
                again.add(k)
            sent.add((fields[0], fields[2]))
        elif word == "deliver" and fields[1] in again:
            again.add(k)
    return again


def lives_of(entries, n):
    """Of each process from which entry to which it is up: from before all, or a restart, to a crash, or after all."""
    lives = [[(-1, len(entries))] for _ in range(n)]
    for k, (word, fields) in enumerate(entries):
        if word == "crash":
            lives[fields[0]][-1] = lives[fields[0]][-1][0], k
        elif word == "restart":
            lives[fields[0]].append((k, len(entries)))
    return lives


def spans_of(entries, n, det):
    """Of each process whose log has the determinant after these entries, and then of each whose log had it, by which entry it came to have
    it last, and by which it lost it; None if it did not."""
    over, holds, lost = reasons.logs_over(entries, n), [], []
    for p in sorted({fields[0] for word, fields in entries if word in ("deliver", "restart") and list(det) in fields[-1]}):
        has = [det in logs[p] for logs in over]
        changes = [k for k, (before, after) in enumerate(itertools.pairwise(has)) if before != after]
        if has[-1]:
            holds.append((p, changes[-1], None))
        else:
            lost.append((p, *changes[-2:]))
    return holds + lost


# ---- the picture


class Picture:
    """A picture of a trace with its verdict, and with this chain, if there is an orphan."""

    def __init__(self, trace, verdict, chain, around, is_part):
        self.verdict, self.chain, self.entries, self.n = verdict, chain, trace.entries, trace.n
        self.spans = [] if verdict.orphan is None else spans_of(self.entries[: verdict.instant], self.n, trace.dets[verdict.delivery])
        self.processes = self.of_breach() if is_part and verdict.word != "accept" else list(range(self.n))
        self.ranges = ranges_of(len(self.entries), verdict.instant, min(chain, default=None), around)
        self.shown = [k for part in self.ranges for k in part]
        self.faint, self.lives = faint_of(self.entries), lives_of(self.entries, self.n)
        self.place()

    def of_breach(self):
        """The processes of the crash set, the orphan, those that hold or lost the determinant, and those of the chain."""
        of_chain = {process_of(*self.entries[k]) for k in self.chain}
        orphans = {self.verdict.orphan} - {None}
        return sorted(self.verdict.crash | orphans | {p for p, _, _ in self.spans} | of_chain)

    def place(self):
        rows, columns = len(self.processes), len(self.shown)
        self.column = min(COLUMN, COLUMNS // (columns + 1))
        self.row = max(LOWEST_ROW, min(ROW, ROWS // (rows + 1)))
        self.y = {p: TOP + self.row * i for i, p in enumerate(self.processes)}
        self.right, self.bottom = LEFT + self.column * (columns + 1), TOP + self.row * rows
        self.width, self.height = max(WIDEST_LEGEND, self.right + RIGHT), self.bottom + BELOW

    def between(self, instant):
        """The x of an instant."""
        return LEFT + self.column // 2 + self.column * bisect.bisect_left(self.shown, instant)

    def x(self, k):
        """The x of an entry."""
        before = bisect.bisect_left(self.shown, k)
        is_shown = self.shown[before : before + 1] == [k]
        return LEFT + self.column * (before + 1) if is_shown else self.between(k)

    def point(self, k):
        return self.x(k), self.y[process_of(*self.entries[k])]

    def text(self):
        parts = [self.head(), *map(self.process, self.processes), *self.run(), *self.breach(), *self.hidden(), self.caption(), *self.legend()]
        return "".join(parts) + END

    def head(self):
        count = f"All {self.n}" if len(self.processes) == self.n else f"{len(self.processes)} of {self.n}"
        shown, entries, begin = len(self.shown), len(self.entries), self.ranges[0].start + 2
        return HEAD.format(width=self.width, height=self.height, processes=count, shown=shown, entries=entries, line=begin)

    def process(self, p):
        name, y = f"process {p}", self.y[p]
        shades = [line(f"M0 {y}H{self.width}", {**SHADE, "stroke_width": self.row - GAP})] if p in self.verdict.crash else []
        again = [label(name, NAME_AGAIN, x=x, y=y) for x in NAMES_AGAIN if x + HALF_NAME < self.right]
        return group(name, *shades, line(f"M{LEFT} {y}H{self.right}", ROW_LINE), label(name, NAME_LABEL, x=NAME, y=y), *again)

    def run(self):
        """What is in the ranges: a range ends where the next one begins."""
        ends = [LEFT, *(self.between(part.start) for part in self.ranges[1:]), self.right]
        for part, (left, right) in zip(self.ranges, itertools.pairwise(ends)):
            for p in self.processes:
                yield from (group(f"process {p}", self.up(p, left, end, part, right)) for begin, end in self.lives[p] if begin < part.start <= end)
            yield from (self.entry(k, part, right) for k in part if process_of(*self.entries[k]) in self.y)

    def up(self, p, x, end, part, right):
        """The line of a process that is up from an x to its crash, in a range that ends at the given x."""
        return line(f"M{x} {self.y[p]}H{self.x(end) if end in part else right}", UP_LINE)

    def entry(self, k, part, right):
        (word, fields), (x, y), links = self.entries[k], self.point(k), []
        if word == "deliver" and self.entries[fields[1]][1][0] in self.y:
            links = [self.arrow(fields[1], k)]
        elif word == "restart":
            links = [self.up(fields[0], x, dict(self.lives[fields[0]])[k], part, right)]
        title = f"line {k + 2}: {words_of(self.entries, word, fields)}"
        return group(title, self.number(k), *links, glyph(x, y, GLYPH_OF[word]), **(FAINT if k in self.faint else {}))

    def number(self, k):
        if self.column < UPRIGHT:
            return label(k + 2, UPRIGHT_LINE_NUMBER, transform=f"translate({self.x(k)},{UPRIGHT_NUMBER})rotate(-90)")
        return label(k + 2, LINE_NUMBER, x=self.x(k), y=NUMBER)

    def arrow(self, sent, delivered):
        (from_x, from_y), (to_x, to_y) = self.point(sent), self.point(delivered)
        way = f"L{to_x} {to_y}" if from_y != to_y else f"Q{(from_x + to_x) // 2} {to_y - BEND} {to_x} {to_y}"
        return line(f"M{from_x} {from_y}{way}", ARROW)

    def breach(self):
        if self.verdict.instant is None:
            return
        at = self.between(self.verdict.instant)
        for p, since, lost in self.spans:
            yield line(f"M{self.x(since)} {self.y[p]}H{at if lost is None else self.x(lost)}", BAND)
        points = [self.point(k) for k in self.chain if k in self.shown]
        if points:  # each is followed by a blank
            corners = "".join(f"{x},{y} " for x, y in points)
            through = f"<polyline{attributes_text(dict(points=corners, fill='none', **CHAIN_LINE))}/>\n"
            yield group("chain", through, *(glyph(x, y, "chain") for x, y in points), **THROUGH)
        name = f"instant {self.verdict.instant}"
        number = label(name, INSTANT_NUMBER, x=at, y=self.bottom)
        yield group(name, self.upright(at, INSTANT_LINE), number, *(part for p in self.processes for part in self.roles(p, at)))

    def upright(self, x, style):
        return line(f"M{x} {LINES_TOP}V{self.bottom}", style)

    def roles(self, p, at):
        """The glyph of a process at the instant, and its name and role."""
        holders = {q for q, _, lost in self.spans if lost is None}
        role = "orphan" if p == self.verdict.orphan else "holder" if p in holders else None
        if role:
            yield glyph(at, self.y[p], role)
        yield label(f"process {p}: {role}" if role else f"process {p}", ROLE, x=self.right, y=self.y[p])

    def hidden(self):
        first, last = self.ranges[0], self.ranges[-1]
        counts = [("before", "start", first.start, first.start), ("between", "middle", last.start, last.start - first.stop)]
        counts.append(("after", "end", last.stop, len(self.entries) - last.stop))
        y = self.bottom + HIDDEN
        for where, anchor, instant, count in counts:
            if count > 0:
                x = self.between(instant)
                number = label(f"{count} entries {where}", dict(text_anchor=anchor, **HIDDEN_NUMBER), x=x, y=y)
                yield group(f"{count} entries {where} are not shown", self.upright(x, CUT_LINE), number)
        count = self.n - len(self.processes)
        if count > 0:
            number = label(f"{count} hidden", dict(text_anchor="end", **HIDDEN_NUMBER), x=NAME, y=y)
            yield group(f"{count} processes are not shown", number)

    def caption(self):
        word, f, _, _, delivery, orphan = self.verdict
        words = CAPTIONS[word].format(orphan=orphan, line=None if delivery is None else delivery + 2)
        return label(f"{word} f={f}: {words}", CAPTION)

    def legend(self):
        for i, name in enumerate(GLYPHS):
            x, y = KEY_LEFT + KEY_COLUMN * (i % KEY_COLUMNS), self.bottom + KEYS + KEY_ROW * (i // KEY_COLUMNS)
            yield glyph(x, y, name) + label(name, KEY, x=x, y=y)


def pictures_of(text, answer, around=None, is_part=False):
    """The pictures that may be printed of a trace with this verdict's line: an orphan has one for each shortest chain to it."""
    trace, verdict = traces.read(text), verdict_of(answer)
    chains = [[]]
    if verdict.orphan is not None:
        chains = reasons.shortest_chains(trace.entries[: verdict.instant], verdict.delivery, verdict.orphan)
    for chain in chains:
        yield Picture(trace, verdict, chain, around, is_part).text()


def picture_of(words, text, answer, said=None):
    """What `draw` with these words prints of a trace with this verdict's line: what it said, if that is one of the pictures of it, else the
    first of them."""
    around = int(words[words.index("--around") + 1]) - 2 if "--around" in words else None
    pictures = list(pictures_of(text, answer, around, "--only" in words))
    return said if said in pictures else pictures[0]
