#!/usr/bin/env python3
"""Draws what a run printed as a picture in SVG: who was open when, who was refused because of whom, what stands where.

usage: timeline.py [FROM TO]

Standard input is what `ltx_run run` printed, standard output the picture, 1,200 pixels wide; the lines FROM to TO alone
where they are given. At most 400 lines are drawn, 80 beside each other. Each entry is one step to the right in the lane
of its session; each mark has its line as a hover title. Under the lanes stand the commits in time and in serial order,
and under these an arrow from each forwarded batch to its target.
Status 1, with a sentence on standard error: the input is not what a run prints, or too long to be drawn.
"""
import html
import math
import re
import sys
from dataclasses import dataclass, field

MOST, ABREAST = 400, 80
WIDTH, LEFT, RIGHT = 1200, 104, 1184
WIDEST, ROOMY = 44, 28  # a step to the right at most, and one that has room for the number of each line
SIZE, LETTER, ROW = 11, 6.9, 14  # of a text: its height, the width of a letter in any usual font, and of a row of labels
UNDER = 24  # the space from a bar's middle to the next lane, where arrows run
UNDER_COMMITS = 3 * ROW  # from the row of commits to that of the order

NUMBER, EPOCH = "([1-9][0-9]{0,18})", "(0|[1-9][0-9]{0,9})"
TABLE, COUNT = "(?:[0-9]|[1-5][0-9]|6[0-3])", "(?:0|[1-9][0-9]*)"
WORD = "(?:%|(?:[!-$&-~]|%[0-9A-F]{2})+)"
SET = f"(?:[*-]|{TABLE}(?:,{TABLE})*)"
ARGUMENTS = {
    "epoch": "", "flush": "", "prune": "", "?": "", "short": "", "commit": "", "abort": "",
    "long": f" W={SET}(?: R={SET})?", "get": f" {TABLE} {WORD}", "del": f" {TABLE} {WORD}",
    "scan": f" {TABLE} {WORD} {WORD}", "put": f" {TABLE} {WORD} {WORD}",
}
# the last number of a reply that names another transaction is the one to which its arrow goes
REPLIES = {
    "begun": f"begun {NUMBER}", "declared": f"begun {NUMBER} at {EPOCH}", "found": f"found {WORD}", "none": "none",
    "rows": f"rows {COUNT}(?: {WORD} {WORD})*", "done": "done", "committed": f"committed {EPOCH}",
    "before": f"committed {EPOCH} before {NUMBER}", "aborted": "aborted", "preserved": f"preserved {TABLE} {NUMBER}",
    "changed": f"changed {COUNT} {TABLE} {WORD} (?:none|{NUMBER}) (?:none|{NUMBER})",
    "late": f"late {NUMBER} {COUNT} {TABLE} {WORD} {NUMBER}",
    "contradicts": f"contradicts {NUMBER} {COUNT} {TABLE} {WORD} {NUMBER}", "waiting": f"waiting {NUMBER}",
    "notyet": f"notyet {EPOCH}", "outside": f"outside {TABLE}", "notpreserved": f"notpreserved {TABLE}", "notx": "notx",
    "hastx": "hastx", "limit": "limit (?:epoch|ops|tx|log)", "epoch": f"epoch {EPOCH}", "durable": f"durable {EPOCH}",
    "pruned": "pruned", "bad": "bad (?:long|words|session|verb|table|key|value|sets)", "later": "later",
}
OPERATION = "preserved notx notyet limit later"
ANSWERS = {
    "epoch": "epoch limit later", "flush": "durable limit later", "prune": "pruned later", "?": "bad",
    "short": "begun hastx limit later", "long": "declared hastx limit later", "abort": "aborted notx later",
    "get": f"found none outside {OPERATION}", "scan": f"rows outside {OPERATION}",
    "put": f"done notpreserved {OPERATION}", "del": f"done notpreserved {OPERATION}",
    "commit": "committed before preserved changed late contradicts waiting notyet notx later",
}
COMMITS = ("committed", "before")
REFUSALS = ("preserved", "changed", "late", "contradicts")
ENDS = (*COMMITS, *REFUSALS, "aborted")
ANSWERED = ("found", "none", "rows", "done")
ARROWS = {**dict.fromkeys(REFUSALS, "refused"), "before": "forwarded", "waiting": "waits"}

CIRCLE = "M-{0} 0a{0} {0} 0 1 0 {1} 0a{0} {0} 0 1 0-{1} 0z"
SHAPES = {
    "get": ("read", CIRCLE.format(3.5, 7)),
    "scan": ("read", "M-2.5-3h5a3 3 0 0 1 0 6h-5a3 3 0 0 1 0-6z"),
    "put": ("write", "M-3.5-3.5h7v7h-7z"),
    "del": ("write", "M-4.5-4h9l-4.5 8z"),
    "committed": ("committed", CIRCLE.format(6, 12) + "M-3 0l2 2.5l4-5"),
    "refused": ("refused", "M-5-5L5 5M-5 5L5-5"),
    "aborted": ("read", "M0-6L6 0L0 6L-6 0z"),
    "waiting": ("waits", "M-2.5-5v10M2.5-5v10"),
    "other": ("read", "M0-5L5 4H-5z"),
    "control": ("write", CIRCLE.format(2.5, 5)),
}
LEGEND = {
    "short": "short", "pending": "batch before its epoch", "live": "live batch", "get": "get", "scan": "scan", "put": "put",
    "del": "del", "committed": "committed", "forwarded": "forwarded, to its target", "refused": "refused, arrow to the witness",
    "waiting": "commit waits, arrow to whom", "aborted": "aborted", "other": "answered without effect",
}
BARS = ("short", "pending", "live")

COLOURS = {  # on a light ground, and on a dark one
    "paper": ("#ffffff", "#14171b"), "ink": ("#1b1f24", "#e8eaed"), "faint": ("#5b6470", "#a3acb8"),
    "band": ("#f2f4f7", "#1d2228"), "short": ("#c5d6f3", "#2c4a7a"), "live": ("#f3dba6", "#66501d"),
    "committed": ("#1a7f37", "#2f9e4f"), "refused": ("#b3001b", "#ff7382"), "forwarded": ("#6a1fb5", "#c9a0ff"),
    "waits": ("#855d00", "#e5b656"), "epoch": ("#0a6e5c", "#4fcfb5"),
}
LIGHT, DARK = 0, 1


class Fault(Exception):
    """The input is not what a run prints; the sentence says where."""


@dataclass
class Entry:
    place: int  # from 0
    session: int  # 0 where the line has none
    verb: str
    arguments: str
    kind: str  # of the reply
    numbers: list  # the reply's
    reply: str
    title: str

    @property
    def advances(self):
        return self.verb == self.kind == "epoch"


@dataclass
class Transaction:
    number: int
    session: int
    begin: int
    declared: str = ""  # a batch's sets
    epoch: int = 0  # in which a batch becomes live
    live: int | None = None
    end: int | None = None
    how: str = "still open"
    target: int | None = None  # of a forwarded batch

    @property
    def title(self):
        return f"{'batch' if self.declared else 'short'} {self.number} {self.declared} {self.how}".replace("  ", " ")

    def is_open_in(self, first, last):
        return self.begin <= last and (self.end is None or self.end >= first)


@dataclass
class Arrow:
    kind: str
    place: int
    session: int
    to: int


@dataclass
class Run:
    entries: list = field(default_factory=list)
    all: dict = field(default_factory=dict)  # transactions by number
    open: dict = field(default_factory=dict)  # the same by session
    arrows: list = field(default_factory=list)
    commits: list = field(default_factory=list)  # numbers, in time
    order: list = field(default_factory=list)
    durable: int = 0


def cut(text, most):
    return text if len(text) <= most else text[:most - 3] + "..."


# -- reading ---------------------------------------------------------------------------------------------------------


def read_lines(data):
    if not data:
        raise Fault("the input is empty")
    lines = data.split(b"\n")
    for number, line in enumerate(lines, 1):
        if re.search(rb"[^ -~]", line):
            raise Fault(f"line {number} has a byte that no run prints")
    if lines.pop():
        raise Fault(f"line {len(lines) + 1} is cut off: it has no line feed")
    return [line.decode("ascii") for line in lines]


def read_reply(verb, text):
    """The kind of the reply and its numbers, or None where the verb is not answered so."""
    for kind in ANSWERS[verb].split():
        found = re.fullmatch(REPLIES[kind], text)
        if found:
            return kind, [int(number) if number else None for number in found.groups()]
    return None


def read_entry(place, line):
    """A word may be `=>` itself, so the command is read to its last word before the reply is sought."""
    head = re.match(r"(epoch|flush|prune|\?)|([1-9][0-9]{0,3}) (short|long|get|scan|put|del|commit|abort)", line)
    verb = head and (head[1] or head[3])
    body = head and re.fullmatch(f"({ARGUMENTS[verb]}) => (.*)", line[head.end():])
    if not body or int(head[2] or 0) > 1024:
        raise Fault(f"line {place + 1} is no entry of a run: {cut(line, 60)}")
    answer = read_reply(verb, body[2])
    if answer is None:
        raise Fault(f"line {place + 1}: `{verb}` is never answered so: {cut(body[2], 60)}")
    return Entry(place, int(head[2] or 0), verb, body[1].strip(), *answer, body[2], f"line {place + 1}: {cut(line, 600)}")


def begin(run, entry):
    number = entry.numbers[0]
    if entry.session in run.open:
        raise Fault(f"line {entry.place + 1}: session {entry.session} has an open transaction already")
    if number in run.all:
        raise Fault(f"line {entry.place + 1}: {number} began before")
    transaction = Transaction(number, entry.session, entry.place)
    if entry.kind == "declared":
        transaction.declared = entry.arguments
        transaction.epoch = entry.numbers[1]
    run.all[number] = run.open[entry.session] = transaction


def opened(run, entry):
    if entry.session not in run.open:
        raise Fault(f"line {entry.place + 1}: session {entry.session} has no open transaction")
    return run.open[entry.session]


def end(run, entry):
    transaction = opened(run, entry)
    transaction.end, transaction.how = entry.place, cut(entry.reply, 200)
    if entry.kind in COMMITS:
        run.commits.append(transaction.number)
    if entry.kind == "before":
        transaction.target = entry.numbers[-1]
    del run.open[entry.session]


def point(run, entry):
    """The arrow of a reply that names another transaction; a row that is gone names none."""
    to = entry.numbers[-1]
    if to is None:
        return
    if to not in run.all:
        raise Fault(f"line {entry.place + 1} names {to}, which never began")
    run.arrows.append(Arrow(ARROWS[entry.kind], entry.place, entry.session, to))


def advance(run, entry):
    for transaction in run.open.values():
        if transaction.declared and transaction.live is None and transaction.epoch <= entry.numbers[0]:
            transaction.live = entry.place


def play(run, entry):
    run.entries.append(entry)
    if entry.kind in ARROWS:
        point(run, entry)
    if entry.kind in ("begun", "declared"):
        begin(run, entry)
    elif entry.kind in ENDS:
        end(run, entry)
    elif entry.kind in ANSWERED or entry.kind == "waiting":
        opened(run, entry)
    elif entry.advances:
        advance(run, entry)


def read_order(run, text, line):
    run.order = [int(number) for number in text.split()[1:]]
    wrong = set(run.order) ^ set(run.commits)
    if wrong:
        raise Fault(f"line {line}: {min(wrong)} is not both committed and in the order")
    if len(run.order) != len(run.commits):
        raise Fault(f"line {line}: the order has a number twice")


def read_run(data):
    lines = read_lines(data)
    if len(lines) < 2 or not re.fullmatch(f"order(?: {NUMBER})*", lines[-2]) or not re.fullmatch(f"durable {EPOCH}", lines[-1]):
        raise Fault("the last two lines are not the order and the durable epoch")
    run = Run(durable=int(lines[-1].split()[1]))
    for place, line in enumerate(lines[:-2]):
        play(run, read_entry(place, line))
    read_order(run, lines[-2], len(lines) - 1)
    return run


# -- layout ----------------------------------------------------------------------------------------------------------


@dataclass
class Label:
    x: float
    text: str
    kind: str = "number"
    title: str = ""
    row: int = 0

    def __post_init__(self):
        self.x = max(LEFT, min(self.x, RIGHT - width(self.text)))

    def meets(self, columns):
        return any(self.x - 2 < x < self.x + width(self.text) + 2 for x in columns)


@dataclass
class Stave:
    """Up to 80 entries beside each other, with the lanes of those that are in them."""
    first: int
    last: int
    step: float
    top: float = 0
    bottom: float = 0
    open: list = field(default_factory=list)  # who was open in it
    arrows: list = field(default_factory=list)  # of its entries
    lanes: dict = field(default_factory=dict)  # the height of a session's bars
    labels: dict = field(default_factory=dict)  # a session's

    def x(self, place):
        return LEFT + (place - self.first + 0.5) * self.step


def width(text):
    return len(text) * LETTER


def stack(labels):
    """Gives each label the lowest row in which it meets no other; the number of rows."""
    ends = []
    for label in sorted(labels, key=lambda label: label.x):
        free = [row for row, end in enumerate(ends) if end <= label.x]
        label.row = free[0] if free else len(ends)
        ends[label.row:label.row + 1] = [label.x + width(label.text) + LETTER]
    return len(ends)


def label_of(entry, x, columns):
    """What is written over a mark, where it says more than its shape; at the right, unless arrows run there alone."""
    if entry.session == 0:
        return Label(x - 4, entry.reply, "epoch" if entry.kind == "epoch" else "number", entry.title)
    if entry.kind not in ARROWS:
        return None
    named = entry.numbers[-1]
    text = f"{entry.kind} {'none' if named is None else named}"
    right, left = (Label(start, text, ARROWS[entry.kind], entry.title) for start in (x + 5, x - 5 - width(text)))
    return left if right.meets(columns) and not left.meets(columns) else right


def columns_over(run, stave, session):
    """Where arrows of the stave's entries run through the labels of a session."""
    columns = []
    for arrow in stave.arrows:
        other = run.all[arrow.to]
        leaves = other.end is not None and other.end < stave.first
        ends = (0 if leaves else other.session, arrow.session)
        if min(ends) < session <= max(ends):
            columns.append(stave.x(arrow.place))
    return columns


def labels_of(run, stave, session):
    labels, columns = [], columns_over(run, stave, session)
    for transaction in stave.open:
        if transaction.session == session:
            text = cut(f"{transaction.number} {transaction.declared}".strip(), 40)
            x = stave.x(transaction.begin) - 4 if transaction.begin >= stave.first else LEFT
            labels.append(Label(x, text, "number", transaction.title))
    for entry in run.entries[stave.first:stave.last + 1]:
        if entry.session == session:
            labels.append(label_of(entry, stave.x(entry.place), columns))
    return [label for label in labels if label]


def sessions_of(run, stave, extra):
    entries = {entry.session for entry in run.entries[stave.first:stave.last + 1]}
    return sorted(entries | {transaction.session for transaction in stave.open} | extra)


def lay_stave(run, stave, extra):
    stave.open = [transaction for transaction in run.all.values() if transaction.is_open_in(stave.first, stave.last)]
    stave.arrows = [arrow for arrow in run.arrows if stave.first <= arrow.place <= stave.last]
    y = stave.top + 2 * ROW
    for session in sessions_of(run, stave, extra):
        stave.labels[session] = labels_of(run, stave, session)
        y += ROW * stack(stave.labels[session]) + 12
        stave.lanes[session] = y
        y += UNDER
    stave.bottom = y


def ended_before(run, first, last):
    """The sessions of those who ended before the first entry, and to whom an arrow of these entries goes."""
    named = [run.all[arrow.to] for arrow in run.arrows if first <= arrow.place <= last]
    return {one.session for one in named if one.end is not None and one.end < first}


def lay(run, first, last, top):
    """The staves of the entries from the first to the last."""
    staves, count = [], last - first + 1
    abreast = math.ceil(count / max(1, math.ceil(count / ABREAST)))
    for start in range(first, last + 1, abreast or 1):
        stave = Stave(start, min(start + abreast - 1, last), min(WIDEST, (RIGHT - LEFT) / abreast), top)
        lay_stave(run, stave, ended_before(run, first, last) if start == first else set())
        staves.append(stave)
        top = stave.bottom + ROW
    return staves


# -- drawing ---------------------------------------------------------------------------------------------------------


def tag(name, inner="", title="", **attributes):
    words = "".join(f' {key.rstrip("_").replace("_", "-")}="{spelled(value)}"' for key, value in attributes.items())
    inner = (f"<title>{html.escape(title)}</title>" if title else "") + inner
    return f"<{name}{words}>{inner}</{name}>" if inner else f"<{name}{words}/>"


def spelled(value):
    return f"{value:.1f}".removesuffix(".0") if isinstance(value, float) else html.escape(str(value))


def write(x, y, text, kind="", title="", anchor="start"):
    return tag("text", html.escape(text), title, x=x, y=y, class_=kind or "plain", text_anchor=anchor)


def mark(shape, x, y, title=""):
    kind, path = SHAPES[shape]
    return tag("path", title=title, class_=f"mark {kind}", d=path, transform=f"translate({spelled(x)} {spelled(y)})")


def bar(kind, start, stop, y, title=""):
    height = 8 if kind == "short" else 16
    return tag("rect", title=title, class_=f"bar {kind}", x=start, y=y - height / 2, width=max(stop - start, 2), height=height)


def draw_bars(transaction, stave):
    """A short's bar, or a batch's before and after its slot, as far as they lie in the stave."""
    y, spans = stave.lanes[transaction.session], []
    end = stave.last + 1 if transaction.end is None else transaction.end
    if not transaction.declared:
        spans.append(("short", transaction.begin, end))
    else:
        slot = end if transaction.live is None else transaction.live
        spans.append(("pending", transaction.begin, slot))
        spans.append(("live", slot, end))
    for kind, start, stop in spans:
        left = stave.x(start) if start >= stave.first else LEFT
        right = stave.x(stop) if stop <= stave.last else stave.x(stave.last) + stave.step / 2
        if start < stop and start <= stave.last and stop >= stave.first:
            yield bar(kind, left, right, y, transaction.title)


def shape_of(entry):
    if entry.kind in REFUSALS:
        return "refused"
    if entry.kind in COMMITS:
        return "committed"
    if entry.kind in ANSWERED:
        return entry.verb
    if entry.kind in ("aborted", "waiting"):
        return entry.kind
    return "control" if entry.kind in ("durable", "pruned") else "other"


def is_marked(entry):
    return not (entry.kind in ("begun", "declared") or entry.advances)


def draw_entry(entry, stave):
    return mark(shape_of(entry), stave.x(entry.place), stave.lanes[entry.session], entry.title)


def draw_epochs(entries, stave):
    """Lines from the labels that name them to the last lane."""
    rows = {label.title: label.row for label in stave.labels.get(0, [])}
    for entry in entries:
        if entry.advances:
            x, top = stave.x(entry.place), stave.lanes[0] - 10 - ROW * rows[entry.title]
            yield tag("line", title=entry.title, class_="epoch", x1=x, x2=x, y1=top, y2=stave.bottom)


def draw_bands(stave):
    """What tells a lane from the next."""
    top = stave.top + 2 * ROW - 6
    for index, y in enumerate(stave.lanes.values()):
        if index % 2 == 0:
            yield tag("rect", class_="band", x=0, y=top, width=WIDTH, height=y + UNDER - top)
        top = y + UNDER


def draw_names(stave):
    """The sessions at the left, and the numbers of lines over the lanes."""
    for session, y in stave.lanes.items():
        yield write(LEFT - 12, y + 4, f"session {session}" if session else "control", anchor="end")
    yield write(LEFT - 12, stave.top + ROW, "line", "faint", anchor="end")
    for place in range(stave.first, stave.last + 1):
        if stave.step >= ROOMY or place == stave.first or (place % 5 == 4 and place > stave.first + 2):
            yield write(stave.x(place), stave.top + ROW, str(place + 1), "faint", anchor="middle")


def draw_labels(stave):
    for session, labels in stave.labels.items():
        for label in labels:
            yield write(label.x, stave.lanes[session] - 12 - ROW * label.row, label.text, label.kind, label.title)


def draw_stave(run, stave):
    entries = run.entries[stave.first:stave.last + 1]
    bars = [part for transaction in stave.open for part in draw_bars(transaction, stave)]
    marks = [draw_entry(entry, stave) for entry in entries if is_marked(entry)]
    return [*draw_bands(stave), *draw_epochs(entries, stave), *bars, *marks]


def stave_of(staves, place):
    return next(stave for stave in staves if place <= stave.last)


def draw_arrow(run, arrow, staves):
    """From the entry to the other transaction: to its bar where it was open then, else under the bars to its end."""
    here, other = stave_of(staves, arrow.place), run.all[arrow.to]
    x, y = here.x(arrow.place), here.lanes[arrow.session]
    if other.end is None or other.end >= arrow.place:
        path = straight(x, y, here.lanes[other.session])
    else:
        path = around(x, y, here, staves, other)
    title = run.entries[arrow.place].title
    return tag("path", title=title, class_=f"arrow {arrow.kind}", d=path, marker_end=f"url(#{arrow.kind})")


def straight(x, y, to_y):
    side = math.copysign(9, to_y - y)
    return f"M{spelled(x)} {spelled(y + side)}V{spelled(to_y - side)}"


def around(x, y, here, staves, other):
    """Where no mark is: in the entry's own column, between two columns of other staves, and in the space under a bar."""
    there, drawn = stave_of(staves, other.end), other.end >= staves[0].first
    to_x, to_y = there.x(other.end) if drawn else LEFT - 10, there.lanes[other.session]
    level = to_y + 16 + 3 * (other.number % 3)
    aside = f"V{here.top - 2}H{spelled(x + here.step / 2)}" if here is not there else ""
    rise = f"V{to_y + 7}" if drawn else ""
    return f"M{spelled(x)} {y - 9 if level < y else y + 7}{aside}V{level}H{spelled(to_x)}{rise}"


def moved(run):
    """The members that stand before one that committed earlier."""
    times = {number: time for time, number in enumerate(run.commits)}
    found, least = set(), len(times)
    for number in reversed(run.order):
        if times[number] > least:
            found.add(number)
        least = min(least, times[number])
    return found


def draw_link(start, stop, cell, ahead):
    """From a commit to its member of the order; to another row of them over the commits and between two columns."""
    (x, y), (to_x, to_y) = start, stop
    if to_y == y + UNDER_COMMITS:
        path = f"M{spelled(x)} {y + 6}L{spelled(to_x)} {to_y - 13}"
    else:
        path = f"M{spelled(x)} {y - 11}V{y - 19}H{spelled(to_x + cell / 2)}V{to_y + 12}H{spelled(to_x)}V{to_y + 6}"
    return tag("path", class_="arrow forwarded", d=path, marker_end="url(#forwarded)") if ahead else tag("path", class_="link", d=path)


def draw_member(run, number, spot, ahead):
    x, y = spot
    wide = width(str(number)) + 8
    box = tag("rect", class_="box", x=x - wide / 2, y=y - 12, width=wide, height=17) if ahead else ""
    return box + write(x, y, str(number), "number", run.all[number].title, anchor="middle")


def draw_forwarded(run, under):
    """Under the order, an arrow to each target from the batches that were put before it, where they stand in one row."""
    spans = {}
    for number, (x, y) in under.items():
        target = run.all[number].target
        if target in under and under[target][1] == y:
            spans.setdefault(target, []).append(x)
    levels = {}
    for target in sorted(spans, key=lambda target: under[target][0] - min(spans[target])):
        (to_x, y), start = under[target], min(spans[target])
        within = [levels[other] for other in levels if under[other][1] == y and start < under[other][0] <= to_x]
        levels[target] = max(within, default=-1) + 1
        level = y + 11 + 4 * (levels[target] % 3)
        stems = "".join(f"M{spelled(x)} {y + 7}V{level}" for x in spans[target])
        path = f"{stems}M{spelled(start)} {level}H{spelled(to_x - 3)}V{y + 6}"
        yield tag("path", class_="arrow forwarded", d=path, marker_end="url(#forwarded)")


def words_on_order(shown, boxed, forwarded):
    words = "The commits in time, and in serial order" if shown else "No commits"
    words += "; boxed: it stands before one that committed earlier" if boxed else ""
    return words + ("; arrow under it: forwarded, to its target" if forwarded else "")


def draw_order(run, first, last, top):
    """The commits of these entries in time, and under them in serial order, each joined with itself; the parts and the height."""
    shown = [number for number in run.commits if first <= run.all[number].end <= last]
    within, ahead = set(shown), moved(run)
    order = [number for number in run.order if number in within]
    widest = max([width(str(number)) for number in shown], default=1)
    cell = max(widest + 16, min(widest + 30, (RIGHT - LEFT) / max(1, len(shown))))
    beside = int((RIGHT - LEFT) / cell + 0.01)
    spots = [(LEFT + (index % beside + 0.5) * cell, top + 3 * ROW + index // beside * 2 * UNDER_COMMITS) for index in range(len(shown))]
    under = {number: (x, y + UNDER_COMMITS) for number, (x, y) in zip(order, spots)}
    links, texts = [], []
    for number, spot in zip(shown, spots):
        if number in ahead or spot[1] + UNDER_COMMITS == under[number][1]:
            links.append(draw_link(spot, under[number], cell, number in ahead))
        texts.append(write(*spot, str(number), "number", run.all[number].title, anchor="middle"))
        texts.append(draw_member(run, number, under[number], number in ahead))
    for y in sorted({y for _, y in spots}):
        texts += [write(LEFT - 12, y, "commits", anchor="end"), write(LEFT - 12, y + UNDER_COMMITS, "order", anchor="end")]
    forwarded = list(draw_forwarded(run, under))
    words = words_on_order(shown, within & ahead, forwarded)
    return [*links, *forwarded, write(LEFT, top + ROW, words, "faint"), *texts], max([y for _, y in spots], default=top) + 5 * ROW


def sample(kind, x, y):
    if kind in BARS:
        return bar(kind, x, x + 26, y)
    if kind == "forwarded":
        return tag("path", class_="arrow forwarded", d=f"M{spelled(x)} {y}h26", marker_end="url(#forwarded)")
    return mark(kind, x + 6, y)


def kinds_of(run, first, last):
    """What of the legend is drawn."""
    found = {shape_of(entry) for entry in run.entries[first:last + 1] if is_marked(entry)}
    for transaction in run.all.values():
        if transaction.is_open_in(first, last):
            found.update(("pending", "live") if transaction.declared else ("short",))
        if transaction.target and first <= transaction.end <= last:
            found.add("forwarded")
    return found


def draw_legend(found, top):
    """Its parts, and the place of its last row."""
    parts, x, y = [], LEFT, top
    for kind, words in LEGEND.items():
        if kind not in found:
            continue
        aside = 34 if kind in BARS or kind == "forwarded" else 18
        if x + aside + width(words) > RIGHT:
            x, y = LEFT, y + 20
        parts += [sample(kind, x, y - 4), write(x + aside, y, words, "faint")]
        x += aside + width(words) + 14
    return parts, y


def rules(ground):
    of = {name: pair[ground] for name, pair in COLOURS.items()}
    lines = [
        f".paper, .pending, .box {{ fill: {of['paper']} }} .band {{ fill: {of['band']} }} .box {{ stroke: {of['forwarded']} }}",
        f"text {{ fill: {of['ink']}; stroke: {of['paper']} }} text.faint {{ fill: {of['faint']} }}",
        f".bar {{ stroke: {of['ink']} }} .short {{ fill: {of['short']} }} .live {{ fill: {of['live']} }}",
        f".mark.read {{ fill: {of['paper']}; stroke: {of['ink']} }} .mark.write {{ fill: {of['ink']}; stroke: {of['ink']} }}",
        f".mark.committed {{ fill: {of['committed']}; stroke: #ffffff }} .link {{ stroke: {of['faint']} }}",
    ]
    for kind in ("refused", "forwarded", "waits", "epoch"):
        lines.append(f"text.{kind}, .head.{kind} {{ fill: {of[kind]} }} .mark.{kind}, .arrow.{kind}, line.{kind} {{ stroke: {of[kind]} }}")
    return "\n".join(lines)


SHAPE_RULES = f"""
text {{ font: {SIZE}px "DejaVu Sans Mono", Menlo, Consolas, monospace; paint-order: stroke; stroke-width: 3; stroke-linejoin: round }}
.number {{ font-weight: bold }} .bar {{ stroke-width: 1 }} .pending {{ stroke-dasharray: 4 3 }}
.mark {{ stroke-width: 1.5 }} .mark.refused, .mark.waits {{ stroke-width: 3; fill: none }}
line.epoch {{ stroke-width: 1.5; stroke-dasharray: 7 2 }} .link {{ stroke-width: 1 }}
.arrow {{ fill: none }} .arrow, .box {{ stroke-width: 1.5 }}
.arrow.refused {{ stroke-dasharray: 5 3 }} .arrow.waits {{ stroke-dasharray: 1.5 3 }}
"""


def style():
    return tag("style", f"{SHAPE_RULES}{rules(LIGHT)}\n@media (prefers-color-scheme: dark) {{\n{rules(DARK)}\n}}\n")


def heads():
    for kind in ("refused", "forwarded", "waits"):
        tip = tag("path", class_=f"head {kind}", d="M0 0L8 4L0 8z")
        yield tag("marker", tip, id=kind, markerWidth=8, markerHeight=8, refX=7, refY=4, orient="auto", markerUnits="userSpaceOnUse")


def draw(run, first, last):
    lines = f"lines {first + 1} to {last + 1} of {len(run.entries)}" if run.entries else "no lines"
    words = f"{lines}; {len(run.commits)} of {len(run.all)} transactions committed; durable through epoch {run.durable}"
    legend, top = draw_legend(kinds_of(run, first, last), 48)
    staves = lay(run, first, last, top + 24)
    arrows = [draw_arrow(run, arrow, staves) for arrow in run.arrows if first <= arrow.place <= last]
    order, height = draw_order(run, first, last, staves[-1].bottom + ROW if staves else top)
    parts = [
        tag("title", html.escape(f"A run: {words}")), style(), tag("defs", "".join(heads())),
        tag("rect", class_="paper", width=WIDTH, height=height), write(LEFT, 24, words, "number"), *legend,
        *(part for stave in staves for part in draw_stave(run, stave)), *arrows,
        *(part for stave in staves for part in (*draw_names(stave), *draw_labels(stave))), *order,
    ]
    shape = {"xmlns": "http://www.w3.org/2000/svg", "viewBox": f"0 0 {WIDTH} {spelled(height)}", "width": WIDTH, "height": height}
    return tag("svg", "\n" + "\n".join(part for part in parts if part) + "\n", **shape, role="img") + "\n"


def window(words, count):
    """The first and the last place to draw."""
    if not words:
        words = ["1", str(count)]
    elif len(words) != 2 or not all(re.fullmatch("[1-9][0-9]{0,9}", word) for word in words):
        raise Fault("usage: timeline.py [FROM TO], two numbers of lines")
    elif not int(words[0]) <= min(int(words[1]), count):
        raise Fault(f"there are no lines {words[0]} to {words[1]}: the run has {count} entries")
    first, last = int(words[0]) - 1, min(int(words[1]), count) - 1
    if last - first >= MOST:
        raise Fault(f"{last - first + 1} entries are too many for a picture: name at most {MOST} lines, as in `timeline.py 1 {MOST}`")
    return first, last


def main():
    try:
        with open(0, "rb", closefd=False) as source:
            run = read_run(source.read())
        picture = draw(run, *window(sys.argv[1:], len(run.entries)))
        with open(1, "w", encoding="ascii", closefd=False) as target:
            target.write(picture)
    except (Fault, OSError) as fault:
        print(f"timeline.py: {fault}", file=sys.stderr)
        return 1
    return 0


if __name__ == "__main__":
    sys.exit(main())
