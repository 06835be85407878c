"""The report as plain text."""
import textwrap

from reporting import words
from reporting.losses import Losses

WIDTH = 110
MOST_ITEMS, MOST_ROWS = 1000, 2000


def table(columns, rows):
    cells = [list(columns)] + [list(map(str, row)) for row in rows]
    widths = [max(len(row[i]) for row in cells) for i in range(len(columns))]
    numbers = [bool(rows) and all(isinstance(row[i], int) or row[i] == "–" for row in rows) for i in range(len(columns))]
    return "\n".join("  " + "  ".join(c.rjust(w) if n else c.ljust(w) for c, w, n in zip(row, widths, numbers)).rstrip() for row in cells)


def paragraph(text, first="", rest=""):
    return textwrap.fill(text, WIDTH, initial_indent=first, subsequent_indent=rest, break_long_words=False, break_on_hyphens=False)


def block(block):
    parts = [block.heading.upper() if block.loud else block.heading]
    if block.text:
        parts.append(paragraph(block.text))
    for i, item in enumerate(block.items[:MOST_ITEMS]):
        mark = f"{i + 1:>3}. " if block.name == "lost" else "  - "
        parts.append(paragraph(item.text, mark, " " * len(mark)))
    if len(block.items) > MOST_ITEMS:
        parts.append(f"  and {len(block.items) - MOST_ITEMS:,} more")
    return "\n".join(parts)


def lane_marks(story):
    """For each context a character for each record."""
    lanes = {lane: [" "] * len(story.records) for lane in sorted({(s.kind != "pdu", s.context) for s in story.spans})}
    begun_anew = {(s.kind, s.context, s.last) for s in story.spans if s.replaced}
    for span in story.spans:
        line = lanes[span.kind != "pdu", span.context]
        until = len(story.records) if span.fate == "unfinished" else span.last
        for i in range(span.first - 1, until):
            line[i] = "-"
        for record in span.records:
            line[record - 1] = "="
        line[span.first - 1] = "%" if (span.kind, span.context, span.first) in begun_anew else "["
        if span.fate == "delivered":
            line[span.last - 1] = "]" if span.last > span.first else line[span.first - 1] if line[span.first - 1] == "%" else "#"
        elif span.fate == "dropped" and not span.replaced:
            line[span.last - 1] = "x"
    return lanes


def picture(story):
    """A line for each context, a character for each record."""
    lanes = lane_marks(story)
    refused = ["!" if a.word == "refused" else " " for a in story.answers]
    parts = ["  [ first packet  = packet  - waits  ] delivered  # one packet, delivered  x given up  % given up and begun anew  ! refused"]
    for at in range(0, len(story.records), 100):
        parts.append(f"\n  records {at + 1} to {min(at + 100, len(story.records))}")
        for lane, line in lanes.items():
            name = f"{'message' if lane[0] else 'stream'} {lane[1]}"
            parts.append(f"  {name:<11}|{''.join(line[at:at + 100])}")
        parts.append(f"  {'refused':<11}|{''.join(refused[at:at + 100])}")
    return "\n".join(line.rstrip() for line in parts)


def report(story, name):
    losses = Losses(story)
    parts = [f"Report of {name}", "", words.ending(story), words.SETUP]
    for one in words.top(losses):
        parts += ["", block(one)]
    parts += ["", "Counts", "", table(("what", "how many"), words.counts(story))]
    if story.records:
        parts += ["", "The contexts over the log", "", picture(story)]
    absent = []
    for one in words.tables(story, losses):
        if not one.rows:
            absent.append(one.heading)
            continue
        parts += ["", one.heading, *([one.text] if one.text else []), "", table(one.columns, one.rows[:MOST_ROWS])]
        if len(one.rows) > MOST_ROWS:
            parts.append(f"  and {len(one.rows) - MOST_ROWS:,} more")
    if absent:
        parts += ["", f"None in this log: {', '.join(absent)}."]
    return "\n".join(parts)
