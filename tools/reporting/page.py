"""The report as one HTML page. It needs nothing else: no network, no scripts, no other files.

A long log has an overview, and one part of the picture at a time: the one that the address names (:target), else the first one with a loss.
On paper, the parts in which something was lost or refused.
"""
import html

from reporting import words
from reporting.losses import Losses
from reporting.picture import ACROSS, COLOURS, LEGEND, RULES, SIDE, STRIP, Picture, cross, tick, with_colours

PART = 5 * STRIP  # records in a part
MOST_ROWS, MOST_LINKS, LONG = 2000, 12, 25
BODY = ACROSS + 20


def colours(which):
    return " ".join(f"--{name}: {pair[which]};" for name, pair in COLOURS.items())


STYLE = f"""
:root {{ color-scheme: light dark; {colours(0)} }}
@media screen and (prefers-color-scheme: dark) {{ :root {{ {colours(1)} }} }}
""" + """
body { font: 16px/1.45 Helvetica, Arial, 'Liberation Sans', sans-serif; color: var(--ink); background: var(--paper); margin: 1.5em auto; max-width: 1100px; padding: 0 1em; overflow-wrap: break-word; }
h1 { font-size: 1.5em; } h2 { font-size: 1.2em; margin: 2em 0 0.4em; } h3 { font-size: 1em; margin: 1em 0 0.3em; }
a { color: var(--link); } .soft { color: var(--soft); } .bad { color: var(--loss); font-weight: bold; }
.block { border: 1px solid var(--edge); border-left: 5px solid var(--edge); border-radius: 4px; padding: 0.1em 1em 0.6em; margin: 1em 0; background: var(--panel); }
.block h2 { margin-top: 0.6em; } .block p { margin: 0.4em 0; } .loud { border-left-color: var(--loss); } .loud h2 { color: var(--loss); }
.block ol, .block ul { margin: 0.4em 0; padding-left: 1.8em; } .block li { margin: 0.4em 0; }
.nav a { margin-right: 0.8em; display: inline-block; padding: 0.15em 0; }
.wide { overflow-x: auto; } .long { max-height: 30em; overflow: auto; border: 1px solid var(--edge); } .long thead th { position: sticky; top: 0; }
table { border-collapse: collapse; } th, td { border: 1px solid var(--edge); padding: 0.25em 0.6em; text-align: left; vertical-align: top; }
th { background: var(--head); } td.n { text-align: right; font-variant-numeric: tabular-nums; } td.one { white-space: nowrap; } td.hot { color: var(--loss); font-weight: bold; }
.strip { display: flex; background: var(--panel); border: 1px solid var(--edge); border-radius: 6px; margin: 0.5em 0; padding: 4px 0; }
.strip svg { display: block; height: auto; } .names { flex: none; } .scroll { overflow-x: auto; } .scroll svg { width: 100%; }
.legend svg { width: 1.2em; height: 1.2em; vertical-align: -0.25em; margin-left: 0.6em; }
.part { display: none; } .default, .part:target { display: block; }
@media screen { .parts:has(.part:target) .default:not(:target) { display: none; } .paper { display: none; } }
""" + f"""
.names {{ width: {SIDE / (SIDE + BODY):.4%}; }} .scroll {{ width: {BODY / (SIDE + BODY):.4%}; }}
@media screen and (max-width: 900px) {{ .names {{ width: {SIDE * 0.8:g}px; }} .scroll {{ width: calc(100% - {SIDE * 0.8:g}px); }} .scroll svg {{ width: {BODY * 0.8:g}px; }} }}
@media screen and (max-width: 600px) {{ body {{ padding: 0 0.6em; margin-top: 0.6em; }} .block {{ padding: 0.1em 0.7em 0.5em; }} th, td {{ padding: 0.2em 0.4em; }} }}
""" + """
@page { margin: 14mm; }
@media print {
body { font-size: 10.5pt; margin: 0; max-width: none; padding: 0; } .nav, .jump { display: none; }
.long { max-height: none; overflow: visible; border: none; } .long thead th { position: static; } .wide, .scroll { overflow: visible; }
table { font-size: 9pt; } thead { display: table-header-group; } tr, .strip, li { break-inside: avoid; } h1, h2, h3 { break-after: avoid; } th { print-color-adjust: exact; -webkit-print-color-adjust: exact; }
.part { display: block; } .quiet { display: none; } .default, .part:target { display: block; } }
""" + with_colours(RULES, lambda name: f"var(--{name})")


def link(target, text, kind=""):
    return f'<a{f" class={kind}" if kind else ""} href="#{target}">{html.escape(text)}</a>'


# ---- Tables

def cell(value):
    return f'<td class="n">{value}</td>' if isinstance(value, int) else f"<td>{html.escape(str(value))}</td>"


def table(columns, rows, name):
    """The rows are cells; a table that is wider or longer than the screen moves inside its frame."""
    head = "".join(f'<th scope="col">{html.escape(column)}</th>' for column in columns)
    long = " long" if len(rows) > LONG else ""
    return (f'<div class="wide{long}" role="region" aria-label="{html.escape(name)}" tabindex="0"><table>\n<thead><tr>{head}</tr></thead>\n<tbody>\n'
            + "\n".join(rows) + "\n</tbody></table></div>")


def plain_rows(rows):
    return ["<tr>" + "".join(map(cell, row)) + "</tr>" for row in rows]


# ---- What stands on top

def block(block, place):
    parts = [f'<section class="block{" loud" if block.loud else ""}" id="{block.name}">', f"<h2>{html.escape(block.heading)}</h2>"]
    if block.text:
        parts.append(f"<p>{html.escape(block.text)}</p>")
    if block.items:
        counted, long = block.name == "lost", " class=long" if len(block.items) > LONG else ""
        parts.append(f'<div{long}>{"<ol>" if counted else "<ul>"}')
        for i, item in enumerate(block.items):
            name = f' id="lost-{i + 1}"' if counted else ""
            parts.append(f"<li{name}>{html.escape(item.text)} {link(place(item.record), 'picture', 'jump')}</li>")
        parts.append("</ol></div>" if counted else "</ul></div>")
    return "\n".join(parts + ["</section>"])


# ---- The picture, in parts

class Parts:
    """The log in parts of so many records."""

    def __init__(self, story, losses):
        self.story, self.losses = story, losses
        self.picture = Picture(story, losses, STRIP)
        self.count = -(-len(story.records) // PART)
        self.drawn = -(-self.picture.strips * STRIP // PART)
        self.lost = [[] for _ in range(self.count)]
        for i, lost in enumerate(losses.lost):
            self.lost[(lost.shown - 1) // PART].append(i + 1)
        hurt = [part for part in range(self.drawn) if self.lost[part]]
        self.default = hurt[0] if hurt else 0

    def bounds(self, part):
        return part * PART + 1, min((part + 1) * PART, len(self.story.records))

    def answers(self, part):
        first, last = self.bounds(part)
        return self.story.answers[first - 1:last]

    def of(self, word, part):
        return sum(answer.word == word for answer in self.answers(part))

    def name(self, part):
        first, last = self.bounds(part)
        return f"{first} to {last}"

    def place(self, record):
        """Where a record is drawn."""
        part = (record - 1) // PART
        return f"records-{part * PART + 1}" if part < self.drawn else "picture"

    def overview(self):
        """A row for each part. The lost scans of a part, each with a link to its sentence."""
        rows, mail = [], self.story.count("msg") > 0
        for part in range(self.count):
            name = link(self.place(self.bounds(part)[0]), self.name(part)) if part < self.drawn else self.name(part)
            numbers = [link(f"lost-{n}", str(n)) for n in self.lost[part][:MOST_LINKS]]
            more = [f"and {len(self.lost[part]) - MOST_LINKS} more"] if len(self.lost[part]) > MOST_LINKS else []
            count = len(self.lost[part])
            rows.append(f'<tr><td class="one">{name}</td>' + cell(self.of("pdu", part)) + f'<td class="n{" hot" if count else ""}">{count or "–"}</td>'
                        + f"<td>{' '.join(numbers + more)}</td>" + cell(self.of("refused", part)) + (cell(self.of("msg", part)) if mail else "") + "</tr>")
        return table(("records", "whole PDUs", "lost scans", "their numbers", "refused", *["messages"] * mail), rows, "Overview")

    def strip(self, number):
        height = self.picture.height(number)
        first, last = self.picture.bounds(number)
        return "\n".join([f'<div class="strip"><svg class="pic names" viewBox="0 0 {SIDE} {height}" aria-hidden="true">', *self.picture.names(number),
                          f'</svg><div class="scroll" tabindex="0"><svg class="pic" viewBox="0 0 {BODY} {height}" role="img" '
                          f'aria-label="The contexts over records {first} to {last}">', *self.picture.body(number), "</svg></div></div>"])

    def part(self, part):
        quiet = not self.lost[part] and not self.of("refused", part)
        kinds = "part" + " default" * (part == self.default) + " quiet" * quiet
        parts = [f'<section class="{kinds}" id="records-{self.bounds(part)[0]}">']
        if self.count > 1:
            ways = [link(self.place(self.bounds(other)[0]), f"records {self.name(other)}") for other in (part - 1, part + 1) if 0 <= other < self.drawn]
            parts += [f"<h3>Records {self.name(part)}</h3>", f'<p class="nav">{" ".join(ways)} {link("overview", "overview")}</p>']
        strips = range(part * PART // STRIP, min((part + 1) * PART // STRIP, self.picture.strips))
        return "\n".join(parts + [self.strip(number) for number in strips] + ["</section>"])

    def all(self):
        parts = []
        if self.count > 1:
            parts += ['<h2 id="overview">Overview</h2>', '<p class="soft">The whole log. A row leads to its part of the picture.</p>', self.overview()]
        parts += ['<h2 id="picture">The contexts over the log</h2>', legend()]
        if self.count > 1:
            parts.append('<p class="paper soft">On paper: the parts in which something was lost or refused, and the one that was on the screen.</p>')
        if self.drawn < self.count:
            parts.append(f'<p class="soft">{html.escape(self.picture.stops())}</p>')
        return parts + ['<div class="parts">', *map(self.part, range(self.drawn)), "</div>"]


def legend():
    mark = lambda sign: f'<svg class="pic" viewBox="0 0 16 16" aria-hidden="true">{sign}</svg>'
    return (f'<p class="soft legend">{html.escape(LEGEND[0])} {mark(tick(8, 8))} {html.escape(LEGEND[1])} {mark(cross(8, 8))} {html.escape(LEGEND[2])}; '
            f"{html.escape(LEGEND[3])}</p>")


# ---- The page

def report(story, name):
    losses = Losses(story)
    parts = Parts(story, losses) if story.records else None
    shown = [one for one in words.tables(story, losses) if one.rows]
    absent = [one.heading for one in words.tables(story, losses) if not one.rows]
    title = html.escape(f"Report of {name}")
    ways = [("picture", "Picture")] if parts else []
    ways = ([("overview", "Overview")] if parts and parts.count > 1 else []) + ways + [(one.name, one.heading) for one in shown]
    out = ["<!DOCTYPE html>", '<html lang="en"><head><meta charset="utf-8">', '<meta name="viewport" content="width=device-width, initial-scale=1">',
           f"<title>{title}</title>", f"<style>{STYLE}</style></head><body>", f"<h1>{title}</h1>",
           f'<p{"" if story.clean else " class=bad"}>{html.escape(words.ending(story))} {words.SETUP}</p>',
           *(block(one, parts.place if parts else None) for one in words.top(losses)),
           '<h2>Counts</h2>', table(("what", "how many"), plain_rows(words.counts(story)), "Counts"),
           f'<p class="nav">{" ".join(link(*way) for way in ways)}</p>', *(parts.all() if parts else [])]
    for one in shown:
        out.append(f'<h2 id="{one.name}">{html.escape(one.heading)}</h2>')
        if one.text:
            out.append(f'<p class="soft">{html.escape(one.text)}</p>')
        out.append(table(one.columns, plain_rows(one.rows[:MOST_ROWS]), one.heading))
        if len(one.rows) > MOST_ROWS:
            out.append(f"<p>And {len(one.rows) - MOST_ROWS:,} more.</p>")
    if absent:
        out.append(f'<p class="soft">None in this log: {html.escape(", ".join(absent))}.</p>')
    return "\n".join(out + ["</body></html>"])
