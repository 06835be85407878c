"""The contexts over a log, as SVG: strips of records, a lane for each context, one for what was refused and one for lost scans."""
import html

from reporting.refusals import REFUSALS
from reporting.words import box_words, flow_words

# name: (light, dark). Those of the flows come in pairs, fill f0 and line l0.
COLOURS = {
    "ink": ("#22272e", "#e6e4dc"), "soft": ("#5c6670", "#a9b0b8"), "paper": ("#ffffff", "#16191d"), "panel": ("#fdfcf8", "#1e2227"),
    "edge": ("#c9c6bb", "#4a5058"), "grid": ("#e9e6dc", "#343a41"), "head": ("#f4f2ea", "#272c32"), "loss": ("#b3261e", "#ff8f85"),
    "good": ("#1d7a46", "#6fd39a"), "link": ("#1f5fa8", "#8ab8f0"),
}
FLOWS = [(("#cfe3f7", "#2b6cb0"), ("#1d3b5c", "#7fb5ea")), (("#fbe0bd", "#b7651b"), ("#563517", "#f0ad69")),
         (("#d6efd8", "#2f7d4f"), ("#1d4529", "#7fce97")), (("#ead6f2", "#7b3f9d"), ("#43284f", "#cf9fe6")),
         (("#fbd5d5", "#a83a3a"), ("#562727", "#f09c9c")), (("#d3eef0", "#1f7a82"), ("#17464b", "#77ccd4")),
         (("#f4ecb8", "#8a7413"), ("#4b4210", "#dcc65c")), (("#dfe0f5", "#4a4fa3"), ("#2e3160", "#a9aeee"))]
for number, (light, dark) in enumerate(FLOWS):
    COLOURS[f"f{number}"], COLOURS[f"l{number}"] = (light[0], dark[0]), (light[1], dark[1])

# What the classes of the picture look like; $name is a colour.
RULES = "\n".join([
    ".pic text { fill: $ink; font-size: 12px; }", ".pic .soft { fill: $soft; }", ".pic .mid { text-anchor: middle; }", ".pic .name { font-weight: bold; }",
    ".pic .red { fill: $loss; font-weight: bold; text-anchor: middle; }", ".pic .small { font-size: 7px; }", ".pic .grid { stroke: $grid; stroke-width: 2; }",
    ".pic .panel { fill: $panel; stroke: $edge; stroke-width: 1.5; }", ".pic .cross { stroke: $loss; stroke-width: 2.5; stroke-linecap: round; }",
    ".pic .tick { fill: none; stroke: $good; stroke-width: 2.5; stroke-linecap: round; stroke-linejoin: round; }", ".pic .bar { stroke-width: 1.5; }",
    ".pic .undone { stroke-dasharray: 5 3; }", ".pic .mark { stroke: $loss; stroke-width: 2; }",
    *[f".pic .c{i} {{ fill: $f{i}; stroke: $l{i}; }} .pic .d{i} {{ fill: $l{i}; }}" for i in range(len(FLOWS))]])

ACROSS, SIDE, LANE, TOP = 960, 110, 34, 26
STRIP, MOST_STRIPS = 40, 200  # records in a strip of the page; strips in a picture


def with_colours(rules, value):
    for name in sorted(COLOURS, key=len, reverse=True):
        rules = rules.replace(f"${name}", value(name))
    return rules


def text(x, y, words, kind=""):
    classes = f' class="{kind}"' if kind else ""
    return f'<text x="{x:.5g}" y="{y:g}"{classes}>{html.escape(words)}</text>'


def cross(x, y, size=5):
    return f'<path class="cross" d="M{x - size:.5g} {y - size:g}l{2 * size} {2 * size}m0 {-2 * size}l{-2 * size} {2 * size}"/>'


def tick(x, y):
    return f'<path class="tick" d="M{x - 5:.5g} {y:g}l3.5 4l6.5 -9"/>'


class Picture:
    """Strips of some records each. Places are inside a strip's body, which lies to the right of the lanes' names."""

    def __init__(self, story, losses, per=None):
        self.story, self.losses = story, losses
        self.count = len(story.records)
        self.per = per or next((n for n in (40, 100) if self.count <= n * 10), 200)
        if self.count <= STRIP:
            self.per = max(self.count, 12)
        self.step = ACROSS / self.per
        self.strips = min(-(-self.count // self.per), MOST_STRIPS)
        keys = sorted({(s.kind, s.key[:3]) for s in story.spans}, key=str)
        self.colours = {key: i % len(FLOWS) for i, key in enumerate(keys)}
        self.spans = [[] for _ in range(self.strips)]
        for span in story.spans:
            for strip in range((span.first - 1) // self.per, min((self.until(span) - 1) // self.per + 1, self.strips)):
                self.spans[strip].append(span)
        self.lost = {}
        for i, lost in enumerate(losses.lost):
            self.lost.setdefault(lost.shown, []).append(i + 1)

    def x(self, record, strip):
        """The middle of a record."""
        return (record - 1 - strip * self.per + 0.5) * self.step

    def bounds(self, strip):
        return strip * self.per + 1, min((strip + 1) * self.per, self.count)

    def until(self, span):
        """The last record of a span; an unfinished one lasts to the end."""
        return self.count if span.fate == "unfinished" else span.last

    def lanes(self, strip):
        """The contexts in use in a strip, streams first; then refused packets and lost scans, where there are any."""
        first, last = self.bounds(strip)
        used = sorted({(s.kind != "pdu", s.context) for s in self.spans[strip]})
        more = [("refused", self.refused)] * any(a.word == "refused" for a in self.story.answers[first - 1:last])
        more += [("lost scan", self.lost_marks)] * any(first <= record <= last for record in self.lost)
        return used, more

    def height(self, strip):
        used, more = self.lanes(strip)
        return TOP + LANE * (len(used) + len(more)) + 6

    def names(self, strip):
        used, more = self.lanes(strip)
        names = [(f"message {n}" if message else f"stream {n}") for message, n in used] + [name for name, _ in more]
        return [text(8, 14, "record", "soft")] + [text(8, TOP + i * LANE + LANE / 2 + 4, name, "name") for i, name in enumerate(names)]

    def body(self, strip):
        used, more = self.lanes(strip)
        parts = self.scale(strip, len(used) + len(more))
        for span in self.spans[strip]:
            parts += self.bar(span, strip, TOP + LANE * used.index((span.kind != "pdu", span.context)) + 5)
        for i, (_, draw) in enumerate(more):
            parts += draw(strip, TOP + LANE * (len(used) + i) + LANE / 2)
        return parts

    def scale(self, strip, lanes):
        first, last = self.bounds(strip)
        need = 7 * len(str(last)) + 7  # a number's width
        every = next(n for n in (1, 2, 5, 10, 20, 50) if n * self.step >= need)
        parts = []
        for record in range(first, last + 1):
            if record == first or record % every == 0 and (record - first) * self.step >= need:
                parts.append(text(self.x(record, strip), 14, str(record), "soft mid"))
        right = self.x(last, strip) + self.step / 2
        lines = "".join(f"M0 {TOP + i * LANE + LANE / 2:g}H{right:.5g}" for i in range(lanes))
        return parts + [f'<path class="grid" d="{lines}"/>'] if lines else parts

    def bar(self, span, strip, top):
        """The part of a span that lies in a strip. A context's next PDU begins where the one it replaces ends."""
        first, last = self.bounds(strip)
        until = self.until(span)
        colour, room = self.colours[span.kind, span.key[:3]], LANE - 10
        left = self.x(max(span.first, first), strip) - self.step * 0.42
        right = self.x(min(until, last), strip) + self.step * (-0.5 if span.replaced and until <= last else 0.42)
        right = max(right, left + 3)
        title = f"{flow_words(span.key)}, stream {span.stream}" if span.kind == "pdu" else box_words(span.key)
        undone = "" if span.fate == "delivered" else " undone"
        parts = [f"<g><title>{html.escape(title)}: records {span.first} to {until}, {span.bytes} bytes, {span.fate}</title>",
                 f'<rect class="bar c{colour}{undone}" x="{left:.5g}" y="{top:g}" width="{right - left:.5g}" height="{room}" rx="4"/>']
        size = f"{min(2.5, self.step / 4):.2g}"
        parts += [f'<circle class="d{colour}" cx="{self.x(record, strip):.5g}" cy="{top + room - 4:g}" r="{size}"/>'
                  for record in span.records if first <= record <= last]
        if span.fate == "delivered" and span.last <= last:
            parts.append(tick(max(right - 8, (left + right) / 2), top + 9))
        words = "/".join(map(str, span.key[:3])) + (f" #{span.stream}" if span.kind == "pdu" else "")
        if right - left > 7 * len(words) + 18:
            parts.append(text(left + 6, top + 14, words))
        parts.append("</g>")
        if span.fate == "dropped" and span.last <= last:
            parts.append(cross(right + (0 if span.replaced else -8), top + room / 2))
        return parts

    def refused(self, strip, middle):
        first, last = self.bounds(strip)
        for record in range(first, last + 1):
            answer = self.story.answers[record - 1]
            if answer.word == "refused":
                words = f"record {record}: refused {answer.numbers[0]}, {REFUSALS[answer.numbers[0]][0]}"
                yield f"<g><title>{html.escape(words)}</title>{self.red(self.x(record, strip), middle, str(answer.numbers[0]))}</g>"

    def red(self, x, middle, words):
        """A red number, or a stroke where there is no room for one."""
        if self.step < 9:
            return f'<path class="mark" d="M{x:.5g} {middle - 6:g}v12"/>'
        return text(x, middle + 4, words, "red" if self.step >= 18 else "red small")

    def lost_marks(self, strip, middle):
        first, last = self.bounds(strip)
        for record, numbers in self.lost.items():
            if first <= record <= last:
                words = ", ".join(map(str, numbers))
                yield f"<g><title>lost scan {words}, see the list</title>{self.red(self.x(record, strip), middle, words)}</g>"

    def svg(self):
        """All strips as one picture that stands alone."""
        heights = [self.height(strip) for strip in range(self.strips)]
        cut = self.strips * self.per < self.count
        width, height = SIDE + ACROSS + 20, 12 + sum(heights) + 20 * cut + 54
        parts = [f'<svg xmlns="http://www.w3.org/2000/svg" class="pic" viewBox="0 0 {width} {height}" width="{width}" height="{height}" '
                 f'font-family="Helvetica, Arial, \'Liberation Sans\', sans-serif" role="img">', "<title>The contexts over the log</title>",
                 f"<style>{with_colours(RULES, lambda name: COLOURS[name][0])}</style>",
                 f'<rect class="panel" x="1" y="1" width="{width - 2}" height="{height - 2}" rx="10"/>']
        y = 12
        for strip in range(self.strips):
            parts += [f'<g transform="translate(8 {y})">', *self.names(strip), f'</g><g transform="translate({SIDE} {y})">', *self.body(strip), "</g>"]
            y += heights[strip]
        if cut:
            parts.append(text(16, y + 14, self.stops()))
            y += 20
        return "\n".join(parts + [f'<g transform="translate(0 {y})">', *legend(), "</g></svg>"])

    def stops(self):
        return f"The picture stops at record {self.strips * self.per:,}; all else is of the whole log."


LEGEND = ("A bar is a context in use: source/priority/cos #stream, or source/letter/mbox. Dots are its packets.", "delivered", "given up (dropped)",
          "dashed: never delivered. Red numbers: refusals, and lost scans by their number in the list.")


def legend():
    return [text(16, 14, LEGEND[0], "soft"), tick(22, 32), text(34, 36, LEGEND[1]), cross(122, 32), text(134, 36, LEGEND[2]), text(276, 36, LEGEND[3])]
