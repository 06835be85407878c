#!/usr/bin/env python3
"""Writes docs/layers.svg, the picture of docs/ARCHITECTURE.md: the crates as layers. What stands where follows from crates.txt: a crate's
heading there is its column, and it stands below every crate that uses it. It stops if docs/ARCHITECTURE.md does not speak of a crate.

    docs/pictures/layers.py           writes the picture
    docs/pictures/layers.py --check   ends with 1 if the picture is another
"""
import pathlib
import re
import sys

ROOT = pathlib.Path(__file__).resolve().parents[2]
sys.path.insert(0, str(ROOT / "tools"))
import command

# The headings of crates.txt. Five are columns: from where on, and how wide. Two are bands over all columns, one above and one below.
COLUMNS = {"Reading packets": (0, 440), "Writing segments": (448, 130), "The log": (586, 170), "From C": (764, 110), "Theorems": (882, 212)}
BANDS = ("Programs", "The ground")

WIDTH, ROW, TOP, LEFT, HEAD, GAP = 1130, 42, 14, 18, 26, 8  # HEAD: the height of a heading; GAP: between two groups of rows
INK, SOFT, PANEL, EDGE, FIELD = "#22272e", "#5c6670", "#fdfcf8", "#c9c6bb", "#f3f1e9"
CODE = ("#e9e6dc", "#8a8674")
CALLS = ("#cfe3f7", "#2b6cb0")
PROVED = ("#d9ecd5", "#3f7d3a")
RUN = ("#fbe0bd", "#b7651b")


def read(path):
    return command.text(ROOT / path)


# Each crate with those that it uses, and with its heading, in the order of crates.txt.
USES, HEADING = {}, {}
heading = ""
for line in read("crates.txt").splitlines():
    if line.startswith("# "):
        heading = line[2:]
    name, colon, deps = line.split("#")[0].partition(":")
    if colon:
        USES[name.split()[0]], HEADING[name.split()[0]] = deps.split(), heading

PUBLIC = set(re.findall(r'"(\w+)"', re.search(r"^USERS = \[(.*)\]$", read("tools/trace"), re.M)[1]))


def colour(crate):
    source = ROOT / "crates" / crate / "src"
    if (source / "main.rt").exists():
        return RUN
    if crate in PUBLIC:
        return CALLS
    return CODE if re.search(r"^(pub )?fn ", (source / "lib.rt").read_text(encoding="utf-8"), re.M) else PROVED


def depth(crate, among):
    """How many layers of these crates it needs below it."""
    return 1 + max((depth(other, among) for other in USES[crate] if other in among), default=-1)


def rows(headings):
    """The rows from above, each a list of crates for each heading. A crate stands as high as those that use it and the width of its column
    allow; first come those that need the most layers below."""
    left = {crate: depth(crate, {c for c in USES if HEADING[c] in headings}) for crate in USES if HEADING[crate] in headings}
    out = []
    for level in range(max(left.values()), -1, -1):
        free = [crate for crate in left if not any(crate in USES[other] for other in left)]
        row = {}
        for crate in sorted(free, key=lambda crate: -left[crate]):
            beside = row.setdefault(HEADING[crate], [])
            if left[crate] >= level or not beside or sum(map(wants, [*beside, crate])) <= headings[HEADING[crate]][1]:
                beside.append(crate)
        for crates in row.values():
            crates.sort(key=list(USES).index)
            for crate in crates:
                del left[crate]
        out.append(row)
    return out


def wants(crate):
    """How wide its box should be."""
    return 7.4 * len(crate) + 24


def test():
    for crate, heading in HEADING.items():
        if heading not in COLUMNS and heading not in BANDS:
            raise SystemExit(f"layers.py: {crate} stands in crates.txt under '{heading}', which is no column here")
        for other in USES[crate]:
            if HEADING.get(other) == BANDS[0] != heading or heading == BANDS[1] != HEADING.get(other, heading):
                raise SystemExit(f"layers.py: {crate} uses {other}, which is not below it")
    page = read("docs/ARCHITECTURE.md")
    for crate in USES:
        if f"**`{crate}`**" not in page:
            raise SystemExit(f"layers.py: docs/ARCHITECTURE.md does not speak of {crate}")


def text(x, y, words, size=14, fill=INK, anchor="middle", weight="normal"):
    return f'<text x="{x:g}" y="{y:g}" font-size="{size}" fill="{fill}" text-anchor="{anchor}" font-weight="{weight}">{words}</text>'


def panel(x, y, width, height, words):
    """A field with a heading, behind the boxes of a column or a band."""
    return [f'<rect x="{x:g}" y="{y:g}" width="{width:g}" height="{height:g}" rx="7" fill="{FIELD}"/>',
            text(x + width / 2, y + 19, words.lower().replace("from c", "from C"), 14, SOFT, weight="bold")]


def boxes(x, y, width, crates):
    """The crates of a row side by side."""
    parts, whole = [], sum(map(wants, crates))
    for crate in crates:
        own, (fill, line) = width * wants(crate) / whole, colour(crate)
        parts += [f'<rect x="{x + 4:.1f}" y="{y:g}" width="{own - 8:.1f}" height="{ROW - 8}" rx="5" fill="{fill}" stroke="{line}" stroke-width="1.5"/>',
                  text(round(x + own / 2, 1), y + 22, crate)]
        x += own
    return parts


def picture():
    across = (0, WIDTH - 2 * LEFT)
    parts, y = [], TOP
    for headings in ({BANDS[0]: across}, COLUMNS, {BANDS[1]: across}):
        layers = rows(headings)
        for heading, (x, width) in headings.items():
            parts += panel(LEFT + x, y, width, HEAD + len(layers) * ROW, heading)
        for k, row in enumerate(layers):
            for heading, crates in row.items():
                x, width = headings[heading]
                parts += boxes(LEFT + x, y + HEAD + k * ROW, width, crates)
        y += HEAD + len(layers) * ROW + GAP
    for k, (pair, words) in enumerate([(CALLS, "public functions"), (CODE, "code with contracts"), (PROVED, "theorems, no code"), (RUN, "programs")]):
        x = LEFT + 4 + k * 190
        parts += [f'<rect x="{x}" y="{y + 4}" width="18" height="18" rx="3" fill="{pair[0]}" stroke="{pair[1]}" stroke-width="1.5"/>',
                  text(x + 26, y + 18, words, 13, SOFT, "start")]
    height = y + 34
    head = [f'<svg xmlns="http://www.w3.org/2000/svg" viewBox="0 0 {WIDTH} {height}" font-family="Helvetica, Arial, sans-serif" role="img" '
            f'aria-label="The crates as layers, from lists at the bottom to the programs at the top; columns for reading packets, writing segments, '
            f'the log, C and theorems">',
            f'<rect x="1" y="1" width="{WIDTH - 2}" height="{height - 2}" rx="10" fill="{PANEL}" stroke="{EDGE}"/>']
    return "\n".join(head + parts + ["</svg>"]) + "\n"


def main(words):
    test()
    stored = ROOT / "docs" / "layers.svg"
    if words == ["--check"]:
        if command.text(stored) != picture():
            raise SystemExit("layers.py: docs/layers.svg is another picture")
        print("layers: every crate has its place and its words")
        return
    stored.write_text(picture(), encoding="utf-8")


command.call(__doc__, main, [], ["--check"])
