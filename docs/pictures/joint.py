#!/usr/bin/env python3
"""Writes docs/joint.svg, the picture of docs/JOINT.md: document 01's example 9, from what is sent to what is judged.

    docs/pictures/joint.py           writes the picture
    docs/pictures/joint.py --check   ends with 1 if the picture is another
"""
import pathlib
import sys

ROOT = pathlib.Path(__file__).resolve().parents[2]
sys.path.insert(0, str(ROOT / "tools"))
from command import call

WIDTH, HEIGHT = 900, 520
INK, SOFT, LOSS, PANEL, EDGE = "#22272e", "#5c6670", "#b3261e", "#fdfcf8", "#c9c6bb"
FIRST = ("#cfe3f7", "#2b6cb0")  # scan A: fill, outline
SECOND = ("#fbe0bd", "#b7651b")  # scan B

BOX = 50  # height of a packet
# places of the four packets: x, width
A_START, A_END, B_START, B_END = (220, 190), (416, 106), (562, 190), (758, 106)
# heights of the four rows
SENT, LOST, ARRIVES, JUDGED = 64, 152, 258, 384


def text(x, y, words, size=15, colour=INK, anchor="start", weight="normal"):
    return (f'<text x="{x}" y="{y}" font-size="{size}" fill="{colour}" text-anchor="{anchor}" '
            f'font-weight="{weight}">{words}</text>')


def label(y, name, more):
    return [text(24, y + 22, name, 17, weight="bold"), text(24, y + 42, more, 13, SOFT)]


def packet(place, y, scan, name, size):
    x, width = place
    fill, line = scan
    middle = x + width / 2
    return [f'<rect x="{x}" y="{y}" width="{width}" height="{BOX}" rx="5" fill="{fill}" stroke="{line}" stroke-width="2"/>',
            text(middle, y + 22, name, 15, anchor="middle", weight="bold"),
            text(middle, y + 40, size, 13, SOFT, "middle")]


def lost(place, y, name):
    x, width = place
    middle = x + width / 2
    cross = "".join(f'<path d="M {middle - 15} {y + BOX / 2 - s * 15} L {middle + 15} {y + BOX / 2 + s * 15}" '
                    f'stroke="{LOSS}" stroke-width="5" stroke-linecap="round"/>' for s in (1, -1))
    return [f'<rect x="{x}" y="{y}" width="{width}" height="{BOX}" rx="5" fill="none" stroke="{SOFT}" '
            f'stroke-width="1.5" stroke-dasharray="5 4"/>', cross,
            text(middle, y + BOX + 18, name, 13, LOSS, "middle")]


def over(left, right, y, scan, words):
    """A bracket over the packets of one PDU."""
    x1, x2 = left[0], right[0] + right[1]
    return [f'<path d="M {x1} {y + 8} V {y} H {x2} V {y + 8}" fill="none" stroke="{scan[1]}" stroke-width="1.5"/>',
            text((x1 + x2) / 2, y - 8, words, 14, anchor="middle")]


def arrow(x1, y1, x2, y2):
    return [f'<path d="M {x1} {y1} L {x2} {y2}" stroke="{INK}" stroke-width="2" fill="none" marker-end="url(#head)"/>']


def picture():
    parts = [
        f'<svg xmlns="http://www.w3.org/2000/svg" viewBox="0 0 {WIDTH} {HEIGHT}" width="{WIDTH}" height="{HEIGHT}" '
        f'font-family="Helvetica, Arial, \'Liberation Sans\', sans-serif" role="img" aria-labelledby="title">',
        '<title id="title">The joint: the start of scan A and the end of scan B arrive, and are judged as one scan</title>',
        f'<defs><marker id="head" viewBox="0 0 10 10" refX="9" refY="5" markerWidth="7" markerHeight="7" orient="auto">'
        f'<path d="M 0 0 L 10 5 L 0 10 z" fill="{INK}"/></marker></defs>',
        f'<rect x="1" y="1" width="{WIDTH - 2}" height="{HEIGHT - 2}" rx="10" fill="{PANEL}" stroke="{EDGE}" stroke-width="1.5"/>',
    ]
    # what is sent
    parts += label(SENT, "Sent", "on one flow, MTU 32")
    parts += over(A_START, A_END, SENT - 12, FIRST, "scan A: 40 bytes, streamID 7")
    parts += over(B_START, B_END, SENT - 12, SECOND, "scan B: 40 bytes, streamID 8")
    parts += packet(A_START, SENT, FIRST, "A start", "bytes 0–31")
    parts += packet(A_END, SENT, FIRST, "A end", "bytes 32–39")
    parts += packet(B_START, SENT, SECOND, "B start", "bytes 0–31")
    parts += packet(B_END, SENT, SECOND, "B end", "bytes 32–39")
    # what is lost
    parts += label(LOST, "Lost", "two packets in a row")
    parts += lost(A_END, LOST, "A end is lost")
    parts += lost(B_START, LOST, "B start is lost")
    # what arrives, and what each gets
    parts += label(ARRIVES, "Arrives", "and what it is answered")
    parts += packet(A_START, ARRIVES, FIRST, "A start", "32 bytes")
    parts += packet(B_END, ARRIVES, SECOND, "B end", "8 bytes")
    parts += [text(A_START[0] + A_START[1] + 12, ARRIVES + 30, "held"),
              text(B_END[0] - 12, ARRIVES + 22, "32 + 8 = 40, as it says:", anchor="end"),
              text(B_END[0] - 12, ARRIVES + 41, "delivered", anchor="end")]
    # what is judged: the halves joined
    left, right = A_START, (A_START[0] + A_START[1], B_END[1])
    parts += label(JUDGED, "Judged", "as one scan")
    parts += packet(left, JUDGED, FIRST, "from A", "bytes 0–31")
    parts += packet(right, JUDGED, SECOND, "from B", "bytes 32–39")
    parts += [f'<rect x="{left[0] - 5}" y="{JUDGED - 5}" width="{left[1] + right[1] + 10}" height="{BOX + 10}" rx="8" '
              f'fill="none" stroke="{LOSS}" stroke-width="3"/>']
    parts += arrow(left[0] + left[1] / 2, ARRIVES + BOX + 6, left[0] + left[1] / 2, JUDGED - 10)
    parts += arrow(B_END[0] + B_END[1] / 2, ARRIVES + BOX + 6, right[0] + right[1] / 2, JUDGED - 10)
    beside = right[0] + right[1] + 24
    parts += [text(beside, JUDGED + 12, "A scan that nobody sent", weight="bold"),
              text(beside, JUDGED + 33, "streamID 7, 40 bytes", 14),
              text(beside, JUDGED + 52, "nothing refused, nothing “dropped”", 14)]
    # why the length does not help
    parts += [f'<path d="M 24 458 H {WIDTH - 24}" stroke="{EDGE}" stroke-width="1.5"/>',
              text(24, 484, "A’s start fills exactly the hole that B’s lost start left: both hold one MTU. "
                            "So the sum of the bytes is B’s length,", 14),
              text(24, 504, "and the two-byte length in B’s end agrees.", 14)]
    parts.append("</svg>")
    return "\n".join(parts) + "\n"


def main(words):
    stored = ROOT / "docs" / "joint.svg"
    if words == ["--check"]:
        if stored.read_text(encoding="utf-8") != picture():
            raise SystemExit("joint.py: docs/joint.svg is another picture")
        print("joint: the picture is what its script draws")
        return
    stored.write_text(picture(), encoding="utf-8")
    print(f"wrote {stored.name}")


call(__doc__, main, [], ["--check"])
