#!/usr/bin/env python3
"""The pictures of docs/LAYOUTS.md, from the table of fields in layouts.txt.

    docs/pictures/layouts.py           writes the pictures
    docs/pictures/layouts.py --check   holds the table against stored packets, and the pictures against the table

Each picture has a packet at both widths of the IDs. The check takes packets apart by the table's places: the paper's
sample, and the second program's cases under crates/outside_segments (both widths), crates/outside_responses and
crates/outside_logs (16 bits) and crates/outside_narrow (8 bits). It compares every field with what the case says was
meant, or with the line printed for the packet. It ends with 1 at the first difference.
"""
import collections
import html
import pathlib
import re
import sys

HERE = pathlib.Path(__file__).resolve().parent
ROOT = HERE.parent.parent
sys.path.insert(0, str(ROOT / "tools"))
import command

Field = collections.namedtuple("Field", "name byte bit width value")


IDS = (2, 1)  # the bytes of an ID: with 16 bits, with 8


def header(ids):
    """Where the fields of a type begin: behind byte 0 and the two IDs."""
    return 1 + 2 * ids


def tt_of(ids):
    return ids - 1


class Layout:
    """One packet at one width: its picture's name, title and notes, its fields in order, where its data begin (None: no data)."""

    def __init__(self, ids, picture, title):
        self.ids, self.picture, self.title, self.notes, self.fields, self.data = ids, picture, title, [], [], None

    def head(self):
        """How many bytes the fields take."""
        return max(f.byte * 8 + f.bit + f.width for f in self.fields) // 8


def place_of(words, ids):
    """A byte as the table names it, at that width."""
    named = {"ID1": 1, "ID2": 1 + ids}
    return named[words] if words in named else header(ids) + int(words) if words.startswith("+") else int(words)


def field_of(words, ids):
    """name, byte, bit, width, value"""
    width = 8 * ids if words[3] == "ID" else int(words[3])
    value = f"{tt_of(ids):02b}" if words[4] == "tt" else words[4]
    return Field(words[0].replace("_", " "), place_of(words[1], ids), int(words[2]), width, value)


def read_table(ids):
    """The table's packets, with IDs of so many bytes."""
    layouts = {}
    for line in command.text(HERE / "layouts.txt").splitlines():
        words = line.split()
        if not words or words[0].startswith("#"):
            continue
        if words[0] == "packet":
            layouts[words[1]] = Layout(ids, words[2], " ".join(words[3:]))
            continue
        for name in layouts if words[1] == "all" else words[1].split(","):
            if words[0] == "note":
                layouts[name].notes.append(" ".join(words[2:]))
            elif words[0] == "data":
                layouts[name].data = place_of(words[2], ids)
            elif words[0] == "field":
                layouts[name].fields.append(field_of(words[2:7], ids))
            else:
                sys.exit(f"layouts.txt: what is this line? {line}")
    for layout in layouts.values():
        layout.fields.sort(key=lambda f: (f.byte, f.bit))
    return layouts


# ---- The pictures

BIT, LEFT, ROW, NUMBERS = 24, 20, 52, 44  # width of a bit; margin; height of a field; height of the numbers over it
ACROSS = 40  # bits in a row: byte 0 and the IDs, then what is behind them
WIDTH = ACROSS * BIT + 2 * LEFT
INK, SOFT, PANEL, EDGE = "#22272e", "#5c6670", "#fdfcf8", "#c9c6bb"
KINDS = {  # fill and outline
    "fixed": ("#e4e7ea", "#6b7580"),
    "free": ("#cfe3f7", "#2b6cb0"),
    "data": ("#fbe0bd", "#b7651b"),
}


def text(x, y, words, size=14, colour=INK, anchor="middle", weight="normal"):
    return (f'<text x="{x:g}" y="{y:g}" font-size="{size}" fill="{colour}" text-anchor="{anchor}" '
            f'font-weight="{weight}">{html.escape(words)}</text>')


def numbers(first, count, y):
    """Byte and bit numbers over a row."""
    parts = []
    for i in range(count):
        x = LEFT + i * 8 * BIT
        parts.append(text(x + 4 * BIT, y + 16, f"byte {first + i}", 13, weight="bold"))
        parts += [text(x + (b + 0.5) * BIT, y + 36, str(b), 11, SOFT) for b in range(8)]
        if i:
            parts.append(f'<path d="M {x} {y + 4} V {y + NUMBERS - 4}" stroke="{EDGE}" stroke-width="1"/>')
    return parts


def box(field, first, y):
    x = LEFT + ((field.byte - first) * 8 + field.bit) * BIT
    width = field.width * BIT
    fixed = field.value != "-"
    fill, line = KINDS["fixed" if fixed else "free"]
    below = field.value if fixed else ("" if field.width == 1 else f"{field.width} bits")
    size = min(12 if field.width <= 3 else 15, max(10, int((width - 4) / (0.64 * len(field.name)))))
    return [f'<rect x="{x}" y="{y}" width="{width}" height="{ROW}" fill="{fill}" stroke="{line}" stroke-width="1.5"/>',
            text(x + width / 2, y + (22 if below else 31), field.name, size, weight="bold"),
            text(x + width / 2, y + 41, below, 12, INK if fixed else SOFT)]


def data_box(layout, y):
    """From where data begin to the right edge, which is torn."""
    x = LEFT + (layout.data - header(layout.ids)) * 8 * BIT
    end = LEFT + ACROSS * BIT
    fill, line = KINDS["data"]
    step = ROW / 4
    torn = " ".join(f"L {end - (8 if i % 2 else 0)} {y + i * step:g}" for i in range(5))
    return [f'<path d="M {x} {y} {torn} L {x} {y + ROW} Z" fill="{fill}" stroke="{line}" stroke-width="1.5"/>',
            text((x + end) / 2, y + 22, "data", 15, weight="bold"),
            text((x + end) / 2, y + 41, f"from byte {layout.data}", 12, SOFT)]


WORDS, PAUSE = 34, 12  # height of the words over a packet; between the two rows of one


def drawn(layout, y):
    """A packet from y on: how wide its IDs are, byte 0 and the IDs, and under them what is behind. And where it ends."""
    behind = header(layout.ids)
    top = y + WORDS
    under = top + NUMBERS + ROW + PAUSE
    size = f"{layout.head()} bytes" if layout.data is None else f"a head of {layout.head()} bytes"
    parts = [text(LEFT, y + 22, f"IDs of {8 * layout.ids} bits: {size}", 15, SOFT, "start", "bold")]
    for first, count, at in [(0, behind, top), (behind, layout.head() - behind, under)]:
        parts += numbers(first, count, at)
        for field in layout.fields:
            if first <= field.byte < first + count:
                parts += box(field, first, at + NUMBERS)
    if layout.data is not None:
        parts += data_box(layout, under + NUMBERS)
    return parts, under + NUMBERS + ROW


def picture(layouts):
    """One packet at each width."""
    title, notes = layouts[0].title, layouts[0].notes
    parts, y = [], 40
    for layout in layouts:
        more, end = drawn(layout, y)
        parts, y = parts + more, end + 14
    for i, note in enumerate(notes):
        parts.append(text(LEFT, y + 16 + 22 * i, note, 14, anchor="start"))
    height = y + 10 + 22 * len(notes)
    head = [
        f'<svg xmlns="http://www.w3.org/2000/svg" viewBox="0 0 {WIDTH} {height}" width="{WIDTH}" height="{height}" '
        f'font-family="Helvetica, Arial, \'Liberation Sans\', sans-serif" role="img" aria-labelledby="title">',
        f'<title id="title">{html.escape(title)}</title>',
        f'<rect x="1" y="1" width="{WIDTH - 2}" height="{height - 2}" rx="10" fill="{PANEL}" stroke="{EDGE}" stroke-width="1.5"/>',
        text(LEFT, 32, title, 18, anchor="start", weight="bold"),
    ]
    return "\n".join(head + parts + ["</svg>"]) + "\n"


# ---- The check

def fail(words):
    sys.exit(f"layouts: {words}")


def take_apart(layout, packet):
    """Field values by name, and the data."""
    values = {}
    bits = int.from_bytes(packet, "big")
    for f in layout.fields:
        behind = 8 * len(packet) - (f.byte * 8 + f.bit + f.width)
        if behind < 0:
            fail(f"{f.name} does not fit into {packet.hex()}")
        values[f.name] = bits >> behind & (1 << f.width) - 1
    return values, b"" if layout.data is None else packet[layout.data:]


def compare(layout, packet, wanted, data=None, where=""):
    """Every field has the wanted value, a fixed one its value in the table; the data are these."""
    values, found = take_apart(layout, packet)
    for f in layout.fields:
        want = int(f.value, 2) if f.value != "-" else wanted[f.name]
        if f.name in wanted and wanted[f.name] != want:
            fail(f"{where}: the table fixes {f.name} to {want}, the case says {wanted[f.name]}")
        if values[f.name] != want:
            fail(f"{where}: {f.name} is {values[f.name]} in {packet.hex()}, and not {want}")
    if data is not None and found != data:
        fail(f"{where}: the data of {packet.hex()} are not {data.hex()}")
    return len(layout.fields)


def check_tiling(layouts):
    """The fields lie side by side, from bit 0 to the end of the head, and data behind them."""
    for name, layout in layouts.items():
        place = 0
        for f in layout.fields:
            if f.byte * 8 + f.bit != place:
                fail(f"{name}: {f.name} begins at bit {f.byte * 8 + f.bit}, the field before it ends at {place}")
            if f.value != "-" and len(f.value) != f.width:
                fail(f"{name}: the value of {f.name} has not {f.width} bits")
            place += f.width
        if place % 8 or layout.data not in (None, place // 8):
            fail(f"{name}: the head ends at bit {place}, data begin at byte {layout.data}")


def records(log):
    place = 0
    while place < len(log):
        length = log[place] & 127
        place += 1
        if log[place - 1] & 128:
            length |= log[place] << 7
            place += 1
        yield log[place:place + length]
        place += length


def check_paper(tables):
    """The paper's sample log and the response it gives, field by field as the paper writes them."""
    layouts = tables[2]
    stream, message = records((ROOT / "logs/paper.log").read_bytes())
    head = {"priority": 0, "tt": 1, "destination": 1, "source": 2}
    box_of = {"letter": 1, "mbox": 2, "msgseg": 0}
    count = compare(layouts["start"], stream,
                    head | {"type": 9, "cos": 5, "S": 1, "E": 1, "reserved": 0, "xh": 0, "O": 0, "P": 1, "streamID": 7},
                    bytes.fromhex("AABBCC00"), "logs/paper.log")
    count += compare(layouts["message"], message, head | box_of | {"type": 11, "msglen": 0, "ssize": 9},
                     bytes(range(0x11, 0x19)), "logs/paper.log")
    count += compare(layouts["response"], bytes.fromhex("5D000200011060"),
                     box_of | {"priority": 1, "tt": 1, "type": 13, "destination": 2, "source": 1, "transaction": 1, "status": 0},
                     None, "the paper's response")
    return 3, count


CASE = 21  # the bytes of one of the writer's cases


def check_segments(tables):
    """The writer's cases: what went in stands in 21 bytes, the last of which chooses the width, and what came out in hex."""
    cases = (ROOT / "crates/outside_segments/stdin").read_bytes()
    lines = iter(command.text(ROOT / "crates/outside_segments/stdout").splitlines())
    packets = fields = 0
    for at in range(0, len(cases), CASE):
        case = cases[at:at + CASE]
        number = lambda first, last: int.from_bytes(case[first:last], "big")
        mtu, length, seed, ids = number(0, 4), number(12, 16), case[16], 1 if case[20] else 2
        count = int(next(lines).split()[1])
        pdu = bytes((seed + 7 * i + i // 256) % 256 for i in range(length)) if count else b""
        for k in range(count + 1):
            line = next(lines)
            if line.startswith("refused"):
                continue
            data = pdu[k * mtu:(k + 1) * mtu]
            data += bytes(len(data) % 2)
            first, last = k == 0, k == count - 1
            wanted = {"priority": case[4], "tt": tt_of(ids), "type": 9, "destination": number(5, 7), "source": number(7, 9), "cos": case[9],
                      "S": first, "E": last, "reserved": 0, "xh": 0, "O": len(data) // 2 % 2, "P": min(mtu, length - k * mtu) % 2,
                      "streamID": number(10, 12), "PDU length": length % 65536}
            kind = "start" if first else "end" if last else "continuation"
            fields += compare(tables[ids][kind], bytes.fromhex(line), wanted, data, f"outside_segments, case {at // CASE + 1}")
            packets += 1
    return packets, fields


SIZES = {9: 8, 10: 16, 11: 32, 12: 64, 13: 128, 14: 256}


def check_message(values, data, answer, where):
    """A message packet, by the places of the table, fits the answer that was printed for it."""
    words = answer.split()
    single, size = values["msglen"] == 0, SIZES.get(values["ssize"])
    last = single or values["msgseg"] == values["msglen"]
    fits = size is not None and (len(data) % 8 == 0 and 8 <= len(data) <= size if last else len(data) == size)
    past = not single and values["msgseg"] > values["msglen"]
    refusal = 20 if size is None else 21 if not fits else 22 if past else None
    if (words[0] == "refused" and int(words[1]) in (20, 21, 22)) != (refusal is not None) or refusal and words != ["refused", str(refusal)]:
        fail(f"{where}: the fields say {refusal}, the answer is {answer}")
    if words[0] == "msg":
        mailbox = 4 * values["msgseg"] + values["mbox"] if single else values["mbox"]
        if list(map(int, words[1:4])) != [values["source"], values["letter"], mailbox] or single and int(words[4]) != len(data):
            fail(f"{where}: the fields do not give {answer}")


STATUS = {"held": 0, "msg": 0, "refused": 7, "refused 25": 3}


def check_response(layouts, packet, answer, response, where):
    """A message, the line printed for it, and the bytes sent back. Answers how many fields it compared."""
    values, data = take_apart(layouts["message"], packet)
    ids = layouts["message"].ids
    check_message(values, data, answer, where)
    fields = compare(layouts["message"], packet, values | {"tt": tt_of(ids), "type": 11, "destination": 1}, data, where)
    wanted = {"priority": min(values["priority"] + 1, 3), "tt": tt_of(ids), "type": 13, "destination": values["source"], "source": 1,
              "transaction": 1, "status": STATUS.get(answer, STATUS[answer.split()[0]]),
              "letter": values["letter"], "mbox": values["mbox"], "msgseg": values["msgseg"]}
    if len(response) != 2 * layouts["response"].head():
        fail(f"{where}: a response of {len(response) // 2} bytes")
    return fields + compare(layouts["response"], bytes.fromhex(response), wanted, None, where)


def check_responses(tables):
    """Messages and their responses, with IDs of 16 bits."""
    log = records((ROOT / "crates/outside_responses/stdin").read_bytes())
    lines = command.text(ROOT / "crates/outside_responses/stdout").splitlines()
    packets = fields = 0
    for n, (packet, answer, response) in enumerate(zip(log, lines[::2], lines[1::2]), 1):
        if response != "none":
            fields += check_response(tables[2], packet, answer, response, f"outside_responses, record {n}")
            packets += 2
    return packets, fields


def check_printed(layouts, packet, answer, where):
    """A packet of a log, right or wrong, by the places of the table: rows 2 to 5 and delivered singles. Answers how many fields it compared."""
    values, _ = take_apart(layouts["continuation"], packet)
    if values["tt"] != tt_of(layouts["continuation"].ids):
        row = "refused 2"
    elif values["destination"] != 1:
        row = "refused 3"
    elif values["type"] not in (9, 11):
        row = "refused 4"
    elif values["type"] == 9 and values["xh"] == 1:
        row = "refused 5"
    else:
        row = None
    if (row or answer) != answer or row is None and answer in ("refused 2", "refused 3", "refused 4", "refused 5"):
        fail(f"{where}: by the table {packet.hex()} is to get {row}, the answer is {answer}")
    if row or values["type"] != 9 or not answer.startswith("pdu"):
        return 4
    kind = "start" if values["S"] else "end"
    values, _ = take_apart(layouts[kind], packet)
    words = list(map(int, answer.split()[1:5]))
    said = [values["source"], values["cos"]] + ([values["streamID"], words[3]] if kind == "start" else [words[2], values["PDU length"] or 65536])
    if values["E"] != 1 or said != words:
        fail(f"{where}: the fields of {packet.hex()} do not give {answer}")
    return 8


def logs_of(crate):
    """The logs of a bundle, each with its number and the lines printed for it."""
    bundle = (ROOT / "crates" / crate / "stdin").read_bytes()
    lines = iter(re.split(r"^log (?=\d+$)", command.text(ROOT / "crates" / crate / "stdout"), flags=re.M)[1:])
    place = number = 0
    while place < len(bundle):
        length = int.from_bytes(bundle[place:place + 4], "big")
        log, place, number = bundle[place + 4:place + 4 + length], place + 4 + length, number + 1
        said = next(lines).splitlines()
        if said[0] != str(length):
            fail(f"{crate}: log {number} has not {length} bytes")
        yield f"{crate}, log {number}", log, said[1:]


def check_logs(tables):
    """Logs with packets right and wrong, and the lines printed for them. Only here tt, type and xh are wrong and reserved bits set."""
    packets = fields = 0
    for where, log, lines in logs_of("outside_logs"):
        for line, packet in zip(lines[:-1], records(log)):  # the last line is the log's end
            if len(packet) >= header(2) + 4:
                fields += check_printed(tables[2], packet, line, where)
                packets += 1
    return packets, fields


def check_narrow(tables):
    """The same with IDs of 8 bits, and the responses."""
    packets = fields = 0
    for where, log, lines in logs_of("outside_narrow"):
        for answer, response, packet in zip(lines[::2], lines[1::2], records(log)):
            if len(packet) >= header(1) + 4:
                fields += check_printed(tables[1], packet, answer, where)
                packets += 1
            if response != "none":
                fields += check_response(tables[1], packet, answer, response, where)
                packets += 1
    return packets, fields


def pictures(tables):
    """Each picture's file, and what belongs into it."""
    for name, layout in tables[IDS[0]].items():
        yield HERE / f"{layout.picture}.svg", picture([tables[ids][name] for ids in IDS])


def check(tables):
    for layouts in tables.values():
        check_tiling(layouts)
    packets = fields = 0
    for part in (check_paper, check_segments, check_responses, check_logs, check_narrow):
        more_packets, more_fields = part(tables)
        packets, fields = packets + more_packets, fields + more_fields
    count = 0
    for stored, wanted in pictures(tables):
        if not stored.exists() or command.text(stored) != wanted:
            fail(f"{stored.name} is not what the table gives; docs/pictures/layouts.py writes it")
        count += 1
    print(f"layouts: {packets:,} packets and {fields:,} fields agree with the table, and {count} pictures")


def main(argv):
    tables = {ids: read_table(ids) for ids in IDS}
    if argv:
        check(tables)
        return
    for stored, wanted in pictures(tables):
        stored.write_text(wanted, encoding="utf-8")
        print(f"wrote {stored.name}")


command.call(__doc__, main, [], ["--check"])
