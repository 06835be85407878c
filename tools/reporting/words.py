"""The sentences and tables that the text and the page share."""
import collections

from reporting.refusals import REFUSALS
from reporting.story import LARGEST_LOG

# What stands on top: a heading, a sentence or more, and sentences that are counted from a number on (or not: 0). Loud: something is lost.
Block = collections.namedtuple("Block", "name heading text items loud")
# A sentence about one scan, and the record at which it shows.
Item = collections.namedtuple("Item", "text record")
# A table: an anchor, a heading, a sentence, the columns' names, rows.
Table = collections.namedtuple("Table", "name heading text columns rows")

MANY = 12

NOT_JUDGED = "Do not judge this wheel."
ADVICE = {
    "lost": NOT_JUDGED,
    "damaged": f"{NOT_JUDGED} Look at the link and at the board's MTU (conditions 1 and 7).",
    "long": f"{NOT_JUDGED} Let the board send shorter scans (condition 7).",
    "full": f"{NOT_JUDGED} Abandon contexts that stay open (conditions 4 and 8).",
}


def plural(count, word):
    return f"{count:,} {word}{'' if count == 1 else 's'}"


def listed(words):
    """'a', 'a and b', 'a, b and c'."""
    words = list(map(str, words))
    return " and ".join([", ".join(words[:-1]), words[-1]] if len(words) > 1 else words)


def flow_words(key):
    return f"source {key[0]}, priority {key[1]}, cos {key[2]}"


def board_words(flow):
    """A flow, as those know it who judge wheels."""
    return f"board {flow[0]}, priority {flow[1]}, cos {flow[2]}"


def box_words(key):
    return f"source {key[0]}, letter {key[1]}, mbox {key[2]}"


def kind_words(head, packet):
    if head is None:
        return f"{len(packet)} bytes"
    return {9: head.kind, 11: "message segment"}.get(head.type, f"type {head.type}")


def records_words(records):
    if len(records) == 1:
        return f"record {records[0]}"
    if len(records) == 2:
        return f"records {records[0]} and {records[1]}"
    return f"records {records[0]} to {records[-1]}"


# ---- A lost scan in words

def between_words(before, after):
    if before is not None and after is not None:
        return f"between streams {before} and {after}"
    if after is not None:
        return f"before stream {after}"
    return f"behind stream {before}" if before is not None else ""


def scan_words(lost):
    where = between_words(lost.before, lost.after)
    board = f"{board_words(lost.flow).capitalize()}: "
    if lost.stream is None:
        return board + f"a scan {where}".strip()
    return board + f"stream {lost.stream}" + (f" ({where})" if where else "")


def part_words(lost):
    names = {"start": "its start", "middle": f"{plural(lost.middle, 'packet')} of its middle", "end": "its end"}
    return listed(names[part] for part in lost.parts)


def refused_words(lost, *numbers):
    """Which records were refused so, and how."""
    these = [p for p in lost.piece.packets if p.answer.word == "refused" and p.answer.numbers[0] in numbers]
    found = sorted({p.answer.numbers[0] for p in these})
    return f"{records_words([p.record for p in these])}, refused {listed(found)}"


def damage_words(lost):
    if lost.piece.ill():
        return f"came with an end whose length is wrong (record {lost.piece.end.record})"
    names = {"start": "its start", "continuation": "a packet of its middle", "end": "its end", "single": "its only packet", "damaged": "a packet"}
    kinds = [p.kind for p in lost.piece.packets if p.answer.word == "refused" and p.answer.numbers[0] in (6, 7)]
    what = names[kinds[0]] if len(kinds) == 1 and not lost.shared else "packets"
    return f"came with {what} damaged or made wrongly ({refused_words(lost, 6, 7)})"


def fate_words(lost):
    if lost.cause == "damaged":
        return damage_words(lost)
    if lost.cause == "full":
        return f"found no free context ({refused_words(lost, 10)})"
    if lost.cause == "long":
        or_end = " or lost its end" if lost.piece.end is None else ""
        return f"is longer than a room{or_end} ({refused_words(lost, 9)})"
    return f"lost {part_words(lost)}"


def came_words(lost):
    """What came of it."""
    packets = lost.piece.packets
    whose = {"": "of it", "next": "of it and of the next scan", "before": "of the scan before and of it"}[lost.shared]
    numbers = lost.piece.numbers
    last = f", the last refused {numbers[0]}" if numbers in ([9], [11]) else f", refused {listed(numbers)}" if numbers else ""
    return f"{plural(len(packets), 'packet')} {whose} came ({records_words([p.record for p in packets])}{last})."


def lost_item(lost):
    words = [f"{scan_words(lost)} {fate_words(lost)}.", came_words(lost), lost.doubt, ADVICE[lost.cause]]
    return Item(" ".join(word for word in words if word), lost.shown)


def gap_item(gap):
    one = len(gap.missing) == 1
    numbers = f"{gap.missing[0]}" if one else f"{gap.missing[0]} to {gap.missing[-1]}"
    told = len(gap.missing) - gap.untold
    came = f"{told} of them among the lost above, {gap.untold} without a packet" if told else "no packet says so"
    joined = (f"All packets were lost; or {'its end' if one else 'the end of one'} came and was joined to the start of {gap.before}, and what was "
              f"delivered as {gap.before} is two halves: judge that only if the scan numbers in its first and last byte agree.") if gap.suspect else ""
    words = [f"{board_words(gap.flow).capitalize()}: behind stream {gap.before} came {gap.after}. If this board counts its scans so, {numbers} "
             f"{'is' if one else 'are'} missing ({came}).", joined, f"Do not judge the {'wheel' if one else 'wheels'} of {numbers}."]
    return Item(" ".join(word for word in words if word), gap.shown)


def waiting_item(flow, before, piece):
    behind = f" (behind stream {before})" if before is not None else ""
    records = records_words([p.record for p in piece.packets])
    return Item(f"{board_words(flow).capitalize()}: stream {piece.stream}{behind} has no end yet. {plural(len(piece.packets), 'packet')} of it came "
                f"({records}). Do not judge this wheel, unless its rest comes in a later log.", piece.packets[-1].record)


def split_item(split):
    return Item(f"Board {split.source}, cos {split.cos}: at priority {split.begun} a scan began and was not delivered, at priority {split.other} one came "
                "without its start. If these are one scan, the board sends its packets at two priorities, and none can be delivered so.", split.shown)


# ---- What stands on top

def heading(losses):
    perhaps = len(losses.lost) - losses.sure
    if losses.sure and perhaps:
        return f"At least {plural(losses.sure, 'scan')} {'was' if losses.sure == 1 else 'were'} lost, and perhaps {perhaps:,} more"
    if losses.sure:
        return f"At least {plural(losses.sure, 'scan')} {'was' if losses.sure == 1 else 'were'} lost"
    return f"Perhaps {plural(perhaps, 'scan')} {'was' if perhaps == 1 else 'were'} lost"


def lost_block(losses):
    if not losses.lost:
        return Block("lost", "No lost scan shows" + ", but stream numbers are missing" * bool(losses.gaps), "A scan of which every packet was lost "
                     "leaves no trace: a gap in the scan numbers is a missing scan (docs/THREATS.md, condition 9).", [], bool(losses.gaps))
    text = ("A wheel without a delivered and checked scan is not judged (docs/THREATS.md, condition 9). This is the least that explains the log: a scan of "
            "which every packet was lost leaves no trace, and no packet is taken to have come twice, late, out of order or from a stranger.")
    return Block("lost", heading(losses), text + by_board(losses.lost), [lost_item(lost) for lost in losses.lost], True)


def by_board(lost):
    """How many of each flow, where the list is long; the most first."""
    if len(lost) <= MANY:
        return ""
    flows = collections.Counter(one.flow for one in lost).most_common()
    words = [f"{count:,} of {board_words(flow)}" for flow, count in flows[:MANY]]
    return f" By board: {'; '.join(words + ['and others'] * (len(flows) > MANY))}."


def joint_block(losses):
    text = (f"{plural(losses.joinable, 'delivered scan')} came in two packets or more. Each could be a joint: where a scan loses its end and the next "
            "one its start, the two halves can be delivered as one scan that nobody sent, and no log can show it. Before you judge one, see that the "
            "scan numbers in its first and in its last byte agree (docs/JOINT.md; docs/THREATS.md, condition 5).")
    return Block("joint", "The joint: a delivered scan can be two halves", text, [], True)


def message_block(losses):
    signs = f" {plural(losses.mixed, 'segment')} refused 23 or 24 {'is' if losses.mixed == 1 else 'are'} a sign of it." if losses.mixed else ""
    text = (f"{plural(losses.mixable, 'delivered message')} came in several segments. One lost segment is enough to mix two messages.{signs} "
            "Check their numbers and sums (docs/THREATS.md, condition 11).")
    return Block("mixed", "Messages can be mixed", text, [], False)


def top(losses):
    """The blocks on top of a report, the worst first."""
    yield lost_block(losses)
    if losses.gaps:
        yield Block("missing", "Stream numbers are missing", "Nothing else shows these. A gap is a missing scan (condition 9).",
                    [gap_item(gap) for gap in losses.gaps], True)
    if losses.splits:
        yield Block("priorities", "Perhaps scans at two priorities", "All packets of a scan must have one priority (docs/THREATS.md, condition 3).",
                    [split_item(split) for split in losses.splits], True)
    if losses.joinable:
        yield joint_block(losses)
    if losses.waiting:
        yield Block("waiting", f"{plural(len(losses.waiting), 'scan')} unfinished where the log ends", "", [waiting_item(*w) for w in losses.waiting], False)
    if losses.unread:
        text = (f"{plural(losses.unread, 'packet')} {'was' if losses.unread == 1 else 'were'} refused 1 to 5: for another device, or damaged. If one was "
                "a scan's only packet, that scan is lost too, and nothing else shows it.")
        yield Block("unread", "Packets that belong to no board's flow", text, [], False)
    if losses.mixable:
        yield message_block(losses)


# ---- Counts and tables

def ending(story):
    if story.clean:
        return f"The log has {plural(story.size, 'byte')} and ends cleanly."
    if story.size > LARGEST_LOG:
        return f"BAD LOG: {story.size:,} bytes are more than the {LARGEST_LOG:,} that are read. Nothing was read."
    return f"BAD LOG: behind record {len(story.records)} a length is wrong or a record is cut. What follows was not read."


SETUP = "Our device is 1, the MTU 32, a room 2,048 bytes."


def counts(story):
    """What there is of each, without what there is none of."""
    rows = [("records", len(story.records)), ("PDUs delivered", story.count("pdu")), ("messages delivered", story.count("msg")),
            ("packets held", story.count("held")), ("packets refused", story.count("refused")), ("PDUs dropped", story.dropped()),
            ("PDUs unfinished at the end", len(story.pdus("unfinished"))), ("messages unfinished at the end", len(story.messages("unfinished")))]
    return [row for row in rows if row[1] or row[0] == "records"]


def refused_rows(story):
    for i, (packet, head, answer) in enumerate(zip(story.records, story.heads, story.answers)):
        if answer.word == "refused":
            number = answer.numbers[0]
            sender = flow_words(head.flow) if head and head.type == 9 else box_words(head.key) if head and head.type == 11 else "–"
            yield i + 1, len(packet), kind_words(head, packet), sender, f"{number}{' dropped' if answer.dropped else ''}", REFUSALS[number][0]


def lost_rows(losses):
    for i, lost in enumerate(losses.lost):
        packets = lost.piece.packets
        dash = lambda value: "–" if value is None else value
        what = {"lost": part_words(lost), "damaged": "damaged", "long": "too long", "full": "no context"}[lost.cause]
        yield (i + 1, lost.shown, *lost.flow, dash(lost.stream), dash(lost.before), dash(lost.after), what, len(packets), packets[0].record,
               listed(lost.piece.numbers) or "–")


def tables(story, losses):
    """In the order of the report; those without rows too."""
    yield Table("flows", "Flows", "A flow is a source (a board), a priority and a cos. Packets refused 1 to 5 belong to none.",
                ("source", "priority", "cos", "packets", "held", "whole PDUs", "bytes in them", "dropped", "refused"),
                [(*key, *row) for key, row in story.flows()])
    yield Table("lost-scans", "Scans lost", "The numbers are those on top. A dash: not known.",
                ("no.", "shows at record", "source", "priority", "cos", "stream", "behind", "before", "lost", "packets that came", "first record", "refused"),
                list(lost_rows(losses)))
    yield Table("refusals", "Refusals", "Those that occurred; docs/REFUSALS.md has all.", ("number", "times", "given exactly if", "what it means"),
                [(number, times, *REFUSALS[number]) for number, times in sorted(story.refusals().items())])
    yield Table("packets-refused", "Packets refused", "Where the head can be read, what it says.", ("record", "bytes", "packet", "from", "refused", "because"),
                list(refused_rows(story)))
    yield Table("pdus", "PDUs delivered", "In the order of their last packets.",
                ("record", "source", "priority", "cos", "stream", "bytes", "packets", "first record", "context"),
                [(s.last, *s.key, s.stream, s.bytes, len(s.records), s.first, s.context) for s in story.pdus("delivered")])
    yield Table("given-up", "PDUs given up or unfinished", "What their contexts held.",
                ("record", "source", "priority", "cos", "stream", "bytes so far", "packets", "first record", "context", "why"), list(given_up_rows(story)))
    yield Table("messages", "Messages delivered", "", ("record", "source", "letter", "mailbox", "bytes", "segments", "first record", "context"),
                [(s.last, s.key[0], s.key[1], s.stream, s.bytes, len(s.records), s.first, s.context) for s in story.messages("delivered")])
    yield Table("boxes", "Message boxes", "A message of several segments is known by source, letter and mbox.",
                ("source", "letter", "mbox", "segments", "whole messages", "refused"), [(*key, *row) for key, row in story.boxes()])
    yield Table("messages-unfinished", "Messages unfinished", "Their contexts stay taken until they are abandoned.",
                ("last record", "source", "letter", "mbox", "bytes so far", "segments", "first record", "context"),
                [(s.last, *s.key[:3], s.bytes, len(s.records), s.first, s.context) for s in story.messages("unfinished")])


def given_up_rows(story):
    for span in sorted(story.pdus("dropped") + story.pdus("unfinished"), key=lambda s: s.last):
        if span.fate == "unfinished":
            why = "the log ends"
        else:
            why = "its end was lost" if span.replaced else story.answers[span.last - 1].line.replace(" dropped", "")
        yield span.last, *span.key, span.stream, span.bytes, len(span.records), span.first, span.context, why
