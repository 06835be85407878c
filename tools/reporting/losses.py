"""Which scans a log shows to be lost, what came of them, and which delivered ones could be a joint.

A flow sends one scan at a time. So its packets are cut into pieces: one begins with each start or single, and behind each end or single.
All that came of a scan lies in one piece. A piece that was not delivered is at least one lost scan. It is at least two where it has more
packets than the scan of its end can have: the first of the two lost its end, the second its start.

Taken for given: packets are lost or damaged, and none comes twice, late, out of order or from a stranger (docs/THREATS.md, conditions
1 to 3). A scan of which nothing came leaves no piece; only a gap in the stream numbers hints at it. So all counts are 'at least'.
"""
import collections

from reporting.story import MTU, ROOM

BEGINS, ENDS = ("start", "single"), ("end", "single")
DAMAGED = (6, 7)
STREAM_IDS = 65536
MOST_MISSING = 100  # a longer step is no gap of a flow that counts

Packet = collections.namedtuple("Packet", "record kind head answer data")


def number_of(packet):
    """The refusal's number, or None."""
    return packet.answer.numbers[0] if packet.answer.word == "refused" else None


class Piece:
    """Packets of one flow, from a scan's beginning to a scan's end, as far as they came."""

    def __init__(self, packets):
        self.packets = packets
        self.start = packets[0] if packets[0].kind in BEGINS else None
        self.end = packets[-1] if packets[-1].kind in ENDS else None
        self.stream = self.start.head.stream if self.start else None
        self.delivered = packets[-1].answer.word == "pdu"
        self.numbers = sorted({number_of(p) for p in packets} - {None})

    def size(self):
        """How many packets the scan of the end has; None where no end came, or one whose length is wrong."""
        if self.end is None or self.ill():
            return None
        return 1 if self.end.kind == "single" else -(-self.end.head.length // MTU)

    def ill(self):
        """The end says a length that does not go with its own bytes."""
        if self.end is None or self.end.kind == "single" or number_of(self.end) == 7:
            return False
        before = self.end.head.length - self.end.head.data
        return before < MTU or before % MTU != 0

    def headless(self):
        """No start came. A damaged packet in front may have been it."""
        return self.start is None and self.packets[0].kind != "damaged"

    def missing(self):
        """How many packets of one scan did not come; below 0, the piece is of more than one. None where it is not known."""
        return None if self.size() is None else self.size() - len(self.packets)

    def of_two(self):
        return self.missing() is not None and self.missing() < self.headless()

    def damaged(self):
        bad = [p.record for p in self.packets if number_of(p) in DAMAGED]
        return bad + [self.end.record] if self.ill() else bad

    def open_at_end(self):
        """Nothing gave it up: where the log ends, it waits."""
        return self.start is not None and self.end is None and not self.numbers


def packets_of(story):
    """The packets of each flow. What a packet refused 6 was meant to be is not known: its S or E may be what is wrong."""
    flows = collections.defaultdict(list)
    for i, (data, head, answer) in enumerate(zip(story.records, story.heads, story.answers)):
        number = answer.numbers[0] if answer.word == "refused" else None
        if head is not None and head.type == 9 and (number is None or number > 5):
            flows[head.flow].append(Packet(i + 1, "damaged" if number == 6 else head.kind, head, answer, data))
    return flows


def pieces_of(packets):
    pieces, piece = [], []
    for packet in packets:
        if piece and packet.kind in BEGINS:
            pieces.append(Piece(piece))
            piece = []
        piece.append(packet)
        if packet.kind in ENDS:
            pieces.append(Piece(piece))
            piece = []
    return pieces + [Piece(piece)] if piece else pieces


# A scan that was not delivered.
#   stream: None where its start, which says it, did not come; before, after: the streams around it on its flow, or None
#   parts: of start, middle, end: what did not come; middle: how many packets of the middle, as far as it is known
#   cause: lost, damaged, long (for the room), full (no context was free)
#   shared: 'next' or 'before' where its piece is of that scan too
#   shown: the record at which it shows; doubt: why it may not be lost, or not be at all
Lost = collections.namedtuple("Lost", "flow stream before after parts middle cause piece shared shown doubt")

# Stream numbers that no packet had, between two that came.
#   untold: how many of them are not among the lost ones
#   suspect: the scan in front was delivered in several packets, so it could be joined with a missing one
Gap = collections.namedtuple("Gap", "flow before after missing untold suspect shown")


# A board that lost the start of a scan at one priority, behind a scan of the same cos that began at another and was not delivered: it may send
# the packets of a scan at two priorities.
Split = collections.namedtuple("Split", "source cos begun other shown")


def cause_of(piece):
    if piece.damaged():
        return "damaged"
    if 10 in piece.numbers:
        return "full"
    if 9 in piece.numbers and (piece.size() is None or piece.size() > ROOM // MTU):
        return "long"
    return "lost"


def parts_of(piece, last):
    """What one scan lost. Where the log ends, its end may still come."""
    missing = piece.missing()
    middle = 0 if missing is None else max(missing - piece.headless(), 0)
    parts = ["start"] * piece.headless() + ["middle"] * (middle > 0) + ["end"] * (piece.end is None and not last)
    return parts, middle


def came_twice(packets, then):
    """What to say where a packet is the same as the one before it."""
    record = next((p.record for q, p in zip(packets, packets[1:]) if p.data == q.data), None)
    return f"Or record {record} is a packet that came twice, and {then}." if record else ""


def doubt_of(piece, older, newer):
    if older is None and piece.headless():
        return "Or its start came before the log began."
    if piece.headless() and not piece.of_two():
        return came_twice([older.packets[-1], piece.packets[0]], "no scan was lost here")
    if newer is not None and len(piece.packets) == 1 and not piece.numbers:
        return came_twice([piece.packets[0], newer.packets[0]], "no scan was lost here")
    return ""


def shown_by(piece, newer):
    refused = [p for p in piece.packets if number_of(p) is not None]
    return (refused or newer.packets)[0].record


def losses_of(flow, pieces):
    """For each piece the scans that it shows to be lost."""
    streams = [piece.stream for piece in pieces]
    befores, afters = last_known(streams), last_known(streams[::-1])[::-1]
    for i, piece in enumerate(pieces):
        older, newer = pieces[i - 1] if i else None, pieces[i + 1] if i + 1 < len(pieces) else None
        if piece.delivered or newer is None and piece.open_at_end():
            yield []
            continue
        cause, shown, doubt = cause_of(piece), shown_by(piece, newer), doubt_of(piece, older, newer)
        if not piece.of_two():
            parts, middle = parts_of(piece, newer is None)
            yield [Lost(flow, piece.stream, befores[i], afters[i], parts, middle, cause, piece, "", shown, doubt)]
            continue
        known = befores[i] if piece.stream is None else piece.stream
        yield [Lost(flow, piece.stream, befores[i], afters[i], ["start"] * piece.headless() + ["end"], 0, cause, piece, "next", shown, doubt),
               Lost(flow, None, known, afters[i], ["start"], 0, "damaged" if cause == "damaged" else "lost", piece, "before", shown,
                    came_twice(piece.packets, "there was no such scan"))]


def last_known(streams):
    """For each place the last known stream in front of it."""
    known, out = None, []
    for stream in streams:
        out.append(known)
        known = known if stream is None else stream
    return out


def steps_of(pieces, losses):
    """From each stream to the next: the two pieces, how many numbers lie between, and how many of those are lost scans without a name."""
    old, nameless = None, 0
    for piece, lost in zip(pieces, losses):
        if piece.stream is not None:
            if old is not None:
                yield old, piece, (piece.stream - old.stream - 1) % STREAM_IDS, nameless
            old, nameless = piece, 0
        nameless += sum(one.stream is None for one in lost)


def gaps_of(flow, pieces, losses):
    """The numbers that did not come, where the flow counts its streams by one: at least half of its steps say so."""
    steps = list(steps_of(pieces, losses))
    fitting = sum(between == nameless for _, _, between, nameless in steps)
    if fitting == 0 or fitting < len(steps) - fitting:
        return
    for old, new, between, nameless in steps:
        if nameless < between < MOST_MISSING:
            missing = [(old.stream + 1 + k) % STREAM_IDS for k in range(between)]
            yield Gap(flow, old.stream, new.stream, missing, between - nameless, old.delivered and len(old.packets) > 1, new.packets[0].record)


def splits_of(lost, waiting):
    """One for each source and cos, at the first record that shows it."""
    begun, found = {}, {}
    for flow, piece in [(one.flow, one.piece) for one in lost] + [(flow, piece) for flow, _, piece in waiting]:
        if piece.start is not None:
            begun[flow] = min(piece.start.record, begun.get(flow, piece.start.record))
    for one in lost:
        source, priority, cos = one.flow
        first = one.piece.packets[0].record
        others = [p for p in range(4) if p != priority and begun.get((source, p, cos), first) < first]
        if one.piece.headless() and others:
            found.setdefault((source, cos), Split(source, cos, others[0], priority, first))
    return sorted(found.values(), key=lambda split: split.shown)


class Losses:
    """What a story shows of losses."""

    def __init__(self, story):
        self.lost, self.gaps, self.waiting = [], [], []
        for flow, packets in packets_of(story).items():
            pieces = pieces_of(packets)
            losses = list(losses_of(flow, pieces))
            self.lost += [lost for some in losses for lost in some]
            self.gaps += gaps_of(flow, pieces, losses)
            if pieces[-1].open_at_end():
                self.waiting.append((flow, last_known([p.stream for p in pieces])[-1], pieces[-1]))
        self.lost.sort(key=lambda lost: lost.shown)
        self.gaps.sort(key=lambda gap: gap.shown)
        self.waiting.sort(key=lambda waiting: waiting[2].packets[0].record)
        self.splits = splits_of(self.lost, self.waiting)
        self.sure = sum(not lost.doubt for lost in self.lost)
        self.unread = sum(a.word == "refused" and a.numbers[0] <= 5 for a in story.answers)
        self.joinable = sum(len(s.records) > 1 for s in story.pdus("delivered"))
        self.mixable = sum(len(s.records) > 1 for s in story.messages("delivered"))
        self.mixed = sum(a.word == "refused" and a.numbers[0] in (23, 24) for a in story.answers)
