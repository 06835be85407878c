"""A log and racklog's answers to it, followed record by record.

What a packet is answered comes from racklog. This only reads the packets' heads and follows, by the rules of document 01, which context
each answer speaks of (a new PDU takes the lowest free one). Where an answer cannot be, it stops and says so. A flow is a source, a priority
and a cos; racklog prints no priority, so it is that of the packets' heads.
"""
import collections

from reporting.refusals import CLOSE, NOT_IN_LOGS, REFUSALS

MTU, ROOM = 32, 2048  # the log program's
STREAMS, MESSAGES = 16, 8  # contexts
LARGEST_LOG = 65536


class Unfit(Exception):
    """The output cannot be that of the log."""


# ---- Reading the log and the output

def records_of(log):
    """The records, and whether the log ends cleanly."""
    records, place = [], 0
    if len(log) > LARGEST_LOG:
        return [], False
    while place < len(log):
        length, more = log[place] & 127, log[place] & 128
        place += 1
        if more:
            if place == len(log) or log[place] == 0 or log[place] & 128:
                return records, False
            length |= log[place] << 7
            place += 1
        if place + length > len(log):
            return records, False
        records.append(log[place:place + length])
        place += length
    return records, True


Head = collections.namedtuple("Head", "type priority source flow kind stream length data key msglen")


def head_of(packet):
    """What the head of a packet says; None where it is too short to say it."""
    if len(packet) < 7:
        return None
    kind9, source = packet[0] % 16 == 9, packet[3] * 256 + packet[4]
    flags = packet[6]
    s, e, third = flags >> 7, flags >> 6 & 1, packet[7] * 256 + packet[8] if len(packet) >= 9 else None
    kind = ("single" if e else "start") if s else ("end" if e else "continuation")
    data = len(packet) - (9 if kind9 and (s or e) else 7) - (kind9 and flags & 1)
    return Head(type=packet[0] % 16, priority=packet[0] >> 6, source=source, flow=(source, packet[0] >> 6, packet[5]),
                kind=kind if kind9 else "message", stream=third, length=third or 65536, data=max(data, 0),
                key=(source, flags >> 6, flags >> 4 & 3), msglen=packet[5] >> 4)


Answer = collections.namedtuple("Answer", "word numbers dropped line")


def answer_of(line):
    words = line.split(" ")
    dropped = len(words) > 1 and words[-1] == "dropped"
    numbers = words[1:len(words) - dropped]
    wanted = {"held": 0, "pdu": 4, "msg": 4, "refused": 1}.get(words[0])
    if wanted != len(numbers) or not all(n.isdigit() for n in numbers):
        raise Unfit(f"this is no line of racklog: {line!r}")
    return Answer(words[0], tuple(map(int, numbers)), dropped, line)


def answers_of(output, records, clean):
    lines = output.splitlines()
    last = lines[-1] if lines else ""
    if last != (f"end {len(records)}" if clean else "bad log"):
        raise Unfit(f"the log has {len(records)} records and {'ends cleanly' if clean else 'is bad'}; the output ends with {last!r}")
    if len(lines) - 1 != len(records):
        raise Unfit(f"{len(records)} records, and {len(lines) - 1} lines for them")
    return [answer_of(line) for line in lines[:-1]]


# ---- Following the contexts

class Span:
    """A context in use, from one record to another. Replaced: the flow's next start or single took the context."""

    def __init__(self, kind, context, key, first, stream=None):
        self.kind, self.context, self.key, self.stream = kind, context, key, stream
        self.first = self.last = first
        self.records, self.bytes, self.fate, self.replaced = [], 0, "unfinished", False

    def take(self, record, count):
        self.records.append(record)
        self.last, self.bytes = record, self.bytes + count

    def close(self, record, fate, replaced):
        self.last, self.fate, self.replaced = record, fate, replaced


class Story:
    """A log and its answers, record by record; records count from 1."""

    def __init__(self, log, output):
        self.size = len(log)
        self.records, self.clean = records_of(log)
        self.answers = answers_of(output, self.records, self.clean)
        self.heads = [head_of(p) for p in self.records]
        self.spans, self.open = [], {"pdu": {}, "msg": {}}
        for i, (head, answer) in enumerate(zip(self.heads, self.answers)):
            try:
                self.follow(i + 1, head, answer)
            except Unfit as unfit:
                raise Unfit(f"record {i + 1}, {answer.line!r}: {unfit}") from None

    def begin(self, kind, key, record, stream=None, context=None):
        if context is None:
            used = {span.context for span in self.open[kind].values()}
            free = [n for n in range(STREAMS if kind == "pdu" else MESSAGES) if n not in used]
            if not free:
                raise Unfit("no context is free")
            context = free[0]
        span = Span(kind, context, key, record, stream)
        self.spans.append(span)
        self.open[kind][key] = span
        return span

    def finish(self, kind, key, record, fate, replaced=False):
        span = self.open[kind].pop(key, None)
        if span is None:
            raise Unfit("nothing was open")
        span.close(record, fate, replaced)

    def follow(self, record, head, answer):
        if answer.word == "refused":
            self.refuse(record, head, answer)
        elif head is None or head.type not in (9, 11):
            raise Unfit("a packet like this is never accepted")
        elif head.type == 9:
            self.stream(record, head, answer)
        else:
            self.message(record, head, answer)

    def refuse(self, record, head, answer):
        number = answer.numbers[0]
        if number not in REFUSALS or number in NOT_IN_LOGS:
            raise Unfit("a log cannot give this number")
        if number <= 5:
            wanted = False
        elif head is None or head.type != (9 if number < 20 else 11):
            raise Unfit("a packet like this never gets this number")
        else:
            wanted = number in CLOSE and head.flow in self.open["pdu"]
            full = len(self.open["pdu"]) == STREAMS if number == 10 else len(self.open["msg"]) == MESSAGES
            if number in (10, 25) and not full or number in (8, 10) and head.flow in self.open["pdu"]:
                raise Unfit("the contexts do not fit")
        if answer.dropped != wanted:
            raise Unfit("dropped, and nothing was open" if answer.dropped else "an open PDU was given up, and the answer does not say dropped")
        if wanted:
            self.finish("pdu", head.flow, record, "dropped")

    def stream(self, record, head, answer):
        begins, ends = head.kind in ("start", "single"), head.kind in ("end", "single")
        older = self.open["pdu"].get(head.flow)
        if (answer.word == "pdu") != ends or answer.word == "msg":
            raise Unfit(f"the packet is a {head.kind}")
        if answer.dropped != (begins and older is not None):
            raise Unfit("dropped, and nothing was open" if answer.dropped else "an open PDU was given up, and the answer does not say dropped")
        if begins:
            if older:
                self.finish("pdu", head.flow, record, "dropped", replaced=True)
            span = self.begin("pdu", head.flow, record, head.stream, older.context if older else None)
        elif older is None:
            raise Unfit("the flow was not open")
        else:
            span = older
        span.take(record, head.data)
        if ends:
            source, _, cos = head.flow
            if answer.numbers != (source, cos, span.stream, span.bytes):
                raise Unfit(f"the packets give source {source}, cos {cos}, stream {span.stream}, {span.bytes} bytes")
            self.finish("pdu", head.flow, record, "delivered")

    def message(self, record, head, answer):
        if answer.dropped or answer.word == "pdu":
            raise Unfit("the packet is a message")
        single = head.msglen == 0
        key = (*head.key, "only") if single else head.key
        span = self.open["msg"].get(key) or self.begin("msg", key, record)
        span.take(record, head.data)
        if (answer.word == "msg") != (len(span.records) == head.msglen + 1):
            raise Unfit(f"{len(span.records)} of {head.msglen + 1} segments have come")
        if answer.word == "msg":
            if answer.numbers[:2] != head.key[:2] or answer.numbers[3] != span.bytes:
                raise Unfit(f"the packets give source {head.key[0]}, letter {head.key[1]}, {span.bytes} bytes")
            span.stream = answer.numbers[2]
            self.finish("msg", key, record, "delivered")

    # ---- What the tables show

    def count(self, word):
        return sum(a.word == word for a in self.answers)

    def dropped(self):
        return sum(a.dropped for a in self.answers)

    def refusals(self):
        return collections.Counter(a.numbers[0] for a in self.answers if a.word == "refused")

    def pdus(self, fate):
        return sorted((s for s in self.spans if s.kind == "pdu" and s.fate == fate), key=lambda s: s.last)

    def messages(self, fate):
        return sorted((s for s in self.spans if s.kind == "msg" and s.fate == fate), key=lambda s: s.last)

    def judged(self):
        """Records of type 9 and 11 that rows 1 to 5 let pass, with their heads."""
        for head, answer in zip(self.heads, self.answers):
            if not (answer.word == "refused" and answer.numbers[0] <= 5):
                yield head, answer

    def flows(self):
        """For each flow: packets, held, whole PDUs, bytes in them, drops, refused packets."""
        table = collections.defaultdict(lambda: [0] * 6)
        for head, answer in self.judged():
            if head.type == 9:
                row = table[head.flow]
                for column, value in enumerate((1, answer.word == "held", answer.word == "pdu",
                                                answer.numbers[3] if answer.word == "pdu" else 0, answer.dropped, answer.word == "refused")):
                    row[column] += value
        return sorted(table.items())

    def boxes(self):
        """For each source, letter and mbox: segments, whole messages, refused segments."""
        table = collections.defaultdict(lambda: [0] * 3)
        for head, answer in self.judged():
            if head.type == 11:
                for column, value in enumerate((1, answer.word == "msg", answer.word == "refused")):
                    table[head.key][column] += value
        return sorted(table.items())
