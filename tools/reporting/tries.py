"""Logs whose losses are known beforehand, for the check. Nothing here is computed by the report: packets and answers are written by hand,
or by a small model of a board and a receiver that knows what it loses."""
import collections
import functools
import itertools

MTU = 32
KINDS = {"single": 0xC0, "start": 0x80, "more": 0x00, "end": 0x40}


@functools.lru_cache(maxsize=None)
def packet(kind, number=0, size=MTU, flow=(2, 0, 5), fill=0, flip=0):
    """A type 9 packet for device 1. The number is the streamID or the length; a flow is source, priority and cos; flip changes bits of byte 6."""
    half_words = (size + 1) // 2
    flags = KINDS[kind] | (half_words % 2) << 1 | size % 2
    source, priority, cos = flow
    head = bytes([priority << 6 | 0x19, 0, 1, source >> 8, source & 255, cos, flags ^ flip])
    field = b"" if kind == "more" else bytes([number >> 8 & 255, number & 255])
    return head + field + bytes((fill + 7 * i) % 256 for i in range(size)) + bytes(size % 2)


def log_of(packets):
    """Packets of at most 127 bytes as a log."""
    return b"".join(bytes([len(p)]) + p for p in packets)


def scan(stream, size, flow=(2, 0, 5), first=0, last=None):
    """The packets of a scan, numbered by their fill so that no two are the same; from one to another."""
    count = -(-size // MTU)
    fills = [stream * 37 + k * 11 for k in range(count)]
    if count == 1:
        packets = [packet("single", stream, size, flow, fills[0])]
    else:
        packets = [packet("start", stream, MTU, flow, fills[0])] + [packet("more", 0, MTU, flow, fill) for fill in fills[1:-1]]
        packets.append(packet("end", size, size - MTU * (count - 1), flow, fills[-1]))
    return packets[first:last]


# ---- Written by hand: name, packets, answers, heading, for each lost scan words that its sentence has, words that are nowhere

Case = collections.namedtuple("Case", "name packets answers heading lost others never", defaults=((), ()))

NONE = "No lost scan shows"
GAP = "No lost scan shows, but stream numbers are missing"
TWO = "Each could be a joint"
WAITS = [packet("start", 900 + n, MTU, (100 + n, 0, 1)) for n in range(16)]
URGENT = (2, 1, 5)  # the flow of the others, at another priority
SPLIT = "scans at two priorities"


def in_turn(*flows):
    """One of each, as long as there are any."""
    return [one for turn in itertools.zip_longest(*flows) for one in turn if one is not None]


CASES = [
    Case("nothing", [], "", NONE, [], [], [TWO]),
    Case("the paper's joint", [packet("start", 7), packet("end", 40, 8)], "held, pdu 2 5 7 40", NONE, [], ["1 delivered scan came", TWO]),
    Case("singles", scan(7, 3) + scan(8, 32), "pdu 2 5 7 3, pdu 2 5 8 32", NONE, [], [], [TWO]),
    Case("a start", scan(1, 40) + scan(2, 96, first=1) + scan(3, 40), "held, pdu 2 5 1 40, refused 8, refused 8, held, pdu 2 5 3 40",
         "At least 1 scan was lost", ["Board 2, priority 0, cos 5: a scan between streams 1 and 3 lost its start. 2 packets of it came (records 3 and 4, refused 8). "
                                      "Do not judge this wheel."], [TWO], ["Stream numbers are missing"]),
    Case("a start, and the log begins", scan(2, 96, first=1) + scan(3, 3), "refused 8, refused 8, pdu 2 5 3 3",
         "Perhaps 1 scan was lost", ["a scan before stream 3 lost its start. 2 packets of it came (records 1 and 2, refused 8). Or its start came before "
                                     "the log began."], [], [TWO]),
    Case("two middles", scan(1, 100)[:1] + scan(1, 100)[3:] + scan(2, 3), "held, refused 11 dropped, pdu 2 5 2 3", "At least 1 scan was lost",
         ["stream 1 (before stream 2) lost 2 packets of its middle. 2 packets of it came (records 1 and 2, the last refused 11)."]),
    Case("an end", scan(1, 96, last=2) + scan(2, 3), "held, held, pdu 2 5 2 3 dropped", "At least 1 scan was lost",
         ["stream 1 (before stream 2) lost its end. 2 packets of it came (records 1 and 2). Do not judge this wheel."], [], ["a new"]),
    Case("a start and an end", scan(1, 3) + scan(2, 96, first=1, last=2) + scan(3, 3), "pdu 2 5 1 3, refused 8, pdu 2 5 3 3", "At least 1 scan was lost",
         ["a scan between streams 1 and 3 lost its start and its end. 1 packet of it came (record 2, refused 8)."]),
    Case("a start and a middle", scan(1, 3) + scan(2, 100, first=2) + scan(3, 3), "pdu 2 5 1 3, refused 8, refused 8, pdu 2 5 3 3",
         "At least 1 scan was lost", ["lost its start and 1 packet of its middle. 2 packets"]),
    Case("two starts in a row", scan(1, 3) + scan(2, 40, first=1) + scan(3, 40, first=1) + scan(4, 3),
         "pdu 2 5 1 3, refused 8, refused 8, pdu 2 5 4 3", "At least 2 scans were lost", ["between streams 1 and 4 lost its start", "between streams 1 and 4 lost its start"],
         [], ["Stream numbers are missing"]),
    Case("the start and end of one, the start of the next", scan(1, 3) + scan(2, 96, first=1, last=2) + scan(3, 40, first=1) + scan(4, 3),
         "pdu 2 5 1 3, refused 8, refused 8, pdu 2 5 4 3", "At least 2 scans were lost",
         ["lost its start and its end. 2 packets of it and of the next scan came (records 2 and 3, refused 8)", "lost its start. 2 packets of the scan before and of it"]),
    Case("an end and the next start, sum too large", scan(1, 96, last=2) + scan(2, 96, first=1) + scan(3, 3),
         "held, held, held, refused 11 dropped, pdu 2 5 3 3", "At least 2 scans were lost",
         ["stream 1 (before stream 3) lost its end. 4 packets of it and of the next scan came (records 1 to 4, the last refused 11)",
          "a scan between streams 1 and 3 lost its start"], [], ["came twice,"]),
    Case("a middle that came twice", [*scan(1, 96)[:2], *scan(1, 96)[1:], *scan(2, 3)], "held, held, held, refused 11 dropped, pdu 2 5 2 3",
         "At least 1 scan was lost, and perhaps 1 more", ["stream 1", "Or record 3 is a packet that came twice, and there was no such scan."]),
    Case("a start that came twice", [*scan(1, 40)[:1], *scan(1, 40)], "held, held dropped, pdu 2 5 1 40", "Perhaps 1 scan was lost",
         ["Or record 2 is a packet that came twice, and no scan was lost here."]),
    Case("an end that came twice", [*scan(1, 40), *scan(1, 40)[1:], *scan(2, 3)], "held, pdu 2 5 1 40, refused 8, pdu 2 5 2 3", "Perhaps 1 scan was lost",
         ["Or record 3 is a packet that came twice, and no scan was lost here."]),
    Case("a damaged middle, and its rest", [*scan(1, 128)[:1], packet("more", 0, 28), *scan(1, 128)[2:], *scan(2, 3)],
         "held, refused 7 dropped, refused 8, refused 8, pdu 2 5 2 3", "At least 1 scan was lost",
         ["stream 1 (before stream 2) came with a packet of its middle damaged or made wrongly (record 2, refused 7). 4 packets of it came (records 1 to 4, "
          "refused 7 and 8). Do not judge this wheel. Look at the link"]),
    Case("a damaged start, and its rest", [packet("start", 1, 28), *scan(1, 96, first=1), *scan(2, 3)], "refused 7, refused 8, refused 8, pdu 2 5 2 3",
         "At least 1 scan was lost", ["stream 1 (before stream 2) came with its start damaged"]),
    Case("a middle that reads as a start", [*scan(1, 96)[:1], packet("more", 0, 32, flip=0x80), *scan(1, 96)[2:], *scan(2, 3)],
         "held, refused 6 dropped, refused 8, pdu 2 5 2 3", "At least 1 scan was lost", ["stream 1 (before stream 2) came with a packet damaged or made wrongly (record 2, refused 6)"]),
    Case("a start that reads as a middle", [packet("start", 1, 32, flip=0x80), *scan(1, 96, first=1), *scan(2, 3)],
         "refused 6, refused 8, refused 8, pdu 2 5 2 3", "At least 1 scan was lost", ["a scan before stream 2 came with a packet damaged or made wrongly (record 1, refused 6)"]),
    Case("an end with a wrong length", [*scan(1, 96)[:2], packet("end", 97, 32), *scan(2, 3)], "held, held, refused 11 dropped, pdu 2 5 2 3",
         "At least 1 scan was lost", ["stream 1 (before stream 2) came with an end whose length is wrong (record 3)"]),
    Case("no context is free", WAITS + scan(1, 96) + scan(2, 3), "held, " * 16 + "refused 10, refused 8, refused 8, refused 10",
         "At least 2 scans were lost", ["stream 1 (before stream 2) found no free context (record 17, refused 10). 3 packets of it came",
                                        "stream 2 (behind stream 1) found no free context (record 20, refused 10). 1 packet"], ["16 scans unfinished where the log ends"]),
    Case("longer than a room", scan(1, 2112) + scan(2, 3), "held, " * 64 + "refused 9 dropped, refused 8, pdu 2 5 2 3",
         "At least 1 scan was lost", ["stream 1 (before stream 2) is longer than a room (record 65, refused 9)"]),
    Case("rooms full by an end and a start", scan(1, 2048, last=63) + scan(2, 128, first=1) + scan(3, 3),
         "held, " * 64 + "refused 9 dropped, refused 8, pdu 2 5 3 3", "At least 2 scans were lost", ["stream 1 (before stream 3) lost its end", "a scan between streams 1 and 3 lost its start"]),
    Case("unfinished", scan(1, 3) + scan(2, 96, last=2), "pdu 2 5 1 3, held, held", NONE, [],
         ["1 scan unfinished", "stream 2 (behind stream 1) has no end yet. 2 packets of it came (records 2 and 3)"]),
    Case("a gap behind two packets", scan(1, 40) + scan(2, 40) + scan(4, 40), "held, pdu 2 5 1 40, held, pdu 2 5 2 40, held, pdu 2 5 4 40", GAP, [],
         ["Board 2, priority 0, cos 5: behind stream 2 came 4. If this board counts its scans so, 3 is missing (no packet says so). All packets were lost; or its end "
          "came and was joined to the start of 2, and what was delivered as 2 is two halves: judge that only if"]),
    Case("a gap and a lost start in it", scan(1, 3) + scan(2, 3) + scan(4, 40, first=1) + scan(5, 3), "pdu 2 5 1 3, pdu 2 5 2 3, refused 8, pdu 2 5 5 3",
         "At least 1 scan was lost", ["a scan between streams 2 and 5 lost its start"],
         ["3 to 4 are missing (1 of them among the lost above, 1 without a packet). Do not judge the wheels of 3 to 4."], [TWO]),
    Case("a gap behind a single", scan(1, 3) + scan(2, 3) + scan(4, 3), "pdu 2 5 1 3, pdu 2 5 2 3, pdu 2 5 4 3", GAP, [], ["3 is missing (no packet says so). Do not"], [TWO, "joined"]),
    Case("streams that do not count", scan(9, 3) + scan(4, 3) + scan(6, 3), "pdu 2 5 9 3, pdu 2 5 4 3, pdu 2 5 6 3", NONE, [], [], ["missing scan is", "is missing"]),
    Case("streams that go round", scan(65534, 3) + scan(65535, 3) + scan(0, 3), "pdu 2 5 65534 3, pdu 2 5 65535 3, pdu 2 5 0 3", NONE, [], [], ["is missing"]),
    Case("the paper's example 8, the second at another priority", scan(1, 40, last=1) + scan(2, 40, URGENT), "held, held, pdu 2 5 2 40", NONE, [],
         ["Board 2, priority 0, cos 5: stream 1 has no end yet. 1 packet of it came (record 1)", "3 2 1 5 2 40 2 2 1"], ["PDUs dropped", SPLIT]),
    Case("two priorities, mixed", in_turn(scan(1, 96), scan(2, 96, URGENT)), "held, held, held, held, pdu 2 5 1 96, pdu 2 5 2 96", NONE, [],
         ["2 0 5 3 2 1 96 0 0 2 1 5 3 2 1 96 0 0"], [SPLIT, "is missing"]),
    Case("a start lost at one priority", scan(1, 3) + scan(8, 3, URGENT) + scan(9, 40, URGENT, first=1) + scan(2, 3) + scan(10, 3, URGENT),
         "pdu 2 5 1 3, pdu 2 5 8 3, refused 8, pdu 2 5 2 3, pdu 2 5 10 3", "At least 1 scan was lost",
         ["Board 2, priority 1, cos 5: a scan between streams 8 and 10 lost its start. 1 packet of it came (record 3, refused 8)."], [], [SPLIT]),
    Case("a start and its end at two priorities", scan(1, 40, last=1) + scan(1, 40, URGENT, first=1), "held, refused 8", "Perhaps 1 scan was lost",
         ["Board 2, priority 1, cos 5: a scan lost its start. 1 packet of it came (record 2, refused 8)."],
         [SPLIT, "Board 2, cos 5: at priority 0 a scan began and was not delivered, at priority 1 one came without its start."]),
]


# ---- The model: a board that numbers its scans from 1, a backplane that loses some packets, a receiver

Pattern = collections.namedtuple("Pattern", "sizes lost")


def subsets(count):
    return [frozenset(c) for size in range(count + 1) for c in itertools.combinations(range(count), size)]


def patterns():
    """Every way to lose packets of three scans of up to three packets, of two of up to four, of four of up to two."""
    for many, sizes in ((3, (20, 40, 90)), (2, (20, 40, 90, 128)), (4, (32, 64))):
        for chosen in itertools.product(sizes, repeat=many):
            for lost in itertools.product(*[subsets(-(-size // MTU)) for size in chosen]):
                yield Pattern(chosen, lost)


def pairs():
    """Every way to lose packets of two scans of up to three, and beside it another way."""
    some = [pattern for pattern in patterns() if len(pattern.sizes) == 2 and max(pattern.sizes) < 100]
    return zip(some, some[5:] + some[:5])


Arrived = collections.namedtuple("Arrived", "packet flow stream number count size")


def arriving(flow, stream, size, lost):
    """What arrives of a scan."""
    packets = scan(stream, size, flow)
    return [Arrived(packets[k], flow, stream, k, len(packets), size) for k in range(len(packets)) if k not in lost]


def sent(pattern, flow=(2, 0, 5)):
    """What arrives of a pattern."""
    return [one for i, (size, lost) in enumerate(zip(pattern.sizes, pattern.lost)) for one in arriving(flow, i + 1, size, lost)]


def answered(arrived):
    """Document 01's answers, rows 8 and 11, for up to sixteen flows; the rooms hold all."""
    waiting, lines = {}, []
    for one in arrived:
        whole = f"pdu {one.flow[0]} {one.flow[2]} {{}} {one.size}"
        stream, held = waiting.pop(one.flow, (None, 0))
        if one.number == 0:
            dropped = " dropped" if held else ""
            lines.append((whole.format(one.stream) if one.count == 1 else "held") + dropped)
            if one.count > 1:
                waiting[one.flow] = one.stream, MTU
        elif not held:
            lines.append("refused 8")
        elif one.number < one.count - 1:
            lines.append("held")
            waiting[one.flow] = stream, held + MTU
        else:
            last = one.size - MTU * (one.count - 1)
            lines.append(whole.format(stream) if held + last == one.size else "refused 11 dropped")
    return "".join(line + "\n" for line in lines) + f"end {len(lines)}\n"


def long_log(scans):
    """Three boards send so many scans each, their packets in turn, mostly singles; one scan in fifty or so loses a packet of its beginning,
    middle or end, and no two neighbours do. The log, its output, how many scans are hurt."""
    boards, hurt = [], 0
    for board in (21, 22, 23):
        packets = []
        for stream in range(1, scans + 1):
            size = 4 if stream % 10 != 5 else 70 if stream // 50 % 2 else 40
            lost = {(stream // 50 + board) % -(-size // MTU)} if stream % 50 == 25 else set()
            hurt += bool(lost)
            packets += arriving((board, 0, 1), stream, size, lost)
        boards.append(packets)
    arrived = in_turn(*boards)
    return log_of([one.packet for one in arrived]), answered(arrived), hurt
