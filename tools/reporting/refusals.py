"""Every refusal by its number, in the paper's words and in plain ones. docs/REFUSALS.md has this table."""

# number: (the paper's words, what it means for the log's reader). 12 to 19 and 47 speak of other calls and of lent memory.
REFUSALS = {
    1: ("under 5 bytes; under 7 bytes; type 9 with S or E, under 9 bytes", "The packet is too short to have a whole head. With IDs of 8 bits each of these lengths is 2 less. Nothing changed."),
    2: ("tt not 01; with IDs of one byte, not 00", "The device IDs are of another width than the endpoint's. Nothing changed."),
    3: ("destination not ours", "The packet is for another device. Nothing changed."),
    4: ("type not 9 or 11", "Neither data streaming nor a message. Nothing changed."),
    5: ("type 9, xh=1", "An extended header (traffic management), which is not read here. Nothing changed."),
    6: ("type 9: no data, odd bytes of data, or O wrong", "The packet was damaged, or its board makes it wrongly. The flow's unfinished PDU is given up."),
    7: ("start or continuation not MTU data bytes (pad not counted); end or single over MTU", "The packet is damaged, or its board uses another MTU. The flow's unfinished PDU is given up."),
    8: ("continuation or end, flow not open", "Its start was lost or had another priority, or its PDU had been given up before. Nothing changed."),
    9: ("type 9: total would pass R", "The PDU is longer than a room, or an end and a start were lost. The flow's unfinished PDU is given up."),
    10: ("start or single, flow not open, no context free", "Sixteen other flows have unfinished PDUs. This PDU is lost; nothing else changed."),
    11: ("end, total differs from PDU length", "A packet of the PDU was lost, or one came twice. The PDU is given up."),
    12: ("a lent memory of the wrong size, or response buffer under 7", "A fault of the program that calls the endpoint. With IDs of 8 bits 5 bytes of response are enough. Nothing changed."),
    13: ("abandon, after 19, with a number past the last context", "A fault of the program that calls the endpoint. Nothing changed."),
    14: ("L is 0 or over 65,536", "Writing: no PDU can have this length. Nothing was written."),
    15: ("segment number, from 0, not below the count", "Writing: the PDU has no such segment. Nothing was written."),
    16: ("output shorter than the packet", "Writing: the buffer is too small. Nothing was written."),
    17: ("priority over 3", "Writing: there are only four priorities. Nothing was written."),
    18: ("MTU not allowed", "Setup and writing: the MTU is a multiple of 4 from 32 to 256. Setup left a state of zeros; the writer wrote nothing."),
    19: ("a state that is none (setup: R out of range)", "The state in memory was overwritten, or never set up. Nothing changed. (Setup left a state of zeros.)"),
    20: ("ssize reserved", "The segment size is none of the six. Nothing changed; the sender is told ERROR."),
    21: ("message data length breaks the rule", "A segment of the wrong length. Nothing changed; the sender is told ERROR."),
    22: ("msglen over 0, msgseg over msglen", "A segment number past the last. Nothing changed; the sender is told ERROR."),
    23: ("open message has another msglen or ssize", "An older message of this source, letter and mbox is unfinished. Nothing changed; the sender is told ERROR."),
    24: ("segment already marked", "The segment came twice, or an older message is unfinished. Nothing changed; the sender is told ERROR."),
    25: ("context needed, none free", "Eight messages are unfinished. Nothing changed; the sender is told RETRY."),
    47: ("IDs of one byte, and a device ID over 255", "Setup and writing: IDs have 8 bits, and this one does not fit. Setup left a state of zeros; the writer wrote nothing."),
}
OTHER_CALLS = {*range(13, 19), 47}  # no row of reading
NOT_IN_LOGS = OTHER_CALLS | {12, 19}
CLOSE = (6, 7, 9, 11)  # these give the flow's unfinished PDU up


def page():
    """The table of docs/REFUSALS.md."""
    rows = [f"| {number} | {words} | {meaning} |" for number, (words, meaning) in REFUSALS.items()]
    return "\n".join(["| number | given exactly if | what it means |", "|---|---|---|", *rows])
