"""Packets in portions, as RULES has them: at which byte each event of a packet is known, and a row of calls.

event     (byte, line): the line that xrprobe and xrfollow print, and the number of the byte that completes it,
          counted from 1
calls     each with some bytes, in order; a call says its events' lines, then `taken ..` or `refused ..`
"""
from dump import summary_lines
from lists import covers, is_inside, number, values
from readings import (LOST_RUN, RLE, STANDARD, Block, Refusal, be, check_length, first_lost, has_padding, range_of,
                      refuse, summary_of, view_of)


def check_head(packet):
    """The first four bytes: the announced length."""
    said = (be(packet, 2, 2) + 1) * 4
    refuse(said < 8, 1, 8, said)
    refuse(packet[0] >> 6 != 2, 2)
    refuse(packet[1] != 207, 3)
    refuse(has_padding(packet), 18)
    return said


def block_events(block):
    """The events of a block whose first four bytes are good, of which bytes at the packet's end may be missing."""
    packet, at = block.packet, block.at
    upto = min(at + block.length, len(packet))
    start = f"start {block.kind} {block.length}"
    if block.kind in (1, 2, 3):
        if upto < at + 12:
            return
        r, p = range_of(block), 0
        yield at + 12, f"{start} ssrc {r.ssrc} begin {r.begin} end {r.end} thinning {r.thinning}"
        size = 4 if block.kind == 3 else 2
        for here in range(at + 12, upto - size + 1, size):
            value = be(packet, here, size)
            if not is_inside(p, r) or size == 2 and value == LOST_RUN:
                return      # nor is any later position; what is behind such a run is not told
            if block.kind == 3:
                yield here + 4, f"pair {number(p, r)} {value}"
                p += 1
                continue
            for q, one in enumerate(values(value)):
                if one and is_inside(p + q, r):
                    yield here + 2, f"number {number(p + q, r)}"
            p += covers(value)
        return
    yield at + 4, start
    if block.kind == 4 and upto >= at + 12:
        yield at + 12, f"time {be(packet, at + 4, 8)}"
    if block.kind == 5:
        for here in range(at + 4, upto - 11, 12):
            yield here + 12, "entry {} {} {}".format(*(be(packet, here + i, 4) for i in (0, 4, 8)))
    if block.kind == 6 and upto == at + 40:
        yield upto, "summary " + "; ".join(summary_lines(summary_of(block)))


def course(packet):
    """The events of the bytes given, which need not be all; and (byte, refusal) where these show one."""
    events = []
    if len(packet) < 4:
        return events, None
    try:
        stop = check_head(packet)
    except Refusal as refusal:
        return events, (4, refusal.args)
    if len(packet) < 8:
        return events, None
    events.append((8, f"header {stop} {be(packet, 4, 4)}"))
    at = 8
    while at < stop and at + 4 <= len(packet):
        length = (be(packet, at + 2, 2) + 1) * 4
        block = Block(STANDARD, packet, at, length, packet[at], length)
        try:
            refuse(length > stop - at, 6, length, stop - at)
            check_length(block)
        except Refusal as refusal:
            return events, (at + 4, refusal.args)
        events += block_events(block)
        lost = first_lost(view_of(block)) if block.kind in RLE else None
        if lost is not None:        # at its second byte, past the range too
            return events, (at + 12 + 2 * (lost + 1), (7, 12, length))
        at += length
    if at == stop and at <= len(packet):
        events.append((stop, "end"))
    return events, None


class Calls:
    """Calls one after the other on the bytes of a packet, and of what is behind it: how many bytes were taken so far,
    and the refusal that stays."""
    def __init__(self, data):
        self.data, self.taken, self.stays = data, 0, None
        self.events, self.ends = course(data)
        self.next = 0       # the first event that was not told

    def past(self, upto):
        """19, where the header has come and is good."""
        if upto < 4 or (self.ends and self.ends[0] == 4):
            return None
        said = check_head(self.data)
        return (19, said, upto) if upto > said else None

    def call(self, size, room):
        """A call with the next bytes, so many: its events' lines, its refusal or None, and how many were taken."""
        if self.stays:
            return [], self.stays, 0
        upto = self.taken + size
        past = self.past(upto)
        if past:
            return [], past, 0
        last = self.next
        while last < len(self.events) and self.events[last][0] <= upto:
            last += 1
        if last - self.next > room:
            return [], (11, last - self.next, room), 0
        lines = [line for _, line in self.events[self.next:last]]
        self.taken, self.next = upto, last
        if self.ends and self.ends[0] <= upto:
            self.stays = (*self.ends[1], 0, 0)[:3]
        return lines, self.stays, size

    def left(self):
        return len(self.data) - self.taken


def calls(room, sizes, data):
    """For each size a call, and one more where bytes are left: its bytes, its events' lines, its refusal."""
    made = Calls(data)
    for size in sizes:
        given = min(size, made.left())
        lines, refusal, _ = made.call(given, room)
        yield given, lines, refusal
    if made.left():
        given = made.left()
        lines, refusal, _ = made.call(given, room)
        yield given, lines, refusal


def told(room, sizes, data):
    """What xrprobe says of these calls."""
    text = ""
    for given, lines, refusal in calls(room, sizes, data):
        ending = "refused {} {} {}".format(*refusal) if refusal else f"taken {given} events {len(lines)}"
        text += "".join(line + "\n" for line in [*lines, ending])
    return text
