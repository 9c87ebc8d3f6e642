"""Both readings of a packet, written to RULES and the decided open points.

packet   bytes; a reading is STANDARD or CRATE
block    a Block: where it starts, its length L, and what is left to the packet's end
range    a Range: SSRC, begin, end, thinning T
summary  a Summary: SSRC, begin, end, lost, duplicates, four numbers of jitter, ToH, four of TTL or hop limit; None is
         a number, or four of them, that is absent

This file has the packet, the walk, and a block's view, fields, time and summary; lists.py has the rest.
A function marked @question gives its answer, or ("refused", number, value, value). Its checks stand
in RULES' order: 1-6, 9, 10, 7, 8, 16, 11.
"""
from collections import namedtuple
from functools import wraps

STANDARD, CRATE = 0, 1
RLE, RANGED = (1, 2), (1, 2, 3)     # types that are asked for numbers and words, for fields
LOST_RUN = 16384                    # the chunk word of a run of ones of no length

Block = namedtuple("Block", "reading packet at length kind left")
Range = namedtuple("Range", "ssrc begin end thinning")
Summary = namedtuple("Summary", "ssrc begin end lost duplicates jitter toh hops")
# The sizes in bytes of a summary's numbers, in order.
SUMMARY_SIZES = (4, 2, 2, 4, 4, 4, 4, 4, 4, 1, 1, 1, 1)


class Refusal(Exception):
    """Carries RULES' number and two values."""


def refuse(when, number, first=0, second=0):
    if when:
        raise Refusal(number, first, second)


def question(function):
    @wraps(function)
    def ask(*args):
        try:
            return function(*args)
        except Refusal as refusal:
            return ("refused", *refusal.args)
    return ask


def is_refused(answer):
    return isinstance(answer, tuple) and answer[:1] == ("refused",)


def be(data, at, size):
    return int.from_bytes(data[at:at + size], "big")


# Packet and walk (refusals 1-6)

def check_header(packet, reading):
    least = 12 if reading == CRATE else 8
    refuse(len(packet) < least, 1, least, len(packet))
    refuse(packet[0] >> 6 != 2, 2)
    refuse(packet[1] != 207, 3)
    said = (be(packet, 2, 2) + 1) * 4
    refuse(len(packet) != said, 4, said, len(packet))
    n = packet[-1]
    bad = n == 0 or n % 4 != 0 or n > len(packet) - 8
    refuse(has_padding(packet) and bad, 5, n, 0)


def has_padding(packet):
    return packet[0] & 32 != 0


def walk(packet, reading):
    """All blocks of the packet."""
    check_header(packet, reading)
    end = len(packet)
    if reading == STANDARD and has_padding(packet):
        end -= packet[-1]
    at, blocks = 8, []
    while at < end:
        length = (be(packet, at + 2, 2) + 1) * 4
        refuse(length > end - at, 6, length, end - at)
        blocks.append(Block(reading, packet, at, length, packet[at], len(packet) - at))
        at += length
    return blocks


@question
def whole(packet, reading):
    """How many blocks, and the sender's SSRC."""
    return len(walk(packet, reading)), be(packet, 4, 4)


# One block (refusals 9, 10, 7, 8)

def find(packet, reading, index):
    blocks = walk(packet, reading)
    refuse(index >= len(blocks), 9, len(blocks), 0)
    return blocks[index]


def find_as(packet, reading, index, kind, served):
    """The block as one of the asked type, which the question serves, and fit to be read."""
    block = find(packet, reading, index)
    refuse(block.kind != kind or kind not in served, 10, block.kind, 0)
    check_fit(block)
    return block


def check_fit(block):
    """The block's length rule; in the standard then its words: no run of ones of no length, wherever it stands."""
    check_length(block)
    if block.reading == STANDARD and block.kind in RLE:
        refuse(first_lost(view_of(block)) is not None, 7, 12, block.length)


def first_lost(view):
    """The index of the first chunk word that is a run of ones of no length, or None; of a block's bytes, or so many
    of them as have come."""
    words = zip(view[12::2], view[13::2])
    return next((i for i, word in enumerate(words) if word == divmod(LOST_RUN, 256)), None)


def check_length(block):
    kind, length, left = block.kind, block.length, block.left
    if block.reading == STANDARD:
        refuse(kind in (1, 2, 3) and length < 12, 7, 12, length)
        refuse(kind == 4 and length != 12, 7, 12, length)
        refuse(kind == 5 and (length - 4) % 12 != 0, 7, length + (4 - length) % 12, length)
        refuse(kind == 6 and length != 40, 7, 40, length)
    else:
        refuse(kind in (1, 2) and length < 12, 7, 12, length)
        refuse(kind == 4 and left < 12, 7, 12, left)
        refuse(kind == 5 and left < 16, 7, 16, left)
        refuse(kind == 5 and length % 16 != 0, 7, length + length % 16, left)


def view_of(block):
    """L bytes for the standard, everything left for the crate."""
    size = block.length if block.reading == STANDARD else block.left
    return block.packet[block.at:block.at + size]


def range_of(block):
    view = view_of(block)
    return Range(be(view, 4, 4), be(view, 8, 2), be(view, 10, 2), view[1] & 15)


@question
def view(packet, reading, index):
    """Offset, length, and the four header bytes."""
    block = find(packet, reading, index)
    seen = view_of(block)
    return block.at, len(seen), seen[:4]


@question
def fields(packet, reading, index, kind):
    """Types 1-3: the range, as one record."""
    return fields_of(find_as(packet, reading, index, kind, RANGED))


def fields_of(block):
    refuse(block.reading == CRATE and block.kind == 3 and block.left < 12, 8, 12, block.left)
    return range_of(block)


@question
def time(packet, reading, index):
    return time_of(find_as(packet, reading, index, 4, (4,)))


def time_of(block):
    return be(view_of(block), 4, 8)


@question
def summary(packet, reading, index):
    """Type 6, of the standard reading alone: the crate does not serve it."""
    return summary_of(find_as(packet, reading, index, 6, (6,) if reading == STANDARD else ()))


def summary_of(block):
    view, numbers, at = view_of(block), [], 4
    for size in SUMMARY_SIZES:
        numbers.append(be(view, at, size))
        at += size
    return summary_from(view[1], numbers)


def summary_from(flags, numbers):
    """What is shown of a summary's numbers: those whose flag is set. Three bits of the flags are not looked at."""
    ssrc, begin, end, lost, duplicates, *more = numbers
    toh = flags >> 3 & 3
    return Summary(ssrc, begin, end, lost if flags & 128 else None, duplicates if flags & 64 else None,
                   tuple(more[:4]) if flags & 32 else None, toh, tuple(more[4:]) if toh in (1, 2) else None)
