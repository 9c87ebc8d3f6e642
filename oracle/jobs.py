"""Job lists and writing, as RULES has them.

record   ("header", ssrc, padding), or (kind, Range, words or times), (4, time), (5, entries), (6, flags, numbers)
asked    what a record asks to be shown: the standard reading of its own words
shown    what a reading shows of a block: fields, numbers, times, entries, summaries; not the chunk words

Checks stand in RULES' order: 12, 14, 15, 11.
"""
from itertools import islice

from lists import entries_of, is_inside, number, numbers_of, pairs_of, standard_numbers
from readings import (CRATE, LOST_RUN, RLE, SUMMARY_SIZES, Range, Refusal, check_fit, fields_of, question, refuse,
                      summary_from, time_of, walk)

MOST_BLOCKS = 31
MOST_BYTES = 262144
MOST_PADDING = 252


# Reading a job list (refusal 12)

def records(jobs, lost=False):
    """A list's records. Where `lost`, runs of ones of no length are taken, as the Rust takes them."""
    found, at = [], 0
    while at < len(jobs) or not found:
        record, at = next_record(jobs, at, len(found))
        refuse(not lost and holds_lost(record), 12, len(found))
        found.append(record)
    return found


def holds_lost(record):
    """Whether a record's chunk words have a run of ones of no length."""
    return record[0] in RLE and LOST_RUN in record[2]


def lost_record(jobs):
    """The index of the first record that is bad for such a run, in a list that is good but for these; else None."""
    try:
        found = records(jobs, lost=True)
    except Refusal:
        return None
    return next((i for i, record in enumerate(found) if holds_lost(record)), None)


def next_record(jobs, at, index):
    refuse(len(jobs) - at < 6, 12, index)
    size, kind = le(jobs, at, 4), le(jobs, at + 4, 2)
    refuse(size > len(jobs) - at - 6, 12, index)
    record = parsed(kind, jobs[at + 6:at + 6 + size])
    refuse(record is None or (kind == 0) != (index == 0), 12, index)
    return record, at + 6 + size


def parsed(kind, body):
    """The record, or None where it is malformed."""
    if kind == 0 and len(body) == 6:
        padding = le(body, 4, 2)
        if padding % 4 == 0 and padding <= MOST_PADDING:
            return "header", le(body, 0, 4), padding
    if kind in (1, 2, 3) and len(body) >= 10:
        each = 4 if kind == 3 else 2
        r = Range(le(body, 0, 4), le(body, 4, 2), le(body, 6, 2), le(body, 8, 2))
        if r.thinning <= 15 and (len(body) - 10) % each == 0:
            return kind, r, [le(body, at, each) for at in range(10, len(body), each)]
    if kind == 4 and len(body) == 8:
        return 4, le(body, 0, 8)
    if kind == 5 and len(body) % 12 == 0:
        return 5, [tuple(le(body, at + k, 4) for k in (0, 4, 8)) for at in range(0, len(body), 12)]
    if kind == 6 and len(body) == 38 and body[1] == 0 and body[0] & 7 == 0 and body[0] & 24 != 24:
        numbers, at = [], 2
        for size in SUMMARY_SIZES:
            numbers.append(le(body, at, size))
            at += size
        return 6, body[0], tuple(numbers)
    return None


def le(data, at, size):
    return int.from_bytes(data[at:at + size], "little")


def job_list(found):
    """The bytes of a list of records; records() takes them back. For tests: any kind, any body."""
    def record(kind, body):
        return len(body).to_bytes(4, "little") + kind.to_bytes(2, "little") + body

    def some(size, *numbers):
        return b"".join(n.to_bytes(size, "little") for n in numbers)

    def bytes_of(r):
        if r[0] == "header":
            return record(0, some(4, r[1]) + some(2, r[2]))
        if r[0] == 4:
            return record(4, some(8, r[1]))
        if r[0] == 5:
            return record(5, b"".join(some(4, *entry) for entry in r[1]))
        if r[0] == 6:
            return record(6, bytes([r[1], 0]) + b"".join(some(size, n) for size, n in zip(SUMMARY_SIZES, r[2])))
        kind, (ssrc, begin, end, thinning), items = r
        return record(kind, some(4, ssrc) + some(2, begin, end, thinning)
                      + some(4 if kind == 3 else 2, *items))

    return b"".join(map(bytes_of, found))


# Layout (refusal 14)

def body_of(record, careful):
    """What stands behind a block's four header bytes."""
    if record[0] == 4:
        return record[1].to_bytes(8, "big")
    if record[0] == 5:
        return b"".join(x.to_bytes(4, "big") for entry in record[1] for x in entry)
    if record[0] == 6:
        return b"".join(n.to_bytes(size, "big") for size, n in zip(SUMMARY_SIZES, record[2]))
    kind, r, items = record
    body = r.ssrc.to_bytes(4, "big") + r.begin.to_bytes(2, "big") + r.end.to_bytes(2, "big")
    if kind == 3:
        return body + b"".join(x.to_bytes(4, "big") for x in items)
    return body + b"".join(x.to_bytes(2, "big") for x in items + added_words(items, careful))


def added_words(words, careful):
    if len(words) % 2 == 1:
        return [0]
    return [0, 0] if careful and words and words[-1] != 0 else []


def specific_of(record):
    """The thinning, the flags of a summary, or nothing."""
    if record[0] == 6:
        return record[1]
    return record[1].thinning if record[0] in (1, 2, 3) else 0


def layout(found, careful):
    """The packet of these records."""
    (_, ssrc, padding), *blocks = found
    refuse(len(blocks) > MOST_BLOCKS, 14, len(blocks), MOST_BLOCKS)
    bodies = [body_of(record, careful) for record in blocks]
    size = 8 + sum(4 + len(body) for body in bodies) + padding
    refuse(size > MOST_BYTES, 14, size, MOST_BYTES)
    packet = bytes([0x80 | (0x20 if padding else 0), 207]) + (size // 4 - 1).to_bytes(2, "big")
    packet += ssrc.to_bytes(4, "big")
    for record, body in zip(blocks, bodies):
        packet += bytes([record[0], specific_of(record)]) + (len(body) // 4).to_bytes(2, "big") + body
    return packet + bytes(padding - 1) + bytes([padding]) if padding else packet


# Misled (refusal 15), by the literal definition

def asked(record):
    """(fields, list), time, entries or summary."""
    if record[0] in (4, 5):
        return record[1]
    if record[0] == 6:
        return summary_from(*record[1:])
    kind, r, items = record
    if kind == 3:
        return r, [(number(p, r), t) for p, t in enumerate(items) if is_inside(p, r)]
    return r, list(standard_numbers(r, items))


def shown(block, most):
    """The same of a block in a packet, as the crate reads it, its list no further than `most` items. Type and length
    only, as of a summary, are None."""
    check_fit(block)
    if block.kind == 6:
        return None
    if block.kind == 4:
        return time_of(block)
    if block.kind == 5:
        return entries_of(block)
    items = pairs_of(block) if block.kind == 3 else numbers_of(block)
    return fields_of(block), list(islice(items, most))


def misled(found):
    """Which blocks of the careful packet an old reader accepts and shows as something else."""
    try:
        blocks = walk(layout(found, True), CRATE)
    except Refusal:
        return []
    return [i for i, block in enumerate(blocks) if shows_other(block, asked(found[1 + i]))]


def shows_other(block, wanted):
    # One item past what was asked for is enough to tell two lists apart.
    most = len(wanted[1]) + 1 if block.kind in (1, 2, 3) else None
    try:
        return shown(block, most) not in (None, wanted)
    except Refusal:
        return False


@question
def write(jobs, careful, room=None):
    """The packet, in the plain or the careful layout."""
    found = records(jobs)
    packet = layout(found, careful)
    wrong = misled(found) if careful else []
    refuse(wrong, 15, wrong[0] if wrong else 0, 0)
    refuse(room is not None and room < len(packet), 11, len(packet), room)
    return packet
