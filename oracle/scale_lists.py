"""Job lists for xrprobe, drawn at random, damaged, and at the limits, with what plain writing must answer.

lists(draw, count)                 job lists
written(jobs, text, draw, seen)    (request, wanted, who says so), for the oracle's text about a list (src/write.rs)

Without padding the bytes wanted are the Rust's own text, and so is the length that 14 and 11 speak of. The Rust knows no
limit of blocks or bytes, and cannot be asked for padding, for a summary or for a bad record: there the model answers. It
writes a run of ones of no length, which is 12 with the index of its record.
"""
from jobs import MOST_BLOCKS, MOST_BYTES, job_list, lost_record, records
from model_cases import CLOCK, any_summary, any_word, cleared
from probe import PLAIN, answer, request
from readings import Range, Refusal

FAR = 2**32 - 1
BODIES = (0, 1, 5, 6, 7, 8, 9, 10, 11, 12, 13, 14, 24, 36, 37, 38, 39)      # bodies of any bytes, in damaged lists
EDGES = (0, 1, 255, 256, 32767, 32768, 65534, 65535)
LOST = .1       # of the lists, which may have runs of ones of no length as they come
SUMMED = .15    # of the lists, which have summaries among their blocks


def lists(draw, count):
    for _ in range(count):
        luck = draw.random()
        if luck < .001:
            yield job_list(largest(draw))
        elif luck < .03:
            yield job_list([header(draw, 0)] + [record(draw, 1) for _ in range(draw.randrange(29, 35))])
        else:
            most = draw.choice((2, 6, 6, 12, 12, 200))
            found = [header(draw, draw.choice((0,) * 12 + (4, 8, 128, 252)))]
            found += [record(draw, most) for _ in range(draw.choice((0, 1, 1, 2, 3, 6)))]
            if draw.random() < SUMMED:
                for _ in range(draw.choice((1, 1, 2))):
                    found.insert(draw.randrange(1, len(found) + 1), any_summary(draw))
            jobs = job_list(found if draw.random() < LOST else map(cleared, found))
            yield damaged(jobs, draw) if luck < .18 else jobs


def header(draw, padding):
    return "header", draw.choice((0, 1, FAR, draw.getrandbits(32))), padding


def fields(draw):
    def sixteen():
        return draw.choice(EDGES + (draw.getrandbits(16),) * 4)
    return Range(draw.choice((0, 7, FAR, draw.getrandbits(32))), sixteen(), sixteen(), draw.randrange(16))


def record(draw, most):
    """A good record with at most so many items, of a kind that the Rust can write."""
    kind, count = draw.randrange(1, 6), draw.randrange(most + 1)
    if kind == 4:
        return 4, draw.choice((0, 1, 2**64 - 1, draw.getrandbits(64)))
    if kind == 5:
        return 5, [tuple(draw.getrandbits(32) for _ in range(3)) for _ in range(count)]
    if kind == 3:
        return 3, fields(draw), [draw.getrandbits(32) for _ in range(count)]
    return kind, fields(draw), [draw.choice((any_word(draw), draw.getrandbits(16))) for _ in range(count)]


def largest(draw):
    """A packet of 262,144 bytes, some more or some less, by words, times or entries, with or without a clock."""
    more = [CLOCK] * draw.randrange(2)
    left = MOST_BYTES - 8 - 12 * len(more) + draw.choice((-4, -2, 0, 0, 2, 4, 12))
    word, kind = draw.getrandbits(16), draw.choice((1, 2, 3, 5))
    if kind == 5:
        items = [(draw.getrandbits(32), word, 1)] * ((left - 4) // 12)
        return [header(draw, 0), (5, items), *more]
    items = [word] * ((left - 12) // (4 if kind == 3 else 2))
    return [header(draw, 0), *more, (kind, fields(draw), items)]


def damaged(jobs, draw):
    """A list with one thing wrong with it, or by chance nothing."""
    starts, at = [], 0
    while at < len(jobs):
        starts.append(at)
        at += 6 + int.from_bytes(jobs[at:at + 4], "little")
    at, how = draw.choice(starts), draw.randrange(9)
    if how == 0:
        return jobs[:draw.randrange(len(jobs) + 1)]
    if how == 1:        # another kind
        return jobs[:at + 4] + draw.choice((0, 1, 5, 6, 7, 256, 65535)).to_bytes(2, "little") + jobs[at + 6:]
    if how == 2:        # another length, up to what a sum of 32 bits wraps
        size = draw.choice((0, 1, 2**31, FAR - 6, FAR - 5, FAR, draw.randrange(40)))
        return jobs[:at] + size.to_bytes(4, "little") + jobs[at + 4:]
    if how == 3:        # another thinning, padding or item
        place = at + 6 + draw.choice((4, 8))
        return jobs[:place] + draw.choice((3, 15, 16, 255, 256)).to_bytes(2, "little") + jobs[place + 2:]
    if how == 4:        # a header record where none belongs
        return jobs[:at] + job_list([header(draw, 0)]) + jobs[at:]
    if how == 5:        # a record of any bytes
        body = draw.randbytes(draw.choice(BODIES))
        return jobs[:at] + len(body).to_bytes(4, "little") + draw.randrange(7).to_bytes(2, "little") + body + jobs[at:]
    if how == 6:        # another first or second byte of a body: a summary's flags, and what must be 0
        place = at + 6 + draw.randrange(2)
        return jobs[:place] + bytes([draw.choice((0, 1, 2, 4, 8, 16, 24, 248, draw.randrange(256)))]) + jobs[place + 1:]
    if how == 7:        # bytes behind
        return jobs + draw.randbytes(draw.randrange(1, 9))
    return draw.randbytes(draw.randrange(30))


def written(jobs, text, draw, seen):
    size = None
    lost = lost_record(jobs)
    if text.startswith("packet ") and lost is not None:
        wanted, who = f"refused 12 {lost} 0\n", "the Rust"
        seen["lists with a run of no length"] += 1
    elif text.startswith("packet ") and is_plain(jobs):
        wanted, who = text, "the Rust"
        size, blocks = (len(text) - len("packet \n")) // 2, len(records(jobs)) - 1
        if blocks > MOST_BLOCKS:
            wanted, size = f"refused 14 {blocks} {MOST_BLOCKS}\n", None
        elif size > MOST_BYTES:
            wanted, size = f"refused 14 {size} {MOST_BYTES}\n", None
    else:
        wanted, who = answer(*request(PLAIN, FAR, packet=jobs)), "the model"
        if wanted.startswith("packet "):
            size = (len(wanted) - len("packet \n")) // 2
    room = draw.choice((FAR, MOST_BYTES, 0) if size is None else
                       (FAR, MOST_BYTES, size, size, size + 1, max(size, 1) - 1, draw.randrange(size + 1)))
    if size is not None and room < size:
        wanted = f"refused 11 {size} {room}\n"
    seen["lists"] += 1
    seen["lists of " + who] += 1
    return request(PLAIN, room, packet=jobs), wanted, who


def is_plain(jobs):
    """Every record is good, and no padding is asked."""
    try:
        return records(jobs)[0][2] == 0
    except Refusal:
        return False
