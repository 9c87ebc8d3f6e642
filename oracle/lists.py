"""Chunk words, the lists of both readings, and the number cursor, as RULES has them.

word     16 bits; covers(word) positions, whose values are values(word), in order
p        a position, counted from 0 through the words; q a place in one word
room     how many items fit; None is room for anything
What the standard reading reports on, by the distance d up to the grid, stands in is_inside and number alone.
"""
from readings import CRATE, RLE, STANDARD, be, find_as, question, range_of, refuse, view_of

NUMBERS = 65536     # how many sequence numbers there are


# Chunk words

def covers(word):
    """How many positions."""
    return 15 if word & 0x8000 else word & 0x3fff


def value_at(word, place):
    return word >> (14 - place) & 1 if word & 0x8000 else word >> 14


def values(word):
    """The values of the positions that a word covers, in order."""
    if word & 0x8000:
        return [value_at(word, place) for place in range(15)]
    return [word >> 14] * covers(word)


@question
def make_word(kind, value, room):
    """kind: 0 null, 1 run of zeros, 2 run of ones, 3 vector. Two bytes. A run of ones has a length."""
    refuse((kind, value) == (2, 0), 13, 0, 0)
    refuse(value > {0: value, 1: 16383, 2: 16383, 3: 32767}[kind], 13, value, 0)
    refuse(room < 2, 11, 2, room)
    word = {0: 0, 1: value, 2: 0x4000 | value, 3: 0x8000 | value}[kind]
    return word.to_bytes(2, "big")


# Lists (refusal 11 counts items)

def range_size(r):
    """R: how many numbers there are from begin to before end."""
    return (r.end - r.begin) % NUMBERS or NUMBERS


def ahead(r):
    """d: how far it is from begin up to the next multiple of 2^T, the first number that a block reports on."""
    return -r.begin % (1 << r.thinning)


def is_inside(p, r):
    return ahead(r) + (p << r.thinning) < range_size(r)


def number(p, r):
    return (r.begin + ahead(r) + (p << r.thinning)) % NUMBERS


def standard_numbers(r, words):
    p = 0
    for word in words:
        if not is_inside(p, r):
            return  # nor is any later position
        for value in values(word):
            if value and is_inside(p, r):
                yield number(p, r)
            p += 1


def offset_sequence(q, start, r):
    """RULES' `xr_offset_sequence`: the number, or None where it fails."""
    s = ((q << r.thinning) + start) % NUMBERS
    fails = r.end <= s < start if r.end <= start else s >= r.end
    return None if fails else s


def crate_numbers(r, words):
    """From the words that are read: all but the block's last."""
    start = r.begin
    for word in words:
        for q, value in enumerate(values(word) if word >> 14 else []):      # a run of zeros lists nothing
            if value:
                s = offset_sequence(q, start, r)
                if s is None:
                    return
                yield s
        start = moved(start, word, r)


def moved(start, word, r):
    return (start + (covers(word) << r.thinning)) % NUMBERS


def crate_count(r, words):
    """How many crate_numbers lists, without listing the runs."""
    start, count = r.begin, 0
    for word in words:
        if word & 0xc000 == 0x4000:
            stop = first_failure(start, r)
            if stop is not None and stop < covers(word):
                return count + stop
            count += covers(word)
        else:
            for q, value in enumerate(values(word) if word & 0x8000 else []):
                if value and offset_sequence(q, start, r) is None:
                    return count
                count += value
        start = moved(start, word, r)
    return count


def first_failure(start, r):
    """The first place of a run of ones that fails, or None: a closed form, found by running."""
    size = (r.end - start) % NUMBERS or NUMBERS
    q = -(-size >> r.thinning)
    last = start + (q << r.thinning) if start < r.end else q << r.thinning
    return q if last < NUMBERS else None


def words_of(block):
    """Standard: all words. Crate: all but the block's last, which it never reads."""
    own = [be(block.packet, block.at + at, 2) for at in range(12, block.length, 2)]
    return own if block.reading == STANDARD else own[:-1]


def numbers_of(block):
    make = standard_numbers if block.reading == STANDARD else crate_numbers
    return make(range_of(block), words_of(block))


def count_of(block):
    if block.reading == CRATE:
        return crate_count(range_of(block), words_of(block))
    return sum(1 for _ in numbers_of(block))


def pairs_of(block):
    """(number, time) for each time listed. Standard: in the block; crate: to the packet's end."""
    data, r = view_of(block), range_of(block)
    pairs = []
    for p in range((len(data) - 12) // 4):
        if block.reading == STANDARD:
            n = number(p, r) if is_inside(p, r) else None
        else:
            n = offset_sequence(p, r.begin, r)
        if n is None:
            break
        pairs.append((n, be(data, 12 + 4 * p, 4)))
    return pairs


def entries_of(block):
    """(SSRC, last report, delay) for each twelve bytes. Standard: in the block; crate: all left."""
    data = view_of(block)
    return [tuple(be(data, at + k, 4) for k in (0, 4, 8))
            for at in range(4, len(data) - 11, 12)]


def into(items, count, room):
    refuse(room is not None and room < count, 11, count, room)
    return list(items)


@question
def words(packet, reading, index, kind, room=None):
    items = words_of(find_as(packet, reading, index, kind, RLE))
    return into(items, len(items), room)


@question
def numbers(packet, reading, index, kind, room=None):
    block = find_as(packet, reading, index, kind, RLE)
    return into(numbers_of(block), count_of(block), room)


@question
def pairs(packet, reading, index, room=None):
    items = pairs_of(find_as(packet, reading, index, 3, (3,)))
    return into(items, len(items), room)


@question
def entries(packet, reading, index, room=None):
    items = entries_of(find_as(packet, reading, index, 5, (5,)))
    return into(items, len(items), room)


# The number cursor (standard reading; refusal 16)

@question
def cursor(packet, index, kind, word, place, position, budget, room):
    """(steps taken, word, place, position, numbers)."""
    block = find_as(packet, STANDARD, index, kind, RLE)
    own, r = words_of(block), range_of(block)
    places = [max(1, covers(w)) for w in own] + [1]  # the end cursor has place 0
    legal = word < len(places) and place < places[word] and position <= NUMBERS
    refuse(not legal, 16)
    refuse(room < budget, 11, budget, room)
    taken, listed = 0, []
    while taken < budget and word < len(own):
        taken += 1
        if covers(own[word]):
            if value_at(own[word], place) and is_inside(position, r):
                listed.append(number(position, r))
            position = min(position + 1, NUMBERS)
        place += 1
        if place >= places[word]:
            word, place = word + 1, 0
    return taken, word, place, position, listed
