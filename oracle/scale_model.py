"""Questions about one packet for xrprobe, whose answers the model gives: the standard reading, the
number cursor, chunk words, summaries, the dump. standard(packet, draw) gives requests; thinned(draw) a packet of blocks
with a range, many of which begin off their grid.
"""
from lists import covers, entries_of, numbers_of, pairs_of, words_of
from model_cases import any_range, any_word, cleared, plain
from probe import (CURSOR, DUMP, FIELDS, LENT, LIST, NUMBERS, PARSE, SUMMARY, TYPES, VIEW, WORD, WORDS, asked,
                   request)
from readings import STANDARD, Refusal, check_fit, walk

SOME = 6        # blocks of one packet that are asked
FAR = 2**32 - 1
BUDGETS = (0, 0, 1, 1, 2, 3, 14, 15, 16, 17, 40, 100, 1000, LENT - 1, LENT, LENT + 1, 65536, FAR)
POSITIONS = (0, 0, 1, 7, 15, 40, 32768, 65534, 65535, 65536, 65536, 65537, FAR)
VALUES = (0, 1, 16382, 16383, 16384, 16385, 32766, 32767, 32768, 32769, 65535, 65536, FAR)


def standard(packet, draw):
    yield request(PARSE, STANDARD, packet=packet)
    yield request(DUMP, packet=packet)
    for _ in range(2):
        yield chunk_word(draw)
    try:
        blocks = walk(packet, STANDARD)
    except Refusal:
        blocks = []
    count = len(blocks)
    for i in [draw.choice((count, count, count + 1, FAR))] + some(count, draw):
        yield request(VIEW, STANDARD, i, packet=packet)
        yield request(SUMMARY, i, packet=packet)
        for kind in (FIELDS, LIST, WORDS, NUMBERS, CURSOR):
            other = draw.choice(asked(kind))    # mostly another type than the block's
            yield question(kind, i, other, draw, packet)
        for kind in (FIELDS, WORDS, NUMBERS, CURSOR):
            if i < count:                       # the block's own type, served or not
                yield question(kind, i, blocks[i].kind, draw, packet)
        if i < count:
            yield from own_type(packet, i, blocks[i], draw)


def thinned(draw):
    blocks = []
    for _ in range(draw.randrange(1, 4)):
        kind, count = draw.randrange(1, 4), draw.randrange(1, 6)
        own = [any_word(draw) if kind < 3 else draw.getrandbits(32) for _ in range(count)]
        blocks.append(cleared((kind, any_range(draw), own)))
    return plain(*blocks)


def some(count, draw):
    return list(range(count)) if count <= SOME else draw.sample(range(count), SOME)


def question(kind, i, given_type, draw, packet):
    if kind == FIELDS:
        return request(FIELDS, STANDARD, i, given_type, packet=packet)
    if kind == CURSOR:
        given = [draw.choice((0, 0, 1, 2, FAR)) for _ in range(3)]
        return request(CURSOR, i, given_type, *given, 3, draw.choice((2, 3)), packet=packet)
    return request(kind, STANDARD, i, given_type, draw.choice((0, 1, 2, 100)), packet=packet)


def own_type(packet, i, block, draw):
    """A block asked as what it is: its fields or time, its lists at their rooms, its cursor."""
    kind = block.kind
    if kind in TYPES[FIELDS]:
        yield request(FIELDS, STANDARD, i, kind, packet=packet)
    try:
        check_fit(block)
    except Refusal:
        for ask in LIST, WORDS, CURSOR:
            if kind in TYPES[ask]:
                yield question(ask, i, kind, draw, packet)
        return
    if kind in (1, 2):
        yield from rooms(packet, LIST, i, kind, sum(1 for _ in numbers_of(block)), draw)
        yield from rooms(packet, WORDS, i, kind, len(words_of(block)), draw)
        own = words_of(block)
        for _ in range(5):
            yield any_cursor(packet, i, kind, own, draw)
    elif kind == 3:
        yield from rooms(packet, LIST, i, kind, len(pairs_of(block)), draw)
    elif kind == 5:
        yield from rooms(packet, LIST, i, kind, len(entries_of(block)), draw)


def rooms(packet, ask, i, kind, count, draw):
    for room in {count, count + draw.choice((1, 2, 9, LENT)), max(count, 1) - 1}:
        yield request(ask, STANDARD, i, kind, room, packet=packet)


def any_cursor(packet, i, kind, own, draw):
    """Mostly a place of the block, now and then one beside it; position, budget and room drawn."""
    count = len(own)
    word = draw.choice((0, draw.randrange(count + 1), draw.randrange(count + 1), count, count + 1, FAR))
    places = max(1, covers(own[word])) if word < count else 1
    place = draw.choice((0, draw.randrange(places), places - 1, places - 1, places, FAR))
    position = draw.choice(POSITIONS + (draw.randrange(70000),))
    budget = draw.choice(BUDGETS + (draw.randrange(60),))
    room = draw.choice((budget, budget, min(budget + 5, FAR), max(budget, 1) - 1))
    return request(CURSOR, i, kind, word, place, position, budget, room, packet=packet)


def chunk_word(draw):
    value = draw.choice(VALUES + (draw.randrange(40000), draw.getrandbits(32)))
    return request(WORD, draw.randrange(4), value, draw.choice((0, 1, 2, 2, 2, 3, 8, 9, FAR)))
