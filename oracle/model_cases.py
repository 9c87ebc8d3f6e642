"""Short ways to make records and packets for the model's checks, and seeded ones."""
from jobs import holds_lost, job_list, layout, write
from lists import ahead, range_size
from readings import CRATE, LOST_RUN, STANDARD, SUMMARY_SIZES, Range


def header(padding=0):
    return "header", 1, padding


def rle(words_, begin, end, thinning=0, kind=1):
    return kind, Range(7, begin, end, thinning), words_


def times(own, begin, end, thinning=0):
    return 3, Range(7, begin, end, thinning), own


def dlrr(n):
    return 5, [(100 + i, 200 + i, 300 + i) for i in range(n)]


def summed(flags, *numbers):
    """A summary with these flags; SSRC, begin, end and all numbers where none are given."""
    return 6, flags, numbers or NUMBERS


CLOCK = (4, 0x0102030405060708)
NUMBERS = (7, 10, 14, 0x21222324, 0x31323334, 0x41424344, 0x51525354, 0x61626364, 0x71727374, 0x81, 0x82, 0x83, 0x84)
FLAGS = [flags for flags in range(0, 256, 8) if flags & 24 != 24]       # of good records


def plain(*blocks, padding=0):
    return layout([header(padding), *blocks], False)


def careful(*blocks, padding=0, room=None):
    return write(job_list([header(padding), *blocks]), True, room)


def h(text):
    return bytes.fromhex(text)


def both(ask, packet, *rest):
    return ask(packet, STANDARD, *rest), ask(packet, CRATE, *rest)


# Ranges and their grid: the multiples of 2^T

def steps(r):
    """How many steps of 2^T there are from begin to before end; on the grid as many as positions are inside."""
    return -(-range_size(r) >> r.thinning)


def reported(r):
    """How many positions are inside."""
    return max(0, -(ahead(r) - range_size(r) >> r.thinning))


def beside_grid(draw, thinning):
    """A begin on the grid, one below or one above it."""
    return (draw.randrange(65536 >> thinning) * (1 << thinning) + draw.choice((-1, 0, 0, 1))) % 65536


# Seeded choices

def any_range(draw):
    """Every thinning; begin anywhere, half of the time on the grid or right beside it; end at begin, anywhere, before
    the first number on the grid, at it, or some steps behind it."""
    edges = [0, 1, 5, 32768, 65530, 65535, draw.randrange(65536)]
    thinning = draw.choice([0, 0, 0, *range(16)])
    begin = draw.choice([draw.choice(edges), beside_grid(draw, thinning)])
    first = begin + -begin % (1 << thinning)
    end = draw.choice([begin, draw.choice(edges), begin + draw.randrange(60), first + draw.randrange(-1, 2),
                       first + (draw.randrange(12) << thinning) + draw.randrange(-1, 2)])
    return Range(7, begin, end % 65536, thinning)


def any_word(draw):
    return draw.choice([0, 3, 16384, 16385, 32768, 49152, 65535, 32767 if draw.random() < .1 else 1,
                        0x4000 | draw.randrange(30), 0x8000 | draw.randrange(32768)])


def any_summary(draw):
    """Flags of a good record; numbers at random, or all 0 or all ones."""
    numbers = [draw.choice((0, 256**size - 1, draw.getrandbits(8 * size))) for size in SUMMARY_SIZES]
    return 6, draw.choice(FLAGS), tuple(numbers)


def any_block(draw):
    kind = draw.randrange(1, 7)
    if kind == 6:
        return any_summary(draw)
    if kind == 4:
        return 4, draw.getrandbits(64)
    if kind == 5:
        return dlrr(draw.randrange(7))
    if kind == 3:
        return 3, any_range(draw), [draw.getrandbits(32) for _ in range(draw.randrange(6))]
    return kind, any_range(draw), [any_word(draw) for _ in range(draw.randrange(6))]


def cleared(record):
    """The record with each run of ones of no length made one of length 1."""
    if not holds_lost(record):
        return record
    kind, r, own = record
    return kind, r, [LOST_RUN + 1 if word == LOST_RUN else word for word in own]


def any_marks(draw, most):
    """At most so many marks: stretches of one value, or of marks at random."""
    marks, size = b"", draw.randrange(most + 1)
    while len(marks) < size:
        length = draw.choice((1, 2, 14, 15, 16, 30, 16382, 16383, 16384, draw.randrange(1, 40)))
        value = draw.randrange(3)
        marks += bytes([value]) * length if value < 2 else bytes(draw.choices((0, 1), k=draw.randrange(1, 40)))
    return marks[:size]
