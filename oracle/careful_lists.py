"""Job lists for careful writing, most of them at an edge of refusal 15.

chosen()               lists of records: each edge once, small; and begins beside each grid
lists(draw, count)     job lists, drawn at random; some padded, damaged or at the limits
edges(draw, count)     records of so many blocks at an edge, and some more

An edge: the first one outside a range stands at its end or a little behind it, and by a run or a vector that begins
before it, there, or later; as many times as a range has positions, or nearly; few bytes behind times and entries, or
the 40 of a summary. Half of the ranges begin on the grid, the multiples of 2^T; the others, most of them one above or
one below it, are misled by any number that the crate lists, so there the first one at all stands near the end, and of
times there are few.
"""
from jobs import job_list
from lists import ahead
from model_cases import CLOCK, FLAGS, any_summary, beside_grid, cleared, dlrr, header, rle, steps, summed, times
from readings import Range
from scale_lists import EDGES, FAR, LOST, damaged, largest
from scale_lists import header as any_header
from scale_lists import record

ENTRIES = (0, 0, 0, 1, 1, 1, 2, 3, 4, 5, 5, 6, 8, 9, 9, 13)
FEW = 40        # positions that are told one by one


# Drawn

def lists(draw, count):
    for _ in range(count):
        luck = draw.random()
        if luck < .0005:
            yield job_list(largest(draw))
        elif luck < .01:
            yield job_list([any_header(draw, 0)] + [record(draw, 1) for _ in range(draw.randrange(29, 35))])
        else:
            padding = draw.choice((0,) * 30 + (4, 252))
            found = [any_header(draw, padding), *edges(draw, draw.choice((0, 1, 1, 1, 2, 2, 3, 4, 7)))]
            jobs = job_list(found if draw.random() < LOST else map(cleared, found))
            yield damaged(jobs, draw) if luck < .06 else jobs


def edges(draw, count):
    """So many blocks, and behind them nothing or blocks without entries, of 4, 8 or 12 bytes in all."""
    return [any_edge(draw) for _ in range(count)] + [(5, [])] * (draw.choice((0, 0, 0, 0, 1, 2, 3)) if count else 0)


def any_edge(draw):
    kind = draw.choice((1, 1, 2, 2, 3, 3, 4, 5, 5, 5, 6))
    if kind == 6:
        return any_summary(draw)
    if kind == 4:
        return 4, draw.choice((0, 2**64 - 1, draw.getrandbits(64)))
    if kind == 5:
        return 5, [tuple(draw.getrandbits(32) for _ in range(3)) for _ in range(draw.choice(ENTRIES))]
    r = any_range(draw)
    if kind == 3:
        count = steps(r) + draw.randrange(-2, 3)
        count = count if 0 <= count < FEW else draw.randrange(5)
        count = count if ahead(r) == 0 or draw.randrange(3) == 0 else 0
        return 3, r, [draw.getrandbits(32) for _ in range(count)]
    return kind, r, edge_words(draw, steps(r), ones=ahead(r) == 0 or draw.randrange(4) == 0)


def any_range(draw):
    thinning = draw.randrange(16)
    begin = draw.choice(EDGES + (draw.getrandbits(16),) * 4)
    begin = draw.choice((begin, begin >> thinning << thinning, *(beside_grid(draw, thinning),) * 2))
    first = -begin % (1 << thinning)
    size = draw.choice((0, 1, 2, 3, draw.randrange(FEW), (draw.randrange(4) << thinning) + draw.randrange(-1, 2),
                        (draw.randrange(FEW) << thinning) + draw.randrange(-1, 2), 65535, 65536 - (1 << thinning),
                        first + draw.randrange(-1, 2), first + (draw.randrange(4) << thinning) + draw.randrange(-1, 2),
                        draw.getrandbits(16)))
    if size % 65536 >> thinning > 1000 or size == 0 and thinning < 7:
        size = size if draw.random() < .1 else draw.randrange(1, FEW)     # a long list takes the model long
    return Range(draw.choice((0, 7, FAR)), begin, (begin + size) % 65536, thinning)


def edge_words(draw, inside, ones):
    """Words whose first one outside, if there is one, stands near position `inside`; without ones before it, if that is
    asked, and then it is the first at all."""
    how, own = draw.choice((0, 0, 1, 1, 1, 2, 2, 3) if ones else (0, 1, 2, 2, 2, 3)), []
    past = draw.choice((0, 0, 1, draw.randrange(15), draw.randrange(30)))
    if how == 0:        # ones from the end on, or from a little behind it
        own = covering(draw, inside, ones) + covering(draw, past, False) + [0x4000 | draw.choice((1, 1, 2, 20, 16383))]
    elif how == 1:      # a run of ones over the end, or up to it
        own = covering(draw, max(inside - past, 0), ones) + [0x4000 | min(past + draw.randrange(3), 16383)]
    elif how == 2:      # a vector over the end; its first one, if the first at all, at the end or right before it
        places = draw.getrandbits(15) & draw.getrandbits(15)
        places &= 0x7fff if ones else 0x7fff >> max(past % 16 - draw.randrange(2), 0)
        own = covering(draw, max(inside - past % 16, 0), ones) + [0x8000 | places]
    else:               # nothing behind the end, or any words
        own = draw.choice((covering(draw, inside, ones), [draw.getrandbits(16) for _ in range(draw.randrange(4))]))
    behind = (0, 0, 3, 16384, 16385, 32768, 0x8000 | draw.getrandbits(15), draw.getrandbits(14))
    return own + [draw.choice(behind) for _ in range(draw.choice((0, 0, 0, 1, 1, 2, 3)))]


def covering(draw, count, ones):
    """Words that cover so many positions; without ones, if that is asked."""
    own = []
    while count > 0:
        size = min(count, 16383) if count > 2 * FEW else draw.choice((count, draw.randrange(1, count + 1)))
        word = size
        if ones and count >= 15 and draw.random() < .2:
            size, word = 15, 0x8000 | draw.getrandbits(15)
        elif ones and (size < 1000 or draw.random() < .2):
            word |= draw.choice((0, 0x4000))
        own += [word] + [draw.choice((0, 16384))] * (draw.random() < .1)
        count -= size
    return own


# Chosen

def chosen():
    yield [header()]
    yield [header(4), dlrr(1), CLOCK]
    for kind in 1, 2:
        for own in ([], [16386], [16386, 16386], [16386, 0], [2, 16385], [16386, 16385], [16387], [16387, 16385],
                    [16386, 1, 16385], [16385, 16385, 16385], [57344], [49152, 16385], [40960], [3, 16384], [0, 0]):
            yield [header(), rle(own, 10, 12, kind=kind)]
        yield [header(), rle([49408], 65530, 65531, kind=kind)]
    for last in [16388, 16385], [16389], [4, 16385], [5, 16385]:
        yield [header(), rle([16383] * 4 + last, 5, 5)]
    for thinning in range(16):
        for begin, end in (0, 0), (65530, 3), (7, (7 + (2 << thinning)) % 65536):
            own = steps(Range(7, begin, end, thinning))
            if own < FEW:
                for count in own, own + 1:
                    yield [header(), rle([0x4000 | count], begin, end, thinning)]
                    yield [header(), times(list(range(count)), begin, end, thinning), dlrr(0)]
    for behind in ([], [dlrr(0)], [dlrr(0)] * 2, [dlrr(0)] * 3, [CLOCK], [rle([], 1, 2)], [dlrr(1)], [CLOCK] * 2,
                   [rle([1, 2, 3], 0, 0)], [summed(232)], [summed(0), CLOCK]):
        for count in 0, 1, 2, 4, 5, 9:
            yield [header(), dlrr(count), *behind]
        for end in 7, 8, 9:
            yield [header(), times([1, 2], 5, end), *behind]
        yield [header(), CLOCK, *behind, times([1, 2, 3], 5, 5, 15)]
    for flags in FLAGS:
        yield [header(), summed(flags)]
    yield [header(), summed(128), summed(64), rle([16386, 16385], 10, 12)]
    yield from beside_grids()


def beside_grids():
    """Begins one below a multiple of 2^T, whose first number is one ahead, and one above it; for every other T the
    multiple is 65536. Nothing, a one inside the range, one outside that fails, and times."""
    for thinning in range(1, 16):
        step, kind = 1 << thinning, 1 + thinning % 2
        for begin in (step - 1, step + 1) if thinning % 2 else (65535, 65537 - step):
            first = begin + -begin % step
            for own, end in ([3], begin), ([2, 16385], first + 3 * step), ([16385], first), ([0xa000], begin + 1):
                yield [header(), rle(own, begin, end % 65536, thinning, kind)]
            for own, behind in ([], []), ([], [dlrr(0)]), ([1], []):
                yield [header(), times(own, begin, (first + 1) % 65536, thinning), *behind]
