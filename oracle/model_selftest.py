"""Checks of the model: the twelve examples of RULES and the facts of the open points, with bytes.

Every check is `expect(name, found, wanted)`; one that differs is told and makes the run fail.
"""
import random

from dump import dump
from jobs import job_list, layout, lost_record, misled, records, write
from lists import (ahead, covers, crate_count, crate_numbers, cursor, entries, first_failure, is_inside,
                   make_word, moved, number, numbers, offset_sequence, pairs, range_size, values, words)
from marks import misfit, words_from_marks
from model_cases import (CLOCK, FLAGS, NUMBERS, any_block, any_marks, any_range, any_summary, any_word, both, careful,
                         cleared, dlrr, h, header, plain, reported, rle, steps, summed, times)
from portions import told
from readings import (CRATE, STANDARD, Range, Summary, fields, is_refused, summary, summary_from, time, view, whole)

FAILED = []
CHECKS = [0]


def expect(name, found, wanted):
    CHECKS[0] += 1
    if found != wanted:
        FAILED.append(name)
        print(f"FAILED {name}: found {str(found)[:200]}, wanted {str(wanted)[:200]}")


def run():
    for test in (examples, header_facts, block_facts, list_facts, grid_facts, cursor_facts, word_facts,
                 job_facts, misled_facts, misled_rules, mark_facts, mark_turns, portion_facts, dump_facts, lost_facts,
                 lost_turns, summary_facts, summary_jobs, summary_turns):
        test()
    print(f"{CHECKS[0]} checks, {len(FAILED)} failed")
    return 1 if FAILED else 0


SAMPLE = h("80CF0005 00000001 01000003 00000007 000A000E 40024002")
SAMPLE_DUMP = """reading standard
block 0 type 1 length 16
ssrc 7 begin 10 end 14 thinning 0
numbers 10 11 12 13
reading crate
block 0 type 1 length 16
ssrc 7 begin 10 end 14 thinning 0
numbers 10 11
"""


SEVERAL = plain(rle([16386, 16387, 16385, 0], 10, 12), rle([49153, 3, 16385, 0], 65534, 4, 1, kind=2),
                times([1001, 1002], 5, 9), CLOCK, dlrr(1), dlrr(2))
FAR_ROOM = 16384


def examples():
    for word, covered in (0, 0), (3, 3), (32768, 15):
        expect("1 covers", covers(word), covered)
        expect("1 lists nothing", both(numbers, plain(rle([word, 0], 0, 0)), 0, 1), ([], []))
    expect("2", [i for i, v in enumerate(values(49152)) if v], [0])
    expect("2", [i for i, v in enumerate(values(32769)) if v], [14])
    four = [65534, 65535, 0, 1]
    expect("3", both(numbers, plain(rle([16388, 0], 65534, 2)), 0, 1), (four, four))
    expect("4", plain(rle([16386, 16386], 10, 14)), SAMPLE)
    expect("4 dump", dump(SAMPLE), SAMPLE_DUMP)
    expect("5", both(numbers, plain(rle([16386, 16387, 16385, 0], 10, 12)), 0, 1),
           ([10, 11], [10, 11, 12, 13, 14, 15]))
    expect("6", both(numbers, plain(rle([16387, 0], 0, 0, 15)), 0, 1), ([0, 32768], [0, 32768, 0]))
    two = [(5, 1001), (6, 1002)]
    expect("7", both(pairs, plain(times([1001, 1002], 5, 9), CLOCK), 0),
           (two, two + [(7, 67108866), (8, CLOCK[1] >> 32)]))
    expect("8", both(pairs, plain(times([1001, 1002], 5, 7), CLOCK), 0), (two, two))
    expect("9", both(entries, plain(CLOCK, dlrr(2)), 1), (dlrr(2)[1], ("refused", 7, 40, 28)))
    expect("10", len(entries(plain(dlrr(1), CLOCK), CRATE, 0)), 2)
    expect("10", careful(dlrr(1), CLOCK), ("refused", 15, 0, 0))
    expect("10", careful(CLOCK, dlrr(1)), plain(CLOCK, dlrr(1)))
    expect("11", view(careful(rle([16386, 16386], 10, 14)), STANDARD, 0)[1], 20)
    expect("12", both(whole, h("80cf0001 00000001")), ((0, 1), ("refused", 1, 12, 8)))


def header_facts():
    expect("row 5", both(whole, h("a0cf0003 00000001 00000001 00000001")),
           (("refused", 5, 1, 0),) * 2)
    expect("row 5", both(whole, h("a0cf0002 00000001 00000001")), (("refused", 5, 1, 0),) * 2)
    for n in range(256):
        standard = (0, 1) if n == 4 else ("refused", 5, n, 0)
        crate = ("refused", 6, 20, 4) if n == 4 else standard
        expect("row 5, 12 bytes", both(whole, h("a0cf0002 00000001 000000") + bytes([n])),
               (standard, crate))
    expect("row 6", both(whole, h("a0cf0003 00000001 00000001 00000004")),
           (("refused", 6, 8, 4), (1, 1)))
    expect("6 hides earlier blocks", both(
        time, h("80cf0005 00000001 04000002 01020304 05060708 00000001"), 0),
        (("refused", 6, 8, 4),) * 2)
    expect("65,534 blocks", both(whole, h("80cfffff 00000001") + bytes(262136)), ((65534, 1),) * 2)
    for n in range(8, 12):
        standard = (0, 1) if n == 8 else ("refused", 4, 8, n)
        expect("8 to 11", both(whole, h("80cf0001 00000001 000000")[:n]),
               (standard, ("refused", 1, 12, n)))
    expect("P in 8 bytes", both(whole, h("a0cf0001 00000001")),
           (("refused", 5, 1, 0), ("refused", 1, 12, 8)))
    expect("9", both(fields, SAMPLE, 1, 1), (("refused", 9, 1, 0),) * 2)
    expect("count in 9", both(fields, plain(CLOCK, padding=4), 1, 1),
           (("refused", 9, 1, 0), ("refused", 6, 20, 4)))
    expect("loss is not duplicate", both(fields, SAMPLE, 0, 2), (("refused", 10, 1, 0),) * 2)
    for n in range(4, 253, 4):
        expect("padded: crate 6", both(whole, plain(CLOCK, padding=n)),
               ((1, 1), ("refused", 6, 4 * (n + 1), 4)))


def block_facts():
    for tail, left in ("03000000", 4), ("03000001 00000000", 8):
        packet = h(f"80cf000{4 + left // 4} 00000001 04000002 00000000 00000000 {tail}")
        expect("row 8", fields(packet, CRATE, 1, 3), ("refused", 8, 12, left))
        expect("row 8: list", pairs(packet, CRATE, 1), [])
        expect("row 8: standard", fields(packet, STANDARD, 1, 3), ("refused", 7, 12, left))
    short = h("80cf0005 00000001 03020000 00000002 00050009 000003e9")
    expect("crate type 3, L 4, left 16", (fields(short, CRATE, 0, 3), pairs(short, CRATE, 0)),
           (Range(2, 5, 9, 2), [(5, 1001)]))
    expect("type 5: left, not L", entries(
        h("80cf0006 00000001 05000000 04000002 00000000 00000000 00000000"), CRATE, 0),
        ("refused", 7, 8, 20))
    for length, fits in (8, 16), (12, 16), (20, 28), (24, 28):
        words_ = length // 4
        packet = h(f"80cf000{1 + words_} 00000001 0500000{words_ - 1}") + bytes(length - 4)
        expect("type 5: next fitting", entries(packet, STANDARD, 0), ("refused", 7, fits, length))
    for length in range(4, 53, 4):
        for kind, fit in (1, range(12, 53, 4)), (3, range(12, 53, 4)), (4, [12]), (5, [4, 16, 28, 40, 52]):
            packet = h(f"80cf00{1 + length // 4:02x} 00000001 {kind:02x}0000{length // 4 - 1:02x}")
            ask = {1: (numbers, 1), 3: (pairs,), 4: (time,), 5: (entries,)}[kind]
            answer = ask[0](packet + bytes(length - 4), STANDARD, 0, *ask[1:])
            least = min([n for n in fit if n >= length], default=12)
            expect(f"standard type {kind}, L {length}", answer if is_refused(answer) else None,
                   None if length in fit else ("refused", 7, least, length))
    expect("L 12", both(numbers, plain(rle([], 1, 5)), 0, 1), ([], []))
    high = SAMPLE[:9] + b"\xf0" + SAMPLE[10:]
    expect("high specific bits", (fields(high, STANDARD, 0, 1), view(high, CRATE, 0)),
           (fields(SAMPLE, STANDARD, 0, 1), (8, 16, h("01f00003"))))


def list_facts():
    r = Range(7, 0, 65535, 15)
    expect("2,147,172,363 numbers", crate_count(r, [32767] * 131061), 2147172363)
    packet = plain(rle([32767] * 131062, 0, 65535, 15))
    expect("the same from a packet", numbers(packet, CRATE, 0, 1, 16384),
           ("refused", 11, 2147172363, 16384))
    expect("the same in the standard", numbers(packet, STANDARD, 0, 1), [0, 32768])
    expect("words", (len(words(packet, STANDARD, 0, 1)), len(words(packet, CRATE, 0, 1))),
           (131062, 131061))
    edges = [0, 1, 5, 32767, 32768, 40000, 65530, 65535]
    for thinning in range(16):
        for start in edges:
            for end in edges:
                r = Range(7, 0, end, thinning)
                brute = next((q for q in range(16384) if offset_sequence(q, start, r) is None), None)
                form = first_failure(start, r)
                expect("closed form of a run", form if form is None or form < 16384 else None, brute)
    draw = random.Random(1)
    for _ in range(3000):
        r = any_range(draw)
        own = [any_word(draw) for _ in range(draw.randrange(6))]
        expect("count is the list's length", crate_count(r, own), len(list(crate_numbers(r, own))))


def grid_facts():
    """A thinned block reports on the multiples of 2^T in its range, wherever it begins."""
    for begin, end, wanted in (5, 20, [8, 12, 16]), (5, 8, []), (5, 9, [8]), (65533, 10, [0, 4, 8]), (8, 20, [8, 12, 16]), \
            (7, 20, [8, 12, 16]), (9, 20, [12, 16]), (65533, 0, []), (65533, 1, [0]), (6, 7, []):
        count = len(wanted)
        items = [(n, 1001 + p) for p, n in enumerate(wanted)]
        r = Range(7, begin, end, 2)
        own = plain((1, r, [16392, 0]), (2, r, [65535]), (3, r, range(1001, 1009)))
        expect(f"numbers from {begin} to {end}", [numbers(own, STANDARD, i, i + 1) for i in (0, 1)], [wanted] * 2)
        expect("pairs", pairs(own, STANDARD, 2), items)
        expect("cursor", cursor(own, 0, 1, 0, 0, 0, 9, 9), (9, 2, 0, 8, wanted))
        expect("cursor, from position 1", cursor(own, 0, 1, 0, 1, 1, 7, 7)[4], wanted[1:])
        events = [line for line in told(99, [], own).splitlines() if line.startswith(("number", "pair"))]
        expect("portions", [line.split()[1] for line in events], [str(n) for n in wanted * 3])
        expect("positions", [is_inside(p, r) for p in range(20)], [p < count for p in range(20)])
    expect("crate, as it was", [numbers(plain(rle([16388, 0], 5, end, 2)), CRATE, 0, 1) for end in (20, 8)],
           [[5, 9, 13, 17], [5]])
    expect("crate pairs", pairs(plain(times([1, 2], 5, 20, 2)), CRATE, 0), [(5, 1), (9, 2)])
    all_of = Range(7, 5, 5, 2)
    expect("begin = end", [(is_inside(p, all_of), number(p, all_of)) for p in (0, 16382, 16383)],
           [(True, 8), (True, 0), (True, 4)])
    expect("begin = end, past it", is_inside(16384, all_of), False)
    expect("begin = end, listed", numbers(plain(rle([16383, 16386], 5, 5, 2)), STANDARD, 0, 1), [4])
    expect("T 15", [numbers(plain(rle([65535, 0], 32769, end, 15)), STANDARD, 0, 1) for end in (32769, 32768, 1, 0, 32770)],
           [[0, 32768], [0], [0], [], []])
    expect("T 15, the crate", numbers(plain(rle([16386, 0], 32769, 32769, 15)), CRATE, 0, 1), [32769, 1])
    draw = random.Random(7)
    chosen = [Range(7, begin % 65536, (begin + size) % 65536, t) for t in range(16) for begin in
              (-1, 0, 1, (1 << t) - 1, (1 << t) + 1, (3 << t) - 1, (3 << t) + 1, 32768 - 1, 32768 + 1)
              for size in (0, 1, -begin % (1 << t), -begin % (1 << t) + 1)]
    for r in chosen + [any_range(draw) for _ in range(200)]:
        wanted = [n % 65536 for n in range(r.begin, r.begin + range_size(r)) if n % (1 << r.thinning) == 0]
        expect(f"the multiples of {r}", [number(p, r) for p in range(reported(r))], wanted)
        expect("where they end", (is_inside(reported(r), r), reported(r) and is_inside(reported(r) - 1, r)),
               (False, reported(r) and True))
        expect("how many", reported(r), len(wanted))


def cursor_facts():
    packet = plain(rle([16386, 0, 32769, 3], 10, 14))
    all_of = cursor(packet, 0, 1, 0, 0, 0, 100, 100)
    expect("all steps", all_of, (2 + 1 + 15 + 3, 4, 0, 20, numbers(packet, STANDARD, 0, 1)))
    for budget in range(25):
        first = cursor(packet, 0, 1, 0, 0, 0, budget, budget)
        rest = cursor(packet, 0, 1, *first[1:4], 100, 100)
        expect("in two calls", (first[0] + rest[0], *rest[1:4], first[4] + rest[4]), all_of)
    draw = random.Random(3)
    for _ in range(300):
        block = cleared(rle([any_word(draw) for _ in range(draw.randrange(7))], *any_range(draw)[1:]))
        some = plain(block)
        steps = sum(max(1, covers(w)) for w in words(some, STANDARD, 0, 1))
        found = cursor(some, 0, 1, 0, 0, 0, steps + 1, steps + 1)
        expect("all steps list all", (found[0], found[4]), (steps, numbers(some, STANDARD, 0, 1)))
    for place in (4, 1, 0), (5, 0, 0), (1, 1, 0), (0, 2, 0), (2, 15, 0), (0, 0, 65537):
        expect("16", cursor(packet, 0, 1, *place, 0, 0), ("refused", 16, 0, 0))
    expect("16 before 11", cursor(packet, 0, 1, 5, 0, 0, 9, 0), ("refused", 16, 0, 0))
    expect("room is the budget", cursor(packet, 0, 1, 4, 0, 0, 9, 8), ("refused", 11, 9, 8))
    expect("end cursor", cursor(packet, 0, 1, 4, 0, 65536, 9, 9), (0, 4, 0, 65536, []))
    expect("budget 0", cursor(packet, 0, 1, 2, 7, 12345, 0, 0), (0, 2, 7, 12345, []))
    expect("position stops", cursor(packet, 0, 1, 2, 0, 65535, 4, 4), (4, 2, 4, 65536, []))


def word_facts():
    expect("null", make_word(0, 99999, 2), b"\0\0")
    expect("runs", [make_word(k, 16383, 2) for k in (1, 2)], [h("3fff"), h("7fff")])
    expect("13", [make_word(k, v, 0) for k, v in ((1, 16384), (2, 16384), (3, 32768))],
           [("refused", 13, v, 0) for v in (16384, 16384, 32768)])
    expect("11", make_word(3, 32767, 1), ("refused", 11, 2, 1))
    expect("vector", make_word(3, 32767, 2), h("ffff"))
    expect("length 0", [make_word(k, 0, 2) for k in (1, 2, 3)], [h("0000"), ("refused", 13, 0, 0), h("8000")])
    expect("length 0, 13 before 11", make_word(2, 0, 1), ("refused", 13, 0, 0))
    expect("length 1", make_word(2, 1, 2), h("4001"))


def job_facts():
    good = job_list([header(), CLOCK])
    some = [header(8), CLOCK, rle([1, 2, 3], 4, 5, 6, 2), times([7], 8, 9), dlrr(2), summed(232)]
    expect("records come back", records(job_list(some)), some)
    expect("empty list", write(b"", False), ("refused", 12, 0, 0))
    for n in range(1, len(job_list([header()]))):
        expect("cut header", write(good[:n], False), ("refused", 12, 0, 0))
    for n in range(1, len(good) - 12):
        expect("cut record", write(good[:12 + n], False), ("refused", 12, 1, 0))
    expect("first of another kind", write(job_list([CLOCK]), False), ("refused", 12, 0, 0))
    expect("second header", write(job_list([header(), CLOCK, header()]), False),
           ("refused", 12, 2, 0))
    expect("body near 2^32", write(job_list([header()]) + h("ffffffff 0400") + bytes(8), False),
           ("refused", 12, 1, 0))
    fits = {1: range(10, 60, 2), 2: range(10, 60, 2), 3: range(10, 60, 4), 4: [8], 5: range(0, 60, 12), 6: [38]}
    for kind in list(range(8)) + [256, 65535]:
        for size in range(60):
            record = size.to_bytes(4, "little") + kind.to_bytes(2, "little") + bytes(size)
            expect(f"kind {kind}, {size} bytes", is_refused(write(job_list([header()]) + record, False)),
                   size not in fits.get(kind, []))
            expect(f"first, kind {kind}, {size} bytes", is_refused(write(record, False)),
                   (kind, size) != (0, 6))
    for padding, wanted in (0, None), (252, None), (256, 12), (2, 12), (65535, 12):
        answer = write(job_list([header(padding)]), False)
        expect("padding", answer[1] if is_refused(answer) else None, wanted)
    for thinning in 15, 16:
        answer = write(job_list([header(), rle([], 0, 0, thinning)]), False)
        expect("thinning", is_refused(answer), thinning == 16)
    expect("12 before 14", write(job_list([header()] + [CLOCK] * 40) + b"\0", False),
           ("refused", 12, 41, 0))
    expect("31 blocks", whole(write(job_list([header()] + [CLOCK] * 31), False), STANDARD), (31, 1))
    expect("32 blocks", write(job_list([header()] + [CLOCK] * 32), False), ("refused", 14, 32, 31))
    most = rle([3] * 131062, 0, 1)
    expect("131,062 words, plain", len(plain(most)), 262144)
    expect("131,062 words, careful", careful(most), ("refused", 14, 262148, 262144))
    expect("11", careful(CLOCK, room=19), ("refused", 11, 20, 19))
    expect("15 before 11", careful(dlrr(1), CLOCK, room=0), ("refused", 15, 0, 0))
    expect("padded is never 15", careful(dlrr(1), CLOCK, padding=4), plain(dlrr(1), CLOCK, padding=4))
    expect("kind 4 is one number", plain(CLOCK)[12:], h("01020304 05060708"))
    for word in 3, 32768:
        expect("two zero words", len(careful(rle([word, word], 0, 9))), 8 + 12 + 8)
    for own, size in ([], 12), ([16386], 16), ([16386, 0], 16), ([0, 1], 20), ([0, 0], 16), ([1, 2, 3], 20):
        expect("careful length", view(careful(rle(own, 0, 9)), STANDARD, 0)[1], size)
        expect("careful adds zeros only", careful(rle(own, 0, 9))[20:],
               layout([header(), rle(own + [0] * 4, 0, 9)], False)[20:8 + size])
    expect("a packet's bytes", plain(rle([49152, 5, 1], 1, 2, 3, 2), padding=4),
           h("a0cf0007 00000001 02030004 00000007 00010002 c0000005 00010000 00000004"))


def misled_facts():
    def misleads(*blocks):
        return misled([header(), *blocks])

    for own in [16386, 16385], [2, 16385]:
        expect("15", misleads(rle(own, 10, 12)), [0])
    for own in [16387], [16387, 16385]:
        expect("not 15", misleads(rle(own, 10, 12)), [])
    expect("15", misleads(rle([49408], 65530, 65531)), [0])
    for end in 0, 40000:
        expect("15", misleads(rle([16387], 0, end, 15)), [0])
    expect("15", misleads(rle([32767] * 4 + [16388, 16385], 5, 5)), [0])
    expect("not 15", misleads(rle([32767] * 4 + [16389], 5, 5)), [])
    for n in range(11):
        behind = [misleads(dlrr(n), block) for block in (CLOCK, dlrr(0))]
        expect("DLRR and 12 bytes", behind, [[0] if n % 4 == 1 else [], []])
    expect("index", misleads(CLOCK, CLOCK, dlrr(1), CLOCK), [2])
    for kind in 1, 2:
        for own in [], [3], [0], [32768], [3, 32768, 0], [32769]:
            block = rle(own, 5, 20, 2, kind)
            expect("off the grid: nothing listed", (misleads(block), misleads(CLOCK, block, CLOCK)), ([], []))
            expect("and written", is_refused(careful(block)), False)
        for own in [16385], [2, 16385], [16387], [34816], [3, 3, 16385], [49152]:
            expect("off the grid: 15", (misleads(rle(own, 5, 20, 2, kind)), careful(rle(own, 5, 20, 2, kind))),
                   ([0], ("refused", 15, 0, 0)))
        moved_up = careful(rle([16387], 8, 20, 2, kind))
        expect("begin moved up to the grid", both(numbers, moved_up, 0, kind), ([8, 12, 16],) * 2)
        # b 5, e 9: the crate's position 1 is 9, and fails from 5 on; b 5, e 8: it is past the end, and so is 8
        for end in 8, 9:
            expect("off the grid: a vector's one that fails", misleads(rle([0xa000], 5, end, 2, kind)), [])
            expect("off the grid: a one that starts a word passes", misleads(rle([1, 16385], 5, end, 2, kind)), [0])
    for own, end, behind, wanted in ([], 20, [], []), ([1], 20, [], [0]), ([1], 8, [], [0]), ([], 8, [dlrr(0)], [0]):
        expect("times off the grid", misleads(times(own, 5, end, 2), *behind), wanted)
    expect("times, begin moved up to the grid", misleads(times([1, 2, 3], 8, 20, 2), CLOCK), [])
    expect("times off the grid, padded", is_refused(careful(times([1], 5, 20, 2), padding=4)), False)


def misled_rules():
    """The open points' short form of 15 against the literal definition, on seeded lists."""
    draw = random.Random(2)
    seen = set()
    for _ in range(4000):
        blocks = [cleared(any_block(draw)) for _ in range(draw.randrange(1, 4))]
        found = [header(), *blocks]
        sizes = [len(layout([header(), b], True)) - 8 for b in blocks]
        short = [i for i, b in enumerate(blocks) if rule_misleads(b, sum(sizes[i + 1:]))]
        expect(f"short form of 15, {found}", misled(found), short)
        seen |= {(b[0], b[0] < 4 and ahead(b[1]) > 0, i in short) for i, b in enumerate(blocks)}
        for b in blocks:
            if b[0] in (1, 2):
                standard, crate = both(numbers, layout([header(), b], True), 0, b[0])
                if ahead(b[1]):
                    expect("off the grid no number is shared", set(standard) & set(crate), set())
                else:
                    expect("on the grid standard is a prefix of crate", crate[:len(standard)], standard)
    ranged = {(k, off, m) for k in (1, 2, 3) for off in (True, False) for m in (True, False)}
    expect("kinds met", seen, ranged | {(4, False, False), (5, False, True), (5, False, False), (6, False, False)})


def rule_misleads(block, behind):
    """By the record and how many bytes stand behind its block. Off the grid any number that the crate lists misleads."""
    kind = block[0]
    if kind in (4, 6):
        return False
    if kind == 5:
        return len(block[1]) % 4 == 1 and behind >= 12
    _, r, items = block
    if kind == 3:
        own, most, last = len(items), len(items) + behind // 4, steps(r)
        if ahead(r):
            return most > 0
        return not (most == own <= last or
                    own >= last and offset_sequence(last, r.begin, r) is None)
    p, start = 0, r.begin
    for word in items:
        for q, value in enumerate(values(word)):
            if value and (ahead(r) or not is_inside(p + q, r)):
                return offset_sequence(q, start, r) is not None
        p, start = p + covers(word), moved(start, word, r)
    return False


def mark_facts():
    one, zero = b"\1", b"\0"
    for marks, wanted in ((b"", []), (one, [49152]), (zero, [32768]), (zero * 3, [32768]),
                          (one * 14, [65534]), (one * 15, [16399]), (one * 16, [16400]),
                          (zero * 14, [32768]), (zero * 15, [15]), (zero * 16, [16]),
                          (zero + one * 28, [49151, 65534]), (zero + one * 29, [49151, 16399]),
                          (one * 15 + zero, [16399, 32768]), (one * 14 + zero + one, [65534, 49152]),
                          (zero * 14 + one, [32769]), (zero * 15 + one, [15, 49152]),
                          (one * 16383, [32767]), (one * 16384, [32767, 49152]),
                          (one * 16397, [32767, 65534]), (one * 16398, [32767, 16399]),
                          (zero * 16383, [16383]), (zero * 16384, [16383, 32768]),
                          (zero * 65536, [16383] * 4 + [32768]), (one * 65536, [32767] * 4 + [0xf800]),
                          ((one + zero) * 15, [0xd555, 0xaaaa])):
        expect(f"words of {len(marks)} marks", words_from_marks(marks), wanted)
        expect("words that fit their marks", misfit(marks, wanted), None)
    expect("the most words", len(words_from_marks((one + zero) * 32768)), 4370)
    expect("14", words_from_marks(one * 65537), ("refused", 14, 65537, 65536))
    expect("14 before 17", words_from_marks(b"\2" * 65537, 0), ("refused", 14, 65537, 65536))
    for bad in 2, 3, 48, 128, 255:
        for p in 0, 1, 19:
            marks = one * p + bytes([bad]) + one * (19 - p)
            expect("17", words_from_marks(marks), ("refused", 17, p, 0))
            expect("17, the first", words_from_marks(marks + b"\2"), ("refused", 17, p, 0))
    expect("17 before 11", words_from_marks(one * 20 + b"\2", 0), ("refused", 17, 20, 0))
    expect("11", words_from_marks(one * 16384, 1), ("refused", 11, 2, 1))
    expect("11, no room", words_from_marks(zero, 0), ("refused", 11, 1, 0))
    expect("no marks, no room", words_from_marks(b"", 0), [])
    for words_, what in (([16399, 0], "nothing"), ([16384, 16399], "nothing"), ([65535] * 2, "more"),
                         ([16398], "value"), ([15], "value"), ([16400], "behind")):
        expect("words that do not fit", what in (misfit(one * 15, words_) or ""), True)


def mark_turns():
    """Words of marks in a loss block with begin b and end b + marks: both readings of the careful packet list exactly
    the numbers b + p of the marks p that are 1, and it misleads nobody."""
    draw = random.Random(4)
    for marks in [b"", b"\1" * 65536, b"\0" * 65536, b"\0\1" * 32768, *(any_marks(draw, 60) for _ in range(400)),
                  *(any_marks(draw, 40000) for _ in range(6))]:
        own = words_from_marks(marks)
        expect("words that fit their marks", misfit(marks, own), None)
        for begin in 0, 65535, draw.randrange(65536):
            block = rle(own, begin, (begin + len(marks)) % 65536)
            heard = [(begin + p) % 65536 for p, mark in enumerate(marks) if mark]
            expect("never 15", misled([header(), block]), [])
            expect("plain, standard", numbers(plain(block), STANDARD, 0, 1), heard)
            expect("careful, both readings", both(numbers, careful(block), 0, 1), (heard, heard))


def portion_facts():
    def say(room, sizes, data):
        return told(room, sizes, data).splitlines()
    least = h("80CF0001 00000001")
    expect("portions: 8 bytes", say(2, [], least), ["header 8 1", "end", "taken 8 events 2"])
    expect("portions: nothing", say(2, [], b""), [])
    start = "start 1 16 ssrc 7 begin 10 end 14 thinning 0"
    expect("portions: each at its byte", say(9, [7, 1, 11, 1, 1, 1, 1, 1], SAMPLE),
           ["taken 7 events 0", "header 24 1", "taken 1 events 1", "taken 11 events 0", start, "taken 1 events 1",
            "taken 1 events 0", "number 10", "number 11", "taken 1 events 2", "taken 1 events 0",
            "number 12", "number 13", "end", "taken 1 events 3"])
    expect("portions: 11 takes nothing", say(5, [24, 23], SAMPLE)[0], "refused 11 7 5")
    expect("portions: 19 takes nothing", say(9, [9, 8], least + b"\0"),
           ["refused 19 8 9", "header 8 1", "end", "taken 8 events 2", "refused 19 8 9"])
    expect("portions: 19 before 11", say(0, [], least + b"\0"), ["refused 19 8 9"])
    expect("portions: 2 before 19", say(9, [9], h("40CF0001 00000001 00")), ["refused 2 0 0"])
    for head, wanted in ("80CF0000", "1 8 4"), ("20CE0000", "1 8 4"), ("20CE0001", "2 0 0"), ("A0CE0001", "3 0 0"), \
            ("A0CF0001", "18 0 0"):
        expect("portions: the header's fourth byte", say(9, [3, 1, 0], h(head)), ["taken 3 events 0"] + [f"refused {wanted}"] * 2)
    seven = h("80CF0004 00000001 63000000 04000000 00000000")
    expect("portions: 7 ends the events", say(9, [15, 1, 4], seven),
           ["header 20 1", "start 99 4", "taken 15 events 2"] + ["refused 7 12 4"] * 3)
    expect("portions: 11 before 7", say(1, [], seven), ["refused 11 2 1"])
    six = h("80CF0003 00000001 01000001 00000000")
    expect("portions: 7 where nothing is too long", say(9, [], six), ["header 16 1", "refused 7 12 8"])
    expect("portions: 6 before 7", say(9, [], six[:11] + b"\2" + six[12:]), ["header 16 1", "refused 6 12 8"])
    whole = told(FAR_ROOM, [], SEVERAL).splitlines()[:-1]
    for size in range(1, 30):
        lines = [line for line in told(FAR_ROOM, [size] * 200, SEVERAL).splitlines() if not line.startswith("taken")]
        expect("portions: however divided", lines, whole)


def dump_facts():
    expect("no block", dump(h("80cf0001 00000001")), "reading standard\nreading crate\nrefused 1\n")
    expect("longest", dump(h("80cf3fff 00000001") + bytes(65528)).count("\n"), 2 * (65528 // 4 + 1))
    expect("too long", dump(bytes(65537)), "refused 11\n")
    expect("refused 8", dump(h("80cf0002 00000001 03000000")),
           "reading standard\nblock 0 type 3 length 4\nrefused 7\n"
           "reading crate\nblock 0 type 3 length 4\nrefused 8\npairs\n")
    long = plain(rle([32767, 32767, 0, 0], 0, 0), CLOCK)
    line = "block 0 type 1 length 20\nssrc 7 begin 0 end 0 thinning 0\nrefused 11\n"
    clock = f"block 1 type 4 length 12\ntime {CLOCK[1]}\n"
    expect("long list", dump(long), f"reading standard\n{line}{clock}reading crate\n{line}{clock}")


SEVEN16, SEVEN20 = ("refused", 7, 12, 16), ("refused", 7, 12, 20)


def lost_facts():
    """A run of ones of no length: 7 in the standard for each question, 12 in a list, and the end of a packet's events."""
    def asks(packet, kind):
        return [fields(packet, STANDARD, 0, kind), words(packet, STANDARD, 0, kind), numbers(packet, STANDARD, 0, kind),
                words(packet, STANDARD, 0, kind, 0), numbers(packet, STANDARD, 0, kind, 0),
                cursor(packet, 0, kind, 0, 0, 0, 1, 1), cursor(packet, 0, kind, 9, 9, 9, 1, 0)]

    for kind in 1, 2:
        for own in [16384, 1], [1, 16384], [0, 16384], [16384, 0], [16384, 16384]:
            packet = plain(rle(own, 10, 14, kind=kind), CLOCK)
            expect(f"lost run in {own}", asks(packet, kind), [SEVEN16] * 7)
            expect("10 before it", fields(packet, STANDARD, 0, 3 - kind), ("refused", 10, kind, 0))
            expect("the next block", time(packet, STANDARD, 1), CLOCK[1])
            expect("the walk and the view", (whole(packet, STANDARD), view(packet, STANDARD, 0)[:2]), ((2, 1), (8, 16)))
            expect("the crate takes it", (fields(packet, CRATE, 0, kind), words(packet, CRATE, 0, kind)),
                   (Range(7, 10, 14, 0), own[:1]))
            for layout_ in False, True:
                expect("12", write(job_list([header(), CLOCK, rle(own, 10, 14, kind=kind)]), layout_), ("refused", 12, 2, 0))
        past = plain(rle([32767, 16385, 0, 16384], 10, 11, kind=kind))
        expect("past the range", asks(past, kind), [SEVEN20] * 7)
        for own in [16383, 16385], [64, 0], [32768, 49152], [0x0140, 2], [0, 0]:
            packet = plain((kind, Range(0x40004000, 0x4000, 0x4000, 0), own))
            expect(f"no lost run in {own}", words(packet, STANDARD, 0, kind), own)
    expect("a word across fields and words", words(h("80cf0005 00000001 01400003 00000007 000a0040 00010002"), STANDARD, 0, 1),
           [1, 2])
    expect("by length first", fields(h("80cf0003 00000001 01000001 40004000"), STANDARD, 0, 1), ("refused", 7, 12, 8))
    expect("times", pairs(plain(times([0x40004000, 16384], 5, 9)), STANDARD, 0), [(5, 0x40004000), (6, 16384)])
    expect("times are written", plain(times([0x40004000, 16384], 5, 9)),
           write(job_list([header(), times([0x40004000, 16384], 5, 9)]), False))
    expect("dump", dump(plain(rle([16386, 16384], 10, 14))),
           "reading standard\nblock 0 type 1 length 16\nrefused 7\n"
           "reading crate\nblock 0 type 1 length 16\nssrc 7 begin 10 end 14 thinning 0\nnumbers 10 11\n")
    lost, bad = rle([16384], 1, 2), rle([], 0, 0, 16)
    for blocks, index in ([lost, bad], 1), ([bad, lost], 1), ([CLOCK, lost, lost], 2), ([CLOCK] * 40 + [lost], 41):
        expect("12, the first bad record", write(job_list([header(), *blocks]), True), ("refused", 12, index, 0))
    expect("a bad header first", write(job_list([header(2), lost]), False), ("refused", 12, 0, 0))
    expect("12 before 15 and 11", careful(dlrr(1), CLOCK, lost, room=0), ("refused", 12, 3, 0))
    expect("lost records", [lost_record(job_list([header(), *some])) for some in ([], [lost], [CLOCK, lost], [lost, bad])],
           [None, 1, 2, None])
    expect("the Rust's records", records(job_list([header(), CLOCK, lost]), lost=True), [header(), CLOCK, lost])
    two = plain(rle([16385, 16384, 16385, 0], 10, 14), CLOCK)
    start = "start 1 20 ssrc 7 begin 10 end 14 thinning 0"
    expect("portions", told(9, [], two).splitlines(), ["header 40 1", start, "number 10", "refused 7 12 20"])
    expect("portions: at the second byte", told(9, [23, 1, 0, 9], two).splitlines(),
           ["header 40 1", start, "number 10", "taken 23 events 3"] + ["refused 7 12 20"] * 4)
    expect("portions: 11 before it", told(2, [], two).splitlines(), ["refused 11 3 2"])
    expect("portions: 19 before it", told(9, [], two + b"\0").splitlines(), ["refused 19 40 41"])
    end = plain(rle([32767, 16385, 0, 16384], 10, 11))
    expect("portions: past the range", told(9, [27, 1], end).splitlines(),
           ["header 28 1", "start 1 20 ssrc 7 begin 10 end 11 thinning 0", "number 10", "taken 27 events 3",
            "refused 7 12 20"])
    expect("portions: times", told(9, [], plain(times([0x40004000], 5, 9))).splitlines()[2:],
           ["pair 5 1073758208", "end", "taken 24 events 4"])


def lost_turns():
    """Seeded packets: what the standard answers of a block whose one word is made a run of no length, and of the others."""
    draw = random.Random(5)
    for _ in range(300):
        blocks = [cleared(any_block(draw)) for _ in range(4)]
        some = [i for i, block in enumerate(blocks) if block[0] in (1, 2) and block[2]]
        if not some:
            continue
        packet, i = plain(*blocks), draw.choice(some)
        kind, r, own = blocks[i]
        at = draw.randrange(len(own))
        spoilt = plain(*blocks[:i], (kind, r, own[:at] + [16384] + own[at + 1:]), *blocks[i + 1:])
        place, length, _ = view(packet, STANDARD, i)
        for index, block in enumerate(blocks):
            if block[0] in (1, 2):
                found = numbers(spoilt, STANDARD, index, block[0])
                wanted = numbers(packet, STANDARD, index, block[0]) if index != i else ("refused", 7, 12, length)
                expect("one word spoilt", found, wanted)
        byte = place + 14 + 2 * at
        before, after = (told(2**32, [byte - 1], some).splitlines() for some in (packet, spoilt))
        until = next(k for k, line in enumerate(before) if line.startswith("taken ")) + 1
        expect("events up to it", after, before[:until] + [f"refused 7 12 {length}"])


FULL = Summary(7, 10, 14, *NUMBERS[3:5], NUMBERS[5:9], 1, NUMBERS[9:])
SUMMED = h("80cf000b 00000001 06e80009 00000007 000a000e 21222324 31323334 41424344 51525354 61626364 71727374 81828384")


def flagged(flags):
    """SUMMED with other flags."""
    return SUMMED[:9] + bytes([flags]) + SUMMED[10:]


def sized(length):
    """A packet of one type 6 block of so many bytes."""
    return h("80cf") + (1 + length // 4).to_bytes(2, "big") + h("00000001 06e8") + (length // 4 - 1).to_bytes(2, "big") \
        + bytes(length - 4)


def summary_facts():
    expect("a summary", summary(SUMMED, STANDARD, 0), FULL)
    expect("a summary, flags clear", summary(flagged(0), STANDARD, 0), Summary(7, 10, 14, None, None, None, 0, None))
    for flags in range(256):
        toh = flags // 8 % 4
        found = summary(flagged(flags), STANDARD, 0)
        expect("L", found.lost, 0x21222324 if flags >= 128 else None)
        expect("D", found.duplicates, 0x31323334 if flags % 128 >= 64 else None)
        expect("J", found.jitter, NUMBERS[5:9] if flags % 64 >= 32 else None)
        expect("ToH", (found.toh, found.hops), (toh, NUMBERS[9:] if toh in (1, 2) else None))
        expect("the span", found[:3], (7, 10, 14))
        expect("reserved bits", found, summary(flagged(flags & 248), STANDARD, 0))
    zero = summary(plain(summed(232, *([0] * 13))), STANDARD, 0)
    expect("0 is not absent", zero, Summary(0, 0, 0, 0, 0, (0,) * 4, 1, (0,) * 4))
    for length in range(4, 61, 4):
        answer = summary(sized(length), STANDARD, 0)
        expect("7 with 40", answer if is_refused(answer) else None, None if length == 40 else ("refused", 7, 40, length))
        expect("the crate has no question", summary(sized(length), CRATE, 0), ("refused", 10, 6, 0))
        expect("it walks", both(whole, sized(length)), ((1, 1),) * 2)
    expect("9", summary(SUMMED, STANDARD, 1), ("refused", 9, 1, 0))
    expect("10", both(summary, plain(CLOCK), 0), (("refused", 10, 4, 0),) * 2)
    expect("no other question", [both(fields, SUMMED, 0, kind) for kind in (1, 2, 3, 6)], [(("refused", 10, 6, 0),) * 2] * 4)
    lines = "ssrc 7 begin 10 end 14\nlost 555885348 duplicates 825373492\njitter {} {} {} {}\nttl 129 130 131 132\n"
    expect("dump", dump(SUMMED), "reading standard\nblock 0 type 6 length 40\n" + lines.format(*NUMBERS[5:9])
           + "reading crate\nblock 0 type 6 length 40\n")
    for flags, last in (0, "ttl absent"), (16, "hops 129 130 131 132"), (24, "toh 3 absent"), (31, "toh 3 absent"):
        expect("dump, by ToH", dump(flagged(flags)).splitlines()[2:6],
               ["ssrc 7 begin 10 end 14", "lost absent duplicates absent", "jitter absent", last])
    expect("dump, L alone", dump(flagged(128)).splitlines()[3], "lost 555885348 duplicates absent")
    expect("dump, D alone", dump(flagged(64)).splitlines()[3], "lost absent duplicates 825373492")
    expect("dump, another length", dump(sized(36)), "reading standard\nblock 0 type 6 length 36\nrefused 7\n"
                                                    "reading crate\nblock 0 type 6 length 36\n")
    line = "summary ssrc 7 begin 10 end 14; lost 555885348 duplicates absent; jitter absent; ttl absent"
    expect("portions", told(9, [11, 1, 35, 1], flagged(128)).splitlines(),
           ["header 48 1", "taken 11 events 1", "start 6 40", "taken 1 events 1", "taken 35 events 0", line, "end",
            "taken 1 events 2"])
    expect("portions, another length", told(9, [11, 1], sized(36)).splitlines(),
           ["header 44 1", "taken 11 events 1", "refused 7 40 36", "refused 7 40 36"])


def summary_jobs():
    body = job_list([summed(0)])
    for flags in range(256):
        answer = write(job_list([header(), summed(flags)]), False)
        expect(f"flags {flags}", answer, flagged(flags) if flags in FLAGS else ("refused", 12, 1, 0))
    for second in range(256):
        record = body[:7] + bytes([second]) + body[8:]
        expect("second byte", is_refused(write(job_list([header()]) + record, False)), second != 0)
    expect("the bytes of a record", job_list([summed(232)]),
           h("26000000 0600 e800 07000000 0a00 0e00 24232221 34333231 44434241 54535251 64636261 74737271 81828384"))
    for flags in FLAGS:
        expect("both layouts", careful(summed(flags)), plain(summed(flags)))
    two = summed(128), summed(64)
    expect("two", [summary(careful(*two), STANDARD, i) for i in (0, 1)], [summary_from(*r[1:]) for r in two])
    expect("an echo, then a summary", careful(dlrr(1), summed(232)), ("refused", 15, 0, 0))
    expect("a summary, then an echo", careful(summed(232), dlrr(1)), plain(summed(232), dlrr(1)))
    expect("times, then a summary", careful(CLOCK, times([1], 5, 9), summed(0)), ("refused", 15, 1, 0))
    expect("as many times as are inside", careful(times([1], 5, 6), summed(0)), plain(times([1], 5, 6), summed(0)))
    expect("words, then a summary", careful(rle([16387], 10, 14), summed(0)), plain(rle([16387], 10, 14), summed(0)))
    expect("12 before 15", careful(dlrr(1), summed(232), summed(24)), ("refused", 12, 3, 0))


def summary_turns():
    """Written and read: a summary shows what its record asks, whatever stands around it."""
    draw = random.Random(6)
    for _ in range(400):
        record = any_summary(draw)
        before, behind = ([cleared(any_block(draw)) for _ in range(draw.randrange(3))] for _ in range(2))
        for own in False, True:
            packet = layout([header(), *before, record, *behind], own)
            expect("read back", summary(packet, STANDARD, len(before)), summary_from(*record[1:]))
        expect("records come back", records(job_list([header(), record])), [header(), record])
