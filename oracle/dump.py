"""What xrdump prints, as RULES has it."""
from itertools import islice

from lists import entries_of, numbers_of, pairs_of
from readings import CRATE, STANDARD, Refusal, check_fit, fields_of, summary_of, time_of, walk

DUMP_PACKET = 65536     # the longest packet that the dump takes, in bytes
DUMP_LIST = 16384       # the longest list that it shows, in items


def dump(packet):
    if len(packet) > DUMP_PACKET:
        return "refused 11\n"
    lines = []
    for reading, name in (STANDARD, "standard"), (CRATE, "crate"):
        lines.append(f"reading {name}")
        try:
            for i, block in enumerate(walk(packet, reading)):
                lines.append(f"block {i} type {block.kind} length {block.length}")
                lines += block_lines(block)
        except Refusal as refusal:
            lines.append(f"refused {refusal.args[0]}")
    return "".join(line + "\n" for line in lines)


def block_lines(block):
    try:
        check_fit(block)
    except Refusal as refusal:
        return [f"refused {refusal.args[0]}"]
    if block.kind in (1, 2):
        return [fields_line(block), list_line("numbers", numbers_of(block))]
    if block.kind == 3:
        return [fields_line(block), list_line("pairs", pairs_of(block))]
    if block.kind == 4:
        return [f"time {time_of(block)}"]
    if block.kind == 5:
        return [list_line("entries", entries_of(block))]
    if block.kind == 6 and block.reading == STANDARD:
        return summary_lines(summary_of(block))
    return []


def fields_line(block):
    try:
        r = fields_of(block)
    except Refusal as refusal:
        return f"refused {refusal.args[0]}"
    return f"ssrc {r.ssrc} begin {r.begin} end {r.end} thinning {r.thinning}"


def summary_lines(s):
    def said(numbers):
        return "absent" if numbers is None else " ".join(map(str, flattened(numbers)))

    return [f"ssrc {s.ssrc} begin {s.begin} end {s.end}", f"lost {said(s.lost)} duplicates {said(s.duplicates)}",
            f"jitter {said(s.jitter)}", f"{('ttl', 'ttl', 'hops', 'toh 3')[s.toh]} {said(s.hops)}"]


def list_line(word, items):
    shown = list(islice(items, DUMP_LIST + 1))
    if len(shown) > DUMP_LIST:
        return "refused 11"
    return " ".join([word] + [str(x) for item in shown for x in flattened(item)])


def flattened(item):
    return item if isinstance(item, tuple) else (item,)
