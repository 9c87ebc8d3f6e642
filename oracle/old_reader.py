"""What the Rust, as the old reader, shows of a packet beside what the standard reading shows.

read(packet, text) takes the oracle's text about a packet (src/answer.rs) and gives
  None                       the Rust refuses the packet
  (accepted, otherwise)      the indices of the blocks that it accepts, and of those the ones that it shows otherwise
Shown are fields, numbers, pairs, time and entries, not chunk words. A block of which the Rust shows type and length
only, as it does of a summary, is not shown otherwise. The standard reading is the model's; of a list of over 64 items
count and hash are compared.
"""
from readings import STANDARD, walk
from rules import block_lines, by_block


def read(packet, text):
    first, *lines = text.splitlines()
    if first.startswith("parse error "):
        return None
    if not first.startswith("parse ok "):
        raise ValueError(f"the Rust said {first!r}")
    accepted, otherwise = [], []
    for i, (block, own) in enumerate(zip(walk(packet, STANDARD), by_block(lines), strict=True)):
        if not own[1:] or not own[1].startswith("error "):
            accepted.append(i)
            if own[1:] and shown(own[1:]) != shown(block_lines(block, set())):
                otherwise.append(i)
    return accepted, otherwise


def shown(lines):
    return [line for line in lines if not line.startswith("words")]
