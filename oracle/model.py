#!/usr/bin/env python3
"""The model: the rules of docs/RULES.md in Python, to try definitions and programs against.

    python3 oracle/model.py --selftest | --dump

--selftest tries the model on the twelve examples and the open points' facts; --dump prints both readings of
the packet on standard input, as xrdump does. The model's author had read the Rust. Exactness before speed.
    readings.py        the packet, the walk, a block's view, fields and time, in both readings
    lists.py           chunk words, the lists of both readings, the cursor
    jobs.py            job lists, the plain and the careful layout, refusal 15
    marks.py           chunk words from heard marks
    portions.py        packets that come in portions
    dump.py            what xrdump prints
    model_selftest.py  the examples and the open points' facts
"""
import sys

sys.dont_write_bytecode = True
from dump import dump  # noqa: E402
from usage import amiss, words  # noqa: E402

if __name__ == "__main__":
    [what] = words(__doc__, *(sys.argv[1:2] or ["WHAT"]))
    if what == "--selftest":
        import model_selftest
        sys.exit(model_selftest.run())
    if what != "--dump":
        amiss(__doc__, f"no option {what}")
    sys.stdout.write(dump(sys.stdin.buffer.read()))
