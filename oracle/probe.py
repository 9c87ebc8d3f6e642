"""xrprobe from outside: its requests, a run of it, and what the model says that it must answer.

request    (kind, payload); the payload is made by the function of the kind's name below
answer     text lines, without the `.` behind them; None where the run is cut
The kinds are those of README.md, "xrprobe". Numbers are little-endian.
"""
import os
import struct
import subprocess
import sys
import tempfile

from dump import dump, flattened, summary_lines
from jobs import MOST_BYTES, write
from lists import cursor, entries, make_word, numbers, pairs, words
from marks import words_from_marks
from portions import told as portions_told
from readings import STANDARD, fields, is_refused, summary, time, view, whole

ROOT = os.path.dirname(os.path.dirname(os.path.abspath(__file__)))
LENT = 16384        # the most room that a list is lent
LONGEST = 300000    # the longest payload, in bytes

DUMP, LIST, FIELDS, CURSOR, PLAIN, CAREFUL, WORD, PARSE, WORDS, MARKS, VIEW, PORTIONS, SUMMARY, NUMBERS = range(1, 15)
NO_KIND = 0         # of the kinds that are none
FORMS = {DUMP: "<", LIST: "<BIBI", FIELDS: "<BIB", CURSOR: "<IBIIIII", PLAIN: "<I", CAREFUL: "<I", WORD: "<BII",
         PARSE: "<B", WORDS: "<BIBI", MARKS: "<I", VIEW: "<BI", PORTIONS: "<IH", SUMMARY: "<I",
         NUMBERS: "<BIBI"}
# For each kind with an asked type: the types that it serves. LIST takes no other; of the others a byte that
# they do not serve is refused as 10 (FIELDS asks the time for 4).
TYPES = {LIST: (1, 2, 3, 5), FIELDS: (1, 2, 3, 4), CURSOR: (1, 2), WORDS: (1, 2), NUMBERS: (1, 2)}
BYTES = (0, 1, 2, 3, 4, 5, 6, 7, 207, 255)


def asked(kind):
    """Types that a kind may be asked for."""
    return TYPES[LIST] if kind == LIST else BYTES


def request(kind, *given, packet=b""):
    """The kind's numbers, in order, and then the packet (for PLAIN and CAREFUL the job list, for MARKS the marks)."""
    return kind, struct.pack(FORMS[kind], *given) + packet


def portions(room, sizes, data):
    """A request of kind 12: calls with so many bytes each, on the bytes of a packet."""
    return PORTIONS, struct.pack(f"<IH{len(sizes)}I", room, len(sizes), *sizes) + data


def framed(requests):
    return b"".join(struct.pack("<BI", kind, len(payload)) + payload for kind, payload in requests)


# Runs

def command():
    """How xrprobe is run: as tools/run-program does, which builds it first where that is due."""
    first = subprocess.run([os.path.join(ROOT, "tools", "run-program"), "xrprobe"],
                           stdin=subprocess.DEVNULL, stdout=subprocess.PIPE)
    if first.returncode != 0 or first.stdout != b"":
        sys.exit("xrprobe: it does not run, or says something on empty input")
    return [os.path.join(ROOT, "crates", "xrprobe", "out", "xrprobe")]


def run(how, data):
    """What a program says to `data` on its standard input; None where it fails."""
    with tempfile.TemporaryFile() as given:
        given.write(data)
        given.seek(0)
        done = subprocess.run(how, stdin=given, stdout=subprocess.PIPE)
    return done.stdout.decode("ascii") if done.returncode == 0 else None


# The model

def answer(kind, payload):
    if kind not in FORMS or len(payload) < struct.calcsize(FORMS[kind]):
        return None
    size = struct.calcsize(FORMS[kind])
    given, packet = struct.unpack_from(FORMS[kind], payload), payload[size:]
    if kind in (LIST, FIELDS, PARSE, WORDS, VIEW, NUMBERS) and given[0] > 1:
        return None
    if kind == LIST and given[2] not in TYPES[LIST]:
        return None
    return ANSWERS[kind](given, packet)


def told(found, text):
    """A refusal, or the text of what was found."""
    if is_refused(found):
        return "refused {} {} {}\n".format(*found[1:])
    return text(found) + "\n"


def listed(word, items):
    return " ".join([word] + [str(x) for item in items for x in flattened(item)])


def list_answer(given, packet):
    reading, block, asked, room = given
    room = min(room, LENT)
    if asked == 3:
        return told(pairs(packet, reading, block, room), lambda found: listed("pairs", found))
    if asked == 5:
        return told(entries(packet, reading, block, room), lambda found: listed("entries", found))
    return numbers_answer(given, packet)


def numbers_answer(given, packet):
    reading, block, asked, room = given
    return told(numbers(packet, reading, block, asked, min(room, LENT)),
                lambda found: listed("numbers", found))


def words_answer(given, packet):
    reading, block, asked, room = given
    return told(words(packet, reading, block, asked, min(room, LENT)),
                lambda found: listed("words", found))


def fields_answer(given, packet):
    reading, block, asked = given
    if asked == 4:
        return told(time(packet, reading, block), lambda found: f"time {found}")
    return told(fields(packet, reading, block, asked),
                lambda r: f"ssrc {r.ssrc} begin {r.begin} end {r.end} thinning {r.thinning}")


def cursor_answer(given, packet):
    block, asked, word, place, position, budget, room = given
    return told(cursor(packet, block, asked, word, place, position, budget, min(room, LENT)),
                lambda f: "taken {} word {} place {} position {}\n".format(*f) + listed("numbers", f[4]))


def written_answer(careful):
    return lambda given, jobs: told(write(jobs, careful, min(*given, MOST_BYTES)),
                                    lambda found: f"packet {found.hex()}")


def word_answer(given, behind):
    kind, value, room = given
    if kind > 3 or behind:
        return None
    return told(make_word(kind, value, room), lambda found: f"word {found.hex()}")


def marks_answer(given, marks):
    return told(words_from_marks(marks, min(*given, LENT)), lambda found: listed("words", found))


def portions_answer(given, behind):
    room, count = given
    if len(behind) < 4 * count:
        return None
    return portions_told(min(room, LENT), struct.unpack_from(f"<{count}I", behind), behind[4 * count:])


def summary_answer(given, packet):
    return told(summary(packet, STANDARD, *given), lambda found: "\n".join(summary_lines(found)))


def parse_answer(given, packet):
    return told(whole(packet, *given), lambda found: "blocks {} ssrc {}".format(*found))


def view_answer(given, packet):
    return told(view(packet, *given),
                lambda found: f"view {found[0]} {found[1]} header {found[2].hex()}")


ANSWERS = {DUMP: lambda _, packet: dump(packet), LIST: list_answer, FIELDS: fields_answer,
           CURSOR: cursor_answer, PLAIN: written_answer(False), CAREFUL: written_answer(True), WORD: word_answer,
           PARSE: parse_answer, WORDS: words_answer, MARKS: marks_answer, VIEW: view_answer,
           PORTIONS: portions_answer, SUMMARY: summary_answer, NUMBERS: numbers_answer}


def run_answer(data):
    """The whole of what xrprobe must say to `data` on its standard input."""
    at, text = 0, ""
    while at < len(data):
        if len(data) - at < 5:
            return text + "cut\n"
        kind, size = struct.unpack_from("<BI", data, at)
        if size > LONGEST or len(data) - at - 5 < size:
            return text + "cut\n"
        found = answer(kind, data[at + 5:at + 5 + size])
        if found is None:
            return text + "cut\n"
        text += found + ".\n"
        at += 5 + size
    return text
