"""Chunk words from heard marks, as RULES has them.

marks    one byte for each position, in order: 1 heard, 0 not
Checks stand in RULES' order: 14, 17, 11.
"""
from lists import into, values
from readings import question, refuse

MOST_MARKS = 65536
VECTOR = 15         # the marks of a vector; as many equal ones are a run
LONGEST = 16383     # of a run


@question
def words_from_marks(marks, room=None):
    refuse(len(marks) > MOST_MARKS, 14, len(marks), MOST_MARKS)
    bad = next((p for p, mark in enumerate(marks) if mark > 1), None)
    refuse(bad is not None, 17, bad, 0)
    words, p = [], 0
    while p < len(marks):
        word, taken = next_word(marks, p)
        words.append(word)
        p += taken
    return into(words, len(words), room)


def next_word(marks, p):
    """The word from position p on, and how many marks it takes."""
    equal = equal_from(marks, p)
    if equal >= VECTOR:
        return marks[p] << 14 | equal, equal
    word = 1
    for q in range(p, p + VECTOR):
        word = word << 1 | (marks[q] if q < len(marks) else 0)
    return word, VECTOR


def equal_from(marks, p):
    """How many marks from position p on are equal, no more than a run can be long."""
    equal = 0
    while equal < LONGEST and p + equal < len(marks) and marks[p + equal] == marks[p]:
        equal += 1
    return equal


def misfit(marks, words):
    """What these words are not that words of good marks always are, by the standard reading of each word; or None."""
    if 0 in words or 16384 in words:
        return "a word that covers nothing"
    if len(words) > -(-len(marks) // VECTOR):
        return "more words than one for 15 marks"
    covered = b"".join(bytes(values(word)) for word in words)
    if covered[:len(marks)] != marks:
        return "a mark is not covered with its value"
    return "a one behind the marks" if any(covered[len(marks):]) else None
