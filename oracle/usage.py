"""A script's words on its command line: --help, and what is amiss."""
import sys


def words(doc, *names, least=None):
    """The arguments, as many as there are names (or from `least` on); --help prints the script's doc."""
    given = sys.argv[1:]
    if any(word in ("-h", "--help") for word in given):
        print(doc.strip())
        sys.exit(0)
    least = len(names) if least is None else least
    if not least <= len(given) <= len(names):
        amiss(doc, f"{len(given)} arguments given")
    for word in given:
        if word.startswith("--") and word not in names:
            amiss(doc, f"no option {word}")
    return given


def number(doc, word, least=0):
    """A whole number from `least` on."""
    if not word.isdecimal() or int(word) < least:
        amiss(doc, f"{word!r} is no number from {least} on")
    return int(word)


def amiss(doc, what):
    usage = next(line.strip() for line in doc.splitlines() if line.startswith("    "))
    print(f"{what}\nusage: {usage}", file=sys.stderr)
    sys.exit(2)
