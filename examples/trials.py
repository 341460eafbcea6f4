"""What the programs share that write trials: the lines that a program reads, and what it must print at each."""

import hashlib
import sys

lines, told = [], []

# The statement of account 1 after enrolments of a consumer and a merchant, a fund of 500 and an order of 500, as it stands on paper.
STATEMENT = """\
account 1
       1 fund 00000000000000000000000000000000                  500                  500
       2 out  0000000200000000000003e800000001                  500                    0
closing 0
"""

# The most bytes of a piece of a statement.
STATEMENT_PIECE = 32_768


def say(line, *answers):
    """A line, and what the program prints at it: an answer, or a function that gives it where it takes long."""
    lines.append(line)
    told.extend(answers)


def title(text):
    """A line that is printed as it is."""
    say("# " + text, "# " + text)


def words(word, numbers):
    """A line of a word and numbers."""
    return " ".join([word, *map(str, numbers)])


def shown(text, most=1000):
    """Bytes, or of more than so many their number and their digest."""
    if not text:
        return "nothing"
    return text.hex() if len(text) <= most else f"{len(text)} bytes, {hashlib.sha256(text).hexdigest()}"


def joined(lines, most):
    """Lines joined to pieces of at most so many letters each. None is parted."""
    pieces = [""]
    for line in lines:
        if len(pieces[-1] + line) > most:
            pieces.append("")
        pieces[-1] += line
    return pieces


def write(program, rows):
    """Goes through the rows, and writes the file that the program's word names: 'stdin' the lines, 'stdout' what is printed at them."""
    if sys.argv[1:] not in (["stdin"], ["stdout"]):
        sys.exit(f"examples/{program}: the word is stdin or stdout")
    for row in rows:
        row()
    for text in lines if sys.argv[1] == "stdin" else told:
        print(text() if callable(text) else text)
