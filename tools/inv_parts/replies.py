"""Which lines of a run answer which statement (docs/LANGUAGE.md, "Statements")."""
import re

from . import scripts

REFUSED = re.compile(rb"refused \d+ .")
ROWS_END = re.compile(rb"rows (\d+)\Z")
BEST = re.compile(rb"best [^0-9]")

# A run that ends with one of these statuses has a last line that answers no statement.
LAST_LINE = (2, 3, 4, 5, 7, 8)
# One that ends with one of these has written a front of what it writes otherwise.
FRONT = (1, 6)


class Told:
    """What a run answered: the lines of each reply, in order, and the last line, if it is none of them."""

    def __init__(self, replies, last):
        self.replies, self.last = replies, last

    def refusals(self):
        """The number of each statement that was refused, from 0, with its line."""
        return [(number, lines[0]) for number, lines in enumerate(self.replies) if REFUSED.match(lines[0])]


def told(script_statements, out, status):
    """Takes the output of a run apart, or answers None where it isn't one of these statements."""
    lines = out.split(b"\n")
    last = None
    if lines[-1] == b"":
        lines.pop()
    if status in LAST_LINE and lines:
        last = lines.pop()
    shapes = [statement.shape for statement in script_statements]
    ends = reply_ends(lines, shapes, status in FRONT or status > 8 or status < 0)
    if ends is None:
        return None
    return Told([lines[start:end] for start, end in zip([0] + ends, ends)], last)


def reply_ends(lines, shapes, front):
    """The place behind each reply. A row of CSV may look as the end of its rows does, so each end is a guess:
    where a guess leads nowhere, the next one is tried."""
    if not lines:
        return []
    if not shapes:
        return None
    guesses, ends = [guessed_ends(lines, 0, shapes[0], front)], []
    while guesses:
        end = next(guesses[-1], None)
        if end is None:
            guesses.pop()
            del ends[-1:]
        elif end == len(lines):
            return ends + [end]
        elif len(guesses) < len(shapes):
            ends.append(end)
            guesses.append(guessed_ends(lines, end, shapes[len(ends)], front))
    return None


def guessed_ends(lines, start, shape, front):
    """Where the reply that begins at a line may end; only CSV leaves more than one choice."""
    if shape == scripts.LINE or REFUSED.match(lines[start]):
        yield start + 1
    elif shape == scripts.LAYOUT:
        yield from first_end(lines, start, lambda line: line == b"ok")
    elif shape == scripts.ADVICE:
        yield from first_end(lines, start, BEST.match)
    else:
        yield from row_ends(lines, start + 1, shape)
    if front:
        yield len(lines)


def first_end(lines, start, is_last):
    """The place behind the first line that is a last one, if there is one."""
    for place in range(start, len(lines)):
        if is_last(lines[place]):
            yield place + 1
            return


def row_ends(lines, place, shape):
    """The places behind a line `rows N` that stands behind N rows. A text in a row may have line feeds:
    a row ends with a line behind which its quotes are even."""
    quote = b'"' if shape == scripts.CSV else b"'"
    rows = 0
    while place < len(lines):
        end = ROWS_END.match(lines[place])
        if end and int(end[1]) == rows:
            yield place + 1
        quotes = lines[place].count(quote)
        while quotes % 2 and place + 1 < len(lines):
            place += 1
            quotes += lines[place].count(quote)
        place, rows = place + 1, rows + 1
