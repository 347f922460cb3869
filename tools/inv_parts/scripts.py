"""Where the statements of a script begin and end (docs/LANGUAGE.md, "Where a statement ends")."""
import re
from collections import deque, namedtuple

# One whose closing quote is missing goes to the end of the script, as in the program.
TEXT = rb"'[^']*(?:''[^']*)*(?:'|\Z)"
TOKEN = re.compile(
    rb"(?P<comment>--[^\n]*)|(?P<space>[ \t\r\n]+)|(?P<text>" + TEXT + rb")"
    rb"|(?P<word>[A-Za-z_!][A-Za-z0-9_!]*)|(?P<number>#?[0-9]+)|(?P<symbol><>|<=|>=|\|\||.)", re.DOTALL)

OPERATOR_WORDS = {b"rename", b"add", b"decompose", b"join", b"outer", b"split", b"merge"}
OPERATOR_PAIRS = {(b"create", b"table"), (b"drop", b"table"), (b"drop", b"column")}

# The shapes of replies: one line, a table of rows, one as CSV, the lines of SHOW LAYOUT, those of ADVISE.
LINE, ROWS, CSV, LAYOUT, ADVICE = "line", "rows", "csv", "layout", "advice"

Token = namedtuple("Token", "start end word")
Statement = namedtuple("Statement", "start end shape")


def tokens(script):
    """The tokens of a script without comments and white space; words are in lower case."""
    for match in TOKEN.finditer(script):
        if match.lastgroup not in ("comment", "space"):
            word = match.group()
            yield Token(match.start(), match.end(), word.lower() if match.lastgroup == "word" else word)


class Ahead:
    """Tokens that can be looked at before they are taken."""

    def __init__(self, source):
        self.source, self.seen = source, deque()

    def word(self, place):
        """The word `place` tokens ahead, or None behind the last one."""
        while len(self.seen) <= place:
            token = next(self.source, None)
            if token is None:
                return None
            self.seen.append(token)
        return self.seen[place].word

    def take(self):
        """The next token, or None."""
        return self.seen.popleft() if self.word(0) is not None else None


def begins_operator(ahead):
    """Whether an operator of a CREATE SCHEMA VERSION comes next."""
    first = ahead.word(0)
    return first in OPERATOR_WORDS or (first in (b"create", b"drop") and (first, ahead.word(1)) in OPERATOR_PAIRS)


def shape(words, last):
    """The shape of a statement's reply, from its first two words and its last three."""
    if words[0] == b"select":
        return CSV if list(last)[:2] == [b"as", b"csv"] else ROWS
    if words == [b"show", b"layout"]:
        return LAYOUT
    return ADVICE if words[0] == b"advise" else LINE


def statements(script):
    """The statements of a script that end with their `;`, in order."""
    ahead = Ahead(tokens(script))
    words, last, start = [], deque(maxlen=3), None
    while True:
        token = ahead.take()
        if token is None:
            return
        start = token.start if start is None else start
        if len(words) < 2:
            words.append(token.word)
        last.append(token.word)
        if token.word == b";" and not (words[0] == b"create" and begins_operator(ahead)):
            yield Statement(start, token.end, shape(words, last))
            words, start = [], None
            last.clear()


def line_of(script, place):
    """The number of the line in which a place of a script stands; the first is 1."""
    return script.count(b"\n", 0, place) + 1


def open_text(script):
    """Where a text begins whose closing quote is missing, or None."""
    for match in TOKEN.finditer(script):
        if match.lastgroup == "text" and match.group().count(b"'") % 2:
            return match.start()
    return None
