"""What is told on standard error of a run: refused statements by their lines, the place of a fault, and a hint."""
import re
import sys

from . import scripts

REFUSED_STATUS = 10
SHOWN = 100

# What a fault begins with, in lower case, and what to say then. The first that fits is told.
HINTS = [
    (rb"\xef\xbb\xbf", "the script begins with a byte order mark: save it as UTF-8 without one"),
    (rb"!=", "unequal is <>"),
    (rb'"', "texts stand between single quotes, and names without quotes"),
    (rb"`|\[", "names stand without quotes"),
    (rb"\xe2\x80[\x98-\x9f]", "texts stand between straight single quotes"),
    (rb"[\x80-\xff]", "outside of texts and comments only ASCII can stand"),
    (rb"/\*|//", "a comment begins with --"),
    (rb"\.[0-9]", "numbers are whole"),
    (rb"(order|group|having|limit|like|between|distinct|union|exists)\b", "the language has no such clause"),
    (rb"(int|integer|bigint|text|varchar|char|bool|boolean|date|timestamp|numeric|real|serial)\b",
     "columns have no types"),
    (rb"\(", "the language has no functions, and INSERT no list of columns"),
    (rb"(true|false)\b", "write 1 or 0"),
    (rb"(select|insert|update|delete|create|drop|import|materialize|use|session|advise|show)\b",
     "is a ; missing before it? A reserved word, it can't be a name"),
    (b"(" + rb"|".join(sorted(
        b"add advise and as begin column commit csv decompose default fk foreign from in into is join key layout merge "
        b"not null on or outer pk primary rename rollback schema set split step steps table to tracked unwatch values "
        b"version watch where with".split())) + rb")\b", "is a word missing before it, or another one due? A reserved word, it can't be a name"),
]

LAST_LINES = {
    b"bad words": "the program doesn't take these words: is it an older one?",
    b"dump refused": "the list is no dump of a valid database",
    b"read fault": "the script couldn't be read",
    b"file fault": "the list couldn't be read or written",
}


def say(*lines):
    """Writes lines to standard error."""
    for line in lines:
        print(line, file=sys.stderr)
    sys.stderr.flush()


def shown(text):
    """Bytes as a line to be read, cut where it is long."""
    line = text.decode(errors="replace").expandtabs(1)
    return line if len(line) <= SHOWN else line[:SHOWN] + " .."


def tell(name, script, status, told, found):
    """Tells what was refused and why the run ended, and answers the status of `inv`."""
    refusals = told.refusals()
    for number, line in refusals:
        start, end = found[number].start, found[number].end
        say(f"{name}:{scripts.line_of(script, start)}: {line.decode()}",
            "    " + shown(b" ".join(script[start:end].split())))
    if status:
        tell_end(name, script, status, told, found)
    if refusals:
        say(f"inv: {len(refusals)} of {len(told.replies)} statements refused")
    return status or (REFUSED_STATUS if refusals else 0)


def tell_end(name, script, status, told, found):
    """Tells why a run ended with a status other than 0."""
    last = told.last
    place = re.match(rb"syntax (\d+):(\d+)\Z", last or b"")
    if place:
        tell_fault(name, script, int(place[1]), int(place[2]))
    elif last == b"too long":
        tell_length(name, script, told, found)
    elif last in LAST_LINES:
        say("inv: " + LAST_LINES[last])
    elif status == 1:
        say("inv: memory ran out, or the program couldn't be built")
    else:
        say(f"inv: the program ended with status {status}")


def tell_fault(name, script, line, column):
    """Shows the place of a fault of the grammar, with a hint where one is known."""
    text = (script.split(b"\n") + [b""])[line - 1]
    start = max(0, column - SHOWN * 3 // 4)
    before = text[start:column - 1].decode(errors="replace").expandtabs(1)
    say(f"{name}:{line}:{column}: a script can't go on here",
        "    " + before + text[column - 1:column - 1 + SHOWN].decode(errors="replace").expandtabs(1),
        "    " + " " * len(before) + "^")
    hint = hint_at(script, line, column)
    if hint:
        say("    hint: " + hint)


def hint_at(script, line, column):
    """What may be wrong at a fault, or None."""
    place = sum(len(one) + 1 for one in script.split(b"\n")[:line - 1]) + column - 1
    opened = scripts.open_text(script)
    if place >= len(script) and opened is None:
        return "the script ends inside a statement: is a ; missing?"
    if place >= len(script):
        return f"the text that begins in line {scripts.line_of(script, opened)} has no closing quote"
    if place and script[place - 1:place] == b"'" and re.match(rb"[A-Za-z]", script[place:place + 1]):
        return "a quote within a text is doubled: 'it''s'"
    rest = script[place:place + 80].lower()
    for pattern, hint in HINTS:
        if re.match(pattern, rest):
            return hint
    return None


def tell_length(name, script, told, found):
    """Tells of a limit that was passed: of the script, or of the statement behind the last one that was answered."""
    answered = len(told.replies)
    start = found[answered - 1].end if answered else 0
    ahead = next(scripts.tokens(script[start:start + 2 * 65_536]), None)
    line = scripts.line_of(script, start + ahead.start if ahead else start)
    say(f"{name}:{line}: the statement has more than 65,536 bytes, or the script, or the list, more than 268,435,456")
