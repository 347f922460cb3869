"""What `inv` says of itself: the help, the man page and the completion of bash, from one text."""
import textwrap
from collections import namedtuple

from . import VERSION, Trouble

Command = namedtuple("Command", "name words options brief more")
Option = namedtuple("Option", "name value brief")

SUMMARY = "runs scripts on databases of Inverda that are kept in files"

ABOUT = """A list is a file in which a database is kept, as --dump of the program writes it. inv calls the program on it,
one run at a time, and changes none of its replies: these stand on standard output, and what inv says itself on standard
error. SCRIPT may be -, for standard input; a table is named VERSION.TABLE."""

ON = Option("--on", "LIST", "begins with this list")
KEEP_ON = Option("--on", "LIST", "begins with this list, and keeps it at the end; it is made where it isn't there")
REHEARSE = Option("--rehearse", None, "answers all the same, and keeps nothing")
IDENTIFIERS = Option("--identifiers", None, "puts the identifiers first, as the column p")

COMMANDS = [
    Command("run", ["SCRIPT"], [KEEP_ON, REHEARSE], "runs a script and gives its replies",
            "A refused statement is told with its line, and the place of a fault is shown with a hint."),
    Command("annotate", ["SCRIPT"], [ON], "writes the script with each reply as comments below its statement",
            "Nothing is kept."),
    Command("show", ["LIST"], [], "tells what a list holds",
            "The versions with the operators that made each, their tables with columns and rows, and which of them are "
            "stored."),
    Command("import", ["LIST", "TABLE", "FILE"], [REHEARSE], "puts the rows of a CSV file into a table",
            "The file has a header, with the columns of the table in any order. All of its rows are kept, or none."),
    Command("export", ["LIST", "TABLE"], [IDENTIFIERS], "writes a table as CSV with a header", ""),
    Command("apply", ["LIST", "FOLDER"], [REHEARSE], "runs the scripts of a folder on a list, each once",
            "These are the files that end with .bidel, in the order of their names. A script in which a statement is "
            "refused is not kept, and ends the run. What was done stands in LIST.done."),
    Command("explain", ["LIST", "TABLE"], [], "tells how a table is read from what is stored",
            "Each operator on the way is told, with the versions that show the tables between."),
]

GLOBAL = [
    Option("--help", None, "writes this text"),
    Option("--version", None, "writes the version"),
    Option("--man-page", None, "writes the man page"),
    Option("--bash-completion", None, "writes the completion of words for bash"),
]

STATUSES = [
    ("0", "all statements were carried out"),
    ("10", "a statement was refused"),
    ("11", "inv could not begin, as where a file isn't there"),
    ("1 to 8", "as the program ended (docs/LANGUAGE.md); after 2 the words may be bad for inv itself"),
    ("127", "there is no program"),
]

FILES = [
    ("LIST.lock", "is locked while a run is at work on the list, and stays"),
    ("LIST.done", "the scripts that apply has done, as sha256sum -c reads them"),
]

VARIABLES = [
    ("INVERDA", "the program to call, in place of the start script of the repository or inverda on the path"),
]

EXAMPLES = [
    ("inv run release_two.bidel --on list.json --rehearse", "tries a release"),
    ("inv apply list.json releases", "runs the releases that this list hasn't seen"),
    ("inv export list.json two.task > task.csv", "takes a table out"),
]


def option_words(option):
    """An option as it is written."""
    return f"{option.name} {option.value}" if option.value else option.name


def usage(command):
    """The words of a command in one line."""
    return " ".join(["inv", command.name] + command.words + [f"[{option_words(one)}]" for one in command.options])


def wrapped(text, indent):
    """A text in lines of at most 80 columns."""
    return textwrap.fill(" ".join(text.split()), 80, initial_indent=indent, subsequent_indent=indent)


def pairs(entries, width, indent="  "):
    """Lines that begin with a word each, and what it says."""
    return [textwrap.fill(text, 80, initial_indent=indent + word.ljust(width),
                          subsequent_indent=indent + " " * width) for word, text in entries]


def command_lines(command):
    """The part of the help that tells of one command."""
    lines = ["", "  " + usage(command), wrapped(f"{command.brief}. {command.more}".strip(), "      ")]
    return lines + pairs([(option_words(one), one.brief) for one in command.options], 14, "      ")


def help_text():
    """The whole help."""
    lines = [f"inv {SUMMARY}", "", wrapped(ABOUT, ""), "", "Commands:"]
    for command in COMMANDS:
        lines += command_lines(command)
    lines += ["", "Options without a command:"] + pairs([(option_words(one), one.brief) for one in GLOBAL], 20)
    lines += ["", "Status:"] + pairs(STATUSES, 8)
    lines += ["", "Files:"] + pairs(FILES, 12)
    lines += ["", "Variables:"] + pairs(VARIABLES, 12)
    lines += ["", "Examples:"]
    for line, text in EXAMPLES:
        lines += ["  " + line, "      " + text]
    return "\n".join(lines) + "\n"


def roff(text):
    """A text as it stands in a man page."""
    escaped = " ".join(text.split()).replace("\\", "\\e").replace("-", "\\-")
    return "\\&" + escaped if escaped[:1] in (".", "'") else escaped


def roff_pairs(entries):
    """Words with what each says, as a man page has them."""
    lines = []
    for word, text in entries:
        lines += [".TP", f".B {roff(word)}", roff(text)]
    return lines


def man_page():
    """The page for `man`."""
    lines = [f'.TH INV 1 "" "Inverda {VERSION}"', ".SH NAME", roff(f"inv - {SUMMARY}"), ".SH SYNOPSIS"]
    for command in COMMANDS:
        lines += [roff(usage(command)), ".br"]
    lines += [".SH DESCRIPTION", roff(ABOUT), ".SH COMMANDS"]
    for command in COMMANDS:
        lines += [".TP", f".B {roff(usage(command))}", roff(f"{command.brief}. {command.more}")]
        for option in command.options:
            lines += [".RS", ".TP", f".B {roff(option_words(option))}", roff(option.brief), ".RE"]
    lines += [".SH OPTIONS"] + roff_pairs([(option_words(one), one.brief) for one in GLOBAL])
    lines += [".SH EXIT STATUS"] + roff_pairs(STATUSES) + [".SH FILES"] + roff_pairs(FILES)
    lines += [".SH ENVIRONMENT"] + roff_pairs(VARIABLES) + [".SH EXAMPLES"] + roff_pairs(EXAMPLES)
    return "\n".join(lines) + "\n"


def bash_completion():
    """The functions that complete words of `inv` in bash: commands, then options, and else files."""
    cases = "\n".join(f"    {command.name}) words='{' '.join(option.name for option in command.options)}' ;;"
                      for command in COMMANDS)
    first = " ".join([command.name for command in COMMANDS] + [option.name for option in GLOBAL])
    return f"""_inv() {{
  local word=${{COMP_WORDS[COMP_CWORD]}} words=
  if [ "$COMP_CWORD" = 1 ]; then
    COMPREPLY=($(compgen -W '{first}' -- "$word"))
    return
  fi
  case ${{COMP_WORDS[1]}} in
{cases}
  esac
  case $word in
    -*) COMPREPLY=($(compgen -W "$words" -- "$word")) ;;
    *) COMPREPLY=() ;;
  esac
}}
complete -o default -F _inv inv
"""


def read_words(command, words):
    """The words of a command: what stands for each of its names, and the options that are there."""
    given, options, left = [], {}, list(words)
    while left:
        word = left.pop(0)
        if not word.startswith("-") or word == "-":
            given.append(word)
            continue
        name, equals, value = word.partition("=")
        option = {one.name: one for one in command.options}.get(name)
        if option is None or name in options or bool(equals) > bool(option.value):
            raise Trouble(f"{word}: no such option here, or it stands twice\nusage: {usage(command)}", 2)
        if option.value and not equals:
            value = left.pop(0) if left else ""
        if option.value and not value:
            raise Trouble(f"{name} needs {option.value}\nusage: {usage(command)}", 2)
        options[name] = value if option.value else True
    if len(given) != len(command.words):
        raise Trouble(f"{command.name} takes {' '.join(command.words)}\nusage: {usage(command)}", 2)
    return given, options
