"""What a list holds besides its rows: versions, operators, tables, and where they are stored.

Read from the file itself (docs/LANGUAGE.md, "The dump"): each operator takes tables out of the working set on which
it stands, and adds its own at the end."""
import json

from . import Trouble
from .scripts import tokens


class Operator:
    """One operator: its number, its text, the tables that it takes and makes, and the side where its data is."""

    def __init__(self, number, parent, text, is_stored_on_target):
        self.number, self.parent, self.text = number, parent, text
        self.is_stored_on_target = is_stored_on_target
        self.takes, self.makes = [], []


class Table:
    """One table: its number, its name, and the operator that made it."""

    def __init__(self, number, name, maker):
        self.number, self.name, self.maker = number, name, maker


class Schema:
    """The versions of a list with the operators between them."""

    def __init__(self, dump):
        layout = set(dump["layout"])
        self.versions = [(version["name"], version["set"]) for version in dump["versions"]]
        self.rows = {table["table"]: len(table["rows"]) for table in dump["stored"]}
        self.beside = {entry["operator"]: sum(map(len, entry["tables"])) for entry in dump["aux"]}
        self.operators, self.tables, self.sets = {}, {}, {0: []}
        for entry in dump["operators"]:
            self.add(entry, entry["number"] in layout)

    def add(self, entry, is_stored_on_target):
        """Puts an operator on the working set from which it goes out."""
        operator = Operator(entry["number"], entry["parent"], entry["text"], is_stored_on_target)
        taken, made = taken_and_made(operator.text, len(entry["targets"]))
        before = self.sets[operator.parent]
        operator.takes = [table for table in before if table.name in taken]
        operator.makes = [Table(number, name, operator) for number, name in zip(entry["targets"], made)]
        self.operators[operator.number] = operator
        self.tables.update((table.number, table) for table in operator.makes)
        self.sets[operator.number] = [table for table in before if table not in operator.takes] + operator.makes

    def tables_of(self, version):
        """The tables of a version, in order."""
        return self.sets[dict(self.versions)[version]]

    def table(self, name):
        """The table `VERSION.TABLE`."""
        version, table = parted(name)
        if version not in dict(self.versions):
            raise Trouble(f"there is no version {version}; there are: " + ", ".join(dict(self.versions)))
        found = [one for one in self.tables_of(version) if one.name == table]
        if not found:
            names = ", ".join(one.name for one in self.tables_of(version)) or "none"
            raise Trouble(f"version {version} has no table {table}; it has: {names}")
        return found[0]

    def made_by(self, version):
        """The version from which a version was made, if it is still there, and the operators since then."""
        sets = {number: name for name, number in self.versions}
        at, operators = dict(self.versions)[version], []
        while at and (not operators or at not in sets):
            operators.insert(0, self.operators[at])
            at = self.operators[at].parent
        return sets.get(at), operators

    def stored_taker(self, table):
        """The operator that takes the table and has its data on its other side, or None."""
        takers = [one for one in self.operators.values() if table in one.takes and one.is_stored_on_target]
        return takers[0] if takers else None


def parted(name):
    """The version and the table of `VERSION.TABLE`, in lower case."""
    version, point, table = name.lower().partition(".")
    if not (version and point and table):
        raise Trouble(f"{name} isn't a version and a table with a point between", 2)
    return version, table


def read_schema(path):
    """The schema of the list in a file."""
    try:
        with open(path, "rb") as file:
            dump = json.load(file)
        if dump["format"] not in (1, 2):
            raise Trouble(f"{path} has the format {dump['format']}, and inv reads the formats 1 and 2")
        return Schema(dump)
    except OSError as error:
        raise Trouble(f"{path} can't be read: {error.strerror}") from error
    except (ValueError, KeyError, TypeError, IndexError, AttributeError) as error:
        raise Trouble(f"{path} is no list of Inverda") from error


def taken_and_made(text, targets):
    """The names of the tables that an operator takes and of those that it makes, from its canonical text."""
    words = [token.word.decode(errors="replace") for token in tokens(text.encode())]
    kind = words[1] if words[0] == "outer" else words[0]
    if kind == "create":
        return [], [words[2]]
    if kind == "drop":
        return ([words[2]], []) if words[1] == "table" else ([words[4]], [words[4]])
    if kind == "rename":
        return [words[2] if words[1] == "table" else words[4]], [words[4]]
    if kind == "add":
        table = words[len(words) - words[::-1].index("into")]
        return [table], [table]
    if kind == "join":
        first = words.index("table") + 1
        return [words[first], words[first + 2]], [words[first + 4]]
    if kind == "merge":
        return [words[2], words[words.index(",") + 1]], [words[-1]]
    return [words[2]], [words[4]] + second_target(words, kind, targets)


def second_target(words, kind, targets):
    """The second table of a SPLIT or DECOMPOSE, if it makes two."""
    if targets < 2:
        return []
    if kind == "split":
        return [words[words.index(",") + 1]]
    return [words[words.index(")") + 2]]
