"""The commands of `inv`, one function each."""
import os
import sys

from . import VERSION, Trouble, csv_files, lists, manual, program, replies, schemas, scripts
from .telling import REFUSED_STATUS, say, tell


def read_script(name):
    """The bytes of a script, from a file or from standard input."""
    if name == "-":
        return sys.stdin.buffer.read()
    try:
        with open(name, "rb") as file:
            return file.read()
    except OSError as error:
        raise Trouble(f"{name} can't be read: {error.strerror}") from error


def give(out):
    """Writes bytes to standard output."""
    sys.stdout.buffer.write(out)
    sys.stdout.buffer.flush()


class Run:
    """One run of the program on a script, with its replies taken apart."""

    def __init__(self, name, script, words):
        self.name, self.script = name, script
        self.status, self.out = program.call(script, words)
        self.statements = list(scripts.statements(script))
        self.told = replies.told(self.statements, self.out, self.status)
        if self.told is None:
            give(self.out)
            raise Trouble("the replies can't be told apart")

    def tell(self):
        """Tells what was refused and why it ended, and answers the status of `inv`."""
        return tell(self.name, self.script, self.status, self.told, self.statements)


def run_command(words, options):
    """inv run"""
    script, keeps = read_script(words[0]), "--rehearse" not in options
    if "--on" not in options:
        if keeps:
            say("inv: without --on nothing is kept")
        return finish(Run(words[0], script, []), False)
    with lists.held(options["--on"]) as kept:
        dump = ["--dump", kept.path] if keeps else []
        return finish(Run(words[0], script, kept.load_words() + dump), keeps)


def finish(run, keeps):
    """Gives the replies of a run, and tells how it ended."""
    give(run.out)
    status = run.tell()
    if keeps and run.status:
        say("inv: nothing was kept")
    return status


def annotate_command(words, options):
    """inv annotate"""
    script = read_script(words[0])
    if "--on" in options:
        with lists.held(options["--on"], reading=True) as kept:
            run = Run(words[0], script, kept.load_words())
    else:
        run = Run(words[0], script, [])
    give(annotated(script, run.statements, run.told))
    return run.tell()


def annotated(script, found, told):
    """The script with each reply as comments below its statement."""
    parts, end = [], 0
    for statement, lines in zip(found, told.replies):
        place = line_end(script, statement.end)
        parts += [script[end:place]] + ([] if script[place - 1:place] == b"\n" else [b"\n"])
        parts += [b"-- " + line + b"\n" for line in lines]
        end = place
    parts.append(script[end:])
    if told.last:
        parts += [b"" if script.endswith(b"\n") or end == len(script) else b"\n", b"-- " + told.last + b"\n"]
    return b"".join(parts)


def line_end(script, place):
    """The place behind the line in which a statement ends, or behind the statement where another one follows."""
    for match in scripts.TOKEN.finditer(script, place):
        if match.lastgroup == "comment":
            return min(match.end() + 1, len(script))
        if b"\n" in match.group() and match.lastgroup == "space":
            return match.start() + match.group().index(b"\n") + 1
        if match.lastgroup != "space":
            return place
    return len(script)


def show_command(words, options):
    """inv show"""
    with lists.held(words[0], reading=True) as kept:
        schema = schemas.read_schema(kept.path)
        shown = [(name, table) for name, _ in schema.versions for table in schema.tables_of(name)]
        ask = "".join(f"SELECT * FROM {name}.{table.name} WHERE 0; SELECT p FROM {name}.{table.name};\n"
                      for name, table in shown)
        run = Run(words[0], ask.encode(), kept.load_words())
    if run.status or run.told.refusals():
        return run.tell()
    answers = iter(run.told.replies)
    blocks = ["\n".join(version_lines(schema, name, answers)) for name, _ in schema.versions]
    give(("\n\n".join(blocks) + "\n" if blocks else "no versions\n").encode())
    return 0


def version_lines(schema, name, answers):
    """What is shown of one version; the answers tell the columns and the rows of its tables."""
    parent, operators = schema.made_by(name)
    yield f"version {name}" + (f" FROM {parent}" if parent else "")
    for operator in operators:
        yield f"  {operator.text};"
    for table in schema.tables_of(name):
        columns = next(answers)[0].decode().split("|")[1:]
        rows = next(answers)[-1].decode().split()[1]
        stored = ", stored" if table.number in schema.rows else ""
        yield f"  {table.name}({', '.join(columns)}): {rows} rows{stored}"


def columns_of(table, kept):
    """The columns of a table, as the program tells them."""
    run = Run(table, f"SELECT * FROM {table} WHERE 0;".encode(), kept.load_words())
    if run.told.refusals():
        schemas.read_schema(kept.path).table(table)
    if run.status or run.told.refusals():
        raise Trouble(f"the columns of {table} can't be told", run.tell())
    return run.told.replies[0][0].decode().split("|")[1:]


def import_command(words, options):
    """inv import"""
    name, table, path = words
    table = ".".join(schemas.parted(table))
    with lists.held(name) as kept:
        if not kept.is_there():
            raise Trouble(f"there is no list {name}")
        records = csv_files.read_records(path, table, columns_of(table, kept))
        pieces = list(csv_files.import_statements(records, path, table))
        script = b"".join(text for _, text in pieces)
        run = Run(path, script, kept.load_words() + ["--dump", kept.new])
        status = tell_import(run, [line for line, _ in pieces])
        return settle(kept, status, "--rehearse" not in options)


def tell_import(run, lines):
    """Tells how an import ended: refusals by the line of the file where their statement begins."""
    refusals = run.told.refusals()
    for number, line in refusals:
        say(f"{run.name}: in the rows from line {lines[number]} on: {line.decode()}")
    if run.status:
        return run.tell()
    if not refusals:
        rows = sum(int(one[0].split()[1]) for one in run.told.replies)
        give(f"inserted {rows}\n".encode())
    return REFUSED_STATUS if refusals else 0


def settle(kept, status, keeps, done=None):
    """Keeps what a run made, if nothing went wrong, and answers its status."""
    if status == 0 and keeps:
        lists.keep_new(kept, done)
        return 0
    lists.remove(kept.new)
    if status:
        say("inv: nothing was kept")
    return status


def export_command(words, options):
    """inv export"""
    table = ".".join(schemas.parted(words[1]))
    with lists.held(words[0], reading=True) as kept:
        columns = (["p"] if "--identifiers" in options else []) + columns_of(table, kept)
        if not columns:
            raise Trouble(f"{table} has no columns")
        run = Run(table, f"SELECT {', '.join(columns)} FROM {table} AS CSV;".encode(), kept.load_words())
    status = run.tell()
    if status == 0:
        give(run.out[:run.out.rindex(b"rows ")])
    return status


def apply_command(words, options):
    """inv apply"""
    name, folder = words
    with lists.held(name) as kept:
        done = lists.done_scripts(kept)
        waiting = waiting_scripts(folder, dict(done))
        if not waiting:
            say(f"inv: nothing to do; {len(done)} scripts are done")
        if "--rehearse" in options:
            return rehearse_all(kept, folder, waiting)
        for script in waiting:
            status = apply_one(kept, folder, script, done)
            if status:
                return status
    return 0


def waiting_scripts(folder, done):
    """The scripts of a folder that aren't done, by name. One that comes before a done one would be too late."""
    try:
        names = sorted(name for name in os.listdir(folder) if name.endswith(".bidel"))
    except OSError as error:
        raise Trouble(f"{folder} can't be read: {error.strerror}") from error
    for name in names:
        if "\n" in name:
            raise Trouble(f"{folder}: the name of a script has a line feed")
        if name in done and lists.sum_of(read_script(os.path.join(folder, name))) != done[name]:
            say(f"inv: {name} was changed after it was done; that has no effect on the list")
    waiting = [name for name in names if name not in done]
    if waiting and done and waiting[0] < max(done):
        raise Trouble(f"{waiting[0]} comes before {max(done)}, which is done: give it a later name")
    return waiting


def apply_one(kept, folder, name, done):
    """Runs one script, and keeps the list and the script's name where nothing was refused."""
    path = os.path.join(folder, name)
    script = read_script(path)
    run = Run(path, script, kept.load_words() + ["--dump", kept.new])
    give(run.out)
    status = run.tell()
    done.append((name, lists.sum_of(script)))
    status = settle(kept, status, True, lists.done_lines(done))
    if status == 0:
        say(f"inv: {name}: done, {len(run.told.replies)} statements")
    return status


def rehearse_all(kept, folder, waiting):
    """Runs the waiting scripts one on the other, and keeps nothing."""
    words = kept.load_words()
    try:
        for name in waiting:
            path = os.path.join(folder, name)
            run = Run(path, read_script(path), words + ["--dump", kept.new])
            give(run.out)
            status = run.tell()
            if status:
                return status
            say(f"inv: {name}: rehearsed, {len(run.told.replies)} statements")
            words = ["--load", kept.new]
    finally:
        lists.remove(kept.new)
    return 0


def explain_command(words, options):
    """inv explain"""
    with lists.held(words[0], reading=True) as kept:
        schema = schemas.read_schema(kept.path)
    table, crossed = schema.table(words[1]), set()
    lines = list(way_lines(schema, table, "", crossed))
    count = f"{len(crossed)} operators stand" if len(crossed) != 1 else "1 operator stands"
    lines.append(f"{count} between {words[1].lower()} and what is stored")
    give(("\n".join(lines) + "\n").encode())
    return 0


def way_lines(schema, table, indent, crossed):
    """The way from a table to what is stored, as lines; the numbers of the operators on it are put into `crossed`."""
    name = indent + shown_table(schema, table)
    if table.number in schema.rows:
        yield f"{name}: stored, {schema.rows[table.number]} rows"
        return
    operator, nearer = table.maker, table.maker.takes
    if operator.is_stored_on_target:
        operator = schema.stored_taker(table)
        nearer = operator.makes
    beside = schema.beside.get(operator.number, 0)
    crossed.add(operator.number)
    yield f"{name}: read by operator {operator.number}, {operator.text}" + (f", {beside} rows beside" if beside else "")
    for one in nearer:
        yield from way_lines(schema, one, indent + "  ", crossed)


def shown_table(schema, table):
    """A table with the versions that show it."""
    versions = [name for name, _ in schema.versions if table in schema.tables_of(name)]
    return ", ".join(f"{name}.{table.name}" for name in versions) or f"{table.name}, which no version shows"


COMMANDS = {
    "run": run_command, "annotate": annotate_command, "show": show_command, "import": import_command,
    "export": export_command, "apply": apply_command, "explain": explain_command,
}

TEXTS = {
    "--help": manual.help_text, "--version": lambda: f"inv {VERSION}\n", "--man-page": manual.man_page,
    "--bash-completion": manual.bash_completion,
}


def main(words):
    """Carries out the words of a call, and answers its status."""
    try:
        if len(words) == 1 and words[0] in TEXTS:
            give(TEXTS[words[0]]().encode())
            return 0
        for command in manual.COMMANDS:
            if words[:1] == [command.name]:
                return COMMANDS[command.name](*manual.read_words(command, words[1:]))
        raise Trouble("the first word is one of " + ", ".join(COMMANDS) + "; inv --help says more", 2)
    except Trouble as trouble:
        say(f"inv: {trouble}")
        return trouble.status
    except BrokenPipeError:
        os.dup2(os.open(os.devnull, os.O_WRONLY), sys.stdout.fileno())
        return 6
    except KeyboardInterrupt:
        return 130
