#!/usr/bin/env python3
"""Times a workload on inverda and on sqlite3, which has views with triggers for it.

    bench/compare.py [--foreign-key] [--runs COUNT] PROGRAM [ROWS ..]

Writes to standard output two lines for each number of rows: of the single INSERTs with which the workload
begins, and of all of it. Each has the number of statements, then of inverda and of sqlite3 the seconds of a
processor, least and median of so many runs by turns (nine if nothing is said), and the most megabytes, where
anything below some fifteen is this program's own. Both read their script from standard input; sqlite3 keeps its
database in memory. With `--foreign-key` the second version takes the authors out of the tasks, so that each is
stored once, and both versions are written one row at a time.
"""

import argparse
import os
import statistics
import subprocess
import sys
import tempfile


def task(i):
    return f"('a{i % 10}', 't{i}', {i % 3 + 1})"


def todo(i):
    return f"('b{i % 8}', 'u{i}')"


def for_inverda(rows):
    yield "CREATE SCHEMA VERSION tasky WITH CREATE TABLE task(author, task, prio)"
    for i in range(rows):
        yield f"INSERT INTO tasky.task VALUES {task(i)}"
    yield (
        "CREATE SCHEMA VERSION do! FROM tasky WITH SPLIT TABLE task INTO todo WITH prio = 1; "
        "DROP COLUMN prio FROM todo DEFAULT 1"
    )
    for i in range(0, rows, 4):
        yield f"INSERT INTO do!.todo VALUES {todo(i)}"
    yield "MATERIALIZE do!"
    yield "DELETE FROM tasky.task WHERE prio = 2"
    yield "UPDATE tasky.task SET author = 'c' WHERE author = 'b0'"
    yield "MATERIALIZE tasky"


STORED_OLD = """CREATE VIEW todo AS SELECT p, author, task FROM task WHERE prio = 1;
CREATE TRIGGER todo_in INSTEAD OF INSERT ON todo BEGIN
  INSERT INTO task(author, task, prio) VALUES (NEW.author, NEW.task, 1); END;
CREATE TRIGGER todo_up INSTEAD OF UPDATE ON todo BEGIN
  UPDATE task SET author = NEW.author, task = NEW.task WHERE p = NEW.p; END;
CREATE TRIGGER todo_out INSTEAD OF DELETE ON todo BEGIN
  DELETE FROM task WHERE p = OLD.p; END"""

# The tasks of priority 1 stand in one table, and the others in another, which the move leaves.
STORED_NEW = """CREATE TABLE urgent(p INTEGER PRIMARY KEY, author, task);
CREATE TABLE rest(p INTEGER PRIMARY KEY, author, task, prio);
INSERT INTO urgent SELECT p, author, task FROM task WHERE prio = 1;
INSERT INTO rest SELECT p, author, task, prio FROM task WHERE prio <> 1;
DROP VIEW todo; DROP TABLE task;
CREATE VIEW todo AS SELECT p, author, task FROM urgent;
CREATE VIEW task AS SELECT p, author, task, 1 AS prio FROM urgent
  UNION ALL SELECT p, author, task, prio FROM rest;
CREATE TRIGGER task_up INSTEAD OF UPDATE ON task BEGIN
  DELETE FROM urgent WHERE p = OLD.p; DELETE FROM rest WHERE p = OLD.p;
  INSERT INTO urgent SELECT NEW.p, NEW.author, NEW.task WHERE NEW.prio = 1;
  INSERT INTO rest SELECT NEW.p, NEW.author, NEW.task, NEW.prio WHERE NEW.prio <> 1; END;
CREATE TRIGGER task_out INSTEAD OF DELETE ON task BEGIN
  DELETE FROM urgent WHERE p = OLD.p; DELETE FROM rest WHERE p = OLD.p; END"""

STORED_BACK = """CREATE TABLE again(p INTEGER PRIMARY KEY, author, task, prio);
INSERT INTO again SELECT p, author, task, prio FROM task;
DROP VIEW todo; DROP VIEW task; DROP TABLE urgent; DROP TABLE rest;
ALTER TABLE again RENAME TO task;
CREATE VIEW todo AS SELECT p, author, task FROM task WHERE prio = 1"""


def for_sqlite(rows):
    yield "CREATE TABLE task(p INTEGER PRIMARY KEY, author, task, prio)"
    for i in range(rows):
        yield f"INSERT INTO task(author, task, prio) VALUES {task(i)}"
    yield STORED_OLD
    for i in range(0, rows, 4):
        yield f"INSERT INTO todo(author, task) VALUES {todo(i)}"
    yield STORED_NEW
    yield "DELETE FROM task WHERE prio = 2"
    yield "UPDATE task SET author = 'c' WHERE author = 'b0'"
    yield STORED_BACK


# So many single writes of each kind go through the foreign key.
SINGLE = 1_000


def author(i, rows):
    return f"'a{i % max(rows // 100, 10)}'"


def keyed_for_inverda(rows):
    yield "CREATE SCHEMA VERSION one WITH CREATE TABLE task(author, task)"
    for i in range(rows):
        yield f"INSERT INTO one.task VALUES ({author(i, rows)}, 't{i}')"
    yield (
        "CREATE SCHEMA VERSION two FROM one WITH "
        "DECOMPOSE TABLE task INTO task(task), author(author) ON FK who"
    )
    yield from keyed_writes("one.task", "(author, task)", "p = #", rows)
    yield "MATERIALIZE two"
    yield from keyed_writes("one.task", "(author, task)", "p = #", rows)
    yield "UPDATE two.author SET author = 'b' WHERE author = 'a3'"
    yield "MATERIALIZE one"


def keyed_writes(table, columns, row, rows):
    """Single writes of one table: new rows, another author for old ones, and rows that go."""
    names = "" if "#" in row else columns
    for i in range(SINGLE):
        yield f"INSERT INTO {table}{names} VALUES ({author(i, rows)}, 'n{i}')"
    for i in range(SINGLE):
        place = i * (rows // SINGLE) + 1
        yield f"UPDATE {table} SET author = {author(i + 1, rows)} WHERE {row}{place}"
    for i in range(SINGLE // 2):
        place = i * (rows // SINGLE) + 1
        yield f"DELETE FROM {table} WHERE {row}{place}"


KEYED = """CREATE TABLE authors(p INTEGER PRIMARY KEY, author);
CREATE INDEX by_name ON authors(author);
CREATE TABLE tasks(p INTEGER PRIMARY KEY, task, who);
CREATE INDEX by_author ON tasks(who);
INSERT INTO authors(author) SELECT DISTINCT author FROM task;
INSERT INTO tasks SELECT t.p, t.task, a.p FROM task AS t JOIN authors AS a ON a.author = t.author;
DROP TABLE task;
CREATE VIEW task AS SELECT t.p, a.author, t.task FROM tasks AS t LEFT JOIN authors AS a ON a.p = t.who;
CREATE TRIGGER task_in INSTEAD OF INSERT ON task BEGIN
  INSERT INTO authors(author) SELECT NEW.author
    WHERE NOT EXISTS (SELECT 1 FROM authors WHERE author = NEW.author);
  INSERT INTO tasks(task, who) SELECT NEW.task, min(p) FROM authors WHERE author = NEW.author; END;
CREATE TRIGGER task_up INSTEAD OF UPDATE ON task BEGIN
  INSERT INTO authors(author) SELECT NEW.author
    WHERE NOT EXISTS (SELECT 1 FROM authors WHERE author = NEW.author);
  UPDATE tasks SET task = NEW.task, who = (SELECT min(p) FROM authors WHERE author = NEW.author)
    WHERE p = NEW.p;
  DELETE FROM authors WHERE author = OLD.author
    AND NOT EXISTS (SELECT 1 FROM tasks WHERE who = authors.p); END;
CREATE TRIGGER task_out INSTEAD OF DELETE ON task BEGIN
  DELETE FROM tasks WHERE p = OLD.p;
  DELETE FROM authors WHERE author = OLD.author
    AND NOT EXISTS (SELECT 1 FROM tasks WHERE who = authors.p); END"""

KEYED_BACK = """CREATE TABLE again(p INTEGER PRIMARY KEY, author, task);
INSERT INTO again SELECT p, author, task FROM task;
DROP VIEW task; DROP TABLE tasks; DROP TABLE authors;
ALTER TABLE again RENAME TO task"""


def keyed_for_sqlite(rows):
    yield "CREATE TABLE task(p INTEGER PRIMARY KEY, author, task)"
    for i in range(rows):
        yield f"INSERT INTO task(author, task) VALUES ({author(i, rows)}, 't{i}')"
    yield from keyed_writes("task", "(author, task)", "p = ", rows)
    yield KEYED
    yield from keyed_writes("task", "(author, task)", "p = ", rows)
    yield "UPDATE authors SET author = 'b' WHERE author = 'a3'"
    yield KEYED_BACK


def only_inserts(script):
    """The first version with its rows: a script up to its second change of the schema."""
    statements = iter(script)
    yield next(statements)
    for statement in statements:
        if not statement.startswith("INSERT"):
            return
        yield statement


def write_script(statements, folder, name):
    """Puts statements into a file, and tells how many there are."""
    path = os.path.join(folder, name)
    count = 0
    with open(path, "w", encoding="utf-8") as script:
        for statement in statements:
            script.write(statement + ";\n")
            count += 1
    return path, count


def run(command, path):
    """The seconds of a processor and the megabytes that a command takes for a script."""
    with open(path, encoding="utf-8") as script:
        child = subprocess.Popen(command, stdin=script, stdout=subprocess.DEVNULL)
        _, status, used = os.wait4(child.pid, 0)
    if status != 0:
        sys.exit(f"{command[0]} ended with {os.waitstatus_to_exitcode(status)}")
    return used.ru_utime + used.ru_stime, used.ru_maxrss / 1024


def report(rows, part, own_script, other_script, words):
    """Runs both by turns, and writes what they took."""
    with tempfile.TemporaryDirectory() as folder:
        own_path, count = write_script(own_script, folder, "own")
        other_path, _ = write_script(other_script, folder, "other")
        own, other = [], []
        for _ in range(words.runs):
            own.append(run([words.program], own_path))
            other.append(run(["sqlite3", "-batch", ":memory:"], other_path))
    figures = []
    for of in (min, statistics.median):
        figures += [of(seconds for seconds, _ in taken) for taken in (own, other)]
    megabytes = [max(room for _, room in taken) for taken in (own, other)]
    print(rows, part, count, " ".join(f"{it:.2f}" for it in figures), *map(round, megabytes), flush=True)


def main():
    given = argparse.ArgumentParser(
        description=__doc__, formatter_class=argparse.RawDescriptionHelpFormatter
    )
    given.add_argument("--foreign-key", action="store_true")
    given.add_argument("--runs", type=int, default=9)
    given.add_argument("program")
    given.add_argument("rows", type=int, nargs="*", default=[1_000, 10_000, 100_000])
    words = given.parse_args()
    own_script, other_script = (
        (keyed_for_inverda, keyed_for_sqlite) if words.foreign_key else (for_inverda, for_sqlite)
    )
    print("rows part statements least sqlite3 median sqlite3 megabytes sqlite3")
    for rows in words.rows:
        for part, taken in (("inserts", only_inserts), ("all", iter)):
            report(rows, part, taken(own_script(rows)), taken(other_script(rows)), words)


if __name__ == "__main__":
    main()
