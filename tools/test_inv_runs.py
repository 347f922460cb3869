#!/usr/bin/env python3
"""Tests of `inv` with the program: `python3 tools/test_inv_runs.py`. They are left out where the program would have to
be built for each call: build it first, or name it by the variable INVERDA."""
import fcntl
import json
import os
import re
import subprocess
import sys
import unittest

from inv_testing import INV, TOP, Calling, examples, read, split, status_of
from inv_parts import program, replies, schemas, scripts
from inv_parts.commands import way_lines

BUILT = os.path.join(TOP, "crates", "inverda", "out", "inverda")
HAS_PROGRAM = bool(os.environ.get("INVERDA")) or os.path.exists(BUILT)
needs_program = unittest.skipUnless(HAS_PROGRAM, "there is no built program")


@needs_program
class Runs(Calling):
    """Runs of the program."""

    def test_all_examples_answer_as_they_do(self):
        for path, has_second in examples():
            with self.subTest(path):
                status, out, _ = self.inv("run", path + ".bidel", "--on", "l")
                if has_second:
                    ended, more, _ = self.inv("run", path + ".then.bidel", "--on", "l")
                    status, out = ended or status, out + more
                self.assertEqual(out, read(path + ".replies"))
                self.assertEqual(status, status_of(path) or (10 if self.is_refused(path, has_second) else 0))
                if status_of(path):
                    self.assertNotIn("l", self.has())
                    continue
                self.check_list()
                os.remove(os.path.join(self.folder, "l"))

    def check_list(self):
        """Compares what is told of a list with the program's own SHOW LAYOUT and ADVISE, with the data at each version."""
        schema = schemas.read_schema(os.path.join(self.folder, "l"))
        status, shown, said = self.inv("show", "l")
        self.assertEqual((status, said, shown.count(b"version ")), (0, "", len(schema.versions)))
        tables = {name: schema.tables_of(name) for name, _ in schema.versions}
        script = "".join(f"MATERIALIZE {at}; SHOW LAYOUT; ADVISE {at};" + "".join(
            f"SELECT p FROM {name}.{table.name} WHERE 0; ADVISE {at};" for name in tables for table in tables[name])
                         for at in tables)
        status, out = program.call(script.encode(), ["--load", os.path.join(self.folder, "l")])
        answers = iter(split(script.encode(), out))
        for at in tables:
            is_moved = next(answers)[0].startswith(b"moved")
            self.take_layout(schema, next(answers))
            before = next(answers)
            for name in tables:
                for table in tables[name]:
                    next(answers)
                    after = next(answers)
                    cost = self.cost(after, at) - self.cost(before, at)
                    crossed = set()
                    self.assertTrue(list(way_lines(schema, table, "", crossed)))
                    if is_moved and any(line.split()[0] == name.encode() for line in after[:-1]):
                        self.assertEqual(len(crossed), cost)
                    before = after

    def take_layout(self, schema, lines):
        """Puts the layout and the stored tables that the program tells into a schema."""
        schema.rows = {}
        for line in lines[:-1]:
            words = line.decode().split()
            if words[0] == "table":
                schema.rows[int(words[1])] = int(words[4])
                self.assertEqual(schema.tables[int(words[1])].name, words[2])
            else:
                schema.operators[int(words[1])].is_stored_on_target = words[3] == "target"

    def cost(self, advice, name):
        """The cost of a version, of the lines of ADVISE."""
        return sum(int(line.split()[1]) for line in advice[:-1] if line.split()[0] == name.encode())

    def is_refused(self, path, has_second):
        """Whether a statement of an example is refused."""
        found = list(scripts.statements(read(path + ".bidel")))
        if has_second:
            found += list(scripts.statements(read(path + ".then.bidel")))
        return bool(replies.told(found, read(path + ".replies"), 0).refusals())

    def test_annotated_examples_answer_the_same(self):
        for path, has_second in examples():
            if has_second or status_of(path):
                continue
            with self.subTest(path):
                status, script, _ = self.inv("annotate", path + ".bidel")
                self.assertIn(status, (0, 10))
                self.put("annotated", script)
                self.assertEqual(self.inv("run", "annotated", "--rehearse")[1], read(path + ".replies"))
                self.assertEqual(re.sub(rb"(?m)^-- .*\n", b"", script).split(),
                                 re.sub(rb"(?m)^-- .*\n", b"", read(path + ".bidel")).split())

    def test_a_list_goes_on(self):
        self.put("one", "CREATE SCHEMA VERSION one WITH CREATE TABLE task(author, task);")
        self.assertEqual(self.inv("run", "one", "--on", "l")[0], 0)
        before = read(self.folder, "l")
        status, out, said = self.inv("run", "-", "--on", "l", "--rehearse", script=b"DROP SCHEMA VERSION one;")
        self.assertEqual((status, out, said), (0, b"ok\n", ""))
        self.assertEqual(read(self.folder, "l"), before)
        status, out, said = self.inv("run", "-", "--on", "l", script=b"USE one;\nUSE two;\nSELECT * FROM task;")
        self.assertEqual((status, out), (10, b"ok\nrefused 1 unknown version two\np|author|task\nrows 0\n"))
        self.assertIn("-:2: refused 1 unknown version two", said)
        status, out, said = self.inv("run", "-", "--on", "l", script=b"USE one;\nDROP SCHEMA VERSION one;\nUSE 'x';")
        self.assertEqual(status, 3)
        self.assertIn("-:3:5: ", said)
        self.assertEqual(self.has(), ["l", "l.lock", "one"])

    def test_a_second_run_waits(self):
        self.put("l.lock", "")
        with open(os.path.join(self.folder, "l.lock")) as lock:
            fcntl.flock(lock, fcntl.LOCK_EX)
            second = subprocess.Popen([sys.executable, INV, "run", "-", "--on", "l"], cwd=self.folder,
                                      stdin=subprocess.DEVNULL, stderr=subprocess.PIPE)
            self.assertIn(b"waiting", second.stderr.readline())
            self.assertIsNone(second.poll())
        second.communicate()
        self.assertEqual(second.returncode, 0)

    def test_a_file_comes_in_and_goes_out(self):
        self.inv("run", "-", "--on", "l", script=b"CREATE SCHEMA VERSION v WITH CREATE TABLE t(a, b); "
                                                 b"CREATE SCHEMA VERSION w FROM v WITH DROP COLUMN b FROM t DEFAULT 0;")
        rows = [f'{number},"it\'s ""{number}"", \n{"x" * 300}"' for number in range(1000)] + [",007", "#3,\"\r\""]
        text = "a,b\n" + "\n".join(rows) + "\n"
        self.put("f.csv", text)
        self.assertEqual(self.inv("import", "l", "v.t", "f.csv", "--rehearse")[:2], (0, b"inserted 1002\n"))
        self.assertEqual(self.inv("export", "l", "v.t")[1], b"a,b\n")
        os.chmod(os.path.join(self.folder, "l"), 0o640)
        self.assertEqual(self.inv("import", "l", "V.t", "f.csv"), (0, b"inserted 1002\n", ""))
        self.assertEqual(os.stat(os.path.join(self.folder, "l")).st_mode & 0o777, 0o640)
        self.assertEqual(self.inv("export", "l", "v.t"), (0, text.encode(), ""))
        self.assertEqual(self.inv("export", "l", "w.t", "--identifiers")[1][:12], b"p,a\n#1,0\n#2,")
        self.assertEqual(self.has(), ["f.csv", "l", "l.lock"])

    def test_a_file_with_a_refused_row_keeps_nothing(self):
        self.inv("run", "-", "--on", "l", script=b"CREATE SCHEMA VERSION v WITH CREATE TABLE t(a);")
        before = read(self.folder, "l")
        self.put("f.csv", "a\n" + "x" * 60_000 + "\n" + "y" * 10_000 + "\n#99\n")
        status, out, said = self.inv("import", "l", "v.t", "f.csv")
        self.assertEqual((status, out), (10, b""))
        self.assertIn("from line 3 on: refused 8 unknown id #99", said)
        self.assertEqual(read(self.folder, "l"), before)
        status, out, said = self.inv("import", "l", "v.u", "f.csv")
        self.assertEqual((status, out, said), (11, b"", "inv: version v has no table u; it has: t\n"))
        self.assertEqual(self.has(), ["f.csv", "l", "l.lock"])

    def test_releases_are_applied_once(self):
        self.put("r/1.bidel", "CREATE SCHEMA VERSION one WITH CREATE TABLE t(a);")
        self.put("r/2.bidel", "CREATE SCHEMA VERSION two FROM one WITH ADD COLUMN b AS 0 INTO t;")
        self.put("r/notes", "none")
        status, out, said = self.inv("apply", "l", "r", "--rehearse")
        self.assertEqual((status, out), (0, b"ok\nok\n"))
        self.assertFalse(os.path.exists(os.path.join(self.folder, "l")))
        self.assertEqual(self.inv("apply", "l", "r")[:2], (0, b"ok\nok\n"))
        self.assertEqual(self.inv("apply", "l", "r")[:2], (0, b""))
        self.put("r/3.bidel", "INSERT INTO two.t VALUES (1, 2); INSERT INTO two.t VALUES (1);")
        status, out, said = self.inv("apply", "l", "r")
        self.assertEqual((status, out), (10, b"inserted 1 #1\nrefused 7 wrong count 1 of 2\n"))
        self.assertEqual(self.inv("export", "l", "two.t")[1], b"a,b\n")
        self.put("r/3.bidel", "INSERT INTO two.t VALUES (1, 2);")
        self.assertEqual(self.inv("apply", "l", "r")[0], 0)
        self.assertEqual(self.inv("export", "l", "two.t")[1], b"a,b\n1,2\n")
        self.assertEqual(read(self.folder, "l.done").count(b"\n"), 3)
        self.put("r/0.bidel", "")
        self.assertIn("0.bidel comes before 3.bidel", self.inv("apply", "l", "r")[2])
        os.remove(os.path.join(self.folder, "r/0.bidel"))
        self.put("r/1.bidel", "")
        self.assertIn("1.bidel was changed", self.inv("apply", "l", "r")[2])
        self.assertEqual(self.has(), ["l", "l.done", "l.lock", "r"])


@needs_program
class Explaining(Calling):
    """What `show` and `explain` write."""

    SCRIPT = b"""CREATE SCHEMA VERSION one WITH CREATE TABLE task(author, task, prio);
CREATE SCHEMA VERSION phone FROM one WITH SPLIT TABLE task INTO todo WITH prio = 1; DROP COLUMN prio FROM todo DEFAULT 1;
INSERT INTO one.task VALUES ('Ann', 'Mow', 1), ('Ben', 'Sew', 2);"""

    def test_what_is_there_is_shown(self):
        self.inv("run", "-", "--on", "l", script=self.SCRIPT)
        self.assertEqual(self.inv("show", "l")[1].decode(), """version one
  CREATE TABLE task(author, task, prio);
  task(author, task, prio): 2 rows, stored

version phone FROM one
  SPLIT TABLE task INTO todo WITH prio = 1;
  DROP COLUMN prio FROM todo DEFAULT 1;
  todo(author, task): 1 rows
""")

    def test_the_readme_shows_what_comes(self):
        readme = read(TOP, "README.md").decode()
        calls = re.search(r"(?s)```\n(tools/inv run .*?)```", readme)[1].strip().split("\n")
        for call in calls:
            words = [os.path.join(TOP, word) if word.startswith("examples/") else word for word in call.split()[1:]]
            status, out, _ = self.inv(*words)
            self.assertEqual(status, 0, call)
        self.assertIn("\n```\n" + out.decode() + "```\n", readme)

    def test_ways_are_told_on_either_side(self):
        self.inv("run", "-", "--on", "l", script=self.SCRIPT)
        self.assertEqual(self.inv("explain", "l", "phone.todo")[1].decode(), """\
phone.todo: read by operator 3, DROP COLUMN prio FROM todo DEFAULT 1
  todo, which no version shows: read by operator 2, SPLIT TABLE task INTO todo WITH prio = 1
    one.task: stored, 2 rows
2 operators stand between phone.todo and what is stored
""")
        self.inv("run", "-", "--on", "l", script=b"MATERIALIZE phone;")
        self.assertEqual(self.inv("explain", "l", "one.task")[1].decode(), """\
one.task: read by operator 2, SPLIT TABLE task INTO todo WITH prio = 1, 1 rows beside
  todo, which no version shows: read by operator 3, DROP COLUMN prio FROM todo DEFAULT 1, 1 rows beside
    phone.todo: stored, 1 rows
2 operators stand between one.task and what is stored
""")
        self.assertEqual(json.loads(read(self.folder, "l"))["layout"], [1, 2, 3])

if __name__ == "__main__":
    unittest.main()
