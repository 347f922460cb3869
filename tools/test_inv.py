#!/usr/bin/env python3
"""Tests of `inv` that need no program: `python3 tools/test_inv.py`. On all examples scripts are parted, and replies
taken apart."""
import os
import re
import shutil
import subprocess
import tempfile
import unittest

from inv_testing import HERE, INV, TOP, Calling, examples, read, split, status_of
from inv_parts import Trouble, csv_files, lists, manual, replies, schemas, scripts, telling
from inv_parts.commands import annotated


class Parting(unittest.TestCase):
    """Statements and replies, without the program."""

    def test_each_example_has_a_reply_for_each_statement(self):
        for path, has_second in examples():
            with self.subTest(path):
                found = list(scripts.statements(read(path + ".bidel")))
                if has_second:
                    found += list(scripts.statements(read(path + ".then.bidel")))
                told = replies.told(found, read(path + ".replies"), status_of(path))
                self.assertIsNotNone(told)
                if status_of(path) == 0:
                    self.assertEqual(len(told.replies), len(found))
                for statement, lines in zip(found, told.replies):
                    first = lines[0].split()[0]
                    if statement.shape in (scripts.ROWS, scripts.CSV) and first != b"refused":
                        self.assertRegex(lines[-1], rb"rows \d+\Z")

    def test_a_version_ends_where_no_operator_follows(self):
        script = b"CREATE SCHEMA VERSION v WITH CREATE TABLE t(a); DROP TABLE t; CREATE TABLE u(b); DROP SCHEMA VERSION v;"
        ends = [script[one.start:one.end] for one in scripts.statements(script)]
        self.assertEqual(ends[1], b"DROP SCHEMA VERSION v;")
        self.assertEqual(len(ends), 2)

    def test_semicolons_in_texts_and_comments_end_nothing(self):
        script = b"INSERT INTO v.t VALUES ('a;''b;') -- c;\n; USE v;"
        self.assertEqual(len(list(scripts.statements(script))), 2)

    def test_an_open_text_goes_to_the_end(self):
        self.assertEqual(scripts.open_text(b"USE v; INSERT INTO t VALUES ('it''s');\nx 'a''"), 41)
        self.assertIsNone(scripts.open_text(b"INSERT INTO t VALUES ('it''s', '');"))

    def test_texts_with_line_feeds_stay_in_their_row(self):
        script = b"SELECT * FROM v.t; USE v;"
        out = b"p|a\n#1|'x\nrows 0\nok\n'\nrows 1\nok\n"
        self.assertEqual([len(one) for one in split(script, out)], [6, 1])

    def test_rows_of_csv_that_look_like_ends(self):
        script = b"SELECT a FROM v.t AS CSV; USE v;"
        out = b"a\nrows 0\nrows 1\nok\nrows 3\nok\n"
        self.assertEqual([len(one) for one in split(script, out)], [5, 1])
        self.assertEqual([len(one) for one in split(script, b"a\nrows 0\nok\n")], [2, 1])

    def test_versions_named_like_words_of_replies(self):
        script = b"ADVISE v; SELECT refused FROM v.t;"
        out = b"best 1\nrefused 2\nbest best\nrefused\n5\nrows 1\n"
        self.assertEqual([len(one) for one in split(script, out)], [3, 3])

    def test_other_replies_are_not_taken_apart(self):
        self.assertIsNone(split(b"USE v;", b"ok\nok\n"))

    def test_each_refusal_is_told_with_its_statement(self):
        script = b"USE w;\nSELECT *\nFROM v.t;\nUSE w;"
        told = replies.told(list(scripts.statements(script)), b"refused 1 unknown version w\np|a\nrows 0\nok\n", 0)
        self.assertEqual(told.refusals(), [(0, b"refused 1 unknown version w")])

    def test_replies_stand_below_their_statements(self):
        script = b"USE v; -- mine\nUSE w; SESSION 1;\n-- the end"
        found = list(scripts.statements(script))
        told = replies.told(found, b"ok\nok\nok\n", 0)
        self.assertEqual(annotated(script, found, told),
                         b"USE v; -- mine\n-- ok\nUSE w;\n-- ok\n SESSION 1;\n-- ok\n-- the end")


class Hints(unittest.TestCase):
    """What is said at a fault."""

    def test_hints(self):
        for script, line, column, word in [
                (b"SELECT * FROM v.t WHERE a != 1;", 1, 27, "<>"),
                (b"SELECT * FROM v.t ORDER BY a;", 1, 19, "no such clause"),
                (b"INSERT INTO v.t VALUES ('Ben's');", 1, 30, "doubled"),
                (b"INSERT INTO v.t VALUES (1.5);", 1, 26, "whole"),
                (b"CREATE SCHEMA VERSION v WITH CREATE TABLE t(key);", 1, 45, "reserved word"),
                (b"USE v\nSELECT * FROM t;", 2, 1, "; missing"),
                (b"\xef\xbb\xbfUSE v;", 1, 1, "byte order mark"),
                (b"USE v", 1, 6, "inside a statement"),
                (b"USE v;\nINSERT INTO t VALUES ('a);\n", 3, 1, "line 2"),
                (b"CREATE SCHEMA VERSION v WITH CREATE TABLE t(a INTEGER);", 1, 47, "no types")]:
            with self.subTest(script):
                self.assertIn(word, telling.hint_at(script, line, column) or "")


class Schemas(unittest.TestCase):
    """The tables of a list, from the texts of its operators."""

    def test_what_operators_take_and_make(self):
        for text, targets, taken, made in [
                ("CREATE TABLE t(a, b)", 1, [], ["t"]),
                ("DROP TABLE t", 0, ["t"], []),
                ("RENAME TABLE t INTO u", 1, ["t"], ["u"]),
                ("RENAME COLUMN a IN t TO b", 1, ["t"], ["t"]),
                ("ADD COLUMN c AS a || ' INTO x' INTO t", 1, ["t"], ["t"]),
                ("ADD COLUMN c AS a * 10 INTO t TRACKED", 1, ["t"], ["t"]),
                ("DROP COLUMN c FROM t DEFAULT ', '", 1, ["t"], ["t"]),
                ("DECOMPOSE TABLE t INTO s(c, a)", 1, ["t"], ["s"]),
                ("DECOMPOSE TABLE t INTO s(), u(a) ON FK f", 2, ["t"], ["s", "u"]),
                ("DECOMPOSE TABLE t INTO s(a), u(b) ON a = ', x('", 2, ["t"], ["s", "u"]),
                ("JOIN TABLE s, u INTO r ON PK", 1, ["s", "u"], ["r"]),
                ("OUTER JOIN TABLE s, u INTO r ON FK f", 1, ["s", "u"], ["r"]),
                ("OUTER JOIN TABLE s, u INTO r ON a = ' INTO x'", 1, ["s", "u"], ["r"]),
                ("SPLIT TABLE t INTO r WITH a = ', x WITH'", 1, ["t"], ["r"]),
                ("SPLIT TABLE t INTO r WITH a = ', x WITH', s WITH (a > 1) AND (b < 2)", 2, ["t"], ["r", "s"]),
                ("MERGE TABLE r (a = ', x ('), s (a > 1) INTO t", 1, ["r", "s"], ["t"])]:
            with self.subTest(text):
                self.assertEqual(schemas.taken_and_made(text, targets), (taken, made))

    def test_what_is_no_list_is_told(self):
        with tempfile.TemporaryDirectory() as folder:
            path = os.path.join(folder, "list.json")
            for text in [b"", b"[]", b"{}", b'{"format":1}']:
                with open(path, "wb") as file:
                    file.write(text)
                with self.assertRaises(Trouble):
                    schemas.read_schema(path)


class CsvFiles(unittest.TestCase):
    """CSV files, cut into statements."""

    def records(self, text, columns=("a", "b")):
        with tempfile.NamedTemporaryFile() as file:
            file.write(text)
            file.flush()
            return list(csv_files.read_records(file.name, "v.t", list(columns)))

    def test_columns_come_in_the_order_of_the_table(self):
        self.assertEqual(self.records(b'\xef\xbb\xbfB,a\r\n1,"x\ny"\r\n\r\n2,\n'), [(2, ["x\ny", "1"]), (5, ["", "2"])])

    def test_faults_are_told_by_their_line(self):
        for text, words in [
                (b"", "no header"), (b"a\n1\n", "lacks b"), (b"a,b,c\n", "no column c"), (b"a,a,b\n", "twice"),
                (b"p,a,b\n", "identifiers"), (b"a;b\n", "commas"), (b"a,b\n1\n", ":2: 1 fields"),
                (b'a,b\n1,2\n3,"4\n', ":3: "), (b"a,b\n1,\xff\n", "UTF-8")]:
            with self.subTest(text), self.assertRaisesRegex(Trouble, re.escape(words)):
                self.records(text)

    def test_statements_are_cut_at_records(self):
        rows = [(line, ["it's", "x" * 900]) for line in range(2, 302)]
        found = list(csv_files.import_statements(rows, "f", "v.t"))
        self.assertEqual(found[0][0], 2)
        self.assertEqual(sum(text.count(b"it''s,") for _, text in found), 300)
        for _, text in found:
            self.assertLessEqual(len(text), 65_536)
            self.assertEqual(len(list(scripts.statements(text))), 1)

    def test_a_record_that_is_too_long_is_told(self):
        with self.assertRaisesRegex(Trouble, "f:7: "):
            list(csv_files.import_statements([(7, ["x" * 66_000])], "f", "v.t"))

    def test_fields_that_need_quotes_get_them(self):
        self.assertEqual(csv_files.record_text([""]), b'""\n')
        self.assertEqual(csv_files.record_text(["a\rb", "c"]), b'"a\rb","c"\n')
        self.assertEqual(csv_files.record_text(["\ufeffa"]), '"\ufeffa"\n'.encode())


class Lists(unittest.TestCase):
    """What is put right behind an interrupted run."""

    def state(self, *files):
        """Makes these files, holds the list, and answers what is there then."""
        with tempfile.TemporaryDirectory() as folder:
            for name, text in files:
                with open(os.path.join(folder, name), "w") as file:
                    file.write(text)
            with lists.held(os.path.join(folder, "l")):
                pass
            return {name: read(folder, name).decode() for name in os.listdir(folder) if not name.endswith(".lock")}

    def test_a_list_that_was_not_put_in_place_is_taken_back(self):
        self.assertEqual(self.state(("l", "old"), ("l.inv-new", "new"), ("l.inv-done-new", "x")), {"l": "old"})

    def test_scripts_follow_a_list_that_was_put_in_place(self):
        self.assertEqual(self.state(("l", "new"), ("l.done", "a"), ("l.inv-done-new", "ab")), {"l": "new", "l.done": "ab"})

    def test_a_link_and_its_file_have_one_lock(self):
        with tempfile.TemporaryDirectory() as folder:
            os.symlink(os.path.join(folder, "l"), os.path.join(folder, "k"))
            with lists.held(os.path.join(folder, "k")) as kept:
                self.assertEqual(kept.path, os.path.realpath(os.path.join(folder, "l")))


class Manual(unittest.TestCase):
    """The texts of `inv`."""

    def test_help_fits_on_a_screen(self):
        self.assertLessEqual(max(map(len, manual.help_text().split("\n"))), 80)

    def test_all_texts_name_all_commands(self):
        for text in (manual.help_text(), manual.man_page(), manual.bash_completion()):
            for command in manual.COMMANDS:
                self.assertIn(command.name, text)

    def test_bash_completes_commands_and_options(self):
        ask = manual.bash_completion() + 'COMP_WORDS=(inv "$@"); COMP_CWORD=$#; _inv; echo "${COMPREPLY[*]}"'
        for words, wanted in [(["ap"], "apply"), (["run", "--r"], "--rehearse"), (["run", "a"], ""),
                              (["--ver"], "--version")]:
            done = subprocess.run(["bash", "-c", ask, "bash"] + words, stdout=subprocess.PIPE)
            self.assertEqual(done.stdout.decode().strip(), wanted)

    @unittest.skipUnless(shutil.which("groff"), "there is no groff")
    def test_the_man_page_is_set_without_a_warning(self):
        done = subprocess.run(["groff", "-man", "-Tascii", "-ww"], input=manual.man_page().encode(),
                              stdout=subprocess.PIPE, stderr=subprocess.PIPE)
        self.assertEqual(done.stderr, b"")
        self.assertIn(b"explain", done.stdout)

    def test_words_are_read_in_any_order(self):
        run = manual.COMMANDS[0]
        for words in (["s", "--on", "l", "--rehearse"], ["--rehearse", "--on=l", "s"]):
            self.assertEqual(manual.read_words(run, words), (["s"], {"--on": "l", "--rehearse": True}))
        for words in ([], ["s", "t"], ["s", "--on"], ["s", "--off"], ["s", "--rehearse=1"], ["s", "--on=l", "--on=l"]):
            with self.assertRaises(Trouble):
                manual.read_words(run, words)


class Words(Calling):
    """Calls that reach no program."""

    def test_bad_words_end_with_2(self):
        for words in ([], ["walk"], ["run"], ["show", "a", "b"], ["explain", "l", "t"]):
            with self.subTest(words):
                self.put("l", b'{"format":1,"layout":[],"versions":[],"stored":[],"aux":[],"operators":[]}')
                self.assertEqual(self.inv(*words)[0], 2)

    def test_what_is_not_there_ends_with_11_or_127(self):
        self.assertEqual(self.inv("run", "none")[0], 11)
        self.assertEqual(self.inv("show", "none")[0], 11)
        self.assertEqual(self.inv("run", "-", program="/none")[0], 127)
        self.assertEqual(self.has(), [])

    def test_the_version_is_that_of_the_changelog(self):
        version = self.inv("--version")[1].decode().split()[1]
        self.assertIn(f"\n## {version}", read(TOP, "CHANGELOG.md").decode())

    def test_installed_links_work(self):
        to = os.path.join(self.folder, "to")
        subprocess.run([os.path.join(HERE, "install"), to], check=True, stdout=subprocess.DEVNULL)
        done = subprocess.run([os.path.join(to, "bin", "inv"), "--version"], stdout=subprocess.PIPE, check=True)
        self.assertTrue(done.stdout.startswith(b"inv "))
        self.assertEqual(os.path.realpath(os.path.join(to, "bin", "inverda")), os.path.join(TOP, "inverda"))
        self.assertEqual(read(to, "share/man/man1/inv.1").decode(), manual.man_page())

    def test_a_reader_that_goes_is_no_fault_of_its_own(self):
        done = subprocess.run(["bash", "-c", f"{INV} --help | true"], stderr=subprocess.PIPE)
        self.assertEqual(done.stderr, b"")

if __name__ == "__main__":
    unittest.main()
