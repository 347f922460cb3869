#!/usr/bin/env python3
"""Tests of the start script `inverda`: `python3 tools/test_start_script.py`. The program and `rt` are stand-ins."""
import os
import shutil
import subprocess
import tempfile
import unittest

TOP = os.path.dirname(os.path.dirname(os.path.realpath(__file__)))
STAND_IN = '#!/bin/sh\necho NAME "$PWD" "$@"\nexit STATUS\n'


class StartScript(unittest.TestCase):
    """A repository in a folder, called through a link from another one."""

    def setUp(self):
        self.folder = os.path.realpath(tempfile.mkdtemp())
        self.addCleanup(shutil.rmtree, self.folder)
        self.put("top/crates.txt", "")
        self.put("top/crates/inverda/src/main.rt", "")
        self.put("bin/rt", STAND_IN.replace("NAME", "rt").replace("STATUS", "0"))
        self.put("work/script", "")
        shutil.copy(os.path.join(TOP, "inverda"), os.path.join(self.folder, "top"))
        os.symlink(os.path.join(self.folder, "top", "inverda"), os.path.join(self.folder, "work", "link"))

    def put(self, name, text, age=0):
        """Makes a file of this age."""
        path = os.path.join(self.folder, name)
        os.makedirs(os.path.dirname(path), exist_ok=True)
        with open(path, "w") as file:
            file.write(text)
        os.chmod(path, 0o755)
        then = os.stat(path).st_mtime - age
        os.utime(path, (then, then))

    def put_program(self, status=0, age=-100):
        """Makes the built program."""
        self.put("top/crates/inverda/out/inverda", STAND_IN.replace("NAME", "program").replace("STATUS", str(status)), age)

    def call(self, *words, path="bin:/usr/bin:/bin"):
        """Calls the link: status, standard output, standard error."""
        environment = dict(os.environ, PATH=path.replace("bin", os.path.join(self.folder, "bin"), 1))
        done = subprocess.run(["./link"] + list(words), cwd=os.path.join(self.folder, "work"), env=environment,
                              stdin=subprocess.DEVNULL, stdout=subprocess.PIPE, stderr=subprocess.PIPE)
        return done.returncode, done.stdout.decode(), done.stderr.decode()

    def test_a_built_program_is_called_in_the_folder_of_the_caller(self):
        self.put_program()
        self.assertEqual(self.call("--load", "a", "--dump=b"),
                         (0, f"program {self.folder}/work --load a --dump=b\n", ""))

    def test_an_older_one_is_not_called(self):
        self.put_program(age=100)
        status, out, said = self.call("--load", "a", "--dump=b/c", "--max-ids", "7")
        words = f"try -- --load {self.folder}/work/a --dump={self.folder}/work/b/c --max-ids 7"
        self.assertEqual((status, out), (0, f"rt {self.folder}/top/crates/inverda {words}\n"))
        self.assertIn("rt try --cases FOLDER", said)

    def test_bad_words_are_followed_by_usage(self):
        self.put_program(status=2)
        status, out, said = self.call("--help")
        self.assertEqual((status, out), (2, f"program {self.folder}/work --help\n"))
        for word in ("--load FILE", "--dump FILE", "--max-ids N", "--generate N", "docs/LANGUAGE.md"):
            self.assertIn(word, said)

    def test_other_ends_are_not(self):
        self.put_program(status=3)
        self.assertEqual(self.call(), (3, f"program {self.folder}/work\n", ""))

    def test_what_is_not_there_ends_with_127(self):
        os.remove(os.path.join(self.folder, "bin", "rt"))
        status, out, said = self.call()
        self.assertEqual((status, out), (127, ""))
        self.assertIn("'rt'", said)
        self.put("bin/rt", STAND_IN)
        shutil.rmtree(os.path.join(self.folder, "top", "crates", "inverda"))
        self.assertEqual(self.call()[:2], (127, ""))


if __name__ == "__main__":
    unittest.main()
