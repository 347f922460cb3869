"""What the tests of `inv` share: the examples, and calls of `inv` in a folder of their own."""
import os
import re
import shutil
import subprocess
import sys
import tempfile
import unittest

HERE = os.path.dirname(os.path.realpath(__file__))
TOP = os.path.dirname(HERE)
EXAMPLES = os.path.join(TOP, "examples")
INV = os.path.join(HERE, "inv")
sys.path.insert(0, HERE)

from inv_parts import replies, scripts  # noqa: E402


def read(*parts):
    """The bytes of a file."""
    with open(os.path.join(*parts), "rb") as file:
        return file.read()


def examples():
    """The path without ending of each example, and whether a second script goes with it."""
    for folder, _, names in sorted(os.walk(EXAMPLES)):
        for name in sorted(names):
            if name.endswith(".bidel") and not name.endswith(".then.bidel"):
                path = os.path.join(folder, name[:-len(".bidel")])
                yield path, os.path.exists(path + ".then.bidel")


def status_of(path):
    """The status with which an example ends, as the gate wants it."""
    name = os.path.relpath(path, TOP)
    wanted = read(TOP, "crates", "script_rows", "stdout").decode()
    return int(re.search(f"(?m)^{re.escape(name)} status ([0-9])$", wanted)[1])


def split(script, out, status=0):
    """The replies of a script, as lists of lines."""
    told = replies.told(list(scripts.statements(script)), out, status)
    return told and told.replies


class Calling(unittest.TestCase):
    """What stands on a program that a test makes."""

    def setUp(self):
        self.folder = tempfile.mkdtemp()
        self.addCleanup(shutil.rmtree, self.folder)

    def inv(self, *words, script=b"", program=None):
        """Calls inv in the folder: status, standard output, standard error."""
        environment = dict(os.environ)
        if program:
            environment["INVERDA"] = program
        done = subprocess.run([sys.executable, INV] + list(words), cwd=self.folder, input=script, env=environment,
                              stdout=subprocess.PIPE, stderr=subprocess.PIPE)
        return done.returncode, done.stdout, done.stderr.decode()

    def put(self, name, text):
        """Writes a file of the folder."""
        os.makedirs(os.path.dirname(os.path.join(self.folder, name)), exist_ok=True)
        with open(os.path.join(self.folder, name), "wb") as file:
            file.write(text if isinstance(text, bytes) else text.encode())

    def has(self):
        """The names in the folder."""
        return sorted(os.listdir(self.folder))
