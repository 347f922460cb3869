"""Where the program is, and how it is called."""
import os
import shutil
import subprocess

from . import Trouble

TOP = os.path.dirname(os.path.dirname(os.path.dirname(os.path.realpath(__file__))))


def find_program():
    """The program: what the variable INVERDA names; else the start script at the top of the repository, which takes
    the proved executable where that is there and newer than the sources; else `inverda` on the path."""
    named = os.environ.get("INVERDA")
    if named:
        return named
    start_script = os.path.join(TOP, "inverda")
    if os.access(start_script, os.X_OK):
        return start_script
    found = shutil.which("inverda")
    if found:
        return found
    raise Trouble("there is no program: neither $INVERDA nor " + start_script + " nor inverda on the path", 127)


def call(script, words):
    """Runs the program on a script. Answers its status and what it wrote; a signal n counts as status 128 + n."""
    program = find_program()
    try:
        done = subprocess.run([program] + words, input=script, stdout=subprocess.PIPE)
    except OSError as error:
        raise Trouble(f"{program} can't be run: {error.strerror}", 127) from error
    return (128 - done.returncode if done.returncode < 0 else done.returncode), done.stdout
