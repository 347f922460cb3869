"""Lists: databases that are kept in files, each held by one run at a time and replaced whole.

Beside the file LIST stand LIST.lock, which is locked while a run is at work and stays empty, and LIST.done, the
scripts that `inv apply` has done. What is made and not kept yet is LIST.inv-new, and LIST.inv-done-new the scripts
that are done with it. These two are renamed in this order, so that after an interrupted run it can be told how far
it came: where the first is gone, the list was kept, and the second has to follow."""
import contextlib
import errno
import fcntl
import hashlib
import os
import sys

from . import Trouble


class List:
    """A list and the files beside it. A link is followed, so that one list has one lock."""

    def __init__(self, name):
        self.path = os.path.realpath(name)
        self.lock = self.path + ".lock"
        self.done = self.path + ".done"
        self.new = self.path + ".inv-new"
        self.new_done = self.path + ".inv-done-new"

    def is_there(self):
        """Whether the list was made already."""
        return os.path.exists(self.path)

    def load_words(self):
        """The words by which the program begins with the list; none where it isn't there yet."""
        return ["--load", self.path] if self.is_there() else []


@contextlib.contextmanager
def held(name, reading=False):
    """Holds a list for one run, and waits while another one has it. Several may read at once."""
    kept = List(name)
    if os.path.isdir(kept.path):
        raise Trouble(f"{name} is a folder")
    if reading and not kept.is_there():
        raise Trouble(f"there is no list {name}")
    with locked(kept.lock, fcntl.LOCK_SH if reading else fcntl.LOCK_EX, reading):
        if not reading:
            put_right(kept)
        yield kept


@contextlib.contextmanager
def locked(path, kind, reading):
    """Holds the lock of a file, which is made where it isn't there."""
    try:
        lock = os.open(path, os.O_RDONLY | os.O_CREAT, 0o666)
    except OSError as error:
        if reading and error.errno in (errno.EACCES, errno.EROFS, errno.EPERM):
            yield  # a list that this user may only read
            return
        raise Trouble(f"{path} can't be made: {error.strerror}") from error
    try:
        try:
            fcntl.flock(lock, kind | fcntl.LOCK_NB)
        except BlockingIOError:
            print("inv: another run is at work on the list; waiting", file=sys.stderr, flush=True)
            fcntl.flock(lock, kind)
        yield
    finally:
        os.close(lock)


def put_right(kept):
    """Finishes or takes back what an interrupted run left."""
    if os.path.exists(kept.new):
        remove(kept.new)
        remove(kept.new_done)
    elif os.path.exists(kept.new_done):
        os.replace(kept.new_done, kept.done)


def remove(path):
    """Removes a file, if it is there."""
    with contextlib.suppress(FileNotFoundError):
        os.remove(path)


def keep_new(kept, done=None):
    """Puts the new list in place of the old one, with its mode, and then the scripts that are done with it."""
    if kept.is_there():
        os.chmod(kept.new, os.stat(kept.path).st_mode & 0o7777)
    if done is not None:
        write_whole(kept.new_done, done)
    os.replace(kept.new, kept.path)
    if done is not None:
        os.replace(kept.new_done, kept.done)
    sync_folder(kept.path)


def write_whole(path, lines):
    """Writes the lines of a file, down to the disk."""
    with open(path, "w", encoding="utf-8") as file:
        file.writelines(line + "\n" for line in lines)
        file.flush()
        os.fsync(file.fileno())


def sync_folder(path):
    """Waits until the names of the folder in which a file stands are on the disk."""
    folder = os.open(os.path.dirname(path), os.O_RDONLY)
    try:
        os.fsync(folder)
    finally:
        os.close(folder)


def done_scripts(kept):
    """The scripts that were applied to the list, in order: a name and the sum of its bytes each."""
    try:
        with open(kept.done, encoding="utf-8") as file:
            return [tuple(reversed(line.rstrip("\n").split("  ", 1))) for line in file]
    except FileNotFoundError:
        return []


def done_lines(done):
    """The lines of LIST.done, as `sha256sum -c` reads them."""
    return [f"{checksum}  {name}" for name, checksum in done]


def sum_of(script):
    """The sum by which a changed script is known."""
    return hashlib.sha256(script).hexdigest()
