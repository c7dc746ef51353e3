"""The files of the repository by their paths from the top, sums of files, and folders that one process holds."""
import fcntl
import glob
import hashlib
import os
import threading
from pathlib import Path

HOME = os.path.dirname(os.path.dirname(os.path.dirname(os.path.realpath(__file__))))


def text_of(path):
    """Returns the text of a file, by its path from the top."""
    return Path(HOME, path).read_text("utf-8")


def write(path, text):
    Path(HOME, path).write_text(text, "utf-8")


def paths(pattern):
    """Returns the paths that match, from the top, sorted."""
    return sorted(glob.glob(pattern, root_dir=HOME, recursive=True))


def sum_of(path):
    """Returns a sum of a file, or 'none' if it can't be read."""
    try:
        return hashlib.sha256(Path(path).read_bytes()).hexdigest()
    except OSError:
        return "none"


def replace_file(path, text):
    """Writes a file so that it is there whole or not at all. Several threads and processes may do it at once."""
    new = Path(f"{path}.{os.getpid()}.{threading.get_ident()}.new")
    new.write_text(text, "utf-8")
    os.replace(new, path)


def lock_folder(folder):
    """Waits until no other process holds this folder, and holds it until the number that it returns is closed."""
    os.makedirs(folder, exist_ok=True)
    held = os.open(folder, os.O_RDONLY)
    fcntl.flock(held, fcntl.LOCK_EX)
    return held
