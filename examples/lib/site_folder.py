"""What of a folder is published: its files by their names, and which are left out."""

import fnmatch
import os
from dataclasses import dataclass

MOST_FILE_BYTES = 1_048_576
MOST_PATH_BYTES = 1_024
# Hidden files, and what editors leave.
LEFTOVERS = (".*", "*~", "#*#", "*.swp", "*.swo", "*.tmp")
PAGES = (".jsp", ".jspx")


def is_leftover(name):
    return any(fnmatch.fnmatchcase(name, pattern) for pattern in LEFTOVERS)


def raised(fault):
    raise fault


def walk(path):
    """The names of all files of a folder but leftovers, relative to it, in the order of their
    bytes; an OSError where a folder in it can't be read. A link to a folder is a name of its own."""
    names = []
    for folder, folders, files in os.walk(os.fsencode(path), onerror=raised):
        folders[:] = [it for it in folders if not is_leftover(os.fsdecode(it))]
        links = [it for it in folders if os.path.islink(os.path.join(folder, it))]
        files = [it for it in files if not is_leftover(os.fsdecode(it))]
        names += [os.path.join(folder, it) for it in files + links]
    return sorted(os.path.relpath(it, os.fsencode(path)) for it in names)


def fault_of_name(name):
    """Why no file of a site can have this name, or nothing."""
    if len(name) + 1 > MOST_PATH_BYTES:
        return "its name is too long"
    if any(byte < 32 or byte in (92, 127) for byte in name):
        return "its name has a backslash or a control character"
    return None if is_text(name) else "its name isn't UTF-8"


def is_text(found):
    try:
        found.decode()
    except UnicodeDecodeError:
        return False
    return True


def text_of(path):
    """The text of a file, and why it is left out, one of them."""
    if not os.path.isfile(path):
        return None, "it is no plain file"
    if os.path.getsize(path) > MOST_FILE_BYTES:
        return None, "it is over 1 MiB"
    with open(path, "rb") as file:
        text = file.read()
    return (text, None) if is_text(text) else (None, "it isn't UTF-8")


@dataclass
class SiteFolder:
    """The files of a folder that can be published, by name, and why others are left out."""

    path: str
    files: dict[str, bytes]
    left_out: dict[str, str]

    def pages(self):
        """The pages that readers can ask for."""
        return [name for name in self.files if name.endswith(PAGES) and not name.startswith("WEB-INF/")]

    def tag_files(self):
        return [name for name in self.files if name.startswith("WEB-INF/tags/") and name.endswith(".tag")]

    def tell_left_out(self):
        for name, reason in self.left_out.items():
            print(f"left out: {name}: {reason}", flush=True)


def read_folder(path):
    """The folder as it is now; an OSError where it or one of its files can't be read."""
    files, left_out = {}, {}
    for name in walk(path):
        reason = fault_of_name(name)
        text, other = (None, None) if reason else text_of(os.path.join(os.fsencode(path), name))
        if reason or other:
            left_out[name.decode(errors="backslashreplace")] = reason or other
        else:
            files[name.decode()] = text
    return SiteFolder(path, files, left_out)


def stamp_of(path):
    """The time and the size of a file, by which a change is seen; nothing where it isn't there."""
    try:
        seen = os.stat(path)
    except OSError:
        return None
    return seen.st_mtime_ns, seen.st_size


def state_of(path):
    """The stamps of a folder's files, or nothing where a folder in it can't be read just now."""
    try:
        return {name: stamp_of(os.path.join(os.fsencode(path), name)) for name in walk(path)}
    except OSError:
        return None
