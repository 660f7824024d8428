"""The program `pages`: where it is, and a site of its own that it plays."""

import os
import shutil
import subprocess

from messages import Ended, read_answer, request

TOP = os.path.dirname(os.path.dirname(os.path.dirname(os.path.abspath(__file__))))
# Where `rt run` and `rt ci` leave it, and where README builds it.
BUILT = (f"{TOP}/crates/pages_cli/out/pages_cli", f"{os.path.dirname(TOP)}/programs/pages")
MISSING = (
    "the program `pages` isn't found, which looks for faults: say where it is by --pages PATH or in the"
    " variable PAGES, put it on PATH, or build it by tools/build ../programs pages"
)


class NoProgram(Exception):
    """There is no program with which to look."""


def find_program(said=None):
    """The program that was said, else that of the variable PAGES, that on PATH, or a built one."""
    said = said or os.environ.get("PAGES")
    if said:
        found = shutil.which(said)
        if not found:
            raise NoProgram(f"{said} is no program")
        return found
    found = [shutil.which("pages"), *BUILT]
    for path in found:
        if path and os.access(path, os.X_OK) and os.path.isfile(path):
            return path
    raise NoProgram(MISSING)


class OwnSite:
    """`pages play` with a site of its own, which nobody else sees: a connection like any other."""

    def __init__(self, program):
        self.process = subprocess.Popen(
            [program, "play"], stdin=subprocess.PIPE, stdout=subprocess.PIPE, stderr=subprocess.DEVNULL
        )

    def __enter__(self):
        return self

    def __exit__(self, *_):
        self.process.kill()
        self.process.wait()
        for stream in (self.process.stdin, self.process.stdout):
            try:
                stream.close()
            except OSError:
                pass

    def ask(self, method, target, body=None):
        """Sends a message, and gives its answer."""
        try:
            self.process.stdin.write(request(method, target, body))
            self.process.stdin.flush()
        except OSError as fault:
            raise Ended(fault) from fault
        return read_answer(self.process.stdout)
