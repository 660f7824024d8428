"""The scripts of examples/ that publish a folder, and what readers see of it then."""

import os
import subprocess
import sys
import time

from messages import Connection
from server import HOST

EXAMPLES = os.path.join(os.path.dirname(os.path.abspath(__file__)), "../../examples")


def write(folder, files):
    for name, text in files.items():
        path = os.path.join(folder, name)
        os.makedirs(os.path.dirname(path), exist_ok=True)
        with open(path, "w") as file:
            file.write(text)


class Publisher:
    """What runs the scripts of examples/ for a folder, with one program that looks for faults."""

    def __init__(self, program):
        self.program = program

    def start(self, folder, port, *words, script="publish"):
        """A script that publishes the folder at the editors' port of this machine."""
        return self.start_script(script, folder, f"http://{HOST}:{port}", *words)

    def start_script(self, name, *words):
        told = [sys.executable, os.path.join(EXAMPLES, name), "--pages", self.program, *words]
        return subprocess.Popen(told, stdin=subprocess.DEVNULL, stdout=subprocess.PIPE, stderr=subprocess.PIPE)

    def run(self, folder, port, *words):
        """The status of examples/publish, and all that it says."""
        return ended(self.start(folder, port, *words))

    def check(self, folder):
        """The same of examples/check."""
        return ended(self.start_script("check", folder))


def ended(process, seconds=200):
    try:
        out, said = process.communicate(timeout=seconds)
    except subprocess.TimeoutExpired:
        process.kill()
        process.communicate()
        return "it doesn't end", ""
    return process.returncode, (out + said).decode()


def asked(port, target):
    """The answer over a new connection; another where the end of a round came before the answer."""
    for _ in range(100):
        try:
            with Connection(port) as connection:
                if answer := connection.ask("GET", target):
                    return answer
        except OSError:
            pass
        time.sleep(0.01)
    return None


def missing(port, files):
    """Which of these files aren't there as they were published, asked over as few connections as
    the rounds allow."""
    waiting, wrong, tries = dict(files), [], 0
    while waiting and tries < 1000:
        tries += 1
        try:
            with Connection(port) as connection:
                for name, text in list(waiting.items()):
                    answer = connection.ask("GET", "/" + name)
                    if answer is None:
                        break
                    del waiting[name]
                    if answer.body != text.encode():
                        wrong.append((name, answer))
        except OSError:
            time.sleep(0.005)
    return wrong + list(waiting)
