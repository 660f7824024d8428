#!/usr/bin/env python3
"""Tries the program `pages serve` as its users would, on free ports of this machine:
`tools/serve/try.py [PROGRAM]`.

It takes about three minutes, ends by itself in ten at the most, leaves no process, and speaks with
nobody but the program. Its last line is `N held, M failed`."""

import os
import signal
import subprocess
import sys
import tempfile

HERE = os.path.dirname(os.path.abspath(__file__))
sys.path.insert(0, HERE)
sys.dont_write_bytecode = True

from by_contexts import NAMES, try_contexts  # noqa: E402
from by_curl import try_curl  # noqa: E402
from by_few_threads import try_few_threads  # noqa: E402
from by_hard_clients import try_hard_clients  # noqa: E402
from by_idle import IDLE_SECONDS, try_idle  # noqa: E402
from by_many import try_large_publishing, try_many  # noqa: E402
from by_previews import try_previews  # noqa: E402
from by_rounds import try_rounds  # noqa: E402
from by_scripts import try_scripts  # noqa: E402
from front import Front  # noqa: E402
from server import Server, Tally, free_ports  # noqa: E402

BUILT = os.path.join(HERE, "../../crates/pages_cli/out/pages_cli")
MOST_SECONDS = 600


def try_words(program, tally):
    """What the command says without serving."""

    def ends(*words):
        it = subprocess.run([program, *words], stdin=subprocess.DEVNULL, capture_output=True, timeout=30)
        return it.returncode, it.stdout, it.stderr

    status, out, _ = ends("--help")
    tally.check("--help", status == 0 and b"pages serve" in out, (status, out))
    status, out, _ = ends("--version")
    tally.check("--version", status == 0 and out.startswith(b"pages "), (status, out))
    for words in (["serve"], ["serve", "--port=1"], ["serve", "--port=1", "--editor-port=2", "--workers=64"]):
        status, _, said = ends(*words)
        tally.check(" ".join(words), status == 1 and b"pages serve" in said, (status, said))
    with Server(program, workers=1) as server:
        _, other = free_ports(2)
        words = ["serve", f"--port={server.port}", f"--editor-port={other}", "--workers=1"]
        status, _, said = ends(*words)
        tally.same("a port that another has", (status, said), (7, b"pages: status 7\n"))


def main():
    program = os.path.abspath(sys.argv[1] if len(sys.argv) > 1 else BUILT)
    signal.alarm(MOST_SECONDS)
    tally = Tally()
    print("words")
    try_words(program, tally)
    print("few threads")
    try_few_threads(program, tally)
    print("curl")
    with Server(program, workers=16) as server:
        tally.note(server.line.strip())
        try_curl(server, tally)
    print("drafts")
    with Server(program, workers=2, shows_drafts=True) as server:
        try_previews(server, tally)
    print("two sites in one")
    with Server(program, workers=4, contexts=NAMES) as server:
        try_contexts(server, tally)
    print("a session's time")
    with Server(program, workers=1, idle=IDLE_SECONDS) as server:
        try_idle(server, tally)
    print("sixty readers and an editor")
    with Server(program, workers=60) as server:
        front = Front(server.port)
        try_many(front, server, tally)
        try_large_publishing(front, server, tally)
    print("scripts for a folder")
    with tempfile.TemporaryDirectory() as folder:
        try_scripts(program, folder, tally)
    print("publishings while rounds end")
    try_rounds(program, tally)
    print("hard clients")
    try_hard_clients(program, tally)
    print(f"{tally.held} held, {tally.failed} failed")
    return 1 if tally.failed else 0


if __name__ == "__main__":
    sys.exit(main())
