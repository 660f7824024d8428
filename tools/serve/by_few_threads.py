"""What `pages serve` says where it can't have all its threads: it ends with status 8, and never
serves with fewer workers."""

import os
import shutil
import subprocess
import tempfile

from messages import Connection, publish
from server import Server, free_ports, limit_threads

WORKERS = 16
# One for each worker, and one for editors.
NEEDED = WORKERS + 1
ENOUGH = 40
PAGE = "/hi.jsp"


def ends_with(program, threads):
    """How it ends that may have so many threads: its status, and what it says on standard error."""
    readers, editors = free_ports(2)
    words = ["serve", f"--port={readers}", f"--editor-port={editors}", f"--workers={WORKERS}"]
    try:
        it = subprocess.run(
            [program, *words],
            stdin=subprocess.DEVNULL,
            capture_output=True,
            timeout=10,
            preexec_fn=lambda: limit_threads(threads),
        )
    except subprocess.TimeoutExpired as fault:
        return "it serves", fault.stderr
    return it.returncode, it.stderr


def all_are_served(server):
    """Whether each worker answers a connection while all are open, and editors are answered beside
    them."""
    publish(server.editor_port, {PAGE: "Hi!"})
    readers = [Connection(server.port) for _ in range(WORKERS)]
    try:
        seen = [it.ask("GET", PAGE).body for it in readers]
        return seen == [b"Hi!"] * WORKERS and publish(server.editor_port, {}).status == 200
    finally:
        for it in readers:
            it.close()


def try_few_threads(program, tally):
    with tempfile.TemporaryDirectory() as folder:
        # (where another user may run it)
        os.chmod(folder, 0o755)
        copy = shutil.copy(program, folder)
        for threads in (1, NEEDED - 1):
            seen = ends_with(copy, threads)
            tally.same(f"{threads} of {NEEDED} threads", seen, (8, b"pages: status 8\n"))
        if os.geteuid() != 0:
            tally.note("what it does with enough threads isn't tried, since others of this user count")
            return
        with Server(copy, workers=WORKERS, threads=ENOUGH) as server:
            tally.check("with enough it serves as many as it has workers", all_are_served(server))
