#!/usr/bin/env python3
"""Tries `pages serve` behind nginx with examples/nginx.conf:
`tools/serve/behind_nginx.py [PROGRAM [CONFIGURATION]]`. What curl and sixty readers beside an
editor try at the program itself they try through nginx, and what each line of the configuration is
for; an editor publishes through examples/nginx_editors.conf; and a thousand clients ask once a
second.

It wants nginx with its module `stream`, openssl and curl, takes a minute, ends by itself in four at the most, and leaves no
process. The certificate is made on the spot, and all clients go by it. Where a check fails, nginx's
own messages and each wrong answer are kept in a folder, which the last lines name."""

import asyncio
import os
import shutil
import signal
import sys
import tempfile
import time

HERE = os.path.dirname(os.path.abspath(__file__))
sys.path.insert(0, HERE)
sys.dont_write_bytecode = True

from by_curl import FILES, put_by_curl, try_front  # noqa: E402
from by_many import try_many  # noqa: E402
from by_nginx_lines import make_site, try_editors, try_lines, try_without_program  # noqa: E402
from front import Front  # noqa: E402
from messages import publish  # noqa: E402
from nginx import make_key, start_nginx  # noqa: E402
from server import HOST, Server, Tally, free_ports  # noqa: E402

BUILT = os.path.join(HERE, "../../crates/pages_cli/out/pages_cli")
EXAMPLE = os.path.join(HERE, "../../examples/nginx.conf")
MOST_SECONDS = 240
CLIENTS = 1_000
ROUNDS = 5
MOST_MILLIS = 50
# Large enough to be sent compressed.
STYLE = FILES["/style.css"] * 500


def try_pages(front, server, tally):
    """What is tried at the program itself; and files that nginx sends compressed."""
    put_by_curl(server, tally)
    for _ in range(50):
        if front.status("/hi.jsp") == "200":
            break
        time.sleep(0.1)
    try_front(front, server, tally)
    publish(server.editor_port, {"/style.css": STYLE})
    tally.same("a file that came compressed", front.curl("/style.css", "--compressed"), STYLE.encode())
    head = front.curl("/style.css", "--compressed", "--head")
    tally.check("and says so", b"Content-Encoding: gzip" in head, head)


async def ask(reader, writer, target):
    """The head and the body of an answer, and the seconds that it took."""
    begun = time.perf_counter()
    writer.write(f"GET {target} HTTP/1.1\r\nHost: localhost\r\n\r\n".encode())
    head = await reader.readuntil(b"\r\n\r\n")
    length = int(head.lower().split(b"content-length:")[1].split()[0])
    body = await reader.readexactly(length)
    return head, body, time.perf_counter() - begun


async def client(number, front, took, wrong):
    """Asks once a second over a kept connection, and notes what is wrong, with when that was."""
    await asyncio.sleep(number / CLIENTS)
    turn, begun = "connecting", time.perf_counter()
    try:
        reader, writer = await asyncio.open_connection(HOST, front.port, ssl=front.context)
        await asyncio.sleep(2)
        for turn in range(ROUNDS):
            begun = time.perf_counter()
            head, body, passed = await ask(reader, writer, f"/hi.jsp?who={number}.{turn}")
            took.append(passed)
            if body != f"Hi {number}.{turn}!".encode():
                seen = f"{head!r} {body[:500]!r}"
                wrong.append(f"client {number}, turn {turn}, after {passed:.3f} s: {seen}")
            await asyncio.sleep(max(0.0, 1 - passed))
        writer.close()
    except (OSError, EOFError, ValueError, IndexError, asyncio.LimitOverrunError) as fault:
        passed = time.perf_counter() - begun
        wrong.append(f"client {number}, turn {turn}, after {passed:.3f} s: {fault!r}")


async def thousand(front, folder, tally):
    took, wrong = [], []
    await asyncio.gather(*(client(number, front, took, wrong) for number in range(CLIENTS)))
    with open(f"{folder}/wrong.txt", "w") as out:
        out.write("".join(f"{line}\n" for line in wrong))
    name = f"{CLIENTS:,} clients, each asking once a second: every answer is right"
    tally.check(name, not wrong, (len(wrong), wrong[:2]))
    took.sort()
    late = took[len(took) * 99 // 100] * 1000 if took else -1
    middle = took[len(took) // 2] * 1000 if took else -1
    tally.check(f"the 99th of a hundred within {MOST_MILLIS} ms", 0 <= late <= MOST_MILLIS, late)
    tally.note(f"of {len(took)} answers the 99th of a hundred within {late:.1f} ms, the middle one {middle:.1f}")
    tally.note(f"the load of the last minute is {os.getloadavg()[0]:.1f}")


def keep(folder):
    """Keeps what nginx said and what was wrong, and says where."""
    kept = tempfile.mkdtemp(prefix="behind-nginx-")
    for name in ("messages.txt", "wrong.txt", "nginx.conf"):
        if os.path.exists(f"{folder}/{name}"):
            shutil.copy(f"{folder}/{name}", kept)
    print(f"      nginx's messages and the wrong answers are in {kept}")


def main():
    program = os.path.abspath(sys.argv[1] if len(sys.argv) > 1 else BUILT)
    configuration = sys.argv[2] if len(sys.argv) > 2 else EXAMPLE
    signal.alarm(MOST_SECONDS)
    tally = Tally()
    (port,) = free_ports(1)
    with tempfile.TemporaryDirectory() as folder, Server(program, workers=16) as server:
        make_key(folder, "pages", "-nodes")
        make_site(folder)
        nginx = start_nginx(configuration, folder, {8080: server.port, 8443: port})
        front = Front(port, f"{folder}/pages.crt")
        try:
            print("pages")
            try_pages(front, server, tally)
            print("the lines of the configuration")
            try_lines(front, server, tally)
            try_editors(program, folder, server, front, tally)
            print("sixty readers and an editor")
            try_many(front, server, tally)
            print("a thousand clients")
            asyncio.run(thousand(front, folder, tally))
            print("without the program")
            try_without_program(front, server, tally)
        finally:
            nginx.terminate()
            nginx.wait()
            if tally.failed:
                keep(folder)
    print(f"{tally.held} held, {tally.failed} failed")
    return 1 if tally.failed else 0


if __name__ == "__main__":
    sys.exit(main())
