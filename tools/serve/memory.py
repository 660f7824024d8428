#!/usr/bin/env python3
"""Measures `pages serve` without wrk: `tools/serve/memory.py [PROGRAM [REQUESTS]]`. It says how
long it takes from the start of the program to its line and to the first answer, and its memory at
rest, with 1, 16 and 63 workers in turns; how long from the message that publishes an include to the
right answer on another connection; and its memory behind a million requests, half of them of a page
that counts in a session. Of 21 times it says the middle one and the greatest, beside them the goals
that issues have set; and before and after all how fast the machine is. Every answer is compared. It
takes two minutes, and ends by itself in five at the most."""

import os
import signal
import sys
import time
from statistics import median

HERE = os.path.dirname(os.path.abspath(__file__))
sys.path.insert(0, HERE)
sys.dont_write_bytecode = True

from host import tell_host  # noqa: E402
from messages import Connection, publish, put, request  # noqa: E402
from server import Server, Tally  # noqa: E402

BUILT = os.path.join(HERE, "../../crates/pages_cli/out/pages_cli")
MOST_SECONDS = 300
TIMES = 21
WORKERS = (1, 16, 63)
# The goals.
MOST_START_MILLIS = 5
MOST_KIBIBYTES = 6 * 1024
AT_ONCE = 500
OF_A_CONNECTION = 60_000
FILES = {
    "/hello.jsp": '<%@ page session="false" %>Hi ${param.n}!',
    "/count.jsp": '<%@ taglib prefix="c" uri="jakarta.tags.core" %>'
    '<c:set var="n" value="${sessionScope.n + 1}" scope="session"/>${n}',
}


class Starts:
    """Of a number of workers: milliseconds to the line on standard error and to the first answer,
    and KiB of memory at rest."""

    def __init__(self):
        self.lines = []
        self.answers = []
        self.memory = []

    def add(self, program, workers):
        """Starts it once more, and answers whether it says that nothing is there."""
        with Server(program, workers=workers) as server:
            self.lines.append(server.seconds_to_start * 1e3)
            with Connection(server.port) as connection:
                answer = connection.ask("GET", "/hello.jsp")
            self.answers.append((time.perf_counter() - server.begun) * 1e3)
            self.memory.append(server.memory())
        return answer.status == 404


def try_starts(program, tally):
    starts, right = {workers: Starts() for workers in WORKERS}, True
    for _ in range(TIMES):
        for workers, seen in starts.items():
            right &= seen.add(program, workers)
    tally.check("the first answer is right", right)
    for workers, seen in starts.items():
        times = ", ".join(
            f"{median(each):.1f} ms to {name} (at most {max(each):.1f})"
            for name, each in (("its line", seen.lines), ("the first answer", seen.answers))
        )
        tally.note(f"from a start with {workers} workers {times} [goal: under {MOST_START_MILLIS}]")
        middle, most = median(seen.memory), max(seen.memory)
        tally.note(f"at rest {middle:,} KiB (at most {most:,}) [goal: under {MOST_KIBIBYTES:,}]")


def try_publishings(program, tally):
    """From the message that publishes an include to the right answer on another connection."""
    took, right = [], True
    with Server(program, workers=16) as server:
        page = '<%@ page session="false" %><%@ include file="part.jspf" %>'
        publish(server.editor_port, {"/part.jspf": "0", "/all.jsp": page})
        with Connection(server.editor_port) as editor, Connection(server.port) as reader:
            for version in range(1, TIMES + 1):
                reader.ask("GET", "/all.jsp")
                put(editor, "/part.jspf", str(version))
                begun = time.perf_counter()
                editor.ask("POST", "/_editor/publish")
                body = reader.ask("GET", "/all.jsp").body
                took.append((time.perf_counter() - begun) * 1e3)
                right &= body == str(version).encode()
    tally.check("behind its publishing an include is new on another connection", right)
    middle, longest = median(took), max(took)
    tally.note(f"from the message that publishes it to that answer: {middle:.2f} ms (at most {longest:.2f})")


def hello(server, count):
    """Whether so many requests of the page are answered rightly, many sent without waiting."""
    sent, wanted = request("GET", "/hello.jsp?n=Bo") * AT_ONCE, b"Hi Bo!"
    with Connection(server.port) as connection:
        for _ in range(count // AT_ONCE):
            connection.send(sent)
            if any(connection.answer().body != wanted for _ in range(AT_ONCE)):
                return False
    return True


def counted(server, count):
    """Whether a session's counter counts so many requests."""
    with Connection(server.port) as connection:
        cookie = connection.ask("GET", "/count.jsp").fields["set-cookie"].split(";")[0]
        sent = request("GET", "/count.jsp", f"Cookie: {cookie}\r\n") * AT_ONCE
        for turn in range(count // AT_ONCE):
            connection.send(sent)
            seen = [connection.answer().body for _ in range(AT_ONCE)]
            if seen != [str(turn * AT_ONCE + place + 2).encode() for place in range(AT_ONCE)]:
                return False
    return True


def try_memory(program, requests, tally):
    with Server(program, workers=16) as server:
        publish(server.editor_port, FILES)
        done, is_right = 0, True
        while requests - done >= 2 * AT_ONCE and is_right:
            part = min(OF_A_CONNECTION, (requests - done) // 2)
            is_right = hello(server, part) and counted(server, part)
            done += 2 * part
        tally.check(f"{done:,} answers are right", is_right)
        memory = server.memory()
        user, system = server.processor_seconds()
        each = (user + system) / max(done, 1) * 1e6
        tally.note(f"behind them: {memory:,} KiB; {each:.1f} us of processor time each, sent without waiting")


def main():
    program = os.path.abspath(sys.argv[1] if len(sys.argv) > 1 else BUILT)
    requests = int(sys.argv[2]) if len(sys.argv) > 2 else 1_000_000
    signal.alarm(MOST_SECONDS)
    tally = Tally()
    tell_host("before")
    try_starts(program, tally)
    try_publishings(program, tally)
    try_memory(program, requests, tally)
    tell_host("after")
    print(f"{tally.held} held, {tally.failed} failed")
    return 1 if tally.failed else 0


if __name__ == "__main__":
    sys.exit(main())
