#!/usr/bin/env python3
"""How long readers wait beside publishings: `tools/serve/waits.py [PROGRAM [PUBLISHINGS]]`. A site
of 4,096 files is served, 1,000 of them pages that are kept; an editor publishes what changes one of
them, and a reader in a process of its own asks for another page all the while. It says of the
reader's answers, without an editor and beside one: how many, the middle one, and the longest in the
time of a publishing (the middle of these times, and the longest of all), in microseconds.
Processors that do other work show in both. Ends by itself in a minute."""

import multiprocessing
import os
import sys
import time
from statistics import median

HERE = os.path.dirname(os.path.abspath(__file__))
sys.path.insert(0, HERE)
sys.dont_write_bytecode = True

from messages import Connection, publish, put, request  # noqa: E402
from server import Server  # noqa: E402

BUILT = os.path.join(HERE, "../../crates/pages_cli/out/pages_cli")
FILES, PAGES = 4_096, 1_000
PUBLISHINGS = 50
PAGE = '<%@ page session="false" %>Hi ${param.n}!'
PAUSE_SECONDS = 0.02
# A connection may bring 65,536 requests.
MOST_REQUESTS = 60_000


def read(port, target, is_over, results):
    """Asks until it is over, and gives for each answer when it was asked for, and how long it took,
    in seconds."""
    taken = []
    message = request("GET", target)
    while not is_over.is_set():
        with Connection(port) as connection:
            for _ in range(MOST_REQUESTS):
                if is_over.is_set():
                    break
                begun = time.perf_counter()
                connection.send(message)
                answer = connection.answer()
                taken.append((begun, time.perf_counter() - begun))
                if answer is None or answer.status != 200:
                    raise RuntimeError(f"{answer!r}")
    results.put(taken)


def beside(server, work):
    """The reader's answers while the work is done, and the spans of time that the work gives."""
    is_over, results = multiprocessing.Event(), multiprocessing.Queue()
    reader = multiprocessing.Process(target=read, args=(server.port, "/p0.jsp?n=x", is_over, results))
    reader.start()
    try:
        time.sleep(0.2)
        spans = work()
        time.sleep(0.05)
    finally:
        is_over.set()
    taken = results.get(timeout=20)
    reader.join(20)
    return taken, spans


def pauses(count):
    """Spans of time in which nothing is done, as long as a publishing's message."""
    spans = []
    for _ in range(count):
        begun = time.perf_counter()
        time.sleep(PAUSE_SECONDS / 4)
        spans.append((begun, time.perf_counter()))
        time.sleep(PAUSE_SECONDS)
    return spans


def publishings(server, count):
    """The spans of time of so many publishings, each of which changes a page that is kept."""
    spans = []
    with Connection(server.editor_port) as editor:
        for number in range(count):
            put(editor, f"/p{1 + number % (PAGES - 1)}.jsp", f"{PAGE}{number}")
            begun = time.perf_counter()
            answer = editor.ask("POST", "/_editor/publish")
            spans.append((begun, time.perf_counter()))
            if answer.status != 200:
                raise RuntimeError(f"{answer!r}")
            time.sleep(PAUSE_SECONDS)
    return spans


def longest_within(taken, spans):
    """Of each span the longest answer that was waited for in it."""
    longest = []
    for begun, ended in spans:
        times = [seconds for asked, seconds in taken if asked < ended and asked + seconds > begun]
        if times:
            longest.append(max(times))
    return longest


def tell(name, taken, spans):
    longest = longest_within(taken, spans)
    numbers = [median(seconds for _, seconds in taken), median(longest), max(longest)]
    of_spans = median(ended - begun for begun, ended in spans)
    print(
        f"{name:22} {len(taken):7} answers, the middle one {numbers[0] * 1e6:.0f}; the longest in {len(spans)} spans of"
        f" {of_spans * 1e6:.0f}: the middle one {numbers[1] * 1e6:.0f}, of all {numbers[2] * 1e6:.0f}",
        flush=True,
    )


def main(program=BUILT, count=PUBLISHINGS):
    pages = {f"/p{number}.jsp": PAGE for number in range(PAGES)}
    others = {f"/f{number}.txt": "x" for number in range(FILES - PAGES)}
    with Server(program, workers=4) as server:
        publish(server.editor_port, {**pages, **others})
        with Connection(server.port) as connection:
            for path in (*pages, list(others)[-1]):
                answer = connection.ask("GET", path)
                if answer.status != 200:
                    raise RuntimeError(f"{path}: {answer!r}")
        tell("without an editor", *beside(server, lambda: pauses(count)))
        tell("beside publishings", *beside(server, lambda: publishings(server, count)))


if __name__ == "__main__":
    main(*sys.argv[1:2], *map(int, sys.argv[2:3]))
