#!/usr/bin/env python3
"""Measures `pages serve` by wrk: `tools/serve/measure.py [PROGRAM [CONNECTIONS..]]`, where the
numbers of connections are 1, 4, 16 and 60 if none are given; `measure.py PROGRAM 16 60` is the
shorter run of the two that a goal compares. It prints for each page and number the requests a
second and the processor time of the server for each, in microseconds, of which the kernel's; beside
them the goals that issues have set, for four processors with nothing else on them; and before and
after all how fast the machine is.

A figure is the median of five runs of three seconds, each of a program of its own. The runs of a
page go in turns (16 connections, 60, 16, 60 and so on), so that those which are compared are
neighbours in time: what 60 give beside 16 is the median of the five pairs.

wrk has two threads at any number of connections, so that what it costs for a request, on the same
four processors, doesn't change with the number of connections that is measured (but one thread for
one connection, since it wants no more threads than connections). Likewise the counter is asked for
with 240 sessions in turn at any number: more than there are connections, so that two requests of
one session seldom meet, and equally many, so that the site has as much to look through.

It takes five minutes, with two numbers half of that; ends by itself in ten at the most."""

import os
import re
import signal
import subprocess
import sys
import tempfile
from dataclasses import dataclass
from statistics import median

HERE = os.path.dirname(os.path.abspath(__file__))
sys.path.insert(0, HERE)
sys.dont_write_bytecode = True

from host import tell_host  # noqa: E402
from messages import Connection, publish  # noqa: E402
from server import HOST, Server  # noqa: E402

BUILT = os.path.join(HERE, "../../crates/pages_cli/out/pages_cli")
MOST_SECONDS = 600
CONNECTIONS = [1, 4, 16, 60]
MOST_WORKERS = 63
RUNS = 5
SECONDS = 3
CLIENT_THREADS = 2
SESSION_COUNT = 240
CORE = '<%@ taglib prefix="c" uri="jakarta.tags.core" %>'
FILES = {
    "/hello.jsp": '<%@ page session="false" %>Hi ${param.n}!',
    "/list.jsp": CORE + '<%@ page session="false" %><ul><c:forEach var="i" begin="1" end="100">'
    '<li>${i}: <c:out value="<item ${i}> & ${param.q}"/></li>\n</c:forEach></ul>',
    "/counter.jsp": CORE + '<c:set var="n" value="${sessionScope.n + 1}" scope="session"/>${n}',
    "/small.txt": "a small file\n",
}
COUNTER = "/counter.jsp"
HELLO = "/hello.jsp?n=Bo"
PAGES = [HELLO, "/list.jsp?q=z", COUNTER, "/small.txt"]
# The goals: how many a second at 16 connections, what a hello costs there, and what 60 give of it.
LEAST_RATES = {HELLO: 120_000, "/list.jsp?q=z": 25_000, COUNTER: 80_000, "/small.txt": 120_000}
MOST_MICROSECONDS = 12
LEAST_PERCENT = 90
SESSIONS = """local cookies = {%s}
local threads = 0
function setup(thread)
  threads = threads + 1
  thread:set("first", threads)
end
function init()
  requests = {}
  for n = first, #cookies, THREADS do
    wrk.headers["Cookie"] = cookies[n]
    requests[#requests + 1] = wrk.format("GET")
  end
  last = 0
end
function request()
  last = last < #requests and last + 1 or 1
  return requests[last]
end
"""


@dataclass
class Run:
    """Requests a second; microseconds of processor time for each, and of these the kernel's; and
    what wrk says was wrong."""

    rate: float
    cost: float
    kernel: float
    wrong: str


def cookies_of(server):
    """The cookies of as many new sessions."""
    with Connection(server.port) as connection:
        answers = [connection.ask("GET", COUNTER) for _ in range(SESSION_COUNT)]
    return [it.fields["set-cookie"].split(";")[0] for it in answers]


def script(folder, cookies, threads):
    """What has each thread of wrk ask for sessions of its own in turn."""
    path = os.path.join(folder, "sessions.lua")
    with open(path, "w") as out:
        listed = ", ".join(f'"{cookie}"' for cookie in cookies)
        out.write((SESSIONS % listed).replace("THREADS", str(threads)))
    return path


def measured(server, target, connections, folder):
    """One run."""
    threads = min(connections, CLIENT_THREADS)
    words = ["wrk", f"-t{threads}", f"-c{connections}", f"-d{SECONDS}s"]
    if target == COUNTER:
        words += ["-s", script(folder, cookies_of(server), threads)]
    before = server.processor_seconds()
    url = f"http://{HOST}:{server.port}{target}"
    said = subprocess.run([*words, url], capture_output=True, text=True).stdout
    after = server.processor_seconds()
    count = max(int(re.search(r"(\d+) requests in", said).group(1)), 1)
    rate = float(re.search(r"Requests/sec:\s+([\d.]+)", said).group(1))
    user, kernel = ((late - early) / count * 1e6 for early, late in zip(before, after))
    wrong = re.search(r"Non-2xx.*|Socket errors.*", said)
    return Run(rate, user + kernel, kernel, wrong.group(0) if wrong else "")


def run_once(program, target, connections):
    """A run of a new program, which has answered the page once."""
    workers = min(connections + 1, MOST_WORKERS)
    with Server(program, workers=workers) as server, tempfile.TemporaryDirectory() as folder:
        publish(server.editor_port, FILES)
        with Connection(server.port) as connection:
            connection.ask("GET", target)
        return measured(server, target, connections, folder)


def goals_of(target, connections):
    """The goals of a page at this number of connections."""
    if connections != 16:
        return ""
    goals = [f"over {LEAST_RATES[target]:,} a second"]
    if target == HELLO:
        goals += [f"under {MOST_MICROSECONDS} us", "more than half of them the kernel's"]
    return f" [goal: {', '.join(goals)}]"


def tell(target, connections, runs):
    rates = [it.rate for it in runs]
    cost, kernel = median(it.cost for it in runs), median(it.kernel for it in runs)
    wrong = "; ".join(sorted({it.wrong for it in runs if it.wrong}))
    print(
        f"  {connections:2} connections {median(rates):9,.0f} a second ({min(rates):,.0f} to {max(rates):,.0f}),"
        f" {cost:5.1f} us each, {kernel:5.1f} of them the kernel's{goals_of(target, connections)} {wrong}".rstrip(),
        flush=True,
    )


def tell_ratio(few, many):
    """What 60 connections give of what 16 do, each run beside its neighbour."""
    percents = [there.rate / max(here.rate, 1) * 100 for here, there in zip(few, many)]
    print(
        f"  60 give {median(percents):.0f} percent of what 16 do ({min(percents):.0f} to {max(percents):.0f})"
        f" [goal: no less than {LEAST_PERCENT}]",
        flush=True,
    )


def measure(program, target, numbers):
    """The runs of a page, in turns."""
    runs = {connections: [] for connections in numbers}
    for _ in range(RUNS):
        for connections in numbers:
            runs[connections].append(run_once(program, target, connections))
    print(target)
    for connections in numbers:
        tell(target, connections, runs[connections])
    if 16 in runs and 60 in runs:
        tell_ratio(runs[16], runs[60])


def main():
    program = os.path.abspath(sys.argv[1] if len(sys.argv) > 1 else BUILT)
    numbers = [int(word) for word in sys.argv[2:]] or CONNECTIONS
    signal.alarm(MOST_SECONDS)
    tell_host("before")
    for target in PAGES:
        measure(program, target, numbers)
    tell_host("after")
    return 0


if __name__ == "__main__":
    sys.exit(main())
