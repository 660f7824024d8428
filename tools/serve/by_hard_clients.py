"""Clients that are slow, silent, many or gone, a program that is stopped and one that is killed:
nobody else notices."""

import signal
import socket
import threading
import time

from messages import Connection, publish, request
from server import Server

FILES = {
    "/hi.jsp": '<%@ page session="false" %>Hi ${param.who}!',
    "/large.txt": "0123456789abcdef" * 60_000,
}
HEAD_OF_FORM = (
    b"POST /hi.jsp HTTP/1.1\r\nHost: x\r\n"
    b"Content-Type: application/x-www-form-urlencoded\r\nContent-Length: 100\r\n\r\n"
)
# What a client does, and behind how many seconds at least and at most its connection is closed: 5
# before a request, and 20 for a head, in a silent body, for a body that comes too slowly, and where
# no more of an answer is taken (of which the kernel first holds a part).
WAITS = (
    ("a byte a second", 18, 30),
    ("silent", 4, 12),
    ("reads nothing", 18, 60),
    ("silent in a body", 18, 30),
    ("a byte of a body a second", 18, 30),
)


def asks_well(port, seconds=3.0):
    """Whether a new connection is answered rightly, in time."""
    begun = time.perf_counter()
    try:
        with Connection(port, timeout=30) as connection:
            answer = connection.ask("GET", "/hi.jsp?who=Eve", "Connection: close\r\n")
    except OSError as fault:
        return repr(fault)
    took = time.perf_counter() - begun
    return answer.body == b"Hi Eve!" and took < seconds or (answer, took)


def try_hard_clients(program, tally):
    with Server(program, workers=16) as server:
        publish(server.editor_port, FILES)
        at_rest = server.descriptors()
        slow_and_silent(server, tally)
        two_hundred(server, tally)
        stopped(server, tally)
        leftovers(server, tally, at_rest)
        killed(server, tally)
    few_files(program, tally)


def slow_and_silent(server, tally):
    """Fifteen of sixteen workers have a client that is slow, silent or deaf."""
    ends = {}
    kinds = [(drip, "a byte a second")] * 5 + [(silent, "silent")] * 5 + [(deaf, "reads nothing")] * 3
    kinds += [(halt, "silent in a body"), (crawl, "a byte of a body a second")]
    threads = [
        threading.Thread(target=kind, args=(server.port, name, ends), daemon=True)
        for kind, name in kinds
    ]
    for it in threads:
        it.start()
    time.sleep(1)
    well = [asks_well(server.port) for _ in range(20)]
    tally.same("others are answered beside fifteen that are slow, silent or deaf", well, [True] * 20)
    for it in threads:
        it.join(90)
    for name, least, most in WAITS:
        seen = [round(it, 1) for it in ends.get(name, [])]
        holds = bool(seen) and all(least <= it <= most for it in seen)
        tally.check(f"{name}: closed behind {least} to {most} seconds", holds, seen)


def note_end(ends, name, begun):
    ends.setdefault(name, []).append(time.perf_counter() - begun)


def drip(port, name, ends):
    message = request("GET", "/hi.jsp", "X: " + "y" * 100 + "\r\n")
    begun = time.perf_counter()
    with Connection(port) as connection:
        send_slowly(connection, message)
    note_end(ends, name, begun)


def crawl(port, name, ends):
    begun = time.perf_counter()
    with Connection(port) as connection:
        connection.send(HEAD_OF_FORM)
        send_slowly(connection, b"who=" + b"y" * 96)
    note_end(ends, name, begun)


def send_slowly(connection, message):
    """Sends a byte a second until the other side closes."""
    connection.socket.settimeout(1)
    for byte in message:
        try:
            connection.send(bytes([byte]))
            if connection.socket.recv(1) == b"":
                break
        except TimeoutError:
            continue
        except OSError:
            break


def halt(port, name, ends):
    begun = time.perf_counter()
    with Connection(port) as connection:
        connection.send(HEAD_OF_FORM + b"who=")
        connection.is_closed()
    note_end(ends, name, begun)


def silent(port, name, ends):
    begun = time.perf_counter()
    with Connection(port) as connection:
        connection.is_closed()
    note_end(ends, name, begun)


def deaf(port, name, ends):
    """Asks for forty megabytes, reads nothing, and sees its connection reset as it sends again."""
    begun = time.perf_counter()
    with Connection(port) as connection:
        connection.send(request("GET", "/large.txt") * 40)
        while time.perf_counter() - begun < 70:
            time.sleep(0.5)
            try:
                connection.send(b"G")
            except OSError:
                break
    note_end(ends, name, begun)


def two_hundred(server, tally):
    """200 connections at once on 16 workers, each with one request."""
    connections, wrong = [], []
    begun = time.perf_counter()
    for _ in range(200):
        it = socket.socket()
        it.setblocking(False)
        it.connect_ex(("127.0.0.1", server.port))
        connections.append(it)
    for number, it in enumerate(connections):
        it.settimeout(60)
        try:
            it.sendall(request("GET", f"/hi.jsp?who={number}", "Connection: close\r\n"))
        except OSError:
            it.close()
            it = socket.create_connection(("127.0.0.1", server.port), timeout=60)
            it.sendall(request("GET", f"/hi.jsp?who={number}", "Connection: close\r\n"))
            connections[number] = it
    for number, it in enumerate(connections):
        said = b""
        while more := it.recv(4096):
            said += more
        if not said.endswith(f"Hi {number}!".encode()):
            wrong.append((number, said))
        it.close()
    tally.check("200 connections at once on 16 workers", not wrong, wrong[:2])
    tally.note(f"they took {time.perf_counter() - begun:.2f} s")


def stopped(server, tally):
    """The program is stopped and goes on, with one connection between two requests, and one in a
    request."""
    with Connection(server.port) as idle, Connection(server.port) as begun:
        idle.ask("GET", "/hi.jsp?who=1")
        begun.send(b"GET /hi.jsp?who=Flo HTTP/1.1\r\n")
        time.sleep(0.3)
        server.send_signal(signal.SIGSTOP)
        time.sleep(1.5)
        server.send_signal(signal.SIGCONT)
        time.sleep(0.3)
        begun.send(b"Host: x\r\n\r\n")
        tally.same("stopped inside a request, it answers", begun.answer().body, b"Hi Flo!")
        tally.same("and between two", idle.ask("GET", "/hi.jsp?who=2").body, b"Hi 2!")


def leftovers(server, tally, at_rest):
    """Once all are gone no file is open that wasn't at rest."""
    for _ in range(80):
        if server.descriptors() <= at_rest:
            break
        time.sleep(0.1)
    left = server.descriptors()
    tally.check("no descriptor is left", left <= at_rest, (left, at_rest))


def killed(server, tally):
    """Killed in the middle of a request, it starts on the same ports at once, without a file."""
    with Connection(server.port) as connection:
        connection.send(b"GET /hi.jsp HTTP/1.1\r\n")
        server.kill()
        server.start()
    with Connection(server.port) as connection:
        tally.same("killed, it starts on the same ports", connection.ask("GET", "/hi.jsp").status, 404)
    tally.note(f"from its start to its line {server.seconds_to_start * 1000:.1f} ms")


def few_files(program, tally):
    """Where it may open only 40 files, more connections wait for those before them, and all are
    answered."""
    with Server(program, workers=60, files=40) as server:
        publish(server.editor_port, FILES)
        connections = []
        for _ in range(50):
            it = Connection(server.port, timeout=60)
            it.send(request("GET", "/hi.jsp?who=Gus"))
            connections.append(it)
        time.sleep(0.5)
        tally.check("without descriptors it goes on", server.is_running())
        before = server.processor_seconds()
        time.sleep(1)
        busy = sum(server.processor_seconds()) - sum(before)
        tally.check("and doesn't turn idly", busy < 0.5, busy)
        for it in connections[:25]:
            it.close()
        seen = [it.answer().body for it in connections[25:]]
        tally.same("those that waited are answered", seen, [b"Hi Gus!"] * 25)
        for it in connections[25:]:
            it.close()
