#!/usr/bin/env python3
"""Tries that a publishing is whole while rounds end, by examples/publish:
`tools/serve/by_rounds.py [PROGRAM [SECONDS]]`. Fifty publishings of 300 files beside six readers;
two editors in turns; a page that counts its visits; an editor who is killed; and then, beside one
another, an editor who is silent, one for whom another waits, and one who sends a message every four
seconds for so many seconds (100 where none are said).

Without the last three it takes half a minute, with them two minutes more. It wants `pages-audit`
beside the program, or as `rt run` built it, and leaves no process."""

import os
import signal
import subprocess
import sys
import tempfile
import threading
import time

HERE = os.path.dirname(os.path.abspath(__file__))
sys.path.insert(0, HERE)
sys.dont_write_bytecode = True

from messages import Connection, publish  # noqa: E402
from publisher import Publisher, asked, ended, missing, write  # noqa: E402
from relay import Relay  # noqa: E402
from server import Server, Tally  # noqa: E402

BUILT = os.path.join(HERE, "../../crates/pages_cli/out/pages_cli")
AUDITOR = os.path.join(HERE, "../../crates/pages_audit/out/pages_audit")
ROUNDS = (5, 100)
PUBLISHINGS, FILES, READERS = 50, 300, 6
# Two of the files are pages that include all others.
PAGES = ("/odd.jsp", "/even.jsp")
PARTS = (FILES - len(PAGES)) // len(PAGES)
PAUSE_OF_READERS = 0.005
STEADY_SECONDS, PAUSE_SECONDS = 100, 4
CORE = '<%@ taglib prefix="c" uri="jakarta.tags.core" %>'
COUNTER = CORE + '<c:set var="visits" scope="application" value="${visits + 1}"/>visits: ${visits}'


def files_of(version):
    """Files that all tell the version, and pages that include them."""
    files = {}
    for page in PAGES:
        parts = [f"parts{page}/{number}.txt" for number in range(PARTS)]
        files.update({part: f"{version} " for part in parts})
        includes = "".join(f'<%@ include file="{part}" %>' for part in parts)
        files[page[1:]] = '<%@ page session="false" %>' + includes
    return files


def is_whole(port, version):
    """Whether all files are there in this version for the next requests."""
    return all(asked(port, page).body.split() == [str(version).encode()] * PARTS for page in PAGES)


class Reader(threading.Thread):
    """Asks for a page of many parts, and connects anew where a round ended its connection. Notes
    answers that mix versions, and those that are older than one before."""

    def __init__(self, port, is_over):
        super().__init__(daemon=True)
        self.port = port
        self.is_over = is_over
        self.newest, self.requests, self.connections = 0, 0, 0
        self.faults = []

    def run(self):
        while not self.is_over.is_set():
            try:
                with Connection(self.port) as connection:
                    self.connections += 1
                    while not self.is_over.is_set() and self.read(connection.ask("GET", PAGES[0])):
                        time.sleep(PAUSE_OF_READERS)
            except OSError:
                time.sleep(0.005)
            except (ValueError, IndexError) as fault:
                self.faults.append(f"an answer that isn't whole: {fault!r}")

    def read(self, answer):
        """Whether there was an answer; what is wrong about it is noted."""
        if answer is None:
            return False
        self.requests += 1
        versions = answer.body.split()
        if answer.status != 200 or len(versions) != PARTS or len(set(versions)) != 1:
            self.faults.append(f"{answer!r}")
        elif int(versions[0]) < self.newest:
            self.faults.append(f"{versions[0]!r} after {self.newest}")
        else:
            self.newest = int(versions[0])
        return True


def publish_fifty(publisher, folder, server):
    """Publishes so many versions, and gives what is wrong about them."""
    wrong = []
    for version in range(2, PUBLISHINGS + 2):
        write(folder, files_of(version))
        status, said = publisher.run(folder, server.editor_port)
        if status != 0 or not is_whole(server.port, version):
            wrong.append((version, status, said))
    return wrong


def try_fifty(publisher, server, folder, tally):
    """Fifty publishings beside readers, while rounds end."""
    write(folder, files_of(1))
    status, said = publisher.run(folder, server.editor_port)
    tally.check("a folder of 300 files is published", status == 0 and said.endswith("version 1\n"), (status, said))
    is_over = threading.Event()
    readers = [Reader(server.port, is_over) for _ in range(READERS)]
    for it in readers:
        it.start()
    begun = time.perf_counter()
    try:
        wrong = publish_fifty(publisher, folder, server)
    finally:
        is_over.set()
        for it in readers:
            it.join(60)
    faults = [fault for it in readers for fault in it.faults]
    tally.check(f"{PUBLISHINGS} more end with status 0 and are there whole", not wrong, (len(wrong), wrong[:2]))
    tally.check("no answer mixes two versions, none is older than one before", not faults, (len(faults), faults[:2]))
    counts = [sum(it.requests for it in readers), sum(it.connections for it in readers)]
    tally.note(f"{counts[0]:,} requests over {counts[1]:,} connections in {time.perf_counter() - begun:.0f} s")


def try_journals(program, path, tally):
    """The journals of all rounds that ended, by the auditor."""
    beside = os.path.join(os.path.dirname(program), "pages-audit")
    auditor = beside if os.path.exists(beside) else AUDITOR
    if not tally.check("the auditor is there", os.path.exists(auditor), auditor):
        return
    with open(path, "rb") as journals:
        done = subprocess.run([auditor], stdin=journals, capture_output=True, timeout=200)
    holds = done.returncode == 0 and done.stdout.startswith(b"yes ") and done.stdout.split()[1] != b"0"
    tally.check("the journals are right", holds, (done.returncode, done.stdout))
    tally.note(f"{os.path.getsize(path):,} bytes of journals: {done.stdout.decode().strip()}")


def settle(path):
    """Waits until no journal is being written."""
    size = -1
    while size != os.path.getsize(path):
        size = os.path.getsize(path)
        time.sleep(1)


def try_turns(publisher, server, folder, tally):
    """Two editors with a folder each, in turns."""
    first, second = os.path.join(folder, "first"), os.path.join(folder, "second")
    write(first, {"a.txt": "a1", "both.txt": "of the first"})
    write(second, {"b.txt": "b1"})
    statuses = [publisher.run(it, server.editor_port)[0] for it in (first, second)]
    tally.same("two editors publish for the first time", statuses, [0, 0])
    write(first, {"a.txt": "a2"})
    status, said = publisher.run(first, server.editor_port)
    tally.check("the one who comes back is told Stale", status == 2 and "Stale" in said and "--anyway" in said, said)
    write(second, {"b.txt": "b2", "both.txt": "of the second"})
    status, said = publisher.run(second, server.editor_port)
    texts = {"a.txt": "a1", "b.txt": "b2", "both.txt": "of the second"}
    tally.check("the other goes on, and nothing is lost", status == 0 and not missing(server.port, texts), said)
    status, said = publisher.run(first, server.editor_port, "--anyway")
    texts = {"a.txt": "a2", "b.txt": "b2", "both.txt": "of the first"}
    tally.check("with --anyway the first goes over it", status == 0 and not missing(server.port, texts), said)


def try_counter(publisher, server, folder, tally):
    """A publishing visits no page; what the folder has no more is gone."""
    write(folder, {"counts.jsp": COUNTER, "old.txt": "old", "with a blank é.txt": "é"})
    write(folder, {".hidden": "x", "draft.txt~": "x"})
    statuses = [publisher.run(folder, server.editor_port)[0]]
    seen = [asked(server.port, "/counts.jsp").body]
    named = asked(server.port, "/with%20a%20blank%20%C3%A9.txt").body
    tally.same("a name with blanks and other letters", named, "é".encode())
    os.remove(os.path.join(folder, "old.txt"))
    statuses += [publisher.run(folder, server.editor_port)[0] for _ in range(3)]
    seen.append(asked(server.port, "/counts.jsp").body)
    tally.same("four publishings", statuses, [0] * 4)
    tally.same("none of them visits a page that counts", seen, [b"visits: 1", b"visits: 2"])
    gone = [asked(server.port, "/" + name).status for name in ("old.txt", ".hidden", "draft.txt~")]
    tally.same("what is removed, hidden or a leftover isn't there", gone, [404] * 3)


def try_killed(publisher, server, folder, tally):
    """An editor who is killed in the middle leaves nothing."""
    write(folder, {f"k{number}.txt": "killed" for number in range(FILES)})
    relay = Relay(server.editor_port, FILES // 2, lambda: process.kill())
    process = publisher.start(folder, relay.port)
    status, _ = ended(process)
    relay.join(30)
    last = publish(server.editor_port, {"/after.txt": "after"})
    tally.same("an editor is killed in the middle", status, -signal.SIGKILL)
    seen = [asked(server.port, target).status for target in ("/k0.txt", "/k149.txt", "/after.txt")]
    tally.check("nothing of theirs is published, the next is", seen == [404, 404, 200], (seen, last))


def try_silent(program, tally):
    """An editor who is silent for 61 seconds; nobody else wants to edit."""
    with tempfile.TemporaryDirectory() as top, Server(program, workers=4, rounds=(1000, 1000)) as server:
        folder = os.path.join(top, "site")
        write(folder, {f"s{number}.txt": "silent" for number in range(20)})
        relay = Relay(server.editor_port, 10, lambda: time.sleep(61))
        status, said = Publisher(program).run(folder, relay.port)
        relay.join(30)
        holds = status == 2 and "nothing was published" in said
        tally.check("an editor who is silent for 61 seconds is told that nothing was published", holds, (status, said))
        after = relay.ended_after or 0
        tally.check("it was ended after 60 seconds", 59 <= after <= 62, after)
        tally.same("and nothing was", asked(server.port, "/s0.txt").status, 404)


def try_waiting(program, tally):
    """An editor who is silent while another waits."""
    with tempfile.TemporaryDirectory() as top, Server(program, workers=4, rounds=(1000, 1000)) as server:
        silent, waits = os.path.join(top, "silent"), os.path.join(top, "waits")
        write(silent, {f"s{number}.txt": "silent" for number in range(20)})
        files = {f"w{number}.txt": "waited" for number in range(FILES)}
        write(waits, files)
        is_silent = threading.Event()
        relay = Relay(server.editor_port, 10, lambda: (is_silent.set(), time.sleep(20)))
        first = Publisher(program).start(silent, relay.port)
        is_silent.wait(30)
        begun = time.perf_counter()
        status, said = Publisher(program).run(waits, server.editor_port)
        took = time.perf_counter() - begun
        tally.check("one who waited is served whole", status == 0 and not missing(server.port, files), (status, said))
        tally.check("after 5 seconds of another's silence", 4 <= took <= 15, took)
        status, said = ended(first)
        relay.join(30)
        holds = status == 2 and "nothing was published" in said and asked(server.port, "/s0.txt").status == 404
        tally.check("of the silent one nothing is published, and it is told", holds, (status, said))


def send_steadily(port, seconds, spans):
    """Sends a message every four seconds for so long, connects anew where it was ended, and notes
    how long each connection was served."""
    over = time.perf_counter() + seconds
    number = 0
    while time.perf_counter() < over:
        begun = time.perf_counter()
        try:
            with Connection(port, timeout=90) as editor:
                while time.perf_counter() < over:
                    number += 1
                    if editor.ask("PUT", f"/_editor/files/steady{number}.txt", body=b"x") is None:
                        break
                    time.sleep(PAUSE_SECONDS)
        except OSError:
            pass
        spans.append(time.perf_counter() - begun)
        time.sleep(0.1)


def try_steady(program, seconds, tally):
    """An editor who sends a message every four seconds, and never publishes: the round ends all the
    same, and readers are served until then."""
    with tempfile.NamedTemporaryFile() as file, Server(program, workers=4, rounds=ROUNDS, journals=file) as server:
        publish(server.editor_port, {"/hi.txt": "hi"})
        spans = []
        editor = threading.Thread(target=send_steadily, args=(server.editor_port, seconds, spans), daemon=True)
        editor.start()
        time.sleep(1)
        seen = [asked(server.port, "/hi.txt").body for _ in range(ROUNDS[0] + 2)]
        tally.same("readers are served while the round can't end", seen, [b"hi"] * (ROUNDS[0] + 2))
        editor.join(seconds + 100)
        has_ended = os.path.getsize(file.name) > 0
        name = f"a round ends beside an editor who sends a message every {PAUSE_SECONDS} s for {seconds} s"
        tally.check(name, has_ended, spans)
        tally.check("a minute after its number was reached", spans and 50 <= spans[0] <= 75, spans)


def try_rounds(program, tally):
    """What takes half a minute."""
    publisher = Publisher(program)
    with tempfile.TemporaryDirectory() as top, open(os.path.join(top, "journals"), "wb") as journals:
        with Server(program, workers=16, rounds=ROUNDS, journals=journals) as server:
            try_fifty(publisher, server, os.path.join(top, "fifty"), tally)
            settle(journals.name)
        try_journals(program, journals.name, tally)
        for number, work in enumerate((try_turns, try_counter, try_killed)):
            with Server(program, workers=4, rounds=(20, 100)) as server:
                work(publisher, server, os.path.join(top, str(number), "site"), tally)


def main():
    program = os.path.abspath(sys.argv[1] if len(sys.argv) > 1 else BUILT)
    seconds = int(sys.argv[2]) if len(sys.argv) > 2 else STEADY_SECONDS
    signal.alarm(seconds + 400)
    tally = Tally()
    try_rounds(program, tally)
    print("editors who are silent or steady")
    works = [(try_silent, program), (try_waiting, program), (try_steady, program, seconds)]
    threads = [threading.Thread(target=work, args=(*words, tally)) for work, *words in works]
    for it in threads:
        it.start()
    for it in threads:
        it.join()
    print(f"{tally.held} held, {tally.failed} failed")
    return 1 if tally.failed else 0


if __name__ == "__main__":
    sys.exit(main())
