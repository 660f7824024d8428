"""Sixty that read while an editor publishes fifty times: no answer mixes two versions, and none is
older than one that was seen before on the same connection or with the same cookie. And a site that
is filled while others read it."""

import http.client
import threading
import time

from messages import MOST_EDITS, Connection, publish, put

READERS = 60
VERSIONS = 50
OF_A_CONNECTION = 20
PAUSE_SECONDS = 0.02
# The most files of a site.
MOST_FILES = 4_096
NO_SESSION = '<%@ page session="false" %>'


def files_of(version):
    """A page of four parts that all tell the version, one of them by a bean; with a session, and
    without one."""
    page = (
        f'<jsp:useBean id="told" class="told"/>{version} <%@ include file="part.jspf" %>'
        '<jsp:include page="shown.jsp"/>${told.version}'
    )
    return {
        "/part.jspf": f"{version} ",
        "/shown.jsp": f"{NO_SESSION}{version} ",
        "/WEB-INF/beans/told.json": f'{{"version": {version}}}',
        "/all.jsp": page,
        "/plain.jsp": NO_SESSION + page,
    }


class Reader(threading.Thread):
    """Reads a page until it is over, and once more then: one with a session by its cookie, over a
    new connection now and then; or one without, over a single connection."""

    def __init__(self, front, is_over, has_session):
        super().__init__(daemon=True)
        self.front = front
        self.is_over = is_over
        self.has_session = has_session
        self.cookie = None
        self.newest = 0
        self.requests = 0
        self.faults = []

    def run(self):
        client = self.front.client()
        try:
            while not self.is_over.is_set() and not self.faults:
                self.read(client)
                time.sleep(PAUSE_SECONDS)
            self.read(client)
        except (OSError, http.client.HTTPException, ValueError) as fault:
            self.faults.append(repr(fault))
        finally:
            client.close()

    def read(self, client):
        """Asks once, and notes what is wrong about the answer."""
        if self.has_session and self.requests % OF_A_CONNECTION == OF_A_CONNECTION - 1:
            client.close()
        fields = {"Cookie": self.cookie} if self.cookie else {}
        client.request("GET", "/all.jsp" if self.has_session else "/plain.jsp", headers=fields)
        answer = client.getresponse()
        body = answer.read().decode()
        self.requests += 1
        if given := answer.getheader("Set-Cookie"):
            if self.cookie or not self.has_session:
                self.faults.append(f"a cookie {given!r}")
            self.cookie = given.split(";")[0]
        versions = set(body.split())
        if answer.status != 200 or len(versions) != 1 or len(body.split()) != 4:
            self.faults.append(f"{answer.status} {body!r}")
        elif int(body.split()[0]) < self.newest:
            self.faults.append(f"{body!r} behind {self.newest}")
        else:
            self.newest = int(body.split()[0])


def beside_readers(front, count, work):
    """So many readers while the work is done, and what the work gives. A third of them go by their
    connection alone; at a proxy none, which asks the program over connections that all share."""
    is_over = threading.Event()
    readers = [Reader(front, is_over, front.is_proxy or number % 3 > 0) for number in range(count)]
    for it in readers:
        it.start()
    try:
        done = work()
    finally:
        is_over.set()
        for it in readers:
            it.join(60)
    return readers, done


def faults_of(readers):
    """What any of them noted, and who hasn't ended."""
    return [fault for it in readers for fault in it.faults] + ["doesn't end" for it in readers if it.is_alive()]


def publish_versions(port):
    """Publishes one version after the other, and gives the statuses."""
    statuses = []
    with Connection(port) as editor:
        for version in range(2, VERSIONS + 2):
            for path, text in files_of(version).items():
                put(editor, path, text)
            statuses.append(editor.ask("POST", "/_editor/publish").status)
            time.sleep(0.05)
    return statuses


def try_many(front, server, tally):
    publish(server.editor_port, files_of(1))
    readers, statuses = beside_readers(front, READERS, lambda: publish_versions(server.editor_port))
    faults = faults_of(readers)
    tally.same("fifty publishings", statuses, [200] * VERSIONS)
    tally.check("no answer mixes versions, none is older than one seen before", not faults, faults[:5])
    tally.same("all see the last version at last", {it.newest for it in readers}, {VERSIONS + 1})
    tally.note(f"{sum(it.requests for it in readers)} requests of {READERS} readers")


def fill(port, count):
    """Puts so many files, and publishes them whenever a draft is full and at the end; and then one
    more. Gives the statuses, the seconds of the last publishing, and how one more was refused."""
    statuses, seconds = set(), 0.0
    with Connection(port) as editor:
        for number in range(1, count + 1):
            statuses.add(put(editor, f"/many/f{number}.txt", f"file {number}\n").status)
            if number % MOST_EDITS == 0 or number == count:
                begun = time.perf_counter()
                statuses.add(editor.ask("POST", "/_editor/publish").status)
                seconds = time.perf_counter() - begun
        put(editor, "/one-more.txt", "")
        refused = editor.ask("POST", "/_editor/publish")
    return statuses, seconds, (refused.status, refused.body)


def try_large_publishing(front, server, tally):
    """A site is filled with as many files as it may have, draft by draft, while others read."""
    publish(server.editor_port, files_of(1))
    count = MOST_FILES - len(files_of(1))
    readers, (statuses, seconds, refused) = beside_readers(front, 8, lambda: fill(server.editor_port, count))
    faults = faults_of(readers)
    holds = statuses == {200} and not faults
    tally.check(f"{MOST_FILES:,} files are published under load", holds, (statuses, faults[:3]))
    tally.same("one more is refused", refused, (413, b"TreeTooLarge TooManyFiles\n"))
    tally.note(f"the last publishing took {seconds * 1000:.1f} ms")
    tally.same("the last of them", front.curl(f"/many/f{count}.txt"), f"file {count}\n".encode())
