"""What curl is answered: pages, cookies, HEAD, kept connections, forms, bodies that are slow or too
large, connections that are cut."""

import os
import tempfile

from front import Front, curl, status
from messages import publish, request
from server import HOST

NO_SESSION = '<%@ page session="false" %>'
COUNTER = "/counter.jsp"
FILES = {
    "/hi.jsp": NO_SESSION + "Hi ${param.who}!",
    COUNTER: '<c:set var="n" value="${sessionScope.n + 1}" scope="session"/>${n}',
    "/style.css": "body { color: #333 }\n",
    "/long.jsp": NO_SESSION + '<c:forEach begin="1" end="4000">0123456789</c:forEach>',
}
CORE = '<%@ taglib prefix="c" uri="jakarta.tags.core" %>'


def try_curl(server, tally):
    """All of it, at the program itself."""
    front = Front(server.port)
    put_by_curl(server, tally)
    try_front(front, server, tally)
    field = status("--header", "X: " + "y" * 17_000, f"{front.address}/hi.jsp")
    tally.same("a field that is too large", field, "431")
    with large_file() as large:
        place = f"http://{HOST}:{server.editor_port}/_editor/files/x.txt"
        file = status("--request", "PUT", "--data-binary", f"@{large.name}", place)
    tally.same("a file that is too large", file, "413")


def put_by_curl(server, tally):
    """Puts the files into a new server, and publishes them."""
    editor = f"http://{HOST}:{server.editor_port}"
    for path, text in FILES.items():
        if path in (COUNTER, "/long.jsp"):
            text = CORE + text
        curl("--request", "PUT", "--data-binary", text, f"{editor}/_editor/files{path}")
    # Each call of curl is a connection with a draft of its own, so this publishes nothing.
    answer = curl("--request", "POST", f"{editor}/_editor/publish")
    tally.same("an empty draft is published", answer, b"version 1\n")
    words = []
    for path, text in FILES.items():
        if path in (COUNTER, "/long.jsp"):
            text = CORE + text
        words += ["--request", "PUT", "--data-binary", text, f"{editor}/_editor/files{path}", "--next"]
    answer = curl(*words, "--request", "POST", f"{editor}/_editor/publish")
    tally.check("files are put and published over one connection", answer.endswith(b"version 2\n"), answer)


def try_front(front, server, tally):
    """What readers are answered, at the program or at a proxy before it."""
    pages(front, tally)
    session(front, tally)
    kept(front, tally)
    bodies(front, tally)
    pipelined(front, tally)
    cut(front, server, tally)


def pages(front, tally):
    tally.same("a page with a parameter", front.curl("/hi.jsp?who=Ann"), b"Hi Ann!")
    tally.same("a form by --data", front.curl("/hi.jsp", "--data", "who=Bo%20B"), b"Hi Bo B!")
    head = front.curl("/hi.jsp?who=Ann", "--head")
    tally.check("HEAD is a head with the length of the page", b"Content-Length: 7\r\n" in head, head)
    tally.same("a static file", front.curl("/style.css"), FILES["/style.css"].encode())
    tally.same("a page in chunks", front.curl("/long.jsp"), b"0123456789" * 4000)
    tally.same("a page that there isn't", front.status("/none.jsp"), "404")
    tally.same("another method", front.status("/hi.jsp", "--request", "DELETE"), "405")
    tally.same("an editor's message to readers", front.status("/_editor/publish", "--data", ""), "404")


def session(front, tally):
    with tempfile.TemporaryDirectory() as folder:
        jar = os.path.join(folder, "cookies")
        seen = [front.curl(COUNTER, "--cookie-jar", jar, "--cookie", jar) for _ in range(3)]
    tally.same("a counter by its cookie, over three connections", seen, [b"1", b"2", b"3"])
    tally.same("a counter without the cookie", front.curl(COUNTER), b"1")


def kept(front, tally):
    said = front.curl("/hi.jsp?who=1", "--verbose", "--stderr", "-", f"{front.address}/hi.jsp?who=2")
    tally.check("a connection is kept", b"Re-using existing connection" in said, said)
    with front.connection() as connection:
        answer = connection.ask("GET", "/hi.jsp?who=x", "Connection: close\r\n")
        tally.check("one that asks to close is closed", answer.body == b"Hi x!" and connection.is_closed())


def large_file():
    """A file that is larger than any body may be."""
    large = tempfile.NamedTemporaryFile()
    large.write(b"x" * 3_000_000)
    large.flush()
    return large


def bodies(front, tally):
    slow = front.curl("/hi.jsp", "--limit-rate", "20k", "--data-binary", "who=" + "x" * 40_000)
    tally.same("a slow body", len(slow), 40_004)
    with large_file() as large:
        file = f"@{large.name}"
        tally.same("a body that is too large", front.status("/hi.jsp", "--data-binary", file), "413")
        at_once = front.status("/hi.jsp", "--header", "Expect:", "--data-binary", file)
        tally.same("one that is sent at once", at_once, "413")
    # (each field of it is one that a proxy takes)
    fields = [word for name in "XYZ" for word in ("--header", f"{name}: " + "y" * 6_000)]
    tally.same("a head that is too large", front.status("/hi.jsp", *fields), "431")


def pipelined(front, tally):
    with front.connection() as connection:
        connection.send(b"".join(request("GET", f"/hi.jsp?who={n}") for n in range(50)))
        seen = [connection.answer().body for _ in range(50)]
    tally.same("fifty requests without waiting", seen, [f"Hi {n}!".encode() for n in range(50)])


def cut(front, server, tally):
    for part in (b"GET /hi", b"POST /hi.jsp HTTP/1.1\r\nHost: x\r\nContent-Length: 9\r\n\r\nwho"):
        for _ in range(40):
            with front.connection() as connection:
                connection.send(part)
    tally.same("behind eighty cut connections", front.curl("/hi.jsp?who=Cy"), b"Hi Cy!")
    for _ in range(20):
        with front.connection() as connection:
            connection.send(request("GET", "/long.jsp") * 20)
    tally.same("behind twenty that read nothing and went", front.curl("/hi.jsp?who=Di"), b"Hi Di!")
    publish(server.editor_port, {"/later.jsp": NO_SESSION + "later"})
    tally.same("a page that was published later", front.curl("/later.jsp"), b"later")
