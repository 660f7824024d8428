"""Messages to the program, its answers, and what a check counts. Each check's first word is the folder that `build` made, or a program
`pages` where it needs no other."""
import os
import re
import subprocess
import sys
from urllib.parse import quote

GIVEN = os.path.abspath(sys.argv[1]) if len(sys.argv) > 1 else ""
PAGES = GIVEN if os.path.isfile(GIVEN) else f"{GIVEN}/pages"
FOLDER = os.path.dirname(PAGES)
if not os.path.isfile(PAGES):
    sys.exit(f"{sys.modules['__main__'].__doc__}\nThe first word is the folder that tools/build made, or a program.")
NUMBERS = [int(word) for word in sys.argv[2:] if word.isdigit()]
FAILING, CHECKED = f"{FOLDER}/pages-failing", f"{FOLDER}/pages-checked"
PLAIN, HTML = "text/plain;charset=UTF-8", "text/html;charset=UTF-8"
NO_SESSION = '<%@ page session="false" %>'
CORE = '<%@ taglib prefix="c" uri="jakarta.tags.core" %>'
FUNCTIONS = '<%@ taglib prefix="fn" uri="jakarta.tags.functions" %>'
TAGS = '<%@ taglib prefix="t" tagdir="/WEB-INF/tags" %>'
COUNTER = CORE + '<c:set var="n" value="${n + 1}" scope="session"/>${n}'
# The ids of the first two sessions where the seed is 32 zeros.
FIRST_ID = "0000000000000000ade0b876903df1a0e56a5d4028bd8653"
SECOND_ID = "0000000000000001b819d2bd1aed8da0ccef36a8c70d778b"
FAULT = "500 Internal Server Error"

counts = {"checks": 0, "wrong": 0}


def number(place, otherwise):
    """The number among the words behind the folder, or another where it isn't given."""
    return NUMBERS[place] if len(NUMBERS) > place else otherwise


def run(data, words=("play",), program=PAGES, **environment):
    """The status and the output of the program for these bytes; a program that hangs has the status `hangs`."""
    how = {**os.environ, **{name: str(value) for name, value in environment.items()}}
    try:
        done = subprocess.run([program, *words], input=data, capture_output=True, timeout=120, env=how)
    except subprocess.TimeoutExpired:
        return "hangs", b""
    return done.returncode, done.stdout


def message(method, target, body=None, fields=()):
    head = f"{method} {target} HTTP/1.1\r\nHost: x\r\n".encode()
    for field in fields:
        head += field.encode() + b"\r\n"
    if body is None:
        return head + b"\r\n"
    body = body.encode() if isinstance(body, str) else body
    return head + b"Content-Length: %d\r\n\r\n" % len(body) + body


def put(path, text):
    return message("PUT", "/_editor/files" + quote(path), text)


def publish(query=""):
    return message("POST", "/_editor/publish" + query)


def get(target, *fields):
    return message("GET", target, None, fields)


def published(files):
    """The messages that put these files and publish them."""
    return b"".join(put(path, text) for path, text in files.items()) + publish()


def cookie(id_):
    return f"Cookie: JSESSIONID={id_}"


def chunks(out, at):
    """The pieces that stand at a place, as far as the output has them, and the place behind them."""
    pieces = []
    while at < len(out):
        stop = out.index(b"\r\n", at)
        size = int(out[at:stop], 16)
        pieces.append(out[stop + 2 : stop + 2 + size])
        at = stop + 4 + size
        if size == 0:
            break
    return pieces, at


def answers(out):
    """The answers in an output, each its status, its fields and its body: bytes, or a list of chunks."""
    found, at = [], 0
    while at < len(out):
        behind = out.index(b"\r\n\r\n", at) + 4
        first, *lines = out[at : behind - 4].decode("latin1").split("\r\n")
        fields = [tuple(line.split(": ", 1)) for line in lines]
        length = dict(fields).get("Content-Length")
        if length is None:
            body, at = chunks(out, behind)
        else:
            body, at = out[behind : behind + int(length)], behind + int(length)
        found.append((first.removeprefix("HTTP/1.1 "), fields, body))
    return found


def ends_of_answers(out):
    """The places at which the answers in an output end, 0 before the first."""
    ends, at = [0], 0
    while at < len(out):
        head = out.index(b"\r\n\r\n", at) + 4
        length = re.search(rb"\r\nContent-Length: (\d+)\r\n", out[at:head])
        at = head + int(length[1]) if length else chunks(out, head)[1]
        ends.append(at)
    return ends


def ends_of_requests(data):
    """The places at which the requests end that stand whole in these bytes, 0 before the first."""
    ends, at = [0], 0
    while (head := data.find(b"\r\n\r\n", at)) >= 0:
        length = re.search(rb"\r\nContent-Length: *(\d+)\r\n", data[at : head + 4])
        at = head + 4 + (int(length[1]) if length else 0)
        if at > len(data):
            break
        ends.append(at)
    return ends


def whole(body, kind=HTML, *fields):
    """The answer 200 with this body; further fields stand behind its type."""
    body = body.encode() if isinstance(body, str) else body
    return "200 OK", [("Content-Type", kind), *fields, ("Content-Length", str(len(body)))], body


def in_chunks(pieces, status="200 OK", kind=HTML):
    return status, [("Content-Type", kind), ("Transfer-Encoding", "chunked")], pieces


def plain(status, line):
    body = line.encode() + b"\n"
    return status, [("Content-Type", PLAIN), ("Content-Length", str(len(body)))], body


def wrong(name, told):
    counts["wrong"] += 1
    print(f"WRONG {name}: {told}", flush=True)


def expect(name, got, wanted):
    counts["checks"] += 1
    if got != wanted:
        wrong(name, f"\n  got    {got!r:.600}\n  wanted {wanted!r:.600}")


def end():
    """Tells how it went, and ends with status 1 where something was wrong."""
    print(f"{os.path.basename(sys.argv[0])}: {counts['checks']} checks, {counts['wrong']} wrong")
    sys.exit(1 if counts["wrong"] else 0)
