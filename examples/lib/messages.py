"""Messages of HTTP/1.1 and their answers, over one connection that is never made anew."""

import socket
import ssl
from dataclasses import dataclass
from getpass import getpass
from urllib.parse import quote, urlsplit

# A server serves one editor after the other, so the first answer may wait for another editor.
MOST_SECONDS = 180


class Ended(Exception):
    """The connection ended before an answer was whole, of which the head may have come."""

    def __init__(self, reason="", has_begun=False):
        super().__init__(reason)
        self.has_begun = has_begun


@dataclass
class Answer:
    """The status of an answer, and its body."""

    status: int
    body: bytes

    def line(self):
        """The first line of the body, as text."""
        return self.body.partition(b"\n")[0].decode(errors="replace").strip()


def path_of(name):
    """The path of the file of this name, as a target has it."""
    return "/" + quote(name, safe="/")


def target_of(name):
    """The target under which an editor puts the file of this name."""
    return "/_editor/files" + path_of(name)


def request(method, target, body=None, host="x", fields=""):
    length = "" if body is None else f"Content-Length: {len(body)}\r\n"
    return f"{method} {target} HTTP/1.1\r\nHost: {host}\r\n{fields}{length}\r\n".encode() + (body or b"")


def line_of(stream):
    line = stream.readline()
    if not line.endswith(b"\n"):
        raise Ended
    return line.strip()


def bytes_of(stream, count):
    found = stream.read(count)
    if len(found) < count:
        raise Ended
    return found


def chunks_of(stream):
    """The chunks of a body; it is whole only where its last chunk is there."""
    while size := int(line_of(stream), 16):
        yield bytes_of(stream, size)
        line_of(stream)
    line_of(stream)


def read_head(stream):
    """The status and the fields of an answer."""
    status = int(line_of(stream).split()[1])
    fields = {}
    while line := line_of(stream).decode("latin-1"):
        name, _, value = line.partition(":")
        fields[name.lower()] = value.strip()
    return status, fields


def read_answer(stream):
    """The next answer."""
    has_begun = False
    try:
        status, fields = read_head(stream)
        has_begun = True
        if fields.get("transfer-encoding") == "chunked":
            return Answer(status, b"".join(chunks_of(stream)))
        return Answer(status, bytes_of(stream, int(fields.get("content-length", 0))))
    except (Ended, OSError, ValueError, IndexError) as fault:
        raise Ended(fault, has_begun) from fault


@dataclass(frozen=True)
class Secrets:
    """What TLS needs: a file of the certificate to trust, one of the editor's key and certificate,
    and one of the key's password, which else is asked for at the terminal."""

    trusted: str | None = None
    key: str | None = None
    password: str | None = None

    def context(self):
        context = ssl.create_default_context(cafile=self.trusted)
        if self.key:
            context.load_cert_chain(self.key, password=self.said_password)
        return context

    def said_password(self):
        """The key's password; it is asked for where the key has one."""
        if not self.password:
            return getpass("The password of the editor's key: ")
        with open(self.password, encoding="utf-8") as file:
            return file.readline().rstrip("\n")


class Connection:
    """A connection to the port that a URL names, of editors or of drafts. A path in the URL is the
    name of a context."""

    def __init__(self, url, secrets=Secrets()):
        place = urlsplit(url)
        if place.scheme not in ("http", "https") or not place.hostname:
            raise ValueError(f"{url} is no URL such as http://127.0.0.1:8081")
        self.root = place.path.rstrip("/")
        port = place.port or (443 if place.scheme == "https" else 80)
        self.host = f"{place.hostname}:{port}"
        self.socket = socket.create_connection((place.hostname, port), timeout=MOST_SECONDS)
        self.socket.setsockopt(socket.IPPROTO_TCP, socket.TCP_NODELAY, 1)
        if place.scheme == "https":
            self.socket = secrets.context().wrap_socket(self.socket, server_hostname=place.hostname)
        self.stream = self.socket.makefile("rb")

    def __enter__(self):
        return self

    def __exit__(self, *_):
        self.stream.close()
        self.socket.close()

    def ask(self, method, target, body=None):
        """Sends a message, and gives its answer."""
        try:
            self.socket.sendall(request(method, self.root + target, body, self.host))
        except OSError as fault:
            raise Ended(fault) from fault
        return read_answer(self.stream)
