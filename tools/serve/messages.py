"""Messages of HTTP over a socket, by hand: a connection that reads whole answers, and the messages
of an editor."""

import socket

HOST = "127.0.0.1"
# The most edits of a draft.
MOST_EDITS = 1_024


class Answer:
    """The status, the fields of the head in small letters, and the body."""

    def __init__(self, status, fields, body):
        self.status = status
        self.fields = fields
        self.body = body

    def __repr__(self):
        return f"{self.status} {self.fields} {self.body[:200]!r}"


class Connection:
    """A connection to a port of this machine; with a context, over TLS."""

    def __init__(self, port, timeout=60, context=None):
        self.socket = socket.create_connection((HOST, port), timeout=timeout)
        self.socket.setsockopt(socket.IPPROTO_TCP, socket.TCP_NODELAY, 1)
        if context:
            self.socket = context.wrap_socket(self.socket, server_hostname=HOST)
        self.file = self.socket.makefile("rb")

    def __enter__(self):
        return self

    def __exit__(self, *_):
        self.close()

    def close(self):
        self.file.close()
        self.socket.close()

    def send(self, data):
        self.socket.sendall(data)

    def ask(self, method, target, fields="", body=b""):
        """Sends a request, and gives its answer."""
        self.send(request(method, target, fields, body))
        return self.answer(has_body=method != "HEAD")

    def answer(self, has_body=True):
        """The next answer, or None where there is none any more."""
        line = self.file.readline()
        if not line:
            return None
        status = int(line.split()[1])
        fields = {}
        while (line := self.file.readline()) not in (b"\r\n", b""):
            name, _, value = line.decode().partition(":")
            fields[name.lower()] = value.strip()
        if not has_body:
            return Answer(status, fields, b"")
        if fields.get("transfer-encoding") == "chunked":
            return Answer(status, fields, b"".join(self.chunks()))
        return Answer(status, fields, self.file.read(int(fields.get("content-length", 0))))

    def chunks(self):
        """The chunks of a body, each as it comes."""
        while size := int(self.file.readline(), 16):
            yield self.file.read(size)
            self.file.readline()
        self.file.readline()

    def is_closed(self):
        """Whether the peer closes without another byte."""
        try:
            return self.file.read(1) == b""
        except (ConnectionError, TimeoutError):
            return True


def request(method, target, fields="", body=b""):
    length = f"Content-Length: {len(body)}\r\n" if body or method in ("PUT", "POST") else ""
    return f"{method} {target} HTTP/1.1\r\nHost: x\r\n{length}{fields}\r\n".encode() + body


def put(connection, path, text):
    return connection.ask("PUT", "/_editor/files" + path, body=text.encode())


def publish(port, files):
    """Puts these files into the draft of a new connection, publishes them, and gives the last
    answer. Where there are more of them than a draft takes, it is published as often as it is
    full."""
    with Connection(port) as connection:
        for number, (path, text) in enumerate(files.items()):
            if number and number % MOST_EDITS == 0:
                connection.ask("POST", "/_editor/publish")
            put(connection, path, text)
        return connection.ask("POST", "/_editor/publish")
