"""Where readers ask: at the program itself, or at a proxy before it."""

import http.client
import ssl
import subprocess

from messages import Connection
from server import HOST


def curl(*words):
    """What curl writes, which has thirty seconds."""
    told = ["curl", "--silent", "--max-time", "30", *words]
    return subprocess.run(told, stdin=subprocess.DEVNULL, capture_output=True).stdout


def status(*words):
    return curl("--output", "/dev/null", "--write-out", "%{http_code}", *words).decode()


class Front:
    """A port at which readers ask. A proxy is asked over TLS, and shows this certificate."""

    def __init__(self, port, certificate=None):
        self.port = port
        self.is_proxy = certificate is not None
        self.address = f"{'https' if self.is_proxy else 'http'}://{HOST}:{port}"
        self.words = ["--cacert", certificate] if self.is_proxy else []
        self.context = ssl.create_default_context(cafile=certificate) if self.is_proxy else None

    def curl(self, target, *words):
        """What curl writes of this target."""
        return curl(*self.words, *words, self.address + target)

    def status(self, target, *words):
        return status(*self.words, *words, self.address + target)

    def connection(self):
        """A connection for messages by hand."""
        return Connection(self.port, context=self.context)

    def client(self):
        """A client that keeps its connection, and opens another where that is closed."""
        if self.is_proxy:
            return http.client.HTTPSConnection(HOST, self.port, timeout=60, context=self.context)
        return http.client.HTTPConnection(HOST, self.port, timeout=60)
