"""A relay before an editors' port: it passes one connection on, and does something at an answer."""

import socket
import threading
import time

from server import HOST, free_ports

ANSWER = b"HTTP/1.1 "


class Relay(threading.Thread):
    """Passes the first connection that comes on to a port. Before it passes the answer with this
    number on it does the work; since a script sends a message when it has the answer to the one
    before, the server waits for a message meanwhile. It notes when the server ended the
    connection, in seconds from then on."""

    def __init__(self, port, number, work):
        super().__init__(daemon=True)
        (self.port,) = free_ports(1)
        self.listener = socket.create_server((HOST, self.port))
        self.to = port
        self.number = number
        self.work = work
        self.ended_after = None
        self.start()

    def run(self):
        with self.listener, self.listener.accept()[0] as editor, socket.create_connection((HOST, self.to)) as server:
            threading.Thread(target=self.pass_messages, args=(editor, server), daemon=True).start()
            self.pass_answers(server, editor)

    def pass_messages(self, editor, server):
        try:
            while said := editor.recv(65536):
                server.sendall(said)
            server.shutdown(socket.SHUT_WR)
        except OSError:
            pass

    def pass_answers(self, server, editor):
        count, begun = 0, None
        try:
            while said := server.recv(65536):
                count += said.count(ANSWER)
                if count >= self.number and begun is None:
                    begun = time.perf_counter()
                    watcher = threading.Thread(target=self.watch, args=(server, begun), daemon=True)
                    watcher.start()
                    self.work()
                    watcher.join(1)
                editor.sendall(said)
        except OSError:
            pass

    def watch(self, server, begun):
        """Waits for the end of the server's side, beside the work."""
        try:
            server.settimeout(200)
            if server.recv(1, socket.MSG_PEEK) == b"":
                self.ended_after = time.perf_counter() - begun
        except OSError:
            self.ended_after = time.perf_counter() - begun
