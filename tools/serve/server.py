"""A program `pages serve` on free ports of this machine, which is killed in any case, and what a
try tells of it."""

import ctypes
import os
import resource
import signal
import socket
import struct
import subprocess
import threading
import time

HOST = "127.0.0.1"
DIES_WITH_ITS_PARENT = 1
# A user who has no process of his own. (The system's first user may have any number of threads.)
LONELY_USER = 65_533


def free_ports(count):
    """Ports that nobody has now."""
    taken = [socket.create_server((HOST, 0)) for _ in range(count)]
    ports = [it.getsockname()[1] for it in taken]
    for it in taken:
        it.close()
    return ports


def limit_threads(count):
    """Lets this process, and what it becomes, have so many threads at the most."""
    if os.geteuid() == 0:
        os.setgroups([])
        os.setgid(LONELY_USER)
        os.setuid(LONELY_USER)
    resource.setrlimit(resource.RLIMIT_NPROC, (count, count))


class Server:
    """The program while it serves: `with Server(program, workers=16) as server`. What else is given
    are words of its command, or limits: how many files it may have open, how many threads, and how
    many KiB of stack each thread. With rounds, which are two numbers of connections, the journals go
    into a file."""

    def __init__(
        self,
        program,
        workers=16,
        shows_drafts=False,
        contexts=None,
        idle=None,
        files=None,
        threads=None,
        stack=None,
        rounds=None,
        journals=subprocess.DEVNULL,
    ):
        self.program = program
        self.workers = workers
        self.port, self.editor_port = free_ports(2)
        self.preview_port = free_ports(1)[0] if shows_drafts else None
        self.contexts = contexts
        self.idle = idle
        self.files = files
        self.threads = threads
        self.stack = stack
        self.rounds = rounds
        self.journals = journals

    def __enter__(self):
        self.start()
        return self

    def __exit__(self, *_):
        self.kill()

    def words(self):
        previews = [f"--preview-port={self.preview_port}"] if self.preview_port else []
        contexts = ["--contexts", self.contexts] if self.contexts else []
        idle = [f"--idle={self.idle}"] if self.idle else []
        rounds = [f"--round={self.rounds[0]}", f"--editor-round={self.rounds[1]}"] if self.rounds else []
        return [
            "serve",
            f"--port={self.port}",
            "--editor-port",
            str(self.editor_port),
            f"--workers={self.workers}",
            *previews,
            *contexts,
            *idle,
            *rounds,
        ]

    def start(self):
        """Starts it, and waits for its line. It has begun when its process is there and becomes
        the program: what this script takes to make a process isn't the program's."""
        told, tells = os.pipe()

        def before():
            if self.threads:
                limit_threads(self.threads)
            ctypes.CDLL(None).prctl(DIES_WITH_ITS_PARENT, signal.SIGKILL)
            if self.files:
                resource.setrlimit(resource.RLIMIT_NOFILE, (self.files, self.files))
            if self.stack:
                resource.setrlimit(resource.RLIMIT_STACK, (self.stack << 10, self.stack << 10))
            os.write(tells, struct.pack("d", time.perf_counter()))

        self.process = subprocess.Popen(
            [self.program, *self.words()],
            stdin=subprocess.DEVNULL,
            stdout=self.journals,
            stderr=subprocess.PIPE,
            preexec_fn=before,
        )
        self.line = self.process.stderr.readline().decode()
        came = time.perf_counter()
        (self.begun,) = struct.unpack("d", os.read(told, struct.calcsize("d")))
        self.seconds_to_start = came - self.begun
        os.close(told)
        os.close(tells)
        if self.rounds:
            # (what it says at the end of each round would else fill the pipe)
            threading.Thread(target=self.drain, args=(self.process.stderr,), daemon=True).start()
        if not self.line.startswith("pages: readers at "):
            self.kill()
            raise RuntimeError(f"it doesn't serve: {self.line}")

    def drain(self, said):
        """Takes what it says, until it ends."""
        for _ in said:
            pass

    def kill(self):
        """Ends it at once."""
        self.process.kill()
        self.process.wait()
        if not self.rounds:
            self.process.stderr.close()

    def send_signal(self, number):
        self.process.send_signal(number)

    def is_running(self):
        return self.process.poll() is None

    def descriptors(self):
        """How many files it has open."""
        return len(os.listdir(f"/proc/{self.process.pid}/fd"))

    def memory(self):
        """How many KiB of memory it has."""
        with open(f"/proc/{self.process.pid}/status") as status:
            for line in status:
                if line.startswith("VmRSS:"):
                    return int(line.split()[1])
        return 0

    def processor_seconds(self):
        """How long it has run, in user and in system mode."""
        with open(f"/proc/{self.process.pid}/stat") as stat:
            fields = stat.read().rsplit(")", 1)[1].split()
        tick = os.sysconf("SC_CLK_TCK")
        return int(fields[11]) / tick, int(fields[12]) / tick


class Tally:
    """What held and what didn't, a line each."""

    def __init__(self):
        self.held = 0
        self.failed = 0

    def check(self, name, holds, seen=""):
        if holds:
            self.held += 1
            print(f"  ok  {name}", flush=True)
        else:
            self.failed += 1
            print(f"  NO  {name}: {seen!r}"[:600], flush=True)
        return holds

    def same(self, name, seen, wanted):
        return self.check(name, seen == wanted, seen)

    def note(self, text):
        print(f"      {text}", flush=True)
