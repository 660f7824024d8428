"""What two sites in one server know of each other: nothing, also where the journal of one is
full."""

import threading

from by_curl import CORE, COUNTER, FILES
from front import curl, status
from messages import Connection

NAMES = "shop,blog"
VISITORS = 3
# A site's journal has room for 128 publishings of a file of this size, if for no more.
LARGE = b"x" * 1048576
MOST_PUBLISHINGS = 140


class Visitor(threading.Thread):
    """Asks a context for the page that counts, in a session of its own, until it is over, and notes
    what wasn't the next number."""

    def __init__(self, port, context, is_over):
        super().__init__(daemon=True)
        self.port = port
        self.target = f"/{context}{COUNTER}"
        self.is_over = is_over
        self.count = 0
        self.faults = []

    def run(self):
        try:
            with Connection(self.port) as connection:
                cookie = ""
                while not self.is_over.is_set() and not self.faults:
                    answer = connection.ask("GET", self.target, cookie)
                    if given := answer.fields.get("set-cookie"):
                        cookie = f"Cookie: {given.split(';')[0]}\r\n"
                    self.count += 1
                    if (answer.status, answer.body) != (200, str(self.count).encode()):
                        self.faults.append((self.count, answer))
        except OSError as fault:
            self.faults.append(repr(fault))


def try_contexts(server, tally):
    shop, blog = (f"http://127.0.0.1:{server.port}/{name}" for name in NAMES.split(","))
    shop_editor, blog_editor = (f"http://127.0.0.1:{server.editor_port}/{name}/_editor" for name in NAMES.split(","))
    put = ["--request", "PUT", "--data-binary", CORE + FILES[COUNTER]]
    both = [*put, f"{shop_editor}/files{COUNTER}", "--next", *put, f"{blog_editor}/files{COUNTER}", "--next"]
    told = curl(*both, "--request", "POST", f"{shop_editor}/publish")
    tally.check("a draft of each on one connection", told.startswith(b"draft 1\ndraft 1\nversion 1\n"), told)
    tally.same("the other wasn't published", status(blog + COUNTER), "404")
    head, _, body = curl("--include", shop + COUNTER).partition(b"\r\n\r\n")
    tally.same("a visitor's first page", body, b"1")
    mine = ["--cookie", head.split(b"Set-Cookie: ")[1].split(b";")[0].decode()]
    tally.same("the second", curl(*mine, shop + COUNTER), b"2")
    curl(*put, f"{blog_editor}/files{COUNTER}", "--next", "--request", "POST", f"{blog_editor}/publish")
    tally.same("a cookie of one in the other", curl(*mine, blog + COUNTER), b"1")
    tally.same("the third", curl(*mine, shop + COUNTER), b"3")
    tally.same("no context", status(f"http://127.0.0.1:{server.port}{COUNTER}"), "404")
    tally.same("readers can't publish", status("--request", "POST", f"{shop}/_editor/publish"), "404")
    try_full_journal(server, tally)


def fill(port):
    """Publishes large files in the first context until its journal has no room, and gives how many
    there were and the last answer."""
    with Connection(port) as editor:
        for number in range(MOST_PUBLISHINGS):
            editor.ask("PUT", "/shop/_editor/files/large.txt", body=LARGE)
            answer = editor.ask("POST", "/shop/_editor/publish")
            if answer.status != 200:
                return number, answer
    return MOST_PUBLISHINGS, answer


def try_full_journal(server, tally):
    """The journal of one context is filled while visitors ask the other."""
    is_over = threading.Event()
    visitors = [Visitor(server.port, "blog", is_over) for _ in range(VISITORS)]
    for it in visitors:
        it.start()
    try:
        count, last = fill(server.editor_port)
        shop = status(f"http://127.0.0.1:{server.port}/shop{COUNTER}")
        with Connection(server.editor_port) as editor:
            editor.ask("PUT", "/blog/_editor/files/later.txt", body=b"later")
            published = editor.ask("POST", "/blog/_editor/publish")
    finally:
        is_over.set()
        for it in visitors:
            it.join(60)
    tally.check("one context's journal is full", last.status == 503 and last.body.startswith(b"JournalFull "), last)
    tally.same("its visitors are told", shop, "503")
    tally.same("the other is published", (published.status, published.body), (200, b"version 2\n"))
    tally.same("and read", curl(f"http://127.0.0.1:{server.port}/blog/later.txt"), b"later")
    faults = [fault for it in visitors for fault in it.faults]
    tally.check("its visitors are counted all along", not faults and all(it.count for it in visitors), faults[:3])
    tally.note(f"{sum(it.count for it in visitors)} requests beside {count} publishings of a MiB")
