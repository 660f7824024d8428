"""Whether journals are right but for their talks: written from the rules of a site's entries, not from the code.

What a page needs is found by its include directives, tag folders and beans alone, as the pages of these tools write them."""
import posixpath
import re
import struct
from dataclasses import replace

from journals import COUNT_END, Opening, State

MAX_FILES, MAX_FILE, MAX_TREE = 4_096, 1_048_576, 67_108_864
MAX_VALUE, MAX_DEPTH, MAX_SESSION, MAX_SESSIONS, MAX_COOKIE = 1_048_576, 32, 65_536, 4_096, 48
ENTRY, PROMISE, FOR_END = 64, 4_325_376, 65_600


def text_weight(text):
    return 16 + len(text.encode())


def weight(value):
    if value is None or isinstance(value, bool):
        return 8
    if isinstance(value, int):
        return 16
    if isinstance(value, str):
        return text_weight(value)
    if isinstance(value, list):
        return 16 + sum(map(weight, value))
    return 16 + sum(text_weight(key) + weight(item) for key, item in value.items())


def depth(value):
    if not isinstance(value, (list, dict)):
        return 0
    return 1 + max(map(depth, value if isinstance(value, list) else value.values()), default=0)


def is_over(value):
    return weight(value) > MAX_VALUE or depth(value) > MAX_DEPTH


def quarter(block, a, b, c, d):
    for one, other, third, by in ((a, b, d, 16), (c, d, b, 12), (a, b, d, 8), (c, d, b, 7)):
        block[one] = (block[one] + block[other]) & 0xFFFFFFFF
        mixed = block[third] ^ block[one]
        block[third] = (mixed << by | mixed >> (32 - by)) & 0xFFFFFFFF


def stream_words(seed, place):
    """The sixteen words of ChaCha20 (RFC 8439, with a counter of 64 bits) at a place of the seed's stream 0."""
    first = [*struct.unpack("<4I", b"expand 32-byte k"), *struct.unpack("<8I", seed), place & 0xFFFFFFFF, place >> 32, 0, 0]
    block = list(first)
    for _ in range(10):
        for column in range(4):
            quarter(block, column, column + 4, column + 8, column + 12)
        for row in range(4):
            quarter(block, row, 4 + (row + 1) % 4, 8 + (row + 2) % 4, 12 + (row + 3) % 4)
    return [(one + other) & 0xFFFFFFFF for one, other in zip(block, first)]


def session_id(seed, number):
    words = stream_words(seed, number // 4)[number % 4 * 4 :][:4]
    return f"{number:016x}" + "".join(f"{word:08x}" for word in words)


def is_tree_over(files):
    sizes = [len(text.encode()) for _, text in files.values()]
    return len(files) > MAX_FILES or max(sizes, default=0) > MAX_FILE or sum(sizes) > MAX_TREE


def is_sound(opening):
    """Whether a site may have the opening."""
    numbers = [number for number, _, _ in opening.sessions]
    return (
        1 <= opening.passes <= 64
        and max(opening.version, opening.begins, opening.freshes) < COUNT_END
        and not is_tree_over(opening.files)
        and all(stamp <= opening.version for stamp, _ in opening.files.values())
        and not any(map(is_over, opening.app.values()))
        and len(numbers) <= MAX_SESSIONS
        and len(set(numbers)) == len(numbers)
        and all(number < opening.freshes and used <= opening.moment and weight(attributes) <= MAX_SESSION for number, used, attributes in opening.sessions)
    )


def needs(files, path, seen=None):
    """The names on which the page at a path depends."""
    seen = set() if seen is None else seen
    if path in seen:
        return seen
    seen.add(path)
    text = files[path][1] if path in files else ""
    for name in re.findall(r'<%@ include file="([^"]*)"', text):
        needs(files, posixpath.normpath(posixpath.join(posixpath.dirname(path), name)), seen)
    for prefix, folder in re.findall(r'<%@ taglib prefix="(\w+)" tagdir="([^"]*)"', text):
        for name in re.findall(rf"<{prefix}:(\w+)", text):
            needs(files, f"{folder}/{name}.tag", seen)
    seen.update(f"/WEB-INF/beans/{name}.json" for name in re.findall(r'<jsp:useBean [^>]*class="(\w+)"', text))
    return seen


class Run:
    """A request under way."""

    def __init__(self, number, files, session):
        self.number, self.files, self.session, self.left = number, files, session, PROMISE

    def has(self, number, claim):
        return self.number == number and claim <= self.left


class Site:
    """A site that does entries again."""

    def __init__(self, opening):
        self.state = State(replace(opening, app=dict(opening.app), files=dict(opening.files), sessions=list(opening.sessions)))
        self.runs, self.ready, self.weight = [None] * opening.passes, set(), 0

    @property
    def opening(self):
        return self.state.opening

    def id_of(self, number):
        return session_id(self.opening.seed, number)

    def op_weight(self, kind, op):
        if kind == "Publish":
            return ENTRY + sum(text_weight(path) + (0 if text is None else text_weight(text)) for path, text in op["edits"])
        if kind in ("Begin", "Snapshot"):
            return ENTRY + text_weight(op["cookie"])
        if kind == "App" and op["step"] != "All":
            return ENTRY + text_weight(op["name"]) + (weight(op["value"]) if op["step"] in ("Set", "Ensure") else 0)
        if kind in ("Fetch", "Offer"):
            return ENTRY + text_weight(op["path"])
        return {"End": ENTRY + weight(op.get("attributes", {})), "Roll": 0}.get(kind, ENTRY)

    def fits(self, pass_, kind, op):
        """Whether the entry meets its condition."""
        if pass_ >= len(self.runs):
            return False
        run, claim = self.runs[pass_], self.op_weight(kind, op)
        if kind in ("Begin", "Snapshot") and len(op["cookie"].encode()) > MAX_COOKIE:
            return False
        if kind in ("Publish", "Snapshot"):
            return True
        if kind == "Roll":
            return not any(self.runs)
        if kind == "Begin":
            return run is None
        if kind == "App":
            told = op["step"] in ("Set", "Ensure")
            may = not (told and is_over(op["value"])) and not (op["step"] == "Set" and op["value"] is None)
            return run is not None and may and run.has(op["request"], claim + MAX_VALUE + FOR_END)
        if kind == "End":
            attributes = op["attributes"]
            return run is not None and run.has(op["request"], 0) and weight(attributes) <= MAX_SESSION and (run.session is not None or not attributes)
        if kind == "Abandon":
            return run is not None and run.has(op["request"], 0)
        fit = run is not None and run.has(op["request"], claim + FOR_END)
        if kind == "Fresh":
            return fit and run.session is None
        return fit and (kind == "Fetch" or op["path"] in run.files)

    def is_full(self, claim):
        return self.weight + sum(run.left for run in self.runs if run) + claim > self.opening.limit

    def session_of(self, cookie):
        """The session of a cookie, and the number of the request that holds it."""
        for session in self.opening.sessions:
            if self.id_of(session[0]) == cookie:
                return session, next((run.number for run in self.runs if run and run.session == session[0]), None)
        return None, None

    def awake(self, session, moment):
        return session[0] if session and moment - session[1] <= self.opening.idle else None

    def dirty(self, edits):
        """The ready paths that need a name which the edits change: one that is put, or that is there and deleted."""
        files = self.opening.files
        changed = {path for path, text in edits if text is not None or path in files}
        return {path for path in self.ready if needs(files, path) & changed}

    def published(self, op):
        version, files = self.opening.version + 1, dict(self.opening.files)
        for path, text in op["edits"]:
            files.pop(path, None)
            if text is not None:
                files[path] = version, text
        dirty = sorted(self.dirty(op["edits"]), key=str.encode)
        claim = self.op_weight("Publish", op) + sum(map(text_weight, dirty))
        if op["base"] not in (None, version - 1) or is_tree_over(files) or self.is_full(claim):
            return None
        return {"version": version, "dirty": dirty}

    def told(self, op):
        app, name = self.opening.app, op["name"]
        if op["step"] == "Get" or op["step"] == "Ensure" and name in app:
            return {"told": "Value", "value": app.get(name)}
        if op["step"] == "All":
            return {"told": "Large", "weight": weight(app)} if is_over(app) else {"told": "Value", "value": app}
        return {"told": "Created" if op["step"] == "Ensure" else "Done"}

    def reply(self, pass_, kind, op):
        """The reply to an entry that meets its condition; None where it is refused."""
        opening, run = self.opening, self.runs[pass_]
        if kind == "Publish":
            return self.published(op)
        if kind == "Begin":
            session, holder = self.session_of(op["cookie"])
            if holder is not None or self.is_full(PROMISE):
                return None
            return {"request": opening.begins, "version": opening.version, "session": self.awake(session, max(opening.moment, op["moment"]))}
        if kind == "App":
            return self.told(op)
        if kind == "Fresh":
            return {"session": opening.freshes}
        if kind in ("Fetch", "Offer"):
            path = op["path"]
            files = opening.files if kind == "Fetch" else run.files
            same = all(opening.files.get(name, (None,))[0] == run.files.get(name, (None,))[0] for name in needs(files, path))
            return {"hit": path in self.ready and same} if kind == "Fetch" else {"kept": same}
        if kind == "Snapshot":
            session, holder = self.session_of(op["cookie"])
            if self.is_full(self.op_weight(kind, op)):
                return None
            number = session[0] if holder is not None else self.awake(session, opening.moment)
            return {"version": opening.version, "session": number}
        return {}

    def do(self, pass_, kind, op, reply):
        """What the entry makes of the site."""
        run, claim = self.runs[pass_], self.op_weight(kind, op)
        if kind == "Publish":
            self.ready -= self.dirty(op["edits"])
            self.opening.files = dict(self.opening.files)
            self.state.publish(op, reply)
            claim += sum(map(text_weight, reply["dirty"]))
        elif kind == "Begin":
            run = self.runs[pass_] = Run(reply["request"], self.opening.files, reply["session"])
            self.state.begin(op, reply, self.id_of)
        elif kind == "App":
            self.state.app(op, reply)
            claim += weight(reply["value"]) if reply["told"] == "Value" else 0
        elif kind == "Fresh":
            if len(self.opening.sessions) >= MAX_SESSIONS:
                held = {run.session for run in self.runs if run}
                self.opening.sessions.remove(next(session for session in self.opening.sessions if session[0] not in held))
            self.state.fresh(op, reply)
            run.session = reply["session"]
        elif kind == "Offer" and reply["kept"]:
            self.ready.add(op["path"])
        elif kind in ("End", "Abandon"):
            self.state.end(op, op.get("attributes"))
            self.runs[pass_] = run = None
        elif kind == "Roll":
            self.ready = set()
        self.weight = 0 if kind == "Roll" else self.weight + claim
        if run is not None and kind not in ("Publish", "Snapshot"):
            run.left -= claim


def seen(value):
    """A value, reply or opening so that equal ones are equal, with numbers and truth values apart, and names in order."""
    if isinstance(value, Opening):
        return seen(vars(value))
    if isinstance(value, dict):
        return sorted((key.encode(), seen(item)) for key, item in value.items())
    return [seen(item) for item in value] if isinstance(value, (list, tuple)) else repr(value)


def wrong_part(journal, behind):
    """The part of a journal that is wrong first, its talk aside: `opening`, or `entry` and its place; and, where none is, the opening that
    goes on from it. Where one must stand there, it is given."""
    if not is_sound(journal.opening) or behind is not None and seen(journal.opening) != seen(behind):
        return "opening", None
    site = Site(journal.opening)
    for place, entry in enumerate(journal.entries):
        asked = entry.pass_, entry.kind, entry.op
        if not site.fits(*asked) or seen(site.reply(*asked)) != seen(entry.reply):
            return f"entry {place}", None
        site.do(*asked, entry.reply)
    return None, site.opening
