"""Journals of sites, read byte by byte, and what their entries make of an opening: written from the rules of the format, not from the code."""
from dataclasses import dataclass, field, replace

MARK = b"PGJRNL1\n"
COUNT_END = 1 << 63
KINDS = {1: "Publish", 2: "Begin", 3: "App", 4: "Fresh", 5: "Fetch", 6: "Offer", 7: "End", 8: "Abandon", 9: "Snapshot", 10: "Roll"}
STEPS = {0: "Get", 1: "Set", 2: "Remove", 3: "Ensure", 4: "All"}


def listed(connections):
    """The input of `record` for these connections."""
    return b"".join(b"%d\n" % len(bytes_) + bytes_ for bytes_ in connections)


class NotJournal(Exception):
    """The bytes don't begin with a journal."""


@dataclass
class Opening:
    seed: bytes
    limit: int
    passes: int
    idle: int
    version: int
    begins: int
    freshes: int
    moment: int
    app: dict
    files: dict  # path: (stamp, text)
    sessions: list  # of (number, used, attributes)


@dataclass
class Entry:
    pass_: int
    kind: str
    op: dict
    reply: dict


@dataclass
class Journal:
    opening: Opening
    entries: list
    talk: tuple | None  # bytes, moments, answers, ended


@dataclass
class Reader:
    bytes_: bytes
    at: int = 0

    def take(self, count):
        if self.at + count > len(self.bytes_):
            raise NotJournal("the bytes end")
        self.at += count
        return self.bytes_[self.at - count : self.at]

    def byte(self, most=255):
        value = self.take(1)[0]
        if value > most:
            raise NotJournal(f"a byte {value}")
        return value

    def number(self):
        return int.from_bytes(self.take(8), "big")

    def truth(self):
        return bool(self.byte(1))

    def raw(self):
        return self.take(self.number())

    def text(self):
        try:
            return self.raw().decode()
        except UnicodeDecodeError:
            raise NotJournal("no UTF-8") from None

    def path(self):
        path = self.text()
        names = path.split("/")
        bytes_ = path.encode()
        if len(bytes_) > 1024 or any(byte < 0x20 or byte in b"\x7f\\" for byte in bytes_):
            raise NotJournal(f"no path: {path}")
        if names[0] or len(names) < 2 or any(name in ("", ".", "..") for name in names[1:]):
            raise NotJournal(f"no path: {path}")
        return path

    def listed(self, item):
        return [item() for _ in range(self.number())]

    def rising(self, items, key):
        keys = [key(item).encode() for item in items]
        if any(one >= other for one, other in zip(keys, keys[1:])):
            raise NotJournal("out of order")
        return items

    def optional(self, item):
        return item() if self.truth() else None

    def value(self):
        kind = self.byte(5)
        if kind == 0:
            return None
        if kind == 1:
            return self.truth()
        if kind == 2:
            return int.from_bytes(self.take(8), "big", signed=True)
        if kind == 3:
            return self.text()
        return self.listed(self.value) if kind == 4 else self.attributes()

    def attributes(self):
        return dict(self.rising(self.listed(lambda: (self.text(), self.value())), lambda entry: entry[0]))

    def file(self):
        path, stamp = self.path(), self.number()
        return path, (stamp, self.text())

    def session(self):
        return self.number(), self.number(), self.attributes()

    def opening(self):
        seed = self.take(32)
        limit, passes, idle, version, begins, freshes, moment = (self.number() for _ in range(7))
        if passes > 255:
            raise NotJournal(f"{passes} passes")
        app = self.attributes()
        files = dict(self.rising(self.listed(self.file), lambda file: file[0]))
        return Opening(seed, limit, passes, idle, version, begins, freshes, moment, app, files, self.listed(self.session))

    def edit(self):
        return (self.path(), self.text()) if self.byte(1) == 0 else (self.path(), None)

    def step(self):
        kind = STEPS[self.byte(4)]
        name = None if kind == "All" else self.text()
        return {"step": kind, "name": name, "value": self.value() if kind in ("Set", "Ensure") else None}

    def told(self):
        kind = self.byte(3)
        if kind == 0:
            return {"told": "Value", "value": self.value()}
        return {"told": "Large", "weight": self.number()} if kind == 3 else {"told": "Done" if kind == 1 else "Created"}

    def entry(self):
        pass_, kind = self.byte(), self.byte(10)
        if kind == 0:
            raise NotJournal("no kind")
        op, reply = getattr(self, KINDS[kind].lower())()
        return Entry(pass_, KINDS[kind], op, reply)

    def publish(self):
        op = {"base": self.optional(self.number), "edits": self.listed(self.edit)}
        version = self.number()
        return op, {"version": version, "dirty": self.rising(self.listed(self.path), lambda path: path)}

    def begin(self):
        op = {"cookie": self.text(), "moment": self.number()}
        return op, {"request": self.number(), "version": self.number(), "session": self.optional(self.number)}

    def app(self):
        op = {"request": self.number(), **self.step()}
        return op, self.told()

    def fresh(self):
        return {"request": self.number()}, {"session": self.number()}

    def fetch(self):
        return {"request": self.number(), "path": self.path()}, {"hit": self.truth()}

    def offer(self):
        return {"request": self.number(), "path": self.path()}, {"kept": self.truth()}

    def end(self):
        return {"request": self.number(), "attributes": self.attributes()}, {}

    def abandon(self):
        return {"request": self.number()}, {}

    def snapshot(self):
        return {"cookie": self.text()}, {"version": self.number(), "session": self.optional(self.number)}

    def roll(self):
        return {}, {}

    def talk(self):
        return self.raw(), self.listed(self.number), self.raw(), self.byte()

    def journal(self):
        if self.take(8) != MARK:
            raise NotJournal("no mark")
        opening, entries = self.opening(), self.listed(self.entry)
        if [entry.kind == "Roll" for entry in entries] != [False] * (len(entries) - 1) + [True]:
            raise NotJournal("Roll is the last entry and no other")
        return Journal(opening, entries, self.optional(self.talk))


def journals(bytes_):
    """The journals that the bytes are, one behind the other."""
    reader, found = Reader(bytes_), []
    while reader.at < len(bytes_):
        found.append(reader.journal())
    return found


@dataclass
class State:
    """A site by its entries: what the opening that goes on has, and what the requests under way hold."""

    opening: Opening
    requests: dict = field(default_factory=dict)  # number: session

    def use(self, number, attributes=None):
        """A session is used now: it stands behind the others, with these attributes, or its own."""
        sessions = self.opening.sessions
        place = [session[0] for session in sessions].index(number)
        kept = sessions.pop(place)
        sessions.append((number, self.opening.moment, kept[2] if attributes is None else attributes))

    def publish(self, op, reply):
        self.opening.version += 1
        for path, text in op["edits"]:
            self.opening.files.pop(path, None)
            if text is not None:
                self.opening.files[path] = (self.opening.version, text)

    def begin(self, op, reply, id_of):
        self.opening.moment = max(self.opening.moment, op["moment"])
        held = set(self.requests.values())
        for session in list(self.opening.sessions):
            number, used, attributes = session
            if number in held or id_of(number) != op["cookie"]:
                continue
            if self.opening.moment - used > self.opening.idle:
                self.opening.sessions.remove(session)
            else:
                place = self.opening.sessions.index(session)
                self.opening.sessions[place] = number, self.opening.moment, attributes
        self.requests[self.opening.begins] = reply["session"]
        self.opening.begins += 1

    def app(self, op, reply):
        if op["step"] == "Set" and reply["told"] == "Done" or op["step"] == "Ensure" and reply["told"] == "Created":
            self.opening.app[op["name"]] = op["value"]
        if op["step"] == "Remove":
            self.opening.app.pop(op["name"], None)

    def fresh(self, op, reply):
        number = self.opening.freshes
        self.opening.freshes += 1
        self.requests[op["request"]] = number
        self.opening.sessions.append((number, self.opening.moment, {}))

    def end(self, op, attributes):
        session = self.requests.pop(op["request"])
        if session is not None:
            self.use(session, attributes)


def goes_on(journal, id_of):
    """The opening behind a journal's Roll, by its entries."""
    first = journal.opening
    state = State(replace(first, app=dict(first.app), files=dict(first.files), sessions=list(first.sessions)))
    for entry in journal.entries:
        if entry.kind == "Publish":
            state.publish(entry.op, entry.reply)
        elif entry.kind == "Begin":
            state.begin(entry.op, entry.reply, id_of)
        elif entry.kind == "App":
            state.app(entry.op, entry.reply)
        elif entry.kind == "Fresh":
            state.fresh(entry.op, entry.reply)
        elif entry.kind == "End":
            state.end(entry.op, entry.op["attributes"])
        elif entry.kind == "Abandon":
            state.end(entry.op, None)
    return state.opening
