"""A model of a site's versions: of what depends on what, and of the pages that a publishing lists. An included file that isn't there
counts as one on which its page depends; what is included while a page runs doesn't."""
from messages import FAULT, NO_SESSION, PLAIN, get, message, plain, publish, put, whole

PAGES = [f"/p{place}.jsp" for place in range(8)]
PARTS = [f"/i{place}" for place in range(6)]


def source(items, name):
    """The text of a file, and the column of each of its items."""
    text, columns = (NO_SESSION if name in PAGES else ""), []
    for kind, what in items:
        columns.append(len(text) + 1)
        if kind == "text":
            text += what
        else:
            text += f'<%@ include file="{what}" %>' if kind == "static" else f'<jsp:include page="{what}"/>'
    return text, columns


def some_items(random_, name):
    """What stands in a file: texts, and includes of later parts and pages, so that nothing includes itself."""
    parts = PARTS if name in PAGES else PARTS[PARTS.index(name) + 1 :]
    pages = PAGES[PAGES.index(name) + 1 :] if name in PAGES else []
    items = []
    for _ in range(random_.randint(0, 4)):
        chance = random_.random()
        if chance < 0.4 or not (parts or pages):
            items.append(("text", random_.choice("abcdefgh") * random_.randint(1, 3)))
        elif chance < 0.7 and parts:
            items.append(("static", random_.choice(parts)))
        elif pages:
            items.append(("dynamic", random_.choice(pages)))
    return items


class RunFault(Exception):
    """A fault while a page runs: its name and its place."""


class Site:
    """The model: the latest files, a draft, the version and the pages that are kept."""

    def __init__(self):
        self.files, self.draft, self.version, self.kept = {}, [], 0, set()

    def placed(self, name):
        return zip(self.files[name], source(self.files[name], name)[1])

    def needs(self, name, seen=None):
        seen = set() if seen is None else seen
        if name not in seen:
            seen.add(name)
            for kind, what in self.files.get(name, []):
                if kind == "static":
                    self.needs(what, seen)
        return seen

    def fault(self, name):
        """The first include of nothing, in reading order."""
        for (kind, what), column in self.placed(name):
            if kind != "static":
                continue
            inner = self.fault(what) if what in self.files else f"E8 NoFile {name}:1:{column}"
            if inner:
                return inner
        return None

    def written(self, name):
        """What a good page or part writes."""
        text = ""
        for (kind, what), column in self.placed(name):
            if kind == "dynamic":
                text += self.included(what, f"{name}:1:{column}")
            else:
                text += what if kind == "text" else self.written(what)
        return text

    def included(self, what, place):
        if what not in self.files:
            raise RunFault("X11 NoSuchPage", place)
        self.kept.add(what)
        if self.fault(what):
            raise RunFault("X12 BadPage", place)
        try:
            return self.written(what)
        except RunFault as fault:
            raise RunFault(fault.args[0], place)

    def get(self, name):
        if name not in self.files:
            return plain("404 Not Found", "NotFound")
        if name not in PAGES:
            return whole(source(self.files[name], name)[0], PLAIN)
        self.kept.add(name)
        if fault := self.fault(name):
            return plain(FAULT, fault)
        try:
            return whole(self.written(name))
        except RunFault as fault:
            return plain(FAULT, " ".join(fault.args))

    def edit(self, name, items):
        self.draft.append((name, items))
        return whole(f"draft {len(self.draft)}\n", PLAIN)

    def publish(self, base):
        if base not in (None, self.version):
            return plain("409 Conflict", f"Stale {self.version}")
        files, changed = dict(self.files), set()
        for name, items in self.draft:
            if items is not None:
                files[name] = items
                changed.add(name)
            elif files.pop(name, None) is not None or name in self.files:
                changed.add(name)
        dirty = sorted(page for page in self.kept if self.needs(page) & changed)
        self.kept -= set(dirty)
        self.files, self.draft, self.version = files, [], self.version + 1
        return whole("".join(f"{line}\n" for line in (f"version {self.version}", *dirty)), PLAIN)


def some_message(random_, site):
    """A message, and the answer that is due."""
    chance = random_.random()
    name = random_.choice(PAGES + PARTS)
    if chance < 0.3:
        items = some_items(random_, name)
        return put(name, source(items, name)[0]), site.edit(name, items)
    if chance < 0.38:
        return message("DELETE", "/_editor/files" + name), site.edit(name, None)
    if chance < 0.5:
        base = random_.choice([None, None, site.version, site.version + 1, max(site.version - 1, 0)])
        return publish("" if base is None else f"?base={base}"), site.publish(base)
    return get(name), site.get(name)
