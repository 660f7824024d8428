"""Publishing the edits of a folder over one connection, draft by draft."""

from dataclasses import dataclass

from messages import Ended, target_of

# What a draft takes.
MOST_EDITS = 1_024
MOST_DRAFT_BYTES = 16_777_216
# A site that goes on from its journal is so many versions further.
VERSIONS_OF_RESUMING = 1 << 32


class NotPublished(Exception):
    """Why something wasn't published, and which publishings before it stand."""

    stands = ""


class Unanswered(Exception):
    """The publishing itself had no answer, so it may be there or not."""


class Stale(Exception):
    """Another version than the base is the latest."""

    def __init__(self, latest):
        super().__init__(f"version {latest} is the latest")
        self.latest = latest


@dataclass(frozen=True)
class Edit:
    """A file with its new text, or without one where it is deleted."""

    name: str
    text: bytes | None

    def size(self):
        return len(self.text or b"")


def puts_of(files):
    return [Edit(name, text) for name, text in files.items()]


def deletes_of(names):
    return [Edit(name, None) for name in sorted(names)]


def drafts_of(edits):
    """The edits in their order, in as few drafts as take them."""
    drafts, size = [[]], 0
    for edit in edits:
        if len(drafts[-1]) == MOST_EDITS or size + edit.size() > MOST_DRAFT_BYTES:
            drafts.append([])
            size = 0
        drafts[-1].append(edit)
        size += edit.size()
    return drafts


def make_draft(site, edits):
    """Says these edits, and compares the number that each answer tells with what it must be."""
    for number, edit in enumerate(edits, 1):
        try:
            answer = site.ask("DELETE" if edit.text is None else "PUT", target_of(edit.name), edit.text)
        except Ended as fault:
            raise NotPublished(f"the connection ended after {number - 1} of {len(edits)} edits{why(fault)}") from fault
        if answer.status != 200:
            raise NotPublished(f"{edit.name} is refused: {answer.status} {answer.line()}{hint(answer)}")
        if answer.line() != f"draft {number}":
            raise NotPublished(f"the draft isn't whole: after {number} edits the server told `{answer.line()}`")


def hint(answer):
    """What to look at if an editor's message was answered as one of a reader."""
    if answer.status != 404:
        return ""
    return "; is that the editors' port, and the name of a site if the server has several?"


def why(fault):
    reason = f" ({fault})" if str(fault) else ""
    return f"{reason}; a server ends an editor who is silent, or who is in the way of a round's end"


def publish_draft(site, base=None):
    """Publishes the draft, for this base where one is given. Gives the version and the pages that
    are made anew."""
    words = "" if base is None else f"?base={base}"
    try:
        answer = site.ask("POST", "/_editor/publish" + words)
    except Ended as fault:
        raise Unanswered from fault
    words = answer.line().split()
    if answer.status == 409 and words[0] == "Stale":
        raise Stale(int(words[1]))
    if answer.status != 200 or words[0] != "version":
        raise NotPublished(f"the publishing is refused: {answer.status} {answer.line()}{hint(answer)}")
    return int(words[1]), answer.body.decode(errors="replace").split("\n")[1:-1]


def advice(latest, base):
    """What to do where the site has another latest version than the one that was published last."""
    again = "look at what is there, and run this again with --anyway, which puts this folder's files over it"
    if latest >= base + VERSIONS_OF_RESUMING:
        reason = "the site was started again from its journal since"
    elif latest < base:
        reason = "the server was started anew since, without what was published"
    else:
        reason = "somebody else published since"
    return f"Stale: its version is {latest}, and this folder's was {base}: {reason}; {again}"
