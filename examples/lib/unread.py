"""Which tag files no page of a folder uses: their faults show nowhere."""

from messages import Ended, path_of
from program import OwnSite
from publishing import Edit, NotPublished, Unanswered, drafts_of, make_draft, publish_draft, puts_of

# What changes the text of a file and nothing of its meaning.
ADDED = b"<%-- --%>"
# A page that needs what another needs, and runs nothing of it.
PROBE = (
    '<%@ taglib prefix="unread-probe" uri="jakarta.tags.core" %>'
    '<unread-probe:if test="false"><%@ include file="/NAME" %></unread-probe:if>'
)


def probe_of(page):
    name = "".join("\\" + it if it in "\"$#" else it for it in page)
    return PROBE.replace("NAME", name).encode()


def are_asked(site, probes):
    """Asks for these pages: a publishing lists those that were asked for and need what it changes."""
    for path in probes:
        site.ask("GET", path)


def needing(site, name, text):
    """The pages that need this file, among those that are kept; they are kept no longer."""
    make_draft(site, [Edit(name, text)])
    return publish_draft(site)[1]


def without_used(site, rest, waiting):
    """One round: asks for the pages that aren't kept, and changes each of these tag files alone.
    Gives those that changed no page, with their texts, and the pages that aren't kept any more."""
    are_asked(site, waiting)
    unused, listed = {}, set()
    for name, text in rest.items():
        pages = needing(site, name, text + ADDED)
        listed.update(pages)
        if not pages:
            unused[name] = text + ADDED
    return unused, listed


def unread_tag_files(folder, program):
    """The tag files that change no page when they are changed; none where that can't be tried. A
    page that one of them has changed isn't kept, so rounds go on until one changes no page."""
    probes = {f"unread-probes/{number}.jsp": probe_of(page) for number, page in enumerate(folder.pages())}
    rest = {name: folder.files[name] for name in folder.tag_files()}
    if not rest:
        return []
    try:
        with OwnSite(program) as site:
            for draft in drafts_of(puts_of({**folder.files, **probes})):
                make_draft(site, draft)
                publish_draft(site)
            waiting = {path_of(name) for name in probes}
            while rest and waiting:
                rest, waiting = without_used(site, rest, waiting)
    except (Ended, NotPublished, Unanswered):
        return []
    return sorted(rest)
