"""A look for faults at all pages of a folder, on a site that no reader sees."""

from dataclasses import dataclass, field

from faults import fault_of, show_faults
from messages import Ended, path_of
from program import OwnSite
from publishing import NotPublished, Unanswered, drafts_of, make_draft, publish_draft, puts_of
from unread import unread_tag_files


class NoLook(Exception):
    """Why the look couldn't be had."""


@dataclass
class Look:
    """The faults of a folder's pages, and the tag files that none of them uses."""

    faults: set = field(default_factory=set)
    unread: list = field(default_factory=list)

    def tell(self, files):
        show_faults(self.faults, files)
        for name in self.unread:
            print(f"unread: {name}: no page of this folder uses it, so its faults don't show", flush=True)


def ask_pages(site, pages, look):
    """Asks for these pages and notes their faults. Gives those after a page whose run broke off,
    since that ends the connection; such a page isn't refused."""
    for number, page in enumerate(pages, 1):
        try:
            found = fault_of(site.ask("GET", path_of(page)))
        except Ended as fault:
            if not fault.has_begun:
                raise NoLook(f"no answer came for {page}") from fault
            return pages[number:]
        if found:
            look.faults.add(found)
    return []


def look_by_program(folder, program):
    """A look over `pages play`, with a site of its own."""
    look, left = Look(), folder.pages()
    try:
        while left:
            with OwnSite(program) as site:
                for draft in drafts_of(puts_of(folder.files)):
                    make_draft(site, draft)
                    publish_draft(site)
                left = ask_pages(site, left, look)
        look.unread = unread_tag_files(folder, program)
    except (NotPublished, Unanswered, OSError) as fault:
        raise NoLook(f"{program} can't play the folder: {fault}") from fault
    return look


def look_by_drafts(folder, edits, connect):
    """A look over the port of drafts, where these edits are shown as if they were published."""
    look, left = Look(), folder.pages()
    try:
        while left:
            with connect() as site:
                make_draft(site, edits)
                left = ask_pages(site, left, look)
    except (NotPublished, OSError) as fault:
        raise NoLook(f"the port of drafts doesn't show the folder: {fault}") from fault
    return look
