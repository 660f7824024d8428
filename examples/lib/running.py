"""What `check`, `publish` and `watch` do with a folder: they look for faults and publish it."""

import sys

from look import Look, NoLook, look_by_drafts, look_by_program
from messages import Connection, Secrets
from program import NoProgram, find_program
from published import NotKept, Published
from publishing import (
    NotPublished,
    Stale,
    Unanswered,
    advice,
    deletes_of,
    drafts_of,
    make_draft,
    publish_draft,
    puts_of,
)
from site_folder import read_folder
from unread import unread_tag_files

DONE, FAULTS, NOT_PUBLISHED, NOT_LOOKED = 0, 1, 2, 2


def say(text):
    print(text, file=sys.stderr, flush=True)


def connection(url, words):
    """A connection to this URL; why there is none is why nothing is published."""
    try:
        return Connection(url, Secrets(words.trust, words.key, words.password))
    except (OSError, ValueError) as fault:
        raise NotPublished(f"there is no connection: {fault}") from fault


def edits_at(folder, published):
    """What puts the folder's files there, and deletes those that it put before and has no more."""
    return puts_of(folder.files) + deletes_of(published.names - set(folder.files))


def unread_if_found(folder, program):
    """The tag files that no page uses, where the program is there that finds them."""
    try:
        return unread_tag_files(folder, find_program(program))
    except (NoProgram, OSError):
        return []


def look_at(folder, words):
    """A look for faults: over the port of drafts where one is given and the folder fits into one
    draft, else over the program. Without a page there is nothing to ask for."""
    if not folder.pages():
        return Look(unread=folder.tag_files())
    if drafts := getattr(words, "drafts", None):
        edits = edits_at(folder, Published(folder.path, words.urls[0]))
        if len(drafts_of(edits)) == 1:
            look = look_by_drafts(folder, edits, lambda: connection(drafts, words))
            look.unread = unread_if_found(folder, words.pages)
            return look
        print("no draft takes the whole folder, so `pages play` looks for faults")
    return look_by_program(folder, find_program(words.pages))


def has_faults(folder, words):
    """Looks at a folder and tells what it found: whether there are faults, or None where the look
    couldn't be had."""
    folder.tell_left_out()
    try:
        look = look_at(folder, words)
    except (NoLook, NoProgram, NotPublished) as fault:
        say(f"nobody looked for faults: {fault}")
        return None
    look.tell(folder.files)
    return bool(look.faults)


def folder_of(path):
    """The folder as it is now, or None where it can't be read."""
    try:
        return read_folder(path)
    except OSError as fault:
        say(f"the folder can't be read: {fault}")
        return None


def new_version(site, base):
    """Publishes the draft for this base. Where a site has no version yet, it was started anew, and
    nobody's files are lost there."""
    try:
        return publish_draft(site, base)
    except Stale as fault:
        if fault.latest > 0:
            raise NotPublished(advice(fault.latest, base)) from fault
        print("the server was started anew and had no file")
        return publish_draft(site, 0)


def publish_one(site, draft, published, base):
    """Publishes a draft for this base, and gives the pages that are made anew. What is perhaps there
    stays known, even if this run is killed."""
    make_draft(site, draft)
    published.keep(perhaps=[edit.name for edit in draft])
    try:
        version, pages = new_version(site, base)
    except NotPublished:
        published.keep()
        raise
    published.has(draft, version)
    return pages


def publish_at(folder, url, words):
    """Publishes the folder there, one draft after the other, each for the version of the one
    before."""
    published = Published(folder.path, url)
    # A list that can't be written is noticed before anything is published.
    published.keep()
    drafts = drafts_of(edits_at(folder, published))
    if len(drafts) > 1:
        print(f"{url}: in {len(drafts)} publishings, since a draft takes 1,024 edits and 16 MiB", flush=True)
    base = None if words.anyway else published.version
    with connection(url, words) as site:
        for number, draft in enumerate(drafts):
            try:
                pages = publish_one(site, draft, published, base)
            except NotPublished as fault:
                fault.stands = f" but the first {number} of {len(drafts)} publishings" if number else ""
                raise
            base = published.version
            print("\n".join([f"{url}: version {base}", *(f"    {it}" for it in pages)]), flush=True)


def is_published(folder, url, words):
    """Publishes the folder there, or says why it isn't published."""
    try:
        publish_at(folder, url, words)
    except Unanswered:
        say(f"{url}: the publishing had no answer, so it may be there or not: look, and run this again")
        return False
    except NotPublished as fault:
        say(f"{url}: nothing was published{fault.stands}: {fault}")
        return False
    except NotKept as fault:
        say(f"{url}: {fault}")
        return False
    return True


def look_and_publish(folder, words):
    """Looks for faults, publishes the folder at each URL, and gives the status."""
    faulty = has_faults(folder, words)
    if faulty is not False and not words.anyway:
        say("nothing was published; with --anyway it is published all the same")
        return FAULTS if faulty else NOT_PUBLISHED
    done = [is_published(folder, url, words) for url in words.urls]
    if not all(done):
        return NOT_PUBLISHED
    return FAULTS if faulty else DONE
