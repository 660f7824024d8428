"""The words that `check`, `publish` and `watch` take."""

import argparse

HERE = "http://127.0.0.1:8081"


def reader_of(description):
    reader = argparse.ArgumentParser(description=description, allow_abbrev=False)
    reader.add_argument("folder", metavar="FOLDER")
    reader.add_argument("--pages", metavar="PATH", help="the program `pages`, which looks for faults")
    return reader


def words_of_check(description):
    return reader_of(description).parse_args()


def words_of_publishing(description):
    """The words of what publishes."""
    reader = reader_of(description)
    # Without a default here argparse says that a URL is required.
    reader.add_argument("urls", metavar="URL", nargs="*", default=[], help=f"an editors' port; {HERE} if none is given")
    reader.add_argument("--anyway", action="store_true", help="publish with faults, and over what others published")
    reader.add_argument("--drafts", metavar="URL", help="the port of drafts, to look for faults there")
    reader.add_argument("--trust", metavar="FILE", help="the certificate to trust at an https URL")
    reader.add_argument("--key", metavar="FILE", help="the editor's key and certificate, to show at an https URL")
    reader.add_argument("--password", metavar="FILE", help="a file with the key's password; else it is asked for")
    words = reader.parse_intermixed_args()
    words.urls = words.urls or [HERE]
    return words
