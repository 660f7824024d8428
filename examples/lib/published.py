"""What of a folder was published where: a list beside the folder, with an entry for each URL."""

import json
import os
from urllib.parse import urlsplit

from publishing import NotPublished


class NotKept(Exception):
    """The list couldn't be written, whether something was published or not."""


def place_of(url):
    """The URL without a user, a password and a slash at its end."""
    place = urlsplit(url)
    return f"{place.scheme}://{place.netloc.rpartition('@')[2]}{place.path.rstrip('/')}"


class Published:
    """The names of the files that a folder put there, and the last version that it published."""

    def __init__(self, folder, url):
        above, name = os.path.split(os.path.realpath(folder))
        self.path = os.path.join(above, f".{name}.published.json")
        self.place = place_of(url)
        entry = self.entries().get(self.place, {})
        self.names = set(entry.get("names", []))
        self.version = entry.get("version")

    def entries(self):
        try:
            with open(self.path, encoding="utf-8") as file:
                return json.load(file)
        except FileNotFoundError:
            return {}
        except ValueError as fault:
            raise NotPublished(f"{self.path} is no list of what was published: {fault}") from fault

    def keep(self, perhaps=()):
        """Writes the entry into the list, which is whole at each moment, with names of files that
        are perhaps there."""
        entries = self.entries()
        entries[self.place] = {"version": self.version, "names": sorted(self.names.union(perhaps))}
        try:
            with open(self.path + ".tmp", "w", encoding="utf-8") as file:
                json.dump(entries, file, indent=1, ensure_ascii=False)
                file.write("\n")
            os.replace(self.path + ".tmp", self.path)
        except OSError as fault:
            raise NotKept(f"the list of what is published can't be written: {fault}") from fault

    def has(self, draft, version):
        """Notes that a draft was published as this version."""
        self.names.update(edit.name for edit in draft if edit.text is not None)
        self.names.difference_update(edit.name for edit in draft if edit.text is None)
        self.version = version
        self.keep()
