"""What documents have: headings, tables, fenced blocks."""
import dataclasses
import functools
import re


@dataclasses.dataclass
class Block:
    """A fenced block: the words behind its fence, its text, and the line of its fence."""

    words: list
    text: str
    line: int


@functools.lru_cache(maxsize=None)
def read(path):
    with open(path, encoding="utf-8") as file:
        return file.read()


def headings(document):
    """The headings as links name them."""
    return {re.sub(r"[^\w -]", "", line).strip().lower().replace(" ", "-") for line in re.findall(r"^#+ (.*)$", document, re.M)}


def section(document, heading):
    """The part of a document under a heading of the second level, if it has one."""
    start = document.find(f"\n## {heading}\n")
    stop = document.find("\n## ", start + 1)
    return "" if start < 0 else document[start : stop if stop >= 0 else len(document)]


def rows(part):
    """The cells of the rows of tables, without the head of a table."""
    is_head = True
    for line in part.split("\n"):
        if not line.startswith("|"):
            is_head = True
        elif line.startswith("|---"):
            is_head = False
        elif not is_head:
            yield [cell.strip() for cell in re.split(r"(?<!\\)\|", line)[1:-1]]


def blocks(document):
    """The fenced blocks in their order."""
    found = None
    for number, line in enumerate(document.split("\n"), 1):
        if line.startswith("```") and found is None:
            found = Block(line[3:].split(), "", number)
        elif line.startswith("```"):
            yield found
            found = None
        elif found is not None:
            found.text += line + "\n"
