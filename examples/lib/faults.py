"""Faults of pages: how an answer tells one, and how it is shown to who wrote the page."""

import json
import os
import re
from dataclasses import dataclass

from program import TOP

TOLD = re.compile(r"E(\d+) (\w+) /(.*):(\d+):(\d+)\n?", re.DOTALL)
# The translation refuses a page of a site by one of these.
NUMBERS = range(2, 22)
BEAN = re.compile(r"<jsp:useBean\b[^>]*?\bclass\s*=\s*[\"']([^\"']*)[\"']", re.DOTALL)


@dataclass(frozen=True, order=True)
class Fault:
    """A fault of the translation at its place."""

    path: str
    line: int
    column: int
    number: int
    name: str


def fault_of(answer):
    """The fault that this answer tells, or nothing: a run that lacks a parameter is no fault."""
    found = TOLD.fullmatch(answer.body.decode(errors="replace")) if answer.status == 500 else None
    if not found or int(found[1]) not in NUMBERS:
        return None
    return Fault(found[3], int(found[4]), int(found[5]), int(found[1]), found[2])


def sentences():
    """By each fault's number the sentence of docs/FAULTS.md, without the marks of its links."""
    found = {}
    try:
        with open(os.path.join(TOP, "docs", "FAULTS.md"), encoding="utf-8") as document:
            for line in document:
                cells = [it.strip() for it in line.split(" | ")]
                if re.match(r"\| E\d+$", cells[0]) and len(cells) > 2:
                    found[int(cells[0][3:])] = re.sub(r"\[([^\]]*)\]\([^)]*\)", r"\1", cells[2])
    except OSError:
        pass
    return found


def bean_of(text, fault):
    """What is to be said of the file of a bean, where a fault stands at one: it is the bean's."""
    lines = text.split("\n")[fault.line - 1 :]
    begun = "\n".join([lines[0][fault.column - 1 :], *lines[1:]]) if lines else ""
    found = BEAN.match(begun)
    return f"WEB-INF/beans/{found[1]}.json" if found else None


def wrong_json(text):
    try:
        json.loads(text)
    except ValueError as fault:
        return f": {fault}"
    return ""


def lines_of(fault, files, known):
    """The place, the sentence and the line of a fault, and of which file a bean is made."""
    sentence = known.get(fault.number, "docs/FAULTS.md says more")
    yield f"{fault.path}:{fault.line}:{fault.column}: E{fault.number} {fault.name}: {sentence}"
    text = files.get(fault.path, b"").decode()
    lines = text.split("\n")
    if text and fault.line <= len(lines):
        yield f"    {lines[fault.line - 1].rstrip()}"
    if bean := bean_of(text, fault):
        yield f"    the bean's file is {bean}{wrong_json(files[bean]) if bean in files else ''}"


def show_faults(faults, files):
    known = sentences()
    for fault in sorted(faults):
        print("\n".join(lines_of(fault, files, known)), flush=True)
