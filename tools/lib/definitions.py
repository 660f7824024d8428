"""The definitions in the specs/ of crates, and the types in their src/: where each stands, how long it is, and which others it names.

A name that is bound within a definition counts like the definition of that name beside it, so what is reached is never too little."""
import dataclasses
import functools
import os
import re

import crates

NAME = r"[A-Za-z_][\w?']*"
OPERATOR = r"◌[^\s\w◌]+◌"
ITEM = re.compile(rf"^(\s*)(?:(?:abbrev|unfoldable|opaque)\s+(?:pub\s+)?|pub\s+)?(?:(record|data)\s+)?({NAME}|{OPERATOR})(?:\s[^:]*)?\s:\s")
START = re.compile(r"^\s*(abbrev|unfoldable|opaque|record|data|pub)\b")
RUST_ITEM = re.compile(rf"^\s*(?:pub(?:\([a-z]+\))? )?(struct|enum|trait|const|type|ghost) ({NAME})")
WORDS = re.compile(rf"{NAME}(?:\.{NAME})*")


@dataclasses.dataclass(eq=False)
class Definition:
    """A definition, or a type of the program that definitions name."""

    crate: str
    path: str
    name: str
    line: int
    lines: int
    words: set
    file: object
    is_trait: bool = False


@dataclasses.dataclass(eq=False)
class SpecFile:
    """A file of definitions: what stands in it, and what each name that it uses stands for."""

    path: str
    crate: str
    own: dict
    names: dict
    aliases: dict
    shown: list


def code_of(line):
    """A line of definitions without its comment and its texts."""
    return re.sub(r'"[^"]*"', "", line).split("--")[0]


def operators_in(text):
    """The operators in a line, named as `use` lines name them."""
    return [f"◌{sign}◌" for sign in re.findall(r"(?<=\s)[^\s\w(){}\[\],.;:\"]+(?=\s)", text)]


def use_lines(lines, is_ghost):
    """The paths of the `use` lines, each with its names or its alias, and whether it is public."""
    for line in re.sub(r",\s*\n\s*", ", ", "\n".join(lines)).split("\n"):
        found = re.match(rf"\s*(pub )?{'ghost ' if is_ghost else ''}use Rattle\.([\w.]+?)(?:\.\{{(.*)\}})?(?: as (\w+))?;?$", line)
        if found:
            is_public, path, names, alias = found.groups()
            yield path.split("."), [part.strip() for part in names.split(", ")] if names else None, alias, bool(is_public)


def put_uses(file, lines, is_ghost):
    for path, names, alias, is_public in use_lines(lines, is_ghost):
        if path[0] not in crates.names():
            continue
        if is_public:
            file.shown.append((path, names))
        for name in names or []:
            word, _, other = name.partition(" as ")
            file.names.setdefault(other or word, []).append((path, word))
        if not names and alias:
            file.aliases[alias] = path


def parts(lines):
    """Where items begin: the numbers of lines, each with the item's name; a line that ends in `mutual` or begins a module begins none."""
    is_mutual, depth = False, 0
    for number, line in enumerate(lines):
        if re.match(r"^\s*(abbrev )?mutual$", line):
            is_mutual, depth = True, len(line) - len(line.lstrip()) + 2
            continue
        if line.strip() and not line.strip().startswith("--") and len(line) - len(line.lstrip()) < depth:
            is_mutual, depth = False, 0
        found = ITEM.match(code_of(line) + " ")
        if found and (START.match(line) or (is_mutual and len(found[1]) == depth)) and (len(found[1]) <= 2 or is_mutual):
            is_field = len(found[1]) > (depth if is_mutual else module_depth(lines, number))
            if not is_field:
                yield number, found[3]


def module_depth(lines, number):
    """How far the items around a line are indented: 2 in a module without a name, else 0."""
    for line in reversed(lines[:number]):
        if line.startswith("module "):
            return 2
        if re.match(r"^(abbrev|unfoldable|opaque|record|data|pub|use)\b", line):
            return 0
    return 0


@functools.lru_cache(maxsize=None)
def spec_file(crate, name):
    """The file of definitions of a crate, if there is one: `Step`, or `Inner.Step` in a folder."""
    path = f"crates/{crate}/specs/{name.replace('.', '/')}.antt"
    if not os.path.isfile(f"{crates.TOP}/{path}"):
        return None
    with open(f"{crates.TOP}/{path}") as source:
        lines = source.read().split("\n")
    file = SpecFile(path, crate, {}, {}, {}, [])
    put_uses(file, lines, False)
    found = list(parts(lines))
    for (number, word), (stop, _) in zip(found, [*found[1:], (len(lines), None)]):
        text = [line for line in lines[number:stop] if code_of(line).strip() and not line.startswith(("module ", "use "))]
        words = {part for line in text for part in WORDS.findall(code_of(line)) + operators_in(code_of(line))}
        definition = Definition(crate, path, word, number + 1, len(text), words, file)
        file.own.setdefault(word, definition)
        if re.match(r"^\s*(pub )?data\b", lines[number]) or re.search(r"\bdata\b", lines[number]):
            for line in text[1:]:
                case = re.match(rf"\s*({NAME}(?: {NAME})*)\s:", line)
                for each in case[1].split() if case else []:
                    file.own.setdefault(each, definition)
    return file


@functools.lru_cache(maxsize=None)
def rust_items(crate):
    """The types, traits and constants in the src/ of a crate, by name."""
    items = {}
    for path in crates.files(crate, "src", "rt"):
        with open(path) as source:
            lines = source.read().split("\n")
        file = SpecFile(os.path.relpath(path, crates.TOP), crate, {}, {}, {}, [])
        put_uses(file, lines, True)
        file.rust = rust_uses(crate, lines)
        for number, line in enumerate(lines):
            found = RUST_ITEM.match(line)
            if found and found[1] != "ghost":
                block = block_of(lines, number)
                block += model_of(lines, found[2])
                words = {part for each in block for part in WORDS.findall(re.sub(r"//.*", "", each))}
                items.setdefault(found[2], []).append(Definition(crate, file.path, found[2], number + 1, len(block), words, file, found[1] == "trait"))
    return items


def rust_uses(crate, lines):
    """The names that `use` lines of code bring, each with the crate that has it."""
    names = {}
    for line in re.sub(r",?\n\s+", " ", "\n".join(lines)).split(";"):
        found = re.search(r"(?:^|\n)(?:pub )?use (\w+)::(.*)$", line.strip(), re.S)
        if found:
            for word in re.findall(r"\w+", found[2]):
                names[word] = crate if found[1] in ("crate", "self", "super") else found[1]
    return names


def block_of(lines, number):
    """An item of code from its first line on: to the `;` or the brace that ends it, without comments and blank lines."""
    indent = len(lines[number]) - len(lines[number].lstrip())
    stop = number
    while not (lines[stop].rstrip().endswith((";", "}")) and len(lines[stop]) - len(lines[stop].lstrip()) == indent):
        stop += 1
        if stop == len(lines) - 1:
            break
    return [line for line in lines[number : stop + 1] if line.strip() and not line.strip().startswith("//")]


def model_of(lines, name):
    """What contracts see of a type: the body of its `impl Model for`."""
    for number, line in enumerate(lines):
        if re.match(rf"impl(<.*>)? Model for {name}\b", line):
            return block_of(lines, number)
    return []


def found_at(path, word, seen=()):
    """The definitions for which a word stands under a path of a `use` line."""
    crate, rest = path[0], path[2:]
    if rest and rest[0] == "declared":
        named = [part for part in [*rest[1:], word] if part in rust_items(crate)]
        return rust_items(crate)[named[0]] if named else []
    file = spec_file(crate, ".".join(rest) or "Lib")
    if file and word in file.own:
        return [file.own[word]]
    shown = (file.shown if file else []) + lib_shown(crate)
    found = []
    for other, names in shown:
        if (tuple(other), word) not in seen and (names is None or word in names):
            found += found_at(other, word, (*seen, (tuple(other), word)))
    return found[:1]


def lib_shown(crate):
    file = spec_file(crate, "Lib")
    return file.shown if file else []


def named_by(definition):
    """The definitions that a definition names."""
    found = []
    file = definition.file
    for word in definition.words:
        first, _, rest = word.partition(".")
        if first in file.own:
            found.append(file.own[first])
        elif first in file.aliases:
            path = file.aliases[first]
            found += found_at(path, rest.split(".")[0] if rest else "")
        elif first in file.names:
            for path, name in file.names[first]:
                found += found_at(path, name)
        elif hasattr(file, "rust"):
            items = rust_items(file.rust[first]) if file.rust.get(first) in crates.names() else rust_items(file.crate)
            found += items.get(first, [])
    return found


def reached(first):
    """All definitions that those in a list reach, themselves included."""
    known, waiting = set(), list(first)
    while waiting:
        definition = waiting.pop()
        if definition not in known:
            known.add(definition)
            waiting += named_by(definition)
    return known
