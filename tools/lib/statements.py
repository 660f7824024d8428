"""The contracts of public calls, as definitions that name others."""
import os
import re

import crates
import definitions


def contracts(crate, call):
    """The contracts of the public functions of this name, in a crate or in all."""
    found = []
    for name in [crate] if crate else crates.names():
        for path in crates.files(name, "src", "rt"):
            with open(path) as source:
                lines = source.read().split("\n")
            for number, line in enumerate(lines):
                if re.match(rf"\s*pub (const )?fn {call}\b", line):
                    found.append(contract(name, path, lines, number, call))
    return found


def contract(crate, path, lines, number, call):
    """The head and the clauses of a function as a definition."""
    indent = re.match(r" *", lines[number])[0]
    stop = number
    while lines[stop] != f"{indent}{{" and not re.search(r"[^{] \{$|;$|\{\}$", lines[stop]):
        stop += 1
    text = [line for line in lines[number : stop + 1] if line.strip() not in ("", "{") and not line.strip().startswith("//")]
    file = definitions.SpecFile(os.path.relpath(path, crates.TOP), crate, {}, {}, {}, [])
    definitions.put_uses(file, lines, True)
    file.rust = definitions.rust_uses(crate, lines)
    clauses = next((at for at, line in enumerate(text) if re.match(r"\s*(requires|ensures)\b", line)), len(text))
    words = {part for line in text[clauses:] for part in definitions.WORDS.findall(line)}
    words |= {word for line in text[:clauses] for word in definitions.WORDS.findall(line) if is_trait(file, word)}
    return definitions.Definition(crate, file.path, call, number + 1, len(text), words, file)


def is_trait(file, word):
    """Whether a word of a function's head is a trait of this repository."""
    crate = file.rust.get(word, file.crate)
    items = definitions.rust_items(crate).get(word, []) if crate in crates.names() else []
    return any(item.is_trait for item in items)
