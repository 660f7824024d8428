"""A model of expressions, written from docs/LANGUAGE.md alone: tokens, the grammar, values, operators and functions.

A value is None, a bool, an int, a str, a list or a dict. A tree is a tuple whose first item names its form."""
import re

LEAST, SPAN = -(2**63), 2**64
RESERVED = {"and", "or", "not", "eq", "ne", "lt", "gt", "le", "ge", "true", "false", "null", "instanceof", "empty", "div", "mod"}
MARKS = ["+=", "->", "==", "!=", "<=", ">=", "&&", "||", *"()[]{}.,:?+-*/%=!<>;"]
DECIMAL = re.compile(r"\d+\.\d*([eE][+-]?\d+)?|\.\d+([eE][+-]?\d+)?|\d+[eE][+-]?\d+", re.ASCII)
WHOLE, NAME = re.compile(r"\d+", re.ASCII), re.compile(r"[A-Za-z_$][A-Za-z0-9_$]*")
STRING = re.compile(r"'((?:[^'\\]|\\[\\'\"])*)'|\"((?:[^\"\\]|\\[\\'\"])*)\"", re.DOTALL)
NUMBER_OF = {"contains": 2, "containsIgnoreCase": 2, "endsWith": 2, "startsWith": 2, "escapeXml": 1, "indexOf": 2, "join": 2, "length": 1}
NUMBER_OF |= {"replace": 3, "split": 2, "substring": 3, "substringAfter": 2, "substringBefore": 2, "toLowerCase": 1, "toUpperCase": 1, "trim": 1}
# From the loosest level to the tightest.
LEVELS = (
    {"||": "or", "or": "or"},
    {"&&": "and", "and": "and"},
    {"==": "==", "eq": "==", "!=": "!=", "ne": "!="},
    {"<": "<", "lt": "<", ">": ">", "gt": ">", "<=": "<=", "le": "<=", ">=": ">=", "ge": ">="},
    {"+=": "+="},
    {"+": "+", "-": "-"},
    {"*": "*", "%": "%", "mod": "%"},
)


class Fault(Exception):
    """A fault of a text, E15 to E19, or of an evaluation, X1 to X16."""


def wrapped(whole):
    return (whole - LEAST) % SPAN + LEAST


def next_token(text, at):
    """The kind, the value and the end of the token at a place."""
    if match := DECIMAL.match(text, at):
        return "decimal", None, match.end()
    if match := WHOLE.match(text, at):
        if int(match[0]) >= 2**63:
            raise Fault("E15")
        return "literal", int(match[0]), match.end()
    if match := STRING.match(text, at):
        return "literal", re.sub(r"\\(.)", r"\1", match[1] or match[2] or "", flags=re.DOTALL), match.end()
    if match := NAME.match(text, at):
        return "word" if match[0] in RESERVED else "name", match[0], match.end()
    for mark in MARKS:
        if text.startswith(mark, at):
            return "word", mark, at + len(mark)
    raise Fault("E15")


def tokens(text):
    """The tokens of a text, as kinds with values."""
    found, at = [], 0
    while at < len(text):
        if text[at] in " \t\r\n":
            at += 1
            continue
        kind, value, at = next_token(text, at)
        is_number = kind == "decimal" or kind == "literal" and isinstance(value, int)
        if is_number and re.match(r"[A-Za-z0-9_$]", text[at:]):
            raise Fault("E15")
        found.append((kind, value))
    return found


class Parser:
    """Reads tokens from the left."""

    def __init__(self, found):
        self.found, self.at = found, 0

    def take(self, *words):
        """The next token, where it is one of these words."""
        if self.at < len(self.found):
            kind, value = self.found[self.at]
            if kind == "word" and value in words:
                self.at += 1
                return value
        return None

    def need(self, word):
        if not self.take(word):
            raise Fault("E15")

    def take_kind(self, kind):
        """The value of the next token, which has to be of this kind."""
        if self.at == len(self.found) or self.found[self.at][0] != kind:
            raise Fault("E15")
        self.at += 1
        return self.found[self.at - 1][1]

    def whole(self):
        tree = self.choice()
        if self.at < len(self.found):
            raise Fault("E15")
        return tree

    def choice(self):
        tree = self.level(0)
        if not self.take("?"):
            return tree
        one = self.choice()
        self.need(":")
        return "choice", tree, one, self.choice()

    def level(self, depth):
        if depth == len(LEVELS):
            return self.unary()
        tree = self.level(depth + 1)
        while word := self.take(*LEVELS[depth]):
            tree = "binary", LEVELS[depth][word], tree, self.level(depth + 1)
        return tree

    def unary(self):
        if word := self.take("-", "not", "!", "empty"):
            return "unary", "not" if word == "!" else word, self.unary()
        return self.followed()

    def followed(self):
        tree = self.primary()
        while True:
            if self.take("."):
                tree = "index", tree, ("literal", self.take_kind("name"))
            elif self.take("["):
                tree = "index", tree, self.choice()
                self.need("]")
            else:
                return tree

    def listed(self, end, item):
        items = []
        if self.take(end):
            return items
        while True:
            items.append(item())
            if self.take(end):
                return items
            self.need(",")

    def entry(self):
        key = self.choice()
        self.need(":")
        return key, self.choice()

    def primary(self):
        kind, value = self.found[self.at] if self.at < len(self.found) else (None, None)
        following = self.found[self.at + 1 : self.at + 4]
        kinds = [kind for kind, _ in following]
        if kind == "name" and kinds == ["word", "name", "word"] and (following[0][1], following[2][1]) == (":", "("):
            self.at += 4
            return "call", value, following[1][1], self.listed(")", self.choice)
        if kind in ("name", "literal"):
            self.at += 1
            return kind, value
        for word, literal in (("true", True), ("false", False), ("null", None)):
            if self.take(word):
                return "literal", literal
        if self.take("("):
            tree = self.choice()
            self.need(")")
            return tree
        if self.take("["):
            return "list", self.listed("]", self.choice)
        self.need("{")
        return "map", self.listed("}", self.entry)


def calls(tree):
    """The calls in a tree."""
    if isinstance(tree, tuple) and tree[:1] == ("call",):
        yield tree
    if isinstance(tree, (tuple, list)):
        for part in tree:
            yield from calls(part)


def read(text):
    """The tree that a text is, or its first fault."""
    found = tokens(text)
    words = {value for kind, value in found if kind == "word"}
    if words & {"/", "div"} or any(kind == "decimal" for kind, _ in found):
        raise Fault("E18")
    if words & {"instanceof", "->", "=", ";"}:
        raise Fault("E19")
    for at, (kind, _) in enumerate(found):
        is_called = kind == "name" and found[at + 1 : at + 2] == [("word", "(")]
        if is_called and not (at >= 2 and found[at - 1] == ("word", ":") and found[at - 2][0] == "name"):
            raise Fault("E19")
    tree = Parser(found).whole()
    for _, prefix, name, arguments in calls(tree):
        if prefix != "fn" or NUMBER_OF.get(name) != len(arguments):
            raise Fault("E17")
    return tree


def kind_of(value):
    if value is None:
        return "null"
    names = {bool: "truth", int: "number", str: "text", list: "list", dict: "record"}
    return names[type(value)]


def is_same(one, other):
    """Whether two values are of the same kind and content."""
    if kind_of(one) != kind_of(other):
        return False
    if isinstance(one, list):
        return len(one) == len(other) and all(map(is_same, one, other))
    if isinstance(one, dict):
        return one.keys() == other.keys() and all(is_same(one[key], other[key]) for key in one)
    return one == other


def to_text(value, of_null=""):
    if value is None:
        return of_null
    if isinstance(value, bool):
        return "true" if value else "false"
    if isinstance(value, list):
        return "[" + ", ".join(to_text(item, "null") for item in value) + "]"
    if isinstance(value, dict):
        keys = sorted(value, key=str.encode)
        return "{" + ", ".join(f"{key}={to_text(value[key], 'null')}" for key in keys) + "}"
    return str(value)


def to_truth(value):
    if value is None or isinstance(value, bool):
        return bool(value)
    if isinstance(value, str):
        return value.isascii() and value.lower() == "true"
    raise Fault("X2")


def to_number(value):
    if value is None or value == "":
        return 0
    if kind_of(value) == "number":
        return value
    if isinstance(value, str):
        if re.fullmatch(r"[+-]?\d+", value, re.ASCII):
            if LEAST <= int(value) < -LEAST:
                return int(value)
        elif re.fullmatch(r"[+-]?(\d+(\.\d*)?|\.\d+)([eE][+-]?\d+)?", value, re.ASCII):
            raise Fault("X4")
    raise Fault("X1")


def remainder(one, other):
    if one is None and other is None:
        return 0
    left, right = to_number(one), to_number(other)
    if right == 0:
        raise Fault("X3")
    rest = abs(left) % abs(right)
    return -rest if left < 0 else rest


def order(operator, one, other):
    if is_same(one, other):
        return operator in ("<=", ">=")
    if one is None or other is None:
        return False
    kinds = {kind_of(one), kind_of(other)}
    if not kinds & {"number", "text"}:
        raise Fault("X16")
    left, right = (to_number(one), to_number(other)) if "number" in kinds else (to_text(one), to_text(other))
    return left < right if operator in ("<", "<=") else left > right


def is_equal(one, other):
    if one is None or other is None:
        return one is other
    kinds = {kind_of(one), kind_of(other)}
    if "number" in kinds:
        return to_number(one) == to_number(other)
    if "truth" in kinds:
        return to_truth(one) == to_truth(other)
    if "text" in kinds:
        return to_text(one) == to_text(other)
    return is_same(one, other)


def binary(operator, one, other):
    if operator == "+=":
        return to_text(one) + to_text(other)
    if operator == "%":
        return remainder(one, other)
    if operator in ("==", "!="):
        return is_equal(one, other) == (operator == "==")
    if operator in ("<", ">", "<=", ">="):
        return order(operator, one, other)
    left, right = to_number(one), to_number(other)
    return wrapped({"+": left + right, "-": left - right, "*": left * right}[operator])


def index(one, other):
    if one is None or other is None:
        return None
    if isinstance(one, dict):
        return one.get(to_text(other))
    if not isinstance(one, list):
        raise Fault("X5")
    place = to_number(other)
    return one[place] if 0 <= place < len(one) else None


def ascii_case(text, change, letters):
    return "".join(change(letter) if letter in letters else letter for letter in text)


def lower(text):
    return ascii_case(text, str.lower, "ABCDEFGHIJKLMNOPQRSTUVWXYZ")


def upper(text):
    return ascii_case(text, str.upper, "abcdefghijklmnopqrstuvwxyz")


def escaped(text):
    for sign, reference in (("&", "&amp;"), ("<", "&lt;"), (">", "&gt;"), ("'", "&#039;"), ('"', "&#034;")):
        text = text.replace(sign, reference)
    return text


def split(text, delimiters):
    if not text or not delimiters:
        return [text]
    for delimiter in delimiters[1:]:
        text = text.replace(delimiter, delimiters[0])
    return [part for part in text.split(delimiters[0]) if part]


def substring(text, begin, end):
    begin = max(begin, 0)
    return text[begin : len(text) if end < 0 else max(begin, end)]


def call(name, values):
    if name == "length":
        value = values[0]
        return 0 if value is None else len(value if isinstance(value, (str, list, dict)) else to_text(value))
    if name == "join":
        delimiter = to_text(values[1])
        return delimiter.join(map(to_text, values[0])) if isinstance(values[0], list) else to_text(values[0])
    if name == "substring":
        return substring(to_text(values[0]), to_number(values[1]), to_number(values[2]))
    text, second, third = (*map(to_text, values), "", "")[:3]
    return {
        "contains": lambda: second in text,
        "containsIgnoreCase": lambda: lower(second) in lower(text),
        "startsWith": lambda: text.startswith(second),
        "endsWith": lambda: text.endswith(second),
        "escapeXml": lambda: escaped(text),
        "indexOf": lambda: text.find(second),
        "replace": lambda: text.replace(second, third) if second else text,
        "split": lambda: split(text, second),
        "substringAfter": lambda: text.partition(second)[2] if second else text,
        "substringBefore": lambda: text.partition(second)[0] if second and second in text else "",
        "toLowerCase": lambda: lower(text),
        "toUpperCase": lambda: upper(text),
        "trim": lambda: text.strip("".join(map(chr, range(33)))),
    }[name]()


def evaluate(tree, names):
    """The value of a tree, by the variables that have a value, or its first fault."""
    form, *parts = tree
    if form == "literal":
        return parts[0]
    if form == "name":
        return names.get(parts[0])
    if form == "choice":
        return evaluate(parts[1] if to_truth(evaluate(parts[0], names)) else parts[2], names)
    if form == "unary":
        value = evaluate(parts[1], names)
        if parts[0] == "-":
            return wrapped(-to_number(value))
        return not to_truth(value) if parts[0] == "not" else value is None or value in ("", [], {})
    if form == "binary" and parts[0] in ("and", "or"):
        left = to_truth(evaluate(parts[1], names))
        return left if left == (parts[0] == "or") else to_truth(evaluate(parts[2], names))
    if form == "binary":
        return binary(parts[0], evaluate(parts[1], names), evaluate(parts[2], names))
    if form == "index":
        return index(evaluate(parts[0], names), evaluate(parts[1], names))
    if form == "list":
        return [evaluate(item, names) for item in parts[0]]
    if form == "map":
        return {to_text(evaluate(key, names)): evaluate(value, names) for key, value in parts[0]}
    return call(parts[1], [evaluate(argument, names) for argument in parts[2]])
