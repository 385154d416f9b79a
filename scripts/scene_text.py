"""A small reader of scenes in the one spelling that the program writes."""
import re

TOKEN = re.compile(r'"((?:[^"\\]|\\.)*)"|#[^\n]*|([\[\]{}])|([^\s,\[\]{}"#]+)', re.S)
NUMERAL = re.compile(r"[+-]?(\.\d|\d).*")
ACCESS = {"inputOnly", "outputOnly", "inputOutput", "initializeOnly"}
PLAIN = {"TRUE": True, "FALSE": False, "NULL": None}


class Text(str):
    """A string of the scene, told from its words."""


class Node:
    """A node: its type, its DEF name or an empty one, and its fields by name."""

    def __init__(self, kind, name):
        self.kind, self.name, self.fields = kind, name, {}

    def get(self, field, default=None):
        return self.fields.get(field, default)

    def numbers(self, field, default):
        """A field's numbers, or the default where the field isn't written."""
        value = self.fields.get(field, default)
        return list(value) if isinstance(value, (list, tuple)) else [value]

    def nodes(self, field):
        """The nodes of a field of nodes, one or many."""
        value = self.fields.get(field)
        return [node for node in (value if isinstance(value, list) else [value]) if node]


def tokens(text):
    """Words, strings as Text, and brackets; comments are left out."""
    for found in TOKEN.finditer(text):
        if found[1] is not None:
            yield Text(re.sub(r'\\(["\\])', r"\1", found[1]))
        elif found[2] or found[3]:
            yield found[2] or found[3]


class Reader:
    """Reads statements; `at` is the next token."""

    def __init__(self, text):
        self.tokens, self.at, self.named = [*tokens(text)], 0, {}

    def peek(self, ahead=0):
        place = self.at + ahead
        return self.tokens[place] if place < len(self.tokens) else None

    def next(self):
        self.at += 1
        return self.tokens[self.at - 1]

    def skip_body(self):
        """Skips what stands between brackets, which begins here."""
        depth = 0
        while True:
            depth += {"{": 1, "[": 1, "}": -1, "]": -1}.get(self.next(), 0)
            if not depth:
                return

    def statements(self):
        """The nodes of a scene's text in order; prototypes and routes are left out."""
        roots = []
        while (word := self.peek()) is not None:
            if word == "PROTO":
                self.at += 2
                self.skip_body()
                self.skip_body()
            elif word in ("ROUTE", "META"):
                self.at += 4 if word == "ROUTE" else 3
            elif word in ("PROFILE", "COMPONENT"):
                self.at += 2
            else:
                roots.append(self.node())
        return roots

    def node(self):
        word, name = self.next(), ""
        if word == "USE":
            return self.named.get(self.next())
        if word == "DEF":
            name, word = self.next(), self.next()
        node = Node(word, name)
        self.next()
        while self.peek() != "}":
            self.field(node)
        self.next()
        if name:
            self.named[name] = node
        return node

    def field(self, node):
        word = self.next()
        if word == "ROUTE":
            self.at += 3
        elif word in ACCESS:
            self.next()
            name = self.next()
            if word in ("inputOutput", "initializeOnly"):
                node.fields[name] = self.value()
        else:
            node.fields[word] = self.value()

    def starts_node(self):
        word = self.peek()
        return word in ("DEF", "USE") or (self.peek(1) == "{" and word not in "{}[]")

    def value(self):
        """A list, a node, or as many numbers as stand there; one alone is no list."""
        word = self.peek()
        if word == "[":
            return self.items()
        if word == "IS":
            self.at += 2
            return None
        if self.starts_node():
            return self.node()
        if isinstance(word, Text) or word in PLAIN:
            return self.item()
        numbers = []
        while NUMERAL.match(self.peek() or "") and not isinstance(self.peek(), Text):
            numbers.append(self.item())
        return numbers[0] if len(numbers) == 1 else numbers

    def items(self):
        self.next()
        found = []
        while self.peek() != "]":
            found.append(self.node() if self.starts_node() else self.item())
        self.next()
        return found

    def item(self):
        word = self.next()
        if isinstance(word, Text):
            return word
        return PLAIN[word] if word in PLAIN else number(word)


def number(word):
    return float(int(word, 16)) if "x" in word.lower() else float(word)


def read_scene(text):
    """The roots of a scene."""
    return Reader(text).statements()
