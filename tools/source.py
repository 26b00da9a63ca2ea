"""The files of a crate as they are written: what is declared where, with the places of signatures and clauses."""
import re
from pathlib import Path

from logic import imports_and_passed_on, items_of, module_of
from terms import partners, rust


class Specs:
    """A file of specs/: its definitions, and what the words mean that it imports and that it passes on."""

    def __init__(self, path, text):
        self.text = re.sub(r"(?<!\S)--(?!\S).*", "", text)
        self.module = module_of(Path(path))
        self.items = items_of(Path(path), self.text)
        imports, self.passed_on = imports_and_passed_on({Path(path): self.text})
        self.imports = imports[self.module]


class Source:
    """A file of src/: its tokens, and the items that are there."""

    def __init__(self, path, text):
        self.path, self.text = path, text
        self.crate = path.split("/")[1]
        inner = Path(path).relative_to(f"crates/{self.crate}/src").with_suffix("").parts
        self.module = () if inner in (("lib",), ("main",)) else inner
        placed = rust(text)
        self.tokens = [token for token, _, _ in placed]
        self.places = [(start, end) for _, start, end in placed]
        self.close = partners(self.tokens)
        self.found = Scan(self).items(0, len(self.tokens), self.module)

    def text_of(self, at, end):
        """The text from one token up to another one."""
        return self.text[self.places[at][0]:self.places[end - 1][1]] if at < end else ""

    def inside(self, at):
        """The text between two brackets."""
        return self.text[self.places[at][1]:self.places[self.close[at]][0]]


class Found:
    """An item of a source: its word, as `fn`, its name, its module, whether it is `pub`, and its attributes; the places where it
    begins, where its name is, where its head ends, and where its braces open; its clauses, each with its label and the place of
    its bracket; and the items within it."""

    def __init__(self, module, at, attributes):
        self.module, self.at, self.attributes = module, at, attributes
        self.word, self.name, self.is_public, self.named, self.head, self.inner = "", "", False, at, at, None
        self.clauses, self.found = [], []


def split(tokens, close, at, end, sign=","):
    """The parts from here to the end between signs that are in no bracket, those of generics included."""
    depth, start, parts = 0, at, []
    while at < end:
        token = tokens[at]
        depth += (token == "<") - (token == ">")
        if token == sign and depth <= 0:
            parts.append((start, at))
            start = at + 1
        at = close[at] + 1 if at in close else at + 1
    return [(a, b) for a, b in parts + [(start, end)] if a < b]


def generics_end(tokens, at):
    """Where what is between `<` here and its `>` ends."""
    depth = 0
    while at < len(tokens):
        depth += (tokens[at] == "<") - (tokens[at] == ">")
        at += 1
        if not depth:
            break
    return at


class Scan:
    """Finds the items of a source."""

    def __init__(self, source):
        self.source, self.tokens, self.close = source, source.tokens, source.close

    def items(self, at, end, module):
        found = []
        while at < end:
            attributes = []
            while at < end and self.tokens[at] == "#":
                opened = at + 1 + (self.tokens[at + 1] == "!")
                attributes.append(self.source.inside(opened))
                at = self.close[opened] + 1
            if at < end:
                item = Found(module, at, attributes)
                at = self.item(item, self.word(item, end), end)
                if not any(text.startswith(("cfg(test", "test")) for text in attributes):
                    found.append(item)
        return found

    def word(self, item, end):
        """Reads what comes before an item's word, and its name. Where the word is."""
        at = item.at
        item.is_public = self.tokens[at] == "pub" and self.tokens[at + 1] != "("
        if self.tokens[at] == "pub":
            at = self.close[at + 1] + 1 if self.tokens[at + 1] == "(" else at + 1
        while at < end and (self.tokens[at] in ("unsafe", "extern", "default") or self.tokens[at][0] == '"'
                            or self.tokens[at] == "const" and self.tokens[at + 1] in ("fn", "unsafe", "extern")):
            at += 1
        item.word, item.named = self.tokens[at], at + 1
        item.name = self.tokens[at + 1] if at + 1 < end else ""
        return at

    def item(self, item, at, end):
        """Reads an item from its word on. Where it ends."""
        if item.word == "fn":
            return self.function(item, at, end)
        if item.word == "ghost" and item.name != "use":
            return self.ghost(item, at, end)
        stops = ";" if item.word in ("const", "static", "use", "ghost") else "{;"
        while at < end and self.tokens[at] not in stops:
            at = self.close[at] + 1 if at in self.close else at + 1
        item.head = at
        if at >= end or self.tokens[at] == ";":
            return at + 1
        item.inner = at
        if item.word in ("impl", "trait"):
            item.found = self.items(at + 1, self.close[at], item.module)
        elif item.word == "mod":
            item.found = self.items(at + 1, self.close[at], (*item.module, item.name))
        return self.close[at] + 1

    def function(self, item, at, end):
        """Reads a function's clauses. Where its body ends."""
        while at < end and self.tokens[at] not in ("{", ";", "requires", "ensures", "ghost"):
            at = self.close[at] + 1 if at in self.close else at + 1
        item.head = at
        while at < end and self.tokens[at] in ("requires", "ensures", "ghost"):
            opened = next(place for place in range(at, end) if self.tokens[place] == "{")
            item.clauses.append((self.source.text_of(at, opened), opened))
            at = self.close[opened] + 1
        return self.close[at] + 1 if at < end and self.tokens[at] == "{" else at + 1

    def ghost(self, item, at, end):
        """Reads a ghost member: its type, its value, or both. Where it ends."""
        item.head = at + 2
        while at < end and self.tokens[at] not in (";", ","):
            if self.tokens[at] == "by":
                at = self.close[at + 1]
            elif at in self.close:
                item.clauses.append((self.tokens[at - 1], at))
                at = self.close[at]
            at += 1
        return at + 1


def use_tree(tokens, close, at, end, before=()):
    """What a `use` brings in: each name with its path."""
    path = list(before)
    while at < end:
        if tokens[at] == "{":
            for a, b in split(tokens, close, at + 1, close[at]):
                yield from use_tree(tokens, close, a, b, path)
            return
        if tokens[at] == "as":
            yield tokens[at + 1], tuple(path)
            return
        if tokens[at] != "::" and not (tokens[at] == "self" and path):
            path.append(tokens[at])
        at += 1
    yield path[-1], tuple(path)
