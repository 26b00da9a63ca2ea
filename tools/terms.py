"""Terms of antt and signatures of Rattle as rows of tokens in which each name says what it means.

A token is a number for a name that the term itself binds (a parameter, what a `λ`, a `let` or a pattern binds), counted
from the term's beginning, so that what such a name is doesn't matter; a tuple, the key of an item, for a name of the tree;
`.NAME` for a field; and a text for all else: keywords, operators, literals, and names of std and the kit.
"""
import re

ANTT = re.compile(r"""(?P<comment>(?<!\S)--(?!\S)[^\n]*)|(?P<line>\n)|"(?:\\.|[^"\\])*"|[(){}\[\],;]"""
                  r"""|\.(?=\s|\Z)|\.[^\s(){}\[\],;.]+|[^\s(){}\[\],;."]+""")
RUST = re.compile(r"""(?P<comment>//[^\n]*|/\*.*?\*/)|(?:b|c|br|cr|r)?(?<=r)(?P<marks>\#*)".*?"(?P=marks)|[bc]?"(?:\\.|[^"\\])*\""""
                  r"""|b?'(?:\\[^']*|[^'\\\n])'|'\w+|[^\W\d][\w']*|\d\w*|::|->|=>|[^\s\w]""", re.S)
OPENS, CLOSES = "([{", ")]}"
NAME = re.compile(r"[^\W\d]")


def antt(text):
    """The tokens of a term. An end of a line is one where there is a `do`, whose steps are on lines of their own."""
    found = [match for match in ANTT.finditer(text) if not match["comment"]]
    has_steps = any(match[0] == "do" for match in found)
    return [match[0] for match in found if has_steps or not match["line"]]


def rust(text):
    """The tokens of a source, each with its place."""
    return [(match[0], match.start(), match.end()) for match in RUST.finditer(text) if not match["comment"]]


def partners(tokens):
    """Where each bracket that opens is closed."""
    found, opened = {}, []
    for at, token in enumerate(tokens):
        if token in OPENS:
            opened.append(at)
        elif token in CLOSES and opened:
            found[opened.pop()] = at
    found.update((at, len(tokens)) for at in opened)
    return found


class Term:
    """Reads terms that share what they bind: a function's signature and its clauses, or a definition and its cases."""

    def __init__(self, meaning, names=None):
        self.meaning, self.names, self.count = meaning, dict(names or {}), 0

    def within(self):
        """A reader that begins with the names of this one."""
        made = Term(self.meaning, self.names)
        made.count = self.count
        return made

    def bind(self, name, names):
        """The next number, which the name means in these from here on."""
        number = self.count
        self.count += 1
        if name != "_":
            names[name] = number
        return number

    def read(self, text, stays=False):
        """What the term means, by the names that are bound so far. What it binds itself may stay bound."""
        self.tokens, self.out = antt(text), []
        self.close = partners(self.tokens)
        names = self.group(0, len(self.tokens), self.names)
        self.names = names if stays else self.names
        return self.out

    def case(self, text):
        """What one case of a definition means: its patterns bind names for what follows `=`."""
        self.tokens, self.out = antt(text), []
        self.close = partners(self.tokens)
        end = next((at for at in self.at_depth(0, len(self.tokens)) if self.tokens[at] == "="), len(self.tokens))
        names = dict(self.names)
        self.pattern(0, end, names)
        self.group(end, len(self.tokens), names)
        return self.out

    def at_depth(self, at, end):
        """The places from here to the end that are in no bracket."""
        while at < end:
            yield at
            at = self.close[at] + 1 if at in self.close else at + 1

    def pattern(self, at, end, names):
        """A pattern: a name that is no constructor is bound."""
        while at < end:
            token = self.tokens[at]
            if NAME.match(token) or token == "_":
                known = self.meaning(token, self.next_is_field(at), True)
                if known is None:
                    self.out.append(self.bind(token, names))
                else:
                    at = self.named(at, known)
            else:
                self.out.append(token)
            at += 1

    def next_is_field(self, at):
        """The name that follows a dot here, if one does."""
        after = self.tokens[at + 1] if at + 1 < len(self.tokens) else ""
        return after[1:] if len(after) > 1 and after[0] == "." else None

    def named(self, at, known):
        """Puts out what a name means. The last place that belongs to it: the next one where that is a member's name."""
        meant, with_member = known
        self.out.append(meant)
        return at + 1 if with_member else at

    def telescope(self, at):
        """The names that the brackets here bind, as in `(x y : A)`, and where their type begins; none where they don't."""
        place = at + 1
        while place < self.close[at] and (NAME.match(self.tokens[place]) or self.tokens[place] == "_"):
            place += 1
        is_one = at + 1 < place < self.close[at] and self.tokens[place] == ":"
        return (self.tokens[at + 1:place], place) if is_one else ([], at)

    def bracket(self, at, names):
        """What is in the brackets here. The names that are bound after them."""
        bound, place = self.telescope(at)
        self.out.append(self.tokens[at])
        after = dict(names)
        numbers = [self.bind(name, after) for name in bound]
        self.out += numbers
        inner = [place for place in self.at_depth(at + 1, self.close[at]) if self.tokens[place] == "↦"]
        if self.tokens[at] == "[" and inner:
            self.alternatives(at + 1, self.close[at], names)
        else:
            self.group(place if bound else at + 1, self.close[at], names)
        self.out += self.tokens[self.close[at]:self.close[at] + 1]
        return after

    def alternatives(self, at, end, names):
        """The cases of an `elim`."""
        ends = [place for place in self.at_depth(at, end) if self.tokens[place] == "|"] + [end]
        for stop in ends:
            arrow = next((place for place in self.at_depth(at, stop) if self.tokens[place] == "↦"), stop)
            inner = dict(names)
            self.pattern(at, arrow, inner)
            self.group(arrow, stop, inner)
            self.out += self.tokens[stop:stop + 1] if stop < end else []
            at = stop + 1

    def lambda_(self, at, names):
        """What a `λ` binds, up to its dot. Where that is, and the names from there on."""
        self.out.append("λ")
        names = dict(names)
        while at < len(self.tokens) and self.tokens[at] != ".":
            if at in self.close:
                names = self.bracket(at, names)
                at = self.close[at]
            else:
                self.out.append(self.bind(self.tokens[at], names))
            at += 1
        self.out.append(".")
        return at, names

    def group(self, at, end, names):
        """A part of a term that no bracket breaks off. The names at its end."""
        outer, lets, step = names, [], {}
        while at < end:
            token = self.tokens[at]
            if token == "λ":
                at, names = self.lambda_(at + 1, names)
            elif at in self.close:
                names = self.bracket(at, names)
                at = self.close[at]
            elif token == "let":
                name, inner = self.tokens[at + 1], dict(names)
                self.out += ["let", self.bind(name, inner)]
                lets.append((name, inner.get(name)))
                at += 1
            elif token == "in" and lets:
                name, number = lets.pop()
                names = {**names, name: number}
                self.out.append("in")
            elif self.tokens[at + 1:at + 2] == ["←"]:
                self.out.append(self.bind(token, step))
            else:
                names = outer if token in ",;|" else {**names, **step} if token == "\n" else names
                at = self.word(at, names)
            at += 1
        return names

    def word(self, at, names):
        """Puts out what one token means. The last place that belongs to it."""
        token = self.tokens[at]
        if at and self.tokens[at - 1] in "{;" and self.tokens[at + 1:at + 2] == ["="]:
            self.out.append("." + token)
        elif token in names:
            self.out.append(names[token])
        elif token[0] == "." or token in ",;|=\n":
            self.out.append(token)
        else:
            return self.named(at, self.meaning(token, self.next_is_field(at), False) or (token, False))
        return at
