"""What the contracts of a tree are made of: each definition of specs/, type, trait, `impl` and public function, as tokens.

The crates that are tests or benchmarks are left out. The bodies of functions and proofs are no part of it.
"""
import re
from collections import defaultdict
from functools import cached_property

from logic import imports_of, plain
from source import Source, Specs, generics_end, split, use_tree
from terms import NAME, Term

IS_READ = re.compile(r"crates/(?!tp_test|tp_bench)\w+/(?:src/.*\.rt|specs/.*\.antt)\Z")
PRELUDE = "std.specs.Prelude"
# The constructors of std whose names begin with a small letter.
CONSTRUCTORS = {"true", "false", "zero", "suc", "tt", "pos", "negsuc", "inl", "inr"}
INFIX = re.compile(r"^(infix[lr]? \d+) (\S+)", re.M)
TYPES = ("struct", "enum", "union", "trait", "type", "const", "static")
KEYWORDS = set("fn mut dyn impl for where const as Self self pub crate unsafe extern struct enum trait type static ref in".split())
# What of an attribute is promised. What an error prints is not.
ATTRIBUTES = ("derive", "repr", "must_use", "non_exhaustive", "unsafe")


def is_key(token):
    """Whether a token is the name of an item or of a member of one."""
    return isinstance(token, tuple) and len(token) > 1 and token[0] in ("def", "type", "member")


def owner(key):
    """The item that a name means, or that has the member which it means."""
    return key[1] if key[0] == "member" else key


class Item:
    """Something that is compared: its key, what it is called, its parts, each with a label, its tokens and its text, and the
    names of its members in order."""

    def __init__(self, key, title, members=()):
        self.key, self.title, self.members, self.parts = key, title, list(members), []

    def add(self, label, tokens, text):
        self.parts.append((label, tuple(tokens), " ".join(text.split())))

    @cached_property
    def shape(self):
        """What it says without its names."""
        return tuple(tuple("#" if is_key(token) else token for token in tokens) for _, tokens, _ in self.parts)

    @cached_property
    def owners(self):
        """The items that it names."""
        return frozenset(owner(token) for _, tokens, _ in self.parts for token in tokens if is_key(token))

    @cached_property
    def spelling(self):
        """What it says with its names, wherever these are declared."""
        return tuple(tuple(token[-1] if is_key(token) else token for token in tokens) for _, tokens, _ in self.parts)


def keys_in(token):
    """The items that are named in a token, or in the tokens of a type."""
    if not isinstance(token, tuple):
        return []
    if token[:1] in (("def",), ("type",)):
        return [token]
    return [key for each in token for key in keys_in(each)]


class Tree:
    """A tree's items by their keys."""

    def __init__(self, texts, like=None):
        self.parsed = like.parsed if like else {}
        self.items, self.leaves, self.read = {}, [], {}
        self.crates = {path.split("/")[1] for path in texts}
        self.modules, self.uses, self.shown, self.members = defaultdict(dict), defaultdict(dict), defaultdict(dict), {}
        self.imports, self.passed_on = {}, {}
        files = {(path, text): self.file(path, text) for path, text in texts.items()}
        for file in files.values():
            if isinstance(file, Specs):
                self.declare_specs(file)
            else:
                self.declare(file, file.found, file.module)
        self.exported = self.exports()
        self.names = [self.crates, self.members, self.imports, self.passed_on, self.exported,
                      *({place: dict(names) for place, names in table.items() if names} for table in (self.modules, self.uses))]
        self.read_all(files, like.read if like and like.names == self.names else {})
        self.keep_reached()

    def file(self, path, text):
        """A file, which is taken apart once for all trees that have it."""
        if (path, text) not in self.parsed:
            self.parsed[path, text] = Specs(path, text) if path.endswith(".antt") else Source(path, text)
        return self.parsed[path, text]

    def read_all(self, files, before):
        """Reads each file; one that was read in another tree, whose names mean what they mean here, isn't read again."""
        for key, file in files.items():
            if key in before:
                self.read[key] = before[key]
                continue
            self.items, self.leaves = {}, []
            if isinstance(file, Specs):
                self.read_specs(file)
            else:
                Reading(self, file).all(file.found)
            self.read[key] = self.items, self.leaves
        self.items = {key: item for items, _ in self.read.values() for key, item in items.items()}
        self.leaves = [leaf for _, leaves in self.read.values() for leaf in leaves]

    def keep_reached(self):
        """Leaves out what is inside of a crate alone: types that neither its root shows nor anything names that is compared."""
        waits = [key for key in self.items if key[0] == "def" or key in self.exported] + [leaf.key for leaf in self.leaves if leaf.key[0] == "fn"]
        waits += [token for leaf in self.leaves if leaf.key[0] == "fn" for _, tokens, _ in leaf.parts for token in tokens]
        implemented, reached = defaultdict(list), set()
        for leaf in self.leaves:
            if leaf.key[0] == "impl":
                for key in keys_in(leaf.key[1][1]):
                    implemented[key].append(leaf)
        while waits:
            for key in keys_in(waits.pop()):
                if key not in reached:
                    reached.add(key)
                    parts = self.items[key].parts if key in self.items else []
                    parts = [*parts, *(part for leaf in implemented[key] for part in leaf.parts)]
                    waits += [token for _, tokens, _ in parts for token in tokens if isinstance(token, tuple)]
        self.items = {key: item for key, item in self.items.items() if key in reached}
        self.leaves = [leaf for leaf in self.leaves if leaf.key[0] == "fn" or reached.issuperset(keys_in(leaf.key[1][1]))]

    # ---- what is declared where

    def declare(self, source, found, module):
        place = source.crate, module
        for item in found:
            if item.word == "use":
                uses = dict(use_tree(source.tokens, source.close, item.named, item.head))
                self.uses[place].update(uses)
                if item.is_public:
                    self.shown[place].update(uses)
            elif item.word == "mod":
                self.modules[place][item.name] = ("mod", source.crate, (*module, item.name))
                self.declare(source, item.found, (*module, item.name))
            elif item.word in TYPES or item.word == "fn":
                key = ("type" if item.word in TYPES else "fn", source.crate, module, item.name)
                self.modules[place][item.name] = key
                self.members[key] = self.members_of(source, item)
            if item.is_public and item.word in (*TYPES, "fn", "mod"):
                self.shown[place][item.name] = ("self", item.name)

    @staticmethod
    def members_of(source, item):
        """The names of a type's fields or variants, or of a trait's ghost members, in order."""
        if item.word == "trait":
            return [each.name for each in item.found if each.word in ("ghost", "type", "const") and each.name != "use"]
        if item.word not in ("struct", "enum") or item.inner is None:
            return []
        names = []
        for at, end in split(source.tokens, source.close, item.inner + 1, source.close[item.inner]):
            while source.tokens[at] == "#":
                at = source.close[at + 1] + 1
            if source.tokens[at] == "pub":
                at = source.close[at + 1] + 1 if source.tokens[at + 1] == "(" else at + 1
            names.append(source.tokens[at + (source.tokens[at] == "ghost")])
        return names

    def declare_specs(self, file):
        self.imports[file.module] = file.imports
        self.passed_on.update(file.passed_on)
        for name, (_, body) in file.items.items():
            key = ("def", file.module, name)
            self.modules[file.module][name] = key
            has_members = re.match(r"\s*(?:pub )?(?:data|record) ", body)
            self.members[key] = re.findall(r"^  (?:pub )?([^\s:()]+) :", body, re.M) if has_members else []
            if has_members and "data" in has_members[0]:
                self.modules[file.module].update({member: ("member", key, member) for member in self.members[key]})

    def exports(self):
        """The types and functions that are reached from a crate's root, by their keys."""
        found, waits = set(), [(crate, ()) for crate in self.crates]
        seen = set()
        while waits:
            place = waits.pop()
            if place in seen:
                continue
            seen.add(place)
            for path in self.shown[place].values():
                meant, rest = self.path(place[0], place[1], path)
                if not isinstance(meant, tuple) or rest:
                    continue
                if meant[0] == "mod":
                    waits.append(meant[1:])
                found.add(meant)
        return found

    # ---- what a name means

    def path(self, crate, module, path, depth=0):
        """What a path of Rattle means: a key or a text, and what of the path is left: members of it."""
        first, rest = path[0], path[1:]
        place = crate, module
        if first == "crate":
            meant = ("mod", crate, ())
        elif first in ("self", "super"):
            meant = ("mod", crate, module[:-1] if first == "super" else module)
        elif first in self.modules[place]:
            meant = self.modules[place][first]
        elif first in self.uses[place] and depth < 20 and self.uses[place][first] != path:
            meant, left = self.path(crate, module, self.uses[place][first], depth + 1)
            rest = (*left, *rest)
        elif first in self.crates:
            meant = ("mod", first, ())
        else:
            return "::".join(path), ()
        while rest and meant[0] == "mod":
            there = meant[1:]
            if rest[0] in self.modules[there]:
                meant, rest = self.modules[there][rest[0]], rest[1:]
            elif rest[0] in self.uses[there] and depth < 20:
                meant, rest = self.path(*there, (*self.uses[there][rest[0]], *rest[1:]), depth + 1)
                break
            else:
                break
        if isinstance(meant, str):
            return "::".join((meant, *rest)), ()
        return meant, rest

    def item_named(self, module, name):
        """What an item of a module of antt means."""
        seen = set()
        while (module, name) in self.passed_on and (module, name) not in seen:
            seen.add((module, name))
            module, name = self.passed_on[module, name]
        crate = module.split(".")[0]
        if crate not in self.crates:
            return name if module == PRELUDE or name is None else f"{module}:{name}"
        if ".specs.declared" in module:
            return self.declared(crate, module.split(".")[3:], name)
        return self.modules[module].get(name) or f"{module}:{name}"

    def declared(self, crate, path, name):
        """What antt calls a type, a variant or a constant of a crate's src/."""
        if path and path[-1] == "TheConstants":
            return ("type", crate, tuple(path[:-1]), name)
        if path and path[-1] in ("TheInside", "TheViews", "TheVariants"):
            owner = ("type", crate, tuple(path[:-2]), path[-2])
            return ("member", owner, name) if path[-1] == "TheVariants" else owner
        owner = ("type", crate, tuple(path[:-1]), path[-1] if path else name)
        return owner if not path or path[-1] == name else ("member", owner, name)

    def meaning(self, name, member, scope, in_pattern):
        """What a name of a term means and whether the member after it is part of that, or None where it means nothing here. The
        scope is what is imported there, and the module of antt or the place in src/ where the term is."""
        (imports, module, place), meant = scope, None
        if name in imports:
            there, item = imports[name]
            if item is None:
                if member is None:
                    return None
                meant = self.item_named(there, member)
                return (meant, True) if self.may_be(meant, in_pattern) else None
            meant = self.item_named(there, item)
        elif module and name in self.modules[module]:
            meant = self.modules[module][name]
        elif place:
            meant, rest = self.path(*place, (name,))
            meant = None if isinstance(meant, str) and meant == name or rest or meant[0] == "mod" else meant
        if meant is None or not self.may_be(meant, in_pattern):
            return None
        if isinstance(meant, tuple) and member in self.members.get(meant, ()):
            return ("member", meant, member), True
        return meant, False

    @staticmethod
    def may_be(meant, in_pattern):
        """Whether a pattern may name it: a constructor, and no function."""
        if not in_pattern:
            return True
        if isinstance(meant, tuple):
            return meant[0] in ("member", "type")
        name = meant.split(":")[-1]
        return not name[0].islower() or name in CONSTRUCTORS

    # ---- specs/

    def read_specs(self, file):
        scope = file.imports, file.module, None
        infix = {plain(name): word for word, name in INFIX.findall(file.text)}
        for name, (_, body) in file.items.items():
            key = ("def", file.module, name)
            item = Item(key, f"{file.module} {name}", self.members[key])

            def meaning(word, member, in_pattern, key=key, name=name):
                return (key, False) if in_pattern and word == name else self.meaning(word, member, scope, in_pattern)

            if name in infix:
                item.add("infix", infix[name].split(), infix[name])
            read_definition(item, body.split("\n", 1)[1], meaning)
            self.items[key] = item


def blocks_of(body, has_members):
    """The parts of a definition: its head, and each field, constructor or case."""
    blocks = []
    for line in body.split("\n"):
        begins = re.match(r"  (?:pub )?[^\s:()]+ :", line) if has_members else re.match(r"\S", line)
        if line.strip() and not line.startswith("infix"):
            if begins or not blocks:
                blocks.append(line)
            else:
                blocks[-1] += "\n" + line
    return blocks


def read_definition(item, body, meaning):
    """Reads the parts of a definition, each with the names that it binds."""
    head, *blocks = blocks_of(body, item.members)
    words = re.match(r"((?:(?:abbrev|unfoldable|pub|record|data) )*)(\S+)", head)
    term = Term(meaning)
    # The parameters of a record are bound for its fields, and each field for those after it.
    item.add("type", [*words[1].split(), *term.read(head[words.end():], bool(item.members))], head)
    for number, block in enumerate(blocks):
        if item.members:
            label, _, rest = block.strip().partition(" : ")
            item.add(item.members[number], [*label.split()[:-1], *term.within().read(rest)], block)
            term.bind(item.members[number], term.names)
        elif not block.startswith("unfolding "):
            item.add("case", Term(meaning).case(block), block)


class Reading:
    """Reads the items of one source."""

    def __init__(self, tree, source):
        self.tree, self.source, self.tokens, self.close = tree, source, source.tokens, source.close
        self.imports = self.imports_in(source.found)

    def imports_in(self, found):
        """What the names mean that `ghost use` brings in among these items."""
        lines = [self.source.text_of(item.at, item.head) for item in found if item.word == "ghost" and item.name == "use"]
        return imports_of(plain("\n".join(lines)))

    def all(self, found):
        for item in found:
            if item.word == "mod":
                self.all(item.found)
            elif item.word in TYPES:
                self.type(item)
            elif item.word == "impl":
                self.implementation(item)
            elif item.word == "fn" and item.is_public and self.key("fn", item) in self.tree.exported:
                self.function(item, self.term(item), ("mod", self.source.crate, item.module), "")

    def key(self, kind, item):
        return (kind, self.source.crate, item.module, item.name)

    def term(self, item, imports=None):
        """A reader of terms for the clauses of an item."""
        scope = self.imports if imports is None else imports, None, (self.source.crate, item.module)
        return Term(lambda name, member, in_pattern: self.tree.meaning(name, member, scope, in_pattern))

    def title(self, item, owner=""):
        return "::".join((self.source.crate, *item.module, *([owner] if owner else []), item.name))

    # ---- signatures

    def generics(self, at, term):
        """Binds the parameters between `<` here and its `>`. Where these end."""
        if self.tokens[at] != "<":
            return at
        end = generics_end(self.tokens, at)
        for a, b in split(self.tokens, self.close, at + 1, end - 1):
            term.bind(self.tokens[a + (self.tokens[a] == "const")], term.names)
        return end

    def signature(self, at, end, term, module):
        """The tokens of a signature or of a part of one, with what their names mean. What a variant calls its parts is bound."""
        out = []
        while at < end:
            token = self.tokens[at]
            after = self.tokens[at + 1] if at + 1 < end else ""
            if token in term.names:
                out.append(term.names[token])
            elif not NAME.match(token) or token in KEYWORDS:
                out.append(token)
            elif after == ":" and self.tokens[at - 1] in ("{", ","):
                out.append(term.bind(token, {}))
            elif after == "=" and self.tokens[at - 1] in ("<", ","):
                out.append("." + token)
            elif self.tokens[at - 1] == "::":
                out.append("." + token)
            else:
                path = [token]
                while at + 2 < end and self.tokens[at + 1] == "::" and NAME.match(self.tokens[at + 2]):
                    path.append(self.tokens[at + 2])
                    at += 2
                meant, rest = self.tree.path(self.source.crate, module, tuple(path))
                out += [meant, *("." + name for name in rest)]
            at += 1
        return out

    def parameters(self, at, term, module):
        """The parameters of a function, each of which is bound. Where they end."""
        out, parts = [], split(self.tokens, self.close, at + 1, self.close[at])
        for a, b in parts:
            colon = next((place for place in range(a, b) if self.tokens[place] == ":"), None)
            if colon is None:
                out += [token for token in self.tokens[a:b]] + [","]
                continue
            for place in range(a, colon):
                if NAME.match(self.tokens[place]) and self.tokens[place] not in ("mut", "ref") and self.tokens[place][0].islower():
                    out.append(term.bind(self.tokens[place], term.names))
            out += [*self.signature(colon, b, term, module), ","]
        return ["(", *out, ")"], self.close[at] + 1

    def attributes(self, item):
        """What of an item's attributes is promised."""
        kept = [text for text in item.attributes if text.startswith(ATTRIBUTES)]
        return sorted(word for text in kept for word in ([f"derive {name}" for name in re.findall(r"[\w:]+", text[6:])]
                                                          if text.startswith("derive") else [" ".join(text.split())]))

    # ---- items

    def type(self, item):
        key = self.key("type", item)
        members = self.tree.members[key]
        made = Item(key, self.title(item), members)
        words = [*(["public"] if key in self.tree.exported else []), *self.attributes(item)]
        made.add("attributes", words, ", ".join(words))
        term = self.term(item)
        if item.word == "trait":
            self.trait(item, made, term, key)
        else:
            self.generics(item.named + 1, term)
            made.add(item.word, [item.word, *self.signature(item.named + 1, item.head, term, item.module)], self.source.text_of(item.at, item.head))
            if item.inner is not None:
                self.fields(item, made, term)
        self.tree.items[key] = made

    def fields(self, item, made, term):
        """The fields of a struct, ghost ones too, or the variants of an enum."""
        inner = term.within()
        for member in made.members if item.word == "struct" else ():
            inner.bind(member, inner.names)
        parts = split(self.tokens, self.close, item.inner + 1, self.close[item.inner])
        for (at, end), member in zip(parts, made.members):
            while self.tokens[at] == "#":
                at = self.close[at + 1] + 1
            text, words = self.source.text_of(at, end), []
            while self.tokens[at] != member:
                # What only the crate sees is as hidden as what only the module does.
                words += [self.tokens[at]] if self.tokens[at] != "(" and self.tokens[at + 1] != "(" else []
                at = at + 1 if self.tokens[at] != "(" else self.close[at] + 1
            if "ghost" in words:
                opened = next(place for place in range(at, end) if self.tokens[place] == "{")
                made.add(member, [*words, *inner.within().read(self.source.inside(opened))], text)
            else:
                made.add(member, [*words, *self.signature(at + 1, end, term.within(), item.module)], text)

    def trait(self, item, made, term, key):
        self.generics(item.named + 1, term)
        head = ["trait", *self.signature(item.named + 1, item.head, term, item.module)]
        made.add("trait", head, self.source.text_of(item.at, item.head))
        for name in made.members:
            term.names[name] = ("member", key, name)
        for each in item.found:
            if each.word == "fn":
                self.function(each, term.within(), key, item.name)
            elif each.word in ("type", "const") or each.word == "ghost" and each.name != "use":
                made.add(each.name, self.member(each, term.within()), self.source.text_of(each.at, self.end_of(each)))

    def end_of(self, item):
        """Where a member ends."""
        return self.close[item.clauses[-1][1]] + 1 if item.clauses else item.head

    def member(self, item, term):
        """The tokens of a ghost member, an associated type or a constant."""
        if item.word != "ghost":
            return [item.word, *self.signature(item.named + 1, item.head, term, item.module)]
        return [token for sign, opened in item.clauses for token in (sign, *term.within().read(self.source.inside(opened)))]

    def implementation(self, item):
        """The members of an `impl` and its public functions; those of a trait's where they have clauses of their own."""
        outer, term = self.term(item), self.term(item, {**self.imports, **self.imports_in(item.found)})
        outer_start = self.generics(item.named, outer)
        term.names, term.count = outer.names, outer.count
        head = self.signature(item.named, item.head, outer, item.module)
        at_for = next((at for at in range(outer_start, item.head) if self.tokens[at] == "for" and self.tokens[at + 1] != "<"), None)
        trait = self.owner(outer_start, at_for, outer, item) if at_for else None
        owner = self.owner(at_for + 1 if at_for else outer_start, item.head, outer, item)
        name = self.source.text_of(outer_start, item.head).partition(" where")[0]
        if trait:
            self.members(item, term, (trait, owner), head, name)
        for each in item.found:
            if each.word == "fn" and (each.clauses if trait else each.is_public and owner[0] in self.tree.exported):
                self.function(each, term.within(), (trait, owner) if trait else owner[0], name, head)

    def owner(self, at, end, term, item):
        """The type or the trait here, without its arguments."""
        found, depth = [], 0
        for token in self.signature(at, end, term, item.module):
            if token == "where":
                break
            depth += token == "<"
            if not depth:
                found.append(token)
            depth -= token == ">"
        return tuple(found)

    def members(self, item, term, owner, head, name):
        """What an `impl` of a trait says of a type, as one item, without what is proved there."""
        trait = owner[0][0]
        for member in self.tree.members.get(trait, ()):
            term.names.setdefault(member, ("member", trait, member))
        made = Item(("impl", owner), f"{self.source.crate}: impl {name}")
        made.add("impl", head, f"impl {name}")
        for each in item.found:
            if each.word in ("type", "const") or each.word == "ghost" and each.name != "use":
                made.add(each.name, [("member", trait, each.name) if isinstance(trait, tuple) else each.name,
                                     *self.member(each, term.within())], self.source.text_of(each.at, self.end_of(each)))
        self.tree.leaves.append(made)

    def function(self, item, term, owner, name, head=()):
        """A function's signature and its clauses."""
        made = Item(("fn", owner, item.name), self.title(item, name))
        start = item.at + (self.tokens[item.at] == "pub")
        words = [*head, *self.tokens[start:item.named]]
        opened = self.generics(item.named + 1, term)
        generics = self.signature(item.named + 1, opened, term, item.module)
        parameters, after = self.parameters(opened, term, item.module)
        made.add("signature", [*self.attributes(item), *words, *generics, *parameters, *self.signature(after, item.head, term, item.module)],
                 f"{name}: {self.source.text_of(item.at, item.head)}")
        for label, place in item.clauses:
            kind = re.match(r"\w+\*?", label)[0]
            made.add(label, [kind, *term.within().read(self.source.inside(place))], f"{label} {{ {self.source.inside(place).strip()} }}")
            if kind == "ghost":
                term.bind(label.split()[1].rstrip(":"), term.names)
        self.tree.leaves.append(made)
