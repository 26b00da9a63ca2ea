"""The names that one tree has for those of another one, and what differs between the two beside these."""
from collections import Counter, defaultdict

from public import is_key, owner

ITEMS = ("def", "type")
# Fields of std, whose names nobody changes.
OF_STD = {"now", "old", "new", "entry", "exit", "inside", "items"}


class Renaming:
    """Pairs the items of two trees, each with one at most: first those that are written alike, then by where they are used,
    then by where they are and by their names."""

    def __init__(self, old, new):
        self.old, self.new = old, new
        self.there, self.back, self.fields = {}, {}, {}
        for alike in (lambda key: key, lambda key: (key[0], key[-1])):
            self.by(lambda item, alike=alike: (alike(item.key), item.spelling), False)
        self.by_use()
        self.by(lambda item: item.key, True)
        self.by(lambda item: (item.key[0], item.key[-1]), True)
        self.by_use()
        while self.by(lambda item: item.shape, True):
            self.by_use()
        self.settle()

    def pair(self, key, there):
        self.there[key], self.back[there] = there, key

    def left(self):
        """The items of each tree that have none in the other one."""
        return [key for key in self.old.items if key not in self.there], [key for key in self.new.items if key not in self.back]

    def by(self, mark, alone):
        """Pairs those that have one mark, or where several have it only if they needn't be alone. Whether there were any."""
        marked = defaultdict(lambda: ([], []))
        for side, (keys, tree) in enumerate(zip(self.left(), (self.old, self.new))):
            for key in sorted(keys):
                marked[mark(tree.items[key])][side].append(key)
        found = [pair for before, after in marked.values() if not alone or len(before) == len(after) == 1
                 for pair in zip(before, after) if pair[0][0] == pair[1][0]]
        for key, there in found:
            self.pair(key, there)
        return bool(found)

    def may_pair(self, key, there):
        """Whether two that are used alike may be a pair: neither has its name in the other tree, or else they are alike in more than
        where they are used, and what has the name is not."""
        if key in self.there or there in self.back or key not in self.old.items or there not in self.new.items:
            return False
        alike = self.old.items[key].shape == self.new.items[there].shape
        named = key in self.new.items and key not in self.back, there in self.old.items and there not in self.there
        return key == there or alike or not any(named)

    def by_use(self):
        """Pairs those that are in one place of items that are pairs already."""
        found = any(self.left())
        while found:
            votes = Counter()
            pairs = [(self.old.items[key], self.new.items[there]) for key, there in self.there.items()] + self.leaves_by_key()[0]
            for item, other in pairs:
                if item.owners <= self.there.keys():
                    continue
                for (_, tokens, _), (_, others, _) in zip(item.parts, other.parts):
                    votes.update(self.places(tokens, others))
            found = False
            for (a, b), _ in sorted(votes.items(), key=lambda vote: (-vote[1], vote[0][0] != vote[0][1], vote[0])):
                if a[0] == b[0] and self.may_pair(a, b):
                    self.pair(a, b)
                    found = True

    def places(self, tokens, others):
        """What is in one place of two parts; where one is longer, the names without a pair that they have, if these are as many."""
        if len(tokens) == len(others):
            return [(owner(a), owner(b)) for a, b in zip(tokens, others) if is_key(a) and is_key(b)]
        before = dict.fromkeys(owner(a) for a in tokens if is_key(a) and owner(a) not in self.there)
        after = dict.fromkeys(owner(b) for b in others if is_key(b) and owner(b) not in self.back)
        return list(zip(before, after)) if len(before) == len(after) else []

    def changed_places(self):
        """The items whose names others of them have now, in a ring."""
        found = []
        for key, there in self.there.items():
            at = there
            while key != there and at in self.there and at != key and self.there[at] != at:
                at = self.there[at]
            if key != there and at == key:
                found.append(key)
        return found

    # ---- functions and what is said by an `impl`

    def mapped(self, token):
        """What the name of an item is in the new tree."""
        if not isinstance(token, tuple) or not token:
            return token
        if token[0] in ITEMS:
            return self.there.get(token, ("gone", token) if token in self.old.items else token)
        if token[0] == "member" and len(token) == 3:
            return ("member", self.mapped(token[1]), self.fields.get(token[1], {}).get(token[2], token[2]))
        return token if token[0] == "mod" else tuple(self.mapped(each) for each in token)

    def leaves_by_key(self, is_same=lambda a, b: a.shape == b.shape):
        """The functions and `impl`s that are of one type and have one name, those only before, and those only after. Of several the
        same ones are pairs first."""
        after = defaultdict(list)
        for leaf in self.new.leaves:
            after[leaf.key].append(leaf)
        found, left = [], self.old.leaves
        for fits in (is_same, lambda a, b: True):
            waits, left = left, []
            for leaf in waits:
                there = after[self.mapped(leaf.key)]
                best = next((other for other in there if fits(leaf, other)), None)
                if best:
                    there.remove(best)
                    found.append((leaf, best))
                else:
                    left.append(leaf)
        return found, left, [leaf for leaves in after.values() for leaf in leaves]

    def leaves(self):
        """The functions and `impl`s that are pairs, however they are called, those only before, and those only after."""
        found, left, alone = self.leaves_by_key(self.is_same)
        for fits in (lambda a, b: a.key[-1] == b.key[-1] and self.is_same(a, b), lambda a, b: a.key[-1] == b.key[-1] and is_free(a, b),
                     lambda a, b: self.mapped(a.key[1]) == b.key[1] and self.is_same(a, b),
                     lambda a, b: len(a.parts) > 1 and self.is_same(a, b)):
            for leaf in left[:]:
                best = next((other for other in alone if leaf.key[0] == other.key[0] == "fn" and fits(leaf, other)), None)
                if best:
                    left.remove(leaf)
                    alone.remove(best)
                    found.append((leaf, best))
        return found, left, alone

    # ---- what differs

    def settle(self):
        """What each member is called in the new tree, once the items are pairs."""
        self.fields = {key: self.members_of(key) for key in self.there}
        self.named, self.taken, self.fit = defaultdict(set), defaultdict(set), {}
        # Where no name differs, what is the same object in both trees is the same.
        self.is_plain = self.old.items.keys() == self.new.items.keys() and all(key == there for key, there in self.there.items()) \
            and all(name == other for names in self.fields.values() for name, other in names.items())
        for key, there in self.there.items():
            for name in self.old.members.get(key, ()):
                self.named[name].add(key)
            for name in self.new.members.get(there, ()):
                self.taken[name].add(key)

    def members_of(self, key):
        """What each member of an item is called in the new tree. One that has its name still is that one; where only names
        differ, the place says which."""
        before, after = self.old.members.get(key, ()), self.new.members.get(self.there.get(key), ())
        found = {name: name for name in before if name in after}
        left, alone = [name for name in before if name not in after], [name for name in after if name not in before]
        return {**found, **dict(zip(left, alone))} if len(left) == len(alone) else found

    def is_field(self, name, other):
        """Whether a field by this name always has the other one in the new tree, whatever it is of."""
        owners = self.named[name] & self.taken[other]
        if name != other and (not owners or OF_STD & {name, other}):
            return False
        return all(self.fields[key].get(name) == other for key in owners)

    def fits(self, token, other):
        """Whether a token is the other one in the new tree."""
        if is_key(token):
            return self.mapped(token) == other
        if isinstance(token, str) and isinstance(other, str) and token[:1] == other[:1] == "." and len(token) > 1:
            if (token, other) not in self.fit:
                self.fit[token, other] = self.is_field(token[1:], other[1:])
            return self.fit[token, other]
        return token == other

    def is_same_part(self, part, other):
        return len(part[1]) == len(other[1]) and all(map(self.fits, part[1], other[1]))

    def is_same(self, item, other):
        if item is other and self.is_plain:
            return True
        return len(item.parts) == len(other.parts) and all(map(self.is_same_part, item.parts, other.parts)) and self.in_order(item, other)

    def in_order(self, item, other):
        """Whether the members are the same, in order."""
        names = self.fields.get(item.key, {})
        return not item.members or [names.get(name) for name in item.members] == other.members

    def differing(self, item, other):
        """The texts of the parts that differ, before and after."""
        if len(item.parts) == len(other.parts):
            found = [(a, b) for a, b in zip(item.parts, other.parts) if not self.is_same_part(a, b)]
            if found:
                return [a[2] for a, _ in found], [b[2] for _, b in found]
        names = self.fields.get(item.key, {})
        same = [(a, b) for a in item.parts for b in other.parts if names.get(a[0], a[0]) == b[0] and self.is_same_part(a, b)]
        before = [part for part in item.parts if not any(part is a for a, _ in same)]
        after = [part for part in other.parts if not any(part is b for _, b in same)]
        if not before and not after:
            before, after = item.parts, other.parts
        return [part[2] for part in before], [part[2] for part in after]


def is_free(a, b):
    """Whether both are functions of no type."""
    return a.key[1][:1] == b.key[1][:1] == ("mod",)


def place(key):
    """Where an item is, and its name, as one text."""
    return f"{key[1]} {key[2]}" if key[0] == "def" else "::".join((key[1], *key[2], key[3]))


def report(renaming):
    """What is to be said of two trees, line by line, and whether more than names differs."""
    leaves, left, alone = renaming.leaves()
    before, after = renaming.left()
    lines, same = [], 0
    rings = renaming.changed_places()
    pairs = [(renaming.old.items[key], renaming.new.items[there]) for key, there in sorted(renaming.there.items())]
    for item, other in pairs + sorted(leaves, key=lambda pair: pair[0].title):
        if renaming.is_same(item, other) and item.key not in rings:
            same += 1
            continue
        lines.append(f"differs: {item.title}" + (f" -> {other.title}" if item.title != other.title else ""))
        texts, others = renaming.differing(item, other) if item.key not in rings else ([], ["names change places"])
        lines += [f"  - {text}" for text in texts] + [f"  + {text}" for text in others]
    differ = sum(1 for line in lines if line.startswith("differs: "))
    lines += [f"only before: {title}" for title in sorted([place(key) for key in before] + [leaf.title for leaf in left])]
    lines += [f"only after: {title}" for title in sorted([place(key) for key in after] + [leaf.title for leaf in alone])]
    for key, there in sorted(renaming.there.items()):
        if key != there:
            lines.append(f"{'moved' if key[-1] == there[-1] else 'renamed'}: {place(key)} -> {place(there)}")
        lines += [f"renamed: {place(key)} .{name} -> .{other}" for name, other in renaming.fields[key].items() if name != other]
    lines += [f"renamed: {item.title} -> {other.title}" for item, other in leaves if item.key[0] == "fn" and item.key[-1] != other.key[-1]]
    removed, added = len(before) + len(left), len(after) + len(alone)
    lines.append(f"{same} the same but for names, {differ} differ in more, {removed} only before, {added} only after")
    return lines, 1 if differ or removed or added else 0
