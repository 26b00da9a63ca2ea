"""What the tools read in specs/, proofs/ and src/: items, and the names of others in them."""
import re

WORD = re.compile(r"[^\s(){}\[\],;]+")
IMPORT = re.compile(r"use Rattle\.([\w.]+?)(?:\.\{([^}]*)\}| as (\w+))", re.S)
HEAD = re.compile(r"(?:(?:abbrev|unfoldable|pub|record|data|ruleset) )*(\S+)")
SIGNATURE = re.compile(r"(abbrev|unfoldable|pub|record|data|ruleset) |\S+ :")
NO_ITEM = re.compile(r"(pub )?(use|mod) |unfolding |infix|[\s)\]}(]|$")


def read(path):
    """The text of a file without its comments; lines keep their numbers."""
    text = path.read_text(encoding="utf-8")
    return re.sub(r"//.*" if path.suffix == ".rt" else r"(?<!\S)--(?!\S).*", "", text)


def module_of(path):
    """The module of a file of specs/ or proofs/, as an import names it."""
    return ".".join(path.relative_to("crates").with_suffix("").parts)


def imports_of(text):
    """What each imported word means: a module and a name, or a module alone where the word is its other name."""
    words = {}
    for module, names, other in IMPORT.findall(text):
        if other:
            words[other] = (module, None)
        for name in re.split(r",\s*", names.strip()):
            first, _, last = name.partition(" as ")
            words[last or first] = (module, first)
    return words


def plain(word):
    """A name without the places of its operands."""
    return word and word.replace("◌", "")


def imports_and_passed_on(texts):
    """Of each module what its imported words mean, and what each word means that a module passes on."""
    imports, passed_on = {}, {}
    for path, text in texts.items():
        module = module_of(path)
        onward = "\n".join(re.findall(r"^pub (use .*)", text, re.M))
        passed_on.update({(module, word): (there, name) for word, (there, name) in imports_of(plain(onward)).items()})
        imports[module] = {plain(word): (there, plain(name)) for word, (there, name) in imports_of(text).items()}
    return imports, passed_on


def named_in(text, imports, module=None):
    """The items, as module and name, that a text names."""
    for match in WORD.finditer(plain(text)):
        first, *rest = match.group().rstrip(".").split(".")
        there, name = imports.get(first, (module, first))
        if name is None and rest:
            name = rest[0]
        yield there, name
        yield module, first
    for path in re.findall(r"(?:\w+::)+\w+", text):
        *there, name = path.split("::")
        yield ".".join(there), name


def items_of(path, text):
    """The definitions and lemmas of a file of specs/ or proofs/: the name, its line and its text. A case of an operator,
    which begins with an operand, is of the one before it."""
    items, name, module = {}, None, ""
    for number, line in enumerate(text.split("\n"), 1):
        if line.startswith("module "):
            module, name = line, None
            continue
        if module and line.startswith("  "):
            line = line[2:]
        elif line:
            module = ""
        if not NO_ITEM.match(line):
            name = plain(HEAD.match(line).group(1)) if SIGNATURE.match(line) or not name else name
            items.setdefault(name, [number, module + "\n"])
        elif re.match(r"(pub )?(use|mod) ", line):
            name = None
        if name:
            items[name][1] += line + "\n"
    return items
