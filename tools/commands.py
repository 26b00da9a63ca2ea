"""What the tools that make pages and completions share: the commands of the program, as its help says them."""
import os
import re
import subprocess
import sys
from dataclasses import dataclass

from tree import TOP

# The values that a shell has something to offer for, a file or the hash of a change, and the other values.
FILE, HASH, OTHER = "file", "hash", "other"
KINDS = {"FILE": FILE, "OTHER": FILE, "OUT": FILE, "SAVED": FILE, "LOG": FILE, "SCRIPT": FILE, "TEXT": FILE, "NOTE": FILE,
         "HASH": HASH, "ADDR": OTHER, "AT": OTHER, "PAGE": OTHER}
# The options that ask for help or the version.
ASKING = ("--help", "--version")
SECTION = re.compile(r"^(Commands|Arguments|Options|Anywhere before --|Example):\n((?:  .*(?:\n|\Z))+)", re.M)
VALUE = re.compile(r"  [<\[](\w+)[>\]](\.\.\.)? +(.+)")
OPTION = re.compile(r"  (?:(-\w), |    )(--[\w-]+)(?: (<\w+>|\[<\w+>\])(\.\.\.)?)?  +(.+)")


@dataclass
class Value:
    """A value by its place: its name, whether it has to be given, whether several may be, and what it is."""

    name: str
    is_required: bool
    is_many: bool
    about: str

    @property
    def kind(self):
        """What it is."""
        return KINDS.get(self.name) or sys.exit(f"tools/commands.py: KINDS doesn't say what {self.name} is")

    @property
    def shown(self):
        """As a synopsis has it."""
        name = self.name if self.is_required else f"[{self.name}"
        return f"{name}{' ..' if self.is_many else ''}{'' if self.is_required else ']'}"


@dataclass
class Option:
    """An option: its short name if it has one, its name, that of its value if it takes one, in brackets where it may be left
    out, whether several may come after it, whether it has to be given, and what it is for."""

    short: str
    name: str
    value: str
    is_many: bool
    is_required: bool
    about: str

    @property
    def has_value(self):
        """Whether a value always comes after it."""
        return bool(self.value) and not self.value.startswith("[")

    @property
    def shown(self):
        """As a synopsis has it."""
        words = " ".join(filter(None, [self.name, self.value, ".." if self.is_many else ""]))
        return words if self.is_required else f"[{words}]"


@dataclass
class Command:
    """A command: its name, what it does, its values, its options but for those for help, and the lines of an example.
    Where there are hashes of changes among its values, the first one is the journal that has the changes."""

    name: str
    about: str
    values: list
    options: list
    example: list

    @property
    def shown(self):
        """Its words, as a synopsis has them."""
        return [self.name, *(each.shown for each in [*self.values, *self.options])]


@dataclass
class Program:
    """The program: its name, its version, what it does, its commands, the options of the program and of each command
    that ask for help or the version, and the options that may be anywhere."""

    name: str
    version: str
    about: str
    commands: list
    options: list
    command_options: list
    anywhere: list


def said_by(*words):
    """What the program prints: $TEXTPEER_PROGRAM, or else the one that ./textpeer finds."""
    program = os.environ.get("TEXTPEER_PROGRAM") or TOP / "textpeer"
    return subprocess.run([program, *words], stdout=subprocess.PIPE, text=True, check=True).stdout


def lines_of(sections, name, shape):
    """The parts of each line of a section, which all have to have the shape."""
    found = []
    for line in sections.get(name, "").splitlines():
        match = shape.fullmatch(line)
        if not match:
            sys.exit(f"tools/commands.py: the help has a line of another shape: {line}")
        found.append(match.groups())
    return found


def options_of(sections, usage, section="Options"):
    """The options of a section of a help: those of the usage have to be given."""
    return [Option(short, name, re.sub("[<>]", "", value or ""), many is not None, f" {name} " in usage, about)
            for short, name, value, many, about in lines_of(sections, section, OPTION)]


def read_command(name):
    """A command, as its help says it, and its options for help."""
    text = said_by(name, "--help")
    about, sections = text.partition("\n")[0], dict(SECTION.findall(text))
    usage = re.search(r"^Usage: (.+)$", text, re.M)[1]
    values = [Value(value, f"<{value}>" in usage, many is not None, what)
              for value, many, what in lines_of(sections, "Arguments", VALUE)]
    options = options_of(sections, usage)
    example = [line[2:] for line in sections["Example"].splitlines()]
    return (Command(name, about, values, [option for option in options if option.name not in ASKING], example),
            [option for option in options if option.name in ASKING])


def read_program():
    """The program, as it prints its help."""
    text = said_by("--help")
    sections, read, asking = dict(SECTION.findall(text)), [], []
    for name, about in lines_of(sections, "Commands", re.compile(r"  (\w+) +(.+)")):
        command, asking = read_command(name)
        if command.about != about:
            sys.exit(f"tools/commands.py: the help says `{about}` of `{name}`, and its own `{command.about}`")
        read.append(command)
    name, version = said_by("--version").split()[:2]
    return Program(name, version, text.partition("\n")[0], read, options_of(sections, ""), asking,
                   options_of(sections, "", "Anywhere before --"))


def keep(made, words, doc):
    """Writes the files that a tool makes, each by its path from the top with its text; for `--is-here` says which
    differ from what is there. Answers the exit status."""
    if words not in ([], ["--is-here"]):
        print(doc.strip(), file=sys.stderr)
        return 2
    differ = 0
    for path, text in made.items():
        file = TOP / path
        if not words:
            file.parent.mkdir(exist_ok=True)
            file.write_text(text, encoding="utf-8")
        elif not file.is_file() or file.read_text(encoding="utf-8") != text:
            print(f"{path}: not what is made of the program's help now")
            differ += 1
    return 1 if differ else 0
