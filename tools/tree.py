"""What the tools of this folder share: the crates of a tree, libraries that are proved, for another tree, and the files of
the release."""
import fcntl
import os
import platform
import re
import shutil
from pathlib import Path

TOP = Path(__file__).resolve().parent.parent
DIST = TOP / "dist"
PLACE = Path(f"{platform.machine()}-{platform.system().lower()}")
# What a tree has of the release once it was built there, each as a pattern that one file has.
MADE = ["crates/textpeer/out/textpeer", "ffi/out/libtextpeer.a", "ffi/out/libtextpeer.so.0", "ffi/out/textpeer.h",
        "ffi/out/textpeer.pc", "python/out/textpeer-*.whl"]


def unwrapped(page):
    """A page of Markdown with each paragraph and each item on one line, however its lines are wrapped."""
    made, in_code, goes_on = [], False, False
    for line in page.split("\n"):
        is_fence = bool(re.match(r"\s*(```|~~~)", line))
        in_code = in_code != is_fence
        is_prose = bool(line.strip()) and not (in_code or is_fence or re.match(r"[|#<]", line))
        if goes_on and is_prose and not re.match(r"\s*([-*+>]|\d+[.)]) ", line):
            made[-1] += f" {line.strip()}"
        else:
            made.append(line)
            # Lines that are indented by four are code, but within a paragraph.
            goes_on = is_prose and not re.match(r" {4}|\t", line)
    return "\n".join(made)


def one_file(folder, pattern):
    """The file of the folder that has the pattern; the pattern itself, which no file has, where there isn't just
    one."""
    found = list(folder.glob(pattern))
    return found[0] if len(found) == 1 else folder / pattern


def in_tree(tree):
    """The files of the release in a tree that was built."""
    return [one_file(tree, made) for made in MADE]


def in_release():
    """The files of the release."""
    return [one_file(DIST / PLACE, Path(made).name) for made in MADE]


def read_uses(tree):
    """The crates of a tree, each with its line in crates.txt and those of the tree that it names."""
    lines = {}
    for line in (tree / "crates.txt").read_text(encoding="utf-8").splitlines():
        head, _, deps = line.partition("#")[0].partition(":")
        if head.strip():
            lines[head.split()[0]] = (line, deps.split())
    return {crate: (line, [dep for dep in deps if dep in lines]) for crate, (line, deps) in lines.items()}


def below(uses, crates):
    """The crates below any of these, lowest first."""
    found = []

    def visit(crate):
        for dep in uses[crate][1]:
            visit(dep)
            if dep not in found:
                found.append(dep)

    for crate in crates:
        visit(crate)
    return found


def link(source, target):
    """The same file under another name; a copy where the file systems have no such links."""
    try:
        os.link(source, target)
    except OSError:
        shutil.copy2(source, target)


def link_proved(tree, crates):
    """Gives another tree the libraries that are proved here. Where `rt` works on one, its end is waited for.

    Whether they are proved there too is for `rt` to say, by a sum of all sources.
    """
    for crate in crates:
        made = TOP / "crates" / crate / "out/rlib"
        if (made / "stamp").is_file():
            held = os.open(TOP / "crates" / crate, os.O_RDONLY)
            fcntl.flock(held, fcntl.LOCK_SH)
            shutil.copytree(made, tree / "crates" / crate / "out/rlib", copy_function=link)
            os.close(held)
