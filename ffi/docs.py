"""What docs/C.md says, done: its lines compile its example, its session prints what it says, and
its function that shows what came does that.
Run by ffi/test; $TEXTPEER_FOLDER is the folder with the libraries, as `ffi/build` makes it or the release has it."""
import os
import pathlib
import platform
import re
import shutil
import socket
import subprocess
import tempfile
import unittest

TOP = pathlib.Path(__file__).resolve().parent.parent
PAGE = (TOP / "docs/C.md").read_text(encoding="utf-8")
RELEASE = f"dist/{platform.machine()}-{platform.system().lower()}"
# Around the function of the page that shows what a message brought: the functions of the example, and a program in which
# Ben writes in two places while Ann writes too, then a line, and then in forty places of it; Ann shows what comes to her.
SHOWS = r"""
#define main example
#include "ffi/example.c"
#undef main

static void show_splice(size_t at, size_t del, const char *text, size_t len)
{
    printf("%u -%u +%.*s\n", (unsigned)at, (unsigned)del, (int)len, text);
}

FUNCTION
static tp_handle ann, ben;
static size_t to_ben, to_ann;

static void exchange_all(void)
{
    size_t ben_len, ann_len;
    do {
        check(tp_generate(&ben, to_ann, &ben_len), "generate");
        uint8_t *message = answer(&ben, ben_len);
        if (ben_len)
            show_message(&ann, to_ben, message, ben_len);
        free(message);
        check(tp_generate(&ann, to_ben, &ann_len), "generate");
        message = answer(&ann, ann_len);
        if (ann_len)
            check(tp_receive(&ben, to_ann, message, ann_len), "receive");
        free(message);
    } while (ben_len || ann_len);
}

int main(void)
{
    static const uint8_t ANN[16] = {1}, BEN[16] = {2};
    static const tp_splice TWO[] = {{0, 3, 1}, {5, 0, 3}};
    tp_splice forty[40];
    char line[80], texts[40];
    check(tp_open(&ann.at), "open");
    check(tp_edit(&ann, ANN, 0, 0, "one two", 7, 0, NULL, 0, NULL), "edit");
    check(tp_fork(&ann, BEN, &ben.at), "fork");
    check(tp_link(&ann, &to_ben), "link");
    check(tp_link(&ben, &to_ann), "link");
    check(tp_edit(&ann, ANN, 7, 0, "!", 1, 0, NULL, 0, NULL), "edit");
    check(tp_edit_many(&ben, BEN, TWO, 2, "1\xe2\x82\xac", 4, 0, NULL, 0, NULL), "edit_many");
    exchange_all();
    memset(line, 'a', sizeof line);
    check(tp_edit(&ben, BEN, 0, 0, line, sizeof line, 0, NULL, 0, NULL), "edit");
    exchange_all();
    memset(texts, 'b', sizeof texts);
    for (size_t i = 0; i < 40; i++)
        forty[i] = (tp_splice){.at = 2 * i, .del = 1, .len = 1};
    check(tp_edit_many(&ben, BEN, forty, 40, texts, sizeof texts, 0, NULL, 0, NULL), "edit_many");
    exchange_all();
    tp_free(ann);
    tp_free(ben);
    return 0;
}
"""


def blocks(heading):
    """The blocks of commands under a heading: each command with the lines that it is to print."""
    section, found = PAGE.split(f"\n## {heading}\n", 1)[1].split("\n## ", 1)[0], [[]]
    for line in section.split("\n"):
        if line.startswith("    $ "):
            found[-1].append((line[6:], []))
        elif line.startswith("    ") and found[-1]:
            found[-1][-1][1].append(line[4:])
        elif line and found[-1]:
            found.append([])
    return [block for block in found if block]


def free_port():
    """A port of this machine that is free."""
    with socket.socket() as bound:
        bound.bind(("127.0.0.1", 0))
        return str(bound.getsockname()[1])


class Docs(unittest.TestCase):
    def setUp(self):
        """A folder with the release as a clone has it, and the sources that the page names."""
        folder = tempfile.TemporaryDirectory()
        self.addCleanup(folder.cleanup)
        self.folder = pathlib.Path(folder.name)
        release = self.folder / RELEASE
        shutil.copytree(os.environ["TEXTPEER_FOLDER"], release)
        (self.folder / "ffi").mkdir()
        for name in ("example.c", "install", "textpeer.h", "textpeer.pc"):
            shutil.copy(TOP / "ffi" / name, self.folder / "ffi")
        for name in ("textpeer.h", "textpeer.pc"):
            shutil.copy(TOP / "ffi" / name, release)
        (self.folder / "textpeer").symlink_to(TOP / "textpeer")

    def shell(self, *commands):
        """What commands print, one after another in one shell. Each has to be done."""
        words = ["bash", "-e", "-o", "pipefail", "-c", "\n".join(commands)]
        environment = {name: value for name, value in os.environ.items() if name not in ("PKG_CONFIG_PATH", "LD_LIBRARY_PATH", "FROM")}
        ran = subprocess.run(words, cwd=self.folder, env=environment, stdout=subprocess.PIPE, stderr=subprocess.STDOUT, text=True,
                             timeout=120, check=False)
        self.assertEqual(ran.returncode, 0, ran.stdout)
        return ran.stdout.splitlines()

    def test_the_example_is_there(self):
        self.assertTrue((TOP / "docs" / re.search(r"\]\((\S+/example\.c)\)", PAGE)[1]).is_file())

    def test_each_line_compiles(self):
        commands, compiled = [], 0
        for command, lines in (each for block in blocks("Compile and link") for each in block):
            self.assertEqual(lines, [])
            commands.append(command)
            if command.startswith("cc "):
                tried = ["rm -f example tried.journal", *commands, "./example tried.journal one"]
                self.assertEqual(self.shell(*tried), ["one", "0 entered"], command)
                compiled += 1
        self.assertEqual(compiled, 4)

    def test_the_session(self):
        self.shell(blocks("Compile and link")[0][0][0])
        (*first, (serve, served)), second = blocks("An example")
        port = free_port()
        for command, lines in first:
            self.assertEqual(self.shell(command), lines)
        serve, served = serve.replace("7000", port), [line.replace("7000", port) for line in served]
        with subprocess.Popen(["bash", "-c", f"exec {serve}"], cwd=self.folder, stdout=subprocess.PIPE, text=True) as server:
            self.assertEqual(server.stdout.readline().splitlines(), served[:1])
            self.assertEqual(self.shell(second[0][0].replace("7000", port)), second[0][1])
            self.assertEqual((server.stdout.read().splitlines(), server.wait(60)), (served[1:], 0))
        self.assertEqual(self.shell(second[1][0]), second[1][1])
        self.assertEqual(len(second), 2)

    def test_what_came_is_shown(self):
        section = PAGE.split("\n## What changed\n", 1)[1].split("\n## ", 1)[0]
        function = re.search(r"```c\n(.*?)```\n", section, re.S)[1]
        (self.folder / "shows.c").write_text(SHOWS.replace("FUNCTION\n", function), encoding="utf-8")
        printed = self.shell(f"cc -Wall -Wextra -Werror -Wno-unused-function -o shows shows.c -I{RELEASE} {RELEASE}/libtextpeer.a", "./shows")
        self.assertEqual(printed, ["0 -3 +1", "5 -0 +\u20ac", "0 -0 +" + 80 * "a", *(f"{2 * i} -1 +b" for i in range(40))])

    def test_a_refusal_is_said(self):
        self.shell(blocks("Compile and link")[0][0][0])
        ran = subprocess.run(["./example", "no/such.journal", "x"], cwd=self.folder, stderr=subprocess.PIPE, text=True, check=False)
        self.assertEqual((ran.returncode, ran.stderr),
                         (1, "create: Io (802): the file is not there, or can't be opened, locked or read\n"))


if __name__ == "__main__":
    unittest.main()
