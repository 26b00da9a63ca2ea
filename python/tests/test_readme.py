"""The sessions of README.md print what it says, with a server of the program `textpeer`, and on a port that is free."""
import doctest
import os
import pathlib
import re
import subprocess
import tempfile
import unittest

PROGRAM = os.environ.get("TEXTPEER_PROGRAM") or str(pathlib.Path(__file__).resolve().parents[2] / "textpeer")
README = (pathlib.Path(__file__).resolve().parents[1] / "README.md").read_text(encoding="utf-8")


class Readme(unittest.TestCase):
    def test_sessions(self):
        place = os.getcwd()
        self.addCleanup(os.chdir, place)
        with tempfile.TemporaryDirectory() as folder:
            os.chdir(folder)
            *makes, serve = re.findall(r"^    \$ ((?:textpeer|cp) .*)$", README, re.M)
            for command in makes:
                subprocess.run(command.replace("textpeer ", f"'{PROGRAM}' "), shell=True, check=True, stdout=subprocess.DEVNULL)
            words = [PROGRAM, *serve.replace(":7000", ":0").split()[1:]]
            with subprocess.Popen(words, stdout=subprocess.PIPE, text=True) as server:
                try:
                    port = re.fullmatch(r"listening (\d+)\n", server.stdout.readline())[1]
                    said = doctest.DocTestParser().get_doctest(README.replace("7000", port), {}, "README.md", "README.md", 0)
                    ran = doctest.DocTestRunner().run(said)
                finally:
                    server.terminate()
        self.assertEqual((len(makes), ran.failed), (3, 0))
        self.assertGreater(ran.attempted, 10)


if __name__ == "__main__":
    unittest.main()
