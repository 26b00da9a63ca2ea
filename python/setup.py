"""Puts the engine's library into what setuptools builds of the package, as for `pip install ./python`: that of
$TEXTPEER_LIB, else the one that ffi/build made, else the release's. `tools/wheel` makes the release's wheel, without
this."""
import os
import platform
import shutil
from pathlib import Path

from setuptools import setup
from setuptools.command.build_py import build_py
from setuptools.dist import Distribution

NAME = "libtextpeer.so.0"
TOP = Path(__file__).resolve().parent.parent
PLACES = [TOP / "ffi/out" / NAME, TOP / "dist" / f"{platform.machine()}-{platform.system().lower()}" / NAME]


class WithLibrary(build_py):
    """The package's files and the library; an editable install takes the clone's library where it is."""

    def run(self):
        super().run()
        if getattr(self, "editable_mode", False):
            return
        place = os.environ.get("TEXTPEER_LIB") or next(filter(Path.is_file, PLACES), None)
        if place is None:
            raise SystemExit(f"textpeer: the engine's library is in none of {', '.join(map(str, PLACES))}: ffi/build makes it")
        shutil.copyfile(place, Path(self.build_lib) / "textpeer" / NAME)


class ForOnePlatform(Distribution):
    """What is built runs on this platform alone."""

    def has_ext_modules(self):
        return True


setup(cmdclass={"build_py": WithLibrary}, distclass=ForOnePlatform)
