"""Puts libconiks.so, which embed/build makes, into the package. The rest is in pyproject.toml."""

from __future__ import annotations

import atexit
import shutil
import sys
import tempfile
from pathlib import Path

from setuptools import setup  # type: ignore[import]
from setuptools.command.build_py import build_py  # type: ignore[import]

try:
    from setuptools.command.bdist_wheel import bdist_wheel  # type: ignore[import]
except ImportError:
    try:
        from wheel.bdist_wheel import bdist_wheel  # type: ignore[import]
    except ImportError:
        sys.exit("the package wheel is missing: install it (pip install wheel), or setuptools from version 70.1 on")

LIBRARY = Path(__file__).resolve().parent.parent / "out" / "libconiks.so"
# Keeps the checkout free of what a build leaves.
ROOM = tempfile.mkdtemp()
atexit.register(shutil.rmtree, ROOM, ignore_errors=True)


class WithLibrary(build_py):  # type: ignore[misc]
    """Copies the shared library beside the module. An editable install finds it in embed/out."""

    def run(self) -> None:
        super().run()
        if not LIBRARY.exists():
            sys.exit(f"{LIBRARY} is missing: run embed/build first")
        if not getattr(self, "editable_mode", False):
            self.copy_file(str(LIBRARY), str(Path(self.build_lib) / "coniks" / LIBRARY.name))


class OfPlatform(bdist_wheel):  # type: ignore[misc]
    """A wheel for any Python 3 on this platform."""

    def finalize_options(self) -> None:
        super().finalize_options()
        self.root_is_pure = False

    def get_tag(self) -> tuple[str, str, str]:
        return "py3", "none", super().get_tag()[2]


setup(
    cmdclass={"build_py": WithLibrary, "bdist_wheel": OfPlatform},
    options={"build": {"build_base": ROOM}, "egg_info": {"egg_base": ROOM}},
)
