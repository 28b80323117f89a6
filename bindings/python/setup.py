"""Puts the shared library of the release into the package, if it is in a checkout of witcall."""

import pathlib
import re
import runpy

from setuptools import Distribution, setup
from setuptools.command.build_py import build_py

try:
    from setuptools.command.bdist_wheel import bdist_wheel
except ImportError:  # setuptools before 70.1
    try:
        from wheel.bdist_wheel import bdist_wheel
    except ImportError:  # pip says that there is no such command
        bdist_wheel = None

RELEASED = runpy.run_path(str(pathlib.Path(__file__).with_name("witcall") / "_released.py"))
LIBRARY = RELEASED["library"]() if RELEASED["is_there"]() else None


def platform_of(library):
    """The platform of a library: the oldest glibc that has all that it needs, on x86-64."""
    needed = map(int, re.findall(rb"\0GLIBC_2\.(\d+)(?=[.\0])", library))
    return f"manylinux_2_{max(needed)}_x86_64"


class BuildWithLibrary(build_py):
    """Builds the package, and puts the version and the shared library into it."""

    def run(self):
        super().run()
        target = pathlib.Path(self.build_lib, "witcall")
        if not target.is_dir():
            return
        (target / "VERSION").write_text(f"{self.distribution.get_version()}\n", encoding="utf-8")
        if LIBRARY is not None:
            (target / RELEASED["NAME"]).write_bytes(LIBRARY)


class DistributionOfOnePlatform(Distribution):
    """Says that a package with a library is for its platform."""

    def has_ext_modules(self):
        return LIBRARY is not None


commands = {"build_py": BuildWithLibrary}

if bdist_wheel is not None:

    class WheelOfOnePlatform(bdist_wheel):
        """Makes a wheel for each Python: no code of the package is compiled for one of them."""

        def get_tag(self):
            return super().get_tag() if LIBRARY is None else ("py3", "none", platform_of(LIBRARY))

    commands["bdist_wheel"] = WheelOfOnePlatform

setup(cmdclass=commands, distclass=DistributionOfOnePlatform)
