"""The wheel of the module.

It has the library inside if the environment's UCA_LIBRARY names it, or if bindings/c/out has it. Then it is for the platform
of this machine alone. A wheel without the library is for all platforms, and its module looks for the library when it is imported.
packaging/wheel.py makes a wheel for all Linux systems of a kind. The licenses of the repository are copied beside this file, since
setuptools puts into a wheel only those that are there.
"""
import os
import shutil

from setuptools import Distribution, setup
from setuptools.command.build_py import build_py

try:
    from setuptools.command.bdist_wheel import bdist_wheel
except ImportError:
    from wheel.bdist_wheel import bdist_wheel

HERE = os.path.dirname(os.path.abspath(__file__))
MADE = os.path.join(HERE, "..", "c", "out", "libuca.so.1")
LIBRARY = os.environ.get("UCA_LIBRARY") or (MADE if os.path.exists(MADE) else None)

LICENSES = ("LICENSE", "LICENSE-MIT", "LICENSE-APACHE", "NOTICE")


def copy_licenses():
    """Copies the licenses of the repository, where this is a folder of it."""
    for name in LICENSES:
        source = os.path.join(HERE, "..", "..", name)
        if os.path.exists(source):
            shutil.copy(source, os.path.join(HERE, name))


class Platform(Distribution):
    """The module is for one platform if the library is inside."""

    def has_ext_modules(self):
        return LIBRARY is not None


class Module(build_py):
    """The module, and the library beside it."""

    def run(self):
        super().run()
        if LIBRARY and not getattr(self, "editable_mode", False):
            shutil.copy(LIBRARY, os.path.join(self.build_lib, "uca", "libuca.so.1"))


class Wheel(bdist_wheel):
    """One wheel serves every Python 3, since the module calls the library by ctypes."""

    def get_tag(self):
        return ("py3", "none", super().get_tag()[2])


copy_licenses()
setup(distclass=Platform, cmdclass={"build_py": Module, "bdist_wheel": Wheel})
