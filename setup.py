"""Makes the package of pyproject.toml: beside the module for Python the folder vrptw_home of the wheel has what the
commands run, at the paths that it has here. release/home.py lists it."""
import os
import shutil
import sys

from setuptools import Distribution, setup
from setuptools.command.build_py import build_py

try:
    from setuptools.command.bdist_wheel import bdist_wheel
except ImportError:
    from wheel.bdist_wheel import bdist_wheel

TOP = os.path.dirname(os.path.abspath(__file__))
sys.path.insert(0, os.path.join(TOP, "release"))
import home

# What the released program needs: release/README.md.
TAG = ("py3", "none", "manylinux_2_34_x86_64")


class Built(Distribution):
    """A package that has a program."""

    def has_ext_modules(self):
        return True


class WithHome(build_py):
    """Puts the files of the commands beside the module, and leaves nothing there of an earlier build."""

    def run(self):
        if getattr(self, "editable_mode", False):
            super().run()
            return
        shutil.rmtree(self.build_lib, ignore_errors=True)
        super().run()
        for path in home.home_files():
            target = os.path.join(self.build_lib, "vrptw_home", path)
            self.mkpath(os.path.dirname(target))
            self.copy_file(os.path.join(TOP, path), target)


class OfLinux(bdist_wheel):
    """A wheel for any Python on x86-64 Linux with the C library of the program."""

    def get_tag(self):
        return TAG


os.makedirs(os.path.join(TOP, "out"), exist_ok=True)
setup(
    distclass=Built,
    cmdclass={"build_py": WithHome, "bdist_wheel": OfLinux},
    entry_points={"console_scripts": ["vrptw = vrptw.commands:program",
                                      *("vrptw-%s = vrptw.commands:%s" % (name, name) for name in home.tools())]},
    data_files=[(folder, [path]) for path, folder in home.SHARED.items()],
    options={"build": {"build_base": os.path.join("out", "wheel")}, "egg_info": {"egg_base": "out"}},
)
