"""What pyproject.toml can't say: the library comes from the checkout, and the wheel is tagged for its glibc.

The library is prebuilt/x86_64-linux/libbatsokemi.so of the checkout, or what BATSOKEMI_LIBRARY names; a source
distribution has it in the package. It is the same for every Python, and runs with glibc 2.34 or later.
"""

from __future__ import annotations

import os
import platform
import shutil
import sys
from pathlib import Path

from setuptools import Distribution, setup
from setuptools.command.build_py import build_py
from setuptools.command.sdist import sdist

try:
    from setuptools.command.bdist_wheel import bdist_wheel
except ImportError:
    from wheel.bdist_wheel import bdist_wheel

HERE = Path(__file__).resolve().parent
NAME = 'libbatsokemi.so'
GLIBC = 'manylinux_2_34_x86_64'


def library() -> Path:
    """The library to be packed: the one that BATSOKEMI_LIBRARY names, a source distribution's, or the checkout's."""
    places = [HERE / 'batsokemi' / NAME, HERE.parent / 'prebuilt' / 'x86_64-linux' / NAME]
    if os.environ.get('BATSOKEMI_LIBRARY'):
        places = [Path(os.environ['BATSOKEMI_LIBRARY'])]
    elif sys.platform != 'linux' or platform.machine() != 'x86_64':
        places = []
    found = next((place for place in places if place.is_file()), None)
    if found is None:
        raise SystemExit(f'no {NAME} for this machine: tools/release makes it, and BATSOKEMI_LIBRARY names another one')
    return found


class BuildWithLibrary(build_py):
    """The package and the library; an editable installation uses that of the checkout."""

    def run(self) -> None:
        super().run()
        if not getattr(self, 'editable_mode', False):
            shutil.copyfile(library(), Path(self.build_lib, 'batsokemi', NAME))

    def get_outputs(self, include_bytecode: bool = True) -> list[str]:
        mine = [] if getattr(self, 'editable_mode', False) else [str(Path(self.build_lib, 'batsokemi', NAME))]
        return [*super().get_outputs(include_bytecode), *mine]


class SourceWithLibrary(sdist):
    """A source distribution with the library in it."""

    def make_release_tree(self, base_dir: str, files: list[str]) -> None:
        super().make_release_tree(base_dir, files)
        shutil.copyfile(library(), Path(base_dir, 'batsokemi', NAME))


class TaggedWheel(bdist_wheel):
    """A wheel for every Python 3 on a machine with the library's glibc."""

    def finalize_options(self) -> None:
        super().finalize_options()
        self.root_is_pure = False

    def get_tag(self) -> tuple[str, str, str]:
        system = GLIBC if platform.machine() == 'x86_64' else f'linux_{platform.machine()}'
        return 'py3', 'none', system


class WithLibrary(Distribution):
    """A distribution with compiled code, so that it isn't taken for pure Python."""

    def has_ext_modules(self) -> bool:
        return True


setup(
    license='MIT OR Apache-2.0',
    distclass=WithLibrary,
    cmdclass={'build_py': BuildWithLibrary, 'sdist': SourceWithLibrary, 'bdist_wheel': TaggedWheel},
)
