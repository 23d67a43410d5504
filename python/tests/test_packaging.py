"""The wheel, the source distribution and the editable installation, where a Python has setuptools and wheel."""

from __future__ import annotations

import os
import shutil
import subprocess
import sys
import tempfile
import unittest
import zipfile
from functools import lru_cache
from pathlib import Path

import batsokemi
from batsokemi import engine

from .engines import TOP

TAG = 'py3-none-manylinux_2_34_x86_64'
USE = 'import batsokemi; print(batsokemi.default_engine().path, batsokemi.synth("0110").verdict)'


@lru_cache(maxsize=None)
def builder() -> str | None:
    """A Python that has setuptools and wheel."""
    for python in (sys.executable, '/usr/bin/python3'):
        asked = [python, '-c', 'import setuptools, wheel, sys; sys.exit(sys.version_info < (3, 9))']
        if os.path.exists(python) and subprocess.run(asked, capture_output=True, check=False).returncode == 0:
            return python
    return None


def copied(folder: str) -> Path:
    """A copy of what the package is built from, so that the checkout stays as it is."""
    top = Path(folder, 'checkout')
    (top / 'prebuilt' / 'x86_64-linux').mkdir(parents=True)
    shutil.copyfile(engine.find_library() or '', top / 'prebuilt' / 'x86_64-linux' / 'libbatsokemi.so')
    left_out = shutil.ignore_patterns('tests', '__pycache__', 'build', 'dist', '*.egg-info')
    shutil.copytree(TOP / 'python', top / 'python', symlinks=True, ignore=left_out)
    return top / 'python'


def built(what: str, source: Path, folder: str) -> Path:
    """What the backend builds, as build and pip call it."""
    said = f'import sys; from setuptools import build_meta; print(build_meta.{what}(sys.argv[1]))'
    kept = {key: value for key, value in os.environ.items() if not key.startswith(('BATSOKEMI_', 'PYTHON'))}
    words = [str(builder()), '-c', said, folder]
    done = subprocess.run(words, cwd=source, capture_output=True, text=True, check=False, env=kept)
    if done.returncode:
        raise AssertionError(done.stdout + done.stderr)
    return Path(folder, done.stdout.splitlines()[-1])


@unittest.skipUnless(engine.find_library() and builder(), 'no library is here, or no setuptools and wheel')
class Packages(unittest.TestCase):
    def test_wheel(self) -> None:
        """The wheel has the package, its types, the library and the licences, and what it has can be used; that of a
        source distribution has the same."""
        with tempfile.TemporaryDirectory() as folder:
            wheel = built('build_wheel', copied(folder), folder)
            self.assertEqual(wheel.name, f'batsokemi-{batsokemi.__version__}-{TAG}.whl')
            source = built('build_sdist', Path(folder, 'checkout', 'python'), folder)
            shutil.unpack_archive(source, Path(folder, 'source'))
            shutil.rmtree(Path(folder, 'checkout'))
            unpacked = Path(folder, 'source', f'batsokemi-{batsokemi.__version__}')
            again = built('build_wheel', unpacked, str(unpacked.parent))
            names, others = (set(zipfile.ZipFile(path).namelist()) for path in (wheel, again))
            self.assertEqual((again.name, names), (wheel.name, others))
            wanted = {'py.typed', 'libbatsokemi.so', 'tools/export.py', '__main__.py'}
            self.assertLessEqual({f'batsokemi/{name}' for name in wanted}, names)
            self.assertEqual(sum('LICENSE-' in name for name in names), 2)
            self.used(wheel, Path(folder, 'used'))

    def used(self, wheel: Path, folder: Path) -> None:
        with zipfile.ZipFile(wheel) as packed:
            packed.extractall(folder)
            about = packed.read(f'batsokemi-{batsokemi.__version__}.dist-info/METADATA').decode()
            entries = packed.read(f'batsokemi-{batsokemi.__version__}.dist-info/entry_points.txt').decode()
        for line in ('License: MIT OR Apache-2.0', 'Requires-Python: >=3.9', 'Description-Content-Type: text/markdown'):
            self.assertIn(line.removeprefix('License: '), about)
        self.assertIn('batsokemi-tools = batsokemi.tools:main', entries)
        kept = {key: value for key, value in os.environ.items() if not key.startswith('BATSOKEMI_')}
        done = subprocess.run(
            [sys.executable, '-c', USE], capture_output=True, text=True, check=False, cwd=folder,
            env={**kept, 'PYTHONPATH': str(folder)},
        )  # fmt: skip
        self.assertEqual(done.stdout, f'{folder.resolve()}/batsokemi/libbatsokemi.so minimum 1\n')

    def test_editable(self) -> None:
        """An editable installation is a path to the package, where type checkers find it."""
        with tempfile.TemporaryDirectory() as folder:
            source = copied(folder)
            with zipfile.ZipFile(built('build_editable', source, folder)) as wheel:
                paths = [name for name in wheel.namelist() if name.endswith('.pth')]
                self.assertEqual([wheel.read(path).decode().strip() for path in paths], [str(source.resolve())])
                self.assertFalse([name for name in wheel.namelist() if name.startswith('batsokemi/')])
