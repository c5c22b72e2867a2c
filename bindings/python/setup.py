"""The build of the extension; pyproject.toml has the rest."""
import pathlib
import sys

from setuptools import setup

sys.path.insert(0, str(pathlib.Path(__file__).resolve().parent))
import build_library  # noqa: E402

setup(version=build_library.version(), packages=["capgauze", "capgauze.cli"], package_data={"capgauze": ["py.typed"]}, zip_safe=False,
      data_files=[("share/man/man1", ["capgauze.1"])], cffi_modules=["build_library.py:make"])
