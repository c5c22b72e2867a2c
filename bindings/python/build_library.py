"""Makes the extension capgauze._capgauze: what setup.py has cffi build.

The header is the one declaration: cffi is told what header.py finds in it, and its enums and numbers are written to
capgauze/_declared.py. The library is the proved archive, $CAPGAUZE_ARCHIVE or target/staticlib/libcapgauze_c.a; where there is
none, an installed libcapgauze that pkg-config finds.
"""
from __future__ import annotations

import os
import pathlib
import re
import subprocess
import sys
from typing import NamedTuple

HERE = pathlib.Path(__file__).resolve().parent
sys.path.insert(0, str(HERE))
import header  # noqa: E402

ROOT = HERE.parent.parent
NOT_BUILT = ("the library is not built: `tools/build.sh library` proves and writes target/staticlib/libcapgauze_c.a; "
             "or set CAPGAUZE_ARCHIVE to an archive, or PKG_CONFIG_PATH to where capgauze.pc was installed")
# A class for each enum of the header, by its first member, and what its members' names begin with.
ENUMS = {"CAPGAUZE_ACCEPTED": ("Refusal", "CAPGAUZE_"), "CAPGAUZE_VARINT": ("WireType", "CAPGAUZE_"),
         "CAPGAUZE_FROM_NONE": ("Supplier", "CAPGAUZE_FROM_"), "CAPGAUZE_GRADE_NOT_CANONICAL": ("Grade", "CAPGAUZE_GRADE_")}


class Library(NamedTuple):
    """Where the header lies, and what the linker is told."""

    header: pathlib.Path
    link: list[str]
    objects: list[str]


def find() -> Library:
    """The archive, or what pkg-config knows; SystemExit with one line where there is neither."""
    named = os.environ.get("CAPGAUZE_ARCHIVE")
    archive = pathlib.Path(named) if named else ROOT / "target/staticlib/libcapgauze_c.a"
    if archive.is_file():
        return Library(HERE.parent / "c/capgauze.h", [], [str(archive.resolve())])
    if named:
        raise SystemExit(f"capgauze: there is no archive {named}: {NOT_BUILT}")
    folder, link = _asked("--variable=includedir"), _asked("--libs", "--static")
    if folder is None or link is None:
        raise SystemExit(f"capgauze: {NOT_BUILT}")
    searched = [f"-Wl,-rpath,{word[2:]}" for word in link.split() if word.startswith("-L")]
    return Library(pathlib.Path(folder.strip()) / "capgauze.h", [*link.split(), *searched], [])


def _asked(*question: str) -> str | None:
    try:
        asked = subprocess.run(["pkg-config", *question, "capgauze"], capture_output=True, text=True)
    except OSError:
        return None
    return asked.stdout.strip() if asked.returncode == 0 and asked.stdout.strip() else None


def declared_text(declared: header.Declared) -> str:
    """The text of capgauze/_declared.py."""
    lines = ['"""The numbers of capgauze.h, made from it by build_library.py. Not for editing."""', "from ._number import Number", ""]
    lines += [f"{name.removeprefix('CAPGAUZE_')} = {number}" for name, number in declared.numbers.items()]
    lines += [f"{name.removeprefix('CAPGAUZE_')} = {text!r}" for name, text in declared.texts.items()]
    lines += [f"PACKAGE_VERSION = {version_of(declared)!r}"]
    for enum in declared.enums:
        first = next(iter(enum.members))
        if first not in ENUMS:
            raise SystemExit(f"capgauze: build_library.py has no name for the enum of {first}")
        name, prefix = ENUMS[first]
        lines += ["", "", f"class {name}(Number):"]
        lines += [f"    {member.removeprefix(prefix)} = {number}" for member, number in enum.members.items()]
        meanings = {member.removeprefix(prefix): _in_numbers(said, declared) for member, said in enum.meanings.items()}
        lines += ["", "", f"{name.upper()}_MEANINGS: dict[str, str] = {{"]
        lines += [f"    {member!r}: {said!r}," for member, said in meanings.items()] + ["}"]
    return "\n".join(lines) + "\n"


def _in_numbers(said: str, declared: header.Declared) -> str:
    """A comment with numbers where it names a macro."""
    return re.sub(r"\bCAPGAUZE_\w+", lambda found: f"{declared.numbers[found[0]]:,}" if found[0] in declared.numbers else found[0], said)


def version() -> str:
    """The package's version."""
    return version_of(header.read(find().header.read_text()))


def version_of(declared: header.Declared) -> str:
    """The header's version, or the Rust crate's where the header has none."""
    if "CAPGAUZE_VERSION" in declared.texts:
        return declared.texts["CAPGAUZE_VERSION"]
    parts = [declared.numbers.get(f"CAPGAUZE_VERSION_{part}") for part in ("MAJOR", "MINOR", "PATCH")]
    if None not in parts:
        return ".".join(map(str, parts))
    lines = (ROOT / "bindings/rust/Cargo.toml").read_text().splitlines()
    return next(line.split('"')[1] for line in lines if line.startswith("version = "))


def make():  # type: ignore[no-untyped-def]
    """The builder for setup.py; it writes capgauze/_declared.py on the way."""
    import cffi

    library = find()
    declared = header.read(library.header.read_text())
    text, path = declared_text(declared), HERE / "capgauze/_declared.py"
    if not path.is_file() or path.read_text() != text:
        path.write_text(text)
    builder = cffi.FFI()
    builder.cdef(declared.cdef)
    builder.set_source("capgauze._capgauze", '#include "capgauze.h"', include_dirs=[str(library.header.parent)],
                       extra_objects=library.objects, extra_link_args=library.link, depends=[str(library.header), *library.objects])
    return builder
