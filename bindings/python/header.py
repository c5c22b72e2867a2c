"""What a C header declares, for the build of the extension: enums, structs, functions, tables and numbers.

    >>> declared = read('#define X_MOST 7\\nenum { X_OFF = 0, /* it is off */ X_ON };\\nuint64_t x_of(const uint8_t *s, size_t s_len);')
    >>> declared.numbers, declared.enums
    ({'X_MOST': 7}, [Enum(members={'X_OFF': 0, 'X_ON': 1}, meanings={'X_OFF': 'it is off'})])
    >>> declared.cdef.splitlines()
    ['#define X_MOST ...', 'enum { X_OFF = 0, X_ON = 1 };', 'uint64_t x_of(const uint8_t *s, size_t s_len);']

It knows the C that capgauze.h is written in and nothing more. A declaration that it does not know it refuses, so that none is
left out; a macro that is neither a number nor a text is passed over.
"""
from __future__ import annotations

import re
from dataclasses import dataclass, field


class HeaderError(ValueError):
    """A declaration of a form that is not known here."""


@dataclass
class Enum:
    members: dict[str, int]
    meanings: dict[str, str]  # what a comment says behind a member


@dataclass
class Declared:
    numbers: dict[str, int] = field(default_factory=dict)
    texts: dict[str, str] = field(default_factory=dict)
    enums: list[Enum] = field(default_factory=list)
    declarations: list[str] = field(default_factory=list)  # what cffi is told, in the header's order

    @property
    def cdef(self) -> str:
        return "\n".join(self.declarations) + "\n"


_COMMENT = re.compile(r"/\*.*?\*/|//[^\n]*", re.S)
_NUMBER = re.compile(r"\(?\s*(0[xX][0-9a-fA-F]+|[0-9]+)[uUlL]*\s*\)?")
_LARGEST = {"UINT64_MAX": 2**64 - 1, "UINT32_MAX": 2**32 - 1, "SIZE_MAX": 2**64 - 1, "INT64_MAX": 2**63 - 1}
_SPACE = re.compile(r"\s+")


def _number(text: str) -> int | None:
    text = text.strip()
    if text in _LARGEST:
        return _LARGEST[text]
    found = _NUMBER.fullmatch(text)
    return int(found[1], 0) if found else None


def _said(comment: str) -> str:
    return _SPACE.sub(" ", comment.removeprefix("/*").removesuffix("*/").removeprefix("//")).strip()


def read(text: str) -> Declared:
    """All declarations of a header."""
    declared = Declared()
    text = text.replace("\\\n", " ")
    emptied = _directives(text, declared)
    for statement in _statements(emptied):
        _declare(statement, declared)
    return declared


def _directives(text: str, declared: Declared) -> str:
    """Takes the numbers and texts that are defined, and answers what is left for a reader of C."""
    kept, shut, dropped = [], [], []
    for line in _outside_comments(text):
        directive = re.match(r"\s*#\s*(\w+)\s*(.*)", line)
        if not directive:
            kept.append("" if any(shut) else line)
            continue
        word, rest = directive[1], _COMMENT.sub(" ", directive[2]).strip()
        if word in ("if", "ifdef", "ifndef"):
            shut.append(word == "ifdef" and rest == "__cplusplus" or word == "if" and rest == "defined(__cplusplus)")
        elif word in ("else", "elif"):
            shut[-1] = not shut[-1]
        elif word == "endif":
            shut.pop()
        elif word == "define" and not any(shut):
            defined = re.match(r"(\w+)(\(?)\s*(.*)", rest)
            if defined and not defined[2]:
                _define(defined[1], defined[3], declared, dropped)
    left = "\n".join(kept)
    for name in dropped:
        left = re.sub(rf"\b{name}\b", "", left)
    return left


def _outside_comments(text: str) -> list[str]:
    """The lines; a comment of several lines is one of them."""
    return _COMMENT.sub(lambda found: found[0].replace("\n", " "), text).split("\n")


def _define(name: str, value: str, declared: Declared, dropped: list[str]) -> None:
    number = _number(value)
    if number is not None:
        declared.numbers[name] = number
        declared.declarations.append(f"#define {name} ...")
    elif re.fullmatch(r'"[^"\\]*"', value):
        declared.texts[name] = value[1:-1]
    elif not value or value.startswith("__attribute__"):
        dropped.append(name)  # a guard, or a mark in front of a function


def _statements(text: str) -> list[str]:
    """The top level's declarations, each without its semicolon; a function's body ends one too."""
    out, depth, begun, at = [], 0, 0, 0
    while at < len(text):
        comment = _COMMENT.match(text, at)
        if comment:
            at = comment.end()
            continue
        sign = text[at]
        depth += {"{": 1, "}": -1}.get(sign, 0)
        body = sign == "}" and depth == 0 and "(" in _COMMENT.sub("", text[begun:text.index("{", begun)])
        if depth == 0 and (sign == ";" or body):
            out.append(text[begun:at + (1 if body else 0)].strip())
            begun = at + 1
        at += 1
    if depth or _COMMENT.sub("", text[begun:]).strip():
        raise HeaderError(f"no end: {text[begun:].strip()[:80]}")
    return [statement for statement in out if statement]


def _declare(statement: str, declared: Declared) -> None:
    plain = _SPACE.sub(" ", _COMMENT.sub(" ", statement)).strip()
    if not plain:
        return
    enum = re.fullmatch(r"(typedef )?enum( \w+)? ?\{(.*)\}( \w+)?", plain)
    if enum:
        members = _members(enum[3])
        declared.enums.append(Enum(members, _meanings(statement, members)))
        listed = ", ".join(f"{name} = {number}" for name, number in members.items())
        declared.declarations.append(f"{enum[1] or ''}enum{enum[2] or ''} {{ {listed} }}{enum[4] or ''};")
    elif re.fullmatch(r"typedef struct( \w+)? ?\{[^{}]*\} \w+", plain) or re.fullmatch(r"[\w ]+[ *]\w+ ?\([^(){}]*\)", plain):
        declared.declarations.append(re.sub(r"^(static inline|static|extern) ", "", plain) + ";")
    elif function := re.fullmatch(r"static (?:inline )?([\w *]+\([^(){}]*\)) ?\{.*\}", plain):
        declared.declarations.append(function[1].strip() + ";")
    elif table := re.fullmatch(r"(?:static |extern )?([\w *]+?)(\w+) ?\[[^][]*\](?: ?= ?\{.*\})?", plain):
        declared.declarations.append(f"extern {table[1].strip()} {table[2]}[...];")
    elif re.fullmatch(r"static const struct ?\{[^{}]*\} \w+ ?\[[^][]*\] ?= ?\{.*\}", plain):
        pass  # a table whose rows have no name: nothing outside of C can ask for one
    else:
        raise HeaderError(f"a declaration of an unknown form: {plain[:80]}")


def _members(listed: str) -> dict[str, int]:
    members: dict[str, int] = {}
    for member in filter(None, (part.strip() for part in listed.split(","))):
        name, _, value = (part.strip() for part in member.partition("="))
        number = _number(value) if value else 1 + next(reversed(members.values()), -1)
        if number is None or not name.isidentifier():
            raise HeaderError(f"a member of an unknown form: {member}")
        members[name] = number
    return members


def _meanings(statement: str, members: dict[str, int]) -> dict[str, str]:
    found = re.findall(r"(\w+)\s*(?:=\s*\w+\s*)?,?[ \t]*(/\*.*?\*/|//[^\n]*)", statement, re.S)
    return {name: _said(comment) for name, comment in found if name in members}
