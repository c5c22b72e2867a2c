"""The examples in the text, the fixed list, and what is made of the header."""
import doctest
import gc
import importlib
import pickle
import pkgutil
from array import array

import pytest

import build_library
import capgauze
import check_list
import header
from capgauze import _declared, _library

MODULES = ["header", "capgauze", *(info.name for info in pkgutil.walk_packages(capgauze.__path__, "capgauze.")
                                   if not info.name.endswith(("._capgauze", ".__main__")))]
HEADER = (build_library.HERE.parent / "c/capgauze.h").read_text()


@pytest.mark.parametrize("name", MODULES)
def test_examples(name):
    assert doctest.testmod(importlib.import_module(name)).failed == 0


def test_every_function_has_an_example():
    without = {name for name, thing in vars(capgauze).items() if callable(thing) and getattr(thing, "__module__", "").startswith("capgauze.")
               and not isinstance(thing, type) and ">>>" not in (thing.__doc__ or "")}
    assert without == {"lent", "room", "words"}


def test_every_entry_has_its_name():
    assert {name for name in _library._ENTRIES if name != "refusal_name"} <= set(capgauze.__all__)
    assert all(hasattr(capgauze, name) for name in capgauze.__all__)


def test_the_list():
    cases, differences = check_list.check()
    assert cases > 10_000
    assert differences == []


class TestHeader:
    def test_numbers_are_the_compilers(self):
        """What was read from the header's text is what the C compiler made of it."""
        declared = header.read(HEADER)
        assert {name: getattr(_library.lib, name) for name in declared.numbers} == declared.numbers
        members = {name: number for enum in declared.enums for name, number in enum.members.items()}
        assert len(members) >= 25
        assert {name: getattr(_library.lib, name) for name in members} == members
        assert build_library.declared_text(declared) == (build_library.HERE / "capgauze/_declared.py").read_text()

    def test_every_function_is_there(self):
        declared = {line.split("(")[0].split()[-1].lstrip("*") for line in HEADER.splitlines() if " capgauze_" in line and "(" in line
                    and not line.lstrip().startswith(("*", "/*", "typedef", "#"))}
        assert len(declared) >= 40
        assert {"capgauze_" + name for name in _library._ENTRIES} >= declared

    def test_names(self):
        told = [_library.ffi.string(_library.lib.capgauze_refusal_name(number)).decode() for number in capgauze.Refusal]
        assert told == [refusal.label for refusal in capgauze.Refusal]  # the header's own text
        assert [capgauze.NAMES[number] for number in (0, 1, 9, 15)] == ["accepted", "Truncated", "WrongWireType", "UnknownField"]
        assert len(capgauze.NAMES) == len(capgauze.Refusal) == len(_declared.REFUSAL_MEANINGS) + 1
        assert capgauze.Refusal.NO_ROOM == 5 and f"{capgauze.Refusal.NO_ROOM}" == str(capgauze.Refusal.NO_ROOM) == "5"
        assert [kind.label for kind in capgauze.WireType] == ["Varint", "LengthDelimited", "ThirtyTwoBit", "SixtyFourBit"]

    def test_other_forms(self):
        declared = header.read("""
            #ifndef A_H
            #define A_H
            #define A_VERSION "1.2.3"
            #define A_ONE 0x1u /* one */
            #define A_CALL(x) (x)
            #define A_API __attribute__((visibility("default")))
            #ifdef __cplusplus
            extern "C" {
            #endif
            static const char *const a_names[] = {"accepted; not", "b"};
            static inline const char *a_name(uint64_t n) { if (n) { return a_names[n]; } return "{"; }
            static const struct { int number; const char *name; } a_rows[] = {{0, "accepted"}, {1, "b"}};
            A_API int a_last(void);
            enum a_kind { A_NONE, A_SOME = 5, A_MORE };
            #ifdef __cplusplus
            }
            #endif
            #endif""".replace('return "{"', 'return 0'))
        assert declared.texts == {"A_VERSION": "1.2.3"}
        assert declared.declarations == ["#define A_ONE ...", "extern const char *const a_names[...];", "const char *a_name(uint64_t n);",
                                         "int a_last(void);", "enum a_kind { A_NONE = 0, A_SOME = 5, A_MORE = 6 };"]
        for unknown in ("union u { int a; };", "int a", "enum { A = B };", "int (*f)(void);"):
            with pytest.raises(header.HeaderError):
                header.read(unknown)


class TestRefused:
    def test_reaches_other_processes(self):
        with pytest.raises(capgauze.Refused) as caught:
            capgauze.records(b"\x04")
        again = pickle.loads(pickle.dumps(caught.value))
        assert (str(again), again.number, again.name, again.carried) == (str(caught.value), 1, "Truncated", caught.value.carried)
        no_hex = pickle.loads(pickle.dumps(capgauze.NotHexadecimal()))
        assert (type(no_hex), no_hex.number, no_hex.name) == (capgauze.NotHexadecimal, None, "HEX")

    def test_a_number_of_another_version(self):
        refused = capgauze.Refused(99)
        assert (refused.number, refused.name, str(refused)) == (99, "Unknown", "Unknown (99)")
        assert "another version" in refused.meaning and str(capgauze.Refused(99, {"place": 0}, "the key")) == "Unknown (99): place 0"

    def test_a_refused_call_holds_nothing(self):
        """A buffer may grow again, and a view be forgotten, while the refusal's traceback is kept."""
        buf, kept = bytearray(1), []
        for memory in (buf, memoryview(bytearray(1)), memoryview(bytearray(1))[:1]):
            with pytest.raises(capgauze.Refused) as caught:
                capgauze.encode_varint(2**40, memory)
            kept.append(caught.value)
            kept.append(kept)
        buf.extend(b"more")
        del kept, memory, caught
        gc.collect()

    def test_overlaps_are_not_lent(self):
        table = array("Q", [1, 0, 7, 0, capgauze.NO_KEY] * 2)
        before = table.tolist()
        with pytest.raises(ValueError, match="overlaps"):
            capgauze.encode_message(b"", table, 1, memoryview(table).cast("B"))
        with pytest.raises(ValueError, match="overlaps"):
            capgauze.insert_payload(memoryview(table).cast("B")[40:], table, 0, 1, b"")
        assert table.tolist() == before
        assert capgauze.encode_message(b"", memoryview(table)[:5], 1, memoryview(table)[5:].cast("B")) == (0, 2)
