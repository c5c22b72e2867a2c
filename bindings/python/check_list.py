#!/usr/bin/env python3
"""Runs the fixed list (oracle/README.md has its form) through the library: check_list.py [LIST]

Prints each case that is answered otherwise, then how many there were. It knows no rule of a message: it calls, and
compares numbers.
"""
import os
import sys
from array import array

from capgauze import call, lent, room

LIST = os.path.join(os.path.dirname(os.path.abspath(__file__)), "..", "..", "oracle", "list")
FILL = 0xA5A5_A5A5_A5A5_A5A5  # a table's words before a read; a buffer's bytes are A5
RECORD = 5  # words a record


def total(words):
    """The sum that stands for many words."""
    out = 0
    for word in words:
        out = (out * 65_599 + (word >> 32)) % 4_294_967_291
        out = (out * 65_599 + word % 2**32) % 4_294_967_291
    return out


def shown(memory, start, length, fill):
    """A part of the memory; with a mark, if anything outside it changed."""
    outside = {*memory[:start], *memory[start + length:]}
    return [*memory[start:start + length], *(["changed outside"] if outside - {fill} else [])]


def signed(told):
    return told[1] if told[0] == 0 else -1 - told[1]


def told(value):
    return [0, value] if value >= 0 else [1, -1 - value]


class Replay:
    """The source and the table that the lines have set so far, and what answers each kind of case."""

    def __init__(self):
        self.source, self.table = b"", array("Q")
        reader = lambda name: lambda *asked: call(name, *lent(self.source), *asked)
        on_table = lambda name: lambda *asked: call(name, *lent(self.source), *self.lent_table(), *asked)
        self.answers = {
            "v": reader("decode_varint"), "c": reader("decode_varint_capped"), "k": reader("decode_key"),
            "d": reader("decode_value"), "s": reader("skip_field"), "f": reader("step_at"), "o": reader("payload_of"),
            "x": lambda tag: index(self.source, tag), "l": lambda count: on_table("encode_message")(count, *room(bytearray())),
            "m": self.read("read_message"), "M": self.read("read_message", summed=True), "r": self.read("read_payload"),
            "w": self.write("encode_message"), "W": self.write("encode_message", summed=True),
            "q": self.write("prepend_message"), "Q": self.write("prepend_message", summed=True),
            "i": lambda *asked: [*on_table("insert")(*asked), *self.table],
            "e": self.put("encode_varint"), "p": self.put("prepend_varint", back=True),
            "g": self.put("encode_key"), "h": self.put("prepend_key", back=True),
            "j": lambda *asked: call("key_len", *asked),
            "n": lambda value: [call("encoded_len_varint", value)],
            "z": lambda *value: [call("i64_to_unsigned", signed(value))],
            "y": lambda value: told(call("u64_to_signed", value)),
        }

    def set(self, letter, words):
        if letter == "B":
            self.source = bytes(words)
        elif letter == "A":
            self.source += words[0] * bytes(words[1:])
        elif letter == "T":
            self.table = array("Q", words)
        else:
            self.table.extend(words[0] * words[1:])

    def lent_table(self):
        return room(self.table, 8)

    def read(self, name, summed=False):
        def answer(*asked):
            self.table = array("Q", [FILL]) * asked[-1]
            told = call(name, *lent(self.source), *asked[:-1], *self.lent_table())
            number, _, count, *_ = told
            rest = [total(self.table)] if summed else shown(self.table, 0, 0 if number else RECORD * count, FILL)
            return [*told, *rest]
        return answer

    def write(self, name, summed=False):
        def answer(count, size):
            buf = bytearray(b"\xA5" * size)
            number, start, length = call(name, *lent(self.source), *self.lent_table(), count, *room(buf))
            rest = [total(buf)] if summed else shown(buf, *((0, 0) if number else (start, length)), 0xA5)
            return [number, start, length, *rest]
        return answer

    def put(self, name, back=False):
        def answer(*asked):
            buf = bytearray(b"\xA5" * asked[-1])
            number, length = call(name, *asked[:-1], *room(buf))
            return [number, length, *shown(buf, len(buf) - length if back else 0, length, 0xA5)]
        return answer


def index(source, tag):
    """All fields of a tag by pick_at, up to the first number that has none; and pick has to go with them."""
    number, count, *first = call("pick_at", *lent(source), tag, 0)
    told, fields = [number, count], 0
    while (at := call("pick_at", *lent(source), tag, fields))[2]:
        told, fields = [*told, *at[3:]], fields + 1
    picked = [11, 0, 0, 0, 0] if count > 1 else [number, *first]
    return told if fields == count and list(call("pick", *lent(source), tag)) == picked else ["pick and pick_at differ"]


def check(path=LIST):
    """The number of cases, and of those answered otherwise a line each."""
    replay, cases, differences = Replay(), 0, []
    with open(path, encoding="ascii") as lines:
        for number, line in enumerate(lines, 1):
            if line.startswith("#"):
                continue
            asked, *expected = [[int(word, 16) for word in part.split()] for part in line[1:].split(":")]
            if not expected:
                replay.set(line[0], asked)
                continue
            cases += 1
            answered = list(replay.answers[line[0]](*asked))
            if answered != expected[0]:
                differences.append(f"{number}: {line.strip()[:300]} answered {answered[:40]}")
    return cases, differences


if __name__ == "__main__":
    cases, differences = check(*sys.argv[1:])
    print("\n".join([*differences, f"{cases} cases, {len(differences)} differ"]))
    sys.exit(bool(differences))
