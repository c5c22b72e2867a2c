"""Capgauze: a proved reader and writer of Bilrost messages, for Python.

The entries are those of the C interface (bindings/c/capgauze.h says what each answers), called through an extension that cffi
makes of that header and of the proved archive.

    >>> table = words(10)
    >>> read_message(bytes.fromhex("04FFFEFEFEFEFEFEFEFE0902C0DE0201000000"), table)
    Traceback (most recent call last):
    capgauze.refusals.Refused: NoRoom (5): the table has no room for 3 fields

A message is bytes, or anything that has its buffer. A table is a writable buffer of 64-bit words, five a record: what
`words` makes, an array('Q'), a numpy array of uint64. A buffer to be written to is a bytearray or the like. Memory that
is written must overlap nothing else that is lent: ValueError, where it does.

An index is a table of three words a tag.

A refused call raises Refused and leaves what was lent as it was. A number that its C type can't hold raises
OverflowError; it never reaches the library.

`records`, `message`, `corrected`, `pack` and `unpack` do without a table or a buffer of one's own, and so do the classes
Index and WorkingCopy.

`soundings` goes through the frames of a file, a pipe or bytes. `levels` has them as numpy arrays, `dataframe` as a table of
pandas, `dataset` as one of xarray; capgauze.dask reads archives of many files, and `capgauze.plot` draws a sounding.
"""
from __future__ import annotations

from ._library import call, lent, room, words  # the first, since it says what is not built
from ._declared import GRADED_WORDS, INDEX_WORDS, LEVEL_WORDS, LIMIT, NO_KEY, RECORD_WORDS, Grade, Refusal, Supplier, WireType
from ._declared import PACKAGE_VERSION as __version__
from .arrays import Levels, dataframe, dataset, levels
from .answers import (Early, Entry, Graded, GradedHead, Head, Key, Level, Parts, Picked, Read, Record, Several, Sounding, Step, Value,
                      Varint, Windy, Written)
from .copies import WorkingCopy, insert_payload, remove_record, replace_payload
from .corrections import CORRECTION, ORIGINAL, corrected, corrected_by, corrected_part, write_corrected
from .stream import frames, soundings
from .index import Index, index_fits, make_index, pick_indexed, read_line, write_line
from .messages import (encode_message, field_bytes, field_parts, insert, message, payload_of, pick, pick_at, pick_early, prepend_message,
                       read_message, read_payload, records)
from .parts import (decode_key, decode_value, decode_varint, decode_varint_capped, encode_key, encode_varint, encoded_len_varint,
                    i64_to_unsigned, key_len, prepend_key, prepend_varint, skip_field, step_at, u64_to_signed)
from .refusals import NAMES, NotHexadecimal, Refused
from .runs import pack, read_run, run_count, run_value, unpack, write_run
from .editions import CANONICAL, HAS_EXTENSIONS, NOT_CANONICAL, graded, read_graded, read_sounding, sounding

VARINT, LENGTH_DELIMITED = WireType.VARINT, WireType.LENGTH_DELIMITED
THIRTY_TWO_BIT, SIXTY_FOUR_BIT = WireType.THIRTY_TWO_BIT, WireType.SIXTY_FOUR_BIT

__all__ = [
    "CANONICAL", "CORRECTION", "Early", "Entry", "GRADED_WORDS", "Grade", "Graded", "GradedHead", "HAS_EXTENSIONS",
    "Head", "INDEX_WORDS", "Index", "Key", "LENGTH_DELIMITED", "LEVEL_WORDS", "LIMIT", "Level", "Levels", "NAMES",
    "NOT_CANONICAL", "NO_KEY", "NotHexadecimal", "ORIGINAL", "Parts", "Picked", "RECORD_WORDS", "Read", "Record",
    "Refusal", "Refused", "SIXTY_FOUR_BIT", "Several", "Sounding", "Step", "Supplier", "THIRTY_TWO_BIT", "VARINT",
    "Value", "Varint", "Windy", "WireType", "WorkingCopy", "Written", "call", "corrected", "corrected_by",
    "corrected_part", "dataframe", "dataset", "decode_key", "decode_value", "decode_varint", "decode_varint_capped",
    "encode_key", "encode_message", "encode_varint", "encoded_len_varint", "field_bytes", "field_parts", "frames",
    "graded", "i64_to_unsigned", "index_fits", "insert", "insert_payload", "key_len", "lent", "levels", "make_index",
    "message", "pack", "payload_of", "pick", "pick_at", "pick_early", "pick_indexed", "prepend_key",
    "prepend_message", "prepend_varint", "read_graded", "read_line", "read_message", "read_payload", "read_run",
    "read_sounding", "records", "remove_record", "replace_payload", "room", "run_count", "run_value", "skip_field",
    "sounding", "soundings", "step_at", "u64_to_signed", "unpack", "words", "write_corrected", "write_line",
    "write_run",
]
