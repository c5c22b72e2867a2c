"""By chance: reading and writing are inverse, damaged input is refused, and what was lent is as it was."""
from array import array

import pytest
from hypothesis import given, settings
from hypothesis import strategies as st

import capgauze
import strategies

FILL = 0xA5A5_A5A5_A5A5_A5A5
tags = st.one_of(st.integers(0, 12), st.integers(0, 2**32 - 1))


@given(strategies.messages())
def test_read_and_written_again(s):
    records = capgauze.records(s)
    assert capgauze.message(records, s) == s
    assert b"".join(bytes(capgauze.field_bytes(s, record)) for record in records) == s
    table = array("Q", (word for record in records for word in record))
    buf = bytearray(b"\xA5" * (len(s) + 3))
    assert capgauze.prepend_message(s, table, len(records), buf) == (3, len(s))
    assert bytes(buf) == b"\xA5" * 3 + s


@given(strategies.any_bytes, st.integers(0, 4))
def test_a_refusal_leaves_the_table(s, room):
    table = array("Q", [FILL]) * (5 * room + 1)
    try:
        count = capgauze.read_message(s, table).count
    except capgauze.Refused as refused:
        assert table.tolist() == [FILL] * len(table)
        if refused.number == capgauze.Refusal.NO_ROOM:
            assert len(capgauze.records(s)) == refused.carried["count"] > room
        else:
            assert refused.carried["place"] <= refused.carried["failing"] <= len(s)
            assert refused.carried["failing"] + refused.carried["bytes"] <= len(s)
    else:
        assert table.tolist()[5 * count:] == [FILL] * (len(table) - 5 * count)
        assert capgauze.message(capgauze.records(s), s) == s


@given(strategies.any_bytes, tags)
def test_lookups_agree(s, tag):
    try:
        found = [record for record in capgauze.records(s) if record.tag == tag]
    except capgauze.Refused as refused:
        for call in (lambda: capgauze.pick(s, tag), lambda: capgauze.pick_at(s, tag, 0), lambda: capgauze.Index(s)):
            with pytest.raises(capgauze.Refused) as caught:
                call()
            assert caught.value.number == refused.number
        return
    assert [capgauze.pick_at(s, tag, at).picked for at in range(len(found))] == [record[1:4] for record in found]
    assert capgauze.pick_at(s, tag, len(found)) == (len(found), None)
    index = capgauze.Index(s)
    assert index.fits(s) and capgauze.Index.of_line(index.line(), len(s)) == index
    if len(found) > 1:
        for call in (lambda: capgauze.pick(s, tag), lambda: index.pick(s, tag)):
            with pytest.raises(capgauze.Refused) as caught:
                call()
            assert caught.value.number == capgauze.Refusal.REPEATED
    else:
        assert capgauze.pick(s, tag) == index.pick(s, tag) == (found[0][1:4] if found else None)


@given(strategies.any_bytes, strategies.any_bytes, st.integers(0, 200))
def test_corrections(original, correction, size):
    buf = bytearray(b"\xA5" * size)
    try:
        length = capgauze.write_corrected(original, correction, buf)
    except capgauze.Refused as refused:
        assert bytes(buf) == b"\xA5" * size
        assert refused.number == capgauze.Refusal.NO_ROOM or capgauze.corrected_part(original, correction, 0).nbytes == 0
        return
    result = bytes(buf[:length])
    assert bytes(buf[length:]) == b"\xA5" * (size - length)
    assert capgauze.corrected(original, correction) == capgauze.corrected(result, correction) == result
    replaced = {record.tag for record in capgauze.records(correction)}
    told = lambda s, keep: [(record.tag, bytes(capgauze.field_bytes(s, record))[1:] if record.type else record.value)
                            for record in capgauze.records(s) if (record.tag in replaced) == keep]
    assert [tag for tag, _ in told(result, True)] == [record.tag for record in capgauze.records(correction)]
    assert [tag for tag, _ in told(result, False)] == [tag for tag, _ in told(original, False)]


@given(st.sampled_from(capgauze.WireType), st.lists(strategies.words64, max_size=12), st.lists(strategies.payloads, max_size=6))
def test_runs(kind, numbers, payloads):
    values = payloads if kind == capgauze.LENGTH_DELIMITED else [n % 2**32 if kind == capgauze.THIRTY_TWO_BIT else n for n in numbers]
    run = capgauze.pack(values, kind)
    assert list(capgauze.unpack(run, kind)) == values
    assert capgauze.run_count(run, kind) == len(values)


@given(strategies.any_bytes, st.sampled_from(capgauze.WireType), st.integers(0, 8))
def test_a_refused_run_leaves_the_table(s, kind, room):
    table = array("Q", [FILL]) * (5 * room)
    try:
        count = capgauze.read_run(s, kind, table)
    except capgauze.Refused:
        assert table.tolist() == [FILL] * len(table)
    else:
        assert capgauze.write_run(s, table, count, kind, bytearray(len(s))) == (0, len(s))


@given(st.one_of(strategies.soundings(), strategies.damaged(strategies.soundings()), strategies.any_bytes), st.sampled_from(capgauze.Grade))
@settings(max_examples=200)
def test_soundings_of_both_editions(s, least):
    table = array("Q", [FILL]) * (9 * (len(s) // 4) + 2)
    try:
        read = capgauze.graded(s, least)
    except capgauze.Refused as refused:
        with pytest.raises(capgauze.Refused) as caught:
            capgauze.read_graded(s, table, least)
        assert caught.value.number == refused.number
        assert table.tolist() == [FILL] * len(table)
        return
    assert capgauze.read_graded(s, table, least) == (read.station, read.launch, len(read.levels), read.grade)
    first = capgauze.sounding(s)
    assert (first.station, first.launch) == (read.station, read.launch)
    assert [tuple(level) for level in first.levels] == [level[:3] for level in read.levels]
    assert table.tolist()[9 * len(read.levels):] == [FILL] * (len(table) - 9 * len(read.levels))
    assert read.grade >= least
    assert capgauze.graded(s, capgauze.NOT_CANONICAL) == read


@given(st.integers(1, 99_999), st.lists(strategies.level_fields(), max_size=6))
def test_what_was_sent_comes_out_and_nothing_else(station, levels):
    read = capgauze.graded(strategies.sounding_of(station, 7, levels), capgauze.NOT_CANONICAL)
    sent = lambda level, tag: level.get(tag) if level.get(tag) != 2**64 - 1 else None
    for level, found in zip(levels, read.levels, strict=True):
        assert found.pressure_pa == level[1]
        for tag, value, unit in ((3, found.dewpoint_depression_c, 10), (4, found.wind_speed_ms, 10), (5, found.wind_direction_deg, 1)):
            assert value == (None if sent(level, tag) is None else sent(level, tag) / unit)
        number = sent(level, 2)
        assert found.temperature_c == (None if number is None else (number // 2 if number % 2 == 0 else -(number + 1) // 2) / 10)


@given(st.lists(st.tuples(st.sampled_from(("insert", "replace", "remove")), st.integers(0, 6), strategies.payloads), max_size=15))
def test_a_working_copy_is_a_list(edits):
    copy, plain = capgauze.WorkingCopy(size=60, most=5), []
    for edit, number, payload in edits:
        before = copy.message(), len(copy), copy.spare()
        try:
            if edit == "insert":
                copy.insert(number, payload)
                plain.insert(sum(tag <= number for tag, _ in plain), (number, payload))
            elif edit == "replace":
                copy.replace(number, payload)
                plain[number] = plain[number][0], payload
            else:
                copy.remove(number)
                del plain[number]
        except capgauze.Refused:
            assert (copy.message(), len(copy), copy.spare()) == before
        assert [(record.tag, copy.payload(at)) for at, record in enumerate(copy)] == plain
