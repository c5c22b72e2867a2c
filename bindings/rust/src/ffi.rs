//! The C interface, as bindings/c/capgauze.h declares it, in its order: tests/header.rs holds every struct and function against it. A
//! struct has the header's name without `capgauze_`, and `type` is `kind` here.

macro_rules! answers {
    ($($name:ident { $($word:ident),* })*) => { $(
        #[repr(C)]
        pub struct $name { $(pub $word: u64),* }
    )* };
}

answers! {
    Number { number, value }
    Varint { number, value, place, bytes }
    Place { number, place, failing, bytes }
    Key { number, tag, kind, place, failing, bytes }
    Value { number, value, length, place, failing, bytes }
    Step { number, found, tag, kind, value, length, place, failing, bytes }
    Read { number, place, count, failing, bytes }
    Written { number, start, length }
    Picked { number, found, kind, value, length }
    Several { number, count, found, kind, value, length }
    Early { number, keys, found, kind, value, length }
    Part { start, length }
    Supplier { number, supplier }
    Sounding { number, station, launch, levels }
    Graded { number, station, launch, levels, grade }
}

pub type Writer =
    unsafe extern "C" fn(*const u8, usize, *const u64, usize, usize, *mut u8, usize) -> Written;

#[rustfmt::skip]
extern "C" {
    pub fn capgauze_encoded_len_varint(v: u64) -> u64;
    pub fn capgauze_i64_to_unsigned(v: i64) -> u64;
    pub fn capgauze_u64_to_signed(u: u64) -> i64;
    pub fn capgauze_decode_varint(s: *const u8, s_len: usize, at: usize) -> Varint;
    pub fn capgauze_decode_varint_capped(s: *const u8, s_len: usize, at: usize, end: usize) -> Varint;
    pub fn capgauze_decode_key(s: *const u8, s_len: usize, at: usize, end: usize, last: u32) -> Key;
    pub fn capgauze_decode_value(s: *const u8, s_len: usize, at: usize, end: usize, kind: u64) -> Value;
    pub fn capgauze_skip_field(s: *const u8, s_len: usize, at: usize, end: usize, kind: u64) -> Place;
    pub fn capgauze_step_at(s: *const u8, s_len: usize, at: usize, end: usize, last: u32) -> Step;
    pub fn capgauze_read_message(s: *const u8, s_len: usize, start: usize, end: usize, table: *mut u64, words: usize) -> Read;
    pub fn capgauze_payload_of(s: *const u8, s_len: usize, tag: u64, kind: u64, value: u64, length: u64, key: u64) -> Part;
    pub fn capgauze_read_payload(s: *const u8, s_len: usize, tag: u64, kind: u64, value: u64, length: u64, key: u64, table: *mut u64, words: usize) -> Read;
    pub fn capgauze_pick(s: *const u8, s_len: usize, tag: u32) -> Picked;
    pub fn capgauze_pick_at(s: *const u8, s_len: usize, tag: u32, number: usize) -> Several;
    pub fn capgauze_pick_early(s: *const u8, s_len: usize, tag: u32) -> Early;
    pub fn capgauze_make_index(s: *const u8, s_len: usize, index: *mut u64, words: usize) -> Number;
    pub fn capgauze_index_fits(s: *const u8, s_len: usize, index: *const u64, words: usize, tags: usize) -> u64;
    pub fn capgauze_pick_indexed(s: *const u8, s_len: usize, index: *const u64, words: usize, tags: usize, tag: u32) -> Picked;
    pub fn capgauze_write_line(index: *const u64, words: usize, tags: usize, line: *mut u8, line_len: usize) -> Number;
    pub fn capgauze_read_line(line: *const u8, line_len: usize, message_len: usize, index: *mut u64, words: usize) -> Number;
    pub fn capgauze_corrected_by(original: *const u8, original_len: usize, correction: *const u8, correction_len: usize, tag: u32) -> Supplier;
    pub fn capgauze_corrected_part(original: *const u8, original_len: usize, correction: *const u8, correction_len: usize, tag: u32) -> Part;
    pub fn capgauze_write_corrected(
        original: *const u8, original_len: usize, correction: *const u8, correction_len: usize, buf: *mut u8, buf_len: usize,
    ) -> Number;
    pub fn capgauze_run_count(s: *const u8, s_len: usize, kind: u64) -> Number;
    pub fn capgauze_run_value(s: *const u8, s_len: usize, kind: u64, number: usize) -> Picked;
    pub fn capgauze_read_run(s: *const u8, s_len: usize, kind: u64, table: *mut u64, words: usize) -> Number;
    pub fn capgauze_write_run(
        source: *const u8, source_len: usize, table: *const u64, words: usize, count: usize, kind: u64, buf: *mut u8, buf_len: usize,
    ) -> Written;
    pub fn capgauze_read_sounding(s: *const u8, s_len: usize, levels: *mut u64, words: usize) -> Sounding;
    pub fn capgauze_read_graded(s: *const u8, s_len: usize, levels: *mut u64, words: usize, least: u64) -> Graded;
    pub fn capgauze_encode_varint(v: u64, buf: *mut u8, buf_len: usize) -> Number;
    pub fn capgauze_prepend_varint(v: u64, buf: *mut u8, buf_len: usize) -> Number;
    pub fn capgauze_encode_key(last: u32, tag: u32, kind: u64, buf: *mut u8, buf_len: usize) -> Number;
    pub fn capgauze_prepend_key(last: u32, tag: u32, kind: u64, buf: *mut u8, buf_len: usize) -> Number;
    pub fn capgauze_key_len(last: u32, tag: u32) -> Number;
    pub fn capgauze_encode_message(
        source: *const u8, source_len: usize, table: *const u64, words: usize, count: usize, buf: *mut u8, buf_len: usize,
    ) -> Written;
    pub fn capgauze_prepend_message(
        source: *const u8, source_len: usize, table: *const u64, words: usize, count: usize, buf: *mut u8, buf_len: usize,
    ) -> Written;
    pub fn capgauze_insert(
        source: *const u8, source_len: usize, table: *mut u64, words: usize, count: usize, tag: u64, kind: u64, value: u64, length: u64,
    ) -> Number;
    pub fn capgauze_remove_record(room: *const u8, room_len: usize, table: *mut u64, words: usize, count: usize, index: usize) -> Number;
    pub fn capgauze_replace_payload(
        room: *mut u8, room_len: usize, table: *mut u64, words: usize, count: usize, index: usize, bytes: *const u8, bytes_len: usize,
    ) -> Number;
    pub fn capgauze_insert_payload(
        room: *mut u8, room_len: usize, table: *mut u64, words: usize, count: usize, tag: u32, bytes: *const u8, bytes_len: usize,
    ) -> Number;
}
