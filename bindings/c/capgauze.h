/* Capgauze: a proved reader and writer of Bilrost messages, for C99 and C++ on x86-64 Linux.
 *
 * `./install` puts the library in place, and `pkg-config --cflags --libs capgauze` then says how to compile and link.
 * Without it link target/staticlib/libcapgauze_c.a, which `tools/build.sh library` proves and writes.
 *
 * This is the one declaration of the interface: what other languages declare is made from it or held against it. So each
 * function and struct is one statement in plain words, and no macro stands in it.
 *
 * Every answer that can be refused is a struct whose first word is a number of the table below; the other words are
 * what is said at each function, and 0 where nothing is said. A refused call leaves all lent memory as it was.
 *
 * What a caller must keep: a pointer is never null, also where its length is 0; it points to as many elements as its
 * length says; memory that is written (a table, a buffer) overlaps nothing else that is lent in the same call. Nothing
 * else is asked: any bytes, numbers, places, ends, tables and counts are answered.
 *
 * Places, starts and ends count bytes from the slice's first. An end is a place too, not a length.
 */
#ifndef CAPGAUZE_H
#define CAPGAUZE_H

#include <stddef.h>
#include <stdint.h>

#ifdef __cplusplus
extern "C" {
#endif

/* The version. The programs, the shared library's name and the Rust crate have the same. */
#define CAPGAUZE_VERSION_MAJOR 0
#define CAPGAUZE_VERSION_MINOR 1
#define CAPGAUZE_VERSION_PATCH 0
#define CAPGAUZE_VERSION "0.1.0"

/* The longest slice that is read, and the longest message that is written. */
#define CAPGAUZE_LIMIT 1048575
/* The words of a record; a table of `words` words has room for words / CAPGAUZE_RECORD_WORDS records. */
#define CAPGAUZE_RECORD_WORDS 5
/* The key word of a record that has none: it was put in by hand, or read from a packed run. */
#define CAPGAUZE_NO_KEY UINT64_MAX
/* The words of an index's entry; an index of `words` words has room for words / CAPGAUZE_INDEX_WORDS tags. */
#define CAPGAUZE_INDEX_WORDS 3

/* The number of an answer. */
enum {
    CAPGAUZE_ACCEPTED = 0,
    CAPGAUZE_TRUNCATED = 1,      /* the slice or the end came too soon */
    CAPGAUZE_INVALID_VARINT = 2, /* a varint of 2^64 or more */
    CAPGAUZE_TAG_OVERFLOWED = 3, /* a tag, or a rise of tags, above 4,294,967,295 */
    CAPGAUZE_TOO_LONG = 4,       /* slice, or bytes to be written, above CAPGAUZE_LIMIT */
    CAPGAUZE_NO_ROOM = 5,        /* a good message or run with more fields or values than the table has room, a buffer
                                    too short for what is to be written, an insertion into a full table; an index with
                                    more tags than there is room for; an edit with more bytes than the room has left */
    CAPGAUZE_BAD_RECORD = 6,     /* a record that is not good, or not one of the run or of a working copy; a count above
                                    the room, an index not below the count; a wire type above 3; a grade above 2 */
    CAPGAUZE_OUT_OF_ORDER = 7,   /* a tag below the one before it */
    CAPGAUZE_BAD_CAP = 8,        /* a place, start or end above the slice's length */
    CAPGAUZE_WRONG_WIRE_TYPE = 9, /* a sounding's field of another wire type */
    CAPGAUZE_OUT_OF_RANGE = 10,  /* a station, pressure, temperature, depression, wind speed or direction outside its
                                    range */
    CAPGAUZE_REPEATED = 11,      /* a tag that stands more than once where one field of it is wanted */
    CAPGAUZE_BAD_INDEX = 12,     /* an index or a line of one that may not be used, or that is seen not to be of the
                                    message */
    CAPGAUZE_MISSING_FIELD = 13, /* a sounding without station or launch, a level without pressure */
    CAPGAUZE_NOT_CANONICAL = 14, /* a sounding's first field below the grade taken: an all-ones value written out */
    CAPGAUZE_UNKNOWN_FIELD = 15  /* a sounding's first field below the grade taken: one of an unknown tag */
};

/* The name of an answer's number; "unknown" for any other number, which no function here answers. */
static inline const char *capgauze_refusal_name(uint64_t number) {
    switch (number) {
    case CAPGAUZE_ACCEPTED: return "Accepted";
    case CAPGAUZE_TRUNCATED: return "Truncated";
    case CAPGAUZE_INVALID_VARINT: return "InvalidVarint";
    case CAPGAUZE_TAG_OVERFLOWED: return "TagOverflowed";
    case CAPGAUZE_TOO_LONG: return "TooLong";
    case CAPGAUZE_NO_ROOM: return "NoRoom";
    case CAPGAUZE_BAD_RECORD: return "BadRecord";
    case CAPGAUZE_OUT_OF_ORDER: return "OutOfOrder";
    case CAPGAUZE_BAD_CAP: return "BadCap";
    case CAPGAUZE_WRONG_WIRE_TYPE: return "WrongWireType";
    case CAPGAUZE_OUT_OF_RANGE: return "OutOfRange";
    case CAPGAUZE_REPEATED: return "Repeated";
    case CAPGAUZE_BAD_INDEX: return "BadIndex";
    case CAPGAUZE_MISSING_FIELD: return "MissingField";
    case CAPGAUZE_NOT_CANONICAL: return "NotCanonical";
    case CAPGAUZE_UNKNOWN_FIELD: return "UnknownField";
    default: return "unknown";
    }
}

/* The four wire types. */
enum {
    CAPGAUZE_VARINT = 0,
    CAPGAUZE_LENGTH_DELIMITED = 1,
    CAPGAUZE_THIRTY_TWO_BIT = 2,
    CAPGAUZE_SIXTY_FOUR_BIT = 3
};

/* A record is five words of a table:
 *   tag, wire type, value (or the payload's start in the slice), length (0, the payload's length, 4, 8),
 *   key (where the field's key starts in the slice, or CAPGAUZE_NO_KEY).
 * It is good for a source if the tag is at most 4,294,967,295, the type at most 3, the length word the right one, a
 * ThirtyTwoBit value below 2^32, a payload inside the source, and the key CAPGAUZE_NO_KEY or below the source's length.
 * What is written of a good record does not hang on its key. */

typedef struct { uint64_t number, value; } capgauze_number; /* a length or a count */
typedef struct { uint64_t number, value, place, bytes; } capgauze_varint;
typedef struct { uint64_t number, place, failing, bytes; } capgauze_place;
typedef struct { uint64_t number, tag, type, place, failing, bytes; } capgauze_key;
typedef struct { uint64_t number, value, length, place, failing, bytes; } capgauze_value;
typedef struct { uint64_t number, found, tag, type, value, length, place, failing, bytes; } capgauze_step;
typedef struct { uint64_t number, place, count, failing, bytes; } capgauze_read;
typedef struct { uint64_t number, start, length; } capgauze_written;
typedef struct { uint64_t number, found, type, value, length; } capgauze_picked;
typedef struct { uint64_t number, count, found, type, value, length; } capgauze_several;
typedef struct { uint64_t number, keys, found, type, value, length; } capgauze_early;
typedef struct { uint64_t start, length; } capgauze_part;
typedef struct { uint64_t number, supplier; } capgauze_supplier;
typedef struct { uint64_t number, station, launch, levels; } capgauze_sounding;
typedef struct { uint64_t number, station, launch, levels, grade; } capgauze_graded;

/* ---- Numbers ---- */

/* How many bytes the varint of v takes: 1 to 9. */
uint64_t capgauze_encoded_len_varint(uint64_t v);

/* The signed mapping: v >= 0 gives 2v, v < 0 gives -2v - 1. And back. */
uint64_t capgauze_i64_to_unsigned(int64_t v);
int64_t capgauze_u64_to_signed(uint64_t u);

/* ---- One part of a message ----
 * Refusals in order: 4, 8, then 1 to 3 as met. A refused reader answers the place it was given, and 0 as value. With 1 to
 * 3 `failing` is the place where the read that failed began: a key's, a Varint's or a fixed value's first byte, or the first
 * byte of a payload's length, also where the payload is too long; of a varint it is the place given. `bytes` is how many
 * bytes of a varint that read looked at, 1 to 9, or 0 at the slice's end and where no varint was refused. Accepted, and with
 * 4, 5, 6 and 8, both are 0. */

/* The varint at `at`: its value and the place after it. */
capgauze_varint capgauze_decode_varint(const uint8_t *s, size_t s_len, size_t at);

/* The same under an end. It is read beyond the end too; one that is invalid and whose nine bytes pass the end is
 * refused as Truncated. The place after it may lie past the end. */
capgauze_varint capgauze_decode_varint_capped(const uint8_t *s, size_t s_len, size_t at, size_t end);

/* The key at `at`, after the tag `last` (0 at a message's start): tag, wire type and the place after it, which may lie
 * past the end. Refused: tag is `last`, type 0. */
capgauze_key capgauze_decode_key(const uint8_t *s, size_t s_len, size_t at, size_t end, uint32_t last);

/* The value of that wire type at `at`: a record's third and fourth words and the place after it. Refused: value, length
 * 0. A type above 3 is refused as BadRecord before anything else. */
capgauze_value capgauze_decode_value(const uint8_t *s, size_t s_len, size_t at, size_t end, uint64_t type);

/* Passes over the value of that wire type at `at`, and over the fields of the same tag that follow it: the place
 * reached, which may lie past the end. A type above 3 as above. */
capgauze_place capgauze_skip_field(const uint8_t *s, size_t s_len, size_t at, size_t end, uint64_t type);

/* One step of a message, from a field's first byte `at` with `last` as the tag before it. A field: found is 1, then
 * its record and the place after it, which may lie past the end. At the end: found is 0, tag is `last`, place is `at`;
 * refused, too. */
capgauze_step capgauze_step_at(const uint8_t *s, size_t s_len, size_t at, size_t end, uint32_t last);

/* ---- Whole messages ---- */

/* Reads the message from start up to end into the table. Accepted: place is the end, count the number of fields, and
 * the table's first words are their records; the words behind them stay. The bytes of s from a record's key up to the next
 * one's, or up to the end behind the last, are the whole field: its key and its value. Refused: the table stays as it was.
 * NoRoom: place 0, count is the number of fields that need room. TooLong, BadCap: 0, 0. Truncated, InvalidVarint,
 * TagOverflowed: the place of the first byte of the field being read, or of the last field read if that one passed the end
 * (the start, if no field was read); count 0; failing and bytes as above, and the place reached with 0 where the end was
 * passed. */
capgauze_read capgauze_read_message(const uint8_t *s, size_t s_len, size_t start, size_t end, uint64_t *table,
                                    size_t words);

/* Where the payload of a record lies in s, which may be of any length: its start and length. A record that is not a
 * good LengthDelimited one of s has none: 0, 0. */
capgauze_part capgauze_payload_of(const uint8_t *s, size_t s_len, uint64_t tag, uint64_t type, uint64_t value,
                                  uint64_t length, uint64_t key);

/* Reads a record's payload as a message in itself. Places, payload starts and keys count from the payload's first byte,
 * and TooLong is for the payload and not for s. A record without a payload is the empty message: 0, 0, 0. */
capgauze_read capgauze_read_payload(const uint8_t *s, size_t s_len, uint64_t tag, uint64_t type, uint64_t value,
                                    uint64_t length, uint64_t key, uint64_t *table, size_t words);

/* Reads the whole message and answers the only field of the tag: found is 1, and type, value, length are its record's.
 * Absent: found is 0. Refused: the number alone; Repeated, after the message's own refusals, where there are more. */
capgauze_picked capgauze_pick(const uint8_t *s, size_t s_len, uint32_t tag);

/* Reads the whole message and answers how many fields the tag has, and the one at a number, counted from 0, as above.
 * Absent: found is 0, and count still says how many. Refused: the number alone. */
capgauze_several capgauze_pick_at(const uint8_t *s, size_t s_len, uint32_t tag, size_t number);

/* The only field of the tag before the first key above it, as pick answers it on the bytes before that key; neither that
 * key's value nor what follows is read. keys is the number of keys read: one for each field up to the tag, and one for
 * the key above, if there is one. Refused: the number alone; Repeated after the refusals of what was read. */
capgauze_early capgauze_pick_early(const uint8_t *s, size_t s_len, uint32_t tag);

/* ---- An index beside a stored message ----
 * An entry is three words: a tag, the place of the first key of that tag, the number of its fields. An index has one for
 * each tag of a message, in rising order. `tags` is how many of its entries are used; the words behind them are not looked
 * at. An index is tested whole before it is used, also the entries that nobody asks for. */

/* Makes the index of a message: value is the number of its tags, whose words go to the front of `index`; the words behind
 * them stay. Refusals in order: TooLong; Truncated, InvalidVarint, TagOverflowed of the whole message; NoRoom, which does
 * not say how many tags there are. Refused: value 0, and `index` stays as it was. */
capgauze_number capgauze_make_index(const uint8_t *s, size_t s_len, uint64_t *index, size_t words);

/* 1 exactly if make_index would accept the message, with room enough, as one of so many tags, and leave the words that
 * stand in `index`; else 0. So it is 0 for every message that is refused, and for more tags than `index` has room for. */
uint64_t capgauze_index_fits(const uint8_t *s, size_t s_len, const uint64_t *index, size_t words, size_t tags);

/* The only field of the tag, looked up through an index, as pick answers it; the same as pick where the index was made from
 * this message. Only the fields that the index counts of the tag are read, from the stated place on, with 0 as the tag
 * before. The type and the value are what stands there; the tag of the first key is not compared with the one asked for.
 * Refusals in order: BadIndex for more tags than there is room for, a tag above 4,294,967,295, tags that do not rise, a
 * count of 0, a place not below s_len; TooLong; then, if the tag stands in the index, Truncated, InvalidVarint,
 * TagOverflowed as met, with BadIndex where the message ends before all fields are read or a later one has another tag
 * than the first; Repeated for a count above 1. Absent: found is 0. Refused: the number alone. */
capgauze_picked capgauze_pick_indexed(const uint8_t *s, size_t s_len, const uint64_t *index, size_t words, size_t tags,
                                      uint32_t tag);

/* An index as a line of characters: `02`, then for each tag 20 hexadecimal digits, capitals: eight of the tag, six of
 * the place, six of the count. Value is the line's length, 2 + 20 * tags; it goes to the front of `line` without an end of
 * line, all other bytes stay. Refusals in order: BadIndex for more tags than there is room for, a tag above 4,294,967,295,
 * tags that do not rise, a place above 16,777,215, a count of 0 or above 16,777,215; NoRoom. Refused: value 0, and `line`
 * stays as it was. An index that make_index made is never refused as BadIndex. */
capgauze_number capgauze_write_line(const uint64_t *index, size_t words, size_t tags, uint8_t *line, size_t line_len);

/* A line as an index: value is the number of its tags, whose words go to the front of `index`; the words behind them stay.
 * Edition 02 is read, which write_line writes, and edition 01: `01`, then 16 digits a tag, eight, four and four. The
 * message that the line stands beside has message_len bytes; beside one of more than 65,535 an edition 01 is refused, and
 * message_len does nothing else: a place may be any number. The line may have any length. Refusals in order: BadIndex for
 * no such line: another edition, an edition 01 beside a longer message, no whole entries, a character that is not 0 to 9 or
 * A to F, tags that do not rise, a count of 0; NoRoom. Refused: value 0, and `index` stays as it was. */
capgauze_number capgauze_read_line(const uint8_t *line, size_t line_len, size_t message_len, uint64_t *index,
                                   size_t words);

/* ---- Corrections over an original ----
 * Both are messages, and both are read whole, the original first; they may be one and the same memory. The correction's
 * fields replace all fields of the original that have their tags; other tags stay. So a tag is supplied by the correction,
 * if it has a field of it, else by the original. */

/* Who supplies a tag. */
enum {
    CAPGAUZE_FROM_NONE = 0,
    CAPGAUZE_FROM_ORIGINAL = 1,
    CAPGAUZE_FROM_CORRECTION = 2
};

/* Which of the two supplies the tag. Absent: none. Refusals in order: TooLong, then Truncated, InvalidVarint, TagOverflowed
 * of the original; those of the correction; Repeated, where the supplier has more than one field of the tag (how many the
 * other has does not count). Refused: supplier 0. */
capgauze_supplier capgauze_corrected_by(const uint8_t *original, size_t original_len, const uint8_t *correction,
                                        size_t correction_len, uint32_t tag);

/* Where the value of the tag lies in the message that supplies it, which corrected_by names: start and length of its bytes
 * as they stand behind its key, a payload's without its length. An empty payload has its own start. Where corrected_by
 * answers none or refuses: 0, 0, the empty part at the original's front. */
capgauze_part capgauze_corrected_part(const uint8_t *original, size_t original_len, const uint8_t *correction,
                                      size_t correction_len, uint32_t tag);

/* Writes the original with the correction over it as one message to the buffer's front: value is its length, all other bytes
 * stay. A buffer of original_len + correction_len bytes is always enough. The correction applied to the result gives the
 * same bytes again. Refusals in order: those of corrected_by without Repeated; TooLong for the result; NoRoom, which does
 * not say how many bytes are needed. Refused: value 0, and the buffer stays as it was. */
capgauze_number capgauze_write_corrected(const uint8_t *original, size_t original_len, const uint8_t *correction,
                                         size_t correction_len, uint8_t *buf, size_t buf_len);

/* ---- Packed runs ----
 * A run is values of one wire type, one behind the other and without keys: all of a slice, which is a payload as a rule. Of
 * which type they are, the caller says; a type above 3 is refused as BadRecord before anything else, with 0 as the other
 * words. No bytes are the empty run of every type. Each of the three readers reads the whole run. */

/* Value is the number of values. Refusals in order: TooLong; Truncated, InvalidVarint as met. Refused: value 0. */
capgauze_number capgauze_run_count(const uint8_t *s, size_t s_len, uint64_t type);

/* The value at a number, counted from 0: found is 1, and type, value, length are a record's; a payload's start counts in s.
 * Past the last one (Absent): found is 0. Refused as run_count, wherever in the run: the number alone. */
capgauze_picked capgauze_run_value(const uint8_t *s, size_t s_len, uint64_t type, size_t number);

/* Reads all values as records of tag 0 with no key into the table, in their order: value is how many they are; the words
 * behind them stay. A table of as many records as the slice has bytes is always enough. Refusals in order: as run_count;
 * NoRoom, which does not say how many there are (run_count does). Refused: value 0, and the table stays as it was. */
capgauze_number capgauze_read_run(const uint8_t *s, size_t s_len, uint64_t type, uint64_t *table, size_t words);

/* Writes the values of the table's first `count` records as a run to the buffer's front, payloads taken from the source:
 * start is 0, length the run's; all other bytes stay. What read_run read is written as the bytes it was read from. Refusals
 * in order: TooLong for the source; BadRecord with the room as start, if the count is above it; from the first record on
 * BadRecord with its index as start, if it is not good, of another type, or of another tag than 0; TooLong for the output;
 * NoRoom with the length needed as length. All else is 0. */
capgauze_written capgauze_write_run(const uint8_t *source, size_t source_len, const uint64_t *table, size_t words,
                                    size_t count, uint64_t type, uint8_t *buf, size_t buf_len);

/* ---- Soundings ---- */

/* The words of a level: pressure in Pa; then for temperature and dew point depression, both in tenths of a degree, each 1 and the
 * number as the wire has it (a temperature by the signed mapping), or 0 and all ones where it is missing. */
#define CAPGAUZE_LEVEL_WORDS 5

/* Reads a whole sounding: its station, its launch in seconds and the number of its levels, whose words go into `levels`
 * in their order; the words behind them stay. Refusals in order: the sounding's own as a message; then tag by tag
 * Repeated, WrongWireType, MissingField, OutOfRange, each level as a message in itself and its tags likewise; last NoRoom, if there
 * are more levels than words / CAPGAUZE_LEVEL_WORDS. Refused: the number alone, and `levels` stays as it was. */
capgauze_sounding capgauze_read_sounding(const uint8_t *s, size_t s_len, uint64_t *levels, size_t words);

/* ---- Soundings of the second edition, with a grade ----
 * A level has two tags more: 4 is the wind speed in tenths of m/s, up to 2,000, and 5 its direction in degrees, up to 359. Both
 * are Varints, and missing where they are absent or all ones. */

/* The words of a level: the five of the first edition; then for wind speed and direction each 1 and the number, or 0 and all
 * ones where it is missing. */
#define CAPGAUZE_GRADED_WORDS 9

/* The grades, from the least to the most. A field is NotCanonical if it is a temperature, a depression, a wind speed or a
 * direction of all ones, where leaving the tag away would do; it has extensions if its tag is unknown, whatever its value; else it
 * is canonical. Known are tags 1 to 3 of a sounding, 1 to 5 of a level. */
enum {
    CAPGAUZE_GRADE_NOT_CANONICAL = 0,
    CAPGAUZE_GRADE_HAS_EXTENSIONS = 1,
    CAPGAUZE_GRADE_CANONICAL = 2
};

/* Reads a whole sounding of the second edition, and takes no field below the grade `least`: station, launch, the number of its
 * levels, whose words go into `levels`, and the grade reached, the least of all its fields and of its levels' fields. The words
 * behind them stay. Refusals in order: BadRecord for a least above 2; those of read_sounding, a level's tags 4 and 5 behind its
 * others, NoRoom if there are more levels than words / CAPGAUZE_GRADED_WORDS; last NotCanonical or UnknownField, by the first
 * field below `least` in the order of the bytes, a level's own fields in its place. Refused: the number alone, and `levels` stays
 * as it was. What is accepted here read_sounding accepts too, with room, and gives the first five of each level's words. */
capgauze_graded capgauze_read_graded(const uint8_t *s, size_t s_len, uint64_t *levels, size_t words, uint64_t least);

/* ---- Writing ----
 * Of one part: the bytes go to the buffer's front (encode) or its end (prepend), all other bytes stay; value is their
 * number. Refused: value 0. */

/* NoRoom. */
capgauze_number capgauze_encode_varint(uint64_t v, uint8_t *buf, size_t buf_len);
capgauze_number capgauze_prepend_varint(uint64_t v, uint8_t *buf, size_t buf_len);

/* The key of `tag` after the tag `last`. BadRecord for a type above 3, OutOfOrder, NoRoom. */
capgauze_number capgauze_encode_key(uint32_t last, uint32_t tag, uint64_t type, uint8_t *buf, size_t buf_len);
capgauze_number capgauze_prepend_key(uint32_t last, uint32_t tag, uint64_t type, uint8_t *buf, size_t buf_len);

/* Its length, which is the same for every type. OutOfOrder. */
capgauze_number capgauze_key_len(uint32_t last, uint32_t tag);

/* The first `count` records of the table as a message, payloads taken from the source. Accepted: where it starts in
 * the buffer, and its length; encode fills the front, prepend the end, all other bytes stay. Refusals in order: TooLong
 * for the source; BadRecord with the room as start, if the count is above it; from the first record on BadRecord, then
 * OutOfOrder, with the record's index as start; TooLong for the output; NoRoom with the length needed as length. With
 * the others length is 0, and with TooLong and NoRoom start is 0. A buffer of no bytes is how a message is measured: a
 * buffer of the length that NoRoom tells is enough, for both. */
capgauze_written capgauze_encode_message(const uint8_t *source, size_t source_len, const uint64_t *table, size_t words,
                                         size_t count, uint8_t *buf, size_t buf_len);
capgauze_written capgauze_prepend_message(const uint8_t *source, size_t source_len, const uint64_t *table, size_t words,
                                          size_t count, uint8_t *buf, size_t buf_len);

/* Puts a record with no key behind all of equal or lower tag among the table's first `count`; later ones move up one.
 * Value is the new count. Refusals in order: TooLong for the source (value 0); BadRecord with the room, if the count is
 * above it; from the first record on BadRecord, then OutOfOrder, with the index; BadRecord with the count for the new
 * record; NoRoom (value 0) if the count equals the room. */
capgauze_number capgauze_insert(const uint8_t *source, size_t source_len, uint64_t *table, size_t words, size_t count,
                                uint64_t tag, uint64_t type, uint64_t value, uint64_t length);

/* ---- A working copy ----
 * A table over one lent room of bytes, in which all its payloads lie; an edit may write both. The payloads with at least one byte
 * are live. No two of them overlap, and every key word is CAPGAUZE_NO_KEY: a table that read_message filled is a working copy of a
 * room with the message in front, once each of its key words is that; `insert` puts it there.
 *
 * New bytes go behind the live payload that ends last, the one being replaced left out. If they do not fit there, the live ones
 * are packed at the room's front in order of place, without that one, and the bytes go behind them; the starts are amended, and an
 * empty payload's start becomes 0. All other bytes stay. So freed bytes are used again, and a start may change by any such edit.
 * After any calls encode_message writes, with the room as source, the message of a plain list with the same edits.
 *
 * Refusals in order: TooLong for the room (value 0); BadRecord with the table's room, if the count is above it; from the first
 * record on BadRecord, then OutOfOrder, with the index; BadRecord with the least index whose payload overlaps that of an earlier
 * index; BadRecord with the least index that has a key word; then those of each. Refused: room and table stay as they were. */

/* Takes out the record at an index, of any type; later ones move down one. Value is the new count. The words from the old last
 * record on stay, and the room is only read. Then BadRecord with the index, if it is not below the count. */
capgauze_number capgauze_remove_record(const uint8_t *room, size_t room_len, uint64_t *table, size_t words, size_t count,
                                       size_t index);

/* Gives the payload at an index other bytes, which may not lie in the room. Value is the count. Then BadRecord with the index, if
 * it is not below the count or the record not LengthDelimited; NoRoom (value 0) exactly if the live bytes, without those of this
 * payload, and the new ones are more than the room has. */
capgauze_number capgauze_replace_payload(uint8_t *room, size_t room_len, uint64_t *table, size_t words, size_t count,
                                         size_t index, const uint8_t *bytes, size_t bytes_len);

/* Puts a payload behind all records of equal or lower tag; later ones move up one. Its bytes may not lie in the room. Value is the
 * new count. Then NoRoom (value 0) exactly if the live bytes and the new ones are more than the room has, or the table is full. */
capgauze_number capgauze_insert_payload(uint8_t *room, size_t room_len, uint64_t *table, size_t words, size_t count,
                                        uint32_t tag, const uint8_t *bytes, size_t bytes_len);

#ifdef __cplusplus
}
#endif
#endif
