/* Calls every entry through the header, most with the cases of docs/FORMAT.md. Whatever is lent ends at the edge of a page
 * that may not be touched. run.sh compiles it and runs it. */
#include "capgauze.h"
#include <limits.h>
#include <pthread.h>
#include <stdio.h>
#include <stdlib.h>
#include <string.h>
#include <sys/mman.h>
#include <unistd.h>

static int calls, failures;

/* An answer is compared word by word, and must have no word more. */
static void same(int line, const char *call, const void *got, size_t got_size, const uint64_t *want, size_t want_size) {
    calls++;
    if (got_size == want_size && !memcmp(got, want, got_size)) return;
    failures++;
    printf("test.c:%d: %s answered", line, call);
    for (size_t i = 0; i < got_size / 8; i++) printf(" %llu", ((const unsigned long long *)got)[i]);
    printf("\n");
}
#define SAME(call, ...)                                                  \
    do {                                                                 \
        const __typeof__(call) got = call;                               \
        const uint64_t want[] = {__VA_ARGS__};                           \
        same(__LINE__, #call, &got, sizeof got, want, sizeof want);      \
    } while (0)

/* Memory that ends where the page behind it is shut: one byte more, and the program dies. */
static void *lend(size_t size) {
    size_t page = sysconf(_SC_PAGESIZE), all = (size + page - 1) / page * page;
    uint8_t *p = mmap(0, all + page, PROT_READ | PROT_WRITE, MAP_PRIVATE | MAP_ANONYMOUS, -1, 0);
    if (p == MAP_FAILED || mprotect(p + all, page, PROT_NONE)) exit(2);
    return p + all - size;
}

static uint8_t *bytes; /* the slice that is lent next */
static size_t len;
static void use(const char *hex) {
    len = strlen(hex) / 2;
    bytes = lend(len);
    for (size_t i = 0; i < len; i++) sscanf(hex + 2 * i, "%2hhx", bytes + i);
}
#define S bytes, len

static uint64_t *table;
static size_t words;
static void lay(size_t n, const uint64_t *from) {
    words = n;
    table = lend(8 * n);
    for (size_t i = 0; i < n; i++) table[i] = from ? from[i] : 77;
}
#define TABLE table, words
static void table_is(int line, const uint64_t *want, size_t size) { same(line, "table", table, 8 * words, want, size); }
#define TABLE_IS(...) table_is(__LINE__, (const uint64_t[]){__VA_ARGS__}, sizeof(const uint64_t[]){__VA_ARGS__})

static uint8_t *buf;
static size_t buf_len;
static void room(size_t n) { buf = memset(lend(n), 0xA5, n), buf_len = n; }
#define BUF buf, buf_len
static void buf_is(int line, const char *want) {
    char got[256] = "";
    for (size_t i = 0; i < buf_len; i++) sprintf(got + 2 * i, "%02X", buf[i]);
    calls++;
    if (strcmp(got, want)) failures++, printf("test.c:%d: the buffer is %s, not %s\n", line, got, want);
}
#define BUF_IS(want) buf_is(__LINE__, want)

static void numbers(void) {
    SAME(capgauze_encoded_len_varint(127), 1);
    SAME(capgauze_encoded_len_varint(128), 2);
    SAME(capgauze_encoded_len_varint(UINT64_MAX), 9);
    SAME(capgauze_i64_to_unsigned(-1), 1);
    SAME(capgauze_i64_to_unsigned(INT64_MIN), UINT64_MAX);
    SAME((uint64_t)capgauze_u64_to_signed(1), (uint64_t)-1);
    SAME((uint64_t)capgauze_u64_to_signed(UINT64_MAX), (uint64_t)INT64_MIN);
}

/* The macros of the version are one version; a number has its name, and a number of nothing has none. */
#define TEXT_OF(x) #x
#define DOTTED(major, minor, patch) TEXT_OF(major) "." TEXT_OF(minor) "." TEXT_OF(patch)
static void names(void) {
    const char *version = DOTTED(CAPGAUZE_VERSION_MAJOR, CAPGAUZE_VERSION_MINOR, CAPGAUZE_VERSION_PATCH);
    SAME((uint64_t)strcmp(version, CAPGAUZE_VERSION), 0);
    SAME((uint64_t)strcmp(capgauze_refusal_name(CAPGAUZE_ACCEPTED), "Accepted"), 0);
    SAME((uint64_t)strcmp(capgauze_refusal_name(1), "Truncated"), 0);
    SAME((uint64_t)strcmp(capgauze_refusal_name(15), "UnknownField"), 0);
    SAME((uint64_t)strcmp(capgauze_refusal_name(16), "unknown"), 0);
    SAME((uint64_t)strcmp(capgauze_refusal_name(UINT64_MAX), "unknown"), 0);
}

static void parts(void) {
    use("");
    SAME(capgauze_decode_varint(S, 0), 1, 0, 0, 0);
    SAME(capgauze_decode_varint(S, 1), 8, 0, 1, 0);
    use("8000");
    SAME(capgauze_decode_varint(S, 0), 0, 128, 2, 0);
    SAME(capgauze_decode_varint_capped(S, 0, 1), 0, 128, 2, 0);
    use("80FFFEFEFEFEFEFEFE");
    SAME(capgauze_decode_varint(S, 0), 2, 0, 0, 9);
    SAME(capgauze_decode_varint_capped(S, 0, 8), 1, 0, 0, 9); /* renamed: nine bytes all the same */
    SAME(capgauze_decode_varint(S, 1), 1, 0, 1, 8);
    use("FCFEFEFE3E");
    SAME(capgauze_decode_key(S, 0, 5, 0), 0, 4294967295, 0, 5, 0, 0);
    SAME(capgauze_decode_key(S, 0, 5, 1), 3, 1, 0, 0, 0, 0);
    SAME(capgauze_decode_key(S, 5, 5, 1), 1, 1, 0, 5, 5, 0);
    SAME(capgauze_decode_key(S, 0, 6, 9), 8, 9, 0, 0, 0, 0);
    use("02AABB05");
    SAME(capgauze_decode_value(S, 0, 4, CAPGAUZE_LENGTH_DELIMITED), 0, 1, 2, 3, 0, 0);
    SAME(capgauze_decode_value(S, 0, 4, CAPGAUZE_THIRTY_TWO_BIT), 0, 0x05BBAA02, 4, 4, 0, 0);
    SAME(capgauze_decode_value(S, 1, 4, CAPGAUZE_THIRTY_TWO_BIT), 1, 0, 0, 1, 1, 0);
    SAME(capgauze_decode_value(S, 3, 4, CAPGAUZE_LENGTH_DELIMITED), 1, 0, 0, 3, 3, 0); /* a length too long */
    SAME(capgauze_decode_value(S, 1, 4, CAPGAUZE_LENGTH_DELIMITED), 1, 0, 0, 1, 1, 0);
    SAME(capgauze_decode_value(S, 9, 9, 4), 6, 0, 0, 9, 0, 0); /* no wire type: before anything else */
    use("0500060407");
    SAME(capgauze_skip_field(S, 0, 5, CAPGAUZE_VARINT), 0, 3, 0, 0);
    SAME(capgauze_skip_field(S, 0, 6, CAPGAUZE_VARINT), 8, 0, 0, 0);
    SAME(capgauze_skip_field(S, 3, 5, UINT64_MAX), 6, 3, 0, 0);
    use("000180");
    SAME(capgauze_skip_field(S, 0, 3, CAPGAUZE_VARINT), 1, 0, 2, 1); /* a later value failed */
    use("008000");
    SAME(capgauze_step_at(S, 0, 2, 7), 0, 1, 7, 0, 128, 0, 3, 0, 0);
    SAME(capgauze_step_at(S, 2, 2, 7), 0, 0, 7, 0, 0, 0, 2, 0, 0);
    SAME(capgauze_step_at(S, 3, 2, 7), 1, 0, 7, 0, 0, 0, 3, 3, 0);
}

static void messages(void) {
    use("04FFFEFEFEFEFEFEFEFE0902C0DE0201000000");
    lay(16, 0);
    SAME(capgauze_read_message(S, 0, len, TABLE), 0, 19, 3, 0, 0);
    TABLE_IS(1, 0, UINT64_MAX, 0, 0, 3, 1, 12, 2, 10, 3, 2, 1, 4, 14, 77);
    lay(16, 0);
    SAME(capgauze_read_message(S, 10, len, TABLE), 0, 19, 2, 0, 0); /* places count in the slice */
    TABLE_IS(2, 1, 12, 2, 10, 2, 2, 1, 4, 14, 77, 77, 77, 77, 77, 77);
    lay(14, 0);
    SAME(capgauze_read_message(S, 0, len, TABLE), 5, 0, 3, 0, 0);
    SAME(capgauze_read_message(S, 0, 18, TABLE), 1, 14, 0, 15, 0);
    SAME(capgauze_read_message(S, 0, 13, TABLE), 1, 10, 0, 11, 0);
    SAME(capgauze_read_message(S, 0, 5, TABLE), 1, 0, 0, 10, 0); /* the end was passed */
    SAME(capgauze_read_message(S, 0, 20, TABLE), 8, 0, 0, 0, 0);
    TABLE_IS(77, 77, 77, 77, 77, 77, 77, 77, 77, 77, 77, 77, 77, 77);
    SAME(capgauze_pick(S, 3), 11, 0, 0, 0, 0);
    SAME(capgauze_pick(S, 1), 0, 1, 0, UINT64_MAX, 0);
    SAME(capgauze_pick(S, 2), 0, 0, 0, 0, 0);
    SAME(capgauze_pick_at(S, 3, 0), 0, 2, 1, 1, 12, 2);
    SAME(capgauze_pick_at(S, 3, 1), 0, 2, 1, 2, 1, 4);
    SAME(capgauze_pick_at(S, 3, 2), 0, 2, 0, 0, 0, 0);
    SAME(capgauze_pick_at(S, 2, 0), 0, 0, 0, 0, 0, 0);
    SAME(capgauze_pick_early(S, 1), 0, 2, 1, 0, UINT64_MAX, 0);
    SAME(capgauze_pick_early(S, 2), 0, 2, 0, 0, 0, 0);
    SAME(capgauze_pick_early(S, 3), 11, 0, 0, 0, 0, 0);
    SAME(capgauze_pick_early(S, 4), 0, 3, 0, 0, 0, 0);
    use("000005");
    SAME(capgauze_pick(S, 0), 1, 0, 0, 0, 0);
    SAME(capgauze_pick_early(S, 0), 0, 2, 1, 0, 0, 0);
    use("0405000700");
    SAME(capgauze_pick_early(S, 1), 1, 0, 0, 0, 0, 0);
    SAME(capgauze_pick(S, 1), 1, 0, 0, 0, 0);
    SAME(capgauze_pick_at(S, 1, 0), 1, 0, 0, 0, 0, 0);
    use("0000050504000100");
    SAME(capgauze_payload_of(S, 0, 1, 4, 3, 2), 4, 3);
    SAME(capgauze_payload_of(S, 0, 1, 4, 3, 7), 4, 3); /* no key stands there */
    SAME(capgauze_payload_of(S, 0, 1, 4, 3, 8), 0, 0); /* the source's end */
    SAME(capgauze_payload_of(S, 0, 1, 4, 3, UINT64_MAX - 1), 0, 0);
    SAME(capgauze_payload_of(S, 0, 1, 4, 3, CAPGAUZE_NO_KEY), 4, 3);
    SAME(capgauze_payload_of(S, 0, 0, 4, 0, 2), 0, 0);
    SAME(capgauze_payload_of(S, 0, 1, UINT64_MAX, 2, 2), 0, 0);
    lay(5, 0);
    SAME(capgauze_read_payload(S, 0, 1, 4, 2, 2, TABLE), 0, 2, 1, 0, 0); /* 04 00 */
    TABLE_IS(1, 0, 0, 0, 0); /* its key counts in the payload */
    SAME(capgauze_read_payload(S, 0, 1, 4, 3, 2, TABLE), 1, 2, 0, 3, 0); /* and 01 */
    SAME(capgauze_read_payload(S, 0, 1, 4, 3, 8, TABLE), 0, 0, 0, 0, 0); /* a bad key: no payload */
    SAME(capgauze_read_payload(S, 0, 0, 4, 0, 2, TABLE), 0, 0, 0, 0, 0);
    len = CAPGAUZE_LIMIT + 1;
    bytes = lend(len);
    SAME(capgauze_read_message(S, 0, 0, TABLE), 4, 0, 0, 0, 0);
    SAME(capgauze_pick(S, 0), 4, 0, 0, 0, 0);
    SAME(capgauze_payload_of(S, 0, 1, 0, len, len - 1), 0, len);
    SAME(capgauze_payload_of(S, 0, 1, 0, len, len), 0, 0);
}

static void writing(void) {
    room(3);
    SAME(capgauze_encode_varint(128, BUF), 0, 2);
    BUF_IS("8000A5");
    SAME(capgauze_prepend_varint(5, BUF), 0, 1);
    BUF_IS("800005");
    SAME(capgauze_encode_varint(UINT64_MAX, BUF), 5, 0);
    SAME(capgauze_prepend_key(2, 3, CAPGAUZE_SIXTY_FOUR_BIT, BUF), 0, 1);
    BUF_IS("800007");
    SAME(capgauze_encode_key(3, 2, CAPGAUZE_VARINT, BUF), 7, 0);
    SAME(capgauze_encode_key(3, 2, 4, BUF), 6, 0);
    BUF_IS("800007");
    SAME(capgauze_key_len(0, 31), 0, 1);
    SAME(capgauze_key_len(0, 32), 0, 2);
    SAME(capgauze_key_len(1, 0), 7, 0);

    use("C0DE");
    lay(16, (const uint64_t[]){1, 0, UINT64_MAX, 0, CAPGAUZE_NO_KEY, 3, 1, 0, 2, 0, 3, 2, 1, 4, 1, 77});
    room(21);
    SAME(capgauze_prepend_message(S, TABLE, 3, BUF), 0, 2, 19);
    BUF_IS("A5A504FFFEFEFEFEFEFEFEFE0902C0DE0201000000");
    room(18);
    SAME(capgauze_encode_message(S, TABLE, 3, BUF), 5, 0, 19); /* the length needed */
    SAME(capgauze_prepend_message(S, TABLE, 3, BUF), 5, 0, 19);
    SAME(capgauze_encode_message(S, TABLE, 4, BUF), 6, 3, 0);
    SAME(capgauze_prepend_message(S, TABLE, 0, BUF), 0, 18, 0);
    SAME(capgauze_encode_message(S, TABLE, 2, BUF), 0, 0, 14);
    BUF_IS("04FFFEFEFEFEFEFEFEFE0902C0DEA5A5A5A5");
    room(0); /* measured by a buffer of no bytes */
    SAME(capgauze_encode_message(S, TABLE, 3, BUF), 5, 0, 19);
    SAME(capgauze_prepend_message(S, TABLE, 2, BUF), 5, 0, 14);
    SAME(capgauze_encode_message(S, TABLE, 0, BUF), 0, 0, 0);
    table[9] = 2; /* a key at the source's end, and one past it */
    SAME(capgauze_encode_message(S, TABLE, 3, BUF), 6, 1, 0);
    SAME(capgauze_prepend_message(S, TABLE, 3, BUF), 6, 1, 0);
    SAME(capgauze_encode_message(S, TABLE, 1, BUF), 5, 0, 10);
    table[9] = UINT64_MAX - 1;
    SAME(capgauze_encode_message(S, TABLE, 3, BUF), 6, 1, 0);
    SAME(capgauze_insert(S, TABLE, 2, 0, 0, 0, 0), 6, 1);

    lay(11, (const uint64_t[]){1, 0, 5, 0, 1, 77, 77, 77, 77, 77, 77});
    SAME(capgauze_insert(S, TABLE, 1, 0, 1, 0, 2), 0, 2);
    TABLE_IS(0, 1, 0, 2, CAPGAUZE_NO_KEY, 1, 0, 5, 0, 1, 77);
    SAME(capgauze_insert(S, TABLE, 2, 0, 1, 0, 2), 5, 0);
    SAME(capgauze_insert(S, TABLE, 2, 0, 1, 0, 3), 6, 2);
    SAME(capgauze_insert(S, TABLE, 3, 0, 0, 0, 0), 6, 2);
    TABLE_IS(0, 1, 0, 2, CAPGAUZE_NO_KEY, 1, 0, 5, 0, 1, 77);
}

/* The index that is lent next: tag, place and count of each of its entries. */
#define INDEX(...) lay(sizeof(const uint64_t[]){__VA_ARGS__} / 8, (const uint64_t[]){__VA_ARGS__})
#define PICK(tags, tag) capgauze_pick_indexed(S, TABLE, tags, tag)
#define FITS(tags) capgauze_index_fits(S, TABLE, tags)

static void indexes(void) {
    use("04FFFEFEFEFEFEFEFEFE0902C0DE0201000000");
    lay(7, 0);
    SAME(capgauze_make_index(S, TABLE), 0, 2);
    TABLE_IS(1, 0, 1, 3, 10, 2, 77);
    SAME(FITS(2), 1);
    SAME(FITS(1), 0);
    SAME(FITS(3), 0); /* more than there are words for */
    SAME(FITS(SIZE_MAX), 0);
    SAME(PICK(2, 1), 0, 1, 0, UINT64_MAX, 0);
    SAME(PICK(2, 2), 0, 0, 0, 0, 0);
    SAME(PICK(2, 3), 11, 0, 0, 0, 0);
    SAME(PICK(1, 3), 0, 0, 0, 0, 0);
    SAME(PICK(3, 1), 12, 0, 0, 0, 0);
    SAME(PICK(SIZE_MAX, 1), 12, 0, 0, 0, 0);
    /* one word off, and it is the index of another message */
    for (size_t i = 0; i < 6; i++) {
        table[i]++;
        SAME(FITS(2), 0);
        table[i]--;
    }
    SAME(FITS(2), 1);

    /* refusals leave the index, and NoRoom tells no number */
    lay(5, 0);
    SAME(capgauze_make_index(S, TABLE), 5, 0);
    len = 18;
    SAME(capgauze_make_index(S, TABLE), 1, 0);
    SAME(FITS(1), 0);
    use("80FFFEFE3E00");
    SAME(capgauze_make_index(S, TABLE), 3, 0);
    use("80FFFEFEFEFEFEFEFE00");
    SAME(capgauze_make_index(S, TABLE), 2, 0);
    len = CAPGAUZE_LIMIT + 1;
    bytes = lend(len);
    SAME(capgauze_make_index(S, TABLE), 4, 0);
    TABLE_IS(77, 77, 77, 77, 77);

    /* the longest message, all of one tag */
    len = CAPGAUZE_LIMIT - 1;
    bytes = lend(len);
    lay(3, 0);
    SAME(capgauze_make_index(S, TABLE), 0, 1);
    TABLE_IS(0, 0, 524287);
    SAME(FITS(1), 1);
    SAME(PICK(1, 0), 11, 0, 0, 0, 0);

    /* the empty message; and `00`, which is cut short, fits nothing */
    use("");
    lay(0, 0);
    SAME(capgauze_make_index(S, TABLE), 0, 0);
    SAME(FITS(0), 1);
    SAME(FITS(1), 0);
    SAME(PICK(0, 0), 0, 0, 0, 0, 0);
    INDEX(0, 0, 1);
    SAME(FITS(0), 1);
    SAME(FITS(1), 0);
    SAME(PICK(1, 0), 12, 0, 0, 0, 0);
    use("00");
    SAME(FITS(0), 0);
    SAME(FITS(1), 0);
}

static void lookups(void) {
    /* TooLong or Absent: the index, then the limit, then the lookup */
    len = CAPGAUZE_LIMIT + 1;
    bytes = lend(len);
    lay(0, 0);
    SAME(PICK(0, 0), 4, 0, 0, 0, 0);
    SAME(PICK(1, 0), 12, 0, 0, 0, 0);
    INDEX(1, 0, 1);
    SAME(PICK(1, 0), 4, 0, 0, 0, 0);
    /* every entry is tested, also those not asked */
    use("0000");
    INDEX(0, 0, 1, 1, 9, 1);
    SAME(PICK(2, 0), 12, 0, 0, 0, 0);
    SAME(PICK(1, 0), 0, 1, 0, 0, 0);
    INDEX(0, 0, 1, 1, 2, 1);
    SAME(PICK(2, 0), 12, 0, 0, 0, 0);
    INDEX(0, 0, 1, 1, 1, 0);
    SAME(PICK(2, 0), 12, 0, 0, 0, 0);
    INDEX(0, 0, 1, 0, 0, 1);
    SAME(PICK(2, 0), 12, 0, 0, 0, 0);
    INDEX(0, 0, 1, 4294967296, 0, 1);
    SAME(PICK(2, 0), 12, 0, 0, 0, 0);
    INDEX(0, 0, 1, 4294967295, 0, 1);
    SAME(PICK(2, 0), 0, 1, 0, 0, 0);
    SAME(PICK(2, 4294967295), 0, 1, 0, 0, 0);
    /* a count that no message has: the message ends early */
    INDEX(0, 0, UINT64_MAX);
    SAME(PICK(1, 0), 12, 0, 0, 0, 0);
    /* the first key may overflow, and a later one; a later one of another tag */
    use("80FFFEFE3E00");
    INDEX(7, 0, 1);
    SAME(PICK(1, 7), 3, 0, 0, 0, 0);
    use("000080FFFEFE3E00");
    INDEX(0, 0, 2);
    SAME(PICK(1, 0), 3, 0, 0, 0, 0);
    use("00000400");
    SAME(PICK(1, 0), 12, 0, 0, 0, 0);
    use("000004"); /* and its value is not read */
    SAME(PICK(1, 0), 12, 0, 0, 0, 0);
    use("000000");
    SAME(PICK(1, 0), 1, 0, 0, 0, 0);
    use("00000000");
    SAME(PICK(1, 0), 11, 0, 0, 0, 0);
    /* what stands at the place is the field, of whatever tag and type */
    use("0500");
    INDEX(7, 0, 1);
    SAME(PICK(1, 7), 0, 1, 1, 2, 0);
    use("0505");
    SAME(PICK(1, 7), 1, 0, 0, 0, 0);
    use("0780FFFEFEFEFEFEFEFE");
    INDEX(7, 2, 1);
    SAME(PICK(1, 7), 1, 0, 0, 0, 0);
    use("0480FFFEFEFEFEFEFEFE");
    INDEX(7, 0, 1);
    SAME(PICK(1, 7), 2, 0, 0, 0, 0);
    /* later keys are read behind the first key's tag */
    use("FCFEFEFE3E000400");
    INDEX(7, 0, 2);
    SAME(PICK(1, 7), 3, 0, 0, 0, 0);
}

static void text(size_t n, const char *from) {
    len = n;
    bytes = memcpy(lend(n), from, n);
}
#define LINE(from) text(sizeof from - 1, from)

static void line_is(int line, const char *want, size_t size) {
    calls++;
    if (size == buf_len && !memcmp(buf, want, size)) return;
    failures++, printf("test.c:%d: the line is %.*s\n", line, (int)buf_len, buf);
}
#define LINE_IS(want) line_is(__LINE__, want, sizeof want - 1)

static void lines(void) {
    INDEX(1, 0, 1, 3, 10, 2, 77);
    room(43);
    SAME(capgauze_write_line(TABLE, 2, BUF), 0, 42);
    LINE_IS("0200000001000000000001" "0000000300000A000002\xA5");
    text(42, (const char *)buf);
    lay(7, 0);
    SAME(capgauze_read_line(S, SIZE_MAX, TABLE), 0, 2);
    TABLE_IS(1, 0, 1, 3, 10, 2, 77);
    lay(5, 0);
    SAME(capgauze_read_line(S, 0, TABLE), 5, 0);
    TABLE_IS(77, 77, 77, 77, 77);
    /* no tags */
    room(2);
    SAME(capgauze_write_line(TABLE, 0, BUF), 0, 2);
    BUF_IS("3032");
    room(1);
    SAME(capgauze_write_line(TABLE, 0, BUF), 5, 0);
    SAME(capgauze_write_line(TABLE, 2, BUF), 12, 0); /* before NoRoom */
    BUF_IS("A5");
    lay(0, 0);
    LINE("02");
    SAME(capgauze_read_line(S, 0, TABLE), 0, 0);
    SAME(capgauze_read_line(S, 65536, TABLE), 0, 0);
    SAME(capgauze_read_line(S, SIZE_MAX, TABLE), 0, 0);
    LINE("");
    SAME(capgauze_read_line(S, 0, TABLE), 12, 0);
    /* what has no line; refused, the buffer stays */
    room(22);
    INDEX(0, 16777215, 16777215);
    SAME(capgauze_write_line(TABLE, 1, BUF), 0, 22);
    LINE_IS("0200000000FFFFFFFFFFFF");
    room(22);
    INDEX(4294967295, 65536, 524287);
    SAME(capgauze_write_line(TABLE, 1, BUF), 0, 22);
    LINE_IS("02FFFFFFFF01000007FFFF");
    room(21);
    SAME(capgauze_write_line(TABLE, 1, BUF), 5, 0);
    INDEX(0, 16777216, 1);
    SAME(capgauze_write_line(TABLE, 1, BUF), 12, 0);
    INDEX(0, 0, 16777216);
    SAME(capgauze_write_line(TABLE, 1, BUF), 12, 0);
    INDEX(0, 0, 0);
    SAME(capgauze_write_line(TABLE, 1, BUF), 12, 0);
    INDEX(4294967296, 0, 1);
    SAME(capgauze_write_line(TABLE, 1, BUF), 12, 0);
    INDEX(1, 0, 1, 1, 0, 1);
    SAME(capgauze_write_line(TABLE, 2, BUF), 12, 0);
    SAME(capgauze_write_line(TABLE, 3, BUF), 12, 0);
    SAME(capgauze_write_line(TABLE, SIZE_MAX, BUF), 12, 0);
    BUF_IS("A5A5A5A5A5A5A5A5A5A5A5A5A5A5A5A5A5A5A5A5A5");
}

/* Each is refused beside a message of any length, and the index stays. */
static void none(int line, const char *from, size_t n) {
    static const size_t beside[] = {0, 65535, 65536, CAPGAUZE_LIMIT, SIZE_MAX};
    const uint64_t want[] = {12, 0};
    text(n, from);
    lay(6, 0);
    for (size_t i = 0; i < sizeof beside / sizeof *beside; i++) {
        const capgauze_number got = capgauze_read_line(S, beside[i], TABLE);
        same(line, from, &got, sizeof got, want, sizeof want);
    }
    TABLE_IS(77, 77, 77, 77, 77, 77);
}
#define NONE(from) none(__LINE__, from, sizeof from - 1)

static void read_lines(void) {
    NONE("0");
    NONE("2");
    NONE("00");
    NONE("03");
    NONE("10");
    NONE("12");
    NONE("20");
    NONE(" 02");
    NONE("010");
    NONE("020");
    NONE("02\n");
    NONE("03" "0000000A000000000001");
    NONE("01" "0000000A000000000001");
    NONE("02" "0000000A00000001");
    NONE("02" "0000000a000000000001");
    NONE("02" "0000000G000000000001");
    NONE("02" "0000000A000000000000");
    NONE("02" "0000000A000000000001" "0000000A000000000001");
    NONE("02" "0000000A000000000001" "0000000B000000000001" "0000000A000000000001"); /* before NoRoom */
    NONE("01" "0000000a00000001");
    NONE("01" "0000000G00000001");
    NONE("01" "0000000A00000000");
    NONE("01" "0000000A00000001" "0000000A00000001");
    NONE("01" "0000000A00000001" "0000000B00000001" "0000000A00000001");
    /* five entries of one width are four of the other: the edition says which */
    NONE("02" "0000000A00000001" "0000000B00000001" "0000000C00000001" "0000000D00000001" "0000000E00000001");
    lay(6, 0);
    LINE("02" "0000000A000000000001" "0000000B000000000001" "0000000C000000000001");
    SAME(capgauze_read_line(S, 0, TABLE), 5, 0);
    LINE("01" "0000000A00000001" "0000000B00000001" "0000000C00000001");
    SAME(capgauze_read_line(S, 0, TABLE), 5, 0);
    SAME(capgauze_read_line(S, 65536, TABLE), 12, 0); /* before NoRoom */
    TABLE_IS(77, 77, 77, 77, 77, 77);
    LINE("02" "0000000AFFFFFF000001" "FFFFFFFF000000FFFFFF");
    SAME(capgauze_read_line(S, 0, TABLE), 0, 2);
    TABLE_IS(10, 16777215, 1, 4294967295, 0, 16777215);
    /* edition 01 beside a short message; it comes back as edition 02 of the same index */
    LINE("01" "0000000AFFFF0001" "FFFFFFFF0000FFFF");
    lay(7, 0);
    SAME(capgauze_read_line(S, 65536, TABLE), 12, 0);
    SAME(capgauze_read_line(S, CAPGAUZE_LIMIT, TABLE), 12, 0);
    SAME(capgauze_read_line(S, SIZE_MAX, TABLE), 12, 0);
    TABLE_IS(77, 77, 77, 77, 77, 77, 77);
    SAME(capgauze_read_line(S, 65535, TABLE), 0, 2);
    TABLE_IS(10, 65535, 1, 4294967295, 0, 65535, 77);
    lay(7, 0);
    SAME(capgauze_read_line(S, 0, TABLE), 0, 2); /* shorter than its places: only a lookup looks at them */
    TABLE_IS(10, 65535, 1, 4294967295, 0, 65535, 77);
    room(42);
    SAME(capgauze_write_line(TABLE, 2, BUF), 0, 42);
    LINE_IS("02" "0000000A00FFFF000001" "FFFFFFFF00000000FFFF");
    text(42, (const char *)buf);
    lay(6, 0);
    SAME(capgauze_read_line(S, SIZE_MAX, TABLE), 0, 2);
    TABLE_IS(10, 65535, 1, 4294967295, 0, 65535);
    lay(0, 0);
    LINE("01");
    SAME(capgauze_read_line(S, 65535, TABLE), 0, 0);
    SAME(capgauze_read_line(S, 65536, TABLE), 12, 0);
}

/* ---- Corrections: the slice is the original, and beside it lies the correction ---- */

static uint8_t *other;
static size_t other_len;
static void over(const char *original, const char *correction) {
    use(correction);
    other = bytes, other_len = len;
    use(original);
}
#define C other, other_len
#define BY(tag) capgauze_corrected_by(S, C, tag)
#define PART(tag) capgauze_corrected_part(S, C, tag)
#define WRITE() capgauze_write_corrected(S, C, BUF)

/* What the writer answers, and the buffer then. */
static void wrote(int line, uint64_t number, uint64_t value, const char *then) {
    const uint64_t want[] = {number, value};
    const capgauze_number got = WRITE();
    same(line, "write_corrected", &got, sizeof got, want, sizeof want);
    buf_is(line, then);
}

/* The result in a buffer with a byte to spare, in one that it fills, applied again, and in one that is a byte short. */
static void corrected(int line, const char *original, const char *correction, const char *want) {
    const size_t length = strlen(want) / 2;
    char spare[256], none[256] = "";
    over(original, correction);
    room(length + 1);
    wrote(line, 0, length, strcat(strcpy(spare, want), "A5"));
    room(length);
    wrote(line, 0, length, want);
    if (length > len + other_len) failures++, printf("test.c:%d: longer than both\n", line);
    bytes = buf, len = buf_len;
    room(length);
    wrote(line, 0, length, want);
    if (!length) return;
    over(original, correction);
    room(length - 1);
    for (size_t i = 1; i < length; i++) strcat(none, "A5");
    wrote(line, 5, 0, none);
}
#define CORRECTED(original, correction, want) corrected(__LINE__, original, correction, want)

static void corrections(void) {
    CORRECTED("", "", "");
    CORRECTED("0005", "", "0005");
    CORRECTED("", "0005", "0005");
    /* all fields of a tag are replaced, many by one and one by many */
    CORRECTED("00000000", "0005", "0005");
    CORRECTED("0005", "00000000", "00000000");
    CORRECTED("000104020403", "04070008", "0001040700080403");
    /* keys are written anew where the two meet, and get shorter */
    CORRECTED("00010802", "0405", "000104050402");
    CORRECTED("0405", "00010802", "000104050402");
    CORRECTED("8000010402", "0600000000", "06000000007C010402");
    CORRECTED("FCFEFEFE3E00", "0407", "0407F8FEFEFE3E00");
    CORRECTED("0407", "FCFEFEFE3E00", "0407F8FEFEFE3E00");
    /* one type by another */
    CORRECTED("04050902C0DE0601020304", "0D00", "040509000601020304");
    CORRECTED("04050902C0DE0601020304", "0C8000", "04050880000601020304");
}

static void suppliers(void) {
    over("000104020403", "04070008");
    SAME(BY(0), 0, CAPGAUZE_FROM_ORIGINAL);
    SAME(PART(0), 1, 1);
    SAME(BY(1), 11, 0); /* twice in the correction, though once in the original */
    SAME(PART(1), 0, 0);
    SAME(BY(2), 0, CAPGAUZE_FROM_ORIGINAL);
    SAME(PART(2), 5, 1);
    SAME(BY(3), 0, CAPGAUZE_FROM_NONE);
    SAME(PART(3), 0, 0);
    over("00000000", "0005"); /* twice in the original, once in the correction */
    SAME(BY(0), 0, CAPGAUZE_FROM_CORRECTION);
    SAME(PART(0), 1, 1);
    over("00000000", "0405");
    SAME(BY(0), 11, 0);
    SAME(BY(1), 0, CAPGAUZE_FROM_CORRECTION);
    over("", "");
    SAME(BY(0), 0, 0);
    SAME(PART(0), 0, 0);
    /* an empty payload is no absence: its part has its own start */
    over("0100", "");
    SAME(BY(0), 0, CAPGAUZE_FROM_ORIGINAL);
    SAME(PART(0), 2, 0);
    over("0902C0DE", "0900");
    SAME(BY(2), 0, CAPGAUZE_FROM_CORRECTION);
    SAME(PART(2), 2, 0);
    /* bytes as they stand: a varint's all, a payload's without its length, four, eight */
    over("048000", "");
    SAME(PART(1), 1, 2);
    over("0902C0DE0601020304070102030405060708", "");
    SAME(PART(2), 2, 2);
    SAME(PART(3), 5, 4);
    SAME(PART(4), 10, 8);
    over("", "0902C0DE0601020304070102030405060708");
    SAME(BY(4), 0, CAPGAUZE_FROM_CORRECTION);
    SAME(PART(4), 10, 8);
    /* the highest tag */
    over("FCFEFEFE3E07", "0001");
    SAME(BY(4294967295), 0, CAPGAUZE_FROM_ORIGINAL);
    SAME(PART(4294967295), 5, 1);
    /* one and the same memory */
    use("000104020403");
    SAME(capgauze_corrected_by(S, S, 1), 0, CAPGAUZE_FROM_CORRECTION);
    SAME(capgauze_corrected_part(S, S, 1), 3, 1);
    room(6);
    SAME(capgauze_write_corrected(S, S, BUF), 0, 6);
    BUF_IS("000104020403");
}

/* Both lookups and the writer of one pair, whatever the tag, into any room. */
static void refused(int line, const char *original, const char *correction, uint64_t number) {
    const uint64_t want[] = {number, 0}, none[] = {0, 0};
    over(original, correction);
    for (uint32_t tag = 0; tag < 3; tag++) {
        const capgauze_supplier by = BY(tag);
        same(line, "corrected_by", &by, sizeof by, want, sizeof want);
        const capgauze_part part = PART(tag);
        same(line, "corrected_part", &part, sizeof part, none, sizeof none);
    }
    for (size_t n = 0; n < 3; n++) {
        room(n);
        wrote(line, number, 0, &"A5A5"[4 - 2 * n]);
    }
}
#define REFUSED(original, correction, number) refused(__LINE__, original, correction, number)
#define INVALID "80FFFEFEFEFEFEFEFE"
#define OVERFLOWED "80FFFEFE3E00"

static void bad_corrections(void) {
    REFUSED("00", "", 1);
    REFUSED("", "00", 1);
    REFUSED(INVALID, "", 2);
    REFUSED("", INVALID, 2);
    REFUSED(OVERFLOWED, "", 3);
    REFUSED("", OVERFLOWED, 3);
    REFUSED("0000000000", "", 1); /* before Repeated, which needs the whole message */
    REFUSED("", "0000000000", 1);
    REFUSED("00000000", "00", 1);
    REFUSED("00", INVALID, 1);    /* the original's first */
    REFUSED(INVALID, "00", 2);
    REFUSED(OVERFLOWED, INVALID, 3);
    /* one byte over the limit, beside what is refused otherwise */
    over("00", "");
    other_len = CAPGAUZE_LIMIT + 1;
    other = lend(other_len);
    room(1);
    SAME(BY(0), 1, 0);
    SAME(WRITE(), 1, 0);
    use("");
    SAME(BY(0), 4, 0);
    SAME(PART(0), 0, 0);
    SAME(WRITE(), 4, 0);
    len = CAPGAUZE_LIMIT + 1;
    bytes = lend(len);
    SAME(BY(0), 4, 0);
    other_len = 1; /* 00 */
    SAME(BY(0), 4, 0);
    SAME(WRITE(), 4, 0);
    BUF_IS("A5");
}

/* ---- Packed runs ---- */

#define COUNT(type) capgauze_run_count(S, type)
#define AT(type, number) capgauze_run_value(S, type, number)
#define RUN(type) capgauze_read_run(S, type, TABLE)
#define PACK(count, type) capgauze_write_run(S, TABLE, count, type, BUF)

static void runs(void) {
    for (uint64_t type = 0; type < 4; type++) { /* no bytes are the empty run of every type */
        use("");
        lay(0, 0);
        room(0);
        SAME(COUNT(type), 0, 0);
        SAME(AT(type, 0), 0, 0, 0, 0, 0);
        SAME(RUN(type), 0, 0);
        SAME(PACK(0, type), 0, 0, 0);
    }
    use("058000FFFEFEFEFEFEFEFEFE");
    SAME(COUNT(CAPGAUZE_VARINT), 0, 3);
    SAME(AT(CAPGAUZE_VARINT, 0), 0, 1, 0, 5, 0);
    SAME(AT(CAPGAUZE_VARINT, 1), 0, 1, 0, 128, 0);
    SAME(AT(CAPGAUZE_VARINT, 2), 0, 1, 0, UINT64_MAX, 0);
    SAME(AT(CAPGAUZE_VARINT, 3), 0, 0, 0, 0, 0);
    SAME(AT(CAPGAUZE_VARINT, SIZE_MAX), 0, 0, 0, 0, 0);
    lay(16, 0);
    SAME(RUN(CAPGAUZE_VARINT), 0, 3);
    TABLE_IS(0, 0, 5, 0, CAPGAUZE_NO_KEY, 0, 0, 128, 0, CAPGAUZE_NO_KEY, 0, 0, UINT64_MAX, 0, CAPGAUZE_NO_KEY, 77);
    room(13);
    SAME(PACK(3, CAPGAUZE_VARINT), 0, 0, 12);
    BUF_IS("058000FFFEFEFEFEFEFEFEFEA5");
    SAME(COUNT(CAPGAUZE_THIRTY_TWO_BIT), 0, 3);
    SAME(AT(CAPGAUZE_THIRTY_TWO_BIT, 0), 0, 1, 2, 0xFF008005, 4);
    SAME(COUNT(CAPGAUZE_SIXTY_FOUR_BIT), 1, 0); /* twelve bytes */
    lay(16, 0);
    SAME(RUN(CAPGAUZE_THIRTY_TWO_BIT), 0, 3);
    TABLE_IS(0, 2, 0xFF008005, 4, CAPGAUZE_NO_KEY, 0, 2, 0xFEFEFEFE, 4, CAPGAUZE_NO_KEY, 0, 2, 0xFEFEFEFE, 4, CAPGAUZE_NO_KEY, 77);
    use("7F8000FF7F808000FFFF7F80808000"); /* the last number of each length and the first of the next */
    SAME(COUNT(CAPGAUZE_VARINT), 0, 6);
    SAME(AT(CAPGAUZE_VARINT, 3), 0, 1, 0, 0x4080, 0);
    SAME(AT(CAPGAUZE_VARINT, 5), 0, 1, 0, 0x204080, 0);
    lay(30, 0);
    SAME(RUN(CAPGAUZE_VARINT), 0, 6);
    room(16);
    SAME(PACK(6, CAPGAUZE_VARINT), 0, 0, 15);
    BUF_IS("7F8000FF7F808000FFFF7F80808000A5");
    use("01AA00");
    SAME(COUNT(CAPGAUZE_LENGTH_DELIMITED), 0, 2);
    SAME(AT(CAPGAUZE_LENGTH_DELIMITED, 0), 0, 1, 1, 1, 1);
    SAME(AT(CAPGAUZE_LENGTH_DELIMITED, 1), 0, 1, 1, 3, 0);
    lay(10, 0);
    SAME(RUN(CAPGAUZE_LENGTH_DELIMITED), 0, 2);
    TABLE_IS(0, 1, 1, 1, CAPGAUZE_NO_KEY, 0, 1, 3, 0, CAPGAUZE_NO_KEY);
    room(3);
    SAME(PACK(2, CAPGAUZE_LENGTH_DELIMITED), 0, 0, 3);
    BUF_IS("01AA00");
    use("0807060504030201");
    SAME(AT(CAPGAUZE_SIXTY_FOUR_BIT, 0), 0, 1, 3, 0x0102030405060708, 8);
    lay(5, 0);
    SAME(RUN(CAPGAUZE_SIXTY_FOUR_BIT), 0, 1);
    TABLE_IS(0, 3, 0x0102030405060708, 8, CAPGAUZE_NO_KEY);
    room(8);
    SAME(PACK(1, CAPGAUZE_SIXTY_FOUR_BIT), 0, 0, 8);
    BUF_IS("0807060504030201");
}

/* A run that is refused, whichever value is asked for, and whatever the table. */
static void no_run(int line, const char *hex, uint64_t type, uint64_t number) {
    const uint64_t want[] = {number, 0, 0, 0, 0};
    use(hex);
    const capgauze_number count = COUNT(type);
    same(line, "run_count", &count, sizeof count, want, sizeof count);
    for (size_t n = 0; n < 4; n++) {
        const capgauze_picked at = AT(type, n);
        same(line, "run_value", &at, sizeof at, want, sizeof at);
        lay(CAPGAUZE_RECORD_WORDS * n, 0);
        const capgauze_number read = RUN(type);
        same(line, "read_run", &read, sizeof read, want, sizeof read);
        for (size_t i = 0; i < words; i++)
            if (table[i] != 77) failures++, printf("test.c:%d: word %zu changed\n", line, i);
    }
}
#define NO_RUN(hex, type, number) no_run(__LINE__, hex, type, number)

static void bad_runs(void) {
    NO_RUN("80", CAPGAUZE_VARINT, 1);
    NO_RUN("FFFFFFFFFFFFFFFFFF", CAPGAUZE_VARINT, 2);
    NO_RUN("0080", CAPGAUZE_VARINT, 1); /* a good value before it */
    NO_RUN("00" INVALID "80", CAPGAUZE_VARINT, 2);
    NO_RUN("0002AA", CAPGAUZE_LENGTH_DELIMITED, 1);
    NO_RUN(INVALID, CAPGAUZE_LENGTH_DELIMITED, 2);
    NO_RUN("000000", CAPGAUZE_THIRTY_TWO_BIT, 1);
    NO_RUN("0000000000", CAPGAUZE_THIRTY_TWO_BIT, 1);
    NO_RUN("00000000", CAPGAUZE_SIXTY_FOUR_BIT, 1);
    NO_RUN("", 4, 6);
    NO_RUN("80", UINT64_MAX, 6);
    use("0005");
    lay(9, 0);
    SAME(RUN(CAPGAUZE_VARINT), 5, 0);
    TABLE_IS(77, 77, 77, 77, 77, 77, 77, 77, 77);
    SAME(AT(CAPGAUZE_VARINT, 1), 0, 1, 0, 5, 0);
    len = CAPGAUZE_LIMIT + 1;
    bytes = lend(len);
    for (uint64_t type = 0; type < 5; type++) {
        SAME(COUNT(type), type < 4 ? 4 : 6, 0);
        SAME(AT(type, 0), type < 4 ? 4 : 6, 0, 0, 0, 0);
        SAME(RUN(type), type < 4 ? 4 : 6, 0);
    }
    TABLE_IS(77, 77, 77, 77, 77, 77, 77, 77, 77);
}

static void bad_packing(void) {
    use("C0DE");
    room(4);
    lay(11, (const uint64_t[]){0, 1, 0, 2, 1, 0, 1, 1, 0, CAPGAUZE_NO_KEY, 77});
    SAME(PACK(2, CAPGAUZE_LENGTH_DELIMITED), 0, 0, 4);
    BUF_IS("02C0DE00");
    room(3);
    SAME(PACK(2, CAPGAUZE_LENGTH_DELIMITED), 5, 0, 4); /* the length needed */
    SAME(PACK(3, CAPGAUZE_LENGTH_DELIMITED), 6, 2, 0); /* the room */
    SAME(PACK(SIZE_MAX, CAPGAUZE_LENGTH_DELIMITED), 6, 2, 0);
    SAME(PACK(2, CAPGAUZE_VARINT), 6, 0, 0); /* another type */
    SAME(PACK(2, 4), 6, 0, 0);
    SAME(PACK(3, 4), 6, 0, 0); /* no wire type: before the room */
    lay(10, (const uint64_t[]){0, 0, 5, 0, 0, 1, 0, 5, 0, 0});
    SAME(PACK(2, CAPGAUZE_VARINT), 6, 1, 0); /* good, of the type, with tag 1 */
    SAME(PACK(1, CAPGAUZE_VARINT), 0, 0, 1);
    BUF_IS("05A5A5");
    lay(10, (const uint64_t[]){0, 0, 5, 0, 0, 0, 0, 5, 1, 0});
    SAME(PACK(2, CAPGAUZE_VARINT), 6, 1, 0);
    lay(10, (const uint64_t[]){0, 0, 5, 0, 0, 0, 0, 5, 0, 2});
    SAME(PACK(2, CAPGAUZE_VARINT), 6, 1, 0); /* a key at the source's end */
    lay(10, (const uint64_t[]){0, 1, 0, 2, 0, 0, 1, 1, 2, 0});
    SAME(PACK(2, CAPGAUZE_LENGTH_DELIMITED), 6, 1, 0); /* outside the source */
    lay(5, (const uint64_t[]){0, 2, 4294967296, 4, 0});
    SAME(PACK(1, CAPGAUZE_THIRTY_TWO_BIT), 6, 0, 0);
    lay(5, (const uint64_t[]){4294967296, 0, 0, 0, 0});
    SAME(PACK(1, CAPGAUZE_VARINT), 6, 0, 0);
    BUF_IS("05A5A5");
    room(0); /* measured by a buffer of no bytes */
    lay(5, (const uint64_t[]){0, 3, 1, 8, 1});
    SAME(PACK(1, CAPGAUZE_SIXTY_FOUR_BIT), 5, 0, 8);
    len = CAPGAUZE_LIMIT + 1;
    bytes = lend(len);
    SAME(PACK(0, CAPGAUZE_VARINT), 4, 0, 0);
    SAME(PACK(2, CAPGAUZE_VARINT), 4, 0, 0); /* before the room */
    SAME(PACK(2, 4), 6, 0, 0);
}

static void soundings(void) {
    use("04010400050E0464040304FFFEFEFEFEFEFEFEFE");
    lay(6, (const uint64_t[]){77, 77, 77, 77, 77, 77});
    SAME(capgauze_read_sounding(S, TABLE), 0, 1, 0, 1);
    TABLE_IS(100, 1, 3, 0, UINT64_MAX, 77);
    lay(4, (const uint64_t[]){77, 77, 77, 77});
    SAME(capgauze_read_sounding(S, TABLE), 5, 0, 0, 0);
    use("04010400");
    SAME(capgauze_read_sounding(S, TABLE), 0, 1, 0, 0);
    use("0400");
    SAME(capgauze_read_sounding(S, TABLE), 10, 0, 0, 0);
    use("0401");
    SAME(capgauze_read_sounding(S, TABLE), 13, 0, 0, 0);
    use("0500");
    SAME(capgauze_read_sounding(S, TABLE), 9, 0, 0, 0);
    use("040100010400");
    SAME(capgauze_read_sounding(S, TABLE), 11, 0, 0, 0);
    use("040104000500");
    SAME(capgauze_read_sounding(S, TABLE), 13, 0, 0, 0);
    TABLE_IS(77, 77, 77, 77);
}

/* ---- A working copy: the buffer is its room, the slice the new bytes ---- */

#define NUMBER(tag, value) tag, CAPGAUZE_VARINT, value, 0, CAPGAUZE_NO_KEY
#define PAYLOAD(tag, start, length) tag, CAPGAUZE_LENGTH_DELIMITED, start, length, CAPGAUZE_NO_KEY
#define ROWS(...) lay(sizeof(const uint64_t[]){__VA_ARGS__} / 8, (const uint64_t[]){__VA_ARGS__})
#define FREE 77, 77, 77, 77, 77
#define REMOVE(count, index) capgauze_remove_record(BUF, TABLE, count, index)
#define REPLACE(count, index) capgauze_replace_payload(BUF, TABLE, count, index, S)
#define ADD(count, tag) capgauze_insert_payload(BUF, TABLE, count, tag, S)

static void stock(const char *hex) {
    use(hex);
    room(len);
    memcpy(buf, bytes, len);
}

/* The message of the first records. */
static void message_is(int line, size_t count, const char *want) {
    char got[256] = "";
    uint8_t out[120];
    const capgauze_written w = capgauze_encode_message(BUF, TABLE, count, out, sizeof out);
    for (size_t i = 0; i < w.length; i++) sprintf(got + 2 * i, "%02X", out[i]);
    calls++;
    if (w.number || strcmp(got, want)) failures++, printf("test.c:%d: the message is %s, not %s\n", line, got, want);
}
#define MESSAGE_IS(count, want) message_is(__LINE__, count, want)

static void removals(void) {
    stock("AABBCC");
    ROWS(PAYLOAD(1, 0, 2), NUMBER(1, 9), PAYLOAD(3, 2, 1), 77);
    SAME(REMOVE(3, 1), 0, 2);
    TABLE_IS(PAYLOAD(1, 0, 2), PAYLOAD(3, 2, 1), PAYLOAD(3, 2, 1), 77); /* the old last record stays */
    MESSAGE_IS(2, "0502AABB0901CC");
    SAME(REMOVE(2, 2), 6, 2);
    SAME(REMOVE(2, SIZE_MAX), 6, UINT64_MAX);
    SAME(REMOVE(2, 0), 0, 1);
    SAME(REMOVE(1, 0), 0, 0);
    SAME(REMOVE(0, 0), 6, 0);
    TABLE_IS(PAYLOAD(3, 2, 1), PAYLOAD(3, 2, 1), PAYLOAD(3, 2, 1), 77);
    BUF_IS("AABBCC");
}

static void replacements(void) {
    /* behind the last payload, which is the other one */
    stock("AABBCC000000");
    ROWS(PAYLOAD(1, 0, 2), PAYLOAD(3, 2, 1), 77);
    use("DDEEFF");
    SAME(REPLACE(2, 0), 0, 2);
    TABLE_IS(PAYLOAD(1, 3, 3), PAYLOAD(3, 2, 1), 77);
    BUF_IS("AABBCCDDEEFF");
    MESSAGE_IS(2, "0503DDEEFF0901CC");
    /* no bytes: behind the last one, and nothing is packed */
    use("");
    SAME(REPLACE(2, 0), 0, 2);
    TABLE_IS(PAYLOAD(1, 3, 0), PAYLOAD(3, 2, 1), 77);
    /* packed: the other payload goes to the front */
    use("0102030405");
    SAME(REPLACE(2, 0), 0, 2);
    TABLE_IS(PAYLOAD(1, 1, 5), PAYLOAD(3, 0, 1), 77);
    BUF_IS("CC0102030405");
    use("010203040506");
    SAME(REPLACE(2, 0), 5, 0); /* one byte more than the room */
    BUF_IS("CC0102030405");
    TABLE_IS(PAYLOAD(1, 1, 5), PAYLOAD(3, 0, 1), 77);
    /* its own bytes are free: the whole room */
    stock("01FF");
    ROWS(PAYLOAD(0, 0, 1));
    use("AABB");
    SAME(REPLACE(1, 0), 0, 1);
    TABLE_IS(PAYLOAD(0, 0, 2));
    BUF_IS("AABB");
    use("AABBCC");
    SAME(REPLACE(1, 0), 5, 0);
    /* what is no payload, or not there; before NoRoom */
    stock("AA");
    ROWS(PAYLOAD(0, 0, 1), NUMBER(1, 5));
    use("AABBCC");
    SAME(REPLACE(2, 1), 6, 1);
    SAME(REPLACE(2, 2), 6, 2);
    SAME(REPLACE(2, SIZE_MAX), 6, UINT64_MAX);
    SAME(REPLACE(0, 0), 6, 0);
    TABLE_IS(PAYLOAD(0, 0, 1), NUMBER(1, 5));
    BUF_IS("AA");
}

static void insertions(void) {
    /* behind all of equal or lower tag, its bytes behind the last payload */
    stock("AABB00000000");
    ROWS(NUMBER(1, 5), PAYLOAD(2, 0, 2), NUMBER(2, 6), NUMBER(3, 7), FREE, FREE);
    use("CC");
    SAME(ADD(4, 2), 0, 5);
    TABLE_IS(NUMBER(1, 5), PAYLOAD(2, 0, 2), NUMBER(2, 6), PAYLOAD(2, 2, 1), NUMBER(3, 7), FREE);
    SAME(ADD(5, 4294967295), 0, 6);
    TABLE_IS(NUMBER(1, 5), PAYLOAD(2, 0, 2), NUMBER(2, 6), PAYLOAD(2, 2, 1), NUMBER(3, 7), PAYLOAD(4294967295, 3, 1));
    BUF_IS("AABBCCCC0000");
    SAME(ADD(6, 0), 5, 0); /* the table is full */
    use("");
    SAME(ADD(6, 0), 5, 0);
    MESSAGE_IS(5, "04050502AABB00060101CC0407");
    /* an empty one overlaps nothing, and is not the last one */
    stock("616263");
    ROWS(PAYLOAD(0, 3, 0), FREE);
    use("585858");
    SAME(ADD(1, 0), 0, 2);
    TABLE_IS(PAYLOAD(0, 3, 0), PAYLOAD(0, 0, 3));
    BUF_IS("585858");
    /* packed in order of place, not of the table; an empty one's start becomes 0; the bytes behind stay */
    stock("2E2E61622E63");
    ROWS(PAYLOAD(0, 5, 1), PAYLOAD(1, 2, 2), PAYLOAD(1, 4, 0), FREE);
    use("58");
    SAME(ADD(3, 0), 0, 4);
    TABLE_IS(PAYLOAD(0, 2, 1), PAYLOAD(0, 3, 1), PAYLOAD(1, 0, 2), PAYLOAD(1, 0, 0));
    BUF_IS("616263582E63");
    MESSAGE_IS(4, "010163010158050261620100");
    /* no room, exactly by the sum */
    stock("2E2E61622E63");
    ROWS(PAYLOAD(0, 5, 1), PAYLOAD(1, 2, 2), FREE);
    use("58595A5B");
    SAME(ADD(2, 2), 5, 0);
    BUF_IS("2E2E61622E63");
    len--;
    SAME(ADD(2, 2), 0, 3);
    BUF_IS("61626358595A");
    use("");
    SAME(REPLACE(3, 2), 0, 3);
    TABLE_IS(PAYLOAD(0, 2, 1), PAYLOAD(1, 0, 2), PAYLOAD(2, 3, 0)); /* behind the last one */
    /* no room at all takes no bytes, again and again */
    room(0);
    ROWS(FREE, FREE);
    SAME(ADD(0, 7), 0, 1);
    SAME(ADD(1, 7), 0, 2);
    SAME(ADD(2, 7), 5, 0);
    TABLE_IS(PAYLOAD(7, 0, 0), PAYLOAD(7, 0, 0));
    use("AA");
    SAME(REPLACE(2, 0), 5, 0);
    MESSAGE_IS(2, "1D000100");
}

/* All three of a copy that is none: the number and the value; nothing is written. */
static void no_copy(int line, size_t count, uint64_t number, uint64_t value) {
    const uint64_t want[] = {number, value};
    uint64_t before[64];
    uint8_t old[64];
    memcpy(before, table, 8 * words);
    if (buf_len <= sizeof old) memcpy(old, buf, buf_len);
    const capgauze_number got[] = {REMOVE(count, 0), REPLACE(count, 0), ADD(count, 0), REMOVE(count, 9), REPLACE(count, 9)};
    for (size_t i = 0; i < sizeof got / sizeof *got; i++) same(line, "an edit", got + i, sizeof *got, want, sizeof want);
    same(line, "table", table, 8 * words, before, 8 * words);
    calls++;
    if (buf_len <= sizeof old && memcmp(old, buf, buf_len)) failures++, printf("test.c:%d: the room changed\n", line);
}
#define NO_COPY(count, number, value) no_copy(__LINE__, count, number, value)

static void bad_copies(void) {
    stock("AABBCCDD");
    use("EEEEEEEEEEEEEEEEEE"); /* never any room: its refusal is the last one */
    ROWS(PAYLOAD(0, 0, 1), PAYLOAD(0, 1, 1), 77);
    NO_COPY(3, 6, 2); /* the room of the table */
    NO_COPY(SIZE_MAX, 6, 2);
    ROWS(PAYLOAD(0, 0, 1), PAYLOAD(0, 1, 4));
    NO_COPY(2, 6, 1);
    ROWS(PAYLOAD(1, 0, 1), PAYLOAD(0, 1, 1));
    NO_COPY(2, 7, 1);
    ROWS(PAYLOAD(0, 0, 1), 0, CAPGAUZE_VARINT, 0, 0, 4); /* a key at or past the room's end: a record that is not good */
    NO_COPY(2, 6, 1);
    /* two that touch, and an empty one inside another, are fine; overlapping ones are told by the later index */
    ROWS(PAYLOAD(0, 0, 2), PAYLOAD(0, 2, 1), PAYLOAD(0, 1, 0));
    SAME(REMOVE(3, 2), 0, 2);
    ROWS(PAYLOAD(0, 0, 2), PAYLOAD(0, 1, 1));
    NO_COPY(2, 6, 1);
    ROWS(PAYLOAD(0, 1, 2), PAYLOAD(0, 0, 2));
    NO_COPY(2, 6, 1);
    ROWS(PAYLOAD(0, 0, 4), NUMBER(0, 0), PAYLOAD(0, 1, 1));
    NO_COPY(3, 6, 2);
    ROWS(PAYLOAD(0, 0, 1), PAYLOAD(0, 1, 1), PAYLOAD(0, 1, 1), PAYLOAD(0, 0, 1));
    NO_COPY(4, 6, 2);
    /* key words: behind all overlaps */
    ROWS(PAYLOAD(0, 0, 1), 0, CAPGAUZE_VARINT, 0, 0, 3);
    NO_COPY(2, 6, 1);
    ROWS(0, CAPGAUZE_VARINT, 0, 0, 0, PAYLOAD(0, 0, 2), PAYLOAD(0, 1, 1));
    NO_COPY(3, 6, 2);
    ROWS(0, CAPGAUZE_VARINT, 0, 0, 0, PAYLOAD(0, 0, 2), PAYLOAD(0, 2, 1));
    NO_COPY(3, 6, 0);
    /* what was read has keys; without them it is a working copy */
    stock("04050902C0DE");
    lay(2 * CAPGAUZE_RECORD_WORDS, 0);
    SAME(capgauze_read_message(BUF, 0, buf_len, TABLE), 0, 6, 2, 0, 0);
    NO_COPY(2, 6, 0);
    for (size_t i = CAPGAUZE_RECORD_WORDS - 1; i < words; i += CAPGAUZE_RECORD_WORDS) table[i] = CAPGAUZE_NO_KEY;
    use("0102030405");
    SAME(REPLACE(2, 1), 0, 2);
    TABLE_IS(NUMBER(1, 5), PAYLOAD(3, 0, 5));
    MESSAGE_IS(2, "040509050102030405");
    /* the room's length comes first */
    room(CAPGAUZE_LIMIT + 1);
    NO_COPY(2, 4, 0);
    NO_COPY(SIZE_MAX, 4, 0);
}

/* ---- Soundings of the second edition ---- */

#define ONES "FFFEFEFEFEFEFEFEFE"
#define GRADED(least) capgauze_read_graded(S, TABLE, least)
#define GRADES CAPGAUZE_GRADE_NOT_CANONICAL, CAPGAUZE_GRADE_HAS_EXTENSIONS, CAPGAUZE_GRADE_CANONICAL

/* A sounding of station 1, launch 0 and these levels, each by its own fields, and of what stands behind them; the table has
 * room for all of its levels and for a word more. */
static void sound(const char *levels[], const char *behind) {
    char hex[512] = "04010400";
    size_t n = 0;
    for (; levels[n]; n++) sprintf(hex + strlen(hex), "%02X%02X%s", n ? 1 : 5, (unsigned)strlen(levels[n]) / 2, levels[n]);
    use(strcat(hex, behind));
    lay(CAPGAUZE_GRADED_WORDS * n + 1, 0);
}
#define SOUND(...) sound((const char *[]){__VA_ARGS__, 0}, "")

static void graded(void) {
    use("04010400"); /* no levels */
    lay(0, 0);
    SAME(GRADED(CAPGAUZE_GRADE_CANONICAL), 0, 1, 0, 0, 2);
    SOUND("0464040304050407045A", "0464");
    SAME(GRADED(CAPGAUZE_GRADE_CANONICAL), 0, 1, 0, 2, CAPGAUZE_GRADE_CANONICAL);
    TABLE_IS(100, 1, 3, 1, 5, 1, 7, 1, 90, 100, 0, UINT64_MAX, 0, UINT64_MAX, 0, UINT64_MAX, 0, UINT64_MAX, 77);
    SAME(capgauze_read_sounding(S, TABLE), 0, 1, 0, 2);
    TABLE_IS(100, 1, 3, 1, 5, 100, 0, UINT64_MAX, 0, UINT64_MAX, 0, UINT64_MAX, 0, UINT64_MAX, 0, UINT64_MAX, 0, UINT64_MAX,
             77);
    /* the greatest speed and direction; zeros are numbers */
    SOUND("04640CD00E04E701", "04640C000400");
    SAME(GRADED(CAPGAUZE_GRADE_CANONICAL), 0, 1, 0, 2, 2);
    TABLE_IS(100, 0, UINT64_MAX, 0, UINT64_MAX, 1, 2000, 1, 359, 100, 0, UINT64_MAX, 0, UINT64_MAX, 1, 0, 1, 0, 77);
    /* an iced vane: all ones written out */
    SOUND("04640C" ONES "04" ONES);
    SAME(GRADED(CAPGAUZE_GRADE_CANONICAL), 14, 0, 0, 0, 0);
    SAME(GRADED(CAPGAUZE_GRADE_HAS_EXTENSIONS), 14, 0, 0, 0, 0);
    TABLE_IS(77, 77, 77, 77, 77, 77, 77, 77, 77, 77);
    SAME(GRADED(CAPGAUZE_GRADE_NOT_CANONICAL), 0, 1, 0, 1, CAPGAUZE_GRADE_NOT_CANONICAL);
    TABLE_IS(100, 0, UINT64_MAX, 0, UINT64_MAX, 0, UINT64_MAX, 0, UINT64_MAX, 77);
    /* each of the four by itself, and none of the head's */
    static const char *ones[] = {"046404" ONES, "046408" ONES, "04640C" ONES, "046410" ONES};
    for (size_t i = 0; i < 4; i++) {
        SOUND(ones[i]);
        SAME(GRADED(CAPGAUZE_GRADE_HAS_EXTENSIONS), 14, 0, 0, 0, 0);
        SAME(GRADED(CAPGAUZE_GRADE_NOT_CANONICAL), 0, 1, 0, 1, 0);
        TABLE_IS(100, 0, UINT64_MAX, 0, UINT64_MAX, 0, UINT64_MAX, 0, UINT64_MAX, 77);
    }
    use("040104" ONES);
    SAME(GRADED(CAPGAUZE_GRADE_CANONICAL), 0, 1, UINT64_MAX, 0, 2);
    /* unknown tags: 0 and 4 of the sounding, 0 and 9 of a level; all ones there is no more than unknown, nor is a second one */
    static const char *unknown[] = {"00010401040005020464", "040104000502046404" ONES "0000", "0401040005" "0400000464",
                                    "0401040005" "0404642001"};
    for (size_t i = 0; i < 4; i++) {
        use(unknown[i]);
        lay(CAPGAUZE_GRADED_WORDS, 0);
        SAME(GRADED(CAPGAUZE_GRADE_CANONICAL), 15, 0, 0, 0, 0);
        TABLE_IS(77, 77, 77, 77, 77, 77, 77, 77, 77);
        SAME(GRADED(CAPGAUZE_GRADE_HAS_EXTENSIONS), 0, 1, 0, 1, CAPGAUZE_GRADE_HAS_EXTENSIONS);
        SAME(GRADED(CAPGAUZE_GRADE_NOT_CANONICAL), 0, 1, 0, 1, CAPGAUZE_GRADE_HAS_EXTENSIONS);
        TABLE_IS(100, 0, UINT64_MAX, 0, UINT64_MAX, 0, UINT64_MAX, 0, UINT64_MAX);
    }
}

/* What each least grade answers, from NotCanonical on: a refusal, or 0 with the grade that is reached. */
static void graded_as(int line, uint64_t any, uint64_t extensions, uint64_t canonical, uint64_t grade) {
    const uint64_t numbers[] = {any, extensions, canonical}, leasts[] = {GRADES};
    for (size_t i = 0; i < 3; i++) {
        const capgauze_graded got = GRADED(leasts[i]);
        const uint64_t levels = words / CAPGAUZE_GRADED_WORDS, no = numbers[i];
        const uint64_t want[] = {no, no ? 0 : 1, 0, no ? 0 : levels, no ? 0 : grade};
        same(line, "read_graded", &got, sizeof got, want, sizeof want);
    }
}
#define GRADED_AS(any, extensions, canonical, grade) graded_as(__LINE__, any, extensions, canonical, grade)

static void bad_grades(void) {
    /* both faults: the first in the bytes names the refusal, the least of them is the grade */
    SOUND("046404" ONES "2001");
    GRADED_AS(0, 14, 14, 0);
    SOUND("0001046404" ONES);
    GRADED_AS(0, 14, 15, 0);
    SOUND("04642001", "046404" ONES);
    GRADED_AS(0, 14, 15, 0);
    SOUND("046404" ONES, "04642001");
    GRADED_AS(0, 14, 14, 0);
    sound((const char *[]){"046404" ONES, 0}, "0401"); /* a tag of the sounding behind its levels */
    GRADED_AS(0, 14, 14, 0);
    sound((const char *[]){"0464", 0}, "0401");
    GRADED_AS(0, 0, 15, 1);
    /* the tags' own refusals, before any grade */
    SOUND("046404" ONES "08D10E"); /* 2,001 */
    GRADED_AS(10, 10, 10, 0);
    SOUND("04640C0704E801"); /* 360 */
    GRADED_AS(10, 10, 10, 0);
    SOUND("04640E00000000"); /* a speed of four bytes */
    GRADED_AS(9, 9, 9, 0);
    SOUND("04641100"); /* a direction that is a payload */
    GRADED_AS(9, 9, 9, 0);
    SOUND("04640C010200000000"); /* twice, before its type */
    GRADED_AS(11, 11, 11, 0);
    SOUND("046410010002");
    GRADED_AS(11, 11, 11, 0);
    SOUND("04640CD10E0500"); /* tag 4 before tag 5 */
    GRADED_AS(10, 10, 10, 0);
    SOUND("04640A0000000004D10E"); /* tag 3 before tag 4 */
    GRADED_AS(9, 9, 9, 0);
    SOUND("0C07"); /* no pressure */
    GRADED_AS(13, 13, 13, 0);
    SOUND("0001", "04640CD10E"); /* a level's before an earlier level's grade */
    GRADED_AS(13, 13, 13, 0);
    SOUND("04642001", "04640CD10E");
    GRADED_AS(10, 10, 10, 0);
    TABLE_IS(77, 77, 77, 77, 77, 77, 77, 77, 77, 77, 77, 77, 77, 77, 77, 77, 77, 77, 77);
    use("0400");
    GRADED_AS(10, 10, 10, 0);
    use("0401");
    GRADED_AS(13, 13, 13, 0);
    use("04010400050E");
    GRADED_AS(1, 1, 1, 0);
    /* NoRoom before the grade, and the room is in levels */
    SOUND("04642001", "046404" ONES);
    words = 2 * CAPGAUZE_GRADED_WORDS - 1;
    GRADED_AS(5, 5, 5, 0);
    words = 0;
    GRADED_AS(5, 5, 5, 0);
    /* no grade: before anything else */
    SAME(GRADED(3), 6, 0, 0, 0, 0);
    SAME(GRADED(UINT64_MAX), 6, 0, 0, 0, 0);
    len = CAPGAUZE_LIMIT + 1;
    bytes = lend(len);
    SAME(GRADED(3), 6, 0, 0, 0, 0);
    GRADED_AS(4, 4, 4, 0);
}

/* ---- The longest messages, with all that is lent elsewhere than on the stack, which is as small as a thread's may be ---- */

#define FIELDS 524287
static void longest(void) {
    /* the most fields: all of two bytes, the last of three */
    len = CAPGAUZE_LIMIT;
    bytes = lend(len); /* zeros */
    bytes[len - 2] = 0x80;
    lay(CAPGAUZE_RECORD_WORDS * FIELDS, 0);
    SAME(capgauze_read_message(S, 0, len, TABLE), 0, CAPGAUZE_LIMIT, FIELDS, 0, 0);
    SAME((uint64_t)table[words - 3], 128);
    SAME((uint64_t)table[words - 1], CAPGAUZE_LIMIT - 3);
    room(CAPGAUZE_LIMIT);
    SAME(capgauze_encode_message(S, TABLE, FIELDS, BUF), 0, 0, CAPGAUZE_LIMIT);
    SAME((uint64_t)memcmp(buf, bytes, len), 0);
    room(CAPGAUZE_LIMIT);
    SAME(capgauze_prepend_message(S, TABLE, FIELDS, BUF), 0, 0, CAPGAUZE_LIMIT);
    SAME((uint64_t)memcmp(buf, bytes, len), 0);
    room(CAPGAUZE_LIMIT - 1);
    SAME(capgauze_encode_message(S, TABLE, FIELDS, BUF), 5, 0, CAPGAUZE_LIMIT);
    SAME(capgauze_insert(S, TABLE, FIELDS - 1, 31, 0, 128, 0), 0, FIELDS);
    SAME(capgauze_prepend_message(S, TABLE, FIELDS, BUF), 5, 0, CAPGAUZE_LIMIT);
    table[words - 5] = 32; /* its key takes one byte more than may be written */
    SAME(capgauze_encode_message(S, TABLE, FIELDS, buf, 0), 4, 0, 0); /* before NoRoom */
    lay(CAPGAUZE_RECORD_WORDS * FIELDS - 1, 0);
    SAME(capgauze_read_message(S, 0, len, TABLE), 5, 0, FIELDS, 0, 0);
    SAME(capgauze_pick(S, 1), 0, 0, 0, 0, 0);
    SAME(capgauze_pick_at(S, 0, FIELDS - 1), 0, FIELDS, 1, 0, 128, 0);
    SAME(capgauze_pick_early(S, 0), 11, 0, 0, 0, 0, 0);
    SAME(capgauze_skip_field(S, 1, len, CAPGAUZE_VARINT), 0, CAPGAUZE_LIMIT, 0, 0);
    /* the most tags, and the longest line */
    bytes[len - 2] = 0;
    len--;
    for (size_t i = 0; i < len; i += 2) bytes[i] = 4;
    lay(CAPGAUZE_INDEX_WORDS * FIELDS, 0);
    SAME(capgauze_make_index(S, TABLE), 0, FIELDS);
    SAME(FITS(FIELDS), 1);
    SAME(PICK(FIELDS, FIELDS), 0, 1, 0, 0, 0);
    const uint64_t *made = table;
    room(2 + 20 * FIELDS);
    SAME(capgauze_write_line(TABLE, FIELDS, BUF), 0, 2 + 20 * FIELDS);
    SAME((uint64_t)memcmp(buf + buf_len - 20, "0007FFFF0FFFFC000001", 20), 0);
    lay(CAPGAUZE_INDEX_WORDS * FIELDS, 0);
    SAME(capgauze_read_line(BUF, len, TABLE), 0, FIELDS);
    SAME((uint64_t)memcmp(table, made, 8 * words), 0);
    /* the longest payload, and one byte more */
    for (size_t n = CAPGAUZE_LIMIT - 4; n < CAPGAUZE_LIMIT - 2; n++) {
        len = n;
        bytes = lend(len);
        lay(5, (const uint64_t[]){0, 1, 0, n, n - 1});
        room(CAPGAUZE_LIMIT);
        if (n == CAPGAUZE_LIMIT - 4) SAME(capgauze_encode_message(S, TABLE, 1, BUF), 0, 0, CAPGAUZE_LIMIT);
        else SAME(capgauze_encode_message(S, TABLE, 1, BUF), 4, 0, 0);
    }
    /* the longest result, and a byte more: the original is one payload, the correction a field behind it */
    for (size_t n = CAPGAUZE_LIMIT - 6; n < CAPGAUZE_LIMIT - 4; n++) {
        len = n + 4;
        bytes = lend(len);
        bytes[0] = 1;
        SAME(capgauze_encode_varint(n, bytes + 1, 3), 0, 3);
        other_len = 2;
        other = memcpy(lend(2), "\x04\x00", 2);
        room(CAPGAUZE_LIMIT);
        if (n == CAPGAUZE_LIMIT - 6) SAME(WRITE(), 0, CAPGAUZE_LIMIT);
        else SAME(WRITE(), 4, 0);
        SAME(capgauze_write_corrected(S, C, buf, 0), n == CAPGAUZE_LIMIT - 6 ? 5 : 4, 0);
        SAME(BY(0), 0, CAPGAUZE_FROM_ORIGINAL);
        SAME(PART(0), 4, n);
        SAME(PART(1), 1, 1);
    }
    /* the most fields, every second tag corrected */
    len = 2 * FIELDS, other_len = FIELDS - 1;
    bytes = memset(lend(len), 0, len), other = lend(other_len);
    for (size_t i = 0; i < len; i += 2) bytes[i] = 4;
    for (size_t i = 0; i < other_len; i += 2) other[i] = 8, other[i + 1] = 5;
    room(len);
    SAME(WRITE(), 0, 2 * FIELDS);
    for (size_t i = 0; i < len; i += 2) bytes[i + 1] = i % 4 ? 5 : 0;
    SAME((uint64_t)memcmp(buf, bytes, len), 0);
    SAME(BY(FIELDS), 0, CAPGAUZE_FROM_ORIGINAL);
    SAME(PART(FIELDS), 2 * FIELDS - 1, 1);
    SAME(BY(FIELDS - 1), 0, CAPGAUZE_FROM_CORRECTION);
    SAME(PART(FIELDS - 1), FIELDS - 2, 1);
    room(len - 1);
    SAME(WRITE(), 5, 0);
    /* the most values of a run, and one byte more; runs of four and eight bytes */
    len = CAPGAUZE_LIMIT;
    bytes = lend(len); /* zeros */
    lay(CAPGAUZE_RECORD_WORDS * CAPGAUZE_LIMIT, 0);
    SAME(RUN(CAPGAUZE_VARINT), 0, CAPGAUZE_LIMIT);
    SAME((uint64_t)(table[words - 5] | table[words - 4] | table[words - 3] | table[words - 2]), 0);
    SAME((uint64_t)table[words - 1], CAPGAUZE_NO_KEY);
    room(CAPGAUZE_LIMIT);
    SAME(PACK(CAPGAUZE_LIMIT, CAPGAUZE_VARINT), 0, 0, CAPGAUZE_LIMIT);
    SAME((uint64_t)memcmp(buf, bytes, len), 0);
    table[words - 3] = 128; /* takes one byte more than may be written */
    SAME(capgauze_write_run(S, TABLE, CAPGAUZE_LIMIT, CAPGAUZE_VARINT, buf, 0), 4, 0, 0); /* before NoRoom */
    SAME(AT(CAPGAUZE_VARINT, CAPGAUZE_LIMIT - 1), 0, 1, 0, 0, 0);
    SAME(AT(CAPGAUZE_VARINT, CAPGAUZE_LIMIT), 0, 0, 0, 0, 0);
    words--;
    SAME(RUN(CAPGAUZE_VARINT), 5, 0);
    SAME(COUNT(CAPGAUZE_LENGTH_DELIMITED), 0, CAPGAUZE_LIMIT);
    SAME(COUNT(CAPGAUZE_THIRTY_TWO_BIT), 1, 0);
    len -= 3;
    SAME(COUNT(CAPGAUZE_THIRTY_TWO_BIT), 0, CAPGAUZE_LIMIT / 4);
    SAME(COUNT(CAPGAUZE_SIXTY_FOUR_BIT), 1, 0);
    len -= 4;
    SAME(COUNT(CAPGAUZE_SIXTY_FOUR_BIT), 0, CAPGAUZE_LIMIT / 8);
    /* a sounding as long as a message may be: a head of four bytes, levels of four, and a field that is passed over */
    len = CAPGAUZE_LIMIT;
    bytes = lend(len);
    memcpy(bytes, "\x04\x01\x04\x00\x05\x02\x04\x64", 8);
    for (size_t at = 8; at < len - 3; at += 4) memcpy(bytes + at, "\x01\x02\x04\x64", 4);
    memcpy(bytes + len - 3, "\x05\x01", 3);
    lay(CAPGAUZE_LEVEL_WORDS * 262142, 0);
    SAME(capgauze_read_sounding(S, TABLE), 0, 1, 0, 262142);
    SAME((uint64_t)table[words - 5], 100);
    lay(CAPGAUZE_GRADED_WORDS * 262142, 0);
    SAME(GRADED(CAPGAUZE_GRADE_CANONICAL), 15, 0, 0, 0, 0);
    SAME((uint64_t)table[0], 77);
    SAME(GRADED(CAPGAUZE_GRADE_HAS_EXTENSIONS), 0, 1, 0, 262142, 1);
    SAME((uint64_t)table[words - CAPGAUZE_GRADED_WORDS], 100);
    words--;
    SAME(GRADED(CAPGAUZE_GRADE_CANONICAL), 5, 0, 0, 0, 0);
    /* a working copy of the longest room: a thousand payloads, of which every second one goes, and one in all they leave */
    room(CAPGAUZE_LIMIT);
    lay(CAPGAUZE_RECORD_WORDS * 1000, 0);
    len = 1000;
    bytes = lend(len);
    for (size_t i = 0; i < 1000; i++) {
        memset(bytes, i % 256, len);
        SAME(ADD(i, i), 0, i + 1);
    }
    for (size_t i = 0; i < 500; i++) SAME(REMOVE(1000 - i, i), 0, 999 - i);
    len = CAPGAUZE_LIMIT - 500 * 1000 + 1;
    bytes = memset(lend(len), 0xEE, len);
    SAME(ADD(500, 0), 5, 0);
    len--;
    SAME(ADD(500, 0), 0, 501);
    SAME((uint64_t)table[2], 500 * 1000); /* behind the packed ones */
    for (size_t i = 0; i < 500; i++) {
        const uint64_t *row = table + CAPGAUZE_RECORD_WORDS * (i + 1);
        const uint64_t want[] = {PAYLOAD(2 * i + 1, 1000 * i, 1000)};
        same(__LINE__, "a record", row, sizeof want, want, sizeof want);
        SAME((uint64_t)(buf[row[2]] << 8 | buf[row[2] + 999]), (2 * i + 1) % 256 * 257);
    }
    SAME((uint64_t)(buf[500 * 1000] << 8 | buf[CAPGAUZE_LIMIT - 1]), 0xEEEE);
    uint8_t *out = lend(CAPGAUZE_LIMIT);
    SAME(capgauze_encode_message(BUF, TABLE, 501, out, CAPGAUZE_LIMIT), 4, 0, 0); /* a good copy, too long a message */
    len = 500 * 1000;
    SAME(REPLACE(501, 0), 0, 501);
    SAME(capgauze_encode_message(BUF, TABLE, 501, out, CAPGAUZE_LIMIT), 0, 0, 4 + 500000 + 500 * 1003);
}

static void *in_a_thread(void *nothing) {
    longest();
    return nothing;
}
static void small_stack(void) {
    pthread_attr_t attr;
    pthread_t thread;
    if (pthread_attr_init(&attr) || pthread_attr_setstacksize(&attr, PTHREAD_STACK_MIN) ||
        pthread_create(&thread, &attr, in_a_thread, 0) || pthread_join(thread, 0))
        exit(2);
}

int main(void) {
    numbers();
    names();
    parts();
    messages();
    writing();
    indexes();
    lookups();
    lines();
    read_lines();
    corrections();
    suppliers();
    bad_corrections();
    runs();
    bad_runs();
    bad_packing();
    removals();
    replacements();
    insertions();
    bad_copies();
    soundings();
    graded();
    bad_grades();
    small_stack();
    printf("%d answers, %d differ\n", calls, failures);
    return failures != 0;
}
