/* The loads, each from a fixed seed. Both formats are written here by plain loops; the driver compares the bilrost bytes
 * with what the writers make of the records. */
#include "loads.h"
#include <stdlib.h>
#include <string.h>

static uint64_t state, first; /* splitmix64, and the seed of the load that is made */
static uint64_t next(void) {
    uint64_t z = (state += 0x9E3779B97F4A7C15u);
    z = (z ^ (z >> 30)) * 0xBF58476D1CE4E5B9u;
    z = (z ^ (z >> 27)) * 0x94D049BB133111EBu;
    return z ^ (z >> 31);
}
static uint64_t below(uint64_t n) { return next() % n; }

static const uint64_t LIMIT[9] = {0, 0x80, 0x4080, 0x204080, 0x10204080, 0x810204080,
                                  0x40810204080, 0x2040810204080, 0x102040810204080};

typedef struct {
    uint8_t *p;
    size_t n, room;
} Bytes;
static void put(Bytes *b, uint8_t x) {
    if (b->n == b->room) b->p = realloc(b->p, b->room = b->room ? 2 * b->room : 256);
    b->p[b->n++] = x;
}
static void put_all(Bytes *b, const Bytes *from) {
    for (size_t i = 0; i < from->n; i++) put(b, from->p[i]);
}
static void put_bilrost(Bytes *b, uint64_t v) {
    for (int i = 0; i < 8; i++) {
        if (v < 0x80) {
            put(b, v);
            return;
        }
        put(b, (v & 0x7F) | 0x80);
        v = (v >> 7) - 1;
    }
    put(b, v);
}
static void put_protobuf(Bytes *b, uint64_t v) {
    for (; v >= 0x80; v >>= 7) put(b, v | 0x80);
    put(b, v);
}

/* A message being made, in both formats. */
typedef struct {
    Bytes bil, pb;
    uint32_t tag;
    uint64_t key; /* the place of the last one */
    uint64_t *rec;
    size_t n, room, inner, levels;
    uint64_t *words, *graded; /* of the levels, five and nine a level */
    uint64_t grade;
    uint64_t *index;
    size_t tags;
} Msg;
static void record(Msg *m, uint64_t type, uint64_t value, uint64_t len) {
    if (m->n == m->room) m->rec = realloc(m->rec, 8 * RECORD * (m->room = m->room ? 2 * m->room : 64));
    const uint64_t row[RECORD] = {m->tag, type, value, len, m->key};
    memcpy(m->rec + RECORD * m->n++, row, sizeof row);
}
static void key(Msg *m, uint32_t rise, unsigned type) {
    static const unsigned PB[4] = {0, 2, 5, 1};
    m->tag += rise;
    if (rise || !m->tags) {
        const uint64_t entry[ENTRY] = {m->tag, m->bil.n, 0};
        m->index = realloc(m->index, 8 * ENTRY * (m->tags + 1));
        memcpy(m->index + ENTRY * m->tags++, entry, sizeof entry);
    }
    m->index[ENTRY * m->tags - 1]++;
    m->key = m->bil.n;
    put_bilrost(&m->bil, 4 * (uint64_t)rise + type);
    put_protobuf(&m->pb, 8 * (uint64_t)m->tag + PB[type]);
}
static void varint(Msg *m, uint32_t rise, uint64_t v) {
    key(m, rise, 0);
    put_bilrost(&m->bil, v);
    put_protobuf(&m->pb, v);
    record(m, 0, v, 0);
}
static void payload(Msg *m, uint32_t rise, const Bytes *bil, const Bytes *pb) {
    key(m, rise, 1);
    put_bilrost(&m->bil, bil->n);
    put_protobuf(&m->pb, pb->n);
    record(m, 1, m->bil.n, bil->n);
    put_all(&m->bil, bil);
    put_all(&m->pb, pb);
}
static void fixed(Msg *m, uint32_t rise, unsigned size, uint64_t v) {
    unsigned type = size == 4 ? 2 : 3;
    if (size == 4) v &= 0xFFFFFFFFu;
    key(m, rise, type);
    for (unsigned i = 0; i < size; i++) put(&m->bil, v >> 8 * i), put(&m->pb, v >> 8 * i);
    record(m, type, v, size);
}
static void random_payload(Msg *m, uint32_t rise, size_t n) {
    Bytes b = {0};
    while (b.n < n) put(&b, next());
    payload(m, rise, &b, &b);
}

static uint64_t of_len(unsigned n) { /* a number of n bytes */
    uint64_t low = LIMIT[n - 1], high = n == 9 ? UINT64_MAX : LIMIT[n];
    return low + next() % (high - low);
}
static uint64_t mixed(void) {
    uint64_t k = below(100);
    return of_len(k < 80 ? 1 : k < 95 ? 2 + below(2) : 4 + below(6));
}
/* The bytes of most loads, and levels. A longer one has the same fields again and again, so that nothing but its length is
 * another. */
#define SHORT 65535
#define SHORT_LEVELS 4000
static uint32_t rise(const Msg *m) { return m->n == 0 ? 1 : below(16) == 0; } /* mostly repeated tags */

#define STATION 11035
#define LAUNCH 1763164800
enum { PLAIN, GAPS, FOUR, FIVE, WINDY, WINDY_GAPS, WINDY_MORE };
enum { NOT_CANONICAL, HAS_EXTENSIONS, CANONICAL };
static void graded(Msg *m, uint64_t grade) {
    if (grade < m->grade) m->grade = grade;
}
/* What a sensor measured, below `most`; one in `odds` is missing (0: none): all ones, or with gaps no field at all. */
static void measured(Msg *m, Msg *level, uint32_t tag, uint64_t odds, uint64_t most, int gaps, uint64_t *words) {
    uint64_t v = odds && below(odds) == 0 ? UINT64_MAX : below(most);
    if (!gaps || v != UINT64_MAX) varint(level, tag - level->tag, v);
    if (!gaps && v == UINT64_MAX) graded(m, NOT_CANONICAL);
    words[0] = v != UINT64_MAX, words[1] = v;
}
/* A value that was not sent, or one that always is. */
static void wind(Msg *m, Msg *level, uint32_t tag, uint64_t most, int shape, uint64_t *words) {
    words[0] = 0, words[1] = UINT64_MAX;
    int gaps = shape == WINDY_GAPS;
    if (shape >= FIVE || (shape == FOUR && tag == 4)) measured(m, level, tag, gaps ? 4 : 0, most, gaps, words);
}
static Msg sounding_of(size_t levels, int shape) {
    Msg m = {.levels = levels, .words = malloc(8 * LEVEL * levels), .graded = malloc(8 * GRADED * levels), .grade = CANONICAL};
    uint64_t *words = m.graded;
    int gaps = shape == GAPS || shape >= WINDY;
    uint64_t odds = shape == WINDY || shape == WINDY_MORE ? 0 : gaps ? 6 : 20;
    varint(&m, 1, STATION);
    varint(&m, 1, LAUNCH);
    for (size_t i = 0; i < levels; i++, words += GRADED) {
        Msg level = {0};
        if (i % SHORT_LEVELS == 0) state = first;
        varint(&level, 1, words[0] = 101325 - 830 * (i % 120) - below(100));
        measured(&m, &level, 2, odds, 1200, gaps, words + 1);
        measured(&m, &level, 3, odds ? gaps ? 4 : 8 : 0, 600, gaps, words + 3);
        wind(&m, &level, 4, 2000, shape, words + 5);
        wind(&m, &level, 5, 360, shape, words + 7);
        if (shape == WINDY_MORE) varint(&level, 4, below(100)), random_payload(&level, 1, 6), graded(&m, HAS_EXTENSIONS);
        memcpy(m.words + LEVEL * i, words, 8 * LEVEL);
        m.inner += level.n;
        payload(&m, i == 0, &level.bil, &level.pb);
    }
    return m;
}
static Msg sounding(size_t levels) { return sounding_of(levels, PLAIN); }
static Msg with_gaps(size_t levels) { return sounding_of(levels, GAPS); }
static Msg of_five_tags(size_t levels) { return sounding_of(levels, FIVE); }
static Msg windy(size_t levels) { return sounding_of(levels, WINDY); }
static Msg windy_gaps(size_t levels) { return sounding_of(levels, WINDY_GAPS); }
static Msg windy_more(size_t levels) {
    Msg m = sounding_of(levels, WINDY_MORE);
    varint(&m, 6, 300);
    return m;
}
/* Levels, and behind them the one field of the highest tag. */
static Msg behind_levels(Msg m) {
    varint(&m, 9, 300);
    m.levels = 0;
    return m;
}
static Msg behind_of_four(size_t levels) { return behind_levels(sounding_of(levels, FOUR)); }
static Msg behind_of_one(size_t levels) {
    Msg m = {0};
    varint(&m, 1, STATION);
    varint(&m, 1, LAUNCH);
    for (size_t i = 0; i < levels; i++) {
        Msg level = {0};
        varint(&level, 1, 101325 - 830 * (i % 100) - below(100));
        payload(&m, i == 0, &level.bil, &level.pb);
    }
    return behind_levels(m);
}
static Msg one_byte_varints(size_t most) {
    Msg m = {0};
    for (size_t from = 0; m.bil.n + 12 <= most; varint(&m, rise(&m), of_len(1)))
        if (m.bil.n - from + 12 > SHORT) from = m.bil.n, state = first;
    while (m.bil.n + 2 <= most) varint(&m, 0, 7);
    return m;
}
static Msg mixed_varints(size_t most) {
    Msg m = {0};
    while (m.bil.n + 12 <= most) varint(&m, rise(&m), mixed());
    varint(&m, 0, 300); /* two bytes, so that a cut falls into the last value */
    return m;
}
static Msg payloads(size_t count) {
    Msg m = {0};
    for (size_t i = 0; i < count; i++) random_payload(&m, i % 4 == 0, 1024);
    return m;
}
static Msg fixed_values(size_t most) {
    Msg m = {0};
    for (int i = 0; m.bil.n + 9 <= most; i++) fixed(&m, rise(&m), i % 2 ? 8 : 4, next());
    return m;
}
static Msg all_types(size_t most) {
    Msg m = {0};
    for (size_t from = 0; m.bil.n + 40 <= most;) {
        if (m.bil.n - from + 40 > SHORT) from = m.bil.n, state = first;
        switch (below(4)) {
        case 0: varint(&m, rise(&m), mixed()); break;
        case 1: random_payload(&m, rise(&m), below(32)); break;
        case 2: fixed(&m, rise(&m), 4, next()); break;
        default: fixed(&m, rise(&m), 8, next());
        }
    }
    return m;
}
static Msg tiny(size_t last) {
    Msg m = {0};
    varint(&m, 1, 7);
    varint(&m, 1, 100000);
    random_payload(&m, 1, 4);
    fixed(&m, 1, 4, next());
    varint(&m, 1, last);
    return m;
}

/* ---- Corrections: a launch; and with it two fields behind the levels ---- */

static void copy_field(Msg *to, const Msg *from, const uint64_t *row) {
    uint32_t up = row[0] - to->tag;
    Bytes part = {from->bil.p + row[2], row[3], 0};
    if (row[1] == 0) varint(to, up, row[2]);
    else if (row[1] == 1) payload(to, up, &part, &part);
    else fixed(to, up, row[3], row[2]);
}
static int has_tag(const Msg *m, uint64_t tag) {
    for (size_t i = 0; i < m->n; i++)
        if (m->rec[RECORD * i] == tag) return 1;
    return 0;
}
/* The fields of both in the order of their tags, but for the original's of a tag that the correction has. */
static Fix fix_of(const Msg *original, const Msg *correction) {
    Msg m = {0};
    const uint64_t *row = original->rec, *stop = row + RECORD * original->n;
    for (size_t i = 0; i <= correction->n; i++) {
        const uint64_t *own = i < correction->n ? correction->rec + RECORD * i : 0;
        for (; row < stop && (!own || row[0] <= own[0]); row += RECORD)
            if (!has_tag(correction, row[0])) copy_field(&m, original, row);
        if (own) copy_field(&m, correction, own);
    }
    return (Fix){correction->bil.p, correction->bil.n, m.bil.p, m.bil.n, original->bil.n + correction->bil.n};
}
static void fixes(Load *l, const Msg *m) {
    Msg launch = {0}, both = {0};
    varint(&launch, LAUNCH_TAG, LAUNCH + 300);
    varint(&both, LAUNCH_TAG, LAUNCH + 300);
    random_payload(&both, 7, 24);
    fixed(&both, 1, 4, 55);
    l->fix[0] = fix_of(m, &launch);
    l->fix[1] = fix_of(m, &both);
}

/* `size`: levels, payloads, or bytes at most. */
static Load load(const char *name, uint64_t seed, Msg make(size_t), size_t size, int good, int deep) {
    state = first = seed;
    Msg m = make(size);
    if (m.bil.n > MESSAGE_LIMIT) abort();
    Load l = {.name = name, .good = good, .deep = deep, .fields = m.n, .all_fields = m.n + (deep ? m.inner : 0),
              .sounding = m.levels > 0, .station = STATION, .launch = LAUNCH, .levels = m.levels, .number = 60,
              .words = m.words, .graded = m.graded, .grade = m.grade, .least = m.grade, .records = m.rec,
              .index = m.index, .tags = m.tags, .asked = m.tag, .len = m.bil.n - !good, .pb_len = m.pb.n - !good};
    l.bytes = memcpy(calloc(1, l.len + SLACK), m.bil.p, l.len);
    l.pb = memcpy(calloc(1, l.pb_len + SLACK), m.pb.p, l.pb_len);
    if (l.sounding) fixes(&l, &m);
    return l;
}

/* ---- Packed runs: a column of winds, one in 40 missing (all ones); of pressures; of numbers of every length; fixed values ---- */

static void value(Msg *m, uint64_t type, uint64_t v) {
    if (type == 0) put_bilrost(&m->bil, v), record(m, 0, v, 0);
    if (type == 1) {
        size_t n = v % 20;
        put_bilrost(&m->bil, n);
        record(m, 1, m->bil.n, n);
        while (n-- > 0) put(&m->bil, v >> n);
    }
    if (type < 2) return;
    size_t n = type == 2 ? 4 : 8;
    if (n == 4) v &= 0xFFFFFFFFu;
    record(m, type, v, n);
    for (size_t i = 0; i < n; i++) put(&m->bil, v >> 8 * i);
}
static uint64_t a_wind(void) { return below(40) ? below(6000) : UINT64_MAX; }
static uint64_t a_pressure(void) { return below(110000); }
static uint64_t any_length(void) { return next() >> below(64); }
static Load run(const char *name, uint64_t type, size_t count, uint64_t number(void)) {
    state = 10 + type;
    Msg m = {.key = NO_KEY};
    while (m.n < count) value(&m, type, number());
    if (m.bil.n > MESSAGE_LIMIT) abort();
    Load l = {.name = name, .good = 1, .run = 1, .type = type, .fields = m.n, .all_fields = m.n, .records = m.rec,
              .len = m.bil.n};
    l.bytes = memcpy(calloc(1, l.len + SLACK), m.bil.p, l.len);
    return l;
}

/* ---- Working copies: payloads of 8 to 32 bytes, a tag each, behind some free bytes ---- */

static uint64_t *places; /* of a copy whose payloads are put in order */
static int by_place(const void *a, const void *b) {
    uint64_t x = places[*(const size_t *)a], y = places[*(const size_t *)b];
    return (x > y) - (x < y);
}
/* All but one, packed at the front in order of place. */
static uint64_t packed(uint64_t *at, const uint64_t *len, size_t count, size_t but) {
    size_t *order = malloc(8 * count);
    uint64_t to = 0;
    for (size_t i = 0; i < count; i++) order[i] = i;
    places = at;
    qsort(order, count, sizeof *order, by_place);
    for (size_t i = 0; i < count; i++)
        if (order[i] != but) at[order[i]] = to, to += len[order[i]];
    free(order);
    return to;
}
/* A copy after some replacements by as many bytes, each behind the last payload or, where the room ends, behind all packed. */
static Load copy(const char *name, size_t count, size_t replaced) {
    uint64_t *at = malloc(8 * count), *len = malloc(8 * count), end = SLACK, room;
    state = 20 + count;
    for (size_t i = 0; i < count; i++) at[i] = end, end += len[i] = 8 + below(25);
    room = end + end / 4;
    for (size_t n = 0; n < replaced; n++) {
        size_t i = below(count);
        if (room - end < len[i]) end = packed(at, len, count, i);
        at[i] = end, end += len[i];
    }
    Load l = {.name = name, .good = 1, .copy = 1, .fields = count, .all_fields = count, .spare = 1, .used = end,
              .len = end + SLACK, .number = count / 2, .asked = count / 2, .fresh_len = 24};
    uint64_t *row = malloc(8 * RECORD * count);
    l.records = row;
    for (size_t i = 0; i < count; i++, row += RECORD)
        row[0] = i + 1, row[1] = 1, row[2] = at[i], row[3] = len[i], row[4] = NO_KEY;
    Bytes b = {0};
    while (b.n < l.len + l.fresh_len) put(&b, next());
    l.bytes = b.p, l.fresh = b.p + l.len;
    free(at), free(len);
    return l;
}

size_t make_loads(Load *out) {
    const Load all[] = {
        load("S", 1, sounding, 120, 1, 0),
        load("SN", 1, sounding, 120, 1, 1),
        load("V1", 2, one_byte_varints, SHORT, 1, 0),
        load("V1+", 2, one_byte_varints, MESSAGE_LIMIT, 1, 0),
        load("VM", 3, mixed_varints, SHORT, 1, 0),
        load("P", 4, payloads, 60, 1, 0),
        load("P+", 4, payloads, 1020, 1, 0),
        load("F", 5, fixed_values, SHORT, 1, 0),
        load("X", 6, all_types, SHORT, 1, 0),
        load("X+", 6, all_types, MESSAGE_LIMIT, 1, 0),
        load("T", 7, tiny, 1, 1, 0),
        load("B", 3, mixed_varints, SHORT, 0, 0),
        load("SL", 1, sounding, 4000, 1, 0),
        load("SL+", 1, sounding, 80000, 1, 0),
        load("SG", 8, with_gaps, 120, 1, 0),
        load("S5", 9, of_five_tags, 120, 1, 0),
        load("W", 11, windy, 120, 1, 0),
        load("WG", 12, windy_gaps, 120, 1, 0),
        load("WU", 13, windy_more, 120, 1, 0),
        load("WL", 11, windy, 4000, 1, 0),
        load("I2", 1, behind_of_four, 2000, 1, 0),
        load("I4", 1, behind_of_four, 4000, 1, 0),
        load("I8", 1, behind_of_one, 8000, 1, 0),
        run("RV", 0, 1000, a_wind),
        run("RV+", 0, 100000, a_wind),
        run("RP", 0, 1000, a_pressure),
        run("RP+", 0, 100000, a_pressure),
        run("RN", 0, 1000, any_length),
        run("RN+", 0, 100000, any_length),
        run("R4", 2, 1000, next),
        run("R4+", 2, 100000, next),
        run("R8", 3, 1000, next),
        run("R8+", 3, 100000, next),
        copy("E", 120, 0),
        copy("EL", 4000, 0),
        copy("EF", 4000, 10),
        copy("EO", 120, 1000),
        copy("EOL", 4000, 20000),
    };
    memcpy(out, all, sizeof all);
    return sizeof all / sizeof *all;
}

/* ---- Soundings for the check of refusals ---- */

/* A field that is mostly as it should be: else left out, sent twice, of another type, at an edge, or all ones. */
static void doubtful(Msg *m, uint32_t tag, uint64_t most) {
    static const uint64_t EDGE[] = {0, 359, 360, 600, 601, 2000, 2001, 2002, 2999, 3000, 3001, 99999, 100000, 110000, 110001};
    uint32_t up = tag - m->tag;
    uint64_t v = 1 + below(most);
    switch (below(40)) {
    case 0: return;
    case 1: varint(m, up, v); up = 0; break;
    case 2: fixed(m, up, below(2) ? 4 : 8, v); return;
    case 3: v = EDGE[below(sizeof EDGE / sizeof *EDGE)]; break;
    case 4: v = UINT64_MAX;
    }
    varint(m, up, v);
}
/* Fields that nobody asks for; seldom a tag that is too high. */
static void unknown(Msg *m) {
    if (below(4) == 0) random_payload(m, 4, below(12));
    if (below(4) == 0) varint(m, 1, mixed());
    if (below(60) == 0) varint(m, UINT32_MAX, 7);
}
static void damage(Bytes *b) {
    size_t at = b->n ? below(b->n) : 0;
    switch (b->n ? below(8) : 7) {
    case 0: b->p[at] = next(); break;
    case 1: b->p[at] ^= 1 << below(8); break;
    case 2: b->n = at; break;
    case 3: memset(b->p + at, 0xFF, b->n - at < 9 ? b->n - at : 9);
    }
}
/* An index that is mostly of the message, before that was damaged; the tag that is asked stands in it, most often. */
static void doubtful_index(Load *l, Msg *m) {
    uint64_t *word = m->tags ? m->index + below(ENTRY * m->tags) : 0;
    if (word) switch (below(12)) {
        case 0: *word += 1; break;
        case 1: *word -= 1; break;
        case 2: *word = below(l->len + 2); break;
        case 3: *word = next() >> below(64); break;
        case 4: m->index[1] = below(l->len + 1), m->index[2] = 1 + below(3); break;
        }
    l->index = m->index;
    l->tags = m->tags - (m->tags && below(16) == 0);
    l->asked = m->tags && below(8) ? m->index[ENTRY * below(m->tags)] : below(6);
}
/* A correction of a few fields, often something wrong in it; the room for the result is of the length of both, or less. */
static void doubtful_fix(Load *l) {
    Msg m = {0};
    for (uint32_t tag = 0; tag < 6; tag++)
        for (uint64_t n = below(3) ? 0 : 1 + below(2); n > 0; n--) doubtful(&m, tag, 600);
    unknown(&m);
    if (below(6) == 0) damage(&m.bil);
    l->fix[0] = l->fix[1] = (Fix){m.bil.p ? m.bil.p : (uint8_t *)"", m.bil.n, 0, 0, l->len + m.bil.n - (m.bil.n && below(4) == 0)};
}
/* A sounding of a few levels, most often something wrong in it, and room for `levels`. The first is longer than a message
 * may be. */
Load broken_sounding(uint64_t seed) {
    state = seed;
    Msg m = {0};
    doubtful(&m, 1, 99999);
    doubtful(&m, LAUNCH_TAG, 100000);
    for (uint64_t n = below(6); n > 0; n--) {
        Msg level = {0};
        doubtful(&level, 1, 110000);
        doubtful(&level, 2, 2000);
        doubtful(&level, 3, 600);
        if (below(2)) doubtful(&level, 4, 2000), doubtful(&level, 5, 359);
        unknown(&level);
        if (below(4) == 0) damage(&level.bil);
        if (below(40) == 0) doubtful(&m, LEVEL_TAG, 600);
        else payload(&m, LEVEL_TAG - m.tag, &level.bil, &level.pb);
    }
    unknown(&m);
    if (seed == 0) random_payload(&m, 9, MESSAGE_LIMIT);
    if (below(2)) damage(&m.bil);
    Load l = {.name = "a broken sounding", .len = m.bil.n, .levels = below(8), .number = below(4), .least = seed ? below(4) : 0};
    l.bytes = memcpy(calloc(1, l.len + SLACK), m.bil.p, l.len);
    doubtful_index(&l, &m);
    l.fields = m.n - (m.n && below(8) == 0);
    doubtful_fix(&l);
    return l;
}

/* A run of a few values of any type, most often something wrong in it; and records of a run, of which some are not. */
Load broken_run(uint64_t seed) {
    state = seed;
    Msg m = {.key = NO_KEY};
    uint64_t type = below(4);
    for (uint64_t n = below(8); n > 0; n--) value(&m, type, type ? next() : below(8) ? mixed() : UINT64_MAX);
    if (seed == 0) random_payload(&m, 9, MESSAGE_LIMIT);
    Load l = {.name = "a broken run", .run = 1, .type = type, .fields = m.n, .all_fields = m.n, .records = m.rec};
    if (m.n && below(2)) {
        uint64_t *word = m.rec + below(RECORD * m.n);
        *word = below(3) ? *word + 1 - below(3) : next() >> below(64);
    }
    if (type == 1 && below(40) == 0)
        for (size_t i = 0; i < m.n; i++) m.rec[RECORD * i + 2] = 0, m.rec[RECORD * i + 3] = m.bil.n;
    if (below(2)) damage(&m.bil);
    l.len = m.bil.n;
    l.bytes = memcpy(calloc(1, l.len + SLACK), m.bil.p ? m.bil.p : (uint8_t *)"", l.len);
    return l;
}

/* A working copy of a few records, most often payloads of some bytes and apart, in any order of place; often one word is
 * wrong. */
Load broken_copy(uint64_t seed) {
    state = seed;
    Msg m = {.key = NO_KEY};
    uint64_t at[8], end = below(3), n = below(8);
    Load l = {.name = "a broken working copy", .copy = 1, .spare = below(4) > 0, .fresh_len = below(12), .asked = below(12)};
    for (uint64_t i = 0; i < n; i++) at[i] = i;
    for (uint64_t i = n; below(2) && i > 1; i--) {
        uint64_t j = below(i), other = at[i - 1];
        at[i - 1] = at[j], at[j] = other;
    }
    for (uint64_t i = 0; i < n; i++) m.tag += below(3), record(&m, 1, 0, 0);
    for (uint64_t i = 0; i < n; i++) {
        uint64_t *row = m.rec + RECORD * at[i];
        if (below(8) == 0) row[1] = 0, row[2] = mixed();
        else row[2] = end, row[3] = below(6), end += row[3] + (below(3) ? 0 : below(4));
    }
    if (n && below(3) == 0) {
        uint64_t *word = m.rec + below(RECORD * n);
        *word = below(3) ? *word + 1 - below(3) : next() >> below(64);
    }
    l.records = m.rec, l.fields = n, l.number = below(n + 2);
    l.len = seed ? end + below(10) : MESSAGE_LIMIT + 1;
    l.used = !seed ? l.len : below(4) ? (end < l.len ? end : l.len) : below(l.len + 1);
    Bytes b = {0};
    while (b.n < l.len + l.fresh_len + 1) put(&b, next());
    l.bytes = b.p, l.fresh = b.p + l.len;
    return l;
}
