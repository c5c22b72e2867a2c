/* What the driver and the peers share. A peer is a file that registers its jobs before main. */
#ifndef BENCH_H
#define BENCH_H
#include <stddef.h>
#include <stdint.h>
#ifdef __cplusplus
extern "C" {
#endif

#define REFUSED UINT64_MAX
#define NOT_DONE (UINT64_MAX - 1) /* the peer has no such job for this load */
#define SLACK 64                  /* bytes that may be touched behind a load and a buffer, for peers that look ahead */
#define MESSAGE_LIMIT 1048575
#define RECORD 5 /* words a record: tag, type, value or payload's start, length, place of its key */
#define NO_KEY UINT64_MAX
#define ENTRY 3  /* words an index's entry: tag, place of its first key, number of its fields */
#define LEVEL 5  /* words a level: pressure; temperature and depression, each 1 and the number, or 0 and all ones */
#define GRADED 9 /* words a level of the second edition: those, and the same for the wind's speed and direction */
#define LAUNCH_TAG 2
#define LEVEL_TAG 3

/* A correction over a load, the message that it makes of it, and how many bytes are lent for that. */
typedef struct Fix {
    const uint8_t *bytes;
    size_t len;
    const uint8_t *result;
    size_t result_len;
    size_t room;
} Fix;

/* One load: the same fields in two formats, and the records that a table reader must make of them. Of a run: its values. */
typedef struct Load {
    const char *name;
    const uint8_t *bytes; /* bilrost */
    size_t len;
    const uint8_t *pb; /* protobuf */
    size_t pb_len;
    int good;          /* 0: every reader must refuse it */
    int deep;          /* 1: each payload is read as a message too */
    size_t fields;     /* of the message */
    size_t all_fields; /* with those of its payloads, where deep */
    const uint64_t *records;
    const uint64_t *index; /* its entries */
    size_t tags;
    uint32_t asked; /* the tag that is looked up through the index: the highest */
    int sounding; /* 1: what follows is said, and the jobs on soundings are run */
    uint64_t station, launch;
    size_t levels, number; /* number: of the level that pick_at looks up */
    const uint64_t *words; /* of its levels */
    const uint64_t *graded; /* the same by the second edition */
    uint64_t grade, least;  /* that it has, and that is asked for */
    Fix fix[2];            /* of its launch; of its launch and of what stands behind its levels */
    int run;               /* 1: a packed run of values of this type, and no message */
    uint64_t type;
    int copy; /* 1: a working copy. `bytes` is its room, `number` the record that is replaced or taken out, `asked` the tag
                 that is put in */
    size_t spare, used; /* records that the table has room for beyond them; the end of the last payload */
    const uint8_t *fresh; /* the bytes that are put in */
    size_t fresh_len;
} Load;

/* What a reader of a message answers. */
typedef struct Answer {
    uint64_t number, place, count, failing, bytes;
} Answer;

/* What the jobs on a sounding answer; refused: the number alone. The grade is the second edition's. */
typedef struct Sounding {
    uint64_t refusal, station, launch, levels, grade;
} Sounding;
typedef struct Found {
    uint64_t refusal, count, found, type, value, len;
} Found;

/* What a job may use, made before a clock runs. */
typedef struct Work {
    uint64_t *table; /* room for every field of the load, or every level, or every tag; for a writer its records, for a
                        lookup through an index the index */
    size_t table_words;
    uint64_t *inner; /* a second table, for the payloads of a deep load */
    size_t inner_words;
    uint8_t *out; /* a buffer of out_len bytes; for an edit the room */
    size_t out_len;
    const uint8_t *wrote; /* set by a writer: where its bytes lie */
    void *own;            /* what prepare returned */
    Sounding sounding;    /* set by a reader of soundings */
    Found found;          /* set by a lookup, and by a maker of an index: its tags are the count; by a reader of a run, its
                             values are; by a writer of a run, the record that it refuses is, and the length the value; by
                             a corrector, the length is the value; by an edit, the count or the index is the count */
} Work;

typedef enum {
    READ,
    WRITE,
    PREPEND,
    MEASURE,
    SOUNDING,
    READ_GRADED,
    PICK,
    PICK_AT,
    INDEXED,
    MAKE_INDEX,
    READ_RUN,
    WRITE_RUN,
    CORRECT,
    CORRECT_END,
    REPLACE,
    PUT_TAKE,
    PACK,
    FLOOR
} Kind;

typedef struct Job {
    Kind kind;
    const char *name; /* the peer */
    int fills;        /* a reader whose records stand in work->table, where they are compared */
    int keeps;        /* nothing is touched that the rules say stays: a refused read's table, what is behind a buffer;
                         and a sounding or a lookup is refused by its number */
    int pb;           /* works on the protobuf bytes */
    void *(*prepare)(const Load *, Work *);
    /* A reader: the number of fields, or REFUSED. A writer or a measurer: the length. Others: anything. */
    uint64_t (*run)(const Load *, Work *);
    Answer (*told)(const Load *, Work *); /* every word of a reader's answer, to be compared */
} Job;

void bench_register(const Job *job);

#define REGISTER(id, ...)                                          \
    __attribute__((constructor)) static void register_##id(void) { \
        static const Job job = {__VA_ARGS__};                      \
        bench_register(&job);                                      \
    }

/* A load read by a table reader; each payload too, where it is deep. */
typedef uint64_t (*TableReader)(const uint8_t *, size_t, uint64_t *, size_t);

static inline uint64_t read_deep(TableReader read, const Load *l, Work *w) {
    uint64_t n = read(l->bytes, l->len, w->table, w->table_words), all = n;
    if (!l->deep || n == REFUSED) return n;
    for (const uint64_t *row = w->table, *stop = row + RECORD * n; row < stop; row += RECORD)
        if (row[1] == 1) all += read(l->bytes + row[2], row[3], w->inner, w->inner_words);
    return all;
}

#ifdef __cplusplus
}
#endif
#endif
