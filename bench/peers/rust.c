/* The jobs of the Rust peers (rust.rs), and two floors. */
#include "../driver/bench.h"
#include <string.h>

typedef struct {
    const uint8_t *source;
    size_t source_len;
    const uint64_t *table;
    size_t words;
} Lent;

uint64_t rust_owned_read(const uint8_t *, size_t, _Bool deep);
uint64_t rust_borrowed_read(const uint8_t *, size_t, _Bool deep);
uint64_t rust_walk(const uint8_t *, size_t);
void rust_same_read(const uint8_t *, size_t, uint64_t *, size_t, Answer *);
uint64_t rust_once_read(const uint8_t *, size_t, uint64_t *, size_t);
void *rust_held(const uint8_t *, size_t);
uint64_t rust_opaque_encode(void *held, const uint8_t **wrote);
uint64_t rust_opaque_encode_slice(void *held, uint8_t *, size_t);
uint64_t rust_opaque_prepend(void *held, const uint8_t **wrote);
uint64_t rust_opaque_len(void *held);
void *rust_reverse(size_t);
uint64_t rust_table_encode(const Lent *, uint8_t *, size_t);
uint64_t rust_same_encode(const Lent *, uint8_t *, size_t);
uint64_t rust_table_prepend(const Lent *, void *reverse, const uint8_t **wrote);
uint64_t rust_same_prepend(const Lent *, void *reverse, const uint8_t **wrote);
uint64_t rust_table_len(const Lent *);
void rust_same_pick(const uint8_t *, size_t, uint32_t tag, Found *);
void rust_borrowed_pick(const uint8_t *, size_t, uint32_t tag, Found *);
void rust_same_pick_at(const uint8_t *, size_t, uint32_t tag, uint64_t number, Found *);
void rust_borrowed_pick_at(const uint8_t *, size_t, uint32_t tag, uint64_t number, Found *);
void rust_same_sounding(const uint8_t *, size_t, uint64_t *, size_t, Sounding *);
void rust_borrowed_sounding(const uint8_t *, size_t, uint64_t *, size_t, Sounding *);
void rust_same_read_run(const uint8_t *, size_t, uint64_t type, uint64_t *, size_t, Found *);
void rust_same_write_run(const Lent *, uint64_t type, size_t count, uint8_t *, size_t, Found *);
void rust_same_correct(const uint8_t *, size_t, const uint8_t *, size_t, uint8_t *, size_t, Found *);

/* A job, named by its own function. */
#define JOB(id) static uint64_t id(const Load *l, Work *w)
#define NONE (void)l, (void)w

JOB(owned) { NONE; return rust_owned_read(l->bytes, l->len, l->deep); }
JOB(borrowed) { NONE; return rust_borrowed_read(l->bytes, l->len, l->deep); }
JOB(walk) { NONE; return l->deep ? NOT_DONE : rust_walk(l->bytes, l->len); }
static uint64_t same_table(const uint8_t *s, size_t n, uint64_t *table, size_t words) {
    Answer a;
    rust_same_read(s, n, table, words, &a);
    return a.number ? REFUSED : a.count;
}
static Answer told(const Load *l, Work *w) {
    Answer a;
    rust_same_read(l->bytes, l->len, w->table, w->table_words, &a);
    return a;
}
JOB(same) { return read_deep(same_table, l, w); }
JOB(once) { return read_deep(rust_once_read, l, w); }
REGISTER(1, .kind = READ, .name = "rust-owned", .run = owned)
REGISTER(2, .kind = READ, .name = "rust-borrowed", .run = borrowed)
REGISTER(3, .kind = READ, .name = "rust-walk", .run = walk)
REGISTER(4, .kind = READ, .name = "rust-same", .fills = 1, .keeps = 1, .run = same, .told = told)
REGISTER(5, .kind = READ, .name = "rust-once", .fills = 1, .run = once)

static void *held(const Load *l, Work *w) { NONE; return rust_held(l->bytes, l->len); }
static void *reverse(const Load *l, Work *w) { NONE; return rust_reverse(l->len); }
static Lent lent(const Load *l, const Work *w) { return (Lent){l->bytes, l->len, w->table, w->table_words}; }

JOB(opaque_vec) { NONE; return rust_opaque_encode(w->own, &w->wrote); }
JOB(opaque_slice) { NONE; w->wrote = w->out; return rust_opaque_encode_slice(w->own, w->out, w->out_len); }
JOB(table_encode) { Lent from = lent(l, w); w->wrote = w->out; return rust_table_encode(&from, w->out, w->out_len); }
JOB(same_encode) { Lent from = lent(l, w); w->wrote = w->out; return rust_same_encode(&from, w->out, w->out_len); }
REGISTER(6, .kind = WRITE, .name = "rust-opaque-vec", .prepare = held, .run = opaque_vec)
REGISTER(7, .kind = WRITE, .name = "rust-opaque-slice", .prepare = held, .run = opaque_slice)
REGISTER(8, .kind = WRITE, .name = "rust-table", .run = table_encode)
REGISTER(9, .kind = WRITE, .name = "rust-same", .keeps = 1, .run = same_encode)

JOB(opaque_prepend) { NONE; return rust_opaque_prepend(w->own, &w->wrote); }
JOB(table_prepend) { Lent from = lent(l, w); return rust_table_prepend(&from, w->own, &w->wrote); }
JOB(same_prepend) { Lent from = lent(l, w); return rust_same_prepend(&from, w->own, &w->wrote); }
REGISTER(10, .kind = PREPEND, .name = "rust-opaque", .prepare = held, .run = opaque_prepend)
REGISTER(11, .kind = PREPEND, .name = "rust-table", .prepare = reverse, .run = table_prepend)
REGISTER(12, .kind = PREPEND, .name = "rust-same", .prepare = reverse, .run = same_prepend)

JOB(opaque_len) { NONE; return rust_opaque_len(w->own); }
JOB(table_len) { Lent from = lent(l, w); return rust_table_len(&from); }
JOB(same_len) { Lent from = lent(l, w); return rust_same_encode(&from, w->out, 0); }
REGISTER(13, .kind = MEASURE, .name = "rust-opaque", .prepare = held, .run = opaque_len)
REGISTER(14, .kind = MEASURE, .name = "rust-table", .run = table_len)
REGISTER(15, .kind = MEASURE, .name = "rust-same", .run = same_len)

#define TABLE l->bytes, l->len, w->table, w->table_words
JOB(same_sounding) { rust_same_sounding(TABLE, &w->sounding); return 0; }
JOB(borrowed_sounding) { rust_borrowed_sounding(TABLE, &w->sounding); return 0; }
JOB(same_pick) { rust_same_pick(l->bytes, l->len, LAUNCH_TAG, &w->found); return 0; }
JOB(borrowed_pick) { rust_borrowed_pick(l->bytes, l->len, LAUNCH_TAG, &w->found); return 0; }
JOB(same_pick_at) { rust_same_pick_at(l->bytes, l->len, LEVEL_TAG, l->number, &w->found); return 0; }
JOB(borrowed_pick_at) { rust_borrowed_pick_at(l->bytes, l->len, LEVEL_TAG, l->number, &w->found); return 0; }
REGISTER(18, .kind = SOUNDING, .name = "rust-same", .keeps = 1, .run = same_sounding)
REGISTER(19, .kind = SOUNDING, .name = "rust-borrowed", .run = borrowed_sounding)
REGISTER(20, .kind = PICK, .name = "rust-same", .keeps = 1, .run = same_pick)
REGISTER(21, .kind = PICK, .name = "rust-borrowed", .keeps = 1, .run = borrowed_pick)
REGISTER(22, .kind = PICK_AT, .name = "rust-same", .keeps = 1, .run = same_pick_at)
REGISTER(23, .kind = PICK_AT, .name = "rust-borrowed", .keeps = 1, .run = borrowed_pick_at)

JOB(same_read_run) {
    rust_same_read_run(l->bytes, l->len, l->type, w->table, w->table_words, &w->found);
    return w->found.refusal ? REFUSED : w->found.count;
}
JOB(same_write_run) {
    Lent from = lent(l, w);
    rust_same_write_run(&from, l->type, l->fields, w->out, w->out_len, &w->found);
    w->wrote = w->out;
    return w->found.refusal ? REFUSED : w->found.value;
}
static inline uint64_t corrected(const Load *l, Work *w, Fix fix) {
    rust_same_correct(l->bytes, l->len, fix.bytes, fix.len, w->out, w->out_len, &w->found);
    w->wrote = w->out;
    return w->found.refusal ? REFUSED : w->found.value;
}
JOB(same_correct) { return corrected(l, w, l->fix[0]); }
JOB(same_correct_end) { return corrected(l, w, l->fix[1]); }
REGISTER(24, .kind = READ_RUN, .name = "rust-same", .fills = 1, .keeps = 1, .run = same_read_run)
REGISTER(25, .kind = WRITE_RUN, .name = "rust-same", .keeps = 1, .run = same_write_run)
REGISTER(26, .kind = CORRECT, .name = "rust-same", .keeps = 1, .run = same_correct)
REGISTER(27, .kind = CORRECT_END, .name = "rust-same", .keeps = 1, .run = same_correct_end)

/* Floors: a copy of the bytes; the stores of a table reader alone. */
JOB(copy) { memcpy(w->out, l->bytes, l->len); return l->len; }
JOB(stores) {
    uint64_t *row = w->table;
    for (size_t i = 0; i < l->fields; i++, row += RECORD) {
        row[0] = i, row[1] = 0, row[2] = i, row[3] = 0, row[4] = i;
        __asm__ volatile("" ::: "memory");
    }
    return l->fields;
}
REGISTER(16, .kind = FLOOR, .name = "memcpy", .run = copy)
REGISTER(17, .kind = FLOOR, .name = "table-stores", .run = stores)
