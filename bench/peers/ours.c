/* Ours, by the C interface. */
#include "../../bindings/c/capgauze.h"
#include "../driver/bench.h"

static uint64_t read_table(const uint8_t *s, size_t n, uint64_t *table, size_t words) {
    capgauze_read r = capgauze_read_message(s, n, 0, n, table, words);
    return r.number ? REFUSED : r.count;
}
static uint64_t written(Work *w, capgauze_written r) {
    w->wrote = w->out + r.start;
    return r.number ? REFUSED : r.length;
}
#define RECORDS l->bytes, l->len, w->table, w->table_words, l->fields
static uint64_t job_read(const Load *l, Work *w) { return read_deep(read_table, l, w); }
static Answer told(const Load *l, Work *w) {
    capgauze_read r = capgauze_read_message(l->bytes, l->len, 0, l->len, w->table, w->table_words);
    return (Answer){r.number, r.place, r.count, r.failing, r.bytes};
}
static uint64_t job_write(const Load *l, Work *w) {
    return written(w, capgauze_encode_message(RECORDS, w->out, w->out_len));
}
static uint64_t job_prepend(const Load *l, Work *w) {
    return written(w, capgauze_prepend_message(RECORDS, w->out, w->out_len));
}
/* A buffer of no bytes: NoRoom with the length. */
static uint64_t job_measure(const Load *l, Work *w) {
    capgauze_written r = capgauze_encode_message(RECORDS, w->out, 0);
    return r.number && r.number != CAPGAUZE_NO_ROOM ? REFUSED : r.length;
}
/* A table of no words: pass one, and NoRoom with the count. */
static uint64_t job_pass_one(const Load *l, Work *w) {
    if (l->deep) return NOT_DONE;
    capgauze_read r = capgauze_read_message(l->bytes, l->len, 0, l->len, w->table, 0);
    return r.number == CAPGAUZE_NO_ROOM ? r.count : REFUSED;
}
static uint64_t job_sounding(const Load *l, Work *w) {
    capgauze_sounding r = capgauze_read_sounding(l->bytes, l->len, w->table, w->table_words);
    w->sounding = (Sounding){r.number, r.station, r.launch, r.levels, 0};
    return r.number;
}
static uint64_t job_graded(const Load *l, Work *w) {
    capgauze_graded r = capgauze_read_graded(l->bytes, l->len, w->table, w->table_words, l->least);
    w->sounding = (Sounding){r.number, r.station, r.launch, r.levels, r.grade};
    return r.number;
}
static uint64_t picked(Work *w, capgauze_picked r) {
    w->found = (Found){r.number, r.found, r.found, r.type, r.value, r.length};
    return r.number;
}
static uint64_t job_pick(const Load *l, Work *w) { return picked(w, capgauze_pick(l->bytes, l->len, LAUNCH_TAG)); }
static uint64_t job_pick_early(const Load *l, Work *w) {
    capgauze_early r = capgauze_pick_early(l->bytes, l->len, LAUNCH_TAG);
    w->found = (Found){r.number, r.found, r.found, r.type, r.value, r.length};
    return r.number;
}
static uint64_t job_pick_at(const Load *l, Work *w) {
    capgauze_several r = capgauze_pick_at(l->bytes, l->len, LEVEL_TAG, l->number);
    w->found = (Found){r.number, r.count, r.found, r.type, r.value, r.length};
    return r.number;
}
static uint64_t job_indexed(const Load *l, Work *w) {
    return picked(w, capgauze_pick_indexed(l->bytes, l->len, w->table, w->table_words, l->tags, l->asked));
}
/* The same tag without the index. */
static uint64_t job_unindexed(const Load *l, Work *w) { return picked(w, capgauze_pick(l->bytes, l->len, l->asked)); }
static uint64_t job_make_index(const Load *l, Work *w) {
    capgauze_number r = capgauze_make_index(l->bytes, l->len, w->table, w->table_words);
    w->found = (Found){.refusal = r.number, .count = r.value};
    return r.number;
}
static uint64_t job_read_run(const Load *l, Work *w) {
    capgauze_number r = capgauze_read_run(l->bytes, l->len, l->type, w->table, w->table_words);
    w->found = (Found){.refusal = r.number, .count = r.value};
    return r.number ? REFUSED : r.value;
}
static uint64_t job_write_run(const Load *l, Work *w) {
    capgauze_written r = capgauze_write_run(RECORDS, l->type, w->out, w->out_len);
    w->found = (Found){.refusal = r.number, .count = r.start, .value = r.length};
    return written(w, r);
}
static uint64_t corrected(const Load *l, Work *w, Fix fix) {
    capgauze_number r = capgauze_write_corrected(l->bytes, l->len, fix.bytes, fix.len, w->out, w->out_len);
    w->wrote = w->out;
    w->found = (Found){.refusal = r.number, .value = r.value};
    return r.number ? REFUSED : r.value;
}
static uint64_t job_correct(const Load *l, Work *w) { return corrected(l, w, l->fix[0]); }
static uint64_t job_correct_end(const Load *l, Work *w) { return corrected(l, w, l->fix[1]); }
#define COPY w->out, w->out_len, w->table, w->table_words
static uint64_t edited(Work *w, capgauze_number r) {
    w->found = (Found){.refusal = r.number, .count = r.value};
    return r.number ? REFUSED : r.value;
}
static uint64_t job_replace(const Load *l, Work *w) {
    return edited(w, capgauze_replace_payload(COPY, l->fields, l->number, l->fresh, l->fresh_len));
}
static uint64_t job_put(const Load *l, Work *w) {
    return edited(w, capgauze_insert_payload(COPY, l->fields, l->asked, l->fresh, l->fresh_len));
}
static uint64_t job_put_take(const Load *l, Work *w) {
    uint64_t count = job_put(l, w);
    return count == REFUSED ? count : edited(w, capgauze_remove_record(COPY, count, l->number));
}
/* The original read and written again. */
static uint64_t copied(const Load *l, Work *w) {
    if (!l->sounding) return NOT_DONE;
    capgauze_read r = capgauze_read_message(l->bytes, l->len, 0, l->len, w->table, w->table_words);
    return r.number ? REFUSED : written(w, capgauze_encode_message(RECORDS, w->out, w->out_len));
}
REGISTER(1, .kind = READ, .name = "OURS", .fills = 1, .keeps = 1, .run = job_read, .told = told)
REGISTER(2, .kind = WRITE, .name = "OURS", .keeps = 1, .run = job_write)
REGISTER(3, .kind = PREPEND, .name = "OURS", .keeps = 1, .run = job_prepend)
REGISTER(4, .kind = MEASURE, .name = "OURS", .run = job_measure)
REGISTER(5, .kind = READ, .name = "OURS-pass-one", .run = job_pass_one)
REGISTER(6, .kind = SOUNDING, .name = "OURS", .keeps = 1, .run = job_sounding)
REGISTER(7, .kind = PICK, .name = "OURS", .keeps = 1, .run = job_pick)
REGISTER(8, .kind = PICK, .name = "OURS-early", .run = job_pick_early)
REGISTER(9, .kind = PICK_AT, .name = "OURS", .keeps = 1, .run = job_pick_at)
REGISTER(10, .kind = INDEXED, .name = "OURS", .keeps = 1, .run = job_indexed)
REGISTER(11, .kind = INDEXED, .name = "OURS-pick", .run = job_unindexed)
REGISTER(12, .kind = MAKE_INDEX, .name = "OURS", .keeps = 1, .run = job_make_index)
REGISTER(13, .kind = READ_RUN, .name = "OURS", .fills = 1, .keeps = 1, .run = job_read_run)
REGISTER(14, .kind = WRITE_RUN, .name = "OURS", .keeps = 1, .run = job_write_run)
REGISTER(15, .kind = CORRECT, .name = "OURS", .keeps = 1, .run = job_correct)
REGISTER(16, .kind = CORRECT_END, .name = "OURS", .keeps = 1, .run = job_correct_end)
REGISTER(17, .kind = FLOOR, .name = "OURS-copy", .run = copied)
REGISTER(18, .kind = READ_GRADED, .name = "OURS", .keeps = 1, .run = job_graded)
REGISTER(19, .kind = REPLACE, .name = "OURS", .keeps = 1, .run = job_replace)
REGISTER(20, .kind = PUT_TAKE, .name = "OURS", .keeps = 1, .run = job_put_take)
REGISTER(21, .kind = PACK, .name = "OURS", .keeps = 1, .run = job_put)
