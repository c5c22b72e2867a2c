/* bench check            every job once on every load, answers compared; then broken soundings
 * bench loads            the loads
 * bench time [LOAD..]    best and median nanoseconds a message, a line for each job and load
 * bench count [LOAD..]   the calls between count_begin and count_end, which run.sh has counted; a line for each
 * All but loads check the loads that they are about first. */
#include "loads.h"
#include <stdio.h>
#include <stdlib.h>
#include <string.h>
#include <time.h>

#define MAX_JOBS 160
#define MAX_ROUNDS 400
#define BROKEN 6000

static const char *KIND[] = {"read",    "write",      "prepend",  "measure",  "sounding",  "graded",  "pick",
                             "pick_at", "indexed",    "make_index", "read_run", "write_run", "correct", "correct_end",
                             "replace", "put_take",   "pack",       "floor"};
static Job jobs[MAX_JOBS];
static size_t job_count;
static Load loads[MAX_LOADS];
static size_t load_count;
static Work works[MAX_JOBS][MAX_LOADS];
static int active[MAX_JOBS][MAX_LOADS];
volatile uint64_t sink;

void bench_register(const Job *job) { jobs[job_count++] = *job; }

/* ---- Every answer is compared before a clock runs ---- */

static void fail(const Job *j, const Load *l, const char *what, uint64_t got) {
    fprintf(stderr, "bench: %s %s on %s: %s (%llu)\n", KIND[j->kind], j->name, l->name, what,
            (unsigned long long)got);
    exit(1);
}
static uint64_t poison(size_t i) { return 0xA5A5A5A5A5A5A5A5u + i; }

static int on_sounding(const Job *j) { return j->kind >= SOUNDING && j->kind <= PICK_AT; }
static size_t level_words(const Job *j) { return j->kind == SOUNDING ? LEVEL : j->kind == READ_GRADED ? GRADED : 0; }
static int on_index(const Job *j) { return j->kind == INDEXED || j->kind == MAKE_INDEX; }
static int on_run(const Job *j) { return j->kind == READ_RUN || j->kind == WRITE_RUN; }
static int corrects(const Job *j) { return j->kind == CORRECT || j->kind == CORRECT_END; }
static int edits(const Job *j) { return j->kind >= REPLACE && j->kind <= PACK; }
static int puts_bytes(const Job *j) { return j->kind == WRITE_RUN || corrects(j); }
static Fix fix_for(const Job *j, const Load *l) { return l->fix[j->kind == CORRECT_END]; }

static void prepare(const Job *j, const Load *l, Work *w) {
    w->table_words = level_words(j) ? level_words(j) * l->levels : on_index(j) ? ENTRY * l->tags : RECORD * l->fields;
    w->table = malloc(8 * (w->table_words + 8));
    for (size_t i = 0; i < w->table_words + 8; i++) w->table[i] = poison(i);
    if (l->records && j->kind != READ && j->kind != READ_RUN && !level_words(j) && !on_index(j) && !corrects(j))
        memcpy(w->table, l->records, 8 * w->table_words);
    if (j->kind == INDEXED) memcpy(w->table, l->index, 8 * w->table_words);
    w->inner_words = RECORD * 64;
    w->inner = malloc(8 * w->inner_words);
    w->out_len = corrects(j) ? fix_for(j, l).room : j->pb ? l->pb_len : l->len;
    w->out = memset(malloc(w->out_len + SLACK), 0xA5, w->out_len + SLACK);
    w->own = j->prepare ? j->prepare(l, w) : 0;
}
/* A working copy as it was: its rows, and its room. A packed room is as long as its last payload needs. */
static void restore(const Load *l, Work *w) {
    memcpy(w->table, l->records, 8 * RECORD * l->fields);
    memcpy(w->out, l->bytes, w->out_len);
}
static void prepare_copy(const Job *j, const Load *l, Work *w) {
    w->table_words = RECORD * (l->fields + l->spare);
    w->table = malloc(8 * (w->table_words + 8));
    for (size_t i = 0; i < w->table_words + 8; i++) w->table[i] = poison(i);
    w->out_len = j->kind == PACK ? l->used : l->len;
    w->out = memset(malloc(w->out_len + SLACK), 0xA5, w->out_len + SLACK);
    restore(l, w);
}
/* After an edit: a replacement is undone by two words, packing by all of them; a record put in is taken out by the job. */
static void undo(const Job *j, const Load *l, Work *w) {
    if (j->kind == REPLACE) memcpy(w->table + RECORD * l->number + 2, l->records + RECORD * l->number + 2, 16);
    if (j->kind == PACK) restore(l, w);
}
static void check_kept(const Job *j, const Load *l, const Work *w, size_t from) {
    for (size_t i = from; i < w->table_words + 8; i++)
        if (w->table[i] != poison(i)) fail(j, l, "a word changed that must stay", i);
}
static void check_read(const Job *j, const Load *l, const Work *w, uint64_t got) {
    if (got != (l->good ? l->all_fields : REFUSED)) fail(j, l, "wrong count", got);
    if (!j->fills) return;
    if (l->good && memcmp(w->table, l->records, 8 * w->table_words)) fail(j, l, "wrong records", got);
    check_kept(j, l, w, l->good || !j->keeps ? w->table_words : 0);
}
static void check_written(const Job *j, const Load *l, const Work *w, uint64_t got) {
    if (got != (corrects(j) ? fix_for(j, l).result_len : w->out_len)) fail(j, l, "wrong length", got);
    const uint8_t *want = corrects(j) ? fix_for(j, l).result : j->pb ? l->pb : l->bytes;
    if (j->kind != MEASURE && memcmp(w->wrote, want, got)) fail(j, l, "wrong bytes", got);
    for (size_t i = got; j->keeps && j->kind != MEASURE && w->wrote == w->out && i < w->out_len + SLACK; i++)
        if (w->out[i] != 0xA5) fail(j, l, "a byte changed that must stay", i);
    for (size_t i = 0; j->keeps && i < SLACK; i++)
        if (w->out[w->out_len + i] != 0xA5) fail(j, l, "a byte changed that must stay", i);
}
static void check_sounding(const Job *j, const Load *l, const Work *w) {
    const int second = j->kind == READ_GRADED;
    const Sounding want = {0, l->station, l->launch, l->levels, second ? l->grade : 0};
    if (memcmp(&w->sounding, &want, sizeof want)) fail(j, l, "wrong head or refusal", w->sounding.refusal);
    if (memcmp(w->table, second ? l->graded : l->words, 8 * w->table_words)) fail(j, l, "wrong levels", 0);
    check_kept(j, l, w, w->table_words);
}
static void check_found(const Job *j, const Load *l, const Work *w) {
    uint64_t tag = j->kind == PICK ? LAUNCH_TAG : j->kind == PICK_AT ? LEVEL_TAG : l->asked;
    uint64_t number = j->kind == PICK_AT ? l->number : 0;
    Found want = {0};
    for (const uint64_t *row = l->records, *stop = row + RECORD * l->fields; row < stop; row += RECORD)
        if (row[0] == tag && want.count++ == number)
            want.found = 1, want.type = row[1], want.value = row[2], want.len = row[3];
    if (j->kind == INDEXED && want.count > 1) want = (Found){.refusal = 11};
    if (memcmp(&w->found, &want, sizeof want)) fail(j, l, "wrong field, count or refusal", w->found.refusal);
}
static void check_index(const Job *j, const Load *l, const Work *w) {
    if (w->found.refusal || w->found.count != l->tags) fail(j, l, "wrong tags or refusal", w->found.count);
    if (memcmp(w->table, l->index, 8 * w->table_words)) fail(j, l, "wrong index", 0);
    check_kept(j, l, w, w->table_words);
}
/* The list of payloads is what a plain list would be, and every word and byte is the first such peer's. */
static void check_edit(const Job *j, const Load *l, const Work *w) {
    static const Work *first[FLOOR];
    static const Load *of[FLOOR];
    size_t count = l->fields + (j->kind == PACK);
    if (w->found.refusal || w->found.count != count) fail(j, l, "wrong count or refusal", w->found.refusal);
    for (size_t i = 0; i < count; i++) {
        int fresh = j->kind != PUT_TAKE && i == l->number;
        const uint64_t *row = w->table + RECORD * i;
        const uint64_t *old = l->records + RECORD * (j->kind == PACK && i > l->number ? i - 1 : i);
        uint64_t tag = fresh && j->kind == PACK ? l->asked : old[0], len = fresh ? l->fresh_len : old[3];
        if (row[0] != tag || row[1] != 1 || row[3] != len || row[4] != NO_KEY) fail(j, l, "wrong record", i);
        if (row[2] > w->out_len || len > w->out_len - row[2]) fail(j, l, "a payload outside of the room", i);
        if (memcmp(w->out + row[2], fresh ? l->fresh : l->bytes + old[2], len)) fail(j, l, "wrong payload", i);
    }
    for (size_t i = 0; i < SLACK; i++)
        if (w->out[w->out_len + i] != 0xA5) fail(j, l, "a byte changed that must stay", i);
    if (of[j->kind] != l) of[j->kind] = l, first[j->kind] = w;
    if (memcmp(w->table, first[j->kind]->table, 8 * (w->table_words + 8))) fail(j, l, "not the other peers' words", 0);
    if (memcmp(w->out, first[j->kind]->out, w->out_len)) fail(j, l, "not the other peers' bytes", 0);
}
/* Every word of a reader's answer is the first such peer's. */
static void check_told(const Job *j, const Load *l, Work *w) {
    static Answer first;
    static const Load *of;
    Answer a = j->told(l, w);
    if (of != l) of = l, first = a;
    if (memcmp(&a, &first, sizeof a)) fail(j, l, "not the other peers' answer", a.failing);
}
static void check(size_t a, size_t b) {
    const Job *j = &jobs[a];
    const Load *l = &loads[b];
    if (j->kind != READ && (!l->good || l->deep)) return;
    if ((on_sounding(j) || corrects(j)) && !l->sounding) return;
    if (j->kind != FLOOR && (on_run(j) != l->run || edits(j) != l->copy)) return;
    if (edits(j)) prepare_copy(j, l, &works[a][b]);
    else prepare(j, l, &works[a][b]);
    uint64_t got = j->run(l, &works[a][b]);
    if (got == NOT_DONE) return;
    active[a][b] = 1;
    if (j->told) check_told(j, l, &works[a][b]);
    if (j->kind == READ || j->kind == READ_RUN) check_read(j, l, &works[a][b], got);
    else if (level_words(j)) check_sounding(j, l, &works[a][b]);
    else if (edits(j)) check_edit(j, l, &works[a][b]);
    else if (j->kind == MAKE_INDEX) check_index(j, l, &works[a][b]);
    else if (on_sounding(j) || j->kind == INDEXED) check_found(j, l, &works[a][b]);
    else if (j->kind != FLOOR) check_written(j, l, &works[a][b], got);
}
static void release(Work *w) {
    free(w->table), free(w->inner), free(w->out);
    w->table = w->inner = 0, w->out = 0;
}
static size_t stored(const Job *j, const Work *w) {
    return level_words(j)                                  ? level_words(j) * w->sounding.levels
           : j->kind == MAKE_INDEX                         ? ENTRY * w->found.count
           : j->kind == READ_RUN || (j->told && !w->found.refusal) ? RECORD * w->found.count
                                                           : 0;
}
/* A refused edit leaves rows and room; the second of two edits has the first one's behind it. */
static void check_same(const Job *j, const Load *l, const Work *w) {
    if (j->kind == PUT_TAKE) return;
    if (memcmp(w->table, l->records, 8 * RECORD * l->fields)) fail(j, l, "a word changed that must stay", 0);
    if (memcmp(w->out, l->bytes, w->out_len)) fail(j, l, "a byte changed that must stay", 0);
}
/* Peers that keep the rules, on a broken sounding with an index that may be another's and a correction, on a broken run, or on
 * a broken working copy: one refusal or one answer; the words and bytes behind it stay. */
static void check_broken(const Load *load, uint64_t seed, uint64_t met[FLOOR][16]) {
    const Load l = *load;
    Work first[FLOOR] = {{0}};
    for (const Job *j = jobs; j < jobs + job_count; j++) {
        if (l.copy ? !edits(j) : l.run ? !on_run(j) : !(on_sounding(j) || on_index(j) || corrects(j) || j->told)) continue;
        if (!j->keeps) continue;
        Work w = {0}, *other = &first[j->kind];
        if (l.copy) prepare_copy(j, &l, &w);
        else prepare(j, &l, &w);
        size_t row = level_words(j) ? level_words(j) : LEVEL;
        size_t less = (on_index(j) || j->told || on_run(j) || l.copy) && seed % 4 ? 0 : seed % row;
        if (w.table_words >= less) w.table_words -= less;
        if (j->kind == WRITE_RUN && seed % 3 == 0 && w.out_len) w.out_len--;
        if (j->told) {
            Answer a = j->told(&l, &w);
            w.found = (Found){a.number, a.count, a.place, a.failing, a.bytes, 0};
        } else j->run(&l, &w);
        if (j->kind != INDEXED && j->kind != WRITE_RUN && !l.copy) check_kept(j, &l, &w, stored(j, &w));
        for (size_t i = w.found.refusal ? 0 : w.found.value; puts_bytes(j) && i < w.out_len + SLACK; i++)
            if (w.out[i] != 0xA5) fail(j, &l, "a byte changed that must stay; seed", seed);
        if (l.copy && w.found.refusal) check_same(j, &l, &w);
        if (!other->table) {
            *other = w;
            met[j->kind][(level_words(j) ? w.sounding.refusal : w.found.refusal) % 16]++;
            continue;
        }
        if (memcmp(&w.sounding, &other->sounding, sizeof w.sounding) || memcmp(&w.found, &other->found, sizeof w.found))
            fail(j, &l, "not the other peers' answer; seed", seed);
        if (memcmp(w.table, other->table, 8 * (w.table_words + (l.copy ? 8 : 0))))
            fail(j, &l, "not the other peers' words; seed", seed);
        if ((puts_bytes(j) || l.copy) && memcmp(w.out, other->out, w.out_len + (l.copy ? SLACK : 0)))
            fail(j, &l, "not the other peers' bytes; seed", seed);
        release(&w);
    }
    for (int k = 0; k < FLOOR; k++) release(&first[k]);
}
static void check_met(const char *what, const uint64_t *met, const char *refusals) {
    fprintf(stderr, "bench: %d broken %s are answered alike; by refusal (0: accepted)", BROKEN, what);
    for (int i = 0; i < 16; i++) {
        if (met[i]) fprintf(stderr, " %d: %llu", i, (unsigned long long)met[i]);
        if (!met[i] != (refusals[i] == '.')) fprintf(stderr, " %d: against what is said here\n", i), exit(1);
    }
    fputc('\n', stderr);
}
static void check_all_broken(void) {
    static uint64_t met[FLOOR][16];
    for (uint64_t seed = 0; seed < BROKEN; seed++) {
        Load l = broken_sounding(seed), r = broken_run(seed), c = broken_copy(seed);
        check_broken(&l, seed, met);
        check_broken(&r, seed, met);
        check_broken(&c, seed, met);
    }
    check_met("messages", met[READ], "012345..........");
    check_met("soundings", met[SOUNDING], "012345...9ab.d..");
    check_met("soundings with a grade", met[READ_GRADED], "0123456..9ab.def");
    check_met("indexes", met[INDEXED], "01234......bc...");
    check_met("messages to be indexed", met[MAKE_INDEX], "012345..........");
    check_met("runs", met[READ_RUN], "012.45..........");
    check_met("records of runs", met[WRITE_RUN], "0...456.........");
    check_met("corrections", met[CORRECT], "012345..........");
    check_met("replacements", met[REPLACE], "0...4567........");
    check_met("payloads put in and records taken out", met[PUT_TAKE], "0...4567........");
    check_met("payloads put in", met[PACK], "0...4567........");
}

/* ---- Counts and times ---- */

__attribute__((noinline)) void count_begin(void) { __asm__ volatile("" ::: "memory"); }
__attribute__((noinline)) void count_end(void) { __asm__ volatile("" ::: "memory"); }

static void repeat(size_t a, size_t b, long reps) {
    if (edits(&jobs[a]))
        for (long i = 0; i < reps; i++) {
            sink = jobs[a].run(&loads[b], &works[a][b]);
            undo(&jobs[a], &loads[b], &works[a][b]);
        }
    else
        for (long i = 0; i < reps; i++) sink = jobs[a].run(&loads[b], &works[a][b]);
}
static void count(size_t a, size_t b) {
    long reps = loads[b].len < 100 ? 50 : loads[b].len < 100000 ? 4 : 1;
    if (edits(&jobs[a])) { /* without what undoes it */
        reps = 1;
        count_begin();
        sink = jobs[a].run(&loads[b], &works[a][b]);
        count_end();
    } else {
        repeat(a, b, 1);
        count_begin();
        repeat(a, b, reps);
        count_end();
    }
    printf("%s/%s/%s %ld\n", KIND[jobs[a].kind], jobs[a].name, loads[b].name, reps);
}
static double sample(size_t a, size_t b, long reps) {
    struct timespec from, to;
    clock_gettime(CLOCK_MONOTONIC, &from);
    repeat(a, b, reps);
    clock_gettime(CLOCK_MONOTONIC, &to);
    return ((to.tv_sec - from.tv_sec) * 1e9 + to.tv_nsec - from.tv_nsec) / reps;
}
static int by_size(const void *a, const void *b) {
    double x = *(const double *)a, y = *(const double *)b;
    return (x > y) - (x < y);
}
/* Rounds over all jobs of a load, so that a busy moment falls on all alike; samples of 1.5 ms. */
static void time_load(size_t b, int rounds) {
    static double got[MAX_JOBS][MAX_ROUNDS];
    long reps[MAX_JOBS], first = loads[b].len < 100000 && !loads[b].copy ? 20 : 2;
    for (size_t a = 0; a < job_count; a++)
        if (active[a][b]) sample(a, b, first), reps[a] = 1.5e6 / (sample(a, b, first) + 0.5) + 1;
    for (int r = 0; r < rounds; r++)
        for (size_t a = 0; a < job_count; a++)
            if (active[a][b]) got[a][r] = sample(a, b, reps[a]);
    for (size_t a = 0; a < job_count; a++) {
        if (!active[a][b]) continue;
        qsort(got[a], rounds, sizeof(double), by_size);
        printf("%s/%s/%s %.2f %.2f\n", KIND[jobs[a].kind], jobs[a].name, loads[b].name, got[a][0],
               got[a][rounds / 2]);
    }
}

static int wanted(const char *name, int argc, char **argv) {
    for (int i = 2; i < argc; i++)
        if (!strcmp(argv[i], name)) return 1;
    return argc <= 2;
}

int main(int argc, char **argv) {
    const char *what = argc > 1 ? argv[1] : "check";
    int rounds = getenv("ROUNDS") ? atoi(getenv("ROUNDS")) : 25;
    if (rounds > MAX_ROUNDS) rounds = MAX_ROUNDS;
    load_count = make_loads(loads);
    for (size_t b = 0; b < load_count; b++) {
        const Load *l = &loads[b];
        if (!wanted(l->name, argc, argv)) continue;
        if (!strcmp(what, "loads")) {
            printf("%s %zu %zu %zu\n", l->name, l->len, l->pb_len, l->all_fields);
            continue;
        }
        for (size_t a = 0; a < job_count; a++) check(a, b);
        for (size_t a = 0; a < job_count; a++)
            if (active[a][b] && edits(&jobs[a])) undo(&jobs[a], l, &works[a][b]);
        if (!strcmp(what, "time")) time_load(b, rounds);
        for (size_t a = 0; !strcmp(what, "count") && a < job_count; a++)
            if (active[a][b]) count(a, b);
        for (size_t a = 0; a < job_count; a++) release(&works[a][b]);
    }
    if (!strcmp(what, "check")) check_all_broken();
    if (!strcmp(what, "check")) fprintf(stderr, "bench: %zu jobs agree on %zu loads\n", job_count, load_count);
    return 0;
}
