/* Prints the levels of each sounding of files: a line of hexadecimal is a frame. A value that is missing stays missing, and a frame
 * that is refused has a line too.
 *
 *   cc example.c $(pkg-config --cflags --libs capgauze) -o example
 *   ./example FILE..
 *
 * The status is 0 if all files were read, frames refused or not. */
#define _POSIX_C_SOURCE 200809L
#include <capgauze.h>
#include <inttypes.h>
#include <stdio.h>
#include <stdlib.h>

/* The value of a hexadecimal digit, or -1. */
static int digit(char c) {
    if (c >= '0' && c <= '9') return c - '0';
    if (c >= 'A' && c <= 'F') return c - 'A' + 10;
    if (c >= 'a' && c <= 'f') return c - 'a' + 10;
    return -1;
}

/* Puts the bytes of a line's digits in their place, at its front: how many they are, or -1 if it is not hexadecimal. */
static ptrdiff_t bytes_of(char *line, size_t length) {
    if (length % 2) return -1;
    for (size_t i = 0; i < length / 2; i++) {
        int high = digit(line[2 * i]), low = digit(line[2 * i + 1]);
        if (high < 0 || low < 0) return -1;
        line[i] = (char)(16 * high + low);
    }
    return (ptrdiff_t)(length / 2);
}

/* Tenths of a degree, where there is a number. */
static void print_tenths(const char *name, uint64_t there, int64_t tenths) {
    int64_t most = tenths < 0 ? -tenths : tenths;
    if (!there) printf(", %s missing", name);
    else printf(", %s %s%" PRId64 ".%" PRId64, name, tenths < 0 ? "-" : "", most / 10, most % 10);
}

static void print_sounding(size_t frame, const uint8_t *s, size_t length) {
    /* A level takes four bytes at least. One more, so that the pointer is good where there is none. */
    size_t words = CAPGAUZE_LEVEL_WORDS * (length / 4 + 1);
    uint64_t *levels = calloc(words, sizeof *levels);
    if (!levels) exit(2);
    capgauze_sounding sounding = capgauze_read_sounding(s, length, levels, words);
    if (sounding.number != CAPGAUZE_ACCEPTED)
        printf("frame %zu: refused, %s (%" PRIu64 ")\n", frame, capgauze_refusal_name(sounding.number), sounding.number);
    else
        printf("frame %zu: station %" PRIu64 ", launch %" PRIu64 ", levels %" PRIu64 "\n", frame, sounding.station, sounding.launch,
               sounding.levels);
    for (size_t i = 0; i < sounding.levels; i++) {
        const uint64_t *level = levels + CAPGAUZE_LEVEL_WORDS * i;
        printf("  %" PRIu64 " Pa", level[0]);
        print_tenths("temperature", level[1], capgauze_u64_to_signed(level[2]));
        print_tenths("depression", level[3], (int64_t)level[4]);
        printf("\n");
    }
    free(levels);
}

static int print_file(const char *path) {
    FILE *file = fopen(path, "r");
    if (!file) return perror(path), 1;
    char *line = NULL;
    size_t room = 0, frame = 0;
    for (ssize_t length; (length = getline(&line, &room, file)) >= 0;) {
        if (length > 0 && line[length - 1] == '\n') length--;
        ptrdiff_t bytes = bytes_of(line, (size_t)length);
        frame++;
        if (bytes < 0) printf("frame %zu: not hexadecimal\n", frame);
        else print_sounding(frame, (const uint8_t *)line, (size_t)bytes);
    }
    int failed = ferror(file);
    if (failed) perror(path);
    free(line);
    fclose(file);
    return failed;
}

int main(int count, char **names) {
    int failed = 0;
    if (count < 2) {
        fprintf(stderr, "usage: %s FILE.. (capgauze %s)\n", names[0], CAPGAUZE_VERSION);
        return 2;
    }
    for (int i = 1; i < count; i++) failed |= print_file(names[i]);
    return failed || fflush(stdout) ? 1 : 0;
}
