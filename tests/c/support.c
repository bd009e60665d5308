/* See support.h. It includes the helpers too, so that they are linked from two files at once. */
#include "support.h"

#include <stdio.h>
#include <stdlib.h>

#include "label_book_util.h"

static size_t compared, differing, tests_failed;

void test(const char *what, void (*body)(void)) {
    compared = 0;
    differing = 0;
    body();
    if (compared == 0) printf("FAILED: %s: nothing was compared\n", what);
    if (differing != 0) printf("FAILED: %s: %zu of %zu differ\n", what, differing, compared);
    if (compared == 0 || differing != 0) tests_failed++;
    else printf("%s: %zu compared\n", what, compared);
    fflush(stdout);
}

int status(void) { return tests_failed == 0 ? 0 : 1; }

void same_number(const char *file, int line, const char *what, size_t got, size_t want) {
    compared++;
    if (got == want) return;
    differing++;
    printf("%s:%d: %s is %zu, not %zu\n", file, line, what, got, want);
}

static void print_bytes(const uint8_t *bytes, size_t len) {
    for (size_t i = 0; i < len; i++) printf(" %02X", (unsigned)bytes[i]);
}

void same_bytes(const char *file, int line, const char *what,
                const uint8_t *got, size_t len, const char *hex) {
    uint8_t want[512];
    size_t want_len = from_hex(hex, want, sizeof want);
    compared++;
    if (len == want_len && (len == 0 || memcmp(got, want, len) == 0)) return;
    differing++;
    printf("%s:%d: %s is", file, line, what);
    print_bytes(got, len);
    printf(", not");
    print_bytes(want, want_len);
    printf("\n");
}

void same_text(const char *file, int line, const char *what, const char *got, const char *want) {
    compared++;
    if (strcmp(got, want) == 0) return;
    differing++;
    printf("%s:%d: %s is \"%s\", not \"%s\"\n", file, line, what, got, want);
}

/* Ends the run where a test is written wrongly. */
static void stop(const char *why) {
    printf("FAILED: %s\n", why);
    exit(1);
}

size_t from_hex(const char *hex, uint8_t *to, size_t room) {
    size_t len = 0;
    while (*hex != '\0') {
        char *end;
        unsigned long byte = strtoul(hex, &end, 16);
        if (end == hex || byte > 0xFF || len == room) stop("bytes that are not written so");
        to[len++] = (uint8_t)byte;
        hex = end;
    }
    return len;
}

uint8_t *copy_of(const uint8_t *bytes, size_t len) {
    uint8_t *copy = (uint8_t *)malloc(len == 0 ? 1 : len);
    if (copy == NULL) stop("no memory");
    if (len > 0) memcpy(copy, bytes, len);
    return copy;
}

/* Ends the run where the set-up of a test is refused. */
static void must(uint8_t refusal) {
    if (refusal != LABEL_BOOK_OK) stop(label_book_refusal_text(refusal));
}

void bench_empty(struct bench *bench) {
    size_t entries, bytes;
    bench->now = 0;
    must(label_book_empty(bench->buffer[0], LABEL_BOOK_BOOK_MAX, &entries, &bytes));
}

void bench_set(struct bench *bench, const char *name, uint32_t score) {
    size_t entries, bytes;
    must(label_book_set(bench_book(bench), LABEL_BOOK_BOOK_MAX, NAME(name), score,
                        bench->buffer[1 - bench->now], LABEL_BOOK_BOOK_MAX, &entries, &bytes));
    bench->now = 1 - bench->now;
}

const uint8_t *bench_book(const struct bench *bench) { return bench->buffer[bench->now]; }

size_t bench_bytes(const struct bench *bench) {
    size_t entries, bytes;
    must(label_book_check(bench_book(bench), LABEL_BOOK_BOOK_MAX, &entries, &bytes));
    return bytes;
}

void bench_of_e(struct bench *bench) {
    bench_empty(bench);
    bench_set(bench, "rl", 12);
    bench_set(bench, "rc step", 9);
    bench_set(bench, "ac", 5);
    bench_set(bench, "rc", 9);
}

void bench_full(struct bench *bench) {
    char name[LABEL_BOOK_NAME_MAX + 1];
    bench_empty(bench);
    for (unsigned i = 0; i < LABEL_BOOK_ENTRIES_MAX; i++) {
        int len = snprintf(name, sizeof name, "%04u", i);
        memset(name + len, 'x', sizeof name - 1 - (size_t)len);
        name[sizeof name - 1] = '\0';
        bench_set(bench, name, i);
    }
}
