/*
 * What the tests in C share: comparisons that say where something differs, bytes written in
 * hexadecimal, and a bench of two buffers that holds a book.
 */
#ifndef SUPPORT_H
#define SUPPORT_H

#include <string.h>

#include "label_book.h"

#ifdef __cplusplus
extern "C" {
#endif

/* Runs one test and says in a line what it was and how much it compared. */
void test(const char *what, void (*body)(void));

/* What main returns: 0 if every comparison of every test held. */
int status(void);

/* Each counts one comparison, and says where and what if it does not hold. */
#define SAME(got, want) same_number(__FILE__, __LINE__, #got, (got), (want))
#define SAME_BYTES(got, len, hex) same_bytes(__FILE__, __LINE__, #got, (got), (len), (hex))
#define SAME_TEXT(got, want) same_text(__FILE__, __LINE__, #got, (got), (want))
void same_number(const char *file, int line, const char *what, size_t got, size_t want);
void same_bytes(const char *file, int line, const char *what,
                const uint8_t *got, size_t len, const char *hex);
void same_text(const char *file, int line, const char *what, const char *got, const char *want);

/* Writes the bytes of hexadecimal pairs with spaces between them, and gives their number. */
size_t from_hex(const char *hex, uint8_t *to, size_t room);

/* A copy of bytes in a block of just that size, so that a read behind them can be seen. */
uint8_t *copy_of(const uint8_t *bytes, size_t len);

/* The bytes of a C string, as the calls want a name; with strlen for the length. */
#define NAME(text) (const uint8_t *)(text), strlen(text)

/* Two buffers that change roles: buffer[now] holds the book. */
struct bench {
    uint8_t buffer[2][LABEL_BOOK_BOOK_MAX];
    int now;
};

/* The empty book; a name set in it, which must be accepted; where the book and its bytes are. */
void bench_empty(struct bench *bench);
void bench_set(struct bench *bench, const char *name, uint32_t score);
const uint8_t *bench_book(const struct bench *bench);
size_t bench_bytes(const struct bench *bench);

/* The book of document 01's entries E: ac 5, rc 9, rc step 9, rl 12. */
void bench_of_e(struct bench *bench);

/* A full book: 1,024 names of 48 bytes, scores 0 to 1,023. */
void bench_full(struct bench *bench);

#ifdef __cplusplus
}
#endif

#endif
