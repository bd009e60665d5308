/*
 * label_book_util.h -- small helpers for programs that use label_book.h, for C99 and C++
 *
 * Entries out of answers and sheets, names as C strings, the words of a refusal, the rows of a
 * panel. Everything here is static inline and needs nothing to link but the library. It is NOT
 * proved: tests/c tries it, with hostile bytes too.
 */
#ifndef LABEL_BOOK_UTIL_H
#define LABEL_BOOK_UTIL_H

#include <string.h>

#include "label_book.h"

/* An entry. The name stands in the bytes that it was read from and is not zero-terminated. */
struct label_book_entry {
    const uint8_t *name;
    size_t name_len;
    uint32_t score;
};

/* Reads the answer entry that begins at `at` and gives where the next one begins; NULL, and the
 * entry as it was, where no whole entry with a name of 1 to LABEL_BOOK_NAME_MAX bytes stands before
 * `end`, so at the end of an answer too. Never reads at `end` or behind it. Over an answer of as
 * many bytes as the call told:
 *
 *     const uint8_t *at = answer, *end = answer + bytes;
 *     struct label_book_entry entry;
 *     while ((at = label_book_next_entry(at, end, &entry)) != NULL)
 *         printf("%.*s %u\n", (int)entry.name_len, (const char *)entry.name, entry.score);
 *
 * and over a sheet from at = sheet + LABEL_BOOK_FRONT on, with end = sheet + bytes. That names are
 * allowed, different and in order is not looked at: in a sheet from elsewhere label_book_build
 * does that. */
static inline const uint8_t *label_book_next_entry(const uint8_t *at, const uint8_t *end,
                                                   struct label_book_entry *entry) {
    const uint8_t length_bytes = 1, score_bytes = 4;
    if (at == NULL || at >= end) return NULL;
    const uint8_t name_len = at[0];
    if (name_len == 0 || name_len > LABEL_BOOK_NAME_MAX) return NULL;
    if (end - at < length_bytes + name_len + score_bytes) return NULL;
    const uint8_t *score = at + length_bytes + name_len;
    entry->name = at + length_bytes;
    entry->name_len = name_len;
    entry->score = 0;
    for (int i = 0; i < score_bytes; i++) entry->score = entry->score << 8 | score[i];
    return score + score_bytes;
}

/* Writes the name of an entry as a C string, with a zero at its end, and gives it. A name that the
 * library wrote holds no zero itself; a µ or Ω in it is UTF-8. */
static inline const char *label_book_name_text(const struct label_book_entry *entry,
                                               char text[LABEL_BOOK_NAME_MAX + 1]) {
    size_t len = entry->name_len;
    if (len > LABEL_BOOK_NAME_MAX) len = LABEL_BOOK_NAME_MAX;
    if (len > 0) memcpy(text, entry->name, len);
    text[len] = '\0';
    return text;
}

/* What the number that a call returned means, in words for a message. */
static inline const char *label_book_refusal_text(uint8_t number) {
    switch (number) {
    case LABEL_BOOK_OK:
        return "no refusal";
    case LABEL_BOOK_NOT_LAID_OUT:
        return "not laid out as a book, sheet, trie or script, or cut off";
    case LABEL_BOOK_NOT_ALLOWED:
        return "a name or prefix that is not allowed (a name has 1 to 48 bytes, "
               "each from 20 to 7E or in a whole µ or Ω)";
    case LABEL_BOOK_COUNT_OUT_OF_RANGE:
        return "the number of names asked for is not 1 to 9";
    case LABEL_BOOK_NOT_HELD:
        return "the book does not hold that name";
    case LABEL_BOOK_FULL:
        return "more than 1,024 names";
    case LABEL_BOOK_NO_SUCH_PLACE:
        return "the book has no such position or bucket";
    case LABEL_BOOK_TOO_SHORT:
        return "the destination is too short";
    case LABEL_BOOK_NO_SUCH_KEY:
        return "the panel has no such key";
    case LABEL_BOOK_TEXT_FULL:
        return "the panel's text is full";
    case LABEL_BOOK_OLD_VERSION:
        return "a book of the old version 21, which this version cannot read; "
               "the converter comes with the next one";
    default:
        return "no such refusal";
    }
}

/* The names that a panel offers for its text, the best first: row[0] to row[count - 1]. The rows
 * point into answer, so do not copy the struct: the copy's rows would point into the original. */
struct label_book_rows {
    uint8_t answer[LABEL_BOOK_PANEL_ROWS * LABEL_BOOK_ENTRY_MAX];
    struct label_book_entry row[LABEL_BOOK_PANEL_ROWS];
    size_t count;
};

/* Fills the rows of a panel from the book; the panel stays as it is. Returns 0 or, with no rows,
 * the refusal: 10 an old book; 1 the book; 2 the panel's len or text, as label_book_press says. The
 * held name is not read. Where the book may have changed since the last key, press
 * LABEL_BOOK_KEY_RECOUNT first: the panel's highlight is then one of these rows, that of its held
 * name. */
static inline uint8_t label_book_rows_of(const uint8_t *book, size_t book_len,
                                         const struct label_book_panel *panel,
                                         struct label_book_rows *rows) {
    struct label_book_range ranges[LABEL_BOOK_PANEL_ROWS];
    size_t offered, bytes, looks;
    rows->count = 0;
    if (panel->len > LABEL_BOOK_NAME_MAX) {
        /* The text cannot be lent with that length. A refused book still goes before it. */
        const uint8_t number = label_book_check(book, book_len, &offered, &bytes);
        return number == LABEL_BOOK_OK ? LABEL_BOOK_NOT_ALLOWED : number;
    }
    const uint8_t refusal = label_book_complete(
        book, book_len, panel->text, panel->len, LABEL_BOOK_PANEL_ROWS, rows->answer,
        sizeof rows->answer, ranges, LABEL_BOOK_PANEL_ROWS, &offered, &bytes, &looks);
    if (refusal != LABEL_BOOK_OK) return refusal;
    const uint8_t *at = rows->answer, *end = rows->answer + bytes;
    while (rows->count < offered &&
           (at = label_book_next_entry(at, end, &rows->row[rows->count])) != NULL)
        rows->count++;
    return LABEL_BOOK_OK;
}

#endif
