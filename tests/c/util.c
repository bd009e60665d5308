/*
 * The helpers of label_book_util.h, on what the calls write and on hostile bytes. Hostile bytes
 * stand in blocks of just their size, so that the address sanitizer sees a read behind them.
 */
#include "label_book_util.h"

#include <stdio.h>
#include <stdlib.h>

#include "support.h"

static struct bench bench;

/* rl 12, rc 9, rc step 9, and where each of them ends. */
#define ANSWER "02 72 6C 00 00 00 0C 02 72 63 00 00 00 09 07 72 63 20 73 74 65 70 00 00 00 09"
static const size_t ends[] = {0, 7, 14, 26};

static void same_entry(const struct label_book_entry *entry, const char *name, uint32_t score) {
    char text[LABEL_BOOK_NAME_MAX + 1];
    SAME_TEXT(label_book_name_text(entry, text), name);
    SAME(entry->name_len, strlen(name));
    SAME(entry->score, score);
}

static void entries_of_an_answer(void) {
    uint8_t answer[64];
    const uint8_t *at = answer, *end = answer + from_hex(ANSWER, answer, sizeof answer);
    struct label_book_entry entry = {NULL, 0, 0};
    at = label_book_next_entry(at, end, &entry);
    same_entry(&entry, "rl", 12);
    SAME(at == answer + ends[1], 1);
    at = label_book_next_entry(at, end, &entry);
    same_entry(&entry, "rc", 9);
    at = label_book_next_entry(at, end, &entry);
    same_entry(&entry, "rc step", 9);
    SAME(at == end, 1);
    SAME(label_book_next_entry(at, end, &entry) == NULL, 1);
    same_entry(&entry, "rc step", 9);
}

/* How many entries a block holds, each name inside it and of an allowed length. */
static size_t entries_in(const uint8_t *block, size_t len) {
    const uint8_t *at = block, *before = block, *end = block + len;
    struct label_book_entry entry;
    size_t count = 0;
    while ((at = label_book_next_entry(at, end, &entry)) != NULL) {
        SAME(entry.name == before + 1, 1);
        SAME(entry.name_len >= 1 && entry.name_len <= LABEL_BOOK_NAME_MAX, 1);
        SAME(at == entry.name + entry.name_len + 4 && at <= end, 1);
        before = at;
        count++;
    }
    return count;
}

static void cut_answers(void) {
    uint8_t answer[64];
    size_t len = from_hex(ANSWER, answer, sizeof answer), whole = 0;
    for (size_t cut = 0; cut <= len; cut++) {
        uint8_t *block = copy_of(answer, cut);
        if (whole < 3 && cut == ends[whole + 1]) whole++;
        SAME(entries_in(block, cut), whole);
        free(block);
    }
}

/* One entry of this length byte, with so many bytes behind it in all; how many are read of it. */
static size_t entries_of_length(uint8_t length, size_t behind) {
    uint8_t bytes[300];
    memset(bytes, 'x', sizeof bytes);
    bytes[0] = length;
    uint8_t *block = copy_of(bytes, 1 + behind);
    size_t count = 0;
    struct label_book_entry entry;
    if (label_book_next_entry(block, block + 1 + behind, &entry) != NULL) count = 1;
    free(block);
    return count;
}

static void lengths_of_names(void) {
    SAME(entries_of_length(0, 4), 0);
    SAME(entries_of_length(0, 99), 0);
    SAME(entries_of_length(1, 4), 0);
    SAME(entries_of_length(1, 5), 1);
    SAME(entries_of_length(48, 51), 0);
    SAME(entries_of_length(48, 52), 1);
    SAME(entries_of_length(49, 53), 0);
    SAME(entries_of_length(255, 0), 0);
    SAME(entries_of_length(255, 259), 0);
}

static void ends_before_entries(void) {
    uint8_t answer[64];
    from_hex(ANSWER, answer, sizeof answer);
    uint8_t *block = copy_of(answer, 7);
    struct label_book_entry entry = {answer, 1, 7};
    SAME(label_book_next_entry(NULL, NULL, &entry) == NULL, 1);
    SAME(label_book_next_entry(NULL, block + 7, &entry) == NULL, 1);
    SAME(label_book_next_entry(block + 7, block + 7, &entry) == NULL, 1);
    SAME(label_book_next_entry(block + 7, block, &entry) == NULL, 1);
    SAME(label_book_next_entry(block, block + 6, &entry) == NULL, 1);
    SAME(entry.name == answer && entry.name_len == 1 && entry.score == 7, 1);
    free(block);
}

/* The next of a fixed row of numbers, as good as drawn. */
static uint8_t drawn(uint32_t *state) {
    *state = *state * 1664525u + 1013904223u;
    return (uint8_t)(*state >> 24);
}

static void noise(void) {
    uint32_t state = 1;
    uint8_t bytes[255];
    size_t read = 0;
    for (int i = 0; i < 5000; i++) {
        size_t len = drawn(&state);
        for (size_t j = 0; j < len; j++) bytes[j] = drawn(&state) & (i % 2 == 0 ? 0xFF : 0x0F);
        uint8_t *block = copy_of(bytes, len);
        read += entries_in(block, len);
        free(block);
    }
    SAME(read > 5000, 1);
}

static void entries_of_a_sheet(void) {
    uint8_t sheet[64];
    size_t count, len;
    struct label_book_entry entry = {NULL, 0, 0};
    bench_of_e(&bench);
    SAME(label_book_list(bench_book(&bench), LABEL_BOOK_BOOK_MAX, sheet, sizeof sheet, &count,
                         &len), LABEL_BOOK_OK);
    SAME(entries_in(sheet + LABEL_BOOK_FRONT, len - LABEL_BOOK_FRONT), 4);
    SAME(label_book_next_entry(sheet + LABEL_BOOK_FRONT, sheet + len, &entry) != NULL, 1);
    same_entry(&entry, "ac", 5);
}

static void scores(void) {
    static const uint8_t answer[] = {1, 'x', 0xFF, 0xFE, 0x01, 0x02};
    struct label_book_entry entry = {NULL, 0, 0};
    SAME(label_book_next_entry(answer, answer + sizeof answer, &entry) != NULL, 1);
    same_entry(&entry, "x", 0xFFFE0102);
}

static void names_as_text(void) {
    uint8_t bytes[300];
    char text[LABEL_BOOK_NAME_MAX + 1];
    struct label_book_entry entry = {bytes, LABEL_BOOK_NAME_MAX, 0};
    memset(bytes, 'x', sizeof bytes);
    memset(text, '?', sizeof text);
    SAME(strlen(label_book_name_text(&entry, text)), LABEL_BOOK_NAME_MAX);
    entry.name_len = 2;
    SAME_TEXT(label_book_name_text(&entry, text), "xx");
    entry.name_len = sizeof bytes;
    SAME(strlen(label_book_name_text(&entry, text)), LABEL_BOOK_NAME_MAX);
    entry.name = NULL;
    entry.name_len = 0;
    SAME_TEXT(label_book_name_text(&entry, text), "");
}

static void words_of_refusals(void) {
    for (int number = 0; number <= 11; number++) {
        const char *words = label_book_refusal_text((uint8_t)number);
        SAME(strlen(words) > 0, 1);
        for (int other = 0; other < number; other++)
            SAME(strcmp(words, label_book_refusal_text((uint8_t)other)) != 0, 1);
    }
    SAME_TEXT(label_book_refusal_text(LABEL_BOOK_OK), "no refusal");
    SAME_TEXT(label_book_refusal_text(LABEL_BOOK_COUNT_OUT_OF_RANGE),
              "the number of names asked for is not 1 to 9");
    SAME_TEXT(label_book_refusal_text(LABEL_BOOK_NOT_HELD), "the book does not hold that name");
    SAME_TEXT(label_book_refusal_text(LABEL_BOOK_NOT_ALLOWED),
              "a name or prefix that is not allowed (a name has 1 to 48 bytes, "
              "each from 20 to 7E or in a whole \xC2\xB5 or \xCE\xA9)");
    SAME_TEXT(label_book_refusal_text(LABEL_BOOK_OLD_VERSION),
              "a book of the old version 21, which this version cannot read; "
              "the converter comes with the next one");
    SAME_TEXT(label_book_refusal_text(11), "no such refusal");
    SAME_TEXT(label_book_refusal_text(255), "no such refusal");
}

/* A panel with this text, which has so many bytes. */
static struct label_book_panel panel_of(const char *text, size_t len) {
    struct label_book_panel panel;
    memset(&panel, 0, sizeof panel);
    if (text[0] != '\0') memcpy(panel.text, text, strlen(text));
    panel.len = len;
    return panel;
}

static void rows_of_e(void) {
    struct label_book_panel panel = panel_of("r", 1);
    struct label_book_rows rows;
    memset(&rows, 0, sizeof rows);
    bench_of_e(&bench);
    SAME(label_book_rows_of(bench_book(&bench), bench_bytes(&bench), &panel, &rows), LABEL_BOOK_OK);
    SAME(rows.count, 3);
    same_entry(&rows.row[0], "rl", 12);
    same_entry(&rows.row[1], "rc", 9);
    same_entry(&rows.row[2], "rc step", 9);
    bench_set(&bench, "r\xC2\xB5", 1);
    panel = panel_of("r\xC2\xB5", 3);
    SAME(label_book_rows_of(bench_book(&bench), bench_bytes(&bench), &panel, &rows), LABEL_BOOK_OK);
    SAME(rows.count, 1);
    same_entry(&rows.row[0], "r\xC2\xB5", 1);
    panel = panel_of("q", 1);
    SAME(label_book_rows_of(bench_book(&bench), bench_bytes(&bench), &panel, &rows), LABEL_BOOK_OK);
    SAME(rows.count, 0);
}

/* After a key that only counts, the highlighted row is that of the held name. */
static void rows_of_an_edited_book(void) {
    struct label_book_panel panel = panel_of("r", 1);
    struct label_book_rows rows;
    size_t told;
    memset(&rows, 0, sizeof rows);
    bench_of_e(&bench);
    SAME(label_book_press(bench_book(&bench), bench_bytes(&bench), &panel, LABEL_BOOK_KEY_DOWN,
                          &told), LABEL_BOOK_OK);
    bench_set(&bench, "rlc", 20);
    SAME(label_book_press(bench_book(&bench), bench_bytes(&bench), &panel, LABEL_BOOK_KEY_RECOUNT,
                          &told), LABEL_BOOK_OK);
    SAME(label_book_rows_of(bench_book(&bench), bench_bytes(&bench), &panel, &rows), LABEL_BOOK_OK);
    SAME(rows.count, 4);
    same_entry(&rows.row[0], "rlc", 20);
    same_entry(&rows.row[panel.highlight], "rc", 9);
    SAME_BYTES(panel.held, panel.held_len, "72 63");
    panel.held_len = LABEL_BOOK_NAME_MAX + 1; /* which is not read for the rows */
    SAME(label_book_rows_of(bench_book(&bench), bench_bytes(&bench), &panel, &rows), LABEL_BOOK_OK);
    SAME(rows.count, 4);
}

static void rows_of_long_names(void) {
    struct label_book_panel panel = panel_of("", 0);
    struct label_book_rows rows;
    memset(&rows, 0, sizeof rows);
    bench_full(&bench);
    SAME(label_book_rows_of(bench_book(&bench), LABEL_BOOK_BOOK_MAX, &panel, &rows), LABEL_BOOK_OK);
    SAME(rows.count, LABEL_BOOK_PANEL_ROWS);
    SAME(rows.row[0].score, LABEL_BOOK_ENTRIES_MAX - 1);
    SAME(rows.row[4].score, LABEL_BOOK_ENTRIES_MAX - 5);
    SAME(rows.row[4].name_len, LABEL_BOOK_NAME_MAX);
    SAME(rows.row[4].name == rows.answer + 4 * LABEL_BOOK_ENTRY_MAX + 1, 1);
}

/* The rows' refusal is the one of a key that only counts, and there are no rows. */
static void refused_as_by_a_key(const uint8_t *book, size_t len, struct label_book_panel panel,
                                uint8_t refusal) {
    struct label_book_rows rows;
    size_t told;
    rows.count = 99;
    SAME(label_book_rows_of(book, len, &panel, &rows), refusal);
    SAME(rows.count, 0);
    SAME(label_book_press(book, len, &panel, LABEL_BOOK_KEY_RECOUNT, &told), refusal);
}

static void refused_rows(void) {
    bench_of_e(&bench);
    const uint8_t *book = bench_book(&bench);
    size_t len = bench_bytes(&bench);
    refused_as_by_a_key(book, len, panel_of("r", 49), LABEL_BOOK_NOT_ALLOWED);
    refused_as_by_a_key(book, len, panel_of("r", (size_t)-1), LABEL_BOOK_NOT_ALLOWED);
    refused_as_by_a_key(book, len, panel_of("r\x1F", 2), LABEL_BOOK_NOT_ALLOWED);
    refused_as_by_a_key(book, len, panel_of("r\xC2\xB5", 2), LABEL_BOOK_NOT_ALLOWED);
    refused_as_by_a_key(book, len - 1, panel_of("r", 1), LABEL_BOOK_NOT_LAID_OUT);
    refused_as_by_a_key(book, len - 1, panel_of("r", 49), LABEL_BOOK_NOT_LAID_OUT);
    refused_as_by_a_key(NULL, 0, panel_of("r", 1), LABEL_BOOK_NOT_LAID_OUT);
    static const uint8_t old[] = {0x21};
    refused_as_by_a_key(old, sizeof old, panel_of("r", 1), LABEL_BOOK_OLD_VERSION);
    refused_as_by_a_key(old, sizeof old, panel_of("r", 49), LABEL_BOOK_OLD_VERSION);
}

/* An old book, P3 as document 01 prints it, has no rows until it is converted. */
static void rows_of_an_old_book(void) {
    static uint8_t book[LABEL_BOOK_BOOK_MAX];
    uint8_t old[64];
    size_t len = from_hex("21 00 00 00 2C 00 04 00 00 00 05 00 00 00 09 00 00 00 09 00 00 00 0C "
                          "00 1B 00 03 02 61 63 00 02 72 63 02 05 20 73 74 65 70 01 01 6C",
                          old, sizeof old);
    struct label_book_panel panel = panel_of("r", 1);
    struct label_book_rows rows;
    size_t entries, bytes;
    memset(&rows, 0, sizeof rows);
    refused_as_by_a_key(old, len, panel, LABEL_BOOK_OLD_VERSION);
    SAME(label_book_convert(old, len, book, sizeof book, &entries, &bytes), LABEL_BOOK_OK);
    SAME(label_book_rows_of(book, bytes, &panel, &rows), LABEL_BOOK_OK);
    SAME(rows.count, 3);
    same_entry(&rows.row[0], "rl", 12);
    same_entry(&rows.row[2], "rc step", 9);
}

int main(void) {
    test("next_entry: the entries of an answer, and its end", entries_of_an_answer);
    test("next_entry: an answer cut at every byte", cut_answers);
    test("next_entry: names of 0, 1, 48, 49 and 255 bytes, whole and cut", lengths_of_names);
    test("next_entry: NULL, and ends that leave no entry", ends_before_entries);
    test("next_entry: 5,000 blocks of noise", noise);
    test("next_entry: the entries of a sheet", entries_of_a_sheet);
    test("next_entry: a score's four bytes, the highest first", scores);
    test("name_text: of 0, 2, 48 and too many bytes", names_as_text);
    test("refusal_text: different words for each number", words_of_refusals);
    test("rows_of: three rows and none", rows_of_e);
    test("rows_of: the highlighted row after an edit", rows_of_an_edited_book);
    test("rows_of: the five best of 1,024 long names", rows_of_long_names);
    test("rows_of: refused as a key is", refused_rows);
    test("rows_of: an old book, refused, and converted", rows_of_an_old_book);
    return status();
}
