/*
 * Every call of label_book.h by its prototype, on the cases that document 01 shows on the bench (P1
 * to P10, entries E; the books in version 22) and on the ends of its limits, and on old books. What
 * the calls do on other inputs is tested in Rust; this is about the header.
 */
#include <stdio.h>

#include "support.h"

#define E_BOOK "22 00 00 00 2B 00 04 00 00 00 05 00 00 00 09 00 00 00 09 00 00 00 0C 00 03 " \
               "00 02 61 63 00 02 72 63 02 05 20 73 74 65 70 01 01 6C"
#define E_SHEET "11 00 00 00 28 00 04 02 61 63 00 00 00 05 02 72 63 00 00 00 09 " \
                "07 72 63 20 73 74 65 70 00 00 00 09 02 72 6C 00 00 00 0C"
#define E_TRIE "31 00 00 00 1C 00 04 51 0C 08 72 4A 07 61 63 01 6C 59 03 06 63 00 0D 20 73 74 65 70"
#define E_BYTES 43

/* E as a book of version 21, as document 01 prints it. */
#define E_OLD_BOOK \
    "21 00 00 00 2C 00 04 00 00 00 05 00 00 00 09 00 00 00 09 00 00 00 0C 00 1B 00 03 " \
    "02 61 63 00 02 72 63 02 05 20 73 74 65 70 01 01 6C"
#define E_OLD_BYTES 44

/* What a destination holds before a call. */
#define FILL 0xA5
#define FILL_7 "A5 A5 A5 A5 A5 A5 A5"

/* The out values. They are another number before each call, so that one that is not told shows. */
#define UNTOLD 0x5A5A5A5A
static size_t one, two, three;
static uint32_t told_score;

#define GIVES(call, number, first, second) \
    do { \
        one = UNTOLD, two = UNTOLD; \
        SAME(call, number); \
        SAME(one, first); \
        SAME(two, second); \
    } while (0)

#define GIVES_3(call, number, first, second, third) \
    do { \
        three = UNTOLD; \
        GIVES(call, number, first, second); \
        SAME(three, third); \
    } while (0)

static struct bench bench;
static uint8_t dst[LABEL_BOOK_PAGE_MAX];
static struct label_book_range ranges[LABEL_BOOK_COUNT_MAX + 1];

static const char x49[] = "xxxxxxxxxxxxxxxxxxxxxxxxxxxxxxxxxxxxxxxxxxxxxxxxx";
static const uint8_t no_book[] = {0x20, 0, 0, 0, 7, 0, 0};

/* So many letters x, at most 49. */
static const char *letters(size_t number) { return x49 + sizeof x49 - 1 - number; }

/* The bench's book, as a pointer and a length; the destination, each byte of it FILL. */
#define BOOK bench_book(&bench), (size_t)LABEL_BOOK_BOOK_MAX
static uint8_t *fresh(void) {
    memset(dst, FILL, sizeof dst);
    return dst;
}

static void the_empty_book(void) {
    GIVES(label_book_empty(fresh(), 7, &one, &two), LABEL_BOOK_OK, 0, LABEL_BOOK_FRONT);
    GIVES(label_book_empty(fresh(), 99, &one, &two), LABEL_BOOK_OK, 0, LABEL_BOOK_FRONT);
    SAME_BYTES(dst, 8, "22 00 00 00 07 00 00 A5");
    GIVES(label_book_empty(fresh(), 6, &one, &two), LABEL_BOOK_TOO_SHORT, 0, 0);
    SAME_BYTES(dst, 7, FILL_7);
}

static void a_book_by_sets(void) {
    bench_of_e(&bench);
    SAME_BYTES(bench_book(&bench), E_BYTES, E_BOOK);
    GIVES(label_book_set(BOOK, NAME("rc"), 9, fresh(), E_BYTES, &one, &two), LABEL_BOOK_OK, 4,
          E_BYTES);
    GIVES(label_book_set(BOOK, NAME("rc"), 9, fresh(), 99, &one, &two), LABEL_BOOK_OK, 4, E_BYTES);
    SAME_BYTES(dst, E_BYTES + 1, E_BOOK " A5");
    GIVES(label_book_set(BOOK, NAME("sw"), 0x01020304, fresh(), 51, &one, &two), LABEL_BOOK_OK, 5,
          51);
    SAME_BYTES(dst + 7 + 4 * 4, 4, "01 02 03 04");
}

static void refused_sets(void) {
    bench_of_e(&bench);
    GIVES(label_book_set(no_book, sizeof no_book, NAME("rc"), 9, fresh(), 99, &one, &two),
          LABEL_BOOK_NOT_LAID_OUT, 0, 0);
    GIVES(label_book_set(BOOK, NAME(letters(48)), 1, fresh(), 999, &one, &two), LABEL_BOOK_OK, 5,
          E_BYTES + 4 + 2 + LABEL_BOOK_NAME_MAX);
    GIVES(label_book_set(BOOK, NAME(letters(49)), 1, fresh(), 999, &one, &two),
          LABEL_BOOK_NOT_ALLOWED, 0, 0);
    GIVES(label_book_set(BOOK, NAME(""), 1, fresh(), 999, &one, &two), LABEL_BOOK_NOT_ALLOWED, 0,
          0);
    GIVES(label_book_set(BOOK, NAME("rc"), 1, fresh(), E_BYTES - 1, &one, &two),
          LABEL_BOOK_TOO_SHORT, 0, 0);
    SAME_BYTES(dst, 7, FILL_7);
}

/* µ and Ω in UTF-8, as a name has them. */
#define MICRO "\xC2\xB5"
#define OHM "\xCE\xA9"

static void names_with_signs(void) {
    static const char *const refused[] = {"\xC2", "\xB5", "\xCE", "\xA9", "10 \xC2", "\xC2\xA9",
                                          "\xCE\xB5", "\xC3\xB5", "\xC2" MICRO, MICRO "\xB5",
                                          "\x80", "\x81", "\xC2 ", "k\xE2\x84\xA6"};
    char name[64];
    bench_of_e(&bench);
    GIVES(label_book_set(BOOK, NAME("10 " MICRO "F"), 7, fresh(), 999, &one, &two), LABEL_BOOK_OK,
          5, E_BYTES + 4 + 2 + 6);
    SAME_BYTES(dst + 29, 8, "00 06 31 30 20 C2 B5 46");
    for (size_t i = 0; i < sizeof refused / sizeof refused[0]; i++) {
        GIVES(label_book_set(BOOK, NAME(refused[i]), 7, fresh(), 999, &one, &two),
              LABEL_BOOK_NOT_ALLOWED, 0, 0);
        GIVES(label_book_prefix_range(BOOK, NAME(refused[i]), &one, &two), LABEL_BOOK_NOT_ALLOWED,
              0, 0);
    }
    for (size_t letters_before = 45; letters_before <= 48; letters_before++) {
        snprintf(name, sizeof name, "%s" OHM, letters(letters_before));
        const uint8_t number = letters_before <= 46 ? LABEL_BOOK_OK : LABEL_BOOK_NOT_ALLOWED;
        SAME(label_book_set(BOOK, NAME(name), 7, fresh(), 999, &one, &two), number);
    }
    bench_set(&bench, "10 " MICRO "F", 7);
    bench_set(&bench, "4.7 k" OHM, 8);
    GIVES(label_book_prefix_range(BOOK, NAME("10 " MICRO), &one, &two), LABEL_BOOK_OK, 0, 1);
    GIVES(label_book_head(BOOK, 0, &one, &two), LABEL_BOOK_OK, 35, 6);
    GIVES(label_book_name_of(BOOK, NAME("4.7 k" OHM), fresh(), 12, &one, &two), LABEL_BOOK_OK, 1,
          12);
    SAME_BYTES(dst, 12, "07 34 2E 37 20 6B CE A9 00 00 00 08");
}

/* The book of P9's ten names. */
static void bench_of_ten(void) {
    char digit[2] = "1";
    bench_empty(&bench);
    for (; digit[0] <= '8'; digit[0]++) bench_set(&bench, digit, 1);
    bench_set(&bench, letters(47), 1);
    bench_set(&bench, letters(48), 1);
}

static void ten_names_and_nine(void) {
    bench_of_ten();
    SAME(bench_bytes(&bench), 125);
    GIVES(label_book_withdraw(BOOK, NAME("1"), fresh(), 130, &one, &two), LABEL_BOOK_OK, 9, 118);
    GIVES(label_book_withdraw(BOOK, NAME("1"), fresh(), 118, &one, &two), LABEL_BOOK_OK, 9, 118);
    SAME_BYTES(dst + 7 + 4 * 9 + 2, 7, "00 01 32 00 01 33 00");
    SAME_BYTES(dst + 118 - 3, 4, "2F 01 78 A5");
    GIVES(label_book_withdraw(BOOK, NAME("1"), fresh(), 117, &one, &two), LABEL_BOOK_TOO_SHORT, 0,
          0);
    SAME_BYTES(dst, 7, FILL_7);
    GIVES(label_book_head(BOOK, 0, &one, &two), LABEL_BOOK_OK, 51, 1);
    GIVES(label_book_head(BOOK, 1, &one, &two), LABEL_BOOK_NO_SUCH_PLACE, 0, 0);
}

/* Every name of the bench's book can be taken out into a buffer as long as the book, and into a
 * longer one; the new book is shorter by 6 bytes or more, and one byte less than it has gives 7. */
static void every_name_taken_out(void) {
    uint8_t answer[LABEL_BOOK_ENTRY_MAX];
    size_t entries, bytes, told;
    SAME(label_book_check(BOOK, &entries, &bytes), LABEL_BOOK_OK);
    for (size_t i = 0; i < entries; i++) {
        SAME(label_book_name_at(BOOK, i, answer, sizeof answer, &one, &told), LABEL_BOOK_OK);
        SAME(label_book_withdraw(BOOK, answer + 1, answer[0], fresh(), bytes + 1, &one, &two),
             LABEL_BOOK_OK);
        SAME(label_book_withdraw(BOOK, answer + 1, answer[0], fresh(), bytes, &one, &two),
             LABEL_BOOK_OK);
        SAME(one, entries - 1);
        SAME(two + 6 <= bytes, 1);
        SAME(dst[two], FILL);
        told = two;
        SAME(label_book_check(dst, told, &one, &two), LABEL_BOOK_OK);
        SAME(label_book_withdraw(BOOK, answer + 1, answer[0], dst, told - 1, &one, &two),
             LABEL_BOOK_TOO_SHORT);
    }
}

static void withdrawals_fit(void) {
    bench_of_e(&bench);
    every_name_taken_out();
    bench_of_ten();
    every_name_taken_out();
    bench_empty(&bench);
    bench_set(&bench, letters(48), 1);
    every_name_taken_out();
    for (size_t length = 47; length > 20; length--) bench_set(&bench, letters(length), 1);
    every_name_taken_out();
    bench_full(&bench);
    GIVES(label_book_withdraw(BOOK, NAME("0000xxxxxxxxxxxxxxxxxxxxxxxxxxxxxxxxxxxxxxxxxxxx"), dst,
                              bench_bytes(&bench), &one, &two),
          LABEL_BOOK_OK, 1023, bench_bytes(&bench) - 51);
}

static void withdrawals(void) {
    bench_of_e(&bench);
    bench_set(&bench, "sw", 7);
    GIVES(label_book_withdraw(BOOK, NAME("sw"), fresh(), 99, &one, &two), LABEL_BOOK_OK, 4,
          E_BYTES);
    SAME_BYTES(dst, E_BYTES + 1, E_BOOK " A5");
    GIVES(label_book_withdraw(BOOK, NAME("zz"), fresh(), 99, &one, &two), LABEL_BOOK_NOT_HELD, 0,
          0);
    GIVES(label_book_withdraw(BOOK, NAME("\x1F"), fresh(), 99, &one, &two), LABEL_BOOK_NOT_ALLOWED,
          0, 0);
    SAME_BYTES(dst, 7, FILL_7);
}

static void merges(void) {
    static struct bench course;
    bench_of_e(&bench);
    bench_empty(&course);
    bench_set(&course, "aa", 7);
    bench_set(&course, "rc", 1000);
    bench_set(&course, "sw", 2);
    GIVES(label_book_merge(BOOK, bench_book(&course), LABEL_BOOK_BOOK_MAX, fresh(), 58, &one, &two),
          LABEL_BOOK_OK, 6, 58);
    SAME_BYTES(dst + 7, 24, "00 00 00 07 00 00 00 05 00 00 00 09 00 00 00 09 00 00 00 0C "
                            "00 00 00 02");
    GIVES(label_book_merge(BOOK, bench_book(&course), LABEL_BOOK_BOOK_MAX, fresh(), 57, &one, &two),
          LABEL_BOOK_TOO_SHORT, 0, 0);
    GIVES(label_book_merge(BOOK, no_book, sizeof no_book, fresh(), 99, &one, &two),
          LABEL_BOOK_NOT_LAID_OUT, 0, 0);
    SAME_BYTES(dst, 7, FILL_7);
    GIVES(label_book_merge(BOOK, BOOK, fresh(), 99, &one, &two), LABEL_BOOK_OK, 4, E_BYTES);
    SAME_BYTES(dst, E_BYTES + 1, E_BOOK " A5");
}

static void the_check(void) {
    bench_of_e(&bench);
    GIVES(label_book_check(BOOK, &one, &two), LABEL_BOOK_OK, 4, E_BYTES);
    GIVES(label_book_check(bench_book(&bench), E_BYTES, &one, &two), LABEL_BOOK_OK, 4, E_BYTES);
    GIVES(label_book_check(bench_book(&bench), E_BYTES - 1, &one, &two), LABEL_BOOK_NOT_LAID_OUT, 0,
          0);
}

/* The number that finding returns, with its out values in one, two and three. */
static uint8_t find(const char *name) {
    told_score = UNTOLD;
    uint8_t number = label_book_find(BOOK, NAME(name), &one, &two, &told_score);
    three = told_score;
    return number;
}

static void finding(void) {
    bench_of_e(&bench);
    GIVES_3(find("rl"), LABEL_BOOK_OK, 1, 3, 12);
    GIVES_3(find("ac"), LABEL_BOOK_OK, 1, 0, 5);
    GIVES_3(find("r"), LABEL_BOOK_OK, 0, 0, 0);
    GIVES_3(find(letters(48)), LABEL_BOOK_OK, 0, 0, 0);
    GIVES_3(find(letters(49)), LABEL_BOOK_NOT_ALLOWED, 0, 0, 0);
}

static void answer_entries(void) {
    bench_of_e(&bench);
    GIVES(label_book_name_at(BOOK, 0, fresh(), 7, &one, &two), LABEL_BOOK_OK, 1, 7);
    GIVES(label_book_name_at(BOOK, 0, fresh(), 53, &one, &two), LABEL_BOOK_OK, 1, 7);
    SAME_BYTES(dst, 8, "02 61 63 00 00 00 05 A5");
    GIVES(label_book_name_at(BOOK, 4, fresh(), 53, &one, &two), LABEL_BOOK_NO_SUCH_PLACE, 0, 0);
    GIVES(label_book_name_at(BOOK, 0, fresh(), 6, &one, &two), LABEL_BOOK_TOO_SHORT, 0, 0);
    SAME_BYTES(dst, 7, FILL_7);
    GIVES(label_book_name_of(BOOK, NAME("rc step"), fresh(), 12, &one, &two), LABEL_BOOK_OK, 1, 12);
    GIVES(label_book_name_of(BOOK, NAME("rc step"), fresh(), 53, &one, &two), LABEL_BOOK_OK, 1, 12);
    SAME_BYTES(dst, 13, "07 72 63 20 73 74 65 70 00 00 00 09 A5");
    GIVES(label_book_name_of(BOOK, NAME("zz"), fresh(), 53, &one, &two), LABEL_BOOK_NOT_HELD, 0, 0);
    SAME_BYTES(dst, 7, FILL_7);
}

static void prefix_ranges(void) {
    bench_of_e(&bench);
    GIVES(label_book_prefix_range(BOOK, NAME("rc"), &one, &two), LABEL_BOOK_OK, 1, 2);
    GIVES(label_book_prefix_range(BOOK, NAME(""), &one, &two), LABEL_BOOK_OK, 0, 4);
    GIVES(label_book_prefix_range(BOOK, NAME("q"), &one, &two), LABEL_BOOK_OK, 0, 0);
    GIVES(label_book_prefix_range(BOOK, NAME("\x7F"), &one, &two), LABEL_BOOK_NOT_ALLOWED, 0, 0);
}

static void bucket_heads(void) {
    bench_of_e(&bench);
    GIVES(label_book_head(BOOK, 0, &one, &two), LABEL_BOOK_OK, 27, 2);
    SAME_BYTES(bench_book(&bench) + one, two, "61 63");
    GIVES(label_book_head(BOOK, 1, &one, &two), LABEL_BOOK_NO_SUCH_PLACE, 0, 0);
    GIVES(label_book_head(BOOK, (size_t)-1, &one, &two), LABEL_BOOK_NO_SUCH_PLACE, 0, 0);
    GIVES(label_book_head(bench_book(&bench), E_BYTES - 1, 1, &one, &two), LABEL_BOOK_NOT_LAID_OUT,
          0, 0);
    bench_empty(&bench);
    GIVES(label_book_head(BOOK, 0, &one, &two), LABEL_BOOK_NO_SUCH_PLACE, 0, 0);
    bench_full(&bench);
    GIVES(label_book_head(BOOK, 0, &one, &two), LABEL_BOOK_OK, 7 + 4 * 1024 + 2 * 64 + 2, 48);
    GIVES(label_book_head(BOOK, 1, &one, &two), LABEL_BOOK_NO_SUCH_PLACE, 0, 0);
}

static void sheets(void) {
    uint8_t sheet[64];
    size_t len = from_hex(E_SHEET, sheet, sizeof sheet);
    bench_of_e(&bench);
    GIVES(label_book_list(BOOK, fresh(), len, &one, &two), LABEL_BOOK_OK, 4, len);
    GIVES(label_book_list(BOOK, fresh(), 99, &one, &two), LABEL_BOOK_OK, 4, len);
    SAME_BYTES(dst, len + 1, E_SHEET " A5");
    GIVES(label_book_list(BOOK, fresh(), len - 1, &one, &two), LABEL_BOOK_TOO_SHORT, 0, 0);
    SAME_BYTES(dst, 7, FILL_7);
    GIVES(label_book_build(sheet, len, fresh(), E_BYTES, &one, &two), LABEL_BOOK_OK, 4, E_BYTES);
    GIVES(label_book_build(sheet, len, fresh(), 99, &one, &two), LABEL_BOOK_OK, 4, E_BYTES);
    SAME_BYTES(dst, E_BYTES + 1, E_BOOK " A5");
    GIVES(label_book_build(sheet, len, fresh(), E_BYTES - 1, &one, &two), LABEL_BOOK_TOO_SHORT, 0,
          0);
    sheet[7 + 1] = 'z'; /* "zc" before "rc" */
    GIVES(label_book_build(sheet, len, fresh(), 99, &one, &two), LABEL_BOOK_NOT_LAID_OUT, 0, 0);
    SAME_BYTES(dst, 7, FILL_7);
}

/* Writes the page of the bench's book, with so many bytes of room. */
static uint8_t write_page(size_t room) {
    return label_book_page(BOOK, fresh(), room, &one, &two);
}

/* The destination is this text, and behind it as before the call; no page has the byte FILL. */
static void page_is(const char *want) {
    static char text[LABEL_BOOK_PAGE_MAX + 1];
    size_t len = sizeof dst;
    while (len > 0 && dst[len - 1] == FILL) len--;
    memcpy(text, dst, len);
    text[len] = '\0';
    SAME(len, strlen(want));
    SAME_TEXT(text, want);
}

#define HEADING "NAME                               SCORE\n"
#define E_PAGE HEADING "rl                                    12\n" \
                       "rc                                     9\n" \
                       "rc step                                9\n" \
                       "ac                                     5\n"
#define E_PAGE_BYTES (5 * 41)

static void pages(void) {
    bench_empty(&bench);
    GIVES(write_page(41), LABEL_BOOK_OK, 0, 41);
    page_is(HEADING);
    GIVES(write_page(40), LABEL_BOOK_TOO_SHORT, 0, 0);
    page_is("");
    bench_of_e(&bench);
    GIVES(write_page(E_PAGE_BYTES), LABEL_BOOK_OK, 4, E_PAGE_BYTES);
    page_is(E_PAGE);
    GIVES(write_page(sizeof dst), LABEL_BOOK_OK, 4, E_PAGE_BYTES);
    page_is(E_PAGE);
    GIVES(write_page(E_PAGE_BYTES - 1), LABEL_BOOK_TOO_SHORT, 0, 0);
    GIVES(label_book_page(bench_book(&bench), E_BYTES - 1, dst, E_PAGE_BYTES, &one, &two),
          LABEL_BOOK_NOT_LAID_OUT, 0, 0);
    GIVES(label_book_page(no_book, sizeof no_book, dst, 0, &one, &two), LABEL_BOOK_NOT_LAID_OUT, 0,
          0);
    page_is("");
}

static void pages_of_long_names(void) {
    bench_empty(&bench);
    bench_set(&bench, letters(48), 4294967295);
    bench_set(&bench, letters(29), 10);
    bench_set(&bench, letters(28), 10);
    bench_set(&bench, "xxxxxxxxxxxxxxxxxxxxxxxxxxx" MICRO "F", 0); /* 27 letters in front */
    GIVES(write_page(8 * 41), LABEL_BOOK_OK, 4, 8 * 41);
    page_is(HEADING "xxxxxxxxxxxxxxxxxxxxxxxxxxxx  4294967295\n"
                    "xxxxxxxxxxxxxxxxxxxx                    \n"
                    "xxxxxxxxxxxxxxxxxxxxxxxxxxxx          10\n"
                    "xxxxxxxxxxxxxxxxxxxxxxxxxxxx          10\n"
                    "x                                       \n"
                    "xxxxxxxxxxxxxxxxxxxxxxxxxxx\xC2           0\n"
                    "\xB5" "F                                      \n");
    GIVES(write_page(8 * 41 - 1), LABEL_BOOK_TOO_SHORT, 0, 0);
    page_is("");
}

/* Completes from the bench's book, with just the room that k entries want. */
static uint8_t complete(const char *prefix, size_t k) {
    return label_book_complete(BOOK, NAME(prefix), k, fresh(), k * LABEL_BOOK_ENTRY_MAX, ranges, k,
                               &one, &two, &three);
}

static void completion_from_a_book(void) {
    bench_of_e(&bench);
    GIVES_3(complete("r", 2), LABEL_BOOK_OK, 2, 14, 2);
    SAME_BYTES(dst, 15, "02 72 6C 00 00 00 0C 02 72 63 00 00 00 09 A5");
    GIVES_3(complete("rc", 5), LABEL_BOOK_OK, 2, 19, 2);
    SAME_BYTES(dst, 20, "02 72 63 00 00 00 09 07 72 63 20 73 74 65 70 00 00 00 09 A5");
    GIVES_3(complete("q", 5), LABEL_BOOK_OK, 0, 0, 0);
    SAME_BYTES(dst, 7, FILL_7);
    bench_empty(&bench);
    bench_set(&bench, "a", 1);
    bench_set(&bench, "b", 9);
    bench_set(&bench, "c", 1);
    GIVES_3(complete("", 2), LABEL_BOOK_OK, 2, 12, 3);
    SAME_BYTES(dst, 12, "01 62 00 00 00 09 01 61 00 00 00 01");
}

static void refused_completions(void) {
    const size_t k = LABEL_BOOK_COUNT_MAX, room = k * LABEL_BOOK_ENTRY_MAX;
    bench_of_e(&bench);
    GIVES_3(complete("", k), LABEL_BOOK_OK, 4, 33, 4);
    GIVES_3(complete("", k + 1), LABEL_BOOK_COUNT_OUT_OF_RANGE, 0, 0, 0);
    GIVES_3(complete("", 0), LABEL_BOOK_COUNT_OUT_OF_RANGE, 0, 0, 0);
    GIVES_3(complete(letters(49), 1), LABEL_BOOK_NOT_ALLOWED, 0, 0, 0);
    GIVES_3(label_book_complete(BOOK, NAME(""), k, fresh(), room - 1, ranges, k, &one, &two,
                                &three), LABEL_BOOK_TOO_SHORT, 0, 0, 0);
    GIVES_3(label_book_complete(BOOK, NAME(""), k, fresh(), room, ranges, k - 1, &one, &two,
                                &three), LABEL_BOOK_TOO_SHORT, 0, 0, 0);
    GIVES_3(label_book_complete(BOOK, NAME(""), k + 1, fresh(), room, ranges, k, &one, &two,
                                &three), LABEL_BOOK_COUNT_OUT_OF_RANGE, 0, 0, 0);
    SAME_BYTES(dst, 7, FILL_7);
}

/* 19 names, scores 0 1 0 1 .. 0: each of the nine best leaves a part on both sides. */
static void the_most_looks(void) {
    char name[] = "a";
    SAME(LABEL_BOOK_COUNT_MAX, 9);
    bench_empty(&bench);
    for (uint32_t i = 0; i < 19; i++, name[0]++) bench_set(&bench, name, i % 2);
    for (size_t k = 1; k <= 9; k++) GIVES_3(complete("", k), LABEL_BOOK_OK, k, 6 * k, 2 * k - 1);
    SAME(three, 17);
    SAME_BYTES(dst + 48, 7, "01 72 00 00 00 01 A5");
    GIVES_3(complete("", 10), LABEL_BOOK_COUNT_OUT_OF_RANGE, 0, 0, 0);
}

/* Writes the trie of the bench's book, with so many bytes of room. */
static uint8_t write_trie(size_t room) {
    return label_book_write_trie(BOOK, fresh(), room, &one, &two);
}

static void tries(void) {
    bench_empty(&bench);
    GIVES(write_trie(7), LABEL_BOOK_OK, 0, 7);
    SAME_BYTES(dst, 8, "31 00 00 00 07 00 00 A5");
    bench_set(&bench, letters(7), 5);
    GIVES(write_trie(99), LABEL_BOOK_OK, 1, 7 + 9); /* one node: header, score, 7 of label */
    bench_empty(&bench);
    bench_set(&bench, letters(8), 5);
    GIVES(write_trie(99), LABEL_BOOK_OK, 1, 7 + 10 + 2); /* two: with a child field; 2 more */
    bench_empty(&bench);
    bench_set(&bench, "abcdef" MICRO, 0); /* the label of 7 bytes ends inside the sign */
    GIVES(write_trie(99), LABEL_BOOK_OK, 1, 18);
    SAME_BYTES(dst, 18, "31 00 00 00 12 00 01 1F 09 61 62 63 64 65 66 C2 09 B5");
    bench_of_e(&bench);
    GIVES(write_trie(28), LABEL_BOOK_OK, 4, 28);
    GIVES(write_trie(99), LABEL_BOOK_OK, 4, 28);
    SAME_BYTES(dst, 29, E_TRIE " A5");
    GIVES(write_trie(27), LABEL_BOOK_TOO_SHORT, 0, 0);
    SAME_BYTES(dst, 7, FILL_7);
}

/* Completes from the trie of E, with so many bytes of room. */
static uint8_t complete_trie_in(size_t room, const char *prefix, size_t k) {
    uint8_t trie[28];
    size_t len = from_hex(E_TRIE, trie, sizeof trie);
    return label_book_complete_trie(trie, len, NAME(prefix), k, fresh(), room, &one, &two, &three);
}

/* The same with just the room that k entries want. */
static uint8_t complete_trie(const char *prefix, size_t k) {
    return complete_trie_in(k * LABEL_BOOK_ENTRY_MAX, prefix, k);
}

static void completion_from_a_trie(void) {
    const size_t most = LABEL_BOOK_COUNT_MAX, room = most * LABEL_BOOK_ENTRY_MAX;
    GIVES_3(complete_trie("r", 2), LABEL_BOOK_OK, 2, 14, 0);
    SAME_BYTES(dst, 15, "02 72 6C 00 00 00 0C 02 72 63 00 00 00 09 A5");
    GIVES_3(complete_trie("rc", 5), LABEL_BOOK_OK, 2, 19, 0);
    SAME_BYTES(dst, 20, "02 72 63 00 00 00 09 07 72 63 20 73 74 65 70 00 00 00 09 A5");
    GIVES_3(complete_trie("q", 5), LABEL_BOOK_OK, 0, 0, 0);
    GIVES_3(complete_trie("", most), LABEL_BOOK_OK, 4, 33, 0);
    GIVES_3(complete_trie("", most + 1), LABEL_BOOK_COUNT_OUT_OF_RANGE, 0, 0, 0);
    GIVES_3(complete_trie_in(room - 1, "", most), LABEL_BOOK_TOO_SHORT, 0, 0, 0);
    GIVES_3(complete_trie_in(room - 1, "", most + 1), LABEL_BOOK_COUNT_OUT_OF_RANGE, 0, 0, 0);
    GIVES_3(label_book_complete_trie(no_book, sizeof no_book, NAME(""), 1, fresh(), 53, &one, &two,
                                     &three), LABEL_BOOK_NOT_LAID_OUT, 0, 0, 0);
    SAME_BYTES(dst, 7, FILL_7);
}

/* A key gives a number and rows, and leaves so many bytes typed and this highlight. */
static void key_gives(struct label_book_panel *panel, int key, uint8_t number, size_t rows,
                      size_t len, size_t highlight) {
    one = UNTOLD;
    SAME(label_book_press(BOOK, panel, (uint8_t)key, &one), number);
    SAME(one, rows);
    SAME(panel->len, len);
    SAME(panel->highlight, highlight);
}

/* The panel holds just this name, with zeros behind it. */
static void holds(const struct label_book_panel *panel, const char *name) {
    uint8_t held[LABEL_BOOK_NAME_MAX] = {0};
    memcpy(held, name, strlen(name));
    SAME(panel->held_len, strlen(name));
    SAME(memcmp(panel->held, held, sizeof held) == 0, 1);
}

static void keys(void) {
    struct label_book_panel panel;
    memset(&panel, 0, sizeof panel);
    bench_of_e(&bench);
    key_gives(&panel, LABEL_BOOK_KEY_RECOUNT, LABEL_BOOK_OK, 4, 0, 0);
    holds(&panel, "rl");
    key_gives(&panel, 'r', LABEL_BOOK_OK, 3, 1, 0);
    SAME(panel.rows, 3);
    key_gives(&panel, LABEL_BOOK_KEY_UP, LABEL_BOOK_OK, 3, 1, 0);
    key_gives(&panel, LABEL_BOOK_KEY_DOWN, LABEL_BOOK_OK, 3, 1, 1);
    holds(&panel, "rc");
    key_gives(&panel, LABEL_BOOK_KEY_TAKE, LABEL_BOOK_OK, 2, 2, 0);
    SAME_BYTES(panel.text, 3, "72 63 00");
    holds(&panel, "rc");
    key_gives(&panel, ' ', LABEL_BOOK_OK, 1, 3, 0);
    holds(&panel, "rc step");
    key_gives(&panel, LABEL_BOOK_KEY_ERASE, LABEL_BOOK_OK, 2, 2, 0);
    holds(&panel, "rc");
    key_gives(&panel, LABEL_BOOK_KEY_ERASE, LABEL_BOOK_OK, 3, 1, 0);
    SAME_BYTES(panel.text, 2, "72 00");
    holds(&panel, "rl");
    key_gives(&panel, 0x7F, LABEL_BOOK_NO_SUCH_KEY, 0, 1, 0);
    key_gives(&panel, 'x', LABEL_BOOK_OK, 0, 2, 0);
    holds(&panel, "");
}

static void keys_of_signs(void) {
    struct label_book_panel panel;
    memset(&panel, 0, sizeof panel);
    bench_empty(&bench);
    bench_set(&bench, MICRO "A", 7);
    bench_set(&bench, "4.7 k" OHM, 9);
    key_gives(&panel, LABEL_BOOK_KEY_MICRO, LABEL_BOOK_OK, 1, 2, 0);
    SAME_BYTES(panel.text, 3, "C2 B5 00");
    holds(&panel, MICRO "A");
    key_gives(&panel, LABEL_BOOK_KEY_OHM, LABEL_BOOK_OK, 0, 4, 0);
    SAME_BYTES(panel.text, 5, "C2 B5 CE A9 00");
    key_gives(&panel, LABEL_BOOK_KEY_ERASE, LABEL_BOOK_OK, 1, 2, 0);
    SAME_BYTES(panel.text, 4, "C2 B5 00 00");
    key_gives(&panel, LABEL_BOOK_KEY_ERASE, LABEL_BOOK_OK, 2, 0, 0);
    holds(&panel, "4.7 k" OHM);
    key_gives(&panel, LABEL_BOOK_KEY_TAKE, LABEL_BOOK_OK, 1, 7, 0);
    key_gives(&panel, LABEL_BOOK_KEY_ERASE, LABEL_BOOK_OK, 1, 5, 0);
    key_gives(&panel, LABEL_BOOK_KEY_OHM, LABEL_BOOK_OK, 1, 7, 0);
    holds(&panel, "4.7 k" OHM);
    for (int key = 0x7F; key <= 0xFF; key++)
        if (key != LABEL_BOOK_KEY_MICRO && key != LABEL_BOOK_KEY_OHM)
            key_gives(&panel, key, LABEL_BOOK_NO_SUCH_KEY, 0, 7, 0);
    memset(panel.text, 'x', sizeof panel.text);
    for (panel.len = 47; panel.len <= 48; panel.len++) {
        key_gives(&panel, LABEL_BOOK_KEY_MICRO, LABEL_BOOK_TEXT_FULL, 0, panel.len, 0);
        key_gives(&panel, LABEL_BOOK_KEY_OHM, LABEL_BOOK_TEXT_FULL, 0, panel.len, 0);
    }
    panel.len = 46;
    key_gives(&panel, LABEL_BOOK_KEY_OHM, LABEL_BOOK_OK, 0, 48, 0);
    SAME_BYTES(panel.text + 45, 3, "78 CE A9");
    panel.len = 47; /* which ends in half a sign */
    key_gives(&panel, LABEL_BOOK_KEY_ERASE, LABEL_BOOK_NOT_ALLOWED, 0, 47, 0);
}

/* The highlight given in counts where no name is held, else the held name. */
static void highlights_given_in(void) {
    struct label_book_panel panel;
    memset(&panel, 0, sizeof panel);
    bench_of_e(&bench);
    panel.highlight = 99;
    key_gives(&panel, LABEL_BOOK_KEY_RECOUNT, LABEL_BOOK_OK, 4, 0, 3);
    holds(&panel, "ac");
    panel.highlight = 1;
    key_gives(&panel, LABEL_BOOK_KEY_RECOUNT, LABEL_BOOK_OK, 4, 0, 3);
    panel.highlight = 1;
    panel.held_len = 0;
    key_gives(&panel, LABEL_BOOK_KEY_RECOUNT, LABEL_BOOK_OK, 4, 0, 1);
    holds(&panel, "rc");
}

/* A panel on which "r" is typed and the highlight moved down to a row of those that E offers. */
static struct label_book_panel panel_on_row(size_t row) {
    struct label_book_panel panel;
    memset(&panel, 0, sizeof panel);
    bench_of_e(&bench);
    key_gives(&panel, 'r', LABEL_BOOK_OK, 3, 1, 0);
    for (size_t at = 1; at <= row; at++)
        key_gives(&panel, LABEL_BOOK_KEY_DOWN, LABEL_BOOK_OK, 3, 1, at);
    return panel;
}

/* Each key goes on from the row on which the held name now stands. */
static void a_name_that_moves(void) {
    struct label_book_panel panel = panel_on_row(1);
    bench_set(&bench, "rlc", 20);
    key_gives(&panel, LABEL_BOOK_KEY_RECOUNT, LABEL_BOOK_OK, 4, 1, 2);
    holds(&panel, "rc");
    bench_set(&bench, "rc", 30);
    key_gives(&panel, LABEL_BOOK_KEY_RECOUNT, LABEL_BOOK_OK, 4, 1, 0);
    holds(&panel, "rc");
    bench_set(&bench, "rx", 40);
    key_gives(&panel, LABEL_BOOK_KEY_DOWN, LABEL_BOOK_OK, 5, 1, 2);
    holds(&panel, "rlc");
    bench_set(&bench, "ry", 50);
    key_gives(&panel, LABEL_BOOK_KEY_UP, LABEL_BOOK_OK, 5, 1, 2);
    holds(&panel, "rc");
    bench_set(&bench, "rz", 60);
    key_gives(&panel, LABEL_BOOK_KEY_TAKE, LABEL_BOOK_OK, 2, 2, 0);
    SAME_BYTES(panel.text, 3, "72 63 00");
    holds(&panel, "rc");
}

/* On the row that it had, or on the last one. */
static void a_name_no_longer_offered(void) {
    struct label_book_panel panel = panel_on_row(2);
    holds(&panel, "rc step");
    bench_set(&bench, "rx", 20);
    bench_set(&bench, "ry", 20);
    bench_set(&bench, "rz", 20); /* "rc step" would be the sixth */
    key_gives(&panel, LABEL_BOOK_KEY_RECOUNT, LABEL_BOOK_OK, 5, 1, 2);
    holds(&panel, "rz");
    bench_empty(&bench);
    bench_set(&bench, "ra", 1);
    bench_set(&bench, "rb", 1);
    key_gives(&panel, LABEL_BOOK_KEY_RECOUNT, LABEL_BOOK_OK, 2, 1, 1);
    holds(&panel, "rb");
    bench_empty(&bench);
    key_gives(&panel, LABEL_BOOK_KEY_TAKE, LABEL_BOOK_OK, 0, 1, 0);
    holds(&panel, "");
}

/* A panel with this text and held name. Every other byte of it is FILL, which is not allowed. */
static struct label_book_panel panel_with(const char *text, const char *held) {
    struct label_book_panel panel;
    memset(&panel, FILL, sizeof panel);
    memcpy(panel.text, text, strlen(text));
    memcpy(panel.held, held, strlen(held));
    panel.len = strlen(text);
    panel.held_len = strlen(held);
    return panel;
}

static void bytes_behind_lengths(void) {
    struct label_book_panel panel = panel_with("r", "rc step");
    bench_of_e(&bench);
    key_gives(&panel, LABEL_BOOK_KEY_RECOUNT, LABEL_BOOK_OK, 3, 1, 2);
    holds(&panel, "rc step");
    SAME(panel.rows, 3);
    panel = panel_with("", "");
    key_gives(&panel, LABEL_BOOK_KEY_ERASE, LABEL_BOOK_OK, 4, 0, 3);
    SAME_BYTES(panel.text, 2, "00 00");
    holds(&panel, "ac");
    panel = panel_with("r", "ac"); /* which does not begin so */
    key_gives(&panel, LABEL_BOOK_KEY_UP, LABEL_BOOK_OK, 3, 1, 1);
    holds(&panel, "rc");
    panel = panel_with("q", letters(48));
    key_gives(&panel, LABEL_BOOK_KEY_TAKE, LABEL_BOOK_OK, 0, 1, 0);
    holds(&panel, "");
}

/* A key is refused with this number, and leaves every byte of the panel. */
static void key_refused(const uint8_t *book, size_t book_len, struct label_book_panel panel,
                        int key, uint8_t number) {
    const struct label_book_panel before = panel;
    one = UNTOLD;
    SAME(label_book_press(book, book_len, &panel, (uint8_t)key, &one), number);
    SAME(one, 0);
    SAME(memcmp(&panel, &before, sizeof panel) == 0, 1);
}

static void refused_held_names(void) {
    static const char *const refused[] = {"\x1F", "\x7F", "rc\x1F", "rc\x7F", "\xFFrc", "rc\xC2",
                                          "\xB5rc", "r\xCE\xB5"};
    struct label_book_panel panel = panel_with("r", "rc");
    bench_of_e(&bench);
    key_refused(BOOK, panel, 0x7F, LABEL_BOOK_NO_SUCH_KEY);
    key_refused(BOOK, panel_with(letters(48), "rc"), 'x', LABEL_BOOK_TEXT_FULL);
    key_refused(BOOK, panel_with("\x1F", "rc"), 'x', LABEL_BOOK_NOT_ALLOWED);
    memset(panel.held, 'x', sizeof panel.held);
    panel.held_len = LABEL_BOOK_NAME_MAX + 1;
    key_refused(BOOK, panel, LABEL_BOOK_KEY_RECOUNT, LABEL_BOOK_NOT_ALLOWED);
    panel.held_len = (size_t)-1;
    key_refused(BOOK, panel, LABEL_BOOK_KEY_RECOUNT, LABEL_BOOK_NOT_ALLOWED);
    for (size_t i = 0; i < sizeof refused / sizeof refused[0]; i++) {
        panel = panel_with("r", refused[i]);
        key_refused(BOOK, panel, LABEL_BOOK_KEY_RECOUNT, LABEL_BOOK_NOT_ALLOWED);
        key_refused(BOOK, panel, LABEL_BOOK_KEY_ERASE, LABEL_BOOK_NOT_ALLOWED);
        key_refused(BOOK, panel, 0x7F, LABEL_BOOK_NOT_ALLOWED);
        key_refused(BOOK, panel_with(letters(48), refused[i]), 'x', LABEL_BOOK_NOT_ALLOWED);
        key_refused(no_book, sizeof no_book, panel, 'x', LABEL_BOOK_NOT_LAID_OUT);
    }
}

static void refused_panels(void) {
    struct label_book_panel panel;
    memset(&panel, 0, sizeof panel);
    memset(panel.text, 'x', LABEL_BOOK_NAME_MAX);
    bench_of_e(&bench);
    panel.len = LABEL_BOOK_NAME_MAX - 1;
    key_gives(&panel, 'x', LABEL_BOOK_OK, 0, LABEL_BOOK_NAME_MAX, 0);
    key_gives(&panel, 'x', LABEL_BOOK_TEXT_FULL, 0, LABEL_BOOK_NAME_MAX, 0);
    panel.len = LABEL_BOOK_NAME_MAX + 1;
    key_gives(&panel, LABEL_BOOK_KEY_ERASE, LABEL_BOOK_NOT_ALLOWED, 0, LABEL_BOOK_NAME_MAX + 1, 0);
    SAME(label_book_press(no_book, sizeof no_book, &panel, 'x', &one), LABEL_BOOK_NOT_LAID_OUT);
}

static void five_rows(void) {
    struct label_book_panel panel;
    memset(&panel, 0, sizeof panel);
    bench_of_e(&bench);
    bench_set(&bench, "sw", 1);
    key_gives(&panel, LABEL_BOOK_KEY_RECOUNT, LABEL_BOOK_OK, LABEL_BOOK_PANEL_ROWS, 0, 0);
    bench_set(&bench, "tw", 1);
    key_gives(&panel, LABEL_BOOK_KEY_RECOUNT, LABEL_BOOK_OK, LABEL_BOOK_PANEL_ROWS, 0, 0);
}

/* E by four sets, with a withdrawal between them that is refused. */
#define FIRST_SET "00 00 00 00 05 00 02 61 63 "
#define SCRIPT FIRST_SET "00 00 00 00 09 00 02 72 63 01 00 00 00 00 00 02 7A 7A " \
               "00 00 00 00 09 00 07 72 63 20 73 74 65 70 00 00 00 00 0C 00 02 72 6C"
#define KEPT "00 00 01 00 00 00 11 00 00 02 00 00 00 19 04 00 00 00 00 00 00 " \
             "00 00 03 00 00 00 24 00 00 04 00 00 00 2B"

static void histories(void) {
    uint8_t script[64], first[64], second[64], out[64];
    size_t len = from_hex(SCRIPT, script, sizeof script);
    memset(out, FILL, sizeof out);
    GIVES(label_book_run(script, len, first, E_BYTES, second, E_BYTES, out, 35, &one, &two),
          LABEL_BOOK_OK, 5, 0);
    SAME_BYTES(first, E_BYTES, E_BOOK);
    SAME_BYTES(out, 36, KEPT " A5");
    GIVES(label_book_run(script, 9, first, 64, second, 64, out, 64, &one, &two), LABEL_BOOK_OK, 1,
          1);
    SAME_BYTES(second, 17, "22 00 00 00 11 00 01 00 00 00 05 00 00 00 02 61 63");
    SAME_BYTES(out, 36, KEPT " A5");
}

/* A run of the script cut to so many bytes, with buffers of these lengths, is refused and leaves
 * them as they were. */
static void refused_run(size_t len, size_t first_len, size_t second_len, size_t out_len,
                        uint8_t number) {
    uint8_t script[64], first[64], second[64], out[64];
    from_hex(SCRIPT, script, sizeof script);
    memset(first, FILL, sizeof first);
    memset(second, FILL, sizeof second);
    memset(out, FILL, sizeof out);
    GIVES(label_book_run(script, len, first, first_len, second, second_len, out, out_len, &one,
                         &two), number, 0, 0);
    SAME_BYTES(first, 7, FILL_7);
    SAME_BYTES(second, 7, FILL_7);
    SAME_BYTES(out, 7, FILL_7);
}

static void refused_runs(void) {
    uint8_t script[64];
    size_t len = from_hex(SCRIPT, script, sizeof script);
    refused_run(len - 1, 64, 64, 35, LABEL_BOOK_NOT_LAID_OUT);
    refused_run(len, 6, 6, 35, LABEL_BOOK_TOO_SHORT);
    refused_run(len, 64, 63, 35, LABEL_BOOK_TOO_SHORT);
    refused_run(len, 64, 64, 34, LABEL_BOOK_TOO_SHORT);
}

static void a_full_book(void) {
    static uint8_t other[LABEL_BOOK_BOOK_MAX];
    bench_full(&bench);
    SAME(bench_bytes(&bench) <= LABEL_BOOK_BOOK_MAX, 1);
    GIVES(label_book_set(BOOK, NAME("new"), 1, dst, sizeof dst, &one, &two), LABEL_BOOK_FULL, 0, 0);
    GIVES(label_book_name_at(BOOK, LABEL_BOOK_ENTRIES_MAX - 1, dst, LABEL_BOOK_ENTRY_MAX, &one,
                             &two), LABEL_BOOK_OK, 1, LABEL_BOOK_ENTRY_MAX);
    GIVES(label_book_list(BOOK, dst, LABEL_BOOK_SHEET_MAX, &one, &two), LABEL_BOOK_OK,
          LABEL_BOOK_ENTRIES_MAX, LABEL_BOOK_SHEET_MAX);
    SAME(label_book_write_trie(BOOK, dst, LABEL_BOOK_TRIE_MAX, &one, &two), LABEL_BOOK_OK);
    GIVES(write_page(LABEL_BOOK_PAGE_MAX), LABEL_BOOK_OK, LABEL_BOOK_ENTRIES_MAX,
          LABEL_BOOK_PAGE_MAX);
    GIVES(write_page(LABEL_BOOK_PAGE_MAX - 1), LABEL_BOOK_TOO_SHORT, 0, 0);
    memcpy(other, bench_book(&bench), sizeof other);
    bench_of_e(&bench);
    GIVES(label_book_merge(BOOK, other, sizeof other, dst, sizeof dst, &one, &two), LABEL_BOOK_FULL,
          0, 0);
}

/* What an empty vector of C++ lends: NULL, with length 0. */
static void null_with_length_0(void) {
    uint8_t first[7], second[7];
    bench_of_e(&bench);
    GIVES(label_book_check(NULL, 0, &one, &two), LABEL_BOOK_NOT_LAID_OUT, 0, 0);
    GIVES(label_book_empty(NULL, 0, &one, &two), LABEL_BOOK_TOO_SHORT, 0, 0);
    GIVES(label_book_prefix_range(BOOK, NULL, 0, &one, &two), LABEL_BOOK_OK, 0, 4);
    GIVES_3(label_book_complete(BOOK, NULL, 0, 1, fresh(), 53, ranges, 1, &one, &two, &three),
            LABEL_BOOK_OK, 1, 7, 1);
    GIVES_3(label_book_complete(BOOK, NULL, 0, 1, fresh(), 53, NULL, 0, &one, &two, &three),
            LABEL_BOOK_TOO_SHORT, 0, 0, 0);
    GIVES(label_book_run(NULL, 0, first, 7, second, 7, NULL, 0, &one, &two), LABEL_BOOK_OK, 0, 0);
    SAME_BYTES(first, 7, "22 00 00 00 07 00 00");
    GIVES(label_book_convert(NULL, 0, fresh(), 99, &one, &two), LABEL_BOOK_NOT_LAID_OUT, 0, 0);
    GIVES(label_book_convert(NULL, 0, NULL, 0, &one, &two), LABEL_BOOK_NOT_LAID_OUT, 0, 0);
    GIVES(label_book_convert(BOOK, NULL, 0, &one, &two), LABEL_BOOK_TOO_SHORT, 0, 0);
}

/* Every call that is given a book, but convert, refuses this one with a number, whatever else is
 * wrong too, and leaves the destination, the ranges and the panel as they were. */
static void every_call_refuses(const uint8_t *book, size_t len, uint8_t number) {
    static struct label_book_range before[LABEL_BOOK_COUNT_MAX + 1];
    memset(before, FILL, sizeof before);
    memset(ranges, FILL, sizeof ranges);
    bench_of_e(&bench);
    GIVES(label_book_set(book, len, NAME("rc"), 9, fresh(), 99, &one, &two), number, 0, 0);
    GIVES(label_book_set(book, len, NAME(""), 9, dst, 0, &one, &two), number, 0, 0);
    GIVES(label_book_withdraw(book, len, NAME("rc"), dst, 99, &one, &two), number, 0, 0);
    GIVES(label_book_withdraw(book, len, NAME("zz"), dst, 0, &one, &two), number, 0, 0);
    GIVES(label_book_merge(book, len, BOOK, dst, 99, &one, &two), number, 0, 0);
    GIVES(label_book_merge(BOOK, book, len, dst, 0, &one, &two), number, 0, 0);
    GIVES(label_book_merge(book, len, book, len, dst, 99, &one, &two), number, 0, 0);
    GIVES(label_book_check(book, len, &one, &two), number, 0, 0);
    told_score = UNTOLD;
    GIVES(label_book_find(book, len, NAME("rc"), &one, &two, &told_score), number, 0, 0);
    SAME(told_score, 0);
    GIVES(label_book_name_at(book, len, 0, dst, 99, &one, &two), number, 0, 0);
    GIVES(label_book_name_at(book, len, 4, dst, 0, &one, &two), number, 0, 0);
    GIVES(label_book_name_of(book, len, NAME("rc"), dst, 99, &one, &two), number, 0, 0);
    GIVES(label_book_name_of(book, len, NAME(""), dst, 0, &one, &two), number, 0, 0);
    GIVES(label_book_prefix_range(book, len, NAME("r"), &one, &two), number, 0, 0);
    GIVES(label_book_prefix_range(book, len, NAME("\x7F"), &one, &two), number, 0, 0);
    GIVES(label_book_head(book, len, 0, &one, &two), number, 0, 0);
    GIVES(label_book_head(book, len, 1, &one, &two), number, 0, 0);
    GIVES(label_book_list(book, len, dst, 99, &one, &two), number, 0, 0);
    GIVES(label_book_page(book, len, dst, 999, &one, &two), number, 0, 0);
    GIVES(label_book_write_trie(book, len, dst, 99, &one, &two), number, 0, 0);
    GIVES_3(label_book_complete(book, len, NAME("r"), 2, dst, 106, ranges, 2, &one, &two, &three),
            number, 0, 0, 0);
    GIVES_3(label_book_complete(book, len, NAME("\x7F"), 0, dst, 0, ranges, 0, &one, &two, &three),
            number, 0, 0, 0);
    SAME(memcmp(ranges, before, sizeof ranges) == 0, 1);
    SAME_BYTES(dst, 7, FILL_7);
    key_refused(book, len, panel_with("r", "rc"), LABEL_BOOK_KEY_DOWN, number);
    key_refused(book, len, panel_with("\x1F", "rc"), 0x7F, number);
    key_refused(book, len, panel_with(letters(48), "rc"), 'x', number);
}

/* Byte 0 decides, whatever follows and however long the buffer is. */
static void old_books(void) {
    uint8_t image[64], damaged[E_BYTES];
    size_t len = from_hex(E_OLD_BOOK, image, sizeof image);
    SAME(LABEL_BOOK_OLD_VERSION, 10);
    every_call_refuses(image, len, LABEL_BOOK_OLD_VERSION);
    every_call_refuses(image, sizeof image, LABEL_BOOK_OLD_VERSION);
    every_call_refuses(image, len - 1, LABEL_BOOK_OLD_VERSION);
    every_call_refuses(image, 7, LABEL_BOOK_OLD_VERSION);
    every_call_refuses(image, 1, LABEL_BOOK_OLD_VERSION);
    every_call_refuses(image, 0, LABEL_BOOK_NOT_LAID_OUT);
    every_call_refuses(NULL, 0, LABEL_BOOK_NOT_LAID_OUT);
    image[0] = 0x22; /* the old layout behind today's version */
    every_call_refuses(image, len, LABEL_BOOK_NOT_LAID_OUT);
    from_hex(E_BOOK, damaged, sizeof damaged);
    damaged[0] = 0x21; /* and the other way round */
    every_call_refuses(damaged, E_BYTES, LABEL_BOOK_OLD_VERSION);
    damaged[0] = 0x20;
    every_call_refuses(damaged, E_BYTES, LABEL_BOOK_NOT_LAID_OUT);
    damaged[0] = 0x23;
    every_call_refuses(damaged, E_BYTES, LABEL_BOOK_NOT_LAID_OUT);
}

/* Converts a book, with so many bytes of room. */
static uint8_t convert(const uint8_t *book, size_t len, size_t room) {
    return label_book_convert(book, len, fresh(), room, &one, &two);
}

/* P1 and P3, up and back, in exact room and in one byte less; with bytes behind the book. */
static void conversions(void) {
    static const uint8_t old_empty[] = {0x21, 0, 0, 0, 7, 0, 0};
    uint8_t old[64], book[64];
    from_hex(E_OLD_BOOK, old, sizeof old);
    from_hex(E_BOOK, book, sizeof book);
    GIVES(convert(old, E_OLD_BYTES, E_BYTES), LABEL_BOOK_OK, 4, E_BYTES);
    SAME_BYTES(dst, E_BYTES + 1, E_BOOK " A5");
    GIVES(convert(old, sizeof old, sizeof dst), LABEL_BOOK_OK, 4, E_BYTES);
    SAME_BYTES(dst, E_BYTES + 1, E_BOOK " A5");
    GIVES(convert(old, E_OLD_BYTES, E_BYTES - 1), LABEL_BOOK_TOO_SHORT, 0, 0);
    SAME_BYTES(dst, 7, FILL_7);
    GIVES(convert(book, E_BYTES, E_OLD_BYTES), LABEL_BOOK_OK, 4, E_OLD_BYTES);
    SAME_BYTES(dst, E_OLD_BYTES + 1, E_OLD_BOOK " A5");
    GIVES(convert(book, sizeof book, sizeof dst), LABEL_BOOK_OK, 4, E_OLD_BYTES);
    SAME_BYTES(dst, E_OLD_BYTES + 1, E_OLD_BOOK " A5");
    GIVES(convert(book, E_BYTES, E_OLD_BYTES - 1), LABEL_BOOK_TOO_SHORT, 0, 0);
    SAME_BYTES(dst, 7, FILL_7);
    GIVES(convert(old_empty, 7, 7), LABEL_BOOK_OK, 0, LABEL_BOOK_FRONT);
    SAME_BYTES(dst, 8, "22 00 00 00 07 00 00 A5");
    memcpy(book, dst, LABEL_BOOK_FRONT);
    GIVES(convert(book, 7, 7), LABEL_BOOK_OK, 0, LABEL_BOOK_FRONT);
    SAME_BYTES(dst, 8, "21 00 00 00 07 00 00 A5");
    GIVES(convert(old_empty, 7, 6), LABEL_BOOK_TOO_SHORT, 0, 0);
}

/* The bench's book goes back in so many bytes and no fewer, and comes up again as it was. */
static void there_and_again(size_t entries, size_t bytes) {
    static uint8_t old[LABEL_BOOK_BOOK_MAX];
    GIVES(convert(BOOK, bytes - 1), LABEL_BOOK_TOO_SHORT, 0, 0);
    GIVES(convert(BOOK, bytes), LABEL_BOOK_OK, entries, bytes);
    memcpy(old, dst, bytes);
    GIVES(label_book_check(old, bytes, &one, &two), LABEL_BOOK_OLD_VERSION, 0, 0);
    GIVES(convert(old, bytes, bench_bytes(&bench) - 1), LABEL_BOOK_TOO_SHORT, 0, 0);
    GIVES(convert(old, bytes, bench_bytes(&bench)), LABEL_BOOK_OK, entries, bench_bytes(&bench));
    SAME(memcmp(dst, bench_book(&bench), bench_bytes(&bench)) == 0, 1);
}

/* P9 and P10: with a second bucket, whose head stands in full. A full book: the header's size. */
static void conversions_of_many(void) {
    bench_of_ten();
    there_and_again(10, 127);
    GIVES(convert(BOOK, 127), LABEL_BOOK_OK, 10, 127);
    SAME_BYTES(dst + 7 + 4 * 10, 6, "00 35 00 4C 00 00");
    SAME(label_book_withdraw(BOOK, NAME("1"), bench.buffer[1 - bench.now], LABEL_BOOK_BOOK_MAX,
                             &one, &two), LABEL_BOOK_OK);
    bench.now = 1 - bench.now;
    there_and_again(9, 167);
    GIVES(convert(BOOK, 167), LABEL_BOOK_OK, 9, 167);
    SAME_BYTES(dst + 7 + 4 * 9, 6, "00 31 00 76 00 00");
    SAME_BYTES(dst + 167 - 50, 3, "78 30 78");
    bench_full(&bench);
    SAME(convert(BOOK, LABEL_BOOK_BOOK_MAX), LABEL_BOOK_OK);
    SAME_BYTES(dst + 7 + 4 * 1024, 2, "11 87"); /* the first bucket begins at byte 4,487 */
    there_and_again(LABEL_BOOK_ENTRIES_MAX, two);
}

/* By byte 0 alone: 1 where the rest is not laid out so, or byte 0 is neither, and never 10. */
static void refused_conversions(void) {
    uint8_t old[E_OLD_BYTES], book[E_BYTES];
    from_hex(E_OLD_BOOK, old, sizeof old);
    from_hex(E_BOOK, book, sizeof book);
    for (size_t cut = 0; cut < sizeof old; cut++)
        GIVES(convert(old, cut, 99), LABEL_BOOK_NOT_LAID_OUT, 0, 0);
    for (size_t cut = 0; cut < sizeof book; cut++)
        GIVES(convert(book, cut, 99), LABEL_BOOK_NOT_LAID_OUT, 0, 0);
    for (unsigned byte = 0; byte <= 0xFF; byte++) {
        old[0] = book[0] = (uint8_t)byte;
        if (byte != 0x21) GIVES(convert(old, sizeof old, 0), LABEL_BOOK_NOT_LAID_OUT, 0, 0);
        if (byte != 0x22) GIVES(convert(book, sizeof book, 0), LABEL_BOOK_NOT_LAID_OUT, 0, 0);
    }
    old[0] = 0x21;
    old[24]++; /* where the bucket begins */
    GIVES(convert(old, sizeof old, 99), LABEL_BOOK_NOT_LAID_OUT, 0, 0);
    old[24]--;
    old[26]--; /* the peak */
    GIVES(convert(old, sizeof old, 99), LABEL_BOOK_NOT_LAID_OUT, 0, 0);
    SAME_BYTES(dst, 7, FILL_7);
}

/* The old empty book beside one that is damaged: 10, whichever comes first. */
static void old_and_damaged_books(void) {
    static const uint8_t old[] = {0x21, 0, 0, 0, 7, 0, 0};
    GIVES(label_book_merge(old, sizeof old, no_book, sizeof no_book, fresh(), 99, &one, &two),
          LABEL_BOOK_OLD_VERSION, 0, 0);
    GIVES(label_book_merge(no_book, sizeof no_book, old, sizeof old, dst, 99, &one, &two),
          LABEL_BOOK_OLD_VERSION, 0, 0);
    GIVES(label_book_merge(old, 1, NULL, 0, dst, 99, &one, &two), LABEL_BOOK_OLD_VERSION, 0, 0);
    GIVES(label_book_merge(NULL, 0, old, 1, dst, 99, &one, &two), LABEL_BOOK_OLD_VERSION, 0, 0);
    GIVES(label_book_merge(NULL, 0, no_book, sizeof no_book, dst, 99, &one, &two),
          LABEL_BOOK_NOT_LAID_OUT, 0, 0);
    SAME_BYTES(dst, 7, FILL_7);
}

/* What is lent as a sheet, a trie or a script never gives 10. */
static void old_books_as_others(void) {
    uint8_t image[64], first[64], second[64], out[64];
    size_t len = from_hex(E_OLD_BOOK, image, sizeof image);
    for (size_t cut = 0; cut <= len; cut++) {
        GIVES(label_book_build(image, cut, fresh(), 99, &one, &two), LABEL_BOOK_NOT_LAID_OUT, 0, 0);
        GIVES_3(label_book_complete_trie(image, cut, NAME(""), 1, dst, 53, &one, &two, &three),
                LABEL_BOOK_NOT_LAID_OUT, 0, 0, 0);
    }
    GIVES(label_book_run(image, len, first, 64, second, 64, out, 64, &one, &two),
          LABEL_BOOK_NOT_LAID_OUT, 0, 0);
    SAME_BYTES(dst, 7, FILL_7);
}

/* Withdrawals from ten names, in buffers of just the bytes of the ten: none is refused with 7. */
static void histories_of_withdrawals(void) {
    static uint8_t script[512], first[125], second[125], out[512];
    size_t len = 0, calls = 0;
    bench_of_ten();
    for (uint8_t kind = 0; kind <= 1; kind++) {
        for (size_t i = 0; i < 10; i++, calls++) {
            uint8_t answer[LABEL_BOOK_ENTRY_MAX];
            SAME(label_book_name_at(BOOK, i, answer, sizeof answer, &one, &two), LABEL_BOOK_OK);
            const uint8_t head[] = {kind, 0, 0, 0, 1, 0, answer[0]};
            memcpy(script + len, head, sizeof head);
            memcpy(script + len + sizeof head, answer + 1, answer[0]);
            len += sizeof head + answer[0];
        }
    }
    GIVES(label_book_run(script, len, first, 125, second, 125, out, sizeof out, &one, &two),
          LABEL_BOOK_OK, calls, 0);
    for (size_t i = 0; i < calls; i++) {
        SAME(out[7 * i], LABEL_BOOK_OK);
        SAME(out[7 * i + 2], i < 10 ? i + 1 : 19 - i);
    }
    SAME(out[7 * 9 + 6], 125);
    SAME(out[7 * 10 + 6], 118);
    SAME_BYTES(first, 7, "22 00 00 00 07 00 00");
}

int main(void) {
    test("empty: P1", the_empty_book);
    test("set: P3, and its bytes where they were", a_book_by_sets);
    test("set: its refusals; 48 bytes of name and 49", refused_sets);
    test("set, prefix_range, name_of: names with signs, and with halves of them", names_with_signs);
    test("withdraw, head: P9 and P10, in 130 bytes, in 118 and in 117; bucket 1",
         ten_names_and_nine);
    test("withdraw: every name, into a buffer as long as the old book", withdrawals_fit);
    test("withdraw: the book from before the name; its refusals", withdrawals);
    test("merge: the first book's scores; its refusals", merges);
    test("check: entries and bytes, in a longer buffer and cut", the_check);
    test("find: held, absent, refused", finding);
    test("name_at, name_of: answer entries and refusals", answer_entries);
    test("prefix_range: some, all, none, refused", prefix_ranges);
    test("head: where the first name stands; any other bucket; no entries", bucket_heads);
    test("list, build: E as a sheet and back; refusals", sheets);
    test("page: the empty book and E; refusals", pages);
    test("page: names of 28, 29 and 48 bytes, a sign on two lines", pages_of_long_names);
    test("complete: P5 to P8", completion_from_a_book);
    test("complete: k 9 and 10, and its other refusals", refused_completions);
    test("complete: 17 looks, the most", the_most_looks);
    test("write_trie: P2, P4, lone names of 7 and 8 bytes, a label cut in a sign", tries);
    test("complete_trie: P5 to P7, k 9 and 10", completion_from_a_trie);
    test("press: every key, and the name that is then held", keys);
    test("press: the keys of signs, and erasing them; room for two bytes, one and none",
         keys_of_signs);
    test("press: a highlight given in, with and without a held name", highlights_given_in);
    test("press: the highlight stays on its name while the book is edited", a_name_that_moves);
    test("press: a held name that is no longer offered", a_name_no_longer_offered);
    test("press: bytes behind the lengths of the text and the held name", bytes_behind_lengths);
    test("press: its refusals", refused_panels);
    test("press: held names that are refused, and the panel as it was", refused_held_names);
    test("press: five rows of five names and of six", five_rows);
    test("run: E by a script with a refused call", histories);
    test("run: its refusals", refused_runs);
    test("run: withdrawals in buffers of just the bytes needed", histories_of_withdrawals);
    test("a full book, within the sizes of the header", a_full_book);
    test("NULL with length 0", null_with_length_0);
    test("convert: P1 and P3, up and back, in exact room and one byte less", conversions);
    test("convert: P9, P10 and a full book, back and up again", conversions_of_many);
    test("convert: its refusals, 1 and never 10", refused_conversions);
    test("old books: 10 before all, whole, cut, one byte; an empty buffer is 1", old_books);
    test("old books: merged with a damaged one, 10", old_and_damaged_books);
    test("old books: lent as a sheet, a trie or a script, 1", old_books_as_others);
    return status();
}
