/*
 * A term's first lesson: a teacher starts a book and edits it, a course's book is merged into it, a
 * student types the start of a name and takes one that is offered, also one with µ or Ω in it, the
 * teacher keeps the book as a sheet, prints its page for the wall and writes a trie of it, and a
 * bench with an old book comes in for service. Build and run it with examples/run-c;
 * examples/panel.rs is the same in Rust and prints the same, which is in examples/expected.
 */
#include <stdbool.h>
#include <stdio.h>
#include <stdlib.h>
#include <string.h>

#include "label_book.h"
#include "label_book_util.h"

/* Two buffers, each with room for every book, so that refusal 7 cannot happen. The book stands in
 * one of them; an edit reads it there and writes the new book into the other. */
struct bench {
    uint8_t buffer[2][LABEL_BOOK_BOOK_MAX];
    int now;
};

static const uint8_t *book(const struct bench *b) { return b->buffer[b->now]; }
static uint8_t *other(struct bench *b) { return b->buffer[1 - b->now]; }

/* A name as the calls want it: bytes and their number, without C's zero at the end. */
static const uint8_t *bytes_of(const char *name) { return (const uint8_t *)name; }

/* Ends the lesson where a call declines that has no reason to. */
static void must(uint8_t number, const char *call) {
    if (number == LABEL_BOOK_OK) return;
    const char *why = label_book_refusal_text(number);
    fprintf(stderr, "%s declined, %u: %s\n", call, (unsigned)number, why);
    exit(1);
}

/* Takes over what an edit did. After an accepted edit the buffers change roles; after a refusal
 * they stay, and so does the book. */
static void edited(struct bench *b, uint8_t number, size_t entries, size_t bytes) {
    if (number != LABEL_BOOK_OK) {
        printf("declined, %u: %s\n", (unsigned)number, label_book_refusal_text(number));
        return;
    }
    b->now = 1 - b->now;
    printf("%zu held, %zu bytes\n", entries, bytes);
}

static void set(struct bench *b, const char *name, uint32_t score) {
    size_t entries, bytes;
    printf("set \"%s\" to %u: ", name, (unsigned)score);
    uint8_t number = label_book_set(book(b), LABEL_BOOK_BOOK_MAX, bytes_of(name), strlen(name),
                                    score, other(b), LABEL_BOOK_BOOK_MAX, &entries, &bytes);
    edited(b, number, entries, bytes);
}

static void withdraw(struct bench *b, const char *name) {
    size_t entries, bytes;
    printf("withdraw \"%s\": ", name);
    uint8_t number = label_book_withdraw(book(b), LABEL_BOOK_BOOK_MAX, bytes_of(name), strlen(name),
                                         other(b), LABEL_BOOK_BOOK_MAX, &entries, &bytes);
    edited(b, number, entries, bytes);
}

/* One row: the name with its score, marked if it is the highlighted one. */
static void show(const struct label_book_entry *entry, bool highlighted) {
    char name[LABEL_BOOK_NAME_MAX + 1];
    printf("  %c %s  %u\n", highlighted ? '>' : ' ', label_book_name_text(entry, name),
           (unsigned)entry->score);
}

/* One key. After a refusal the panel is as it was, and the student goes on typing. */
static void press(const struct bench *b, struct label_book_panel *panel, uint8_t key) {
    size_t count;
    uint8_t number = label_book_press(book(b), LABEL_BOOK_BOOK_MAX, panel, key, &count);
    printf("key %02X: ", (unsigned)key);
    if (number != LABEL_BOOK_OK) {
        printf("declined, %u: %s\n", (unsigned)number, label_book_refusal_text(number));
        return;
    }
    printf("typed \"%.*s\", %zu offered\n", (int)panel->len, (const char *)panel->text, count);
    struct label_book_rows rows;
    must(label_book_rows_of(book(b), LABEL_BOOK_BOOK_MAX, panel, &rows), "label_book_rows_of");
    for (size_t row = 0; row < rows.count; row++) show(&rows.row[row], row == panel->highlight);
}

/* The teacher: a new book, four set-ups, a better score, and two slips that the book declines
 * without harm. */
static void edit(struct bench *b) {
    size_t entries, bytes;
    b->now = 0;
    must(label_book_empty(b->buffer[0], LABEL_BOOK_BOOK_MAX, &entries, &bytes), "label_book_empty");
    printf("a new book: %zu held, %zu bytes\n", entries, bytes);
    set(b, "ac", 5);
    set(b, "rc", 9);
    set(b, "rc step", 9);
    set(b, "rl", 12);
    set(b, "rc", 20);
    withdraw(b, "rlc");
    set(b, "", 7);
    withdraw(b, "ac");
}

/* A course's book joins the bench's own. Both have "rl": the bench's score counts. The course's
 * names come as a sheet. */
static void join(struct bench *b) {
    static const uint8_t sheet[] = "\x11\0\0\0\x1C\0\2"
                                   "\2rl\0\0\0\x63"
                                   "\x09rlc notch\0\0\0\x0F";
    uint8_t course[LABEL_BOOK_FRONT + 2 * LABEL_BOOK_ENTRY_MAX];
    size_t entries, bytes;
    must(label_book_build(sheet, sizeof sheet, course, sizeof course, &entries, &bytes),
         "label_book_build");
    printf("merge the course's %zu names: ", entries);
    uint8_t number = label_book_merge(book(b), LABEL_BOOK_BOOK_MAX, course, sizeof course, other(b),
                                      LABEL_BOOK_BOOK_MAX, &entries, &bytes);
    edited(b, number, entries, bytes);
}

/* The student: types a letter, moves down, slips once, and takes a name. Meanwhile the teacher
 * withdraws the highlighted one, so that the next is on its row, and adds one above: the highlight
 * stays on its name. */
static void type(struct bench *b) {
    struct label_book_panel panel = {0};
    press(b, &panel, 'r');
    press(b, &panel, LABEL_BOOK_KEY_DOWN);
    press(b, &panel, LABEL_BOOK_KEY_DOWN);
    press(b, &panel, 0x7F);
    withdraw(b, "rl");
    press(b, &panel, LABEL_BOOK_KEY_RECOUNT);
    set(b, "ramp", 30);
    press(b, &panel, LABEL_BOOK_KEY_RECOUNT);
    press(b, &panel, LABEL_BOOK_KEY_TAKE);
    size_t found, position;
    uint32_t score;
    must(label_book_find(book(b), LABEL_BOOK_BOOK_MAX, panel.text, panel.len, &found, &position,
                         &score),
         "label_book_find");
    if (found != 0)
        printf("loaded \"%.*s\" with score %u\n", (int)panel.len, (const char *)panel.text,
               (unsigned)score);
}

/* A panel on which this is typed already. It holds no name yet: the next key finds the row. */
static struct label_book_panel typed(const char *text) {
    struct label_book_panel panel = {0};
    panel.len = strlen(text);
    memcpy(panel.text, text, panel.len);
    return panel;
}

/* Names with µ and Ω, which have two bytes each in UTF-8, keys of their own on the panel, and are
 * erased whole. */
static void type_signs(struct bench *b) {
    set(b, "10 µF", 8);
    set(b, "4.7 kΩ", 6);
    struct label_book_panel panel = typed("10 ");
    press(b, &panel, LABEL_BOOK_KEY_MICRO);
    panel = typed("4.7 k");
    press(b, &panel, LABEL_BOOK_KEY_OHM);
    press(b, &panel, LABEL_BOOK_KEY_ERASE);
    press(b, &panel, LABEL_BOOK_KEY_TAKE);
}

/* The teacher again: the book as a plain sheet, and a book built from the sheet, which is the same
 * book byte for byte. */
static void keep(struct bench *b) {
    static uint8_t sheet[LABEL_BOOK_SHEET_MAX];
    size_t listed, sheet_bytes, built, book_bytes;
    must(label_book_list(book(b), LABEL_BOOK_BOOK_MAX, sheet, sizeof sheet, &listed, &sheet_bytes),
         "label_book_list");
    printf("the sheet: %zu bytes\n", sheet_bytes);
    must(label_book_build(sheet, sheet_bytes, other(b), LABEL_BOOK_BOOK_MAX, &built, &book_bytes),
         "label_book_build");
    bool same = memcmp(book(b), other(b), book_bytes) == 0;
    printf("built from the sheet: %zu held, %s\n", built, same ? "the same book" : "another book");
}

/* And the page for the laboratory's wall, which is text: the bytes are printed as they are. */
static void print_page(const struct bench *b) {
    static uint8_t page[LABEL_BOOK_PAGE_MAX];
    size_t entries, bytes;
    must(label_book_page(book(b), LABEL_BOOK_BOOK_MAX, page, sizeof page, &entries, &bytes),
         "label_book_page");
    printf("the page: %zu names, %zu bytes\n", entries, bytes);
    fwrite(page, 1, bytes, stdout);
}

/* A bench that only offers names can keep the trie alone: it completes as the book does. */
static void offer_from_trie(const struct bench *b) {
    static uint8_t trie[LABEL_BOOK_TRIE_MAX];
    uint8_t answer[2 * LABEL_BOOK_ENTRY_MAX];
    size_t entries, trie_bytes, offered, bytes, looks;
    must(label_book_write_trie(book(b), LABEL_BOOK_BOOK_MAX, trie, sizeof trie, &entries,
                               &trie_bytes),
         "label_book_write_trie");
    must(label_book_complete_trie(trie, trie_bytes, bytes_of("rc"), 2, 2, answer, sizeof answer,
                                  &offered, &bytes, &looks),
         "label_book_complete_trie");
    printf("the trie: %zu bytes; for \"rc\" it offers %zu\n", trie_bytes, offered);
    struct label_book_entry entry;
    const uint8_t *at = answer, *end = answer + bytes;
    while ((at = label_book_next_entry(at, end, &entry)) != NULL)
        show(&entry, entry.name == answer + 1);
}

/* A bench comes in for service with its book, perhaps an old one, as libraries before 1.6 wrote
 * them: that is converted. If its panel reads old books alone, it gets the book back as one. */
static void service(void) {
    static const uint8_t loaded[] = "\x21\0\0\0\x2C\0\4"
                                    "\0\0\0\5\0\0\0\x09\0\0\0\x09\0\0\0\x0C\0\x1B\0\3"
                                    "\2ac\0\2rc\2\5 step\1\1l";
    static uint8_t today[LABEL_BOOK_BOOK_MAX], old[LABEL_BOOK_BOOK_MAX];
    size_t entries, bytes;
    uint8_t number = label_book_check(loaded, sizeof loaded, &entries, &bytes);
    if (number != LABEL_BOOK_OLD_VERSION) {
        must(number, "label_book_check");
        return;
    }
    printf("declined, %u: %s\n", (unsigned)number, label_book_refusal_text(number));
    must(label_book_convert(loaded, sizeof loaded, today, sizeof today, &entries, &bytes),
         "label_book_convert");
    printf("converted: %zu held, %zu bytes\n", entries, bytes);
    must(label_book_convert(today, sizeof today, old, sizeof old, &entries, &bytes),
         "label_book_convert");
    bool same = memcmp(loaded, old, bytes) == 0;
    printf("and back: %zu bytes, %s\n", bytes, same ? "the same book" : "another book");
}

int main(void) {
    static struct bench bench;
    edit(&bench);
    join(&bench);
    type(&bench);
    type_signs(&bench);
    keep(&bench);
    print_page(&bench);
    offer_from_trie(&bench);
    service();
    return 0;
}
