/*
 * label_book.h -- the label book of a teaching oscilloscope bench, for C (C99 and later) and C++
 *
 * A student types the start of a set-up's name, the panel offers the best-scored names that begin
 * with it, the scope loads the one taken. Teachers add names, give them new scores and withdraw
 * them. All of it is kept as bytes in buffers that the program lends to the calls below.
 *
 *
 * Words
 *
 *   sign          one byte from 0x20 to 0x7E, or two bytes: µ, which is 0xC2 0xB5, or Ω, which is
 *                 0xCE 0xA9, both as in UTF-8. Half of one is no sign, and no other byte is: the
 *                 Greek small mu and the ohm sign of Unicode, which look alike, are other bytes.
 *   name          1 to 48 bytes of whole signs, given as a pointer and a length. NOT
 *                 zero-terminated, neither where a call reads a name nor where it writes one: the
 *                 length of a C string s is strlen(s), and printf shows a name by "%.*s". Lengths
 *                 count bytes everywhere: a name with µ has fewer columns on a screen than bytes.
 *   prefix        0 to 48 such bytes. A name begins itself; the empty prefix begins every name. The
 *                 front of a name that ends in half a sign is no prefix.
 *   score         a whole number from 0 to 4,294,967,295.
 *   entry         a name and its score.
 *   name order    byte order; a name that begins another comes before it. Positions count from 0
 *                 in name order.
 *   rank          the higher score first, at equal scores the earlier name.
 *   book          the image of at most 1,024 entries, no name twice, that most calls read and edits
 *                 write. Entries have exactly one such image, so equal books are equal bytes. Its
 *                 byte 0 is its version, 0x22.
 *   old book      a buffer whose byte 0 is 0x21, whatever follows: the version of books that
 *                 libraries before 1.6 read and write. It is refused with 10 by every call that is
 *                 given a book but label_book_convert, which writes it as a book of today, and a
 *                 book of today as an old one.
 *   sheet         the image that lists the same entries in plain, to exchange with other programs.
 *   trie          the image that holds the same entries as a tree, for completion without ranges.
 *                 It is written from a book and never edited: write it again after an edit.
 *   page          the text that shows the same entries in rank, for people: it is printed and put
 *                 on a wall, and no call reads it.
 *   answer entry  an entry as the calls write it: 1 byte of length, the name, 4 bytes of score,
 *                 big-endian, that is the highest byte first. It has 5 bytes more than its name.
 *
 * A sheet is laid out so, with big-endian numbers (docs/FORMAT.md has the book and the trie):
 *
 *   byte 0         0x11
 *   bytes 1 to 4   the length of the sheet in bytes, all of it
 *   bytes 5, 6     the number of entries
 *   from byte 7    the entries in strictly rising name order, each as an answer entry, no gaps
 *
 *
 * Buffers
 *
 * A buffer is a pointer and a length in bytes. An image stands at the front of its buffer; the
 * bytes behind it are neither read nor changed, so that a whole buffer can be lent, not only the
 * image in it. What an image needs at most is LABEL_BOOK_BOOK_MAX, LABEL_BOOK_SHEET_MAX and
 * LABEL_BOOK_TRIE_MAX bytes, and a page LABEL_BOOK_PAGE_MAX; label_book_check tells how many a book
 * has, those to save.
 *
 * Any bytes may be given as a source, such as a file that is no book: the call declines then.
 * A source is never changed, and two sources may be the same bytes. What a call may change, that
 * is a destination, the ranges, the panel and each out value, must overlap nothing else that is
 * lent to the same call. So at label_book_set, label_book_withdraw, label_book_merge and
 * label_book_convert the destination must not overlap the book: an edit in place destroys it. Keep
 * two buffers that change roles after each accepted edit:
 *
 *     static uint8_t buffer[2][LABEL_BOOK_BOOK_MAX];      // buffer[now] holds the book
 *     static int now;
 *     ...
 *     size_t entries, bytes;
 *     uint8_t refusal = label_book_set(buffer[now], LABEL_BOOK_BOOK_MAX, name, name_len, score,
 *                                      buffer[1 - now], LABEL_BOOK_BOOK_MAX, &entries, &bytes);
 *     if (refusal == LABEL_BOOK_OK)
 *         now = 1 - now;                                  // else the book is as and where it was
 *
 * NULL is fine for every source, destination and ranges whose length is 0, such as C++'s data() of
 * an empty vector. It is not fine for a panel or an out value: each out value needs a variable of
 * its own, also where its number is not wanted.
 *
 *
 * Answers and refusals
 *
 * Every call returns LABEL_BOOK_OK, which is 0, or the number of its refusal: of the causes that
 * apply the first in the order of this table, in which 10 comes before all others. Each call's
 * comment lists its causes in that order. A buffer lent as a sheet or trie never gives 10, and an
 * empty buffer lent as a book gives 1; label_book_convert never gives 10.
 *
 *  10  LABEL_BOOK_OLD_VERSION         an old book: its byte 0 is 0x21, even where it is damaged or
 *                                     cut off, and of two books either; convert it first, with
 *                                     label_book_convert
 *   1  LABEL_BOOK_NOT_LAID_OUT        a book, sheet, trie or script that is not laid out as such,
 *                                     or is cut off by its buffer
 *   2  LABEL_BOOK_NOT_ALLOWED         a name or prefix that is not allowed: too long, not of whole
 *                                     signs, or a name of no bytes; a panel whose length is over
 *                                     48, or whose text is not of whole signs; a panel whose held
 *                                     name is neither of length 0 nor a name that is allowed
 *   3  LABEL_BOOK_COUNT_OUT_OF_RANGE  a completion of 0 or more than LABEL_BOOK_COUNT_MAX entries
 *   4  LABEL_BOOK_NOT_HELD            withdraw, name_of: a name that the book does not hold
 *   5  LABEL_BOOK_FULL                set: a new name where 1,024 are held; merge: more than 1,024
 *                                     names in all
 *   6  LABEL_BOOK_NO_SUCH_PLACE       a position or bucket that the book does not have
 *   7  LABEL_BOOK_TOO_SHORT           a destination that is shorter than the bytes needed, fewer
 *                                     ranges than entries asked for, or the buffers of a run of
 *                                     two lengths
 *   8  LABEL_BOOK_NO_SUCH_KEY         a key that the panel does not have
 *   9  LABEL_BOOK_TEXT_FULL           a key that appends, where its sign does not fit into 48 bytes
 *
 * With a refusal every out value is 0 and no lent byte has changed, those of the ranges and of the
 * panel included. With 0 the out values are as said at each call, and a destination has changed
 * only where the answer was written, at its front (but for the two buffers of a run). Where a
 * comment says that a call tells something, it gives it through the out value of that name.
 *
 *
 * Threads, memory, linking
 *
 * The library has no state and keeps no pointer. Any calls may run at the same time, on the same
 * sources too, as long as their destinations, ranges, panels and out values are different ones and
 * nobody writes a source meanwhile. It allocates nothing, reads and writes no file, takes no lock
 * and leaves errno alone. Of the C library it needs memcpy, memmove and memset, nothing else.
 *
 * It is built for x86-64 alone, as an ELF archive with the System V calling convention (Linux).
 * `./build library` writes the archive, `./install PREFIX` puts it in place with the headers and a
 * pkg-config file. A program is compiled and linked, with no more of the archive than it uses, by
 * the first line in the project's folder, by the second where the library is installed:
 *
 *     cc -O2 -Iinclude panel.c target/staticlib/liblabel_book.a -Wl,--gc-sections -o panel
 *     cc -O2 panel.c $(pkg-config --cflags --libs label-book) -Wl,--gc-sections -o panel
 *
 * The most bytes of stack that each call was seen to take, on hostile input too (a book or trie of
 * any bytes), rounded up to a multiple of 64; tests/tests/stack.rs measures them. Where memcpy is
 * bound when it is first called (no -static, no -Wl,-z,now), that one call takes some 3 KB more:
 *
 *   label_book_empty               64
 *   label_book_set                768
 *   label_book_withdraw           768
 *   label_book_merge              768
 *   label_book_check              576
 *   label_book_find               640
 *   label_book_name_at            640
 *   label_book_name_of            704
 *   label_book_prefix_range       576
 *   label_book_head               576
 *   label_book_build              320
 *   label_book_list               704
 *   label_book_convert            704
 *   label_book_page             59648
 *   label_book_complete          1600
 *   label_book_write_trie      164416
 *   label_book_complete_trie    25920
 *   label_book_press             2240
 *   label_book_run                896
 *
 *
 * What is proved
 *
 * For calls that keep to "Buffers": that each call ends, and the numbers, out values and bytes said
 * here, are proved of the functions in crates/label_book_c/src/lib.rt (docs/CONTRACTS.txt has the
 * contracts); so is that no book is longer than LABEL_BOOK_BOOK_MAX, no sheet longer than
 * LABEL_BOOK_SHEET_MAX and no page longer than LABEL_BOOK_PAGE_MAX. For LABEL_BOOK_TRIE_MAX, which
 * is not proved, docs/FORMAT.md argues.
 *
 * That this file declares those functions as they are is not proved: .ci/c-names compares every
 * prototype, struct and constant of it with the sources, and tests/c calls all of them by it. NULL
 * with length 0 and the stack are tested, too, not proved.
 */
#ifndef LABEL_BOOK_H
#define LABEL_BOOK_H

#include <stddef.h>
#include <stdint.h>

#ifdef __cplusplus
extern "C" {
#endif

/* The version, as text and as a number to compare: 0xAABBCC is AA.BB.CC. In 1.2 the panel's struct
 * has grown: a program that has a panel must be compiled anew. Since 1.3 names may have µ and Ω; a
 * library before it declines an image with such a name. Since 1.4 LABEL_BOOK_COUNT_MAX is lower:
 * counts past it that were accepted before are refused with 3, and the buffers and ranges that a
 * program sizes by it shrink with it. A program that names it must be compiled anew. Since 1.6
 * books are of version 0x22: a book from a library before it is refused with 10, and such a library
 * declines a book from this one with 1. Of the buckets of names only bucket 0 is left. Since 1.7
 * label_book_convert writes a book of either of these versions as one of the other. */
#define LABEL_BOOK_VERSION "1.7.0"
#define LABEL_BOOK_VERSION_NUMBER 0x010700

/* The most there can be. */
#define LABEL_BOOK_NAME_MAX 48      /* bytes of a name or prefix */
#define LABEL_BOOK_ENTRIES_MAX 1024 /* entries of a book, sheet or trie */
#define LABEL_BOOK_COUNT_MAX 9      /* entries that a completion can be asked for */
#define LABEL_BOOK_PANEL_ROWS 5     /* names that a panel offers */

/* Bytes. A buffer of these is never too short. */
#define LABEL_BOOK_FRONT 7          /* before the entries of an image; all of the empty book */
#define LABEL_BOOK_ENTRY_MAX 53     /* an answer entry; a completion wants k of them */
#define LABEL_BOOK_BOOK_MAX 55559   /* a book, an old one too */
#define LABEL_BOOK_SHEET_MAX 54279  /* a sheet */
#define LABEL_BOOK_TRIE_MAX 70759   /* a trie */
#define LABEL_BOOK_PAGE_MAX 84009   /* a page */

/* What a call returns: see "Answers and refusals". */
#define LABEL_BOOK_OK 0
#define LABEL_BOOK_NOT_LAID_OUT 1
#define LABEL_BOOK_NOT_ALLOWED 2
#define LABEL_BOOK_COUNT_OUT_OF_RANGE 3
#define LABEL_BOOK_NOT_HELD 4
#define LABEL_BOOK_FULL 5
#define LABEL_BOOK_NO_SUCH_PLACE 6
#define LABEL_BOOK_TOO_SHORT 7
#define LABEL_BOOK_NO_SUCH_KEY 8
#define LABEL_BOOK_TEXT_FULL 9
#define LABEL_BOOK_OLD_VERSION 10

/* The keys of label_book_press besides 0x20 to 0x7E. A terminal sends other codes for some of them
 * (0x7F for erase, several bytes for an arrow, the two bytes of µ or of Ω): translate those. A byte
 * 0x80 or 0x81 that a terminal sends is none of these keys but a part of another sign, as of À. */
#define LABEL_BOOK_KEY_RECOUNT 0x00
#define LABEL_BOOK_KEY_UP 0x01
#define LABEL_BOOK_KEY_DOWN 0x02
#define LABEL_BOOK_KEY_ERASE 0x08
#define LABEL_BOOK_KEY_TAKE 0x0D
#define LABEL_BOOK_KEY_MICRO 0x80
#define LABEL_BOOK_KEY_OHM 0x81

/* An open range, in which completion from a book keeps where it looks on. The caller only lends the
 * room: what is in it before a call is not read, and after an answer it may be anything. */
struct label_book_range {
    size_t first, best;
    uint32_t score;
    size_t last;
};

/* What is typed, the first len bytes of text; the highlighted row, from 0, of the rows offered for
 * it; and the name on that row, the first held_len bytes of held, with held_len 0 if there are no
 * rows. Each key reads and updates it: by the held name it finds the highlighted row again where
 * the book was edited meanwhile. So who sets text or highlight without a key makes held_len 0.
 * Zeros are an empty panel: `= {0}` in C, `= {}` in C++. */
struct label_book_panel {
    uint8_t text[LABEL_BOOK_NAME_MAX];
    size_t len, highlight, rows;
    uint8_t held[LABEL_BOOK_NAME_MAX];
    size_t held_len;
};

/* The structs are laid out as the library has them: x86-64, where size_t has 8 bytes. */
#if defined(__cplusplus) && __cplusplus >= 201103L
#define LABEL_BOOK_ASSERT static_assert
#elif !defined(__cplusplus) && defined(__STDC_VERSION__) && __STDC_VERSION__ >= 201112L
#define LABEL_BOOK_ASSERT _Static_assert
#endif
#ifdef LABEL_BOOK_ASSERT
LABEL_BOOK_ASSERT(sizeof(size_t) == 8, "the label book is built for x86-64 alone");
LABEL_BOOK_ASSERT(sizeof(struct label_book_range) == 32, "a range has 32 bytes");
LABEL_BOOK_ASSERT(offsetof(struct label_book_range, last) == 24, "last stands at byte 24");
LABEL_BOOK_ASSERT(sizeof(struct label_book_panel) == 128, "a panel has 128 bytes");
LABEL_BOOK_ASSERT(offsetof(struct label_book_panel, len) == 48, "len stands at byte 48");
LABEL_BOOK_ASSERT(offsetof(struct label_book_panel, held) == 72, "held stands at byte 72");
LABEL_BOOK_ASSERT(offsetof(struct label_book_panel, held_len) == 120, "held_len is at byte 120");
#undef LABEL_BOOK_ASSERT
#endif


/*
 * Edits. Each reads the book in one buffer and writes the new one at the front of another, of which
 * all bytes are free for it; dst must not overlap the book (see "Buffers").
 */

/* Writes the book of no entries; tells 0 entries and LABEL_BOOK_FRONT bytes. Reads nothing.
 * Refusals: 7 dst has less than LABEL_BOOK_FRONT bytes. */
uint8_t label_book_empty(uint8_t *dst, size_t dst_len, size_t *entries, size_t *bytes);

/* Writes the book with the name added or, if it is held, given the new score, which may be the one
 * it has; tells the entries in it and its bytes. dst must not overlap the book.
 * Refusals: 10 an old book; 1 the book; 2 the name; 5 the name is new and LABEL_BOOK_ENTRIES_MAX
 * are held; 7 the new book is longer than dst. */
uint8_t label_book_set(const uint8_t *book, size_t book_len, const uint8_t *name, size_t name_len,
                       uint32_t score, uint8_t *dst, size_t dst_len,
                       size_t *entries, size_t *bytes);

/* Writes the book without the name; tells the entries in it and its bytes, which are fewer than
 * before: 7 is never the answer where dst has as many bytes as the old book, or more. dst must not
 * overlap the book.
 * Refusals: 10 an old book; 1 the book; 2 the name; 4 the name is not held; 7 the new book is
 * longer than dst. */
uint8_t label_book_withdraw(const uint8_t *book, size_t book_len,
                            const uint8_t *name, size_t name_len,
                            uint8_t *dst, size_t dst_len, size_t *entries, size_t *bytes);

/* Writes the book with every name of either book once; where both have it, the first book's score
 * counts, also where it is the lower one. Tells the entries in it and its bytes. dst must overlap
 * neither book; the two may be the same.
 * Refusals: 10 either is an old book, even where the other is damaged; 1 either book; 5 the two
 * have more than LABEL_BOOK_ENTRIES_MAX names between them, a shared one counted once; 7 the merged
 * book is longer than dst. */
uint8_t label_book_merge(const uint8_t *first, size_t first_len,
                         const uint8_t *second, size_t second_len,
                         uint8_t *dst, size_t dst_len, size_t *entries, size_t *bytes);


/*
 * Looking up. None of these changes the book.
 */

/* Checks a book, as every call that reads one does; for whoever has loaded one or wants to save it.
 * Tells the entries in it and its bytes, which are those to save.
 * Refusals: 10 an old book; 1 the buffer holds no book. */
uint8_t label_book_check(const uint8_t *book, size_t book_len, size_t *entries, size_t *bytes);

/* Tells whether the book holds the name, found 1 or 0, and its position and score, both 0 if not.
 * Refusals: 10 an old book; 1 the book; 2 the name. That a name is absent is none. */
uint8_t label_book_find(const uint8_t *book, size_t book_len, const uint8_t *name, size_t name_len,
                        size_t *found, size_t *position, uint32_t *score);

/* Writes the entry at a position as one answer entry; tells 1 entry and its bytes, at most
 * LABEL_BOOK_ENTRY_MAX.
 * Refusals: 10 an old book; 1 the book; 6 the position is the number of entries or more; 7 the
 * answer entry is longer than dst. */
uint8_t label_book_name_at(const uint8_t *book, size_t book_len, size_t position,
                           uint8_t *dst, size_t dst_len, size_t *entries, size_t *bytes);

/* Writes the given name with its score as one answer entry; tells 1 entry and its bytes.
 * Refusals: 10 an old book; 1 the book; 2 the name; 4 the name is not held; 7 the answer entry is
 * longer than dst. */
uint8_t label_book_name_of(const uint8_t *book, size_t book_len,
                           const uint8_t *name, size_t name_len,
                           uint8_t *dst, size_t dst_len, size_t *entries, size_t *bytes);

/* Tells the first position whose name the prefix begins, 0 if there is none, and the count of such
 * names, which follow each other.
 * Refusals: 10 an old book; 1 the book; 2 the prefix. */
uint8_t label_book_prefix_range(const uint8_t *book, size_t book_len,
                                const uint8_t *prefix, size_t prefix_len,
                                size_t *first, size_t *count);

/* A book's first name stands in it in full: it is the head name of bucket 0, the only bucket. Tells
 * where it stands: it is book[start] to book[start + length - 1], not copied. Up to 1.5 there was a
 * bucket for each 8 names.
 * Refusals: 10 an old book; 1 the book; 6 bucket is not 0, or the book has no entries. */
uint8_t label_book_head(const uint8_t *book, size_t book_len, size_t bucket,
                        size_t *start, size_t *length);


/*
 * Sheets. From sheet to book to sheet, and from book to sheet to book, the bytes are the same.
 */

/* Writes the book of a sheet's entries; tells them and its bytes.
 * Refusals: 1 the sheet; 7 the book is longer than dst. */
uint8_t label_book_build(const uint8_t *sheet, size_t sheet_len,
                         uint8_t *dst, size_t dst_len, size_t *entries, size_t *bytes);

/* Writes the sheet of a book's entries; tells them and its bytes.
 * Refusals: 10 an old book; 1 the book; 7 the sheet is longer than dst. */
uint8_t label_book_list(const uint8_t *book, size_t book_len,
                        uint8_t *dst, size_t dst_len, size_t *entries, size_t *bytes);


/*
 * Conversion, for benches that come in with old books and for panels that read nothing else.
 */

/* Writes a book of version 0x21 as one of 0x22, and a book of 0x22 as one of 0x21, of the same
 * entries; byte 0 alone says which it is. Tells the entries and the bytes of what it wrote. A book
 * that is converted and converted back has the same bytes again, and for every prefix the same
 * names are offered before and after. Going back may need more bytes than the book has;
 * LABEL_BOOK_BOOK_MAX are always enough, both ways. dst must not overlap the book. Where a book was
 * loaded:
 *
 *     uint8_t refusal = label_book_check(loaded, loaded_len, &entries, &bytes);
 *     if (refusal == LABEL_BOOK_OLD_VERSION)              // then converted into another buffer
 *         refusal = label_book_convert(loaded, loaded_len, buffer[now], LABEL_BOOK_BOOK_MAX,
 *                                      &entries, &bytes);
 *
 * Refusals: 1 byte 0 is neither, or the book is not laid out as its byte 0 says, a damaged old book
 * too; 7 the new book is longer than dst. */
uint8_t label_book_convert(const uint8_t *book, size_t book_len,
                           uint8_t *dst, size_t dst_len, size_t *entries, size_t *bytes);


/*
 * The page for the wall.
 */

/* Writes the page of a book's entries, as text: the heading line, then the lines of each entry, in
 * rank. Every line, the last one too, has 40 bytes and behind them a line feed, 0x0A:
 *
 *   the heading line       NAME at its left end, SCORE at its right end, spaces between them
 *   an entry's first line  28 bytes of name, padded with spaces; two spaces; the score in decimal,
 *                          at the right end of 10 bytes
 *   its further lines      where the name is longer: the next 28 bytes of it, padded with spaces;
 *                          12 spaces
 *
 * A column is one byte, so a µ or Ω may be split, its second byte on the next line. Tells the
 * entries and the bytes, 41 for each line; the page of an empty book is the heading line alone. It
 * is NOT zero-terminated: fwrite(dst, 1, bytes, stdout) prints it.
 * Refusals: 10 an old book; 1 the book; 7 the page is longer than dst. */
uint8_t label_book_page(const uint8_t *book, size_t book_len,
                        uint8_t *dst, size_t dst_len, size_t *entries, size_t *bytes);


/*
 * Completion. From a book and from its trie the same entries are offered, in the same bytes.
 */

/* Writes the best k of the entries that the prefix begins, in rank, or all if fewer, k from 1 to
 * LABEL_BOOK_COUNT_MAX, as answer entries one behind the other. Tells how many are offered, their
 * bytes, and the looks: how often the call looked for the best of a range, at most 2 * k - 1, so
 * never more than 17. Lent are at least k * LABEL_BOOK_ENTRY_MAX bytes, even if fewer would do, and
 * k ranges, counted as structs; after an answer anything may be in the ranges.
 * Refusals: 10 an old book; 1 the book; 2 the prefix; 3 k; 7 dst has less than
 * k * LABEL_BOOK_ENTRY_MAX bytes, or ranges_len is less than k. */
uint8_t label_book_complete(const uint8_t *book, size_t book_len,
                            const uint8_t *prefix, size_t prefix_len, size_t k,
                            uint8_t *dst, size_t dst_len,
                            struct label_book_range *ranges, size_t ranges_len,
                            size_t *offered, size_t *bytes, size_t *looks);

/* Writes the trie of a book's entries; tells them and its bytes. A trie may be longer than any
 * book.
 * Refusals: 10 an old book; 1 the book; 7 the trie is longer than dst. */
uint8_t label_book_write_trie(const uint8_t *book, size_t book_len,
                              uint8_t *dst, size_t dst_len, size_t *entries, size_t *bytes);

/* Completes from a trie as label_book_complete does from a book, with no ranges; tells 0 looks.
 * Refusals: 1 the trie; 2 the prefix; 3 k; 7 dst has less than k * LABEL_BOOK_ENTRY_MAX bytes. */
uint8_t label_book_complete_trie(const uint8_t *trie, size_t trie_len,
                                 const uint8_t *prefix, size_t prefix_len, size_t k,
                                 uint8_t *dst, size_t dst_len,
                                 size_t *offered, size_t *bytes, size_t *looks);


/*
 * The panel.
 */

/* One key, which changes the panel:
 *
 *   0x20 to 0x7E            appends the byte; highlight 0
 *   LABEL_BOOK_KEY_MICRO    appends µ, two bytes; highlight 0
 *   LABEL_BOOK_KEY_OHM      appends Ω, two bytes; highlight 0
 *   LABEL_BOOK_KEY_ERASE    erases the last sign, of a µ or Ω both bytes; highlight 0; on empty
 *                           text nothing
 *   LABEL_BOOK_KEY_UP       moves the highlight up, stopping at row 0
 *   LABEL_BOOK_KEY_DOWN     moves the highlight down, stopping at the last row
 *   LABEL_BOOK_KEY_TAKE     replaces the text by the highlighted name; highlight 0; without rows
 *                           nothing
 *   LABEL_BOOK_KEY_RECOUNT  nothing: the rows are counted again, after an edit of the book, and
 *                           the highlight finds its name
 *
 * Tells the rows: how many names are offered for the text with k = LABEL_BOOK_PANEL_ROWS. They are
 * counted before the key acts and again after it. Before it acts, the highlight goes to the row
 * that has the held name, whatever highlight was given in. Where that name is no longer on a row,
 * or held_len is 0, the highlight given in stays; past the last row it is lowered to it, to 0 if
 * there are none. After the key the held name is the one on the highlighted row, with held_len 0 if
 * there are no rows. All of this holds for a key that does nothing, too.
 *
 * So the highlight stays on its name when the book was edited since the key before, and
 * LABEL_BOOK_KEY_TAKE takes that name. A panel that shows its list anew after an edit presses
 * LABEL_BOOK_KEY_RECOUNT first: its highlight is then still on the same name, if that is still
 * offered. To see the names, ask label_book_complete, or label_book_rows_of in label_book_util.h.
 *
 * The rows given in are not read, nor the text past len and held past held_len, which an accepted
 * key makes zero.
 * Refusals: 10 an old book; 1 the book; 2 len is over LABEL_BOOK_NAME_MAX, or the text is not of
 * whole signs, or the held name is neither of length 0 nor a name that is allowed; 8 another key; 9
 * a key that appends, at LABEL_BOOK_NAME_MAX bytes, or with one byte left and two to append. */
uint8_t label_book_press(const uint8_t *book, size_t book_len, struct label_book_panel *panel,
                         uint8_t key, size_t *rows);


/*
 * Histories.
 */

/* Runs a history on two buffers of one length: label_book_empty into the first, then every call of
 * a script, each from the buffer that holds the book into the other. A script is calls one behind
 * the other, or none, and ends with the last. A call of it, with big-endian numbers:
 *
 *   1 byte    0 a set, 1 a withdraw
 *   4 bytes   score, of no account in a withdraw
 *   2 bytes   length of the name
 *             as many bytes of name, allowed or not
 *
 * A call that is refused changes nothing, and the script goes on; no withdraw of it is refused with
 * 7. The answers are kept at the front of out, one behind the other, 7 bytes each: its number in 1,
 * the entries in 2, the bytes in 4. Tells the calls, refused ones included, and as turned 1 if the
 * second buffer holds the book at the end, else 0. Behind the book, and in the other buffer, stands
 * what the calls left there.
 * Refusals of the whole run: 1 the script is not laid out so; 7 first has less than
 * LABEL_BOOK_FRONT bytes, second has another length, or out has less than 7 bytes for each call. */
uint8_t label_book_run(const uint8_t *script, size_t script_len,
                       uint8_t *first, size_t first_len, uint8_t *second, size_t second_len,
                       uint8_t *out, size_t out_len, size_t *calls, size_t *turned);

#ifdef __cplusplus
}
#endif

#endif
