/*
 * A panel in a terminal: the student types the start of a set-up's name, sees the best names that
 * begin with it, and takes one. The book is in a file, and the file is followed: an edit from a
 * second window (`labelbook set FILE ...`) shows within a moment, whatever is typed meanwhile, and
 * the highlight stays on its name.
 *
 *     examples/run-terminal [FILE]    builds it and runs it
 *
 *     letters, digits, space ...      append to the text, so do µ and Ω
 *     Backspace                       erases the last letter or sign
 *     Up, Down (Ctrl-P, Ctrl-N)       move the highlight
 *     Enter                           takes the highlighted name: its set-up is loaded
 *     Esc Esc, Ctrl-C, Ctrl-D         leave; Ctrl-Z stops, and `fg` goes on
 *
 * Any other byte goes to the library as it is, which refuses those that are no key of the panel; of
 * any other sign of several bytes (as ä) the first. C11 and POSIX; the terminal must know the usual
 * sequences (ECMA-48) and UTF-8, as all of today do.
 */
#define _POSIX_C_SOURCE 200809L

#include <errno.h>
#include <fcntl.h>
#include <poll.h>
#include <signal.h>
#include <stdbool.h>
#include <stdio.h>
#include <string.h>
#include <sys/ioctl.h>
#include <sys/stat.h>
#include <termios.h>
#include <unistd.h>

#include "label_book.h"
#include "label_book_util.h"

/* Exit statuses. */
enum { LEFT = 0, NO_BOOK = 1, CALLED_WRONGLY = 2 };

/* How long a key is waited for before the file is looked at again, in thousandths of a second. */
enum { TICK = 200 };

/* Bytes of a line on the screen, also where the terminal is wider, and of a reason; with a zero. */
enum { LINE = 160, REASON = 128 };

struct bench {
    const char *path;
    uint8_t buffer[2][LABEL_BOOK_BOOK_MAX]; /* buffer[now] holds the book, the other is read into */
    int now;
    size_t entries, bytes;                  /* of the book */
    struct stat seen;                       /* the file as it was last read; zeros if it was not */
    struct label_book_panel panel;
    char loaded[LINE];                      /* the set-up that was taken last */
    char trouble[LINE];                     /* why the file's book is not the one in use, or "" */
    char said[LINE];                        /* about the last key or the last change of the file */
};

/* ---- The book and its file ------------------------------------------------------------------- */

static const uint8_t *book(const struct bench *b) { return b->buffer[b->now]; }
static uint8_t *other(struct bench *b) { return b->buffer[1 - b->now]; }

/* Reads to the end of the file, or as far as there is room: no book is longer than its buffer, and
 * what stands behind a book is not looked at. */
static bool read_whole(int file, uint8_t *to, size_t room, size_t *length) {
    *length = 0;
    while (*length < room) {
        ssize_t got = read(file, to + *length, room - *length);
        if (got < 0) return false;
        if (got == 0) break;
        *length += (size_t)got;
    }
    return true;
}

/* Reads the file into the other buffer. Gives NULL, or why it cannot. What it notes about the file
 * it asks before reading, so that a change meanwhile is seen at the next look. */
static const char *read_file(struct bench *b, size_t *length) {
    memset(&b->seen, 0, sizeof b->seen);
    int file = open(b->path, O_RDONLY | O_CLOEXEC | O_NONBLOCK);
    if (file < 0) return strerror(errno);
    const char *why = NULL;
    if (fstat(file, &b->seen) != 0) {
        why = strerror(errno);
    } else if (!S_ISREG(b->seen.st_mode)) {
        why = "not a regular file";
    } else if (!read_whole(file, other(b), LABEL_BOOK_BOOK_MAX, length)) {
        why = strerror(errno);
    }
    close(file);
    return why;
}

/* Makes the file's book the one in use. If there is none, the old one stays, and why is told. */
static bool load(struct bench *b, char why[REASON]) {
    size_t length = 0, entries, bytes;
    const char *problem = read_file(b, &length);
    if (problem != NULL) {
        snprintf(why, REASON, "%s", problem);
        return false;
    }
    uint8_t refusal = label_book_check(other(b), length, &entries, &bytes);
    if (refusal != LABEL_BOOK_OK) {
        snprintf(why, REASON, "refused, %u: %s", (unsigned)refusal,
                 label_book_refusal_text(refusal));
        return false;
    }
    b->now = 1 - b->now;
    b->entries = entries;
    b->bytes = bytes;
    return true;
}

/* Whether two looks at a file saw the same. A save by rename gives another inode. */
static bool same_file(const struct stat *a, const struct stat *b) {
    return a->st_dev == b->st_dev && a->st_ino == b->st_ino && a->st_size == b->st_size &&
           a->st_mtim.tv_sec == b->st_mtim.tv_sec && a->st_mtim.tv_nsec == b->st_mtim.tv_nsec;
}

/* ---- Keys and what they do ------------------------------------------------------------------- */

/* Bytes that a terminal sends, and one that it never does. */
enum { CTRL_C = 0x03, CTRL_D = 0x04, NEWLINE = 0x0A, CTRL_N = 0x0E, CTRL_P = 0x10, ESC = 0x1B,
       DELETE = 0x7F, NEVER_SENT = 0xFF };

/* The signs of two bytes that a name may have. */
#define MICRO "\xC2\xB5"
#define OHM "\xCE\xA9"

/* What a byte can mean besides a key of the panel. */
enum { NO_KEY = -1, LEAVE = -2 };

/* Where in a sequence that Esc begins the keyboard is. ESC_ALONE: one Esc, and then a pause. */
enum escape { PLAIN, ESC_ONCE, ESC_ALONE, ESC_TWICE, SEQUENCE, ONE_MORE };

/* What was sent in part: a sequence, or the first byte of a sign in UTF-8 that has so many more. */
struct keyboard {
    enum escape escape;
    uint8_t first;
    int more;
};

/* Whether a byte of UTF-8 is a sign's second or a later one. */
static bool goes_on(uint8_t byte) { return byte >= 0x80 && byte <= 0xBF; }

/* How many bytes follow the first one of a sign. */
static int more_behind(uint8_t first) {
    if (first >= 0xC2 && first <= 0xDF) return 1;
    if (first >= 0xE0 && first <= 0xEF) return 2;
    return first >= 0xF0 && first <= 0xF4 ? 3 : 0;
}

/* A byte past 7F: the keys of µ and Ω are pressed by their two bytes. Any other sign counts as its
 * first byte, which the library refuses. A later byte that follows no first one must not be taken
 * for a key of the same number. */
static int sign_key(struct keyboard *k, uint8_t byte) {
    if (!goes_on(byte)) {
        k->first = byte;
        k->more = more_behind(byte);
        return k->more > 0 ? NO_KEY : byte;
    }
    if (k->more == 0) {
        bool has_key = byte == LABEL_BOOK_KEY_MICRO || byte == LABEL_BOOK_KEY_OHM;
        return has_key ? NEVER_SENT : byte;
    }
    if (--k->more > 0) return NO_KEY;
    const char sign[] = {(char)k->first, (char)byte, 0};
    if (strcmp(sign, MICRO) == 0) return LABEL_BOOK_KEY_MICRO;
    if (strcmp(sign, OHM) == 0) return LABEL_BOOK_KEY_OHM;
    return k->first;
}

/* A byte that is in no sequence. */
static int plain_key(struct keyboard *k, uint8_t byte) {
    if (byte > DELETE) return sign_key(k, byte);
    k->more = 0; /* a sign that is cut is dropped */
    switch (byte) {
    case CTRL_C: return LEAVE; /* where the terminal's interrupt key is another one */
    case CTRL_D: return LEAVE;
    case CTRL_P: return LABEL_BOOK_KEY_UP;
    case CTRL_N: return LABEL_BOOK_KEY_DOWN;
    case NEWLINE: return LABEL_BOOK_KEY_TAKE;
    case DELETE: return LABEL_BOOK_KEY_ERASE;
    default: return byte;
    }
}

/* A byte behind ESC [ or ESC O. A key that the panel lacks (F5, Home) counts as the byte ESC, which
 * the library refuses. */
static int sequence_key(enum escape *state, uint8_t byte) {
    if (byte >= 0x20 && byte <= 0x3F) { /* a parameter: the sequence goes on */
        *state = SEQUENCE;
        return NO_KEY;
    }
    switch (byte) {
    case 'A': return LABEL_BOOK_KEY_UP;
    case 'B': return LABEL_BOOK_KEY_DOWN;
    case '[': *state = ONE_MORE; return NO_KEY; /* ESC [ [ A is F1 on the Linux console */
    default: return ESC;
    }
}

/* The key that a byte completes. A control byte acts by itself also where it cuts a sequence. */
static int key_of(struct keyboard *k, uint8_t byte) {
    enum escape *state = &k->escape, before = *state;
    bool control = byte < 0x20;
    *state = PLAIN;
    if ((before == ESC_ONCE || before == ESC_TWICE) && (byte == '[' || byte == 'O')) {
        *state = SEQUENCE;
        return NO_KEY;
    }
    if (before == ESC_TWICE) return LEAVE;
    if (byte == ESC) {
        k->more = 0;
        *state = before == ESC_ONCE || before == ESC_ALONE ? ESC_TWICE : ESC_ONCE;
        return NO_KEY;
    }
    if (before == SEQUENCE && !control) return sequence_key(state, byte);
    if (before == ESC_ONCE && !control) return ESC; /* Alt and a letter */
    if (before == ONE_MORE && !control) return ESC;
    return plain_key(k, byte);
}

/* The key that a pause completes. */
static int key_at_pause(struct keyboard *k) {
    if (k->more > 0) {
        k->more = 0;
        return k->first;
    }
    switch (k->escape) {
    case PLAIN:
    case ESC_ALONE: return NO_KEY;
    case ESC_ONCE: k->escape = ESC_ALONE; return NO_KEY;
    case ESC_TWICE: return LEAVE;
    default: k->escape = PLAIN; return ESC;
    }
}

/* After a taking: the name in the text is that of the set-up to load. */
static void load_set_up(struct bench *b, size_t rows) {
    if (rows == 0) {
        snprintf(b->said, sizeof b->said, "no name begins so, nothing to take");
        return;
    }
    size_t found, position;
    uint32_t score;
    label_book_find(book(b), b->bytes, b->panel.text, b->panel.len, &found, &position, &score);
    snprintf(b->loaded, sizeof b->loaded, "loaded %.*s, score %u", (int)b->panel.len,
             (const char *)b->panel.text, (unsigned)score);
}

static void press(struct bench *b, uint8_t key) {
    size_t rows;
    uint8_t refusal = label_book_press(book(b), b->bytes, &b->panel, key, &rows);
    if (refusal != LABEL_BOOK_OK) {
        snprintf(b->said, sizeof b->said, "key %02X refused, %u: %s", (unsigned)key,
                 (unsigned)refusal, label_book_refusal_text(refusal));
        return;
    }
    b->said[0] = 0;
    if (key == LABEL_BOOK_KEY_TAKE) load_set_up(b, rows);
}

/* Looks whether the file has changed, and follows it; by the key that only recounts the highlight
 * finds its name in the new book. A file that cannot be opened is tried again at every look; what
 * was said about a key stays then. */
static void follow(struct bench *b) {
    struct stat now;
    if (stat(b->path, &now) == 0 && same_file(&now, &b->seen)) return;
    char why[REASON], trouble[LINE];
    if (!load(b, why)) {
        snprintf(trouble, sizeof trouble, "the old book stays. The file: %s", why);
        if (strcmp(trouble, b->trouble) != 0) b->said[0] = 0;
        memcpy(b->trouble, trouble, sizeof trouble);
        return;
    }
    b->trouble[0] = 0;
    press(b, LABEL_BOOK_KEY_RECOUNT);
    snprintf(b->said, sizeof b->said, "the book was read again");
}

/* ---- The screen ------------------------------------------------------------------------------ */

/* Where things stand on the screen; lines count from 1. */
enum {
    TITLE_LINE = 1,
    TEXT_LINE = 3,
    ROWS_LINE = 5,
    LOADED_LINE = ROWS_LINE + LABEL_BOOK_PANEL_ROWS + 1,
    NEWS_LINE, /* and the next one, for long news */
    HELP_LINE = NEWS_LINE + 3,
    LINES = HELP_LINE
};

#define TEXT_LABEL "Set-up: "
#define HELP "Type a name's start. Up and Down choose, Enter takes, Esc Esc leaves."

/* The sign in front of the highlighted name; no other line begins with it. */
enum { MARK = '>' };

/* What a terminal is taken for that does not know its size. */
enum { USUAL_LINES = 24, USUAL_COLUMNS = 80 };

/* Sequences: where to draw, and how. */
#define OTHER_SCREEN "\033[?1049h"
#define FIRST_SCREEN "\033[?25h\033[?1049l"
#define HIDE_CURSOR "\033[?25l"
#define SHOW_CURSOR "\033[?25h"
#define CLEAR_LINE "\033[K"
#define CLEAR_BELOW "\033[J"
#define REVERSE "\033[7m"
#define NORMAL "\033[m"

/* Room for every line, and for as many bytes of sequences. */
enum { FRAME = 2 * LINE * LINES };

/* The bytes that draw a screen, on a terminal of this size. */
struct frame {
    char bytes[FRAME];
    size_t length;
    size_t lines, columns;
};

/* The lines as text, the first one at index 1. */
struct page {
    char line[LINES + 1][LINE];
};

/* How many bytes the sign at the front of a text has: µ and Ω two, any other one. */
static size_t sign_length(const char *text) {
    return strncmp(text, MICRO, 2) == 0 || strncmp(text, OHM, 2) == 0 ? 2 : 1;
}

/* How many bytes of a text stand in so many columns, a sign in each. */
static size_t length_in(const char *text, size_t columns) {
    size_t length = 0;
    for (; columns > 0 && text[length] != 0; columns--) length += sign_length(text + length);
    return length;
}

/* How many columns the text of a panel has. */
static size_t columns_of(const struct label_book_panel *panel) {
    size_t columns = 0;
    for (size_t i = 0; i < panel->len; i++) columns += !goes_on(panel->text[i]);
    return columns;
}

/* The names offered, each with its score in front. */
static void write_rows(struct page *page, const struct bench *b) {
    struct label_book_rows rows;
    char name[LABEL_BOOK_NAME_MAX + 1];
    label_book_rows_of(book(b), b->bytes, &b->panel, &rows);
    for (size_t i = 0; i < rows.count; i++) {
        snprintf(page->line[ROWS_LINE + i], LINE, "%c %10u  %s",
                 i == b->panel.highlight ? MARK : ' ', (unsigned)rows.row[i].score,
                 label_book_name_text(&rows.row[i], name));
    }
}

/* The last event, over two lines if it is long. */
static void write_news(struct page *page, const char *text, size_t columns) {
    size_t length = length_in(text, columns);
    if (text[length] != 0) {
        while (length > 0 && text[length] != ' ') length--;
    }
    snprintf(page->line[NEWS_LINE], LINE, "%.*s", (int)length, text);
    snprintf(page->line[NEWS_LINE + 1], LINE, "%s", text + length + (text[length] == ' '));
}

static void write_page(struct page *page, const struct bench *b, const char *news, size_t columns) {
    memset(page, 0, sizeof *page);
    snprintf(page->line[TITLE_LINE], LINE, "%zu %s in %s", b->entries,
             b->entries == 1 ? "name" : "names", b->path);
    snprintf(page->line[TEXT_LINE], LINE, TEXT_LABEL "%.*s", (int)b->panel.len,
             (const char *)b->panel.text);
    write_rows(page, b);
    snprintf(page->line[LOADED_LINE], LINE, "%s", b->loaded);
    write_news(page, news, columns);
    snprintf(page->line[HELP_LINE], LINE, HELP);
}

static void add(struct frame *f, const char *text) {
    size_t length = strlen(text);
    if (length > sizeof f->bytes - f->length) return; /* cannot be, by the size of a frame */
    memcpy(f->bytes + f->length, text, length);
    f->length += length;
}

static void add_move(struct frame *f, size_t line, size_t column) {
    char move[LINE];
    snprintf(move, sizeof move, "\033[%zu;%zuH", line, column);
    add(f, move);
}

/* One line, cut to the terminal's columns, the highlighted name's in reverse. A byte that is no
 * printing one and not of µ or Ω, which a file's name may have, shows as a question mark. */
static void add_line(struct frame *f, size_t line, const char *text) {
    char cut[LINE];
    size_t length = length_in(text, f->columns);
    memcpy(cut, text, length);
    cut[length] = 0;
    for (char *at = cut; *at != 0; at += sign_length(at)) {
        if (sign_length(at) == 1 && (*at < ' ' || *at > '~')) *at = '?';
    }
    add_move(f, line, 1);
    add(f, CLEAR_LINE);
    if (text[0] == MARK) add(f, REVERSE);
    add(f, cut);
    add(f, NORMAL);
}

/* The whole screen, of which lines that the terminal does not have are left out, and the cursor
 * behind the text. */
static void fill(struct frame *f, const struct page *page, size_t text_columns) {
    f->length = 0;
    add(f, HIDE_CURSOR);
    for (size_t line = 1; line <= LINES && line <= f->lines; line++) {
        add_line(f, line, page->line[line]);
    }
    if (f->lines > LINES) {
        add_move(f, LINES + 1, 1);
        add(f, CLEAR_BELOW);
    }
    add_move(f, TEXT_LINE, strlen(TEXT_LABEL) + text_columns + 1);
    add(f, SHOW_CURSOR);
}

static void measure(struct frame *f) {
    struct winsize size = {0};
    ioctl(STDOUT_FILENO, TIOCGWINSZ, &size);
    f->lines = size.ws_row > 0 ? size.ws_row : USUAL_LINES;
    f->columns = size.ws_col > 0 ? size.ws_col : USUAL_COLUMNS;
}

static bool write_whole(const char *bytes, size_t length) {
    while (length > 0) {
        ssize_t put = write(STDOUT_FILENO, bytes, length);
        if (put < 0) return false;
        bytes += put;
        length -= (size_t)put;
    }
    return true;
}

/* What there is to say. */
static const char *news(const struct bench *b, enum escape state) {
    if (state == ESC_ALONE) return "Esc once more leaves";
    return b->said[0] != 0 ? b->said : b->trouble;
}

/* Draws the screen in one write, if it is another than the one shown. */
static bool draw(struct frame *shown, const struct bench *b, enum escape state) {
    static struct frame next;
    struct page page;
    measure(&next);
    write_page(&page, b, news(b, state), next.columns);
    fill(&next, &page, columns_of(&b->panel));
    if (next.length == shown->length && memcmp(next.bytes, shown->bytes, next.length) == 0) {
        return true;
    }
    *shown = next;
    return write_whole(next.bytes, next.length);
}

/* ---- The terminal and its signals ------------------------------------------------------------ */

/* What signals ask for: to leave, to stop (Ctrl-Z), to set the terminal up again after a stop, to
 * draw again where the window has another size. */
static volatile sig_atomic_t leave_asked, stop_asked, open_asked, draw_asked;

static void on_signal(int number) {
    switch (number) {
    case SIGTSTP: stop_asked = 1; break;
    case SIGCONT: open_asked = 1; break;
    case SIGWINCH: draw_asked = 1; break;
    default: leave_asked = 1;
    }
}

static void handle(int number, void (*handler)(int)) {
    struct sigaction action = {0};
    action.sa_handler = handler;
    action.sa_flags = SA_RESTART; /* poll is interrupted all the same, so that the loop looks */
    sigemptyset(&action.sa_mask);
    sigaction(number, &action, NULL);
}

/* The terminal's settings as they were found. */
static struct termios found_settings;

/* Keys come one by one and are not echoed. Ctrl-C and Ctrl-Z go on sending their signals. */
static bool open_screen(void) {
    struct termios settings = found_settings;
    settings.c_lflag &= ~(tcflag_t)(ICANON | ECHO | IEXTEN);
    settings.c_iflag &= ~(tcflag_t)(ICRNL | INLCR | IGNCR | ISTRIP | IXON);
    settings.c_cc[VMIN] = 1;
    settings.c_cc[VTIME] = 0;
    if (tcsetattr(STDIN_FILENO, TCSADRAIN, &settings) != 0) return false;
    return write_whole(OTHER_SCREEN, strlen(OTHER_SCREEN));
}

/* As it was. Keys that were not read are dropped, so that no shell takes them for a command. */
static void close_screen(void) {
    write_whole(FIRST_SCREEN, strlen(FIRST_SCREEN));
    tcsetattr(STDIN_FILENO, TCSAFLUSH, &found_settings);
}

static void handle_all(void) {
    static const int numbers[] = {SIGINT,  SIGTERM, SIGHUP,  SIGQUIT,
                                  SIGTSTP, SIGCONT, SIGWINCH};
    for (size_t i = 0; i < sizeof numbers / sizeof numbers[0]; i++) handle(numbers[i], on_signal);
}

/* Stops as any program does at Ctrl-Z, with the terminal as it was found. */
static void stop(void) {
    stop_asked = 0;
    close_screen();
    handle(SIGTSTP, SIG_DFL);
    raise(SIGTSTP); /* comes back when the shell lets it go on */
    handle(SIGTSTP, on_signal);
    open_asked = 1;
}

/* ---- The loop -------------------------------------------------------------------------------- */

/* Waits for keys, for a tick at most, and presses them. False if it is time to leave. A signal that
 * comes just before the wait is seen after it. */
static bool take_keys(struct bench *b, struct keyboard *k) {
    struct pollfd keys = {.fd = STDIN_FILENO, .events = POLLIN};
    uint8_t bytes[LABEL_BOOK_NAME_MAX];
    int ready = poll(&keys, 1, TICK);
    if (ready < 0) return errno == EINTR;
    if (ready == 0) {
        int key = key_at_pause(k);
        if (key >= 0) press(b, (uint8_t)key);
        return key != LEAVE;
    }
    ssize_t count = read(STDIN_FILENO, bytes, sizeof bytes);
    for (ssize_t i = 0; i < count; i++) {
        int key = key_of(k, bytes[i]);
        if (key == LEAVE) return false;
        if (key >= 0) press(b, (uint8_t)key);
    }
    return count > 0;
}

/* The panel, until it is left. */
static void run(struct bench *b) {
    static struct frame shown;
    struct keyboard keyboard = {.escape = PLAIN};
    for (;;) {
        if (stop_asked) stop();
        if (open_asked) {
            open_asked = 0;
            draw_asked = 1;
            if (!open_screen()) return;
        }
        if (draw_asked) {
            draw_asked = 0;
            shown.length = 0;
        }
        follow(b);
        if (!draw(&shown, b, keyboard.escape)) return;
        if (leave_asked || !take_keys(b, &keyboard)) return;
    }
}

int main(int argc, char **argv) {
    static struct bench bench;
    char why[REASON];
    if (argc != 2) {
        fprintf(stderr, "usage: terminal BOOKFILE\n");
        return CALLED_WRONGLY;
    }
    if (tcgetattr(STDIN_FILENO, &found_settings) != 0 || !isatty(STDOUT_FILENO)) {
        fprintf(stderr, "terminal: standard input and output must be a terminal\n");
        return CALLED_WRONGLY;
    }
    bench.path = argv[1];
    if (!load(&bench, why)) {
        fprintf(stderr, "terminal: %s: %s\n", bench.path, why);
        return NO_BOOK;
    }
    press(&bench, LABEL_BOOK_KEY_RECOUNT); /* the panel holds the name that it highlights first */
    handle_all();
    open_asked = 1;
    run(&bench);
    close_screen();
    return LEFT;
}
