/*
 * Preloaded into labelbook by its tests, so that a disk can fail and the program can be killed at
 * any call that has to do with files. Each call is written down in the file LABELBOOK_SHIM_LOG: its
 * name, what it was made on, what it gave. LABELBOOK_SHIM has rules, CALL:N:WHAT with commas
 * between, for the N-th call of a name (`any`: of all calls):
 *   kill      the program is killed before the call
 *   killed    the program is killed after the call
 *   half      a write takes only half of the bytes
 *   swap      before the call LABELBOOK_SHIM_FROM is renamed to LABELBOOK_SHIM_TO
 *   a number  the call fails with that errno
 */
#define _GNU_SOURCE
#include <errno.h>
#include <fcntl.h>
#include <signal.h>
#include <stdarg.h>
#include <stdio.h>
#include <stdlib.h>
#include <string.h>
#include <sys/file.h>
#include <sys/stat.h>
#include <sys/syscall.h>
#include <unistd.h>

enum { RULES_MAX = 16, WORD_MAX = 16, LINE_MAX_BYTES = 80, NO_FD = -1 };

/* What is to be done at a call. */
struct plan {
    int kill_after, half, fail;
};

/* How many calls each rule has seen. */
static int seen[RULES_MAX];

static void die(void)
{
    kill(getpid(), SIGKILL);
    for (;;)
        pause();
}

static void act(const char *what, struct plan *plan)
{
    if (strcmp(what, "kill") == 0)
        die();
    if (strcmp(what, "swap") == 0)
        syscall(SYS_rename, getenv("LABELBOOK_SHIM_FROM"), getenv("LABELBOOK_SHIM_TO"));
    plan->kill_after = strcmp(what, "killed") == 0;
    plan->half = strcmp(what, "half") == 0;
    plan->fail = atoi(what);
}

static struct plan look(const char *call)
{
    struct plan plan = {0, 0, 0};
    const char *rule = getenv("LABELBOOK_SHIM");
    for (int i = 0; rule && *rule && i < RULES_MAX; i++) {
        char name[WORD_MAX], what[WORD_MAX];
        int n = 0, length = 0;
        if (sscanf(rule, "%15[a-z0-9]:%d:%15[a-z0-9]%n", name, &n, what, &length) != 3)
            abort();
        if ((strcmp(name, "any") == 0 || strcmp(name, call) == 0) && ++seen[i] == n)
            act(what, &plan);
        rule += length;
        rule += *rule == ',';
    }
    return plan;
}

static const char *kind(int fd)
{
    struct stat found;
    if (fd == NO_FD || fstat(fd, &found) != 0)
        return "-";
    return S_ISREG(found.st_mode) ? "file" : S_ISDIR(found.st_mode) ? "folder" : "stream";
}

static long fails(int error)
{
    errno = error;
    return -1;
}

/* Writes the call down and gives its result, if it is given. */
static long leave(const char *call, int fd, struct plan plan, long result)
{
    int error = errno;
    const char *path = getenv("LABELBOOK_SHIM_LOG");
    long log = path ? syscall(SYS_open, path, O_WRONLY | O_CREAT | O_APPEND, 0600) : -1;
    if (log >= 0) {
        char line[LINE_MAX_BYTES];
        int length = snprintf(line, sizeof line, "%s %s %ld\n", call, kind(fd), result);
        syscall(SYS_write, log, line, length);
        syscall(SYS_close, log);
    }
    if (plan.kill_after)
        die();
    errno = error;
    return result;
}

#define CALL(name, fd, type, real)                                                                 \
    do {                                                                                           \
        struct plan plan = look(name);                                                             \
        return (type)leave(name, fd, plan, plan.fail ? fails(plan.fail) : (real));                 \
    } while (0)

ssize_t read(int fd, void *bytes, size_t count)
{
    CALL("read", fd, ssize_t, syscall(SYS_read, fd, bytes, count));
}

ssize_t write(int fd, const void *bytes, size_t count)
{
    CALL("write", fd, ssize_t, syscall(SYS_write, fd, bytes, plan.half ? count / 2 : count));
}

int fsync(int fd)
{
    CALL("fsync", fd, int, syscall(SYS_fsync, fd));
}

int fdatasync(int fd)
{
    CALL("fdatasync", fd, int, syscall(SYS_fdatasync, fd));
}

int fchmod(int fd, mode_t mode)
{
    CALL("fchmod", fd, int, syscall(SYS_fchmod, fd, mode));
}

int fchown(int fd, uid_t owner, gid_t group)
{
    CALL("fchown", fd, int, syscall(SYS_fchown, fd, owner, group));
}

int flock(int fd, int operation)
{
    CALL("flock", fd, int, syscall(SYS_flock, fd, operation));
}

int rename(const char *from, const char *to)
{
    CALL("rename", NO_FD, int, syscall(SYS_rename, from, to));
}

int renameat(int from_fd, const char *from, int to_fd, const char *to)
{
    CALL("rename", NO_FD, int, syscall(SYS_renameat, from_fd, from, to_fd, to));
}

int renameat2(int from_fd, const char *from, int to_fd, const char *to, unsigned int flags)
{
    CALL("rename", NO_FD, int, syscall(SYS_renameat2, from_fd, from, to_fd, to, flags));
}

int link(const char *from, const char *to)
{
    CALL("link", NO_FD, int, syscall(SYS_link, from, to));
}

int linkat(int from_fd, const char *from, int to_fd, const char *to, int flags)
{
    CALL("link", NO_FD, int, syscall(SYS_linkat, from_fd, from, to_fd, to, flags));
}

int unlink(const char *path)
{
    CALL("unlink", NO_FD, int, syscall(SYS_unlink, path));
}

static int opened(const char *path, int flags, mode_t mode)
{
    struct plan plan = look("open");
    long fd = plan.fail ? fails(plan.fail) : syscall(SYS_open, path, flags, mode);
    return (int)leave("open", (int)fd, plan, fd);
}

static mode_t mode_in(int flags, va_list more)
{
    return flags & O_CREAT ? va_arg(more, mode_t) : 0;
}

int open(const char *path, int flags, ...)
{
    va_list more;
    va_start(more, flags);
    mode_t mode = mode_in(flags, more);
    va_end(more);
    return opened(path, flags, mode);
}

int open64(const char *path, int flags, ...)
{
    va_list more;
    va_start(more, flags);
    mode_t mode = mode_in(flags, more);
    va_end(more);
    return opened(path, flags, mode);
}
