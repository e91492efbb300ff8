/* Preloaded over the program: refuses one call of one kind, or each from one on, or moves one byte where several were asked for.

   REFUSE_KIND   memory, read, open or write: the kind of call that is counted
   REFUSE_AT     the number of the call that is refused, counted from 1; 0 or none: no call is
   REFUSE_HOW    once, onward (this call and each later one), or short (a read or write of several bytes moves one)
   REFUSE_COUNT  a file that the number of calls of the kind is written to when the program ends */
#define _GNU_SOURCE
#include <dlfcn.h>
#include <errno.h>
#include <fcntl.h>
#include <stdarg.h>
#include <stdio.h>
#include <stdlib.h>
#include <string.h>
#include <unistd.h>

enum kind { NOTHING, MEMORY, READ, OPEN, WRITE };
enum how { ONCE, ONWARD, SHORT };

static struct {
    enum kind kind;
    enum how how;
    unsigned long at, seen;
} plan;

static void *(*real_malloc)(size_t);
static void *(*real_realloc)(void *, size_t);
static ssize_t (*real_read)(int, void *, size_t);
static ssize_t (*real_write)(int, const void *, size_t);
static int (*real_open)(const char *, int, ...);

static void find_real(void) {
    real_malloc = dlsym(RTLD_NEXT, "malloc");
    real_realloc = dlsym(RTLD_NEXT, "realloc");
    real_read = dlsym(RTLD_NEXT, "read");
    real_write = dlsym(RTLD_NEXT, "write");
    real_open = dlsym(RTLD_NEXT, "open");
}

static enum kind kind_named(const char *name) {
    static const char *const names[] = {"", "memory", "read", "open", "write"};
    for (int kind = MEMORY; name && kind <= WRITE; kind++)
        if (strcmp(name, names[kind]) == 0)
            return kind;
    return NOTHING;
}

__attribute__((constructor)) static void begin(void) {
    find_real();
    const char *at = getenv("REFUSE_AT"), *how = getenv("REFUSE_HOW");
    plan.at = at ? strtoul(at, NULL, 10) : 0;
    plan.how = !how || strcmp(how, "once") == 0 ? ONCE : strcmp(how, "onward") == 0 ? ONWARD : SHORT;
    plan.seen = 0;
    plan.kind = kind_named(getenv("REFUSE_KIND"));
}

__attribute__((destructor)) static void end(void) {
    const char *path = getenv("REFUSE_COUNT");
    unsigned long seen = plan.seen;
    plan.kind = NOTHING;
    if (!path)
        return;
    char text[32];
    int file = real_open(path, O_WRONLY | O_CREAT | O_TRUNC, 0644), length = snprintf(text, sizeof text, "%lu", seen);
    if (file >= 0 && real_write(file, text, length) == length)
        close(file);
}

/* Counts a call, and says whether it is one that is refused or cut short. */
static int is_met(enum kind kind) {
    if (kind != plan.kind)
        return 0;
    plan.seen++;
    return plan.at && (plan.seen == plan.at || (plan.how == ONWARD && plan.seen > plan.at));
}

void *malloc(size_t size) {
    if (!real_malloc)
        find_real();
    if (is_met(MEMORY)) {
        errno = ENOMEM;
        return NULL;
    }
    return real_malloc(size);
}

void *realloc(void *old, size_t size) {
    if (!real_realloc)
        find_real();
    if (is_met(MEMORY)) {
        errno = ENOMEM;
        return NULL;
    }
    return real_realloc(old, size);
}

ssize_t read(int file, void *into, size_t size) {
    if (!is_met(READ))
        return real_read(file, into, size);
    if (plan.how == SHORT)
        return real_read(file, into, size > 1 ? 1 : size);
    errno = EIO;
    return -1;
}

ssize_t write(int file, const void *from, size_t size) {
    if (!is_met(WRITE))
        return real_write(file, from, size);
    if (plan.how == SHORT)
        return real_write(file, from, size > 1 ? 1 : size);
    errno = EIO;
    return -1;
}

int open(const char *path, int flags, ...) {
    va_list more;
    va_start(more, flags);
    int mode = va_arg(more, int);
    va_end(more);
    if (is_met(OPEN)) {
        errno = EACCES;
        return -1;
    }
    return real_open(path, flags, mode);
}
