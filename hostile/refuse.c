/* Refuses requests for memory: loaded before the C library, it answers the request of the number REFUSE_AT, from 1, as if no
   memory were left, and where REFUSE_FROM is set each request from that number on. At the end it writes how many requests
   there were into the file COUNT_TO. */
#include <errno.h>
#include <fcntl.h>
#include <stdio.h>
#include <stdlib.h>
#include <unistd.h>

extern void *__libc_malloc(size_t size);
extern void *__libc_realloc(void *old, size_t size);

static long at, from, requests;

static long number(const char *name) {
    const char *text = getenv(name);
    return text ? atol(text) : 0;
}

__attribute__((constructor)) static void begin(void) {
    at = number("REFUSE_AT");
    from = number("REFUSE_FROM");
    requests = 0;
}

static int is_refused(void) {
    requests++;
    if (requests == at || (from > 0 && requests >= from)) {
        errno = ENOMEM;
        return 1;
    }
    return 0;
}

void *malloc(size_t size) { return is_refused() ? NULL : __libc_malloc(size); }

void *realloc(void *old, size_t size) { return is_refused() ? NULL : __libc_realloc(old, size); }

__attribute__((destructor)) static void end(void) {
    const char *name = getenv("COUNT_TO");
    char text[32];
    int length, file;
    if (!name || (file = open(name, O_WRONLY | O_CREAT | O_TRUNC, 0600)) < 0)
        return;
    length = snprintf(text, sizeof text, "%ld\n", requests);
    if (write(file, text, (size_t)length) < 0)
        requests = 0;
    close(file);
}
