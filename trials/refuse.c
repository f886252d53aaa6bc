/* A library to preload: it lets one call of a kind fail, or all of them from one on, and counts the calls.

   REFUSE_KIND   memory, thread, read or write
   REFUSE_AT     the number of the first call that fails, from 1; 0 lets none fail
   REFUSE_SPAN   how many calls in a row fail, 1 where nothing is said
   REFUSE_ALL    1: all calls from that one on fail
   REFUSE_ERROR  for read and write: the error's number; 0 makes a write take no byte
   REFUSE_STEP   how many bytes a read gives and a write takes at most; 0 or nothing: as many as are asked for
   REFUSE_COUNT  a file into which the number of calls is written at the end

   Calls are counted from the time at which the library is loaded; reads are those of standard input, writes those to standard
   output. */
#define _GNU_SOURCE
#include <dlfcn.h>
#include <errno.h>
#include <fcntl.h>
#include <pthread.h>
#include <stdatomic.h>
#include <stdio.h>
#include <stdlib.h>
#include <string.h>
#include <sys/syscall.h>
#include <unistd.h>

static const char *kind = "";
static long at, span = 1, all, error, step;
static atomic_long calls;

__attribute__((constructor)) static void begin(void) {
    const char *said;
    if ((said = getenv("REFUSE_KIND"))) kind = said;
    if ((said = getenv("REFUSE_AT"))) at = strtol(said, NULL, 10);
    if ((said = getenv("REFUSE_SPAN"))) span = strtol(said, NULL, 10);
    if ((said = getenv("REFUSE_ALL"))) all = strtol(said, NULL, 10);
    if ((said = getenv("REFUSE_ERROR"))) error = strtol(said, NULL, 10);
    if ((said = getenv("REFUSE_STEP"))) step = strtol(said, NULL, 10);
}

static void tell(void) {
    const char *path = getenv("REFUSE_COUNT");
    char text[32];
    if (!path) return;
    int file = (int)syscall(SYS_openat, AT_FDCWD, path, O_WRONLY | O_CREAT | O_TRUNC, 0600);
    int length = snprintf(text, sizeof text, "%ld\n", (long)calls);
    if (file >= 0) syscall(SYS_write, file, text, (size_t)length);
}

/* The program may end without running destructors. */
void _exit(int status) {
    tell();
    syscall(SYS_exit_group, status);
    __builtin_unreachable();
}

__attribute__((destructor)) static void end(void) { tell(); }

static int fails(const char *word) {
    if (strcmp(kind, word)) return 0;
    long call = ++calls;
    return at && call >= at && (all || call < at + span);
}

void *malloc(size_t size) {
    static void *(*real)(size_t);
    if (!real) real = (void *(*)(size_t))dlsym(RTLD_NEXT, "malloc");
    if (fails("memory")) { errno = ENOMEM; return NULL; }
    return real(size);
}

void *realloc(void *old, size_t size) {
    static void *(*real)(void *, size_t);
    if (!real) real = (void *(*)(void *, size_t))dlsym(RTLD_NEXT, "realloc");
    if (fails("memory")) { errno = ENOMEM; return NULL; }
    return real(old, size);
}

int pthread_create(pthread_t *thread, const pthread_attr_t *attributes, void *(*body)(void *), void *argument) {
    static int (*real)(pthread_t *, const pthread_attr_t *, void *(*)(void *), void *);
    if (!real) real = (int (*)(pthread_t *, const pthread_attr_t *, void *(*)(void *), void *))dlsym(RTLD_NEXT, "pthread_create");
    if (fails("thread")) return EAGAIN;
    return real(thread, attributes, body, argument);
}

static size_t at_most(size_t size) { return step && size > (size_t)step ? (size_t)step : size; }

ssize_t read(int file, void *into, size_t size) {
    if (file == 0 && fails("read")) { errno = (int)error; return -1; }
    return syscall(SYS_read, file, into, file == 0 ? at_most(size) : size);
}

static ssize_t put(int file, const void *from, size_t size) {
    if (file == 1 && fails("write")) {
        if (!error) return 0;
        errno = (int)error;
        return -1;
    }
    return syscall(SYS_write, file, from, file == 1 ? at_most(size) : size);
}

ssize_t write(int file, const void *from, size_t size) { return put(file, from, size); }
ssize_t __write(int file, const void *from, size_t size) { return put(file, from, size); }
