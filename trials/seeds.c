/* A library to preload: the system's random source gives a chosen number, or fails, and says how it was asked.

   SEED_BYTES   the number whose bytes are given, the lowest first; nothing: the source fails
   SEED_COUNT   a file to which each call adds a line with the number of bytes that it asks for, if it is set */
#define _GNU_SOURCE
#include <errno.h>
#include <fcntl.h>
#include <stdint.h>
#include <stdio.h>
#include <stdlib.h>
#include <unistd.h>

static void count(const char *path, size_t size) {
    char text[32];
    int length = snprintf(text, sizeof text, "%zu\n", size);
    int file = open(path, O_WRONLY | O_CREAT | O_APPEND, 0600);
    if (file < 0 || write(file, text, (size_t)length) != length) abort();
    close(file);
}

int getentropy(void *into, size_t size) {
    const char *bytes = getenv("SEED_BYTES"), *path = getenv("SEED_COUNT");
    if (path) count(path, size);
    if (!bytes) { errno = ENOSYS; return -1; }
    uint64_t number = strtoull(bytes, NULL, 10);
    for (size_t i = 0; i < size; i++) ((unsigned char *)into)[i] = (unsigned char)(number >> 8 * (i % 8));
    return 0;
}
