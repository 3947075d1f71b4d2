/* What the programs here share: messages, memory and files. */
#ifndef SHARED_H
#define SHARED_H

#include <stdio.h>
#include <stdlib.h>
#include "cfb.h"

/* Ends the program with a message. */
static inline void fail(const char *what, const char *why) {
    fprintf(stderr, "%s: %s\n", what, why);
    exit(1);
}

/* Ends the program where a call was refused. */
static inline void expect_done(const char *call, uint32_t answer) {
    if (answer != CFB_DONE) {
        fprintf(stderr, "%s: refused %u\n", call, (unsigned)answer);
        exit(1);
    }
}

/* Memory for so many elements. One more is asked for: no pointer may be NULL, and malloc(0) may give that. */
static inline void *room(size_t count, size_t size) {
    void *memory = malloc((count + 1) * size);
    if (memory == NULL)
        fail("malloc", "no memory");
    return memory;
}

static inline uint8_t *read_file(const char *name, size_t *length) {
    FILE *file = fopen(name, "rb");
    if (file == NULL)
        fail(name, "cannot be opened");
    long end = fseek(file, 0, SEEK_END) == 0 ? ftell(file) : -1;
    if (end < 0)
        fail(name, "has no length");
    rewind(file);
    uint8_t *bytes = room((size_t)end, 1);
    *length = fread(bytes, 1, (size_t)end, file);
    if (*length != (size_t)end)
        fail(name, "cannot be read");
    fclose(file);
    return bytes;
}

static inline void write_file(const char *name, const uint8_t *bytes, size_t length) {
    FILE *file = fopen(name, "wb");
    if (file == NULL || fwrite(bytes, 1, length, file) != length || fclose(file) != 0)
        fail(name, "cannot be written");
}

#endif
