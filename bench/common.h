/* What the programs of this folder share: files, the library's reading, SQLite's iterator, and times. */
#ifndef COMMON_H
#define COMMON_H

#include "../crates/cs_ffi/cs_ffi.h"
#include <sqlite3.h>
#include <stdint.h>
#include <stdio.h>
#include <stdlib.h>
#include <string.h>
#include <time.h>

struct file {
    uint8_t *bytes;
    size_t length;
    uint8_t *output; /* room for as many bytes */
    size_t *lengths; /* where it holds changesets one after another, how long each is */
    size_t parts;    /* and how many there are */
};

static inline _Noreturn void fail(const char *path, const char *what) {
    fprintf(stderr, "%s: %s\n", path, what);
    exit(1);
}

/* Room for a file: one byte more, since the library takes no null pointer, also for no bytes. */
static inline struct file new_file(const char *path, size_t length) {
    struct file file = {.bytes = malloc(length + 1), .length = length, .output = malloc(length + 1)};
    if (!file.bytes || !file.output) fail(path, "no memory");
    return file;
}

/* A copy of bytes as a file. */
static inline struct file copy_file(const void *bytes, size_t length) {
    struct file file = new_file("a copy", length);
    if (length > 0) memcpy(file.bytes, bytes, length);
    return file;
}

static inline struct file read_file(const char *path) {
    FILE *stream = fopen(path, "rb");
    if (!stream || fseek(stream, 0, SEEK_END) != 0) fail(path, "can't be read");
    long length = ftell(stream);
    if (length < 0) fail(path, "can't be read");
    rewind(stream);
    struct file file = new_file(path, (size_t)length);
    if (fread(file.bytes, 1, file.length, stream) != file.length) fail(path, "can't be read");
    fclose(stream);
    return file;
}

static inline FILE *create(const char *path) {
    FILE *stream = fopen(path, "wb");
    if (!stream) fail(path, "can't be written");
    return stream;
}

/* The file holds one changeset more, of this length. */
static inline void add_length(struct file *file, size_t length) {
    file->lengths = realloc(file->lengths, (file->parts + 1) * sizeof *file->lengths);
    if (!file->lengths) fail("lengths", "no memory");
    file->lengths[file->parts++] = length;
}

static inline void free_file(struct file *file) {
    free(file->bytes);
    free(file->output);
    free(file->lengths);
}

/* The library's reading, and its reading and writing: the count of changes or of bytes. */
static inline size_t ours_decode(struct file *file) {
    struct cs_ffi_answer answer = cs_ffi_decode(file->bytes, file->length);
    return answer.fault == 0 ? answer.count : SIZE_MAX;
}

static inline size_t ours_reencode(struct file *file) {
    struct cs_ffi_answer answer = cs_ffi_reencode(file->bytes, file->length, file->output, file->length);
    return answer.fault == 0 ? answer.count : SIZE_MAX;
}

/* Brings the file into normal form by the tables that the first bytes declare. */
static inline size_t ours_normalise(struct file *file, size_t declared) {
    struct cs_ffi_answer answer =
        cs_ffi_normalise(file->bytes, declared, file->bytes, file->length, file->output, file->length);
    return answer.fault == 0 ? answer.count : SIZE_MAX;
}

/* Reads a value whole, as a caller would who keeps it. */
static inline uint64_t touch(sqlite3_value *value) {
    switch (sqlite3_value_type(value)) {
    case SQLITE_INTEGER: return (uint64_t)sqlite3_value_int64(value);
    case SQLITE_TEXT: return (uint64_t)sqlite3_value_text(value)[0] + (uint64_t)sqlite3_value_bytes(value);
    case SQLITE_BLOB: return (uint64_t)sqlite3_value_bytes(value);
    default: return 0;
    }
}

static volatile uint64_t touched;

static inline void touch_columns(sqlite3_changeset_iter *iter, int columns,
                                 int (*get)(sqlite3_changeset_iter *, int, sqlite3_value **)) {
    uint64_t sum = 0;
    for (int column = 0; column < columns; column++) {
        sqlite3_value *value = NULL;
        get(iter, column, &value);
        if (value) sum += touch(value);
    }
    touched += sum;
}

/* SQLite's iterator over each column of each change. It copies each value, and gives it up at the next change. */
static inline size_t sqlite_decode(struct file *file) {
    sqlite3_changeset_iter *iter;
    size_t count = 0;
    if (sqlite3changeset_start(&iter, (int)file->length, file->bytes) != SQLITE_OK) return SIZE_MAX;
    while (sqlite3changeset_next(iter) == SQLITE_ROW) {
        const char *table;
        int columns, operation, indirect;
        sqlite3changeset_op(iter, &table, &columns, &operation, &indirect);
        if (operation != SQLITE_INSERT) touch_columns(iter, columns, sqlite3changeset_old);
        if (operation != SQLITE_DELETE) touch_columns(iter, columns, sqlite3changeset_new);
        count++;
    }
    return sqlite3changeset_finalize(iter) == SQLITE_OK ? count : SIZE_MAX;
}

static inline void check_bytes(const char *path, struct file *file, const char *who, size_t (*reencode)(struct file *)) {
    memset(file->output, 0xee, file->length);
    if (reencode(file) != file->length) fail(path, who);
    if (memcmp(file->bytes, file->output, file->length) != 0) fail(path, who);
}

static inline double now(void) {
    struct timespec time;
    clock_gettime(CLOCK_MONOTONIC, &time);
    return (double)time.tv_sec * 1e9 + (double)time.tv_nsec;
}

/* One of the things that are timed, and its best time so far, in nanoseconds. */
struct contender {
    const char *name;
    size_t (*run)(struct file *);
    double best;
};

/* Times each in turn, in each round so many times, and keeps the best round. */
static inline void time_contenders(struct contender *contenders, size_t kinds, struct file *file, int rounds, int repeats) {
    for (int round = 0; round < rounds; round++) {
        for (size_t kind = 0; kind < kinds; kind++) {
            double start = now();
            for (int repeat = 0; repeat < repeats; repeat++) contenders[kind].run(file);
            double spent = (now() - start) / repeats;
            if (spent < contenders[kind].best) contenders[kind].best = spent;
        }
    }
}

static inline void print_contenders(const struct contender *contenders, size_t kinds, const struct file *file, size_t changes) {
    for (size_t kind = 0; kind < kinds; kind++) {
        double best = contenders[kind].best;
        printf("  %-34s %8.1f ns a change, %6.0f MB/s\n", contenders[kind].name, best / (double)changes,
               (double)file->length * 1e3 / best);
    }
}

#endif
