/* What the programs share that take changesets together and back and write them for SQLite: by this library, and by
 * SQLite. */
#ifndef COMBINING_H
#define COMBINING_H

#include "common.h"

/* The count of bytes that the library wrote to the file's output. Neither consolidation nor an inverse is longer than the
 * changesets that SQLite captures. */
static inline size_t written(const struct file *file, struct cs_ffi_answer answer) {
    return answer.fault == 0 && answer.count <= file->length ? answer.count : SIZE_MAX;
}

/* The library's consolidation of the changesets in a file, and its inverse of one. */
static inline size_t ours_combine(struct file *file) {
    return written(file, cs_ffi_combine(file->bytes, file->length, file->lengths, file->parts, file->output, file->length));
}

static inline size_t ours_invert(struct file *file) {
    return written(file, cs_ffi_invert(file->bytes, file->length, file->output, file->length));
}

/* What the library wrote in normal form, written for SQLite, with the column bytes that SQLite captured. */
static inline struct file for_sqlite(const char *what, const struct file *captured, const uint8_t *normal, size_t length) {
    struct file file = new_file(what, length);
    struct cs_ffi_answer answer =
        cs_ffi_for_sqlite(captured->bytes, captured->length, normal, length, file.bytes, length);
    if (answer.fault != 0 || answer.count != length) fail(what, "isn't written for SQLite");
    return file;
}

/* What SQLite gives, to be freed by sqlite3_free. */
struct bytes {
    void *start;
    int length;
};

/* SQLite's changegroup over the changesets in a file. */
static inline struct bytes sqlite_combined(const struct file *file) {
    sqlite3_changegroup *group;
    struct bytes bytes = {NULL, 0};
    uint8_t *next = file->bytes;
    if (sqlite3changegroup_new(&group) != SQLITE_OK) fail("changegroup", "no memory");
    for (size_t part = 0; part < file->parts; part++) {
        int result = sqlite3changegroup_add(group, (int)file->lengths[part], next);
        if (result != SQLITE_OK) fail("changegroup", "refuses a changeset");
        next += file->lengths[part];
    }
    if (sqlite3changegroup_output(group, &bytes.length, &bytes.start) != SQLITE_OK) fail("changegroup", "no output");
    sqlite3changegroup_delete(group);
    return bytes;
}

/* SQLite's inverse of the changeset in a file. */
static inline struct bytes sqlite_inverted(const struct file *file) {
    struct bytes bytes = {NULL, 0};
    int result = sqlite3changeset_invert((int)file->length, file->bytes, &bytes.length, &bytes.start);
    if (result != SQLITE_OK) fail("invert", "refuses the changeset");
    return bytes;
}

/* What SQLite gave as a file. It is freed. */
static inline struct file file_of(struct bytes bytes) {
    struct file file = copy_file(bytes.start, (size_t)bytes.length);
    sqlite3_free(bytes.start);
    return file;
}

/* So many bytes that the library wrote have to be the normal form of what SQLite gave, which has a group a table. */
static inline void check_agrees(const char *what, const uint8_t *ours, size_t length, struct file *theirs) {
    if (length == SIZE_MAX) fail(what, "the library refuses");
    size_t normal = ours_normalise(theirs, theirs->length);
    if (normal != length || memcmp(theirs->output, ours, length) != 0) fail(what, "the library and SQLite differ");
}

#endif
