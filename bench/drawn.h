/* What the programs share that draw rows and changes, run them by SQLite, and write the cases for the library's programs
 * (`drawn.rattle` says how). */
#ifndef DRAWN_H
#define DRAWN_H

#include "session.h"

enum { TABLES = 3, COLUMNS = 4 };

struct table {
    const char *name;
    const char *create;
    int count;
    uint8_t columns[COLUMNS]; /* where each column stands in the key, from 1 on; else 0 */
};

static const struct table tables[TABLES] = {
    {"t", "CREATE TABLE t(id INTEGER PRIMARY KEY, v, w)", 3, {1, 0, 0}},
    {"u", "CREATE TABLE u(a, b, c, d, PRIMARY KEY(c, a)) WITHOUT ROWID", 4, {2, 0, 1, 0}},
    {"x", "CREATE TABLE x(k TEXT PRIMARY KEY NOT NULL, v)", 2, {1, 0}},
};

/* ---- bytes */

struct buffer {
    uint8_t *bytes;
    size_t length, room;
};

static inline void put(struct buffer *buffer, const void *bytes, size_t length) {
    if (buffer->length + length + 1 > buffer->room) {
        buffer->room = 2 * (buffer->length + length + 1);
        buffer->bytes = realloc(buffer->bytes, buffer->room);
        if (!buffer->bytes) fail("a buffer", "no memory");
    }
    if (length > 0) memcpy(buffer->bytes + buffer->length, bytes, length);
    buffer->length += length;
    buffer->bytes[buffer->length] = 0;
}

static inline void put_byte(struct buffer *buffer, uint8_t byte) { put(buffer, &byte, 1); }

static inline void put_text(struct buffer *buffer, const char *text) { put(buffer, text, strlen(text)); }

static inline void put_hex(struct buffer *buffer, const struct buffer *bytes) {
    static const char digits[] = "0123456789abcdef";
    for (size_t i = 0; i < bytes->length; i++) {
        put_byte(buffer, (uint8_t)digits[bytes->bytes[i] >> 4]);
        put_byte(buffer, (uint8_t)digits[bytes->bytes[i] & 15]);
    }
}

static inline void put_big(struct buffer *buffer, uint64_t number) {
    for (int shift = 56; shift >= 0; shift -= 8) put_byte(buffer, (uint8_t)(number >> shift));
}

/* A part of a case: its length, and its bytes. */
static inline void put_part(struct buffer *buffer, const void *bytes, size_t length) {
    put_big(buffer, length);
    put(buffer, bytes, length);
}

/* A value as a record spells it; lengths are below 128. */
static inline void put_value(struct buffer *buffer, sqlite3_value *value) {
    if (!value) {
        put_byte(buffer, 0);
        return;
    }
    int type = sqlite3_value_type(value);
    put_byte(buffer, (uint8_t)type);
    if (type == SQLITE_INTEGER) put_big(buffer, (uint64_t)sqlite3_value_int64(value));
    if (type == SQLITE_TEXT || type == SQLITE_BLOB) {
        const void *bytes = type == SQLITE_TEXT ? (const void *)sqlite3_value_text(value) : sqlite3_value_blob(value);
        size_t length = (size_t)sqlite3_value_bytes(value);
        if (length > 127) fail("a value", "is too long");
        put_byte(buffer, (uint8_t)length);
        put(buffer, bytes, length);
    }
}

static inline void write_file(const char *path, const struct buffer *buffer) {
    FILE *stream = create(path);
    if (fwrite(buffer->bytes, 1, buffer->length, stream) != buffer->length || fclose(stream) != 0) fail(path, "can't be written");
}

/* ---- databases */

/* An empty database of the first so many tables. */
static inline sqlite3 *open_tables(int count) {
    sqlite3 *db = open_memory();
    for (int i = 0; i < count; i++) run(db, tables[i].create);
    return db;
}

/* Rows 0 to count - 1 of the first table. */
static inline void insert_rows(sqlite3 *db, long count) {
    sqlite3_stmt *insert = prepare(db, "INSERT INTO t VALUES(?1, 'row ' || ?1, ?1 * 7)");
    run(db, "BEGIN");
    for (long i = 0; i < count; i++) {
        sqlite3_bind_int64(insert, 1, i);
        execute(db, insert);
    }
    run(db, "COMMIT");
    sqlite3_finalize(insert);
}

/* Copies the rows of the first so many tables. */
static inline void copy_rows(sqlite3 *from, sqlite3 *to, int count) {
    run(to, "BEGIN");
    for (int i = 0; i < count; i++) {
        char *read = sqlite3_mprintf("SELECT * FROM %s", tables[i].name);
        char *write = sqlite3_mprintf("INSERT INTO %s VALUES(?1, ?2%s%s)", tables[i].name, tables[i].count > 2 ? ", ?3" : "",
                                      tables[i].count > 3 ? ", ?4" : "");
        sqlite3_stmt *rows = prepare(from, read), *insert = prepare(to, write);
        while (sqlite3_step(rows) == SQLITE_ROW) {
            for (int column = 0; column < tables[i].count; column++) {
                sqlite3_bind_value(insert, column + 1, sqlite3_column_value(rows, column));
            }
            execute(to, insert);
        }
        sqlite3_finalize(rows);
        sqlite3_finalize(insert);
        sqlite3_free(read);
        sqlite3_free(write);
    }
    run(to, "COMMIT");
}

/* All rows as a changeset of INSERTs. */
static inline void put_rows_part(struct buffer *buffer, sqlite3 *db, int count) {
    sqlite3 *copy = open_tables(count);
    sqlite3_session *session = watch(copy);
    copy_rows(db, copy, count);
    size_t length;
    void *bytes = end_session(copy, session, &length);
    put_part(buffer, bytes, length);
    sqlite3_free(bytes);
    sqlite3_close(copy);
}

/* The headers of the first so many tables. */
static inline void put_declared_part(struct buffer *buffer, int count) {
    struct buffer headers = {0};
    for (int i = 0; i < count; i++) {
        put_byte(&headers, 'T');
        put_byte(&headers, (uint8_t)tables[i].count);
        put(&headers, tables[i].columns, (size_t)tables[i].count);
        put(&headers, tables[i].name, strlen(tables[i].name) + 1);
    }
    put_part(buffer, headers.bytes, headers.length);
    free(headers.bytes);
}

/* A row's line, behind its key in hex. */
struct line {
    struct buffer key, text;
};

static inline int compare_lines(const void *left, const void *right) {
    return strcmp((const char *)((const struct line *)left)->key.bytes, (const char *)((const struct line *)right)->key.bytes);
}

/* The rows of a table in the order of the bytes of their keys, a line each, from this word on: the table's place, the key, the row. */
static inline void put_table(struct buffer *out, const char *word, sqlite3 *db, int place) {
    const struct table *table = &tables[place];
    char *sql = sqlite3_mprintf("SELECT * FROM %s", table->name);
    sqlite3_stmt *rows = prepare(db, sql);
    struct line *lines = NULL;
    size_t count = 0;
    while (sqlite3_step(rows) == SQLITE_ROW) {
        struct buffer key = {0}, row = {0};
        for (int column = 0; column < table->count; column++) {
            sqlite3_value *value = sqlite3_column_value(rows, column);
            if (table->columns[column]) put_value(&key, value);
            put_value(&row, value);
        }
        lines = realloc(lines, (count + 1) * sizeof *lines);
        if (!lines) fail("rows", "no memory");
        lines[count] = (struct line){{0}, {0}};
        put_hex(&lines[count].key, &key);
        put_hex(&lines[count].text, &row);
        count++;
        free(key.bytes);
        free(row.bytes);
    }
    sqlite3_finalize(rows);
    sqlite3_free(sql);
    if (count > 0) qsort(lines, count, sizeof *lines, compare_lines);
    for (size_t i = 0; i < count; i++) {
        char head[32];
        snprintf(head, sizeof head, "%s %d ", word, place);
        put_text(out, head);
        put(out, lines[i].key.bytes, lines[i].key.length);
        put_byte(out, ' ');
        put(out, lines[i].text.bytes, lines[i].text.length);
        put_byte(out, '\n');
        free(lines[i].key.bytes);
        free(lines[i].text.bytes);
    }
    free(lines);
}

static inline int place_of(const char *name) {
    for (int i = 0; i < TABLES; i++) {
        if (strcmp(tables[i].name, name) == 0) return i;
    }
    fail(name, "is no table");
}

/* The change that an iterator stands at, as a changeset spells it. */
static inline void put_change(struct buffer *buffer, sqlite3_changeset_iter *iter, int count, int operation, int indirect) {
    put_byte(buffer, (uint8_t)operation);
    put_byte(buffer, (uint8_t)indirect);
    for (int side = 0; side < 2; side++) {
        if (operation == (side == 0 ? SQLITE_INSERT : SQLITE_DELETE)) continue;
        for (int column = 0; column < count; column++) {
            sqlite3_value *value = NULL;
            if ((side == 0 ? sqlite3changeset_old : sqlite3changeset_new)(iter, column, &value) != SQLITE_OK) fail("iterator", "no value");
            put_value(buffer, value);
        }
    }
}

/* A line of a conflict: its kind, the table's place, the change and the row behind it. */
static inline void put_conflict(struct buffer *lines, int kind, sqlite3_changeset_iter *iter) {
    const char *name;
    int count, operation, indirect;
    struct buffer change = {0}, row = {0};
    char head[64];
    if (sqlite3changeset_op(iter, &name, &count, &operation, &indirect) != SQLITE_OK) fail("iterator", "no change");
    put_change(&change, iter, count, operation, indirect);
    snprintf(head, sizeof head, "conflict %d %d ", kind, place_of(name));
    put_text(lines, head);
    put_hex(lines, &change);
    put_byte(lines, ' ');
    if (kind == SQLITE_CHANGESET_NOTFOUND) {
        put_byte(lines, '-');
    } else {
        for (int column = 0; column < count; column++) {
            sqlite3_value *value = NULL;
            if (sqlite3changeset_conflict(iter, column, &value) != SQLITE_OK) fail("iterator", "no conflicting row");
            put_value(&row, value);
        }
        put_hex(lines, &row);
    }
    put_byte(lines, '\n');
    free(change.bytes);
    free(row.bytes);
}

/* ---- drawn changes */

static uint64_t state = 0x2545f4914f6cdd1d;

static inline unsigned draw(unsigned below) { return (unsigned)(next_number(&state) >> 33) % below; }

/* One of few values, of each type. */
static const char *draw_value(void) {
    static const char *const values[] = {"NULL", "0", "1", "-1", "256", "''", "'x'", "'xy'", "x''", "x'78'", "9223372036854775807"};
    return values[draw(sizeof values / sizeof *values)];
}

/* Makes one change in a table that may be there. */
static inline void change_one(sqlite3 *db, int count) {
    char *sql = NULL;
    unsigned key = draw(5), other = draw(3);
    int place = (int)draw((unsigned)count);
    unsigned what = draw(10);
    if (place == 0) {
        if (what < 4) sql = sqlite3_mprintf("INSERT OR IGNORE INTO t VALUES(%u, %s, %s)", key, draw_value(), draw_value());
        else if (what < 5) sql = sqlite3_mprintf("UPDATE t SET v = %s WHERE id = %u", draw_value(), key);
        else if (what < 6) sql = sqlite3_mprintf("UPDATE t SET w = %s WHERE id = %u", draw_value(), key);
        else if (what < 8) sql = sqlite3_mprintf("UPDATE t SET v = %s, w = %s WHERE id = %u", draw_value(), draw_value(), key);
        else sql = sqlite3_mprintf("DELETE FROM t WHERE id = %u", key);
    } else if (place == 1) {
        static const char *const keys[] = {"0", "'k'", "x'6b'"};
        if (what < 4) sql = sqlite3_mprintf("INSERT OR IGNORE INTO u VALUES(%u, %s, %s, %s)", key % 3, draw_value(), keys[other], draw_value());
        else if (what < 6) sql = sqlite3_mprintf("UPDATE u SET b = %s WHERE a = %u AND c = %s", draw_value(), key % 3, keys[other]);
        else if (what < 8) sql = sqlite3_mprintf("UPDATE u SET b = %s, d = %s WHERE a = %u AND c = %s", draw_value(), draw_value(), key % 3, keys[other]);
        else sql = sqlite3_mprintf("DELETE FROM u WHERE a = %u AND c = %s", key % 3, keys[other]);
    } else {
        static const char *const keys[] = {"", "k", "kk", "l", "\xc3\xbc"};
        if (what < 4) sql = sqlite3_mprintf("INSERT OR IGNORE INTO x VALUES(%Q, %s)", keys[key], draw_value());
        else if (what < 8) sql = sqlite3_mprintf("UPDATE x SET v = %s WHERE k = %Q", draw_value(), keys[key]);
        else sql = sqlite3_mprintf("DELETE FROM x WHERE k = %Q", keys[key]);
    }
    run(db, sql);
    sqlite3_free(sql);
}

static inline void change_some(sqlite3 *db, int count, unsigned changes) {
    for (unsigned i = 0; i < changes; i++) change_one(db, count);
}

#endif
