/* What the programs share that make databases and capture their changes by sessions. */
#ifndef SESSION_H
#define SESSION_H

#include "common.h"

static inline void run(sqlite3 *db, const char *sql) {
    if (sqlite3_exec(db, sql, NULL, NULL, NULL) != SQLITE_OK) fail(sql, sqlite3_errmsg(db));
}

static inline sqlite3 *open_memory(void) {
    sqlite3 *db;
    if (sqlite3_open(":memory:", &db) != SQLITE_OK) fail("open", "no database");
    return db;
}

static inline sqlite3_stmt *prepare(sqlite3 *db, const char *sql) {
    sqlite3_stmt *statement;
    if (sqlite3_prepare_v2(db, sql, -1, &statement, NULL) != SQLITE_OK) fail(sql, sqlite3_errmsg(db));
    return statement;
}

static inline void execute(sqlite3 *db, sqlite3_stmt *statement) {
    if (sqlite3_step(statement) != SQLITE_DONE) fail("statement", sqlite3_errmsg(db));
    sqlite3_reset(statement);
}

/* A session that watches every table from here on. */
static inline sqlite3_session *watch(sqlite3 *db) {
    sqlite3_session *session;
    if (sqlite3session_create(db, "main", &session) != SQLITE_OK) fail("session", sqlite3_errmsg(db));
    if (sqlite3session_attach(session, NULL) != SQLITE_OK) fail("attach", sqlite3_errmsg(db));
    return session;
}

/* What the session captured, to be freed by sqlite3_free. The session is over. */
static inline void *end_session(sqlite3 *db, sqlite3_session *session, size_t *length) {
    int size = 0;
    void *bytes = NULL;
    if (sqlite3session_changeset(session, &size, &bytes) != SQLITE_OK) fail("changeset", sqlite3_errmsg(db));
    sqlite3session_delete(session);
    *length = (size_t)size;
    return bytes;
}

/* The next of a fixed sequence of numbers (xorshift), so that each run makes the same changes. */
static inline uint64_t next_number(uint64_t *state) {
    *state ^= *state << 13;
    *state ^= *state >> 7;
    *state ^= *state << 17;
    return *state;
}

/* All rows of a table, one a line, in the order of their keys. */
static inline void dump_table(sqlite3 *db, const char *name, const char *values, const char *keys, sqlite3_str *dump) {
    char *sql = sqlite3_mprintf("SELECT %s FROM \"%w\" ORDER BY %s", values, name, keys);
    sqlite3_stmt *rows = prepare(db, sql);
    sqlite3_str_appendf(dump, "%s\n", name);
    while (sqlite3_step(rows) == SQLITE_ROW) sqlite3_str_appendf(dump, "  %s\n", sqlite3_column_text(rows, 0));
    sqlite3_finalize(rows);
    sqlite3_free(sql);
}

/* All rows of all tables. */
static inline char *dump_rows(sqlite3 *db) {
    sqlite3_str *dump = sqlite3_str_new(db);
    sqlite3_stmt *tables = prepare(
        db, "SELECT name,"
            " (SELECT group_concat('quote(\"' || name || '\")', ' || '', '' || ') FROM pragma_table_info(tables.name)),"
            " (SELECT group_concat('\"' || name || '\"') FROM pragma_table_info(tables.name) WHERE pk > 0)"
            " FROM sqlite_schema AS tables WHERE type = 'table' ORDER BY name");
    while (sqlite3_step(tables) == SQLITE_ROW) {
        dump_table(db, (const char *)sqlite3_column_text(tables, 0), (const char *)sqlite3_column_text(tables, 1),
                   (const char *)sqlite3_column_text(tables, 2), dump);
    }
    sqlite3_finalize(tables);
    return sqlite3_str_finish(dump);
}

static inline int count_conflict(void *conflicts, int kind, sqlite3_changeset_iter *iter) {
    (void)kind;
    (void)iter;
    ++*(int *)conflicts;
    return SQLITE_CHANGESET_ABORT;
}

/* SQLite applies the changeset without a conflict, and these rows are there then. The database is closed. */
static inline void check_leads(const char *what, sqlite3 *db, const struct file *changeset, const char *rows) {
    int conflicts = 0;
    int result = sqlite3changeset_apply(db, (int)changeset->length, changeset->bytes, NULL, count_conflict, &conflicts);
    if (conflicts > 0) fail(what, "conflicts with the rows");
    if (result != SQLITE_OK) fail(what, sqlite3_errmsg(db));
    char *found = dump_rows(db);
    if (strcmp(found, rows) != 0) {
        fprintf(stderr, "expected\n%sfound\n%s", rows, found);
        fail(what, "leads to other rows");
    }
    sqlite3_free(found);
    sqlite3_close(db);
}

static inline void write_line(FILE *stream, const uint8_t *bytes, size_t length) {
    for (size_t i = 0; i < length; i++) fprintf(stream, "%02x", bytes[i]);
    fputc('\n', stream);
}

static inline FILE *create_in(const char *directory, const char *name, const char *ending) {
    char path[4096];
    snprintf(path, sizeof path, "%s/%s.%s", directory, name, ending);
    return create(path);
}

#endif
