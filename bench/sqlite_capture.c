/* Captures changesets with SQLite's session extension, for the checks and the benchmarks of this folder.
 *
 * sqlite_capture cases DIRECTORY               writes DIRECTORY/NAME.changeset for each of the small cases below
 * sqlite_capture changes COUNT FILE            writes one changeset of COUNT changes of a table with four columns
 * sqlite_capture overlapping COUNT SIZE FILE   writes COUNT changesets of SIZE changes of that table one after another,
 *                                              and how long each is, one a line, into FILE.lengths
 * sqlite_capture hot COUNT ROWS FILE           the same of COUNT changesets of one change each, to so many rows in turn
 * sqlite_capture tables COUNT TABLES FILE      the same of COUNT changesets that insert a row into each of TABLES tables
 *
 * No case has a REAL value: this project's profile of the format refuses them. */
#include "session.h"

/* Writes what the session captured, and gives its length in bytes. The session is over. */
static size_t append_changeset(sqlite3 *db, sqlite3_session *session, FILE *stream) {
    size_t length;
    void *bytes = end_session(db, session, &length);
    if (length > 0 && fwrite(bytes, 1, length, stream) != length) fail("changeset", "can't be written");
    sqlite3_free(bytes);
    return length;
}

static void write_changeset(sqlite3 *db, sqlite3_session *session, const char *path) {
    FILE *stream = create(path);
    append_changeset(db, session, stream);
    if (fclose(stream) != 0) fail(path, "can't be written");
}

/* A small case: what is there before the session begins, and what the session captures. */
struct one_case {
    const char *name;
    const char *before;
    const char *captured;
};

static const struct one_case cases[] = {
    {"nothing", "CREATE TABLE t(id INTEGER PRIMARY KEY, v TEXT);", "SELECT 1;"},
    {"insert", "CREATE TABLE t(id INTEGER PRIMARY KEY, v TEXT);", "INSERT INTO t VALUES(1, 'v1'), (2, NULL);"},
    {"update", "CREATE TABLE t(id INTEGER PRIMARY KEY, v TEXT, w); INSERT INTO t VALUES(1, 'v1', 7), (2, 'v2', x'00ff');",
     "UPDATE t SET v = 'v3' WHERE id = 1; UPDATE t SET w = NULL WHERE id = 2;"},
    {"delete", "CREATE TABLE t(id INTEGER PRIMARY KEY, v TEXT); INSERT INTO t VALUES(1, 'v1'), (2, NULL);", "DELETE FROM t;"},
    {"integers", "CREATE TABLE t(id INTEGER PRIMARY KEY, v INTEGER);",
     "INSERT INTO t VALUES(-9223372036854775807 - 1, 9223372036854775807), (9223372036854775807, -9223372036854775807 - 1), "
     "(-1, 0), (0, -1), (127, 128), (-128, 32768), (4294967296, -4294967297);"},
    {"texts", "CREATE TABLE t(id TEXT PRIMARY KEY NOT NULL, v TEXT);",
     "INSERT INTO t VALUES('', 'an empty key'), ('a', ''), ('gr\xc3\xbc\xc3\x9f', '\xe2\x82\xac \xf0\x9f\x8c\x8d'), "
     "('long', hex(zeroblob(20000))), ('width 127', hex(zeroblob(63)) || 'x'), ('width 128', hex(zeroblob(64)));"},
    {"blobs", "CREATE TABLE t(id BLOB PRIMARY KEY NOT NULL, v BLOB);",
     "INSERT INTO t VALUES(x'', x'00'), (x'00', x''), (x'ff00ff', zeroblob(16384)), (x'54', zeroblob(127)), (x'50', zeroblob(128));"},
    {"several_key_columns",
     "CREATE TABLE t(a INTEGER, b TEXT, c BLOB, d, PRIMARY KEY(c, a)); INSERT INTO t VALUES(1, 'b', x'01', 4), (2, 'b', x'01', NULL);",
     "INSERT INTO t VALUES(1, NULL, x'02', 'd'); UPDATE t SET b = 'bb', d = x'd0' WHERE a = 1; DELETE FROM t WHERE a = 2;"},
    {"without_rowid",
     "CREATE TABLE t(a TEXT, b INTEGER, c TEXT, PRIMARY KEY(b, a)) WITHOUT ROWID; INSERT INTO t VALUES('x', 1, 'c'), ('y', 1, 'd');",
     "UPDATE t SET c = 'cc' WHERE a = 'x'; DELETE FROM t WHERE a = 'y'; INSERT INTO t VALUES('z', 3, NULL);"},
    {"several_tables",
     "CREATE TABLE one(id INTEGER PRIMARY KEY, v); CREATE TABLE \"two words\"(id INTEGER PRIMARY KEY); CREATE TABLE dr\xc3\xb6i(k TEXT PRIMARY KEY NOT NULL, v);",
     "INSERT INTO one VALUES(1, 'a'); INSERT INTO \"two words\" VALUES(3), (4); INSERT INTO dr\xc3\xb6i VALUES('k', x'00'); INSERT INTO one VALUES(2, NULL);"},
    {"key_moved", "CREATE TABLE t(id INTEGER PRIMARY KEY, v TEXT); INSERT INTO t VALUES(1, 'v1');", "UPDATE t SET id = 5;"},
    {"emptied_again", "CREATE TABLE t(id INTEGER PRIMARY KEY, v TEXT);", "INSERT INTO t VALUES(1, 'v1'); DELETE FROM t;"},
};

/* A table of 200 columns with one row inserted and one updated. */
static void capture_wide(const char *path) {
    enum { COLUMNS = 200 };
    char *create = sqlite3_mprintf("CREATE TABLE wide(c0 INTEGER PRIMARY KEY");
    for (int column = 1; column < COLUMNS; column++) create = sqlite3_mprintf("%z, c%d", create, column);
    sqlite3 *db = open_memory();
    create = sqlite3_mprintf("%z)", create);
    run(db, create);
    run(db, "INSERT INTO wide(c0, c199) VALUES(1, 'last')");
    sqlite3_session *session = watch(db);
    run(db, "INSERT INTO wide(c0, c1, c198) VALUES(2, 'first', x'c198'); UPDATE wide SET c100 = 100 WHERE c0 = 1;");
    write_changeset(db, session, path);
    sqlite3_free(create);
    sqlite3_close(db);
}

/* Changes made by a trigger, which the session marks as indirect where it is told so. */
static void capture_indirect(const char *path) {
    sqlite3 *db = open_memory();
    run(db, "CREATE TABLE t(id INTEGER PRIMARY KEY, v TEXT); CREATE TABLE log(id INTEGER PRIMARY KEY, v TEXT);"
            "CREATE TRIGGER after_t AFTER INSERT ON t BEGIN INSERT INTO log VALUES(new.id, new.v); END;");
    sqlite3_session *session = watch(db);
    run(db, "INSERT INTO t VALUES(1, 'by hand')");
    sqlite3session_indirect(session, 1);
    run(db, "INSERT INTO t VALUES(2, 'told so')");
    write_changeset(db, session, path);
    sqlite3_close(db);
}

static void capture_cases(const char *directory) {
    char path[4096];
    for (size_t i = 0; i < sizeof cases / sizeof cases[0]; i++) {
        sqlite3 *db = open_memory();
        run(db, cases[i].before);
        sqlite3_session *session = watch(db);
        run(db, cases[i].captured);
        snprintf(path, sizeof path, "%s/%s.changeset", directory, cases[i].name);
        write_changeset(db, session, path);
        sqlite3_close(db);
    }
    snprintf(path, sizeof path, "%s/wide.changeset", directory);
    capture_wide(path);
    snprintf(path, sizeof path, "%s/indirect.changeset", directory);
    capture_indirect(path);
}

/* A text of 5 to 50 bytes. */
static void bind_text(sqlite3_stmt *statement, int parameter, uint64_t *state) {
    char text[51];
    int length = 5 + (int)(next_number(state) % 46);
    for (int i = 0; i < length; i++) text[i] = (char)('a' + next_number(state) % 26);
    sqlite3_bind_text(statement, parameter, text, length, SQLITE_TRANSIENT);
}

/* The table with four columns, and what changes it. */
struct items {
    sqlite3 *db;
    sqlite3_stmt *insert, *update, *delete;
    uint64_t state; /* of the sequence of numbers */
};

static struct items open_items(void) {
    sqlite3 *db = open_memory();
    run(db, "CREATE TABLE items(id INTEGER PRIMARY KEY, name TEXT, amount INTEGER, note TEXT)");
    return (struct items){
        .db = db,
        .insert = prepare(db, "INSERT INTO items VALUES(?1, ?2, ?3, ?4)"),
        .update = prepare(db, "UPDATE items SET name = ?2, amount = ?3 WHERE id = ?1"),
        .delete = prepare(db, "DELETE FROM items WHERE id = ?1"),
        .state = 88172645463325252u,
    };
}

static void close_items(struct items *items) {
    sqlite3_finalize(items->insert);
    sqlite3_finalize(items->update);
    sqlite3_finalize(items->delete);
    sqlite3_close(items->db);
}

/* Runs one of the three statements for a key, with new values. */
static void change_item(struct items *items, sqlite3_stmt *statement, sqlite3_int64 id) {
    sqlite3_bind_int64(statement, 1, id);
    if (statement != items->delete) {
        bind_text(statement, 2, &items->state);
        sqlite3_bind_int64(statement, 3, (sqlite3_int64)next_number(&items->state));
    }
    if (statement == items->insert) bind_text(statement, 4, &items->state);
    execute(items->db, statement);
}

/* COUNT changes, by turns an INSERT, an UPDATE of two columns and a DELETE. */
static void capture_changes(long count, const char *path) {
    struct items items = open_items();
    run(items.db, "BEGIN");
    for (long id = 0; id < count; id++) {
        if (id % 3 != 0) change_item(&items, items.insert, id);
    }
    run(items.db, "COMMIT");
    sqlite3_session *session = watch(items.db);
    run(items.db, "BEGIN");
    for (long id = 0; id < count; id++) {
        change_item(&items, id % 3 == 0 ? items.insert : id % 3 == 1 ? items.update : items.delete, id);
    }
    run(items.db, "COMMIT");
    write_changeset(items.db, session, path);
    close_items(&items);
}

/* A key that a changeset changes, and whether its row is there. */
struct slot {
    sqlite3_int64 id;
    int there;
};

/* Puts a row there, or gives it new values, or takes it away one time in five. */
static void change_slot(struct items *items, struct slot *slot) {
    int goes = slot->there && next_number(&items->state) % 5 == 0;
    change_item(items, !slot->there ? items->insert : goes ? items->delete : items->update, slot->id);
    slot->there = !goes;
}

/* New keys for the slots from this one on. */
static void renew(struct slot *slots, long from, long size, sqlite3_int64 *next_id) {
    for (long i = from; i < size; i++) slots[i] = (struct slot){(*next_id)++, 0};
}

/* The keys of the next changeset: each second one of those of the changeset before, and as many new ones. */
static void move_on(struct slot *slots, long size, sqlite3_int64 *next_id) {
    for (long i = 0; i < size / 2; i++) slots[i] = slots[2 * i];
    renew(slots, size / 2, size, next_id);
}

static void change_slots(struct items *items, struct slot *slots, long size) {
    run(items->db, "BEGIN");
    for (long i = 0; i < size; i++) change_slot(items, &slots[i]);
    run(items->db, "COMMIT");
}

/* Files of changesets one after another, and of how long each is. */
struct captured {
    FILE *stream, *lengths;
};

static struct captured create_both(const char *path) {
    char lengths_path[4096];
    snprintf(lengths_path, sizeof lengths_path, "%s.lengths", path);
    return (struct captured){.stream = create(path), .lengths = create(lengths_path)};
}

static void append_with_length(struct captured *captured, sqlite3 *db, sqlite3_session *session) {
    fprintf(captured->lengths, "%zu\n", append_changeset(db, session, captured->stream));
}

static void close_both(struct captured *captured, const char *path) {
    if (fclose(captured->stream) != 0 || fclose(captured->lengths) != 0) fail(path, "can't be written");
}

/* COUNT changesets of SIZE changes each, which follow on one another. Half of the keys of each are keys of the one before:
 * of those, half were new there, so that a key stays for two changesets on average, and some for many. */
static void capture_overlapping(long count, long size, const char *path) {
    struct captured captured = create_both(path);
    struct items items = open_items();
    struct slot *slots = calloc((size_t)size, sizeof *slots);
    if (!slots) fail(path, "no memory");
    sqlite3_int64 next_id = 0;
    renew(slots, 0, size, &next_id);
    change_slots(&items, slots, size);
    for (long changeset = 0; changeset < count; changeset++) {
        move_on(slots, size, &next_id);
        sqlite3_session *session = watch(items.db);
        change_slots(&items, slots, size);
        append_with_length(&captured, items.db, session);
    }
    close_both(&captured, path);
    free(slots);
    close_items(&items);
}

/* COUNT changesets of one change each, of rows that are changed in turn. */
static void capture_hot(long count, long rows, const char *path) {
    struct captured captured = create_both(path);
    struct items items = open_items();
    struct slot *slots = calloc((size_t)rows, sizeof *slots);
    if (!slots) fail(path, "no memory");
    sqlite3_int64 next_id = 0;
    renew(slots, 0, rows, &next_id);
    for (long changeset = 0; changeset < count; changeset++) {
        sqlite3_session *session = watch(items.db);
        change_slots(&items, &slots[changeset % rows], 1);
        append_with_length(&captured, items.db, session);
    }
    close_both(&captured, path);
    free(slots);
    close_items(&items);
}

/* Makes a table, and what inserts a row into it. */
static sqlite3_stmt *new_table(sqlite3 *db, long number) {
    char sql[128];
    snprintf(sql, sizeof sql, "CREATE TABLE t%ld(id INTEGER PRIMARY KEY, v TEXT)", number);
    run(db, sql);
    snprintf(sql, sizeof sql, "INSERT INTO t%ld VALUES(?1, ?2)", number);
    return prepare(db, sql);
}

static void insert_into_all(sqlite3 *db, sqlite3_stmt **inserts, long tables, long id, uint64_t *state) {
    run(db, "BEGIN");
    for (long table = 0; table < tables; table++) {
        sqlite3_bind_int64(inserts[table], 1, id);
        bind_text(inserts[table], 2, state);
        execute(db, inserts[table]);
    }
    run(db, "COMMIT");
}

/* COUNT changesets, each of which inserts a row into each of so many tables. */
static void capture_tables(long count, long tables, const char *path) {
    struct captured captured = create_both(path);
    uint64_t state = 88172645463325252u;
    sqlite3 *db = open_memory();
    sqlite3_stmt **inserts = calloc((size_t)tables, sizeof *inserts);
    if (!inserts) fail(path, "no memory");
    for (long table = 0; table < tables; table++) inserts[table] = new_table(db, table);
    for (long changeset = 0; changeset < count; changeset++) {
        sqlite3_session *session = watch(db);
        insert_into_all(db, inserts, tables, changeset, &state);
        append_with_length(&captured, db, session);
    }
    close_both(&captured, path);
    for (long table = 0; table < tables; table++) sqlite3_finalize(inserts[table]);
    free(inserts);
    sqlite3_close(db);
}

int main(int count, char **words) {
    const char *mode = count > 1 ? words[1] : "";
    if (count == 3 && strcmp(mode, "cases") == 0) {
        capture_cases(words[2]);
    } else if (count == 4 && strcmp(mode, "changes") == 0) {
        capture_changes(strtol(words[2], NULL, 10), words[3]);
    } else if (count == 5 && strcmp(mode, "overlapping") == 0) {
        capture_overlapping(strtol(words[2], NULL, 10), strtol(words[3], NULL, 10), words[4]);
    } else if (count == 5 && strcmp(mode, "hot") == 0) {
        capture_hot(strtol(words[2], NULL, 10), strtol(words[3], NULL, 10), words[4]);
    } else if (count == 5 && strcmp(mode, "tables") == 0) {
        capture_tables(strtol(words[2], NULL, 10), strtol(words[3], NULL, 10), words[4]);
    } else {
        fprintf(stderr, "usage: sqlite_capture cases DIRECTORY | changes COUNT FILE | overlapping COUNT SIZE FILE | hot COUNT ROWS FILE | tables COUNT TABLES FILE\n");
        return 2;
    }
    return 0;
}
