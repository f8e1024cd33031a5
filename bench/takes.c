/* Times SQLite's way of `bench/takes_bench.rattle`: remote changesets are applied to rows in memory by `sqlite3changeset_apply_v2`, and
 * the local changeset rebased over the blob that this leaves. `bench/takes.sh` runs it. A line is how many local changes there are, what
 * was timed or counted, and the nanoseconds or the count. */
#include "sides.h"

enum { ROWS = 1000000, ENTRIES = 10, CHANGES = 1000 };

static sqlite3 *open_rows(void) {
    sqlite3 *db = open_memory();
    run(db, "CREATE TABLE t(k INTEGER PRIMARY KEY, v TEXT)");
    sqlite3_stmt *insert = prepare(db, "INSERT INTO t VALUES(?1, 'old text')");
    run(db, "BEGIN");
    for (int key = 0; key < ROWS; key++) {
        sqlite3_bind_int(insert, 1, key);
        execute(db, insert);
    }
    run(db, "COMMIT");
    sqlite3_finalize(insert);
    return db;
}

static void change_key(sqlite3 *db, sqlite3_stmt *statement, int key) {
    sqlite3_bind_int(statement, 1, key);
    execute(db, statement);
}

/* The change of an entry in a thousand rows: of the first of these where it meets a local change. */
static void change_place(sqlite3 *db, sqlite3_stmt *const statements[3], int entry, int place) {
    int first = place * (ROWS / CHANGES), other = first + 2 * entry + 1;
    if (place % ENTRIES == entry) change_key(db, statements[1], first);
    else change_key(db, statements[place % 3], place % 3 == 0 ? other + ROWS : other);
}

/* The changesets of the entries. */
static void capture_entries(struct buffer entries[ENTRIES]) {
    static const char *const changes[3] = {"INSERT INTO t VALUES(?1, 'theirs')", "UPDATE t SET v = 'theirs' WHERE k = ?1",
                                           "DELETE FROM t WHERE k = ?1"};
    sqlite3 *db = open_rows();
    sqlite3_stmt *statements[3];
    for (int i = 0; i < 3; i++) statements[i] = prepare(db, changes[i]);
    for (int entry = 0; entry < ENTRIES; entry++) {
        size_t length;
        sqlite3_session *session = watch(db);
        run(db, "BEGIN");
        for (int place = 0; place < CHANGES; place++) change_place(db, statements, entry, place);
        run(db, "COMMIT");
        void *bytes = end_session(db, session, &length);
        put(&entries[entry], bytes, length);
        sqlite3_free(bytes);
    }
    for (int i = 0; i < 3; i++) sqlite3_finalize(statements[i]);
    sqlite3_close(db);
}

/* Makes so many local changes, as far apart as they can be. */
static void *capture_local(sqlite3 *db, int count, size_t *length) {
    sqlite3_session *session = watch(db);
    sqlite3_stmt *update = prepare(db, "UPDATE t SET v = 'new text ' || ?1 WHERE k = ?1");
    run(db, "BEGIN");
    for (int number = 0; number < count; number++) change_key(db, update, number * (ROWS / count));
    run(db, "COMMIT");
    sqlite3_finalize(update);
    return end_session(db, session, length);
}

/* REPLACE and OMIT, in turn by the keys. */
static int answer_by_key(void *context, int kind, sqlite3_changeset_iter *iter) {
    sqlite3_value *key = NULL;
    (void)kind;
    ++*(unsigned *)context;
    if (sqlite3changeset_old(iter, 0, &key) != SQLITE_OK) fail("iterator", "no key");
    return sqlite3_value_int(key) / (ROWS / CHANGES) / ENTRIES % 2 ? SQLITE_CHANGESET_OMIT : SQLITE_CHANGESET_REPLACE;
}

static void time_entries(int count, struct buffer entries[ENTRIES]) {
    sqlite3 *db = open_rows();
    size_t length;
    struct buffer local = {0};
    void *bytes = capture_local(db, count, &length);
    put(&local, bytes, length);
    sqlite3_free(bytes);
    double best = 1e18, applied = 1e18;
    unsigned asked = 0;
    for (int entry = 0; entry < ENTRIES; entry++) {
        void *blob = NULL;
        int blob_length = 0, rebased_length = 0;
        double start = now();
        if (sqlite3changeset_apply_v2(db, (int)entries[entry].length, entries[entry].bytes, NULL, answer_by_key, &asked, &blob,
                                      &blob_length, 0) != SQLITE_OK) {
            fail("apply", sqlite3_errmsg(db));
        }
        double between = now();
        void *rebased = rebase(&local, blob, blob_length, &rebased_length);
        double end = now();
        if (end - start < best) best = end - start;
        if (between - start < applied) applied = between - start;
        local.length = 0;
        put(&local, rebased, (size_t)rebased_length);
        sqlite3_free(rebased);
        sqlite3_free(blob);
    }
    struct file file = {.bytes = local.bytes, .length = local.length};
    printf("%d applied %.0f\n%d rebased %.0f\n%d asked %u\n%d left %zu\n", count, applied, count, best, count, asked, count,
           sqlite_decode(&file));
    free(local.bytes);
    sqlite3_close(db);
}

int main(void) {
    struct buffer entries[ENTRIES] = {{0}};
    capture_entries(entries);
    time_entries(1000, entries);
    time_entries(100000, entries);
    return 0;
}
