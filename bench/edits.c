/* Times edits of single rows by SQLite, in memory, with a session that captures them: UPDATEs of the text of rows in no order, each
 * in a transaction of its own. `bench/edits.sh` runs it. A line is what was timed, and the nanoseconds that one edit took. */
#include "session.h"

#define ROWS 100000

static void update(sqlite3 *db, sqlite3_stmt *statement, uint64_t number) {
    char text[32];
    int length = snprintf(text, sizeof text, "new text %llu", (unsigned long long)number);
    sqlite3_bind_text(statement, 1, text, length, SQLITE_TRANSIENT);
    sqlite3_bind_int64(statement, 2, (sqlite3_int64)(number * 7919 % ROWS));
    execute(db, statement);
}

static double edit(sqlite3 *db, sqlite3_stmt *statement, uint64_t from, uint64_t to) {
    double start = now();
    for (uint64_t number = from; number < to; number++) update(db, statement, number);
    return (now() - start) / (double)(to - from);
}

int main(void) {
    sqlite3 *db = open_memory();
    run(db, "CREATE TABLE t (k INTEGER PRIMARY KEY, v TEXT)");
    run(db, "BEGIN");
    sqlite3_stmt *insert = prepare(db, "INSERT INTO t VALUES (?1, 'old text')");
    for (int key = 0; key < ROWS; key++) {
        sqlite3_bind_int64(insert, 1, key);
        execute(db, insert);
    }
    run(db, "COMMIT");
    sqlite3_session *session = watch(db);
    sqlite3_stmt *statement = prepare(db, "UPDATE t SET v = ?1 WHERE k = ?2");
    double first = edit(db, statement, 0, 10000);
    double middle = edit(db, statement, 10000, 90000);
    double last = edit(db, statement, 90000, ROWS);
    printf("first %.0f\nall %.0f\nlast %.0f\n", first, (first + 8 * middle + last) / 10, last);
    sqlite3_finalize(insert);
    sqlite3_finalize(statement);
    sqlite3session_delete(session);
    sqlite3_close(db);
    return 0;
}
