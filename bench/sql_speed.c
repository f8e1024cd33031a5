/* Times the statements of a store in SQLite by Debian's library: what `bench/sql_speed.sh` holds the store to.
 * Usage: sql_speed WAL|DELETE|fill|read|sum PATH
 * With a journal mode: 10,000 commits of a row and a pending change, 10,000 of a row and an entry of a log, each in a transaction that is
 * synced, and 10,000 reads of a row. `fill` makes the store of a replica with 1,000,000 rows, and `read` reads these; `sum` reads the
 * rows and the log of any store. A line is what was timed, and the nanoseconds that one took. */
#include <sqlite3.h>
#include <stdint.h>
#include <stdio.h>
#include <stdlib.h>
#include <string.h>
#include <time.h>

enum { COMMITS = 10000, MANY = 1000000 };

static sqlite3 *db;

static void need(int code, int wanted) {
    if (code != wanted) {
        printf("WRONG: %s\n", sqlite3_errmsg(db));
        exit(1);
    }
}

static void run(const char *sql) {
    need(sqlite3_exec(db, sql, 0, 0, 0), SQLITE_OK);
}

static sqlite3_stmt *prepared(const char *sql) {
    sqlite3_stmt *statement;
    need(sqlite3_prepare_v2(db, sql, -1, &statement, 0), SQLITE_OK);
    return statement;
}

static int64_t now(void) {
    struct timespec time;
    clock_gettime(CLOCK_MONOTONIC, &time);
    return time.tv_sec * INT64_C(1000000000) + time.tv_nsec;
}

static void make_tables(void) {
    run("CREATE TABLE rows (tab INTEGER NOT NULL, key BLOB NOT NULL, body BLOB NOT NULL, PRIMARY KEY (tab, key)) STRICT");
    run("CREATE TABLE meta (name TEXT NOT NULL PRIMARY KEY, body BLOB NOT NULL) STRICT");
    run("CREATE TABLE log (version INTEGER PRIMARY KEY, origin INTEGER NOT NULL, number INTEGER NOT NULL, body BLOB NOT NULL) STRICT");
    run("CREATE TABLE pending (tab INTEGER NOT NULL, key BLOB NOT NULL, body BLOB NOT NULL, PRIMARY KEY (tab, key)) STRICT");
}

/* The record of an integer: the key of a row. */
static void put_key(unsigned char *key, uint64_t number) {
    key[0] = 1;
    for (int at = 0; at < 8; at++) key[8 - at] = (unsigned char)(number >> (8 * at));
}

/* The record of an integer and a text of 16 bytes: the row. */
static void put_row(unsigned char *row, uint64_t number) {
    char text[17];
    put_key(row, number);
    row[9] = 3;
    row[10] = 16;
    snprintf(text, sizeof text, "%016llu", (unsigned long long)number);
    memcpy(row + 11, text, 16);
}

static void put_place(sqlite3_stmt *delete, sqlite3_stmt *insert, const unsigned char *key, const unsigned char *body, int size) {
    sqlite3_bind_int64(delete, 1, 0);
    sqlite3_bind_blob(delete, 2, key, 9, SQLITE_STATIC);
    need(sqlite3_step(delete), SQLITE_DONE);
    sqlite3_reset(delete);
    sqlite3_bind_int64(insert, 1, 0);
    sqlite3_bind_blob(insert, 2, key, 9, SQLITE_STATIC);
    sqlite3_bind_blob(insert, 3, body, size, SQLITE_STATIC);
    need(sqlite3_step(insert), SQLITE_DONE);
    sqlite3_reset(insert);
}

static void commit_all(const char *name, int logs) {
    sqlite3_stmt *begin = prepared("BEGIN IMMEDIATE"), *commit = prepared("COMMIT");
    sqlite3_stmt *out = prepared("DELETE FROM rows WHERE tab = ?1 AND key = ?2"), *in = prepared("INSERT INTO rows VALUES (?1, ?2, ?3)");
    sqlite3_stmt *off = prepared("DELETE FROM pending WHERE tab = ?1 AND key = ?2"), *on = prepared("INSERT INTO pending VALUES (?1, ?2, ?3)");
    sqlite3_stmt *log = prepared("INSERT INTO log VALUES (?1, ?2, ?3, ?4)");
    unsigned char key[9], row[27], change[29] = {18, 0};
    int64_t start = now();
    for (int64_t number = 0; number < COMMITS; number++) {
        put_key(key, (uint64_t)(number * 7919 % COMMITS));
        put_row(row, (uint64_t)(number * 7919 % COMMITS));
        memcpy(change + 2, row, sizeof row);
        need(sqlite3_step(begin), SQLITE_DONE);
        sqlite3_reset(begin);
        put_place(out, in, key, row, sizeof row);
        if (logs) {
            sqlite3_bind_int64(log, 1, number);
            sqlite3_bind_int64(log, 2, 7);
            sqlite3_bind_int64(log, 3, number + 1);
            sqlite3_bind_blob(log, 4, change, sizeof change, SQLITE_STATIC);
            need(sqlite3_step(log), SQLITE_DONE);
            sqlite3_reset(log);
        } else {
            put_place(off, on, key, change, sizeof change);
        }
        need(sqlite3_step(commit), SQLITE_DONE);
        sqlite3_reset(commit);
    }
    printf("%s %lld\n", name, (long long)((now() - start) / COMMITS));
    sqlite3_stmt *all[] = {begin, commit, out, in, off, on, log};
    for (size_t at = 0; at < sizeof all / sizeof *all; at++) sqlite3_finalize(all[at]);
}

static void get_all(void) {
    sqlite3_stmt *get = prepared("SELECT body FROM rows WHERE tab = ?1 AND key = ?2");
    unsigned char key[9];
    int64_t start = now(), bytes = 0;
    for (int64_t number = 0; number < COMMITS; number++) {
        put_key(key, (uint64_t)(number * 4801 % COMMITS));
        sqlite3_bind_int64(get, 1, 0);
        sqlite3_bind_blob(get, 2, key, 9, SQLITE_STATIC);
        need(sqlite3_step(get), SQLITE_ROW);
        bytes += sqlite3_column_bytes(get, 0);
        sqlite3_reset(get);
    }
    if (bytes != INT64_C(27) * COMMITS) puts("WRONG: bytes");
    printf("get %lld\n", (long long)((now() - start) / COMMITS));
    sqlite3_finalize(get);
}

static void fill(void) {
    unsigned char key[9], row[27];
    make_tables();
    run("BEGIN");
    sqlite3_stmt *in = prepared("INSERT INTO rows VALUES (0, ?1, ?2)");
    for (uint64_t number = 0; number < MANY; number++) {
        put_key(key, number);
        put_row(row, number);
        sqlite3_bind_blob(in, 1, key, 9, SQLITE_STATIC);
        sqlite3_bind_blob(in, 2, row, sizeof row, SQLITE_STATIC);
        need(sqlite3_step(in), SQLITE_DONE);
        sqlite3_reset(in);
    }
    sqlite3_finalize(in);
    run("INSERT INTO meta VALUES ('id', x'00000000'), ('version', x'0000000000000000'), ('number', x'0000000000000000'), "
        "('catalog', x'540201007400')");
    run("COMMIT");
}

static void read_all(void) {
    int64_t start = now(), bytes = 0, count = 0;
    sqlite3_stmt *all = prepared("SELECT tab, key, body FROM rows");
    for (; sqlite3_step(all) == SQLITE_ROW; count++) bytes += sqlite3_column_bytes(all, 1) + sqlite3_column_bytes(all, 2);
    sqlite3_finalize(all);
    if (count != MANY || bytes != INT64_C(36) * MANY) puts("WRONG: rows");
    printf("read %lld\n", (long long)(now() - start));
}

static int64_t bytes_of(const char *sql, int64_t *rows) {
    int64_t bytes = 0;
    sqlite3_stmt *all = prepared(sql);
    for (; sqlite3_step(all) == SQLITE_ROW; ++*rows)
        for (int column = 0; column < sqlite3_column_count(all); column++) bytes += sqlite3_column_bytes(all, column);
    sqlite3_finalize(all);
    return bytes;
}

static void sum_all(void) {
    int64_t start = now(), rows = 0;
    int64_t bytes = bytes_of("SELECT key, body FROM rows", &rows) + bytes_of("SELECT body FROM log ORDER BY version", &rows);
    int64_t took = now() - start;
    printf("C reads %lld rows and entries of %lld bytes: %lld ms\n", (long long)rows, (long long)bytes, (long long)(took / 1000000));
}

int main(int count, char **words) {
    if (count != 3) return 2;
    need(sqlite3_open(words[2], &db), SQLITE_OK);
    if (!strcmp(words[1], "fill")) {
        fill();
    } else if (!strcmp(words[1], "read")) {
        read_all();
    } else if (!strcmp(words[1], "sum")) {
        sum_all();
    } else {
        char mode[64];
        snprintf(mode, sizeof mode, "PRAGMA journal_mode = %s", words[1]);
        run(mode);
        run("PRAGMA synchronous = FULL");
        make_tables();
        commit_all("replica", 0);
        commit_all("hub", 1);
        get_all();
    }
    sqlite3_close(db);
    return 0;
}
