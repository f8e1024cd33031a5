/* Checks that a local changeset that the library rebases and writes for SQLite is one that SQLite applies: on tables with keys of
 * one, two and three columns, in the order of the columns and out of it.
 *
 * check_rebase DIRECTORY   for each table below, and for both answers to begin with: sessions capture what a local and a remote
 *                          program did to the same rows. SQLite applies the remote changeset to the local rows, and leaves a
 *                          rebase blob; over that the library rebases the local changeset, and writes it for SQLite, which applies
 *                          it to the remote rows without a conflict. Both sides then have the same rows, and not those that the
 *                          remote one had. What the library wrote before, in normal form, SQLite passes over where a key has
 *                          several columns. Writes DIRECTORY/NAME.lines, the local changeset and the blob in hex, and
 *                          DIRECTORY/NAME.rebased, what the library makes of them for SQLite */
#include "combining.h"
#include "session.h"

/* A table of which each row has a number, and what its key columns hold in the row of this number. */
struct table {
    const char *name;
    const char *create;
    const char *columns; /* its key columns */
    const char *keys;    /* what they hold in the row `k` */
    const char *number;  /* the number of a row */
    int passed_over;     /* whether SQLite passes over its normal form */
};

static const struct table tables[] = {
    {"one_column", "CREATE TABLE t(id INTEGER PRIMARY KEY, v, w)", "id", "k", "id", 0},
    {"one_column_behind", "CREATE TABLE t(v, w, id TEXT PRIMARY KEY NOT NULL)", "id", "k", "id", 0},
    {"two_columns", "CREATE TABLE t(a, v, b, w, PRIMARY KEY(a, b)) WITHOUT ROWID", "a, b", "k % 3, k / 3", "a + 3 * b", 1},
    {"two_columns_turned", "CREATE TABLE t(a, v, b, w, PRIMARY KEY(b, a)) WITHOUT ROWID", "a, b", "k % 3, k / 3", "a + 3 * b", 1},
    {"three_columns", "CREATE TABLE t(a, b, v, c, w, PRIMARY KEY(a, b, c)) WITHOUT ROWID", "a, b, c", "k % 2, k / 2 % 2, k / 4",
     "a + 2 * b + 4 * c", 1},
    {"three_columns_turned", "CREATE TABLE t(a, b, v, c, w, PRIMARY KEY(c, a, b)) WITHOUT ROWID", "a, b, c",
     "k % 2, k / 2 % 2, k / 4", "a + 2 * b + 4 * c", 1},
};

/* Inserts rows of the numbers `first` to `last`. */
static void insert_rows(sqlite3 *db, const struct table *table, int first, int last, const char *value) {
    char *sql = sqlite3_mprintf("WITH RECURSIVE number(k) AS (VALUES(%d) UNION ALL SELECT k + 1 FROM number WHERE k < %d)"
                                " INSERT INTO t(%s, v, w) SELECT %s, %Q, k FROM number",
                                first, last, table->columns, table->keys, value);
    run(db, sql);
    sqlite3_free(sql);
}

/* Runs a change of the rows of these numbers. */
static void change_rows(sqlite3 *db, const struct table *table, const char *change, const char *numbers) {
    char *sql = sqlite3_mprintf("%s WHERE %s IN (%s)", change, table->number, numbers);
    run(db, sql);
    sqlite3_free(sql);
}

/* Rows 1 to 8, and what one side did to them: both change the rows 1 to 5 and make the row 9. */
static sqlite3 *open_side(const struct table *table, int is_remote, struct file *captured) {
    sqlite3 *db = open_memory();
    run(db, table->create);
    insert_rows(db, table, 1, 8, "before");
    sqlite3_session *session = watch(db);
    if (is_remote) {
        change_rows(db, table, "UPDATE t SET v = 'remote'", "1, 2, 4, 7");
        change_rows(db, table, "DELETE FROM t", "3, 5");
        insert_rows(db, table, 9, 10, "remote");
    } else {
        change_rows(db, table, "UPDATE t SET v = 'local'", "1, 2, 3, 6");
        change_rows(db, table, "DELETE FROM t", "4, 5");
        insert_rows(db, table, 9, 9, "local");
        insert_rows(db, table, 11, 11, "local");
    }
    size_t length;
    void *bytes = end_session(db, session, &length);
    *captured = copy_file(bytes, length);
    sqlite3_free(bytes);
    return db;
}

/* Answers OMIT and REPLACE in turn, and OMIT where there is no row to replace. */
static int answer_in_turn(void *context, int kind, sqlite3_changeset_iter *iter) {
    int *next = context;
    (void)iter;
    int has_row = kind == SQLITE_CHANGESET_DATA || kind == SQLITE_CHANGESET_CONFLICT;
    return (*next)++ % 2 == 1 && has_row ? SQLITE_CHANGESET_REPLACE : SQLITE_CHANGESET_OMIT;
}

/* SQLite applies the remote changeset to the local rows; the blob that this leaves. */
static struct file apply_remote(const char *name, sqlite3 *local, const struct file *remote, int first_answer) {
    struct bytes blob = {NULL, 0};
    if (sqlite3changeset_apply_v2(local, (int)remote->length, remote->bytes, NULL, answer_in_turn, &first_answer, &blob.start,
                                  &blob.length, 0) != SQLITE_OK) {
        fail(name, sqlite3_errmsg(local));
    }
    if (blob.length == 0) fail(name, "nothing conflicts");
    return file_of(blob);
}

/* The local changeset over the blob, in normal form. */
static struct file rebase(const char *name, const struct file *local, const struct file *blob) {
    struct file rebased = new_file(name, local->length + blob->length);
    struct cs_ffi_answer answer =
        cs_ffi_rebase(local->bytes, local->length, blob->bytes, blob->length, rebased.bytes, rebased.length);
    if (answer.fault != 0 || answer.count > rebased.length) fail(name, "isn't rebased");
    rebased.length = answer.count;
    return rebased;
}

static void write_case(const char *directory, const char *name, const struct file *local, const struct file *blob,
                       const struct file *rebased) {
    FILE *lines = create_in(directory, name, "lines"), *expected = create_in(directory, name, "rebased");
    write_line(lines, local->bytes, local->length);
    write_line(lines, blob->bytes, blob->length);
    write_line(expected, rebased->bytes, rebased->length);
    if (fclose(lines) != 0 || fclose(expected) != 0) fail(directory, "can't be written");
}

static void check_table(const char *directory, const struct table *table, int first_answer) {
    char name[64];
    snprintf(name, sizeof name, "%s_%s", table->name, first_answer ? "replace" : "omit");
    struct file local, remote;
    sqlite3 *local_rows = open_side(table, 0, &local), *remote_rows = open_side(table, 1, &remote);
    struct file blob = apply_remote(name, local_rows, &remote, first_answer);
    struct file normal = rebase(name, &local, &blob);
    struct file rebased = for_sqlite(name, &local, normal.bytes, normal.length);

    char *merged = dump_rows(local_rows), *before = dump_rows(remote_rows);
    if (strcmp(merged, before) == 0) fail(name, "changes no row");
    if (table->passed_over) {
        struct file other;
        check_leads(name, open_side(table, 1, &other), &normal, before);
        free_file(&other);
    }
    check_leads(name, remote_rows, &rebased, merged);
    write_case(directory, name, &local, &blob, &rebased);

    sqlite3_free(merged);
    sqlite3_free(before);
    sqlite3_close(local_rows);
    free_file(&local);
    free_file(&remote);
    free_file(&blob);
    free_file(&normal);
    free_file(&rebased);
}

int main(int count, char **words) {
    if (count != 2) {
        fprintf(stderr, "usage: check_rebase DIRECTORY\n");
        return 2;
    }
    size_t checked = sizeof tables / sizeof *tables;
    for (size_t i = 0; i < checked; i++) {
        check_table(words[1], &tables[i], 0);
        check_table(words[1], &tables[i], 1);
    }
    printf("%zu local changesets rebased, and written for SQLite, which applies them: the rows of both sides meet\n", 2 * checked);
    return 0;
}
