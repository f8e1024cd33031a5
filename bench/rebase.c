/* SQLite's side of `bench/rebase.sh`: applies remote changesets by `sqlite3changeset_apply_v2`, rebases local ones by `sqlite3rebaser`
 * over the blobs that this leaves, and writes the cases for the library's program (`rebase_program.rattle` says how).
 *
 * rebase cases COUNT CASES EXPECTED    draws cases, writes them to the file CASES, and what SQLite makes of them to the file EXPECTED,
 *                                      in the text that the library's program prints; `rebase.awk` compares the two
 * rebase time ROUNDS LOCAL APART FIRST ENTRIES CASE
 *                                      so many local changes, each at a key so far from the last one's, rebased over a blob of so many
 *                                      entries, at this key and those behind it; writes the case to the file CASE, and prints the
 *                                      nanoseconds of SQLite's fastest round, and how many changes are left */
#include "sides.h"

/* ---- drawn cases */

static const char *operation_name(int operation) {
    return operation == SQLITE_INSERT ? "INSERT" : operation == SQLITE_UPDATE ? "UPDATE" : "DELETE";
}

/* How conflicts are answered, and what is written down of them. */
struct answering {
    const struct deeds *local;
    int lawful; /* no answer is drawn but lawful ones */
    struct buffer lines, answers;
};

/* Draws an answer to a conflict: OMIT is lawful unless the remote UPDATE modifies a column that the local UPDATE doesn't, and
 * REPLACE wherever SQLite takes it. */
static int answer_drawn(void *context, int kind, sqlite3_changeset_iter *iter) {
    struct answering *answering = context;
    struct deed remote = deed_at(iter);
    const struct deed *local = deed_of(answering->local, &remote);
    int covered = covers(local, &remote);
    int answer = kind == SQLITE_CHANGESET_NOTFOUND ? SQLITE_CHANGESET_OMIT : draw(2) ? SQLITE_CHANGESET_REPLACE : SQLITE_CHANGESET_OMIT;
    if (answering->lawful && !covered) answer = SQLITE_CHANGESET_REPLACE;
    int is_lawful = answer == SQLITE_CHANGESET_REPLACE || covered;
    char *line = sqlite3_mprintf("place %d %s %s over %s, %s%s\n", remote.table, remote.key.bytes, operation_name(local->operation),
                                 operation_name(remote.operation), answer ? "REPLACE" : "OMIT", is_lawful ? "" : " (not lawful)");
    put_text(&answering->lines, line);
    put_byte(&answering->answers, (uint8_t)('0' + answer));
    sqlite3_free(line);
    free(remote.key.bytes);
    return answer;
}

/* Draws a case: rows, two changesets that were made to them, and answers to the conflicts of the remote one with the local one. */
static void draw_case(struct buffer *cases, struct buffer *expected, int lawful) {
    sqlite3 *base = open_tables(TABLES);
    change_some(base, TABLES, draw(100));
    struct buffer local = {0}, remote = {0};
    sqlite3 *mine = open_changed(base, &local), *theirs = open_changed(base, &remote);
    struct deeds deeds = deeds_of(&local);
    put_declared_part(cases, TABLES);
    put_rows_part(cases, mine, TABLES);
    put_rows_part(cases, theirs, TABLES);
    put_part(cases, local.bytes, local.length);
    put_part(cases, remote.bytes, remote.length);

    struct answering answering = {.local = &deeds, .lawful = lawful};
    void *blob = NULL;
    int blob_length = 0, rebased_length = 0;
    unsigned met = 0;
    if (sqlite3changeset_apply_v2(mine, (int)remote.length, remote.bytes, NULL, answer_drawn, &answering, &blob, &blob_length, 0) != SQLITE_OK) {
        fail("apply", sqlite3_errmsg(mine));
    }
    put_part(cases, answering.answers.bytes, answering.answers.length);
    void *rebased = rebase(&local, blob, blob_length, &rebased_length);
    if (sqlite3changeset_apply_v2(theirs, rebased_length, rebased, NULL, answer_counted, &met, NULL, NULL, 0) != SQLITE_OK) {
        fail("apply", sqlite3_errmsg(theirs));
    }
    put_text(expected, "case\n");
    put(expected, answering.lines.bytes, answering.lines.length);
    put_count(expected, "asked", (unsigned)answering.answers.length);
    for (int i = 0; i < TABLES; i++) put_table(expected, "local", mine, i);
    for (int i = 0; i < TABLES; i++) put_table(expected, "remote", theirs, i);
    put_count(expected, "met", met);
    sqlite3_free(blob);
    sqlite3_free(rebased);
    free_deeds(&deeds);
    free(answering.lines.bytes);
    free(answering.answers.bytes);
    free(local.bytes);
    free(remote.bytes);
    sqlite3_close(base);
    sqlite3_close(mine);
    sqlite3_close(theirs);
}

static void draw_cases(long count, const char *cases_path, const char *expected_path) {
    struct buffer cases = {0}, expected = {0};
    for (long i = 0; i < count; i++) draw_case(&cases, &expected, i % 2 == 0);
    write_file(cases_path, &cases);
    write_file(expected_path, &expected);
}

/* ---- times */

/* What changes keys on one of the sides: a new row at every third key, else an UPDATE or a DELETE. */
struct side {
    int is_remote;
    sqlite3_stmt *insert, *update, *delete;
};

static struct side open_side(sqlite3 *db, int is_remote) {
    struct side side = {is_remote, prepare(db, "INSERT INTO t VALUES(?1 + 1000000000, ?2 || ' new ' || ?1, ?1)"),
                        prepare(db, "UPDATE t SET v = ?2 || ' changed ' || ?1 WHERE id = ?1"), prepare(db, "DELETE FROM t WHERE id = ?1")};
    run(db, "BEGIN");
    return side;
}

/* Changes a key, such that each operation that may meet another one does. */
static void change_key(sqlite3 *db, const struct side *side, long key) {
    int deletes = side->is_remote ? key % 3 == 2 : key / 3 % 2 == 1;
    sqlite3_stmt *statement = key % 3 == 0 ? side->insert : deletes ? side->delete : side->update;
    sqlite3_bind_int64(statement, 1, key);
    if (statement != side->delete) sqlite3_bind_text(statement, 2, side->is_remote ? "theirs" : "mine", -1, SQLITE_STATIC);
    execute(db, statement);
}

static void close_side(sqlite3 *db, struct side *side) {
    run(db, "COMMIT");
    sqlite3_finalize(side->insert);
    sqlite3_finalize(side->update);
    sqlite3_finalize(side->delete);
}

/* A database of rows at the keys from 0 on. */
static sqlite3 *open_rows(long count) {
    sqlite3 *db = open_tables(1);
    insert_rows(db, count);
    return db;
}

static int answer_in_turn(void *context, int kind, sqlite3_changeset_iter *iter) {
    unsigned *asked = context;
    (void)iter;
    return (*asked)++ % 2 && kind != SQLITE_CHANGESET_NOTFOUND ? SQLITE_CHANGESET_REPLACE : SQLITE_CHANGESET_OMIT;
}

/* What is timed: so many local changes, each at a key so far from the last one's, and so many entries from a key on. */
struct plan {
    long local, apart, first, entries;
};

static long rows_of(const struct plan *plan) {
    long local = plan->local * plan->apart, remote = plan->first + plan->entries;
    return local > remote ? local : remote;
}

static void *remote_changeset(const struct plan *plan, size_t *length) {
    sqlite3 *db = open_rows(rows_of(plan));
    sqlite3_session *session = watch(db);
    struct side side = open_side(db, 1);
    for (long i = 0; i < plan->entries; i++) change_key(db, &side, plan->first + i);
    close_side(db, &side);
    void *bytes = end_session(db, session, length);
    sqlite3_close(db);
    return bytes;
}

/* Local changes, and the blob of the remote changeset that is applied over them. All other keys of the remote changeset have been
 * changed here too, so that each of its changes has a conflict. */
static void *local_changeset(const struct plan *plan, size_t *length, void **blob, int *blob_length) {
    size_t remote_length;
    void *remote = remote_changeset(plan, &remote_length);
    sqlite3 *db = open_rows(rows_of(plan));
    sqlite3_session *session = watch(db);
    struct side side = open_side(db, 0);
    for (long i = 0; i < plan->local; i++) change_key(db, &side, i * plan->apart);
    void *bytes = end_session(db, session, length);
    for (long key = plan->first; key < plan->first + plan->entries; key++) {
        if (key % plan->apart != 0 || key / plan->apart >= plan->local) change_key(db, &side, key);
    }
    close_side(db, &side);
    unsigned asked = 0;
    if (sqlite3changeset_apply_v2(db, (int)remote_length, remote, NULL, answer_in_turn, &asked, blob, blob_length, 0) != SQLITE_OK) {
        fail("apply", sqlite3_errmsg(db));
    }
    if (asked != plan->entries) fail("the blob", "has not as many entries as asked for");
    sqlite3_free(remote);
    sqlite3_close(db);
    return bytes;
}

static void time_rebasing(long rounds, const struct plan *plan, const char *path) {
    size_t length;
    void *blob = NULL;
    int blob_length = 0;
    void *local = local_changeset(plan, &length, &blob, &blob_length);
    struct buffer file = {0};
    put_part(&file, local, length);
    put_part(&file, blob, (size_t)blob_length);
    write_file(path, &file);

    double best = 1e18;
    size_t left = 0;
    for (long round = 0; round < rounds; round++) {
        struct file rebased = {0};
        int rebased_length = 0;
        void *bytes = NULL;
        sqlite3_rebaser *rebaser;
        double start = now();
        if (sqlite3rebaser_create(&rebaser) != SQLITE_OK) fail("rebaser", "isn't made");
        if (sqlite3rebaser_configure(rebaser, blob_length, blob) != SQLITE_OK) fail("rebaser", "takes no blob");
        if (sqlite3rebaser_rebase(rebaser, (int)length, local, &rebased_length, &bytes) != SQLITE_OK) fail("rebaser", "fails");
        double taken = now() - start;
        sqlite3rebaser_delete(rebaser);
        rebased.bytes = bytes;
        rebased.length = (size_t)rebased_length;
        left = sqlite_decode(&rebased);
        sqlite3_free(bytes);
        if (taken < best) best = taken;
    }
    printf("%.0f %zu\n", best, left);
    sqlite3_free(local);
    sqlite3_free(blob);
}

int main(int count, char **words) {
    if (count == 5 && strcmp(words[1], "cases") == 0) {
        draw_cases(atol(words[2]), words[3], words[4]);
    } else if (count == 8 && strcmp(words[1], "time") == 0) {
        struct plan plan = {atol(words[3]), atol(words[4]), atol(words[5]), atol(words[6])};
        time_rebasing(atol(words[2]), &plan, words[7]);
    } else {
        fail("rebase", "cases COUNT CASES EXPECTED, or time ROUNDS LOCAL APART FIRST ENTRIES CASE");
    }
    return 0;
}
