/* SQLite's side of `bench/apply.sh`: applies changesets by `sqlite3changeset_apply_v2`, and writes the cases for the library's
 * program (`apply_program.rattle` says how).
 *
 * apply cases COUNT CASES EXPECTED          draws cases, writes them to the file CASES, and what SQLite makes of them to the
 *                                           file EXPECTED, in the text that the library's program prints
 * apply time ROUNDS COUNT CONFLICTS CASE    so many changes onto as many rows, of which every CONFLICTS-th conflicts (0: none),
 *                                           answered OMIT and REPLACE in turn; writes the case to the file CASE, and prints the
 *                                           nanoseconds of SQLite's first round and of its fastest, and the conflicts. The databases
 *                                           of all rounds are there before the first and stay to the end */
#include "drawn.h"

/* What is written down of the conflicts of a case. */
struct asked {
    struct buffer lines, answers;
    unsigned kinds[6];
};

/* How many bytes the field at these bytes has. */
static size_t field_length(const uint8_t *bytes) {
    switch (bytes[0]) {
    case SQLITE_INTEGER:
    case SQLITE_FLOAT: return 9;
    case SQLITE_TEXT:
    case SQLITE_BLOB: return 2 + (size_t)bytes[1];
    default: return 1;
    }
}

/* The entries of a rebase blob, each in a line behind the header that it stands under. */
static void put_entries(struct buffer *lines, const uint8_t *bytes, size_t length) {
    struct buffer header = {0};
    for (size_t at = 0; at < length;) {
        size_t start = at;
        if (bytes[at] == 'T') {
            at += 2 + (size_t)bytes[at + 1];
            at += strlen((const char *)bytes + at) + 1;
            header.length = 0;
            put(&header, bytes + start, at - start);
            continue;
        }
        at += 2;
        for (uint8_t column = 0; column < header.bytes[1]; column++) at += field_length(bytes + at);
        struct buffer entry = {0};
        put(&entry, bytes + start, at - start);
        put_text(lines, "entry ");
        put_hex(lines, &header);
        put_byte(lines, ' ');
        put_hex(lines, &entry);
        put_byte(lines, '\n');
        free(entry.bytes);
    }
    free(header.bytes);
}

/* Draws an answer, seldom one that ends it all. */
static int answer_drawn(void *context, int kind, sqlite3_changeset_iter *iter) {
    struct asked *asked = context;
    put_conflict(&asked->lines, kind, iter);
    asked->kinds[kind]++;
    int answer = kind == SQLITE_CHANGESET_NOTFOUND ? draw(30) == 0 : (int)draw(2);
    if (draw(40) == 0) answer = SQLITE_CHANGESET_ABORT;
    put_byte(&asked->answers, (uint8_t)('0' + answer));
    return answer;
}

/* Captures some changes, and tells how many groups are of the last table. */
static int capture(sqlite3 *db, unsigned changes, struct buffer *changeset) {
    sqlite3_session *session = watch(db);
    sqlite3session_indirect(session, draw(4) == 0);
    change_some(db, TABLES, changes);
    size_t length;
    void *bytes = end_session(db, session, &length);
    put(changeset, bytes, length);
    sqlite3_changeset_iter *iter;
    int found = 0;
    if (sqlite3changeset_start(&iter, (int)length, bytes) != SQLITE_OK) fail("iterator", "doesn't start");
    while (sqlite3changeset_next(iter) == SQLITE_ROW) {
        const char *name;
        int count, operation, indirect;
        sqlite3changeset_op(iter, &name, &count, &operation, &indirect);
        if (place_of(name) == TABLES - 1) found = 1;
    }
    sqlite3changeset_finalize(iter);
    sqlite3_free(bytes);
    return found;
}

/* Draws a case: rows, changes that were made to others, and answers. In some the last table isn't there; in some two changesets
 * stand behind one another, so that a key may come twice. */
static void draw_case(struct buffer *cases, struct buffer *expected, struct asked *all, unsigned ends[3]) {
    int count = draw(8) == 0 ? TABLES - 1 : TABLES;
    sqlite3 *theirs = open_tables(TABLES);
    change_some(theirs, TABLES, draw(60));
    sqlite3 *mine = open_tables(count);
    copy_rows(theirs, mine, count);
    change_some(mine, count, draw(40));
    struct buffer changeset = {0};
    int skipped = capture(theirs, draw(40), &changeset);
    if (draw(3) == 0) skipped += capture(theirs, draw(20), &changeset);
    if (count == TABLES) skipped = 0;

    struct asked asked = {0};
    put_declared_part(cases, count);
    put_rows_part(cases, mine, count);
    put_part(cases, changeset.bytes, changeset.length);
    void *blob = NULL;
    int blob_length = 0;
    int result = sqlite3changeset_apply_v2(mine, (int)changeset.length, changeset.bytes, NULL, answer_drawn, &asked, &blob,
                                           &blob_length, 0);
    put_part(cases, asked.answers.bytes, asked.answers.length);
    put_text(expected, "case\n");
    put(expected, asked.lines.bytes, asked.lines.length);
    char end[32];
    snprintf(end, sizeof end, "applied %d\n", skipped);
    switch (result) {
    case SQLITE_OK: put_text(expected, end); ends[0]++; break;
    case SQLITE_ABORT: put_text(expected, "Aborted\n"); ends[1]++; break;
    case SQLITE_MISUSE: put_text(expected, "Misuse\n"); ends[2]++; break;
    default: fail("apply", sqlite3_errmsg(mine));
    }
    if (result == SQLITE_OK) put_entries(expected, blob, (size_t)blob_length);
    sqlite3_free(blob);
    for (int i = 0; i < count; i++) put_table(expected, "row", mine, i);
    for (int i = 0; i < 6; i++) all->kinds[i] += asked.kinds[i];
    free(asked.lines.bytes);
    free(asked.answers.bytes);
    free(changeset.bytes);
    sqlite3_close(mine);
    sqlite3_close(theirs);
}

static void draw_cases(long count, const char *cases_path, const char *expected_path) {
    struct buffer cases = {0}, expected = {0};
    struct asked all = {0};
    unsigned ends[3] = {0};
    for (long i = 0; i < count; i++) draw_case(&cases, &expected, &all, ends);
    write_file(cases_path, &cases);
    write_file(expected_path, &expected);
    printf("%ld cases: %u DATA, %u NOTFOUND, %u CONFLICT; %u applied, %u aborted, %u misused\n", count, all.kinds[SQLITE_CHANGESET_DATA],
           all.kinds[SQLITE_CHANGESET_NOTFOUND], all.kinds[SQLITE_CHANGESET_CONFLICT], ends[0], ends[1], ends[2]);
    if (all.kinds[SQLITE_CHANGESET_CONSTRAINT] || all.kinds[SQLITE_CHANGESET_FOREIGN_KEY]) fail("cases", "have another kind of conflict");
}

/* ---- times */

static int answer_in_turn(void *context, int kind, sqlite3_changeset_iter *iter) {
    unsigned *asked = context;
    (void)kind;
    (void)iter;
    return (*asked)++ % 2 ? SQLITE_CHANGESET_REPLACE : SQLITE_CHANGESET_OMIT;
}

/* A third each INSERT, UPDATE and DELETE. */
static void change_thirds(sqlite3 *db, long count) {
    static const char *const changes[] = {"INSERT INTO t VALUES(?1 + 1000000000, 'new ' || ?1, ?1)",
                                          "UPDATE t SET v = 'changed ' || ?1 WHERE id = ?1", "DELETE FROM t WHERE id = ?1"};
    run(db, "BEGIN");
    for (int third = 0; third < 3; third++) {
        sqlite3_stmt *statement = prepare(db, changes[third]);
        for (long i = third; i < count; i += 3) {
            sqlite3_bind_int64(statement, 1, i);
            execute(db, statement);
        }
        sqlite3_finalize(statement);
    }
    run(db, "COMMIT");
}

/* Every so many-th change meets another row. */
static void disturb(sqlite3 *db, long count, long every) {
    static const char *const changes[] = {"INSERT INTO t VALUES(?1 + 1000000000, 'mine ' || ?1, ?1)",
                                          "UPDATE t SET v = 'mine ' || ?1 WHERE id = ?1", "UPDATE t SET w = -?1 - 1 WHERE id = ?1"};
    run(db, "BEGIN");
    for (int third = 0; third < 3; third++) {
        sqlite3_stmt *statement = prepare(db, changes[third]);
        for (long i = 0; i < count; i += every) {
            if (i % 3 != third) continue;
            sqlite3_bind_int64(statement, 1, i);
            execute(db, statement);
        }
        sqlite3_finalize(statement);
    }
    run(db, "COMMIT");
}

static sqlite3 *open_disturbed(long count, long every) {
    sqlite3 *db = open_tables(1);
    insert_rows(db, count);
    if (every > 0) disturb(db, count, every);
    return db;
}

static void time_applying(long rounds, long count, long every, const char *path) {
    sqlite3 *theirs = open_tables(1);
    insert_rows(theirs, count);
    sqlite3_session *session = watch(theirs);
    change_thirds(theirs, count);
    size_t length;
    void *bytes = end_session(theirs, session, &length);
    sqlite3_close(theirs);

    sqlite3 **mine = malloc((size_t)rounds * sizeof *mine);
    if (!mine) fail("apply", "no memory");
    for (long round = 0; round < rounds; round++) mine[round] = open_disturbed(count, every);
    struct buffer file = {0};
    put_declared_part(&file, 1);
    put_rows_part(&file, mine[0], 1);

    double first = 0, best = 1e18;
    unsigned asked = 0;
    for (long round = 0; round < rounds; round++) {
        asked = 0;
        double start = now();
        int result = sqlite3changeset_apply_v2(mine[round], (int)length, bytes, NULL, answer_in_turn, &asked, NULL, NULL, 0);
        double taken = now() - start;
        if (result != SQLITE_OK) fail("apply", sqlite3_errmsg(mine[round]));
        if (round == 0) first = taken;
        if (taken < best) best = taken;
    }
    for (long round = 0; round < rounds; round++) sqlite3_close(mine[round]);
    free(mine);
    struct buffer answers = {0};
    for (unsigned i = 0; i < asked; i++) put_byte(&answers, i % 2 ? '1' : '0');
    put_part(&file, bytes, length);
    put_part(&file, answers.bytes, answers.length);
    write_file(path, &file);
    printf("%.0f %.0f %u\n", first, best, asked);
    sqlite3_free(bytes);
}

int main(int count, char **words) {
    if (count == 5 && strcmp(words[1], "cases") == 0) {
        draw_cases(atol(words[2]), words[3], words[4]);
    } else if (count == 6 && strcmp(words[1], "time") == 0) {
        time_applying(atol(words[2]), atol(words[3]), atol(words[4]), words[5]);
    } else {
        fail("apply", "cases COUNT CASES EXPECTED, or time ROUNDS COUNT CONFLICTS CASE");
    }
    return 0;
}
