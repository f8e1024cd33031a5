/* Checks that to take changesets together, and to take one back, means here what it means to SQLite.
 *
 * check_combine DIRECTORY   for each sequence of changesets below, and for many drawn ones: what the library makes of them
 *                           (written for SQLite, with the column bytes that it captured) and what SQLite's changegroup makes
 *                           of them, applied by SQLite to the rows before, each lead to the rows behind, without a conflict;
 *                           their inverses lead back; and SQLite's bytes, brought into normal form, are the library's. The
 *                           bytes alone are compared where drawn changesets don't follow on one another. Writes
 *                           DIRECTORY/NAME.lines, each changeset of a sequence in hex on a line, DIRECTORY/NAME.combined, what
 *                           the library makes of them in normal form, and DIRECTORY/NAME.for_sqlite, what it writes for
 *                           SQLite */
#include "combining.h"
#include "session.h"

enum { STEPS = 6, DRAWN = 100 };

/* Whether the rows behind a sequence are those before it. */
enum end { OTHER_ROWS, SAME_ROWS, ANY_ROWS };

/* What is there before, and what sessions capture one after another. */
struct sequence {
    const char *name;
    const char *before;
    const char *steps[STEPS + 1]; /* up to NULL */
    unsigned indirect;            /* bit N: the changes of step N are indirect */
    enum end end;
};

#define ONE_KEY \
    "CREATE TABLE t(id INTEGER PRIMARY KEY, v TEXT, w);" \
    "INSERT INTO t VALUES(1, 'one', 10), (2, 'two', NULL), (3, 'three', x'03'), (4, NULL, 'four');"

static const struct sequence sequences[] = {
    {.name = "insert_update", .before = ONE_KEY,
     .steps = {"INSERT INTO t VALUES(5, 'a', 7), (6, 'b', NULL), (7, NULL, NULL)",
               "UPDATE t SET v = 'aa' WHERE id = 5; UPDATE t SET w = x'06' WHERE id = 6",
               "UPDATE t SET v = NULL, w = 'w' WHERE id = 5"}},
    {.name = "insert_delete", .before = ONE_KEY,
     .steps = {"INSERT INTO t VALUES(5, 'a', 7), (6, 'b', NULL), (7, 'c', 1)", "DELETE FROM t WHERE id = 5",
               "DELETE FROM t WHERE id = 6"}},
    {.name = "update_update", .before = ONE_KEY,
     .steps = {"UPDATE t SET v = 'x'", "UPDATE t SET w = 5 WHERE id < 3; UPDATE t SET v = 'y' WHERE id = 3",
               "UPDATE t SET v = NULL WHERE id = 2; UPDATE t SET w = NULL WHERE id = 3"}},
    {.name = "update_delete", .before = ONE_KEY,
     .steps = {"UPDATE t SET v = 'x' WHERE id < 4", "UPDATE t SET w = 'y' WHERE id = 2; DELETE FROM t WHERE id = 1",
               "DELETE FROM t WHERE id = 2"}},
    {.name = "delete_insert", .before = ONE_KEY,
     .steps = {"DELETE FROM t", "INSERT INTO t VALUES(1, 'one', 10), (2, 'other', NULL)", "INSERT INTO t VALUES(3, NULL, x'03')"}},
    {.name = "delete_insert_delete", .before = ONE_KEY,
     .steps = {"DELETE FROM t WHERE id < 3", "INSERT INTO t VALUES(1, 'new', 10), (2, 'two', 2)", "DELETE FROM t WHERE id = 1",
               "INSERT INTO t VALUES(1, NULL, NULL)", "DELETE FROM t WHERE id = 1"}},
    {.name = "insert_delete_insert", .before = ONE_KEY,
     .steps = {"INSERT INTO t VALUES(5, 'a', 7)", "DELETE FROM t WHERE id = 5", "INSERT INTO t VALUES(5, 'b', 8)",
               "UPDATE t SET w = 9 WHERE id = 5"}},
    {.name = "alone", .before = ONE_KEY,
     .steps = {"INSERT INTO t VALUES(9, 'i', 9)", "UPDATE t SET v = 'u' WHERE id = 3", "DELETE FROM t WHERE id = 4"}},
    {.name = "update_undone", .before = ONE_KEY,
     .steps = {"UPDATE t SET v = 'x', w = 'y' WHERE id < 3; UPDATE t SET v = 'z' WHERE id = 4", "UPDATE t SET v = 'one' WHERE id = 1",
               "UPDATE t SET w = 10 WHERE id = 1; UPDATE t SET v = 'two' WHERE id = 2"}},
    {.name = "all_undone", .before = ONE_KEY, .end = SAME_ROWS,
     .steps = {"UPDATE t SET v = 'x' WHERE id = 1; DELETE FROM t WHERE id = 2; INSERT INTO t VALUES(5, 'a', 1)",
               "UPDATE t SET w = 11 WHERE id = 1; UPDATE t SET v = 'b' WHERE id = 5; INSERT INTO t VALUES(2, 'two', 0)",
               "UPDATE t SET v = 'one', w = 10 WHERE id = 1; UPDATE t SET w = NULL WHERE id = 2; DELETE FROM t WHERE id = 5"}},
    {.name = "nothing_between", .before = ONE_KEY,
     .steps = {"UPDATE t SET v = 'x' WHERE id = 1", "SELECT 1", "UPDATE t SET w = 'y' WHERE id = 1"}},
    {.name = "one_changeset", .before = ONE_KEY,
     .steps = {"INSERT INTO t VALUES(5, 'a', 1); UPDATE t SET v = 'x' WHERE id = 1; DELETE FROM t WHERE id = 2"}},
    {.name = "key_moved", .before = ONE_KEY,
     .steps = {"UPDATE t SET id = id + 10", "UPDATE t SET v = 'here' WHERE id = 12", "UPDATE t SET id = id - 9"}},
    {.name = "types",
     .before = "CREATE TABLE t(k PRIMARY KEY NOT NULL, v); INSERT INTO t VALUES(1, 1), ('1', '1'), (x'31', x'31'), ('', ''), (x'', x'')",
     .steps = {"UPDATE t SET v = '1' WHERE k = 1; UPDATE t SET v = x'31' WHERE k = '1'; UPDATE t SET v = 1 WHERE k = x'31'",
               "UPDATE t SET v = NULL WHERE k = ''; DELETE FROM t WHERE k = x''; INSERT INTO t VALUES('1 ', zeroblob(200))",
               "UPDATE t SET v = 1 WHERE k = 1; INSERT INTO t VALUES(x'', ''); UPDATE t SET v = hex(zeroblob(9000)) WHERE k = '1 '"}},
    {.name = "integers",
     .before = "CREATE TABLE t(id INTEGER PRIMARY KEY, v INTEGER); INSERT INTO t VALUES(-9223372036854775807 - 1, 0), (-1, 1), (0, 0)",
     .steps = {"UPDATE t SET v = 9223372036854775807; INSERT INTO t VALUES(9223372036854775807, -1), (256, 255)",
               "UPDATE t SET v = -9223372036854775807 - 1 WHERE id < 0; DELETE FROM t WHERE id = 0",
               "UPDATE t SET v = 1 WHERE id = -1; UPDATE t SET v = 0 WHERE id > 0; INSERT INTO t VALUES(0, 1)"}},
    {.name = "text_key",
     .before = "CREATE TABLE t(k TEXT PRIMARY KEY NOT NULL, v); INSERT INTO t VALUES('', 1), ('a', 2), ('gr\xc3\xbc\xc3\x9f', 3)",
     .steps = {"UPDATE t SET v = v + 1; INSERT INTO t VALUES('aa', 4), (hex(zeroblob(64)), 5), (hex(zeroblob(63)) || 'x', 6)",
               "UPDATE t SET v = '\xf0\x9f\x8c\x8d' WHERE length(k) > 3; DELETE FROM t WHERE k = 'a'",
               "DELETE FROM t WHERE length(k) = 127; INSERT INTO t VALUES('a', 2); UPDATE t SET v = 1 WHERE k = ''"}},
    {.name = "several_key_columns",
     .before = "CREATE TABLE t(a INTEGER NOT NULL, b TEXT, c BLOB NOT NULL, d, PRIMARY KEY(c, a));"
               "INSERT INTO t VALUES(1, 'b', x'01', 4), (2, 'b', x'01', NULL), (1, 'b', x'02', 'd')",
     .steps = {"INSERT INTO t VALUES(2, NULL, x'02', 'd'); UPDATE t SET b = 'bb' WHERE a = 1; DELETE FROM t WHERE a = 2 AND c = x'01'",
               "UPDATE t SET d = x'd0' WHERE a = 1; UPDATE t SET b = 'new' WHERE c = x'02'",
               "INSERT INTO t VALUES(2, 'again', x'01', 4); DELETE FROM t WHERE a = 1 AND c = x'02'"}},
    {.name = "without_rowid",
     .before = "CREATE TABLE t(a TEXT, b INTEGER, c TEXT, d TEXT, PRIMARY KEY(d, b, a)) WITHOUT ROWID;"
               "INSERT INTO t VALUES('x', 1, 'c', 'p'), ('y', 1, 'd', 'p'), ('x', 2, NULL, 'q')",
     .steps = {"UPDATE t SET c = 'cc' WHERE a = 'x'; DELETE FROM t WHERE a = 'y'; INSERT INTO t VALUES('z', 3, NULL, 'r')",
               "UPDATE t SET c = 'c' WHERE b = 1; INSERT INTO t VALUES('y', 1, 'e', 'p'); UPDATE t SET b = 4 WHERE a = 'z'",
               "DELETE FROM t WHERE b = 2; UPDATE t SET c = 'last' WHERE b = 4"}},
    {.name = "several_tables",
     .before = "CREATE TABLE one(id INTEGER PRIMARY KEY, v); CREATE TABLE \"two words\"(id INTEGER PRIMARY KEY);"
               "CREATE TABLE dr\xc3\xb6i(k TEXT, l INTEGER, v, PRIMARY KEY(l, k)) WITHOUT ROWID; CREATE TABLE four(v, id INTEGER PRIMARY KEY);"
               "INSERT INTO one VALUES(1, 'a'), (2, 'b'); INSERT INTO dr\xc3\xb6i VALUES('k', 1, x'00'); INSERT INTO four VALUES(4, 4)",
     .steps = {"UPDATE dr\xc3\xb6i SET v = 1; INSERT INTO \"two words\" VALUES(3), (4); INSERT INTO one VALUES(3, NULL)",
               "UPDATE one SET v = 'c' WHERE id > 1; DELETE FROM \"two words\"; INSERT INTO dr\xc3\xb6i VALUES('l', 1, 'v')",
               "DELETE FROM one WHERE id = 3; UPDATE dr\xc3\xb6i SET v = x'00' WHERE k = 'k'; UPDATE four SET v = 5"}},
    {.name = "table_undone", .before = ONE_KEY "CREATE TABLE u(id INTEGER PRIMARY KEY, v)",
     .steps = {"INSERT INTO u VALUES(1, 1)", "UPDATE t SET w = 1; UPDATE u SET v = 2", "DELETE FROM u"}},
    {.name = "indirect_first", .before = ONE_KEY, .indirect = 1,
     .steps = {"INSERT INTO t VALUES(5, 'a', 7); UPDATE t SET v = 'x' WHERE id < 3", "UPDATE t SET w = 8 WHERE id IN (1, 3, 5)",
               "DELETE FROM t WHERE id IN (2, 4)"}},
    {.name = "indirect_last", .before = ONE_KEY, .indirect = 4,
     .steps = {"DELETE FROM t WHERE id = 1", "UPDATE t SET v = 'x'", "INSERT INTO t VALUES(1, 'new', 1), (5, 'a', 7); UPDATE t SET w = 'y'"}},
    {.name = "indirect_all", .before = ONE_KEY, .indirect = 7,
     .steps = {"DELETE FROM t WHERE id = 1; INSERT INTO t VALUES(5, 'a', 7)", "UPDATE t SET v = 'x'", "INSERT INTO t VALUES(1, 'new', 1); UPDATE t SET w = 'y'"}},
};

static sqlite3 *open_before(const struct sequence *sequence) {
    sqlite3 *db = open_memory();
    run(db, sequence->before);
    return db;
}

static sqlite3 *open_behind(const struct sequence *sequence) {
    sqlite3 *db = open_before(sequence);
    for (const char *const *step = sequence->steps; *step; step++) run(db, *step);
    return db;
}

/* One changeset more behind those of a file. */
static void append_changeset(struct file *file, const void *bytes, size_t length) {
    file->bytes = realloc(file->bytes, file->length + length + 1);
    file->output = realloc(file->output, file->length + length + 1);
    if (!file->bytes || !file->output) fail("changesets", "no memory");
    if (length > 0) memcpy(file->bytes + file->length, bytes, length);
    file->length += length;
    add_length(file, length);
}

/* Runs a step under a session, and appends what it captures. */
static void capture_step(sqlite3 *db, const char *step, int indirect, struct file *file) {
    sqlite3_session *session = watch(db);
    sqlite3session_indirect(session, indirect);
    run(db, step);
    size_t length;
    void *bytes = end_session(db, session, &length);
    append_changeset(file, bytes, length);
    sqlite3_free(bytes);
}

/* The changesets of a sequence. */
static struct file capture_sequence(const struct sequence *sequence) {
    struct file file = {0};
    sqlite3 *db = open_before(sequence);
    for (int step = 0; sequence->steps[step]; step++) {
        capture_step(db, sequence->steps[step], sequence->indirect >> step & 1, &file);
    }
    sqlite3_close(db);
    return file;
}

/* The inverse of each changeset of a sequence on its own is SQLite's. */
static void check_inverses(const char *name, const struct file *captured) {
    const uint8_t *next = captured->bytes;
    for (size_t part = 0; part < captured->parts; part++) {
        struct file one = copy_file(next, captured->lengths[part]);
        struct file theirs = file_of(sqlite_inverted(&one));
        check_agrees(name, one.output, ours_invert(&one), &theirs);
        next += one.length;
        free_file(&theirs);
        free_file(&one);
    }
}

/* The rows before a sequence and those behind it. */
struct ends {
    char *before;
    char *behind;
};

static struct ends find_ends(const struct sequence *sequence) {
    sqlite3 *before = open_before(sequence), *behind = open_behind(sequence);
    struct ends ends = {dump_rows(before), dump_rows(behind)};
    sqlite3_close(before);
    sqlite3_close(behind);
    enum end end = strcmp(ends.before, ends.behind) == 0 ? SAME_ROWS : OTHER_ROWS;
    if (sequence->end != ANY_ROWS && sequence->end != end) fail(sequence->name, "has other rows behind it than it should");
    return ends;
}

/* What all changesets make, and the inverse of that: the library's and SQLite's, which agree. */
struct outcome {
    struct file ours, theirs, ours_back, theirs_back;
};

static struct outcome combine_both(const char *name, struct file *captured) {
    struct outcome both = {.theirs = file_of(sqlite_combined(captured))};
    size_t length = ours_combine(captured);
    check_agrees(name, captured->output, length, &both.theirs);
    both.ours = for_sqlite(name, captured, captured->output, length);
    both.theirs_back = file_of(sqlite_inverted(&both.theirs));
    length = ours_invert(&both.ours);
    check_agrees(name, both.ours.output, length, &both.theirs_back);
    both.ours_back = for_sqlite(name, captured, both.ours.output, length);
    return both;
}

/* How many changes its changesets have, and how many are left of them. */
struct counts {
    size_t all, left;
};

static struct counts check_sequence(const struct sequence *sequence) {
    struct ends ends = find_ends(sequence);
    struct file captured = capture_sequence(sequence);
    struct outcome both = combine_both(sequence->name, &captured);
    check_leads(sequence->name, open_before(sequence), &both.ours, ends.behind);
    check_leads(sequence->name, open_before(sequence), &both.theirs, ends.behind);
    check_leads(sequence->name, open_behind(sequence), &both.ours_back, ends.before);
    check_leads(sequence->name, open_behind(sequence), &both.theirs_back, ends.before);
    check_inverses(sequence->name, &captured);
    struct counts counts = {sqlite_decode(&captured), sqlite_decode(&both.ours)};
    free_file(&both.ours);
    free_file(&both.theirs);
    free_file(&both.ours_back);
    free_file(&both.theirs_back);
    free_file(&captured);
    sqlite3_free(ends.before);
    sqlite3_free(ends.behind);
    return counts;
}

/* The changesets of a sequence and what the library makes of them, in normal form and for SQLite, in hex. */
static void write_lines(const char *directory, const struct sequence *sequence) {
    FILE *lines = create_in(directory, sequence->name, "lines"), *combined = create_in(directory, sequence->name, "combined");
    FILE *with_columns = create_in(directory, sequence->name, "for_sqlite");
    struct file captured = capture_sequence(sequence);
    const uint8_t *next = captured.bytes;
    for (size_t part = 0; part < captured.parts; part++) {
        write_line(lines, next, captured.lengths[part]);
        next += captured.lengths[part];
    }
    size_t length = ours_combine(&captured);
    struct file sqlite = for_sqlite(sequence->name, &captured, captured.output, length);
    write_line(combined, captured.output, length);
    write_line(with_columns, sqlite.bytes, length);
    if (fclose(lines) != 0 || fclose(combined) != 0 || fclose(with_columns) != 0) fail(directory, "can't be written");
    free_file(&sqlite);
    free_file(&captured);
}

/* The library answers the changesets in a file so, and writes nothing to the output, which has so much room. */
static void check_unwritten(const char *what, const struct file *file, size_t room, struct cs_ffi_answer expected) {
    memset(file->output, 0xee, file->length + 1);
    struct cs_ffi_answer answer =
        cs_ffi_combine(file->bytes, file->length, file->lengths, file->parts, file->output, room);
    int same = answer.fault == expected.fault && answer.offset == expected.offset && answer.count == expected.count;
    if (!same) fail(what, "another answer");
    if (file->output[0] != 0xee || memcmp(file->output, file->output + 1, file->length) != 0) fail(what, "something is written");
}

/* Nothing is written where there is no room, where the lengths are others, where the last changeset ends early, and where
 * another changeset tells of other columns for a table. */
static void check_refusals(const struct sequence *sequence) {
    static const struct sequence other_columns = {
        .name = "other_columns", .before = "CREATE TABLE t(id INTEGER PRIMARY KEY)", .steps = {"INSERT INTO t VALUES(9)"}};
    struct file file = capture_sequence(sequence);
    size_t *last = &file.lengths[file.parts - 1];
    size_t length = ours_combine(&file);
    if (length > 0) check_unwritten("no room", &file, length - 1, (struct cs_ffi_answer){.count = length});
    *last += 1;
    check_unwritten("lengths of more bytes", &file, file.length, (struct cs_ffi_answer){.fault = CS_FFI_LENGTHS});
    *last -= 2;
    check_unwritten("lengths of fewer bytes", &file, file.length, (struct cs_ffi_answer){.fault = CS_FFI_LENGTHS});
    file.length -= 1;
    check_unwritten("a changeset cut", &file, file.length, (struct cs_ffi_answer){CS_FFI_TRUNCATED, file.length, 0});
    file.length += 1;
    *last += 1;
    struct file other = capture_sequence(&other_columns);
    append_changeset(&file, other.bytes, other.length);
    check_unwritten("two shapes", &file, file.length, (struct cs_ffi_answer){.fault = CS_FFI_SHAPE});
    file.length = file.parts = 0;
    check_unwritten("no changeset", &file, 0, (struct cs_ffi_answer){.fault = CS_FFI_READ});
    free_file(&other);
    free_file(&file);
}

#define DRAWN_TABLES \
    "CREATE TABLE t(id INTEGER PRIMARY KEY, v, w); CREATE TABLE u(a, b, c, d, PRIMARY KEY(c, a)) WITHOUT ROWID;" \
    "INSERT INTO t VALUES(0, 1, NULL), (1, 'x', 2), (2, x'78', 1); INSERT INTO u VALUES(0, 1, 0, 1), (0, 'x', 1, 2);"

/* A change drawn from few keys and few values, so that keys meet again and changes are undone. */
static char *append_drawn(char *step, uint64_t *state) {
    static const char *const values[] = {"NULL", "1", "2", "'1'", "'x'", "x'78'"};
    static const char *const changes[] = {
        "INSERT OR IGNORE INTO t SELECT id, v, w FROM drawn",
        "INSERT OR REPLACE INTO t SELECT id, v, w FROM drawn",
        "UPDATE t SET v = drawn.v FROM drawn WHERE t.id = drawn.id",
        "UPDATE t SET w = drawn.w FROM drawn WHERE t.id = drawn.id",
        "DELETE FROM t WHERE id IN (SELECT id FROM drawn)",
        "INSERT OR IGNORE INTO u SELECT id / 2, v, id % 2, w FROM drawn",
        "UPDATE u SET b = drawn.v FROM drawn WHERE (a, c) = (id / 2, id % 2)",
        "DELETE FROM u WHERE (a, c) IN (SELECT id / 2, id % 2 FROM drawn)",
    };
    int id = (int)(next_number(state) % 6);
    const char *v = values[next_number(state) % (sizeof values / sizeof *values)];
    const char *w = values[next_number(state) % (sizeof values / sizeof *values)];
    const char *change = changes[next_number(state) % (sizeof changes / sizeof *changes)];
    return sqlite3_mprintf("%z WITH drawn(id, v, w) AS (VALUES(%d, %s, %s)) %s;", step, id, v, w, change);
}

static char *draw_step(uint64_t *state) {
    char *step = sqlite3_mprintf("");
    for (uint64_t left = 1 + next_number(state) % 12; left > 0; left--) step = append_drawn(step, state);
    return step;
}

static struct counts check_drawn(uint64_t *state) {
    struct sequence sequence = {
        .name = "a drawn sequence",
        .before = DRAWN_TABLES,
        .indirect = (unsigned)next_number(state) % (1 << STEPS),
        .end = ANY_ROWS,
    };
    char *steps[STEPS];
    for (int step = 0; step < STEPS; step++) sequence.steps[step] = steps[step] = draw_step(state);
    struct counts counts = check_sequence(&sequence);
    for (int step = 0; step < STEPS; step++) sqlite3_free(steps[step]);
    return counts;
}

/* Appends a changeset of a database with rows of its own. */
static void capture_apart(uint64_t *state, struct file *file) {
    sqlite3 *db = open_memory();
    char *unseen = draw_step(state), *step = draw_step(state);
    run(db, DRAWN_TABLES);
    run(db, unseen);
    capture_step(db, step, 0, file);
    sqlite3_free(unseen);
    sqlite3_free(step);
    sqlite3_close(db);
}

/* Direct changes that don't follow on one another, since each changeset is of another database: what the library makes of
 * them is what SQLite makes of them, here too. */
static struct counts check_apart(uint64_t *state) {
    struct file captured = {0};
    for (int part = 0; part < STEPS; part++) capture_apart(state, &captured);
    struct file theirs = file_of(sqlite_combined(&captured));
    check_agrees("changesets that don't follow on one another", captured.output, ours_combine(&captured), &theirs);
    struct counts counts = {sqlite_decode(&captured), sqlite_decode(&theirs)};
    free_file(&theirs);
    free_file(&captured);
    return counts;
}

/* Runs a check over drawn changesets many times, each time over others. */
static void check_all_drawn(const char *what, struct counts (*check)(uint64_t *)) {
    uint64_t state = 88172645463325252u;
    struct counts sum = {0, 0};
    for (int i = 0; i < DRAWN; i++) {
        struct counts counts = check(&state);
        sum.all += counts.all;
        sum.left += counts.left;
    }
    if (sum.left == 0 || sum.left >= sum.all) fail(what, "nothing is left, or nothing is taken together");
    printf("  %d %s: %zu changes, %zu are left\n", DRAWN, what, sum.all, sum.left);
}

int main(int count, char **words) {
    if (count != 2) {
        fprintf(stderr, "usage: check_combine DIRECTORY\n");
        return 2;
    }
    size_t named = sizeof sequences / sizeof *sequences;
    for (size_t i = 0; i < named; i++) {
        struct counts counts = check_sequence(&sequences[i]);
        printf("  %s: %zu changes, %zu are left\n", sequences[i].name, counts.all, counts.left);
        write_lines(words[1], &sequences[i]);
    }
    check_refusals(&sequences[0]);
    check_all_drawn("drawn sequences", check_drawn);
    check_all_drawn("drawn lists that don't follow on one another, their bytes alone", check_apart);
    printf("%zu sequences taken together, and taken back: the same rows as SQLite, and SQLite's bytes in normal form\n",
           named + DRAWN);
    return 0;
}
