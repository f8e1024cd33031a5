/* SQLite's side of `bench/replica.sh`: a local database is edited, a remote changeset is applied to it by `sqlite3changeset_apply_v2`
 * with lawful answers, and the local changeset rebased by `sqlite3rebaser` over the blob that this leaves. The library's program runs
 * the same by a replica (`crates/beside_sqlite/src/replicas.rt` says how its cases are written).
 *
 * replica cases COUNT CASES        draws cases, and writes them to the file CASES
 * replica compare COUNT TOLD       draws the same cases, compares what SQLite makes of each with what the library's program told in
 *                                  the file TOLD, applies the changeset that its replica pushed, and prints what there was */
#include "sides.h"

/* A case: the rows, both sides' databases, the local edits before a push and behind it, and the changesets of both sides. */
struct sides {
    sqlite3 *base, *mine, *theirs;
    struct buffer before, behind, local, remote;
    unsigned flight; /* how many changes are under way */
};

/* Makes edits, and captures each in a changeset of its own. */
static void edit_some(sqlite3 *db, unsigned edits, struct buffer *captured) {
    for (unsigned i = 0; i < edits; i++) {
        size_t length;
        sqlite3_session *session = watch(db);
        change_one(db, TABLES);
        void *bytes = end_session(db, session, &length);
        put(captured, bytes, length);
        sqlite3_free(bytes);
    }
}

/* How many changes the session has captured so far. */
static unsigned captured_so_far(sqlite3 *db, sqlite3_session *session) {
    int length = 0;
    void *bytes = NULL;
    if (sqlite3session_changeset(session, &length, &bytes) != SQLITE_OK) fail("changeset", sqlite3_errmsg(db));
    struct file file = {.bytes = bytes, .length = (size_t)length};
    unsigned count = (unsigned)sqlite_decode(&file);
    sqlite3_free(bytes);
    return count;
}

static sqlite3 *copied(sqlite3 *db) {
    sqlite3 *copy = open_tables(TABLES);
    copy_rows(db, copy, TABLES);
    return copy;
}

/* Draws rows and the changes of both sides. In some cases a push is made in the midst of the local edits. */
static struct sides draw_sides(void) {
    struct sides sides = {.base = open_tables(TABLES)};
    change_some(sides.base, TABLES, draw(100));
    sides.mine = copied(sides.base);
    sqlite3_session *session = watch(sides.mine);
    unsigned edits = draw(50), before = draw(3) == 0 ? edits / 2 : 0;
    edit_some(sides.mine, before, &sides.before);
    sides.flight = captured_so_far(sides.mine, session);
    edit_some(sides.mine, edits - before, &sides.behind);
    size_t length;
    void *bytes = end_session(sides.mine, session, &length);
    put(&sides.local, bytes, length);
    sqlite3_free(bytes);
    sides.theirs = open_changed(sides.base, &sides.remote);
    return sides;
}

static void free_sides(struct sides *sides) {
    sqlite3_close(sides->base);
    sqlite3_close(sides->mine);
    sqlite3_close(sides->theirs);
    free(sides->before.bytes);
    free(sides->behind.bytes);
    free(sides->local.bytes);
    free(sides->remote.bytes);
}

/* What there was in all cases. */
struct counts {
    unsigned edited, flights, flown, kinds[6], answers[2], guarded[2], pushed;
};

/* The conflicts of a case. The library meets them in the order of their places, SQLite in its own: so the lines of each, of which the
 * last is its wish, stand behind its place, and are sorted. */
struct asked {
    const struct deeds *local;
    struct line *lines;
    size_t count;
    struct counts *counts;
};

/* The lawful answer where this was wished: OMIT where it was and the local change covers the remote one, and where there is no row to
 * replace; else REPLACE. */
static int answer_of(int wish, int kind, int covered) {
    if (wish == SQLITE_CHANGESET_OMIT && !covered) return SQLITE_CHANGESET_REPLACE;
    if (wish == SQLITE_CHANGESET_REPLACE && kind == SQLITE_CHANGESET_NOTFOUND) return SQLITE_CHANGESET_OMIT;
    return wish;
}

/* Draws a wish, and answers what is lawful. */
static int answer_lawfully(void *context, int kind, sqlite3_changeset_iter *iter) {
    struct asked *asked = context;
    struct deed remote = deed_at(iter);
    int covered = covers(deed_of(asked->local, &remote), &remote);
    int wish = (int)draw(2), answer = answer_of(wish, kind, covered);
    asked->lines = realloc(asked->lines, (asked->count + 1) * sizeof *asked->lines);
    if (!asked->lines) fail("conflicts", "no memory");
    struct line *line = &asked->lines[asked->count++];
    *line = (struct line){{0}, {0}};
    put_byte(&line->key, (uint8_t)('0' + remote.table));
    put_text(&line->key, (const char *)remote.key.bytes);
    put_conflict(&line->text, kind, iter);
    put_count(&line->text, "covers", (unsigned)covered);
    put_count(&line->text, "wish", (unsigned)wish);
    asked->counts->kinds[kind]++;
    asked->counts->answers[answer]++;
    if (answer != wish) asked->counts->guarded[answer]++;
    free(remote.key.bytes);
    return answer;
}

/* The wishes in the order of the places. */
static struct buffer wishes_of(struct asked *asked) {
    struct buffer wishes = {0};
    if (asked->count > 0) qsort(asked->lines, asked->count, sizeof *asked->lines, compare_lines);
    for (size_t i = 0; i < asked->count; i++) {
        const struct buffer *text = &asked->lines[i].text;
        put_byte(&wishes, text->bytes[text->length - 2]);
    }
    return wishes;
}

static struct buffer rows_of(sqlite3 *db) {
    struct buffer rows = {0};
    put_text(&rows, "");
    for (int i = 0; i < TABLES; i++) put_table(&rows, "row", db, i);
    return rows;
}

static int same_bytes(const struct buffer *left, const struct buffer *right) {
    return left->length == right->length && memcmp(left->bytes, right->bytes, left->length) == 0;
}

/* What SQLite makes of a case: the local database has the remote changeset then. */
struct made {
    struct buffer wishes, text; /* the wishes, and the lines that the library has to tell */
    struct buffer rows;         /* the local rows */
    void *rebased;              /* the local changeset, rebased */
    int rebased_length;
};

static struct made make(struct sides *sides, struct counts *counts) {
    struct made made = {0};
    struct deeds deeds = deeds_of(&sides->local);
    struct asked asked = {.local = &deeds, .counts = counts};
    void *blob = NULL;
    int blob_length = 0;
    if (sqlite3changeset_apply_v2(sides->mine, (int)sides->remote.length, sides->remote.bytes, NULL, answer_lawfully, &asked, &blob,
                                  &blob_length, 0) != SQLITE_OK) {
        fail("apply", sqlite3_errmsg(sides->mine));
    }
    made.rebased = rebase(&sides->local, blob, blob_length, &made.rebased_length);
    made.wishes = wishes_of(&asked);
    made.rows = rows_of(sides->mine);
    put_text(&made.text, "case\n");
    put_count(&made.text, "flight", sides->flight);
    for (size_t i = 0; i < asked.count; i++) put(&made.text, asked.lines[i].text.bytes, asked.lines[i].text.length);
    put(&made.text, made.rows.bytes, made.rows.length);
    counts->flights += sides->flight > 0;
    counts->flown += sides->flight;
    counts->edited += deeds.count > 0;
    sqlite3_free(blob);
    for (size_t i = 0; i < asked.count; i++) {
        free(asked.lines[i].key.bytes);
        free(asked.lines[i].text.bytes);
    }
    free(asked.lines);
    free_deeds(&deeds);
    return made;
}

static void free_made(struct made *made) {
    free(made->wishes.bytes);
    free(made->text.bytes);
    free(made->rows.bytes);
    sqlite3_free(made->rebased);
}

/* The remote rows with a changeset applied, and how many conflicts it met. */
static struct buffer applied_to(sqlite3 *db, void *changeset, int length, unsigned *met) {
    sqlite3 *copy = copied(db);
    *met = 0;
    if (sqlite3changeset_apply_v2(copy, length, changeset, NULL, answer_counted, met, NULL, NULL, 0) != SQLITE_OK) {
        fail("apply", sqlite3_errmsg(copy));
    }
    struct buffer rows = rows_of(copy);
    sqlite3_close(copy);
    return rows;
}

/* ---- what the library told */

static _Noreturn void fail_case(long number, const char *what, const struct buffer *expected, const struct buffer *told) {
    fprintf(stderr, "WRONG: case %ld: %s\nexpected\n%s\ntold\n%s\n", number, what, (const char *)expected->bytes,
            (const char *)told->bytes);
    exit(1);
}

/* The lines of the next case: those that are compared as they stand; and the changesets that are pending and pushed, in hex. */
struct told {
    struct buffer text, pending, pushed;
};

static unsigned digit_of(char digit) { return (unsigned)(digit <= '9' ? digit - '0' : digit - 'a' + 10); }

static struct buffer from_hex(const struct buffer *hex) {
    struct buffer bytes = {0};
    put_text(&bytes, "");
    for (size_t i = 0; i + 1 < hex->length; i += 2) {
        put_byte(&bytes, (uint8_t)(digit_of((char)hex->bytes[i]) << 4 | digit_of((char)hex->bytes[i + 1])));
    }
    return bytes;
}

/* Reads on to the end of a case, from where the text of all cases has been read to. */
static struct told read_told(const struct file *all, size_t *at) {
    struct told told = {0};
    put_text(&told.text, "");
    put_text(&told.pending, "");
    put_text(&told.pushed, "");
    while (*at < all->length) {
        const char *line = (const char *)all->bytes + *at, *end = memchr(line, '\n', all->length - *at);
        size_t length = end ? (size_t)(end - line) : all->length - *at;
        *at += length + (end != NULL);
        if (length >= 8 && memcmp(line, "pending ", 8) == 0) {
            put(&told.pending, line + 8, length - 8);
        } else if (length >= 7 && memcmp(line, "pushed ", 7) == 0) {
            put(&told.pushed, line + 7, length - 7);
            break;
        } else {
            put(&told.text, line, length);
            put_byte(&told.text, '\n');
        }
    }
    return told;
}

/* Compares a case with what was told of it: the lines; and the changeset that was pushed, which SQLite has to apply to the remote
 * rows without a conflict, and which makes of them the rows of the replica, as what SQLite rebased does. */
static void compare_case(long number, const struct sides *sides, const struct made *made, const struct told *told,
                         struct counts *counts) {
    unsigned met = 0;
    if (!same_bytes(&made->text, &told->text)) fail_case(number, "the replica's way and SQLite's differ", &made->text, &told->text);
    if (!same_bytes(&told->pending, &told->pushed)) fail_case(number, "not what is pending is pushed", &told->pending, &told->pushed);
    struct buffer pushed = from_hex(&told->pushed), rows = applied_to(sides->theirs, pushed.bytes, (int)pushed.length, &met);
    if (met > 0) fail_case(number, "the pushed changeset meets conflicts", &made->rows, &rows);
    if (!same_bytes(&made->rows, &rows)) fail_case(number, "the pushed changeset leads to other rows", &made->rows, &rows);
    counts->pushed += pushed.length > 0;
    free(pushed.bytes);
    free(rows.bytes);
    rows = applied_to(sides->theirs, made->rebased, made->rebased_length, &met);
    if (met > 0) fail_case(number, "what SQLite rebased meets conflicts", &made->rows, &rows);
    if (!same_bytes(&made->rows, &rows)) fail_case(number, "what SQLite rebased leads to other rows", &made->rows, &rows);
    free(rows.bytes);
}

static void print_counts(long count, const struct counts *counts) {
    printf("%ld cases, %u with local changes, %u with a push under way (%u changes); clashes: %u DATA, %u NOTFOUND, %u CONFLICT; ", count,
           counts->edited, counts->flights, counts->flown, counts->kinds[SQLITE_CHANGESET_DATA], counts->kinds[SQLITE_CHANGESET_NOTFOUND],
           counts->kinds[SQLITE_CHANGESET_CONFLICT]);
    printf("answers: %u OMIT and %u REPLACE, of which %u and %u weren't wished; %u pushes behind the pull\n",
           counts->answers[SQLITE_CHANGESET_OMIT], counts->answers[SQLITE_CHANGESET_REPLACE], counts->guarded[SQLITE_CHANGESET_OMIT],
           counts->guarded[SQLITE_CHANGESET_REPLACE], counts->pushed);
    int all_kinds = counts->kinds[SQLITE_CHANGESET_DATA] && counts->kinds[SQLITE_CHANGESET_NOTFOUND] &&
                    counts->kinds[SQLITE_CHANGESET_CONFLICT];
    if (!counts->flights || !all_kinds || !counts->guarded[SQLITE_CHANGESET_OMIT] || !counts->guarded[SQLITE_CHANGESET_REPLACE]) {
        fail("cases", "there are none of a kind");
    }
}

static void draw_cases(long count, const char *path) {
    struct buffer cases = {0};
    struct counts counts = {0};
    for (long i = 0; i < count; i++) {
        struct sides sides = draw_sides();
        struct made made = make(&sides, &counts);
        put_declared_part(&cases, TABLES);
        put_rows_part(&cases, sides.base, TABLES);
        put_part(&cases, sides.before.bytes, sides.before.length);
        put_part(&cases, sides.behind.bytes, sides.behind.length);
        put_part(&cases, sides.remote.bytes, sides.remote.length);
        put_part(&cases, made.wishes.bytes, made.wishes.length);
        free_made(&made);
        free_sides(&sides);
    }
    write_file(path, &cases);
}

static void compare_cases(long count, const char *path) {
    struct file all = read_file(path);
    struct counts counts = {0};
    size_t at = 0;
    for (long i = 0; i < count; i++) {
        struct sides sides = draw_sides();
        struct made made = make(&sides, &counts);
        struct told told = read_told(&all, &at);
        compare_case(i, &sides, &made, &told, &counts);
        free(told.text.bytes);
        free(told.pending.bytes);
        free(told.pushed.bytes);
        free_made(&made);
        free_sides(&sides);
    }
    if (at != all.length) fail(path, "tells of more cases");
    print_counts(count, &counts);
    free_file(&all);
}

int main(int count, char **words) {
    if (count == 4 && strcmp(words[1], "cases") == 0) {
        draw_cases(atol(words[2]), words[3]);
    } else if (count == 4 && strcmp(words[1], "compare") == 0) {
        compare_cases(atol(words[2]), words[3]);
    } else {
        fail("replica", "cases COUNT CASES, or compare COUNT TOLD");
    }
    return 0;
}
