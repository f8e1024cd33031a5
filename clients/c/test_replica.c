/* The tests of replica.c: test_replica PROGRAM FOLDER PORT TOKEN TOKEN TOKEN. At that port is a gateway over an empty hub of `stock:100`, with these tokens of the replicas
   1 and 2 and of the administrator. bench/check_clients.sh runs them. Each call's outcome is compared, and the first that is another is told with its line. */
#include "replica.h"
#include <stdio.h>
#include <stdlib.h>

static const char *program, *folder;
static const char *const stock[] = {"stock:100", NULL}, *const sorts[] = {"all%20sorts:01", "stock:100", NULL}, *const wide[] = {"stock:1000", NULL};

static void owed_at(int line, int is_owed, const char *found) {
    if (is_owed) return;
    printf("test_replica.c:%d: %s\n", line, found ? found : "done");
    exit(1);
}

static int is_same(const char *one, const char *other) { return one && other ? !strcmp(one, other) : one == other; }

static void compare(int line, const char *found, const char *wanted) { owed_at(line, is_same(found, wanted), found); }

#define owed(found, wanted) compare(__LINE__, found, wanted)
#define holds(is_owed) owed_at(__LINE__, is_owed, #is_owed)
#define done(call) owed(call, NULL)

static struct replica *opened(const char *name, uint32_t id, const char *const *tables, const char *wanted, int line) {
    char path[1024];
    struct replica *replica;
    snprintf(path, sizeof path, "%s/%s", folder, name);
    const char *told = replica_open(&replica, program, path, id, tables);
    owed_at(line, is_same(told, wanted), told);
    if (!told) return replica;
    replica_close(replica);
    return NULL;
}

#define open_as(name, id, tables) opened(name, id, tables, NULL, __LINE__)
#define refuse_as(name, id, tables, wanted) (void)opened(name, id, tables, wanted, __LINE__)

/* ---- what is shown, as text */

static char shown[1 << 16];

static void show_value(const struct replica_value *value) {
    char *to = shown + strlen(shown);
    switch (value->kind) {
    case REPLICA_NULL: strcpy(to, " NULL"); break;
    case REPLICA_SAME: strcpy(to, " ="); break;
    case REPLICA_INTEGER: sprintf(to, " %lld", (long long)value->integer); break;
    case REPLICA_TEXT: sprintf(to, " '%s'%zu", value->bytes, value->length); break;
    case REPLICA_BLOB:
        strcpy(to, " x");
        for (size_t at = 0; at < value->length; at++) sprintf(to + 2 + 2 * at, "%02x", (unsigned char)value->bytes[at]);
    }
}

static void show_values(const struct replica_value *values, size_t count) {
    for (size_t at = 0; values && at < count; at++) show_value(values + at);
    if (!values) strcat(shown, " none");
}

static void show_row(void *context, const struct replica_value *row, size_t columns) {
    owed(replica_insert(context, "stock", row, columns), "Busy");
    show_values(row, columns);
    strcat(shown, ";");
}

static void show_change(void *context, const struct replica_change *change) {
    (void)context;
    sprintf(shown + strlen(shown), "%c %s", "iud"[change->operation], change->table);
    show_values(change->old_row, change->columns);
    strcat(shown, " >");
    show_values(change->new_row, change->columns);
    strcat(shown, ";");
}

static const char *rows(struct replica *replica, const char *table) {
    *shown = 0;
    const char *refused = replica_rows(replica, table, show_row, replica);
    return refused ? refused : shown;
}

static const char *row(struct replica *replica, const char *article) {
    *shown = 0;
    const char *refused = replica_row(replica, "stock", REPLICA_VALUES(replica_text(article)), show_row, replica);
    return refused ? refused : shown;
}

static const char *pending(struct replica *replica) {
    *shown = 0;
    const char *refused = replica_pending(replica, show_change, NULL);
    return refused ? refused : shown;
}

static const char *place(struct replica *replica) {
    struct replica_place place;
    const char *refused = replica_where(replica, &place);
    sprintf(shown, "%d %d %d", (int)place.version, (int)place.pending, (int)place.flight);
    return refused ? refused : shown;
}

/* ---- wishes, and exchanges of which something is lost */

static const char *wishes; /* the next of them at each clash */

static enum replica_wish decide(void *context, const struct replica_clash *clash) {
    (void)context;
    sprintf(shown + strlen(shown), "%s %s%s", clash->kind, clash->may_keep ? "k" : "", clash->may_take ? "t " : " ");
    show_change(NULL, &clash->theirs);
    show_values(clash->row, clash->mine.columns);
    strcat(shown, ";");
    show_change(NULL, &clash->mine);
    return (enum replica_wish)*wishes++;
}

static char *away(void *line, const char *requests) { return (void)line, (void)requests, NULL; }
static char *lost(void *line, const char *requests) { return free(replica_http_exchange(line, requests)), NULL; }
static char *told(void *line, const char *requests) { return (void)requests, strcpy(malloc(strlen(line) + 1), line); }

/* The hub's device fails at the push. */
static char *failing(void *line, const char *requests) {
    const char *catching = strchr(requests, '\n') + 1;
    char *answer = replica_http_exchange(line, catching), *both = calloc(1, strlen(answer) + 8);
    strcat(strcpy(both, "132c\n"), answer);
    free(answer);
    return both;
}

static const char *sync_by(struct replica *replica, replica_exchange *exchange, void *line, const char *letters) {
    struct replica_synced synced;
    *shown = 0, wishes = letters;
    const char *refused = replica_sync(replica, exchange, line, letters ? decide : replica_keep_mine, NULL, &synced);
    sprintf(shown + strlen(shown), "taken %d version %d%s", (int)synced.taken, (int)synced.version, synced.is_stopped ? " stopped" : "");
    return refused ? refused : shown;
}

/* A hub that takes the first push of replica 8, and then gives the table `stock` six columns. */
static char *widening(void *replica, const char *requests) {
    static const char accepted[] = "11" "00000008" "0000000000000001" "0000000000000001\n", nothing[] = "14" "0000000000000002" "00000000\n";
    static const char wider[] = "14" "0000000000000001" "00000001" "01" "ffffffff" "0000000000000001" "00000009" "00000006" "73746f636b\n";
    struct replica_place place;
    char *answers = calloc(1, sizeof accepted + sizeof wider);
    owed(replica_where(replica, &place), "Busy");
    return strncmp(requests, "01", 2) ? strcpy(answers, nothing) : strcat(strcpy(answers, accepted), wider);
}

/* ---- the tests */

static void several(struct replica *till) {
    size_t at;
    const struct replica_edit edits[] = {{REPLICA_INSERT, "stock", REPLICA_VALUES(replica_text("glue"), replica_integer(4), replica_text("n\xc3\xa4h \n"))},
                                         {REPLICA_UPDATE, "stock", REPLICA_VALUES(replica_text("glue"), replica_integer(3), replica_same())},
                                         {REPLICA_DELETE, "stock", REPLICA_VALUES(replica_text("saw"))},
                                         {REPLICA_DELETE, "stock", REPLICA_VALUES(replica_text("glue"))},
                                         {REPLICA_DELETE, "stock", REPLICA_VALUES(replica_text("glue"), replica_null())},
                                         {REPLICA_INSERT, "stock", REPLICA_VALUES(replica_same(), replica_integer(4), replica_null())}};
    owed(replica_edits(till, edits, 3, &at), "Missing");
    holds(at == 2);
    owed(row(till, "glue"), "");
    owed(replica_edits(till, edits + 4, 1, &at), "Width");
    holds(at == 0);
    owed(replica_edits(till, edits + 5, 1, &at), "unread");
    holds(at == 1);
    done(replica_edits(till, edits, 2, &at));
    holds(at == 2);
    owed(row(till, "glue"), " 'glue'4 3 'n\xc3\xa4h \n'6;");
    done(replica_edits(till, edits + 3, 1, &at));
    done(replica_edits(till, edits, 0, &at));
    owed(row(till, "glue"), "");
}

static void tables(void) {
    struct replica *till = open_as("sorts.db", 9, sorts);
    const char *table = "all sorts";
    done(replica_insert(till, table, REPLICA_VALUES(replica_text("100 %41\n n\xc3\xa4h"), replica_integer(1))));
    done(replica_insert(till, table, REPLICA_VALUES(replica_null(), replica_integer(INT64_MIN))));
    done(replica_insert(till, table, REPLICA_VALUES(replica_blob("a\0\xff", 3), replica_integer(INT64_MAX))));
    done(replica_insert(till, table, REPLICA_VALUES(replica_text(""), replica_blob("", 0))));
    owed(rows(till, table), " '100 %41\n n\xc3\xa4h'13 1; x6100ff 9223372036854775807; NULL -9223372036854775808; ''0 x;");
    done(replica_update(till, table, REPLICA_VALUES(replica_text("new"), replica_integer(1))));
    done(replica_update(till, table, REPLICA_VALUES(replica_same(), replica_blob("", 0))));
    done(replica_delete(till, table, REPLICA_VALUES(replica_integer(INT64_MIN))));
    owed(rows(till, table), " 'new'3 1; x6100ff 9223372036854775807; ''0 x;");

    done(replica_insert(till, "stock", REPLICA_VALUES(replica_text("nails"), replica_integer(100), replica_text(""))));
    owed(replica_insert(till, "stock", REPLICA_VALUES(replica_text("nails"), replica_integer(1), replica_text(""))), "Exists");
    owed(replica_insert(till, "stock", REPLICA_VALUES(replica_text("glue"), replica_integer(1))), "Width");
    owed(replica_insert(till, "stock", REPLICA_VALUES(replica_null(), replica_integer(1), replica_text(""))), "NullKey");
    owed(replica_insert(till, "shop", REPLICA_VALUES(replica_integer(1))), "NoTable");
    owed(replica_update(till, "stock", REPLICA_VALUES(replica_text("glue"), replica_integer(1), replica_same())), "Missing");
    owed(replica_update(till, "stock", REPLICA_VALUES(replica_same(), replica_integer(1), replica_same())), "unread");
    owed(replica_delete(till, "stock", REPLICA_VALUES(replica_text("glue"))), "Missing");
    owed(rows(till, "shop"), "NoTable");
    owed(row(till, "nails"), " 'nails'5 100 ''0;");
    owed(row(till, "glue"), "");
    owed(place(till), "0 4 0");
    several(till);
    owed(place(till), "0 4 0");

    refuse_as("sorts.db", 9, sorts, "Device");
    replica_close(till);
    refuse_as("sorts.db", 8, sorts, "Mismatch");
    refuse_as("sorts.db", 9, stock, "Mismatch");
    refuse_as("nowhere/sorts.db", 9, sorts, "Device");
    till = open_as("sorts.db", 9, sorts);
    owed(place(till), "0 4 0");
    replica_close(till);
    holds(is_same(replica_open(&till, "/no program", "sorts.db", 9, sorts), "NoProgram"));
    owed(rows(till, "stock"), "Ended");
    replica_close(till);
}

/* A program that knows three columns, and one that knows six, on the same file. */
static void wider(void) {
    struct replica *till = open_as("wider.db", 8, stock);
    size_t at;
    const struct replica_edit edits[] = {{REPLICA_DELETE, "stock", REPLICA_VALUES(replica_text("nails"))},
                                         {REPLICA_INSERT, "stock", REPLICA_VALUES(replica_text("oil"), replica_integer(2), replica_text(""))},
                                         {REPLICA_UPDATE, "stock", REPLICA_VALUES(replica_text("oil"), replica_integer(3), replica_same())}};
    done(replica_insert(till, "stock", REPLICA_VALUES(replica_text("nails"), replica_integer(100), replica_text(""))));
    owed(replica_insert(till, "stock", REPLICA_VALUES(replica_text("saw"), replica_integer(1), replica_null(), replica_null())), "Width");
    owed(sync_by(till, widening, till, NULL), "taken 1 version 2");
    owed(rows(till, "stock"), " 'nails'5 100 ''0 NULL NULL NULL;");
    done(replica_edits(till, edits, 3, &at));
    holds(at == 3);
    owed(pending(till), "i stock none > 'oil'3 3 ''0 NULL NULL NULL;d stock 'nails'5 100 ''0 NULL NULL NULL > none;");
    owed(replica_edits(till, edits, 3, &at), "Missing");
    holds(at == 0);
    owed(replica_insert(till, "stock", REPLICA_VALUES(replica_text("saw"), replica_integer(1))), "Width");
    owed(replica_update(till, "stock", REPLICA_VALUES(replica_text("oil"), replica_integer(1))), "Width");
    replica_close(till);

    till = open_as("wider.db", 8, stock);
    done(replica_update(till, "stock", REPLICA_VALUES(replica_text("oil"), replica_same(), replica_text("red"))));
    done(replica_update(till, "stock", REPLICA_VALUES(replica_text("oil"), replica_integer(4), replica_same(), replica_text("low"))));
    done(replica_insert(till, "stock", REPLICA_VALUES(replica_text("saw"), replica_integer(1), replica_null(), replica_integer(7))));
    const struct replica_value seven[7] = {replica_text("a")};
    owed(replica_insert(till, "stock", seven, 7), "Width");
    owed(replica_update(till, "stock", seven, 7), "Width");
    owed(rows(till, "stock"), " 'oil'3 4 'red'3 'low'3 NULL NULL; 'saw'3 1 NULL 7 NULL NULL;");
    replica_close(till);
    till = open_as("wider.db", 8, wide);
    owed(row(till, "oil"), " 'oil'3 4 'red'3 'low'3 NULL NULL;");
    owed(replica_insert(till, "stock", REPLICA_VALUES(replica_text("glue"), replica_integer(1), replica_null())), "Width");
    done(replica_insert(till, "stock", REPLICA_VALUES(replica_text("glue"), replica_integer(1), replica_null(), replica_text("high"))));
    owed(row(till, "glue"), " 'glue'4 1 NULL 'high'4 NULL NULL;");
    replica_close(till);
}

/* Two tills whose table gets two columns, while one has a push under way and the other a change pending. */
static void widened(struct replica *north, struct replica *south, struct replica_http *by_north, struct replica_http *by_south, struct replica_http *by_admin) {
    done(replica_update(north, "stock", REPLICA_VALUES(replica_text("nails"), replica_integer(50), replica_same())));
    done(replica_insert(south, "stock", REPLICA_VALUES(replica_text("tape"), replica_integer(2), replica_text(""))));
    owed(sync_by(south, away, NULL, NULL), "Away");
    char *answer = replica_http_exchange(by_admin, "04" "0000000000000001" "0000000000000005" "00000005" "00000005" "73746f636b\n");
    owed(answer, "11" "ffffffff" "0000000000000001" "0000000000000006\n");
    free(answer);
    owed(sync_by(south, replica_http_exchange, by_south, NULL), "taken 1 version 7");
    owed(sync_by(north, replica_http_exchange, by_north, NULL), "taken 2 version 8");
    owed(sync_by(south, replica_http_exchange, by_south, NULL), "taken 1 version 8");
    done(replica_update(south, "stock", REPLICA_VALUES(replica_text("nails"), replica_same(), replica_same(), replica_same(), replica_integer(7))));
    done(replica_delete(north, "stock", REPLICA_VALUES(replica_text("nails"))));
    owed(sync_by(south, replica_http_exchange, by_south, NULL), "taken 0 version 9");
#define GONE "notfound k u stock 'nails'5 = = = NULL > = = = = 7; none;d stock 'nails'5 50 ''0 NULL NULL > none;"
    owed(sync_by(north, replica_http_exchange, by_north, "k"), GONE "taken 1 version 10");
    owed(sync_by(south, replica_http_exchange, by_south, NULL), "taken 1 version 10");
    owed(rows(south, "stock"), " 'rope'4 1 NULL NULL NULL; 'tape'4 2 ''0 NULL NULL;");
}

static void hub(struct replica_http *by_north, struct replica_http *by_south, struct replica_http *by_admin) {
    struct replica *north = open_as("north.db", 1, stock), *south = open_as("south.db", 2, stock);
    const char *const articles[] = {"nails", "saw"};
    for (int at = 0; at < 2; at++) done(replica_insert(north, "stock", REPLICA_VALUES(replica_text(articles[at]), replica_integer(100), replica_text(""))));
    owed(sync_by(north, replica_http_exchange, by_north, NULL), "taken 0 version 1");
    owed(sync_by(south, replica_http_exchange, by_south, NULL), "taken 1 version 1");

    struct replica *tills[] = {north, south};
    for (int at = 0; at < 2; at++) {
        done(replica_update(tills[at], "stock", REPLICA_VALUES(replica_text("nails"), replica_integer(80 + 10 * at), replica_same())));
        done(replica_insert(tills[at], "stock", REPLICA_VALUES(replica_text("rope"), replica_integer(1 + at), replica_null())));
    }
    done(replica_update(north, "stock", REPLICA_VALUES(replica_text("saw"), replica_integer(9), replica_same())));
    done(replica_delete(south, "stock", REPLICA_VALUES(replica_text("saw"))));
    owed(pending(south), "d stock 'saw'3 100 ''0 > none;i stock none > 'rope'4 2 NULL;u stock 'nails'5 100 = > = 90 =;");
    owed(sync_by(north, replica_http_exchange, by_north, NULL), "taken 0 version 2");

#define SAW "notfound k u stock 'saw'3 100 = > = 9 =; none;d stock 'saw'3 100 ''0 > none;"
#define ROPE "conflict kt i stock none > 'rope'4 1 NULL; 'rope'4 2 NULL;i stock none > 'rope'4 2 NULL;"
#define NAILS "data kt u stock 'nails'5 100 = > = 80 =; 'nails'5 90 ''0;u stock 'nails'5 100 = > = 90 =;"
    owed(sync_by(south, replica_http_exchange, by_south, "ks"), SAW ROPE "taken 0 version 1 stopped");
    owed(sync_by(south, replica_http_exchange, by_south, "t"), "Unlawful");
    owed(place(south), "1 0 3");
    owed(sync_by(south, failing, by_south, "ktk"), "hub refused 44");
    owed(place(south), "2 2 0");
    owed(sync_by(south, away, NULL, NULL), "Away");
    owed(sync_by(south, lost, by_south, NULL), "Away");
    owed(place(south), "2 0 2");
    owed(sync_by(south, replica_http_exchange, by_north, NULL), "Away");
    char *const wrong[] = {"", "12\n", "12\n14", "12\n1\n", "12\nxx\n", "\n\n", "12\n14\n12\n", "1200000000000000aa\n14000000000000000200000000\n"};
    for (size_t at = 0; at < sizeof wrong / sizeof *wrong; at++) owed(sync_by(south, told, wrong[at], NULL), "NoAnswers");
    owed(sync_by(south, told, "12\n14\n", NULL), "Truncated");
    owed(sync_by(south, replica_http_exchange, by_south, NULL), "taken 0 version 3");
    owed(sync_by(north, replica_http_exchange, by_north, NULL), "taken 1 version 3");

    done(replica_update(north, "stock", REPLICA_VALUES(replica_text("nails"), replica_integer(70), replica_same())));
    done(replica_update(south, "stock", REPLICA_VALUES(replica_text("nails"), replica_integer(60), replica_same())));
    owed(sync_by(north, replica_http_exchange, by_north, NULL), "taken 0 version 4");
    owed(sync_by(south, replica_http_exchange, by_south, NULL), "taken 1 version 5");
    owed(sync_by(north, replica_http_exchange, by_north, NULL), "taken 1 version 5");
    for (int at = 0; at < 2; at++) {
        owed(rows(tills[at], "stock"), " 'rope'4 1 NULL; 'nails'5 60 ''0;");
        owed(place(tills[at]), "5 0 0");
    }
    widened(north, south, by_north, by_south, by_admin);
    replica_close(north), replica_close(south);
}

int main(int count, char **words) {
    if (count != 7) return 2;
    program = words[1], folder = words[2];
    tables();
    wider();
    hub(&(struct replica_http){"127.0.0.1", words[3], "/", words[4]}, &(struct replica_http){"127.0.0.1", words[3], "/", words[5]},
        &(struct replica_http){"127.0.0.1", words[3], "/", words[6]});
    return 0;
}
