#define _POSIX_C_SOURCE 200809L
#include "replica.h"
#include <errno.h>
#include <fcntl.h>
#include <inttypes.h>
#include <netdb.h>
#include <spawn.h>
#include <stdio.h>
#include <stdlib.h>
#include <sys/socket.h>
#include <sys/time.h>
#include <sys/wait.h>
#include <unistd.h>

extern char **environ;

enum { AT_ONCE = 1000 /* entries that one catch asks for */, PIECE = 16384, PATIENCE = 90 /* seconds */ };

/* ---- texts that grow. Once memory was wanting one is short, until it begins anew */

struct text {
    char *bytes;
    size_t length, room;
    int is_short;
};

static void put(struct text *text, const char *bytes, size_t count) {
    if (text->is_short) return;
    if (count >= text->room - text->length) {
        size_t room = 2 * (text->room + count + 64);
        char *grown = realloc(text->bytes, room);
        if (!grown) {
            text->is_short = 1;
            return;
        }
        text->bytes = grown, text->room = room;
    }
    memcpy(text->bytes + text->length, bytes, count);
    text->length += count;
    text->bytes[text->length] = 0;
}

static void put_words(struct text *text, const char *words) { put(text, words, strlen(words)); }

static void begin(struct text *text, const char *words) {
    text->length = 0, text->is_short = 0;
    put_words(text, words);
}

static void put_spelled(struct text *text, const char *front, const char *bytes, size_t count) {
    put_words(text, front);
    for (size_t at = 0; at < count; at++) {
        unsigned char byte = (unsigned char)bytes[at];
        char word[4];
        if (byte >= 0x21 && byte <= 0x7e && byte != '%') put(text, bytes + at, 1);
        else put(text, word, (size_t)snprintf(word, sizeof word, "%%%02X", byte));
    }
}

static void put_value(struct text *text, const struct replica_value *value) {
    char word[32];
    switch (value->kind) {
    case REPLICA_NULL: put_words(text, " null"); break;
    case REPLICA_SAME: put_words(text, " -"); break;
    case REPLICA_TEXT: put_spelled(text, " t=", value->bytes, value->length); break;
    case REPLICA_INTEGER: put(text, word, (size_t)snprintf(word, sizeof word, " %" PRId64, value->integer)); break;
    case REPLICA_BLOB:
        put_words(text, " x=");
        for (size_t at = 0; at < value->length; at++) put(text, word, (size_t)snprintf(word, sizeof word, "%02x", (unsigned char)value->bytes[at]));
    }
}

/* Words, a table and values: a line without its end. */
static void put_front(struct text *text, const char *words, const char *table, const struct replica_value *values, size_t count) {
    put_spelled(text, words, table, strlen(table));
    for (size_t at = 0; at < count; at++) put_value(text, values + at);
}

static void put_line(struct text *text, const char *words, const char *table, const struct replica_value *values, size_t count) {
    put_front(text, words, table, values, count);
    put_words(text, "\n");
}

/* ---- the process */

/* A table with so many columns in the word that it was opened by, and as many as it is known to have: a hub may have given it more. */
struct table {
    char *name;
    size_t first, width;
};

struct replica {
    pid_t process;
    int line, errors; /* its input and output, or -1 once it has ended, and its errors */
    struct text asked, reply, requests, wishes; /* a call that is refused as `Busy` may change `asked` alone */
    char **words; /* of a line of the reply, and behind the same places the values that are read of them */
    struct replica_value *values;
    size_t room;
    struct table *tables;
    size_t count;
    char name[128];
    int is_busy;
};

static const char *named(struct replica *replica, const char *name) {
    snprintf(replica->name, sizeof replica->name, "%s", name);
    return replica->name;
}

/* Lets the process end, and gives the name of why it had. */
static const char *end(struct replica *replica) {
    char why[sizeof replica->name] = "";
    size_t length = 0;
    ssize_t got;
    if (replica->line < 0) return "Ended";
    close(replica->line);
    while ((got = read(replica->errors, why + length, sizeof why - 1 - length)) > 0 || (got < 0 && errno == EINTR))
        if (got > 0) length += (size_t)got;
    close(replica->errors);
    while (waitpid(replica->process, NULL, 0) < 0 && errno == EINTR) {}
    replica->line = -1;
    why[strcspn(why, "\n")] = 0;
    if (!*why) return "Ended";
    return named(replica, strncmp(why, "sync: ", 6) ? why : why + 6);
}

static int is_whole(const struct text *reply) {
    return reply->length && reply->bytes[reply->length - 1] == '\n' && (reply->length == 1 || reply->bytes[reply->length - 2] == '\n');
}

/* What was told, where it is `unread`, `refused NAME`, or `refused K NAME` of an edit among several: then K and NAME. */
static const char *granted(struct replica *replica) {
    char *told = replica->reply.bytes;
    if (!strcmp(told, "unread\n\n")) return "unread";
    if (strncmp(told, "refused ", 8)) return NULL;
    told += 8;
    told[strcspn(told, "\n")] = 0;
    return named(replica, told);
}

/* Sends what is asked, and waits for the whole reply. */
static const char *ask(struct replica *replica) {
    char piece[PIECE];
    if (replica->is_busy) return "Busy";
    if (replica->line < 0) return "Ended";
    if (replica->asked.is_short) return "Memory";
    for (size_t sent = 0; sent < replica->asked.length;) {
        ssize_t went = send(replica->line, replica->asked.bytes + sent, replica->asked.length - sent, MSG_NOSIGNAL);
        if (went < 0 && errno != EINTR) return end(replica);
        if (went > 0) sent += (size_t)went;
    }
    begin(&replica->reply, "");
    while (!is_whole(&replica->reply)) {
        ssize_t got = recv(replica->line, piece, sizeof piece, 0);
        if (got < 0 && errno == EINTR) continue;
        if (got > 0) put(&replica->reply, piece, (size_t)got);
        /* Without the whole reply the next one couldn't be told from its rest. */
        if (got <= 0 || replica->reply.is_short) return end(replica);
    }
    return granted(replica);
}

static const char *ask_line(struct replica *replica, const char *line) {
    begin(&replica->asked, line);
    return ask(replica);
}

static int start(struct replica *replica, const char **words, int line, int errors) {
    posix_spawn_file_actions_t files;
    posix_spawnattr_t attributes;
    if (posix_spawn_file_actions_init(&files)) return ENOMEM;
    posix_spawnattr_init(&attributes);
    /* A group of its own: Ctrl-C is for the program that asks, which may go on. */
    posix_spawnattr_setflags(&attributes, POSIX_SPAWN_SETPGROUP);
    posix_spawn_file_actions_adddup2(&files, line, 0);
    posix_spawn_file_actions_adddup2(&files, line, 1);
    posix_spawn_file_actions_adddup2(&files, errors, 2);
    int fault = posix_spawnp(&replica->process, words[0], &files, &attributes, (char *const *)words, environ);
    posix_spawn_file_actions_destroy(&files);
    posix_spawnattr_destroy(&attributes);
    return fault;
}

/* The process behind a pair of sockets, since to write to one raises no signal. */
static const char *connect_to(struct replica *replica, const char **words) {
    int lines[2], errors[2];
    if (socketpair(AF_UNIX, SOCK_STREAM, 0, lines)) return "Device";
    if (pipe(errors)) return close(lines[0]), close(lines[1]), "Device";
    for (int at = 0; at < 2; at++) fcntl(lines[at], F_SETFD, FD_CLOEXEC), fcntl(errors[at], F_SETFD, FD_CLOEXEC);
    int fault = start(replica, words, lines[1], errors[1]);
    close(lines[1]), close(errors[1]);
    if (fault) return close(lines[0]), close(errors[0]), "NoProgram";
    replica->line = lines[0], replica->errors = errors[0];
    return ask_line(replica, "place\n");
}

static int digit_of(char digit) { return digit <= '9' ? digit - '0' : (digit | 32) - 'a' + 10; }

/* Reads the bytes that a word spells in their places. */
static size_t spelled(char *word) {
    char *to = word;
    for (char *from = word; *from; to++) {
        if (*from == '%' && from[1] && from[2]) *to = (char)(digit_of(from[1]) * 16 + digit_of(from[2])), from += 3;
        else *to = *from++;
    }
    *to = 0;
    return (size_t)(to - word);
}

/* Keeps the tables of these words. A word that is none the program refuses. */
static const char *keep_tables(struct replica *replica, const char *const *words, size_t count) {
    if (!(replica->tables = calloc(count + 1, sizeof *replica->tables))) return "Memory";
    for (; replica->count < count; replica->count++) {
        struct table *table = replica->tables + replica->count;
        if (!(table->name = malloc(strlen(words[replica->count]) + 1))) return "Memory";
        char *marks = strrchr(strcpy(table->name, words[replica->count]), ':');
        if (!marks) continue;
        table->first = table->width = strlen(marks + 1);
        *marks = 0;
        spelled(table->name);
    }
    return NULL;
}

const char *replica_open(struct replica **made, const char *program, const char *file, uint32_t id, const char *const *tables) {
    char number[16], *path;
    size_t count = 0;
    while (tables[count]) count++;
    struct replica *replica = *made = calloc(1, sizeof *replica);
    const char **words = calloc(count + 6, sizeof *words);
    if ((path = malloc(strlen(file) + 3))) sprintf(path, "%s%s", *file == '/' ? "" : "./", file);
    if (replica) replica->line = -1;
    const char *refused = "Memory";
    if (replica && words && path && !keep_tables(replica, tables, count)) {
        snprintf(number, sizeof number, "%" PRIu32, id);
        words[0] = program, words[1] = "node", words[2] = "--follow", words[3] = path, words[4] = number;
        for (size_t at = 0; at < count; at++) words[5 + at] = tables[at];
        refused = connect_to(replica, words);
    }
    free(words), free(path);
    return refused;
}

void replica_close(struct replica *replica) {
    if (!replica) return;
    end(replica);
    free(replica->asked.bytes), free(replica->reply.bytes), free(replica->requests.bytes), free(replica->wishes.bytes);
    while (replica->count) free(replica->tables[--replica->count].name);
    free(replica->words), free(replica->values), free(replica->tables), free(replica);
}

/* ---- edits */

static const char *const verbs[] = {"edit insert ", "edit update ", "edit delete "};

static struct table *table_of(struct replica *replica, const char *name) {
    for (size_t at = 0; at < replica->count; at++)
        if (!strcmp(replica->tables[at].name, name)) return replica->tables + at;
    return NULL;
}

/* Whether values may stand before columns that this program doesn't know. A key is no such. */
static int may_be_front(const struct table *table, const struct replica_edit *edit) {
    return table && edit->operation != REPLICA_DELETE && edit->count >= table->first;
}

/* The line of an edit. Behind its values nothing is set, as far as the table is known to have columns. */
static void put_edit(struct replica *replica, const struct replica_edit *edit) {
    const struct table *table = table_of(replica, edit->table);
    put_front(&replica->asked, verbs[edit->operation], edit->table, edit->values, edit->count);
    if (may_be_front(table, edit))
        for (size_t at = edit->count; at < table->width; at++) put_words(&replica->asked, edit->operation == REPLICA_INSERT ? " null" : " -");
    put_words(&replica->asked, "\n");
}

/* Asks how many columns the tables have by now, in their order, and whether this one has more than it was known to have. */
static const char *grow(struct replica *replica, struct table *table, int *has_grown) {
    size_t known = table->width;
    const char *refused = ask_line(replica, "tables\n");
    if (refused) return refused;
    char *line = replica->reply.bytes;
    for (size_t at = 0; at < replica->count && *line != '\n'; at++, line++) {
        char *end = line + strcspn(line, "\n");
        for (line = end; line[-1] != ' '; line--) {}
        replica->tables[at].width = (size_t)(end - line);
        line = end;
    }
    *has_grown = table->width > known;
    return NULL;
}

/* What an edit was refused as, where that is `Width`: unless its table has more columns by now, so that it is to be made again. */
static const char *unless_grown(struct replica *replica, const struct replica_edit *edit, int *is_again) {
    struct table *table = table_of(replica, edit->table);
    *is_again = 0;
    const char *refused = may_be_front(table, edit) ? grow(replica, table, is_again) : NULL;
    return refused ? refused : "Width";
}

static const char *make(struct replica *replica, const struct replica_edit edit) {
    int is_again = 1;
    const char *refused = NULL;
    while (is_again) {
        is_again = 0;
        begin(&replica->asked, "");
        put_edit(replica, &edit);
        refused = ask(replica);
        if (refused && !strcmp(refused, "Width")) refused = unless_grown(replica, &edit, &is_again);
    }
    return refused;
}

const char *replica_insert(struct replica *replica, const char *table, const struct replica_value *values, size_t count) {
    return make(replica, (struct replica_edit){REPLICA_INSERT, table, values, count});
}

const char *replica_update(struct replica *replica, const char *table, const struct replica_value *values, size_t count) {
    return make(replica, (struct replica_edit){REPLICA_UPDATE, table, values, count});
}

const char *replica_delete(struct replica *replica, const char *table, const struct replica_value *key, size_t count) {
    return make(replica, (struct replica_edit){REPLICA_DELETE, table, key, count});
}

/* Edits as one request. Where one is refused, its place among them, from 0, and the name of why. */
static const char *make_all(struct replica *replica, const struct replica_edit *edits, size_t count, size_t *place) {
    char line[32], *name;
    snprintf(line, sizeof line, "edits %zu\n", count);
    begin(&replica->asked, line);
    for (size_t at = 0; at < count; at++) put_edit(replica, edits + at);
    const char *refused = ask(replica);
    *place = count;
    if (!refused || *refused < '0' || *refused > '9') return refused;
    *place = (size_t)strtoull(refused, &name, 10) - 1;
    return name + 1;
}

const char *replica_edits(struct replica *replica, const struct replica_edit *edits, size_t count, size_t *place) {
    int is_again = 1;
    const char *refused = NULL;
    while (is_again) {
        is_again = 0;
        refused = make_all(replica, edits, count, place);
        if (refused && *place < count && !strcmp(refused, "Width")) refused = unless_grown(replica, edits + *place, &is_again);
    }
    return refused;
}

/* ---- lines of the reply, read in their places */

static struct replica_value value_of(char *word) {
    if (!strcmp(word, "-")) return replica_same();
    if (!strcmp(word, "null")) return replica_null();
    if (!strncmp(word, "t=", 2)) return (struct replica_value){REPLICA_TEXT, 0, word + 2, spelled(word + 2)};
    if (strncmp(word, "x=", 2)) return replica_integer(strtoll(word, NULL, 10));
    size_t length = strlen(word + 2) / 2;
    for (size_t at = 0; at < length; at++) word[2 + at] = (char)(digit_of(word[2 + 2 * at]) * 16 + digit_of(word[3 + 2 * at]));
    word[2 + length] = 0;
    return replica_blob(word + 2, length);
}

/* The words of the line that begins here, and the line behind it, or NULL at the reply's end. */
static char *next_line(char *line) { return *line && *line != '\n' ? line + strcspn(line, "\n") + 1 : NULL; }

static size_t split(struct replica *replica, char *line) {
    size_t count = 0;
    for (char *word = line, *behind; word; word = behind, count++) {
        if (count == replica->room) {
            size_t room = 2 * replica->room + 64;
            char **words = realloc(replica->words, room * sizeof *words);
            if (words) replica->words = words;
            struct replica_value *values = realloc(replica->values, room * sizeof *values);
            if (values) replica->values = values;
            if (!words || !values) return 0;
            replica->room = room;
        }
        behind = word + strcspn(word, " \n");
        int is_last = *behind != ' ';
        *behind = 0;
        replica->words[count] = word;
        behind = is_last ? NULL : behind + 1;
    }
    return count;
}

/* The values that these words spell. */
static const struct replica_value *read_values(struct replica *replica, size_t from, size_t to) {
    for (size_t at = from; at < to; at++) replica->values[at] = value_of(replica->words[at]);
    return replica->values + from;
}

/* `insert FLAG VALUES`, `delete FLAG VALUES`, or `update FLAG OLD > NEW`. */
static struct replica_change read_change(struct replica *replica, const char *table, size_t from, size_t to) {
    int is_update = replica->words[from][0] == 'u', is_insert = replica->words[from][0] == 'i';
    size_t columns = is_update ? (to - from - 3) / 2 : to - from - 2;
    const struct replica_value *first = read_values(replica, from + 2, from + 2 + columns);
    const struct replica_value *last = is_update ? read_values(replica, to - columns, to) : first;
    enum replica_operation operation = is_update ? REPLICA_UPDATE : is_insert ? REPLICA_INSERT : REPLICA_DELETE;
    return (struct replica_change){operation, table, is_insert ? NULL : first, is_update || is_insert ? last : NULL, columns};
}

static const char *show_rows(struct replica *replica, replica_see_row *see, void *context) {
    const char *refused = ask(replica);
    for (char *line = replica->reply.bytes, *behind; !refused && (behind = next_line(line)); line = behind) {
        size_t count = split(replica, line);
        if (count < 3) return count ? "unread" : "Memory";
        const struct replica_value *row = read_values(replica, 2, count);
        replica->is_busy = 1;
        see(context, row, count - 2);
        replica->is_busy = 0;
    }
    return refused;
}

const char *replica_rows(struct replica *replica, const char *table, replica_see_row *see, void *context) {
    begin(&replica->asked, "");
    put_line(&replica->asked, "rows ", table, NULL, 0);
    return show_rows(replica, see, context);
}

const char *replica_row(struct replica *replica, const char *table, const struct replica_value *key, size_t count, replica_see_row *see, void *context) {
    begin(&replica->asked, "");
    put_line(&replica->asked, "row ", table, key, count);
    return show_rows(replica, see, context);
}

const char *replica_pending(struct replica *replica, replica_see_change *see, void *context) {
    const char *refused = ask_line(replica, "pending\n");
    char *table = "";
    for (char *line = replica->reply.bytes, *behind; !refused && (behind = next_line(line)); line = behind) {
        size_t count = split(replica, line);
        if (count < 3) return count ? "unread" : "Memory";
        if (!strcmp(replica->words[0], "table")) {
            spelled(table = replica->words[1]);
            continue;
        }
        struct replica_change change = read_change(replica, table, 0, count);
        replica->is_busy = 1;
        see(context, &change);
        replica->is_busy = 0;
    }
    return refused;
}

const char *replica_where(struct replica *replica, struct replica_place *place) {
    const char *refused = ask_line(replica, "place\n");
    if (refused) return refused;
    size_t count = split(replica, replica->reply.bytes);
    if (count < 8) return count ? "unread" : "Memory";
    char **words = replica->words;
    *place = (struct replica_place){strtoull(words[3], NULL, 10), strtoull(words[5], NULL, 10), strtoull(words[7], NULL, 10)};
    return NULL;
}

/* ---- a hub */

/* What the hub's answers came to. */
struct heard {
    uint64_t taken;
    int is_accepted, is_nothing, is_stopped; /* whether a push was, whether the last answer had nothing new, whether at a clash */
    char refused[32];
};

/* Where this word stands, from a place on. */
static size_t place_of(const struct replica *replica, size_t from, size_t count, const char *word) {
    while (from < count && strcmp(replica->words[from], word)) from++;
    return from;
}

/* `stopped N version V clash KIND T CHANGE row VALUES own CHANGE lawful LETTERS`. A table may have one of these names, and no value is one of them. */
static int read_clash(struct replica *replica, size_t count, struct replica_clash *clash) {
    char **words = replica->words;
    size_t row = place_of(replica, 7, count, "row"), own = place_of(replica, row, count, "own");
    if (row < 10 || own + 6 > count) return 0;
    spelled(words[6]);
    *clash = (struct replica_clash){words[5], read_change(replica, words[6], 7, row), read_change(replica, words[6], own + 1, count - 2), NULL, 0, 0};
    if (strcmp(words[row + 1], "-")) clash->row = read_values(replica, row + 1, own);
    clash->may_keep = strchr(words[count - 1], 'k') != NULL, clash->may_take = strchr(words[count - 1], 't') != NULL;
    return 1;
}

/* Tells an answer of the hub. The wish `s` stops before a clash that wasn't shown, and then the answer is told again with the wish for that. */
static const char *hear(struct replica *replica, const char *answer, size_t length, replica_decide *decide, void *context, struct heard *heard) {
    char version[24] = "";
    for (begin(&replica->wishes, "");;) {
        if (replica->wishes.is_short) return "Memory";
        begin(&replica->asked, "answer ");
        put(&replica->asked, answer, length), put_words(&replica->asked, " ");
        put(&replica->asked, replica->wishes.bytes, replica->wishes.length), put_words(&replica->asked, "s\n");
        const char *refused = ask(replica);
        if (refused) return refused;
        size_t count = split(replica, replica->reply.bytes);
        if (!count) return "Memory";
        char **words = replica->words;
        int is_stopped = !strcmp(words[0], "stopped"), is_taken = !strcmp(words[0], "taken");
        if (!strcmp(words[0], "fault")) return named(replica, words[1]);
        if (is_taken || is_stopped) heard->taken += strtoull(words[1], NULL, 10);
        heard->is_accepted |= !strcmp(words[0], "accepted");
        heard->is_nothing = is_taken && !strcmp(words[1], "0");
        if (!strcmp(words[0], "hub") && !*heard->refused) snprintf(heard->refused, sizeof heard->refused, "hub refused %.19s", words[2]);
        if (!is_stopped) return NULL;
        if (strcmp(version, words[3])) snprintf(version, sizeof version, "%s", words[3]), begin(&replica->wishes, "");
        if (!strcmp(words[count - 1], "Memory")) return "Memory";
        struct replica_clash clash;
        if (!read_clash(replica, count, &clash)) return "unread";
        replica->is_busy = 1;
        char wish = (char)decide(context, &clash);
        replica->is_busy = 0;
        if (wish == REPLICA_STOP) return heard->is_stopped = 1, NULL;
        if (!(wish == REPLICA_KEEP ? clash.may_keep : wish == REPLICA_TAKE && clash.may_take)) return "Unlawful";
        put(&replica->wishes, &wish, 1);
    }
}

/* Gathers the push under way, else what is pending as the next one, and a catch. */
static const char *gather(struct replica *replica, int *is_pushed) {
    static const char *const lines[] = {"resend\n", "push\n"};
    begin(&replica->requests, "");
    *is_pushed = 0;
    for (int at = 0; at < 2 && !*is_pushed; at++) {
        const char *refused = ask_line(replica, lines[at]);
        if (refused && strcmp(refused, "Nothing")) return refused;
        if (!refused) *is_pushed = 1, put(&replica->requests, replica->reply.bytes, replica->reply.length - 1);
    }
    char line[32];
    snprintf(line, sizeof line, "catch %d\n", AT_ONCE);
    const char *refused = ask_line(replica, line);
    if (refused) return refused;
    put(&replica->requests, replica->reply.bytes, replica->reply.length - 1);
    return replica->requests.is_short ? "Memory" : NULL;
}

/* Whether these are so many answers, each whole. */
static int are_answers(const char *answers, int wanted) {
    size_t length;
    for (; *answers; answers += length + 1, wanted--) {
        length = strspn(answers, "0123456789abcdefABCDEF");
        if (!length || length % 2 || answers[length] != '\n') return 0;
    }
    return wanted == 0;
}

static const char *hear_all(struct replica *replica, const char *answers, replica_decide *decide, void *context, struct heard *heard) {
    const char *refused = NULL;
    while (*answers && !refused) {
        size_t length = strcspn(answers, "\n");
        refused = hear(replica, answers, length, decide, context, heard);
        answers += length + 1;
    }
    return refused;
}

const char *replica_sync(struct replica *replica, replica_exchange *exchange, void *line, replica_decide *decide, void *context, struct replica_synced *synced) {
    *synced = (struct replica_synced){0, 0, 0};
    for (;;) {
        struct heard heard = {0, 0, 0, 0, ""};
        int is_pushed;
        const char *refused = gather(replica, &is_pushed);
        if (refused) return refused;
        replica->is_busy = 1;
        char *answers = exchange(line, replica->requests.bytes);
        replica->is_busy = 0;
        if (!answers) return "Away";
        refused = are_answers(answers, is_pushed + 1) ? hear_all(replica, answers, decide, context, &heard) : "NoAnswers";
        free(answers);
        synced->taken += heard.taken;
        if (refused) return refused;
        if (*heard.refused) return named(replica, heard.refused);
        if (heard.is_stopped || (!is_pushed && heard.is_nothing)) {
            struct replica_place place;
            synced->is_stopped = heard.is_stopped;
            if (!(refused = replica_where(replica, &place))) synced->version = place.version;
            return refused;
        }
        if (!heard.taken && !heard.is_accepted) return "NoAnswers";
    }
}

enum replica_wish replica_keep_mine(void *context, const struct replica_clash *clash) {
    (void)context;
    return clash->may_keep ? REPLICA_KEEP : REPLICA_TAKE;
}

/* ---- HTTP, of version 1.0: the answer ends with the connection */

static int connected(const struct replica_http *http) {
    struct addrinfo wanted = {.ai_socktype = SOCK_STREAM}, *found;
    struct timeval patience = {PATIENCE, 0};
    int line = -1;
    if (getaddrinfo(http->host, http->port, &wanted, &found)) return -1;
    for (struct addrinfo *at = found; at && line < 0; at = at->ai_next) {
        line = socket(at->ai_family, at->ai_socktype, at->ai_protocol);
        if (line < 0) continue;
        fcntl(line, F_SETFD, FD_CLOEXEC);
        setsockopt(line, SOL_SOCKET, SO_RCVTIMEO, &patience, sizeof patience);
        setsockopt(line, SOL_SOCKET, SO_SNDTIMEO, &patience, sizeof patience);
        if (connect(line, at->ai_addr, at->ai_addrlen)) close(line), line = -1;
    }
    freeaddrinfo(found);
    return line;
}

/* Sends a text, and puts what comes into it, up to the end. */
static int converse(int line, struct text *text) {
    char piece[PIECE];
    ssize_t went = 1;
    if (text->is_short) return 0;
    for (size_t sent = 0; sent < text->length && (went > 0 || errno == EINTR); sent += went > 0 ? (size_t)went : 0)
        went = send(line, text->bytes + sent, text->length - sent, MSG_NOSIGNAL);
    begin(text, "");
    while (went > 0 || (went < 0 && errno == EINTR))
        if ((went = recv(line, piece, sizeof piece, 0)) > 0) put(text, piece, (size_t)went);
    return went == 0 && !text->is_short;
}

char *replica_http_exchange(void *context, const char *requests) {
    const struct replica_http *http = context;
    struct text text = {NULL, 0, 0, 0};
    char size[32], *body = NULL;
    int line = connected(http);
    if (line < 0) return NULL;
    snprintf(size, sizeof size, "%zu", strlen(requests));
    const char *parts[] = {"POST ", http->path, " HTTP/1.0\r\nHost: ", http->host, "\r\nAuthorization: Bearer ", http->token, "\r\nContent-Length: ", size, "\r\n\r\n", requests};
    for (size_t at = 0; at < sizeof parts / sizeof *parts; at++) put_words(&text, parts[at]);
    if (converse(line, &text)) body = strstr(text.bytes, "\r\n\r\n");
    close(line);
    if (body && !strncmp(text.bytes, "HTTP/1.", 7) && !strncmp(text.bytes + 8, " 200", 4)) memmove(text.bytes, body + 4, strlen(body + 4) + 1);
    else free(text.bytes), text.bytes = NULL;
    return text.bytes;
}
