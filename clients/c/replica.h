/* A replica in a file, for programs in C11: tables that are edited offline, and synced through a hub.

   It drives one process, `sync node --follow`, which holds the file until replica_close. What a call did is in the file when it returns.

   Each call returns NULL where it is done, else the name of why not, which is there until the next call: `Exists`, `Missing`, `NoTable`, `Width`, `NullKey`,
   `KeyColumn`, `Device`, `Memory`, .. Nothing has changed then. `Ended` says that the process is gone: close and open again. One thread at a time may use a
   replica, and what a call calls back makes no call on it (`Busy`).

   A hub may give a table more columns, behind those of its word. What is shown has them then. An insert and an update take as many values as the word has columns, or
   more, up to those that are there. Behind the values of an insert stands NULL, and behind those of an update nothing is changed. */
#ifndef REPLICA_H
#define REPLICA_H
#include <stddef.h>
#include <stdint.h>
#include <string.h>

struct replica;

/* ---- values */

enum replica_kind { REPLICA_NULL, REPLICA_INTEGER, REPLICA_TEXT, REPLICA_BLOB, REPLICA_SAME /* a column that isn't changed */ };

/* A text, in UTF-8, and a blob have `length` bytes. Behind those that the library gives stands a zero byte. Prices are integers, as of cents. */
struct replica_value {
    enum replica_kind kind;
    int64_t integer;
    const char *bytes;
    size_t length;
};

static inline struct replica_value replica_null(void) { return (struct replica_value){REPLICA_NULL, 0, NULL, 0}; }
static inline struct replica_value replica_same(void) { return (struct replica_value){REPLICA_SAME, 0, NULL, 0}; }
static inline struct replica_value replica_integer(int64_t integer) { return (struct replica_value){REPLICA_INTEGER, integer, NULL, 0}; }
static inline struct replica_value replica_text(const char *text) { return (struct replica_value){REPLICA_TEXT, 0, text, strlen(text)}; }
static inline struct replica_value replica_blob(const void *bytes, size_t length) {
    return (struct replica_value){REPLICA_BLOB, 0, (const char *)bytes, length};
}

/* Values as two arguments: where they are, and how many. */
#define REPLICA_VALUES(...) \
    (const struct replica_value[]){__VA_ARGS__}, sizeof((const struct replica_value[]){__VA_ARGS__}) / sizeof(struct replica_value)

/* ---- a replica */

/* Opens a replica, and makes the file where there is none. `program` is `sync` on the PATH, or where it is. A table is a word as `stock:100`, a digit a column and 1
   for the key, and NULL stands behind the last. It has the columns that the hub began with: what came later is found in the file. An id is below 4,294,967,295, and no
   other replica of the hub has or ever had it. Close it in any case. */
const char *replica_open(struct replica **replica, const char *program, const char *file, uint32_t id, const char *const *tables);

/* Lets the process end, and the file go. */
void replica_close(struct replica *replica);

/* ---- edits: to insert takes a value a column, to update the same with the key and what changes, to delete the key */

enum replica_operation { REPLICA_INSERT, REPLICA_UPDATE, REPLICA_DELETE };

const char *replica_insert(struct replica *replica, const char *table, const struct replica_value *values, size_t count);
const char *replica_update(struct replica *replica, const char *table, const struct replica_value *values, size_t count);
const char *replica_delete(struct replica *replica, const char *table, const struct replica_value *key, size_t count);

struct replica_edit {
    enum replica_operation operation;
    const char *table;
    const struct replica_value *values;
    size_t count;
};

/* Makes these edits as one commit, in order: all or none. Where one is refused, `place` gets its place among them, from 0, else their number. */
const char *replica_edits(struct replica *replica, const struct replica_edit *edits, size_t count, size_t *place);

/* ---- what is there. What is shown stays until the call returns */

/* A change of a row of so many columns. An INSERT has no old row, a DELETE no new one. An UPDATE has the old values of the key and of what it changes, and the new ones
   of that, and REPLICA_SAME elsewhere. */
struct replica_change {
    enum replica_operation operation;
    const char *table;
    const struct replica_value *old_row, *new_row;
    size_t columns;
};

struct replica_place {
    uint64_t version, pending, flight; /* of the hub's log, and how many changes are pending and how many under way in a push */
};

typedef void replica_see_row(void *context, const struct replica_value *row, size_t columns);
typedef void replica_see_change(void *context, const struct replica_change *change);

const char *replica_rows(struct replica *replica, const char *table, replica_see_row *see, void *context);
const char *replica_row(struct replica *replica, const char *table, const struct replica_value *key, size_t count, replica_see_row *see, void *context);
const char *replica_pending(struct replica *replica, replica_see_change *see, void *context);
const char *replica_where(struct replica *replica, struct replica_place *place);

/* ---- a hub */

enum replica_wish { REPLICA_KEEP = 'k', REPLICA_TAKE = 't', REPLICA_STOP = 's' };

/* Another's change that meets an own one which the hub doesn't have yet. `row` is the own row, or NULL. `kind` is `data`, `notfound` or `conflict` (docs/FORMATS.md, 6). */
struct replica_clash {
    const char *kind;
    struct replica_change theirs, mine;
    const struct replica_value *row;
    int may_keep, may_take;
};

struct replica_synced {
    uint64_t taken, version; /* how many entries were taken, and the version it came to */
    int is_stopped;          /* at a clash, by REPLICA_STOP */
};

/* Gives the hub's answers to requests, a line of hex each and in the same order, to be freed. NULL where there are none. */
typedef char *replica_exchange(void *line, const char *requests);
typedef enum replica_wish replica_decide(void *context, const struct replica_clash *clash);

/* Pushes what is pending and takes what others did, until nothing is left of either. `Away` says that no answers came. Nothing is lost then: a push stays under way, the next
   sync sends it again, and the hub counts it once. What the hub refuses is told as `hub refused CODE`, once what it gave is taken. */
const char *replica_sync(struct replica *replica, replica_exchange *exchange, void *line, replica_decide *decide, void *context, struct replica_synced *synced);

/* Keeps the own change wherever that is lawful. */
enum replica_wish replica_keep_mine(void *context, const struct replica_clash *clash);

/* A hub behind hub/gateway.py, without TLS: the `line` of replica_http_exchange. */
struct replica_http {
    const char *host, *port, *path, *token;
};

char *replica_http_exchange(void *http, const char *requests);

#endif
