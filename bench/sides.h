/* What the programs share that draw changes of two sides to the same rows, and rebase the one's over the other's. */
#ifndef SIDES_H
#define SIDES_H

#include "drawn.h"

/* What a changeset does at a place: its operation, and a bit for each column that an UPDATE modifies. */
struct deed {
    int table, operation;
    unsigned modified;
    struct buffer key; /* in hex */
};

struct deeds {
    struct deed *all;
    size_t count;
};

/* The change that an iterator stands at. */
static inline struct deed deed_at(sqlite3_changeset_iter *iter) {
    const char *name;
    int count, indirect;
    struct deed deed = {0};
    struct buffer key = {0};
    if (sqlite3changeset_op(iter, &name, &count, &deed.operation, &indirect) != SQLITE_OK) fail("iterator", "no change");
    deed.table = place_of(name);
    for (int column = 0; column < count; column++) {
        sqlite3_value *value = NULL;
        int is_key = tables[deed.table].columns[column] != 0;
        if (is_key) {
            (deed.operation == SQLITE_INSERT ? sqlite3changeset_new : sqlite3changeset_old)(iter, column, &value);
            put_value(&key, value);
        } else if (deed.operation == SQLITE_UPDATE) {
            sqlite3changeset_new(iter, column, &value);
            if (value) deed.modified |= 1u << column;
        }
    }
    put_hex(&deed.key, &key);
    free(key.bytes);
    return deed;
}

static inline struct deeds deeds_of(const struct buffer *changeset) {
    struct deeds deeds = {0};
    sqlite3_changeset_iter *iter;
    if (sqlite3changeset_start(&iter, (int)changeset->length, changeset->bytes) != SQLITE_OK) fail("iterator", "doesn't start");
    while (sqlite3changeset_next(iter) == SQLITE_ROW) {
        deeds.all = realloc(deeds.all, (deeds.count + 1) * sizeof *deeds.all);
        if (!deeds.all) fail("deeds", "no memory");
        deeds.all[deeds.count++] = deed_at(iter);
    }
    sqlite3changeset_finalize(iter);
    return deeds;
}

static inline const struct deed *deed_of(const struct deeds *deeds, const struct deed *other) {
    for (size_t i = 0; i < deeds->count; i++) {
        const struct deed *deed = &deeds->all[i];
        if (deed->table == other->table && strcmp((const char *)deed->key.bytes, (const char *)other->key.bytes) == 0) return deed;
    }
    fail("a conflict", "is with no local change");
}

static inline void free_deeds(struct deeds *deeds) {
    for (size_t i = 0; i < deeds->count; i++) free(deeds->all[i].key.bytes);
    free(deeds->all);
}

/* Whether the local change touches each column that the remote one does: unless the remote UPDATE modifies a column that the local
 * UPDATE doesn't. */
static inline int covers(const struct deed *local, const struct deed *remote) {
    return !(local->operation == SQLITE_UPDATE && remote->operation == SQLITE_UPDATE && (remote->modified & ~local->modified));
}

/* Counts the conflicts of a rebased changeset, and takes it wherever SQLite lets it. */
static inline int answer_counted(void *context, int kind, sqlite3_changeset_iter *iter) {
    unsigned *met = context;
    (void)iter;
    (*met)++;
    return kind == SQLITE_CHANGESET_DATA || kind == SQLITE_CHANGESET_CONFLICT ? SQLITE_CHANGESET_REPLACE : SQLITE_CHANGESET_OMIT;
}

/* Makes drawn changes to a copy of these rows, and captures them. */
static inline sqlite3 *open_changed(sqlite3 *base, struct buffer *changeset) {
    sqlite3 *db = open_tables(TABLES);
    copy_rows(base, db, TABLES);
    sqlite3_session *session = watch(db);
    sqlite3session_indirect(session, draw(4) == 0);
    change_some(db, TABLES, draw(40));
    size_t length;
    void *bytes = end_session(db, session, &length);
    put(changeset, bytes, length);
    sqlite3_free(bytes);
    return db;
}

/* The local changeset, rebased by SQLite over this blob. */
static inline void *rebase(const struct buffer *local, void *blob, int blob_length, int *length) {
    sqlite3_rebaser *rebaser;
    void *rebased = NULL;
    if (sqlite3rebaser_create(&rebaser) != SQLITE_OK) fail("rebaser", "isn't made");
    if (sqlite3rebaser_configure(rebaser, blob_length, blob) != SQLITE_OK) fail("rebaser", "takes no blob");
    if (sqlite3rebaser_rebase(rebaser, (int)local->length, local->bytes, length, &rebased) != SQLITE_OK) fail("rebaser", "fails");
    sqlite3rebaser_delete(rebaser);
    return rebased;
}

static inline void put_count(struct buffer *out, const char *word, unsigned count) {
    char line[32];
    snprintf(line, sizeof line, "%s %u\n", word, count);
    put_text(out, line);
}

#endif
