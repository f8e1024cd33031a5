/* Changesets in the format of SQLite's session extension: read, written again, brought into normal form, taken together,
 * taken back, rebased, and written for SQLite.
 *
 * A changeset in normal form, which most of the functions write, is for this library, its program and its hubs: it has the
 * byte 1 for each key column. For SQLite's own sqlite3changeset_apply put it through cs_ffi_for_sqlite: SQLite has there
 * each key column's place in the PRIMARY KEY, and passes over a group with other bytes without a word.
 *
 * Link out/libcs_ffi.a, and behind it the toolchain's c/liblibc_c.a, which gives it memory by malloc, realloc and free.
 * The functions give back all memory before they return. They may be
 * called from several threads, each on bytes of its own; not from a signal handler.
 *
 * A pointer must not be null, also where its length is 0. What is read (bytes and lengths) and what is written must not
 * overlap. */
#ifndef CS_FFI_H
#define CS_FFI_H

#include <stddef.h>
#include <stdint.h>

#ifdef __cplusplus
extern "C" {
#endif

/* What is wrong with the bytes. */
enum cs_ffi_fault {
    CS_FFI_READ = 0,            /* nothing */
    CS_FFI_MEMORY = 1,          /* memory is wanting; it says nothing of the bytes */
    CS_FFI_TRUNCATED = 2,       /* the bytes end early */
    CS_FFI_NOT_SHORTEST = 3,    /* a varint is longer than it needs to be */
    CS_FFI_BAD_TYPE = 4,        /* no field has this type */
    CS_FFI_REAL = 5,            /* a field is a real number */
    CS_FFI_NOT_UTF8 = 6,        /* a text or a name is not UTF-8 */
    CS_FFI_PATCHSET = 7,        /* a group begins as one of a patchset */
    CS_FFI_BAD_MARK = 8,        /* the first byte begins no group */
    CS_FFI_BAD_OPERATION = 9,   /* a byte in a change's place is no operation */
    CS_FFI_BAD_FLAG = 10,       /* a flag is neither 0 nor 1 */
    CS_FFI_COLUMNS = 11,        /* a group has no column or more than 2,000 */
    CS_FFI_NO_KEY_COLUMN = 12,  /* a group has no key column */
    CS_FFI_UNDEFINED_HERE = 13, /* a field is undefined where a value is owed */
    CS_FFI_KEY_CHANGED = 14,    /* an UPDATE has another value in its key */
    CS_FFI_UNKNOWN_TABLE = 30,  /* no declared table has the group's name */
    CS_FFI_SHAPE = 31,          /* the table of the group's name has another column count or other key columns */
    CS_FFI_NULL_KEY = 32,       /* a change has NULL at a key column */
    CS_FFI_KEY_TWICE = 33,      /* two changes of one table have one key */
    CS_FFI_NO_TABLES = 50,      /* the declaring bytes are no changeset, or headers are no catalog's */
    CS_FFI_LENGTHS = 51,        /* the lengths of the inputs don't add up to the bytes */
    CS_FFI_BLOB_KEY_TWICE = 52, /* two entries of the blob are of one table and key */
    CS_FFI_WRONG_SHAPE = 53,    /* a group of the blob has a table's name, and another column count or key columns */
    CS_FFI_KEY_ORDER = 54       /* two headers of one table have its key columns in different orders */
};

/* What is told of bytes: the number of their first fault, its offset in bytes from the front (0 where there is none),
 * and a count (0 beside a fault). */
struct cs_ffi_answer {
    uint32_t fault;
    size_t offset;
    size_t count;
};

/* Reads a changeset, the whole of the bytes. The count is that of its changes. */
struct cs_ffi_answer cs_ffi_decode(const uint8_t *input, size_t input_length);

/* Reads a changeset and writes it again to the front of the output. The count is that of the bytes it takes, which are
 * the bytes that were read. Where the output has no room for them, and beside a fault, nothing is written. */
struct cs_ffi_answer cs_ffi_reencode(const uint8_t *input, size_t input_length, uint8_t *output, size_t output_length);

/* Brings a changeset into normal form and writes that to the front of the output: for each declared table, in their
 * order, its changes, one a key, in the order of the keys' bytes, each in its shortest form. The tables are those that the
 * headers of another changeset tell of, in the order in which each name first comes; its changes, if it has any, don't
 * matter. The count is that of the bytes that the normal form takes, at most as many as the input's. Where the output has
 * no room for them, and beside a fault, nothing is written. The tables are judged first (fault 50), then the bytes of the
 * input (faults 2 to 14 and their offset are the input's), then the changeset (faults 30 to 33, without an offset). */
struct cs_ffi_answer cs_ffi_normalise(const uint8_t *declared, size_t declared_length, const uint8_t *input,
                                      size_t input_length, uint8_t *output, size_t output_length);

/* Writes a changeset for SQLite's own sqlite3changeset_apply to the front of the output: in normal form, as
 * cs_ffi_normalise does, but with the column bytes of the headers that declare its tables, in place of 1 for each key
 * column. What SQLite captured declares its tables as SQLite has them: for what cs_ffi_combine wrote hand over the same
 * inputs (changesets that stand one after another are one), for what cs_ffi_rebase or cs_ffi_invert wrote the changeset
 * that it was made of. The tables are judged first (fault 50), then the order of their key columns (54, where two headers
 * of one table have other column bytes), then the input as by cs_ffi_normalise; counts are as there. */
struct cs_ffi_answer cs_ffi_for_sqlite(const uint8_t *declared, size_t declared_length, const uint8_t *input,
                                       size_t input_length, uint8_t *output, size_t output_length);

/* Takes changesets together as one, as sqlite3changegroup_add and sqlite3changegroup_output do, and writes that in normal
 * form to the front of the output. The changesets stand one after another in the inputs, each as long as its place in the
 * lengths says; there may be none. The tables are those that the headers of all of them tell of, in the order in which
 * each name first comes. The count is that of the bytes that it takes. Where the output has no room for them, and beside
 * a fault, nothing is written. The lengths are judged first (fault 51), then each changeset's bytes in order (faults 2 to
 * 14; the offset is from the front of all the inputs), then the headers (31 where one name comes with two shapes, else
 * 50), then each changeset in order (32 and 33). */
struct cs_ffi_answer cs_ffi_combine(const uint8_t *inputs, size_t inputs_length, const size_t *lengths,
                                    size_t lengths_count, uint8_t *output, size_t output_length);

/* Takes a changeset back, as sqlite3changeset_invert does, and writes that in normal form, by the tables that its own
 * headers tell of, to the front of the output. Counts and faults are as those of cs_ffi_combine over the one input. */
struct cs_ffi_answer cs_ffi_invert(const uint8_t *input, size_t input_length, uint8_t *output, size_t output_length);

/* Rebases a local changeset, as sqlite3rebaser_configure and sqlite3rebaser_rebase do, and writes that in normal form to
 * the front of the output. The local changeset holds the changes that were made here while another wrote those of a remote
 * changeset. The blob is what applying that one to the local tables left (sqlite3changeset_apply_v2): for each conflict
 * that was answered by OMIT or REPLACE, the answer and the remote change; one of no bytes tells of no conflict. So first the
 * remote changeset is applied, and then the local one is rebased over the blob. What comes out says of the tables as the
 * remote changeset alone left them what the local one says of them as it found them, and is for those who have the remote
 * changeset and not the local one.
 * The local changeset is brought into normal form by the tables that its own headers tell of, before it is rebased; tables
 * of which no change is left don't come out. The count is that of the bytes that it takes. Where the output has no room for
 * them, and beside a fault, nothing is written. The local changeset is judged first, as by cs_ffi_invert, then the blob's
 * bytes (faults 2 to 14; the offset is counted as if the blob stood right behind the local changeset), then the blob's
 * entries (52) and then its groups beside the tables (53; a group of another table may have any shape). */
struct cs_ffi_answer cs_ffi_rebase(const uint8_t *local, size_t local_length, const uint8_t *blob, size_t blob_length,
                                   uint8_t *output, size_t output_length);

#ifdef __cplusplus
}
#endif

#endif
