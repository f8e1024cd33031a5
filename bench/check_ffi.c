/* Checks the library's C functions as a C program meets them, through cs_ffi.h, and without SQLite: fixed bytes, and
 * beside them the answer and the bytes that are owed, written out by hand (docs/FORMATS.md has the rules). Each call is
 * made with ample memory, and then again with each of its allocations refused in turn. Whatever it answers, nothing may
 * be written beyond what is owed, and all memory has to be given back.
 *
 * To be linked with -Wl,--wrap=malloc,--wrap=realloc,--wrap=free, so that the library's calls of these come here. */
#include "../crates/cs_ffi/cs_ffi.h"
#include <stdio.h>
#include <stdlib.h>
#include <string.h>

/* ---- memory */

static size_t held;    /* how many pieces of memory the library has and hasn't given back */
static size_t asked;   /* how many it has asked for in this call */
static size_t refused; /* which of these is refused, from 1; 0 for none */

void *__real_malloc(size_t size);
void *__real_realloc(void *memory, size_t size);
void __real_free(void *memory);

void *__wrap_malloc(size_t size) {
    void *memory = ++asked == refused ? NULL : __real_malloc(size);
    if (memory) held++;
    return memory;
}

void *__wrap_realloc(void *memory, size_t size) {
    if (!memory) return __wrap_malloc(size);
    return ++asked == refused ? NULL : __real_realloc(memory, size);
}

void __wrap_free(void *memory) {
    if (memory) held--;
    __real_free(memory);
}

/* ---- what is asked and what is owed */

/* In hex: the headers of a table t1 with a key column and another, and of a table t2 with a key column alone; the
 * integers 1 and 2; the texts 'v1' and 'v2'. Behind a header an operation (12, 09, 17) and a flag. */
#define H1 "54020100743100"
#define H2 "540101743200"
#define K1 "010000000000000001"
#define K2 "010000000000000002"
#define V1 "03027631"
#define V2 "03027632"
#define INSERT H1 "1200" K1 V1
#define UPDATE H1 "1700" K1 V1 "00" V2

/* The headers of a table k of two key columns in normal form, as SQLite writes it where the second column is the first of
 * the key, and as it does where it isn't; and an INSERT of a row there. */
#define H3 "540201016b00"
#define TURNED "540202016b00"
#define STRAIGHT "540201026b00"
#define ROW "1200" V1 K1

/* A table t of two columns with two changes, INSERT (1, 'a') and DELETE (2, NULL); the same in another order under another mark;
 * t and u of one column each. */
#define T "540201007400"
#define T_INSERT "1200" K1 "030161"
#define TWO_CHANGES T T_INSERT "0900" K2 "05"
#define UNSORTED "540202007400" "0900" K2 "05" T_INSERT
#define T1 "5401017400"
#define U1 "5401017500"

/* Headers of t with the key (second column, first column), as SQLite writes them, then of u, then of t again; and t with both
 * columns in its key: INSERT ('a', 'b'), as we write it and as SQLite does. */
#define ORDERED "540202017400" U1 "540202017400"
#define AB "1200" "030161" "030162"
#define KEY_INSERT "540201017400" AB
#define KEY_ORDERED "540202017400" AB
#define OF_U U1 "12000400"
#define TWO_SHAPES T1 "540201007400"
#define OTHER_DELETE H1 "0900" K1 V2
#define OTHER_INSERT H1 "1200" K1 V2

enum function { DECODE, REENCODE, NORMALISE, FOR_SQLITE, COMBINE, INVERT, REBASE };

static const char *const names[] = {"cs_ffi_decode", "cs_ffi_reencode", "cs_ffi_normalise", "cs_ffi_for_sqlite",
                                    "cs_ffi_combine", "cs_ffi_invert", "cs_ffi_rebase"};

#define ROOM 64

/* A call, and what it owes: the answer, and the bytes at the front of the output. */
struct row {
    enum function function;
    const char *declared; /* of cs_ffi_normalise and cs_ffi_for_sqlite */
    const char *blob;     /* of cs_ffi_rebase */
    const char *input;
    size_t lengths[3]; /* of cs_ffi_combine */
    size_t parts;
    size_t room;
    uint32_t fault;
    size_t offset;
    size_t count;
    const char *output;
};

#define READS(bytes, changes) {.function = DECODE, .input = bytes, .count = changes, .output = ""}
#define NOT_READ(bytes, what, at) {.function = DECODE, .input = bytes, .fault = what, .offset = at, .output = ""}
#define WRITES(called, bytes, space, length, written) \
    {.function = called, .input = bytes, .room = space, .count = length, .output = written}
#define WRITES_NOT(called, bytes, what, at) \
    {.function = called, .input = bytes, .room = ROOM, .fault = what, .offset = at, .output = ""}
#define HAS_FORM(tables, bytes, space, length, written) \
    {.function = NORMALISE, .declared = tables, .input = bytes, .room = space, .count = length, .output = written}
#define HAS_NO_FORM(tables, bytes, what, at) \
    {.function = NORMALISE, .declared = tables, .input = bytes, .room = ROOM, .fault = what, .offset = at, .output = ""}
#define FOR(tables, bytes, space, length, written) \
    {.function = FOR_SQLITE, .declared = tables, .input = bytes, .room = space, .count = length, .output = written}
#define NOT_FOR(tables, bytes, what, at) \
    {.function = FOR_SQLITE, .declared = tables, .input = bytes, .room = ROOM, .fault = what, .offset = at, .output = ""}
#define COMBINES(bytes, a, b, c, many, space, length, written) \
    {.function = COMBINE, .input = bytes, .lengths = {a, b, c}, .parts = many, .room = space, .count = length, \
     .output = written}
#define COMBINES_NOT(bytes, a, b, c, many, what, at) \
    {.function = COMBINE, .input = bytes, .lengths = {a, b, c}, .parts = many, .room = ROOM, .fault = what, \
     .offset = at, .output = ""}
#define REBASES(bytes, over, space, length, written) \
    {.function = REBASE, .input = bytes, .blob = over, .room = space, .count = length, .output = written}
#define REBASES_NOT(bytes, over, what, at) \
    {.function = REBASE, .input = bytes, .blob = over, .room = ROOM, .fault = what, .offset = at, .output = ""}

static const struct row rows[] = {
    /* what is read, and how many changes it has */
    READS("", 0),
    READS(H1, 0),
    READS(INSERT, 1),
    READS(INSERT "0901" K2 V2 H2 "1200" K1, 3),
    READS(H1 "1700" K1 V1 K1 V2, 1),

    /* each fault of the bytes, and where it is */
    NOT_READ("54", CS_FFI_TRUNCATED, 1),
    NOT_READ(H1 "1200" K1 "038002", CS_FFI_NOT_SHORTEST, 19),
    NOT_READ(H1 "1200" K1 "06", CS_FFI_BAD_TYPE, 18),
    NOT_READ(H1 "1200" K1 "02", CS_FFI_REAL, 18),
    NOT_READ("54020100ff00", CS_FFI_NOT_UTF8, 4),
    NOT_READ("50", CS_FFI_PATCHSET, 0),
    NOT_READ("55", CS_FFI_BAD_MARK, 0),
    NOT_READ(H1 "13", CS_FFI_BAD_OPERATION, 7),
    NOT_READ(H1 "1202", CS_FFI_BAD_FLAG, 8),
    NOT_READ("5400", CS_FFI_COLUMNS, 1),
    NOT_READ("54020000", CS_FFI_NO_KEY_COLUMN, 2),
    NOT_READ(H1 "120000", CS_FFI_UNDEFINED_HERE, 9),
    NOT_READ(H1 "1700" K1 V1 K2 V2, CS_FFI_KEY_CHANGED, 22),

    /* written again: whole, or where there is no room nothing; an UPDATE that names its key twice stays as it was */
    WRITES(REENCODE, "", 0, 0, ""),
    WRITES(REENCODE, INSERT, 22, 22, INSERT),
    WRITES(REENCODE, INSERT, 21, 22, ""),
    WRITES(REENCODE, H1 "1700" K1 V1 K1 V2, 35, 35, H1 "1700" K1 V1 K1 V2),
    WRITES_NOT(REENCODE, INSERT "13", CS_FFI_BAD_OPERATION, 22),

    /* the normal form: that UPDATE in its short form, changes by key, tables as declared, and none without changes */
    HAS_FORM(H1, H1 "1700" K1 V1 K1 V2, ROOM, 27, UPDATE),
    HAS_FORM(H1, H1 "1201" K2 V2 "1200" K1 V1, ROOM, 37, INSERT "1201" K2 V2),
    HAS_FORM(H2 H1, INSERT H2 "0900" K2, ROOM, 39, H2 "0900" K2 INSERT),
    HAS_FORM(H1 H2, H2 H1, ROOM, 0, ""),
    HAS_FORM(H1 H1, INSERT, 22, 22, INSERT),
    HAS_FORM(H1, INSERT, 21, 22, ""),
    HAS_NO_FORM("5401", INSERT, CS_FFI_NO_TABLES, 0),
    HAS_NO_FORM(H1 "540101743100", INSERT, CS_FFI_NO_TABLES, 0),
    HAS_NO_FORM(H1, INSERT "13", CS_FFI_BAD_OPERATION, 22),
    HAS_NO_FORM(H2, INSERT, CS_FFI_UNKNOWN_TABLE, 0),
    HAS_NO_FORM("540101743100", INSERT, CS_FFI_SHAPE, 0),
    HAS_NO_FORM(H1, H1 "120005" V1, CS_FFI_NULL_KEY, 0),
    HAS_NO_FORM(H1, INSERT "0900" K1 V1, CS_FFI_KEY_TWICE, 0),

    /* for SQLite: the normal form, but with the column bytes of the headers that declare the tables */
    FOR(TURNED, H3 ROW, 21, 21, TURNED ROW),
    FOR(STRAIGHT H1 STRAIGHT, TURNED ROW, ROOM, 21, STRAIGHT ROW),
    FOR(H1 TURNED, H3 ROW UPDATE, ROOM, 48, UPDATE TURNED ROW),
    FOR(H1, H1 "1700" K1 V1 K1 V2, ROOM, 27, UPDATE),
    FOR(TURNED, "", 0, 0, ""),
    FOR(TURNED, H3 ROW, 20, 21, ""),
    NOT_FOR("5402", H3 ROW "13", CS_FFI_NO_TABLES, 0),
    NOT_FOR(TURNED "540201006b00", H3 ROW "13", CS_FFI_NO_TABLES, 0),
    NOT_FOR(TURNED STRAIGHT, H3 ROW "13", CS_FFI_KEY_ORDER, 0),
    NOT_FOR(TURNED, H3 ROW "13", CS_FFI_BAD_OPERATION, 21),
    NOT_FOR(TURNED, INSERT, CS_FFI_UNKNOWN_TABLE, 0),
    NOT_FOR(TURNED, "540201006b00" ROW, CS_FFI_SHAPE, 0),
    NOT_FOR(TURNED, H3 "120005" K1, CS_FFI_NULL_KEY, 0),
    NOT_FOR(TURNED, H3 ROW ROW, CS_FFI_KEY_TWICE, 0),

    /* taken together: the lengths say where each begins, and an offset is from the front of all */
    COMBINES("", 0, 0, 0, 0, ROOM, 0, ""),
    COMBINES(INSERT, 0, 22, 0, 3, ROOM, 22, INSERT),
    COMBINES(INSERT UPDATE, 22, 27, 0, 2, 22, 22, H1 "1200" K1 V2),
    COMBINES(UPDATE H1 "0900" K1 V2, 27, 22, 0, 2, ROOM, 22, H1 "0900" K1 V1),
    COMBINES(INSERT UPDATE, 22, 27, 0, 2, 21, 22, ""),
    COMBINES_NOT(INSERT, 21, 0, 0, 1, CS_FFI_LENGTHS, 0),
    COMBINES_NOT(INSERT, 22, 1, 0, 2, CS_FFI_LENGTHS, 0),
    COMBINES_NOT(INSERT, SIZE_MAX, 23, 0, 2, CS_FFI_LENGTHS, 0),
    COMBINES_NOT(INSERT UPDATE, 49, 0, 0, 1, CS_FFI_KEY_TWICE, 0),
    COMBINES_NOT(INSERT H1 "13", 22, 8, 0, 2, CS_FFI_BAD_OPERATION, 29),
    COMBINES_NOT(H1 "540101743100", 7, 6, 0, 2, CS_FFI_SHAPE, 0),
    COMBINES_NOT("54010100", 4, 0, 0, 1, CS_FFI_NO_TABLES, 0),
    COMBINES_NOT(INSERT H1 "120005" V1, 22, 14, 0, 2, CS_FFI_NULL_KEY, 0),

    /* taken back */
    WRITES(INVERT, "", 0, 0, ""),
    WRITES(INVERT, INSERT, ROOM, 22, H1 "0900" K1 V1),
    WRITES(INVERT, H1 "0901" K1 V1, ROOM, 22, H1 "1201" K1 V1),
    WRITES(INVERT, UPDATE, 27, 27, H1 "1700" K1 V2 "00" V1),
    WRITES(INVERT, INSERT, 21, 22, ""),
    WRITES_NOT(INVERT, INSERT "13", CS_FFI_BAD_OPERATION, 22),
    WRITES_NOT(INVERT, H1 "120005" V1, CS_FFI_NULL_KEY, 0),
    WRITES_NOT(INVERT, INSERT "1200" K1 V1, CS_FFI_KEY_TWICE, 0),

    /* rebased: an entry is spelled like an INSERT, and its flag is the answer (OMIT 00, REPLACE 01); the local changeset is
     * judged before the blob, whose offsets are counted from the front of the local one */
    REBASES("", "", 0, 0, ""),
    REBASES(INSERT, "", 22, 22, INSERT),
    REBASES(INSERT, H1 "1200" K1 V2, 27, 27, H1 "1700" K1 V2 "00" V1),
    REBASES(INSERT, H1 "1200" K1 V1, ROOM, 0, ""),
    REBASES(INSERT, H1 "1201" K1 V2, ROOM, 0, ""),
    REBASES(INSERT, H1 "1200" K2 V2 H2 "1201" K1, ROOM, 22, INSERT),
    REBASES(INSERT, H1 "1200" K1 V2, 26, 27, ""),
    REBASES_NOT(INSERT "13", "55", CS_FFI_BAD_OPERATION, 22),
    REBASES_NOT(H1 "540101743100", "55", CS_FFI_SHAPE, 0),
    REBASES_NOT("54010100", "55", CS_FFI_NO_TABLES, 0),
    REBASES_NOT(H1 "120005" V1, "55", CS_FFI_NULL_KEY, 0),
    REBASES_NOT(INSERT "1200" K1 V1, "55", CS_FFI_KEY_TWICE, 0),
    REBASES_NOT(INSERT, "54", CS_FFI_TRUNCATED, 23),
    REBASES_NOT(INSERT, H1 "1200" K1 "038002", CS_FFI_NOT_SHORTEST, 41),
    REBASES_NOT(INSERT, H1 "1200" K1 "06", CS_FFI_BAD_TYPE, 40),
    REBASES_NOT(INSERT, H1 "1200" K1 "02", CS_FFI_REAL, 40),
    REBASES_NOT(INSERT, "54020100ff00", CS_FFI_NOT_UTF8, 26),
    REBASES_NOT(INSERT, "50", CS_FFI_PATCHSET, 22),
    REBASES_NOT(INSERT, "55", CS_FFI_BAD_MARK, 22),
    REBASES_NOT(INSERT, H1 "17", CS_FFI_BAD_OPERATION, 29),
    REBASES_NOT(INSERT, H1 "1202", CS_FFI_BAD_FLAG, 30),
    REBASES_NOT(INSERT, "5400", CS_FFI_COLUMNS, 23),
    REBASES_NOT(INSERT, "54020000", CS_FFI_NO_KEY_COLUMN, 24),
    REBASES_NOT(INSERT, H1 "120000", CS_FFI_UNDEFINED_HERE, 31),
    REBASES_NOT(INSERT, H1 "1200" K1 V1 "1200" K1 V1, CS_FFI_BLOB_KEY_TWICE, 0),
    REBASES_NOT(INSERT, "5403010000743100" "1200" K1 "0000", CS_FFI_WRONG_SHAPE, 0),
    /* two changes of one table: counted, written again, and in normal form */
    READS(T, 0),
    READS(T T_INSERT, 1),
    READS(TWO_CHANGES, 2),
    WRITES(REENCODE, TWO_CHANGES, 34, 32, TWO_CHANGES),
    WRITES(REENCODE, TWO_CHANGES, 31, 32, ""),
    HAS_FORM(T, UNSORTED, 33, 32, TWO_CHANGES),
    HAS_FORM(T, UNSORTED, 31, 32, ""),

    /* each fault, of bytes that are read and of such that would be written again */
    NOT_READ(T T_INSERT "0900" "0100000000000000", CS_FFI_TRUNCATED, 30),
    WRITES_NOT(REENCODE, T T_INSERT "0900" "0100000000000000", CS_FFI_TRUNCATED, 30),
    NOT_READ("548001", CS_FFI_NOT_SHORTEST, 1),
    WRITES_NOT(REENCODE, "548001", CS_FFI_NOT_SHORTEST, 1),
    NOT_READ("54010100120006", CS_FFI_BAD_TYPE, 6),
    WRITES_NOT(REENCODE, "54010100120006", CS_FFI_BAD_TYPE, 6),
    NOT_READ("54010100120002", CS_FFI_REAL, 6),
    WRITES_NOT(REENCODE, "54010100120002", CS_FFI_REAL, 6),
    NOT_READ("540101ff00", CS_FFI_NOT_UTF8, 3),
    WRITES_NOT(REENCODE, "540101ff00", CS_FFI_NOT_UTF8, 3),
    NOT_READ("50", CS_FFI_PATCHSET, 0),
    WRITES_NOT(REENCODE, "50", CS_FFI_PATCHSET, 0),
    NOT_READ("55", CS_FFI_BAD_MARK, 0),
    WRITES_NOT(REENCODE, "55", CS_FFI_BAD_MARK, 0),
    NOT_READ("5401010013", CS_FFI_BAD_OPERATION, 4),
    WRITES_NOT(REENCODE, "5401010013", CS_FFI_BAD_OPERATION, 4),
    NOT_READ("540101001202", CS_FFI_BAD_FLAG, 5),
    WRITES_NOT(REENCODE, "540101001202", CS_FFI_BAD_FLAG, 5),
    NOT_READ("5400", CS_FFI_COLUMNS, 1),
    WRITES_NOT(REENCODE, "5400", CS_FFI_COLUMNS, 1),
    NOT_READ("54020000", CS_FFI_NO_KEY_COLUMN, 2),
    WRITES_NOT(REENCODE, "54020000", CS_FFI_NO_KEY_COLUMN, 2),
    NOT_READ("54010100120000", CS_FFI_UNDEFINED_HERE, 6),
    WRITES_NOT(REENCODE, "54010100120000", CS_FFI_UNDEFINED_HERE, 6),
    NOT_READ("54010100170003000400", CS_FFI_KEY_CHANGED, 8),
    WRITES_NOT(REENCODE, "54010100170003000400", CS_FFI_KEY_CHANGED, 8),

    /* why there is no normal form */
    HAS_NO_FORM("5401", "", CS_FFI_NO_TABLES, 0),
    HAS_NO_FORM(TWO_SHAPES, "", CS_FFI_NO_TABLES, 0),
    HAS_NO_FORM("54010100", "", CS_FFI_NO_TABLES, 0),
    HAS_NO_FORM(T1, T1 "13", CS_FFI_BAD_OPERATION, 5),
    HAS_NO_FORM(T1, U1, CS_FFI_UNKNOWN_TABLE, 0),
    HAS_NO_FORM(T1, "540201007400", CS_FFI_SHAPE, 0),
    HAS_NO_FORM(T1, T1 "120005", CS_FFI_NULL_KEY, 0),
    HAS_NO_FORM(T1, T1 "12000300" "09000300", CS_FFI_KEY_TWICE, 0),

    /* for SQLite: by headers in any order and beside those of another table, and of the column bytes of another program */
    FOR(ORDERED, KEY_INSERT, 24, 14, KEY_ORDERED),
    FOR(ORDERED, KEY_ORDERED, 24, 14, KEY_ORDERED),
    FOR(KEY_INSERT, KEY_ORDERED, 24, 14, KEY_INSERT),
    FOR(ORDERED, OF_U, 24, 9, OF_U),
    FOR(ORDERED, "5401077500" "12000400" "540201027400" AB, 24, 23, KEY_ORDERED OF_U),
    FOR("", "", 24, 0, ""),
    FOR(ORDERED, KEY_INSERT, 13, 14, ""),
    NOT_FOR("540202", "540201017400" "13", CS_FFI_NO_TABLES, 0),
    NOT_FOR("540202017400" "540201007400", "540201017400" "13", CS_FFI_NO_TABLES, 0),
    NOT_FOR("54010100", "540201017400" "13", CS_FFI_NO_TABLES, 0),
    NOT_FOR("540202017400" "540201027400", "540201017400" "13", CS_FFI_KEY_ORDER, 0),
    NOT_FOR(ORDERED, "540201017400" "13", CS_FFI_BAD_OPERATION, 6),
    NOT_FOR(ORDERED, INSERT, CS_FFI_UNKNOWN_TABLE, 0),
    NOT_FOR(ORDERED, "540201007400", CS_FFI_SHAPE, 0),
    NOT_FOR(ORDERED, U1 "120005", CS_FFI_NULL_KEY, 0),
    NOT_FOR(ORDERED, U1 "12000300" "09000300", CS_FFI_KEY_TWICE, 0),

    /* taken together: what SQLite's rules for a changegroup make of them, and none of no bytes */
    COMBINES(INSERT UPDATE, 22, 27, 0, 2, 23, 22, OTHER_INSERT),
    COMBINES(UPDATE OTHER_DELETE, 27, 22, 0, 2, 23, 22, H1 "0900" K1 V1),
    COMBINES(INSERT, 0, 22, 0, 3, 23, 22, INSERT),
    COMBINES("", 0, 0, 0, 0, 23, 0, ""),
    COMBINES("", 0, 0, 0, 1, 23, 0, ""),
    COMBINES_NOT(INSERT, 0, 0, 0, 0, CS_FFI_LENGTHS, 0),
    COMBINES_NOT("", SIZE_MAX, 1, 0, 2, CS_FFI_LENGTHS, 0),
    COMBINES_NOT(T1 U1 "13", 5, 6, 0, 2, CS_FFI_BAD_OPERATION, 10),
    COMBINES_NOT(T1 U1 "13", 3, 8, 0, 2, CS_FFI_TRUNCATED, 3),
    COMBINES_NOT(T1 U1 "13", 5, 5, 1, 3, CS_FFI_BAD_MARK, 10),
    COMBINES_NOT(T1 "1200030161" "1200030161", 15, 0, 0, 1, CS_FFI_KEY_TWICE, 0),
    COMBINES_NOT(T1 "120005", 8, 0, 0, 1, CS_FFI_NULL_KEY, 0),
    COMBINES_NOT(TWO_SHAPES, 5, 6, 0, 2, CS_FFI_SHAPE, 0),
    COMBINES_NOT(TWO_SHAPES, 11, 0, 0, 1, CS_FFI_SHAPE, 0),

    /* taken back */
    WRITES(INVERT, INSERT, 28, 22, H1 "0900" K1 V1),
    WRITES(INVERT, UPDATE, 28, 27, H1 "1700" K1 V2 "00" V1),
    WRITES(INVERT, OTHER_DELETE, 28, 22, OTHER_INSERT),
    WRITES(INVERT, "", 28, 0, ""),
    {.function = INVERT, .input = T1 "13", .room = 21, .fault = CS_FFI_BAD_OPERATION, .offset = 5, .output = ""},
    {.function = INVERT, .input = T1 "120005", .room = 21, .fault = CS_FFI_NULL_KEY, .output = ""},

    /* rebased: over a row of another text an UPDATE is left, over one of the same text nothing, and where there is no entry the
     * INSERT; the local changeset is judged before the blob */
    REBASES(INSERT, OTHER_INSERT, 28, 27, H1 "1700" K1 V2 "00" V1),
    REBASES(INSERT, INSERT, 28, 0, ""),
    REBASES(INSERT, "", 28, 22, INSERT),
    REBASES("", INSERT, 28, 0, ""),
    REBASES_NOT(T1 "13", H1 "13", CS_FFI_BAD_OPERATION, 5),
    REBASES_NOT(TWO_SHAPES, H1 "13", CS_FFI_SHAPE, 0),
    REBASES_NOT("54010100", H1 "13", CS_FFI_NO_TABLES, 0),
    REBASES_NOT(T1 "120005", H1 "13", CS_FFI_NULL_KEY, 0),
    REBASES_NOT(INSERT, H1 "13", CS_FFI_BAD_OPERATION, 29),
    REBASES_NOT("", H1 "13", CS_FFI_BAD_OPERATION, 7),
};

/* ---- calls */

/* Bytes of which there are some in an array, since no pointer may be null. */
struct bytes {
    uint8_t all[ROOM];
    size_t length;
};

static struct bytes of_hex(const char *hex) {
    struct bytes bytes = {.length = 0};
    unsigned byte;
    for (; hex && sscanf(hex, "%2x", &byte) == 1; hex += 2) bytes.all[bytes.length++] = (uint8_t)byte;
    return bytes;
}

static struct cs_ffi_answer call(const struct row *row, uint8_t *output) {
    struct bytes declared = of_hex(row->declared);
    struct bytes input = of_hex(row->input);
    struct bytes blob = of_hex(row->blob);
    switch (row->function) {
    case DECODE: return cs_ffi_decode(input.all, input.length);
    case REENCODE: return cs_ffi_reencode(input.all, input.length, output, row->room);
    case NORMALISE:
        return cs_ffi_normalise(declared.all, declared.length, input.all, input.length, output, row->room);
    case FOR_SQLITE:
        return cs_ffi_for_sqlite(declared.all, declared.length, input.all, input.length, output, row->room);
    case COMBINE: return cs_ffi_combine(input.all, input.length, row->lengths, row->parts, output, row->room);
    case INVERT: return cs_ffi_invert(input.all, input.length, output, row->room);
    default: return cs_ffi_rebase(input.all, input.length, blob.all, blob.length, output, row->room);
    }
}

/* Makes the call of a row, one of its allocations refused, and says what is wrong with what it did; NULL where nothing
 * is. `wanting` says whether it told want of memory. */
static const char *run(const struct row *row, size_t number, int *wanting) {
    uint8_t output[ROOM + 1], owed[ROOM + 1];
    struct bytes written = of_hex(row->output);
    memset(output, 0xee, sizeof output);
    memset(owed, 0xee, sizeof owed);
    held = asked = 0;
    refused = number;
    struct cs_ffi_answer answer = call(row, output);
    refused = 0;

    if (held != 0) return "memory isn't given back";
    *wanting = number > 0 && answer.fault == CS_FFI_MEMORY;
    if (*wanting) {
        if (answer.offset != 0 || answer.count != 0) return "want of memory comes with an offset or a count";
    } else {
        if (answer.fault != row->fault) return "another fault";
        if (answer.offset != row->offset) return "another offset";
        if (answer.count != row->count) return "another count";
        memcpy(owed, written.all, written.length);
    }
    return memcmp(output, owed, sizeof output) == 0 ? NULL : "other bytes are written";
}

int main(void) {
    size_t count = sizeof rows / sizeof rows[0], refusals = 0, told = 0;
    for (size_t at = 0; at < count; at++) {
        const struct row *row = &rows[at];
        size_t allocations = 0;
        for (size_t number = 0; number <= allocations; number++) {
            int wanting = 0;
            const char *wrong = run(row, number, &wanting);
            if (wrong) {
                fprintf(stderr, "row %zu, %s of %s, allocation %zu refused: %s\n", at + 1, names[row->function],
                        row->input, number, wrong);
                return 1;
            }
            if (number == 0) allocations = asked;
            told += (size_t)wanting;
        }
        refusals += allocations;
    }
    if (told == 0) {
        fprintf(stderr, "no call told want of memory: the library doesn't take its memory from malloc\n");
        return 1;
    }
    printf("the C functions: %zu calls answered as owed; %zu allocations refused in turn, want of memory told at %zu; "
           "all memory given back\n", count, refusals, told);
    return 0;
}
