/* A replica and a hub in a program of yours, without a process and without a file of the library's own. The bytes of a file go in and
 * come out. They are a database of SQLite, the file of `sync node FILE` and of `sync hub --file FILE` (docs/FORMATS.md, 12). Where
 * they are kept is up to the caller.
 *
 * A call either does all that its lines ask, and hands over what they came to and the new bytes of the file. Or it hands over nothing and
 * tells why. It is a function of what it is handed, so it may be made again, for instance with more room. What counts is
 * the file that the caller keeps. Put the new bytes in the old ones' place whole (write another file, sync it, rename it) before
 * anybody is sent a request that the call told. One call at a time may work on a file: the caller sees to that.
 * Each call checks and copies the whole file, so it takes as long as that is large.
 *
 * A file that the program `sync` left is handed in once no FILE-wal with bytes in it lies beside it: its last commits may stand there alone.
 *
 * Link out/libcs_embed.a, and behind it the toolchain's c/libos_c.a and c/liblibc_c.a, which gives it memory by malloc, realloc and free.
 * The functions give back all memory before they return. They may be called from several threads, each on bytes of its own;
 * not from a signal handler.
 *
 * A pointer must not be null, also where its length is 0. What is read and what is written must not overlap, and no more may `told`
 * and `left`. */
#ifndef CS_EMBED_H
#define CS_EMBED_H

#include <stddef.h>
#include <stdint.h>

#ifdef __cplusplus
extern "C" {
#endif

/* Why nothing was done. They are judged in this order: the id, the tables, the lines of a replica, the file. */
enum cs_embed_fault {
    CS_EMBED_DONE = 0,       /* all was done */
    CS_EMBED_MEMORY = 1,     /* memory is wanting; it says nothing of what was handed in */
    CS_EMBED_NO_TABLES = 50, /* the declaring bytes are no changeset, or headers are no catalog's */
    CS_EMBED_LINE = 60,      /* a line can't be read, and its number is told */
    CS_EMBED_DAMAGED = 61,   /* the file is a store's, and holds what can't have been written to it */
    CS_EMBED_DEVICE = 62,    /* the file is no store's, or no database at all */
    CS_EMBED_MISMATCH = 63,  /* the file is another's: of another id, of other tables, a hub's in place of a replica's */
    CS_EMBED_BAD_ID = 64     /* no replica has the id 4294967295 */
};

/* `line` is the line's number, from 1 on, beside CS_EMBED_LINE, and else 0. `told` is how many bytes the texts take, and `file`
 * how many the file has now, both 0 beside a fault. Each of the two is written to the front of its room if it fits there, and else
 * nothing of it is: the call may then be made again, with the room that is told. */
struct cs_embed_answer {
    uint32_t fault;
    uint64_t line;
    size_t told;
    size_t file;
};

/* Does what lines ask of the replica with this id, one behind another, and tells the text of each. Lines and texts are those of `sync node`
 * (docs/FORMATS.md, 14). A line may be refused by its text: the others are done. The tables are declared by the headers of a
 * changeset, one behind another: 'T', the number of columns, a byte for each of them (1 in the key, else 0), the name, and 0. A file
 * of no bytes is a new one. */
struct cs_embed_answer cs_embed_node(const uint8_t *tables, size_t tables_length, uint32_t id, const uint8_t *file, size_t file_length,
                                     const uint8_t *lines, size_t lines_length, uint8_t *told, size_t told_room, uint8_t *left,
                                     size_t left_room);

/* Answers requests of replicas by the hub of these tables, one a line in hex, each by a line, as `sync hub` does (docs/FORMATS.md, 7 and 8). */
struct cs_embed_answer cs_embed_hub(const uint8_t *tables, size_t tables_length, const uint8_t *file, size_t file_length,
                                    const uint8_t *lines, size_t lines_length, uint8_t *told, size_t told_room, uint8_t *left,
                                    size_t left_room);

#ifdef __cplusplus
}
#endif

#endif
