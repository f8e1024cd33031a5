/* Checks the library against changesets that SQLite captured.
 *
 * check FILE..   the library counts the changes that SQLite's iterator counts and writes the same bytes again; a front
 *                of the bytes comes back too, or is Truncated at its end; without room nothing is written; the normal
 *                form, by the tables of the file itself, has as many changes, and is its own normal form */
#include "common.h"

/* Cut anywhere, the bytes are refused or are a shorter changeset that comes back; no room, and nothing is written. */
static void check_cut(const char *path, struct file *file) {
    size_t stride = file->length / 200 + 1;
    for (size_t length = 0; length < file->length; length += stride) {
        uint8_t *cut = malloc(length + 1);
        if (!cut) fail(path, "no memory");
        memcpy(cut, file->bytes, length);
        memset(file->output, 0xee, file->length);
        struct cs_ffi_answer answer = cs_ffi_reencode(cut, length, file->output, file->length);
        int same = answer.count == length && memcmp(cut, file->output, length) == 0;
        int truncated = answer.fault == CS_FFI_TRUNCATED && answer.offset == length;
        if (answer.fault == 0 ? !same : !truncated) fail(path, "a front gives other bytes or another fault");
        free(cut);
    }
    if (file->length == 0) return;
    memset(file->output, 0xee, file->length);
    struct cs_ffi_answer answer = cs_ffi_reencode(file->bytes, file->length, file->output, file->length - 1);
    int told = answer.fault == 0 && answer.count == file->length;
    if (!told || file->output[0] != 0xee) fail(path, "written without room");
}

static void check_normal(const char *path, struct file *file) {
    size_t length = ours_normalise(file, file->length);
    if (length > file->length) fail(path, "no normal form");
    struct file normal = copy_file(file->output, length);
    if (sqlite_decode(&normal) != sqlite_decode(file)) fail(path, "the normal form has other changes");
    if (ours_normalise(&normal, normal.length) != normal.length) fail(path, "the normal form has another");
    if (memcmp(normal.bytes, normal.output, normal.length) != 0) fail(path, "the normal form has another");
    free_file(&normal);
}

static void check_file(const char *path) {
    struct file file = read_file(path);
    check_bytes(path, &file, "the library writes other bytes", ours_reencode);
    if (ours_decode(&file) != sqlite_decode(&file)) fail(path, "the library counts other changes than SQLite");
    check_cut(path, &file);
    check_normal(path, &file);
    free_file(&file);
}

int main(int count, char **words) {
    for (int word = 1; word < count; word++) check_file(words[word]);
    printf("%d changesets of SQLite's: the same counts, the same bytes again, and a normal form\n", count - 1);
    return count > 1 ? 0 : 2;
}
