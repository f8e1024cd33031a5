/* Times the reading and writing of changesets: the proved library, SQLite's own iterator and a plain Rust decoder, in
 * one run over the very same bytes.
 *
 * decode ROUNDS FILE..   times each file (best of ROUNDS) and prints the ratios; fails where bytes or counts differ */
#include "common.h"

/* The plain baseline (decode_plain.rs): the count of changes or of bytes, or -1. */
ptrdiff_t plain_decode(const uint8_t *input, size_t length);
ptrdiff_t plain_reencode(const uint8_t *input, size_t length, uint8_t *output, size_t room);

/* The normal form by the header of the file's one table, which has less than 128 columns. */
static size_t normalise(struct file *file) {
    size_t name = 2 + (size_t)file->bytes[1];
    return ours_normalise(file, name + strlen((const char *)file->bytes + name) + 1);
}

static size_t rust_decode(struct file *file) { return (size_t)plain_decode(file->bytes, file->length); }

static size_t rust_reencode(struct file *file) {
    return (size_t)plain_reencode(file->bytes, file->length, file->output, file->length);
}

static void check_file(const char *path, struct file *file) {
    check_bytes(path, file, "the library writes other bytes", ours_reencode);
    check_bytes(path, file, "the plain baseline writes other bytes", rust_reencode);
    size_t count = sqlite_decode(file);
    if (ours_decode(file) != count) fail(path, "the library counts other changes than SQLite");
    if (rust_decode(file) != count) fail(path, "the plain baseline counts other changes than SQLite");
    if (normalise(file) > file->length) fail(path, "no normal form");
}

/* The changeset's normal form brought into normal form again, beside reading it. */
static void time_again(struct file *file, size_t changes, int rounds, int repeats) {
    struct file normal = copy_file(file->output, normalise(file));
    struct contender contenders[] = {
        {"normal form of a normal form", normalise, 1e18},
        {"decode, of that", ours_decode, 1e18},
    };
    check_bytes("the normal form", &normal, "it isn't its own normal form", normalise);
    time_contenders(contenders, 2, &normal, rounds, repeats);
    print_contenders(contenders, 2, &normal, changes);
    printf("  ratio of that normal form to decode %.2f\n", contenders[0].best / contenders[1].best);
    free_file(&normal);
}

static void time_file(const char *path, int rounds) {
    struct file file = read_file(path);
    check_file(path, &file);
    struct contender contenders[] = {
        {"decode, this library", ours_decode, 1e18},       {"decode, SQLite's iterator", sqlite_decode, 1e18},
        {"decode, plain Rust", rust_decode, 1e18},         {"decode and encode, this library", ours_reencode, 1e18},
        {"decode and encode, plain Rust", rust_reencode, 1e18},
        {"normal form, this library", normalise, 1e18},
    };
    size_t kinds = sizeof contenders / sizeof contenders[0];
    size_t changes = sqlite_decode(&file);
    int repeats = (int)(200000 / (changes + 1)) + 1;
    time_contenders(contenders, kinds, &file, rounds, repeats);
    printf("%zu changes, %zu bytes\n", changes, file.length);
    print_contenders(contenders, kinds, &file, changes);
    printf("  ratio of decode to SQLite %.2f, to plain Rust %.2f; of decode and encode to plain Rust %.2f\n",
           contenders[0].best / contenders[1].best, contenders[0].best / contenders[2].best,
           contenders[3].best / contenders[4].best);
    time_again(&file, changes, rounds, repeats);
    free_file(&file);
}

int main(int count, char **words) {
    if (count < 3) {
        fprintf(stderr, "usage: decode ROUNDS FILE..\n");
        return 2;
    }
    for (int word = 2; word < count; word++) time_file(words[word], atoi(words[1]));
    return 0;
}
