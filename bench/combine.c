/* Takes changesets together, or one back, by the proved library or by SQLite's changegroup and invert, over the very same
 * bytes, for bench/combine.sh.
 *
 * combine check WORK FILE               fails unless what SQLite makes of FILE, brought into normal form, is what the library
 *                                       makes of it; prints how many changes FILE has
 * combine time WHO WORK ROUNDS FILE     prints the nanoseconds of the first call, and of a call in the fastest round
 *
 * WORK is `together` or `back`, WHO `ours` or `sqlite`. For `together` FILE holds changesets one after another, and
 * FILE.lengths how long each is, one a line; for `back` it is one changeset. */
#include "combining.h"

static size_t sqlite_combine(struct file *file) {
    struct bytes bytes = sqlite_combined(file);
    sqlite3_free(bytes.start);
    return (size_t)bytes.length;
}

static size_t sqlite_invert(struct file *file) {
    struct bytes bytes = sqlite_inverted(file);
    sqlite3_free(bytes.start);
    return (size_t)bytes.length;
}

static const struct work {
    const char *name;
    size_t (*ours)(struct file *);
    size_t (*sqlite)(struct file *);
    struct bytes (*sqlite_bytes)(const struct file *);
} works[] = {{"together", ours_combine, sqlite_combine, sqlite_combined}, {"back", ours_invert, sqlite_invert, sqlite_inverted}};

static const struct work *work_of(const char *name) {
    for (size_t at = 0; at < sizeof works / sizeof *works; at++)
        if (strcmp(works[at].name, name) == 0) return &works[at];
    fail(name, "is no work");
}

/* The changesets of a file, with their lengths where these stand beside it. */
static struct file read_changesets(const char *path) {
    struct file file = read_file(path);
    char lengths_path[4096];
    snprintf(lengths_path, sizeof lengths_path, "%s.lengths", path);
    FILE *stream = fopen(lengths_path, "r");
    if (!stream) return file;
    size_t length, sum = 0;
    while (fscanf(stream, "%zu", &length) == 1) {
        add_length(&file, length);
        sum += length;
    }
    fclose(stream);
    if (sum != file.length) fail(lengths_path, "not the lengths of what is in the file");
    return file;
}

static void check(const struct work *work, const char *path) {
    struct file file = read_changesets(path);
    struct file theirs = file_of(work->sqlite_bytes(&file));
    check_agrees(path, file.output, work->ours(&file), &theirs);
    printf("%zu\n", sqlite_decode(&file));
    free_file(&theirs);
    free_file(&file);
}

/* Nothing but the calls that are timed takes or gives back memory here, and the bytes that they read and write. */
static void time_calls(size_t (*call)(struct file *), int rounds, const char *path) {
    struct file file = read_changesets(path);
    double start = now();
    call(&file);
    double first = now() - start, best = first;
    int calls = (int)(16000000 / file.length) + 1;
    for (int round = 0; round < rounds; round++) {
        start = now();
        for (int count = 0; count < calls; count++) call(&file);
        double spent = (now() - start) / calls;
        if (spent < best) best = spent;
    }
    printf("%.0f %.0f\n", first, best);
    free_file(&file);
}

int main(int count, char **words) {
    if (count == 4 && strcmp(words[1], "check") == 0) {
        check(work_of(words[2]), words[3]);
    } else if (count == 6 && strcmp(words[1], "time") == 0) {
        const struct work *work = work_of(words[3]);
        time_calls(strcmp(words[2], "ours") == 0 ? work->ours : work->sqlite, atoi(words[4]), words[5]);
    } else {
        fail("combine", "check WORK FILE, or time WHO WORK ROUNDS FILE");
    }
    return 0;
}
