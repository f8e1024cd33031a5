/* Checks the library cs_embed as a C program meets it, through cs_embed.h: two tills and a hub in one process, of which one conflict is answered by
 * keeping the own row and one by taking the other's; files and lines that are refused; a wider table; too little room. What is owed was
 * written by hand. Nothing may be written beyond what is owed, and all memory has to be given back, also where allocations are
 * refused, whether all of them in turn or some drawn from all.
 *
 * To be linked with -Wl,--wrap=malloc,--wrap=realloc,--wrap=free, so that the library's calls of these come here.
 *
 * Usage: check_embed FOLDER. It leaves the files north.db, south.db and hub.db there. */
#include "../crates/cs_embed/cs_embed.h"
#include <stdio.h>
#include <stdlib.h>
#include <string.h>

/* ---- memory */

static size_t held;    /* how many pieces of memory the library has and hasn't given back */
static size_t asked;   /* how many it has asked for in this call */
static size_t refused; /* which of these is refused, from 1; 0 for none */
static int watched;    /* whether the library is being called */

void *__real_malloc(size_t size);
void *__real_realloc(void *memory, size_t size);
void __real_free(void *memory);

void *__wrap_malloc(size_t size) {
    if (!watched) return __real_malloc(size);
    void *memory = ++asked == refused ? NULL : __real_malloc(size);
    if (memory) held++;
    return memory;
}

void *__wrap_realloc(void *memory, size_t size) {
    if (!memory) return __wrap_malloc(size);
    if (!watched) return __real_realloc(memory, size);
    return ++asked == refused ? NULL : __real_realloc(memory, size);
}

void __wrap_free(void *memory) {
    if (watched && memory) held--;
    __real_free(memory);
}

/* ---- calls */

/* The table `stock` of three columns, of which the first is the key, and others. */
#define STOCK "T\3\1\0\0stock"
#define WIDE "T\4\1\0\0\0stock"

struct bytes {
    uint8_t *all;
    size_t length;
};

/* What one call is handed. The id is 0 for a hub. */
struct call {
    const char *tables; /* one header, and the 0 behind it */
    size_t headers;     /* the bytes of it that are handed in */
    uint32_t id;
    struct bytes file;
    const char *lines;
};

static size_t calls;

/* Ends it all where something isn't as it is owed. */
static void owe(int is_so, const char *what, const char *of) {
    if (is_so) return;
    fprintf(stderr, "cs_embed: %s: %s\n", of, what);
    exit(1);
}

static struct cs_embed_answer make(const struct call *call, uint8_t *told, size_t told_room, uint8_t *left, size_t left_room) {
    static const uint8_t none[1];
    const uint8_t *file = call->file.all ? call->file.all : none;
    const uint8_t *tables = (const uint8_t *)call->tables, *lines = (const uint8_t *)call->lines;
    size_t length = strlen(call->lines);
    held = asked = 0;
    watched = 1;
    struct cs_embed_answer answer = call->id
        ? cs_embed_node(tables, call->headers, call->id, file, call->file.length, lines, length, told, told_room, left, left_room)
        : cs_embed_hub(tables, call->headers, file, call->file.length, lines, length, told, told_room, left, left_room);
    watched = 0;
    calls++;
    owe(held == 0, "memory isn't given back", call->lines);
    return answer;
}

#define MARK 0xee

static int is_marked(const uint8_t *bytes, size_t length) {
    for (size_t at = 0; at < length; at++)
        if (bytes[at] != MARK) return 0;
    return 1;
}

/* What a call that is done told and left, which the caller frees. It is made with no room first, with room for one of the two, and then with just the room that
 * was told: nothing is written where there is no room, nothing behind what is owed, and the answer is the same each time. */
static void work(const struct call *call, struct bytes *told, struct bytes *left) {
    uint8_t few[1] = {MARK};
    struct cs_embed_answer first = make(call, few, 0, few + 1, 0);
    owe(first.fault == CS_EMBED_DONE && first.line == 0, "it isn't done", call->lines);
    owe(few[0] == MARK, "something is written where there is no room", call->lines);

    told->length = first.told;
    left->length = first.file;
    told->all = malloc(told->length + 8);
    left->all = malloc(left->length + 8);
    memset(told->all, MARK, told->length + 8);
    memset(left->all, MARK, left->length + 8);
    struct cs_embed_answer second = make(call, told->all, told->length, left->all, left->length - 1);
    owe(second.fault == first.fault && second.told == first.told && second.file == first.file, "another answer", call->lines);
    owe(is_marked(left->all, left->length + 8), "a part of the file is written", call->lines);
    if (told->length) {
        memset(told->all, MARK, told->length + 8);
        second = make(call, told->all, told->length - 1, left->all, left->length);
        owe(second.fault == first.fault && second.told == first.told && second.file == first.file, "another answer", call->lines);
        owe(is_marked(told->all, told->length + 8), "a part of the texts is written", call->lines);
    }
    second = make(call, told->all, told->length, left->all, left->length);
    owe(second.fault == first.fault && second.told == first.told && second.file == first.file, "another answer", call->lines);
    owe(is_marked(told->all + told->length, 8), "something is written behind the texts", call->lines);
    owe(is_marked(left->all + left->length, 8), "something is written behind the file", call->lines);
    told->all[told->length] = 0;
}

/* A call that is refused: by this number, of this line, and with nothing written. */
static void refuse(const char *name, const struct call *call, uint32_t fault, uint64_t line) {
    enum { ROOM = 1 << 17 };
    static uint8_t told[ROOM], left[ROOM];
    memset(told, MARK, ROOM);
    memset(left, MARK, ROOM);
    struct cs_embed_answer answer = make(call, told, ROOM, left, ROOM);
    owe(answer.fault == fault, "another fault", name);
    owe(answer.line == line && answer.told == 0 && answer.file == 0, "something is told beside a fault", name);
    owe(is_marked(told, ROOM) && is_marked(left, ROOM), "something is written beside a fault", name);
}

/* The same call with allocations refused: each, or as many as this, spread over all. Each time all is done or want of memory is told. */
static size_t starve(const struct call *call, size_t most) {
    struct bytes told, left;
    work(call, &told, &left);
    size_t all = asked, step = all > most ? all / most : 1, wanting = 0;
    uint8_t *some = malloc(told.length + 1), *others = malloc(left.length + 1);
    for (size_t number = 1; number <= all; number += step) {
        memset(some, MARK, told.length + 1);
        memset(others, MARK, left.length + 1);
        refused = number;
        struct cs_embed_answer answer = make(call, some, told.length, others, left.length);
        refused = 0;
        if (answer.fault == CS_EMBED_MEMORY) {
            owe(answer.line == 0 && answer.told == 0 && answer.file == 0, "something is told beside want of memory", call->lines);
            owe(is_marked(some, told.length + 1) && is_marked(others, left.length + 1), "something is written beside want of memory", call->lines);
            wanting++;
            continue;
        }
        owe(answer.fault == CS_EMBED_DONE, "want of memory is told as something else", call->lines);
    }
    free(some), free(others), free(told.all), free(left.all);
    owe(wanting > 0, "no call told want of memory: the library doesn't take its memory from malloc", call->lines);
    return wanting;
}

/* ---- a story */

/* Works lines on a file, of which the new bytes take the old ones' place, and what they tell has to be this, or may be anything where none is given. */
static char *ask(struct bytes *file, uint32_t id, const char *lines, const char *owed) {
    struct call call = {STOCK, sizeof STOCK, id, *file, lines};
    struct bytes told;
    struct bytes left;
    work(&call, &told, &left);
    if (owed && strcmp((char *)told.all, owed)) {
        fprintf(stderr, "it told:\n%s", (char *)told.all);
        owe(0, "another text", lines);
    }
    free(file->all);
    *file = left;
    return (char *)told.all;
}

static void tell(struct bytes *file, uint32_t id, const char *lines, const char *owed) { free(ask(file, id, lines, owed)); }

/* Sends what a till asks for to the hub, and tells the till the answer with these wishes. */
static void talk(struct bytes *till, uint32_t id, struct bytes *hub, const char *what, const char *wishes, const char *owed) {
    static char line[1 << 12];
    char *request = ask(till, id, what, NULL);
    char *answer = ask(hub, 0, request, NULL);
    owe(strlen(answer) > 1 && strlen(answer) < sizeof line - 64, "no answer", what);
    answer[strcspn(answer, "\n")] = 0;
    snprintf(line, sizeof line, "answer %s %s\n", answer, wishes);
    tell(till, id, line, owed);
    free(request), free(answer);
}

static void keep(const char *folder, const char *name, struct bytes file) {
    char path[4096];
    snprintf(path, sizeof path, "%s/%s", folder, name);
    FILE *to = fopen(path, "wb");
    owe(to && fwrite(file.all, 1, file.length, to) == file.length && fclose(to) == 0, "it isn't written", path);
}

/* The hub's table is given a fourth column at version 3, and a replica takes that. */
#define WIDENS "04" "0000000000000001" "0000000000000003" "00000004" "00000005" "73746f636b\n"
#define TAKES "answer 14" "0000000000000003" "00000001" "01" "ffffffff" "0000000000000001" "00000009" "00000004" "73746f636b -\n"

/* The tills go on by the three columns that they began with, or by all four. The hub's are those that it began with. */
static size_t widen(struct bytes *north, struct bytes *south, struct bytes *hub, size_t most) {
    struct bytes told, left;
    tell(north, 1, "edit update stock t=glue 1 -\n", "ok\n");
    free(ask(south, 2, "edit insert stock t=saw 3 t=\npush\n", NULL));
    size_t wanting = starve(&(struct call){STOCK, sizeof STOCK, 0, *hub, WIDENS}, most);
    tell(hub, 0, WIDENS WIDENS, "11ffffffff" "0000000000000001" "0000000000000004\n" "11ffffffff" "0000000000000001" "0000000000000004\n");
    tell(hub, 0, "04" "0000000000000002" "0000000000000004" "00000004" "00000005" "73746f636b\n", "132e\n");
    talk(south, 2, hub, "resend\n", "-", "stale 4\n");
    wanting += starve(&(struct call){STOCK, sizeof STOCK, 2, *south, TAKES "dump\n"}, most);
    talk(south, 2, hub, "pull 10\n", "-", "taken 1 version 4\n");
    tell(south, 2, "dump\n", "replica 2 version 4 pending 1 flight 0\nrow stock t=saw 3 t= null\nrow stock t=glue 2 t= null\nrow stock t=nails 90 t= null\n");
    talk(south, 2, hub, "push\n", "-", "accepted 5\n");
    talk(north, 1, hub, "catch 10\n", "-", "taken 1 version 4\n");
    talk(north, 1, hub, "catch 10\n", "-", "taken 1 version 5\n");
    work(&(struct call){WIDE, sizeof WIDE, 1, *north, "edit insert stock t=oil 1 t=\nedit update stock t=glue - - 7\n"}, &told, &left);
    owe(!strcmp((char *)told.all, "refused Width\nok\n"), "another text", "four columns");
    free(told.all), free(left.all);
    tell(north, 1, "dump\n", "replica 1 version 5 pending 1 flight 0\nrow stock t=saw 3 t= null\nrow stock t=glue 1 t= null\nrow stock t=nails 90 t= null\n");
    refuse("a hub by its wider tables", &(struct call){WIDE, sizeof WIDE, 0, *hub, ""}, CS_EMBED_MISMATCH, 0);
    return wanting;
}

#define ROWS "row stock t=glue 2 t=\nrow stock t=nails 90 t=\n"

int main(int count, char **words) {
    struct bytes north = {0}, south = {0}, hub = {0}, none = {0};
    const char *folder = count > 1 ? words[1] : ".";

    tell(&north, 1, "edit insert stock t=nails 100 t=\nedit insert stock t=glue 4 t=\n", "ok\nok\n");
    tell(&north, 1, "edit insert stock t=nails 1 t=\nedit delete stock t=tape\n", "refused Exists\nrefused Missing\n");
    talk(&north, 1, &hub, "push\n", "-", "accepted 1\n");
    talk(&south, 2, &hub, "pull 10\n", "-", "taken 1 version 1\n");

    /* Both change both rows while apart; the north is first at the hub. */
    tell(&south, 2, "edit update stock t=nails 90 -\nedit update stock t=glue 3 -\n", "ok\nok\n");
    tell(&north, 1, "edit update stock t=nails 80 -\nedit update stock t=glue 2 -\n", "ok\nok\n");
    talk(&north, 1, &hub, "push\n", "-", "accepted 2\n");
    talk(&south, 2, &hub, "push\n", "-", "stale 2\n");

    /* Two clashes, in the order of the keys: the other's glue is taken, the own nails are kept. */
    talk(&south, 2, &hub, "pull 10\n", "tk", "taken 1 version 2\n");
    talk(&south, 2, &hub, "push\n", "-", "accepted 3\n");
    talk(&north, 1, &hub, "pull 10\n", "-", "taken 1 version 3\n");
    tell(&north, 1, "dump\n", "replica 1 version 3 pending 0 flight 0\n" ROWS);
    tell(&south, 2, "dump\n", "replica 2 version 3 pending 0 flight 0\n" ROWS);
    tell(&north, 1, "", "");
    tell(&hub, 0, "", "");
    keep(folder, "north.db", north);
    keep(folder, "south.db", south);
    keep(folder, "hub.db", hub);

    /* What is judged first: the id, the tables, the lines, the file. */
    struct bytes text = {(uint8_t *)"no database of anybody's, but a text of some bytes\n", 51};
    refuse("the last id", &(struct call){"", 1, UINT32_MAX, text, "unread\n"}, CS_EMBED_BAD_ID, 0);
    refuse("no tables", &(struct call){"", 1, 1, text, "unread\n"}, CS_EMBED_NO_TABLES, 0);
    refuse("no tables of a hub", &(struct call){"", 1, 0, text, "unread\n"}, CS_EMBED_NO_TABLES, 0);
    refuse("a table twice", &(struct call){"T\1\1a\0T\2\1\0a", 11, 1, text, "unread\n"}, CS_EMBED_NO_TABLES, 0);
    refuse("a front of a header", &(struct call){STOCK, sizeof STOCK - 1, 1, text, "dump\n"}, CS_EMBED_NO_TABLES, 0);
    refuse("a line", &(struct call){STOCK, sizeof STOCK, 1, text, "dump\ndumps\ndump\n"}, CS_EMBED_LINE, 2);
    refuse("the last line", &(struct call){STOCK, sizeof STOCK, 1, none, "dump\nedit stock"}, CS_EMBED_LINE, 2);
    refuse("a text", &(struct call){STOCK, sizeof STOCK, 1, text, "dump\n"}, CS_EMBED_DEVICE, 0);
    refuse("a text as a hub", &(struct call){STOCK, sizeof STOCK, 0, text, ""}, CS_EMBED_DEVICE, 0);
    struct bytes front = {north.all, north.length - 1};
    refuse("a front of a file", &(struct call){STOCK, sizeof STOCK, 1, front, "dump\n"}, CS_EMBED_DEVICE, 0);
    refuse("another id", &(struct call){STOCK, sizeof STOCK, 2, north, "dump\n"}, CS_EMBED_MISMATCH, 0);
    refuse("other tables", &(struct call){WIDE, sizeof WIDE, 1, north, "dump\n"}, CS_EMBED_MISMATCH, 0);
    refuse("other tables of a hub", &(struct call){WIDE, sizeof WIDE, 0, hub, ""}, CS_EMBED_MISMATCH, 0);
    refuse("a hub's file", &(struct call){STOCK, sizeof STOCK, 1, hub, "dump\n"}, CS_EMBED_MISMATCH, 0);
    refuse("a replica's file", &(struct call){STOCK, sizeof STOCK, 0, north, ""}, CS_EMBED_MISMATCH, 0);

    /* What was refused left the files as they were. */
    tell(&north, 1, "dump\n", "replica 1 version 3 pending 0 flight 0\n" ROWS);

    size_t most = count > 2 ? (size_t)atoi(words[2]) : 100, wanting = 0;
    wanting += starve(&(struct call){STOCK, sizeof STOCK, 3, none, "edit insert stock t=tape 1 null\npush\n"}, most);
    wanting += starve(&(struct call){STOCK, sizeof STOCK, 1, north, "edit delete stock t=glue\npush\nresend\ndump\n"}, most);
    wanting += starve(&(struct call){STOCK, sizeof STOCK, 0, hub, ""}, most);
    wanting += widen(&north, &south, &hub, most);
    free(north.all), free(south.all), free(hub.all);
    printf("cs_embed from C: %zu calls, %zu with want of memory\n", calls, wanting);
    return 0;
}
