/* Calls test_select_run as a hostile caller would: hostile RECORD LISTINGS TURNS
 *
 * Rooms of each length up to what is needed, words and files cut at each byte, and TURNS calls with bytes of both changed at
 * random. Each room is a block of its own length between two guards, so that a sanitizer sees a byte beyond, and so does this
 * program. Prints how many calls were made; the status is 1 at the first wrong one. */
#include "test_select.h"

#include <stdio.h>
#include <stdlib.h>
#include <string.h>

enum { MOST = 1 << 16, GUARD = 16 };

struct bytes {
    uint8_t at[MOST];
    size_t length;
};

static size_t calls;

static void wrong(const char *what) {
    printf("call %zu: %s\n", calls, what);
    exit(1);
}

static void add(struct bytes *to, const void *from, size_t length) {
    if (length > MOST - to->length) wrong("the files are too large for this program");
    memcpy(to->at + to->length, from, length);
    to->length += length;
}

static void add_file(struct bytes *files, const char *name, const char *path) {
    static uint8_t content[MOST];
    FILE *file = fopen(path, "rb");
    if (file == NULL) wrong("a file cannot be read");
    uint64_t length = fread(content, 1, MOST, file);
    fclose(file);
    uint8_t size[8];
    for (int i = 0; i < 8; i++) size[i] = (uint8_t)(length >> 8 * i);
    add(files, name, strlen(name) + 1);
    add(files, size, 8);
    add(files, content, length);
}

/* A room of this length between two guards. */
static uint8_t *room(size_t length) {
    uint8_t *block = malloc(length + 2 * GUARD);
    if (block == NULL) wrong("no memory for a room");
    memset(block, 0xA5, length + 2 * GUARD);
    return block + GUARD;
}

static void give_back(uint8_t *at, size_t length) {
    for (size_t i = 0; i < GUARD; i++)
        if (at[-1 - (ptrdiff_t)i] != 0xA5 || at[length + i] != 0xA5) wrong("a byte beyond a room was written");
    free(at - GUARD);
}

static size_t least(size_t one, size_t other) { return one < other ? one : other; }

/* Calls with exact copies of the words and files, compares the start of what is printed with `full`, and gives the outcome. */
static struct test_select_outcome call(const struct bytes *words, const struct bytes *files, size_t out_room, size_t err_room, struct bytes *full) {
    uint8_t *w = malloc(words->length + 1), *f = malloc(files->length + 1), *out = room(out_room), *err = room(err_room);
    memcpy(w, words->at, words->length);
    memcpy(f, files->at, files->length);
    struct test_select_outcome ended = test_select_run(w, words->length, f, files->length, out, out_room, err, err_room);
    calls++;
    if (ended.status > TEST_SELECT_MALFORMED) wrong("no such status");
    int is_small = ended.out_length > out_room || ended.err_length > err_room;
    if (is_small != (ended.status == TEST_SELECT_TOO_SMALL)) wrong("too small is told where it is not, or not where it is");
    for (size_t i = ended.out_length; i < out_room; i++)
        if (out[i] != 0xA5) wrong("a byte behind what was printed was written");
    if (full != NULL && full->length == MOST) {
        full->length = 0;
        add(full, out, ended.out_length);
    } else if (full != NULL && memcmp(full->at, out, least(out_room, full->length)) != 0) {
        wrong("a room holds another text");
    }
    free(w);
    free(f);
    give_back(out, out_room);
    give_back(err, err_room);
    return ended;
}

int main(int count, char **given) {
    static const char WORDS[] = "test_select\0tests\0--record\0r\0--listings\0l\0--\0rdeps(util)";
    static struct bytes words, files, full, changed, others;
    if (count != 4) return 2;
    add(&words, WORDS, sizeof WORDS);
    add_file(&files, "r", given[1]);
    add_file(&files, "l", given[2]);
    full.length = MOST;
    struct test_select_outcome ended = call(&words, &files, MOST / 2, MOST / 2, &full);
    if (ended.status != 0 || ended.out_length == 0) wrong("the call itself is refused");

    for (size_t length = 0; length <= ended.out_length; length++) call(&words, &files, length, length / 2, &full);
    for (changed = words; changed.length-- > 0;) {
        unsigned status = call(&changed, &files, 64, 64, NULL).status;
        if (changed.length > 0 && changed.at[changed.length - 1] != 0 && status != TEST_SELECT_MALFORMED) wrong("a word without an end is taken");
    }
    for (others = files; others.length-- > 0;)
        if (call(&words, &others, 64, 64, NULL).status == 0) wrong("files that are cut off are taken");

    srand(20);
    for (long turn = atol(given[3]); turn > 0; turn--) {
        changed = words;
        others = files;
        for (int times = rand() % 4; times >= 0; times--) {
            changed.at[(size_t)rand() % changed.length] = (uint8_t)rand();
            others.at[(size_t)rand() % others.length] = (uint8_t)rand();
        }
        if (rand() % 3 == 0) changed = words;
        if (rand() % 3 == 0) others = files;
        call(&changed, &others, (size_t)rand() % 65, (size_t)rand() % 257, NULL);
    }
    printf("%zu calls\n", calls);
    return 0;
}
