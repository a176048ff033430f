/* Prints which test binaries of the workspace of a record can matter for a filter: binaries RECORD FILTER */
#include "test_select.h"

#include <stdio.h>
#include <stdlib.h>
#include <string.h>

static const char NAME[] = "record.json";

int main(int count, char **words_given) {
    static uint8_t out[1 << 20], err[1 << 16];
    FILE *file = count == 3 ? fopen(words_given[1], "rb") : NULL;
    if (file == NULL || fseek(file, 0, SEEK_END) != 0) return 2;
    uint64_t length = (uint64_t)ftell(file);
    rewind(file);
    size_t head = sizeof NAME + 8, all = head + length;
    uint8_t *files = malloc(all);
    if (files == NULL) return 1;
    memcpy(files, NAME, sizeof NAME);
    for (int i = 0; i < 8; i++) files[sizeof NAME + i] = (uint8_t)(length >> 8 * i);
    if (fread(files + head, 1, length, file) != length) return 1;

    static char words[1 << 12];
    int used = snprintf(words, sizeof words, "test_select%cbinaries%c--record%c%s%c--%c%s", 0, 0, 0, NAME, 0, 0, words_given[2]);
    if (used < 0 || (size_t)used + 1 > sizeof words) return 2;
    struct test_select_outcome ended = test_select_run((uint8_t *)words, (size_t)used + 1, files, all, out, sizeof out, err, sizeof err);
    if (ended.status > 2) return 1;
    fwrite(out, 1, ended.out_length, stdout);
    fwrite(err, 1, ended.err_length, stderr);
    free(files);
    return (int)ended.status;
}
