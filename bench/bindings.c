/* bindings KIND FILE COUNT: checks each record of a file COUNT times, from memory, by the etcs_check that it is linked with,
 * and writes a line for each: how many bytes the item has that the record begins with, or 0 if there is none. A record
 * is its number of bytes, in two bytes, and then these bytes. After the last there is room, since a walker reads past it. */
#include "etcs.h"
#include <stdio.h>
#include <stdlib.h>
#include <string.h>

enum { AFTER = 64 };

int main(int argc, char **argv) {
    FILE *file = argc == 4 ? fopen(argv[2], "rb") : NULL;
    if (!file) return 2;
    etcs_kind kind = !strcmp(argv[1], "long") ? ETCS_LONG : !strcmp(argv[1], "short") ? ETCS_SHORT
        : !strcmp(argv[1], "train") ? ETCS_TRAIN : ETCS_RADIO;
    fseek(file, 0, SEEK_END);
    size_t len = (size_t)ftell(file), items = 0;
    rewind(file);
    uint8_t *bytes = calloc(len + AFTER, 1);
    size_t *taken = calloc(len / 2 + 1, sizeof *taken);
    if (!bytes || !taken || fread(bytes, 1, len, file) != len) return 2;
    for (int count = atoi(argv[3]); count > 0; count--) {
        items = 0;
        for (size_t at = 0, size; at < len; at += 2 + size, items++) {
            etcs_answer answer = {0};
            size = (size_t)bytes[at] << 8 | bytes[at + 1];
            etcs_status status = etcs_check(kind, bytes + at + 2, size, &answer);
            taken[items] = status == ETCS_OK ? answer.taken : 0;
        }
    }
    for (size_t item = 0; item < items; item++) printf("%zu\n", taken[item]);
    return 0;
}
