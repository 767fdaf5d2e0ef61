// check FILE [COLUMN | walk]: checks the file once, and reads the column whole where one is named, or walks over all cells, for a tool that counts the instructions
// of a call; prints number, line and column of the last call's answer, and how many cells were walked over.
#include <stdio.h>
#include <stdlib.h>
#include <string.h>

#include "../../bindings/c/pochahuic.h"

// Memory for so many things; at least one, so that the pointer is no null pointer.
static void *room(size_t count, size_t size)
{
    void *room = calloc(count > 0 ? count : 1, size);
    if (room == NULL) {
        fprintf(stderr, "check: no memory\n");
        exit(2);
    }
    return room;
}

int main(int count, char **words)
{
    FILE *input = count == 2 || count == 3 ? fopen(words[1], "rb") : NULL;
    if (input == NULL || fseek(input, 0, SEEK_END) != 0) {
        fprintf(stderr, "usage: check FILE [COLUMN | walk]\n");
        return 2;
    }
    size_t size = (size_t)ftell(input);
    rewind(input);
    unsigned char *file = room(size, 1);
    if (fread(file, 1, size, input) != size) {
        fprintf(stderr, "check: the file can't be read\n");
        return 2;
    }
    uint64_t out[10], cells = 0;
    pochahuic_check(file, size, out);
    if (count == 3 && strcmp(words[2], "walk") == 0) {
        for (pochahuic_walk_open(file, size, out); out[5] != 0; pochahuic_walk_next(file, size, out))
            cells++;
    } else if (count == 3) {
        size_t rows = out[5];
        pochahuic_column_values(file, size, strtoull(words[2], NULL, 10), room(rows, 1), rows, room(rows, sizeof(int64_t)), rows, room(rows, sizeof(double)),
                                rows, out);
    }
    printf("%llu %llu %llu %llu\n", (unsigned long long)out[0], (unsigned long long)out[1], (unsigned long long)out[2], (unsigned long long)cells);
    return 0;
}
