// against FILE..: times the check of two libraries on each file, turn by turn in one run, and prints the shortest processor time of each and their ratio.
#include <stdio.h>
#include <stdlib.h>
#include <time.h>

#include "../../bindings/c/pochahuic.h"

#define ROUNDS 101

// The other library's check, under another name.
uint64_t other_check(const uint8_t *file, size_t length, uint64_t out[8]);

typedef uint64_t check(const uint8_t *file, size_t length, uint64_t out[8]);

static double milliseconds_of(check *check, const unsigned char *file, size_t size, uint64_t out[8])
{
    struct timespec began, ended;
    clock_gettime(CLOCK_PROCESS_CPUTIME_ID, &began);
    check(file, size, out);
    clock_gettime(CLOCK_PROCESS_CPUTIME_ID, &ended);
    return (double)(ended.tv_sec - began.tv_sec) * 1e3 + (double)(ended.tv_nsec - began.tv_nsec) / 1e6;
}

static int compare(const char *path)
{
    FILE *input = fopen(path, "rb");
    if (input == NULL || fseek(input, 0, SEEK_END) != 0) {
        fprintf(stderr, "against: %s can't be read\n", path);
        return 2;
    }
    size_t size = (size_t)ftell(input);
    rewind(input);
    unsigned char *file = malloc(size + 1);
    if (file == NULL || fread(file, 1, size, input) != size) {
        fprintf(stderr, "against: %s can't be read\n", path);
        return 2;
    }
    fclose(input);
    double ours = 1e9, others = 1e9;
    for (int round = 0; round < ROUNDS; round++) {
        uint64_t out[8], other[8];
        double mine = milliseconds_of(pochahuic_check, file, size, out);
        double its = milliseconds_of(other_check, file, size, other);
        ours = mine < ours ? mine : ours;
        others = its < others ? its : others;
        for (int i = 0; i < 8; i++) {
            if (out[i] != other[i]) {
                fprintf(stderr, "against: %s: the answers differ\n", path);
                return 1;
            }
        }
    }
    printf("check of %zu bytes: %.3f ms, the other library %.3f ms: %.3f of it\n", size, ours, others, ours / others);
    free(file);
    return 0;
}

int main(int count, char **words)
{
    for (int i = 1; i < count; i++) {
        int status = compare(words[i]);
        if (status != 0) {
            return status;
        }
    }
    return 0;
}
