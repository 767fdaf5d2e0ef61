/* Reads an exchange file through pochahuic.h, by the names of its columns: its counts, profiles and salinities, corrections, its rows after them, and a refusal
 * with its line and column. */
#include <inttypes.h>
#include <stdio.h>
#include <stdlib.h>
#include <string.h>

#include "pochahuic.h"

/* A name that a column has is no longer than a line. */
enum { LARGEST = 1 << 20, MOST_ROWS = 1 << 12, MOST_NAME = 8192 };

static uint8_t file[LARGEST];

static void print_refusal(const char *what, const uint64_t out[])
{
    printf("%s: ", what);
    if (out[1] != 0)
        printf("line %" PRIu64 ", column %" PRIu64 ": ", out[1], out[2]);
    printf("%s (%" PRIu64 ")\n", pochahuic_message(out[0]), out[0]);
}

static void print_station(size_t length, uint64_t k, const char *name)
{
    uint64_t out[5];
    if (pochahuic_station(file, length, k, (const uint8_t *)name, strlen(name), out) == 0)
        printf(", %s %.*s", name, (int)out[4], (const char *)file + out[3]);
}

static void print_profile(size_t length, uint64_t k)
{
    uint64_t out[10];
    if (pochahuic_profile(file, length, k, out) != 0) {
        print_refusal("no profile", out);
        return;
    }
    printf("profile %" PRIu64 ": rows %" PRIu64 " to %" PRIu64, k, out[3], out[3] + out[4] - 1);
    print_station(length, k, "EXPOCODE");
    print_station(length, k, "STNNBR");
    printf(", CASTNO %" PRIu64 ", DATE %08" PRIu64, out[5], out[6]);
    if (out[7])
        printf(", time %02" PRIu64 ":%02" PRIu64 "\n", out[8], out[9]);
    else
        printf(", time None\n");
}

/* The column of a name; 0, with the refusal in out, where there is none. */
static uint64_t column_of(size_t length, const char *name, size_t name_length, uint64_t out[4])
{
    pochahuic_column_named(file, length, (const uint8_t *)name, name_length, out);
    return out[3];
}

/* The flag column of the column of a name. */
static uint64_t flag_column_of(size_t length, const char *name, size_t name_length, uint64_t out[4])
{
    static const char ending[] = "_FLAG_W";
    char flag_name[MOST_NAME + sizeof ending];
    memcpy(flag_name, name, name_length);
    memcpy(flag_name + name_length, ending, sizeof ending - 1);
    return column_of(length, flag_name, name_length + sizeof ending - 1, out);
}

/* A column with its unit and its flags, each row on a line. A missing reading has no number: it is printed as None and never as NaN. */
static void print_column(size_t length, const char *name)
{
    static uint8_t cases[MOST_ROWS], flags[MOST_ROWS];
    static int64_t millionths[MOST_ROWS];
    static double values[MOST_ROWS];
    uint64_t out[4], unit[5];
    uint64_t column = column_of(length, name, strlen(name), out);
    uint64_t flag_column = column != 0 ? flag_column_of(length, name, strlen(name), out) : 0;
    if (flag_column == 0 || pochahuic_unit(file, length, column, unit) != 0
        || pochahuic_column_values(file, length, column, cases, MOST_ROWS, millionths, MOST_ROWS, values, MOST_ROWS, out) != 0
        || pochahuic_column_flags(file, length, flag_column, flags, MOST_ROWS, out) != 0) {
        print_refusal(name, out);
        return;
    }
    printf("%s: column %" PRIu64 ", unit %.*s, flags in column %" PRIu64 "\n", name, column, (int)unit[4], (const char *)file + unit[3], flag_column);
    for (uint64_t row = 1; row <= out[3]; row++) {
        if (cases[row - 1] == POCHAHUIC_PRESENT)
            printf("%s: %.4f flag %d\n", name, values[row - 1], flags[row - 1]);
        else
            printf("%s: None flag %d\n", name, flags[row - 1]);
    }
}

/* What stands at a row of a column: its value, and its flag where the column has a flag column. */
static void print_corrected(size_t length, uint64_t row, uint64_t column, const char *name, size_t name_length)
{
    int64_t millionths;
    double value;
    uint64_t out[4];
    if (pochahuic_decimal(file, length, row, column, &millionths, &value, out) != POCHAHUIC_PRESENT)
        return;
    printf("corrected: row %" PRIu64 ", %.*s %.4f", row, (int)name_length, name, value);
    uint64_t flag_column = flag_column_of(length, name, name_length, out);
    if (flag_column != 0 && pochahuic_flag(file, length, row, flag_column, out) == 0)
        printf(" flag %" PRIu64, out[3]);
    printf("\n");
}

/* Makes the correction of one list line, in the column that the line names. */
static void correct(size_t length, const char *line)
{
    int64_t millionths;
    uint64_t order[6], out[4];
    if (pochahuic_list_line((const uint8_t *)line, strlen(line), &millionths, order) != 0) {
        print_refusal("no correction", (uint64_t[]){ order[0], 0, 0 });
        return;
    }
    const char *name = line + order[2];
    uint64_t column = column_of(length, name, order[3], out);
    if (column == 0 || pochahuic_correct(file, length, order[1], column, millionths, order[4], order[5], out) != 0)
        print_refusal("not corrected", out);
    else
        print_corrected(length, order[1], column, name, order[3]);
}

/* The rows as an importer takes them: every cell without the spaces at its ends, in one walk. */
static void print_rows(size_t length, uint64_t columns)
{
    uint64_t cursor[10];
    for (pochahuic_walk_open(file, length, cursor); cursor[5] != 0; pochahuic_walk_next(file, length, cursor)) {
        if (cursor[6] == 1)
            printf("row %" PRIu64 ": ", cursor[5]);
        printf("%.*s%c", (int)cursor[4], (const char *)file + cursor[3], cursor[6] == columns ? '\n' : ',');
    }
}

int main(int count, char **words)
{
    FILE *in = count == 2 ? fopen(words[1], "rb") : NULL;
    if (in == NULL) {
        fprintf(stderr, "usage: example FILE\n");
        return EXIT_FAILURE;
    }
    size_t length = fread(file, 1, LARGEST, in);
    fclose(in);

    uint64_t checked[8], named[4], cell[5];
    if (pochahuic_check(file, length, checked) != 0) {
        print_refusal("refused", checked);
        return EXIT_FAILURE;
    }
    printf("%s file: %" PRIu64 " columns, %" PRIu64 " rows, %" PRIu64 " profiles, %" PRIu64 " missing\n",
           checked[3] == POCHAHUIC_CTD ? "CTD" : "bottle", checked[4], checked[5], checked[6], checked[7]);
    for (uint64_t k = 1; k <= checked[6]; k++)
        print_profile(length, k);
    print_column(length, "SALNTY");
    correct(length, "2\tSALNTY\t35.1301\t2\n");
    correct(length, "3\tCTDPRS\t10.8\t0\n");
    correct(length, "1\tSALNT\t35.1301\t2\n");
    correct(length, "1\tSALNTY\t-999.0000\t9\n");
    print_rows(length, checked[4]);

    /* a blank salinity is refused, with its place */
    if (pochahuic_cell(file, length, 1, column_of(length, "SALNTY", strlen("SALNTY"), named), cell) == 0)
        memset(file + cell[3], ' ', cell[4]);
    if (pochahuic_check(file, length, checked) != 0)
        print_refusal("refused", checked);
    return EXIT_SUCCESS;
}
