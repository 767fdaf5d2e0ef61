/* Pochahuic for C: the proved calls of a WHP-Exchange file, on numbers and bytes.
 *
 * Link target/libpochahuic.a (x86-64 Linux), which `bash bindings/archive` writes. Nothing is allocated, nothing is kept between calls, and
 * calls may be made from several threads at once as long as no two of them share a lent array or a file that one of them corrects.
 *
 * Every call on a file checks the whole file first, but for those that go on from where a call before came to: pochahuic_column_in, pochahuic_kind_in,
 * pochahuic_flag_column_in, pochahuic_cell_in, pochahuic_line_after and pochahuic_walk_next. What each call answers is proved for every file and every number; what
 * it asks of the caller is C's own:
 * - file, name and their lengths: that many bytes that can be read (written, for pochahuic_correct), no null pointer even where the length is 0;
 * - out, millionths, value: arrays and numbers of exactly the sizes shown, which can be written and which share no byte with each other or with the file;
 * - tables (of pochahuic_column_values and pochahuic_column_flags): that many entries, likewise, no null pointer even where the length is 0;
 * - cursor (of pochahuic_walk_open and pochahuic_walk_next): ten numbers, likewise, which pochahuic_walk_next reads too.
 * All of out, cursor, *millionths and *value are written at every call; what they held before has no meaning, but that pochahuic_walk_next takes its cursor as the
 * call before left it. Of a table only the entries of the rows are written, and none where the call is refused.
 *
 * Lines, columns, rows, profiles and headers count from 1; starts of parts count bytes from 0 at the file's start.
 * out[0], out[1], out[2] are the refusal number, the line and the byte column of what is refused: 0 each where nothing is, line and column 0 from 21 on; so
 * are cursor[0], cursor[1], cursor[2].
 * A call answers out[0] or cursor[0] again, but for pochahuic_decimal, whose answer says which reading it is, and for those that have neither: pochahuic_column_in,
 * pochahuic_kind_in, pochahuic_flag_column_in and pochahuic_line_after.
 */
#ifndef POCHAHUIC_H
#define POCHAHUIC_H

#include <stddef.h>
#include <stdint.h>

/* The version of this library and of all that comes with it; it stands nowhere else. */
#define POCHAHUIC_VERSION "4.0.0"

#ifdef __cplusplus
extern "C" {
#endif

/* The kind of a file, out[3] of pochahuic_check. */
enum { POCHAHUIC_NO_KIND = 0, POCHAHUIC_BOTTLE = 1, POCHAHUIC_CTD = 2 };

/* The answer of pochahuic_decimal; the first two are the cases of pochahuic_column_values too. */
enum { POCHAHUIC_PRESENT = 0, POCHAHUIC_MISSING = 1, POCHAHUIC_REFUSED = 2 };

/* The kind of a column, the answer of pochahuic_kind_in. Columns up to POCHAHUIC_DEPTH are read as decimals; POCHAHUIC_CTD_FLAG is the flag column of a name that
 * begins with CTD, which has no flag 8. */
enum {
    POCHAHUIC_MEASURED = 0,
    POCHAHUIC_LATITUDE = 1,
    POCHAHUIC_LONGITUDE = 2,
    POCHAHUIC_DEPTH = 3,
    POCHAHUIC_FLAG = 4,
    POCHAHUIC_CTD_FLAG = 5,
    POCHAHUIC_EXPOCODE = 6,
    POCHAHUIC_STNNBR = 7,
    POCHAHUIC_CASTNO = 8,
    POCHAHUIC_DATE = 9,
    POCHAHUIC_TIME = 10,
    POCHAHUIC_FREE = 11
};

/* Checks a file.
 * out[3]: its kind; [4] columns; [5] rows; [6] profiles; [7] missing readings of measured columns. All 0 where refused. */
uint64_t pochahuic_check(const uint8_t *file, size_t length, uint64_t out[8]);

/* The cell at a row and column, without the spaces at its ends: it is the out[4] bytes of the file from out[3] on. Both 0 where refused. */
uint64_t pochahuic_cell(const uint8_t *file, size_t length, uint64_t row, uint64_t column, uint64_t out[5]);

/* Reads a decimal: a measured, LATITUDE, LONGITUDE or DEPTH column. Answers which reading it is:
 * POCHAHUIC_PRESENT: *millionths is the value in millionths, exactly, and *value the same divided once by a million, never NaN or infinite;
 * POCHAHUIC_MISSING: the file says -999 there, so there is no number; POCHAHUIC_REFUSED: out says why.
 * *millionths and *value are 0 unless it is present; out is 0, 0, 0 unless it is refused. */
uint64_t pochahuic_decimal(const uint8_t *file, size_t length, uint64_t row, uint64_t column, int64_t *millionths, double *value, uint64_t out[3]);

/* Reads a flag; the column is the flag column itself. out[3]: the flag, 1 to 9, or 0 where refused. */
uint64_t pochahuic_flag(const uint8_t *file, size_t length, uint64_t row, uint64_t column, uint64_t out[4]);

/* The record of profile k. out[3]: its first row; [4] rows; [5] CASTNO; [6] DATE as the number YYYYMMDD; [7] 1 where its time is given and 0 where it is
 * missing; [8] hour; [9] minute. All 0 where refused, hour and minute where the time is missing. */
uint64_t pochahuic_profile(const uint8_t *file, size_t length, uint64_t k, uint64_t out[10]);

/* The value of profile k under a name, without the spaces at its ends: of the profile's first row in a bottle file, of the header in a CTD file.
 * It is the out[4] bytes of the file from out[3] on; both 0 where refused. 21 too where there is no such name. */
uint64_t pochahuic_station(const uint8_t *file, size_t length, uint64_t k, const uint8_t *name, size_t name_length, uint64_t out[5]);

/* Makes one correction in the file: writes the value, with that many decimals, and the flag at the right of their cells.
 * The flag is 0 where the column has no flag column. A refused correction changes no byte; the length never changes. */
uint64_t pochahuic_correct(uint8_t *file, size_t length, uint64_t row, uint64_t column, int64_t millionths, uint64_t decimals, uint64_t flag, uint64_t out[3]);

/* Reads one line of a correction list, with its line feed: row, column name, decimal, flag, parted by tabs.
 * out[0]: 0 or 26; [1] row; [2] and [3] start and length of the name in the line; [4] decimals as written; [5] flag; *millionths the value. All 0 where refused. */
uint64_t pochahuic_list_line(const uint8_t *line, size_t length, int64_t *millionths, uint64_t out[6]);

/* Checks a file and says where its parts start. out[3] to [7]: as pochahuic_check; [8] the start of its headers, or of its names line where there are none, as
 * in a bottle file; [9] of its names line; [10] of its first data line. All 0 where refused. */
uint64_t pochahuic_open(const uint8_t *file, size_t length, uint64_t out[11]);

/* The number of the column of a name, out[3]; the name is compared as it is. 21 where no column has it, and then out[3] is 0. */
uint64_t pochahuic_column_named(const uint8_t *file, size_t length, const uint8_t *name, size_t name_length, uint64_t out[4]);

/* The same for whoever opened the file before, and then at no cost to speak of, since this call alone checks nothing: answers the number of the column of a name
 * in the names line that starts at `names`, which is out[9] of pochahuic_open; 0 where no column has it. Any place may be given: it reads no byte outside the file.
 * A correction moves no line, so the place holds after it too. */
uint64_t pochahuic_column_in(const uint8_t *file, size_t length, size_t names, const uint8_t *name, size_t name_length);

/* The name of a column, and its unit, which may be empty, both without the spaces at their ends: the out[4] bytes of the file from out[3] on. Both 0 where
 * refused. */
uint64_t pochahuic_name(const uint8_t *file, size_t length, uint64_t column, uint64_t out[5]);
uint64_t pochahuic_unit(const uint8_t *file, size_t length, uint64_t column, uint64_t out[5]);

/* Header k of a CTD file, NUMBER_HEADERS being header 1: its name is the out[4] bytes of the file from out[3] on, its value the out[6] bytes from out[5] on,
 * both without the spaces at their ends. All 0 where refused; 21 where there is no such header, so always in a bottle file. */
uint64_t pochahuic_header(const uint8_t *file, size_t length, uint64_t k, uint64_t out[7]);

/* Reads a whole decimal column, as pochahuic_decimal reads each row of it: entry r - 1 of the three tables is row r's. cases: POCHAHUIC_PRESENT or
 * POCHAHUIC_MISSING; millionths and values: the value, or 0 where it is missing. out[3]: the rows, or 0 where refused.
 * 22 where it is no measured, LATITUDE, LONGITUDE or DEPTH column, then 29 where a table has fewer entries than the file has rows. */
uint64_t pochahuic_column_values(const uint8_t *file, size_t length, uint64_t column, uint8_t *cases, size_t cases_length, int64_t *millionths,
                                 size_t millionths_length, double *values, size_t values_length, uint64_t out[4]);

/* Reads a whole flag column, which is the column given, likewise: entry r - 1 is row r's flag, 1 to 9. out[3]: the rows, or 0 where refused. */
uint64_t pochahuic_column_flags(const uint8_t *file, size_t length, uint64_t column, uint8_t *flags, size_t flags_length, uint64_t out[4]);

/* The calls below check nothing: they are for whoever opened the file before, and take any bytes and any place in them. `names` is out[9] of pochahuic_open; `at` is
 * where a line starts: out[10] is row 1's, pochahuic_line_after the next one's. A correction moves no line, so places hold after it. */

/* The kind of a column, POCHAHUIC_FREE where there is none, and the number of its flag column, 0 where it has none, in the names line that starts at `names`. */
uint64_t pochahuic_kind_in(const uint8_t *file, size_t length, size_t names, uint64_t column);
uint64_t pochahuic_flag_column_in(const uint8_t *file, size_t length, size_t names, uint64_t column);

/* The cell of a column in the line that starts at `at`, without the spaces at its ends: out as pochahuic_cell. 21 where the line has no such cell, as where it has
 * no line feed. The line may be the names line or the units line, which is the one after it. */
uint64_t pochahuic_cell_in(const uint8_t *file, size_t length, size_t at, uint64_t column, uint64_t out[5]);

/* Answers where the line after the one at `at` starts; the file's length where there is none. */
uint64_t pochahuic_line_after(const uint8_t *file, size_t length, size_t at);

/* Walk a file cell by cell, row by row from the left, each cell once, with one check in all:
 *
 *     uint64_t cursor[10];
 *     for (pochahuic_walk_open(file, length, cursor); cursor[5] != 0; pochahuic_walk_next(file, length, cursor))
 *         take(cursor[5], cursor[6], file + cursor[3], cursor[4]);
 *
 * pochahuic_walk_open checks the file and stands on its first cell, or is at the end at once where the file is refused. pochahuic_walk_next checks nothing and
 * goes on to the next cell. cursor[3] and [4]: the cell's start and length, without the spaces at its ends, as pochahuic_cell gives them; [5] its row; [6] its
 * column; [7] where it ends with its spaces. After the last cell, and ever after, these five are 0. What stays ever after: [0], [1] and [2], the file's refusal;
 * [8] and [9], its rows and columns, 0 where it is refused.
 * The file is the one that was opened, at every step. A correction in between moves no cell, but may change which spaces are trimmed: cells still to come are
 * given as corrected, while [3] and [4] stay as they were.
 * Any cursor may be given: pochahuic_walk_next reads no byte outside the file, the part that it leaves lies inside the file, and the walk ends after length + 1
 * steps at the most; which cells it gives is said only of a cursor that these calls made. */
uint64_t pochahuic_walk_open(const uint8_t *file, size_t length, uint64_t cursor[10]);
uint64_t pochahuic_walk_next(const uint8_t *file, size_t length, uint64_t cursor[10]);

/* What a refusal number says, in one sentence; of every other number, 0 too, the empty text. */
static inline const char *pochahuic_message(uint64_t number)
{
    static const char *const messages[] = {
        "",
        "more than 8,192 bytes in the line",                                         /* 1 */
        "no line feed at the end of the last line",                                  /* 2 */
        "bytes that are no UTF-8",                                                   /* 3 */
        "a carriage return",                                                         /* 4 */
        "a control byte",                                                            /* 5 */
        "a byte order mark at the start of the file",                                /* 6 */
        "line 1 is neither BOTTLE nor CTD",                                          /* 7 */
        "no header where one is due: no '=', a bad name or a bad NUMBER_HEADERS",    /* 8 */
        "a name that stands there twice",                                            /* 9 */
        "a bad column name",                                                         /* 10 */
        "more than 256 columns",                                                     /* 11 */
        "a flag column without its parameter",                                       /* 12 */
        "a required name is absent",                                                 /* 13 */
        "the file ends where a line is due",                                         /* 14 */
        "not as many cells as there are names",                                      /* 15 */
        "not of the kind that the column or header asks",                            /* 16 */
        "blank where a value is asked",                                              /* 17 */
        "a value out of its range, or a flag that is not in the set",                /* 18 */
        "END_DATA with no data line before it",                                      /* 19 */
        "more than 1,000,000 data lines",                                            /* 20 */
        "no such row, column, profile, header or name",                              /* 21 */
        "the column is not of the kind that is read or corrected",                   /* 22 */
        "more than 6 decimals, a size of 10^9 or more, or not exact in the decimals", /* 23 */
        "a flag that is not in the set, or not 0 where there is no flag column",     /* 24 */
        "the text is longer than its cell",                                          /* 25 */
        "a malformed line of a correction list",                                     /* 26 */
        "",                                                                          /* 27 */
        "",                                                                          /* 28 */
        "a lent table is too short for the rows",                                    /* 29 */
    };
    return number < sizeof messages / sizeof messages[0] ? messages[number] : "";
}

#ifdef __cplusplus
}
#endif

#endif
