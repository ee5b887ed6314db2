/* The calls of the evaporation workbook for a program in C or C++: the check of a sheet, its report, in words or as a
 * text, the report of each season, one emission factor, all factors of a row or of a sheet, the species of a mass or
 * of a sheet, cells of a map made of a row's words, a ledger, in which vehicles arrive and depart and the report is
 * kept in step, a ledger that eight participants and a marker share, two sheets pooled into one, why a sheet is
 * refused, and what a band says of a filed mass. Behind the calls stand texts for their numbers, as functions of this
 * header.
 *
 * Link with -levaporation, or with what `pkg-config --cflags --libs evaporation` says. The static and the shared
 * library are made of one proved crate and of the pointer forms below, for x86-64 Linux, and need only the C library.
 * docs/LIBRARY.md has first programs, every call with what it promises and costs, what is proved, and the library on
 * Windows; LICENSE says whose it is.
 *
 * Sheets of four versions are read, and the sheet itself says which it is: in version 1 the parking is two lists of 24
 * counts, durations and end hours; in version 2 it is a grid of 576 counts, end hour 1 first, its 24 durations in a
 * row; in version 3, which is version 2 otherwise, the last four bytes of a row are a mileage in km, from which the
 * canister's load follows where it is above 0; in version 4, which is version 3 otherwise, bytes 6 and 7 of the head
 * count the rows. What a call answers has the same form for all.
 *
 * A sheet, owners, words, a text, milligrams and a pooled sheet are passed as a pointer and a number of elements. The
 * pointer points to that many elements; where the number is 0 it is not looked at and may be null. `words` and
 * `milligrams` are aligned for uint64_t, and what a call writes must overlap nothing else that it is handed. The bytes
 * of a sheet are written by the calls for arrivals and departures alone, those of the owners never. No call keeps a
 * pointer, takes memory, reads or writes a file, holds state or fails in another way than by its number.
 *
 * Threads: any number of threads may be in any of the calls at once. Until a call returns nothing else may write what
 * it reads, nor read or write what it writes; two calls may read the same sheet. A call holds no lock, waits for
 * nothing and takes at most EVP_STACK_BYTES of the stack of its thread. */
#ifndef EVAPORATION_H
#define EVAPORATION_H

#include <stddef.h>
#include <stdint.h>

#ifdef __cplusplus
extern "C" {
#endif

/* For the macros below: a number as a size_t, cast as each language has it. */
#ifdef __cplusplus
#define EVP_SIZE_OF(number) static_cast<size_t>(number)
#else
#define EVP_SIZE_OF(number) ((size_t)(number))
#endif

/* The version of this header; evp_library_version() is that of the library. A new patch answers the same; a new minor
 * has more calls, or accepts a version of the sheet that was refused before, and answers the same for all else; a new
 * major may answer otherwise. */
#define EVP_LIBRARY_MAJOR 1
#define EVP_LIBRARY_MINOR 1
#define EVP_LIBRARY_PATCH 0

/* The three as one number, 1001000 for 1.1.0. */
#define EVP_HEADER_VERSION \
    (UINT64_C(1000000) * EVP_LIBRARY_MAJOR + UINT64_C(1000) * EVP_LIBRARY_MINOR + EVP_LIBRARY_PATCH)

uint64_t evp_library_version(void);

/* A thread whose whole stack has so many bytes can make every call: measured are at most 117,448, the thread's own
 * among them, for the calls that make a report or a factor, and at most 6,120 for all others. */
#define EVP_STACK_BYTES 163840

/* The longest sheet, of version 4 with 12 seasons and 1,000 rows, in bytes; and its report, in words. */
#define EVP_SHEET_BYTES 25256
#define EVP_WORDS 6026

/* Where the parking ends and the seasons start, in version 1 and from version 2 on. A season has 8 bytes; the rows
 * follow them. */
#define EVP_LISTS_END 104
#define EVP_GRID_END 1160

/* The words of the report of a sheet with this many rows. */
#define EVP_WORDS_OF(rows) (6 * EVP_SIZE_OF(rows) + 26)

/* The words that evp_factors and evp_report_seasons write for a sheet with this many seasons and rows; and the most,
 * those of the longest sheet. */
#define EVP_FACTOR_WORDS_OF(seasons, rows) (14 * EVP_SIZE_OF(seasons) * EVP_SIZE_OF(rows))
#define EVP_SEASON_WORDS_OF(seasons, rows) (EVP_SIZE_OF(seasons) * EVP_WORDS_OF(rows))
#define EVP_FACTOR_WORDS 168000
#define EVP_SEASON_WORDS 72312

/* No text is longer, in bytes: 151 for each of 1,000 rows, and 622. */
#define EVP_TEXT_BYTES 151622

/* Why a call answers nothing else. 0 stands for a call that is answered. The first that applies is returned, with its
 * place: a byte of the head, the first byte of a list or grid, or the first byte of the season or row at fault. The
 * numbers of a sheet, from EVP_REFUSED_HEAD_SHORT to EVP_REFUSED_MILEAGE, stand here in the order in which every call
 * asks them: all that are of the head, the length and the parking, then all of the first season, of the next and so on,
 * then all of the first row and so on. 8 and 9 are of version 1 alone, 24 from version 2 on; 21 of versions 1 and 2, 25
 * from version 3 on; 6 of versions 1 to 3, 26 of version 4. What each call asks, in this order:
 *   evp_check_sheet, evp_report_words, evp_explain   the sheet
 *   evp_report, evp_report_seasons, evp_factors,
 *   evp_text, evp_species_of                         the sheet, EVP_REFUSED_ROOM
 *   evp_factor, evp_row_factors                      the sheet, EVP_REFUSED_ABSENT
 *   evp_species                                      EVP_REFUSED_ROOM
 *   evp_cells_of_row                                 EVP_REFUSED_TRAVEL, EVP_REFUSED_CELL
 *   evp_add_cells                                    EVP_REFUSED_CELL
 *   evp_arrive, evp_depart                           the sheet, EVP_REFUSED_ROOM, EVP_REFUSED_COUNT
 *   evp_pool                                         the first sheet, the second, EVP_REFUSED_DIFFER, the pooled one,
 *                                                  EVP_REFUSED_ROOM
 *   evp_shared_open                                  the sheet, EVP_REFUSED_ROOM, EVP_REFUSED_SHARE
 *   evp_shared_row                                   what evp_shared_open asks, EVP_REFUSED_RIGHT, EVP_REFUSED_COUNT
 *   evp_shared_totals                                what evp_shared_open asks, EVP_REFUSED_RIGHT
 *   evp_shared_arrive, evp_shared_depart             what evp_shared_open asks, EVP_REFUSED_RIGHT, EVP_REFUSED_COUNT,
 *                                                  EVP_REFUSED_SHARE */
enum evp_number {
    EVP_ACCEPTED = 0,
    EVP_REFUSED_HEAD_SHORT = 1,       /* the input has fewer than 8 bytes; place 0 */
    EVP_REFUSED_MARK = 2,             /* it does not start with the letters EVP; place 0 */
    EVP_REFUSED_VERSION = 3,          /* the version is not 1 to 4, in the pool call not 4; place 3 */
    EVP_REFUSED_SEASONS = 4,          /* the number of seasons is not 1 to 12; place 5 */
    EVP_REFUSED_ROWS = 5,             /* the number of rows is not 1 to 32, in version 4 not 1 to 1,000; place 6 */
    EVP_REFUSED_HEAD_ZERO = 6,        /* the last byte of the head is not zero; place 7 */
    EVP_REFUSED_LENGTH = 7,           /* the length is not 104 + 8 * seasons + 24 * rows, from version 2 on 1160 + ..;
                                       * place 0 */
    EVP_REFUSED_DURATIONS = 8,        /* the 24 counts of durations do not sum to 1 to 1,000; place 8 */
    EVP_REFUSED_HOURS = 9,            /* the 24 counts of end hours do not sum to 1 to 1,000; place 56 */
    EVP_REFUSED_GRID = 24,            /* the 576 counts of the grid do not sum to 1 to 1,000,000; place 8 */
    EVP_REFUSED_DAYS = 10,            /* the days of a season, or of all seasons up to it, are not 1 to 366 */
    EVP_REFUSED_TEMPERATURES = 11,    /* a temperature is not -30.0 to 50.0 degrees C, or the lowest is above the
                                       * highest */
    EVP_REFUSED_VAPOUR_PRESSURE = 12, /* the vapour pressure is not 30.0 to 110.0 kPa */
    EVP_REFUSED_CLASS = 13,           /* the table has no such pair of class and technology */
    EVP_REFUSED_CANISTER = 14,        /* the canister code is none of 0, 1, 2, 3 and 255 */
    EVP_REFUSED_PERCENT = 15,         /* a share or the fill level is above 100 percent */
    EVP_REFUSED_VEHICLES = 16,        /* there are more than 10,000,000 vehicles */
    EVP_REFUSED_FLEET = 26,           /* with those of the rows before there are more than 100,000,000 */
    EVP_REFUSED_TANK = 17,            /* the tank is above 150.0 litres */
    EVP_REFUSED_TRIPS = 18,           /* more than 12.00 trips a day, or more than 1,440 minutes a trip */
    EVP_REFUSED_LOAD = 19,            /* the load is above the saturating load, or one is given without a canister */
    EVP_REFUSED_EXPONENT = 20,        /* the saturating load is too large for the canister: its exponent is above 3 in
                                       * some season */
    EVP_REFUSED_ROW_ZEROS = 21,       /* the last four bytes of a row are not zero */
    EVP_REFUSED_MILEAGE = 25,         /* a mileage above 1,000,000 km; or one above 0 with no canister, beside a load,
                                       * or where the exponent of the saturating load is above 0 in some season */
    EVP_REFUSED_ABSENT = 23,          /* the sheet has no such season or row, or the factor is not 1 to 7; place 0 */
    EVP_REFUSED_TRAVEL = 28,          /* a mileage or a speed is not 1 to 1,000,000, or town is neither 0 nor 1;
                                       * place 0 */
    EVP_REFUSED_CELL = 27,            /* a low above its high; a word, cell or sum above EVP_MASS_LIMIT; or a cell
                                       * handed in that is none, as one exact 0, a band whose low is not below its high,
                                       * a kind above 2, and a double that is no whole number from 0 to EVP_MASS_LIMIT;
                                       * place 0 */
    EVP_REFUSED_DIFFER = 32,          /* the seasons or the parking of the two sheets differ; place 0 */
    EVP_REFUSED_ROOM = 22,            /* fewer words than the report, the seasons' reports or the factors have, fewer
                                       * than 29 for the species, fewer bytes than the pooled sheet has; place 0 */
    EVP_REFUSED_RIGHT = 30,           /* the call is without the right to the shared ledger; place 0 */
    EVP_REFUSED_COUNT = 29,           /* no such row, a departure larger than its count, or an arrival after which the
                                       * row would have more than 10,000,000 vehicles or, in version 4, all rows more
                                       * than 100,000,000; place 0 */
    EVP_REFUSED_SHARE = 31            /* at the opening a row without an owner, or with which its owner has more than
                                       * 100 rows or 10,000,000 vehicles; an arrival after which a participant would
                                       * have more than these, place 0 */
};

/* Which sheet a refusal of the pool call is of. */
enum evp_pool_sheet {
    EVP_SHEET_FIRST = 1,
    EVP_SHEET_SECOND = 2,
    EVP_SHEET_POOLED = 3 /* the two together: their pooled sheet, EVP_REFUSED_DIFFER or EVP_REFUSED_ROOM */
};

/* The bytes of the pooled sheet of two sheets of these lengths, which have the same number of seasons; never more than
 * EVP_SHEET_BYTES where the pool is accepted. */
#define EVP_POOL_BYTES(first_bytes, second_bytes, seasons) \
    (EVP_SIZE_OF(first_bytes) + EVP_SIZE_OF(second_bytes) - EVP_GRID_END - 8 * EVP_SIZE_OF(seasons))

/* The answer of the check, of the report calls, of the call for all factors, of the species call, and of the calls on
 * a ledger. */
struct evp_check {
    uint64_t number; /* of enum evp_number */
    uint64_t place;  /* the byte of the sheet where it stops; 0 where it is accepted */
};

/* The answer of the factor call. */
struct evp_factor_band {
    uint64_t number; /* of enum evp_number */
    uint64_t place;  /* as above */
    uint64_t low;    /* micrograms, at most the exact factor; 0 where the sheet is refused */
    uint64_t high;   /* micrograms, at least the exact factor, at most low + 10; 0 where the sheet is refused */
};

/* The answer of the call for the factors of a row. */
struct evp_factor_bands {
    uint64_t number;    /* of enum evp_number */
    uint64_t place;     /* as above */
    uint64_t bands[14]; /* low and high of factor 1, of factor 2 and so on, in micrograms; zeros where it is refused */
};

/* The answer of the text call. */
struct evp_text_check {
    uint64_t number; /* of enum evp_number: 0 where the text is a report; else it is the line `refused N at P` of this
                      * number and place */
    uint64_t place;  /* as above */
    uint64_t bytes;  /* the length of the text, whether it was written or not */
};

/* The answer of the pool call. */
struct evp_pool_check {
    uint64_t number; /* of enum evp_number */
    uint64_t place;  /* the byte where it stops, counted from the start of the sheet that is refused; 0 where the pool
                      * is accepted */
    uint64_t sheet;  /* of enum evp_pool_sheet; 0 where the pool is accepted */
    uint64_t bytes;  /* the bytes written, those of the pooled sheet; 0 where it is refused */
};

/* Where a sheet stops, with number and place as evp_report has them, and no report. */
struct evp_check evp_check_sheet(const uint8_t *sheet, size_t sheet_bytes);

/* The words that the sheet's report has, at most EVP_WORDS, and the fewest with which evp_report makes one; 0
 * where the sheet is refused. */
size_t evp_report_words(const uint8_t *sheet, size_t sheet_bytes);

/* The report: masses of the year in milligrams, each a low and a high with the exact mass between them, of a row at
 * most a hundredth of a milligram apart for each vehicle and day (soak and running: each trip), and two milligrams.
 *
 * Accepted: the first EVP_WORDS_OF(rows) words are written, those beyond keep what they had. In this order: for each
 * row six words, diurnal low and high, soak low and high, running low and high; six words likewise for cars, for
 * light-duty vehicles, for two-wheelers and for all rows; low and high of the grand total. Refused: all words keep
 * what they had. */
struct evp_check evp_report(const uint8_t *sheet, size_t sheet_bytes, uint64_t *words, size_t words_count);

/* The report as the lines that the program `report` prints, or the one line `refused N at P`; each line ends with a
 * line feed, and nothing stands behind the last. Answers whether it is a report, and the length of the text in bytes,
 * at most EVP_TEXT_BYTES. Where this is at most text_bytes the text is written, and the bytes beyond it keep what they
 * had; where it is more all bytes keep what they had, and the call can be repeated with as many. The words are lent
 * for the report and left as evp_report leaves them: with too few the text is `refused 22 at 0`. */
struct evp_text_check evp_text(const uint8_t *sheet, size_t sheet_bytes, uint64_t *words, size_t words_count,
                               uint8_t *text, size_t text_bytes);

/* One factor of a season and a row, both counted from 0. 1 is diurnal (a day); hot soak (a parking): 2 injection, 3
 * carburettor warm, 4 carburettor hot; running (a trip): 5 injection, 6 carburettor warm, 7 carburettor hot. */
struct evp_factor_band evp_factor(const uint8_t *sheet, size_t sheet_bytes, uint64_t season, uint64_t row,
                                  uint64_t factor);

/* The seven factors of a season and a row, both counted from 0, in one call: for each factor the low and the high that
 * evp_factor returns, and its number and place where it refuses. */
struct evp_factor_bands evp_row_factors(const uint8_t *sheet, size_t sheet_bytes, uint64_t season, uint64_t row);

/* The factors of all seasons and rows in one call, in micrograms: season by season, in each season row by row, in each
 * row the low and the high of factors 1 to 7. The low of factor k of a season and a row, both counted from 0, is word
 * 14 * (rows * season + row) + 2 * (k - 1), and its high the word after it; both are those of evp_factor.
 *
 * Accepted: the first EVP_FACTOR_WORDS_OF(seasons, rows) words are written, those beyond keep what they had. Refused,
 * with EVP_REFUSED_ROOM where there are fewer words: all words keep what they had. */
struct evp_check evp_factors(const uint8_t *sheet, size_t sheet_bytes, uint64_t *words, size_t words_count);

/* The report of each season: for each season, in their order, EVP_WORDS_OF(rows) words as evp_report has them, of the
 * masses on the days of that season alone. The exact masses of the seasons add up to those of the year. The words need
 * not: each season is rounded by itself, and the lows add up to at most the year's low, the highs to at least its high.
 *
 * Accepted: the first EVP_SEASON_WORDS_OF(seasons, rows) words are written, those beyond keep what they had. Refused,
 * with EVP_REFUSED_ROOM where there are fewer words: all words keep what they had. */
struct evp_check evp_report_seasons(const uint8_t *sheet, size_t sheet_bytes, uint64_t *words, size_t words_count);

/* The species of Table 3-14 in printed order: ten alkanes, ten alkenes, two alkines, seven aromatics. */
#define EVP_SPECIES_COUNT 29

static const char *const evp_species_names[EVP_SPECIES_COUNT] = {
    "ethane", "propane", "i-butane", "n-butane", "i-pentane", "n-pentane", "2-methylpentane",
    "3-methylpentane", "n-hexane", "n-heptane",
    "ethene", "propene", "1-butene", "trans-2-butene", "isobutene", "cis-2-butene", "1,3-butadiene",
    "trans-2-pentene", "cis-2-pentene", "isoprene",
    "propyne", "acetylene",
    "benzene", "toluene", "ethylbenzene", "m-xylene", "o-xylene", "1,2,4-trimethylbenzene",
    "1,3,5-trimethylbenzene",
};

/* The species of a mass in milligrams, as of the high of a report's grand total, which is its last word. They add up
 * to the total exactly, none is further than one milligram from its exact share, and one with share 0 gets nothing.
 *
 * Accepted: the first 29 words are written, those beyond keep what they had. With fewer words the answer is
 * EVP_REFUSED_ROOM, place 0, and all words keep what they had. */
struct evp_check evp_species(uint64_t total, uint64_t *milligrams, size_t count);

/* The species of a sheet: those of the high of its grand total. */
struct evp_composition {
    uint64_t number; /* of enum evp_number */
    uint64_t place;  /* as above */
    uint64_t total;  /* the high of the grand total, in milligrams; 0 where the sheet is refused */
    uint64_t milligrams[EVP_SPECIES_COUNT]; /* by evp_species_names; zeros where the sheet is refused */
};

/* Makes the report in words that are lent for it, with its refusals, and splits its last word. The words are left as
 * evp_report leaves them. */
struct evp_composition evp_species_of(const uint8_t *sheet, size_t sheet_bytes, uint64_t *words, size_t words_count);

/* Cells for a map: masses in milligrams, as doubles that are whole numbers. The calls for cells answer the same
 * however the machine is set to round, and where it takes the smallest doubles for 0 (as in a program that is linked
 * with -ffast-math): this is tested, not proved. */

/* The largest mass of a cell: 2^53 milligrams, some nine million tonnes. Up to here every whole number is a double. */
#define EVP_MASS_LIMIT UINT64_C(9007199254740992)

/* The six words of a row, as they stand in the report. */
struct evp_row_words {
    uint64_t diurnal_low, diurnal_high, soak_low, soak_high, running_low, running_high;
};

/* Whether the row's owners live in town, 0 not and 1 in town, and where its vehicles drive. Mileages are in any unit,
 * alike for all three, and so are the two speeds: only their proportions count. Each of the five is from 1 to
 * 1,000,000. Anything else is refused. */
struct evp_travel {
    uint64_t town;
    uint64_t urban_mileage, rural_mileage, highway_mileage, rural_speed, highway_speed;
};

enum evp_kind {
    EVP_CELL_EMPTY = 0, /* no mass; low and high are 0 where it is given, and not read where it is handed in */
    EVP_CELL_EXACT = 1, /* one mass above 0, in both low and high */
    EVP_CELL_BAND = 2,  /* a low and a high mass, the low below the high */
    EVP_CELL_NONE = 3   /* no cell: what stands where a call refuses; handed in, it is refused */
};

struct evp_cell {
    uint64_t kind; /* of enum evp_kind */
    double low;
    double high;
};

/* The answer of the call for a row. Refused: no cells, three of kind EVP_CELL_NONE. */
struct evp_row_cells {
    uint64_t number; /* 0, EVP_REFUSED_TRAVEL or EVP_REFUSED_CELL */
    uint64_t place;  /* 0 */
    struct evp_cell urban, rural, highway;
};

/* The answer of the call for a sum. Refused: no cell, one of kind EVP_CELL_NONE. */
struct evp_cell_sum {
    uint64_t number; /* 0 or EVP_REFUSED_CELL */
    uint64_t place;  /* 0 */
    struct evp_cell cell;
};

/* A row's urban, rural and highway cells: the sums of its shares of the three mechanisms, each share's low rounded
 * down and its high up. Where the exact masses lie in the row's words, the sum of a cell's exact shares lies in the
 * cell, and is 0 where it is empty. */
struct evp_row_cells evp_cells_of_row(struct evp_row_words words, struct evp_travel travel);

/* The sum of two cells, exact; more are added one after the other, in any order. A minus zero handed in counts as 0,
 * and none is given back. */
struct evp_cell_sum evp_add_cells(struct evp_cell a, struct evp_cell b);

/* A ledger is a sheet and the words of its report. It is opened by evp_report; then vehicles arrive at a row, counted
 * from 0, or depart from it. Accepted: the four bytes of the row's vehicles are changed, the row's six words are made
 * anew and all sums with them, so that the words are those that evp_report writes for the changed sheet. Refused: sheet
 * and words keep what they had. Each call checks the sheet and the number of words first, as evp_report does and with
 * its numbers, and then EVP_REFUSED_COUNT; the words themselves it cannot check: where they are not those of the sheet,
 * the sums are taken of what stands there. */
struct evp_check evp_arrive(uint8_t *sheet, size_t sheet_bytes, uint64_t *words, size_t words_count, uint64_t row,
                            uint64_t vehicles);
struct evp_check evp_depart(uint8_t *sheet, size_t sheet_bytes, uint64_t *words, size_t words_count, uint64_t row,
                            uint64_t vehicles);

/* Two sheets of version 4 with the same seasons and parking, byte for byte, pooled: the first's rows, then the
 * second's.
 *
 * Accepted: the first bytes of `pool`, as many as the answer says, are the pooled sheet, those beyond keep what they
 * had. Its report has both sheets' row words, and every subtotal and total is the sum of theirs. Refused: all bytes
 * keep what they had. Of the pooled sheet's numbers EVP_REFUSED_ROWS and EVP_REFUSED_FLEET alone can apply. */
struct evp_pool_check evp_pool(const uint8_t *first, size_t first_bytes, const uint8_t *second, size_t second_bytes,
                               uint8_t *pool, size_t pool_bytes);

/* A shared ledger is a sheet, the words of its report, and beside them the owners: one byte a row, 1 to 8. `who` says
 * who calls: 1 to 8 a participant, 0 the marker; any other has no right to anything. A participant changes and reads
 * the rows of their own; the marker reads all rows and the totals and changes none. The library does not know who
 * calls: a host that lets participants call sets `who` itself, and keeps the three buffers to itself.
 *
 * Every call makes the checks of evp_shared_open first, with its numbers. A refused call changes nothing, and a
 * refused read has zeros beside its number and place. Owners beyond the rows are not read. */
struct evp_row {
    uint64_t number;   /* of enum evp_number */
    uint64_t place;    /* as above */
    uint64_t count;    /* the vehicles of the row */
    uint64_t words[6]; /* diurnal low and high, soak low and high, running low and high */
};

struct evp_totals {
    uint64_t number;    /* of enum evp_number */
    uint64_t place;     /* as above */
    uint64_t words[26]; /* those after the rows: cars, light-duty, two-wheelers, all rows, and the grand total */
};

/* Writes the report, as evp_report does, where every row has an owner and no one has too much. */
struct evp_check evp_shared_open(const uint8_t *sheet, size_t sheet_bytes, const uint8_t *owners, size_t owners_count,
                                 uint64_t *words, size_t words_count);

/* Vehicles arrive at a row, counted from 0, or depart from it: the row's vehicles in the sheet, its six words and all
 * sums change. */
struct evp_check evp_shared_arrive(uint8_t *sheet, size_t sheet_bytes, const uint8_t *owners, size_t owners_count,
                                   uint64_t *words, size_t words_count, uint64_t who, uint64_t row, uint64_t vehicles);
struct evp_check evp_shared_depart(uint8_t *sheet, size_t sheet_bytes, const uint8_t *owners, size_t owners_count,
                                   uint64_t *words, size_t words_count, uint64_t who, uint64_t row, uint64_t vehicles);

/* A row's count and six words; the 26 words after the rows. */
struct evp_row evp_shared_row(const uint8_t *sheet, size_t sheet_bytes, const uint8_t *owners, size_t owners_count,
                              const uint64_t *words, size_t words_count, uint64_t who, uint64_t row);
struct evp_totals evp_shared_totals(const uint8_t *sheet, size_t sheet_bytes, const uint8_t *owners,
                                    size_t owners_count, const uint64_t *words, size_t words_count, uint64_t who);

/* Why a sheet is refused: the first thing that is wrong on it, and what may stand there. All zeros where it is
 * accepted. The number and the place are those of the report call (which asks EVP_REFUSED_ROOM besides). A number has
 * one reason or several, counted from 1 in the order in which they are asked:
 *   EVP_REFUSED_MARK          1 to 3 the letter
 *   EVP_REFUSED_DAYS          1 this season's, 2 with those of the seasons before
 *   EVP_REFUSED_TEMPERATURES  1 the lowest, 2 the highest, 3 the lowest above the highest
 *   EVP_REFUSED_CLASS         1 the class, 2 the technology
 *   EVP_REFUSED_PERCENT       1 carburettor, 2 hot, 3 fill level
 *   EVP_REFUSED_TRIPS         1 trips, 2 minutes
 *   EVP_REFUSED_LOAD          1 the load above the saturating load, 2 a load and 3 a saturating load without a
 *                              canister
 *   EVP_REFUSED_MILEAGE       1 above 1,000,000 km, 2 one without a canister, 3 a load beside it, 4 the saturating load
 *   all others                1
 * The value is outside of least to most, both included. It is what stands in the bytes; for EVP_REFUSED_DURATIONS,
 * EVP_REFUSED_HOURS and EVP_REFUSED_GRID their sum; for reason 2 of EVP_REFUSED_DAYS and for EVP_REFUSED_FLEET with
 * what stands in the records before. Temperatures are tenths of a degree plus 32768. For EVP_REFUSED_EXPONENT and
 * reason 4 of EVP_REFUSED_MILEAGE `most` is the largest saturating load that passes in all seasons, exactly, and
 * `season` the first in which the one that stands there does not. Where the season or row is mended in that field the
 * sheet may be refused further on. */
struct evp_finding {
    uint64_t number; /* of enum evp_number */
    uint64_t place;  /* as above */
    uint64_t reason; /* which of the reasons of this number, from 1 */
    uint64_t index;  /* which season or row, from 0; 0 in the head and the parking */
    uint64_t season; /* for a saturating load the first season in which it is too large, from 0; else 0 */
    uint64_t at;     /* the first byte to look at */
    uint64_t bytes;  /* how many bytes belong to it; 0 where the value is the length of the sheet */
    uint64_t value;
    uint64_t least;
    uint64_t most;
};

struct evp_finding evp_explain(const uint8_t *sheet, size_t sheet_bytes);

/* A filed mass: "2.834 t" has digits 2834, 3 places and the unit EVP_UNIT_TONNE. It stands for what rounds to it, from
 * half of one in its last place below to half above, both included: 2.8335 to 2.8345 t. */
enum evp_unit {
    EVP_UNIT_MILLIGRAM = 0,
    EVP_UNIT_GRAM = 1,
    EVP_UNIT_KILOGRAM = 2,
    EVP_UNIT_TONNE = 3
};

struct evp_filed {
    uint64_t digits; /* the figure without its point */
    uint64_t places; /* how many digits stand behind the point */
    uint64_t unit;   /* of enum evp_unit */
};

enum evp_verdict_kind {
    EVP_VERDICT_AGREES = 0,    /* every mass of the band rounds to the figure */
    EVP_VERDICT_FITS = 1,      /* some masses of the band do and some do not: the band does not settle it */
    EVP_VERDICT_LOW = 2,       /* every mass of the band is above all that the figure stands for, by `off` milligrams or
                                * more */
    EVP_VERDICT_HIGH = 3,      /* every mass of the band is below it, by `off` milligrams or more */
    EVP_VERDICT_UNREADABLE = 4 /* not compared: no such unit, a last place below 10^-6 mg, more than 18 digits, or
                                * 10^18 mg and more */
};

struct evp_verdict {
    uint64_t verdict; /* of enum evp_verdict_kind */
    uint64_t off;     /* whole milligrams, cut down; 0 but for EVP_VERDICT_LOW and EVP_VERDICT_HIGH */
};

/* What a band says of a filed mass: `low` and `high` are two words of a report, so that what is said holds of the
 * exact mass. They are not checked: a low above its high is a band without a mass. */
struct evp_verdict evp_mark(struct evp_filed filed, uint64_t low, uint64_t high);

/* Pointer forms: for hosts that pass no struct by value, each call that takes or answers one once more. A struct that
 * the call takes is read where a pointer points. Of an answer of two numbers the first is returned, and the second is
 * written where the last pointer points; a larger answer is written whole where `answer` points, and its first number
 * is returned too. Where the last pointer is null, that is not written. All else is as the call has it, and what is
 * written overlaps nothing else that is handed over. A host without structs hands over an array: every member has 8
 * bytes. evp_number_text_to writes the sentence of evp_number_text and a zero byte, cut to text_bytes, and returns the
 * length of the whole sentence, at most 127.
 *
 * They are thin C over the calls, c/pointer_forms.c, which is compiled into both libraries. They are tested against the
 * calls, not proved. `python3 -m tools.make pointers` writes them. */
uint64_t evp_check_sheet_to(const uint8_t *sheet, size_t sheet_bytes, uint64_t *place);
uint64_t evp_report_to(const uint8_t *sheet, size_t sheet_bytes, uint64_t *words, size_t words_count, uint64_t *place);
uint64_t evp_text_to(const uint8_t *sheet, size_t sheet_bytes, uint64_t *words, size_t words_count, uint8_t *text,
                     size_t text_bytes, struct evp_text_check *answer);
uint64_t evp_factor_to(const uint8_t *sheet, size_t sheet_bytes, uint64_t season, uint64_t row, uint64_t factor,
                       struct evp_factor_band *answer);
uint64_t evp_row_factors_to(const uint8_t *sheet, size_t sheet_bytes, uint64_t season, uint64_t row,
                            struct evp_factor_bands *answer);
uint64_t evp_factors_to(const uint8_t *sheet, size_t sheet_bytes, uint64_t *words, size_t words_count, uint64_t *place);
uint64_t evp_report_seasons_to(const uint8_t *sheet, size_t sheet_bytes, uint64_t *words, size_t words_count,
                               uint64_t *place);
uint64_t evp_species_to(uint64_t total, uint64_t *milligrams, size_t count, uint64_t *place);
uint64_t evp_species_of_to(const uint8_t *sheet, size_t sheet_bytes, uint64_t *words, size_t words_count,
                           struct evp_composition *answer);
uint64_t evp_cells_of_row_to(const struct evp_row_words *words, const struct evp_travel *travel,
                             struct evp_row_cells *answer);
uint64_t evp_add_cells_to(const struct evp_cell *a, const struct evp_cell *b, struct evp_cell_sum *answer);
uint64_t evp_arrive_to(uint8_t *sheet, size_t sheet_bytes, uint64_t *words, size_t words_count, uint64_t row,
                       uint64_t vehicles, uint64_t *place);
uint64_t evp_depart_to(uint8_t *sheet, size_t sheet_bytes, uint64_t *words, size_t words_count, uint64_t row,
                       uint64_t vehicles, uint64_t *place);
uint64_t evp_pool_to(const uint8_t *first, size_t first_bytes, const uint8_t *second, size_t second_bytes,
                     uint8_t *pool, size_t pool_bytes, struct evp_pool_check *answer);
uint64_t evp_shared_open_to(const uint8_t *sheet, size_t sheet_bytes, const uint8_t *owners, size_t owners_count,
                            uint64_t *words, size_t words_count, uint64_t *place);
uint64_t evp_shared_arrive_to(uint8_t *sheet, size_t sheet_bytes, const uint8_t *owners, size_t owners_count,
                              uint64_t *words, size_t words_count, uint64_t who, uint64_t row, uint64_t vehicles,
                              uint64_t *place);
uint64_t evp_shared_depart_to(uint8_t *sheet, size_t sheet_bytes, const uint8_t *owners, size_t owners_count,
                              uint64_t *words, size_t words_count, uint64_t who, uint64_t row, uint64_t vehicles,
                              uint64_t *place);
uint64_t evp_shared_row_to(const uint8_t *sheet, size_t sheet_bytes, const uint8_t *owners, size_t owners_count,
                           const uint64_t *words, size_t words_count, uint64_t who, uint64_t row,
                           struct evp_row *answer);
uint64_t evp_shared_totals_to(const uint8_t *sheet, size_t sheet_bytes, const uint8_t *owners, size_t owners_count,
                              const uint64_t *words, size_t words_count, uint64_t who, struct evp_totals *answer);
uint64_t evp_explain_to(const uint8_t *sheet, size_t sheet_bytes, struct evp_finding *answer);
uint64_t evp_mark_to(const struct evp_filed *filed, uint64_t low, uint64_t high, uint64_t *off);
size_t evp_number_text_to(uint64_t number, char *text, size_t text_bytes);
/* End of the pointer forms. */

/* Texts for what the calls take and answer, without a point at the end. */

/* What a number says, in one sentence. */
static inline const char *evp_number_text(uint64_t number) {
    switch (number) {
    case EVP_ACCEPTED: return "accepted";
    case EVP_REFUSED_HEAD_SHORT: return "there are fewer than the 8 bytes of a head";
    case EVP_REFUSED_MARK: return "the first three bytes are not the letters EVP";
    case EVP_REFUSED_VERSION: return "the version is not 1 to 4, or of two sheets to pool not 4";
    case EVP_REFUSED_SEASONS: return "the number of seasons is not 1 to 12";
    case EVP_REFUSED_ROWS: return "the number of rows is not 1 to 32, in version 4 not 1 to 1,000";
    case EVP_REFUSED_HEAD_ZERO: return "byte 7 is not 0";
    case EVP_REFUSED_LENGTH: return "the length does not fit the seasons and rows that the head tells of";
    case EVP_REFUSED_DURATIONS: return "the 24 counts of durations do not sum to 1 to 1,000";
    case EVP_REFUSED_HOURS: return "the 24 counts of end hours do not sum to 1 to 1,000";
    case EVP_REFUSED_GRID: return "the 576 counts of the grid do not sum to 1 to 1,000,000";
    case EVP_REFUSED_DAYS: return "the days, alone or with those of the seasons before, are not 1 to 366";
    case EVP_REFUSED_TEMPERATURES:
        return "a temperature is not -30.0 to 50.0 degrees C, or the lowest is above the highest";
    case EVP_REFUSED_VAPOUR_PRESSURE: return "the vapour pressure is not 30.0 to 110.0 kPa";
    case EVP_REFUSED_CLASS: return "class and technology are not in the table";
    case EVP_REFUSED_CANISTER: return "the canister is none of 0, 1, 2, 3 and 255";
    case EVP_REFUSED_PERCENT: return "a share or the fill level is above 100 percent";
    case EVP_REFUSED_VEHICLES: return "there are more than 10,000,000 vehicles";
    case EVP_REFUSED_FLEET: return "with the rows before there are more than 100,000,000 vehicles";
    case EVP_REFUSED_TANK: return "the tank is above 150.0 l";
    case EVP_REFUSED_TRIPS: return "there are more than 12.00 trips a day, or more than 1,440 minutes a trip";
    case EVP_REFUSED_LOAD: return "the load is above m_sat, or one of them is given without a canister";
    case EVP_REFUSED_EXPONENT: return "m_sat is too large for the canister";
    case EVP_REFUSED_ROW_ZEROS: return "the last four bytes of the row are not 0";
    case EVP_REFUSED_MILEAGE:
        return "the mileage is above 1,000,000 km, or stands without a canister, beside a load or beside a large m_sat";
    case EVP_REFUSED_ABSENT: return "there is no such season, row or factor";
    case EVP_REFUSED_TRAVEL: return "a mileage or a speed is not 1 to 1,000,000, or town is neither 0 nor 1";
    case EVP_REFUSED_CELL: return "a low is above its high, a mass is above 2^53 mg, or a cell is none";
    case EVP_REFUSED_DIFFER: return "the seasons or the parking of the two sheets differ";
    case EVP_REFUSED_ROOM: return "the output buffer is too small";
    case EVP_REFUSED_RIGHT: return "the one who calls has no right to this";
    case EVP_REFUSED_COUNT: return "there is no such row, it has fewer vehicles, or it would have too many";
    case EVP_REFUSED_SHARE:
        return "a row has no owner, or a participant would have more than 100 rows or 10,000,000 vehicles";
    default: return "no number of this library";
    }
}

/* What the place of a refusal is of: sheet, head, parking, season, row or call. Which season or row it is, tells
 * evp_place_record. */
static inline const char *evp_place_text(uint64_t number, uint64_t place) {
    if (number == EVP_REFUSED_SHARE && place != 0)
        return "row"; /* at the opening of a shared ledger */
    switch (number) {
    case EVP_ACCEPTED: return "";
    case EVP_REFUSED_HEAD_SHORT: case EVP_REFUSED_LENGTH: return "sheet";
    case EVP_REFUSED_MARK: case EVP_REFUSED_VERSION: case EVP_REFUSED_SEASONS: case EVP_REFUSED_ROWS:
    case EVP_REFUSED_HEAD_ZERO: return "head";
    case EVP_REFUSED_DURATIONS: case EVP_REFUSED_HOURS: case EVP_REFUSED_GRID: return "parking";
    case EVP_REFUSED_DAYS: case EVP_REFUSED_TEMPERATURES: case EVP_REFUSED_VAPOUR_PRESSURE: return "season";
    case EVP_REFUSED_CLASS: case EVP_REFUSED_CANISTER: case EVP_REFUSED_PERCENT: case EVP_REFUSED_VEHICLES:
    case EVP_REFUSED_FLEET: case EVP_REFUSED_TANK: case EVP_REFUSED_TRIPS: case EVP_REFUSED_LOAD:
    case EVP_REFUSED_EXPONENT: case EVP_REFUSED_ROW_ZEROS: case EVP_REFUSED_MILEAGE: return "row";
    default: return "call";
    }
}

/* Which season or row of the sheet a refusal is of, counted from 1, as a report's text counts its rows; 0 where it is
 * of neither. Of a pooled sheet, hand in the first of the two: both have its seasons, and its rows come first. */
static inline uint64_t evp_place_record(const uint8_t *sheet, size_t sheet_bytes, uint64_t number, uint64_t place) {
    const int season = number == EVP_REFUSED_DAYS || number == EVP_REFUSED_TEMPERATURES ||
                       number == EVP_REFUSED_VAPOUR_PRESSURE;
    const int row = evp_place_text(number, place)[0] == 'r';
    uint64_t start;
    if (sheet_bytes < 8 || (!season && !row))
        return 0;
    start = sheet[3] == 1 && sheet[4] == 0 ? EVP_LISTS_END : EVP_GRID_END;
    if (row)
        start += UINT64_C(8) * sheet[5];
    return place < start ? 0 : (place - start) / (row ? 24 : 8) + 1;
}

/* Byte 0 of a row, 1 to 9; "" where there is no such class, and so for all names below. */
static inline const char *evp_class_text(uint64_t code) {
    switch (code) {
    case 1: return "car below 1.4 l";
    case 2: return "car 1.4 to 2.0 l";
    case 3: return "car above 2.0 l";
    case 4: return "light-duty";
    case 5: return "moped";
    case 6: return "two-stroke motorcycle";
    case 7: return "four-stroke below 250 cm3";
    case 8: return "four-stroke up to 750 cm3";
    case 9: return "four-stroke above 750 cm3";
    default: return "";
    }
}

/* Byte 1 of a row, 0 to 5. */
static inline const char *evp_technology_text(uint64_t code) {
    switch (code) {
    case 0: return "conventional";
    case 1: return "Euro 1";
    case 2: return "Euro 2";
    case 3: return "Euro 3";
    case 4: return "Euro 4";
    case 5: return "Euro 5";
    default: return "";
    }
}

/* Byte 2 of a row. */
static inline const char *evp_canister_text(uint64_t code) {
    switch (code) {
    case 0: return "none";
    case 1: return "small";
    case 2: return "medium";
    case 3: return "large";
    case 255: return "by class";
    default: return "";
    }
}

/* The three pairs of words of a row or a subtotal, counted from 0. */
static inline const char *evp_mechanism_text(uint64_t mechanism) {
    switch (mechanism) {
    case 0: return "diurnal";
    case 1: return "soak";
    case 2: return "running";
    default: return "";
    }
}

/* What follows the rows in a report, counted from 0: four times six words, and the two of the grand total. */
static inline const char *evp_line_text(uint64_t line) {
    switch (line) {
    case 0: return "cars";
    case 1: return "light-duty";
    case 2: return "two-wheelers";
    case 3: return "all rows";
    case 4: return "total";
    default: return "";
    }
}

#ifdef __cplusplus
}
#endif

#endif
