/* The calls from C. Two sample sheets of version 1: their reports and factors against the values below, the text of
 * the first against document 01's lines, all factors of each and the reports of their seasons against the calls for one
 * factor and for the year, and refusals of each call. Then the same for the sheets of version 2 that
 * have the products of their lists as a grid, and for these in versions 3 and 4, without a mileage, which must answer
 * alike. Then a sample of version 3 with mileages; species; the cells of a row of the second sample, their sum, and
 * cells that are refused; a ledger on the second sample, in versions 1 and 4, and a shared one; two sheets of version
 * 4 that are pooled; damaged sheets explained, filed masses marked; null pointers in every call; the texts. All of it
 * in every rounding mode of the machine, and with its smallest doubles taken for 0. Prints what is not as expected;
 * the exit status is 0 only where all is.
 *
 * usage: test EXAMPLE.evp TABLE-3-5-DAY.evp ODOMETER.evp NORTH.evp SOUTH.evp POOLED */
#include <fenv.h>
#include <inttypes.h>
#include <math.h>
#include <stdio.h>
#include <string.h>
#include <xmmintrin.h>

#include "evaporation.h"
#include "largest.h"

/* One byte more than the longest sheet: a longer file is then refused by its length. */
static uint8_t sheet[EVP_SHEET_BYTES + 1];
static size_t sheet_bytes;

static uint64_t words[EVP_WORDS], many[EVP_FACTOR_WORDS + 1];

/* What the words hold before a call. */
#define UNTOUCHED UINT64_C(0x5555555555555555)

static int checked, mismatches;
static const char *mode = "";

static void expect(const char *what, uint64_t found, uint64_t expected) {
    checked += 1;
    if (found != expected) {
        printf("%s%s: expected %" PRIu64 ", found %" PRIu64 "\n", mode, what, expected, found);
        mismatches += 1;
    }
}

/* How many bytes of a file there are, at most one more than the longest sheet has; 0 where it cannot be read. */
static size_t read_file(const char *path, uint8_t *bytes) {
    FILE *file = fopen(path, "rb");
    if (file == NULL) {
        perror(path);
        return 0;
    }
    size_t count = fread(bytes, 1, EVP_SHEET_BYTES + 1, file);
    fclose(file);
    return count;
}

static int read_sheet(const char *path) {
    sheet_bytes = read_file(path, sheet);
    return sheet_bytes != 0;
}

/* Two bytes of the sheet, the lowest first: the version, or a count. */
static uint64_t count_at(size_t at) {
    return sheet[at] + UINT64_C(256) * sheet[at + 1];
}

static void clear_words(void) {
    for (size_t i = 0; i < EVP_WORDS; i++)
        words[i] = UNTOUCHED;
}

/* The words from a place on keep what they had. */
static void expect_untouched(size_t from) {
    for (size_t i = from; i < EVP_WORDS; i++)
        expect("a word beyond the report", words[i], UNTOUCHED);
}

static void expect_report(const uint64_t *expected, size_t count) {
    clear_words();
    struct evp_check answer = evp_report(sheet, sheet_bytes, words, EVP_WORDS);
    expect("number of the report", answer.number, EVP_ACCEPTED);
    expect("place of the report", answer.place, 0);
    expect("number of the check", evp_check_sheet(sheet, sheet_bytes).number, EVP_ACCEPTED);
    expect("place of the check", evp_check_sheet(sheet, sheet_bytes).place, 0);
    expect("words of the report", evp_report_words(sheet, sheet_bytes), count);
    for (size_t i = 0; i < count; i++)
        expect("a word of the report", words[i], expected[i]);
    expect_untouched(count);
}

/* The seven factors of season 0 and a row: low and high, in micrograms. */
static void expect_factors(uint64_t row, const uint64_t expected[7][2]) {
    for (uint64_t factor = 1; factor <= 7; factor++) {
        struct evp_factor_band answer = evp_factor(sheet, sheet_bytes, 0, row, factor);
        expect("number of the factor", answer.number, EVP_ACCEPTED);
        expect("low of the factor", answer.low, expected[factor - 1][0]);
        expect("high of the factor", answer.high, expected[factor - 1][1]);
    }
}

/* All factors of a row, and those of the sheet, of which this is the part of a season and row: what evp_factor says. */
static void expect_row_factors(uint64_t season, uint64_t row, const uint64_t *part) {
    struct evp_factor_bands answer = evp_row_factors(sheet, sheet_bytes, season, row);
    expect("number of a row's factors", answer.number, EVP_ACCEPTED);
    expect("place of a row's factors", answer.place, 0);
    for (uint64_t factor = 1; factor <= 7; factor++) {
        struct evp_factor_band band = evp_factor(sheet, sheet_bytes, season, row, factor);
        expect("low among a row's factors", answer.bands[2 * factor - 2], band.low);
        expect("high among a row's factors", answer.bands[2 * factor - 1], band.high);
        expect("low among all factors", part[2 * factor - 2], band.low);
        expect("high among all factors", part[2 * factor - 1], band.high);
    }
}

/* All factors of the sheet in a buffer with a word more, and with a word less than they need. */
static void expect_all_factors(size_t seasons, size_t rows) {
    const size_t count = EVP_FACTOR_WORDS_OF(seasons, rows);
    struct evp_check answer;
    many[0] = many[count] = UNTOUCHED;
    answer = evp_factors(sheet, sheet_bytes, many, count - 1);
    expect("all factors without room", answer.number, EVP_REFUSED_ROOM);
    expect("place without room", answer.place, 0);
    expect("a word without room", many[0], UNTOUCHED);
    answer = evp_factors(sheet, sheet_bytes, many, count + 1);
    expect("number of all factors", answer.number, EVP_ACCEPTED);
    expect("place of all factors", answer.place, 0);
    expect("a word beyond the factors", many[count], UNTOUCHED);
    for (size_t season = 0; season < seasons; season++)
        for (size_t row = 0; row < rows; row++)
            expect_row_factors(season, row, many + 14 * (rows * season + row));
    expect("factors of no season", evp_row_factors(sheet, sheet_bytes, seasons, 0).number, EVP_REFUSED_ABSENT);
    expect("factors of no row", evp_row_factors(sheet, sheet_bytes, 0, rows).number, EVP_REFUSED_ABSENT);
    expect("no band of no row", evp_row_factors(sheet, sheet_bytes, 0, rows).bands[13], 0);
}

/* The reports of the seasons: the year's low is at least the sum of their lows, its high at most the sum of their
 * highs; of one season both are equal. */
static void expect_seasons(size_t seasons, size_t rows) {
    const size_t count = EVP_SEASON_WORDS_OF(seasons, rows), one = EVP_WORDS_OF(rows);
    struct evp_check answer;
    many[0] = many[count] = UNTOUCHED;
    answer = evp_report_seasons(sheet, sheet_bytes, many, count - 1);
    expect("the seasons without room", answer.number, EVP_REFUSED_ROOM);
    expect("place without room", answer.place, 0);
    expect("a word without room", many[0], UNTOUCHED);
    answer = evp_report_seasons(sheet, sheet_bytes, many, count + 1);
    expect("number of the seasons", answer.number, EVP_ACCEPTED);
    expect("place of the seasons", answer.place, 0);
    expect("a word beyond the seasons", many[count], UNTOUCHED);
    expect("the year", evp_report(sheet, sheet_bytes, words, EVP_WORDS).number, EVP_ACCEPTED);
    for (size_t i = 0; i < one; i++) {
        uint64_t sum = 0;
        for (size_t season = 0; season < seasons; season++)
            sum += many[one * season + i];
        expect("a year within its seasons", i % 2 == 0 ? sum <= words[i] : words[i] <= sum, 1);
        expect("a year of few roundings", (i % 2 == 0 ? words[i] - sum : sum - words[i]) < 3 * seasons * rows, 1);
        if (seasons == 1)
            expect("a word of the one season", many[i], words[i]);
    }
}

/* Both, and neither for a sheet that lacks its last byte. */
static void expect_many(size_t seasons, size_t rows) {
    expect_all_factors(seasons, rows);
    expect_seasons(seasons, rows);
    many[0] = UNTOUCHED;
    expect("factors of a cut sheet", evp_factors(sheet, sheet_bytes - 1, many, EVP_FACTOR_WORDS).number,
           EVP_REFUSED_LENGTH);
    expect("seasons of a cut sheet", evp_report_seasons(sheet, sheet_bytes - 1, many, EVP_FACTOR_WORDS).number,
           EVP_REFUSED_LENGTH);
    expect("row of a cut sheet", evp_row_factors(sheet, sheet_bytes - 1, 0, 0).number, EVP_REFUSED_LENGTH);
    expect("a word of a cut sheet", many[0], UNTOUCHED);
}

/* Document 01's example: no vehicles, so all 32 words are 0. */
static const uint64_t example_words[EVP_WORDS_OF(1)] = {0};

static const uint64_t example_factors[7][2] = {
    {14333, 14334}, {42027, 42029}, {3368733, 3368735}, {4738073, 4738075}, {0, 1}, {649532, 649533},
    {3766912, 3766914},
};

/* Table 3-5, first column: 1,000 vehicles with one trip on one day, so that a mass in milligrams is a factor in
 * micrograms. The guidebook has 3.90, 0.10, 8.48, 11.93, 0.13, 1.84 and 10.05 g. */
static const uint64_t table_words[EVP_WORDS_OF(3)] = {
    3875007,  3875009,  103054,   103056,   128038,   128040,   /* row 1 */
    3875007,  3875009,  8463293,  8463295,  1843000,  1843002,  /* row 2 */
    3875007,  3875009,  11904539, 11904540, 10073831, 10073833, /* row 3 */
    11625021, 11625027, 20470886, 20470891, 12044869, 12044875, /* cars */
    0,        0,        0,        0,        0,        0,        /* light-duty */
    0,        0,        0,        0,        0,        0,        /* two-wheelers */
    11625021, 11625027, 20470886, 20470891, 12044869, 12044875, /* all rows */
    44140776, 44140793,                                         /* grand total */
};

static const uint64_t table_factors[7][2] = {
    {3875007, 3875009}, {103054, 103056},   {8463293, 8463295},   {11904539, 11904540},
    {128038, 128040},   {1843000, 1843002}, {10073831, 10073833},
};

/* Document 01's example, as it is printed: 108 bytes. */
static const char example_text[] = "EVP 1 rows 1\nrow 1 0 0 0 0 0 0\ncars 0 0 0 0 0 0\nlight 0 0 0 0 0 0\n"
                                   "two 0 0 0 0 0 0\nall 0 0 0 0 0 0\ntotal 0 0\n";
static const char short_text[] = "refused 22 at 0\n";

#define EXAMPLE_TEXT (sizeof example_text - 1)

/* The text of the sheet in a buffer of this many bytes: written where it fits, all bytes beyond it as they were. */
static void expect_text(const char *expected, size_t words_count, size_t text_bytes) {
    uint8_t text[EXAMPLE_TEXT + 1];
    size_t length = strlen(expected), written = length <= text_bytes ? length : 0;
    memset(text, 'U', sizeof text);
    struct evp_text_check answer = evp_text(sheet, sheet_bytes, words, words_count, text, text_bytes);
    expect("length of the text", answer.bytes, length);
    expect("number of the text", answer.number, expected == short_text ? EVP_REFUSED_ROOM : EVP_ACCEPTED);
    expect("place of the text", answer.place, 0);
    expect("the bytes of the text", (uint64_t)memcmp(text, expected, written), 0);
    for (size_t i = written; i < sizeof text; i++)
        expect("a byte beyond the text", text[i], 'U');
}

/* With a byte to spare, with room for no byte more, with a byte too few; and with a word too few. */
static void expect_example_text(void) {
    expect("length of the example", EXAMPLE_TEXT, 108);
    clear_words();
    expect_text(example_text, EVP_WORDS_OF(1), EXAMPLE_TEXT + 1);
    expect_text(example_text, EVP_WORDS_OF(1), EXAMPLE_TEXT);
    expect_text(example_text, EVP_WORDS_OF(1), EXAMPLE_TEXT - 1);
    for (size_t i = 0; i < EVP_WORDS_OF(1); i++)
        expect("a word of the text's report", words[i], example_words[i]);
    expect_untouched(EVP_WORDS_OF(1));
    expect_text(short_text, EVP_WORDS_OF(1) - 1, EXAMPLE_TEXT);
}

static void put_count(size_t at, uint64_t count) {
    sheet[at] = (uint8_t)(count % 256);
    sheet[at + 1] = (uint8_t)(count / 256);
}

/* The sheet, of version 1 until now, as one of version 2: the grid has the products of the two lists, end hour 1
 * first, and all else stands behind it as before. */
static void make_grid(void) {
    enum { LIST = 24, DURATIONS = 8, HOURS = 56 };
    uint64_t durations[LIST], hours[LIST];
    for (size_t i = 0; i < LIST; i++) {
        durations[i] = count_at(DURATIONS + 2 * i);
        hours[i] = count_at(HOURS + 2 * i);
    }
    memmove(sheet + EVP_GRID_END, sheet + EVP_LISTS_END, sheet_bytes - EVP_LISTS_END);
    sheet_bytes += EVP_GRID_END - EVP_LISTS_END;
    put_count(3, 2);
    for (size_t t = 0; t < LIST; t++)
        for (size_t d = 0; d < LIST; d++)
            put_count(DURATIONS + 2 * (LIST * t + d), hours[t] * durations[d]);
}

/* One word too few, a row that is not there, and a sheet that lacks its last byte. */
static void expect_refusals(uint64_t rows) {
    clear_words();
    expect("a report without room", evp_report(sheet, sheet_bytes, words, EVP_WORDS_OF(rows) - 1).number,
           EVP_REFUSED_ROOM);
    expect("a factor of no row", evp_factor(sheet, sheet_bytes, 0, rows, 1).number, EVP_REFUSED_ABSENT);
    expect("a factor of no number", evp_factor(sheet, sheet_bytes, 0, 0, 8).number, EVP_REFUSED_ABSENT);
    expect("a report of a cut sheet", evp_report(sheet, sheet_bytes - 1, words, EVP_WORDS).number,
           EVP_REFUSED_LENGTH);
    expect("a factor of a cut sheet", evp_factor(sheet, sheet_bytes - 1, 0, 0, 1).number, EVP_REFUSED_LENGTH);
    expect("a report of no byte", evp_report(sheet, 0, words, EVP_WORDS).number, EVP_REFUSED_HEAD_SHORT);
    expect_untouched(0);
}

/* The calls on a sheet refuse it with this number and place. */
static void expect_refused(const char *what, uint64_t number, uint64_t place) {
    clear_words();
    struct evp_check answer = evp_report(sheet, sheet_bytes, words, EVP_WORDS);
    struct evp_factor_band factor = evp_factor(sheet, sheet_bytes, 0, 0, 1);
    struct evp_factor_bands factors = evp_row_factors(sheet, sheet_bytes, 0, 0);
    struct evp_check check = evp_check_sheet(sheet, sheet_bytes);
    struct evp_composition species = evp_species_of(sheet, sheet_bytes, words, EVP_WORDS);
    struct evp_text_check text = evp_text(sheet, sheet_bytes, words, EVP_WORDS, NULL, 0);
    expect(what, answer.number, number);
    expect(what, answer.place, place);
    expect(what, check.number, number);
    expect(what, check.place, place);
    expect(what, species.number, number);
    expect(what, species.place, place);
    expect(what, species.total, 0);
    for (size_t i = 0; i < EVP_SPECIES_COUNT; i++)
        expect(what, species.milligrams[i], 0);
    expect(what, text.number, number);
    expect(what, text.place, place);
    expect(what, evp_report_words(sheet, sheet_bytes), 0);
    expect(what, factor.number, number);
    expect(what, factor.place, place);
    expect(what, factors.number, number);
    expect(what, factors.place, place);
    for (size_t i = 0; i < 14; i++)
        expect(what, factors.bands[i], 0);
    expect(what, evp_factors(sheet, sheet_bytes, words, EVP_WORDS).number, number);
    expect(what, evp_factors(sheet, sheet_bytes, words, EVP_WORDS).place, place);
    expect(what, evp_report_seasons(sheet, sheet_bytes, words, EVP_WORDS).number, number);
    expect(what, evp_report_seasons(sheet, sheet_bytes, words, EVP_WORDS).place, place);
    expect_untouched(0);
}

/* A tank above 150.0 litres in the second row, behind one season. */
static void expect_place(size_t seasons_start) {
    const size_t second_row = seasons_start + 8 + 24, tank = second_row + 6;
    uint8_t kept = sheet[tank + 1];
    sheet[tank + 1] = 255;
    expect_refused("a tank too large", EVP_REFUSED_TANK, second_row);
    sheet[tank + 1] = kept;
}

/* The byte after the count of rows: a zero byte up to version 3, in version 4 the count's upper byte. */
static void expect_row_count(uint64_t version, uint64_t number, uint64_t place) {
    expect("version", count_at(3), version);
    sheet[7] = 1;
    expect_refused("byte 7", number, place);
    sheet[7] = 0;
}

/* With a grid: one of zeros, and other versions in the head; what follows reads another sheet. */
static void expect_grid_refusals(void) {
    memset(sheet + 8, 0, EVP_GRID_END - 8);
    expect_refused("a grid of zeros", EVP_REFUSED_GRID, 8);
    put_count(3, 1);
    expect_refused("version 1 with a grid", EVP_REFUSED_LENGTH, 0);
    put_count(3, 5);
    expect_refused("version 5", EVP_REFUSED_VERSION, 3);
}

/* The first row of the odometer's sample, 236,000 km, in its first season. */
static const uint64_t odometer_factors[7][2] = {
    {207389, 207390}, {41035, 41037}, {58144, 58146}, {68705, 68707}, {19963, 19965}, {19963, 19965}, {19963, 19965},
};

/* A mileage: of more than 1,000,000 km, beside a load, and read as version 2. */
static void expect_odometer(void) {
    const size_t first_row = EVP_GRID_END + 2 * 8, load = first_row + 16, mileage = first_row + 20;
    expect_factors(0, odometer_factors);
    expect_many(2, count_at(6) % 256);
    put_count(mileage + 2, 0xffff);
    expect_refused("too many kilometres", EVP_REFUSED_MILEAGE, first_row);
    put_count(mileage + 2, 0);
    put_count(load, 1);
    expect_refused("a mileage beside a load", EVP_REFUSED_MILEAGE, first_row);
    put_count(load, 0);
    put_count(3, 2);
    expect_refused("a mileage in version 2", EVP_REFUSED_ROW_ZEROS, first_row);
}

/* The species of the high total of the sample of Table 3-5, 44140793 mg, as tools/ has them. */
static const uint64_t table_species[EVP_SPECIES_COUNT] = {
    132409, 2273023, 1933174, 2586391, 4718179, 3407329,
    6187920, 11095886, 891555, 728250,
    22068, 123582, 317782, 525223, 52964, 463432,
    0, 706182, 331023, 0,
    30895, 4414,
    428123, 1738973, 1553600, 2555497, 1112237, 220682, 0,
};

/* What 10,001 mg are: each species has its share, in hundredths of a percent. */
static const uint64_t shares[EVP_SPECIES_COUNT] = {
    30, 515, 438, 586, 1069, 772,
    1402, 2514, 202, 165,
    5, 28, 72, 119, 12, 105,
    0, 160, 75, 0,
    7, 1,
    97, 394, 352, 579, 252, 50, 0,
};

/* With a word to spare, which keeps what it had: the species, which add up to the total. */
static void expect_species(uint64_t total, const uint64_t *expected) {
    uint64_t milligrams[EVP_SPECIES_COUNT + 1], sum = 0;
    milligrams[EVP_SPECIES_COUNT] = UNTOUCHED;
    struct evp_check answer = evp_species(total, milligrams, EVP_SPECIES_COUNT + 1);
    expect("number of the species", answer.number, EVP_ACCEPTED);
    expect("place of the species", answer.place, 0);
    for (size_t i = 0; i < EVP_SPECIES_COUNT; i++) {
        sum += milligrams[i];
        if (shares[i] == 0)
            expect(evp_species_names[i], milligrams[i], 0);
        if (expected != NULL)
            expect(evp_species_names[i], milligrams[i], expected[i]);
    }
    expect("the sum of the species", sum, total);
    expect("a word beyond the species", milligrams[EVP_SPECIES_COUNT], UNTOUCHED);
}

/* With a word too few, and with none. */
static void expect_no_species(void) {
    clear_words();
    for (size_t count = 0; count < EVP_SPECIES_COUNT; count += EVP_SPECIES_COUNT - 1) {
        struct evp_check answer = evp_species(UINT64_MAX, words, count);
        expect("species without room", answer.number, EVP_REFUSED_ROOM);
        expect("place of species without room", answer.place, 0);
    }
    expect_untouched(0);
}

/* Those of the sheet of Table 3-5, with the words of its report; and with a word too few. */
static void expect_sheet_species(void) {
    clear_words();
    struct evp_composition found = evp_species_of(sheet, sheet_bytes, words, EVP_WORDS_OF(3));
    expect("number of a sheet's species", found.number, EVP_ACCEPTED);
    expect("place of a sheet's species", found.place, 0);
    expect("total of a sheet's species", found.total, 44140793);
    for (size_t i = 0; i < EVP_SPECIES_COUNT; i++)
        expect(evp_species_names[i], found.milligrams[i], table_species[i]);
    for (size_t i = 0; i < EVP_WORDS_OF(3); i++)
        expect("a word of the species' report", words[i], table_words[i]);
    expect_untouched(EVP_WORDS_OF(3));
    found = evp_species_of(sheet, sheet_bytes, words, EVP_WORDS_OF(3) - 1);
    expect("a sheet's species without room", found.number, EVP_REFUSED_ROOM);
    expect("their total", found.total, 0);
}

static void expect_all_species(void) {
    static const uint64_t totals[] = {0, 1, 10000, 10001, UINT64_MAX};
    for (size_t i = 0; i < sizeof totals / sizeof totals[0]; i++)
        expect_species(totals[i], NULL);
    expect_species(10001, shares);
    expect_species(44140793, table_species);
    expect_no_species();
    expect("the name of a species", (uint64_t)strcmp(evp_species_names[16], "1,3-butadiene"), 0);
}

/* The two samples: document 01's example, and three rows of Table 3-5. */
static void expect_example(void) {
    expect_report(example_words, EVP_WORDS_OF(1));
    expect_factors(0, example_factors);
    expect_many(1, 1);
    expect_refusals(1);
}

static void expect_table(size_t seasons_start) {
    expect_report(table_words, EVP_WORDS_OF(3));
    for (uint64_t row = 0; row < 3; row++)
        expect_factors(row, table_factors);
    expect_many(1, 3);
    expect_refusals(3);
    expect_place(seasons_start);
}

/* A cell has this kind and, bit by bit, these doubles. */
static void expect_cell(const char *what, struct evp_cell found, uint64_t kind, double low, double high) {
    const double expected[2] = {low, high}, doubles[2] = {found.low, found.high};
    expect(what, found.kind, kind);
    expect(what, (uint64_t)memcmp(doubles, expected, sizeof doubles), 0);
}

static struct evp_row_words row_words(size_t row) {
    const uint64_t *w = words + 6 * row;
    return (struct evp_row_words){w[0], w[1], w[2], w[3], w[4], w[5]};
}

static void expect_no_cells(struct evp_row_words row, struct evp_travel travel, uint64_t number) {
    struct evp_row_cells found = evp_cells_of_row(row, travel);
    expect("number of a refused row", found.number, number);
    expect("place of a refused row", found.place, 0);
    expect_cell("urban cell of a refused row", found.urban, EVP_CELL_NONE, 0, 0);
    expect_cell("rural cell of a refused row", found.rural, EVP_CELL_NONE, 0, 0);
    expect_cell("highway cell of a refused row", found.highway, EVP_CELL_NONE, 0, 0);
}

/* What is neither 0 nor 1; as a bool 2 and 256 would count as no, or as yes, by their lowest bit or byte. */
static const uint64_t no_towns[] = {2, 3, 256, 257, UINT64_MAX};

/* Row 2 of the table's sample, in town, and the same row elsewhere: the worked row of docs/SHEET.md. */
static void expect_row_cells(void) {
    struct evp_travel travel = {1, 6000, 4500, 3000, 60, 100};
    clear_words();
    evp_report(sheet, sheet_bytes, words, EVP_WORDS);
    struct evp_row_words row = row_words(1);
    struct evp_row_cells town = evp_cells_of_row(row, travel);
    expect("number of a row", town.number, EVP_ACCEPTED);
    expect("place of a row", town.place, 0);
    expect_cell("urban cell in town", town.urban, EVP_CELL_BAND, 12834493, 12834499);
    expect_cell("rural cell in town", town.rural, EVP_CELL_BAND, 844988, 844990);
    expect_cell("highway cell in town", town.highway, EVP_CELL_BAND, 501817, 501819);
    travel.town = 0;
    struct evp_row_cells other = evp_cells_of_row(row, travel);
    expect_cell("urban cell", other.urban, EVP_CELL_BAND, 819111, 819112);
    expect_cell("rural cell", other.rural, EVP_CELL_BAND, 11845488, 11845493);
    expect_cell("highway cell", other.highway, EVP_CELL_BAND, 1516699, 1516702);
    struct evp_cell_sum sum = evp_add_cells(town.urban, other.urban);
    expect("number of a sum", sum.number, EVP_ACCEPTED);
    expect_cell("sum of two cells", sum.cell, EVP_CELL_BAND, 13653604, 13653611);
    row.soak_low = row.soak_high + 1;
    expect_no_cells(row, travel, EVP_REFUSED_CELL);
    travel.town = 2;
    expect_no_cells(row, travel, EVP_REFUSED_TRAVEL);
    row = row_words(1);
    for (size_t i = 0; i < sizeof no_towns / sizeof no_towns[0]; i++) {
        travel.town = no_towns[i];
        expect_no_cells(row, travel, EVP_REFUSED_TRAVEL);
    }
    travel.town = 1;
    travel.highway_speed = 0;
    expect_no_cells(row, travel, EVP_REFUSED_TRAVEL);
}

/* Beside an empty cell: refused, or given with this kind and these doubles. */
static void expect_sum(const char *what, struct evp_cell cell, uint64_t number, uint64_t kind, double low,
                       double high) {
    struct evp_cell_sum sum = evp_add_cells(cell, (struct evp_cell){EVP_CELL_EMPTY, NAN, NAN});
    expect(what, sum.number, number);
    expect(what, sum.place, 0);
    expect_cell(what, sum.cell, kind, low, high);
}

static void expect_cells(void) {
    const double most = (double)EVP_MASS_LIMIT;
    expect_sum("the largest mass", (struct evp_cell){EVP_CELL_EXACT, most, most}, EVP_ACCEPTED, EVP_CELL_EXACT, most,
               most);
    expect_sum("a minus zero", (struct evp_cell){EVP_CELL_BAND, -0.0, 7}, EVP_ACCEPTED, EVP_CELL_BAND, 0.0, 7);
    expect_sum("an exact 0", (struct evp_cell){EVP_CELL_EXACT, 0, 0}, EVP_REFUSED_CELL, EVP_CELL_NONE, 0, 0);
    expect_sum("an exact NaN", (struct evp_cell){EVP_CELL_EXACT, NAN, NAN}, EVP_REFUSED_CELL, EVP_CELL_NONE, 0, 0);
    expect_sum("two masses as one", (struct evp_cell){EVP_CELL_EXACT, 5, 6}, EVP_REFUSED_CELL, EVP_CELL_NONE, 0, 0);
    expect_sum("an equal band", (struct evp_cell){EVP_CELL_BAND, 7, 7}, EVP_REFUSED_CELL, EVP_CELL_NONE, 0, 0);
    expect_sum("an infinity", (struct evp_cell){EVP_CELL_BAND, 7, INFINITY}, EVP_REFUSED_CELL, EVP_CELL_NONE, 0, 0);
    expect_sum("a fraction", (struct evp_cell){EVP_CELL_BAND, 0.5, 7}, EVP_REFUSED_CELL, EVP_CELL_NONE, 0, 0);
    expect_sum("a kind that is none", (struct evp_cell){3, 5, 7}, EVP_REFUSED_CELL, EVP_CELL_NONE, 0, 0);
    const struct evp_cell largest = {EVP_CELL_EXACT, most, most}, one = {EVP_CELL_EXACT, 1, 1};
    expect("a sum of 2^53 + 1", evp_add_cells(largest, one).number, EVP_REFUSED_CELL);
}

/* The vehicles of a row behind one season. */
static uint64_t vehicles_of(size_t seasons_start, size_t row) {
    const size_t at = seasons_start + 8 + 24 * row + 8;
    return count_at(at) + UINT64_C(65536) * count_at(at + 2);
}

/* What a call on the ledger answers, with the vehicles that the row then has; its words are those of a fresh report. */
static void expect_change(size_t seasons_start, struct evp_check answer, uint64_t number, size_t row,
                          uint64_t vehicles) {
    static uint64_t fresh[EVP_WORDS];
    expect("number of a change", answer.number, number);
    expect("place of a change", answer.place, 0);
    expect("vehicles of the row", vehicles_of(seasons_start, row), vehicles);
    for (size_t i = 0; i < EVP_WORDS; i++)
        fresh[i] = UNTOUCHED;
    expect("number of the fresh report", evp_report(sheet, sheet_bytes, fresh, EVP_WORDS).number, EVP_ACCEPTED);
    for (size_t i = 0; i < EVP_WORDS; i++)
        expect("a word of the ledger", words[i], fresh[i]);
}

static struct evp_check arrive(uint64_t row, uint64_t vehicles) {
    return evp_arrive(sheet, sheet_bytes, words, EVP_WORDS, row, vehicles);
}

static struct evp_check depart(uint64_t row, uint64_t vehicles) {
    return evp_depart(sheet, sheet_bytes, words, EVP_WORDS, row, vehicles);
}

/* Three rows of 1,000 vehicles: some arrive and depart, some are refused, and at last all are as they were. */
static void expect_ledger(size_t seasons_start) {
    clear_words();
    expect("opening the ledger", evp_report(sheet, sheet_bytes, words, EVP_WORDS).number, EVP_ACCEPTED);
    expect_change(seasons_start, arrive(0, 250), EVP_ACCEPTED, 0, 1250);
    expect_change(seasons_start, depart(2, 1000), EVP_ACCEPTED, 2, 0);
    expect_change(seasons_start, depart(2, 1), EVP_REFUSED_COUNT, 2, 0);
    expect_change(seasons_start, arrive(3, 1), EVP_REFUSED_COUNT, 2, 0);
    expect_change(seasons_start, arrive(1, 9999001), EVP_REFUSED_COUNT, 1, 1000);
    expect_change(seasons_start, arrive(1, UINT64_MAX), EVP_REFUSED_COUNT, 1, 1000);
    expect_change(seasons_start, arrive(1, 9999000), EVP_ACCEPTED, 1, 10000000);
    expect("a ledger without room", evp_arrive(sheet, sheet_bytes, words, EVP_WORDS_OF(3) - 1, 1, 1).number,
           EVP_REFUSED_ROOM);
    expect("a ledger of a cut sheet", evp_depart(sheet, sheet_bytes - 1, words, EVP_WORDS, 1, 1).number,
           EVP_REFUSED_LENGTH);
    expect_change(seasons_start, depart(1, 9999000), EVP_ACCEPTED, 1, 1000);
    expect_change(seasons_start, depart(0, 250), EVP_ACCEPTED, 0, 1000);
    expect_change(seasons_start, arrive(2, 1000), EVP_ACCEPTED, 2, 1000);
    for (size_t i = 0; i < EVP_WORDS_OF(3); i++)
        expect("a word of the ledger at last", words[i], table_words[i]);
    expect_untouched(EVP_WORDS_OF(3));
}

/* Two sheets, their pooled sheet, and the buffer of the pool call. */
static uint8_t first[EVP_SHEET_BYTES + 1], second[EVP_SHEET_BYTES + 1], pooled[EVP_SHEET_BYTES + 1];
static uint8_t pool[EVP_SHEET_BYTES];
static size_t first_bytes, second_bytes, pooled_bytes;

/* Pools the two with this much room. The buffer starts with these bytes of the pooled sheet, and all else in it is as
 * it was. */
static void expect_pool(size_t room, uint64_t number, uint64_t place, uint64_t of, size_t written) {
    memset(pool, 'U', sizeof pool);
    struct evp_pool_check answer = evp_pool(first, first_bytes, second, second_bytes, pool, room);
    expect("number of the pool", answer.number, number);
    expect("place of the pool", answer.place, place);
    expect("sheet of the pool", answer.sheet, of);
    expect("bytes of the pool", answer.bytes, written);
    expect("the bytes of the pool", (uint64_t)memcmp(pool, pooled, written), 0);
    for (size_t i = written; i < sizeof pool; i++)
        expect("a byte beyond the pool", pool[i], 'U');
}

/* With room to spare, for no byte more, and for a byte too few; each refused sheet and both; and other seasons. */
static void expect_pools(void) {
    const size_t season = EVP_GRID_END;
    expect("length of the pool", EVP_POOL_BYTES(first_bytes, second_bytes, first[5]), pooled_bytes);
    expect_pool(sizeof pool, EVP_ACCEPTED, 0, 0, pooled_bytes);
    expect_pool(pooled_bytes, EVP_ACCEPTED, 0, 0, pooled_bytes);
    expect_pool(pooled_bytes - 1, EVP_REFUSED_ROOM, 0, EVP_SHEET_POOLED, 0);
    second[3] = 3;
    expect_pool(sizeof pool, EVP_REFUSED_VERSION, 3, EVP_SHEET_SECOND, 0);
    first[0] = 'e';
    expect_pool(sizeof pool, EVP_REFUSED_MARK, 0, EVP_SHEET_FIRST, 0);
    first[0] = 'E';
    second[3] = 4;
    second[season] ^= 1;
    expect_pool(0, EVP_REFUSED_DIFFER, 0, EVP_SHEET_POOLED, 0);
    second[season] ^= 1;
    second[7] = 4;
    expect_pool(sizeof pool, EVP_REFUSED_ROWS, 6, EVP_SHEET_SECOND, 0);
    second[7] = 0;
}

/* The shared ledger: the first and the last row are participant 1's, the second is 2's. */
static const uint8_t owners[3] = {1, 2, 1};

static void expect_answer(const char *what, struct evp_check answer, uint64_t number, uint64_t place) {
    expect(what, answer.number, number);
    expect(what, answer.place, place);
}

static struct evp_check shared_open(const uint8_t *who, size_t n) {
    return evp_shared_open(sheet, sheet_bytes, who, n, words, EVP_WORDS);
}

static struct evp_check shared_arrive(uint64_t who, uint64_t row, uint64_t vehicles) {
    return evp_shared_arrive(sheet, sheet_bytes, owners, 3, words, EVP_WORDS, who, row, vehicles);
}

static struct evp_check shared_depart(uint64_t who, uint64_t row, uint64_t vehicles) {
    return evp_shared_depart(sheet, sheet_bytes, owners, 3, words, EVP_WORDS, who, row, vehicles);
}

/* A read of a row: its count and its words in the buffer, or a number and zeros. */
static void expect_row(uint64_t who, uint64_t row, uint64_t number, uint64_t count) {
    struct evp_row answer = evp_shared_row(sheet, sheet_bytes, owners, 3, words, EVP_WORDS, who, row);
    expect("number of a row", answer.number, number);
    expect("place of a row", answer.place, 0);
    expect("count of a row", answer.count, count);
    for (size_t m = 0; m < 6; m++)
        expect("a word of a row", answer.words[m], number == EVP_ACCEPTED ? words[6 * row + m] : 0);
}

static void expect_totals(uint64_t who, uint64_t number) {
    struct evp_totals answer = evp_shared_totals(sheet, sheet_bytes, owners, 3, words, EVP_WORDS, who);
    expect("number of the totals", answer.number, number);
    expect("place of the totals", answer.place, 0);
    for (size_t m = 0; m < 26; m++)
        expect("a word of the totals", answer.words[m], number == EVP_ACCEPTED ? words[18 + m] : 0);
}

/* Three rows of 1,000 vehicles: who may do what, and the limit of a participant's vehicles. */
static void expect_shared(size_t seasons_start) {
    const size_t first_row = seasons_start + 8;
    const uint8_t unowned[3] = {1, 2, 9};
    clear_words();
    expect_answer("an opening with an owner too few", shared_open(owners, 2), EVP_REFUSED_SHARE, first_row + 48);
    expect_answer("an opening with owner 9", shared_open(unowned, 3), EVP_REFUSED_SHARE, first_row + 48);
    expect_untouched(0);
    expect_answer("an opening", shared_open(owners, 3), EVP_ACCEPTED, 0);
    expect_row(1, 0, EVP_ACCEPTED, 1000);
    expect_row(1, 1, EVP_REFUSED_RIGHT, 0);
    expect_row(1, 3, EVP_REFUSED_RIGHT, 0);
    expect_row(9, 0, EVP_REFUSED_RIGHT, 0);
    expect_row(0, 1, EVP_ACCEPTED, 1000);
    expect_row(0, 3, EVP_REFUSED_COUNT, 0);
    expect_totals(0, EVP_ACCEPTED);
    expect_totals(1, EVP_REFUSED_RIGHT);
    expect_answer("an arrival at one's own row", shared_arrive(1, 0, 9998000), EVP_ACCEPTED, 0);
    expect_answer("an arrival past the participant's", shared_arrive(1, 2, 1), EVP_REFUSED_SHARE, 0);
    expect_answer("an arrival past the row's", shared_arrive(1, 2, 10000000), EVP_REFUSED_COUNT, 0);
    expect_answer("an arrival at another's row", shared_arrive(2, 0, 1), EVP_REFUSED_RIGHT, 0);
    expect_answer("an arrival of the marker", shared_arrive(0, 0, 1), EVP_REFUSED_RIGHT, 0);
    expect_answer("a departure from an absent row", shared_depart(2, 3, 1), EVP_REFUSED_RIGHT, 0);
    expect_answer("a departure larger than the count", shared_depart(2, 1, 1001), EVP_REFUSED_COUNT, 0);
    expect_row(1, 0, EVP_ACCEPTED, 9999000);
    expect_row(1, 2, EVP_ACCEPTED, 1000);
    expect_answer("a departure", shared_depart(1, 0, 9998000), EVP_ACCEPTED, 0);
    for (size_t i = 0; i < EVP_WORDS_OF(3); i++)
        expect("a word of the shared ledger", words[i], table_words[i]);
    expect_untouched(EVP_WORDS_OF(3));
}

/* What is found on the second sample with something changed; the same without. */
static void expect_finding(const char *what, struct evp_finding expected) {
    struct evp_finding found = evp_explain(sheet, sheet_bytes);
    if (memcmp(&found, &expected, sizeof found) != 0) {
        printf("%s: found %" PRIu64 " at %" PRIu64 " reason %" PRIu64 " value %" PRIu64 " of %" PRIu64 " to %" PRIu64
               "\n", what,
               found.number, found.place, found.reason, found.value, found.least, found.most);
        mismatches += 1;
    }
}

static void expect_findings(void) {
    const size_t row = EVP_LISTS_END + 8 * 1 + 24 * 2;
    expect_finding("a sheet that passes", (struct evp_finding){0});
    sheet[row + 5] = 101;
    expect_finding("a fill level", (struct evp_finding){EVP_REFUSED_PERCENT, row, 3, 2, 0, row + 5, 1, 101, 0, 100});
    put_count(EVP_LISTS_END + 2, 65536 - 301);
    expect_finding("a lowest temperature",
                   (struct evp_finding){EVP_REFUSED_TEMPERATURES, EVP_LISTS_END, 1, 0, 0, EVP_LISTS_END + 2, 2,
                                        32768 - 301, 32768 - 300, 32768 + 500});
    sheet_bytes = 7;
    expect_finding("seven bytes",
                   (struct evp_finding){EVP_REFUSED_HEAD_SHORT, 0, 1, 0, 0, 0, 0, 7, 8, EVP_SHEET_BYTES});
}

static void expect_mark(uint64_t digits, uint64_t places, uint64_t unit, uint64_t kind, uint64_t off) {
    struct evp_verdict found = evp_mark((struct evp_filed){digits, places, unit}, 44140776, 44140793);
    expect("the verdict on a filed mass", found.verdict, kind);
    expect("how far it is off", found.off, off);
}

/* Filed for the grand total of the second sample, 44,140,776 to 44,140,793 mg. */
static void expect_marks(void) {
    expect_mark(4414, 2, EVP_UNIT_KILOGRAM, EVP_VERDICT_AGREES, 0);
    expect_mark(44140785, 3, EVP_UNIT_GRAM, EVP_VERDICT_FITS, 0);
    expect_mark(441, 1, EVP_UNIT_KILOGRAM, EVP_VERDICT_AGREES, 0);
    expect_mark(44, 3, EVP_UNIT_TONNE, EVP_VERDICT_AGREES, 0);
    expect_mark(44130, 0, EVP_UNIT_GRAM, EVP_VERDICT_LOW, 10276);
    expect_mark(4415, 2, EVP_UNIT_KILOGRAM, EVP_VERDICT_HIGH, 4207);
    expect_mark(4414, 2, 4, EVP_VERDICT_UNREADABLE, 0);
    expect_mark(1, 13, EVP_UNIT_KILOGRAM, EVP_VERDICT_UNREADABLE, 0);
}

/* Nothing at all, and one buffer after the other that has no byte or word: a null pointer is served as any other. */
static void expect_nulls(void) {
    const struct evp_pool_check none = evp_pool(NULL, 0, NULL, 0, NULL, 0);
    const struct evp_pool_check second_none = evp_pool(first, first_bytes, NULL, 0, pool, sizeof pool);
    clear_words();
    expect_answer("a check of nothing", evp_check_sheet(NULL, 0), EVP_REFUSED_HEAD_SHORT, 0);
    expect("the words of nothing", evp_report_words(NULL, 0), 0);
    expect_answer("a report of nothing", evp_report(NULL, 0, NULL, 0), EVP_REFUSED_HEAD_SHORT, 0);
    expect_answer("a report in nothing", evp_report(sheet, sheet_bytes, NULL, 0), EVP_REFUSED_ROOM, 0);
    expect("a text of nothing", evp_text(NULL, 0, NULL, 0, NULL, 0).number, EVP_REFUSED_HEAD_SHORT);
    expect("its length", evp_text(NULL, 0, NULL, 0, NULL, 0).bytes, strlen("refused 1 at 0\n"));
    expect("a text without words", evp_text(sheet, sheet_bytes, NULL, 0, NULL, 0).number, EVP_REFUSED_ROOM);
    expect("a text in nothing", evp_text(sheet, sheet_bytes, words, EVP_WORDS, NULL, 0).number, EVP_ACCEPTED);
    expect("a factor of nothing", evp_factor(NULL, 0, 0, 0, 1).number, EVP_REFUSED_HEAD_SHORT);
    expect("a row's factors of nothing", evp_row_factors(NULL, 0, 0, 0).number, EVP_REFUSED_HEAD_SHORT);
    expect_answer("all factors of nothing", evp_factors(NULL, 0, NULL, 0), EVP_REFUSED_HEAD_SHORT, 0);
    expect_answer("all factors in nothing", evp_factors(sheet, sheet_bytes, NULL, 0), EVP_REFUSED_ROOM, 0);
    expect_answer("the seasons of nothing", evp_report_seasons(NULL, 0, NULL, 0), EVP_REFUSED_HEAD_SHORT, 0);
    expect_answer("the seasons in nothing", evp_report_seasons(sheet, sheet_bytes, NULL, 0), EVP_REFUSED_ROOM, 0);
    expect_answer("species in nothing", evp_species(1, NULL, 0), EVP_REFUSED_ROOM, 0);
    expect("the species of nothing", evp_species_of(NULL, 0, NULL, 0).number, EVP_REFUSED_HEAD_SHORT);
    expect("the species without words", evp_species_of(sheet, sheet_bytes, NULL, 0).number, EVP_REFUSED_ROOM);
    expect_answer("an arrival at nothing", evp_arrive(NULL, 0, NULL, 0, 0, 1), EVP_REFUSED_HEAD_SHORT, 0);
    expect_answer("an arrival without words", evp_arrive(sheet, sheet_bytes, NULL, 0, 0, 1), EVP_REFUSED_ROOM, 0);
    expect_answer("a departure from nothing", evp_depart(NULL, 0, NULL, 0, 0, 1), EVP_REFUSED_HEAD_SHORT, 0);
    expect("a pool of nothing", none.number, EVP_REFUSED_HEAD_SHORT);
    expect("which sheet of it", none.sheet, EVP_SHEET_FIRST);
    expect("a pool with nothing", second_none.number, EVP_REFUSED_HEAD_SHORT);
    expect("which sheet of that", second_none.sheet, EVP_SHEET_SECOND);
    expect("a pool in nothing", evp_pool(first, first_bytes, second, second_bytes, NULL, 0).number, EVP_REFUSED_ROOM);
    expect("why nothing is refused", evp_explain(NULL, 0).number, EVP_REFUSED_HEAD_SHORT);
}

/* A shared ledger of nothing, without words, and without owners. */
static void expect_shared_nulls(size_t first_row) {
    expect_answer("nothing shared", evp_shared_open(NULL, 0, NULL, 0, NULL, 0), EVP_REFUSED_HEAD_SHORT, 0);
    expect_answer("shared without words", evp_shared_open(sheet, sheet_bytes, owners, 3, NULL, 0), EVP_REFUSED_ROOM, 0);
    expect_answer("shared without owners", shared_open(NULL, 0), EVP_REFUSED_SHARE, first_row);
    expect_answer("an arrival at it", evp_shared_arrive(NULL, 0, NULL, 0, NULL, 0, 1, 0, 1), EVP_REFUSED_HEAD_SHORT, 0);
    expect_answer("a departure from it", evp_shared_depart(NULL, 0, NULL, 0, NULL, 0, 1, 0, 1), EVP_REFUSED_HEAD_SHORT,
                  0);
    expect("a row of nothing shared", evp_shared_row(NULL, 0, NULL, 0, NULL, 0, 1, 0).number, EVP_REFUSED_HEAD_SHORT);
    expect("a row without words", evp_shared_row(sheet, sheet_bytes, owners, 3, NULL, 0, 1, 0).number,
           EVP_REFUSED_ROOM);
    expect("the totals of nothing shared", evp_shared_totals(NULL, 0, NULL, 0, NULL, 0, 0).number,
           EVP_REFUSED_HEAD_SHORT);
}

/* Every number has a text of its own, and a place of a kind; other numbers have none. */
static void expect_number_texts(void) {
    const char *const no_number = evp_number_text(UINT64_MAX);
    for (uint64_t number = 0; number <= EVP_REFUSED_DIFFER; number++) {
        expect("the text of a number", strlen(evp_number_text(number)) > 5 && evp_number_text(number) != no_number, 1);
        for (uint64_t other = 0; other < number; other++)
            expect("the text of another", strcmp(evp_number_text(number), evp_number_text(other)) != 0, 1);
    }
    expect("the text of no number", (uint64_t)strcmp(evp_number_text(EVP_REFUSED_DIFFER + 1), no_number), 0);
    expect("the text of 0", (uint64_t)strcmp(evp_number_text(0), "accepted"), 0);
    expect("the place of 0", strlen(evp_place_text(0, 0)), 0);
    expect("the place of a room", (uint64_t)strcmp(evp_place_text(EVP_REFUSED_ROOM, 0), "call"), 0);
    expect("the place of a share", (uint64_t)strcmp(evp_place_text(EVP_REFUSED_SHARE, 0), "call"), 0);
    expect("the place of a row's share", (uint64_t)strcmp(evp_place_text(EVP_REFUSED_SHARE, 112), "row"), 0);
}

static void expect_names(void) {
    static const uint64_t canisters[] = {0, 1, 2, 3, 255};
    for (uint64_t i = 0; i < 12; i++) {
        expect("a class", evp_class_text(i)[0] != 0, i >= 1 && i <= 9);
        expect("a technology", evp_technology_text(i)[0] != 0, i <= 5);
        expect("a mechanism", evp_mechanism_text(i)[0] != 0, i <= 2);
        expect("a line", evp_line_text(i)[0] != 0, i <= 4);
    }
    for (size_t i = 0; i < sizeof canisters / sizeof canisters[0]; i++)
        expect("a canister", evp_canister_text(canisters[i])[0] != 0, 1);
    expect("no canister's code", strlen(evp_canister_text(4)), 0);
    expect("class 9", (uint64_t)strcmp(evp_class_text(9), "four-stroke above 750 cm3"), 0);
    expect("technology 5", (uint64_t)strcmp(evp_technology_text(5), "Euro 5"), 0);
}

/* Each byte of a small sheet set to each of four values: where that is refused, the record at the place is the one that
 * evp_explain names, and the kind of place is a season or a row where there is one. */
static void expect_records(unsigned version) {
    static const uint8_t values[] = {0, 1, 101, 255};
    sheet_bytes = make_sheet(sheet, version, 12, 3);
    for (size_t at = 0; at < sheet_bytes; at++) {
        const uint8_t kept = sheet[at];
        for (size_t i = 0; i < sizeof values; i++) {
            sheet[at] = values[i];
            const struct evp_finding found = evp_explain(sheet, sheet_bytes);
            const struct evp_check check = evp_check_sheet(sheet, sheet_bytes);
            const char *kind = evp_place_text(found.number, found.place);
            const uint64_t record = strcmp(kind, "season") == 0 || strcmp(kind, "row") == 0 ? found.index + 1 : 0;
            expect("the number explained", found.number, check.number);
            expect("the place explained", found.place, check.place);
            expect("a record", evp_place_record(sheet, sheet_bytes, found.number, found.place), record);
        }
        sheet[at] = kept;
    }
    expect("a record of nothing", evp_place_record(NULL, 0, EVP_REFUSED_TANK, 200), 0);
    expect("no record of a share", evp_place_record(sheet, sheet_bytes, EVP_REFUSED_SHARE, 0), 0);
    expect("the record of a share", evp_place_record(sheet, sheet_bytes, EVP_REFUSED_SHARE, sheet_bytes - 48), 2);
}

static void expect_texts(void) {
    expect_number_texts();
    expect_names();
    expect_records(1);
    expect_records(4);
    expect("the version", evp_library_version(), EVP_HEADER_VERSION);
    expect("version 1.1.0", EVP_HEADER_VERSION, 1001000);
}

/* All of it; 0 where a file cannot be read. */
static int expect_all(char **paths) {
    if (!read_sheet(paths[1]))
        return 0;
    expect_example();
    expect_example_text();
    make_grid();
    expect_example();
    put_count(3, 3);
    expect_example();
    put_count(3, 4);
    expect_example();
    if (!read_sheet(paths[2]))
        return 0;
    expect_sheet_species();
    expect_table(EVP_LISTS_END);
    make_grid();
    expect_table(EVP_GRID_END);
    put_count(3, 3);
    expect_table(EVP_GRID_END);
    expect_row_count(3, EVP_REFUSED_HEAD_ZERO, 7);
    put_count(3, 4);
    expect_table(EVP_GRID_END);
    expect_row_count(4, EVP_REFUSED_LENGTH, 0);
    expect_grid_refusals();
    if (!read_sheet(paths[3]))
        return 0;
    expect_odometer();
    expect_all_species();
    if (!read_sheet(paths[2]))
        return 0;
    expect_row_cells();
    expect_cells();
    expect_ledger(EVP_LISTS_END);
    expect_shared(EVP_LISTS_END);
    expect_shared_nulls(EVP_LISTS_END + 8);
    make_grid();
    put_count(3, 4);
    expect_ledger(EVP_GRID_END);
    expect_shared(EVP_GRID_END);
    first_bytes = read_file(paths[4], first);
    second_bytes = read_file(paths[5], second);
    pooled_bytes = read_file(paths[6], pooled);
    if (first_bytes == 0 || second_bytes == 0 || pooled_bytes == 0)
        return 0;
    expect_pools();
    expect_nulls();
    expect_marks();
    if (!read_sheet(paths[2]))
        return 0;
    expect_findings();
    expect_texts();
    return 1;
}

/* The bits of the machine's control register that take the smallest doubles for 0, handed in and given back. */
#define DENORMALS_ARE_ZERO 0x0040u
#define FLUSH_TO_ZERO 0x8000u

static const struct {
    int rounding;
    unsigned zeroed;
    const char *name;
} modes[] = {
    {FE_TONEAREST, 0, ""}, {FE_DOWNWARD, 0, "rounding downward, "}, {FE_UPWARD, 0, "rounding upward, "},
    {FE_TOWARDZERO, 0, "rounding to zero, "},
    {FE_TONEAREST, DENORMALS_ARE_ZERO | FLUSH_TO_ZERO, "smallest doubles as 0, "},
    {FE_UPWARD, DENORMALS_ARE_ZERO | FLUSH_TO_ZERO, "rounding upward, smallest doubles as 0, "},
};

int main(int count, char **paths) {
    const size_t all = sizeof modes / sizeof modes[0];
    if (count != 7) {
        fprintf(stderr, "usage: test EXAMPLE.evp TABLE-3-5-DAY.evp ODOMETER.evp NORTH.evp SOUTH.evp POOLED\n");
        return 2;
    }
    for (size_t i = 0; i < all; i++) {
        mode = modes[i].name;
        fesetround(modes[i].rounding);
        _mm_setcsr((_mm_getcsr() & ~(DENORMALS_ARE_ZERO | FLUSH_TO_ZERO)) | modes[i].zeroed);
        if (!expect_all(paths))
            return 2;
    }
    printf("the calls from C in %zu modes of the machine: %d answers held, %d not as expected\n", all, checked,
           mismatches);
    return mismatches != 0;
}
