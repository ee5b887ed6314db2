/* Every call as a function without arguments, for the programs that measure what a call takes: on a sheet of any size,
 * and, where two sheets are pooled and where participants share one, on one with half of its rows. make_sheets comes
 * first. */
#ifndef EVERY_H
#define EVERY_H

#include "evaporation.h"
#include "largest.h"

static uint8_t sheet[EVP_SHEET_BYTES], half[EVP_SHEET_BYTES], pooled[EVP_SHEET_BYTES];
static uint8_t text[EVP_TEXT_BYTES], owners[1000];
static uint64_t words[EVP_WORDS], many[EVP_FACTOR_WORDS], milligrams[EVP_SPECIES_COUNT];
static size_t sheet_bytes, half_bytes;
static unsigned seasons, rows; /* of the sheet */

/* Each answers a number that is 0 where the call is answered as it should be. */
static uint64_t check_sheet(void) { return evp_check_sheet(sheet, sheet_bytes).number; }
static uint64_t report_words(void) { return evp_report_words(sheet, sheet_bytes) - EVP_WORDS_OF(rows); }
static uint64_t report(void) { return evp_report(sheet, sheet_bytes, words, EVP_WORDS).number; }
static uint64_t report_text(void) {
    return evp_text(sheet, sheet_bytes, words, EVP_WORDS, text, EVP_TEXT_BYTES).number;
}
/* the seven of ten rows */
static uint64_t factor(void) {
    uint64_t refused = 0;
    for (uint64_t i = 0; i < 10; i++)
        for (uint64_t k = 1; k <= 7; k++)
            refused |= evp_factor(sheet, sheet_bytes, seasons - 1, i * rows / 10, k).number;
    return refused;
}
/* all factors of ten rows */
static uint64_t row_factors(void) {
    uint64_t refused = 0;
    for (uint64_t i = 0; i < 10; i++)
        refused |= evp_row_factors(sheet, sheet_bytes, seasons - 1, i * rows / 10).number;
    return refused;
}
static uint64_t factors(void) { return evp_factors(sheet, sheet_bytes, many, EVP_FACTOR_WORDS).number; }
static uint64_t report_seasons(void) { return evp_report_seasons(sheet, sheet_bytes, many, EVP_FACTOR_WORDS).number; }
static uint64_t species(void) { return evp_species(UINT64_MAX, milligrams, EVP_SPECIES_COUNT).number; }
static uint64_t species_of(void) { return evp_species_of(sheet, sheet_bytes, words, EVP_WORDS).number; }
static uint64_t cells_of_row(void) {
    const struct evp_row_words row = {1, 2, 3, 4, 5, EVP_MASS_LIMIT / 4};
    const struct evp_travel travel = {1, 1000000, 999999, 999998, 999997, 999996};
    return evp_cells_of_row(row, travel).number;
}
static uint64_t add_cells(void) {
    const struct evp_cell cell = {EVP_CELL_BAND, 3.0, 1e15};
    return evp_add_cells(cell, cell).number;
}
static uint64_t arrive(void) { return evp_arrive(sheet, sheet_bytes, words, EVP_WORDS, rows - 1, 9).number; }
static uint64_t depart(void) { return evp_depart(sheet, sheet_bytes, words, EVP_WORDS, rows - 1, 9).number; }
static uint64_t pool(void) {
    const struct evp_pool_check answer = evp_pool(half, half_bytes, half, half_bytes, pooled, EVP_SHEET_BYTES);
    return half[3] == 4 ? answer.bytes - sheet_bytes : answer.number - EVP_REFUSED_VERSION;
}
static uint64_t shared_open(void) {
    return evp_shared_open(half, half_bytes, owners, rows / 2, words, EVP_WORDS).number;
}
static uint64_t shared_arrive(void) {
    return evp_shared_arrive(half, half_bytes, owners, rows / 2, words, EVP_WORDS, 1, 0, 9).number;
}
static uint64_t shared_depart(void) {
    return evp_shared_depart(half, half_bytes, owners, rows / 2, words, EVP_WORDS, 1, 0, 9).number;
}
static uint64_t shared_row(void) {
    return evp_shared_row(half, half_bytes, owners, rows / 2, words, EVP_WORDS, 0, rows / 2 - 1).number;
}
static uint64_t shared_totals(void) {
    return evp_shared_totals(half, half_bytes, owners, rows / 2, words, EVP_WORDS, 0).number;
}
/* of a sheet whose last canister has too large a saturating load: all before it is read, and the largest is sought */
static uint64_t explain(void) {
    uint8_t *row = sheet + sheet_bytes - 24, kept;
    uint64_t number;
    while (row[2] == 0)
        row -= 24;
    kept = row[19];
    row[19] = 255;
    number = evp_explain(sheet, sheet_bytes).number;
    row[19] = kept;
    return number ^ EVP_REFUSED_EXPONENT;
}
static uint64_t mark(void) {
    const struct evp_filed filed = {999999999999999999, 6, EVP_UNIT_MILLIGRAM};
    return evp_mark(filed, 0, UINT64_MAX).verdict - EVP_VERDICT_FITS;
}
static uint64_t library_version(void) { return evp_library_version() - EVP_HEADER_VERSION; }

/* In an order in which each finds what it needs: a shared ledger is opened before it is changed. */
static const struct {
    const char *name;
    uint64_t (*call)(void);
    unsigned times; /* how often the function makes the call */
} calls[] = {
    {"evp_library_version", library_version, 1}, {"evp_check_sheet", check_sheet, 1},
    {"evp_report_words", report_words, 1}, {"evp_report", report, 1}, {"evp_text", report_text, 1},
    {"evp_factor", factor, 70}, {"evp_row_factors", row_factors, 10}, {"evp_factors", factors, 1},
    {"evp_report_seasons", report_seasons, 1}, {"evp_species", species, 1}, {"evp_species_of", species_of, 1},
    {"evp_cells_of_row", cells_of_row, 1}, {"evp_add_cells", add_cells, 1}, {"evp_arrive", arrive, 1},
    {"evp_depart", depart, 1}, {"evp_pool", pool, 1}, {"evp_shared_open", shared_open, 1},
    {"evp_shared_arrive", shared_arrive, 1}, {"evp_shared_depart", shared_depart, 1},
    {"evp_shared_row", shared_row, 1}, {"evp_shared_totals", shared_totals, 1}, {"evp_explain", explain, 1},
    {"evp_mark", mark, 1},
};

#define CALLS (sizeof calls / sizeof calls[0])

/* Ten rows or more, so that some have a canister. */
static void make_sheets(unsigned version, unsigned of_seasons, unsigned of_rows) {
    seasons = of_seasons;
    rows = of_rows;
    sheet_bytes = make_sheet(sheet, version, seasons, rows);
    half_bytes = make_sheet(half, version, seasons, rows / 2);
    for (size_t i = 0; i < sizeof owners; i++)
        owners[i] = (uint8_t)(i % 8 + 1);
}

#endif
