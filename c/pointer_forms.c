/* The pointer forms of include/evaporation.h, thin C over the calls. `python3 -m tools.make pointers` writes this file
 * from the header. */
#include "evaporation.h"

uint64_t evp_check_sheet_to(const uint8_t *sheet, size_t sheet_bytes, uint64_t *place) {
    const struct evp_check answer = evp_check_sheet(sheet, sheet_bytes);
    if (place != NULL)
        *place = answer.place;
    return answer.number;
}

uint64_t evp_report_to(const uint8_t *sheet, size_t sheet_bytes, uint64_t *words, size_t words_count, uint64_t *place) {
    const struct evp_check answer = evp_report(sheet, sheet_bytes, words, words_count);
    if (place != NULL)
        *place = answer.place;
    return answer.number;
}

uint64_t evp_text_to(const uint8_t *sheet, size_t sheet_bytes, uint64_t *words, size_t words_count, uint8_t *text,
                     size_t text_bytes, struct evp_text_check *answer) {
    const struct evp_text_check found = evp_text(sheet, sheet_bytes, words, words_count, text, text_bytes);
    if (answer != NULL)
        *answer = found;
    return found.number;
}

uint64_t evp_factor_to(const uint8_t *sheet, size_t sheet_bytes, uint64_t season, uint64_t row, uint64_t factor,
                       struct evp_factor_band *answer) {
    const struct evp_factor_band found = evp_factor(sheet, sheet_bytes, season, row, factor);
    if (answer != NULL)
        *answer = found;
    return found.number;
}

uint64_t evp_row_factors_to(const uint8_t *sheet, size_t sheet_bytes, uint64_t season, uint64_t row,
                            struct evp_factor_bands *answer) {
    const struct evp_factor_bands found = evp_row_factors(sheet, sheet_bytes, season, row);
    if (answer != NULL)
        *answer = found;
    return found.number;
}

uint64_t evp_factors_to(const uint8_t *sheet, size_t sheet_bytes, uint64_t *words, size_t words_count,
                        uint64_t *place) {
    const struct evp_check answer = evp_factors(sheet, sheet_bytes, words, words_count);
    if (place != NULL)
        *place = answer.place;
    return answer.number;
}

uint64_t evp_report_seasons_to(const uint8_t *sheet, size_t sheet_bytes, uint64_t *words, size_t words_count,
                               uint64_t *place) {
    const struct evp_check answer = evp_report_seasons(sheet, sheet_bytes, words, words_count);
    if (place != NULL)
        *place = answer.place;
    return answer.number;
}

uint64_t evp_species_to(uint64_t total, uint64_t *milligrams, size_t count, uint64_t *place) {
    const struct evp_check answer = evp_species(total, milligrams, count);
    if (place != NULL)
        *place = answer.place;
    return answer.number;
}

uint64_t evp_species_of_to(const uint8_t *sheet, size_t sheet_bytes, uint64_t *words, size_t words_count,
                           struct evp_composition *answer) {
    const struct evp_composition found = evp_species_of(sheet, sheet_bytes, words, words_count);
    if (answer != NULL)
        *answer = found;
    return found.number;
}

uint64_t evp_cells_of_row_to(const struct evp_row_words *words, const struct evp_travel *travel,
                             struct evp_row_cells *answer) {
    const struct evp_row_cells found = evp_cells_of_row(*words, *travel);
    if (answer != NULL)
        *answer = found;
    return found.number;
}

uint64_t evp_add_cells_to(const struct evp_cell *a, const struct evp_cell *b, struct evp_cell_sum *answer) {
    const struct evp_cell_sum found = evp_add_cells(*a, *b);
    if (answer != NULL)
        *answer = found;
    return found.number;
}

uint64_t evp_arrive_to(uint8_t *sheet, size_t sheet_bytes, uint64_t *words, size_t words_count, uint64_t row,
                       uint64_t vehicles, uint64_t *place) {
    const struct evp_check answer = evp_arrive(sheet, sheet_bytes, words, words_count, row, vehicles);
    if (place != NULL)
        *place = answer.place;
    return answer.number;
}

uint64_t evp_depart_to(uint8_t *sheet, size_t sheet_bytes, uint64_t *words, size_t words_count, uint64_t row,
                       uint64_t vehicles, uint64_t *place) {
    const struct evp_check answer = evp_depart(sheet, sheet_bytes, words, words_count, row, vehicles);
    if (place != NULL)
        *place = answer.place;
    return answer.number;
}

uint64_t evp_pool_to(const uint8_t *first, size_t first_bytes, const uint8_t *second, size_t second_bytes,
                     uint8_t *pool, size_t pool_bytes, struct evp_pool_check *answer) {
    const struct evp_pool_check found = evp_pool(first, first_bytes, second, second_bytes, pool, pool_bytes);
    if (answer != NULL)
        *answer = found;
    return found.number;
}

uint64_t evp_shared_open_to(const uint8_t *sheet, size_t sheet_bytes, const uint8_t *owners, size_t owners_count,
                            uint64_t *words, size_t words_count, uint64_t *place) {
    const struct evp_check answer = evp_shared_open(sheet, sheet_bytes, owners, owners_count, words, words_count);
    if (place != NULL)
        *place = answer.place;
    return answer.number;
}

uint64_t evp_shared_arrive_to(uint8_t *sheet, size_t sheet_bytes, const uint8_t *owners, size_t owners_count,
                              uint64_t *words, size_t words_count, uint64_t who, uint64_t row, uint64_t vehicles,
                              uint64_t *place) {
    const struct evp_check answer = evp_shared_arrive(sheet, sheet_bytes, owners, owners_count, words, words_count, who,
                                                      row, vehicles);
    if (place != NULL)
        *place = answer.place;
    return answer.number;
}

uint64_t evp_shared_depart_to(uint8_t *sheet, size_t sheet_bytes, const uint8_t *owners, size_t owners_count,
                              uint64_t *words, size_t words_count, uint64_t who, uint64_t row, uint64_t vehicles,
                              uint64_t *place) {
    const struct evp_check answer = evp_shared_depart(sheet, sheet_bytes, owners, owners_count, words, words_count, who,
                                                      row, vehicles);
    if (place != NULL)
        *place = answer.place;
    return answer.number;
}

uint64_t evp_shared_row_to(const uint8_t *sheet, size_t sheet_bytes, const uint8_t *owners, size_t owners_count,
                           const uint64_t *words, size_t words_count, uint64_t who, uint64_t row,
                           struct evp_row *answer) {
    const struct evp_row found = evp_shared_row(sheet, sheet_bytes, owners, owners_count, words, words_count, who, row);
    if (answer != NULL)
        *answer = found;
    return found.number;
}

uint64_t evp_shared_totals_to(const uint8_t *sheet, size_t sheet_bytes, const uint8_t *owners, size_t owners_count,
                              const uint64_t *words, size_t words_count, uint64_t who, struct evp_totals *answer) {
    const struct evp_totals found = evp_shared_totals(sheet, sheet_bytes, owners, owners_count, words, words_count,
                                                      who);
    if (answer != NULL)
        *answer = found;
    return found.number;
}

uint64_t evp_explain_to(const uint8_t *sheet, size_t sheet_bytes, struct evp_finding *answer) {
    const struct evp_finding found = evp_explain(sheet, sheet_bytes);
    if (answer != NULL)
        *answer = found;
    return found.number;
}

uint64_t evp_mark_to(const struct evp_filed *filed, uint64_t low, uint64_t high, uint64_t *off) {
    const struct evp_verdict answer = evp_mark(*filed, low, high);
    if (off != NULL)
        *off = answer.off;
    return answer.verdict;
}

size_t evp_number_text_to(uint64_t number, char *text, size_t text_bytes) {
    const char *whole = evp_number_text(number);
    size_t length = 0;
    for (; whole[length] != 0; length++)
        if (length + 1 < text_bytes)
            text[length] = whole[length];
    if (text_bytes > 0)
        text[length < text_bytes ? length : text_bytes - 1] = 0;
    return length;
}
