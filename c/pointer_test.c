/* Every pointer form of the header against its call: on each sheet that is named, as it is, cut, with bytes changed,
   and with rows, seasons, rooms and owners that are refused. A call and its form get the same buffers, two copies, which
   must have the same bytes after them too. Usage: pointer_test SHEET.evp..; exit status 1 where one differs, or where a
   form was never accepted or never refused. */
#include <inttypes.h>
#include <stdio.h>
#include <string.h>

#include "evaporation.h"

enum { CHANGES = 60, UNTOUCHED = 0x5a };

/* All that a call is handed. */
struct buffers {
    uint8_t sheet[EVP_SHEET_BYTES + 1], second[EVP_SHEET_BYTES + 1], pool[EVP_SHEET_BYTES], owners[1000];
    uint8_t text[EVP_TEXT_BYTES];
    uint64_t words[EVP_FACTOR_WORDS];
};

static struct buffers one, other, begin;
static size_t bytes, second_bytes;
static uint64_t compared, failures;

struct form {
    const char *name;
    uint64_t accepted, refused;
};
static struct form forms[32];

/* Counts an answer of a form. */
static void seen(const char *name, int same, int accepted) {
    struct form *form = forms;
    while (form->name != NULL && strcmp(form->name, name) != 0)
        form++;
    form->name = name;
    form->accepted += accepted != 0;
    form->refused += accepted == 0;
    compared++;
    if (!same || memcmp(&one, &other, sizeof one) != 0) {
        failures++;
        printf("%s: its pointer form differs\n", name);
    }
}

/* A call of two numbers on one copy, and its form on the other; `b` is the copy. */
#define TWO(call, type, first, last, ...) do { \
        struct buffers *b = &one; \
        const struct type is = call(__VA_ARGS__); \
        uint64_t written = UNTOUCHED; \
        b = &other; \
        const uint64_t number = call##_to(__VA_ARGS__, &written); \
        seen(#call, number == is.first && written == is.last, number == 0); \
    } while (0)
#define CHECK(call, ...) TWO(call, evp_check, number, place, __VA_ARGS__)

/* The same of a larger answer. */
#define WHOLE(call, type, ...) do { \
        struct buffers *b = &one; \
        const struct type is = call(__VA_ARGS__); \
        struct type written; \
        memset(&written, UNTOUCHED, sizeof written); \
        b = &other; \
        const uint64_t number = call##_to(__VA_ARGS__, &written); \
        seen(#call, number == is.number && memcmp(&written, &is, sizeof is) == 0, number == 0); \
    } while (0)

static void copies(void) { memcpy(&one, &begin, sizeof one), memcpy(&other, &begin, sizeof other); }

/* The calls that make a report or a factor, with so many words. */
static void reports(size_t words, uint64_t season, uint64_t row) {
    CHECK(evp_check_sheet, b->sheet, bytes);
    CHECK(evp_report, b->sheet, bytes, b->words, words);
    WHOLE(evp_text, evp_text_check, b->sheet, bytes, b->words, words, b->text, sizeof b->text);
    WHOLE(evp_text, evp_text_check, b->sheet, bytes, b->words, words, b->text, 15);
    WHOLE(evp_factor, evp_factor_band, b->sheet, bytes, season, row, 1 + row % 8);
    WHOLE(evp_row_factors, evp_factor_bands, b->sheet, bytes, season, row);
    WHOLE(evp_species_of, evp_composition, b->sheet, bytes, b->words, words);
    CHECK(evp_factors, b->sheet, bytes, b->words, words);
    CHECK(evp_report_seasons, b->sheet, bytes, b->words, words);
    CHECK(evp_species, begin.sheet[bytes / 2] * UINT64_C(987654321), b->words, words % 40);
    WHOLE(evp_explain, evp_finding, b->sheet, bytes);
    WHOLE(evp_pool, evp_pool_check, b->sheet, bytes, b->second, second_bytes, b->pool, sizeof b->pool);
}

/* The calls that change a sheet; `b->words` has a report where the sheet is accepted. */
static void ledgers(uint64_t who, uint64_t row, uint64_t vehicles) {
    copies();
    CHECK(evp_shared_open, b->sheet, bytes, b->owners, who == 3 ? 1 : 1000, b->words, EVP_WORDS);
    CHECK(evp_arrive, b->sheet, bytes, b->words, EVP_WORDS, row, vehicles);
    CHECK(evp_depart, b->sheet, bytes, b->words, EVP_WORDS, row, vehicles);
    CHECK(evp_shared_arrive, b->sheet, bytes, b->owners, 1000, b->words, EVP_WORDS, who, row, vehicles);
    CHECK(evp_shared_depart, b->sheet, bytes, b->owners, 1000, b->words, EVP_WORDS, who, row, vehicles);
    WHOLE(evp_shared_row, evp_row, b->sheet, bytes, b->owners, 1000, b->words, EVP_WORDS, who, row);
    WHOLE(evp_shared_totals, evp_totals, b->sheet, bytes, b->owners, 1000, b->words, EVP_WORDS, who);
}

/* The calls that take a struct: their forms take a pointer to it. */
static void structs(const uint64_t *word, uint64_t town) {
    const struct evp_row_words row = {word[0], word[1], word[2], word[3], word[4], word[5]};
    const struct evp_travel travel = {town, 4, 3, 2, 60, 100};
    const struct evp_row_cells cells = evp_cells_of_row(row, travel);
    const struct evp_cell_sum sum = evp_add_cells(cells.urban, cells.rural);
    const struct evp_filed filed = {word[0] / 1000, town, EVP_UNIT_GRAM};
    const struct evp_verdict verdict = evp_mark(filed, word[0], word[1]);
    struct evp_row_cells cells_written;
    struct evp_cell_sum sum_written;
    uint64_t number, off = UNTOUCHED;
    memset(&cells_written, UNTOUCHED, sizeof cells_written);
    memset(&sum_written, UNTOUCHED, sizeof sum_written);
    number = evp_cells_of_row_to(&row, &travel, &cells_written);
    seen("evp_cells_of_row", number == cells.number && memcmp(&cells_written, &cells, sizeof cells) == 0, number == 0);
    number = evp_add_cells_to(&cells.urban, &cells.rural, &sum_written);
    seen("evp_add_cells", number == sum.number && memcmp(&sum_written, &sum, sizeof sum) == 0, number == 0);
    number = evp_mark_to(&filed, word[0], word[1], &off);
    seen("evp_mark", number == verdict.verdict && off == verdict.off, number == EVP_VERDICT_AGREES);
}

/* Null for what is written last; the texts, cut too. */
static void rest(void) {
    char text[128];
    copies();
    seen("null", evp_report_to(begin.sheet, bytes, one.words, EVP_WORDS, NULL) == EVP_ACCEPTED
         && evp_report(begin.sheet, bytes, other.words, EVP_WORDS).number == EVP_ACCEPTED, 1);
    seen("null", evp_explain_to(begin.sheet, bytes - 1, NULL) == EVP_REFUSED_LENGTH, 0);
    for (uint64_t number = 0; number < 40; number++) {
        const char *whole = evp_number_text(number);
        const size_t length = evp_number_text_to(number, text, sizeof text);
        seen("evp_number_text", length == strlen(whole) && strcmp(text, whole) == 0, number == 0);
        text[4] = UNTOUCHED;
        seen("evp_number_text", evp_number_text_to(number, text, 4) == length && strncmp(text, whole, 3) == 0
             && text[3] == 0 && text[4] == UNTOUCHED && evp_number_text_to(number, NULL, 0) == length, number == 0);
    }
}

static void sheet_compared(void) {
    static uint64_t word[6];
    const uint64_t rows = (evp_report_words(begin.sheet, bytes) - EVP_WORDS_OF(0)) / 6;
    copies();
    reports(EVP_FACTOR_WORDS, begin.sheet[5] - 1u, rows - 1);
    reports(EVP_WORDS_OF(rows) - 1, 0, 0);
    reports(0, begin.sheet[5], rows);
    bytes--;
    reports(EVP_WORDS, 0, 0);
    bytes++;
    for (uint64_t who = 0; who <= 9; who++)
        for (uint64_t row = 0; row <= rows; row += rows)
            ledgers(who, row, 1 + who * who * who * UINT64_C(100000));
    evp_report(begin.sheet, bytes, one.words, EVP_WORDS);
    memcpy(word, one.words, sizeof word);
    copies();
    for (uint64_t town = 0; town < 3; town++)
        structs(word, town);
    rest();
}

/* A byte changed at a time: many are refused, each by a number of its own. */
static void changes_compared(void) {
    for (size_t i = 0; i < CHANGES; i++) {
        const size_t at = i < 8 ? i : bytes - 1 - (i * 37) % (bytes < 150 ? bytes : 150);
        const uint8_t was = begin.sheet[at];
        begin.sheet[at] = (uint8_t)(was ^ (1u << i % 8) ^ (i % 3 == 0 ? 0xff : 0));
        copies();
        CHECK(evp_report, b->sheet, bytes, b->words, EVP_WORDS);
        WHOLE(evp_explain, evp_finding, b->sheet, bytes);
        begin.sheet[at] = was;
    }
}

static size_t read_file(const char *path, uint8_t *into) {
    FILE *file = fopen(path, "rb");
    size_t count = 0;
    if (file != NULL) {
        count = fread(into, 1, EVP_SHEET_BYTES + 1, file);
        fclose(file);
    }
    return count;
}

int main(int count, char **paths) {
    memset(begin.text, UNTOUCHED, sizeof begin.text);
    memset(begin.words, UNTOUCHED, sizeof begin.words);
    for (size_t i = 0; i < sizeof begin.owners; i++)
        begin.owners[i] = (uint8_t)(1 + i % 8);
    for (int i = 1; i < count; i++) {
        bytes = read_file(paths[i], begin.sheet);
        second_bytes = read_file(paths[i], begin.second);
        if (bytes < 8 || evp_report_words(begin.sheet, bytes) == 0) {
            printf("%s: no sheet that is accepted\n", paths[i]);
            return 1;
        }
        sheet_compared();
        changes_compared();
    }
    for (const struct form *form = forms; form->name != NULL; form++)
        if (form->accepted == 0 || form->refused == 0) {
            printf("%s: %" PRIu64 " answers accepted, %" PRIu64 " refused\n", form->name, form->accepted, form->refused);
            failures++;
        }
    printf("pointer forms: %" PRIu64 " answers compared with their calls, %" PRIu64 " failures\n", compared, failures);
    return failures != 0 || count < 2;
}
