/* A first report: reads a sheet, prints its sums in kg, or says why it is refused. usage: example SHEET.evp */
#include <inttypes.h>
#include <stdio.h>

#include "evaporation.h"

static uint8_t sheet[EVP_SHEET_BYTES + 1]; /* one byte more than the longest: a longer file is refused by its length */
static uint64_t words[EVP_WORDS];

/* A low and a high in kg, cut down and up to whole grams, so that the exact mass stays between them. */
static void print_band(const uint64_t *band) {
    const uint64_t low = band[0] / 1000, high = (band[1] + 999) / 1000;
    printf(" %8" PRIu64 ".%03" PRIu64 " to %8" PRIu64 ".%03" PRIu64, low / 1000, low % 1000, high / 1000, high % 1000);
}

static void print_refusal(const char *name, size_t bytes, struct evp_check check) {
    const uint64_t record = evp_place_record(sheet, bytes, check.number, check.place);
    printf("%s: refused %" PRIu64 " at byte %" PRIu64 ", ", name, check.number, check.place);
    if (record != 0)
        printf("%s %" PRIu64 ": ", evp_place_text(check.number, check.place), record);
    printf("%s\n", evp_number_text(check.number));
}

static void print_report(const char *name, size_t rows) {
    const uint64_t *sums = words + 6 * rows;
    printf("%s: accepted, %zu row%s; kg in all seasons, the exact mass in between\n", name, rows, rows == 1 ? "" : "s");
    printf("%-12s", "");
    for (uint64_t mechanism = 0; mechanism < 3; mechanism++)
        printf(" %28s", evp_mechanism_text(mechanism));
    for (uint64_t line = 0; line < 4; line++) { /* six words each: low and high of each mechanism */
        printf("\n%-12s", evp_line_text(line));
        for (size_t i = 0; i < 6; i += 2)
            print_band(sums + 6 * line + i);
    }
    printf("\n%-12s", evp_line_text(4));
    print_band(sums + 24);
    printf("\n");
}

int main(int count, char **arguments) {
    FILE *file = count == 2 ? fopen(arguments[1], "rb") : NULL;
    if (file == NULL) {
        fprintf(stderr, "%s\n", count == 2 ? "the sheet cannot be opened" : "usage: example SHEET.evp");
        return 2;
    }
    const size_t bytes = fread(sheet, 1, sizeof sheet, file);
    fclose(file);
    const struct evp_check check = evp_report(sheet, bytes, words, EVP_WORDS);
    if (check.number != EVP_ACCEPTED) {
        print_refusal(arguments[1], bytes, check);
        return 1;
    }
    print_report(arguments[1], (evp_report_words(sheet, bytes) - EVP_WORDS_OF(0)) / 6);
    return 0;
}
