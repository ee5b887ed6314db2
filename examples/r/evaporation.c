/* For R's .C, which passes pointers alone and has no whole numbers of 64 bits: a sheet's total and what is wrong with
 * it, as doubles, which are exact up to 2^53. `found` is number, place, low, high, value, least and most. */
#include <evaporation.h>

void evaporation_first(const unsigned char *sheet, const int *sheet_bytes, double *found, char **text) {
    static uint64_t words[EVP_WORDS]; /* R makes one call at a time */
    const size_t bytes = (size_t)*sheet_bytes, count = evp_report_words(sheet, bytes);
    struct evp_finding why;
    uint64_t place;
    found[0] = (double)evp_report_to(sheet, bytes, words, EVP_WORDS, &place);
    found[1] = (double)place;
    found[2] = count ? (double)words[count - 2] : 0;
    found[3] = count ? (double)words[count - 1] : 0;
    evp_explain_to(sheet, bytes, &why);
    found[4] = (double)why.value;
    found[5] = (double)why.least;
    found[6] = (double)why.most;
    evp_number_text_to(why.number, *text, 128);
}
