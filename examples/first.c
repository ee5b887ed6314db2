/* The total of the sheet on standard input, or why it is refused. */
#include <evaporation.h>
#include <inttypes.h>
#include <stdio.h>

static uint8_t sheet[EVP_SHEET_BYTES + 1]; /* a longer input is refused by its length */
static uint64_t words[EVP_WORDS];

int main(void) {
    size_t bytes = fread(sheet, 1, sizeof sheet, stdin), count = evp_report_words(sheet, bytes);
    struct evp_check answer = evp_report(sheet, bytes, words, EVP_WORDS);
    if (answer.number == EVP_ACCEPTED)
        printf("total %" PRIu64 " to %" PRIu64 " mg\n", words[count - 2], words[count - 1]);
    else
        printf("refused %" PRIu64 " at %" PRIu64 ": %s\n", answer.number, answer.place, evp_number_text(answer.number));
    return answer.number != EVP_ACCEPTED;
}
