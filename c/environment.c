/* The calls for cells in every rounding mode of the machine, and with its smallest doubles taken for 0 as in a
 * program that is linked with -ffast-math: each answer is the same as in the usual mode, bit by bit. */
#include <fenv.h>
#include <inttypes.h>
#include <stdio.h>
#include <string.h>
#include <xmmintrin.h>

#include "evaporation.h"

/* The bits of the machine's control register that take the smallest doubles for 0, handed in and given back. */
#define DENORMALS_ARE_ZERO 0x0040u
#define FLUSH_TO_ZERO 0x8000u

static int failures = 0;

static uint64_t bits_of(double x) {
    uint64_t bits;
    memcpy(&bits, &x, sizeof bits);
    return bits;
}

static double double_of(uint64_t bits) {
    double x;
    memcpy(&x, &bits, sizeof x);
    return x;
}

static void expect(const char *mode, const char *what, uint64_t found, uint64_t wanted) {
    if (found != wanted) {
        printf("%s: %s is %" PRIx64 ", expected %" PRIx64 "\n", mode, what, found, wanted);
        failures++;
    }
}

/* Zeros of both signs, the largest sum, and a row with a low of 0. */
static void expect_sums(const char *mode) {
    const struct evp_cell plus = {EVP_CELL_BAND, 0.0, 7.0}, minus = {EVP_CELL_BAND, -0.0, 7.0};
    const struct evp_cell one = {EVP_CELL_EXACT, 1.0, 1.0};
    const struct evp_cell most = {EVP_CELL_EXACT, 9007199254740991.0, 9007199254740991.0};
    struct evp_cell_sum sum = evp_add_cells(plus, minus);
    expect(mode, "the number of 0 and -0", sum.number, EVP_ACCEPTED);
    expect(mode, "the low of 0 and -0", bits_of(sum.cell.low), bits_of(0.0));
    expect(mode, "the high of 7 and 7", bits_of(sum.cell.high), bits_of(14.0));
    sum = evp_add_cells(most, one);
    expect(mode, "the largest sum", bits_of(sum.cell.high), bits_of(9007199254740992.0));
    const struct evp_row_words words = {0, 5, 0, 0, 0, 0};
    const struct evp_travel travel = {1, 1, 1, 1, 1, 1};
    struct evp_row_cells row = evp_cells_of_row(words, travel);
    expect(mode, "the low of a row", bits_of(row.urban.low), bits_of(0.0));
    expect(mode, "the high of a row", bits_of(row.urban.high), bits_of(5.0));
}

/* Doubles that are not 0 but very small, of both signs, and a half: none is a whole number of milligrams. */
static void expect_fractions(const char *mode) {
    static const uint64_t fractions[] = {1, 0x000fffffffffffff, 0x8000000000000001, 0x0010000000000000,
                                         0x3fe0000000000000};
    const struct evp_cell one = {EVP_CELL_EXACT, 1.0, 1.0};
    for (size_t i = 0; i < sizeof fractions / sizeof fractions[0]; i++) {
        const double x = double_of(fractions[i]);
        const struct evp_cell low = {EVP_CELL_BAND, x, 7.0}, mass = {EVP_CELL_EXACT, x, x};
        expect(mode, "the number of a fraction as low", evp_add_cells(low, one).number, EVP_REFUSED_CELL);
        expect(mode, "the number of a fraction as mass", evp_add_cells(mass, one).number, EVP_REFUSED_CELL);
    }
}

int main(void) {
    static const struct {
        int mode;
        const char *name;
    } modes[] = {
        {FE_TONEAREST, "to nearest"}, {FE_DOWNWARD, "downward"}, {FE_UPWARD, "upward"}, {FE_TOWARDZERO, "to zero"},
    };
    const unsigned usual = _mm_getcsr();
    for (int zeroed = 0; zeroed < 2; zeroed++) {
        for (size_t i = 0; i < sizeof modes / sizeof modes[0]; i++) {
            char mode[64];
            snprintf(mode, sizeof mode, "rounding %s%s", modes[i].name, zeroed ? ", smallest doubles as 0" : "");
            fesetround(modes[i].mode);
            _mm_setcsr((_mm_getcsr() & ~(DENORMALS_ARE_ZERO | FLUSH_TO_ZERO))
                       | (zeroed ? DENORMALS_ARE_ZERO | FLUSH_TO_ZERO : 0));
            expect_sums(mode);
            expect_fractions(mode);
        }
    }
    fesetround(FE_TONEAREST);
    _mm_setcsr(usual);
    printf("cells in 8 modes of the machine: %d failures\n", failures);
    return failures != 0;
}
