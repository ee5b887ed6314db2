// The calls from C++: a report, its text, its species and its factors, a refusal in words, and four threads that make
// the report of one sheet at once. The exit status is 0 only where all is as expected.
//
// usage: cpp SHEET.evp
#include "evaporation.h"

#include <cstdint>
#include <cstdio>
#include <fstream>
#include <iterator>
#include <numeric>
#include <string>
#include <thread>
#include <vector>

using Bytes = std::vector<std::uint8_t>;
using Words = std::vector<std::uint64_t>;

static int failures = 0;

static void expect(const char *what, bool holds) {
    if (!holds) {
        std::printf("%s is not as expected\n", what);
        failures++;
    }
}

static Words report_of(const Bytes &sheet) {
    Words words(evp_report_words(sheet.data(), sheet.size()));
    const evp_check check = evp_report(sheet.data(), sheet.size(), words.data(), words.size());
    expect("a report", check.number == EVP_ACCEPTED && check.place == 0);
    return words;
}

static std::string text_of(const Bytes &sheet) {
    Words words(EVP_WORDS);
    std::vector<std::uint8_t> text(EVP_TEXT_BYTES);
    const evp_text_check answer =
        evp_text(sheet.data(), sheet.size(), words.data(), words.size(), text.data(), text.size());
    expect("a text", answer.number == EVP_ACCEPTED);
    return std::string(text.begin(), text.begin() + static_cast<std::ptrdiff_t>(answer.bytes));
}

static void expect_species(const Bytes &sheet, Words words) {
    const evp_composition found = evp_species_of(sheet.data(), sheet.size(), words.data(), words.size());
    const std::uint64_t sum =
        std::accumulate(std::begin(found.milligrams), std::end(found.milligrams), std::uint64_t{0});
    expect("the total of the species", found.total == words.back());
    expect("the sum of the species", sum == found.total);
}

static void expect_threads(const Bytes &sheet, const Words &words) {
    std::vector<Words> found(4);
    std::vector<std::thread> threads;
    for (Words &each : found)
        threads.emplace_back([&sheet, &each] { each = report_of(sheet); });
    for (std::thread &thread : threads)
        thread.join();
    for (const Words &each : found)
        expect("the report of a thread", each == words);
}

// An empty vector has a null pointer; a sheet without its last byte has another length than its head says.
static void expect_refusals(Bytes sheet) {
    const Bytes nothing;
    expect("nothing", evp_check_sheet(nothing.data(), nothing.size()).number == EVP_REFUSED_HEAD_SHORT);
    sheet.pop_back();
    const evp_check check = evp_check_sheet(sheet.data(), sheet.size());
    const evp_finding finding = evp_explain(sheet.data(), sheet.size());
    expect("a cut sheet", check.number == EVP_REFUSED_LENGTH && finding.number == EVP_REFUSED_LENGTH);
    expect("its length", finding.value + 1 == finding.least);
    expect("its words", std::string(evp_number_text(check.number)).find("length") != std::string::npos);
    expect("its factor", evp_factor(sheet.data(), sheet.size(), 0, 0, 1).number == EVP_REFUSED_LENGTH);
}

int main(int count, char **arguments) {
    if (count != 2) {
        std::fprintf(stderr, "usage: cpp SHEET.evp\n");
        return 2;
    }
    std::ifstream file(arguments[1], std::ios::binary);
    const Bytes sheet{std::istreambuf_iterator<char>(file), std::istreambuf_iterator<char>()};
    const Words words = report_of(sheet);
    if (words.empty())
        return 1;
    expect("the version", evp_library_version() == EVP_HEADER_VERSION);
    expect("its words", words.size() == EVP_WORDS_OF((words.size() - EVP_WORDS_OF(0)) / 6));
    expect("a pool", EVP_POOL_BYTES(sheet.size(), sheet.size(), sheet[5]) > sheet.size());
    const std::string last = "\ntotal " + std::to_string(words[words.size() - 2]);
    expect("the last line", text_of(sheet).find(last) != std::string::npos);
    expect_species(sheet, words);
    expect_threads(sheet, words);
    expect_refusals(sheet);
    std::printf("the calls from C++: %d failures\n", failures);
    return failures != 0;
}
