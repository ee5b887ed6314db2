// The total of the sheet on standard input, or why it is refused.
#include <cstdint>
#include <evaporation.h>
#include <iostream>
#include <iterator>
#include <vector>

int main() {
    const std::vector<std::uint8_t> sheet{std::istreambuf_iterator<char>(std::cin), {}};
    std::vector<std::uint64_t> words(evp_report_words(sheet.data(), sheet.size())); // none where the sheet is refused
    const evp_check answer = evp_report(sheet.data(), sheet.size(), words.data(), words.size());
    if (answer.number == EVP_ACCEPTED)
        std::cout << "total " << words.end()[-2] << " to " << words.end()[-1] << " mg\n";
    else
        std::cout << "refused " << answer.number << " at " << answer.place << ": "
                  << evp_number_text(answer.number) << "\n";
    return answer.number != EVP_ACCEPTED;
}
