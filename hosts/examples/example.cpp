// A C++ host: the same steps as example.c.
#include <cstdint>
#include <iostream>
#include <vector>

#include "fanzsoreb.h"

int main()
{
    std::vector<std::uint32_t> book(FANZSOREB_BOOK_WORDS);
    std::uint32_t opened = fanzsoreb_open_default_words(book.data(), book.size());
    std::cout << "version " << fanzsoreb_version() << ", open " << opened << "\n";
    auto sale = fanzsoreb_post_words(book.data(), book.size(), 1, 9000, FANZSOREB_BILATERAL_SALE, 2, 700000);
    auto program = fanzsoreb_post_words(book.data(), book.size(), 1, 9000, FANZSOREB_GENERATION_PROGRAM, 0, 500000);
    std::cout << "entries " << sale.number << " and " << program.number << " of "
              << fanzsoreb_count_words(book.data(), book.size()).count << "\n";
    for (std::uint32_t party = 1; party <= 2; party++) {
        auto ahead = fanzsoreb_day_ahead_words(book.data(), book.size(), party, 9000);
        auto delivery = fanzsoreb_delivery_words(book.data(), book.size(), party, 9000);
        std::cout << "party " << party << ": day-ahead " << ahead.balance << ", delivery " << delivery.balance << ", "
                  << (fanzsoreb_detected(ahead.balance) ? "detected" : "clear") << "\n";
    }

    fanzsoreb_case supplier = FANZSOREB_SUPPLIER;
    supplier.party = 1;
    supplier.day = 9001;
    supplier.yt = 1000;
    supplier.best = 3;
    supplier.score = 1;
    auto c = fanzsoreb_collateral_of_words(book.data(), book.size(), &supplier);
    std::cout << "margin " << c.margin << ", YEK " << c.yek << ", total " << c.total << "\n";

    auto refused = fanzsoreb_post_words(book.data(), book.size(), 1000, 9000, FANZSOREB_DAY_AHEAD_SALE, 0, 1);
    std::cout << "refused " << refused.answer << ": " << fanzsoreb_cause_name(refused.answer) << "\n";
    return 0;
}
