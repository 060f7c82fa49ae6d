// Values for the readers of digits (digits.h), the same in every run, and whether the readers answer alike.
#pragma once
#include <cstdint>
#include <string>
#include <vector>

// Where a value stands.
struct Place {
    uint32_t from, length;
};

// Values of one sort, end to end as in a message, each with its SOH.
struct Values {
    unsigned shortest, longest; // digits
    bool good;
    std::string text;
    std::vector<Place> places;
    uint64_t sum; // of what a reader must answer to all, wrapped at 2 ^ 64
};

// All sorts that are measured. Digits are drawn, the first from 1 to 9, and so are lengths where they differ, evenly. A bad value has one
// byte that is no digit, at a drawn place.
std::vector<Values> make_values();

// Says where the proved readers and their peer first differ, or nothing: on all these values, and on every length from 0 to 20 with every
// byte at every place.
std::string reading_difference();
