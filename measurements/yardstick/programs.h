// What the C++ programs of the yardstick offer. Each stands in a file of its own, so that how the compiler treats one does not depend on the others.
#pragma once
#include <cstddef>
#include <cstdint>

// Rows are flat: the row of a kind begins at 32 times its number.

namespace variants {

// What a variant came to: the settled stage, or 0 where the sheet has no norms, and the rows of that stage.
struct Settled {
    int stage;
    const uint32_t *rows;
};

struct Named {
    const char *name;
    Settled (*settle)(const uint8_t *sheet, size_t length);
};

constexpr int number = 27;
extern const Named all[number];

} // namespace variants

namespace page {

extern uint32_t row[32 * 32];

// The settled stage of a sheet, 0 where it is refused; the rows are those of `row`.
int settle_sheet(const uint8_t *sheet, size_t length);

extern char text[1 << 17];
extern size_t text_length;

// Writes the page of a sheet to the text.
void write_page(const uint8_t *sheet, size_t length);

// Compares two equal lines of 32 kinds so many times, count by count: how often they were the same.
int compare_lines(int times);

} // namespace page

namespace walk {

constexpr int ways = 5;

// As the library answers: 0 together, 1 apart, 2 spent; 3 where the sheet is refused.
struct Walked {
    uint64_t answer, rounds, drawn;
    bool operator==(const Walked &other) const { return answer == other.answer && rounds == other.rounds && drawn == other.drawn; }
};

// A walk of two fields. The checks of the sheet are made, as the library makes them in each call.
Walked walk(int way, const uint8_t *sheet, size_t length, int first_field, int second_field, int limit, uint64_t allowance);

} // namespace walk
