// A sheet of bytes as a card in flat arrays, and the norms of its kinds. Every C++ program of the yardstick goes by these. All kinds of a card count as reached: the yardstick has no other cards.
#pragma once
#include <cstddef>
#include <cstdint>
#include <cstring>

namespace reader {

constexpr int most_bytes = 12820, kinds_room = 32, lines_room = 256, fields_room = 64, codes_room = 64;
constexpr uint64_t norm_limit = 1000000000, no_norm = ~uint64_t(0);

// What a sheet is refused by; 0 and 0 where it is not.
struct Refusal {
    int number, place;
};

[[maybe_unused]] static uint8_t bytes[most_bytes + 1];
static int length, kinds, codes, lines, fields;
static int kind_of[lines_room], code_of[lines_room];
static const uint8_t *left_by[lines_room]; // the counts that a line leaves, within the bytes

inline uint32_t two_bytes(int at) { return uint32_t(bytes[at] | bytes[at + 1] << 8); }
inline uint32_t four_bytes(int at) { return two_bytes(at) | two_bytes(at + 2) << 16; }
inline int fields_at() { return 20 + lines * (2 + kinds); }

// Copies a sheet and reads its header.
[[maybe_unused]] static void take(const uint8_t *sheet, size_t sheet_length)
{
    length = int(sheet_length < sizeof bytes ? sheet_length : sizeof bytes);
    memcpy(bytes, sheet, size_t(length));
    if (length >= 20) kinds = int(two_bytes(0)), codes = int(two_bytes(2)), lines = int(two_bytes(4)), fields = int(two_bytes(6));
}

// Reads the lines, of a sheet whose header is right.
[[maybe_unused]] static void read_lines()
{
    for (int line = 0; line < lines; line++) {
        int at = 20 + line * (2 + kinds);
        kind_of[line] = bytes[at], code_of[line] = bytes[at + 1], left_by[line] = bytes + at + 2;
    }
}

// Checks 1 to 8; it reads the lines.
[[maybe_unused]] static Refusal check()
{
    if (length < 20) return {1, 0};
    if (kinds < 1 || kinds > kinds_room) return {2, 0};
    if (codes < 1 || codes > codes_room) return {3, 0};
    if (lines > lines_room) return {4, 0};
    if (fields > fields_room) return {5, 0};
    uint32_t total = uint32_t(fields_at() + 2 * kinds * fields);
    if (four_bytes(8) != 20) return {6, 0};
    if (four_bytes(12) != uint32_t(fields_at())) return {6, 1};
    if (four_bytes(16) != total) return {6, 2};
    if (uint32_t(length) != total) return {6, 3};
    read_lines();
    for (int line = 0; line < lines; line++) {
        if (kind_of[line] >= kinds) return {7, line};
        if (code_of[line] >= codes) return {8, line};
    }
    return {0, 0};
}

static uint64_t norm[kinds_room];      // no_norm, or the norm, or one over the limit
static uint64_t left_norm[lines_room]; // the norm of what a line leaves
static bool lowers[lines_room];        // whether a line lowers the norm
static int in_order[kinds_room];       // the kinds by norm, then by number

// The norm of what a line leaves; no_norm where it leaves a kind that has none yet.
inline uint64_t norm_left_by(int line)
{
    uint64_t total = 0;
    for (int kind = 0; kind < kinds; kind++)
        if (left_by[line][kind]) {
            if (norm[kind] == no_norm) return no_norm;
            total += left_by[line][kind] * norm[kind];
        }
    return total;
}

// Checks 9 and 10, by sweeps over the lines: fewest reads that clear a kind need no kind twice on the way down, so that as many sweeps as kinds find all norms.
[[maybe_unused]] static Refusal find_norms()
{
    for (int kind = 0; kind < kinds; kind++) norm[kind] = no_norm;
    for (int sweep = 0; sweep < kinds; sweep++)
        for (int line = 0; line < lines; line++) {
            uint64_t left = norm_left_by(line);
            if (left == no_norm) continue;
            uint64_t reads = left + 1 > norm_limit ? norm_limit + 1 : left + 1;
            if (reads < norm[kind_of[line]]) norm[kind_of[line]] = reads;
        }
    for (int kind = 0; kind < kinds; kind++)
        if (norm[kind] == no_norm) return {9, kind};
    for (int kind = 0; kind < kinds; kind++)
        if (norm[kind] > norm_limit) return {10, kind};
    for (int line = 0; line < lines; line++) left_norm[line] = norm_left_by(line), lowers[line] = left_norm[line] < norm[kind_of[line]];
    for (int kind = 0; kind < kinds; kind++) {
        int earlier = 0;
        for (int other = 0; other < kinds; other++) earlier += norm[other] < norm[kind] || (norm[other] == norm[kind] && other < kind);
        in_order[earlier] = kind;
    }
    return {0, 0};
}

// Before stage 1 lines are of one class where they have one code and change the norm alike: a class is the least line of it.
[[maybe_unused]] static void first_classes(int *classes)
{
    for (int line = 0; line < lines; line++) {
        classes[line] = line;
        for (int other = 0; other < line; other++)
            if (code_of[other] == code_of[line] && left_norm[other] + norm[kind_of[line]] == left_norm[line] + norm[kind_of[other]]) {
                classes[line] = other;
                break;
            }
    }
}

} // namespace reader
