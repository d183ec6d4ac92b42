// Cards before they are bytes, the sheets that they become, and numbers from a seed.
#pragma once
#include <algorithm>
#include <array>
#include <cstdint>
#include <string>
#include <vector>

using Sheet = std::vector<uint8_t>;

constexpr int most_kinds = 32, most_codes = 64, most_lines = 256, most_fields = 64;

// So many tokens of a kind.
struct Tokens {
    int kind, count;
};

struct Line {
    int kind, code;
    std::array<uint8_t, most_kinds> left;
    bool operator==(const Line &other) const { return kind == other.kind && code == other.code && left == other.left; }
};

inline Line line(int kind, int code, const std::vector<Tokens> &left = {})
{
    Line made{kind, code, {}};
    for (Tokens tokens : left) made.left[tokens.kind] = uint8_t(made.left[tokens.kind] + tokens.count);
    return made;
}

struct Card {
    int kinds, codes;
    std::vector<Line> lines;

    // Adds a line so many times.
    void add(const Line &added, int times = 1) { lines.insert(lines.end(), std::max(times, 0), added); }
    void add(const std::vector<Line> &added) { lines.insert(lines.end(), added.begin(), added.end()); }
};

// The bytes of a card with so many fields. Field i holds kind i, i less the number of kinds and so on, first one token, then two: with at least as many fields as kinds every kind is reached.
inline Sheet sheet_of(const Card &card, int fields = most_fields)
{
    Sheet bytes;
    auto put = [&](size_t number, int width) {
        for (int place = 0; place < width; place++) bytes.push_back(uint8_t(number >> (8 * place)));
    };
    size_t fields_at = 20 + card.lines.size() * (2 + card.kinds), total = fields_at + 2 * size_t(card.kinds) * fields;
    put(card.kinds, 2), put(card.codes, 2), put(card.lines.size(), 2), put(fields, 2);
    put(20, 4), put(fields_at, 4), put(total, 4);
    for (const Line &each : card.lines) {
        put(each.kind, 1), put(each.code, 1);
        bytes.insert(bytes.end(), each.left.begin(), each.left.begin() + card.kinds);
    }
    for (int field = 0; field < fields; field++)
        for (int kind = 0; kind < card.kinds; kind++) put(field % card.kinds == kind ? 1 + field / card.kinds : 0, 2);
    return bytes;
}

// Numbers from a seed: the same in every run.
class Random {
    uint64_t state;

  public:
    explicit Random(uint64_t seed) : state(seed * 0x9E3779B97F4A7C15u + 77)
    {
        for (int round = 0; round < 4; round++) next();
    }
    uint64_t next()
    {
        state ^= state << 13, state ^= state >> 7, state ^= state << 17;
        return state * 0x2545F4914F6CDD1Du;
    }
    // From 0 up, under a number that is at least 1.
    int below(int number) { return int((next() >> 33) % unsigned(number)); }
    int between(int least, int most) { return least + below(most - least + 1); }
    bool once_in(int number) { return below(number) == 0; }
    template <class Any> void shuffle(std::vector<Any> &list)
    {
        for (int last = int(list.size()) - 1; last > 0; last--) std::swap(list[last], list[below(last + 1)]);
    }
};
