// A search for cards that cost the library most: random cards of parameterised families first, then changes to the costliest ones, kept where they cost more. All cards have at most 32 kinds and 256 lines.
//
// The cards and the changes come from a seed. What is kept goes by the clock, so that two runs need not end at the same card.
#pragma once
#include "families.h"
#include "measure.h"

namespace costly {

using namespace families;

// A way to make a random card at the limits.
struct Recipe {
    const char *name;
    Card (*make)(Random &);
};

// Lines of a kind that leave values of A and B, from one value on, so many of them; each value stands so often that there are so many lines.
inline std::vector<Line> values_of(int kind, int a, int b, int all, int first, int values, int lines, bool in_blocks)
{
    std::vector<Line> made;
    for (int place = 0; place < lines; place++) {
        int value = first + (in_blocks ? place * values / lines : place % values);
        made.push_back(line(kind, 2, {{a, value}, {b, all - value}}));
    }
    return made;
}

inline void put_in_order(std::vector<Line> &lines, Random &random)
{
    int order = random.below(3);
    if (order == 1) std::reverse(lines.begin(), lines.end());
    if (order == 2) random.shuffle(lines);
}

// Some large kinds whose lines come from ranges of values that overlap, and a chain: candidates that fail, and rows that hold, at many stages. A and B have codes of their own, or are the first two
// kinds of the chain.
inline Card make_ranges(Random &random)
{
    bool in_chain = random.once_in(3);
    int groups = random.between(2, random.once_in(2) ? 2 : 5), a = 30, b = 31, stages = random.once_in(2) ? 2 : random.between(2, 30 - groups);
    int apart = 30 - groups - stages + (in_chain ? 2 : 0), room = most_lines - 2 * stages - apart - (in_chain ? 0 : 2), all = 110;
    Card card{32, 5 + apart, {}};
    for (int kind = 0; kind < groups; kind++) {
        int lines = kind == groups - 1 ? room : random.between(1, room - (groups - 1 - kind));
        int values = random.between(1, random.once_in(2) ? 8 : 100), first = random.between(0, random.once_in(2) ? 0 : 10);
        std::vector<Line> own = values_of(kind, a, b, all, first, values, lines, random.once_in(2));
        put_in_order(own, random);
        card.add(own);
        room -= lines;
        if (random.once_in(2)) all += random.between(0, 20);
    }
    if (!in_chain) card.add(line(a, 3)), card.add(line(b, 4));
    std::vector<int> chain = from(groups + apart, stages);
    if (in_chain) std::reverse(chain.begin(), chain.end());
    card.add(chain_lines(chain));
    add_apart(card, groups, apart, 5);
    return card;
}

// Lines that are different on the sheet and become equal at stage 1: A and B have copies, and lines leave tokens of either.
inline Card make_becoming_equal(Random &random)
{
    int stages = random.between(1, 24), groups = random.between(2, 4), a = 28, b = 29, apart = 28 - groups - stages;
    stages += std::min(apart, 0), apart = std::max(apart, 0);
    Card card{32, 5 + apart, {line(a, 3), line(b, 4), line(a + 2, 3), line(b + 2, 4)}};
    int each = (most_lines - 4 - 2 * stages - apart) / groups, values = random.between(1, 12);
    for (int kind = 0; kind < groups; kind++) {
        std::vector<Line> own;
        for (int place = 0; place < each; place++) {
            int value = place % values, of_copy = random.below(value + 1), rest = 40 - value, rest_of_copy = random.below(rest + 1);
            own.push_back(line(kind, 2, {{a, value - of_copy}, {a + 2, of_copy}, {b, rest - rest_of_copy}, {b + 2, rest_of_copy}}));
        }
        put_in_order(own, random);
        card.add(own);
    }
    card.add(chain_lines(from(groups, stages)));
    add_apart(card, groups + stages, apart, 5);
    return card;
}

// Adds a chain whose kinds stand in either order.
inline void add_chain(Card &card, int first, int stages, Random &random)
{
    std::vector<int> chain = from(first, stages);
    if (random.once_in(2)) std::reverse(chain.begin(), chain.end());
    card.add(chain_lines(chain));
}

// Large kinds whose lines leave a few kinds of a chain: lines that are equal at first are told apart stage by stage. The kinds have the same lines in different orders, some with a token moved.
inline Card make_told_later(Random &random)
{
    int groups = random.between(1, 4), stages = random.between(4, 32 - groups), apart = 32 - groups - stages, tokens = random.between(1, 4);
    int each = (most_lines - 2 * stages - apart) / groups;
    Card card{32, 5 + apart, {}};
    std::vector<Line> common;
    for (int place = 0; place < each; place++) {
        Line made = line(0, 2);
        for (int token = 0; token < tokens; token++) made.left[random.between(groups + apart, 31)]++;
        common.push_back(made);
    }
    for (int kind = 0; kind < groups; kind++) {
        for (Line &own : common) own.kind = kind;
        put_in_order(common, random);
        card.add(common);
        if (random.once_in(2)) {
            Line &altered = card.lines[card.lines.size() - 1 - random.below(each)];
            int from_kind = random.between(groups + apart, 31);
            if (altered.left[from_kind]) altered.left[from_kind]--, altered.left[random.between(groups + apart, 31)]++;
        }
    }
    add_chain(card, groups + apart, stages, random);
    add_apart(card, groups, apart, 5);
    return card;
}

// Kinds that are products of many kinds of a chain: their rows change from stage to stage. Lines stand more than once where there is room.
inline Card make_changing_rows(Random &random)
{
    int groups = random.between(1, 12), stages = 32 - groups, factors = random.between(1, 12);
    Card card{32, 2, {}};
    add_chain(card, groups, stages, random);
    std::vector<Line> chain = card.lines, large;
    for (int kind = 0; kind < groups; kind++) {
        Line product = line(kind, 0);
        for (int factor = 0; factor < factors; factor++) product.left[random.between(groups, 31)]++;
        for (const Line &of_chain : chain)
            if (product.left[of_chain.kind]) {
                Line made = product;
                made.code = of_chain.code, made.left[of_chain.kind]--;
                for (int other = 0; other < 32; other++) made.left[other] = uint8_t(made.left[other] + of_chain.left[other]);
                large.push_back(made);
            }
    }
    if (random.once_in(2)) random.shuffle(large);
    for (size_t place = 0; card.lines.size() < most_lines; place++) {
        if (place == large.size() && random.once_in(3)) break;
        card.add(large[place % large.size()]);
    }
    // The large kinds first. Where there was no room for all their lines they are no products: that is a card all the same.
    std::rotate(card.lines.begin(), card.lines.begin() + long(chain.size()), card.lines.end());
    return card;
}

inline Card make_chain(Random &random)
{
    int clearing = random.between(1, 7);
    return chain(32, clearing, 8 - clearing);
}

inline Card make_chain_late(Random &random) { return chain_late(32, random.between(2, 28)); }

inline Card make_almost(Random &random)
{
    int others = random.between(1, 3), chain_kinds = random.between(1, 28 - others), each = (most_lines - 2 - 2 * chain_kinds) / (others + 2), distinct = random.between(1, std::min(each - 2, 60));
    return almost(chain_kinds, each - 1 - distinct, distinct, others);
}

inline Card make_copies(Random &random)
{
    int number = random.between(2, 8);
    return copies(random.between(1, 30 - number), number);
}

inline Card make_two(Random &random)
{
    int chain_kinds = random.between(1, 28), room = most_lines - 2 - 2 * chain_kinds, first = random.between(1, room / 2);
    return two(chain_kinds, first, room - first);
}

inline Card make_near(Random &random)
{
    int groups = random.between(2, 6), each = (most_lines - 32 + groups) / groups, distinct = random.between(1, each - 2);
    return near_duplicates(groups, each - 1 - distinct, distinct, 32);
}

inline Card make_translate(Random &random)
{
    int first = random.between(60, 160);
    return translate(first, std::min(226 - first, 126), 32, random.below(8));
}

inline Card make_product(Random &random)
{
    int factors = random.between(1, 12), chain_kinds = random.between(1, 29 - factors);
    return product(chain_kinds, factors, std::min((most_lines - 2 - 2 * chain_kinds) / (2 * factors), 250 / factors));
}

inline Card make_late_failures(Random &random)
{
    bool in_blocks = random.once_in(2);
    int values = random.between(2, 12), least = 2 + 2 * (values - 1) + (in_blocks ? 2 * values : 0), second = random.between(least, std::max(least, 140));
    return late_failures(values, 225 - second, second, in_blocks);
}

inline Card make_steady(Random &random)
{
    int stages = random.between(2, 30);
    return sized_steady(32, 256, stages);
}

inline Card make_dense(Random &random)
{
    Card card = chain_dense(32, 8);
    for (int times = random.below(40); times > 0; times--) card.lines[random.below(int(card.lines.size()))].left[random.below(32)] = uint8_t(random.below(256));
    return card;
}

inline Card make_of_table(Random &random)
{
    static const std::vector<Named> cards = table_cards();
    return cards[random.below(int(cards.size()))].card;
}

static const Recipe recipes[] = {
    {"a card of the table", make_of_table},
    {"ranges", make_ranges},
    {"becoming equal", make_becoming_equal},
    {"told later", make_told_later},
    {"changing rows", make_changing_rows},
    {"late failures", make_late_failures},
    {"chain", make_chain},
    {"chain late", make_chain_late},
    {"almost", make_almost},
    {"copies", make_copies},
    {"two", make_two},
    {"near", make_near},
    {"translate", make_translate},
    {"product", make_product},
    {"steady", make_steady},
    {"dense", make_dense},
};

// Moves a token, or the difference of two lines, between kinds: the sum of the counts stays.
inline void move_token(Line &changed, int kinds, Random &random)
{
    int from_kind = random.below(kinds), to_kind = random.below(kinds);
    for (int tries = 0; tries < 8 && !changed.left[from_kind]; tries++) from_kind = random.below(kinds);
    for (int tries = 0; tries < 4 && !changed.left[to_kind]; tries++) to_kind = random.below(kinds);
    if (changed.left[from_kind] && changed.left[to_kind] < 255) changed.left[from_kind]--, changed.left[to_kind]++;
}

// Changes a card a little. It may then be refused: who calls it looks.
inline void change(Card &card, Random &random)
{
    std::vector<Line> &lines = card.lines;
    auto any = [&] { return random.below(int(lines.size())); };
    int one = any(), other = any();
    std::vector<int> own; // the places of the lines of one kind
    for (size_t place = 0; place < lines.size(); place++)
        if (lines[place].kind == lines[one].kind) own.push_back(int(place));
    switch (random.below(11)) {
    case 0: std::swap(lines[one], lines[other]); break;
    case 1: std::rotate(lines.begin() + std::min(one, other), lines.begin() + std::max(one, other), lines.begin() + std::max(one, other) + 1); break;
    case 2: std::reverse(lines.begin() + std::min(one, other), lines.begin() + std::max(one, other) + 1); break;
    case 3: // the lines of a kind in another order
        for (int last = int(own.size()) - 1; last > 0; last--) std::swap(lines[own[last]], lines[own[random.below(last + 1)]]);
        break;
    case 4: // more equal lines
        for (int times = random.between(1, 8); times > 0; times--) lines[own[random.below(int(own.size()))]] = lines[one];
        break;
    case 5: // the same line of another kind
        if (own.size() > 1) lines[one].left = lines[other].left, lines[one].code = lines[other].code;
        break;
    case 6: // lines of one kind go to another
        for (int times = random.between(1, 8); times > 0 && int(own.size()) > times; times--) lines[own[random.below(int(own.size()))]] = lines[other];
        break;
    case 7: move_token(lines[one], card.kinds, random); break;
    case 8: // the same token moved in all equal lines
    {
        Line before = lines[one], after = before;
        move_token(after, card.kinds, random);
        std::replace(lines.begin(), lines.end(), before, after);
        break;
    }
    case 9: // one line more, in the place of one of a large kind where there is no room
        if (lines.size() < most_lines) lines.insert(lines.begin() + other, lines[one]);
        else if (own.size() > 2) lines[one] = lines[other];
        break;
    default: // two kinds change numbers
    {
        int first = lines[one].kind, second = lines[other].kind;
        for (Line &each : lines) {
            std::swap(each.left[first], each.left[second]);
            each.kind = each.kind == first ? second : each.kind == second ? first : each.kind;
        }
    }
    }
}

// A card with what it costs: the seconds of one settle, and these for each of lines² × kinds × stages.
struct Found {
    std::string recipe;
    Card card;
    Sheet sheet;
    int stages = 0;
    double seconds = 0;
    double count() const { return double(card.lines.size()) * double(card.lines.size()) * card.kinds * stages; }
    double seconds_each() const { return stages ? seconds / count() : 0; }
};

struct Search {
    std::vector<Found> by_time, by_count; // of each recipe the costliest card, by the seconds and by the seconds for each count
    int tried = 0, refused = 0;
};

// Searches for so many seconds of processor time, a third of them for random cards.
inline Search search(uint64_t seed, double seconds)
{
    constexpr int ways = int(sizeof recipes / sizeof *recipes);
    Random random(seed);
    Search result{std::vector<Found>(ways), std::vector<Found>(ways)};
    double started = measure::thread_seconds();
    auto spent = [&] { return (measure::thread_seconds() - started) / seconds; };
    // Keeps a card where it costs more than the one that is kept, by one hundredth at least, since times vary.
    auto offer = [&](int way, const Card &card) {
        Found &time = result.by_time[way], &count = result.by_count[way];
        Found found{recipes[way].name, card, sheet_of(card, card.kinds), 0, 0};
        measure::Timed settle{measure::settling, true, "", [&] { found.stages = measure::library_settle(found.sheet); }};
        settle.run(1);
        result.tried++, result.refused += !found.stages;
        if (!found.stages) return;
        double bound = 1.01 * std::min(time.seconds, count.seconds_each() * found.count());
        for (int again = 0; again < 3 && settle.least > bound; again++) settle.run(1);
        found.seconds = settle.least;
        if (found.seconds > 1.01 * time.seconds) time = found;
        if (found.seconds_each() > 1.01 * count.seconds_each()) count = found;
    };
    while (spent() < 1.0 / 3) {
        int way = random.below(ways);
        Card card = recipes[way].make(random);
        if (random.once_in(4)) random.shuffle(card.lines);
        offer(way, card);
    }
    // The costlier a card is, the more often it is changed; every fourth time its recipe makes another one instead.
    while (spent() < 1) {
        std::vector<Found> &list = random.once_in(2) ? result.by_time : result.by_count;
        bool by_time = &list == &result.by_time;
        int way = random.below(ways);
        for (int again = 0; again < 2; again++) {
            int other = random.below(ways);
            if (by_time ? list[other].seconds > list[way].seconds : list[other].seconds_each() > list[way].seconds_each()) way = other;
        }
        if (!list[way].stages) continue;
        bool anew = random.once_in(4);
        Card card = anew ? recipes[way].make(random) : list[way].card;
        for (int times = anew ? 0 : random.once_in(3) ? random.between(2, 6) : 1; times > 0; times--) change(card, random);
        offer(way, card);
    }
    // Measured anew, since the greatest of many times is one on which other work weighed.
    for (std::vector<Found> *list : {&result.by_time, &result.by_count}) {
        for (Found &found : *list) {
            measure::Timed settle{measure::settling, true, "", [&] { measure::library_settle(found.sheet); }};
            for (int times = 0; times < 9; times++) settle.run(1);
            found.seconds = settle.least;
        }
        list->erase(std::remove_if(list->begin(), list->end(), [](const Found &found) { return !found.stages; }), list->end());
    }
    std::stable_sort(result.by_time.begin(), result.by_time.end(), [](const Found &one, const Found &other) { return one.seconds > other.seconds; });
    std::stable_sort(result.by_count.begin(), result.by_count.end(), [](const Found &one, const Found &other) { return one.seconds_each() > other.seconds_each(); });
    return result;
}

} // namespace costly
