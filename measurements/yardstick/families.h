// Families of cards that are costly to settle, each by its parameters; the cards of the table, and cards by size.
//
// Two kinds of norm 1 with codes of their own, the highest numbers of a card, are called A and B below. Lines that leave a tokens of A and some of B, together a fixed number, tell many lines of one
// kind apart, and a comparison of what they leave runs to the last counts.
#pragma once
#include "card.h"

namespace families {

// A chain: each kind is cleared by code 0, and by code 1 leaves the kind before it. One kind is told from the next at each stage, so that there are as many stages as kinds.
inline std::vector<Line> chain_lines(const std::vector<int> &chain, int clearing = 1, int linking = 1)
{
    Card card{0, 0, {}};
    for (size_t place = 0; place < chain.size(); place++) {
        card.add(line(chain[place], 0), clearing);
        card.add(place ? line(chain[place], 1, {{chain[place - 1], 1}}) : line(chain[place], 0), linking);
    }
    return card.lines;
}

// The numbers from one on, so many.
inline std::vector<int> from(int first, int count)
{
    std::vector<int> numbers;
    for (int number = first; number < first + count; number++) numbers.push_back(number);
    return numbers;
}

// Adds kinds from one on, so many, with one line each that has a code of its own from a code on.
inline void add_apart(Card &card, int first_kind, int count, int first_code)
{
    for (int place = 0; place < count; place++) card.add(line(first_kind + place, first_code + place));
}

inline std::vector<Line> reversed(std::vector<Line> lines)
{
    std::reverse(lines.begin(), lines.end());
    return lines;
}

// A chain, each of its lines so many times.
inline Card chain(int kinds, int clearing, int linking) { return {kinds, 2, chain_lines(from(0, kinds), clearing, linking)}; }

// A chain of one code: norms alone tell the first lines apart.
inline Card chain_one_code(int kinds)
{
    Card card{kinds, 1, {}};
    for (int kind = 0; kind < kinds; kind++) {
        card.add(line(kind, 0), 4);
        card.add(kind ? line(kind, 0, {{kind, 1}, {kind - 1, 1}}) : line(kind, 0), 4);
    }
    return card;
}

// A chain behind copies of one kind with many lines and a norm above the chain's: the test of a stage goes through all the copies before it meets the kind that fails.
inline Card chain_late(int kinds, int copies)
{
    Card card{kinds, 3, chain_lines(from(copies, kinds - copies))};
    int each = (most_lines - int(card.lines.size())) / copies;
    for (int copy = 0; copy < copies; copy++) {
        std::vector<Line> own;
        for (int place = 0; place < each; place++) own.push_back(line(copy, 2, {{copies, each - place}, {copies + 1, place}}));
        card.add(copy % 2 ? reversed(own) : own);
    }
    return card;
}

// A chain, and a kind that is a copy of the last of some others, which differ in one line each. Equal lines give as many candidates that match in all lines but one.
inline Card almost(int chain_kinds, int equal, int distinct, int others)
{
    int kinds = chain_kinds + others + 4, a = kinds - 2, b = kinds - 1, last = others + 1, all = distinct + others + 2;
    Card card{kinds, 5, {}};
    for (int kind = 0; kind <= last; kind++) {
        std::vector<Line> own;
        for (int place = 1; place <= distinct; place++) own.push_back(line(kind, 2, {{a, place}, {b, all - place}}));
        int told = distinct + 1 + std::min(kind, others);
        if (kind == last) card.add(line(kind, 2, {{b, all}}), equal);
        card.add(kind == last ? reversed(own) : own);
        card.add(line(kind, 2, {{a, told}, {b, all - told}}));
        if (kind < last) card.add(line(kind, 2, {{b, all}}), equal);
    }
    card.add(line(a, 3)), card.add(line(b, 4));
    card.add(chain_lines(from(last + 1, chain_kinds)));
    return card;
}

// A chain, and copies of one kind whose lines are all different and stand in opposite orders: every stage compares all of them.
inline Card copies(int chain_kinds, int copies)
{
    int kinds = chain_kinds + copies + 2, a = kinds - 2, b = kinds - 1;
    std::vector<Line> chain = chain_lines(from(copies, chain_kinds));
    int each = (most_lines - 2 - int(chain.size())) / copies;
    Card card{kinds, 5, {}};
    for (int copy = 0; copy < copies; copy++) {
        std::vector<Line> own;
        for (int place = 0; place < each; place++) own.push_back(line(copy, 2, {{a, place}, {b, each - place}}));
        card.add(copy ? reversed(own) : own);
    }
    card.add(line(a, 3)), card.add(line(b, 4));
    card.add(chain);
    return card;
}

// A chain, a kind with many lines, and a copy of it with its lines in the opposite order; where the copy has more lines, they equal the other's last line.
inline Card two(int chain_kinds, int first_lines, int second_lines)
{
    int kinds = chain_kinds + 4, a = kinds - 2, b = kinds - 1;
    Card card{kinds, 5, {}};
    std::vector<Line> second;
    for (int place = 0; place < first_lines; place++) {
        card.add(line(0, 2, {{a, place}, {b, first_lines + 1 - place}}));
        second.push_back(line(1, 2, {{a, place}, {b, first_lines + 1 - place}}));
    }
    Line last = second.back();
    card.add(reversed(second));
    card.add(last, second_lines - first_lines);
    card.add(line(a, 3)), card.add(line(b, 4));
    card.add(chain_lines(from(2, chain_kinds)));
    return card;
}

// A chain whose lines leave many of every kind: no count is 0, and no comparison ends early.
inline Card chain_dense(int kinds, int lines_each)
{
    Card card{kinds, 2, {}};
    for (int kind = 0; kind < kinds; kind++) {
        Line dense = line(kind, kind ? 1 : 0);
        for (int other = 0; kind && other < kinds; other++) dense.left[other] = other == kind - 1 ? 200 : 100;
        card.add(line(kind, 0));
        card.add(dense, lines_each - 1);
    }
    return card;
}

// Norms up to a limit, one code, rows with one large count: each factor is how many of the kind before a kind leaves.
inline Card big_norm(const std::vector<int> &factors)
{
    Card card{most_kinds, 1, {line(0, 0)}};
    int top = int(factors.size());
    for (int place = 0; place < top; place++) card.add(line(place + 1, 0, {{place, factors[place]}}));
    for (int kind = top + 1; kind < card.kinds; kind++) card.add(line(kind, 0, {{top - 1, 3}}));
    while (card.lines.size() < most_lines) {
        int number = int(card.lines.size()), kind = top + 1 + number % (card.kinds - top - 1);
        card.add(number % 3 ? line(kind, 0, {{top - 1, 3}, {kind, 1}}) : line(kind, 0, {{top - 1, 3}}));
    }
    return card;
}

// One kind at each of many norms, with lines of one code in a random order and nearly equal sets of them.
inline Card norm_ladder(int kinds, int lines_each, Random &random)
{
    int a = kinds - 1, b = kinds - 2;
    Card card{kinds, 3, {line(a, 0), line(b, 1)}};
    for (int kind = 0; kind < kinds - 2; kind++) {
        std::vector<int> places = from(0, 39 + kind);
        random.shuffle(places);
        for (int place = 0; place < lines_each; place++) card.add(line(kind, 2, {{a, places[place]}, {b, 39 + kind - places[place]}}));
    }
    return card;
}

// Kinds of one norm that have all lines but the last in common: each later one is tried against every earlier one.
inline Card near_sets(int groups, int lines_each)
{
    int kinds = groups + 2, a = kinds - 2, b = kinds - 1, all = lines_each + groups + 1, each = std::min(lines_each, (most_lines - 2) / groups);
    Card card{kinds, 5, {}};
    for (int kind = 0; kind < groups; kind++) {
        for (int place = 0; place < each - 1; place++) card.add(line(kind, 2, {{a, place}, {b, all - place}}));
        card.add(line(kind, 2, {{a, each + kind}, {b, all - each - kind}}));
    }
    card.add(line(a, 3)), card.add(line(b, 4));
    return card;
}

// Kinds of one norm that have all lines but one in common. Equal lines, first in the last kind and last in the others, give as many candidates, each of which matches in all lines but one.
// The kinds beyond these have one line each, so that a comparison has as many counts as wanted.
inline Card near_duplicates(int groups, int equal, int distinct, int kinds)
{
    int a = kinds - 2, b = kinds - 1, all = distinct + groups + 2;
    Card card{kinds, 5 + kinds - groups - 2, {}};
    for (int kind = 0; kind < groups; kind++) {
        bool last = kind == groups - 1;
        std::vector<Line> own;
        for (int place = 1; place <= distinct; place++) own.push_back(line(kind, 2, {{a, place}, {b, all - place}}));
        if (last) card.add(line(kind, 2, {{b, all}}), equal);
        card.add(last ? reversed(own) : own);
        card.add(line(kind, 2, {{a, distinct + 1 + kind}, {b, all - distinct - 1 - kind}}));
        if (!last) card.add(line(kind, 2, {{b, all}}), equal);
    }
    card.add(line(a, 3)), card.add(line(b, 4));
    add_apart(card, groups, kinds - groups - 2, 5);
    return card;
}

// The first kind leaves a run of what A and B make up, the second the same run moved along. The candidate from place i is the first kind with a rest, and matches in all lines but i of them.
// The order is a number under 8: 1 turns the first kind's lines around, 2 the second's, 4 puts the second's first.
inline Card translate(int first_lines, int second_lines, int kinds, int order)
{
    int a = kinds - 2, b = kinds - 1;
    Card card{kinds, 5 + kinds - 4, {}};
    std::vector<Line> first, second;
    for (int place = 0; place < first_lines; place++) first.push_back(line(0, 2, {{a, place}, {b, first_lines + 1 - place}}));
    for (int place = 0; place < second_lines; place++) second.push_back(line(1, 2, {{a, std::min(255, second_lines + 2 + place)}, {b, 250 - place}}));
    if (order & 1) first = reversed(first);
    if (order & 2) second = reversed(second);
    card.add(order & 4 ? second : first);
    card.add(order & 4 ? first : second);
    card.add(line(a, 3)), card.add(line(b, 4));
    add_apart(card, 2, kinds - 4, 5);
    return card;
}

// A chain, and a kind that is a product of others with many lines each: its lines stand in the opposite order.
inline Card product(int chain_kinds, int factors, int lines_each)
{
    int kinds = chain_kinds + factors + 3, a = kinds - 2, b = kinds - 1, all = factors * lines_each + 2;
    Card card{kinds, 5, {}};
    for (int factor = 0; factor < factors; factor++)
        for (int place = 0; place < lines_each; place++)
            card.add(line(factor, 2, {{a, factor * lines_each + place}, {b, all - factor * lines_each - place}}));
    std::vector<Line> own = card.lines;
    for (Line &each : own) {
        for (int factor = 0; factor < factors; factor++) each.left[factor] = factor != each.kind;
        each.kind = factors;
    }
    card.add(reversed(own));
    card.add(line(a, 3)), card.add(line(b, 4));
    card.add(chain_lines(from(factors + 1, chain_kinds)));
    return card;
}

// Many candidates that fail late. The first kind leaves one of so many values of A, over and over; the first line of the second kind then tells a candidate for each line of the first kind, and the
// second kind has an answer to each challenge of every candidate, behind many equal lines, but not the other way round. In blocks the first kind's equal lines stand together and the second kind
// answers A and B too; else the values take turns, and A and B, which stand last, have no answer.
inline Card late_failures(int values, int first_lines, int second_lines, bool in_blocks)
{
    int kinds = most_kinds, a = kinds - 2, b = kinds - 1, first_all = 2 * values + 2, second_all = first_all + 2 * values;
    Card card{kinds, 33, {}};
    auto second = [&](int of_a) { return line(1, 2, {{a, of_a}, {b, second_all - of_a}}); };
    for (int place = 0; place < first_lines; place++) {
        int value = in_blocks ? place * values / first_lines : place % values;
        card.add(line(0, 2, {{a, value}, {b, first_all - value}}));
    }
    int equal = second_lines - 1 - 2 * (values - 1) - (in_blocks ? 2 * values : 0), middle = 2 * values - 1;
    card.add(second(middle));
    card.add(second(in_blocks ? middle : second_all), equal);
    for (int value = values; value < middle; value++) card.add(second(value)), card.add(second(2 * middle - value));
    for (int value = 0; in_blocks && value < values; value++) card.add(line(1, 3, {{0, 1}, {a, middle - 1 - value}, {b, 1 + value}}));
    for (int value = 0; in_blocks && value < values; value++) card.add(line(1, 4, {{0, 1}, {a, middle - value}, {b, value}}));
    card.add(line(a, 3)), card.add(line(b, 4));
    add_apart(card, 2, kinds - 4, 5);
    return card;
}

// Two kinds, each with one line that answers all but one of the other's lines and stands last: at each of many stages every line is compared with all.
inline Card steady(int chain_kinds, int lines_each)
{
    int kinds = chain_kinds + 2, a = kinds - 2, b = kinds - 1;
    Card card{kinds, 3, {}};
    card.add(line(0, 2, {{a, 3}}), lines_each - 1), card.add(line(0, 2, {{b, 3}}));
    card.add(line(1, 2, {{b, 3}}), lines_each - 1), card.add(line(1, 2, {{a, 3}}));
    for (int kind = b; kind >= 2; kind--) {
        card.add(line(kind, 0));
        if (kind < b) card.add(line(kind, 1, {{kind + 1, 1}}));
    }
    return card;
}

// A random card: a line that clears each kind, by earlier kinds, then random lines.
inline Card random_card(int kinds, int lines, uint64_t seed)
{
    Random random(seed);
    Card card{kinds, 3, {}};
    std::vector<int> order = from(0, kinds);
    random.shuffle(order);
    for (int place = 0; place < kinds; place++) {
        Line clearing = line(order[place], random.below(card.codes));
        if (place && random.once_in(3)) clearing.left[order[random.below(place)]] = 1;
        card.add(clearing);
    }
    while (int(card.lines.size()) < lines) {
        Line added = line(random.below(kinds), random.below(card.codes));
        for (int tokens = random.below(4); tokens > 0; tokens--) added.left[random.below(kinds)]++;
        card.add(added);
    }
    random.shuffle(card.lines);
    return card;
}

// A card of the table. Cards of one group stand together in the table; cards of one row share a row of the picture.
struct Named {
    std::string name, row, group;
    Card card;
    int fields;
};

inline std::vector<Named> table_cards()
{
    std::vector<Named> cards;
    auto family = [&](const char *name, const Card &card) { cards.push_back({name, name, "families", card, most_fields}); };
    auto against = [&](const char *name, const Card &card) { cards.push_back({name, name, "made against the library", card, most_fields}); };
    Random random(3);
    family("chain_7_1", chain(32, 7, 1));
    family("chain_1_7", chain(32, 1, 7));
    family("chain_4_4", chain(32, 4, 4));
    family("chain_one_code", chain_one_code(32));
    family("chain_late", chain_late(32, 12));
    family("chain_late20", chain_late(32, 20));
    family("chain_dense", chain_dense(32, 8));
    family("almost_40_26", almost(27, 38, 26, 1));
    family("almost_js2", almost(26, 28, 18, 2));
    family("copies2", copies(28, 2));
    family("copies3", copies(27, 3));
    family("copies6", copies(24, 6));
    family("two_100", two(27, 98, 98));
    family("two_dups", two(27, 60, 130));
    family("product2", product(22, 2, 50));
    family("product4", product(20, 4, 20));
    family("big_norm", big_norm({216, 96, 4, 4, 3}));
    family("big_norm_billion", big_norm({216, 96, 4, 4, 3, 250, 3}));
    family("norm_ladder", norm_ladder(32, 8, random));
    family("near_sets", near_sets(30, 8));
    family("near_dups2", near_duplicates(2, 70, 55, 4));
    family("near_dups3", near_duplicates(3, 46, 36, 5));
    family("near_dups4", near_duplicates(4, 35, 27, 6));
    family("near_dups10", near_duplicates(10, 12, 11, 12));
    family("near_wide", near_duplicates(2, 60, 50, 32));
    family("near_wide70", near_duplicates(2, 72, 40, 32));
    family("near_wide3", near_duplicates(3, 42, 32, 32));
    for (int order = 0; order < 8; order++) family(("translate" + std::to_string(order)).c_str(), translate(112, 112, 32, order));
    against("blocks5_140_85", late_failures(5, 140, 85, true));
    against("pads3_150_75", late_failures(3, 150, 75, false));
    against("pads16_150_75", late_failures(16, 150, 75, false));
    against("steady", steady(30, 98));
    for (std::pair<int, int> size : {std::pair<int, int>{4, 8}, {8, 20}, {16, 60}})
        for (int number = 0; number < 5; number++) {
            std::string row = std::to_string(size.first) + " kinds, " + std::to_string(size.second) + " lines";
            cards.push_back({row + ", " + std::to_string(number), row, "random cards", random_card(size.first, size.second, 100 + number), size.first});
        }
    return cards;
}

// Cards by size: of a family the card with so many kinds, lines and stages. Kinds that the family does not need have one line each, and the lines that are left go to its largest kinds.

inline Card sized_chain(int kinds, int lines, int stages)
{
    Card card{kinds, 2 + kinds - stages, {}};
    std::vector<Line> own = chain_lines(from(0, stages));
    add_apart(card, stages, kinds - stages, 2);
    for (int number = 0; int(card.lines.size()) < lines; number++) card.add(own[number % own.size()]);
    return card;
}

inline Card sized_copies(int kinds, int lines, int stages)
{
    int a = kinds - 2, b = kinds - 1, chain_kinds = std::min(stages, kinds - 4);
    std::vector<Line> chain = chain_lines(from(2, chain_kinds));
    Card card{kinds, 5 + kinds - 4 - chain_kinds, {}};
    int each = (lines - 2 - int(chain.size()) - (kinds - 4 - chain_kinds)) / 2;
    for (int place = 0; place < each; place++) card.add(line(0, 2, {{a, place}, {b, each - place}}));
    for (int place = each - 1; place >= 0; place--) card.add(line(1, 2, {{a, place}, {b, each - place}}));
    card.add(line(a, 3)), card.add(line(b, 4));
    card.add(chain);
    add_apart(card, 2 + chain_kinds, kinds - 4 - chain_kinds, 5);
    return card;
}

inline Card sized_steady(int kinds, int lines, int stages)
{
    int a = kinds - 2, b = kinds - 1, chain_kinds = std::min(stages, kinds - 2);
    Card card{kinds, 3 + kinds - 2 - chain_kinds, {}};
    int each = (lines - (2 * chain_kinds - 1) - (kinds - 2 - chain_kinds)) / 2;
    card.add(line(0, 2, {{a, 3}}), each - 1), card.add(line(0, 2, {{b, 3}}));
    card.add(line(1, 2, {{b, 3}}), each - 1), card.add(line(1, 2, {{a, 3}}));
    for (int place = 0; place < chain_kinds; place++) {
        card.add(line(b - place, 0));
        if (place) card.add(line(b - place, 1, {{b - place + 1, 1}}));
    }
    add_apart(card, 2, kinds - 2 - chain_kinds, 3);
    return card;
}

// Two kinds of near_duplicates: one stage.
inline Card sized_near(int kinds, int lines)
{
    int each = (lines - (kinds - 2)) / 2, distinct = each * 2 / 5;
    return near_duplicates(2, each - 1 - distinct, distinct, kinds);
}

// Two kinds of translate: one stage.
inline Card sized_translate(int kinds, int lines)
{
    int each = (lines - (kinds - 2)) / 2;
    return translate(each, each, kinds, 1);
}

// A card of a family by size; `size` is what grows.
struct Sized {
    std::string family, by;
    int size;
    Card card;
};

inline std::vector<Sized> cards_by_size()
{
    std::vector<Sized> cards;
    for (int kinds : {4, 8, 16, 24, 32}) {
        cards.push_back({"chain", "kinds", kinds, sized_chain(kinds, 256, kinds)});
        cards.push_back({"copies", "kinds", kinds, sized_copies(kinds, 256, kinds - 4)});
        cards.push_back({"near", "kinds", kinds, sized_near(kinds, 256)});
        cards.push_back({"translate", "kinds", kinds, sized_translate(kinds, 256)});
    }
    for (int lines : {32, 64, 128, 192, 256}) {
        cards.push_back({"chain", "lines", lines, sized_chain(16, lines, 16)});
        cards.push_back({"copies", "lines", lines, sized_copies(16, lines, 12)});
        cards.push_back({"near", "lines", lines, sized_near(16, lines)});
        cards.push_back({"translate", "lines", lines, sized_translate(16, lines)});
    }
    for (int stages : {1, 2, 4, 8, 16, 32}) {
        cards.push_back({"chain", "stages", stages, sized_chain(32, 256, stages)});
        cards.push_back({"copies", "stages", stages, sized_copies(32, 256, stages)});
        cards.push_back({"steady", "stages", stages, sized_steady(32, 256, stages)});
    }
    return cards;
}

} // namespace families
