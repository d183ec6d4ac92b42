// The walk of a sheet's two fields in C++, with the exact count of pairs, in five ways.
#include "programs.h"
#include "reader.h"

namespace walk {

using namespace reader;

struct Field {
    uint32_t count[kinds_room];
};

static uint64_t allowance_left; // pairs that may still be examined
static bool is_spent;
static int by_code[lines_room], code_start[codes_room + 1]; // the lines in the order of their codes, and where those of a code begin

static Field after(Field field, int line)
{
    field.count[kind_of[line]]--;
    for (int kind = 0; kind < kinds; kind++) field.count[kind] += left_by[line][kind];
    return field;
}

// Draws one pair; false where none is left.
static bool draw()
{
    if (allowance_left == 0) return !(is_spent = true);
    allowance_left--;
    return true;
}

// Way 0: challenge and reply call each other, with lines and rounds falling; a pair's fields are copied.
namespace by_value {
static bool challenge(const Field &first, const Field &second, int rounds, int side, int line);

static bool pair(const Field &first, const Field &second, int rounds)
{
    if (!draw()) return true;
    return rounds == 0 || challenge(first, second, rounds, 0, 0);
}

// Whether some line, from one on, answers a line of the side.
static bool reply(const Field &first, const Field &second, int rounds, int side, int line, int other)
{
    if (other == lines || is_spent) return is_spent;
    const Field &answering = side ? first : second;
    if (code_of[other] == code_of[line] && answering.count[kind_of[other]]) {
        bool holds = side ? pair(after(first, other), after(second, line), rounds - 1) : pair(after(first, line), after(second, other), rounds - 1);
        if (holds) return true;
    }
    return reply(first, second, rounds, side, line, other + 1);
}

static bool challenge(const Field &first, const Field &second, int rounds, int side, int line)
{
    if (is_spent) return true;
    if (line == lines) return side ? true : challenge(first, second, rounds, 1, 0);
    const Field &challenging = side ? second : first;
    if (challenging.count[kind_of[line]] && !reply(first, second, rounds, side, line, 0)) return false;
    return challenge(first, second, rounds, side, line + 1);
}
} // namespace by_value

// Way 1: the same calls over two fields in place; a line is undone on the way back.
namespace in_place {
static Field first, second;

static void use(Field &field, int line)
{
    field.count[kind_of[line]]--;
    for (int kind = 0; kind < kinds; kind++) field.count[kind] += left_by[line][kind];
}

static void undo(Field &field, int line)
{
    for (int kind = 0; kind < kinds; kind++) field.count[kind] -= left_by[line][kind];
    field.count[kind_of[line]]++;
}

static bool challenge(int rounds, int side, int line);

static bool pair(int rounds)
{
    if (!draw()) return true;
    return rounds == 0 || challenge(rounds, 0, 0);
}

static bool reply(int rounds, int side, int line, int other)
{
    if (other == lines || is_spent) return is_spent;
    Field &challenging = side ? second : first, &answering = side ? first : second;
    if (code_of[other] == code_of[line] && answering.count[kind_of[other]]) {
        use(challenging, line), use(answering, other);
        bool holds = pair(rounds - 1);
        undo(answering, other), undo(challenging, line);
        if (holds) return true;
    }
    return reply(rounds, side, line, other + 1);
}

static bool challenge(int rounds, int side, int line)
{
    if (is_spent) return true;
    if (line == lines) return side ? true : challenge(rounds, 1, 0);
    Field &challenging = side ? second : first;
    if (challenging.count[kind_of[line]] && !reply(rounds, side, line, 0)) return false;
    return challenge(rounds, side, line + 1);
}
} // namespace in_place

// Ways 2 and 3: loops over the lines and one call a pair; a pair with no rounds left is counted and not made. Way 3 seeks replies among the lines of the code alone.
namespace by_loops {
template <bool sorted> static bool pair(const Field &first, const Field &second, int rounds);

template <bool sorted> static bool is_answered(const Field &first, const Field &second, int rounds, int side, int line)
{
    const Field &answering = side ? first : second;
    Field challenged;
    bool is_made = false;
    int begin = sorted ? code_start[code_of[line]] : 0, end = sorted ? code_start[code_of[line] + 1] : lines;
    for (int place = begin; place < end; place++) {
        int other = sorted ? by_code[place] : place;
        if (!answering.count[kind_of[other]] || (!sorted && code_of[other] != code_of[line])) continue;
        if (rounds == 1) return draw(), true;
        if (!is_made) challenged = after(side ? second : first, line), is_made = true;
        Field answered = after(answering, other);
        if (side ? pair<sorted>(answered, challenged, rounds - 1) : pair<sorted>(challenged, answered, rounds - 1)) return true;
        if (is_spent) return true;
    }
    return false;
}

template <bool sorted> static bool pair(const Field &first, const Field &second, int rounds)
{
    if (!draw()) return true;
    for (int side = 0; side < 2; side++) {
        const Field &challenging = side ? second : first;
        for (int line = 0; line < lines; line++)
            if (challenging.count[kind_of[line]]) {
                if (!is_answered<sorted>(first, second, rounds, side, line)) return false;
                if (is_spent) return true;
            }
    }
    return true;
}
} // namespace by_loops

// Way 4: as way 0, but a loop finds the next line that can be used, so that there is one call for each of these; a pair with no rounds left is counted and not made.
namespace by_usable {
static bool challenge(const Field &first, const Field &second, int rounds, int side, int begin);

static bool reply(const Field &first, const Field &second, int rounds, int side, int line, int begin)
{
    const Field &answering = side ? first : second;
    int other = begin;
    while (other < lines && (code_of[other] != code_of[line] || !answering.count[kind_of[other]])) other++;
    if (other == lines) return false;
    if (!draw() || rounds == 1) return true;
    if (side ? challenge(after(first, other), after(second, line), rounds - 1, 0, 0) : challenge(after(first, line), after(second, other), rounds - 1, 0, 0)) return true;
    return reply(first, second, rounds, side, line, other + 1);
}

static bool challenge(const Field &first, const Field &second, int rounds, int side, int begin)
{
    const Field &challenging = side ? second : first;
    int line = begin;
    while (line < lines && !challenging.count[kind_of[line]]) line++;
    if (line == lines) return side ? true : challenge(first, second, rounds, 1, 0);
    if (!reply(first, second, rounds, side, line, 0)) return false;
    if (is_spent) return true;
    return challenge(first, second, rounds, side, line + 1);
}

static bool pair(const Field &first, const Field &second, int rounds)
{
    if (!draw()) return true;
    return challenge(first, second, rounds, 0, 0);
}
} // namespace by_usable

Walked walk(int way, const uint8_t *sheet, size_t sheet_length, int first_field, int second_field, int limit, uint64_t allowance)
{
    take(sheet, sheet_length);
    if (check().number) return {3, 0, 0};
    Field first{}, second{};
    for (int kind = 0; kind < kinds; kind++) {
        first.count[kind] = two_bytes(fields_at() + 2 * (first_field * kinds + kind));
        second.count[kind] = two_bytes(fields_at() + 2 * (second_field * kinds + kind));
    }
    int placed = 0;
    for (int code = 0; code < codes_room; code++) {
        code_start[code] = placed;
        for (int line = 0; line < lines; line++)
            if (code_of[line] == code) by_code[placed++] = line;
    }
    code_start[codes_room] = placed;
    allowance_left = allowance, is_spent = false;
    int apart = 0;
    for (int rounds = 1; rounds <= limit && !apart && !is_spent; rounds++) {
        in_place::first = first, in_place::second = second;
        bool holds = way == 0   ? by_value::pair(first, second, rounds)
                     : way == 1 ? in_place::pair(rounds)
                     : way == 2 ? by_loops::pair<false>(first, second, rounds)
                     : way == 3 ? by_loops::pair<true>(first, second, rounds)
                                : by_usable::pair(first, second, rounds);
        if (!is_spent && !holds) apart = rounds;
    }
    if (is_spent) return {2, 0, allowance};
    return {apart ? 1u : 0u, uint64_t(apart), allowance - allowance_left};
}

} // namespace walk
