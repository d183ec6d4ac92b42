// The stages of a card in C++, as 27 sets of choices. The fastest of them on a card is what the library is measured against.
#include "programs.h"
#include "reader.h"

namespace variants {

using namespace reader;

// The choices. A variant is named by the letters of those that it makes.
enum Choice : unsigned {
    T = 1,    // table: what every line leaves is put in atoms once a stage
    E = 2,    // early: a comparison ends at the first count that differs
    R = 4,    // reducing: which lines lower the norm is found once
    A = 8,    // atoms: an atom stays an atom
    P = 16,   // previous: the row of the stage before is tested before norm-reducing expansion
    L = 32,   // least: the line of a kind that tells the candidates is the one with the fewest, not the first
    N = 64,   // narrow: replies are sought only from the kind whose count is one short
    C = 128,  // classes: lines are numbered by code and effect once a stage, and expansion compares these numbers
    I = 256,  // inside: a class is sought within the class of the stage before
    D = 512,  // duplicates: equal lines of one kind tell one candidate
    Z = 1024, // zeros: counts of 0 are passed over where forms are added up
    X = 2048, // expansion of the stage before is tested before norm-reducing expansion
    S = 4096, // search: sets of classes are compared by searching one in the other, not by marks
};

struct Base {
    uint32_t row[kinds_room * kinds_room];
    bool atom[kinds_room];
};

// Of two stages by turns, this one and the one before: the rows, the forms of what the lines leave, the classes of the lines.
static Base base[2];
static uint64_t form_left[2][lines_room * kinds_room];
static int class_of[2][lines_room];

template <unsigned choices> struct Variant {
    int now, stage; // which of the two is this stage

    static bool is_lowering(int line)
    {
        if (choices & R) return lowers[line];
        uint64_t total = 0;
        for (int kind = 0; kind < kinds; kind++) total += left_by[line][kind] * norm[kind];
        return total < norm[kind_of[line]];
    }

    template <class Count> static void write_form(const Base &of, const Count *counts, uint64_t *to)
    {
        for (int kind = 0; kind < kinds; kind++) to[kind] = 0;
        for (int kind = 0; kind < kinds; kind++) {
            uint64_t count = counts[kind];
            if ((choices & Z) && !count) continue;
            for (int other = 0; other < kinds; other++) to[other] += count * of.row[kind * kinds_room + other];
        }
    }

    static bool equal(const uint64_t *one, const uint64_t *other)
    {
        if (choices & E) {
            for (int kind = 0; kind < kinds; kind++)
                if (one[kind] != other[kind]) return false;
            return true;
        }
        bool same = true;
        for (int kind = 0; kind < kinds; kind++) same &= one[kind] == other[kind];
        return same;
    }

    // Whether a line of a kind and a line that a product may use leave fields of one form, at one of the two stages. The product is given with its form.
    bool leave_same(int which, int line, int other, const uint64_t *product, const uint64_t *product_form)
    {
        if (choices & T) {
            const uint64_t *one_left = form_left[which] + line * kinds_room, *other_left = form_left[which] + other * kinds_room;
            const uint32_t *taken = base[which].row + kind_of[other] * kinds_room;
            if (choices & E) {
                for (int kind = 0; kind < kinds; kind++)
                    if (one_left[kind] + taken[kind] != product_form[kind] + other_left[kind]) return false;
                return true;
            }
            bool same = true;
            for (int kind = 0; kind < kinds; kind++) same &= one_left[kind] + taken[kind] == product_form[kind] + other_left[kind];
            return same;
        }
        uint64_t left[kinds_room], one_form[kinds_room], other_form[kinds_room];
        for (int kind = 0; kind < kinds; kind++) left[kind] = product[kind] - (kind == kind_of[other]) + left_by[other][kind];
        write_form(base[which], left_by[line], one_form);
        write_form(base[which], left, other_form);
        return equal(one_form, other_form);
    }

    // Whether each line of the kind or the product that may challenge has an answer by the other, at one of the two stages.
    bool expands(int which, int kind, const uint64_t *product, const uint64_t *product_form, bool reducing)
    {
        if (!reducing && (choices & C)) return classes_expand(class_of[which], kind, product);
        const int *before = class_of[!now];
        auto may_answer = [&](int line, int other) {
            return code_of[other] == code_of[line] && !((choices & C) && reducing && before[other] != before[line]) && (!reducing || is_lowering(other));
        };
        for (int line = 0; line < lines; line++) {
            if (kind_of[line] == kind && (!reducing || is_lowering(line))) {
                bool answered = false;
                if ((choices & N) && reducing) {
                    const uint64_t *left = form_left[which] + line * kinds_room;
                    int short_kind = -1, short_kinds = 0;
                    for (int other = 0; other < kinds; other++)
                        if (left[other] < product_form[other]) short_kind = other, short_kinds += product_form[other] - left[other] == 1 ? 1 : 2;
                    if (short_kinds != 1) return false;
                    for (int other = 0; other < lines && !answered; other++)
                        if (kind_of[other] == short_kind && code_of[other] == code_of[line] && is_lowering(other)) answered = leave_same(which, line, other, product, product_form);
                } else
                    for (int other = 0; other < lines && !answered; other++)
                        if (product[kind_of[other]] && may_answer(line, other)) answered = leave_same(which, line, other, product, product_form);
                if (!answered) return false;
            }
            if (product[kind_of[line]] && (!reducing || is_lowering(line))) {
                bool answered = false;
                for (int other = 0; other < lines && !answered; other++)
                    if (kind_of[other] == kind && may_answer(line, other)) answered = leave_same(which, other, line, product, product_form);
                if (!answered) return false;
            }
        }
        return true;
    }

    // Whether the kind and the product may use lines of the same classes.
    static bool classes_expand(const int *classes, int kind, const uint64_t *product)
    {
        if (choices & S) {
            for (int line = 0; line < lines; line++) {
                bool mine = kind_of[line] == kind, theirs = product[kind_of[line]];
                if (!mine && !theirs) continue;
                bool found = !mine;
                for (int other = 0; other < lines && !found; other++) found = product[kind_of[other]] && classes[other] == classes[line];
                if (!found) return false;
                found = !theirs;
                for (int other = 0; other < lines && !found; other++) found = kind_of[other] == kind && classes[other] == classes[line];
                if (!found) return false;
            }
            return true;
        }
        bool mine[lines_room], theirs[lines_room];
        memset(mine, 0, sizeof mine), memset(theirs, 0, sizeof theirs);
        for (int line = 0; line < lines; line++) {
            if (kind_of[line] == kind) mine[classes[line]] = true;
            if (product[kind_of[line]]) theirs[classes[line]] = true;
        }
        return !memcmp(mine, theirs, size_t(lines));
    }

    // Whether a line of a kind and this line tell a candidate.
    bool tells(int line, int other)
    {
        if (!base[now].atom[kind_of[other]] || code_of[other] != code_of[line] || !is_lowering(other)) return false;
        return !(choices & C) || class_of[!now][other] == class_of[!now][line];
    }

    // Whether an equal line of the same kind and code stands before this one.
    bool is_repeated(int line)
    {
        for (int other = 0; other < line; other++)
            if (kind_of[other] == kind_of[line] && code_of[other] == code_of[line] && is_lowering(other) && equal(form_left[now] + other * kinds_room, form_left[now] + line * kinds_room)) return true;
        return false;
    }

    // The line of a kind that tells its candidates.
    int telling_line(int kind)
    {
        int chosen = -1;
        long least = -1;
        for (int line = 0; line < lines; line++)
            if (kind_of[line] == kind && is_lowering(line)) {
                if (!(choices & L)) return line;
                long candidates = 0;
                for (int other = 0; other < lines; other++) candidates += tells(line, other);
                if (least < 0 || candidates < least) least = candidates, chosen = line;
            }
        return chosen;
    }

    bool passes(int kind, const uint64_t *product)
    {
        const Base &before = base[!now];
        uint64_t product_before[kinds_room] = {0}, kind_before[kinds_room];
        for (int other = 0; other < kinds; other++) kind_before[other] = before.row[kind * kinds_room + other];
        bool later = stage > 1, row_first = (choices & P) && !(choices & C);
        if (later && !(choices & C)) write_form(before, product, product_before);
        if (later && row_first && !equal(product_before, kind_before)) return false;
        if (later && (choices & X) && !expands(!now, kind, product, product_before, false)) return false;
        if (!expands(now, kind, product, product, true)) return false;
        if (later && !row_first && !(choices & C) && !equal(product_before, kind_before)) return false;
        return !later || (choices & X) || expands(!now, kind, product, product_before, false);
    }

    // The row of a kind at this stage, if it is no atom.
    bool find_row(int kind, uint64_t *product)
    {
        int line = telling_line(kind);
        for (int other = 0; other < lines; other++) {
            if (!tells(line, other)) continue;
            if ((choices & D) && is_repeated(other)) continue;
            uint64_t one_form[kinds_room], other_form[kinds_room];
            const uint64_t *one = one_form, *two = other_form;
            if (choices & T) one = form_left[now] + line * kinds_room, two = form_left[now] + other * kinds_room;
            else write_form(base[now], left_by[line], one_form), write_form(base[now], left_by[other], other_form);
            bool found = true;
            for (int place = 0; place < kinds && found; place++) {
                uint64_t up = one[place] + (place == kind_of[other]);
                if (up < two[place]) found = false;
                else product[place] = up - two[place];
            }
            if (found && passes(kind, product)) return true;
        }
        return false;
    }

    void find_base()
    {
        Base &made = base[now];
        memset(made.atom, 0, sizeof made.atom);
        for (int place = 0; place < kinds; place++) {
            int kind = in_order[place];
            uint64_t product[kinds_room];
            for (int line = 0; (choices & T) && line < lines; line++)
                if (kind_of[line] == kind && is_lowering(line)) write_form(made, left_by[line], form_left[now] + line * kinds_room);
            bool stays = (choices & A) && stage > 1 && base[!now].atom[kind];
            made.atom[kind] = stays || !find_row(kind, product);
            for (int other = 0; other < kinds; other++) made.row[kind * kinds_room + other] = made.atom[kind] ? other == kind : uint32_t(product[other]);
        }
        for (int line = 0; (choices & T) && line < lines; line++)
            if (!is_lowering(line)) write_form(made, left_by[line], form_left[now] + line * kinds_room);
    }

    void find_classes()
    {
        int *classes = class_of[now];
        const int *before = class_of[!now];
        for (int line = 0; line < lines; line++) {
            classes[line] = line;
            for (int other = 0; other < line; other++) {
                if (classes[other] != other || code_of[other] != code_of[line] || ((choices & I) && before[other] != before[line])) continue;
                const uint64_t *one_form = form_left[now] + line * kinds_room, *other_form = form_left[now] + other * kinds_room;
                const uint32_t *one_row = base[now].row + kind_of[line] * kinds_room, *other_row = base[now].row + kind_of[other] * kinds_room;
                int kind = 0;
                while (kind < kinds && one_form[kind] + other_row[kind] == other_form[kind] + one_row[kind]) kind++;
                if (kind == kinds) {
                    classes[line] = other;
                    break;
                }
            }
        }
    }

    bool is_settled()
    {
        for (int kind = 0; kind < kinds; kind++)
            if (!base[now].atom[kind]) {
                uint64_t product[kinds_room];
                for (int other = 0; other < kinds; other++) product[other] = base[now].row[kind * kinds_room + other];
                if (!expands(now, kind, product, product, false)) return false;
            }
        return true;
    }

    int settle()
    {
        now = 0;
        memset(base, 0, sizeof base);
        first_classes(class_of[1]);
        for (stage = 1;; stage++) {
            find_base();
            if (choices & C) find_classes();
            if (is_settled()) return stage;
            now = !now;
        }
    }
};

// It makes no checks beyond those of norms: the sheet was accepted before.
template <unsigned choices> static Settled settle(const uint8_t *sheet, size_t sheet_length)
{
    static Variant<choices> variant;
    take(sheet, sheet_length);
    read_lines();
    if (find_norms().number) return {0, nullptr};
    int stage = variant.settle();
    return {stage, base[variant.now].row};
}

const Named all[number] = {
    {"none", settle<0>},
    {"E", settle<E>},
    {"Z", settle<Z>},
    {"ERZA", settle<E | R | Z | A>},
    {"T", settle<T>},
    {"TR", settle<T | R>},
    {"TER", settle<T | E | R>},
    {"TERA", settle<T | E | R | A>},
    {"TERAP", settle<T | E | R | A | P>},
    {"TERAPX", settle<T | E | R | A | P | X>},
    {"TERAPL", settle<T | E | R | A | P | L>},
    {"TERAPN", settle<T | E | R | A | P | N>},
    {"TERAPXD", settle<T | E | R | A | P | X | D>},
    {"TRAP", settle<T | R | A | P>},
    {"TERAPXZ", settle<T | E | R | A | P | X | Z>},
    {"TERAC", settle<T | E | R | A | C>},
    {"TERACX", settle<T | E | R | A | C | X>},
    {"TERACXI", settle<T | E | R | A | C | X | I>},
    {"TERACXIZ", settle<T | E | R | A | C | X | I | Z>},
    {"TERACXS", settle<T | E | R | A | C | X | S>},
    {"TERACXIS", settle<T | E | R | A | C | X | I | S>},
    {"TERCX", settle<T | E | R | C | X>},
    {"TERCXIZ", settle<T | E | R | C | X | I | Z>},
    {"TERACXIZN", settle<T | E | R | A | C | X | I | Z | N>},
    {"TERACXIZD", settle<T | E | R | A | C | X | I | Z | D>},
    {"TERACXIZL", settle<T | E | R | A | C | X | I | Z | L>},
    {"TERACXIZLND", settle<T | E | R | A | C | X | I | Z | L | N | D>},
};

} // namespace variants
