// The page of a sheet in plain C++: norms, one base per stage up to the settled one, prime forms, verdicts. Flat arrays and no allocation; it takes no care to be fast beyond that.
#include <cstdarg>
#include <cstdio>

#include "programs.h"
#include "reader.h"

namespace page {

using namespace reader;

static uint32_t field[fields_room][kinds_room];
uint32_t row[kinds_room * kinds_room];                                       // the row of a kind begins at 32 times its number
static bool atom[kinds_room], atom_before[kinds_room];                       // at this stage and at the stage before
static uint64_t form_left[lines_room * kinds_room];                          // what a line leaves, in atoms, at 32 times its number
static int class_of[lines_room], class_before[lines_room];                   // the least line of the same code and effect, at this stage and at the stage before
static uint64_t form[fields_room][kinds_room], field_norm[fields_room];
static int parted_at[fields_room];                                           // the stage that parts field 0 and this one; -1 while they are related
static int since[kinds_room];                                                // the stage since which a kind has its row
static uint64_t growth;                                                      // the most that a line adds to the norm

static void read_fields()
{
    for (int number = 0; number < fields; number++)
        for (int kind = 0; kind < kinds; kind++) field[number][kind] = two_bytes(fields_at() + 2 * (number * kinds + kind));
}

static void find_growth()
{
    growth = 0;
    for (int line = 0; line < lines; line++)
        if (left_norm[line] > norm[kind_of[line]] && left_norm[line] - norm[kind_of[line]] > growth) growth = left_norm[line] - norm[kind_of[line]];
}

static void write_form_left(int line)
{
    uint64_t *to = form_left + line * kinds_room;
    for (int kind = 0; kind < kinds; kind++) to[kind] = 0;
    for (int kind = 0; kind < kinds; kind++)
        if (uint64_t count = left_by[line][kind])
            for (int other = 0; other < kinds; other++) to[other] += count * row[kind * kinds_room + other];
}

// Whether a kind and a product of atoms may use lines of the same classes.
static bool expands(int kind, const uint32_t *product, const int *classes)
{
    bool mine[lines_room], theirs[lines_room];
    for (int line = 0; line < lines; line++) mine[line] = theirs[line] = false;
    for (int line = 0; line < lines; line++) {
        if (kind_of[line] == kind) mine[classes[line]] = true;
        if (product[kind_of[line]]) theirs[classes[line]] = true;
    }
    for (int line = 0; line < lines; line++)
        if (mine[line] != theirs[line]) return false;
    return true;
}

// Whether a line of a kind leaves what a product of atoms leaves by a line of one of them.
static bool leaves_same(int line, int of_atom, const uint32_t *product)
{
    if (class_before[line] != class_before[of_atom]) return false;
    const uint64_t *one = form_left + line * kinds_room, *other = form_left + of_atom * kinds_room;
    int taken = kind_of[of_atom];
    for (int kind = 0; kind < kinds; kind++)
        if (one[kind] + (kind == taken) != product[kind] + other[kind]) return false;
    return true;
}

static bool kind_answered(int line, const uint32_t *product)
{
    for (int other = 0; other < lines; other++)
        if (lowers[other] && product[kind_of[other]] && leaves_same(line, other, product)) return true;
    return false;
}

static bool product_answered(int line, int kind, const uint32_t *product)
{
    for (int other = 0; other < lines; other++)
        if (lowers[other] && kind_of[other] == kind && leaves_same(other, line, product)) return true;
    return false;
}

// Norm-reducing expansion.
static bool reducing_expands(int kind, const uint32_t *product)
{
    for (int line = 0; line < lines; line++) {
        if (!lowers[line]) continue;
        if (kind_of[line] == kind && !kind_answered(line, product)) return false;
        if (product[kind_of[line]] && !product_answered(line, kind, product)) return false;
    }
    return true;
}

// What a line of a kind leaves with a line of an atom undone; false where a count would be below 0.
static bool candidate(int line, int of_atom, uint32_t *product)
{
    const uint64_t *one = form_left + line * kinds_room, *other = form_left + of_atom * kinds_room;
    for (int kind = 0; kind < kinds; kind++) {
        uint64_t up = one[kind] + (kind == kind_of[of_atom]);
        if (up < other[kind]) return false;
        product[kind] = uint32_t(up - other[kind]);
    }
    return true;
}

// The first line of a kind that lowers the norm: every kind that has a norm has one.
static int first_lowering(int kind)
{
    int line = 0;
    while (kind_of[line] != kind || !lowers[line]) line++;
    return line;
}

// The row of a kind at this stage, if it is no atom.
static bool find_row(int kind, bool first_stage, uint32_t *product)
{
    int line = first_lowering(kind);
    for (int other = 0; other < lines; other++)
        if (lowers[other] && atom[kind_of[other]] && class_before[other] == class_before[line] && candidate(line, other, product) &&
            (first_stage || expands(kind, product, class_before)) && reducing_expands(kind, product))
            return true;
    return false;
}

static void set_row(int kind, const uint32_t *product, int stage)
{
    uint32_t *to = row + kind * kinds_room;
    bool same = stage > 1;
    for (int other = 0; other < kinds; other++) same = same && to[other] == product[other], to[other] = product[other];
    if (!same) since[kind] = stage;
}

static void find_base(int stage)
{
    for (int kind = 0; kind < kinds; kind++) atom_before[kind] = atom[kind], atom[kind] = false;
    for (int place = 0; place < kinds; place++) {
        int kind = in_order[place];
        for (int line = 0; line < lines; line++)
            if (kind_of[line] == kind && lowers[line]) write_form_left(line);
        uint32_t product[kinds_room];
        if ((stage > 1 && atom_before[kind]) || !find_row(kind, stage == 1, product)) {
            for (int other = 0; other < kinds; other++) product[other] = other == kind;
            atom[kind] = true;
        }
        set_row(kind, product, stage);
    }
    for (int line = 0; line < lines; line++)
        if (!lowers[line]) write_form_left(line);
}

// Whether two lines have one effect: what they leave less the row of their kind.
static bool same_effect(int line, int other)
{
    const uint64_t *one_form = form_left + line * kinds_room, *other_form = form_left + other * kinds_room;
    const uint32_t *one_row = row + kind_of[line] * kinds_room, *other_row = row + kind_of[other] * kinds_room;
    for (int kind = 0; kind < kinds; kind++)
        if (one_form[kind] + other_row[kind] != other_form[kind] + one_row[kind]) return false;
    return true;
}

static void find_classes()
{
    for (int line = 0; line < lines; line++) {
        class_of[line] = line;
        for (int other = 0; other < line; other++)
            if (class_of[other] == other && class_before[other] == class_before[line] && same_effect(line, other)) {
                class_of[line] = other;
                break;
            }
    }
}

static bool is_settled()
{
    for (int kind = 0; kind < kinds; kind++)
        if (!atom[kind] && !expands(kind, row + kind * kinds_room, class_of)) return false;
    return true;
}

static void find_forms()
{
    for (int number = 0; number < fields; number++) {
        for (int kind = 0; kind < kinds; kind++) form[number][kind] = 0;
        for (int kind = 0; kind < kinds; kind++)
            if (uint64_t count = field[number][kind])
                for (int other = 0; other < kinds; other++) form[number][other] += count * row[kind * kinds_room + other];
    }
}

static void part_fields(int stage)
{
    for (int number = 1; number < fields; number++) {
        bool same = true;
        for (int kind = 0; kind < kinds; kind++) same = same && form[0][kind] == form[number][kind];
        if (!same && parted_at[number] < 0) parted_at[number] = stage;
    }
}

// Of a sheet that was read and has norms: the settled stage.
static int settle()
{
    for (int number = 0; number < fields; number++) {
        field_norm[number] = 0;
        for (int kind = 0; kind < kinds; kind++) field_norm[number] += field[number][kind] * norm[kind];
        parted_at[number] = field_norm[number] == field_norm[0] ? -1 : 0;
    }
    first_classes(class_before);
    for (int stage = 1;; stage++) {
        find_base(stage);
        find_classes();
        find_forms();
        part_fields(stage);
        if (is_settled()) return stage;
        for (int line = 0; line < lines; line++) class_before[line] = class_of[line];
    }
}

static Refusal read_sheet(const uint8_t *sheet, size_t sheet_length)
{
    take(sheet, sheet_length);
    Refusal refusal = check();
    if (refusal.number) return refusal;
    read_fields();
    refusal = find_norms();
    if (!refusal.number) find_growth();
    return refusal;
}

int settle_sheet(const uint8_t *sheet, size_t sheet_length) { return read_sheet(sheet, sheet_length).number ? 0 : settle(); }

char text[1 << 17];
size_t text_length;

__attribute__((format(printf, 1, 2))) static void say(const char *format, ...)
{
    va_list values;
    va_start(values, format);
    text_length += size_t(vsnprintf(text + text_length, sizeof text - text_length, format, values));
    va_end(values);
}

static uint64_t rounds(int stage, uint64_t first, uint64_t second) { return (first < second ? first : second) + 1 + (stage > 1 ? uint64_t(stage - 1) * (growth + 1) : 0); }

void write_page(const uint8_t *sheet, size_t sheet_length)
{
    text_length = 0;
    Refusal refusal = read_sheet(sheet, sheet_length);
    if (refusal.number) return say("refused %d %d\n", refusal.number, refusal.place);
    say("kinds %d stages %d\n", kinds, settle());
    for (int kind = 0; kind < kinds; kind++) {
        say("kind %d norm %llu since %d", kind, (unsigned long long)norm[kind], since[kind]);
        say(atom[kind] ? " prime" : " =");
        for (int other = 0; !atom[kind] && other < kinds; other++) say(" %u", row[kind * kinds_room + other]);
        say("\n");
    }
    for (int number = 0; number < fields; number++) {
        say("field %d =", number);
        for (int kind = 0; kind < kinds; kind++) say(" %llu", (unsigned long long)form[number][kind]);
        say("\n");
    }
    for (int number = 1; number < fields; number++)
        if (parted_at[number] < 0) say("pair 0 %d same\n", number);
        else say("pair 0 %d different %d %llu\n", number, parted_at[number], (unsigned long long)rounds(parted_at[number], field_norm[0], field_norm[number]));
}

int compare_lines(int times)
{
    kinds = kinds_room;
    memset(form_left, 0, sizeof form_left), memset(row, 0, sizeof row), memset(kind_of, 0, sizeof kind_of);
    volatile int other = 1; // read anew each time, so that each comparison is made
    int same = 0;
    while (times-- > 0) same += same_effect(0, other);
    return same;
}

} // namespace page
