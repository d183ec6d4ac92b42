// One card measured: the library's settle, page and walk, and the fastest C++ program's, in one process and by turns. Whatever is measured must answer the same.
#pragma once
#include <cstdio>
#include <cstdlib>
#include <ctime>
#include <functional>

#include "card.h"
#include "limbatue.h"
#include "programs.h"
#include "reader.h"

namespace measure {

// Seconds for which this thread had a processor: other work that shares the machine counts less than by the clock on the wall.
inline double thread_seconds()
{
    timespec time;
    clock_gettime(CLOCK_THREAD_CPUTIME_ID, &time);
    return double(time.tv_sec) + 1e-9 * double(time.tv_nsec);
}

// What is compared with each other.
enum Group { settling, paging, walking };

// Something that is timed: the least of its times so far, in seconds a call.
struct Timed {
    Group group;
    bool of_library;
    std::string program;
    std::function<void()> call;
    double least = 1e9;

    void run(int calls)
    {
        double started = thread_seconds();
        for (int number = 0; number < calls; number++) call();
        least = std::min(least, (thread_seconds() - started) / calls);
    }
};

[[noreturn]] inline void fail(const std::string &card, const std::string &what)
{
    fprintf(stderr, "yardstick: %s: %s\n", card.c_str(), what.c_str());
    exit(1);
}

// Runs all of them by turns, so many times. A turn repeats a call so often that it takes about a quarter of a millisecond. A program that takes over four times as long as the fastest of its group in a
// first call, or over twice as long later, is dropped.
inline void by_turns(std::vector<Timed> &all, int turns)
{
    std::vector<int> calls;
    for (Timed &timed : all) timed.run(1), calls.push_back(std::max(1, std::min(1000, int(2.5e-4 / std::max(timed.least, 1e-7)))));
    for (int turn = 0; turn < turns; turn++)
        for (size_t number = 0; number < all.size(); number++) {
            Timed &timed = all[number];
            double fastest = 1e9;
            for (const Timed &other : all)
                if (other.group == timed.group && !other.of_library) fastest = std::min(fastest, other.least);
            if (timed.of_library || timed.least <= (turn ? 2 : 4) * fastest) timed.run(calls[number]);
        }
}

// Times are in seconds.
struct Measured {
    std::string name;
    int kinds, lines, stages;
    double settle, settle_fastest;
    std::string settle_program; // the fastest one
    double page, page_fastest; // 0 where no page was measured
    double walk, walk_fastest; // 0 where no walk was measured
    std::string walk_way;      // the fastest one
    uint64_t walk_pairs;
    double ratio() const { return settle / settle_fastest; }
    double page_ratio() const { return page_fastest > 0 ? page / page_fastest : 0; }
    double walk_ratio() const { return walk_fastest > 0 ? walk / walk_fastest : 0; }
};

static uint32_t table[LIMBATUE_TABLE_MOST];
static uint64_t answer[4];
static uint8_t page_bytes[LIMBATUE_PAGE_MOST];

// A walk of a sheet: of the fields that hold one of the two kinds that have the most lines, the two and the number of rounds that draw the most pairs within a limit.
struct Walk {
    int first = 0, second = 0, limit = 0;
    walk::Walked walked{0, 0, 0};
};

constexpr uint64_t most_pairs = 30000;

inline Walk costliest_walk(const Sheet &sheet)
{
    reader::take(sheet.data(), sheet.size());
    reader::read_lines();
    int lines_of[reader::kinds_room] = {0};
    for (int line = 0; line < reader::lines; line++) lines_of[reader::kind_of[line]]++;
    std::vector<int> kinds, fields;
    for (int kind = 0; kind < reader::kinds; kind++) kinds.push_back(kind);
    std::stable_sort(kinds.begin(), kinds.end(), [&](int one, int other) { return lines_of[one] > lines_of[other]; });
    for (int field = 0; field < reader::fields; field++)
        for (int place = 0; place < std::min(reader::kinds, 2); place++)
            if (reader::two_bytes(reader::fields_at() + 2 * (field * reader::kinds + kinds[place])) && fields.size() < 4) fields.push_back(field);
    Walk found;
    for (int first : fields)
        for (int second : fields)
            for (int limit = 1; first <= second && limit <= 8; limit++) {
                walk::Walked walked = walk::walk(3, sheet.data(), sheet.size(), first, second, limit, most_pairs);
                if (walked.answer == 2) break;
                if (walked.drawn > found.walked.drawn) found = {first, second, limit, walked};
            }
    return found;
}

inline walk::Walked library_walk(const Sheet &sheet, const Walk &walk)
{
    uint32_t session[LIMBATUE_DESKS] = {uint32_t(most_pairs)};
    if (limbatue_walk(sheet.data(), sheet.size(), size_t(walk.first), size_t(walk.second), uint64_t(walk.limit), 0, session, LIMBATUE_DESKS, answer, LIMBATUE_WALK_ANSWER)) return {3, 0, 0};
    return {answer[0], answer[1], answer[2]};
}

// The library's settled stage; 0 where it refuses the sheet.
inline int library_settle(const Sheet &sheet)
{
    if (limbatue_settle(sheet.data(), sheet.size(), table, LIMBATUE_TABLE_MOST, answer, LIMBATUE_SETTLE_ANSWER)) return 0;
    return int(answer[0]);
}

// Seconds that one step takes: a count of two lines' effects compared, in plain C++. A time over it is a number of steps, which says more than a time where the machine is another.
inline double step_seconds()
{
    constexpr int times = 20000;
    Timed timed{settling, false, "", [] { page::compare_lines(times); }};
    for (int turn = 0; turn < 25; turn++) timed.run(1);
    return timed.least / times / reader::kinds_room;
}

// Settle alone where `settle_only`, else the page and a walk too. With 0 turns nothing is timed, and the answers alone are compared.
inline Measured measure(const std::string &name, const Sheet &sheet, int turns, bool settle_only)
{
    const uint8_t *bytes = sheet.data();
    size_t length = sheet.size();
    int stages = library_settle(sheet);
    if (!stages) fail(name, "the library refuses the sheet");
    Measured result{name, bytes[0], bytes[4] | bytes[5] << 8, stages, 0, 0, "", 0, 0, 0, 0, "", 0};
    for (int kind = 0; kind < result.kinds; kind++)
        if (std::count(table + kind * result.kinds, table + (kind + 1) * result.kinds, 0u) == result.kinds) fail(name, "a kind is out: every kind has to be held by a field");

    // The same stage and the same rows.
    auto same_rows = [&](const uint32_t *rows) {
        for (int kind = 0; kind < result.kinds; kind++)
            if (memcmp(table + kind * result.kinds, rows + kind * reader::kinds_room, sizeof *rows * size_t(result.kinds))) return false;
        return true;
    };
    if (page::settle_sheet(bytes, length) != result.stages || !same_rows(page::row)) fail(name, "the C++ page settles otherwise");

    std::vector<Timed> all;
    all.push_back({settling, true, "", [&] { library_settle(sheet); }});
    all.push_back({settling, false, "page", [&] { page::settle_sheet(bytes, length); }});
    for (const variants::Named &variant : variants::all) {
        // Left out are those that take many times as long as others: on large cards those without a table, and over many stages those that neither keep atoms nor have classes.
        bool has_table = strchr(variant.name, 'T'), keeps = strchr(variant.name, 'A') || strchr(variant.name, 'C');
        if ((!has_table && result.kinds * result.lines > 1024) || (!keeps && result.stages > 4)) continue;
        variants::Settled settled = variant.settle(bytes, length);
        if (settled.stage != result.stages || !same_rows(settled.rows)) fail(name, std::string("variant ") + variant.name + " settles otherwise");
        all.push_back({settling, false, variant.name, [bytes, length, variant] { variant.settle(bytes, length); }});
    }
    Walk walk;
    if (!settle_only) {
        auto library_page = [&] { return limbatue_page(bytes, length, page_bytes, sizeof page_bytes, answer, LIMBATUE_PAGE_ANSWER); };
        if (library_page()) fail(name, "the library writes no page");
        page::write_page(bytes, length);
        if (page::text_length != answer[0] || memcmp(page::text, page_bytes, page::text_length)) fail(name, "the pages differ");
        all.push_back({paging, true, "", library_page});
        all.push_back({paging, false, "page", [&] { page::write_page(bytes, length); }});
        walk = costliest_walk(sheet);
    }
    if (walk.limit) {
        if (!(library_walk(sheet, walk) == walk.walked)) fail(name, "the walks differ");
        all.push_back({walking, true, "", [&] { library_walk(sheet, walk); }});
        for (int way = 0; way < walk::ways; way++) {
            auto walked = [&, way] { return walk::walk(way, bytes, length, walk.first, walk.second, walk.limit, most_pairs); };
            if (!(walked() == walk.walked)) fail(name, "walk " + std::to_string(way) + " answers otherwise");
            all.push_back({walking, false, std::to_string(way), walked});
        }
        result.walk_pairs = walk.walked.drawn;
    }
    if (!turns) return result;
    by_turns(all, turns);

    double *library[] = {&result.settle, &result.page, &result.walk}, *fastest[] = {&result.settle_fastest, &result.page_fastest, &result.walk_fastest};
    for (const Timed &timed : all) {
        double &least = *(timed.of_library ? library : fastest)[timed.group];
        if (least > 0 && least <= timed.least) continue;
        least = timed.least;
        if (timed.of_library) continue;
        if (timed.group == settling) result.settle_program = timed.program;
        if (timed.group == walking) result.walk_way = timed.program;
    }
    return result;
}

} // namespace measure
