// What was measured, as a table in Markdown and as a picture in SVG.
#pragma once
#include <cmath>
#include <cstdarg>
#include <map>
#include <sstream>

#include "costly.h"

namespace report {

using measure::Measured;

// A measured card with where it stands in the table and the picture.
struct Row {
    std::string row, group;
    Measured measured;
};

struct SizeRow {
    std::string family, by;
    int size;
    Measured measured;
};

struct Report {
    std::string version, machine, load_before, load_after;
    int turns;
    uint64_t seed;
    double search_seconds, step_seconds;
    std::vector<Row> rows;
    std::vector<SizeRow> sizes;
    costly::Search search;
};

__attribute__((format(printf, 1, 2))) inline std::string text(const char *format, ...)
{
    char made[1024];
    va_list values;
    va_start(values, format);
    vsnprintf(made, sizeof made, format, values);
    va_end(values);
    return made;
}

// A number with about three digits.
inline std::string number(double value) { return text(value < 0.1 ? "%.4f" : value < 10 ? "%.3f" : value < 100 ? "%.2f" : "%.0f", value); }
inline std::string ratio(double value) { return value > 0 ? text("%.2f", value) : ""; }

// Least, median and greatest of some ratios, with the card of the greatest.
struct Spread {
    std::vector<std::pair<double, std::string>> values;
    void add(double value, const std::string &name)
    {
        if (value > 0) values.push_back({value, name});
    }
    std::string cells()
    {
        if (values.empty()) return "| | | |";
        std::sort(values.begin(), values.end());
        return "| " + ratio(values.front().first) + " | " + ratio(values[values.size() / 2].first) + " | " + ratio(values.back().first) + " (" + values.back().second + ") |";
    }
};

inline void write_summary(std::ostream &out, const Report &report)
{
    Spread families, four, against, random, found, page, walk;
    double slowest = 0;
    std::string slowest_name;
    for (const Row &row : report.rows) {
        const Measured &measured = row.measured;
        Spread &group = row.group == "found by the search" ? found : measured.kinds == 4 ? four : row.group == "families" ? families : row.group == "made against the library" ? against : random;
        group.add(measured.ratio(), measured.name), page.add(measured.page_ratio(), measured.name), walk.add(measured.walk_ratio(), measured.name);
        if (measured.settle > slowest) slowest = measured.settle, slowest_name = measured.name;
    }
    out << "## In short\n| ratio of | least | median | greatest (card) | goal |\n|---|---|---|---|---|\n";
    out << "| settle, families " << families.cells() << " at most 1.0 |\n";
    out << "| settle, made against the library " << against.cells() << " at most 1.0 |\n";
    out << "| settle, random cards of 8 and 16 kinds " << random.cells() << " at most 1.0 |\n";
    out << "| settle, all cards of 4 kinds " << four.cells() << " at most 2.0 |\n";
    out << "| settle, the costliest cards that the search found " << found.cells() << " |\n";
    out << "| page, all cards " << page.cells() << " |\n";
    out << "| walk, all cards " << walk.cells() << " at most 1.5 |\n\n";
    out << "The slowest settle of all cards takes " << number(slowest * 1e3) << " ms (" << slowest_name << "); the goal is at most 5 ms.\n\n";
}

inline void write_cards(std::ostream &out, const Report &report)
{
    out << "## Card by card\nTimes are in milliseconds. The program is the fastest C++ one for the settle, and the way the fastest one for the walk, of `measurements/yardstick`.\n";
    std::string group;
    for (const Row &row : report.rows) {
        const Measured &measured = row.measured;
        if (row.group != group) {
            group = row.group;
            out << "\n**Cards: " << group << "**\n\n| card | kinds | lines | stages | settle | C++ | program | ratio | page | C++ | ratio | pairs of the walk | walk | C++ | way | ratio |\n"
                << "|---|---|---|---|---|---|---|---|---|---|---|---|---|---|---|---|\n";
        }
        out << "| " << measured.name << " | " << measured.kinds << " | " << measured.lines << " | " << measured.stages << " | " << number(measured.settle * 1e3) << " | "
            << number(measured.settle_fastest * 1e3) << " | " << measured.settle_program << " | **" << ratio(measured.ratio()) << "** | ";
        if (measured.page > 0) out << number(measured.page * 1e3) << " | " << number(measured.page_fastest * 1e3);
        else out << "|";
        out << " | " << ratio(measured.page_ratio()) << " | ";
        if (measured.walk > 0) out << measured.walk_pairs << " | " << number(measured.walk * 1e3) << " | " << number(measured.walk_fastest * 1e3) << " | " << measured.walk_way;
        else out << "| | |";
        out << " | " << ratio(measured.walk_ratio()) << " |\n";
    }
}

// What is kept the same where something grows.
inline const std::map<std::string, std::string> &kept()
{
    static const std::map<std::string, std::string> words = {
        {"kinds", "256 lines; as many stages as kinds for chain, four less for copies, one for the others"},
        {"lines", "16 kinds; 16 stages for chain, 12 for copies, one for the others"},
        {"stages", "32 kinds and 256 lines; at most 28 stages for copies and 30 for steady"},
    };
    return words;
}

inline void write_sizes(std::ostream &out, const Report &report)
{
    out << "\n## By size\nMilliseconds of the library's settle, and in brackets the ratio.\n";
    for (const char *by : {"kinds", "lines", "stages"}) {
        std::vector<int> sizes;
        std::vector<std::string> families;
        for (const SizeRow &row : report.sizes)
            if (row.by == by) {
                if (std::find(sizes.begin(), sizes.end(), row.size) == sizes.end()) sizes.push_back(row.size);
                if (std::find(families.begin(), families.end(), row.family) == families.end()) families.push_back(row.family);
            }
        out << "\n**By " << by << "**: " << kept().at(by) << ".\n\n| family |";
        for (int size : sizes) out << " " << size << " |";
        out << "\n|---|";
        for (size_t place = 0; place < sizes.size(); place++) out << "---|";
        for (const std::string &family : families) {
            out << "\n| " << family << " |";
            for (int size : sizes)
                for (const SizeRow &row : report.sizes)
                    if (row.by == by && row.family == family && row.size == size) out << " " << number(row.measured.settle * 1e3) << " (" << ratio(row.measured.ratio()) << ") |";
        }
        out << "\n";
    }
}

inline void write_found(std::ostream &out, const std::vector<costly::Found> &list, size_t most, double step_seconds)
{
    out << "\n| recipe | kinds | lines | stages | ms | steps, millions | lines² × kinds × stages, millions | steps for each |\n|---|---|---|---|---|---|---|---|\n";
    for (size_t place = 0; place < std::min(most, list.size()); place++) {
        const costly::Found &found = list[place];
        out << "| " << found.recipe << " | " << found.card.kinds << " | " << found.card.lines.size() << " | " << found.stages << " | " << number(found.seconds * 1e3) << " | "
            << number(found.seconds / step_seconds / 1e6) << " | " << number(found.count() / 1e6) << " | " << number(found.seconds_each() / step_seconds) << " |\n";
    }
}

inline void write_search(std::ostream &out, const Report &report)
{
    out << "\n## The search for costly cards\n" << report.search.tried << " cards were tried in " << number(report.search_seconds) << " s from seed " << report.seed << "; " << report.search.refused
        << " of them were refused. A step is what it takes to compare one count of two lines in plain C++, " << number(report.step_seconds * 1e9)
        << " ns in this run; steps are times over that. Of each recipe the card that costs most:\n";
    write_found(out, report.search.by_time, 100, report.step_seconds);
    out << "\nThe cards that cost most for each of lines² × kinds × stages:\n";
    write_found(out, report.search.by_count, 5, report.step_seconds);
}

inline void write_table(std::ostream &out, const Report &report, const std::string &picture)
{
    out << "# Speed: the table\n"
        << "`./bench` writes this file and the picture; `docs/SPEED.md` says how the figures are got, and `measurements/yardstick/README.md` what the cards and the programs are. A ratio is the library's time over that of the\n"
        << "fastest C++ program: under 1 the library is the faster.\n\n"
        << "Version " << report.version << ", " << report.turns << " turns, on " << report.machine << ". Processes that ran or waited to run, on average over a minute, this one included: " << report.load_before << " at the start, "
        << report.load_after << " at the end.\n\n";
    if (!picture.empty()) out << "![Ratios card by card, and time by size](" << picture << ")\n\n";
    write_summary(out, report);
    write_cards(out, report);
    write_sizes(out, report);
    write_search(out, report);
}

// A scale from numbers to places, by logarithm.
struct Scale {
    double least, most, from, to;
    double at(double value) const { return from + (to - from) * (std::log(value) - std::log(least)) / (std::log(most) - std::log(least)); }
};

// The numbers 1, 2 and 5 times a power of ten, within bounds.
inline std::vector<double> ticks(double least, double most)
{
    std::vector<double> made;
    for (double power = 1e-6; power < 1e6; power *= 10)
        for (double times : {1, 2, 5})
            if (power * times >= least * 0.999 && power * times <= most * 1.001) made.push_back(power * times);
    return made;
}

// The next tick at or below a number, or at or above it.
inline double tick_below(double value) { return ticks(value / 10, value).back(); }
inline double tick_above(double value) { return ticks(value, value * 10).front(); }

class Picture {
    std::ostringstream out;

  public:
    void line(double x1, double y1, double x2, double y2, const char *style) { out << text("<line x1='%.1f' y1='%.1f' x2='%.1f' y2='%.1f' class='%s'/>\n", x1, y1, x2, y2, style); }
    void words(double x, double y, const std::string &said, const char *style) { out << text("<text x='%.1f' y='%.1f' class='%s'>", x, y, style) << said << "</text>\n"; }
    void circle(double x, double y, double radius, const std::string &style) { out << text("<circle cx='%.1f' cy='%.1f' r='%.1f' class='%s'/>\n", x, y, radius, style.c_str()); }
    void square(double x, double y, double half, const char *style) { out << text("<rect x='%.1f' y='%.1f' width='%.1f' height='%.1f' class='%s'/>\n", x - half, y - half, 2 * half, 2 * half, style); }
    void triangle(double x, double y, double half, const char *style)
    {
        out << text("<path d='M%.1f %.1fL%.1f %.1fL%.1f %.1fZ' class='%s'/>\n", x, y - half, x + half, y + half, x - half, y + half, style);
    }
    void path(const std::vector<std::pair<double, double>> &points, const std::string &style)
    {
        out << "<path class='" << style << "' d='";
        for (size_t place = 0; place < points.size(); place++) out << text("%c%.1f %.1f", place ? 'L' : 'M', points[place].first, points[place].second);
        out << "'/>\n";
    }
    // The whole picture. Its background is its own; where the reader prefers dark pages it and the text change places.
    std::string whole(double width, double height) const
    {
        return text("<svg xmlns='http://www.w3.org/2000/svg' viewBox='0 0 %.0f %.0f' width='%.0f' height='%.0f' font-family='sans-serif' font-size='11'>\n", width, height, width, height) +
               "<title>Settle, page and walk of the library over the fastest C++ program, card by card, and settle by size</title>\n"
               "<style>\n"
               ".paper { fill: #ffffff } text { fill: #222222 } .title { font-size: 15px; font-weight: bold } .head { font-weight: bold } .right { text-anchor: end } .middle { text-anchor: middle }\n"
               ".grid { stroke: #888888; stroke-opacity: 0.25 } .row { stroke: #888888; stroke-opacity: 0.35; stroke-dasharray: 1 3 } .one { stroke: #222222; stroke-width: 1.5 } .goal { stroke: #222222; stroke-dasharray: 5 4 }\n"
               ".settle { fill: #2f7fd1; stroke: #2f7fd1 } .page { fill: none; stroke: #d97a16; stroke-width: 1.4 } .walk { fill: none; stroke: #2e9b57; stroke-width: 1.4 }\n"
               ".dot0 { fill: #2f7fd1 } .dot1 { fill: #d97a16 } .dot2 { fill: #2e9b57 } .dot3 { fill: #9a5fd0 } .dot4 { fill: #d0485f }\n"
               ".ring { fill: none } .ring0, .path0 { stroke: #2f7fd1 } .ring1, .path1 { stroke: #d97a16 } .ring2, .path2 { stroke: #2e9b57 } .ring3, .path3 { stroke: #9a5fd0 } .ring4, .path4 { stroke: #d0485f }\n"
               ".path { fill: none; stroke-width: 1.6 } .dashed { stroke-dasharray: 4 3; stroke-width: 1.2 }\n"
               "@media (prefers-color-scheme: dark) { .paper { fill: #16181d } text { fill: #dddddd } .one, .goal { stroke: #dddddd } }\n"
               "</style>\n" +
               text("<rect width='%.0f' height='%.0f' rx='6' class='paper'/>\n", width, height) + out.str() + "</svg>\n";
    }
};

// The ratios card by card, those of a group from the greatest down; returns where it ends.
inline double draw_ratios(Picture &picture, const Report &report, double left, double right, double top)
{
    constexpr double step = 15, head = 20;
    double least = 1, most = 1;
    // The rows of each group, in the order of the table, with the cards of each.
    std::vector<std::pair<std::string, std::vector<std::pair<std::string, std::vector<const Measured *>>>>> groups;
    for (const Row &row : report.rows) {
        const Measured &measured = row.measured;
        for (double value : {measured.ratio(), measured.page_ratio(), measured.walk_ratio()})
            if (value > 0) least = std::min(least, value), most = std::max(most, value);
        if (groups.empty() || groups.back().first != row.group) groups.push_back({row.group, {}});
        auto &rows = groups.back().second;
        if (rows.empty() || rows.back().first != row.row) rows.push_back({row.row, {}});
        rows.back().second.push_back(&measured);
    }
    double bottom = top;
    for (auto &group : groups) bottom += head + step * double(group.second.size());
    Scale scale{tick_below(least * 0.95), tick_above(most * 1.05), left, right};
    for (double tick : ticks(scale.least, scale.most)) {
        picture.line(scale.at(tick), top, scale.at(tick), bottom, "grid");
        picture.words(scale.at(tick), bottom + 15, text("%g", tick), "middle");
        picture.words(scale.at(tick), top - 5, text("%g", tick), "middle");
    }
    picture.words((left + right) / 2, bottom + 32, "time of the library over that of the fastest C++ program; the farther left the better", "middle");
    picture.line(scale.at(1), top, scale.at(1), bottom, "one");
    picture.line(scale.at(1.5), top, scale.at(1.5), bottom, "goal");
    double y = top;
    for (auto &group : groups) {
        picture.words(left - 8, y + 14, group.first, "head right");
        y += head;
        auto &rows = group.second;
        auto greatest = [](const std::vector<const Measured *> &cards) {
            double value = 0;
            for (const Measured *measured : cards) value = std::max(value, measured->ratio());
            return value;
        };
        std::stable_sort(rows.begin(), rows.end(), [&](const auto &one, const auto &other) { return greatest(one.second) > greatest(other.second); });
        for (auto &row : rows) {
            double middle = y + step / 2;
            picture.words(left - 8, middle + 4, row.first, "right");
            picture.line(left, middle, right, middle, "row");
            for (const Measured *measured : row.second) {
                if (measured->page > 0) picture.square(scale.at(measured->page_ratio()), middle, 3, "page");
                if (measured->walk > 0) picture.triangle(scale.at(measured->walk_ratio()), middle, 3.5, "walk");
            }
            for (const Measured *measured : row.second) picture.circle(scale.at(measured->ratio()), middle, 3.6, "settle");
            y += step;
        }
    }
    return bottom;
}

// The time of the library and of the fastest program by one size.
inline void draw_size(Picture &picture, const Report &report, const std::string &by, const std::vector<std::string> &families, double left, double right, double top, double bottom, double least, double most)
{
    std::vector<int> sizes;
    for (const SizeRow &row : report.sizes)
        if (row.by == by && std::find(sizes.begin(), sizes.end(), row.size) == sizes.end()) sizes.push_back(row.size);
    Scale across{double(sizes.front()), double(sizes.back()), left + 12, right - 12}, up{least, most, bottom, top};
    picture.words(left, top - 8, "settle by " + by, "head");
    for (double tick : ticks(least, most)) {
        picture.line(left, up.at(tick), right, up.at(tick), "grid");
        if (std::fabs(std::log10(tick) - std::round(std::log10(tick))) < 1e-6) picture.words(left - 6, up.at(tick) + 4, text("%g", tick), "right");
    }
    if (least < 5 && most > 5) picture.line(left, up.at(5), right, up.at(5), "goal"), picture.words(left - 6, up.at(5) + 4, "5 ms", "right");
    for (int size : sizes) {
        picture.line(across.at(size), top, across.at(size), bottom, "grid");
        picture.words(across.at(size), bottom + 14, std::to_string(size), "middle");
    }
    for (size_t family = 0; family < families.size(); family++) {
        std::vector<std::pair<double, double>> library, fastest;
        for (const SizeRow &row : report.sizes)
            if (row.by == by && row.family == families[family]) {
                double at = across.at(by == "stages" ? row.measured.stages : row.size); // a family may have fewer stages than were asked for
                library.push_back({at, up.at(row.measured.settle * 1e3)});
                fastest.push_back({at, up.at(row.measured.settle_fastest * 1e3)});
            }
        std::string mark = std::to_string(family);
        if (library.empty()) continue;
        picture.path(fastest, "path dashed path" + mark);
        picture.path(library, "path path" + mark);
        for (auto &point : fastest) picture.circle(point.first, point.second, 2.6, "ring ring" + mark);
        for (auto &point : library) picture.circle(point.first, point.second, 3, "dot" + mark);
    }
}

inline std::string picture_of(const Report &report)
{
    constexpr double width = 1060, left = 200, right = 600, top = 92, size_left = 700, size_right = 1035;
    Picture picture;
    picture.words(16, 26, "Limbatue " + report.version + " beside the fastest C++ program of the yardstick, in one run", "title");
    picture.circle(left + 4, 50, 3.6, "settle"), picture.words(left + 13, 54, "settle", "");
    picture.square(left + 72, 50, 3, "page"), picture.words(left + 81, 54, "page", "");
    picture.triangle(left + 132, 50, 3.5, "walk"), picture.words(left + 141, 54, "walk", "");
    picture.line(left + 190, 50, left + 212, 50, "one"), picture.words(left + 217, 54, "1.0", "");
    picture.line(left + 256, 50, left + 278, 50, "goal"), picture.words(left + 283, 54, "1.5, the goal for walks", "");
    double bottom = draw_ratios(picture, report, left, right, top);

    std::vector<std::string> families;
    double least = 1e9, most = 0;
    for (const SizeRow &row : report.sizes) {
        if (std::find(families.begin(), families.end(), row.family) == families.end()) families.push_back(row.family);
        for (double seconds : {row.measured.settle, row.measured.settle_fastest}) least = std::min(least, seconds * 1e3), most = std::max(most, seconds * 1e3);
    }
    double at = size_left;
    for (size_t family = 0; family < families.size(); family++) {
        picture.circle(at + 4, 50, 3.6, "dot" + std::to_string(family));
        picture.words(at + 12, 54, families[family], "");
        at += 24 + 6.2 * double(families[family].size());
    }
    picture.words(size_left, 72, "milliseconds; solid: the library, dashed: the fastest C++", "");
    double each = (bottom - top) / 3;
    int place = 0;
    for (const char *by : {"kinds", "lines", "stages"}) {
        double from = top + 14 + each * place;
        draw_size(picture, report, by, families, size_left, size_right, from, from + each - 50, tick_below(least), tick_above(most * 1.05));
        place++;
    }
    return picture.whole(width, bottom + 46);
}

} // namespace report
