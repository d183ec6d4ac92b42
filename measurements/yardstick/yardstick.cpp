// yardstick [OPTION NUMBER-OR-FILE..] [SHEET..]: measures the library beside C++ programs without proofs, in one process, and searches for costly cards.
//   --turns N        each time is the least of N turns; 9 where it is not given. With 0 nothing is timed or searched for: the answers of all programs are compared
//   --search SECONDS for how long costly cards are searched for; 20
//   --seed N         of the search; 1
//   --table FILE     writes the table there, in Markdown
//   --picture FILE   writes the picture there, in SVG
//   --worst FILE     writes the costliest card that was found there, as a sheet
//   --only search    searches alone: no other card is measured, and neither table nor picture is written
//   --cards FOLDER   writes the cards of the table there, as sheets, and measures nothing
// Where sheets are named, these alone are measured, and nothing is searched for.
// It exits 1 where two programs answer differently or a sheet is refused, 2 on usage, 3 where a file can not be read or written.
#include <fstream>
#include <iterator>

#include "report.h"

namespace {

[[noreturn]] void stop(int status, const std::string &why)
{
    fprintf(stderr, "yardstick: %s\n", why.c_str());
    exit(status);
}

void write_file(const std::string &name, const std::string &bytes)
{
    std::ofstream file(name, std::ios::binary);
    file.write(bytes.data(), std::streamsize(bytes.size()));
    file.close();
    if (!file) stop(3, "can not write " + name);
}

std::string string_of(const Sheet &sheet) { return std::string(sheet.begin(), sheet.end()); }

Sheet read_sheet(const std::string &name)
{
    std::ifstream file(name, std::ios::binary);
    if (!file) stop(3, "can not read " + name);
    return Sheet(std::istreambuf_iterator<char>(file), {});
}

// Processes that run or wait to run, on average over the last minute.
std::string load()
{
    std::string word;
    std::ifstream("/proc/loadavg") >> word;
    return word.empty() ? "unknown" : word;
}

std::string machine()
{
    std::ifstream file("/proc/cpuinfo");
    std::string line, model = "an unknown processor";
    int processors = 0;
    while (std::getline(file, line)) {
        if (line.rfind("processor", 0) == 0) processors++;
        if (line.rfind("model name", 0) == 0 && line.find(": ") != std::string::npos) model = line.substr(line.find(": ") + 2);
    }
    return std::to_string(processors) + " processors of " + model;
}

void print_head() { puts("card                     kinds lines stages |  settle      C++ program      ratio |    page      C++  ratio |   pairs     walk      C++ way ratio"); }

void print(const measure::Measured &measured)
{
    printf("%-24s %5d %5d %6d | %7.4f %8.4f %-12s %5.2f", measured.name.c_str(), measured.kinds, measured.lines, measured.stages, measured.settle * 1e3, measured.settle_fastest * 1e3, measured.settle_program.c_str(),
           measured.ratio());
    if (measured.page > 0) printf(" | %7.4f %8.4f %6.2f", measured.page * 1e3, measured.page_fastest * 1e3, measured.page_ratio());
    if (measured.walk > 0)
        printf(" | %7llu %8.4f %8.4f %3s %5.2f", (unsigned long long)measured.walk_pairs, measured.walk * 1e3, measured.walk_fastest * 1e3, measured.walk_way.c_str(), measured.walk_ratio());
    puts("");
    fflush(stdout);
}

} // namespace

int main(int count, char **words)
{
    std::map<std::string, std::string> options = {{"--turns", "9"}, {"--search", "20"}, {"--seed", "1"}, {"--table", ""}, {"--picture", ""}, {"--worst", ""}, {"--only", ""}, {"--cards", ""}};
    std::vector<std::string> sheets;
    for (int place = 1; place < count; place++) {
        std::string word = words[place];
        if (word.rfind("--", 0) != 0) sheets.push_back(word);
        else if (options.count(word) && place + 1 < count) options[word] = words[++place];
        else stop(2, "usage: yardstick [--turns N] [--search SECONDS] [--seed N] [--table FILE] [--picture FILE] [--worst FILE] [--only search] [--cards FOLDER] [SHEET..]");
    }
    report::Report report;
    report.turns = atoi(options["--turns"].c_str()), report.seed = strtoull(options["--seed"].c_str(), nullptr, 10), report.search_seconds = atof(options["--search"].c_str());
    if (report.turns < 0 || report.search_seconds < 0) stop(2, "usage: numbers are 0 or more");
    bool search_alone = options["--only"] == "search";
    if (!options["--only"].empty() && !search_alone) stop(2, "usage: --only search");

    if (!options["--cards"].empty()) {
        for (const families::Named &named : families::table_cards()) {
            std::string name = named.name;
            name.erase(std::remove(name.begin(), name.end(), ','), name.end());
            std::replace(name.begin(), name.end(), ' ', '_');
            write_file(options["--cards"] + "/" + name + ".sheet", string_of(sheet_of(named.card, named.fields)));
        }
        return 0;
    }
    if (!report.turns) {
        int compared = 0;
        for (const families::Named &named : families::table_cards()) measure::measure(named.name, sheet_of(named.card, named.fields), 0, false), compared++;
        for (const families::Sized &sized : families::cards_by_size()) measure::measure(sized.family + " by " + sized.by, sheet_of(sized.card), 0, true), compared++;
        for (const std::string &name : sheets) measure::measure(name, read_sheet(name), 0, false), compared++;
        printf("yardstick: the library and the C++ programs answer the same on %d cards\n", compared);
        return 0;
    }
    print_head();
    if (!sheets.empty()) {
        for (const std::string &name : sheets) print(measure::measure(name.substr(name.rfind('/') + 1), read_sheet(name), report.turns, false));
        return 0;
    }

    report.version = LIMBATUE_VERSION_TEXT, report.machine = machine(), report.load_before = load();
    std::vector<families::Named> cards;
    std::vector<families::Sized> sizes;
    if (!search_alone) cards = families::table_cards(), sizes = families::cards_by_size();
    for (const families::Named &named : cards) {
        report.rows.push_back({named.row, named.group, measure::measure(named.name, sheet_of(named.card, named.fields), report.turns, false)});
        print(report.rows.back().measured);
    }
    for (const families::Sized &sized : sizes) {
        std::string name = sized.family + ", " + std::to_string(sized.size) + " " + sized.by;
        report.sizes.push_back({sized.family, sized.by, sized.size, measure::measure(name, sheet_of(sized.card), report.turns, true)});
        print(report.sizes.back().measured);
    }
    report.step_seconds = measure::step_seconds();
    report.search = costly::search(report.seed, report.search_seconds);
    for (size_t place = 0; place < report.search.by_time.size(); place++) {
        const costly::Found &found = report.search.by_time[place];
        if (place < 3) {
            report.rows.push_back({found.recipe, "found by the search", measure::measure(found.recipe, found.sheet, report.turns, true)});
            print(report.rows.back().measured);
        } else printf("%-24s %5d %5zu %6d | %7.4f\n", found.recipe.c_str(), found.card.kinds, found.card.lines.size(), found.stages, found.seconds * 1e3);
    }
    report.step_seconds = std::min(report.step_seconds, measure::step_seconds());
    report.load_after = load();

    if (!options["--worst"].empty() && !report.search.by_time.empty()) write_file(options["--worst"], string_of(report.search.by_time.front().sheet));
    std::ostringstream said;
    if (search_alone) report::write_search(said, report);
    else {
        std::ostringstream table;
        std::string picture = options["--picture"];
        report::write_table(table, report, picture.substr(picture.rfind('/') + 1));
        if (!options["--table"].empty()) write_file(options["--table"], table.str());
        if (!picture.empty()) write_file(picture, report::picture_of(report));
        report::write_summary(said, report);
    }
    printf("\n%s", said.str().c_str());
}
