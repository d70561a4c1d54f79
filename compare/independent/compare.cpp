// Gives every case to our proved libraries and to the independent program, and fails at the first answer that differs or number never seen.
// Run from the repository's folder, by compare/independent/run.

#include <atomic>
#include <chrono>
#include <cstdio>
#include <fstream>
#include <functional>
#include <mutex>
#include <sstream>
#include <thread>

#include "cases.hpp"
#include "independent.hpp"
#include "library.hpp"
#include "programs.hpp"

using cases::Case;
using cases::MoveRequest;
using cases::Random;
using independent::Bytes;
using independent::Lists;
using independent::Planner;
using independent::Record;
using independent::Sheet;
using library::Tally;

// ---------------------------------------------------------------------------------------------
// Work, and what was seen in it
// ---------------------------------------------------------------------------------------------

enum Kind { stored, one_byte, tiny, small, damaged_sheets, damaged_plans, dense, large, every_field, chains, kinds };
static const char* const kind_names[kinds] = {
    "examples and stored sheets", "one byte changed, or cut", "tiny crossings", "small crossings",
    "damaged sheets", "damaged plans", "dense crossings", "large crossings", "every field cut or wrong", "chains"};

enum Program { judge_program, planner_program, first_program, better_program, why_program, net_program, dot_program, program_count };

// What is added up over all jobs.
struct Seen {
    Tally tally;
    uint64_t cases[kinds] = {}, readable[kinds] = {}, sheet_refused[kinds] = {}, plan_refused[kinds] = {};
    uint64_t tiny_sheets = 0;
    library::Answers program[program_count];
    independent::DoubleCheckCounts double_checks;

    void add(const Seen& other) {
        tally.add(other.tally);
        for (int kind = 0; kind < kinds; kind++) {
            cases[kind] += other.cases[kind];
            readable[kind] += other.readable[kind];
            sheet_refused[kind] += other.sheet_refused[kind];
            plan_refused[kind] += other.plan_refused[kind];
        }
        tiny_sheets += other.tiny_sheets;
        for (int p = 0; p < program_count; p++) program[p].add(other.program[p]);
        double_checks.add(other.double_checks);
    }
};

// A part of the work with a seed of its own, so that its cases are the same whichever worker does it.
struct Job {
    std::string name;
    uint64_t seed;
    std::function<void(Random&, Seen&)> run;
};

static unsigned long long shown(uint64_t count) { return count; }

static std::atomic<uint64_t> cases_done{0};
static std::mutex printing;

[[noreturn]] static void fail(const std::string& text) {
    const std::lock_guard<std::mutex> lock(printing);
    std::printf("%s\ncompare: failed\n", text.c_str());
    std::fflush(stdout);
    std::_Exit(1);
}

static std::string text_of(const Case& c) {
    return "case: " + c.kind + "\nsheet " + independent::hex(c.sheet) + "\nplan " + independent::hex(c.plan)
           + "\nroom to write in " + std::to_string(c.write_room.size()) + " bytes, to plan in "
           + std::to_string(c.planning_room.size()) + " bytes, words " + std::to_string(c.words.size());
}

static void compare(Seen& seen, Kind kind, const Case& c, bool sheet_too = true) {
    try {
        library::BothOn both(c, seen.tally);
        if (sheet_too) both.compare_for_sheet();
        const uint32_t number = both.compare_for_plan();
        seen.cases[kind]++;
        if (number == 0) seen.readable[kind]++;
        if (number >= 1 && number <= 14) seen.sheet_refused[kind]++;
        if (number >= 15) seen.plan_refused[kind]++;
    } catch (const std::exception& found) {
        fail(text_of(c) + "\n" + found.what());
    }
    cases_done++;
}

// ---------------------------------------------------------------------------------------------
// Jobs
// ---------------------------------------------------------------------------------------------

// Document 01's sheet S, plans A and B.
static const Bytes sheet_S = cases::from_hex(
    "01 002D 02 00C8 012C 00C8 012C 02"
    "00 00000000 02 00 03E8 0064 01 03E8 0000"
    "01 000001F4 02 01 03E8 0064 00 03E8 0000");
static const Bytes plan_A = cases::from_hex("01 000A 02 02 00 01 02 00 01");
static const Bytes plan_B = cases::from_hex("01 000A 02 02 00 01 02 01 00");

static Case case_of(Random& random, const char* kind, const Bytes& sheet, const Bytes& plan) {
    Case c;
    c.kind = kind;
    c.sheet = sheet;
    c.plan = plan;
    cases::add_other_inputs(random, c);
    return c;
}

// Asks for every cart, and one more, in every record of positions in range with their sum as the count; and in each of them damaged.
static void ask_everything(Random& random, Case& c, const Sheet& sheet) {
    const uint32_t m = static_cast<uint32_t>(sheet.carts.size());
    Record record;
    while (true) {
        for (uint32_t cart = 0; cart <= m; cart++) c.move_requests.push_back(MoveRequest{record, cart});
        c.move_requests.push_back(MoveRequest{cases::spoilt_record(random, sheet, record), random.below(m + 1)});
        uint32_t next = 0;
        while (next < m && record.positions[next] == sheet.carts[next].steps.size() + 1) {
            record.made -= record.positions[next];
            record.positions[next] = 0;
            next++;
        }
        if (next == m) return;
        record.positions[next]++;
        record.made++;
    }
}

// The words in this column of a file's lines.
static std::vector<std::string> column_of(const char* file, int column) {
    std::ifstream input(file);
    std::vector<std::string> found;
    std::string line;
    while (std::getline(input, line)) {
        if (line.empty() || line[0] == '#') continue;
        std::istringstream words(line);
        std::string word;
        for (int i = 0; i <= column; i++) words >> word;
        found.push_back(word);
    }
    if (found.empty()) fail(std::string("no sheets in ") + file);
    return found;
}

// Room for the net one byte short, exactly long enough and longer, of a plan that is readable.
static void lend_rooms_around_net(Random& random, Case& c) {
    const independent::PlanAnswer plan = independent::read_plan(c.sheet, c.plan);
    const uint32_t needed = static_cast<uint32_t>(independent::net_length(plan.sheet, plan.lists));
    for (uint32_t length = needed > 0 ? needed - 1 : 0; length <= needed + 1; length++) c.net_rooms.push_back(cases::patterned_room(random, length));
}

static void compare_stored(Random& random, Seen& seen) {
    Bytes one_lane = sheet_S;
    one_lane[29] = 0;
    for (const Bytes& sheet : {sheet_S, one_lane}) {
        for (const Bytes& plan : {plan_A, plan_B}) {
            Case c = case_of(random, "document 01's sheet and plan", sheet, plan);
            ask_everything(random, c, independent::read_sheet(sheet).sheet);
            lend_rooms_around_net(random, c);
            compare(seen, stored, c);
        }
    }
    for (const char* sheet : {"01 0009 01 0000 0000 00", "", "02"}) {
        Case c = case_of(random, "document 01's examples", cases::from_hex(sheet), cases::from_hex("01 0005 01 00"));
        if (independent::read_sheet(c.sheet).number == 0) lend_rooms_around_net(random, c);
        compare(seen, stored, c);
    }
    for (const Sheet& sheet : {cases::longest_sheet(), cases::sheet_of_longest_net()}) {
        const Bytes longest = cases::sheet_to_bytes(sheet);
        Case c = case_of(random, "the longest sheet or net", longest, cases::plan_to_bytes(cases::planned_lists(longest)));
        lend_rooms_around_net(random, c);
        compare(seen, stored, c);
    }
    std::vector<std::string> sheets = column_of("compare/independent/cut-groups.txt", 1);
    for (const std::string& sheet : column_of("compare/independent/first-come.txt", 0)) sheets.push_back(sheet);
    for (const std::string& sheet : column_of("compare/planned.txt", 0)) sheets.push_back(sheet);
    for (const std::string& text : sheets) {
        const Bytes sheet = cases::from_hex(text);
        Case c = case_of(random, "stored sheet", sheet, cases::plan_to_bytes(cases::planned_lists(sheet)));
        c.planning_room = cases::random_room(random, 156);
        compare(seen, stored, c);
    }
}

// Every value of every byte, and every cut with the length field as it was and correct.
static std::vector<Bytes> all_changes(const Bytes& bytes) {
    std::vector<Bytes> changes;
    for (size_t i = 0; i < bytes.size(); i++) {
        Bytes changed = bytes;
        for (uint32_t value = 0; value < 256; value++) {
            changed[i] = static_cast<uint8_t>(value);
            changes.push_back(changed);
        }
        Bytes cut(bytes.begin(), bytes.begin() + static_cast<long>(i));
        changes.push_back(cut);
        cases::correct_length(cut);
        changes.push_back(cut);
    }
    return changes;
}

static void compare_one_byte(Random& random, Seen& seen) {
    for (const Bytes& sheet : all_changes(sheet_S)) compare(seen, one_byte, case_of(random, "S changed", sheet, plan_A));
    for (const Bytes& plan : all_changes(plan_A)) compare(seen, one_byte, case_of(random, "A changed", sheet_S, plan));
}

// Three carts of three steps on three zones, each on a lane of its own.
static Sheet sheet_of_three() {
    Sheet sheet;
    sheet.zones = {{200, 300}, {210, 310}, {220, 320}};
    for (uint32_t c = 0; c < 3; c++) sheet.carts.push_back({c, 500 * c, {{c, 1000, 100}, {(c + 1) % 3, 900, 50}, {(c + 2) % 3, 800, 0}}});
    return sheet;
}

// Every field of the longest sheet and of a small one, each through every operation with a plan that would have fitted.
static void compare_every_field(Random& random, Seen& seen) {
    for (const Sheet& sheet : {sheet_of_three(), cases::longest_sheet()}) {
        const Bytes plan = cases::plan_to_bytes(cases::one_order_lists(random, sheet));
        for (const cases::SpoiltSheet& spoilt : cases::spoilt_sheets(sheet)) {
            compare(seen, every_field, case_of(random, "a field cut or wrong", spoilt.bytes, plan));
        }
    }
}

// For each cart, outside its steps and in each of them, a sheet that is cut there and one that has a wrong value there.
static std::vector<Bytes> sheets_for_every_part() {
    std::vector<Bytes> sheets;
    bool told[17][9][2] = {};
    for (const cases::SpoiltSheet& spoilt : cases::spoilt_sheets(cases::longest_sheet())) {
        bool& already = told[spoilt.wanted.cart][spoilt.wanted.step][spoilt.wanted.number == 1];
        if (!already) sheets.push_back(spoilt.bytes);
        already = true;
    }
    return sheets;
}

// All routes and all plans; with two carts all records too, and with three those of one plan in three hundred.
static void compare_tiny(Random& random, Seen& seen, uint32_t m, uint32_t n, const std::vector<uint32_t>& lanes) {
    cases::for_every_tiny_crossing(random, m, n, lanes, [&](const Sheet& sheet, const Lists& lists, bool first) {
        Case c;
        c.kind = "tiny crossing";
        c.sheet = cases::sheet_to_bytes(sheet);
        c.plan = cases::plan_to_bytes(lists);
        const uint32_t length = static_cast<uint32_t>(c.plan.size());
        c.write_room = cases::random_room(random, length - 1 + random.below(4));
        c.planning_room = cases::random_room(random, length + random.below(3));
        c.words = cases::random_words(random);
        c.list_zones = {random.below(n + 1)};
        const uint32_t net_length = static_cast<uint32_t>(independent::net_length(sheet, lists));
        c.net_rooms = {cases::patterned_room(random, net_length - (random.one_in(4) ? 1 : 0) + random.below(2))};
        if (m == 2 || random.one_in(300)) {
            ask_everything(random, c, sheet);
        } else {
            const Record record = cases::record_by_random_run(random, sheet, lists);
            c.move_requests.push_back(MoveRequest{record, random.below(m + 1)});
            c.move_requests.push_back(MoveRequest{cases::spoilt_record(random, sheet, record), random.below(m)});
        }
        if (first) seen.tiny_sheets++;
        compare(seen, tiny, c, first);
    });
}

static constexpr uint64_t runs_per_number = 12;

// The judge program on so many inputs of each number, on longer ones than it reads, on every part of a sheet, and on none.
static void compare_judge_program(Random& random, Seen& seen) {
    Bytes with_plan = sheet_S;
    with_plan.insert(with_plan.end(), plan_A.begin(), plan_A.end());
    Bytes longer = with_plan;
    longer.resize(5000, 1);
    std::vector<Bytes> inputs = sheets_for_every_part();
    inputs.insert(inputs.end(), {Bytes(), with_plan, longer});
    for (const Bytes& input : inputs) seen.program[judge_program].count(programs::compare_judge(input));
    uint64_t runs[29] = {};
    for (uint32_t tried = 0; tried < 40000; tried++) {
        const Case c = cases::random_small_case(random);
        const uint32_t number = programs::outcome_in(independent::judge_program(c.standard_input)).number;
        if (runs[number] >= runs_per_number) continue;
        runs[number]++;
        seen.program[judge_program].count(programs::compare_judge(c.standard_input));
    }
}

// The planner program with each word on so many sheets of each number, on the stored sheets, on every part of a sheet, on a very
// long one, and on none.
static void compare_planner_program(Random& random, Seen& seen) {
    const std::pair<Program, Planner> words[3] = {
        {planner_program, Planner::removal}, {first_program, Planner::first_come}, {better_program, Planner::better}};
    Bytes longer = sheet_S;
    longer.resize(sheet_S.size() + 65536, 0);
    std::vector<Bytes> sheets = sheets_for_every_part();
    sheets.insert(sheets.end(), {Bytes(), sheet_S, longer});
    for (const std::string& text : column_of("compare/independent/first-come.txt", 0)) sheets.push_back(cases::from_hex(text));
    for (const Bytes& sheet : sheets) {
        for (const auto& word : words) seen.program[word.first].count(programs::compare_planner(sheet, word.second));
    }
    uint64_t runs[29] = {};
    for (uint32_t tried = 0; tried < 20000; tried++) {
        const Case c = cases::random_small_case(random);
        const uint32_t number = independent::read_sheet(c.sheet).number;
        if (runs[number] >= runs_per_number) continue;
        runs[number]++;
        for (const auto& word : words) seen.program[word.first].count(programs::compare_planner(c.sheet, word.second));
    }
}

// A sheet, a plan, and a request, as the program takes them.
static Bytes why_input(const Bytes& sheet, const Bytes& plan, const Record& record, uint64_t cart) {
    Bytes input = sheet;
    input.insert(input.end(), plan.begin(), plan.end());
    const Bytes request = cases::record_and_cart(record, static_cast<uint32_t>(cart));
    input.insert(input.end(), request.begin(), request.end());
    return input;
}

// The program that says why on chains of each length, on so many inputs of each number, on every part of a sheet, on inputs that
// are too short, and on longer ones than it reads.
static void compare_why_program(Random& random, Seen& seen) {
    const auto count = [&](const Bytes& input) { seen.program[why_program].count(programs::compare_why(input)); };
    const Bytes with_request = why_input(sheet_S, plan_A, Record(), 1);
    for (size_t length = 0; length < 21; length++) {
        programs::compare_why(Bytes(with_request.begin(), with_request.begin() + static_cast<long>(length)));
        programs::compare_why(Bytes(with_request.end() - static_cast<long>(length), with_request.end()));
    }
    for (size_t length = 21; length <= with_request.size(); length++) {
        count(Bytes(with_request.begin(), with_request.begin() + static_cast<long>(length)));
    }
    for (uint32_t total : {2047, 2048, 2049, 2069, 5000}) {
        // the request at the end of what is read, after a plan that is too long, and after a sheet that takes all that is read before it
        Bytes longer = why_input(sheet_S, plan_A, Record(), 0);
        longer.resize(total, 0);
        const Bytes request = cases::record_and_cart(Record(), 1);
        std::copy(request.begin(), request.end(), longer.begin() + std::min(total, 2048u) - 21);
        count(longer);
        for (uint32_t said : {2026, 2027, 2028, 2048}) {
            cases::put_number(longer, 1, 2, said);
            count(longer);
        }
    }
    for (const Bytes& sheet : sheets_for_every_part()) count(why_input(sheet, plan_A, Record(), 0));
    for (uint32_t length = 1; length <= 16; length++) {
        for (int i = 0; i < 4; i++) {
            const cases::Chained made = cases::random_chain(random, length);
            for (uint32_t cart : made.chain) {
                count(why_input(cases::sheet_to_bytes(made.sheet), cases::plan_to_bytes(made.lists), made.record, cart));
            }
        }
    }
    uint64_t runs[29] = {};
    for (uint32_t tried = 0; tried < 40000; tried++) {
        const Case c = cases::random_small_case(random);
        for (const MoveRequest& request : c.move_requests) {
            if (c.sheet.size() + c.plan.size() + 21 > 2048) break;
            const Bytes input = why_input(c.sheet, c.plan, request.record, request.cart);
            const uint32_t number = programs::outcome_in(independent::why_program(input).output).number;
            if (runs[number] >= runs_per_number) continue;
            runs[number]++;
            count(input);
        }
    }
}

// The program that prints the net, with its word and without, on so many inputs of each number, on every part of a sheet, on longer
// ones than it reads, on the longest net, and on none; and words that are none of its.
static void compare_net_program(Random& random, Seen& seen) {
    const auto count = [&](const Bytes& input) {
        seen.program[net_program].count(programs::compare_net(input, false));
        seen.program[dot_program].count(programs::compare_net(input, true));
    };
    const auto together = [](Bytes sheet, const Bytes& plan) {
        sheet.insert(sheet.end(), plan.begin(), plan.end());
        return sheet;
    };
    for (const char* words : {"dots", "Dot", "do", "text", "\"\"", "dot dot", "dot x", "x dot"}) programs::compare_net_words(words);
    std::vector<Bytes> inputs = sheets_for_every_part();
    Bytes longer = together(sheet_S, plan_A);
    longer.resize(5000, 1);
    Bytes one_lane = sheet_S;
    one_lane[29] = 0;
    const Sheet largest = cases::sheet_of_longest_net();
    inputs.insert(inputs.end(), {Bytes(), together(sheet_S, plan_A), together(sheet_S, plan_B), together(one_lane, plan_A), longer,
                                 cases::from_hex("01 0009 01 0000 0000 00 01 0005 01 00"),
                                 together(cases::sheet_to_bytes(largest), cases::plan_to_bytes(cases::visitors_of(largest)))});
    for (const Bytes& input : inputs) count(input);
    uint64_t runs[29] = {};
    for (uint32_t tried = 0; tried < 40000; tried++) {
        const Case c = tried % 20 == 0 ? cases::random_large_case(random) : cases::random_small_case(random);
        const uint32_t number = programs::outcome_in(independent::net_program(c.standard_input, false).errors).number;
        if (runs[number] >= (number == 0 ? 100 : runs_per_number)) continue;
        runs[number]++;
        count(c.standard_input);
    }
}

// Chains of each length, and each of their carts asked about.
static void compare_chains(Random& random, Seen& seen) {
    for (uint32_t length = 1; length <= 16; length++) {
        for (int i = 0; i < 50; i++) compare(seen, chains, cases::chain_case(random, length));
    }
}

static void add_random_jobs(std::vector<Job>& jobs, Kind kind, uint64_t number, uint64_t cases_each, Case (*make)(Random&)) {
    for (uint64_t i = 0; i < number; i++) {
        jobs.push_back(Job{kind_names[kind], 1000 * (kind + 1) + i, [=](Random& random, Seen& seen) {
            for (uint64_t k = 0; k < cases_each; k++) compare(seen, kind, make(random));
        }});
    }
}

// The long jobs first, so that the workers end together.
static std::vector<Job> all_jobs() {
    std::vector<Job> jobs;
    jobs.push_back(Job{"judge program", 1, compare_judge_program});
    jobs.push_back(Job{"planner program", 2, compare_planner_program});
    jobs.push_back(Job{"program that says why", 105, compare_why_program});
    jobs.push_back(Job{"program that prints the net", 106, compare_net_program});
    jobs.push_back(Job{kind_names[stored], 3, compare_stored});
    jobs.push_back(Job{kind_names[one_byte], 4, compare_one_byte});
    for (uint32_t m = 2; m <= 3; m++) {
        for (uint32_t n = 2; n <= 3; n++) {
            for (const std::vector<uint32_t>& lanes : cases::all_lanes(m)) {
                jobs.push_back(Job{kind_names[tiny], 5 + jobs.size(), [=](Random& random, Seen& seen) {
                    compare_tiny(random, seen, m, n, lanes);
                }});
            }
        }
    }
    jobs.push_back(Job{kind_names[every_field], 104, compare_every_field});
    for (uint64_t i = 0; i < 8; i++) jobs.push_back(Job{kind_names[chains], 10500 + i, compare_chains});
    add_random_jobs(jobs, large, 100, 10, cases::random_large_case);
    add_random_jobs(jobs, dense, 100, 100, cases::random_dense_case);
    add_random_jobs(jobs, small, 340, 1000, cases::random_small_case);
    add_random_jobs(jobs, damaged_sheets, 140, 1000, cases::damaged_sheet_case);
    add_random_jobs(jobs, damaged_plans, 140, 1000, cases::damaged_plan_case);
    return jobs;
}

// ---------------------------------------------------------------------------------------------
// What must have been seen
// ---------------------------------------------------------------------------------------------

// "Reading a sheet has 1 to 14, reading a plan 1 to 21, writing it again 1 to 21 and 28, the list operation 1 to 21
// and 27. The planner takes no plan and has only 1 to 14 and 28. Judging has 1 to 22 and 28. Moving has 1 to 26."
// Document 02, #101: "Refusals: none new; 1 to 14 and 28."; #105: "as for moving up to 25; 26 is never given"; #106: "1 to 21,
// then 28 for the text's room".
struct Column {
    const char* name;
    uint32_t most;                       // it has 0 to this number,
    uint32_t other;                      // and this one, if not 0
};
static const Column columns[library::operations] = {
    {"sheet", 14, 0},    {"plan", 21, 0},   {"again", 21, 28},  {"list", 21, 27}, {"judge", 22, 28},
    {"planner", 14, 28}, {"first", 14, 28}, {"better", 14, 28}, {"ask", 26, 0},   {"move", 26, 0},
    {"why", 25, 0},      {"net", 21, 28}};
// The programs lend room enough, so that 28 never comes.
static const Column program_columns[program_count] = {
    {"judge program", 22, 0}, {"planner program", 14, 0}, {"planner first", 14, 0}, {"planner better", 14, 0}, {"why program", 25, 0},
    {"net program", 21, 0},   {"net dot", 21, 0}};

// Prints a number's count; gives what is wrong with it, if anything is.
static std::string print_count(const Column& column, uint32_t number, uint64_t count, int width) {
    const bool has = number <= column.most || (column.other != 0 && number == column.other);
    if (count == 0 && !has) {
        std::printf(" %*s", width, "-");
    } else {
        std::printf(" %*llu", width, shown(count));
    }
    if ((count > 0) == has) return "";
    return std::string("\n") + column.name + (has ? " was never seen to give " : " gave what it does not have, ") + std::to_string(number);
}

// Prints how often each number was seen; each operation has to give all that it has, and no other.
static void print_numbers(const Seen& seen) {
    std::printf("number");
    for (const Column& column : columns) std::printf(" %9s", column.name);
    for (const Column& column : program_columns) std::printf(" %15s", column.name);
    std::printf("\n");
    std::string wrong;
    for (uint32_t number = 0; number <= 28; number++) {
        std::printf("%6u", number);
        for (int o = 0; o < library::operations; o++) wrong += print_count(columns[o], number, seen.tally.answers[o].seen[number], 9);
        for (int p = 0; p < program_count; p++) wrong += print_count(program_columns[p], number, seen.program[p].seen[number], 15);
        std::printf("\n");
    }
    if (!wrong.empty()) fail("numbers:" + wrong);
}

// Prints how often the cart and step were told that were told least; each operation has to tell every cart, outside its steps and
// in each of the eight.
static void print_least_told(const Seen& seen) {
    std::string wrong;
    const auto print_least = [&](const Column& column, const library::Answers& answers, int width) {
        uint64_t least = answers.told[1][0];
        for (int cart = 1; cart <= 16; cart++) least = std::min(least, *std::min_element(answers.told[cart], answers.told[cart] + 9));
        std::printf(" %*llu", width, shown(least));
        if (least == 0) wrong += std::string("\n") + column.name + " was never seen to tell some cart and step";
    };
    std::printf("%6s", "told");
    for (int o = 0; o < library::operations; o++) print_least(columns[o], seen.tally.answers[o], 9);
    for (int p = 0; p < program_count; p++) print_least(program_columns[p], seen.program[p], 15);
    std::printf("   each cart and step, so often or more\n");
    if (!wrong.empty()) fail("cart and step:" + wrong);
}

// Prints how often each situation was seen; each has to be.
static void print_situations(const char* of_what, const char* const* names, const uint64_t* counts, int situations) {
    std::printf("%s:", of_what);
    std::string missing;
    for (int s = 0; s < situations; s++) {
        std::printf("%s %s %llu", s > 0 ? "," : "", names[s], shown(counts[s]));
        if (counts[s] == 0) missing += std::string("\nnever seen: ") + names[s];
    }
    std::printf("\n");
    if (!missing.empty()) fail(of_what + missing);
}

// Prints how often a chain of each length was seen; each has to be.
static void print_chains(const Seen& seen) {
    std::printf("chains by length:");
    std::string missing;
    for (int length = 1; length <= 16; length++) {
        std::printf(" %d: %llu", length, shown(seen.tally.chains[length]));
        if (seen.tally.chains[length] == 0) missing += "\nnever seen: a chain of " + std::to_string(length);
    }
    std::printf("\n");
    if (!missing.empty()) fail("chains" + missing);
}

static void print_kinds(const Seen& seen) {
    std::printf("%-28s %9s %9s %14s %13s\n", "cases", "all", "readable", "sheet refused", "plan refused");
    for (int kind = 0; kind < kinds; kind++) {
        std::printf("%-28s %9llu %9llu %14llu %13llu\n", kind_names[kind], shown(seen.cases[kind]),
                    shown(seen.readable[kind]), shown(seen.sheet_refused[kind]),
                    shown(seen.plan_refused[kind]));
    }
    std::printf("every tiny crossing: 2 and 3 carts on 2 and 3 zones, %llu sheets with all routes and lanes, %llu plans\n",
                shown(seen.tiny_sheets), shown(seen.cases[tiny]));
    std::printf("rings by length:");
    for (int length = 1; length <= 16; length++) {
        if (seen.tally.rings[length] > 0) std::printf(" %d: %llu", length, shown(seen.tally.rings[length]));
    }
    std::printf("\nsheets planned with a group cut: %llu\n", shown(seen.tally.cut_sheets));
    const independent::DoubleCheckCounts& d = seen.double_checks;
    std::printf("the independent program searched all runs of %llu crossings, %llu states, and compared %llu verdicts, %llu entering times, "
                "%llu spare times, %llu records and the cart and step of %llu refusals two ways; it held %llu chains to the rule for moves, "
                "and the marking of %llu nets to the runs\n",
                shown(d.searches), shown(d.states), shown(d.verdicts), shown(d.times), shown(d.spare), shown(d.records), shown(d.parts),
                shown(d.chains), shown(d.nets));
}

// ---------------------------------------------------------------------------------------------
// Workers
// ---------------------------------------------------------------------------------------------

static void work(const std::vector<Job>& jobs, std::atomic<size_t>& next, Seen& all) {
    Seen seen;
    for (size_t i = next++; i < jobs.size(); i = next++) {
        try {
            Random random(jobs[i].seed);
            jobs[i].run(random, seen);
        } catch (const std::exception& found) {
            fail("in " + jobs[i].name + ": " + found.what());
        }
    }
    seen.double_checks = independent::double_check_counts;
    const std::lock_guard<std::mutex> lock(printing);
    all.add(seen);
}

int main() {
    const auto start = std::chrono::steady_clock::now();
    const std::vector<Job> jobs = all_jobs();
    std::atomic<size_t> next{0};
    std::atomic<uint32_t> ended{0};
    Seen seen;
    std::vector<std::thread> workers;
    const uint32_t worker_count = std::max(2u, std::thread::hardware_concurrency());
    for (uint32_t i = 0; i < worker_count; i++) {
        workers.emplace_back([&] {
            work(jobs, next, seen);
            ended++;
        });
    }
    uint64_t ticks = 0;
    while (ended < worker_count) {
        std::this_thread::sleep_for(std::chrono::milliseconds(100));
        if (++ticks % 50 != 0) continue;
        const std::lock_guard<std::mutex> lock(printing);
        std::printf("compare: %.0f s, %llu cases, %zu of %zu jobs taken\n",
                    std::chrono::duration<double>(std::chrono::steady_clock::now() - start).count(),
                    shown(cases_done), std::min(next.load(), jobs.size()), jobs.size());
        std::fflush(stdout);
    }
    for (std::thread& worker : workers) worker.join();

    print_kinds(seen);
    print_numbers(seen);
    print_least_told(seen);
    print_situations("sheets planned three ways", cases::planners_situation_names, seen.tally.planners, cases::planners_situations);
    print_situations("the stop line", cases::line_situation_names, seen.tally.line, cases::line_situations);
    print_chains(seen);
    print_situations("chains", cases::chain_situation_names, seen.tally.chain, cases::chain_situations);
    print_situations("nets", cases::net_situation_names, seen.tally.net, cases::net_situations);
    if (seen.readable[small] < 200000) fail("fewer than 200,000 small crossings with a readable plan");
    if (seen.tiny_sheets != 17677 || seen.cases[tiny] != 667768) fail("not every tiny crossing");
    if (seen.sheet_refused[damaged_sheets] < 100000) fail("fewer than 100,000 damaged sheets");
    if (seen.tally.cut_sheets < 100) fail("fewer than 100 sheets planned with a group cut");
    if (seen.plan_refused[damaged_plans] < 100000) fail("fewer than 100,000 damaged plans");
    std::printf("compare: every answer is the independent program's\n");
    return 0;
}
