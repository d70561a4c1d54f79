// Our proved libraries called through include/oblakosh.h with fenced memory, each answer held beside the independent program's.

#ifndef LIBRARY_HPP
#define LIBRARY_HPP

#include <algorithm>
#include <cstring>
#include <stdexcept>
#include <string>
#include <vector>

#include "../../include/oblakosh.h"
#include "cases.hpp"
#include "independent.hpp"

// The three functions of liblinked_judge.a, under names of their own: the controller's library has them too.
extern "C" {
oblakosh_sheet_read simulator_read_sheet(const uint8_t*, size_t);
oblakosh_plan_read simulator_read_plan(const uint8_t*, size_t, const uint8_t*, size_t);
oblakosh_judged simulator_judge(const uint8_t*, size_t, const uint8_t*, size_t, uint32_t*, size_t);
}

namespace library {

using cases::Case;
using cases::MoveRequest;
using independent::Bytes;
using independent::Lists;
using independent::Outcome;
using independent::Planner;
using independent::PlanningAnswer;
using independent::Record;
using independent::Sheet;

class Difference : public std::logic_error {
public:
    explicit Difference(const std::string& what) : std::logic_error(what) {}
};

// ---------------------------------------------------------------------------------------------
// How many answers of each number each operation gave, and how many that tell each cart and step
// ---------------------------------------------------------------------------------------------

enum Operation {
    reading_sheet, reading_plan, writing, listing, judging, planning, planning_first, planning_better, asking, moving, telling_why, writing_net,
    operations
};

// Answers counted by number, and by the cart and step of #104, both 0 where none is told.
struct Answers {
    uint64_t seen[29] = {};
    uint64_t told[17][9] = {};

    void count(const Outcome& outcome) {
        if (outcome.number > 28) throw Difference("document 01 has no such number");
        if (outcome.cart > 16 || outcome.step > 8) throw Difference("no sheet has such a cart and step");
        seen[outcome.number]++;
        told[outcome.cart][outcome.step]++;
    }
    void add(const Answers& other) {
        for (int number = 0; number <= 28; number++) seen[number] += other.seen[number];
        for (int cart = 0; cart <= 16; cart++) {
            for (int step = 0; step <= 8; step++) told[cart][step] += other.told[cart][step];
        }
    }
};

struct Tally {
    Answers answers[operations];
    uint64_t rings[17] = {};             // by the number of their carts
    uint64_t chains[17] = {};            // likewise
    uint64_t cut_sheets = 0;             // planned with a group cut
    uint64_t planners[cases::planners_situations] = {};
    uint64_t line[cases::line_situations] = {};
    uint64_t chain[cases::chain_situations] = {};
    uint64_t net[cases::net_situations] = {};

    void count(Operation operation, const Outcome& outcome) { answers[operation].count(outcome); }
    void add(const Tally& other) {
        for (int o = 0; o < operations; o++) answers[o].add(other.answers[o]);
        for (int length = 0; length <= 16; length++) rings[length] += other.rings[length];
        for (int length = 0; length <= 16; length++) chains[length] += other.chains[length];
        cut_sheets += other.cut_sheets;
        for (int s = 0; s < cases::planners_situations; s++) planners[s] += other.planners[s];
        for (int s = 0; s < cases::line_situations; s++) line[s] += other.line[s];
        for (int s = 0; s < cases::chain_situations; s++) chain[s] += other.chain[s];
        for (int s = 0; s < cases::net_situations; s++) net[s] += other.net[s];
    }
};

// ---------------------------------------------------------------------------------------------
// Lent memory
// ---------------------------------------------------------------------------------------------

// Memory lent to the library, and other memory before and after it that must stay as it is.
template <class T>
class Lent {
public:
    explicit Lent(const std::vector<T>& contents)
        : before(64 + contents.size() % 8), length(contents.size()), memory(fenced(contents)) {}

    T* first() { return memory.data() + before; }
    size_t size() const { return length; }

    // The lent memory has these contents, and the memory beside it is as it was.
    void must_hold(const std::vector<T>& contents, const char* function) const {
        const std::vector<T> wanted = fenced(contents);
        if (wanted.size() == memory.size() && std::memcmp(wanted.data(), memory.data(), memory.size() * sizeof(T)) == 0) return;
        throw Difference(std::string(function) + ", memory from " + std::to_string(before * sizeof(T)) + " bytes before the "
                         + std::to_string(length * sizeof(T)) + " lent\nindependent: " + hex_of(wanted) + "\nlibrary:     "
                         + hex_of(memory));
    }

private:
    size_t before;                       // how many T stand before the lent ones; bytes begin at every address
    size_t length;
    std::vector<T> memory;

    std::vector<T> fenced(const std::vector<T>& contents) const {
        std::vector<T> all(before + contents.size() + 64);
        unsigned char* bytes = reinterpret_cast<unsigned char*>(all.data());
        for (size_t i = 0; i < all.size() * sizeof(T); i++) bytes[i] = static_cast<unsigned char>(37 * i + 11);
        for (size_t i = 0; i < contents.size(); i++) all[before + i] = contents[i];
        return all;
    }

    static std::string hex_of(const std::vector<T>& all) {
        const unsigned char* bytes = reinterpret_cast<const unsigned char*>(all.data());
        return independent::hex(Bytes(bytes, bytes + all.size() * sizeof(T)));
    }
};

// ---------------------------------------------------------------------------------------------
// Every part of an answer, one number after the other, with unused entries
// ---------------------------------------------------------------------------------------------

class Parts {
public:
    explicit Parts(const oblakosh_outcome& outcome) {
        add("number", outcome.number);
        add("cart told", outcome.cart);
        add("step told", outcome.step);
        add("place", outcome.place);
    }

    void add(const char* name, uint64_t value) {
        names.push_back({name, values.size()});
        values.push_back(value);
    }
    template <class T, size_t N>
    void add(const char* name, const T (&table)[N]) {
        names.push_back({name, values.size()});
        append(table);
    }

    bool operator==(const Parts& other) const { return values == other.values; }
    // The name of the first part that is another one's, and which entry of it.
    std::string first_difference(const Parts& other) const {
        size_t i = 0;
        while (values[i] == other.values[i]) i++;
        size_t name = 0;
        while (name + 1 < names.size() && names[name + 1].second <= i) name++;
        return std::string(names[name].first) + ", entry " + std::to_string(i - names[name].second);
    }
    std::string text() const {
        std::string text;
        size_t next = 0;
        for (size_t i = 0; i < values.size(); i++) {
            if (next < names.size() && names[next].second == i) {
                text += std::string(next > 0 ? " " : "") + names[next].first;
                next++;
            }
            text += " " + std::to_string(values[i]);
        }
        return text;
    }

private:
    std::vector<std::pair<const char*, size_t>> names;   // and which value is the first of that name
    std::vector<uint64_t> values;

    void append(uint64_t value) { values.push_back(value); }
    template <class T, size_t N>
    void append(const T (&table)[N]) {
        for (const T& entry : table) append(entry);
    }
};

inline void add_sheet(Parts& parts, const oblakosh_sheet& sheet) {
    parts.add("zones", sheet.zones);
    parts.add("follow", sheet.follow);
    parts.add("cross", sheet.cross);
    parts.add("carts", sheet.carts);
    parts.add("lane", sheet.lane);
    parts.add("arrival", sheet.arrival);
    parts.add("steps", sheet.steps);
    parts.add("zone", sheet.zone);
    parts.add("passing", sheet.passing);
    parts.add("travel", sheet.travel);
}

inline Parts parts_of(const oblakosh_sheet_read& read) {
    Parts parts(read.outcome);
    add_sheet(parts, read.sheet);
    return parts;
}

inline Parts parts_of(const oblakosh_plan_read& read) {
    Parts parts(read.outcome);
    add_sheet(parts, read.sheet);
    parts.add("count", read.orders.count);
    parts.add("list", read.orders.list);
    parts.add("ahead", read.orders.ahead);
    return parts;
}

inline Parts parts_of(const oblakosh_judged& judged) {
    Parts parts(judged.outcome);
    parts.add("finish", judged.finish);
    parts.add("moves", judged.moves);
    parts.add("ring", judged.ring.length);
    parts.add("cart", judged.ring.cart);
    parts.add("zone", judged.ring.zone);
    return parts;
}

inline Parts parts_of(const oblakosh_plan_written& written) {
    Parts parts(written.outcome);
    parts.add("length", written.length);
    return parts;
}

inline Parts parts_of(const oblakosh_planned& planned) {
    Parts parts(planned.outcome);
    parts.add("length", planned.length);
    parts.add("finish", planned.finish);
    return parts;
}

inline Parts parts_of(const oblakosh_list_found& found) {
    Parts parts(found.outcome);
    parts.add("start", found.start);
    parts.add("length", found.length);
    return parts;
}

inline Parts parts_of(const oblakosh_asked& asked) {
    Parts parts(asked.outcome);
    parts.add("position", asked.position);
    parts.add("made", asked.made);
    parts.add("ahead", asked.ahead);
    return parts;
}

inline Parts parts_of(const oblakosh_chain& chain) {
    Parts parts(chain.outcome);
    parts.add("length", chain.length);
    parts.add("cart", chain.cart);
    parts.add("zone", chain.zone);
    parts.add("out", chain.out);
    return parts;
}

inline Parts parts_of(const oblakosh_net_run& run) {
    Parts parts(run.outcome);
    parts.add("length", run.length);
    parts.add("locked", run.locked);
    parts.add("position", run.position);
    return parts;
}

// ---------------------------------------------------------------------------------------------
// The independent program's answers in the header's form; unused entries are 0
// ---------------------------------------------------------------------------------------------

inline oblakosh_outcome outcome_of(const Outcome& answer) {
    oblakosh_outcome outcome = {};
    outcome.number = answer.number;
    outcome.cart = static_cast<uint8_t>(answer.cart);
    outcome.step = static_cast<uint8_t>(answer.step);
    outcome.place = answer.place;
    return outcome;
}

inline oblakosh_sheet as_declared(const Sheet& sheet) {
    oblakosh_sheet declared = {};
    declared.zones = sheet.zones.size();
    for (size_t z = 0; z < sheet.zones.size(); z++) {
        declared.follow[z] = static_cast<uint16_t>(sheet.zones[z].follow_gap);
        declared.cross[z] = static_cast<uint16_t>(sheet.zones[z].cross_gap);
    }
    declared.carts = sheet.carts.size();
    for (size_t c = 0; c < sheet.carts.size(); c++) {
        const independent::Cart& cart = sheet.carts[c];
        declared.lane[c] = static_cast<uint8_t>(cart.lane);
        declared.arrival[c] = cart.arrival;
        declared.steps[c] = static_cast<uint8_t>(cart.steps.size());
        for (size_t s = 0; s < cart.steps.size(); s++) {
            declared.zone[c][s] = static_cast<uint8_t>(cart.steps[s].zone);
            declared.passing[c][s] = static_cast<uint16_t>(cart.steps[s].passing);
            declared.travel[c][s] = static_cast<uint16_t>(cart.steps[s].travel);
        }
    }
    return declared;
}

inline oblakosh_orders as_declared(const Sheet& sheet, const Lists& lists) {
    oblakosh_orders declared = {};
    for (size_t z = 0; z < lists.size(); z++) {
        declared.count[z] = static_cast<uint8_t>(lists[z].size());
        uint16_t ahead = 0;
        for (size_t i = 0; i < lists[z].size(); i++) {
            const uint32_t cart = lists[z][i];
            const int step = independent::step_in_route(sheet.carts[cart], static_cast<uint32_t>(z));
            declared.list[z][i] = static_cast<uint8_t>(cart);
            declared.ahead[cart][step] = ahead;
            ahead = static_cast<uint16_t>(ahead | 1u << cart);
        }
    }
    return declared;
}

inline oblakosh_sheet_read as_declared(const independent::SheetAnswer& answer) {
    return {outcome_of(answer), as_declared(answer.sheet)};
}

inline oblakosh_plan_read as_declared(const independent::PlanAnswer& answer) {
    return {outcome_of(answer), as_declared(answer.sheet), as_declared(answer.sheet, answer.lists)};
}

inline oblakosh_judged as_declared(const independent::JudgeAnswer& answer) {
    oblakosh_judged declared = {outcome_of(answer), answer.finish, answer.moves, {}};
    declared.ring.length = answer.ring.size();
    for (size_t i = 0; i < answer.ring.size(); i++) {
        declared.ring.cart[i] = static_cast<uint8_t>(answer.ring[i].cart);
        declared.ring.zone[i] = static_cast<uint8_t>(answer.ring[i].zone);
    }
    return declared;
}

inline oblakosh_plan_written as_declared(const independent::WriteAnswer& answer) {
    return {outcome_of(answer), answer.length};
}

inline oblakosh_planned as_declared(const independent::PlanningAnswer& answer) {
    return {outcome_of(answer), answer.length, answer.finish};
}

inline oblakosh_list_found as_declared(const independent::ListAnswer& answer) {
    return {outcome_of(answer), answer.position, answer.length};
}

inline oblakosh_record as_declared(const Record& record) {
    oblakosh_record declared = {};
    for (size_t c = 0; c < 16; c++) declared.position[c] = record.positions[c];
    declared.made = record.made;
    return declared;
}

// "On refusal every other part of the answer is 0", so the new position and count only come with a move.
inline oblakosh_asked as_declared(const independent::MoveAnswer& answer, uint64_t cart) {
    oblakosh_asked declared = {outcome_of(answer), 0, 0, answer.ahead};
    if (answer.number == 0) {
        declared.position = answer.record.positions[cart];
        declared.made = answer.record.made;
    }
    return declared;
}

inline oblakosh_chain as_declared(const independent::ChainAnswer& answer) {
    oblakosh_chain declared = {};
    declared.outcome = outcome_of(answer);
    declared.length = answer.links.size();
    for (size_t i = 0; i < answer.links.size(); i++) {
        declared.cart[i] = static_cast<uint8_t>(answer.links[i].cart);
        declared.zone[i] = static_cast<uint8_t>(answer.links[i].zone);
    }
    declared.out = answer.out ? 1 : 0;
    return declared;
}

inline oblakosh_net_run as_declared(const independent::NetAnswer& answer) {
    oblakosh_net_run declared = {};
    declared.outcome = outcome_of(answer);
    declared.length = answer.length;
    declared.locked = answer.locked ? 1 : 0;
    for (size_t c = 0; c < 16; c++) declared.position[c] = answer.positions[c];
    return declared;
}

// ---------------------------------------------------------------------------------------------
// One case through both
// ---------------------------------------------------------------------------------------------

inline std::string text_of(const MoveRequest& request) {
    std::string text = "cart " + std::to_string(request.cart) + " positions";
    for (uint8_t position : request.record.positions) text += " " + std::to_string(position);
    return text + " made " + std::to_string(request.record.made);
}

template <class Answer, class Declared>
void must_be_same(const char* function, const Answer& answer, const Declared& wanted, const Declared& got) {
    if (parts_of(wanted) == parts_of(got)) return;
    throw Difference(std::string(function) + " differs first in " + parts_of(wanted).first_difference(parts_of(got))
                     + "\nindependent: " + to_text(answer) + "\nindependent: " + parts_of(wanted).text()
                     + "\nlibrary:     " + parts_of(got).text());
}

// Calls both with the case's inputs and throws at the first difference.
class BothOn {
public:
    BothOn(const Case& the_case, Tally& the_tally) : c(the_case), tally(the_tally), sheet(c.sheet), plan(c.plan) {}

    // The operations that take a sheet alone.
    void compare_for_sheet() {
        read_sheet();
        make_plans();
    }

    // The operations that take a plan as well; the number that reading it gives.
    uint32_t compare_for_plan() {
        const uint32_t number = read_plan();
        write_again();
        for (uint64_t zone : c.list_zones) {
            try {
                find_list(zone);
            } catch (const std::exception& found) {
                throw Difference("zone " + std::to_string(zone) + ", " + found.what());
            }
        }
        judge();
        for (const Bytes& room : c.net_rooms) write_net(room);
        for (const MoveRequest& request : c.move_requests) {
            try {
                move(request);
                why(request);
            } catch (const std::exception& found) {
                throw Difference(text_of(request) + ", " + found.what());
            }
        }
        return number;
    }

private:
    const Case& c;
    Tally& tally;
    Lent<uint8_t> sheet;
    Lent<uint8_t> plan;
    independent::PlanAnswer readable;    // the plan's lists, once it is read

    void inputs_must_be_unchanged(const char* function) const {
        sheet.must_hold(c.sheet, function);
        plan.must_hold(c.plan, function);
    }

    void read_sheet() {
        const independent::SheetAnswer answer = independent::read_sheet(c.sheet);
        const oblakosh_sheet_read wanted = as_declared(answer);
        must_be_same("oblakosh_read_sheet", answer, wanted, oblakosh_read_sheet(sheet.first(), sheet.size()));
        must_be_same("simulator_read_sheet", answer, wanted, simulator_read_sheet(sheet.first(), sheet.size()));
        inputs_must_be_unchanged("oblakosh_read_sheet");
        tally.count(reading_sheet, answer);
    }

    // All three planners, each into the case's room; what they say of each other, if the sheet is planned.
    void make_plans() {
        const PlanningAnswer removal = make_plan(Planner::removal, planning, "oblakosh_plan", oblakosh_plan);
        const PlanningAnswer first_come = make_plan(Planner::first_come, planning_first, "oblakosh_plan_first", oblakosh_plan_first);
        must_be_accepted(first_come, "first come's plan is accepted");
        const PlanningAnswer better = make_plan(Planner::better, planning_better, "oblakosh_plan_better", oblakosh_plan_better);
        must_be_accepted(better, "the better plan is accepted");
        if (removal.cuts > 0) tally.cut_sheets++;
        if (removal.number != 0) return;
        if (better.finish != std::min(removal.finish, first_come.finish)) throw Difference("the better plan finishes with the earlier one");
        const Sheet read = independent::read_sheet(c.sheet).sheet;
        for (cases::PlannersSituation found : cases::situations_of(read, removal, first_come)) tally.planners[found]++;
        for (cases::LineSituation found : cases::line_situations_planned(read)) tally.line[found]++;
    }

    PlanningAnswer make_plan(Planner planner, Operation operation, const char* name,
                             oblakosh_planned (*function)(const uint8_t*, size_t, uint8_t*, size_t)) {
        const PlanningAnswer answer = independent::make_plan(c.sheet, c.planning_room, planner);
        Lent<uint8_t> room(c.planning_room);
        must_be_same(name, answer, as_declared(answer), function(sheet.first(), sheet.size(), room.first(), room.size()));
        room.must_hold(answer.room, name);
        inputs_must_be_unchanged(name);
        tally.count(operation, answer);
        return answer;
    }

    // A plan written is accepted by the independent judge with the finish that was told.
    void must_be_accepted(const PlanningAnswer& answer, const char* what) const {
        if (answer.number != 0) return;
        const Bytes written(answer.room.begin(), answer.room.begin() + answer.length);
        const independent::JudgeAnswer judged = independent::judge(c.sheet, written, std::vector<uint32_t>(128, 0));
        if (judged.number != 0 || judged.finish != answer.finish) throw Difference(what);
    }

    uint32_t read_plan() {
        const independent::PlanAnswer answer = independent::read_plan(c.sheet, c.plan);
        const oblakosh_plan_read wanted = as_declared(answer);
        must_be_same("oblakosh_read_plan", answer, wanted,
                     oblakosh_read_plan(sheet.first(), sheet.size(), plan.first(), plan.size()));
        must_be_same("simulator_read_plan", answer, wanted,
                     simulator_read_plan(sheet.first(), sheet.size(), plan.first(), plan.size()));
        inputs_must_be_unchanged("oblakosh_read_plan");
        tally.count(reading_plan, answer);
        readable = answer;
        return answer.number;
    }

    void write_again() {
        const independent::WriteAnswer answer = independent::write_plan(c.sheet, c.plan, c.write_room);
        Lent<uint8_t> room(c.write_room);
        must_be_same("oblakosh_write_again", answer, as_declared(answer),
                     oblakosh_write_again(sheet.first(), sheet.size(), plan.first(), plan.size(), room.first(), room.size()));
        room.must_hold(answer.room, "oblakosh_write_again");
        inputs_must_be_unchanged("oblakosh_write_again");
        tally.count(writing, answer);
    }

    void find_list(uint64_t zone) {
        const independent::ListAnswer answer = independent::list_zone(c.sheet, c.plan, zone);
        must_be_same("oblakosh_find_list", answer, as_declared(answer),
                     oblakosh_find_list(sheet.first(), sheet.size(), plan.first(), plan.size(), zone));
        inputs_must_be_unchanged("oblakosh_find_list");
        tally.count(listing, answer);
    }

    void judge() {
        const independent::JudgeAnswer answer = independent::judge(c.sheet, c.plan, c.words);
        const oblakosh_judged wanted = as_declared(answer);
        Lent<uint32_t> words(c.words);
        must_be_same("oblakosh_judge", answer, wanted,
                     oblakosh_judge(sheet.first(), sheet.size(), plan.first(), plan.size(), words.first(), words.size()));
        words.must_hold(answer.words, "oblakosh_judge");
        Lent<uint32_t> simulators(c.words);
        must_be_same("simulator_judge", answer, wanted,
                     simulator_judge(sheet.first(), sheet.size(), plan.first(), plan.size(), simulators.first(), simulators.size()));
        simulators.must_hold(answer.words, "simulator_judge");
        inputs_must_be_unchanged("oblakosh_judge");
        tally.count(judging, answer);
        tally.rings[answer.ring.size()]++;
        if (answer.number != 0 && answer.number != 22) return;
        for (cases::LineSituation found : cases::line_situations_judged(readable.sheet, readable.lists, answer)) tally.line[found]++;
    }

    void write_net(const Bytes& lent) {
        const independent::NetAnswer answer = independent::net(c.sheet, c.plan, lent);
        Lent<uint8_t> room(lent);
        must_be_same("oblakosh_net", answer, as_declared(answer),
                     oblakosh_net(sheet.first(), sheet.size(), plan.first(), plan.size(), room.first(), room.size()));
        room.must_hold(answer.room, "oblakosh_net");
        inputs_must_be_unchanged("oblakosh_net");
        tally.count(writing_net, answer);
        if (answer.number != 0 && answer.number != 28) return;
        for (cases::NetSituation found : cases::situations_of(readable.sheet, readable.lists, lent.size(), answer)) tally.net[found]++;
    }

    // Asking stores nothing; moving stores what the independent program's record has.
    void move(const MoveRequest& request) {
        const independent::MoveAnswer answer = independent::move_cart(c.sheet, c.plan, request.record, request.cart);
        const oblakosh_asked wanted = as_declared(answer, request.cart);
        must_be_same("oblakosh_ask", answer, wanted,
                     oblakosh_ask(sheet.first(), sheet.size(), plan.first(), plan.size(), as_declared(request.record), request.cart));
        tally.count(asking, answer);
        Lent<oblakosh_record> record({as_declared(request.record)});
        must_be_same("oblakosh_move_cart", answer, wanted,
                     oblakosh_move_cart(sheet.first(), sheet.size(), plan.first(), plan.size(), record.first(), request.cart));
        record.must_hold({as_declared(answer.record)}, "oblakosh_move_cart");
        inputs_must_be_unchanged("oblakosh_move_cart");
        tally.count(moving, answer);
        if (answer.number != 23 && answer.number != 26) return;
        for (cases::LineSituation found : cases::line_situations_moved(readable.sheet, readable.lists, request, answer)) tally.line[found]++;
    }

    // Why says what asking refuses with 26, and answers where asking is done.
    void why(const MoveRequest& request) {
        const independent::ChainAnswer answer = independent::why(c.sheet, c.plan, request.record, request.cart);
        const oblakosh_record record = as_declared(request.record);
        must_be_same("oblakosh_why", answer, as_declared(answer),
                     oblakosh_why(sheet.first(), sheet.size(), plan.first(), plan.size(), record, request.cart));
        inputs_must_be_unchanged("oblakosh_why");
        tally.count(telling_why, answer);
        if (answer.number != 0) return;
        tally.chains[answer.links.size()]++;
        for (cases::ChainSituation found : cases::situations_of(readable.sheet, readable.lists, request.record, answer)) tally.chain[found]++;
    }
};

}  // namespace library

#endif
