// Holds the independent program to document 01's examples 1 to 15, to the sheets of cut-groups.txt, first-come.txt and planned.txt, to what was
// expected by hand of the sheets and plans in crates/vectors/data, and to what documents 01 and 02 say of every answer. Run from the repository's
// folder, by compare/independent/run. With the word first-come it writes that file's lines, with the word planned those of compare/planned.txt
// for the sheets there.

#include <cstdio>
#include <cstdlib>
#include <cstring>
#include <fstream>
#include <set>
#include <sstream>
#include <string>

#include "cases.hpp"
#include "independent.hpp"

using namespace independent;
using cases::Case;
using cases::MoveRequest;
using cases::Random;

static uint64_t checks = 0;

static void check(bool condition, const std::string& what) {
    checks++;
    if (!condition) throw std::logic_error(what);
}

static bool same_outcome(const Outcome& a, const Outcome& b) {
    return a.number == b.number && a.place == b.place && a.cart == b.cart && a.step == b.step;
}

// An operation refuses as reading its input does; what it refuses after that has place, cart and step 0.
static bool passes_on(const Outcome& answer, const Outcome& reading) {
    return same_outcome(answer, reading.number == 0 ? Outcome{answer.number, 0, 0, 0} : reading);
}

static bool same_record(const Record& a, const Record& b) {
    return a.positions == b.positions && a.made == b.made;
}

// ---------------------------------------------------------------------------------------------
// Examples
// ---------------------------------------------------------------------------------------------

static Record record(std::initializer_list<int> positions, uint32_t made) {
    Record r;
    size_t i = 0;
    for (int position : positions) r.positions[i++] = static_cast<uint8_t>(position);
    r.made = made;
    return r;
}

static Bytes together(const Bytes& a, const Bytes& b) {
    Bytes both = a;
    both.insert(both.end(), b.begin(), b.end());
    return both;
}

static const Bytes S = cases::from_hex(
    "01 002D 02 00C8 012C 00C8 012C 02"
    "00 00000000 02 00 03E8 0064 01 03E8 0000"
    "01 000001F4 02 01 03E8 0064 00 03E8 0000");

static void examples() {
    const Bytes A = cases::from_hex("01 000A 02 02 00 01 02 00 01");
    const Bytes B = cases::from_hex("01 000A 02 02 00 01 02 01 00");
    const std::vector<uint32_t> words(130, 77);

    // 1
    check(S.size() == 45, "S has 45 bytes");
    check(judge_program(together(S, A)) ==
              "ok moves 6 finish 4500\n"
              "cart 0 zone 0 enter 0 leave 1000\n"
              "cart 0 zone 1 enter 1100 leave 2100\n"
              "cart 1 zone 1 enter 2400 leave 3400\n"
              "cart 1 zone 0 enter 3500 leave 4500\n",
          "example 1, text");
    const JudgeAnswer a = judge(S, A, words);
    check(a.number == 0 && a.place == 0 && a.finish == 4500 && a.moves == 6 && a.ring.empty(), "example 1");
    for (size_t i = 0; i < 130; i++) {
        uint32_t word = i < 128 ? 0 : 77;
        if (i == 1) word = 1100;
        if (i == 8) word = 2400;
        if (i == 9) word = 3500;
        check(a.words[i] == word, "example 1, words");
    }
    // 2
    check(judge_program(together(S, B)) ==
              "refused 22 at 0\n"
              "cart 0 waits at zone 1 for cart 1\n"
              "cart 1 waits at zone 0 for cart 0\n",
          "example 2, text");
    const JudgeAnswer b = judge(S, B, words);
    check(b.number == 22 && b.place == 0 && b.finish == 0 && b.moves == 0 && b.words == words, "example 2");
    check(b.ring.size() == 2 && b.ring[0].cart == 0 && b.ring[0].zone == 1 && b.ring[1].cart == 1 &&
              b.ring[1].zone == 0,
          "example 2, ring");
    // 3
    const PlanningAnswer p = make_plan(S, Bytes(12, 9));
    check(p.number == 0 && p.length == 10 && p.finish == 4500, "example 3");
    check(p.room == together(A, Bytes(2, 9)), "example 3, plan A");
    Removal removal = begin_removal(read_sheet(S).sheet);
    for (Pair& pair : removal.pairs) pair.state = PairState::undecided;
    const std::vector<Direction> costs = costs_of_directions(removal);
    check(costs.size() == 4, "example 3, four directions");
    for (const Direction& d : costs) {
        if (d.zone == 0 && d.a == 0) check(d.cost == -300, "zone 0, 0 first -300");
        if (d.zone == 0 && d.a == 1) check(d.cost == 2400, "zone 0, 1 first 2400");
        if (d.zone == 1 && d.a == 0) check(d.cost == 1900, "zone 1, 0 first 1900");
        if (d.zone == 1 && d.a == 1) check(d.cost == 200, "zone 1, 1 first 200");
    }
    // 4
    const JudgeAnswer e4 = judge(cases::from_hex("01 0009 01 0000 0000 00"), cases::from_hex("01 0005 01 00"), words);
    check(e4.number == 0 && e4.moves == 0 && e4.finish == 0 && e4.words[0] == 0 && e4.words[127] == 0 &&
              e4.words[128] == 77,
          "example 4");
    // 5, 6
    check(read_sheet(Bytes()).number == 1 && read_sheet(Bytes()).place == 0, "example 5");
    check(read_sheet({2}).number == 2 && read_sheet({2}).place == 0, "example 6");
    // 7, 8: "S with cart 1 on lane 0"
    Bytes S0 = S;
    S0[29] = 0;
    check(S[29] == 1, "byte 29 is the lane of cart 1");
    const PlanAnswer e7 = read_plan(S0, B);
    check(e7.number == 21 && e7.place == 9, "example 7");
    const JudgeAnswer e8 = judge(S0, A, words);
    check(e8.number == 0 && e8.finish == 4400, "example 8");
    // 9 to 12
    const MoveAnswer e9 = move_cart(S, A, record({1, 1}, 2), 0);
    check(e9.number == 23 && same_record(e9.record, record({1, 1}, 2)), "example 9");
    const MoveAnswer e10 = move_cart(S, A, record({2, 0}, 2), 1);
    check(e10.number == 26 && e10.ahead == 1 && same_record(e10.record, record({2, 0}, 2)), "example 10");
    const MoveAnswer e11 = move_cart(S, A, record({3, 0}, 3), 1);
    check(e11.number == 0 && e11.ahead == 0 && same_record(e11.record, record({3, 1}, 4)), "example 11");
    check(move_cart(S, A, record({3, 3}, 6), 0).number == 25, "example 12, cart 0");
    check(move_cart(S, A, record({3, 3}, 6), 2).number == 24, "example 12, cart 2");
    check(move_cart(S, B, record({0, 0}, 0), 0).number == 22, "a locked plan is refused before any move");
    // 13
    const PlanningAnswer e13 = make_plan(S, Bytes(9, 5));
    check(e13.number == 28 && e13.place == 0 && e13.length == 0 && e13.finish == 0 && e13.room == Bytes(9, 5),
          "example 13, 9 bytes");
    check(make_plan(S, Bytes(10, 5)).number == 0, "example 13, 10 bytes");
    // 14
    const JudgeAnswer e14 = judge(S, A, std::vector<uint32_t>(127, 3));
    check(e14.number == 28 && e14.words == std::vector<uint32_t>(127, 3) && e14.finish == 0 && e14.moves == 0,
          "example 14");
    // 15
    Bytes late = S;
    cases::put_number(late, 30, 4, 3600000);
    check(read_sheet(late).number == 0 && read_sheet(late).sheet.carts[1].arrival == 3600000, "example 15, taken");
    cases::put_number(late, 30, 4, 3600001);
    check(read_sheet(late).number == 8 && read_sheet(late).place == 30, "example 15, 8");

    // lengths and the largest finish
    check(cases::sheet_to_bytes(cases::longest_sheet()).size() == 837, "the longest sheet has 837 bytes");
    check(read_sheet(cases::sheet_to_bytes(cases::longest_sheet())).number == 0, "the longest sheet is taken");
    const PlanningAnswer longest = make_plan(cases::sheet_to_bytes(cases::longest_sheet()), Bytes(156, 0));
    check(longest.number == 0 && longest.length == 156, "the longest plan has 156 bytes");

    // the judge program and short or long inputs
    check(judge_program({}) == "refused 1 at 0\n", "nothing read");
    check(judge_program({1}) == "refused 1 at 1\n", "bytes 1 and 2 missing");
    check(judge_program({1, 0, 0}) == "refused 1 at 0\n", "bytes 1 and 2 say nothing is sheet");
    check(judge_program({2, 0, 1}) == "refused 2 at 0\n", "bytes 1 and 2 say one byte is sheet");
    check(judge_program({1, 0, 4}) == "refused 3 at 1\n", "bytes 1 and 2 say more than was read");
    check(judge_program(S) == "refused 15 at 0\n", "no plan");
    // the three one-step carts in a circle: the moves have a cycle, the resource conflict graph none
    {
        Sheet circle;
        circle.zones.push_back(Zone{1, 1});
        for (uint32_t c = 0; c < 3; c++) circle.carts.push_back(Cart{c, 0, {Step{0, 1, 0}}});
        Orders orders;
        orders.before[0][0][1] = orders.before[0][1][2] = orders.before[0][2][0] = true;
        check(moves_have_cycle(circle, orders), "three one-step carts in a circle");
    }
}

// ---------------------------------------------------------------------------------------------
// Properties
// ---------------------------------------------------------------------------------------------

static bool is_in_order(uint32_t number) {           // left at a field, nothing later was looked at
    return (number >= 2 && number <= 12) || (number >= 16 && number <= 19);
}

// "The scan is left at the first byte that breaks a rule": bytes after the field don't matter, and
// everything before it is in order, so that cutting there gives the cut refusal there.
static void check_scan(Random& random, const Case& c) {
    const SheetAnswer sheet = read_sheet(c.sheet);
    if (is_in_order(sheet.number)) {
        Bytes other = c.sheet;
        for (size_t i = sheet.place + 4; i < other.size(); i++) other[i] = static_cast<uint8_t>(random.below(256));
        const SheetAnswer again = read_sheet(other);
        check(same_outcome(again, sheet), "bytes after the field don't matter");
    }
    if (sheet.number >= 4 && sheet.number <= 12) {
        Bytes cut(c.sheet.begin(), c.sheet.begin() + sheet.place);
        cases::correct_length(cut);
        const SheetAnswer again = read_sheet(cut);
        check(same_outcome(again, Outcome{1, sheet.place, sheet.cart, sheet.step}), "cut at the field: 1 there");
    }
    if (sheet.number == 13) {
        Bytes cut(c.sheet.begin(), c.sheet.begin() + sheet.place);
        cases::correct_length(cut);
        const SheetAnswer again = read_sheet(cut);
        check(again.number == 0 || again.number == 14, "cut at the first byte after the last cart");
    }
    if (sheet.number != 0) return;
    // values are the bytes
    check(cases::sheet_to_bytes(sheet.sheet) == c.sheet, "the values give the bytes back");
    // every cut is found at a field
    for (size_t length = 3; length < c.sheet.size(); length += 1 + random.below(8)) {
        Bytes cut(c.sheet.begin(), c.sheet.begin() + static_cast<long>(length));
        cases::correct_length(cut);
        const SheetAnswer again = read_sheet(cut);
        check(again.number == 1 && again.place <= length && again.place + 4 > length, "every cut gives 1");
    }
    const PlanAnswer plan = read_plan(c.sheet, c.plan);
    if (is_in_order(plan.number)) {
        Bytes other = c.plan;
        for (size_t i = plan.place + 2; i < other.size(); i++) other[i] = static_cast<uint8_t>(random.below(256));
        const PlanAnswer again = read_plan(c.sheet, other);
        check(same_outcome(again, plan), "plan: bytes after the field don't matter");
    }
    if (plan.number == 18 || plan.number == 19) {
        Bytes cut(c.plan.begin(), c.plan.begin() + plan.place);
        cases::correct_length(cut);
        const PlanAnswer again = read_plan(c.sheet, cut);
        check(same_outcome(again, Outcome{15, plan.place, 0, 0}), "plan cut at the field: 15 there");
    }
    if (plan.number == 20) {
        Bytes cut(c.plan.begin(), c.plan.begin() + plan.place);
        cases::correct_length(cut);
        const PlanAnswer again = read_plan(c.sheet, cut);
        check(again.number == 0 || again.number == 21, "plan cut at the first byte after the last list");
    }
}

// Document 00, demand 3: a whole run with refused requests mixed in.
static void check_whole_run(Random& random, const Case& c) {
    const PlanAnswer plan = read_plan(c.sheet, c.plan);
    if (plan.number != 0 || judge(c.sheet, c.plan, std::vector<uint32_t>(128, 0)).number != 0) return;
    const uint32_t m = static_cast<uint32_t>(plan.sheet.carts.size());
    Record now;
    uint32_t moves = 0;
    while (true) {
        bool all_out = true;
        bool some_may = false;
        for (uint32_t cart = 0; cart < m; cart++) {
            const MoveAnswer answer = move_cart(c.sheet, c.plan, now, cart);
            if (answer.number != 25) all_out = false;
            if (answer.number == 0) some_may = true;
            check(answer.number == 0 || answer.number == 25 || answer.number == 26, "a run's record is taken");
        }
        if (all_out) break;
        check(some_may, "while a cart isn't out, some cart may move");
        const MoveAnswer answer = move_cart(c.sheet, c.plan, now, random.below(m + 1));
        if (answer.number == 0) {
            moves++;
            check(answer.record.made == now.made + 1, "one move more");
        } else {
            check(same_record(answer.record, now), "a refusal changes nothing");
        }
        now = answer.record;
        for (uint32_t a = 0; a < m; a++) {
            for (uint32_t b = 0; b < a; b++) {
                const Cart& x = plan.sheet.carts[a];
                const Cart& y = plan.sheet.carts[b];
                const uint32_t pa = now.positions[a], pb = now.positions[b];
                if (pa < 1 || pa > x.steps.size() || pb < 1 || pb > y.steps.size()) continue;
                check(x.steps[pa - 1].zone != y.steps[pb - 1].zone, "no two carts in one zone");
            }
        }
    }
    check(moves == count_steps(plan.sheet) + m, "all out after steps plus carts moves");
}

static void run_case(Random& random, const Case& c, bool whole_run) {
    const SheetAnswer sheet = read_sheet(c.sheet);
    check(sheet.number <= 14, "reading a sheet has 1 to 14");
    check(sheet.cart == 0 || sheet.number == 1 || (sheet.number >= 7 && sheet.number <= 12) || sheet.number == 14,
          "a cart is told with 1, 7 to 12 and 14 alone");
    check(sheet.cart > 0 || sheet.number < 7 || sheet.number == 13, "a cart is told with all of 7 to 12 and 14");
    check(sheet.step == 0 || sheet.number == 1 || (sheet.number >= 10 && sheet.number <= 12), "a step is told with 1 and 10 to 12 alone");
    check(sheet.cart > 0 || sheet.step == 0, "no step is told without a cart");

    const PlanAnswer plan = read_plan(c.sheet, c.plan);
    check(plan.number <= 21, "reading a plan has 1 to 21");
    check(sheet.number == 0 ? plan.cart == 0 && plan.step == 0 : same_outcome(plan, sheet), "the sheet comes fully before the plan");
    check(plan.number == 0 || plan.lists.empty(), "refused: no lists");

    const WriteAnswer write = write_plan(c.sheet, c.plan, c.write_room);
    check(write.number <= 21 || write.number == 28, "writing has 1 to 21 and 28");
    check(write.room.size() == c.write_room.size(), "the room keeps its length");
    if (write.number != 0) {
        check(write.room == c.write_room && write.length == 0, "refused: room as lent");
        check(passes_on(write, plan), "writing refuses as reading");
        check((write.number == 28) == (plan.number == 0) && (write.number != 28 || c.write_room.size() < c.plan.size()), "writing: 28");
    } else {
        check(write.length == c.plan.size(), "writing: length");
        for (size_t i = 0; i < write.room.size(); i++) {
            check(write.room[i] == (i < c.plan.size() ? c.plan[i] : c.write_room[i]), "writing: bytes");
        }
    }

    for (uint64_t zone : c.list_zones) {
        const ListAnswer list = list_zone(c.sheet, c.plan, zone);
        check(list.number <= 21 || list.number == 27, "the list operation has 1 to 21 and 27");
        check(passes_on(list, plan), "the list operation refuses as reading");
        if (list.number != 0) check(list.position == 0 && list.length == 0, "refused: empty list");
        if (list.number == 0) {
            check(list.position + list.length <= c.plan.size() && c.plan[list.position - 1] == list.length,
                  "the list is a part of the plan");
        }
    }

    const JudgeAnswer verdict = judge(c.sheet, c.plan, c.words);
    check(verdict.number <= 22 || verdict.number == 28, "judging has 1 to 22 and 28");
    check((verdict.number == 22) == !verdict.ring.empty(), "a ring exactly with 22");
    if (verdict.number != 0) check(verdict.words == c.words && verdict.finish == 0 && verdict.moves == 0, "refused");
    check(passes_on(verdict, plan), "judging refuses as reading");

    for (const Bytes& room : c.net_rooms) {
        const NetAnswer written = net(c.sheet, c.plan, room);
        check(written.number <= 21 || written.number == 28, "the net has 1 to 21 and 28");
        check(passes_on(written, plan), "the net refuses as reading");
        if (written.number != 0) {
            check(written.room == room && written.length == 0 && !written.locked && written.positions == Record().positions, "refused: room as lent");
            check((written.number == 28) == (plan.number == 0), "the net: 28");
            continue;
        }
        check(written.locked == (verdict.number == 22), "the net's verdict is the judge's");
        check(std::equal(room.begin() + written.length, room.end(), written.room.begin() + written.length), "the net: bytes beyond");
    }

    for (Planner planner : {Planner::removal, Planner::first_come, Planner::better}) {
        const PlanningAnswer planning = make_plan(c.sheet, c.planning_room, planner);
        check(planning.number <= 14 || planning.number == 28, "planning has 1 to 14 and 28");
        check(passes_on(planning, sheet), "planning refuses as reading the sheet");
        if (planning.number != 0) {
            check(planning.room == c.planning_room && planning.length == 0 && planning.finish == 0, "refused: room as lent");
            continue;
        }
        const Bytes planned(planning.room.begin(), planning.room.begin() + planning.length);
        const JudgeAnswer judged = judge(c.sheet, planned, std::vector<uint32_t>(128, 1));
        check(judged.number == 0 && judged.finish == planning.finish, "the planner's plan is accepted");
        for (size_t i = planning.length; i < planning.room.size(); i++) {
            check(planning.room[i] == c.planning_room[i], "planning: bytes beyond");
        }
    }

    for (const MoveRequest& request : c.move_requests) {
        const MoveAnswer move = move_cart(c.sheet, c.plan, request.record, request.cart);
        check(move.number <= 26, "moving has 1 to 26");
        check((move.number == 26) == (move.ahead > 0), "carts ahead exactly with 26");
        if (move.number != 0) check(same_record(move.record, request.record), "refused: record as lent");
        check(passes_on(move, plan), "moving refuses as reading");
        const ChainAnswer chain = why(c.sheet, c.plan, request.record, request.cart);
        check(same_outcome(chain, move.number == 26 ? Outcome() : Outcome(move)), "why refuses as moving, but never with 26");
        check(chain.number == 0 || (chain.links.empty() && !chain.out), "refused: no chain");
        check(chain.number != 0 || (chain.links.size() > 1) == (move.number == 26), "a chain of one exactly if the cart may move");
    }

    const std::string text = judge_program(c.standard_input);
    check(text.back() == '\n', "each line ends with a line feed");
    const std::string first_line = text.substr(0, text.find('\n'));
    check((first_line.find(" cart ") == std::string::npos) == (first_line.find(" step ") == std::string::npos), "cart and step, or neither");

    check_scan(random, c);
    if (whole_run) check_whole_run(random, c);
}

// ---------------------------------------------------------------------------------------------
// The cart and step of #104
// ---------------------------------------------------------------------------------------------

// S and plan A spoilt by hand: what the judge program prints. Cart 0's part begins at 13, cart 1's at 29.
static void part_examples() {
    struct Example {
        size_t place, width;
        uint32_t value;
        const char* line;
    };
    const Example wrong[] = {
        {0, 1, 2, "refused 2 at 0\n"},
        {3, 1, 25, "refused 4 at 3\n"},
        {10, 2, 60001, "refused 5 at 10\n"},
        {12, 1, 17, "refused 6 at 12\n"},
        {12, 1, 1, "refused 13 at 29\n"},
        {12, 1, 3, "refused 1 at 45 cart 3 step 0\n"},
        {13, 1, 16, "refused 7 at 13 cart 1 step 0\n"},
        {14, 4, 3600001, "refused 8 at 14 cart 1 step 0\n"},
        {18, 1, 0, "refused 9 at 18 cart 1 step 0\n"},
        {19, 1, 2, "refused 10 at 19 cart 1 step 1\n"},
        {22, 2, 60001, "refused 12 at 22 cart 1 step 1\n"},
        {24, 1, 0, "refused 11 at 24 cart 1 step 2\n"},
        {27, 2, 1, "refused 12 at 27 cart 1 step 2\n"},
        {29, 1, 16, "refused 7 at 29 cart 2 step 0\n"},
        {30, 4, 3600001, "refused 8 at 30 cart 2 step 0\n"},
        {34, 1, 9, "refused 9 at 34 cart 2 step 0\n"},
        {34, 1, 1, "refused 12 at 38 cart 2 step 1\n"},      // its first step is now the last
        {34, 1, 3, "refused 1 at 45 cart 2 step 3\n"},       // its third step is not there
        {36, 2, 60001, "refused 12 at 36 cart 2 step 1\n"},
        {40, 1, 255, "refused 10 at 40 cart 2 step 2\n"}};
    const Bytes A = cases::from_hex("01 000A 02 02 00 01 02 00 01");
    for (const Example& example : wrong) {
        Bytes sheet = S;
        cases::put_number(sheet, example.place, example.width, example.value);
        check(judge_program(together(sheet, A)) == example.line, std::string("parts: ") + example.line);
    }
}

// Every operation tells what the sheet's reader tells, and the judge program prints it.
static void check_spoilt(const cases::SpoiltSheet& spoilt, const Bytes& plan) {
    const Outcome& wanted = spoilt.wanted;
    check(same_outcome(read_sheet(spoilt.bytes), wanted), "parts: reading a sheet");
    check(same_outcome(read_plan(spoilt.bytes, plan), wanted), "parts: reading a plan");
    check(same_outcome(write_plan(spoilt.bytes, plan, Bytes(156, 0)), wanted), "parts: writing again");
    check(same_outcome(list_zone(spoilt.bytes, plan, 0), wanted), "parts: the list operation");
    check(same_outcome(judge(spoilt.bytes, plan, std::vector<uint32_t>(128, 0)), wanted), "parts: judging");
    check(same_outcome(move_cart(spoilt.bytes, plan, Record(), 0), wanted), "parts: moving");
    check(same_outcome(why(spoilt.bytes, plan, Record(), 0), wanted), "parts: why");
    check(same_outcome(net(spoilt.bytes, plan, Bytes(9, 0)), wanted), "parts: the net");
    for (Planner planner : {Planner::removal, Planner::first_come, Planner::better}) {
        check(same_outcome(make_plan(spoilt.bytes, Bytes(156, 0), planner), wanted), "parts: planning");
    }
}

static void check_parts() {
    part_examples();
    Random random(104);
    std::vector<Sheet> sheets = {read_sheet(S).sheet, cases::longest_sheet()};
    for (uint32_t i = 0; i < 40; i++) sheets.push_back(cases::random_sheet(random, i % 4 == 0 ? cases::large_shape() : cases::small_shape()));
    uint64_t spoilt_sheets = 0;
    uint64_t told[17][9] = {};
    for (const Sheet& sheet : sheets) {
        const Bytes plan = cases::plan_to_bytes(cases::one_order_lists(random, sheet));
        for (const cases::SpoiltSheet& spoilt : cases::spoilt_sheets(sheet)) {
            check_spoilt(spoilt, plan);
            told[spoilt.wanted.cart][spoilt.wanted.step]++;
            spoilt_sheets++;
        }
    }
    for (int cart = 1; cart <= 16; cart++) {
        for (int step = 0; step <= 8; step++) check(told[cart][step] > 0, "parts: every cart and step is told");
    }
    std::printf("selftest: the cart and step of %llu spoilt sheets\n", static_cast<unsigned long long>(spoilt_sheets));
}

// Sheets and plans stored for the python programs, each under a line that begins with what was expected of it by hand.
static void run_vectors(const char* file) {
    std::ifstream input(file);
    uint32_t cases_read = 0;
    std::string above;
    for (std::string line; std::getline(input, line); above = line) {
        if (line.empty() || line[0] == '#') continue;
        const size_t bar = line.find('|');
        const Bytes sheet = cases::from_hex(line.substr(0, bar));
        const Outcome outcome = bar == std::string::npos ? Outcome(read_sheet(sheet)) : read_plan(sheet, cases::from_hex(line.substr(bar)));
        std::string wanted = outcome.number == 0 ? "done\n" : refusal_line(outcome).substr(std::strlen("refused "));
        wanted.back() = ':';
        check(above.compare(2, wanted.size(), wanted) == 0, std::string(file) + ": " + wanted + " not as expected by hand: " + above);
        cases_read++;
    }
    check(cases_read > 0, std::string("no cases in ") + file);
    std::printf("selftest: %u cases of %s as expected by hand\n", cases_read, file);
}

// ---------------------------------------------------------------------------------------------
// Search over the moves of document 01 and #102, not by way of independent.hpp's orders
// ---------------------------------------------------------------------------------------------

static uint32_t step_at(const Sheet& sheet, uint32_t cart, uint32_t zone) {
    uint32_t step = 0;
    while (sheet.carts[cart].steps[step].zone != zone) step++;
    return step;
}

// The carts that this one waits for: on the lane the one in front, if that is on it too, then those ahead in the zone's list.
static std::vector<uint32_t> waits_for(const Sheet& sheet, const Lists& lists, const Positions& positions, uint32_t cart) {
    std::vector<uint32_t> carts;
    const std::vector<Step>& route = sheet.carts[cart].steps;
    if (positions[cart] >= route.size()) return carts;
    if (positions[cart] == 0) {
        int front = -1;
        for (uint32_t other = 0; other < cart; other++) {
            if (sheet.carts[other].lane == sheet.carts[cart].lane) front = static_cast<int>(other);
        }
        if (front >= 0 && positions[static_cast<size_t>(front)] == 0) carts.push_back(static_cast<uint32_t>(front));
    }
    const uint32_t zone = route[positions[cart]].zone;
    for (uint32_t ahead : lists[zone]) {
        if (ahead == cart) break;
        if (positions[ahead] < step_at(sheet, ahead, zone) + 2) carts.push_back(ahead);
    }
    return carts;
}

static bool may_move(const Sheet& sheet, const Lists& lists, const Positions& positions, uint32_t cart) {
    return positions[cart] <= sheet.carts[cart].steps.size() && waits_for(sheet, lists, positions, cart).empty();
}

// Every state that permitted moves reach, and the one in which none is left.
struct Searched {
    std::set<Positions> reached;
    Positions end;
    bool all_out = true;
};

static Searched search(const Sheet& sheet, const Lists& lists) {
    Searched searched;
    std::vector<Positions> open = {Positions(sheet.carts.size(), 0)};
    searched.reached.insert(open[0]);
    uint32_t ends = 0;
    while (!open.empty()) {
        const Positions now = open.back();
        open.pop_back();
        bool some_may = false;
        for (uint32_t cart = 0; cart < sheet.carts.size(); cart++) {
            if (!may_move(sheet, lists, now, cart)) continue;
            some_may = true;
            Positions after = now;
            after[cart]++;
            if (searched.reached.insert(after).second) open.push_back(after);
        }
        if (some_may) continue;
        searched.end = now;
        ends++;
    }
    check(ends == 1, "the state reached doesn't depend on the order");
    for (uint32_t cart = 0; cart < sheet.carts.size(); cart++) {
        if (searched.end[cart] <= sheet.carts[cart].steps.size()) searched.all_out = false;
    }
    return searched;
}

// ---------------------------------------------------------------------------------------------
// The chain of #105
// ---------------------------------------------------------------------------------------------

static uint64_t chain_seen[cases::chain_situations] = {};
static uint64_t chain_lengths[17] = {};
static uint64_t chain_links_frozen = 0;

// Whether some run from here moves this cart while the other stands still.
static bool moves_without(const Sheet& sheet, const Lists& lists, Positions positions, uint32_t cart, uint32_t still) {
    const uint32_t before = positions[cart];
    for (bool moved = true; moved;) {
        moved = false;
        for (uint32_t c = 0; c < sheet.carts.size(); c++) {
            if (c == still || !may_move(sheet, lists, positions, c)) continue;
            positions[c]++;
            moved = true;
        }
    }
    return positions[cart] > before;
}

// A chain in a record that a run reaches: from the cart on, each waits for the next, the last may move, and none stands in it twice.
static void check_chain_of(const Sheet& sheet, const Lists& lists, const Record& record, uint32_t cart, const ChainAnswer& chain) {
    Positions positions;
    for (uint32_t c = 0; c < sheet.carts.size(); c++) positions.push_back(record.positions[c]);
    check(chain.number == 0 && !chain.links.empty() && chain.links.size() <= sheet.carts.size(), "chain: a cart that is not out has one");
    std::set<uint32_t> met;
    for (size_t i = 0; i < chain.links.size(); i++) {
        const uint32_t here = chain.links[i].cart;
        const std::vector<Step>& route = sheet.carts[here].steps;
        const std::vector<uint32_t> waited_for = waits_for(sheet, lists, positions, here);
        check(here == cart, "chain: begun at the cart asked about, each held by the first that it waits for");
        check(met.insert(here).second, "chain: no cart twice");
        check(positions[here] <= route.size(), "chain: no cart that is out");
        const bool out = positions[here] == route.size();
        check(chain.links[i].zone == (out ? 0 : route[positions[here]].zone), "chain: the wanted zone");
        if (i + 1 == chain.links.size()) {
            check(may_move(sheet, lists, positions, here) && chain.out == out, "chain: the last may move, and how");
        } else {
            check(!waited_for.empty() && !out, "chain: each but the last is held, and by a zone or its lane");
            cart = waited_for[0];
            check(!moves_without(sheet, lists, positions, here, cart), "chain: no run moves a cart while the next stands still");
            chain_links_frozen++;
        }
    }
    chain_lengths[chain.links.size()]++;
    for (cases::ChainSituation found : cases::situations_of(sheet, lists, record, chain)) chain_seen[found]++;
}

// #105 by hand.
static void chain_examples() {
    const Bytes A = cases::from_hex("01 000A 02 02 00 01 02 00 01");
    const Bytes B = cases::from_hex("01 000A 02 02 00 01 02 01 00");
    const auto text = [](const Bytes& sheet, const Bytes& plan, const Record& lent, uint32_t cart) {
        return why_program(together(together(sheet, plan), cases::record_and_cart(lent, cart))).output;
    };
    check(text(S, A, record({0, 0}, 0), 0) == "cart 0 may move into zone 0\n", "chain: of one, into a zone");
    check(text(S, A, record({0, 0}, 0), 1) == "cart 1 waits at zone 1 for cart 0\ncart 0 may move into zone 0\n", "chain: of two");
    check(text(S, A, record({2, 0}, 2), 1) == "cart 1 waits at zone 1 for cart 0\ncart 0 may move out\n", "chain: to the move out");
    check(text(S, A, record({2, 0}, 2), 0) == "cart 0 may move out\n", "chain: of one, out");
    check(text(S, A, record({3, 0}, 3), 1) == "cart 1 may move into zone 1\n", "chain: a cart that waits no more");
    check(text(S, A, record({1, 1}, 2), 0) == "refused 23 at 0\n", "chain: example 9's record");
    check(text(S, A, record({3, 3}, 6), 0) == "refused 25 at 0\n" && text(S, A, record({3, 3}, 6), 2) == "refused 24 at 0\n", "chain: example 12's");
    check(text(S, B, record({0, 0}, 0), 0) == "refused 22 at 0\n", "chain: a locked plan, and no ring printed");
    check(text(S, {}, record({0, 0}, 0), 0) == "refused 15 at 0\n", "chain: no plan");
    const Printed too_short = why_program(Bytes(20, 1));
    check(too_short.output.empty() && too_short.errors == "oblakosh: why_main takes a sheet, a plan, and 21 bytes of record and cart\n",
          "chain: 20 bytes");
    check(why_program(Bytes(21, 0)).output == "refused 1 at 0\n", "chain: 21 bytes and no sheet");
    check(why_program(together({2, 0, 1}, Bytes(21, 0))).output == "refused 2 at 0\n", "chain: bytes 1 and 2 say one byte is sheet");
    check(why_program(together({1, 0, 4}, Bytes(21, 0))).output == "refused 3 at 1\n", "chain: the request is no part of the sheet");
    Bytes told = S;
    told[24] = 0;
    check(text(told, A, Record(), 0) == "refused 11 at 24 cart 1 step 2\n", "chain: cart and step told");

    // carts 0, 1 and 3 on lane 0, cart 2 on lane 1: cart 3's zone has cart 2 first, its lane cart 1
    Sheet sheet;
    sheet.zones = {Zone{7, 10}, Zone{7, 10}, Zone{7, 10}};
    sheet.carts = {Cart{0, 0, {Step{0, 40, 0}}}, Cart{0, 0, {Step{1, 50, 0}}}, Cart{1, 0, {Step{2, 1000, 0}, Step{0, 1000, 0}}},
                   Cart{0, 0, {Step{2, 5, 0}}}};
    const Bytes bytes = cases::sheet_to_bytes(sheet);
    const Bytes plan = cases::plan_to_bytes({{2, 0}, {1}, {2, 3}});
    check(text(bytes, plan, Record(), 3) ==
              "cart 3 waits at zone 2 for cart 1\n"
              "cart 1 waits at zone 1 for cart 0\n"
              "cart 0 waits at zone 0 for cart 2\n"
              "cart 2 may move into zone 2\n",
          "chain: the lane before the list");
    check(text(bytes, plan, record({1, 1, 3, 0}, 5), 3) == "cart 3 may move into zone 2\n", "chain: the lane is left");
    check(text(bytes, plan, record({0, 0, 2, 0}, 2), 3) ==
              "cart 3 waits at zone 2 for cart 1\n"
              "cart 1 waits at zone 1 for cart 0\n"
              "cart 0 waits at zone 0 for cart 2\n"
              "cart 2 may move out\n",
          "chain: down two lane links to the move out");
}

// Chains made to have each length, each of their carts asked about; and all carts in records of random runs.
static void check_chains() {
    chain_examples();
    Random random(105);
    for (uint32_t length = 1; length <= 16; length++) {
        for (int i = 0; i < 60; i++) {
            const cases::Chained made = cases::random_chain(random, length);
            const Bytes sheet = cases::sheet_to_bytes(made.sheet);
            const Bytes plan = cases::plan_to_bytes(made.lists);
            for (size_t first = 0; first < made.chain.size(); first++) {
                const ChainAnswer chain = why(sheet, plan, made.record, made.chain[first]);
                check(chain.links.size() == made.chain.size() - first, "chain: as long as it was made");
                for (size_t k = 0; k < chain.links.size(); k++) check(chain.links[k].cart == made.chain[first + k], "chain: as it was made");
                check_chain_of(made.sheet, made.lists, made.record, made.chain[first], chain);
            }
        }
    }
    for (uint32_t i = 0; i < 300; i++) {
        const Sheet sheet = cases::random_sheet(random, i % 2 == 0 ? cases::large_shape() : cases::crowded_shape());
        const Lists lists = cases::one_order_lists(random, sheet);
        const Record now = cases::record_by_random_run(random, sheet, lists);
        for (uint32_t cart = 0; cart < sheet.carts.size(); cart++) {
            const ChainAnswer chain = why(cases::sheet_to_bytes(sheet), cases::plan_to_bytes(lists), now, cart);
            const bool out = now.positions[cart] == sheet.carts[cart].steps.size() + 1;
            check(chain.number == (out ? 25u : 0u), "chain: 25 exactly if the cart is out");
            if (!out) check_chain_of(sheet, lists, now, cart, chain);
        }
    }
    std::printf("selftest: chains by length");
    for (int length = 1; length <= 16; length++) {
        check(chain_lengths[length] > 0, "chain: every length");
        std::printf(" %d: %llu", length, static_cast<unsigned long long>(chain_lengths[length]));
    }
    std::printf("; %llu links whose next cart stood still\n", static_cast<unsigned long long>(chain_links_frozen));
}

// ---------------------------------------------------------------------------------------------
// The net of #106
// ---------------------------------------------------------------------------------------------

static uint64_t net_seen[cases::net_situations] = {};
static uint64_t nets_read_back = 0, nets_locked = 0;

// A net that was read from its text: by their names, the places with a token, the others, the transitions, and the arcs.
struct ReadNet {
    std::set<std::string> marked, unmarked, transitions;
    std::set<std::pair<std::string, std::string>> arcs;
    bool operator==(const ReadNet& other) const {
        return marked == other.marked && unmarked == other.unmarked && transitions == other.transitions && arcs == other.arcs;
    }
};

// What docs/NET.md's table says of each line. A text that can be read back to its net is no other net's.
static ReadNet read_net(const std::string& text) {
    ReadNet net;
    check(text.size() % 23 == 0, "net: lines of 23 bytes");
    for (size_t at = 0; at < text.size(); at += 23) {
        const std::string line = text.substr(at, 23), word = line.substr(0, 10);
        const std::string c = line.substr(11, 2), p = line.substr(14, 2), d = line.substr(17, 2), q = line.substr(20, 2);
        check(line.back() == '\n' && line[10] == ' ' && line[13] == ' ' && line[16] == ' ' && line[19] == ' ', "net: the form of a line");
        check((d == "--") == (word.find("line") == std::string::npos && word.find("pair") == std::string::npos), "net: the other cart");
        check((q == "--") == (word != "arc > line" && word != "arc > pair"), "net: the other cart's position");
        const std::string next = std::string(1, p[0]) + static_cast<char>(p[1] + 1);              // no position is above 9
        const std::string move = c + " from " + p, line_place = "line " + d + " " + c, pair_place = "pair " + d + " " + c + " at " + p;
        if (word == "place cart") {
            (p == "00" ? net.marked : net.unmarked).insert(c + " at " + p);
        } else if (word == "transition") {
            net.transitions.insert(move);
        } else if (word == "arc cart >") {
            net.arcs.insert({c + " at " + p, move});
        } else if (word == "arc > cart") {
            net.arcs.insert({move, c + " at " + next});
        } else if (word == "place line") {
            net.unmarked.insert(line_place);
        } else if (word == "arc > line") {
            net.arcs.insert({d + " from " + q, line_place});
        } else if (word == "arc line >") {
            net.arcs.insert({line_place, move});
        } else if (word == "place pair") {
            net.unmarked.insert(pair_place);
        } else if (word == "arc > pair") {
            net.arcs.insert({d + " from " + q, pair_place});
        } else {
            check(word == "arc pair >", "net: a word of the table");
            net.arcs.insert({pair_place, move});
        }
    }
    return net;
}

// The same of the net that was built.
static ReadNet as_read(const Net& net) {
    ReadNet read;
    for (size_t p = 0; p < net.places.size(); p++) {
        check(net.tokens[p] <= 1 && (net.tokens[p] == 1 ? read.marked : read.unmarked).insert(net.places[p]).second, "net: places have names of their own");
    }
    for (size_t t = 0; t < net.transitions.size(); t++) {
        check(read.transitions.insert(net.names[t]).second, "net: transitions have names of their own");
        for (size_t place : net.transitions[t].from) check(read.arcs.insert({net.places[place], net.names[t]}).second, "net: no arc twice");
        for (size_t place : net.transitions[t].to) check(read.arcs.insert({net.names[t], net.places[place]}).second, "net: no arc twice");
    }
    return read;
}

// The net of a readable plan: into room exactly long enough, one byte short and longer; its text read back; its end as a run's.
static void check_net(const Sheet& sheet, const Lists& lists, const Positions& end) {
    const Bytes bytes = cases::sheet_to_bytes(sheet);
    const Bytes plan = cases::plan_to_bytes(lists);
    const Net built = net_of(sheet, lists);
    const std::string text = text_of_net(built);
    check(text.size() <= 80891, "net: the longest text has 80,891 bytes");
    check(read_net(text) == as_read(built), "net: the text is read back to the net");
    nets_read_back++;
    bool all_out = true;
    for (uint32_t c = 0; c < sheet.carts.size(); c++) all_out = all_out && end[c] == sheet.carts[c].steps.size() + 1;
    if (!all_out) nets_locked++;
    const uint32_t length = static_cast<uint32_t>(text.size());
    for (uint32_t size = length > 0 ? length - 1 : 0; size <= length + 1; size++) {
        const NetAnswer answer = net(bytes, plan, Bytes(size, 171));
        for (cases::NetSituation found : cases::situations_of(sheet, lists, size, answer)) net_seen[found]++;
        if (size < length) {
            check(same_outcome(answer, Outcome{28, 0, 0, 0}) && answer.room == Bytes(size, 171), "net: one byte short");
            continue;
        }
        check(answer.number == 0 && answer.length == length && std::equal(text.begin(), text.end(), answer.room.begin()), "net: the text");
        check(size == length || answer.room[length] == 171, "net: bytes beyond the text");
        check(answer.locked == !all_out, "net: locked exactly if the runs do not bring all out");
        for (uint32_t c = 0; c < 16; c++) check(answer.positions[c] == (c < end.size() ? end[c] : 0), "net: the runs' positions");
    }
}

// #106 by hand.
static void net_examples() {
    const Bytes A = cases::from_hex("01 000A 02 02 00 01 02 00 01");
    const Bytes B = cases::from_hex("01 000A 02 02 00 01 02 01 00");
    const auto alone = [](const std::string& cart, int last) {
        std::vector<std::string> text(static_cast<size_t>(last) + 1);
        for (int p = 0; p <= last; p++) {
            const std::string rest = " " + cart + " 0" + std::to_string(p) + " -- --\n";
            text[static_cast<size_t>(p)] = "place cart" + rest;
            if (p < last) text[static_cast<size_t>(p)] += "transition" + rest + "arc cart >" + rest + "arc > cart" + rest;
        }
        return text;
    };
    const std::vector<std::string> first = alone("00", 3), second = alone("01", 3);
    const std::string first_cart = first[0] + first[1] + first[2] + first[3];
    const std::string pair_1 = "place pair 01 00 00 --\narc > pair 01 00 00 02\narc pair > 01 00 00 --\n";
    const std::string pair_0 = "place pair 01 01 00 --\narc > pair 01 01 00 01\narc pair > 01 01 00 --\n";
    const std::string line = "place line 01 00 00 --\narc > line 01 00 00 00\narc line > 01 00 00 --\n";
    check(net_program(together(S, A), false).output == first_cart + second[0] + pair_1 + second[1] + pair_0 + second[2] + second[3], "net: S with A");
    const std::string pair_b = "place pair 00 01 01 --\narc > pair 00 01 01 01\narc pair > 00 01 01 --\n";
    check(net_program(together(S, B), false).output ==
              first[0] + first[1] + pair_b + first[2] + first[3] + second[0] + second[1] + pair_0 + second[2] + second[3],
          "net: S with B");
    Bytes one_lane = S;
    one_lane[29] = 0;
    check(net_program(together(one_lane, A), false).output ==
              first_cart + second[0] + line + pair_1 + second[1] + pair_0 + second[2] + second[3],
          "net: S on one lane with A");
    const NetAnswer a = net(S, A, Bytes(23 * 32, 0)), b = net(S, B, Bytes(23 * 32, 0));
    check(a.number == 0 && !a.locked && a.length == 23 * 32 && a.positions == record({3, 3}, 0).positions, "net: S with A ends with both out");
    check(b.number == 0 && b.locked && b.length == 23 * 32 && b.positions == record({1, 1}, 0).positions, "net: S with B ends with both in");
    check(net(S, A, Bytes(23 * 32 - 1, 0)).number == 28, "net: one byte short");
    const NetAnswer none = net(cases::from_hex("01 0009 01 0000 0000 00"), cases::from_hex("01 0005 01 00"), {});
    check(none.number == 0 && none.length == 0 && !none.locked, "net: no carts, no text, no room");

    const Bytes no_carts = cases::from_hex("01 0009 01 0000 0000 00 01 0005 01 00");
    check(net_program(no_carts, false).output.empty() && net_program(no_carts, true).output == "digraph net {\n}\n", "net: no carts, as dot");
    // one cart of one step
    const Bytes one = cases::from_hex("01 0014 01 0000 0000 01 00 00000000 01 00 0001 0000 01 0006 01 01 00");
    check(net_program(one, true).output ==
              "digraph net {\n"
              "\"00 at 00\" [shape=circle label=\"&bull;\" xlabel=\"00 at 00\"]\n"
              "\"00 from 00\" [shape=box]\n"
              "\"00 at 00\" -> \"00 from 00\"\n"
              "\"00 from 00\" -> \"00 at 01\"\n"
              "\"00 at 01\" [shape=circle label=\"\" xlabel=\"00 at 01\"]\n"
              "\"00 from 01\" [shape=box]\n"
              "\"00 at 01\" -> \"00 from 01\"\n"
              "\"00 from 01\" -> \"00 at 02\"\n"
              "\"00 at 02\" [shape=circle label=\"\" xlabel=\"00 at 02\"]\n"
              "}\n",
          "net: one cart, as dot");
    const std::string dot = net_program(together(one_lane, A), true).output;
    for (const char* part : {"\"line 00 01\" [shape=circle label=\"\" xlabel=\"line 00 01\"]\n\"00 from 00\" -> \"line 00 01\"\n\"line 00 01\" -> \"01 from 00\"\n",
                             "\"pair 00 01 at 00\" [shape=circle label=\"\" xlabel=\"pair 00 01 at 00\"]\n"
                             "\"00 from 02\" -> \"pair 00 01 at 00\"\n\"pair 00 01 at 00\" -> \"01 from 00\"\n"}) {
        check(dot.find(part) != std::string::npos, "net: a line and a pair, as dot");
    }
    check(net_program(S, false).errors == "refused 15 at 0\n" && net_program(S, false).output.empty(), "net: refused");
}

// The largest nets, and random ones of all sizes; the small ones are held to the search below.
static void check_nets() {
    net_examples();
    const Sheet largest = cases::sheet_of_longest_net();
    const Lists only_plan = cases::visitors_of(largest);
    check(text_of_net(net_of(largest, only_plan)).size() == 80891, "net: 16 carts of 8 steps in 8 zones on one lane");
    check_net(largest, only_plan, run_to_the_end(largest, orders_of_lists(only_plan), false));
    Random random(106);
    for (uint32_t i = 0; i < 60; i++) {
        const Sheet sheet = cases::random_sheet(random, i % 3 == 0 ? cases::crowded_shape() : cases::large_shape());
        const Lists lists = i % 2 == 0 ? cases::one_order_lists(random, sheet) : cases::nearly_one_order_lists(random, sheet);
        check_net(sheet, lists, run_to_the_end(sheet, orders_of_lists(lists), true));
    }
    Sheet empty;
    empty.zones = {Zone(), Zone()};
    check_net(empty, {{}, {}}, {});
}

// ---------------------------------------------------------------------------------------------
// The stop line of #102
// ---------------------------------------------------------------------------------------------

static uint64_t line_seen[cases::line_situations] = {};

// 001, section 3.1, from its words: the timing conflict graph G' of the plan with a zone more for each lane, from it H', and
// whether H' has a cycle.
static bool published_graph_has_cycle(const Sheet& sheet, const Lists& lists) {
    struct Vertex {
        uint32_t vehicle, zone;
    };
    struct Edge {
        Vertex from, to;
    };
    const uint32_t n = static_cast<uint32_t>(sheet.zones.size());
    std::vector<Edge> type_1, others;
    for (uint32_t i = 0; i < sheet.carts.size(); i++) {
        Vertex last{i, n + sheet.carts[i].lane};                       // the stop line as a zone ahead of the first
        for (const Step& step : sheet.carts[i].steps) {
            type_1.push_back(Edge{last, Vertex{i, step.zone}});
            last = Vertex{i, step.zone};
        }
        for (uint32_t behind = i + 1; behind < sheet.carts.size(); behind++) {
            if (sheet.carts[behind].lane != sheet.carts[i].lane) continue;
            others.push_back(Edge{Vertex{i, n + sheet.carts[i].lane}, Vertex{behind, n + sheet.carts[i].lane}});
        }
    }
    for (uint32_t z = 0; z < n; z++) {
        for (size_t x = 0; x < lists[z].size(); x++) {
            for (size_t y = x + 1; y < lists[z].size(); y++) others.push_back(Edge{Vertex{lists[z][x], z}, Vertex{lists[z][y], z}});
        }
    }
    const auto same = [](const Vertex& a, const Vertex& b) { return a.vehicle == b.vehicle && a.zone == b.zone; };
    // H' has a vertex for each Type-1 edge
    std::vector<std::pair<size_t, size_t>> edges;
    for (size_t u = 0; u < type_1.size(); u++) {
        for (size_t v = 0; v < type_1.size(); v++) {
            if (same(type_1[u].to, type_1[v].from)) edges.push_back({u, v});
            for (const Edge& e : others) {
                // the last four rules: from each vertex involving v_{i,j} to each vertex involving v_{i',j}
                const bool of_i = same(type_1[u].from, e.from) || same(type_1[u].to, e.from);
                const bool of_other = same(type_1[v].from, e.to) || same(type_1[v].to, e.to);
                if (of_i && of_other) edges.push_back({u, v});
            }
        }
    }
    // take away vertices that no edge enters until none is left
    std::vector<bool> away(type_1.size(), false);
    for (bool taken = true; taken;) {
        taken = false;
        for (size_t u = 0; u < type_1.size(); u++) {
            bool entered = away[u];
            for (const auto& edge : edges) entered = entered || (edge.second == u && !away[edge.first]);
            if (entered) continue;
            away[u] = true;
            taken = true;
        }
    }
    for (size_t u = 0; u < type_1.size(); u++) {
        if (!away[u]) return true;
    }
    return false;
}

using Entering = std::vector<std::vector<int64_t>>;

static int64_t leaving(const Sheet& sheet, const Entering& enter, uint32_t cart, uint32_t step) {
    const std::vector<Step>& route = sheet.carts[cart].steps;
    if (step + 1 == route.size()) return enter[cart][step] + route[step].passing;
    return enter[cart][step + 1] - route[step].travel;
}

// What the waiting rules ask of this entering time, the others being these.
static int64_t least_entering(const Sheet& sheet, const Lists& lists, const Entering& enter, uint32_t cart, uint32_t step) {
    const Cart& c = sheet.carts[cart];
    int64_t least = c.arrival;
    if (step > 0) least = enter[cart][step - 1] + c.steps[step - 1].passing + c.steps[step - 1].travel;
    for (uint32_t front = 0; step == 0 && front < cart; front++) {
        if (sheet.carts[front].lane == c.lane) least = std::max(least, enter[front][0]);
    }
    const uint32_t zone = c.steps[step].zone;
    for (uint32_t ahead : lists[zone]) {
        if (ahead == cart) break;
        const bool same_lane = sheet.carts[ahead].lane == c.lane;
        const int64_t gap = same_lane ? sheet.zones[zone].follow_gap : sheet.zones[zone].cross_gap;
        least = std::max(least, leaving(sheet, enter, ahead, step_at(sheet, ahead, zone)) + gap);
    }
    return least;
}

// Every run to its end, each time worked out when its move is made; all runs give the same times.
static uint64_t check_times_of_runs(const Sheet& sheet, const Lists& lists, const Entering& wanted, const Positions& now, const Entering& enter) {
    uint64_t runs = 0;
    for (uint32_t cart = 0; cart < sheet.carts.size(); cart++) {
        if (!may_move(sheet, lists, now, cart)) continue;
        Positions after = now;
        Entering entered = enter;
        if (now[cart] < sheet.carts[cart].steps.size()) {
            entered[cart][now[cart]] = least_entering(sheet, lists, enter, cart, now[cart]);
            check(entered[cart][now[cart]] == wanted[cart][now[cart]], "the entering time does not depend on the run");
        }
        after[cart]++;
        runs += check_times_of_runs(sheet, lists, wanted, after, entered);
    }
    return runs > 0 ? runs : 1;
}

// Of all times no later than these, only these keep the waiting rules. (The earlier of two that keep them keeps them too, so
// none that keeps them is earlier anywhere.)
static bool check_times_are_least(const Sheet& sheet, const Lists& lists, const Entering& wanted) {
    uint64_t all = 1;
    for (const std::vector<int64_t>& row : wanted) {
        for (int64_t time : row) {
            if (time > 4000) return false;
            all *= static_cast<uint64_t>(time) + 1;
            if (all > 4000) return false;
        }
    }
    uint64_t keeping = 0;
    for (uint64_t number = 0; number < all; number++) {
        Entering enter = wanted;
        uint64_t rest = number;
        for (std::vector<int64_t>& row : enter) {
            for (int64_t& time : row) {
                const uint64_t times = static_cast<uint64_t>(time) + 1;
                time = static_cast<int64_t>(rest % times);
                rest /= times;
            }
        }
        bool keeps = true;
        for (uint32_t c = 0; keeps && c < enter.size(); c++) {
            for (uint32_t step = 0; keeps && step < enter[c].size(); step++) keeps = enter[c][step] >= least_entering(sheet, lists, enter, c, step);
        }
        if (!keeps) continue;
        check(enter == wanted, "no earlier times keep the waiting rules");
        keeping++;
    }
    check(keeping == 1, "the times keep the waiting rules");
    return true;
}

struct LineCounts {
    uint64_t plans = 0, locked = 0, by_line = 0, runs = 0, least = 0, requests = 0;
};

// A readable plan of a small crossing: verdict, ring, times and requests, all held to the search.
static void check_line(LineCounts& counts, const Sheet& sheet, const Lists& lists) {
    const Bytes bytes = cases::sheet_to_bytes(sheet);
    const Bytes plan = cases::plan_to_bytes(lists);
    const uint32_t m = static_cast<uint32_t>(sheet.carts.size());
    const Searched searched = search(sheet, lists);
    counts.plans++;
    check(published_graph_has_cycle(sheet, lists) == !searched.all_out, "the published graph has a cycle exactly if the search locks");
    const JudgeAnswer judged = judge(bytes, plan, std::vector<uint32_t>(128, 0));
    check(judged.number == (searched.all_out ? 0u : 22u), "22 exactly if the search locks");
    for (cases::LineSituation found : cases::line_situations_judged(sheet, lists, judged)) line_seen[found]++;
    check_net(sheet, lists, searched.end);
    for (const Positions& state : searched.reached) {
        for (uint32_t a = 0; a < m; a++) {
            for (uint32_t b = 0; b < a; b++) {
                if (sheet.carts[a].lane == sheet.carts[b].lane) check(state[a] == 0 || state[b] > 0, "a lane is left in order");
            }
        }
    }
    if (!searched.all_out) {
        counts.locked++;
        if (cases::line_locks(sheet, lists)) counts.by_line++;
        // "Follow from the lowest-numbered cart that is stuck until a cart repeats."
        uint32_t cart = 0;
        while (searched.end[cart] > sheet.carts[cart].steps.size()) cart++;
        for (uint32_t i = 0; i < m; i++) cart = waits_for(sheet, lists, searched.end, cart)[0];      // now it is in the ring
        std::vector<uint32_t> ring = {cart};
        for (uint32_t next = waits_for(sheet, lists, searched.end, cart)[0]; next != cart;
             next = waits_for(sheet, lists, searched.end, next)[0]) {
            ring.push_back(next);
        }
        std::rotate(ring.begin(), std::min_element(ring.begin(), ring.end()), ring.end());
        check(judged.ring.size() == ring.size(), "the ring's length");
        for (size_t i = 0; i < ring.size(); i++) {
            check(judged.ring[i].cart == ring[i], "the ring's carts");
            check(judged.ring[i].zone == sheet.carts[ring[i]].steps[searched.end[ring[i]]].zone, "the ring's wanted zones");
            for (const Positions& state : searched.reached) {
                check(state[ring[i]] <= sheet.carts[ring[i]].steps.size(), "no run brings a ring cart out");
            }
        }
        return;
    }
    Entering wanted;
    for (uint32_t c = 0; c < m; c++) {
        wanted.push_back({});
        for (size_t step = 0; step < sheet.carts[c].steps.size(); step++) wanted[c].push_back(judged.words[8 * c + step]);
    }
    Entering none = wanted;
    for (std::vector<int64_t>& row : none) std::fill(row.begin(), row.end(), 0);
    if (count_moves(sheet) <= 9) counts.runs += check_times_of_runs(sheet, lists, wanted, Positions(m, 0), none);
    if (check_times_are_least(sheet, lists, wanted)) counts.least++;

    // every record of positions in range, every cart
    if (count_states(sheet) > 150) return;
    Positions positions(m, 0);
    while (true) {
        const bool reached = searched.reached.count(positions) > 0;
        for (uint32_t cart = 0; cart < m; cart++) {
            const MoveRequest request{cases::record_of(positions), cart};
            const MoveAnswer answer = move_cart(bytes, plan, request.record, cart);
            const size_t holding = waits_for(sheet, lists, positions, cart).size();
            uint32_t number = 0;
            if (holding > 0) number = 26;
            if (positions[cart] > sheet.carts[cart].steps.size()) number = 25;
            if (!reached) number = 23;
            check(answer.number == number && answer.ahead == (number == 26 ? holding : 0), "moving answers as the search says");
            const ChainAnswer chain = why(bytes, plan, request.record, cart);
            check(chain.number == (number == 26 ? 0 : number), "why answers as the search says, and never 26");
            if (chain.number == 0) check_chain_of(sheet, lists, request.record, cart, chain);
            counts.requests++;
            for (cases::LineSituation found : cases::line_situations_moved(sheet, lists, request, answer)) line_seen[found]++;
        }
        uint32_t next = 0;
        while (next < m && positions[next] == sheet.carts[next].steps.size() + 1) positions[next++] = 0;
        if (next == m) return;
        positions[next]++;
    }
}

// #102 by hand: carts 0 and 1 on lane 0 with no zone in common, cart 2 on lane 1.
static void line_examples() {
    const std::vector<uint32_t> words(128, 9);
    Sheet sheet;
    sheet.zones = {Zone{7, 10}, Zone{7, 10}};
    sheet.carts = {Cart{0, 0, {Step{0, 40, 0}}}, Cart{0, 0, {Step{1, 50, 0}}}, Cart{1, 0, {Step{0, 1000, 0}}}};
    Bytes bytes = cases::sheet_to_bytes(sheet);
    Bytes plan = cases::plan_to_bytes({{2, 0}, {1}});
    const JudgeAnswer judged = judge(bytes, plan, words);
    check(judged.number == 0 && judged.words[0] == 1010 && judged.words[8] == 1010 && judged.words[16] == 0 && judged.finish == 1060,
          "line: cart 1 enters no earlier than cart 0");
    const MoveAnswer second = move_cart(bytes, plan, record({0, 0, 0}, 0), 1);
    check(second.number == 26 && second.ahead == 1, "line: the second of a lane asked first");
    const MoveAnswer front = move_cart(bytes, plan, record({0, 0, 0}, 0), 0);
    check(front.number == 26 && front.ahead == 1, "line: the first of a lane waits for the zone alone");
    check(move_cart(bytes, plan, record({0, 1, 0}, 1), 2).number == 23, "line: no run overtakes on the lane");
    check(move_cart(bytes, plan, record({1, 0, 2}, 3), 1).number == 0, "line: the second moves after the first");

    // cart 2 goes through zone 1 behind cart 1 and is ahead of cart 0 in zone 0
    sheet.carts[2] = Cart{1, 0, {Step{1, 5, 0}, Step{0, 5, 0}}};
    bytes = cases::sheet_to_bytes(sheet);
    plan = cases::plan_to_bytes({{2, 0}, {1, 2}});
    check(cases::line_locks(sheet, {{2, 0}, {1, 2}}), "line: accepted by the base, locked with the line");
    check(judge_program(together(bytes, plan)) ==
              "refused 22 at 0\n"
              "cart 0 waits at zone 0 for cart 2\n"
              "cart 2 waits at zone 1 for cart 1\n"
              "cart 1 waits at zone 1 for cart 0\n",
          "line: a ring over the lane");
    check(move_cart(bytes, plan, Record(), 0).number == 22, "line: a locked plan is refused before any move");

    // S on one lane, nobody has moved: cart 1 waits for cart 0 in zone 1 and on the lane
    Bytes one_lane = S;
    one_lane[29] = 0;
    const MoveAnswer both = move_cart(one_lane, cases::from_hex("01 000A 02 02 00 01 02 00 01"), Record(), 1);
    check(both.number == 26 && both.ahead == 2, "line: held by lane and list");

    // removal: cart 0's spare time is cart 1's, which is 0, so cart 0 goes first; 99 would have been a tie
    sheet.zones = {Zone{0, 3}, Zone{0, 3}};
    sheet.carts = {Cart{0, 0, {Step{0, 1, 0}}}, Cart{0, 0, {Step{1, 100, 0}}}, Cart{1, 0, {Step{0, 5, 0}}}};
    Removal removal = begin_removal(sheet);
    for (Pair& pair : removal.pairs) pair.state = PairState::undecided;
    for (const Direction& d : costs_of_directions(removal)) check(d.cost == (d.a == 2 ? 8 : -91), "line: costs by hand");
    const PlanningAnswer planned = make_plan(cases::sheet_to_bytes(sheet), Bytes(9, 0));
    check(planned.room == cases::plan_to_bytes({{0, 2}, {1}}) && planned.finish == 100, "line: removal by hand");

    // on one lane of three the third waits for the second, whether or not the first has moved
    sheet.zones = {Zone{0, 0}, Zone{0, 0}, Zone{0, 0}};
    sheet.carts = {Cart{0, 3, {Step{0, 1, 0}}}, Cart{0, 3, {Step{1, 1, 0}}}, Cart{0, 3, {Step{2, 1, 0}}}};
    bytes = cases::sheet_to_bytes(sheet);
    plan = cases::plan_to_bytes({{0}, {1}, {2}});
    check(move_cart(bytes, plan, record({2, 0, 0}, 2), 2).ahead == 1, "line: the third waits for the second");
    check(move_cart(bytes, plan, Record(), 2).ahead == 1, "line: the third waits for the second alone");
    check(move_cart(bytes, plan, record({2, 0, 0}, 2), 1).number == 0, "line: the second goes after the first");
}

// All plans of two carts, and of three on two zones; some of three on three, and of random crossings with few lanes.
static void check_line_on_small() {
    Random random(102);
    LineCounts counts;
    for (uint32_t m = 2; m <= 3; m++) {
        for (uint32_t n = 2; n <= 3; n++) {
            for (const std::vector<uint32_t>& lanes : cases::all_lanes(m)) {
                cases::for_every_tiny_crossing(random, m, n, lanes, [&](const Sheet& sheet, const Lists& lists, bool) {
                    if (m == 3 && n == 3 && !random.one_in(100)) return;
                    if (read_plan(cases::sheet_to_bytes(sheet), cases::plan_to_bytes(lists)).number == 0) check_line(counts, sheet, lists);
                });
            }
        }
    }
    for (uint32_t i = 0; i < 4000; i++) {
        const Sheet sheet = cases::random_sheet_for_line(random);
        check_line(counts, sheet, cases::shuffled_lists(random, sheet));
        check_line(counts, sheet, cases::one_order_lists(random, sheet));
        for (int tried = 0; tried < 10; tried++) {
            const Lists lists = cases::shuffled_lists(random, sheet);
            if (cases::line_locks(sheet, lists)) check_line(counts, sheet, lists);
        }
    }
    std::printf("selftest: the stop line on %llu plans, %llu locked, %llu of them by the line alone; %llu runs timed, %llu times the least, %llu requests\n",
                static_cast<unsigned long long>(counts.plans), static_cast<unsigned long long>(counts.locked),
                static_cast<unsigned long long>(counts.by_line), static_cast<unsigned long long>(counts.runs),
                static_cast<unsigned long long>(counts.least), static_cast<unsigned long long>(counts.requests));
    check(counts.by_line > 0 && counts.runs > 0 && counts.least > 0, "the line locks, runs are timed, and times are the least");
}

// ---------------------------------------------------------------------------------------------
// The planners of #101
// ---------------------------------------------------------------------------------------------

static uint64_t planners_seen[cases::planners_situations] = {};

// All three planners on a valid sheet, into room with bytes beyond; what #101 says of them, and what the search finds.
static void check_planners(const Bytes& bytes) {
    const Sheet sheet = read_sheet(bytes).sheet;
    const uint32_t length = static_cast<uint32_t>(4 + sheet.zones.size()) + count_steps(sheet);
    PlanningAnswer answers[3];
    for (int p = 0; p < 3; p++) {
        const Planner planner = p == 0 ? Planner::removal : p == 1 ? Planner::first_come : Planner::better;
        answers[p] = make_plan(bytes, Bytes(length + 2, 171), planner);
        check(answers[p].number == 0 && answers[p].length == length, "a valid sheet is planned");
        check(answers[p].room[length] == 171 && answers[p].room[length + 1] == 171, "bytes beyond the plan are untouched");
        const PlanningAnswer tight = make_plan(bytes, Bytes(length, 0), planner);
        check(tight.finish == answers[p].finish && std::equal(tight.room.begin(), tight.room.end(), answers[p].room.begin()),
              "exactly the plan's length is room enough");
        const PlanningAnswer refused = make_plan(bytes, Bytes(length - 1, 171), planner);
        check(refused.number == 28 && refused.place == 0 && refused.length == 0 && refused.finish == 0 &&
                  refused.room == Bytes(length - 1, 171),
              "one byte less: 28");
        const Bytes plan(answers[p].room.begin(), answers[p].room.begin() + length);
        const PlanAnswer read = read_plan(bytes, plan);
        check(read.number == 0, "the planner's plan is readable");
        if (count_states(sheet) <= 400) check(search(sheet, read.lists).all_out, "the planner's plan is not locked, by search");
        check(judge(bytes, plan, std::vector<uint32_t>(128, 0)).finish == answers[p].finish, "finish is the judge's");
        if (p != 1) continue;
        for (const std::vector<uint32_t>& list : read.lists) {
            for (size_t i = 1; i < list.size(); i++) {
                const uint32_t before = sheet.carts[list[i - 1]].arrival, after = sheet.carts[list[i]].arrival;
                check(before < after || (before == after && list[i - 1] < list[i]), "by arrival, then cart number");
            }
        }
    }
    const PlanningAnswer& wanted = answers[1].finish < answers[0].finish ? answers[1] : answers[0];
    check(answers[2].finish <= answers[0].finish && answers[2].finish <= answers[1].finish, "better is no later than either");
    check(answers[2].finish == wanted.finish && answers[2].room == wanted.room, "better is the earlier, the removal plan if equal");
    for (cases::PlannersSituation found : cases::situations_of(sheet, answers[0], answers[1])) planners_seen[found]++;
    for (cases::LineSituation found : cases::line_situations_planned(sheet)) line_seen[found]++;
}

// All routes and lanes. Among all plans of the smallest, first come's is accepted and the better plan is no earlier than the
// earliest accepted; of three carts on three zones some sheets are taken.
static void check_planners_on_tiny() {
    Random random(101);
    uint32_t sheets = 0, plans = 0;
    for (uint32_t m = 1; m <= 3; m++) {
        for (uint32_t n = 2; n <= (m == 3 ? 2 : 3); n++) {
            for (const std::vector<uint32_t>& lanes : cases::all_lanes(m)) {
                Bytes first_come;
                uint32_t finish = 0, better = 0, least = 0;
                bool met = true;
                cases::for_every_tiny_crossing(random, m, n, lanes, [&](const Sheet& sheet, const Lists& lists, bool first) {
                    const Bytes bytes = cases::sheet_to_bytes(sheet);
                    if (first) {
                        check(met && better >= least, "first come's plan is an accepted one, and the better plan no earlier than the earliest");
                        check_planners(bytes);
                        const PlanningAnswer answer = make_plan(bytes, Bytes(156, 0), Planner::first_come);
                        first_come.assign(answer.room.begin(), answer.room.begin() + answer.length);
                        finish = answer.finish;
                        better = make_plan(bytes, Bytes(156, 0), Planner::better).finish;
                        least = 18900000;
                        met = false;
                        sheets++;
                    }
                    const Bytes plan = cases::plan_to_bytes(lists);
                    const JudgeAnswer judged = judge(bytes, plan, std::vector<uint32_t>(128, 0));
                    plans++;
                    if (judged.number == 0) least = std::min(least, judged.finish);
                    if (plan == first_come) met = judged.number == 0 && judged.finish == finish;
                });
                check(met && better >= least, "first come's plan is an accepted one, and the better plan no earlier than the earliest");
            }
        }
    }
    std::printf("selftest: the planners on %u tiny sheets, among all their %u plans\n", sheets, plans);
    sheets = 0;
    for (const std::vector<uint32_t>& lanes : cases::all_lanes(3)) {
        cases::for_every_tiny_crossing(random, 3, 3, lanes, [&](const Sheet& sheet, const Lists&, bool first) {
            if (!first || !random.one_in(10)) return;
            check_planners(cases::sheet_to_bytes(sheet));
            sheets++;
        });
    }
    std::printf("selftest: the planners on %u sheets of three carts on three zones\n", sheets);
}

// ---------------------------------------------------------------------------------------------
// Stored sheets for the planners of #101
// ---------------------------------------------------------------------------------------------

constexpr const char* first_come_file = "compare/independent/first-come.txt";

// A line of the file: the sheet, first come's plan and finish, the better plan and finish.
static std::string first_come_line(const Bytes& sheet) {
    std::string line = hex(sheet);
    for (Planner planner : {Planner::first_come, Planner::better}) {
        const PlanningAnswer answer = make_plan(sheet, Bytes(156, 0), planner);
        check(answer.number == 0, "stored: a valid sheet");
        line += " " + hex(Bytes(answer.room.begin(), answer.room.begin() + answer.length)) + " " + std::to_string(answer.finish);
    }
    return line;
}

static void print_first_come_lines() {
    std::printf("# Valid sheets for the planners of #101, a line each: the sheet in hex, first come's plan and finish, the better plan and finish.\n");
    std::printf("# Document 01's S first. Written by the independent program (selftest first-come), which holds itself to them.\n");
    std::vector<Bytes> sheets = {S, S, cases::from_hex("01 0009 01 0000 0000 00"), cases::sheet_to_bytes(cases::longest_sheet())};
    sheets[1][29] = 0;                                                 // S with cart 1 on lane 0
    // so many sheets of each situation, of the shapes in turn
    Random random(2019);
    uint32_t wanted[cases::planners_situations] = {8, 10, 8, 5, 4, 2};
    for (uint32_t tried = 0; sheets.size() < 41; tried++) {
        Sheet sheet;
        switch (tried % 4) {
            case 0: sheet = cases::random_sheet(random, cases::Shape{2, 3, 3, 4, 3, true}); break;
            case 1: sheet = cases::random_sheet(random, cases::small_shape()); break;
            case 2: sheet = cases::random_sheet(random, cases::dense_shape()); break;
            default: sheet = cases::random_sheet_for_planners(random); break;
        }
        const Bytes bytes = cases::sheet_to_bytes(sheet);
        const PlanningAnswer removal = make_plan(bytes, Bytes(156, 0));
        bool take = false;
        for (cases::PlannersSituation found :
             cases::situations_of(sheet, removal, make_plan(bytes, Bytes(156, 0), Planner::first_come))) {
            if (wanted[found] == 0) continue;
            wanted[found]--;
            take = true;
            break;
        }
        if (take) sheets.push_back(bytes);
    }
    // and some in whose first-come plan the stop line decides a time
    while (sheets.size() < 49) {
        const Sheet sheet = cases::random_sheet_for_line(random);
        const Bytes bytes = cases::sheet_to_bytes(sheet);
        const WorkedOut planned = plan_first_come(bytes, sheet);
        const JudgeAnswer judged = judge(bytes, planned.plan, std::vector<uint32_t>(128, 0));
        if (cases::line_decides(sheet, planned.lists, judged.words)) sheets.push_back(bytes);
    }
    for (const Bytes& sheet : sheets) std::printf("%s\n", first_come_line(sheet).c_str());
}

static void run_first_come() {
    std::ifstream input(first_come_file);
    std::string line;
    uint32_t sheets = 0;
    uint64_t seen_before[cases::planners_situations];
    std::memcpy(seen_before, planners_seen, sizeof planners_seen);
    while (std::getline(input, line)) {
        if (line.empty() || line[0] == '#') continue;
        const Bytes sheet = cases::from_hex(line.substr(0, line.find(' ')));
        check(line == first_come_line(sheet), "first come: the stored plans and finishes");
        check(sheets > 0 || sheet == S, "first come: S is the first sheet");
        check_planners(sheet);
        sheets++;
    }
    check(sheets >= 40, "first come: 40 sheets");
    for (int s = 0; s < cases::planners_situations; s++) {
        check(planners_seen[s] > seen_before[s], std::string("first come: never seen ") + cases::planners_situation_names[s]);
    }
    std::printf("selftest: %u stored sheets of the planners\n", sheets);
}

// ---------------------------------------------------------------------------------------------
// Stored sheets and the removal rule's plans, which the python programs read
// ---------------------------------------------------------------------------------------------

constexpr const char* planned_file = "compare/planned.txt";

static std::vector<std::string> lines_of(const char* file) {
    std::ifstream input(file);
    std::vector<std::string> lines;
    for (std::string line; std::getline(input, line);) lines.push_back(line);
    return lines;
}

// The file's lines with each of its sheets planned anew: after what the sheet is for its finish and how often a group is cut,
// and below these the sheet and its plan.
static std::vector<std::string> planned_lines() {
    std::vector<std::string> lines = lines_of(planned_file);
    for (size_t at = 0; at < lines.size(); at++) {
        if (lines[at][0] == '#') continue;
        const std::string sheet = lines[at].substr(0, lines[at].find(' '));
        const PlanningAnswer answer = make_plan(cases::from_hex(sheet), Bytes(156, 0));
        check(answer.number == 0, "planned: a valid sheet");
        std::string& above = lines[at - 1];
        above = above.substr(0, above.find(';')) + "; finish " + std::to_string(answer.finish) + ", cut " + std::to_string(answer.cuts) + " times";
        lines[at] = sheet + " " + hex(Bytes(answer.room.begin(), answer.room.begin() + answer.length));
    }
    return lines;
}

static void run_planned() {
    const std::vector<std::string> lines = planned_lines();
    check(lines == lines_of(planned_file), "planned: the stored plans, finishes and cuts");
    const auto sheets = std::count_if(lines.begin(), lines.end(), [](const std::string& line) { return line[0] != '#'; });
    std::printf("selftest: %ld stored sheets of the removal rule\n", static_cast<long>(sheets));
}

static void describe(const Case& c) {
    std::fprintf(stderr, "case: %s\nsheet %s\nplan %s\nstdin %s\n", c.kind.c_str(), hex(c.sheet).c_str(),
                 hex(c.plan).c_str(), hex(c.standard_input).c_str());
    for (const MoveRequest& request : c.move_requests) {
        std::fprintf(stderr, "cart %llu record", static_cast<unsigned long long>(request.cart));
        for (uint8_t position : request.record.positions) std::fprintf(stderr, " %u", position);
        std::fprintf(stderr, " made %u\n", request.record.made);
    }
}

// ---------------------------------------------------------------------------------------------
// All of it
// ---------------------------------------------------------------------------------------------

static void run_random(const char* name, Random& random, uint32_t cases_wanted, Case (*make)(Random&)) {
    for (uint32_t i = 0; i < cases_wanted; i++) {
        Case c;
        try {
            c = make(random);
            run_case(random, c, i % 10 == 0);
        } catch (const std::exception& error) {
            std::fprintf(stderr, "selftest: failed in %s case %u: %s\n", name, i, error.what());
            describe(c);
            std::exit(1);
        }
    }
    std::printf("selftest: %u %s cases\n", cases_wanted, name);
}

static void run_cut_groups() {
    std::ifstream input("compare/independent/cut-groups.txt");
    std::string line;
    uint32_t sheets = 0;
    while (std::getline(input, line)) {
        if (line.empty() || line[0] == '#') continue;
        const size_t space = line.find(' ');
        const uint32_t wanted = static_cast<uint32_t>(std::atoi(line.substr(0, space).c_str()));
        const PlanningAnswer planning = make_plan(cases::from_hex(line.substr(space + 1)), Bytes(156, 0));
        check(planning.number == 0, "cut groups: a valid sheet");
        check(planning.cuts == wanted, "cut groups: as often as the file says");
        sheets++;
    }
    check(sheets > 0, "cut groups: some sheets");
    std::printf("selftest: %u sheets with cut groups\n", sheets);
}

int main(int words, char** word) {
    try {
        if (words == 2 && std::strcmp(word[1], "first-come") == 0) {
            print_first_come_lines();
            return 0;
        }
        if (words == 2 && std::strcmp(word[1], "planned") == 0) {
            for (const std::string& line : planned_lines()) std::printf("%s\n", line.c_str());
            return 0;
        }
        examples();
        std::printf("selftest: examples 1 to 15 as document 01 says\n");
        check_parts();
        run_vectors("crates/vectors/data/sheets.txt");
        run_vectors("crates/vectors/data/plans.txt");
        run_cut_groups();
        run_first_come();
        run_planned();
        check_planners_on_tiny();
        Random random(7);
        for (uint32_t i = 0; i < 1500; i++) {
            check_planners(cases::sheet_to_bytes(cases::random_sheet_for_planners(random)));
            check_planners(cases::sheet_to_bytes(cases::random_sheet_for_line(random)));
        }
        for (int s = 0; s < cases::planners_situations; s++) {
            check(planners_seen[s] > 0, std::string("planners: never seen ") + cases::planners_situation_names[s]);
        }
        check_chains();
        check_nets();
        line_examples();
        check_line_on_small();
        for (int s = 0; s < cases::line_situations; s++) {
            check(line_seen[s] > 0, std::string("the stop line: never seen ") + cases::line_situation_names[s]);
        }
        for (int s = 0; s < cases::chain_situations; s++) {
            check(chain_seen[s] > 0, std::string("chains: never seen ") + cases::chain_situation_names[s]);
        }
        for (int s = 0; s < cases::net_situations; s++) {
            check(net_seen[s] > 0, std::string("nets: never seen ") + cases::net_situation_names[s]);
        }
        std::printf("selftest: the text of %llu nets read back, %llu of them locked; their ends are the search's\n",
                    static_cast<unsigned long long>(nets_read_back), static_cast<unsigned long long>(nets_locked));
    } catch (const std::exception& error) {
        std::fprintf(stderr, "selftest: failed: %s\n", error.what());
        return 1;
    }
    Random random(1);
    run_random("small", random, 5000, cases::random_small_case);
    run_random("dense", random, 200, cases::random_dense_case);
    run_random("large", random, 40, cases::random_large_case);
    std::printf("selftest: %llu checks, none failed\n", static_cast<unsigned long long>(checks));
    return 0;
}
