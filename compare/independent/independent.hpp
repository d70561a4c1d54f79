// Every operation of document 01 with document 02's #101, #102 and #104 to #106 on any bytes, written from them alone and plain on purpose.
//
// Lines in quotation marks are sentences of document 01, unless they are marked "001", which is the
// paper it refers to (Lin and others 2019), #101, #102, #104, #105 or #106, which are document 02's, or NET.md, which is docs/NET.md. The double
// checks (search over all runs, times two ways, resource conflict graph, cart and step of a refusal two ways, the net's marking beside the runs)
// are inside the operations; one that fails throws DoubleCheckFailed.

#ifndef INDEPENDENT_HPP
#define INDEPENDENT_HPP

#include <algorithm>
#include <array>
#include <cstddef>
#include <cstdint>
#include <stdexcept>
#include <string>
#include <tuple>
#include <utility>
#include <vector>

namespace independent {

using Bytes = std::vector<uint8_t>;
using Lists = std::vector<std::vector<uint32_t>>;      // for each zone its carts, first through first
using Positions = std::vector<uint32_t>;               // for each cart 0, k, or steps + 1

// Crossings with more states than this are not searched run by run (the other checks stay).
constexpr uint64_t search_limit = 3000;
// Plannings with more steps than this are not worked out two ways in every round.
constexpr uint64_t planning_check_steps = 24;
// How many double checks this thread made.
struct DoubleCheckCounts {
    uint64_t searches = 0;             // crossings searched over all runs
    uint64_t states = 0;               // states reached in them
    uint64_t verdicts = 0;             // verdict: moves, run to the end, resource conflict graph
    uint64_t locked = 0;               // of these, locked
    uint64_t times = 0;                // entering times two ways
    uint64_t spare = 0;                // spare times two ways
    uint64_t records = 0;              // records tested for being reachable
    uint64_t records_searched = 0;     // of these, compared with the search
    uint64_t parts = 0;                // cart and step of a refusal two ways
    uint64_t chains = 0;               // chains held to the moves' rule link by link
    uint64_t nets = 0;                 // nets fired, and their markings held to the runs

    void add(const DoubleCheckCounts& other) {
        searches += other.searches;
        states += other.states;
        verdicts += other.verdicts;
        locked += other.locked;
        times += other.times;
        spare += other.spare;
        records += other.records;
        records_searched += other.records_searched;
        parts += other.parts;
        chains += other.chains;
        nets += other.nets;
    }
};
inline thread_local DoubleCheckCounts double_check_counts;

class DoubleCheckFailed : public std::logic_error {
public:
    explicit DoubleCheckFailed(const std::string& what) : std::logic_error(what) {}
};

inline void must(bool condition, const char* what) {
    if (!condition) throw DoubleCheckFailed(what);
}

// ---------------------------------------------------------------------------------------------
// Values
// ---------------------------------------------------------------------------------------------

struct Zone {
    uint32_t follow_gap = 0;
    uint32_t cross_gap = 0;
};
struct Step {
    uint32_t zone = 0;
    uint32_t passing = 0;
    uint32_t travel = 0;
};
struct Cart {
    uint32_t lane = 0;
    uint32_t arrival = 0;
    std::vector<Step> steps;
};
struct Sheet {
    std::vector<Zone> zones;
    std::vector<Cart> carts;
};

// The step of this cart's route that names the zone, counted from 0; -1 if it doesn't visit it.
inline int step_in_route(const Cart& cart, uint32_t zone) {
    for (size_t step = 0; step < cart.steps.size(); step++) {
        if (cart.steps[step].zone == zone) return static_cast<int>(step);
    }
    return -1;
}

inline uint32_t count_steps(const Sheet& sheet) {
    uint32_t steps = 0;
    for (const Cart& cart : sheet.carts) steps += static_cast<uint32_t>(cart.steps.size());
    return steps;
}

inline uint32_t count_visitors(const Sheet& sheet, uint32_t zone) {
    uint32_t visitors = 0;
    for (const Cart& cart : sheet.carts) {
        if (step_in_route(cart, zone) >= 0) visitors++;
    }
    return visitors;
}

// "On one lane, a lower cart number is in front." #102: "the next lower-numbered cart of its lane";
// -1 if the cart is its lane's first.
inline int cart_in_front(const Sheet& sheet, uint32_t cart) {
    for (int other = static_cast<int>(cart) - 1; other >= 0; other--) {
        if (sheet.carts[static_cast<size_t>(other)].lane == sheet.carts[cart].lane) return other;
    }
    return -1;
}

// #102: "the lane's next cart"; -1 if the cart is its lane's last. Absent carts are on no lane.
inline int cart_next_on_lane(const Sheet& sheet, uint32_t cart) {
    for (uint32_t other = cart + 1; other < sheet.carts.size(); other++) {
        if (sheet.carts[other].lane == sheet.carts[cart].lane) return static_cast<int>(other);
    }
    return -1;
}

// ---------------------------------------------------------------------------------------------
// Answers. "On refusal every other part of the answer is 0, the returned list is empty, and lent
// memory is unchanged."
// ---------------------------------------------------------------------------------------------

// What every answer begins with. #104: "Each refusal from 1 to 14 that stands inside a cart's part of
// the sheet returns that cart's number plus one, and its step plus one when it is inside a step, else
// 0."
struct Outcome {
    uint32_t number = 0;
    uint32_t place = 0;
    uint32_t cart = 0;
    uint32_t step = 0;
};
struct SheetAnswer : Outcome {
    Sheet sheet;                       // empty on refusal
};
struct PlanAnswer : Outcome {
    Lists lists;                       // empty on refusal
    std::vector<uint32_t> list_places; // where in the plan each zone's first cart number stands
    Sheet sheet;                       // the sheet it was read for, empty on refusal
};
struct WriteAnswer : Outcome {
    uint32_t length = 0;               // bytes written
    Bytes room;                        // the whole room afterwards
};
struct ListAnswer : Outcome {
    uint32_t position = 0;             // of the first cart number (after the count byte)
    uint32_t length = 0;
};
struct RingCart {
    uint32_t cart = 0;
    uint32_t zone = 0;                 // the wanted zone
};
struct JudgeAnswer : Outcome {
    std::vector<RingCart> ring;        // only with 22
    uint32_t finish = 0;
    uint32_t moves = 0;
    std::vector<uint32_t> words;       // all lent words afterwards
};
struct PlanningAnswer : Outcome {
    uint32_t length = 0;
    uint32_t finish = 0;
    Bytes room;                        // the whole room afterwards
    uint32_t cuts = 0;                 // not part of the library's answer: how often a group was cut
};
struct Record {
    std::array<uint8_t, 16> positions{};
    uint32_t made = 0;
};
struct MoveAnswer : Outcome {
    uint32_t ahead = 0;                // only with 26
    Record record;                     // afterwards
};
struct ChainLink {
    uint32_t cart = 0;
    uint32_t zone = 0;                 // the wanted zone, 0 where the move out is wanted
};
struct ChainAnswer : Outcome {
    std::vector<ChainLink> links;      // begun at the cart asked about, each held by the next
    bool out = false;                  // whether the last one's move is the move out
};
struct NetAnswer : Outcome {
    uint32_t length = 0;               // of the text
    bool locked = false;
    std::array<uint8_t, 16> positions{};
    Bytes room;                        // the whole room afterwards
};

// ---------------------------------------------------------------------------------------------
// Reading a sheet
// ---------------------------------------------------------------------------------------------

// "Fields are taken in byte order. Each field is either there with its value or the sheet is cut
// at it"
struct FieldReader {
    const Bytes& bytes;
    size_t next = 0;                   // first byte not yet taken

    uint32_t place = 0;                // "Field" is the field's first byte
    uint32_t value = 0;
    uint32_t cart = 0;                 // #104: of the cart's part that the fields now taken stand in,
    uint32_t step = 0;                 // and of the step in it

    explicit FieldReader(const Bytes& b) : bytes(b) {}

    // "All numbers are unsigned and big-endian."
    bool take(size_t width) {
        place = static_cast<uint32_t>(next);
        value = 0;
        if (bytes.size() - next < width) return false;
        for (size_t i = 0; i < width; i++) value = value * 256 + bytes[next + i];
        next += width;
        return true;
    }
};

inline SheetAnswer refuse_sheet(uint32_t number, size_t place, uint32_t cart, uint32_t step) {
    SheetAnswer answer;
    answer.number = number;
    answer.place = static_cast<uint32_t>(place);
    answer.cart = cart;
    answer.step = step;
    return answer;
}

// At the field taken last, cut or not. #104: "A cut in a cart's part counts as that cart's."
inline SheetAnswer refuse_sheet(uint32_t number, const FieldReader& field) {
    return refuse_sheet(number, field.place, field.cart, field.step);
}

// First way to the cart and step of a refusal: counted along with the fields.
inline SheetAnswer scan_sheet(const Bytes& bytes) {
    Sheet sheet;
    std::vector<uint32_t> arrival_places;
    FieldReader field(bytes);

    // "Version byte 1"
    if (!field.take(1)) return refuse_sheet(1, field);
    if (field.value != 1) return refuse_sheet(2, field);

    // "total length (2 bytes)"; "length field differs from bytes lent"
    if (!field.take(2)) return refuse_sheet(1, field);
    if (field.value != bytes.size()) return refuse_sheet(3, field);

    // "zone count n, 1 to 24"
    if (!field.take(1)) return refuse_sheet(1, field);
    if (field.value == 0 || field.value > 24) return refuse_sheet(4, field);
    const uint32_t zone_count = field.value;

    // "for each zone the follow gap and the cross gap (2 bytes each, 0 to 60,000)"
    for (uint32_t z = 0; z < zone_count; z++) {
        Zone zone;
        if (!field.take(2)) return refuse_sheet(1, field);
        if (field.value > 60000) return refuse_sheet(5, field);
        zone.follow_gap = field.value;
        if (!field.take(2)) return refuse_sheet(1, field);
        if (field.value > 60000) return refuse_sheet(5, field);
        zone.cross_gap = field.value;
        sheet.zones.push_back(zone);
    }

    // "cart count m, 0 to 16"
    if (!field.take(1)) return refuse_sheet(1, field);
    if (field.value > 16) return refuse_sheet(6, field);
    const uint32_t cart_count = field.value;

    for (uint32_t c = 0; c < cart_count; c++) {
        Cart cart;
        field.cart = c + 1;
        field.step = 0;
        // "lane (0 to 15)"
        if (!field.take(1)) return refuse_sheet(1, field);
        if (field.value > 15) return refuse_sheet(7, field);
        cart.lane = field.value;
        // "arrival (4 bytes, 0 to 3,600,000)"
        if (!field.take(4)) return refuse_sheet(1, field);
        if (field.value > 3600000) return refuse_sheet(8, field);
        cart.arrival = field.value;
        arrival_places.push_back(field.place);
        // "step count 1 to 8"
        if (!field.take(1)) return refuse_sheet(1, field);
        if (field.value == 0 || field.value > 8) return refuse_sheet(9, field);
        const uint32_t step_count = field.value;
        // "and each step: zone, passing time, travel time to the next step (2 bytes each, 0 to
        // 60,000; travel is 0 on the last step)" - by the lengths 9 and 837 the zone has one byte
        for (uint32_t s = 0; s < step_count; s++) {
            Step step;
            field.step = s + 1;
            if (!field.take(1)) return refuse_sheet(1, field);
            if (field.value >= zone_count) return refuse_sheet(10, field);
            // "A route names a zone at most once."
            if (step_in_route(cart, field.value) >= 0) return refuse_sheet(11, field);
            step.zone = field.value;
            if (!field.take(2)) return refuse_sheet(1, field);
            if (field.value > 60000) return refuse_sheet(12, field);
            step.passing = field.value;
            if (!field.take(2)) return refuse_sheet(1, field);
            if (field.value > 60000) return refuse_sheet(12, field);
            if (s + 1 == step_count && field.value != 0) return refuse_sheet(12, field);
            step.travel = field.value;
            cart.steps.push_back(step);
        }
        sheet.carts.push_back(cart);
    }

    // "13 is tested after all fields, then 14"; "bytes after the last cart", "first of them"; #104: "For
    // 13 both are 0; for 14 the step is 0."
    if (field.next < bytes.size()) return refuse_sheet(13, field.next, 0, 0);

    // "a cart arrives before a lower-numbered one of its lane", "its arrival, lowest such cart"
    for (size_t c = 0; c < sheet.carts.size(); c++) {
        for (size_t lower = 0; lower < c; lower++) {
            if (sheet.carts[lower].lane != sheet.carts[c].lane) continue;
            if (sheet.carts[c].arrival < sheet.carts[lower].arrival) {
                return refuse_sheet(14, arrival_places[c], static_cast<uint32_t>(c) + 1, 0);
            }
        }
    }

    SheetAnswer answer;
    answer.sheet = sheet;
    return answer;
}

// Which cart's part of the sheet a place stands in, and which step's: numbers plus one, else 0.
struct SheetPart {
    uint32_t cart = 0;
    uint32_t step = 0;
};

// Second way: from the place alone, by the lengths of what stands before it, where all is in order.
inline SheetPart part_at(const Bytes& bytes, size_t place) {
    constexpr size_t head_length = 6;                       // lane, arrival, step count
    constexpr size_t step_length = 5;                       // zone, passing time, travel time
    SheetPart part;
    if (place < 4) return part;                             // version, length, zone count
    size_t first = 5 + 4 * static_cast<size_t>(bytes[3]);   // behind the gaps and the cart count
    if (place < first) return part;
    part.cart = 1;
    while (place >= first + head_length) {
        const size_t end = first + head_length + step_length * bytes[first + 5];
        if (place < end) {
            part.step = static_cast<uint32_t>((place - first - head_length) / step_length) + 1;
            return part;
        }
        first = end;
        part.cart++;
    }
    return part;
}

inline SheetAnswer read_sheet(const Bytes& bytes) {
    const SheetAnswer answer = scan_sheet(bytes);
    if (answer.number == 0 || answer.number == 13) {
        must(answer.cart == 0 && answer.step == 0, "no cart is told if done, and none with 13");
        return answer;
    }
    const SheetPart part = part_at(bytes, answer.place);
    must(answer.cart == part.cart && answer.step == part.step, "cart and step: counted, and by the place");
    must(answer.cart <= 16 && answer.step <= 8, "a cart and a step that a sheet has");
    double_check_counts.parts++;
    return answer;
}

// #104: "every operation passes it on"
inline void pass_on(const Outcome& refusal, Outcome& answer) { answer = refusal; }

// ---------------------------------------------------------------------------------------------
// Reading a plan. "the sheet comes fully before the plan"
// ---------------------------------------------------------------------------------------------

inline PlanAnswer refuse_plan(uint32_t number, size_t place) {
    PlanAnswer answer;
    answer.number = number;
    answer.place = static_cast<uint32_t>(place);
    return answer;
}

inline PlanAnswer read_plan(const Bytes& sheet_bytes, const Bytes& plan_bytes) {
    PlanAnswer answer;
    const SheetAnswer sheet_answer = read_sheet(sheet_bytes);
    if (sheet_answer.number != 0) {
        pass_on(sheet_answer, answer);
        return answer;
    }
    const Sheet& sheet = sheet_answer.sheet;
    FieldReader field(plan_bytes);

    // "Version byte 1"
    if (!field.take(1)) return refuse_plan(15, field.place);
    if (field.value != 1) return refuse_plan(16, 0);

    // "total length (2 bytes)"
    if (!field.take(2)) return refuse_plan(15, field.place);
    if (field.value != plan_bytes.size()) return refuse_plan(17, 1);

    // "zone count"
    if (!field.take(1)) return refuse_plan(15, field.place);
    if (field.value != sheet.zones.size()) return refuse_plan(18, 3);

    // "for each zone a count and that many cart numbers, first through first. Each zone lists
    // exactly the carts whose routes name it, once each."
    for (uint32_t z = 0; z < sheet.zones.size(); z++) {
        if (!field.take(1)) return refuse_plan(15, field.place);
        if (field.value != count_visitors(sheet, z)) return refuse_plan(19, field.place);
        const uint32_t count = field.value;
        answer.list_places.push_back(static_cast<uint32_t>(field.next));
        std::vector<uint32_t> list;
        for (uint32_t i = 0; i < count; i++) {
            if (!field.take(1)) return refuse_plan(15, field.place);
            const uint32_t cart = field.value;
            // "a listed cart doesn't visit it"
            if (cart >= sheet.carts.size()) return refuse_plan(19, field.place);
            if (step_in_route(sheet.carts[cart], z) < 0) return refuse_plan(19, field.place);
            // "or is listed twice there"
            for (uint32_t earlier : list) {
                if (earlier == cart) return refuse_plan(19, field.place);
            }
            list.push_back(cart);
        }
        answer.lists.push_back(list);
    }

    // "20 after all lists, then 21"
    if (field.next < plan_bytes.size()) return refuse_plan(20, field.next);

    // "a listed cart has a higher-numbered one of its lane ahead", "first such byte"
    for (uint32_t z = 0; z < sheet.zones.size(); z++) {
        const std::vector<uint32_t>& list = answer.lists[z];
        for (size_t i = 0; i < list.size(); i++) {
            for (size_t ahead = 0; ahead < i; ahead++) {
                const bool same_lane = sheet.carts[list[ahead]].lane == sheet.carts[list[i]].lane;
                if (same_lane && list[ahead] > list[i]) {
                    return refuse_plan(21, answer.list_places[z] + i);
                }
            }
        }
    }

    // "The length is 4 + n + all steps, at most 156."
    must(plan_bytes.size() == 4 + sheet.zones.size() + count_steps(sheet), "plan length");
    must(plan_bytes.size() <= 156, "plan length at most 156");

    answer.sheet = sheet;
    return answer;
}

// ---------------------------------------------------------------------------------------------
// Writing the plan again
// ---------------------------------------------------------------------------------------------

inline Bytes plan_to_bytes(const Lists& lists) {
    size_t length = 4;
    for (const std::vector<uint32_t>& list : lists) length += 1 + list.size();
    Bytes bytes;
    bytes.push_back(1);
    bytes.push_back(static_cast<uint8_t>(length / 256));
    bytes.push_back(static_cast<uint8_t>(length % 256));
    bytes.push_back(static_cast<uint8_t>(lists.size()));
    for (const std::vector<uint32_t>& list : lists) {
        bytes.push_back(static_cast<uint8_t>(list.size()));
        for (uint32_t cart : list) bytes.push_back(static_cast<uint8_t>(cart));
    }
    return bytes;
}

// "writing it again 1 to 21 and 28"; "Planning and writing need exactly the plan's length in room;
// bytes beyond are untouched."
inline WriteAnswer write_plan(const Bytes& sheet_bytes, const Bytes& plan_bytes, const Bytes& room) {
    WriteAnswer answer;
    answer.room = room;
    const PlanAnswer plan = read_plan(sheet_bytes, plan_bytes);
    if (plan.number != 0) {
        pass_on(plan, answer);
        return answer;
    }
    const Bytes written = plan_to_bytes(plan.lists);
    // Document 00: "a readable plan written again gives the same bytes."
    must(written == plan_bytes, "a readable plan written again gives the same bytes");
    if (room.size() < written.size()) {
        answer.number = 28;
        answer.place = 0;
        return answer;
    }
    for (size_t i = 0; i < written.size(); i++) answer.room[i] = written[i];
    answer.length = static_cast<uint32_t>(written.size());
    return answer;
}

// ---------------------------------------------------------------------------------------------
// The list operation
// ---------------------------------------------------------------------------------------------

// "the list operation 1 to 21 and 27"; "The list operation hands back the zone's passing list as
// the very part of the plan lent."
inline ListAnswer list_zone(const Bytes& sheet_bytes, const Bytes& plan_bytes, uint64_t zone) {
    ListAnswer answer;
    const PlanAnswer plan = read_plan(sheet_bytes, plan_bytes);
    if (plan.number != 0) {
        pass_on(plan, answer);
        return answer;
    }
    if (zone >= plan.lists.size()) {
        answer.number = 27;
        answer.place = 0;
        return answer;
    }
    answer.position = plan.list_places[zone];
    answer.length = static_cast<uint32_t>(plan.lists[zone].size());
    for (size_t i = 0; i < plan.lists[zone].size(); i++) {
        must(plan_bytes[answer.position + i] == plan.lists[zone][i], "list is the part of the plan");
    }
    return answer;
}

// ---------------------------------------------------------------------------------------------
// Orders. before[z][a][b]: the order "a before b" in zone z is present.
// A complete plan has "an edge for every pair in a list"; the planner has fewer.
// ---------------------------------------------------------------------------------------------

struct Orders {
    bool before[24][16][16] = {};
};

inline Orders orders_of_lists(const Lists& lists) {
    Orders orders;
    for (size_t z = 0; z < lists.size(); z++) {
        for (size_t i = 0; i < lists[z].size(); i++) {
            for (size_t j = i + 1; j < lists[z].size(); j++) {
                orders.before[z][lists[z][i]][lists[z][j]] = true;
            }
        }
    }
    return orders;
}

// ---------------------------------------------------------------------------------------------
// Moves and their graph
// ---------------------------------------------------------------------------------------------

// "A cart with k steps makes k + 1 moves: into its first zone (from the lane), from each zone into
// the next, and out of its last zone." Move number 0 goes into the first zone, move number k out.
struct Move {
    uint32_t cart = 0;
    uint32_t index = 0;
};

inline uint32_t count_moves(const Sheet& sheet) {
    uint32_t moves = 0;
    for (const Cart& cart : sheet.carts) moves += static_cast<uint32_t>(cart.steps.size()) + 1;
    return moves;
}

// "the moves, each after its own cart's earlier move and after the leavings it waits for".
// Takes again and again a move that has nothing left to come after. All moves are taken exactly
// when there is no cycle; the answer is the moves taken, in an order that respects the graph.
// Without the stop line these are document 01's moves before #102, asked for in comparisons only.
inline std::vector<Move> order_of_moves(const Sheet& sheet, const Orders& orders, bool stop_line = true) {
    std::vector<Move> moves;
    std::vector<size_t> first_move_of;
    for (uint32_t c = 0; c < sheet.carts.size(); c++) {
        first_move_of.push_back(moves.size());
        for (uint32_t index = 0; index <= sheet.carts[c].steps.size(); index++) {
            Move move;
            move.cart = c;
            move.index = index;
            moves.push_back(move);
        }
    }

    std::vector<std::vector<size_t>> later(moves.size());
    std::vector<uint32_t> waits_for(moves.size(), 0);

    // "each after its own cart's earlier move"
    for (size_t c = 0; c < sheet.carts.size(); c++) {
        for (size_t index = 0; index < sheet.carts[c].steps.size(); index++) {
            later[first_move_of[c] + index].push_back(first_move_of[c] + index + 1);
            waits_for[first_move_of[c] + index + 1]++;
        }
    }
    // "and after the leavings it waits for": b enters zone z (its move number = its step there)
    // after a has left it (a's move number = a's step there + 1).
    for (size_t z = 0; z < sheet.zones.size(); z++) {
        for (size_t a = 0; a < sheet.carts.size(); a++) {
            for (size_t b = 0; b < sheet.carts.size(); b++) {
                if (!orders.before[z][a][b]) continue;
                const int step_a = step_in_route(sheet.carts[a], static_cast<uint32_t>(z));
                const int step_b = step_in_route(sheet.carts[b], static_cast<uint32_t>(z));
                must(step_a >= 0 && step_b >= 0, "an order is between two carts that visit the zone");
                const size_t leaving = first_move_of[a] + static_cast<size_t>(step_a) + 1;
                const size_t entering = first_move_of[b] + static_cast<size_t>(step_b);
                later[leaving].push_back(entering);
                waits_for[entering]++;
            }
        }
    }

    // #102: "A cart's first move now also waits until the next lower-numbered cart of its lane has
    // made its first move"
    for (uint32_t c = 0; c < sheet.carts.size(); c++) {
        const int front = cart_in_front(sheet, c);
        if (!stop_line || front < 0) continue;
        later[first_move_of[static_cast<size_t>(front)]].push_back(first_move_of[c]);
        waits_for[first_move_of[c]]++;
    }

    std::vector<size_t> taken;
    for (size_t i = 0; i < moves.size(); i++) {
        if (waits_for[i] == 0) taken.push_back(i);
    }
    for (size_t done = 0; done < taken.size(); done++) {
        for (size_t next : later[taken[done]]) {
            waits_for[next]--;
            if (waits_for[next] == 0) taken.push_back(next);
        }
    }

    std::vector<Move> order;
    for (size_t i : taken) order.push_back(moves[i]);
    return order;
}

inline bool moves_have_cycle(const Sheet& sheet, const Orders& orders) {
    return order_of_moves(sheet, orders).size() != count_moves(sheet);
}

// ---------------------------------------------------------------------------------------------
// Making moves. Positions: "0 on the lane, k in the k-th zone, steps + 1 out"
// ---------------------------------------------------------------------------------------------

inline bool is_out(const Sheet& sheet, const Positions& positions, uint32_t cart) {
    return positions[cart] == sheet.carts[cart].steps.size() + 1;
}

// A cart has left a zone of its route when it stands further on than in it. Step s is the
// (s + 1)-th zone.
inline bool has_left(const Sheet& sheet, const Positions& positions, uint32_t cart, uint32_t zone) {
    const int step = step_in_route(sheet.carts[cart], zone);
    must(step >= 0, "only a cart that visits the zone can leave it");
    return positions[cart] > static_cast<uint32_t>(step) + 1;
}

// The zone the cart's next move goes into; -1 when the next move is the move out.
inline int wanted_zone(const Sheet& sheet, const Positions& positions, uint32_t cart) {
    const uint32_t position = positions[cart];
    if (position >= sheet.carts[cart].steps.size()) return -1;
    return static_cast<int>(sheet.carts[cart].steps[position].zone);
}

// #102: "held by the lane": both the cart and the one in front of it are still on the lane.
inline bool is_held_by_lane(const Sheet& sheet, const Positions& positions, uint32_t cart) {
    const int front = cart_in_front(sheet, cart);
    return front >= 0 && positions[cart] == 0 && positions[static_cast<size_t>(front)] == 0;
}

// "A move into a zone is permitted when every cart ahead in that zone's list has left it. The move
// out is always permitted." Here by the present orders, which for a plan are its lists. #102 adds
// the lane; without it these are the moves before #102, asked for in comparisons only.
inline bool is_permitted(const Sheet& sheet, const Orders& orders, const Positions& positions,
                         uint32_t cart, bool stop_line = true) {
    if (is_out(sheet, positions, cart)) return false;
    const int zone = wanted_zone(sheet, positions, cart);
    if (zone < 0) return true;
    if (stop_line && is_held_by_lane(sheet, positions, cart)) return false;
    for (uint32_t other = 0; other < sheet.carts.size(); other++) {
        if (!orders.before[zone][other][cart]) continue;
        if (!has_left(sheet, positions, other, static_cast<uint32_t>(zone))) return false;
    }
    return true;
}

inline bool all_are_out(const Sheet& sheet, const Positions& positions) {
    for (uint32_t c = 0; c < sheet.carts.size(); c++) {
        if (!is_out(sheet, positions, c)) return false;
    }
    return true;
}

// "Make permitted moves until none is left". The two orders in which carts are asked are only
// there to be compared.
inline Positions run_to_the_end(const Sheet& sheet, const Orders& orders, bool highest_cart_first) {
    Positions positions(sheet.carts.size(), 0);
    const uint32_t m = static_cast<uint32_t>(sheet.carts.size());
    bool moved = true;
    while (moved) {
        moved = false;
        for (uint32_t i = 0; i < m; i++) {
            const uint32_t cart = highest_cart_first ? m - 1 - i : i;
            if (is_permitted(sheet, orders, positions, cart)) {
                positions[cart]++;
                moved = true;
                if (highest_cart_first) break;      // ask again from the highest
            }
        }
    }
    return positions;
}

// ---------------------------------------------------------------------------------------------
// Search over all runs (double check, small crossings)
// ---------------------------------------------------------------------------------------------

struct AllRuns {
    bool searched = false;
    std::vector<uint64_t> weight;          // number of a state: sum of weight x position
    std::vector<bool> reached;             // by number of the state
    bool all_out_reached = false;
    std::vector<Positions> ends;           // states without a permitted move
    std::vector<bool> ever_out;            // for each cart: some run brings it out
};

inline uint64_t count_states(const Sheet& sheet) {
    uint64_t states = 1;
    for (const Cart& cart : sheet.carts) states *= cart.steps.size() + 2;   // at most 10^16
    return states;
}

inline uint64_t state_number(const AllRuns& runs, const Positions& positions) {
    uint64_t number = 0;
    for (size_t c = 0; c < positions.size(); c++) number += runs.weight[c] * positions[c];
    return number;
}

inline AllRuns search_all_runs(const Sheet& sheet, const Orders& orders) {
    AllRuns runs;
    const uint64_t states = count_states(sheet);
    if (states > search_limit) return runs;
    runs.searched = true;
    const uint32_t m = static_cast<uint32_t>(sheet.carts.size());
    uint64_t weight = 1;
    for (const Cart& cart : sheet.carts) {
        runs.weight.push_back(weight);
        weight *= cart.steps.size() + 2;
    }
    runs.reached.assign(states, false);
    runs.ever_out.assign(m, false);

    // breadth first, one layer for each number of moves made
    std::vector<Positions> layer;
    layer.push_back(Positions(m, 0));
    runs.reached[0] = true;
    uint32_t made = 0;
    while (!layer.empty()) {
        std::vector<Positions> next_layer;
        for (const Positions& positions : layer) {
            double_check_counts.states++;

            // "the record's count equals the sum of its positions"
            uint32_t sum = 0;
            for (uint32_t position : positions) sum += position;
            must(sum == made, "moves made equal the sum of the positions");

            // Document 00: "No two carts are ever in one zone."
            for (uint32_t a = 0; a < m; a++) {
                for (uint32_t b = 0; b < a; b++) {
                    const bool a_inside = positions[a] >= 1 && !is_out(sheet, positions, a);
                    const bool b_inside = positions[b] >= 1 && !is_out(sheet, positions, b);
                    if (!a_inside || !b_inside) continue;
                    const uint32_t zone_a = sheet.carts[a].steps[positions[a] - 1].zone;
                    const uint32_t zone_b = sheet.carts[b].steps[positions[b] - 1].zone;
                    must(zone_a != zone_b, "no two carts are ever in one zone");
                }
            }

            // #102: no cart is off its lane before the one in front
            for (uint32_t cart = 0; cart < m; cart++) {
                const int front = cart_in_front(sheet, cart);
                must(front < 0 || positions[cart] == 0 || positions[static_cast<size_t>(front)] > 0,
                     "a lane's carts leave it in the order of their numbers");
            }

            if (all_are_out(sheet, positions)) {
                runs.all_out_reached = true;
                // Document 00: "All are out after exactly as many moves as there are route steps
                // plus carts."
                must(made == count_steps(sheet) + m, "all out after steps plus carts moves");
            }
            bool some_permitted = false;
            for (uint32_t cart = 0; cart < m; cart++) {
                if (is_out(sheet, positions, cart)) runs.ever_out[cart] = true;
                if (!is_permitted(sheet, orders, positions, cart)) continue;
                some_permitted = true;
                Positions after = positions;
                after[cart]++;
                const uint64_t number = state_number(runs, after);
                if (runs.reached[number]) continue;
                runs.reached[number] = true;
                next_layer.push_back(after);
            }
            if (!some_permitted) runs.ends.push_back(positions);
        }
        layer = next_layer;
        made++;
    }
    double_check_counts.searches++;
    return runs;
}

// ---------------------------------------------------------------------------------------------
// The resource conflict graph of 001, section 3.1 (double check)
// ---------------------------------------------------------------------------------------------

inline bool depth_first_finds_cycle(const std::vector<std::vector<size_t>>& edges, size_t vertex,
                                    std::vector<int>& state) {
    state[vertex] = 1;                                       // begun
    for (size_t next : edges[vertex]) {
        if (state[next] == 1) return true;                   // back to one begun and not ended
        if (state[next] == 0 && depth_first_finds_cycle(edges, next, state)) return true;
    }
    state[vertex] = 2;                                       // ended
    return false;
}

struct Crossing {
    Sheet sheet;
    Lists lists;
};

// #102: "the published graph with the stop line set as a zone ahead of the first; its room is free
// as soon as a cart enters its first real zone". A zone more for each lane: the routes of the lane's
// carts begin with it, and its list has them by number. A cart leaves it by entering its first zone.
inline Crossing with_stop_lines(const Sheet& sheet, const Lists& lists) {
    Crossing crossing{sheet, lists};
    for (uint32_t lane = 0; lane < 16; lane++) {
        const uint32_t line = static_cast<uint32_t>(crossing.sheet.zones.size());
        crossing.sheet.zones.push_back(Zone());
        crossing.lists.push_back({});
        for (uint32_t c = 0; c < sheet.carts.size(); c++) {
            if (sheet.carts[c].lane != lane) continue;
            std::vector<Step>& route = crossing.sheet.carts[c].steps;
            route.insert(route.begin(), Step{line, 0, 0});
            crossing.lists[line].push_back(c);
        }
    }
    return crossing;
}

// "the resource conflict graph of section 3.1, with all six listed rules and an edge for every
// pair in a list"
inline bool resource_conflict_graph_has_cycle(const Sheet& sheet, const Lists& lists) {
    // 001: "There is a vertex u_{i,j,j'} if and only if there is a Type-1 edge (v_{i,j}, v_{i,j'})
    // in G'." One for each step that has a next step.
    std::vector<std::vector<size_t>> vertex(sheet.carts.size());     // vertex[i][step]
    size_t count = 0;
    for (size_t i = 0; i < sheet.carts.size(); i++) {
        for (size_t step = 0; step + 1 < sheet.carts[i].steps.size(); step++) {
            vertex[i].push_back(count);
            count++;
        }
    }
    std::vector<std::vector<size_t>> edges(count);

    // 001: "If there are edges (v_{i,j}, v_{i,j'}) and (v_{i,j'}, v_{i,j''}) in G', then there is
    // an edge (u_{i,j,j'}, u_{i,j',j''}) in H'"
    for (size_t i = 0; i < sheet.carts.size(); i++) {
        for (size_t step = 0; step + 1 < vertex[i].size(); step++) {
            edges[vertex[i][step]].push_back(vertex[i][step + 1]);
        }
    }

    for (size_t j = 0; j < lists.size(); j++) {
        for (size_t x = 0; x < lists[j].size(); x++) {
            for (size_t y = x + 1; y < lists[j].size(); y++) {
                // the edge (v_{i,j}, v_{i',j})
                const size_t i = lists[j][x];
                const size_t other = lists[j][y];
                const size_t step_i = static_cast<size_t>(step_in_route(sheet.carts[i], static_cast<uint32_t>(j)));
                const size_t step_o = static_cast<size_t>(step_in_route(sheet.carts[other], static_cast<uint32_t>(j)));
                const bool i_has_next = step_i + 1 < sheet.carts[i].steps.size();
                const bool i_has_previous = step_i > 0;
                const bool o_has_next = step_o + 1 < sheet.carts[other].steps.size();
                const bool o_has_previous = step_o > 0;
                // 001: "edges (v_{i,j}, v_{i',j}), (v_{i,j}, v_{i,j'}), and (v_{i',j}, v_{i',j''})
                // [...] an edge (u_{i,j,j'}, u_{i',j,j''})"
                if (i_has_next && o_has_next) {
                    edges[vertex[i][step_i]].push_back(vertex[other][step_o]);
                }
                // 001: "edges (v_{i,j}, v_{i',j}), (v_{i,j'}, v_{i,j}), and (v_{i',j''}, v_{i',j})
                // [...] an edge (u_{i,j',j}, u_{i',j'',j})"
                if (i_has_previous && o_has_previous) {
                    edges[vertex[i][step_i - 1]].push_back(vertex[other][step_o - 1]);
                }
                // 001: "edges (v_{i,j}, v_{i',j}), (v_{i,j}, v_{i,j'}), and (v_{i',j''}, v_{i',j})
                // [...] an edge (u_{i,j,j'}, u_{i',j'',j})"
                if (i_has_next && o_has_previous) {
                    edges[vertex[i][step_i]].push_back(vertex[other][step_o - 1]);
                }
                // 001: "edges (v_{i,j}, v_{i',j}), (v_{i,j'}, v_{i,j}), and (v_{i',j}, v_{i',j''})
                // [...] an edge (u_{i,j',j}, u_{i',j,j''})"
                if (i_has_previous && o_has_next) {
                    edges[vertex[i][step_i - 1]].push_back(vertex[other][step_o]);
                }
            }
        }
    }

    std::vector<int> state(count, 0);
    for (size_t v = 0; v < count; v++) {
        if (state[v] == 0 && depth_first_finds_cycle(edges, v, state)) return true;
    }
    return false;
}

// ---------------------------------------------------------------------------------------------
// Entering times. "Document 001, equations 1 and 2."
// ---------------------------------------------------------------------------------------------

struct Times {
    std::vector<std::vector<int64_t>> enter;       // enter[cart][step]
    std::vector<std::vector<int64_t>> leave;       // leave[cart][step]
    int64_t finish = 0;
};

// "the zone's gap (follow for the same lane, else cross)"
inline int64_t gap_between(const Sheet& sheet, uint32_t zone, uint32_t ahead, uint32_t behind) {
    if (sheet.carts[ahead].lane == sheet.carts[behind].lane) return sheet.zones[zone].follow_gap;
    return sheet.zones[zone].cross_gap;
}

// "Finish is the largest leaving time, 0 with no carts"
inline int64_t finish_of(const Times& times) {
    int64_t finish = 0;
    for (const std::vector<int64_t>& leave : times.leave) {
        for (int64_t time : leave) {
            if (time > finish) finish = time;
        }
    }
    return finish;
}

inline Times times_all_zero(const Sheet& sheet) {
    Times times;
    for (const Cart& cart : sheet.carts) {
        times.enter.push_back(std::vector<int64_t>(cart.steps.size(), 0));
        times.leave.push_back(std::vector<int64_t>(cart.steps.size(), 0));
    }
    return times;
}

// "Entering time is the largest of: its arrival, on the first step; previous entering plus passing
// plus travel, on others; and for each cart ahead, that cart's leaving time plus the zone's gap"
// "Ahead" is by the present orders. #102: "its first entering time is no earlier than that cart's",
// the one's in front.
inline int64_t entering_time(const Sheet& sheet, const Orders& orders, const Times& times,
                             uint32_t cart, uint32_t step) {
    const Cart& c = sheet.carts[cart];
    const uint32_t zone = c.steps[step].zone;
    int64_t largest;
    if (step == 0) {
        largest = c.arrival;
        const int front = cart_in_front(sheet, cart);
        if (front >= 0 && times.enter[static_cast<size_t>(front)][0] > largest) {
            largest = times.enter[static_cast<size_t>(front)][0];
        }
    } else {
        largest = times.enter[cart][step - 1] + c.steps[step - 1].passing + c.steps[step - 1].travel;
    }
    for (uint32_t ahead = 0; ahead < sheet.carts.size(); ahead++) {
        if (!orders.before[zone][ahead][cart]) continue;
        const int step_ahead = step_in_route(sheet.carts[ahead], zone);
        const int64_t time = times.leave[ahead][static_cast<size_t>(step_ahead)]
                             + gap_between(sheet, zone, ahead, cart);
        if (time > largest) largest = time;
    }
    return largest;
}

// "A cart's leaving time of its last zone is entering plus passing; of another zone, the next
// entering time less the travel time."
inline int64_t leaving_time(const Sheet& sheet, const Times& times, uint32_t cart, uint32_t step) {
    const Cart& c = sheet.carts[cart];
    if (step + 1 == c.steps.size()) return times.enter[cart][step] + c.steps[step].passing;
    return times.enter[cart][step + 1] - c.steps[step].travel;
}

// First way: "Work in the order of the moves, not of zones visited: a leaving time needs the next
// entering time." Each move leaves one zone and enters the next; both times are known at it.
inline Times times_by_order_of_moves(const Sheet& sheet, const Orders& orders,
                                     const std::vector<Move>& order) {
    Times times = times_all_zero(sheet);
    for (const Move& move : order) {
        if (move.index < sheet.carts[move.cart].steps.size()) {
            times.enter[move.cart][move.index] =
                entering_time(sheet, orders, times, move.cart, move.index);
        }
        if (move.index > 0) {
            times.leave[move.cart][move.index - 1] =
                leaving_time(sheet, times, move.cart, move.index - 1);
        }
    }
    times.finish = finish_of(times);
    return times;
}

// Second way: the paper's equations 1 and 2 in the paper's own three terms (not by way of
// entering_time and leaving_time above), from 0 upward, until nothing changes. These are then the
// earliest times that the equations allow.
inline Times times_by_relaxation(const Sheet& sheet, const Orders& orders) {
    Times times = times_all_zero(sheet);
    std::vector<std::vector<int64_t>>& s = times.enter;          // the paper's s_{i,j}
    bool changed = true;
    uint32_t rounds = 0;
    while (changed) {
        changed = false;
        for (uint32_t i = 0; i < sheet.carts.size(); i++) {
            const std::vector<Step>& route = sheet.carts[i].steps;
            for (uint32_t step = 0; step < route.size(); step++) {
                const uint32_t zone = route[step].zone;
                int64_t value = 0;
                if (step == 0) {
                    // 001: "a_i", on the first conflict zone
                    value = sheet.carts[i].arrival;
                    // 001: "s_{i',j''} - w_{k'} + w_k" with the stop line as the zone left and all
                    // its times 0: every cart in front on the lane has entered its first zone
                    for (uint32_t other = 0; other < i; other++) {
                        if (sheet.carts[other].lane != sheet.carts[i].lane) continue;
                        if (s[other][0] > value) value = s[other][0];
                    }
                } else {
                    // 001: "s_{i',j'} + p_{i',j'} + w_k" for the Type-1 edge, w_k the travel time
                    value = s[i][step - 1] + route[step - 1].passing + route[step - 1].travel;
                }
                for (uint32_t other = 0; other < sheet.carts.size(); other++) {
                    if (!orders.before[zone][other][i]) continue;
                    const std::vector<Step>& other_route = sheet.carts[other].steps;
                    uint32_t at = 0;
                    while (other_route[at].zone != zone) at++;
                    const bool same_lane = sheet.carts[other].lane == sheet.carts[i].lane;
                    const int64_t w = same_lane ? sheet.zones[zone].follow_gap : sheet.zones[zone].cross_gap;
                    // 001: "s_{i',j'} + p_{i',j'} + w_k" for a Type-2 or Type-3 edge
                    const int64_t after_passing = s[other][at] + other_route[at].passing + w;
                    if (after_passing > value) value = after_passing;
                    // 001: "s_{i',j''} - w_{k'} + w_k", "to make sure that [it] leaves"
                    if (at + 1 < other_route.size()) {
                        const int64_t after_leaving = s[other][at + 1] - other_route[at].travel + w;
                        if (after_leaving > value) value = after_leaving;
                    }
                }
                if (value != s[i][step]) changed = true;
                s[i][step] = value;
            }
        }
        rounds++;
        must(rounds < 1000, "the equations come to rest");
    }
    // 001, equation 3: "max (s_{i,j} + p_{i,j})"
    times.finish = 0;
    for (uint32_t i = 0; i < sheet.carts.size(); i++) {
        const std::vector<Step>& route = sheet.carts[i].steps;
        for (uint32_t step = 0; step < route.size(); step++) {
            const int64_t passed = s[i][step] + route[step].passing;
            if (passed > times.finish) times.finish = passed;
            // a cart is in a zone until it sets out for the next one
            if (step + 1 < route.size()) {
                times.leave[i][step] = s[i][step + 1] - route[step].travel;
            } else {
                times.leave[i][step] = passed;
            }
        }
    }
    return times;
}

inline void times_must_agree(const Times& a, const Times& b) {
    must(a.enter == b.enter, "entering times two ways");
    must(a.leave == b.leave, "leaving times two ways");
    must(a.finish == b.finish, "finish two ways");
    double_check_counts.times++;
}

// ---------------------------------------------------------------------------------------------
// The ring
// ---------------------------------------------------------------------------------------------

// "points to the first cart in that zone's list which hasn't left it"; #102: "a cart held by the
// lane points to that front cart before any cart in the zone list"
inline uint32_t cart_pointed_to(const Sheet& sheet, const Lists& lists, const Positions& positions,
                                uint32_t cart) {
    const int zone = wanted_zone(sheet, positions, cart);
    must(zone >= 0, "a stuck cart waits for a zone");
    if (is_held_by_lane(sheet, positions, cart)) return static_cast<uint32_t>(cart_in_front(sheet, cart));
    for (uint32_t listed : lists[static_cast<size_t>(zone)]) {
        if (!has_left(sheet, positions, listed, static_cast<uint32_t>(zone))) return listed;
    }
    throw DoubleCheckFailed("the stuck cart itself has not left the zone it wants");
}

inline std::vector<RingCart> find_ring(const Sheet& sheet, const Lists& lists, const Positions& end) {
    // "Follow from the lowest-numbered cart that is stuck until a cart repeats."
    uint32_t cart = 0;
    while (is_out(sheet, end, cart)) cart++;
    std::vector<uint32_t> followed;
    size_t repeat_at = 0;
    bool repeats = false;
    while (!repeats) {
        followed.push_back(cart);
        cart = cart_pointed_to(sheet, lists, end, cart);
        for (size_t i = 0; i < followed.size(); i++) {
            if (followed[i] == cart) {
                repeats = true;
                repeat_at = i;
            }
        }
    }
    // "The ring is the repeating carts"
    std::vector<uint32_t> repeating(followed.begin() + static_cast<long>(repeat_at), followed.end());
    // "begun at the lowest number"
    size_t lowest = 0;
    for (size_t i = 0; i < repeating.size(); i++) {
        if (repeating[i] < repeating[lowest]) lowest = i;
    }
    // "each with its wanted zone"
    std::vector<RingCart> ring;
    for (size_t i = 0; i < repeating.size(); i++) {
        RingCart entry;
        entry.cart = repeating[(lowest + i) % repeating.size()];
        entry.zone = static_cast<uint32_t>(wanted_zone(sheet, end, entry.cart));
        ring.push_back(entry);
    }
    return ring;
}

inline void check_ring(const Sheet& sheet, const Lists& lists, const Positions& end,
                       const std::vector<RingCart>& ring) {
    must(ring.size() >= 2, "a ring has two carts at least");
    for (size_t i = 0; i < ring.size(); i++) {
        const RingCart& here = ring[i];
        const RingCart& next = ring[(i + 1) % ring.size()];
        must(!is_out(sheet, end, here.cart), "a ring cart is not out");
        must(cart_pointed_to(sheet, lists, end, here.cart) == next.cart, "each waits for the next");
        must(step_in_route(sheet.carts[here.cart], here.zone) == static_cast<int>(end[here.cart]),
             "the wanted zone is its next one");
        must(i == 0 || here.cart > ring[0].cart, "the ring begins at its lowest number");
        for (size_t j = 0; j < i; j++) must(ring[j].cart != here.cart, "no cart twice in the ring");
    }
}

// ---------------------------------------------------------------------------------------------
// The verdict, with its double checks
// ---------------------------------------------------------------------------------------------

struct Verdict {
    bool locked = false;
    bool locked_by_line = false;         // and accepted without the stop line
    std::vector<RingCart> ring;
    std::vector<Move> order;             // of the moves
    AllRuns runs;                        // searched only for small crossings
};

inline Verdict work_out_verdict(const Sheet& sheet, const Lists& lists) {
    Verdict verdict;
    const Orders orders = orders_of_lists(lists);

    // "The judge accepts exactly when the moves, each after its own cart's earlier move and after
    // the leavings it waits for, have no cycle."
    verdict.order = order_of_moves(sheet, orders);
    verdict.locked = verdict.order.size() != count_moves(sheet);

    // "Make permitted moves until none is left; the state reached doesn't depend on the order."
    const Positions end = run_to_the_end(sheet, orders, false);
    must(end == run_to_the_end(sheet, orders, true), "the end does not depend on the order");
    must(all_are_out(sheet, end) == !verdict.locked, "all out at the end exactly if not locked");

    // "For complete plans it is the same verdict as the resource conflict graph of section 3.1",
    // since #102 with the stop lines
    const Crossing crossing = with_stop_lines(sheet, lists);
    must(resource_conflict_graph_has_cycle(crossing.sheet, crossing.lists) == verdict.locked,
         "resource conflict graph has a cycle exactly if locked");
    // a plan that was locked before #102 stays so
    const bool locked_before = order_of_moves(sheet, orders, false).size() != count_moves(sheet);
    must(verdict.locked || !locked_before, "the stop line unlocks no plan");
    must(resource_conflict_graph_has_cycle(sheet, lists) == locked_before,
         "without the stop lines, resource conflict graph has a cycle exactly if locked");
    verdict.locked_by_line = verdict.locked && !locked_before;

    if (verdict.locked) {
        verdict.ring = find_ring(sheet, lists, end);
        check_ring(sheet, lists, end, verdict.ring);
    }

    verdict.runs = search_all_runs(sheet, orders);
    if (verdict.runs.searched) {
        must(verdict.runs.all_out_reached == !verdict.locked,
             "locked exactly if no run brings all carts out");
        must(verdict.runs.ends.size() == 1, "all runs end in one state");
        must(verdict.runs.ends[0] == end, "all runs end in the state of the run made");
        // Document 00: "no order of moves ever brings one of them out"
        for (const RingCart& entry : verdict.ring) {
            must(!verdict.runs.ever_out[entry.cart], "no run brings a ring cart out");
        }
    }
    double_check_counts.verdicts++;
    if (verdict.locked) double_check_counts.locked++;
    return verdict;
}

// The same, remembering the last crossing only, because many requests come for one plan.
inline const Verdict& verdict_of(const Bytes& sheet_bytes, const Bytes& plan_bytes,
                                 const Sheet& sheet, const Lists& lists) {
    static thread_local bool have_last = false;
    static thread_local Bytes last_sheet, last_plan;
    static thread_local Verdict last;
    const bool same = have_last && last_sheet == sheet_bytes && last_plan == plan_bytes;
    if (!same) {
        have_last = false;
        last = work_out_verdict(sheet, lists);
        last_sheet = sheet_bytes;
        last_plan = plan_bytes;
        have_last = true;
    }
    return last;
}

// ---------------------------------------------------------------------------------------------
// Judging
// ---------------------------------------------------------------------------------------------

inline JudgeAnswer judge(const Bytes& sheet_bytes, const Bytes& plan_bytes,
                         const std::vector<uint32_t>& words) {
    JudgeAnswer answer;
    answer.words = words;                                   // "lent memory is unchanged"
    // "Judging has 1 to 22 and 28."
    const PlanAnswer plan = read_plan(sheet_bytes, plan_bytes);
    if (plan.number != 0) {
        pass_on(plan, answer);
        return answer;
    }
    const Verdict& verdict = verdict_of(sheet_bytes, plan_bytes, plan.sheet, plan.lists);
    if (verdict.locked) {
        // "22 from the judge also returns the ring"
        answer.number = 22;
        answer.place = 0;
        answer.ring = verdict.ring;
        return answer;
    }
    // "then the rest in the table's order": 28 after 22
    if (words.size() < 128) {
        answer.number = 28;
        answer.place = 0;
        return answer;
    }

    const Orders orders = orders_of_lists(plan.lists);
    const Times times = times_by_order_of_moves(plan.sheet, orders, verdict.order);
    times_must_agree(times, times_by_relaxation(plan.sheet, orders));

    // "Judging writes 128 words of 32 bits: word 8 x cart + step holds the entering time, unused
    // words 0, words beyond untouched."
    for (size_t i = 0; i < 128; i++) answer.words[i] = 0;
    for (size_t c = 0; c < plan.sheet.carts.size(); c++) {
        for (size_t s = 0; s < plan.sheet.carts[c].steps.size(); s++) {
            answer.words[8 * c + s] = static_cast<uint32_t>(times.enter[c][s]);
        }
    }
    // "It returns finish and the number of moves." "never above 18,900,000"
    must(times.finish <= 18900000, "finish is never above 18,900,000");
    answer.finish = static_cast<uint32_t>(times.finish);
    // "it equals steps plus carts"
    answer.moves = count_moves(plan.sheet);
    must(answer.moves == count_steps(plan.sheet) + plan.sheet.carts.size(), "steps plus carts");
    return answer;
}

// ---------------------------------------------------------------------------------------------
// The removal rule
// ---------------------------------------------------------------------------------------------

// "A pair is two carts of different lanes sharing a zone, once per zone."
enum class PairState { absent, undecided, low_first, high_first };
struct Pair {
    uint32_t zone = 0;
    uint32_t low = 0;                    // the cart of lower rank
    uint32_t high = 0;                   // the cart of higher rank
    PairState state = PairState::absent;
};

// One of the two directions of an undecided pair: "A before B".
struct Direction {
    uint32_t zone = 0;
    uint32_t a = 0;
    uint32_t b = 0;
    int64_t cost = 0;                    // "it may be negative"
    size_t pair = 0;                     // which pair
};

struct Removal {
    Sheet sheet;
    std::vector<uint32_t> rank_of;       // rank of each cart
    std::vector<Pair> pairs;
    uint32_t cuts = 0;
};

inline Removal begin_removal(const Sheet& sheet) {
    Removal removal;
    removal.sheet = sheet;
    const uint32_t m = static_cast<uint32_t>(sheet.carts.size());
    // "Rank carts by arrival, then number."
    for (uint32_t c = 0; c < m; c++) {
        uint32_t rank = 0;
        for (uint32_t other = 0; other < m; other++) {
            const uint32_t mine = sheet.carts[c].arrival;
            const uint32_t theirs = sheet.carts[other].arrival;
            if (theirs < mine || (theirs == mine && other < c)) rank++;
        }
        removal.rank_of.push_back(rank);
    }
    for (uint32_t z = 0; z < sheet.zones.size(); z++) {
        for (uint32_t x = 0; x < m; x++) {
            for (uint32_t y = x + 1; y < m; y++) {
                if (sheet.carts[x].lane == sheet.carts[y].lane) continue;
                if (step_in_route(sheet.carts[x], z) < 0) continue;
                if (step_in_route(sheet.carts[y], z) < 0) continue;
                Pair pair;
                pair.zone = z;
                pair.low = removal.rank_of[x] < removal.rank_of[y] ? x : y;
                pair.high = removal.rank_of[x] < removal.rank_of[y] ? y : x;
                removal.pairs.push_back(pair);
            }
        }
    }
    return removal;
}

inline Orders present_orders(const Removal& removal) {
    Orders orders;
    const Sheet& sheet = removal.sheet;
    // "Same-lane pairs are always ordered by number."
    for (uint32_t z = 0; z < sheet.zones.size(); z++) {
        for (uint32_t x = 0; x < sheet.carts.size(); x++) {
            for (uint32_t y = x + 1; y < sheet.carts.size(); y++) {
                if (sheet.carts[x].lane != sheet.carts[y].lane) continue;
                if (step_in_route(sheet.carts[x], z) < 0) continue;
                if (step_in_route(sheet.carts[y], z) < 0) continue;
                orders.before[z][x][y] = true;
            }
        }
    }
    for (const Pair& pair : removal.pairs) {
        if (pair.state == PairState::low_first) orders.before[pair.zone][pair.low][pair.high] = true;
        if (pair.state == PairState::high_first) orders.before[pair.zone][pair.high][pair.low] = true;
    }
    return orders;
}

inline bool some_pair_undecided(const Removal& removal) {
    for (const Pair& pair : removal.pairs) {
        if (pair.state == PairState::undecided) return true;
    }
    return false;
}

using Spare = std::vector<std::vector<int64_t>>;           // spare[cart][step]

// "Spare time of a last step is finish less its leaving time, or the least spare time among steps
// behind it in that zone's present orders, if less. That of another step is the least among its
// next step and the steps behind it." #102: "a cart's first step has the first step of the lane's
// next cart behind it too"
inline int64_t spare_time(const Sheet& sheet, const Orders& orders, const Times& times,
                          const Spare& spare, uint32_t cart, uint32_t step) {
    const Cart& c = sheet.carts[cart];
    const uint32_t zone = c.steps[step].zone;
    int64_t least;
    if (step + 1 == c.steps.size()) {
        least = times.finish - times.leave[cart][step];
    } else {
        least = spare[cart][step + 1];
    }
    for (uint32_t behind = 0; behind < sheet.carts.size(); behind++) {
        if (!orders.before[zone][cart][behind]) continue;
        const int step_behind = step_in_route(sheet.carts[behind], zone);
        const int64_t theirs = spare[behind][static_cast<size_t>(step_behind)];
        if (theirs < least) least = theirs;
    }
    const int next = cart_next_on_lane(sheet, cart);
    if (step == 0 && next >= 0 && spare[static_cast<size_t>(next)][0] < least) {
        least = spare[static_cast<size_t>(next)][0];
    }
    return least;
}

// First way: in the order of the moves, backwards.
inline Spare spare_by_order_of_moves(const Sheet& sheet, const Orders& orders, const Times& times,
                                     const std::vector<Move>& order) {
    Spare spare;
    for (const Cart& cart : sheet.carts) spare.push_back(std::vector<int64_t>(cart.steps.size(), 0));
    for (size_t i = order.size(); i > 0; i--) {
        const Move& move = order[i - 1];
        if (move.index == sheet.carts[move.cart].steps.size()) continue;      // the move out
        spare[move.cart][move.index] = spare_time(sheet, orders, times, spare, move.cart, move.index);
    }
    return spare;
}

// Second way: following next steps and steps behind as far as they lead, the least of finish less
// leaving time over all last steps met (not by way of spare_time above).
inline Spare spare_by_following(const Sheet& sheet, const Orders& orders, const Times& times) {
    Spare spare;
    for (uint32_t c = 0; c < sheet.carts.size(); c++) {
        spare.push_back(std::vector<int64_t>());
        for (uint32_t s = 0; s < sheet.carts[c].steps.size(); s++) {
            bool met[16][8] = {};
            std::vector<std::pair<uint32_t, uint32_t>> follow;      // cart and step
            follow.push_back({c, s});
            met[c][s] = true;
            int64_t least = 1000000000;
            for (size_t next = 0; next < follow.size(); next++) {
                const uint32_t cart = follow[next].first;
                const uint32_t step = follow[next].second;
                const std::vector<Step>& route = sheet.carts[cart].steps;
                if (step + 1 == route.size()) {
                    const int64_t left = times.finish - (times.enter[cart][step] + route[step].passing);
                    if (left < least) least = left;
                } else if (!met[cart][step + 1]) {
                    met[cart][step + 1] = true;
                    follow.push_back({cart, step + 1});
                }
                for (uint32_t behind = 0; behind < sheet.carts.size(); behind++) {
                    if (!orders.before[route[step].zone][cart][behind]) continue;
                    uint32_t at = 0;
                    while (sheet.carts[behind].steps[at].zone != route[step].zone) at++;
                    if (met[behind][at]) continue;
                    met[behind][at] = true;
                    follow.push_back({behind, at});
                }
                // from a first step to the first steps of all carts behind on the lane
                for (uint32_t behind = cart + 1; step == 0 && behind < sheet.carts.size(); behind++) {
                    if (sheet.carts[behind].lane != sheet.carts[cart].lane || met[behind][0]) continue;
                    met[behind][0] = true;
                    follow.push_back({behind, 0});
                }
            }
            spare[c].push_back(least);
        }
    }
    return spare;
}

// All directions of undecided pairs with their costs, over the orders now present.
inline std::vector<Direction> costs_of_directions(const Removal& removal) {
    const Sheet& sheet = removal.sheet;
    // "work out times over the orders present. Ahead and behind here mean present pairs, not
    // chains of them."
    const Orders orders = present_orders(removal);
    const std::vector<Move> order = order_of_moves(sheet, orders);
    must(order.size() == count_moves(sheet), "orders present have no cycle while times are worked out");
    const Times times = times_by_order_of_moves(sheet, orders, order);
    const Spare spare = spare_by_order_of_moves(sheet, orders, times, order);
    if (count_steps(sheet) <= planning_check_steps) {
        times_must_agree(times, times_by_relaxation(sheet, orders));
        must(spare == spare_by_following(sheet, orders, times), "spare times two ways");
        double_check_counts.spare++;
    }
    must(times.finish <= 18900000, "finish over fewer orders is not above 18,900,000");

    std::vector<Direction> directions;
    for (size_t p = 0; p < removal.pairs.size(); p++) {
        const Pair& pair = removal.pairs[p];
        if (pair.state != PairState::undecided) continue;
        for (int turn = 0; turn < 2; turn++) {
            Direction direction;
            direction.pair = p;
            direction.zone = pair.zone;
            direction.a = turn == 0 ? pair.low : pair.high;
            direction.b = turn == 0 ? pair.high : pair.low;
            const size_t step_a = static_cast<size_t>(step_in_route(sheet.carts[direction.a], pair.zone));
            const size_t step_b = static_cast<size_t>(step_in_route(sheet.carts[direction.b], pair.zone));
            // "The cost of "A before B" is A's entering + passing + gap, less B's entering, less
            // B's spare time; it may be negative."
            direction.cost = times.enter[direction.a][step_a]
                             + sheet.carts[direction.a].steps[step_a].passing
                             + gap_between(sheet, pair.zone, direction.a, direction.b)
                             - times.enter[direction.b][step_b]
                             - spare[direction.b][step_b];
            directions.push_back(direction);
        }
    }
    return directions;
}

// "Take the direction of largest cost; ties go to the lower zone, then lower rank of A, then of B."
inline bool is_taken_before(const Removal& removal, const Direction& x, const Direction& y) {
    if (x.cost != y.cost) return x.cost > y.cost;
    if (x.zone != y.zone) return x.zone < y.zone;
    if (removal.rank_of[x.a] != removal.rank_of[y.a]) return removal.rank_of[x.a] < removal.rank_of[y.a];
    return removal.rank_of[x.b] < removal.rank_of[y.b];
}

inline bool present_moves_have_cycle(const Removal& removal) {
    const Orders orders = present_orders(removal);
    const bool cycle = moves_have_cycle(removal.sheet, orders);
    if (count_steps(removal.sheet) <= planning_check_steps) {
        const Positions end = run_to_the_end(removal.sheet, orders, false);
        must(all_are_out(removal.sheet, end) == !cycle, "planning: all out exactly if no cycle");
    }
    return cycle;
}

// The group has the ranks first, first + 1, ... , first + size - 1.
inline void solve_group(Removal& removal, uint32_t first, uint32_t size) {
    for (Pair& pair : removal.pairs) {
        const uint32_t low = removal.rank_of[pair.low];
        const uint32_t high = removal.rank_of[pair.high];
        const bool low_below = low < first;
        const bool high_below = high < first;
        const bool low_above = low >= first + size;
        const bool high_above = high >= first + size;
        const bool low_in = !low_below && !low_above;
        const bool high_in = !high_below && !high_above;
        if (low_below && high_below) {
            // "Both ranks below the group: as decided."
            must(pair.state == PairState::low_first || pair.state == PairState::high_first,
                 "a pair below the group is decided");
        } else if (low_in && high_in) {
            // "Both in the group: undecided."
            pair.state = PairState::undecided;
        } else if (low_above && high_above) {
            // "Both above: absent."
            pair.state = PairState::absent;
        } else {
            // "Otherwise lower rank first."
            pair.state = PairState::low_first;
        }
    }

    // "While a pair is undecided:"
    while (some_pair_undecided(removal)) {
        const std::vector<Direction> directions = costs_of_directions(removal);
        Direction largest = directions[0];
        for (const Direction& direction : directions) {
            if (is_taken_before(removal, direction, largest)) largest = direction;
        }
        Pair& pair = removal.pairs[largest.pair];
        const bool largest_is_low_first = largest.a == pair.low;

        // "Decide the opposite."
        pair.state = largest_is_low_first ? PairState::high_first : PairState::low_first;
        if (!present_moves_have_cycle(removal)) continue;

        // "If the moves now have a cycle, decide this direction instead."
        pair.state = largest_is_low_first ? PairState::low_first : PairState::high_first;
        if (!present_moves_have_cycle(removal)) continue;

        // "If that has one too, the group's decisions are dropped, the group is cut in two and
        // each half is solved, lower ranks first; the lower half has half the size rounded down."
        must(size >= 2, "a group of one cart is never cut");
        removal.cuts++;
        const uint32_t lower_size = size / 2;
        solve_group(removal, first, lower_size);
        solve_group(removal, first + lower_size, size - lower_size);
        return;
    }
}

// ---------------------------------------------------------------------------------------------
// Planning
// ---------------------------------------------------------------------------------------------

enum class Planner { removal, first_come, better };

// What a planner has worked out for a valid sheet.
struct WorkedOut {
    Lists lists;
    Bytes plan;
    int64_t finish = 0;
    uint32_t cuts = 0;                   // how often a group was cut, by the removal rule alone
};

// The plan's bytes and finish, with what documents 00 and 01 say of every planner's plan.
inline WorkedOut worked_out(const Bytes& sheet_bytes, const Sheet& sheet, const Lists& lists) {
    WorkedOut result;
    result.lists = lists;
    result.plan = plan_to_bytes(lists);
    // Document 00: "for every valid sheet it isn't locked. Plans written are read back to the same
    // orders"; #101: "the plain rule is accepted for every valid sheet"
    const PlanAnswer read_back = read_plan(sheet_bytes, result.plan);
    must(read_back.number == 0 && read_back.lists == lists, "the plan is read back to the same orders");
    must(!verdict_of(sheet_bytes, result.plan, sheet, lists).locked, "the planner's plan is not locked");

    const Orders complete = orders_of_lists(lists);
    const Times times = times_by_order_of_moves(sheet, complete, order_of_moves(sheet, complete));
    times_must_agree(times, times_by_relaxation(sheet, complete));
    must(times.finish <= 18900000, "finish is never above 18,900,000");
    result.finish = times.finish;
    return result;
}

inline WorkedOut plan_by_removal(const Bytes& sheet_bytes, const Sheet& sheet) {
    Removal removal = begin_removal(sheet);
    // "Solve the group of all ranks"
    solve_group(removal, 0, static_cast<uint32_t>(sheet.carts.size()));

    // The lists: in each zone a cart stands behind as many carts as are ordered before it.
    const Orders orders = present_orders(removal);
    Lists lists;
    for (uint32_t z = 0; z < sheet.zones.size(); z++) {
        const uint32_t visitors = count_visitors(sheet, z);
        std::vector<uint32_t> list(visitors, 999);
        for (uint32_t c = 0; c < sheet.carts.size(); c++) {
            if (step_in_route(sheet.carts[c], z) < 0) continue;
            uint32_t ahead = 0;
            for (uint32_t other = 0; other < sheet.carts.size(); other++) {
                if (orders.before[z][other][c]) ahead++;
            }
            must(ahead < visitors && list[ahead] == 999, "the orders of a zone make one list");
            list[ahead] = c;
        }
        lists.push_back(list);
    }
    const Orders complete = orders_of_lists(lists);
    for (uint32_t z = 0; z < 24; z++) {
        for (uint32_t a = 0; a < 16; a++) {
            for (uint32_t b = 0; b < 16; b++) {
                must(complete.before[z][a][b] == orders.before[z][a][b], "lists hold the decided orders");
            }
        }
    }
    WorkedOut result = worked_out(sheet_bytes, sheet, lists);
    result.cuts = removal.cuts;
    return result;
}

// The same, remembering the last sheet only, because two planners need it for one sheet.
inline const WorkedOut& removal_of(const Bytes& sheet_bytes, const Sheet& sheet) {
    static thread_local bool have_last = false;
    static thread_local Bytes last_sheet;
    static thread_local WorkedOut last;
    if (!have_last || last_sheet != sheet_bytes) {
        have_last = false;
        last = plan_by_removal(sheet_bytes, sheet);
        last_sheet = sheet_bytes;
        have_last = true;
    }
    return last;
}

// #101: "every shared zone goes by arrival, then cart number." A zone that is not shared has one
// order only.
inline WorkedOut plan_first_come(const Bytes& sheet_bytes, const Sheet& sheet) {
    Lists lists;
    for (uint32_t z = 0; z < sheet.zones.size(); z++) {
        std::vector<uint32_t> list;
        for (uint32_t c = 0; c < sheet.carts.size(); c++) {
            if (step_in_route(sheet.carts[c], z) < 0) continue;
            // lower numbers are listed already, so a cart goes behind all that arrive no later
            size_t at = 0;
            while (at < list.size() && sheet.carts[list[at]].arrival <= sheet.carts[c].arrival) at++;
            list.insert(list.begin() + static_cast<long>(at), c);
        }
        lists.push_back(list);
    }
    return worked_out(sheet_bytes, sheet, lists);
}

// #101: "works out both and writes the one which finishes earlier, the removal plan if equal"
inline WorkedOut plan_better(const Bytes& sheet_bytes, const Sheet& sheet) {
    const WorkedOut removal = removal_of(sheet_bytes, sheet);
    const WorkedOut first_come = plan_first_come(sheet_bytes, sheet);
    return first_come.finish < removal.finish ? first_come : removal;
}

inline WorkedOut work_out_plan(const Bytes& sheet_bytes, const Sheet& sheet, Planner planner) {
    switch (planner) {
        case Planner::first_come: return plan_first_come(sheet_bytes, sheet);
        case Planner::better: return plan_better(sheet_bytes, sheet);
        default: return removal_of(sheet_bytes, sheet);
    }
}

inline PlanningAnswer make_plan(const Bytes& sheet_bytes, const Bytes& room, Planner planner = Planner::removal) {
    PlanningAnswer answer;
    answer.room = room;
    // "The planner takes no plan and has only 1 to 14 and 28." #101: "none new; 1 to 14 and 28"
    const SheetAnswer sheet_answer = read_sheet(sheet_bytes);
    if (sheet_answer.number != 0) {
        pass_on(sheet_answer, answer);
        return answer;
    }
    const Sheet& sheet = sheet_answer.sheet;
    const size_t length = 4 + sheet.zones.size() + count_steps(sheet);
    // "Planning and writing need exactly the plan's length in room"
    if (room.size() < length) {
        answer.number = 28;
        answer.place = 0;
        return answer;
    }
    const WorkedOut result = work_out_plan(sheet_bytes, sheet, planner);
    must(result.plan.size() == length, "the plan has the plan's length");

    // "bytes beyond are untouched"; "The planner returns the plan's length and finish."
    for (size_t i = 0; i < length; i++) answer.room[i] = result.plan[i];
    answer.length = static_cast<uint32_t>(length);
    answer.finish = static_cast<uint32_t>(result.finish);
    answer.cuts = result.cuts;
    return answer;
}

// ---------------------------------------------------------------------------------------------
// The crossing record and moving
// ---------------------------------------------------------------------------------------------

// A run that makes only moves that the wanted positions have made. A permitted move stays permitted
// when others move, so such a run is never spoiled by its own order.
inline bool run_reaches(const Sheet& sheet, const Orders& orders, const Positions& wanted, bool stop_line = true) {
    Positions positions(wanted.size(), 0);
    bool moved = true;
    while (moved) {
        moved = false;
        for (uint32_t c = 0; c < wanted.size(); c++) {
            if (positions[c] == wanted[c]) continue;
            if (!is_permitted(sheet, orders, positions, c, stop_line)) continue;
            positions[c]++;
            moved = true;
        }
    }
    return positions == wanted;
}

// "no run of this plan reaches the lent record". Only for an accepted plan.
inline bool record_is_reached(const Sheet& sheet, const Lists& lists, const Verdict& verdict,
                              const Record& record) {
    const uint32_t m = static_cast<uint32_t>(sheet.carts.size());
    double_check_counts.records++;

    // "Sixteen positions (0 on the lane, k in the k-th zone, steps + 1 out) and the number of
    // moves made." "positions of absent carts are 0"
    uint64_t sum = 0;
    for (uint32_t c = 0; c < 16; c++) {
        if (c >= m && record.positions[c] != 0) return false;
        if (c < m && record.positions[c] > sheet.carts[c].steps.size() + 1) return false;
        sum += record.positions[c];
    }
    if (record.made != sum) return false;

    const Orders orders = orders_of_lists(lists);
    Positions wanted;
    for (uint32_t c = 0; c < m; c++) wanted.push_back(record.positions[c]);

    // First way: a run.
    const bool reached = run_reaches(sheet, orders, wanted);

    // Second way: each cart's made moves into a zone have the leavings they wait for made too, and
    // its first move the first moves of the carts in front.
    bool closed = true;
    for (uint32_t c = 0; c < m; c++) {
        for (uint32_t front = 0; front < c; front++) {
            if (sheet.carts[front].lane == sheet.carts[c].lane && wanted[c] > 0 && wanted[front] == 0) closed = false;
        }
        for (uint32_t s = 0; s < sheet.carts[c].steps.size() && s < wanted[c]; s++) {
            const uint32_t zone = sheet.carts[c].steps[s].zone;
            for (uint32_t ahead : lists[zone]) {
                if (ahead == c) break;
                if (!has_left(sheet, wanted, ahead, zone)) closed = false;
            }
        }
    }
    must(closed == reached, "reachable record: run made, and leavings waited for");

    // Third way: the search over all runs.
    if (verdict.runs.searched) {
        must(verdict.runs.reached[state_number(verdict.runs, wanted)] == reached,
             "reachable record: run made, and search over all runs");
        double_check_counts.records_searched++;
    }
    return reached;
}

// A request for a cart under a plan, once it is refused with none of 1 to 25.
struct Request {
    Outcome refusal;
    PlanAnswer plan;
    Orders orders;
    const Verdict* verdict = nullptr;
    uint32_t cart = 0;
    Positions positions;
};

// "Moving has 1 to 26." #105: "Refusals: as for moving up to 25"
inline Request take_request(const Bytes& sheet_bytes, const Bytes& plan_bytes, const Record& record, uint64_t requested) {
    Request request;
    request.plan = read_plan(sheet_bytes, plan_bytes);
    if (request.plan.number != 0) {
        pass_on(request.plan, request.refusal);
        return request;
    }
    const Sheet& sheet = request.plan.sheet;
    request.orders = orders_of_lists(request.plan.lists);
    request.verdict = &verdict_of(sheet_bytes, plan_bytes, sheet, request.plan.lists);
    // "A locked plan is refused before any move."
    if (request.verdict->locked) {
        request.refusal.number = 22;
        return request;
    }
    if (!record_is_reached(sheet, request.plan.lists, *request.verdict, record)) {
        request.refusal.number = 23;
        return request;
    }
    // "cart number m or more"
    if (requested >= sheet.carts.size()) {
        request.refusal.number = 24;
        return request;
    }
    request.cart = static_cast<uint32_t>(requested);
    for (uint32_t c = 0; c < sheet.carts.size(); c++) request.positions.push_back(record.positions[c]);
    // "cart is already out"
    if (is_out(sheet, request.positions, request.cart)) request.refusal.number = 25;
    return request;
}

inline MoveAnswer move_cart(const Bytes& sheet_bytes, const Bytes& plan_bytes, const Record& record,
                            uint64_t requested) {
    MoveAnswer answer;
    answer.record = record;              // "changed only by a permitted move"
    const Request request = take_request(sheet_bytes, plan_bytes, record, requested);
    if (request.refusal.number != 0) {
        pass_on(request.refusal, answer);
        return answer;
    }
    const Sheet& sheet = request.plan.sheet;
    const uint32_t cart = request.cart;
    Positions positions = request.positions;
    // "cart is held"; "26 also tells how many carts ahead have not left the wanted zone"; #102: "26
    // reports the carts ahead in the zone list and adds one if the lane holds the cart"
    const int zone = wanted_zone(sheet, positions, cart);
    uint32_t ahead_and_not_left = 0;
    if (zone >= 0) {
        for (uint32_t listed : request.plan.lists[static_cast<size_t>(zone)]) {
            if (listed == cart) break;
            if (!has_left(sheet, positions, listed, static_cast<uint32_t>(zone))) ahead_and_not_left++;
        }
    }
    const uint32_t lane = is_held_by_lane(sheet, positions, cart) ? 1 : 0;
    must((ahead_and_not_left + lane == 0) == is_permitted(sheet, request.orders, positions, cart),
         "held exactly if some cart ahead has not left or the lane holds the cart");
    if (ahead_and_not_left + lane > 0) {
        answer.number = 26;
        answer.ahead = ahead_and_not_left + lane;
        return answer;
    }
    answer.record.positions[cart] = static_cast<uint8_t>(record.positions[cart] + 1);
    answer.record.made = record.made + 1;
    if (request.verdict->runs.searched) {
        positions[cart]++;
        must(request.verdict->runs.reached[state_number(request.verdict->runs, positions)], "the record afterwards is reached");
    }
    return answer;
}

// ---------------------------------------------------------------------------------------------
// Why a cart does not move
// ---------------------------------------------------------------------------------------------

// #105: "Each link follows the ring's pointing rule in the lent record, lane included; the last cart's
// move is permitted, and no cart stands in the chain twice."
inline void check_chain(const Sheet& sheet, const Lists& lists, const Orders& orders, const Positions& positions,
                        const ChainAnswer& answer) {
    const std::vector<ChainLink>& links = answer.links;
    for (size_t i = 0; i < links.size(); i++) {
        const bool last = i + 1 == links.size();
        must(!is_out(sheet, positions, links[i].cart), "a cart of the chain is not out");
        must(is_permitted(sheet, orders, positions, links[i].cart) == last, "of the chain the last cart may move, and no other");
        must(last || cart_pointed_to(sheet, lists, positions, links[i].cart) == links[i + 1].cart, "each is held by the next");
        for (size_t j = 0; j < i; j++) must(links[j].cart != links[i].cart, "no cart stands in the chain twice");
    }
    must(links.size() <= sheet.carts.size(), "a chain has no more carts than the sheet");
    double_check_counts.chains++;
}

inline ChainAnswer why(const Bytes& sheet_bytes, const Bytes& plan_bytes, const Record& record, uint64_t requested) {
    ChainAnswer answer;
    const Request request = take_request(sheet_bytes, plan_bytes, record, requested);
    if (request.refusal.number != 0) {
        pass_on(request.refusal, answer);
        return answer;
    }
    const Sheet& sheet = request.plan.sheet;
    // "this cart wants zone Z (or the move out), held by that cart, which wants the next, down to a cart
    // that may move now"
    uint32_t cart = request.cart;
    while (true) {
        const int zone = wanted_zone(sheet, request.positions, cart);
        answer.links.push_back(ChainLink{cart, zone < 0 ? 0 : static_cast<uint32_t>(zone)});
        answer.out = zone < 0;
        if (is_permitted(sheet, request.orders, request.positions, cart)) break;
        must(answer.links.size() < 16, "the chain ends");
        cart = cart_pointed_to(sheet, request.plan.lists, request.positions, cart);
    }
    check_chain(sheet, request.plan.lists, request.orders, request.positions, answer);
    return answer;
}

// ---------------------------------------------------------------------------------------------
// The Petri net
// ---------------------------------------------------------------------------------------------

// A line of the text, with what NET.md orders the lines by.
struct NetLine {
    uint32_t cart = 0;
    uint32_t position = 0;
    int other = -1;                      // the other cart; -1: none
    int form = 0;                        // which line of NET.md's table
    std::string text;
    std::string dot;                     // the same in Graphviz' language
};

// 001: "a 5-tuple (P, T, I, O, M_0)". Places and transitions are numbered as they are added.
struct Net {
    struct Transition {
        std::vector<size_t> from, to;    // the places of its arcs
    };
    std::vector<std::string> places;     // by their names
    std::vector<uint32_t> tokens;        // of each place, first marking
    std::vector<std::string> names;      // of the transitions
    std::vector<Transition> transitions;
    std::vector<std::vector<size_t>> place_at;   // the place of each cart's each position
    std::vector<NetLine> lines;
};

// NET.md: "The two characters are a number in decimal with two digits, or `--`."
inline std::string two_characters(int number) {
    if (number < 0) return "--";
    return std::string(1, static_cast<char>('0' + number / 10)) + static_cast<char>('0' + number % 10);
}

// NET.md's table of words, in its order.
enum NetForm {
    place_cart, transition, arc_from_cart, arc_to_cart, place_line, arc_to_line, arc_from_line, place_pair, arc_to_pair, arc_from_pair
};
constexpr const char* net_words[10] = {"place cart", "transition", "arc cart >", "arc > cart", "place line",
                                       "arc > line", "arc line >", "place pair", "arc > pair", "arc pair >"};

// NET.md: "A line is 23 bytes: a word of ten, four times a blank and two characters, and a line feed. [...] They are, in this
// order, a cart, its position, the other cart and that one's position."
inline NetLine net_line(NetForm form, uint32_t cart, uint32_t position, int other, int other_position, const std::string& dot) {
    std::string text = net_words[form];
    for (int number : {static_cast<int>(cart), static_cast<int>(position), other, other_position}) text += " " + two_characters(number);
    return NetLine{cart, position, other, form, text + "\n", dot + "\n"};
}

inline size_t add_place(Net& net, const std::string& name, uint32_t tokens) {
    net.places.push_back(name);
    net.tokens.push_back(tokens);
    return net.places.size() - 1;
}

inline std::string dot_place(const Net& net, size_t place) {
    const std::string& name = net.places[place];
    return "\"" + name + "\" [shape=circle label=\"" + (net.tokens[place] > 0 ? "&bull;" : "") + "\" xlabel=\"" + name + "\"]";
}

inline std::string dot_arc(const std::string& from, const std::string& to) { return "\"" + from + "\" -> \"" + to + "\""; }

// A place between two moves of different carts, with its two arcs: the rear cart's move waits for the front cart's.
inline void add_between(Net& net, NetForm forms_from, const std::string& name, uint32_t rear, uint32_t rear_position, size_t rear_move,
                        uint32_t front, uint32_t front_position, size_t front_move) {
    const size_t place = add_place(net, name, 0);
    net.transitions[front_move].to.push_back(place);
    net.transitions[rear_move].from.push_back(place);
    const int other = static_cast<int>(front);
    net.lines.push_back(net_line(forms_from, rear, rear_position, other, -1, dot_place(net, place)));
    net.lines.push_back(net_line(static_cast<NetForm>(forms_from + 1), rear, rear_position, other, static_cast<int>(front_position),
                                 dot_arc(net.names[front_move], name)));
    net.lines.push_back(net_line(static_cast<NetForm>(forms_from + 2), rear, rear_position, other, -1, dot_arc(name, net.names[rear_move])));
}

inline Net net_of(const Sheet& sheet, const Lists& lists) {
    Net net;
    std::vector<std::vector<size_t>> move_from;           // the transition of each cart's move from each position
    for (uint32_t c = 0; c < sheet.carts.size(); c++) {
        const uint32_t last = static_cast<uint32_t>(sheet.carts[c].steps.size()) + 1;
        const std::string cart = two_characters(static_cast<int>(c));
        net.place_at.push_back({});
        move_from.push_back({});
        // 001: "q_{i,in}", "q_{i,j}" and "q_{i,out}"; "M_0(q_{i,in}) = 1"
        for (uint32_t p = 0; p <= last; p++) {
            net.place_at[c].push_back(add_place(net, cart + " at " + two_characters(static_cast<int>(p)), p == 0 ? 1 : 0));
            net.lines.push_back(net_line(place_cart, c, p, -1, -1, dot_place(net, net.place_at[c][p])));
        }
        // 001: "t_{i,in,j}", "t_{i,j,j'}" and "t_{i,j',out}", each with its I and its O
        for (uint32_t p = 0; p < last; p++) {
            const std::string name = cart + " from " + two_characters(static_cast<int>(p));
            move_from[c].push_back(net.transitions.size());
            net.names.push_back(name);
            net.transitions.push_back(Net::Transition{{net.place_at[c][p]}, {net.place_at[c][p + 1]}});
            net.lines.push_back(net_line(transition, c, p, -1, -1, "\"" + name + "\" [shape=box]"));
            net.lines.push_back(net_line(arc_from_cart, c, p, -1, -1, dot_arc(net.places[net.place_at[c][p]], name)));
            net.lines.push_back(net_line(arc_to_cart, c, p, -1, -1, dot_arc(name, net.places[net.place_at[c][p + 1]])));
        }
    }
    // 001: "For every Type-2 or Type-3 edge (v_{i,j}, v_{i',j})", which a plan has for every pair in a list, "q_{i,i',j}";
    // "I(q_{i,i',j}, t_{i',j',j}) = 1", j' the zone before j on the route of i' or "in"; "O(t_{i,j,j''}, q_{i,i',j}) = 1", j'' the
    // zone after j on the route of i or "out"
    for (uint32_t z = 0; z < lists.size(); z++) {
        for (size_t x = 0; x < lists[z].size(); x++) {
            for (size_t y = x + 1; y < lists[z].size(); y++) {
                const uint32_t front = lists[z][x], rear = lists[z][y];
                const uint32_t leaving = static_cast<uint32_t>(step_in_route(sheet.carts[front], z)) + 1;
                const uint32_t entering = static_cast<uint32_t>(step_in_route(sheet.carts[rear], z));
                const std::string name = "pair " + two_characters(static_cast<int>(front)) + " " + two_characters(static_cast<int>(rear))
                                         + " at " + two_characters(static_cast<int>(entering));
                add_between(net, place_pair, name, rear, entering, move_from[rear][entering], front, leaving, move_from[front][leaving]);
            }
        }
    }
    // #106: "with places for the stop line of #102"
    for (uint32_t c = 0; c < sheet.carts.size(); c++) {
        const int front = cart_in_front(sheet, c);
        if (front < 0) continue;
        const std::string name = "line " + two_characters(front) + " " + two_characters(static_cast<int>(c));
        add_between(net, place_line, name, c, 0, move_from[c][0], static_cast<uint32_t>(front), 0, move_from[static_cast<size_t>(front)][0]);
    }
    // NET.md: "By cart, then by position, then by the other cart: first the four lines with no other cart, as the table has them [..],
    // then for each other cart, from the lowest, the three of the stop line and the three of the pair"
    std::sort(net.lines.begin(), net.lines.end(), [](const NetLine& a, const NetLine& b) {
        return std::tie(a.cart, a.position, a.other, a.form) < std::tie(b.cart, b.position, b.other, b.form);
    });
    return net;
}

// A transition can fire when each of its arcs finds a token in its place.
inline bool can_fire(const Net& net, const std::vector<uint32_t>& marking, size_t transition) {
    std::vector<uint32_t> left = marking;
    for (size_t place : net.transitions[transition].from) {
        if (left[place] == 0) return false;
        left[place]--;
    }
    return true;
}

// #106: "fire transitions until none can fire". The two orders in which they are tried are only there to be compared.
inline std::vector<uint32_t> fire_all(const Net& net, bool last_first) {
    std::vector<uint32_t> marking = net.tokens;
    const size_t count = net.transitions.size();
    bool fired = true;
    while (fired) {
        fired = false;
        for (size_t i = 0; i < count && !fired; i++) {
            const size_t t = last_first ? count - 1 - i : i;
            if (!can_fire(net, marking, t)) continue;
            for (size_t place : net.transitions[t].from) marking[place]--;
            for (size_t place : net.transitions[t].to) marking[place]++;
            fired = true;
        }
    }
    return marking;
}

// The position whose place has the cart's token, for each cart.
inline Positions positions_in(const Net& net, const std::vector<uint32_t>& marking) {
    Positions positions;
    for (const std::vector<size_t>& places : net.place_at) {
        uint32_t found = 0, tokens = 0;
        for (uint32_t p = 0; p < places.size(); p++) {
            tokens += marking[places[p]];
            if (marking[places[p]] > 0) found = p;
        }
        must(tokens == 1, "each cart has one token");
        positions.push_back(found);
    }
    return positions;
}

inline std::string text_of_net(const Net& net) {
    std::string text;
    for (const NetLine& line : net.lines) text += line.text;
    return text;
}

// NET.md: "With m carts, N steps, P pairs in the zones' lists and F carts with one in front on the lane there are 4 N + 5 m + 3 P
// + 3 F lines."
inline size_t net_length(const Sheet& sheet, const Lists& lists) {
    size_t lines = 4 * count_steps(sheet) + 5 * sheet.carts.size();
    for (const std::vector<uint32_t>& list : lists) lines += 3 * (list.size() * list.size() - list.size()) / 2;
    for (uint32_t c = 0; c < sheet.carts.size(); c++) lines += cart_in_front(sheet, c) >= 0 ? 3 : 0;
    return 23 * lines;
}

// #106: "Refusals: 1 to 21, then 28 for the text's room."
inline NetAnswer net(const Bytes& sheet_bytes, const Bytes& plan_bytes, const Bytes& room) {
    NetAnswer answer;
    answer.room = room;
    const PlanAnswer plan = read_plan(sheet_bytes, plan_bytes);
    if (plan.number != 0) {
        pass_on(plan, answer);
        return answer;
    }
    const Net built = net_of(plan.sheet, plan.lists);
    const std::string text = text_of_net(built);
    must(text.size() == net_length(plan.sheet, plan.lists), "as many lines as NET.md says");

    const std::vector<uint32_t> marking = fire_all(built, false);
    must(marking == fire_all(built, true), "the marking left does not depend on the order");
    const Positions positions = positions_in(built, marking);
    bool locked = false;
    for (const std::vector<size_t>& places : built.place_at) locked = locked || marking[places.back()] == 0;
    // "Its verdict equals the judge's for every valid sheet and readable plan, and on a locked plan the marking left tells the same
    // position for each cart."
    const Verdict& verdict = verdict_of(sheet_bytes, plan_bytes, plan.sheet, plan.lists);
    must(locked == verdict.locked, "the net's verdict is the judge's");
    must(positions == run_to_the_end(plan.sheet, orders_of_lists(plan.lists), false), "the net's positions are those of permitted moves");
    if (verdict.runs.searched) must(positions == verdict.runs.ends[0], "the net's positions are those of the search over all runs");
    double_check_counts.nets++;

    if (room.size() < text.size()) {
        answer.number = 28;
        return answer;
    }
    for (size_t i = 0; i < text.size(); i++) answer.room[i] = static_cast<uint8_t>(text[i]);
    answer.length = static_cast<uint32_t>(text.size());
    answer.locked = locked;
    for (size_t c = 0; c < positions.size(); c++) answer.positions[c] = static_cast<uint8_t>(positions[c]);
    return answer;
}

// ---------------------------------------------------------------------------------------------
// The judge program
// ---------------------------------------------------------------------------------------------

// "Other refusals print the first line only, with number and place." #104: "The printed first line
// gets ` cart C step T` at its end, with these numbers, when C isn't 0."
inline std::string refusal_line(const Outcome& refusal) {
    std::string line = "refused " + std::to_string(refusal.number) + " at " + std::to_string(refusal.place);
    if (refusal.cart != 0) line += " cart " + std::to_string(refusal.cart) + " step " + std::to_string(refusal.step);
    return line + "\n";
}

// "It reads the first 2,048 bytes of standard input and no more"
inline Bytes first_2048(const Bytes& standard_input) {
    Bytes read;
    for (size_t i = 0; i < standard_input.size() && i < 2048; i++) read.push_back(standard_input[i]);
    return read;
}

struct Parted {
    Bytes sheet, plan;
};

// "The sheet is as long as bytes 1 and 2 say; if these are missing or say more than was read, all of it
// is sheet and the plan is empty."
inline Parted parted(const Bytes& read) {
    size_t sheet_length = read.size();
    if (read.size() >= 3) {
        const size_t said = static_cast<size_t>(read[1]) * 256 + read[2];
        if (said <= read.size()) sheet_length = said;
    }
    return Parted{Bytes(read.begin(), read.begin() + static_cast<long>(sheet_length)),
                  Bytes(read.begin() + static_cast<long>(sheet_length), read.end())};
}

inline std::string judge_program(const Bytes& standard_input) {
    // "a sheet, then a plan"
    const Parted input = parted(first_2048(standard_input));
    const Bytes& sheet_bytes = input.sheet;
    const Bytes& plan_bytes = input.plan;

    const std::vector<uint32_t> words(128, 0);
    const JudgeAnswer answer = judge(sheet_bytes, plan_bytes, words);
    std::string text;
    if (answer.number != 0) {
        text += refusal_line(answer);
        // "after the first, each cart of the ring in its order, with its wanted zone and the cart
        // it points to" - each points to the next of the ring, the last to the first
        for (size_t i = 0; i < answer.ring.size(); i++) {
            const RingCart& next = answer.ring[(i + 1) % answer.ring.size()];
            text += "cart " + std::to_string(answer.ring[i].cart) + " waits at zone "
                    + std::to_string(answer.ring[i].zone) + " for cart " + std::to_string(next.cart) + "\n";
        }
        return text;
    }
    // "For an accepted plan it prints moves and finish, then one line for each step, by cart and
    // then by step: cart, zone, entering time, leaving time. Numbers are decimal and each line ends
    // with one line feed."
    const Sheet sheet = read_sheet(sheet_bytes).sheet;
    text += "ok moves " + std::to_string(answer.moves) + " finish " + std::to_string(answer.finish) + "\n";
    for (size_t c = 0; c < sheet.carts.size(); c++) {
        const Cart& cart = sheet.carts[c];
        for (size_t s = 0; s < cart.steps.size(); s++) {
            const uint32_t enter = answer.words[8 * c + s];
            uint32_t leave;
            if (s + 1 == cart.steps.size()) {
                leave = enter + cart.steps[s].passing;
            } else {
                leave = answer.words[8 * c + s + 1] - cart.steps[s].travel;
            }
            text += "cart " + std::to_string(c) + " zone " + std::to_string(cart.steps[s].zone) + " enter "
                    + std::to_string(enter) + " leave " + std::to_string(leave) + "\n";
        }
    }
    return text;
}

// ---------------------------------------------------------------------------------------------
// The program that says why a cart does not move. Document 02 has none: this is ours
// ---------------------------------------------------------------------------------------------

// What a program writes to standard output and to standard error.
struct Printed {
    std::string output, errors;
};

// After the sheet and the plan stand sixteen positions, the number of moves made, and the cart.
constexpr size_t record_and_cart = 16 + 4 + 1;

inline Printed why_program(const Bytes& standard_input) {
    const Bytes read = first_2048(standard_input);
    if (read.size() < record_and_cart) {
        return Printed{"", "oblakosh: why_main takes a sheet, a plan, and 21 bytes of record and cart\n"};
    }
    const size_t before = read.size() - record_and_cart;
    const Parted input = parted(Bytes(read.begin(), read.begin() + static_cast<long>(before)));
    Record record;
    for (size_t c = 0; c < 16; c++) record.positions[c] = read[before + c];
    for (size_t i = 0; i < 4; i++) record.made = record.made * 256 + read[before + 16 + i];
    const ChainAnswer answer = why(input.sheet, input.plan, record, read[before + 20]);
    if (answer.number != 0) return Printed{refusal_line(answer), ""};
    std::string text;
    for (size_t i = 0; i < answer.links.size(); i++) {
        text += "cart " + std::to_string(answer.links[i].cart);
        if (i + 1 < answer.links.size()) {
            text += " waits at zone " + std::to_string(answer.links[i].zone) + " for cart " + std::to_string(answer.links[i + 1].cart) + "\n";
        } else {
            text += answer.out ? " may move out\n" : " may move into zone " + std::to_string(answer.links[i].zone) + "\n";
        }
    }
    return Printed{text, ""};
}

// ---------------------------------------------------------------------------------------------
// The program that prints the net, with no word or with the word dot
// ---------------------------------------------------------------------------------------------

// NET.md: the lines "stand in the text's order", between a first and a last one.
inline std::string dot_of_net(const Net& net) {
    std::string text = "digraph net {\n";
    for (const NetLine& line : net.lines) text += line.dot;
    return text + "}\n";
}

inline Printed net_program(const Bytes& standard_input, bool dot) {
    const Parted input = parted(first_2048(standard_input));
    const PlanAnswer plan = read_plan(input.sheet, input.plan);
    if (plan.number != 0) return Printed{"", refusal_line(plan)};
    const Net built = net_of(plan.sheet, plan.lists);
    return Printed{dot ? dot_of_net(built) : text_of_net(built), ""};
}

// ---------------------------------------------------------------------------------------------
// Answers as one line of text, for comparing with another program
// ---------------------------------------------------------------------------------------------

inline std::string hex(const Bytes& bytes) {
    const char* digits = "0123456789abcdef";
    std::string text;
    for (uint8_t byte : bytes) {
        text += digits[byte / 16];
        text += digits[byte % 16];
    }
    return text;
}

inline std::string to_text(const char* operation, const Outcome& a) {
    return std::string(operation) + " " + std::to_string(a.number) + " " + std::to_string(a.place) + " "
           + std::to_string(a.cart) + " " + std::to_string(a.step);
}

// zones N (FOLLOW CROSS)... carts M (lane arrival steps (zone passing travel)...)...
inline std::string to_text(const Sheet& sheet) {
    std::string text = "zones " + std::to_string(sheet.zones.size());
    for (const Zone& zone : sheet.zones) {
        text += " " + std::to_string(zone.follow_gap) + " " + std::to_string(zone.cross_gap);
    }
    text += " carts " + std::to_string(sheet.carts.size());
    for (const Cart& cart : sheet.carts) {
        text += " lane " + std::to_string(cart.lane) + " arrival " + std::to_string(cart.arrival)
                + " steps " + std::to_string(cart.steps.size());
        for (const Step& step : cart.steps) {
            text += " " + std::to_string(step.zone) + " " + std::to_string(step.passing) + " "
                    + std::to_string(step.travel);
        }
    }
    return text;
}

// sheet NUMBER PLACE CART STEP and the sheet
inline std::string to_text(const SheetAnswer& a) {
    return to_text("sheet", a) + " " + to_text(a.sheet);
}

// plan NUMBER PLACE CART STEP lists N (at PLACE count carts...)... and the sheet
inline std::string to_text(const PlanAnswer& a) {
    std::string text = to_text("plan", a);
    text += " lists " + std::to_string(a.lists.size());
    for (size_t z = 0; z < a.lists.size(); z++) {
        text += " at " + std::to_string(a.list_places[z]) + " " + std::to_string(a.lists[z].size());
        for (uint32_t cart : a.lists[z]) text += " " + std::to_string(cart);
    }
    return text + " " + to_text(a.sheet);
}

// write NUMBER PLACE CART STEP length L room HEX
inline std::string to_text(const WriteAnswer& a) {
    return to_text("write", a) + " length " + std::to_string(a.length)
           + " room " + hex(a.room);
}

// list NUMBER PLACE CART STEP position P length L
inline std::string to_text(const ListAnswer& a) {
    return to_text("list", a) + " position " + std::to_string(a.position)
           + " length " + std::to_string(a.length);
}

// judge NUMBER PLACE CART STEP ring K cart zone ... finish F moves M words W w w w ...
inline std::string to_text(const JudgeAnswer& a) {
    std::string text = to_text("judge", a);
    text += " ring " + std::to_string(a.ring.size());
    for (const RingCart& entry : a.ring) {
        text += " " + std::to_string(entry.cart) + " " + std::to_string(entry.zone);
    }
    text += " finish " + std::to_string(a.finish) + " moves " + std::to_string(a.moves);
    text += " words " + std::to_string(a.words.size());
    for (uint32_t word : a.words) text += " " + std::to_string(word);
    return text;
}

// planning NUMBER PLACE CART STEP length L finish F room HEX
inline std::string to_text(const PlanningAnswer& a) {
    return to_text("planning", a) + " length " + std::to_string(a.length)
           + " finish " + std::to_string(a.finish) + " room " + hex(a.room);
}

// move NUMBER PLACE CART STEP ahead A positions p0 .. p15 made N
inline std::string to_text(const MoveAnswer& a) {
    std::string text = to_text("move", a) + " ahead " + std::to_string(a.ahead);
    text += " positions";
    for (uint8_t position : a.record.positions) text += " " + std::to_string(position);
    text += " made " + std::to_string(a.record.made);
    return text;
}

// why NUMBER PLACE CART STEP chain K cart zone ... out O
inline std::string to_text(const ChainAnswer& a) {
    std::string text = to_text("why", a) + " chain " + std::to_string(a.links.size());
    for (const ChainLink& link : a.links) text += " " + std::to_string(link.cart) + " " + std::to_string(link.zone);
    return text + " out " + std::to_string(a.out ? 1 : 0);
}

// net NUMBER PLACE CART STEP length L locked K positions p0 .. p15 (the room is compared by itself)
inline std::string to_text(const NetAnswer& a) {
    std::string text = to_text("net", a) + " length " + std::to_string(a.length) + " locked " + std::to_string(a.locked ? 1 : 0) + " positions";
    for (uint8_t position : a.positions) text += " " + std::to_string(position);
    return text;
}

}  // namespace independent

#endif
