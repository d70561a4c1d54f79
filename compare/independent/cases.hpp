// Inputs for every operation, made from a seed; the same seed gives the same inputs.

#ifndef CASES_HPP
#define CASES_HPP

#include <algorithm>
#include <random>
#include <string>
#include <vector>

#include "independent.hpp"

namespace cases {

using independent::Bytes;
using independent::Cart;
using independent::Lists;
using independent::Orders;
using independent::Outcome;
using independent::Positions;
using independent::Record;
using independent::Sheet;
using independent::Step;
using independent::Zone;

struct Random {
    std::mt19937_64 engine;
    explicit Random(uint64_t seed) : engine(seed) {}
    uint32_t below(uint32_t n) { return static_cast<uint32_t>(engine() % n); }           // 0 .. n - 1
    uint32_t between(uint32_t low, uint32_t high) { return low + below(high - low + 1); }
    bool one_in(uint32_t n) { return below(n) == 0; }
    template <class T>
    void shuffle(std::vector<T>& list) {
        for (size_t i = list.size(); i > 1; i--) {
            std::swap(list[i - 1], list[below(static_cast<uint32_t>(i))]);
        }
    }
};

// ---------------------------------------------------------------------------------------------
// Bytes
// ---------------------------------------------------------------------------------------------

inline void append_number(Bytes& bytes, size_t width, uint32_t value) {
    for (size_t i = 0; i < width; i++) {
        uint32_t shifted = value;
        for (size_t k = i + 1; k < width; k++) shifted /= 256;
        bytes.push_back(static_cast<uint8_t>(shifted % 256));
    }
}

inline void put_number(Bytes& bytes, size_t place, size_t width, uint32_t value) {
    Bytes number;
    append_number(number, width, value);
    for (size_t i = 0; i < width && place + i < bytes.size(); i++) bytes[place + i] = number[i];
}

inline void correct_length(Bytes& bytes) {
    if (bytes.size() >= 3) put_number(bytes, 1, 2, static_cast<uint32_t>(bytes.size() % 65536));
}

enum class Kind {
    version, length, zone_count, gap, cart_count, lane, arrival, step_count, zone, passing, travel, last_travel
};
struct FieldPlace {
    Kind kind;
    size_t place;
    size_t width;
    uint32_t cart, step;                 // the part it stands in, as #104 numbers it
};

// The sheet's bytes (values are taken as they are, also wrong ones), and where each field stands.
inline Bytes sheet_to_bytes(const Sheet& sheet, std::vector<FieldPlace>* fields = nullptr) {
    Bytes bytes;
    uint32_t cart_told = 0, step_told = 0;
    auto add = [&](Kind kind, size_t width, uint32_t value) {
        if (fields != nullptr) fields->push_back(FieldPlace{kind, bytes.size(), width, cart_told, step_told});
        append_number(bytes, width, value);
    };
    add(Kind::version, 1, 1);
    add(Kind::length, 2, 0);
    add(Kind::zone_count, 1, static_cast<uint32_t>(sheet.zones.size()));
    for (const Zone& zone : sheet.zones) {
        add(Kind::gap, 2, zone.follow_gap);
        add(Kind::gap, 2, zone.cross_gap);
    }
    add(Kind::cart_count, 1, static_cast<uint32_t>(sheet.carts.size()));
    for (const Cart& cart : sheet.carts) {
        cart_told++;
        step_told = 0;
        add(Kind::lane, 1, cart.lane);
        add(Kind::arrival, 4, cart.arrival);
        add(Kind::step_count, 1, static_cast<uint32_t>(cart.steps.size()));
        for (size_t s = 0; s < cart.steps.size(); s++) {
            step_told++;
            add(Kind::zone, 1, cart.steps[s].zone);
            add(Kind::passing, 2, cart.steps[s].passing);
            add(s + 1 == cart.steps.size() ? Kind::last_travel : Kind::travel, 2, cart.steps[s].travel);
        }
    }
    correct_length(bytes);
    return bytes;
}

inline Bytes plan_to_bytes(const Lists& lists) { return independent::plan_to_bytes(lists); }

inline Bytes from_hex(const std::string& text) {
    Bytes bytes;
    int half = -1;
    for (char c : text) {
        int digit = -1;
        if (c >= '0' && c <= '9') digit = c - '0';
        if (c >= 'a' && c <= 'f') digit = c - 'a' + 10;
        if (c >= 'A' && c <= 'F') digit = c - 'A' + 10;
        if (digit < 0) continue;                              // spaces are skipped
        if (half < 0) {
            half = digit;
        } else {
            bytes.push_back(static_cast<uint8_t>(half * 16 + digit));
            half = -1;
        }
    }
    return bytes;
}

// ---------------------------------------------------------------------------------------------
// Valid sheets
// ---------------------------------------------------------------------------------------------

struct Shape {
    uint32_t zones_least, zones_most;
    uint32_t carts_least, carts_most;
    uint32_t steps_most;
    bool long_routes;                    // routes as long as they can be, most of the time
};
// "1 to 4 zones, 0 to 4 carts, routes up to 3 steps"
inline Shape small_shape() { return Shape{1, 4, 0, 4, 3, false}; }
// few zones, many carts, long routes: here planning sometimes cuts groups
inline Shape dense_shape() { return Shape{3, 5, 5, 8, 5, true}; }
inline Shape large_shape() { return Shape{1, 24, 1, 16, 8, false}; }
inline Shape largest_shape() { return Shape{24, 24, 16, 16, 8, true}; }
inline Shape crowded_shape() { return Shape{8, 8, 16, 16, 8, true}; }

// Kinds of passing times, travel times and gaps.
inline uint32_t random_time(Random& random, uint32_t kind) {
    switch (kind) {
        case 0: return 0;
        case 1: return random.below(4);
        case 2: return 50 * random.below(21);                        // 0 .. 1000
        case 3: return random.below(60001);
        case 4: return random.one_in(2) ? 60000 : 0;
        case 5: return 100;
        case 6: return random.one_in(3) ? random.below(60001) : random.below(3);
        default: return 60000;
    }
}

inline uint32_t random_arrival(Random& random, uint32_t kind) {
    switch (kind) {
        case 0: return 0;
        case 1: return random.below(4);
        case 2: return 200 * random.below(4);
        case 3: return random.below(3600001);
        case 4: return random.one_in(2) ? 3600000 : 0;
        case 5: return 1000;
        default: return random.below(3000);
    }
}

// Rule 14: on one lane a higher number does not arrive earlier. The arrivals of each lane are
// sorted, the lanes keep their arrivals.
inline void sort_arrivals(Sheet& sheet) {
    for (uint32_t lane = 0; lane < 256; lane++) {
        std::vector<uint32_t> arrivals;
        for (const Cart& cart : sheet.carts) {
            if (cart.lane == lane) arrivals.push_back(cart.arrival);
        }
        if (arrivals.empty()) continue;
        std::sort(arrivals.begin(), arrivals.end());
        size_t next = 0;
        for (Cart& cart : sheet.carts) {
            if (cart.lane == lane) {
                cart.arrival = arrivals[next];
                next++;
            }
        }
    }
}

inline Sheet random_sheet(Random& random, const Shape& shape) {
    Sheet sheet;
    const uint32_t n = random.between(shape.zones_least, shape.zones_most);
    const uint32_t m = random.between(shape.carts_least, shape.carts_most);
    const uint32_t gap_kind = random.below(8);
    const uint32_t passing_kind = random.below(8);
    const uint32_t travel_kind = random.below(8);
    const uint32_t arrival_kind = random.below(7);
    // lanes: all different, a few, one
    const uint32_t lane_kind = random.below(5);
    for (uint32_t z = 0; z < n; z++) {
        Zone zone;
        zone.follow_gap = random_time(random, gap_kind);
        zone.cross_gap = random_time(random, gap_kind);
        if (random.one_in(8)) zone.follow_gap = 0;
        if (random.one_in(8)) zone.cross_gap = 0;
        sheet.zones.push_back(zone);
    }
    for (uint32_t c = 0; c < m; c++) {
        Cart cart;
        if (lane_kind <= 1) cart.lane = c;                            // all different
        if (lane_kind == 2) cart.lane = random.below(2) * 15;         // 0 and 15
        if (lane_kind == 3) cart.lane = random.below(4);
        if (lane_kind == 4) cart.lane = random.one_in(6) ? random.below(16) : 7;
        cart.arrival = random_arrival(random, arrival_kind);
        std::vector<uint32_t> zones;
        for (uint32_t z = 0; z < n; z++) zones.push_back(z);
        random.shuffle(zones);
        const uint32_t most = std::min(n, shape.steps_most);
        uint32_t steps = random.between(1, most);
        if (shape.long_routes && !random.one_in(6)) steps = most;
        for (uint32_t s = 0; s < steps; s++) {
            Step step;
            step.zone = zones[s];
            step.passing = random_time(random, passing_kind);
            step.travel = s + 1 == steps ? 0 : random_time(random, travel_kind);
            cart.steps.push_back(step);
        }
        sheet.carts.push_back(cart);
    }
    sort_arrivals(sheet);
    return sheet;
}

// Sheets after the manner of cut-groups.txt: all lanes but few different, all values
// multiples of 50 or 100, long routes over few zones. Planning cuts groups now and then.
inline Sheet random_sheet_for_cuts(Random& random) {
    Sheet sheet;
    const uint32_t n = random.between(3, 5);
    uint32_t m = random.between(5, 8);
    if (random.one_in(3)) m = random.between(8, 12);
    if (random.one_in(12)) m = random.between(12, 16);
    const uint32_t lanes = random.one_in(2) ? 16 : random.between(3, 7);
    for (uint32_t z = 0; z < n; z++) {
        Zone zone;
        zone.follow_gap = 50 * random.below(6);
        zone.cross_gap = 100 * random.below(6);
        sheet.zones.push_back(zone);
    }
    for (uint32_t c = 0; c < m; c++) {
        Cart cart;
        cart.lane = random.below(lanes);
        cart.arrival = 200 * random.below(4);
        std::vector<uint32_t> zones;
        for (uint32_t z = 0; z < n; z++) zones.push_back(z);
        random.shuffle(zones);
        const uint32_t steps = random.one_in(4) ? random.between(1, n) : n;
        for (uint32_t s = 0; s < steps; s++) {
            Step step;
            step.zone = zones[s];
            step.passing = 100 * random.below(11);
            step.travel = s + 1 == steps ? 0 : 100 * random.below(5);
            cart.steps.push_back(step);
        }
        sheet.carts.push_back(cart);
    }
    // Now and then more zones, and carts with short routes anywhere: then spare times differ more.
    if (random.one_in(2)) {
        const uint32_t more_zones = random.between(1, 6);
        for (uint32_t z = 0; z < more_zones; z++) {
            sheet.zones.push_back(Zone{50 * random.below(6), 100 * random.below(6)});
        }
        const uint32_t more_carts = random.between(1, 6);
        for (uint32_t i = 0; i < more_carts && sheet.carts.size() < 16; i++) {
            Cart cart;
            cart.lane = random.below(lanes);
            cart.arrival = 200 * random.below(6);
            std::vector<uint32_t> zones;
            for (uint32_t z = 0; z < sheet.zones.size(); z++) zones.push_back(z);
            random.shuffle(zones);
            const uint32_t steps = random.between(1, 3);
            for (uint32_t s = 0; s < steps; s++) {
                cart.steps.push_back(Step{zones[s], 100 * random.below(21), s + 1 == steps ? 0 : 100 * random.below(5)});
            }
            sheet.carts.insert(sheet.carts.begin() + random.below(static_cast<uint32_t>(sheet.carts.size()) + 1), cart);
        }
    }
    sort_arrivals(sheet);
    return sheet;
}

// Sheets for the planners of #101: no carts, one lane, equal arrivals, a finish that hides who waits, and many shared zones.
inline Sheet random_sheet_for_planners(Random& random) {
    const uint32_t kind = random.below(5);
    Sheet sheet = random_sheet(random, kind == 0 ? Shape{1, 4, 0, 0, 1, false} : Shape{2, 3, 2, 4, 3, true});
    if (kind == 1) {
        const uint32_t lane = random.below(16);
        for (Cart& cart : sheet.carts) cart.lane = lane;
    }
    if (kind == 2) {
        const uint32_t arrival = random_arrival(random, random.below(7));
        for (uint32_t c = 0; c < sheet.carts.size(); c++) {
            sheet.carts[c].lane = 15 - c;                              // lane order against cart order
            sheet.carts[c].arrival = arrival;
        }
    }
    if (kind == 3) {
        // one slow cart alone in a zone of its own: every accepted plan finishes with it
        const uint32_t own = static_cast<uint32_t>(sheet.zones.size());
        sheet.zones.push_back(Zone{0, 0});
        sheet.carts.push_back(Cart{15, 3600000, {Step{own, 60000, 0}}});
        for (uint32_t c = 0; c + 1 < sheet.carts.size(); c++) {
            sheet.carts[c].lane = c;
            sheet.carts[c].arrival = random.below(4);
        }
    }
    sort_arrivals(sheet);
    return sheet;
}

// Sheets for the stop line of #102: few lanes, lane 0 among them, three on a lane, and short routes over zones that the
// lane's carts mostly do not share.
inline Sheet random_sheet_for_line(Random& random) {
    Sheet sheet;
    const uint32_t n = random.between(2, 5);
    const uint32_t m = random.between(2, 5);
    const uint32_t lanes = random.between(1, 3);
    const uint32_t time_kind = random.one_in(2) ? 1 : 2;
    for (uint32_t z = 0; z < n; z++) sheet.zones.push_back(Zone{random_time(random, time_kind), random_time(random, time_kind)});
    for (uint32_t c = 0; c < m; c++) {
        Cart cart;
        cart.lane = random.below(lanes) * 7;
        cart.arrival = random_arrival(random, random.one_in(2) ? 0 : 2);
        std::vector<uint32_t> zones;
        for (uint32_t z = 0; z < n; z++) zones.push_back(z);
        random.shuffle(zones);
        const uint32_t steps = random.between(1, std::min(n, 2u));
        for (uint32_t s = 0; s < steps; s++) {
            cart.steps.push_back(Step{zones[s], random_time(random, time_kind), s + 1 == steps ? 0 : random_time(random, time_kind)});
        }
        sheet.carts.push_back(cart);
    }
    sort_arrivals(sheet);
    return sheet;
}

// 16 carts of 8 steps in 8 zones, all on one lane: docs/NET.md's longest net. On one lane there is one plan alone.
inline Sheet sheet_of_longest_net() {
    Sheet sheet;
    for (uint32_t z = 0; z < 8; z++) sheet.zones.push_back(Zone{z, 2 * z});
    for (uint32_t c = 0; c < 16; c++) {
        Cart cart;
        cart.lane = 9;
        for (uint32_t s = 0; s < 8; s++) cart.steps.push_back(Step{s, 10, s + 1 == 8 ? 0u : 1u});
        sheet.carts.push_back(cart);
    }
    return sheet;
}

// The longest sheet: 16 carts, 8 steps each, 24 zones, all values at their limit.
inline Sheet longest_sheet() {
    Sheet sheet;
    for (uint32_t z = 0; z < 24; z++) sheet.zones.push_back(Zone{60000, 60000});
    for (uint32_t c = 0; c < 16; c++) {
        Cart cart;
        cart.lane = c;
        cart.arrival = 3600000;
        for (uint32_t s = 0; s < 8; s++) {
            cart.steps.push_back(Step{(c + s) % 24, 60000, s + 1 == 8 ? 0u : 60000u});
        }
        sheet.carts.push_back(cart);
    }
    return sheet;
}

// ---------------------------------------------------------------------------------------------
// Damaged sheets
// ---------------------------------------------------------------------------------------------

// One field of the sheet at its limit or past it (also 0 where 0 is not allowed). The bytes stay as
// long as they were, so counts that are off also move all later fields.
inline Bytes sheet_with_limit_value(Random& random, const Sheet& sheet) {
    std::vector<FieldPlace> fields;
    Bytes bytes = sheet_to_bytes(sheet, &fields);
    const FieldPlace& field = fields[random.below(static_cast<uint32_t>(fields.size()))];
    std::vector<uint32_t> values;
    switch (field.kind) {
        case Kind::version: values = {0, 2, 255}; break;
        case Kind::length:
            values = {static_cast<uint32_t>(bytes.size()) - 1, static_cast<uint32_t>(bytes.size()) + 1, 0, 65535};
            break;
        case Kind::zone_count: values = {0, 1, 24, 25, 255}; break;
        case Kind::gap: values = {0, 60000, 60001, 65535}; break;
        case Kind::cart_count: values = {0, 16, 17, 255}; break;
        case Kind::lane: values = {0, 15, 16, 255}; break;
        case Kind::arrival: values = {0, 3600000, 3600001, 4294967295u, 16777216}; break;
        case Kind::step_count: values = {0, 1, 8, 9, 255}; break;
        case Kind::zone:
            values = {0, static_cast<uint32_t>(sheet.zones.size()) - 1, static_cast<uint32_t>(sheet.zones.size()), 23, 24, 255};
            break;
        case Kind::passing: values = {0, 60000, 60001, 65535}; break;
        case Kind::travel: values = {0, 60000, 60001, 65535}; break;
        case Kind::last_travel: values = {0, 1, 256, 60000, 60001}; break;
    }
    put_number(bytes, field.place, field.width, values[random.below(static_cast<uint32_t>(values.size()))]);
    return bytes;
}

// A wrong value that leaves all other fields in place: counts are kept true.
inline Sheet sheet_with_wrong_value(Random& random, Sheet sheet) {
    const uint32_t n = static_cast<uint32_t>(sheet.zones.size());
    if (sheet.carts.empty()) {
        sheet.zones[random.below(n)].cross_gap = 60001;
        return sheet;
    }
    Cart& cart = sheet.carts[random.below(static_cast<uint32_t>(sheet.carts.size()))];
    const uint32_t step = random.below(static_cast<uint32_t>(cart.steps.size()));
    switch (random.below(14)) {
        case 0: sheet.zones[random.below(n)].follow_gap = 60001; break;
        case 1: sheet.zones[random.below(n)].cross_gap = random.between(60001, 65535); break;
        case 2: cart.lane = random.between(16, 255); break;
        case 3: cart.arrival = random.one_in(2) ? 3600001 : random.between(3600001, 3700000); break;
        case 4: cart.arrival = 4294967295u; break;
        case 5: cart.steps.clear(); break;                             // step count 0
        case 6:                                                        // nine steps
            while (cart.steps.size() < 9) cart.steps.push_back(Step{random.below(n), 1, 0});
            break;
        case 7: cart.steps[step].zone = n; break;
        case 8: cart.steps[step].zone = random.between(n, 255); break;
        case 9: cart.steps[step].passing = random.between(60001, 65535); break;
        case 10: cart.steps[step].travel = random.between(60001, 65535); break;
        case 11: cart.steps.back().travel = random.between(1, 60000); break;
        case 12:                                                       // a zone twice in a route
            cart.steps.back().travel = random.below(100);
            cart.steps.push_back(Step{cart.steps[step].zone, 1, 0});
            if (cart.steps.size() > 8) cart.steps.erase(cart.steps.begin());
            break;
        case 13:                                                       // 17 carts
            while (sheet.carts.size() < 17) sheet.carts.push_back(sheet.carts[0]);
            break;
    }
    return sheet;
}

// Counts just at and just past their limits, all fields that follow really there.
inline Sheet sheet_with_count_at_limit(Random& random, Sheet sheet) {
    const uint32_t n = static_cast<uint32_t>(sheet.zones.size());
    switch (random.below(6)) {
        case 0:
            while (sheet.zones.size() < 24) sheet.zones.push_back(Zone{1, 2});
            break;
        case 1:
            while (sheet.zones.size() < 25) sheet.zones.push_back(Zone{1, 2});
            break;
        case 2:
            sheet.zones.clear();
            break;
        case 3:
        case 4: {
            const size_t wanted = random.one_in(2) ? 16 : 17;
            while (sheet.carts.size() < wanted) {
                Cart cart;
                cart.lane = random.below(16);
                cart.steps.push_back(Step{random.below(n), random.below(3), 0});
                sheet.carts.push_back(cart);
            }
            sort_arrivals(sheet);
            break;
        }
        default: {                                                     // a route of eight or nine steps
            while (sheet.zones.size() < 9) sheet.zones.push_back(Zone{1, 2});
            if (sheet.carts.empty()) sheet.carts.push_back(Cart());
            Cart& cart = sheet.carts.back();
            cart.steps.clear();
            const uint32_t wanted = random.between(8, 9);
            for (uint32_t s = 0; s < wanted; s++) cart.steps.push_back(Step{s, 1, s + 1 == wanted ? 0u : 1u});
            break;
        }
    }
    return sheet;
}

// Rule 14: some cart arrives before a lower-numbered one of its lane (if there are two carts).
inline Sheet sheet_with_late_front(Random& random, Sheet sheet) {
    if (sheet.carts.size() < 2) return sheet;
    const uint32_t m = static_cast<uint32_t>(sheet.carts.size());
    const uint32_t higher = random.between(1, m - 1);
    const uint32_t lower = random.below(higher);
    sheet.carts[higher].lane = sheet.carts[lower].lane;
    sort_arrivals(sheet);
    const uint32_t arrival = random.between(1, 3600000);
    sheet.carts[lower].arrival = arrival;
    sheet.carts[higher].arrival = random.one_in(3) ? arrival - 1 : random.below(arrival);
    return sheet;                        // other carts of the lane may break the rule as well
}

// Cut, one byte changed, bytes appended, a byte taken out or put in, length fields off.
inline Bytes damaged(Random& random, Bytes bytes) {
    const uint32_t size = static_cast<uint32_t>(bytes.size());
    switch (random.below(10)) {
        case 0:                                                        // cut, length field as it was
            bytes.resize(random.below(size + 1));
            break;
        case 1:                                                        // cut, length field correct
        case 2:
            bytes.resize(random.below(size + 1));
            correct_length(bytes);
            break;
        case 3:                                                        // one byte changed
            if (size > 0) bytes[random.below(size)] = static_cast<uint8_t>(random.below(256));
            break;
        case 4:                                                        // one byte changed by one
            if (size > 0) bytes[random.below(size)] += random.one_in(2) ? 1 : 255;
            break;
        case 5:                                                        // appended, length field as it was
            for (uint32_t i = random.between(1, 5); i > 0; i--) bytes.push_back(static_cast<uint8_t>(random.below(256)));
            break;
        case 6:                                                        // appended, length field correct
            for (uint32_t i = random.between(1, 5); i > 0; i--) bytes.push_back(static_cast<uint8_t>(random.below(3)));
            correct_length(bytes);
            break;
        case 7:                                                        // length field off
            if (size >= 3) {
                const uint32_t wrong[5] = {size - 1, size + 1, 0, random.below(65536), size * 256 % 65536};
                put_number(bytes, 1, 2, wrong[random.below(5)]);
            }
            break;
        case 8:                                                        // one byte out, length field correct
            if (size > 0) bytes.erase(bytes.begin() + random.below(size));
            correct_length(bytes);
            break;
        case 9:                                                        // one byte in, length field correct
            bytes.insert(bytes.begin() + random.below(size + 1), static_cast<uint8_t>(random.below(20)));
            correct_length(bytes);
            break;
    }
    return bytes;
}

// Bytes after the end, length field correct: for an input that breaks a later rule as well.
inline Bytes with_bytes_after(Random& random, Bytes bytes) {
    for (uint32_t i = random.between(1, 3); i > 0; i--) bytes.push_back(static_cast<uint8_t>(random.below(256)));
    correct_length(bytes);
    return bytes;
}

// A byte string that owes nothing to the format, save perhaps version and length.
inline Bytes noise(Random& random, uint32_t longest) {
    Bytes bytes;
    const uint32_t size = random.below(longest + 1);
    const uint32_t top = random.one_in(2) ? 256 : 4;
    for (uint32_t i = 0; i < size; i++) bytes.push_back(static_cast<uint8_t>(random.below(top)));
    if (size > 0 && !random.one_in(4)) bytes[0] = 1;
    if (!random.one_in(4)) correct_length(bytes);
    return bytes;
}

// ---------------------------------------------------------------------------------------------
// Every field of a sheet spoilt, for #104
// ---------------------------------------------------------------------------------------------

// A sheet with something wrong, and what reading it must give.
struct SpoiltSheet {
    Bytes bytes;
    Outcome wanted;
};

// The values just past the field's range and farthest from it, each with its number in document 01's table.
inline std::vector<std::pair<uint32_t, uint32_t>> wrong_values(const Sheet& sheet, size_t length, const FieldPlace& field) {
    const uint32_t n = static_cast<uint32_t>(sheet.zones.size());
    const uint32_t size = static_cast<uint32_t>(length);
    std::vector<std::pair<uint32_t, uint32_t>> wrong;
    switch (field.kind) {
        case Kind::version: wrong = {{2, 0}, {2, 2}, {2, 255}}; break;
        case Kind::length: wrong = {{3, size - 1}, {3, size + 1}, {3, 65535}}; break;
        case Kind::zone_count: wrong = {{4, 0}, {4, 25}, {4, 255}}; break;
        case Kind::gap: wrong = {{5, 60001}, {5, 65535}}; break;
        case Kind::cart_count: wrong = {{6, 17}, {6, 255}}; break;
        case Kind::lane: wrong = {{7, 16}, {7, 255}}; break;
        case Kind::arrival: wrong = {{8, 3600001}, {8, 4294967295u}}; break;
        case Kind::step_count: wrong = {{9, 0}, {9, 9}, {9, 255}}; break;
        case Kind::zone:
            wrong = {{10, n}, {10, 255}};
            for (uint32_t s = 0; s + 1 < field.step; s++) wrong.push_back({11, sheet.carts[field.cart - 1].steps[s].zone});
            break;
        case Kind::passing:
        case Kind::travel: wrong = {{12, 60001}, {12, 65535}}; break;
        case Kind::last_travel: wrong = {{12, 1}, {12, 60000}, {12, 60001}}; break;
    }
    return wrong;
}

// A valid sheet with each field cut at each of its bytes, and with each wrong value; then with a byte after it.
inline std::vector<SpoiltSheet> every_field_spoilt(const Sheet& sheet) {
    std::vector<FieldPlace> fields;
    const Bytes bytes = sheet_to_bytes(sheet, &fields);
    std::vector<SpoiltSheet> spoilt;
    for (const FieldPlace& field : fields) {
        const uint32_t place = static_cast<uint32_t>(field.place);
        for (size_t there = 0; there < field.width; there++) {
            Bytes cut(bytes.begin(), bytes.begin() + static_cast<long>(field.place + there));
            correct_length(cut);
            spoilt.push_back(SpoiltSheet{cut, Outcome{1, place, field.cart, field.step}});
        }
        for (const auto& wrong : wrong_values(sheet, bytes.size(), field)) {
            Bytes changed = bytes;
            put_number(changed, field.place, field.width, wrong.second);
            spoilt.push_back(SpoiltSheet{changed, Outcome{wrong.first, place, field.cart, field.step}});
        }
    }
    Bytes longer = bytes;
    longer.push_back(1);
    correct_length(longer);
    spoilt.push_back(SpoiltSheet{longer, Outcome{13, static_cast<uint32_t>(bytes.size()), 0, 0}});
    return spoilt;
}

// A sheet's carts put on one lane, and each but the first made to arrive before it, alone and with the cart behind it.
inline std::vector<SpoiltSheet> every_cart_early(Sheet sheet) {
    for (Cart& cart : sheet.carts) cart = Cart{3, 1000, cart.steps};
    std::vector<SpoiltSheet> spoilt;
    for (uint32_t c = 1; c < sheet.carts.size(); c++) {
        for (size_t early = 1; early <= 2 && c + early <= sheet.carts.size(); early++) {
            Sheet changed = sheet;
            for (size_t i = 0; i < early; i++) changed.carts[c + i].arrival = 999 - static_cast<uint32_t>(i);
            std::vector<FieldPlace> fields;
            const Bytes bytes = sheet_to_bytes(changed, &fields);
            for (const FieldPlace& field : fields) {
                if (field.kind != Kind::arrival || field.cart != c + 1) continue;
                spoilt.push_back(SpoiltSheet{bytes, Outcome{14, static_cast<uint32_t>(field.place), c + 1, 0}});
            }
        }
    }
    return spoilt;
}

// Both of a sheet.
inline std::vector<SpoiltSheet> spoilt_sheets(const Sheet& sheet) {
    std::vector<SpoiltSheet> spoilt = every_field_spoilt(sheet);
    for (const SpoiltSheet& early : every_cart_early(sheet)) spoilt.push_back(early);
    return spoilt;
}

// ---------------------------------------------------------------------------------------------
// Plans
// ---------------------------------------------------------------------------------------------

// The carts that visit each zone, by number.
inline Lists visitors_of(const Sheet& sheet) {
    Lists lists(sheet.zones.size());
    for (uint32_t z = 0; z < sheet.zones.size(); z++) {
        for (uint32_t c = 0; c < sheet.carts.size(); c++) {
            if (independent::step_in_route(sheet.carts[c], z) >= 0) lists[z].push_back(c);
        }
    }
    return lists;
}

// Puts the carts of each lane into the order of their numbers, leaving the lanes where they are.
inline void sort_lanes(const Sheet& sheet, std::vector<uint32_t>& list) {
    for (uint32_t lane = 0; lane < 16; lane++) {
        std::vector<uint32_t> carts;
        for (uint32_t cart : list) {
            if (sheet.carts[cart].lane == lane) carts.push_back(cart);
        }
        std::sort(carts.begin(), carts.end());
        size_t next = 0;
        for (uint32_t& cart : list) {
            if (sheet.carts[cart].lane == lane) {
                cart = carts[next];
                next++;
            }
        }
    }
}

// Any order in each zone, lanes kept: readable, often locked.
inline Lists shuffled_lists(Random& random, const Sheet& sheet) {
    Lists lists = visitors_of(sheet);
    for (std::vector<uint32_t>& list : lists) {
        random.shuffle(list);
        sort_lanes(sheet, list);
    }
    return lists;
}

// Any order in each zone, lanes not heeded: often 21.
inline Lists careless_lists(Random& random, const Sheet& sheet) {
    Lists lists = visitors_of(sheet);
    for (std::vector<uint32_t>& list : lists) random.shuffle(list);
    return lists;
}

// One order of all carts, the same in each zone: never locked.
inline Lists one_order_lists(Random& random, const Sheet& sheet) {
    std::vector<uint32_t> order;
    for (uint32_t c = 0; c < sheet.carts.size(); c++) order.push_back(c);
    random.shuffle(order);
    sort_lanes(sheet, order);
    Lists lists(sheet.zones.size());
    for (uint32_t z = 0; z < sheet.zones.size(); z++) {
        for (uint32_t cart : order) {
            if (independent::step_in_route(sheet.carts[cart], z) >= 0) lists[z].push_back(cart);
        }
    }
    return lists;
}

// The same with a few neighbours of different lanes changed over: sometimes locked.
inline Lists nearly_one_order_lists(Random& random, const Sheet& sheet) {
    Lists lists = one_order_lists(random, sheet);
    const uint32_t swaps = random.between(1, 4);
    for (uint32_t i = 0; i < swaps; i++) {
        std::vector<uint32_t>& list = lists[random.below(static_cast<uint32_t>(lists.size()))];
        if (list.size() < 2) continue;
        const uint32_t at = random.below(static_cast<uint32_t>(list.size()) - 1);
        if (sheet.carts[list[at]].lane != sheet.carts[list[at + 1]].lane) std::swap(list[at], list[at + 1]);
    }
    return lists;
}

// A plan that breaks a rule of reading, mostly 19, with the length field correct.
inline Bytes spoilt_plan(Random& random, const Sheet& sheet, Lists lists) {
    const uint32_t n = static_cast<uint32_t>(lists.size());
    const uint32_t m = static_cast<uint32_t>(sheet.carts.size());
    std::vector<uint32_t>& list = lists[random.below(n)];
    Bytes bytes;
    switch (random.below(12)) {
        case 0:                                                        // one cart too many
            list.insert(list.begin() + random.below(static_cast<uint32_t>(list.size()) + 1), random.below(m + 1));
            return plan_to_bytes(lists);
        case 1:                                                        // one cart too few
            if (!list.empty()) list.erase(list.begin() + random.below(static_cast<uint32_t>(list.size())));
            return plan_to_bytes(lists);
        case 2:                                                        // a cart twice, another missing
            if (list.size() >= 2) list[random.between(1, static_cast<uint32_t>(list.size()) - 1)] = list[0];
            return plan_to_bytes(lists);
        case 3:                                                        // a cart that may not visit the zone
            if (!list.empty()) list[random.below(static_cast<uint32_t>(list.size()))] = random.below(m + 1);
            return plan_to_bytes(lists);
        case 4:                                                        // no cart has that number
            if (!list.empty()) list[random.below(static_cast<uint32_t>(list.size()))] = random.between(m, 255);
            return plan_to_bytes(lists);
        case 5:                                                        // a zone too many
            lists.push_back(std::vector<uint32_t>());
            return plan_to_bytes(lists);
        case 6:                                                        // a zone too few
            lists.pop_back();
            return plan_to_bytes(lists);
        case 7:                                                        // two zones changed over
            std::swap(lists[random.below(n)], lists[random.below(n)]);
            return plan_to_bytes(lists);
        case 8:                                                        // bytes after the last list
            bytes = plan_to_bytes(lists);
            for (uint32_t i = random.between(1, 3); i > 0; i--) bytes.push_back(static_cast<uint8_t>(random.below(3)));
            correct_length(bytes);
            return bytes;
        case 9:                                                        // cut, length correct
            bytes = plan_to_bytes(lists);
            bytes.resize(random.below(static_cast<uint32_t>(bytes.size())));
            correct_length(bytes);
            return bytes;
        case 10:                                                       // version
            bytes = plan_to_bytes(lists);
            bytes[0] = random.one_in(2) ? 0 : 2;
            return bytes;
        default:                                                       // a count off by one, no more
            bytes = plan_to_bytes(lists);
            bytes[4] += random.one_in(2) ? 1 : 255;
            return bytes;
    }
}

// A crossing with so many rings, each over zones of its own, and carts that wait for a ring without
// being in it. Cart numbers and zone numbers are mixed. Gives the sheet and its plan.
inline Sheet sheet_with_rings(Random& random, uint32_t rings, uint32_t longest, Lists& lists) {
    struct Planned {
        std::vector<uint32_t> route;
    };
    std::vector<Planned> carts;
    std::vector<std::vector<size_t>> passing;                  // for each zone the planned carts in order
    for (uint32_t r = 0; r < rings; r++) {
        const uint32_t length = random.between(2, longest);
        const uint32_t first_zone = static_cast<uint32_t>(passing.size());
        const size_t first_cart = carts.size();
        for (uint32_t i = 0; i < length; i++) {
            // cart i goes from zone i into zone i + 1, where cart i + 1 is ahead of it
            carts.push_back(Planned{{first_zone + i, first_zone + (i + 1) % length}});
            passing.push_back({first_cart + i, first_cart + (i + length - 1) % length});
        }
    }
    const uint32_t others = random.below(std::min(3u, 17 - static_cast<uint32_t>(carts.size())));
    for (uint32_t i = 0; i < others; i++) {
        const uint32_t zone = random.below(static_cast<uint32_t>(passing.size()));
        std::vector<size_t>& list = passing[zone];
        list.insert(list.begin() + random.below(static_cast<uint32_t>(list.size()) + 1), carts.size());
        carts.push_back(Planned{{zone}});
    }
    if (random.one_in(2)) passing.push_back({});               // a zone nobody visits

    std::vector<uint32_t> number;                              // number of each planned cart
    for (uint32_t c = 0; c < carts.size(); c++) number.push_back(c);
    random.shuffle(number);
    std::vector<uint32_t> zone_number;
    for (uint32_t z = 0; z < passing.size(); z++) zone_number.push_back(z);
    random.shuffle(zone_number);

    Sheet sheet;
    for (size_t z = 0; z < passing.size(); z++) sheet.zones.push_back(Zone{random.below(100), random.below(100)});
    sheet.carts.resize(carts.size());
    for (size_t c = 0; c < carts.size(); c++) {
        Cart& cart = sheet.carts[number[c]];
        cart.lane = number[c];
        cart.arrival = random.below(500);
        for (size_t s = 0; s < carts[c].route.size(); s++) {
            cart.steps.push_back(Step{zone_number[carts[c].route[s]], random.below(300),
                                      s + 1 == carts[c].route.size() ? 0 : random.below(100)});
        }
    }
    lists.assign(passing.size(), {});
    for (size_t z = 0; z < passing.size(); z++) {
        for (size_t c : passing[z]) lists[zone_number[z]].push_back(number[c]);
    }
    return sheet;
}

// ---------------------------------------------------------------------------------------------
// Records
// ---------------------------------------------------------------------------------------------

inline Record record_of(const Positions& positions) {
    Record record;
    for (size_t c = 0; c < positions.size(); c++) {
        record.positions[c] = static_cast<uint8_t>(positions[c]);
        record.made += positions[c];
    }
    return record;
}

// A record reached by permitted moves taken at random (also under a locked plan); without the stop line it may be one that
// only the base reaches.
inline Record record_by_random_run(Random& random, const Sheet& sheet, const Lists& lists, bool stop_line = true) {
    const Orders orders = independent::orders_of_lists(lists);
    const uint32_t m = static_cast<uint32_t>(sheet.carts.size());
    Positions positions(m, 0);
    const uint32_t all = independent::count_moves(sheet);
    uint32_t wanted = random.below(all + 1);
    if (random.one_in(6)) wanted = all;
    for (uint32_t made = 0; made < wanted; made++) {
        std::vector<uint32_t> permitted;
        for (uint32_t c = 0; c < m; c++) {
            if (independent::is_permitted(sheet, orders, positions, c, stop_line)) permitted.push_back(c);
        }
        if (permitted.empty()) break;
        positions[permitted[random.below(static_cast<uint32_t>(permitted.size()))]]++;
    }
    return record_of(positions);
}

// A record with something wrong (now and then it is still reachable: then it says nothing else).
inline Record spoilt_record(Random& random, const Sheet& sheet, Record record) {
    const uint32_t m = static_cast<uint32_t>(sheet.carts.size());
    const uint32_t cart = m == 0 ? 0 : random.below(m);
    switch (random.below(9)) {
        case 0:                                                        // one position further, count too
            record.positions[cart]++;
            record.made++;
            break;
        case 1:                                                        // one position back, count too
            if (record.positions[cart] > 0) {
                record.positions[cart]--;
                record.made--;
            }
            break;
        case 2: record.positions[cart]++; break;                       // count not changed
        case 3: record.made++; break;                                  // wrong count
        case 4: record.made--; break;                                  // wrong count, perhaps 2^32 - 1
        case 5:                                                        // out of range
            if (m > 0) {
                const uint32_t before = record.positions[cart];
                const uint32_t out = static_cast<uint32_t>(sheet.carts[cart].steps.size()) + 1;
                const uint32_t beyond = random.one_in(3) ? 255 : out + 1;
                record.positions[cart] = static_cast<uint8_t>(beyond);
                record.made = record.made - before + beyond;
            }
            break;
        case 6:                                                        // an absent cart not 0
            if (m < 16) {
                record.positions[random.between(m, 15)] = 1;
                if (random.one_in(2)) record.made++;
            }
            break;
        case 7:                                                        // positions at random, count right
            record = Record();
            for (uint32_t c = 0; c < m; c++) {
                record.positions[c] = static_cast<uint8_t>(random.below(static_cast<uint32_t>(sheet.carts[c].steps.size()) + 2));
                record.made += record.positions[c];
            }
            break;
        default:                                                       // all 256 further: count differs by 256
            record.made += random.one_in(2) ? 256 : 65536;
            break;
    }
    return record;
}

inline Record random_record(Random& random) {
    Record record;
    for (uint8_t& position : record.positions) {
        if (random.one_in(2)) position = static_cast<uint8_t>(random.below(random.one_in(2) ? 256 : 4));
    }
    record.made = random.one_in(2) ? random.below(100) : static_cast<uint32_t>(random.engine());
    return record;
}

// ---------------------------------------------------------------------------------------------
// Chains for #105
// ---------------------------------------------------------------------------------------------

// A crossing, and a record in which these carts are each held by the next and the last may move.
struct Chained {
    Sheet sheet;
    Lists lists;
    Record record;
    std::vector<uint32_t> chain;
};

// What a chain is made of: carts on the lane behind each other, and carts that wait for the next one's zone.
enum class Links { zones, lanes, mixed };

// A chain of so many carts in runs, each run on a lane of its own. In a run each cart is held on the lane by the next; the run's
// last cart wants a zone in which the next run's first cart is ahead of it. Cart, zone and lane numbers are mixed.
class ChainMaker {
public:
    ChainMaker(Random& the_random, uint32_t the_length, Links the_links) : random(the_random), length(the_length), links(the_links) {}

    Chained make() {
        while (carts.size() < length) add_run();
        const uint32_t others = random.below(17 - length);
        for (uint32_t i = 0; i < others; i++) add_other();
        return numbered();
    }

private:
    struct Planned {
        std::vector<uint32_t> route;
        uint32_t position;
    };
    Random& random;
    const uint32_t length;
    const Links links;
    std::vector<Planned> carts;                                // those of the chain first
    std::vector<std::vector<size_t>> passing;                  // for each zone its carts, first through first
    std::vector<std::vector<size_t>> lanes;                    // for each lane its carts, the front one first
    int wanted = -1;                                           // the zone that the last run's last cart wants

    uint32_t new_zone() {
        passing.push_back({});
        return static_cast<uint32_t>(passing.size()) - 1;
    }

    // Whether a zone more leaves one for each cart of the chain that is still to come.
    bool has_zone_to_spare() const { return passing.size() + (length - carts.size()) < 24; }

    uint32_t size_of_run() {
        const uint32_t rest = length - static_cast<uint32_t>(carts.size());
        if (links == Links::zones) return 1;
        if (links == Links::lanes) return rest;
        return random.one_in(2) ? 1 : random.between(1, std::min(rest, 5u));
    }

    void add_run() {
        const uint32_t size = size_of_run();
        lanes.push_back({});
        for (uint32_t i = 0; i < size; i++) {
            const size_t cart = carts.size();
            const bool only_one = size == 1;
            const bool ends_run = i + 1 == size;
            const bool ends_chain = cart + 1 == length;
            const int held_for = i == 0 ? wanted : -1;         // the zone that the run before wants
            std::vector<uint32_t> route;
            uint32_t position = 0;
            if (held_for >= 0) route.push_back(static_cast<uint32_t>(held_for));
            if (!ends_run) {
                if (route.empty() || (has_zone_to_spare() && random.one_in(2))) route.insert(route.begin(), new_zone());
            } else if (!ends_chain) {
                wanted = static_cast<int>(new_zone());
                const bool inside = only_one && (held_for >= 0 || has_zone_to_spare()) && !random.one_in(3);
                if (inside && route.empty()) route.push_back(new_zone());
                position = inside ? 1 : 0;
                route.insert(inside ? route.end() : route.begin(), static_cast<uint32_t>(wanted));
            } else {
                if (route.empty()) route.push_back(new_zone());
                if (has_zone_to_spare() && random.one_in(2)) route.push_back(new_zone());
                position = only_one ? random.below(2) : 0;
            }
            carts.push_back(Planned{route, position});
            for (uint32_t zone : route) passing[zone].insert(passing[zone].begin(), cart);   // ahead of the one that waits for it
            lanes.back().insert(lanes.back().begin(), cart);
        }
    }

    // A cart of one step that is out, or that waits behind, or between two, and holds none of the chain that is not held anyway.
    void add_other() {
        const size_t cart = carts.size();
        std::vector<size_t>& list = passing[random.below(static_cast<uint32_t>(passing.size()))];
        const uint32_t zone = static_cast<uint32_t>(&list - passing.data());
        const bool own_lane = random.one_in(2);
        if (own_lane) lanes.push_back({});
        std::vector<size_t>& lane = own_lane ? lanes.back() : lanes[random.below(static_cast<uint32_t>(lanes.size()))];
        const bool out = random.one_in(3);
        lane.insert(out ? lane.begin() : lane.end(), cart);
        carts.push_back(Planned{{zone}, out ? 2u : 0u});
        if (out) {
            list.insert(list.begin(), cart);
        } else if (own_lane && list.size() == 2 && carts[list[0]].position < 2 && random.one_in(2)) {
            list.insert(list.begin() + 1, cart);
        } else {
            list.push_back(cart);
        }
    }

    Chained numbered() {
        std::vector<uint32_t> number, zone_number, lane_number;
        for (uint32_t c = 0; c < carts.size(); c++) number.push_back(c);
        for (uint32_t z = 0; z < passing.size(); z++) zone_number.push_back(z);
        for (uint32_t l = 0; l < 16; l++) lane_number.push_back(l);
        random.shuffle(number);
        random.shuffle(zone_number);
        random.shuffle(lane_number);
        // "On one lane, a lower cart number is in front."
        for (const std::vector<size_t>& lane : lanes) {
            std::vector<uint32_t> of_lane;
            for (size_t cart : lane) of_lane.push_back(number[cart]);
            std::sort(of_lane.begin(), of_lane.end());
            for (size_t i = 0; i < lane.size(); i++) number[lane[i]] = of_lane[i];
        }
        Chained made;
        for (size_t z = 0; z < passing.size(); z++) made.sheet.zones.push_back(Zone{random.below(100), random.below(100)});
        made.sheet.carts.resize(carts.size());
        made.lists.resize(passing.size());
        for (size_t c = 0; c < carts.size(); c++) {
            Cart& cart = made.sheet.carts[number[c]];
            cart.arrival = random.below(500);
            for (uint32_t zone : carts[c].route) cart.steps.push_back(Step{zone_number[zone], random.below(300), random.below(100)});
            cart.steps.back().travel = 0;
            made.record.positions[number[c]] = static_cast<uint8_t>(carts[c].position);
            made.record.made += carts[c].position;
        }
        for (size_t l = 0; l < lanes.size(); l++) {
            for (size_t cart : lanes[l]) made.sheet.carts[number[cart]].lane = lane_number[l];
        }
        for (size_t z = 0; z < passing.size(); z++) {
            for (size_t cart : passing[z]) made.lists[zone_number[z]].push_back(number[cart]);
        }
        sort_arrivals(made.sheet);
        for (size_t c = 0; c < length; c++) made.chain.push_back(number[c]);
        return made;
    }
};

inline Chained random_chain(Random& random, uint32_t length) {
    const Links links[4] = {Links::zones, Links::lanes, Links::mixed, Links::mixed};
    return ChainMaker(random, length, links[random.below(4)]).make();
}

// ---------------------------------------------------------------------------------------------
// A whole case: the input of every operation
// ---------------------------------------------------------------------------------------------

struct MoveRequest {
    Record record;
    uint64_t cart = 0;
};
struct Case {
    std::string kind;
    Bytes sheet;
    Bytes plan;
    Bytes write_room;                       // the room as it is lent
    Bytes planning_room;
    std::vector<uint32_t> words;            // the words as they are lent
    std::vector<uint64_t> list_zones;       // zone numbers asked for, any
    std::vector<MoveRequest> move_requests; // cart numbers, any
    std::vector<Bytes> net_rooms;           // as they are lent
    Bytes standard_input;                   // of the judge program
};

// A zone or cart number that is too high: at its limit, of one byte, or of more bits than a byte or a word has.
inline uint64_t number_from(Random& random, uint32_t limit) {
    switch (random.below(8)) {
        case 0: return limit;
        case 1: return 256 + random.below(limit + 1);
        case 2: return (uint64_t{1} << 32) + random.below(limit + 1);
        case 3: return ~uint64_t{0} - random.below(2);
        default: return random.between(limit, 255);
    }
}

inline Bytes random_room(Random& random, uint32_t length) {
    Bytes room;
    for (uint32_t i = 0; i < length; i++) room.push_back(static_cast<uint8_t>(random.below(256)));
    return room;
}

// A long room, quickly made.
inline Bytes patterned_room(Random& random, uint32_t length) {
    Bytes room(length);
    uint8_t next = static_cast<uint8_t>(random.below(256));
    for (uint8_t& byte : room) byte = next += 37;
    return room;
}

// A room length around the length needed.
inline uint32_t random_room_length(Random& random, uint32_t needed) {
    switch (random.below(8)) {
        case 0: return needed == 0 ? 0 : needed - 1;
        case 1: return random.below(needed + 1);
        case 2: return 0;
        case 3:
        case 4: return needed;
        case 5: return needed + 1;
        default: return needed + random.below(40);
    }
}

inline std::vector<uint32_t> random_words(Random& random) {
    uint32_t count = 128;
    switch (random.below(10)) {
        case 0: count = 127; break;
        case 1: count = random.below(128); break;
        case 2: count = 129; break;
        case 3: count = 128 + random.below(10); break;
        default: break;
    }
    std::vector<uint32_t> words;
    for (uint32_t i = 0; i < count; i++) words.push_back(static_cast<uint32_t>(random.engine()));
    return words;
}

inline Bytes random_standard_input(Random& random, const Bytes& sheet, const Bytes& plan) {
    Bytes input = sheet;
    input.insert(input.end(), plan.begin(), plan.end());
    switch (random.below(12)) {
        case 0:                                                        // cut anywhere
            input.resize(random.below(static_cast<uint32_t>(input.size()) + 1));
            break;
        case 1:                                                        // more bytes than belong to the plan
            for (uint32_t i = random.between(1, 4); i > 0; i--) input.push_back(static_cast<uint8_t>(random.below(256)));
            break;
        case 2: {                                                      // the plan fills the 2,048 bytes, or does but for one
            if (sheet.size() + 3 > 2000) break;
            const uint32_t total = random.between(2047, 2049);
            const uint32_t plan_length = 2048 - static_cast<uint32_t>(sheet.size());
            while (input.size() < total) input.push_back(0);
            put_number(input, sheet.size() + 1, 2, plan_length);
            break;
        }
        case 3:                                                        // the sheet's length says 2,048 or a little else
            while (input.size() < 2100) input.push_back(0);
            put_number(input, 1, 2, random.between(2046, 2050));
            break;
        case 4:                                                        // the sheet's length says very little
            put_number(input, 1, 2, random.below(12));
            break;
        case 5:                                                        // the sheet's length takes in the plan
            put_number(input, 1, 2, static_cast<uint32_t>(input.size() % 65536));
            break;
        default: break;
    }
    return input;
}

// The bytes that the program which says why takes after a sheet and a plan.
inline Bytes record_and_cart(const Record& record, uint32_t cart) {
    Bytes bytes(record.positions.begin(), record.positions.end());
    append_number(bytes, 4, record.made);
    append_number(bytes, 1, cart);
    return bytes;
}

// The lists of the planner's plan.
inline Lists planned_lists(const Bytes& sheet_bytes) {
    const independent::PlanningAnswer planning = independent::make_plan(sheet_bytes, Bytes(156, 0));
    const Bytes plan(planning.room.begin(), planning.room.begin() + planning.length);
    return independent::read_plan(sheet_bytes, plan).lists;
}

// Everything but sheet and plan, fitting them where they can be read.
inline void add_other_inputs(Random& random, Case& c) {
    c.write_room = random_room(random, random_room_length(random, static_cast<uint32_t>(std::min<size_t>(c.plan.size(), 200))));
    c.words = random_words(random);
    c.standard_input = random_standard_input(random, c.sheet, c.plan);

    const independent::SheetAnswer sheet = independent::read_sheet(c.sheet);
    const independent::PlanAnswer plan = independent::read_plan(c.sheet, c.plan);
    uint32_t needed = 20;
    if (sheet.number == 0) {
        needed = static_cast<uint32_t>(4 + sheet.sheet.zones.size() + independent::count_steps(sheet.sheet));
    }
    c.planning_room = random_room(random, random_room_length(random, needed));

    const uint32_t net_needed = plan.number == 0 ? static_cast<uint32_t>(independent::net_length(plan.sheet, plan.lists)) : 100;
    c.net_rooms = {patterned_room(random, random_room_length(random, net_needed))};

    if (plan.number != 0) {
        c.list_zones = {random.below(26), 0};
        for (int i = 0; i < 2; i++) c.move_requests.push_back(MoveRequest{random_record(random), random.below(18)});
        return;
    }
    const uint32_t n = static_cast<uint32_t>(plan.lists.size());
    const uint32_t m = static_cast<uint32_t>(plan.sheet.carts.size());
    for (uint32_t z = 0; z < n; z++) c.list_zones.push_back(z);
    c.list_zones.push_back(n);
    c.list_zones.push_back(number_from(random, n));
    c.move_requests.push_back(MoveRequest{Record(), random.below(m + 1)});
    for (int i = 0; i < 4; i++) {
        const Record record = record_by_random_run(random, plan.sheet, plan.lists);
        c.move_requests.push_back(MoveRequest{record, random.below(m + 1)});
        if (random.one_in(8)) c.move_requests.push_back(MoveRequest{record, number_from(random, m)});
        c.move_requests.push_back(MoveRequest{spoilt_record(random, plan.sheet, record), random.below(m + 1)});
    }
    if (random.one_in(10)) c.move_requests.push_back(MoveRequest{random_record(random), random.below(18)});
}

inline Bytes random_plan(Random& random, const Sheet& sheet, const Bytes& sheet_bytes, std::string& kind) {
    switch (random.below(13)) {
        case 0: kind += " one order"; return plan_to_bytes(one_order_lists(random, sheet));
        case 1:
        case 2: kind += " nearly one order"; return plan_to_bytes(nearly_one_order_lists(random, sheet));
        case 3: kind += " careless"; return plan_to_bytes(careless_lists(random, sheet));
        case 4: kind += " spoilt"; return spoilt_plan(random, sheet, shuffled_lists(random, sheet));
        case 5: kind += " damaged"; return damaged(random, plan_to_bytes(shuffled_lists(random, sheet)));
        case 6: kind += " planned"; return plan_to_bytes(planned_lists(sheet_bytes));
        case 7: kind += " careless, bytes after"; return with_bytes_after(random, plan_to_bytes(careless_lists(random, sheet)));
        default: kind += " shuffled"; return plan_to_bytes(shuffled_lists(random, sheet));
    }
}

// A valid sheet of this shape with a plan of any kind.
inline Case case_with_valid_sheet(Random& random, const Shape& shape) {
    Case c;
    c.kind = "valid sheet,";
    const Sheet sheet = random_sheet(random, shape);
    c.sheet = sheet_to_bytes(sheet);
    c.plan = random_plan(random, sheet, c.sheet, c.kind);
    add_other_inputs(random, c);
    return c;
}

// A sheet with something wrong, most of the time, and a plan that would have fitted it.
inline Case case_with_damaged_sheet(Random& random, const Shape& shape) {
    Case c;
    const Sheet sheet = random_sheet(random, shape);
    c.plan = plan_to_bytes(shuffled_lists(random, sheet));
    switch (random.below(8)) {
        case 0:
            c.kind = "damaged sheet";
            c.sheet = damaged(random, sheet_to_bytes(sheet));
            break;
        case 1:
            c.kind = "sheet with one field at a limit";
            c.sheet = sheet_with_limit_value(random, sheet);
            break;
        case 2:
            c.kind = "sheet with a wrong value";
            c.sheet = sheet_to_bytes(sheet_with_wrong_value(random, sheet));
            break;
        case 3:
            c.kind = "sheet with a late front cart";
            c.sheet = sheet_to_bytes(sheet_with_late_front(random, sheet));
            break;
        case 4:
            c.kind = "two damages";
            c.sheet = damaged(random, damaged(random, sheet_to_bytes(sheet)));
            if (random.one_in(2)) c.plan = damaged(random, c.plan);
            break;
        case 5:
            c.kind = "sheet with a count at or past its limit";
            c.sheet = sheet_to_bytes(sheet_with_count_at_limit(random, sheet));
            if (independent::read_sheet(c.sheet).number == 0) {
                c.plan = plan_to_bytes(shuffled_lists(random, independent::read_sheet(c.sheet).sheet));
            }
            break;
        case 6:
            c.kind = "sheet with a late front cart, bytes after";
            c.sheet = with_bytes_after(random, sheet_to_bytes(sheet_with_late_front(random, sheet)));
            break;
        default:
            c.kind = "noise";
            c.sheet = noise(random, 60);
            c.plan = noise(random, 30);
            break;
    }
    add_other_inputs(random, c);
    return c;
}

// A valid sheet and a plan with something wrong, most of the time.
inline Case case_with_damaged_plan(Random& random, const Shape& shape) {
    Case c;
    const Sheet sheet = random_sheet(random, shape);
    c.sheet = sheet_to_bytes(sheet);
    switch (random.below(8)) {
        case 0:
            c.kind = "plan with a lane wrong";
            c.plan = plan_to_bytes(careless_lists(random, sheet));
            break;
        case 1:
            c.kind = "plan with a lane wrong, bytes after";
            c.plan = with_bytes_after(random, plan_to_bytes(careless_lists(random, sheet)));
            break;
        case 2:
            c.kind = "plan damaged twice";
            c.plan = damaged(random, spoilt_plan(random, sheet, shuffled_lists(random, sheet)));
            break;
        case 3:
            c.kind = "plan of noise";
            c.plan = noise(random, 30);
            break;
        case 4:
        case 5:
            c.kind = "spoilt plan";
            c.plan = spoilt_plan(random, sheet, shuffled_lists(random, sheet));
            break;
        default:
            c.kind = "damaged plan";
            c.plan = damaged(random, plan_to_bytes(shuffled_lists(random, sheet)));
            break;
    }
    add_other_inputs(random, c);
    return c;
}

// Any case of this shape: about one in five has something wrong with the sheet.
inline Case random_case(Random& random, const Shape& shape) {
    return random.one_in(5) ? case_with_damaged_sheet(random, shape) : case_with_valid_sheet(random, shape);
}

// Rings, most of them still there after the plan was perhaps damaged a little.
inline Case case_with_rings(Random& random, uint32_t rings, uint32_t longest) {
    Case c;
    c.kind = "rings";
    Lists lists;
    const Sheet sheet = sheet_with_rings(random, rings, longest, lists);
    if (random.one_in(4)) {
        std::vector<uint32_t>& list = lists[random.below(static_cast<uint32_t>(lists.size()))];
        random.shuffle(list);                                  // lanes all differ
    }
    c.sheet = sheet_to_bytes(sheet);
    c.plan = plan_to_bytes(lists);
    add_other_inputs(random, c);
    return c;
}

// 65,536 bytes too many, so that the length field is right in its sixteen bits and yet wrong.
inline Case very_long_case(Random& random) {
    Case c = case_with_valid_sheet(random, small_shape());
    c.kind = "very long";
    Bytes& longer = random.one_in(2) ? c.sheet : c.plan;
    longer.resize(longer.size() + 65536, 0);
    return c;
}

// A sheet for the planners with a plan of any kind.
inline Case planners_case(Random& random) {
    Case c;
    c.kind = "sheet for the planners,";
    const Sheet sheet = random_sheet_for_planners(random);
    c.sheet = sheet_to_bytes(sheet);
    c.plan = random_plan(random, sheet, c.sheet, c.kind);
    add_other_inputs(random, c);
    return c;
}

// Whether the stop line alone locks this plan.
inline bool line_locks(const Sheet& sheet, const Lists& lists) {
    const Orders orders = independent::orders_of_lists(lists);
    const size_t moves = independent::count_moves(sheet);
    return independent::order_of_moves(sheet, orders, false).size() == moves && independent::order_of_moves(sheet, orders).size() < moves;
}

// A sheet for the stop line, often with a plan that the line alone locks; every cart is asked for at the start, and in
// records that only the base reaches.
inline Case line_case(Random& random) {
    Case c;
    c.kind = "sheet for the stop line,";
    const Sheet sheet = random_sheet_for_line(random);
    c.sheet = sheet_to_bytes(sheet);
    c.plan = random_plan(random, sheet, c.sheet, c.kind);
    for (uint32_t tried = random.one_in(2) ? 20 : 0; tried > 0; tried--) {
        const Lists lists = shuffled_lists(random, sheet);
        if (!line_locks(sheet, lists)) continue;
        c.plan = plan_to_bytes(lists);
        break;
    }
    add_other_inputs(random, c);
    for (uint32_t cart = 0; cart < sheet.carts.size(); cart++) c.move_requests.push_back(MoveRequest{Record(), cart});
    const independent::PlanAnswer plan = independent::read_plan(c.sheet, c.plan);
    for (int i = 0; plan.number == 0 && i < 3; i++) {
        const Record record = record_by_random_run(random, sheet, plan.lists, false);
        c.move_requests.push_back(MoveRequest{record, random.below(static_cast<uint32_t>(sheet.carts.size()))});
    }
    return c;
}

// A chain of so many carts: each of its carts is asked about, and others, and in damaged records.
inline Case chain_case(Random& random, uint32_t length) {
    Case c;
    c.kind = "chain of " + std::to_string(length);
    const Chained made = random_chain(random, length);
    c.sheet = sheet_to_bytes(made.sheet);
    c.plan = plan_to_bytes(made.lists);
    add_other_inputs(random, c);
    for (uint32_t cart = 0; cart <= made.sheet.carts.size(); cart++) c.move_requests.push_back(MoveRequest{made.record, cart});
    for (uint32_t cart : made.chain) c.move_requests.push_back(MoveRequest{spoilt_record(random, made.sheet, made.record), cart});
    c.move_requests.push_back(MoveRequest{made.record, number_from(random, static_cast<uint32_t>(made.sheet.carts.size()))});
    return c;
}

inline Case random_small_case(Random& random) {
    if (random.one_in(20)) return planners_case(random);
    if (random.one_in(12)) return line_case(random);
    if (random.one_in(25)) return case_with_rings(random, random.between(1, 3), 3);
    if (random.one_in(1000)) return very_long_case(random);
    switch (random.below(4)) {
        case 0: return random_case(random, Shape{2, 4, 2, 4, 3, true});       // long routes
        case 1: return random_case(random, Shape{2, 3, 3, 4, 3, true});       // and more carts
        default: return random_case(random, small_shape());
    }
}
// Small sheets, and now and then one of any size.
inline Case damaged_sheet_case(Random& random) {
    return case_with_damaged_sheet(random, random.one_in(10) ? large_shape() : small_shape());
}
inline Case damaged_plan_case(Random& random) { return case_with_damaged_plan(random, small_shape()); }

inline Case random_dense_case(Random& random) {
    if (random.one_in(10)) return case_with_rings(random, 1, 16);
    if (random.one_in(3)) return random_case(random, dense_shape());
    Case c;
    c.kind = "sheet for cuts,";
    const Sheet sheet = random_sheet_for_cuts(random);
    c.sheet = sheet_to_bytes(sheet);
    c.plan = random_plan(random, sheet, c.sheet, c.kind);
    add_other_inputs(random, c);
    return c;
}
inline Case random_large_case(Random& random) {
    switch (random.below(6)) {
        case 0: return random_case(random, largest_shape());
        case 1: return random_case(random, crowded_shape());
        default: return random_case(random, large_shape());
    }
}

// ---------------------------------------------------------------------------------------------
// What must occur
// ---------------------------------------------------------------------------------------------

// What the planners of #101 have to be tried on; a run that never saw one of these has failed.
enum PlannersSituation {
    plans_differ_finish_equal, first_come_earlier, removal_earlier, arrivals_equal, one_lane, no_carts, planners_situations
};
constexpr const char* planners_situation_names[planners_situations] = {
    "both finish together with different plans", "first come finishes earlier", "removal finishes earlier",
    "equal arrivals in a shared zone", "all carts on one lane", "no carts"};

inline bool share_a_zone(const Cart& a, const Cart& b) {
    for (const Step& step : a.steps) {
        if (independent::step_in_route(b, step.zone) >= 0) return true;
    }
    return false;
}

// The situations of a sheet that both planners have planned into the same room.
inline std::vector<PlannersSituation> situations_of(const Sheet& sheet, const independent::PlanningAnswer& removal,
                                                    const independent::PlanningAnswer& first_come) {
    std::vector<PlannersSituation> found;
    if (first_come.finish < removal.finish) found.push_back(first_come_earlier);
    if (removal.finish < first_come.finish) found.push_back(removal_earlier);
    if (removal.finish == first_come.finish && removal.room != first_come.room) found.push_back(plans_differ_finish_equal);
    bool equal = false;
    bool one = sheet.carts.size() >= 2;
    for (const Cart& a : sheet.carts) {
        for (const Cart& b : sheet.carts) {
            if (a.lane == b.lane) continue;
            one = false;
            if (a.arrival == b.arrival && share_a_zone(a, b)) equal = true;
        }
    }
    if (equal) found.push_back(arrivals_equal);
    if (one) found.push_back(one_lane);
    if (sheet.carts.empty()) found.push_back(no_carts);
    return found;
}

// What the stop line of #102 has to be tried on; a run that never saw one of these has failed.
enum LineSituation {
    locked_by_line, ring_over_lane, second_asked_first, third_asked_second, lane_and_list_hold, only_base_reaches, line_decides_time,
    lane_0_absent_judged, lane_0_absent_planned, three_on_lane_judged, three_on_lane_planned, line_situations
};
constexpr const char* line_situation_names[line_situations] = {
    "locked by the line alone", "a ring over a lane", "second of a lane asked first, no zone in common, one ahead",
    "third of a lane asked, the first gone, the second not", "held by lane and list", "record that only the base reaches",
    "the line alone decides a time", "lane 0 with absent carts, judged", "lane 0 with absent carts, planned",
    "three on a lane, judged", "three on a lane, planned"};

inline bool lane_0_with_absent_carts(const Sheet& sheet) {
    for (const Cart& cart : sheet.carts) {
        if (cart.lane == 0 && sheet.carts.size() < 16) return true;
    }
    return false;
}

inline bool three_on_a_lane(const Sheet& sheet) {
    uint32_t carts[16] = {};
    for (const Cart& cart : sheet.carts) {
        if (++carts[cart.lane] == 3) return true;
    }
    return false;
}

// Whether some first entering time is later than arrival and the carts ahead in the zone ask for.
inline bool line_decides(const Sheet& sheet, const Lists& lists, const std::vector<uint32_t>& words) {
    for (uint32_t c = 0; c < sheet.carts.size(); c++) {
        uint32_t without = sheet.carts[c].arrival;
        const uint32_t zone = sheet.carts[c].steps[0].zone;
        for (uint32_t ahead : lists[zone]) {
            if (ahead == c) break;
            const std::vector<Step>& route = sheet.carts[ahead].steps;
            const size_t at = static_cast<size_t>(independent::step_in_route(sheet.carts[ahead], zone));
            const uint32_t leave = at + 1 == route.size() ? words[8 * ahead + at] + route[at].passing
                                                          : words[8 * ahead + at + 1] - route[at].travel;
            without = std::max(without, leave + static_cast<uint32_t>(independent::gap_between(sheet, zone, ahead, c)));
        }
        if (words[8 * c] > without) return true;
    }
    return false;
}

// The situations of a planned sheet.
inline std::vector<LineSituation> line_situations_planned(const Sheet& sheet) {
    std::vector<LineSituation> found;
    if (lane_0_with_absent_carts(sheet)) found.push_back(lane_0_absent_planned);
    if (three_on_a_lane(sheet)) found.push_back(three_on_lane_planned);
    return found;
}

// The situations of a readable plan that was judged with room for its times.
inline std::vector<LineSituation> line_situations_judged(const Sheet& sheet, const Lists& lists, const independent::JudgeAnswer& answer) {
    std::vector<LineSituation> found;
    if (answer.number == 22) {
        if (line_locks(sheet, lists)) found.push_back(locked_by_line);
        for (size_t i = 0; i < answer.ring.size(); i++) {
            const independent::RingCart& here = answer.ring[i];
            const uint32_t next = answer.ring[(i + 1) % answer.ring.size()].cart;
            bool in_list = false;
            for (uint32_t listed : lists[here.zone]) in_list = in_list || listed == next;
            if (!in_list) {                                            // so it is the lane that it waits for
                found.push_back(ring_over_lane);
                break;
            }
        }
    } else if (line_decides(sheet, lists, answer.words)) {
        found.push_back(line_decides_time);
    }
    if (lane_0_with_absent_carts(sheet)) found.push_back(lane_0_absent_judged);
    if (three_on_a_lane(sheet)) found.push_back(three_on_lane_judged);
    return found;
}

// The situations of a request under an accepted plan.
inline std::vector<LineSituation> line_situations_moved(const Sheet& sheet, const Lists& lists, const MoveRequest& request,
                                                        const independent::MoveAnswer& answer) {
    std::vector<LineSituation> found;
    Positions positions;
    for (uint32_t c = 0; c < sheet.carts.size(); c++) positions.push_back(request.record.positions[c]);
    if (answer.number == 26) {
        const uint32_t cart = static_cast<uint32_t>(request.cart);
        if (!independent::is_held_by_lane(sheet, positions, cart)) return found;
        const uint32_t front = static_cast<uint32_t>(independent::cart_in_front(sheet, cart));
        const int before = independent::cart_in_front(sheet, front);
        if (answer.ahead == 1 && !share_a_zone(sheet.carts[front], sheet.carts[cart])) found.push_back(second_asked_first);
        if (before >= 0 && positions[static_cast<size_t>(before)] > 0) found.push_back(third_asked_second);
        if (answer.ahead >= 2) found.push_back(lane_and_list_hold);
    }
    if (answer.number == 23) {
        Record counted = record_of(positions);
        const bool told = counted.positions == request.record.positions && counted.made == request.record.made;
        if (told && independent::run_reaches(sheet, independent::orders_of_lists(lists), positions, false)) found.push_back(only_base_reaches);
    }
    return found;
}

// What the chain of #105 has to be tried on; a run that never saw one of these has failed.
enum ChainSituation {
    last_moves_out, last_moves_into_zone, last_on_lane, lane_link_first, lane_link_in_middle, lane_link_last, links_over_two_lanes,
    lane_before_list, first_of_several, chain_situations
};
constexpr const char* chain_situation_names[chain_situations] = {
    "the last moves out", "the last moves on into a zone", "the last leaves its lane", "a lane's link first", "a lane's link in the middle",
    "a lane's link last", "links over two lanes", "the lane's cart pointed to before another of the list", "the first of several in the list"};

// The situations of a chain in a record that a run reaches.
inline std::vector<ChainSituation> situations_of(const Sheet& sheet, const Lists& lists, const Record& record,
                                                 const independent::ChainAnswer& answer) {
    bool found[chain_situations] = {};
    Positions positions;
    for (uint32_t c = 0; c < sheet.carts.size(); c++) positions.push_back(record.positions[c]);
    const uint32_t last = answer.links.back().cart;
    found[last_moves_out] = answer.out;
    found[last_moves_into_zone] = !answer.out && positions[last] > 0;
    found[last_on_lane] = positions[last] == 0;
    const size_t links = answer.links.size() - 1;
    std::vector<uint32_t> lanes;
    for (size_t i = 0; i < links; i++) {
        const uint32_t cart = answer.links[i].cart, next = answer.links[i + 1].cart, zone = answer.links[i].zone;
        std::vector<uint32_t> ahead;                           // in the zone's list, and not gone
        for (uint32_t listed : lists[zone]) {
            if (listed == cart) break;
            if (!independent::has_left(sheet, positions, listed, zone)) ahead.push_back(listed);
        }
        if (!independent::is_held_by_lane(sheet, positions, cart)) {
            if (ahead.size() > 1) found[first_of_several] = true;
            continue;
        }
        if (i == 0) found[lane_link_first] = true;
        if (i > 0 && i + 1 < links) found[lane_link_in_middle] = true;
        if (i + 1 == links) found[lane_link_last] = true;
        if (!ahead.empty() && ahead[0] != next) found[lane_before_list] = true;
        for (uint32_t lane : lanes) {
            if (lane != sheet.carts[cart].lane) found[links_over_two_lanes] = true;
        }
        lanes.push_back(sheet.carts[cart].lane);
    }
    std::vector<ChainSituation> situations;
    for (int s = 0; s < chain_situations; s++) {
        if (found[s]) situations.push_back(static_cast<ChainSituation>(s));
    }
    return situations;
}

// What the net of #106 has to be tried on; a run that never saw one of these has failed.
enum NetSituation {
    net_accepted, net_locked, net_without_carts, net_longest, net_with_lines, line_and_pair_between_two, room_exactly_enough, room_one_short,
    room_with_bytes_beyond, net_situations
};
constexpr const char* net_situation_names[net_situations] = {
    "accepted", "locked", "no carts", "the longest text", "places of the stop line", "a line's and a pair's place between two carts",
    "room exactly long enough", "room one byte short", "bytes beyond the text"};

// The situations of a readable plan whose net is to be written in so much room.
inline std::vector<NetSituation> situations_of(const Sheet& sheet, const Lists& lists, size_t room, const independent::NetAnswer& answer) {
    std::vector<NetSituation> found;
    const size_t needed = independent::net_length(sheet, lists);
    if (answer.number == 0) {
        found.push_back(answer.locked ? net_locked : net_accepted);
        if (sheet.carts.empty()) found.push_back(net_without_carts);
        if (answer.length == 80891) found.push_back(net_longest);
        if (room == needed) found.push_back(room_exactly_enough);
        if (room > needed) found.push_back(room_with_bytes_beyond);
    }
    if (answer.number == 28 && room + 1 == needed) found.push_back(room_one_short);
    bool lines = false, both = false;
    for (uint32_t c = 0; c < sheet.carts.size(); c++) {
        const int front = independent::cart_in_front(sheet, c);
        lines = lines || front >= 0;
        both = both || (front >= 0 && independent::step_in_route(sheet.carts[static_cast<size_t>(front)], sheet.carts[c].steps[0].zone) >= 0);
    }
    if (lines) found.push_back(net_with_lines);
    if (both) found.push_back(line_and_pair_between_two);
    return found;
}

// ---------------------------------------------------------------------------------------------
// Every crossing of a tiny size
// ---------------------------------------------------------------------------------------------

// All routes over n zones: every order of every choice of zones, at least one.
inline std::vector<std::vector<uint32_t>> all_routes(uint32_t n) {
    std::vector<std::vector<uint32_t>> routes;
    std::vector<std::vector<uint32_t>> begun;
    for (uint32_t z = 0; z < n; z++) begun.push_back({z});
    for (size_t i = 0; i < begun.size(); i++) {
        const std::vector<uint32_t> route = begun[i];
        routes.push_back(route);
        for (uint32_t z = 0; z < n; z++) {
            bool already = false;
            for (uint32_t zone : route) {
                if (zone == z) already = true;
            }
            if (already) continue;
            std::vector<uint32_t> longer = route;
            longer.push_back(z);
            begun.push_back(longer);
        }
    }
    return routes;
}

// All lanes of m carts up to renaming: lane of cart c is one used before or the next new one.
inline std::vector<std::vector<uint32_t>> all_lanes(uint32_t m) {
    std::vector<std::vector<uint32_t>> done = {{}};
    for (uint32_t c = 0; c < m; c++) {
        std::vector<std::vector<uint32_t>> longer;
        for (const std::vector<uint32_t>& lanes : done) {
            uint32_t used = 0;
            for (uint32_t lane : lanes) used = std::max(used, lane + 1);
            for (uint32_t lane = 0; lane <= used; lane++) {
                std::vector<uint32_t> next = lanes;
                next.push_back(lane);
                longer.push_back(next);
            }
        }
        done = longer;
    }
    return done;
}

// Calls use(sheet, lists, first_of_sheet) for all routes of m carts on n zones with these lanes and
// all plans (every order of every zone's visitors, lanes not heeded). Times are random and small,
// the arrivals valid.
template <class Use>
void for_every_tiny_crossing(Random& random, uint32_t m, uint32_t n, const std::vector<uint32_t>& lanes, Use use) {
    const std::vector<std::vector<uint32_t>> routes = all_routes(n);
    std::vector<size_t> choice(m, 0);                          // route of each cart
    bool more_routes = true;
    while (more_routes) {
        Sheet sheet;
        for (uint32_t z = 0; z < n; z++) sheet.zones.push_back(Zone{random.below(3), random.below(5)});
        for (uint32_t c = 0; c < m; c++) {
            Cart cart;
            cart.lane = lanes[c];
            cart.arrival = random.below(10);
            const std::vector<uint32_t>& route = routes[choice[c]];
            for (size_t s = 0; s < route.size(); s++) {
                cart.steps.push_back(Step{route[s], random.below(6), s + 1 == route.size() ? 0 : random.below(4)});
            }
            sheet.carts.push_back(cart);
        }
        sort_arrivals(sheet);

        Lists lists = visitors_of(sheet);
        bool first = true;
        bool more_plans = true;
        while (more_plans) {
            use(static_cast<const Sheet&>(sheet), static_cast<const Lists&>(lists), first);
            first = false;
            // the next plan: next order of the first zone that has one; the zones before it begin again
            more_plans = false;
            for (std::vector<uint32_t>& list : lists) {
                if (std::next_permutation(list.begin(), list.end())) {
                    more_plans = true;
                    break;
                }
            }
        }

        more_routes = false;
        for (uint32_t c = 0; c < m; c++) {
            choice[c]++;
            if (choice[c] < routes.size()) {
                more_routes = true;
                break;
            }
            choice[c] = 0;
        }
    }
}

}  // namespace cases

#endif
