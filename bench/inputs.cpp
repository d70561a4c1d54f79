#include "inputs.hpp"

#include <algorithm>
#include <cstdlib>
#include <numeric>
#include <random>

using yardstick::CartSet;
using yardstick::Lanes;
using yardstick::only;
using yardstick::Orders;
using yardstick::Sheet;

const Series all_series[3] = {
    {"sizes",
     {{"1 cart, 8 steps, 24 zones", 24, 1, 8, 1},
      {"11 carts, 2 steps, 4 zones", 4, 11, 2, 16},
      {"16 carts, 4 steps, 4 zones", 4, 16, 4, 16},
      {"16 carts, 8 steps, 24 zones", 24, 16, 8, 16},
      {"16 carts, 8 steps, 8 zones, 4 lanes", 8, 16, 8, 4},
      {"16 carts, 8 steps, 8 zones, 960 pairs", 8, 16, 8, own_lane}}},
    {"carts",
     {{"1", 24, 1, 8, 16}, {"2", 24, 2, 8, 16}, {"4", 24, 4, 8, 16}, {"8", 24, 8, 8, 16}, {"12", 24, 12, 8, 16}, {"16", 24, 16, 8, 16}}},
    {"zones", {{"8", 8, 16, 8, 16}, {"12", 12, 16, 8, 16}, {"16", 16, 16, 8, 16}, {"20", 20, 16, 8, 16}, {"24", 24, 16, 8, 16}}},
};

namespace {

class Maker {
 public:
  explicit Maker(unsigned seed) : random_(seed) {}

  unsigned below(unsigned n) { return static_cast<unsigned>(random_() % n); }

  Bytes sheet(const Size& size) {
    Bytes b{1, 0, 0, static_cast<std::uint8_t>(size.zones)};
    for (unsigned z = 0; z < size.zones; ++z) {
      put(b, 2, 50 * below(8));
      put(b, 2, 50 * below(12));
    }
    put(b, 1, size.carts);
    std::uint32_t arrival[16] = {};
    for (unsigned c = 0; c < size.carts; ++c) {
      const unsigned lane = size.lanes == own_lane ? c : below(size.lanes);
      arrival[lane] += 100 * below(10);
      if (size.lanes == own_lane) arrival[lane] = 100 * below(30);
      put(b, 1, lane);
      put(b, 4, arrival[lane]);
      put_route(b, size);
    }
    return with_length(b);
  }

  // The carts in a random order that keeps each lane's; every zone lists them by it, so that the plan is never locked.
  Bytes plan_by_priority(const Sheet& sheet) {
    std::vector<unsigned> order;
    for (CartSet left = only(sheet.carts) - 1; left != 0;) {
      unsigned c = below(16);
      if (!(left >> c & 1)) continue;
      for (unsigned d = 0; d < c; ++d)
        if ((left >> d & 1) && sheet.lane[d] == sheet.lane[c]) c = d;
      order.push_back(c);
      left &= ~only(c);
    }
    return plan(sheet, [&] { return order; });
  }

  // Every zone lists its carts in an order of its own: often locked.
  Bytes plan_at_random(const Sheet& sheet) {
    return plan(sheet, [&] {
      std::vector<unsigned> order(sheet.carts);
      std::iota(order.begin(), order.end(), 0);
      for (unsigned swaps = 0; swaps < 4; ++swaps) {
        if (sheet.carts < 2) break;
        const unsigned i = below(sheet.carts - 1);
        if (sheet.lane[order[i]] != sheet.lane[order[i + 1]]) std::swap(order[i], order[i + 1]);
      }
      return order;
    });
  }

  // So many random permitted moves from the start, or fewer if none is left.
  oblakosh_record record_after(const Sheet& sheet, const Lanes& lanes, const Orders& orders, unsigned moves) {
    oblakosh_record record = {};
    CartSet left[24] = {}, waiting = only(sheet.carts) - 1;
    while (record.made < moves) {
      std::vector<unsigned> free;
      for (unsigned c = 0; c < sheet.carts; ++c) {
        const unsigned at = record.position[c], x = 8 * c + at;
        if (at == 0 && (lanes.same[c] & (only(c) - 1) & waiting)) continue;
        if (at == sheet.steps[c] || (at < sheet.steps[c] && !(orders.ahead[x] & ~left[sheet.zone[x]]))) free.push_back(c);
      }
      if (free.empty()) break;
      const unsigned c = free[below(static_cast<unsigned>(free.size()))];
      waiting &= ~only(c);
      if (record.position[c] != 0) left[sheet.zone[8 * c + record.position[c] - 1]] |= only(c);
      ++record.position[c];
      ++record.made;
    }
    return record;
  }

 private:
  static void put(Bytes& b, unsigned width, std::uint32_t value) {
    while (width-- != 0) b.push_back(static_cast<std::uint8_t>(value >> 8 * width));
  }

  void put_route(Bytes& b, const Size& size) {
    put(b, 1, size.steps);
    std::vector<unsigned> zones(size.zones);
    std::iota(zones.begin(), zones.end(), 0);
    for (unsigned j = 0; j < size.steps; ++j) {
      std::swap(zones[j], zones[j + below(size.zones - j)]);
      put(b, 1, zones[j]);
      put(b, 2, 100 * below(11));
      put(b, 2, j + 1 < size.steps ? 50 * below(9) : 0);
    }
  }

  static Bytes with_length(Bytes b) {
    b[1] = static_cast<std::uint8_t>(b.size() >> 8);
    b[2] = static_cast<std::uint8_t>(b.size());
    return b;
  }

  template <class NextOrder>
  static Bytes plan(const Sheet& sheet, NextOrder next_order) {
    Bytes b{1, 0, 0, static_cast<std::uint8_t>(sheet.zones)};
    for (unsigned z = 0; z < sheet.zones; ++z) {
      const std::size_t count = b.size();
      b.push_back(0);
      for (unsigned c : next_order()) {
        const std::uint8_t* route = sheet.zone + 8 * c;
        if (std::find(route, route + sheet.steps[c], z) == route + sheet.steps[c]) continue;
        b.push_back(static_cast<std::uint8_t>(c));
        ++b[count];
      }
    }
    return with_length(b);
  }

  std::mt19937 random_;
};

yardstick::Lent lent(const Bytes& bytes) { return {bytes.data(), bytes.size()}; }

// The removal rule's plan, by the yardstick.
Bytes plan_by_rule(const Bytes& sheet_bytes) {
  Bytes room(OBLAKOSH_PLAN);
  room.resize(yardstick::plan(lent(sheet_bytes), room.data(), room.size()).length);
  return room;
}

// The sheet's parts one after the other, in document 01's order.
void fill_table(const yardstick::Sheet& sheet, std::uint32_t* table) {
  const auto put = [&table](const auto& part) { table = std::copy(std::begin(part), std::end(part), table); };
  put(sheet.follow);
  put(sheet.cross);
  put(sheet.lane);
  put(sheet.arrival);
  put(sheet.steps);
  put(sheet.zone);
  put(sheet.passing);
  put(sheet.travel);
}

}  // namespace

std::vector<Input> make_inputs(const Size& size, unsigned count, Plans plans) {
  std::vector<Input> inputs(count);
  Maker maker(7 * size.zones + 31 * size.carts + size.lanes);
  for (unsigned n = 0; n < count; ++n) {
    Input& input = inputs[n];
    input.sheet_bytes = maker.sheet(size);
    if (yardstick::read_sheet(lent(input.sheet_bytes), input.sheet).number != 0) std::abort();
    input.plan_bytes = plans == Plans::any ? maker.plan_at_random(input.sheet)
                       : n % 2 == 0        ? plan_by_rule(input.sheet_bytes)
                                           : maker.plan_by_priority(input.sheet);
    const auto read = yardstick::read_plan(lent(input.sheet_bytes), lent(input.plan_bytes), input.sheet, input.lanes, input.orders);
    if (read.number != 0) std::abort();
    fill_table(input.sheet, input.table);
    if (plans == Plans::accepted && yardstick::is_locked(input.sheet, input.lanes, input.orders.ahead)) std::abort();
    input.record = maker.record_after(input.sheet, input.lanes, input.orders, maker.below(yardstick::moves_of(input.sheet.steps)));
    input.cart = maker.below(size.carts);
  }
  return inputs;
}

Input spoiled(Input input, unsigned seed) {
  Maker maker(seed);
  Bytes& bytes = maker.below(2) == 0 ? input.sheet_bytes : input.plan_bytes;
  const unsigned length = static_cast<unsigned>(bytes.size());
  switch (maker.below(8)) {
    case 0: bytes.resize(maker.below(length)); break;
    case 1: bytes.resize(length + 1 + maker.below(9)); break;
    default: bytes[maker.below(length)] = static_cast<std::uint8_t>(maker.below(256)); break;
  }
  // Often the length field is put right, so that what comes after it is read.
  if (bytes.size() > 2 && maker.below(2) == 0) {
    bytes[1] = static_cast<std::uint8_t>(bytes.size() >> 8);
    bytes[2] = static_cast<std::uint8_t>(bytes.size());
  }
  return input;
}

Input asked_otherwise(Input input, unsigned seed) {
  Maker maker(seed);
  input.record = maker.record_after(input.sheet, input.lanes, input.orders, maker.below(yardstick::moves_of(input.sheet.steps) + 1));
  input.cart = maker.below(17);
  const unsigned c = maker.below(16);
  switch (maker.below(6)) {
    case 0: ++input.record.made; break;
    case 1: ++input.record.position[c]; break;
    case 2: ++input.record.position[c], ++input.record.made; break;
    default: break;
  }
  return input;
}
