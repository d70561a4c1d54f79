// The yardstick's reading of sheets and plans: checks 1 to 21, each field tested before the next is taken.
#pragma once

#include <cstddef>
#include <cstdint>
#include <cstring>

namespace yardstick {

using std::size_t;
using CartSet = std::uint32_t;  // bit d for cart d

inline size_t lowest(CartSet set) { return static_cast<size_t>(__builtin_ctzll(set)); }
inline size_t highest(CartSet set) { return 31 - static_cast<size_t>(__builtin_clz(set)); }
inline size_t count(CartSet set) { return static_cast<size_t>(__builtin_popcount(set)); }
inline CartSet rest(CartSet set) { return set & (set - 1); }
inline CartSet first(CartSet set) { return set & -set; }
inline CartSet only(size_t cart) { return CartSet{1} << cart; }

// Bytes that the caller lends.
struct Lent {
  const std::uint8_t* bytes;
  size_t length;
};

struct Sheet {
  unsigned zones, carts;
  std::uint16_t follow[24], cross[24];
  std::uint8_t lane[16];
  std::uint32_t arrival[16];
  std::uint8_t steps[16];
  std::uint8_t zone[128];
  std::uint16_t passing[128], travel[128];
};

// Zone z's passing list stands at 16 * z; ahead has for each step the carts ahead of it in the list of its zone.
struct Orders {
  std::uint8_t count[24];
  std::uint8_t list[384];
  std::uint16_t ahead[128];
};

// For each cart the carts of its lane and the lane's next cart, if there is one; and the first carts of the lanes.
struct Lanes {
  CartSet same[16], next[16], fronts;
};

// A number of document 01's table and its place; of what stands in a cart's part of the sheet, the cart and its step, each plus one.
struct Outcome {
  Outcome(unsigned number = 0, size_t place = 0) : number(number), place(place) {}

  unsigned number;
  std::uint8_t cart = 0, step = 0;
  size_t place;
};

// A big-endian number, by one load.
template <unsigned width>
std::uint32_t number_at(const std::uint8_t* bytes) {
  if (width == 1) return *bytes;
  if (width == 2) {
    std::uint16_t value;
    std::memcpy(&value, bytes, 2);
    return __builtin_bswap16(value);
  }
  std::uint32_t value;
  std::memcpy(&value, bytes, 4);
  return __builtin_bswap32(value);
}

class Fields {
 public:
  Fields(Lent lent, unsigned cut) : bytes_(lent.bytes), length_(lent.length), cut_(cut) {}

  // Takes a field of so many bytes. False if the bytes end inside it or its value is not within low and high.
  // Where it is known to be whole, its end is not looked for.
  template <unsigned width, bool whole = false>
  bool take(std::uint32_t low, std::uint32_t high, unsigned number, std::uint32_t& value) {
    if (!whole && left() < width) return refuse(cut_, at_);
    value = number_at<width>(bytes_ + at_);
    if (value - low > high - low) return refuse(number, at_);
    at_ += width;
    return true;
  }

  bool refuse(unsigned number, size_t place) {
    outcome = {number, place};
    return false;
  }

  size_t at() const { return at_; }
  size_t length() const { return length_; }
  size_t left() const { return length_ - at_; }

  Outcome outcome{0, 0};

 private:
  const std::uint8_t* bytes_;
  size_t length_;
  unsigned cut_;
  size_t at_ = 0;
};

constexpr std::uint32_t any = 0xffffffff;

// What takes fields is inlined, so that their cursor stays in a register; where all bytes of a part are there, no field of it is cut.

template <bool whole>
[[gnu::always_inline]] inline bool read_gaps(Fields& fields, Sheet& sheet) {
  std::uint32_t value;
  for (unsigned z = 0; z < sheet.zones; ++z) {
    if (!fields.take<2, whole>(0, 60000, 5, value)) return false;
    sheet.follow[z] = static_cast<std::uint16_t>(value);
    if (!fields.take<2, whole>(0, 60000, 5, value)) return false;
    sheet.cross[z] = static_cast<std::uint16_t>(value);
  }
  return true;
}

template <bool whole>
[[gnu::always_inline]] inline bool read_route(Fields& fields, Sheet& sheet, unsigned cart, unsigned steps) {
  std::uint32_t value, named = 0;
  const unsigned last_zone = sheet.zones - 1;
  for (unsigned x = 8 * cart, end = x + steps; x < end; ++x) {
    const size_t place = fields.at();
    if (!fields.take<1, whole>(0, last_zone, 10, value)) return false;
    if (named >> value & 1) return fields.refuse(11, place);
    named |= std::uint32_t{1} << value;
    sheet.zone[x] = static_cast<std::uint8_t>(value);
    if (!fields.take<2, whole>(0, 60000, 12, value)) return false;
    sheet.passing[x] = static_cast<std::uint16_t>(value);
    if (!fields.take<2, whole>(0, x + 1 < end ? 60000 : 0, 12, value)) return false;
    sheet.travel[x] = static_cast<std::uint16_t>(value);
  }
  return true;
}

[[gnu::always_inline]] inline bool read_carts(Fields& fields, Sheet& sheet, size_t* arrivals) {
  std::uint32_t value;
  for (unsigned c = 0; c < sheet.carts; ++c) {
    if (!fields.take<1>(0, 15, 7, value)) return false;
    sheet.lane[c] = static_cast<std::uint8_t>(value);
    arrivals[c] = fields.at();
    if (!fields.take<4>(0, 3600000, 8, sheet.arrival[c])) return false;
    if (!fields.take<1>(1, 8, 9, value)) return false;
    sheet.steps[c] = static_cast<std::uint8_t>(value);
    const bool whole = fields.left() >= 5 * value;
    if (!(whole ? read_route<true>(fields, sheet, c, value) : read_route<false>(fields, sheet, c, value))) return false;
  }
  return true;
}

// 14: no cart arrives before a lower-numbered one of its lane.
[[gnu::always_inline]] inline bool check_arrivals(Fields& fields, const Sheet& sheet, const size_t* arrivals) {
  std::uint32_t latest[16] = {};
  for (unsigned c = 0; c < sheet.carts; ++c) {
    std::uint32_t& before = latest[sheet.lane[c]];
    if (sheet.arrival[c] < before) return fields.refuse(14, arrivals[c]);
    before = sheet.arrival[c];
  }
  return true;
}

// In whose part of the carts, which begin here, a refusal stands: worked out from its place once reading is over, so that it costs nothing before.
[[gnu::cold, gnu::noinline]] inline Outcome in_cart(Outcome refused, const Sheet& sheet, size_t begin) {
  for (unsigned c = 0;; ++c) {
    const size_t steps = begin + 6, end = steps + 5 * sheet.steps[c];
    if (refused.place < end) {
      refused.cart = static_cast<std::uint8_t>(c + 1);
      refused.step = static_cast<std::uint8_t>(refused.place < steps ? 0 : (refused.place - steps) / 5 + 1);
      return refused;
    }
    begin = end;
  }
}

inline Outcome read_sheet(Lent s, Sheet& sheet) {
  std::uint32_t value;
  size_t arrivals[16];
  Fields fields(s, 1);
  std::memset(&sheet, 0, sizeof sheet);
  if (!fields.take<1>(1, 1, 2, value) || !fields.take<2>(0, any, 3, value)) return fields.outcome;
  if (value != fields.length()) return {3, 1};
  if (!fields.take<1>(1, 24, 4, value)) return fields.outcome;
  sheet.zones = value;
  const bool whole = fields.left() >= 4 * value;
  if (!(whole ? read_gaps<true>(fields, sheet) : read_gaps<false>(fields, sheet))) return fields.outcome;
  if (!fields.take<1>(0, 16, 6, value)) return fields.outcome;
  sheet.carts = value;
  const size_t begin = fields.at();
  if (!read_carts(fields, sheet, arrivals)) return in_cart(fields.outcome, sheet, begin);
  if (fields.left() != 0) return {13, fields.at()};
  if (!check_arrivals(fields, sheet, arrivals)) return in_cart(fields.outcome, sheet, begin);
  return fields.outcome;
}

inline void find_lanes(const Sheet& sheet, Lanes& lanes) {
  CartSet on[16] = {}, behind = 0;
  for (unsigned c = sheet.carts; c-- != 0;) {
    CartSet& lane = on[sheet.lane[c]];
    behind |= lanes.next[c] = first(lane);
    lane |= only(c);
  }
  for (unsigned c = 0; c < sheet.carts; ++c) lanes.same[c] = on[sheet.lane[c]];
  lanes.fronts = (only(sheet.carts) - 1) & ~behind;
}

// Which step of a cart is in a zone: its place 8 * cart + step, at 16 * zone + cart; who visits each zone, and how many they are.
struct Visits {
  std::uint8_t step[384];
  CartSet who[24];
  std::uint8_t count[24];
};

inline void find_visits(const Sheet& sheet, Visits& visits) {
  std::memset(visits.who, 0, sizeof visits.who);
  std::memset(visits.count, 0, sizeof visits.count);
  for (unsigned c = 0; c < sheet.carts; ++c) {
    for (unsigned x = 8 * c, end = x + sheet.steps[c]; x < end; ++x) {
      const unsigned z = sheet.zone[x];
      visits.step[16 * z + c] = static_cast<std::uint8_t>(x);
      visits.who[z] |= only(c);
      ++visits.count[z];
    }
  }
}

[[gnu::always_inline]] inline bool read_lists(Fields& fields, const Sheet& sheet, const Lanes& lanes, Orders& orders) {
  std::uint32_t value;
  size_t late = 0;  // 21: the first byte with a cart that has a higher-numbered one of its lane ahead
  Visits visits;
  find_visits(sheet, visits);
  std::memset(&orders, 0, sizeof orders);
  for (unsigned z = 0; z < sheet.zones; ++z) {
    const std::uint32_t visitors = visits.count[z];
    if (!fields.take<1>(visitors, visitors, 19, value)) return false;
    orders.count[z] = static_cast<std::uint8_t>(visitors);
    CartSet open = visits.who[z], seen = 0;
    for (unsigned e = 0; e < visitors; ++e) {
      const size_t place = fields.at();
      if (!fields.take<1>(0, 15, 19, value)) return false;
      if (!(open >> value & 1)) return fields.refuse(19, place);
      if ((seen & lanes.same[value]) >> value != 0 && late == 0) late = place;
      orders.list[16 * z + e] = static_cast<std::uint8_t>(value);
      orders.ahead[visits.step[16 * z + value]] = static_cast<std::uint16_t>(seen);
      seen |= only(value);
      open &= ~only(value);
    }
  }
  if (fields.left() != 0) return fields.refuse(20, fields.at());
  return late == 0 || fields.refuse(21, late);
}

inline Outcome read_plan(Lent s, Lent p, Sheet& sheet, Lanes& lanes, Orders& orders) {
  std::uint32_t value;
  const Outcome of_sheet = read_sheet(s, sheet);
  if (of_sheet.number != 0) return of_sheet;
  Fields fields(p, 15);
  if (!fields.take<1>(1, 1, 16, value) || !fields.take<2>(0, any, 17, value)) return fields.outcome;
  if (value != p.length) return {17, 1};
  if (!fields.take<1>(sheet.zones, sheet.zones, 18, value)) return fields.outcome;
  find_lanes(sheet, lanes);
  read_lists(fields, sheet, lanes, orders);
  return fields.outcome;
}

}  // namespace yardstick
