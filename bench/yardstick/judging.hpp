// The yardstick's judge: permitted moves until none is left, with the entering times on the way; finish, or the ring.
#pragma once

#include <algorithm>

#include "reading.hpp"

namespace yardstick {

// The tables of a crossing: routes, times and the carts ahead of each step.
struct Tables {
  const std::uint8_t* steps;
  const std::uint8_t* zone;
  const std::uint16_t* ahead;
  const Lanes* lanes;
  const std::uint8_t* lane;
  const std::uint32_t* arrival;
  const std::uint16_t* passing;
  const std::uint16_t* travel;
  const std::uint16_t* follow;
  const std::uint16_t* cross;
};

inline Tables tables_of(const Sheet& sheet, const Lanes& lanes, const std::uint16_t* ahead) {
  return {sheet.steps, sheet.zone, ahead, &lanes, sheet.lane, sheet.arrival, sheet.passing, sheet.travel, sheet.follow, sheet.cross};
}

// Where each cart stands, and for each zone the carts that have left it.
struct Standing {
  std::uint8_t at[16];
  CartSet left[24];
};

// The later of a time and the time at which the gap has passed since each of these carts left.
inline std::uint32_t clear_of(const std::uint32_t* left_at, CartSet others, const std::uint16_t& gap, std::uint32_t ready) {
  if (others == 0) return ready;
  std::uint32_t last = 0;
  for (; others != 0; others = rest(others)) last = std::max(last, left_at[lowest(others)]);
  return std::max(ready, last + gap);
}

inline std::uint32_t clear_of_all(const Tables& t, const std::uint32_t* leave, size_t z, CartSet ahead, CartSet same, std::uint32_t ready) {
  const std::uint32_t* left_at = leave + 16 * z;
  return clear_of(left_at, ahead & ~same, t.cross[z], clear_of(left_at, ahead & same, t.follow[z], ready));
}

// Nothing is stored of the order of the moves.
struct NoOrder {
  void entered(size_t) {}
};

// The steps in the order in which they were entered.
struct StepOrder {
  std::uint8_t* step;
  size_t count = 0;
  void entered(size_t x) { step[count++] = static_cast<std::uint8_t>(x); }
};

// The carts that are neither out nor behind another on their lane, and those of them whose turn is still to come.
struct Going {
  CartSet all, turn;
};

// When the last cart passed each lane's stop line, and at 16 * zone + cart when it left.
struct Past {
  std::uint32_t line[16], leave[24 * 16];
};

// Cart c at position p may enter zone z, with these carts ahead: it does, and moves on as far as it may.
template <class Order>
[[gnu::always_inline]] inline void move_on(const Tables& t, size_t c, size_t p, size_t z, CartSet ahead, Standing& standing,
                                           Going& going, Past& past, std::uint32_t* __restrict enter, Order& order) {
  const CartSet me = only(c), same = t.lanes->same[c];
  const size_t end = 8 * c + t.steps[c];
  size_t x = 8 * c + p, y;  // y is the zone that the cart is in
  std::uint32_t time;
  if (p == 0) {
    std::uint32_t& line = past.line[t.lane[c]];
    time = clear_of_all(t, past.leave, z, ahead, same, std::max(t.arrival[c], line));
    line = enter[x] = time;
    going.all |= t.lanes->next[c];
    going.turn |= t.lanes->next[c];
    order.entered(x);
    y = z;
    ++x;
  } else {
    time = enter[x - 1];
    y = t.zone[x - 1];
  }
  for (;; ++x) {
    if (x == end) {
      standing.left[y] |= me;
      past.leave[16 * y + c] = time + t.passing[x - 1];
      going.all ^= me;
      ++x;
      break;
    }
    z = t.zone[x];
    ahead = t.ahead[x];
    if (ahead & ~standing.left[z]) break;
    const std::uint32_t travel = t.travel[x - 1];
    time = clear_of_all(t, past.leave, z, ahead, same, time + t.passing[x - 1] + travel);
    enter[x] = time;
    order.entered(x);
    standing.left[y] |= me;
    past.leave[16 * y + c] = time - travel;
    y = z;
  }
  standing.at[c] = static_cast<std::uint8_t>(x - 8 * c);
}

// Every cart in turn moves on as far as it may, until all are out or none moves; a lane's next cart gets its turn when the one in front
// has passed the stop line. Answers the stuck carts that no lane holds, the lowest that is stuck among them, and how all stand then.
template <class Order>
inline CartSet settle(const Tables& t, std::uint32_t* __restrict enter, Order& order, Standing* stuck) {
  Standing standing = {};
  Past past;
  std::memset(past.line, 0, sizeof past.line);
  Going going{t.lanes->fronts, 0};
  bool moved;
  do {
    moved = false;
    for (going.turn = going.all; going.turn != 0; going.turn = rest(going.turn)) {
      const size_t c = lowest(going.turn), p = standing.at[c], x = 8 * c + p, z = t.zone[x];
      const CartSet ahead = t.ahead[x];
      if (ahead & ~standing.left[z]) continue;
      moved = true;
      move_on(t, c, p, z, ahead, standing, going, past, enter, order);
    }
  } while (going.all != 0 && moved);
  if (going.all != 0 && stuck != nullptr) *stuck = standing;
  return going.all;
}

inline unsigned moves_of(const std::uint8_t* steps) {
  unsigned all = 0;
  for (unsigned c = 0; c < 16; ++c) all += steps[c] == 0 ? 0 : steps[c] + 1u;
  return all;
}

// The largest leaving time: of each cart the last zone's, for it leaves the others before.
inline std::uint32_t finish_of(const std::uint8_t* steps, const std::uint16_t* passing, const std::uint32_t* enter) {
  std::uint32_t finish = 0;
  for (unsigned c = 0; c < 16; ++c) {
    if (steps[c] == 0) continue;
    const unsigned x = 8 * c + steps[c] - 1;
    finish = std::max(finish, enter[x] + passing[x]);
  }
  return finish;
}

struct Ring {
  size_t length;
  std::uint8_t cart[16], zone[16];
};

struct Judged {
  Outcome outcome;
  std::uint32_t finish, moves;
  Ring ring;
};

// Each stuck cart points to the cart in front if both are on the lane, else to the first in the list of the zone it wants that has not
// left it; the ring begins at its lowest cart.
inline void find_ring(const Sheet& sheet, const Lanes& lanes, const Orders& orders, CartSet stuck, const Standing& standing, Ring& ring) {
  const auto wanted = [&](size_t c) { return sheet.zone[8 * c + standing.at[c]]; };
  const auto pointed = [&](size_t c) {
    const CartSet lower = lanes.same[c] & (only(c) - 1);
    if (lower != 0 && standing.at[c] == 0 && standing.at[highest(lower)] == 0) return highest(lower);
    const size_t z = wanted(c);
    const std::uint8_t* first = orders.list + 16 * z;
    while (standing.left[z] >> *first & 1) ++first;
    return size_t{*first};
  };
  size_t c = lowest(stuck);
  for (CartSet seen = 0; !(seen >> c & 1); c = pointed(c)) seen |= only(c);
  CartSet members = 0;
  for (; !(members >> c & 1); c = pointed(c)) members |= only(c);
  for (c = lowest(members); members != 0; c = pointed(c)) {
    ring.cart[ring.length] = static_cast<std::uint8_t>(c);
    ring.zone[ring.length++] = wanted(c);
    members ^= only(c);
  }
}

inline Judged judge(Lent s, Lent p, std::uint32_t* words, size_t words_length) {
  Sheet sheet;
  Lanes lanes;
  Orders orders;
  Standing standing;
  NoOrder none;
  std::uint32_t enter[128];
  Judged judged{};
  judged.outcome = read_plan(s, p, sheet, lanes, orders);
  if (judged.outcome.number != 0) return judged;
  std::memset(enter, 0, sizeof enter);
  const CartSet stuck = settle(tables_of(sheet, lanes, orders.ahead), enter, none, &standing);
  if (stuck != 0) {
    judged.outcome.number = 22;
    find_ring(sheet, lanes, orders, stuck, standing, judged.ring);
    return judged;
  }
  if (words_length < 128) {
    judged.outcome.number = 28;
    return judged;
  }
  std::memcpy(words, enter, sizeof enter);
  judged.finish = finish_of(sheet.steps, sheet.passing, enter);
  judged.moves = moves_of(sheet.steps);
  return judged;
}

}  // namespace yardstick
