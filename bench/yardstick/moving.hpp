// The yardstick's request to move a cart: reading, the verdict, the test of the record, and then permission, or the chain down to a cart
// that may move.
#pragma once

#include "judging.hpp"

namespace yardstick {

struct Record {
  std::uint8_t position[16];
  std::uint32_t made;
};

struct Asked {
  Outcome outcome;
  std::uint8_t position;
  std::uint32_t made, ahead;
};

// Every cart in turn moves on as far as it may, until all are out or none moves. No times are worked out: a request needs none. Answers
// the stuck carts that no lane holds; a cart that is out stands at its last step.
[[gnu::always_inline]] inline CartSet move_all(const Sheet& sheet, const Lanes& lanes, const std::uint16_t* ahead, Standing& standing) {
  CartSet going = lanes.fronts;
  for (bool moved = true; going != 0 && moved;) {
    moved = false;
    for (CartSet turn = going; turn != 0; turn = rest(turn)) {
      const size_t c = lowest(turn), p = standing.at[c], end = 8 * c + sheet.steps[c];
      const CartSet me = only(c);
      size_t x = 8 * c + p;
      if (ahead[x] & ~standing.left[sheet.zone[x]]) continue;
      moved = true;
      if (p != 0) {
        standing.left[sheet.zone[x - 1]] |= me;
      } else {
        turn |= lanes.next[c];
        going |= lanes.next[c];
      }
      for (++x; x != end && !(ahead[x] & ~standing.left[sheet.zone[x]]); ++x) standing.left[sheet.zone[x - 1]] |= me;
      standing.at[c] = static_cast<std::uint8_t>(x - 8 * c);
      if (x != end) continue;
      standing.left[sheet.zone[x - 1]] |= me;
      going ^= me;
    }
  }
  return going;
}

// 22: whether permitted moves do not bring every cart out.
inline bool is_locked(const Sheet& sheet, const Lanes& lanes, const std::uint16_t* ahead) {
  Standing standing = {};
  return move_all(sheet, lanes, ahead, standing) != 0;
}

// What a record says: for each zone the carts that have left it, and the carts whose front cart is on their lane.
struct Told {
  CartSet left[24], held;
};

// 23: whether a run reaches the record, and what it says.
inline bool is_reached(const Sheet& sheet, const Lanes& lanes, const std::uint16_t* ahead, const Record& record, Told& told) {
  unsigned sum = 0;
  CartSet started = 0;
  for (unsigned c = 0; c < 16; ++c) {
    const unsigned p = record.position[c], steps = sheet.steps[c];
    if (p > (steps == 0 ? 0 : steps + 1)) return false;
    sum += p;
    for (unsigned x = 8 * c; x + 1 < 8 * c + p; ++x) told.left[sheet.zone[x]] |= only(c);
  }
  if (sum != record.made) return false;
  for (unsigned c = 0; c < sheet.carts; ++c) {
    const unsigned entered = std::min<unsigned>(record.position[c], sheet.steps[c]);
    for (unsigned x = 8 * c, end = x + entered; x < end; ++x)
      if (ahead[x] & ~told.left[sheet.zone[x]]) return false;
    if (entered == 0) {
      told.held |= lanes.next[c];
    } else {
      started |= only(c);
    }
  }
  return !(told.held & started);
}

// A request that 1 to 25 do not refuse: the sheet, the plan, and what the record says.
struct Request {
  Sheet sheet;
  Lanes lanes;
  Orders orders;
  Told told;
};

[[gnu::always_inline]] inline Outcome take(Lent s, Lent p, const Record& record, size_t cart, Request& request) {
  const Outcome read = read_plan(s, p, request.sheet, request.lanes, request.orders);
  if (read.number != 0) return read;
  request.told = {};
  if (is_locked(request.sheet, request.lanes, request.orders.ahead)) return {22, 0};
  if (!is_reached(request.sheet, request.lanes, request.orders.ahead, record, request.told)) return {23, 0};
  if (cart >= request.sheet.carts) return {24, 0};
  if (record.position[cart] > request.sheet.steps[cart]) return {25, 0};
  return {0, 0};
}

inline Asked move_cart(Lent s, Lent p, Record& record, size_t cart) {
  Request request;
  const Outcome taken = take(s, p, record, cart, request);
  if (taken.number != 0) return {taken, 0, 0, 0};
  const unsigned at = record.position[cart];
  if (at < request.sheet.steps[cart]) {
    const size_t x = 8 * cart + at;
    const Told& told = request.told;
    const size_t before = count(request.orders.ahead[x] & ~told.left[request.sheet.zone[x]]) + (told.held >> cart & 1);
    if (before != 0) return {{26, 0}, 0, 0, static_cast<std::uint32_t>(before)};
  }
  ++record.position[cart];
  ++record.made;
  return {{0, 0}, record.position[cart], record.made, 0};
}

struct Chain {
  Outcome outcome;
  size_t length;
  std::uint8_t cart[16], zone[16], out;
};

// From the cart on, each held by the next: by the cart in front if the lane holds it, else by the first in the list of the zone it wants
// that has not left it. The record is one that a run reaches, so a cart that the lane holds is on the lane, and the chain ends.
inline Chain why(Lent s, Lent p, const Record& record, size_t cart) {
  Request request;
  Chain chain{};
  chain.outcome = take(s, p, record, cart, request);
  if (chain.outcome.number != 0) return chain;
  const Told& told = request.told;
  for (;;) {
    const unsigned at = record.position[cart];
    const size_t x = 8 * cart + at, here = chain.length++;
    chain.cart[here] = static_cast<std::uint8_t>(cart);
    if (at == request.sheet.steps[cart]) {
      chain.out = 1;
      return chain;
    }
    const size_t z = request.sheet.zone[x];
    chain.zone[here] = static_cast<std::uint8_t>(z);
    if (told.held >> cart & 1) {
      cart = highest(request.lanes.same[cart] & (only(cart) - 1));
      continue;
    }
    if (!(request.orders.ahead[x] & ~told.left[z])) return chain;
    const std::uint8_t* first = request.orders.list + 16 * z;
    while (told.left[z] >> *first & 1) ++first;
    cart = *first;
  }
}

}  // namespace yardstick
