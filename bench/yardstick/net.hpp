// The yardstick's Petri net: permitted moves in place of firing, and the net's text (docs/NET.md) by blocks of lines with their numbers put in.
#pragma once

#include "moving.hpp"

namespace yardstick {

struct NetRun {
  Outcome outcome;
  size_t length;
  std::uint8_t locked, position[16];
};

constexpr size_t net_line = 23;

// Lines that come together, with the numbers at 11, 14, 17 and 20 of each still to be put in.
constexpr char of_position[] =
    "place cart .. .. -- --\ntransition .. .. -- --\narc cart > .. .. -- --\narc > cart .. .. -- --\n";
constexpr char of_line[] = "place line .. 00 .. --\narc > line .. 00 .. 00\narc line > .. 00 .. --\n";
constexpr char of_pair[] = "place pair .. .. .. --\narc > pair .. .. .. ..\narc pair > .. .. .. --\n";

// A number's two digits, by one store.
[[gnu::always_inline]] inline void put_number(std::uint8_t* to, std::uint16_t digits) { std::memcpy(to, &digits, 2); }

// The digits of 0 to 15, as they stand in memory.
struct Digits {
  std::uint16_t of[16];
};

constexpr Digits make_digits() {
  Digits digits{};
  for (unsigned n = 0; n < 16; ++n) digits.of[n] = static_cast<std::uint16_t>(('0' + n / 10) | ('0' + n % 10) << 8);
  return digits;
}

constexpr Digits digits = make_digits();

// Copies a block of lines and puts a number into each of its lines.
class NetText {
 public:
  explicit NetText(std::uint8_t* room) : at_(room) {}

  template <size_t size>
  [[gnu::always_inline]] std::uint8_t* block(const char (&lines)[size], size_t used = size - 1) {
    std::uint8_t* begin = at_;
    std::memcpy(begin, lines, used);
    at_ += used;
    return begin;
  }

 private:
  std::uint8_t* at_;
};

[[gnu::always_inline]] inline void put_column(std::uint8_t* block, size_t column, size_t lines, std::uint16_t number) {
  for (size_t k = 0; k < lines; ++k) put_number(block + net_line * k + column, number);
}

inline void write_net(const Sheet& sheet, const Lanes& lanes, const std::uint16_t* ahead, std::uint8_t* room) {
  NetText text(room);
  std::uint8_t leaves[384];  // the position from which a cart leaves a zone, at 16 * zone + cart
  for (unsigned c = 0; c < sheet.carts; ++c)
    for (unsigned j = 0; j < sheet.steps[c]; ++j) leaves[16 * sheet.zone[8 * c + j] + c] = static_cast<std::uint8_t>(j + 1);
  for (unsigned c = 0; c < sheet.carts; ++c) {
    const std::uint16_t cart = digits.of[c];
    const CartSet lower = lanes.same[c] & (only(c) - 1), front = lower == 0 ? 0 : only(highest(lower));
    const unsigned steps = sheet.steps[c];
    for (unsigned p = 0; p <= steps; ++p) {
      const std::uint16_t position = digits.of[p];
      std::uint8_t* lines = text.block(of_position);
      put_column(lines, 11, 4, cart);
      put_column(lines, 14, 4, position);
      if (p == steps) break;
      const CartSet line = p == 0 ? front : 0, pairs = ahead[8 * c + p];
      const std::uint8_t* leaving = leaves + 16 * sheet.zone[8 * c + p];
      for (CartSet others = line | pairs; others != 0; others = rest(others)) {
        const size_t d = lowest(others);
        const std::uint16_t other = digits.of[d];
        if (line >> d & 1) {
          lines = text.block(of_line);
          put_column(lines, 11, 3, cart);
          put_column(lines, 17, 3, other);
        }
        if (pairs >> d & 1) {
          lines = text.block(of_pair);
          put_column(lines, 11, 3, cart);
          put_column(lines, 14, 3, position);
          put_column(lines, 17, 3, other);
          put_number(lines + net_line + 20, digits.of[leaving[d]]);
        }
      }
    }
    std::uint8_t* last = text.block(of_position, net_line);
    put_number(last + 11, cart);
    put_number(last + 14, digits.of[steps + 1]);
  }
}

inline NetRun net(Lent s, Lent p, std::uint8_t* room, size_t room_length) {
  Sheet sheet;
  Lanes lanes;
  Orders orders;
  NetRun run{};
  run.outcome = read_plan(s, p, sheet, lanes, orders);
  if (run.outcome.number != 0) return run;
  size_t lines = 5 * sheet.carts + 3 * (sheet.carts - count(lanes.fronts));
  for (unsigned c = 0; c < sheet.carts; ++c) lines += 4u * sheet.steps[c];
  for (unsigned z = 0; z < sheet.zones; ++z) lines += 3u * orders.count[z] * (orders.count[z] - 1u) / 2;
  if (room_length < net_line * lines) {
    run.outcome.number = 28;
    return run;
  }
  Standing standing = {};
  run.locked = move_all(sheet, lanes, orders.ahead, standing) != 0;
  for (unsigned c = 0; c < sheet.carts; ++c)
    run.position[c] = static_cast<std::uint8_t>(standing.at[c] + (standing.at[c] == sheet.steps[c]));
  write_net(sheet, lanes, orders.ahead, room);
  run.length = net_line * lines;
  return run;
}

}  // namespace yardstick
