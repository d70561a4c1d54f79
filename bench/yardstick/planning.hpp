// The yardstick's planner: the removal rule. Within it carts are numbered by rank, so that a set's members come in the order of the
// tie rule.
#pragma once

#include "judging.hpp"

namespace yardstick {

struct Planned {
  Outcome outcome;
  size_t length;
  std::uint32_t finish;
  unsigned turns;  // of the rule, counted for the benchmark
};

enum class Rule { removal, first_come };

class Planner {
 public:
  Planner(const Sheet& sheet, Rule rule) {
    rank_carts(sheet);
    find_visits(sheet_, visits_);
    find_lanes(sheet_, lanes_);
    if (rule == Rule::removal) {
      find_behind_line();
      solve(0, sheet_.carts);
    } else {
      go_by_rank();
    }
  }

  std::uint32_t finish() {
    if (!settled_) run();
    return finish_;
  }

  // The plan's bytes, with the sheet's cart numbers.
  void write(std::uint8_t* room, size_t length) const {
    room[0] = 1;
    room[1] = static_cast<std::uint8_t>(length >> 8);
    room[2] = static_cast<std::uint8_t>(length);
    room[3] = static_cast<std::uint8_t>(sheet_.zones);
    std::uint8_t* list = room + 4;
    for (unsigned z = 0; z < sheet_.zones; ++z) {
      *list++ = visits_.count[z];
      for (CartSet who = visits_.who[z]; who != 0; who = rest(who)) {
        const size_t r = lowest(who);
        list[count(ahead_[visits_.step[16 * z + r]])] = cart_[r];
      }
      list += visits_.count[z];
    }
  }

  unsigned turns = 0;

  // A before B in a zone.
  struct Choice {
    size_t zone, a, b;
  };

 private:
  // "Rank carts by arrival, then number."
  void rank_carts(const Sheet& sheet) {
    for (unsigned c = 0; c < 16; ++c) cart_[c] = static_cast<std::uint8_t>(c);
    std::sort(cart_, cart_ + sheet.carts, [&](unsigned a, unsigned b) {
      return sheet.arrival[a] != sheet.arrival[b] ? sheet.arrival[a] < sheet.arrival[b] : a < b;
    });
    sheet_ = sheet;
    for (unsigned r = 0; r < sheet.carts; ++r) {
      const unsigned c = cart_[r];
      sheet_.lane[r] = sheet.lane[c];
      sheet_.arrival[r] = sheet.arrival[c];
      sheet_.steps[r] = sheet.steps[c];
      std::memcpy(sheet_.zone + 8 * r, sheet.zone + 8 * c, 8);
      std::memcpy(sheet_.passing + 8 * r, sheet.passing + 8 * c, 16);
      std::memcpy(sheet_.travel + 8 * r, sheet.travel + 8 * c, 16);
    }
  }

  // Where the spare time of the step behind each first step at the stop line is kept, which is the lane's next cart's; none is at the end.
  void find_behind_line() {
    spare_[384] = UINT32_MAX;
    for (unsigned r = 0; r < sheet_.carts; ++r) {
      const CartSet next = lanes_.next[r];
      behind_line_[r] = static_cast<std::uint16_t>(next == 0 ? 384 : 16 * sheet_.zone[8 * lowest(next)] + lowest(next));
    }
  }

  // "Both ranks below the group: as decided. Both in the group: undecided. Both above: absent. Otherwise lower rank first."
  // Same-lane pairs go by number, which is by rank. Answers how many pairs are undecided.
  unsigned arrange(unsigned low, unsigned high) {
    const CartSet below = only(low) - 1, group = (only(high) - 1) & ~below, above = ~(below | group);
    unsigned open = 0;
    for (unsigned r = 0; r < sheet_.carts; ++r) {
      const CartSet lower = only(r) - 1, higher = ~lower & ~only(r), same = lanes_.same[r];
      for (unsigned x = 8 * r, end = x + sheet_.steps[r]; x < end; ++x) {
        const CartSet who = visits_.who[sheet_.zone[x]];
        CartSet ahead, behind, undecided = 0;
        if (r < low) {
          ahead = ahead_[x] & below;
          behind = (behind_[x] & below) | (who & ~below);
        } else if (r < high) {
          ahead = who & (below | (same & lower));
          behind = who & (above | (same & higher));
          undecided = who & group & ~same;
        } else {
          ahead = who & (below | group | (same & lower));
          behind = who & same & higher;
        }
        ahead_[x] = static_cast<std::uint16_t>(ahead);
        behind_[x] = static_cast<std::uint16_t>(behind);
        undecided_[x] = static_cast<std::uint16_t>(undecided);
        open += static_cast<unsigned>(count(undecided));
      }
    }
    return open / 2;
  }

  // Times over the orders present; settled_ says that they are worked out. False if the moves have a cycle.
  bool run() {
    StepOrder order{order_};
    settled_ = settle(tables_of(sheet_, lanes_, ahead_), enter_, order, nullptr) == 0;
    entered_ = order.count;
    if (settled_) finish_ = finish_of(sheet_.steps, sheet_.passing, enter_);
    return settled_;
  }

  // Spare times, from the last step entered back to the first; kept at 16 * zone + cart, and with the entering time added in latest_.
  void find_spare() {
    for (size_t q = entered_; q-- != 0;) {
      const size_t x = order_[q], c = x / 8, z = sheet_.zone[x];
      const bool last = x - 8 * c + 1 == sheet_.steps[c];
      std::uint32_t spare = last ? finish_ - (enter_[x] + sheet_.passing[x]) : spare_[16 * sheet_.zone[x + 1] + c];
      const std::uint32_t* others = spare_ + 16 * z;
      for (CartSet behind = behind_[x]; behind != 0; behind = rest(behind)) spare = std::min(spare, others[lowest(behind)]);
      if (x == 8 * c) spare = std::min(spare, spare_[behind_line_[c]]);
      spare_[16 * z + c] = spare;
      latest_[16 * z + c] = static_cast<std::int32_t>(enter_[x] + spare);
    }
  }

  // "Take the direction of largest cost; ties go to the lower zone, then lower rank of A, then of B."
  Choice largest() const {
    Choice choice{0, 0, 0};
    std::int32_t most = INT32_MIN;
    for (size_t z = 0; z < sheet_.zones; ++z) {
      const std::int32_t* latest = latest_ + 16 * z;
      for (CartSet who = visits_.who[z]; who != 0; who = rest(who)) {
        const size_t a = lowest(who), x = visits_.step[16 * z + a];
        CartSet others = undecided_[x];
        if (others == 0) continue;
        std::int32_t least = INT32_MAX;
        size_t b = 0;
        for (; others != 0; others = rest(others)) {
          const size_t d = lowest(others);
          if (latest[d] < least) least = latest[d], b = d;
        }
        const std::int32_t cost = static_cast<std::int32_t>(enter_[x] + sheet_.passing[x] + sheet_.cross[z]) - least;
        if (most < cost) most = cost, choice = {z, a, b};
      }
    }
    return choice;
  }

  void decide(size_t z, size_t first, size_t second) {
    const size_t f = visits_.step[16 * z + first], s = visits_.step[16 * z + second];
    ahead_[s] |= static_cast<std::uint16_t>(only(first));
    behind_[f] |= static_cast<std::uint16_t>(only(second));
    undecided_[f] &= static_cast<std::uint16_t>(~only(second));
    undecided_[s] &= static_cast<std::uint16_t>(~only(first));
  }

  void drop(size_t z, size_t first, size_t second) {
    ahead_[visits_.step[16 * z + second]] &= static_cast<std::uint16_t>(~only(first));
    behind_[visits_.step[16 * z + first]] &= static_cast<std::uint16_t>(~only(second));
  }

  // "every shared zone goes by arrival, then cart number": by rank
  void go_by_rank() {
    for (unsigned r = 0; r < sheet_.carts; ++r) {
      for (unsigned j = 0; j < sheet_.steps[r]; ++j) {
        ahead_[8 * r + j] = static_cast<std::uint16_t>(visits_.who[sheet_.zone[8 * r + j]] & (only(r) - 1));
      }
    }
  }

  // "Decide the opposite. If the moves now have a cycle, decide this direction instead. If that has one too .. cut in two".
  void solve(unsigned low, unsigned high) {
    unsigned open = arrange(low, high);
    settled_ = false;
    if (open != 0) run();
    for (; open != 0; --open) {
      ++turns;
      find_spare();
      const Choice choice = largest();
      decide(choice.zone, choice.b, choice.a);
      if (run()) continue;
      drop(choice.zone, choice.b, choice.a);
      decide(choice.zone, choice.a, choice.b);
      if (run()) continue;
      const unsigned middle = low + (high - low) / 2;
      solve(low, middle);
      solve(middle, high);
      return;
    }
  }

  Sheet sheet_;
  Visits visits_;
  Lanes lanes_;
  std::uint8_t cart_[16];
  std::uint16_t ahead_[128], behind_[128], undecided_[128], behind_line_[16];
  std::uint32_t enter_[128], spare_[385], finish_ = 0;
  std::int32_t latest_[384];
  std::uint8_t order_[128];
  size_t entered_ = 0;
  bool settled_ = false;
};

// Reads the sheet and writes its plan at the start of the room.
inline Planned plan(Lent s, std::uint8_t* room, size_t room_length, Rule rule = Rule::removal) {
  Sheet sheet;
  const Outcome read = read_sheet(s, sheet);
  if (read.number != 0) return {read, 0, 0, 0};
  size_t length = 4 + sheet.zones;
  for (unsigned c = 0; c < sheet.carts; ++c) length += sheet.steps[c];
  if (room_length < length) return {{28, 0}, 0, 0, 0};
  Planner planner(sheet, rule);
  const std::uint32_t finish = planner.finish();
  planner.write(room, length);
  return {{0, 0}, length, finish, planner.turns};
}

}  // namespace yardstick
