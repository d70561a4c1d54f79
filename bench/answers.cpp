#include "answers.hpp"

#include <cstdio>
#include <cstring>
#include <map>

#include "measured.hpp"

namespace {

constexpr unsigned inputs_of_a_size = 500, requests_of_an_input = 4, plans_of_a_size = 20;

// How often each number of document 01's table was answered, by both.
struct Answered {
  std::map<unsigned, unsigned> readings, verdicts, requests, chains, nets, plans;
  std::map<std::size_t, unsigned> lengths;  // of the chains
  unsigned locked_nets = 0;
};

template <class A, class B>
bool same_table(const A& a, const B& b) {
  static_assert(sizeof a == sizeof b);
  return std::memcmp(&a, &b, sizeof a) == 0;
}

bool same_outcome(const oblakosh_outcome& a, const yardstick::Outcome& b) {
  return a.number == b.number && a.place == b.place && a.cart == b.cart && a.step == b.step;
}

bool same_sheet(const oblakosh_sheet& a, const yardstick::Sheet& b) {
  return a.zones == b.zones && a.carts == b.carts && same_table(a.follow, b.follow) && same_table(a.cross, b.cross) &&
         same_table(a.lane, b.lane) && same_table(a.arrival, b.arrival) && same_table(a.steps, b.steps) && same_table(a.zone, b.zone) &&
         same_table(a.passing, b.passing) && same_table(a.travel, b.travel);
}

bool same_reading(const Input& input, Answered& answered) {
  proved_read_sheet(input);
  yardstick_read_sheet(input);
  if (!same_outcome(proved.sheet.outcome, by_hand.read)) return false;
  if (by_hand.read.number == 0 && !same_sheet(proved.sheet.sheet, by_hand.sheet)) return false;
  proved_read_plan(input);
  yardstick_read_plan(input);
  if (!same_outcome(proved.plan.outcome, by_hand.read)) return false;
  ++answered.readings[by_hand.read.number];
  const oblakosh_orders& orders = proved.plan.orders;
  return by_hand.read.number != 0 || (same_sheet(proved.plan.sheet, by_hand.sheet) && same_table(orders.count, by_hand.orders.count) &&
                                      same_table(orders.list, by_hand.orders.list) && same_table(orders.ahead, by_hand.orders.ahead));
}

bool same_core(const Input& input) {
  clear_times();
  proved_core(input);
  yardstick_core(input);
  std::size_t made = 0;
  for (unsigned at : by_hand.standing.at) made += at;
  if (by_hand.stuck == 0) made = yardstick::moves_of(input.sheet.steps);
  return proved.made == made && same_table(proved.enter, by_hand.enter);
}

bool same_verdict(const Input& input, Answered& answered) {
  std::memset(proved.words, 0xee, sizeof proved.words);
  std::memset(by_hand.words, 0xee, sizeof by_hand.words);
  proved_judge(input);
  yardstick_judge(input);
  const oblakosh_judged& a = proved.judged;
  const yardstick::Judged& b = by_hand.judged;
  ++answered.verdicts[b.outcome.number];
  return same_outcome(a.outcome, b.outcome) && a.finish == b.finish && a.moves == b.moves && same_table(proved.words, by_hand.words) &&
         a.ring.length == b.ring.length && same_table(a.ring.cart, b.ring.cart) && same_table(a.ring.zone, b.ring.zone);
}

bool same_asked(const oblakosh_asked& a, const yardstick::Asked& b) {
  return same_outcome(a.outcome, b.outcome) && a.position == b.position && a.made == b.made && a.ahead == b.ahead;
}

bool same_request(const Input& input, Answered& answered) {
  yardstick_move(input);
  proved_ask(input);
  if (!same_asked(proved.asked, by_hand.asked)) return false;
  proved_move(input);
  ++answered.requests[by_hand.asked.outcome.number];
  return same_asked(proved.asked, by_hand.asked) && same_table(proved.record, by_hand.record);
}

bool same_chain(const Input& input, Answered& answered) {
  proved_why(input);
  yardstick_why(input);
  const oblakosh_chain& a = proved.chain;
  const yardstick::Chain& b = by_hand.chain;
  ++answered.chains[b.outcome.number];
  if (b.outcome.number == 0) ++answered.lengths[b.length];
  return same_outcome(a.outcome, b.outcome) && a.length == b.length && same_table(a.cart, b.cart) && same_table(a.zone, b.zone) &&
         a.out == b.out;
}

bool same_net(const Input& input, Answered& answered) {
  std::memset(proved.text, 0xee, sizeof proved.text);
  std::memset(by_hand.text, 0xee, sizeof by_hand.text);
  proved_net(input);
  yardstick_net(input);
  const oblakosh_net_run& a = proved.net;
  const yardstick::NetRun& b = by_hand.net;
  ++answered.nets[b.outcome.number];
  answered.locked_nets += b.locked;
  return same_outcome(a.outcome, b.outcome) && a.length == b.length && a.locked == b.locked && same_table(a.position, b.position) &&
         same_table(proved.text, by_hand.text);
}

bool same_plan(const Input& input, Call by_proved, Call by_yardstick, Answered& answered) {
  std::memset(proved.room, 0xee, sizeof proved.room);
  std::memset(by_hand.room, 0xee, sizeof by_hand.room);
  by_proved(input);
  by_yardstick(input);
  ++answered.plans[by_hand.planned.outcome.number];
  return same_outcome(proved.planned.outcome, by_hand.planned.outcome) && proved.planned.length == by_hand.planned.length &&
         proved.planned.finish == by_hand.planned.finish && same_table(proved.room, by_hand.room);
}

// The name of the first operation whose answers differ; empty if none does.
std::string differs(const Input& input, unsigned number, Answered& answered) {
  if (!same_reading(input, answered)) return "reading";
  if (!same_core(input)) return "the judge's core";
  if (!same_verdict(input, answered)) return "judging";
  if (!same_request(input, answered)) return "moving";
  if (!same_chain(input, answered)) return "why";
  if (!same_net(input, answered)) return "the net";
  if (!same_plan(input, proved_first, yardstick_first, answered)) return "first come";
  if (number < plans_of_a_size && !same_plan(input, proved_plan, yardstick_plan, answered)) return "planning";
  for (unsigned k = 0; k < requests_of_an_input; ++k) {
    const Input other = asked_otherwise(input, requests_of_an_input * number + k);
    if (!same_request(other, answered)) return "moving";
    if (!same_chain(other, answered)) return "why";
    const Input bad = spoiled(input, requests_of_an_input * number + k);
    if (!same_reading(bad, answered)) return "reading spoiled bytes";
    if (!same_verdict(bad, answered)) return "judging spoiled bytes";
    if (!same_request(bad, answered)) return "moving under spoiled bytes";
    if (!same_chain(bad, answered)) return "why under spoiled bytes";
    if (!same_net(bad, answered)) return "the net of spoiled bytes";
  }
  return "";
}

unsigned all(const std::map<unsigned, unsigned>& numbers) {
  unsigned sum = 0;
  for (const auto& [number, times] : numbers) sum += times;
  return sum;
}

// A comparison is worth something only if every kind of answer came up.
bool every_kind(Answered& answered) {
  for (unsigned number = 0; number <= 21; ++number)
    if (answered.readings[number] == 0) return false;
  for (unsigned number = 22; number <= 26; ++number)
    if (answered.requests[number] == 0) return false;
  for (unsigned number = 22; number <= 25; ++number)
    if (answered.chains[number] == 0) return false;
  for (unsigned number = 0; number <= 21; ++number)
    if (answered.nets[number] == 0) return false;
  if (answered.locked_nets == 0) return false;
  if (answered.lengths[1] == 0 || answered.lengths[2] == 0 || answered.lengths[3] == 0) return false;
  return answered.verdicts[0] != 0 && answered.verdicts[22] != 0 && answered.requests[0] != 0 && answered.plans[0] != 0;
}

int report(Answered& answered) {
  std::printf("Answers compared, all equal\n");
  std::printf("  %7u readings: %u of valid bytes, %u refused with 1 to 21\n", all(answered.readings), answered.readings[0],
              all(answered.readings) - answered.readings[0]);
  std::printf("  %7u verdicts: %u accepted, %u locked, with their rings\n", all(answered.verdicts), answered.verdicts[0],
              answered.verdicts[22]);
  std::printf("  %7u requests: %u permitted, %u held, %u of a cart out, %u of no cart, ", all(answered.requests), answered.requests[0],
              answered.requests[26], answered.requests[25], answered.requests[24]);
  std::printf("%u on a record that no run reaches, %u under a locked plan\n", answered.requests[23], answered.requests[22]);
  std::printf("  %7u questions why: %u chains, the longest of %zu carts\n", all(answered.chains), answered.chains[0],
              answered.lengths.rbegin()->first);
  std::printf("  %7u nets: %u written, %u of them locked\n", all(answered.nets), answered.nets[0], answered.locked_nets);
  std::printf("  %7u plans\n", all(answered.plans));
  if (every_kind(answered)) return 0;
  std::printf("a kind of answer did not come up: the comparison is too small\n");
  return 1;
}

}  // namespace

int check_answers() {
  Answered answered;
  const std::vector<Size>& sizes = all_series[0].sizes;
  for (const Size& size : sizes) {
    for (Plans plans : {Plans::accepted, Plans::any}) {
      const std::vector<Input> inputs = make_inputs(size, inputs_of_a_size, plans);
      for (unsigned n = 0; n < inputs.size(); ++n) {
        const std::string what = differs(inputs[n], n, answered);
        if (what.empty()) continue;
        std::printf("%s, input %u: the answers of %s differ\n", size.label.c_str(), n, what.c_str());
        return 1;
      }
    }
    std::fprintf(stderr, "  compared %zu of %zu: %s\n", &size - &sizes[0] + 1, sizes.size(), size.label.c_str());
  }
  return report(answered);
}
