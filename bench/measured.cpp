#include "measured.hpp"

#include <cstring>
#include <new>

// The proved core, as its static library exports it.
extern "C" std::size_t bench_settle(const std::uint32_t* sheet, const std::uint16_t* ahead, std::uint32_t* enter);

Proved proved;
ByHand by_hand;

void clear_times() {
  std::memset(proved.enter, 0, sizeof proved.enter);
  std::memset(by_hand.enter, 0, sizeof by_hand.enter);
}

namespace {

yardstick::Lent sheet_of(const Input& input) { return {input.sheet_bytes.data(), input.sheet_bytes.size()}; }
yardstick::Lent plan_of(const Input& input) { return {input.plan_bytes.data(), input.plan_bytes.size()}; }

}  // namespace

// Answers are made where they stay, so that neither a copy nor its room on the stack is counted.
#define MEASURED extern "C" __attribute__((noipa)) void

MEASURED proved_read_sheet(const Input& input) {
  const auto [s, s_length] = sheet_of(input);
  new (&proved.sheet) oblakosh_sheet_read(oblakosh_read_sheet(s, s_length));
}

MEASURED proved_read_plan(const Input& input) {
  const auto [s, s_length] = sheet_of(input);
  const auto [p, p_length] = plan_of(input);
  new (&proved.plan) oblakosh_plan_read(oblakosh_read_plan(s, s_length, p, p_length));
}

MEASURED proved_core(const Input& input) {
  proved.made = bench_settle(input.table, input.orders.ahead, proved.enter);
}

MEASURED proved_judge(const Input& input) {
  const auto [s, s_length] = sheet_of(input);
  const auto [p, p_length] = plan_of(input);
  new (&proved.judged) oblakosh_judged(oblakosh_judge(s, s_length, p, p_length, proved.words, OBLAKOSH_WORDS));
}

MEASURED proved_ask(const Input& input) {
  const auto [s, s_length] = sheet_of(input);
  const auto [p, p_length] = plan_of(input);
  new (&proved.asked) oblakosh_asked(oblakosh_ask(s, s_length, p, p_length, input.record, input.cart));
}

MEASURED proved_move(const Input& input) {
  const auto [s, s_length] = sheet_of(input);
  const auto [p, p_length] = plan_of(input);
  proved.record = input.record;
  new (&proved.asked) oblakosh_asked(oblakosh_move_cart(s, s_length, p, p_length, &proved.record, input.cart));
}

MEASURED proved_why(const Input& input) {
  const auto [s, s_length] = sheet_of(input);
  const auto [p, p_length] = plan_of(input);
  new (&proved.chain) oblakosh_chain(oblakosh_why(s, s_length, p, p_length, input.record, input.cart));
}

MEASURED proved_net(const Input& input) {
  const auto [s, s_length] = sheet_of(input);
  const auto [p, p_length] = plan_of(input);
  new (&proved.net) oblakosh_net_run(oblakosh_net(s, s_length, p, p_length, proved.text, OBLAKOSH_NET));
}

MEASURED proved_plan(const Input& input) {
  const auto [s, s_length] = sheet_of(input);
  new (&proved.planned) oblakosh_planned(oblakosh_plan(s, s_length, proved.room, OBLAKOSH_PLAN));
}

MEASURED proved_first(const Input& input) {
  const auto [s, s_length] = sheet_of(input);
  new (&proved.planned) oblakosh_planned(oblakosh_plan_first(s, s_length, proved.room, OBLAKOSH_PLAN));
}

MEASURED yardstick_read_sheet(const Input& input) { by_hand.read = yardstick::read_sheet(sheet_of(input), by_hand.sheet); }

MEASURED yardstick_read_plan(const Input& input) {
  by_hand.read = yardstick::read_plan(sheet_of(input), plan_of(input), by_hand.sheet, by_hand.lanes, by_hand.orders);
}

MEASURED yardstick_core(const Input& input) {
  yardstick::NoOrder none;
  const yardstick::Tables tables = yardstick::tables_of(input.sheet, input.lanes, input.orders.ahead);
  by_hand.stuck = yardstick::settle(tables, by_hand.enter, none, &by_hand.standing);
}

MEASURED yardstick_judge(const Input& input) {
  new (&by_hand.judged) yardstick::Judged(yardstick::judge(sheet_of(input), plan_of(input), by_hand.words, OBLAKOSH_WORDS));
}

MEASURED yardstick_move(const Input& input) {
  std::memcpy(&by_hand.record, &input.record, sizeof by_hand.record);
  new (&by_hand.asked) yardstick::Asked(yardstick::move_cart(sheet_of(input), plan_of(input), by_hand.record, input.cart));
}

MEASURED yardstick_why(const Input& input) {
  std::memcpy(&by_hand.record, &input.record, sizeof by_hand.record);
  new (&by_hand.chain) yardstick::Chain(yardstick::why(sheet_of(input), plan_of(input), by_hand.record, input.cart));
}

MEASURED yardstick_net(const Input& input) {
  new (&by_hand.net) yardstick::NetRun(yardstick::net(sheet_of(input), plan_of(input), by_hand.text, OBLAKOSH_NET));
}

MEASURED yardstick_plan(const Input& input) {
  new (&by_hand.planned) yardstick::Planned(yardstick::plan(sheet_of(input), by_hand.room, OBLAKOSH_PLAN));
}

MEASURED yardstick_first(const Input& input) {
  new (&by_hand.planned) yardstick::Planned(yardstick::plan(sheet_of(input), by_hand.room, OBLAKOSH_PLAN, yardstick::Rule::first_come));
}
