#include "stack.hpp"

#include <ucontext.h>

#include <algorithm>
#include <cstdio>
#include <cstring>

#include "measured.hpp"

namespace {

constexpr std::size_t judging_limit = 8192;  // bytes that judging is to stay within
constexpr unsigned inputs_of_a_size = 40;
constexpr std::uint8_t paint = 0xa5;

// A call made on a stack that was painted first: how much of the paint is gone.
alignas(64) std::uint8_t painted[1 << 18];
ucontext_t outside, inside;
Call called;
const Input* called_with;

void call_inside() {
  if (called != nullptr) called(*called_with);
}

std::size_t touched(Call call, const Input& input) {
  std::memset(painted, paint, sizeof painted);
  called = call;
  called_with = &input;
  clear_times();
  getcontext(&inside);
  inside.uc_stack.ss_sp = painted;
  inside.uc_stack.ss_size = sizeof painted;
  inside.uc_link = &outside;
  makecontext(&inside, call_inside, 0);
  swapcontext(&outside, &inside);
  return static_cast<std::size_t>(std::end(painted) - std::find_if(painted, std::end(painted), [](std::uint8_t b) { return b != paint; }));
}

std::size_t most(Call call, const std::vector<Input>& inputs) {
  std::size_t bytes = 0;
  for (const Input& input : inputs) bytes = std::max(bytes, touched(call, input) - touched(nullptr, input));
  return bytes;
}

void print(const char* operation, Call proved, Call yardstick, const std::vector<Input>& inputs, const char* note = "") {
  char by_hand[16] = "";
  if (yardstick != nullptr) std::snprintf(by_hand, sizeof by_hand, "%zu", most(yardstick, inputs));
  std::printf("%-20s %9zu %9s%s\n", operation, most(proved, inputs), by_hand, note);
}

}  // namespace

int measure_stack() {
  std::vector<Input> accepted, locked;
  for (const Size& size : all_series[0].sizes) {
    for (Input& input : make_inputs(size, inputs_of_a_size, Plans::accepted)) accepted.push_back(std::move(input));
    for (Input& input : make_inputs(size, inputs_of_a_size, Plans::any)) {
      yardstick_judge(input);
      if (by_hand.judged.outcome.number == 22) locked.push_back(std::move(input));
    }
  }
  const std::string limit = "   limit " + std::to_string(judging_limit);
  std::printf("\nStack: bytes of a call, the most over %zu accepted and %zu locked plans of all sizes\n", accepted.size(), locked.size());
  std::printf("%-20s %9s %9s\n", "", "proved", "yardstick");
  print("read sheet", proved_read_sheet, yardstick_read_sheet, accepted);
  print("read plan", proved_read_plan, yardstick_read_plan, accepted);
  print("judge's core", proved_core, yardstick_core, accepted);
  print("judge, accepted", proved_judge, yardstick_judge, accepted, limit.c_str());
  print("judge, locked", proved_judge, yardstick_judge, locked, limit.c_str());
  print("first come", proved_first, yardstick_first, accepted);
  print("plan", proved_plan, yardstick_plan, accepted);
  print("ask", proved_ask, nullptr, accepted);
  print("move", proved_move, yardstick_move, accepted);
  print("why", proved_why, yardstick_why, accepted);
  print("net, accepted", proved_net, yardstick_net, accepted);
  print("net, locked", proved_net, yardstick_net, locked);
  return 0;
}
