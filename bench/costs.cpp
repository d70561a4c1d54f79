#include "costs.hpp"

#include <time.h>

#include <algorithm>
#include <cstdio>

#include "measured.hpp"

// Callgrind writes what it counted so far, and begins anew, whenever this is called.
extern "C" __attribute__((noipa)) void mark() { asm volatile("" : : : "memory"); }

namespace {

constexpr unsigned calls_of_a_size = 40, plans_of_a_size = 4, repetitions = 41;

const char* const makers[2] = {"proved", "yardstick"};

// The same operation by both makers.
struct Operation {
  const char* name;
  Call by[2];
};

const Operation operations[] = {
    {"read sheet", {proved_read_sheet, yardstick_read_sheet}}, {"read plan", {proved_read_plan, yardstick_read_plan}},
    {"core", {proved_core, yardstick_core}},                   {"judge", {proved_judge, yardstick_judge}},
    {"move", {proved_move, yardstick_move}},                   {"why", {proved_why, yardstick_why}},
    {"net", {proved_net, yardstick_net}},                      {"first come", {proved_first, yardstick_first}},
    {"plan", {proved_plan, yardstick_plan}},
};

bool is_plan(const Operation& operation) { return operation.by[0] == proved_plan; }
bool is_core(const Operation& operation) { return operation.by[0] == proved_core; }

// How many turns of the removal rule the plans take that are counted.
unsigned turns_of(const std::vector<Input>& inputs) {
  unsigned turns = 0;
  for (unsigned n = 0; n < plans_of_a_size; ++n) {
    std::uint8_t room[OBLAKOSH_PLAN];
    turns += yardstick::plan({inputs[n].sheet_bytes.data(), inputs[n].sheet_bytes.size()}, room, sizeof room).turns;
  }
  return turns;
}

void count_size(const Series& series, const Size& size) {
  const std::vector<Input> inputs = make_inputs(size, calls_of_a_size, Plans::accepted);
  const unsigned turns = turns_of(inputs);
  for (const Operation& operation : operations) {
    const unsigned calls = is_plan(operation) ? plans_of_a_size : calls_of_a_size;
    for (unsigned maker : {0, 1}) {
      for (unsigned n = 0; n < calls; ++n) {
        clear_times();
        operation.by[maker](inputs[n]);
      }
      mark();
      std::printf("%s\t%s\t%s\t%s\t%u\t%u\n", series.name.c_str(), size.label.c_str(), makers[maker], operation.name, calls,
                  is_plan(operation) ? turns : 0);
    }
  }
}

double median(std::vector<double> values) {
  const auto middle = values.begin() + values.size() / 2;
  std::nth_element(values.begin(), middle, values.end());
  return *middle;
}

// What this process had of the processor so far: other processes' turns are not in it.
double processor_nanoseconds() {
  timespec now;
  clock_gettime(CLOCK_PROCESS_CPUTIME_ID, &now);
  return 1e9 * static_cast<double>(now.tv_sec) + static_cast<double>(now.tv_nsec);
}

// Nanoseconds of a call by each maker; both in turn, so that what else the machine does slows both.
void time_operation(const std::vector<Input>& inputs, unsigned rounds, const Operation& operation, std::vector<double> (&taken)[2]) {
  for (unsigned repetition = 0; repetition < repetitions; ++repetition) {
    for (unsigned maker : {0, 1}) {
      const double start = processor_nanoseconds();
      for (unsigned round = 0; round < rounds; ++round)
        for (const Input& input : inputs) operation.by[maker](input);
      taken[maker].push_back((processor_nanoseconds() - start) / static_cast<double>(rounds * inputs.size()));
    }
  }
}

void time_size(const Size& size) {
  // Many inputs, so that the processor does not learn their branches by heart.
  const std::vector<Input> inputs = make_inputs(size, 10 * calls_of_a_size, Plans::accepted);
  const std::vector<Input> few(inputs.begin(), inputs.begin() + plans_of_a_size);
  for (const Operation& operation : operations) {
    if (is_core(operation)) continue;
    std::vector<double> taken[2];
    time_operation(is_plan(operation) ? few : inputs, is_plan(operation) ? 1 : 2, operation, taken);
    for (unsigned maker : {0, 1})
      std::printf("clock\t%s\t%s\t%s\t%f\n", size.label.c_str(), makers[maker], operation.name, median(taken[maker]));
  }
}

}  // namespace

int count_instructions() {
  unsigned all = 0, counted = 0;
  for (const Series& series : all_series) all += static_cast<unsigned>(series.sizes.size());
  for (const Series& series : all_series) {
    for (const Size& size : series.sizes) {
      count_size(series, size);
      std::fprintf(stderr, "  counted %u of %u: %s, %s\n", ++counted, all, series.name.c_str(), size.label.c_str());
    }
  }
  return 0;
}

int time_calls() {
  const std::vector<Size>& sizes = all_series[0].sizes;
  for (const Size& size : sizes) {
    time_size(size);
    std::fprintf(stderr, "  timed %zu of %zu: %s\n", &size - &sizes[0] + 1, sizes.size(), size.label.c_str());
  }
  return 0;
}
