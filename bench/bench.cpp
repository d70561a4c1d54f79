// The benchmark: the proved code beside the hand-written yardstick, on the same random sheets, plans and requests.
//   bench check   the answers of both are compared
//   bench count   every operation is called between two marks; run under callgrind by bench/run
//   bench clock   nanoseconds of a call
//   bench stack   bytes of stack that a call takes
#include <cstdio>
#include <string>

#include "answers.hpp"
#include "costs.hpp"
#include "stack.hpp"

int main(int argc, char** argv) {
  const std::string what = argc == 2 ? argv[1] : "";
  if (what == "check") return check_answers();
  if (what == "count") return count_instructions();
  if (what == "clock") return time_calls();
  if (what == "stack") return measure_stack();
  std::fprintf(stderr, "bench check | count | clock | stack\n");
  return 2;
}
