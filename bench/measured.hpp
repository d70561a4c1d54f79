// What is measured, each a function of its own that leaves its answer in `proved` or `by_hand`.
#pragma once

#include "inputs.hpp"

struct Proved {
  oblakosh_sheet_read sheet;
  oblakosh_plan_read plan;
  std::size_t made;  // by the judge's core, with its entering times
  std::uint32_t enter[128];
  oblakosh_judged judged;
  std::uint32_t words[OBLAKOSH_WORDS];
  oblakosh_asked asked;
  oblakosh_record record;
  oblakosh_chain chain;
  oblakosh_planned planned;
  std::uint8_t room[OBLAKOSH_PLAN];
  oblakosh_net_run net;
  std::uint8_t text[OBLAKOSH_NET];
};

struct ByHand {
  yardstick::Outcome read;
  yardstick::Sheet sheet;
  yardstick::Lanes lanes;
  yardstick::Orders orders;
  yardstick::CartSet stuck;  // by the judge's core, with its entering times
  yardstick::Standing standing;
  std::uint32_t enter[128];
  yardstick::Judged judged;
  std::uint32_t words[OBLAKOSH_WORDS];
  yardstick::Asked asked;
  yardstick::Record record;
  yardstick::Chain chain;
  yardstick::Planned planned;
  std::uint8_t room[OBLAKOSH_PLAN];
  yardstick::NetRun net;
  std::uint8_t text[OBLAKOSH_NET];
};

extern Proved proved;
extern ByHand by_hand;

using Call = void (*)(const Input&);

// The judge's core takes tables that are read already and entering times that are all 0; whoever calls it sees to that.
void clear_times();

extern "C" {
void proved_read_sheet(const Input&);
void proved_read_plan(const Input&);
void proved_core(const Input&);
void proved_judge(const Input&);
void proved_ask(const Input&);
void proved_move(const Input&);
void proved_why(const Input&);
void proved_net(const Input&);
void proved_plan(const Input&);
void proved_first(const Input&);
void yardstick_read_sheet(const Input&);
void yardstick_read_plan(const Input&);
void yardstick_core(const Input&);
void yardstick_judge(const Input&);
void yardstick_move(const Input&);
void yardstick_why(const Input&);
void yardstick_net(const Input&);
void yardstick_plan(const Input&);
void yardstick_first(const Input&);
}
