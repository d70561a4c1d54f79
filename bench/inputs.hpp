// What is measured: random sheets, plans for them and requests in the middle of runs, at sizes of three series.
#pragma once

#include <string>
#include <vector>

#include "../include/oblakosh.h"
#include "yardstick.hpp"

using Bytes = std::vector<std::uint8_t>;

constexpr unsigned own_lane = 0;  // as a number of lanes: each cart has its own

struct Size {
  std::string label;
  unsigned zones, carts, steps, lanes;
};

// The rows of one table.
struct Series {
  std::string name;
  std::vector<Size> sizes;
};

// Several sizes; growth with carts; growth with zones.
extern const Series all_series[3];

struct Input {
  Bytes sheet_bytes, plan_bytes;
  yardstick::Sheet sheet;
  std::uint32_t table[480];  // the sheet's facts as the proved core takes them (crates/sheet_table)
  yardstick::Lanes lanes;
  yardstick::Orders orders;
  oblakosh_record record;
  std::size_t cart;
};

enum class Plans { accepted, any };

// The same inputs whenever the same are asked for.
std::vector<Input> make_inputs(const Size& size, unsigned count, Plans plans);

// The same request with a byte of the sheet or the plan changed, or with bytes cut off or added.
Input spoiled(Input input, unsigned seed);

// The same input with another request: on a record that a run reaches, or on one that is changed in a place; for any cart number up to 16.
Input asked_otherwise(Input input, unsigned seed);
