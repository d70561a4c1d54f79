// The yardstick: reading, judging, moving, planning and the net as documents 01 and 02 say, written by hand in C++ and tuned, with bit sets
// and no proof. The proved code is measured against it. Carts, zones and steps count from 0; step j of cart i stands at 8 * i + j.
#pragma once

#include "yardstick/judging.hpp"
#include "yardstick/moving.hpp"
#include "yardstick/net.hpp"
#include "yardstick/planning.hpp"
#include "yardstick/reading.hpp"
