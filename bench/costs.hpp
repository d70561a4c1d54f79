// What calls cost, as lines of fields parted by tabs, which tables.py lays out.
#pragma once

// Calls each operation between two marks; run under callgrind. A line for each mark: series, size, maker, operation, calls, turns.
int count_instructions();

// Nanoseconds of processor time of a call, the median of many repetitions. A line for each: series, size, maker, operation, nanoseconds.
int time_calls();
