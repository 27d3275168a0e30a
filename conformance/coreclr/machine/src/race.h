// What the race times of CoreCLR.
#pragma once

#include <cstdint>
#include <string>

// Runs a script and prints how many microseconds of the processor each of its last `count` collections took, on average.
int race_collections(const std::string& text, int count, bool compact);

// Prints how many pairs of a creation and a destruction of a strong handle so many threads make in a second of the clock,
// in millions. Each thread makes as many handles as a batch has, and then destroys them.
int race_pairs(int threads, int batch);

// Makes one call on handles, objects or fields so many times, and prints the nanoseconds of each. The calls are those of
// benches/host.c: `handle_get`, `handle_new` with a destruction, `object_new`, `field_set`.
int race_calls(const std::string& call, uint64_t calls);

// Does the rounds of the program's own load by four threads, and prints its line.
int race_load(int rounds);
