// A script's text by CoreCLR.
#pragma once

#include <cstdint>
#include <string>

// How a script is done: whether each collection compacts, whether lines have the marks of slots and blocks, whether callers are
// threads, and how many cells the heap has.
struct Ways {
    bool compact = false;
    bool slots = false;
    bool threads = false;
    uint64_t heap = 1000000;
};

// Prints the text. From where answers are no longer to be compared, a line on the error output says why.
int answers(const std::string& text, const Ways& ways);
