// The lines of a script as commands.
#pragma once

#include <cstdint>
#include <string>
#include <vector>

// A line and its words. `new r1 2 fin` has numbers 1 and 2 in its second and third word.
struct Line {
    int number;
    std::vector<std::string> words;

    // The register or number in a word, with its letter dropped. One above `most` ends the program.
    uint64_t at(size_t word, uint64_t most = 15) const;

    // Ends the program, since the line has no reading.
    [[noreturn]] void fault() const;

    const std::string& verb() const { return words[0]; }
    bool is(const char* word) const { return words[0] == word; }
};

// The commands of each caller. Callers come one after another in rising number.
struct Script {
    std::vector<std::vector<Line>> callers;
};

// The script of a text. A line whose command, or whose number of words, the language does not have ends the program.
Script parse(const std::string& text);
