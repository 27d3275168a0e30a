// The program on CoreCLR's collector and handle table. The scripts beside this folder call it.
#include <iostream>
#include <iterator>

#include "answers.h"
#include "race.h"

namespace {

const char* const USAGE =
    "usage: coreclr answers [--compact] [--slots] [--threads] [--heap CELLS] < SCRIPT | collections COUNT < SCRIPT |\n"
    "       pairs THREADS BATCH | load ROUNDS | calls CALL N\n";

std::string input() { return std::string(std::istreambuf_iterator<char>(std::cin), std::istreambuf_iterator<char>()); }

int usage() {
    fprintf(stderr, "%s", USAGE);
    return 2;
}

int answers_by(int count, char** words) {
    Ways ways;
    for (int i = 2; i < count; i++) {
        std::string word = words[i];
        if (word == "--heap" && i + 1 < count)
            ways.heap = strtoull(words[++i], nullptr, 10);
        else if (word == "--compact" || word == "--slots" || word == "--threads")
            (word == "--compact" ? ways.compact : word == "--slots" ? ways.slots : ways.threads) = true;
        else
            return usage();
    }
    return answers(input(), ways);
}

}  // namespace

int main(int count, char** words) {
    std::string mode = count > 1 ? words[1] : "";
    if (mode == "answers") return answers_by(count, words);
    if (mode == "collections" && count == 3) return race_collections(input(), atoi(words[2]), true);
    if (mode == "pairs" && count == 4) return race_pairs(atoi(words[2]), atoi(words[3]));
    if (mode == "load" && count == 3) return race_load(atoi(words[2]));
    if (mode == "calls" && count == 4) return race_calls(words[2], strtoull(words[3], nullptr, 10));
    return usage();
}
