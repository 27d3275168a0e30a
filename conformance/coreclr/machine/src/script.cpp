#include "script.h"

#include <cstdio>
#include <cstdlib>
#include <map>
#include <sstream>

namespace {

// How many words each command has, and one more where it may have another.
const std::map<std::string, std::pair<size_t, size_t>> COMMANDS = {
    {"new", {3, 4}},    {"set", {4, 4}},      {"get", {4, 4}},   {"val", {3, 3}},   {"read", {2, 2}},  {"copy", {3, 3}},
    {"drop", {2, 2}},   {"sput", {3, 3}},     {"sget", {3, 3}},  {"gen", {2, 2}},   {"hnew", {4, 5}},  {"suppress", {2, 2}},
    {"final", {2, 2}},  {"reregister", {2, 2}}, {"hget", {3, 3}}, {"hset", {3, 3}},  {"hsec", {3, 3}},  {"collect", {2, 2}},
    {"hdep", {3, 3}},   {"hvar", {3, 3}},     {"hup", {2, 2}},   {"hdown", {2, 2}}, {"hfree", {2, 2}}, {"caller", {2, 2}},
    {"hput", {3, 3}},   {"hpick", {3, 3}},   {"cadd", {3, 3}},  {"cfind", {3, 3}}, {"cremove", {2, 2}}, {"addr", {2, 2}},
    {"trim", {2, 2}},   {"gcroot", {2, 2}},
};

std::vector<std::string> words_of(std::string line) {
    line = line.substr(0, line.find('#'));
    std::istringstream words(line);
    std::vector<std::string> found;
    std::string word;
    while (words >> word) found.push_back(word);
    return found;
}

void check(const Line& line) {
    auto command = COMMANDS.find(line.verb());
    if (command == COMMANDS.end()) {
        fprintf(stderr, "line %d: %s is no command that CoreCLR has an answer to\n", line.number, line.verb().c_str());
        exit(3);
    }
    if (line.words.size() < command->second.first || line.words.size() > command->second.second) line.fault();
}

}  // namespace

void Line::fault() const {
    printf("fault line %d\n", number);
    exit(3);
}

uint64_t Line::at(size_t word, uint64_t most) const {
    const std::string& text = words[word];
    size_t from = text.find_first_of("0123456789");
    if (from == std::string::npos || from > 1) fault();
    uint64_t value = strtoull(text.c_str() + from, nullptr, 10);
    if (value > most) fault();
    return value;
}

Script parse(const std::string& text) {
    Script script;
    script.callers.resize(1);
    std::istringstream lines(text);
    std::string content;
    size_t caller = 0;
    for (int number = 1; std::getline(lines, content); number++) {
        Line line{number, words_of(content)};
        if (line.words.empty()) continue;
        check(line);
        if (line.is("caller")) {
            caller = line.at(1);
            if (script.callers.size() <= caller) script.callers.resize(caller + 1);
        } else {
            script.callers[caller].push_back(line);
        }
    }
    return script;
}
