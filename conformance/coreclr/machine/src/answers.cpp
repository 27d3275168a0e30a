#include "answers.h"

#include "machine.h"

namespace {

struct Job {
    Machine* machine;
    const std::vector<Line>* lines;
    size_t caller;
    std::atomic<size_t>* ready;
    size_t threads;
};

// Callers begin together, and each rests now and then, so that they are done in turns also where processors are few.
void* do_lines(void* argument) {
    const Job& job = *(const Job*)argument;
    engine::attach_thread();
    (*job.ready)++;
    while (job.ready->load() < job.threads) sched_yield();
    uint32_t chance = (uint32_t)job.caller;
    for (const Line& line : *job.lines) {
        job.machine->answer(job.caller, line);
        chance = chance * 1664525 + 1013904223;
        timespec rest{0, 1};
        if (chance >> 29 == 0) nanosleep(&rest, nullptr);
    }
    return nullptr;
}

void in_threads(Machine& machine, const Script& script) {
    std::atomic<size_t> ready(0);
    std::vector<Job> jobs;
    for (size_t caller = 0; caller < script.callers.size(); caller++)
        jobs.push_back(Job{&machine, &script.callers[caller], caller, &ready, script.callers.size()});
    std::vector<pthread_t> running(jobs.size());
    for (size_t i = 0; i < jobs.size(); i++) pthread_create(&running[i], nullptr, do_lines, &jobs[i]);
    for (pthread_t& each : running) pthread_join(each, nullptr);
}

}  // namespace

int answers(const std::string& text, const Ways& ways) {
    Script script = parse(text);
    size_t lines = 0;
    for (const auto& each : script.callers) lines += each.size();
    Journal journal(lines);
    Machine machine(script.callers.size(), true, journal, ways.heap);
    engine::start(&machine, ways.compact);
    engine::allocate_in_turn();
    type_of(0, false);
    if (ways.threads)
        in_threads(machine, script);
    else
        for (size_t caller = 0; caller < script.callers.size(); caller++)
            for (const Line& line : script.callers[caller]) machine.answer(caller, line);
    journal.print(ways.slots);
    printf("%s\n", machine.end().c_str());
    return 0;
}
