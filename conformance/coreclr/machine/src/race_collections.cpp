#include "machine.h"
#include "race.h"

namespace {

double processor_now() {
    timespec now;
    clock_gettime(CLOCK_THREAD_CPUTIME_ID, &now);
    return now.tv_sec * 1e6 + now.tv_nsec / 1e3;
}

int collections_in(const std::vector<Line>& lines) {
    int count = 0;
    for (const Line& line : lines) count += line.is("collect") ? 1 : 0;
    return count;
}

}  // namespace

// The clock runs from the first of several collections in a row to the last, since reading it takes time too.
int race_collections(const std::string& text, int count, bool compact) {
    Script script = parse(text);
    Journal journal(script.callers[0].size());
    Machine machine(1, false, journal, UINT64_MAX);
    engine::start(&machine, compact);
    int before = collections_in(script.callers[0]) - count;
    double since = 0, taken = 0;
    bool runs = false;
    for (const Line& line : script.callers[0]) {
        bool counts = line.is("collect") && --before < 0;
        if (counts && !runs) since = processor_now();
        if (!counts && runs) taken += processor_now() - since;
        runs = counts;
        if (line.is("collect"))
            machine.collect_unobserved((int)line.at(1, 2));
        else
            machine.answer(0, line);
    }
    if (runs) taken += processor_now() - since;
    printf("%.3f\n", taken / count);
    return 0;
}
