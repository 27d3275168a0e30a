#include <vector>

#include "race.h"
#include "types.h"

namespace {

const int PAIRS = 400000;

// One object, which all handles reference.
class OneRoot : public Program {
public:
    Object* root = nullptr;

    void scan_roots(promote_func* visit, ScanContext* context) override {
        if (root != nullptr) visit(&root, context, 0);
    }
};

struct Job {
    Object* target;
    int batch;
    std::atomic<int>* ready;
    int threads;
};

void* make_pairs(void* argument) {
    Job& job = *(Job*)argument;
    engine::attach_thread();
    std::vector<OBJECTHANDLE> made(job.batch);
    (*job.ready)++;
    while (job.ready->load() < job.threads) sched_yield();
    for (int done = 0; done < PAIRS; done += job.batch) {
        for (OBJECTHANDLE& each : made) each = HndCreateHandle(engine::table(), HNDTYPE_STRONG, job.target);
        for (OBJECTHANDLE each : made) HndDestroyHandle(engine::table(), HNDTYPE_STRONG, each);
    }
    return nullptr;
}

double now() {
    timespec time;
    clock_gettime(CLOCK_MONOTONIC, &time);
    return time.tv_sec + time.tv_nsec / 1e9;
}

}  // namespace

int race_pairs(int threads, int batch) {
    OneRoot program;
    engine::start(&program, true);
    program.root = make_object(0, false, 1);
    std::atomic<int> ready(0);
    Job job{program.root, batch, &ready, threads};
    std::vector<pthread_t> running(threads);
    double start = now();
    for (pthread_t& each : running) pthread_create(&each, nullptr, make_pairs, &job);
    for (pthread_t& each : running) pthread_join(each, nullptr);
    printf("%.3f\n", (double)PAIRS * threads / (now() - start) / 1e6);
    return 0;
}
