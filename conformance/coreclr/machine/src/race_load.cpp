#include "race.h"
#include "types.h"

namespace {

const int CALLERS = 4;

// A caller: its two object registers, and what its commands came to.
struct LoadCaller {
    Object* registers[2];
    int number;
    int rounds;
    uint64_t commands, made, live, collections, sum;
};

class Load : public Program {
public:
    LoadCaller callers[CALLERS];

    void scan_roots(promote_func* visit, ScanContext* context) override {
        for (LoadCaller& caller : callers)
            for (Object*& root : caller.registers)
                if (root != nullptr) visit(&root, context, 0);
    }
};

OBJECTHANDLE make_handle(int round, Object* target) {
    HHANDLETABLE table = engine::table();
    switch (round % 6) {
        case 0: return HndCreateHandle(table, HNDTYPE_STRONG, target);
        case 1: return HndCreateHandle(table, HNDTYPE_PINNED, target);
        case 2: return HndCreateHandle(table, HNDTYPE_WEAK_SHORT, target);
        case 3: return HndCreateHandle(table, HNDTYPE_WEAK_LONG, target);
        case 4: return CreateDependentHandle(table, target, target);
        default: return CreateVariableHandle(table, target, VHT_STRONG);
    }
}

uint32_t kind_of(int round) {
    const uint32_t kinds[] = {HNDTYPE_STRONG,    HNDTYPE_PINNED,    HNDTYPE_WEAK_SHORT,
                              HNDTYPE_WEAK_LONG, HNDTYPE_DEPENDENT, HNDTYPE_VARIABLE};
    return kinds[round % 6];
}

// A command, in which no collection of another thread begins.
template <typename Work>
void command(LoadCaller& caller, Work work) {
    engine::Cooperative working;
    work();
    caller.commands++;
}

void do_round(LoadCaller& caller, int round) {
    Object** r = caller.registers;
    OBJECTHANDLE handle;
    command(caller, [&] { r[0] = make_object((caller.number + round) % 8, false, ++caller.made); });
    command(caller, [&] { handle = make_handle(round, r[0]); caller.live++; });
    command(caller, [&] { ((Cell*)r[0])->value = round; });
    command(caller, [&] { r[1] = ObjectFromHandle(handle); });
    command(caller, [&] { caller.sum += ((Cell*)r[0])->value; });
    command(caller, [&] { r[0] = nullptr; });
    command(caller, [&] { r[1] = nullptr; });
    command(caller, [&] { HndDestroyHandle(engine::table(), kind_of(round), handle); caller.live--; });
    if (round % 16 != 0) return;
    command(caller, [&] { engine::collect(round % 3); });
    caller.collections++;
}

void* do_rounds(void* argument) {
    LoadCaller& caller = *(LoadCaller*)argument;
    engine::attach_thread();
    for (int round = 1; round <= caller.rounds; round++) do_round(caller, round);
    return nullptr;
}

}  // namespace

int race_load(int rounds) {
    static Load load;
    engine::start(&load, true);
    type_of(0, false);
    pthread_t running[CALLERS];
    for (int i = 0; i < CALLERS; i++) {
        load.callers[i].number = i;
        load.callers[i].rounds = rounds;
        pthread_create(&running[i], nullptr, do_rounds, &load.callers[i]);
    }
    LoadCaller sum = LoadCaller();
    for (int i = 0; i < CALLERS; i++) {
        pthread_join(running[i], nullptr);
        LoadCaller& caller = load.callers[i];
        sum.commands += caller.commands;
        sum.made += caller.made;
        sum.live += caller.live;
        sum.collections += caller.collections;
        sum.sum += caller.sum;
    }
    printf("load callers %d commands %lu made %lu live %lu collections %lu sum %lu\n", CALLERS, sum.commands, sum.made, sum.live,
           sum.collections, sum.sum);
    return 0;
}
