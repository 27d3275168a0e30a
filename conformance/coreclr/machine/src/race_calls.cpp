#include "race.h"
#include "types.h"

namespace {

// Locals that the collector sees, in the place of a context's.
class Locals : public Program {
public:
    Object* locals[4] = {nullptr, nullptr, nullptr, nullptr};

    void scan_roots(promote_func* visit, ScanContext* context) override {
        for (Object*& local : locals)
            if (local != nullptr) visit(&local, context, 0);
    }
};

// Read after each load, as a host reads the identity that it gets.
volatile uint64_t read_name;

double now() {
    timespec time;
    clock_gettime(CLOCK_THREAD_CPUTIME_ID, &time);
    return time.tv_sec + time.tv_nsec / 1e9;
}

void get_targets(Locals& program, OBJECTHANDLE handle, uint64_t calls) {
    for (uint64_t i = 0; i < calls; i++) {
        program.locals[2] = ObjectFromHandle(handle);
        read_name = ((Cell*)program.locals[2])->name;
    }
}

void make_and_destroy(Locals& program, uint64_t calls) {
    for (uint64_t i = 0; i < calls; i++) {
        OBJECTHANDLE made = HndCreateHandle(engine::table(), HNDTYPE_STRONG, program.locals[0]);
        HndDestroyHandle(engine::table(), HNDTYPE_STRONG, made);
    }
}

void make_objects(Locals& program, uint64_t calls) {
    for (uint64_t i = 0; i < calls; i++) program.locals[2] = make_object(2, false, i + 3);
}

void store_fields(Locals& program, uint64_t calls) {
    for (uint64_t i = 0; i < calls; i++) {
        Cell* object = (Cell*)program.locals[0];
        engine::store(&object->fields[1], program.locals[1]);
    }
}

}  // namespace

int race_calls(const std::string& call, uint64_t calls) {
    Locals program;
    engine::start(&program, false);
    engine::Cooperative works;
    program.locals[0] = make_object(4, false, 1);
    program.locals[1] = make_object(4, false, 2);
    OBJECTHANDLE handle = HndCreateHandle(engine::table(), HNDTYPE_STRONG, program.locals[0]);
    double start = now();
    if (call == "handle_get")
        get_targets(program, handle, calls);
    else if (call == "handle_new")
        make_and_destroy(program, calls);
    else if (call == "object_new")
        make_objects(program, calls);
    else if (call == "field_set")
        store_fields(program, calls);
    else
        return 2;
    printf("%.2f\n", (now() - start) / calls * 1e9);
    return 0;
}
