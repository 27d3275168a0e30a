// One collection by CoreCLR, and what it did, as the handles, the finalization queue and the table of objects show it. It is
// looked at while all other threads are suspended.
#include "machine.h"

namespace {

std::vector<uint64_t>* queue_of_scan;

void note_name(Object** object, ScanContext*, uint32_t) { queue_of_scan->push_back(((Cell*)*object)->name); }

// The names of all that CoreCLR's own queue has.
std::vector<uint64_t> names_queued() {
    std::vector<uint64_t> names;
    queue_of_scan = &names;
    ScanContext context;
    g_theGCHeap->DiagScanFinalizeQueue(&note_name, &context);
    return names;
}

}  // namespace

Role role_of(const Handle& handle) {
    switch (handle.kind) {
        case HNDTYPE_WEAK_SHORT: return SHORT;
        case HNDTYPE_WEAK_LONG: return LONG;
        case HNDTYPE_DEPENDENT: return ATTACHES;
        case HNDTYPE_REFCOUNTED: return handle.count > 0 ? HOLDS : LONG;
        case HNDTYPE_VARIABLE:
            return handle.strength == VHT_WEAK_SHORT ? SHORT : handle.strength == VHT_WEAK_LONG ? LONG : HOLDS;
        default: return HOLDS;
    }
}

void Machine::collect_unobserved(int generation) {
    wanted_ = generation;
    engine::Cooperative working;
    engine::collect(generation);
}

std::string Machine::collect(Caller& caller, int generation) {
    std::lock_guard<std::mutex> lock(suspends_);
    collector_ = &caller;
    collect_unobserved(generation);
    collector_ = nullptr;
    wanted_ = -1;
    return report_;
}

void Machine::threads_are_suspended() {
    if (collector_ == nullptr) return;
    check_condemned();
    with_target_ = handles_with_target();
}

void Machine::collection_begins(int generation) {
    if (wanted_ == -1) {
        fprintf(stderr, "coreclr: a collection that was not asked for\n");
        exit(6);
    }
    if (collector_ != nullptr && generation != wanted_)
        cut(*collector_, "a collection of an older generation than was asked for");
}

void Machine::threads_go_on() {
    if (collector_ == nullptr) return;
    report();
    take_ticket(*collector_);
}

// Where CoreCLR demoted an object, or did not promote it, other objects are condemned than the machine says.
void Machine::check_condemned() {
    for (auto& each : known_) {
        if (each.second.object == nullptr) continue;
        int is = (int)g_theGCHeap->WhichGeneration(each.second.object);
        if ((is <= wanted_) != (each.second.generation <= wanted_))
            cut(*collector_, "a collection after CoreCLR demoted an object, or did not promote it");
    }
}

std::vector<Handle*> Machine::handles_with_target() {
    std::vector<Handle*> found;
    for (Caller& caller : callers_)
        for (Handle& each : caller.made)
            if (each.is_live && ObjectFromHandle(each.raw) != nullptr) found.push_back(&each);
    for (Attached& each : attached_)
        if (ObjectFromHandle(each.handle.raw) != nullptr) found.push_back(&each.handle);
    return found;
}

// The names that joined CoreCLR's queue join ours in rising order, and their objects are registered no more.
size_t Machine::note_queued() {
    size_t joined = 0;
    std::map<uint64_t, bool> waiting;
    for (uint64_t name : queue_) waiting[name] = true;
    std::map<uint64_t, bool> fresh;
    for (uint64_t name : names_queued())
        if (waiting.count(name) == 0) fresh[name] = true;
    for (auto& each : fresh) {
        queue_.push_back(each.first);
        known_[each.first].is_registered = false;
        joined++;
    }
    return joined;
}

void Machine::report() {
    collections_++;
    size_t queued = note_queued();
    size_t kept = 0, removed = 0;
    for (auto& each : known_) {
        Known& known = each.second;
        if (known.generation > wanted_) continue;
        (known.object != nullptr ? kept : removed)++;
        if (known.generation < 2) known.generation++;
    }
    for (auto each = known_.begin(); each != known_.end();) {
        bool is_gone = each->second.object == nullptr;
        if (is_gone) used_ -= size_of(each->second.fields);
        each = is_gone ? known_.erase(each) : std::next(each);
    }
    size_t cleared[4] = {0, 0, 0, 0};
    for (Handle* each : with_target_)
        if (ObjectFromHandle(each->raw) == nullptr) cleared[role_of(*each)]++;
    report_ = "kept " + std::to_string(kept) + " removed " + std::to_string(removed) + " short " +
              std::to_string(cleared[SHORT]) + " long " + std::to_string(cleared[LONG]) + " dep " +
              std::to_string(cleared[ATTACHES]) + " revived " + std::to_string(queued);
    if (cleared[HOLDS] != 0) report_ += " held " + std::to_string(cleared[HOLDS]);
}
