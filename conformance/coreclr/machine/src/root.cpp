// Why an object lives: by what CoreCLR's handles and objects reference, while all other threads are suspended.
#include "machine.h"

namespace {

// Objects, each with the least name of those from which a chain of the same length leads to it.
using Layer = std::map<Object*, uint64_t>;

void reach(Layer& layer, const Layer& met, Object* object, uint64_t from) {
    if (object == nullptr || met.count(object) != 0) return;
    uint64_t& least = layer.emplace(object, from).first->second;
    if (from < least) least = from;
}

// What fields and attachments lead to from a layer, and was not met.
Layer beyond(const Layer& layer, const Layer& met, const std::multimap<Object*, Object*>& attached) {
    Layer next;
    for (auto& each : layer) {
        Cell* cell = (Cell*)each.first;
        for (int field = 0; field < fields_of(cell); field++) reach(next, met, cell->fields[field], each.second);
        auto led = attached.equal_range(each.first);
        for (auto other = led.first; other != led.second; ++other) reach(next, met, other->second, each.second);
    }
    return next;
}

}  // namespace

// What statics reference, what waits to be finalized, and what handles hold.
std::vector<Object*> Machine::anchors() {
    std::vector<Object*> found(statics_, statics_ + 16);
    for (uint64_t name : queue_) found.push_back(known_[name].object);
    for (Handle* each : handles_with_target())
        if (role_of(*each) == HOLDS) found.push_back(ObjectFromHandle(each->raw));
    return found;
}

// From which object to which dependent handles and the weak table lead.
std::multimap<Object*, Object*> Machine::attachments() {
    std::multimap<Object*, Object*> found;
    for (Handle* each : handles_with_target())
        if (role_of(*each) == ATTACHES) found.emplace(ObjectFromHandle(each->raw), GetDependentHandleSecondary(each->raw));
    return found;
}

std::string Machine::root(Caller& caller, const Line& line) {
    std::lock_guard<std::mutex> lock(suspends_);
    engine::Alone alone;
    take_ticket(caller);
    Object* goal = caller.objects[line.at(1)];
    if (goal == nullptr) return "nullref";
    std::multimap<Object*, Object*> attached = attachments();
    Layer layer, met;
    for (Object* each : anchors())
        if (each != nullptr) layer[each] = ((Cell*)each)->name;
    size_t length = 0;
    for (; !layer.empty() && layer.count(goal) == 0; length++) {
        met.insert(layer.begin(), layer.end());
        layer = beyond(layer, met, attached);
    }
    if (layer.empty()) return "unrooted";
    uint64_t name = layer[goal];
    return "root " + std::to_string(name >> 32) + "." + std::to_string(name & 0xFFFFFFFF) + " " + std::to_string(length);
}
