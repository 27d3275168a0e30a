// The weak table by CoreCLR's dependent handles, as .NET's ConditionalWeakTable has it: one for each of its slots, whose target
// is the key and whose secondary is the value. Which key it has is what CoreCLR's table says. The handle of an idle slot stays.
#include "machine.h"

Attached* Machine::attached_to(Object* key) {
    for (Attached& each : attached_)
        if (ObjectFromHandle(each.handle.raw) == key) return &each;
    return nullptr;
}

// The least idle slot, else a new one.
Attached& Machine::idle(Caller& caller) {
    Attached* least = nullptr;
    for (Attached& each : attached_)
        if (ObjectFromHandle(each.handle.raw) == nullptr && (least == nullptr || each.slot < least->slot)) least = &each;
    if (least != nullptr) {
        caller.entry.given.slot = least->slot;
        return *least;
    }
    OBJECTHANDLE raw = CreateDependentHandle(engine::table(), nullptr, nullptr);
    take_ticket(caller);
    caller.entry.given = journal_.slot_at(caller.ticket, raw, HNDTYPE_DEPENDENT);
    attached_.push_back(Attached{Handle{raw, HNDTYPE_DEPENDENT, 0, 1, true}, caller.entry.given.slot});
    return attached_.back();
}

std::string Machine::attach(Caller& caller, Object* key, Object* value) {
    if (attached_to(key) != nullptr) return "present";
    Attached& slot = idle(caller);
    StoreObjectInHandle(slot.handle.raw, key);
    SetDependentHandleSecondary(slot.handle.raw, value);
    return "ok";
}

std::string Machine::on_weak_table(Caller& caller, const Line& line) {
    Object* key = caller.objects[line.at(line.is("cfind") ? 2 : 1)];
    if (key == nullptr) return "nullref";
    if (line.is("cadd")) return attach(caller, key, caller.objects[line.at(2)]);
    Attached* found = attached_to(key);
    if (line.is("cfind")) {
        Object*& into = caller.objects[line.at(1)];
        into = found == nullptr ? nullptr : GetDependentHandleSecondary(found->handle.raw);
        return found == nullptr ? "absent" : name_of(into);
    }
    if (found == nullptr) return "absent";
    StoreObjectInHandle(found->handle.raw, nullptr);
    SetDependentHandleSecondary(found->handle.raw, nullptr);
    return "ok";
}
