// The commands on handles, on CoreCLR's handle table.
#include "machine.h"

namespace {

const std::map<std::string, uint32_t> KINDS = {
    {"short", HNDTYPE_WEAK_SHORT}, {"long", HNDTYPE_WEAK_LONG},   {"strong", HNDTYPE_STRONG},  {"pinned", HNDTYPE_PINNED},
    {"var", HNDTYPE_VARIABLE},     {"ref", HNDTYPE_REFCOUNTED},   {"dep", HNDTYPE_DEPENDENT},
};

const std::map<std::string, uint32_t> STRENGTHS = {
    {"short", VHT_WEAK_SHORT}, {"long", VHT_WEAK_LONG}, {"strong", VHT_STRONG}, {"pinned", VHT_PINNED},
};

uint32_t look_up(const std::map<std::string, uint32_t>& words, const Line& line, size_t word) {
    auto found = words.find(line.words[word]);
    if (found == words.end()) line.fault();
    return found->second;
}

OBJECTHANDLE create(uint32_t kind, uint32_t strength, Object* target, Object* secondary) {
    HHANDLETABLE table = engine::table();
    if (kind == HNDTYPE_VARIABLE) return CreateVariableHandle(table, target, strength);
    if (kind == HNDTYPE_DEPENDENT) return CreateDependentHandle(table, target, target == nullptr ? nullptr : secondary);
    return HndCreateHandle(table, kind, target);
}

}  // namespace

std::string Machine::make_handle(Caller& caller, const Line& line) {
    uint32_t kind = look_up(KINDS, line, 2);
    bool has_fifth = kind == HNDTYPE_VARIABLE || kind == HNDTYPE_DEPENDENT;
    if (line.words.size() != (has_fifth ? 5 : 4)) line.fault();
    uint32_t strength = kind == HNDTYPE_VARIABLE ? look_up(STRENGTHS, line, 4) : 0;
    Object* target = caller.objects[line.at(3)];
    Object* secondary = kind == HNDTYPE_DEPENDENT ? caller.objects[line.at(4)] : nullptr;
    OBJECTHANDLE raw = create(kind, strength, target, secondary);
    if (raw == nullptr) {
        fprintf(stderr, "coreclr: out of memory\n");
        exit(6);
    }
    take_ticket(caller);
    caller.entry.raw = raw;
    caller.entry.kind = kind;
    caller.made.push_back(Handle{raw, kind, strength, 1, true});
    caller.handles[line.at(1)] = &caller.made.back();
    return "ok";
}

// The ticket is taken before the handle can be given again.
std::string Machine::free_handle(Caller& caller, const Line& line) {
    std::string refusal;
    Handle* handle = usable(caller, line, 1, refusal);
    take_ticket(caller);
    if (handle == nullptr) return refusal;
    handle->is_live = false;
    caller.handles[line.at(1)] = nullptr;
    caller.entry.raw = handle->raw;
    caller.entry.kind = handle->kind;
    caller.entry.is_freed = true;
    HndDestroyHandle(engine::table(), handle->kind, handle->raw);
    return "ok";
}

// The handle in a register that a word names, or null and why there is none.
Handle* Machine::usable(Caller& caller, const Line& line, size_t word, std::string& refusal) {
    Handle* handle = caller.handles[line.at(word)];
    if (handle == nullptr) refusal = "empty";
    if (handle == nullptr || handle->is_live) return handle;
    cut(caller, "a slot that is used after it was freed");
    refusal = "notlive";
    return nullptr;
}

std::string Machine::on_board(Caller& caller, const Line& line) {
    if (line.is("hput"))
        board_[line.at(1)] = caller.handles[line.at(2)];
    else
        caller.handles[line.at(1)] = board_[line.at(2)];
    return "ok";
}

// The register that a command names comes second, but third where it also names an object register to load.
std::string Machine::on_handles(Caller& caller, const Line& line) {
    std::string refusal;
    Handle* handle = usable(caller, line, line.is("hget") || line.is("hdep") ? 2 : 1, refusal);
    return handle == nullptr ? refusal : on_live_handle(caller, *handle, line);
}

std::string Machine::address(const Handle& handle) const {
    bool is_pinned = handle.kind == HNDTYPE_PINNED || (handle.kind == HNDTYPE_VARIABLE && handle.strength == VHT_PINNED);
    if (!is_pinned) return "wrongkind";
    Object* target = ObjectFromHandle(handle.raw);
    return target == nullptr ? "nullref" : "addr " + std::to_string(engine::cell_of(target));
}

std::string Machine::on_live_handle(Caller& caller, Handle& handle, const Line& line) {
    Object* target = ObjectFromHandle(handle.raw);
    bool is_dependent = handle.kind == HNDTYPE_DEPENDENT;
    if (line.is("hget")) return name_of(caller.objects[line.at(1)] = target);
    if (line.is("hset")) {
        Object* wanted = caller.objects[line.at(2)];
        if (is_dependent && wanted != nullptr) return "wrongkind";
        StoreObjectInHandle(handle.raw, wanted);
        if (is_dependent) SetDependentHandleSecondary(handle.raw, nullptr);
        return "ok";
    }
    if (line.is("addr")) return address(handle);
    if (line.is("hvar")) {
        if (handle.kind != HNDTYPE_VARIABLE) return "wrongkind";
        handle.strength = look_up(STRENGTHS, line, 2);
        UpdateVariableHandleType(handle.raw, handle.strength);
        return "ok";
    }
    if (line.is("hup") || line.is("hdown")) {
        if (handle.kind != HNDTYPE_REFCOUNTED) return "wrongkind";
        if (line.is("hdown") && handle.count == 0) return "countzero";
        handle.count += line.is("hup") ? 1 : -1;
        return "value " + std::to_string(handle.count);
    }
    if (!is_dependent) return "wrongkind";
    if (line.is("hdep")) return name_of(caller.objects[line.at(1)] = GetDependentHandleSecondary(handle.raw));
    if (target == nullptr) return "nullref";
    SetDependentHandleSecondary(handle.raw, caller.objects[line.at(2)]);
    return "ok";
}

// CoreCLR asks by object: whether something outside counts on it. Here that is a ref-counted handle with a count above 0.
bool Machine::is_counted(Object* object) {
    for (const Caller& caller : callers_) {
        for (const Handle& each : caller.made) {
            bool counts = each.is_live && each.kind == HNDTYPE_REFCOUNTED && each.count > 0;
            if (counts && ObjectFromHandle(each.raw) == object) return true;
        }
    }
    return false;
}
