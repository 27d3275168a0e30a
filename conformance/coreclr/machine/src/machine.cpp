#include "machine.h"

Machine::Machine(size_t callers, bool observes, Journal& journal, uint64_t heap)
    : observes_(observes), journal_(journal), callers_(callers), heap_(heap) {
    for (Caller& caller : callers_) caller = Caller();
    for (int i = 0; i < 16; i++) {
        statics_[i] = nullptr;
        board_[i] = nullptr;
    }
}

void Machine::cut(Caller& caller, const char* why) {
    if (caller.entry.cut == nullptr) caller.entry.cut = why;
}

// The first of several calls in a command counts.
void Machine::take_ticket(Caller& caller) {
    if (!caller.has_ticket) caller.ticket = journal_.take();
    caller.has_ticket = true;
}

Known& Machine::known(Object* object) { return known_[((Cell*)object)->name]; }

void Machine::scan_roots(promote_func* visit, ScanContext* context) {
    for (Caller& caller : callers_)
        for (Object*& root : caller.objects)
            if (root != nullptr) visit(&root, context, 0);
    for (Object*& root : statics_)
        if (root != nullptr) visit(&root, context, 0);
    for (auto& each : taken_) visit(&each.second, context, 0);
}

void Machine::scan_weak_table(HANDLESCANPROC visit, uintptr_t first, uintptr_t second) {
    if (!observes_) return;
    for (auto& each : known_)
        if (each.second.object != nullptr) visit(&each.second.object, nullptr, first, second);
}

void Machine::answer(size_t number, const Line& line) {
    Caller& caller = callers_[number];
    size_t done = caller.entry.number;
    caller.entry = Entry();
    caller.entry.caller = number;
    caller.entry.number = done + 1;
    caller.has_ticket = false;
    caller.entry.reply = reply_to(caller, number, line);
    journal_.write(caller.ticket, caller.entry);
}

std::string Machine::reply_to(Caller& caller, size_t number, const Line& line) {
    if (line.is("collect")) return collect(caller, (int)line.at(1, 2));
    if (line.is("gcroot")) return root(caller, line);
    bool is_own = line.is("hnew") || line.is("hfree") || line.is("copy") || line.is("drop");
    std::unique_lock<std::mutex> lock(one_at_a_time_, std::defer_lock);
    if (!is_own) lock.lock();
    engine::Cooperative working;
    std::string reply = reply_of_one(caller, number, line);
    take_ticket(caller);
    return reply;
}

std::string Machine::reply_of_one(Caller& caller, size_t number, const Line& line) {
    if (line.is("new")) return make(caller, number, line);
    if (line.is("hnew")) return make_handle(caller, line);
    if (line.is("hfree")) return free_handle(caller, line);
    if (line.is("hput") || line.is("hpick")) return on_board(caller, line);
    if (line.is("trim")) return "value 0";
    if (line.is("addr") || line.verb()[0] == 'h') return on_handles(caller, line);
    if (line.is("cadd") || line.is("cfind") || line.is("cremove")) return on_weak_table(caller, line);
    return on_objects(caller, line);
}

std::string Machine::make(Caller& caller, size_t number, const Line& line) {
    int fields = (int)line.at(2, MOST_FIELDS);
    bool finalizable = line.words.size() == 4;
    if (used_ + size_of(fields) > heap_) return "heapfull " + std::to_string(used_) + " " + std::to_string(size_of(fields));
    uint64_t name = ((uint64_t)number << 32) + ++caller.serial;
    Cell* made = make_object(fields, finalizable, name);
    caller.objects[line.at(1)] = made;
    if (!observes_) return name_of(made);
    used_ += size_of(fields);
    known_[name] = Known{made, name, fields, 0, finalizable};
    return name_of(made);
}

std::string Machine::on_objects(Caller& caller, const Line& line) {
    if (line.is("copy")) {
        caller.objects[line.at(1)] = caller.objects[line.at(2)];
        return "ok";
    }
    if (line.is("drop")) {
        caller.objects[line.at(1)] = nullptr;
        return "ok";
    }
    if (line.is("sput")) {
        statics_[line.at(1)] = caller.objects[line.at(2)];
        return "ok";
    }
    if (line.is("sget")) return name_of(caller.objects[line.at(1)] = statics_[line.at(2)]);
    if (line.is("final")) return take_final(caller.objects[line.at(1)]);
    Object* object = caller.objects[line.at(line.is("get") ? 2 : 1)];
    if (object == nullptr) return "nullref";
    if (line.is("gen")) return generation(caller, object);
    if (line.is("val")) {
        ((Cell*)object)->value = line.at(2, UINT64_MAX);
        return "ok";
    }
    if (line.is("read")) return "value " + std::to_string(((Cell*)object)->value);
    if (line.is("set") || line.is("get")) return on_fields(caller, line);
    return on_registration(caller, line);
}

std::string Machine::on_fields(Caller& caller, const Line& line) {
    bool stores = line.is("set");
    Cell* object = (Cell*)caller.objects[line.at(stores ? 1 : 2)];
    int field = (int)line.at(stores ? 2 : 3, 255);
    if (field >= fields_of(object)) return "badfield";
    if (!stores) return name_of(caller.objects[line.at(1)] = object->fields[field]);
    engine::store(&object->fields[field], caller.objects[line.at(3)]);
    return "ok";
}

// CoreCLR is asked only where the registration changes: there a second one would queue the object twice.
std::string Machine::on_registration(Caller& caller, const Line& line) {
    Object* object = caller.objects[line.at(1)];
    Known& object_known = known(object);
    bool registers = line.is("reregister");
    if (object_known.is_registered != registers) {
        if (registers)
            g_theGCHeap->RegisterForFinalization(-1, object);
        else
            g_theGCHeap->SetFinalizationRun(object);
        object_known.is_registered = registers;
    }
    return "ok";
}

std::string Machine::generation(Caller& caller, Object* object) {
    int is = (int)g_theGCHeap->WhichGeneration(object);
    if (is != known(object).generation) cut(caller, "the generation of an object that CoreCLR did not promote, or demoted");
    return "gen " + std::to_string(is);
}

// CoreCLR's queue is a root of its own until an object is wanted. Then all come off it, since its order is not the script
// language's, and those that are not wanted yet are roots of the program.
std::string Machine::take_final(Object*& into) {
    into = nullptr;
    if (queue_.empty()) return g_theGCHeap->GetNextFinalizable() == nullptr ? "none" : "an object that was not queued";
    uint64_t name = queue_.front();
    queue_.pop_front();
    if (taken_.count(name) == 0)
        while (Object* next = g_theGCHeap->GetNextFinalizable()) taken_[((Cell*)next)->name] = next;
    into = taken_[name];
    taken_.erase(name);
    return name_of(into);
}

std::string Machine::end() const {
    size_t handles = 0, objects = 0;
    for (const Caller& caller : callers_)
        for (const Handle& each : caller.made) handles += each.is_live ? 1 : 0;
    for (const auto& each : known_) objects += each.second.object != nullptr ? 1 : 0;
    return "end handles " + std::to_string(handles) + " objects " + std::to_string(objects) + " collections " +
           std::to_string(collections_);
}
