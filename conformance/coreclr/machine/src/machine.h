// A script's commands on CoreCLR's heap and handle table, with the answers in the script language's words.
#pragma once

#include <deque>
#include <map>
#include <mutex>
#include <string>
#include <vector>

#include "journal.h"
#include "script.h"
#include "types.h"

// A handle of CoreCLR's table, with what the table does not keep.
struct Handle {
    OBJECTHANDLE raw;
    uint32_t kind;
    uint32_t strength;
    uint32_t count;
    bool is_live;
};

// A slot of the weak table: a dependent handle, which is idle where its target is null.
struct Attached {
    Handle handle;
    uint32_t slot;
};

// A caller: its registers, of which a handle register is empty where it is null, the handles that it made, and its line.
struct Caller {
    Object* objects[16];
    Handle* handles[16];
    uint32_t serial;
    std::deque<Handle> made;
    size_t ticket;
    bool has_ticket;
    Entry entry;
};

// What is known of an object beside CoreCLR: where it is, which CoreCLR keeps up to date, and what the script language asks.
struct Known {
    Object* object;
    uint64_t name;
    int fields;
    int generation;
    bool is_registered;
};

// Callers may be threads. A command takes its ticket, the place of its line, where it takes effect. `hnew` and `hfree` use
// CoreCLR's table without a lock: one has its handle before its ticket, the other gives it up after. So do `copy` and `drop`,
// which concern the caller alone. Other commands are one at a time. A collection, and the search of `gcroot`, take theirs while
// CoreCLR's own suspension keeps all other callers between two commands.
class Machine : public Program {
public:
    Machine(size_t callers, bool observes, Journal& journal, uint64_t heap);

    // The answer to a command of a caller, which is written into the journal.
    void answer(size_t caller, const Line& line);

    // The last line.
    std::string end() const;

    // A bare collection, of which nothing is asked.
    void collect_unobserved(int generation);

    void scan_roots(promote_func* visit, ScanContext* context) override;
    void scan_weak_table(HANDLESCANPROC visit, uintptr_t first, uintptr_t second) override;
    bool is_counted(Object* object) override;
    void collection_begins(int generation) override;
    void threads_are_suspended() override;
    void threads_go_on() override;

private:
    std::string reply_to(Caller& caller, size_t number, const Line& line);
    std::string reply_of_one(Caller& caller, size_t number, const Line& line);
    std::string on_objects(Caller& caller, const Line& line);
    std::string on_fields(Caller& caller, const Line& line);
    std::string on_registration(Caller& caller, const Line& line);
    std::string on_board(Caller& caller, const Line& line);
    std::string on_handles(Caller& caller, const Line& line);
    std::string on_live_handle(Caller& caller, Handle& handle, const Line& line);
    std::string make(Caller& caller, size_t number, const Line& line);
    std::string make_handle(Caller& caller, const Line& line);
    std::string free_handle(Caller& caller, const Line& line);
    std::string address(const Handle& handle) const;
    std::string on_weak_table(Caller& caller, const Line& line);
    std::string attach(Caller& caller, Object* key, Object* value);
    Attached* attached_to(Object* key);
    Attached& idle(Caller& caller);
    std::string root(Caller& caller, const Line& line);
    std::string generation(Caller& caller, Object* object);
    std::string take_final(Object*& into);
    std::string collect(Caller& caller, int generation);

    Handle* usable(Caller& caller, const Line& line, size_t word, std::string& refusal);
    std::vector<Handle*> handles_with_target();
    std::vector<Object*> anchors();
    std::multimap<Object*, Object*> attachments();
    void check_condemned();
    void report();
    size_t note_queued();
    Known& known(Object* object);
    void take_ticket(Caller& caller);
    void cut(Caller& caller, const char* why);

    bool observes_;
    Journal& journal_;
    std::vector<Caller> callers_;
    std::mutex one_at_a_time_;
    Object* statics_[16];
    Handle* board_[16];
    std::deque<Attached> attached_;
    std::map<uint64_t, Known> known_;
    uint64_t heap_, used_ = 0;

    // Who waits to be finalized, in the script language's order; and those of them that came off CoreCLR's own queue.
    std::deque<uint64_t> queue_;
    std::map<uint64_t, Object*> taken_;

    // The caller that collects, of which generations, and what is seen of it. Who has the lock collects, or searches.
    std::mutex suspends_;
    Caller* collector_ = nullptr;
    int wanted_ = -1;
    std::vector<Handle*> with_target_;
    std::string report_;
    uint32_t collections_ = 0;
};

// Whether a handle loses its target before finalization, after it, with its secondary, or never.
enum Role { SHORT, LONG, ATTACHES, HOLDS };

Role role_of(const Handle& handle);

// The cells that an object counts for in the script language.
inline uint64_t size_of(int fields) { return (uint64_t)fields + 3; }
