// The lines that were printed, in the order of the numbers that their commands took, with slots for CoreCLR's handles.
#pragma once

#include <atomic>
#include <map>
#include <memory>
#include <string>

#include "engine.h"

// A slot, and the blocks by which the table grew for it: none, one, or one with the next for its extra data. 0 stands for none.
struct Given {
    uint32_t slot = 0;
    uint32_t block = 0;
    uint32_t extra = 0;
};

// A line: its caller and number there, the reply, and the handle that was made or freed.
struct Entry {
    size_t caller = 0;
    size_t number = 0;
    std::string reply;
    OBJECTHANDLE raw = nullptr;
    uint32_t kind = 0;
    bool is_freed = false;
    Given given;
    const char* cut = nullptr;
};

// The slots of CoreCLR's handles. A handle's address gets the next number of its kind's last block when it is first seen, and
// keeps it, so that one that is given twice shows. A block that CoreCLR gives to another kind once all its handles are free has
// new numbers from then on.
class Slots {
public:
    // The slot of a handle that is made, or freed.
    Given of(OBJECTHANDLE raw, uint32_t kind, bool is_freed);

private:
    struct Place {
        uint32_t slot;
        uint32_t kind;
        bool is_live;
    };

    Given next(uint32_t kind);

    std::map<OBJECTHANDLE, Place> places_;
    std::map<uint32_t, uint32_t> next_;
    uint32_t blocks_ = 0;
};

class Journal {
public:
    explicit Journal(size_t lines) : entries_(new Entry[lines]), is_written_(new std::atomic<bool>[lines]()) {}

    // The next number of the order.
    size_t take() { return taken_++; }

    // The line that has a number.
    void write(size_t ticket, const Entry& entry);

    // The slot of a handle that the line of a number gave, by all lines before it. One thread calls this at a time.
    Given slot_at(size_t ticket, OBJECTHANDLE raw, uint32_t kind);

    // The lines, with the marks of slots and blocks or without. On the error output comes from where on answers say nothing of
    // the machine, and why.
    void print(bool has_slots);

private:
    void number_to(size_t ticket);

    std::unique_ptr<Entry[]> entries_;
    std::unique_ptr<std::atomic<bool>[]> is_written_;
    std::atomic<size_t> taken_{0};
    size_t numbered_ = 0;
    Slots slots_;
};
