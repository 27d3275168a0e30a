// The execution engine that CoreCLR's collector asks for: threads, suspension, roots, and the write barrier.
#pragma once

#include <atomic>
#include <cstddef>
#include <cstdint>
#include <cstdio>
#include <cstdlib>
#include <cstring>

#include "common.h"

#include "gcenv.h"

#include "gc.h"
#include "gcdesc.h"
#include "objecthandle.h"

// The GC's own headers define these as macros, and the standard library's headers have functions of the same names.
#undef min
#undef max

// What the collector sees of a program: its roots, and what is asked of it during a collection.
class Program {
public:
    virtual ~Program() {}

    // Each root, at marking and again at relocation.
    virtual void scan_roots(promote_func* visit, ScanContext* context) = 0;

    // Each entry of a table that keeps nothing alive: the collector nulls the entries of what is gone, and moves the others.
    virtual void scan_weak_table(HANDLESCANPROC visit, uintptr_t first, uintptr_t second) {}

    // Whether a ref-counted handle with a count above 0 has this target.
    virtual bool is_counted(Object* object) { return false; }

    // A collection of generations 0 to `generation` begins.
    virtual void collection_begins(int generation) {}

    // All other threads are suspended for a collection; and the collection is done, and they are about to go on.
    virtual void threads_are_suspended() {}
    virtual void threads_go_on() {}
};

namespace engine {

// Starts the collector, the handle table and this thread. `compact` forces compaction in each collection.
void start(Program* program, bool compact);

// From here on all threads allocate from one context, one at a time, which leaves no more holes in the heap than one thread does.
void allocate_in_turn();

// Makes the calling thread one that may work on the heap. Each thread that does has a `Cooperative` around its work.
void attach_thread();

// The handle table.
HHANDLETABLE table();

// A collection of generations 0 to `generation`, which blocks.
void collect(int generation);

// A new object of a type, all of its cells but the type zero, or null where there is no memory.
Object* allocate(MethodTable* type, bool finalizable);

// Stores a reference in a cell of an object.
void store(Object** cell, Object* reference);

// While one of these lives, no collection begins but by its own thread.
class Cooperative {
public:
    Cooperative();
    ~Cooperative();
};

// While one of these lives, all other threads are suspended, as they are for a collection. One thread at a time has one, and no
// collection is asked for meanwhile.
class Alone {
public:
    Alone();
    ~Alone();
};

// The number of a cell of eight bytes, from the heap's first.
uint64_t cell_of(Object* object);

}  // namespace engine
