// The functions that CoreCLR's headers declare and leave to an execution engine. Their signatures are CoreCLR's, whose licence is
// in the file `changes`.
#include "engine.h"

#include <unistd.h>

int g_force_compact = 0;
int32_t g_TrapReturningThreads = 0;
GCSystemInfo g_SystemInfo;
MethodTable* g_pFreeObjectMethodTable;
EEConfig* g_pConfig;

namespace {

// A thread, with the collector's part first. Threads are listed, and never end in the list.
struct Mutator {
    Thread thread;
    std::atomic<uint32_t> cooperative;
    Mutator* next;
};

Program* the_program;
std::atomic<Mutator*> mutators;
std::atomic<Mutator*> suspender;
thread_local Mutator* this_mutator;
Thread* common_allocator = nullptr;

// The generations to which a reference must be marked, and the table of marks. A byte of the table covers 2 KiB of the heap.
struct Barrier {
    uint8_t* cards;
    uint8_t* ephemeral_low;
    uint8_t* ephemeral_high;
} barrier;

const int CARD_BYTE_SHIFT = 11;

Mutator* mutator_of(Thread* thread) { return reinterpret_cast<Mutator*>(thread); }

void fail(const char* what) {
    fprintf(stderr, "coreclr: %s\n", what);
    exit(6);
}

}  // namespace

Thread* GetThread() { return this_mutator == nullptr ? nullptr : &this_mutator->thread; }

bool IsGCThread() { return false; }

uint32_t CLRConfig::GetConfigValue(ConfigDWORDInfo) { return 0; }

HRESULT CLRConfig::GetConfigValue(ConfigStringInfo, TCHAR** value) {
    *value = nullptr;
    return 0;
}

// Suspension: a thread is suspended where it is not cooperative, and it cannot become so while `suspender` is set.

namespace {

void suspend_others() {
    g_theGCHeap->GetWaitForGCEvent()->Reset();
    g_theGCHeap->SetGCInProgress(TRUE);
    suspender.store(this_mutator);
    g_TrapReturningThreads = 1;
    for (Mutator* other = mutators.load(); other != nullptr; other = other->next)
        while (other != this_mutator && other->cooperative.load() != 0) sched_yield();
}

void let_others_go_on() {
    g_TrapReturningThreads = 0;
    suspender.store(nullptr);
    g_theGCHeap->SetGCInProgress(FALSE);
    g_theGCHeap->GetWaitForGCEvent()->Set();
}

}  // namespace

void GCToEEInterface::SuspendEE(SUSPEND_REASON) {
    suspend_others();
    the_program->threads_are_suspended();
}

void GCToEEInterface::RestartEE(bool) {
    the_program->threads_go_on();
    let_others_go_on();
}

bool GCToEEInterface::IsPreemptiveGCDisabled(Thread* thread) { return mutator_of(thread)->cooperative.load() != 0; }

void GCToEEInterface::EnablePreemptiveGC(Thread* thread) { mutator_of(thread)->cooperative.store(0); }

void GCToEEInterface::DisablePreemptiveGC(Thread* thread) {
    Mutator* mutator = mutator_of(thread);
    for (;;) {
        mutator->cooperative.store(1);
        Mutator* by = suspender.load();
        if (by == nullptr || by == mutator) return;
        mutator->cooperative.store(0);
        g_theGCHeap->GetWaitForGCEvent()->Wait(INFINITE, false);
    }
}

gc_alloc_context* GCToEEInterface::GetAllocContext(Thread* thread) { return (gc_alloc_context*)thread->GetAllocContext(); }

void GCToEEInterface::GcEnumAllocContexts(enum_alloc_context_func* visit, void* argument) {
    for (Mutator* each = mutators.load(); each != nullptr; each = each->next) visit(GetAllocContext(&each->thread), argument);
}

bool GCToEEInterface::CatchAtSafePoint(Thread* thread) { return thread->CatchAtSafePoint(); }

// What the collector asks of the program.

void GCToEEInterface::GcScanRoots(promote_func* visit, int, int, ScanContext* context) {
    the_program->scan_roots(visit, context);
}

void GCToEEInterface::SyncBlockCacheWeakPtrScan(HANDLESCANPROC visit, uintptr_t first, uintptr_t second) {
    the_program->scan_weak_table(visit, first, second);
}

bool GCToEEInterface::RefCountedHandleCallbacks(Object* object) { return the_program->is_counted(object); }

void GCToEEInterface::GcStartWork(int condemned, int) { the_program->collection_begins(condemned); }

void GCToEEInterface::StompWriteBarrier(WriteBarrierParameters* now) {
    if (now->operation == WriteBarrierOp::Initialize || now->operation == WriteBarrierOp::StompResize)
        barrier.cards = (uint8_t*)now->card_table;
    if (now->operation == WriteBarrierOp::Initialize || now->operation == WriteBarrierOp::StompEphemeral) {
        barrier.ephemeral_low = now->ephemeral_low;
        barrier.ephemeral_high = now->ephemeral_high;
    }
}

// What no program here needs: background collection, profilers, and word of finalizers.

Thread* GCToEEInterface::CreateBackgroundThread(GCBackgroundThreadFunction, void*) { return nullptr; }
void GCToEEInterface::AfterGcScanRoots(int, int, ScanContext*) {}
void GCToEEInterface::GcBeforeBGCSweepWork() {}
void GCToEEInterface::GcDone(int) {}
void GCToEEInterface::SyncBlockCacheDemote(int) {}
void GCToEEInterface::SyncBlockCachePromotionsGranted(int) {}
void GCToEEInterface::DiagGCStart(int, bool) {}
void GCToEEInterface::DiagUpdateGenerationBounds() {}
void GCToEEInterface::DiagGCEnd(size_t, int, int, bool) {}
void GCToEEInterface::DiagWalkFReachableObjects(void*) {}
void GCToEEInterface::DiagWalkSurvivors(void*) {}
void GCToEEInterface::DiagWalkLOHSurvivors(void*) {}
void GCToEEInterface::DiagWalkBGCSurvivors(void*) {}
void GCToEEInterface::EnableFinalization(bool) {}

namespace engine {

void attach_thread() {
    Mutator* mutator = new Mutator();
    mutator->cooperative.store(0);
    mutator->thread.GetAllocContext()->init();
    mutator->next = mutators.load();
    while (!mutators.compare_exchange_weak(mutator->next, mutator)) {
    }
    this_mutator = mutator;
}

void start(Program* program, bool compact) {
    the_program = program;
    g_force_compact = compact ? 1 : 0;
    g_SystemInfo.dwNumberOfProcessors = (uint32_t)sysconf(_SC_NPROCESSORS_ONLN);
    g_SystemInfo.dwPageSize = (uint32_t)sysconf(_SC_PAGESIZE);
    g_SystemInfo.dwAllocationGranularity = g_SystemInfo.dwPageSize;
    static EEConfig config;
    g_pConfig = &config;
    static MethodTable free_object;
    free_object.InitializeFreeObject();
    g_pFreeObjectMethodTable = &free_object;
    if (!GCToOSInterface::Initialize()) fail("the collector's interface to the system does not start");
    if (!Ref_Initialize()) fail("the handle table does not start");
    IGCHeap* heap = InitializeGarbageCollector(nullptr);
    if (heap == nullptr || FAILED(heap->Initialize())) fail("the collector does not start");
    attach_thread();
}

void allocate_in_turn() { common_allocator = GetThread(); }

HHANDLETABLE table() { return g_HandleTableMap.pBuckets[0]->pTable[0]; }

void collect(int generation) { g_theGCHeap->GarbageCollect(generation, FALSE, collection_blocking); }

Object* allocate(MethodTable* type, bool finalizable) {
    gc_alloc_context* context = GCToEEInterface::GetAllocContext(common_allocator != nullptr ? common_allocator : GetThread());
    uint8_t* at = context->alloc_ptr;
    size_t size = type->GetBaseSize();
    Object* object = (Object*)at;
    if (!finalizable && at != nullptr && at + size <= context->alloc_limit) {
        context->alloc_ptr = at + size;
    } else {
        object = g_theGCHeap->Alloc(context, size, finalizable ? GC_ALLOC_FINALIZE : 0);
        if (object == nullptr) return nullptr;
    }
    object->RawSetMethodTable(type);
    return object;
}

void store(Object** cell, Object* reference) {
    *cell = reference;
    uint8_t* at = (uint8_t*)reference;
    if (at < barrier.ephemeral_low || at >= barrier.ephemeral_high) return;
    uint8_t* card = barrier.cards + ((size_t)cell >> CARD_BYTE_SHIFT);
    if (*card != 0xFF) *card = 0xFF;
}

Cooperative::Cooperative() { GCToEEInterface::DisablePreemptiveGC(GetThread()); }

Cooperative::~Cooperative() { GCToEEInterface::EnablePreemptiveGC(GetThread()); }

Alone::Alone() { suspend_others(); }

Alone::~Alone() { let_others_go_on(); }

uint64_t cell_of(Object* object) { return ((uint8_t*)object - g_gc_lowest_address) / sizeof(Object*); }

}  // namespace engine
