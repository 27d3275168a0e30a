// The events on which CoreCLR's collector waits, by a mutex and a condition of the system. Their signatures are CoreCLR's, whose
// licence is in the file `changes`.
#include "engine.h"

namespace {

struct Event {
    pthread_mutex_t mutex;
    pthread_cond_t changed;
    bool is_set;
    bool by_hand;
};

Event* make(bool by_hand, bool is_set) {
    Event* event = new Event();
    pthread_mutex_init(&event->mutex, nullptr);
    pthread_cond_init(&event->changed, nullptr);
    event->is_set = is_set;
    event->by_hand = by_hand;
    return event;
}

void change(HANDLE handle, bool is_set) {
    Event* event = (Event*)handle;
    pthread_mutex_lock(&event->mutex);
    event->is_set = is_set;
    if (is_set) pthread_cond_broadcast(&event->changed);
    pthread_mutex_unlock(&event->mutex);
}

bool wait_for(Event* event, uint32_t milliseconds) {
    timespec until;
    clock_gettime(CLOCK_REALTIME, &until);
    until.tv_sec += milliseconds / 1000;
    until.tv_nsec += (milliseconds % 1000) * 1000000L;
    if (until.tv_nsec >= 1000000000L) {
        until.tv_sec += 1;
        until.tv_nsec -= 1000000000L;
    }
    pthread_mutex_lock(&event->mutex);
    int late = 0;
    while (!event->is_set && late == 0)
        late = milliseconds == INFINITE ? pthread_cond_wait(&event->changed, &event->mutex)
                                        : pthread_cond_timedwait(&event->changed, &event->mutex, &until);
    bool came = event->is_set;
    if (came && !event->by_hand) event->is_set = false;
    pthread_mutex_unlock(&event->mutex);
    return came;
}

}  // namespace

bool CLREventStatic::CreateManualEventNoThrow(bool is_set) {
    m_hEvent = make(true, is_set);
    m_fInitialized = true;
    return true;
}

bool CLREventStatic::CreateAutoEventNoThrow(bool is_set) {
    m_hEvent = make(false, is_set);
    m_fInitialized = true;
    return true;
}

bool CLREventStatic::CreateOSManualEventNoThrow(bool is_set) { return CreateManualEventNoThrow(is_set); }

bool CLREventStatic::CreateOSAutoEventNoThrow(bool is_set) { return CreateAutoEventNoThrow(is_set); }

// The memory of an event stays, since one that waits may still look at it.
void CLREventStatic::CloseEvent() { m_fInitialized = false; }

bool CLREventStatic::IsValid() const { return m_fInitialized; }

bool CLREventStatic::Set() {
    if (m_fInitialized) change(m_hEvent, true);
    return m_fInitialized;
}

bool CLREventStatic::Reset() {
    if (m_fInitialized) change(m_hEvent, false);
    return m_fInitialized;
}

// A cooperative thread is not so while it waits.
uint32_t CLREventStatic::Wait(uint32_t milliseconds, bool) {
    if (!m_fInitialized) return WAIT_FAILED;
    Thread* thread = GetThread();
    bool cooperative = thread != nullptr && GCToEEInterface::IsPreemptiveGCDisabled(thread);
    if (cooperative) GCToEEInterface::EnablePreemptiveGC(thread);
    bool came = wait_for((Event*)m_hEvent, milliseconds);
    if (cooperative) GCToEEInterface::DisablePreemptiveGC(thread);
    return came ? WAIT_OBJECT_0 : WAIT_TIMEOUT;
}
