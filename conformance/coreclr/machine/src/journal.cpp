#include "journal.h"

namespace {

const uint32_t ROWS = 64;

bool has_extra(uint32_t kind) { return kind == HNDTYPE_VARIABLE || kind == HNDTYPE_REFCOUNTED || kind == HNDTYPE_DEPENDENT; }

std::string marks(const Given& given) {
    if (given.slot == 0) return "";
    std::string text = " @" + std::to_string(given.slot);
    if (given.block != 0) text += " +" + std::to_string(given.block);
    return given.extra == 0 ? text : text + "," + std::to_string(given.extra);
}

}  // namespace

Given Slots::of(OBJECTHANDLE raw, uint32_t kind, bool is_freed) {
    auto found = places_.find(raw);
    Given given;
    if (found == places_.end() || (found->second.kind != kind && !found->second.is_live)) {
        given = next(kind);
        places_[raw] = Place{given.slot, kind, !is_freed};
    } else {
        given.slot = found->second.slot;
        found->second.is_live = !is_freed;
    }
    return given;
}

Given Slots::next(uint32_t kind) {
    Given given;
    uint32_t& next = next_[kind];
    if (next % ROWS == 0) {
        given.block = ++blocks_;
        given.extra = has_extra(kind) ? ++blocks_ : 0;
        next = ROWS * given.block;
    }
    given.slot = next++;
    return given;
}

void Journal::write(size_t ticket, const Entry& entry) {
    entries_[ticket] = entry;
    is_written_[ticket].store(true);
}

void Journal::number_to(size_t ticket) {
    for (; numbered_ < ticket; numbered_++) {
        while (!is_written_[numbered_].load()) sched_yield();
        Entry& entry = entries_[numbered_];
        if (entry.raw != nullptr && entry.given.slot == 0) entry.given = slots_.of(entry.raw, entry.kind, entry.is_freed);
    }
}

Given Journal::slot_at(size_t ticket, OBJECTHANDLE raw, uint32_t kind) {
    number_to(ticket);
    numbered_ = ticket + 1;
    return slots_.of(raw, kind, false);
}

void Journal::print(bool has_slots) {
    number_to(taken_);
    bool was_cut = false;
    for (size_t ticket = 0; ticket < taken_; ticket++) {
        const Entry& entry = entries_[ticket];
        printf("%zu %zu %s%s\n", entry.caller, entry.number, entry.reply.c_str(), has_slots ? marks(entry.given).c_str() : "");
        if (!was_cut && entry.cut != nullptr) fprintf(stderr, "cut %zu %zu %s\n", entry.caller, entry.number, entry.cut);
        was_cut = was_cut || entry.cut != nullptr;
    }
}
