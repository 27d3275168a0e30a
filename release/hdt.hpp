// hdt.hpp: hdt.h for C++17, without a library of its own. What each call does, its duties and its limits are in hdt.h.
//
//   hdt::Host host(hdt::Limits{100000, 64, 1});
//   hdt::Frame frame(host, 0);                              // locals of context 0, null again at the end of the scope
//   hdt::Local key = frame.local();
//   frame.make(key, 2);
//   hdt::Handle weak = frame.handle(hdt::Kind::weak_long, key);
//
// The ends of a host that threads share are hosts too (Host::open_shared): each, with its frames and handles, is one thread's
// at a time, and a handle goes to another thread by release() and adopt(). Calls wait for their turn, by hdt_retry.
//
// A status that is no success is thrown as hdt::Error. With HDT_NO_EXCEPTIONS each call returns an hdt::Result, which must be
// looked at; constructors are then replaced by Host::open. A call that has nothing to give (an empty queue, no entry, no root)
// gives an empty std::optional.
#ifndef HDT_HPP
#define HDT_HPP
#include "hdt.h"
#include <array>
#include <cstddef>
#include <cstdint>
#include <initializer_list>
#include <memory>
#include <optional>
#include <utility>
#include <vector>
#ifndef HDT_NO_EXCEPTIONS
#include <stdexcept>
#endif

namespace hdt {

enum class Status : std::uint32_t {
    ok = HDT_OK, closed = HDT_CLOSED, is_open = HDT_IS_OPEN, argument = HDT_ARGUMENT, no_memory = HDT_NO_MEMORY,
    exhausted = HDT_EXHAUSTED, stale = HDT_STALE, wrong_kind = HDT_WRONG_KIND, count_zero = HDT_COUNT_ZERO, null = HDT_NULL,
    no_field = HDT_NO_FIELD, present = HDT_PRESENT, heap_full = HDT_HEAP_FULL, table_full = HDT_TABLE_FULL, none = HDT_NONE,
    busy = HDT_BUSY, room = HDT_ROOM
};

enum class Kind : std::uint32_t {
    weak_short = HDT_WEAK_SHORT, weak_long = HDT_WEAK_LONG, strong = HDT_STRONG, pinned = HDT_PINNED, variable = HDT_VARIABLE,
    counted = HDT_COUNTED, dependent = HDT_DEPENDENT
};

using Id = hdt_id;
using Limits = hdt_limits;
using Report = hdt_report;
using Stats = hdt_stats_out;
using Sizes = hdt_sizes_out;
using HandleInfo = hdt_handle_info;
using Root = hdt_root;
using ObjectInfo = hdt_object_out;
// What a load found: the object, 0 for null, and its value, 0 of null.
struct Loaded {
    Id id;
    std::uint64_t value;
};
struct Nothing {};

inline const char *name(Status status) noexcept {
    switch (status) {
    case Status::ok: return "ok";
    case Status::closed: return "the host is closed";
    case Status::is_open: return "the host is open already";
    case Status::argument: return "an argument is out of range";
    case Status::no_memory: return "no memory";
    case Status::exhausted: return "exhausted";
    case Status::stale: return "no such handle";
    case Status::wrong_kind: return "a handle of the wrong kind";
    case Status::count_zero: return "the count is zero";
    case Status::null: return "null";
    case Status::no_field: return "no such field";
    case Status::present: return "the key has an entry";
    case Status::heap_full: return "the heap is full";
    case Status::table_full: return "the table is full";
    case Status::none: return "none";
    case Status::busy: return "another end had its turn";
    case Status::room: return "the array is too short";
    }
    return "unknown status";
}

#ifndef HDT_NO_EXCEPTIONS
class Error : public std::runtime_error {
public:
    explicit Error(Status status) : std::runtime_error(name(status)), status_(status) {}
    Status status() const noexcept { return status_; }

private:
    Status status_;
};

template <class T> using Result = T;
template <class T> T result_of(hdt_status status, T &&value) {
    if (status != HDT_OK) throw Error(static_cast<Status>(status));
    return std::forward<T>(value);
}
using Done = void;
inline void done_by(hdt_status status) {
    if (status != HDT_OK) throw Error(static_cast<Status>(status));
}
#else
// What a call gave, or the status that says why it did not.
template <class T> class [[nodiscard]] Result {
public:
    Result(Status status, T &&value) : status_(status), value_(std::move(value)) {}
    explicit operator bool() const noexcept { return status_ == Status::ok; }
    Status status() const noexcept { return status_; }
    T &operator*() noexcept { return value_; }
    T *operator->() noexcept { return &value_; }

private:
    Status status_;
    T value_;
};
template <class T> Result<T> result_of(hdt_status status, T &&value) {
    return Result<T>(static_cast<Status>(status), std::move(value));
}
using Done = Result<Nothing>;
inline Done done_by(hdt_status status) { return result_of(status, Nothing{}); }
#endif

// A host, which stays at one place in memory while it is open, so handles outlive a move of it. Its last owner closes it: handles
// share the place, and freeing them after that does nothing.
namespace detail {
struct Place {
    hdt_host host = HDT_CLOSED_HOST;
    Place() = default;
    Place(const Place &) = delete;
    Place &operator=(const Place &) = delete;
    ~Place() { hdt_close(&host); }
};

// A call, made again as long as other ends of the host have their turns.
template <class Call, class... Of> hdt_status turn(Call call, Of... of) {
    hdt_status status;
    do status = call(of...);
    while (hdt_retry(status));
    return status;
}
} // namespace detail

// A number from 0 to 15, of a context's local.
struct Local {
    hdt_local number;
};

// A handle, which frees itself. A host that is closed, a handle that was freed by another and one whose stamp is at its end are
// no errors then.
class Handle {
public:
    Handle() = default;
    Handle(std::shared_ptr<detail::Place> place, hdt_handle value) : place_(std::move(place)), value_(value) {}
    Handle(Handle &&other) noexcept : place_(std::move(other.place_)), value_(std::exchange(other.value_, 0)) {}
    Handle &operator=(Handle &&other) noexcept {
        if (this != &other) {
            reset();
            place_ = std::move(other.place_);
            value_ = std::exchange(other.value_, 0);
        }
        return *this;
    }
    Handle(const Handle &) = delete;
    Handle &operator=(const Handle &) = delete;
    ~Handle() { reset(); }

    void reset() noexcept {
        if (value_ != 0) (void)detail::turn(hdt_handle_free, &place_->host, std::exchange(value_, 0));
        place_.reset();
    }
    // The number, which the caller frees from now on.
    hdt_handle release() noexcept { return std::exchange(value_, 0); }
    hdt_handle value() const noexcept { return value_; }
    explicit operator bool() const noexcept { return value_ != 0; }

    Result<Kind> kind() const {
        hdt_kind kind = 0;
        hdt_status status = turn(hdt_handle_kind, &kind);
        return result_of(status, static_cast<Kind>(kind));
    }
    // Its target, 0 for null, which is not kept.
    Result<Id> id() const {
        Id id = 0;
        hdt_status status = turn(hdt_handle_id, &id);
        return result_of(status, std::move(id));
    }
    Done strength(Kind strength) {
        return done_by(turn(hdt_strength_set, static_cast<hdt_kind>(strength)));
    }
    Result<std::uint64_t> up() {
        std::uint64_t count = 0;
        hdt_status status = turn(hdt_count_up, &count);
        return result_of(status, std::move(count));
    }
    Result<std::uint64_t> down() {
        std::uint64_t count = 0;
        hdt_status status = turn(hdt_count_down, &count);
        return result_of(status, std::move(count));
    }
    Result<std::uint32_t> address() const {
        std::uint32_t cell = 0;
        hdt_status status = turn(hdt_address, &cell);
        return result_of(status, std::move(cell));
    }

private:
    template <class Call, class... Of> hdt_status turn(Call call, Of... of) const {
        return detail::turn(call, &place_->host, value_, of...);
    }
    std::shared_ptr<detail::Place> place_;
    hdt_handle value_ = 0;
};

// The live handles of some kinds, by rising slot; where `cleared`, those alone whose target is null. 32 are fetched at once: what
// a loop over them frees or makes may be among them or not.
class Handles {
public:
    class Iterator {
    public:
        Iterator() = default;
        Iterator(std::shared_ptr<detail::Place> place, std::uint32_t kinds, bool cleared)
            : place_(std::move(place)), kinds_(kinds), cleared_(cleared) {
            fetch();
        }
        const HandleInfo &operator*() const noexcept { return rows_[at_]; }
        const HandleInfo *operator->() const noexcept { return &rows_[at_]; }
        Iterator &operator++() {
            if (++at_ == count_) fetch();
            return *this;
        }
        bool operator!=(const Iterator &other) const noexcept { return place_ != other.place_; }

    private:
        // At the end of the table, or where the host is closed, this is the end.
        void fetch() {
            at_ = count_ = 0;
            hdt_status status = HDT_NONE;
            if (!over_)
                status = detail::turn(hdt_handles_of, &place_->host, kinds_, cleared_ ? 1u : 0u, next_, rows_.data(), rows_.size(),
                                      &count_, &next_);
            over_ = next_ == 0;
            if (status != HDT_OK || count_ == 0) place_.reset();
        }
        std::shared_ptr<detail::Place> place_;
        std::uint32_t kinds_ = 0;
        bool cleared_ = false;
        std::array<HandleInfo, 32> rows_{};
        std::size_t at_ = 0, count_ = 0;
        std::uint32_t next_ = 0;
        bool over_ = false;
    };

    Handles(std::shared_ptr<detail::Place> place, std::initializer_list<Kind> kinds, bool cleared)
        : place_(std::move(place)), cleared_(cleared) {
        for (Kind kind : kinds) kinds_ |= 1u << static_cast<std::uint32_t>(kind);
        if (kinds_ == 0) kinds_ = (2u << HDT_DEPENDENT) - 1;
    }
    Iterator begin() const { return Iterator(place_, kinds_, cleared_); }
    Iterator end() const { return Iterator(); }

private:
    std::shared_ptr<detail::Place> place_;
    std::uint32_t kinds_ = 0;
    bool cleared_;
};

class Host {
public:
#ifndef HDT_NO_EXCEPTIONS
    explicit Host(const Limits &limits) : place_(std::make_shared<detail::Place>()) { done_by(hdt_open(&place_->host, &limits)); }
#endif
    static Result<Host> open(const Limits &limits) {
        Host host(std::make_shared<detail::Place>());
        hdt_status status = hdt_open(&host.place_->host, &limits);
        return result_of(status, std::move(host));
    }
    // The ends of one host, 1 to 16; each has as many contexts, limits.contexts in all.
    static Result<std::vector<Host>> open_shared(std::size_t ends, const Limits &limits) {
        std::array<hdt_host, 16> opened{};
        std::size_t count = ends <= opened.size() ? ends : 0; // which is refused
        std::vector<Host> hosts;
        for (std::size_t i = 0; i < count; i++) hosts.push_back(Host(std::make_shared<detail::Place>()));
        hdt_status status = hdt_open_shared(opened.data(), count, &limits);
        for (std::size_t i = 0; i < hosts.size(); i++) hosts[i].place_->host = opened[i];
        return result_of(status, std::move(hosts));
    }
    Host(Host &&) = default;
    Host &operator=(Host &&) = default;
    Host(const Host &) = delete;
    Host &operator=(const Host &) = delete;
    ~Host() { close(); }

    // Frees all of it, whatever handles there are.
    void close() noexcept {
        if (place_) hdt_close(&place_->host);
    }
    hdt_host *get() const noexcept { return &place_->host; }
    // A handle that was released, by this end or by another of the same host; this one frees it from now on.
    Handle adopt(hdt_handle value) const { return Handle(place_, value); }

    Result<Report> collect(std::uint32_t generation) {
        Report report{};
        hdt_status status = turn(hdt_collect, generation, &report);
        return result_of(status, std::move(report));
    }
    Result<std::uint32_t> trim(Kind kind) {
        std::uint32_t given = 0;
        hdt_status status = turn(hdt_trim, static_cast<hdt_kind>(kind), &given);
        return result_of(status, std::move(given));
    }
    Result<std::uint32_t> trim_all() {
        std::uint32_t given = 0;
        hdt_status status = turn(hdt_trim_all, &given);
        return result_of(status, std::move(given));
    }
    Result<Stats> stats() const {
        Stats stats{};
        hdt_status status = turn(hdt_stats, &stats);
        return result_of(status, std::move(stats));
    }
    Result<Sizes> sizes() const {
        Sizes sizes{};
        hdt_status status = turn(hdt_sizes, &sizes);
        return result_of(status, std::move(sizes));
    }
    // Those of some kinds, or of all where none is named.
    Handles handles(std::initializer_list<Kind> kinds = {}, bool cleared = false) const { return Handles(place_, kinds, cleared); }

private:
    friend class Frame;
    template <class Call, class... Of> hdt_status turn(Call call, Of... of) const { return detail::turn(call, get(), of...); }
    explicit Host(std::shared_ptr<detail::Place> place) : place_(std::move(place)) {}
    std::shared_ptr<detail::Place> place_;
};

// What is to be finalized, one after another, each in the local; the last one stays there until the local is used again.
class Finalized;

// Some locals of a context. They are null again at the end of the scope. A frame within another takes the locals after its.
class Frame {
public:
    Frame(Host &host, hdt_context context) : place_(host.place_), context_(context) {}
    explicit Frame(Frame &outer) : place_(outer.place_), context_(outer.context_), first_(outer.next_), next_(outer.next_) {}
    Frame(const Frame &) = delete;
    Frame &operator=(const Frame &) = delete;
    ~Frame() {
        if (next_ > first_) (void)turn(hdt_locals_clear, first_, next_ - first_);
    }

    // The next local of the context: 16 in all of its frames; calls with a further one are refused as Status::argument.
    Local local() noexcept { return Local{next_ < 16 ? next_++ : next_}; }
    hdt_context context() const noexcept { return context_; }
    hdt_host *host() const noexcept { return &place_->host; }

    Result<Id> make(Local dst, std::uint32_t fields, bool finalizable = false) {
        Id id = 0;
        hdt_status status = turn(hdt_object_new, dst.number, fields, finalizable ? HDT_FINALIZABLE : 0, &id);
        return result_of(status, std::move(id));
    }
    // The same with a value and with a field for each of some locals, which references what the local did.
    Result<Id> make_with(Local dst, std::uint64_t value, std::initializer_list<Local> fields, bool finalizable = false) {
        std::array<hdt_local, 62> src{};
        std::size_t count = 0;
        for (Local field : fields)
            if (count < src.size()) src[count++] = field.number; // one more than an object may have is refused
        Id id = 0;
        hdt_status status = turn(hdt_object_make, dst.number, finalizable ? HDT_FINALIZABLE : 0, value, src.data(), count, &id);
        return result_of(status, std::move(id));
    }
    // How many objects the context may still make.
    Result<std::uint32_t> left() const {
        std::uint32_t objects = 0;
        hdt_status status = turn(hdt_context_left, &objects);
        return result_of(status, std::move(objects));
    }
    Result<Id> get(Local dst, Local object, std::uint32_t field) {
        Id id = 0;
        hdt_status status = turn(hdt_field_get, dst.number, object.number, field, &id);
        return result_of(status, std::move(id));
    }
    Result<Loaded> get_with_value(Local dst, Local object, std::uint32_t field) {
        Loaded loaded{};
        hdt_status status = turn(hdt_field_load, dst.number, object.number, field, &loaded.id, &loaded.value);
        return result_of(status, std::move(loaded));
    }
    Done set(Local object, std::uint32_t field, Local src) {
        return done_by(turn(hdt_field_set, object.number, field, src.number));
    }
    Result<std::uint64_t> value(Local object) const {
        std::uint64_t value = 0;
        hdt_status status = turn(hdt_value_get, object.number, &value);
        return result_of(status, std::move(value));
    }
    Done set_value(Local object, std::uint64_t value) { return done_by(turn(hdt_value_set, object.number, value)); }
    Result<std::uint32_t> generation(Local object) const {
        std::uint32_t generation = 0;
        hdt_status status = turn(hdt_generation, object.number, &generation);
        return result_of(status, std::move(generation));
    }
    Result<ObjectInfo> info(Local object) const {
        ObjectInfo info{};
        hdt_status status = turn(hdt_object_info, object.number, &info);
        return result_of(status, std::move(info));
    }
    Done suppress(Local object) { return done_by(turn(hdt_suppress, object.number)); }
    Done reregister(Local object) { return done_by(turn(hdt_reregister, object.number)); }
    Result<Id> id(Local src) const {
        Id id = 0;
        hdt_status status = turn(hdt_local_id, src.number, &id);
        return result_of(status, std::move(id));
    }
    Done copy(Local dst, Local src) { return done_by(turn(hdt_local_copy, dst.number, src.number)); }
    Done clear(Local dst) { return done_by(turn(hdt_local_clear, dst.number)); }
    // From a local of another frame, of whichever context.
    Result<Id> pass(Local dst, const Frame &from, Local src) {
        Id id = 0;
        hdt_status status = turn(hdt_local_pass, dst.number, from.context_, src.number, &id);
        return result_of(status, std::move(id));
    }
    // What each local of the context references.
    Result<std::array<Id, 16>> locals() const {
        std::array<Id, 16> ids{};
        hdt_status status = turn(hdt_locals, ids.data(), ids.size());
        return result_of(status, std::move(ids));
    }
    Result<Id> get_static(Local dst, std::uint32_t number) {
        Id id = 0;
        hdt_status status = turn(hdt_static_get, dst.number, number, &id);
        return result_of(status, std::move(id));
    }
    Done set_static(std::uint32_t number, Local src) { return done_by(turn(hdt_static_set, number, src.number)); }

    // A handle to what the local references; of a variable one with a strength, of a dependent one with a secondary.
    Result<Handle> handle(Kind kind, Local target) { return made(kind, target, 0); }
    Result<Handle> variable(Local target, Kind strength) {
        return made(Kind::variable, target, static_cast<std::uint32_t>(strength));
    }
    Result<Handle> dependent(Local target, Local secondary) { return made(Kind::dependent, target, secondary.number); }
    Result<Id> load(Local dst, const Handle &handle) {
        Id id = 0;
        hdt_status status = turn(hdt_handle_get, handle.value(), dst.number, &id);
        return result_of(status, std::move(id));
    }
    Result<Loaded> load_with_value(Local dst, const Handle &handle) {
        Loaded loaded{};
        hdt_status status = turn(hdt_handle_load, handle.value(), dst.number, &loaded.id, &loaded.value);
        return result_of(status, std::move(loaded));
    }
    Done store(const Handle &handle, Local src) { return done_by(turn(hdt_handle_set, handle.value(), src.number)); }
    Result<Id> load_secondary(Local dst, const Handle &handle) {
        Id id = 0;
        hdt_status status = turn(hdt_secondary_get, handle.value(), dst.number, &id);
        return result_of(status, std::move(id));
    }
    Done store_secondary(const Handle &handle, Local src) {
        return done_by(turn(hdt_secondary_set, handle.value(), src.number));
    }

    Done add(Local key, Local value) { return done_by(turn(hdt_table_add, key.number, value.number)); }
    // As a new entry, or in place of the one that the key has.
    Done put(Local key, Local value) { return done_by(turn(hdt_table_set, key.number, value.number)); }
    Result<std::optional<Id>> find(Local dst, Local key) {
        Id id = 0;
        return if_any(turn(hdt_table_find, dst.number, key.number, &id), id);
    }
    // Whether there was an entry.
    Result<bool> remove(Local key) {
        hdt_status status = turn(hdt_table_remove, key.number);
        return result_of(status == HDT_NONE ? static_cast<hdt_status>(HDT_OK) : status, status == HDT_OK);
    }
    Result<std::optional<Id>> final_next(Local dst) {
        Id id = 0;
        return if_any(turn(hdt_final_next, dst.number, &id), id);
    }
    Finalized finalized(Local dst);
    Result<std::optional<Root>> root_of(Local object) {
        Root root{};
        return if_any(turn(hdt_root_of, object.number, &root), root);
    }

private:
    friend class Finalized;
    template <class Call, class... Of> hdt_status turn(Call call, Of... of) const {
        return detail::turn(call, host(), context_, of...);
    }
    template <class T> static Result<std::optional<T>> if_any(hdt_status status, const T &value) {
        if (status == HDT_NONE) return result_of(HDT_OK, std::optional<T>());
        return result_of(status, std::optional<T>(value));
    }
    Result<Handle> made(Kind kind, Local target, std::uint32_t extra) {
        hdt_handle value = 0;
        hdt_status status = turn(hdt_handle_new, static_cast<hdt_kind>(kind), target.number, extra, &value);
        return result_of(status, Handle(place_, value));
    }
    std::shared_ptr<detail::Place> place_;
    hdt_context context_;
    hdt_local first_ = 0, next_ = 0;
};

class Finalized {
public:
    class Iterator {
    public:
        Iterator() = default;
        Iterator(Frame &frame, Local dst) : frame_(&frame), dst_(dst) { ++*this; }
        Id operator*() const noexcept { return id_; }
        Iterator &operator++() noexcept {
            if (frame_->turn(hdt_final_next, dst_.number, &id_) != HDT_OK) frame_ = nullptr;
            return *this;
        }
        bool operator!=(const Iterator &other) const noexcept { return frame_ != other.frame_; }

    private:
        Frame *frame_ = nullptr;
        Local dst_{0};
        Id id_ = 0;
    };

    Finalized(Frame &frame, Local dst) : frame_(frame), dst_(dst) {}
    Iterator begin() const { return Iterator(frame_, dst_); }
    Iterator end() const { return Iterator(); }

private:
    Frame &frame_;
    Local dst_;
};

inline Finalized Frame::finalized(Local dst) { return Finalized(*this, dst); }

} // namespace hdt
#endif
