// A cache in C++ over hdt.hpp: values by name, each with a native buffer, which is given back once nobody uses the value; and
// what else the header has. The text is uses/cpp/cache.stdout. With HDT_NO_EXCEPTIONS results are looked at one by one.
#include "hdt.hpp"
#include <cstdio>
#include <cstdlib>
#include <map>
#include <string>
#include <vector>

namespace {

// What a call gave; the program ends where it gave a status that is not expected.
#ifdef HDT_NO_EXCEPTIONS
template <class T> T got(hdt::Result<T> result) {
    if (!result) {
        std::fprintf(stderr, "cache: %s\n", hdt::name(result.status()));
        std::exit(1);
    }
    return std::move(*result);
}
#define DO(call) (void)got(call)
#define STATUS_OF(call) ((call).status())
#else
template <class T> T got(T value) { return value; }
#define DO(call) (call)
template <class Call> hdt::Status status_of(Call call) {
    try {
        call();
    } catch (const hdt::Error &error) {
        return error.status();
    }
    return hdt::Status::ok;
}
#define STATUS_OF(call) status_of([&] { (void)(call); })
#endif

class Cache {
public:
    // Whether the name has a value; else it gets one. The local references it.
    bool look(hdt::Frame &frame, hdt::Local dst, const std::string &name, std::uint64_t value) {
        auto found = entries_.find(name);
        if (found != entries_.end() && got(frame.load(dst, found->second)) != 0) return true;
        hdt::Id id = got(frame.make(dst, 1, true));
        DO(frame.set_value(dst, value));
        entries_[name] = got(frame.handle(hdt::Kind::weak_long, dst));
        buffers_[id] = std::vector<char>(value);
        return false;
    }

    // The bytes that are given back after a collection.
    std::size_t clean(hdt::Host &host, hdt::Frame &outer) {
        DO(host.collect(0));
        hdt::Frame frame(outer);
        std::size_t bytes = 0;
        for (hdt::Id id : frame.finalized(frame.local())) {
            bytes += buffers_[id].size();
            buffers_.erase(id);
        }
        return bytes;
    }

private:
    std::map<std::string, hdt::Handle> entries_;
    std::map<hdt::Id, std::vector<char>> buffers_;
};

void use_cache(hdt::Host &host) {
    Cache cache;
    hdt::Frame frame(host, 0);
    hdt::Local red = frame.local();
    std::printf("red is there: %d\n", cache.look(frame, red, "red", 100));
    {
        hdt::Frame inner(frame);
        hdt::Local blue = inner.local();
        std::printf("blue is there: %d\n", cache.look(inner, blue, "blue", 50));
        std::printf("blue is there: %d\n", cache.look(inner, blue, "blue", 50));
        std::printf("given back: %zu\n", cache.clean(host, inner));
    }
    DO(host.collect(1));
    std::printf("given back: %zu\n", cache.clean(host, frame));
    std::printf("red is there: %d, of value %llu\n", cache.look(frame, red, "red", 7),
                static_cast<unsigned long long>(got(frame.value(red))));
}

void use_kinds(hdt::Host &host) {
    hdt::Frame frame(host, 1);
    hdt::Local object = frame.local(), other = frame.local(), result = frame.local();
    DO(frame.make(object, 2));
    DO(frame.make(other, 0, true));
    DO(frame.set(object, 1, other));
    DO(frame.copy(result, object));
    std::printf("the field has the other: %d\n", got(frame.get(result, object, 1)) == got(frame.id(other)));
    hdt::Handle counted = got(frame.handle(hdt::Kind::counted, object)), pinned = got(frame.handle(hdt::Kind::pinned, object));
    hdt::Handle pair = got(frame.dependent(object, other)), like = got(frame.variable(object, hdt::Kind::weak_short));
    std::printf("count %llu\n", static_cast<unsigned long long>(got(counted.up())));
    std::printf("count %llu\n", static_cast<unsigned long long>(got(counted.down())));
    std::uint32_t cell = got(pinned.address());
    DO(host.collect(2));
    std::printf("it stays: %d\n", cell == got(pinned.address()));
    DO(like.strength(hdt::Kind::strong));
    std::printf("the kind is variable: %d\n", got(like.kind()) == hdt::Kind::variable);
    std::printf("the secondary is the other: %d\n", got(frame.load_secondary(result, pair)) == got(frame.id(other)));
    DO(frame.store_secondary(pair, object));
    DO(frame.store(counted, other));
    DO(frame.suppress(other));
    DO(frame.reregister(other));
    for (const hdt::HandleInfo &info : host.handles()) std::printf("kind %u\n", info.kind);
    hdt::Handle moved = std::move(like);
    std::printf("moved: %d, %d\n", static_cast<bool>(moved), static_cast<bool>(like));
    std::printf("generation %u\n", got(frame.generation(object)));
}

void use_table(hdt::Host &host) {
    hdt::Frame frame(host, 1);
    hdt::Local key = frame.local(), value = frame.local(), found = frame.local();
    DO(frame.make(key, 0));
    DO(frame.make(value, 0));
    DO(frame.add(key, value));
    std::printf("added twice: %s\n", hdt::name(STATUS_OF(frame.add(key, value))));
    std::printf("found: %d\n", got(frame.find(found, key)).has_value());
    std::printf("removed: %d\n", got(frame.remove(key)));
    std::printf("removed again: %d\n", got(frame.remove(key)));
    std::printf("found: %d\n", got(frame.find(found, key)).has_value());
    DO(frame.set_static(3, value));
    DO(frame.clear(value));
    std::printf("the static keeps it: %d\n", got(frame.get_static(found, 3)) != 0);
    std::printf("it has a root: %d\n", got(frame.root_of(found)).has_value());
    DO(frame.clear(found));
    std::printf("a null local: %s\n", hdt::name(STATUS_OF(frame.value(found))));
    std::printf("one is to be finalized: %d\n", got(frame.final_next(found)).has_value());
    std::printf("and one more: %d\n", got(frame.final_next(found)).has_value());
}

// Calls that do several things in a row, and two frames of different contexts.
void use_rows(hdt::Host &host) {
    hdt::Frame caller(host, 0), frame(host, 1);
    hdt::Local result = caller.local(), key = frame.local(), made = frame.local(), found = frame.local();
    std::uint32_t left = got(frame.left());
    DO(frame.make_with(key, 5, {}));
    DO(frame.make_with(made, 7, {key, made}, true));
    std::printf("objects made: %u\n", left - got(frame.left()));
    hdt::Loaded loaded = got(frame.get_with_value(found, made, 0));
    std::printf("the field has the key: %d, of value %u\n", loaded.id == got(frame.id(key)), static_cast<unsigned>(loaded.value));
    std::printf("the other field is null: %d\n", got(frame.get_with_value(found, made, 1)).id == 0);
    hdt::ObjectInfo info = got(frame.info(made));
    std::printf("value %u, %u fields, to be finalized: %u\n", static_cast<unsigned>(info.value), info.fields, info.finalizable);
    DO(frame.put(key, key));
    DO(frame.put(key, made));
    std::printf("found: %d\n", got(frame.find(found, key)) == info.id);
    hdt::Handle weak = got(frame.handle(hdt::Kind::weak_long, made)), none = got(frame.handle(hdt::Kind::weak_short, found));
    std::printf("its value: %u\n", static_cast<unsigned>(got(frame.load_with_value(found, weak)).value));
    std::printf("the handle's: %d\n", got(weak.id()) == info.id);
    DO(caller.pass(result, frame, made));
    std::printf("the caller has it: %d\n", got(caller.locals())[result.number] == info.id);
    DO(frame.clear(found));
    DO(frame.store(none, found));
    for (const hdt::HandleInfo &one : host.handles({hdt::Kind::weak_short, hdt::Kind::weak_long}, true))
        std::printf("null: kind %u\n", one.kind);
}

// Two ends of one host, as two threads have them. A handle goes from one to the other by its number.
void use_ends() {
    std::vector<hdt::Host> ends = got(hdt::Host::open_shared(2, hdt::Limits{1000, 8, 2}));
    hdt::Frame mine(ends[0], 0), other(ends[1], 0);
    hdt::Local object = mine.local(), found = other.local();
    DO(mine.make(object, 0));
    hdt::Handle handle = got(mine.handle(hdt::Kind::strong, object));
    hdt::Handle given = ends[1].adopt(handle.release());
    std::printf("the other end finds it: %d\n", got(other.load(found, given)) == got(mine.id(object)));
    std::printf("an end has a context: %s\n", hdt::name(STATUS_OF(hdt::Frame(ends[1], 1).id(found))));
    std::printf("handles: %u\n", got(ends[0].stats()).handles);
    given.reset();
    std::printf("handles: %u\n", got(ends[0].stats()).handles);
    std::printf("no ends: %s\n", hdt::name(STATUS_OF(hdt::Host::open_shared(17, hdt::Limits{1000, 8, 17}))));
}

} // namespace

int main() {
    hdt::Limits limits{100000, 64, 2};
    hdt::Host host = got(hdt::Host::open(limits));
    use_cache(host);
    hdt::Handle kept;
    {
        hdt::Host elsewhere = std::move(host);
        use_kinds(elsewhere);
        use_table(elsewhere);
        use_rows(elsewhere);
        hdt::Frame frame(elsewhere, 0);
        hdt::Local local = frame.local();
        DO(frame.make(local, 0));
        kept = got(frame.handle(hdt::Kind::strong, local));
        std::printf("blocks given back: %u\n", got(elsewhere.trim(hdt::Kind::weak_long)));
        std::printf("blocks given back of all kinds: %u\n", got(elsewhere.trim_all()));
        std::printf("handles: %u\n", got(elsewhere.stats()).handles);
        hdt::Sizes sizes = got(elsewhere.sizes());
        std::printf("objects: %u young, %u older, %u old\n", sizes.objects[0], sizes.objects[1], sizes.objects[2]);
    }
    std::printf("after the end: %s\n", hdt::name(STATUS_OF(kept.kind())));
    use_ends();
    return 0;
}
