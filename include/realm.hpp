// A C++20 face of realm.h, realm_events.h and realm_tasks.h: results in place of buffers, and handles that move and are never copied. It adds
// no claim, and what those ask of the program it has to keep here too.
#pragma once
#include "realm.h"
#include "realm_events.h"
#include "realm_tasks.h"
#include <cstdint>
#include <exception>
#include <functional>
#include <initializer_list>
#include <map>
#include <mutex>
#include <optional>
#include <span>
#include <string>
#include <string_view>
#include <type_traits>
#include <utility>
#include <vector>

namespace realm {

// Bytes that are never at a null pointer.
inline const uint8_t *bytes(std::string_view text) {
    static const uint8_t none = 0;
    return text.data() ? reinterpret_cast<const uint8_t *>(text.data()) : &none;
}

struct Answer {
    uint32_t status;
    realm_verdict verdict;
};

inline Answer check(std::string_view text) {
    Answer found{};
    found.status = realm_check(bytes(text), text.size(), &found.verdict);
    return found;
}

inline Answer audit(std::string_view text) {
    Answer found{};
    found.status = realm_audit(bytes(text), text.size(), &found.verdict);
    return found;
}

// The text that a call puts into a buffer, or its status where there is none.
struct Text {
    uint32_t status;
    std::string text;
    explicit operator bool() const { return status == REALM_DONE; }
};

template <typename Call> Text text_of(Call call, size_t room = 4096) {
    for (;;) {
        std::string out(room, '\0');
        uint64_t written = 0;
        uint32_t status = call(reinterpret_cast<uint8_t *>(out.data()), out.size(), &written);
        if (status == REALM_NO_ROOM) { room = written; continue; }
        out.resize(status == REALM_DONE ? written : 0);
        return {status, std::move(out)};
    }
}

inline Text eval(std::string_view text) {
    return text_of([=](uint8_t *out, size_t room, uint64_t *written) { return realm_eval(bytes(text), text.size(), out, room, written); });
}

inline Text explain(std::string_view text) {
    return text_of([=](uint8_t *out, size_t room, uint64_t *written) { return realm_explain(bytes(text), text.size(), out, room, written); });
}

inline Text upgrade(std::string_view text) {
    return text_of([=](uint8_t *out, size_t room, uint64_t *written) { return realm_upgrade(bytes(text), text.size(), out, room, written); });
}

inline Text upgrade_to(std::string_view text, uint32_t format) {
    return text_of([=](uint8_t *out, size_t room, uint64_t *written) { return realm_upgrade_to(bytes(text), text.size(), format, out, room, written); });
}

inline Text plan(std::string_view text, uint32_t processors) {
    return text_of([=](uint8_t *out, size_t room, uint64_t *written) { return realm_plan(bytes(text), text.size(), processors, out, room, written); });
}

inline Text make(uint64_t seed, uint32_t size) {
    return text_of([=](uint8_t *out, size_t room, uint64_t *written) { return realm_make(seed, size, out, room, written); });
}

// One line on a number of realm_status.
inline std::string message(uint32_t status) {
    return text_of([=](uint8_t *out, size_t room, uint64_t *written) { return realm_message(status, out, room, written); }).text;
}

// One line on a number of realm_run_status or realm_misuse.
inline std::string run_message(uint32_t status) {
    return text_of([=](uint8_t *out, size_t room, uint64_t *written) { return realm_run_message(status, out, room, written); }).text;
}

inline std::string word(uint32_t kind, uint32_t number) {
    return text_of([=](uint8_t *out, size_t room, uint64_t *written) { return realm_word(kind, number, out, room, written); }).text;
}

// A handle of C that is moved and never copied, and freed where it isn't empty.
template <typename Raw, uint32_t (*Free)(Raw *)> class Handle {
  public:
    Handle() = default;
    Handle(Handle &&other) noexcept : held{std::exchange(other.held.at, 0)} {}
    Handle &operator=(Handle &&other) noexcept {
        if (this != &other) {
            free();
            held.at = std::exchange(other.held.at, 0);
        }
        return *this;
    }
    Handle(const Handle &) = delete;
    Handle &operator=(const Handle &) = delete;
    ~Handle() { free(); }
    explicit operator bool() const { return held.at != 0; }
    void free() {
        if (held.at) Free(&held);
    }
    Raw held{0};
};

// The body of a call, of a lambda or a function object. Several threads call it at once, each for a call of its own. It answers nothing, or 0
// or a fault, which is any other number. What it throws is a fault too.
class Body {
  public:
    template <typename Call>
        requires(!std::is_same_v<Call, Body> && std::is_invocable_v<Call &, const realm_call &>)
    Body(Call body) : run([body = std::move(body)](const realm_call &call) mutable -> uint32_t {
        using Answer = std::invoke_result_t<Call &, const realm_call &>;
        static_assert(!std::is_same_v<Answer, bool>, "a body answers 0 where it is fine");
        if constexpr (std::is_void_v<Answer>) return body(call), REALM_FINE;
        else return body(call) != 0 ? REALM_FAULT : REALM_FINE;
    }) {}
    uint32_t operator()(const realm_call &call) const { return run(call); }

  private:
    std::function<uint32_t(const realm_call &)> run;
};

// What the first of some bodies threw.
struct Thrown {
    std::mutex lock;
    std::exception_ptr first;
    void keep(std::exception_ptr thrown) {
        std::lock_guard<std::mutex> held(lock);
        if (!first) first = std::move(thrown);
    }
};

// The work of one operation. A run whose work was freed before it was put back gives no report.
struct Work : Handle<realm_work, realm_work_free> {
    uint32_t call(realm_call &call) { return realm_work_call(&held, &call); }
    uint32_t interval(uint32_t access, uint32_t number, realm_interval &interval) { return realm_work_interval(&held, access, number, &interval); }
    uint32_t perform() { return realm_work_perform(&held); }
    uint32_t finish(uint32_t verdict) { return realm_work_finish(&held, verdict); }
};

struct Run : Handle<realm_run, realm_run_free> {
    // Begins a run in the place of what was held; 0 slots are as many as needed, from 256 to 8,192. Where the status is not
    // REALM_DONE there is none.
    Answer begin(std::string_view text, uint32_t slots = 0) {
        free();
        Answer found{};
        found.status = realm_run_new(bytes(text), text.size(), slots, &held, &found.verdict);
        return found;
    }
    // Performs all that can be performed, on 1 to 8 threads with the calling one.
    uint32_t perform_all(uint32_t threads) { return realm_run_all(&held, threads); }
    // The same with the bodies of calls, by their words. What the first of them threw is thrown once no body runs any more; the run stays, and its
    // report tells which calls faulted.
    uint32_t perform_all(uint32_t threads, const std::map<std::string, Body> &bodies) {
        struct Bound { const Body *body; Thrown *thrown; };
        Thrown thrown;
        std::vector<Bound> bound;
        std::vector<realm_body> table;
        auto run = [](const realm_call *call, void *at) noexcept -> uint32_t {
            const Bound *it = static_cast<const Bound *>(at);
            try {
                return (*it->body)(*call);
            } catch (...) {
                it->thrown->keep(std::current_exception());
                return REALM_FAULT;
            }
        };
        bound.reserve(bodies.size());
        for (const auto &[word, body] : bodies) {
            bound.push_back({&body, &thrown});
            table.push_back({word.c_str(), run, &bound.back()});
        }
        uint32_t status = realm_run_all_with(&held, threads, table.data(), table.size());
        if (thrown.first) std::rethrow_exception(thrown.first);
        return status;
    }
    uint32_t state(realm_run_lines &lines) { return realm_run_state(&held, &lines); }
    uint32_t issue(uint32_t &line) { return realm_run_issue(&held, &line); }
    uint32_t take(uint32_t line, Work &out, uint32_t &other) {
        out.free();
        return realm_run_take(&held, line, &out.held, &other);
    }
    // Where this is refused the work stays.
    uint32_t put_back(Work &&work) { return realm_run_put_back(&held, &work.held); }
    uint32_t woken(uint32_t &line) { return realm_run_woken(&held, &line); }
    Text report() {
        return text_of([this](uint8_t *out, size_t room, uint64_t *written) { return realm_run_report(&held, out, room, written); });
    }
};

// A runtime of tasks, which is waited for and freed with this. A task is a lambda or a function object, which is copied: it holds plain data,
// as numbers and pointers, of at most 128 bytes. It answers nothing, or 0 or a fault, and throws nothing: one that does ends the program.
struct Tasks : Handle<realm_tasks, realm_tasks_free> {
    // Begins a runtime in the place of what was held, with so many workers.
    uint32_t begin(uint32_t workers) {
        free();
        return realm_tasks_new(workers, &held);
    }
    uint32_t data(void *pointer, size_t bytes, realm_data &out) { return realm_data_new(&held, pointer, bytes, &out); }
    uint32_t alloc(size_t bytes, void *&pointer, realm_data &out) { return realm_data_alloc(&held, bytes, &pointer, &out); }
    uint32_t tiles(realm_data data, const std::vector<size_t> &sizes) {
        return realm_data_tiles(&held, data, static_cast<uint32_t>(sizes.size()), sizes.data());
    }
    uint32_t free_data(realm_data &data) { return realm_data_free(&held, &data); }
    template <typename Body> uint32_t insert(std::initializer_list<realm_use> uses, const Body &body, uint64_t *number = nullptr) {
        return insert(std::span<const realm_use>(uses.begin(), uses.size()), body, number);
    }
    // The same with uses in a vector, an array or the like.
    template <typename Body> uint32_t insert(std::span<const realm_use> uses, const Body &body, uint64_t *number = nullptr) {
        static_assert(std::is_trivially_copyable_v<Body>, "a task is copied byte by byte: let it hold numbers and pointers, no strings or vectors");
        static_assert(sizeof(Body) <= REALM_MOST_VALUES && alignof(Body) <= 16, "a task has at most 128 bytes");
        auto run = [](void *at) noexcept -> uint32_t {
            if constexpr (std::is_void_v<std::invoke_result_t<Body &>>) return (*static_cast<Body *>(at))(), 0;
            else return (*static_cast<Body *>(at))();
        };
        uint64_t task = 0;
        uint32_t status = realm_insert_values(&held, run, &body, sizeof body, uses.data(), uses.size(), &task);
        if (number && !status) *number = task;
        return status;
    }
    uint32_t wait(realm_task_fault *fault = nullptr) { return realm_wait(&held, fault); }
    uint32_t status(uint64_t task, uint32_t &state) { return realm_task_status(&held, task, &state); }
    uint32_t window(uint32_t most) { return realm_tasks_window(&held, most); }
    uint32_t stats(realm_task_stats &stats) { return realm_tasks_stats(&held, &stats); }
    Text graph() {
        return text_of([this](uint8_t *out, size_t room, uint64_t *written) { return realm_tasks_graph(&held, out, room, written); });
    }
};

// One line on a number of realm_tasks_status or realm_misuse.
inline std::string tasks_message(uint32_t status) {
    return text_of([=](uint8_t *out, size_t room, uint64_t *written) { return realm_tasks_message(status, out, room, written); }).text;
}

namespace events {

using Held = Handle<realm_held, realm_events_free>;

// Each kind of handle is a type of its own, so that a call is given the kind that it asks for.
struct Receipt : Held {};
struct Waiter : Held { uint32_t number = 0; };
struct Owner;

struct Place : Held {
    Place() = default;
    Place(Place &&) = default;
    Place &operator=(Place &&) = default;
    // An owner is a place, but no other place may take it up.
    Place(Owner &&) = delete;
    Place &operator=(Owner &&) = delete;
    void join(Owner &&) = delete;
    uint32_t look(realm_handle handle) { return realm_events_look(&held, handle); }
    uint32_t watch(realm_handle handle, Waiter &waiter) { return realm_events_watch(&held, handle, &waiter.held); }
    void join(Place &&other) { realm_events_join(&held, &other.held); }
    std::pair<uint32_t, realm_handle> learn(Receipt &&receipt) {
        realm_handle handle{};
        uint32_t fate = realm_events_learn(&held, &receipt.held, &handle);
        return {fate, handle};
    }
    std::optional<Place> split() {
        Place out;
        if (realm_events_split(&held, &out.held)) return std::nullopt;
        return out;
    }
};

// What is left of an event that ended: `next` gives its waiters until there are none, `place` what then remains.
struct Ended : Held {
    std::optional<Receipt> receipt() {
        Receipt out;
        if (realm_events_receipt(&held, &out.held)) return std::nullopt;
        return out;
    }
    uint32_t next(Waiter &out) {
        out.free();
        return realm_events_next(&held, &out.held, &out.number);
    }
    // Only after `next` has answered REALM_EVENTS_NONE.
    Place place() && {
        Place out;
        out.held.at = std::exchange(held.at, 0);
        return out;
    }
};

struct Pending : Held {
    Ended end(uint32_t fate) && {
        Ended out;
        realm_events_end(&held, fate);
        out.held.at = std::exchange(held.at, 0);
        return out;
    }
    Place leave() && {
        Place out;
        realm_events_leave(&held);
        out.held.at = std::exchange(held.at, 0);
        return out;
    }
    realm_handle handle{};
};

struct Closed : Held {
    uint32_t look(realm_handle handle) { return realm_events_closed_look(&held, handle); }
    std::optional<realm_handle> place(uint32_t waiter) {
        realm_handle handle{};
        if (realm_events_closed_place(&held, waiter, &handle)) return std::nullopt;
        return handle;
    }
};

struct Owner : Place {
    static std::optional<Owner> make(uint32_t slots, uint32_t waiters, uint32_t last_gen) {
        Owner out;
        if (realm_events_new(slots, waiters, last_gen, &out.held)) return std::nullopt;
        return out;
    }
    // What `out` held before is freed: of a pending, its event stays pending for good.
    uint32_t create(Pending &out) {
        out.free();
        return realm_events_create(&held, &out.held, &out.handle);
    }
    uint32_t waiter(Waiter &out) {
        out.free();
        return realm_events_waiter(&held, &out.held, &out.number);
    }
    // None where another handle of the table is held; the owner stays then.
    std::optional<Closed> close() {
        if (realm_events_close(&held)) return std::nullopt;
        Closed out;
        out.held.at = std::exchange(held.at, 0);
        return out;
    }
};

}  // namespace events
}  // namespace realm
