// The check, the evaluation and a run of files, and events that two threads share. Usage: main FILE..
#include "realm.hpp"
#include <fstream>
#include <iostream>
#include <iterator>
#include <thread>

static int events() {
    using namespace realm::events;
    auto owner = Owner::make(1, 2, 9);
    Pending pending;
    Waiter waiter;
    if (!owner || owner->create(pending) || owner->waiter(waiter)) return 1;
    realm_handle handle = pending.handle;
    auto place = owner->split();
    if (!place) return 1;
    uint32_t watched = REALM_MOVED, looked = REALM_PENDING, caught = 0;
    std::thread watcher([&] {
        while (watched == REALM_MOVED) watched = place->watch(handle, waiter);
        while (looked == REALM_PENDING) looked = place->look(handle);
    });
    Ended ended = std::move(pending).end(REALM_POISON);
    auto receipt = ended.receipt();
    for (Waiter out; ended.next(out) == REALM_EVENTS_DONE; out.free()) caught++;
    watcher.join();
    if (!receipt || owner->learn(std::move(*receipt)).first != REALM_POISON) return 1;
    owner->join(std::move(*place));
    owner->join(std::move(ended).place());
    auto closed = owner->close();
    bool is_well = closed && closed->look(handle) == REALM_POISONED && looked == REALM_POISONED && (watched == REALM_PLACED) == (caught == 1);
    std::cout << "events " << (is_well ? "as wanted" : "wrong") << "\n";
    return !is_well;
}

// What the check says, but for the names of operations, which are told by their numbers.
static std::string said(const realm::Answer &found) {
    const realm_verdict &v = found.verdict;
    bool has_two = v.rule == REALM_SECTION || v.rule == REALM_DESCENDS || v.rule == REALM_RACE;
    switch (found.status) {
    case REALM_DONE: return "accepted need " + std::to_string(v.need);
    case REALM_UNREAD: return "refused line " + std::to_string(v.line) + " " + realm::word(REALM_WHY_WORD, v.why);
    case REALM_UNFIT: return "refused " + realm::word(REALM_RULE_WORD, v.rule) + " " + std::to_string(v.first) + (has_two ? " " + std::to_string(v.second) : "");
    case REALM_TOO_LONG: return "input too long";
    default: return "no memory";
    }
}

// The report of a run: operations are issued, taken, performed and put back as long as they come in the order of the text.
static std::string run(const std::string &text) {
    realm::Run run;
    realm::Work work;
    uint32_t line, other;
    if (run.begin(text).status != REALM_DONE) return {};
    while (run.issue(line) == REALM_RUN_DONE && run.take(line, work, other) == REALM_RUN_DONE) {
        work.perform();
        run.put_back(std::move(work));
    }
    return run.report().text;
}

int main(int argc, char **argv) {
    for (int i = 1; i < argc; i++) {
        std::ifstream file(argv[i], std::ios::binary);
        std::string text{std::istreambuf_iterator<char>(file), {}};
        std::cout << argv[i] << ": " << said(realm::check(text)) << "\n";
        if (auto report = realm::eval(text)) std::cout << report.text << (run(text) == report.text ? "run so\n" : "run otherwise\n");
    }
    std::cout << "no text: " << said(realm::check({})) << "\n";
    return events();
}
