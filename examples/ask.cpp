// Asks the proved planner about sheet A from C++, through a thin wrapper that takes vectors and throws refusals. It prints what
// ask.c prints.
#include <cstdint>
#include <cstdlib>
#include <exception>
#include <iostream>
#include <stdexcept>
#include <string>
#include <vector>

#include "wistorvan.h"

namespace {

using Word = std::uint32_t;
using Words = std::vector<Word>;

// What a refusal says, for the two that are shown here.
std::string sentence(const wistorvan_answer &a) {
    const std::string given = "refused " + std::to_string(a.number) + " at " + std::to_string(a.second) + " " + std::to_string(a.third);
    switch (a.number) {
    case WISTORVAN_SHEET_TOO_SHORT:
        return given + ": the sheet has fewer than 3 words";
    case WISTORVAN_LATE:
        return given + ": stream " + std::to_string(a.third) + " of node " + std::to_string(a.second) + " would be late";
    default:
        return given;
    }
}

struct Refusal : std::runtime_error {
    explicit Refusal(const wistorvan_answer &a) : std::runtime_error(sentence(a)), answer(a) {}
    wistorvan_answer answer;
};

wistorvan_answer accepted(const wistorvan_answer &a) {
    if (a.number != WISTORVAN_OK)
        throw Refusal(a);
    return a;
}

struct ListedWait {
    Word wait;
    Word cycles;
};

struct Admission {
    Words waits;
    Word cycle;
};

struct Replay {
    Words begins;
    Word turns;
    Word next;
};

struct Step {
    Word taken;
    Word next;
};

void check_sheet(const Words &sheet) { accepted(wistorvan_check_sheet(sheet.data(), sheet.size())); }

ListedWait one_stream(const Words &sheet, Word node, Word stream) {
    const auto a = accepted(wistorvan_one_stream(sheet.data(), sheet.size(), node, stream));
    return {a.second, a.third};
}

Admission admit(const Words &sheet) {
    Words room(WISTORVAN_MAX_STREAMS);
    const auto a = accepted(wistorvan_admit(sheet.data(), sheet.size(), room.data(), room.size()));
    room.resize(a.second);
    return {room, a.third};
}

Replay replay(const Words &sheet, const Words &log, Word horizon) {
    Words begins(log.size() / 2);
    const auto a =
        accepted(wistorvan_replay(sheet.data(), sheet.size(), log.data(), log.size(), horizon, begins.data(), begins.size()));
    return {begins, a.second, a.third};
}

Step step(const Words &sheet, const Words &log, wistorvan_bus &bus, Words &begins) {
    const auto a =
        accepted(wistorvan_step(sheet.data(), sheet.size(), log.data(), log.size(), &bus, begins.data(), begins.size()));
    return {a.second, a.third};
}

void show(const std::string &what, const Words &words) {
    std::cout << what << ":";
    for (const Word word : words)
        std::cout << " " << (word == WISTORVAN_NOT_BEGUN ? "-" : std::to_string(word));
    std::cout << "\n";
}

// Shows that a question is refused with this number; an answer, or another refusal, ends the program.
template <typename Question> void show_refused(const std::string &what, Word number, Question question) {
    try {
        question();
    } catch (const Refusal &refusal) {
        if (refusal.answer.number != number)
            throw;
        std::cout << what << ": " << refusal.what() << "\n";
        return;
    }
    throw std::logic_error(what + ": not refused");
}

void ask() {
    const Words sheet{2, 5, 1, 9, 2, 1, 15, 1, 2, 40, 40, 0, 60, 60, 0, 30, 30, 0};
    const Words log{0, 1, 0, 2, 1, 3};

    check_sheet(sheet);
    std::cout << "sheet A: valid\n";
    const auto [wait, cycles] = one_stream(sheet, 1, 2);
    std::cout << "stream 2 of node 1: wait " << wait << ", J " << cycles << "\n";
    const auto [waits, cycle] = admit(sheet);
    std::cout << "admitted: " << waits.size() << " streams, cycle " << cycle << "\n";
    show("waits", waits);

    const auto replayed = replay(sheet, log, 12);
    std::cout << "replay to 12: " << replayed.turns << " turns, next at " << replayed.next << "\n";
    show("begins", replayed.begins);
    wistorvan_bus bus{0, 1, 0};
    Words begins(log.size() / 2, WISTORVAN_NOT_BEGUN);
    const auto [taken, next] = step(sheet, log, bus, begins);
    std::cout << "one step: " << taken << " taken, next at " << next << "\n";
    show("begins", begins);
    std::cout << "next turn: tick " << bus.tick << ", node " << bus.node << ", turns " << bus.turns << "\n";

    show_refused("an empty sheet", WISTORVAN_SHEET_TOO_SHORT, [] { check_sheet({}); });
    Words late = sheet;
    late[10] = late[13] = 38;
    show_refused("deadlines of 38", WISTORVAN_LATE, [&] { admit(late); });
}

} // namespace

int main() {
    try {
        ask();
    } catch (const std::exception &stopped) {
        std::cerr << stopped.what() << "\n";
        return EXIT_FAILURE;
    }
    return EXIT_SUCCESS;
}
