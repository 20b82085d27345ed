// Makes sheets from tables in C++, through a thin wrapper that takes vectors and throws refusals, and asks whether each is
// admitted. It prints what make.c prints.
#include <cstdint>
#include <cstdlib>
#include <exception>
#include <iostream>
#include <stdexcept>
#include <string>
#include <vector>

#include "wistorvan.h"

namespace {

using Word = std::uint32_t;
using Words = std::vector<Word>;

// What a sheet is made from. Counts and budgets have a word for each node, periods, deadlines and jitters one for each stream, node
// by node.
struct Tables {
    Word message_ticks;
    Word slot_ticks;
    Words counts;
    Words budgets;
    Words periods;
    Words deadlines;
    Words jitters;
};

struct Admission {
    Words waits;
    Word cycle;
};

// The refusals that are shown here; any other ends the program.
struct Refusal : std::runtime_error {
    using std::runtime_error::runtime_error;
};

wistorvan_answer accepted(const wistorvan_answer &a) {
    const auto [number, node, stream] = a;
    const std::string numbers = std::to_string(number) + " at " + std::to_string(node) + " " + std::to_string(stream);
    const std::string whose = "refused " + numbers + ": stream " + std::to_string(stream) + " of node " + std::to_string(node);
    switch (number) {
    case WISTORVAN_OK:
        return a;
    case WISTORVAN_BAD_STREAM:
        throw Refusal(whose + ": wrong period, deadline or jitter");
    case WISTORVAN_LATE:
        throw Refusal(whose + " would be late");
    default:
        throw std::logic_error("not expected: " + numbers);
    }
}

Words write_sheet(const Tables &t) {
    Words room(WISTORVAN_LONGEST_SHEET);
    const auto a = accepted(wistorvan_write_sheet(t.message_ticks, t.slot_ticks, t.counts.data(), t.counts.size(), t.budgets.data(),
                                                  t.budgets.size(), t.periods.data(), t.periods.size(), t.deadlines.data(),
                                                  t.deadlines.size(), t.jitters.data(), t.jitters.size(), room.data(),
                                                  room.size()));
    room.resize(a.second);
    return room;
}

Admission admit(const Words &sheet) {
    Words room(WISTORVAN_MAX_STREAMS);
    const auto a = accepted(wistorvan_admit(sheet.data(), sheet.size(), room.data(), room.size()));
    room.resize(a.second);
    return {room, a.third};
}

std::ostream &operator<<(std::ostream &out, const Words &words) {
    for (const Word word : words)
        out << " " << word;
    return out;
}

void make_and_ask(const std::string &what, const Tables &tables) {
    std::cout << what << "\n";
    try {
        const Words sheet = write_sheet(tables);
        std::cout << "  sheet:" << sheet << "\n";
        const auto [waits, cycle] = admit(sheet);
        std::cout << "  admitted: cycle " << cycle << ", waits" << waits << "\n";
    } catch (const Refusal &refusal) {
        std::cout << "  " << refusal.what() << "\n";
    }
}

} // namespace

int main() {
    // A message takes 5 ticks, a protocol slot 1. Node 1 has two streams and may send one message a turn, node 2 has one stream and
    // may send two.
    const Tables line{5, 1, {2, 1}, {1, 2}, {40, 60, 30}, {40, 60, 30}, {0, 0, 0}};
    const auto due = [&line](const Words &deadlines) {
        Tables changed = line;
        changed.deadlines = deadlines;
        return changed;
    };
    const auto late = [&line](const Words &jitters) {
        Tables changed = line;
        changed.jitters = jitters;
        return changed;
    };
    try {
        make_and_ask("sheet A from its tables", line);
        make_and_ask("both deadlines of node 1 cut to 38", due({38, 38, 30}));
        make_and_ask("stream 1 of node 1 queued up to 7 ticks after its event: stream 2 may wait for two of it", late({7, 0, 0}));
        make_and_ask("the stream of node 2 queued up to 4 ticks after its event, from which its deadline runs", late({0, 0, 4}));
        make_and_ask("a deadline of 61 for a period of 60", due({40, 61, 30}));
        make_and_ask("a jitter of 40 for a period of 40", late({40, 0, 0}));
    } catch (const std::exception &stopped) {
        std::cerr << stopped.what() << "\n";
        return EXIT_FAILURE;
    }
    return EXIT_SUCCESS;
}
