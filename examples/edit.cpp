// Changes in C++ the recorder's own streams on the owner's sheet, through a thin wrapper that takes vectors and throws refusals. It
// prints what edit.c prints.
#include <cstdint>
#include <cstdlib>
#include <exception>
#include <iostream>
#include <optional>
#include <stdexcept>
#include <string>
#include <vector>

#include "wistorvan.h"

namespace {

using Word = std::uint32_t;
using Words = std::vector<Word>;

// The new words of a stream.
struct Stream {
    Word period;
    Word deadline;
    Word jitter;
};

// The refusals that are shown here; any other ends the program.
struct Refusal : std::runtime_error {
    using std::runtime_error::runtime_error;
};

wistorvan_answer accepted(const wistorvan_answer &a) {
    const auto [number, node, stream] = a;
    const std::string numbers = std::to_string(number) + " at " + std::to_string(node) + " " + std::to_string(stream);
    const std::string whose = "refused " + numbers + ": stream " + std::to_string(stream) + " of node " + std::to_string(node);
    switch (number) {
    case WISTORVAN_OK:
        return a;
    case WISTORVAN_BAD_STREAM:
        throw Refusal(whose + ": wrong period, deadline or jitter");
    case WISTORVAN_LATE:
        throw Refusal(whose + " would be late");
    case WISTORVAN_NOT_OWN_NODE:
        throw Refusal(whose + " is not on the own node");
    default:
        throw std::logic_error("not expected: " + numbers);
    }
}

void edit_stream(Words &sheet, Word own_node, Word node, Word stream, const Stream &words) {
    accepted(wistorvan_edit_stream(sheet.data(), sheet.size(), own_node, node, stream, words.period, words.deadline, words.jitter));
}

// A late stream has none.
std::optional<Word> listed_wait(const Words &sheet, Word node, Word stream) {
    const auto a = wistorvan_one_stream(sheet.data(), sheet.size(), node, stream);
    if (a.number == WISTORVAN_LATE)
        return std::nullopt;
    return accepted(a).second;
}

// The full cycle of a sheet that is admitted.
Word admit(const Words &sheet) {
    Words room(WISTORVAN_MAX_STREAMS);
    return accepted(wistorvan_admit(sheet.data(), sheet.size(), room.data(), room.size())).third;
}

// The waits of the streams of some nodes, one by one.
void show_waits(const std::string &whose, const Words &sheet, Word first, Word last) {
    std::cout << "  waits of the " << whose << ":";
    for (Word node = first; node <= last; node++)
        for (Word stream = 1; stream <= sheet[3 * node + 1]; stream++) {
            const auto listed = listed_wait(sheet, node, stream);
            std::cout << " " << (listed ? std::to_string(*listed) : "late");
        }
    std::cout << "\n";
}

constexpr Word recorder = 5;

void ask(const Words &sheet) {
    show_waits("owner", sheet, 1, recorder - 1);
    show_waits("recorder", sheet, recorder, recorder);
    const Word cycle = admit(sheet);
    std::cout << "  admitted: cycle " << cycle << "\n";
}

void edit_and_ask(const std::string &what, Words &sheet, Word node, Word stream, const Stream &words) {
    std::cout << what << "\n";
    try {
        edit_stream(sheet, recorder, node, stream, words);
        ask(sheet);
    } catch (const Refusal &refusal) {
        std::cout << "  " << refusal.what() << "\n";
    }
}

} // namespace

int main() {
    // Five nodes; a message takes 5 ticks, a protocol slot 1. Then a row for each node: place of its body, streams, budget.
    Words sheet{
        5, 5, 1,
        18, 3, 2, // line controller
        27, 2, 1, // belt drive
        33, 2, 2, // burner
        39, 1, 1, // moisture probe
        42, 2, 1, // recorder
        200, 80, 0, 500, 99, 0, 1000, 70, 0, // belt speed, damper command, burner shut-off: period, deadline, jitter
        200, 200, 0, 10000, 10000, 0, // actual speed, drive state
        250, 250, 0, 1000, 1000, 0, // flame signal, gas pressure
        500, 500, 0, // moisture
        1000, 1000, 0, 10000, 10000, 0, // recorder block, recorder state
    };
    try {
        std::cout << "the line with its recorder\n";
        ask(sheet);
        edit_and_ask("recorder block every 100 ticks, queued up to 30 after its event", sheet, recorder, 1, {100, 100, 30});
        edit_and_ask("recorder state due within 80 ticks", sheet, recorder, 2, {10000, 80, 0});
        edit_and_ask("damper command due within 200 ticks", sheet, 1, 2, {500, 200, 0});
        edit_and_ask("recorder block due within 101 ticks", sheet, recorder, 1, {100, 101, 30});
    } catch (const std::exception &stopped) {
        std::cerr << stopped.what() << "\n";
        return EXIT_FAILURE;
    }
    return EXIT_SUCCESS;
}
