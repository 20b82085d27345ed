// Replays a log in C++ with a record of each stream, through a thin wrapper that takes vectors and throws refusals. It prints what
// records.c prints.
#include <algorithm>
#include <cstddef>
#include <cstdint>
#include <cstdlib>
#include <exception>
#include <iomanip>
#include <iostream>
#include <optional>
#include <stdexcept>
#include <string>
#include <vector>

#include "wistorvan.h"

namespace {

using Word = std::uint32_t;
using Words = std::vector<Word>;
using Record = wistorvan_stream_record;

// The one refusal that is shown here; any other ends the program.
struct TooShort : std::runtime_error {
    using std::runtime_error::runtime_error;
};

wistorvan_answer accepted(const wistorvan_answer &a) {
    const std::string numbers =
        std::to_string(a.number) + " at " + std::to_string(a.second) + " " + std::to_string(a.third);
    switch (a.number) {
    case WISTORVAN_OK:
        return a;
    case WISTORVAN_ROOM_TOO_SHORT:
        throw TooShort("refused " + numbers);
    default:
        throw std::logic_error("not expected: " + numbers);
    }
}

// What is lent to a replay.
struct Lent {
    Words begins;
    std::vector<Record> list;

    bool operator==(const Lent &other) const {
        const auto same = [](const Record &a, const Record &b) {
            return a.begun == b.begun && a.longest == b.longest && a.over == b.over;
        };
        return begins == other.begins && std::equal(list.begin(), list.end(), other.list.begin(), other.list.end(), same);
    }
};

// The turns that it started.
Word replay(const Words &sheet, const Words &log, Word horizon, Lent &lent) {
    const auto a = accepted(wistorvan_replay_records(sheet.data(), sheet.size(), log.data(), log.size(), horizon,
                                                     lent.begins.data(), lent.begins.size(), lent.list.data(), lent.list.size()));
    return a.second;
}

// A late stream has none.
std::optional<Word> listed_wait(const Words &sheet, Word node, Word stream) {
    const auto a = wistorvan_one_stream(sheet.data(), sheet.size(), node, stream);
    if (a.number == WISTORVAN_LATE)
        return std::nullopt;
    return accepted(a).second;
}

void show_record(Word node, Word stream, const Record &record, std::optional<Word> listed) {
    using std::setw;
    std::cout << "  " << setw(4) << node << "  " << setw(6) << stream << "  " << setw(5) << record.begun << "  " << setw(7)
              << record.longest << "  " << setw(6) << (listed ? std::to_string(*listed) : "late") << "  " << setw(4)
              << record.over << "\n";
}

void show(const std::string &what, const Words &sheet, Word turns, const Lent &lent) {
    std::cout << what << ": turns " << turns << ", begins";
    for (const Word begin : lent.begins)
        std::cout << " " << begin;
    std::cout << "\n  node  stream  begun  longest  listed  over\n";
    std::size_t next = 0;
    for (Word node = 1; node <= sheet[0]; node++)
        for (Word stream = 1; stream <= sheet[3 * node + 1]; stream++)
            show_record(node, stream, lent.list[next++], listed_wait(sheet, node, stream));
}

// A list that is shorter than the streams is refused, and what is lent stays as it is.
void show_refusal(const Words &sheet, const Words &log, Word horizon, Lent lent) {
    lent.list.pop_back();
    const Lent before = lent;
    try {
        replay(sheet, log, horizon, lent);
        throw std::logic_error("not refused");
    } catch (const TooShort &refusal) {
        if (!(lent == before))
            throw std::logic_error("changed by a refusal");
        std::cout << "a list of " << lent.list.size() << " records: " << refusal.what() << ", begins and list as before\n";
    }
}

} // namespace

int main() {
    // Two nodes; a message takes 5 ticks, a protocol slot 1. Then a row for each node: place of its body, streams, budget. Then
    // period, deadline and jitter of each stream.
    Words sheet{
        2, 5, 1,
        9, 2, 1,
        15, 1, 2,
        40, 40, 0, 60, 60, 0,
        30, 30, 0,
    };
    // Two words a release: the tick at which it is queued, and the running number of its stream. Node 1 queues four messages of its
    // stream 1 at once, which breaks its period and keeps its stream 2 waiting; stream 3, of node 2, keeps its own.
    const Words log{0, 1, 0, 1, 0, 1, 0, 1, 0, 2, 1, 3, 31, 3, 61, 3};
    const Word horizon = 70;
    try {
        Lent lent{Words(log.size() / 2), std::vector<Record>(3)};
        show("sheet A", sheet, replay(sheet, log, horizon, lent), lent);
        show_refusal(sheet, log, horizon / 2, lent);
        sheet[10] = sheet[13] = 38;
        show("both deadlines of node 1 cut to 38", sheet, replay(sheet, log, horizon, lent), lent);
    } catch (const std::exception &stopped) {
        std::cerr << stopped.what() << "\n";
        return EXIT_FAILURE;
    }
    return EXIT_SUCCESS;
}
