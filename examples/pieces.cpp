// Replays a log in C++ piece by piece, as it is written, and then as a whole, through a thin wrapper that takes vectors and throws
// refusals. It prints what pieces.c prints.
#include <cstddef>
#include <cstdint>
#include <cstdlib>
#include <exception>
#include <iostream>
#include <map>
#include <stdexcept>
#include <string>
#include <utility>
#include <vector>

#include "wistorvan.h"

namespace {

using Word = std::uint32_t;
using Words = std::vector<Word>;

// The one refusal that is shown here; any other ends the program.
struct BadLog : std::runtime_error {
    using std::runtime_error::runtime_error;
};

wistorvan_answer accepted(const wistorvan_answer &a) {
    const std::string numbers =
        std::to_string(a.number) + " at " + std::to_string(a.second) + " " + std::to_string(a.third);
    switch (a.number) {
    case WISTORVAN_OK:
        return a;
    case WISTORVAN_BAD_LOG:
        throw BadLog("refused " + numbers);
    default:
        throw std::logic_error("not expected: " + numbers);
    }
}

// A message begun: the number of its release in the whole log, and its begin tick.
struct Begun {
    Word release;
    Word tick;
};

// A replay that goes on from piece to piece.
class Replay {
public:
    explicit Replay(Words sheet) : sheet(std::move(sheet)) {}

    std::vector<Begun> resume(const Words &piece, Word horizon) {
        Words room(2 * WISTORVAN_MAX_WAITING);
        const auto a = accepted(wistorvan_resume(sheet.data(), sheet.size(), piece.data(), piece.size(), horizon, &checkpoint,
                                                 room.data(), room.size()));
        std::vector<Begun> begun;
        for (Word i = 0; i < a.second; i++)
            begun.push_back({room[2 * i], room[2 * i + 1]});
        return begun;
    }

    // The numbers of the releases that wait.
    Words waiting() const { return Words(checkpoint.numbers, checkpoint.numbers + checkpoint.waiting); }

    Word horizon() const { return checkpoint.horizon; }
    Word turns() const { return checkpoint.turns; }
    Word next() const { return checkpoint.tick; }

private:
    Words sheet;
    wistorvan_checkpoint checkpoint = WISTORVAN_FRESH_CHECKPOINT;
};

struct Piece {
    Words releases;
    Word horizon;
};

void show_piece(const Piece &piece, const std::vector<Begun> &begun, const Words &waiting) {
    std::cout << "up to " << piece.horizon << ":";
    for (const auto &[release, tick] : begun)
        std::cout << " release " << release << " begins at " << tick;
    std::cout << "; waiting:";
    for (const Word number : waiting)
        std::cout << " " << number;
    std::cout << (waiting.empty() ? " none\n" : "\n");
}

// A tick below the last horizon is refused, and the checkpoint stays as it is.
void show_refusal(Replay &replay) {
    const Word past = replay.horizon() - 1;
    try {
        replay.resume({past, 1}, 50);
        throw std::logic_error("not refused");
    } catch (const BadLog &refusal) {
        std::cout << "a release at " << past << ": " << refusal.what() << "\n";
    }
}

void show(const std::string &what, const Words &begins, Word turns, Word next) {
    std::cout << what << ": begins";
    for (const Word begin : begins)
        std::cout << " " << begin;
    std::cout << ", turns " << turns << ", next " << next << "\n";
}

} // namespace

int main() {
    // Two nodes; a message takes 5 ticks, a protocol slot 1. Then a row for each node: place of its body, streams, budget. Then
    // period, deadline and jitter of each stream.
    const Words sheet{
        2, 5, 1,
        9, 2, 1,
        15, 1, 2,
        40, 40, 0, 60, 60, 0,
        30, 30, 0,
    };
    // Two words a release: the tick at which it is queued, and the running number of its stream.
    const std::vector<Piece> pieces{{{0, 1, 0, 2}, 1}, {{1, 3}, 12}, {{}, 40}};
    try {
        Replay replay(sheet);
        Words log;
        std::map<Word, Word> begun;
        for (const auto &piece : pieces) {
            const auto now = replay.resume(piece.releases, piece.horizon);
            show_piece(piece, now, replay.waiting());
            for (const auto &[release, tick] : now)
                begun[release] = tick;
            log.insert(log.end(), piece.releases.begin(), piece.releases.end());
        }
        show_refusal(replay);
        Words begins;
        for (const auto &[release, tick] : begun)
            begins.push_back(tick);
        show("by pieces", begins, replay.turns(), replay.next());
        Words whole(log.size() / 2);
        const auto a = accepted(wistorvan_replay(sheet.data(), sheet.size(), log.data(), log.size(), replay.horizon(),
                                                 whole.data(), whole.size()));
        show("the whole log", whole, a.second, a.third);
    } catch (const std::exception &stopped) {
        std::cerr << stopped.what() << "\n";
        return EXIT_FAILURE;
    }
    return EXIT_SUCCESS;
}
