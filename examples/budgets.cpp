// Asks in C++ for the smallest budgets of a line, through a thin wrapper that takes vectors and throws refusals. It prints what
// budgets.c prints.
#include <cstddef>
#include <cstdint>
#include <cstdlib>
#include <exception>
#include <iostream>
#include <stdexcept>
#include <string>
#include <vector>

#include "wistorvan.h"

namespace {

using Word = std::uint32_t;
using Words = std::vector<Word>;

struct Admission {
    Words waits;
    Word cycle;
};

// A budget for each node.
struct Budgets {
    Words row;
    Word sum;
    Word cycle;
};

// The refusals that are shown here; any other ends the program.
struct Refusal : std::runtime_error {
    using std::runtime_error::runtime_error;
};

wistorvan_answer accepted(const wistorvan_answer &a) {
    const std::string node = std::to_string(a.second);
    const std::string numbers = std::to_string(a.number) + " at " + node + " " + std::to_string(a.third);
    switch (a.number) {
    case WISTORVAN_OK:
        return a;
    case WISTORVAN_LATE:
        throw Refusal("refused " + numbers + ": stream " + std::to_string(a.third) + " of node " + node + " would be late");
    case WISTORVAN_NO_BUDGETS:
        throw Refusal("refused " + numbers + ": no budgets of 1 to 16 work: node " + node + " is late even with 16");
    default:
        throw std::logic_error("not expected: " + numbers);
    }
}

Admission admit(const Words &sheet) {
    Words room(WISTORVAN_MAX_STREAMS);
    const auto a = accepted(wistorvan_admit(sheet.data(), sheet.size(), room.data(), room.size()));
    room.resize(a.second);
    return {room, a.third};
}

Budgets find_budgets(const Words &sheet) {
    Words room(WISTORVAN_MAX_NODES);
    const auto a = accepted(wistorvan_find_budgets(sheet.data(), sheet.size(), room.data(), room.size()));
    room.resize(sheet.front()); // the number of nodes
    return {room, a.second, a.third};
}

// Where the budget of a node stands, the first node being 0.
std::size_t budget_at(std::size_t node) { return 5 + 3 * node; }

Words budgets_of(const Words &sheet) {
    Words budgets;
    for (std::size_t node = 0; node < sheet.front(); node++)
        budgets.push_back(sheet[budget_at(node)]);
    return budgets;
}

std::ostream &operator<<(std::ostream &out, const Words &words) {
    for (const Word word : words)
        out << " " << word;
    return out;
}

void ask(const Words &sheet) {
    std::cout << "the line with budgets" << budgets_of(sheet) << "\n";
    try {
        const auto [waits, cycle] = admit(sheet);
        std::cout << "  admitted: cycle " << cycle << ", waits" << waits << "\n";
    } catch (const Refusal &refusal) {
        std::cout << "  " << refusal.what() << "\n";
    }
}

// Puts the budgets into the sheet where some are found.
void find(const std::string &what, Words &sheet) {
    std::cout << what << "\n";
    try {
        const auto [row, sum, cycle] = find_budgets(sheet);
        std::cout << "  found:" << row << ", sum " << sum << ", cycle " << cycle << "\n";
        for (std::size_t node = 0; node < row.size(); node++)
            sheet[budget_at(node)] = row[node];
    } catch (const Refusal &refusal) {
        std::cout << "  " << refusal.what() << "\n";
    }
}

} // namespace

int main() {
    // Three nodes; a message takes 5 ticks, a protocol slot 1. Then a row for each node: place of its body, streams, budget.
    Words sheet{
        3, 5, 1,
        12, 4, 2, // line controller
        24, 2, 1, // burner
        30, 2, 4, // recorder
        // Belt speed, damper command, burner shut-off, fan speed: period, deadline, jitter.
        200, 59, 0, 500, 69, 0, 1000, 49, 0, 400, 69, 0,
        250, 39, 0, 1000, 49, 0, // flame signal, gas pressure
        1000, 1000, 0, 10000, 10000, 0, // recorder block, recorder state
    };
    constexpr std::size_t shut_off_deadline = 19;
    try {
        ask(sheet);
        find("the smallest budgets", sheet);
        ask(sheet);
        sheet[shut_off_deadline] = 19;
        find("the smallest budgets with the burner shut-off due within 19 ticks", sheet);
    } catch (const std::exception &stopped) {
        std::cerr << stopped.what() << "\n";
        return EXIT_FAILURE;
    }
    return EXIT_SUCCESS;
}
