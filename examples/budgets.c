/* Asks in C for the smallest budgets of a line. With its own the line is refused, with those that are found it is admitted; and with
   a shorter deadline no budgets work. It stops with exit status 1 at a refusal that it does not expect. */
#include <inttypes.h>
#include <stdio.h>
#include <stdlib.h>
#include <string.h>

#include "wistorvan.h"

#define WORDS(table) (table), sizeof(table) / sizeof(*(table))

/* Three nodes; a message takes 5 ticks, a protocol slot 1. Then a row for each node: place of its body, streams, budget. */
static const uint32_t line[] = {
    3, 5, 1,
    12, 4, 2, /* line controller */
    24, 2, 1, /* burner */
    30, 2, 4, /* recorder */
    /* Belt speed, damper command, burner shut-off, fan speed: period, deadline, jitter. */
    200, 59, 0, 500, 69, 0, 1000, 49, 0, 400, 69, 0,
    250, 39, 0, 1000, 49, 0, /* flame signal, gas pressure */
    1000, 1000, 0, 10000, 10000, 0, /* recorder block, recorder state */
};
enum { NODES = 3, SHUT_OFF_DEADLINE = 19 };

/* Where the budget of a node stands, the first node being 0. */
static size_t budget_at(size_t node) { return 5 + 3 * node; }

static void show_words(const uint32_t *words, size_t count) {
    for (size_t i = 0; i < count; i++)
        printf(" %" PRIu32, words[i]);
}

static void show_refusal(struct wistorvan_answer a) {
    printf("  refused %" PRIu32 " at %" PRIu32 " %" PRIu32 ": ", a.number, a.second, a.third);
    switch (a.number) {
    case WISTORVAN_LATE:
        printf("stream %" PRIu32 " of node %" PRIu32 " would be late\n", a.third, a.second);
        break;
    case WISTORVAN_NO_BUDGETS:
        printf("no budgets of 1 to 16 work: node %" PRIu32 " is late even with 16\n", a.second);
        break;
    default:
        exit(EXIT_FAILURE);
    }
}

static void ask(const uint32_t *sheet, size_t sheet_words) {
    uint32_t waits[WISTORVAN_MAX_STREAMS];
    struct wistorvan_answer a = wistorvan_admit(sheet, sheet_words, WORDS(waits));

    printf("the line with budgets");
    for (size_t node = 0; node < NODES; node++)
        show_words(&sheet[budget_at(node)], 1);
    printf("\n");
    if (a.number != WISTORVAN_OK) {
        show_refusal(a);
        return;
    }
    printf("  admitted: cycle %" PRIu32 ", waits", a.third);
    show_words(waits, a.second);
    printf("\n");
}

/* Puts the budgets into the sheet where some are found. */
static void find(const char *what, uint32_t *sheet, size_t sheet_words) {
    uint32_t row[WISTORVAN_MAX_NODES];
    struct wistorvan_answer a = wistorvan_find_budgets(sheet, sheet_words, WORDS(row));

    printf("%s\n", what);
    if (a.number != WISTORVAN_OK) {
        show_refusal(a);
        return;
    }
    printf("  found:");
    show_words(row, NODES);
    printf(", sum %" PRIu32 ", cycle %" PRIu32 "\n", a.second, a.third);
    for (size_t node = 0; node < NODES; node++)
        sheet[budget_at(node)] = row[node];
}

int main(void) {
    uint32_t sheet[sizeof line / sizeof *line];

    memcpy(sheet, line, sizeof line);
    ask(WORDS(sheet));
    find("the smallest budgets", WORDS(sheet));
    ask(WORDS(sheet));
    sheet[SHUT_OFF_DEADLINE] = 19;
    find("the smallest budgets with the burner shut-off due within 19 ticks", WORDS(sheet));
    return EXIT_SUCCESS;
}
