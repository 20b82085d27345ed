/* Makes sheets from tables in C and asks whether each is admitted: sheet A, sheet A with deadlines that cannot be met, sheet A with
   streams that queue late, and tables that make no sheet. It stops with exit status 1 at a refusal that it does not expect. */
#include <inttypes.h>
#include <stdio.h>
#include <stdlib.h>

#include "wistorvan.h"

#define WORDS(table) (table), sizeof(table) / sizeof(*(table))

/* A message takes 5 ticks, a protocol slot 1. Node 1 has two streams and may send one message a turn, node 2 has one stream and
   may send two. Periods, deadlines and jitters are a word for each stream: those of node 1, then that of node 2. */
enum { MESSAGE_TICKS = 5, SLOT_TICKS = 1, STREAMS = 3 };
static const uint32_t counts[] = {2, 1};
static const uint32_t budgets[] = {1, 2};
static const uint32_t periods[STREAMS] = {40, 60, 30};

static void show_words(const uint32_t *words, size_t count) {
    for (size_t i = 0; i < count; i++)
        printf(" %" PRIu32, words[i]);
    printf("\n");
}

static void show_refusal(struct wistorvan_answer a) {
    printf("  refused %" PRIu32 " at %" PRIu32 " %" PRIu32 ": stream %" PRIu32 " of node %" PRIu32, a.number, a.second, a.third,
           a.third, a.second);
    switch (a.number) {
    case WISTORVAN_BAD_STREAM:
        printf(": wrong period, deadline or jitter\n");
        break;
    case WISTORVAN_LATE:
        printf(" would be late\n");
        break;
    default:
        exit(EXIT_FAILURE);
    }
}

static void ask(const uint32_t *sheet, size_t sheet_words) {
    uint32_t waits[WISTORVAN_MAX_STREAMS];
    struct wistorvan_answer a = wistorvan_admit(sheet, sheet_words, WORDS(waits));

    if (a.number != WISTORVAN_OK) {
        show_refusal(a);
        return;
    }
    printf("  admitted: cycle %" PRIu32 ", waits", a.third);
    show_words(waits, a.second);
}

static void make_and_ask(const char *what, const uint32_t deadlines[STREAMS], const uint32_t jitters[STREAMS]) {
    uint32_t sheet[WISTORVAN_LONGEST_SHEET];
    struct wistorvan_answer a = wistorvan_write_sheet(MESSAGE_TICKS, SLOT_TICKS, WORDS(counts), WORDS(budgets), WORDS(periods),
                                                      deadlines, STREAMS, jitters, STREAMS, WORDS(sheet));

    printf("%s\n", what);
    if (a.number != WISTORVAN_OK) {
        show_refusal(a);
        return;
    }
    printf("  sheet:");
    show_words(sheet, a.second);
    ask(sheet, a.second);
}

int main(void) {
    static const uint32_t due[STREAMS] = {40, 60, 30};
    static const uint32_t due_sooner[STREAMS] = {38, 38, 30};
    static const uint32_t due_too_far[STREAMS] = {40, 61, 30};
    static const uint32_t at_once[STREAMS] = {0, 0, 0};
    static const uint32_t first_late[STREAMS] = {7, 0, 0};
    static const uint32_t last_late[STREAMS] = {0, 0, 4};
    static const uint32_t too_late[STREAMS] = {40, 0, 0};

    make_and_ask("sheet A from its tables", due, at_once);
    make_and_ask("both deadlines of node 1 cut to 38", due_sooner, at_once);
    make_and_ask("stream 1 of node 1 queued up to 7 ticks after its event: stream 2 may wait for two of it", due, first_late);
    make_and_ask("the stream of node 2 queued up to 4 ticks after its event, from which its deadline runs", due, last_late);
    make_and_ask("a deadline of 61 for a period of 60", due_too_far, at_once);
    make_and_ask("a jitter of 40 for a period of 40", due, too_late);
    return EXIT_SUCCESS;
}
