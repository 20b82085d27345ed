/* Asks the proved planner about sheet A from C, once by every entry, and shows two refusals. It stops with exit status 1 where
   an answer is not of the kind that it goes on with. */
#include <inttypes.h>
#include <stdio.h>
#include <stdlib.h>
#include <string.h>

#include "wistorvan.h"

#define WORDS(table) (table), sizeof(table) / sizeof(*(table))

static const uint32_t sheet[] = {2, 5, 1, 9, 2, 1, 15, 1, 2, 40, 40, 0, 60, 60, 0, 30, 30, 0};
static const uint32_t releases[] = {0, 1, 0, 2, 1, 3};

static void stop(const char *why, struct wistorvan_answer a) {
    fprintf(stderr, "%s: %" PRIu32 " %" PRIu32 " %" PRIu32 "\n", why, a.number, a.second, a.third);
    exit(EXIT_FAILURE);
}

/* Passes on an answer that must be a success. */
static struct wistorvan_answer accepted(struct wistorvan_answer a) {
    if (a.number != WISTORVAN_OK)
        stop("refused", a);
    return a;
}

static void show_words(const char *what, const uint32_t *words, size_t count) {
    printf("%s:", what);
    for (size_t i = 0; i < count; i++) {
        if (words[i] == WISTORVAN_NOT_BEGUN)
            printf(" -");
        else
            printf(" %" PRIu32, words[i]);
    }
    printf("\n");
}

static void show_refusal(const char *what, struct wistorvan_answer a) {
    printf("%s: refused %" PRIu32 " at %" PRIu32 " %" PRIu32 ": ", what, a.number, a.second, a.third);
    switch (a.number) {
    case WISTORVAN_SHEET_TOO_SHORT:
        printf("the sheet has fewer than 3 words\n");
        break;
    case WISTORVAN_LATE:
        printf("stream %" PRIu32 " of node %" PRIu32 " would be late\n", a.third, a.second);
        break;
    default:
        stop("not one of the two refusals asked for", a);
    }
}

static void ask_before_running(void) {
    struct wistorvan_answer a;
    uint32_t waits[3];

    accepted(wistorvan_check_sheet(WORDS(sheet)));
    printf("sheet A: valid\n");
    a = accepted(wistorvan_one_stream(WORDS(sheet), 1, 2));
    printf("stream 2 of node 1: wait %" PRIu32 ", J %" PRIu32 "\n", a.second, a.third);
    a = accepted(wistorvan_admit(WORDS(sheet), WORDS(waits)));
    printf("admitted: %" PRIu32 " streams, cycle %" PRIu32 "\n", a.second, a.third);
    show_words("waits", waits, a.second);
}

static void run_log(void) {
    struct wistorvan_answer a;
    struct wistorvan_bus bus = {0, 1, 0};
    uint32_t begins[3];

    a = accepted(wistorvan_replay(WORDS(sheet), WORDS(releases), 12, WORDS(begins)));
    printf("replay to 12: %" PRIu32 " turns, next at %" PRIu32 "\n", a.second, a.third);
    show_words("begins", WORDS(begins));

    for (size_t i = 0; i < 3; i++)
        begins[i] = WISTORVAN_NOT_BEGUN;
    a = accepted(wistorvan_step(WORDS(sheet), WORDS(releases), &bus, WORDS(begins)));
    printf("one step: %" PRIu32 " taken, next at %" PRIu32 "\n", a.second, a.third);
    show_words("begins", WORDS(begins));
    printf("next turn: tick %" PRIu32 ", node %" PRIu32 ", turns %" PRIu32 "\n", bus.tick, bus.node, bus.turns);
}

static void be_refused(void) {
    struct wistorvan_answer a;
    uint32_t late[sizeof sheet / sizeof *sheet];
    uint32_t waits[3] = {7, 8, 9};

    show_refusal("an empty sheet", wistorvan_check_sheet(NULL, 0));
    memcpy(late, sheet, sizeof late);
    late[10] = late[13] = 38;
    a = wistorvan_admit(WORDS(late), WORDS(waits));
    if (waits[0] != 7 || waits[1] != 8 || waits[2] != 9)
        stop("the room was changed by", a);
    show_refusal("deadlines of 38", a);
}

int main(void) {
    ask_before_running();
    run_log();
    be_refused();
    return EXIT_SUCCESS;
}
