/* Changes in C the recorder's own streams on the owner's sheet: the waits of the owner's streams stay as they are, whatever the
   recorder's become. What is not the recorder's, or no valid stream, is refused. It stops with exit status 1 at a refusal that it
   does not expect. */
#include <inttypes.h>
#include <stdio.h>
#include <stdlib.h>

#include "wistorvan.h"

#define WORDS(table) (table), sizeof(table) / sizeof(*(table))

/* Five nodes; a message takes 5 ticks, a protocol slot 1. Then a row for each node: place of its body, streams, budget. */
static uint32_t sheet[] = {
    5, 5, 1,
    18, 3, 2, /* line controller */
    27, 2, 1, /* belt drive */
    33, 2, 2, /* burner */
    39, 1, 1, /* moisture probe */
    42, 2, 1, /* recorder */
    200, 80, 0, 500, 99, 0, 1000, 70, 0, /* belt speed, damper command, burner shut-off: period, deadline, jitter */
    200, 200, 0, 10000, 10000, 0, /* actual speed, drive state */
    250, 250, 0, 1000, 1000, 0, /* flame signal, gas pressure */
    500, 500, 0, /* moisture */
    1000, 1000, 0, 10000, 10000, 0, /* recorder block, recorder state */
};
enum { FIRST = 1, RECORDER = 5 };

/* A stream by its node and number, and its new words. */
static const struct edit {
    const char *what;
    uint32_t node, stream;
    uint32_t period, deadline, jitter;
} edits[] = {
    {"recorder block every 100 ticks, queued up to 30 after its event", RECORDER, 1, 100, 100, 30},
    {"recorder state due within 80 ticks", RECORDER, 2, 10000, 80, 0},
    {"damper command due within 200 ticks", 1, 2, 500, 200, 0},
    {"recorder block due within 101 ticks", RECORDER, 1, 100, 101, 30},
};

static void show_refusal(struct wistorvan_answer a) {
    printf("  refused %" PRIu32 " at %" PRIu32 " %" PRIu32 ": stream %" PRIu32 " of node %" PRIu32, a.number, a.second, a.third,
           a.third, a.second);
    switch (a.number) {
    case WISTORVAN_BAD_STREAM:
        printf(": wrong period, deadline or jitter\n");
        break;
    case WISTORVAN_LATE:
        printf(" would be late\n");
        break;
    case WISTORVAN_NOT_OWN_NODE:
        printf(" is not on the own node\n");
        break;
    default:
        exit(EXIT_FAILURE);
    }
}

/* The listed waits of the streams of some nodes, one by one; a late one has none. */
static void show_waits(const char *whose, uint32_t first, uint32_t last) {
    printf("  waits of the %s:", whose);
    for (uint32_t node = first; node <= last; node++)
        for (uint32_t stream = 1; stream <= sheet[3 * node + 1]; stream++) {
            struct wistorvan_answer a = wistorvan_one_stream(WORDS(sheet), node, stream);

            if (a.number == WISTORVAN_OK)
                printf(" %" PRIu32, a.second);
            else if (a.number == WISTORVAN_LATE)
                printf(" late");
            else
                exit(EXIT_FAILURE);
        }
    printf("\n");
}

static void ask(void) {
    uint32_t waits[WISTORVAN_MAX_STREAMS];
    struct wistorvan_answer a = wistorvan_admit(WORDS(sheet), WORDS(waits));

    show_waits("owner", FIRST, RECORDER - 1);
    show_waits("recorder", RECORDER, RECORDER);
    if (a.number == WISTORVAN_OK)
        printf("  admitted: cycle %" PRIu32 "\n", a.third);
    else
        show_refusal(a);
}

static void edit_and_ask(struct edit e) {
    struct wistorvan_answer a =
        wistorvan_edit_stream(WORDS(sheet), RECORDER, e.node, e.stream, e.period, e.deadline, e.jitter);

    printf("%s\n", e.what);
    if (a.number == WISTORVAN_OK)
        ask();
    else
        show_refusal(a);
}

int main(void) {
    printf("the line with its recorder\n");
    ask();
    for (size_t i = 0; i < sizeof edits / sizeof *edits; i++)
        edit_and_ask(edits[i]);
    return EXIT_SUCCESS;
}
