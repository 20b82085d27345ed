/* Replays a log in C with a record of each stream: its messages begun, the longest of their waits, and how many of them waited
   longer than listed. It stops with exit status 1 at a refusal that it does not expect. */
#include <inttypes.h>
#include <stdio.h>
#include <stdlib.h>
#include <string.h>

#include "wistorvan.h"

#define TABLE(table) (table), sizeof(table) / sizeof(*(table))

/* Two nodes; a message takes 5 ticks, a protocol slot 1. Then a row for each node: place of its body, streams, budget. Then
   period, deadline and jitter of each stream. */
static uint32_t sheet[] = {
    2, 5, 1,
    9, 2, 1,
    15, 1, 2,
    40, 40, 0, 60, 60, 0,
    30, 30, 0,
};

/* Two words a release: the tick at which it is queued, and the running number of its stream. Node 1 queues four messages of its
   stream 1 at once, which breaks its period and keeps its stream 2 waiting; stream 3, of node 2, keeps its own. */
static const uint32_t log_words[] = {0, 1, 0, 1, 0, 1, 0, 1, 0, 2, 1, 3, 31, 3, 61, 3};
enum { RELEASES = 8, STREAMS = 3, HORIZON = 70 };

/* What is lent to a replay. */
struct tables {
    uint32_t begins[RELEASES];
    struct wistorvan_stream_record list[STREAMS];
};

static struct wistorvan_answer accepted(struct wistorvan_answer a) {
    if (a.number != WISTORVAN_OK)
        exit(EXIT_FAILURE);
    return a;
}

/* The listed wait is the one that the records are held to; a late stream has none. */
static void show_record(uint32_t node, uint32_t stream, struct wistorvan_stream_record record) {
    struct wistorvan_answer a = wistorvan_one_stream(TABLE(sheet), node, stream);

    printf("  %4" PRIu32 "  %6" PRIu32 "  %5" PRIu32 "  %7" PRIu32, node, stream, record.begun, record.longest);
    if (a.number == WISTORVAN_LATE)
        printf("  %6s", "late");
    else
        printf("  %6" PRIu32, accepted(a).second);
    printf("  %4" PRIu32 "\n", record.over);
}

static void replay(const char *what, struct tables *lent) {
    struct wistorvan_answer a = accepted(wistorvan_replay_records(TABLE(sheet), TABLE(log_words), HORIZON, TABLE(lent->begins),
                                                                  TABLE(lent->list)));
    const struct wistorvan_stream_record *next = lent->list;

    printf("%s: turns %" PRIu32 ", begins", what, a.second);
    for (size_t i = 0; i < RELEASES; i++)
        printf(" %" PRIu32, lent->begins[i]);
    printf("\n  node  stream  begun  longest  listed  over\n");
    for (uint32_t node = 1; node <= sheet[0]; node++)
        for (uint32_t stream = 1; stream <= sheet[3 * node + 1]; stream++)
            show_record(node, stream, *next++);
}

/* A list that is shorter than the streams is refused, and what is lent stays as it is. */
static void show_refusal(struct tables *lent) {
    const struct tables before = *lent;
    const size_t records = STREAMS - 1;
    struct wistorvan_answer a = wistorvan_replay_records(TABLE(sheet), TABLE(log_words), HORIZON / 2, TABLE(lent->begins),
                                                         lent->list, records);

    if (a.number != WISTORVAN_ROOM_TOO_SHORT || memcmp(lent, &before, sizeof before) != 0)
        exit(EXIT_FAILURE);
    printf("a list of %zu records: refused %" PRIu32 " at %" PRIu32 " %" PRIu32 ", begins and list as before\n", records, a.number,
           a.second, a.third);
}

int main(void) {
    struct tables lent;

    replay("sheet A", &lent);
    show_refusal(&lent);
    sheet[10] = sheet[13] = 38;
    replay("both deadlines of node 1 cut to 38", &lent);
    return EXIT_SUCCESS;
}
