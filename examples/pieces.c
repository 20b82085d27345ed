/* Replays a log in C piece by piece, as it is written, and then as a whole: the begins, the turns and the next tick are the same.
   It stops with exit status 1 at a refusal that it does not expect. */
#include <inttypes.h>
#include <stdio.h>
#include <stdlib.h>

#include "wistorvan.h"

#define WORDS(table) (table), sizeof(table) / sizeof(*(table))

/* Two nodes; a message takes 5 ticks, a protocol slot 1. Then a row for each node: place of its body, streams, budget. Then
   period, deadline and jitter of each stream. */
static const uint32_t sheet[] = {
    2, 5, 1,
    9, 2, 1,
    15, 1, 2,
    40, 40, 0, 60, 60, 0,
    30, 30, 0,
};

/* Two words a release: the tick at which it is queued, and the running number of its stream. */
static const uint32_t log_words[] = {0, 1, 0, 2, 1, 3};
enum { RELEASES = 3 };

/* A piece ends before this tick and this word of the log. The last one has no release. */
static const struct end {
    uint32_t horizon;
    size_t word;
} ends[] = {{1, 4}, {12, 6}, {40, 6}};

static struct wistorvan_answer accepted(struct wistorvan_answer a) {
    if (a.number != WISTORVAN_OK)
        exit(EXIT_FAILURE);
    return a;
}

static void show_waiting(const struct wistorvan_checkpoint *checkpoint) {
    printf("; waiting:");
    for (uint32_t i = 0; i < checkpoint->waiting; i++)
        printf(" %" PRIu32, checkpoint->numbers[i]);
    printf("%s\n", checkpoint->waiting == 0 ? " none" : "");
}

/* Puts the begins of the piece where those of the whole log would stand. */
static void resume(struct wistorvan_checkpoint *checkpoint, size_t first, struct end end, uint32_t *begins) {
    uint32_t room[2 * WISTORVAN_MAX_WAITING];
    struct wistorvan_answer a = accepted(wistorvan_resume(WORDS(sheet), &log_words[first], end.word - first, end.horizon,
                                                          checkpoint, WORDS(room)));

    printf("up to %" PRIu32 ":", end.horizon);
    for (uint32_t i = 0; i < a.second; i++) {
        uint32_t number = room[2 * i], begin = room[2 * i + 1];

        printf(" release %" PRIu32 " begins at %" PRIu32, number, begin);
        begins[number - 1] = begin;
    }
    show_waiting(checkpoint);
}

/* A tick below the last horizon is refused, and the checkpoint stays as it is. */
static void show_refusal(struct wistorvan_checkpoint *checkpoint) {
    const uint32_t past[] = {checkpoint->horizon - 1, 1};
    uint32_t room[2 * WISTORVAN_MAX_WAITING];
    struct wistorvan_answer a = wistorvan_resume(WORDS(sheet), WORDS(past), 50, checkpoint, WORDS(room));

    if (a.number != WISTORVAN_BAD_LOG)
        exit(EXIT_FAILURE);
    printf("a release at %" PRIu32 ": refused %" PRIu32 " at %" PRIu32 " %" PRIu32 "\n", past[0], a.number, a.second, a.third);
}

static void show(const char *what, const uint32_t *begins, uint32_t turns, uint32_t next) {
    printf("%s: begins", what);
    for (size_t i = 0; i < RELEASES; i++)
        printf(" %" PRIu32, begins[i]);
    printf(", turns %" PRIu32 ", next %" PRIu32 "\n", turns, next);
}

int main(void) {
    struct wistorvan_checkpoint checkpoint = WISTORVAN_FRESH_CHECKPOINT;
    struct wistorvan_answer a;
    uint32_t pieces[RELEASES], whole[RELEASES];
    size_t first = 0;

    for (size_t i = 0; i < sizeof ends / sizeof *ends; i++) {
        resume(&checkpoint, first, ends[i], pieces);
        first = ends[i].word;
    }
    show_refusal(&checkpoint);
    show("by pieces", pieces, checkpoint.turns, checkpoint.tick);
    a = accepted(wistorvan_replay(WORDS(sheet), WORDS(log_words), checkpoint.horizon, WORDS(whole)));
    show("the whole log", whole, a.second, a.third);
    return EXIT_SUCCESS;
}
