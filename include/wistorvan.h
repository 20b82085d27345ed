/* The proved planner for C and C++: link libwistorvan.a, which `rt lib` in crates/wistorvan writes to its out/.

   Every function answers any input and asks nothing of its caller beyond what C cannot check: each pointer must be good for
   the number of words or stream records passed with it, a table that is written, a list and a record (the bus, the checkpoint)
   must not overlap another, and nothing else may write to them during the call. With 0 words or records any pointer is good,
   NULL too. A refusal changes no word of any table and no field of a record. Nothing is kept between calls.

   No compiler holds these declarations to the Rattle source, crates/wistorvan/src/lib.rt; a test in rust/ compares their text. */
#ifndef WISTORVAN_H
#define WISTORVAN_H

#include <stddef.h>
#include <stdint.h>

#ifdef __cplusplus
extern "C" {
#endif

/* The word of a release that has not begun. */
#define WISTORVAN_NOT_BEGUN UINT32_C(4294967295)

/* The most nodes and streams of a sheet and releases of a log, and the words of the longest sheet: rooms of so many words are
   always long enough. */
#define WISTORVAN_MAX_NODES 16
#define WISTORVAN_MAX_STREAMS 256
#define WISTORVAN_MAX_RELEASES 4096
#define WISTORVAN_LONGEST_SHEET 819

/* The most messages that wait and come in one piece of a log (resume): a room of twice so many words is always long enough. And
   the words of a checkpoint. */
#define WISTORVAN_MAX_WAITING 256
#define WISTORVAN_CHECKPOINT_WORDS 774

/* The checkpoint before the first piece: struct wistorvan_checkpoint checkpoint = WISTORVAN_FRESH_CHECKPOINT; */
#define WISTORVAN_FRESH_CHECKPOINT {0, 0, 1, 0, 0, 0, {0}, {0}, {0}}

/* The first number of an answer, by name: success, or what is refused. Of all refusals that apply, the first in the order that
   stands at each function is given. 14 and 15 are kept for later ones, so expect numbers that have no name here yet. */
enum wistorvan_number {
    /* Success. */
    WISTORVAN_OK = 0,
    /* The sheet has under 3 words. Place: 0, 0. */
    WISTORVAN_SHEET_TOO_SHORT = 1,
    /* n, the number of nodes, is not 1 to 16. Place: 0, 0. */
    WISTORVAN_BAD_NODE_COUNT = 2,
    /* TMS or TPR, the duration of a message or of a protocol slot in ticks, is not 1 to 10,000. Place: 0, 0. */
    WISTORVAN_BAD_DURATION = 3,
    /* The contents. First, the sheet has fewer than 3 + 3n words, or the tables of budgets and counts (write_sheet) differ in
       length: place 0, 0. Then, node by node, a row has a wrong place of the body, more than 16 streams or a budget that is not
       1 to 16: place node, 0. Then, the total length is wrong, or the tables of periods, deadlines and jitters (write_sheet) do
       not have a word for each stream counted: place 0, 0. */
    WISTORVAN_BAD_CONTENTS = 4,
    /* A period is not 1 to 1,000,000,000, a deadline not 1 to its period or a jitter not less than its period, on the sheet or in
       the tables (write_sheet), first in sheet order, or in the new words (edit_stream). Place: node, stream. */
    WISTORVAN_BAD_STREAM = 5,
    /* The room is shorter than one word a stream (admit) or a release (replay, replay_records, step), than the sheet (write_sheet),
       than sixteen words, however few the nodes are (find_budgets), or than two words for each message that waits and each release
       of the piece, begun or not (resume); or the list has fewer records than the sheet has streams (replay_records). Place: 0, 0. */
    WISTORVAN_ROOM_TOO_SHORT = 6,
    /* A stream is late: a message of it could be delivered after its deadline, which runs from its event, jitter ticks before its
       queuing at most (delivery is when its turn's protocol slot ends). The first in sheet order (admit) or the asked one
       (one_stream). Place: node, stream. */
    WISTORVAN_LATE = 7,
    /* The sheet has no such stream (one_stream, edit_stream). Place: node, stream as asked. */
    WISTORVAN_NO_SUCH_STREAM = 8,
    /* The log, or a piece of it (resume). First, its length is odd, then, it has more than 4,096 releases, with those of all
       pieces before: place 0, 0. Then, the first release with a tick over 1,000,000,000, a tick below the one before, a tick
       below the checkpoint's horizon or not below the new one (resume) or an unknown stream: place 0, release from 1, which
       counts within the piece. */
    WISTORVAN_BAD_LOG = 9,
    /* The horizon is over 1,000,000,000, or below the checkpoint's (resume). Place: 0, 0. */
    WISTORVAN_HORIZON_TOO_LARGE = 10,
    /* No budgets of 1 to 16 make every stream in time (find_budgets). The node has a late stream and 16 already, in the earliest
       round with such a node, and is the first of them. Place: node, 0. */
    WISTORVAN_NO_BUDGETS = 11,
    /* The messages that wait and the releases of the piece are more than 256 together, whatever could begin between (resume).
       Place: 0, 0. */
    WISTORVAN_TOO_MANY_WAITING = 12,
    /* The stream is on the sheet, but not on the caller's own node (edit_stream). Place: node, stream as asked. */
    WISTORVAN_NOT_OWN_NODE = 13,
    /* The tick or the turns of the bus or the checkpoint are over 1,000,000,000, or its node is not 1 to n; or the checkpoint has
       more than 256 waiting, more than 4,096 releases so far, or an unknown stream that waits. Place: 0, 0. */
    WISTORVAN_BAD_BUS = 16
};

/* Three numbers. Number 0 is success; any other is a refusal (enum wistorvan_number), and the two after it are its place. */
struct wistorvan_answer {
    uint32_t number;
    uint32_t second;
    uint32_t third;
};

/* The bus between two turns: the tick at which a node's turn starts, and the turns before it. A run starts at 0, 1, 0. */
struct wistorvan_bus {
    uint32_t tick;
    uint32_t node;
    uint32_t turns;
};

/* What a replay has seen of one stream: its messages begun, the longest of their waits, in ticks from queuing to begin, and how many
   of them waited longer than the stream's listed wait. A late stream has no listed wait, and its last number stays 0. */
struct wistorvan_stream_record {
    uint32_t begun;
    uint32_t longest;
    uint32_t over;
};

/* A replay between two pieces of its log. A release that waits has its number in the whole log, from 1, its tick and the running
   number of its stream; those that wait stand in log order from place 0, and after a piece every place past them is 0. The
   replay starts at WISTORVAN_FRESH_CHECKPOINT. */
struct wistorvan_checkpoint {
    uint32_t horizon; /* of the last piece */
    uint32_t tick; /* the next turn's start */
    uint32_t node; /* the next turn's node, from 1 */
    uint32_t turns; /* so far */
    uint32_t releases; /* so far, in all pieces */
    uint32_t waiting; /* how many places are in use */
    uint32_t numbers[WISTORVAN_MAX_WAITING];
    uint32_t ticks[WISTORVAN_MAX_WAITING];
    uint32_t streams[WISTORVAN_MAX_WAITING];
};

/* Whether a sheet is valid: 0 0 0 if so. Refusals 1 to 5. */
struct wistorvan_answer wistorvan_check_sheet(const uint32_t *sheet, size_t sheet_words);

/* One stream of a node: its listed wait, in ticks from queuing to begin, and J. Refusals 1 to 5, 8, 7. */
struct wistorvan_answer wistorvan_one_stream(const uint32_t *sheet, size_t sheet_words, uint32_t node, uint32_t stream);

/* Number of streams and full cycle; the listed waits, in sheet order, in the first words of the room. Refusals 1 to 5, 6, 7. */
struct wistorvan_answer wistorvan_admit(const uint32_t *sheet, size_t sheet_words, uint32_t *room, size_t room_words);

/* Turns started and the tick the next would start; a begin tick for each release, in log order, in the first words of the room,
   or WISTORVAN_NOT_BEGUN. The log has two words a release: the tick at which it is queued, and the running number of its stream.
   Refusals 1 to 5, 9, 10, 6. */
struct wistorvan_answer wistorvan_replay(const uint32_t *sheet, size_t sheet_words, const uint32_t *log, size_t log_words,
                                         uint32_t horizon, uint32_t *room, size_t room_words);

/* The same, with a record of each stream beside the begin ticks, in sheet order in the first places of the list; the records past
   them stay. Whether a stream is late is judged stream by stream, and also where the sheet would not be admitted. A list of
   WISTORVAN_MAX_STREAMS records is long enough. Refusals 1 to 5, 9, 10, 6, and then 6 where the list is shorter than the streams. */
struct wistorvan_answer wistorvan_replay_records(const uint32_t *sheet, size_t sheet_words, const uint32_t *log, size_t log_words,
                                                 uint32_t horizon, uint32_t *room, size_t room_words,
                                                 struct wistorvan_stream_record *records, size_t records_count);

/* One turn of the record's node: messages taken and the tick the next turn starts. The room has a word for each release, in log
   order: those that are WISTORVAN_NOT_BEGUN wait, and the begins of this turn are written. The record is set to the next turn.
   Refusals 1 to 5, 9, 16, 6. */
struct wistorvan_answer wistorvan_step(const uint32_t *sheet, size_t sheet_words, const uint32_t *log, size_t log_words,
                                       struct wistorvan_bus *bus, uint32_t *room, size_t room_words);

/* Replays the next piece of a log, up to a new horizon: messages begun in this piece and turns so far. The piece has two words a
   release, like a log, with ticks from the checkpoint's horizon up to below the new one; the horizon may also stay as it is. The
   checkpoint is set to the end of the piece. The first words of the room have the number in the whole log and the begin tick of
   each message begun in this piece, in the order begun. From a fresh checkpoint, with one sheet and however a log is cut, the
   pieces give each release the begin that the whole log gives at the last horizon, and the same turns. A checkpoint that was made
   up is taken as it stands, if it is not refused. Refusals 1 to 5, 16, 9, 10, 12, 6. */
struct wistorvan_answer wistorvan_resume(const uint32_t *sheet, size_t sheet_words, const uint32_t *piece, size_t piece_words,
                                         uint32_t horizon, struct wistorvan_checkpoint *checkpoint, uint32_t *room,
                                         size_t room_words);

/* Makes a sheet from tables, in the first words of the room: words written and full cycle. Counts of streams and budgets have a
   word for each node, n is the length of the counts; periods, deadlines and jitters have a word for each stream, node by node.
   Events of a stream are at least its period apart, a message is queued 0 to jitter ticks after its event, and its deadline runs
   from the event. Only what is valid is written; whether it is admitted is for admit to say. Refusals 2, 3, 4, 5, 6. */
struct wistorvan_answer wistorvan_write_sheet(uint32_t message_ticks, uint32_t slot_ticks,
                                              const uint32_t *counts, size_t counts_words,
                                              const uint32_t *budgets, size_t budgets_words,
                                              const uint32_t *periods, size_t periods_words,
                                              const uint32_t *deadlines, size_t deadlines_words,
                                              const uint32_t *jitters, size_t jitters_words,
                                              uint32_t *room, size_t room_words);

/* Changes one stream of the caller's own node in place: its period, deadline and jitter on the sheet, and no other word; 0 0 0. The
   sheet stays valid. Every stream of every other node has the wait and J that it had, or is late as it was: two valid sheets alike
   in n, TMS, TPR, budgets and one node's streams get the same answers of one_stream on those streams, whatever the other nodes
   have. Of admit's refusal 7 and of the budgets that find_budgets finds nothing is promised, since they read every stream. Refusals
   1 to 5 of the sheet as it was, 8, 13, also where own_node is no node of the sheet, and then 5 of the new words. */
struct wistorvan_answer wistorvan_edit_stream(uint32_t *sheet, size_t sheet_words, uint32_t own_node, uint32_t node,
                                              uint32_t stream, uint32_t period, uint32_t deadline, uint32_t jitter);

/* The smallest budgets with which no stream is late: their sum and the full cycle with them; the budgets, node by node and 0 past
   the last node, in the first sixteen words of the room. No node has less in any other budgets that work. The search starts with
   1 everywhere, and each round gives one more to every node with a late stream; the sheet's own budgets are checked and not used.
   Refusals 1 to 5, 6, 11. */
struct wistorvan_answer wistorvan_find_budgets(const uint32_t *sheet, size_t sheet_words, uint32_t *room, size_t room_words);

#ifdef __cplusplus
}
#endif

#endif
