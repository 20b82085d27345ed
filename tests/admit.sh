#!/usr/bin/env bash
# Runs crates/admit/out/admit on whole inputs, cut ones and pipes, and holds its output, to the byte, to document 01's and to the second
# program's.
. "$(dirname "$0")/lib.sh"

# An input file and the lines to expect; nothing may come on standard error.
admit() { # NAME FILE LINE..
    local name=$1 file=$2
    shift 2
    printf '%s\n' "$@" >"$work/expected"
    program admit <"$file"
    holds "admit $name" "$work/got" "$work/expected"
    "$peer" admit <"$file" >"$work/second"
    holds "admit $name, second program" "$work/got" "$work/second"
}

# What comes through a pipe on standard input, and the lines to expect.
piped() { # NAME LINE..
    local name=$1
    shift
    printf '%s\n' "$@" >"$work/expected"
    program admit
    holds "admit $name" "$work/got" "$work/expected"
}

sheet_a="2 5 1 9 2 1 15 1 2 40 40 0 60 60 0 30 30 0"
rows_a=("node stream wait" "1 1 16" "1 2 33" "2 1 16" "admitted 3")
words a $sheet_a
admit "sheet A" "$work/a" "${rows_a[@]}"

# In pieces: cut between words, within one, and behind a whole sheet; and one byte at a time, with pauses between some.
bytes() {
    for at in $(seq 0 71); do
        dd if="$work/a" bs=1 skip="$at" count=1 status=none
        [ $((at % 20)) -ne 7 ] || sleep 0.05
    done
}
piped "sheet A in two pieces" "${rows_a[@]}" < <(pieces "$work/a" 36)
piped "sheet A cut within a word" "${rows_a[@]}" < <(pieces "$work/a" 57)
{ cat "$work/a"; printf x; } >"$work/a73"
piped "sheet A and then a byte" "refused 1 at 0 0" < <(pieces "$work/a73" 72)
piped "sheet A in small pieces" "${rows_a[@]}" < <(bytes)

: >"$work/empty"
admit "empty sheet" "$work/empty" "refused 1 at 0 0"
words short 2 5
admit "two words" "$work/short" "refused 1 at 0 0"
words n0 0 5 1
admit "n of 0" "$work/n0" "refused 2 at 0 0"
words n17 17 5 1
admit "n of 17" "$work/n17" "refused 2 at 0 0"
words tms 2 10001 1
admit "TMS of 10,001" "$work/tms" "refused 3 at 0 0"
words cut 2 5 1 9 2 1
admit "contents cut short" "$work/cut" "refused 4 at 0 0"
words place 2 5 1 9 2 1 16 1 2 40 40 0 60 60 0 30 30 0
admit "a wrong place" "$work/place" "refused 4 at 2 0"
words long $sheet_a 7
admit "a word too many" "$work/long" "refused 4 at 0 0"
words old 2 5 1 9 2 1 13 1 2 40 40 60 60 30 30
admit "sheet A with two words a stream" "$work/old" "refused 4 at 2 0"
words due 2 5 1 9 2 1 15 1 2 40 40 0 60 61 0 30 30 0
admit "a deadline over its period" "$work/due" "refused 5 at 1 2"
words p2 2 5 1 9 2 1 15 1 2 40 40 0 60 38 0 30 30 0
admit "P2" "$work/p2" "node stream wait" "1 1 33" "1 2 16" "2 1 16" "admitted 3"
words p3 2 5 1 9 2 1 15 1 2 40 40 0 60 37 0 30 30 0
admit "P3" "$work/p3" "node stream wait" "1 1 33" "1 2 16" "2 1 16" "admitted 3"

# Equal deadlines: the shorter period is ranked above, and of equal periods the lower number. 39 is just enough for two cycles of 17, less a
# tick, and a turn of 5 and 1.
words period 2 5 1 9 2 1 15 1 2 61 39 0 60 39 0 30 30 0
admit "a tie of deadlines" "$work/period" "node stream wait" "1 1 33" "1 2 16" "2 1 16" "admitted 3"
words number 2 5 1 9 2 1 15 1 2 60 39 0 60 39 0 30 30 0
admit "a tie of deadlines and periods" "$work/number" "node stream wait" "1 1 16" "1 2 33" "2 1 16" "admitted 3"
words behind 2 5 1 9 2 1 15 1 2 40 38 0 60 38 0 30 30 0
admit "P2 with node 1's first deadline also 38" "$work/behind" "refused 7 at 1 2"

# Delivery is at the end of the turn: 5 and 6 more in P7; and a message that is first of two is delivered with the second, within 27.
words p7 1 5 1 6 2 1 10 10 0 100 100 0
admit "P7" "$work/p7" "refused 7 at 1 1"
words p7-11 1 5 1 6 2 1 11 11 0 100 100 0
admit "P7 with 11 for its first stream" "$work/p7-11" "node stream wait" "1 1 5" "1 2 17" "admitted 2"
words pair 2 5 1 9 1 1 12 2 2 60 60 0 40 27 0 60 60 0
admit "first of two, in time" "$work/pair" "node stream wait" "1 1 16" "2 1 16" "2 2 21" "admitted 3"
words pair-26 2 5 1 9 1 1 12 2 2 60 60 0 40 26 0 60 60 0
admit "first of two, late" "$work/pair-26" "refused 7 at 2 1"
words late 1 5 1 6 2 1 100 6 0 9 9 0
admit "the first late in sheet order" "$work/late" "refused 7 at 1 1"

# Jitter is less than the period; at the deadline and above the stream is late, but valid.
jitters() { words "$1" 2 5 1 9 2 1 15 1 2 40 40 "$2" 60 60 "$3" 30 30 "$4"; } # NAME JITTER..
jitters j60 0 60 0
admit "a jitter of a period" "$work/j60" "refused 5 at 1 2"
jitters j59 0 59 0
admit "a jitter just under its period" "$work/j59" "refused 7 at 1 2"
words j30 2 5 1 9 2 1 15 1 2 40 30 30 60 60 0 30 30 0
admit "a jitter of a deadline" "$work/j30" "refused 7 at 1 1"

# The jitter of a stream ranked above lengthens the wait: 33 + 7 is a period of 40, so two messages of it may come before.
jitters above 6 0 0
admit "a jitter above, just short enough" "$work/above" "${rows_a[@]}"
jitters above-7 7 0 0
admit "a jitter above that lets one more come before" "$work/above-7" "node stream wait" "1 1 16" "1 2 50" "2 1 16" "admitted 3"

# A stream's own jitter comes before its queuing, and the deadline counts it: 21 + 33 + 6, and 3 + 16 + 11. Rank and waits stay as
# they are, though 60 less 21 is shorter than the other deadline.
jitters own 0 21 0
admit "an own jitter, just in time" "$work/own" "${rows_a[@]}"
jitters own-22 0 22 0
admit "an own jitter, late" "$work/own-22" "refused 7 at 1 2"
jitters turn 0 0 3
admit "an own jitter and a turn of two, just in time" "$work/turn" "${rows_a[@]}"
jitters turn-4 0 0 4
admit "an own jitter and a turn of two, late" "$work/turn-4" "refused 7 at 2 1"

words idle 3 5 1 12 0 1 12 0 1 12 0 1
admit "all nodes without streams" "$work/idle" "node stream wait" "admitted 0"
words figure1 3 5 1 12 3 1 21 1 1 24 1 1 20 20 0 65 65 0 67 67 0 26 26 0 35 35 0
admit "Figure 1 of 000 in fifths" "$work/figure1" "refused 7 at 1 1"

# C is 2,570,000 and J 130: the stream above has a period of C - 1 + TMS + TPR, just in time, and the budget is 1.
words wait 16 10000 10000 51 2 1 $(printf '57 0 16 %.0s' {2..16}) 2589999 2589999 0 1000000000 1000000000 0
admit "a wait over 10^8" "$work/wait" "node stream wait" "1 1 2569999" "1 2 334099999" "admitted 2"

printf 'abcde' >"$work/five"
admit "5 bytes" "$work/five" "refused 1 at 0 0"
admit "sheet A and a byte" "$work/a73" "refused 1 at 0 0"

longest_sheet full
rows=$(awk 'BEGIN { for (k = 1; k <= 16; k++) for (j = 1; j <= 16; j++) print k, j, 271 + j - 1 }')
mapfile -t lines <<<"$rows"
admit "16 nodes of 16 streams" "$work/full" "node stream wait" "${lines[@]}" "admitted 256"
{ cat "$work/full"; printf x; } >"$work/over"
of_bytes "$work/over" 3277
admit "3,277 bytes" "$work/over" "refused 1 at 0 0"
{ cat "$work/full"; printf wxyz; } >"$work/over"
of_bytes "$work/over" 3280
admit "3,280 bytes" "$work/over" "refused 1 at 0 0"
head -c 3280 /dev/zero >"$work/zeros"
admit "3,280 bytes that start with n of 0" "$work/zeros" "refused 1 at 0 0"
head -c 100000 /dev/zero >"$work/huge"
admit "100,000 bytes" "$work/huge" "refused 1 at 0 0"

for sample in "$root"/samples/*.txt; do
    case $sample in *-log.txt) continue ;; esac
    to_words "$work/sample" <"$sample"
    "$peer" admit <"$work/sample" >"$work/expected"
    program admit <"$work/sample"
    holds "admit $(basename "$sample")" "$work/got" "$work/expected"
done
finish
