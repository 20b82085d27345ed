#!/usr/bin/env bash
# Runs crates/replay/out/replay on files, missing ones and cut ones, and holds its output, to the byte, to document 01's and to the second
# program's.
. "$(dirname "$0")/lib.sh"

# Arguments and the lines to expect; nothing may come on standard error.
replay() { # NAME SHEET SECOND LINE..
    local name=$1
    local files=("$2" "$3")
    shift 3
    printf '%s\n' "$@" >"$work/expected"
    run "$name" "${files[@]}"
    holds "replay $name" "$work/got" "$work/expected"
}

# Any arguments, held to the second program alone.
run() { # NAME FILE..
    local name=$1
    shift
    program replay "$@"
    "$peer" replay "$@" >"$work/second"
    holds "replay $name, second program" "$work/got" "$work/second"
}

# Both files through pipes, each cut after so many bytes, held to what the whole files give.
piped() { # NAME SHEET BYTES SECOND BYTES
    "$peer" replay "$2" "$4" >"$work/expected"
    program replay <(pieces "$2" "$3") <(pieces "$4" "$5")
    holds "replay $1" "$work/got" "$work/expected"
}

a=$work/a
words a 2 5 1 9 2 1 15 1 2 40 40 0 60 60 0 30 30 0
words p9 40 0 1 0 2 1 3
rows_p9=("release begin" "1 0" "2 12" "3 6" "turns 25 next 40")
replay "P9" "$a" "$work/p9" "${rows_p9[@]}"
words p10 12 0 1 0 2 1 3
replay "P10" "$a" "$work/p10" "release begin" "1 0" "2 -" "3 6" "turns 2 next 12"
words p11 18 0 2 0 3 0 3 1 1
replay "P11" "$a" "$work/p11" "release begin" "1 0" "2 6" "3 11" "4 17" "turns 3 next 23"
words p12 0 0 1 0 2 1 3
replay "P12" "$a" "$work/p12" "release begin" "1 -" "2 -" "3 -" "turns 0 next 0"
words during 20 0 3 3 3
replay "a release during a turn" "$a" "$work/during" "release begin" "1 1" "2 8" "turns 10 next 20"
words cut 2 0 3 0 3
replay "a turn that passes the horizon" "$a" "$work/cut" "release begin" "1 1" "2 6" "turns 2 next 12"
words rank 10 0 2 0 1
replay "rank before log order" "$a" "$work/rank" "release begin" "1 7" "2 0" "turns 3 next 13"

words both 10 0 1 0 2
words p2 2 5 1 9 2 1 15 1 2 40 40 0 60 38 0 30 30 0
replay "rank by deadline" "$work/p2" "$work/both" "release begin" "1 7" "2 0" "turns 3 next 13"
words period 2 5 1 9 2 1 15 1 2 61 39 0 60 39 0 30 30 0
replay "a tie of deadlines" "$work/period" "$work/both" "release begin" "1 7" "2 0" "turns 3 next 13"
words number 2 5 1 9 2 1 15 1 2 60 39 0 60 39 0 30 30 0
replay "a tie of deadlines and periods" "$work/number" "$work/both" "release begin" "1 0" "2 7" "turns 3 next 13"

# A log has the ticks of queuing, so jitter changes no begin; nor the rank, though 60 less 59 is the shortest. But it is checked as in
# every sheet.
words jitter 2 5 1 9 2 1 15 1 2 40 40 0 60 60 59 30 30 29
replay "jitters just under their periods" "$work/jitter" "$work/p9" "${rows_p9[@]}"
words jitter-60 2 5 1 9 2 1 15 1 2 40 40 0 60 60 60 30 30 29
replay "a jitter of a period" "$work/jitter-60" "$work/p9" "refused 5 at 1 2"

words horizon 5
replay "a horizon alone: the empty log" "$a" "$work/horizon" "release begin" "turns 5 next 5"
: >"$work/empty"
replay "an empty second file" "$a" "$work/empty" "refused 9 at 0 0"
printf 'abcde' >"$work/five"
replay "a second file of 5 bytes" "$a" "$work/five" "refused 9 at 0 0"
words odd 40 0 1 0
replay "a log of odd length" "$a" "$work/odd" "refused 9 at 0 0"
words falling 40 3 1 2 1
replay "a falling tick" "$a" "$work/falling" "refused 9 at 0 2"
words unknown 40 0 1 0 4
replay "an unknown stream" "$a" "$work/unknown" "refused 9 at 0 2"
words later 40 0 1 1000000001 1
replay "a tick too large" "$a" "$work/later" "refused 9 at 0 2"
words far 1000000001 0 1
replay "a horizon too large" "$a" "$work/far" "refused 10 at 0 0"

# 4,096 releases: 32,772 bytes with the horizon, and one release more.
releases() { awk -v n="$1" 'BEGIN { print 7; for (i = 0; i < n; i++) print 0, 1 }'; }
words most $(releases 4096)
of_bytes "$work/most" 32772
run "4,096 releases" "$a" "$work/most"
tail -n 1 "$work/got" >"$work/last"
echo "turns 2 next 7" >"$work/expected"
holds "4,096 releases, last line" "$work/last" "$work/expected"
words release 0 1
cat "$work/most" "$work/release" >"$work/many"
replay "4,097 releases" "$a" "$work/many" "refused 9 at 0 0"
{ cat "$work/most"; printf 'wxyz'; } >"$work/over"
of_bytes "$work/over" 32776
replay "a second file of 32,776 bytes" "$a" "$work/over" "refused 9 at 0 0"

# The longest sheet, whose last stream is number 256, and a word more.
longest_sheet full
words last 20 0 256
replay "16 nodes of 16 streams" "$work/full" "$work/last" "release begin" "1 15" "turns 19 next 20"
{ cat "$work/full"; printf wxyz; } >"$work/over"
of_bytes "$work/over" 3280
replay "a sheet of 3,280 bytes" "$work/over" "$work/last" "refused 1 at 0 0"

# Numbers of nine and ten digits. Silent turns of 2,997 ticks come to tick 999,999,999, as those of 1 tick do.
words edge 1 10000 1 6 1 16 1000 1000 0
words pair 1000000000 999999999 1 999999999 1
replay "a begin over 10^9 after 10^9 turns" "$work/edge" "$work/pair" \
    "release begin" "1 999999999" "2 1000009999" "turns 1000000000 next 1000020000"
words edge 1 1 2997 6 1 16 1000 1000 0
words four 1000000000 999999999 1 999999999 1 999999999 1 1000000000 1
replay "begins before, at and after 10^9, and none" "$work/edge" "$work/four" \
    "release begin" "1 999999999" "2 1000000000" "3 1000000001" "4 -" "turns 333668 next 1000002999"
words edge 1 10000 2997 6 1 16 1000 1000 0
words last 1000000000 $(printf '999999999 1 %.0s' {1..16})
mapfile -t lines < <(awk 'BEGIN { for (i = 0; i < 16; i++) printf "%d %d\n", i + 1, 999999999 + 10000 * i }')
replay "a full turn of the longest messages at the end" "$work/edge" "$work/last" \
    "release begin" "${lines[@]}" "turns 333668 next 1000162996"
words silent 987654321
replay "silent turns" "$a" "$work/silent" "release begin" "turns 987654321 next 987654321"
words silent 1234567 1234560 3
replay "a release after a million turns" "$a" "$work/silent" "release begin" "1 1234561" "turns 1234562 next 1234567"

# In pieces: cut between words, within one, and behind a whole sheet or horizon.
piped "both files cut between words" "$a" 36 "$work/p9" 12
piped "both files cut within a word" "$a" 57 "$work/p9" 27
piped "all but the horizon later" "$a" 72 "$work/p9" 4
piped "4,096 releases in two pieces" "$a" 12 "$work/most" 20004
{ cat "$a"; printf x; } >"$work/a73"
piped "a sheet and then a byte" "$work/a73" 72 "$work/p9" 28

# Paths longer than a buffer might be.
deep=$work
for name in $(printf '%064d %0200d %0200d %0200d %0200d %0200d' 1 2 3 4 5 6); do
    deep=$deep/$name
    mkdir "$deep" && cp "$a" "$work/p9" "$deep"
    replay "paths of ${#deep} bytes and more" "$deep/a" "$deep/p9" "${rows_p9[@]}"
done

# The sheet first: its refusals come before those of the second file.
replay "a missing sheet" "$work/missing" "$work/p9" "refused 1 at 0 0"
replay "a missing second file" "$a" "$work/missing" "refused 9 at 0 0"
replay "a folder as the sheet" "$work" "$work/p9" "refused 1 at 0 0"
replay "a folder as the second file" "$a" "$work" "refused 9 at 0 0"
replay "a sheet of 5 bytes and no second file" "$work/five" "$work/missing" "refused 1 at 0 0"
words n17 17 5 1
replay "n of 17 and a bad log" "$work/n17" "$work/odd" "refused 2 at 0 0"
words late 1 5 1 6 2 1 9 9 0 100 100 0
words one 20 0 2
replay "a sheet that is not admitted" "$work/late" "$work/one" "release begin" "1 0" "turns 15 next 20"

echo "refused 1 at 0 0" >"$work/expected"
run "no argument"
holds "replay with no argument" "$work/got" "$work/expected"
echo "refused 9 at 0 0" >"$work/expected"
run "one argument" "$a"
holds "replay with one argument" "$work/got" "$work/expected"

for sample in "$root"/samples/*-log.txt; do
    to_words "$work/sheet" <"${sample%-log.txt}.txt"
    to_words "$work/log" <"$sample"
    run "$(basename "$sample")" "$work/sheet" "$work/log"
done
finish
