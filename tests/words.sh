#!/usr/bin/env bash
# Runs tools/words on texts as fitters have them, and holds the bytes it writes, what it says on standard error and its exit status.
. "$(dirname "$0")/lib.sh"

# What a run came to, in one file: the bytes written, the message, the status. It may use neither much time nor much memory.
run() { # ARGUMENT.. <TEXT
    (
        ulimit -v 1000000
        exec timeout 20 "$root/tools/words" "$@"
    ) >"$work/bytes" 2>"$work/message"
    local status=$?
    { od -A n -v -t u1 "$work/bytes"; cat "$work/message"; echo "status $status"; } >"$work/got"
}

# A text, as printf's format, and the bytes to expect in decimal, by standard input and by file name.
takes() { # NAME TEXT BYTE..
    local name=$1
    # shellcheck disable=SC2059
    printf "$2" >"$work/text"
    shift 2
    { [ $# -eq 0 ] || printf '%4d' "$@" | fold -w 64; [ $# -eq 0 ] || echo; echo "status 0"; } >"$work/expected"
    run <"$work/text"
    holds "words, $name" "$work/got" "$work/expected"
    run "$work/text" </dev/null
    holds "words, $name, by name" "$work/got" "$work/expected"
}

# What the last run must have come to: nothing written, this message and status 1.
refused() { # NAME MESSAGE
    printf 'words: %s\nstatus 1\n' "$2" >"$work/expected"
    holds "words, $1" "$work/got" "$work/expected"
}

# A text, as printf's format, and the message to expect.
refuses() { # NAME TEXT MESSAGE
    # shellcheck disable=SC2059
    printf "$2" >"$work/text"
    run <"$work/text"
    refused "$1" "$3"
}

# The same of a token that is no number, on a line.
no_number() { # NAME TEXT LINE TOKEN
    refuses "$1" "$2" "line $3: not a number from 0 to 4294967295: $4"
}

takes "a number" '7' 7 0 0 0
takes "lowest byte first, up to the largest" '67305985\n4294967295' 1 2 3 4 255 255 255 255
takes "leading zeros, any number of them" '000000000000000000000000000000256' 0 1 0 0
takes "white space of each kind" ' 1\t2\v3\f4\r5\n\n6 ' 1 0 0 0 2 0 0 0 3 0 0 0 4 0 0 0 5 0 0 0 6 0 0 0
takes "comments" '# one\n1#two 3\n#\n4 # five' 1 0 0 0 4 0 0 0
takes "no number" '# none\n'
takes "an empty text"  ''
takes "a byte-order mark" '\357\273\277# marked\n9' 9 0 0 0
takes "a byte-order mark before a number" '\357\273\2779' 9 0 0 0
takes "a carriage return ends a comment" '# old\r1 # line\r\n2' 1 0 0 0 2 0 0 0
takes "any byte in a comment" '# caf\351 \302\240 \000 \377\n3' 3 0 0 0

no_number "a word" '1 2\nfour' 2 four
no_number "a sign" '1\n\n -5' 3 -5
no_number "a point" '1.5' 1 1.5
no_number "over the largest" '4294967296' 1 4294967296
no_number "very long" "$(printf '9%.0s' $(seq 1000))" 1 999999999999999999999999..
no_number "lines that end with two characters" '1\r\n2\r\nx' 3 x
no_number "lines that end with a carriage return" '1\r2\r\rx' 4 x
no_number "lines of comment" '# one\n# two\r\n# three\rx' 4 x

no_number "a no-break space" '40 40\n60\302\24060\n' 2 '60<U+00A0>60'
no_number "a zero-width space" '40\n\342\200\213\n' 2 '<U+200B>'
no_number "a zero-width space at the front" '\342\200\2132' 1 '<U+200B>2'
no_number "a second byte-order mark" '\357\273\2771\n\357\273\2772' 2 '<U+FEFF>2'
no_number "a long dash" '40\342\200\22460' 1 '40<U+2014>60'
no_number "a character of four bytes" '\360\237\230\200' 1 '<U+1F600>'
no_number "a control character" '1\n2\a' 2 '2<U+0007>'
no_number "a delete character" '1\n2\177' 2 '2<U+007F>'
no_number "a zero byte" '1\n2 \0003' 2 '<U+0000>3'
no_number "a no-break space that is no UTF-8" '40\24060' 1 '40<byte A0>60'
no_number "a character cut short" '1\n2\342\200 3' 2 '2<byte E2>'
no_number "a character cut short at the end" '1\n2\303' 2 '2<byte C3>'
no_number "an invisible one after many digits" '0000000000000000000000000000000\302\240' 1 '000000000000000000000000<U+00A0>'
refuses "UTF-16, low byte first" '\377\3761\0002\000' 'the text is in UTF-16; save it as UTF-8'
refuses "UTF-16, high byte first" '\376\377\0001\0002' 'the text is in UTF-16; save it as UTF-8'

# The longest log has 8,193 words, and a text may have 1,048,576 bytes.
numbers() { awk -v n="$1" 'BEGIN { for (i = 1; i <= n; i++) print i }'; }
numbers 8193 >"$work/most"
run "$work/most" </dev/null
awk 'BEGIN { for (i = 1; i <= 8193; i++) print i % 256, int(i / 256), 0, 0 }' | xargs printf '%4d' | fold -w 64 >"$work/expected"
{ echo; echo "status 0"; } >>"$work/expected"
holds "words, 8,193 numbers" "$work/got" "$work/expected"
numbers 8194 >"$work/over"
run <"$work/over"
refused "8,194 numbers" "line 8194: more than 8193 numbers, longer than any sheet or log"
{ printf '5\n'; printf '%1048574s' ''; } >"$work/wide"
run "$work/wide" </dev/null
printf '   5   0   0   0\nstatus 0\n' >"$work/expected"
holds "words, 1,048,576 bytes" "$work/got" "$work/expected"
printf ' ' >>"$work/wide"
run <"$work/wide"
refused "1,048,577 bytes" "line 2: more than 1048576 bytes, longer than any sheet or log"

# Inputs without an end.
run </dev/zero
refused "zero bytes without end" "line 1: not a number from 0 to 4294967295: <U+0000><U+0000><U+0000>.."
run < <(yes '1 2')
refused "numbers without end" "line 4097: more than 8193 numbers, longer than any sheet or log"
run < <(yes '# none')
refused "comments without end" "line 149797: more than 1048576 bytes, longer than any sheet or log"
run < <(tr '\0' ' ' </dev/zero)
refused "spaces without end" "line 1: more than 1048576 bytes, longer than any sheet or log"
run < <(tr '\0' 0 </dev/zero)
refused "a number without end" "line 1: more than 1048576 bytes, longer than any sheet or log"

# Which file is read, and what is said of one that cannot be.
printf '3' >"$work/a text"
run "$work/a text" <"$work/most"
printf '   3   0   0   0\nstatus 0\n' >"$work/expected"
holds "words, a file and not standard input" "$work/got" "$work/expected"
printf '1\nx' >"$work/a text"
run "$work/a text" </dev/null
refused "the name of the file" "$work/a text: line 2: not a number from 0 to 4294967295: x"
run "$work/missing" </dev/null
refused "a missing file" "$work/missing: no such file"
run "$work" </dev/null
refused "a folder" "$work: the input cannot be read"
run <"$work"
refused "a folder as standard input" "the input cannot be read"
run "$work/most" "$work/most" </dev/null
refused "two files" "more than one file; usage: words [FILE]"
"$root/tools/words" "$work/most" </dev/null >/dev/full 2>"$work/message"
echo "status $?" >"$work/got"
echo "status 1" >"$work/expected"
holds "words, a full disk" "$work/got" "$work/expected"
finish
