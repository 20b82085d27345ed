# What the tests of the two programs share. Sourced.
set -u
root=$(cd "$(dirname "$0")/.." && pwd)
peer=$root/peer/target/release/peer
work=$(mktemp -d) || exit 1
trap 'rm -rf "$work"' EXIT
failed=0
ran=0

# The words of the text on standard input, as a file. On a file cut short the runs would ask something else, so a failure
# ends the test.
to_words() { # FILE
    "$root/tools/words" >"$1" || { echo "tools/words failed for $(basename "$1")"; exit 1; }
}

# The words of these numbers, as a file of that name.
words() { # NAME NUMBERS..
    local file=$work/$1
    shift
    to_words "$file" <<<"$*"
}

# 16 nodes of 16 streams: 819 words, 3,276 bytes, the longest valid sheet.
longest_sheet() { # NAME
    words "$1" $(awk 'BEGIN {
        print "16 1 1"
        for (k = 0; k < 16; k++) print 51 + 48 * k, 16, 16
        for (i = 0; i < 256; i++) print 100000, 100000, 0
    }')
    of_bytes "$work/$1" 3276
}

# A file that is not as long as it should be asks something else.
of_bytes() { # FILE BYTES
    [ "$(wc -c <"$1")" -eq "$2" ] || { echo "$(basename "$1") is not of $2 bytes"; failed=$((failed + 1)); }
}

# A file in two pieces, cut after so many bytes, with a pause between so that one read cannot have both.
pieces() { # FILE BYTES
    head -c "$2" "$1"
    sleep 0.1
    tail -c "+$(($2 + 1))" "$1"
}

# Runs a program: what it writes, on standard error too, and its exit status where that is not 0.
program() { # NAME ARGUMENT..
    local name=$1
    shift
    "$root/crates/$name/out/$name" "$@" >"$work/got" 2>&1 || echo "exit status $?" >>"$work/got"
}

# Holds what a program wrote to what is expected.
holds() { # NAME GOT EXPECTED
    ran=$((ran + 1))
    if ! cmp -s "$2" "$3"; then
        failed=$((failed + 1))
        echo "$1: wrote"
        cat "$2"
        echo "instead of"
        cat "$3"
    fi
}

# The gate holds this line to the number of runs there are.
finish() {
    echo "$ran runs, $failed wrong"
    [ "$failed" -eq 0 ]
}
