#!/usr/bin/env bash
# What docs/CLAIMS.md names is there: each must-fail edit (CRATE/EDIT, and more edits of the same crate after a comma), and each
# definition, law or function in backquotes. And each edit is named there, but for layout's, of which it says two a function.
set -u
cd "$(dirname "$0")/.." || exit 1
page=docs/CLAIMS.md
wrong=0
named=$(mktemp) || exit 1
trap 'rm -f "$named"' EXIT

grep -oE '(^|[ ;|(])(theory|model|cases|layout|bodies|range|fill|tables|entries|validation|contents|sheet|refusals|rank|interference|wait|verdicts|asked|analysis|rounds|rows|budgets|logs|ordering|queue|turns|runs|bus|progress|trace|ranking|limits|records|recorded|recording|places|pieces|encoding|parts|writer|edits|editor|wistorvan|input|digits|texts|listing|report|admit|replay)/[a-z0-9_]+(, [a-z0-9_]+)*' "$page" |
    while IFS=/ read -r crate edits; do
        for edit in ${edits//,/ }; do
            echo "${crate//[ ;|(]/}/$edit"
        done
    done | sort -u > "$named"

while IFS=/ read -r crate edit; do
    [ -f "crates/$crate/must-fail/$edit.edit" ] || { echo "$page names $crate/$edit, which is not there"; wrong=$((wrong + 1)); }
done < "$named"

edits=0
for file in crates/*/must-fail/*.edit; do
    crate=${file#crates/}
    crate=${crate%%/*}
    edit=$(basename "$file" .edit)
    edits=$((edits + 1))
    [ "$crate" = layout ] || grep -qx "$crate/$edit" "$named" || { echo "$page does not name $crate/$edit"; wrong=$((wrong + 1)); }
done

names=0
for name in $(grep -oE '`[^` ]+`' "$page" | tr -d '`' | sort -u); do
    names=$((names + 1))
    grep -rqwF --include='*.antt' --include='*.rt' -e "${name##*::}" crates || { echo "$page names $name, which is not there"; wrong=$((wrong + 1)); }
done

echo "docs/CLAIMS.md: $edits edits, $names names, $wrong wrong"
[ "$wrong" -eq 0 ]
