#!/bin/sh
# Runs the listing program over each input here and in examples/, and compares what it prints with what is written beside it.
# Usage: tests/cases.sh PROGRAM. Ends with a count, or with status 1 where one case differs.
set -eu
program=$(realpath "$1")
cd "$(dirname "$0")/.."
work=$(mktemp -d)
trap 'rm -r "$work"' EXIT
run=0
wrong=0

# compare NAME EXPECTED: what the last run printed against what it should print
compare() {
    run=$((run + 1))
    if ! cmp "$work/out" "$2"; then
        echo "cases: $1 is WRONG" >&2
        wrong=$((wrong + 1))
    fi
}

# case_of NAME INPUT EXPECTED
case_of() {
    if ! "$program" <"$2" >"$work/out"; then
        echo "cases: $1 did not end with status 0" >&2
        wrong=$((wrong + 1))
    fi
    compare "$1" "$3"
}

for input in tests/cases/*.in; do
    case_of "$input" "$input" "${input%.in}.out"
done
for input in examples/*.txt; do
    case_of "$input" "$input" "${input%.txt}.out"
done

# 1,025 rows, then a line that is none: the row over the limit is refused before that line is read
awk 'BEGIN { for (i = 1; i <= 1025; i++) print 0, i, 1, 1; print "no row" }' >"$work/rows-1025.in"
echo "refused 3" >"$work/rows-1025.out"
case_of "1025 rows" "$work/rows-1025.in" "$work/rows-1025.out"

# count NAME INPUT LINES NODES: the input's first lines give that many nodes, the most that fit
count() {
    head -n "$3" "$2" | "$program" | wc -l | tr -d ' ' >"$work/out"
    echo $(($4 + 1)) >"$work/lines"
    compare "$1" "$work/lines"
}
count "1024 rows" "$work/rows-1025.in" 1024 1024
count "2700 nodes" tests/cases/nodes-2701.in 41 2700

if [ "$wrong" -ne 0 ]; then
    echo "cases: $wrong wrong of $run" >&2
    exit 1
fi
echo "cases: $run agree"
