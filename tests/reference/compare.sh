#!/bin/sh
# Puts cases made by chance to the reference and to the program, and says where their answers differ.
#
# Usage: compare.sh PROGRAM SEED CASES [FIRST]
# The status is 0 where all answers are the same. Else the first line that differs is shown, with the number of its case: that case alone
# is `generate.py` with that SEED, one case, from NUMBER on.
set -u
program=$1 seed=$2 cases=$3 first=${4:-0}
here=$(cd "$(dirname "$0")" && pwd)
work=$(mktemp -d)
trap 'rm -rf "$work"' EXIT
python3 "$here/generate.py" "$seed" "$cases" "$first" >"$work/stream" || exit 2
python3 "$here/reference.py" <"$work/stream" >"$work/expected" || exit 2
"$program" <"$work/stream" >"$work/found" || { echo "seed $seed: the program ended with status $?"; }
if cmp -s "$work/expected" "$work/found"; then
    awk -v seed="$seed" '$1 == 3 { cases++ } $1 == 4 { asked++; code[$3]++ } END {
        printf "seed %s: %d cases, %d questions, the same answers; by code:", seed, cases, asked
        for (k = 0; k <= 13; k++) if (k in code) printf " %d:%d", k, code[k]
        print "" }' "$work/expected"
    exit 0
fi
# A case has one line 3, after its lines 1 and 2 and before its lines 4 and 5.
awk -v found="$work/found" -v first="$first" -v seed="$seed" '
    { if ((getline other < found) <= 0) other = "(the end)" }
    $0 != other { at = first + cases - ($1 >= 4 ? 1 : 0); print "seed " seed ", case " at ", line " NR; print "expected " $0; print "found    " other; exit }
    $1 == 3 { cases++ }' "$work/expected"
exit 1
