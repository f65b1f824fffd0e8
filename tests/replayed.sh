#!/bin/sh
# Replays the fixed call lists and compares every answer with the original's, byte for byte:
#   tests/replayed.sh PROGRAM
# The lists of tests/replay/kinds are made by compare/answers; the list `figures` is written by hand and has the figures of
# document 01, in its order (docs/CLAIMS.md, "Checked figures").
set -eu

[ $# = 1 ] || { echo "usage: tests/replayed.sh PROGRAM" >&2; exit 2; }
program=$1
lists=$(cd "$(dirname "$0")" && pwd)/replay
answers=$(mktemp)
trap 'rm -f "$answers"' EXIT

# Shows the first answer that differs from the file $1 or is missing.
show() {
    at=$(awk 'FILENAME == ARGV[1] { expected[++n] = $0; next }
              m == n || $0 != expected[m + 1] { exit }
              { m++ }
              END { print m + 1 }' "$1" "$answers")
    echo "first difference: answer $at"
    echo "  original  $(sed -n "${at}p" "$1")"
    echo "  replay    $(sed -n "${at}p" "$answers")"
}

failed=0
for kind in figures $(cat "$lists/kinds"); do
    status=0
    "$program" <"$lists/$kind.calls" >"$answers" || status=$?
    if [ $status = 0 ] && cmp -s "$lists/$kind.answers" "$answers"; then
        echo "replayed: $kind: $(($(wc -l <"$answers"))) answers as the original's"
    else
        echo "replayed: $kind: differs, status $status"
        show "$lists/$kind.answers"
        failed=1
    fi
done
exit $failed
