#!/bin/sh
# Tests the listing program, whose path is the one argument, against the examples and the refusals of document 01, "Checked figures".
set -u
program=$1
work=$(mktemp -d) || exit 1
trap 'rm -rf "$work"' EXIT

# chars N C: N times the character C
chars() { head -c "$1" /dev/zero | tr '\0' "$2"; }

# gives NAME TEXT: the program, on this standard input, writes TEXT and nothing else
gives() {
    "$program" >"$work/out"
    printf '%b' "$2" >"$work/want"
    cmp -s "$work/out" "$work/want" || { echo "listing: $1: wrote '$(tr '\n' ' ' <"$work/out")'"; exit 1; }
}

sync='kind=sync\nsum_first=65\nadj_first=10\nsum_last=127\nadj_last=00\n'
normal1='kind=normal1\nsum_first=115\nadj_first=11\nsum_last=117\nadj_last=01\n'
normal2='kind=normal2\nsum_first=115\nadj_first=11\nsum_last=115\nadj_last=11\n'
ones='kind=normal1\nsum_first=-345\nadj_first=00\nsum_last=-347\nadj_last=01\n'

# The examples, with a closing newline and without one.
{ printf S; chars 366 0; echo; } | gives 'sync, zeros' "$sync" || exit 1
{ printf S; chars 366 0; } | gives 'sync, zeros, no newline' "$sync" || exit 1
{ printf N; chars 462 0; echo; } | gives 'normal 1, zeros' "$normal1" || exit 1
{ printf P; chars 462 0; echo; } | gives 'normal 2, zeros' "$normal2" || exit 1
{ printf N; chars 462 1; echo; } | gives 'normal 1, ones' "$ones" || exit 1

# 3: the length, one short and one too many, a second newline, and no input at all.
: | gives 'empty' 'refused=3\n' || exit 1
echo | gives 'a newline alone' 'refused=3\n' || exit 1
echo S | gives 'S alone' 'refused=3\n' || exit 1
{ printf S; chars 365 0; echo; } | gives 'S, one short' 'refused=3\n' || exit 1
{ printf S; chars 367 0; echo; } | gives 'S, one too many' 'refused=3\n' || exit 1
{ printf S; chars 366 0; echo; echo; } | gives 'S, two newlines' 'refused=3\n' || exit 1
{ printf N; chars 461 0; echo; } | gives 'N, one short' 'refused=3\n' || exit 1
{ printf P; chars 463 0; } | gives 'P, one too many' 'refused=3\n' || exit 1
{ printf P; chars 462 0; echo; echo; } | gives 'P, two newlines' 'refused=3\n' || exit 1
{ printf N; chars 400 2; } | gives 'N, short and wrong' 'refused=3\n' || exit 1

# 4: a character other than 0 and 1, at either end.
{ printf S; chars 365 0; echo 2; } | gives 'S, the last character' 'refused=4\n' || exit 1
{ printf 'N '; chars 461 1; echo; } | gives 'N, the first character' 'refused=4\n' || exit 1
{ printf S; chars 365 0; echo; echo; } | gives 'S, a newline as a character' 'refused=4\n' || exit 1
printf X2 | gives 'X2' 'refused=4\n' || exit 1
{ printf s; chars 366 0; printf '\n\n'; } | gives 'another letter, two newlines' 'refused=4\n' || exit 1

# 5: another letter, at any length.
echo X | gives 'another letter alone' 'refused=5\n' || exit 1
printf '\n\n' | gives 'a newline as the letter' 'refused=5\n' || exit 1
echo s01 | gives 'another letter, two characters' 'refused=5\n' || exit 1
{ printf 0; chars 464 1; echo; } | gives 'another letter, 464 characters' 'refused=5\n' || exit 1

# Longer than any buffer.
{ printf S; chars 300000 0; } | gives 'S, long' 'refused=3\n' || exit 1
{ printf S; chars 300000 2; } | gives 'S, long and wrong' 'refused=3\n' || exit 1
{ printf X; chars 300000 1; echo; } | gives 'another letter, long' 'refused=5\n' || exit 1
{ printf X; chars 300000 1; echo; echo; } | gives 'another letter, long, two newlines' 'refused=4\n' || exit 1
{ printf X; chars 300000 1; printf 2; chars 300000 1; } | gives 'another letter, wrong far behind' 'refused=4\n' || exit 1
{ printf X2; chars 300000 1; } | gives 'another letter, wrong at first' 'refused=4\n' || exit 1
{ printf X; chars 300000 1; printf 2; } | gives 'another letter, wrong at last' 'refused=4\n' || exit 1
