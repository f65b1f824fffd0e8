#!/bin/sh
# Sends bursts through tetra_tx, receives them with tetra_rx, and checks slots, bits and every word on standard error:
#   tests/pipe.sh FOLDER    where the two programs are
set -u
tx=$1/tetra_tx
rx=$1/tetra_rx
cd "$(dirname "$0")/.." || exit 1
work=$(mktemp -d) || exit 1
trap 'rm -rf "$work"' EXIT
version=$(sed -n 's/^VERSION = //p' Makefile)

fail() { echo "pipe: $1"; exit 1; }

# run WORD ..: tetra_rx; its lines and its reports go to files
run() { "$rx" "$@" >"$work/out" 2>"$work/err"; }

# wrote NAME FILE, told NAME TEXT: standard output was that file, standard error just that text
wrote() { cmp -s "$work/out" "$2" || fail "$1: $(diff "$work/out" "$2" | cut -c 1-120 | head -n 5)"; }
told() { printf '%b' "$2" | cmp -s - "$work/err" || fail "$1: told '$(head -c 400 "$work/err")'"; }

# lines FILE PATTERN: how many of its lines are so
lines() { grep -c -e "$2" "$1"; }

# samples FROM TO FILE: those from the one up to the other, left out, in cf32
samples() { tail -c +$((8 * $1 + 1)) "$3" | head -c $((8 * ($2 - $1))); }

# between FROM TO BYTE FILE: the file with samples of that byte in place of those from the one up to the other, left out
between() {
    samples 0 "$1" "$4"
    head -c $((8 * ($2 - $1))) /dev/zero | tr '\0' "$3"
    tail -c +$((8 * $2 + 1)) "$4"
}

# ---- a downlink

locked='tetra_rx: locked at sample 1834\n'
summary='tetra_rx: 13244 samples, 11 slots, 0 samples refused, locked\n'

"$tx" <examples/bursts.txt >"$work/sent" 2>"$work/err" || fail "tetra_tx"
told "tetra_tx" ''
run <"$work/sent"
told "tetra_rx" "$locked$summary"
mv "$work/out" "$work/lines"
sed 's/ bits=.*//' "$work/lines" >"$work/no-bits"

# The first line is the empty slot before the first burst that is found.
grep -v '^#' examples/bursts.txt | tail -n +2 >"$work/want"
awk -f tests/blocks.awk "$work/lines" >"$work/out"
wrote "the bits received are not those sent" "$work/want"
numbers=$(cut -d ' ' -f 1 "$work/lines" | tr '\n' ' ')
[ "$numbers" = 'slot=1 slot=2 slot=3 slot=4 slot=5 slot=6 slot=7 slot=8 slot=9 slot=10 slot=11 ' ] || fail "slot numbers $numbers"
[ "$(lines "$work/lines" '^slot=7 sample=8173 type=none errors=100$')" = 1 ] || fail "the slot without a burst: $(sed -n 7p "$work/lines")"

dd if="$work/sent" bs=7 2>/dev/null | "$rx" --quiet >"$work/out" 2>"$work/err"
wrote "in pieces of 7 bytes" "$work/lines"
told "--quiet" ''

# The hundredth slot in a row without a burst is still printed, and then it searches.
{ cat "$work/sent"; head -c 1000000 /dev/zero; } >"$work/lost"
lost="${locked}tetra_rx: searching at sample 114253
tetra_rx: 138244 samples, 111 slots, 0 samples refused, searching\n"
run --no-bits "$work/lost"
[ "$(tail -n 1 "$work/out")" = 'slot=111 sample=114253 type=none errors=100' ] || fail "loss: the last line is '$(tail -n 1 "$work/out")'"
told "loss" "$lost"
mv "$work/out" "$work/lost-lines"

# A slot's line comes with the very sample that it names, and so do lock and loss: without this sample they are not there.
# up_to SAMPLE LINES: so many lines come of the samples up to that one, left out
up_to() {
    samples 0 "$1" "$work/lost" | "$rx" --no-bits >"$work/out" 2>"$work/err"
    head -n "$2" "$work/lost-lines" >"$work/want"
    wrote "the samples up to $1" "$work/want"
}
for n in 1 2 3 4 5 6 7 8 9 10 11 100; do
    sample=$(sed -n "$n s/^slot=$n sample=\([0-9]*\) .*/\1/p" "$work/lost-lines")
    up_to "$sample" $((n - 1))
    up_to $((sample + 1)) $n
done
up_to 1834 0
told "before the lock" 'tetra_rx: 1834 samples, 0 slots, 0 samples refused, searching\n'
up_to 1835 0
told "the lock" "${locked}tetra_rx: 1835 samples, 0 slots, 0 samples refused, locked\n"
up_to 114253 110
told "before the loss" "${locked}tetra_rx: 114253 samples, 110 slots, 0 samples refused, locked\n"
up_to 114254 111
told "the loss" "${locked}tetra_rx: searching at sample 114253
tetra_rx: 114254 samples, 111 slots, 0 samples refused, searching\n"

# Lock and loss are told at these samples in whatever pieces the input comes.
for size in 7 8 8008; do
    dd if="$work/lost" bs=$size 2>/dev/null | "$rx" --no-bits >"$work/out" 2>"$work/err"
    wrote "lock and loss in pieces of $size bytes" "$work/lost-lines"
    told "lock and loss in pieces of $size bytes" "$lost"
done
for cut in 1834 1835 2000 114253 114254; do
    { samples 0 $cut "$work/lost"; sleep 0.1; samples $cut 138244 "$work/lost"; } | "$rx" --no-bits >"$work/out" 2>"$work/err"
    wrote "lock and loss with a pause before sample $cut" "$work/lost-lines"
    told "lock and loss with a pause before sample $cut" "$lost"
done
between 1834 1835 '\377' "$work/sent" >"$work/hole"
run --no-bits "$work/hole"
wrote "a refused sample at the lock" "$work/no-bits"
told "a refused sample at the lock" "${locked}tetra_rx: 1 sample refused from 1834 to 1834, heard as zeros
tetra_rx: 13244 samples, 11 slots, 1 sample refused, locked\n"

# ---- the command line

run --no-bits --quiet "$work/sent"
wrote "--no-bits" "$work/no-bits"
run "$work/sent" --quiet --no-bits </dev/null
wrote "options behind the file name" "$work/no-bits"
run --quiet --no-bits - <"$work/sent"
wrote "a minus for standard input" "$work/no-bits"
(cd "$work" && cp sent ./--json && "$rx" --no-bits --quiet -- --json >out 2>err)
wrote "-- --json" "$work/no-bits"
run --version </dev/null
printf 'tetra_rx %s\n' "$version" >"$work/want"
wrote "--version" "$work/want"
run --help </dev/null
told "--help" ''
for option in --uplink --format --json --no-bits --progress --quiet --help --version; do
    grep -q -e "^  $option" "$work/out" || fail "--help does not name $option"
done

# refuses WHY WORD ..: these words are refused, and nothing is received
refuses() {
    why=$1
    shift
    run "$@" <"$work/sent"
    told "tetra_rx $*" "tetra_rx: $why\n"
    [ ! -s "$work/out" ] || fail "tetra_rx $*: refused, and still lines"
}
refuses 'unknown option, see tetra_rx --help' --loud
refuses 'unknown option, see tetra_rx --help' --no-bits --format=cu8
refuses 'both links cannot be standard input, see tetra_rx --help' --uplink -
refuses 'more than one file name, see tetra_rx --help' one two
refuses '--format takes cf32, cs16 or cu8, see tetra_rx --help' --format cs8
refuses 'the last option takes a value, see tetra_rx --help' --format
refuses 'the last option takes a value, see tetra_rx --help' --uplink
refuses '/no/such/file: No such file or directory' /no/such/file
refuses '/no/such/file: No such file or directory' --uplink /no/such/file "$work/sent"
"$tx" --loud <examples/bursts.txt >"$work/out" 2>"$work/err"
told "an unknown option, sending" 'tetra_tx: unknown option, see tetra_tx --help\n'
[ ! -s "$work/out" ] || fail "an unknown option, and still samples"

# ---- lost samples

# A stretch that is lost is heard as zeros: every slot keeps its number, and no line is missing. (Without the lost bursts the
# timing is tracked otherwise: later windows close a sample later.)
between 4000 6040 '\377' "$work/sent" >"$work/holes"
sed -e 's/ sample=[0-9]*//' -e 's/^\(slot=[45]\) .*/\1 type=none errors=100/' "$work/no-bits" >"$work/want"
run --no-bits "$work/holes"
sed 's/ sample=[0-9]*//' "$work/out" >"$work/found"
mv "$work/found" "$work/out"
wrote "a lost stretch" "$work/want"
told "a lost stretch" "${locked}tetra_rx: 2040 samples refused from 4000 to 6039, heard as zeros
tetra_rx: 13244 samples, 11 slots, 2040 samples refused, locked\n"
run "$work/holes"
mv "$work/out" "$work/want"
between 4000 6040 '\0' "$work/sent" >"$work/zeros"
run "$work/zeros"
wrote "zeros in the place of the lost stretch" "$work/want"
told "zeros in the place of the lost stretch" "$locked$summary"

# One sample that is no number, and another that is too large: no burst is harmed by so few. What is less than a slot
# apart is told together. Bytes of half a sample are left over.
with() { between "$1" $(($1 + 1)) '\377' "$2"; }
{ samples 0 9000 "$work/sent"; printf '\000\000\000\000\001\000\200\104'; samples 9001 13244 "$work/sent"; printf 'abc'; } >"$work/one"
run --no-bits "$work/one"
wrote "a refused sample" "$work/no-bits"
told "a refused sample" "${locked}tetra_rx: 1 sample refused from 9000 to 9000, heard as zeros
tetra_rx: 3 bytes behind the last whole sample
tetra_rx: 13244 samples, 11 slots, 1 sample refused, locked\n"
with 10019 "$work/one" >"$work/two"
run --quiet --no-bits "$work/two"
told "refused samples less than a slot apart" 'tetra_rx: 2 samples refused from 9000 to 10019, heard as zeros
tetra_rx: 3 bytes behind the last whole sample\n'
with 10020 "$work/one" >"$work/two"
run --quiet --no-bits "$work/two"
told "refused samples a slot apart" 'tetra_rx: 1 sample refused from 9000 to 9000, heard as zeros
tetra_rx: 1 sample refused from 10020 to 10020, heard as zeros
tetra_rx: 3 bytes behind the last whole sample\n'

# ---- an uplink beside the downlink

up_summary='tetra_rx: uplink: 10 slots, 0 samples refused\n'

"$tx" examples/uplink.txt >"$work/up" 2>"$work/err"
told "tetra_tx, uplink" ''
run --uplink "$work/up" --no-bits "$work/sent"
told "--uplink" "$locked$summary$up_summary"
cat >"$work/want" <<'END'
slot=0 sample=3076 link=up type=normal1 errors=0 half1_type=none half1_errors=100 half2_type=none half2_errors=100
slot=1 sample=4096 link=up type=normal2 errors=0 half1_type=none half1_errors=100 half2_type=none half2_errors=100
slot=2 sample=5116 link=up type=normal1 errors=0 half1_type=none half1_errors=100 half2_type=none half2_errors=100
slot=3 sample=6136 link=up type=none errors=100 half1_type=extended half1_errors=0 half2_type=none half2_errors=100
slot=4 sample=7156 link=up type=none errors=100 half1_type=none half1_errors=100 half2_type=none half2_errors=100
slot=5 sample=8175 link=up type=none errors=100 half1_type=extended half1_errors=0 half2_type=extended half2_errors=0
slot=6 sample=9195 link=up type=none errors=100 half1_type=extended half1_errors=0 half2_type=none half2_errors=100
slot=7 sample=10215 link=up type=normal2 errors=0 half1_type=extended half1_errors=0 half2_type=none half2_errors=100
slot=8 sample=11235 link=up type=none errors=100 half1_type=extended half1_errors=0 half2_type=none half2_errors=100
slot=9 sample=12255 link=up type=normal1 errors=0 half1_type=none half1_errors=100 half2_type=none half2_errors=100
END
cp "$work/out" "$work/both"
grep ' link=up ' "$work/both" >"$work/out"
wrote "the uplink's lines" "$work/want"
sed -n 's/ link=down//p' "$work/both" >"$work/out"
wrote "the downlink's lines beside the uplink's" "$work/no-bits"
# Each uplink slot closes two samples behind the downlink slot whose number is 2 more.
tail -n +2 "$work/both" | awk -F '[= ]' '{ up = NR % 2 ? 0 : 2; print $2 + up, $4 - up }' >"$work/out"
sed -n 's/^slot=\(.*\) sample=\([0-9]*\) .*/\1 \2/p' "$work/no-bits" | tail -n +2 | sed p >"$work/want"
wrote "the order of both links' lines" "$work/want"

# Each burst of a handset comes back with its very bits: tail, block, training sequence, block, tail.
extended=100111010000111010011101000011
awk -v x=$extended '
    BEGIN { sequence["uplink1"] = "1101000011101001110100"; sequence["uplink2"] = "0111101001000011011110"; sequence["control"] = x }
    /^#/ { next }
    $1 in sequence { half = length($3) / 2; print slot - 2, $1, "1100" substr($3, 1, half) sequence[$1] substr($3, half + 1) "1100" }
    { slot++ }' examples/uplink.txt >"$work/want"
[ "$(wc -l <"$work/want")" = 8 ] || fail "$(wc -l <"$work/want") lines of handsets"
run --quiet --uplink "$work/up" "$work/sent"
awk '
    function value(field) { sub(/.*=/, "", field); return field }
    $3 != "link=up" { next }
    $6 ~ /^bits=/ { type = value($4); sub(/normal/, "uplink", type); print value($1), type, value($6) }
    # Slot 5 is the burst of the downlink, and slot 7 is no control burst.
    / half1_bits=/ && $1 !~ /=[57]$/ { for (i = 5; $i !~ /^half1_bits=/;) i++; print value($1), "control", value($i) }' "$work/out" >"$work/found"
mv "$work/found" "$work/out"
wrote "the bits received are not those that handsets sent" "$work/want"

# The same samples as both, with the extended training sequence in block 1 of slot 3: the uplink's bits are those of the
# downlink at the places where an uplink has its bursts.
awk -v x=$extended '!/^#/ && ++n == 4 { $2 = substr($2, 1, 98) x substr($2, 129) } { print }' examples/bursts.txt |
    "$tx" >"$work/same"
run --quiet --uplink "$work/same" "$work/same"
awk '
    function value(field) { sub(/.*=/, "", field); return field }
    $3 == "link=down" { bits[value($1)] = value($6) }
    $3 == "link=up" {
        down = bits[value($1) + 2]
        for (i = 4; i <= NF; i++) {
            if ($i ~ /^bits=/ && value($i) != substr(down, 25, 462)) print $1, "bits"
            if ($i ~ /^half1_bits=/) { halves++; if (value($i) != substr(down, 25, 206)) print $1, "half1_bits" }
            if ($i ~ /^bits=/) full++
        }
    }
    END { if (full != 7 || halves != 1) print full + 0, "bits and", halves + 0, "half1_bits" }' "$work/out" >"$work/wrong"
[ ! -s "$work/wrong" ] || fail "the uplink's bits: $(cat "$work/wrong")"

# Lost samples of the uplink are told as its own, and zeros are heard behind its end.
between 4000 6040 '\377' "$work/up" >"$work/holes"
run --uplink "$work/holes" --no-bits "$work/sent"
told "lost samples of the uplink" "${locked}tetra_rx: uplink: 2040 samples refused from 4000 to 6039, heard as zeros
${summary}tetra_rx: uplink: 10 slots, 2040 samples refused\n"
sed 's/^\(slot=[23] sample=[0-9]* link=up\) .*/\1 type=none errors=100 half1_type=none half1_errors=100 half2_type=none half2_errors=100/' "$work/both" >"$work/want"
wrote "lost samples of the uplink" "$work/want"
samples 0 8000 "$work/up" >"$work/short"
run --uplink "$work/short" --no-bits "$work/sent"
told "an uplink that ends first" "${locked}tetra_rx: uplink: ends at sample 8000, zeros are heard behind it\n$summary$up_summary"
cp "$work/out" "$work/want"
between 8000 13244 '\0' "$work/up" >"$work/zeros"
run --uplink "$work/zeros" --no-bits "$work/sent"
wrote "zeros behind the uplink's end" "$work/want"
[ "$(lines "$work/out" ' link=up ')" = 10 ] || fail "an uplink that ends first: $(lines "$work/out" ' link=up ') slots"
samples 0 8000 "$work/sent" >"$work/short"
run --uplink "$work/up" --no-bits - <"$work/short"
told "a downlink that ends first" "${locked}tetra_rx: 8000 samples, 6 slots, 0 samples refused, locked
tetra_rx: uplink: 5 slots, 0 samples refused\n"

# Two named pipes, each with a writer of its own.
mkfifo "$work/down.pipe" "$work/up.pipe"
cat "$work/sent" >"$work/down.pipe" &
writers=$!
cat "$work/up" >"$work/up.pipe" &
writers="$writers $!"
run --no-bits --quiet --uplink "$work/up.pipe" "$work/down.pipe"
kill $writers 2>/dev/null
wrote "two named pipes" "$work/both"

# The first window of a follower closes by its old timing, and has the burst of the next number here (docs/DIFFERENCES.md):
# it is not printed.
{ head -c 32 /dev/zero; cat "$work/sent"; } >"$work/late"
run --quiet --uplink "$work/late" "$work/late"
[ "$(grep ' link=up ' "$work/out" | head -n 1 | cut -d ' ' -f 1)" = slot=0 ] || fail "a follower's first window is printed"

# ---- JSON, integer samples, pipes that do not block

# An object of JSON a line: its names and values in their order are those of the plain line, numbers are numbers.
json='
import json, sys
for line in sys.stdin.read().splitlines():
    fields = json.loads(line)
    numbers = [name for name in fields if isinstance(fields[name], int)]
    assert numbers == [name for name in fields if name in ("slot", "sample") or name.endswith("errors")], line
    print(" ".join(f"{name}={value}" for name, value in fields.items()))
'
# Floats as integers of a format.
integers='
import array, sys
parts = array.array("f", sys.stdin.buffer.read())
assert sys.byteorder == "little"
if sys.argv[1] == "cs16":
    words = array.array("h", [round(32768 * x) for x in parts])
else:
    words = array.array("B", [round(128 * x + 127.5) for x in parts])
sys.stdout.buffer.write(words.tobytes())
'
# as_json NAME WORD ..: the lines in JSON say what the plain ones say
as_json() {
    name=$1
    shift
    "$rx" --quiet "$@" >"$work/want"
    "$rx" --quiet --json "$@" >"$work/json"
    python3 -c "$json" <"$work/json" >"$work/out" 2>"$work/err" || fail "$name, not as it should be: $(tail -n 1 "$work/err" | cut -c 1-200)"
    wrote "$name" "$work/want"
}
if command -v python3 >/dev/null; then
    as_json "--json" "$work/sent"
    as_json "--json --no-bits" --no-bits "$work/sent"
    as_json "--json --uplink" --uplink "$work/up" "$work/sent"
    for format in cs16 cu8; do
        python3 -c "$integers" $format <"$work/sent" >"$work/sent.$format"
        python3 -c "$integers" $format <"$work/up" >"$work/up.$format"
        run --format $format "$work/sent.$format"
        wrote "--format $format" "$work/lines"
        told "--format $format" "$locked$summary"
        { cat "$work/sent.$format"; printf a; } | "$rx" --format $format --quiet >"$work/out" 2>"$work/err"
        told "--format $format, a byte left over" 'tetra_rx: 1 byte behind the last whole sample\n'
        run --format $format --no-bits --quiet --uplink "$work/up.$format" "$work/sent.$format"
        wrote "--format $format --uplink" "$work/both"
    done
    python3 tests/nonblocking.py "$rx" --quiet <"$work/sent" >"$work/out" 2>"$work/err"
    wrote "pipes that do not block" "$work/lines"
    told "pipes that do not block" ''
else
    echo "pipe: NO PYTHON3 HERE, JSON, integer samples and pipes that do not block left out"
fi
run --format cf32 --quiet "$work/sent"
wrote "--format cf32" "$work/lines"

# ---- while it runs

# The progress line: written anew each second of samples, and nothing of it where it was not asked for.
run --progress --no-bits "$work/lost"
grep -q "$(printf '\r').*tetra_rx: 7[0-9]* samples, [0-9]* slots, -[0-9]* dBFS, locked since 1834" "$work/err" ||
    fail "--progress: told '$(tr '\r' '\n' <"$work/err")'"
run --no-bits "$work/lost"
grep -q -e dBFS -e "$(printf '\r')" "$work/err" && fail "progress that was not asked for"
run --progress --quiet --no-bits "$work/lost"
told "--progress --quiet" ''

# Two minutes of search: advice once.
head -c $((8 * 72000 * 121)) /dev/zero | "$rx" >"$work/out" 2>"$work/err"
told "two minutes without a lock" 'tetra_rx: no lock for a minute: is the carrier within 1,600 Hz of 0, are there 72,000 samples a second, are I and Q exchanged?
tetra_rx: 8712000 samples, 0 slots, 0 samples refused, searching\n'
head -c $((8 * 72000 * 59)) /dev/zero | "$rx" >"$work/out" 2>"$work/err"
told "less than a minute without a lock" 'tetra_rx: 4248000 samples, 0 slots, 0 samples refused, searching\n'

# What cannot be written is told.
if [ -w /dev/full ]; then
    "$rx" --quiet <"$work/sent" >/dev/full 2>"$work/err"
    told "a full disk" 'tetra_rx: the lines cannot be written: No space left on device\n'
    "$rx" --help >/dev/full 2>"$work/err"
    told "--help, a full disk" 'tetra_rx: the help cannot be written: No space left on device\n'
    "$tx" <examples/bursts.txt >/dev/full 2>"$work/err"
    told "a full disk, sending" 'tetra_tx: the samples cannot be written: No space left on device\n'
fi

# ---- sending

# A bad line is told, and its slot is sent without a burst.
printf 'sync 01\r\n\nnormal1 %0461d2\nnormal3\nempty\n' 0 | "$tx" >"$work/out" 2>"$work/err"
told "bad lines" 'tetra_tx: line 1: sync takes 366 bits
tetra_tx: line 3: a bit is neither 0 nor 1
tetra_tx: line 4: not sync, normal1, normal2, uplink1, uplink2 or control with bits, nor empty\n'
[ "$(wc -c <"$work/out")" = $(((5 * 1020 - 16) * 8)) ] || fail "bad lines: $(wc -c <"$work/out") bytes"

# The offset is judged first, then the number of bits, then the bits. Of a line only 512 bytes are kept.
zeros=$(printf '%0432d' 0)
shorter=$(printf '%0168d' 0)
cat >"$work/bad" <<END
uplink1 7 $zeros
uplink2 50 2
uplink1 100 $zeros
uplink1 x4 $zeros
control  0 $shorter
uplink2 $zeros
uplink1 48 ${zeros}0
uplink2 24
uplink1 24 $zeros$zeros
control 0 2
control 8 ${shorter}00
uplink1 6 ${zeros%0}2
control 6 x${shorter%0}
uplink1 0 $zeros
END
"$tx" "$work/bad" >"$work/out" 2>"$work/err"
{
    for n in 1 2 3 4 5 6; do echo "tetra_tx: line $n: the offset is no even number from 0 to 48"; done
    for n in 7 8 9; do echo "tetra_tx: line $n: an uplink burst takes 432 bits"; done
    for n in 10 11; do echo "tetra_tx: line $n: a control burst takes 168 bits"; done
    for n in 12 13; do echo "tetra_tx: line $n: a bit is neither 0 nor 1"; done
} >"$work/want"
cmp -s "$work/want" "$work/err" || fail "bad uplink lines: $(diff "$work/want" "$work/err" | head -n 5)"
[ "$(wc -c <"$work/out")" = $(((15 * 1020 - 16) * 8)) ] || fail "bad uplink lines: $(wc -c <"$work/out") bytes"

echo "pipe: the bursts sent are the bursts received, of both links"
