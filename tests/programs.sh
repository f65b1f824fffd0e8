#!/bin/sh
# Tests what the programs do around their work: help, version, options, file names, outputs that fail, and inputs and
# outputs that are not ready. Every word on standard error is checked.
#   tests/programs.sh FOLDER    where the programs are
set -u
bin=$1
cd "$(dirname "$0")/.." || exit 1
work=$(mktemp -d) || exit 1
trap 'rm -rf "$work"' EXIT
version=$(sed -n 's/^VERSION = //p' Makefile)

fail() { echo "programs: $1"; exit 1; }

# wrote NAME TEXT, told NAME TEXT: standard output, standard error was just that
wrote() { printf '%b' "$2" | cmp -s - "$work/out" || fail "$1: wrote '$(head -c 300 "$work/out")'"; }
told() { printf '%b' "$2" | cmp -s - "$work/err" || fail "$1: told '$(head -c 300 "$work/err")'"; }

# run PROGRAM WORD ..: its output and its reports go to files
run() {
    program=$1
    shift
    "$bin/$program" "$@" >"$work/out" 2>"$work/err"
}

# What each program reads, more than 64 KB for those that go on behind a line, and what it writes of that.
awk '/^sync/ { for (i = 0; i < 200; i++) print }' examples/bursts.txt >"$work/tetra_tx.in"
printf 'S%0366d\n' 0 >"$work/listing.in"
cat tests/replay/builders.calls tests/replay/builders.calls tests/replay/builders.calls >"$work/replay.in"
for program in tetra_tx listing replay; do
    run $program <"$work/$program.in"
    told "$program" ''
    mv "$work/out" "$work/$program.out"
    [ -s "$work/$program.out" ] || fail "$program: no output"
done
[ "$(wc -c <"$work/tetra_tx.in")" -gt 200000 ] || fail "too few lines for tetra_tx"
[ "$(wc -c <"$work/replay.out")" -gt 65536 ] || fail "too few answers of replay"
# outcome PROGRAM: what it calls its output
outcome() {
    case $1 in
    tetra_tx) echo samples ;;
    listing) echo listing ;;
    replay) echo answers ;;
    esac
}

for program in tetra_tx listing replay; do
    what="$program: the $(outcome $program) cannot be written"

    run $program --help </dev/null
    told "$program --help" ''
    head -n 1 "$work/out" | grep -q "^usage: $program " || fail "$program --help: $(head -n 1 "$work/out")"
    run $program --version </dev/null
    told "$program --version" ''
    wrote "$program --version" "$program $version\n"
    run $program --loud <"$work/$program.in"
    told "$program, an unknown option" "$program: unknown option, see $program --help\n"
    wrote "$program, an unknown option" ''
    run $program one two <"$work/$program.in"
    told "$program, two names" "$program: more than one file name, see $program --help\n"

    # A file in place of standard input, options before and behind it, and a name that looks like an option.
    run $program "$work/$program.in" </dev/null
    told "$program FILE" ''
    cmp -s "$work/out" "$work/$program.out" || fail "$program FILE"
    run $program "$work/$program.in" --version
    wrote "$program FILE --version" "$program $version\n"
    (cd "$work" && cp $program.in ./--help && "$bin/$program" -- --help >out 2>err)
    told "$program -- --help" ''
    cmp -s "$work/out" "$work/$program.out" || fail "$program -- --help"
    run $program - <"$work/$program.in"
    cmp -s "$work/out" "$work/$program.out" || fail "$program -"
    run $program /no/such/file
    told "$program, no file" "$program: /no/such/file: No such file or directory\n"
    wrote "$program, no file" ''
    run $program "$(printf '%04095d' 0)"
    told "$program, the longest path" "$program: $(printf '%04095d' 0): File name too long\n"
    run $program "$(printf '%05000d' 0)"
    told "$program, too long a path" "$program: the file name: File name too long\n"
    run $program "$work"
    told "$program, a folder" "$program: the input cannot be read: Is a directory\n"
    run $program <&-
    told "$program, no input" "$program: the input cannot be read: Bad file descriptor\n"

    # A full disk: one word, and no line of the input is blamed.
    if [ -w /dev/full ]; then
        "$bin/$program" <"$work/$program.in" >/dev/full 2>"$work/err"
        told "$program, a full disk" "$what: No space left on device\n"
        "$bin/$program" --help >/dev/full 2>"$work/err"
        told "$program --help, a full disk" "$program: the help cannot be written: No space left on device\n"
        "$bin/$program" --version >/dev/full 2>"$work/err"
        told "$program --version, a full disk" "$program: the version cannot be written: No space left on device\n"
    fi

    # A pipe that nobody reads is told, whether or not its signal is ignored.
    { sleep 0.2 && "$bin/$program" <"$work/$program.in" 2>"$work/err"; } | :
    told "$program, a closed pipe" "$what: Broken pipe\n"
    { trap '' PIPE && sleep 0.2 && "$bin/$program" <"$work/$program.in" 2>"$work/err"; } | :
    told "$program, a closed pipe and no signal" "$what: Broken pipe\n"
done

# A name of 4,095 bytes is a name as any other.
long=$work
while [ ${#long} -lt 4083 ]; do long=$long/.; done
while [ ${#long} -lt 4084 ]; do long=$long/; done
run listing "$long/listing.in"
told "a path of ${#long} and 11 bytes" ''
cmp -s "$work/out" "$work/listing.out" || fail "a path of ${#long} and 11 bytes"

# Pipes that do not block: each program waits for its input, and for room for its output.
if command -v python3 >/dev/null; then
    for program in tetra_tx listing replay; do
        python3 tests/nonblocking.py "$bin/$program" <"$work/$program.in" >"$work/out" 2>"$work/err"
        told "$program, pipes that do not block" ''
        cmp -s "$work/out" "$work/$program.out" || fail "$program, pipes that do not block: $(wc -c <"$work/out") bytes"
    done
else
    echo "programs: NO PYTHON3 HERE, pipes that do not block left out"
fi

echo "programs: help, version, options, file names and outputs that fail are as said"
