#!/bin/sh
# shellcheck disable=SC2086
# Plays the fights, assembles the warriors, tunes the templates and checks certificates, and
# compares with what is stored here. Prints the lines of fights and checks, the reports, and what
# differs. Ends with status 0 if all is as expected, otherwise with 1.
# Use: examples/demo.sh [PROGRAM]; otherwise the program built here, or else the one on the PATH

unset CDPATH
program=${1:-$(dirname "$0")/../crates/cwtune/out/cwtune}
[ $# -gt 0 ] || [ -x "$program" ] || program=$(command -v cwtune)
if [ ! -x "$program" ]; then
    echo "demo.sh: no program ${program:-here or on the PATH}" >&2
    exit 1
fi
program=$(realpath "$program") work=$(mktemp -d) wrong=0 || exit 1
trap 'rm -rf "$work"' EXIT
trap 'exit 143' HUP INT TERM
cd "$(dirname "$0")" || exit 1
# shellcheck source=examples/opponents.sh
. ./opponents.sh
opponents=$(printf 'warriors/%s ' $opponents)
nothing=$work/nothing line=$work/line
: >"$nothing"

# Runs the program and compares status, output and errors: expect STATUS OUTPUT ERRORS WORD..
expect() {
    status=$1 output=$2 errors=$3
    shift 3
    "$program" "$@" >"$work/output" 2>"$work/errors"
    came=$?
    if [ "$came" -ne "$status" ] || ! cmp -s "$output" "$work/output" ||
        ! cmp -s "$errors" "$work/errors"; then
        echo "cwtune $*: not as expected (status $came; expected: $status)"
        diff "$output" "$work/output"
        diff "$errors" "$work/errors"
        wrong=1
    fi
}

# Compares a line that the program prints, after its name: expect_line NAME STATUS LINE WORD..
expect_line() {
    name=$1 status=$2
    echo "$3" >"$line"
    shift 3
    expect "$status" "$line" "$nothing" "$@"
    printf '%-28s %s\n' "$name" "$(cat "$work/output")"
}

# Tunes a template, and prints the report: tuned TEMPLATE SCHEDULE REPORT
tuned() {
    expect 0 "tuning/$3" "$nothing" tune "tuning/$1" "tuning/$2" "$work/tuned.cert" $opponents
    cat "$work/output"
    echo
}

# Checks a certificate of the stone: checked NAME SCHEDULE CERT STATUS LINE
checked() {
    expect_line "$1" "$4" "$5" check tuning/stone.red "tuning/$2" "$3" $opponents
}

# Checks what was tuned and what certify.py makes: both SCHEDULE LINE
both() {
    python3 tuning/certify.py "$program" tuning/stone.red "tuning/$1" $opponents \
        >"$work/own.cert" || wrong=1
    checked "the tuner's certificate" "$1" "$work/tuned.cert" 0 "$2"
    checked "another certificate" "$1" "$work/own.cert" 0 "$2"
}

# Prints the line of a check that accepts what a report says: accepted REPORT
accepted() {
    awk '/^best /{best = $2} /^total /{print "accepted best", best, "total", $2}' "tuning/$1"
}

while read -r name expected; do
    expect_line "$name" 0 "$expected" fight <"$name.fight"
done <expected.txt
set -- *.fight
[ $# -eq "$(grep -c . expected.txt)" ] || { echo "expected.txt has not all of $*" && wrong=1; }
for text in warriors/*.red; do
    expect 0 "${text%.red}.load" "$nothing" asm "$text"
    # A load file is a text, too, and gives itself.
    expect 0 "${text%.red}.load" "$nothing" asm "${text%.red}.load"
done
for text in warriors/refused/*.red; do
    expect 1 "$nothing" "${text%.red}.fault" asm "$text"
done
echo
tuned decoy.red schedule.csv decoy-report.txt

# The stored certificate lists all fights; its third line is the row of setting 0, which loses a
# fight. In the changed one it ties it.
tuned stone.red schedule.csv report.txt
both schedule.csv "$(accepted report.txt)"
checked "the stored certificate" schedule.csv tuning/all-fights.cert 0 "$(accepted report.txt)"
sed '3s/:0/:1/' tuning/all-fights.cert >"$work/changed.cert"
checked "one byte changed" schedule.csv "$work/changed.cert" 1 "rejected row 2 WrongPoints"
"$program" tune --all tuning/stone.red tuning/schedule.csv "$work/all.cert" $opponents >/dev/null
cmp "$work/all.cert" tuning/all-fights.cert || wrong=1
echo

tuned stone.red weighted.csv weighted-report.txt
both weighted.csv "$(accepted weighted-report.txt)"
sed '1s/,2,/,1,/' "$work/tuned.cert" >"$work/changed.cert"
checked "version 1, with weights" weighted.csv "$work/changed.cert" 1 "rejected row 0 Version"

exit "$wrong"
