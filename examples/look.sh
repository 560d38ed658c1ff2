#!/bin/sh
# Tunes tuning/stone.red with an unproved build, and prints the report: two minutes. Such a build
# checks each step while it runs and is slow, so the fights are cut short, and the best setting is
# not the one of demo.sh. Ends with the program's status.
# Use: examples/look.sh

unset CDPATH
here=$(cd "$(dirname "$0")" && pwd)
# shellcheck source=examples/opponents.sh
. "$here/opponents.sh"
cycles=100
note="a first look: the build is not proved, and fights of $cycles cycles say nothing of a warrior"

echo "$note"
echo "building, and tuning examples/tuning/stone.red in fights of $cycles cycles .."
cd "$here/../crates/cwtune" || exit 1
set -- --data "stone.red=$here/tuning/stone.red" --data "schedule.csv=$here/tuning/schedule.csv"
for name in $opponents; do
    set -- "$@" --data "$name=$here/warriors/$name"
done
log=$(mktemp) || exit 1
trap 'rm -f "$log"' EXIT
trap 'exit 143' HUP INT TERM
# shellcheck disable=SC2086
rt try --seconds 100 "$@" -- tune --cycles "$cycles" stone.red schedule.csv stone.cert $opponents \
    >"$log" 2>&1
status=$?
grep -E '^(vectors|candidates|best|constants|total|fights) ' "$log"
if [ "$status" -ne 0 ]; then
    tail -n 20 "$log" >&2
fi
echo "in whole fights, by \`make demo\`, which proves the program and builds it:"
cat "$here/tuning/report.txt"
echo "$note"
exit "$status"
