#!/bin/sh
# Plays settings of a race on a host. For each it prints a row of a certificate with its points, or
# an empty line if it does not assemble. hosts.py has spread/job.sh run it.
# Use: job.sh SETTINGS COMMAND..
# By each line of SETTINGS, sed makes of t.red the template setting.red, which COMMAND plays.

settings=$1
shift
while read -r setting; do
    LC_ALL=C sed "$setting" t.red >setting.red || exit 3
    row=$({ "$@" 2>fault </dev/null; echo $? >status; } | sed -n 3p)
    read -r status <status || exit 3
    if [ "$status" != 0 ] && [ "$(tail -n 1 fault)" != "refused: NoCandidate" ]; then
        cat fault >&2
        exit "$status"
    fi
    echo "$row"
done <"$settings"
