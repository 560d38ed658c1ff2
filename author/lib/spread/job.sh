#!/bin/sh
# Runs a piece of `cwtune-spread` on a host, and packs what came of it. hosts.py has GNU
# parallel start it in a new folder with the inputs, within a temporary folder of GNU parallel's.
# Use: job.sh PIECE TO COMMAND..
# PIECE is the first part of the names of the files of the piece. TO is the folder that gets the
# archive with the report of the command, its fault, its status and what it wrote. Fails if another
# host might have a result.

piece=$1 to=$2
shift 2

# Removes the temporary folder of GNU parallel, and nothing else.
clean_up() {
    trap '' HUP INT TERM
    temporary=$(dirname "$PWD")
    case $temporary in
        */.parallel/tmp/*-[0-9]*-[0-9]*) rm -rf "$temporary" ;;
    esac
}

trap 'clean_up; exit 1' HUP INT TERM
"$@" >"$piece.report" 2>"$piece.fault" </dev/null
status=$?
echo "$status" >"$piece.status"
touch "$piece.cert"
tar -cf - "$piece".* >"$to/$piece.new" && mv "$to/$piece.new" "$to/$piece.tar" &&
    [ "$status" -le 2 ]
