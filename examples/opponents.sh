# Sets `opponents` to the files of warriors/ against which the templates of tuning/ are tuned, in
# their order. Use: . "$here/opponents.sh"
# shellcheck shell=sh disable=SC2034
opponents="dwarf.red imp-ring.red scanner.red replicator.red core-clear.red"
