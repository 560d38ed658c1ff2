#!/bin/sh
# Builds pMARS 0.9.2 from Debian's source package, without display and debugger, and prints the path
# of the program. Debian's own package is built for X, and does not run without it. Needs gcc,
# dpkg-dev and the network; a program that is there already is not built again.
# Use: pmars/pmars.sh [FOLDER]   (default: ~/.cache/cwtune-pmars)
set -eu
unset CDPATH

case ${1-} in
    -*)
        echo "use: pmars/pmars.sh [FOLDER]" >&2
        exit 2
        ;;
esac
folder=${1:-${XDG_CACHE_HOME:-$HOME/.cache}/cwtune-pmars}
mkdir -p -- "$folder"
folder=$(cd -- "$folder" && pwd)
program=$folder/pmars-server
if [ ! -x "$program" ]; then
    for needed in gcc dpkg-source; do
        command -v "$needed" >/dev/null || {
            echo "error: no $needed (Debian: apt-get install gcc dpkg-dev)" >&2
            exit 2
        }
    done
    cd "$folder"
    rm -rf sources.d pmars-0.9.2
    mkdir -p lists/partial sources.d
    for file in /etc/apt/sources.list /etc/apt/sources.list.d/*; do
        [ -f "$file" ] || continue
        case $file in
            *.list) sed -n 's/^deb /deb-src /p' "$file" >>sources.d/source.list ;;
            *.sources) sed 's/^Types: .*/Types: deb-src/' "$file" >"sources.d/${file##*/}" ;;
        esac
    done
    fetch() {
        apt-get -qq -o Dir::Etc::sourcelist=/dev/null -o Dir::Etc::sourceparts="$folder/sources.d" \
            -o Dir::State::lists="$folder/lists" -o APT::Sandbox::User= "$@" >&2
    }
    fetch update
    fetch source pmars=0.9.2-1
    cd pmars-0.9.2/src
    gcc -O3 -w -std=gnu89 -DSERVER -DEXT94 -DPERMUTATE -o "$program.new" asm.c cdb.c clparse.c \
        disasm.c eval.c global.c pmars.c pos.c sim.c str_eng.c token.c >&2
    mv "$program.new" "$program"
fi
echo "$program"
