#!/bin/sh
# Tunes part I of K parts of a template, or checks share I of K shares of a certificate, as job I of
# a Slurm job array.
# Use: sbatch --array=1-K examples/slurm.sh K TEMPLATE SCHEDULE CERT OPPONENT..
#      sbatch --array=1-K examples/slurm.sh --check K TEMPLATE SCHEDULE CERT OPPONENT..
#      sbatch --array=3 examples/slurm.sh K ..    repeats part 3, and touches no other one
# When all have ended, `cwtune-spread --merge K TEMPLATE SCHEDULE CERT OPPONENT..` puts the parts
# together, and with `--check-only` the shares. CWTUNE names the program, if it is not on the PATH
# of the nodes, and CWTUNE_PARTS is K if the word is left out. Options of `tune` or `check` may
# follow the opponents. Each part has the total of START as its floor, unless there is an option
# other than the rules (as --core=N), --hill=HILL and --cache=N.
# What is wrong with a part is in CERT.I.fault, with a share in CERT.I.check.fault, and with a job
# that has neither in slurm-ARRAY.out, where sbatch was called.
#SBATCH --output=slurm-%A.out --open-mode=append

# Says why a job is refused.
refuse() {
    echo "slurm.sh: $1" >&2
    exit 2
}

# Prints START's total as an option, if START assembles: tune_start TEMPLATE SCHEDULE OPPONENT..
tune_start() {
    template=$1 schedule=$2 rules=
    shift 2
    for word; do
        case $word in
            --core=* | --cycles=* | --tasks=* | --length=* | --distance=* | --hill=*)
                rules="$rules $word"
                ;;
            --cache=*) ;;
            --*) return ;;
        esac
    done
    # shellcheck disable=SC2086
    "$program" asm $rules --setting start -- "$template" >"$work/start.red" &&
        "$program" tune "$work/start.red" "$schedule" "$work/cert" "$@" |
        sed -n 's/^total \([0-9]*\) of .*/--floor=\1/p'
}

# Runs a command with its output in a file, and what it says of a fault in another one: run FILE
# FAULT COMMAND.. Both are renamed into place; if the command has no result, FILE stays as it was.
# A part without a candidate is a result, and so is a rejection.
run() {
    file=$1 fault=$2
    shift 2
    "$@" >"$file.new" 2>"$fault.new"
    status=$?
    case $status:$(grep '^refused: ' "$fault.new") in
        0:* | 1: | '1:refused: NoCandidate') mv "$file.new" "$file" ;;
    esac
    mv "$fault.new" "$fault"
    return "$status"
}

# Checks a share between two digests of the certificate: check_share WORD.., with $cert
check_share() {
    sha256sum <"$cert"
    "$program" check --share "$part" "$@"
    verdict=$?
    sha256sum <"$cert"
    return "$verdict"
}

# Removes what a job leaves that ends early.
clean_up() {
    trap '' HUP INT TERM
    rm -rf "$work"
    rm -f "$own".*.new "$own".unfinished-* "$own".inputs.unfinished-*
}

program=${CWTUNE:-cwtune} check=
if [ "$1" = --check ]; then
    check=yes
    shift
fi
count=${CWTUNE_PARTS:-}
case $1 in
    '' | *[!0-9]*) ;;
    *) count=$1 && shift ;;
esac
case $count in
    '' | *[!0-9]*) refuse "how many parts? Use: slurm.sh [--check] K TEMPLATE SCHEDULE CERT .." ;;
esac
[ $# -ge 4 ] || refuse "use: slurm.sh [--check] K TEMPLATE SCHEDULE CERT OPPONENT.."
index=${SLURM_ARRAY_TASK_ID:-none}
{ [ "$index" -ge 1 ] && [ "$index" -le "$count" ]; } 2>/dev/null ||
    refuse "job $index of the array is none of the parts 1 to $count"
# A name that begins with a dash is no option.
for word; do
    shift
    case $word in
        -[!-]*) word=./$word ;;
    esac
    set -- "$@" "$word"
done
cert=$3 own=$3.$index part=$index/$count
work=$(mktemp -d) || exit
trap clean_up EXIT
trap 'exit 143' HUP INT TERM
if [ "$check" ]; then
    run "$own.check" "$own.check.fault" check_share "$@"
    exit
fi
template=$1 schedule=$2
shift 3
floor=$(tune_start "$template" "$schedule" "$@" 2>/dev/null)
# shellcheck disable=SC2086
run "$own.report" "$own.fault" \
    "$program" tune --part "$part" $floor "$template" "$schedule" "$own" "$@"
