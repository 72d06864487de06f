# shellcheck shell=bash
# The arguments of a measurement, `PROGRAM [ROUNDS]`, as the variables `program` and `rounds`; the comment at its head is its
# help. It is read by each script beside it: . bench/arguments.sh ROUNDS "$@", with the rounds if none are given. Where that
# help says so, `--before PROGRAM` may come behind them, a second program, as the variable `before`, which is empty without.
rounds=$1
shift
case ${1:-} in -h | --help)
    sed -n '2,/^[^#]/s/^# \{0,1\}//p' "$0"
    exit
    ;;
esac
# Ends where this isn't a program.
program_of() {
    local found
    found=$(realpath -q -- "$1") || found=""
    if [ ! -f "$found" ] || [ ! -x "$found" ]; then
        echo "$0: PROGRAM: ${1:-nothing} isn't a program that is there" >&2
        exit 2
    fi
    echo "$found"
}
before=""
if [ $# -gt 2 ] && [ "${*: -2:1}" = --before ] && grep -q '^# usage: .* \[--before PROGRAM\]' "$0"; then
    before=$(program_of "${*: -1}")
    set -- "${@:1:$#-2}"
fi
if [ $# -gt 2 ]; then
    echo "$0: $3: there is no such argument ($0 --help)" >&2
    exit 2
fi
program=$(program_of "${1:-}")
rounds=${2:-$rounds}
case $rounds in '' | *[!0-9]* | 0*)
    echo "$0: ROUNDS: $rounds isn't a whole number from 1" >&2
    exit 2
    ;;
esac
