#!/bin/sh
# Instructions of one call, ours and image-rider's, by valgrind's callgrind: the thing done 20 and 40 times, and the difference by 20.
# Run in host/differential after `cargo build --release`: ./count.sh [FILES], on the full disk of 75 files (the default), of 25 or of 8, or on an almost empty
# one of 1. With words behind FILES only these things are counted: ./count.sh 75 survey holders.
# image-rider's counts differ a little from run to run: its maps are seeded at random.
set -eu
command -v valgrind >/dev/null || { echo "valgrind is not there: apt-get install valgrind" >&2; exit 2; }
files=${1:-75}
[ $# -eq 0 ] || shift
program=target/release/differential

collected() {
    valgrind --tool=callgrind --callgrind-out-file=/dev/null "$program" --count "$1" "$2" "$files" 2>&1 | sed -n 's/.*Collected : *\([0-9][0-9]*\).*/\1/p'
}

[ $# -gt 0 ] || set -- $("$program" --count)

echo "instructions of one call on the disk of $files files"
for thing in "$@"; do
    once=$(collected "$thing" 20)
    twice=$(collected "$thing" 40)
    one=$(((twice - once) / 20))
    printf '%-20s %12d\n' "$thing" "$one"
    case $thing in
    denibblize) printf '%-20s %12d\n' '  a sector of 560' $((one / 560)) ;;
    denibblize-13) printf '%-20s %12d\n' '  a sector of 455' $((one / 455)) ;;
    esac
done
