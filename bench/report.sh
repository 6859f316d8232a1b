#!/usr/bin/env bash
# Runs the scripts of speed in turn, on a quiet machine, and puts what each prints into a folder.
#
# usage: bench/report.sh FOLDER RXSCAN RX_BENCH PEER
#
# The paths of the built programs: rxscan, rx_bench, and a program that reads what `rxscan scan` reads and prints the same
# rows. `rustc`, `grep` and Python must be there; no program of ours is built. FOLDER/NAME.md is what a script prints,
# FOLDER/NAME.err what went wrong. Each script is stopped after so many seconds. The status is 1 if one fails.
[ $# -eq 4 ] || { echo "usage: bench/report.sh FOLDER RXSCAN RX_BENCH PEER" >&2; exit 2; }
for program in "$2" "$3" "$4"; do
    [ -x "$program" ] || { echo "no program at $program" >&2; exit 2; }
done
mkdir -p "$1" || exit 2
folder=$(realpath "$1") rxscan=$(realpath "$2") bench=$(realpath "$3") peer=$(realpath "$4")
cd "$(dirname "$0")" || exit 2
failed=0

# A script's name, its greatest seconds, and its words.
run() {
    local name=$1 most=$2 begin=$SECONDS status
    shift 2
    timeout "$most" python3 -B "$name.py" "$@" >"$folder/$name.md" 2>"$folder/$name.err"
    status=$?
    echo "$name: status $status, $((SECONDS - begin)) s" | tee -a "$folder/times"
    [ "$status" -eq 0 ] || failed=1
}

{ date -u; nproc; cat /proc/loadavg; sha256sum "$rxscan" "$bench" "$peer"; } >"$folder/times"
run literals 90 "$bench"
run engines 60 1 "$rxscan" "$bench"
run compare 110 4 "$rxscan" "$peer"
run prefilters 160 16 "$bench"
exit "$failed"
