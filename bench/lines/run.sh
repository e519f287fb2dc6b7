#!/usr/bin/env bash
# Times the program on scripts of 1, 1,000, 10,000 and 60,000 lines, and prints how the time grows with the lines.
# The first line of each makes the array; the others write and read in turn, 1 to 4 sectors each, all over the list.
# What bounds such a script: at most 262,144 sectors in all, and room for 262,144 operations in the bank. A written sector
# costs at most two operations, its own and that of its row's parity; making the array costs 137, and its dirty mark 6. So 60,000
# lines, of which half write 2.5 sectors on average, take 150,000 sectors and at most 150,143 operations.
# An argument says how often each script is run, 5 times if there is none; the best run counts. PROGRAM names another program.
set -euo pipefail
here=$(cd "$(dirname "$0")" && pwd)
program=${PROGRAM:-$here/../../crates/mdgrow/out/mdgrow}
[ -x "$program" ] || { echo "no program at $program: build it by ./mdgrow prove" >&2; exit 1; }
work=$(mktemp -d)
trap 'rm -rf "$work"' EXIT

script_of() {
    awk -v lines="$1" 'BEGIN {
        print "create 6ba7b810-9dad-11d1-80b4-00c04fd430c8 level=5 disks=3 chunk=8 size=40 offset=16"
        for (i = 1; i < lines; i++) {
            count = int(i / 2) % 4 + 1
            at = int(i / 2) * 7 % (81 - count)
            if (i % 2) print "write", at, count, i
            else print "read", at, count
        }
    }'
}

# Milliseconds of processor time and of the clock of one run, from bash's own clock.
one_run() {
    TIMEFORMAT='%U %S %R'
    { time "$program" memory <"$work/script" >"$work/replies" 2>"$work/said"; } 2>"$work/time" || {
        echo "the program ended with status $?" >&2
        cat "$work/said" >&2
        exit 1
    }
    awk '{ printf "%.0f %.0f\n", ($1 + $2) * 1000, $3 * 1000 }' "$work/time"
}

uptime
printf '%8s %14s %10s %22s\n' lines 'processor ms' 'clock ms' 'microseconds a line'
for lines in 1 1000 10000 60000; do
    script_of "$lines" >"$work/script"
    for _run in $(seq "${1:-5}"); do
        one_run
    done | sort -n >"$work/runs"
    [ "$(wc -l <"$work/replies")" -eq "$lines" ] || { echo "$lines lines, but not as many replies" >&2; exit 1; }
    read -r processor clock <"$work/runs"
    [ "$lines" -gt 1 ] || start=$processor
    # (what the line that makes the array takes is not counted for the others)
    awk -v lines="$lines" -v processor="$processor" -v clock="$clock" -v start="$start" 'BEGIN {
        if (lines > 1) each = sprintf("%.2f", (processor - start) * 1000 / (lines - 1))
        printf "%8d %14d %10d %22s\n", lines, processor, clock, each
    }'
done
