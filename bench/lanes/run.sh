#!/usr/bin/env bash
# Times two lanes of long reads beside a resync against the same reads and the same resync on one thread: scripts for the built program, the
# same but for how the reads stand. An argument says how often each is run, 9 times if there is none; the best run counts, by the clock and
# in processor time of the whole process. PROGRAM names the program; without it that of `./mdgrow prove`.
set -euo pipefail
here=$(cd "$(dirname "$0")" && pwd)
program=${PROGRAM:-$here/../../crates/mdgrow/out/mdgrow}
[ -x "$program" ] || { echo "no program at $program: build it by ./mdgrow prove" >&2; exit 1; }
work=$(mktemp -d)
trap 'rm -rf "$work"' EXIT

# A dirty array of 32 stripes, to be resynced, and so many reads of 128 sectors in each of two lanes; without lanes, in turn.
script_of() {
    awk -v way="$1" -v reads="$2" 'BEGIN {
        print "create 6ba7b810-9dad-11d1-80b4-00c04fd430c8 level=5 disks=6 chunk=128 size=4096"
        print "write 0 128 1\nhalt\nassemble"
        if (way == "lanes") print "together"
        for (i = 0; i < reads; i++) {
            print (way == "lanes" ? "a: " : "") "read", i * 128 % 10240, 128
            print (way == "lanes" ? "b: " : "") "read", 10240 + i * 128 % 10240, 128
        }
        if (way == "lanes") print "end"; else print "wait"
    }'
}

one_run() {
    TIMEFORMAT='%R %U %S'
    { time "$program" memory <"$work/script" >"$work/replies" 2>"$work/said"; } 2>"$work/time" || {
        echo "the program ended with status $?" >&2
        cat "$work/said" >&2
        exit 1
    }
    awk '{ printf "%.0f %.0f\n", $1 * 1000, ($2 + $3) * 1000 }' "$work/time"
}

uptime
printf '%8s %8s %10s %14s\n' reads way 'clock ms' 'processor ms'
for reads in 0 1000; do
    for way in lanes turn; do
        script_of "$way" "$reads" >"$work/script"
        for _run in $(seq "${1:-9}"); do
            one_run
        done | sort -n >"$work/runs"
        read -r clock processor <"$work/runs"
        printf '%8d %8s %10d %14d\n' "$((2 * reads))" "$way" "$clock" "$processor"
    done
done
