#!/bin/sh
# Builds the crate parity_c as a static library and the loop in C by gcc -O3, for plain x86-64 and for this processor,
# and times all in one run, then the calls over many rows beside those over one; where ISA-L is installed (libisal-dev), its pq_gen too. An argument says how many runs.
# Each run is made with the library at two places, 16 bytes apart: where a loop's last jump crosses a line of 32 bytes,
# some processors decode the loop anew each time round. What is passed in CPU goes to `rt lib`, as CPU=x86-64-v3.
set -e
here=$(cd "$(dirname "$0")" && pwd)
library="$here/../../crates/raid_parity_c"
work=$(mktemp -d)
trap 'rm -rf "$work"' EXIT
(cd "$library" && rt lib ${CPU:+--cpu=$CPU} >"$work/lib.log" 2>&1) || { cat "$work/lib.log"; exit 1; }
gcc -O3 -DNAME=plain_loop -c -o "$work/plain_loop.o" "$here/plain_loop.c"
gcc -O3 -march=native -DNAME=plain_loop_native -c -o "$work/plain_loop_native.o" "$here/plain_loop.c"
isa_l=
[ -e /usr/include/isa-l/raid.h ] && isa_l="-DWITH_ISA_L -lisal"
printf '.section .text,"ax"\n.p2align 5\n.skip 16\n.section .note.GNU-stack,"",@progbits\n' >"$work/place.s"
gcc -c -o "$work/place.o" "$work/place.s"
for place in "" "$work/place.o"; do
    gcc -O3 -o "$work/bench${place:+_16}" "$here/bench.c" "$work/plain_loop.o" "$work/plain_loop_native.o" $place \
        "$library/out/libparity_c.a" $isa_l
    gcc -O3 -o "$work/runs${place:+_16}" "$here/runs.c" $place "$library/out/libparity_c.a"
done
uptime
for _run in $(seq "${1:-1}"); do
    "$work/bench"
    "$work/runs"
    echo "16 bytes further:"
    "$work/bench_16"
    "$work/runs_16"
done
