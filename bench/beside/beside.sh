#!/bin/sh
# The run beside what else runs small programs: bench/beside/beside.sh prints nanoseconds a turn of the same counting
# loop for the proved run, the direct one of plain.c, lua5.4 and wabt's wasm-interp, as far as they are at hand.
set -eu
cd "$(dirname "$0")/../.."
. bench/toolchain.sh
library=target/staticlib/libsam_c.a
here=bench/beside
out=target/bench
mkdir -p "$out"

row() { printf '%-42s %s\n' "$1" "$2"; }

# measure NAME COMMAND..
measure() {
    name=$1
    shift
    figure=$(python3 $here/turns.py "$@")
    row "$name" "$figure"
}

echo "nanoseconds a turn of the counting loop"
if ! c_works; then
    row "sam, plain" "skipped: $WHY"
elif [ ! -f "$library" ]; then
    row "sam, plain" "skipped: no $library; make it with: ./support"
else
    $CC $FLAGS -Iinclude -Ibench $here/count.c bench/plain.c "$library" -o "$out/count"
    for side in sam plain; do
        count="$RUN $out/count $side $here"
        # 450,001 steps: one, and three for each of 150,000 turns
        measure "$side, ended by its limit (3 steps a turn)" $count/count_to_limit.sam 450001 ROUNDS
        measure "$side, with a test (6 steps a turn)" $count/count.sam 1000000 ROUNDS
    done
fi
if first_command lua5.4 >/dev/null; then
    measure "lua5.4, with a test" lua5.4 $here/count.lua ROUNDS
else
    row lua5.4 "skipped: not at hand (Debian: lua5.4)"
fi
if first_command wasm-interp >/dev/null && first_command wat2wasm >/dev/null; then
    for rounds in 1 101; do # FEW and MANY of turns.py
        sed "s/(i32.const ROUNDS)/(i32.const $rounds)/" $here/count.wat >"$out/count-$rounds.wat"
        wat2wasm "$out/count-$rounds.wat" -o "$out/count-$rounds.wasm"
    done
    measure "wasm-interp, with a test" wasm-interp "$out/count-ROUNDS.wasm" --run-all-exports
else
    row wasm-interp "skipped: not at hand (Debian: wabt)"
fi
