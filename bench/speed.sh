#!/bin/sh
# Sets the proved run, packer and unpacker beside the direct ones of plain.c and plain_image.c, and decimals beside
# patterns in the proved assembler: bench/speed.sh [STEPS] prints millions of steps a second and nanoseconds an
# instruction packed or assembled, bench/speed.sh --count machine instructions, which have no noise: they are counted by
# valgrind, or by the emulator's trace on another processor than x86-64, where of times only the ratios say something.
# The direct ones are compiled by gcc -O2 and, where at hand, by clang -O3. Needs target/staticlib/libsam_c.a
# (`./support` makes it).
set -eu
cd "$(dirname "$0")/.."
. bench/toolchain.sh
library=target/staticlib/libsam_c.a
limit=2500  # steps of a counted run: no record is above three places, so a history of 8,192 holds them
runs=10     # COUNTED_RUNS of speed.c
calls=10    # counted calls of a packer, unpacker or assembler
places=1024 # instructions of a full program

skip() {
    echo "speed: skipped: $1"
    exit 0
}

# The machine instructions that a program makes. The emulator's trace has a line for each.
instructions() {
    if [ -n "$RUN" ]; then
        $RUN -singlestep -d exec,nochain -D /dev/stdout "$@" | grep -c '^Trace'
    else
        valgrind --tool=cachegrind --cache-sim=no --cachegrind-out-file=/dev/null "$@" 2>&1 |
            sed -n 's/.*I *refs: *//p' | tr -d ,
    fi
}

# Instructions a step of SIDE NAME H: those of runs with a limit, less those of as many runs with limit 0.
a_step() {
    with=$(instructions "$speed" "$@" "$limit")
    without=$(instructions "$speed" "$@" 0)
    awk "BEGIN { printf \"%.1f\", ($with - $without) / ($limit * $runs) }"
}

# Instructions for one of the program's, of PROGRAM SIDE NAME or PROGRAM NAME: those of calls, less those of none.
a_place() {
    with=$(instructions "$@" "$calls")
    without=$(instructions "$@" 0)
    awk "BEGIN { printf \"%.1f\", ($with - $without) / ($calls * $places) }"
}

print_counts() {
    awk -v name="$1" -v sam="$2" -v plain="$3" 'BEGIN {
        printf "%-23s   sam %8.1f   plain %8.1f   sam/plain %.2f\n", name, sam, plain, sam / plain }'
}

count_all() {
    echo "machine instructions a step"
    for h in 0 8192; do
        $RUN "$speed" names | while read -r name; do
            line=$(printf '%-16s H %4d' "$name" "$h")
            print_counts "$line" "$(a_step sam "$name" "$h")" "$(a_step plain "$name" "$h")"
        done
    done
    echo "machine instructions an instruction of a full program"
    $RUN "$image_speed" names | while read -r name; do
        print_counts "$name" "$(a_place "$image_speed" sam "$name")" "$(a_place "$image_speed" plain "$name")"
    done
}

count_texts() {
    echo "machine instructions an instruction assembled"
    $RUN "$text_speed" names | while read -r name; do
        counted=$(a_place "$text_speed" "$name")
        : "${first:=$counted}"
        awk -v name="$name" -v sam="$counted" -v first="$first" 'BEGIN {
            printf "%-16s sam %8.1f   to patterns %.2f\n", name, sam, sam / first }'
    done
}

# Decimals beside patterns: the library alone, so one compiler will do.
texts() {
    text_speed=target/bench/text_speed
    "$CC" $FLAGS -Iinclude bench/text_speed.c "$library" -o "$text_speed"
    if [ "${1:-}" = --count ]; then
        count_texts
    else
        $RUN "$text_speed"
    fi
}

# against COMPILER OPTION [STEPS]
against() {
    speed=target/bench/speed-$(basename "$1")
    image_speed=target/bench/image_speed-$(basename "$1")
    "$1" $FLAGS "$2" -Iinclude -Ibench bench/speed.c bench/plain.c "$library" -o "$speed"
    "$1" $FLAGS "$2" -Iinclude -Ibench bench/image_speed.c bench/plain_image.c "$library" -o "$image_speed"
    echo "the direct ones by $("$1" --version | head -n 1), $2:"
    shift 2
    if [ "${1:-}" = --count ]; then
        count_all
    else
        $RUN "$speed" "$@"
        $RUN "$image_speed"
    fi
}

c_works || skip "$WHY"
[ -f "$library" ] || skip "no $library; make it with: ./support"
if [ "${1:-}" = --count ]; then
    [ -n "$RUN" ] || first_command valgrind >/dev/null || skip "there is no valgrind (Debian: valgrind)"
fi
mkdir -p target/bench
texts "$@"
against "$CC" -O2 "$@"
if [ -n "$CLANG" ]; then
    against "$CLANG" -O3 "$@"
else
    echo "speed: clang -O3 is skipped: there is no clang for x86-64"
fi
