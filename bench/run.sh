#!/bin/sh
# Every test and comparison of bench/. The C parts need a C compiler for x86-64 and what `rt` builds; where something is
# missing nothing is run, and the one line says what.
set -eu
cd "$(dirname "$0")/.."
. bench/toolchain.sh
library=target/staticlib/libsam_c.a
console=target/bin/sam
formula_console=target/bin/sam_formula
out=target/bench
NO_BROWSER=3 # the status of bench/support/look.py where none is installed
mkdir -p "$out"

fail() {
    echo "bench: $1" >&2
    exit 1
}

first_command python3 >/dev/null || fail "there is no Python 3 (Debian: apt-get install python3)"
c_works || fail "$WHY"
[ -f "$library" ] || fail "there is no $library; make it with: ./support"
[ -x "$console" ] || fail "there is no $console; make it with: ./sam </dev/null"
[ -x "$formula_console" ] || fail "there is no $formula_console; make it with: ./sam --formula 1"

echo "bench: the interpreter's own tests"
python3 bench/test_sam.py

echo "bench: the published programs"
python3 bench/teaching.py >"$out/teaching.stdout"
python3 bench/teaching.py --sources >"$out/teaching.stdin"
cmp "$out/teaching.stdin" crates/teaching/stdin
cmp "$out/teaching.stdout" crates/teaching/stdout
echo "bench: crates/teaching runs the programs of bench/teaching, and its stdout is what bench/teaching.py prints"
echo "bench: the depth lists beside them are accepted, and every state of their runs is as listed"

echo "bench: the C library's own test"
$CC $FLAGS -Iinclude bench/test_sam_c.c "$library" -o "$out/test_sam_c"
$RUN "$out/test_sam_c" >"$out/test_sam_c.out" || { grep -v '^ok' "$out/test_sam_c.out"; exit 1; }
tail -n 1 "$out/test_sam_c.out"

echo "bench: the bytes of stack that each call uses"
$CC $FLAGS -Iinclude bench/stack.c "$library" -o "$out/stack"
$RUN "$out/stack"

echo "bench: every call compared"
$CC $FLAGS -Iinclude -Ibench bench/driver.c bench/plain.c bench/plain_image.c "$library" -o "$out/driver"
python3 bench/compare.py --save "$out/difference" --console "$RUN_KIT $console" \
    --formula-console "$RUN_KIT $formula_console" "$RUN $out/driver"

echo "bench: a session in one struct, in C and in C++"
$CC $FLAGS -Iinclude examples/door.c "$library" -o "$out/door"
$RUN "$out/door" >"$out/door.out"
if cpp_works; then
    $CC -x c++ -std=c++11 -Wall -Wextra -pedantic -Iinclude -fsyntax-only examples/door.c
else
    echo "bench: $CC has no C++ here, so include/sam_session.h was tried in C alone"
fi

echo "bench: the examples of README.md, as they are written there"
python3 bench/readme.py "$out/door.out"

echo "bench: the support bench"
./support
python3 bench/support/guide.py
python3 bench/support/test_picture.py
python3 bench/support/test_sheet.py
python3 bench/support/test_support.py
status=0
python3 bench/support/look.py target/support/sheet.html target/support/pictures || status=$?
[ "$status" = 0 ] || [ "$status" = "$NO_BROWSER" ] || exit 1
echo "bench: done"
