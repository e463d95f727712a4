#!/bin/sh
# faulty.sh FILE: writes to FILE a copy of the proved library whose step-back restores bits and leaves tags.
#
#     bench/support/faults/faulty.sh target/faulty/libsam_c.a
#     ./support --library target/faulty/libsam_c.a
set -eu
faulty=$(readlink -f "$(dirname "$1")")/$(basename "$1")
cd "$(dirname "$0")/../../.."
. bench/toolchain.sh
c_works || { echo "faulty.sh: $WHY" >&2; exit 1; }
object=$faulty.leaves_tags.o
"$($CC -print-prog-name=objcopy)" --redefine-sym sam_step_back=proved_step_back target/staticlib/libsam_c.a "$faulty"
$CC $FLAGS -Iinclude -c bench/support/faults/leaves_tags.c -o "$object"
"$($CC -print-prog-name=ar)" r "$faulty" "$object"
rm "$object"
