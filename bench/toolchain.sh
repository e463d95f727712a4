# Sourced by ./sam, .ci/setup and the scripts here: a C compiler for x86-64, for which the static library is, and what
# runs its programs.
#
#   CC        the compiler, or empty where there is none
#   CLANG     a clang for x86-64 besides, for the speeds, or empty
#   FLAGS     its options
#   PACKAGES  the Debian packages that have a compiler and its C library
#   RUN       what stands before a program built here: nothing on x86-64, an emulator elsewhere
#   RUN_KIT   what stands before a program that `rt` built
#   WHY       why CC is empty, or what c_works found
#
# SAM_CC and SAM_EMULATOR name another compiler or emulator.

# The first of these commands that there is.
first_command() {
    for word in "$@"; do
        if command -v "$word" >/dev/null 2>&1; then
            command -v "$word"
            return 0
        fi
    done
    return 1
}

# The folder of the kit's compiler, which has the loader and the C library of what `rt` builds.
kit_toolchain() {
    rt=$(command -v rt) || return 1
    printf '%s\n' "$(dirname "$(dirname "$(readlink -f "$rt")")")/toolchain"
}

find_native() {
    PACKAGES="gcc libc6-dev"
    CC=$(first_command ${SAM_CC:-} gcc cc clang) ||
        { CC=; WHY="there is no C compiler (Debian: apt-get install $PACKAGES)"; }
    CLANG=$(first_command clang $(printf 'clang-%s ' 21 20 19 18 17 16 15 14 13)) || CLANG=
}

find_emulated() {
    PACKAGES="gcc-x86-64-linux-gnu libc6-dev-amd64-cross qemu-user-static"
    FLAGS="$FLAGS -static"
    tools=$(kit_toolchain) || tools=
    RUN=$(first_command ${SAM_EMULATOR:-} qemu-x86_64-static qemu-x86_64) ||
        { RUN=; CC=; WHY="there is no emulator for x86-64 (Debian: apt-get install $PACKAGES)"; return; }
    RUN_KIT="$RUN${tools:+ $tools/lib/ld-linux-x86-64.so.2 --library-path $tools/lib}"
    CC=$(first_command ${SAM_CC:-} x86_64-linux-gnu-gcc) ||
        { CC=; WHY="there is no C compiler for x86-64 (Debian: apt-get install $PACKAGES)"; }
}

# Sets all of these; again where a compiler has been installed since.
find_toolchain() {
    CLANG=
    FLAGS="-std=c99 -O2 -Wall -Wextra -pedantic"
    RUN=
    RUN_KIT=
    WHY=
    if [ "$(uname -m)" = x86_64 ]; then find_native; else find_emulated; fi
}

# Whether CC builds a program that runs: a compiler alone does not, it needs the C library besides.
c_works() {
    [ -n "$CC" ] || return 1
    try=$(mktemp -d)
    printf '#include <stdio.h>\nint main(void) { return puts("built") < 0; }\n' >"$try/try.c"
    if { $CC $FLAGS "$try/try.c" -o "$try/try" && $RUN "$try/try"; } >/dev/null 2>&1; then built=0; else built=1; fi
    rm -r "$try"
    [ "$built" = 0 ] || WHY="$CC builds no C program that runs here (Debian: apt-get install $PACKAGES)"
    return "$built"
}

# Whether CC knows C++ too.
cpp_works() {
    echo 'int main() { return 0; }' | $CC -x c++ -fsyntax-only - 2>/dev/null
}

find_toolchain
