# Sourced by ./sam, ./support and .ci/run: what the kit proves and builds, with progress on standard error. Each sets
#
#   root       the folder of the repository
#   called_as  what stands before each line that is told, as ./sam

# fail STATUS LINE
fail() {
    echo "$called_as: $2" >&2
    exit "$1"
}

# A file that is to be read.
check_readable() {
    [ -e "$1" ] || fail 2 "there is no file '$1'"
    [ ! -d "$1" ] || fail 2 "'$1' is a folder, not a file"
    [ -r "$1" ] || fail 2 "the file '$1' cannot be read"
}

# Whether the file BUILT is there and no older than any file below crates/. What rt keeps in a crate's out/ is no source.
is_current() {
    [ -f "$1" ] && [ -z "$(find "$root/crates.txt" "$root/crates" -name out -prune -o -type f -newer "$1" -print -quit)" ]
}

# How many crates CRATE rests on, itself among them. The kit's libraries are proved already, and not in crates.txt.
count_crates() {
    awk -F: -v crate="$1" '
        function visit(name, names, count, i) {
            if (!(name in below) || seen[name]++) return
            crates++
            count = split(below[name], names, " ")
            for (i = 1; i <= count; i++) visit(names[i])
        }
        { sub(/#.*/, ""); split($1, words, " "); if (NF) below[words[1]] = $2 }
        END { visit(crate); print crates }' "$root/crates.txt"
}

# Of what rt prints, the names of the crates that it proved. A crate below that is built already is not named again.
proved_crates() {
    sed -un '/^crate [A-Za-z0-9_]*:/ { s/^crate \([A-Za-z0-9_]*\):.*/\1/; h; }; /^logic=proved / { g; p; }'
}

# A line of progress: on a terminal it takes the place of the one before.
tell() {
    if [ -t 2 ]; then printf '\r\e[K%s' "$called_as: $1"; else echo "$called_as: $1"; fi >&2
}

# Reads the names of proved crates of CRATE, called TITLE, and tells of each as it comes. On a terminal it tells every second: one crate can
# take minutes.
show_progress() {
    local crates proved=0 crate now
    crates=$(count_crates "$1")
    now="proving $2 ($crates crates, some minutes)"
    tell "$now"
    while read -r -t 1 crate || [ $? -gt 128 ]; do # above 128: no name within the second
        if [ -n "$crate" ]; then
            proved=$((proved + 1))
            now="proved $crate, $proved of at most $crates crates"
        elif [ ! -t 2 ]; then
            continue
        fi
        tell "$now, $SECONDS s so far"
    done
    [ ! -t 2 ] || echo >&2
}

# What rt said, in the file LOG, of the first crate that is not proved, without the functions of it that are; or what it said last.
first_failure() {
    awk '
        /^logic=proved / { said = ""; next }
        !/: proved$|^library |^statements |^logic |^checked |^so far: / { said = said $0 "\n" }
        /^logic=not-proved/ { exit }
        END { printf "%s", said }' "$1"
}

# What rt makes of CRATE, in the crate's out/.
made_of() {
    case $1 in
    sam_c) echo "$root/crates/sam_c/out/libsam_c.a" ;;
    *) echo "$root/crates/$1/out/$1" ;;
    esac
}

# Puts what rt made of CRATE at BUILT; another may be using the one before.
place() {
    mkdir -p "$(dirname "$2")"
    cp "$(made_of "$1")" "$2.$$"
    mv "$2.$$" "$2"
}

# build WORD CRATE BUILT TITLE: makes the file BUILT of CRATE, called TITLE, by `rt WORD` in the crate's folder. A program that `rt run` makes is
# run once, over no input.
build() {
    local log=$root/target/$2.log
    command -v rt >/dev/null || fail 1 "there is no rt on the path: install the Rattle kit"
    mkdir -p "$root/target"
    if ! (cd "$root/crates/$2" && rt "$1") </dev/null 2>&1 | tee "$log" | proved_crates | show_progress "$2" "$4"; then
        first_failure "$log" >&2
        fail 1 "$4 is not proved; $log has all that rt said"
    fi
    place "$2" "$3"
}
