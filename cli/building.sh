# Sourced by ./run, ./snowdell and ./install: builds the listing program, the library and the command line, where one is missing
# or a source is newer. They set `root`, the repository, and `me`, the name that messages begin with.
#
# SNOWDELL_LIB names a folder with a libsnowdell.a that is used as it is, and never built.
# shellcheck shell=bash
# shellcheck disable=SC2154 # root and me

# The status of every trouble: usage, input and output, something missing, a build that failed.
readonly TROUBLE=2
# So many lines of a log are shown where a build has failed.
readonly LAST_LINES=12

if [ -n "${SNOWDELL_LIB-}" ]; then
    case $SNOWDELL_LIB in /*) ;; *) SNOWDELL_LIB=$PWD/$SNOWDELL_LIB ;; esac
    export SNOWDELL_LIB
else
    unset SNOWDELL_LIB
fi
list=$root/target/bin/list
library=${SNOWDELL_LIB-$root/target/staticlib}/libsnowdell.a
program=$root/cli/target/release/snowdell
# Says which SNOWDELL_LIB the program was built with; not there if with none.
linked=$root/cli/target/release/snowdell.lib
# Locked while something is built, and as old as the build's beginning.
began=$root/target/.building
# What they are made from, in the repository.
engine_sources=(crates crates.txt)
program_sources=(cli/src cli/Cargo.toml cli/Cargo.lock docs/REFUSALS.md wrapper/src wrapper/Cargo.toml wrapper/build.rs "$library")

say() { echo "$me: $*" >&2; }

die() {
    say "$@"
    exit "$TROUBLE"
}

# A text as it can be shown at any terminal: bytes that are not printable ASCII as \x...
shown() {
    local LC_ALL=C text=$1 shown='' byte i
    for ((i = 0; i < ${#text}; i++)); do
        byte=${text:i:1}
        case $byte in [!\ -~]) printf -v byte '\\x%02x' "'$byte" ;; esac
        shown+=$byte
    done
    printf '%s' "$shown"
}

# Is there a file or folder among these of the repository for which a test of `find` holds? SOURCE.. TEST.. What rt keeps in a
# crate's out/ is no source; nor is the crate's folder, which changes when rt makes that.
any_source() {
    local sources=()
    while [[ $1 != [-\(]* ]]; do
        sources+=("$1")
        shift
    done
    [ -n "$(cd "$root" && exec find "${sources[@]}" -path 'crates/*/out' -prune -o \
        ! \( -type d -path 'crates/*' ! -path 'crates/*/*' \) \( "$@" \) -print -quit 2>/dev/null)" ]
}

list_is_fresh() {
    [ -x "$list" ] && ! any_source "${engine_sources[@]}" -newer "$list"
}

library_is_fresh() {
    [ -e "$library" ] && { [ -n "${SNOWDELL_LIB-}" ] || ! any_source "${engine_sources[@]}" -newer "$library"; }
}

# The program, and the library that is in it. Every start asks this, so one `find` has to do for all sources.
program_is_fresh() {
    local sources=("${program_sources[@]}") named=''
    [ -x "$program" ] && [ -e "$library" ] || return 1
    [ ! -e "$linked" ] || IFS= read -r named <"$linked"
    [ "$named" = "${SNOWDELL_LIB-}" ] || return 1
    [ -n "$named" ] || sources+=("${engine_sources[@]}")
    ! any_source "${sources[@]}" \( -newer "$program" -o -path 'crates*' -newer "$library" \)
}

# Ends with a line where the tool that builds a file is not there: FILE TOOL WHAT-IT-IS
needs() {
    command -v "$2" >/dev/null && return
    local state="is not built"
    [ ! -e "$1" ] || state="is older than its sources"
    die "$(shown "${1#"$root"/}") $state, and $2 ($3) is not on the path"
}

# One build at a time, where flock is there: another one is waited for.
lock() {
    mkdir -p "$root/target" 2>/dev/null
    { exec 9>>"$began"; } 2>/dev/null || die "$(shown "$root/target"): cannot be written"
    command -v flock >/dev/null || return 0
    flock -n 9 && return
    say "waiting for another build"
    flock 9
}

unlock() { exec 9>&-; }

# Of a build's output: a line for each crate that is proved, or nothing.
crates() {
    local LC_ALL=C line crate=''
    while IFS= read -r line; do
        case $line in
        'crate '*:*) crate=${line#crate } ;;
        'logic=proved '*) echo "rt: ${crate%%:*} proved" >&2 ;;
        esac
    done
}
nothing() { cat >/dev/null; }

# Builds a file by a command, of whose output SHOW leaves something, for standard error: FILE LOG SHOW COMMAND..
build() {
    local file=$1 log=target/$2 show=$3 status
    shift 3
    touch "$began"
    (cd "$root" && "$@") </dev/null 2>&1 | tee "$root/$log" | "$show"
    status=${PIPESTATUS[0]}
    [ "$status" -eq 0 ] && [ -e "$file" ] && return
    say "'$*' failed with status $status; all that it said is in $log, which ends so:"
    tail -n "$LAST_LINES" "$root/$log" >&2
    exit "$TROUBLE"
}

# What was built is as new as its sources; but where one was changed during the build it is older: FILE SOURCE..
settle() {
    if any_source "${@:2}" -newer "$began"; then touch -r "$began" "$1"; else touch "$1"; fi
}

build_list() {
    needs "$list" rt "the Rattle kit"
    lock
    if ! list_is_fresh; then
        say "proving and building the listing program; the first time it takes minutes"
        build "$list" build-list.log crates tools/build list
        settle "$list" "${engine_sources[@]}"
    fi
    unlock
}

build_library() {
    build "$library" build-library.log nothing tools/build library
    settle "$library" "${engine_sources[@]}"
}

# The program and, where it is stale, its library.
build_program() {
    local what="the program"
    if ! library_is_fresh; then
        [ -z "${SNOWDELL_LIB-}" ] || die "SNOWDELL_LIB names $(shown "$SNOWDELL_LIB"), and there is no libsnowdell.a"
        needs "$library" rt "the Rattle kit"
        what="the library, which the first time takes minutes, and the program"
    fi
    needs "$program" cargo "the Rust toolchain"
    lock
    if ! program_is_fresh; then
        say "building $what"
        library_is_fresh || build_library
        build "$program" build-program.log nothing cargo build --release --offline --manifest-path cli/Cargo.toml --target-dir cli/target
        settle "$program" "${program_sources[@]}"
        if [ -n "${SNOWDELL_LIB-}" ]; then echo "$SNOWDELL_LIB" >"$linked"; else rm -f "$linked"; fi
    fi
    unlock
}
