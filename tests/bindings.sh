# shellcheck shell=bash
# What tests/check-c and tests/check-rust share, sourced by both: the counts, the archive, and
# the replay of every committed journal.
# OBERKOSZ_LIB names a folder with liboberkosz.a or libshelf.a; without it the archive is
# target/staticlib/libshelf.a, and is made if it is not there.
root=$(cd "$(dirname "$0")/.." && pwd) || exit 1
work=$(mktemp -d) || exit 1
trap 'rm -rf "$work"' EXIT
passed=0
failed=0

# told NAME STATUS FILE: a step went well; if not, what it wrote
told() {
    if [ "$2" -eq 0 ]; then
        passed=$((passed + 1))
    else
        failed=$((failed + 1))
        echo "FAULT: $1: $(tail -20 "$3")"
    fi
}

# held NAME EXPECTED FOUND: two files are the same
held() {
    cmp "$2" "$3" >"$work/difference" 2>&1
    told "$1" $? "$work/difference"
}

# counted: the last line, and the end
counted() {
    echo "$passed passed, $failed failed"
    [ "$failed" -eq 0 ]
    exit
}

# needed PROGRAM: without it there is nothing to hold here
needed() {
    command -v "$1" >/dev/null && return
    echo "skipped: there is no program '$1'"
    counted
}

# find_archive: sets archive, and OBERKOSZ_LIB to its folder
find_archive() {
    if [ -z "${OBERKOSZ_LIB:-}" ]; then
        OBERKOSZ_LIB=$root/target/staticlib
        if [ ! -f "$OBERKOSZ_LIB/libshelf.a" ]; then
            echo "making target/staticlib/libshelf.a: the first time this takes some ten minutes"
            "$root/tools/library" "$OBERKOSZ_LIB/libshelf.a" >"$work/messages" 2>&1
            told "tools/library" $? "$work/messages"
        fi
    fi
    # cargo runs elsewhere
    OBERKOSZ_LIB=$(realpath -m "$OBERKOSZ_LIB")
    export OBERKOSZ_LIB
    for archive in "$OBERKOSZ_LIB"/lib{oberkosz,shelf}.a; do
        [ -f "$archive" ] && return
    done
    echo "there is no liboberkosz.a and no libshelf.a" >"$work/messages"
    told "$OBERKOSZ_LIB" 1 "$work/messages"
    counted
}

# replays PROGRAM: every suite, the examples and the lettuce house, to the committed answers
replays() {
    local journal answers
    for journal in "$root"/tests/{suites,examples}/*.journal "$root"/examples/*.journal; do
        answers=${journal%.journal}.answers
        [ -f "$answers" ] || answers=$root/tests/examples/$(basename "$answers")
        "$1" <"$journal" >"$work/out" 2>"$work/messages"
        told "replay of $(basename "$journal") ends well" $? "$work/messages"
        held "replay of $(basename "$journal")" "$answers" "$work/out"
    done
}
