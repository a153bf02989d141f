# What the tests beside this file share. They read it; it is no test itself.
#
# A test is called as `tests/NAME SOURCE_DIR`, where SOURCE_DIR holds the crate's src/. It prints counts. Status: 0 passed;
# 77 what could be run passed, and lines `skipped: ..` say what could not; anything else failed.

root=$(cd "$(dirname "${BASH_SOURCE[0]}")/.." && pwd) || exit 1
test=$(basename "$0")
source_dir=${1:-${MEZZULIDDA_SOURCE:-$root/../shared/docs/src}}
[[ $source_dir = /* ]] || source_dir=$PWD/$source_dir
work=$(mktemp -d) || exit 1
trap 'rm -rf "$work"' EXIT
# a test is about the library that is proved and built here
unset MEZZULIDDA_LIB_DIR
# the processor; no program is wanted for it, and nothing that whoever calls has set
machine=${BASH_VERSINFO[5]%%-*}

wrong=0
say() {
    echo "$test: $1"
    wrong=$((wrong + 1))
}

# Something of the test can't be run here.
skips=0
skip() {
    echo "skipped: $1"
    skips=$((skips + 1))
}

# Ends the test by what was said.
end() {
    [ "$wrong" -eq 0 ] || exit 1
    [ "$skips" -eq 0 ] || exit 77
    exit 0
}

# Before a check judges the tree it shows that it sees what is wrong: the function CHECK, run in a tree with planted faults,
# says each LINE and nothing else.
finds() {
    local check=$1 tree=$2
    shift 2
    (cd "$tree" && "$check") > "$work/found" 2>&1
    diff <([ $# -eq 0 ] || printf "$test: %s\n" "$@" | sort) <(sort "$work/found") > "$work/missed" && return
    say "$check does not find what was planted (<), or says something else (>):"
    grep '^[<>]' "$work/missed"
    exit 1
}

# Each line of one sorted list is in another: the lists, and what is said of a line that isn't.
within() {
    local name
    while read -r name; do say "$name $3"; done < <(comm -23 "$1" "$2")
}

# Whether the crate's source is all there.
has_source() {
    "$root/oracle/build" --check --source "$source_dir" 2> "$work/err"
}

# Without the crate's source nothing of the test can be run.
need_source() {
    has_source && return
    skip "$(sed "s/^[^ ]*: //" "$work/err")"
    end
}

# The static library, as $library.
need_library() {
    library=$("$root/library/build" 2> "$work/err") && return
    say "$(tail -n 1 "$work/err")"
    end
}

# The library that cargo finds by itself. One is kept for x86-64 alone: on another processor it is told of the one for this machine.
need_kept() {
    [ "$machine" != x86_64 ] || return 0
    need_library
    MEZZULIDDA_LIB_DIR=$(dirname "$library")
    export MEZZULIDDA_LIB_DIR
}

# A command whose output is kept in $work/out, and shown with the words before it where it fails.
holds() {
    local what=$1
    shift
    "$@" > "$work/out" 2> "$work/err" < /dev/null && return
    cat "$work/out"
    tail -n 20 "$work/err"
    say "$what failed"
    return 1
}

# A wrong use of a program has the status that it has everywhere.
misuse() {
    local status=0
    "$1" --nope > "$work/out" 2>&1 < /dev/null || status=$?
    [ "$status" -eq 2 ] || say "'$(basename "$1") --nope' has status $status, not 2"
}

# One of the comparisons with the crate, in its bounded part: its last line counts. It says where it is on the way.
compare() {
    need_source
    need_library
    if holds "the comparison of $1" "$root/comparison/run" --source "$source_dir" "$library" "$1"; then
        tail -n 1 "$work/out"
        misuse "$root/target/compare/$1"
        grep -qE "^$1: .*(part 1 of [0-9]+: | agrees, )" "$work/err" || say 'it does not say where it is'
    fi
    end
}
