#!/bin/sh
# tests/allocations.sh PROGRAM [TESTS NAME]..: refuses each allocation of some command lines in turn, by a malloc that is preloaded
# (refuse_allocation.c, built with cc). It prints a line for each wrong answer, and then `N passed, M failed`.
#
# Each refused allocation must be told as refusal 8, with nothing written, or change nothing. Of a program of tests, as `rt test`
# leaves it in a crate's out/, the test NAME must pass whichever allocation is refused.

root=$(dirname "$(dirname "$(realpath "$0")")")
# shellcheck source=examples/words.sh
. "$root/examples/words.sh"
take_words 1 100 "$@"
program=$(realpath "$1") || exit 2
shift
here=$(dirname "$(realpath "$0")")

# shellcheck source=tests/recipes.sh
. "$here/recipes.sh"
export REFUSED_MARK="$work/mark"
"${CC:-cc}" -shared -fPIC -O1 -o "$work/refuse.so" "$here/refuse_allocation.c" -ldl || exit 2

# Runs a command with the allocation of a number refused, and answers whether there was one.
refused() {
    rm -f "$REFUSED_MARK"
    export REFUSED_ALLOCATION="$1"
    shift
    LD_PRELOAD=$work/refuse.so "$@" <"$work/zero" >"$work/out" 2>"$work/err"
    got=$?
    [ -e "$REFUSED_MARK" ]
}

is_told() {
    [ $got = 3 ] && [ ! -s "$work/out" ] && echo 'aes3: refused 8' | cmp -s - "$work/err"
}

is_undisturbed() {
    [ $got = $wanted ] && cmp -s "$work/out" "$work/out.wanted" && cmp -s "$work/err" "$work/err.wanted"
}

# Judges a command with each of its allocations refused: by being undisturbed, or by the answer of another function.
in_turn() {
    or_else=$1
    shift
    "$@" <"$work/zero" >"$work/out.wanted" 2>"$work/err.wanted"
    wanted=$?
    number=1
    while refused $number "$@"; do
        if is_undisturbed || $or_else; then
            passed=$((passed + 1))
        else
            failed=$((failed + 1))
            echo "FAIL allocation $number of $*: status $got: $(head -n 1 "$work/err")"
        fi
        number=$((number + 1))
    done
}

in_turn is_told "$program" cut 1 0
in_turn is_told "$program" rewrite --status1 010000000000000000000000000000000000000000000000 --mend-check
in_turn is_told "$program" rewrite --set1 rate=48000 --set1 emphasis=none --set2 word=16
in_turn is_told "$program" rewrite --set2 rate=47000
in_turn is_told "$program" encode --packed-out
while [ $# -gt 1 ]; do
    in_turn false "$(realpath "$1")" "$2"
    shift 2
done
echo "$passed passed, $failed failed"
[ $failed = 0 ]
