#!/bin/sh
# tests/rows.sh PROGRAM [FILE..]: worked command lines. Runs the program on the rows of tests/rows and compares all that it writes, byte for
# byte. It prints a line for each row that fails, and then `N passed, M failed`.
#
# A row is a name, then indented lines, and ends at an empty line:
#
#   in RECIPE       the input
#   from FILE       this file as input
#   to FILE         this file as output, of which nothing is compared
#   run WORDS       the words of a command line, as the shell reads them
#   out RECIPE      the output; `any` where it must only not be empty. With no such line: nothing
#   err TEXT        the line on standard error behind `aes3: `; `any` where it must not be empty nor a refusal. Else: nothing; more than one: as many
#                   lines
#   status N        the exit status. With no such line: 0
#   unread          the program leaves its input unread
#
# A row may have several runs on one input. Recipes are shell commands; those of tests/recipes.sh write cells, words and
# lines from the line code, so that no expected value comes from the program. Where a recipe calls `aes3`, the row is a round
# trip. `sum N LEN` as output gives the cksum and the length of the output, as an encoder of its own in Python made them.

root=$(dirname "$(dirname "$(realpath "$0")")")
# shellcheck source=examples/words.sh
. "$root/examples/words.sh"
take_words 1 100 "$@"
program=$(realpath "$1") || exit 2
shift
here=$(dirname "$(realpath "$0")")
[ -x "$program" ] || {
    echo "rows.sh: $program is no program" >&2
    exit 2
}

# shellcheck source=tests/recipes.sh
. "$here/recipes.sh"
# shellcheck disable=SC2034 # for the recipes of rows
examples=$here/../examples

newline='
'

aes3() { "$program" "$@" 2>/dev/null; }
sum() { :; }

fail() {
    failed=$((failed + 1))
    echo "FAIL $file: $name: $words: $1"
}

# Runs the words on the input in hand and compares.
judge() {
    [ -n "$is_run" ] || return 0
    is_run=
    eval "set -- $words"
    {
        "$program" "$@" >"$to"
        got=$?
        [ -z "$unread" ] || cat >"$work/rest"
    } <"$from" 2>"$work/err"
    if [ $got != "$status" ]; then
        fail "status $got, not $status: $(head -n 1 "$work/err")"
    elif ! is_written; then
        fail "the output is not right: $(cmp "$work/out" "$work/want" 2>&1 | sed 's/.*: //')"
    elif ! is_told; then
        fail "standard error: $(head -n 1 "$work/err")"
    elif [ -n "$unread" ] && ! cmp -s "$work/rest" "$work/in"; then
        fail "the input was read"
    else
        passed=$((passed + 1))
    fi
}

is_written() {
    [ "$to" = "$work/out" ] || return 0
    case $out in
    any) [ -s "$work/out" ] ;;
    sum\ *) [ "$(cksum <"$work/out")" = "${out#sum }" ] ;;
    *)
        (eval "$out") >"$work/want" </dev/null
        cmp -s "$work/out" "$work/want"
        ;;
    esac
}

is_told() {
    case $err in
    any) [ -s "$work/err" ] && ! grep -q '^aes3: refused' "$work/err" ;;
    '') [ ! -s "$work/err" ] ;;
    *) echo "aes3: $err" | cmp -s - "$work/err" ;;
    esac
}

begin_run() {
    judge
    is_run=yes words=$1 out=: err='' status=0 unread=''
}

read_row() {
    key=${1%%[ ]*}
    value=${1#"$key"}
    value=${value#"${value%%[! ]*}"}
    case $key in
    in)
        (eval "$value") >"$work/in" </dev/null
        from=$work/in
        ;;
    from) from=$value ;;
    to) to=$value ;;
    run) begin_run "$value" ;;
    out) out=$value ;;
    err) err=${err:+$err${newline}aes3: }$value ;;
    status) status=$value ;;
    unread) unread=yes ;;
    *)
        echo "rows.sh: $file: what is '$1'?" >&2
        exit 2
        ;;
    esac
}

run_file() {
    file=$(basename "$1")
    is_run='' name=''
    while IFS= read -r line <&3; do
        case $line in
        '#'*) ;;
        '') judge ;;
        ' '*) read_row "${line#"${line%%[! ]*}"}" ;;
        *)
            judge
            name=$line from=/dev/null to=$work/out
            ;;
        esac
    done 3<"$1"
    judge
}

[ $# -gt 0 ] || set -- "$here"/rows/*.txt
for each; do
    run_file "$each"
done
echo "$passed passed, $failed failed"
[ $failed = 0 ]
