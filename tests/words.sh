#!/bin/sh
# tests/words.sh: each script of bin/, tests/, examples/, web/ and bench/ says with --help what it does, and with a word that it does not
# know it does nothing, shows its usage and ends with status 2: also where it is called by a link in another folder.
#
# The last line is `N passed, M failed`, and the status 0 where none failed.

root=$(dirname "$(dirname "$(realpath "$0")")")
# shellcheck source=examples/words.sh
. "$root/examples/words.sh"
take_words 0 0 "$@"
# shellcheck source=tests/judging.sh
. "$root/tests/judging.sh"

cd "$root" || exit 2
# All that can be run. bin/aes3 and its kin give every word on to the program, and have it built first.
find bin tests examples web bench -type f -perm -u+x ! -path '*/target/*' | grep -v '^bin/aes3' | sort >"$work/scripts"
judge "some are found" [ "$(wc -l <"$work/scripts")" -gt 40 ]
mkdir "$work/an empty folder"
cd "$work/an empty folder" || exit 2

helps() {
    "$1" --help >"$work/out" 2>"$work/err" </dev/null || return 1
    cat "$work/err"
    [ ! -s "$work/err" ] && [ "$(wc -w <"$work/out")" -ge 8 ] && [ -z "$(ls -A)" ]
}
rejects() {
    "$1" --no-such-word >"$work/out" 2>"$work/err" </dev/null
    got=$?
    cat "$work/out" "$work/err"
    [ $got = 2 ] && [ ! -s "$work/out" ] && grep -qi '^usage: ' "$work/err" && [ -z "$(ls -A)" ]
}
while IFS= read -r script; do
    case $script in
        # They need more than themselves to begin: examples/python/test.sh tries these.
        examples/python/*.py) continue ;;
        tests/captures/*.py | tests/*.py | bin/* | web/* | bench/*)
            if head -n 1 "$root/$script" | grep -q python3 && ! command -v python3 >/dev/null; then
                echo "left out: the words of $script (python3 is not installed)"
                continue
            fi
            if grep -q '^import numpy' "$root/$script" && ! python3 -c 'import numpy' 2>/dev/null; then
                echo "left out: the words of $script (numpy is not installed)"
                continue
            fi
            ;;
    esac
    judge "$script --help" helps "$root/$script"
    ln -sf "$root/$script" "$work/a link"
    judge "$script --help, by a link" helps "$work/a link"
    case $script in
        # Each other word is for rt, and any but an option is a command and what it watches.
        bin/rt) ;;
        *) judge "$script --no-such-word" rejects "$root/$script" ;;
    esac
done <"$work/scripts"
tell
