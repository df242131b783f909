#!/bin/sh
# tests/help.sh PROGRAM: runs the examples that the program's help and that of each command show, in the order of the
# program's own help first: each has to end with status 0 and to say nothing on standard error but what is remarked on a job. Those that need sox are left
# out, and told, where it isn't installed. What `--explain` prints has to stand in the table of refusals of docs/COMMANDS.md, word for word.
#
# The last line is `N passed, M failed`, and the status 0 where none failed.

root=$(dirname "$(dirname "$(realpath "$0")")")
# shellcheck source=examples/words.sh
. "$root/examples/words.sh"
take_words 1 1 "$@"
program=$(realpath "$1") || exit 2
work=$(mktemp -d) || exit 2
trap 'rm -rf "$work"' EXIT
mkdir "$work/bin" "$work/here"
ln -s "$program" "$work/bin/aes3"
cp "$root/examples/speech.block" "$work/here"
PATH=$work/bin:$PATH

# The commands, and of a help text the lines below the heading that begins with Examples.
commands() { aes3 --help | sed -n '/^Commands:$/,/^$/s/^  \([a-z0-9-]*\) .*/\1/p'; }
examples() { sed -n '/^Examples/,$s/^    \([^ ].*\)/\1/p'; }

aes3 --help | examples >"$work/all"
for name in $(commands); do
    aes3 "$name" --help | examples >"$work/some"
    [ -s "$work/some" ] || { echo "aes3 $name --help has no examples" >&2; exit 1; }
    cat "$work/some" >>"$work/all"
done

# One shell for all, since an example may set a variable for the next.
cd "$work/here" || exit 2
passed=0 failed=0
remarks='^aes3: \(filled [0-9]* frames\|no block took .*\)$'
while IFS= read -r line; do
    case $line in
    *'| sox '*) command -v sox >/dev/null || { printf 'left out: %s\n' "of help: $line (sox is not installed)"; continue; } ;;
    esac
    eval "$line" >/dev/null 2>"$work/said" </dev/null && ! grep -qv "$remarks" "$work/said" && { passed=$((passed + 1)); continue; }
    failed=$((failed + 1))
    echo "$line" >&2
    cat "$work/said" >&2
done <"$work/all"
aes3 --explain | sed 's/^[0-9]*: //; s/^ *//' >"$work/sentences"
# In a table a bar is written so.
sed 's/\\|/|/g' "$root/docs/COMMANDS.md" >"$work/page"
while IFS= read -r sentence; do
    grep -qF -e "$sentence" "$work/page" && { passed=$((passed + 1)); continue; }
    failed=$((failed + 1))
    echo "not in docs/COMMANDS.md: $sentence" >&2
done <"$work/sentences"
echo "$passed passed, $failed failed"
[ "$failed" = 0 ] && [ "$passed" -gt 0 ]
