#!/bin/sh
# tests/pages.sh [PROGRAM]: examples of pages that no other test runs, as they are there. How the block files of examples/README.md were
# made gives these files. The commands that docs/PERFORMANCE.md measures by run on inputs of some blocks, so nothing is measured. PROGRAM is that of
# bin/build if none is given.
#
# The last line is `N passed, M failed`, and the status 0 if none failed.

root=$(dirname "$(dirname "$(realpath "$0")")")
# shellcheck source=examples/words.sh
. "$root/examples/words.sh"
take_words 0 1 "$@"
program=$(realpath -m "${1:-$root/crates/aes3/out/aes3}")
library=$root/crates/aes3_c/out/libaes3_c.a
# shellcheck source=tests/judging.sh
. "$root/tests/judging.sh"
leave_out() { echo "left out: $1 ($2)"; }
cd "$work" || exit 2

# The block files.
book=$root/examples/README.md
sed -n 's/.*made by `\(head [^`]*\)`.*/\1/p' "$book" >zero.sh
judge "examples/README.md makes zero.block" sh -c 'sh -e ./zero.sh && cmp zero.block "$1"' - "$root/examples/zero.block"
sed -n '/^## How speech.block was made$/,/^## What was checked$/p' "$book" | sed -n '/^```sh$/,/^```$/p' | grep -v '^```' >speech.sh
judge "examples/README.md has commands that make speech.block" test -s speech.sh
lacks=
for tool in espeak-ng sox aplay python3; do command -v $tool >/dev/null || lacks="$tool is not installed"; done
# Another version speaks in another way.
[ -n "$lacks" ] || espeak-ng --version | grep -q ' 1\.51 ' || lacks="espeak-ng is not 1.51"
if [ -n "$lacks" ]; then
    leave_out "how examples/speech.block was made" "$lacks"
else
    mkdir speech
    judge "examples/README.md makes speech.block" sh -c 'cd speech && sh -e ../speech.sh && cmp speech.block "$1"' - "$root/examples/speech.block"
fi

# The commands that measure: each row of their table, with the paths of a clone and an input that takes a second or two.
book=$root/docs/PERFORMANCE.md
sed -n '/^## How to measure$/,/^## Each command$/s/^| \(`bench[^|]*\) |.*/\1/p' "$book" | grep -o '`[^`]*`' | tr -d '`' >measures
judge "$book has commands" test "$(wc -l <measures)" -ge 7
# runs COMMAND: it writes a table. A program that is slow on so small an input, beside other work, is no failure; another output is one.
runs() {
    (cd "$root" && sh -c "$1") >table 2>told
    status=$?
    cat told
    grep -q '^|' table && { [ $status = 0 ] || { [ $status = 1 ] && ! grep -q -v ' is below ' told; }; }
}
while IFS= read -r command; do
    why=
    case $command in
        "bench/forms "*--library*) small="--mb 1 --reps 1" && [ -e "$library" ] || why="there is no C library: bin/build aes3_c" ;;
        "bench/forms "*--instructions* | "bench/captures "*) why="it takes a quarter of a minute or more, also on a small input" ;;
        "bench/shapes "*) small="--cells 0.1 --reps 1 --floor 0 --only 63" ;;
        "bench/python"*) small="--blocks 20 --runs 1" && [ -e "$library" ] || why="there is no C library: bin/build aes3_c" ;;
        "bench/sigrok"*) small="--blocks 4 --runs 1" && [ -e "$library" ] && /usr/bin/python3 -c 'import numpy' 2>/dev/null && command -v sigrok-cli >/dev/null || why="it needs the C library, sigrok-cli and numpy" ;;
        "bench/run "*) small="--turns 1 --only changed-blocks" && [ -x "$root/crates/aes3_workloads/out/aes3_workloads" ] || why="there is no aes3_workloads: bin/build aes3_workloads" ;;
        *) small='' ;;
    esac
    if [ -n "$why" ]; then
        leave_out "$command" "$why"
        continue
    fi
    typed=$(echo "$command" | sed "s|crates/aes3/out/aes3|$program|; s|libaes3_c.a|$library|; s| PROGRAM| $program|; s| OLD NEW \[SEED\]| $root $root 1|")
    judge "$command, with $small" runs "$typed $small"
done <measures
tell
