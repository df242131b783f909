#!/bin/sh
# tests/all.sh [PROGRAM]: all that is run with a built program, that of bin/aes3 if none is given: how bin/aes3 and bin/build have it built, the worked rows, the machine's own
# streams, refused memory, the examples of help, README, tutorial and docs/COMMANDS.md and of other pages, the manual page, the shells' completions, the pictures,
# the figures and the links of the books, captures with jitter and in the files of other programs, errors put in on purpose, round trips with other programs, the examples from C (also
# for 64-bit ARM), C++, Python and Rust, the reference of the C calls, and of the page in a browser, and the Debian packages in a root of their own.
#
# The C library is built first, if it is not there. Each part has folders of its own, and each processor runs one part at a time. A part
# prints what fails, `left out: WHAT (WHY)` if something it needs is not installed, `N passed, M failed`, and its seconds. At the end
# all that was left out is printed once more. The last line is the sum; the status is 1 if something failed.

root=$(dirname "$(dirname "$(realpath "$0")")")
# shellcheck source=examples/words.sh
. "$root/examples/words.sh"
take_words 0 1 "$@"
cd "$root" || exit 2
if [ $# -gt 0 ]; then
    program=$(realpath "$1") || exit 2
else
    bin/aes3 --version || exit 2
    program=$root/crates/aes3/out/aes3
fi
folder=$(mktemp -d) || exit 2
trap 'rm -rf "$folder"' EXIT
trap 'kill $running 2>/dev/null; exit 130' INT TERM
passed=0 failed=0 parts=0 running=
: >"$folder/left"

# A line in it for each part that may begin.
mkfifo "$folder/places"
exec 3<>"$folder/places"
for _ in $(seq "$(nproc)"); do echo; done >&3

# Begins a part, once there is a place for it.
part() {
    parts=$((parts + 1))
    echo "== $*" >"$folder/$parts.name"
    read -r _ <&3
    {
        begun=$(date +%s)
        "$@" >"$folder/$parts.said" 2>&1 </dev/null 3>&-
        echo $? >"$folder/$parts.status"
        echo "($(($(date +%s) - begun)) s)" >"$folder/$parts.seconds"
        echo >&3
    } &
    running="$running $!"
}

# part_with TOOL COMMAND..: a part that needs a tool.
part_with() {
    tool=$1
    shift
    if command -v "$tool" >/dev/null; then
        part "$@"
    else
        echo "left out: $1 ($tool is not installed)" | tee -a "$folder/left"
    fi
}

# Shows what a part said, and counts what it counted. One that ended without a count has failed.
tell() {
    cat "$folder/$1.name" "$folder/$1.said" "$folder/$1.seconds"
    status=$(cat "$folder/$1.status")
    grep '^left out: ' "$folder/$1.said" >>"$folder/left"
    counts=$(grep -E '^[0-9]+ passed, [0-9]+ failed$' "$folder/$1.said" | tail -n 1)
    wrong=${counts#* passed, }
    wrong=${wrong% failed}
    if [ -z "$counts" ] || { [ "$status" != 0 ] && [ "$wrong" = 0 ]; }; then
        echo "FAILED: this ended with status $status"
        counts=${counts:-0} wrong=1
    fi
    passed=$((passed + ${counts%% *}))
    failed=$((failed + wrong))
}

# With that for x86-64-v3, which is installed and packed beside it.
library() {
    bin/library-for x86-64-v3 && echo "1 passed, 0 failed"
}

part_with rt library
library=${running##* }
part tests/words.sh
part_with python3 tests/build.sh
part_with rt tests/lemma.sh
part tests/launch.sh
part tests/rows.sh "$program"
part tests/streams.sh "$program"
part_with python3 tests/messages.sh "$program"
part tests/help.sh "$program"
part tests/readme.sh "$program"
part_with cc tests/allocations.sh "$program"
part_with python3 tests/random.py "$program"
part_with python3 tests/info.py "$program"
part_with python3 tests/wave.py "$program"
part_with python3 tests/thresholds.py "$program" "$root/crates/aes3_cells_program/out/aes3_cells_program"
part_with python3 tests/places.py "$program" "$root/crates/aes3_cells_program/out/aes3_cells_program"
part_with python3 bin/make-manual --check "$program"
part_with python3 bin/make-reference --check
part tests/manual.sh
part_with python3 tests/completions.py "$program"
part_with python3 tests/pictures.py "$root/crates/aes3_cells_program/out/aes3_cells_program" "$program"
part tests/captures.sh "$root/crates/aes3_cells_program/out/aes3_cells_program" "$program"
part tests/other_files.sh "$program" "$root/crates/aes3_cells_program/out/aes3_cells_program"
part tests/capture_files.sh "$program" "$root/crates/aes3_cells_program/out/aes3_cells_program"
part tests/spoil.sh "$root/crates/aes3_spoil_program/out/aes3_spoil_program" "$program"
part_with python3 bin/figures --check
part_with python3 tests/links
part_with python3 examples/pictures/make --check "$program"
part_with python3 examples/neighbours/run "$program"
part examples/many/run "$program" 20
part tests/examples.sh "$program"
part tests/machines.sh "$program"
part_with rt tests/processors.sh "$program"
part examples/spoil/run "$program"
part_with python3 examples/watch/run "$program"
part_with python3 examples/own/run

# Behind the C library those over it; for 64-bit ARM it is proved anew, and the packages wait for a mirror.
[ -z "$library" ] || wait "$library"
part_with python3 web/test "$program" # it compares the page with the library, if that is there
part tests/pages.sh "$program"
if [ -e crates/aes3_c/out/libaes3_c.a ]; then
    part tests/packages.sh
    part examples/c/arm.sh "$program"
    part examples/c/test.sh "$program"
    part_with python3 examples/cpp/test.sh "$program"
    part_with python3 examples/python/test.sh "$program"
    part_with python3 tests/python.sh
    part_with cargo examples/rust/test.sh "$program"
    part tests/recover.sh "$program"
    part_with cc tests/install.sh
    part_with sigrok-cli tests/sigrok.sh "$program" "$root/crates/aes3_cells_program/out/aes3_cells_program"
else
    echo "left out: examples/c/test.sh, examples/c/arm.sh and those of cpp, python and rust, tests/recover.sh, tests/python.sh, tests/install.sh, tests/packages.sh, tests/sigrok.sh (no C library is built: bin/build aes3_c)" | tee -a "$folder/left"
fi

number=0
for pid in $running; do
    number=$((number + 1))
    wait "$pid"
    tell "$number"
done
[ ! -s "$folder/left" ] || { echo "== left out" && cat "$folder/left"; }
echo "$passed passed, $failed failed"
[ "$failed" = 0 ]
