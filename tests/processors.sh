#!/bin/sh
# tests/processors.sh [PROGRAM]: the program as bin/build makes it for x86-64-v3, where this processor is one: the worked rows, the random runs and
# the thresholds on it, and what it writes of a recording beside what PROGRAM writes, in each form. It is built in a copy of this folder, over
# the libraries that are built here.
#
# The last line is `N passed, M failed`, and the status 0 where none failed.

root=$(dirname "$(dirname "$(realpath "$0")")")
# shellcheck source=examples/words.sh
. "$root/examples/words.sh"
take_words 0 1 "$@"
program=$(realpath -m "${1:-$root/crates/aes3/out/aes3}")
# shellcheck source=tests/judging.sh
. "$root/tests/judging.sh"
leave_out() {
    echo "left out: tests/processors.sh ($1)"
    tell
}
command -v rt >/dev/null || leave_out "rt is not installed"
command -v python3 >/dev/null || leave_out "python3 is not installed"
for feature in cx16 lahf_lm popcnt sse4_1 sse4_2 ssse3 avx avx2 bmi1 bmi2 f16c fma abm movbe xsave; do
    grep -q "^flags.* $feature\b" /proc/cpuinfo || leave_out "this processor is no x86-64-v3: it lacks $feature"
done

tree=$work/tree
mkdir "$tree"
cp -a "$root/bin" "$root/crates" "$root/crates.txt" "$tree"
# What is built there is that of these sources.
now=$(date +%s)
for rlib in "$tree"/crates/*/out/rlib; do
    [ ! -d "$rlib" ] || { : >>"$rlib/statements" && touch -d "@$((now + 1))" "$rlib/statements"; }
done
sleep 2
judge "the program is built for x86-64-v3" "$tree/bin/build" --cpu x86-64-v3 aes3
newer=$tree/crates/aes3/out/aes3
[ -x "$newer" ] || tell
judge "it is noted" [ "$(cat "$tree/crates/aes3/out/cpu")" = x86-64-v3 ]
judge "no library was built for it" sh -c "! grep -q ': begun, 2 of' '$work/said'"
judge "bin/aes3 runs it" sh -c "'$tree/bin/aes3' --version | cmp - - && [ \"\$('$tree/bin/aes3' --version)\" = \"\$('$program' --version)\" ]"
for test in rows.sh random.py thresholds.py; do
    judge "tests/$test" "$root/tests/$test" "$newer"
done

# The same bytes for the same input.
cd "$work" || exit 2
"$program" encode <"$root/examples/speech.block" >line
"$program" encode --packed-out <"$root/examples/speech.block" >packed
tr -d '\n' <line | fold -w 63 >ragged
head -c 300000 line >cut
head -c 4000000 /dev/urandom >noise
# same WORD.. <INPUT
same() {
    cat >input
    "$program" "$@" <input >first 2>first_said
    status=$?
    "$newer" "$@" <input >second 2>second_said
    [ $? = "$status" ] && cmp first second && cmp first_said second_said
}
for input in line ragged cut noise; do
    for words in check "check --gaps" scan normal decode to-pcm show "watch --json" "rewrite --set1 rate=48000"; do
        # shellcheck disable=SC2086 # they are words
        judge "$words of $input" same $words <$input
    done
done
for input in packed noise; do
    for words in check "check --gaps" scan normal decode to-pcm show "watch --json" "rewrite --set1 rate=48000" "normal --packed-out"; do
        # shellcheck disable=SC2086 # they are words
        judge "$words of $input, packed" same $words --packed-in <$input
    done
done
for words in encode "encode --packed-out"; do
    # shellcheck disable=SC2086 # they are words
    judge "$words" same $words <"$root/examples/speech.block"
done
for form in s32 s24 s24in32 s16; do
    judge "from-pcm of $form" same from-pcm --pcm $form <noise
done
tell
