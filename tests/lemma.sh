#!/bin/sh
# tests/lemma.sh: the steps of CONTRIBUTING.md, "The first lemma", in a copy: each file as it is there, each command, and what it is said
# to print, up to the proof. Then the commands of "A day's work" and "What a proof costs". It takes some minutes, and needs rt and python3.
#
# The last line is `N passed, M failed`, and the status 0 where none failed.

root=$(dirname "$(dirname "$(realpath "$0")")")
# shellcheck source=examples/words.sh
. "$root/examples/words.sh"
take_words 0 0 "$@"
# shellcheck source=tests/judging.sh
. "$root/tests/judging.sh"
for tool in rt python3; do
    command -v $tool >/dev/null || { echo "left out: the first lemma ($tool is not installed)" && tell; }
done

# A repository with the crates that the new one stands on, and what is built of them.
mkdir -p "$work/clone/bin" "$work/parts"
cd "$work/clone" || exit 2
cp "$root/bin/build" "$root/bin/rt" bin
cp "$root/HANDLES" .
section() { sed -n '/^## The first lemma$/,/^## What a proof costs$/p' "$root/CONTRIBUTING.md"; }
row=$(section | grep -o '`wires: [a-z0-9_ ]*`' | tr -d '`')
judge "a line for crates.txt" test -n "$row"
# shellcheck disable=SC2046 # they are words
set -- $(python3 - "$root/bin/build" ${row#*:} <<'END'
import importlib.machinery, importlib.util, sys

sys.dont_write_bytecode = True
loader = importlib.machinery.SourceFileLoader("build", sys.argv[1])
build = importlib.util.module_from_spec(importlib.util.spec_from_loader("build", loader))
loader.exec_module(build)
print(*build.Crates().wanted(sys.argv[2:]))
END
)
for name in "$@"; do
    sed 's/#.*//' "$root/crates.txt" | grep "^$name *:" >>crates.txt
    mkdir -p "crates/$name/out"
    for part in src specs proofs out/rlib out/sums; do
        [ ! -e "$root/crates/$name/$part" ] || cp -rp "$root/crates/$name/$part" "crates/$name/$part"
    done
done
echo "$row" >>crates.txt
judge "bin/build $*" bin/build "$@"

# The blocks of the section, each by its first line, without their indent, and the commands of the numbered steps.
section | python3 -c '
import re, sys, textwrap

text = sys.stdin.read()
for block in re.findall(r"(?:^(?: {4,}.*)?\n)+", text, re.M):
    block = textwrap.dedent(block).strip("\n")
    names = {"-- The two wires": "Wires", "//! What": "lib", "-- Lines with": "Turned", "use Rattle.wires.proofs.Turned": "Answers"}
    for begins, name in names.items():
        if block.startswith(begins):
            open(f"{sys.argv[1]}/{name}", "w").write(block + "\n")
for number, command in re.findall(r"^(\d)\. `([^`]+)`", text, re.M):
    open(f"{sys.argv[1]}/{number}", "w").write(command + "\n")
' "$work/parts"
wires=crates/wires
mkdir -p "$wires/specs" "$wires/src"
section | sed -n 's/^`crates\/wires\/specs\/Lib.antt` has the line `\([^`]*\)`.*/\1/p' >"$wires/specs/Lib.antt"
judge "the statement" cp "$work/parts/Wires" "$wires/specs/Wires.antt"
judge "the function" cp "$work/parts/lib" "$wires/src/lib.rt"
judge "specs/Lib.antt" grep -qx 'pub mod Wires' "$wires/specs/Lib.antt"

# step NUMBER STATUS: its command in the crate's folder ends with that status, or with any but 0.
step() {
    read -r command <"$work/parts/$1" || return 1
    (cd "$wires" && eval "$command") >"$work/step" 2>&1 </dev/null
    got=$?
    cat "$work/step"
    if [ "$2" = 0 ]; then [ $got = 0 ]; else [ $got != 0 ]; fi
}
judge "step 1" step 1 other
judge "step 1 prints what it says" grep -q 'no proof: .*`search` did not prove `returns`' "$work/step"
judge "step 2" step 2 any
judge "step 2 writes the answers" grep -qx 'returns c = ?' "$wires/proofs/wires_exchange/Answers.antt"
judge "step 2 prints what has to be proved" grep -q 'names you can use' "$work/step"
judge "step 3 names the lemma" sh -c 'rt lemma map append ++ | grep -q "map-append"'
judge "step 4" cp "$work/parts/Turned" "$wires/proofs/Turned.antt"
section | sed -n 's/.*with `\(mod Turned\)` in `proofs\/Lib.antt`.*/\1/p' >"$wires/proofs/Lib.antt"
judge "step 4, proofs/Lib.antt" grep -qx 'mod Turned' "$wires/proofs/Lib.antt"
judge "step 5" cp "$work/parts/Answers" "$wires/proofs/wires_exchange/Answers.antt"
judge "step 6" step 6 0
judge "step 6 prints what it says" grep -qx 'fn wires::wires_exchange: proved' "$work/step"
judge "its last line" sh -c 'grep . "$0" | tail -n 1 | grep -q "^logic=proved "' "$work/step"

# The commands of "A day's work", which begin with that crate's folder. They leave its sources as they are.
sed -n '/^## A day/,/^## The first lemma$/s/^    //p' "$root/CONTRIBUTING.md" >"$work/day"
judge "a day's work has commands" test -s "$work/day"
judge "a day's work" sh -e "$work/day"
judge "rt fmt changes nothing" diff -r "$root/crates/aes3_level/src" crates/aes3_level/src

# Those of "What a proof costs", with that crate built anew.
rm -rf crates/aes3_level/out crates/aes3/out
cp "$root/bin/proof-cost" bin
sed -n '/^## What a proof costs$/,/^## Wrong bodies$/s/^    //p' "$root/CONTRIBUTING.md" >"$work/costs"
judge "what a proof costs has commands" test -s "$work/costs"
judge "what a proof costs" sh -e "$work/costs"
tell
