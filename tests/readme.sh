#!/bin/sh
# tests/readme.sh PROGRAM [FILE..]: runs the examples of README.md, docs/TUTORIAL.md and docs/COMMANDS.md, or of the FILEs, and compares
# what they print with what is there.
#
# An example is a line that begins with '$ ' in a block that begins with ```sh; what is expected, standard error with
# it, are the lines below it up to the next. A command may go on in lines that end in a backslash. Each FILE's examples
# run in a folder of their own, one after the other, by sh: PROGRAM is there as bin/aes3 and on the PATH as aes3, aes3-cells
# and aes3-spoil likewise where bin/build left them or CELLS and SPOIL name them, and the folder examples is a copy. A block that
# begins with ```sh needs TOOL.. is left out, with a word, where one of the tools is not there.
#
# Of a table after a line `<!-- run -->` each command is run too, that is, what stands in backquotes and has a program's name or path first and a
# word after it. The files that it may read are made below (make_inputs). It has to end with status 0 and to write something, if only into a file.
#
# They may leave files in out/ alone. The last line is `N passed, M failed`, and the status 0 where each example printed what it should.

root=$(dirname "$(dirname "$(realpath "$0")")")
# shellcheck source=examples/words.sh
. "$root/examples/words.sh"
take_words 1 100 "$@"
program=$(realpath "$1") || exit 2
cells=$(realpath -m "${CELLS:-$root/crates/aes3_cells_program/out/aes3_cells_program}")
spoil=$(realpath -m "${SPOIL:-$root/crates/aes3_spoil_program/out/aes3_spoil_program}")
shift
[ $# -gt 0 ] || set -- "$root/README.md" "$root/docs/TUTORIAL.md" "$root/docs/COMMANDS.md"
work=$(mktemp -d) || exit 2
trap 'rm -rf "$work"' EXIT

# Writes each example of a file as examples N.cmd, N.out and N.at, which says where it stands and what it needs.
parted() {
    awk -v to="$work/parts" '
        /^```sh( needs .*)?$/ && !inside { inside = 1; needs = substr($0, 13); next }
        /^```/ { inside = 0; name = ""; next }
        !inside { next }
        goes_on { print > (name ".cmd"); goes_on = /\\$/; next }
        /^\$ / {
            name = sprintf("%s/%03d", to, ++count)
            print substr($0, 3) > (name ".cmd")
            printf "" > (name ".out")
            print FNR ":" needs > (name ".at")
            goes_on = /\\$/
            next
        }
        name { print > (name ".out") }
    ' "$1"
}

# Writes each command of such a table, in a line with its number in the file before it.
tabled() {
    awk '
        /^<!-- run -->$/ { inside = 1; next }
        !/^\|/ { inside = 0 }
        inside {
            gsub(/\\\|/, "\001")
            count = split($0, part, "`")
            for (i = 2; i <= count; i += 2)
                if (part[i] ~ /^(aes3|aes3-cells|aes3-spoil|sigrok-cli|sox|examples\/[a-z]+\/[a-z_.]+) /) { gsub("\001", "|", part[i]); print FNR ":" part[i] }
        }
    ' "$1"
}

# Makes the files that commands of a table read, in the folder where it is called.
make_inputs() {
    aes3 encode <"$root/examples/speech.block" >line.txt
    aes3 normal --packed-out line.txt >line.packed
    head -c -1 line.packed >line.raw
    aes3 decode --words alsa line.txt >words.alsa
    aes3 decode --words am824 line.txt >words.am824
    aes3 to-pcm line.txt >audio.s32
    aes3 cut 100 5 <line.txt | "$root/examples/neighbours/samples.py" 3.90625 0.2 >capture.bin
    if command -v sigrok-cli >/dev/null; then
        sigrok-cli -I binary:numchannels=8:samplerate=24000000 -i capture.bin -o capture.sr
    fi
    aes3 cut 100 5 <line.txt | tr -d '\n' | fold -w 1 | awk '
        BEGIN { print "$timescale 1 ns $end $var wire 1 ! line $end $enddefinitions $end" }
        $1 != before { printf "#%d %d!\n", NR * 162.76, $1; before = $1 }' >dump.vcd
    aes3 to-wav line.txt >audio.wav
    ln -s "$root/examples" examples
}

# How many files of a folder have something in them.
filled() { find "$1" -type f -size +0 | wc -l; }

lacking() {
    for tool in $1; do
        [ -e "$work/here/bin/$tool" ] || [ -e "$root/$tool" ] || command -v "$tool" >/dev/null 2>&1 || echo "$tool"
    done
}

passed=0 failed=0
for file in "$@"; do
    rm -rf "$work/parts" "$work/here"
    mkdir -p "$work/parts" "$work/here/bin"
    ln -s "$program" "$work/here/bin/aes3"
    [ ! -x "$cells" ] || ln -s "$cells" "$work/here/bin/aes3-cells"
    [ ! -x "$spoil" ] || ln -s "$spoil" "$work/here/bin/aes3-spoil"
    cp -R "$root/examples" "$work/here/examples"
    parted "$file"
    for command in "$work"/parts/*.cmd; do
        [ -f "$command" ] || continue
        part=${command%.cmd}
        IFS=: read -r line needs <"$part.at"
        lacks=$(lacking "$needs")
        if [ -n "$lacks" ]; then
            printf 'left out: %s\n' "${file#"$root/"}:$line, $(head -n 1 "$command") ($lacks is not installed)"
            continue
        fi
        (cd "$work/here" && PATH=$work/here/bin:$PATH sh "$command") >"$part.got" 2>&1 </dev/null
        if cmp -s "$part.out" "$part.got"; then
            passed=$((passed + 1))
        else
            echo "$file:$line: $(cat "$command")" >&2
            diff "$part.out" "$part.got" >&2
            failed=$((failed + 1))
        fi
    done
    tabled "$file" >"$work/table"
    if [ -s "$work/table" ] && [ ! -e "$work/inputs" ]; then
        mkdir "$work/inputs"
        (cd "$work/inputs" && PATH=$work/here/bin:$PATH make_inputs)
    fi
    while IFS=: read -r line command; do
        lacks=$(lacking "$(echo "$command" | tr '|' '\n' | awk '{ print $1 }')")
        if [ -n "$lacks" ]; then
            printf 'left out: %s\n' "${file#"$root/"}:$line, $command ($lacks is not installed)"
            continue
        fi
        rm -rf "$work/copy" && cp -R "$work/inputs" "$work/copy"
        (cd "$work/copy" && PATH=$work/here/bin:$PATH sh -c "{ $command; } >>written") </dev/null 2>"$work/told"
        status=$?
        if [ "$status" = 0 ] && [ "$(filled "$work/copy")" -gt "$(filled "$work/inputs")" ]; then
            passed=$((passed + 1))
        else
            echo "$file:$line: $command: status $status" >&2
            cat "$work/told" >&2
            failed=$((failed + 1))
        fi
    done <"$work/table"
    # What stands there can be typed in a clone: it leaves files in out/ alone, which .gitignore names.
    for left in "$work/here"/* "$work/here/examples"/*; do
        name=${left#"$work/here/"}
        case $name in bin | examples | out) continue ;; esac
        [ ! -e "$root/$name" ] || continue
        echo "$file: its examples leave $name" >&2
        failed=$((failed + 1))
    done
done
echo "$passed passed, $failed failed"
[ "$failed" = 0 ] && [ "$passed" -gt 0 ]
