#!/bin/sh
# tests/streams.sh PROGRAM: what the program owes to the machine's own streams. No clause can speak of them, so this runs
# the built program. The last line is `N passed, M failed`, and the status 0 where none failed. It needs /dev/full, and a shell
# whose ulimit knows -v.

root=$(dirname "$(dirname "$(realpath "$0")")")
# shellcheck source=examples/words.sh
. "$root/examples/words.sh"
take_words 1 1 "$@"
program=$(realpath "$1") || exit 2
zero=$root/examples/zero.block
folder=$(mktemp -d) || exit 1
trap 'rm -rf "$folder"' EXIT
passed=0 failed=0

aes3() {
    "$program" "$@"
}

well() {
    echo "ok: $1"
    passed=$((passed + 1))
}

wrong() {
    echo "FAILED: $1"
    failed=$((failed + 1))
}

# expect NAME STATUS LINE: compares the last run's status, and what it told on standard error, with these.
expect() {
    if [ "$status" = "$2" ] && [ "$(cat "$folder/errors")" = "$3" ]; then
        well "$1"
    else
        wrong "$1: status $status, not $2; told: $(cat "$folder/errors")"
    fi
}

# holds_block NAME: the output is the cells of one zero block.
holds_block() {
    if aes3 encode < "$zero" | cmp - "$folder/output"; then well "$1"; else wrong "$1"; fi
}

# Two blocks of which the first is decided, and behind them a byte that is no cell: the decided block is held in the
# buffer when the run is refused.
{ aes3 encode < "$zero" && aes3 encode < "$zero" && printf 2; } > "$folder/refused" || exit 1

aes3 normal < "$folder/refused" > "$folder/output" 2> "$folder/errors"
status=$?
expect "a refusal behind a block that left" 3 "aes3: refused 1 at 49920"
holds_block "the block that left before a refusal"

aes3 normal < "$folder/refused" > /dev/full 2> "$folder/errors"
status=$?
expect "a full disk behind a refusal" 3 "aes3: refused 6"

aes3 normal < "$folder/refused" >&- 2> "$folder/errors"
status=$?
expect "a closed output behind a refusal" 3 "aes3: refused 6"

{ sleep 1; aes3 normal < "$folder/refused" 2> "$folder/errors"; echo $? > "$folder/status"; } | :
status=$(cat "$folder/status")
expect "a closed pipe behind a refusal" 3 "aes3: refused 6"

aes3 encode < "$zero" > /dev/full 2> "$folder/errors"
status=$?
expect "a full disk at the end" 3 "aes3: refused 6"

aes3 --help > /dev/full 2> "$folder/errors"
status=$?
expect "a full disk for help" 3 "aes3: refused 6"

# A file by its name: at its place, or with -i, in each way that a word can have it. A minus sign alone is standard input.
aes3 encode < "$zero" > "$folder/named"
for words in "encode -i" "encode --input" "cut 0 1 -i" "normal -i" "normal"; do
    case $words in
    encode*) file=$zero ;;
    *) file=$folder/named ;;
    esac
    # shellcheck disable=SC2086
    aes3 $words "$file" > "$folder/output" 2> "$folder/errors" < /dev/null
    status=$?
    expect "aes3 $words FILE" 0 ""
    holds_block "its output"
done
for word in "-i$zero" "--input=$zero"; do
    aes3 encode "$word" > "$folder/output" 2> "$folder/errors" < /dev/null
    status=$?
    expect "aes3 encode ${word%%/*}FILE" 0 ""
    holds_block "its output"
done
aes3 cut -i - 0 1 > "$folder/output" 2> "$folder/errors" < "$folder/named"
status=$?
expect "standard input by a minus sign after -i" 0 ""
holds_block "its output"
aes3 encode -i "$folder/nothing" > "$folder/output" 2> "$folder/errors" < "$zero"
status=$?
expect "a file after -i that is not there" 3 "aes3: refused 5
aes3: $folder/nothing: No such file or directory (os error 2)"

# Output to a file by its name: the file has it once the command is done, and a refused one leaves what was there before.
cp "$folder/named" "$folder/wanted"
leaves() { # NAME FILE: FILE has the wanted cells, and nothing stands beside it that was begun
    if cmp "$folder/wanted" "$2" && [ ! -e "$2.part" ]; then well "$1"; else wrong "$1"; fi
}
for words in "encode -o" "encode --output"; do
    rm -f "$folder/out"
    # shellcheck disable=SC2086
    aes3 $words "$folder/out" < "$zero" > "$folder/output" 2> "$folder/errors"
    status=$?
    expect "aes3 $words FILE" 0 ""
    leaves "its file" "$folder/out"
    if [ -s "$folder/output" ]; then wrong "standard output beside a file"; else well "no standard output beside a file"; fi
done
aes3 normal -o "$folder/out" "$folder/out" 2> "$folder/errors"
status=$?
expect "a file that is read and written" 0 ""
leaves "it" "$folder/out"
aes3 normal -o "$folder/out" "$folder/refused" 2> "$folder/errors"
status=$?
expect "a refusal with an output file" 3 "aes3: refused 1 at 49920"
leaves "the file from before a refusal" "$folder/out"
aes3 normal -o "$folder/new" "$folder/refused" 2> "$folder/errors"
status=$?
expect "a refusal with a new output file" 3 "aes3: refused 1 at 49920"
if [ -e "$folder/new" ] || [ -e "$folder/new.part" ]; then wrong "a refusal leaves a file"; else well "a refusal leaves no file"; fi
sed '200s/^1/0/' "$folder/named" > "$folder/faulty"
aes3 check "$folder/faulty" > "$folder/wanted"
aes3 check -o "$folder/out" "$folder/faulty" 2> "$folder/errors"
status=$?
expect "faults with an output file" 1 ""
leaves "the lines of faults" "$folder/out"
aes3 encode -o "$folder/nowhere/out" < "$zero" 2> "$folder/errors"
status=$?
expect "an output file in no folder" 3 "aes3: refused 6
aes3: $folder/nowhere/out: No such file or directory (os error 2)"
aes3 check -o "$folder/nowhere/out" < /dev/null 2> "$folder/errors"
status=$?
expect "an output file in no folder, of a command that prints nothing" 3 "aes3: refused 6
aes3: $folder/nowhere/out: No such file or directory (os error 2)"
aes3 encode -o "$folder" < "$zero" 2> "$folder/errors"
status=$?
expect "a folder as output file" 3 "aes3: refused 6
aes3: $folder: Is a directory (os error 21)"
aes3 encode -o /dev/full < "$zero" 2> "$folder/errors"
status=$?
expect "a full disk as output file" 3 "aes3: refused 6
aes3: /dev/full: No space left on device (os error 28)"
cp "$folder/named" "$folder/wanted"
aes3 encode -o - < "$zero" > "$folder/out" 2> "$folder/errors"
status=$?
expect "standard output by a minus sign" 0 ""
leaves "it" "$folder/out"
: > "$folder/target"
ln -s target "$folder/link"
aes3 encode -o "$folder/link" < "$zero" 2> "$folder/errors"
status=$?
expect "a link to a file as output file" 3 "aes3: refused 6
aes3: $folder/link is a link to a file: give the name of the file itself"
if [ -L "$folder/link" ] && [ ! -s "$folder/target" ]; then well "the link and its file stay"; else wrong "the link or its file is another"; fi
cp "$folder/wanted" "$folder/other.part"
aes3 normal -o "$folder/other" "$folder/other.part" 2> "$folder/errors"
status=$?
expect "an output whose other name is that of the input" 3 "aes3: refused 6
aes3: $folder/other can't be written: $folder/other.part exists, so remove or rename it, unless a run is writing it"
if cmp "$folder/wanted" "$folder/other.part" && [ ! -e "$folder/other" ]; then well "the input stays"; else wrong "the input is gone"; fi
aes3 encode --help -o "$folder/help" > /dev/null 2> "$folder/errors"
status=$?
expect "help with an output file" 0 ""
if [ -e "$folder/help" ]; then wrong "help makes a file"; else well "help makes no file"; fi

# A line in use: two blocks have come, and more may. The first is decided by the second, and it leaves while the program waits
# for the next cell.
mkfifo "$folder/line" || exit 1
aes3 normal < "$folder/line" > "$folder/output" 2> "$folder/errors" &
exec 3> "$folder/line"
{ aes3 encode < "$zero" && aes3 encode < "$zero"; } >&3
waited=0
until [ "$(wc -c < "$folder/output")" = 24960 ] || [ "$waited" = 50 ]; do
    sleep 0.1
    waited=$((waited + 1))
done
holds_block "a decided block leaves while the program waits"
exec 3>&-
wait "$!"
status=$?
expect "the end of a line in use" 0 ""

aes3 encode < / > /dev/null 2> "$folder/errors"
status=$?
expect "a folder as input" 3 "aes3: refused 5"

aes3 encode "$(printf '\377')" < "$zero" > "$folder/output" 2> "$folder/errors"
status=$?
expect "words that are not UTF-8" 2 "error: the words are not UTF-8

Usage: aes3 COMMAND [OPTIONS] < INPUT > OUTPUT

For more information, try '--help'."
if [ -s "$folder/output" ]; then wrong "and they write nothing"; else well "and they write nothing"; fi

# at_terminal NAME LINES COMMAND..: what the command tells where standard error is a terminal.
# A slow machine may show the progress once more, at the end of the file: that line is left out.
escape=$(printf '\033')
erase="$escape[K"
at_terminal() {
    script -qec "$3" /dev/null < /dev/null | tr -d '\r' | sed "s/aes3: 100 %, 0 MB\/s, 250 blocks$escape\[K//" > "$folder/errors"
    status=3
    expect "$1" 3 "$2"
}

# At a terminal a sentence stands behind the line of a refusal, and hints before a run; elsewhere neither.
if command -v script > /dev/null; then
    "$program" encode --packed-out < "$zero" > "$folder/packed"
    at_terminal "a sentence at a terminal" "aes3: refused 1 at 49920
aes3: byte 49920 is neither cell nor separator (line 769, column 1): packed cells need \`--packed-in\`; a block file is for \`aes3 encode\`" \
        "$program normal < '$folder/refused' > '$folder/output'"
    at_terminal "no hint where the output is no terminal" "aes3: refused 3 at 0
aes3: bits 0 to 3 of word 0 are not zero: these are cells as text: \`aes3 decode\` makes a block file of them" \
        "$program encode --packed-out < '$folder/refused' | cat"
    at_terminal "a block file as cells" "aes3: refused 1 at 0
aes3: byte 0 is neither cell nor separator (line 1, column 1): this looks like a block file: \`aes3 encode\` makes cells of it" \
        "$program check < '$zero'"
    at_terminal "packed cells as text" "aes3: refused 1 at 0
aes3: byte 0 is neither cell nor separator (line 1, column 1): these look like packed cells: try \`--packed-in\`" \
        "$program check < '$folder/packed'"
    at_terminal "no input as packed cells" "aes3: refused 10 at 0
aes3: the packed cells end wrongly at octet 0: the input is empty" \
        "$program check --packed-in < /dev/null"
    at_terminal "the name of a file that can't be read" "aes3: refused 5
aes3: the input can't be read (no-such-file): check that the file is there, that you may read it, and that it is no folder
aes3: no-such-file: No such file or directory (os error 2)" \
        "$program check no-such-file"
    at_terminal "nothing of a terminal where a file is read" "" "$program check /dev/null"
    at_terminal "the option of a refused status" "aes3: refused 9
aes3: a status is not 48 hexadecimal digits (--status2): \`--status1\` and \`--status2\` take 24 bytes, two digits each" \
        "$program rewrite --status2=12 < '$folder/refused'"
    for _ in 1 2 3 4 5 6 7 8 9 10 11 12 13 14 15 16; do printf '\1\0\0\1'; done > "$folder/samples"
    at_terminal "samples of a logic analyser" "aes3: refused 1 at 0
aes3: byte 0 is neither cell nor separator (line 1, column 1): these look like samples of a logic analyser: \`aes3-cells < FILE\` makes cells of them" \
        "$program check < '$folder/samples'"
    printf 'PK\3\4' > "$folder/session"
    at_terminal "a session of sigrok" "aes3: refused 1 at 0
aes3: byte 0 is neither cell nor separator (line 1, column 1): this looks like a session of sigrok: \`sigrok-cli -i FILE -O binary | aes3-cells\` makes cells of it" \
        "$program check < '$folder/session'"
    printf 'RIFF1234WAVEfmt ' > "$folder/wave"
    at_terminal "a WAV file as samples" "aes3: refused 12 at 0
aes3: the samples begin with the header of a sound file: this is a WAV file: \`aes3 from-wav\` makes a block file of it" \
        "$program from-pcm < '$folder/wave' > '$folder/output'"
    at_terminal "a WAV file as cells" "aes3: refused 1 at 0
aes3: byte 0 is neither cell nor separator (line 1, column 1): this is a WAV file: \`aes3 from-wav\` makes a block file of it" \
        "$program check < '$folder/wave'"
    if command -v perl > /dev/null; then
        # It shows where runs of more than three cells stand in the first octets, as they do in these.
        "$program" encode --packed-out < "$root/examples/speech.block" > "$folder/speech"
        perl -0777 -ne 'print pack("B*", unpack("b*", $_))' "$folder/speech" > "$folder/turned"
        at_terminal "packed cells with the first in the lowest bit" \
            "aes3: the cells look packed with the first in the lowest bit: try \`--lsb-first\`" \
            "$program show --packed-in < '$folder/turned'"
    else
        echo "left out: packed cells with the first in the lowest bit (perl is not installed)"
    fi
    # The output is not read for two seconds, and the second read of the file comes behind them.
    speech=$root/examples/speech.block
    waiting='{ sleep 2; cat > /dev/null; }'
    at_terminal "how far a file has been read, and then nothing of it" "aes3: 68 %, 0 MB/s, 170 blocks$erase$erase" \
        "$program encode < '$speech' | $waiting"
    at_terminal "nothing of it where the input is no file" "" "cat '$speech' | $program encode | $waiting"
    { cat "$speech" && printf x; } > "$folder/longer"
    at_terminal "it makes room for a refusal" "aes3: 68 %, 0 MB/s, 170 blocks$erase${erase}aes3: refused 2 at 1
aes3: the input ends 1 bytes into a block or a frame: cut or pad a block file to a multiple of 1,536 bytes, samples to whole frames" \
        "$program encode < '$folder/longer' | $waiting"
    "$program" encode < "$speech" 2> "$folder/errors" | { sleep 2; cat > /dev/null; }
    status=0
    expect "nothing of it where standard error is no terminal" 0 ""
else
    echo "left out: sentences and hints at a terminal (script is not installed)"
fi

# Memory refused anywhere before the input is read: from a limit at which the program can't be loaded to one at which it
# runs, each run is done, or it ends with refusal 8 and its line, or the system ends it without a word (127, 137), at some limits
# as the stack can't grow (139), of which a program is not told.
refused=0
limit=2000
while [ "$limit" -le 4000 ]; do
    if (ulimit -v "$limit" && exec "$program" --help) > /dev/null 2> "$folder/loaded"; then
        break
    fi
    (ulimit -v "$limit" && exec "$program" encode) < "$zero" > /dev/null 2> "$folder/errors"
    status=$?
    if [ "$status" = 3 ]; then
        refused=$((refused + 1))
        [ "$(cat "$folder/errors")" = "aes3: refused 8" ] || wrong "memory of $limit KiB: $(cat "$folder/errors")"
    elif [ "$status" != 127 ] && [ "$status" != 0 ] && [ "$status" != 137 ] && [ "$status" != 139 ]; then
        wrong "memory of $limit KiB: status $status"
    fi
    limit=$((limit + 20))
done 2> /dev/null # the shell's own word of an end by a signal, which is no failure
if [ "$refused" -gt 0 ]; then
    well "refused memory, at $refused limits"
else
    wrong "no limit at which memory was refused"
fi

# What docs/COMMANDS.md says that a run needs is enough, for each command.
"$program" encode < "$zero" > "$folder/cells"
for command in check 'check --gaps' watch normal decode show scan to-pcm 'to-pcm --fill hold --marked' to-wav 'to-wav --exact --bits 16' \
    'to-wav --fill hold --marked' 'cut 0 1' 'rewrite --mend-check'; do
    # shellcheck disable=SC2086 # a command is several words
    "$program" $command < "$folder/cells" > "$folder/expected" 2>&1
    # shellcheck disable=SC2086
    if (ulimit -s 576 && ulimit -v 5120 && exec "$program" $command) < "$folder/cells" 2>&1 | cmp -s - "$folder/expected"; then
        well "$command in little memory"
    else
        wrong "$command in 5 MB of address space, with 576 KB of stack"
    fi
done
"$program" to-wav < "$folder/cells" > "$folder/wave"
"$program" from-wav < "$folder/wave" > "$folder/expected"
if (ulimit -s 640 && ulimit -v 5120 && exec "$program" from-wav) < "$folder/wave" 2>&1 | cmp -s - "$folder/expected"; then
    well "from-wav in little memory"
else
    wrong "from-wav in 5 MB of address space, with 640 KB of stack"
fi

# A stream that is set not to wait is not waited for.
if command -v python3 > /dev/null; then
    python3 - "$program" "$zero" > "$folder/output" << 'END'
import os, subprocess, sys

program, zero = sys.argv[1:]
(empty, writer), (reader, full) = os.pipe(), os.pipe()
os.set_blocking(empty, False)
os.set_blocking(full, False)
try:
    while os.write(full, bytes(4096)):
        pass
except BlockingIOError:
    pass
for ran in (
    subprocess.run([program, "check"], stdin=empty, capture_output=True),
    subprocess.run([program, "encode"], stdin=open(zero, "rb"), stdout=full, stderr=subprocess.PIPE),
):
    print(ran.returncode, ran.stderr.decode().strip())
END
    if [ "$(cat "$folder/output")" = "$(printf '3 aes3: refused 5\n3 aes3: refused 6')" ]; then
        well "streams that are set not to wait"
    else
        wrong "streams that are set not to wait: $(cat "$folder/output")"
    fi

    # The cell after a block decides it. From a live line its report comes two octets after the octet of that cell, three with --lsb-first.
    python3 - "$program" "$zero" > "$folder/output" << 'END'
import os, select, subprocess, sys

program, zero = sys.argv[1:]
block = open(zero, "rb").read(1536)
packed = subprocess.run([program, "encode", "--packed-out"], input=2 * block, stdout=subprocess.PIPE).stdout[:-1]
for words in ["--raw-in"], ["--packed-in"], ["--raw-in", "--lsb-first"], ["--packed-in", "--lsb-first"]:
    octets = bytes(int(f"{octet:08b}"[::-1], 2) for octet in packed) if "--lsb-first" in words else packed
    child = subprocess.Popen([program, "check", *words], stdin=subprocess.PIPE, stdout=subprocess.PIPE, stderr=subprocess.DEVNULL, bufsize=0)
    told = lambda seconds: select.select([child.stdout], [], [], seconds)[0]
    count, late = 3073, 3 if "--lsb-first" in words else 2
    child.stdin.write(octets[:count])
    early = False
    for octet in octets[count : count + late]:
        early = early or told(0.3)
        child.stdin.write(bytes([octet]))
    print(*words, "early" if early else late if told(20) else "later")
    child.stdin.close()
    child.wait()
END
    if [ "$(cat "$folder/output")" = "$(printf -- '--raw-in 2\n--packed-in 2\n--raw-in --lsb-first 3\n--packed-in --lsb-first 3')" ]; then
        well "how late a report comes from live octets"
    else
        wrong "how late a report comes from live octets: $(cat "$folder/output")"
    fi
else
    echo "left out: streams that are set not to wait, and live octets (python3 is not installed)"
fi

echo "$passed passed, $failed failed"
[ "$failed" = 0 ]
