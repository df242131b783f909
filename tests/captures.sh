#!/bin/sh
# tests/captures.sh [PROGRAM [AES3]]: aes3-cells on captures made by an encoder of another hand (captures/line.py), and by ALSA and
# sigrok where they are installed: how many whole blocks come back, each as it was sent; lines late, in another bit, in sixteen
# channels; what is refused; that cells leave before it waits; runs that are no line (captures/hostile.py). PROGRAM is the one
# that bin/build aes3_cells_program leaves, AES3 that of bin/build.
#
# The last line is `N passed, M failed`, and the status 0 where none failed.

root=$(dirname "$(dirname "$(realpath "$0")")")
# shellcheck source=examples/words.sh
. "$root/examples/words.sh"
take_words 0 2 "$@"
program=$(realpath -m "${1:-$root/crates/aes3_cells_program/out/aes3_cells_program}")
aes3=$(realpath -m "${2:-$root/crates/aes3/out/aes3}")
here=$root/tests/captures
# shellcheck source=tests/judging.sh
. "$root/tests/judging.sh"
leave_out() {
    echo "left out: $1 ($2)"
    [ -z "${3-}" ] || tell
}
[ -x "$program" ] || leave_out "tests/captures.sh" "there is no aes3-cells: bin/build aes3_cells_program" all
for python in python3 /usr/bin/python3 none; do
    "$python" -c 'import numpy' 2>/dev/null && break
done
[ "$python" != none ] || leave_out "tests/captures.sh" "numpy is not installed" all

cd "$work" || exit 2

# sent_back LEAST: of the blocks of `sent`, LEAST and more are those of `capture`, in their order and with no other.
sent_back() {
    # shellcheck disable=SC2086 # they are words
    "$program" $options <capture 2>told | "$aes3" decode >got && "$python" -c 'import sys
blocks = [[data[i : i + 1536] for i in range(0, len(data), 1536)] for data in (open(name, "rb").read() for name in ("sent", "got"))]
sent = iter(blocks[0])
strange = sum(block not in sent for block in blocks[1])
print(len(blocks[1]), "of", len(blocks[0]), "blocks,", strange, "others;", open("told").read())
sys.exit(strange > 0 or len(blocks[1]) < int(sys.argv[1]))' "$1"
}

# row LEAST SAMPLES_A_CELL NAME=VALUE..: as many whole blocks of such a line. `options` are the words of aes3-cells.
options=
row() {
    least=$1 cell=$2
    shift 2
    "$python" "$here/line.py" "$cell" capture sent=sent "$@"
    judge "row $least $* ($options)" sent_back "$least"
}

# Standard input has no line, and one sentence says so, and what to try.
refused() {
    "$program" >out 2>said_why
    [ $? = 1 ] && grep -q -e '--bit.*--unit.*--rate' said_why
}
# edges EDGES SAMPLES_A_CELL: a capture of a line with so many edges, and its cells in `sent`.
edges() {
    PYTHONDONTWRITEBYTECODE=1 PYTHONPATH=$here "$python" -c 'import line, math, sys
import numpy as np
edges, cell = int(sys.argv[1]), float(sys.argv[2])
places = line.edges(*line.subframes({"blocks": 1}, np.random.default_rng(1)))[: edges + 2]
cells = "".join(str(number % 2) * int(run) for number, run in enumerate(np.diff(places)))
print("\n".join(cells[i : i + 64] for i in range(0, len(cells), 64)), file=open("sent", "w"))
places = [math.ceil(i * cell) for i in range(len(cells) + 1)]
open("capture", "wb").write(b"".join(bytes([int(cells[i])]) * (places[i + 1] - places[i]) for i in range(len(cells))))' "$1" "$2"
}
# known_line STATUS EDGES SAMPLES_A_CELL: the cells of such a line are all written, and this is the status.
known_line() {
    edges "$2" "$3"
    # shellcheck disable=SC2086 # they are words
    "$program" $options <capture >got 2>said_why
    [ $? = "$1" ] && cmp sent got
}
# measured_line EDGES SAMPLES_A_CELL: such a line is found with no options, and its cells are written from the first edge on.
measured_line() {
    edges "$1" "$2"
    "$program" <capture >got 2>said_why && [ "$(tr -d '\n' <sent | sed 's/^0*//')" = "$(tr -d '\n' <got | sed 's/^0*//')" ]
}
# unconfirmed WHY: standard input has no line of --rate and --at. Its cells are written and counted, and this is said of them.
unconfirmed() {
    # shellcheck disable=SC2086 # they are words
    "$program" $options >out 2>said_why
    [ $? = 1 ] && [ "$(cat said_why)" = "aes3-cells: $(tr -d '\n' <out | wc -c) cells were written by --rate and --at, and no measurement confirmed them: $1" ]
}
too_few="there were too few edges: 129 are needed up to the end, or 257 up to a stretch without signal"
other_line="no AES3 line of this rate was found in this bit: try another --bit, --unit 2 for sixteen inputs, or another --at"
wrong_words() { "$program" "$@" </dev/null >out 2>said_why; [ $? = 2 ] && [ ! -s out ] && [ -s said_why ]; }

# A second of 48 kHz at 24 MHz: up to a sample either way; 0.3 rms; falling edges late. Then 192 kHz and 96 kHz at 100 MHz.
row 247 3.90625 blocks=248 drift=200 uniform=1
row 246 3.90625 blocks=248 drift=200 rms=0.3
row 247 3.90625 blocks=248 drift=200 rms=0.1 late=0.6
row 996 4.069010416 blocks=998 drift=200 rms=0.3
row 997 4.069010416 blocks=998 drift=200 uniform=1
row 99 8.138020833 blocks=100 drift=200 rms=0.6 late=2

# As the rate is given; faster and slower than it by 300 parts in a million; and many samples a cell.
options="--rate 24000000 --at 48000"
row 20 3.90625 rms=0.3
row 20 3.9074 rms=0.2
row 20 3.9051 rms=0.2
options=
row 20 3 rms=0.1
row 5 40.3 blocks=5 rms=4 late=8
row 2 410.7 blocks=2 rms=30 late=-60
row 20 3.90625 silence=1 rms=0.3 late=0.9
row 20 3.90625 full=1 rms=0.3 late=0.9

# Falling edges a quarter of a cell late, from few samples a cell to many.
for cell in 2.5 4.069010416 8.138020833 16.3 33; do
    row 3 $cell blocks=3 late="$(awk "BEGIN { print $cell / 4 }")"
done

# A line whose parity bits are all wrong is found all the same.
for cell in 2.2 3.90625 8.138020833 20.02; do
    "$python" "$here/line.py" $cell capture blocks=3 odd=1
    judge "wrong parity at $cell samples a cell" eval '[ "$("$program" <capture 2>/dev/null | "$aes3" check | grep -c "^marked")" = 3 ]'
done

# Near whole numbers of samples a cell, and at the usual pairs of frequencies, each block of a clean line comes back from the first edge on.
for cell in 2.02 2.03 2.1 2.2 2.96 3.005 3.995 4.98 5.01 6.02 7.97 9.96 11.99 15.98 20.02 31.97 39.9 \
    4.2517 3.90625 2.0345 4.4288 4.0690 2.5431 17.7154 20.3451 10.1725 5.0863; do
    row 3 $cell blocks=3
done

# The jitter that AES3 asks a receiver to bear: 10 unit intervals from peak to peak at 200 Hz, down to 0.25 from 8 kHz on.
for sine in 200:5 1000:1 2000:0.5 4000:0.25 8000:0.125 100000:0.125; do
    row 20 4 sine=$sine
done

# A line that begins late, lies in another bit, and among sixteen channels.
row 20 3.90625 rms=0.3 lead=480000
options="--bit 5"
row 20 3.90625 rms=0.3 bit=5 noise=1
options="--unit 2 --bit 12"
row 20 3.90625 rms=0.3 unit=2 bit=12 noise=1
options="--unit 2 --bit 3 --rate 24000000 --at 48000"
row 20 3.90625 rms=0.3 unit=2 bit=3 noise=1 lead=100000
options=

# Two lines of other rates with a dead one between them, whose cells pass as time does.
"$python" "$here/line.py" 3.90625 one blocks=10 rms=0.2 sent=sent
"$python" "$here/line.py" 5.3 two blocks=10 rms=0.2 sent=more seed=2
cat more >>sent
{ cat one; head -c 390625 /dev/zero; cat two; } >capture
judge "two lines of other rates" sent_back 20
"$program" <capture 2>told >cells
spent=$(($(wc -c <one) * 100000 / 390625 + 100000 + $(wc -c <two) * 10 / 53))
cells=$(tr -d '\n' <cells | wc -c)
judge "$cells cells in the time of $spent" [ $((cells - spent)) -ge -40 -a $((cells - spent)) -le 40 ]

# The same with noise between them, which is noticed too: one block goes by until the second line is measured.
{ cat one; head -c 200000 /dev/urandom; cat two; } >capture
judge "noise between two lines" sent_back 19

# A line that drops to a half, a third or a quarter of its rate without a pause: samples are named in which it is so, and no others, whether the
# line has the most edges that one can have or the fewest.
for drop in 7.8125 11.71875 15.625; do
    for bits in silence=1 full=1; do
        "$python" "$here/line.py" "$drop" slow blocks=25 rms=0.2 "$bits"
        cat one slow >capture
        "$program" <capture 2>told >cells
        range=$(sed -n 's/^aes3-cells: from sample \([0-9]*\) to \([0-9]*\) the line has too few edges.*/\1 \2/p' told)
        from=${range% *} to=${range#* }
        judge "a line that drops to $drop samples a cell, $bits: $range" [ "$to" -gt "$(wc -c <one)" -a "$to" -le "$(($(wc -c <one) + 4194304))" -a $((to - from)) -le 2097152 ]
        judge "its rest is a line" eval '"$program" capture 2>&1 >cells | sed -n "s/.*\`tail -c \(+[0-9]*\)\`.*/\1/p" >rest && tail -c "$(cat rest)" capture | "$program" 2>told | "$aes3" check | grep -q whole && ! grep -q "too few edges" told'
    done
done
judge "pieces of any size, and pauses" sh -c "'$program' <capture >cells 2>told; { dd bs=7 count=1000; dd bs=4099; } <capture 2>/dev/null | '$program' 2>other | cmp - cells && cmp told other"
"$python" "$here/line.py" 3.90625 slow blocks=25 rms=0.2 silence=1
cat one slow one >capture
judge "silence has edges enough" sh -c "'$program' <capture 2>told >cells && ! grep -q 'too few edges' told"
{ cat one; head -c 5000000 /dev/zero; cat one; } >capture
judge "a dead stretch has no edges to count" sh -c "'$program' <capture 2>told >cells && ! grep -q 'too few edges' told"

# Packed cells are those of the text; pieces of any size are one capture.
"$program" <one 2>told >text
"$program" --packed-out <one 2>told >packed
judge "packed cells" sh -c "'$aes3' check <text >a; '$aes3' check --packed-in <packed >b; test -s a && cmp a b"
judge "pieces of any size" sh -c "{ dd bs=7 count=1000; dd bs=4099; } <one 2>/dev/null | '$program' 2>told | cmp - text"

# Cells leave before it waits. Where the input or the output fails within a block of octets, that is told, and what came before is written.
judge "cells of each piece before the next comes" "$python" "$here/live.py" "$program" one text
if "$python" -c 'open("/proc/self/mem", "rb", 0).close()' 2>/dev/null; then
    judge "a source that fails within a block" "$python" "$here/live.py" --fail "$program" one text
else
    leave_out "a source that fails within a block" "/proc/self/mem can't be opened"
fi
if [ -w /dev/full ]; then
    judge "a sink that fails within a block" eval '! "$program" <one >/dev/full 2>told && [ "$(cat told)" = "aes3-cells: the output can'"'"'t be written" ]'
else
    leave_out "a sink that fails within a block" "there is no /dev/full"
fi

# With --tell a line comes each second too, of which `one` has two and a half, and when the line dies; the cells stay as they are.
told_in_time() {
    # shellcheck disable=SC2086 # they are words
    "$program" $options <capture 2>end >cells
    # shellcheck disable=SC2086
    "$program" $options --tell <capture 2>told | cmp - cells && tail -n 1 told | cmp - end || return 1
    cat told
    [ "$(grep -c -x "$figures, $1" told)" = "$2" ] && [ "$(wc -l <told)" = "$3" ]
}
figures='aes3-cells: [1-9][0-9]* cells, [35]\.[0-9]* samples a cell, [1-9][0-9]* Hz, edges 0\.[0-9]* of a cell rms, 0\.[0-9]* at most'
options="--rate $(($(wc -c <one) * 2 / 5))"
cp one capture
judge "a line each second" told_in_time '0 dead stretches, measured 1 times' 3 3
{ cat one; head -c 390625 /dev/zero; cat two; } >capture
judge "a dead stretch is told" told_in_time '1 dead stretches, the latest from sample [0-9]*, measured [12] times' 6 8
place=$(sed -n 's/.*the latest from sample \([0-9]*\),.*/\1/p' told | uniq)
judge "the place of a dead stretch, $place, is $(wc -c <one)" [ "$(($(wc -c <one) - place))" -ge 0 -a "$(($(wc -c <one) - place))" -le 64 ]
{ head -c 1000000 /dev/zero; cat one; } >capture
judge "no line yet" told_in_time '0 dead stretches, measured 1 times' 4 6
judge "no line yet is said" [ "$(grep -c -x 'aes3-cells: 0 cells, no AES3 line yet' told)" = 2 ]
"$python" -c 'import sys
sys.stdout.buffer.write(b"".join(bytes((0, sample)) for sample in sys.stdin.buffer.read()))' <one >wide
judge "no octet is lost where it tells" sh -c "{ dd bs=7 count=1001; dd bs=4099; } <wide 2>/dev/null | '$program' --unit 2 --bit 8 --rate 5001 --tell 2>told | cmp - text && [ \$(wc -l <told) -gt 100 ]"
judge "the cells where it can't tell" sh -c "'$program' --rate 5001 --tell <one 2>&- | cmp - text"
options=

# Lines by other programs: ALSA's subframes, sampled, and a session of sigrok.
if command -v aplay >/dev/null && command -v sox >/dev/null; then
    sox -n -r 48000 -b 16 -c 2 tone.wav synth 0.2 sine 997
    printf '%s\n' 'pcm.dump { type iec958' "slave { pcm { type file slave.pcm { type null } file \"$work/words\" format raw }" \
        'format IEC958_SUBFRAME_LE } status [ 0x04 0x00 0x00 0x02 0x0b ] }' >asound.conf
    ALSA_CONFIG_PATH=/usr/share/alsa/alsa.conf:$work/asound.conf aplay -q -D dump tone.wav
    row 49 3.90625 words=words rms=0.3
else
    leave_out "ALSA's subframes, sampled" "aplay or sox is not installed"
fi
if command -v sigrok-cli >/dev/null; then
    "$python" "$here/line.py" 3.90625 samples rms=0.3 sent=sent
    sigrok-cli -I binary:numchannels=1:samplerate=24000000 -i samples -O srzip -o capture.sr
    sigrok-cli -i capture.sr -O binary >capture
    judge "a session of sigrok" sent_back 20
else
    leave_out "a session of sigrok" "sigrok-cli is not installed"
fi

# What is no line, and no command line.
head -c 3000000 /dev/zero >dead
"$python" -c 'import random, sys; sys.stdout.buffer.write(random.Random(1).randbytes(3000000))' >noise
judge "a dead line" refused <dead
judge "noise" refused <noise
# Where a grid among those that are tried is sharp by chance.
for seed in 2 13; do
    "$python" -c 'import random, sys; sys.stdout.buffer.write(random.Random(int(sys.argv[1])).randbytes(3000000))' "$seed" >noise
    judge "noise $seed" refused <noise
done
judge "nothing" refused </dev/null

# With --rate and --at cells are written all the same, and no more is said of them than is so. A line is measured from 129 edges at the end.
options="--rate 24576000 --at 48000"
for edges in 0 1 2 127 128; do
    judge "$edges edges" known_line 1 $edges 4
    judge "$edges edges confirm nothing" unconfirmed "$too_few" <capture
done
for edges in 129 130 255 256 257 258 1000; do
    judge "$edges edges" known_line 0 $edges 4
done
for edges in 256 257; do
    edges $edges 4
    head -c 4000 /dev/zero >>capture
    judge "$edges edges before a dead stretch" sh -c "'$program' $options <capture >out 2>said_why; [ \$? = $((edges == 256)) ]"
done
edges 256 4
{ cat capture; head -c 4000 /dev/zero; cat capture; head -c 4000 /dev/zero; } >two
judge "256 edges twice confirm nothing" unconfirmed "$too_few" <two
judge "noise is no line of a rate" unconfirmed "$other_line" <noise
edges 1000 5
judge "a line of another rate" unconfirmed "$other_line" <capture
judge "nothing by a rate" unconfirmed "$too_few" </dev/null
judge "a dead line by a rate" unconfirmed "$too_few" <dead
options=
edges 128 4
judge "128 edges and no rate" refused <capture
judge "128 edges and no rate have no cells" [ ! -s out ]
judge "129 edges and no rate" measured_line 129 4

# The limits of a cell's samples are the same where they are given and where they are measured.
for words in "258 --at 1" "1024000 --at 1" "18446744073709551615 --at 18446744073709551"; do
    options="--rate $words"
    judge "the words $options" unconfirmed "$too_few" </dev/null
done
options="--rate 1024000 --at 1"
judge "a cell of 8000 samples" known_line 0 300 8000
options=
judge "a cell of 7990 samples" measured_line 300 7990
edges 300 8010
judge "a cell of 8010 samples" refused <capture
edges 300 2
judge "a cell of 2 samples" refused <capture
"$program" --rate 0 </dev/null 2>said_why
judge "what is wrong with --rate 0" grep -q -e "^aes3-cells: --rate takes a frequency in Hz, 1 or more" said_why
told=$(head -c 3906250 /dev/zero | "$program" --rate 24000000 --at 48000 2>told | tr -d '\n' | wc -c)
judge "$told cells of a dead line in the time of 1000000" [ "$told" -ge 999999 -a "$told" -le 1000001 ]
for words in "--tell" "--tell --rate 0" "--bit 8" "--unit 3" "--unit 2 --bit 16" "--at 48000" "--rate 0" "--rate 0 --at 48000" "--rate 48000 --at 0" "--rate 48000 --at 48000" \
    "--rate 257 --at 1" "--rate 1024001 --at 1" "--rate 1 --at 18446744073709551615" "--rate 18446744073709551615 --at 1" "--rate x" "--rate 1.5" \
    "--rate 1.0000001M" "--rate k" "--rate +1k" "--rate 24MHz" "--bit -1" "--bit x" "--none" "file file"; do
    # shellcheck disable=SC2086
    judge "the words $words" wrong_words $words
done
# Frequencies are written in several ways, and all mean the same.
"$program" --rate 24000000 --at 44100 <one >sent 2>told
for words in "24M --at 44.1k" "24m --at 44100" "24000k --at 0.0441M" "24000K --at 44.100k"; do
    # shellcheck disable=SC2086
    "$program" --rate $words <one >got 2>told_so
    judge "the frequencies $words" eval 'cmp sent got && cmp told told_so'
done

# A file by its name; `-` is standard input. Where it can't be read, the system's reason is told.
judge "a file by its name" eval '"$program" one 2>told | cmp - text'
judge "- is standard input" eval '"$program" - <one 2>told | cmp - text'
# unread FILE REASON
unread() {
    "$program" "$1" >out 2>said_why
    [ $? = 3 ] && [ ! -s out ] && [ "$(cat said_why)" = "aes3-cells: the input can't be read
aes3-cells: $1: $2" ]
}
judge "no such file" unread "$work/none" "No such file or directory (os error 2)"
judge "a folder" unread "$work" "Is a directory (os error 21)"

# Without --bit it takes the lowest bit with an AES3 line, and says which; bits without one are passed over: a clock, noise, and a
# line that has no preambles.
"$python" -c 'import random, sys
one, clocked = open("one", "rb").read(), random.Random(2)
capture = [(sample & 1) << 6 | (at >> 2 & 1) << 1 | clocked.getrandbits(1) << 2 | (at // 5 & 1) << 3 for at, sample in enumerate(one)]
open("capture", "wb").write(bytes(capture))
open("wide", "wb").write(b"".join(bytes((sample & 15, sample >> 6 << 2)) for sample in capture))'
judge "the bit is found" eval '"$program" capture 2>told | cmp - text && [ "$(head -n 1 told)" = "aes3-cells: the AES3 line is in bit 6" ]'
judge "the bit of sixteen is found" eval '"$program" --unit 2 wide 2>told | cmp - text && [ "$(head -n 1 told)" = "aes3-cells: the AES3 line is in bit 10" ]'
judge "the bit that is asked for" eval '"$program" --bit 6 capture 2>told | cmp - text && [ "$(wc -l <told)" = 1 ]'
{ head -c 900000 /dev/zero; cat capture; } >late
judge "the bit of a line that begins late" eval '"$program" late 2>told >cells && [ "$(head -n 1 told)" = "aes3-cells: the AES3 line is in bit 6" ]'
judge "pieces of any size where the bit is searched" eval '{ dd bs=7 count=1000; dd bs=4099; } <capture 2>/dev/null | "$program" 2>told | cmp - text'
judge "cells of each piece before the next comes, where the bit is searched" "$python" "$here/live.py" --measured 20000 "$program" capture text

# What is likely to be wrong is said: edges near half a cell from their places, and a line that is measured again and again.
# doubted SAID COUNT: a sentence with these words stands so often behind the figures of `capture`.
doubted() { "$program" <capture 2>told >cells && [ "$(grep -c "$1" told)" = "$2" ]; }
"$python" "$here/line.py" 4.069010416 capture blocks=20 rms=0.2 sent=sent
judge "a line with little jitter" doubted "at 0.5 cells are wrong\|likely to be wrong" 0
"$python" "$here/line.py" 4.069010416 capture blocks=20 rms=0.3 sent=sent
judge "edges 0.4 of a cell from their places" doubted "at 0.5 cells are wrong" 1
"$python" "$here/line.py" 4.069010416 capture blocks=20 rms=0.6 sent=sent
judge "a line with much jitter" doubted "at 0.5 cells are wrong\|likely to be wrong" 1

# At a terminal it tells how much of a file it has read. The cells are not read for two seconds, and the next piece of the file comes behind them.
if command -v script >/dev/null; then
    "$python" "$here/line.py" 8 capture blocks=40
    erase="$(printf '\033')\\[K"
    waiting='{ sleep 2; cat >/dev/null; }'
    script -qec "'$program' capture | $waiting" /dev/null </dev/null | tr -d '\r' >told
    judge "how much of a capture has been read" grep -q "^\(aes3-cells: [1-9][0-9]* %, [0-9]* MB/s$erase\)\+${erase}aes3-cells: [0-9]* cells, 8\.[0-9]* samples a cell" told
    judge "and nothing of it is left" test "$(wc -l <told)" = 1
    script -qec "'$program' <capture | $waiting" /dev/null </dev/null | tr -d '\r' >told
    judge "standard input that is a file too" grep -q "^aes3-cells: [1-9][0-9]* %, " told
    script -qec "cat capture | '$program' | $waiting" /dev/null </dev/null | tr -d '\r' >told
    judge "nothing of it where the input is no file" grep -q "^aes3-cells: [0-9]* cells, 8\.[0-9]* samples a cell" told
    { "$program" capture 2>told; } | { sleep 2; cat >/dev/null; }
    judge "nothing of it where standard error is no terminal" grep -q "^aes3-cells: [0-9]* cells, 8\.[0-9]* samples a cell" told
else
    leave_out "how much of a capture has been read" "script is not installed"
fi

# Each option of its help stands in the manual page and in the completions.
"$program" --help >help
judge "its help" grep -q -e --packed-out help
tr -d '\134' <"$root/man/aes3-cells.1" >page
# shellcheck disable=SC2013 # they are words
for option in $(grep -o -E -e '^ *(-[A-Za-z], )?--[a-z][a-z-]*' help | grep -o -e '--[a-z-]*' | sort -u); do
    name=${option#--}
    judge "the manual page lacks $option" grep -q -F -e "$option" page
    for shell in aes3-cells.bash _aes3-cells aes3-cells.fish; do
        judge "$shell lacks $option" grep -q -e "-l $name\|--$name" "$root/completions/$shell"
    done
done
# The example of aes3's manual page, behind what sigrok writes.
mkdir bin && ln -s "$program" bin/aes3-cells && ln -s "$aes3" bin/aes3
sed -n '/^aes3.-cells < capture.bin/,/^\.EE/p' "$root/man/aes3.1" | tr -d '\134' | grep -v '^\.' >example
head -c 4608 "$root/examples/speech.block" | "$aes3" encode >sent.txt
"$root/examples/neighbours/samples.py" 3.90625 0.3 <sent.txt >capture.bin
judge "the average at the end" eval '"$program" --rate 24M <capture.bin 2>told >cells; grep -q ", 3\.906 samples a cell, \(47999\|48000\) Hz, " told'
judge "the example of the manual page" env PATH="$work/bin:$PATH" sh -e example
tail -c 3072 samples.s32 >taken
judge "the samples that it takes" eval '"$aes3" to-pcm sent.txt | tail -c 3072 | cmp - taken'
judge "its version" test "$("$program" --version)" = "aes3-cells $("$aes3" --version | cut -d' ' -f2)"

judge "runs that are no line" "$python" "$here/hostile.py" "$program"
judge "signals that are no line" "$python" "$here/other_signals.py" "$program"
tell
