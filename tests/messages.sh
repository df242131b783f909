#!/bin/sh
# tests/messages.sh [PROGRAM [CELLS [SPOIL]]]: what aes3, aes3-cells and aes3-spoil tell of words that they don't take, with the usage of the
# command, and where an input looks like another form than it was read in: with the option that reads it, where a FILE is named, and nothing
# but the refusal where none is; samples that look like another width, and none of the declared width that do. PROGRAM is the one that
# bin/build leaves, CELLS that of bin/build aes3_cells_program, SPOIL that of bin/build aes3_spoil_program.
#
# The last line is `N passed, M failed`, and the status 0 where none failed.

root=$(dirname "$(dirname "$(realpath "$0")")")
# shellcheck source=examples/words.sh
. "$root/examples/words.sh"
take_words 0 3 "$@"
aes3=$(realpath -m "${1:-$root/crates/aes3/out/aes3}")
cells=$(realpath -m "${2:-$root/crates/aes3_cells_program/out/aes3_cells_program}")
spoil=$(realpath -m "${3:-$root/crates/aes3_spoil_program/out/aes3_spoil_program}")
# shellcheck source=tests/judging.sh
. "$root/tests/judging.sh"
speech=$root/examples/speech.block
cd "$work" || exit 2

# told STATUS TEXT PROGRAM WORD..: standard error has this text and no more, and the status is this.
told() {
    wanted=$1
    printf '%s' "$2" >want
    shift 2
    "$@" >out 2>err </dev/null
    status=$?
    [ "$status" = "$wanted" ] || { echo "status $status"; return 1; }
    diff want err
}

# ---- words that are not taken

end="

For more information, try '--help'.
"
# words TEXT USAGE PROGRAM WORD..
words() {
    wrong=$1 usage=$2
    shift 2
    name=$(basename "$1")
    judge "$name: $wrong" told 2 "$wrong

Usage: $usage$end" "$@"
}

cut="aes3 cut [OPTIONS] [-i FILE] <FROM> <COUNT> > CELLS"
watch="aes3 watch [OPTIONS] [FILE]"
words "error: invalid value 'x' for '<FROM>': it is the number of a block, from 0 on" "$cut" "$aes3" cut x 1
words "error: invalid value '18446744073709551616' for '<COUNT>': it is a number of blocks, from 0 on" "$cut" "$aes3" cut 0 18446744073709551616
words "error: invalid value '' for '<FROM>': it is the number of a block, from 0 on" "$cut" "$aes3" cut "" 1
words "error: invalid value 'a': b' for '<FROM>': it is the number of a block, from 0 on" "$cut" "$aes3" cut "a': b" 1
words "error: invalid value '48k' for '--rate <HZ>': it is a number of frames a second, from 1 to 1,000,000" "$watch" "$aes3" watch --rate 48k
words "error: invalid value '0' for '--every <CELLS>': it is a number of cells, from 1 to 2^40" "$watch" "$aes3" watch --every 0
words "error: invalid value '-1' for '--every-seconds <N>': it is a number of seconds, from 1 to 3,600" "$watch" "$aes3" watch --every-seconds=-1
words "error: invalid value '2' for '--valid1 <0|1>': it is 0 or 1" "aes3 rewrite [OPTIONS] [FILE] > CELLS" "$aes3" rewrite --valid1 2
words "error: invalid value '3' for '<CHANNEL>': it is 1 or 2" "aes3 to-bits [OPTIONS] <user|validity|status> <1|2> [FILE] > BITS" "$aes3" to-bits user 3
words "error: unexpected argument '-x' found" "aes3 check [--packed-in|--raw-in] [--lsb-first] [--faults] [--gaps] [FILE]" "$aes3" check -x
words "error: unexpected argument '--gap' found

  tip: a similar argument exists: '--gaps'" "aes3 check [--packed-in|--raw-in] [--lsb-first] [--faults] [--gaps] [FILE]" "$aes3" check --gap
words "error: a value is required for '--rate <HZ>' but none was supplied" "$watch" "$aes3" watch --rate
words "error: the argument '--raw-in' cannot be used with '--packed-in'" "aes3 scan [--packed-in|--raw-in] [--lsb-first] [FILE]" "$aes3" scan --raw-in --packed-in
words "error: the argument '--input <FILE>' cannot be used with '[FILE]'" "aes3 scan [--packed-in|--raw-in] [--lsb-first] [FILE]" "$aes3" scan -i a b
words "error: the argument '--input <FILE>' cannot be used multiple times" "aes3 scan [--packed-in|--raw-in] [--lsb-first] [FILE]" "$aes3" scan -i a -i b
words "error: a value is required for '--input <FILE>' but none was supplied" "$cut" "$aes3" cut 0 1 -i
words "error: the argument '--every-seconds <N>' needs '--rate <HZ>'" "$watch" "$aes3" watch --every-seconds 1
words "error: invalid value for '--pcm <s32|s24|s24in32|s16>': it is 's32', 's24', 's24in32' or 's16'" "aes3 to-pcm [OPTIONS] [FILE] > PCM" "$aes3" to-pcm --pcm s8
to_wav="aes3 to-wav [OPTIONS] [FILE] > WAV"
words "error: invalid value for '--fill <zero|hold>': it is 'zero' or 'hold'" "$to_wav" "$aes3" to-wav --fill one
words "error: the argument '--fill <zero|hold>' cannot be used with '--valid'" "$to_wav" "$aes3" to-wav --fill hold --valid
words "error: the argument '--marked' needs '--fill <zero|hold>'" "$to_wav" "$aes3" to-wav --marked
words "error: the argument '--exact' cannot be used with '--valid' or '--fill <zero|hold>'" "$to_wav" "$aes3" to-wav --exact --fill zero
words "error: the argument '--exact' cannot be used with '--valid' or '--fill <zero|hold>'" "$to_wav" "$aes3" to-wav --exact --valid
words "error: the argument '--mono <both|first>' cannot be used with '--channels <A,B>'" "aes3 from-wav [OPTIONS] [FILE] > BLOCKFILE" "$aes3" from-wav --mono first --channels 1,2
words "error: unrecognized subcommand 'chek'

  tip: a similar subcommand exists: 'check'" "aes3 COMMAND [OPTIONS] < INPUT > OUTPUT
       aes3 check FILE
       aes3 COMMAND --help
       aes3 --explain [NUMBER]" "$aes3" chek

# ---- inputs that look like another form

"$aes3" encode <"$speech" >line.txt
"$aes3" encode --packed-out <"$speech" >line.packed
"$aes3" encode --packed-out <"$speech" | head -c -1 >line.raw
"$aes3" normal --packed-out --lsb-first <line.txt >line.lsb
: >empty
head -c 10000 /dev/zero >dead
tr -d 01 <line.txt | head -c 100 >separators
printf '\0' >none.packed

text="these are cells as text"
packed="these look like packed cells"
no_cell="no cell came: is the program running that writes the cells?"
# hints STATUS TEXT WORD..
hints() {
    judge "$*" told "$1" "$2
" "$aes3" "$3" ${4+"$4"} ${5+"$5"} ${6+"$6"}
}
hints 3 "aes3: refused 1 at 0
aes3: $packed: try \`--packed-in\`" check line.packed
hints 3 "aes3: refused 1 at 0
aes3: $packed: try \`--packed-in\`" decode line.raw
hints 3 "aes3: refused 1 at 0
aes3: $packed: try \`--packed-in --lsb-first\`" check line.lsb
printf '\211PNG\r\n\032\n\0\0\0\rIHDR' >picture.png
hints 3 "aes3: refused 1 at 0
aes3: if these are packed cells, try \`--packed-in\`" check picture.png
{ printf '\357\273\277'; cat line.txt; } >marked.txt
hints 3 "aes3: refused 1 at 0
aes3: the text begins with a byte order mark: save it as ASCII" check marked.txt
printf 'BZh91AY&SY' >line.bz2
hints 3 "aes3: refused 1 at 0
aes3: this file is compressed: unpack it first" check line.bz2
hints 3 "aes3: refused 10 at $(($(wc -c <line.txt) - 1))
aes3: $text: leave \`--packed-in\` out" check --packed-in line.txt
hints 3 "aes3: refused 10 at $(($(wc -c <line.raw) - 1))
aes3: these cells lack the last octet, which counts unused cells: try \`--raw-in\`" normal --packed-in line.raw
hints 0 "aes3: $text: leave \`--raw-in\` out" scan --raw-in line.txt
hints 0 "aes3: the cells look packed with the first in the lowest bit: try \`--lsb-first\`" show --packed-in line.lsb
hints 1 "aes3: the cells look packed with the first in the lowest bit: try \`--lsb-first\`" info --packed-in line.lsb
hints 3 "aes3: refused 1 at 0
aes3: this looks like a block file: \`aes3 encode\` makes cells of it" check "$speech"
head -c 24576 line.txt >line.8
hints 0 "aes3: $text: \`aes3 to-pcm\` makes samples of them" from-pcm line.8
hints 0 "aes3: $no_cell" watch empty
judge "watch: its rows stay" sh -c '[ "$(cat out)" = "end at 0 lost" ]'
hints 0 "aes3: $no_cell" watch separators
hints 0 "aes3: $no_cell" watch --packed-in none.packed
hints 0 "aes3: $no_cell" watch --raw-in empty
judge "watch: a line that never locks has cells" told 1 "" "$aes3" watch --raw-in dead
judge "nothing to hint at" told 0 "" "$aes3" check line.txt
judge "nothing, packed" told 0 "" "$aes3" check --packed-in line.packed
judge "nothing, raw" told 0 "" "$aes3" check --raw-in line.raw
judge "nothing, packed, lowest bit first, as info finds out" told 0 "" "$aes3" info line.lsb

# Where no file is named and standard error is no terminal, the refusal is all.
unnamed() {
    "$aes3" check <line.packed >out 2>err
    [ $? = 3 ] && [ "$(cat err)" = "aes3: refused 1 at 0" ] && "$aes3" watch <empty 2>err >out
    [ ! -s err ]
}
judge "no file is named" unnamed

# ---- samples that look like another width

python3 - <<'PYTHON' || exit 2
import math, random, struct
random.seed(5)
FRAMES = 20000
def tone(hertz, size, phase=0.0):
    return lambda n: size * math.sin(2 * math.pi * hertz * n / 48000 + phase)
def walk(pole, size):
    state = [0.0]
    def step(n):
        state[0] = pole * state[0] + random.gauss(0, size)
        return state[0]
    return step
def speech(gain):
    state = [0.0, 0.0]
    def step(n):
        pulse = 1.0 if n % 240 == 0 else random.gauss(0, 0.02)
        y = 1.85 * state[0] - 0.92 * state[1] + pulse
        state[:] = y, state[0]
        return 0.03 * gain * y * (0.2 + 0.8 * abs(math.sin(n / 3000)))
    return step
SOUNDS = {
    "tone": (tone(997, 0.5), tone(997, 0.5)),
    "chord": (tone(300, 0.3), tone(450, 0.2, 1)),
    "speech": (speech(1), speech(0.8)),
    "music": (walk(0.98, 0.03), walk(0.97, 0.03)),
    "silence": (lambda n: 0, lambda n: 0),
    "noise": (lambda n: random.uniform(-1, 1), lambda n: random.uniform(-1, 1)),
    "quiet": (lambda n: random.gauss(0, 0.0005), lambda n: random.gauss(0, 0.0005)),
    "high": (tone(15000, 0.9), tone(12000, 0.9)),
    "highest": (tone(23000, 0.9), tone(23500, 0.9)),
    "slow": (tone(5, 0.5), tone(3, 0.5)),
    "square": (lambda n: 0.7 if n // 50 % 2 else -0.7, lambda n: 0.7 if n // 70 % 2 else -0.7),
    "left": (tone(440, 0.5), lambda n: 0),
}
def octets(form, sample):
    if form == "s16":
        return struct.pack("<h", sample >> 16)
    if form == "s24":
        return struct.pack("<i", sample >> 8)[:3]
    return struct.pack("<i", sample >> 8 if form == "s24in32" else sample)
for name, channels in SOUNDS.items():
    samples = [max(-1 << 31, min((1 << 31) - 1, int(channel(n) * (1 << 31)))) for n in range(FRAMES) for channel in channels]
    for form in "s16", "s24", "s24in32", "s32":
        for bits in 32, 24, 16:
            with open(f"{name}.{bits}.{form}", "wb") as file:
                file.write(b"".join(octets(form, sample >> 32 - bits << 32 - bits) for sample in samples))
PYTHON
# hint FORM FILE: the hint that from-pcm gives where samples in FILE are read as FORM.
hint() { "$aes3" from-pcm --pcm "$1" "$2" 2>&1 >/dev/null | sed -n 's/^aes3: these look like //p'; }
# A sound in its own width, of 16, 24 and 32 bits, gets none.
wrong_hints() {
    for file in *.16.s* *.24.s* *.32.s*; do
        said=$(hint "${file##*.}" "$file")
        [ -z "$said" ] || echo "$file: $said"
    done >wrong
    cat wrong
    [ ! -s wrong ]
}
judge "no hint where the width is right" wrong_hints
# What is heard gets it where it was read in another width.
judge_hint() { judge "$2 read as $1: $3" sh -c '[ "$1" = "$2" ]' - "$(hint "$1" "$2")" "$3"; }
for sound in tone chord speech music; do
    judge_hint s32 $sound.16.s16 "samples of 16 bits: try \`--pcm s16\`"
    judge_hint s24 $sound.16.s16 "samples of 16 bits: try \`--pcm s16\`"
    judge_hint s24in32 $sound.16.s16 "samples of 16 bits: try \`--pcm s16\`"
    judge_hint s32 $sound.24.s24 "samples of 24 bits in 3 bytes: try \`--pcm s24\`"
    judge_hint s16 $sound.24.s24 "samples of 24 bits in 3 bytes: try \`--pcm s24\`"
    judge_hint s24 $sound.32.s32 "samples of 32 bits: leave \`--pcm\` out"
done
for sound in chord speech music; do
    judge_hint s16 $sound.24.s24in32 "samples of 24 bits in 4 bytes: try \`--pcm s24in32\`"
    judge_hint s16 $sound.32.s32 "samples of 32 bits: leave \`--pcm\` out"
done
# The speech of the examples, in each width and read in each.
for form in s16 s24 s24in32 s32; do
    "$aes3" to-pcm --pcm $form line.txt >speech.line.$form
    judge_hint $form speech.line.$form ""
done
judge_hint s32 speech.line.s16 "samples of 16 bits: try \`--pcm s16\`"
judge_hint s24 speech.line.s16 "samples of 16 bits: try \`--pcm s16\`"
judge_hint s32 speech.line.s24 "samples of 24 bits in 3 bytes: try \`--pcm s24\`"
judge "no refusal" sh -c '"$1" from-pcm music.16.s16 >out 2>err && [ -s out ]' - "$aes3"

# ---- the programs beside it

if [ -x "$cells" ]; then
    usage="aes3-cells [OPTIONS] [FILE] > CELLS"
    words "error: unexpected argument '-o' found" "$usage" "$cells" -o
    words "aes3-cells: --unit takes 1 or 2, the octets of a sample" "$usage" "$cells" --unit 3
    words "aes3-cells: --rate takes a frequency in Hz, 1 or more, as 24000000, 24M, 24000k or 44.1k" "$usage" "$cells" --rate x
    words "aes3-cells: --at needs --rate" "$usage" "$cells" --at 48k
    judge "aes3-cells: cells as text" told 1 "aes3-cells: these are cells as text already: \`aes3 check FILE\` reads them
" "$cells" line.txt
    judge "aes3-cells: packed cells" told 1 "aes3-cells: these are packed cells already: \`aes3 check --packed-in FILE\` reads them
" "$cells" line.packed
    judge "aes3-cells: packed cells, turned" told 1 "aes3-cells: these are packed cells already: \`aes3 check --packed-in --lsb-first FILE\` reads them
" "$cells" line.lsb
else
    echo "left out: aes3-cells (it is not built: bin/build aes3_cells_program)"
fi
if [ -x "$spoil" ]; then
    usage="aes3-spoil [OPTIONS] [FILE] > CELLS"
    words "error: unexpected argument '-o' found" "$usage" "$spoil" -o
    words "error: invalid value 'x' for '--cell <P>': the number of a cell, from 0 to 8796093022208" "$usage" "$spoil" --cell x
    judge "aes3-spoil: packed cells" told 3 "aes3-spoil: refused 1 at 0
aes3-spoil: $packed: try \`--packed-in\`
" "$spoil" line.packed
    judge "aes3-spoil: cells as text" told 3 "aes3-spoil: refused 10 at $(($(wc -c <line.txt) - 1))
aes3-spoil: $text: leave \`--packed-in\` out
" "$spoil" --packed-in line.txt
    judge "aes3-spoil: nothing to hint at" told 0 "" "$spoil" --cell 7 line.txt
    judge "aes3-spoil: no file is named" sh -c '! "$1" <line.packed 2>err >out && [ "$(cat err)" = "aes3-spoil: refused 1 at 0" ]' - "$spoil"
else
    echo "left out: aes3-spoil (it is not built: bin/build aes3_spoil_program)"
fi
tell
