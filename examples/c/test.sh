#!/bin/sh
# test.sh [PROGRAM [LIBRARY]]: builds the examples over libaes3_c.a by each compiler that is here, with all warnings as errors and
# with its checks of addresses and undefined behaviour, runs them, and compares what they tell with what PROGRAM tells;
# that the header declares what the library has, that each field stands where the header has it, and that the examples of include/README.md run. PROGRAM is bin/aes3 where none is given, LIBRARY what `bin/build aes3_c` makes.
# The last line is `N passed, M failed`; status 1 where one differs.
here=$(dirname "$(realpath "$0")")
# shellcheck source=examples/words.sh
. "$here/../words.sh"
take_words 0 2 "$@"
find_program aes3 "${1:-$here/../../bin/aes3}"
library=$(realpath "${2:-$here/../../crates/aes3_c/out/libaes3_c.a}") || exit 2
[ -e "$library" ] || { echo "test: no $library; run bin/build aes3_c"; exit 2; }
speech=$here/../speech.block
folder=$(mktemp -d) || exit 2
trap 'rm -rf "$folder"' EXIT
cd "$folder" || exit 2
passed=0 failed=0

differs() {
    echo "test: $1 differs"
    failed=$((failed + 1))
}

# judge WHAT COMMAND..: whether the command ends with status 0.
judge() {
    what=$1
    shift
    if "$@"; then passed=$((passed + 1)); else differs "$what"; fi
}

"$program" encode <"$speech" >line.txt
sed '48200s/^1/0/' line.txt | tail -c +12538 >damaged.txt
# In the other polarity, cut by the end; and with the last parity bit of all wrong.
head -c 3200000 line.txt | tr 01 10 >turned.txt
head -n 1152 line.txt | sed '$ { s/0$/x/; s/1$/0/; s/x$/1/; }' >marked.txt
# User bits, 24 octets a block, and none.
head -c $(($(wc -c <"$speech") / 64)) line.txt >user.bits
: >none.bits
inputs="line damaged turned marked"
for name in $inputs; do
    "$program" check <$name.txt >$name.want
    echo $? >>$name.want
done

# Cells in whole blocks and gaps: with the line dead in the midst, with no whole block, and of a few cells.
{ head -c 2000000 line.txt; head -c 170000 /dev/zero | tr '\0' 0; tail -c 1500000 line.txt; } >dead.txt
tail -c +20000 line.txt | head -c 30000 >none.txt
echo 1101 >few.txt
for name in $inputs dead none few; do
    "$program" check --gaps <$name.txt >$name.gaps
    echo $? >>$name.gaps
done

# The events of each, and of a line that slips, is lost and comes back, and whose status and validity bits change.
{
    head -c 900000 line.txt; tail -c +900006 line.txt | head -c 700000; head -c 70 line.txt; tail -c +1600000 line.txt
    "$program" rewrite --set2 emphasis=50/15 <line.txt
    "$program" rewrite --valid1 1 <line.txt
} >changes.txt
for name in $inputs dead none few changes; do
    "$program" watch <$name.txt >$name.events
    echo $? >>$name.events
done
# The sums of each, by periods shorter and longer than a block, and of all cells in one.
periods="5000 30011 800000 1099511627776"
for name in $inputs dead none few changes; do
    for every in $periods; do
        "$program" watch --every $every <$name.txt | grep '^sum ' >$name.$every.sums
    done
done
# The levels of each.
for name in $inputs dead none few changes; do
    "$program" info <$name.txt | grep -E '^(peak|peak_dbfs|rms_dbfs)[12] ' >$name.levels
done
for event in locked lost back slipped status validity end; do
    judge "an event '$event' in the tests" grep -q "^$event " ./*.events
done

# Samples, not of whole blocks, and the block file of them with the status that samples.c makes.
"$program" to-pcm <line.txt | head -c 400000 >speech.s32
status=85022c0000004a4154480000000000000000000000000000
"$program" from-pcm --status1 $status --status2 $status --mend-check <speech.s32 >speech.want

# WAV files: of the line in each width, with and without their length; of 8 bits in one channel; of 20 bits in the first two of three
# channels, with another chunk before the format and one behind the samples. And one that is cut in its header, and one in a frame.
for bits in 16 24 32; do
    "$program" to-wav --bits $bits --rate 48000 -o known$bits.wav <damaged.txt
    "$program" to-wav --bits $bits --rate 96000 <damaged.txt >unknown$bits.wav
done
{
    printf 'RIFF\377\377\377\377WAVEfmt \020\0\0\0\001\0\001\0\104\254\0\0\104\254\0\0\001\0\010\0data\377\377\377\377'
    head -c 5000 speech.s32
} >mono.wav
{
    printf 'RIFF\0\0\0\0WAVELIST\003\0\0\0abc\0fmt \050\0\0\0\376\377\003\0\200\273\0\0\200\227\006\0\011\0\030\0'
    printf '\026\0\024\0\0\0\0\0\001\0\0\0\0\0\020\0\200\0\0\252\0\070\233\161data\032\020\0\0'
    head -c 4122 speech.s32
    printf 'LIST\0\0\0\0'
} >three.wav
head -c 100 known24.wav >header.wav
head -c 1000 known24.wav >frame.wav
# Files whose header is rejected, each for another cause.
printf 'FORM\0\0\0\0AIFF' >form.wav
printf 'RIFF\0\0\0\0AVI ' >avi.wav
printf 'RF64\0\0\0\0WAVEds64\017\0\0\0\0\0\0\0\0\0\0\0\0\0\0\0\0\0\0\0' >sizes.wav
printf 'RIFF\0\0\0\0WAVEfmt \016\0\0\0\01\0\02\0\0\0\0\0\0\0\0\0\04\0' >format.wav
printf 'RIFF\0\0\0\0WAVEfmt \020\0\0\0\01\0\0\0\200\273\0\0\0\356\02\0\04\0\020\0' >channels.wav
printf 'RIFF\0\0\0\0WAVEdata\0\0\0\0' >data.wav
rejected="form avi sizes format channels data header"
# The words and the samples of the block file in each form, and the block files of these.
forms="own alsa am824 s32 s24 s24in32 s16"
for form in own alsa am824; do
    "$program" decode --words $form <line.txt >speech.$form
    "$program" encode --words $form <speech.$form | "$program" decode >back.$form
done
for form in s32 s24 s24in32 s16; do
    "$program" to-pcm --pcm $form <line.txt >speech.$form
    zeros=000000000000000000000000000000000000000000000000
    "$program" from-pcm --pcm $form --status1 $zeros --status2 $zeros <speech.$form >back.$form
done
wavs="known16 known24 known32 unknown16 unknown24 unknown32 mono three"
for name in $wavs; do "$program" from-wav <$name.wav 2>/dev/null | "$program" encode >$name.line; done

# Samples of the line with jitter, in an octet each and in two, and what aes3-cells makes of them.
recover=$here/../../crates/aes3_cells_program/out/aes3_cells_program
if [ -x "$recover" ] && command -v python3 >/dev/null; then
    head -c 2000000 line.txt | "$here/../neighbours/samples.py" 3.90625 0.3 >capture.samples
    python3 -c 'import sys; sys.stdout.buffer.write(b"".join(bytes([0x55, it << 3]) for it in sys.stdin.buffer.read()))' \
        <capture.samples >wide.samples
    "$recover" --packed-out <capture.samples >capture.want 2>/dev/null
    "$recover" --packed-out --unit 2 --bit 11 <wide.samples >wide.want 2>/dev/null
    # The sample of each report.
    "$program" check --packed-in capture.want | "$recover" --places capture.samples >capture.places 2>/dev/null
    "$program" check --packed-in wide.want | "$recover" --unit 2 --bit 11 --places wide.samples >wide.places 2>/dev/null
else
    echo "left out: captures beside aes3-cells (bin/build aes3_cells_program makes it, and python3 the samples)"
fi

# The lines of gaps.c, on each input.
gaps() {
    for name in $inputs dead none few; do
        { ./gaps <$name.txt && echo 0 || echo $?; } >got
        judge "gaps by $1 on $name" cmp -s $name.gaps got
    done
}

# The lines of watch.c, on each input, with its cells in pieces too.
events() {
    for name in $inputs dead none few changes; do
        for seed in '' 1 2; do
            # shellcheck disable=SC2086
            { ./watch $seed <$name.txt && echo 0 || echo $?; } >got
            judge "watch ${seed:+in pieces $seed }by $1 on $name" cmp -s $name.events got
        done
    done
}

# The lines of levels.c likewise.
levels() {
    for name in $inputs dead none few changes; do
        ./levels <$name.txt >got
        judge "levels by $1 on $name" cmp -s $name.levels got
    done
}

# The lines of sums.c likewise.
sums() {
    for name in $inputs dead none few changes; do
        for every in $periods; do
            for seed in '' 3; do
                # shellcheck disable=SC2086
                ./sums $every $seed <$name.txt >got
                judge "sums of $every cells ${seed:+in pieces $seed }by $1 on $name" cmp -s $name.$every.sums got
            done
        done
    done
    judge "sums of no cells by $1" eval './sums 0 <few.txt 2>/dev/null; [ $? = 2 ]'
}

# A command that tells the reports of cells, on each input.
compare() {
    for name in $inputs; do
        { "$@" <$name.txt && echo 0 || echo $?; } >got
        judge "$* on $name" cmp -s $name.want got
    done
}

# Whether wav rejects a file in the words of PROGRAM, and at the same octet.
says_why() {
    ./wav <"$1" >got 2>said
    [ $? = 3 ] && sentence=$(sed -n 's/^wav: octet \([0-9]*\): \(.*\)/\2 (octet \1)/p' said) && [ -n "$sentence" ] &&
        "$program" from-wav "$1" 2>&1 >/dev/null | grep -qF "$sentence"
}

build() { # COMPILER FLAGS..
    compiler=$1
    shift
    command -v "$compiler" >/dev/null || {
        echo "left out: the examples by $compiler (it is not installed)"
        return
    }
    checks="-fsanitize=address,undefined -fno-sanitize-recover=all"
    echo 'int main(void) { return 0; }' >one.c
    "$compiler" "$@" $checks -o one one.c 2>/dev/null && ./one || {
        echo "left out: the checks of addresses and undefined behaviour by $compiler (they do not work here)"
        checks=
    }
    for example in check gaps watch sums levels encode calls layout user samples capture stream places wav recover blocks; do
        "$compiler" "$@" -O2 -Wall -Wextra -pedantic -Werror $checks -I"$here/../../include" \
            -o $example "$here/$example.c" -x none "$library" || {
            differs "$example.c, which $compiler does not compile,"
            return
        }
    done
    rm -f pieces guards
    # Their guard pages are Linux's.
    if [ "$(uname)" = Linux ]; then
        "$compiler" "$@" -O2 -Wall -Wextra -Werror -I"$here/../../include" -o pieces "$here/pieces.c" -x none "$library" ||
            differs "pieces.c, which $compiler does not compile,"
        # shellcheck disable=SC2086
        "$compiler" "$@" -O2 -Wall -Wextra -pedantic -Werror $checks -I"$here/../../include" -o guards "$here/guards.c" -x none "$library" ||
            differs "guards.c, which $compiler does not compile,"
    fi
    judge "calls by $compiler" ./calls
    if [ -s examples.c ]; then
        # shellcheck disable=SC2086
        judge "examples of include/README.md that $compiler compiles" "$compiler" "$@" -O2 -Wall -Wextra -pedantic -Werror \
            -Wno-missing-field-initializers $checks -I"$here/../../include" -o examples examples.c -x none "$library"
        judge "the examples of include/README.md by $compiler" eval './examples | grep -qx "$(grep -c "^static void" examples.c) examples"'
    fi
    judge "the layout by $compiler" ./layout
    ./encode <"$speech" >got
    judge "encode by $compiler" cmp -s got line.txt
    ./user user.bits <"$speech" | "$program" encode | "$program" decode >user.block
    ./user <user.block >got
    judge "user by $compiler" cmp -s got user.bits
    judge "only user bits by $compiler" eval './user none.bits <user.block | cmp -s - "$speech"'
    ./samples JATH <speech.s32 >got
    judge "samples by $compiler" cmp -s got speech.want
    ./samples <speech.want | head -c 400000 >got
    judge "samples back by $compiler" cmp -s got speech.s32
    for name in $wavs; do
        ./wav <$name.wav >got
        judge "wav by $compiler on $name" cmp -s got $name.line
    done
    for bits in 16 24 32; do
        ./wav got.wav $bits 48000 <damaged.txt
        judge "wav by $compiler, back to $bits bits," cmp -s got.wav known$bits.wav
    done
    for name in header frame; do
        ./wav <$name.wav >got 2>/dev/null
        judge "wav by $compiler on a file that is cut in its $name" [ $? = 3 ]
    done
    ./blocks <"$speech" >got
    judge "blocks by $compiler" sh -c '"$0" encode --packed-out <"$1" | head -c -1 | cmp -s - got' "$program" "$speech"
    judge "many blocks by $compiler" ./blocks test
    [ ! -e guards ] || judge "calls beside guard pages by $compiler" ./guards
    for form in $forms; do
        ./blocks "$form" <"$speech" >got
        judge "blocks as $form by $compiler" cmp -s got "speech.$form"
        ./blocks from "$form" <got >back
        judge "blocks from $form by $compiler" cmp -s back "back.$form"
    done
    for name in $rejected; do judge "the cause of $name.wav by $compiler" says_why $name.wav; done
    compare ./check
    gaps "$compiler"
    events "$compiler"
    sums "$compiler"
    levels "$compiler"
    for each in capture:0:1 wide:11:2; do
        IFS=: read -r name bit unit <<WORDS
$each
WORDS
        [ ! -e $name.want ] || {
            ./capture "$bit" "$unit" <$name.samples >got 2>/dev/null
            judge "capture by $compiler on $name" cmp -s $name.want got
            for piece in 3 1000 65536; do
                ./stream "$bit" "$unit" $piece $piece <$name.samples >got 2>/dev/null
                judge "stream by $compiler on $name, $piece octets at once" cmp -s $name.want got
            done
            ./places "$bit" "$unit" <$name.samples >got 2>/dev/null
            judge "places by $compiler on $name" cmp -s $name.places got
            [ ! -e pieces ] || judge "pieces by $compiler on $name" eval 'head -c 60000 $name.samples | ./pieces $bit $unit'
        }
    done
    echo "built and run: $compiler $*${checks:+ $checks}"
}

# Each call has one in the reference.
if command -v python3 >/dev/null; then
    python3 "$here/../../bin/make-reference" --examples >examples.c
    judge "an example of each call" [ "$(grep -c '^static void' examples.c)" = "$(grep -c '^[a-z][a-z0-9_ ]*[ *]aes3_[a-z_]*(' "$here/../../include/aes3.h")" ]
else
    echo "left out: the examples of include/README.md (python3 is not installed)"
fi

build gcc -std=c99
build clang -std=c99
build g++ -x c++ -std=c++11
build clang++ -x c++ -std=c++11

judge "the Makefile" make -s -C "$here" OUT="$folder" LIB="$library"
# What aes3.h says of the stack of each call, to 64 octets, as the C library's own calls may take some.
told_stack() {
    awk '
        FNR == 1 { file++ }
        file == 1 { if ($NF > used[$1]) used[$1] = $NF; next }
        / \* Stack in bytes/ { inside = 1; next }
        / \*\// { inside = 0 }
        !inside || !/ \* - / { next }
        {
            bytes = $0
            gsub(/^.*: |,| at most$/, "", bytes)
            bytes += 0
            if (/each other/) other = bytes
            while (match($0, /aes3_[a-z_]+\(\)/)) {
                name = substr($0, RSTART, RLENGTH - 2)
                $0 = substr($0, RSTART + RLENGTH)
                if (used[name] > bytes + 64 || used[name] < bytes - 64) { print name, used[name], "not", bytes; wrong = 1 }
                delete used[name]
            }
        }
        END {
            for (name in used) if (used[name] > other + 64) { print name, used[name], "more than", other; wrong = 1 }
            exit wrong || other == ""
        }
    ' used "$here/../../include/aes3.h"
}
judge "the stack of a call" eval './stack >stacks'
cat stacks
sed 's/,.* / /' stacks >used
judge "the stack that aes3.h says" told_stack

# What the library wants of others.
nm -u "$library" | sed -n 's/^ *U //p' | sort -u | tr '\n' ' ' >wants
echo "wants: $(cat wants)"
judge "what the library wants" [ "$(cat wants)" = "memcpy memmove memset " ]

# The functions that the header declares but for those that it has itself, and those that the library has.
sed -n '/^static/d; s/^[a-z][a-z0-9_ ]*[ *]\(aes3_[a-z_]*\)(.*/\1/p' "$here/../../include/aes3.h" | sort >declared
nm -g --defined-only "$library" | sed -n 's/.* T \(aes3_.*\)/\1/p' | sort >there
judge "the header" cmp declared there
# Those of them that take a pointer, all of which guards.c calls.
sed -n '/^static/d; s/^[a-z][a-z0-9_ ]*[ *]\(aes3_[a-z_]*\)(.*[*[].*/\1/p' "$here/../../include/aes3.h" | sort >pointers
grep -o 'aes3_[a-z_0-9]*(' "$here/guards.c" | tr -d '(' | sort -u >guarded
judge "guards.c, which does not call each," [ -z "$(comm -23 pointers guarded)" ]

echo "$passed passed, $failed failed"
[ "$failed" = 0 ]
