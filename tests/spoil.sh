#!/bin/sh
# tests/spoil.sh [PROGRAM [AES3]]: aes3-spoil on worked rows, what `aes3 check` and `show` tell of each error, both forms of cells, refusals
# and words that are refused, cells that leave before it waits, little memory, the examples of its help, its page and completions, and 200
# random lines with random errors beside what Python makes of them (spoil.py). PROGRAM is the one that bin/build aes3_spoil_program leaves,
# AES3 that of bin/build.
#
# The last line is `N passed, M failed`, and the status 0 where none failed.

root=$(dirname "$(dirname "$(realpath "$0")")")
# shellcheck source=examples/words.sh
. "$root/examples/words.sh"
take_words 0 2 "$@"
program=$(realpath -m "${1:-$root/crates/aes3_spoil_program/out/aes3_spoil_program}")
aes3=$(realpath -m "${2:-$root/crates/aes3/out/aes3}")
[ -x "$program" ] || {
    echo "left out: tests/spoil.sh (there is no aes3-spoil: bin/build aes3_spoil_program)"
    echo "0 passed, 0 failed"
    exit 0
}

# shellcheck source=tests/recipes.sh
. "$root/tests/recipes.sh"
cd "$work" || exit 2
make_zero >zero
mkdir bin
ln -s "$program" bin/aes3-spoil
ln -s "$aes3" bin/aes3
PATH=$work/bin:$PATH

# row WANTED WORDS..: what is written of the cells `in`, with nothing on standard error.
row() {
    printf '%s' "$1" >want
    shift
    # shellcheck disable=SC2086
    aes3-spoil "$@" <in >got 2>told
    status=$?
    judge "$* has status $status: $(cat told)" [ "$status" = 0 -a ! -s told ]
    judge "$*: $(cat got)" cmp want got
}

# found WANTED WORDS..: what `aes3 check --gaps` or another command in `reader` tells of three blocks with these errors.
reader="check"
found() {
    printf '%s' "$1" >want
    shift
    blocks 3 | aes3-spoil "$@" | aes3 $reader >got
    judge "$* | aes3 $reader: $(cat got)" cmp want got
}

# refused LINE COMMAND..: status 3 and this line.
refused() {
    line=$1
    shift
    "$@" >got 2>told
    status=$?
    judge "status $status of $*" [ "$status" = 3 ]
    judge "$*: $(cat told)" [ "$(cat told)" = "aes3-spoil: refused $line" ]
}

# wrong TEXT WORDS..: the words are no command line, which the first line says.
wrong() {
    text=$1
    shift
    aes3-spoil "$@" </dev/null >got 2>told
    status=$?
    judge "status $status of $*" [ "$status" = 2 -a ! -s got ]
    judge "$*: $(head -n 1 told)" [ "$(head -n 1 told)" = "$text" ]
}

lf='
'

# ---- worked rows: cells, each error, several, and errors that come again and again
echo 0110100111 >in
row "0110100111$lf"
row "0110100111$lf" in
row "0110100111$lf" -
row "1110100111$lf" --cell 0
row "0110100110$lf" --cell 9
row "0110100111$lf" --cell 10
row "0110100111$lf" --cell 8796093022208
row "0000000111$lf" --cell 1 --cell 2 --cell 4
row "0110100111$lf" --cell 3 --cell 3
row "0111011000$lf" --invert 3
row "0111000111$lf" --invert 3 --invert 5
row "0111001000$lf" --invert 3 --cell 5
row "110100111$lf" --drop 0
row "011010011$lf" --drop 9
row "0000111$lf" --drop 1 --drop 2 --drop 4 --drop 4
row "00110100111$lf" --double 0
row "01101001111$lf" --double 9
row "010100111$lf" --drop 1 --double 1
row "01001001111$lf" --cell 2 --double 9
row "01000011111$lf" --cell 1 --cell 2 --double 3 --double 3 --invert 1 --invert 2 --cell 4 --cell 5 --cell 7 --cell 7 --cell 6 --drop 8 --double 5
row "0110000001$lf" --every 4:cell --cell 7
row "01100011$lf" --every 4:drop
row "011011001111$lf" --every 4:double --drop 12
row "0111010110$lf" --every 3:invert

# ---- both forms
: >in
row ""
row "$(printf '')" --cell 5
octets 69 C0 06 | cat >in
judge "packed to text" [ "$(aes3-spoil --packed-in --cell 0 <in)" = 1110100111 ]
aes3-spoil --packed-in --packed-out --double 9 <in >got
octets 69 E0 05 >want
judge "packed to packed" cmp want got
aes3-spoil --packed-in --packed-out --drop 0 --drop 1 --drop 2 <in >got
octets 4E 01 >want
judge "packed and three lost" cmp want got
blocks 1 >in
aes3-spoil --drop 70 --invert 9000 <in >text
tr -d '\n' <in | cut -c 1-70,72- | tr -d '\n' >cells
judge "lines of 64" [ "$(sed -n '1,383{/^.\{64\}$/!p;}' text; sed -n 384p text | wc -c; wc -l <text)" = "64${lf}384" ]
aes3 encode <"$root/examples/zero.block" >in
aes3-spoil --parity 640 --drop 999 --every 500:double --cell 20000 <in >text
aes3-spoil --parity 640 --drop 999 --every 500:double --cell 20000 --packed-out <in | aes3-spoil --packed-in >other
judge "the same in both forms" cmp text other

# ---- what a receiver makes of each, of blocks whose cells are known
found "fault at 0 cell 108 biphase${lf}whole at 24576 before 0${lf}whole at 49152 before 0$lf" --cell 108
found "fault at 0 cell 108 biphase${lf}whole at 24576 before 0${lf}whole at 49152 before 0$lf" --biphase 64:22
found "fault at 0 cell 110 biphase${lf}whole at 24576 before 0${lf}whole at 49152 before 0$lf" --cell 109
found "whole at 0 before 0${lf}fault at 24576 cell 24642 preamble${lf}whole at 49152 before 0$lf" --preamble 24640
found "whole at 0 before 0${lf}whole at 49152 before 0$lf" --preamble 24576
found "marked at 0 before 0 wrong 1${lf}whole at 24576 before 1${lf}whole at 49152 before 1$lf" --parity 128
found "marked at 0 before 0 wrong 2${lf}whole at 24576 before 0${lf}whole at 49152 before 0$lf" --parity 128 --parity 24512
found "whole at 0 before 0${lf}fault at 24576 cell 30002 biphase${lf}whole at 49151 before 0$lf" --drop 30000
found "whole at 0 before 0${lf}fault at 24576 cell 30002 biphase${lf}whole at 49153 before 0$lf" --double 30000
found "whole at 0 before 0${lf}whole at 24577 before 0${lf}whole at 49153 before 0$lf" --double 24578
found "whole at 0 before 0${lf}whole at 49153 before 0$lf" --double 24579
found "whole at 0 before 0${lf}whole at 24576 before 0${lf}whole at 49152 before 0$lf" --check-byte 24576
found "fault at 0 cell 24000 preamble${lf}fault at 24576 cell 48000 preamble${lf}fault at 49152 cell 72000 preamble$lf" --every 24000:cell
with_status 1 850200000000000000000000000000000000000000000000 <zero >status.txt
aes3 rewrite --mend-check <status.txt | aes3-spoil | aes3 show | grep -c check=good >got
aes3 rewrite --mend-check <status.txt | aes3-spoil --check-byte 0 | aes3 show | grep -c check=bad >>got
judge "a wrong check byte: $(cat got)" [ "$(cat got)" = "1${lf}1" ]

# ---- refusals, and words that are none
printf '0101x' >in
refused "1 at 4" aes3-spoil in
refused "5${lf}aes3-spoil: /nonexistent: No such file or directory (os error 2)" aes3-spoil /nonexistent
refused "5${lf}aes3-spoil: .: Is a directory (os error 21)" aes3-spoil .
octets 69 C0 >in
refused "10 at 1" aes3-spoil --packed-in in
blocks 1 >in
if [ -w /dev/full ]; then
    judge "a full disk" sh -c "aes3-spoil in 2>told >/dev/full; [ \$? = 3 ] && [ \"\$(cat told)\" = 'aes3-spoil: refused 6' ]"
    judge "help on a full disk" sh -c "aes3-spoil --help 2>told >/dev/full; [ \$? = 3 ] && [ \"\$(cat told)\" = 'aes3-spoil: refused 6' ]"
fi
{ blocks 1; echo x; } >in
aes3-spoil --cell 70 in >got 2>told
judge "what is decided before a refusal is written" sh -c "[ \"\$(cat told)\" = 'aes3-spoil: refused 1 at 24960' ] && [ \$(wc -l <got) = 384 ]"
cell="the number of a cell, from 0 to 8796093022208"
slot="the first cell of a subframe, a colon and a time slot from 4 to 31"
kind="a number of cells from 1, a colon, and cell, invert, drop or double"
wrong "error: invalid value 'x' for '--cell <P>': $cell" --cell x
wrong "error: invalid value '-1' for '--drop <P>': $cell" --drop=-1
wrong "error: invalid value '' for '--preamble <P>': $cell" --preamble ''
wrong "error: invalid value '8796093022209' for '--double <P>': $cell" --double 8796093022209
wrong "error: invalid value '99999999999999999999' for '--invert <P>': $cell" --cell 1 --invert 99999999999999999999
for text in 64 64: :12 64:3 64:32 64:12:1 x:12; do
    wrong "error: invalid value '$text' for '--biphase <P:SLOT>': $slot" --biphase "$text"
done
for text in 64 64: :drop 0:drop 64:lose 64:drop:1; do
    wrong "error: invalid value '$text' for '--every <N:KIND>': $kind" --every "$text"
done
many="error: more than 64 errors (--check-byte counts as two): run aes3-spoil twice, or use --every"
# shellcheck disable=SC2046 # they are words
wrong "$many" $(seq 65 | sed 's/^/--cell /')
# shellcheck disable=SC2046
wrong "$many" $(seq 63 | sed 's/^/--drop /') --check-byte 0
# shellcheck disable=SC2046
judge "64 errors" aes3-spoil $(seq 62 | sed 's/^/--drop /') --check-byte 0 --every 9:cell /dev/null
wrong "error: unexpected argument '--none' found" --none
wrong "error: unexpected argument 'b' found" a b
wrong "error: the argument '--every <N:KIND>' cannot be used multiple times" --every 5:drop --every 6:drop
printf 'a\377b' >word
judge "words that are not UTF-8" sh -c "aes3-spoil \"\$(cat word)\" 2>told; [ \$? = 2 ] && [ \"\$(head -n 1 told)\" = 'error: the words are not UTF-8' ]"
judge "help" sh -c 'aes3-spoil --help | grep -q -e --check-byte'
judge "its version" test "$(aes3-spoil --version)" = "aes3-spoil $(aes3 --version | cut -d' ' -f2)"

# ---- what is decided leaves before it waits: all but what makes no whole word
judge "live" sh -c "{ printf '%0200d' 0; for _ in \$(seq 600); do [ -s live ] && exit; sleep 0.1; done; : >late; } | aes3-spoil --cell 3 --drop 100 | head -n 3 >live; printf '%s\n' 0001\$(printf '%060d' 0) \$(printf '%064d' 0) \$(printf '%064d' 0) | cmp - live && [ ! -e late ]"

# ---- with little memory it is refused, and does not end otherwise
for size in 900 1200 1600 2000 2400 3000; do
    judge "memory of $size KB" sh -c "ulimit -v $size 2>/dev/null; aes3-spoil --cell 3 in >got 2>told; case \$? in 0) ;; 3) read -r line <told; case \$line in *refused*) ;; *) false ;; esac ;; *) [ ! -s got ] ;; esac"
done

# ---- the examples of help; its options in the manual page and the completions
aes3 encode <"$root/examples/speech.block" >line.txt
aes3 encode --packed-out <"$root/examples/speech.block" >line.cells
aes3-spoil --help | sed -n '/^Examples/,$s/^    \([^ ].*\)/\1/p' >examples
judge "help has examples" [ -s examples ]
while IFS= read -r line; do
    eval "$line" >got 2>told </dev/null
    status=$?
    judge "status $status of $line: $(cat told)" [ "$status" -le 1 -a ! -s told ]
done <examples
aes3-spoil --help >help
tr -d '\134' <"$root/man/aes3-spoil.1" >page
# shellcheck disable=SC2013 # they are words
for option in $(sed -n '/^Options/,/^$/p' help | grep -o -e '--[a-z][a-z-]*' | sort -u); do
    name=${option#--}
    judge "the manual page lacks $option" grep -q -F -e "$option" page
    for shell in aes3-spoil.bash _aes3-spoil aes3-spoil.fish; do
        judge "$shell lacks $option" grep -q -e "-l $name\|--$name" "$root/completions/$shell"
    done
done

if command -v python3 >/dev/null; then
    python3 "$root/tests/spoil.py" "$program" >random 2>&1
    sed '$d' random >&2
    passed=$((passed + $(tail -n 1 random | cut -d' ' -f1))) failed=$((failed + $(tail -n 1 random | cut -d' ' -f3)))
else
    echo "left out: random errors beside Python's (python3 is not installed)"
fi
tell
