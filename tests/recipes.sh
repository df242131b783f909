# shellcheck shell=sh
# Recipes for the inputs and the expected output of rows: each writes bytes to standard output. They use the line code alone and
# plain tools, never the program. What tests/judging.sh has is here too.

# shellcheck source=tests/judging.sh
. "$(dirname "$(realpath "$0")")/judging.sh"

# 28 slots of bit 0, behind a preamble that ends at the level before it.
slots=11001100110011001100110011001100110011001100110011001100

# The text of the zero block, whose payloads are all 0: 384 lines of 64 cells.
make_zero() {
    echo "11101000$slots"
    subframe=1
    while [ $subframe -lt 383 ]; do
        printf '%s\n' "11100100$slots" "11100010$slots"
        subframe=$((subframe + 2))
    done
    echo "11100100$slots"
}

# A file so many times.
repeated() {
    left=$1
    while [ "$left" -gt 0 ]; do
        cat "$2"
        left=$((left - 1))
    done
}

# Ten cells, so many times, in which a preamble of a block begins at every fifth.
dense() {
    left=$1
    while [ "$left" -gt 0 ]; do
        printf 1110100010
        left=$((left - 1))
    done
}

# So many zero blocks as text.
blocks() { repeated "$1" "$work/zero"; }

# So many zero bytes: words of a block file whose payload is 0.
zeros() { head -c "$1" /dev/zero; }

# N zero blocks as words in another form, of which those with Z, with X and with Y have these octets.
zero_words() {
    # shellcheck disable=SC2086
    { octets $2; octets $4; } >"$work/first_words"
    # shellcheck disable=SC2086
    { octets $3; octets $4; } >"$work/other_words"
    { cat "$work/first_words"; repeated 191 "$work/other_words"; } >"$work/words"
    repeated "$1" "$work/words"
}
alsa_words() { zero_words "$1" '08 00 00 00' '02 00 00 00' '04 00 00 00'; }
am824_words() { zero_words "$1" '30 00 00 00' '10 00 00 00' '00 00 00 00'; }

# The bytes that the words name in hexadecimal digits.
octets() {
    for octet; do
        # shellcheck disable=SC2059 # the format is the octet
        printf "\\$(printf %03o "0x$octet")"
    done
}

# So many zero blocks packed, without the last octet.
packed_blocks() { repeated "$1" "$work/packed"; }

# The octets of zero blocks, each with its first cell in the lowest bit.
lowest_first() { LC_ALL=C tr '\350\314\344\342' '\027\063\047\107'; }

# The zero block packed, without the last octet.
make_packed() {
    octets E8 CC CC CC CC CC CC CC
    subframe=1
    while [ $subframe -lt 383 ]; do
        printf '\344\314\314\314\314\314\314\314\342\314\314\314\314\314\314\314'
        subframe=$((subframe + 2))
    done
    octets E4 CC CC CC CC CC CC CC
}

# Filters of text: its cells alone; with 0 and 1 exchanged; without the first bytes; the first bytes alone; with a space behind
# every 8 cells and CR LF behind each line.
cells() { tr -d '\n'; }
exchanged() { tr 01 10; }
without_first() { tail -c +$(($1 + 1)); }
first() { head -c "$1"; }
spaced() { sed "s/......../& /g; s/\$/$(printf '\r')/"; }

# Filters of cells without line feeds: without the cell of this number, from 0; with that cell turned.
lost() { awk -v n="$1" '{ print substr($0, 1, n) substr($0, n + 2) }'; }
turned() { awk -v n="$1" '{ print substr($0, 1, n) (1 - substr($0, n + 1, 1)) substr($0, n + 2) }'; }

# Filter of text: the lines with these numbers, from 1, end in other cells.
ending() {
    cells=$1
    shift
    script=
    for number; do
        script="$script${number}s/.\\{${#cells}\\}\$/$cells/;"
    done
    sed "$script"
}

# The first line of the text is another.
first_line() {
    echo "$1"
    tail -n +2
}

# The last line of the text is another.
last_line() {
    sed '$d'
    echo "$1"
}

# The zero block with the channel status of 48 hexadecimal digits in channel 1 or 2: a set bit turns the level within slot
# 30, and parity with it.
with_status() {
    status=$2
    frame=0
    set_lines=
    while [ -n "$status" ]; do
        rest=${status#??}
        byte=$((0x${status%"$rest"}))
        status=$rest
        for bit in 0 1 2 3 4 5 6 7; do
            [ $((byte >> bit & 1)) = 0 ] || set_lines="$set_lines $((2 * frame + $1))"
            frame=$((frame + 1))
        done
    done
    # shellcheck disable=SC2086
    ending 1010 $set_lines
}

# A block file with the channel status of 48 hexadecimal digits in channel 1, all else zero.
status_file() {
    status=$1
    while [ -n "$status" ]; do
        rest=${status#??}
        byte=$((0x${status%"$rest"}))
        status=$rest
        for bit in 0 1 2 3 4 5 6 7; do
            [ $((byte >> bit & 1)) = 0 ] && printf '\0\0\0\0\0\0\0\0' || printf '\0\0\0\300\0\0\0\0'
        done
    done
}

# Filter of a block file without status: each block with these statuses in channel 1 and in channel 2, of 48 hexadecimal digits
# each. A set bit turns bit 30 of a word, and parity with it.
stamped() {
    octets=$(od -An -v -to1 -w4 | awk -v first="$1" -v second="$2" '
        function bit(status, n) {
            return int((index("0123456789abcdef", tolower(substr(status, 2 * int(n / 8) + (n % 8 < 4 ? 2 : 1), 1))) - 1) / 2 ^ (n % 4)) % 2
        }
        {
            if (bit(NR % 2 ? first : second, int((NR - 1) % 384 / 2))) $4 = (3 - substr($4, 1, 1)) substr($4, 2)
            printf "\\%s\\%s\\%s\\%s", $1, $2, $3, $4
        }')
    # shellcheck disable=SC2059 # the format is the octets
    printf "$octets"
}

# The same with the status that claims nothing: no copyright, no sampling frequency, words of 24 bits at most.
unknown=040000010100000000000000000000000000000000000000
unclaimed() { stamped $unknown $unknown; }

# A status of zeros.
no_status=000000000000000000000000000000000000000000000000

# Lines of text, one an argument.
say() { [ $# = 0 ] || printf '%s\n' "$@"; }

# The marks of so many zero blocks of which the first cells are missing, after this level.
marks() {
    awk -v missing="$1" -v blocks="$2" -v level="$3" 'BEGIN {
        for (i = 0; i < 384 * blocks; i++)
            if (64 * i >= missing)
                printf "mark %s at %d before %s\n", i % 384 == 0 ? "Z" : i % 2 ? "Y" : "X", 64 * i - missing, level
    }'
}

# The status lines of a block: its number, the channel, and the fields.
professional="professional payload=pcm emphasis=not-indicated unlocked=no rate=not-indicated mode=not-indicated"
professional="$professional user=not-indicated aux=undefined word=not-indicated b2high=0 b3=0 b4=0 b5=0 origin=...."
professional="$professional destination=.... local=0 time=0 unreliable=0000 b22low=0 check=good"
consumer="consumer payload=pcm copyright=asserted emphasis=none mode=0 category=general generation=0"
consumer="$consumer source=not-specified number=not-specified rate=44100 accuracy=level2 b3high=0 greatest=20"
consumer="$consumer word=not-indicated original=0 rest=00000000000000000000000000000000000000"

# The status line of a block and a channel whose fields are those given, with some of them replaced.
status_line() {
    line="block=$1 channel=$2 $3"
    shift 3
    for field; do
        line=$(printf '%s' "$line" | sed "s|${field%%=*}=[^ ]*|$field|")
    done
    printf '%s\n' "$line"
}

# The lines of so many whole blocks one behind the other: the place of the first, how many, and the level before.
speech_blocks() {
    awk -v at="$1" -v blocks="$2" -v level="$3" 'BEGIN {
        for (i = 0; i < blocks; i++) printf "whole at %d before %s\n", at + 24576 * i, level
    }'
}

# What the page of zero blocks tells of a channel.
info_channel() {
    say "status$1 $consumer" "changes$1 0" "invalid$1 0" "peak$1 0" "peak_dbfs$1 -inf" "rms_dbfs$1 -inf" "silent$1 yes"
}

# What is shown of so many blocks of the speech: consumer use, no copyright asserted, 48 kHz, 24 bits, on both channels.
speech_status() {
    fields=$(status_line 0 1 "$consumer" copyright=not-asserted rate=48000 greatest=24 word=24)
    awk -v fields="${fields#block=0 channel=1}" -v blocks="$1" 'BEGIN {
        for (i = 0; i < blocks; i++) printf "block=%d channel=1%s\nblock=%d channel=2%s\n", i, fields, i, fields
    }'
}

# 48 hexadecimal digits of zeros but for bytes given as `number:digits`.
status_of() {
    number=0
    while [ $number -lt 24 ]; do
        byte=00
        for given; do
            [ "${given%:*}" != $number ] || byte=${given#*:}
        done
        printf %s "$byte"
        number=$((number + 1))
    done
}

# Zero blocks, one for each value of a byte of channel 1's status, whose first byte is given too where it is another.
blocks_with_byte() {
    first_byte=$1
    number=$2
    shift 2
    for value; do
        blocks 1 | with_status 1 "$(status_of "0:$first_byte" "$number:$value")"
    done
}

# What is shown of these blocks: the fields of the first status, a field, and its word in each block.
shown() {
    base=$1
    changed=$2
    shift 2
    block=0
    for word; do
        status_line $block 1 "$base" "$changed=$word"
        status_line $block 2 "$consumer"
        block=$((block + 1))
    done
}

# A status line's fields with some of them replaced.
fields() {
    line=$(status_line 0 1 "$@")
    printf %s "${line#block=0 channel=1 }"
}

make_zero >"$work/zero"
make_packed >"$work/packed"
