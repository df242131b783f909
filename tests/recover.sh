#!/bin/sh
# tests/recover.sh [PROGRAM [LIBRARY [SPOIL]]]: the program `recover` of examples/c, cpp, python and rust. On whole, damaged and cut lines, on
# noise and on rejected input, all four have to print the faults and gaps of `PROGRAM check --gaps`, to write the WAV file of
# `PROGRAM to-wav -o`, and to end with the same status. If something fails, the status is 3 and the file has no header.
# PROGRAM is bin/aes3 where none is given, LIBRARY what `bin/build aes3_c` makes, SPOIL the built aes3-spoil, which damages lines.
# The last line is `N passed, M failed`; status 1 where one differs.
root=$(dirname "$(dirname "$(realpath "$0")")")
# shellcheck source=examples/words.sh
. "$root/examples/words.sh"
take_words 0 3 "$@"
find_program aes3 "${1:-$root/bin/aes3}"
library=$(realpath "${2:-$root/crates/aes3_c/out/libaes3_c.a}") || exit 2
[ -e "$library" ] || { echo "recover: no $library; run bin/build aes3_c"; exit 2; }
spoil=${3:-$root/crates/aes3_spoil_program/out/aes3_spoil_program}
folder=$(mktemp -d) || exit 2
trap 'rm -rf "$folder"' EXIT
cd "$folder" || exit 2
passed=0 failed=0

# judge WHAT COMMAND..
judge() {
    what=$1
    shift
    if "$@" >said 2>&1; then
        passed=$((passed + 1))
    else
        failed=$((failed + 1))
        echo "recover: $what differs" >&2
        cat said >&2
    fi
}

# ---- The four programs

programs=
checks="-fsanitize=address,undefined -fno-sanitize-recover=all"
echo 'int main(void) { return 0; }' >one.c
# shellcheck disable=SC2086
{ ${CC:-cc} $checks -o one one.c && ./one; } 2>/dev/null || checks=
build() { # NAME TOOL COMMAND..
    name=$1 tool=$2
    shift 2
    command -v "$tool" >/dev/null || {
        echo "left out: recover in $name ($tool is not installed)"
        return
    }
    if "$@" >said 2>&1; then
        programs="$programs ./$name"
    else
        failed=$((failed + 1))
        echo "recover: $name can't be built" >&2
        cat said >&2
    fi
}
# shellcheck disable=SC2086
build c "${CC:-cc}" "${CC:-cc}" -std=c99 -O2 -Wall -Wextra -pedantic -Werror $checks -I"$root/include" -o c "$root/examples/c/recover.c" "$library"
# shellcheck disable=SC2086
build cpp "${CXX:-c++}" "${CXX:-c++}" -std=c++11 -O2 -Wall -Wextra -pedantic -Werror $checks -I"$root/include" -o cpp \
    "$root/examples/cpp/recover.cpp" "$library"
if "$root/bin/link-shared" "$folder/libaes3.so.1" "$library" 2>said; then
    printf '#!/bin/sh\nAES3_LIB=%s PYTHONPATH=%s PYTHONDONTWRITEBYTECODE=1 exec python3 %s "$@"\n' \
        "'$folder/libaes3.so.1'" "'$root/python'" "'$root/examples/python/recover.py'" >python.sh
    chmod +x python.sh
    build python python3 ln -s python.sh python
else
    echo "left out: recover in python (the shared library can't be linked here)"
fi
mkdir rust-crates pkgconfig archive
cp -r "$root/examples/rust/aes3" "$root/examples/rust/aes3-sys" "$root/examples/rust/Cargo.toml" rust-crates
cp "$library" archive/libaes3.a
version=$("$program" --version | cut -d' ' -f2)
printf 'Name: aes3\nDescription: codec\nVersion: %s\nLibs: -L%s -laes3\n' "$version" "$folder/archive" >pkgconfig/aes3.pc
cat >make-rust <<END
cd "$folder/rust-crates" && PKG_CONFIG_PATH="$folder/pkgconfig" CARGO_TARGET_DIR="$folder/target" CARGO_NET_OFFLINE=true AES3_STATIC=1 \\
    cargo build -q --release --example recover && cp "$folder/target/release/examples/recover" "$folder/rust"
END
if command -v pkg-config >/dev/null; then
    build rust cargo sh make-rust
else
    echo "left out: recover in rust (pkg-config is not installed)"
fi

# ---- Lines

speech=$root/examples/speech.block
"$program" encode <"$speech" >whole.text
"$program" encode --packed-out <"$speech" >whole.packed
# In the other polarity and cut in the middle, at a cell that is not the last of an octet.
tail -c +12538 whole.text | head -c 3000003 | tr 01 10 >cut.text
{ tail -c +1001 whole.packed | head -c 400000 && printf '\340\005'; } >cut.packed
# A wrong cell; the parity bit of a subframe; a stretch without signal; several octets.
sed '48200s/^1/0/' whole.text >cell.text
head -n 1152 whole.text | sed '$ { s/0$/x/; s/1$/0/; s/x$/1/; }' >parity.text
{ head -c 2000000 whole.text; head -c 170000 /dev/zero | tr '\0' 0; tail -c 1500000 whole.text; } >dead.text
cp whole.packed octets.packed
for at in 5000 99999 100000 300003 700000; do printf 'JAT' | dd of=octets.packed bs=1 seek=$at conv=notrunc 2>/dev/null; done
if [ -x "$spoil" ]; then
    judge "aes3-spoil" sh -c '"$0" --packed-in --packed-out --cell 100003 --drop 300001 --double 500007 --invert 700000 --parity 786432 \
        --biphase 1605632:9 --preamble 2605056 --every 611111:cell <whole.packed >spoiled.packed' "$spoil"
else
    echo "left out: a line that aes3-spoil damages (it is not built: bin/build aes3_spoil_program)"
fi
# No cell, and noise.
: >empty.text
printf '\r\n \n' >blank.text
printf '\0' >none.packed
printf 1 >one.text
head -c 300000 /dev/urandom | od -An -v -tu1 | tr -d ' \n' | tr 23456789 01010101 >noise.text
{ head -c 300000 /dev/urandom && printf '\0'; } >noise.packed
{ head -c 300000 /dev/urandom && printf '\370\003'; } >noise3.packed
# Other sampling frequencies, and none.
"$program" to-pcm <whole.text 2>/dev/null | head -c 30000 >sound
for rate in 32000 44100 22050 24000 88200 96000 176400 192000; do
    for use in consumer professional; do
        "$program" from-pcm --preset $use --rate $rate <sound | "$program" encode --packed-out >$use-$rate.packed
    done
done
"$program" from-pcm --preset consumer --set rate=768000 <sound 2>/dev/null | "$program" encode --packed-out >consumer-768000.packed
for use in consumer professional; do "$program" from-pcm --preset $use <sound | "$program" encode --packed-out >$use-none.packed; done
# Rejected: a byte that is no cell, at once, in the first block and later; and wrong ends.
cat "$speech" >block.text
printf '01x' >early.text
{ head -c 1500001 dead.text && printf '2' && cat whole.text; } >late.text
{ head -c 2100003 dead.text && printf 'no line'; } >gap.text
head -c 300000 /dev/urandom >urandom.text
: >empty.packed
{ head -c 300000 octets.packed && printf '\010'; } >number.packed
{ head -c 300000 octets.packed && printf '\001\001'; } >unused.packed
printf '\1' >one.packed

# ---- What is compared

# Runs $each on $line, and compares with what PROGRAM did.
same() {
    rm -f got.wav
    # shellcheck disable=SC2086
    "$each" $option got.wav <"$line" >got 2>error
    echo $? >>got
    cmp wanted got || { cat error && return 1; }
    if [ "$(tail -n 1 wanted)" = 3 ]; then
        has_no_header && [ -s error ]
    else
        cmp wanted.wav got.wav
    fi
}

# The file is no WAV file, and PROGRAM says so.
has_no_header() {
    "$program" from-wav <got.wav >/dev/null 2>refusal
    [ $? = 3 ] && grep -q '^aes3: refused 14 ' refusal
}

for line in *.text *.packed; do
    case $line in *.packed) option=--packed-in ;; *) option= ;; esac
    # shellcheck disable=SC2086
    "$program" check --gaps $option <"$line" >lines 2>/dev/null
    status=$?
    { grep -v '^whole ' lines; echo $status; } >wanted
    rm -f wanted.wav
    # shellcheck disable=SC2086
    [ $status = 3 ] || "$program" to-wav $option -o wanted.wav <"$line" 2>/dev/null
    case $line in
        whole.* | *-[1-9]*.packed | *-none.packed) judge "check of $line" [ $status = 0 ] ;;
        cell.* | parity.* | dead.* | octets.* | spoiled.*) judge "check of $line" [ $status = 1 ] ;;
        block.* | early.* | late.* | gap.* | urandom.* | empty.packed | number.* | unused.* | one.packed) judge "check of $line" [ $status = 3 ] ;;
    esac
    for each in $programs; do judge "$each on $line" same; done
done

# ---- What fails

mkfifo pipe
# fails COMMAND: it ends with status 3 and a message.
fails() {
    rm -f got.wav
    sh -c "$1" "$each" 2>error
    status=$?
    if [ $status != 3 ] || [ ! -s error ]; then echo "status $status" && cat error && return 1; fi
}
fails_without_header() { fails "$1" && { [ ! -e got.wav ] || has_no_header; }; }
is_killed_without_header() {
    rm -f got.wav
    (ulimit -f 200 && exec "$each" got.wav <whole.text >/dev/null 2>error)
    [ $? -ge 3 ] && has_no_header
}
misused() {
    # shellcheck disable=SC2086
    "$each" $1 <whole.text >got 2>error
    [ $? = 2 ] && [ ! -s got ] && grep -qi '^usage: ' error
}
# shellcheck disable=SC2016
for each in $programs; do
    judge "$each into a full disk" fails '"$0" /dev/full <whole.text'
    judge "$each into a full disk, of no block" fails '"$0" /dev/full <empty.text'
    judge "$each into a folder that is not there" fails '"$0" no/where.wav <whole.text'
    judge "$each with a full standard output" fails_without_header '"$0" got.wav <cell.text >/dev/full'
    judge "$each with a full standard output, of noise" fails_without_header '"$0" --packed-in got.wav <noise.packed >/dev/full'
    judge "$each of an input that can't be read" fails_without_header '"$0" got.wav </proc/self/mem'
    judge "$each of packed cells that can't be read" fails_without_header '"$0" --packed-in got.wav </proc/self/mem'
    judge "$each with a limit of the file's size" is_killed_without_header
    # It has no place for a header that comes last.
    judge "$each into a pipe" fails 'cat pipe >/dev/null & "$0" pipe <whole.text'
    # Rust opens /dev/null in its place.
    [ "$each" = ./rust ] || judge "$each without a standard output" fails_without_header '"$0" got.wav <cell.text >&-'
    for words in "" "--packed-in" "--raw-in got.wav" "a b c"; do judge "$each $words" misused "$words"; done
done
echo "run: $programs${checks:+ (C and C++ with $checks)}"
echo "$passed passed, $failed failed"
[ "$failed" = 0 ]
