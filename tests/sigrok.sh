#!/bin/sh
# tests/sigrok.sh [PROGRAM [CELLS]]: the decoder of sigrok/aes3 in sigrok-cli, on captures made by an encoder of another hand (captures/sigrok.py):
# clean, with jitter, in another bit of sixteen, of a line that stops and comes back, with noise, damaged, without a line, and empty. What it
# shows is what PROGRAM, aes3, prints of the cells that CELLS, aes3-cells, writes, and each annotation is at the sample at which the encoder
# made that part of the line begin. Both ways to read samples are tried. The commands of sigrok/README.md run. PulseView shows the capture of sigrok/picture. PROGRAM and CELLS are those of bin/build where none are given.
#
# The last line is `N passed, M failed`, and the status 0 where none failed.

root=$(dirname "$(dirname "$(realpath "$0")")")
# shellcheck source=examples/words.sh
. "$root/examples/words.sh"
take_words 0 2 "$@"
program=$(realpath -m "${1:-$root/crates/aes3/out/aes3}")
cells=$(realpath -m "${2:-$root/crates/aes3_cells_program/out/aes3_cells_program}")
library=$root/crates/aes3_c/out/libaes3_c.a
# shellcheck source=tests/judging.sh
. "$root/tests/judging.sh"
leave_out() {
    echo "left out: tests/sigrok.sh ($1)"
    tell
}
command -v sigrok-cli >/dev/null || leave_out "sigrok-cli is not installed"
command -v cc >/dev/null || leave_out "cc is not installed"
[ -x "$program" ] || leave_out "there is no aes3: bin/build"
[ -x "$cells" ] || leave_out "there is no aes3-cells: bin/build aes3_cells_program"
[ -e "$library" ] || leave_out "there is no C library: bin/build aes3_c"
# sigrok has the system's Python.
/usr/bin/python3 -c 'import numpy' 2>/dev/null || leave_out "numpy is not installed for /usr/bin/python3"

cd "$work" || exit 2
"$root/bin/link-shared" libaes3.so.1 || exit 2
mkdir -p decoders/aes3
cp "$root/sigrok/aes3/"*.py decoders/aes3
cp "$root/python/aes3/calls.py" decoders/aes3/codec.py
export SIGROKDECODE_DIR="$work/decoders" AES3_LIB="$work/libaes3.so.1" PYTHONDONTWRITEBYTECODE=1

case_of() { /usr/bin/python3 "$root/tests/captures/sigrok.py" "$program" "$cells" "$@"; }
for name in clean jitter late slow long stops rests noise begins damaged none chance; do
    judge "$name" case_of "$name"
done
for name in clean damaged; do
    judge "$name, by edges" case_of "$name" reading=edges
done
judge "sixteen channels" case_of jitter unit=2 bit=12
judge "another bit" case_of clean bit=5
judge "a rate that is given" case_of clean rate=48000

# The commands of sigrok/README.md but the last, which opens a window, in a folder like a clone in which the library is built. The channels
# of a capture that is made of octets have numbers as their names.
mkdir -p clone/bin
cp -R "$root/sigrok" "$root/python" clone
ln -s "$root/bin/link-shared" clone/bin
printf '#!/bin/sh\n' >clone/bin/build
chmod +x clone/bin/build
"$program" encode "-i$root/examples/speech.block" | "$program" cut 0 5 | "$root/examples/neighbours/samples.py" 3.90625 0.2 >capture.bin
sigrok-cli -I binary:numchannels=8:samplerate=24000000 -i capture.bin -o clone/capture.sr
sed -n '/^```sh$/,/^```$/p' "$root/sigrok/README.md" | grep -v '^```\|^pulseview' | sed 's/data=D0/data=0/' >clone/commands
judge "the commands of sigrok/README.md" sh -c 'cd clone && sh -e ./commands >shown && grep -q "whole at 0 " shown && [ -s audio.wav ]'

# An empty capture, and no library.
shown() { sigrok-cli -I binary:numchannels=8:samplerate=24000000 -i "$1" -P aes3:data=0 -A aes3 2>said_why; }
: >empty
judge "an empty capture" eval '[ -z "$(shown empty)" ]'
head -c 10000 /dev/zero >still
judge "no library is a warning" eval 'AES3_LIB=/none/libaes3.so.1 shown still | grep -q "Nothing is decoded: no libaes3.so.1"'
if command -v pulseview >/dev/null && command -v xvfb-run >/dev/null && command -v import >/dev/null; then
    judge "PulseView shows annotations" "$root/sigrok/picture" "$work/pulseview.png"
else
    echo "left out: sigrok/picture (pulseview, xvfb or imagemagick is not installed)"
fi
judge "the decoder in sigrok's list" eval 'sigrok-cli -L | grep -q "^ *aes3  *AES3 / IEC 60958"'
tell
