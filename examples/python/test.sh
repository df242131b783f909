#!/bin/sh
# test.sh [PROGRAM [LIBRARY]]: installs the module of python/ by pip in a scratch folder, and runs the examples over it and the shared
# library: each call; whole arrays to a line and back (lines.py); check.py on whole and damaged lines, whose lines have to be those of PROGRAM; and user.py, which sends the samples
# of a WAV and a stream of user bits by one line, from which PROGRAM takes both again. Done with numpy and without.
# PROGRAM is bin/aes3 where none is given, LIBRARY what `bin/build aes3_c` makes.
# The last line is `N passed, M failed`; status 1 where one differs.
here=$(dirname "$(realpath "$0")")
root=$(realpath "$here/../..")
# shellcheck source=examples/words.sh
. "$here/../words.sh"
take_words 0 2 "$@"
find_program aes3 "${1:-$root/bin/aes3}"
library=$(realpath "${2:-$root/crates/aes3_c/out/libaes3_c.a}") || exit 2
[ -e "$library" ] || { echo "test: no $library; run bin/build aes3_c"; exit 2; }
folder=$(mktemp -d) || exit 2
trap 'rm -rf "$folder"' EXIT
cd "$folder" || exit 2
passed=0 failed=0

# judge WHAT COMMAND..
judge() {
    what=$1
    shift
    if "$@" >said 2>&1; then
        passed=$((passed + 1))
    else
        failed=$((failed + 1))
        echo "test: $what differs" >&2
        cat said >&2
    fi
}

export AES3_LIB="$folder/libaes3.so.1" PYTHONDONTWRITEBYTECODE=1
"$root/bin/link-shared" "$AES3_LIB" "$library" || exit 2

if python3 -m pip --version >/dev/null 2>&1; then
    find "$root/python" | sort >before
    judge "pip install" python3 -m pip install -q --no-index --target site "$root/python"
    judge "what pip installed" diff -r -x libaes3.so.1 -x __pycache__ site/aes3 "$root/python/aes3"
    judge "the library in the wheel" env -u AES3_LIB PYTHONPATH=site python3 -c "import aes3; assert aes3.__version__ == aes3.library_version()"
    find "$root/python" | sort >after
    judge "the files of python/, where pip should leave none," cmp before after
    export PYTHONPATH="$folder/site"
else
    echo "left out: pip install ./python (pip is not installed)"
    export PYTHONPATH="$root/python"
fi

speech=$root/examples/speech.block
version=$("$program" --version | cut -d' ' -f2)
"$program" encode --packed-out <"$speech" >speech.packed
"$program" encode <"$speech" >line.txt
sed '48200s/^1/0/' line.txt | tail -c +12538 >damaged.txt
# In the other polarity, cut by the end; and with the last parity bit of all wrong.
head -c 3200000 line.txt | tr 01 10 >turned.txt
head -n 1152 line.txt | sed '$ { s/0$/x/; s/1$/0/; s/x$/1/; }' >marked.txt
status=85022c0000004a4154480000000000000000000000000000
check_byte=$("$program" cut 0 1 <line.txt | "$program" rewrite --status1 $status --mend-check | "$program" decode | python3 -c '
import struct, sys
words = struct.unpack("<384I", sys.stdin.buffer.read())
print(format(sum((words[2 * (184 + i)] >> 30 & 1) << i for i in range(8)), "02x"))')

tells() { # PYTHON FILE OPTION..
    tried=$1 file=$2
    shift 2
    { "$tried" "$here/check.py" "$@" <"$file" && echo 0 || echo $?; } >got
    { "$program" check "$@" <"$file" && echo 0 || echo $?; } >want
    cmp got want
}

# Half a second of sound in 24 bits as a WAV, its samples as `aes3` takes them, and user bits that end within a block. They end with the
# last block, so that none is filled up.
python3 - <<'END'
import struct, wave

samples = [(i * i * 977 + i) % 2**24 for i in range(2 * 192 * 125)]
with wave.open("sound.wav", "wb") as file:
    file.setparams((2, 3, 48000, 0, "NONE", ""))
    file.writeframes(b"".join(struct.pack("<I", it)[:3] for it in samples))
with wave.open("sound.wav", "rb") as file:
    octets = file.readframes(file.getnframes())
open("sound.s32", "wb").write(b"".join(b"\0" + octets[i : i + 3] for i in range(0, len(octets), 3)))
user = bytes(i * 7 % 251 for i in range(24 * 100 + 5))
open("user", "wb").write(user)
open("user.want", "wb").write(user.ljust(24 * 125, b"\0"))
END
carries() { # PYTHON
    "$program" from-pcm --exact <sound.s32 | "$1" "$here/user.py" user | "$program" encode --packed-out >carried.packed &&
        "$program" to-bits user 1 --packed-in <carried.packed | cmp - user.want &&
        "$program" to-pcm --packed-in <carried.packed | cmp - sound.s32
}

# The words of causes are those of the header.
words=$(sed -n '/ aes3_why_text\|[*]aes3_why_text/,/^}/s/.*{\("[a-z", ]*\)};/\1/p' "$root/include/aes3.h" | tr -d '",')
judge "the words of causes" [ "$words" = "$(python3 -c 'import aes3; print(*aes3.WHYS)')" ]

sed -n '/^```python$/,/^```$/p' "$root/docs/C.md" | sed '/^```/d' >shown.py
ln -s speech.packed line.packed
shown() { # PYTHON
    "$1" shown.py >got && "$program" check <line.txt | cmp - got
}

# The examples of python/README.md, one after the other, with a block of samples.
{
    printf 'import numpy\nsamples, pieces = numpy.zeros((192, 2), numpy.int32), [bytes(100)]\n'
    sed -n '/^```python$/,/^```$/p' "$root/python/README.md" | sed '/^```/d'
} >readme.py
readme() { # PYTHON
    "$1" readme.py >got && [ "$(sed -n '1p;2s/ .*//p;3p' got | tr '\n' ,)" = "whole at 0 before 0,48000,a block at cell 0," ] && [ "$(sed -n '$p' got)" = "0 cells" ]
}

# What each says of itself, and of a word that it does not know.
rejects() { "$1" "$2" --no-such-word 2>said_why; [ $? = 2 ] && grep -q '^usage: ' said_why; }

examples() { # PYTHON
    for example in calls check lines user; do
        judge "$example.py --help by $1" "$1" "$here/$example.py" --help
        judge "$example.py with a word that it does not know by $1" rejects "$1" "$here/$example.py"
    done
    judge "user.py on a part of a block by $1" sh -c 'printf 12345 | "$0" "$1" user 2>said_why; [ $? = 1 ] && grep -q "^user.py: the input ends within a block" said_why' "$1" "$here/user.py"
    judge "check.py on what is no cell text by $1" sh -c 'echo 012 | "$0" "$1" 2>said_why; [ $? = 1 ] && grep -q "^check.py: a character" said_why' "$1" "$here/check.py"
    judge "calls.py by $1" "$1" "$here/calls.py" "$speech" speech.packed "$version" "$check_byte"
    echo "run: $1, $(cat said)"
    judge "lines.py by $1" "$1" "$here/lines.py" "$program"
    judge "check.py by $1 on packed cells" tells "$1" speech.packed --packed-in
    judge "the example of docs/C.md by $1" shown "$1"
    judge "user.py by $1" carries "$1"
    for name in line damaged turned marked; do judge "check.py by $1 on $name" tells "$1" $name.txt; done
}

# Without numpy, also where it is installed.
printf '#!/bin/sh\nexec python3 -c "import runpy, sys; sys.modules[\\"numpy\\"] = None; del sys.argv[0]; runpy.run_path(sys.argv[0], run_name=\\"__main__\\")" "$@"\n' >plain
chmod +x plain
examples "$folder/plain"
with=
for python in python3 /usr/bin/python3; do
    [ -n "$with" ] || ! "$python" -c 'import numpy' 2>/dev/null || with=$python
done
if [ -n "$with" ]; then
    examples "$with"
    judge "the examples of python/README.md by $with" readme "$with"
else
    echo "left out: the examples with arrays of numpy (it is not installed)"
fi
echo "$passed passed, $failed failed"
[ "$failed" = 0 ]
