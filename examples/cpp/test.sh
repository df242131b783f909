#!/bin/sh
# test.sh [PROGRAM [LIBRARY]]: builds the examples over include/aes3.hpp by each C++ compiler and standard that is here, with all
# warnings as errors, with no exceptions, and with the checks of addresses and undefined behaviour, runs them, and compares what they tell
# with what PROGRAM tells. PROGRAM is bin/aes3 where none is given, LIBRARY what `bin/build aes3_c` makes.
# The last line is `N passed, M failed`; status 1 where one differs.
here=$(dirname "$(realpath "$0")")
root=$(realpath "$here/../..")
# shellcheck source=examples/words.sh
. "$here/../words.sh"
take_words 0 2 "$@"
find_program aes3 "${1:-$root/bin/aes3}"
library=$(realpath "${2:-$root/crates/aes3_c/out/libaes3_c.a}") || exit 2
[ -e "$library" ] || { echo "test: no $library; run bin/build aes3_c"; exit 2; }
folder=$(mktemp -d) || exit 2
trap 'rm -rf "$folder"' EXIT
cd "$folder" || exit 2
passed=0 failed=0

# judge WHAT COMMAND..
judge() {
    what=$1
    shift
    if "$@"; then passed=$((passed + 1)); else echo "test: $what differs"; failed=$((failed + 1)); fi
}

"$program" encode <"$root/examples/speech.block" >line.txt
sed '48200s/^1/0/' line.txt | tail -c +12538 >damaged.txt
# In the other polarity, cut by the end.
head -c 3200000 line.txt | tr 01 10 >turned.txt
for name in line damaged turned; do
    "$program" check <$name.txt >$name.want
    echo $? >>$name.want
    # Its cells packed, with the octet that counts the unused ones.
    python3 -c '
import sys
cells = sys.stdin.read().replace("\n", "")
unused = -len(cells) % 8
sys.stdout.buffer.write(int(cells + "0" * unused, 2).to_bytes((len(cells) + unused) // 8, "big") + bytes([unused]))
' <$name.txt >$name.packed
done

sed -n '/^```cpp$/,/^```$/p' "$root/docs/C.md" | sed '/^```/d' >shown.cpp

tells() {
    { ./check <"$1.packed" && echo 0 || echo $?; } >got
    cmp got "$1.want"
}

build() { # COMPILER STANDARD
    command -v "$1" >/dev/null || {
        echo "left out: the examples by $1 (it is not installed)"
        return
    }
    checks="-fsanitize=address,undefined -fno-sanitize-recover=all"
    echo 'int main() { return 0; }' >one.cpp
    # shellcheck disable=SC2086
    if ! { "$1" $checks -o one one.cpp 2>/dev/null && ./one; }; then
        echo "left out: the checks of addresses and undefined behaviour by $1 (they do not work here)"
        checks=
    fi
    for example in check calls; do
        # shellcheck disable=SC2086
        judge "$example.cpp by $1 $2" "$1" "$2" -O2 -Wall -Wextra -pedantic -Werror -fno-exceptions -fno-rtti $checks \
            -I"$root/include" -o $example "$here/$example.cpp" "$library"
    done
    judge "the example of docs/C.md by $1 $2" "$1" "$2" -Wall -Wextra -pedantic -Werror -I"$root/include" -fsyntax-only shown.cpp
    judge "recover.cpp by $1 $2" "$1" "$2" -Wall -Wextra -pedantic -Werror -fno-exceptions -fno-rtti -I"$root/include" -fsyntax-only "$here/recover.cpp"
    ./calls >said
    judge "calls by $1 $2" [ $? = 0 ]
    case $2 in *20) judge "std::span by $1 $2" grep -qx "with std::span" said ;; *) judge "no std::span by $1 $2" [ ! -s said ] ;; esac
    for name in line damaged turned; do judge "check by $1 $2 on $name" tells $name; done
}

build g++ -std=c++11
build clang++ -std=c++11
build g++ -std=c++17
build g++ -std=c++20
build clang++ -std=c++20

echo "$passed passed, $failed failed"
[ "$failed" = 0 ]
