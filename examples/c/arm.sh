#!/bin/sh
# arm.sh [PROGRAM]: the C library for 64-bit ARM (bin/library-for aarch64), proved anew for that target; the examples built over it by
# a C compiler for it, and run under qemu-user: each call, the place of each field, the cells of a block file, and the lines of whole and
# damaged lines, which have to be those of PROGRAM, bin/aes3 where none is given.
# The last line is `N passed, M failed`; status 1 where one differs.
here=$(dirname "$(realpath "$0")")
root=$(realpath "$here/../..")
# shellcheck source=examples/words.sh
. "$here/../words.sh"
take_words 0 1 "$@"
find_program aes3 "${1:-$root/bin/aes3}"
for tool in rt aarch64-linux-gnu-gcc qemu-aarch64; do
    command -v $tool >/dev/null || { echo "left out: the C library on 64-bit ARM ($tool is not installed)" && echo "0 passed, 0 failed" && exit 0; }
done
folder=$(mktemp -d) || exit 2
trap 'rm -rf "$folder"' EXIT
cd "$folder" || exit 2
passed=0 failed=0

# judge WHAT COMMAND..
judge() {
    what=$1
    shift
    if "$@" >said 2>&1; then
        passed=$((passed + 1))
    else
        failed=$((failed + 1))
        echo "test: $what differs" >&2
        cat said >&2
    fi
}

judge "bin/library-for aarch64" "$root/bin/library-for" aarch64 "$folder/libaes3.a"
cp said verdict
judge "the verdict names the target" grep -q '^logic=proved .*target=aarch64-unknown-linux-gnu' verdict
for example in check encode calls layout; do
    judge "$example.c" aarch64-linux-gnu-gcc -std=c99 -O2 -Wall -Wextra -pedantic -Werror -static -I"$root/include" \
        -o $example "$here/$example.c" libaes3.a
done
# A processor with the first version of the architecture alone.
export QEMU_CPU=cortex-a53
judge "each call" qemu-aarch64 ./calls
judge "where each field stands" qemu-aarch64 ./layout
"$program" encode <"$root/examples/speech.block" >line.txt
sed '48200s/^1/0/' line.txt | tail -c +12538 >damaged.txt
head -c 3200000 line.txt | tr 01 10 >turned.txt
head -n 1152 line.txt | sed '$ { s/0$/x/; s/1$/0/; s/x$/1/; }' >marked.txt
encodes() { qemu-aarch64 ./encode <"$root/examples/speech.block" >got && cmp got line.txt; }
tells() {
    { qemu-aarch64 ./check <"$1.txt" && echo 0 || echo $?; } >got
    { "$program" check <"$1.txt" && echo 0 || echo $?; } >want
    cmp got want
}
judge "the cells of a block file" encodes
for name in line damaged turned marked; do judge "check on $name" tells $name; done
echo "$passed passed, $failed failed"
[ "$failed" = 0 ]
