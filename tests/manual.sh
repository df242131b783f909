#!/bin/sh
# tests/manual.sh: the manual page has its sections, in their order, what it says of files is what bin/install brings, and man shows
# it and those of aes3-cells and aes3-spoil without a warning. That its text is what the program prints, bin/make-manual --check tells.
#
# The last line is `N passed, M failed`, and the status 0 where none failed.

root=$(dirname "$(dirname "$(realpath "$0")")")
# shellcheck source=examples/words.sh
. "$root/examples/words.sh"
take_words 0 0 "$@"
page=$root/man/aes3.1
# shellcheck source=tests/judging.sh
. "$root/tests/judging.sh"
cat >"$work/wanted" <<'SECTIONS'
NAME
SYNOPSIS
DESCRIPTION
OPTIONS
COMMANDS
FORMS OF INPUT AND OUTPUT
EXIT STATUS
REFUSALS
LIMITS
FILES
EXAMPLES
SEE ALSO
SECTIONS
sed -n 's/^\.SH //p' "$page" | diff "$work/wanted" - >"$work/other"
judge "its sections: $(cat "$work/other")" test ! -s "$work/other"
sed -n '/^\.SH FILES/,/^\.SH EXAMPLES/s/^\\fI\(.*\)\\fR$/\1/p' "$page" >"$work/places"
judge "it names no file" test -s "$work/places"
while IFS= read -r place; do
    judge "bin/install brings no $place" grep -q " $place\$" "$root/bin/install"
done <"$work/places"
if command -v man >/dev/null && command -v groff >/dev/null; then
    for shown in "$page" "$root/man/aes3-cells.1" "$root/man/aes3-spoil.1"; do
        man --warnings -l "$shown" >/dev/null 2>"$work/warnings"
        judge "man warns: $(cat "$work/warnings")" test ! -s "$work/warnings"
    done
else
    echo "left out: how man shows the page (man and groff are not installed)"
fi
tell
