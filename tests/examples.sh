#!/bin/sh
# tests/examples.sh [PROGRAM]: the scripts of examples/many and examples/watch as they are called: PROGRAM by its name on the PATH and by
# its path, from another folder, by a link, among names with spaces and quotes; an archive in pieces; and what they say where the program can't be run, the
# input is empty or none of theirs, a tool is missing or the words are wrong. PROGRAM is bin/aes3 where none is given.
#
# The last line is `N passed, M failed`, and the status 0 where none failed.

root=$(dirname "$(dirname "$(realpath "$0")")")
# shellcheck source=examples/words.sh
. "$root/examples/words.sh"
take_words 0 1 "$@"
# shellcheck source=tests/judging.sh
. "$root/tests/judging.sh"
find_program aes3 "${1:-$root/bin/aes3}"
many=$root/examples/many watch=$root/examples/watch
mkdir -p "$work/a 'quoted' folder/on the path" "$work/archive 1" "$work/links"
cd "$work/a 'quoted' folder" || exit 2
# What is on the PATH is found there, and is no file here.
printf '#!/bin/sh\nexec "%s" "$@"\n' "$program" >"on the path/aes3"
cp "on the path/aes3" "by its path"
chmod +x "on the path/aes3" "by its path"
PATH="$PWD/on the path:$PATH"
for script in "$many/split" "$many/rack" "$watch/table"; do ln -s "$script" "$work/links/linked $(basename "$script")"; done

# ends STATUS SENTENCE COMMAND..: it ends with that status, and its only line of standard error, but for those of aes3, is that sentence.
ends() {
    wanted=$1 sentence=$2
    shift 2
    "$@" >"$work/out" 2>"$work/err" </dev/null
    got=$?
    [ "$got" = "$wanted" ] || { echo "status $got" && cat "$work/err" && return 1; }
    grep -v '^aes3: \|	aes3: \|^usage: ' "$work/err" >"$work/sentence"
    [ "$(cat "$work/sentence")" = "$sentence" ] || { cat "$work/err" && return 1; }
}
# Where the words are wrong the second line is the usage.
wrongs() {
    sentence=$1
    shift
    ends 2 "$sentence" "$@" && [ "$(sed -n '$s/:.*//p' "$work/err")" = usage ] && [ ! -s "$work/out" ]
}

for tool in parallel python3; do
    command -v $tool >/dev/null || { echo "left out: examples/many and examples/watch ($tool is not installed)" && tell; }
done
aes3 encode --packed-out <"$root/examples/speech.block" >whole
# Damaged where pieces of 100,000 octets meet, too.
cp whole "a line's file"
for at in 5000 99999 100000 300003; do printf 'JAT' | dd of="a line's file" bs=1 seek=$at conv=notrunc 2>/dev/null; done
: >empty
printf 'some text\n' >text
same() {
    wanted=$1
    shift
    "$@" >"$work/out" 2>"$work/err"
    [ $? = "$wanted" ] && [ ! -s "$work/err" ] && cmp "$work/out" "$work/wanted"
}

aes3 check --packed-in <"a line's file" >"$work/wanted"
judge "damage is told" grep -q '^fault' "$work/wanted"
for word in aes3 "./by its path" "$PWD/by its path" "by its path"; do
    judge "split $word" same 1 "$many/split" "$word" "a line's file" 100000
done
judge "split by a link" same 1 "$work/links/linked split" aes3 "a line's file" 100000
judge "split in one piece" same 1 "$many/split" aes3 "a line's file"
for octets in 3073 24576 99999; do judge "split in $octets" same 1 "$many/split" aes3 "a line's file" $octets; done
for number in 0 1 2 3 4 5 6 7; do "$many/piece" aes3 "a line's file" 100000 $number; done >"$work/pieces"
judge "the pieces, one by one" cmp "$work/pieces" "$work/wanted"
aes3 check --packed-in <whole >"$work/wanted"
judge "split a whole line" same 0 "$many/split" aes3 whole 100000
printf '\0' >none
: >"$work/wanted"
judge "split no cell" same 0 "$many/split" aes3 none

# An archive: files of several lengths, each line behind the name.
cp whole "$work/archive 1/b whole"
ln -s "$PWD/a line's file" "$work/archive 1/a line's file"
cp none "$work/archive 1/none"
{ head -c 300000 whole && printf '\0'; } >"$work/archive 1/c"
mkdir "$work/archive 1/a folder"
for name in "a line's file" "b whole" c none; do aes3 check --packed-in <"$work/archive 1/$name" | sed "s/^/$name	/"; done >"$work/wanted"
judge "split an archive" same 1 "$many/split" aes3 "$work/archive 1" 100000
cd "$work" || exit 2
judge "split an archive, from elsewhere" same 1 "$many/split" aes3 "archive 1"
cd - >/dev/null || exit 2

# Racks, of which the order is that of time.
for name in "a line's file" whole; do aes3 check --packed-in <"$name" | sed "s/^/$name	/"; done | sort >"$work/wanted"
rack() {
    status=$1 rack=$2
    shift 2
    "$rack" "$@" >"$work/lines" 2>"$work/err"
    [ $? = "$status" ] && [ ! -s "$work/err" ] && sort "$work/lines" | cmp - "$work/wanted"
}
for word in aes3 "./by its path" "$PWD/by its path"; do judge "rack $word" rack 1 "$many/rack" "$word" "a line's file" whole; done
judge "rack by a link" rack 1 "$work/links/linked rack" aes3 "a line's file" whole
mkfifo "a pipe"
cat whole >"a pipe" &
aes3 check --packed-in <whole | sed 's/^/a pipe	/' | sort >"$work/wanted"
judge "rack of a pipe" rack 0 "$many/rack" aes3 "a pipe"
for name in "a line's file" whole; do aes3 watch --packed-in --json --every 600000 <"$name" | sed "s/^/$name	/"; done | sort >"$work/wanted"
EVERY=600000
export EVERY
judge "rack of watch" rack 1 "$watch/rack" aes3 "a line's file" whole
unset EVERY
"$watch/rack" aes3 "a line's file" whole >lines
judge "table" sh -c '"$0" <lines >"$1" && grep -q "^whole  *ended-locked" "$1" && grep -q "^a line.s file  *ended-locked" "$1"' "$work/links/linked table" "$work/out"
judge "metrics" sh -c '"$0" "a file" <lines && grep -qx "aes3_line_locked{line=\"whole\"} 0" "a file"' "$watch/metrics"

# What fails.
off="can't be run: it is neither a command on the PATH nor the path of a program"
for script in "$many/split" "$many/rack" "$watch/rack"; do
    name=$(basename "$script")
    judge "$script: no program" ends 127 "$name: nowhere $off" "$script" nowhere whole
    judge "$script: no program at a path" ends 127 "$name: ./nowhere $off" "$script" ./nowhere whole
    judge "$script: a file that is none" ends 127 "$name: ./whole $off" "$script" ./whole whole
    judge "$script: another program" ends 127 "$name: sort can't be run, or is not the program aes3" "$script" sort whole
    judge "$script: no word" wrongs "$name: a word is missing" "$script"
    judge "$script: one word" wrongs "$name: a word is missing" "$script" aes3
    judge "$script: an option" wrongs "$name: there is no option --all" "$script" --all aes3 whole
done
judge "piece: no program" ends 127 "piece: nowhere $off" "$many/piece" nowhere whole 100000 0
judge "piece: a word too few" wrongs "piece: a word is missing" "$many/piece" aes3 whole 100000
judge "piece: no number" wrongs "piece: x is no whole number" "$many/piece" aes3 whole 100000 x
judge "piece: rejected" ends 3 "" "$many/piece" aes3 text 100000 0
judge "split: empty" ends 3 "split: $PWD/empty is empty" "$many/split" aes3 empty
judge "split: text" ends 3 "split: $PWD/text does not end as packed cells do, with the number of unused cells, 0 to 7" "$many/split" aes3 text
judge "split: no file" ends 1 "split: there is no nothing/there" "$many/split" aes3 nothing/there
judge "split: pieces of nothing" wrongs "split: a piece has an octet or more: 0 is no such number" "$many/split" aes3 whole 0
judge "split: four words" wrongs "split: there are too many words" "$many/split" aes3 whole 5 6
mkdir "no files"
judge "split: an empty archive" ends 1 "split: no files has no file" "$many/split" aes3 "no files"
# The unused cells of its last octet are not 0, which the program finds.
{ printf '\377\3'; } >unlawful
judge "split: rejected" ends 3 "split: a piece was rejected, or its machine failed: what was said of it stands above" "$many/split" aes3 unlawful
judge "rack: no line" ends 1 "rack: nothing is nothing that can be read" "$many/rack" aes3 whole nothing
judge "rack: an empty line" ends 3 "" "$many/rack" aes3 empty whole
judge "rack: it is told" grep -q '^empty	aes3: refused' "$work/err"
judge "rack of watch: no number" env EVERY=often sh -c '! "$0" aes3 whole 2>"$1" && grep -q "EVERY is no number" "$1"' "$watch/rack" "$work/err"
no_events="the input has no event; \`rack\`, which writes them, may have failed"
judge "table: nothing" ends 1 "table: $no_events" "$watch/table"
judge "metrics: nothing" ends 1 "metrics: $no_events" "$watch/metrics" "no metrics"
judge "metrics: it writes nothing" test ! -e "no metrics"
fails_after() { # the status of the last of a pipe
    sentence=$1
    shift
    "$watch/rack" nowhere whole 2>/dev/null | "$@" 2>"$work/err"
    [ $? = 1 ] && [ "$(cat "$work/err")" = "$sentence" ]
}
judge "table after a rack that failed" fails_after "table: $no_events" "$watch/table"
judge "metrics after a rack that failed" fails_after "metrics: $no_events" "$watch/metrics" "no metrics"
for line in "no tab" "name	no object" 'name	{"event":"lost"}' 'name	[]' 'name	{"event":"end","at":5}' '	'; do
    judge "table: $line" sh -c 'printf "%s\n" "$1" | "$0" 2>"$2"; [ $? = 1 ] && grep -q "^table: line 1 of the input is no event" "$2"' "$watch/table" "$line" "$work/err"
done
judge "metrics: a file that can't be written" sh -c '"$0" no/where <lines 2>"$1"; [ $? = 1 ] && grep -q "^metrics: " "$1"' "$watch/metrics" "$work/err"
judge "line: no program" env AES3=nowhere sh -c '"$0" file "cat whole" 2>"$1"; [ $? = 127 ] && [ "$(cat "$1")" = "line: nowhere $2" ]' "$watch/line" "$work/err" "$off"
judge "line: no source to stop" ends 1 "line: no/where names no source" "$watch/line" --stop no/where
judge "line: a word too few" wrongs "line: a word is missing" "$watch/line" file
judge "line, by a name on the PATH" sh -c '"$0" file "cat whole" --packed-in >"$1" && grep -q "^end at .* locked" "$1"' "$watch/line" "$work/out"
judge "faulty: no program" ends 1 "faulty: nowhere can't be read or run: No such file or directory" "$watch/faulty" nowhere "$root/examples/speech.block" 250 1 expected
judge "faulty: empty" ends 1 "faulty: empty has no block" "$watch/faulty" aes3 empty 250 1 expected
judge "faulty by a name on the PATH" sh -c '"$0" aes3 "$1" 250 1 expected >faulty.packed && aes3 watch --packed-in <faulty.packed | cmp - expected' "$watch/faulty" "$root/examples/speech.block"
# Another program of that name, and none.
mkdir "$work/tools"
for tool in sh awk basename cat dirname grep mktemp realpath rm sed; do ln -s "$(command -v $tool)" "$work/tools/$tool"; done
judge "split: no parallel" ends 127 "split: parallel is not installed" env PATH="$work/tools" "$many/split" "./by its path" whole
judge "rack: no parallel" ends 127 "rack: parallel is not installed" env PATH="$work/tools" "$many/rack" "./by its path" whole
printf '#!/bin/sh\necho "parallel: invalid option"\n' >"$work/tools/parallel"
chmod +x "$work/tools/parallel"
judge "split: another parallel" ends 127 "split: GNU parallel is not installed, but another program of its name" env PATH="$work/tools" "$many/split" "./by its path" whole
tell
