# shellcheck shell=sh
# What the scripts of this repository share: their help, wrong words, and the program that they run. A script that reads this has as its
# second line a comment `# NAME WORDS: what it does`, whose front is its usage; the comment up to the first other line is its help.

script=$(basename "$0")

help_text() { awk 'NR > 1 && !/^#/ { exit } NR > 1 { sub(/^# ?/, ""); print }' "$0"; }
usage() { sed -n '2s/^# \([^:]*\):\{0,1\}.*/usage: \1/p' "$0"; }

# wrong_words WHY: the words are wrong: status 2.
wrong_words() {
    printf '%s: %s\n' "$script" "$1" >&2
    usage >&2
    exit 2
}

# fail WHY [STATUS]: ends the script with a sentence, and status 1 where none is given.
fail() {
    printf '%s: %s\n' "$script" "$1" >&2
    exit "${2:-1}"
}

# take_words LEAST MOST WORD..: so many words are given and none of them is an option, but for the one that asks for help.
take_words() {
    least=$1 most=$2
    shift 2
    for word in "$@"; do
        case $word in
            --help | -h) help_text && exit ;;
            -?*) wrong_words "there is no option $word" ;;
        esac
    done
    [ $# -ge "$least" ] || wrong_words "a word is missing"
    [ $# -le "$most" ] || wrong_words "there are too many words"
}

# need_tools TOOL..: the tools are installed.
need_tools() {
    for tool in "$@"; do
        command -v "$tool" >/dev/null || fail "$tool is not installed" 127
    done
}

# find_program NAME WORD: puts into `program` the path of the program NAME: WORD is a command on the PATH, or the path of a file.
find_program() {
    case $2 in
        */*) program=$(realpath "$2" 2>/dev/null) ;;
        *) program=$(command -v -- "$2") && program=$(realpath "$program") || program=$(realpath "$2" 2>/dev/null) ;;
    esac
    [ -f "$program" ] && [ -x "$program" ] || fail "$2 can't be run: it is neither a command on the PATH nor the path of a program" 127
    case $("$program" --version </dev/null) in
        "$1 "*) ;;
        *) fail "$2 can't be run, or is not the program $1" 127 ;;
    esac
}

# each_line COMMAND LINE..: runs the command, in which $PROGRAM is `program`, for each LINE as its standard input, all at once, with the
# LINE's name and a tab before each of its lines. The status is the greatest of theirs.
each_line() {
    command=$1
    shift
    need_tools parallel
    for line in "$@"; do
        [ -r "$line" ] && [ ! -d "$line" ] || fail "$line is nothing that can be read"
    done
    statuses=$(mktemp) || exit 1
    trap 'rm -f "$statuses"' EXIT
    trap 'exit 130' INT TERM
    PROGRAM=$program PARALLEL_SHELL=/bin/sh
    export PROGRAM PARALLEL_SHELL
    parallel -j0 --line-buffer --tag --joblog "$statuses" "$command <{}" ::: "$@"
    ran=$?
    exit "$(awk -F '\t' -v ran=$ran 'NR > 1 && $7 > most { most = $7 } END { print most ? most : ran }' "$statuses")"
}
