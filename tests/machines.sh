#!/bin/sh
# tests/machines.sh [PROGRAM]: examples/many/split with --sshlogin and --sshloginfile, by ssh to this machine: a server of the test's own on a
# high port of the loopback address, with a key of its own, begun and ended here. The lines of a damaged capture in pieces, and of an archive,
# have to be those that `check` writes; only PROGRAM is used at the other end, and nothing is left there. PROGRAM is bin/aes3 where none is given.
#
# The last line is `N passed, M failed`, and the status 0 where none failed.

root=$(dirname "$(dirname "$(realpath "$0")")")
# shellcheck source=examples/words.sh
. "$root/examples/words.sh"
take_words 0 1 "$@"
# shellcheck source=tests/judging.sh
. "$root/tests/judging.sh"
find_program aes3 "${1:-$root/bin/aes3}"
split=$root/examples/many/split
server=$(PATH=$PATH:/usr/sbin:/sbin command -v sshd)
for tool in "${server:-sshd}" ssh ssh-keygen parallel perl python3; do
    command -v "$tool" >/dev/null || { echo "left out: captures on many machines ($(basename "$tool") is not installed)" && tell; }
done

# The server.
mkdir "$work/server" "$work/there" "$work/here it is" "$work/an archive"
chmod 700 "$work" "$work/server"
cd "$work/here it is" || exit 2
ssh-keygen -q -t ed25519 -N '' -f "$work/server/key"
ssh-keygen -q -t ed25519 -N '' -f "$work/server/host"
cp "$work/server/key.pub" "$work/server/authorized"
port=$(python3 -c 'import socket
free = socket.socket()
free.bind(("127.0.0.1", 0))
print(free.getsockname()[1])')
# What a command finds there: this PATH and no other, its files of a moment in a folder of its own, and no ~/.bashrc, which bash reads where SHLVL is 0.
cat >"$work/server/config" <<CONFIG
Port $port
ListenAddress 127.0.0.1
HostKey "$work/server/host"
AuthorizedKeysFile "$work/server/authorized"
PidFile "$work/server/pid"
StrictModes no
UsePAM no
PasswordAuthentication no
KbdInteractiveAuthentication no
PermitRootLogin prohibit-password
MaxStartups 100
SetEnv PATH=$work/there:/usr/bin:/bin TMPDIR=$work/there/tmp SHLVL=1
CONFIG
mkdir "$work/there/tmp"
[ "$(id -u)" != 0 ] || mkdir -p /run/sshd
"$server" -f "$work/server/config" -E "$work/server/log" -D &
pid=$!
trap 'kill $pid 2>/dev/null; wait $pid 2>/dev/null; rm -rf "$work"' EXIT
cat >"$work/server/client" <<CLIENT
Host one two nobody
    HostName 127.0.0.1
    Port $port
    User $(id -un)
    IdentityFile "$work/server/key"
    IdentitiesOnly yes
    UserKnownHostsFile "$work/server/known"
    StrictHostKeyChecking accept-new
    BatchMode yes
    LogLevel ERROR
Host down
    HostName 127.0.0.1
    Port 1
    BatchMode yes
CLIENT
printf '#!/bin/sh\nexec ssh -F "%s" "$@"\n' "$work/server/client" >"$work/server/ssh"
chmod +x "$work/server/ssh"
PARALLEL_SSH=$work/server/ssh
export PARALLEL_SSH
for _ in 1 2 3 4 5 6 7 8 9 10; do
    "$PARALLEL_SSH" one true 2>"$work/why" && break
    sleep 0.3
done
if ! "$PARALLEL_SSH" one true 2>"$work/why"; then
    echo "left out: captures on many machines (a server of the test's own lets nobody in: $(head -n 1 "$work/why"))"
    tell
fi

# The program is called otherwise here, so that what is used is that one; it notes each call.
printf '#!/bin/sh\necho "$@" >>"%s"\nexec "%s" "$@"\n' "$work/calls" "$program" >"$work/there/aes3-there"
mkdir "$work/there/by path"
cp "$work/there/aes3-there" "$work/there/by path/the 'program'"
chmod +x "$work/there/aes3-there" "$work/there/by path/the 'program'"
calls() { grep -c '^check --packed-in$' "$work/calls"; }

"$program" encode --packed-out <"$root/examples/speech.block" >"a line's file"
for at in 5000 99999 100000 300003; do printf 'JAT' | dd of="a line's file" bs=1 seek=$at conv=notrunc 2>/dev/null; done
"$program" check --packed-in <"a line's file" >"$work/wanted"
# same STATUS WORDS..: what split writes, with nothing on standard error.
same() {
    wanted=$1
    shift
    : >"$work/calls"
    "$split" "$@" >"$work/out" 2>"$work/err" </dev/null
    got=$?
    cat "$work/err"
    [ $got = "$wanted" ] && [ ! -s "$work/err" ] && cmp "$work/out" "$work/wanted"
}
judge "two machines" same 1 --sshlogin 2/one,2/two aes3-there "a line's file" 100000
judge "each piece goes there, $(calls) of 8" test "$(calls)" = 8
judge "nothing is left there" test -z "$(ls -A "$work/there/tmp")"
judge "twice --sshlogin, with =" same 1 --sshlogin=1/one --sshlogin=2/two aes3-there "a line's file" 100000
printf '2/one\n\n1/two\n' >"machines of mine"
judge "a file of machines" same 1 --sshloginfile "machines of mine" aes3-there "a line's file" 100000
judge "each piece by a file of machines" test "$(calls)" = 8
# Another command for ssh, with words.
"$program" check --packed-in <"a line's file" >"$work/wanted"
PARALLEL_SSH="ssh -F '$work/server/client'"
judge "words in PARALLEL_SSH" same 1 --sshlogin 2/one aes3-there "a line's file" 100000
PARALLEL_SSH=$work/server/ssh
judge "a program by its path" same 1 --sshlogin 2/one "$work/there/by path/the 'program'" "a line's file" 100000
judge "in one piece" same 1 --sshlogin 2/one aes3-there "a line's file"
judge "in small pieces" same 1 --sshlogin 4/one aes3-there "a line's file" 24576
# This machine beside another, where the program has the same path.
judge "here and there" same 1 --sshlogin 1/:,1/one "$work/there/by path/the 'program'" "a line's file" 100000
judge "each piece, here or there" test "$(calls)" = 8

for name in b a; do head -c 300000 "a line's file" >"$work/an archive/$name"; printf '\0' >>"$work/an archive/$name"; done
ln -s "$PWD/a line's file" "$work/an archive/c d"
for name in a b "c d"; do "$program" check --packed-in <"$work/an archive/$name" | sed "s/^/$name	/"; done >"$work/wanted"
judge "an archive" same 1 --sshlogin 2/one,2/two aes3-there "$work/an archive"
judge "its files are pieces" test "$(calls)" = 3

# What fails.
fails() { # STATUS SENTENCE WORDS..
    status=$1 sentence=$2
    shift 2
    "$split" "$@" >"$work/out" 2>"$work/err" </dev/null
    got=$?
    cat "$work/err"
    [ "$got" = "$status" ] && grep -qxF -e "$sentence" "$work/err"
}
judge "no program there" fails 127 "split: aes3-nowhere can't be run on each of these machines" --sshlogin 1/one aes3-nowhere "a line's file"
judge "a machine that is down" fails 127 "split: aes3-there can't be run on each of these machines" --sshlogin 1/one,1/down aes3-there "a line's file"
judge "a file of machines that there is not" fails 127 "split: aes3-there can't be run on each of these machines" --sshloginfile nothing aes3-there "a line's file"
printf '#!/bin/sh\necho "aes3 9.9.9"\n' >"$work/here it is/aes3-there"
chmod +x "$work/here it is/aes3-there"
PATH="$work/here it is:$PATH"
judge "another version here" fails 1 "split: aes3-there is not the same version of aes3 on each of these machines" --sshlogin 1/one,1/: aes3-there "a line's file"
printf '#!/bin/sh\n[ "$1" = --version ] && exec "%s" "$@"\necho whole at 0 before 0\nkill -9 $$\n' "$program" >"$work/there/aes3-dies"
chmod +x "$work/there/aes3-dies"
judge "a program that dies there" fails 3 "split: a piece was rejected, or its machine failed: what was said of it stands above" --sshlogin 1/one aes3-dies "a line's file" 100000
judge "words for ssh" fails 1 "split: 1/ssh -p $port one has words for ssh: they stand in ~/.ssh/config or in PARALLEL_SSH" --sshlogin "1/ssh -p $port one" aes3-there "a line's file"
printf '# mine\n1/ssh -p 5 one\n' >"words of mine"
judge "words for ssh in a file" fails 1 "split: words of mine has words for ssh: they stand in ~/.ssh/config or in PARALLEL_SSH" --sshloginfile "words of mine" aes3-there "a line's file"
judge "no value" fails 2 "split: --sshlogin needs a value" --sshlogin
tell
