#!/bin/sh
# Runs the program until each exit status that a machine can bring about, and compares. Four aren't brought about: 5, want of memory; 8,
# since the journal of a drill has what its threads tell; 9, which comes only after 2^40 bytes; and 12, of a file of 2^50 bytes.
#
#     statuses.sh PROGRAM
#
# Those of a connection want python3, which plays the servers: one that isn't there, one that ends, one that answers an error.

program=$1
failed=0

# NAME, the wanted status, and the status that came.
expect() {
    if [ "$3" -ne "$2" ]; then
        echo "statuses: $1: status $3 in place of $2"
        failed=1
    fi
}

printf 'PING\r\n' | "$program" pipe >/dev/null
expect 'an input that ends between two commands' 0 $?
printf 'QUIT\r\nPING "\r\n' | "$program" pipe >/dev/null
expect 'an accepted QUIT before a fault' 0 $?
printf 'PING "x"\r\n' | "$program" pipe >/dev/null
expect 'a fault of the stream' 1 $?
printf '*1\r\n$4\r\nPI' | "$program" pipe >/dev/null
expect 'an input that ends inside a command' 1 $?
"$program" </dev/null 2>/dev/null
expect 'no word' 2 $?
"$program" pipe pipe </dev/null 2>/dev/null
expect 'a word too many' 2 $?
"$program" pipe </ >/dev/null
expect 'a read that fails' 3 $?
if [ -w /dev/full ]; then
    printf 'PING\r\n' | "$program" pipe >/dev/full
    expect 'a write that fails' 4 $?
fi
# A store that a file keeps: WHAT, the status, what is written, the commands and the words behind `pipe`.
log() {
    what=$1 status=$2 wanted=$3 commands=$4
    shift 4
    said=$(printf "$commands" | "$program" pipe "$@" 2>/dev/null)
    expect "$what" "$status" $?
    [ "$said" = "$(printf -- "$wanted")" ] || { echo "statuses: $what: '$said' in place of '$wanted'"; failed=1; }
}
kept=$(mktemp -d)
log 'a file that is made' 0 ':1\r' 'LPUSH jobs one\r\n' --log "$kept/log"
size=$(wc -c <"$kept/log")
log 'the same file again' 0 ':1\r' 'LLEN jobs\r\n' --log="$kept/log"
[ "$(wc -c <"$kept/log")" -eq "$size" ]
expect 'a file that only reads leave as it is' 0 $?
log 'a fault of the stream behind a file' 1 '-ERR Protocol error: quotes in inline request\r' 'PING "x\r\n' --log "$kept/log"
log 'a folder that is not there' 10 '' 'PING\r\n' --log "$kept/none/log"
log 'a folder in place of a file' 10 '' 'PING\r\n' --log "$kept"
printf abc >"$kept/abc"
log 'a file that is no log' 11 'not a log' 'PING\r\n' --log "$kept/abc"
[ "$(cat "$kept/abc")" = abc ]
expect 'a file that is no log stays as it is' 0 $?
printf 'SKLOG001\001\000\000\000\001x\000' >"$kept/damaged"
log 'a file that is damaged' 11 'damaged at 8' 'PING\r\n' --log "$kept/damaged"
log 'no file behind --log' 2 '' 'PING\r\n' --log
log 'an empty name of a file' 2 '' 'PING\r\n' --log ''
log 'a word behind the file' 2 '' 'PING\r\n' --log "$kept/log" more
"$program" serve --log "$kept" </dev/null 2>/dev/null
expect 'a server over a folder in place of a file' 10 $?
"$program" serve --log "$kept/abc" </dev/null >/dev/null 2>&1
expect 'a server over a file that is no log' 11 $?
"$program" serve --log "$kept/damaged" </dev/null >/dev/null 2>&1
expect 'a server over a file that is damaged' 11 $?
"$program" serve --log </dev/null 2>/dev/null
expect 'a server with no file behind --log' 2 $?
"$program" serve --log "$kept/log" --sync </dev/null 2>/dev/null
expect 'a server with no time behind --sync' 2 $?
"$program" serve --sync always </dev/null 2>/dev/null
expect 'a server that has no file to sync' 2 $?
mkfifo "$kept/commands"
"$program" pipe --log "$kept/log" <"$kept/commands" >"$kept/replies" 2>/dev/null &
exec 3>"$kept/commands"
printf 'PING\r\n' >&3
until [ -s "$kept/replies" ]; do sleep 0.05; done
log 'a file that another process has open' 10 '' 'PING\r\n' --log "$kept/log"
exec 3>&-
wait $!
expect 'the process that had it' 0 $?
rm -rf "$kept"
"$program" serve --port 0 </dev/null 2>/dev/null
expect 'a port of 0' 2 $?
"$program" serve --loops 65 </dev/null 2>/dev/null
expect 'more loops than there may be' 2 $?
"$program" push Note '{}' </dev/null 2>/dev/null
expect 'arguments that are no array' 2 $?
"$program" push Note "$(printf '\377')" </dev/null 2>/dev/null
expect 'a word that is no UTF-8' 2 $?
# WHAT IS NAMED, its value, and the words: status 2, nothing on standard output, and a line that names both.
range() {
    named=$1 value=$2
    shift 2
    told=$("$program" "$@" 2>&1 >/dev/null </dev/null)
    expect "$*" 2 $?
    case $told in
    *"$named can't be '$value'"*) ;;
    *) echo "statuses: $*: told '$told'"; failed=1 ;;
    esac
}
range --port 70000 serve --port 70000
range --loops 65 serve --loops 65
range --sessions -1 serve --sessions=-1
range --log '' serve --log ''
range --sync 0 serve --log jobs.log --sync 0
range --sync 3600001 serve --log jobs.log --sync 3600001
range --sync -1 serve --log jobs.log --sync=-1
range --sync often serve --log jobs.log --sync often
range --sync 1000 serve --sync 1000
range --threads 17 work --threads 17
range --queues a,a work --queues a,a
range --prefetch 0 work --prefetch 0
range --offset +60 work --offset +60
range --ident '' work --ident ''
range CRON '0 3 * * Note default' work '0 3 * * Note default'
range --at tomorrow push --at tomorrow Note '[1]'
range --retry 1.5 push --retry 1.5 Note '[1]'
range --unique 0 push --unique 0 Note '[1]'
range ARGS '{"a":1}' push Note '{"a":1}'
range CLASS '' push '' '[1]'
range --port x status --port x
range JOBS 0 soak 1 0
range WORKERS 17 drill 1 1 17 0
[ "$("$program" --version 2>/dev/null)" = 'sidekiq 0.1.0' ]
expect 'the version' 0 $?
if [ -w /dev/full ]; then
    "$program" status --port 1 </dev/null 2>/dev/full
    expect 'no server, and a log that is full' 6 $?
fi
help() {                                # WHAT FRONT WORD.. : it begins so, on standard output, with status 0
    what=$1 front=$2
    shift 2
    text=$("$program" "$@" 2>/dev/null)
    expect "$what" 0 $?
    case $text in "$front"*) ;; *) false ;; esac
    expect "$what, its text" 0 $?
}
help 'the help of the program' 'usage: sidekiq pipe ' --help
help 'the same, in short' 'usage: sidekiq pipe ' -h
help 'the same, by a command' 'usage: sidekiq pipe ' help
"$program" pipe --help 2>/dev/null | grep -q '^Usage: sidekiq pipe '
expect 'the help of the pipe' 0 $?
"$program" work --help 2>/dev/null | grep -q '^Usage: sidekiq work '
expect 'the help of a command' 0 $?
"$program" help work 2>/dev/null | grep -q '^Usage: sidekiq work '
expect 'the help of a command, by its name' 0 $?
"$program" push --help >/dev/null 2>&1
expect 'the help of a command, its status' 0 $?
"$program" push --port 1 Note -- --help 2>/dev/null
expect 'no help behind --' 2 $?
first=$("$program" soak 1 1)
expect 'a run of one job' 0 $?
[ "$first" = "$("$program" soak 1 1)" ]
expect 'the same run again' 0 $?
"$program" soak 1 0 2>/dev/null
expect 'a run of no job' 2 $?
"$program" soak 18446744073709551616 1 2>/dev/null
expect 'a seed of 65 bits' 2 $?
"$program" drill 3 200 4 8 >/dev/null
expect 'a drill of four workers with crashes' 0 $?
"$program" drill 7 50 16 1000 >/dev/null
expect 'a drill of sixteen workers' 0 $?
"$program" drill 1 1 17 0 2>/dev/null
expect 'more workers than there are teams' 2 $?
"$program" drill 1 20001 1 0 2>/dev/null
expect 'more jobs than a drill has' 2 $?
"$program" limit hold stripe 0 1 </dev/null 2>/dev/null
expect 'a limiter of no slot' 2 $?
"$program" limit take stripe 1 1 </dev/null 2>/dev/null
expect 'a limiter asked for something else' 2 $?
"$program" iterate j 1000001 </dev/null 2>/dev/null
expect 'more items than an iteration has' 2 $?
if command -v python3 >/dev/null; then
    # A server for one connection, which answers this to whatever comes; its port is printed first.
    peer() {
        python3 -c '
import socket, sys
it = socket.socket(); it.bind(("127.0.0.1", 0)); it.listen(1); print(it.getsockname()[1], flush=True)
conn, _ = it.accept(); conn.recv(65536); conn.sendall(sys.argv[1].encode()); conn.close()' "$1"
    }
    free=$(python3 -c 'import socket; it = socket.socket(); it.bind(("127.0.0.1", 0)); print(it.getsockname()[1])')
    "$program" status --port "$free" >/dev/null 2>&1
    expect 'no server' 6 $?
    "$program" limit hold stripe 1 1 --port "$free" >/dev/null 2>&1
    expect 'no server that keeps a limiter' 6 $?
    "$program" iterate j 1 --port "$free" >/dev/null 2>&1
    expect 'no server that keeps a cursor' 6 $?
    try() {
        room=$(mktemp -d)
        peer "$3" >"$room/port" &
        until [ -s "$room/port" ]; do sleep 0.05; done
        said=$("$program" push Note '[1]' --port "$(cat "$room/port")" 2>/dev/null)
        expect "$1" "$2" $?
        [ "$said" = "$4" ] || { echo "statuses: $1: '$said' in place of '$4'"; failed=1; }
        wait
        rm -rf "$room"
    }
    try 'a server that ends' 6 '' 'unreadable '
    try 'a server that speaks otherwise' 6 '?' 'unreadable 3f'
    try 'a store that is full' 7 "-SK full$(printf '\r\n_')" 'SK full'
fi
[ "$failed" -eq 0 ] && echo 'statuses: each as it should be'
exit "$failed"
