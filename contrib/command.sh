# What the command does around the program. ./wqd reads this file, and the installed command has it inside. Both set
# `program`, the path of the program, and `version` first.

usage() {
    cat << 'END'
usage: wqd serve [--sockname PATH] [--interval MS] [--share P]
                 [--quiet-after S] [--workers N] [--start N] [--pid N]
       wqd sockname [the options of serve]
       wqd replay < SCRIPT
       wqd check FILE
       wqd --help | --version

  serve    watches directories, and answers clients on a Unix socket until one
           of them ends it
  sockname prints the path of the socket that serve takes with these options
  replay   reads a script, and writes what each client in it is sent
  check    says whether a program file may run, and what it can cost

  --sockname PATH   the path of the socket: at most 107 bytes, and that of its
                    directory at most 99. If left out, it is $WQD_SOCK, else
                    wqd.sock in $XDG_RUNTIME_DIR, else wqd.sock in a directory
                    of your own below $TMPDIR or /tmp
  --interval MS     the pause between two rounds of scans in milliseconds, 10
                    to 3600000; 1000 if left out
  --share P         how much of one processor rounds may take at most, in
                    percent, 1 to 100; no limit if left out. A query that
                    synchronises never waits for the pause that this makes
  --quiet-after S   with --share: after how many seconds without a change or a
                    request a root is scanned more seldom, 0 to 86400; 600 if
                    left out, and never with 0
  --workers N       how many threads a query may use, 1 to 16, or auto: one for
                    each processor, at most 4; 1 if left out
  --start N         the second of the start, and
  --pid N           the number of the process: they name this run in clock
                    ids. Each is 0 to 2^62, and filled in if left out

wq is the command that asks the server, and starts one if none runs.
END
}

# Writes a line as it is, with its backslashes.
say() {
    printf '%s\n' "$*"
}

# Answers the words that ask for help or the version, and ends then.
answer_help() {
    case "$#:${1-}:${2-}" in
        1:--help: | 1:-h: | 2:serve:--help | 2:sockname:--help | 2:replay:--help | 2:check:--help) usage; exit ;;
        1:--version:) say "wqd $version"; exit ;;
    esac
}

# Says which of the words is wrong, if one is. The program decides that too, and says no more than that its line is wrong.
word_fault() {
    case "${1-}" in
        '') say "there is no command; wqd --help says which there are" ;;
        replay) [ "$#" -eq 1 ] || say "replay takes no further words, and reads its script from standard input" ;;
        check) [ "$#" -eq 2 ] || say "check takes one file" ;;
        serve | sockname) shift; serve_fault "$@" ;;
        *) say "there is no command $1; wqd --help says which there are" ;;
    esac
}

serve_fault() {
    seen=
    while [ "$#" -gt 0 ]; do
        case "$1" in
            --sockname=* | --start=* | --pid=* | --interval=* | --share=* | --quiet-after=* | --workers=*) name=${1%%=*} value=${1#*=} ;;
            --sockname | --start | --pid | --interval | --share | --quiet-after | --workers)
                if [ "$#" -eq 1 ]; then say "$1 needs a value"; return; fi
                name=$1 value=$2
                shift ;;
            -*) say "serve has no option $1"; return ;;
            *) say "serve takes no further words: $1"; return ;;
        esac
        shift
        case "$seen" in *"$name "*) say "$name is given twice"; return ;; esac
        seen="$seen$name "
        value_fault || return
    done
}

# Says whether the value of a word is wrong, and fails then.
value_fault() {
    case "$name" in
        --start | --pid) is_number 0 4611686018427387904 || { say "$name takes a number from 0 to 2^62"; return 1; } ;;
        --interval) is_number 10 3600000 || { say "$name takes a number from 10 to 3600000"; return 1; } ;;
        --share) is_number 1 100 || { say "$name takes a number from 1 to 100"; return 1; } ;;
        --quiet-after) is_number 0 86400 || { say "$name takes a number from 0 to 86400"; return 1; } ;;
        --workers) [ "$value" = auto ] || is_number 1 16 || { say "$name takes a number from 1 to 16, or auto"; return 1; } ;;
    esac
}

# Whether the value is a decimal number in this range. What has more than 19 digits, or 5 and more as the first of 19, is
# beyond 2^62.
is_number() {
    case "$value" in
        '' | *[!0-9]* | 0?* | ????????????????????* | [5-9]??????????????????) return 1 ;;
    esac
    [ "$value" -ge "$1" ] && [ "$value" -le "$2" ]
}

# The path of the socket, if no word says it: the same as the clients take (clients/wqclient/sockets.py). A directory of the
# user's own is made if there is no other.
default_sockname() {
    if [ -n "${WQD_SOCK-}" ]; then
        absolute "$WQD_SOCK"
    elif is_own "${XDG_RUNTIME_DIR-}" && [ -w "$XDG_RUNTIME_DIR" ] && [ -x "$XDG_RUNTIME_DIR" ]; then
        say "$(absolute "$XDG_RUNTIME_DIR")/wqd.sock"
    else
        room=$(absolute "${TMPDIR:-/tmp}")/wqd-$(id -u)
        mkdir -m 700 "$room" 2> /dev/null
        if is_own "$room" && [ -n "$(find "$room" -prune -type d ! -perm /077)" ]; then
            say "$room/wqd.sock"
        else
            say "wqd: $room is no directory of yours alone" >&2
            return 1
        fi
    fi
}

absolute() {
    case "$1" in
        /*) say "${1%/}" ;;
        *) say "$PWD/${1%/}" ;;
    esac
}

# Whether a path names a directory of this user, to which no other user may write.
is_own() {
    [ -n "$1" ] && [ -d "$1" ] && [ -O "$1" ] && [ -n "$(find -H "$(absolute "$1")" -prune -type d ! -perm /022)" ]
}

# Whether one of the words, after the first, says this option.
has_option() {
    wanted=$1
    shift
    for word in "$@"; do
        case "$word" in "$wanted" | "$wanted"=*) return ;; esac
    done
    return 1
}

# The path after --sockname. Words after which there is a fault have none.
sockname_of() {
    while [ "$#" -gt 0 ]; do
        case "$1" in
            --sockname=*) printf %s "${1#*=}"; return ;;
            --sockname) printf %s "$2"; return ;;
        esac
        shift
    done
}

# Says why nobody can listen at this path, if that can be seen.
socket_fault() {
    case "$1" in
        */*) directory=${1%/*} directory=${directory:-/} ;;
        *) directory=. ;;
    esac
    if [ -z "$1" ]; then
        say "the path of the socket is empty"
    elif [ "$(printf %s "$1" | wc -c)" -gt 107 ]; then
        say "the path of the socket has over 107 bytes"
    elif [ "$(printf %s "$directory" | wc -c)" -gt 99 ]; then
        say "the path of the socket's directory has over 99 bytes"
    elif [ ! -d "$directory" ]; then
        say "there is no directory $directory"
    elif [ ! -w "$directory" ] || [ ! -x "$directory" ]; then
        say "you may not write into $directory"
    elif [ -S "$1" ] && [ ! -L "$1" ]; then
        if is_listened_on "$1"; then say "a server listens on $1 already"; fi
    elif [ -e "$1" ] || [ -L "$1" ]; then
        say "$1 is there already, and is no socket"
    fi
}

# Whether somebody listens on a socket, as far as python3 can tell. It takes no module of the current directory.
is_listened_on() {
    python3 -I -S -c '
import socket, sys
stream = socket.socket(socket.AF_UNIX)
stream.setblocking(False)
try:
    stream.connect(sys.argv[1])
except BlockingIOError:
    pass
except OSError:
    sys.exit(1)' "$1" 2> /dev/null
}

# How many threads `--workers auto` is: one for each processor that this process may use, and at most four.
usual_workers() {
    count=$(nproc 2> /dev/null || echo 1)
    if [ "$count" -gt 4 ]; then count=4; fi
    say "$count"
}

# Raises the limit of open files to 4,096, or as far as it may be: a client takes two, and a command of a trigger one.
raise_handles() {
    soft=$(ulimit -S -n)
    if [ "$soft" != unlimited ] && [ "$soft" -lt 4096 ]; then
        ulimit -S -n 4096 2> /dev/null || ulimit -S -n "$(ulimit -H -n)"
    fi
}

# Whether a command takes the settings of the server.
takes_settings() {
    [ "${1-}" = serve ] || [ "${1-}" = sockname ]
}

# Runs the program in place of this shell, so that it keeps the number of the process. What `serve` and `sockname` need and
# were not told is filled in first. If the program will refuse its words or its
# socket, it runs below the shell, which then says the reason.
# Memory that the program frees goes back to the system or is used again, whichever thread freed it, unless the
# environment says otherwise.
run() {
    if ! command -v "$program" > /dev/null; then
        say "wqd: there is no program at $program${WQD:+, which the variable WQD names}" >&2
        exit 1
    fi
    export MALLOC_ARENA_MAX="${MALLOC_ARENA_MAX:-2}" MALLOC_MMAP_THRESHOLD_="${MALLOC_MMAP_THRESHOLD_:-131072}"
    export GLIBC_TUNABLES="${GLIBC_TUNABLES:-glibc.malloc.tcache_count=0}"
    refused=2
    fault=$(word_fault "$@")
    if [ -z "$fault" ] && takes_settings "$@"; then
        if ! has_option --sockname "$@"; then
            sockname=$(default_sockname) || exit 1
            set -- "$@" --sockname "$sockname"
        fi
        last=
        for word in "$@"; do
            shift
            case "$last $word" in
                '--workers auto') word=$(usual_workers) ;;
                *' --workers=auto') word=--workers=$(usual_workers) ;;
            esac
            last=$word
            set -- "$@" "$word"
        done
        has_option --start "$@" || set -- "$@" --start "$(date +%s)"
        has_option --pid "$@" || set -- "$@" --pid $$
    fi
    if [ -z "$fault" ] && [ "$1" = serve ]; then
        refused=1
        raise_handles
        fault=$(socket_fault "$(sockname_of "$@")")
    fi
    if [ -z "$fault" ]; then exec "$program" "$@"; fi
    "$program" "$@"
    status=$?
    if [ "$status" -eq "$refused" ]; then
        say "wqd: $fault" >&2
        # The journal of systemd asks whose a line is while it reads it, and loses one of a process that has gone.
        if [ -n "${JOURNAL_STREAM-}" ]; then sleep 1; fi
    fi
    exit "$status"
}
