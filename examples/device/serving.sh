# shellcheck shell=bash
# Functions for the scripts of this folder. `need TOOL PACKAGE ..` ends the script with status 77 where a tool isn't there; `serve KEY=VALUE ..`
# starts ../disk/relay.py, `unserve` ends it and prints its report in one line, `fails` ends the script with what it said. $pcm is the program; $dir is a folder
# that goes away with the shell, and with it all that was started.
here=$(cd "$(dirname "${BASH_SOURCE[0]}")" && pwd)
server=
dir=$(mktemp -d -t pcm-device.XXXXXX)
trap 'unserve >/dev/null 2>&1; rm -rf "$dir"' EXIT
trap 'exit 1' INT TERM HUP
uri="nbd+unix:///?socket=$dir/sock"

need() {
    while [ $# -gt 1 ]; do
        if ! command -v "$1" >/dev/null; then
            echo "$(basename "$0"): $1 isn't here (Debian: apt-get install $2)" >&2
            exit 77
        fi
        shift 2
    done
}

serve() {
    need python3 python3 nbdinfo libnbd-bin
    rm -f "$dir/report" "$dir/sock"
    "$here/../disk/relay.py" "$dir/sock" pcm="$pcm" report="$dir/report" "$@" 2>"$dir/err" &
    server=$!
    while [ ! -e "$dir/sock" ] && kill -0 "$server" 2>/dev/null; do sleep 0.02; done
    if [ -e "$dir/sock" ]; then return; fi
    wait "$server"
    server=
    cat "$dir/err" >&2
    return 1
}

fails() {
    cat "$dir/err" >&2
    exit 1
}

unserve() {
    if [ -z "$server" ]; then return; fi
    kill "$server" 2>/dev/null
    wait "$server"
    server=
    paste -sd' ' "$dir/report"
}
