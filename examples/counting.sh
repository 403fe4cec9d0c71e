# What the checks of this folder count and tell: each sources this, in sh or in bash.
#
#   begins NAME             makes $room, a folder that goes away with the check however it ends; NAME stands in front of what is told
#   holds WHAT COMMAND..    the command ends well; what it prints is shown where it doesn't
#   may_hold WHAT COMMAND.. the same; with status 77 it says last what isn't here, and is skipped
#   same WHAT WANTED GOT    two texts are the same
#   passed                  something that was tried by other means passed,
#   failed WHAT [WHY]       or failed,
#   skipped WHAT WHY        or couldn't be tried here
#   counted WHAT COMMAND..  a check of its own, which ends as this one will: what it counts is counted here
#   tested WHAT COMMAND..   tests of Python's unittest, which the command runs with -v: each that passes, fails or is skipped is counted
#   ended                   prints 'N passed, M failed', and ', K skipped' behind it where some were; the status is 1 where something failed
#
# shellcheck shell=sh disable=SC3043  # (`local` is known to dash and busybox, too)

begins() {
    about=$1 passes=0 failures=0 skips=0 room=
    export PYTHONDONTWRITEBYTECODE=1
    trap 'rm -rf "$room"' EXIT
    # (of itself a signal ends sh without the line above)
    trap 'exit 129' HUP
    trap 'exit 130' INT
    trap 'exit 143' TERM
    room=$(mktemp -d) || exit
}

passed() { passes=$((passes + 1)); }

failed() {
    printf '%s\n' "$about: $1: ${2:-failed}"
    failures=$((failures + 1))
}

skipped() {
    printf '%s\n' "$about: $1: skipped: $2"
    skips=$((skips + 1))
}

holds() {
    local what="$1"
    shift
    if "$@" >"$room/said" 2>&1; then
        passed
    else
        cat "$room/said"
        failed "$what"
    fi
}

may_hold() {
    local what="$1"
    shift
    "$@" >"$room/said" 2>&1
    case $? in
        0) passed ;;
        77) skipped "$what" "$(tail -n 1 "$room/said")" ;;
        *) cat "$room/said" && failed "$what" ;;
    esac
}

same() {
    if [ "$2" = "$3" ]; then passed; else failed "$1" "$(printf "wanted '%.200s', got '%.200s'" "$2" "$3")"; fi
}

counted() {
    local what="$1" printed status last
    shift
    printed=$("$@")
    status=$?
    last=$(printf '%s\n' "$printed" | tail -n 1)
    if printf '%s\n' "$last" | grep -Eqx '[0-9]+ passed, [0-9]+ failed(, [0-9]+ skipped)?'; then
        printf '%s\n' "$printed" | sed '$d'
        # shellcheck disable=SC2046  # its numbers, one by one
        set -- $(printf '%s\n' "$last" | tr -cd '0-9 ')
        passes=$((passes + $1)) failures=$((failures + $2)) skips=$((skips + ${3:-0}))
        if [ "$2" = 0 ] && [ "$status" != 0 ]; then failed "$what" "status $status, though nothing failed"; fi
    else
        if [ -n "$printed" ]; then printf '%s\n' "$printed"; fi
        failed "$what" "broken off, status $status"
    fi
}

tested() {
    local what="$1" status ran bad reason
    shift
    "$@" >"$room/said" 2>&1
    status=$?
    ran=$(sed -n 's/^Ran \([0-9]*\) tests\{0,1\} in .*/\1/p' "$room/said" | tail -n 1)
    bad=$(sed -n 's/^FAILED (\(.*\))$/\1/p' "$room/said" | tail -n 1 | tr ',' '\n' | sed -n 's/^ *\(failures\|errors\|unexpected successes\)=//p')
    # (a sum; a test with parts may fail in several)
    # shellcheck disable=SC2086  # (one by one)
    bad=$(($(printf '%s+' $bad)0))
    if [ "$bad" -gt "${ran:=0}" ]; then bad=$ran; fi
    if [ "$status" != 0 ]; then
        cat "$room/said"
        failed "$what"
        failures=$((failures + (bad > 0 ? bad - 1 : 0)))
    elif [ "$ran" = 0 ]; then
        failed "$what" "no test ran"
    fi
    passes=$((passes + ran - bad))
    # (what a test skips is told behind its name, or behind the line that says what it shows)
    sed -n "s/^.*\.\.\. skipped '\(.*\)'$/\1/p; s/^.*\.\.\. skipped \"\(.*\)\"$/\1/p" "$room/said" >"$room/skipped"
    while read -r reason; do
        skipped "$what" "$reason"
        passes=$((passes - 1))
    done <"$room/skipped"
}

ended() {
    if [ "$skips" = 0 ]; then echo "$passes passed, $failures failed"; else echo "$passes passed, $failures failed, $skips skipped"; fi
    [ "$failures" = 0 ]
}
