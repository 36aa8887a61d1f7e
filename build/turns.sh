# For `citrus` and the gate to read in: one of them builds at a time, and a signal ends what they started.
# shellcheck shell=bash

# Waits until no other call that builds runs in the repository at this path, which it says in these words.
take_turn() {
    exec 9<"$1/crates" || return
    hash flock 2>/dev/null || return 0
    flock -n 9 && return
    printf '%s\n' "$2" >&2
    flock 9
}

give_turn() {
    exec 9<&-
}

# Runs these words in a process group of their own, and hands on their status. A signal to this shell is passed on to them once, whether it
# came from a terminal or to this shell alone. They take no part in its turn, lest what they leave running keeps it.
exec_in_turn() {
    local started status came=''
    set -m
    "$@" <&0 9<&- &
    started=$!
    set +m
    trap 'came=INT' INT
    trap 'came=TERM' TERM
    trap 'came=HUP' HUP
    wait "$started"
    status=$?
    # A wait ends at a signal, or when what was started has.
    while [ -n "$came" ]; do
        kill -s "$came" -- "-$started" 2>/dev/null
        came=''
        wait "$started"
        status=$?
    done
    trap - INT TERM HUP
    return "$status"
}
