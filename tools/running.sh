# shellcheck shell=sh
# How a script gives up, and how it ends what it started when it is told to end.
# Read with '.', from the root of the repository or of what was installed.

name=$(basename "$0")

# Says what keeps the script from going on, and ends it.
give_up() {
    echo "$name: $*" >&2
    exit 2
}

# Waits for a process, or a group of processes with a minus sign before its number, and ends it where this script is told to end.
attended=''
attend() {
    attended=$1
    wait "${1#-}"
    attended_status=$?
    attended=''
    return "$attended_status"
}

# Ends what is attended, and then this script by the signal that told it to.
stop() {
    if [ -n "$attended" ]; then
        kill -s TERM -- "$attended" 2>/dev/null
        wait "${attended#-}"
    fi
    trap - "$1"
    kill -s "$1" "$$"
}
for signal in HUP INT QUIT TERM; do
    # shellcheck disable=SC2064
    trap "stop $signal" "$signal"
done
