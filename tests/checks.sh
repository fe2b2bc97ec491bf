# shellcheck shell=sh
# What the scripts of tests/ count their checks with. Read with '.', from the root of the repository.

checks=0
different=0

# Counts one check, and tells of it where it does not hold: WHAT, and then whether it holds, as the status of a test.
settle() {
    checks=$((checks + 1))
    if [ "$2" -ne 0 ]; then
        different=$((different + 1))
        echo "differs: $1"
    fi
}

# Counts one check that a command makes: WHAT, COMMAND.
settle_by() {
    settled=$1
    shift
    if "$@"; then settle "$settled" 0; else settle "$settled" 1; fi
}

# Counts one comparison of files, and shows the first lines of both where they differ: WHAT, PRINTED, EXPECTED.
settle_files() {
    settle_by "$1" cmp -s "$2" "$3"
    cmp -s "$2" "$3" || { echo 'printed:' && head -n 10 "$2" && echo 'expected:' && head -n 10 "$3"; }
}

# Tells how many checks there were, and whether they are enough and all hold: WHAT was checked, how many there are at least.
close_checks() {
    echo "$checks $1, $different differ"
    [ "$checks" -ge "$2" ] && [ "$different" -eq 0 ]
}
