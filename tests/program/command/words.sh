# shellcheck shell=sh
# The run command and its words: statuses, refusals and their explanations, options and operands.
# Read by tests/run_command with '.', which has the functions and names that are used here.

# Statuses, and refusals in words.
desk "$a"
ended 'a late task' 1 "$a_out" ''
desk "$passing.sheet"
ended 'a passing sheet' 0 "$passing.out" ''
desk tests/program/runs/refused_5_interval_0.sheet
ended 'a refused sheet' 2 tests/program/runs/refused_5_interval_0.out ''
desk --explain tests/program/runs/refused_5_interval_0.sheet
ended 'a refused sheet explained' 2 tests/program/runs/refused_5_interval_0.out 'desk: the fault interval E is 0'

# Spoils one byte of a sheet: SHEET, OFFSET, VALUE in octal, then what should be explained.
explains() {
    cp "$1" "$work/spoilt"
    # shellcheck disable=SC2059
    printf "\\$3" | dd of="$work/spoilt" bs=1 seek="$2" conv=notrunc 2>/dev/null
    desk --explain "$work/spoilt"
    [ "$status" -eq 2 ] && [ "$(cat "$work/said")" = "desk: $4" ]
    settle "byte $2 of $1 set to $3 explained" $?
}
explains "$a" 0 000 'the task count, the first four bits, is 0 or above 8'
explains "$a" 0 062 'the reserved bits, the second four, are above 1'
explains "$a" 0 040 'the length is not 3 bytes, or 7 in the edition with a share, and 9 for each task'
explains "$a" 4 000 'record 1: the cost C is 0 or above the deadline D'
explains "$a" 13 000 'record 2: the cost C is 0 or above the deadline D'
explains "$a" 24 000 'record 3: the backup cost B is 0 or above the deadline D'
explains "$a" 28 001 'record 3: the deadline D is above the period T'
explains "$a" 20 043 'record 2: the fault priority q is outside 1 to the priority p'
explains "$a" 29 042 'record 3: the priority p is outside 1 to the task count, or an earlier record has it'
explains "$a" 11 064 'record 1: the fault priority q is outside 1 to the priority p'
explains "$shared" 6 024 'the share S is 0 or not below the round Q'
explains "$shared" 0 060 'the length is not 3 bytes, or 7 in the edition with a share, and 9 for each task'
explains "$shared" 17 000 'record 2: the cost C is 0 or above the deadline D'
explains "$shared" 33 042 'record 3: the priority p is outside 1 to the task count, or an earlier record has it'
desk --explain tests/program/runs/refused_1_six_bytes_of_the_second_edition.sheet
ended 'six bytes of the second edition explained' 2 tests/program/runs/refused_1_six_bytes_of_the_second_edition.out \
    'desk: the sheet has fewer than 3 bytes, or fewer than 7 in the edition with a share'

# Options and operands.
desk <"$a"
ended 'standard input' 1 "$a_out" ''
desk - <"$a"
ended 'a dash' 1 "$a_out" ''
desk -- "$a"
ended 'a double dash' 1 "$a_out" ''
desk --help
[ "$status" -eq 0 ] && cmp -s "$work/printed" tools/help.txt
settle '--help' $?
for word in judge interval replay check mend assured cores release write show help install uninstall; do
    desk help "$word"
    [ "$status" -eq 0 ] && grep -q "^./desk \[*$word" "$work/printed" && grep -q "^## .*$word\|^. ../desk .*$word" docs/COMMANDS.md
    settle "help $word, and its part of docs/COMMANDS.md" $?
done
desk --version
[ "$status" -eq 0 ] && [ "$(cat "$work/printed")" = "fidhaqooban $(our_version)
$(rt version)" ] && grep -q "version $(our_version)" README.md
settle '--version, and the same in README' $?
desk --no-such-option
troubled 'an unknown option' 'no option --no-such-option'
desk no_such_file
troubled 'a file that is not there' 'no_such_file: No such file or directory'
desk tests
troubled 'a folder' 'tests: Is a directory'
desk "$a" "$a"
troubled 'two sheets' 'one SHEET at a time'
