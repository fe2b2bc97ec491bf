# shellcheck shell=sh
# The run command and the system around it: links, folders, closed descriptors, a full device, little memory.
# Read by tests/run_command with '.', which has the functions and names that are used here.

# Links, folders, closed descriptors, a full device.
ln -sf "$PWD/desk" "$work/linked"
(cd / && exec env PATH="$work:$PATH" CDPATH=/:/tmp linked "$OLDPWD/$a") >"$work/printed" 2>"$work/said"
status=$?
ended 'through a link on the PATH, with CDPATH, from another folder' 1 "$a_out" ''
: >"$work/printed"
./desk "$a" >&- 2>"$work/said"
status=$?
troubled 'standard output closed' 'standard output is closed'
./desk <&- >"$work/printed" 2>"$work/said"
status=$?
troubled 'standard input closed' 'standard input: Bad file descriptor'
: >"$work/printed"
./desk "$a" >/dev/full 2>"$work/said"
status=$?
troubled 'a full device' 'standard output: No space left on device'
desk <tests
troubled 'a folder as standard input' 'standard input: Is a directory'
./desk judge "$passing.sheet" <&- 2>&- >"$work/printed"
status=$?
: >"$work/said"
ended 'a named sheet with standard input and standard error closed' 0 "$passing.out" ''
./desk write examples/relay_box.txt "$work/box" <&- 2>&- >"$work/printed" && cmp -s "$work/box" examples/only_lowered_pass.sheet
settle 'a sheet written with standard input and standard error closed' $?

# Where memory is short the answer is right or there is trouble, and no part of an answer is printed.
for size in 800 1200 1600 2000 2400 2800 3200 3600 4000 8000; do
    # shellcheck disable=SC3045
    (ulimit -v "$size" && exec ./desk "$a") >"$work/printed" 2>"$work/said"
    status=$?
    if [ "$status" -ne 1 ]; then
        [ "$status" -ge 2 ] && ! [ -s "$work/printed" ] && [ -s "$work/said" ]
    else
        cmp -s "$work/printed" "$a_out"
    fi
    settle "$size KiB of memory (status $status)" $?
done
