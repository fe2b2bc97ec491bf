# shellcheck shell=sh
# The run command in a fresh clone: builds at once, builds that fail or are stopped, signals.
# Read by tests/run_command with '.', which has the functions and names that are used here.

# Becomes the copy's command with no signal ignored, whatever this script was started with; all that it starts bears a mark: WORDS.
trial=0
unignored() {
    # shellcheck disable=SC2016
    exec perl -e '$SIG{$_} = "DEFAULT" for qw(HUP INT QUIT TERM); exec @ARGV' env "FQ_TRIAL=$$.$trial" "$@"
}

# Whether nothing is left of what was marked last, once it had the time to end.
none_marked() {
    ! grep -qszxF "FQ_TRIAL=$$.$trial" /proc/[0-9]*/environ
}
none_left() {
    await none_marked
    none_marked
}

# Stops the copy's command by a signal once a file shows that it has come so far, and looks for what is left: WHEN, SIGNAL, FILE, SHEET.
stops() {
    trial=$((trial + 1))
    unignored "$copy/desk" "$4" >/dev/null 2>&1 &
    stopped=$!
    await test -e "$3"
    kill -s "$2" "$stopped"
    wait "$stopped" 2>/dev/null
    [ $? -gt 128 ] && none_left
    settle "$2 during $1" $?
}

# A stand-in for what builds the programs, so that builds are short: it takes a second, says that two crates are proved, and fails where it
# is told to.
copy=$work/copy
rm -rf "$copy"
mkdir -p "$copy/crates"
cp -R desk tools include crates.txt "$copy/"
cat >"$copy/tools/prove" <<END
#!/bin/sh
echo "\$1" >>"$copy/builds"
: >"$copy/begun"
echo "built: sheet proved (3 s)"
sleep 1 || exit 1
[ ! -e "$copy/failing" ] || { echo "this build fails"; exit 1; }
echo "built: streams proved (unchanged since it was last proved)"
made=$(program_of "\$1")
mkdir -p "\$(dirname "\$made")" && cp "$PWD/\$made" "\$made"
END
cp "$copy/tools/prove" "$copy/tools/native"

# Runs the copy's run command.
copied() {
    "$copy/desk" "$@"
}

: >"$copy/builds"
copied "$a" >"$work/first" 2>/dev/null &
first=$!
copied "$a" >"$work/second" 2>/dev/null
second_status=$?
wait "$first"
[ $? -eq 1 ] && [ "$second_status" -eq 1 ] && cmp -s "$work/first" "$a_out" && cmp -s "$work/second" "$a_out"
settle 'two at once in a fresh clone' $?
[ "$(cat "$copy/builds")" = judge ]
settle 'two at once build once' $?
copied "$a" >"$work/printed" 2>"$work/said"
status=$?
ended 'a third run builds nothing' 1 "$a_out" ''
copied show "$a" >"$work/printed" 2>"$work/said"
status=$?
ended 'another command, which builds the other program and tells of each crate' 0 "${a%.sheet}.txt" \
    "desk: proving and building $(program_of desk), which takes some minutes the first time
desk: sheet proved (1 of $(crates_below desk | wc -l), 3 s)
desk: streams proved (2 of $(crates_below desk | wc -l), unchanged since it was last proved)"
copied show "$a" >"$work/printed" 2>"$work/said"
status=$?
ended 'another command again, which builds nothing' 0 "${a%.sheet}.txt" ''
touch "$copy/failing" "$copy/crates.txt"
for turn in first second; do
    copied "$a" >"$work/printed" 2>"$work/said"
    [ $? -eq 2 ] && ! [ -s "$work/printed" ] && grep -q 'this build fails' "$work/said"
    settle "a failed build, $turn time" $?
done
rm "$copy/failing"
for signal in TERM INT HUP; do
    touch "$copy/crates.txt"
    rm -f "$copy/begun"
    stops 'the build' "$signal" "$copy/begun" "$a"
done
copied "$a" >"$work/printed" 2>/dev/null
[ $? -eq 1 ] && cmp -s "$work/printed" "$a_out"
settle 'after stopped builds' $?
mkfifo "$work/silent" 2>/dev/null
for signal in TERM INT HUP; do
    rm -f "$work/opened"
    # The writer's end opens when the program opens the other one.
    (: >"$work/opened" && exec sleep 5) >"$work/silent" &
    writer=$!
    stops 'the run' "$signal" "$work/opened" "$work/silent"
    kill "$writer"
done
chmod -R a-w "$copy"
if [ "$(id -u)" -eq 0 ]; then
    chmod u+w "$copy" && rm -rf "$copy/target" && chmod a-w "$copy"
    chmod -R a+rX "$copy"
    setpriv --reuid 65534 --clear-groups "$copy/desk" <"$a" >"$work/printed" 2>"$work/said"
    status=$?
    troubled 'a checkout that is not writable' 'is not writable'
fi
chmod -R u+w "$copy"
copied "$a" >/dev/null 2>&1
: >"$copy/$(program_of judge)"
copied "$a" >"$work/printed" 2>"$work/said"
[ $? -eq 2 ] && ! [ -s "$work/printed" ] && grep -q 'desk: the program did not start' "$work/said"
settle 'a program that does not start' $?
